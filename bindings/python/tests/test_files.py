"""Raw planes and vector files, and the decoders' own planes where they are at hand."""
import os
import tempfile
import unittest
from array import array
from pathlib import Path

import cironetop
from cironetop import Frame, Scaling, Unit, _files

VECTORS = Path(os.environ.get('CIRONETOP_VECTORS') or Path(__file__).resolve().parents[4] / 'shared' / 'vectors')
AT_HAND = unittest.skipUnless(
    VECTORS.is_dir() or os.environ.get('CI') == 'true', "the decoders' planes are not at hand: CIRONETOP_VECTORS names their folder"
)


def numbers(length, step, largest):
    return array('i', [place * step % (largest + 1) for place in range(length)])


def records():
    """A restoration at 8 bits and one at 12 with differences that wrap, and an upscaling."""
    for depth in (8, 12):
        planes = [numbers(12, step, (1 << depth) - 1) for step in (7, 2741, 3001)]
        yield _files.Restoration(Frame(1, 1, 1, depth, 5, 7, 32, 2), array('i', Unit.self_guided(3, -96, 95)), *planes)
    yield _files.Upscaling(Scaling(0, 0, 0, 10, 3, 5, 2, 1, 2, 8, 2, 5), 1, numbers(16, 77, 1023), numbers(10, 13, 1023))


class Files(unittest.TestCase):
    def setUp(self):
        folder = tempfile.TemporaryDirectory()
        self.addCleanup(folder.cleanup)
        self.folder = Path(folder.name)

    def test_vector_files_come_back(self):
        for name in ('a.vec', 'a.vec.xz'):
            _files.write(self.folder / name, records())
            self.assertEqual(_files.read(self.folder / name), list(records()))

    def test_raw_planes_come_back(self):
        _files.write_raw(self.folder / 'a.raw', [0, 255, 256, 4095])
        self.assertEqual((self.folder / 'a.raw').read_bytes(), bytes([0, 0, 255, 0, 0, 1, 255, 15]))
        self.assertEqual(_files.read_raw(self.folder / 'a.raw').tolist(), [0, 255, 256, 4095])
        _files.write_raw(self.folder / 'u.raw', [-1, -96, 31])
        self.assertEqual(_files.read_raw(self.folder / 'u.raw', signed=True).tolist(), [-1, -96, 31])

    def test_damaged_files_are_told(self):
        _files.write(self.folder / 'a.vec', records())
        whole = (self.folder / 'a.vec').read_bytes()
        for damaged, text in (
            (whole[:-1], 'ends inside a record'),
            (whole + b'XXXX', 'starts with'),
            (whole[:8] + b'\x07' + whole[9:], 'numbers of 7 bytes'),
            (b'\xfd7zXZ\x00junk', ''),
        ):
            (self.folder / 'b.vec').write_bytes(damaged)
            with self.assertRaisesRegex(ValueError, text):
                _files.read(self.folder / 'b.vec')
        (self.folder / 'c.raw').write_bytes(b'abc')
        with self.assertRaisesRegex(ValueError, '3 bytes'):
            _files.read_raw(self.folder / 'c.raw')

    @AT_HAND
    def test_decoders_planes(self):
        restored = upscaled = 0
        for file in sorted((VECTORS / 'planes').glob('*.vec.xz')):
            for place, record in enumerate(_files.read(file)):
                if isinstance(record, _files.Restoration):
                    self.assertEqual(cironetop.restore_plane(*record[:4]).plane, record.restored, f'{file.name}, record {place}')
                    restored += 1
                else:
                    self.assertEqual(cironetop.upscale_plane(record.scaling, record.input), record.output, f'{file.name}, record {place}')
                    upscaled += 1
        self.assertTrue(restored and upscaled)

    @AT_HAND
    def test_decoders_planes_in_place(self):
        records = [record for file in sorted((VECTORS / 'planes').glob('*.vec.xz'))[::7] for record in _files.read(file)]
        restorations = [record for record in records if isinstance(record, _files.Restoration)]
        for frame, units, deblocked, plane, restored in restorations:
            edges, marks = cironetop.capture_edges(frame, deblocked), bytearray(cironetop.count(frame).stripes)
            for stripe in reversed(range(len(marks))):
                cironetop.restore_stripe(frame, stripe, units, edges, plane, marks)
            self.assertEqual(plane, restored)
        self.assertTrue(restorations)

    @AT_HAND
    def test_decoders_files_are_written_as_they_were(self):
        for file in sorted((VECTORS / 'planes').glob('*.vec.xz'))[::9]:
            found = _files.read(file)
            _files.write(self.folder / 'again.vec', found)
            self.assertEqual(_files.read(self.folder / 'again.vec'), found)

    @AT_HAND
    def test_decoders_samples(self):
        lines = (VECTORS / 'samples.tsv').read_text().splitlines()
        for line in lines:
            depth, row, unit, window, expected = line.split('\t')
            entry = [int(number) for number in unit.split()]
            self.assertEqual(cironetop.restore_sample(int(depth), int(row), entry, bytes.fromhex(window)), int(expected), line)
        self.assertTrue(lines)
