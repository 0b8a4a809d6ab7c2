"""python3 -m cironetop, as it is called."""
import contextlib
import io
import os
import tempfile
import time
import unittest
from array import array
from pathlib import Path

import cironetop
from cironetop import Frame, Scaling, Unit, _command, _files, _progress

try:
    from PIL import Image
except ImportError:
    Image = None

WIENER = '--unit=1,3,-7,15,3,-7,15,0,0,0'


def two_units():
    """Plane 0, 128 by 60: a unit without a filter beside a Wiener unit, in whose middle one sample stands out."""
    frame = Frame(0, 0, 0, 8, 60, 128, 64, 3)
    units = array('i', [*Unit.none(), *Unit.wiener((3, -7, 15), (3, -7, 15))])
    cdef = array('i', [40] * (128 * 60))
    cdef[30 * 128 + 96] = 140
    restored = cironetop.restore_plane(frame, units, cdef, cdef).plane
    return _files.Restoration(frame, units, cdef, cdef, restored)


class Command(unittest.TestCase):
    def setUp(self):
        folder = tempfile.TemporaryDirectory()
        self.addCleanup(folder.cleanup)
        self.folder = Path(folder.name)
        _files.write(self.file('two.vec.xz'), [two_units(), self.upscaling()])
        _files.write_raw(self.file('row.raw'), [0, 0, 0, 100, 0, 0, 0])

    def file(self, name):
        return str(self.folder / name)

    @staticmethod
    def upscaling():
        scaling = Scaling(0, 0, 0, 8, 8, 16, 1, 1, 1, 8, 1, 16)
        source = array('i', [0] * 4 + [128] * 4)
        return _files.Upscaling(scaling, 0, source, cironetop.upscale_plane(scaling, source))

    def run_command(self, *words):
        out, err = io.StringIO(), io.StringIO()
        with contextlib.redirect_stdout(out), contextlib.redirect_stderr(err):
            try:
                status = _command.main(words)
            except SystemExit as ended:
                status = ended.code
        return status, out.getvalue(), err.getvalue()

    def row(self, *words):
        names = ['--deblocked', self.file('row.raw'), '--cdef', self.file('row.raw'), '--width', '7', '--height', '1']
        return self.run_command('restore', *names, '--out', self.file('out.raw'), *words)

    def test_a_raw_plane(self):
        status, out, err = self.row(WIENER)
        self.assertEqual((status, err), (0, ''))
        self.assertEqual(out, f'restored 1 plane, 7 samples, 5 changed; wrote {self.file("out.raw")}\n')
        self.assertEqual(_files.read_raw(self.file('out.raw')).tolist(), [2, 0, 12, 83, 12, 0, 2])

    def test_units_of_a_file(self):
        _files.write_raw(self.file('units.raw'), Unit.wiener((3, -7, 15), (3, -7, 15)))
        self.assertEqual(self.row('--units', self.file('units.raw'))[0], 0)
        self.assertEqual(_files.read_raw(self.file('out.raw')).tolist(), [2, 0, 12, 83, 12, 0, 2])

    def test_refusals_and_wrong_words(self):
        for words, status, text in (
            ([WIENER, '--depth', '9'], 1, 'refused 1: the depth is not 8, 10 or 12'),
            ([WIENER, '--height', '2'], 1, 'refused 7'),
            ([WIENER, '--cdef', self.file('none.raw')], 1, 'No such file'),
            ([], 2, '--units or --unit'),
            (['--unit', '1,x'], 2, 'numbers with commas'),
            ([WIENER, self.file('two.vec.xz')], 2, 'has its own planes'),
        ):
            found, out, err = self.row(*words)
            self.assertEqual((found, out), (status, ''))
            self.assertIn(text, err)
        self.assertFalse(os.path.exists(self.file('out.raw')))
        self.assertEqual(self.run_command('upscale', '--input', self.file('row.raw'))[0], 2)
        self.assertEqual(self.run_command('polish')[0], 2)

    def test_a_vector_file(self):
        status, out, _ = self.run_command('restore', self.file('two.vec.xz'), '--out', self.file('new.vec'))
        self.assertEqual(status, 0)
        self.assertRegex(out, r'^restored 1 plane, 7680 samples, \d+ changed; 0 differ from those recorded in \S+; wrote \S+\n$')
        self.assertEqual(_files.read(self.file('new.vec')), [two_units()])

    def test_samples_that_differ_are_told(self):
        wrong = two_units()
        wrong.restored[0] += 1
        _files.write(self.file('wrong.vec'), [wrong, wrong])
        status, out, _ = self.run_command('restore', self.file('wrong.vec'))
        self.assertEqual(status, 1)
        self.assertIn('restored 2 planes', out)
        self.assertIn('; 2 differ', out)
        status, _, err = self.run_command('restore', self.file('wrong.vec'), '--out', self.file('out.raw'))
        self.assertEqual((status, 'a raw file holds one plane' in err), (2, True))
        self.assertEqual(self.run_command('restore', self.file('wrong.vec'), '--record', '2')[0], 2)

    def test_upscaling(self):
        status, out, _ = self.run_command('upscale', self.file('two.vec.xz'), '--record', '1', '--out', self.file('out.raw'))
        self.assertEqual((status, out[:36]), (0, 'upscaled 1 plane, 8 samples to 16; 0'))
        self.assertEqual(_files.read_raw(self.file('out.raw')), self.upscaling().output)
        _files.write_raw(self.file('in.raw'), self.upscaling().input)
        words = ['--input', self.file('in.raw'), '--width', '8', '--upscaled-width', '16', '--height', '1', '--out', self.file('up.raw')]
        self.assertEqual(self.run_command('upscale', *words)[0], 0)
        self.assertEqual(_files.read_raw(self.file('up.raw')), self.upscaling().output)

    def test_in_place_is_the_same(self):
        status, out, _ = self.run_command('restore', self.file('two.vec.xz'), '--in-place')
        self.assertEqual(status, 0)
        self.assertIn('restored 1 plane in place', out)
        self.assertIn('; 0 differ', out)

    @unittest.skipIf(Image is None, 'Pillow is not installed')
    def test_show(self):
        """One sample stands out: its picture is blue there, red beside it, grey in the unit without a filter; units are outlined."""
        status, out, err = self.run_command('show', self.file('two.vec.xz'), '--out', self.file('a.png'))
        self.assertEqual((status, err), (0, ''))
        record = two_units()
        with Image.open(self.file('a.png')) as picture:
            left, top, zoom = self.corner(picture)
            self.assertEqual((zoom, f'{picture.width} x {picture.height}' in out), (7, True))
            change = lambda x, y: record.restored[y * 128 + x] - record.cdef[y * 128 + x]
            seen = {x: picture.getpixel((left + zoom * x + 3, top + zoom * 30 + 3)) for x in range(128)}
        for x, (red, green, blue) in seen.items():
            expected = (red > blue) - (red < blue)
            self.assertEqual(expected, (change(x, 30) > 0) - (change(x, 30) < 0), f'column {x}')
        self.assertLess(change(96, 30), 0)
        self.assertGreater(change(95, 30), 0)

    def corner(self, picture):
        """The plane's left upper corner by its outline, and pixels a sample."""
        line = (0, 110, 60)
        rows = [y for y in range(picture.height) if sum(picture.getpixel((x, y)) == line for x in range(picture.width)) > 400]
        columns = [x for x in range(picture.width) if picture.getpixel((x, rows[0] + 100)) == line]
        # Left, the two units' common edge, right.
        self.assertEqual((len(rows), len(columns)), (2, 4))
        zoom = (columns[-1] + 1 - columns[0]) // 128
        self.assertEqual((rows[-1] + 1 - rows[0], columns[1] - columns[0] + 1), (60 * zoom, 64 * zoom))
        return columns[0], rows[0], zoom


class Progress(unittest.TestCase):
    def test_a_terminal_sees_how_far_and_then_nothing(self):
        out = io.StringIO()
        out.isatty = lambda: True
        with contextlib.redirect_stderr(out):
            with _progress.Progress('work', 4) as progress:
                progress.step()
                for _ in range(200):
                    if out.getvalue():
                        break
                    time.sleep(0.05)
        self.assertIn('work: 1 of 4, 25 %', out.getvalue())
        self.assertTrue(out.getvalue().endswith('\r\x1b[K'))

    def test_work_of_a_moment_says_nothing(self):
        out = io.StringIO()
        with contextlib.redirect_stderr(out), _progress.Progress('work', 1) as progress:
            progress.step()
        self.assertEqual(out.getvalue(), '')
