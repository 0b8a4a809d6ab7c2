"""What the library cannot see gets a clear error before the call: types, gaps, memory that may not be written or is lent twice."""
import mmap
import os
import subprocess
import sys
import threading
import unittest
from array import array

import cironetop
from cironetop import Frame, Refused, Unit, _buffers

FRAME = Frame(0, 0, 0, 8, 2, 4, 64, 1)
UNITS = [Unit.wiener((3, -7, 15), (3, -7, 15))]


def plane():
    return array('i', range(8))


def restore(units=UNITS, **buffers):
    lent = {'deblocked': plane(), 'cdef': plane(), 'out': plane(), **buffers}
    return cironetop.restore_plane(FRAME, units, **lent)


class Buffers(unittest.TestCase):
    def error(self, kind, text, **arguments):
        with self.assertRaisesRegex(kind, text) as caught:
            restore(**arguments)
        self.assertNotIsInstance(caught.exception, Refused)

    def test_no_buffer(self):
        self.error(TypeError, 'cdef: list lends no buffer', cdef=[1, 2])
        self.error(TypeError, 'out: str lends no buffer', out='text')
        self.error(TypeError, 'deblocked: NoneType lends no buffer', deblocked=None)

    def test_elements(self):
        for other in (array('h', range(8)), array('q', range(8)), array('I', range(8)), array('f', range(8)), bytearray(32)):
            self.error(TypeError, 'cdef: elements are .*; int32', cdef=other)

    def test_gaps(self):
        self.error(ValueError, 'cdef: not contiguous', cdef=memoryview(array('i', range(16)))[::2])

    def test_misaligned(self):
        self.error(ValueError, 'cdef: does not start at a multiple of 4', cdef=memoryview(bytearray(33))[1:].cast('i'))

    def test_read_only(self):
        self.error(ValueError, 'out: read-only', out=memoryview(plane()).toreadonly())
        self.error(ValueError, 'scratch: read-only', scratch=memoryview(bytes(4000)).cast('i'))
        self.assertEqual(restore(cdef=memoryview(plane()).toreadonly()).plane, restore().plane)

    def test_overlap(self):
        shared = array('i', range(20))
        view = memoryview(shared)
        self.error(ValueError, 'out overlaps cdef', cdef=view[:8], out=view[7:15])
        self.error(ValueError, 'scratch overlaps out', out=view[:8], scratch=view[2:9])
        self.assertEqual(shared, array('i', range(20)))
        # Side by side is no overlap, and what is only read may be one.
        self.assertEqual(restore(cdef=view[:8], deblocked=view[:8], out=view[8:16]).changed, restore().changed)

    def test_empty_slices_overlap_nothing(self):
        untyped, memory = FRAME._replace(frame_type=0), memoryview(plane())
        cironetop.restore_plane(untyped, memory[3:3], plane(), plane(), out=memory, scratch=memory[5:5])
        self.assertEqual(memory.tolist(), list(range(8)))

    def test_shape(self):
        shaped = lambda *shape: memoryview(bytearray(plane().tobytes())).cast('B').cast('i', shape)
        self.assertEqual(restore(cdef=shaped(2, 4)).changed, restore().changed)
        self.error(ValueError, r'cdef: shape \(4, 2\); \(2, 4\)', cdef=shaped(4, 2))
        self.error(ValueError, r'out: shape \(1, 2, 4\)', out=shaped(1, 2, 4))
        table = memoryview(bytearray(array('i', UNITS[0]).tobytes())).cast('B')
        self.assertEqual(restore(units=table.cast('i', (1, 10))).changed, restore().changed)
        self.error(ValueError, r'units: shape \(2, 5\)', units=table.cast('i', (2, 5)))

    def test_units(self):
        self.error(ValueError, 'units: entry 1: 9 numbers; ten are needed', units=[UNITS[0], [0] * 9])
        self.error(TypeError, 'units: entry 0: 1 is not a sequence', units=UNITS[0])
        self.error(TypeError, "units: entry 0, v1: 'x' is not a whole number", units=[[1, 0, 'x'] + [0] * 7])
        self.error(ValueError, 'units: entry 0, w1: 2147483648 is not within', units=[[0] * 9 + [2**31]])

    def test_numbers(self):
        for wrong, kind in ((-1, ValueError), (2**32, ValueError), (8.0, TypeError), ('8', TypeError), (None, TypeError)):
            with self.assertRaisesRegex(kind, '^depth: '):
                cironetop.count(FRAME._replace(depth=wrong))
        with self.assertRaisesRegex(ValueError, 'frame: 7 numbers; 8 are needed'):
            cironetop.count(FRAME[:7])
        with self.assertRaisesRegex(TypeError, 'frame: 5 is not a sequence'):
            cironetop.count(5)
        with self.assertRaisesRegex(ValueError, 'index: -1'):
            cironetop.rectangle(FRAME, -1)

    def test_window(self):
        with self.assertRaisesRegex(TypeError, 'window: elements are .*; uint8 or uint16'):
            cironetop.restore_sample(8, 0, Unit(), array('i', range(49)))

    def test_other_owners(self):
        with mmap.mmap(-1, 4096) as memory:
            with memoryview(memory) as whole, whole[:32] as part, part.cast('i') as out:
                found = restore(out=out)
                self.assertEqual(out.tolist(), restore().plane.tolist())
                found = None
        self.assertIsNone(found)

    def test_memory_cannot_move_during_a_call(self):
        owner = array('i', range(8))
        with _buffers.lending(_buffers.lent('out', owner, writable=True)):
            with self.assertRaises(BufferError):
                owner.append(1)
        owner.append(1)


class Threads(unittest.TestCase):
    def test_a_loan_lasts_as_long_as_its_call(self):
        memory = memoryview(array('i', range(20)))
        with _buffers.lending(_buffers.lent('plane', memory[:10], writable=True), _buffers.lent('cdef', memory[10:])):
            for part, writable in ((memory[9:11], False), (memory[12:13], True)):
                with self.assertRaisesRegex(ValueError, 'of a call that is still running'):
                    with _buffers.lending(_buffers.lent('other', part, writable=writable)):
                        self.fail('lent twice')
            with _buffers.lending(_buffers.lent('other', memory[10:])):
                pass
        with _buffers.lending(_buffers.lent('other', memory, writable=True)):
            pass

    def test_planes_at_once(self):
        cdef = array('i', [(place * 7919) % 251 for place in range(200 * 300)])
        frame = Frame(0, 0, 0, 8, 200, 300, 256, 1)
        expected = cironetop.restore_plane(frame, UNITS, cdef, cdef)
        found = []
        threads = [threading.Thread(target=lambda: found.append(cironetop.restore_plane(frame, UNITS, cdef, cdef))) for _ in range(4)]
        for thread in threads:
            thread.start()
        for thread in threads:
            thread.join()
        self.assertEqual(found, [expected] * 4)


class Library(unittest.TestCase):
    def test_missing(self):
        words = [sys.executable, '-c', 'import cironetop; cironetop.count([0, 0, 0, 8, 1, 7, 64, 1])']
        found = subprocess.run(words, env={**os.environ, 'CIRONETOP_SHARED': '/none.so'}, stderr=subprocess.PIPE, text=True)
        self.assertIn('LibraryMissing', found.stderr)
        self.assertIn('build.py makes it', found.stderr)
