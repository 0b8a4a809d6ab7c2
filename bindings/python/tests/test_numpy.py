"""The same on numpy arrays: types, shapes, views."""
import unittest

import cironetop
from cironetop import Frame, Refused, Scaling, Unit

try:
    import numpy
except ImportError:
    numpy = None

FRAME = Frame(0, 0, 0, 10, 130, 100, 64, 3)
UNITS = [Unit.wiener((3, -7, 15), (-5, 8, 46)), Unit.self_guided(5, -96, 95), Unit.none(), Unit.self_guided(12, 31, -32)]


@unittest.skipIf(numpy is None, 'numpy is not installed')
class Numpy(unittest.TestCase):
    def setUp(self):
        rng = numpy.random.default_rng(5)
        self.deblocked, self.cdef = (rng.integers(0, 1024, (130, 100), numpy.int32) for _ in range(2))

    def restore(self, **other):
        arguments = {'units': UNITS, 'deblocked': self.deblocked, 'cdef': self.cdef, **other}
        return cironetop.restore_plane(FRAME, **arguments)

    def test_a_new_plane_has_the_shape_and_type(self):
        found = self.restore()
        self.assertEqual((found.plane.shape, found.plane.dtype), ((130, 100), numpy.int32))
        self.assertEqual(found.changed, numpy.count_nonzero(found.plane != self.cdef))

    def test_flat_lent_and_read_only(self):
        expected = self.restore().plane
        out = numpy.zeros(13000, numpy.int32)
        self.cdef.flags.writeable = False
        self.restore(deblocked=self.deblocked.ravel(), out=out)
        self.assertTrue((out.reshape(130, 100) == expected).all())
        with self.assertRaisesRegex(ValueError, 'out: read-only'):
            self.restore(out=self.cdef)

    def test_units_as_arrays(self):
        expected = self.restore().plane
        table = numpy.array(UNITS, numpy.int32)
        for units in (table, table.ravel(), table.reshape(2, 2, 10), list(table)):
            self.assertTrue((self.restore(units=units).plane == expected).all())
        with self.assertRaisesRegex(ValueError, r'units: shape \(10, 4\)'):
            self.restore(units=table.T.copy())

    def test_types(self):
        for kind in ('int64', 'uint32', 'uint16', 'int8', 'float32', 'float64', 'bool', '>i4', 'complex64', 'object', 'M8[s]'):
            with self.assertRaisesRegex(TypeError, 'cdef: '):
                self.restore(cdef=numpy.zeros((130, 100), kind))

    def test_views(self):
        wide = numpy.zeros((130, 200), numpy.int32)
        for other in (wide[:, :100], wide[:, ::2], self.cdef[::-1], self.cdef.T, numpy.asfortranarray(self.cdef)):
            with self.assertRaisesRegex(ValueError, 'cdef: not contiguous'):
                self.restore(cdef=other)
        with self.assertRaisesRegex(ValueError, r'cdef: shape \(100, 130\); \(130, 100\)'):
            self.restore(cdef=self.cdef.T.copy())
        with self.assertRaisesRegex(Refused, 'refused 7.*cdef has 12900 numbers, 13000 are needed'):
            self.restore(cdef=self.cdef[1:])
        part = numpy.zeros((132, 100), numpy.int32)[1:131]
        self.assertTrue((self.restore(out=part).plane == self.restore().plane).all())

    def test_misaligned(self):
        odd = numpy.frombuffer(bytearray(4 * 13000 + 1), numpy.int32, 13000, 1)
        with self.assertRaisesRegex(ValueError, 'cdef: does not start at a multiple of 4'):
            self.restore(cdef=odd)

    def test_overlap(self):
        both = numpy.zeros((260, 100), numpy.int32)
        with self.assertRaisesRegex(ValueError, 'out overlaps cdef'):
            self.restore(cdef=both[:130], out=both[129:259])
        with self.assertRaisesRegex(ValueError, 'out overlaps deblocked'):
            self.restore(out=self.deblocked)

    def test_edges_and_upscaling(self):
        edges = cironetop.capture_edges(FRAME, self.deblocked)
        self.assertEqual(edges.shape, (2, 4, 100))
        self.assertTrue((edges[0] == self.deblocked[54:58]).all())
        self.assertTrue((edges[1] == self.deblocked[118:122]).all())
        row = numpy.array([[0, 0, 0, 0, 128, 128, 128, 128]], numpy.int32)
        found = cironetop.upscale_plane(Scaling(0, 0, 0, 8, 8, 16, 1, 1, 1, 8, 1, 16), row)
        self.assertEqual(found.tolist(), [[0, 0, 0, 3, 4, 0, 0, 29, 99, 141, 137, 124, 125, 129, 129, 128]])

    def test_window_and_numpy_numbers(self):
        window = numpy.full((7, 7), 100, numpy.uint16)
        self.assertEqual(cironetop.restore_sample(numpy.uint8(8), numpy.int64(3), UNITS[0], window), 100)
        narrow = numpy.array(FRAME, numpy.uint8)
        self.assertEqual(cironetop.restore_plane(narrow, UNITS, self.deblocked, self.cdef).changed, self.restore().changed)
        with self.assertRaisesRegex(ValueError, r'window: shape \(49, 1\)'):
            cironetop.restore_sample(8, 3, UNITS[0], window.reshape(49, 1))

    def test_in_place(self):
        expected, edges = self.restore().plane, cironetop.capture_edges(FRAME, self.deblocked)
        plane, marks = self.cdef.copy(), numpy.zeros(3, numpy.uint8)
        for stripe in (2, 0, 1):
            cironetop.restore_stripe(FRAME, stripe, UNITS, edges, plane, marks)
        self.assertTrue((plane == expected).all() and marks.all())
