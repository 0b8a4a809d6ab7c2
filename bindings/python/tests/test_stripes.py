"""Stripes in place against the whole-plane call."""
import random
import unittest
from array import array

import cironetop
from cironetop import Frame, Refused

from . import cases


class Stripes(unittest.TestCase):
    def test_any_order_is_the_whole_plane(self):
        rng = random.Random(7)
        for frame in (Frame(0, 1, 1, 8, 200, 90, 64, 3), Frame(1, 1, 1, 10, 333, 200, 32, 1), Frame(2, 1, 0, 12, 130, 161, 128, 2)):
            lengths, counts = frame.lengths(), cironetop.count(frame)
            samples = lambda: array('i', [rng.randrange(1 << frame.depth) for _ in range(lengths.plane)])
            deblocked, cdef = samples(), samples()
            units = [cases.unit(rng) for _ in range(counts.unit_rows * counts.unit_cols)]
            whole = cironetop.restore_plane(frame, units, deblocked, cdef).plane
            edges, marks, order = cironetop.capture_edges(frame, deblocked), bytearray(counts.stripes), list(range(counts.stripes))
            rng.shuffle(order)
            for done, stripe in enumerate(order):
                cironetop.restore_stripe(frame, stripe, units, edges, cdef, marks)
                self.assertEqual(sum(marks), done + 1)
                with self.assertRaisesRegex(Refused, f'refused 14.*stripe {stripe} of {counts.stripes}'):
                    cironetop.restore_stripe(frame, stripe, units, edges, cdef, marks)
            self.assertEqual(cdef, whole)

    def test_rows_beyond_a_boundary(self):
        frame = Frame(0, 0, 0, 8, 57, 1, 64, 1)
        edges = cironetop.capture_edges(frame, array('i', [200] * 57))
        plane, marks = array('i', [0] * 57), bytearray(2)
        for stripe in (1, 0):
            cironetop.restore_stripe(frame, stripe, [(1, 3, -7, 15, 3, -7, 15, 0, 0, 0)], edges, plane, marks)
        self.assertEqual(plane.tolist(), [0] * 53 + [5, 0, 17, 17])

    def test_frame_type_0_sets_the_mark_alone(self):
        frame, plane, marks = Frame(0, 0, 0, 8, 2, 2, 0, 0), array('i', [1, 2, 3, 4]), bytearray(1)
        cironetop.restore_stripe(frame, 0, [], array('i'), plane, marks)
        self.assertEqual((plane.tolist(), marks), ([1, 2, 3, 4], bytearray([1])))

    def test_details(self):
        frame, plane = Frame(0, 0, 0, 8, 57, 1, 64, 0), array('i', [0] * 57)
        edges = array('i', [0] * 4)
        with self.assertRaisesRegex(Refused, 'refused 12.*marks has 3 numbers, 2 are needed'):
            cironetop.restore_stripe(frame, 0, [], edges, plane, bytearray(3))
        with self.assertRaisesRegex(Refused, 'refused 13.*stripe 2 of 2'):
            cironetop.restore_stripe(frame, 2, [], edges, plane, bytearray(2))
        with self.assertRaisesRegex(ValueError, 'marks: read-only'):
            cironetop.restore_stripe(frame, 0, [], edges, plane, bytes(2))
