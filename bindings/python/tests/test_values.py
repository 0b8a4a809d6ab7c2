"""Document 01's values, lengths and refusals, on buffers of the standard library."""
import doctest
import pickle
import unittest
from array import array

import cironetop
from cironetop import Frame, Refused, Scaling, Unit

from . import model

WIENER = Unit.wiener((3, -7, 15), (3, -7, 15))


def one_row(width, depth=8):
    return Frame(0, 0, 0, depth, 1, width, 64, 1)


def restored(frame, unit, cdef):
    plane, changed = cironetop.restore_plane(frame, [unit], array('i', cdef), array('i', cdef))
    return plane.tolist(), changed


class Values(unittest.TestCase):
    def test_flat_under_wiener(self):
        self.assertEqual(restored(one_row(9), WIENER, [100] * 9), ([100] * 9, 0))

    def test_case_b(self):
        self.assertEqual(restored(one_row(7), WIENER, [0, 0, 0, 100, 0, 0, 0]), ([2, 0, 12, 83, 12, 0, 2], 5))

    def test_self_guided_flat(self):
        self.assertEqual(restored(one_row(5), Unit.self_guided(0, -32, 31), [255] * 5), ([255] * 5, 0))
        self.assertEqual(restored(one_row(5, 12), Unit.self_guided(14, -96, 95), [4095] * 5), ([4092] * 5, 5))

    def test_no_unit_and_no_type_give_cdef_back(self):
        cdef = [5, 250, 0, 255, 9]
        self.assertEqual(restored(one_row(5), Unit.none(), cdef), (cdef, 0))
        untyped = one_row(5)._replace(frame_type=0, unit_size=0)
        self.assertEqual(cironetop.restore_plane(untyped, [], array('i', cdef), array('i', cdef)).plane.tolist(), cdef)

    def test_lent_output_is_written_and_handed_back(self):
        frame, cdef, out = one_row(7), array('i', [0, 0, 0, 100, 0, 0, 0]), array('i', bytes(28))
        scratch = array('i', bytes(4 * frame.lengths().scratch))
        found = cironetop.restore_plane(frame, array('i', WIENER), cdef, cdef, out=out, scratch=scratch)
        self.assertIs(found.plane, out)
        self.assertEqual(out.tolist(), [2, 0, 12, 83, 12, 0, 2])

    def test_edge_rows(self):
        frame = Frame(0, 0, 0, 8, 57, 1, 64, 1)
        self.assertEqual(cironetop.capture_edges(frame, array('i', range(57))).tolist(), [54, 55, 56, 56])
        self.assertEqual(cironetop.capture_edges(one_row(3), array('i', [1, 2, 3])).tolist(), [])

    def test_upscaling_j_and_a_copy(self):
        scaling = Scaling(0, 0, 0, 8, 8, 16, 1, 1, 1, 8, 1, 16)
        expected = [0, 0, 0, 3, 4, 0, 0, 29, 99, 141, 137, 124, 125, 129, 129, 128]
        self.assertEqual(cironetop.upscale_plane(scaling, array('i', [0] * 4 + [128] * 4)).tolist(), expected)
        copy = scaling._replace(use_superres=0, out_cols=8)
        self.assertEqual(cironetop.upscale_plane(copy, array('i', range(8))).tolist(), list(range(8)))

    def test_one_sample(self):
        window = (4095).to_bytes(2, 'little') * 49
        for row in (0, 1, 2**32 - 1):
            self.assertEqual(cironetop.restore_sample(12, row, Unit.self_guided(14, -96, 95), window), 4092)
        self.assertEqual(cironetop.restore_sample(12, 0, Unit.self_guided(14, -96, 95), array('H', [4095] * 49)), 4092)
        with self.assertRaisesRegex(Refused, 'refused 15'):
            cironetop.restore_sample(10, 0, Unit.none(), window)
        with self.assertRaisesRegex(Refused, 'refused 7.*96 bytes, 98 are needed'):
            cironetop.restore_sample(12, 0, Unit.none(), window[2:])

    def test_counts_and_rectangles(self):
        self.assertEqual(cironetop.count(Frame(0, 0, 0, 8, 95, 96, 64, 1)), (1, 2, 2, 4))
        self.assertEqual(cironetop.rectangle(Frame(0, 0, 0, 8, 64, 7, 64, 1), 1), (0, 0, 0, 56, 7, 8, 56, 119, 6, 63))
        first = cironetop.rectangle(Frame(1, 1, 1, 8, 200, 7, 64, 1), 0)
        self.assertEqual((first.stripe_start_y, first.stripe_end_y), (-4, 27))
        frame = Frame(2, 1, 0, 10, 200, 321, 64, 3)
        seen = [0] * frame.lengths().plane
        for r in cironetop.rectangles(frame):
            for place in (y * 161 + x for y in range(r.y, r.y + r.h) for x in range(r.x, r.x + r.w)):
                seen[place] += 1
        self.assertEqual(set(seen), {1})

    def test_lengths_follow_the_document(self):
        for plane, sub_x, sub_y in ((0, 1, 1), (1, 0, 0), (2, 1, 0), (1, 1, 1)):
            for side in (*range(1, 70), 119, 120, 121, 383, 384, 767, 16383, 16384):
                width, height = model.extent(side, sub_x, plane), model.extent(side, sub_y, plane)
                sub = sub_y if plane else 0
                stripes, rows = model.stripes(height, sub), min(height, 64 >> sub)
                expected = (width, height, width * height, 4 * width * (stripes - 1), stripes)
                expected += (6 * (min(width, 383) + 8) * (rows + 8), width * rows)
                self.assertEqual(Frame(plane, sub_x, sub_y, 0, side, side, 0, 9).lengths(), expected)

    def test_documentation(self):
        self.assertEqual(doctest.testmod(cironetop, verbose=False).failed, 0)


class Refusals(unittest.TestCase):
    def test_number_reason_and_detail(self):
        with self.assertRaises(Refused) as caught:
            cironetop.restore_plane(one_row(7), [WIENER], array('i', [0] * 7), array('i', [0] * 6))
        refused = caught.exception
        self.assertEqual((refused.number, refused.number.name, int(refused.number)), (7, 'BAD_SHAPE', 7))
        self.assertEqual(str(refused), f'refused 7: {refused.reason} (cdef has 6 numbers, 7 are needed)')
        again = pickle.loads(pickle.dumps(refused))
        self.assertEqual((again.number, str(again)), (7, str(refused)))

    def test_every_number_has_words(self):
        self.assertEqual([int(number) for number in cironetop.Number], list(range(1, 17)))
        self.assertEqual(len({Refused(number).reason for number in range(1, 17)}), 16)

    def test_no_memory_for_what_is_refused(self):
        """A frame of 2^28 samples beside a plane of one: nothing of that size is made."""
        large = Frame(0, 0, 0, 8, 16384, 16384, 64, 1)
        for call in (
            lambda: cironetop.restore_plane(large, [WIENER], array('i', [0]), array('i', [0])),
            lambda: cironetop.capture_edges(large, array('i', [0])),
            lambda: cironetop.upscale_plane(Scaling(0, 0, 0, 8, 1, 16384, 16384, 1, 1, 1, 16384, 16384), array('i', [0])),
            lambda: cironetop.upscale_plane(Scaling(0, 0, 0, 8, 1, 2, 1, 1, 2**32 - 1, 0, 2**32 - 1, 16384), array('i')),
        ):
            with self.assertRaisesRegex(Refused, 'refused 7'):
                call()
