"""Ten thousand wrong calls: each is refused with document 01's number, or gets a clear error, and nothing is written."""
import collections
import random
import unittest
from array import array

import cironetop

from . import cases, model

try:
    import numpy
except ImportError:
    numpy = None

CALLS = 10_000
NAMES = list(model.NUMBERS)
NO_BUFFERS = (None, 3, 1.5, 'text', object(), [1, 2], {})
NO_NUMBERS = (None, 1.5, '8', object(), [8], -1, 2**32, -(2**40), 2**70)


class Lent:
    """A call's buffers by name, each in memory of its own between margins, of one of the kinds that a caller may have."""

    def __init__(self, rng, slices):
        self.memory = {part: self.between_margins(rng, part, numbers) for part, numbers in slices.items()}
        self.buffers = {part: memory[8:-8] for part, memory in self.memory.items()}

    @staticmethod
    def between_margins(rng, part, numbers):
        code = 'B' if part in cases.BYTES else 'i'
        memory = array(code, [99] * 8 + numbers + [99] * 8)
        kinds = [memoryview(memory), memoryview(bytearray(memory.tobytes())).cast(code)]
        if numpy is not None:
            kinds.append(numpy.array(memory, numpy.uint8 if code == 'B' else numpy.int32))
        return rng.choice(kinds)

    def content(self):
        return {part: memory.tobytes() for part, memory in self.memory.items()}

    def margins(self):
        return {number for memory in self.memory.values() for margin in (memory[:8], memory[-8:]) for number in margin.tolist()}


def wrong_buffer(rng, part, buffer, written):
    """The buffer as no call takes it: of another type, with gaps, misplaced, not to be written."""
    view, whole = memoryview(buffer), part not in cases.BYTES
    # What a call writes it may have to make: None is no error there.
    wrongs = [rng.choice(NO_BUFFERS[part in cases.WRITTEN:]), array('f', [1] * len(view)), array('q', [0] * len(view))]
    if len(view) > 2:
        wrongs += [view[::-1], view[::2]]
    if whole:
        wrongs += [memoryview(bytearray(8))[1:5].cast('i'), array('H', [0] * len(view)), array('I', [0] * len(view))]
    if written:
        wrongs.append(view.toreadonly())
    if whole and numpy is not None:
        wrongs += [numpy.array(view, kind) for kind in ('int64', 'uint16', '>i4', 'float32', 'uint32', 'object')]
    return rng.choice(wrongs)


def make(name, numbers, buffers):
    """The call; a frame is as many numbers as it has."""
    call = getattr(cironetop, name)
    if name == 'restore_sample':
        return call(numbers[0], numbers[1], numbers[2:], buffers['window'])
    if name in ('restore_stripe', 'rectangle'):
        return call(numbers[:-1], numbers[-1], **buffers)
    return call(numbers, **buffers)


def names(name):
    """What the call's numbers are called."""
    if name == 'restore_sample':
        return ('depth', 'row', *cironetop.Unit._fields)
    if name == 'upscale_plane':
        return cironetop.Scaling._fields
    return (*cironetop.Frame._fields, 'index' if name == 'rectangle' else 'stripe')


class Hostile(unittest.TestCase):
    def test_wrong_numbers_and_sizes_and_types(self):
        rng = random.Random(2024)
        met = collections.Counter()
        while sum(count for (_, answer), count in met.items() if answer) < CALLS:
            name = rng.choice(NAMES)
            numbers, slices = cases.legal(rng, name)
            cases.damage(rng, numbers, slices)
            if rng.randrange(3):
                answer = self.numbers(rng, name, numbers, slices)
            else:
                answer = self.types(rng, name, numbers, slices)
            met[name, answer] += 1
        for name in NAMES:
            for answer in (0, *model.NUMBERS[name], 'TypeError', 'ValueError'):
                self.assertIn((name, answer), met)

    def numbers(self, rng, name, numbers, slices):
        """Wrong in what the library looks at; 0 where nothing of that was made wrong."""
        for part in cases.OPTIONAL[name]:
            if rng.randrange(6) == 0:
                del slices[part]
        lent = Lent(rng, slices)
        expected, before = model.number(name, numbers, slices), lent.content()
        try:
            make(name, numbers, lent.buffers)
            found = 0
            self.assertLessEqual(lent.margins(), {99}, f'{name} {numbers} writes outside of its slices')
        except cironetop.Refused as refused:
            found = int(refused.number)
            self.assertIn(f'refused {found}: ', str(refused))
            self.assertTrue(lent.content() == before, f'{name} {numbers} is refused with {found}, and something is written')
        self.assertEqual(found, expected, f'{name} {numbers} {slices}')
        return found

    def types(self, rng, name, numbers, slices):
        """Wrong in what the library cannot see: the error names the argument."""
        lent = Lent(rng, slices)
        buffers, before = dict(lent.buffers), lent.content()
        way = rng.randrange(3)
        if way == 0 or not buffers:
            named = self.wrong_number(rng, name, numbers)
        elif way == 1 and len([part for part in buffers if len(buffers[part])]) > 1:
            named = self.overlapping(rng, name, buffers)
        else:
            named = rng.choice(list(buffers))
            buffers[named] = wrong_buffer(rng, named, buffers[named], cases.written(name, named))
        with self.assertRaises((TypeError, ValueError), msg=f'{name} {numbers} {buffers}') as caught:
            make(name, numbers, buffers)
        self.assertNotIsInstance(caught.exception, cironetop.Refused, f'{name} {numbers} {buffers}')
        self.assertIn(named, str(caught.exception))
        self.assertTrue(lent.content() == before, f'{name} {numbers} {buffers}: something is written')
        return type(caught.exception).__name__

    def wrong_number(self, rng, name, numbers):
        """One that is no whole number, or does not fit; or one number too few."""
        if rng.randrange(8) == 0:
            # The last but one: the last is a stripe or an index.
            numbers.pop(-2)
            return 'numbers'
        place = rng.randrange(len(numbers))
        wrong = rng.choice(NO_NUMBERS)
        numbers[place] = 2**31 if wrong == -1 and name == 'restore_sample' and place > 1 else wrong
        return names(name)[place]

    def overlapping(self, rng, name, buffers):
        """Two slices of one memory, one of which the call writes to; where there are no such two, no buffer at all."""
        parts = [part for part in buffers if part not in cases.BYTES and len(buffers[part])]
        targets = [part for part in parts if cases.written(name, part)]
        if not targets or len(parts) < 2:
            named = rng.choice(list(buffers))
            buffers[named] = 'text'
            return named
        target = rng.choice(targets)
        buffers[rng.choice([part for part in parts if part != target])] = buffers[target][:1]
        return target
