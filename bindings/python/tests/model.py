"""Document 01's table, from the document alone: the number that a call has to give.

A call is its name, its numbers, and its slices by name as lists of numbers. Conditions are asked in the order of their numbers; those
from 7 on may rely on a legal frame. A slice that is left out is made by the call, as long as it has to be.
"""
NUMBERS = {
    'restore_sample': (1, 7, 11, 15),
    'restore_plane': (1, 2, 3, 4, 5, 7, 10, 11, 15, 16),
    'capture_edges': (1, 2, 4, 7, 9, 15),
    'restore_stripe': (1, 2, 3, 4, 5, 7, 9, 10, 11, 12, 13, 14, 15, 16),
    'upscale_plane': (1, 2, 4, 6, 7, 8, 15),
    'count': (2, 4, 5),
    'rectangle': (2, 4, 5, 13),
}
SUBSAMPLINGS = ((0, 0), (1, 0), (1, 1))
TAPS = ((-5, 10), (-23, 8), (-17, 46))
WEIGHTS = ((0, 15), (-96, 31), (-32, 95))


def number(name, numbers, slices):
    """The lowest number that applies, or 0."""
    asked = {'restore_sample': _sample, 'upscale_plane': _upscale}.get(name, _restoration)
    return next((number for number in NUMBERS[name] if asked(number, name, numbers, slices)), 0)


def legal_entry(entry):
    within = lambda ranges, numbers: all(low <= number <= high for (low, high), number in zip(ranges, numbers))
    return entry[0] == 0 or entry[0] == 1 and within(TAPS * 2, entry[1:7]) or entry[0] == 2 and within(WEIGHTS, entry[7:10])


def extent(side, sub, plane):
    return side + sub >> sub if plane else side


def _out_of_range(samples, depth):
    return any(not 0 <= sample < 1 << depth for sample in samples)


def _sample(number, name, numbers, slices):
    depth, _, *entry = numbers
    window = slices['window']
    if number == 1:
        return depth not in (8, 10, 12)
    if number == 7:
        return len(window) != 98
    if number == 11:
        return not legal_entry(entry)
    return _out_of_range((low + 256 * high for low, high in zip(window[::2], window[1::2])), depth)


def _upscale(number, name, numbers, slices):
    plane, sub_x, sub_y, depth, width, upscaled, height, flag, in_rows, in_cols, out_rows, out_cols = numbers
    copies = flag == 0 or width == upscaled
    if number == 1:
        return depth not in (8, 10, 12)
    if number == 2:
        return plane > 2 or (sub_x, sub_y) not in SUBSAMPLINGS
    if number == 4:
        return not all(1 <= side <= 16384 for side in (width, upscaled, height))
    if number == 6:
        return flag != 0 and upscaled < width
    down, up, rows = extent(width, sub_x, plane), extent(upscaled, sub_x, plane), extent(height, sub_y, plane)
    if number == 7:
        wide = rows <= in_rows <= 16384 and down <= in_cols <= 16392 and (out_rows, out_cols) == (rows, up)
        shapes = (in_rows, in_cols) == (out_rows, out_cols) if copies else wide
        return not shapes or len(slices['input']) != in_rows * in_cols or _wrong(slices, 'output', out_rows * out_cols)
    if number == 8:
        return not copies and up <= down
    return _out_of_range(slices['input'], depth)


def stripe_start(stripe, sub):
    return max(0, 64 * stripe - 8 >> sub)


def stripes(height, sub):
    return next(stripe for stripe in range(1, 1000) if stripe_start(stripe, sub) >= height)


def units_along(side, size):
    return max(1, (side + size // 2) // size)


def _restoration(number, name, numbers, slices):
    plane, sub_x, sub_y, depth, frame_height, upscaled, size, kind = numbers[:8]
    typed = kind != 0 or name in ('count', 'rectangle')
    if number == 1:
        return depth not in (8, 10, 12)
    if number == 2:
        return plane > 2 or (sub_x, sub_y) not in SUBSAMPLINGS
    if number == 3:
        return kind > 3
    if number == 4:
        return not (1 <= frame_height <= 16384 and 1 <= upscaled <= 16384)
    if number == 5:
        return typed and not (size in (64, 128, 256) or size == 32 and plane > 0 and (sub_x, sub_y) == (1, 1))
    width, height, sub = extent(upscaled, sub_x, plane), extent(frame_height, sub_y, plane), sub_y if plane else 0
    if number == 10:
        return typed and len(slices['units']) != 10 * units_along(height, size) * units_along(width, size)
    if number == 11:
        units = slices['units']
        return typed and not all(legal_entry(units[place:place + 10]) for place in range(0, len(units), 10))
    if number == 16:
        return typed and _short(slices, width, min(height, 64 >> sub))
    if number == 13 and name == 'rectangle':
        return numbers[8] >= stripes(height, sub) * units_along(width, size)
    return _of_stripes(number, name, numbers, slices, (width, height, sub))


def _wrong(slices, part, length):
    return part in slices and len(slices[part]) != length


def _short(slices, width, rows):
    needed = {'copy': width * rows, 'scratch': 6 * (min(width, 383) + 8) * (rows + 8)}
    return any(part in slices and len(slices[part]) < length for part, length in needed.items())


def _of_stripes(number, name, numbers, slices, shape):
    width, height, sub = shape
    count, stripe = stripes(height, sub), numbers[-1]
    if number == 7:
        return any(_wrong(slices, part, width * height) for part in ('deblocked', 'cdef', 'out', 'plane'))
    if number == 9:
        return _wrong(slices, 'edges', 4 * width * (count - 1))
    if number == 12:
        return len(slices['marks']) != count or any(mark > 1 for mark in slices['marks'])
    if number == 13:
        return stripe >= count
    if number == 14:
        return slices['marks'][stripe] == 1
    if name != 'restore_stripe':
        return any(_out_of_range(slices[part], numbers[3]) for part in ('deblocked', 'cdef') if part in slices)
    read = slices['plane'][stripe_start(stripe, sub) * width:stripe_start(stripe + 1, sub) * width]
    if stripe > 0:
        read += slices['edges'][4 * (stripe - 1) * width:][:2 * width]
    if stripe + 1 < count:
        read += slices['edges'][(4 * stripe + 2) * width:][:2 * width]
    return _out_of_range(read, numbers[3])
