"""Random calls that are legal, or nearly, and ways to make their numbers wrong."""
import collections

from . import model

SLICES = {
    'restore_sample': (),
    'restore_plane': ('units', 'deblocked', 'cdef', 'out', 'scratch'),
    'capture_edges': ('deblocked', 'edges'),
    'restore_stripe': ('units', 'edges', 'plane', 'marks', 'scratch', 'copy'),
    'upscale_plane': ('input', 'output'),
    'count': (),
    'rectangle': (),
}
# What the call makes where it is not lent.
OPTIONAL = collections.defaultdict(
    tuple, restore_plane=('out', 'scratch'), capture_edges=('edges',), restore_stripe=('scratch', 'copy'), upscale_plane=('output',)
)
WRITTEN = ('out', 'scratch', 'edges', 'plane', 'marks', 'copy', 'output')
BYTES = ('window', 'marks')
NEAR = (-1, 3, -6, 11, -24, 9, -18, 47, 16, -97, 32, -33, 96)
FAR = (256, 1024, 4096, 65535, 65536, 2**31 - 1, -2**31)
SMALL = (0, 1, 2, 3, 4, 5, 7, 8, 9, 10, 11, 12, 16, 32, 33, 63, 64, 65, 128)
LARGE = (256, 257, 16384, 16385, 65536, 2**31, 2**32 - 1)


def written(name, part):
    """Whether the call writes to its slice of that name."""
    return part in WRITTEN and not (name == 'restore_stripe' and part == 'edges')


def unit(rng):
    return [rng.choice((0, 1, 2))] + [rng.randint(low, high) for low, high in model.TAPS * 2 + model.WEIGHTS]


def legal(rng, name):
    """The numbers and slices of a call."""
    if name == 'restore_sample':
        window = [rng.randrange(256) if place % 2 == 0 else 0 for place in range(98)]
        return [rng.choice((8, 10, 12)), rng.randrange(2**32), *unit(rng)], {'window': window}
    if name == 'upscale_plane':
        return _upscaling(rng)
    return _restoration(rng, name)


def _samples(rng, length):
    return [rng.randrange(256) for _ in range(length)]


def _upscaling(rng):
    """Now and then a copy, or widths of which the plane's do not grow."""
    plane, (sub_x, sub_y) = rng.randrange(3), rng.choice(model.SUBSAMPLINGS)
    width, height = rng.randint(1, 30), rng.randint(1, 6)
    wider = width + rng.choice((0, 1, 1, 2, 7, width))
    rows, up = model.extent(height, sub_y, plane), model.extent(wider, sub_x, plane)
    cols = model.extent(width, sub_x, plane) + rng.choice((0, 0, 3))
    numbers = [plane, sub_x, sub_y, rng.choice((8, 10, 12)), width, wider, height, rng.choice((0, 1, 1, 1, 2)), rows, cols, rows, up]
    return numbers, {'input': _samples(rng, rows * cols), 'output': _samples(rng, rows * up)}


def _restoration(rng, name):
    plane, (sub_x, sub_y) = rng.randrange(3), rng.choice(model.SUBSAMPLINGS)
    frame_height, upscaled, size = rng.choice((1, 7, 20, 57, 70, 125, 130)), rng.randint(1, 8), rng.choice((64, 64, 128, 256))
    numbers = [plane, sub_x, sub_y, rng.choice((8, 10, 12)), frame_height, upscaled, size, rng.choice((0, 1, 2, 3, 3, 3))]
    width, height, sub = model.extent(upscaled, sub_x, plane), model.extent(frame_height, sub_y, plane), sub_y if plane else 0
    stripes, rows = model.stripes(height, sub), min(height, 64 >> sub)
    units = model.units_along(height, size) * model.units_along(width, size)
    stripe = rng.randrange(stripes)
    lengths = {'edges': 4 * width * (stripes - 1), 'scratch': 6 * (width + 8) * (rows + 8), 'copy': width * rows}
    slices = {part: _samples(rng, lengths.get(part, width * height)) for part in SLICES[name]}
    if 'units' in slices:
        slices['units'] = [number for _ in range(units) for number in unit(rng)]
    if 'marks' in slices:
        slices['marks'] = [0 if place == stripe else rng.randrange(2) for place in range(stripes)]
    if name in ('restore_stripe', 'rectangle'):
        numbers.append(stripe)
    return numbers, slices


def damage(rng, numbers, slices):
    """One to three arguments made other: a number, a length, an element."""
    for _ in range(rng.choice((1, 1, 1, 2, 2, 3))):
        part = rng.choice(list(slices)) if slices else None
        way = rng.randrange(5) if part else 0
        if way < 2:
            place = rng.randrange(len(numbers))
            signed = NEAR + FAR if len(numbers) == 12 and part == 'window' and place > 1 else ()
            numbers[place] = rng.choice(signed or SMALL + LARGE[:rng.randrange(1, 8)])
        elif way == 2:
            _resize(rng, slices[part])
        elif slices[part]:
            byte = part in BYTES
            slices[part][rng.randrange(len(slices[part]))] = rng.choice((1, 2, 4, 16, 255) if byte else NEAR + FAR)


def _resize(rng, numbers):
    length = len(numbers)
    other = rng.choice((0, length // 2, max(0, length - 1), max(0, length - 1), length + 1, length + 10, 2 * length))
    numbers[:] = (numbers + [0] * other)[:other]
