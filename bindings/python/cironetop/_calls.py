"""The calls on planes, edge rows and windows."""
from __future__ import annotations

import array
from typing import Any, Callable, NamedTuple, Optional, Sequence, Union

from . import _library
from ._buffers import Buffer, Slice, fits, lending, lent, room
from ._frames import Counts, Frame, Lengths, Scaling, Unit, c_frame, c_scaling, count, numbers_of, whole
from ._refused import Refused

# A flat int32 buffer, one whose last dimension is 10, or a sequence of entries of ten numbers.
Units = Union[Buffer, Sequence[Sequence[int]]]

# The slices that a number is about.
_ABOUT = {7: ('deblocked', 'cdef', 'out', 'plane'), 9: ('edges',), 10: ('units',), 12: ('marks',), 16: ('scratch', 'copy')}


class Restored(NamedTuple):
    """The restored plane, and the number of its samples that differ from CDEF."""

    plane: Buffer
    changed: int


class _Plane:
    """What is known of a frame's plane before a call: nothing, where the library will refuse the frame."""

    def __init__(self, frame: Sequence[int]) -> None:
        self.numbers = c_frame(frame)
        known = Frame(*numbers_of(self.numbers))
        self.lengths: Optional[Lengths] = _unless_refused(known.lengths)
        self.counts: Optional[Counts] = _unless_refused(lambda: count(known))
        self.shape = (self.lengths.height, self.lengths.width) if self.lengths else (0,)

    def needed(self, name: str) -> int:
        """The length of the slice of that name."""
        if name == 'units':
            return 10 * self.counts.unit_rows * self.counts.unit_cols if self.counts else 0
        return int(getattr(self.lengths, 'plane' if name in _ABOUT[7] else name)) if self.lengths else 0

    def plane(self, name: str, buffer: Buffer, writable: bool = False) -> Slice:
        part = lent(name, buffer, writable=writable)
        if self.lengths:
            fits(part, self.shape)
        return part

    def units(self, units: Units) -> Slice:
        part = lent('units', _table(units))
        if self.counts:
            rows, cols = self.counts.unit_rows, self.counts.unit_cols
            fits(part, (rows, cols, 10), (rows * cols, 10))
        return part

    def edges(self, buffer: Buffer, writable: bool = False) -> Slice:
        part = lent('edges', buffer, writable=writable)
        if self.lengths:
            fits(part, self.edge_shape(), (4 * (self.lengths.marks - 1), self.lengths.width))
        return part

    def edge_shape(self) -> tuple[int, ...]:
        return (self.lengths.marks - 1, 4, self.lengths.width) if self.lengths else (0,)

    def spare(self, name: str, buffer: Optional[Buffer]) -> Slice:
        """Scratch or copy: the caller's, or new."""
        return lent(name, room((self.needed(name),)) if buffer is None else buffer, writable=True)

    def refused(self, number: int, parts: Sequence[Slice], detail: str = '') -> Refused:
        """With what was found and needed, where the number is about lengths."""
        about = [part for part in parts if part.name in _ABOUT.get(number, ())]
        wrong = [part for part in about if part.length < self.needed(part.name) or number != 16 and part.length > self.needed(part.name)]
        found = [f'{part.name} has {part.length} numbers, {self.needed(part.name)} are needed' for part in wrong]
        return Refused(number, '; '.join(found) or detail)


def _unless_refused(make: Callable[[], Any]) -> Any:
    try:
        return make()
    except Refused:
        return None


def _table(units: Units) -> Buffer:
    """The units as a buffer; a sequence of entries becomes a flat one."""
    if not isinstance(units, (list, tuple)):
        return units
    return array.array('i', [number for place, entry in enumerate(units) for number in _entry(f'units: entry {place}', entry)])


def _entry(name: str, entry: Sequence[int]) -> list[int]:
    try:
        numbers = list(entry)
    except TypeError:
        raise TypeError(f'{name}: {entry!r} is not a sequence of ten numbers') from None
    if len(numbers) != 10:
        raise ValueError(f'{name}: {len(numbers)} numbers; ten are needed: {", ".join(Unit._fields)}')
    return [whole(f'{name}, {field}', number, signed=True) for field, number in zip(Unit._fields, numbers)]


def restore_plane(
    frame: Sequence[int], units: Units, deblocked: Buffer, cdef: Buffer, out: Optional[Buffer] = None, scratch: Optional[Buffer] = None
) -> Restored:
    """Restore a whole plane.

    `deblocked`, `cdef` and `out` are int32, of one dimension or of shape (height, width). Without `out` the plane is new: a numpy array
    where `cdef` is one, else an array.array. `scratch` may be lent for many calls (`Frame.lengths().scratch`).

    Raises Refused 1 to 5, 7, 10, 11, 15 or 16; with frame type 0, which copies CDEF, not 5, 10, 11, 16.
    """
    plane = _Plane(frame)
    parts = [plane.units(units), plane.plane('deblocked', deblocked), plane.plane('cdef', cdef)]
    name = 'out'
    if out is None:
        # A CDEF plane of another length is refused: no memory for its answer, and no word about it.
        name, out = 'new plane', room(plane.shape if parts[2].length == plane.needed('out') else (0,), like=cdef)
    parts += [plane.plane(name, out, writable=True), plane.spare('scratch', scratch)]
    with lending(*parts) as slices:
        found = _library.call('restore_plane')(plane.numbers, *slices)
    if found.number:
        raise plane.refused(found.number, parts)
    return Restored(out, found.changed)


def capture_edges(frame: Sequence[int], deblocked: Buffer, edges: Optional[Buffer] = None) -> Buffer:
    """The deblocked rows around each boundary between stripes, which stripes in place need: four rows a boundary.

    Without `edges` they are new, of shape (boundaries, 4, width) where `deblocked` is a numpy array. Unit size and frame type are not
    looked at. Raises Refused 1, 2, 4, 7, 9 or 15.
    """
    plane = _Plane(frame)
    source = plane.plane('deblocked', deblocked)
    if edges is None:
        edges = room(plane.edge_shape() if source.length == plane.needed('deblocked') else (0,), like=deblocked)
    parts = [source, plane.edges(edges, writable=True)]
    with lending(*parts) as slices:
        number = _library.call('capture_edges')(plane.numbers, *slices)
    if number:
        raise plane.refused(number, parts)
    return edges


def restore_stripe(
    frame: Sequence[int],
    stripe: int,
    units: Units,
    edges: Buffer,
    plane: Buffer,
    marks: Buffer,
    scratch: Optional[Buffer] = None,
    copy: Optional[Buffer] = None,
) -> None:
    """Restore one stripe in place: write its rows to `plane` and set its mark to 1. Stripes may come in any order, each once.

    `plane` holds CDEF where no mark is set; `edges` is what `capture_edges` gave; `marks` are uint8, one per stripe (a bytearray, or a
    numpy array), all 0 before the first stripe.

    Raises Refused 1 to 5, 7 or 9 to 16; with frame type 0, which only sets the mark, not 5, 10, 11, 16.
    """
    known = _Plane(frame)
    index = whole('stripe', stripe)
    parts = [known.units(units), known.edges(edges), known.plane('plane', plane, writable=True)]
    parts += [lent('marks', marks, 'uint8', writable=True), known.spare('scratch', scratch), known.spare('copy', copy)]
    with lending(*parts) as slices:
        number = _library.call('restore_stripe')(known.numbers, index, *slices)
    if number:
        raise known.refused(number, parts, f'stripe {index} of {known.needed("marks")}' if number in (13, 14) else '')


def upscale_plane(scaling: Sequence[int], input: Buffer, output: Optional[Buffer] = None) -> Buffer:
    """Upscale a plane; copy it where the flag is clear or the frame widths are equal. Gives `output`, which is new where it is not lent.

    Raises Refused 1, 2, 4, 6, 7, 8 or 15.
    """
    numbers = c_scaling(scaling)
    asked = Scaling(*numbers_of(numbers))
    before, after = (asked.in_rows, asked.in_cols), (asked.out_rows, asked.out_cols)
    source = lent('input', input)
    fits(source, before)
    if output is None:
        # Shapes that no legal call has are refused: no memory for their answer.
        legal = before == after or asked.out_rows <= min(asked.in_rows, 16384) and asked.out_cols <= 16384
        output = room(after if legal and source.length == asked.in_rows * asked.in_cols else (0,), like=input)
    target = lent('output', output, writable=True)
    fits(target, after)
    with lending(source, target) as slices:
        number = _library.call('upscale_plane')(numbers, *slices)
    if number:
        found = f'input has {source.length} numbers for {before[0]} x {before[1]}, output {target.length} for {after[0]} x {after[1]}'
        raise Refused(number, found if number == 7 else '')
    return output


def restore_sample(depth: int, row: int, unit: Sequence[int], window: Buffer) -> int:
    """Restore one sample from its 7 by 7 source window, whose middle is the CDEF sample; of `row` only its being odd or even counts.

    `window` is 98 bytes, low byte first, or 49 uint16 (7 by 7). Raises Refused 1, 7, 11 or 15.
    """
    numbers = [whole('depth', depth), whole('row', row), *_entry('unit', unit)]
    part = _window(window)
    with lending(part):
        found = int(_library.call('restore_sample')(*numbers, part.address, part.view.nbytes))
    if found < 0:
        raise Refused(-found, f'the window has {part.view.nbytes} bytes, 98 are needed' if found == -7 else '')
    return found


def _window(window: Buffer) -> Slice:
    """Bytes, or samples of two bytes, which lie low byte first on the machines that the library is for."""
    part = lent('window', window, 'uint8', 'uint16')
    if part.view.itemsize == 2:
        fits(part, (7, 7))
    return part
