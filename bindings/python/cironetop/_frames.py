"""The numbers of a call, what a plane is cut into, and the lengths that follow."""
from __future__ import annotations

import operator
from typing import Any, Iterator, NamedTuple, Sequence

from . import _library
from ._refused import Refused


def whole(name: str, value: Any, bits: int = 32, signed: bool = False) -> int:
    """The value as a whole number that fits, or a clear error: ctypes would cut it without a word."""
    try:
        number = operator.index(value)
    except TypeError:
        raise TypeError(f'{name}: {value!r} is not a whole number') from None
    low, high = (-1 << bits - 1, (1 << bits - 1) - 1) if signed else (0, (1 << bits) - 1)
    if not low <= number <= high:
        raise ValueError(f'{name}: {number} is not within {low} .. {high}')
    return number


class Frame(NamedTuple):
    """One plane of a frame, in the job's order. Any numbers may stand here: the calls test them."""

    #: 0, 1 or 2
    plane: int
    #: the frame's subsampling across and down, (0, 0), (1, 0) or (1, 1); plane 0 reads it as (0, 0)
    sub_x: int
    sub_y: int
    #: bits of a sample: 8, 10 or 12
    depth: int
    #: luma rows, and luma columns after superres: 1 to 16384
    frame_height: int
    upscaled_width: int
    #: 64, 128 or 256; also 32 on planes 1 and 2 where both axes are subsampled
    unit_size: int
    #: 0 to 3; 0: nothing is restored; 1 to 3 do the same work, since each unit has its own type
    frame_type: int

    def lengths(self) -> Lengths:
        """The lengths that follow from plane, subsampling and sides. Raises Refused 2 or 4."""
        # Size 64 is legal on every plane, and stripes do not depend on it.
        frame = self._replace(unit_size=64)
        stripes, first = count(frame).stripes, rectangle(frame, 0)
        width, height = first.plane_end_x + 1, first.plane_end_y + 1
        rows = min(height, 32 if frame.plane and frame.sub_y else 64)
        scratch = 6 * (min(width, 383) + 8) * (rows + 8)
        return Lengths(width, height, width * height, 4 * width * (stripes - 1), stripes, scratch, width * rows)


class Lengths(NamedTuple):
    """What a frame's calls ask for, in samples; marks in bytes. Scratch and copy may be longer."""

    width: int
    height: int
    plane: int
    edges: int
    marks: int
    scratch: int
    copy: int


class Scaling(NamedTuple):
    """One plane's upscaling. Any numbers may stand here: the call tests them."""

    plane: int
    sub_x: int
    sub_y: int
    depth: int
    #: the frame's width before and after
    frame_width: int
    upscaled_width: int
    frame_height: int
    #: 0 clear, else set
    use_superres: int
    #: the shapes of both planes; the input may have more rows and columns than its plane
    in_rows: int
    in_cols: int
    out_rows: int
    out_cols: int


class Unit(NamedTuple):
    """The ten numbers of a unit's entry. Those that the type does not use are not looked at."""

    #: 0 none, 1 Wiener, 2 self-guided
    type: int = 0
    #: Wiener coefficients, vertical then horizontal: -5..10, -23..8, -17..46
    v0: int = 0
    v1: int = 0
    v2: int = 0
    h0: int = 0
    h1: int = 0
    h2: int = 0
    #: the set 0..15 and the weights -96..31, -32..95 of a self-guided unit
    set: int = 0
    w0: int = 0
    w1: int = 0

    @classmethod
    def none(cls) -> Unit:
        return cls()

    @classmethod
    def wiener(cls, vertical: Sequence[int], horizontal: Sequence[int]) -> Unit:
        v0, v1, v2 = vertical
        h0, h1, h2 = horizontal
        return cls(1, v0, v1, v2, h0, h1, h2)

    @classmethod
    def self_guided(cls, set: int, w0: int, w1: int) -> Unit:
        return cls(2, set=set, w0=w0, w1=w1)


class Counts(NamedTuple):
    """What a plane is cut into; a rectangle is one stripe's part of one unit column."""

    unit_rows: int
    unit_cols: int
    stripes: int
    rectangles: int


class Rectangle(NamedTuple):
    """One stripe's part of one unit column: its unit, its place and size, its stripe's rows, the plane's last column and row."""

    unit_row: int
    unit_col: int
    x: int
    y: int
    w: int
    h: int
    stripe_start_y: int
    stripe_end_y: int
    plane_end_x: int
    plane_end_y: int


def c_frame(frame: Sequence[int]) -> Any:
    return _record(_library.CFrame, 'frame', frame)


def c_scaling(scaling: Sequence[int]) -> Any:
    return _record(_library.CScaling, 'scaling', scaling)


def _record(record: Any, what: str, numbers: Sequence[int]) -> Any:
    names = [name for name, _ in record._fields_]
    try:
        numbers = list(numbers)
    except TypeError:
        raise TypeError(f'{what}: {numbers!r} is not a sequence of {len(names)} numbers') from None
    if len(numbers) != len(names):
        raise ValueError(f'{what}: {len(numbers)} numbers; {len(names)} are needed: {", ".join(names)}')
    return record(*(whole(name, number) for name, number in zip(names, numbers)))


def numbers_of(record: Any) -> list[int]:
    """The numbers of a C struct."""
    return [getattr(record, name) for name, _ in record._fields_]


def count(frame: Sequence[int]) -> Counts:
    """Unit rows and columns, stripes and rectangles of a plane; depth and frame type are not looked at.

    Raises Refused 2, 4 or 5.
    """
    found = _library.call('count')(c_frame(frame))
    if found.number:
        raise Refused(found.number)
    return Counts(*numbers_of(found)[1:])


def rectangle(frame: Sequence[int], index: int) -> Rectangle:
    """The rectangle of that index: stripe by stripe, left to right. They cover each sample once.

    Raises Refused 2, 4, 5 or 13.
    """
    found = _library.call('rectangle')(c_frame(frame), whole('index', index))
    if found.number == 13:
        raise Refused(13, f'rectangle {index}; the plane has {count(frame).rectangles}')
    if found.number:
        raise Refused(found.number)
    return Rectangle(*numbers_of(found)[1:])


def rectangles(frame: Sequence[int]) -> Iterator[Rectangle]:
    """All rectangles of a plane. Raises Refused 2, 4 or 5."""
    return (rectangle(frame, index) for index in range(count(frame).rectangles))
