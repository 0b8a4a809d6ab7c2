"""Document 01's table of numbers, and the exception that carries one."""
from __future__ import annotations

import enum


class Number(enum.IntEnum):
    """Why a call is refused; 0 would be done. The lowest number that applies is given."""

    BAD_DEPTH = 1
    BAD_PLANE = 2
    BAD_FRAME_TYPE = 3
    BAD_FRAME_SIDE = 4
    BAD_UNIT_SIZE = 5
    WIDTH_SHRINKS = 6
    BAD_SHAPE = 7
    NOT_WIDER = 8
    BAD_EDGE_ROWS = 9
    BAD_UNIT_TABLE = 10
    BAD_UNIT = 11
    BAD_MARKS = 12
    BAD_INDEX = 13
    ALREADY_RESTORED = 14
    BAD_SAMPLE = 15
    SHORT_SCRATCH = 16


_REASONS = {
    Number.BAD_DEPTH: 'the depth is not 8, 10 or 12',
    Number.BAD_PLANE: 'the plane is above 2, or the subsampling is not (0,0), (1,0) or (1,1)',
    Number.BAD_FRAME_TYPE: 'the frame type is above 3',
    Number.BAD_FRAME_SIDE: 'a frame side is 0 or above 16384',
    Number.BAD_UNIT_SIZE: 'the unit size is not legal for the plane',
    Number.WIDTH_SHRINKS: 'the upscaled frame width is below the frame width',
    Number.BAD_SHAPE: "a plane's (or the window's) length or shape is wrong",
    Number.NOT_WIDER: "upscaling is asked for and the plane's two widths do not grow",
    Number.BAD_EDGE_ROWS: 'the edge rows are not 4 x plane width x (stripes - 1) long',
    Number.BAD_UNIT_TABLE: 'the unit table is not 10 x unit rows x unit columns long',
    Number.BAD_UNIT: 'some unit entry is not legal',
    Number.BAD_MARKS: 'the marks are not one per stripe, or one is not 0 or 1',
    Number.BAD_INDEX: 'the stripe or rectangle number is not below its count',
    Number.ALREADY_RESTORED: "the stripe's mark is 1: it is restored already",
    Number.BAD_SAMPLE: 'a sample that would be read is out of range',
    Number.SHORT_SCRATCH: 'the scratch or the stripe copy is too short',
}


class Refused(ValueError):
    """The library refuses a call: nothing was written.

    `number` is document 01's number, `reason` its condition in words, `detail` what was found and what was needed, where that is known.
    """

    def __init__(self, number: int, detail: str = '') -> None:
        super().__init__(number, detail)
        self.number = Number(number)
        self.reason = _REASONS[self.number]
        self.detail = detail

    def __str__(self) -> str:
        return f'refused {int(self.number)}: {self.reason}' + (f' ({self.detail})' if self.detail else '')
