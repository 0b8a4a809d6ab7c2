"""Raw planes of 16-bit little-endian numbers, and vector files: planes of real decoders with what they were made from."""
from __future__ import annotations

import array
import lzma
import struct
import sys
from pathlib import Path
from typing import Iterable, Iterator, NamedTuple, Sequence, Union

from ._frames import Frame, Scaling

_XZ = b'\xfd7zXZ\x00'
_CODES = {1: 'B', 2: 'H'}


class Restoration(NamedTuple):
    """Record LRV1: a plane before restoration, and after it."""

    frame: Frame
    units: array.array[int]
    deblocked: array.array[int]
    cdef: array.array[int]
    restored: array.array[int]


class Upscaling(NamedTuple):
    """Record SRV1: a plane before upscaling, and after it. The stage is the decoder's: 0 deblocked, 1 CDEF."""

    scaling: Scaling
    stage: int
    input: array.array[int]
    output: array.array[int]


Record = Union[Restoration, Upscaling]


def read_raw(path: str, signed: bool = False) -> array.array[int]:
    """The file's 16-bit little-endian numbers as int32."""
    data = Path(path).read_bytes()
    if len(data) % 2:
        raise ValueError(f'{path}: {len(data)} bytes are no row of 16-bit numbers')
    return _numbers(data, 'h' if signed else 'H')


def write_raw(path: str, numbers: Iterable[int]) -> None:
    Path(path).write_bytes(_bytes(numbers, 2))


def read(path: str) -> list[Record]:
    """The records of a vector file, with xz or without."""
    data = Path(path).read_bytes()
    if data.startswith(_XZ):
        try:
            data = lzma.decompress(data)
        except lzma.LZMAError as error:
            raise ValueError(f'{path}: {error}') from None
    try:
        return list(_records(data))
    except (struct.error, ValueError) as error:
        raise ValueError(f'{path} is no vector file: {error}') from None


def write(path: str, records: Iterable[Record]) -> None:
    """A vector file; with xz where the name ends so."""
    data = b''.join(_record(record) for record in records)
    Path(path).write_bytes(lzma.compress(data) if str(path).endswith('.xz') else data)


def _numbers(data: bytes, code: str) -> array.array[int]:
    found = array.array(code)
    found.frombytes(data)
    if sys.byteorder == 'big':
        found.byteswap()
    return array.array('i', found)


def _bytes(numbers: Iterable[int], size: int) -> bytes:
    mask = (1 << 8 * size) - 1
    packed = array.array(_CODES[size], (number & mask for number in numbers))
    if sys.byteorder == 'big':
        packed.byteswap()
    return packed.tobytes()


class _Sections:
    def __init__(self, data: bytes) -> None:
        self.data, self.place, self.size = data, 0, 1

    def take(self, length: int) -> bytes:
        part = self.data[self.place:self.place + length]
        if len(part) < length:
            raise ValueError('it ends inside a record')
        self.place += length
        return part

    def next(self, signed: bool = False) -> array.array[int]:
        count, self.size = struct.unpack('<IB', self.take(5))
        if self.size not in _CODES:
            raise ValueError(f'a section has numbers of {self.size} bytes')
        return _numbers(self.take(count * self.size), 'h' if signed and self.size == 2 else _CODES[self.size])

    def added(self, before: array.array[int]) -> array.array[int]:
        """The next section is told by what it differs from the one before."""
        more = self.next()
        if len(more) != len(before):
            raise ValueError('the planes of a record differ in length')
        mask = (1 << 8 * self.size) - 1
        return array.array('i', [a + b & mask for a, b in zip(before, more)])


def _records(data: bytes) -> Iterator[Record]:
    sections = _Sections(data)
    while sections.place < len(data):
        magic = sections.take(4)
        if magic == b'LRV1':
            yield _restoration(sections)
        elif magic == b'SRV1':
            yield _upscaling(sections)
        else:
            raise ValueError(f'a record starts with {magic!r}')


def _header(sections: _Sections, length: int) -> list[int]:
    numbers = sections.next().tolist()
    if len(numbers) != length:
        raise ValueError(f'a record\'s frame has {len(numbers)} numbers, not {length}')
    return numbers


def _restoration(sections: _Sections) -> Restoration:
    frame = Frame(*_header(sections, 8))
    units, deblocked = sections.next(signed=True), sections.next()
    cdef = sections.added(deblocked)
    return Restoration(frame, units, deblocked, cdef, sections.added(cdef))


def _upscaling(sections: _Sections) -> Upscaling:
    plane, sub_x, sub_y, depth, height, width, upscaled, rows, cols, stage = _header(sections, 10)
    across, down = (sub_x, sub_y) if plane else (0, 0)
    shape = (height + down >> down, upscaled + across >> across)
    scaling = Scaling(plane, sub_x, sub_y, depth, width, upscaled, height, 1, rows, cols, *shape)
    return Upscaling(scaling, stage, sections.next(), sections.next())


def _section(numbers: Sequence[int], size: int) -> bytes:
    return struct.pack('<IB', len(numbers), size) + _bytes(numbers, size)


def _less(after: Sequence[int], before: Sequence[int]) -> list[int]:
    return [a - b for a, b in zip(after, before)]


def _record(record: Record) -> bytes:
    if isinstance(record, Restoration):
        size = 1 if record.frame.depth == 8 else 2
        steps = [record.deblocked, _less(record.cdef, record.deblocked), _less(record.restored, record.cdef)]
        head = [b'LRV1', _section(record.frame, 2), _section(record.units, 2)]
    else:
        s = record.scaling
        size = 1 if s.depth == 8 else 2
        frame = [s.plane, s.sub_x, s.sub_y, s.depth, s.frame_height, s.frame_width, s.upscaled_width, s.in_rows, s.in_cols, record.stage]
        steps = [record.input, record.output]
        head = [b'SRV1', _section(frame, 2)]
    return b''.join(head + [_section(step, size) for step in steps])
