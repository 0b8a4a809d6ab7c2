"""Buffers lent to a call: tested here for what the library cannot see, then handed over as address and length.

The library tests lengths, numbers and samples itself. It cannot see a wrong element type, a gap between rows, memory that may not be
written, or memory that is lent twice; each of these is a TypeError or ValueError here, before the call.
"""
from __future__ import annotations

import array
import contextlib
import ctypes
import sys
import threading
from typing import Any, Iterator, NamedTuple, Sequence

# Anything with the buffer protocol: a numpy array, array.array('i'), bytearray, memoryview, mmap.
Buffer = Any

_NATIVE = ('@', '=', '<' if sys.byteorder == 'little' else '>')
_KINDS = {'int32': (4, 'il'), 'uint8': (1, 'B'), 'uint16': (2, 'H')}


class _PyBuffer(ctypes.Structure):
    _fields_ = [
        ('buf', ctypes.c_void_p),
        ('obj', ctypes.c_void_p),
        ('len', ctypes.c_ssize_t),
        ('itemsize', ctypes.c_ssize_t),
        ('readonly', ctypes.c_int),
        ('ndim', ctypes.c_int),
        ('format', ctypes.c_char_p),
        ('shape', ctypes.c_void_p),
        ('strides', ctypes.c_void_p),
        ('suboffsets', ctypes.c_void_p),
        ('internal', ctypes.c_void_p),
    ]


_get = ctypes.pythonapi.PyObject_GetBuffer
_get.argtypes, _get.restype = [ctypes.py_object, ctypes.POINTER(_PyBuffer), ctypes.c_int], ctypes.c_int
_release = ctypes.pythonapi.PyBuffer_Release
_release.argtypes, _release.restype = [ctypes.POINTER(_PyBuffer)], None
# Where an empty buffer has no address of its own.
_NOWHERE = ctypes.create_string_buffer(8)


class Slice(NamedTuple):
    """A tested buffer. The view keeps its memory in place as long as it is held."""

    name: str
    view: memoryview
    address: int
    length: int
    writable: bool


def _address(view: memoryview) -> int:
    buffer = _PyBuffer()
    _get(view, ctypes.byref(buffer), 0)
    try:
        # An empty buffer may name any address, also one that is no multiple of its elements' size: it is not looked at.
        return view.nbytes and buffer.buf or ctypes.addressof(_NOWHERE)
    finally:
        _release(ctypes.byref(buffer))


def _kind(view: memoryview) -> str:
    """int32, uint8, uint16, or the format as it stands."""
    code = view.format[1:] if view.format[:1] in _NATIVE else view.format
    for kind, (size, codes) in _KINDS.items():
        if view.itemsize == size and len(code) == 1 and code in codes:
            return kind
    return f'format {view.format!r}'


def _view(name: str, buffer: Buffer) -> memoryview:
    try:
        return memoryview(buffer)
    except (TypeError, ValueError, BufferError) as error:
        raise TypeError(f'{name}: {type(buffer).__name__} lends no buffer: {error}') from None


def lent(name: str, buffer: Buffer, *kinds: str, writable: bool = False) -> Slice:
    """The buffer as a slice of one of the kinds (int32 where none is named), or a clear error."""
    view, kinds = _view(name, buffer), kinds or ('int32',)
    if _kind(view) not in kinds:
        found = getattr(buffer, 'dtype', _kind(view))
        raise TypeError(f'{name}: elements are {found}; {" or ".join(kinds)} in this machine\'s byte order is needed')
    if not view.c_contiguous:
        raise ValueError(f'{name}: not contiguous; rows have to follow each other without gaps')
    if writable and view.readonly:
        raise ValueError(f'{name}: read-only; the call writes to it')
    address = _address(view)
    if address % view.itemsize:
        raise ValueError(f'{name}: does not start at a multiple of {view.itemsize} bytes')
    return Slice(name, view, address, view.nbytes // view.itemsize, writable)


def fits(part: Slice, *shapes: Sequence[int]) -> None:
    """A slice of more than one dimension has one of the shapes, or a length that the library refuses."""
    lengths = {_product(shape) for shape in shapes}
    if part.view.ndim != 1 and part.length in lengths and part.view.shape not in [tuple(shape) for shape in shapes]:
        needed = ' or '.join(str(tuple(shape)) for shape in shapes)
        raise ValueError(f'{part.name}: shape {part.view.shape}; {needed}, or one dimension, is needed')


def _product(shape: Sequence[int]) -> int:
    length = 1
    for side in shape:
        length *= side
    return length


def room(shape: Sequence[int], like: Buffer = None) -> Buffer:
    """New int32 memory: a numpy array of that shape where `like` is one, else an array.array('i') of that length."""
    numpy = sys.modules.get('numpy')
    if numpy is not None and isinstance(like, numpy.ndarray):
        return numpy.zeros(shape, numpy.int32)
    return array.array('i', bytes(4 * _product(shape)))


_lock = threading.Lock()
# The slices of each call that is running.
_running: dict[object, Sequence[Slice]] = {}


def _overlap(one: Slice, other: Slice, where: str = '') -> None:
    if not (one.writable or other.writable) or not (one.length and other.length):
        return
    if one.address < other.address + other.view.nbytes and other.address < one.address + one.view.nbytes:
        raise ValueError(f'{one.name} overlaps {other.name}{where}, and the call writes to memory that is lent twice')


@contextlib.contextmanager
def lending(*parts: Slice) -> Iterator[list[int]]:
    """Addresses and lengths for the call; what is written overlaps nothing that is lent, by another thread's call neither."""
    token = object()
    with _lock:
        for place, part in enumerate(parts):
            for other in parts[:place]:
                _overlap(part, other)
            for others in _running.values():
                for other in others:
                    _overlap(part, other, ' of a call that is still running')
        _running[token] = parts
    try:
        yield [number for part in parts for number in (part.address, part.length)]
    finally:
        with _lock:
            del _running[token]
