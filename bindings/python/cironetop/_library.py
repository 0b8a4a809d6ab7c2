"""The shared library: where it is, and its calls as ctypes knows them."""
from __future__ import annotations

import ctypes
import functools
import os
from ctypes import c_int32, c_size_t, c_uint32, c_void_p
from pathlib import Path
from typing import Any, Sequence


def _record(name: str, unsigned: str, signed: str = '') -> type[ctypes.Structure]:
    fields = [(field, c_uint32) for field in unsigned.split()] + [(field, c_int32) for field in signed.split()]
    return type(name, (ctypes.Structure,), {'_fields_': fields})


CFrame: Any = _record('CFrame', 'plane sub_x sub_y depth frame_height upscaled_width unit_size frame_type')
CScaling: Any = _record(
    'CScaling', 'plane sub_x sub_y depth frame_width upscaled_width frame_height use_superres in_rows in_cols out_rows out_cols'
)
_Restored = _record('_Restored', 'number changed')
_Counted = _record('_Counted', 'number unit_rows unit_cols stripes rectangles')
_Placed = _record('_Placed', 'number unit_row unit_col x y w h', 'stripe_start_y stripe_end_y plane_end_x plane_end_y')

# Result, then parameters; each slice is an address and a count.
_CALLS: dict[str, tuple[Any, Sequence[Any], int]] = {
    'restore_sample': (c_int32, [c_uint32] * 2 + [c_int32] * 10, 1),
    'restore_plane': (_Restored, [CFrame], 5),
    'capture_edges': (c_uint32, [CFrame], 2),
    'restore_stripe': (c_uint32, [CFrame, c_uint32], 6),
    'upscale_plane': (c_uint32, [CScaling], 2),
    'count': (_Counted, [CFrame], 0),
    'rectangle': (_Placed, [CFrame, c_uint32], 0),
}


class LibraryMissing(ImportError):
    """The shared library is not there."""


def path() -> Path:
    """The file that `CIRONETOP_SHARED` names, or else libcironetop.so beside this module."""
    return Path(os.environ.get('CIRONETOP_SHARED') or Path(__file__).with_name('libcironetop.so'))


@functools.lru_cache(maxsize=None)
def _load() -> ctypes.CDLL:
    try:
        return ctypes.CDLL(str(path()))
    except OSError as error:
        raise LibraryMissing(f'{error}; bindings/python/build.py makes it, CIRONETOP_SHARED names another') from None


@functools.lru_cache(maxsize=None)
def call(name: str) -> Any:
    """The library's call of that name. It runs without the interpreter's lock."""
    found = getattr(_load(), f'cironetop_{name}')
    found.restype, numbers, slices = _CALLS[name]
    found.argtypes = [*numbers, *[c_void_p, c_size_t] * slices]
    return found
