"""AV1 loop restoration and superres upscaling of one plane, by a library in which every call is proved.

The calls take int32 planes in numpy arrays or in anything else with the buffer protocol, do their work or raise `Refused`, and write
nothing where they raise. Case B of the library's own document:

    >>> from array import array
    >>> import cironetop
    >>> frame = cironetop.Frame(plane=0, sub_x=0, sub_y=0, depth=8, frame_height=1, upscaled_width=7, unit_size=64, frame_type=1)
    >>> units = [cironetop.Unit.wiener((3, -7, 15), (3, -7, 15))]
    >>> restored = cironetop.restore_plane(frame, units, deblocked=array('i', [0] * 7), cdef=array('i', [0, 0, 0, 100, 0, 0, 0]))
    >>> restored.plane.tolist(), restored.changed
    ([2, 0, 12, 83, 12, 0, 2], 5)

Calls run without the interpreter's lock: threads may work on different planes at once. Memory that is lent to a running call must not be
changed meanwhile; two calls that lend the same memory, one of them to be written, are told apart here.
"""
from ._calls import Restored, capture_edges, restore_plane, restore_sample, restore_stripe, upscale_plane
from ._frames import Counts, Frame, Lengths, Rectangle, Scaling, Unit, count, rectangle, rectangles
from ._library import LibraryMissing
from ._refused import Number, Refused

__all__ = [
    'Counts',
    'Frame',
    'Lengths',
    'LibraryMissing',
    'Number',
    'Rectangle',
    'Refused',
    'Restored',
    'Scaling',
    'Unit',
    'capture_edges',
    'count',
    'rectangle',
    'rectangles',
    'restore_plane',
    'restore_sample',
    'restore_stripe',
    'upscale_plane',
]
