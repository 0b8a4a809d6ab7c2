"""python3 -m cironetop: planes in files restored, upscaled, shown."""
from __future__ import annotations

import argparse
import operator
import sys
from array import array
from typing import Callable, Optional, Sequence, Type, TypeVar

from . import _files
from ._calls import capture_edges, restore_plane, restore_stripe, upscale_plane
from ._files import Record, Restoration, Upscaling
from ._frames import Frame, Scaling, count
from ._library import LibraryMissing
from ._progress import Progress
from ._refused import Refused

Kind = TypeVar('Kind', Restoration, Upscaling)
_SUBSAMPLINGS = {'444': (0, 0), '422': (1, 0), '420': (1, 1)}


class Wrong(Exception):
    """What the command cannot do, in words."""


def main(arguments: Optional[Sequence[str]] = None) -> int:
    """The command's status: 0 done; 1 refused, or samples that are not the recorded ones; 2 wrong words."""
    words = _parser().parse_args(arguments)
    try:
        line, status = words.run(words)
    except (Wrong, Refused, LibraryMissing, OSError, ValueError) as error:
        print(f'cironetop: {error}', file=sys.stderr)
        return 2 if isinstance(error, Wrong) else 1
    print(line)
    return int(status)


def _parser() -> argparse.ArgumentParser:
    description = 'AV1 loop restoration and superres upscaling of planes in files.'
    parser = argparse.ArgumentParser(prog='python3 -m cironetop', description=description)
    commands = parser.add_subparsers(dest='command', required=True)
    for name, run, text in (
        ('restore', _restore, 'Restore the planes of a vector file, or one raw plane.'),
        ('upscale', _upscale, 'Upscale the planes of a vector file, or one raw plane.'),
        ('show', _show, 'Write a PNG of where and how much restoration changes a plane.'),
    ):
        command = commands.add_parser(name, help=text, description=f'{text} Raw files hold 16-bit little-endian numbers, row after row.')
        command.set_defaults(run=run)
        command.add_argument('file', nargs='?', help='a vector file (.vec, .vec.xz)')
        command.add_argument('--record', type=int, metavar='N', help='only this record of the file, from 0')
        command.add_argument('--out', metavar='FILE', required=name == 'show', help=_out_text(name))
        _add_plane(command)
        if name == 'upscale':
            _add_upscaling(command)
        else:
            _add_restoration(command)
    return parser


def _out_text(name: str) -> str:
    return 'the picture' if name == 'show' else 'where the answer goes: a vector file where it ends in .vec or .vec.xz, else raw'


def _add_plane(command: argparse.ArgumentParser) -> None:
    command.add_argument('--plane', type=int, default=0, help='0, 1 or 2 (default 0)')
    command.add_argument('--subsampling', choices=_SUBSAMPLINGS, default='420', help='of the frame (default 420)')
    command.add_argument('--depth', type=int, default=8, help='bits of a sample (default 8)')
    command.add_argument('--width', type=int, help='frame width in luma samples; of restore and show the upscaled one')
    command.add_argument('--height', type=int, help='frame height in luma samples')


def _add_restoration(command: argparse.ArgumentParser) -> None:
    command.add_argument('--deblocked', metavar='RAW', help='the deblocked plane')
    command.add_argument('--cdef', metavar='RAW', help='the CDEF plane')
    command.add_argument('--units', metavar='RAW', help='the unit table: ten numbers a unit, two\'s complement')
    command.add_argument('--unit', metavar='TEN', help='ten numbers with commas between, for every unit: --unit=1,3,-7,15,3,-7,15,0,0,0')
    command.add_argument('--unit-size', type=int, default=64, help='(default 64)')
    command.add_argument('--frame-type', type=int, default=3, help='0 to 3 (default 3)')
    command.add_argument('--in-place', action='store_true', help='stripe by stripe, where the CDEF plane lies; the same answer')


def _add_upscaling(command: argparse.ArgumentParser) -> None:
    command.add_argument('--input', metavar='RAW', help='the plane')
    command.add_argument('--upscaled-width', type=int, help='frame width after it')
    command.add_argument('--cols', type=int, help="the input's columns, where it has more than its plane")


def _records(words: argparse.Namespace, kind: Type[Kind], raw: Callable[[argparse.Namespace], Kind]) -> list[Kind]:
    """The records of the file that are of that kind, or the raw one."""
    if words.file is None:
        return [raw(words)]
    given = [name for name in ('deblocked', 'cdef', 'units', 'unit', 'input') if getattr(words, name, None) is not None]
    if given:
        raise Wrong(f'{words.file} has its own planes: no --{given[0]} beside it')
    found = _files.read(words.file)
    if words.record is not None:
        if not 0 <= words.record < len(found):
            raise Wrong(f'{words.file} has {len(found)} records, from 0')
        found = [found[words.record]]
    of_kind = [record for record in found if isinstance(record, kind)]
    if not of_kind:
        raise Wrong(f'{words.file}: no such record is of {"restoration" if kind is Restoration else "upscaling"}')
    return of_kind


def _needed(words: argparse.Namespace, *names: str) -> None:
    missing = ', '.join('--' + name.replace('_', '-') for name in names if getattr(words, name) is None)
    if missing:
        raise Wrong(f'without a vector file {missing} must be given')


def _raw_restoration(words: argparse.Namespace) -> Restoration:
    _needed(words, 'deblocked', 'cdef', 'width', 'height')
    frame = Frame(words.plane, *_SUBSAMPLINGS[words.subsampling], words.depth, words.height, words.width, words.unit_size, words.frame_type)
    deblocked, cdef = _files.read_raw(words.deblocked), _files.read_raw(words.cdef)
    return Restoration(frame, _units(words, frame), deblocked, cdef, array('i'))


def _units(words: argparse.Namespace, frame: Frame) -> array[int]:
    if words.units is not None:
        return _files.read_raw(words.units, signed=True)
    if words.unit is None:
        if frame.frame_type:
            raise Wrong('--units or --unit must be given')
        return array('i')
    try:
        entry = array('i', [int(number) for number in words.unit.split(',')])
    except (ValueError, OverflowError):
        raise Wrong(f'--unit {words.unit}: numbers with commas between are needed') from None
    counts = count(frame)
    return entry * (counts.unit_rows * counts.unit_cols)


def _raw_upscaling(words: argparse.Namespace) -> Upscaling:
    _needed(words, 'input', 'width', 'upscaled_width', 'height')
    sub_x, sub_y = _SUBSAMPLINGS[words.subsampling]
    across, down = (sub_x, sub_y) if words.plane else (0, 0)
    source = _files.read_raw(words.input)
    cols = (words.width + across >> across) if words.cols is None else words.cols
    shapes = [len(source) // cols if cols > 0 else 0, cols, words.height + down >> down, words.upscaled_width + across >> across]
    scaling = Scaling(words.plane, sub_x, sub_y, words.depth, words.width, words.upscaled_width, words.height, 1, *shapes)
    return Upscaling(scaling, 0, source, array('i'))


def _restored(record: Restoration, in_place: bool, progress: Progress) -> tuple[array[int], int]:
    """The restored plane and its count of changed samples."""
    if not in_place:
        found = restore_plane(*record[:4])
        progress.step()
        return found
    edges = capture_edges(record.frame, record.deblocked)
    lengths = record.frame.lengths()
    plane, marks = array('i', record.cdef), bytearray(lengths.marks)
    scratch, copy = (array('i', bytes(4 * length)) for length in (lengths.scratch, lengths.copy))
    for stripe in range(lengths.marks):
        restore_stripe(record.frame, stripe, record.units, edges, plane, marks, scratch, copy)
        progress.step()
    return plane, _differ(plane, record.cdef)


def _restoring(records: Sequence[Restoration], in_place: bool) -> Progress:
    """Counts planes, or in place their stripes, of 64 luma rows each."""
    if in_place:
        return Progress('restoring, stripes', sum((record.frame.frame_height + 7) // 64 + 1 for record in records))
    return Progress('restoring, planes', len(records))


def _restore(words: argparse.Namespace) -> tuple[str, int]:
    records = _records(words, Restoration, _raw_restoration)
    answers: list[Restoration] = []
    changed = different = 0
    with _restoring(records, words.in_place) as progress:
        for record in records:
            plane, more = _restored(record, words.in_place, progress)
            changed += more
            different += _differ(plane, record.restored)
            answers.append(record._replace(restored=plane))
    how = ' in place' if words.in_place else ''
    planes = [record.restored for record in answers]
    line = f'restored {_planes(planes)}{how}, {sum(map(len, planes))} samples, {changed} changed'
    return _ended(words, line, answers, planes, different)


def _upscale(words: argparse.Namespace) -> tuple[str, int]:
    records = _records(words, Upscaling, _raw_upscaling)
    answers: list[Upscaling] = []
    different = 0
    with Progress('upscaling, planes', len(records)) as progress:
        for record in records:
            plane = upscale_plane(record.scaling, record.input)
            different += _differ(plane, record.output)
            answers.append(record._replace(output=plane))
            progress.step()
    planes = [record.output for record in answers]
    line = f'upscaled {_planes(planes)}, {sum(len(record.input) for record in records)} samples to {sum(map(len, planes))}'
    return _ended(words, line, answers, planes, different)


def _planes(planes: Sequence[array[int]]) -> str:
    return '1 plane' if len(planes) == 1 else f'{len(planes)} planes'


def _differ(plane: Sequence[int], recorded: Sequence[int]) -> int:
    """Samples that are not the recorded ones; a raw record has none."""
    if not recorded:
        return 0
    return sum(map(bool, map(operator.ne, plane, recorded))) + abs(len(plane) - len(recorded))


def _ended(
    words: argparse.Namespace, line: str, answers: Sequence[Record], planes: Sequence[array[int]], different: int
) -> tuple[str, int]:
    if words.file is not None:
        line += f'; {different} differ from those recorded in {words.file}'
    if words.out is not None:
        _write(words.out, answers, planes)
        line += f'; wrote {words.out}'
    return line, int(different > 0)


def _write(path: str, answers: Sequence[Record], planes: Sequence[array[int]]) -> None:
    if path.endswith(('.vec', '.vec.xz')):
        _files.write(path, answers)
    elif len(planes) == 1:
        _files.write_raw(path, planes[0])
    else:
        raise Wrong(f'{path}: a raw file holds one plane; --record picks one')


def _show(words: argparse.Namespace) -> tuple[str, int]:
    try:
        from . import _picture
    except ImportError:
        raise Wrong('show draws with Pillow (Debian: python3-pil), which is not installed') from None
    records = _records(words, Restoration, _raw_restoration)
    if words.file is not None and words.record is None and len(records) > 1:
        print(f'cironetop: the first of {len(records)} records of restoration; --record picks another', file=sys.stderr)
    record = records[0]
    with _restoring([record], words.in_place) as progress:
        plane, changed = _restored(record, words.in_place, progress)
    different = _differ(plane, record.restored)
    with Progress('drawing, parts', _picture.PARTS) as progress:
        width, height = _picture.write(words.out, record._replace(restored=plane), words.file or words.cdef, progress)
    line = f'showed {changed} changed of {len(plane)} samples; wrote {words.out}, {width} x {height}'
    if different:
        line += f'; {different} differ from those recorded in {words.file}'
    return line, int(different > 0)
