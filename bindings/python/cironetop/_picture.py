"""A picture of where and how much restoration changed a plane: its units outlined, each named by its type."""
from __future__ import annotations

import operator
import os
from array import array
from typing import Any, NamedTuple, Sequence

from PIL import Image, ImageDraw, ImageFont

from ._files import Restoration
from ._frames import rectangles
from ._progress import Progress

_BRIGHTER, _DARKER = (190, 20, 20), (20, 60, 190)
_INK, _LINE, _PAPER = (20, 20, 20), (0, 110, 60), (255, 255, 255)
# What `write` reports to its progress.
PARTS = 5
_LARGEST_SIDE, _USUAL_SIDE = 4096, 960
_MARGIN, _TEXT = 16, 13
_TYPES = ('none', 'Wiener', 'self-guided')
# Pixels of each half of the legend's bar, and what stands beside it.
_HALF, _MEANING = 128, 'restored - CDEF: blue darker, red brighter'


class _Unit(NamedTuple):
    """A unit's part of the plane, with its entry."""

    left: int
    top: int
    right: int
    bottom: int
    entry: Sequence[int]


class _Scale(NamedTuple):
    """Pixels a sample, or samples a pixel: one of the two is 1."""

    zoom: int
    step: int

    def pixels(self, samples: int) -> int:
        return samples * self.zoom // self.step


def write(path: str, record: Restoration, name: str, progress: Progress) -> tuple[int, int]:
    """Draws the record's CDEF plane pale, changes over it, units and legend; gives the picture's size."""
    lengths = record.frame.lengths()
    scale = _scale(max(lengths.width, lengths.height), record.frame.unit_size)
    changes = array('i', map(operator.sub, record.restored, record.cdef))
    largest = max(max(changes), -min(changes))
    progress.step()
    panel = _panel(record, changes, largest, scale, progress)
    font = _font()
    texts = _title(record, name, changes, largest)
    left, top = _MARGIN + _width(font, str(lengths.height)), _MARGIN + 20 * len(texts) + 26
    inside = max(panel.width, 2 * _HALF + 12 + _width(font, _MEANING), *(_width(font, text) for text in texts))
    picture = Image.new('RGB', (left + inside + _MARGIN, top + panel.height + 88), _PAPER)
    draw = ImageDraw.Draw(picture)
    for line, text in enumerate(texts):
        draw.text((_MARGIN, _MARGIN + 20 * line), text, _INK, font)
    picture.paste(panel, (left, top))
    units = _units(record)
    _outline(draw, units, scale, (left, top), font)
    note = _name(picture, units, scale, (left, top), font)
    _legend(draw, (left, top + panel.height + 22), largest, note, font)
    picture.save(path, 'PNG')
    progress.step()
    return picture.width, picture.height


def _font() -> Any:
    """A legible face where the machine has one; else Pillow's own small one."""
    try:
        return ImageFont.truetype('DejaVuSans.ttf', _TEXT)
    except OSError:
        return ImageFont.load_default()


def _width(font: Any, text: str) -> int:
    return int(font.getlength(text)) + 1


def _scale(side: int, unit_size: int) -> _Scale:
    """Small planes are drawn larger, large ones with several samples to a pixel, but not so many that units cannot be named."""
    return _Scale(max(1, min(64, _USUAL_SIDE // side)), max(1, min(-(-side // _LARGEST_SIDE), unit_size // 32)))


def _units(record: Restoration) -> list[_Unit]:
    """From the library's rectangles: a unit's rows are those of its stripes, which start above multiples of its size."""
    found: dict[tuple[int, int], _Unit] = {}
    columns = 1
    # With frame type 0 the unit size is not looked at, and may be any.
    for r in rectangles(record.frame if record.frame.frame_type else record.frame._replace(unit_size=64)):
        columns = max(columns, r.unit_col + 1)
        old = found.get((r.unit_row, r.unit_col), _Unit(r.x, r.y, 0, 0, ()))
        found[r.unit_row, r.unit_col] = _Unit(old.left, old.top, r.x + r.w, r.y + r.h, ())
    entries = record.units.tolist() if record.frame.frame_type else [0] * 10 * len(found)
    start = {(row, col): 10 * (row * columns + col) for row, col in found}
    return [unit._replace(entry=entries[start[place]:start[place] + 10]) for place, unit in found.items()]


def _label(entry: Sequence[int]) -> str:
    return f'self-guided {entry[7]}' if entry[0] == 2 else _TYPES[entry[0]]


def _short(entry: Sequence[int]) -> str:
    return ('-', 'W', f'S{entry[7]}')[entry[0]]


def _title(record: Restoration, name: str, changes: array[int], largest: int) -> list[str]:
    frame, lengths = record.frame, record.frame.lengths()
    kinds = record.units[::10].tolist() if frame.frame_type else []
    units = ', '.join(f'{kinds.count(kind)} {text}' for kind, text in enumerate(_TYPES) if kinds.count(kind)) or 'none: frame type 0'
    changed = len(changes) - changes.count(0)
    size = f'{lengths.width} x {lengths.height}'
    return [
        f'{os.path.basename(name)}: plane {frame.plane}, {size}, {frame.depth} bits, unit size {frame.unit_size}',
        f'restoration changed {changed} of {len(changes)} samples ({100 * changed / len(changes):.1f} %), by {largest} at most',
        f'units: {units}',
    ]


def _panel(record: Restoration, changes: Sequence[int], largest: int, scale: _Scale, progress: Progress) -> Any:
    """The plane: CDEF pale, and over it the changes, stronger where they are larger."""
    lengths = record.frame.lengths()
    size, shift = (lengths.width, lengths.height), record.frame.depth - 8
    panel = Image.frombytes('L', size, bytes(180 + (sample >> shift) * 70 // 255 for sample in record.cdef)).convert('RGB')
    if scale.step > 1:
        panel = panel.resize((-(-size[0] // scale.step), -(-size[1] // scale.step)))
    strongest = _strongest(changes, lengths.width, scale.step)
    progress.step()
    strength = [_strength(change, largest) for change in range(largest + 1)]
    for colour, sign in ((_BRIGHTER, 1), (_DARKER, -1)):
        mask = bytes(strength[sign * change] if sign * change > 0 else 0 for change in strongest)
        panel.paste(colour, mask=Image.frombytes('L', panel.size, mask))
        progress.step()
    return panel.resize((panel.width * scale.zoom, panel.height * scale.zoom), Image.NEAREST)


def _strength(change: int, largest: int) -> int:
    """0 to 255, by the root: the smallest change is seen, and small ones can be told from each other."""
    return int(50 + 205 * (change / largest) ** 0.5) if change else 0


def _strongest(changes: Sequence[int], width: int, step: int) -> Sequence[int]:
    """The strongest change of each square of samples that is one pixel, so that a single one is seen."""
    if step == 1:
        return changes
    found: list[int] = []
    for start in range(0, len(changes), step * width):
        rows = [changes[row:row + width] for row in range(start, min(start + step * width, len(changes)), width)]
        rise, fall = [max(column) for column in zip(*rows)], [min(column) for column in zip(*rows)]
        for x in range(0, width, step):
            high, low = max(rise[x:x + step]), min(fall[x:x + step])
            found.append(high if high >= -low else low)
    return found


def _outline(draw: Any, units: Sequence[_Unit], scale: _Scale, origin: tuple[int, int], font: Any) -> None:
    """Each unit's edge, and beside the plane the columns and rows where one begins."""
    x0, y0 = origin
    for unit in units:
        left, top, right, bottom = (scale.pixels(side) for side in unit[:4])
        draw.rectangle((x0 + left, y0 + top, x0 + max(right - 1, left), y0 + max(bottom - 1, top)), outline=_LINE)
    free = 0
    for left in sorted({unit.left for unit in units}):
        if scale.pixels(left) >= free:
            draw.text((x0 + scale.pixels(left), y0 - 18), str(left), _LINE, font)
            free = scale.pixels(left) + _width(font, str(left)) + 6
    free = 0
    for top in sorted({unit.top for unit in units}):
        if scale.pixels(top) >= free:
            draw.text((x0 - 4 - _width(font, str(top)), y0 + scale.pixels(top)), str(top), _LINE, font)
            free = scale.pixels(top) + _TEXT + 3


def _name(picture: Any, units: Sequence[_Unit], scale: _Scale, origin: tuple[int, int], font: Any) -> str:
    """The unit's type on a pale ground in its corner: in full, or short where there is no room, or beside a plane that is too narrow.

    Gives what a reader has to know about the names.
    """
    draw, notes = ImageDraw.Draw(picture, 'RGBA'), {}
    end = max(unit.right for unit in units)
    for unit in units:
        x, y = origin[0] + scale.pixels(unit.left) + 2, origin[1] + scale.pixels(unit.top) + 2
        room = scale.pixels(unit.right) - scale.pixels(unit.left) - 4
        full, short = _label(unit.entry), _short(unit.entry)
        if scale.pixels(unit.bottom) - scale.pixels(unit.top) < _TEXT + 9:
            text = ''
        elif unit.left == 0 and unit.right == end and room < _width(font, full) + 2:
            x, text = x + room + 8, full
        else:
            text = next((name for name in (full, short) if _width(font, name) + 2 <= room), '')
        if text:
            draw.rectangle((x, y, x + _width(font, text) + 2, y + _TEXT + 4), fill=(255, 255, 255, 215))
            draw.text((x + 1, y), text, _INK, font)
        notes[_note(text, full)] = True
    return '; '.join(filter(None, notes))


def _note(text: str, full: str) -> str:
    if not text:
        return 'units too small for a name are not named'
    if text != full:
        return 'W Wiener, S self-guided with its set, - none'
    return 'self-guided: the number is its set' if text.startswith('self') else ''


def _legend(draw: Any, place: tuple[int, int], largest: int, note: str, font: Any) -> None:
    """The colours of a change from the largest fall to the largest rise, and what names mean."""
    x0, y0 = place
    draw.text((x0, y0 + 40), note, _INK, font)
    if not largest:
        draw.text(place, 'no sample is changed', _INK, font)
        return
    for x in range(-_HALF, _HALF + 1):
        level = _strength(-(-abs(x) * largest // _HALF), largest)
        colour = _BRIGHTER if x > 0 else _DARKER
        mixed = tuple((215 * (255 - level) + part * level) // 255 for part in colour)
        draw.line((x0 + _HALF + x, y0, x0 + _HALF + x, y0 + 14), mixed)
    for x, text in ((0, f'-{largest}'), (_HALF, '0'), (2 * _HALF, f'+{largest}')):
        draw.text((x0 + x - _width(font, text) * x // (2 * _HALF), y0 + 16), text, _INK, font)
    draw.text((x0 + 2 * _HALF + 12, y0), _MEANING, _INK, font)
