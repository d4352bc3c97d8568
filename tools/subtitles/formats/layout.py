"""Layouts of `--layout TEXT`: how an inserter places a subtitle's text in rows of a page.

qc uses these functions to search for a layout. To judge, `check` computes the rows itself.
"""
from __future__ import annotations

import functools
import re
from typing import Iterable, NamedTuple, Sequence

from .teletext import NationalOption, split_cells


COLUMNS, LAST_ROW = 40, 23
SPACE, START_BOX, END_BOX, DOUBLE, WHITE = 0x20, 0x0B, 0x0A, 0x0D, 0x07
CODES = bytes(range(SPACE))
COLOURS, DRAWN_CODES = range(0x01, 0x08), range(0x01, 0x0E)
MAX_BEFORE, MAX_AFTER, MAX_SHIFT = 6, 4, 22
NEW_LINE, NO_CELL, CONTROLS = 0x8A, range(0x80, 0x86), (*range(0x20), *range(0x80, 0xA0))
CHARACTER, CONTROL, TOO_LONG, TOO_MANY_ROWS, DOUBLE_ROW, HIDDEN = 50, 51, 52, 53, 54, 55
FLAGS = ("fit", "white", "trim", "text", "up", "double", "pack", "last")
NUMBER_RANGES = {"left": range(40), "right": range(40), "free": range(1, 4),
                 "row": range(-MAX_SHIFT, MAX_SHIFT + 1)}
ALLOWED_VALUES = {"strip": "codes 00 to 1F, each once",
                  "before": "up to 6 codes 01 to 0D and one * at most",
                  "after": "up to 4 codes 01 to 0D", "left": "0 to 39", "right": "0 to 39",
                  "free": "1, 2 or 3", "row": "-22 to 22"}
CACHE_SIZE = 1 << 14  # maximum number of cached texts
NUMBER = re.compile(r"[0-9]{1,2}")
HEX = re.compile(r"(?:[0-9A-Fa-f]{2})*")


class Layout(NamedTuple):
    """A layout with which the lines of subtitles are drawn. `before` is inserted before the leading
    codes of a line, and `behind` after them."""

    strip: bytes = b""
    before: bytes = b"\x0b\x0b"
    behind: bytes = b""
    after: bytes = b"\x0a\x0a"
    fit: bool = False
    white: bool = False
    trim: bool = False
    text: bool = False
    up: bool = False
    left: int = 0
    right: int = 0
    free: int = 1
    double: bool = False
    pack: bool = False
    last: bool = False
    row: int = 0

    @property
    def unit(self) -> int:
        """Return the number of rows from one line to the next."""
        return 2 if self.double else 1


PLAIN = Layout()


class TextFault(NamedTuple):
    """The first fault of a text: the fault number, and the byte's offset or the line's number."""

    number: int
    at: int


class DrawnLine(NamedTuple):
    """A drawn line: its number in the text, its row and column, and its cells."""

    number: int
    row: int
    column: int
    cells: bytes


def parse_codes(text: str, most: int, allowed: Sequence[int]) -> bytes | None:
    """Parse hexadecimal digits as codes. Return `None` if any code is not allowed."""
    codes = bytes.fromhex(text) if HEX.fullmatch(text) else None
    is_valid = codes is not None and len(codes) <= most and all(code in allowed for code in codes)
    return codes if is_valid else None


def parse_item(name: str, value: str | None) -> dict[str, object] | None:
    """Parse an item of a layout. Return `None` if its name or value is invalid."""
    if name in FLAGS:
        return {name: True} if value is None else None
    if value is None:
        return None
    if name in NUMBER_RANGES:
        digits = value[1:] if name == "row" and value.startswith("-") else value
        is_allowed = NUMBER.fullmatch(digits) and int(value) in NUMBER_RANGES[name]
        return {name: int(value)} if is_allowed else None
    if name == "before":
        first, star, behind = value.partition("*")
        parts = [parse_codes(part, MAX_BEFORE, DRAWN_CODES) for part in (first, behind)]
        if None in parts or len(parts[0] or b"") + len(parts[1] or b"") > MAX_BEFORE:
            return None
        return {"before": parts[0], "behind": parts[1]}
    if name == "after":
        codes = parse_codes(value, MAX_AFTER, DRAWN_CODES)
    elif name == "strip":
        codes = parse_codes(value, 32, range(0x20))
        codes = None if codes is not None and len(set(codes)) < len(codes) else codes
    else:
        return None
    return None if codes is None else {name: codes}


def parse_layout(text: str) -> Layout | None:
    """Parse the value of `--layout`. Return `None` if it is invalid."""
    values: dict[str, object] = {}
    names: set[str] = set()
    for word in text.split(","):
        name, equals_sign, value = word.partition("=")
        item = parse_item(name, value if equals_sign else None)
        if item is None or name in names:
            return None
        names.add(name)
        values.update(item)
    return Layout(**values)  # type: ignore[arg-type]


def find_layout_fault(text: str) -> str | None:
    """Return a message about the first invalid item in a value of `--layout`, if any."""
    names = set[str]()
    for word in text.split(","):
        name, equals_sign, value = word.partition("=")
        if name in names:
            return f"{name} is given twice"
        if parse_item(name, value if equals_sign else None) is None:
            allowed_value = ALLOWED_VALUES.get(name, "no value" if name in FLAGS else "")
            return f"{word} is not valid: {name} takes {allowed_value}" if allowed_value else \
                f"{word or 'an empty word'} is an unknown item"
        names.add(name)
    return None


def list_items(layout: Layout) -> list[str]:
    """Return the items of a layout that differ from the default, sorted."""
    items = [name for name in FLAGS if getattr(layout, name)]
    items += [f"{name}={getattr(layout, name)}" for name in NUMBER_RANGES
              if getattr(layout, name) != getattr(PLAIN, name)]
    items += [f"{name}={getattr(layout, name).hex().upper()}" for name in ("strip", "after")
              if getattr(layout, name) != getattr(PLAIN, name)]
    if (layout.before, layout.behind) != (PLAIN.before, PLAIN.behind):
        restored_codes = "*" + layout.behind.hex().upper() if layout.behind else ""
        items.append(f"before={layout.before.hex().upper()}{restored_codes}")
    return sorted(items)


def format_layout(layout: Layout) -> str:
    """Return the value of `--layout` for a layout, or "" for the default layout."""
    return ",".join(list_items(layout))


def compute_complexity(layout: Layout) -> tuple[int, int, str]:
    """Return a key that sorts simple layouts first."""
    text = format_layout(layout)
    return text.count(",") + bool(text), len(text), text


@functools.lru_cache(maxsize=CACHE_SIZE)
def make_cell_lines(text: bytes, option: NationalOption, strip: bytes = b"") \
        -> tuple[bytes, ...] | TextFault:
    """Return the lines of a text as cells. If a character has no cell, return a fault instead."""
    lines = [bytearray()]
    for at, byte, cell in split_cells(text, option):
        if byte == NEW_LINE:
            lines.append(bytearray())
        elif byte in NO_CELL or byte in strip:
            continue
        elif cell is None:
            return TextFault(CONTROL if byte in CONTROLS else CHARACTER, at)
        else:
            lines[-1].append(cell)
    return tuple(map(bytes, lines))


def count_leading_codes(cells: bytes) -> int:
    """Return the number of spacing attributes at the beginning of a line."""
    return len(cells) - len(cells.lstrip(CODES))


def prepare_line(cells: bytes, layout: Layout) -> bytes:
    """Add the codes of a layout to a line's cells."""
    if not cells or START_BOX in cells:
        return cells
    if layout.trim:
        cells = cells.strip(b" ")
        if not cells:
            return cells
    rest = cells.lstrip(CODES)
    codes = cells[:len(cells) - len(rest)]
    if layout.white and not any(code in COLOURS for code in codes):
        codes += bytes([WHITE])
    line = layout.before + codes + layout.behind + rest
    after = layout.after[:max(COLUMNS - len(line), 0)] if layout.fit else layout.after
    return line + after


def find_start_column(cells: bytes, justify: int, layout: Layout) -> int:
    """Return the start column of a line of 1 to 40 cells. The column may lie outside the row."""
    skipped, width = 0, len(cells)
    if layout.text:
        skipped, width = count_leading_codes(cells), len(cells.strip(CODES))
    justify = justify or layout.free
    if justify == 1:
        return layout.left - skipped
    if justify == 2:
        return (COLUMNS - width + layout.up) // 2 - skipped
    return COLUMNS - layout.right - width - skipped


def find_column(cells: bytes, justify: int, layout: Layout) -> int:
    """Return the start column of a line of 1 to 40 cells, moved so that the line fits the row."""
    return min(max(find_start_column(cells, justify, layout), 0), COLUMNS - len(cells))


def assign_rows(lines: Sequence[bytes], first: int, layout: Layout) -> list[int]:
    """Return the row of each line of a subtitle. `first` is the vertical position (VP)."""
    places, place = [], 0
    for number, line in enumerate(lines):
        places.append(place if layout.pack else number)
        place += bool(line)
    used_rows = [at for at, line in zip(places, lines) if line]
    shift = used_rows[-1] if layout.last and used_rows else 0
    return [first + layout.row + layout.unit * (at - shift) for at in places]


def draw_text(text: bytes, first: int, justify: int, layout: Layout, option: NationalOption
          ) -> list[DrawnLine] | TextFault:
    """Draw the lines of a subtitle's text, omitting empty lines. If the text has a fault, return
    the first fault instead."""
    cells = make_cell_lines(text, option, layout.strip)
    return cells if isinstance(cells, TextFault) else draw_lines(cells, first, justify, layout)


def draw_lines(cells: Sequence[bytes], first: int, justify: int, layout: Layout
                ) -> list[DrawnLine] | TextFault:
    """Draw lines of cells, omitting empty lines. If a line has a fault, return the fault."""
    lines = [prepare_line(cell, layout) for cell in cells]
    drawn_lines: list[DrawnLine] = []
    previous_line = b""  # the previous line
    for number, (line, row) in enumerate(zip(lines, assign_rows(lines, first, layout))):
        is_under = DOUBLE in previous_line and not layout.double
        previous_line = previous_line if layout.pack and not line else line
        if not line:
            continue
        for fault, is_faulty in ((TOO_LONG, len(line) > COLUMNS),
                                 (TOO_MANY_ROWS, not 1 <= row <= LAST_ROW),
                                 (DOUBLE_ROW, DOUBLE in line and row == LAST_ROW),
                                 (HIDDEN, is_under)):
            if is_faulty:
                return TextFault(fault, number)
        drawn_lines.append(DrawnLine(number, row, find_column(line, justify, layout), line))
    return drawn_lines


def make_page_rows(lines: Sequence[DrawnLine]) -> tuple[bytes, ...]:
    """Return rows 1 to 24 of the page that has the given lines."""
    rows = [b" " * COLUMNS] * 24
    for line in lines:
        rows[line.row - 1] = (b" " * line.column + line.cells).ljust(COLUMNS)
    return tuple(rows)


def encode_text_characters(text: bytes, option: NationalOption) -> bytes | None:
    """Return the cells of a text, omitting spaces and attributes. These cells are the same in each
    layout. Return `None` if a character has no cell."""
    lines = make_cell_lines(text, option, bytes(range(0x20)))
    return None if isinstance(lines, TextFault) else bytes(
        cell for line in lines for cell in line if cell > SPACE)


def list_page_characters(rows: Sequence[bytes]) -> bytes:
    """Return the cells of a page, row by row, omitting spaces and attributes."""
    return bytes(cell for row in rows for cell in row if cell > SPACE)



def split_raw_lines(text: bytes, option: NationalOption) -> list[bytes]:
    """Return the lines of a text as cells, including all codes 00 to 1F."""
    lines = [bytearray()]
    for _, byte, cell in split_cells(text, option):
        if byte == NEW_LINE:
            lines.append(bytearray())
        elif cell is not None or byte in CODES:
            lines[-1].append(byte if cell is None else cell)
    return [bytes(line) for line in lines]


def remove_blank_cells(cells: bytes) -> bytes:
    """Return the cells of a line, omitting spaces and attributes."""
    return bytes(cell for cell in cells if cell > SPACE)


def trim_line(cells: bytes) -> bytes:
    """Return the cells from the first to the last character of a line."""
    at = [place for place, cell in enumerate(cells) if cell > SPACE]
    return cells[at[0]:at[-1] + 1]


def remove_codes(cells: bytes, strip: Iterable[int]) -> bytes:
    """Remove the codes in `strip` from a line."""
    return cells.translate(None, bytes(strip))


def count_leading_spaces(cells: bytes) -> int:
    """Return the number of spaces at the beginning of a line."""
    return len(cells) - len(cells.lstrip(b" "))
