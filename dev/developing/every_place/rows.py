"""Draw the page of a subtitle, or find the fault in its text, byte by byte."""
from __future__ import annotations

from subtitles.formats.layout import Layout, draw_lines, make_page_rows
from .national import CELLS
from .reading import Record

ROWS, COLUMNS, SPACE = 24, 40, 0x20
NEW_LINE = 0x8A
NO_CELL = range(0x80, 0x86)  # codes that switch italics, underline and boxing
BLANK = bytes([SPACE]) * (ROWS * COLUMNS)


class TextFault(Exception):
    """Raised for a fault in a text. It has the fault number and the offset in the text or line."""

    def __init__(self, number: int, at: int) -> None:
        super().__init__(number, at)
        self.number, self.at = number, at


def split_lines(text: bytes, option: str, strip: bytes) -> list[bytes]:
    """Return the cells of each line in a text, without the bytes in `strip`."""
    lines: list[list[int]] = [[]]
    at = 0
    while at < len(text):
        byte, item, pair = text[at], text[at:at + 1], text[at:at + 2]
        if byte == NEW_LINE:
            lines.append([])
        elif byte in strip or byte in NO_CELL:
            pass
        elif item in CELLS[option]:
            lines[-1].append(CELLS[option][item])
        elif pair in CELLS[option]:
            lines[-1].append(CELLS[option][pair])
            at += 1
        else:
            raise TextFault(51 if byte < 0x20 or 0x80 <= byte < 0xA0 else 50, at)
        at += 1
    return [bytes(line) for line in lines]


def draw_page(record: Record, option: str, layout: Layout) -> bytes:
    """Return the 960 codes of a subtitle's page, by row. Raise `TextFault` for a faulty text."""
    cells = split_lines(record.text, option, layout.strip)
    lines = draw_lines(cells, record.row, record.justify, layout)
    if not isinstance(lines, list):
        raise TextFault(*lines)
    return b"".join(make_page_rows(lines))
