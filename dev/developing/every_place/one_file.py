"""Subtitle files, each with the lines that `check --all` must print (worked out by hand).

They test limits that neither the crates' tests nor random pairs reach. The line about a faulty file
names the faulty block. A correct file is checked with an empty PES file, which is refused. Each
text is also checked with a transmission of exactly its cells, which is accepted.
"""
from __future__ import annotations

from typing import Iterable, NamedTuple

from developing.pes import make_packet, make_pes_packet
from developing.stl import make_gsi_block, make_subtitle_blocks, make_tti_block
from subtitles.common.times import TICKS
from subtitles.formats.stl import GSI, TEXT, TTI, USER_DATA
from .calls import KnownCall, make_known_check
from .known import replace_bytes, add_count_line
from .one_rule import CLOSING, FIRST_FRAME, HEADER
from .reading import FIRST_BLOCK_FAULTS

# offsets of fields in a TTI block
EXTENSION_NUMBER, CUMULATIVE_STATUS, TCI, TCO, VERTICAL_POSITION = 3, 4, 5, 9, 13
JUSTIFICATION, COMMENT_FLAG = 14, 15


def expect_refused(fault: str) -> list[str]:
    """Return the expected lines for a file with this fault.

    After a fault in the first block of a subtitle, the next subtitle is also checked.
    """
    is_read = int(fault.split()[0]) in FIRST_BLOCK_FAULTS
    return add_count_line(f"refused {fault}", *["refused 60 Empty"] * is_read)


def make_file() -> bytes:
    """Return a file with a comment, a subtitle of two blocks and user data, and another subtitle.

    In comments and user data the program reads only EBN and CF.
    """
    return b"".join([
        make_gsi_block(b"One file", 99_999, 88_888),
        b"\7\5\1\xff" + b"\x63" * 11 + b"\1" + b"in passing".ljust(TEXT, b"\x8f"),
        make_tti_block(0x105, 25, 50, 20, 2, b"AA", ebn=0, group=7),
        b"\x09\x09\x09" + bytes([USER_DATA]) + b"\x63" * 12 + b"anything".ljust(TEXT, b"\x8f"),
        make_tti_block(0x105, 25, 50, 20, 2, b"BB", group=7),
        make_tti_block(0x106, 50, 124, 1, 0, b"Hi", group=7)])


COMPLETE_FILE = make_file()
SECOND_BLOCK, LAST_BLOCK_OF_TWO = GSI + TTI, GSI + 3 * TTI  # offsets of the first subtitle's blocks

# Changed bytes and the reported fault: limits that the tests of the crates do not cover, and blocks
# with two faults. The program ignores CS, times, VP and JC of further blocks.
BLOCK_CASES: list[tuple[str, dict[int, int]]] = [
    ("60 Empty", {11: ord("2")}), ("13 Display block 0", {11: ord(" ")}),
    ("11 Format block 0", {3: ord(" ")}), ("11 Format block 0", {10: ord("2")}),
    ("17 CommentFlag block 2", {SECOND_BLOCK + COMMENT_FLAG: 0xFF}),
    ("20 Time block 2", {SECOND_BLOCK + TCI + 1: 60}),
    ("20 Time block 2", {SECOND_BLOCK + TCI + 2: 60}),
    ("22 Sequence block 4", {LAST_BLOCK_OF_TWO: 8}),
    ("22 Sequence block 4", {LAST_BLOCK_OF_TWO + 2: 0}),
    ("60 Empty",
     {LAST_BLOCK_OF_TWO + field: 99 for field in (CUMULATIVE_STATUS, *range(TCI, VERTICAL_POSITION),
                                                  VERTICAL_POSITION, JUSTIFICATION)}),
    ("15 Extension block 2",
     {SECOND_BLOCK + EXTENSION_NUMBER: 0xF0, SECOND_BLOCK + COMMENT_FLAG: 2}),
    ("17 CommentFlag block 2",
     {SECOND_BLOCK + COMMENT_FLAG: 2, SECOND_BLOCK + CUMULATIVE_STATUS: 1}),
    ("16 Cumulative block 2",
     {SECOND_BLOCK + CUMULATIVE_STATUS: 1, SECOND_BLOCK + JUSTIFICATION: 4}),
    ("18 Justify block 2", {SECOND_BLOCK + JUSTIFICATION: 4, SECOND_BLOCK + VERTICAL_POSITION: 0}),
    ("19 Row block 2", {SECOND_BLOCK + VERTICAL_POSITION: 0, SECOND_BLOCK + TCI + 3: 25}),
    ("20 Time block 2", {SECOND_BLOCK + TCI + 3: 25, SECOND_BLOCK + TCO + 2: 1}),
]


class Line(NamedTuple):
    """Consecutive cells of a row, from `column` on. All other cells of the row are spaces."""

    row: int
    column: int
    cells: bytes


def make_box(cells: bytes) -> bytes:
    """Return the cells of a boxed line."""
    return b"\x0b\x0b" + cells + b"\x0a\x0a"


def make_name(text: bytes, what: str) -> str:
    return f"{text[:8].hex()} of {len(text)} bytes {what}"


def make_text_file(text: bytes, row: int, justify: int) -> bytes:
    """Return a subtitle file with one subtitle, which lasts one frame."""
    return make_gsi_block(b"One text", 1, 1) + make_subtitle_blocks(1, FIRST_FRAME,
                                                                    FIRST_FRAME + 1, row,
                                                                    justify, text)


def make_row_packet(line: Line) -> bytes:
    codes = b" " * line.column + line.cells
    return make_packet(0, line.row, [], codes.ljust(40))


def make_transmission(lines: Iterable[Line]) -> bytes:
    """Return a transmission with exactly these lines in one frame, and a blank page in the next."""
    return b"".join(make_pes_packet((FIRST_FRAME + frame) * TICKS, [HEADER, *rows, CLOSING])
                    for frame, rows in enumerate((map(make_row_packet, lines), [])))


def expect_drawn(text: bytes, row: int, justify: int, *lines: Line) -> KnownCall:
    """Return a call in which the text must be drawn as these lines."""
    return make_known_check(make_name(text, f"drawn at row {row}, JC {justify}"),
                            make_text_file(text, row, justify), make_transmission(lines), "",
                            ["accepted 2 frames 2 transmissions"])


def expect_refused_text(text: bytes, row: int, fault: str, at: int) -> KnownCall:
    """Return a call in which the text is refused at the index `at`."""
    return make_known_check(make_name(text, f"refused at row {row}"), make_text_file(text, row, 0),
                            b"", "", expect_refused(f"{fault} block 1 at {at}"))


FULL = b"A" * 36  # longest text that fits in a row together with its four box codes
DRAWN_CASES = [
    expect_drawn(b"\x80A\x81", 5, 1, Line(5, 0, make_box(b"A"))),
    expect_drawn(FULL, 5, 2, Line(5, 0, make_box(FULL))),
    expect_refused_text(FULL + b"A", 5, "52 RowTooLong", 0),
    # Empty lines may extend past row 23.
    expect_drawn(b"A\x8a\x8a", 23, 0, Line(23, 0, make_box(b"A"))),
    expect_refused_text(b"A\x9f", 5, "51 Control", 1),
    expect_refused_text(b"\x0dA\x8a\x0e", 23, "51 Control", 3),  # bytes are checked first
]

ONE_FILE = [*(make_known_check(f"{fault}: {changed_bytes}",
                               replace_bytes(COMPLETE_FILE, changed_bytes), b"", "",
                               expect_refused(fault))
              for fault, changed_bytes in BLOCK_CASES), *DRAWN_CASES]
