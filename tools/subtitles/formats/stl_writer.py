"""Write subtitle files (EBU Tech 3264): their blocks, and the text that draws a given page."""
from __future__ import annotations

import functools
from typing import NamedTuple, Sequence

from ..common.times import FRAMES_A_SECOND
from .layout import (
    CHARACTER, CONTROL, DOUBLE_ROW, HIDDEN, LAST_ROW, PLAIN, START_BOX, TextFault, draw_text,
    make_page_rows)
from .stl import GSI, LAST_BLOCK, LAST_CONTINUED, TEXT, UNUSED
from .teletext import COMMON, NATIONAL_CODES, NationalOption


MAX_BLOCKS = 9  # most blocks of a subtitle that `check` reads
BOXED, ENDED = b"\x0b\x0b", b"\x0a\x0a"  # codes that the default layout adds around a line
LEFT, CENTRED, RIGHT = 1, 2, 3  # justification codes (JC)
PUB = slice(277, 309)  # bytes of the publisher in a GSI block
READ_PUBLISHER = b"subttx read"  # marks the files that tools/read may replace


def encode_time_code(frame: int) -> bytes:
    """Return the hours, minutes, seconds and frames of a time code, one byte each."""
    seconds, frames = divmod(frame, FRAMES_A_SECOND)
    return bytes([seconds // 3600, seconds // 60 % 60, seconds % 60, frames])


def make_gsi_block(title: bytes, blocks: int, subtitles: int, first: int = 0,
                   language: bytes = b"09", publisher: bytes = b"",
                   date: bytes = b"261122") -> bytes:
    """Return a GSI block with STL25.01, Teletext level 1 and code table 00.

    `language` is an LC such as 09 (English) or 08 (German), and `date` is YYMMDD. `subttx` ignores
    the counts and the first time code.
    """
    block = bytearray(b" " * GSI)

    def put(at: int, text: bytes) -> None:
        block[at:at + len(text)] = text

    put(0, b"850")  # CPN, code page
    put(3, b"STL25.01")  # DFC: 25 frames a second
    put(11, b"1")  # DSC: Teletext, level 1
    put(12, b"00")  # CCT: code table 00, Latin
    put(14, language)  # LC, language code
    put(16, title[:32])  # OPT, programme title
    put(224, date * 2)  # CD and RD, dates of creation and revision
    put(236, b"00")  # RN, revision number
    put(238, b"%05d%05d001" % (blocks, subtitles))  # TNB, TNS, TNG: total numbers
    put(251, b"4023")  # MNC, MNR: columns and rows
    put(255, b"1")  # TCS: time codes are intended for use
    put(256, b"00000000%02d%02d%02d%02d" % tuple(encode_time_code(first)))  # TCP, TCF: time codes
    put(272, b"11GBR")  # TND, DSN: disk 1 of 1; CO
    put(PUB.start, publisher[:32])
    return bytes(block)


def make_tti_block(number: int, begin: int, end: int, row: int, justify: int, text: bytes,
                   ebn: int = LAST_BLOCK, comment: int = 0, group: int = 0) -> bytes:
    """Return a TTI block. Times are frames since midnight; the text has at most 112 bytes."""
    assert len(text) <= TEXT
    head = bytes([group, number & 255, number >> 8 & 255, ebn, 0])
    head += encode_time_code(begin) + encode_time_code(end) + bytes([row, justify, comment])
    return head + text.ljust(TEXT, UNUSED)


def make_subtitle_blocks(number: int, begin: int, end: int, row: int, justify: int,
                         text: bytes) -> bytes:
    """Return the TTI blocks for a subtitle. There are no more blocks than its text needs."""
    fields = [text[at:at + TEXT] for at in range(0, len(text), TEXT)] or [b""]
    assert len(fields) <= LAST_CONTINUED
    numbers = [*range(len(fields) - 1), LAST_BLOCK]
    return b"".join(make_tti_block(number, begin, end, row, justify, field, ebn)
                    for field, ebn in zip(fields, numbers))


class StoredPage(NamedTuple):
    """The fields of a subtitle that draw a page: VP, JC and text."""

    row: int
    justify: int
    text: bytes


@functools.lru_cache(maxsize=None)
def make_text_bytes(option: NationalOption) -> dict[int, bytes]:
    """Return the bytes in a text for each code that a national option has."""
    return {**{code: bytes([code]) for code in COMMON},
            **{code: bytes.fromhex(words.split(",")[-1])
               for code, words in zip(NATIONAL_CODES, option.cells.split()) if words != "-"}}


def store_page(rows: Sequence[bytes], option: NationalOption) -> StoredPage | str:
    """Return the fields of a subtitle that draw exactly `rows`, the rows 1 to 24 of a page, or the
    reason why there are none. The page must not be blank."""
    lines = [(number, row.rstrip(b" ")) for number, row in enumerate(rows, 1)]
    used_numbers = [number for number, line in lines if line]
    first, last = used_numbers[0], used_numbers[-1]
    lines = lines[first - 1:last]
    if reason := find_unstorable(lines, option):
        return reason
    fault: TextFault | None = None
    for justify in (CENTRED, LEFT, RIGHT, None):
        text = b"\x8a".join(encode_line(line, justify, option) for _, line in lines)
        drawn = draw_text(text, first, justify or LEFT, PLAIN, option)
        if isinstance(drawn, TextFault):
            fault = drawn
        elif make_page_rows(drawn) == tuple(rows):
            return StoredPage(first, justify or LEFT, text) if len(text) <= TEXT * MAX_BLOCKS \
                else f"its text needs more than {MAX_BLOCKS} blocks"
    return describe_text_fault(fault, first)


def find_unstorable(lines: Sequence[tuple[int, bytes]], option: NationalOption) -> str:
    """Return the reason why a row can't be stored, or an empty string if there is none. A row
    without a start box can't, since a receiver's default layout adds boxes to it."""
    for number, line in lines:
        if number > LAST_ROW:
            return f"row {number} has text"
        if line and START_BOX not in line:
            return f"row {number} has no start box (0B)"
        unknown = line.translate(None, bytes(make_text_bytes(option)))
        if unknown:
            return f"row {number} has the code {unknown[0]:02X}, for which the national option " \
                f"{option.word} has no byte in a text"
    return ""


def encode_line(line: bytes, justify: int | None, option: NationalOption) -> bytes:
    """Return the bytes of a row in a text. Keep spaces at its beginning, and the boxes that the
    default layout would add, if `justify` is `None`."""
    if justify is not None:
        line = line.lstrip(b" ")
        inner = line[len(BOXED):-len(ENDED)]
        if line == BOXED + inner + ENDED and inner and START_BOX not in inner:
            line = inner
    table = make_text_bytes(option)
    return b"".join(table[code] for code in line)


def describe_text_fault(fault: TextFault | None, first: int) -> str:
    """Return the reason why no text draws a page whose first row is `first`."""
    if fault is None or fault.number in (CHARACTER, CONTROL):
        return "no text draws these rows"
    row = first + fault.at
    return {HIDDEN: f"row {row} is directly below a row of double height (0D)",
            DOUBLE_ROW: f"row {row} has double height (0D)"}.get(
                fault.number, f"row {row} can't be drawn (fault {fault.number})")
