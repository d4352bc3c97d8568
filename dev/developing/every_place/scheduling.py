"""Compute, with a simple, slow algorithm, the transmission that `schedule` writes."""
from __future__ import annotations

from developing.pes import STUFFING_UNIT, reverse_bits, make_packet, encode_pts
from subtitles.common.times import pts_of
from subtitles.formats.teletext import Page, START
from .due import ExpectedPages, judge_subtitles
from .national import BITS
from .rows import BLANK, COLUMNS, ROWS, SPACE
from .arguments import Options

SERIAL = "--serial"
FIRST_LINE, LAST_LINE = 7, 22


def make_header(page: Page, option: str, is_serial: bool) -> bytes:
    """Return a header of the page with subcode 0, and with C4, C6 and C7 set."""
    national = sum(1 << bit - 11 for bit in BITS[option])
    numbers = [page[1] % 16, page[1] // 16, 0, 8, 0, 8, 1, national + is_serial]
    return make_packet(page[0], 0, numbers, b" " * 32)


def make_closing_header(page: Page, is_serial: bool) -> bytes:
    """Return a closing header: page FF, subcode 3F7F, in the magazine of the page."""
    return make_packet(page[0], 0, [15, 15, 15, 7, 15, 3, 0, int(is_serial)], b" " * 32)


def make_unit(number: int, data: bytes) -> bytes:
    """Return a data unit. The first 16 units use lines 7 to 22 of the first field."""
    field, line = divmod(number, LAST_LINE - FIRST_LINE + 1)
    return bytes([3, 0x2C, 0xC0 | (field == 0) << 5 | FIRST_LINE + line, 0xE4]) + reverse_bits(data)


def make_pes_packet(pts: int, packets: list[bytes]) -> bytes:
    """Return a PES packet with as few stuffing units as possible."""
    count = len(packets) // 4 + 1
    units = b"".join(make_unit(number, data) for number, data in enumerate(packets))
    return START + (184 * count - 6).to_bytes(2, "big") + b"\x84\x80\x24" + encode_pts(pts) \
        + b"\xff" * 31 + b"\x10" + units + STUFFING_UNIT * (4 * count - 1 - len(packets))


def make_page_packets(page: bytes, options: Options, is_serial: bool) -> list[bytes]:
    """Return the packets of a page: header, rows that are not blank, and closing header."""
    result = [make_header(options.page, options.option, is_serial)]
    for row in range(1, ROWS + 1):
        codes = page[(row - 1) * COLUMNS:row * COLUMNS]
        if codes.strip(bytes([SPACE])):
            result.append(make_packet(options.page[0], row, [], codes))
    return [*result, make_closing_header(options.page, is_serial)]


def schedule(stl: bytes, options: Options, is_serial: bool) -> tuple[list[str], bytes]:
    """Return the line that `schedule` prints for a subtitle file, and the transmission."""
    subtitles = judge_subtitles(stl, options)
    if subtitles.lines:
        return subtitles.lines[:1], b""
    due = ExpectedPages(subtitles.records or [], subtitles.has_preceding_fault, options)
    first, last = due.first(), due.last()
    if first is None or last is None:
        return ["refused 82 NoSubtitles"], b""
    result, base, before = [], first, BLANK
    for frame in range(first, last + 1):
        page = due.at(frame)
        if page != before:
            base, before = frame, page
        if (frame - base) % options.every == 0 or frame == last:
            result.append(make_pes_packet(pts_of(frame, options.origin),
                                          make_page_packets(page, options, is_serial)))
    return [f"written {len(result)} transmissions"], b"".join(result)
