"""Show the refused subtitles of a subtitle file, with the faulty bytes marked."""
from __future__ import annotations

from typing import Sequence

from ..common.markup import BREAK, Markup, Value, join_markup, markup
from ..common.times import parse_frame
from ..formats.listing import FaultLine, make_number_link
from ..formats.stl import GSI, NamedSubtitle, SubtitleFile

ORDER_FAULTS = {56, 57}  # numbers of faults in the order of TCIs
BYTE_FAULTS, ROW_FAULTS = (50, 51), range(50, 56)
# Name and bytes of the faulty field in a TTI or GSI block, by fault number
FIELDS = {11: ("DFC", slice(3, 11)), 12: ("DFC", slice(3, 11)), 13: ("DSC", slice(11, 12)),
          14: ("CCT", slice(12, 14)), 15: ("EBN", slice(3, 4)), 16: ("CS", slice(4, 5)),
          17: ("CF", slice(15, 16)), 18: ("JC", slice(14, 15)), 19: ("VP", slice(13, 14)),
          22: ("SGN and SN", slice(0, 3))}


def mark_field(file: SubtitleFile, fault: FaultLine) -> Markup:
    """Return the faulty field with its bytes marked. Return empty markup if no field is faulty."""
    if fault.number not in FIELDS or fault.block is None:
        return markup("")
    name, place = FIELDS[fault.number]
    data = file.block(fault.block) if fault.block else file.data[:GSI]
    return markup(" {} {}", name, mark(data[place].hex().upper() if fault.block else
                                       join_markup(map(show_byte, data[place]))))


def mark(text: Value) -> Markup:
    return markup("<mark>{}</mark>", text)


def mark_times(subtitle: NamedSubtitle, faults: Sequence[FaultLine]) -> tuple[Value, Value]:
    """Return the TCI and TCO of a subtitle, marked if they have a fault."""
    numbers = {fault.number for fault in faults}
    is_begin, is_end = (20 in numbers and parse_frame(time) is None or 21 in numbers
                        for time in (subtitle.begin, subtitle.end))
    return (mark(subtitle.begin) if is_begin or numbers & ORDER_FAULTS else subtitle.begin,
            mark(subtitle.end) if is_end else subtitle.end)


def make_fault_lines(file: SubtitleFile, faults: Sequence[FaultLine]) -> Markup:
    """Return the lines that `check` prints about faults, each followed by the faulty field."""
    return join_markup((make_number_link(fault.line) + mark_field(file, fault) for fault in faults),
                       BREAK)


def mark_text(text: bytes, faults: Sequence[FaultLine]) -> Markup:
    """Return the lines of a text, with the faulty bytes and lines marked."""
    marked_places = {(fault.number in BYTE_FAULTS, fault.at) for fault in faults if fault.number in
                     ROW_FAULTS}
    lines, begin = [], 0
    for number, line in enumerate(text.split(b"\x8a")):
        characters = [" " if byte == 0x20 else show_byte(byte) for byte in line]
        words = join_markup(mark(fault) if (True, at) in marked_places else fault
                            for at, fault in enumerate(characters, begin))
        lines.append(mark(words) if (False, number) in marked_places else words)
        begin += len(line) + 1
    return join_markup(lines, BREAK)


def show_byte(byte: int) -> Value:
    """Return a byte as an ASCII character, or in hexadecimal if it is not printable."""
    if byte == 0x20:
        return "\u2423"
    return chr(byte) if 0x20 < byte <= 0x7E else markup("<i>{:02X}</i>", byte)
