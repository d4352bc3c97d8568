"""Parse subtitle files, PES packets and page headers, and find their faults.

The module follows EBU Tech 3264 for subtitle files, EN 300 472 for PES packets, and EN 300 706 for
Teletext packets. Limits and fault numbers are from the manual (docs/manual/reference.md). Its
authors did not use the program's sources.
"""
from __future__ import annotations

from typing import Iterator, NamedTuple

from developing.pes import decode_address, reverse_bits, decode_pts
from subtitles.common.times import CLOCK, FRAMES_OF_A_DAY, TICKS, decode_frame, find_frame_of_day
from subtitles.formats.stl import GSI, LAST_BLOCK, TTI, USER_DATA
from subtitles.formats.teletext import NUMBER, Page

HEAD = 6  # bytes of a PES packet up to and including PES_packet_length
CUT, START, LENGTH = 30, 31, 32  # fault numbers for bytes that do not form a PES packet
MAX_BLOCKS, MAX_SUBTITLE_BLOCKS, MAX_PES_PACKETS = 99_999, 9, 2_160_000

ReadPacket = tuple[int, list[bytes]]  # frame and Teletext packets of a PES packet
Header = tuple[Page, set[int]]  # page of a header, and the control bits that the header sets


class Record(NamedTuple):
    """A subtitle, read from its TTI blocks.

    `block` is the number of its last block. `text` contains its text fields without unused space.
    """

    block: int
    tci: int
    tco: int
    row: int
    justify: int
    text: bytes


class StlFault(NamedTuple):
    """A fault in a subtitle file: its number and block."""

    number: int
    block: int


# Fault numbers for the first block of a subtitle: CS, JC, VP, TCI and TCO.
FIRST_BLOCK_FAULTS = {16, 18, 19, 20, 21}


class OutsideSubtitle(NamedTuple):
    """A subtitle outside the requested part. `block` is the number of its last block."""

    block: int


def find_gsi_fault(data: bytes, accepts_open: bool) -> int | None:
    """Return the fault number for the GSI block, or `None` if it has no fault."""
    if len(data) < GSI:
        return 10
    format_code, display, table = data[3:11], data[11:12], data[12:14]
    if format_code not in (b"STL25.01", b"STL30.01"):
        return 11
    if format_code == b"STL30.01":
        return 12
    if display not in (b"1", b"2", *(b"0", b" ") * accepts_open):
        return 13
    return None if table == b"00" else 14


def find_first_block_fault(block: bytes) -> int | None:
    """Return the fault number for the first block of a subtitle, or `None` if it has no fault."""
    tci, tco = decode_frame(block[5:9]), decode_frame(block[9:13])
    for number, is_broken in ((16, block[4] != 0), (18, block[14] > 3),
                              (19, not 1 <= block[13] <= 23)):
        if is_broken:
            return number
    return 20 if tci is None or tco is None else 21 if tci >= tco else None


def find_block_fault(block: bytes, group: list[bytes], is_outside: bool) -> int | None:
    """Return the fault number for a block, or `None` if it has no fault or is skipped.

    `group` contains the earlier blocks of the same subtitle. `is_outside` is true if this subtitle
    is outside the examined times. Blocks with user data or a comment are skipped.
    """
    extension, comment = block[3], block[15]
    if extension == USER_DATA:
        return None
    if 0xF0 <= extension <= 0xFD:
        return 15
    if comment > 1:
        return 17
    if comment == 1:
        return None
    if not group:
        return None if is_outside else find_first_block_fault(block)
    if block[0:3] != group[0][0:3]:
        return 22
    return 23 if len(group) == MAX_SUBTITLE_BLOCKS else None


def make_record(group: list[bytes], number: int) -> Record:
    """Return the subtitle from a complete group of blocks."""
    head = group[0]
    text = b"".join(block[16:].partition(b"\x8f")[0] for block in group)
    tci, tco = decode_frame(head[5:9]), decode_frame(head[9:13])
    assert tci is not None and tco is not None  # an invalid time is a fault in the first block
    return Record(number, tci, tco, head[13], head[14], text)


def read_subtitles(data: bytes, accepts_open: bool = False, begin: int = 0,
                   end: int = FRAMES_OF_A_DAY ) -> Iterator[Record | StlFault | OutsideSubtitle]:
    """Yield the subtitles and the faults in a file, in order of blocks.

    After a fault in FIRST_BLOCK_FAULTS, reading continues with the next subtitle. After any other
    fault, it ends. A subtitle belongs to the requested part if `begin` <= TCI < `end`, or if its
    TCI is not a valid time.
    """
    number = find_gsi_fault(data, accepts_open)
    if number:
        yield StlFault(number, 0)
        return
    group: list[bytes] = []
    is_record, is_outside, count = True, False, 0
    while GSI + TTI * count < len(data):
        block = data[GSI + TTI * count:GSI + TTI * (count + 1)]
        count += 1
        if not group and len(block) == TTI:
            tci = decode_frame(block[5:9])
            is_outside = tci is not None and not begin <= tci < end
        number = 25 if count > MAX_BLOCKS else 10 if len(block) < TTI \
            else find_block_fault(block, group, is_outside)
        if number:
            yield StlFault(number, count)
            is_record = False
            if number not in FIRST_BLOCK_FAULTS:
                return
        elif block[3] == USER_DATA or block[15] == 1:
            continue
        group.append(block)
        if block[3] == LAST_BLOCK:
            if is_outside:
                yield OutsideSubtitle(count)
            elif is_record:
                yield make_record(group, count)
            group, is_record = [], True
    if group:
        yield StlFault(24, count)


def is_valid_pts(field: bytes) -> bool:
    """Return whether five bytes are a PTS: they begin with 0010, and all marker bits are set."""
    return field[0] >> 4 == 2 and field[0] & field[2] & field[4] & 1 == 1


def is_gap_marker(packet: bytes) -> bool:
    """Return whether all bytes after PES_packet_length are FF, as in a gap marker."""
    return packet[6:] == b"\xff" * len(packet[6:])


def find_head_fault(packet: bytes) -> int | None:
    """Return the fault number for a complete PES packet's header, or `None` if it has no fault."""
    questions = [(45, not is_gap_marker(packet)), (33, packet[6] >> 4 == 8),
                 (34, packet[7] >> 6 == 2), (35, packet[8] == 0x24),
                 (36, is_valid_pts(packet[9:14])), (37, 0x10 <= packet[45] <= 0x1F)]
    return next((number for number, is_kept in questions if not is_kept), None)


def find_unit_fault(unit: bytes, last_line: tuple[int, int]) -> int | None:
    """Return the fault number for a data unit, or `None` if it has no fault.

    `last_line` is the field and line of the previous data unit.
    """
    if unit[1] != 0x2C:
        return 38
    if unit[0] not in (2, 3):
        return None
    if unit[3] != 0xE4:
        return 39
    return 40 if unit[2] & 31 and get_line(unit) <= last_line else None


def get_line(unit: bytes) -> tuple[int, int]:
    """Return the field (0 for the first field) and the line of a data unit."""
    return (0 if unit[2] & 32 else 1, unit[2] & 31)


def read_units(packet: bytes) -> tuple[list[bytes], int | None]:
    """Return the Teletext packets in the data units, and the first fault number or `None`."""
    packets: list[bytes] = []
    last_line = 0, 0
    for at in range(46, len(packet), 46):
        unit = packet[at:at + 46]
        number = find_unit_fault(unit, last_line)
        if number:
            return packets, number
        if unit[0] in (2, 3):
            packets.append(reverse_bits(unit[4:]))
            if unit[2] & 31:
                last_line = get_line(unit)
    return packets, None


def read_length(data: bytes, begin: int = 0) -> int | None:
    """Return the length in bytes of the PES packet at an offset, or `None` if bytes are missing.

    If the header is wrong, return a fault number: 31 for the start code, 32 for the length. Lengths
    are at least 184, so they can't be confused with fault numbers.
    """
    head = data[begin:begin + HEAD]
    if len(head) < HEAD:
        return None
    if head[:4] != b"\0\0\1\xbd":
        return START
    length = HEAD + int.from_bytes(head[4:], "big")
    return length if length in range(184, 184 * 9 + 1, 184) else LENGTH


def read_packet_at(data: bytes, begin: int) -> bytes | int:
    """Return the PES packet at an offset, or a fault number."""
    length = read_length(data, begin)
    if length is None or length in (START, LENGTH):
        return length or CUT
    piece = data[begin:begin + length]
    return piece if len(piece) == length else CUT


def split_packets(data: bytes) -> tuple[list[bytes], int | None]:
    """Return the PES packets and gap markers in a file, and the fault of the remaining bytes."""
    result: list[bytes] = []
    begin = 0
    while begin < len(data):
        piece = read_packet_at(data, begin) if len(result) < MAX_PES_PACKETS else 44
        if isinstance(piece, int):
            return result, piece
        result.append(piece)
        begin += len(piece)
    return result, None


def find_frame(pts: int, origin: int) -> int | None:
    """Return the frame of a PTS, or `None` if it is not within the day.

    A PTS belongs to a frame if it is at most 1/4 frame early and less than 3/4 frame late.
    """
    frame = (pts - origin + TICKS // 4) % CLOCK // TICKS
    return frame if frame < FRAMES_OF_A_DAY else None


def read_packet(piece: bytes, origin: int, within: int) -> ReadPacket | int:
    """Return the frame and the Teletext packets of a PES packet, or its fault number."""
    number = find_head_fault(piece)
    if number is not None:
        return number
    packets, number = read_units(piece)
    if number is not None:
        return number
    frame = find_frame(decode_pts(piece),
                       origin) if within else find_frame_of_day(decode_pts(piece), origin)
    return 61 if frame is None else (frame, packets)


def decode_subcode(packet: bytes) -> tuple[int, ...]:
    """Return the subcode in a page header, S1 to S4."""
    numbers = [NUMBER[byte] or 0 for byte in packet[4:8]]
    return numbers[0], numbers[1] & 7, numbers[2], numbers[3] & 3


def decode_header(packet: bytes) -> Header | None:
    """Return the page and the control bits of a page header, or `None` for other packets."""
    address = decode_address(packet)
    numbers = [number for number in map(NUMBER.__getitem__, packet[2:10]) if number is not None]
    if address is None or address[1] != 0 or len(numbers) < 8:
        return None
    bits = [(4, 3, 3), (5, 5, 2), (6, 5, 3), *((7 + at, 6, at) for at in range(4)),
            *((11 + at, 7, at) for at in range(4))]
    control = {name for name, number, bit in bits if numbers[number] >> bit & 1}
    return (address[0], numbers[0] + 16 * numbers[1]), control

