"""Write and read Teletext packets and PES packets with Teletext (EN 300 706, EN 300 472)."""
from __future__ import annotations

from typing import Iterable, Iterator, Protocol, Sequence

from subtitles.common.files import DamagedFile
from subtitles.formats.teletext import CODE_WORDS, NUMBER, START, is_odd

HEAD = 6  # bytes of a PES packet up to and including PES_packet_length
FIRST_LINE = 7
UNIT = 46  # bytes in a data unit
DATA = 46  # offset of the first data unit in PES packets that `subttx` writes
STUFFING_UNIT = b"\xff\x2c" + b"\xff" * 44
# A gap marker replaces missing PES packets or parts of them. `check` rejects it with fault 45.
GAP_MARKER = START + b"\0\xb2" + b"\xff" * 178
READ_SIZE = 1 << 18  # number of bytes to read at once
NATIONAL = 12, 13, 14  # national option bits of a header, C12 to C14

# Table of bytes with reversed bits: a data unit transmits bit 1 first.
REVERSED_BITS = bytes(int(f"{byte:08b}"[::-1], 2) for byte in range(256))

# The positions of the 18 data bits in three Hamming 24/18 bytes, counted from 1. The powers of 2
# and the last position are check bits.
DATA_BITS = tuple(at for at in range(1, 24) if at & at - 1)

Header = tuple[int, int, bytes]  # magazine, page number, and the decoded header bytes


class Source(Protocol):
    """An input file. `read` returns an empty result only at the end of the file."""

    def read(self, size: int, /) -> bytes:
        """Return at most `size` bytes."""


def add_odd_parity(code: int) -> int:
    """Return a 7-bit code with its odd parity bit."""
    return code if is_odd(code) else code | 0x80


def reverse_bits(data: bytes) -> bytes:
    """Reverse the order of the bits in each byte."""
    return data.translate(REVERSED_BITS)


def make_packet(magazine: int, number: int, numbers: Iterable[int], codes: Iterable[int]) -> bytes:
    """Return a Teletext packet: address, Hamming 8/4 values of a header, text with odd parity."""
    address = magazine + 8 * number
    coded = bytes(CODE_WORDS[value] for value in (address & 15, address >> 4, *numbers))
    return coded + bytes(map(add_odd_parity, codes))


def encode_triplet(value: int) -> bytes:
    """Encode a Hamming 24/18 triplet (EN 300 706, 8.3)."""
    word = sum((value >> bit & 1) << at - 1 for bit, at in enumerate(DATA_BITS))
    wrong = 31
    for at in DATA_BITS:
        wrong ^= at if word >> at - 1 & 1 else 0
    word |= sum(1 << (1 << check) - 1 for check in range(5) if wrong >> check & 1)
    word |= (bin(word).count("1") + 1 & 1) << 23
    return word.to_bytes(3, "little")


def decode_address(data: bytes) -> tuple[int, int] | None:
    """Return the magazine (0 for 8) and the packet number, or `None` if they cannot be decoded."""
    low, high = NUMBER[data[0]], NUMBER[data[1]]
    return None if low is None or high is None else (low & 7, low + 16 * high >> 3)


def decode_header(data: bytes) -> bytes | None:
    """Return the eight Hamming 8/4 values of a page header, or `None` if one can't be decoded."""
    numbers = [number for number in map(NUMBER.__getitem__, data[2:10]) if number is not None]
    return bytes(numbers) if len(numbers) == 8 else None


def get_page_number(header: bytes) -> int:
    """Return the page number, two hexadecimal digits, from a decoded page header."""
    return header[0] + 16 * header[1]


def find_headers(packets: Iterable[bytes]) -> list[Header]:
    """Return the magazine, the page number and the decoded values of each page header."""
    result = []
    for packet in packets:
        address = decode_address(packet)
        header = decode_header(packet) if address and address[1] == 0 else None
        if address and header:
            result.append((address[0], get_page_number(header), header))
    return result


def encode_pts(pts: int) -> bytes:
    """Return the five bytes of a PTS in a PES header."""
    return bytes([0x21 | pts >> 30 << 1, pts >> 22 & 255, pts >> 15 << 1 & 255 | 1,
                  pts >> 7 & 255, pts << 1 & 255 | 1])


def decode_pts(packet: bytes) -> int:
    """Return the PTS of a PES packet, which must have one."""
    return ((packet[9] >> 1 & 7) << 30 | packet[10] << 22 | packet[11] >> 1 << 15
            | packet[12] << 7 | packet[13] >> 1)


def make_pes_packet(pts: int, packets: Sequence[bytes]) -> bytes:
    """Return a PES packet with up to 16 Teletext packets, on lines 7 to 22 of the first field."""
    blocks = len(packets) // 4 + 1
    data = START + (184 * blocks - 6).to_bytes(2, "big") + b"\x84\x80\x24" + encode_pts(pts)
    data += b"\xff" * 31 + b"\x10"
    for line, packet in enumerate(packets, FIRST_LINE):
        data += bytes([3, 0x2C, 0xE0 | line, 0xE4]) + reverse_bits(packet)
    return data + STUFFING_UNIT * (4 * blocks - 1 - len(packets))


def find_starts(data: bytes) -> list[int]:
    """Return the offsets of the complete PES packets at the start of `data`, and their end."""
    begins = [0]
    while data.startswith(START, begins[-1]) and len(data) - begins[-1] >= HEAD:
        length = HEAD + int.from_bytes(data[begins[-1] + 4:begins[-1] + HEAD], "big")
        if begins[-1] + length > len(data):
            break
        begins.append(begins[-1] + length)
    return begins


def split_complete_packets(data: bytes) -> list[bytes]:
    """Return the complete PES packets at the start of `data`."""
    return split_at(data, find_starts(data))


def split_at(data: bytes, begins: Sequence[int]) -> list[bytes]:
    return [data[begin:end] for begin, end in zip(begins, begins[1:])]


def read_pes_packets(file: Source) -> Iterator[bytes]:
    """Yield the PES packets in a file. Raise `DamagedFile` if other bytes follow them."""
    rest_of_data, count = b"", 0
    while new_data := file.read(READ_SIZE):
        data = rest_of_data + new_data
        begins = find_starts(data)
        yield from split_at(data, begins)
        rest_of_data, count = data[begins[-1]:], count + len(begins) - 1
        if len(rest_of_data) >= HEAD and not rest_of_data.startswith(START):
            raise DamagedFile(f"PES packet {count} does not begin with 00 00 01 BD")
    if rest_of_data:
        raise DamagedFile(f"PES packet {count} is incomplete")


def has_pts(data: bytes) -> bool:
    """Return whether a PES packet has a PTS and a long enough header. A gap marker has no PTS."""
    return len(data) >= 14 and data[7] & 0x80 != 0 and data[HEAD] != 0xFF


def get_data_field(data: bytes) -> bytes:
    """Return the bytes after a PES header: a data_identifier, then data units."""
    return data[9 + data[8]:] if len(data) > 9 else b""


def get_teletext_packets(field: bytes) -> list[bytes]:
    """Return the Teletext packets in a data field, with bits in the order of EN 300 706."""
    at, result = 1, []
    while at + UNIT <= len(field):
        if field[at] in (2, 3) and field[at + 1] == 0x2C:
            result.append(reverse_bits(field[at + 4:at + UNIT]))
        at += 2 + field[at + 1]
    return result
