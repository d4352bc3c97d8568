"""Decode the requested page from Teletext packets (EN 300 706)."""
from __future__ import annotations

from developing.pes import DATA_BITS, decode_address, decode_header, get_page_number, encode_triplet
from subtitles.formats.teletext import ERASE, Page, has_bit, is_odd

SPACE, EVEN_SPACE = 0x20, 0xA0
BLANK = bytes([SPACE]) * 40
SERIAL = 11
Rows = dict[int, bytes]


def decode_odd_parity(data: bytes) -> bytes:
    """Return the codes of a row. Bytes with even parity become EVEN_SPACE."""
    return bytes(byte & 0x7F if is_odd(byte) else EVEN_SPACE for byte in data[2:])


def store(rows: Rows, number: int, codes: bytes) -> None:
    rows.pop(number, None)
    if codes != BLANK:
        rows[number] = codes


def shown(rows: Rows) -> str:
    """Format rows for output."""
    return ",".join(f"{row}:{codes.hex()}" for row, codes in sorted(rows.items())) or "-"


def decode_triplet(data: bytes) -> int | None:
    """Decode a Hamming 24/18 triplet, and correct one wrong bit."""
    for wrong in (0, *(1 << bit for bit in range(24))):
        word = int.from_bytes(data, "little") ^ wrong
        value = sum((word >> at - 1 & 1) << bit for bit, at in enumerate(DATA_BITS))
        if encode_triplet(value) == word.to_bytes(3, "little"):
            return value
    return None


class DecodedPage:
    """The decoded page, and the changes that one PES packet made to it."""

    def __init__(self, page: Page) -> None:
        self.magazine, self.number = page
        self.rows: Rows = {}
        self.is_open = self.is_received = False
        self.is_last_header_own = False  # whether the magazine's last header belongs to this page
        self.begin()

    def begin(self) -> None:
        self.does = ""
        self.control: list[str] = []
        self.strays: Rows = {}
        self.is_opened_here = self.is_closed_here = self.has_strays = False

    def take(self, data: bytes) -> None:
        address = decode_address(data)
        if address is None:
            return
        magazine, number = address
        header = decode_header(data) if number == 0 else None
        if header is not None:
            self.read_header(magazine, header)
        elif magazine == self.magazine and 1 <= number <= 24:
            if self.is_open:
                store(self.rows, number, decode_odd_parity(data))
            elif self.is_closed_here:
                self.has_strays = True
                store(self.strays, number, decode_odd_parity(data))

    def read_header(self, magazine: int, header: bytes) -> None:
        is_own = (magazine, get_page_number(header)) == (self.magazine, self.number)
        if magazine == self.magazine:
            self.is_last_header_own = is_own
        if is_own:
            self.is_open = self.is_received = self.is_opened_here = True
            self.is_closed_here = False
            self.does += "h"
            self.control.append("".join(f"{number:X}" for number in header))
            if has_bit(header, ERASE):
                self.does += "e"
                self.rows = {}
        elif self.is_open and (magazine == self.magazine or has_bit(header, SERIAL)):
            self.is_open, self.is_closed_here = False, self.is_opened_here
            self.does += "c"

    def done(self) -> str:
        """Return what the PES packet did to the page, as the DOES/CONTROL field of a `pes` line."""
        is_blank = all(set(codes) <= {SPACE, EVEN_SPACE} for codes in self.rows.values())
        does = self.does + "o" * self.is_open + "b" * is_blank + "s" * self.has_strays
        return f"{does or '-'}/{'+'.join(self.control)}"
