"""Decode pages from a list of packets, and find the rules that a packet breaks."""
from __future__ import annotations

from typing import NamedTuple, Sequence

from subtitles.formats.teletext import CODE_WORDS, Page, is_odd
from .national import ALL_OPTION_BITS, BITS
from .reading import Header, decode_subcode
from .rows import BLANK, COLUMNS, SPACE
from .arguments import Options

ERASE, SERIAL = 4, 11
PARITY_REMOVED = bytes(byte & 0x7F for byte in range(256))


class Packet(NamedTuple):
    """A Teletext packet. `header` is `None` if the packet is not a header or cannot be decoded."""

    data: bytes
    address: tuple[int, int] | None
    header: Header | None


def find_page_span(packets: Sequence[Packet], page: Page) -> tuple[Sequence[Packet], bool]:
    """Return the packets after the page's last header, and whether the page is still open."""
    begin = find_last_header(packets, page)
    if begin is None:
        return [], False
    for end, packet in enumerate(packets[begin + 1:], begin + 1):
        if ends_open_page(packet, page):
            return packets[begin + 1:end], False
    return packets[begin + 1:], True


def find_last_header(packets: Sequence[Packet], page: Page,
                     must_erase: bool = False) -> int | None:
    """Return the index of the page's last header. If `must_erase`, skip headers with C4 clear."""
    return next((at for at in reversed(range(len(packets))) if get_page(packets[at]) == page
                 and (erases_page(packets[at]) or not must_erase)), None)


def ends_open_page(packet: Packet, page: Page) -> bool:
    """Return whether a packet is a header that closes an open page."""
    header = packet.header
    return header is not None and (header[0][0] == page[0] or SERIAL in header[1])


def find_kept_span(packets: Sequence[Packet], page: Page, may_keep: bool) -> list[Packet]:
    """Return the packets of the page since it was last erased.

    If `may_keep` is true, begin at the last header that erases the page, or at its first header if
    none does. Otherwise begin at its last header.
    """
    first = find_last_header(packets, page, may_keep)
    if first is None:
        first = next((at for at, packet in enumerate(packets) if get_page(packet) == page), None)
    span: list[Packet] = []
    is_open = False
    for packet in packets[first:] if first is not None else []:
        if get_page(packet) == page:
            is_open = True
        elif ends_open_page(packet, page):
            is_open = False
        elif is_open:
            span.append(packet)
    return span


def erases_page(packet: Packet) -> bool:
    return packet.header is not None and ERASE in packet.header[1]


def get_page(packet: Packet) -> Page | None:
    return packet.header[0] if packet.header else None


def is_row(packet: Packet, page: Page) -> bool:
    address = packet.address
    return address is not None and address[0] == page[0] and 1 <= address[1] <= 24


def read_rows(span: Sequence[Packet], page: Page) -> dict[int, bytes]:
    """Return the codes of each row, from the first packet with this row."""
    rows: dict[int, bytes] = {}
    for packet in span:
        if packet.address and is_row(packet, page) and packet.address[1] not in rows:
            rows[packet.address[1]] = get_codes(packet)
    return rows


def get_codes(packet: Packet) -> bytes:
    return packet.data[2:].translate(PARITY_REMOVED)


class DecodedFrames(NamedTuple):
    """A decoded page: 960 codes, whether the page is open, and the rows since its last header."""

    page: bytes
    is_open: bool
    received_rows: set[int]

    def find_first_difference(self, due: bytes) -> int | None:
        """Return the first cell that is wrong, or whose row was not sent after the last header."""
        for row, place in enumerate(range(0, len(due), COLUMNS), 1):
            own, its = self.page[place:place + COLUMNS], due[place:place + COLUMNS]
            if own == its and (row in self.received_rows or its == BLANK[:COLUMNS]):
                continue
            return next(place + at for at, code in enumerate(its)
                        if code != own[at] or code != SPACE and row not in self.received_rows)
        return None


def decode(packets: Sequence[Packet], options: Options) -> DecodedFrames:
    """Return the page that a receiver decodes from the packets, starting with a blank page."""
    span, is_open = find_page_span(packets, options.page)
    rows = read_rows(find_kept_span(packets, options.page, options.may_keep), options.page)
    return DecodedFrames(b"".join(rows.get(row, BLANK[:COLUMNS]) for row in range(1, 25)), is_open,
                         {*read_rows(span, options.page)})


def is_exact(codes: bytes) -> bool:
    return all(byte in CODE_WORDS for byte in codes)


def is_plain_subtitle_header(control: set[int], option: str) -> bool:
    """Return whether C6 and C7 are set, C5 and C10 are clear, and C12 to C14 are correct."""
    return control >= {6, 7} and not control & {5, 10} and control & ALL_OPTION_BITS == BITS[option]


def is_repeat(packet: Packet, before: Sequence[Packet], is_open: bool, options: Options) -> bool:
    """Return whether a header may be a repeated header, which keeps the page.

    Its subcode must be that of the previous header. With --complete the page must also be closed.
    """
    last = next((item for item in reversed(before) if get_page(item) == options.page), None)
    return (options.may_keep and not (options.is_complete and is_open)
            and (last is None or decode_subcode(last.data) == decode_subcode(packet.data)))


def find_packet_faults(packet: Packet, before: Sequence[Packet], options: Options) -> list[int]:
    """Return the numbers of the rules that a packet breaks, given the earlier packets."""
    address, header, page = packet.address, packet.header, options.page
    _, is_open = find_page_span(before, page)
    is_stored = is_open and is_row(packet, page)
    headers = (item.header for item in before if item.header)
    rows = read_rows(find_kept_span(before, page, options.may_keep), page)
    known = rows.get(address[1]) if address and is_stored else None
    broken_faults: dict[int, object] = {
        64: not is_exact(packet.data[:2]),
        65: address and address[1] == 0 and not is_exact(packet.data[2:10]),
        66: header and (SERIAL in header[1]) != (SERIAL in next(headers, header)[1]),
        67: header and header[0] == page and not (
            is_plain_subtitle_header(header[1], options.option)
            and (erases_page(packet) or is_repeat(packet, before, is_open, options))),
        68: is_stored and not all(map(is_odd, packet.data[2:])),
        69: known is not None and known != get_codes(packet),
        70: is_open and address and address[0] == page[0] and 25 <= address[1] <= 28,
    }
    return [number for number, is_so in broken_faults.items() if is_so]
