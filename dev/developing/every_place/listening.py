"""Compute the output of `packets` and `listen` with a simple, slow algorithm."""
from __future__ import annotations

from typing import Iterator, NamedTuple

from developing.pes import decode_address, decode_pts
from subtitles.common.times import format_frame, parse_frame
from subtitles.formats.teletext import is_odd
from .definitions import find_failure_line, select_data
from .on_air import ERASE, SERIAL
from .reading import (
    decode_header, find_head_fault, get_line, read_packet, read_units, split_packets)
from .recordings import Range
from .rows import COLUMNS, ROWS, SPACE
from .told import format_refused
from .arguments import Options, parse_arguments

NOT_RECEIVED = 0x3F  # code of each cell before a page is received


def find_end_fault(selection: Range, count: int, end_fault: int | None,
                   is_failing: bool) -> str | None:
    """Return the line about a fault or read failure after `count` PES packets and gap markers.

    Return `None` if there is none.
    """
    failure = find_failure_line(selection, count, end_fault, is_failing)
    return failure or (None if end_fault is None
                       else format_refused(end_fault, f"pes {selection.first + count}"))


def list_unit_lines(piece: bytes) -> Iterator[str]:
    """Yield a line for each Teletext data unit in a PES packet."""
    units = (piece[at:at + 46] for at in range(46, len(piece), 46))
    teletext = [unit for unit in units if unit[0] in (2, 3)]
    for number, (unit, packet) in enumerate(zip(teletext, read_units(piece)[0])):
        which, line = get_line(unit)
        yield f"unit {number} id {unit[0]:02x} field {which + 1} line {line} {packet.hex()}"


def list_packets_lines(data: bytes, options: Options, is_failing: bool) -> Iterator[str]:
    """Yield the lines of `packets`, up to the first fault."""
    selection = select_data(data, options)
    pieces, end_fault = split_packets(selection.data)
    for pes, piece in enumerate(pieces, selection.first):
        number = find_head_fault(piece) or read_units(piece)[1]
        if number:
            yield format_refused(number, f"pes {pes}")
            return
        yield f"pes {pes} pts {decode_pts(piece)}"
        yield from list_unit_lines(piece)
    yield find_end_fault(selection, len(pieces), end_fault, is_failing) or f"{len(pieces)} pes"


class ListenOptions(NamedTuple):
    """The options of `listen` that other commands do not have."""

    last: int
    skip: int
    flips: list[list[int]]
    lost: list[int]
    receiver: str
    is_complete: bool

    def flip_bits(self, number: int, packet: bytes) -> bytes:
        """Return a packet in which the bits listed by --flip are flipped."""
        changed = bytearray(packet)
        for which, at, bit in self.flips:
            if which == number:
                changed[at] ^= 1 << bit - 1
        return bytes(changed)


def parse_listen_options(arguments: list[str]) -> ListenOptions:
    """Parse the options of `listen` that other commands do not have."""
    given = parse_arguments(arguments)
    last = parse_frame(given["--at"])
    assert last is not None
    flips = [[int(number) for number in item.split(":")]
             for item in given.get("--flip", "").split(",") if item]
    lost = [int(item) for item in given.get("--lose", "").split(",") if item]
    return ListenOptions(last, int(given.get("--skip", "0")), flips, lost,
                         given.get("--receiver", "blank"), "--complete" in arguments)


class Receiver:
    """A Teletext receiver. `decoded` is the page in its memory, `shown` the page on its screen."""

    def __init__(self, options: Options, kind: str) -> None:
        self.page, self.kind = options.page, kind
        self.has_header = self.is_open = False
        self.decoded = [bytes([NOT_RECEIVED]) * COLUMNS] * ROWS
        self.shown: list[bytes] | None = None

    def receive(self, packet: bytes) -> None:
        """Process a Teletext packet as EN 300 706 requires."""
        address, header = decode_address(packet), decode_header(packet)
        if header and header[0] == self.page:
            self.has_header = self.is_open = True
            if ERASE in header[1] or self.kind == "anew":
                self.decoded = [bytes([SPACE]) * COLUMNS] * ROWS
        elif header and (header[0][0] == self.page[0] or SERIAL in header[1]):
            if self.is_open:
                self.shown = list(self.decoded)
            self.is_open = False
        elif address and address[0] == self.page[0] and 1 <= address[1] <= ROWS and self.is_open:
            self.store(address[1], packet[2:])

    def store(self, row: int, data: bytes) -> None:
        """Store a row. The kind of receiver determines how bytes with even parity are stored."""
        if self.kind == "drop" and not all(map(is_odd, data)):
            return
        old = self.decoded[row - 1]
        self.decoded[row - 1] = bytes(
            byte & 0x7F if is_odd(byte) else old[at] if self.kind == "keep" else SPACE
            for at, byte in enumerate(data))

    def list_lines(self, is_complete: bool) -> Iterator[str]:
        """Yield the printed lines about the state of this receiver."""
        yield "heard yes" if self.has_header else "heard no"
        if not self.has_header:
            return
        yield "open yes" if self.is_open else "open no"
        page = self.shown if is_complete else self.decoded
        if page is None:
            yield "shown no"
            return
        rows = [(row, codes) for row, codes in enumerate(page, 1) if codes.strip(b" ")]
        for row, codes in rows:
            text = "".join(chr(code) if 0x20 <= code <= 0x7E else "." for code in codes)
            yield f"row {row:02} |{text}|"
        if not rows:
            yield "blank"


def list_receiver_lines(data: bytes, options: Options, arguments: list[str],
                        is_failing: bool) -> list[str]:
    """Return the lines of `listen`: the state of the receiver, or the first fault."""
    heard, selection = parse_listen_options(arguments), select_data(data, options)
    receiver = Receiver(options, heard.receiver)
    pieces, end_fault = split_packets(selection.data)
    before = -1  # frame of the previous PES packet
    number = place = 0  # numbers of the next Teletext packet in the file and in the frame
    for pes, piece in enumerate(pieces, selection.first):
        sending = read_packet(piece, options.origin, options.within)
        if isinstance(sending, int):
            return [format_refused(sending, f"pes {pes}")]
        frame, packets = sending
        if frame < before or frame == before and not options.within:
            return [format_refused(62, f"pes {pes}")]
        if frame > heard.last:
            return list(receiver.list_lines(heard.is_complete))
        place = place if frame == before else 0
        before = frame
        for packet in packets:
            if number >= heard.skip and number in heard.lost:
                if (decode_address(packet) or (0, 0))[1] == 0:
                    return [f"refused 76 LostHeader frame {format_frame(frame)} packet {place}"]
            elif number >= heard.skip:
                receiver.receive(heard.flip_bits(number, packet))
            number, place = number + 1, place + 1
    fault = find_end_fault(selection, len(pieces), end_fault, is_failing)
    return [fault] if fault else list(receiver.list_lines(heard.is_complete))
