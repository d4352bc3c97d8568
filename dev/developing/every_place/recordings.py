"""Read the PES packets in a transport stream with a simple, slow algorithm.

A recording is a transport stream (ISO/IEC 13818-1): packets of 188 bytes, which begin 188, 192 or
204 bytes apart. The payloads of a PID are split into parts. Each part is a PES packet or a
fragment. A gap marker, which is an invalid PES packet, replaces missing PES packets.
"""
from __future__ import annotations

from typing import Iterator, NamedTuple

from .reading import HEAD, LENGTH, START, read_length, read_packet_at

SYNC = 0x47
PACKET = 188
SIZES = PACKET, 192, 204  # possible packet sizes in bytes
TIME_STAMP = 4  # bytes before each packet if the packet size is 192
MAX_RECORDING_BYTES = 2**48  # maximum number of bytes that are read
MAX_UNSEEN_PACKETS = 15  # maximum number of missing packets that a continuity counter detects
GAP_MARKER = b"\0\0\1\xbd\0\xb2" + b"\xff" * 178


class SkippedBytes(NamedTuple):
    """Skipped bytes between packets."""

    length: int


class TransportPacket:
    """A transport packet of 188 bytes (ISO/IEC 13818-1, 2.4.3.2)."""

    def __init__(self, data: bytes) -> None:
        self.data = data
        self.pid = data[1] % 32 * 256 + data[2]
        self.begins = data[1] & 0x40 != 0  # payload_unit_start_indicator
        self.counter = data[3] % 16
        has_field, self.has_payload = data[3] & 0x20 != 0, data[3] & 0x10 != 0
        # transport_error_indicator is set, the packet is scrambled, or its payload is empty.
        self.is_wrong = bool(data[1] & 0x80 or data[3] & 0xC0) or (
            has_field and self.has_payload and data[4] > 182)
        # discontinuity_indicator, which is ignored in a faulty packet.
        self.announces_jump = not self.is_wrong and has_field and data[4] != 0 \
            and data[5] & 0x80 != 0
        self.payload = data[5 + data[4]:] if has_field else data[4:]


def find_packets(data: bytes, size: int) -> Iterator[TransportPacket | SkippedBytes]:
    """Yield the packets in a stream, and the skipped bytes between them.

    If no packet follows the previous packet, search for two sync bytes a packet size apart.
    """
    data = data[:MAX_RECORDING_BYTES]
    place = TIME_STAMP if size == 192 else 0
    is_synchronized, skipped = True, 0
    while len(data) - place >= PACKET:
        if not is_synchronized and data[place:place + 1] + data[place + size:place + size + 1] \
                == bytes([SYNC, SYNC]):
            is_synchronized = True
        elif not is_synchronized:
            after = data.find(SYNC, place + 1, len(data) - PACKET + 1)
            after = after if after > 0 else len(data) - PACKET + 1
            skipped, place = skipped + after - place, after
        elif data[place] != SYNC:
            is_synchronized = False
        else:
            if skipped:
                yield SkippedBytes(skipped)
            skipped = 0
            yield TransportPacket(data[place:place + PACKET])
            place += size
    if skipped:
        yield SkippedBytes(skipped)


class GoodPacket(NamedTuple):
    """An intact packet, and how it follows the previous intact packet.

    If `is_break` is true, packets may be missing before it. If `is_announced_jump` is true, its
    counter jumps as announced, and no packet is missing.
    """

    packet: TransportPacket
    is_break: bool
    is_announced_jump: bool


class Stretch:
    """The events between two consecutive intact packets."""

    def __init__(self, before: TransportPacket | None) -> None:
        self.before = before
        self.has_repeat = self.has_jump = self.has_lost_packets = False

    def is_repeat(self, packet: TransportPacket) -> bool:
        """Return whether a packet is the first duplicate of the previous packet.

        ISO/IEC 13818-1, 2.4.3.3: one duplicate is allowed. It must not announce a new jump.
        """
        before = self.before
        return before is not None and not self.has_repeat and not self.has_jump \
            and packet.data[:4] == before.data[:4] and packet.payload == before.payload \
            and (before.announces_jump or not packet.announces_jump)

    def make_good_packet(self, packet: TransportPacket) -> GoodPacket:
        """Return an intact packet, with its relation to the previous intact packet."""
        if self.before is None:
            return GoodPacket(packet, False, False)
        is_announced = self.has_jump or packet.announces_jump
        is_continued = packet.counter == (self.before.counter + 1) % 16
        is_break = self.has_lost_packets or not is_announced and not is_continued
        return GoodPacket(packet, is_break, is_announced and not is_break)


def find_good_packets(data: bytes, pid: int, size: int) -> tuple[list[GoodPacket], bool]:
    """Return the intact packets of a PID, and whether a faulty packet follows the last of them."""
    result: list[GoodPacket] = []
    stretch, is_last_packet_wrong = Stretch(None), False
    for packet in find_packets(data, size):
        if isinstance(packet, SkippedBytes):
            stretch.has_lost_packets |= packet.length >= MAX_UNSEEN_PACKETS * size
        elif packet.pid != pid:
            continue
        elif packet.is_wrong:
            stretch.has_lost_packets = is_last_packet_wrong = True
        elif not packet.has_payload:
            stretch.has_jump |= packet.announces_jump
        elif stretch.is_repeat(packet):
            stretch.has_repeat = True
        else:
            result.append(stretch.make_good_packet(packet))
            stretch, is_last_packet_wrong = Stretch(packet), False
    return result, is_last_packet_wrong and bool(result)


class Part:
    """Consecutive intact packets. Only the first can contain the start of a PES packet."""

    def __init__(self, packets: list[GoodPacket]) -> None:
        self.has_break = packets[0].is_break
        payloads = [item.packet.payload for item in packets]
        self.payload = b"".join(payloads)
        result = read_length(self.payload) if packets[0].packet.begins else None
        # The fault number for the first six bytes of the PES packet, and the length of the PES
        # packet. At least one of them is `None`.
        self.wrong_head = result if result in (START, LENGTH) else None
        self.length = None if self.wrong_head else result
        self.is_whole = self.length is not None and len(self.payload) >= self.length
        self.head = b""  # payloads until the first six bytes of the PES packet are complete
        for payload in payloads:
            self.head += payload if len(self.head) < HEAD else b""


def cut_parts(good_packets: list[GoodPacket]) -> list[Part]:
    """Split intact packets at each start of a PES packet, each break and each announced jump."""
    parts: list[list[GoodPacket]] = []
    for good_packet in good_packets:
        if not parts or good_packet.packet.begins or good_packet.is_break \
                or good_packet.is_announced_jump:
            parts.append([])
        parts[-1].append(good_packet)
    return [Part(packets) for packets in parts]


class StreamContent(NamedTuple):
    """The PES packets and gap markers in a stream.

    `marks` contains, for each item of `pieces`, whether it is a gap marker. If a start code or
    length is wrong, `rest` contains the bytes from there on, and `end_fault` is the fault number.
    """

    pieces: list[bytes]
    marks: list[bool]
    rest: bytes
    end_fault: int | None

    @property
    def data(self) -> bytes:
        return b"".join(self.pieces) + self.rest


def read_stream(data: bytes, pid: int, size: int) -> StreamContent:
    """Return the PES packets of a PID, with a gap marker wherever packets may be missing."""
    good_packets, is_last_packet_wrong = find_good_packets(data, pid, size)
    parts = cut_parts(good_packets)
    pieces: list[bytes] = []
    marks: list[bool] = []
    has_gap = False

    def mark() -> None:
        if pieces and has_gap:
            pieces.append(GAP_MARKER)
            marks.append(True)

    for number, part in enumerate(parts, 1):
        has_gap |= part.has_break
        if part.wrong_head is not None:
            mark()
            return StreamContent(pieces, marks, part.head, part.wrong_head)
        if part.is_whole:
            mark()
            pieces.append(part.payload[:part.length])
            marks.append(False)
            has_gap = len(part.payload) > len(pieces[-1])
        elif number < len(parts) or is_last_packet_wrong:
            has_gap = True
    has_gap |= is_last_packet_wrong
    mark()
    return StreamContent(pieces, marks, b"", None)


class Range(NamedTuple):
    """A range of PES packets and gap markers, and the index of its first item.

    If the range reaches the end, `data` includes the bytes after the last PES packet.
    """

    data: bytes
    first: int
    is_end: bool  # whether the range reaches the end of the data


def select_range(data: bytes, first: int, last: int | None) -> Range:
    """Return the items from `first` to `last`, or to the end of the data if `last` is `None`."""
    place, count, begin = 0, 0, 0
    while last is None or count <= last:
        if count == first:
            begin = place
        piece = read_packet_at(data, place) if place < len(data) else None
        if not isinstance(piece, bytes):
            return Range(data[begin if count >= first else place:], min(first, count), True)
        place += len(piece)
        count += 1
    return Range(data[begin:place], first, False)
