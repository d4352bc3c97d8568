"""Parse TS packets (ISO/IEC 13818-1, 2.4.3), and detect their size."""
from __future__ import annotations

from developing.every_place.recordings import PACKET, SIZES, SYNC, TransportPacket

MAX_SEARCHED_BYTES = 1 << 24  # maximum number of bytes searched for the packet size
SYNC_PACKETS = 5
DISCONTINUITY, RANDOM_ACCESS, PCR = 0x80, 0x40, 0x10  # flags of an adaptation field


class Packet(TransportPacket):
    """A TS packet. Its adaptation field is ignored if transport_error_indicator is set."""

    def __init__(self, data: bytes) -> None:
        super().__init__(data)
        self.has_error = data[1] & 0x80 != 0
        self.is_scrambled = data[3] & 0xC0 != 0
        length = data[4] if data[3] & 0x20 and not self.has_error else 0
        flags = data[5] if length else 0
        self.is_discontinuity = flags & DISCONTINUITY != 0
        self.is_random_access = flags & RANDOM_ACCESS != 0
        self.pcr = int.from_bytes(data[6:11], "big") >> 7 if flags & PCR and length >= 7 else None


def size_of(data: bytes) -> tuple[int | None, bool]:
    """Return the packet size, and whether the data end within five packets.

    The size is the distance between five consecutive sync bytes, or between fewer at the end of the
    data. Return `None` if there are no such sync bytes.
    """
    place = data.find(SYNC)
    while 0 <= place <= min(MAX_SEARCHED_BYTES, len(data) - PACKET):
        for size in SIZES:
            if all(byte == SYNC for byte in data[place:place + size * SYNC_PACKETS:size]):
                return size, place + size * (SYNC_PACKETS - 1) >= len(data)
        place = data.find(SYNC, place + 1)
    return None, True
