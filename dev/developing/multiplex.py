"""Make a transport stream of one programme with Teletext (ISO/IEC 13818-1)."""
from __future__ import annotations

from subtitles.common.times import wrap_pts
from subtitles.formats.teletext import Page

SYNC, PACKET, PAYLOAD_START, PAYLOAD = 0x47, 188, 0x40, 0x10

PROGRAMME, PMT_PID, PCR_PID = 1, 0x100, 0x1FF0
RESERVED_PIDS = {PMT_PID, PCR_PID}
FULL = 184  # bytes of a TS packet after its header
TENTH_TICKS = 9000  # ticks (90 kHz) in a tenth of a second
LONG = 120 * 10 * TENTH_TICKS  # longest pause in ticks that is filled with PCRs
SUBTITLES = 2  # teletext_type for subtitles in a Teletext descriptor
ADAPTATION_ALONE = 0x20
COUNTERS = range(16)


def make_packet_header(pid: int, begins: int, control: int) -> bytes:
    """Return the four-byte header of a TS packet."""
    return bytes([SYNC, begins | pid >> 8, pid & 255, control])


def make_section(table: int, number: int, body: bytes) -> bytes:
    """Return a pointer field and the only section of a table: version 0, currently applicable."""
    start = (0xB000 | len(body) + 9).to_bytes(2, "big") + number.to_bytes(2, "big") + b"\xc1\0\0"
    data = bytes([table]) + start + body
    return b"\0" + data + compute_crc(data).to_bytes(4, "big")


def make_pmt_body(pid: int, language: bytes, page: Page) -> bytes:
    """Return the body of the PMT: the PCR's PID, and a component with its Teletext descriptor."""
    magazine, number = page
    teletext = b"\x56\x05" + language + bytes([SUBTITLES << 3 | magazine, number])
    return ((0xE000 | PCR_PID).to_bytes(2, "big") + b"\xf0\0"
            + b"\x06" + (0xE000 | pid).to_bytes(2, "big")
            + (0xF000 | len(teletext)).to_bytes(2, "big") + teletext)


class Multiplex:
    """A writer of a transport stream. It collects TS packets until the caller takes them."""

    def __init__(self, pid: int, language: bytes, page: Page) -> None:
        pat = make_section(0, 1, PROGRAMME.to_bytes(2, "big") +
                           (0xE000 | PMT_PID).to_bytes(2, "big"))
        pmt = make_section(2, PROGRAMME, make_pmt_body(pid, language, page))
        # The TS packets with PAT and PMT for each value of the continuity counter.
        self.tables = [b"".join((make_packet_header(table_pid, PAYLOAD_START,
                                                    PAYLOAD | counter) + data)
                                .ljust(PACKET, b"\xff")
                                for table_pid, data in ((0, pat), (PMT_PID, pmt)))
                       for counter in COUNTERS]
        self.first_headers = [make_packet_header(pid, PAYLOAD_START, PAYLOAD | counter)
                              for counter in COUNTERS]
        self.heads = [make_packet_header(pid, 0, PAYLOAD | counter) for counter in COUNTERS]
        self.clock_head = make_packet_header(PCR_PID, 0, ADAPTATION_ALONE | 15) + b"\xb7\x10"
        self.clock_rest = b"\xff" * (PACKET - len(self.clock_head) - 6)
        self.parts: list[bytes] = []
        self.size = self.count = self.counter = 0
        self.base: int | None = None

    def add_pes_packet(self, data: bytes, pts: int) -> None:
        """Add the tables, the PCRs up to the PTS, and a PES packet."""
        parts, counter = self.parts, self.counter
        parts.append(self.tables[self.count & 15])
        self.count += 1
        self.add_clock(pts)
        for at in range(0, len(data), FULL):
            parts.append(self.heads[counter] if at else self.first_headers[counter])
            parts.append(data[at:at + FULL])
            counter = counter + 1 & 15
        self.counter = counter
        self.size += len(data) + 2 * PACKET

    def add_clock(self, pts: int) -> None:
        """Add a PCR every tenth of a second, up to a tenth of a second before the PTS."""
        end = wrap_pts(pts - TENTH_TICKS)
        if self.base is None or wrap_pts(end - self.base) > LONG:
            self.base = wrap_pts(end - TENTH_TICKS)
        length = wrap_pts(end - self.base)
        for at in [*range(TENTH_TICKS, length, TENTH_TICKS), *([length] if length else [])]:
            bits = wrap_pts(self.base + at) << 15 | 0x3F << 9
            self.parts += [self.clock_head, bits.to_bytes(6, "big"), self.clock_rest]
            self.size += PACKET
        self.base = end

    def take_packets(self) -> bytes:
        """Return the packets that were added since the last call."""
        data = b"".join(self.parts)
        self.parts, self.size = [], 0
        return data


def compute_crc(data: bytes) -> int:
    """Return the CRC-32 of ISO/IEC 13818-1, annex A. It is 0 for data that end with their CRC."""
    value = 0xFFFFFFFF
    for byte in data:
        value ^= byte << 24
        for _ in range(8):
            value = (value << 1 ^ (0x04C11DB7 if value & 0x80000000 else 0)) & 0xFFFFFFFF
    return value
