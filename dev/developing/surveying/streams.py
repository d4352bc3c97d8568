"""Make random recordings: multiplexed streams with losses and other faults."""
from __future__ import annotations

import struct
from functools import partial
from random import Random
from typing import Callable, NamedTuple

from developing.every_place.recordings import PACKET, SIZES, SYNC
from developing.every_place.streams import (
    Unit, change_units, choose_packet, corrupt_unit, is_packet, join_units,
    make_packet_without_payload, make_random_bytes)
from developing.pes import (
    encode_pts, encode_triplet, make_packet as teletext_packet, make_pes_packet)
from subtitles.common.times import CLOCK, wrap_pts
from subtitles.formats.teletext import START, Page, page_name
from .tables import cached_crc

FULL = PACKET - 4
PAYLOAD_START, RANDOM_ACCESS, PCR_FLAG = 0x40, 0x40, 0x10
MPEG_1, MPEG_2, H264, HEVC = 0x01, 0x02, 0x1B, 0x24  # stream_type
NO_PCR, FIRST_PCR = 0x1FFF, 0x11F  # PCR_PIDs: of programmes without PCR, of the first programme
NULL = bytes([SYNC, 0x1F, 0xFF, 0x10]).ljust(PACKET, b"\xff")
MAX_SURVEYED_PAGES = 8
PAGES: list[Page] = [(0, 0x88), (0, 0x88), (0, 0x88), (0, 0x77), (1, 0x88), (0, 0xFF), (7, 0x99)]


class Multiplex:
    """A multiplexer: the TS packets that it sent, and the counter of each PID."""

    def __init__(self, chance: Random) -> None:
        self.chance = chance
        self.units: list[Unit] = []
        self.counters: dict[int, int] = {}
        self.losses: list[int] = []  # positions of lost units

    def send(self, pid: int, payload: bytes, begins: bool = False, flags: int = 0,
             pcr: int | None = None) -> None:
        """Send a TS packet. A payload of fewer than 184 bytes follows an adaptation field."""
        counter = self.counters.get(pid, self.chance.randrange(16))
        field, room = b"", FULL - 1 - len(payload)
        if room >= 0:
            body = bytes([flags])
            if pcr is not None:
                body = bytes([flags | PCR_FLAG]) + (pcr << 15 | 0x7E00).to_bytes(6, "big")
            field = bytes([room]) + body.ljust(room, b"\xff")[:room]
        control = (0x10 if payload else 0) | (0x20 if field else 0)
        head = bytes([SYNC, PAYLOAD_START * begins | pid >> 8, pid & 255, control | counter])
        self.counters[pid] = (counter + (payload != b"")) % 16
        self.units.append(Unit(head + field + payload, 0))

    def send_pes(self, pid: int, data: bytes, flags: int = 0, pcr: int | None = None,
                 sizes: tuple[int, ...] = (FULL,)) -> None:
        """Send a PES packet, split into payloads of random sizes from `sizes`."""
        place = 0
        while place < len(data):
            most = FULL - (8 if pcr is not None else 2 if flags else 0)
            size = min(self.chance.choice(sizes), most)
            self.send(pid, data[place:place + size], place == 0, flags, pcr)
            place, flags, pcr = place + size, 0, None

    def send_sections(self, pid: int, table: int, number: int, version: int, body: bytes) -> None:
        """Send one or two sections of a table, sometimes after stuffing bytes."""
        data, starts = b"\xff" * self.chance.choice([0, 0, 0, 0, 5, 170]), []
        for section in self.chance.choice([[0], [0], [0], [1], [1, 0]]):
            is_current = self.chance.random() < 0.97
            result = struct.pack(">BHHBBB", table, 0xB000 | len(body) + 9, number,
                                 0xC0 | version << 1 | is_current, section, section) + body
            starts.append(len(data))
            data += result + cached_crc(result).to_bytes(4, "big")
        while data:
            pointer = bytes([start for start in starts if 0 <= start < FULL - 1][:1])
            size = FULL - len(pointer)
            self.send(pid, (pointer + data[:size]).ljust(FULL, b"\xff"), pointer != b"")
            data, starts = data[size:], [start - size for start in starts]


def make_random_descriptors(chance: Random, has_pmt: bool) -> bytes:
    """Return random descriptors. If `has_pmt` is set, some announce Teletext pages."""
    result = b""
    for _ in range(chance.choice([0, 0, 1, 2])):
        result += bytes([chance.choice([0x0A, 0x52, 0x59]), 4]) + chance.randbytes(4)
    for _ in range(chance.choice([1, 1, 2]) if has_pmt else 0):
        pages = b"".join(
            bytes(chance.choices(b"engdufra", k=3)) + bytes([chance.randrange(256), page])
            for page in chance.choices([0x88, 0x77, 0x99, 0x00], k=chance.choice([1, 1, 2, 5])))
        pages += b"x" * chance.choice([0, 0, 0, 1, 4])
        more = chance.choice([0] * 30 + [5, 9])  # bytes that the descriptor claims beyond its end
        result += bytes([chance.choice([0x56, 0x56, 0x46]), len(pages) + more]) + pages
    return result


def make_random_page_header(chance: Random, page: Page) -> bytes:
    numbers = [page[1] & 15, page[1] >> 4, chance.choice([0, 0, 3]), 8, chance.choice([0, 0, 2]),
               8, 1, 0]
    if chance.random() < 0.4:
        numbers[3], numbers[5:] = chance.choice([0, 8]), [
            chance.choice([0, 4, 8, 12]), chance.randrange(16), chance.choice([0, 1, 2, 8, 15])]
    return teletext_packet(page[0], 0, numbers, [0x20] * 32)


def make_random_teletext(chance: Random, is_busy: bool) -> list[bytes]:
    """Return random Teletext packets with bits in the order of EN 300 706."""
    result: list[bytes] = []
    for _ in range(chance.choice([0, 1, 1, 2, 3]) if is_busy else chance.choice([0, 1])):
        page = chance.choice(PAGES) if chance.random() < 0.6 else PAGES[0]
        result.append(make_random_page_header(chance, page))
        for _ in range(chance.choice([0, 1, 2, 4]) if is_busy else 0):
            number = chance.choice([20, 21, 22, 24, 1, 25, 26, 27, 28, 28, 29])
            magazine = page[0] if chance.random() < 0.8 else chance.randrange(8)
            if number > 25:
                result.append(make_enhancement_packet(chance, magazine, number))
            else:
                result.append(teletext_packet(magazine, number, (), chance.choice(
                    [[0x20] * 40, [0x41] * 40, chance.choices(range(128), k=40)])))
    return [with_wrong_bits(chance, data, [0, 1, 2, 9, chance.randrange(42)])
            if chance.random() < 0.1 else data for data in result]


def with_wrong_bits(chance: Random, data: bytes, places: list[int]) -> bytes:
    changed = bytearray(data)
    for _ in range(chance.choice([1, 1, 2, 3])):
        changed[chance.choice(places)] ^= 1 << chance.randrange(8)
    return bytes(changed)


def make_enhancement_packet(chance: Random, magazine: int, number: int) -> bytes:
    """Return a packet X/26 to X/29. Only the first triplet of these packets is read."""
    first = encode_triplet(chance.choice([0, 0, 0x2380, 0x3FF0, chance.randrange(1 << 18)]))
    data = teletext_packet(magazine, number, [chance.choice([0, 0, 4, 1, 15])], [])
    data = (data + first).ljust(42, b"\0")
    return with_wrong_bits(chance, data, [3, 4, 5]) if chance.random() < 0.5 else data


def make_teletext_pes(chance: Random, pts: int, packets: list[bytes]) -> bytes:
    """Return a PES packet with Teletext, sometimes with a fault."""
    data = make_pes_packet(wrap_pts(pts), packets) + bytes(chance.choice([0] * 60 + [20, 184]))
    if chance.random() < 0.02:
        return data[:6] + b"\xff" * (len(data) - 6)  # a gap marker if the packet has 184 bytes
    if chance.random() < (0.03 if packets else 0.15):  # change PTS_DTS_flags
        return data[:7] + bytes([chance.choice([0, 0xC0])]) + data[8:]
    if chance.random() < 0.05:
        unit = 46 * chance.randrange(1, len(data) // 46)
        places = [range(unit, unit + 4), [0, 3, 4, 5, 6, 7, 8, 9, 11, 13, 45]]
        data = with_wrong_bits(chance, data, list(places[chance.random() < 0.2]))
    return data


# Start codes or NAL unit headers before a picture, and those with which a picture begins.
BEFORE_PICTURE = {MPEG_1: [0xB3, 0xB2, 0xB8], MPEG_2: [0xB3, 0xB5, 0xB2, 0xB8], H264: [0x09],
                  HEVC: [0x46, 0x40, 0x42, 0x44, 0x4E]}
PICTURE_UNITS = {MPEG_1: [0], MPEG_2: [0], H264: [0x65], HEVC: [2 * unit for unit in (
    0, 1, 8, 16, 17, 18, 19, 20, 21, 22)]}


def time_bytes(prefix: int, ticks: int) -> bytes:
    """Encode a PTS or DTS after a four-bit prefix."""
    data = encode_pts(wrap_pts(ticks))
    return bytes([data[0] & 0x0F | prefix << 4]) + data[1:]


def make_picture_pes(chance: Random, kind: int, pts: int, dts: int, is_first: bool, is_odd: bool
                     ) -> bytes:
    """Return a PES packet with one or two pictures. If `is_odd`, change its start or its header."""
    head = b"\0\0\1\xe0\0\0\x84\xc0\x0a" + time_bytes(3, pts) + time_bytes(1, dts)
    if dts == pts and chance.random() < 0.9:
        head = b"\0\0\1\xe0\0\0\x84\x80\x05" + time_bytes(2, pts)
    if is_odd:
        changed = bytearray(head + b"\xff" * chance.choice([0, 0, 1, 5, 200]))
        changed[8] = min(255, len(changed) - 9)
        place, values = chance.choice([(2, [1, 2]), (3, [0xEF, 0xBD, 0xC0, 0xF0]), (6, [0, 0xFF]),
                                       (7, [0, 0x40, 0x80, 0xC0]), (8, [0, 3, 5, 10, 12])])
        changed[place] = chance.choice(values)
        head = bytes(changed)
    codes = [code for code in BEFORE_PICTURE[kind] if is_first and chance.random() < 0.8]
    next_codes = BEFORE_PICTURE[kind] if chance.random() < 0.3 else []
    if not is_odd:
        codes.append(chance.choice(PICTURE_UNITS[kind]))
    for code in codes + next_codes:
        head += b"\0" * chance.choice([2, 2, 3]) + bytes([1, code]) \
            + chance.randbytes(chance.choice([4, 8, 60, 200]))
    return head


PTS_JUMPS = [90_000, -90_000, 3600, -3600, 400_000, 1 << 31, -900_000, 20_000]
SHORT_JUMPS = [3600, -3600, 36_000, -36_000, 1800, 900, 899, -900, -899, 1 << 32]
TimeJumps = list[tuple[int, int]]  # time and size of each jump in ticks
Event = tuple[int, Callable[[], None]]  # transmission time, and function that sends a packet


class Programme:
    """A random programme: its streams, and its events with transmission times."""

    def __init__(self, chance: Random, mux: Multiplex, number: int, length: int, is_small: bool
                 ) -> None:
        self.chance, self.mux, self.number, self.length = chance, mux, number, length
        self.pmt_pid, first, self.version = 0x20 + number, 0x100 + 16 * number, 0
        self.origin = chance.choice([900_000, CLOCK - 200_000, chance.randrange(CLOCK)])
        self.jumps = self.make_random_jumps(PTS_JUMPS, chance.choice([0, 0, 0, 1, 2, 5]))
        self.events: list[Event] = []
        self.streams: list[tuple[int, int, bool]] = []  # stream_type, PID, whether it is announced
        videos, teletexts = chance.choice([0, 1, 1, 1, 2]), chance.choice([0, 1, 1, 1, 2, 3])
        own = first + 15
        self.clock = chance.choice([own, own, FIRST_PCR, NO_PCR, first if videos else own])
        for at in range(min(videos, 1) if is_small else videos):
            self.add_video(first + at)
        for at in range(min(teletexts, 1) if is_small else teletexts):
            self.add_teletext(first + 8 + at)
        if chance.random() < 0.3:
            self.add_other_stream(first + 14)
        if self.clock == own:
            self.each(chance.choice([600, 1800, 3600, 9000, 20_000]), lambda _, time: (
                mux.send(self.clock, bytes(chance.choice([0, 0, 10, 177])),
                         pcr=self.compute_pcr(time))))
        self.events += [(at, self.insert_jump) for at, _ in self.jumps]
        self.change_pmt()

    def insert_jump(self) -> None:
        """Change continuity counters, announce some of the changes, and lose TS packets nearby."""
        chance, mux = self.chance, self.mux
        for pid in [self.clock, *[pid for _, pid, _ in self.streams]]:
            if chance.random() < 0.3:
                mux.counters[pid] = chance.randrange(16)
            if chance.random() < 0.5:
                mux.units.append(Unit(make_packet_without_payload(chance, pid, True)))
                for _ in range(chance.choice([0, 0, 1, 3])):
                    mux.units[-1] = corrupt_unit(chance, mux.units[-1])
        mux.losses.append(len(mux.units) + chance.randrange(-9, 6))

    def make_random_jumps(self, ticks: list[int], count: int) -> TimeJumps:
        return [(self.chance.randrange(self.chance.choice([self.length, 9000])),
                 self.chance.choice(ticks)) for _ in range(count)]

    def each(self, step: int, send: Callable[[int, int], None], first: int = 0) -> None:
        """Add an event every `step` ticks. `send` is called with the event's number and time."""
        self.events += [(time, partial(send, number, time))
                        for number, time in enumerate(range(first, self.length, step))]

    def ticks(self, time: int, more: TimeJumps | None = None) -> int:
        """Return the PTS at a time, including all earlier jumps."""
        return self.origin + time + sum(jump for at, jump in self.jumps + (more or [])
                                        if at <= time)

    def compute_pcr(self, time: int) -> int:
        return wrap_pts(self.ticks(time) - 9000)

    def add_video(self, pid: int) -> None:
        chance, mux = self.chance, self.mux
        kind = chance.choice(list(PICTURE_UNITS))
        self.streams.append((kind, pid, False))
        step, group = chance.choice([3600, 3600, 3003, 1800, 40_000]), chance.choice([5, 12, 400])
        late, odd = chance.choice([0, 0, 1, 2]), chance.choice([0, 0, 0, 0.1, 0.1, 1])
        sizes = chance.choice([(FULL,), (FULL,), (FULL, FULL, 5, 12, 100)])
        lead, flagged = chance.choice([0, 0, 18_000]), chance.choice([1, 1, 0.5, 0.3])
        jumps = self.make_random_jumps([3600, -3600, 180_000, 1], chance.choice([0, 0, 1])) \
            + self.make_jumps_there_and_back(step)
        damaged = chance.choice([0, 0, 0, 1, 3])  # number of first pictures with a wrong stream_id
        longer = chance.choice([0, 0, 0, 20, -20])  # ticks by which each step exceeds the last step
        pids = [pid]

        def send(number: int, time: int) -> None:
            is_first = number % group == 0
            dts = self.ticks(time, jumps) + longer * number * number // 2
            pts = dts + lead + (late + 1) * step * (late > 0 and number % (late + 1) == 0)
            data = make_picture_pes(chance, kind, pts, dts, is_first, chance.random() < odd)
            if number < damaged:
                data = data[:3] + bytes([chance.choice([0xBD, 0xBE, 0xC0])]) + data[4:]
            is_flagged = is_first and chance.random() < flagged or chance.random() < odd / 5
            for pid in pids:
                pcr = self.compute_pcr(time) if pid == self.clock else None
                mux.send_pes(pid, data, RANDOM_ACCESS * is_flagged, pcr, sizes)
        self.each(step, send)
        for time, _ in self.make_random_jumps([0], chance.choice([0, 0, 1, 2])):
            self.events.append((time, lambda: self.move_video(kind, pids)))

    def make_jumps_there_and_back(self, step: int) -> TimeJumps:
        """Return jumps of a video, each of which is undone some pictures later."""
        return [jump for at, ticks in self.make_random_jumps(
                    SHORT_JUMPS, self.chance.choice([0, 0, 1, 2]))
                for jump in [(at, ticks), (at + step * self.chance.choice([1, 2, 10, 20]), -ticks)]]

    def move_video(self, kind: int, pids: list[int]) -> None:
        """Name another PID for a video in the PMT, and send the pictures there. Sometimes, the PMT
        names the old PID too, or the pictures are sent on it too."""
        chance, old, new = self.chance, (kind, pids[-1], False), pids[-1] ^ 4
        pids[:] = [pids[-1], new] if chance.random() < 0.2 else [new]
        if old in self.streams and chance.random() < 0.8:
            self.streams.remove(old)
        self.streams.insert(0, (kind, new, False))
        if self.clock == old[1] and chance.random() < 0.8:
            self.clock = new
        self.change_pmt()
        if chance.random() < 0.7:
            self.send_pmt()

    def send_pmt(self) -> None:
        self.mux.send_sections(self.pmt_pid, 2, self.number, self.version, self.pmt)

    def add_teletext(self, pid: int) -> None:
        chance, mux = self.chance, self.mux
        is_announced, is_busy = chance.random() < 0.8, chance.random() < 0.5
        if is_announced or chance.random() < 0.5:
            self.streams.append((6, pid, is_announced))
        delay = chance.choice([0, 9000, -20_000])
        sizes = chance.choice([(FULL,), (FULL, 5, 12, 100)])
        same = make_random_teletext(chance, True)

        def send(_: int, time: int) -> None:
            nonlocal same
            if chance.random() < (0.5 if is_busy else 0.05):
                same = make_random_teletext(chance, is_busy)
            jitter = chance.choice([0, 0, 1, -900]) if chance.random() < 0.1 else 0
            data = make_teletext_pes(chance, self.ticks(time) + delay + jitter,
                                     same if chance.random() < 0.7 else [])
            mux.send_pes(pid, data, sizes=sizes)
        self.each(chance.choice([3600, 3600, 1800, 7200, 90_000]), send, chance.choice([0, 700]))

    def add_other_stream(self, pid: int) -> None:
        """Add a PID without Teletext, or with Teletext that is not announced."""
        chance, mux = self.chance, self.mux
        if chance.random() < 0.7:
            self.streams.append((chance.choice([3, 6, 0x81]), pid, False))
        length = chance.choice([0, 5, 0x24])
        data = b"\0\0\1" + chance.choice([b"\xc0", b"\xbd", b"\xbd", b"\xbe", b"\xe0"]) \
            + b"\0\xb2\x84\x80" + bytes([length]) + b"\xff" * length \
            + bytes([chance.choice([0x20, 0x10, 0x1F, 0x0F])])
        self.each(7200, lambda *_: mux.send_pes(pid, data.ljust(184, b"\xff"),
                                                sizes=(FULL, FULL, 20)))

    def change_pmt(self) -> None:
        """Make a new version of the PMT."""
        self.version = (self.version + 1) % 32
        info = make_random_descriptors(self.chance, False)
        clock = self.clock if self.chance.random() < 0.9 else FIRST_PCR
        self.pmt = struct.pack(">HH", 0xE000 | clock, 0xF000 | len(info)) + info
        for kind, pid, is_announced in self.streams:
            if self.chance.random() < 0.15:
                continue
            kind = kind if self.chance.random() < 0.8 else 6
            more = make_random_descriptors(self.chance, is_announced)
            self.pmt += struct.pack(">BHH", kind, 0xE000 | pid, 0xF000 | len(more)) + more


def make_random_units(chance: Random) -> list[Unit]:
    """Return the TS packets of random programmes."""
    mux = Multiplex(chance)
    count, length = chance.choice([
        (1, 1_000_000), (1, 200_000), (1, 90_000), (1, 90_000), (1, 30_000), (1, 30_000),
        (2, 200_000), (2, 50_000), (3, 60_000),
        chance.choice([(50, 9000), (80, 9000), (140, 4500)])])
    programmes = [Programme(chance, mux, number, length, count > 3)
                  for number in range(1, count + 1)]

    def send_tables() -> None:
        if chance.random() < 0.2:
            chance.choice(programmes).change_pmt()
        mux.send_sections(0, 0, 1, 0, b"".join(
            struct.pack(">HH", programme.number, 0xE000 | programme.pmt_pid)
            for programme in programmes))
        for programme in programmes:
            programme.send_pmt()

    first, step = chance.choice([0, 0, 1, 9000]), chance.choice([9000, 45_000])
    events: list[Event] = [(time, send_tables) for time in range(first, length, step)]
    events += [event for programme in programmes for event in programme.events]
    for _, event in sorted(events, key=lambda event: event[0]):
        event()
    for at in reversed(mux.losses):
        del mux.units[max(0, at):at + chance.choice([0, 1, 2, 3])]
    return mux.units


def read_unit_pid(unit: Unit) -> int:
    return int.from_bytes(unit.packet[1:3], "big") & 0x1FFF


def announce_jump(chance: Random, units: list[Unit]) -> None:
    """Announce a jump of a PID's continuity counter in one or two TS packets next to the jump."""
    at, more = choose_packet(chance, units), chance.choice([0, 1, 5])
    pid = read_unit_pid(units[at])
    announcing = bytearray(make_packet_without_payload(chance, pid, True))
    if units[at].packet[3] & 0x20 and units[at].packet[4] and chance.random() < 0.5:
        announcing = bytearray(units[at].packet)  # add the announcement to the TS packet
        announcing[5] |= 0x80
    if chance.random() < 0.3:
        place, bit = chance.choice([(1, 0x80), (3, 0x40), (3, 0x10), (5, 0x80)])
        announcing[place] ^= bit
    unit, announcement = units[at], Unit(bytes(announcing), 0)
    units[at:at + 1] = chance.choice([
        [announcement], [announcement, unit], [announcement] * 2, [unit, announcement, unit]])
    for place in range(at + 1, len(units)):
        data = units[place].packet
        if is_packet(units[place]) and read_unit_pid(units[place]) == pid:
            data = data[:3] + bytes([data[3] & 0xF0 | (data[3] + more) % 16]) + data[4:]
            units[place] = Unit(data, 0)


class Recording(NamedTuple):
    """A recording, and the options of `survey` for it."""

    data: bytes
    pages: list[Page]
    pid: int | None = None
    size: int | None = None

    @property
    def words(self) -> list[str]:
        given = [*(("--page", page_name(*page)) for page in self.pages), ("--pid", self.pid),
                 ("--packet-size", self.size)]
        return [str(word) for option in given if option[1] is not None for word in option]


def make_random_pes_file(chance: Random) -> bytes:
    """Return a random file of PES packets and gap markers."""
    data, pts = b"", chance.choice([0, CLOCK - 20_000])
    same = make_random_teletext(chance, True)
    for _ in range(chance.choice([0, 1, 5, 40])):
        pts += chance.choice([3600, 3600, 3600, 1800, 0, -900])
        same = make_random_teletext(chance, True) if chance.random() < 0.3 else same
        data += make_teletext_pes(chance, pts, same if chance.random() < 0.8 else [])
    data += make_random_bytes(chance, chance.choice([0, 0, 0, 5, 20]))
    return START + (data[4:] or b"\0\xb2") if chance.random() < 0.9 else \
        data[:chance.randrange(len(data) + 1)]


def make_random_recording(seed: int) -> Recording:
    chance = Random(f"survey {seed}")
    pages = [chance.choice(PAGES[2:5]) if chance.random() < 0.2 else PAGES[0]]
    if chance.random() < 0.3:
        more = [page for page in [*PAGES[2:5], *((3, number) for number in range(5))]
                if page not in pages]
        pages += chance.sample(more, chance.choice([1, 1, 2, MAX_SURVEYED_PAGES - 1]))
    if chance.random() < 0.15:
        return Recording(make_random_pes_file(chance), pages)
    units, size = make_random_units(chance), chance.choice(SIZES)
    pid = read_unit_pid(chance.choice(units)) if units and chance.random() < 0.1 else None
    for _ in range(chance.choice([0, 1, 3, 10, 20, 40, 60])):
        if any(map(is_packet, units)):
            if chance.random() < 0.75:
                change_units(chance, units, size)
            else:
                announce_jump(chance, units)
    for _ in range(4 if chance.random() < 0.08 else 0):  # insert null packets
        many = (NULL + bytes(size - PACKET)) * 1700
        units.insert(chance.randrange(len(units) + 1), Unit(many + NULL))
    if chance.random() < 0.05:  # add the maximum number of stored breaks, or one more
        units += [Unit(bytes([SYNC, 0x1F, 0xF0, 0x10 + 8 * (at % 2)]).ljust(PACKET, b"\xff"))
                  for at in range(chance.choice([256, 257]))]
    data = join_units(chance, units, size)
    if chance.random() < 0.05:  # begin with packets of another size
        data = join_units(chance, units[:4], chance.choice(SIZES)) + data
    data = data[chance.randrange(1000) if chance.random() < 0.2 else 0:]
    data = data[:len(data) - (chance.randrange(1000) if chance.random() < 0.2 else 0)]
    if chance.random() < 0.01:
        data = data[:chance.randrange(1000)]
    return Recording(data, pages, pid if pid != NO_PCR else None,
                     chance.choice([size, size, *SIZES]) if chance.random() < 0.1 else None)
