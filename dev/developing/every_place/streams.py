"""Make random transport streams: the output of a multiplexer, with losses and other faults.

`multiplex` sends PES packets as a multiplexer does. `drop_random_units` removes and corrupts units
as in a recording that lost packets. `make_random_stream` also repeats, moves and changes units,
inserts bytes, and cuts both ends.
"""
from __future__ import annotations

from random import Random
from typing import NamedTuple

from .recordings import PACKET, SYNC, TIME_STAMP, MAX_UNSEEN_PACKETS

MAX_PAYLOAD = 184  # maximum payload of a packet in bytes
# Bits of a packet in bytes 5, 1 and 1, respectively.
DISCONTINUITY_BIT, PAYLOAD_START, WRONG = 0x80, 0x40, 0x80
NULL_PID = 0x1FFF


class Unit(NamedTuple):
    """A TS packet in a random stream.

    A packet of the PID has the number of its PES packet and, if it has a payload, its own number.
    """

    packet: bytes
    pes: int | None = None
    number: int | None = None

    @property
    def is_wrong(self) -> bool:
        """Return whether this packet was corrupted."""
        return bool(self.packet[1] & WRONG or self.packet[3] & 0xC0)


def make_random_bytes(rng: Random, count: int) -> bytes:
    """Return random bytes, often with values that have a meaning in a TS or PES packet."""
    if rng.random() < 0.5:
        return bytes([rng.choice([0, 0xFF, SYNC])]) * count
    return bytes(rng.choices([0, 1, 0x47, 0xBD, 0xFF, *range(256)], k=count))


def make_adaptation_field(rng: Random, length: int, has_discontinuity: bool) -> bytes:
    """Return an adaptation field of this length. To announce a jump, it needs at least one byte."""
    if length == 0:
        return b"\0"
    flags = rng.choice([0, 0, 0x40, 0x10]) | DISCONTINUITY_BIT * has_discontinuity
    return bytes([length, flags]) + make_random_bytes(rng, length - 1)


def make_packet(rng: Random, pid: int, counter: int, payload: bytes, begins: bool = False,
                has_discontinuity: bool = False) -> bytes:
    """Return a packet with a payload. A short payload follows an adaptation field."""
    field = b""
    if len(payload) < MAX_PAYLOAD:
        field = make_adaptation_field(rng, MAX_PAYLOAD - 1 - len(payload), has_discontinuity)
    priority = rng.choice([0, 0, 0x20])
    head = [SYNC, PAYLOAD_START * begins | priority | pid >> 8, pid & 255,
            counter | (0x30 if field else 0x10)]
    return bytes(head) + field + payload


def make_packet_without_payload(rng: Random, pid: int, has_discontinuity: bool) -> bytes:
    """Return a packet with an adaptation field, no payload and a random continuity counter."""
    head = bytes([SYNC, pid >> 8, pid & 255, rng.randrange(16) | 0x20])
    return head + make_adaptation_field(rng, MAX_PAYLOAD - 1, has_discontinuity)


def make_packet_of_other_pid(rng: Random, pid: int) -> bytes:
    other = rng.choice([NULL_PID, pid ^ 1, pid ^ 0x1000, rng.randrange(0x2000)])
    if other == pid:
        other ^= 1
    head = bytes([SYNC, rng.choice([0, PAYLOAD_START, WRONG]) | other >> 8, other & 255,
                  rng.randrange(256)])
    return head + rng.choice([b"\xb7\x80", b"\1\x80", b"\0\0"]) + make_random_bytes(rng, 182)


class Multiplexer:
    """A multiplexer of a PID's PES packets, which announces random jumps if `has_jumps` is true."""

    def __init__(self, rng: Random, pid: int, has_jumps: bool) -> None:
        self.rng, self.pid, self.has_jumps = rng, pid, has_jumps
        self.units: list[Unit] = []
        self.counter, self.number = rng.randrange(16), 0
        self.repeats = rng.choice([0.0, 0.0, 0.1, 0.5, 1.0])
        self.others = rng.choice([0.0, 0.2, 0.6])
        self.empty = rng.choice([0.0, 0.1, 0.3])

    def send_other_packets(self, pes: int | None) -> None:
        """Send packets of other PIDs, and packets without a payload on this PID."""
        while self.rng.random() < self.others:
            self.units.append(Unit(make_packet_of_other_pid(self.rng, self.pid)))
        while self.rng.random() < self.empty:
            self.units.append(Unit(make_packet_without_payload(self.rng, self.pid, False), pes))

    def announce_jump(self, pes: int) -> bool:
        """Occasionally announce a counter jump. Return whether the next packet must announce it."""
        if not self.has_jumps or self.rng.random() < 0.6:
            return False
        self.counter = self.rng.choice([self.counter, self.rng.randrange(16)])
        if self.rng.random() < 0.5:
            return True
        self.units.append(Unit(make_packet_without_payload(self.rng, self.pid, True), pes))
        self.send_other_packets(pes)
        return False

    def send(self, pes: int, data: bytes) -> None:
        rng = self.rng
        self.send_other_packets(None)
        has_discontinuity = self.announce_jump(pes)
        sizes = rng.choice([[MAX_PAYLOAD], [MAX_PAYLOAD, 183, 182, 1, 92, 100], [*range(1, 185)]])
        place = 0
        while place < len(data):
            size = min(rng.choice(sizes), len(data) - place)
            if has_discontinuity and place == 0:
                size = min(size, 182)
            payload = data[place:place + size]
            times = 2 if rng.random() < self.repeats else 1
            for round_number in range(times):
                result = make_packet(rng, self.pid, self.counter, payload, place == 0,
                                     has_discontinuity and place == 0
                                     and (round_number == 0 or rng.random() < 0.7))
                if round_number:  # bytes 1 to 3 equal those of the original packet
                    result = self.get_last_packet(pes)[:4] + result[4:]
                self.units.append(Unit(result, pes, self.number))
                self.send_other_packets(pes)
            self.counter = (self.counter + 1) % 16
            self.number += 1
            place += size

    def get_last_packet(self, pes: int) -> bytes:
        """Return the last packet with a payload."""
        return next(unit.packet for unit in reversed(self.units)
                    if unit.pes == pes and unit.number is not None)


def multiplex(rng: Random, packets: list[bytes], pid: int, has_jumps: bool) -> list[Unit]:
    """Return PES packets as TS packets, in the order in which a multiplexer sends them."""
    sender = Multiplexer(rng, pid, has_jumps)
    for number, data in enumerate(packets):
        sender.send(number, data)
    sender.send_other_packets(None)
    return sender.units


def join_units(rng: Random, units: list[Unit], size: int) -> bytes:
    """Join units. For `size` 192, add a time stamp before each; for 204, 16 bytes after each."""
    before, behind = (TIME_STAMP, 0) if size == 192 else (0, size - PACKET)
    data = b"".join(make_random_bytes(rng, before) + unit.packet + make_random_bytes(rng, behind)
                    for unit in units)
    return data[:-behind] if behind and data and rng.random() < 0.3 else data


def corrupt_unit(rng: Random, unit: Unit) -> Unit:
    """Return the unit with transport_error_indicator or scrambling bits set."""
    changed = bytearray(unit.packet)
    at, bits = rng.choice([(1, WRONG), (3, 0x40), (3, 0x80), (3, 0xC0)])
    changed[at] |= bits
    return unit._replace(packet=bytes(changed))


def drop_random_units(rng: Random, units: list[Unit]) -> list[Unit]:
    """Remove and corrupt units of the PID, but fewer than 15 consecutive units with a payload."""
    lost = rng.choice([0.02, 0.1, 0.4, 0.8])
    wrong = rng.choice([0.0, 0.0, 0.05, 0.3])
    result: list[Unit] = []
    kept: set[int] = set()  # numbers of packets with an intact copy
    bursts = 0
    for unit in units:
        bursts = rng.randrange(1, 30) if rng.random() < lost / 10 else max(0, bursts - 1)
        is_lost = bursts > 0 or rng.random() < lost / 4
        is_wrong = unit.pes is not None and rng.random() < wrong / 4
        if unit.number is not None and (is_lost or is_wrong) \
                and gone(unit.number, kept):
            is_lost = is_wrong = False
        if is_lost:
            continue
        unit = corrupt_unit(rng, unit) if is_wrong else unit
        if unit.number is not None and not is_wrong:
            kept.add(unit.number)
        result.append(unit)
    return result


def gone(number: int, kept: set[int]) -> bool:
    """Return whether this packet and the 14 packets before it would be missing if it were lost."""
    return number >= MAX_UNSEEN_PACKETS - 1 and kept.isdisjoint(range(number - MAX_UNSEEN_PACKETS +
                                                                      1, number + 1))


# Kinds of changes to units. Frequent kinds occur several times.
CHANGES = ["leave out", "leave out", "leave out", "again", "again", "wrong", "wrong", "head",
           "head", "head", "length", "jump", "jump", "counters", "payload", "bytes", "bytes"]


def is_packet(unit: Unit) -> bool:
    """Return whether a unit is a packet and not bytes between packets."""
    return len(unit.packet) == PACKET


def choose_packet(rng: Random, units: list[Unit]) -> int:
    """Return the index of a random packet, usually of the PID with PES packets."""
    places = [at for at, unit in enumerate(units) if unit.pes is not None]
    if places and rng.random() < 0.9:
        return rng.choice(places)
    return rng.choice([at for at, unit in enumerate(units) if is_packet(unit)])


def change_units(rng: Random, units: list[Unit], size: int) -> None:
    way = rng.choice(CHANGES)
    if way == "bytes":  # insert a few bytes, or enough to hide packets
        unseen = MAX_UNSEEN_PACKETS * size
        count = rng.choice([1, 5, 187, 188, size, *[unseen - 1, unseen] * 3, 15 * 188, 3000])
        units.insert(choose_packet(rng, units), Unit(make_random_bytes(rng, count)))
        return
    at = choose_packet(rng, units)
    changed = bytearray(units[at].packet)
    if way == "leave out":
        del units[at:at + rng.choice([1, 1, 2, 3, 14, 15, 16])]
        return
    if way == "again":  # repeat the unit once or twice, immediately or a few units later
        for _ in range(rng.choice([1, 1, 2])):
            units.insert(min(at + rng.choice([1, 1, 1, 2, 3]), len(units)), units[at])
        return
    if way == "wrong":
        changed = bytearray(corrupt_unit(rng, units[at]).packet)
    elif way == "head":  # flip a bit in the header or in the bytes after it
        changed[rng.choice([0, 1, 1, 2, 3, 3, 3, 3, 4, 5, 5, 6, 7, 8, 9])] ^= \
            1 << rng.randrange(8)
    elif way == "length":  # change the adaptation field length, sometimes to an invalid value
        changed[3] |= 0x20
        changed[4] = rng.choice([0, 1, 7, 181, 182, 183, 184, 255])
        changed[5] = rng.choice([0, 0, DISCONTINUITY_BIT, 0xFF])
    elif way == "payload":  # change, remove or add bytes at the end of a packet
        count = rng.choice([1, 16, 100])
        changed[-count:] = make_random_bytes(rng, count)
    units[at] = units[at]._replace(packet=bytes(changed))
    if way == "counters":
        move_counters(rng, units, at)
    elif way == "jump":
        insert_jump(rng, units, at)


def insert_jump(rng: Random, units: list[Unit], at: int) -> None:
    """Insert a packet without a payload that announces a counter jump."""
    item = bytearray(make_packet_without_payload(rng, 0, True))
    item[1] |= units[at].packet[1] & 0x1F
    item[2] = units[at].packet[2]
    if rng.random() < 0.2:
        item[4] = 0
    units.insert(at, Unit(bytes(item), units[at].pes))


def move_counters(rng: Random, units: list[Unit], at: int) -> None:
    """Shift all counters from a unit on. Sometimes announce the jump."""
    more = rng.randrange(1, 16)
    for place in filter(lambda place: is_packet(units[place]), range(at, len(units))):
        changed = bytearray(units[place].packet)
        changed[3] = changed[3] & 0xF0 | (changed[3] + more) % 16
        units[place] = units[place]._replace(packet=bytes(changed))
    if rng.random() < 0.6:
        insert_jump(rng, units, choose_packet(rng, units))


def make_random_stream(rng: Random, packets: list[bytes], pid: int, size: int) -> bytes:
    """Return a multiplexed stream with losses and random changes."""
    units = multiplex(rng, packets, pid, rng.random() < 0.5)
    if rng.random() < 0.3:
        units = drop_random_units(rng, units)
    for _ in range(rng.choice([0, 0, 1, 1, 2, 4])):
        if any(map(is_packet, units)):
            change_units(rng, units, size)
    data = join_units(rng, units, size)
    way = rng.random()
    if way < 0.1:
        data = data[rng.randrange(len(data) + 1):]
    elif way < 0.2:
        data = data[:rng.randrange(len(data) + 1)]
    elif way < 0.25:
        data = make_random_bytes(rng, rng.choice([1, 4, 188, 400])) + data
    return data
