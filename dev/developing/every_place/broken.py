"""Add faults to random transmissions: change, remove and move bytes, Teletext and PES packets."""
from __future__ import annotations

import io
from random import Random

from developing.pes import (
    DATA, REVERSED_BITS, STUFFING_UNIT, UNIT, add_odd_parity, decode_pts, encode_pts,
    make_packet as teletext_packet, make_pes_packet, read_pes_packets, reverse_bits)
from subtitles.common.times import CLOCK, FRAMES_OF_A_DAY, TICKS
from subtitles.formats.teletext import CODE_WORDS

PACKET_OFFSET = 4  # offset of the Teletext packet in a data unit
MAX_PACKETS = 16  # maximum number of Teletext packets in a generated PES packet
LETTERS = b"ABCDEFGHIJKLMNOPQRSTUVWXYZabcdefghijklmnopqrstuvwxyz 0123456789.,?!'"


def find_units(packet: bytes | bytearray) -> list[int]:
    """Return the offsets of the Teletext data units in a PES packet."""
    return [at for at in range(DATA, len(packet), UNIT) if packet[at] in (2, 3)]


def read_teletext(packet: bytes | bytearray) -> list[bytes]:
    """Return the Teletext packets in a PES packet."""
    return [reverse_bits(bytes(packet[at + PACKET_OFFSET:at + UNIT])) for at in find_units(packet)]


def make_random_header(rng: Random) -> bytes:
    """Return a header with random control bits. Its page is often 888, the checked page."""
    units, tens_of_page = rng.choice([8, 8, 15]), rng.choice([8, 8, 15])
    numbers = [units, tens_of_page, 0, rng.choice([8, 8, 0]), 0, rng.choice([8, 8, 12]),
               rng.choice([1, 1, 9]), rng.choice([0, 0, 8, 1])]
    return teletext_packet(rng.choice([0, 0, 1]), 0, numbers, b" " * 32)


def make_random_packet(rng: Random) -> bytes:
    """Return a random header, row or enhancement packet."""
    if rng.random() < 0.4:
        return make_random_header(rng)
    number = rng.choice([1, 22, 23, 24, 25, 26, 27, 28, 29, 30])
    return teletext_packet(rng.choice([0, 0, 0, 2]), number, [], rng.choices(LETTERS, k=40))


# Kinds of changes to a PES packet. Frequent kinds occur several times.
CHANGE_KINDS = ["bit", "bit", "code", "code", "code", "drop", "add", "add", "enhancement", "swap",
                "frame", "byte", "field"]


def change_pes_packet(way: str, rng: Random, packet: bytearray) -> None:
    """Change a PES packet with Teletext. `way` is one of CHANGE_KINDS."""
    units, teletext = find_units(packet), read_teletext(packet)
    if way == "bit":
        at = rng.choice(units)
        place = rng.choice([rng.randrange(2), rng.randrange(10), rng.randrange(42)])
        packet[at + PACKET_OFFSET + place] ^= 1 << rng.randrange(8)
    elif way == "code":  # change a byte of a header, or a character of a row
        at = rng.choice(units) + PACKET_OFFSET
        place = rng.choice([rng.randrange(2, 10), rng.randrange(10, 42)])
        code = rng.choice([CODE_WORDS[rng.randrange(16)],
                           add_odd_parity(rng.randrange(128))])
        packet[at + place] = REVERSED_BITS[code]
    elif way == "drop":
        at = rng.choice(units)
        packet[at:at + UNIT] = STUFFING_UNIT
    elif way == "add" and len(teletext) < MAX_PACKETS:
        add_packet(rng, teletext)
        packet[:] = make_pes_packet(decode_pts(packet), teletext)
    elif way == "enhancement" and len(teletext) < MAX_PACKETS:  # insert a packet X/25 to X/28
        teletext[1:1] = [teletext_packet(0, rng.randrange(25, 29), [], b" " * 40)]
        packet[:] = make_pes_packet(decode_pts(packet), teletext)
    elif way == "swap":  # swap two packets, for example a row and its header
        item, other = (rng.choice(units) + PACKET_OFFSET for _ in range(2))
        end = UNIT - PACKET_OFFSET
        packet[item:item + end], packet[other:other + end] = \
            packet[other:other + end], packet[item:item + end]
    elif way == "frame":
        frames = rng.choice([-1, 1, 2, rng.randrange(-60, 60)])
        shift_pts(packet, rng.choice([TICKS * frames] * 6 + [frames]))
    elif way == "byte":
        packet[rng.randrange(len(packet))] = rng.randrange(256)
    elif way == "field":
        change_field(rng, packet)


def change_field(rng: Random, packet: bytearray) -> None:
    """Flip a bit in a field of the PES header or of a data unit."""
    unit = rng.choice(find_units(packet))
    at = rng.choice([6, 7, 8, 9, DATA - 1, unit, unit + 1, unit + 2, unit + 3])
    # Change a high bit of the PTS only occasionally: the checker then checks each of the skipped
    # frames.
    bits = [0, 4, 5, 6, 7] if at == 9 and rng.random() < 0.9 else range(8)
    packet[at] ^= 1 << rng.choice(bits)


def add_packet(rng: Random, teletext: list[bytes]) -> None:
    """Insert a Teletext packet: a new packet, a copy, or a changed copy."""
    result, way = make_random_packet(rng), rng.random()
    if way < 0.6:
        result = rng.choice(teletext)
        if way < 0.3:
            at = rng.randrange(10, 42)
            result = result[:at] + bytes([add_odd_parity(rng.choice(LETTERS))]) + result[at + 1:]
    teletext.insert(rng.randrange(len(teletext) + 1), result)


def shift_pts(packet: bytearray, ticks: int) -> None:
    packet[9:14] = encode_pts((decode_pts(packet) + ticks) % CLOCK)


def change_order(rng: Random, packets: list[bytearray]) -> None:
    """Repeat, remove or reorder PES packets."""
    at, way = rng.randrange(len(packets)), rng.randrange(5)
    if way == 0 and len(packets) > 1:
        del packets[at]
    elif way == 1:
        packets.insert(at, bytearray(packets[at]))
    elif way == 2:
        other = rng.randrange(len(packets))
        packets[at], packets[other] = packets[other], packets[at]
    elif way == 3:
        packets += [bytearray(packet) for packet in packets[at:]]
    else:
        del packets[at:at + rng.randrange(3)]


def change_packets(rng: Random, packets: list[bytearray]) -> None:
    """Change one or several consecutive PES packets in the same way."""
    ways = [(rng.choice(CHANGE_KINDS), rng.random()) for _ in range(rng.choice([1, 1, 1, 2, 3]))]
    first = rng.randrange(len(packets))
    count = rng.choice([1, 1, 1, 2, 3, len(packets)])
    for packet in packets[first:first + count]:
        for way, seed in ways:
            if find_units(packet):
                change_pes_packet(way, Random(seed), packet)


# Bits that make a PES packet unreadable: offset in the packet or in a data unit, and bit mask.
HEAD_BITS = [(6, 0xC0), (7, 0x40), (7, 0x80), (8, 1), (9, 0x10), (11, 1), (13, 1), (DATA - 1, 0x30)]
UNIT_BITS = [(1, 1), (1, 0x80), (3, 1), (2, 0x1E), (2, 0x20)]


def damage_packet(rng: Random, packet: bytearray) -> None:
    """Make a PES packet unreadable, or move its PTS to another frame, or both."""
    for _ in range(rng.choice([1, 1, 1, 1, 2])):
        way = rng.random()
        if way < 0.25:
            shift_pts(packet, rng.choice([1, 90, TICKS // 2] * 6 + [TICKS * FRAMES_OF_A_DAY]))
        elif way < 0.65:
            at, bits = rng.choice(HEAD_BITS)
            packet[at] ^= bits
        else:
            at, bits = rng.choice(UNIT_BITS)
            packet[rng.choice(range(DATA, len(packet), UNIT)) + at] ^= bits


def damage_packets(rng: Random, packets: list[bytearray]) -> None:
    """Damage several consecutive PES packets, either in the same way or in different ways.

    Some packets may stay intact, and an earlier packet may be repeated next to them.
    """
    first = rng.randrange(len(packets))
    count = rng.choice([1, 1, 2, 3, 4, 8, len(packets)])
    seed = rng.random() if rng.random() < 0.6 else None
    if rng.random() < 0.15:
        packets.insert(min(first + rng.randrange(count + 1), len(packets)),
                       bytearray(packets[max(0, first - rng.randrange(1, 4))]))
    for packet in packets[first:first + count]:
        if rng.random() < 0.85:
            damage_packet(Random(rng.random() if seed is None else seed), packet)


def damage_packet_header(rng: Random, packets: list[bytearray]) -> None:
    """Change the start code or the length of a PES packet."""
    packet = rng.choice(packets)
    if rng.random() < 0.3:
        packet[rng.randrange(4)] ^= 1 << rng.randrange(8)
    elif rng.random() < 0.4:
        packet[rng.choice([4, 5])] ^= 1 << rng.randrange(8)
    else:
        packet[4:6] = (rng.choice([*range(11)]) * 184 - 6 & 0xFFFF).to_bytes(2, "big")


def break_transmission(rng: Random, data: bytes) -> bytes:
    """Change some packets of a transmission, or their order, or the length of the transmission."""
    packets = list(map(bytearray, read_pes_packets(io.BytesIO(data))))
    for _ in range(rng.choice([0, 1, 1, 2, 3, 6, 12])):
        if packets:
            (change_order if rng.random() < 0.12 else change_packets)(rng, packets)
    for _ in range(rng.choice([1, 1, 2, 3]) if rng.random() < 0.5 else 0):
        if packets:
            damage_packets(rng, packets)
    if packets and rng.random() < 0.06:
        damage_packet_header(rng, packets)
    data = b"".join(packets)
    way = rng.random()
    if way < 0.05:
        data = data[:rng.randrange(len(data) + 1)]
    elif way < 0.08:
        data += bytes(rng.choices(b"\0\1\xbd\xff", k=rng.choice([1, 5, 6, 200])))
    return data
