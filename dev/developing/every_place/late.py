"""Make random transmissions that resemble the output of a subtitle inserter and a multiplexer.

A page may be sent in several PES packets, in two fields or in consecutive frames. It may be late,
have an inexact PTS, or be repeated before it is complete. It is usually complete within the allowed
frames, occasionally later. Some PES packets are unreadable.
"""
from __future__ import annotations

import io
from random import Random
from typing import NamedTuple

from developing.pes import add_odd_parity, make_pes_packet, read_pes_packets, encode_pts, decode_pts
from subtitles.common.times import CLOCK, FRAMES_OF_A_DAY, TICKS
from .broken import LETTERS, MAX_PACKETS, damage_packet, make_random_packet, read_teletext


class Part(NamedTuple):
    """A PES packet: its time in ticks after the first PES packet, and its Teletext packets."""

    time: int
    packets: list[bytes]


FIELD = TICKS // 2
# Range of a PTS relative to the start of its frame, in ticks.
MIN_PTS_OFFSET, MAX_PTS_OFFSET = -(TICKS // 4), TICKS - TICKS // 4 - 1


def find_frame_start(time: int) -> int:
    """Return the start time of the frame that contains a time."""
    return (time - MIN_PTS_OFFSET) // TICKS * TICKS


def spread_page(rng: Random, part: Part, most: int) -> list[Part]:
    """Split a page into one to four PES packets. None is more than `most` frames late."""
    count = len(part.packets)
    ways = [rng.randrange(count + 1) for _ in range(rng.choice([0, 0, 1, 1, 2, 3]))]
    cuts = [0, *sorted(ways), count]
    fields = sorted(rng.randrange(2 * most + 2) for _ in cuts[1:])
    if rng.random() < 0.5:
        fields[0] = 0
    return [Part(part.time + field * FIELD, part.packets[begin:end])
            for field, begin, end in zip(fields, cuts, cuts[1:])]


def send_pages(rng: Random, parts: list[Part], most: int) -> list[Part]:
    """Split each page into parts that are sent at different times.

    Parts of a late page are sent before the next page, or between its parts.
    """
    seed = rng.random() if rng.random() < 0.5 else None
    result: list[Part] = []
    for part in parts:
        result += spread_page(Random(rng.random() if seed is None else seed), part, most)
    if rng.random() < 0.5:
        return sorted(result, key=lambda item: item.time)
    for at in range(1, len(result)):
        result[at] = result[at]._replace(time=max(result[at].time, result[at - 1].time))
    return result


def move_parts(rng: Random, parts: list[Part]) -> None:
    """Move each PTS within its frame, or occasionally to another frame."""
    first, last = rng.choice([(MIN_PTS_OFFSET, MAX_PTS_OFFSET)] * 6
                             + [(MIN_PTS_OFFSET - 1, MAX_PTS_OFFSET + 1), (-2000, 0)])
    for at, part in enumerate(parts):
        ticks = rng.choice([first, last, rng.randrange(first, last + 1)])
        parts[at] = part._replace(time=find_frame_start(part.time) + ticks)


# Kinds of faults and additions. Frequent kinds occur several times.
LATE_PAGE_CHANGES = ["leave out", "leave out", "empty the last", "empty the last", "open",
                     "hold back", "hold back", "send again", "send again", "erase", "erase",
                     "misspell", "misspell"]


def change_late_page(rng: Random, parts: list[Part]) -> None:
    """Add a fault or another PES packet. The parts stay in ascending order of time."""
    way, count = rng.choice(LATE_PAGE_CHANGES), len(parts)
    if way == "leave out":  # remove a PES packet, often the first
        del parts[rng.choice([0, rng.randrange(max(1, count - 1))])]
    elif way == "empty the last":  # remove packets from the last page
        for at in range(max(0, count - rng.choice([1, 1, 1, 2])), count):
            packets = parts[at].packets
            packets = packets[len(packets) - rng.choice([0, 0, 1]):]
            parts[at] = parts[at]._replace(packets=packets)
    elif way == "open":  # a page without its closing header
        at = rng.choice([-1, rng.randrange(count)])
        parts[at] = parts[at]._replace(packets=parts[at].packets[:-1])
    elif way == "hold back":  # shift by a few frames, occasionally with all later parts
        at, by = rng.randrange(count), TICKS * rng.choice([1, 1, 2, 3, 4, 5, 6, -1, -2])
        end = count if rng.random() < 0.2 else at + 1
        parts[at:end] = [part._replace(time=part.time + by) for part in parts[at:end]]
    elif way == "send again":  # repeat this PES packet or an earlier PES packet
        at = rng.randrange(count)
        old = parts[max(0, at - rng.choice([0, 0, 1, 1, 2, 3]))]
        again = parts[at].time + FIELD * rng.choice([0, 1, 1, 2, 2, 3, 4, 6])
        parts.append(Part(again, list(old.packets)))
    elif way == "erase":  # send a header alone, no Teletext, or a random packet
        at = rng.randrange(count)
        header, none = parts[at].packets[:1], parts[at].packets[:0]
        packets = rng.choice([header, header, none, [make_random_packet(rng)]])
        parts.insert(at + 1, Part(parts[at].time + FIELD * rng.choice([1, 1, 2, 3, 4]), packets))
    else:
        misspell_row(rng, parts)
    if way not in ("leave out", "empty the last", "open"):
        parts.sort(key=lambda item: item.time)


def misspell_row(rng: Random, parts: list[Part]) -> None:
    """Change a character in a row, or its parity. Often also send the original PES packet."""
    at = rng.randrange(len(parts))
    rows = [place for place, item in enumerate(parts[at].packets) if item[1] not in (0x15, 0xEA)]
    if not rows:
        return
    place, packets = rng.choice(rows), list(parts[at].packets)
    item = bytearray(packets[place])
    if rng.random() < 0.4:
        item[rng.randrange(2, 42)] ^= 0x80
    else:
        item[rng.randrange(10, 42)] = add_odd_parity(rng.choice(LETTERS))
    packets[place] = bytes(item)
    time = parts[at].time
    other = parts[at]._replace(packets=packets)
    way = rng.random()
    if way < 0.3:
        parts[at] = other
    elif way < 0.6:
        parts[at:at + 1] = [other, parts[at]._replace(time=time + FIELD * rng.choice([0, 1, 2]))]
    else:
        parts.insert(at + 1, other._replace(time=time + FIELD * rng.choice([1, 1, 2, 3])))


def split_parts(data: bytes) -> list[Part]:
    packets = list(read_pes_packets(io.BytesIO(data)))
    return [Part((decode_pts(packet) - decode_pts(packets[0])) % CLOCK, read_teletext(packet))
            for packet in packets]


def join_parts(parts: list[Part], first: int) -> list[bytearray]:
    """Return the PES packets of all parts. `first` is the PTS at time 0."""
    return [bytearray(make_pes_packet((first + part.time) % CLOCK, part.packets[:MAX_PACKETS]))
            for part in parts]


def insert_unreadable_packets(rng: Random, packets: list[bytearray], origin: int) -> None:
    """Insert PES packets that are unreadable or have no frame, or replace others with them."""
    for _ in range(rng.choice([1, 1, 2])):
        at = rng.randrange(len(packets))
        count = rng.choice([1, 1, 1, 2, 3])
        item = bytearray(packets[at])
        if rng.random() < 0.2:
            ticks = rng.choice([MIN_PTS_OFFSET - 1, -TICKS,
                                TICKS * FRAMES_OF_A_DAY + MIN_PTS_OFFSET])
            item[9:14] = encode_pts((origin + ticks) % CLOCK)
        else:
            damage_packet(rng, item)
        packets[at:at + (rng.random() < 0.3)] = [bytearray(item) for _ in range(count)]


def delay_transmission(rng: Random, data: bytes, within: int, origin: int) -> bytes:
    """Return the transmission with pages a few frames late, sometimes with faults."""
    parts = split_parts(data)
    if not parts:
        return data
    first = decode_pts(data)
    parts = send_pages(rng, parts, max(0, within + rng.choice([0, 0, 0, 0, -1, 1])))
    for _ in range(rng.choice([0, 0, 0, 0, 1, 1, 2, 3])):
        if parts:
            change_late_page(rng, parts)
    if rng.random() < 0.5:
        move_parts(rng, parts)
    packets = join_parts(parts, first)
    if packets and rng.random() < 0.15:
        insert_unreadable_packets(rng, packets, origin)
    return b"".join(packets)
