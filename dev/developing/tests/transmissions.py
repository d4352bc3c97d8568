"""Write subtitle files and their transmissions, with and without faults, to files and pipes."""
from __future__ import annotations

import contextlib
import io
import os
import random
import threading
import time
from typing import Callable, Iterable, Sequence

from developing.pes import (
    decode_pts, encode_pts, get_data_field, get_teletext_packets, make_packet, make_pes_packet,
    read_pes_packets)
from developing.stl import make_gsi_block, make_subtitle_blocks
from subtitles.common.times import CLOCK, TICKS
from subtitles.formats.stl import NEW_LINE
from .bench import Case

SentPes = list[tuple[int, list[bytes]]]  # unwrapped PTS, and the packets with this PTS
Change = Callable[[SentPes], SentPes]
ShownSubtitle = tuple[int, int, bytes]  # start frame, end frame and text of a subtitle on screen
PAGE = (0, 0x88)
HEADER = make_packet(0, 0, [8, 8, 0, 8, 0, 8, 1, 0], b" " * 32)  # page 888's header with erase_page
CLOSING = make_packet(0, 0, [15, 15, 15, 7, 15, 3, 0, 0], b" " * 32)


def make_numbered_row(number: int, text: bytes) -> bytes:
    return make_packet(0, number, (), b"\x0b\x0b" + text.ljust(38))


def write_subtitle_file(case: Case, subtitles: Iterable[ShownSubtitle], name: str = "one.stl",
                        first: int = 1, row: int = 22, justify: int = 2,
                        language: bytes = b"09") -> str:
    """Write a subtitle file whose subtitle numbers count up from `first`. Return its path."""
    blocks = [make_subtitle_blocks(number, begin, end, row, justify, text)
              for number, (begin, end, text) in enumerate(subtitles, first)]
    return case.write(name, make_gsi_block(b"Judged", len(blocks), len(blocks), language=language)
                      + b"".join(blocks))


def write_programme(case: Case, times: Sequence[tuple[int, int]], lines: int = 1,
                    text: bytes = b"Number %d", first: int = 1, name: str = "one.stl") -> str:
    return write_subtitle_file(case, ((begin, end, NEW_LINE.join(
        [text % number if b"%" in text else text] * lines))
        for number, (begin, end) in enumerate(times, first)), name, first)


def make_random_stl(seed: int) -> tuple[bytes, list[int]]:
    """Return a random subtitle file, with adjoining and repeated subtitles, and its cue frames."""
    chance = random.Random(seed)
    result: list[bytes] = []
    edges: list[int] = []
    frame = chance.randrange(1_900_000)
    for number in range(40):
        begin = frame + chance.choice([0, chance.randrange(1, 200)])
        end = begin + chance.randrange(12, 150)
        text = b"Number %d" % chance.randrange(20)
        result.append(make_subtitle_blocks(number, begin, end, chance.randrange(18, 23), 2, text))
        edges += [begin, end]
        frame = end
    return make_gsi_block(b"At random", len(result), len(result),
                          edges[0]) + b"".join(result), edges


def schedule_pages(case: Case, stl: str, *args: str, origin: int = 0, every: int = 25) -> SentPes:
    return [(origin + decode_pts(item), get_teletext_packets(get_data_field(item)))
            for item in schedule_pes(case, stl, "--every", str(every), *args)]


def schedule_pes(case: Case, stl: str, *args: str) -> list[bytes]:
    return packets(case.read(case.schedule(stl, "planned.pes", *args)))


def make_two_parts(case: Case) -> tuple[str, bytes]:
    """Return a subtitle file, and PES packets with a break of three minutes halfway through."""
    due, sent = [(begin, begin + 60) for begin in range(900_000, 902_000, 100)], SentPes()
    for first, origin in ((1, 1000), (11, 1000 + 4500 * TICKS)):
        part = write_programme(case, due[first - 1:first + 9], first=first, name="part.stl")
        sent += schedule_pages(case, part, origin=origin)
    return write_programme(case, due, name="two.stl"), join_pes_packets(sent)


def join_pes_packets(sent: SentPes) -> bytes:
    return b"".join(make_pes_packet(pts % CLOCK, packets) for pts, packets in sent)


def packets(data: bytes) -> list[bytes]:
    return list(read_pes_packets(io.BytesIO(data)))


def replace_pts(data: bytes, new_pts: Callable[[int, int], int]) -> bytes:
    return b"".join(packet[:9] + encode_pts(new_pts(number, decode_pts(packet)) % CLOCK)
                    + packet[14:] for number, packet in enumerate(packets(data)))


EACH, LASTS = 100, 60  # interval between TCIs, and subtitle duration, in frames
ORIGIN = 20_000 * TICKS + 7
PAUSES = 880, 1680  # first frames of the second and third part


def subtitle_times(count: int) -> list[tuple[int, int]]:
    return [(EACH * number, EACH * number + LASTS) for number in range(1, count + 1)]


def make_delay(by: int, first: int = 0, last: int = 1 << 40) -> Change:
    """Return a function that delays the PES packets with PTS in a range by `by` frames."""
    return lambda sent: [(pts + by * TICKS * (first <= pts <= last), packets)
                         for pts, packets in sent]


def delay_subtitle(number: int, by: int) -> Change:
    begin = EACH * number * TICKS
    return make_delay(by, begin, begin + LASTS * TICKS - 1)


def add_pauses(sent: SentPes, *shifts: int) -> SentPes:
    """Delay all PES packets after each pause by the number of frames given for this pause."""
    begun = [sum(pts >= pause * TICKS for pause in PAUSES[:len(shifts)]) for pts, _ in sent]
    return [(ORIGIN + pts + TICKS * (0, *shifts)[at], some) for at, (pts, some) in zip(begun, sent)]


def write_pipe(case: Case, data: bytes, path: str = "") -> str:
    """Make a pipe that a thread writes `data` to. Return its path."""
    path = path or case.path(f"feed{len(os.listdir(case.folder))}")
    os.mkfifo(path)
    threading.Thread(target=feed_pipe, args=(path, data), daemon=True).start()
    return path


def feed_pipe(path: str, data: bytes) -> None:
    """Write bytes to a pipe, slowly enough for `survey`. Ignore a closed pipe."""
    with contextlib.suppress(OSError), open(os.open(path, os.O_WRONLY), "wb", 0) as file:
        for at in range(0, len(data), 1 << 16):
            file.write(data[at:at + (1 << 16)])
            time.sleep(0.002)
