#!/usr/bin/env python3
"""Make the inputs of bench/run and bench/count: inputs.py KIND COUNT STL PES

Writes a subtitle file (EBU Tech 3264) and its transmission with COUNT frames, or for many and fresh
with COUNT subtitles:

day      one subtitle over all frames; each frame has a page transmission of one row
pages    one subtitle of 23 rows of 40 cells over all frames; each frame has a page transmission
many     consecutive subtitles of one row and 20 frames, sent every 25 frames
fresh    such subtitles of one frame: each page transmission differs from the previous one
service  a complete service, as below, whose page `check --every 25` accepts
late     the same with the rows and the closing header of the page one frame after its header, so
         that a receiver has time to erase it: accepted with `--within 1`
cells    day, with another wrong cell in each page transmission
passed   day with unreadable page transmissions: a wrong data_identifier or unit length, in turn
swing    the first page transmission of day, alternately in the first and last frame of the day

Each frame of a service is a PES packet of 920 bytes with 16 Teletext units, on lines 7 to 22 of the
first field: packets of the magazines 1, 2, 3 and 8 in turn, in parallel mode. Each magazine is a
carousel of pages, 100 to 189, 200 to 289, 300 to 389 and 800 to 887: a header with C8, rows 1 to 23
of random letters and spaces, a packet X/27 of random bytes. A packet 8/30 comes every second. Page
888 has two lines of text in the first 75 of each 100 frames, a new text each time. It is sent in
frames 0, 25, 50 and 75 of the 100, from the first unit on: header, rows, closing header, then the
other pages. A page of magazine 8 that is interrupted begins again afterwards. The seed is fixed, so
the same COUNT gives the same files.
"""
from __future__ import annotations

import itertools
import os
import random
import subprocess
import sys
from typing import BinaryIO, Iterator

sys.dont_write_bytecode = True
TOP = os.path.join(os.path.dirname(os.path.realpath(__file__)), "..")
TOOLS = os.path.join(TOP, "tools")
sys.path[:0] = [TOOLS, os.path.join(TOP, "dev")]
from developing.pes import (  # noqa: E402
    DATA, FIRST_LINE, REVERSED_BITS, STUFFING_UNIT, UNIT, reverse_bits, add_odd_parity, make_packet,
    encode_pts)
from developing.stl import (  # noqa: E402
    DOUBLE_HEIGHT, END_BOX, START_BOX, make_box_line, make_gsi_block, make_subtitle_blocks)
from subtitles.common.command_line import ToolParser, parse_number, run  # noqa: E402
from subtitles.common.program import find_built_program  # noqa: E402
from subtitles.common.times import FRAMES_A_SECOND, FRAMES_OF_A_DAY, TICKS  # noqa: E402
from subtitles.formats.stl import NEW_LINE, TTI  # noqa: E402
from subtitles.formats.teletext import CODE_WORDS, START  # noqa: E402

EVERY = {"day": "1", "pages": "1", "many": "25", "fresh": "1", "service": "25", "late": "25",
         "cells": "1", "passed": "1", "swing": "1"}  # frames between page transmissions
BROKEN = ("cells", "passed", "swing")  # kinds derived from day


Shown = tuple[int, int, int, bytes]  # first frame, end frame, row, text


def stl_file(subtitles: list[Shown]) -> bytes:
    result = [make_subtitle_blocks(number, begin, end, row, 2, text)
              for number, (begin, end, row, text) in enumerate(subtitles)]
    return make_gsi_block(b"Measured", sum(map(len, result)) // TTI, len(result)) + b"".join(result)


def subtitles_of(kind: str, count: int) -> Iterator[Shown]:
    """Yield the subtitles of the kinds day, pages, many and fresh."""
    begin, end = START_BOX * 2, END_BOX * 2
    if kind == "day":
        yield 0, count, 22, DOUBLE_HEIGHT + begin + b"One sending a frame" + end
    elif kind == "pages":
        line = begin + b"All the cells of a page are in use, 1234"[:36] + end
        yield 0, count, 1, NEW_LINE.join([line] * 23)
    else:
        frames = 20 if kind == "many" else 1
        for index in range(count):
            text = DOUBLE_HEIGHT + begin + b"Subtitle %05d" % index + end
            yield frames * index, frames * index + frames, 22, text


SENDING = 184  # bytes of a PES packet
LETTERS = 19  # length of "One sending a frame", which starts in column 11
FIRST_LETTER = DATA + UNIT + 4 + 2 + 11


def break_pes(kind: str, data: bytearray) -> bytearray:
    """Return the transmission of the kind day with faults."""
    if kind == "cells":
        for number, begin in enumerate(range(0, len(data), SENDING)):
            data[begin + FIRST_LETTER + number % LETTERS] = REVERSED_BITS[add_odd_parity(ord("*"))]
    elif kind == "passed":
        data[DATA - 1::2 * SENDING] = bytes([0x20]) * len(data[DATA - 1::2 * SENDING])
        data[SENDING + DATA + 1::2 * SENDING] = bytes(len(data[SENDING + DATA + 1::2 * SENDING]))
    else:
        both = [data[:9] + encode_pts(TICKS * frame) + data[14:SENDING]
                for frame in (0, FRAMES_OF_A_DAY - 1)]
        return bytearray().join(both) * (len(data) // SENDING // 2)
    return data


UNITS = 16  # data units in each frame
ROUND, SHOWN = 100, 75  # number of frames in a round, and frames that show its subtitle
ROWS = (20, 22)  # rows of the two double-height lines
LINE = 31  # characters of a line, which has 36 cells with its codes, and so begins in column 2
HEAD = START + (914).to_bytes(2, "big") + b"\x84\x80\x24"
AFTER_PTS = b"\xff" * 31 + b"\x10"
OTHER, SUBTITLE = 2, 3  # data_unit_id
PLACES = {kind: [bytes([kind, 0x2C, 0xE0 | FIRST_LINE + unit, 0xE4]) for unit in range(UNITS)]
          for kind in (OTHER, SUBTITLE)}
CLOSING = reverse_bits(make_packet(0, 0, [15, 15, 15, 7, 15, 3, 0, 0], b" " * 32))
HEADER = reverse_bits(make_packet(0, 0, [8, 8, 0, 8, 0, 8, 1, 0], b" " * 32))
Texts = list[tuple[bytes, bytes]]  # the two lines of each round's subtitle


def letters(chance: random.Random, length: int) -> bytes:
    """Return random letters, of which about one in six is a space."""
    return bytes(chance.choices(b"abcdefghijklmnopqrstuvwxyz     ", k=length))


def page(chance: random.Random, magazine: int, number: int) -> list[bytes]:
    """Return the packets of a page: its header, its rows, and a packet X/27."""
    title = b"%d%02d Page of the carousel" % (magazine or 8, number)
    numbers = [number % 10, number // 10, 0, 0, 0, 0, 2, 0]  # C8, update indicator
    result = [make_packet(magazine, 0, numbers, title.ljust(32))]
    result += [make_packet(magazine, row, (), letters(chance, 40)) for row in range(1, 24)]
    links = bytes([CODE_WORDS[0]]) + chance.randbytes(39)
    result.append(make_packet(magazine, 27, (), b"") + links)
    return [reverse_bits(item) for item in result]


class Carousel:
    """The pages of a magazine, repeated endlessly."""

    def __init__(self, chance: random.Random, magazine: int, count: int) -> None:
        self.pages = itertools.cycle([page(chance, magazine, number) for number in range(count)])
        self.page, self.place = next(self.pages), 0

    def next(self) -> bytes:
        """Return the next packet."""
        if self.place == len(self.page):
            self.page, self.place = next(self.pages), 0
        self.place += 1
        return self.page[self.place - 1]


class Service:
    """A complete Teletext service, frame by frame."""

    def __init__(self) -> None:
        chance = random.Random(472)
        self.magazines = [Carousel(chance, magazine, 90) for magazine in (1, 2, 3)]
        self.magazines.append(Carousel(chance, 0, 88))
        self.turns = itertools.cycle(self.magazines)
        self.service_data = reverse_bits(make_packet(0, 30, [0], b"") + chance.randbytes(39))

    def turn(self, is_waiting: bool) -> Carousel:
        """Return the next magazine. While rows are pending, skip the magazine of these rows."""
        magazine = next(self.turns)
        return next(self.turns) if is_waiting and magazine is self.magazines[-1] else magazine

    def frame(self, frame: int, first: list[bytes], is_waiting: bool) -> bytes:
        """Return the PES packet of a frame. `first` contains its packets of the subtitle page,
        whose rows may come later."""
        units, own = list(first), self.magazines[-1]
        if units and own.place < len(own.page):
            own.place = 0  # repeat an unfinished page from its header
        heads = PLACES[SUBTITLE][:len(units)] + PLACES[OTHER][len(units):]
        if frame % FRAMES_A_SECOND == FRAMES_A_SECOND // 2:
            units.append(self.service_data)
        units += [self.turn(is_waiting).next() for _ in range(UNITS - len(units))]
        data = b"".join(map(bytes.__add__, heads, units))
        return HEAD + encode_pts(TICKS * frame) + AFTER_PTS + data + STUFFING_UNIT * 3


def rows_of(texts: Texts, frame: int) -> list[bytes]:
    """Return the rows of the page that is sent in a frame, or an empty list for a blank page."""
    number, place = divmod(frame, ROUND)
    if place >= SHOWN or number >= len(texts):
        return []
    return [reverse_bits(make_packet(0, row, (), (b"  " + make_box_line(line)).ljust(40)))
            for row, line in zip(ROWS, texts[number])]


def write_service(file: BinaryIO, frames: int, texts: Texts, is_late: bool) -> None:
    service = Service()
    later: list[bytes] = []  # packets for the next frame
    for frame in range(frames):
        first, later = later, []
        if frame % FRAMES_A_SECOND == 0:
            first = [HEADER, *rows_of(texts, frame), CLOSING]
            if is_late and frame + 1 < frames:
                first, later = first[:1], first[1:]
        file.write(service.frame(frame, first, bool(later)))


def make(program: str, kind: str, count: int, stl: str, pes: str) -> None:
    """Write the subtitle file and the transmission of a kind."""
    if kind in ("service", "late"):
        chance = random.Random(3264)
        texts = [(letters(chance, LINE), letters(chance, LINE))
                 for _ in range(SHOWN, count, ROUND)]
        data = stl_file([(ROUND * number, ROUND * number + SHOWN, ROWS[0],
                          (NEW_LINE * 2).join(map(make_box_line, lines)))
                         for number, lines in enumerate(texts)])
        with open(pes, "wb") as file:
            write_service(file, count, texts, kind == "late")
    else:
        data = stl_file(list(subtitles_of("day" if kind in BROKEN else kind, count)))
    with open(stl, "wb") as file:
        file.write(data)
    if kind in ("service", "late"):
        return
    subprocess.run([program, "schedule", stl, pes, "--every", EVERY[kind]],
                   stdout=subprocess.DEVNULL, check=True)
    if kind in BROKEN:
        with open(pes, "r+b") as changed:
            result = break_pes(kind, bytearray(changed.read()))
            changed.seek(0)
            changed.truncate()
            changed.write(result)


PACKET, PID = 188, 0x101
FILLING = bytes([0x47, 0x02, 0x00, 0x10])  # header of a TS packet with PID 0x200
CLOCKED = 5  # number of frames between tables and PCRs
MIXED = 388  # TS packets for each PES packet; 5 have Teletext if it has 920 bytes


def record(pes: str, ts: str, size: int = 0) -> None:
    """Convert a PES file to a transport stream with dev/pes2ts.

    Each PES packet gets `size` TS packets. Those without Teletext have random bytes on another PID.
    Tables and PCRs come at most every fifth frame. With size 0, only TS packets with Teletext are
    written.
    """
    chance = random.Random(13818)
    filling = b"".join(FILLING + chance.randbytes(PACKET - len(FILLING)) for _ in range(size))
    with open(ts, "wb") as file, subprocess.Popen(
            [os.path.join(TOOLS, "..", "dev", "pes2ts"), pes, hex(PID)], stdout=subprocess.PIPE,
            stderr=subprocess.DEVNULL) as process:
        assert process.stdout
        frames, group = -1, b""
        while item := process.stdout.read(PACKET):
            is_own = (item[1] & 0x1F) << 8 | item[2] == PID
            if is_own and item[1] & 0x40:  # start of a PES packet
                frames += 1
                file.write(group + filling[len(group):] if group else b"")
                group = b""
            if is_own or size and (frames % CLOCKED == CLOCKED - 1 or frames < 0):
                group += item
        file.write(group + filling[len(group):])


def parse_count(text: str) -> int:
    """Parse the number of frames or subtitles."""
    return parse_number(text, SHOWN + 1, FRAMES_OF_A_DAY,
                        f"number of frames: give {SHOWN + 1} to {FRAMES_OF_A_DAY}")


def main(argv: list[str]) -> int:
    parser = ToolParser(__doc__)
    parser.add_argument("kind", metavar="KIND", choices=EVERY)
    parser.add_argument("count", metavar="COUNT", type=parse_count)
    parser.add_argument("stl", metavar="STL")
    parser.add_argument("pes", metavar="PES")
    args = parser.parse_args(argv)
    make(find_built_program(), args.kind, args.count, args.stl, args.pes)
    return 0


if __name__ == "__main__":
    run(main)
