"""Pairs of files with the manually derived output of `check --all`."""
from __future__ import annotations

import os

from developing.pes import reverse_bits, make_pes_packet
from developing.stl import make_subtitle_blocks
from subtitles.common.program import TOP
from subtitles.common.times import TICKS
from subtitles.formats.stl import GSI
from .calls import KnownCall, make_known_check
from .one_rule import CLOSING, FIRST_FRAME, HEADER, PACKET_26, PAGE, make_packet


def read_example(name: str) -> bytes:
    with open(os.path.join(TOP, "examples", name), "rb") as file:
        return file.read()


def replace_bytes(data: bytes, changes: dict[int, int]) -> bytes:
    changed = bytearray(data)
    for at, byte in changes.items():
        changed[at] = byte
    return bytes(changed)


# One subtitle, sent at 10:00:00:00 and cleared at 10:00:02:00.
HELLO, SENT = read_example("hello.stl"), read_example("hello.pes")
SENT_25 = read_example("hello-25.pes")  # the subtitle is also sent at 10:00:01:00
BLANK = SENT_25[368:]  # the last PES packet: a page without rows
H_WITH_EVEN_PARITY = {117: 0x12}  # gives the H in the row even parity
ROW = reverse_bits(SENT[96:138])  # row 22
OTHER_ROW = replace_bytes(ROW, {21: 0x68})  # row 22 with an h instead of the H
COMPLETE_PAGE = [HEADER, ROW, CLOSING]
HI = b"\x0d\x0b\x0bHi\x0a\x0a"


def add_count_line(*lines: str) -> list[str]:
    """Append a line with the number of faults if there are faults."""
    count = sum(line.startswith("refused") for line in lines)
    return [*lines, f"{count} faults"] if count else list(lines)


def make_pair(name: str, pes: bytes, *lines: str, arguments: str = "",
              stl: bytes = HELLO) -> KnownCall:
    """Return a call of `check --all` for a pair of files, with its expected lines."""
    return make_known_check(name, stl, pes, arguments, add_count_line(*lines))


def make_failing_pair(name: str, pes: bytes, *lines: str, arguments: str = "") -> KnownCall:
    """Return a call and its expected lines. Reading fails at the end of the PES file."""
    return make_known_check(name, HELLO, pes, arguments, list(lines), True)


def format_refused_line(fault: str, time: str, place: str = "") -> str:
    """Return the line about a fault. `time` contains the seconds and frames after 10:00:00:00."""
    return f"refused {fault} frame 10:00:{time} {place}".rstrip()


def format_ended_line(fault: str, time: str) -> str:
    return f"ended {fault} frame 10:00:{time}"


def format_trusted_line(first: str, last: str) -> str:
    """Return the line about trusted frames. Times are strings such as `02:24` (SS:FF)."""
    return f"trusted frames 10:00:{first} 10:00:{last}"


def format_lasting_fault(fault: str, first: str, last: str) -> list[str]:
    """Return the lines about the beginning and the end of a fault."""
    return [format_refused_line(fault, first), format_ended_line(fault, last)]


def format_wrong_row(time: str, end: str | None = None, column: int = 16) -> list[str]:
    """Return the lines about the beginning and the end of wrong text in row 22."""
    return [format_refused_line("72 Content", time, f"row 22 column {column}"),
            format_ended_line("72 Content", end or time)]


def format_accepted_line(frames: int, transmissions: int) -> str:
    return f"accepted {frames} frames {transmissions} transmissions"


TRUNCATED_LINE, DATA_ID, LAST = "refused 30 Truncated pes", "refused 37 DataId pes", \
    format_trusted_line("02:00", "02:00")
LATE = format_refused_line("74 Late", "00:00")
EARLY_WRONG = ["refused 72 Content frame 09:59:59:24 row 22 column 16",
               "ended 72 Content frame 09:59:59:24"]


def make_stl_file(*texts: tuple[int, int, int, bytes]) -> bytes:
    """Return a file with subtitles: TCI and TCO in frames after 10:00:00:00, row, and text."""
    return HELLO[:GSI] + b"".join(
        make_subtitle_blocks(number, FIRST_FRAME + tci, FIRST_FRAME + tco, row, 2, text)
        for number, (tci, tco, row, text) in enumerate(texts))


# Texts with one fault of each kind, a subtitle that overlaps the previous subtitle, and a subtitle
# that begins before the previous subtitle.
EIGHT_SUBTITLES = make_stl_file((0, 10, 22, b"\x0e"), (10, 20, 22, b"\xc2e"),
                                (20, 30, 22, b"A" * 40), (30, 40, 23, b"A\x8aB"),
                                (40, 50, 23, b"\x0dA"), (50, 60, 20, b"\x0dA\x8aB"),
                                (55, 70, 22, b"\x0e"), (54, 56, 22, b"ok"))
BLOCKS_OF_EIGHT = ["refused 51 Control block 1 at 0", "refused 50 Character block 2 at 0",
                   "refused 52 RowTooLong block 3 at 0", "refused 53 PastBottom block 4 at 1",
                   "refused 54 DoubleRow block 5 at 0", "refused 55 Hidden block 6 at 1",
                   "refused 57 Overlap block 7", "refused 51 Control block 7 at 0",
                   "refused 56 OutOfOrder block 8"]
OPEN_NINTH = replace_bytes(make_subtitle_blocks(8, FIRST_FRAME, FIRST_FRAME + 50, 22, 2, HI),
                           {3: 0})  # a block with several faults


def add_blocks_after_eight(name: str, blocks: bytes, *last: str) -> KnownCall:
    """Return a check of eight subtitles and `blocks`, and the lines that it must print."""
    return make_pair(f"eight subtitles and {name}", SENT, *BLOCKS_OF_EIGHT, *last,
                     stl=EIGHT_SUBTITLES + blocks)


TEXTS = [add_blocks_after_eight("no more", b""),
         add_blocks_after_eight("ten first blocks", OPEN_NINTH * 10, "refused 23 TooLong block 18")]


def make_pes_at(*frames: tuple[int, list[bytes]]) -> bytes:
    """Return PES packets that carry the given Teletext packets. Frame 0 is at 10:00:00:00."""
    return b"".join(make_pes_packet((FIRST_FRAME + frame) * TICKS, packets)
                    for frame, packets in frames)


def break_every_rule() -> bytes:
    """Return PES packets that together break every rule.

    The first PES packet is late and has no header of the page. The second is in the same frame. Its
    header has a wrong bit, C4 clear and C11 set. Its row has a wrong bit in the address and another
    in a letter. Another row and a packet X/26 follow.
    """
    header = replace_bytes(HEADER, {3: 0xD1, 5: 0x15, 9: 0x02})
    row = replace_bytes(ROW, {1: 0x9A, 21: 0x48})
    return make_pes_at((1, [replace_bytes(CLOSING, {8: 0x14})]),
                       (1, [header, row, OTHER_ROW, PACKET_26]), (50, PAGE))


def make_unfinished_page() -> bytes:
    """Return an open page with two wrong rows, and a PES packet whose PTS belongs to no frame."""
    changes = {19: 0x0B, 20: 0x0B, 21: 0x0D, 23: 0x8A, 24: 0x8A}
    return make_pes_at((0, [HEADER, ROW]), (24, [replace_bytes(make_packet("15 8C"),
                                                               {**changes, 22: 0xC1})]),
                       (30, [replace_bytes(make_packet("D0 C7"), {**changes, 22: 0xC2})])
                   ) + make_pes_packet(3_240_144_001, [CLOSING])


ENDS = [format_refused_line("77 Incomplete", "00:00"), format_refused_line("72 Content", "00:24",
                                                                           "row 20 column 17"),
        format_refused_line("73 Gap", "01:00"), format_ended_line("72 Content", "01:04"),
        format_refused_line("72 Content", "01:05", "row 19 column 17")]
ALL_END = [format_ended_line(fault, "01:05") for fault in ("72 Content", "73 Gap", "77 Incomplete")]
LATE_END = format_refused_line("74 Late", "01:05")


def make_repeat_pair(name: str, first: list[bytes], later: list[bytes], end: int, every: int,
                     *lines: str) -> KnownCall:
    """Return a call for a page at 10:00:00:00 that is followed by packets in later frames."""
    frames = [(0, first), *((frame, later) for frame in range(1, end))]
    if end == 50:
        frames.append((end, PAGE))
    return make_pair(f"sent again: {name}", make_pes_at(*frames), *lines,
                     arguments=f"--every {every}")


# The last two PES packets have an invalid data_identifier.
UNREADABLE_END = replace_bytes(SENT_25, {229: 0x20, 413: 0x20})
GAP = format_lasting_fault("73 Gap", "01:00", "01:24")

KNOWN_CALLS = [
    *TEXTS,
    make_pair("one that can't be read on both sides of one that can",
              replace_bytes(SENT_25, {45: 0x20, 413: 0x20}), f"{DATA_ID} 0",
              format_refused_line("63 Early", "01:00"),
              f"{DATA_ID} 2", format_refused_line("74 Late", "01:00")),
    make_pair("the same, and nothing is told of that one",
              replace_bytes(BLANK * 3, {45: 0x20, 413: 0x20}),
              f"{DATA_ID} 0", f"{DATA_ID} 2", stl=HELLO[:GSI]),
    make_failing_pair("a source that fails after the first PES packet", SENT[:184],
                      "fault 41 Read pes 1"),
    make_failing_pair("another page, from such a source", SENT[:184],
                      format_refused_line("71 NoFirstHeader", "00:00"),
                      format_wrong_row("00:00")[0], "fault 41 Read pes 1", arguments="--page 100"),
    make_failing_pair("two that can't be read, and a source that fails after them",
                      UNREADABLE_END, f"{DATA_ID} 1", "fault 41 Read pes 3"),
    make_failing_pair("one that can't be read, from a source that fails later",
                      replace_bytes(SENT_25, {413: 0x20}),
                      format_trusted_line("00:00", "00:24"), f"{DATA_ID} 2", "fault 41 Read pes 3"),
    # The second PES packet repeats the first packet's data field, which begins at byte 45.
    *[make_pair(f"{what} in a data field that is sent again",
                replace_bytes(SENT_25, {184 + at: byte}), format_accepted_line(51, 3))
      for what, at, byte in (("another flag", 6, 0x85), ("other stuffing", 44, 0xFE),
                             ("another data_identifier", 45, 0x11), ("another last byte", 183, 5))],
    make_pair("an even byte in a data field that is sent again",
              replace_bytes(SENT_25, {184 + 117: 0x12}),
              format_trusted_line("00:00", "00:24"), format_refused_line("68 Parity", "01:00",
                                                                         "packet 1"), LAST),
    make_pair("an even byte in the first PES packet alone",
              replace_bytes(SENT, H_WITH_EVEN_PARITY)[:184],
              format_refused_line("68 Parity", "00:00", "packet 1"), LATE),
    make_pair("each rule of packets after another", break_every_rule(),
              format_refused_line("63 Early", "00:01"),
         format_refused_line("65 HeaderCode", "00:01", "packet 0"),
              format_refused_line("71 NoFirstHeader", "00:01"),
         format_wrong_row("00:01")[0], "refused 62 Order pes 1",
         *(format_refused_line(fault, "00:01", f"packet {at}") for fault,
           at in (("65 HeaderCode", 0),
           ("66 Mode", 0), ("67 Control", 0), ("64 Address", 1), ("68 Parity", 1),
           ("69 RowChanged", 2), ("70 Enhancement", 3))), format_ended_line("72 Content", "00:01"),
         *format_lasting_fault("77 Incomplete", "00:01", "01:24"), arguments="--complete"),
    make_pair("all that stands ends at the end", make_unfinished_page()[:552], *ENDS, *ALL_END,
              LATE_END, arguments="--every 25 --complete"),
    make_pair("all that stands ends before a part of a PES packet", make_unfinished_page()[:553],
              *ENDS, *ALL_END, f"{TRUNCATED_LINE} 3", arguments="--every 25 --complete"),
    make_pair("all that stands ends after a PTS of no frame", make_unfinished_page(), *ENDS,
              "refused 61 OffFrame pes 3", *ALL_END, LATE_END, arguments="--every 25 --complete"),
    make_repeat_pair("whole", COMPLETE_PAGE, COMPLETE_PAGE, 50, 1, format_accepted_line(51, 51)),
    make_repeat_pair("twice in a frame", [HEADER, ROW] * 2, [HEADER, ROW] * 2, 50, 1,
                     format_accepted_line(51, 101)),
    make_repeat_pair("without a header", COMPLETE_PAGE, [CLOSING], 50, 25,
                     format_trusted_line("00:00", "00:24"), *GAP, LAST),
    make_repeat_pair("another row before the header", [OTHER_ROW, HEADER, ROW],
                     [OTHER_ROW, HEADER, ROW], 50, 1, format_trusted_line("00:00", "00:00"),
                     *(format_refused_line("69 RowChanged", f"{frame // 25:02}:{frame % 25:02}",
                                           "packet 0") for frame in range(1, 50)), LAST),
    make_repeat_pair("open after the last TCO", [HEADER, ROW], [HEADER, ROW], 61, 1,
                     format_trusted_line("00:00", "01:24"), *format_wrong_row("02:00", "02:10")),
]
