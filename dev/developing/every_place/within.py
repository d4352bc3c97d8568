"""Pairs of files for `check --all` with `--within N` or `--keeping`, with manually derived output.

Transmissions are written as in `one_rule`, with these additional names: `o` is row 22 with the
letter o instead of i; `r2` is row 20 with the text of row 22; `k` is a header with C4 clear.
"""
from __future__ import annotations

from developing.pes import make_pes_packet
from subtitles.common.times import CLOCK, FRAMES_OF_A_DAY, TICKS
from subtitles.formats.stl import GSI
from .calls import KnownCall, make_known_check
from .known import (
    EARLY_WRONG, HELLO, HI, LAST, ROW, SENT, add_count_line, format_accepted_line,
    format_ended_line, format_lasting_fault, format_refused_line, format_trusted_line,
    format_wrong_row, make_stl_file, replace_bytes)
from .one_rule import CLOSING, HEADER, PAGE, make_header, parse_transmission

PACKETS = {"h": HEADER, "r": ROW, "c": CLOSING, "o": replace_bytes(ROW, {22: 0xEF}),
           "r2": replace_bytes(ROW, {1: 0x8C}), "k": make_header(c4="15")}


def make_pes_file(packets: str) -> bytes:
    """Return the PES packets that a comma-separated list describes."""
    return b"".join(parse_transmission(packets, PACKETS))


def expect_lines(name: str, pes: bytes, *requested_options: tuple[str, ...], stl: bytes = HELLO
            ) -> list[KnownCall]:
    """Return a call for each tuple of `requested_options`: options, then the expected lines."""
    return [make_known_check(f"{name}: check {arguments}".rstrip(), stl, pes, arguments,
                             add_count_line(*lines))
            for arguments, *lines in requested_options]


ONE = "--within 1"

# PTS at the limits of the day: one tick inside and one tick outside.
DAY = [
    *[known for ticks in (-900, TICKS * FRAMES_OF_A_DAY - 901) for known in expect_lines(
        f"a PTS of {ticks}", make_pes_packet(ticks % CLOCK, PAGE),
        (ONE, format_accepted_line(1, 1)), stl=HELLO[:GSI])],
    *[known for ticks in (-901, TICKS * FRAMES_OF_A_DAY - 900) for known in expect_lines(
        f"a PTS of {ticks}", make_pes_packet(ticks % CLOCK, PAGE),
        (ONE, "refused 61 OffFrame pes 0"), stl=HELLO[:GSI])],
]

# Pairs with the largest allowed values of --within.
LARGEST_TOLERANCE_CASES = [
    *expect_lines("a frame that does not rise before an end is late",
                  make_pes_file("0 h r c, 10 h c, 12 h c, 5 h r c, 50 h c"),
                  ("--within 50", format_trusted_line("00:00", "00:11"), "refused 62 Order pes 3")),
    *expect_lines("a page that was whole once", make_pes_file("0 h r c, 1 h c, 50 h c"),
                  ("--within 50", format_accepted_line(51, 3))),
]

# A PTS may be up to a quarter of a frame early, or less than three quarters of a frame late.
PTS_CASES = [
    *expect_lines("the last PTS of a frame", SENT, ("--origin 8589931893 --within 1",
                                                    format_accepted_line(51, 2))),
    *expect_lines("the first PTS of a frame", SENT, ("--origin 900 --within 1",
                                                     format_accepted_line(51, 2))),
    *expect_lines("a PTS of the frame before", SENT,
             ("--origin 901 --within 1", *EARLY_WRONG, format_refused_line("74 Late", "01:24"))),
    *expect_lines("a PTS of the next frame", SENT,
                  ("--origin 8589931892 --within 1", format_refused_line("63 Early", "00:01"),
                   format_trusted_line("00:01", "02:01"))),
]

TOLERANCE_CASES = [*LARGEST_TOLERANCE_CASES, *PTS_CASES, *DAY]

KEEPING_OPTION = "--keeping"  # accepts headers that do not erase the page
AFTER_REFUSED_STL = make_stl_file((0, 50, 22, HI.replace(b"i", b"\xe6")), (50, 100, 22, HI))
BAD = "refused 50 Character block 1 at 4"
LATE_PAGE_CASES = [
    *expect_lines("another row behind a first header that keeps",
                  make_pes_file("0 k r c, 25 k o c, 50 h c"),
                  (KEEPING_OPTION,
                   format_refused_line("69 RowChanged", "01:00", "packet 1"), LAST)),
    *expect_lines("the same row behind it", make_pes_file("0 k r c, 25 k r c, 50 h c"),
                  (KEEPING_OPTION, format_accepted_line(51, 3))),
    *expect_lines("a row behind the closing header", make_pes_file("0 h r c r2, 25 k r c, 50 h c"),
                  (KEEPING_OPTION, format_accepted_line(51, 3))),
    *expect_lines("a row that was not sent before it is known what is due",
                  make_pes_file("0 h c, 50 k r c, 100 h c"),
                  (KEEPING_OPTION, BAD, *format_lasting_fault("78 Undecided", "00:00", "01:24"),
                   format_trusted_line("04:00", "04:00")),
                  stl=AFTER_REFUSED_STL),
    *expect_lines("another row before it is known what is due",
                  make_pes_file("0 h o c, 50 k r c, 100 h c"),
                  (KEEPING_OPTION, BAD, format_refused_line("78 Undecided", "00:00"),
              format_refused_line("69 RowChanged", "02:00", "packet 1"),
                   format_wrong_row("02:00", column=20)[0],
              format_ended_line("78 Undecided", "01:24"), format_ended_line("72 Content", "03:24"),
              format_trusted_line("04:00", "04:00")), stl=AFTER_REFUSED_STL),
]
