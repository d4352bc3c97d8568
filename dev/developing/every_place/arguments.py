"""Parse the arguments of commands, and report usage faults."""
from __future__ import annotations

import re
from typing import NamedTuple

from subtitles.common.times import CLOCK, FRAMES_OF_A_DAY, parse_frame
from subtitles.formats.layout import Layout, PLAIN, parse_layout
from subtitles.formats.teletext import Page
from .national import BITS

MAX_WITHIN = 50
COMPLETE, OPEN, KEEPING = FLAGS = "--complete", "--open", "--keeping"
DEFAULTS = {"--page": "888", "--every": "250", "--origin": "0", "--option": "english",
            "--within": "0", "--packet-size": "188", "--pes": "0-"}
MAX_PID = 8190  # null packets use PID 8191


class UsageFault(Exception):
    """Raised for the first fault in the arguments, with its number and name."""


class Options(NamedTuple):
    """The options of `check`.

    `within` is the number of frames by which a page may be late. If `pid` is set, the file is a
    transport stream with a packet every `size` bytes. `first` and `last` limit the PES packets,
    unless they are `None`. `from_frame` and `to_frame` limit the TCI of subtitles. If `is_open` is
    true, open subtitles are accepted. If `may_keep` is true, headers may keep the page (C4 clear).
    `pace` is the maximum number of frames between PES packets.
    """

    page: Page
    every: int
    origin: int
    option: str
    is_complete: bool
    within: int
    pid: int | None = None
    size: int = 188
    first: int = 0
    last: int | None = None
    layout: Layout = PLAIN
    is_open: bool = False
    from_frame: int = 0
    to_frame: int = FRAMES_OF_A_DAY
    may_keep: bool = False
    pace: int | None = None


def parse_number(text: str) -> int | None:
    """Parse a number of one to ten decimal digits. Return `None` for any other text."""
    return int(text) if re.fullmatch(r"[0-9]{1,10}", text) else None


def parse_pid(text: str) -> int | None:
    """Parse a PID: decimal, or hexadecimal after 0x. Return `None` for any other text."""
    is_hexadecimal = re.fullmatch(r"0x[0-9A-Fa-f]{1,8}", text)
    pid = int(text, 16) if is_hexadecimal else parse_number(text)
    return None if pid is None or pid > MAX_PID else pid


def parse_arguments(arguments: list[str]) -> dict[str, str]:
    """Return the option values by name, with defaults. Raise `UsageFault` for a repeated option."""
    parts = [part for word in arguments for part in (
        word.split("=", 1) if word.startswith("--") else [word]) if word not in FLAGS]
    names = parts[::2]
    if len({*names}) < len(names):
        raise UsageFault("0 Words")
    return {**DEFAULTS, **dict(zip(names, parts[1::2]))}


def parse_options(arguments: list[str]) -> Options:
    """Parse the options of `check`. Raise `UsageFault` for the first fault."""
    given = parse_arguments(arguments)
    page, option = given["--page"], given["--option"]
    every, origin, within = (
        parse_number(given[name]) for name in ("--every", "--origin", "--within"))
    if not re.fullmatch(r"[1-8][0-9A-Fa-f]{2}", page) or page[1:].upper() == "FF":
        raise UsageFault("1 BadPage")
    if every is None or not 1 <= every <= FRAMES_OF_A_DAY:
        raise UsageFault("80 Every")
    if origin is None or origin >= CLOCK:
        raise UsageFault("81 Origin")
    if option not in BITS:
        raise UsageFault("83 BadOption")
    if within is None or within > MAX_WITHIN:
        raise UsageFault("85 Within")
    pid = parse_pid(given["--pid"]) if "--pid" in given else None
    if "--pid" in given and pid is None:
        raise UsageFault("86 Pid")
    if given["--packet-size"] not in ("188", "192", "204"):
        raise UsageFault("87 PacketSize")
    first, last = parse_range(given["--pes"])
    layout = parse_layout(given["--layout"]) if "--layout" in given else PLAIN
    if layout is None:
        raise UsageFault("89 Layout")
    pace = parse_number(given["--pace"]) if "--pace" in given else None
    if "--pace" in given and (pace is None or not 1 <= pace <= FRAMES_OF_A_DAY):
        raise UsageFault("92 Pace")
    ends = [parse_frame(given[name]) if name in given else whole
            for name, whole in (("--from", 0), ("--to", FRAMES_OF_A_DAY))]
    if ends[0] is None or ends[1] is None:
        raise UsageFault("6 BadTime")
    return Options((int(page[0]) % 8, int(page[1:], 16)), every, origin, option,
                   COMPLETE in arguments,
                   within, pid, int(given["--packet-size"]), first, last, layout, OPEN in arguments,
                   ends[0], ends[1], KEEPING in arguments, pace)


def parse_range(text: str) -> tuple[int, int | None]:
    """Parse a range of PES packets. The second number is `None` if the range has no end."""
    result = re.fullmatch(r"([0-9]{1,10})-([0-9]{1,10})?", text)
    if not result or result[2] and int(result[1]) > int(result[2]):
        raise UsageFault("88 Range")
    return int(result[1]), int(result[2]) if result[2] else None
