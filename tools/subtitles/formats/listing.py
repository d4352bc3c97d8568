"""Parse the output lines of `check`, and look up fault numbers in the manual."""
from __future__ import annotations

import os
import re
from typing import NamedTuple

from ..common.markup import Markup, join_markup, markup
from ..common.program import TOP
from ..common.times import FRAMES_A_SECOND, find_frame_at, parse_frame


# Lines of `check --all`. Only this module parses them.
#
#     accepted COUNT frames COUNT transmissions
#     refused NUMBER Name PLACE
#     ended NUMBER Name PLACE
#     trusted frames TIME TIME
#     COUNT faults
#
# PLACE is empty, or one of: block N, block N at N, pes N, frame TIME, frame TIME packet N, frame
# TIME row N column N. Lines `fault` and `usage` are like `refused`.

ACCEPTED = re.compile(r"accepted (\d+) frames (\d+) transmissions")
COUNT = re.compile(r"(\d+) faults")
TRUSTED = re.compile(r"trusted frames (\S+) (\S+)")
FAULT_LINE = re.compile(
    r"(?P<word>refused|ended|fault|usage) (?P<number>\d+) (?P<name>\w+)"
    r"(?: block (?P<block>\d+)(?: at (?P<at>\d+))?| pes (?P<pes>\d+)"
    r"| frame (?P<time>[\d:]+)(?: packet (?P<packet>\d+)"
    r"| row (?P<row>\d+) column (?P<column>\d+))?)?")
EMPTY = 60  # there is no PES packet
DISPLAY = 13  # fault of the display standard code (DSC)
OFF_FRAME, ORDER, GAP = 61, 62, 73
# Number of the fault in frames next to refused subtitles, where the expected page is unknown
UNDECIDED = 78
STL_FAULTS = {*range(10, 26), *range(50, 58)}
SKIPPED_PACKETS = {*range(33, 41), 45, 61}  # faults of packets that are unreadable or lack a frame
ENDS_READING = {30, 31, 32, 44}  # faults after which `check` stops reading the recording
# Faults after which `check` stops reading the subtitle file
ENDS_FILE = {*range(10, 16), 17, *range(22, 26)}
LOST_PACKETS = 45  # TS packets are missing
SILENT = 79  # no PES packet for too long
LOSSES = {LOST_PACKETS, SILENT}
REFUSED, ENDED, FAULT = "refused", "ended", "fault"
CONTENT, CHARACTER, TEXT_FAULTS, CONTROL, PARITY, CHANGED = 72, 50, (50, 51), 67, 68, 69
BEGIN, END = 63, 74  # the recording begins after the first TCI, or ends before the last TCO
FAULTS_WITH_CAUSE = {BEGIN, CONTENT, END}
INCOMPLETE = 77


class FaultLine(NamedTuple):
    """A line `refused`, `ended`, `fault` or `usage`, with its fault number, name and place."""

    line: str
    word: str
    number: int
    name: str
    block: int | None
    at: int | None
    pes: int | None
    time: str | None
    packet: int | None
    row: int | None
    column: int | None

    @property
    def frame(self) -> int | None:
        """Return the frame number of the line's time, or `None` if the line has no time."""
        frame: int | None = parse_frame(self.time) if self.time else None
        return frame

    @property
    def is_fault(self) -> bool:
        return self.word == REFUSED


class Accepted(NamedTuple):
    """A line of `check` that begins with `accepted`, for a pair without a fault."""

    frames: int
    transmissions: int


class Trusted(NamedTuple):
    """A line that begins with `trusted`. It has the times of the first and the last of consecutive
    frames without a fault."""

    first: str
    last: str


def parse_fault_line(line: str) -> FaultLine | None:
    """Parse a line with a fault number. Return `None` for any other line."""
    match = FAULT_LINE.fullmatch(line)
    if not match:
        return None
    word, number, name, block, at, pes, time, packet, row, column = match.groups()
    return FaultLine(line, word, int(number), name, parse_optional(block), parse_optional(at),
                     parse_optional(pes), time,
                     parse_optional(packet), parse_optional(row), parse_optional(column))


def parse_optional(digits: str | None) -> int | None:
    """Parse a number. Return `None` if it is missing."""
    return None if digits is None else int(digits)


def parse_accepted_line(line: str) -> Accepted | None:
    """Parse a line that begins with `accepted`. Return `None` for any other line."""
    match = ACCEPTED.fullmatch(line)
    return Accepted(int(match[1]), int(match[2])) if match else None


def parse_trusted_line(line: str) -> Trusted | None:
    """Parse a line that begins with `trusted`. Return `None` for any other line."""
    match = TRUSTED.fullmatch(line)
    return Trusted(match[1], match[2]) if match else None


def parse_count_line(line: str) -> int | None:
    """Return the number of faults from the last line of a list, or `None` for any other line."""
    match = COUNT.fullmatch(line)
    return int(match[1]) if match else None


def is_check_line(line: str) -> bool:
    """Return whether a line has the format of a line that `check` prints."""
    return any(parse(line) is not None for parse in (parse_fault_line, parse_trusted_line,
                                                     parse_accepted_line, parse_count_line))


# These functions are written for speed, since a list may have a line for each frame of a day.

def split_line(line: str) -> list[str]:
    """Split a line into keyword, fault number, fault name, kind of place, place, and rest."""
    return line.split(" ", 5)


def parse_fault_number(line: str) -> int | None:
    """Parse the fault number in a line that begins with `refused`."""
    digits = line.split(" ", 2)[1] if line.startswith(REFUSED + " ") else ""
    return int(digits) if digits.isascii() and digits.isdecimal() else None


def parse_place_time(time: str) -> int:
    """Return the frame of a time in a line of `check`."""
    hours, minutes, seconds, frames = map(int, time.split(":"))
    frame: int = find_frame_at(((hours * 60 + minutes) * 60 + seconds) * FRAMES_A_SECOND + frames)
    return frame


# Faults that only qc and read find. They have names instead of numbers.

NEVER_SENT = "never sent"  # the PMT announces the page, but it was not sent
PICTURES_LEFT = "pictures left"  # the video PTS jump, but the subtitle PTS do not
NOT_SHOWN = "not shown"  # no receiver shows a row of a subtitle
FAULT_NAMES = (NEVER_SENT, PICTURES_LEFT, NOT_SHOWN)
# Faults that only tools/read finds

NOT_IN_FILE = "not in the file"  # no subtitle draws a page that receivers show
ENDS_EARLY = "ends early"  # the end of the recording can't be read
TIME_GOES_BACK = "time goes back"  # the PTS go back, so the rest was not read
SUB_PAGES = "sub-pages"  # sub-pages of the page alternate
CHARACTER_SET = "character set"  # packets X/28 or M/29 name another character set
CLOCK_JUMP = "clock jump"  # the PCR jumps, but no packet is missing
READING_FAULT_NAMES = (NOT_IN_FILE, ENDS_EARLY, TIME_GOES_BACK, SUB_PAGES, CHARACTER_SET,
                       CLOCK_JUMP)


class NamedFault(NamedTuple):
    """A fault with a name instead of a number. Its place is a time in the recording, from `time` to
    `until`, or a TTI block of the subtitle file."""

    name: str
    text: str
    time: str | None = None
    until: str | None = None
    block: int | None = None
    part: int = 1

    @property
    def line(self) -> str:
        """Return the fault as a line in the format of `check`."""
        place = f" frame {self.time}" if self.time else \
            f" block {self.block}" if self.block is not None else ""
        return f"{REFUSED} {self.name}{place}"


REFUSALS_PATH = os.path.join(TOP, "docs", "manual", "refusals.md")


class Meaning(NamedTuple):
    """The description of a fault in the manual's table."""

    name: str
    meaning: str
    remedy: str


def read_meanings() -> dict[int, Meaning]:
    """Return the descriptions of faults in the manual by fault number. Return an empty dictionary
    if the manual is not installed."""
    meaning_by_number: dict[int, Meaning] = {}
    if not os.path.isfile(REFUSALS_PATH):
        return meaning_by_number
    with open(REFUSALS_PATH, encoding="utf-8") as file:
        for line in file:
            cells = [cell.strip() for cell in line.strip().strip("|").split("|")]
            if len(cells) >= 4 and cells[0].isdecimal():
                # the fifth cell lists options
                meaning_by_number[int(cells[0])] = Meaning(*cells[1:4])
    return meaning_by_number


def read_named_meanings() -> dict[str, Meaning]:
    """Return the manual's descriptions of the faults that have no number, by fault name."""
    meaning_by_name: dict[str, Meaning] = {}
    if not os.path.isfile(REFUSALS_PATH):
        return meaning_by_name
    with open(REFUSALS_PATH, encoding="utf-8") as file:
        for line in file:
            cells = [cell.strip() for cell in line.strip().strip("|").split("|")]
            name = cells[0].strip("`")
            if len(cells) == 4 and name in (*FAULT_NAMES, *READING_FAULT_NAMES):
                meaning_by_name[name] = Meaning(name, *cells[2:])
    return meaning_by_name


def remove_markup(text: str) -> str:
    """Remove Markdown links and backquotes from a table cell of the manual."""
    return re.sub(r"\[([^]]*)\]\([^)]*\)", r"\1", text).replace("`", "")


def make_cell_markup(text: str) -> Markup:
    """Return a cell of the manual as HTML. Backquotes become code, and links plain text."""
    parts = re.sub(r"\[([^]]*)\]\([^)]*\)", r"\1", text).split("`")
    return join_markup(markup("<code>{}</code>", part) if at % 2 else part
                       for at, part in enumerate(parts))


def make_number_link(line: str) -> Markup:
    """Return a line `refused NUMBER Name PLACE` as HTML, with a link on number and name."""
    _, number, name, *place = line.split(" ")
    return join_markup([markup('<a href="#n{}">{} {}</a>', number, number, name), *place], " ")
