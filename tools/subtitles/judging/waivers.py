"""Parse the waivers in a severity file, each of which is about one fault in one subtitle."""
from __future__ import annotations

import datetime
import os
import re
from typing import AbstractSet, Callable, NamedTuple, Optional, Sequence

from ..common.command_line import Stop
from ..common.times import parse_frame


# The faults that a waiver may name. The other faults do not concern a single subtitle, or `check`
# stops there, or nobody knows what was received.
WAIVABLE = {*range(50, 58), *range(64, 74), 77, 78}
EXAMPLE = '72 warning at 10:03:30:17 in news.stl until 2027-01-31 by "NAME": reason'
FORM = re.compile(
    r'0*(?P<number>\d+)\s+warning\s+at\s+(?P<time>\S+)\s+in\s+(?P<file>\S.*?)\s+until\s+'
    r'(?P<until>\S+)\s+by\s+"(?P<author>[^"]*\S[^"]*)":\s*(?P<reason>\S.*)')
# For each group of frames with a fault, the TCI of the subtitles that the fault concerns there, and
# `None` if it concerns something else
Owners = Sequence[AbstractSet[Optional[int]]]
CHECKSUM = "sha256:"  # the beginning of a checksum that identifies a subtitle file


class Waiver(NamedTuple):
    """A line of a severity file that makes a fault in one subtitle only a warning."""

    number: int  # fault number
    time: str  # TCI of the subtitle
    file: str  # name of the subtitle file, or `CHECKSUM` and its SHA-256
    until: str  # the last day (UTC) on which the waiver is used, as YYYY-MM-DD
    author: str
    reason: str
    line_number: int  # position of the line in the severity file

    @property
    def key(self) -> tuple[int, int]:
        """Return the fault number and the frame of the TCI."""
        frame = parse_frame(self.time)
        assert frame is not None
        return self.number, frame

    def describe(self) -> str:
        return f"line {self.line_number}, fault {self.number} at {self.time}"


def is_waiver(line: str) -> bool:
    """Return whether a line of a severity file is about one subtitle."""
    return bool(re.match(r"\s*\d+\s+warning\s+at\b", line))


def parse_waiver(path: str, line_number: int, line: str) -> Waiver:
    """Parse a line of a severity file that is about one subtitle. Raise `Stop` if it is invalid."""
    match = FORM.fullmatch(line.strip())
    place = f"{path}, line {line_number}"
    if match is None:
        raise Stop(f"{place}: a waiver for one subtitle is a line such as `{EXAMPLE}`")
    waiver = Waiver(int(match["number"]), match["time"], match["file"], match["until"],
                    match["author"], match["reason"], line_number)
    if waiver.number not in WAIVABLE:
        raise Stop(f"{place}: fault {waiver.number} can't be waived for one subtitle")
    if parse_frame(waiver.time) is None:
        raise Stop(f"{place}: {waiver.time} is not a time code: give the subtitle's TCI")
    if not is_day(waiver.until):
        raise Stop(f"{place}: {waiver.until} is not a day: give it as YYYY-MM-DD")
    digits = waiver.file.removeprefix(CHECKSUM)
    if digits != waiver.file and not re.fullmatch("[0-9a-f]{64}", digits):
        raise Stop(f"{place}: {digits} is not a SHA-256: give 64 digits 0 to 9 and a to f")
    if os.path.basename(waiver.file) != waiver.file:
        raise Stop(f"{place}: give the name of the subtitle file without its folder")
    return waiver


def is_day(text: str) -> bool:
    """Return whether a text is a day as YYYY-MM-DD."""
    if not re.fullmatch(r"\d{4}-\d\d-\d\d", text, re.ASCII):
        return False
    try:
        datetime.date.fromisoformat(text)
    except ValueError:
        return False
    return True


class FileWaivers(NamedTuple):
    """The waivers for the judged subtitle file: those that have ended, and the others with their
    fault numbers and the TCI of each of these numbers."""

    ended: Sequence[Waiver] = ()
    used: Sequence[Waiver] = ()
    numbers: frozenset[int] = frozenset()
    keys: frozenset[tuple[int, int]] = frozenset()

    def cover(self, number: int, owners: Owners) -> bool:
        """Return whether each of the subtitles that a fault concerns has a waiver for it."""
        return bool(owners) and all((number, begin) in self.keys
                                    for begins in owners for begin in begins)


def choose_waivers(waivers: Sequence[Waiver], name: str, find_checksum: Callable[[], str],
                   day: str) -> FileWaivers:
    """Return the waivers for a subtitle file on a day (UTC), YYYY-MM-DD. `find_checksum` returns
    the SHA-256 of the file."""
    has_checksums = any(waiver.file.startswith(CHECKSUM) for waiver in waivers)
    names = {os.path.basename(name), *([CHECKSUM + find_checksum()] if has_checksums else [])}
    waivers = [waiver for waiver in waivers if waiver.file in names]
    used = [waiver for waiver in waivers if day <= waiver.until]
    return FileWaivers([waiver for waiver in waivers if waiver not in used], used,
                       frozenset(waiver.number for waiver in used),
                       frozenset(waiver.key for waiver in used))
