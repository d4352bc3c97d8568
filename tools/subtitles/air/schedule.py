"""Read a schedule or an as-run log: when each programme is on air, and how it is judged."""
from __future__ import annotations

import argparse
import contextlib
import datetime
import os
import re
from typing import NamedTuple, Sequence

from ..common.command_line import Stop, format_error
from ..request.commands import make_pair_name
from ..request.lines import Line, make_line_parser, make_line_request, read_list, split_lines
from ..request.request import Request

TIME = re.compile(r"\d{4}-\d\d-\d\dT\d\d:\d\d:\d\d(\.\d{1,6})?(Z|[+-]\d\d:\d\d)", re.ASCII)
FORMATS = "%Y-%m-%dT%H:%M:%S%z", "%Y-%m-%dT%H:%M:%S.%f%z"  # without and with a fraction of a second
EXAMPLE = "2026-11-29T20:15:00Z"
USUAL_PAGE = "888"
RECORDING = "recording.ts"  # file name of the recording that is judged
PROFILE_SECONDS = 60.0  # seconds after which the profiles of lines are read again


class Programme(NamedTuple):
    """A programme in the schedule: the name of its result, and its air time in seconds since the
    epoch. If `end` is `None`, the programme is as long as its subtitle file. It may begin up to
    `early` seconds before its air time and up to `late` seconds after it."""

    name: str
    begin: float
    end: float | None
    request: Request
    early: float
    late: float


class Schedule(NamedTuple):
    """The programmes of a schedule, earliest first, a message for each faulty line, the complete
    text, and the time when it was parsed."""

    programmes: Sequence[Programme] = ()
    faults: Sequence[str] = ()
    text: str = ""
    parsed_at: float = 0.0


def parse_air_time(text: str) -> float:
    """Parse a date and time with a time zone. Return the seconds since the epoch. Raise `Stop` if
    the text is invalid."""
    found = TIME.fullmatch(text)
    with contextlib.suppress(ValueError, OverflowError):
        if found:
            time = datetime.datetime.strptime(text, FORMATS[bool(found[1])])
            return time.astimezone(datetime.timezone.utc).timestamp()
    raise Stop(f"{text or 'an empty text'} is not an air time: begin the line with a date and a "
               f"time that ends in Z or an offset, as `{EXAMPLE} news.stl`")


def parse_air_times(word: str) -> tuple[float, float | None]:
    """Parse the times at the beginning of a line, `BEGIN` or `BEGIN/END`."""
    first, slash, last = word.partition("/")
    begin, end = parse_air_time(first), parse_air_time(last) if slash else None
    if end is not None and end <= begin:
        raise Stop(f"{word} ends before it begins")
    return begin, end


def make_result_name(begin: float, request: Request) -> str:
    """Return the name of a result: the air time, the name of the subtitle file, and the page unless
    it is 888."""
    date = datetime.datetime.fromtimestamp(begin, datetime.timezone.utc)
    page = f"-{request.page_name}" if request.page_name != USUAL_PAGE else ""
    return f"{date:%Y%m%dT%H%M%SZ}-{make_pair_name(request.stl)}{page}"


def read_schedule(path: str, options: argparse.Namespace, now: float,
                  known: Schedule = Schedule()) -> Schedule:
    """Read a schedule. Ignore a last line without a line end until the file is settled, since the
    line may be incomplete. Return `known` if the file has not changed, and for a minute also if a
    line has a profile, which may have changed."""
    text = read_list(path).replace("\r\n", "\n").replace("\r", "\n")
    if os.stat(path).st_mtime > now - options.settled:
        text = text[:text.rfind("\n") + 1]
    may_change = "--profile" in text and not 0 <= now - known.parsed_at < PROFILE_SECONDS
    return known if text == known.text and not may_change else parse_schedule(
        text, os.path.dirname(path), options)._replace(parsed_at=now)


def parse_schedule(text: str, folder: str, options: argparse.Namespace) -> Schedule:
    """Parse the text of a schedule. File names in it are relative to `folder`."""
    programmes, faults = dict[str, tuple[int, Programme]](), list[str]()
    for line in split_lines(text):
        try:
            programme = parse_line(line, folder, options)
        except (Stop, OSError, ValueError) as reason:
            faults.append(f"line {line.number}: {format_error(reason)}")
            continue
        number, _ = programmes.setdefault(programme.name, (line.number, programme))
        if number != line.number:
            faults.append(f"line {line.number} is not judged: its result would be named "
                          f"{programme.name}, as that of line {number}")
    return Schedule(sorted((programme for _, programme in programmes.values()),
                           key=lambda programme: programme.begin), faults, text)


def parse_line(line: Line, folder: str, options: argparse.Namespace) -> Programme:
    """Parse a line of a schedule: an air time, a subtitle file, and options."""
    if line.fault:
        raise Stop(line.fault)
    begin, end = parse_air_times(line.arguments[0])
    if len(line.arguments) < 2:
        raise Stop("it has no subtitle file: write the air time, then the subtitle file")
    stl = os.path.join(folder, line.arguments[1])
    request = make_line_request([stl, RECORDING, *line.arguments[2:]], options, folder)
    if severity := make_line_parser().parse_args([*line.arguments]).severity:
        request.severity = os.path.join(folder, severity)
    if request.start or request.pes:
        raise Stop("--start and --pes depend on where the programme is in the segments, which is "
                   "not known: remove them")
    return Programme(make_result_name(begin, request), begin, end, request,
                     options.margin, options.margin)
