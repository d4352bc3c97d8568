"""Make answers, parts, requests and other values that the modules of the tools exchange."""
from __future__ import annotations

import argparse
import itertools
import os
from types import SimpleNamespace
from typing import Any, Iterable, Sequence

from subtitles.cli.main import main
from subtitles.clock.start import Clock, GIVEN, TimedPart
from subtitles.common.command_line import ToolParser, run_main
from subtitles.common.markup import Value, join_markup
from subtitles.common.program import TOP
from subtitles.common.times import CLOCK
from subtitles.formats.listing import FaultLine, Meaning, parse_fault_line
from subtitles.formats.teletext import Page
from subtitles.judging.check import CheckOutput
from subtitles.judging.part import Part
from subtitles.request.commands import OutputNames
from subtitles.request.lines import read_options
from subtitles.request.request import Request, add_options, list_arguments, make_file_request
from subtitles.stream.gaps import LossPlace
from subtitles.stream.packets import PacketRun, Packets
from subtitles.stream.receiver import Timeline
from subtitles.stream.survey import Survey, survey
from .bench import Case
from .transmissions import PAGE

MEANINGS = {number: Meaning("", f"it means `{number}`", f"do {number}") for number in range(93)}


def parse_single_fault(line: str) -> FaultLine:
    reported = parse_fault_line(line)
    assert reported, line
    return reported


def make_answer(lines: Sequence[str] = ("accepted 10 frames 2 transmissions",),
                status: int | None = None, path: str = os.devnull) -> CheckOutput:
    """Parse lines printed by `check --all`, and store them in the file `path`."""
    check_output = CheckOutput(path)
    for line in lines:
        check_output.read_line(line)
    check_output.finish(int(check_output.frames is None) if status is None else status)
    return check_output


def make_part(begin: int | None, end: int | None, origin: int | None,
              printed: CheckOutput | None = None, number: int = 1, source: str = GIVEN,
              packets: Packets | None = None, places: Sequence[LossPlace] = (),
              program_stl: str = "a.stl", **more: Any) -> Part:
    """Return a part with frames from `begin` to `end`, PES packets, losses and other members.

    `source` is the source of its clock, and `program_stl` the subtitle file that `check` reads.
    """
    alignment = None if begin is None or end is None or origin is None else \
        TimedPart(begin, end, Clock(origin, source))
    names = OutputNames("a", "", None)
    names.program_stl = program_stl
    if packets is not None or places:
        more["recording"] = SimpleNamespace(packets=packets, stream=lambda: None, is_stream=False,
                                            has_picture=lambda: False,
                                            list_losses=lambda jumps: [*places])
    known: dict[str, Any] = {
        "request": make_example_request("a.stl", "a.pes"), "names": names, "alignment": alignment,
        "is_recording_read": True, **more}
    if packets is not None and alignment and "pes" in more:
        decoded = Timeline(packets, known["request"].page, alignment.origin, 0, more["pes"])
        known["timeline"] = lambda: decoded
    return Part(number, check_output=printed or make_answer(), **known)


def read_survey(*lines: str) -> Survey:
    survey = Survey()
    for line in lines:
        survey.read_line(line)
    return survey


def make_packets(pts: Iterable[int | None], flags: str = "h", **more: Any) -> Packets:
    """Return PES packets with these PTS and flags. `None` makes a gap marker."""
    return Packets(0x101, [
        PacketRun(at, 1, None, 0, "m", "") if item is None else
        PacketRun(at, 1, item % CLOCK, 0, flags, "") for at, item in enumerate(pts)], **more)


def make_example_request(stl: str, recording: str | None, *args: str) -> Request:
    return make_file_request(stl, recording, make_default_options(*args))


def make_default_options(*args: str) -> argparse.Namespace:
    parser = ToolParser("")
    add_options(parser)
    return read_options(parser, args, {}, {})


def list_call_arguments(request: Request) -> list[str]:
    return [*itertools.chain(*list_arguments(request)), "--", request.stl,
            *([request.recording] if request.recording else [])]


def run_qc(words: Sequence[str]) -> int:
    return run_main(lambda line: main("", os.path.join(TOP, "tools", "qc"), line), words)


def survey_packets(case: Case, data: bytes, page: Page = PAGE) -> Packets:
    """Write a file of PES packets. Return what `survey` prints about it."""
    return survey(case.bench.program, case.write("held.pes", data), page).by_pid.get(0, Packets(0))


def decode_packets(case: Case, data: bytes, origin: int = 0, within: int = 0) -> Timeline:
    return Timeline(survey_packets(case, data), PAGE, origin, within)


def markup_text(*values: Value) -> str:
    return join_markup(values).source


def make_shell_script(lines: list[str], status: int) -> str:
    """Return a script that prints lines and exits with a status, or by a signal if negative."""
    printed = "".join(f"echo '{line}'; " for line in lines)
    return printed + (f"exit {status}" if status >= 0 else f"kill {status} $$")
