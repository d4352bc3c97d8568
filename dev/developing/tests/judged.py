"""Run qc on a pair in this process, and return its output, verdict and JSON result."""
from __future__ import annotations

import json
import os
import shlex
import tempfile
from typing import Any, Iterable, NamedTuple, Sequence

from subtitles.cli.main import make_parser
from subtitles.cli.measure import SilentPrinter
from subtitles.cli.single import (
    OutputFiles, PairOptions, judge_pair, lock_pair, make_verdict, report_pair, stamp_inputs)
from subtitles.common.program import ProgramInfo
from subtitles.judging.pair import PairJudge
from subtitles.judging.status import decide
from subtitles.judging.verdict import Verdict
from subtitles.request.commands import CommandPaths, Listener, OutputNames
from subtitles.request.lines import read_options
from subtitles.request.request import begin_programme_day, make_request
from subtitles.results.files import describe_inputs, make_result_chunks
from .bench import Case
from .streams import Packet, join_packets
from .transmissions import (
    SentPes, join_pes_packets, packets, write_programme, schedule_pages, subtitle_times)

FEW = "there are too few PES packets to measure their interval"  # end of a note


class LineRecorder(SilentPrinter):
    """A printer that records all lines. Lines for standard error begin with `! `."""

    def print_error(self, line: str) -> None:
        self.lines.append(f"! {line}")


class JudgedPair(NamedTuple):
    """A judged pair: what qc printed, its JSON result, and the lines of `check --all`.

    Lines printed on standard error begin with `! `. Printed commands contain only `files`.
    """

    verdict: Verdict
    printed: list[str]
    result: dict[str, Any]
    check_lines: list[str]
    files: set[str | None]

    @property
    def timed_verdict(self) -> str:
        """Return the verdict as if a clock had been given: `accepted` instead of `relative`."""
        return decide(self.verdict.collect_grounds()._replace(has_clock=True)).word

    @property
    def sentence(self) -> str:
        """Return the verdict's sentence without the end that begins with `Not checked:`."""
        return self.verdict.sentence.partition(" Not checked: ")[0]

    def is_timed(self) -> bool:
        """Return whether a clock is known or the printed results need no clock.

        Without a clock, qc must not print `accepted` or `waived`, and status 0 needs --relative.
        """
        request, printed = self.verdict.request, (
            self.verdict.word, self.result["verdict"], self.printed[-1].split(" ")[0])
        return request.has_clock or not {"accepted", "waived", "waived:"} & {*printed} and (
            request.is_relative_allowed or 0 not in (self.verdict.status, self.result["status"]))

    @property
    def stderr(self) -> list[str]:
        """Return the lines printed on standard error."""
        return [line[2:] for line in self.printed if line.startswith("! ")]

    @property
    def notes(self) -> list[str]:
        """Return the notes, and what was not checked, as printed on standard error."""
        return [*self.result["notes"], *self.verdict.list_unchecked_lines()]

    def lines(self, begin: str) -> list[str]:
        """Return the printed lines with the prefix `begin`, without this prefix."""
        return [line[len(begin):] for line in self.printed if line.startswith(begin)]

    def parts(self, *names: str) -> list[tuple[Any, ...]]:
        """Return these members of each part in the JSON result."""
        return [tuple(part[name] for name in names) for part in self.result["parts"]]


def judge_files(case: Case, *args: str, program: str | None = None) -> JudgedPair:
    """Run qc on a pair. Check that the printed commands contain only files of this pair."""
    result = judge_files_with(program or case.bench.program, *args)
    case.must("a clock", result.is_timed(), result.printed)
    for line in result.verdict.commands:
        case.must(line, set(list_shown_files(line)) <= result.files, result.files)
    return result


def judge_files_with(program: str, *args: str) -> JudgedPair:
    """Judge a pair with these arguments for qc and with the given program."""
    recorder = LineRecorder()
    known = read_options(make_parser(""), ["-p", program, *args], {}, {})
    request, command_paths = make_request(known), CommandPaths("tools/qc", program)
    listener = Listener(recorder)
    stamps = stamp_inputs(request)
    verdict = make_verdict(request, listener, Verdict)
    with tempfile.TemporaryDirectory() as folder, lock_pair(known.out, "one"), \
            begin_programme_day(request, folder):
        names = OutputNames("one", folder, known.out)
        names.set_subtitle_file(request.stl_path, request.moved_stl is not None)
        files = OutputFiles(PairOptions(program, known.out, known.is_kept, known.json, known.csv,
                                        known.junit), verdict, command_paths, names, stamps)
        verdict.files_at_start = describe_inputs(request)
        pair = PairJudge(verdict, command_paths, names, listener, True)
        judge_pair(pair, files)
        report_pair(verdict, recorder, files)
        result = json.loads("".join(make_result_chunks(verdict, ProgramInfo("1", "0" * 64, None))))
        listed = [line for part in verdict.parts for line in part.check_output.read_lines()]
        # A recording read from a pipe is listed with the name of its stored copy.
        known_files = {names.moved_stl or request.stl, request.recording, os.devnull}
        if pair.recording:
            known_files.add(pair.recording.display_name)
    return JudgedPair(verdict, recorder.lines, result, listed, known_files)


class ProgrammeCase(Case):
    """A test case with a subtitle file `stl` and its correct transmission (`sent`, `pes`).

    Ten subtitles appear every 100 frames for 60 frames. --origin gives qc the PTS 0 of frame 0.
    """

    cues: Sequence[tuple[int, int]] = subtitle_times(10)  # TCI and TCO of each, in frames
    qc_args: Sequence[str] = ("--origin", "0")
    # Text of each line, number of lines in a subtitle, and first subtitle number.
    text, lines, first = b"Number %d", 1, 1
    origin, every = 0, 25  # PTS of frame 0, and repeat interval in frames

    def setUp(self) -> None:
        super().setUp()
        self.stl = write_programme(self, self.cues, self.lines, self.text, self.first)
        self.sent = schedule_pages(self, self.stl, origin=self.origin, every=self.every)
        self.pes = packets(join_pes_packets(self.sent))

    def judge(self, sent: SentPes, *args: str) -> JudgedPair:
        """Judge the subtitle file with a PES recording of `sent`, `qc_args` and more arguments."""
        return judge_files(self, self.stl, self.write("one.pes", join_pes_packets(sent)),
                           *self.qc_args, *args)

    def judge_stream(self, result: bytes | Iterable[Packet], *args: str) -> JudgedPair:
        """Judge the subtitle file with a transport stream."""
        data = result if isinstance(result, bytes) else join_packets(result)
        return judge_files(self, self.stl, self.write("one.ts", data), *self.qc_args, *args)


def list_shown_files(line: str) -> list[str]:
    words = shlex.split(line)[2:]
    return [word for before, word in zip(["", *words], words) if not word.startswith("-")
            and (not before.startswith("-") or before in ("--all", "--complete"))]
