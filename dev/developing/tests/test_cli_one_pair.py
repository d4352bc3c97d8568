"""Test the last lines, output files and report that qc writes for one pair."""
from __future__ import annotations

import errno
import fcntl
import itertools
import json
import os
import re
import signal
import xml.etree.ElementTree as tree
from typing import Any, Sequence
from unittest import mock

from subtitles.cli import batch, collection, single
from subtitles.cli.single import (
    FilesInUse, KEPT_SECONDS, Output, OutputFiles, PairOptions, judge_pair, lock_folder, lock_pair,
    make_pair_title, now, print_verdict, refuse_outputs, remove_results, report_pair)
from subtitles.cli.state import lock_service
from subtitles.clock.start import (
    Clock, ESTIMATED_LATER_NOTE, ESTIMATED_NOTE, GIVEN, RECORDING, TimedPart)
from subtitles.common.command_line import ProgramInterrupted, Stop, UsageError
from subtitles.common.markup import HEAD
from subtitles.formats.listing import NamedFault
from subtitles.judging.coverage import describe_unchecked
from subtitles.judging.part import Part
from subtitles.judging.status import Severity
from subtitles.judging.verdict import FailedOutput, Gap, Unjudged, Verdict
from subtitles.recording.notices import Notice
from subtitles.report import page as report_page
from subtitles.request.commands import CommandPaths, KEPT_PES, KEPT_TS, OutputNames
from subtitles.request.request import Request, Unclear, IncompleteAnswer
from subtitles.results.files import LATER_CLOCK, NO_CLOCK, Row, describe_inputs
from subtitles.stream.gaps import LossPlace
from .bench import Case, get_example_path
from .judged import LineRecorder
from .parts import make_answer, make_example_request, markup_text, make_part
from .results import capture_output
from .test_formats_files import refusal

REFUSED = ["refused 72 Content frame 00:00:01:00 row 1 column 2", "refused 68 Parity frame "
           "00:00:02:00 packet 1", "2 faults"]


def make_gap(is_judged: bool) -> Gap:
    return Gap("00:00:01:00", "00:00:02:00", "3 TS packets were lost", LossPlace(1, 2, 3),
               is_judged)


class LastLines(Case):
    """The last lines that qc prints about a verdict. Lines for standard error begin with "! "."""

    def verdict(self, parts: Sequence[Part], *args: str, **more: Any) -> Verdict:
        """Return the verdict about 3 subtitles, with --origin 0; `more` sets attributes of it."""
        result = Verdict(make_example_request("one.stl", "one.pes", "--origin", "0", *args),
                         Severity(None, "--allow-lost" in args), "now", subtitle_count=3)
        result.parts = list(parts)
        for name, value in more.items():
            setattr(result, name, value)
        return result

    def print_lines(self, verdict: Verdict, page: str | None = None) -> list[str]:
        recorder = LineRecorder()
        print_verdict(verdict, recorder, page)
        return recorder.lines

    def test_prints_notes_then_the_sentence_then_the_line(self) -> None:
        note, warning, *others = self.print_lines(self.verdict(
            [make_part(0, 9, 0)], notes=["a note"], hints=["a hint"],
            warnings=[Notice("kind", "strange")]))
        self.check("note", note, "! a note")
        self.must("warning", warning.startswith("! ") and "strange" in warning, warning)
        self.check("hint, sentence, line", others, [
            "a hint",
            "Accepted: all 3 subtitles have the right text from the first frame to the last.",
            "accepted 10 frames 2 transmissions"])

    def test_prints_a_line_for_each_part_and_then_their_sum(self) -> None:
        """The clock of the second part was estimated from the recording."""
        lines = self.print_lines(self.verdict([make_part(0, 9, 0), make_part(
            10, 19, 0, number=2, source=RECORDING)]))
        self.check("parts", lines[:2], [
            "part 1, from 00:00:00:00 to 00:00:00:09: accepted 10 frames 2 transmissions",
            "part 2, from 00:00:00:10 to 00:00:00:19: accepted 10 frames 2 transmissions"])
        self.must("note about the clock", ESTIMATED_LATER_NOTE in lines, lines)
        self.check("sum", lines[-1], "accepted 20 frames 4 transmissions in 2 parts")

    def test_an_accepted_part_without_a_clock_is_relative(self) -> None:
        """A refused part stays refused, with a note that its clock was estimated."""
        for output, line, has_note in (
                (["accepted 10 frames 2 transmissions"], "relative 10 frames 2 transmissions",
                 False), (REFUSED, REFUSED[0], True)):
            lines = self.print_lines(self.verdict([make_part(0, 9, 0, make_answer(
                output, path=self.path("list")), source=RECORDING)]))
            self.check(f"{line}: last line, note about the clock", (lines[-1], any(
                item.startswith(ESTIMATED_NOTE) for item in lines)), (line, has_note))

    def test_counts_the_causes_of_all_parts(self) -> None:
        causes: list[Any] = ["first", None, "third"]
        with mock.patch.object(single, "format_cause_counts", lambda several: f"{several}"):
            lines = self.print_lines(self.verdict([
                make_part(0, 9, 0, causes=item) for item in causes]))
        self.check("first line", lines[0], "['first', 'third']")

    def test_names_at_most_twenty_losses(self) -> None:
        place = "! between 00:00:01:00 and 00:00:02:00: 3 TS packets were lost"
        for count, more in ((1, []), (20, []), (21, ["! and at 1 more place"]),
                            (23, ["! and at 3 more places"])):
            lines = self.print_lines(self.verdict([make_part(0, 99, 0)],
                                                  gaps=[make_gap(True)] * count))
            self.check(f"{count} losses", (lines.count(place), [
                line for line in lines[:-2] if "more place" in line]), (min(count, 20), more))

    def test_advises_to_record_again_after_a_loss_in_the_judged_range(self) -> None:
        advice = "! record that part again: the missing frames were not checked"
        accepted, refused = [make_part(0, 99, 0)], [make_part(0, 99, 0, make_answer(REFUSED))]
        for name, parts, options, is_judged, is_advised in (
                ("accepted", accepted, "", True, True), ("refused", refused, "", True, True),
                ("allowed", accepted, "--allow-lost", True, False),
                ("outside", accepted, "", False, False)):
            lines = self.print_lines(self.verdict(parts, *options.split(),
                                                  gaps=[make_gap(is_judged)]))
            self.check(f"{name}: advice", [line for line in lines if "record that part" in line],
                       [advice] * is_advised)
            self.check(f"{name}: loss outside", lines[0].endswith(
                "3 TS packets were lost, outside the judged range"), name == "outside")
            self.check(f"{name}: accepted", lines[-1].startswith("accepted"),
                       name in ("allowed", "outside"))

    ACCEPTED_AND_REFUSED = [make_part(0, 9, 0), make_part(10, 19, 0, make_answer(REFUSED), 2)]

    def test_prints_the_delays_only_if_some_are_allowed(self) -> None:
        """A line precedes the two last lines if --within is not 0 and any delay is known."""
        for delays, within, count in (((0, 3), 1, 3), ((), 1, 2), ((0, 3), 0, 2)):
            lines = self.print_lines(self.verdict([make_part(0, 9, 0, delays=delays)],
                                                  "--within", f"{within}"))
            self.check(f"{delays} --within {within}: lines", len(lines), count)

    def test_the_sentence_names_the_report_or_the_page_about_the_fault(self) -> None:
        accepted = [make_part(0, 9, 0)]
        relative = [make_part(0, 9, 0, make_answer(REFUSED), source=RECORDING)]
        for parts, page, end in (
                (self.ACCEPTED_AND_REFUSED, None, ". See docs/manual/refusals.md#n72."),
                (self.ACCEPTED_AND_REFUSED, "out/one.html", ". See out/one.html."),
                (relative, "relative.html", ". See relative.html."),
                (accepted, "a.html", "."), (accepted, None, ".")):
            verdict = self.verdict(parts, severity=Severity(
                self.write("mild", b"others warning\n") if parts is relative else None))
            self.check(f"{page}", self.print_lines(verdict, page)[-2],
                       verdict.sentence.removesuffix(".") + end)

    def test_prints_why_a_pair_is_not_judged(self) -> None:
        lines = self.print_lines(self.verdict([], unjudged=Unjudged(
            "one\ntwo", "undecided", ("first", "second", "third"))))
        self.check("lines", lines, ["! one", "! two", "! try: first", "! or: second",
                                    "! or: third"])

    def test_prints_how_many_faults_were_found_before_a_stop(self) -> None:
        rows: list[tuple[list[Part], str]] = [
            ([], "nothing was judged so far"),
            ([make_part(0, 9, 0, make_answer(REFUSED))], "2 faults so far")]
        for parts, words in rows:
            lines = self.print_lines(self.verdict(parts, unjudged=Unjudged(
                "stopped at x", "signal", is_stopped=True)))
            self.check(words, lines[-2:], [words, "! not judged: stopped at x"])

    def test_prints_not_judged_after_a_line_of_the_program(self) -> None:
        for last, is_printed in (("accepted 5 frames 2 transmissions", True), ("3 faults", True),
                                 ("+ a command", False), ("", False)):
            recorder = LineRecorder()
            recorder.last_line = last
            print_verdict(self.verdict([], unjudged=Unjudged("why", "undecided")), recorder)
            self.check(last, recorder.lines, ["not judged"] * is_printed + ["! why"])


class OutputFilesOfPair(Case):
    """Output files of the pair `one`, story.stl and an empty recording, which is refused."""

    def setUp(self) -> None:
        super().setUp()
        os.mkdir(self.path("out"))
        self.write("one.pes", b"")

    def files(self, verdict: Verdict, **options: Any) -> OutputFiles:
        known = PairOptions(None, **options)
        names = OutputNames("one", self.folder, known.out)
        return OutputFiles(known, verdict, CommandPaths("tools/qc", self.bench.program), names)

    def part(self, number: int = 1, lines: Sequence[str] = REFUSED) -> Part:
        names = OutputNames("a", self.folder, self.folder)
        names.program_stl = get_example_path("story.stl")
        output = make_answer(lines, 1, self.path(f"list{number}"))
        return make_part(0, 9, 0, output, number, names=names)

    def verdict(self, lines: Sequence[str] = REFUSED) -> Verdict:
        result = Verdict(make_example_request(get_example_path("story.stl"), self.path("one.pes")),
                         Severity(None), now())
        result.files_at_start = describe_inputs(result.request)
        result.parts = [self.part(1, lines)]
        return result

    def refusal(self, request: Request, **options: Any) -> str:
        """Return the message if qc refuses the paths of its outputs, or an empty string."""
        known = PairOptions(None, **options)
        return refusal(lambda: refuse_outputs(known, request, options.get("out"), "one"))

    def test_removes_the_earlier_results_of_this_pair_only(self) -> None:
        others = {"two.json", "one~2.json", "onex.1.txt", "one.0.txt", "one.1.json", "one.x.txt"}
        for name in ("one.json", "one.html", "one.txt", "one.1.html", "one.12.txt", *others):
            self.write(f"out/{name}", b"")
        os.symlink("nowhere", self.path("out/one.3.txt"))
        remove_results(self.path("out"), "one")
        self.check("left", {*os.listdir(self.path("out"))}, others)

    def test_never_writes_a_file_of_the_pair_over_an_input(self) -> None:
        for name in ("one.cut.pes", "one.recording.pes", "one.json", "one.2.txt", ".one.lock"):
            for role in ("stl", "recording", "severity"):
                request, path = self.verdict().request, self.write(f"out/{name}", b"")
                setattr(request, role, path)
                self.must(f"{name} as {role}", "is also an input: give another name" in
                          self.refusal(request, out=self.path("out")))
                os.unlink(path)
        self.check("a new file", self.refusal(self.verdict().request, json=self.path("new.json")),
                   "")

    def test_refuses_to_replace_files_that_are_no_results(self) -> None:
        request, out = self.verdict().request, self.path("out")
        page, like = HEAD.page(), b'<!DOCTYPE html>\n<html lang="en"><head><meta charset="UTF-8">'
        rows: list[tuple[str, bytes, bool]] = [  # name, contents, and whether qc wrote the file
            ("one.json", b'{\n "format": 3,\n "verdict": "accepted",', True),
            ("one.json", b'{"format": 2, "verdict": "refused"', True), ("one.json", b"{}", False),
            ("one.json", b' {"format": 3, "verdict": "accepted"', False),
            ("one.txt", b"5 faults\n", False), ("one.txt", b"refused by me", False),
            ("one.txt", b"refused 68 Parity frame 00:00:01:00 packet 9\n1 faults\n", True),
            ("one.1.txt", b"a note", False), ("one.12.html", b"<p>a page</p>", False),
            ("one.html", page + b"<title>accepted 5 frames &#8211; a", True),
            ("one.html", like + b"<title>not judged: &#8211; mine", False), ("one.json", b"", True),
            ("one.html", page[:-1], False), (".one.lock", b"", True),
            (".one.lock", b"1", False), ("one.recording.ts", b"", False)]
        for name, data, is_own in rows:
            path = self.write(f"out/{name}", data)
            message = self.refusal(request, out=out)
            self.must(f"{name} {data!r}", bool(message) != is_own and (is_own or message.startswith(
                f"{path} exists and was not written by")), message)
            self.check(f"{name} {data!r}: contents", self.read(f"out/{name}"), data)
            os.unlink(path)
            os.symlink(self.path("one.pes"), path)
            self.check(f"{name}: a link", self.refusal(request, out=out), "")
            os.unlink(path)
            for make in (os.mkdir, os.mkfifo):
                make(path)
                self.must(f"{name}: {make}", "was not written by" in self.refusal(request, out=out))
                os.rmdir(path) if make is os.mkdir else os.unlink(path)

    def test_replaces_a_recording_that_was_kept_with_a_result(self) -> None:
        """qc keeps the recording of a pipe up to KEPT_SECONDS before it writes the result."""
        result = self.write("out/one.json", b'{\n "format": 3,\n "verdict": "accepted",')
        at = 1_700_000_000 * 10**9
        os.utime(result, ns=(at, at))
        for ending, (before, is_own) in itertools.product((KEPT_PES, KEPT_TS), (
                (0, True), (1, True), (KEPT_SECONDS * 10**9 - 1, True),
                (KEPT_SECONDS * 10**9, False), (-1, False))):
            recording = self.write(f"out/one.{ending}", b"")
            os.utime(recording, ns=(at - before, at - before))
            self.check(f"{ending}, {before} ns before the result", self.refusal(
                self.verdict().request, out=self.path("out")) == "", is_own)
            os.unlink(recording)

    def test_acquires_a_free_lock_and_deletes_it(self) -> None:
        """A link in the place of the lock is replaced. A lock that is deleted is acquired again."""
        path, target, calls = self.path("out/.one.lock"), self.write("target", b"1"), list[int]()

        def delete_first_lock(handle: int, _: int) -> None:
            calls.append(handle)
            if len(calls) == 1:
                os.unlink(path)

        rows: list[tuple[object, int]] = [
            (fcntl.flock, 1), (delete_first_lock, 2), (OSError(errno.ENOLCK, "none"), 1)]
        for does, count in rows:
            os.symlink(target, path)
            before = os.listdir("/proc/self/fd")
            with mock.patch("fcntl.flock", side_effect=does) as flock, \
                    lock_pair(self.path("out"), "one"):
                self.must(f"{does}: a lock", os.path.isfile(path) and not os.path.islink(path))
                self.check(f"{does}: calls of flock", flock.call_count, count)
            self.check(f"{does}: open files, files, target", (
                os.listdir("/proc/self/fd"), os.listdir(self.path("out")), self.read("target")),
                (before, [], b"1"))

    def test_refuses_a_lock_that_is_in_use(self) -> None:
        with lock_pair(self.path("out"), "one"):
            before = os.listdir("/proc/self/fd")
            for _ in range(2):
                self.assertRaises(FilesInUse, lock_pair(self.path("out"), "one").__enter__)
            self.check("open files", os.listdir("/proc/self/fd"), before)
            os.unlink(self.path("out/.one.lock"))  # another process replaces the lock
            self.write("out/.one.lock", b"another one's")
        self.check("another one's lock is left", os.listdir(self.path("out")), [".one.lock"])

    def test_refuses_a_folder_into_which_a_batch_is_judged(self) -> None:
        """A service may write its results there meanwhile."""
        with lock_service(self.path("out")), lock_folder(self.path("out")), self.assertRaisesRegex(
                FilesInUse, f"^another run of qc is judging a batch into {self.path('out')}$"):
            lock_folder(self.path("out")).__enter__()

    def test_hashes_the_inputs_only_if_an_output_needs_it(self) -> None:
        rows: list[tuple[dict[str, str], bool]] = [
            ({}, False), ({"json": "x"}, True), ({"csv": "x"}, True), ({"junit": "x"}, False),
            ({"out": self.path("out")}, True)]
        for options, expected in rows:
            self.check(f"{options}", self.files(self.verdict(), **options).needs_sums(), expected)

    def test_the_report_numbers_the_parts_if_there_are_several(self) -> None:
        verdict, pages = self.verdict(), list[bytes]()
        for parts in (verdict.parts, [*verdict.parts, self.part(2)]):
            verdict.parts = parts
            self.files(verdict, out=self.path("out")).write()
            pages.append(self.read("out/one.html"))
        self.check("part 1", [b"part 1" in page for page in pages], [False, True])
        self.must("part 2", b"part 2" in pages[1])

    def test_reports_a_failed_output_in_all_others(self) -> None:
        """One of three outputs is in a missing folder or on a full device. JSON is written last."""
        for name, nowhere in itertools.product(("csv", "junit", "json"), (
                self.path("no/where"), *["/dev/full"] * os.path.exists("/dev/full"))):
            outputs = {item: self.path(f"{name}.{item}") for item in ("csv", "junit", "json")}
            outputs[name] = nowhere
            files = self.files(self.verdict(), **outputs, out=self.path("out"))
            files.write()
            [failed] = files.verdict.failed_outputs
            self.must(name, nowhere in failed.reason, failed)
            self.check(f"{name}: JSON", json.loads(self.read("out/one.json"))["verdict"],
                       "not judged")
            if name != "csv":
                self.must(f"{name}: CSV", b"not judged" in self.read(f"{name}.csv"))
            if name != "junit":
                self.must(f"{name}: JUnit", b"<error" in self.read(f"{name}.junit"))

    def test_writes_a_pipe_last(self) -> None:
        """The CSV file is a pipe, which gets the reason of a JUnit file that fails."""
        pipe = self.path("pipe")
        os.mkfifo(pipe)
        reader = os.open(pipe, os.O_RDONLY | os.O_NONBLOCK)
        files = self.files(self.verdict(), csv=pipe, junit=self.path("no/where"))
        files.write()
        text = os.read(reader, 1 << 16).decode()
        os.close(reader)
        self.must("not judged", "not judged" in text, text)
        self.check("tables in the pipe", text.count("stl,recording"), 1)

    def test_writes_the_reason_if_a_result_cannot_be_made(self) -> None:
        def fail() -> Any:
            raise ValueError("wrong")

        for kind, is_written in (("is_json", True), ("", False), ("is_raw", False)):
            files, path = self.files(self.verdict()), self.path(f"{kind}.json")
            output = Output(path, fail, is_json=kind == "is_json", is_raw=kind == "is_raw")
            self.check(f"{kind}: result, file, status", (
                files.try_to_write(output), os.path.exists(path), files.verdict.status),
                (False, is_written, 70))
            self.must(f"{kind}: reason", "wrong" in files.verdict.failed_outputs[0].reason)
        self.must("reason in the file", "wrong" in json.loads(self.read("is_json.json"))["reason"])

    def test_writes_the_first_hundred_lines_of_the_lists_of_all_parts(self) -> None:
        faults = [f"refused 68 Parity frame 00:00:01:00 packet {at}" for at in range(70)]
        verdict = self.verdict([*faults, "70 faults"])
        verdict.parts += [make_part(0, 9, 0), self.part(2, [*faults, "70 faults"])]
        self.check("lines", self.files(verdict).list_lines(), [*faults, "70 faults", *faults[:29]])

    def test_the_junit_file_of_a_pair_has_its_time_and_faults(self) -> None:
        """The worst fault is the second."""
        lines = [REFUSED[1], REFUSED[0], REFUSED[2]]
        verdict = self.verdict(lines)
        verdict.seconds = 1.5
        self.files(verdict, junit=self.path("one.xml")).write()
        case = tree.fromstring(self.read("one.xml"))[0][0]
        self.check("time, lines", (case.get("time"), (case[0].text or "").split("\n")), (
            "1.500", [verdict.sentence, REFUSED[0], *lines]))

    def test_the_title_of_a_pair_is_its_files(self) -> None:
        for recording, title in ((None, "a.stl"), ("b.ts", "a.stl b.ts")):
            self.check(title, make_pair_title(make_example_request("a.stl", recording)), title)

    def test_is_not_judged_if_the_verdict_cannot_be_printed(self) -> None:
        """The JSON file already has status 1, and is written again with status 2."""
        for reason in (OSError(28, "No space left on device"), KeyboardInterrupt()):
            verdict, recorder = self.verdict(), LineRecorder()
            files = self.files(verdict, json=self.path("one.json"))
            files.write()
            self.check("before", json.loads(self.read("one.json"))["status"], 1)
            with capture_output(), mock.patch.object(single, "ignore_signals"), \
                    mock.patch.object(single, "discard_output"), mock.patch.object(
                        recorder, "print_line", side_effect=[reason, *[None] * 9]):
                report_pair(verdict, recorder, files)
            self.check(f"{reason!r}: statuses", (json.loads(self.read("one.json"))["status"],
                                                 verdict.status), (2, 2))

    def test_writes_the_outputs_again_if_a_signal_interrupts_that(self) -> None:
        pair, files = mock.Mock(verdict=self.verdict()), self.files(self.verdict())
        with mock.patch.object(single, "ignore_signals"), mock.patch.object(
                files, "write", side_effect=[KeyboardInterrupt(), None]) as write:
            judge_pair(pair, files)
        self.check("status, calls", (pair.verdict.status, write.call_count), (2, 2))

    def test_each_error_ends_as_final_or_not(self) -> None:
        # The error, whether judging again would give the same, its kind, and the exit status.
        rows: list[tuple[BaseException | None, bool, str | None, int]] = [
            (None, True, None, 1), (Unclear("a", "b"), True, "undecided", 2),
            (IncompleteAnswer("a", -signal.SIGKILL), False, "signal", 2),
            (IncompleteAnswer("a", -signal.SIGSEGV), False, "bug", 70),
            (IncompleteAnswer("a", 0), False, "bug", 70),
            (IncompleteAnswer("a", 2), False, "resource", 2),
            (Stop("a"), True, "input", 2), (UsageError("a"), True, "usage", 64),
            (ProgramInterrupted("a", -signal.SIGTERM), False, "signal", 2),
            (ProgramInterrupted("a", -signal.SIGABRT), False, "bug", 70),
            (FilesInUse("a"), True, "resource", 2),
            (OSError(5, "a"), False, "resource", 2), (FileNotFoundError(2, "a"), False, "input", 2),
            (MemoryError(), False, "resource", 2), (KeyError("a"), True, "bug", 70),
            (RecursionError(), True, "bug", 70), (KeyboardInterrupt(), False, "signal", 2)]
        for reason, is_final, kind, status in rows:
            verdict = self.verdict()
            pair = mock.Mock(verdict=verdict, **{"judge.side_effect": reason})
            with mock.patch.object(single, "ignore_signals"):
                judge_pair(pair, mock.Mock())
            is_stopped = isinstance(reason, KeyboardInterrupt)
            self.check(f"{reason!r}", (verdict.is_final, verdict.is_stopped,
                                       verdict.not_judged_kind, verdict.status),
                       (is_final, is_stopped, kind, status))
        verdict.unjudged, verdict.failed_outputs = None, [FailedOutput("an output", "resource")]
        self.must("a failed output is not final", not verdict.is_final)

    def test_a_bug_in_a_forked_call_leaves_a_result(self) -> None:
        request = make_example_request(get_example_path("hello.stl"), get_example_path("hello.pes"))
        with mock.patch.object(batch, "judge_and_report", side_effect=ZeroDivisionError("odd")), \
                capture_output():
            status = batch.judge_forked_pair(request, PairOptions(
                self.bench.program, json=self.path("one.json"), name="one"))
        known = json.loads(self.read("one.json"))
        self.check("statuses, kind", (status, known["status"], known["not_judged_kind"]),
                   (70, 70, "bug"))
        self.must("reason", "odd" in known["reason"], known)


class Pages(Case):
    """Reports on one pair, and the index page of several pairs."""

    def verdict(self) -> Verdict:
        """Return the verdict about three parts, of which the second has two faults."""
        verdict = Verdict(make_example_request(get_example_path("story.stl"), "one.pes"),
                          Severity(None), "2026-01-02T03:04:05Z")
        verdict.parts = [make_part(0, 9, 7), make_part(50, 99, 9, make_answer(REFUSED), 2),
                         make_part(120, 149, 7, number=3)]
        for part in verdict.parts:
            part.names.program_stl = get_example_path("story.stl")
        return verdict

    def test_names_the_clock_and_delay_of_a_part(self) -> None:
        for delay, text in ((0, "Clock given: --origin 7."),
                            (2, "Clock given: --origin 7. All 2 frames late."),
                            (-1, "Clock given: --origin 7. All 1 frame early.")):
            part = make_part(0, 9, 7, alignment=TimedPart(0, 9, Clock(7, GIVEN, delay)))
            table = markup_text(report_page.make_parts_table([part]))
            self.must(text, f'<td data-name="Clock">{text}</td>' in table, table)

    def test_links_a_row_to_each_part(self) -> None:
        table = markup_text(report_page.make_parts_table(self.verdict().parts))
        for number in (1, 2, 3):
            self.check(f"part {number}", table.count(
                f'<a href="#part{number}">part {number}</a>'), 1)
        self.check("fault counts", re.findall(r'<td data-name="Faults">(\d)</td>', table),
                   ["0", "2", "0"])

    def test_lists_losses_and_packets_outside_the_judged_range_as_unchecked(self) -> None:
        verdict = self.verdict()
        for gaps, count in (([make_gap(True), make_gap(False)], 1), ([make_gap(True)], 0)):
            verdict.gaps = gaps
            self.check(f"{gaps}", "".join(describe_unchecked(verdict)).count(
                "3 TS packets were lost, outside"), count)
        # The judged PES packets of each part, and what was not checked of a recording with nine,
        # besides two checks that are not made
        first, last = "row 0, the header line of the page", ", before and after the subtitles"
        for ranges, expected in (
                (((2, 4),), (first, f"6 PES packets of 9{last}")), (((0, 8),), (first,)),
                (((0, 4), (6, 8)), ("the transmission between the parts", first,
                                    f"1 PES packet of 9{last}"))):
            verdict.parts = [make_part(0, 9, 7, packets=mock.MagicMock(count=9), pes=pes)
                             for pes in ranges]
            self.check(f"PES packets {ranges}", [*describe_unchecked(verdict)][2:],
                       [*expected])

    def test_names_the_programme_and_its_range(self) -> None:
        """The second subtitle file was read from a pipe, and stored."""
        verdict = self.verdict()
        scope = markup_text(report_page.make_scope_section(verdict))
        self.must("range", "00:00:00:00 to 00:00:05:24, " in scope and "Programme" in scope, scope)
        verdict.request = make_example_request("piped.stl", "one.pes")
        verdict.request.kept_stl = get_example_path("story.stl")
        scope = markup_text(report_page.make_scope_section(verdict))
        self.must("a pipe", "Programme" in scope and "piped.stl" in scope, scope)

    def test_lists_waived_faults(self) -> None:
        verdict = self.verdict()
        verdict.named_faults = [NamedFault("never sent", "a"), NamedFault("not shown", "b")]
        verdict.severity.severity_by_fault = {"not shown": "warning"}
        self.check("waived", [*report_page.list_waived(verdict)], ["not shown: b"])

    def test_has_a_page_without_a_table_of_parts_if_not_judged(self) -> None:
        paths, verdict = CommandPaths("tools/qc", self.bench.program), self.verdict()
        row = '<td data-name="Clock">'
        page = markup_text(report_page.make_report_page(verdict, paths))
        self.check("parts of the judged pair", page.count(row), 3)
        verdict.unjudged = Unjudged("no clock <\nnone", "undecided", ("tools/qc a b --origin T",))
        verdict.notes, verdict.warnings = ["a note"], [Notice("kind", "strange")]
        page = markup_text(report_page.make_report_page(verdict, paths))
        for words in ("Not judged: no clock &lt;", "<p>none</p>", "a note", "strange",
                      'Type <code class="long">tools/qc a b --origin T</code>',
                      '<dt>Recording</dt><dd>one.pes</dd>', 'id="files"', "<dd>Story</dd>"):
            self.must(words, words in page, page)
        self.check("parts", page.count(row), 0)

    def make_pair(self, name: str, verdict: str, status: int, line: str, faults: int = 0,
                  causes: int = 0, hint: str = "") -> Row:
        return Row(name, f"{name}.stl", verdict, status, line, faults, {
            f"cause {at}": at for at in range(causes)}, [], 0.0, hint)

    def make_pairs(self) -> list[Row]:
        return [self.make_pair("a", "accepted", 0, "accepted 5"),
                self.make_pair("b", "not judged", 2, "why\nmore\nand\nfour"),
                self.make_pair("c", "waived", 0, "waived: x", 1, 1),
                self.make_pair("d<", "refused", 1, "refused 72", 9, 7, "a hint"),
                self.make_pair("e", "lost", 1, "not accepted")]

    def make_index(self, rows: list[Row]) -> str:
        return collection.make_index_page(self.folder, rows, "now").decode()

    def test_the_index_lists_refused_pairs_first(self) -> None:
        pairs = sorted(self.make_pairs(), key=collection.make_sort_key)
        self.check("order", [pair.name for pair in pairs], ["d<", "e", "b", "c", "a"])

    def test_the_index_counts_verdicts_and_causes(self) -> None:
        page = self.make_index(self.make_pairs())
        self.check("title and heading", page.count(
            "5 pairs: 1 accepted, 1 lost, 1 not judged, 1 refused, 1 waived"), 2)
        self.must("cause 6", "<b>6</b> cause 6 in 1 pair; " in page, page)

    def test_the_index_lists_only_the_worst_pairs_of_many(self) -> None:
        for limit, is_limited in ((2, True), (5, False)):
            with mock.patch.object(collection, "MAX_PAGE_PAIRS", limit):
                page = self.make_index(self.make_pairs())
            self.check(f"{limit} pairs", (
                "only the worst 2 of 5 pairs" in page, page.count('<td class="verdict">'),
                "refused 72" in page, "waived: x" in page),
                (is_limited, limit, True, not is_limited))

    def test_the_index_counts_pairs_without_a_clock(self) -> None:
        page = self.make_index([self.make_pairs()[0]._replace(clock=clock)
                                for clock in (NO_CLOCK, LATER_CLOCK, "")])
        self.must("count", ">No clock was given: 1 of 3 pairs." in page, page)

    def make_rows(self) -> dict[str, str]:
        """Return the HTML table row of each pair. `a` has two files, and `b` two others."""
        for name in ("a.html", "a.json", "b.json", "b.txt"):
            self.write(name, b"")
        return {pair.name: collection.make_pair_row(self.folder, pair).source
                for pair in self.make_pairs()}

    def test_a_row_of_the_index_links_its_files(self) -> None:
        rows = self.make_rows()
        self.check("links", [rows[name].count("<a ") for name in "abc"], [2, 2, 0])
        self.must("report", 'href="./a.html">a</a>' in rows["a"], rows["a"])
        self.must("list", ">list</a>" in rows["b"], rows["b"])

    def test_a_row_of_the_index_has_name_reason_faults_and_six_causes(self) -> None:
        rows = self.make_rows()
        for name, texts in {"b": ("why", 'class="not-judged"'), "c": ("1 fault</b><br/>",),
                            "d<": ("d&lt;", "refused 72", "9 faults</b><br/>")}.items():
            self.must(name, all(text in rows[name] for text in texts), rows[name])
        self.must("no faults", "fault" not in rows["b"] and "faults" not in rows["e"], rows)
        rows["f"] = collection.make_pair_row(self.folder, self.make_pair(
            "f", "refused", 1, "refused 72", 9, causes=6)).source
        self.check("causes, and more", [(rows[name].count("&times;"), "&hellip;" in rows[name])
                                        for name in ("c", "f", "d<")],
                   [(1, False), (6, False), (6, True)])

    def test_the_worst_fault_of_a_relative_pair_may_be_the_missing_clock(self) -> None:
        for count, line in ((0, "no clock was given"), (1, "72 a")):
            pair = self.make_pair("g", "relative", 3, "72 a", count)
            self.check(f"{count} faults", collection.worst_fault(pair), line)
