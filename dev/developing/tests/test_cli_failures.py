"""Test runs of qc that fail: they return 2, and print and store the reason."""
from __future__ import annotations

import csv
import itertools
import json
import os
import signal
import subprocess
import sys
import xml.etree.ElementTree as tree
from typing import Any, NamedTuple, Sequence
from unittest import mock

from subtitles.cli.main import main
from subtitles.cli.single import SIGNALS
from subtitles.common.command_line import run
from subtitles.common.program import TOP
from subtitles.formats.stl import read_stl
from .bench import Case, get_example_path, get_tool_path
from .judged import FEW
from .stories import read_vectors

QC = get_tool_path("qc")
HELLO = [get_example_path("hello.stl"), get_example_path("hello.pes")]
ACCEPTED = "accepted 51 frames 2 transmissions"
# A script in place of subttx. The command `check`, which decides about a pair, runs {alone} for a
# subtitle file without a recording and {said} for a recording. Other commands are those of subttx.
PROGRAM = r"""#!/bin/sh
case "$*" in
    show*) printf '%s\n' '00001 10:00:00:00 10:00:02:00 vp 22 jc 2 text 0d0b0b48690a0a' \
        '1 subtitles' ;;
    survey* | schedule* | packets*) exec '{program}' "$@" ;;
    *' /dev/null') {alone} ;;
    *) {said} ;;
esac
"""
EMPTY = ["refused 60 Empty", "1 faults"]  # the answer for a valid subtitle file alone
# How `check` ends, and the exit status of qc if this is not the valid end (70: a bug of subttx).
INVALID_ENDS = {"exit 0": 70, "exit 1": 70, "exit 2": 2, "kill -9 $$": 2, "kill -11 $$": 70}


class EndedCall(NamedTuple):
    """The exit status, output and error output of qc, without the note that ends with FEW."""

    status: int
    printed: list[str]
    errors: list[str]


class CallCase(Case):
    """A test case that runs qc in this process."""

    def text(self, name: str) -> str:
        return self.read(name).decode()

    def object(self, name: str = "one.json") -> Any:
        return json.loads(self.read(name))

    def fake_program(self, *lines: str, then: str = "exit 0", alone: Sequence[str] = EMPTY,
                     then_alone: str = "exit 1") -> str:
        """Write a fake subttx that prints `lines` for a recording and `alone` for a file alone."""
        text = PROGRAM.replace("{program}", self.bench.program)
        for place, some, end in (("{said}", lines, then), ("{alone}", alone, then_alone)):
            quoted = " ".join(f"'{line}'" for line in some)
            text = text.replace(place, f"printf '%s\\n' {quoted}; {end}" if some else end)
        return self.write_program("program", text)

    def qc(self, *args: str) -> EndedCall:
        before = os.getcwd()
        received = [(item, signal.getsignal(item)) for item in SIGNALS]
        os.chdir(self.folder)
        try:
            # Output files named `-` are written to the file descriptor of standard output.
            with open("out.txt", "w", encoding="utf-8") as out, \
                    open("told.txt", "w", encoding="utf-8") as errors, \
                    mock.patch.multiple(sys, stdout=out, stderr=errors, argv=[QC, *args]), \
                    self.assertRaises(SystemExit) as ended:
                run(lambda line: main("", QC, line))
            return EndedCall(int(ended.exception.code or 0), self.text("out.txt").splitlines(), [
                line for line in self.text("told.txt").splitlines() if not line.endswith(FEW)])
        finally:
            os.chdir(before)
            for item, handler in received:  # qc ignores signals while it exits
                signal.signal(item, handler)

    def judge(self, program: str, *args: str) -> EndedCall:
        return self.qc(*HELLO, "--origin", "0", "-p", program, *args)


class Programs(CallCase):
    """Runs of qc with a program that prints invalid answers or fails."""

    def test_judges_only_by_a_valid_answer_of_check(self) -> None:
        for row, end in itertools.product(read_vectors("check-ends.tsv"), INVALID_ENDS):
            name, lines = row["name"], json.loads(row["output"])
            alone = self.fake_program(alone=lines, then_alone=end, then="exit 9")
            status = INVALID_ENDS[end] if end != row["alone"] else 0 if lines == EMPTY else 1
            self.check_judged(f"{name}, {end}, alone", status, self.qc(
                HELLO[0], "--file-only", "-p", alone, "--json", "one.json"))
            if end != row["alone"]:
                self.check_judged(f"{name}, {end}, with a recording", INVALID_ENDS[end],
                                  self.judge(alone, "--json", "one.json"))
            status = INVALID_ENDS[end] if end != row["pair"] else 0 if end == "exit 0" else 1
            self.check_judged(f"{name}, {end}", status, self.judge(
                self.fake_program(*lines, then=end), "--json", "one.json"))

    def check_judged(self, name: str, status: int, ended: EndedCall) -> None:
        """Check the status in one.json too, and with 2 or 70 that the pair is not judged."""
        known = self.object()
        with self.subTest(name):
            self.assertEqual((ended.status, known["status"], known["line"] is None),
                             (status, status, status in (2, 70)), ended)
            if status in (2, 70):
                self.assertEqual(known["verdict"], "not judged")
                self.assertTrue(known["reason"].startswith("check gave no verdict: "), ended)
                self.assertEqual(ended.errors, [f"qc: {known['reason']}"])

    def test_judges_only_if_each_call_of_the_program_succeeds(self) -> None:
        """The program runs `does` in place of the calls that match the shell pattern `when`."""
        for when, several in (
                ("check*null", ("exit 0", "kill -9 $$")), ("show*", ("exit 0", "exit 1",
                                                                     "kill -9 $$")),
                ("packets*", ("exit 0", "exit 1", "kill -9 $$",
                              f"'{self.bench.program}' \"$@\" | head -n 9; exit 0")),
                ("survey*", ("exit 0", "exit 1", "kill -9 $$",
                             "echo survey 2; echo over 0 0; exit 0",
                             f"'{self.bench.program}' \"$@\" | head -n 9; exit 0",
                             f"'{self.bench.program}' \"$@\"; exit 1",
                             f"'{self.bench.program}' \"$@\"; kill -9 $$"))):
            for does in several:
                program = self.make_program_with_exception(when, does)
                with self.subTest(when=when, does=does):
                    self.write("one.json", b"{")  # qc must replace this earlier result
                    process = self.qc(get_example_path("story.stl"),
                                      get_example_path("recording.ts"), "-p", program, "--json",
                                      "one.json")
                    known = self.object()
                    self.assertEqual((process.status, known["status"], known["verdict"],
                                      known.get("line")),
                                     (*[2 if "kill -9" in does else 70] * 2, "not judged", None),
                                     process)
                    self.assertTrue(known["reason"] and process.errors and not any(
                        line.startswith("accepted") for line in process.printed[-1:]), process)
                    self.assertTrue(
                        all(line.startswith("qc: ") for line in process.errors), process)

    def test_never_prints_accepted_without_a_clock(self) -> None:
        """`check` prints "accepted", but no option gives a clock: the pair is relative."""
        self.write("profile", b"--relative\n")
        program, line = self.fake_program(ACCEPTED), "relative 51 frames 2 transmissions"
        for words, status in (((), 3), (("--relative",), 0), (("--profile", "profile"), 0),
                              (("--strict",), 3), (("--strict", "--relative"), 0)):
            process = self.qc(*HELLO, "-p", program, *words, "--quiet", "--json", "one.json",
                              "--csv", "one.csv", "--junit", "one.xml", "-o", "out")
            known, last = self.object(), line + "; the profile has --relative" * (
                "--profile" in words) + "; not checked: no_video, losses, clock"
            self.assertEqual((process.status, len(process.printed), process.printed[-1]),
                             (status, 2, last), status)
            self.assertEqual([known[name] for name in (
                "verdict", "status", "line", "worst_fault")], ["relative", status, last, None])
            self.assertEqual(known["sentence"], process.printed[0], status)
            self.assertIn("No clock was given, so its delay was not checked", process.printed[0],
                          status)
            rows = list(csv.DictReader(self.text("one.csv").splitlines()))
            self.assertEqual((rows[0]["verdict"], rows[0]["reason"]), (
                "relative", known["sentence"]), status)
            case = tree.fromstring(self.read("one.xml"))[0][0]
            self.assertEqual([item.tag for item in case], ["failure" if status else "system-out"],
                             status)
            self.assertIn(known["sentence"], case[0].text or "", status)
            self.assertNotIn("ccepted", self.text("one.csv") + self.text("one.xml"), status)
            self.assertIn(f"<dd>{last}</dd>", self.text("out/hello.html"), status)

    def test_the_junit_file_of_an_accepted_pair_names_unmade_checks(self) -> None:
        self.judge(self.fake_program(ACCEPTED), "--junit", "one.xml")
        self.assertIn("Not checked: ", tree.fromstring(self.read("one.xml"))[0][0][0].text or "")

    def test_options_that_change_nothing_with_a_clock(self) -> None:
        program = self.fake_program(ACCEPTED)
        self.assertEqual(self.judge(program, "--strict").status, 0)
        self.assertEqual(self.judge(program, "--relative").printed, self.judge(program).printed)


class UsageErrors(CallCase):
    def test_never_overwrites_an_input(self) -> None:
        program = self.fake_program(ACCEPTED)
        os.mkdir(self.path("in"))
        for name, data in (("list", f"{HELLO[0]} {self.path('in/one.pes')}\n".encode()),
                           ("in/one.stl", read_stl(HELLO[0])), ("severity", b"67 warning\n"),
                           ("in/one.pes", read_stl(HELLO[1]))):
            self.write(name, data)
        pair = ["in/one.stl", "in/one.pes", "--severity", "severity", "--origin", "0"]
        self.assertEqual(self.qc(*pair, "-p", program, "--json", "in/one.json").status, 0)
        os.symlink("severity", self.path("link"))
        batch = ["--severity", "severity", "--batch"]
        calls = [(pair, ["in/one.stl", "in/one.pes", "severity", "link"]),
                 ([*batch, "list"], ["list", "in/one.pes", "severity", "link"]),
                 ([*batch, "in"], ["in/one.stl", "in/one.pes", "severity"]),
                 (["--collect", "in"], ["in/one.json"])]
        for words, names in calls:
            for option, name in itertools.product(("--json", "--csv", "--junit"), names):
                before = self.read(name)
                more = [] if "--collect" in words else ["-p", program]
                process = self.qc(*words, option, name, *more)
                self.assertEqual((process.status, process.errors, self.read(name)), (2, [
                    f"qc: {name} is also an input: give another name"], before), (words, option))


class Bugs(CallCase):
    """Errors of the tools themselves: status 70, or 2 before the tool can start."""

    def test_reports_a_bug_in_each_step(self) -> None:
        for place in ("judging.pair.PairJudge.judge", "judging.pair.check_file_alone",
                      "judging.timing.estimate_origin", "judging.pair.explain_part",
                      "judging.part.Part.is_read", "judging.check.CheckOutput.read_line",
                      "cli.main.make_parser", "cli.single.make_request",
                      "cli.single.CommandPaths", "cli.single.describe_inputs",
                      "results.files.make_list_chunks", "cli.single.describe_program"):
            self.write("one.json", b"")
            with mock.patch(f"subtitles.{place}", side_effect=ValueError("odd")):
                process = self.judge(self.fake_program(ACCEPTED), "--json", "one.json")
            known = self.object()
            self.check(f"{place}: statuses", (process.status, known["status"]), (70, 70))
            self.check(f"{place}: verdict, line, kind", (
                known["verdict"], known.get("line"), known["not_judged_kind"]),
                ("not judged", None, "bug"))
            self.check(f"{place}: message", process.errors, [f"qc: {known['reason']}"])
            self.must(f"{place}: reason", "odd" in known["reason"], known)

    def test_has_status_2_if_a_module_cannot_be_imported(self) -> None:
        for ending, count in (("", 1), ("2>&-", 0), ("2>/dev/full", 0)):
            process = subprocess.run(
                ["sh", "-c", f'exec "$0" "$@" {ending}', sys.executable, "-c",
                 "import sys; sys.path.insert(0, sys.argv[1]); import subtitles; "
                 "import subtitles.common.nothing", os.path.join(TOP, "tools")],
                capture_output=True, encoding="utf-8", check=False)
            self.assertEqual((process.returncode, len(process.stderr.splitlines())), (2, count),
                             process)
