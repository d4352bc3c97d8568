"""Test batches of tools/qc: pairs in a folder or list, each judged in its own process."""
from __future__ import annotations

import argparse
import itertools
import json
import os
import resource
import shutil
import signal
import subprocess
import sys
import time
from typing import Any, Callable
from unittest import mock

from subtitles.cli import batch
from subtitles.cli.batch import (
    ForkedProcess, PairRunner, hold_signals, judge_items, read_resumed_rows, wait_for_any)
from subtitles.cli.collection import format_progress
from subtitles.cli.single import PairOptions
from subtitles.common import files
from subtitles.common.command_line import Stop
from subtitles.common.program import describe_program
from subtitles.judging.status import RELATIVE, STATUSES, VALID, WAIVED
from subtitles.request.commands import CommandPaths
from subtitles.request.lines import (
    BatchItem, collect_inputs, find_path_problem, find_subtitle_files, read_line_pair, read_pairs)
from subtitles.request.request import Request
from subtitles.results.files import (
    Row, describe_inputs, make_unjudged, read_result, write_result_file)
from subtitles.results.schema import PROGRAM, REQUEST
from .bench import Case, SECONDS, get_example_path
from .parts import make_example_request, list_call_arguments, make_default_options, run_qc
from .programmes import wait_until
from .results import capture_output, make_result, make_table_row
from .stories import read_vectors
from .test_formats_files import refusal


class Lists(Case):
    """Lists of pairs and folders that `qc --batch` reads. Files and folders are empty."""

    def setUp(self) -> None:
        super().setUp()
        for name in ("one.stl", "one.ts", "two.stl", "x.stl"):
            self.write(name, b"")
        os.mkdir(self.path("folder"))
        os.mkfifo(self.path("pipe"))

    def test_reads_each_line_of_a_list_or_reports_why_not(self) -> None:
        self.make_socket("socket")
        rows = [*read_vectors("list-lines.tsv")]
        lines, reasons = ([row[name].replace("FOLDER", self.folder).replace("%E9", "\udce9")
                           for row in rows] for name in ("line", "reason"))
        text = "\n".join(lines).encode("utf-8", "surrogateescape")
        items = read_pairs(self.write("list", text), make_default_options())
        expected = [(line, row["pair"], reason) for line, row, reason in zip(lines, rows, reasons)
                    if row["pair"]]
        self.check("pairs", len(items), len(expected))
        for (line, name, reason), item in zip(expected, items):
            kind = "usage" if name.startswith("line ") else "input"
            self.check(line, (item.name, item.reason or "", item.reason_kind), (name, reason, kind))
        self.check("--every of the valid lines", [
            item.request.every for item in items if item.request], [50, 250, 250])

    def test_finds_that_a_path_has_a_nul_byte(self) -> None:
        self.check("a file", find_path_problem(self.path("one.stl")), None)
        self.must("a NUL byte", "null" in (find_path_problem("a\0") or ""))

    def test_rejects_a_list_without_pairs(self) -> None:
        for path in (self.write("empty", b"# none\n"), self.path("folder")):
            self.check(path, refusal(lambda: read_pairs(path, make_default_options())),
                       f"{path} has no pair of a subtitle file and a recording")

    def test_protects_the_inputs_of_an_invalid_line(self) -> None:
        """Each word of an invalid line may be an input: no output may replace this file."""
        path = self.write("list", b"one.stl one.ts --bogus\none.stl one.ts --pace=two.stl\n")
        first, second = read_pairs(path, make_default_options())
        for item in first, second:
            self.must(item.name, item.request is None and {"one.stl", self.path("one.ts")} <=
                      {*item.files}, item)
            with self.assertRaises(files.OutputIsInput):
                collect_inputs([item]).refuse(self.path("one.ts"), True)
        self.check("two.stl", ("two.stl" in first.files, "two.stl" in second.files), (False, True))

    def test_reads_one_line_as_in_the_complete_list(self) -> None:
        """Lines 4 and 5 have no pair. The words of all lines are returned, as possible inputs."""
        options = make_default_options()
        lines = [f"one.stl one.ts --within {number}" for number in range(3)] + [
            "", "# none", '"', "x.stl", "two.stl one.ts", "one.stl none.ts --origin 5"]
        path = self.write("list", "\n".join(lines).encode())
        items = {item.name: item for item in read_pairs(path, options)}
        for number, name in ((1, "one"), (2, "one~2"), (3, "one~3"), (6, "line 6"), (7, "line 7"),
                             (8, "two"), (9, "one~4")):
            item, words = read_line_pair(path, number, options)
            self.check(f"line {number}", item, items[name])
            self.must(f"line {number}: words", {
                "one.stl", "one.ts", "x.stl", "two.stl", "none.ts", '"'} <= {*words}, words)
        for number in (4, 5, 10, 99):
            self.check(f"line {number}", refusal(lambda: read_line_pair(path, number, options)),
                       f"line {number} of {path} has no pair")
        self.check("a folder", refusal(lambda: read_line_pair(self.folder, 1, options)),
                   f"--line needs a list, but {self.folder} is a folder")
        with mock.patch("subtitles.request.lines.find_path_problem", return_value=None) as checked:
            read_line_pair(path, 8, options)
        self.check("only the files of line 8 are checked", [
            call[0][0] for call in checked.call_args_list], ["two.stl", "one.ts"])

    def test_compares_an_output_with_the_inputs_only_if_it_exists(self) -> None:
        names = ("a", "b", "c")
        with mock.patch.object(files, "find_identities",
                               side_effect=files.find_identities) as identified:
            inputs = files.Inputs(*names)
            inputs.refuse(self.path("none"), True)
            self.check("a new file", identified.call_count, 1)
            inputs.refuse(self.write("list", b""), True)
            # It was called for each of the two outputs, and once for each input.
            self.check("an existing file", identified.call_count, 2 + len(names))

    def test_finds_the_subtitle_files_of_a_folder(self) -> None:
        for name in ("a.STL", "a.stl", "b.stl", "b.ts", "c.pes", "d.txt"):
            self.write(f"folder/{name}", b"")
        folder = self.path("folder")
        items = find_subtitle_files(folder, make_default_options())
        self.check("items", [(item.name, item.reason) for item in items], [
            ("a", f"{folder}/a.STL, {folder}/a.stl: more than one subtitle file has this name"),
            ("b", None)])
        self.check("pairs", [(item.request.stl, item.request.recording) for item in items
                             if item.request], [(f"{folder}/b.stl", None)])
        os.mkdir(self.path("empty"))
        for path, fault in ((self.path("empty"), f"{self.path('empty')} has no subtitle file"), *(
                (path, f"--file-only needs a folder, but {path} is not a folder") for path in (
                    f"{folder}/b.stl", self.path("none")))):
            self.check(path, refusal(lambda: find_subtitle_files(path, make_default_options())),
                       fault)

    def test_judges_each_subtitle_file_of_a_folder(self) -> None:
        """With --file-only: accent.stl is refused, story.stl valid, and story.ts not read."""
        os.mkdir(self.path("in"))
        for name in ("accent.stl", "story.stl"):
            shutil.copy(get_example_path(name), self.path("in"))
        self.write("in/story.ts", b"not read")
        process = self.tool("qc", "--batch", self.path("in"), "--file-only", "-p",
                            self.bench.program, "-o", self.path("out"), "--junit", self.path("x"))
        self.check("last line", (process.status, process.out.decode().splitlines()[-1]),
                   (1, "2 pairs: 1 refused, 1 valid"))
        result = json.loads(self.read("out/story.json"))
        self.check("result", (result["verdict"], result["status"], result["request"]["recording"]),
                   ("valid", 0, None))
        self.must("test case", b"No recording was judged." in self.read("x").partition(
            b"<system-out>")[2])

    def test_pairs_the_files_of_a_folder_by_name(self) -> None:
        """Case matters only if several files of a kind have the same name without it."""
        for name in ("B.STL", "b.TS", "c.stl", "c.ts", "c.pes", "d.m2t", "e.stl", "e.txt", "F.pes",
                     "f.stl", "f.trp", "G.stl", "g.MTS", "g.stl", "h\x1b.m2ts", "h\x1b.stl"):
            self.write(f"folder/{name}", b"")
        folder = self.path("folder")
        items = read_pairs(folder, make_default_options())
        self.check("items", [(item.name, item.reason) for item in items], [
            ("B", None),
            ("F", f"{folder}/F.pes: no subtitle file has the same name"), ("f", None),
            ("G", f"{folder}/G.stl: no recording has the same name"), ("g", None),
            ("c", f"{folder}/c.stl, {folder}/c.pes, {folder}/c.ts: more than one pair has this "
             "name"), ("d", f"{folder}/d.m2t: no subtitle file has the same name"),
            ("e", f"{folder}/e.stl: no recording has the same name"), ("h%1B", None)])
        self.check("pairs", [(item.request.stl, item.request.recording) for item in items
                             if item.request], [
            (f"{folder}/{stl}", f"{folder}/{recording}") for stl, recording in (
                ("B.STL", "b.TS"), ("f.stl", "f.trp"), ("g.stl", "g.MTS"),
                ("h\x1b.stl", "h\x1b.m2ts"))])


class CompleteBatches(Case):
    """Batches of a list with the pairs `one`, `two` and `three`, whose judging is simulated."""

    seen: Any = None  # the runner, names of pairs, kept rows and --jobs of the last batch

    def batch(self, verdicts: str, *, is_stopped: bool = False, **more: Any
              ) -> tuple[int, list[str], list[str]]:
        """Give the pairs these verdicts, last pair first. Return the status, table and messages.

        The line of each pair's result is its name. `more` contains options of qc.
        """
        lines = [f"{self.path(name)}.stl {self.path('one.ts')}\n"
                 for name in ("one", "two", "three")]
        args = argparse.Namespace(**{
            **vars(make_default_options()), "batch": self.write("list", "".join(lines).encode()),
            "out": None, "program": self.path("program"), "is_kept": False, "jobs": None,
            "limit": 7, "is_resumed": False, "is_file_only": False, "line": None,
            "json": None, "csv": None, "junit": None, **more})

        def judge_items(runner: PairRunner, items: list[BatchItem], kept: dict[str, Row],
                        jobs: int) -> dict[str, Row]:
            self.seen = runner, [item.name for item in items], kept, jobs
            self.must("output folder", os.path.isdir(args.out or runner.folder))
            self.check("program, -o, --keep, --limit", (
                runner.command_paths.program_path, runner.out, runner.is_kept, runner.limit),
                (self.path("program"), args.out, args.is_kept, 7))
            rows = {}
            for item, verdict in reversed(list(zip(items, verdicts.split(", ")))):
                write_result_file(runner.get_result_path(item), make_result(verdict, **{
                    "reason" if verdict == "not judged" else "line": item.name}))
                rows[item.name] = make_table_row(item.name, verdict, item.name)
            runner.is_stopped = is_stopped
            return rows

        with mock.patch.object(batch, "judge_items", judge_items), capture_output() as (out, told):
            status = batch.judge_batch(args, "tools/qc")
        return status, out.getvalue().splitlines(), told.getvalue().splitlines()

    def setUp(self) -> None:
        super().setUp()
        for name in ("one.stl", "two.stl", "three.stl", "one.ts"):
            self.write(name, b"")
        os.symlink(self.bench.program, self.path("program"))

    def test_ends_with_the_worst_status_and_keeps_the_order_of_the_list(self) -> None:
        names = ["one", "two", "three"]
        # The worst status is 2, then 1, then 3.
        for verdicts, status in (("accepted, accepted, waived", 0), ("lost, accepted, accepted", 1),
                                 ("accepted, relative, waived", 3),
                                 ("accepted, relative, refused", 1),
                                 ("refused, not judged, accepted", 2)):
            for jobs, expected in ((None, os.cpu_count()), (3, 3)):
                ended = self.batch(verdicts, jobs=jobs, json=self.path("all"))
                self.check(f"{verdicts}: status, messages", (ended[0], ended[2]), (status, []))
                self.check(f"{verdicts}: table (its last line counts 3 pairs)", [
                    line.split()[0] for line in ended[1][1:]], [*names, "3"])
                self.check(f"--jobs {jobs}: pairs, kept rows, pairs at a time", self.seen[1:],
                           (names, {}, expected))
                result = json.loads(self.read("all"))
                self.check(f"{verdicts}: JSON", (result["status"], [
                    pair["line"] or pair["reason"] for pair in result["pairs"]]), (status, names))
                self.must("the temporary folder is deleted", not os.path.exists(
                    self.seen[0].folder))

    def test_reports_a_stop_after_two_of_three_pairs(self) -> None:
        for out, more in ((None, ""), (self.path("out"), "; --resume judges the others")):
            status, table, told = self.batch("accepted, accepted", is_stopped=True, out=out)
            self.check(f"-o {out}", (status, len(table), told[0].partition(": ")[2], told[1:]),
                       (2, 4, f"stopped when 2 of 3 pairs were judged{more}", []))
        self.must("index", b"2 pairs: 2 accepted" in self.read("out/index.html")
                  and ".lock" not in os.listdir(self.path("out")))

    def test_resumes_only_if_requested(self) -> None:
        earlier = {"two": make_table_row("two", "lost")}
        with mock.patch.object(batch, "read_resumed_rows", lambda calls, items: earlier):
            for is_resumed, kept in ((False, {}), (True, earlier)):
                self.batch("accepted, accepted, accepted", out=self.path("out"),
                           is_resumed=is_resumed, is_kept=True)
                self.check(f"--resume {is_resumed}: kept rows", self.seen[2], kept)

    def test_judges_nothing_with_wrong_options(self) -> None:
        # --resume without -o, a missing folder, and outputs that are inputs
        options: list[dict[str, Any]] = [
            {"is_resumed": True}, {"csv": self.path("none/x")}, {"csv": self.path("list")},
            {"junit": self.path("three.stl")}, {"json": self.path("one.ts")}]
        for more in options:
            self.seen = None
            with self.assertRaises(Stop):
                self.batch("accepted", **more)
            self.check(f"{more}", self.seen, None)


def judge_as_told(request: Request, call: PairOptions) -> int:
    """Write the verdict that the subtitle file contains. Return its status.

    Other contents: `other` (accepted with status 9), `silent` (no result), `waits`, `busy`
    (computes), and `deaf` (ignores SIGTERM, and starts a process that computes).
    """
    resource.setrlimit(resource.RLIMIT_CPU, (20, 20))  # seconds
    with open(request.stl, encoding="ascii") as file:
        kind = file.read()
    if kind == "waits":
        time.sleep(SECONDS)
    while kind == "busy":
        pass
    if kind == "deaf":
        signal.signal(signal.SIGTERM, signal.SIG_IGN)
        os.chdir(os.path.dirname(request.stl))
        subprocess.call(["sh", "-c", "echo $$ >process; while :; do :; done"])
    print("qc: first\nqc: last", file=sys.stderr)
    verdict = "accepted" if kind == "other" else kind
    if kind != "silent":
        options = [call.name, call.is_claimed, call.out, call.json, call.is_kept, call.program]
        write_result_file(call.json or os.path.join(call.out or "", f"{call.name}.json"),
                          make_result(verdict, notes=[json.dumps([
                              *options, *list_call_arguments(request)])]))
    return {"other": 9, "silent": 0}.get(kind, STATUSES.get(verdict, 0))


class ForkedPairs(Case):
    """Processes that judge pairs, with the output folder `out`. `judge_as_told` replaces qc."""

    def setUp(self) -> None:
        super().setUp()
        self.command_paths = CommandPaths("tools/qc", self.bench.program)
        judging = mock.patch.object(batch, "judge_forked_pair", judge_as_told)
        judging.start()
        self.addCleanup(judging.stop)
        os.mkdir(self.path("temporary"))
        os.mkdir(self.path("out"))
        self.write("one.ts", b"1")
        self.runner = self.make_runner()

    def make_runner(self, limit: int | None = None) -> PairRunner:
        return PairRunner(self.command_paths, self.path("temporary"), self.path("out"), False,
                          limit)

    def item(self, kind: str, name: str = "one", *args: str) -> BatchItem:
        """Return a pair whose subtitle file contains `kind`, which selects how judging ends."""
        stl = self.write(f"{name}.stl", kind.encode())
        return BatchItem(name, make_example_request(stl, self.path("one.ts"), *args), None)

    def judge_item(self, runner: PairRunner, item: BatchItem) -> Row:
        return runner.start(item) or next(runner.collect_rows(SECONDS))

    def test_gives_each_call_its_files_and_options(self) -> None:
        """`judge_as_told` writes its arguments to the notes of its result."""
        for out, is_kept in ((None, False), (self.path("out"), False), (self.path("out"), True)):
            runner = PairRunner(self.command_paths, self.path("temporary"), out, is_kept)
            item = self.item("refused", "one", "--every", "50")._replace(name="pair")
            path = os.path.join(out or self.path("temporary"), "pair.json")
            self.check("name, result", (self.judge_item(runner, item).name,
                                        runner.get_result_path(item)), ("pair", path))
            [note] = (read_result(path) or {})["notes"]
            self.check("name, claimed, -o, --json, --keep, -p, others", json.loads(note), [
                "pair", True, out, None if out else path, is_kept,
                self.command_paths.program_path, "--every", "50", *list_call_arguments(
                    make_example_request(self.path("one.stl"), self.path("one.ts")))])
            self.must("the call has ended", not runner.running_pairs)

    def test_reads_the_verdict_from_the_pairs_result(self) -> None:
        """An earlier result `accepted` must not be read."""
        for kind, verdict, line in (
                ("accepted", "accepted", "accepted 72 Content"),
                ("refused", "refused", "refused 72 Content"),
                ("not judged", "not judged", "why"), ("silent", "not judged", "last"),
                ("other", "not judged", "last")):
            item = self.item(kind)
            write_result_file(self.path("out/one.json"), make_result("accepted"))
            row = self.judge_item(self.runner, item)
            self.check(kind, (row.name, row.verdict, row.line), ("one", verdict, line))
            result = read_result(self.runner.get_result_path(item)) or {}
            self.check(f"{kind}: result", result["verdict"], verdict)

    def test_a_line_without_a_pair_is_not_judged(self) -> None:
        row = self.judge_item(self.runner, BatchItem("two", None, "no pair"))
        self.check("row", (row.name, row.verdict, row.line), ("two", "not judged", "no pair"))
        self.check("result", read_result(self.path("out/two.json")),
                   make_unjudged("two", "no pair", "input"))
        self.check("files", os.listdir(self.path("out")), ["two.json"])

    def test_reports_a_process_that_could_not_be_started(self) -> None:
        with mock.patch("os.fork", side_effect=BlockingIOError(11, "Try again")):
            row = self.judge_item(self.runner, self.item("accepted"))
        self.check("line", row.line, "a process could not be started: Try again")

    def test_a_stopped_runner_ends_its_processes_and_writes_nothing_more(self) -> None:
        for name in ("one", "two"):
            self.runner.start(self.item("waits", name))
        self.runner.stop()
        self.must("all have ended", not self.runner.running_pairs)
        self.runner.record_unjudged(BatchItem("three", None, "x"), "stopped", "signal")
        self.check("files", os.listdir(self.path("out")), [])

    def test_the_reason_says_that_a_result_could_not_be_written(self) -> None:
        nowhere = PairRunner(self.command_paths, self.path("temporary"), self.path("none"), False)
        row = nowhere.record_unjudged(BatchItem("four", None, "x"), "why", "input")
        self.must("row", row.verdict == "not judged" and row.line.startswith("why; "), row)
        self.check("reason", nowhere.unwritten_results["four"]["reason"], row.line)

    def test_stops_a_pair_that_takes_too_long(self) -> None:
        """The limit is one second. A deaf process is killed at once, with its own process."""
        for kind, grace_seconds in (("busy", batch.GRACE_SECONDS), ("deaf", 0)):
            runner, item = self.make_runner(limit=1), self.item(kind, "long")
            with mock.patch.object(batch, "GRACE_SECONDS", grace_seconds):
                rows = judge_items(runner, [item, self.item("accepted")], {}, 2)
            reason = "it used more than 1 second of CPU time: give a greater --limit"
            self.check(f"{kind}: row, other pair", (
                rows["long"].verdict, rows["long"].line, rows["one"].verdict),
                ("not judged", reason, "accepted"))
            self.check(f"{kind}: result", (read_result(runner.get_result_path(item)) or {})[
                "reason"], reason)
            self.must(f"{kind}: none is overdue", not runner.overdue_processes)
        self.must("the process of the deaf one is gone", wait_until(
            lambda: not os.path.exists(f"/proc/{int(self.read('process'))}/fd/0")))

    def test_stops_a_pair_at_its_limit_and_kills_it_ten_cpu_seconds_later(self) -> None:
        """The limit is 60 seconds of CPU time. Another process uses none, and is never stopped."""
        for seconds, methods in ((59.9, []), (60, ["stop"]), (69.9, ["stop"]), (70, ["kill"])):
            calls = [mock.Mock(**{"cpu_seconds.return_value": used}) for used in (seconds, 0)]
            running = {call: mock.Mock(limit=60) for call in calls}
            with mock.patch.object(self.runner, "running_pairs", running), \
                    mock.patch.object(batch, "wait_for_any", return_value=[]):
                self.check("rows", [*self.runner.collect_rows(0)], [])
            self.check(f"{seconds} seconds", [[name for name in ("stop", "kill") if getattr(
                call, name).called] for call in calls], [methods, []])
            self.must("the other is not overdue", calls[1] not in self.runner.overdue_processes)

    def test_a_crash_affects_only_its_own_pair(self) -> None:
        ends: dict[str, Callable[[], object]] = {
            "killed": lambda: signal.raise_signal(signal.SIGKILL), "no memory": os.abort,
            "a signal": lambda: signal.raise_signal(signal.SIGTERM), "an error": lambda: 1 // 0,
            "wrong arguments": lambda: run_qc(["--none"])}
        for (name, end), is_written in itertools.product(ends.items(), (False, True)):
            def judge(*_: object) -> object:
                if is_written:
                    write_result_file(self.path("out/dies.json"), make_result("accepted"))
                return end()

            with mock.patch.object(batch, "judge_forked_pair", judge):
                self.runner.start(self.item("accepted", "dies"))
            self.runner.start(self.item("accepted", "other"))
            rows: dict[str, Row] = {}
            while self.runner.running_pairs:
                rows.update((row.name, row) for row in self.runner.collect_rows(SECONDS))
            self.check(f"{name}, verdict written: {is_written}", (
                rows["dies"].verdict, rows["other"].verdict), ("not judged", "accepted"))
            self.must(f"{name}: reason", ("--none" if name == "wrong arguments" else " process ")
                      in rows["dies"].line, rows)

    def test_a_forked_call_has_its_own_session_and_signals(self) -> None:
        """Standard input and output are /dev/null. Files that are open here are closed in it. Only
        ignored signals stay ignored."""
        opened = open(self.write("opened", b""), "rb")
        self.addCleanup(opened.close)

        def check_process() -> int:
            files = [os.path.realpath(f"/proc/self/fd/{file}") for file in range(2)]
            facts = [files == [os.devnull] * 2, os.getsid(0) == os.getpid(),
                     not os.path.exists(f"/proc/self/fd/{opened.fileno()}"),
                     not signal.pthread_sigmask(signal.SIG_BLOCK, []),
                     [signal.getsignal(item) for item in (signal.SIGTERM, signal.SIGHUP)] == [
                         signal.default_int_handler, signal.SIG_IGN]]
            print(facts, file=sys.stderr)
            return 7

        for item, action in ((signal.SIGTERM, signal.SIG_DFL), (signal.SIGHUP, signal.SIG_IGN)):
            self.addCleanup(signal.signal, item, signal.signal(item, action))
        standard_input = os.dup(0)
        os.dup2(opened.fileno(), 0)  # a file that the call must not read
        with hold_signals():
            call = ForkedProcess(check_process)
        os.dup2(standard_input, 0)
        os.close(standard_input)
        self.check("status, error output", call.wait(), (7, [str([True] * 5)]))

    def test_judges_each_pair_once_with_its_own_options(self) -> None:
        """Only the pair `name1` has --strict. A row of `name2` is kept from an earlier call."""
        items = [self.item(kind, f"name{at}", *(["--strict"] if at == 1 else []))
                 for at, kind in enumerate(("accepted", "refused", "accepted", "not judged"))]
        kept = {"name2": make_table_row("name2", "waived", "kept")}
        rows = judge_items(self.runner, items, kept, 2)
        self.check("verdicts", {name: row.verdict for name, row in rows.items()}, {
            "name0": "accepted", "name1": "refused", "name2": "waived", "name3": "not judged"})
        self.check("kept rows", [*kept], ["name2"])
        notes = [(read_result(self.runner.get_result_path(item)) or {})["notes"][0]
                 for item in items[:2]]
        self.check("--strict", ["--strict" in note for note in notes], [False, True])
        self.must("name2 is not judged again", not os.path.exists(
            self.runner.get_result_path(items[2])))

    def test_keeps_finished_results_after_a_signal_or_a_bug(self) -> None:
        """An interrupt or a bug ends the batch when one of four pairs is judged."""
        kinds = ("accepted", "waits", "waits", "waits")
        for reason in (KeyboardInterrupt(), ValueError("odd")):
            runner = self.make_runner()
            items = [self.item(kind, f"name{at}") for at, kind in enumerate(kinds)]

            def show(progress: object, make_line: Callable[[], str]) -> None:
                if make_line().startswith("1 of 4 pairs: 1 accepted"):
                    raise reason

            with mock.patch("subtitles.request.commands.Progress.show", show), \
                    mock.patch.object(batch, "ignore_signals") as ignored:
                if isinstance(reason, KeyboardInterrupt):
                    self.check("rows", [*judge_items(runner, items, {}, 2)], ["name0"])
                else:
                    self.assertRaises(ValueError, judge_items, runner, items, {}, 2)
            self.must("all have ended", runner.is_stopped and not runner.running_pairs)
            self.check("further signals are ignored", ignored.called,
                       isinstance(reason, KeyboardInterrupt))
            self.check("files", os.listdir(self.path("out")), ["name0.json"])

    def test_counts_pairs_that_ended_before_the_signal(self) -> None:
        """All three pairs have ended, but their results have not been read, at the interrupt."""
        items, reported = [self.item("accepted", f"name{at}") for at in range(3)], list[Row]()

        def have_ended() -> bool:
            running = self.runner.running_pairs  # empty if all processes have ended
            return all(os.path.exists(self.runner.get_result_path(item)) for item in items) and (
                not running or len(wait_for_any(running, SECONDS)) == len(running))

        def interrupt(*_: object) -> None:
            self.must("all have ended", wait_until(have_ended))
            raise KeyboardInterrupt

        with mock.patch("subtitles.request.commands.Progress.show", interrupt), \
                mock.patch.object(batch, "ignore_signals"):
            rows = judge_items(self.runner, items, {}, 3, reported.append)
        names = ["name0", "name1", "name2"]
        self.check("rows, reported rows", (sorted(rows), sorted(row.name for row in reported)),
                   (names, names))

    def test_resumes_only_from_current_results(self) -> None:
        """Only `one` and `four` have a verdict of this program on these files and options."""
        program = describe_program(self.command_paths.program_path)
        earlier: dict[str, tuple[str, dict[str, Any]]] = {  # verdicts and other members of results
            "one": ("refused", {}), "two": ("not judged", {}),
            "three": ("accepted", {"program": {**PROGRAM.to_json(program), "sha256": "1" * 64}}),
            "four": ("waived", {}), "seven": ("accepted", {"files_at_start": None}),
            "eight": ("accepted", {"request": None}), "nine": ("accepted", {})}
        items = [self.item("accepted", name, "--origin", "0") for name in earlier]
        for item, (verdict, more) in zip(items, earlier.values()):
            assert item.request
            write_result_file(self.path(f"out/{item.name}.json"), make_result(verdict, **{
                "request": REQUEST.to_json(item.request), "program": PROGRAM.to_json(program),
                "files_at_start": describe_inputs(item.request), **more}))
        items.append(BatchItem("five", None, "no pair"))
        write_result_file(self.path("out/five.json"), make_result())
        for text in (b"", b"{", b"[]"):
            self.write("out/nine.json", text)
            rows = read_resumed_rows(self.runner, items)
            self.check(f"nine.json contains {text!r}", {
                name: row.verdict for name, row in rows.items()},
                {"one": "refused", "four": "waived"})
        write_result_file(self.path("out/nine.json"), {**make_result(), "format": 7})
        with self.assertRaisesRegex(Stop, "nine.json is in JSON format 7, .* another folder$"):
            read_resumed_rows(self.runner, items)

    def test_prints_verdict_counts_and_the_remaining_time(self) -> None:
        rows = {word: make_table_row(word, word) for word in STATUSES
                if word not in (VALID, WAIVED, RELATIVE)}
        # `lost` and `warned` are counted as refused.
        self.check("5 of 9, all of an earlier call", format_progress(rows, 9, 5, 0.0),
                   "5 of 9 pairs: 1 accepted, 3 refused, 1 not judged")
        rows |= {word: make_table_row(word, word) for word in (VALID, WAIVED, RELATIVE)}
        with mock.patch.object(time, "monotonic", return_value=110.0):
            line = format_progress(rows, 9, 4, 100.0)
        self.check("8 of 9, 4 of them in the last 10 seconds (2.5 for each)", line,
                   "8 of 9 pairs: 1 accepted, 1 valid, 1 waived, 1 relative, 3 refused, 1 not "
                   "judged; 2 seconds left")
