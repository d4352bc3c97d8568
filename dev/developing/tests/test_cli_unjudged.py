"""Test runs of qc with pairs that can't be judged, outputs that can't be written, and signals."""
from __future__ import annotations

import contextlib
import io
import itertools
import json
import os
import signal
import sys
import time
from collections import deque
from typing import Any, ContextManager, Iterator
from unittest import mock

from subtitles.cli import batch, collection, single
from subtitles.cli.batch import MIN_SECONDS, PairRunner, judge_next_items
from subtitles.cli.single import (
    Output, OutputFiles, PairOptions, SIGNALS, handle_signals, ignore_signals, lock_folder,
    lock_pair)
from subtitles.common.command_line import run_main
from subtitles.common.files import read_stamp
from subtitles.request.commands import CommandPaths, OutputNames, Printer
from subtitles.request.lines import BatchItem
from subtitles.request.request import keep_stl
from subtitles.results.files import write_result_file
from .bench import Case, SECONDS, get_example_path, read_example_file
from .parts import make_example_request, run_qc
from .results import capture_output, make_result
from .test_cli_failures import ACCEPTED, CallCase, HELLO


class UnjudgedPairs(Case):
    """A batch with the pair `one`, whose files contain one byte, in the output folder `out`."""

    def setUp(self) -> None:
        super().setUp()
        for name in ("out", "temporary"):
            os.mkdir(self.path(name))
        self.request = make_example_request(self.write("one.stl", b"1"), self.write("one.ts", b"1"))
        self.item = BatchItem("one", self.request, None)

    def make_runner(self) -> PairRunner:
        return PairRunner(CommandPaths("tools/qc", self.bench.program), self.path("temporary"),
                          self.path("out"), False)

    def enter_folder(self) -> None:
        self.addCleanup(os.chdir, os.getcwd())
        os.chdir(self.folder)

    def test_writes_the_reason_to_all_outputs(self) -> None:
        """Earlier results of the pair are kept, unless a new result says that a file is missing."""
        self.enter_folder()
        rows = {  # a line of the list, and the reason why its pair is not judged
            "files in use": ("one.stl one.ts",
                             "another run of qc is writing the files of pair one"),
            "an output is an input": ("one.stl one.ts --severity out/one.html",
                                      "is also an input: give another name"),
            "an output is no result": ("one.stl one.ts", "was not written by these tools"),
            "a missing recording": ("one.stl none.ts", "none.ts: No such file")}
        for name, (line, reason) in rows.items():
            write_result_file("out/one.json", make_result("accepted"))
            self.write("out/one.txt", b"refused 68 Parity frame 00:00:01:00 packet 9\n1 faults\n")
            if name.startswith("an output"):
                self.write("out/one.html", b"67 warning\n")
            self.write("list", f"{line}\n".encode())
            lock: ContextManager[object] = lock_pair("out", "one") if name == "files in use" else \
                contextlib.nullcontext()
            with lock, capture_output() as (out, _):
                status = run_qc(["--batch", "list", "-o", "out", "-p", self.bench.program, "--json",
                                 "all.json", "--csv", "all.csv", "--junit", "all.xml"])
            [known] = json.loads(self.read("all.json"))["pairs"]
            self.check(f"{name}: status, verdict", (status, known["verdict"]), (2, "not judged"))
            self.must(f"{name}: JSON", reason in known["reason"], known)
            self.must(f"{name}: CSV", b",not judged,2," in self.read("all.csv"))
            self.must(f"{name}: JUnit", b'errors="1"' in self.read("all.xml"))
            self.must(f"{name}: table", "1 not judged" in out.getvalue(), out.getvalue())
            is_kept = name != "a missing recording"
            self.check(f"{name}: earlier result, earlier list", (json.loads(self.read(
                "out/one.json"))["verdict"] == "accepted", os.path.exists("out/one.txt")),
                (is_kept, is_kept))
            if name.startswith("an output"):
                os.unlink("out/one.html")

    def test_locks_the_files_of_a_pair_until_its_call_ends(self) -> None:
        """The call waits until it is stopped (`pause`), or ends at once without a result."""
        runner = self.make_runner()
        for does in (signal.pause, time.tzset):
            with mock.patch.object(batch, "judge_forked_pair", lambda *_: does() or 2):
                self.check("begun", runner.start(self.item), None)
            other = self.make_runner()
            row = other.start(self.item)
            self.must("not judged by another runner", row and not row.is_judged
                      and other.names_in_use == {"one"}
                      and "another run of qc" in other.unwritten_results["one"]["reason"]
                      and not other.running_pairs, row)
            if does == signal.pause:
                runner.stop()
            else:
                self.check("rows", len([*runner.collect_rows(SECONDS)]), 1)
            with lock_pair(self.path("out"), "one"):
                self.must("free again", not runner.running_pairs)
            self.must("no lock is left", ".one.lock" not in os.listdir(self.path("out")))

    def test_runs_at_most_as_many_pairs_as_requested(self) -> None:
        for jobs, count in itertools.product((1, 2, 3), range(4)):
            runner = self.make_runner()
            waiting = deque(BatchItem(f"{at}", None, None) for at in range(count))
            running: Any = runner.running_pairs
            with mock.patch.object(runner, "start", lambda item: running.update({item: item})), \
                    mock.patch.object(runner, "collect_rows", return_value=[]):
                rows = [*judge_next_items(runner, waiting, jobs)]
            self.check(f"--jobs {jobs}, {count} pairs: running, waiting, rows",
                       (len(running), len(waiting), rows), (min(jobs, count), max(count - jobs, 0),
                                                            []))

    def test_gives_each_pair_its_time_limit(self) -> None:
        for limit, expected in ((None, MIN_SECONDS), (5, 5)):
            runner = self.make_runner()
            runner.limit = limit
            with mock.patch.object(batch, "ForkedProcess"):
                runner.start(self.item)
            [running_pair] = runner.running_pairs.values()
            running_pair.pair_lock.close()
            self.check(f"--limit {limit}", running_pair.limit, expected)

    def test_the_default_time_limit_grows_with_the_files(self) -> None:
        """60 seconds, and one more for each 10 MB of both files, up to an hour."""
        for stl, recording, seconds in ((0, None, 60), (1, 9_999_999, 61), (0, 10**9, 160),
                                        (0, 2 * 10**12, 3600)):
            self.check(f"{stl} and {recording} bytes", batch.compute_default_limit({
                "stl": {"size": stl}, "recording": recording and {"size": recording}}), seconds)

    def test_a_process_that_is_gone_has_used_no_time(self) -> None:
        self.check("process 0", batch.read_cpu_seconds("0"), 0.0)

    def test_lists_the_folder_once_for_all_pairs(self) -> None:
        """Foreign files that appear later are found without another list of the folder."""
        for name in ("one.7.txt", "two.1.txt"):
            self.write(f"out/{name}", b"theirs")
        with mock.patch("os.listdir", side_effect=os.listdir) as listed:
            runner = self.make_runner()
            rows = [runner.start(BatchItem(f"{at}", None, "no pair")) for at in range(20)]
            self.write("out/three.1.html", b"theirs")
            rows += [runner.start(BatchItem(name, None, "no pair"))
                     for name in ("one", "two", "three")]
        self.check("folders listed", [call.args for call in listed.call_args_list],
                   [(self.path("out"),)])
        self.check("reasons", [row and row.line.replace(self.path(""), "") for row in rows],
                   ["no pair"] * 20 + [
                       f"out/{name} exists and was not written by these tools: move it away, or "
                       "give another folder"
                       for name in ("one.7.txt", "two.1.txt", "three.1.html")])
        self.check("names in use", runner.names_in_use, set())

    def test_does_not_list_a_claimed_folder_again(self) -> None:
        """`PartFiles` lists the folder. The process of a pair must not call it."""
        request = make_example_request(*HELLO, "--origin", "0")
        call = PairOptions(self.bench.program, self.path("out"), name="one", is_claimed=True)
        with mock.patch("subtitles.request.commands.PartFiles", side_effect=ZeroDivisionError), \
                mock.patch.object(single, "ignore_signals"), capture_output():
            verdict = single.judge_and_report(request, call, "tools/qc")
        self.check("verdict", verdict.word, "accepted")

    def test_refuses_a_pipe_that_replaces_a_file(self) -> None:
        os.mkfifo(self.path("pipe"))
        for pair in (("pipe", "one.ts"), ("one.stl", "pipe")):
            request = make_example_request(*map(self.path, pair))
            with mock.patch.object(batch, "judge_and_report", return_value=mock.Mock(status=0)), \
                    capture_output() as (_, errors):
                status = batch.judge_forked_pair(request, PairOptions(None))
            self.check(f"{pair}", (status, f"{self.path('pipe')} is a pipe" in errors.getvalue()),
                       (2, True))

    def test_rejects_a_verdict_with_another_status(self) -> None:
        """A process ended with `status` and wrote a verdict. It may have exceeded 7 seconds."""
        rows: list[tuple[str, int, bool]] = [
            ("accepted", 0, True), ("refused", 1, True), ("accepted", 1, False),
            ("refused", 0, False), *((verdict, -number, False) for verdict in (
                "accepted", "refused") for number in (1, 2, 9))]
        for (verdict, status, is_valid), is_overdue in itertools.product(rows, (False, True)):
            runner = self.make_runner()
            call = mock.Mock(**{"wait.return_value": (status, ["qc: why"])})
            runner.running_pairs[call] = batch.RunningPair(self.item, 7, contextlib.ExitStack())
            runner.overdue_processes |= {call} if is_overdue else {mock.Mock()}
            write_result_file(self.path("out/one.json"), make_result(verdict))
            row = runner.finish(call)
            name = f"{verdict}, status {status}, overdue: {is_overdue}"
            expected = verdict if is_valid else "not judged"
            self.check(f"{name}: row, result", (row.verdict, json.loads(self.read("out/one.json"))[
                "verdict"]), (expected, expected))
            self.check(f"{name}: names the limit", "it used more than 7 seconds" in row.line,
                       is_overdue and not is_valid)
            self.must(f"{name}: the process is forgotten", call not in runner.overdue_processes)

    def test_uses_the_last_message_as_the_reason(self) -> None:
        runner = self.make_runner()
        runner.overdue_processes.add(mock.Mock())  # another process
        with mock.patch.object(batch, "judge_forked_pair", lambda *_: 2 * bool(os.write(
                2, b"qc: first\nqc: caf\xe9: \x1b\n"))):
            runner.start(self.item)
        [row] = runner.collect_rows(SECONDS)
        self.check("row", (row.verdict, row.line), ("not judged", "caf\ufffd: \x1b"))

    def test_uses_the_national_option_of_the_judged_file(self) -> None:
        """The file changes from English to German (language code 08) before it is judged."""
        data = read_example_file("story.stl")
        path = self.write("one.stl", data)
        automatic, english = (
            make_example_request(path, get_example_path("story.pes"), "--option", word)
            for word in ("auto", "english"))
        self.write("one.stl", data[:14] + b"08" + data[16:])
        for request, option in ((automatic, "german"), (english, "english")):
            keep_stl(request, self.folder)
            self.check("option", request.option, option)

    def test_judges_one_line_while_a_batch_runs_and_overwrites_no_input(self) -> None:
        names = ("two.stl", "two.ts", "levels")
        for name in names:
            self.write(name, b"72 warning\n")
        self.write("list", b"one.stl one.ts\ntwo.stl two.ts --severity levels\n")

        def judge(_: object, call: PairOptions) -> int:
            write_result_file(os.path.join(call.out or "", f"{call.name}.json"),
                              make_result("accepted"))
            return 0

        self.enter_folder()
        words = ["--batch", "list", "--line", "1", "-o", "out", "-p", self.bench.program]
        with mock.patch.object(batch, "judge_forked_pair", judge), lock_folder("out"), \
                capture_output() as (_, errors):
            self.check("status", run_qc(words), 0)
            self.check("files", sorted(os.listdir("out")), [".lock", "one.json"])
            for option, name in itertools.product(("--json", "--csv"), (*names, "list", "one.ts")):
                before = self.read(name)
                self.check(f"{option} {name}: status", run_qc([*words, option, name]), 2)
                self.check(f"{option} {name}: contents", self.read(name), before)
                self.must(f"{option} {name}: message", errors.getvalue().endswith(
                    f"{name} is also an input: give another name\n"), errors.getvalue())


class OutputsAndSignals(CallCase):
    """An accepted pair: which outputs qc writes, and how it handles their failures and signals."""

    def test_prints_only_the_requested_file_to_standard_output(self) -> None:
        program = self.fake_program(ACCEPTED)
        os.mkdir(self.path("results"))
        self.judge(program, "--json", self.path("results/hello.json"))
        begins = {"--json": "{", "--csv": "stl,recording,", "--junit": "<?xml"}
        for option, name in (*itertools.product(begins, "-"), *itertools.product(
                ["--json"], ("/dev/stdout", "/dev/fd/1", "/proc/self/fd/1"))):
            for process in (self.judge(program, option, name),
                            self.qc("--collect", self.path("results"), option, name)):
                self.check(f"{option} {name}: status", process.status, 0)
                self.must(f"{option} {name}: verdict", "accepted" in "\n".join(process.errors))
                self.must(f"{option} {name}: output", process.printed[0].startswith(begins[option])
                          and not process.printed[-1].startswith("accepted") and not any(
                              line.startswith(("pair ", "+ ", "1 pair"))
                              for line in process.printed), process)

    def test_reports_a_standard_output_that_fails_at_the_end(self) -> None:
        """The last flush fails: after --collect, and after calls that return status 0. Then the
        JSON results say `not judged`."""
        class FullOutput(io.StringIO):
            def flush(self) -> None:
                raise OSError(28, "No space left on device")

        os.mkdir(self.path("results"))
        write_result_file(self.path("results/one.json"), make_result("accepted"))
        words = ["--collect", self.path("results"), "--json", self.path("one.json")]
        with capture_output() as (_, errors), mock.patch.object(sys, "stdout", FullOutput()), \
                mock.patch.object(collection, "discard_output") as discard:
            statuses = [run_qc(words)]
            self.must("not treated as a closed pipe", not discard.called)
            with mock.patch("subtitles.cli.main.dispatch", return_value=0):
                statuses += [run_main(lambda _: 0, []), run_qc(["--json", self.path("two.json")])]
        self.check("statuses", statuses, [2] * 3)
        self.check("messages", errors.getvalue().count(
            ": the output: No space left on device\n"), 3)
        self.check("results", [result["verdict"] for result in (
            *self.object("one.json")["pairs"], self.object("two.json"))], ["not judged"] * 2)

    def test_prints_profile_options_first(self) -> None:
        self.write("house", b"--every 99\n")
        process = self.judge(self.fake_program(ACCEPTED), "--profile", "house")
        self.must("profile", process.printed[0].endswith("house: --every 99"), process)

    def test_prints_each_hint_once(self) -> None:
        request = make_example_request(*HELLO, "--origin", "0")
        with mock.patch("subtitles.cli.single.list_hints", return_value=["a", "b", "a"]), \
                mock.patch.object(single, "ignore_signals"), capture_output():
            verdict = single.judge_and_report(request, PairOptions(
                self.fake_program(ACCEPTED), self.path("out"), name="own"), "tools/qc")
        self.check("hints", verdict.hints, ["a", "b"])

    def make_output_files(self, is_kept: bool = False) -> OutputFiles:
        verdict = mock.Mock(parts=[], **{"request.moved_stl": None, "scope": "pair"})
        return OutputFiles(PairOptions(None, self.folder, is_kept), verdict, CommandPaths(
            "tools/qc", self.bench.program), OutputNames("one", self.folder, self.folder))

    def test_stores_the_recording_only_if_requested_and_copied(self) -> None:
        """A copied recording has `kept_ending`. It is stored if it has packets."""
        for is_kept, count, ending in itertools.product(
                (False, True), (0, 1), (None, "recording.pes")):
            outputs = self.make_output_files(is_kept).list_raw_outputs(mock.Mock(
                **{"packets.count": count, "kept_ending": ending}))
            self.check(f"--keep {is_kept}, {count} packets, {ending}",
                       [output.path for output in outputs],
                       [self.path("one.recording.pes")] * bool(is_kept and count and ending))
        self.check("no recording", self.make_output_files(True).list_raw_outputs(None), [])

    def test_writes_files_again_if_an_input_changes_while_they_are_written(self) -> None:
        """The input changes while each file is made. The change is reported once."""
        for count, expected in ((1, [0, 1]), (2, [0, 1, 1])):
            files, path, changes = self.make_output_files(), self.write("one.ts", b""), list[int]()
            files.verdict.failed_outputs, files.stamps = [], {path: read_stamp(path)}

            def make_chunks() -> Iterator[bytes]:
                self.write("one.ts", b"changed")
                changes.append(len(files.verdict.failed_outputs))
                return iter([])

            with mock.patch.object(files, "list_outputs", return_value=[
                    Output(self.path(f"{at}.csv"), make_chunks) for at in range(count)]):
                files.write()
            self.check(f"{count} files: reported changes when each is made", changes, expected)

    def test_a_result_replaces_a_link_but_another_output_follows_it(self) -> None:
        os.symlink(self.write("theirs", b""), self.path("link"))
        for is_result in (False, True):
            self.write("theirs", b"")
            self.make_output_files().write_output(
                Output(self.path("link"), lambda: iter([b"own"]), is_result))
            self.check(f"is result: {is_result}: is a link, its contents, those of its target", (
                os.path.islink(self.path("link")), self.read("link"), self.read("theirs")),
                (not is_result, b"own", b"" if is_result else b"own"))

    def test_handles_signals_that_were_not_ignored(self) -> None:
        for item in SIGNALS:
            self.addCleanup(signal.signal, item, signal.getsignal(item))
        for some in itertools.product((False, True), repeat=len(SIGNALS)):
            for item, is_ignored in zip(SIGNALS, some):
                signal.signal(item, signal.SIG_IGN if is_ignored else signal.SIG_DFL)
            handle_signals()
            self.check(f"ignored before: {some}", [signal.getsignal(item) for item in SIGNALS], [
                signal.SIG_IGN if is_ignored else signal.default_int_handler
                for is_ignored in some])
            ignore_signals()
            self.check(f"{some}: at the end", {signal.getsignal(item) for item in SIGNALS},
                       {signal.SIG_IGN})

    def test_ignores_signals_only_from_the_last_line_on(self) -> None:
        lines: list[tuple[str, bool]] = []  # printed lines, and whether all signals were ignored
        for item in SIGNALS:
            self.addCleanup(signal.signal, item, signal.signal(item, signal.default_int_handler))

        def write_line(line: str, _: object) -> None:
            lines.append((line, all(signal.getsignal(item) == signal.SIG_IGN for item in SIGNALS)))

        with mock.patch.object(Printer, "write_line", staticmethod(write_line)):
            self.judge(self.fake_program(ACCEPTED))
        self.check("last line", lines[-1], (f"{ACCEPTED}; not checked: no_video, losses", True))
        self.must("earlier lines", len(lines) > 2 and not any(
            is_ignored for _, is_ignored in lines[:-1]), lines)
