"""Test which results of earlier runs of tools/qc are current, reused or refused."""
from __future__ import annotations

import argparse
import collections
import contextlib
import dataclasses
import itertools
import json
import os
import time
from typing import Any, Callable, Iterator
from unittest import mock

from subtitles.cli import batch, collection
from subtitles.cli.batch import FolderWatch, PairRunner, refuse_folders
from subtitles.cli.single import lock_pair
from subtitles.common.command_line import Lateness, Stop
from subtitles.common.program import ProgramInfo, describe_program
from subtitles.judging.status import STATUSES
from subtitles.request.lines import BatchItem
from subtitles.request.request import Profile
from subtitles.results.files import (
    MAX_VALUES, Row, can_replace, describe_inputs, is_current, make_row, make_unjudged,
    read_call_result, read_result, read_results, write_result_file)
from subtitles.results import schema
from subtitles.results.schema import FORMAT, REQUEST
from .bench import Case, read_example_file
from .parts import make_example_request, make_default_options
from .results import FAULT, capture_output, make_result, make_table_row
from .stories import read_vectors

PROGRAM = ProgramInfo("1", "ab" * 32, None)
TIME_WIDTH = len("2026-01-02 03:04:05  ")  # characters before a verdict in a line of --watch
# For each option, a value that differs from the value in the earlier run.
OTHERS: dict[str, object] = {
    "page": (0, 0x87), "every": 25, "option": "german", "origin": 5, "is_complete": False,
    "pid": 257, "is_loss_allowed": True, "breaks": 1, "pes": (1, 2), "start": "10:00:00:00",
    "is_relative_allowed": True, "within": 1, "is_strict": True, "required": ("clock",),
    "late": Lateness({0: 1}, {0: 1}),
    "profile": Profile("house", "0" * 64, {})}


class CurrentResults(Case):
    """An earlier result is current if its pair would be judged in the same way again."""

    def make_accepted_result(self) -> tuple[Any, dict[str, Any]]:
        """Return the request for a pair with a severity file, and its earlier result `accepted`."""
        paths = [self.write(name, data) for name, data in (
            ("one.stl", read_example_file("story.stl")),
            ("one.pes", read_example_file("story.pes")), ("severity", b"72 warning\n"))]
        request = dataclasses.replace(make_example_request(*paths[:2]), severity=paths[2])
        return request, make_result("accepted", request=REQUEST.to_json(request),
                                    files_at_start=describe_inputs(request),
                                    program=PROGRAM._asdict())

    def test_a_result_is_current_only_for_the_same_options(self) -> None:
        request, earlier = self.make_accepted_result()
        self.must("the same options", is_current(earlier, request, PROGRAM))
        files = {name: self.write(f"other.{name}", b"other")
                 for name in ("stl", "recording", "severity")}
        for name, value in [*OTHERS.items(), *files.items(), ("severity", None)]:
            other = dataclasses.replace(request, **{name: value})
            self.must(f"another {name}", not is_current(earlier, other, PROGRAM))
        names = {field.name for field in dataclasses.fields(request)}
        self.check("all options", names, {
            *OTHERS, *files, "from_time", "to_time", "layout", "is_open", "may_keep", "pace_word",
            "kept_stl", "moved_stl", "is_reading", "language", "reference_call"})
        # See test_request_options for the last members.

    def test_a_result_is_current_only_for_the_same_program(self) -> None:
        request, earlier = self.make_accepted_result()
        for name in ("version", "sha256"):
            self.must(f"another {name}", not is_current(earlier, request,
                                                        PROGRAM._replace(**{name: "0" * 64})))
        self.must("the prover's line does not matter",
                  is_current(earlier, request, PROGRAM._replace(proved="logic=proved")))
        self.must("no program", not is_current(make_unjudged("one", "why", "input"), request,
                                               PROGRAM))

    def test_the_checksum_detects_a_program_of_the_same_size_and_time(self) -> None:
        sums = set()
        for data in (b"one", b"two"):
            os.utime(self.write("program", data), (0, 0))
            sums.add(describe_program(self.path("program")).sha256)
        self.check("checksums", len(sums), 2)

    def test_a_result_is_current_only_for_unchanged_files(self) -> None:
        """A file is a byte longer with the same time, a nanosecond newer, or missing."""
        for name in ("one.stl", "one.pes", "severity"):
            for what in ("longer", "newer", "missing"):
                request, earlier = self.make_accepted_result()
                self.must(f"{name} unchanged", is_current(earlier, request, PROGRAM))
                path, before = self.path(name), os.stat(self.path(name))
                if what == "missing":
                    os.unlink(path)
                elif what == "newer":
                    os.utime(path, ns=(before.st_atime_ns, before.st_mtime_ns + 1))
                else:
                    with open(path, "ab") as file:
                        file.write(b" ")
                    os.utime(path, ns=(before.st_atime_ns, before.st_mtime_ns))
                self.must(f"{name} {what}", not is_current(earlier, request, PROGRAM))


class StoredResults(Case):
    """JSON results that qc reads back."""

    def test_refuses_a_result_with_too_many_values_before_it_is_loaded(self) -> None:
        """`json.loads` would raise the error "loaded". Commas, [ and { are counted as values."""
        too_many = "has more than 2,000,000 values"
        for data, reason in ((b"0," * MAX_VALUES, too_many), (b"[]," * (MAX_VALUES // 2), too_many),
                             (b"{}," * (MAX_VALUES // 2), too_many),
                             (b'0],"b":0,' + b'"b":0,' * MAX_VALUES + b'"c":[', too_many),
                             (b"0," * 1000, "loaded")):
            path = self.write("many.json", b'{"verdict":0,"format":%d,"a":[' % FORMAT +
                              data + b"0]}")
            with mock.patch("json.loads", side_effect=ValueError("loaded")):
                result = read_result(path) or {}
            self.must(f"{data[:9]!r}", reason in result["reason"], result)

    def test_makes_a_table_row_of_each_result(self) -> None:
        faults = [{**FAULT, "line": f"refused {number}", "number": 5, "name": "X",
                   "frame": number}
                  for number in range(120)]
        faults.append({**FAULT, "cause": {"name": "late"}})  # counted by its cause, not as 72
        causes = {"late": 2, "early": 1}
        row = make_row(make_result(faults=faults, fault_count=7, seconds=1.5, hints=["72: a hint"],
                                   cause_counts={**causes, "never": 0}), "name")
        self.check("refused", row, Row(
            "name", "one.stl one.ts", "refused", 1, "refused 72 Content", 7,
            {**causes, "5 X": 120}, [f"refused {number}" for number in range(100)], 1.5, "a hint",
            sentence=row.sentence, clock=row.clock))
        self.check("not judged", make_row(make_unjudged("name", "why", "input"), "name"), Row(
            "name", "name", "not judged", 2, "why", 0, {}, [], 0.0, ""))
        for name, result, line, is_judged in (
                ("reason", make_result("not judged"), "why", False),
                ("worst fault", make_result(line="refused 10 A", worst_fault="refused 72 B"),
                 "refused 72 B", True),
                ("no pair", make_unjudged("x", "why", "input"), "why", False)):
            row = make_row(result, "x")
            self.check(name, (row.line, row.is_judged), (line, is_judged))

    def test_refuses_results_of_another_format_or_shape(self) -> None:
        path, misfit = self.path("one.json"), "does not match docs/verdict.schema.json at"
        changes = [(row["name"], json.loads(row["change"]), f"{misfit} {row['place']}")
                   for row in read_vectors("misfits.tsv")]
        changes += [("row 25 of the second fault", {"faults": [FAULT, {**FAULT, "row": 25}]},
                     f"{misfit} .faults[1].row"),
                    ("format 3", {"format": 3}, "has format 3, but this version reads format 8")]
        for name, change, reason in changes:
            write_result_file(path, {**make_result(), **change})
            self.check(name, read_result(path), make_unjudged(
                "one", f"its JSON result {reason}: judge it again", "input"))

    def test_reads_back_valid_results(self) -> None:
        path, changes = self.path("one.json"), list[dict[str, Any]]([
            {}, {"faults": [FAULT, FAULT]}, {"seconds": 5}, make_result("not judged"),
            make_result("waived"), make_result("lost")])
        for change in changes:
            write_result_file(path, {**make_result(), **change})
            self.check(f"{change}", read_result(path), {**make_result(), **change})

    def test_other_json_files_are_no_results_but_a_missing_file_is_unjudged(self) -> None:
        for text in (b"[]", b"{}"):
            self.check(f"{text!r}", read_result(self.write("one.json", text)), None)
        self.check("missing", (read_result(self.path("none.json")) or {}).get("name"), "none")

    def test_follows_no_link_to_a_result(self) -> None:
        write_result_file(self.path("one.json"), make_result("accepted"))
        os.symlink("one.json", self.path("link.json"))
        self.check("link", (read_result(self.path("link.json")) or {})["verdict"], "not judged")

    def test_stores_the_kind_of_the_error_that_prevents_reading_a_result(self) -> None:
        for error, kind in (OSError(), "resource"), (MemoryError(), "resource"), (Stop(), "input"):
            with mock.patch("subtitles.results.files.read_json", side_effect=error):
                self.check(f"{error!r}", (read_result("a") or {})["not_judged_kind"], kind)

    def test_collect_refuses_another_format(self) -> None:
        for name, number in (("a", 8), ("b", 7), ("c", 7)):
            write_result_file(self.path(f"{name}.json"), {**make_result(), "format": number})
        process = self.tool("qc", "--collect", ".", "--json", "all.json")
        reason = "./b.json is in JSON format 7, but this version reads format 8: judge these " \
            "pairs again into another folder"
        self.check("told", (process.status, process.out, process.errors),
                   (2, b"", [f"qc: {reason}"]))
        self.check("pairs", [item["reason"] for item in json.loads(self.read("all.json"))["pairs"]],
                   [reason])

    def test_refuses_an_inconsistent_result_without_a_pair(self) -> None:
        """Of all combinations, only `not judged` with status 2 and a reason is read as it is."""
        path, others = self.path("one.json"), list[dict[str, Any]]([{}, {"line": "accepted"}])
        for verdict, status, reason, more in itertools.product(
                (*STATUSES, "other", None), (0, 1, 2, None), ("why", "", None), others):
            written = {**make_unjudged("one", "why", "input"), "verdict": verdict, "status": status,
                       "reason": reason, **more}
            write_result_file(path, written)
            result = read_result(path) or {}
            is_valid = (verdict, status, reason, more) == ("not judged", 2, "why", {})
            self.assertEqual((result == written, make_row(result, "one").status), (is_valid, 2),
                             written)

    def test_reads_only_visible_json_files_in_order(self) -> None:
        for name in ("b.json", "a.json", ".c.json", "d.txt", "e.jsonl"):
            write_result_file(self.path(name), make_result())
        os.mkdir(self.path("f.json"))
        self.check("names", [os.path.basename(path) for path, _ in read_results(self.folder)],
                   ["a.json", "b.json"])

    def test_reports_a_judging_process_without_a_result(self) -> None:
        path = self.path("one.json")
        self.check("status 2", read_call_result(path, "one", 2, [])["reason"],
                   "the judging process wrote no result")
        self.check("killed by signal 9", read_call_result(path, "one", -9, ["qc: last"])["reason"],
                   "the process was killed")

    def test_replaces_only_results_tables_and_empty_files(self) -> None:
        # A file's contents, how a result or table begins, and whether that may replace the file
        for data, begin, expected in (
                (b"{", b"{", True), (b"", b"{", True), (b"GSI", b"{", False),
                (b" {", b"{", False), (b'{"a', b"{", True),
                *((data, b"stl,recording,", is_own) for data, is_own in (
                    (b"stl,recording,part", True), (b"", True), (b"stl", False), (b"{", False)))):
            path = self.write("x", data)
            self.check(f"{data!r}, {begin!r}", can_replace(path, begin), expected)
        self.must("missing file, device", can_replace(self.path("none"))
                  and can_replace("/dev/zero"))


class WatchedFolders(Case):
    """Runs of `qc --watch in -o out`, in which the judging of the pair `a` is simulated."""

    def setUp(self) -> None:
        super().setUp()
        for name in ("in", "out"):
            os.mkdir(self.path(name))
        for name in ("in/a.stl", "in/a.ts"):
            self.write(name, b"1")

    def arguments(self, **more: Any) -> argparse.Namespace:
        return argparse.Namespace(**{
            **vars(make_default_options()), "watch": self.path("in"), "out": self.path("out"),
            "settled": 0, "is_kept": True, "jobs": 3, "limit": 7, "every": 99, **more})

    def test_requires_two_different_folders_and_makes_the_output_folder(self) -> None:
        self.assertRaises(Stop, refuse_folders, self.arguments(out=None))
        self.assertRaises(Stop, refuse_folders, self.arguments(watch=self.path("missing")))
        refuse_folders(self.arguments(out=self.path("new")))
        self.must("new", os.path.isdir(self.path("new")))
        os.symlink("in", self.path("link"))
        for name in ("in", "link"):
            self.assertRaises(Stop, refuse_folders, self.arguments(out=self.path(name)))

    def test_refuses_a_folder_with_foreign_files(self) -> None:
        """A result is foreign in the place of the state."""
        for name, data in (("index.html", b"theirs"), (".lock", b"theirs"),
                           ("state.json", b'{\n "format": 7,\n "verdict": "accepted"')):
            path = self.write(f"out/{name}", data)
            self.assertRaises(Stop, refuse_folders, self.arguments())
            os.unlink(path)

    def test_prints_each_verdict_and_updates_the_index(self) -> None:
        """Results of two pairs are in `out` before. Printed lines begin with the date and time."""
        for name in ("old", "older"):
            write_result_file(self.path(f"out/{name}.json"), make_result("accepted"))
        self.write("out/x.json", b"[]")
        results = collection.FolderRows(self.path("out"))
        self.check("rows", list(results.rows), ["old", "older"])
        with capture_output() as (out, _):
            results.add(make_table_row("b", "accepted", "accepted 5"))
            results.add(make_table_row("a", "refused", "refused 72 X", "a hint"))
        results.write_page(is_last=True)
        self.check("lines", [line[TIME_WIDTH:] for line in out.getvalue().splitlines()],
                   ["b  accepted", "a  refused: 72 X: a hint"])
        page = self.read("out/index.html").decode()
        self.must("index, refused pair first", "4 pairs" in page
                  and page.index("<td>a<") < page.index("<td>b<"), page)
        with capture_output():
            results.add(make_table_row("b", "not judged", "why"))
        results.write_page(is_last=True)
        self.must("new verdict of b", "4 pairs: 2 accepted, 1 not judged, 1 refused" in self.read(
            "out/index.html").decode())

    def test_prints_a_verdict_if_the_index_cannot_be_written(self) -> None:
        results = collection.FolderRows(self.path("out"))
        results.next_page = 0.0  # the next result writes the index
        with capture_output() as (out, errors), mock.patch.object(
                collection, "open_result", side_effect=OSError(28, "full")):
            results.add(make_table_row("c", "accepted", "accepted 5"))
        self.must("printed", "full" in errors.getvalue() and "c  accepted" in out.getvalue())

    def test_writes_the_index_of_many_pairs_less_often(self) -> None:
        """With N pairs at most every N / 1000 seconds, but always at the end if it has changed."""
        results, pages = collection.FolderRows(self.path("out")), list[int]()
        results.rows = {f"{at}": make_table_row(f"{at}", "accepted") for at in range(9999)}
        events: list[tuple[float, str, int]] = [  # time in seconds, event, pages written
            (100.0, "result", 1), (100.1, "result", 0), (109.9, "scan", 0), (110.0, "scan", 1),
            (150.0, "scan", 0), (150.1, "result", 1), (150.2, "end", 0), (150.3, "result", 0),
            (150.4, "end", 1)]
        with mock.patch.object(collection, "write_index", lambda *_: pages.append(1)), \
                capture_output():
            for seconds, event, count in events:
                pages.clear()
                with mock.patch.object(time, "monotonic", return_value=seconds):
                    if event == "result":
                        results.add(make_table_row("one", "accepted"))
                    else:
                        results.write_page(is_last=event == "end")
                self.check(f"{seconds}: {event}", len(pages), count)

    def run_watch(self, scans: int, judge_item: Callable[[PairRunner, BatchItem], Row],
                  change: Callable[[int], None] = lambda scan: None) -> list[str]:
        """Interrupt `qc --watch` after some scans of the folder. Return the printed verdicts.

        `judge_item` judges a pair. `change` is called with the number of each finished scan.
        """
        count = 0

        def finish_scan(seconds: float) -> None:
            nonlocal count
            count += 1
            self.assertEqual(seconds, batch.SCAN_SECONDS)
            if count == scans:
                raise KeyboardInterrupt
            change(count)

        def judge(runner: PairRunner, waiting: collections.deque[BatchItem],
                  jobs: int) -> Iterator[Row]:
            self.must("options", (runner.command_paths.program_path, runner.is_kept, runner.limit,
                                  jobs) == (self.path("program"), True, 7, 3)
                      and runner.inputs.names
                      and waiting[0].request.every == 99)  # type: ignore[union-attr]
            while waiting:
                yield judge_item(runner, waiting.popleft())

        with mock.patch("signal.signal"), mock.patch("time.sleep", finish_scan), \
                mock.patch.object(batch, "judge_next_items", judge), \
                capture_output() as (out, _):
            os.symlink(self.bench.program, self.path("program"))
            status = batch.watch(self.arguments(program=self.path("program")), "tools/qc")
        self.check("status", status, 2)
        return [line[TIME_WIDTH:] for line in out.getvalue().splitlines()]

    def write_current_result(self, name: str, **more: Any) -> None:
        """Write a result of a pair's present files, with the options of `arguments`."""
        request = make_example_request(self.path(f"in/{name}.stl"), self.path(f"in/{name}.ts"),
                                       "--every", "99")
        program = schema.PROGRAM.to_json(describe_program(self.bench.program))
        write_result_file(self.path(f"out/{name}.json"), make_result(
            request=REQUEST.to_json(request), program=program,
            files_at_start={**describe_inputs(request), **more}))

    def test_judges_only_pairs_without_a_current_result(self) -> None:
        """The results of `a` and `c` are current, that of `b` names no subtitle file."""
        for name in ("a", "b", "c"):
            for ending in ("stl", "ts"):
                self.write(f"in/{name}.{ending}", b"1")
            self.write_current_result(name, **({"stl": None} if name == "b" else {}))
        reads = []

        def read(path: str, is_refused: bool = False) -> dict[str, Any] | None:
            reads.append(os.path.basename(path))
            return read_result(path, is_refused)

        with mock.patch("subtitles.results.files.read_result", read), \
                mock.patch("subtitles.cli.batch.read_result", read):
            lines = self.run_watch(6, lambda _, item: make_table_row(item.name, "accepted"))
        self.check("judged", lines, ["b  accepted"])
        self.check("each result is read once", sorted(reads), ["a.json", "b.json", "c.json"])

    def test_keeps_the_state_of_a_watched_folder_for_monitoring(self) -> None:
        states = []

        def judge_item(runner: PairRunner, item: BatchItem) -> Row:
            runner.report()
            states.append(json.loads(self.read("out/state.json")))
            return make_table_row(item.name, "accepted")

        with mock.patch.object(collection, "STATE_SECONDS", 0.0):
            self.run_watch(6, judge_item)
        states.append(json.loads(self.read("out/state.json")))
        self.check("waiting, verdicts, last result: before and after judging", [
            (state["waiting"], state["verdicts"], state["last_result"]) for state in states],
            [(1, {}, ""), (0, {"accepted": 1}, "a: accepted")])

    def test_reports_a_locked_pair_once_and_judges_it_when_it_is_free(self) -> None:
        """The pair is locked until the fourth of eight scans has ended. The first only finds it."""
        begun = list[bool]()

        def judge_item(runner: PairRunner, item: BatchItem) -> Row:
            row = runner.start(item)
            begun.append(row is None)
            return row or make_table_row(item.name, "accepted")

        lock = contextlib.ExitStack()
        lock.enter_context(lock_pair(self.path("out"), "a"))
        with lock, mock.patch.object(PairRunner, "start_locked_pair", return_value=None):
            lines = self.run_watch(8, judge_item, lambda scan: lock.close() if scan == 4 else None)
        self.check("begun", begun, [False, False, False, True])
        self.must("lock", "another run of qc is writing the files of pair a" in lines[0], lines)
        self.check("lines after that about the lock", lines[1:], ["a  accepted"])

    def test_judges_a_pair_again_when_it_changes(self) -> None:
        """`a` changes after scans 2 and 5. `b` appears after scan 2, and changes after scan 5."""

        def change(scan: int) -> None:
            if scan in (2, 5):
                for name in ("in/a.ts", "in/b.stl", "in/b.ts"):
                    self.write(name, b"1" * scan)

        lines = self.run_watch(9, lambda _, item: make_table_row(item.name, "accepted"), change)
        self.check("judged", lines, [f"{name}  accepted" for name in "aabab"])

    def test_judges_a_pair_again_when_it_changes_back(self) -> None:
        """The recording grows after scan 2, and is as in its earlier result after scan 5."""
        self.write_current_result("a")
        before = os.stat(self.path("in/a.ts")).st_mtime_ns

        def change(scan: int) -> None:
            if scan in (2, 5):
                os.utime(self.write("in/a.ts", b"1" * (1 + (scan == 2))), ns=(before, before))

        lines = self.run_watch(9, lambda _, item: make_table_row(item.name, "accepted"), change)
        self.check("judged", lines, ["a  accepted"] * 2)

    def test_reports_the_reason_of_an_incomplete_pair_when_it_changes(self) -> None:
        watch = FolderWatch(self.path("in"), 0)
        with capture_output() as (_, errors):
            for reason in (*["first"] * 3, *["second"] * 3, *["first"] * 3):
                self.check(reason, watch.find_ready_items([BatchItem("a", None, reason)]), [])
        self.check("lines", [line.partition(": ")[2] for line in errors.getvalue().splitlines()],
                   ["first", "second", "first"])
