"""Test the output for several pairs: CSV rows, JUnit test cases and JSON results."""
from __future__ import annotations

import argparse
import calendar
import contextlib
import csv
import dataclasses
import io
import json
import os
import time
import unittest
from types import SimpleNamespace
from typing import Any
from unittest import mock
from xml.etree import ElementTree

from subtitles.cli import collection
from subtitles.cli.single import now
from subtitles.clock.start import GIVEN
from subtitles.common.checks import LOSSES, NO_VIDEO, ROW_0, UNREAD
from subtitles.common.command_line import escape_hidden
from subtitles.common.files import SummedFile
from subtitles.judging.status import STATUSES
from subtitles.judging.verdict import Gap
from subtitles.results.files import (
    Row, TestCase, format_cell, make_column_rows, make_junit_file, format_change_time,
    make_part_columns, make_row, escape_table_value, make_table_lines, make_unjudged)
from subtitles.results.schema import JUDGED_PART, LOSS, PartResult
from subtitles.stream.gaps import LossPlace
from .bench import Case
from .parts import make_part
from .results import FAULT, REQUEST, make_result

NO_CELL = {"code": "00", "character": ""}


def fault(number: int, **more: Any) -> dict[str, Any]:
    return {**FAULT, "number": number, "line": f"refused {number}", **more}


def subtitle(number: int, begin: str, end: str) -> dict[str, object]:
    return {"position": number, "number": number, "begin": begin, "end": end}


# Results of three pairs: refused with two faults, not judged, and accepted.
CAUSE = {"name": "late", "frames": 3, "subtitle": subtitle(9, "3", "4"), "expected_text": "due",
         "decoded_text": "other", "line": "late by 3"}
RESULTS: list[dict[str, Any]] = [
    make_result("refused", line="refused 72", faults=[
        fault(72, subtitle=subtitle(7, "1", "2"), cause=CAUSE,
              expected={"code": "41", "character": "A"}, decoded=NO_CELL), fault(38, pes=5)]),
    make_unjudged("two", "no file\nat all", "input"),
    make_result("accepted", request={**REQUEST, "stl": "three.stl", "recording": None},
                line="accepted")]


class Tables(unittest.TestCase):
    """The CSV file (--csv) of some results."""

    def read_csv(self, results: list[dict[str, Any]]) -> list[dict[str, str]]:
        text = b"".join(make_table_lines(results)).decode()
        return list(csv.DictReader(io.StringIO(text)))

    def test_has_a_row_for_each_pair_and_each_fault(self) -> None:
        result = [(row["stl"], row["recording"], row["verdict"], row["number"], row["pes"],
                   row["reason"], row["line"]) for row in self.read_csv(RESULTS)]
        self.assertEqual(result, [
            ("one.stl", "one.ts", "refused", "", "", "", "refused 72"),
            ("one.stl", "one.ts", "refused", "72", "", "", "refused 72"),
            ("one.stl", "one.ts", "refused", "38", "5", "", "refused 38"),
            ("two", "", "not judged", "", "", "no file\nat all", ""),
            ("three.stl", "", "accepted", "", "", "", "accepted")])

    def test_names_the_checks_that_were_not_made(self) -> None:
        unchecked = {"kind": NO_VIDEO, "part": 1, "from": None, "to": None, "text": "x"}
        self.assertEqual([row["not_checked"] for row in self.read_csv([
            make_result("accepted", not_checked=[unchecked])])], [NO_VIDEO])

    def test_has_subtitle_counts_in_each_row(self) -> None:
        for counts, expected in (({"judged": 9, "refused": 2}, ("9", "2")), (None, ("", ""))):
            rows = self.read_csv([make_result("refused", subtitle_counts=counts,
                                              faults=[fault(38)] * 150)])
            names = ("subtitle_counts_judged", "subtitle_counts_refused")
            self.assertEqual([tuple(row[name] for name in names) for row in rows],
                             [expected] * (1 + 150), counts)

    def test_has_columns_for_subtitle_cells_and_cause(self) -> None:
        first_fault, second_fault = self.read_csv(RESULTS[:1])[1:]
        names = ("subtitle_number", "subtitle_begin", "subtitle_end", "expected", "decoded",
                 "cause_name", "cause_frames", "cause_subtitle_number", "cause_expected_text",
                 "cause_decoded_text", "cause_line")
        self.assertEqual([first_fault[name] for name in names], [
            "7", "1", "2", "41 A", "00", "late", "3", "9", "due", "other", "late by 3"])
        self.assertEqual([second_fault[name] for name in names], [""] * len(names))
        self.assertEqual(format_cell(None), "")


class Testcases(unittest.TestCase):
    """The JUnit file (--junit), which has a test case for each pair."""

    # The element in a test case, by the verdict and exit status of its pair.
    CONTENTS = {("accepted", 0): None, ("valid", 0): "system-out", ("waived", 0): "system-out",
                ("relative", 0): "system-out",
                ("relative", 3): "failure", ("refused", 1): "failure", ("lost", 1): "failure",
                ("warned", 1): "failure", ("not judged", 2): "error"}

    def test_contents_list_each_verdict(self) -> None:
        self.assertEqual({verdict for verdict, _ in self.CONTENTS}, {*STATUSES})

    def test_counts_failures_and_errors_and_adds_up_the_times(self) -> None:
        pairs, half_a_second = [*self.CONTENTS, ("refused", 1), ("not judged", 2)], 0.5
        for count in range(len(pairs) + 1):
            suites = ElementTree.fromstring(make_junit_file([
                TestCase("pair", verdict, status, "line", ["more"], half_a_second)
                for verdict, status in pairs[:count]], "2026-11-26T10:00:00Z"))
            contents = [self.CONTENTS[pair] for pair in pairs[:count]]
            with self.subTest(pairs[:count][-1:]):
                for element in (suites, suites[0]):
                    self.assertEqual(
                        {name: element.get(name) for name in ("tests", "failures", "errors", "time")
                         }, {"tests": f"{count}", "failures": f"{contents.count('failure')}",
                             "errors": f"{contents.count('error')}",
                             "time": f"{count * half_a_second:.3f}"})

    def test_a_test_case_has_name_time_and_first_lines(self) -> None:
        """The worst fault is "a\\ufffe\\nline". The fault list begins with "one" and "two"."""
        for (verdict, status), tag in self.CONTENTS.items():
            suite = ElementTree.fromstring(make_junit_file([TestCase(
                "a\x1bb", verdict, status, "a\ufffe\nline", ["one", "two"], 1.25)],
                "2026T10:00Z"))[0]
            attributes = {"message": "a\\ufffe\nline", "type": verdict} if status else {}
            with self.subTest(verdict=verdict, status=status):
                self.assertEqual((suite.get("timestamp"), suite.get("skipped")),
                                 ("2026T10:00", "0"))
                self.assertEqual(suite[0].attrib, {"classname": "subttx", "name": "a\\x1bb",
                                                   "time": "1.250"})
                self.assertEqual([(item.tag, item.text, item.attrib) for item in suite[0]], [
                    (tag, "a\\ufffe\nline\none\ntwo", attributes)] * (tag is not None))

    def test_names_unmade_checks_of_an_accepted_pair(self) -> None:
        """The sentence names them in the test case. The table prints those of CHECK_KINDS
        (not `row_0`), in its order."""
        accepted = make_row(make_result("accepted", sentence="Accepted. Not checked: x.",
                                        not_checked=[{"kind": kind, "part": 1, "from": None,
                                                      "to": None, "text": "x"}
                                                     for kind in (ROW_0, LOSSES, UNREAD)]), "a")
        case = TestCase("a", "accepted", 0, "line", [], 0.5, sentence=accepted.sentence,
                        not_checked=accepted.not_checked)
        suite = ElementTree.fromstring(make_junit_file([case], "2026T10:00Z"))[0]
        self.assertEqual([(item.tag, item.text) for item in suite[0]],
                         [("system-out", "Accepted. Not checked: x.\nline")])
        self.assertEqual([line.split() for line in collection.format_summary([accepted])][1],
                         ["a", "accepted", "0", "not", "checked:", "video_unread,", "losses"])


class Statuses(Case):
    """The exit status of a batch with one accepted pair, by its output files."""

    ROW = Row("one", "one.stl", "accepted", 0, "accepted", 0, {}, [], 0.0, "")
    KINDS = ("csv", "junit", "json")

    def write_outputs(self, paths: dict[str, str], **more: Any) -> int:
        self.write("one.json", b'{"format": 3, "verdict": "accepted", "status": 0, "line": "a"}')
        args = argparse.Namespace(csv=None, junit=None, json=None)
        vars(args).update(paths)
        with contextlib.redirect_stdout(io.StringIO()), contextlib.redirect_stderr(io.StringIO()):
            return collection.write_collection(args, [self.ROW], [self.path("one.json")], **more)

    def test_is_2_if_an_output_fails(self) -> None:
        missing_folder = self.path("nowhere/at/all")
        self.check("index page", self.write_outputs({}, folder=missing_folder), 2)
        for kind in self.KINDS:
            others = {other: self.path(f"out.{other}") for other in self.KINDS if other != kind}
            self.check(f"{kind} alone", self.write_outputs({kind: missing_folder}), 2)
            self.check(f"{kind} of all", self.write_outputs({**others, kind: missing_folder}), 2)
            if kind != "json":
                self.check(f"{kind}: status in the JSON file",
                           json.loads(self.read("out.json"))["status"], 2)


class Members(unittest.TestCase):
    """Members of JSON results and columns of CSV rows."""

    def test_writes_times_in_utc(self) -> None:
        """The clock of the machine is five hours ahead of UTC."""
        self.addCleanup(time.tzset)
        with mock.patch.dict(os.environ, TZ="EAST-5"):
            time.tzset()
            date = calendar.timegm(time.strptime(now(), "%Y-%m-%dT%H:%M:%SZ"))
            file_status: Any = SimpleNamespace(st_mtime_ns=1_000_000_007)
            self.assertLess(abs(date - time.time()), 600)
            self.assertEqual(format_change_time(file_status), "1970-01-01T00:00:01.000000007Z")

    def test_writes_a_gap_with_times_and_pts(self) -> None:
        place = LossPlace(5, 9, 3, scrambled=2, missing=4, gap_marker=7)
        for is_judged in (True, False):
            result = LOSS.to_json(Gap("00:00:01:00", None, "3 lost", place, is_judged))
            self.assertEqual(result, {
                "from": "00:00:01:00", "to": None, "from_pts": 5, "to_pts": 9, "gap_marker": 7,
                "lost_ts_packets": 3, "scrambled_ts_packets": 2, "missing_ticks": 4,
                "judged": is_judged})

    # Frames and a PTS. `make_part` adds the answer `accepted 10 frames 2 transmissions`.
    PART = make_part(begin=25, end=49, origin=7, number=2)

    def test_writes_the_judged_range_and_clock_of_a_part(self) -> None:
        result = JUDGED_PART.to_json(PartResult(self.PART, False))
        self.assertEqual([result[name] for name in (
            "part", "origin", "from", "to", "verdict", "frames", "transmissions", "fault_count",
            "pid", "packet_size", "pes", "judged_file")], [
            2, 7, "00:00:01:00", "00:00:01:24", "accepted", 10, 2, 0, None, None, None, None])
        self.assertEqual(result["clock"], {"origin": 7, "source": GIVEN, "delay_frames": None})

    def test_writes_the_judged_file_of_a_part_without_a_clock(self) -> None:
        """A cut PES file from PID 0x101, with 204-byte packets. Only a kept file has a name."""
        recording: Any = SimpleNamespace(stream=lambda: (0x101, 204))
        part = dataclasses.replace(self.PART, recording=recording, pes=(3, 9), alignment=None,
                                   judged_file=SummedFile("a.cut.pes", 5, "sum"))
        for is_kept, name in ((True, "a.cut.pes"), (False, None)):
            result = JUDGED_PART.to_json(PartResult(part, is_kept))
            self.assertEqual([result[member] for member in ("pid", "packet_size", "pes",
                                                            "judged_file", "clock")],
                             [0x101, 204, "3-9", {"name": name, "size": 5, "sha256": "sum"}, None],
                             is_kept)

    def test_a_row_has_the_columns_of_one_part(self) -> None:
        parts: list[dict[str, Any]] = [
            {"part": number, "pid": pid, "pes": f"{number}-9", "packet_size": 188}
            for number, pid in ((1, 0x101), (2, None))]
        first, second = ({"part_part": number, "part_pid": pid, "part_pes": f"{number}-9",
                          "part_packet_size": 188}
                         for number, pid in ((1, "0x101"), (2, None)))
        nothing: dict[str, object] = {}
        # The number of parts, the part that a row names, and its columns. If it names none, it has
        # those of the only part.
        for count, number, expected in ((1, None, first), (2, None, nothing), (2, 1, first),
                                        (2, 2, second), (2, 3, nothing), (0, None, nothing)):
            self.assertEqual(make_part_columns(parts[:count], number), expected, (count, number))
        result = make_result(parts=parts, faults=[{**FAULT, "part": part} for part in (1, 2, 1)])
        self.assertEqual([{name: row.get(name) for name in first}
                          for row in make_column_rows(result)],
                         [dict.fromkeys(first), first, second, first])

    def test_a_cell_has_no_control_character_and_is_no_formula(self) -> None:
        self.assertEqual(escape_table_value("a\nb\x07"), "a\n" + escape_hidden("b\x07"))
        self.assertEqual((escape_table_value(5), escape_table_value(-5), escape_table_value(None)),
                         (5, -5, None))
        for text in ("=1+1", "+1", "-1", "@A1", "=a\nb"):
            self.assertEqual(escape_table_value(text), f"'{text}", text)
        self.assertEqual((escape_table_value("a=1"), escape_table_value("\ta")), ("a=1", "\\x09a"))
