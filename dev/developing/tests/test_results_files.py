"""Test that JSON results are written, read back, validated and collected correctly."""
from __future__ import annotations

import argparse
import contextlib
import copy
import io
import json
import os
import random
from typing import Any, Iterator, Sequence
from unittest import mock

from subtitles.cli import collection
from subtitles.cli.batch import PairRunner, read_resumed_rows
from subtitles.common.command_line import Stop
from subtitles.common.program import TOP, read
from subtitles.common.shapes import Integer, ListOf
from subtitles.formats.listing import SILENT, UNDECIDED
from subtitles.request.commands import CommandPaths
from subtitles.request.lines import BatchItem
from subtitles.results import files
from subtitles.results.files import (
    make_table_lines, make_unjudged, read_result, write_result_file)
from subtitles.results.schema import (
    FAULT as ROWS_OF_FAULT, FORMAT, LISTS, VERDICT, find_misfit, schema)
from ..pages import SCHEMA, format_json
from .bench import Case, read_example_file
from .judged import judge_files
from .parts import make_example_request
from .results import (
    REQUEST, FAULT, capture_output, list_violations, make_result, make_table_row, make_validator)
from .stories import read_vectors

SEED, CHANGES = 20261128, 300  # of random changes of results
INVALID_VALUES: list[Any] = [
    None, True, False, -1, 0, 1, 80, 5.5, 1 << 53, 1 << 62, "", "x", "refused 72 X", "\x1b[31m",
    "\ud800", "\udce9", "<script>alert(1)</script>", "=1+1", "99:99:99:99", "x" * 70_000, "\n", [],
    {}, [[]], [{}], {"a": 1}, "accepted", "refused", "not judged", "2026-99-99T99:99:99Z"]
# Contents of invalid result files, and the reported reasons.
TEXTS = {
    b"[" * 100_000: "it is nested too deeply", b'{"a":' * 100_000: "it is nested too deeply",
    b'{"verdict": ' + b"9" * 5_000 + b"}": "is not a number",
    b'{"verdict": NaN}': "is not a number",
    b'{"verdict": -Infinity}': "is not a number", b"": "Expecting value",
    b"\xff": "codec can't decode",
    b"\xef\xbb\xbf{}": "Unexpected UTF-8 BOM", b'{"verdict"': "Expecting"}


def changed(known: Any, chance: random.Random) -> Any:
    """Return a copy of a result in which one value is replaced, deleted or added."""
    result = copy.deepcopy(known)
    places = [*list_places(result)]
    holder, key = chance.choice(places)
    how = chance.randrange(8)
    if how == 0:
        del holder[key]
    elif how == 1 and isinstance(holder, dict):
        holder[f"{key}x"] = holder[key]
    elif how == 2:
        other, place = chance.choice(places)
        with contextlib.suppress(KeyError, IndexError):
            holder[key] = copy.deepcopy(other[place])
    else:
        holder[key] = chance.choice(INVALID_VALUES)
    return result


def list_places(value: Any) -> Iterator[tuple[Any, Any]]:
    """Yield, for each dictionary and list in a JSON value, the container and each key or index."""
    keys: Sequence[Any] = list(value) if isinstance(value, dict) else \
        range(len(value)) if isinstance(value, list) else ()
    for key in keys:
        yield value, key
        yield from list_places(value[key])


def judge_story(case: Case, *args: str) -> dict[str, Any]:
    """Judge a recording with faults, and return a result with values of all types."""
    stl = case.write("story.stl", read_example_file("story.stl"))
    pes = case.write("x.pes", read_example_file("five-faults.pes"))
    return judge_files(case, stl, pes, *args).result


class WrittenResults(Case):
    """JSON results of the story example, whose recording has faults, and their schema."""

    def test_the_schema_file_is_up_to_date(self) -> None:
        self.must("made", read(os.path.join(TOP, SCHEMA)) == format_json(schema()) + "\n",
                  "dev/make-pages")

    def test_a_new_member_of_faults_is_written_validated_and_required(self) -> None:
        """The new member is 3. It is in the table of members only while `patch` is active."""
        row = ROWS_OF_FAULT.members[0]._replace(name="new", shape=Integer(3, 3), getter=lambda _: 3)
        with mock.patch.multiple(ROWS_OF_FAULT, members=(*ROWS_OF_FAULT.members, row),
                                 shapes={**ROWS_OF_FAULT.shapes, "new": row.shape},
                                 needed={*ROWS_OF_FAULT.needed, "new"}):
            result = judge_story(self)
            self.check("written", [fault["new"] for fault in result["faults"]], [3] * 4)
            new = schema()["definitions"]["fault"]["properties"]["new"]
            self.check("schema", (new["type"], new["minimum"], new["maximum"]), ("integer", 3, 3))
            self.check("valid only with the member", (
                find_misfit(result), find_misfit(make_result(faults=[FAULT]))),
                (None, ".faults[0].new"))
        self.check("not in the table", find_misfit(result), ".faults[0].new")

    def require_validator(self) -> None:
        if make_validator() is None:
            self.skipTest("the schema of results, since there is no python3-jsonschema")

    def test_the_schema_allows_fault_numbers_from_10_to_79(self) -> None:
        self.require_validator()
        for number, fits in ((9, False), (10, True), (UNDECIDED, True), (SILENT, True),
                             (80, False)):
            known = make_result(faults=[{**FAULT, "number": number}])
            self.check(f"{number}", (find_misfit(known) is None, not list_violations(known)),
                       (fits, fits))

    def test_omits_and_counts_the_faults_that_exceed_their_maximum(self) -> None:
        complete = judge_story(self)
        self.must("nothing is omitted", not any(complete["omitted"].values()), complete["omitted"])
        faults = next(item for item in LISTS if item.name == "faults").shape
        for most in (0, 1, 3, 4):
            with mock.patch.object(faults, "most", most):
                known = judge_story(self)
            self.check(f"at most {most}", (known["faults"], known["omitted"]), (
                complete["faults"][:most], {**complete["omitted"], "faults": 4 - most}))

    def test_omits_the_items_of_all_lists_that_exceed_the_bytes(self) -> None:
        complete = judge_story(self)
        counts = {item.name: len(complete[item.name]) for item in LISTS}
        with mock.patch.object(files, "MAX_BYTES", 0):
            known = judge_story(self)
        self.check("0 bytes", (known["omitted"], known["fault_count"]), (counts, 4))
        size = sum(len(json.dumps(item, ensure_ascii=False).encode()) for name in counts
                   for item in complete[name])
        for limit, omitted in ((size, 0), (size - 1, 1)):  # subtitles are the last list
            with mock.patch.object(files, "MAX_BYTES", limit):
                self.check(f"{limit} bytes", judge_story(self)["omitted"]["subtitles"], omitted)

    def test_rejects_a_status_or_request_that_contradicts_the_verdict(self) -> None:
        self.require_validator()
        for row in read_vectors("verdict-requests.tsv"):
            known = make_result(row["verdict"], status=int(row["status"]), request={
                **REQUEST, "origin": None, **json.loads(row["request"])})
            self.check(f"{row['verdict']} {row['status']} {row['request']}", (
                find_misfit(known) is None, not list_violations(known)),
                (row["valid"] == "yes",) * 2)

    def test_cuts_a_text_that_is_too_long(self) -> None:
        known = make_unjudged("x", "y" * 70_000, "input")
        self.check("length, error", (len(known["reason"]), find_misfit(known)), (65_536, None))


class UntrustedResults(Case):
    """Files in the place of JSON results: valid results with a random change, and other JSON."""

    def test_table_and_schema_agree_on_changed_results(self) -> None:
        chance, valid_count, validator = random.Random(SEED), 0, make_validator()
        if validator is None:
            self.skipTest("changed results, since there is no python3-jsonschema")
        known = [judge_story(self, "--every", "25"), make_unjudged("one", "why", "input")]
        for number in range(CHANGES):
            result = changed(known[number % 9 == 8], chance)
            is_valid = validator.is_valid(result)
            self.check(f"change {number}", find_misfit(result) is None, is_valid)
            valid_count += is_valid
        self.must("some of each", CHANGES // 20 < valid_count < CHANGES // 2, valid_count)

    def collect_all(self) -> list[dict[str, Any]]:
        """Read the results in `out` with --collect, --watch and --resume. Return the pairs."""
        runner = PairRunner(CommandPaths("tools/qc", self.bench.program), self.folder,
                            self.path("out"), False)
        with capture_output():
            status = collection.collect(argparse.Namespace(
                collect=self.path("out"), csv=self.path("x.csv"), junit=self.path("x.xml"),
                json=self.path("x.json")))
            rows = collection.FolderRows(self.path("out")).rows
        collection.write_index(self.path("out"), [*rows.values()])
        names = sorted(name.removesuffix(".json") for name in os.listdir(self.path("out"))
                       if name.endswith(".json"))
        self.check("names", sorted(rows), names)
        request = make_example_request(self.path("story.stl"), self.path("x.pes"))
        read_resumed_rows(runner, [BatchItem(name, request, None) for name in names])
        pairs: list[dict[str, Any]] = json.loads(self.read("x.json"))["pairs"]
        self.check("status, pairs", (status, len(pairs)), (2, len(names)))
        self.must("all are valid", all(find_misfit(pair) is None for pair in pairs))
        return pairs

    def test_lists_any_changed_result_by_its_name(self) -> None:
        """A result that is not valid any more is an unjudged pair with the name of its file."""
        chance, known = random.Random(SEED + 1), judge_story(self, "--every", "25")
        os.mkdir(self.path("out"))
        for number in range(CHANGES // 2):
            result = changed(known, chance)
            if isinstance(result, dict) and "verdict" in result:
                self.write(f"out/{number:03}.json", json.dumps(result).encode())
        self.write("out/none.json", b"{")
        pairs = self.collect_all()
        self.must("some are valid", sum("request" in pair for pair in pairs) > 5)
        self.must("names of the others", all("request" in pair or pair["name"] in {"none", *(
            f"{number:03}" for number in range(CHANGES))} for pair in pairs))

    def test_refuses_deep_and_invalid_json(self) -> None:
        judge_story(self, "--every", "25")  # writes the files to which the results are compared
        os.mkdir(self.path("out"))
        for number, (text, reason) in enumerate(TEXTS.items()):
            result = read_result(self.write(f"out/{number}.json", text)) or {}
            self.check(reason, (result["verdict"], result["name"]), ("not judged", f"{number}"))
            self.must(reason, reason in result["reason"], result)
        write_result_file(self.path("out/valid.json"), make_result("accepted"))
        self.collect_all()

    def test_refuses_a_large_result(self) -> None:
        path = self.path("one.json")
        write_result_file(path, make_result("accepted"))
        size = os.path.getsize(path)
        for limit, verdict in ((size, "accepted"), (size - 1, "not judged")):
            with mock.patch.object(files, "MAX_RESULT_BYTES", limit):
                self.check(f"{size} bytes, limit {limit}", (read_result(path) or {})["verdict"],
                           verdict)

    def test_each_list_of_a_result_is_limited(self) -> None:
        known = judge_story(self, "--every", "25")
        self.check("error, format", (find_misfit(known), known["format"]), (None, FORMAT))
        self.check("lists", {item.name for item in LISTS}, {
            item.name for item in VERDICT.members if isinstance(item.shape, ListOf)})

    def test_reads_back_the_largest_result(self) -> None:
        """qc reads twice the bytes that it writes, and more values than the largest lists have."""
        self.check("bytes", files.MAX_RESULT_BYTES, 2 * files.MAX_BYTES)
        text = json.dumps({**FAULT, "cause": {"name": "late", "line": "a, b, c", "subtitle": 1}})
        values = 20_000 * 2 * sum(map(text.count, ",{[")) + 100_000 * 4
        self.must("values of full lists of faults and causes, and 4 of each subtitle",
                  values < files.MAX_VALUES, values)


class CollectedResults(Case):
    """The table and the files that qc makes from the results of several pairs."""

    ROWS = [make_table_row("one", "accepted", "accepted 5 frames"),
            make_table_row("second", "refused", "refused 72 Content frame 1; more", "a hint", 12),
            make_table_row("c", "not judged", "why\nmore"),
            make_table_row("d", "waived", "waived: refused 5 X", "", 3)]

    def test_notes_a_clock_that_was_estimated(self) -> None:
        """`sources` has the source of each part's clock: an option, or the recording."""
        for sources, expected in (("", ""), ("given", ""), ("recording", files.NO_CLOCK),
                                  ("recording start", files.NO_CLOCK),
                                  ("start recording", files.LATER_CLOCK)):
            parts = [{"clock": {"source": source}} for source in sources.split()]
            self.check(sources, files.describe_clock({"parts": [*parts, {"clock": None}]}),
                       expected)

    def test_prints_columns_as_wide_as_their_widest_cell(self) -> None:
        self.check("table", list(collection.format_summary(self.ROWS)), [
            "pair    verdict     faults  worst fault", "one     accepted         0",
            "second  refused         12  72 Content frame 1: a hint",
            "c       not judged          why", "d       waived           3  waived: refused 5 X",
            "4 pairs: 1 accepted, 1 refused, 1 not judged, 1 waived"])
        self.check("one", list(collection.format_summary(self.ROWS[:1]))[-1], "1 pair: 1 accepted")

    def write_collection(self, **outputs: str) -> tuple[int, str, str]:
        """Collect all rows, and return the exit status, the output and the error output."""
        args = argparse.Namespace(csv=None, junit=None, json=None)
        vars(args).update(outputs)
        paths = [self.path(f"{item.name}.json") for item in self.ROWS]
        for item, path in zip(self.ROWS, paths):
            write_result_file(path, make_unjudged("c", "why\nmore", "input") if item.name == "c"
                              else make_result(item.verdict, line=item.line))
        with capture_output() as (out, errors):
            status = collection.write_collection(args, self.ROWS, paths)
        return status, out.getvalue(), errors.getvalue()

    def test_prints_the_table_and_outputs_that_could_not_be_written(self) -> None:
        table = "".join(f"{line}\n" for line in collection.format_summary(self.ROWS))
        self.check("no file", self.write_collection(), (2, table, ""))
        status, out, errors = self.write_collection(csv=self.path("no/x"), junit=self.path("no/y"))
        self.check("status, table", (status, out), (
            2, f"{table.rstrip()}; an output was not written\n"))
        first, second = errors.splitlines()
        self.must("messages", "no/x" in first and "no/y" in second, errors)

    def test_writes_all_pairs_into_each_file(self) -> None:
        self.write_collection(json=self.path("all"), csv=self.path("rows"),
                              junit=self.path("cases"))
        result = json.loads(self.read("all"))
        self.must("first members", self.read("all").startswith(
            b'{\n "format": %d,\n "status": 2,\n "date": "' % FORMAT))
        self.check("JSON", (result["status"], [pair["verdict"] for pair in result["pairs"]]),
                   (2, ["accepted", "refused", "not judged", "waived"]))
        self.check("CSV: heads, pairs, a fault", len(self.read("rows").splitlines()), 1 + 4 + 1)
        self.check("JUnit cases", self.read("cases").count(b"<testcase"), 4)

    def test_a_closed_standard_output_does_not_lose_the_csv_file(self) -> None:
        class ClosedOutput(io.StringIO):
            def write(self, text: str) -> int:
                raise BrokenPipeError  # the reader of the pipe has gone

        args = argparse.Namespace(csv=self.path("x.csv"), junit=None, json=None)
        accepted_and_refused, paths = self.ROWS[:2], [self.path("a"), self.path("b")]
        with mock.patch.object(collection, "discard_output") as discard, \
                contextlib.redirect_stdout(ClosedOutput()) as out:
            status = collection.write_collection(args, accepted_and_refused, paths)
        self.check("status", status, 1)
        self.check("the CSV file is written", os.path.exists(args.csv), True)
        self.check("discarded", discard.call_args_list, [mock.call(out)])

    def test_collects_the_results_of_a_folder(self) -> None:
        args = argparse.Namespace(csv=None, junit=None, json=None, collect=self.path("in"))

        def collect() -> tuple[int, str, str]:
            with capture_output() as (out, errors):
                return collection.collect(args), out.getvalue(), errors.getvalue()

        self.assertRaises(Stop, collect)  # the folder is missing
        os.mkdir(self.path("in"))
        self.assertRaises(Stop, collect)  # it has no results
        for name, data in (("a", b"[]"), ("x", b"[]"),
                           ("state", b'{\n "date": "2026-11-30T10:00:00Z"}')):
            self.write(f"in/{name}.json", data)
        write_result_file(self.path("in/one.json"), make_result("accepted"))
        status, out, errors = collect()
        self.must("accepted", status == 0 and "1 pair: 1 accepted" in out, out)
        self.check("skipped: `a` and `x`, and silently `state`", errors.count(
            ".json is not the JSON result of a pair and is skipped"), 2)
        write_result_file(self.path("in/two.json"), make_result())
        self.check("refused", collect()[0], 1)
        self.write("in/three.json", b"{")
        self.check("not judged", collect()[0], 2)
        self.must("index", b"three" in self.read("in/index.html"))

    def test_a_result_that_is_deleted_or_replaced_is_not_judged(self) -> None:
        path = self.path("gone.json")
        for data in (None, b"[]", b"{"):
            if data is not None:
                self.write("gone.json", data)
            known = collection.load_result(path)
            self.check(f"{data!r}", (known["verdict"], known["name"]), ("not judged", "gone"))

    def test_reads_results_again_for_the_csv_file(self) -> None:
        """A result with one fault gives two rows. The first of two equal keys does not count."""
        known = make_result(faults=[FAULT])
        path = self.write("one.json", b'{"status": 0, ' + json.dumps(known, indent=3).encode()[1:])
        self.check("result", collection.load_result(path), known)
        lines = make_table_lines(map(collection.load_for_csv, [path, path]))
        self.check("lines of two", len(b"".join(lines).splitlines()), 1 + 2 * 2)

    def test_reports_faults_that_are_missing_in_the_csv_file(self) -> None:
        path, known = self.path("one.json"), make_result(faults=[FAULT])
        known["omitted"]["faults"] = 7
        write_result_file(path, known)
        with capture_output() as (_, errors):
            lines = [*make_table_lines([collection.load_for_csv(path)])]
        self.check("lines", len(lines), 3)
        self.must("message", errors.getvalue().endswith(
            f": {path} omits 7 faults, so the CSV file does too\n"), errors.getvalue())
