"""Write result files in JSON, CSV and JUnit, and read JSON results."""
from __future__ import annotations

import collections
import csv
import io
import itertools
import json
import os
import time
import xml.etree.ElementTree as tree
from typing import Any, Callable, Iterable, Iterator, NamedTuple, Sequence

from ..clock.start import RECORDING
from ..common.checks import CHECK_KINDS
from ..common.command_line import (
    BUG, BUG_STATUS, INPUT, RESOURCE, STATUSES_BY_KIND, Stop, USAGE, USAGE_STATUS, classify_error,
    classify_program_end, escape_hidden_lines, format_error)
from ..common.files import (
    is_replaced, open_output, open_result, read_bounded_bytes, read_first_bytes)
from ..common.program import ProgramInfo
from ..common.shapes import ListOf, Member, Members
from ..judging.status import ACCEPTED, NOT_JUDGED, NO_VERDICTS, matches_exit_status
from ..judging.subtitles import SubtitleCounts
from ..judging.verdict import Verdict
from ..request.request import Request
from .schema import (
    CUE, FORMAT, LISTS, NO_PAIR, OMITTED, REQUEST, VERDICT, ResultSource, find_misfit)


# JSON results. Lists are written item by item, since they may have any number of faults.

MAX_BYTES = 32 << 20  # maximum size of all lists in a result, in bytes


class ListLimit:
    """Limits the size of the lists in a result, and counts omitted items."""

    def __init__(self) -> None:
        self.remaining_bytes = MAX_BYTES
        self.omitted_counts = {member.name: 0 for member in LISTS}


def make_result_chunks(verdict: Verdict, program: ProgramInfo) -> Iterator[str]:
    """Yield the text of a JSON result in chunks."""
    source, limit = ResultSource(verdict, program), ListLimit()
    separator = "{"
    for member in VERDICT.members:
        yield f"{separator}\n \"{member.name}\": "
        if member in LISTS:
            yield from make_list_chunks(member, source, limit)
        else:
            value = limit.omitted_counts if member.shape is OMITTED else member.to_json(source)
            yield json.dumps(value, ensure_ascii=False)
        separator = ","
    yield "\n}\n"


def make_list_chunks(member: Member, source: ResultSource, limit: ListLimit) -> Iterator[str]:
    """Yield a JSON list with one item per line. Omit the items beyond the limits."""
    assert isinstance(member.shape, ListOf) and member.getter
    items, separator = iter(member.getter(source)), "["
    for count, item in enumerate(items):
        text = json.dumps(member.shape.shape.to_json(item), ensure_ascii=False)
        limit.remaining_bytes -= len(text.encode("utf-8", "surrogatepass"))
        if count == member.shape.most or limit.remaining_bytes < 0:
            limit.omitted_counts[member.name] = 1 + sum(1 for _ in items)
            break
        yield f"{separator}\n  {text}"
        separator = ","
    yield "[]" if separator == "[" else "]"


ENDING = ".json"
MAX_ROW_LINES = 100
MAX_RESULT_BYTES = 2 * MAX_BYTES
MAX_VALUES = 2_000_000  # maximum number of values, each of which needs 70 to 160 bytes in Python
MAX_DIGITS = 20
NO_CLOCK, LATER_CLOCK = "no clock was given", "the clock after a break was estimated"


class Row(NamedTuple):
    """The row of a pair in a table."""

    name: str
    title: str  # names of the pair's files
    verdict: str
    status: int
    line: str
    faults: int
    causes: dict[str, int]
    lines: Sequence[str]
    seconds: float
    hint: str  # explanation of the pair's worst fault
    counts: str = ""  # text such as `7 subtitles judged, 2 refused`; empty if none is refused
    sentence: str = ""
    clock: str = ""  # reason why a delay was not checked
    not_checked: str = ""  # kinds of the checks that were not made everywhere

    @property
    def is_judged(self) -> bool:
        """Return whether the pair has a verdict other than `not judged`."""
        return self.verdict not in NO_VERDICTS


def make_unjudged(name: str, reason: str, kind: str) -> dict[str, Any]:
    """Return the result of a pair that was not judged because of an error of this kind. It contains
    no request."""
    result: dict[str, Any] = NO_PAIR.to_json({
        "format": FORMAT, "verdict": NOT_JUDGED, "status": STATUSES_BY_KIND[kind],
        "not_judged_kind": kind, "name": name, "reason": reason or "no reason was given"})
    return result


def make_failed(name: str, error: BaseException) -> dict[str, Any]:
    """Return the result of a pair that was not judged because of an exception."""
    return make_unjudged(name, format_error(error), classify_error(error))


def can_replace(path: str, prefix: bytes = b"{") -> bool:
    """Return whether a result may replace a file. The file must be missing or empty, or begin with
    `prefix`. Any other file may be an input that the user gave by mistake."""
    if not is_replaced(path) or not os.path.exists(path):
        return True
    return read_first_bytes(path, len(prefix)) in (prefix, b"")


def write_file(path: str | None, make_chunks: Callable[[], Iterable[bytes]]) -> None:
    """Write chunks to a file, completely or not at all. If `path` is `None`, do nothing."""
    if path is not None:
        with open_output(path) as file:
            file.writelines(make_chunks())


def encode_result(result: dict[str, Any]) -> bytes:
    """Return the result of an unjudged pair, encoded as JSON."""
    return json.dumps(result).encode() + b"\n"


def write_result_file(path: str, result: dict[str, Any]) -> None:
    """Write the result of a pair that was not judged into a folder of results."""
    with open_result(path) as file:
        file.write(encode_result(result))


def read_result(path: str, is_refused: bool = False) -> dict[str, Any] | None:
    """Read the result in a file. If the file can't be read, has another format or does not match
    the schema, return a result `not judged`. With `is_refused`, raise `Stop` for another format.
    Return `None` if the file is not a result."""
    name = os.path.basename(path).removesuffix(ENDING)
    try:
        result = read_json(path)
    except (Stop, OSError, ValueError) as reason:
        return make_unjudged(name, f"its JSON result can't be read: {describe_error(reason)}",
                             RESOURCE if classify_error(reason) == RESOURCE else INPUT)
    except RecursionError:
        return make_unjudged(name, "its JSON result can't be read: it is nested too deeply", INPUT)
    except MemoryError:
        return make_unjudged(name, "its JSON result can't be read: it is too large for this "
                             "machine", RESOURCE)
    if not isinstance(result, dict) or "verdict" not in result:
        return None
    number = result.get("format")
    if type(number) is int and number != FORMAT:
        if is_refused:
            raise Stop(f"{path} is in JSON format {number}, but this version reads format "
                       f"{FORMAT}: judge these pairs again into another folder")
        return make_unjudged(name, f"its JSON result has format {number}, but this version reads "
                             f"format {FORMAT}: judge it again", INPUT)
    place = find_misfit(result)
    return result if place is None else make_unjudged(
        name, f"its JSON result does not match docs/verdict.schema.json at {place}: judge it again",
        INPUT)


def read_json(path: str) -> object:
    """Return the JSON value in a file. Raise `ValueError` if the value is too large."""
    data = read_bounded_bytes(path, MAX_RESULT_BYTES, is_followed=False)
    if sum(map(data.count, (b",", b"{", b"["))) > MAX_VALUES:
        raise ValueError(f"it has more than {MAX_VALUES:,} values")
    return json.loads(data.decode("utf-8"), parse_int=parse_number, parse_constant=refuse_constant)


def parse_number(digits: str) -> int:
    """Parse a number of at most 20 digits. Raise `ValueError` if it is longer."""
    return int(digits) if len(digits) <= MAX_DIGITS else refuse_constant(digits)


def refuse_constant(text: str) -> int:
    """Raise `ValueError` for a JSON constant that results never contain, for example `NaN`."""
    raise ValueError(f"{text[:MAX_DIGITS]} is not a number that a result can have")


def describe_error(reason: Exception) -> str:
    """Return the message of an exception on one line."""
    return format_error(reason) if isinstance(reason, (Stop, OSError)) else \
        " ".join(str(reason).split())


def read_call_result(path: str, name: str, exit_status: int, messages: Sequence[str]) \
        -> dict[str, Any]:
    """Read the result that a process wrote. If it does not match the exit status, return a result
    `not judged` with the last message of the process."""
    result = read_result(path) if os.path.exists(path) else None
    if result is not None and matches_exit_status(result["verdict"], result["status"], exit_status):
        return result
    kind = {USAGE_STATUS: USAGE, BUG_STATUS: BUG}.get(exit_status) or \
        classify_program_end(exit_status)
    if exit_status < 0:
        return make_unjudged(name, "the process was killed", kind)
    return make_unjudged(name, messages[-1].partition(": ")[2] if messages
                         else "the judging process wrote no result", kind)


def make_row(result: dict[str, Any], name: str) -> Row:
    """Return the table row for a result."""
    if "request" not in result:
        return Row(name, name, result["verdict"], result["status"], result["reason"], 0, {}, [],
                   0.0, "")
    request = result["request"]
    title = " ".join(request[key] for key in ("stl", "recording") if request[key])
    counts = result["subtitle_counts"]
    return Row(name, title or name, result["verdict"], result["status"],
               result["reason"] or result["worst_fault"] or result["line"], result["fault_count"],
               count_row_causes(result),
               [fault["line"] for fault in result["faults"][:MAX_ROW_LINES]], result["seconds"],
               find_hint(result), SubtitleCounts(**counts).describe() if counts else "",
               result["sentence"], describe_clock(result), list_unchecked_kinds(result))


def list_unchecked_kinds(result: dict[str, Any]) -> str:
    """Return the kinds of the checks that were not made everywhere, separated by commas."""
    found = {item["kind"] for item in result["not_checked"]}
    return ", ".join(kind for kind in CHECK_KINDS if kind in found)


def describe_clock(result: dict[str, Any]) -> str:
    """Return a note on a clock that was estimated, or an empty string if all clocks were given."""
    clocks = [part["clock"] and part["clock"]["source"] for part in result["parts"]]
    return NO_CLOCK if clocks[:1] == [RECORDING] else LATER_CLOCK if RECORDING in clocks else ""


def find_hint(result: dict[str, Any]) -> str:
    """Return the hint about the worst fault of a result, or an empty string if there is none."""
    worst_fault = (result["worst_fault"] or "").partition("refused ")[2]
    for hint in result["hints"]:
        number, _, hint_text = hint.partition(": ")
        if worst_fault.startswith(f"{number} "):
            return str(hint_text)
    return ""


def count_row_causes(result: dict[str, Any]) -> dict[str, int]:
    """Count the subtitles with each cause, and the faults without a cause by number and name."""
    counts: collections.Counter[str] = collections.Counter()
    for fault in result["faults"]:
        if not fault["cause"]:
            counts[f"{fault['number']} {fault['name']}"] += 1
    return {name: count for name, count in result["cause_counts"].items() if count} | dict(counts)


def read_results(folder: str, is_refused: bool = False) \
        -> Iterator[tuple[str, dict[str, Any] | None]]:
    """Yield the path and the contents of each JSON result in a folder, sorted by name. With
    `is_refused`, raise `Stop` for a result in another format."""
    for file in sorted(os.listdir(folder)):
        path, name = os.path.join(folder, file), file.removesuffix(ENDING)
        if name != file and not file.startswith(".") and os.path.isfile(path):
            yield path, read_result(path, is_refused)


def sort_rows(rows: dict[str, Row]) -> list[Row]:
    """Return rows sorted by name."""
    return [rows[name] for name in sorted(rows)]


def format_change_time(stat_result: os.stat_result) -> str:
    """Return the UTC time of a file's last change, with nanoseconds."""
    second, rest = divmod(stat_result.st_mtime_ns, 1_000_000_000)
    return f"{time.strftime('%Y-%m-%dT%H:%M:%S', time.gmtime(second))}.{rest:09}Z"


def describe_file(path: str | None) -> dict[str, Any] | None:
    """Return the size and the modification time of a file, or `None` if there is no such file."""
    if path is None or not os.path.isfile(path):
        return None
    stat_result = os.stat(path)
    return {"size": stat_result.st_size, "modified": format_change_time(stat_result)}


def describe_inputs(request: Request) -> dict[str, Any]:
    """Return the size and the modification time of each file of a pair."""
    return {"stl": describe_file(request.stl), "recording": describe_file(request.recording),
            "severity": describe_file(request.severity)}


def is_current(result: dict[str, Any], request: Request, program: ProgramInfo,
               day: str | None = None) -> bool:
    """Return whether a result is up to date: the options and the files of the pair, and the
    versions of the program and the tools have not changed, and no waiver that it used has ended
    before `day` (YYYY-MM-DD, by default the current day in UTC)."""
    day = day or time.strftime("%Y-%m-%d", time.gmtime())
    return "request" in result and result["request"] == REQUEST.to_json(request) \
        and result["files_at_start"] == describe_inputs(request) \
        and result["program"]["sha256"] == program.sha256 \
        and result["program"]["version"] == program.version \
        and all(item["ended"] or day <= item["until"] for item in result["waivers"])


# CSV files. For many pairs, a file has a line for each pair, followed by a line for each fault of
# the pair. For a single pair, it has a line for the pair and for each subtitle. A column is named
# after its object and key in the JSON result.

SUBTITLE_COLUMNS = ["subtitle_number", "subtitle_begin", "subtitle_end"]
FAULT_COLUMNS = ["part", "number", "name", "severity", "file", "block", *SUBTITLE_COLUMNS, "byte",
            "character", "pes", "pes_time", "packet", "frame", "time", "row", "column", "expected",
            "decoded", "last_time", "last_pes", "line", "meaning", "remedy"]
CAUSE_COLUMNS = ["cause_name", "cause_frames", "cause_subtitle_number", "cause_expected_text",
                 "cause_decoded_text", "cause_line"]
PAIR_COLUMNS = ["verdict", "status", "reason"]
POSITION_COLUMNS = ["subtitle_position", "cause_subtitle_position"]
PART_COLUMNS = ["part_pid", "part_packet_size", "part_pes"]
COUNT_COLUMNS = ["subtitle_counts_judged", "subtitle_counts_refused"]
FORMULA_BEGINNINGS = ("=", "+", "-", "@", "\t", "\r")  # first characters of spreadsheet formulas
FILE_COLUMNS = ["stl", "recording"]
UNCHECKED_COLUMN = "not_checked"  # the kinds of the checks that were not made everywhere
COLUMNS = [*FILE_COLUMNS, *FAULT_COLUMNS, *PAIR_COLUMNS, *CAUSE_COLUMNS, *POSITION_COLUMNS,
           "sentence", *PART_COLUMNS, *COUNT_COLUMNS, UNCHECKED_COLUMN]
CUE_COLUMNS = [*FILE_COLUMNS, *(member.name for member in CUE.members), UNCHECKED_COLUMN]

Columns = dict[str, object]  # values by column name; empty columns may be missing


def format_cell(cell: Members | None) -> str:
    """Format a cell of a page: its code and, if there is one, its character."""
    if cell is None:
        return ""
    code: str = cell["code"]
    return f"{code} {cell['character']}" if cell["character"] else code


def make_object_columns(name: str, members: Members | None) -> Columns:
    """Return the columns for an object in the JSON result, one for each member."""
    return {f"{name}_{key}": value for key, value in (members or {}).items()}


def make_part_columns(parts: Sequence[dict[str, Any]], number: int | None) -> Columns:
    """Return the columns for part `number`, or for the only part if `number` is `None`."""
    numbered_parts = [part for part in parts if part["part"] == number or number is None]
    if len(numbered_parts) != 1:
        return {}
    columns, pid = make_object_columns("part", numbered_parts[0]), numbered_parts[0]["pid"]
    return {**columns, "part_pid": pid if pid is None else f"0x{pid:X}"}


def make_pair_columns(result: dict[str, Any]) -> Columns:
    """Return the columns that describe a pair."""
    pair = {name: result[name] for name in PAIR_COLUMNS}
    if "request" not in result:
        return {"stl": result["name"], **pair}
    return {"stl": result["request"]["stl"], "recording": result["request"]["recording"], **pair,
            "line": result["line"], "sentence": result["sentence"],
            UNCHECKED_COLUMN: list_unchecked_kinds(result),
            **make_object_columns("subtitle_counts", result["subtitle_counts"]),
            **make_part_columns(result["parts"], None)}


def make_fault_columns(pair: Columns, parts: Sequence[dict[str, Any]], fault: Members) -> Columns:
    """Return the columns for a fault, with the columns for its pair and part."""
    cause = fault["cause"]
    return {**pair, **make_part_columns(parts, fault["part"]), **fault,
            **make_object_columns("subtitle", fault["subtitle"]),
            **make_object_columns("cause", cause),
            **make_object_columns("cause_subtitle", cause and cause["subtitle"]),
            "expected": format_cell(fault["expected"]), "decoded": format_cell(fault["decoded"])}


def make_subtitle_lines(verdict: Verdict) -> Iterator[bytes]:
    """Yield the lines of a CSV file about one pair: the verdict, then the subtitles."""
    files: Columns = {"stl": verdict.request.stl, "recording": verdict.request.recording}
    pair: Columns = {**files, "verdict": verdict.word,
                     "reason": verdict.unjudged_reason or verdict.sentence,
                     UNCHECKED_COLUMN: ", ".join(verdict.unchecked_kinds)}
    rows = ({**files, **row} for row in verdict.list_subtitle_rows())
    return map(str.encode, make_column_lines(itertools.chain([pair], rows), CUE_COLUMNS))


def make_column_lines(rows: Iterable[Columns], columns: Sequence[str]) -> Iterator[str]:
    """Yield a line with the names of the columns, then a line for each row."""
    text = io.StringIO()
    writer = csv.writer(text, lineterminator="\n")
    values: Iterator[list[object]] = (
        [escape_table_value(row.get(name)) for name in columns] for row in rows)
    header: list[object] = [*columns]
    for line in itertools.chain([header], values):
        writer.writerow(["" if cell is None else cell for cell in line])
        yield text.getvalue()
        text.seek(0)
        text.truncate()


def escape_table_value(value: object) -> object:
    """Escape control characters in a text, and put an apostrophe before a spreadsheet formula."""
    if not isinstance(value, str):
        return value
    text = escape_hidden_lines(value)
    return f"'{text}" if text.startswith(FORMULA_BEGINNINGS) else text


def make_table_lines(results: Iterable[dict[str, Any]]) -> Iterator[bytes]:
    """Yield the lines of a CSV file about many pairs and their faults."""
    rows = (row for result in results for row in make_column_rows(result))
    return map(str.encode, make_column_lines(rows, COLUMNS))


def make_column_rows(result: dict[str, Any]) -> Iterator[Columns]:
    """Yield the columns for a pair, then the columns for each of its faults."""
    pair = make_pair_columns(result)
    yield pair
    for fault in result["faults"] if "request" in result else ():
        yield make_fault_columns(pair, result["parts"], fault)


class TestCase(NamedTuple):
    """A pair as a JUnit test case."""

    name: str
    verdict: str
    status: int
    line: str  # the pair's worst fault, or the reason why the pair was not judged
    lines: Sequence[str]  # first lines of the pair's fault list
    seconds: float
    counts: str = ""  # text such as `7 subtitles judged, 2 refused`; empty if none is refused
    sentence: str = ""
    not_checked: str = ""  # kinds of the checks that were not made everywhere


def make_element(case: TestCase) -> tree.Element:
    element = tree.Element("testcase", classname="subttx", name=escape_hidden_lines(case.name),
                           time=f"{case.seconds:.3f}")
    text = escape_hidden_lines("\n".join(
        [case.sentence] * bool(case.sentence) + [case.line] * (case.line not in case.sentence)
        + [case.counts] * bool(case.counts) + [*case.lines]))
    if case.status:
        kind = "error" if case.verdict in NO_VERDICTS else "failure"
        message = escape_hidden_lines(case.sentence or case.line)
        tree.SubElement(element, kind, message=message, type=case.verdict).text = text
    elif case.verdict != ACCEPTED or case.not_checked:
        tree.SubElement(element, "system-out").text = text
    return element


def make_junit_file(cases: Sequence[TestCase], date: str) -> bytes:
    """Return the JUnit file with a test case for each pair."""
    def count(kind: str) -> str:
        return str(sum(case.status != 0 and (case.verdict in NO_VERDICTS) == (kind == "errors")
                       for case in cases))

    counts = {"tests": str(len(cases)), "failures": count("failures"), "errors": count("errors"),
              "time": f"{sum(case.seconds for case in cases):.3f}"}
    suites = tree.Element("testsuites", counts)
    suite = tree.SubElement(suites, "testsuite", {"name": "subttx qc", **counts, "skipped": "0",
                                                  "timestamp": date.removesuffix("Z")})
    suite.extend(map(make_element, cases))
    tree.indent(suites, " ")
    text: bytes = tree.tostring(suites, encoding="utf-8", xml_declaration=True)
    return text + b"\n"
