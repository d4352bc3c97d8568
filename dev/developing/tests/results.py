"""JSON results for tests, their validation by docs/verdict.schema.json, and captured output."""
from __future__ import annotations

import contextlib
import functools
import importlib
import io
import json
import os
from typing import Any, Iterator, Sequence

from subtitles.common.program import TOP
from subtitles.judging.causes import CAUSE_NAMES
from subtitles.judging.status import ACCEPTED, NOT_JUDGED, STATUSES, VALID
from subtitles.results.files import Row, make_row
from subtitles.results.schema import FORMAT, LISTS, REQUEST as REQUEST_MEMBERS
from .bench import BENCH, Case
from .parts import make_example_request

SCHEMA = os.path.join(TOP, "docs", "verdict.schema.json")
# Number of items validated at the start of a list. Of the later items, every 50th is validated.
SAMPLED_ITEMS = 20
REQUEST: dict[str, Any] = REQUEST_MEMBERS.to_json(
    make_example_request("one.stl", "one.ts", "--origin", "0"))
FAULT = {**dict.fromkeys((
    "block", "subtitle", "byte", "character", "text_offset", "pes", "pes_pts", "pes_time", "packet",
    "frame", "time", "row", "column", "expected", "decoded", "last_time", "last_pes", "cause")),
    "part": 1, "line": "refused 72 Content", "number": 72, "name": "Content", "severity": "error",
    "file": "pes", "meaning": "", "remedy": ""}


def make_result(verdict: str = "refused", **more: Any) -> dict[str, Any]:
    """Return a valid JSON result with this verdict; `more` replaces some of its members."""
    is_judged = verdict != NOT_JUDGED
    return {
        "format": FORMAT, "verdict": verdict, "status": STATUSES[verdict],
        "line": f"{verdict} 72 Content" if is_judged else None,
        "worst_fault": None if verdict in (ACCEPTED, VALID, NOT_JUDGED)
        else f"{verdict} 72 Content", "sentence": "Refused.",
        "reason": None if is_judged else "why",
        "not_judged_kind": None if is_judged else "undecided", "scope": "pair",
        "reading": None, "frames": None,
        "transmissions": None, "fault_count": 0, "subtitle_counts": None, "request": REQUEST,
        "files_at_start": {"stl": None, "recording": None, "severity": None},
        "inputs": {"stl": None, "recording": None},
        "program": {"version": "1", "sha256": "0" * 64, "proof": None},
        "date": "2026-01-02T03:04:05Z", "seconds": 0.5,
        "cause_counts": dict.fromkeys(CAUSE_NAMES, 0),
        "complete_after": None, **{item.name: [] for item in LISTS},
        "omitted": {item.name: 0 for item in LISTS}, **more}


def list_choice_errors(known: dict[str, Any], lines: Sequence[str]) -> Iterator[object]:
    """Yield the errors in the choices that a result lists.

    A choice must be printed, each value chosen by qc must be listed, and an option of the user must
    not be listed.
    """
    printed = {line.removeprefix("qc: ").removeprefix("! ") for line in lines}
    chosen = {(item["option"], item["value"]) for item in known["choices"]}
    own = {(item["option"], item["value"], item["part"]) for item in known["choices"]}
    yield from (item["line"] for item in known["choices"] if item["line"] not in printed)
    request = known["request"]
    for part in known["parts"] if known["scope"] == "pair" else ():
        clock, number = part["clock"], part["part"]
        if part["pid"] is not None and request["pid"] is None:
            yield from {("pid", f"0x{part['pid']:X}")} - chosen
        origin = {("origin", f"{clock['origin']}", number)} if clock else set[Any]()
        yield from origin - own if clock and clock["source"] == "recording" else origin & own
        if part["pes"] is not None:
            yield from {("pes", part["pes"], number)} - own
        if part["pace"] is not None and request["pace"] is None:
            yield from {("pace", f"{part['pace']}", number)} - own
    typed = {name for name in ("pid", "pace") if request[name] is not None}
    yield from (item["option"] for item in known["choices"] if item["option"] in typed)


@functools.lru_cache(maxsize=None)
def make_validator() -> Any:
    """Return a validator by the schema, or `None` if python3-jsonschema is not installed."""
    try:
        jsonschema = importlib.import_module("jsonschema")  # has no type stubs
    except ImportError:
        BENCH.over.append("the schema of results, since there is no python3-jsonschema")
        return None
    with open(SCHEMA, encoding="utf-8") as file:
        schema = json.load(file)
    jsonschema.Draft7Validator.check_schema(schema)
    return jsonschema.Draft7Validator(schema)


def list_violations(value: dict[str, Any]) -> list[str]:
    """Return the violations of the schema; none if there is no validator."""
    validator = make_validator()
    return [error.message for error in validator.iter_errors(make_sample(value))] \
        if validator else []


def make_sample(value: dict[str, Any]) -> dict[str, Any]:
    lists = {item.name: [*value[item.name][:SAMPLED_ITEMS], *value[item.name][SAMPLED_ITEMS::50]]
             for item in LISTS if item.name in value}
    return {**value, **lists, **({"pairs": list(map(make_sample, value["pairs"]))}
                                 if "pairs" in value else {})}


@contextlib.contextmanager
def capture_output() -> Iterator[tuple[io.StringIO, io.StringIO]]:
    """Capture what this process prints on standard output and on standard error."""
    with contextlib.redirect_stdout(io.StringIO()) as out, \
            contextlib.redirect_stderr(io.StringIO()) as errors:
        yield out, errors


def make_table_row(name: str, verdict: str, line: str = "", hint: str = "", faults: int = 0) -> Row:
    """Return the row of a pair in the table that a batch prints."""
    result = make_row(make_result(verdict, fault_count=faults), name)
    return result._replace(line=line, hint=hint)


def check_schema(case: Case, verdict: Any, name: str = "the schema") -> None:
    case.check(name, list_violations(verdict), [])
