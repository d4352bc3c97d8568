"""Store the output of chosen runs of qc as text, and compare later output with it.

dev/snapshots/named.txt has the arguments, status and printed lines of each run in `named_calls`,
and the lines of its output files that were not printed. reports.txt has the text of the reports in
`test_report_pages`. `dev/check-tools --update test_snapshots` writes the files again, and `git
diff` then shows how a change affects the user.
"""
from __future__ import annotations

import difflib
import hashlib
import html
import json
import os
import re
from typing import Any, Iterable, Iterator

from subtitles.common.program import TOP
from . import named_calls
from .bench import BENCH
from .failures import MAX_LINES_PRINTED
from .test_report_pages import make_report

FOLDER = os.path.join(TOP, "dev", "snapshots")
HEAD, TAIL = 16, 4  # number of lines stored from the start and end of a long list
REPORT_LINES = 36  # number of lines stored from the start of a report
WIDTH = 300  # maximum number of characters stored from a line
OMITTED = re.compile(r"date$|seconds$|^files_at_start\.|^inputs\.|^commands\b|^omitted\.|^format$")


def compute_short_hash(text: str) -> str:
    return hashlib.sha256(text.encode("utf-8", "surrogateescape")).hexdigest()[:8]


def shorten_lines(lines: Iterable[str], head: int = HEAD) -> list[str]:
    """Replace the middle of a long list with one line that gives its length and its hash."""
    lines = [part if len(part) <= WIDTH else f"{part[:WIDTH]}.. {compute_short_hash(part)}"
             for line in lines for part in line.splitlines()]
    between = lines[head:-TAIL]
    if len(between) < 2:
        return lines
    return [*lines[:head], f".. {len(between)} lines, {compute_short_hash(chr(10).join(between))}",
            *lines[-TAIL:]]


def list_members(value: Any, path: str = "") -> Iterator[str]:
    """Yield a line `path = value` for each non-empty member of a JSON value."""
    if isinstance(value, dict):
        for name, member in value.items():
            yield from list_members(member, f"{path}.{name}".lstrip("."))
    elif isinstance(value, list) and any(isinstance(item, (dict, list)) for item in value):
        for number, item in enumerate(value):
            flat = [line.partition(".")[2] for line in list_members(item, "x")]
            yield f"{path}[{number}]: {'; '.join(flat)}"
    elif value not in (None, [], 0, False, "") and not OMITTED.search(path):
        yield f"{path} = {json.dumps(value, ensure_ascii=False)}"


def format_json_snapshot(text: str, printed: str) -> list[str]:
    """Return a line for each JSON value that is not in `printed`, and the hash of the text."""
    result = json.loads(text.replace(" SECONDS,", ' "seconds": 0,'))  # by `replace_volatile_text`
    lines = [line for line in list_members(result) if "=" not in line
             or line.partition(" = ")[2].strip('"') not in printed]
    return [*shorten_lines(lines), f"whole: {compute_short_hash(text)}"]


def format_page_snapshot(text: str) -> list[str]:
    """Return the text of an HTML page, one line for each element, and the hash of the page."""
    text_only = re.sub(r'<style.*?</style>|<[^<>]*?(?: aria-label="([^"]*)")?[^<>]*>',
                       lambda tag: f"\n[{tag[1]}]\n" if tag[1] else "\n", text, flags=re.DOTALL)
    lines = [" ".join(html.unescape(line).split()) for line in text_only.splitlines()
             if line.strip()]
    return [*shorten_lines(lines, REPORT_LINES), f"markup: {compute_short_hash(text)}"]


def format_file_snapshot(name: str, text: str, printed: str) -> list[str]:
    if name.endswith(".json") and text.startswith("{"):
        return format_json_snapshot(text, printed)
    if name.endswith(".html") and text.startswith("<"):
        return format_page_snapshot(text)
    return shorten_lines(text.splitlines())


def format_call_output(output: named_calls.CallOutput) -> list[str]:
    printed = "\n".join(output.lines)
    lines = [f"$ qc {' '.join(output.words)}", f"status {output.status}",
             *shorten_lines(output.lines)]
    before: dict[str, str] = {}
    for name, text in output.files.items():
        if text and text not in before:
            before[text] = name
            lines += [f"--- {name}", *format_file_snapshot(name, text, printed)]
        elif text:
            lines.append(f"--- {name} is {before[text]}")
    return lines


def format_report_snapshot(name: str) -> list[str]:
    """Judge a recording of `test_report_pages`. Return its verdict and the text of its report."""
    judged, page, folder = make_report(name)
    page = named_calls.replace_volatile_text(page, BENCH.program).replace(folder, "FOLDER")
    return [judged.verdict.word, *format_page_snapshot(page)]


def format_named_snapshot(name: str) -> list[str]:
    return format_call_output(named_calls.run_named_call(name, BENCH.program))


def get_snapshot_path(group: str) -> str:
    return os.path.join(FOLDER, f"{group}.txt")


def read_stored(group: str) -> dict[str, list[str]]:
    """Return the stored lines of each run in a group, by the group's first word and its name."""
    result: dict[str, list[str]] = {}
    with open(get_snapshot_path(group), encoding="utf-8") as file:
        for line in file.read().split("\n")[:-1]:
            if line.startswith("=== "):
                lines = result[line[4:]] = []
            else:
                lines.append(line)
    return result


def write_stored(group: str, texts: dict[str, list[str]]) -> None:
    with open(get_snapshot_path(group), "w", encoding="utf-8") as file:
        for name, lines in texts.items():
            file.write("\n".join([f"=== {name}", *lines, ""]))


def describe_changes(group: str, after: dict[str, list[str]]) -> str:
    """Return a message with the changes of a group's stored lines, or an empty string."""
    before = read_stored(group)
    changed = [name for name in {**before, **after} if before.get(name) != after.get(name)]
    lines = [line for name in changed for line in (f"  in {name}:", *(
        f"    {line}" for line in difflib.ndiff(before.get(name, []), after.get(name, []))
        if line[0] in "-+"))]
    head = f"{len(changed)} of {len(before)} calls of dev/snapshots/{group}.txt changed; " \
        "dev/check-tools --update test_snapshots writes them again"
    more = [f"  .. {len(lines) - MAX_LINES_PRINTED} more lines"] * (len(lines) > MAX_LINES_PRINTED)
    return "\n".join([head, *lines[:MAX_LINES_PRINTED], *more]) if changed else ""
