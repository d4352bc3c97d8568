"""Run qc with the arguments in `NAMED`, whose output dev/snapshots/named.txt stores."""
from __future__ import annotations

import contextlib
import functools
import json
import os
import re
import shutil
import sys
import tempfile
from typing import NamedTuple
from unittest import mock

from subtitles.cli.main import main
from subtitles.cli.single import lock_pair
from subtitles.common.command_line import run_main
from subtitles.judging import faults, subtitles
from subtitles.report import page as report
from .bench import get_example_path
from .parts import MEANINGS
from .results import capture_output, list_choice_errors, list_violations

VOLATILE_PATTERNS = [(re.compile(r"\d{4}-\d\d-\d\d[T ]\d\d:\d\d:\d\d(\.\d+)?"), "DATE"),
                     (re.compile('<dl class="made">.*?</dl>|PROGRAM</td><td.*?</tr>'), "MADE"),
                     (re.compile(r"subttx-qc-\w+"), "FOLDER"),
                     (re.compile(r'"seconds": [\d.]+'), "SECONDS"),
                     (re.compile(r'(time)="[\d.]+"'), "TIME")]
FILES = ("one.json", "one.csv", "one.xml", "out/index.html")  # stored if a run writes them


class CallOutput(NamedTuple):
    """The output of a run of qc: arguments, status, printed lines and files."""

    words: list[str]
    status: int
    lines: list[str]
    files: dict[str, str]


@functools.lru_cache(maxsize=4)  # several files often have the same text
def replace_volatile_text(text: str, program: str) -> str:
    """Return a text with fixed words in place of dates, times, temporary paths and programs."""
    if text.startswith("{"):
        known = json.loads(text)
        for item in (known, *known.get("pairs", ())):
            item.pop("program", None)
        text = json.dumps(known, indent=1)
    text = text.replace(program, "PROGRAM")
    for pattern, word in VOLATILE_PATTERNS:
        text = pattern.sub(word, text)
    return text


# The pairs in the folder `in`: name, subtitle file and recording, which are examples.
PAIRS = [("a", "hello", "hello.pes"), ("b", "story", "five-faults.pes"),
         ("c", "accent", "hello.pes"), ("d", "hello", "recording.ts")]
# Arguments of qc. "claimed" runs while another process writes the files of pair b.
NAMED = {
    "a line of no list": "--batch in --line 2",
    "another PID": "in/d.stl in/d.ts --pid 0x100 --json one.json",
    "claimed": "--batch in -o out --csv one.csv --junit one.xml --json one.json --jobs 1",
    "measured": "--measure in/a.stl in/a.pes --origin 0",
    "measured, at another time": "--measure in/a.stl in/a.pes --origin 900000000",
    "resumed without results": "--batch list --resume"}


def run_named_call(name: str, program: str) -> CallOutput:
    """Run qc. Return its output, with fixed texts instead of dates and fault explanations."""
    words = NAMED[name].split()
    with tempfile.TemporaryDirectory() as folder, contextlib.ExitStack() as stack:
        stack.callback(os.chdir, os.getcwd())
        os.chdir(folder)
        os.mkdir("in")
        for pair, stl, recording in PAIRS:
            ending = recording.rpartition(".")[2]
            shutil.copyfile(get_example_path(f"{stl}.stl"), f"in/{pair}.stl")
            shutil.copyfile(get_example_path(recording), f"in/{pair}.{ending}")
        if name == "claimed":
            stack.enter_context(lock_pair("out", "b"))
        stack.enter_context(mock.patch.object(sys, "argv", ["tools/qc"]))
        for module in (subtitles, faults, report):
            stack.enter_context(mock.patch.object(module, "read_meanings", lambda: MEANINGS))
        out, reported = stack.enter_context(capture_output())
        status = run_main(lambda line: main("", "tools/qc", line), [*words, "-p", program])
        files = {}
        for path in filter(os.path.exists, FILES):
            with open(path, encoding="utf-8") as file:
                files[path] = file.read()
    lines = (out.getvalue() + reported.getvalue()).splitlines()
    if "one.json" in files:
        result = json.loads(files["one.json"])
        errors = [*list_violations(result),
                  *(list_choice_errors(result, lines) if "choices" in result else ())]
        assert not errors, (words, errors)
    return CallOutput(words, status, [replace_volatile_text(line, program) for line in lines],
                      {path: replace_volatile_text(text, program) for path, text in files.items()})
