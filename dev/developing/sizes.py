"""Count each crate's lines of code, contracts, definitions, proofs and tests.

Blank lines do not count, nor do imports and comments in code.
"""
from __future__ import annotations

import collections
import glob
import os
import re

from subtitles.common.program import read

from .graph import UseGraph

KINDS = ("code", "contracts", "specs", "proofs", "tests")
TESTS = ("tests", "check_tests", "word_tests", "file_tests", "program_tests", "fixtures",
         "answer_fixtures")  # test crates
IMPORT = re.compile(r"(ghost use|use|pub use|mod|pub mod)\b")
CONTRACT = re.compile(r"(requires|ensures)\b")


def count_code(text: str, sizes: collections.Counter[str]) -> None:
    """Add the line counts of a source file to `sizes`."""
    is_test, depth = False, 0
    for line in filter(None, map(str.strip, text.split("\n"))):
        is_test = is_test or line == "mod tests {"
        if is_test:
            sizes["tests"] += 1
        elif depth or CONTRACT.match(line):
            sizes["contracts"] += 1
            depth += line.count("{") - line.count("}")
        elif not line.startswith("//") and not IMPORT.match(line):
            sizes["code"] += 1


def count_lines(top: str) -> dict[str, collections.Counter[str]]:
    """Return the line counts of each crate in a repository, keyed by crate name."""
    result: dict[str, collections.Counter[str]] = collections.defaultdict(collections.Counter)
    for path in glob.glob(os.path.join(top, "crates", "*", "*", "**", "*.*"), recursive=True):
        crate, part = os.path.relpath(path, os.path.join(top, "crates")).split(os.sep)[:2]
        lines = [line for line in (read(path) or "").split("\n") if line.strip()] \
            if part in ("src", "specs", "proofs") else []
        if crate in TESTS:
            result[crate]["tests"] += len(lines)
        elif path.endswith(".antt"):
            result[crate][part] += len(lines)
        elif path.endswith(".rt"):
            count_code("\n".join(lines), result[crate])
    return result


def add_sizes(sizes: dict[str, collections.Counter[str]]) -> collections.Counter[str]:
    """Return the total line counts of all crates."""
    return sum(sizes.values(), collections.Counter())


def count_promised_definitions(graph: UseGraph) -> collections.Counter[str]:
    """Count, for each crate, the lines of definitions on which public contracts and laws depend."""
    lines: collections.Counter[str] = collections.Counter()
    for definition in graph.list_promised_definitions():
        lines[definition.file.crate] += definition.lines
    return lines
