"""Check names and numbers in the documents.

Names in backquotes must be names in the sources. The documents state how many lines of definitions
each law (theorem) depends on, and statistics of the proof. This module counts these numbers again.
"""
from __future__ import annotations

import glob
import os
import re
from typing import Iterator, Mapping, Optional

from subtitles.common.program import read
from .definitions import Library, count_lines_to_read
from .promises import ROW as INDEX, find_index
from .proved import parse_proved

# The checked documents. If a prefix is given, only lines with this prefix are checked.
DOCUMENTS = {"docs/HEADLINE.md": "", "docs/ASSURANCE.md": "", "docs/CLAUSES.md": "",
             "docs/DECISIONS.md": "", "docs/GLOSSARY.md": "",
             "docs/ARCHITECTURE.md": "|"}
# A table row: a law, its name, how many definitions it needs, and how many lines these have.
ROW = re.compile(r"^\| (.*) \| `(\S+)` \| (\d+) \| (\d+) \|$", re.M)
# The maximum number of lines of definitions that each law may need.
MAX_LINES = {"run_in_memory.headline": 450, "run_in_memory.acceptance": 800}
# Patterns that find the line counts of laws in README.
README_NUMBERS = {"run_in_memory.headline": re.compile(r"\[(\d+)\s+lines\]")}
NUMBERS = re.compile(r"^## The proof in numbers$.*?(?=^## )", re.M | re.S)
NUMBER = re.compile(r"^\| (.*) \| ([\d,]+) \|$", re.M)  # a table row with a number
PARTS = ("src", "specs", "must-fail", "release-edits")  # crate folders to search
GATE_OUTPUTS = ("out", ".git", "__pycache__")
TOOLS = ("tools", "dev")
MADE = ("out/", "dist/")  # folders of built files
BLOCK = re.compile(r"^```.*?^```$", re.M | re.S)
QUOTED = re.compile(r"(?<!`)`([^`]+)`(?!`)")
PATH = re.compile(r"[\w.-]+(?:/[\w.-]+)+/?|[\w-]+/")
WORD = re.compile(r"[A-Za-z_]\w*")
COMMENT = {".rt": re.compile(r"//.*"), ".antt": re.compile(r"(?:^|(?<=\s))--.*", re.M)}


class SourceNames:
    """All words in the sources, and the names of all files and folders."""

    def __init__(self, top: str) -> None:
        self.words: set[str] = set()
        self.paths: set[str] = set()
        for place, folders, names in os.walk(top):
            folders[:] = [name for name in folders if name not in GATE_OUTPUTS]
            for name in [*folders, *names]:
                self.add_path(top, os.path.relpath(os.path.join(place, name), top))

    def add_path(self, top: str, path: str) -> None:
        """Add a path and, for a source file, the words in its name and text.

        `path` is relative to `top`. A path in a crate is also added relative to the crate.
        """
        parts = path.split(os.sep)
        for start in {0, *((1, 2) if parts[0] == "crates" else ())}:
            self.paths |= {"/".join(parts[start:]), os.path.splitext("/".join(parts[start:]))[0]}
        is_source = parts[0] in TOOLS or parts[0] == "crates" and parts[2:3] and parts[2] in PARTS
        if len(parts) == 2 or is_source:
            self.words.update(WORD.findall(os.path.splitext(parts[-1])[0]))
        if is_source and os.path.isfile(os.path.join(top, path)):
            self.read(os.path.join(top, path))

    def read(self, path: str) -> None:
        """Add the words in a file, except those in comments. Skip edit files."""
        ending = os.path.splitext(path)[1]
        if ending != ".edit":
            with open(path, encoding="utf-8", errors="replace") as file:
                text = file.read()
            text = COMMENT[ending].sub("", text) if ending in COMMENT else text
            self.words.update(WORD.findall(text))

    def find_missing_names(self, quoted: str) -> list[str]:
        """Return the names in a quoted text that do not occur in the sources.

        An uppercase word in a path matches any name. A word before `=`, as in the prover's output,
        is not checked.
        """
        result: list[str] = []
        for token in quoted.split():
            if PATH.fullmatch(token):
                is_there = token.startswith(MADE) or self.has_path(token.rstrip("/"))
                result += [] if is_there else [token]
            elif "=" not in token or token == "=":
                result += [word for word in WORD.findall(token) if word not in self.words]
        return result

    def has_path(self, path: str) -> bool:
        parts = [r"[^/]+" if re.fullmatch("[A-Z]+", part) else re.escape(part)
                 for part in path.split("/")]
        form = re.compile("/".join(parts))
        return path in self.paths or any(map(form.fullmatch, self.paths))


def find_unknown_names(top: str) -> dict[str, list[str]]:
    """Return, by document, each quoted name that is not in the sources, as `FILE:LINE: NAME`."""
    sources = SourceNames(top)
    result: dict[str, list[str]] = {}
    for name, start in DOCUMENTS.items():
        with open(os.path.join(top, name), encoding="utf-8") as file:
            text = file.read()
        text = BLOCK.sub(lambda block: "\n" * block[0].count("\n"), text)
        index = find_index(text)  # another test checks the clauses in the index
        text = text.replace(index, INDEX.sub(lambda row: row[0].replace(row[2], ""), index))
        if start:
            text = "\n".join(line if line.startswith(start) else "" for line in text.split("\n"))
        result[name] = [f"{name}:{text.count(chr(10), 0, quoted.start()) + 1}: {word}"
                        for quoted in QUOTED.finditer(text)
                        for word in sources.find_missing_names(quoted[1])]
    return result


def correct_count_rows(top: str) -> Iterator[tuple[str, str]]:
    """Yield each table row of docs/ASSURANCE.md that contains line counts, and its correction."""
    with open(os.path.join(top, "docs", "ASSURANCE.md"), encoding="utf-8") as file:
        rows, library = list(ROW.finditer(file.read())), Library(top)
    for row in rows:
        result = count_lines_to_read(*library.list_reading(row[2]))
        yield row[0], f"| {row[1]} | `{row[2]}` | {result[0]} | {result[1]} |"


def correct_readme_counts(top: str) -> Iterator[tuple[str, str]]:
    """Yield the line count that README states for each theorem, and the correct count."""
    text, library = read(os.path.join(top, "README.md")) or "", Library(top)
    for name, form in README_NUMBERS.items():
        shown = form.search(text)
        yield (f"README: {name} {shown[1] if shown else 'is missing'}",
               f"README: {name} {count_lines_to_read(*library.list_reading(name))[1]}")


def find_long_readings(top: str, most_lines: Mapping[str, int]) -> Iterator[Optional[str]]:
    """For each theorem, yield a message if its definitions have too many lines, else `None`."""
    library = Library(top)
    for name, most in most_lines.items():
        lines = count_lines_to_read(*library.list_reading(name))[1]
        yield f"{name} needs {lines} lines to be read, at most {most} are allowed" \
            if lines > most else None


def count_proof_numbers(top: str) -> list[int]:
    """Return the values for the table of proof numbers in docs/ASSURANCE.md, row by row."""
    def files(*names: str) -> list[str]:
        return glob.glob(os.path.join(glob.escape(top), *names), recursive=True)

    def values(key: str) -> list[int]:
        return [int(number) for line in lines for number in re.findall(rf"\b{key}=(\d+)", line)]

    proved = parse_proved(read(os.path.join(top, "dist", "PROVED")))
    lines = [line for _, line in proved.crates.values()]
    code = [COMMENT[".rt"].sub("", read(path) or "") for path in files("crates", "*", "src", "**",
                                                                       "*.rt")]
    return [sum("logic=proved" in line for line in lines), sum(values("functions")),
            sum("foreign=" in line for line in lines), sum(values("axioms")),
            sum(len(re.findall(r"\bunsafe\b", text)) for text in code),
            len(files("crates", "*", "must-fail", "*.edit")),
            len(files("crates", "*", "release-edits", "*.edit"))]


def correct_number_rows(top: str) -> Iterator[tuple[str, str]]:
    """Yield each row of the table of proof numbers in docs/ASSURANCE.md, and the corrected row."""
    result = NUMBERS.search(read(os.path.join(top, "docs", "ASSURANCE.md")) or "")
    rows, numbers = list(NUMBER.finditer(result[0] if result else "")), count_proof_numbers(top)
    assert len(rows) == len(numbers), f"{len(rows)} rows of numbers in docs/ASSURANCE.md"
    for row, number in zip(rows, numbers):
        yield row[0], f"| {row[1]} | {number:,} |"
