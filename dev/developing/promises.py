"""Read the index in docs/CLAUSES.md, which lists each promise with the clauses that state it."""
from __future__ import annotations

import re

from subtitles.common.command_line import Stop
from .definitions import Library

CLAUSE = re.compile(r"`(\w+/[\w.]+)`")
ROW = re.compile(r"^\| (.*) \| (`\w+/[\w.]+`(?:, `\w+/[\w.]+`)*) \|$", re.M)
HEAD = "\n## The index of clauses\n"


def find_index(text: str) -> str:
    """Return the text below the heading of the index, or the entire document if it has no index."""
    return text.rpartition(HEAD)[2].partition("\n## ")[0]


def list_index_rows(text: str) -> list[tuple[str, list[str]]]:
    """Return each promise in the index with its clauses: CRATE/FUNCTION.CLAUSE, or a law's name."""
    return [(row[1], CLAUSE.findall(row[2])) for row in ROW.finditer(find_index(text))]


def list_indexed_clauses(text: str) -> list[str]:
    """Return the clauses in the index, each once."""
    return list(dict.fromkeys(clause for _, clauses in list_index_rows(text)
                              for clause in clauses))


def find_unknown_clauses(text: str, library: Library) -> list[str]:
    """Return a message for each clause in the index that is not in the sources."""
    result: list[str] = []
    for clause in list_indexed_clauses(text):
        try:
            library.find_roots(clause)
        except Stop as reason:
            result.append(str(reason))
    return result
