"""Parse the definitions, lemmas and functions in a file of specs/, proofs/ or src/, for dev/graph.
"""
from __future__ import annotations

import itertools
import os
import re
from dataclasses import dataclass, field
from typing import Iterator

from .definitions import USE_STATEMENT, File, read_braced_text

HEAD = re.compile(r"((?:(?:pub|abbrev|unfoldable|opaque|record|data|ruleset) )*)"
                  r"([^\s:(){},;]+)(?=[\s:]|$)")
FUNCTION = re.compile(r"^( *)(pub(?:\([^)]*\))? )?(?:(?:const|final|unsafe) )*fn (\w+)")
CLAUSE = re.compile(r"\b(requires|ensures)\*? *(\w*) *\{")
BLOCK = re.compile(r" *(?:pub )?(?:unsafe )?(?:impl|trait)\b(?:<.*?>)? ?(?:.* for )?"
                   r"(?:\w+::)*(\w+)")
NO_TEXT = ("//", "use ", "pub use ", "ghost use ", "mod ", "#[")  # lines in src/ to skip
QUOTED = re.compile(r"`([\w'-]+)`")
MAIN = re.compile(r"[Mm]ain lemmas?: ([^.:]*)")


@dataclass(eq=False)
class Node:
    """A definition, lemma, function, clause or body. A function's `owner` is its type or trait."""

    kind: str
    file: Source
    name: str
    line: int
    text: list[str]
    lines: int = 1
    is_promised: bool = False
    is_public: bool = False
    owner: str = ""
    function: Node | None = None  # the function to which a clause belongs
    used_nodes: dict[Node, None] = field(default_factory=dict)
    used_by: dict[Node, None] = field(default_factory=dict)

    def add(self, other: Node | None) -> None:
        if other is not None and other is not self:
            self.used_nodes[other] = None
            other.used_by[self] = None

    def format_place(self) -> str:
        return f"{os.path.relpath(self.file.path, self.file.top)}:{self.line}"

    def format_title(self) -> str:
        return f"{self.file.crate}/" + (f"{self.owner}::" if self.owner else "") + self.name


class Source(File):
    """A file of specs/, proofs/ or src/, and its definitions."""

    def __init__(self, top: str, crate: str, path: str, module: str) -> None:
        super().__init__(crate, path, module)
        self.top = top
        self.own: dict[str, Node] = {}
        self.functions: list[Node] = []


def read_definitions(file: Source, kind: str) -> Iterator[Node]:
    """Yield the definitions in a file of specs/ or proofs/, including those in `module _ .. where`.

    A definition begins at a line with a type or a keyword such as `pub`. It includes its equations,
    the following lines with more indentation, and the parameters of the enclosing modules.
    """
    now: Node | None = None
    # The indentation, the parameters and the inner indentation of each enclosing module.
    modules: list[tuple[int, list[str], int]] = []
    is_head = False  # whether the line is within the parameters of a module
    for number, line in enumerate(file.text.split("\n"), 1):
        stripped = line.strip()
        if not stripped or stripped.startswith(("--", "pub mod ")) or USE_STATEMENT.match(line):
            continue
        depth = len(line) - len(line.lstrip())
        if is_head:
            modules[-1][1].append(stripped)
            is_head = not is_end_of_head(stripped)
            continue
        while modules and depth <= modules[-1][0]:
            modules.pop()
        if modules and not modules[-1][2]:
            modules[-1] = *modules[-1][:2], depth
        is_level = depth == (modules[-1][2] if modules else 0)
        if is_level and stripped.startswith("module "):
            modules.append((depth, [stripped], 0))
            is_head, now = not is_end_of_head(stripped), None
        elif is_level and (name := find_defined_name(stripped)):
            outer_modules = [part for _, parts, _ in modules for part in parts]
            now = Node(kind, file, name, number, [*outer_modules, stripped])
            yield now
        elif now:
            now.text.append(stripped)
            now.lines += 1


def is_end_of_head(stripped: str) -> bool:
    """Return whether a line ends the header of a module, `module NAME (parameters) where`."""
    return stripped == "where" or stripped.endswith(" where")


def find_defined_name(stripped: str) -> str | None:
    """Return the name of the definition that begins on a line, or `None` for an equation."""
    head = HEAD.match(stripped)
    return head[2] if head and (head[1]
                                or re.match(r" *:(?:\s|$)", stripped[head.end():])) else None


def find_head_names(text: str) -> set[str]:
    """Return the quoted names in a file's first comment, and the names after `main lemmas:`."""
    lines = itertools.takewhile(lambda line: line.startswith("--"), text.split("\n"))
    head = " ".join(line[2:].strip() for line in lines)
    main_names = (re.split(r"[`,;\s]+", names) for names in MAIN.findall(head))
    return {*QUOTED.findall(head), *itertools.chain(*main_names)} - {"", "and"}


def read_functions(file: Source) -> list[str]:
    """Find the functions in `file.text`, and add them to `file.functions`. Return other lines."""
    other_lines: list[str] = []
    attributes: list[str] = []  # attributes of the next function
    owner, at = "", 0
    lines = file.text.split("\n")
    while at < len(lines):
        line, stripped = lines[at], lines[at].strip()
        if head := FUNCTION.match(line):
            last = find_end_of_function(lines, at, head[1])
            text = [*attributes, *map(str.strip, lines[at:last + 1])]
            file.functions.append(Node(
                "function", file, head[3], at + 1, text, owner=owner,
                lines=sum(bool(text_line) and not text_line.startswith("//") for text_line in text),
                is_public=bool(head[2]) and "(" not in head[2]))
            at, attributes = last + 1, []
            continue
        if stripped.startswith("#["):
            attributes.append(stripped)
        elif not stripped.startswith("//"):
            attributes = []
        if line.startswith("}"):
            owner = ""
        elif block := BLOCK.match(line):
            owner = block[1]
        if not stripped.startswith(NO_TEXT):
            other_lines.append(stripped)
        at += 1
    return other_lines


def find_end_of_function(lines: list[str], at: int, indent: str) -> int:
    """Return the index of a function's last line. The first is at `at`, indented by `indent`."""
    depth = 0  # depth of braces in the contract
    for number in range(at, len(lines)):
        line = lines[number].rstrip()
        is_in_clause = CLAUSE.search(line) or depth
        if not is_in_clause and line.endswith(("{}", "{ }")):
            return number
        if not is_in_clause and line.endswith("{"):
            return next((line_index for line_index in range(number, len(lines)) if lines[
                                                            line_index] == indent + "}"), number)
        depth += line.count("{") - line.count("}")
        if not depth and line.endswith(";"):
            return number  # a trait's function without a body
    return len(lines) - 1


def list_contract_clauses(text: str) -> Iterator[tuple[str, str, str, int]]:
    """Yield the keyword, name, text and end offset of each clause in a contract."""
    at = 0
    while result := CLAUSE.search(text, at):
        clause_text = read_braced_text(text, result.end())
        at = result.end() + len(clause_text) + 1
        yield result[1], result[2], clause_text, at


