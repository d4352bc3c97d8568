"""Read and apply the faulty programs of crates/*/must-fail/, release-edits/ and test-edits/.

In a NAME.edit file, each line `file: PATH` is followed by pairs of lines `old: TEXT` and `new:
TEXT`. The new text replaces the old text in the crate's file PATH, where the old text must occur
exactly once. A line `test: NAME` names a stored test that must fail on the faulty program.
"""
from __future__ import annotations

import contextlib
import os
import re
from collections import Counter
from typing import Iterator, NamedTuple

from subtitles.common.command_line import Stop
from subtitles.common.program import read
from .crates import CRATES

GATE_FOLDER = "must-fail"
RELEASE_FOLDER = "release-edits"
TEST_FOLDER = "test-edits"  # folder of edits that the prover accepts and a test detects
FOLDERS = (GATE_FOLDER, RELEASE_FOLDER, TEST_FOLDER)
NAME = re.compile(r"[A-Za-z0-9_-]+\.edit")
PARTS = ("src/", "specs/", "proofs/")  # parts of a crate that an edit may change
# A test with its body, which ends at a brace at the start of a line.
TEST = re.compile(r"(?:#\[rattlefmt::skip\]\n)?#\[test\]\nfn (\w+)\(.*?\n}\n", re.S)


class Edit(NamedTuple):
    """An edit file. `str` returns CRATE/FOLDER/NAME."""

    crate: str
    folder: str
    name: str

    def __str__(self) -> str:
        return "/".join(self)

    def path(self) -> str:
        return os.path.join(CRATES, self.crate, self.folder, self.name + ".edit")

    def matches(self, word: str) -> bool:
        """Return whether `word` names this edit.

        It may be NAME, CRATE/NAME or CRATE/FOLDER/NAME, or CRATE for all edits of a crate.
        """
        word = word.removesuffix(".edit").removeprefix("crates/")
        return word in (self.name, self.crate, f"{self.crate}/{self.name}", str(self))


def list_edits(folder: str) -> list[Edit]:
    """Return the edits in the subfolder `folder` of every crate."""
    result = []
    for crate in sorted(os.listdir(CRATES)):
        place = os.path.join(CRATES, crate, folder)
        for file in sorted(os.listdir(place)) if os.path.isdir(place) else ():
            if not NAME.fullmatch(file):
                raise Stop(f"crates/{crate}/{folder}/{file} is not named as an edit: NAME.edit")
            result.append(Edit(crate, folder, file.removesuffix(".edit")))
    return result


Lines = list[tuple[str, str]]  # key before the colon and text after the colon


def read_edit(path: str) -> Lines:
    """Return the key before the colon and the text after it for each line of an edit file."""
    with open(path, encoding="utf-8") as file:
        lines = [line.partition(":") for line in file.read().split("\n") if line.strip()]
    return [(kind, rest.removeprefix(" ")) for kind, _, rest in lines]


def find_test(name: str, lines: Lines) -> str | None:
    """Return the test in an edit's `test:` line, or `None`. Error messages mention `name`."""
    names = [rest.strip() for kind, rest in lines if kind == "test"]
    if len(names) > 1:
        raise Stop(f"{name}: more than one line `test:`")
    return names[0] if names else None


def read_test(edit: Edit) -> str | None:
    """Return the stored test in an edit's `test:` line, or `None`."""
    return find_test(str(edit), read_edit(edit.path()))


def apply_edit(edit: Edit) -> dict[str, str]:
    """Return the new text of each file that the edit changes, by its path in the crate."""
    return edit_texts(str(edit), read_edit(edit.path()), os.path.join(CRATES, edit.crate), PARTS)


@contextlib.contextmanager
def replace_files(top: str, texts: dict[str, str]) -> Iterator[None]:
    """Replace the texts of files below a folder in a `with` block, and restore them afterwards."""
    originals = {}
    for path, text in texts.items():
        file_name = os.path.join(top, path)
        with open(file_name, "r+b") as file:
            originals[file_name] = file.read(), os.stat(file_name).st_mtime_ns
            file.seek(0)
            file.truncate()
            file.write(text.encode())
    try:
        yield
    finally:
        for file_name, (data, mtime) in originals.items():
            with open(file_name, "wb") as file:
                file.write(data)
            os.utime(file_name, ns=(mtime, mtime))


def edit_texts(name: str, lines: Lines, top: str, parts: tuple[str, ...]) -> dict[str, str]:
    """Return the new text of each file that an edit changes, by its path below `top`."""
    path: str | None = None
    old: str | None = None
    texts: dict[str, str] = {}
    for kind, rest in lines:
        if kind == "file":
            path = rest.strip()
            if not path.startswith(parts) or os.path.normpath(path) != path:
                raise Stop(f"{name}: {path} is not a path in {', '.join(parts)}")
        elif kind == "old":
            old = rest
        elif kind == "new":
            if path is None or not old:
                raise Stop(f"{name}: a line `new:` needs `file:` and `old:` before it")
            text = texts.get(path) or read(os.path.join(top, path))
            if text is None:
                raise Stop(f"{name}: there is no {path}")
            texts[path] = replace_once(f"{name}: {path}", text, old, rest)
            old = None
        elif kind != "test":
            raise Stop(f"{name}: a line begins with {kind}, not `file:`, `old:`, `new:` or `test:`")
    if old is not None or not texts:
        raise Stop(f"{name}: a line `new:` is missing")
    return texts


def replace_once(name: str, text: str, old: str, new: str) -> str:
    """Replace a string that must occur exactly once in a text."""
    if old == new:
        raise Stop(f"{name}: `old` and `new` are the same: {old}")
    if text.count(old) != 1:
        raise Stop(f"{name}: `old` must occur once, not {text.count(old)} times: {old}")
    return text.replace(old, new)


def find_stored_tests() -> dict[str, tuple[str, str]]:
    """Return the crate and the path in src/ of each test whose name is unique."""
    result: dict[str, list[tuple[str, str]]] = {}
    for crate in sorted(os.listdir(CRATES)):
        top = os.path.join(CRATES, crate, "src")
        for folder, _, files in os.walk(top):
            for path in (os.path.join(folder, file) for file in files):
                for name in TEST.findall(read(path) or ""):
                    result.setdefault(name, []).append((crate, os.path.relpath(path, top)))
    return {name: places[0] for name, places in result.items() if len(places) == 1}


def count_applicable_edits() -> tuple[int, int]:
    """Print the inapplicable edits. Return the numbers of applicable and inapplicable edits."""
    edits = [edit for folder in FOLDERS for edit in list_edits(folder)]
    tests = find_stored_tests()
    failed = 0
    for (crate, name), number in Counter((edit.crate, edit.name) for edit in edits).items():
        if number > 1:
            print(f"{crate}: two edits have the name {name}")
            failed += 1
    for edit in edits:
        try:
            apply_edit(edit)
            test = read_test(edit)
            if test is not None and test not in tests:
                raise Stop(f"{edit}: no stored test, or more than one, is named {test}")
        except Stop as stop:
            print(stop)
            failed += 1
    return len(edits) - failed, failed
