"""Modules that the scripts of dev/ share.

proved        the facts about the built program in dist/PROVED
debian        the Debian package
pages         man pages and completion, generated from the help and one table of options
crates        the crates and their dependencies
prover        the toolchain's prover
sizes         lines of the crates by kind
definitions   the definitions of specs/, and the dependencies of names and clauses
sources       the names that a file of specs/, proofs/ or src/ defines
graph         the uses of these names, and the promises that depend on them
signs         the symbols of definitions and their meanings
promises      the index in docs/CLAUSES.md: promises, and the clauses that state them
cited         names and numbers in the documents
shown         the command lines of documents, with the output shown there
edits         faulty programs: edits of the crates
bugs          planted bugs: small mistakes of the tools, made in the syntax tree
planting      runs of tests on planted bugs
looks         checks of reports in a browser
compiled      the tools, compiled once for many test calls
pes           Teletext packets and their PES packets
stl           blocks of subtitle files
multiplex     transport streams
trial         runs of the program in which a system call fails
trial_inputs  the commands and input files of these runs
trial_memory  runs with little memory
every_place   the second implementation; on purpose it shares only codes, times and layouts
surveying     the second implementation of `survey`, written from its manual page
tests         the unittest modules of check-tools, one for each tool or idea

These modules use the packages of tools/subtitles. A script imports `developing` first, which puts
tools/ on the import path.
"""
from __future__ import annotations

import os
import re
import sys

DEV = os.path.realpath(os.path.join(os.path.dirname(__file__), ".."))
TOOLS = os.path.join(os.path.dirname(DEV), "tools")
sys.path.insert(1, TOOLS)  # searched after the script's own folder


def read_counts(said: str, status: int) -> tuple[int, int] | None:
    """Return the numbers in a script's last line, `N passed, M failed`.

    Return `None` if there is no such line, or if the exit status contradicts it.
    """
    result = re.search(r"^(\d+) passed, (\d+) failed\n\Z", said, re.M)
    is_so = result is not None and (status != 0) == (result[2] != "0")
    return (int(result[1]), int(result[2])) if result and is_so else None
