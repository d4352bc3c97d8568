"""Read crates.txt, which lists the crates of this repository and their dependencies."""
from __future__ import annotations

import os
import shutil

from subtitles.common.program import TOP

CRATES = os.path.join(TOP, "crates")
LIST = os.path.join(TOP, "crates.txt")

Lines = dict[str, list[str]]  # maps a crate or a toolchain library to the crates that it uses


def read_lines(path: str = LIST) -> Lines:
    """Read a crates.txt file."""
    lines: Lines = {}
    with open(path, encoding="utf-8") as file:
        for line in file:
            name, colon, rest = line.split("#")[0].partition(":")
            if colon:
                lines[name.split()[0]] = rest.split()
    return lines


def list_dependencies(crate: str, lines: Lines) -> list[str]:
    """Return the crates of this repository on which a crate depends, each after those it uses."""
    result: list[str] = []
    for name in lines[crate]:
        if name in lines:
            result += [lower for lower in [*list_dependencies(name, lines), name]
                       if lower not in result]
    return result


def write_lines(folder: str, crates: list[str], lines: Lines) -> None:
    """Write a crates.txt file with only these crates into a folder."""
    with open(os.path.join(folder, "crates.txt"), "w", encoding="utf-8") as file:
        file.writelines(f"{name}: {' '.join(lines[name])}\n" for name in crates)


def copy_crates(folder: str, crates: list[str], lines: Lines, *left_out: str) -> None:
    """Copy crates into a new repository, except files and folders named in `left_out`."""
    write_lines(folder, crates, lines)
    shutil.copy2(os.path.join(TOP, "HANDLES"), folder)
    for name in crates:
        shutil.copytree(os.path.join(CRATES, name), os.path.join(folder, "crates", name),
                        ignore=shutil.ignore_patterns(*left_out))
