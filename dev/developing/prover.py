"""Call the toolchain's prover, which proves a crate from the statements of the crates it uses.

`rattle build` checks each function of a crate. If all are proved, it writes the crate's library.
For the program it writes an object file, which `rattle-link` links. `rt ci` does the same, but lets
a crate use only one job while another crate waits. Here the caller chooses the number of jobs.
"""
from __future__ import annotations

import contextlib
import hashlib
import os
import re
import shutil

from subtitles.common.command_line import Stop
from subtitles.common.program import read, write
from .crates import Lines, list_dependencies
from .proved import read_toolchain_version

PROGRAM = "subttx"
TARGET = "x86_64-unknown-linux-gnu"
# The words that may occur in a prover's line. Any other word means that something is not proved.
WORDS = {"functions", "axioms", "target", "cpu", "sum", "native", "logic-built", "libraries-built",
         "statements"}
LINE = re.compile(r"^logic=proved .*$", re.M)
WARNING = re.compile(r"^(\S+ )?warning:", re.M)


class Prover:
    """The toolchain's prover, found through `rt` on the PATH. `build_folder` holds the built
    libraries."""

    def __init__(self, lines: Lines, build_folder: str) -> None:
        rt = shutil.which("rt")
        if not rt:
            raise Stop("the toolchain's rt is not on the PATH")
        self.programs = os.path.dirname(os.path.realpath(rt))
        self.kit_folder = os.path.dirname(self.programs)
        self.lines, self.build_folder = lines, build_folder

    def get_toolchain_path(self, *names: str) -> str:
        return os.path.join(self.kit_folder, *names)

    def get_library_path(self, name: str) -> str:
        """Return the path of the library for a crate of this repository or of the toolchain."""
        folder = self.build_folder if name in self.lines else self.get_toolchain_path("rlibs")
        return os.path.join(folder, f"{name}.rlib")

    def get_output_path(self, crate: str) -> str:
        """Return the path of a crate's library, or of the program's object file."""
        return (os.path.join(self.build_folder, "subttx.o") if crate == PROGRAM
                else self.get_library_path(crate))

    def make_prove_command(self, crate: str, jobs: int) -> list[str]:
        """Return the command that proves a crate in its folder and writes the crate's library."""
        root = "src/main.rt" if crate == PROGRAM else "src/lib.rt"
        words = [os.path.join(self.programs, "rattle"), "build", "--crate-name", crate, root]
        for name in ["std", *self.lines[crate]]:
            words += ["--extern", f"{name}={self.get_library_path(name)}"]
        for folder in (self.get_toolchain_path("rlibs"), self.build_folder):
            words += ["-L", f"dependency={folder}"]
        words += ["--antt-project", self.get_toolchain_path("rattle", "logic", "antt-project.json")]
        words += ["--logic-built", self.get_toolchain_path("logic_built"), "--jobs", str(jobs)]
        words += ["--empty-contracts"]
        # Crates of this repository contain no C code.
        words += ["--links", f"{crate}="]
        words += (["--toolchain", self.get_toolchain_path("toolchain")] if crate == PROGRAM
                  else ["--statements"])
        return [*words, "-o", self.get_output_path(crate)]

    def make_link_command(self, program: str) -> list[str]:
        words = [os.path.join(self.programs, "rattle-link"), "--target", TARGET]
        words += ["--toolchain", self.get_toolchain_path("toolchain"), "-o", program,
                  self.get_output_path(PROGRAM)]
        return [*words, *(self.get_toolchain_path("c", name)
                          for name in ("libos_c.a", "liblibc_c.a"))]


def parse_prover_line(output: str) -> str | None:
    """Return the last result line in the prover's output for a crate.

    Return `None` if the line has an unknown word, or if the output has a warning, for example about
    a contract that no call can satisfy.
    """
    result = [] if WARNING.search(output) else LINE.findall(output)
    words = {word.partition("=")[0] for word in result[-1].split()[1:]} if result else set[str]()
    return result[-1] if words and words <= WORDS else None


class BuildRecord:
    """The libraries built on this machine, each with a checksum of its sources and toolchain."""

    def __init__(self, prover: Prover, sums: dict[str, str]) -> None:
        self.prover, self.sums, self.toolchain = prover, sums, read_toolchain_version()

    def get_note_path(self, crate: str) -> str:
        return os.path.join(self.prover.build_folder, f"{crate}.of")

    def compute_sum(self, crate: str) -> str:
        """Return a checksum of the toolchain and the sources of a crate and its dependencies."""
        names = [*list_dependencies(crate, self.prover.lines), crate]
        text = "\n".join([self.toolchain, *(self.sums[name] for name in names)])
        return hashlib.sha256(text.encode()).hexdigest()

    def find_line(self, crate: str) -> str | None:
        """Return the prover's output line for a crate, or `None` if it was not proved here."""
        digest, _, line = (read(self.get_note_path(crate)) or "").partition("\n")
        is_there = os.path.exists(self.prover.get_output_path(crate))
        return line.strip() if is_there and digest == self.compute_sum(crate) else None

    def remove_crate(self, crate: str) -> None:
        with contextlib.suppress(FileNotFoundError):
            os.remove(self.get_note_path(crate))

    def keep(self, crate: str, line: str) -> None:
        write(self.get_note_path(crate), f"{self.compute_sum(crate)}\n{line}\n")


def compute_remaining_work(lines: Lines, sizes: dict[str, int]) -> dict[str, int]:
    """Return for each crate the work on its longest path to the program.

    A path leads from a crate to a crate that uses it. `sizes` gives the work of each crate, and
    lists each after the crates that it uses. The result has the opposite order.
    """
    result: dict[str, int] = {}
    for name in reversed(sizes):
        above = (work for user, work in result.items() if name in lines[user])
        result[name] = sizes[name] + max(above, default=0)
    return result
