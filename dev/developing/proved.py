"""Read and write PROVED, the file next to a program that names its sources and its proofs.

    sources SUM             the line of tools/sources
    program SUM             the program's SHA-256
    toolchain LINE          the output of `rt version`
    crate NAME SUM LINE     for each crate, after the crates that it uses: SUM is the checksum that
                            `tools/sources --crates` prints, LINE is the line `logic=proved ..` that
                            the prover printed

The program that was proved and built here is in out/. The committed program is in dist/. If `rt ci`
reuses an earlier proof of a crate, it prints no line. Therefore this module stores each printed
line in out/lines, with the checksum of the sources, and finds earlier lines there and in dist/.
"""
from __future__ import annotations

import hashlib
import os
import subprocess
from typing import NamedTuple

from subtitles.common.command_line import Stop
from subtitles.common.program import TOP, copy, read, write

OUT_FOLDER, DIST = os.path.join(TOP, "out"), os.path.join(TOP, "dist")
LINES_FILE = os.path.join(OUT_FOLDER, "lines")
BUILT_PROGRAM = os.path.join(TOP, "crates", "subttx", "out",
                             "subttx")  # the program that rt builds

Crates = dict[str, tuple[str, str]]


class ProvedProgram(NamedTuple):
    """The contents of a PROVED file. `crates` has the checksum and `logic=` line of each crate."""

    sources: str | None
    program: str | None
    toolchain: str | None
    crates: Crates


def parse_proved(text: str | None) -> ProvedProgram:
    """Parse a PROVED file or the file out/lines, which has no `sources` and `program` lines."""
    values: dict[str, str | None] = dict.fromkeys(("sources", "program", "toolchain"))
    crates: Crates = {}
    for line in (text or "").splitlines():
        word, _, rest = line.partition(" ")
        if word == "crate" and rest.count(" ") >= 2:
            name, digest, prover_line = rest.split(" ", 2)
            crates[name] = digest, prover_line
        elif word in values:
            values[word] = rest
    return ProvedProgram(values["sources"], values["program"], values["toolchain"], crates)


def format_proved(proved: ProvedProgram) -> str:
    """Return the text of the PROVED file."""
    lines = [f"{word} {getattr(proved, word)}" for word in ("sources", "program", "toolchain")
             if getattr(proved, word)]
    lines += [f"crate {name} {digest} {line}" for name, (digest, line) in proved.crates.items()]
    return "".join(line + "\n" for line in lines)


def read_proved(folder: str) -> ProvedProgram:
    return parse_proved(read(os.path.join(folder, "PROVED")))


def list_crate_sums(text: str | None = None) -> dict[str, str]:
    """Return the checksum of the sources of each crate. A crate comes after those that it uses.

    `text` is the output of `tools/sources --crates`. If it is `None`, run that script.
    """
    if text is None:
        command = [os.path.join(TOP, "tools", "sources"), "--crates"]
        text = subprocess.run(command, stdin=subprocess.DEVNULL, stdout=subprocess.PIPE,
                              check=True).stdout.decode()
    return {name: digest for name, _, digest in (line.partition(" ") for line in text.splitlines())}


def compute_digest(path: str) -> str:
    with open(path, "rb") as file:
        return hashlib.sha256(file.read()).hexdigest()


def read_toolchain_version() -> str:
    """Return the output of `rt version`."""
    try:
        return subprocess.run(["rt", "version"], stdin=subprocess.DEVNULL, check=True,
                              stdout=subprocess.PIPE).stdout.decode().strip()
    except (OSError, subprocess.CalledProcessError):
        raise Stop("the toolchain's rt is not on the PATH, or prints no version") from None


def parse_log(log: str) -> dict[str, str]:
    """Return the `logic=proved` line of each crate in the output of `rt ci`. Skip test crates."""
    result: dict[str, str] = {}
    crate: str | None = None
    proof: str | None = None
    for line in log.splitlines():
        if line.startswith("== "):
            crate, proof = line.removeprefix("== "), None
        elif line.startswith("logic=proved "):
            proof = line
        elif proof and crate and line == f"rt: {crate} proved":
            result[crate] = proof
    return result


def store_lines(lines: dict[str, str], sums: dict[str, str]) -> None:
    """Store `logic=proved` lines in out/lines. `sums` has the checksums of the proved sources."""
    version, notes = read_toolchain_version(), parse_proved(read(LINES_FILE))
    crates = notes.crates if notes.toolchain == version else {}
    crates |= {name: (sums[name], line) for name, line in lines.items() if name in sums}
    write(LINES_FILE, format_proved(ProvedProgram(None, None, version, crates)))


def list_known_lines(version: str | None) -> dict[tuple[str, str], str]:
    """Return the stored `logic=proved` lines for a toolchain version, by crate and checksum."""
    result: dict[tuple[str, str], str] = {}
    for proved in (read_proved(DIST), parse_proved(read(LINES_FILE))):
        if proved.toolchain == version:
            result |= {(name, digest): line for name, (digest, line) in proved.crates.items()}
    return result


def add_known_lines(proved: ProvedProgram) -> ProvedProgram:
    """Add all stored `logic=proved` lines that belong to the current sources."""
    known = list_known_lines(proved.toolchain)
    return proved._replace(crates={name: (digest, known[name, digest])
                                   for name, digest in list_crate_sums().items()
                                   if (name, digest) in known})


def keep_built_program(of_sources: str, program: str = BUILT_PROGRAM) -> None:
    """Copy the program that rt has proved and built to out/, and write its PROVED file."""
    proved = add_known_lines(ProvedProgram(of_sources, compute_digest(program),
                                           read_toolchain_version(), {}))
    copy(program, os.path.join(OUT_FOLDER, "subttx"), 0o755)
    write(os.path.join(OUT_FOLDER, "PROVED"), format_proved(proved))


def find_crates_without_line(proved: ProvedProgram) -> list[str]:
    """Return the crates whose current sources have no line in a PROVED file."""
    return [name for name, digest in list_crate_sums().items()
            if proved.crates.get(name, ("", ""))[0] != digest]
