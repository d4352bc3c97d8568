"""Find the built program and its proof, and install the program and the tools."""
from __future__ import annotations

import functools
import glob
import os
import re
import shutil
import subprocess
import sys
from typing import NamedTuple

from .command_line import INSTALLED, Stop, version
from .files import Stamp, sum_file, add_name_to_errors, make_stamp


TOP = os.path.realpath(os.path.join(os.path.dirname(__file__), "..", "..", ".."))


def sources() -> str:
    """Return the line in which `tools/sources` prints the checksum of the program's sources."""
    process = subprocess.run([os.path.join(TOP, "tools", "sources")], stdin=subprocess.DEVNULL,
                             stdout=subprocess.PIPE, check=False)
    if process.returncode:
        raise Stop("tools/sources can't read the sources")
    return process.stdout.decode().strip()


def find_program(top: str) -> tuple[str, str]:
    """Run `tools/program` in a repository. Return the path and the error message that it prints."""
    process = subprocess.run([os.path.join(top, "tools", "program")], stdin=subprocess.DEVNULL,
                             stdout=subprocess.PIPE, stderr=subprocess.PIPE, check=False)
    return process.stdout.decode().rstrip("\n"), process.stderr.decode().strip()


def find_built_program(path: str | None = None) -> str:
    """Return the program at `path`, or by default the program built from the current sources."""
    if path:
        if os.path.isdir(path) or not os.access(path, os.X_OK):
            raise Stop(f"{path} is not an executable program")
        return resolve_script(path)
    program, reason = find_program(TOP)
    if not program:
        raise Stop(reason or "no program is built for the sources: run ./subttx, or the gate")
    return program


def resolve_script(path: str) -> str:
    """Return the program that a script ./subttx at `path` runs, or `path` for another file."""
    top = os.path.dirname(os.path.realpath(path))
    with open(path, "rb") as file:
        is_script = file.read(2) == b"#!"
    if not is_script or not os.path.isfile(os.path.join(top, "tools", "program")):
        return path
    return find_program(top)[0] or path


def read(path: str) -> str | None:
    """Return the text of a file, or `None` if the file does not exist."""
    if not os.path.isfile(path):
        return None
    with open(path, encoding="utf-8", errors="replace") as file:
        return file.read()


PROVED = "PROVED"  # file next to the program, or in the folder above if the program is installed
CRATE_LINE = re.compile(r"crate (\S+) \S+ logic=proved functions=(\d+)(.*)")


class ProgramInfo(NamedTuple):
    """The version of the tools, the SHA-256 of the program, and a line about its proof."""

    version: str
    sha256: str
    proved: str | None


def describe_program(path: str) -> ProgramInfo:
    """Return the version, the SHA-256 and the proof of the program at a path."""
    real_path = os.path.realpath(resolve_script(path))
    with add_name_to_errors(path):
        info = os.stat(real_path)
    sha256 = compute_sum(real_path, make_stamp(info))
    return ProgramInfo(version(), sha256, find_proof(real_path, sha256))


@functools.lru_cache(maxsize=None)
def compute_sum(path: str, expected_stamp: Stamp) -> str:
    """Return the SHA-256 of a file. Compute it again only if the stamp `expected_stamp` has
    changed."""
    return sum_file(path, path).sha256


def find_proof(program: str, sha256: str) -> str | None:
    """Return a line about the proof of a program, from the file PROVED that contains the program's
    SHA-256. Return `None` if there is no such file, or if a crate in it is not proved."""
    program_folder = os.path.dirname(program)
    for folder in (program_folder, os.path.dirname(program_folder), os.path.join(TOP, "dist")):
        lines = (read(os.path.join(folder, PROVED)) or "").splitlines()
        if f"program {sha256}" in lines:
            return sum_crates([line for line in lines if line.startswith("crate ")])
    return None


def sum_crates(lines: list[str]) -> str | None:
    """Return the number of proved functions and crates, and what the prover printed about the
    crate of the program itself. Return `None` if the program or a crate is not proved."""
    crates = [CRATE_LINE.fullmatch(line) for line in lines]
    proved = [crate for crate in crates if crate]
    details = [crate[3] for crate in proved if crate[1] == "subttx"]
    if not details or len(proved) < len(crates):
        return None
    count = sum(int(crate[2]) for crate in proved)
    return f"logic=proved crates={len(proved)} functions={count}{details[0]}"


TOOLS = ["qc", "air", "read"]
PAGES = ["subttx.1", "subttx-qc.1", "subttx-air.1", "subttx-read.1"]
INSTALLED_DOCUMENTS = ["README.md", os.path.join("docs", "MANUAL.md"),
                       os.path.join("docs", "verdict.schema.json"), "VERSION"]
COMPLETION = os.path.join("tools", "completion.bash")
HOME = os.path.join("lib", "subttx")
MAN = os.path.join("share", "man", "man1")
COMPLETIONS = os.path.join("share", "bash-completion", "completions")
UNITS = ["subttx-air-record@.service", "subttx-air-judge@.service", "subttx-watch@.service"]
SYSTEMD = os.path.join("lib", "systemd", "system")  # the folder of units
USER_FILE = os.path.join("lib", "sysusers.d", "subttx.conf")
USER = 'u subttx - "Teletext subtitles" /var/lib/subttx\n'  # for systemd-sysusers
FOLDERS = "FOLDERS"  # file in HOME that lists the shared folders created by the installation
LINK = re.compile(r"!?\[([^\]]*)\]\(([^)\s#]+)[^)\s]*\)")


def copy(source: str, target: str, mode: int = 0o644) -> None:
    """Copy a file, even onto a running program: rename the copy when it is complete."""
    os.makedirs(os.path.dirname(target), exist_ok=True)
    shutil.copyfile(source, target + ".new")
    os.chmod(target + ".new", mode)
    os.replace(target + ".new", target)


def copy_file(source: str, target: str) -> None:
    """Copy a file with mode 644, or 755 if it can be executed. A clone may be private."""
    copy(source, target, 0o755 if os.access(source, os.X_OK) else 0o644)


def copy_folder(source: str, target: str) -> None:
    """Copy the files of a folder, except compiled Python files."""
    for place, folders, names in os.walk(source):
        folders[:] = [name for name in folders if name != "__pycache__"]
        for name in names:
            copy_file(os.path.join(place, name),
                      os.path.join(target, os.path.relpath(place, source), name))


def write(path: str, text: str) -> None:
    """Write a text file under a temporary name, then rename it."""
    os.makedirs(os.path.dirname(path), exist_ok=True)
    with open(path + ".new", "w", encoding="utf-8") as file:
        file.write(text)
    os.replace(path + ".new", path)


def link(words: str, name: str) -> None:
    """Make a symbolic link at `name` with the target `words`, replacing an earlier file."""
    os.makedirs(os.path.dirname(name), exist_ok=True)
    if os.path.lexists(name):
        os.remove(name)
    os.symlink(words, name)


def copy_tools(prefix: str) -> None:
    """Copy the tools, their Python packages, and the documents that they name."""
    home = os.path.join(prefix, HOME)
    shutil.rmtree(os.path.join(home, "tools"), ignore_errors=True)
    for name in TOOLS:
        copy(os.path.join(TOP, "tools", name), os.path.join(home, "tools", name), 0o755)
        link(os.path.join("..", "lib", "subttx", "tools", name),
             os.path.join(prefix, "bin", INSTALLED + name))
    copy_folder(os.path.join(TOP, "tools", "subtitles"), os.path.join(home, "tools", "subtitles"))
    copy_documents(home)
    link(os.path.join("..", "..", "bin", "subttx"), os.path.join(home, "subttx"))


def compile_tools(prefix: str) -> None:
    """Compile the Python packages. Ignore file times, since the installation may be moved later."""
    import compileall  # imported only here because it is slow
    import py_compile
    sys.pycache_prefix = None  # store the compiled files next to the sources
    compileall.compile_dir(os.path.join(prefix, HOME, "tools", "subtitles"), quiet=1,
                           invalidation_mode=py_compile.PycInvalidationMode.UNCHECKED_HASH)


def list_documents() -> list[str]:
    """Return README.md, the manual, and the files that they link to, except those in dist/."""
    names = list(INSTALLED_DOCUMENTS)
    for name in names:
        text = (read(os.path.join(TOP, name)) or "") if name.endswith(".md") else ""
        for _, target in LINK.findall(text):
            path = os.path.normpath(os.path.join(os.path.dirname(name), target))
            is_included = os.path.isfile(os.path.join(TOP,
                                                      path)) and path.split(os.sep)[0] != "dist"
            names += [path] if is_included and path not in names else []
    return names


def copy_documents(home: str) -> None:
    """Copy documents and examples, and remove links to files that are not installed."""
    for folder in ("docs", "examples"):
        shutil.rmtree(os.path.join(home, folder), ignore_errors=True)
    copy_folder(os.path.join(TOP, "examples"), os.path.join(home, "examples"))
    names = list_documents()
    for name in names:
        copy_file(os.path.join(TOP, name), os.path.join(home, name))
    for name in names:
        if name.endswith(".md"):
            path = os.path.join(home, name)
            write(path, remove_dead_links(read(path) or "", os.path.dirname(path)))


def remove_dead_links(text: str, folder: str) -> str:
    """Replace each link to a missing file in a document with the text of the link."""
    def keep_live_link(link: re.Match[str]) -> str:
        has_target = ":" in link[2] or os.path.exists(os.path.join(folder, link[2]))
        return link[0] if has_target else link[1]

    return LINK.sub(keep_live_link, text)


def copy_completion(prefix: str) -> None:
    """Install the bash completion for the program and for each tool."""
    folder = os.path.join(prefix, COMPLETIONS)
    copy(os.path.join(TOP, COMPLETION), os.path.join(folder, "subttx"))
    for name in TOOLS:
        link("subttx", os.path.join(folder, INSTALLED + name))


def check_sources(program: str) -> None:
    """Raise `OSError` for the first missing file of an installation, before anything is copied."""
    names = [*(os.path.join("tools", name) for name in TOOLS), COMPLETION, *INSTALLED_DOCUMENTS,
             *(os.path.join("docs", page) for page in PAGES),
             *(os.path.join("docs", "manual", unit) for unit in UNITS)]
    for path in (program, *(os.path.join(TOP, name) for name in names)):
        with open(path, "rb"):
            pass


def install(program: str, prefix: str) -> list[str]:
    """Install everything in a folder. Return the paths of the commands and the man pages."""
    check_sources(program)
    copy(program, os.path.join(prefix, "bin", "subttx"), 0o755)
    pages = [os.path.join(prefix, MAN, page) for page in PAGES]
    for page in pages:
        copy(os.path.join(TOP, "docs", os.path.basename(page)), page)
    copy_tools(prefix)
    copy_completion(prefix)
    names = ["subttx", *(INSTALLED + name for name in TOOLS)]
    return [os.path.join(prefix, "bin", name) for name in names] + pages


def install_units(prefix: str, commands: str) -> list[str]:
    """Install the units of systemd and the user that they run as. Return the paths. The units call
    the tools in the folder `commands`; if it is empty, systemd searches for the tools."""
    paths = [os.path.join(prefix, SYSTEMD, unit) for unit in UNITS]
    for path in paths:
        text = read(os.path.join(TOP, "docs", "manual", os.path.basename(path))) or ""
        write(path, re.sub(rf"(?<=[= ])(?={INSTALLED}(?:qc|air) )", lambda _: commands, text))
    path = os.path.join(prefix, USER_FILE)
    write(path, USER)
    return [*paths, path]


def list_shared_folders(prefix: str) -> list[str]:
    """Return the installation's folders that other software may also use, innermost first."""
    names = ["bin", MAN, COMPLETIONS, SYSTEMD, os.path.dirname(USER_FILE)]
    folders: list[str] = []
    for name in names:
        while name:
            folders.append(name)
            name = os.path.dirname(name)
    return [os.path.join(prefix, name) for name in sorted({*folders, ""}, key=len, reverse=True)]


def install_and_note(program: str, prefix: str, has_units: bool = False) -> list[str]:
    """Install and compile everything, and record the new folders for `remove`."""
    installed_paths = [os.path.relpath(path, prefix) for path in list_shared_folders(prefix)
                       if not os.path.isdir(path)]
    paths = install(program, prefix)
    if has_units:
        paths += install_units(prefix, os.path.join(os.path.abspath(prefix), "bin", ""))
    compile_tools(prefix)
    note = os.path.join(prefix, HOME, FOLDERS)
    known = (read(note) or "").splitlines()
    write(note, "".join(f"{name}\n" for name in dict.fromkeys([*known, *installed_paths])))
    return paths


def remove(prefix: str) -> list[str]:
    """Remove an installation, and the folders that it created if they are empty. Return the removed
    paths."""
    home = os.path.join(prefix, HOME)
    if not os.path.isfile(os.path.join(home, "tools", "qc")):
        raise Stop(f"{prefix} has no subttx: there is no {os.path.join(home, 'tools', 'qc')}")
    if os.path.islink(home):
        raise Stop(f"{home} is a link that no installation made: remove its target, then the link")
    installed_paths = {os.path.normpath(os.path.join(prefix, name))
                       for name in (read(os.path.join(home, FOLDERS)) or "").splitlines()}
    paths = [os.path.join(prefix, "bin", "subttx"), *find_installed_links(prefix),
             *(os.path.join(prefix, MAN, page) for page in PAGES),
             os.path.join(prefix, COMPLETIONS, "subttx"), os.path.join(prefix, USER_FILE),
             *(os.path.join(prefix, SYSTEMD, unit) for unit in UNITS)]
    removed_paths = [path for path in paths if os.path.lexists(path)]
    for path in removed_paths:
        os.remove(path)
    shutil.rmtree(home)
    for path in list_shared_folders(prefix):
        if os.path.normpath(path) in installed_paths and os.path.isdir(path) \
                and not os.listdir(path):
            os.rmdir(path)
    return [*removed_paths, home]


def find_installed_links(prefix: str) -> list[str]:
    """Return the installed links to tools and completions of any version."""
    starts = {"bin": os.path.join("..", HOME, "tools", ""), COMPLETIONS: "subttx"}
    return [path for folder, start in starts.items()
            for path in sorted(glob.glob(os.path.join(glob.escape(prefix), folder,
                                                      INSTALLED + "*")))
            if os.path.islink(path) and os.readlink(path).startswith(start)]
