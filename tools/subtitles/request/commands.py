"""Make commands to suggest to the operator, name result files, and print messages."""
from __future__ import annotations

import collections
import hashlib
import itertools
import os
import re
import shutil
import sys
import time
from typing import Callable, TextIO

from ..common.command_line import (
    CONTROL_CHARACTERS, INSTALLED, Stop, discard_output, escape_hidden, print_stderr,
    quote_argument)
from ..common.files import is_utf_8
from ..common.program import TOP, resolve_script
from .request import OPTIONS, Profile, Request, Selection, list_arguments


class CommandPaths:
    """The paths with which an operator can run the tools and the program. `program_name` is the
    path of the running tool."""

    def __init__(self, program_name: str, program: str | None) -> None:
        folder, name = os.path.split(program_name)
        self.is_installed = name.startswith(INSTALLED)
        installed_path = shutil.which(name) if self.is_installed else None
        if installed_path and os.path.abspath(program_name) == os.path.abspath(installed_path):
            folder = ""
        elif not folder:
            folder = "."
        self.folder = folder
        self.program_command = program or self.get_default_program()
        path = os.path.abspath(program or os.path.join(TOP, "subttx"))
        if os.path.isdir(path) or not os.access(path, os.X_OK):
            raise Stop(f"{self.program_command} is not an executable program")
        # Run the program itself, since the script ./subttx would search for it each time.
        self.program_path = resolve_script(path)

    def get_default_program(self) -> str:
        """Return the path of the program next to the tools."""
        if self.is_installed:
            return os.path.join(self.folder, "subttx")
        path = os.path.normpath(os.path.join(self.folder, "..", "subttx"))
        return path if os.path.dirname(path) else os.path.join(".", path)

    def get_tool_command(self, name: str) -> str:
        """Return the path of a tool, as the operator would type it."""
        return os.path.join(self.folder, INSTALLED + name if self.is_installed else name)


def quote_command(*args: str) -> str:
    """Return a shell command line. All arguments except `>` and `|` are quoted."""
    line = " ".join(word if word in (">", "|") else quote_argument(word) for word in args)
    return line.replace(" > ", " >")


# Names of result files
#
# The name of a result file depends only on its pair and part. Names are unique: a suffix of a
# subtitle file's name that looks like a part number or a line number is escaped.
#
#     film.json       the pair of film.stl         film~2.json     the second film.stl of a list
#     film.1.html     the first part of film.stl   line 7.json     line 7, which has no valid pair
#     film%2E1.json   the pair of film.1.stl       %69ndex.json    the pair of index.stl
#     %73tate.json    the pair of state.stl

PART_ENDINGS = ("cut.pes", "txt", "html")
KEPT_PES, KEPT_TS = "recording.pes", "recording.ts"  # suffixes of a kept recording
# suffix of the copy of a subtitle file that runs over midnight; a batch takes .stl for an input
MOVED_STL = "midnight.copy"
PAIR_ENDINGS = (*PART_ENDINGS, KEPT_PES, KEPT_TS, MOVED_STL, "json")
LOCK = "lock"  # suffix of the lock file of a pair that is being judged
INDEX = "index"  # name of the page with all pairs of a folder
STATE = "state.json"  # file with the state of a service
ESCAPE = "%"
# Parts of names that are escaped: a leading dot, control characters, and suffixes that look like
# the number of a second pair, of a part or of a line.
ESCAPED_PARTS = re.compile(rf"^\.|{ESCAPE}|{CONTROL_CHARACTERS.pattern}|[.~](?=[0-9]+$)|(?<=^line) "
                           rf"(?=[0-9]+$)"
                           r"|^i(?=ndex$)|^s(?=tate$)")
MAX_NAME_BYTES, KEPT_NAME_BYTES = 180, 120  # a longer name is cut, and a digest is appended


def make_pair_name(stl: str) -> str:
    """Derive the base name of a pair's result files from the name of its subtitle file."""
    stem = os.path.splitext(os.path.basename(stl))[0]
    name = ESCAPED_PARTS.sub(lambda found: "".join(
        f"{ESCAPE}{byte:02X}" for byte in os.fsencode(found[0])), stem) or ESCAPE
    if len(os.fsencode(name)) > MAX_NAME_BYTES:
        digest = hashlib.sha256(os.fsencode(stem)).hexdigest()[:32]
        beginning = name.encode()[:KEPT_NAME_BYTES].decode("utf-8", "ignore")
        name = f"{beginning}{ESCAPE}~{digest}"
    return name


def make_part_name(name: str, number: int) -> str:
    """Return the base name of the result files of part `number`."""
    return f"{name}.{number}"


class ListNames:
    """Assigns unique names to the results of a list's lines, in the order of the lines."""

    def __init__(self) -> None:
        self.counts: collections.Counter[str] = collections.Counter()

    def name_pair(self, stl: str) -> str:
        """Return a unique name for the next pair."""
        return self.add_number(make_pair_name(stl))

    def make_line_name(self, number: int) -> str:
        """Return a unique name for a line that has no valid pair."""
        return self.add_number(f"line {number}")

    def add_number(self, name: str) -> str:
        """Return the name, with a number appended if the name was used before."""
        self.counts[name] += 1
        return name if self.counts[name] == 1 else f"{name}~{self.counts[name]}"


PART_FILE = re.compile(rf"(.*)\.[1-9][0-9]*\.({'|'.join(map(re.escape, PART_ENDINGS))})", re.DOTALL)


class PartFiles:
    """The result files of parts in a folder. The folder is listed only once, since listing it for
    each pair would take quadratic time."""

    def __init__(self, folder: str) -> None:
        self.folder = folder
        self.files_by_pair: dict[str, set[str]] = collections.defaultdict(set)
        for file in os.listdir(folder) if os.path.isdir(folder) else ():
            if match := PART_FILE.fullmatch(file):
                self.files_by_pair[match[1]].add(file)

    def list_files(self, name: str) -> list[str]:
        """Return the files of a pair's parts. Include files that are not in `files_by_pair` yet."""
        names = {*self.files_by_pair.get(name, ())}
        for number in itertools.count(1):
            candidates = {f"{make_part_name(name, number)}.{ending}" for ending in PART_ENDINGS}
            existing_files = {file for file in candidates
                              if os.path.lexists(os.path.join(self.folder, file))}
            names |= existing_files
            if not existing_files:
                break
        return sorted(names)


def list_pair_files(folder: str, name: str, parts: PartFiles | None = None) -> list[str]:
    """Return the paths of all result files that judging a pair may write or remove."""
    part_files = (parts or PartFiles(folder)).list_files(name)
    return [os.path.join(folder, file)
            for file in (*(f"{name}.{ending}" for ending in PAIR_ENDINGS), *part_files)]


def make_lock_path(folder: str, name: str) -> str:
    """Return the path of a pair's lock file, or of the folder's lock file if `name` is empty."""
    return os.path.join(folder, f".{name}.{LOCK}" if name else f".{LOCK}")


def make_index_path(folder: str) -> str:
    """Return the path of the page that lists all pairs of a folder."""
    return os.path.join(folder, f"{INDEX}.html")


class OutputNames:
    """The paths of the result files of a pair or part. `folder` is the temporary folder, and `out`
    is the output folder as typed. Complete files are written to `staging_folder` if the caller
    moves them to `out` later."""

    def __init__(self, name: str, folder: str, out: str | None,
                 staging_folder: str | None = None) -> None:
        self.name, self.folder, self.out = name, folder, out
        self.staging_folder = staging_folder or out
        self.program_stl = ""  # path for the program, which accepts only UTF-8
        self.moved_stl: str | None = None  # path of the copy with moved times, if there is one
        # path of a copy of standard input
        self.recording_path = self.make_temporary_path("recording")
        self.list_path = self.make_temporary_path("txt")
        self.report_path = self.make_final_path("html")
        self.json_path = self.make_final_path("json") if out else None

    def make_display_path(self, ending: str) -> str:
        """Return the path of a result file, as shown to the operator."""
        return os.path.join(self.out or "", f"{self.name}.{ending}")

    def make_final_path(self, ending: str) -> str:
        """Return the path at which the result file with this ending is stored."""
        return os.path.join(self.staging_folder or "", f"{self.name}.{ending}")

    def make_temporary_path(self, ending: str) -> str:
        """Return the path in the temporary folder for a file with this ending."""
        return os.path.join(self.folder, f"{self.name}.{ending}")

    def make_part_paths(self, number: int) -> OutputNames:
        """Return the paths of the result files of a part."""
        part = OutputNames(make_part_name(self.name, number), self.folder, self.out,
                           self.staging_folder)
        part.program_stl, part.moved_stl = self.program_stl, self.moved_stl
        return part

    def set_subtitle_file(self, stl: str, is_moved: bool = False) -> None:
        """Set the path of the subtitle file. It may be a copy with moved times."""
        self.program_stl = self.make_utf_8_path(stl, "given.stl")
        self.moved_stl = self.make_display_path(MOVED_STL) if is_moved else None

    def make_utf_8_path(self, name: str, ending: str) -> str:
        """Return a path in UTF-8, which the program needs. If necessary, make a symbolic link."""
        if is_utf_8(name):
            return name
        path = self.make_temporary_path(ending)
        if not os.path.lexists(path):
            os.symlink(os.path.abspath(name), path)
        return path


def make_command(request: Request, command_paths: CommandPaths, *more: str) -> str:
    """Return the command line that repeats a request with additional arguments. An additional
    option replaces the same option of the request."""
    arguments = [command_paths.get_tool_command("qc"), request.stl,
                 request.recording or "--file-only"]
    options = list_arguments(request)
    replaced_options = {"--origin": ["--origin", "--start"]}.get(more[0], [more[0]]) if more else []
    if request.reference_call and (more[0] != "--pes" or not request.is_reading):
        arguments[1:] = request.reference_call
        replaced_options += ["--start", "--option"]
        if more[0] == "--pid" and request.pid is not None:
            more = ()  # no PID of --pid is right for both recordings
        elif more[0] in ("--origin", "--pes"):
            times = ("--start", "TIME", "--reference-start", "TIME")
            arguments[4:] = () if request.start else times
            more = ()
    elif request.is_reading:
        arguments = [command_paths.get_tool_command("read"), str(request.recording),
                     *["--page", request.page_name] * ("--page" not in more)]
        replaced_options = [*replaced_options, "--page"]
    arguments += [word for option in options if option and option[0] not in replaced_options
                  for word in option]
    return quote_command(*arguments, *more)


def format_profile(profile: Profile) -> str:
    """Return the output line that lists the options in a profile."""
    arguments = [word for option in OPTIONS if (setting := profile.settings.get(option.field))
                 and setting.name == option.name
                 for word in option.format_arguments(setting.value, None)]
    return f"profile {profile.name}: {quote_command(*arguments) or 'no options'}"


UPDATE_SECONDS = 0.2  # minimum number of seconds between updates of the progress line
CLEAR_LINE = "\r\x1b[K"


class Progress:
    """Shows a progress line if standard error is a terminal."""

    def __init__(self) -> None:
        self.is_terminal = sys.stderr is not None and sys.stderr.isatty()
        self.next_update, self.is_shown = 0.0, False

    def show(self, make_line: Callable[[], str]) -> None:
        """Show a progress line, unless a line was shown less than `UPDATE_SECONDS` ago."""
        if self.is_terminal and time.monotonic() >= self.next_update:
            self.next_update, self.is_shown = time.monotonic() + UPDATE_SECONDS, True
            width = shutil.get_terminal_size().columns - 1
            sys.stderr.write(CLEAR_LINE + make_line()[:width])
            sys.stderr.flush()

    def clear(self) -> None:
        """Erase the progress line, so that other output can follow."""
        if self.is_shown:
            self.is_shown = False
            sys.stderr.write(CLEAR_LINE)
            sys.stderr.flush()


MAX_LIST_LINES = 40
class Printer:
    """Prints lines on standard output, or on standard error if an output file is `-`."""

    def __init__(self, progress: Progress, is_output_taken: bool = False) -> None:
        self.progress = progress
        self.out = sys.stderr if is_output_taken else sys.stdout
        self.last_line, self.list_length = "", 0
        self.is_quiet = False  # print only the verdict
        self.before_last_line: Callable[[], None] = lambda: None

    def print_line(self, line: str) -> None:
        """Print a line, unless only the verdict is printed."""
        self.progress.clear()
        self.last_line = line
        if not self.is_quiet:
            self.write_line(escape_hidden(line), self.out)

    @staticmethod
    def write_line(line: str, out: TextIO) -> None:
        """Print a line and flush it. Ignore a closed pipe, so that judging continues."""
        try:
            print(line, file=out, flush=True)
        except BrokenPipeError:
            discard_output(out)

    def print_error(self, line: str) -> None:
        """Print a line on standard error, after all earlier output."""
        self.progress.clear()
        print_stderr(line)

    def show_progress(self, make_line: Callable[[], str]) -> None:
        self.progress.show(make_line)

    def print_command(self, line: str) -> None:
        """Print the command that is about to run, and begin the list of its output lines."""
        self.list_length = 0
        self.print_line(f"+ {line}")

    def print_list_line(self, line: str) -> None:
        """Print a line of a list, if it is among the first `MAX_LIST_LINES`."""
        self.list_length += 1
        if self.list_length <= MAX_LIST_LINES:
            self.print_line(line)

    def end_list(self, last_line: str) -> None:
        """End a list: print the number of omitted lines, and the last line."""
        omitted_count = self.list_length - MAX_LIST_LINES
        if omitted_count > 1:
            self.print_line(f".. {omitted_count - 1} more lines")
        if omitted_count > 0:
            self.print_line(last_line)

    def print_verdict(self, sentence: str, line: str) -> None:
        """Print the sentence of a verdict, then its last line, for example `accepted`."""
        self.is_quiet = False
        self.print_line(sentence)
        self.before_last_line()
        self.print_line(line)


class Listener:
    """Prints the lines about a pair, and stores commands, choices and notes for the result."""

    def __init__(self, printer: Printer) -> None:
        self.printer = printer
        self.commands: list[str] = []
        self.selections: list[Selection] = []
        self.notes: list[str] = []

    def print_line(self, line: str) -> None:
        self.printer.print_line(line)

    def add_selection(self, selection: Selection, is_printed: bool = True) -> None:
        """Store a choice that qc made, and print its line if `is_printed`."""
        if is_printed:
            self.printer.print_line(selection.line)
        self.selections.append(selection)

    def add_command(self, *args: str) -> None:
        """Print and store a command."""
        self.commands.append(quote_command(*args))
        self.printer.print_command(self.commands[-1])

    def add_notes(self, *lines: str) -> None:
        """Store notes, which are printed with the verdict."""
        self.notes += [line for line in lines if line and line not in self.notes]
