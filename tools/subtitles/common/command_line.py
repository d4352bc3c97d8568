"""Parse the arguments of a tool, print its messages, and choose its exit status."""
from __future__ import annotations

import argparse
import contextlib
import os
import re
import shlex
import signal
import sys
import traceback
from typing import Any, Callable, IO, Mapping, NamedTuple, NoReturn, Sequence, TextIO

from .times import CLOCK, parse_frame


# Control characters, marks of the writing direction, line separators, surrogates and
# non-characters, some of which XML does not allow.
CONTROL_CHARACTERS = re.compile("[\x00-\x1f\x7f-\x9f\u061c\u200e\u200f\u2028-\u202e\u2066-\u2069"
                                "\ud800-\udfff\ufffe\uffff]")
INSTALLED = "subttx-"  # prefix of the names of installed tools
MAX_EVERY = 2_160_000  # maximum number of frames for --every and --pace: one day
MAX_WITHIN = 50  # maximum number of frames for --within
MAX_DIGITS = 3  # maximum number of digits for --breaks
TCP_WORD = "tcp"  # for --start: use the TCP of the GSI block
NO_PID = 0x1FFF  # PID of null packets
PACKET_SIZE, PACKET_SIZES = 188, (188, 192, 204)  # bytes from one TS packet to the next
HOME = os.path.realpath(os.path.join(os.path.dirname(__file__), "..", "..", ".."))


# Why a pair was not judged, or why a tool ended early. `usage`: its arguments are wrong, which can
# be said without looking at a file. `input`: a file, a folder or a list is missing or wrong.
# `undecided`: all was read, but it does not decide a verdict. `resource`: a device, memory, a time
# limit or another process prevented it, so another run may succeed. `bug`: a tool or the program
# has a bug.
USAGE, INPUT, UNDECIDED, RESOURCE, SIGNAL, BUG = KINDS = (
    "usage", "input", "undecided", "resource", "signal", "bug")
USAGE_STATUS, BUG_STATUS, OTHER_STATUS = 64, 70, 2  # the first two are those of sysexits.h
STATUSES_BY_KIND = {kind: OTHER_STATUS for kind in KINDS} | {USAGE: USAGE_STATUS, BUG: BUG_STATUS}
# Errors of the operating system that say that a path is wrong
PATH_ERRORS = (FileNotFoundError, FileExistsError, IsADirectoryError, NotADirectoryError,
               PermissionError)
# Signals by which a program with a bug ends
CRASH_SIGNALS = {signal.SIGABRT, signal.SIGBUS, signal.SIGFPE, signal.SIGILL, signal.SIGSEGV,
                 signal.SIGSYS, signal.SIGTRAP}


class ReportedError(Exception):
    """An error that is not a bug. `kind` is one of `KINDS`."""

    kind = INPUT


class Stop(ReportedError):
    """Raised to exit a tool. The message is printed on standard error."""


class UsageError(Stop):
    """Raised if arguments are wrong, whatever the files contain."""

    kind = USAGE


class WrongAnswer(Stop):
    """Raised if the program's output is not in its documented form."""

    kind = BUG


class ProgramInterrupted(Stop):
    """Raised if the program ended, or was killed, before its output was complete."""

    def __init__(self, text: str, exit_status: int) -> None:
        super().__init__(text)
        self.kind = classify_program_end(exit_status)


def classify_program_end(exit_status: int) -> str:
    """Return the kind of error if the program ended without a complete answer. The exit status is
    negative after a signal."""
    if exit_status < 0:
        return BUG if -exit_status in CRASH_SIGNALS else SIGNAL
    return RESOURCE if exit_status == OTHER_STATUS else BUG


def classify_error(reason: BaseException) -> str:
    """Return the kind of the error that an exception reports."""
    if isinstance(reason, ReportedError):
        return reason.kind
    if isinstance(reason, KeyboardInterrupt):
        return SIGNAL
    if isinstance(reason, PATH_ERRORS):
        return INPUT
    return RESOURCE if isinstance(reason, (OSError, MemoryError)) else BUG


def version() -> str:
    """Return the version number of the tools and the program."""
    try:
        with open(os.path.join(HOME, "VERSION"), encoding="utf-8") as file:
            return file.read().strip()
    except OSError:
        return "of an unknown version"


class ToolParser(argparse.ArgumentParser):
    """An argument parser that raises `UsageError` for wrong arguments. `text` is the beginning of
    its help. The parser for a line of a list has no `text` and no --help."""

    def __init__(self, text: str | None) -> None:
        self.fields: dict[str, str] = {}  # names of the fields, by option
        self.groups: dict[str, argparse._ArgumentGroup] = {}  # groups of options, by title
        super().__init__(description=text, usage=argparse.SUPPRESS, allow_abbrev=False,
                         formatter_class=argparse.RawDescriptionHelpFormatter, add_help=bool(text))
        if text:
            self.add_argument("--version", action="version", version=f"{self.prog} {version()}",
                              help="show the version and exit")

    def add_argument(self, *names: Any, **known: Any) -> argparse.Action:
        return self.record(super().add_argument(*names, **known))

    def add_to_group(self, title: str, *names: Any, **known: Any) -> argparse.Action:
        """Add an option to the group with this title in the help."""
        if title not in self.groups:
            self.groups[title] = self.add_argument_group(title)
        return self.record(self.groups[title].add_argument(*names, **known))

    def record(self, action: argparse.Action) -> argparse.Action:
        """Record the name of the field that holds an option's value, and return the action."""
        self.fields.update(dict.fromkeys(action.option_strings, action.dest))
        return action

    def format_help(self) -> str:
        """Return the help. In an installed tool, use the installed names of the tools and the full
        paths of the documents."""
        text = super().format_help()
        if not self.prog.startswith(INSTALLED):
            return text
        text = re.sub(r"(?<![\w/])tools/(\w+)", INSTALLED + r"\1", text)
        return re.sub(r"(?<![\w/])docs/(?=\w)", lambda _: os.path.join(HOME, "docs", ""), text)

    def _print_message(self, message: str, file: IO[str] | None = None) -> None:
        """Print the help or the version. The method of `argparse` would ignore a write error."""
        (file or sys.stderr).write(message)

    def error(self, message: str) -> NoReturn:
        raise UsageError(message)


def decode_page(text: str) -> tuple[int, int] | None:
    """Return the magazine and the number of a page such as 888, or `None` if it is not valid."""
    if len(text) != 3 or text[0] not in "12345678":
        return None
    try:
        page = int(text[1:], 16) if text[1:].isalnum() and text.isascii() else 0xFF
    except ValueError:
        return None
    return None if page == 0xFF else (int(text[0]) % 8, page)


def parse_page(text: str) -> tuple[int, int]:
    """Parse a page number such as 888. Return the magazine (0 means 8) and the page in it."""
    page = decode_page(text)
    if page is None:
        raise argparse.ArgumentTypeError(f"{text} is not a page: give a digit 1 to 8 and two "
                                         "hexadecimal digits other than FF, as 888")
    return page


def parse_time(text: str) -> int:
    """Parse a time of day HH:MM:SS:FF and return its frame number."""
    frame = parse_frame(text)
    if frame is None:
        raise argparse.ArgumentTypeError(
            f"{text} is not a time of day: give HH:MM:SS:FF, 25 frames a second")
    return frame


def parse_number(text: str, least: int, most: int, refusal: str) -> int:
    """Parse a decimal number from `least` to `most`, with or without leading zeros. If the text is
    not such a number, the error message contains `refusal`."""
    digits = text.lstrip("0") or "0"
    is_number = text.isascii() and text.isdecimal() and len(digits) <= len(str(most))
    if not is_number or not least <= int(digits) <= most:
        raise argparse.ArgumentTypeError(f"{text} is not a {refusal}")
    return int(digits)


def parse_origin(text: str) -> int:
    """Parse the PTS of frame 0, in 90 kHz ticks."""
    return parse_number(text, 0, CLOCK - 1, f"PTS: give 0 to {CLOCK - 1}")


def parse_packet_range(text: str) -> tuple[int, int]:
    """Parse a range of PES packets such as 0-99. Return its first and last packet number."""
    found = re.fullmatch(r"(\d{1,12})-(\d{1,12})", text, re.ASCII)
    if not found or int(found[1]) > int(found[2]):
        raise argparse.ArgumentTypeError(f"{text} is not a range of PES packets: give it as 0-99")
    return int(found[1]), int(found[2])


def parse_repeat_interval(text: str) -> int:
    """Parse the maximum repeat interval, in frames."""
    return parse_number(text, 1, MAX_EVERY, f"repeat interval: give 1 to {MAX_EVERY} frames")


def parse_pes_interval(text: str) -> int:
    """Parse the maximum PES interval, in frames."""
    return parse_number(text, 1, MAX_EVERY, f"PES interval: give 1 to {MAX_EVERY} frames")


def parse_within(text: str) -> int:
    """Parse the number of frames within which a page must be complete."""
    return parse_number(text, 0, MAX_WITHIN, f"number of frames: give 0 to {MAX_WITHIN}")


def parse_break_count(text: str) -> int:
    """Parse the value of --breaks, a number of up to three digits."""
    if not (text.isascii() and text.isdecimal() and len(text) <= MAX_DIGITS):
        raise argparse.ArgumentTypeError(f"{text} is not a number of breaks: give 0 to "
                                         f"{10 ** MAX_DIGITS - 1}")
    return int(text)


def validate_start_time(text: str) -> str:
    """Parse the time code of the first picture, or `tcp`. Return the text unchanged."""
    if text != TCP_WORD and parse_frame(text) is None:
        raise argparse.ArgumentTypeError(
            f"{text} is not a time code: give HH:MM:SS:FF, 25 frames a second, or {TCP_WORD}")
    return text


def parse_pid(text: str) -> int:
    """Parse a PID given in decimal or in hexadecimal, such as 0x101."""
    try:
        pid = int(text, 0)
    except ValueError:
        pid = NO_PID
    if not 0 <= pid < NO_PID:
        raise argparse.ArgumentTypeError(f"{text} is not a PID: give 0 to 8190, or as 0x101")
    return pid


def format_pid(pid: int) -> str:
    """Return a PID as text, such as `PID 0x101`."""
    return f"PID 0x{pid:X}"


def make_stream_options(pid: int | None, packet_size: int = PACKET_SIZE) -> list[str]:
    """Return the options that select a PID of a transport stream. A PES file needs none."""
    if pid is None:
        return []
    size = ["--packet-size", str(packet_size)] if packet_size != PACKET_SIZE else []
    return ["--pid", f"0x{pid:X}", *size]


MAX_SHARE = 1_000_000  # maximum share, which is a number of cues or a percentage
SHARE = re.compile(r"([0-9]{1,2}):([0-9]{1,7})", re.ASCII)


class Lateness(NamedTuple):
    """How often in-cues (`begins`) and out-cues (`ends`) have each delay in frames, as in the
    option `--late 0:31,1:40/0:100`. The counts may be percentages. Other delays never occurred."""

    begins: Mapping[int, int]
    ends: Mapping[int, int]

    @property
    def longest(self) -> int:
        """Return the longest delay in frames."""
        return max(*self.begins, *self.ends)


def parse_lateness(text: str) -> Lateness:
    """Parse a value of --late such as `0:31,1:40/0:100`. In-cues come before the slash."""
    kinds = text.split("/")
    if len(kinds) != 2:
        raise argparse.ArgumentTypeError(
            f"{text} has no shares of delays: give in-cues, a slash and out-cues, as "
            "0:31,1:40,2:29/0:100")
    return Lateness(*(parse_shares(kind) for kind in kinds))


def parse_shares(text: str) -> dict[int, int]:
    """Parse the counts of delays, such as `0:31,1:40`. Return the count of each delay. The delays
    must be in ascending order."""
    shares: dict[int, int] = {}
    for piece in text.split(","):
        found = SHARE.fullmatch(piece)
        delay, share = map(int, found.groups()) if found else (-1, 0)
        if not 0 <= delay <= MAX_WITHIN or not 1 <= share <= MAX_SHARE or \
                delay <= max(shares, default=-1):
            raise argparse.ArgumentTypeError(
                f"{piece!r} is not a delay and its share: give 0 to {MAX_WITHIN} frames and 1 to "
                f"{MAX_SHARE}, as 1:40, the delays rising")
        shares[delay] = share
    return shares


def format_lateness(late: Lateness) -> str:
    """Return the value of --late."""
    return "/".join(",".join(f"{delay}:{share}" for delay, share in kind.items())
                    for kind in late)


def add_page(parser: ToolParser) -> None:
    """Add the option --page, 888 by default."""
    parser.add_argument("--page", type=parse_page, default=(0, 0x88), metavar="P",
                        help="judge page P (default: 888)")


def add_program(parser: ToolParser) -> None:
    """Add the option -p, the program to run."""
    parser.add_argument("-p", dest="program", metavar="PROGRAM",
                        help="run this program (default: the program that ./subttx runs)")


def add_verbose(parser: ToolParser) -> None:
    """Add the option -v, which prints a line for each test, even if it passed."""
    parser.add_argument("-v", dest="is_verbose", action="store_true",
                        help="print a line for each, also if it passed")


def counted(count: int, noun: str) -> str:
    """Return a number with its noun, such as `1 fault` or `2 faults`."""
    return f"{count} {noun}" if count == 1 else f"{count} {noun}s"


def was(count: int) -> str:
    """Return the verb for a number of things: `was` or `were`."""
    return "was" if count == 1 else "were"


def format_frame_range(least: int, most: int) -> str:
    """Return a range of frames as text, such as `1 frame` or `0 to 2 frames`."""
    return counted(most, "frame") if least == most else f"{least} to {counted(most, 'frame')}"


def escape_hidden(text: str) -> str:
    """Escape, in the form \\x1b, characters that are not safe in terminals and text files: control
    characters, characters that change the writing direction, and bytes that are not UTF-8."""
    return CONTROL_CHARACTERS.sub(lambda found: escape_character(found[0]), text)


def escape_hidden_lines(text: str) -> str:
    """Escape hidden characters in a text of several lines; keep the line ends."""
    return "\n".join(map(escape_hidden, text.split("\n")))


def escape_character(character: str) -> str:
    """Return the escape sequence of a character, or of a byte that is not UTF-8."""
    code = ord(character)
    is_byte = 0xDC80 <= code <= 0xDCFF
    return f"\\x{code & 0xFF:02x}" if is_byte or code < 0x80 else f"\\u{code:04x}"


def quote_argument(word: str) -> str:
    """Quote an argument for a shell. If it has hidden characters, use the syntax of bash."""
    if not CONTROL_CHARACTERS.search(word):
        return shlex.quote(word)
    return "$'" + escape_hidden(word.replace("\\", "\\\\").replace("'", "\\'")) + "'"


def print_stdout(line: str) -> None:
    """Print a line on standard output and flush it."""
    print(escape_hidden(line), flush=True)


def print_stderr(line: str) -> None:
    """Print a line on standard error, after all earlier output. Ignore errors, since standard error
    may be closed or on a full disk."""
    with contextlib.suppress(OSError, AttributeError):  # standard output is closed
        sys.stdout.flush()  # if this fails, `run_main` reports the error
    try:
        sys.stderr.write(f"{os.path.basename(sys.argv[0])}: {escape_hidden(line)}\n")
        sys.stderr.flush()
    except (OSError, AttributeError):
        discard_output(sys.stderr)


def run(main: Callable[[list[str]], int]) -> NoReturn:
    """Call `main` with the command-line arguments and exit with its status."""
    status = OTHER_STATUS
    with contextlib.suppress(KeyboardInterrupt):  # a second signal may raise it
        status = run_main(main, sys.argv[1:])
        signal.signal(signal.SIGINT, signal.SIG_IGN)  # a signal must not change the exit status
    sys.exit(status)


def run_main(main: Callable[[list[str]], int], words: Sequence[str]) -> int:
    """Call `main` and return its status. After an exception, print one line and return the status
    of its kind."""
    try:
        if sys.stdout is None:
            raise Stop("standard output is closed")
        status = call_main(main, words)
        sys.stdout.flush()
    except (Exception, KeyboardInterrupt) as reason:
        status = STATUSES_BY_KIND[classify_error(reason)]
        with contextlib.suppress(KeyboardInterrupt):  # a second signal may raise it
            print_stderr(format_error(reason))
        with contextlib.suppress(KeyboardInterrupt):
            discard_output(sys.stdout)
    return status


def call_main(main: Callable[[list[str]], int], words: Sequence[str]) -> int:
    """Call `main` and return its status. The status is 0 after --help and --version."""
    try:
        return main([*words])
    except SystemExit as end:
        return int(end.code or 0)


def format_error(reason: BaseException) -> str:
    """Return the message for an exception that ended a tool. If SUBTTX_DEBUG is 1, print the
    traceback of an internal error."""
    if isinstance(reason, KeyboardInterrupt):
        return "stopped"
    if isinstance(reason, MemoryError):
        return "out of memory"
    if isinstance(reason, OSError):
        output_name = "the output" if reason.filename is None else reason.filename or "an empty " \
            "name"
        return f"{output_name}: {reason.strerror or ' '.join(str(reason).split())}"
    text = " ".join(str(reason).split())
    if isinstance(reason, ReportedError):
        return text
    if os.environ.get("SUBTTX_DEBUG") == "1":
        traceback.print_exception(type(reason), reason, reason.__traceback__)
    return f"internal error: {type(reason).__name__} in {locate_error(reason)}: {text}"


def locate_error(reason: BaseException) -> str:
    """Return the file name and line number at which an exception was raised."""
    trace = reason.__traceback__
    while trace and trace.tb_next:
        trace = trace.tb_next
    return f"{os.path.basename(trace.tb_frame.f_code.co_filename)} line {trace.tb_lineno}" \
        if trace else "no line"


def discard_output(out: TextIO | None) -> None:
    """Redirect a failed stream to /dev/null, because Python writes to it again at exit."""
    with contextlib.suppress(OSError):
        if out is not None:  # false if standard output was closed when the tool started
            os.dup2(os.open(os.devnull, os.O_WRONLY), out.fileno())
