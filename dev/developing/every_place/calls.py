"""Calls of the program, and their expected output, which the second implementation computes."""
from __future__ import annotations

import shlex
from typing import Iterator, NamedTuple

from .definitions import check_all
from .listening import list_receiver_lines, list_packets_lines
from .recordings import read_stream
from .scheduling import SERIAL, schedule
from .told import format_refused
from .arguments import Options, UsageFault, parse_arguments, parse_options

ALL = "--all"


class Answer(NamedTuple):
    """The printed lines, the last of which gives the exit status, and the written file if any."""

    lines: list[str]
    written: bytes | None = None


class Call(NamedTuple):
    """A command with its input files and arguments.

    If `is_failing` is true, reading the last file fails at its end.
    """

    name: str
    command: str
    files: tuple[bytes, ...]
    arguments: str = ""
    is_failing: bool = False

    @property
    def options(self) -> list[str]:
        return shlex.split(self.arguments)


class KnownCall(NamedTuple):
    """A call with its expected output."""

    call: Call
    answer: Answer


def make_check_call(stl: bytes, pes: bytes, arguments: str, is_failing: bool = False,
                    name: str = "") -> Call:
    """Return a call of `check --all` for a subtitle file and a PES file or transport stream."""
    return Call(name, "check", (stl, pes), f"{arguments} {ALL}".lstrip(), is_failing)


def make_known_check(name: str, stl: bytes, pes: bytes, arguments: str, lines: list[str],
                     is_failing: bool = False) -> KnownCall:
    """Return a call of `check --all` with its expected output."""
    return KnownCall(make_check_call(stl, pes, arguments, is_failing, name), Answer(lines))


def add_first_fault_call(call: Call, answer: Answer) -> Iterator[KnownCall]:
    """Yield a call with its output. For `check --all`, also yield `check` with the same files."""
    yield KnownCall(call, answer)
    if ALL in call.options:
        arguments = shlex.join(word for word in call.options if word != ALL)
        yield KnownCall(call._replace(arguments=arguments), Answer(find_first_fault(answer.lines)))


def find_first_fault(lines: list[str]) -> list[str]:
    """Return the line that `check` prints, given the lines of `check --all`."""
    return [line for line in lines if not line.startswith(("trusted ", "ended "))][:1]


def extract_items(data: bytes, options: Options, is_failing: bool) -> Answer:
    """Return the PES packets and gap markers of a transport stream."""
    assert options.pid is not None
    stream = read_stream(data, options.pid, options.size)
    count = len(stream.pieces)
    if stream.end_fault is not None:
        line = format_refused(stream.end_fault, f"pes {count}")
    elif is_failing:
        line = f"fault 41 Read pes {count}"
    else:
        line = f"written {count} pes {sum(stream.marks)} gaps" if count else format_refused(60)
    return Answer([line], stream.data)


def define_answer(call: Call) -> Answer:
    """Return the output of a call that the second implementation computes."""
    arguments, data = [word for word in call.options if word not in (ALL, SERIAL)], call.files[-1]
    try:
        if call.command == "extract" and "--pid" not in parse_arguments(arguments):
            raise UsageFault("0 Words")
        options = parse_options(arguments)
    except UsageFault as fault:
        return Answer([f"usage {fault}"])
    if call.command == "extract":
        return extract_items(data, options, call.is_failing)
    if call.command == "schedule":
        return Answer(*schedule(data, options, SERIAL in call.options))
    if call.command == "packets":
        return Answer(list(list_packets_lines(data, options, call.is_failing)))
    if call.command == "listen":
        return Answer(list_receiver_lines(data, options, arguments, call.is_failing))
    lines = check_all(call.files[0], data, options, call.is_failing)
    return Answer(lines if ALL in call.options else find_first_fault(lines))
