"""Compare the PES packets that `survey` printed with those of the proved command `packets`."""
from __future__ import annotations

import array
import itertools
import subprocess
from typing import Collection, Iterable, Iterator, NamedTuple, Sequence

from ..common.command_line import ProgramInterrupted
from ..formats.listing import ENDS_READING, LOST_PACKETS
from .packets import PacketRun, Packets, Range

# `packets` ends at the first PES packet that it refuses, and is called again for the next one.
MAX_CALLS = 20
NUMBERED = 25  # number of PES packets that show whether `survey` counts from the first one


class SurveyMismatch(Exception):
    """Raised if `survey` and `packets` differ, so one of them is wrong."""


class Item(NamedTuple):
    """A PES packet or a gap marker: its number, its PTS, and the number of the fault for which
    `packets` refuses it, or 0."""

    number: int
    pts: int | None
    fault: int = 0


class End(NamedTuple):
    """The number after the last PES packet, and the faults that may end reading there."""

    number: int
    faults: Collection[int] = ()


class PacketsCommand(NamedTuple):
    """The program and the arguments for `packets`: the recording, and the options for its PID."""

    program: str
    path: str
    options: Sequence[str]

    def list_packets(self, first: int, last: int) -> Iterator[str]:
        """Yield the lines of `packets` about PES packets, and its last line."""
        words = [self.program, "packets", *self.options, "--pes", f"{first}-{last}", "--",
                 self.path]
        line = b""
        with subprocess.Popen(words, stdout=subprocess.PIPE, stderr=subprocess.DEVNULL) as process:
            assert process.stdout
            for line in process.stdout:
                if line.startswith(b"pes "):
                    yield line.decode("ascii", "replace").rstrip("\n")
        if process.returncode not in (0, 1):
            raise ProgramInterrupted(f"packets ended with status {process.returncode}",
                                     process.returncode)
        yield line.decode("ascii", "replace").rstrip("\n")


def list_items(packets: Packets, inside: Range) -> Iterator[Item]:
    """Yield the PES packets and gap markers of a range, as `survey` printed them."""
    for run in packets.list_runs_between(*inside):
        fault = find_item_fault(run)
        yield from map(Item, range(run.first, run.end), itertools.repeat(None)
                       if fault or run.pts is None else run.list_pts(), itertools.repeat(fault))


def find_item_fault(run: PacketRun) -> int:
    """Return the number of the fault for which `packets` refuses the items of a run, or 0."""
    return LOST_PACKETS if run.pts is None and run.flags == "m" else run.fault


def compare_lines(items: Iterator[Item], lines: Iterable[str], end: End) -> int | None:
    """Compare `items` with the lines of a call of `packets`. Return the number of the next PES
    packet if the call ended at a refused one after which `check` reads on, and otherwise `None`.
    `end` follows the items. Raise `SurveyMismatch` if they differ."""
    count, words = 0, list[str]()
    for line in lines:
        words = line.split()
        if words[:1] != ["pes"]:
            break
        proved, printed = (int(words[1]), int(words[3]), 0), next(items, None)
        if printed != proved:
            check_item(printed, Item(*proved))
        count += 1
    if words == [f"{count}", "pes"]:
        check_item(next(items, None), None)
        return None
    if words[:1] != ["refused"] or words[-2:-1] != ["pes"]:
        raise SurveyMismatch(f"packets printed {' '.join(words)!r} after {count} PES packets")
    refused = Item(int(words[-1]), None, int(words[1]))
    if refused.number == end.number and refused.fault in end.faults:
        check_item(next(items, None), None)
        return None
    check_item(next(items, None), refused)
    return None if refused.fault in ENDS_READING else refused.number + 1


def check_item(printed: Item | None, proved: Item | None) -> None:
    """Raise `SurveyMismatch` if `survey` printed another item than `packets`."""
    if printed != proved:
        raise SurveyMismatch(f"survey printed {printed}, but packets printed {proved}")


def find_end(packets: Packets) -> End:
    """Return the place after the last PES packet, and the faults that may end reading there."""
    return End(packets.count, {packets.refusal} if packets.refusal else packets.damage_faults)


class ComparedItems(NamedTuple):
    """The items of a range that were compared with `packets`: the number of the first, a number for
    each item (its PTS, or -1 minus its fault), and what follows the items."""

    first: int
    values: array.array[int]
    end: End

    def includes(self, other: ComparedItems) -> bool:
        """Return whether these items end with `other`."""
        return self.end == other.end and self.first <= other.first and \
            self.values[other.first - self.first:] == other.values


def collect_items(packets: Packets, inside: Range) -> ComparedItems:
    """Return the items of a range, as `survey` printed them."""
    values = array.array("q")
    for run in packets.list_runs_between(*inside):
        fault = find_item_fault(run)
        values.extend([-1 - fault] * run.length if fault or run.pts is None else run.list_pts())
    return ComparedItems(inside[0], values, find_end(packets))


def find_unproved_number(command: PacketsCommand, packets: Packets, inside: Range) -> int | None:
    """Compare the PES packets of a range. Return the number from which on they were not compared,
    because too many of them are refused, or `None` if all were."""
    number: int | None = inside[0]
    for _ in range(MAX_CALLS):
        if number is None or number > inside[1]:
            return None
        rest = number, inside[1]
        number = compare_lines(list_items(packets, rest), command.list_packets(*rest),
                               find_end(packets))
    return number if number is not None and number <= inside[1] else None


def has_proved_numbers(command: PacketsCommand, packets: Packets) -> bool:
    """Return whether `survey` counts the PES packets of a PID as `packets` does. It counts from the
    TS packet on in which it recognised the PID, unless it was called with --pid."""
    try:
        find_unproved_number(command, packets, (0, NUMBERED - 1))
    except SurveyMismatch:
        return False
    return True
