"""Run `check --all` and read the list of faults that it prints."""
from __future__ import annotations

import bisect
import collections
import functools
import os
import shutil
import subprocess
from typing import BinaryIO, Callable, Collection, Iterator, NamedTuple

from ..common.files import add_name_to_errors, read_chunks
from ..common.times import FRAMES_OF_A_DAY, Spans, TIME_CODE, restore_times
from ..formats.listing import (
    ENDED, FaultLine, SKIPPED_PACKETS, REFUSED, parse_accepted_line, parse_count_line,
    parse_fault_line, parse_place_time, is_check_line, split_line, parse_fault_number,
    parse_trusted_line)
from ..request.commands import CommandPaths, Listener, OutputNames
from ..request.request import Request, IncompleteAnswer
from .status import CheckSummary, NOT_ANSWERED, NOT_JUDGED, decide_part


class FaultEnd(NamedTuple):
    """The last frame or the last PES packet of a fault."""

    time: str | None
    pes: int | None


NO_END = FaultEnd(None, None)


class CheckOutput:
    """The output of `check --all`, stored at `path`. `skipped_packets` has the numbers of the PES
    packets that `check` skipped, and `trusted_frames` the frames on its `trusted` lines."""

    def __init__(self, path: str) -> None:
        self.path, self.last_line = path, ""
        self.exit_status: int | None = None  # `None` until `check` has ended
        self.is_accepted = False  # whether the last line is `accepted`
        self.is_file = False  # whether only the subtitle file was judged, and has no fault
        self.unknown_line: str | None = None  # the first line that `check` can't have printed
        self.frames: int | None = None
        self.transmissions: int | None = None
        self.clear_faults()
        self.file: BinaryIO = open(path, "wb")

    def clear_faults(self) -> None:
        """Discard all faults read so far."""
        self.fault_count = 0
        self.counts_by_number: collections.Counter[int] = collections.Counter()
        self.first_faults: dict[int, FaultLine] = {}  # first fault with each fault number
        # The fault that `check` prints without `--all`
        self.first_fault: FaultLine | None = None
        self.fault_spans: dict[int, Spans] = {}  # frames of all faults, by fault number
        self.fault_ends: dict[int, FaultEnd] = {}  # end of each fault, by position in the list
        self.last_positions: dict[str, int] = {}  # position of the last fault with each number
        self.skipping_fault = ""  # the last fault that made `check` skip PES packets
        self.skipped_packets, self.trusted_frames = Spans(), Spans()

    @property
    def fault_numbers(self) -> set[int]:
        return set(self.counts_by_number)

    def read_fault(self, line: str, words: list[str]) -> None:
        """Store the fault on a `refused` line, whose words are `words`."""
        number, place = int(words[1]), words[3:5]
        if number not in self.counts_by_number:
            fault = parse_fault_line(line)
            if fault:
                self.first_faults[number] = fault
            self.first_fault = self.first_fault or fault
        self.last_positions[words[1]] = self.fault_count
        self.fault_count += 1
        self.counts_by_number[number] += 1
        if place[:1] == ["frame"]:
            frame = parse_place_time(place[1])
            self.fault_spans.setdefault(number, Spans()).add(frame, frame)
        elif number in SKIPPED_PACKETS and place[:1] == ["pes"]:
            self.skipping_fault = words[1]
            self.skipped_packets.add(int(place[1]), int(place[1]))

    def read_end(self, words: list[str]) -> None:
        """Store the last frame or the last PES packet of a fault from an `ended` line."""
        number, (kind, value) = int(words[1]), words[3:5]
        index = self.last_positions.pop(words[1], None)
        if index is None:
            return
        if kind == "frame":
            self.fault_ends[index] = FaultEnd(value, None)
            marks = self.fault_spans[number]
            marks.add(marks.begins[-1], parse_place_time(value))
        else:
            self.fault_ends[index] = FaultEnd(None, int(value))
            if words[1] == self.skipping_fault:
                self.skipped_packets.add(self.skipped_packets.ends[-1], int(value))

    def read_line(self, line: str) -> None:
        """Store one line of output, and append it to the file."""
        with add_name_to_errors(self.path):
            self.file.write(line.encode() + b"\n")
        self.last_line, self.is_accepted = line, False
        words = split_line(line)
        if words[0] == REFUSED and words[1:] and words[1].isascii() and words[1].isdecimal():
            self.read_fault(line, words)
        elif words[0] == ENDED and is_check_line(line):
            self.read_end(words)
        elif accepted_line := parse_accepted_line(line):
            self.frames, self.transmissions = accepted_line
            self.is_accepted = True
        elif trusted_line := parse_trusted_line(line):
            self.trusted_frames.add(*map(parse_place_time, trusted_line))
        elif self.unknown_line is None and not is_check_line(line):
            self.unknown_line = line

    def finish(self, status: int) -> None:
        """Close the file, and store the exit status of `check`. Raise `IncompleteAnswer` if there
        is no verdict."""
        with add_name_to_errors(self.path):
            self.file.close()
        self.exit_status = status
        if self.verdict == NOT_JUDGED:
            line = self.last_line if self.unknown_line is None else self.unknown_line
            raise IncompleteAnswer(
                f"{NOT_ANSWERED}: {line or 'it printed nothing'}, status {status}", status)

    def close_file(self) -> None:
        """Close the file before `check` has ended. The list remains incomplete."""
        with add_name_to_errors(self.path):
            self.file.close()

    @functools.cached_property
    def content_fault_rows(self) -> list[tuple[int, int]]:
        """Return the frame and the row of each fault in a page's content, sorted by frame."""
        return sorted((fault.frame, fault.row) for fault, _ in self.read_faults()
                      if fault.frame is not None and fault.row is not None)

    def find_fault_row(self, frame: int) -> int | None:
        """Return the page row of the last fault in the page's content, in or before a frame."""
        at = bisect.bisect_right(self.content_fault_rows, (frame, FRAMES_OF_A_DAY)) - 1
        return self.content_fault_rows[at][1] if at >= 0 else None

    def find_last_time(self) -> str | None:
        """Return the time on the last line of output, if it has one. All faults up to this time
        have been reported."""
        times: list[str] = TIME_CODE.findall(self.last_line)
        return times[-1] if times else None

    def move_file(self, path: str) -> None:
        with add_name_to_errors(path):
            shutil.move(self.path, path)
        self.path = path

    def accept_file(self, line: str) -> None:
        """Accept a subtitle file that has no faults, if there is no recording."""
        self.last_line, self.exit_status, self.is_accepted, self.is_file = line, 0, True, True
        self.clear_faults()
        with open(self.path, "wb"):
            pass

    def summarize(self, is_read: bool = True,
                  waived_numbers: Collection[int] = ()) -> CheckSummary:
        """Return the values that decide the verdict on a part. If the output has a line that
        `check` never prints, the part is not judged."""
        is_clear = self.unknown_line is None
        is_list = is_clear and self.first_fault is not None and self.frames is None
        counted = parse_count_line(self.last_line) if is_list else None
        return CheckSummary(self.exit_status, is_clear and self.is_accepted, self.fault_count,
                            counted, self.fault_numbers, is_read, self.is_file, waived_numbers)

    @property
    def verdict(self) -> str:
        """Return the verdict on a part in one word."""
        return decide_part(self.summarize())

    def copy_without(self, number: int, path: str) -> CheckOutput:
        """Return a copy of this output at `path`, without the faults that have this number."""
        output = CheckOutput(path)
        for line in self.read_lines():
            if parse_count_line(line) is not None:
                output.read_line(f"{output.fault_count} faults")
            elif parse_fault_number(line) != number:
                output.read_line(line)
        output.finish(self.exit_status or 0)
        return output

    @property
    def line(self) -> str:
        """Return the line that `check` would print without `--all`."""
        return self.first_fault.line if self.first_fault else self.last_line

    def read_bytes(self) -> Iterator[bytes]:
        return read_chunks(self.path)

    def read_lines(self) -> Iterator[str]:
        with open(self.path, encoding="utf-8") as file:
            for line in file:
                yield line.rstrip("\n")

    def read_faults(self) -> Iterator[tuple[FaultLine, FaultEnd]]:
        """Yield all faults in the order of the list, each with its end."""
        faults = (fault for fault in map(parse_fault_line, self.read_lines()) if fault
                  and fault.is_fault)
        return ((fault, self.fault_ends.get(index, NO_END)) for index, fault in enumerate(faults))


def run_check(command: list[str], output: CheckOutput,
              report_line: Callable[[str], None]) -> CheckOutput:
    """Run `check --all` and return its output. Call `report_line` for each line at once, but for an
    `accepted` line only after the exit status has confirmed it."""
    # The recording may be /dev/stdin, so `check` has the same standard input as qc.
    with subprocess.Popen(command, stdout=subprocess.PIPE,
                          encoding="utf-8", errors="replace") as process:
        assert process.stdout
        try:
            for line in process.stdout:
                output.read_line(restore_times(line.rstrip("\n")))
                if output.frames is None:
                    report_line(output.last_line)
        except BaseException:
            process.kill()
            raise
    output.finish(process.returncode)
    if output.frames is not None:
        report_line(output.last_line)
    return output


NO_PES = os.devnull  # the PES file if only the subtitle file is checked


def check_file_alone(request: Request, program: str, names: OutputNames) -> CheckOutput:
    """Check the subtitle file without PES packets; print nothing."""
    return run_check([program, "check", *request.list_check_arguments(True), "--all", "--",
                      names.program_stl, NO_PES],
                     CheckOutput(names.make_temporary_path("alone.txt")), lambda line: None)


def print_file_check_command(request: Request, command_paths: CommandPaths, names: OutputNames,
                             listener: Listener) -> None:
    """Print the command that checks the subtitle file alone."""
    listener.add_command(command_paths.program_command, "check", names.moved_stl or request.stl,
                         NO_PES, *request.list_check_arguments(True), "--all")
