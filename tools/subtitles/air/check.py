"""Judge a programme from a continuous part of the feed, as `qc STL RECORDING` does. The judging
runs in a forked process. If that process crashes or hangs, the programme is judged again."""
from __future__ import annotations

import contextlib
import dataclasses
import functools
import itertools
import os
import shutil
import time
from typing import Any, Callable, NamedTuple

from ..cli import single
from ..cli.batch import ForkedProcess, hold_signals, wait_for_any
from ..common.command_line import RESOURCE, Stop, run_main, format_error, print_stderr
from ..common.files import make_temporary_name
from ..common.times import FRAMES_A_SECOND, TICKS, pts_of, subtract_pts
from ..judging.part import Part
from ..judging.status import ACCEPTED, ERROR, NOT_JUDGED, REFUSED, RELATIVE, WAIVED
from ..judging.verdict import Verdict
from ..request.commands import CommandPaths
from ..request.request import Unclear
from ..results.files import ENDING, read_call_result
from ..stream.survey import survey
from .schedule import Programme, RECORDING
from .segments import UnbrokenRun

REPORT_SECONDS = 5.0  # seconds between calls of `report`
MIN_SECONDS, BYTES_PER_SECOND = 60.0, 2_000_000  # time limit: 60 s, plus 1 s for each 2 MB
WORK = ".work-"  # prefix of the temporary folder in which a programme is judged
HEAD_FILE = "head.ts"  # file in the temporary folder with the beginning of the recording
SPARE_BYTES = 1 << 20  # bytes of disk space to leave free
MAX_PMT_SECONDS = 1.0  # maximum number of seconds until the next PMT, which lists the PIDs
PTS_SECOND = FRAMES_A_SECOND * TICKS
CORRECT_VERDICTS = {ACCEPTED, WAIVED, RELATIVE}  # verdicts without errors
# Exit statuses of the judging process besides those of qc. FAILED: a system error occurred.
# UNFINISHED plus that of qc: there are faults, and the recorded part ends before the programme.
FAILED, UNFINISHED = 101, 102


class Outcome(NamedTuple):
    """The outcome of one attempt to judge a programme."""

    result: dict[str, Any] | None  # JSON result of the pair, or `None` after a system error
    # The system error, the reason why the pair was not judged, or the line with the verdict
    reason: str
    # False if faults may only mean that the programme continues after the recorded part
    is_finished: bool = True
    is_recorded: bool = True  # False if the programme may have been on air, but was not recorded
    error_kind: str = RESOURCE  # kind of the error if there is no result

    @property
    def verdict(self) -> str | None:
        return None if self.result is None else str(self.result["verdict"])

    @property
    def is_file_refused(self) -> bool:
        """Return whether the programme is refused because of its subtitle file alone."""
        return self.verdict == REFUSED and (self.result or {})["inputs"]["recording"] is None

    @property
    def has_file_fault(self) -> bool:
        """Return whether correcting the subtitle file may change a refusal."""
        return self.is_file_refused or self.verdict == REFUSED and any(
            fault["file"] == "stl" and fault["severity"] == ERROR
            for fault in (self.result or {}).get("faults", ()))

    @property
    def is_final(self) -> bool:
        """Return whether later segments can't change the result."""
        return self.is_finished and (self.verdict in CORRECT_VERDICTS or (
            self.verdict == REFUSED and not self.is_file_refused))


def examine_begin(programme: Programme, first: float, count_packets: Callable[[int, float], int],
                  verdict: Verdict) -> None:
    """Add a note to the verdict if the programme began at most `early` seconds before its air time,
    and less than `late` seconds after it. Raise `Unclear` if it began later, or if there are faults
    and the recording, which begins at `first`, may lack the beginning of the programme.
    `count_packets` returns the number of PES packets of a PID that were recorded before a time."""
    part = verdict.parts[0] if verdict.parts and verdict.word != NOT_JUDGED else None
    # The subtitle file itself is refused if there is no alignment.
    if part is None or part.alignment is None or part.pes is None:
        return
    begin, early, late = programme.begin, programme.early, programme.late
    words = f"{late:g} s of {single.now(begin)}" if early == late else \
        f"{early:g} s before and {late:g} s after {single.now(begin)}"
    pid, _ = part.stream or (0, 0)
    begin_number, missing_seconds = locate_begin(part)
    if has_faults(verdict) and missing_seconds > 0 and \
            count_packets(pid, first + missing_seconds + MAX_PMT_SECONDS):
        raise Unclear("the first subtitle was expected before the first recorded PES packet of the "
                      f"page: the programme did not begin within {words}, or its beginning was not "
                      "recorded")
    if begin_number >= count_packets(pid, begin + late):
        raise Unclear(f"the programme did not begin within {words}, but later")
    verdict.notes.append(f"begun within {words}")


def has_faults(verdict: Verdict) -> bool:
    """Return whether a pair was judged and has faults, even if all of them are waived."""
    return verdict.is_judged and (verdict.word not in CORRECT_VERDICTS or verdict.fault_count > 0)


def locate_begin(part: Part) -> tuple[int, float]:
    """Return the number of the PES packet at which the first subtitle is expected, and the number
    of seconds from there to the first PES packet of the page."""
    recording, alignment = part.judged_recording
    begin, (number, _) = pts_of(alignment.begin, alignment.origin), part.pes or (0, 0)
    earlier = itertools.takewhile(lambda pts: subtract_pts(begin, pts) < 0, part.list_pts())
    first = next(recording.packets.pts(alignment.packets), begin)
    return number + sum(1 for _ in earlier), subtract_pts(begin, first) / PTS_SECOND


def exit_status(verdict: Verdict) -> int:
    """Return the exit status of the judging process for a verdict."""
    if not verdict.is_final:
        return FAILED
    # The last part is finished if PES packets follow it.
    part = verdict.parts[-1] if verdict.parts else None
    is_finished = part and (part.pes is None or part.packets.count > part.pes[1] + 1)
    return verdict.status + UNFINISHED * (has_faults(verdict) and not is_finished)


@dataclasses.dataclass
class Checker:
    """Judges programmes. Each attempt creates a new folder `work` in `place`, so that a process
    left by an earlier run can't interfere. Reports refer to the folder `out`. `report` is called
    every few seconds while a programme is judged."""

    program: str | None
    program_name: str
    place: str
    out: str
    is_kept: bool = False
    report: Callable[[], None] = lambda: None
    work: str = ""

    def clear(self) -> None:
        """Delete the temporary folders of earlier attempts."""
        for name in os.listdir(self.place):
            if name.startswith(WORK):
                shutil.rmtree(os.path.join(self.place, name), ignore_errors=True)

    def check(self, programme: Programme, stretch: UnbrokenRun, last: float) -> Outcome:
        """Judge a programme from a continuous part of the feed, up to the time `last`."""
        self.clear()
        self.work = make_temporary_name(self.place, WORK)
        first = max(stretch.begin, programme.begin - programme.early)
        size = stretch.size(first, last)
        needed_bytes = size + stretch.size(first, programme.begin + programme.late) + SPARE_BYTES
        try:
            os.mkdir(self.work)
            if shutil.disk_usage(self.work).free < needed_bytes:
                return Outcome(None, f"no room in {self.place} for {needed_bytes:,} bytes")
            status, lines = run_forked(
                lambda: run_main(lambda _: self.judge(programme, stretch, last), ()),
                MIN_SECONDS + size / BYTES_PER_SECOND, self.report)
        except (OSError, Stop) as reason:
            return Outcome(None, format_error(reason))
        finally:
            for file in (RECORDING, HEAD_FILE):
                with contextlib.suppress(OSError):
                    os.unlink(os.path.join(self.work, file))
        if status == FAILED or status < 0:
            return Outcome(None, lines[-1] if lines else "the process that judged it was killed")
        is_finished = status < UNFINISHED
        result = read_call_result(os.path.join(self.work, programme.name + ENDING), programme.name,
                                  status if is_finished else status - UNFINISHED, lines)
        return Outcome(result, result["reason"] or result["worst_fault"] or result["line"],
                       is_finished)

    def judge(self, programme: Programme, stretch: UnbrokenRun, last: float) -> int:
        """Judge a programme in the current process. Return the exit status."""
        recording, first = os.path.join(self.work, RECORDING), programme.begin - programme.early

        def count_packets(pid: int, end: float) -> int:
            head = os.path.join(self.work, HEAD_FILE)
            with open(head, "wb") as file:
                file.writelines(stretch.read(first, end))
            program = CommandPaths(self.program_name, self.program).program_path
            found = survey(program, head, programme.request.page)
            return found.by_pid[pid].count if pid in found.by_pid else 0

        call = single.PairOptions(
            self.program, out=self.out, staging_folder=self.work, name=programme.name,
            is_claimed=True, is_kept=self.is_kept, examine=functools.partial(
                examine_begin, programme, max(first, stretch.begin), count_packets))
        try:
            with open(recording, "xb") as file:
                file.writelines(stretch.read(first, last))
            request = dataclasses.replace(programme.request, recording=recording)
            return exit_status(single.judge_and_report(request, call, self.program_name))
        except (OSError, MemoryError) as reason:  # for example if a segment was deleted
            print_stderr(format_error(reason))
            return FAILED


def run_forked(function: Callable[[], int], longest: float, report: Callable[[], None]
               ) -> tuple[int, list[str]]:
    """Run a function in a forked process, and call `report` every few seconds meanwhile. Return the
    exit status and the lines on standard error. Raise `Stop` after `longest` seconds. The process
    is killed on any exception."""
    with hold_signals():
        process = ForkedProcess(function)
    try:
        end = time.monotonic() + longest
        while not wait_for_any([process], max(min(REPORT_SECONDS, end - time.monotonic()), 0)):
            if time.monotonic() > end:
                raise Stop(f"it was not judged within {longest:.0f} seconds")
            report()
        return process.wait()
    except BaseException:
        process.kill()
        process.wait()
        raise
