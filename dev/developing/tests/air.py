"""Segments and schedules for the tests of tools/air, and a fake checker.

Times are seconds after `DAY`. A segment has one byte for each second of the feed.
"""
from __future__ import annotations

import argparse
import datetime
import json
import os
from typing import Any, Callable, NamedTuple
from unittest import mock

from subtitles.air import judge, main
from subtitles.air.check import Outcome
from subtitles.air.delivery import read_content
from subtitles.air.schedule import Programme, Schedule, read_schedule
from subtitles.air.segments import UnbrokenRun, find_difference, make_segment_name
from subtitles.request.lines import read_options
from subtitles.results.files import make_unjudged
from .bench import Case

DAY = 1_796_112_000.0  # 2026-12-01T08:00:00Z
SEGMENT_SECONDS = 10
MARGIN_SECONDS = 60
OLD_MTIME = 1e9  # mtime of subtitle files and schedules, long before DAY


class SentProgramme(NamedTuple):
    """When a programme is on air, and whether its subtitles are correct."""

    begin: float
    end: float
    is_correct: bool = True


FAILURE = Outcome(None, "the machine failed")


class FakeChecker:
    """A checker that returns the outcome of `Checker` without judging. `sent` has the programmes on
    air by the names of their results. If the recording ends during a programme, its page is not
    erased (fault 74). If `override` returns an outcome, that is used instead."""

    def __init__(self, sent: dict[str, SentProgramme],
                 override: Callable[[Programme], Outcome | None] = lambda _: None) -> None:
        self.sent, self.override = sent, override
        self.work, self.calls = os.devnull, list[str]()

    def check(self, programme: Programme, stretch: UnbrokenRun, end: float) -> Outcome:
        name, begin = programme.name, programme.begin
        self.calls.append(name)
        if overriding := self.override(programme):
            return overriding
        sent = self.sent.get(name)
        first, last = max(stretch.begin, begin - MARGIN_SECONDS) - DAY, min(stretch.end, end) - DAY
        if sent is None or sent.begin >= last or sent.end <= first:
            return make_outcome(name, "not judged", "no cue agrees")
        if sent.begin > begin - DAY + MARGIN_SECONDS:
            return make_outcome(name, "not judged", "it began later")
        if sent.is_correct and sent.begin >= first and sent.end <= last:
            return make_outcome(name, "relative", "relative 1500 frames")
        if sent.begin < first:
            return make_outcome(name, "not judged", "its beginning is missing")
        refused = make_outcome(name, "refused", "refused 72" if sent.end < last else "refused 74")
        return refused._replace(is_finished=sent.end < last)

    def clear(self) -> None:
        """Do nothing, since a fake checker has no work folder."""


def make_tdt(seconds: float) -> bytes:
    """Return a TS packet with a TDT, `seconds` after `DAY`, and some null packets."""
    date = datetime.datetime.fromtimestamp(DAY + seconds, datetime.timezone.utc)
    day = int(DAY + seconds) // 86_400 + 40_587  # modified Julian date
    table = b"\x70\x70\x05" + day.to_bytes(2, "big") + bytes.fromhex(f"{date:%H%M%S}")
    return (b"\x47\x40\x14\x10\0" + table).ljust(188, b"\xff") + 99 * (
        b"\x47\x1f\xff\x10".ljust(188, b"\xff"))


def make_outcome(name: str, verdict: str, reason: str, **changes: object) -> Outcome:
    """Return an outcome whose JSON result has these values, and a recording that was read."""
    return Outcome({**make_unjudged(name, reason, "undecided"), "verdict": verdict,
                    "inputs": {"recording": {}}, **changes},
                   reason)


class AirCase(Case):
    """A test case with a schedule, segments and results in its folder."""

    def setUp(self) -> None:
        super().setUp()
        for name in ("segments", "out"):
            os.mkdir(self.path(name))
        for module, name in ((judge, "write_state"), (os, "fsync")):
            self.patch(module, name)
        self.printed = list[str]()
        self.patch(judge, "print_stdout", self.printed.append)
        # Most tests end before an hour was recorded after a programme.
        self.patch(judge, "MIN_RECORDED_LATER", -1e9)

    def patch(self, module: object, name: str, *value: object) -> None:
        """Replace an attribute until the test ends."""
        patch = mock.patch.object(module, name, *value)
        patch.start()
        self.addCleanup(patch.stop)

    def write(self, name: str, data: bytes | bytearray) -> str:
        """Write a file that was complete long before the programmes."""
        path = super().write(name, data)
        os.utime(path, (OLD_MTIME, OLD_MTIME))
        read_content.cache_clear()  # the mtime does not show the change
        return path

    def args(self, *more: str) -> argparse.Namespace:
        line = [self.path("schedule"), self.path("segments"), "-o", self.path("out"), "--margin",
                f"{MARGIN_SECONDS}", "-p", "/bin/true", *more]
        return read_options(main.make_judge_parser(), line, {}, {})

    def read_schedule(self, known: Schedule = Schedule(), now: float = DAY) -> Schedule:
        return read_schedule(self.path("schedule"), self.args(), now, known)

    def make_judge(self, checker: FakeChecker, *more: str) -> judge.Judge:
        """Return a new judge that uses a fake checker and does not monitor segments or disks."""
        result = judge.Judge(self.args(*more), "qc")
        result.checker = checker  # type: ignore
        result.monitor.look = lambda *_: None  # type: ignore
        result.monitor.free = {"results": 1 << 40}
        return result

    def write_schedule(self, *lines: str) -> None:
        self.write("schedule", "".join(f"{line}\n" for line in lines).encode())

    def put_segment(self, begin: float, end: float, data: bytes = b"", is_new: bool = False
                    ) -> str:
        """Put a segment, whose name reports a possible loss before it if `is_new` is true."""
        path = super().write(f"segments/{make_segment_name(DAY + begin, is_new)}",
                             data or b"." * max(int(end - begin), 1))
        os.utime(path, (DAY + end, DAY + end))
        return path

    def put_clock_jump(self, step: int, at: int = 0, difference: int = 0) -> None:
        """Put a segment on each side of a jump of the clock by `step` seconds; the later begins
        `at` seconds. Before it, the clock differs from the TDT by `difference` seconds."""
        find_difference.cache_clear()  # other rows have the same names, sizes and times
        begin = at - 10 - max(step, 0)
        self.put_segment(begin, begin + 10, make_tdt(begin - difference))
        self.put_segment(at, at + 10, make_tdt(at - step - difference), is_new=step < 0)

    def put_segments(self, begin: int, end: int) -> None:
        """Put segments of ten seconds between two times."""
        for at in range(begin, end, SEGMENT_SECONDS):
            self.put_segment(at, min(at + SEGMENT_SECONDS, end))

    def verdicts(self) -> dict[str, str]:
        """Return the verdict of each result in the folder `out`, by the result's name."""
        names = (name[:-5] for name in os.listdir(self.path("out")) if name.endswith(".json"))
        return {name: str(self.result(name)["verdict"]) for name in names if name != "state"}

    def result(self, name: str) -> dict[str, Any]:
        values: dict[str, Any] = json.loads(self.read(f"out/{name}.json"))
        return values

    def delete_all(self, *folders: str) -> None:
        for folder in folders:
            for name in os.listdir(self.path(folder)):
                os.unlink(self.path(f"{folder}/{name}"))
