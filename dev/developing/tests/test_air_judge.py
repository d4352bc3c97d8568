"""Test the judge of tools/air: its verdicts, their times, and its reaction to failures."""
from __future__ import annotations

import contextlib
import errno
import json
import os
import time
from typing import Any, Collection, Sequence
from unittest import mock

from subtitles.air import judge as judging
from subtitles.air.check import Checker, Outcome
from subtitles.air.decision import Window, give_up, is_clock_wrong, is_given_up
from subtitles.air.schedule import Programme
from subtitles.air.segments import Segment, find_segments, make_segment_name, parse_segment_begin
from subtitles.air.state import Monitor
from subtitles.common.files import open_result
from subtitles.formats.teletext import Page
from .air import AirCase, DAY, FAILURE, FakeChecker, MARGIN_SECONDS, SentProgramme, make_outcome
from .bench import read_example_file
from .programmes import wait_until
from .stories import Story, read_vectors
from .transmissions import write_subtitle_file

NAME = "20261201T081000Z-one"
BEGIN, END = 600, 660  # scheduled air time in seconds after DAY
OTHER_NAME = NAME.replace("one", "two")
PAGE, OTHER_PAGE = (0, 0x88), (0, 0x89)

ON_TIME = {NAME: SentProgramme(BEGIN, END)}
NEVER_SENT: dict[str, SentProgramme] = {}
HOUR, LAST = 3600, END + MARGIN_SECONDS  # an hour, and the end of a programme's window

# Two kinds of refusals that a corrected subtitle file may change, and what their JSON results have
FILE_FAULTS: dict[str, dict[str, object]] = {
    "its recording was not read": {"inputs": {"recording": None}},
    "its recording was judged": {"faults": [{"file": "stl", "severity": "error"}]}}


class JudgedProgrammes(AirCase):
    """`air judge` with a margin of 60 seconds, a fake checker, and a schedule with one.stl, whose
    subtitles take 60 seconds, at 08:10:00. Times are seconds after DAY, which is 08:00:00. The
    programme is expected from BEGIN to END, and searched for in its window from 540 to LAST. If a
    test does not change it, the feed was recorded from 0 to 900 without a gap."""

    now = recorder_lag = 0

    def setUp(self) -> None:
        super().setUp()
        write_subtitle_file(self, [(0, 1500, b"One")])
        write_subtitle_file(self, [(0, 1500, b"Two")], "two.stl")
        self.write_schedule("2026-12-01T08:10:00Z one.stl")
        self.put_segments(0, 900)

    def run_judge(self, checker: FakeChecker, until: int, since: int = BEGIN,
                  options: Sequence[str] = ()) -> judging.Judge:
        """Let a new judge look every five seconds from `since` on, until there is a result or the
        time `until`. Set `self.now` to the time of its last look. Return the judge."""
        judge = self.make_judge(checker, *options)
        for self.now in range(since, until, 5):
            while judge.look(DAY + self.now):
                pass
            if self.verdicts():
                break
        return judge

    def find_recorded_segments(self, folder: str, begin: float, end: float) -> list[Segment]:
        """Return the segments, or their beginnings, that a recorder has written by `self.now`, for
        tests that patch `find_segments`. In other tests all segments exist from the beginning."""
        now = DAY + self.now - self.recorder_lag
        result = find_segments(folder, begin, min(end, now))
        return [item._replace(end=min(item.end, now)) for item in result]

    def put_trial(self, row: Story) -> FakeChecker:
        """Put the recorded segments of a row. Return a checker that knows what is on air."""
        self.delete_all("segments", "out")
        for interval in filter(None, row["recorded"].split(", ")):
            self.put_segments(*map(int, interval.split("-")))
        begin, _, end = row["on air"].removesuffix(" wrong").partition("-")
        return FakeChecker({NAME: SentProgramme(int(begin), int(end), "wrong" not in row["on air"])}
                           if begin else NEVER_SENT)

    def test_judges_each_programme_at_the_first_attempt_with_a_certain_result(self) -> None:
        for row in read_vectors("air-verdicts.tsv"):
            checker, name = self.put_trial(row), row["name"]
            with mock.patch.object(judging, "find_segments", self.find_recorded_segments):
                self.run_judge(checker, until=1500)
            self.check(name, (self.verdicts().get(NAME), self.now - END),
                       (row["verdict"], int(row["after"])))
            if row["reason"]:
                self.check(f"{name}: reason", self.result(NAME)["reason"], row["reason"])

    def test_a_judge_that_starts_long_after_a_programme_gives_the_same_verdict(self) -> None:
        for row in read_vectors("air-verdicts.tsv"):
            self.run_judge(self.put_trial(row), since=1900, until=2000)
            self.check(row["name"], self.verdicts().get(NAME), row["verdict"])

    def test_judges_in_the_folder_of_work_and_keeps_recordings_if_requested(self) -> None:
        out, work = self.path("out"), self.path("work")
        for options, expected in (("", Checker("/bin/true", "qc", out, out)), (
                f"--work {work} --keep", Checker("/bin/true", "qc", work, out, True))):
            self.check(options, judging.Judge(self.args(*options.split()), "qc").checker, expected)

    def test_judges_all_programmes_that_have_ended_before_it_exits_or_waits(self) -> None:
        stop: Any = KeyboardInterrupt
        for options, looks, count in ((["--once"], [True, True, False], 0), (
                ["--every-seconds", "7"], [True, False, False, stop], 2)):
            with mock.patch.object(judging.Judge, "look", side_effect=looks) as look, \
                    mock.patch("signal.signal"), mock.patch.object(time, "sleep") as sleep, \
                    contextlib.suppress(stop):
                self.check("status", judging.judge_schedule(self.args(*options), "qc"), 0)
            self.check(f"{options}: looks", look.call_count, len(looks))
            self.check(f"{options}: waits", sleep.call_args_list, [mock.call(7)] * count)

    def test_waits_for_a_recorder_that_lags_by_less_than_ten_seconds(self) -> None:
        self.recorder_lag = 9
        with mock.patch.object(judging, "find_segments", self.find_recorded_segments):
            self.run_judge(FakeChecker(NEVER_SENT), since=LAST, until=1500)
        self.check("not `not recorded`", self.result(NAME)["reason"], "no cue agrees")

    def test_tries_four_times_to_judge_a_programme_that_is_never_sent(self) -> None:
        checker = FakeChecker(NEVER_SENT)
        self.run_judge(checker, until=1500)
        # 10, 20 and 40 seconds after the scheduled end, and 10 seconds after its window
        self.check("calls", checker.calls, [NAME] * 4)

    def test_retries_after_system_failures(self) -> None:
        outcomes = [make_outcome(NAME, "relative", "relative 1500 frames\nmore"),
                    *[Outcome(None, "the machine failed\nmore")] * 20]
        self.run_judge(FakeChecker(NEVER_SENT, lambda _: outcomes.pop()), until=3000)
        self.check("in 20 minutes", (self.verdicts(), self.now), ({NAME: "relative"}, 670 + 1200))
        self.check("printed after the date", [line.partition("  ")[2] for line in self.printed], [
            f"{NAME}: will be tried again: the machine failed",
            f"{NAME}  relative: relative 1500 frames"])

    def test_reports_a_system_failure_once_the_segments_are_deleted(self) -> None:
        judge = self.run_judge(FakeChecker(NEVER_SENT, lambda _: FAILURE), until=1500)
        self.delete_all("segments")
        for now in range(1500, 1700, 5):
            judge.look(DAY + now)
        self.check("reason", self.result(NAME)["reason"], "not recorded: 2026-12-01T08:09:00Z to "
                   "2026-12-01T08:12:00Z; before that: the machine failed")

    def test_slow_failures_take_a_tenth_of_the_time(self) -> None:
        clock = [0.0]

        def fail(_: Programme) -> Outcome:
            clock[0] += 100  # seconds that each attempt takes
            return FAILURE

        checker = FakeChecker(NEVER_SENT, fail)
        with mock.patch.object(time, "monotonic", lambda: clock[0]):
            self.run_judge(checker, since=700, until=700 + 10_000)
        self.check("attempts of 100 s in 10,000 s", len(checker.calls), 10)

    def test_a_programme_whose_file_is_missing_is_late_a_margin_after_its_window(self) -> None:
        os.unlink(self.path("one.stl"))
        last = BEGIN + MARGIN_SECONDS  # the window of a file without a length ends
        judge = self.make_judge(FakeChecker(ON_TIME))
        for now, late in ((last + MARGIN_SECONDS - 5, []), (last + MARGIN_SECONDS + 5, [NAME])):
            judge.look(DAY + now)
            self.check(f"late at {now}", judge.monitor.late, late)

    def test_expects_headers_of_a_page_from_the_latest_begin_to_the_end_of_the_window(self) -> None:
        judge, begin = self.make_judge(FakeChecker(NEVER_SENT)), BEGIN + MARGIN_SECONDS
        # `look` reports a moment after the time that it gets: at LAST, the window is over.
        for now, pages in ((begin - 1, []), (begin, [PAGE]), (LAST - 1, [PAGE]), (LAST, [])):
            judge.look(DAY + now)
            self.check(f"pages on air at {now}", [*judge.monitor.pages_on_air], pages)

    def test_monitors_the_folders_the_pages_and_the_segments_that_are_needed(self) -> None:
        """The state is also written while the programme is judged, here for 7 seconds."""
        clock = [0]

        def report_later(_: Programme) -> None:
            clock[0] = 7
            judge.checker.report()

        judge = self.make_judge(FakeChecker(ON_TIME, report_later))
        with mock.patch.object(judge.monitor, "look") as look, \
                mock.patch.object(time, "monotonic", lambda: clock[0]):
            for now in (600, 800, 900):
                judge.look(DAY + now)
        self.check("calls", [call.args for call in look.call_args_list], [
            (self.path("segments"), self.path("out"), DAY + now, "/bin/true", {PAGE}, DAY + needed)
            for now, needed in ((600, 480), (800, 540), (807, 540), (900, 780))])

    def test_reads_few_segments_while_a_subtitle_file_is_missing(self) -> None:
        self.put_segments(0, 4000)
        os.unlink(self.path("one.stl"))
        with mock.patch.object(os, "stat", wraps=os.stat) as stat:
            self.run_judge(FakeChecker(NEVER_SENT), since=3900, until=4000)
        names = {os.path.basename(call.args[0]) for call in stat.call_args_list}
        count = len([name for name in names if parse_segment_begin(name)])
        # Without a length, the programme is searched for from 540 to 660.
        self.must("the 12 of the window, and a few more", 12 <= count < 20, count)

    def test_judges_a_programme_once_its_file_is_complete_for_a_minute(self) -> None:
        data = self.read("one.stl")
        checker = FakeChecker(ON_TIME)
        for size, changed in ((0, 600), (1100, 700)):
            self.write("one.stl", data[:size])
            os.utime(self.path("one.stl"), (DAY + changed, DAY + changed))
            self.run_judge(checker, until=1500)
            self.check(f"{size} bytes", (self.verdicts(), checker.calls), ({}, []))
        self.write("one.stl", data)
        os.utime(self.path("one.stl"), (DAY + 2000, DAY + 2000))
        self.run_judge(checker, since=2000, until=3000)
        self.check("complete", self.verdicts(), {NAME: "relative"})
        # It is tried once a minute, and the file must be unchanged for a minute.
        self.must("when", 2060 <= self.now <= 2120, self.now)

    def test_judges_a_file_again_that_is_changed_meanwhile(self) -> None:
        new_mtimes = [DAY + 601]

        def change_file_once(_: Programme) -> None:
            if new_mtimes:
                os.utime(self.path("one.stl"), (DAY, new_mtimes.pop()))

        checker = FakeChecker(ON_TIME, change_file_once)
        judge = self.run_judge(checker, until=671)
        self.check("no result yet", self.verdicts(), {})
        self.check("reason", judge.monitor.last_error,
                   f"{NAME}: {self.path('one.stl')} was changed while it was judged")
        self.run_judge(checker, since=672, until=700)
        self.check("then", self.verdicts(), {NAME: "relative"})

    def make_refusal(self, name: str) -> Outcome:
        """Put a feed with a gap after the programme, which must not matter. Return a refusal
        because of a fault of the subtitle file."""
        self.delete_all("segments", "out")
        self.put_segments(0, 670)
        self.put_segments(680, 900)
        return make_outcome(NAME, "refused", "refused 56 OutOfOrder block 2", **FILE_FAULTS[name])

    def test_a_refused_file_may_be_corrected_until_the_margin_has_passed(self) -> None:
        for name in FILE_FAULTS:
            refusal = self.make_refusal(name)
            self.run_judge(FakeChecker(ON_TIME, lambda _: refusal), until=LAST + 10)
            self.check(f"{name}: no result yet", self.verdicts(), {})
            self.run_judge(FakeChecker(ON_TIME), since=self.now, until=800)
            self.check(f"{name}: corrected", self.verdicts(), {NAME: "relative"})

    def test_a_file_that_is_not_corrected_is_refused_ten_seconds_after_the_margin(self) -> None:
        self.write_schedule("2026-12-01T08:10:00Z one.stl", "2026-12-01T08:11:59Z missing.stl")
        for name in FILE_FAULTS:
            refusal = self.make_refusal(name)
            self.run_judge(FakeChecker(ON_TIME, lambda _: refusal), until=1500)
            self.check(name, (self.verdicts(), self.now), ({NAME: "refused"}, LAST + 10))

    def test_a_programme_that_was_not_recorded_waits_for_an_hour_of_later_feed(self) -> None:
        self.delete_all("segments")
        with mock.patch.object(judging, "MIN_RECORDED_LATER", 3600.0):
            judge = self.run_judge(FakeChecker(NEVER_SENT), until=9000)
            self.check("without segments", (self.verdicts(), judge.monitor.late), ({}, [NAME]))
            self.put_segment(730, 740, is_new=True)  # the recorder began, and deleted nothing
            self.put_segments(740, LAST + HOUR)
            self.run_judge(FakeChecker(NEVER_SENT), until=9000)
            self.check("after an hour less ten seconds", self.verdicts(), {})
            self.put_segments(LAST + HOUR, LAST + HOUR + 20)
            self.run_judge(FakeChecker(NEVER_SENT), until=9000)
        self.check("after an hour", self.verdicts(), {NAME: "not judged"})

    def test_tries_again_at_once_after_the_clock_was_set_back(self) -> None:
        """The first attempt finds no segments, so that the next would be an hour later, at 7500."""
        self.delete_all("segments")
        judge = self.make_judge(FakeChecker(ON_TIME))
        with mock.patch.object(judging, "MIN_RECORDED_LATER", 3600.0):
            for now in (0, 3900):  # before the programme, the second with a clock that is ahead
                judge.look(DAY + now)
            self.put_segments(0, 900)
            for now, is_wrong in ((610, True), (3950, False)):
                judge.monitor.is_clock_wrong = is_wrong
                judge.look(DAY + now)
        self.check("results", self.verdicts(), {NAME: "relative"})

    def test_judges_nothing_while_the_clock_is_wrong(self) -> None:
        checker = FakeChecker(ON_TIME)
        judge = self.make_judge(checker)
        judge.monitor.is_clock_wrong = True
        judge.look(DAY + 680)
        self.check("calls", checker.calls, [])

    def test_judges_again_if_the_clock_was_wrong_meanwhile(self) -> None:

        def change_clock(_: Programme) -> None:
            judge.monitor.is_clock_wrong = len(checker.calls) == 1

        checker = FakeChecker(ON_TIME, change_clock)
        judge = self.make_judge(checker)
        judge.look(DAY + 680)
        self.check("wrong", (self.verdicts(), checker.calls), ({}, [NAME]))
        judge.monitor.is_clock_wrong = False
        judge.look(DAY + 680)
        self.check("right", self.verdicts(), {NAME: "relative"})

    def test_trusts_no_recording_if_the_clock_jumped_since_its_window_began(self) -> None:
        never_sent = make_outcome(NAME, "refused", "refused 72")
        file_refused = make_outcome(NAME, "refused", "refused 72", inputs={"recording": None})
        right = make_outcome(NAME, "relative", "relative 1500 frames")
        doubt = "the clock jumped by -120 s from the TDT at 2026-12-01T08:"
        # The checker's outcome, the time of the jump, and the verdict and reason in the result
        rows: dict[str, tuple[Outcome, int, str, str]] = {
            "before the margin": (never_sent, 530, "refused", "refused 72"),
            "as it begins": (never_sent, 540, "not judged", f"{doubt}09:00Z: refused 72"),
            "later": (never_sent, 1000, "not judged", f"{doubt}16:40Z: refused 72"),
            "later, and it seems right": (right, 1000, "not judged",
                                          f"{doubt}16:40Z: relative 1500 frames"),
            "later, and the file is refused": (file_refused, 1000, "refused", "refused 72")}
        for name, (outcome, jump, verdict, reason) in rows.items():
            self.delete_all("segments", "out")
            self.put_segments(min(jump + 10, 550), 900)
            self.put_clock_jump(-120, jump)
            self.run_judge(FakeChecker(NEVER_SENT, lambda _: outcome), until=1500)
            kind = "input" if verdict == "not judged" else "undecided"  # as in `make_outcome`
            self.check(name, [self.result(NAME)[key] for key in (
                "verdict", "not_judged_kind", "reason")], [verdict, kind, reason])

    def test_gives_up_a_programme_that_waits_for_too_long(self) -> None:
        window = Window(BEGIN, END, END - BEGIN, MARGIN_SECONDS, MARGIN_SECONDS)
        for row in read_vectors("given-up.tsv"):
            later = [Segment("", 1, LAST + int(begin), LAST + int(end)) for begin, end in (
                word.split("-") for word in row["later"].split())]
            result = is_given_up(window, later, float(row["deleted"]), float(row["clock"]))
            self.check(row["name"], f"{result}", row["given up"])

    def test_a_programme_that_is_given_up_is_not_judged(self) -> None:
        for last, kind, reason in (
                (make_outcome(NAME, "not judged", "no cue agrees"), "undecided", "no cue agrees"),
                (Outcome(None, "no room"), "resource", "no room"),
                (make_outcome(NAME, "refused", "refused never sent"), "input",
                 "a line nearby has no subtitle file: refused never sent")):
            result = give_up(NAME, last).result or {}
            self.check(reason, [result[key] for key in (
                "verdict", "not_judged_kind", "reason")], ["not judged", kind, reason])

    def test_a_clock_that_is_three_days_ahead_ends_a_line_only_after_an_hour(self) -> None:
        self.delete_all("segments")
        os.unlink(self.path("one.stl"))
        judge, minute = self.make_judge(FakeChecker(NEVER_SENT)), 0
        # Minutes of polling, whether the clock is ahead, and the number of results after that
        for minutes, is_ahead, count in ((1, True, 0), (90, False, 0), (1, True, 0), (1, False, 0),
                                         (60, True, 0), (1, True, 1)):
            for minute in range(minute, minute + minutes):
                with mock.patch.object(time, "monotonic", lambda: 60.0 * minute):
                    judge.look(DAY + 60 * minute + 72 * HOUR * is_ahead)
            minute += 1
            self.check(f"results at minute {minute}", len(self.verdicts()), count)
        self.check("reason", self.result(NAME)["reason"], f"{self.path('one.stl')} does not exist")

    def test_waits_for_the_subtitle_file_of_a_line_that_may_be_nearer(self) -> None:
        """one.stl is on air at 640, nearer to two.stl at 650 than to its own time, 600. So the
        verdict of one.stl depends on whether two.stl, which is missing, has the same subtitles."""
        self.write_schedule("2026-12-01T08:10:00Z one.stl", "2026-12-01T08:10:50Z two.stl")
        one, two = self.read("one.stl"), self.read("two.stl")
        # Content of two.stl, the verdict on one.stl that is not published while two.stl is missing
        # (from a checker whose margin ends before 640), and the verdict that is published then
        for name, data, early, late in (
                ("the same subtitles", one, "not judged", "not judged"),
                ("others", two, "not judged", "relative"),
                ("others, never sent so far", two, "refused", "relative")):
            self.delete_all("out")
            os.unlink(self.path("two.stl"))
            checker = FakeChecker({NAME: SentProgramme(640, 700)}, lambda item: None if (
                item.begin + item.late >= DAY + 640) else make_outcome(
                    item.name, early, "it began later")._replace(is_finished=False))
            judge = self.make_judge(checker)
            for now in range(600, 5000, 50):
                judge.look(DAY + now)
            self.check(f"{name}: not yet", self.verdicts(), {})
            self.write("two.stl", data)
            for now in range(5000, 6000, 50):
                judge.look(DAY + now)
            self.check(name, self.verdicts().get(NAME), late)

    def test_an_airing_counts_for_the_nearest_line(self) -> None:
        self.write("out/20261201T080030Z-four.json", b"")
        for row in read_vectors("margins.tsv"):
            self.write_schedule(*(
                f"2026-12-01T08:{int(begin) // 60:02}:{int(begin) % 60:02}Z {stl}.stl "
                f"{' '.join(options)}" for begin, stl, *options in map(
                    str.split, row["lines"].split("; "))))
            judge = self.make_judge(FakeChecker(NEVER_SENT))
            judge.look(DAY)
            margins = list[str]()
            for item in judge.schedule.programmes:
                delivery = judge.read_delivery(item, DAY)
                window = judge.window(judge.limit_margins(item, delivery, DAY)[0], delivery)
                margins.append(f"{window.begin - window.first:g}-{window.last - window.end:g}")
            self.check(row["name"], " ".join(margins), row["margins"])

    def test_gives_up_on_a_missing_subtitle_file_once_its_segments_are_deleted(self) -> None:
        self.delete_all("segments")
        os.unlink(self.path("one.stl"))
        self.put_segments(700, 2000)
        self.run_judge(FakeChecker(NEVER_SENT), until=1000)
        self.check("kind and reason", [self.result(NAME)[key] for key in (
            "not_judged_kind", "reason")], ["input", f"{self.path('one.stl')} does not exist"])

    def test_judges_again_if_the_result_cannot_be_written(self) -> None:
        full = OSError(errno.ENOSPC, "No space left on device")
        with mock.patch.object(judging, "open_result", wraps=open_result,
                               side_effect=[full, full, full, mock.DEFAULT]) as write:
            judge = self.run_judge(FakeChecker(ON_TIME), until=900)
        self.check("calls, results", (write.call_count, self.verdicts()), (4, {NAME: "relative"}))
        self.check("last error", judge.monitor.last_error,
                   f"{NAME}: the output: No space left on device")

    def test_a_damaged_schedule_loses_no_programme(self) -> None:
        checker, complete = FakeChecker(ON_TIME), self.read("schedule")
        for data in (b"", complete[:20], b"\xff\xfe\n", b"'\n", None):
            if data is None:
                os.unlink(self.path("schedule"))
            else:
                self.write("schedule", data)
            self.run_judge(checker, since=650, until=700)
            self.check(f"{data!r}", self.verdicts(), {})
        self.write("schedule", complete)
        self.run_judge(checker, since=650, until=700)
        self.check("once it is there again", self.verdicts(), {NAME: "relative"})

    def test_never_replaces_a_written_result(self) -> None:
        self.run_judge(FakeChecker(ON_TIME), until=700)
        complete, path = self.read("schedule"), self.path(f"out/{NAME}.json")
        before = os.stat(path).st_mtime_ns
        for data in (b"", complete[:20] + b"\n", complete * 2):
            self.write("schedule", data)
            self.must(f"{data!r}", not self.make_judge(FakeChecker(NEVER_SENT)).look(DAY + 5000))
        self.check("when it was written", os.stat(path).st_mtime_ns, before)
        self.check("results", self.verdicts(), {NAME: "relative"})

    def test_uses_the_last_schedule_while_there_is_none(self) -> None:
        judge = self.make_judge(FakeChecker(ON_TIME))
        judge.look(DAY + 600)
        os.unlink(self.path("schedule"))
        judge.look(DAY + 700)
        self.check("results", self.verdicts(), {NAME: "relative"})
        self.check("alarm", judge.monitor.find_alarms()["schedule"], True)
        self.write_schedule("2026-12-01T08:10:00Z one.stl")
        judge.look(DAY + 705)
        self.check("alarm if it is there again", judge.monitor.find_alarms()["schedule"], False)

    def test_a_restart_of_the_recorder_is_a_gap(self) -> None:
        for begin in (630, 625):  # the second after the clock was set back
            self.delete_all("segments", "out")
            self.put_segments(0, 900)
            os.rename(self.path(f"segments/{make_segment_name(DAY + 630)}"),
                      self.path(f"segments/{make_segment_name(DAY + begin, is_new=True)}"))
            self.run_judge(FakeChecker(ON_TIME), until=1000)
            self.check("reason", self.result(NAME)["reason"],
                       f"not recorded: 2026-12-01T08:10:{begin - 600}Z to 2026-12-01T08:10:30Z; of "
                       "the rest: refused 74")

    def test_ignores_an_end_before_the_last_subtitle(self) -> None:
        self.write_schedule("2026-12-01T08:10:00Z/2026-12-01T08:10:01Z one.stl")
        self.run_judge(FakeChecker(ON_TIME), until=1000)
        self.check("when it was judged", self.now, END + 10)

    def test_a_bug_affects_no_other_programme(self) -> None:
        self.write_schedule("2026-12-01T08:10:00Z one.stl", "2026-12-01T08:10:00Z two.stl")

        def fail(programme: Programme) -> None:
            if programme.name == NAME:
                raise KeyError(NAME)

        checker = FakeChecker({OTHER_NAME: SentProgramme(BEGIN, END)}, fail)
        waiting = self.run_judge(checker, until=800).monitor.waiting
        self.check("results, waiting", (self.verdicts(), waiting), ({OTHER_NAME: "relative"}, 1))

    def test_writes_the_page_and_the_list_before_the_result(self) -> None:
        # Only results of judged programmes have a request.
        judged = make_outcome(NAME, "relative", "relative", request={})
        checker = FakeChecker(NEVER_SENT, lambda _: judged)
        checker.work = self.path("work")
        os.mkdir(checker.work)
        for ending in ("html", "json", "txt"):
            self.write(f"work/{NAME}.{ending}", b'{"verdict": "relative"}')
        with mock.patch.object(judging, "open_result", wraps=open_result) as write:
            self.run_judge(checker, until=700)
        self.check("endings, is_stored", [
            (os.path.splitext(call.args[0])[1], call.kwargs["is_stored"])
            for call in write.call_args_list], [(".html", True), (".txt", True), (".json", True)])

    def test_calls_the_command_once_for_each_result(self) -> None:
        command = self.write_program(
            "hook", f'#!/bin/sh\necho "$*" >>{self.path("calls")}\nexit 7\n')
        judge = self.run_judge(FakeChecker(ON_TIME), until=800, options=["--on-result", command])
        judge.look(DAY + 900)
        self.check("calls", self.read("calls").decode(),
                   f"{self.path('out')}/{NAME}.json relative\n")

    def test_kills_a_command_that_hangs_with_its_children(self) -> None:
        command = self.write_program("hook", f"#!/bin/sh\nsleep 60 &\n"
                                     f"echo $! >{self.path('child')}\nwait\n")
        begin = time.monotonic()
        with mock.patch.object(judging, "HOOK_SECONDS", 0.5):
            self.run_judge(FakeChecker(ON_TIME), until=800, options=["--on-result", command])
        child = self.read("child").decode().strip()
        is_gone = wait_until(lambda: not os.path.exists(f"/proc/{child}/exe"))
        self.must("the child ends before its 60 seconds are over",
                  is_gone and time.monotonic() < begin + 55, time.monotonic() - begin)


# Attributes that differ from those of a feed without faults, the active alarms, and those of them
# that are only warnings
ALARM_CASES: dict[str, tuple[dict[str, Any], list[str], list[str]]] = {
    "all is well": ({}, [], []),
    "no byte for 11 seconds": ({"last_byte": DAY - 11}, ["silence"], []),
    "a wrong clock": ({"is_clock_wrong": True}, ["clock"], []),
    "segments were deleted": ({"is_deleted_early": True}, ["disk"], []),
    "a full disk": ({"free": {"segments": 99_999_999, "results": 1 << 40}}, ["disk"], []),
    "100 MB are enough": ({"free": {"segments": 100_000_000, "results": 1 << 40}}, [], []),
    "no room for the recorder": ({"has_note": True}, ["disk"], []),
    "a bug": ({"has_bug": True}, ["bug"], []),
    "no header for 601 seconds": ({"headers": {PAGE: DAY - 601}}, ["page 888"], ["page 888"]),
    "no header for 600 seconds": ({"headers": {PAGE: DAY - 600}}, [], []),
    "recorded for 600 seconds": ({"headers": {PAGE: 0.0}, "oldest": DAY - 600}, [], []),
    "a page never seen": ({"headers": {PAGE: 0.0}}, ["page 888"], ["page 888"]),
    "the first of two pages": ({"headers": {PAGE: DAY - 601, OTHER_PAGE: DAY}}, ["page 888"],
                               ["page 888"]),
    "a page of a programme on air": ({"headers": {PAGE: 0.0, OTHER_PAGE: 0.0},
                                      "pages_on_air": {PAGE}}, ["page 888", "page 889"],
                                     ["page 889"]),
    "a result is late": ({"late": ["one"]}, ["late"], []),
    "a fault in the schedule": ({"schedule_faults": ["line 3: what?"]}, ["schedule"],
                                ["schedule"])}


class State(AirCase):
    """The monitor of `air judge`. Times are seconds after DAY."""

    def look(self, now: float, monitor: Monitor | None = None, segments: str = "segments",
             pages: Collection[Page] = (), needed: float = 0) -> Monitor:
        """Let a monitor, by default a new one, look for segments and for headers of pages. Return
        it. Segments after the time `needed` must not have been deleted."""
        monitor = monitor or Monitor()
        monitor.look(self.path(segments), self.path("out"), DAY + now, self.bench.program, pages,
                     DAY + needed)
        return monitor

    def test_raises_each_alarm(self) -> None:
        for name, (changes, alarms, warnings) in ALARM_CASES.items():
            monitor = Monitor()
            monitor.now, monitor.oldest, monitor.last_byte = DAY, DAY - 9999, DAY - 10
            monitor.free = {"segments": 1 << 40, "results": 1 << 40}
            vars(monitor).update(changes)
            state = json.loads(json.dumps(monitor.make_contents()))
            self.check(name, (state["alarms"], state["warnings"]), (alarms, warnings))

    def test_reports_the_number_and_times_of_segments(self) -> None:
        self.put_segments(0, 50)
        state = self.look(60).make_contents()
        self.check("segments", [state[name] for name in ("segments", "last_byte", "oldest")],
                   [5, "2026-12-01T08:00:50Z", "2026-12-01T08:00:00Z"])

    def test_reports_no_segments_and_no_room_without_a_folder(self) -> None:
        state = self.look(60, segments="nothing").make_contents()
        self.check("segments", (state["segments"], state["last_byte"], state["oldest"],
                                state["free_bytes"]["segments"]), (0, None, None, 0))

    def test_reports_the_last_headers_of_pages_in_recent_segments(self) -> None:
        for begin in (0, 10):
            self.put_segment(begin, begin + 10, read_example_file("recording.ts"))  # without 889
        monitor = Monitor()
        for now, header in ((5000, 0.0), (100, DAY + 20), (10, DAY + 10)):  # the clock is set back
            self.look(now, monitor, pages=[PAGE, OTHER_PAGE])
            self.check(f"headers, {now}", monitor.headers, {PAGE: header, OTHER_PAGE: 0.0})
        for now, header in ((610, DAY + 20), (611, 0.0)):  # the first search covers ten minutes
            self.check(f"the first search, {now}", self.look(now, pages=[PAGE]).headers,
                       {PAGE: header})

    def test_compares_the_clock_with_segments(self) -> None:
        for row in read_vectors("segment-clocks.tsv"):
            self.delete_all("segments")
            self.put_segments(0, 50)
            begin, write = float(row["begin"]), DAY + float(row["write"])
            os.utime(self.put_segment(begin, begin + 1), (write, write))
            monitor = self.look(60)
            self.check(row["name"], (f"{monitor.is_clock_wrong}", f"{monitor.last_byte - DAY:g}"),
                       (row["is wrong"], row["last byte"]))

    def test_raises_the_alarm_while_the_clock_may_be_wrong(self) -> None:
        for row in read_vectors("clock-alarms.tsv"):
            self.delete_all("segments")
            steps, difference = [*map(int, row["steps"].split())], int(row["difference"])
            for number, step in enumerate(steps):
                self.put_clock_jump(step, 1500 * number, difference + sum(steps[:number]))
            first, last_step = Monitor(), 1500 * (len(steps) - 1)
            for seconds in (20, HOUR, HOUR + 1, 6300):
                for monitor in (first, Monitor()):
                    self.look(last_step + seconds, monitor)
                    expected = f"{seconds <= HOUR or row['active later']}"
                    self.check(f"{row['name']}, {seconds} s later, {monitor is first}",
                               f"{monitor.is_clock_wrong}", expected)

    def test_knows_from_jumps_and_the_newest_tdt_whether_the_clock_is_wrong(self) -> None:
        for row in read_vectors("wrong-clocks.tsv"):
            jumps = [(at, float(before), float(after)) for at, (before, after) in enumerate(
                jump.split("..") for jump in row["jumps"].split())]
            result = is_clock_wrong(jumps, float(row["newest"]), 2 * HOUR)
            self.check(row["name"], str(result), row["is wrong"])

    def test_uses_long_segments_that_do_not_overlap(self) -> None:
        for row in read_vectors("long-segments.tsv"):
            self.delete_all("segments")
            times = [[*map(int, word.split("-"))] for word in row["segments"].split()]
            for begin, write in times:
                self.put_segment(begin, write)
            now = max(write for _, write in times)
            used = find_segments(self.path("segments"), DAY + 25, DAY + now)
            self.check(row["name"], (str(self.look(now).is_clock_wrong), f"{len(used)}"),
                       (row["is wrong"], row["used"]))

    def test_reports_segments_that_are_deleted_early(self) -> None:
        # Whether the name of the oldest segment, which begins at 10, reports a possible loss; the
        # time from which segments are needed; and whether some of them were deleted
        for is_new, needed, expected in ((False, 5, True), (False, 10, False), (True, 5, False)):
            self.delete_all("segments")
            self.put_segment(10, 20, is_new=is_new)
            self.check(f"{is_new}, {needed}", self.look(60, needed=needed).is_deleted_early,
                       expected)
