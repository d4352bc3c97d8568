"""Test tools/air with real processes that record and judge a feed."""
from __future__ import annotations

import datetime
import json
import os
import subprocess
import sys
import time
from types import SimpleNamespace
from typing import Any, Iterator, Sequence
from unittest import mock

from subtitles.air import check, main
from subtitles.air.check import Checker, Outcome
from subtitles.air.decision import decide
from subtitles.air.segments import UnbrokenRun, find_segments, find_unbroken_runs, make_segment_name
from subtitles.cli.single import hold_lock
from subtitles.common.times import FRAMES_A_SECOND
from .air import AirCase, DAY, make_outcome
from .bench import SECONDS, get_tool_path
from .programmes import BEGIN, LASTS, SECOND, repeat_last_page, make_programme, wait_until
from .stories import read_vectors
from .streams import multiplex_frames
from .transmissions import packets, write_subtitle_file

LEAD_SECONDS, TAIL_SECONDS = 4, 6  # length of the feed before and after the programme, in seconds
ALL = LEAD_SECONDS + LASTS + TAIL_SECONDS
MISSING_PES = slice(4, 6)  # PES packets that a wrong feed lacks


def sleep_and_return_7() -> int:
    time.sleep(1)
    return 7


class Feeds(AirCase):
    """A feed that transmits one.stl, which has four subtitles, after LEAD_SECONDS."""

    def make_feed(self, is_wrong: bool = False) -> list[bytes]:
        """Return the TS packets of each frame."""
        programme = make_programme(self, "one", 1_000_000, "Alpha Beta Gamma Delta",
                                   BEGIN + SECOND * LEAD_SECONDS)
        pes = packets(programme + repeat_last_page(programme, BEGIN
                                                   + SECOND * (LEAD_SECONDS + LASTS), TAIL_SECONDS))
        if is_wrong:
            del pes[MISSING_PES]
        return [*multiplex_frames(pes, BEGIN, ALL * FRAMES_A_SECOND, rounds=1)]


class Checks(Feeds):
    def check_frames(self, frames: list[bytes], begin: int = 0, air: int = 0, early: int = 60,
                     late: int = 60, program: str = "", waived: Sequence[str] = ()) -> Outcome:
        """Judge frames that are recorded from second `begin` of a feed on. The programme may begin
        up to `early` seconds before and `late` seconds after second `air`."""
        faults = self.write("severity", "".join(f"{item} warning\n" for item in waived).encode())
        self.delete_all("segments", "out")
        self.put_segment(begin, begin + len(frames) / FRAMES_A_SECOND, b"".join(frames))
        self.write_schedule(f"2026-12-01T08:00:00Z one.stl --severity {faults}")
        item, = self.read_schedule().programmes
        item = item._replace(begin=DAY + air, early=early, late=late)
        stretch, = find_unbroken_runs(find_segments(self.path("segments"), DAY, DAY + 60), 5)
        out = self.path("out")
        checker = Checker(program or self.bench.program, "qc", out, out)
        result = checker.check(item, stretch, item.begin + LASTS + late)
        checker.clear()
        self.check("files that are left", os.listdir(out), [])
        return result

    def test_names_three_gaps_and_counts_the_others(self) -> None:
        for gaps, text in (("", "some seconds"), ("a", "a"), ("abc", "a, b, c"),
                           ("abcd", "a, b, c and 1 more"), ("abcdef", "a, b, c and 3 more")):
            outcome = decide("one", [], gaps, has_passed=True)  # each letter is the text of a gap
            kind = outcome and outcome.result and outcome.result["not_judged_kind"]
            self.check(gaps, (kind, outcome and outcome.reason), ("input", f"not recorded: {text}"))

    def test_each_recording_gets_its_verdict(self) -> None:
        feeds = {"right": 2 * self.make_feed(), "wrong": 2 * self.make_feed(is_wrong=True)}
        for row in read_vectors("air-recordings.tsv"):
            name, (first, last) = row["name"], map(int, row["recorded"].split("-"))
            result = self.check_frames(
                feeds[row["feed"]][first * FRAMES_A_SECOND:last * FRAMES_A_SECOND], first,
                int(row["air"]), int(row["early"]), int(row["late"]), waived=row["waived"].split())
            self.check(name, (result.verdict, str(result.is_final)),
                       (row["verdict"], row["is final"]))
            _, _, reason = result.reason.rpartition("/recording.ts ")  # without the path
            self.must(f"{name}: reason", reason.startswith(row["reason"]), reason)

    def test_a_result_notes_the_margin_of_its_air_time(self) -> None:
        for is_wrong in (False, True):
            result = self.check_frames(self.make_feed(is_wrong)).result
            self.must(f"{is_wrong}", result and "begun within 60 s of 2026-12-01T08:00:00Z" in
                      result["notes"], result)

    def test_the_reason_of_a_refused_programme_is_its_worst_fault(self) -> None:
        result = {"reason": None, "worst_fault": "refused 72", "line": "refused 67"}
        with mock.patch.object(check, "read_call_result", return_value=result):
            self.check("reason", self.check_frames(self.make_feed()).reason, "refused 72")

    def test_knows_what_later_segments_or_a_corrected_file_may_change(self) -> None:
        for row in read_vectors("outcomes.tsv"):
            faults = [dict(zip(("file", "severity"), fault.split()))
                      for fault in filter(None, row["faults"].split(", "))]
            inputs: dict[str, object] = {"recording": {} if row["recording"] == "read" else None}
            outcome = make_outcome("one", row["verdict"], "", inputs=inputs, faults=faults)
            outcome = outcome._replace(is_finished=row["ended"] == "yes")
            self.check(row["name"], (f"{outcome.is_final}", f"{outcome.has_file_fault}"),
                       (row["is final"], row["has file fault"]))

    def test_a_refused_programme_may_continue_after_the_last_packet(self) -> None:
        for row in read_vectors("exit-statuses.tsv"):
            parts = [SimpleNamespace(packets=SimpleNamespace(count=int(count)), pes=(
                None if last == "-" else (0, int(last)))) for count, last in (
                    part.split("/") for part in row["parts"].split())]
            verdict: Any = SimpleNamespace(
                status=int(row["qc"]), parts=parts, is_final=row["is final"] == "True",
                word=row["verdict"], is_judged=row["verdict"] != "not judged",
                fault_count=int(row["faults"]))
            self.check(row["name"], check.exit_status(verdict), int(row["status"]))

    def test_a_killed_program_gives_no_result(self) -> None:
        for command, reason in (
                ("kill -9 $$", ": check gave no verdict: it printed nothing, status -9"),
                ("kill -9 $PPID", "the process that judged it was killed")):
            program = self.make_program_with_exception("check*", command)
            outcome = self.check_frames(self.make_feed(), program=program)
            self.must(command, outcome.result is None and outcome.reason.endswith(reason), outcome)

    def test_a_refusal_because_of_an_invalid_subtitle_file_is_not_final(self) -> None:
        frames = self.make_feed()
        write_subtitle_file(self, [(100, 100, b"Never")])  # it ends when it begins
        result = self.check_frames(frames[:50])
        self.check("verdict, is_final", (result.verdict, result.is_final), ("refused", False))

    def test_stops_a_check_that_takes_too_long(self) -> None:
        program, frames = self.make_program_with_exception("check*", "sleep 60"), self.make_feed()
        rate = len(b"".join(frames)) / 0.4  # so the time limit is 0.8 seconds
        with mock.patch.multiple(check, MIN_SECONDS=0.4, BYTES_PER_SECOND=rate):
            outcome = self.check_frames(frames, program=program)
        self.check("outcome", outcome, Outcome(None, "it was not judged within 1 seconds"))

    def test_reports_while_a_programme_is_judged(self) -> None:
        calls = list[int]()
        with mock.patch.object(check, "REPORT_SECONDS", 0.05):
            status, _ = check.run_forked(sleep_and_return_7, 60, lambda: calls.append(1))
        self.must("status, reports", status == 7 and len(calls) > 3, (status, calls))

    def test_a_disk_without_room_for_the_recording_gives_no_result(self) -> None:
        frames = self.make_feed()  # is copied twice, since all of it is within the margin
        with mock.patch.object(check, "SPARE_BYTES", 1 << 60):  # bytes that must stay free
            outcome = self.check_frames(frames)
        needed = f"{2 * len(b''.join(frames)) + (1 << 60):,} bytes"
        self.check("outcome", outcome, Outcome(None, f"no room in {self.path('out')} for {needed}"))

    def test_a_segment_that_is_truncated_meanwhile_gives_no_result(self) -> None:
        real = UnbrokenRun.read

        def read(stretch: UnbrokenRun, begin: float, end: float) -> Iterator[bytes]:
            os.truncate(stretch.segments[0].path, 5000)
            return real(stretch, begin, end)

        with mock.patch.object(UnbrokenRun, "read", read):
            outcome = self.check_frames(self.make_feed())
        reason = f": {self.path('segments')}/{make_segment_name(DAY)}: it became shorter"
        self.must("outcome", outcome.result is None and outcome.reason.endswith(reason), outcome)


class Calls(Feeds):
    def write_schedule_line(self, begin: float) -> None:
        date = datetime.datetime.fromtimestamp(begin, datetime.timezone.utc)
        self.write_schedule(f"{date:%Y-%m-%dT%H:%M:%SZ} one.stl")

    def make_judge_command(self, *args: str) -> list[str]:
        return [get_tool_path("air"), "judge", self.path("schedule"), self.path("segments"), "-o",
                self.path("out"), "-p", self.bench.program, *args]

    def judge_recorded_feed(self, is_wrong: bool, *options: str) -> list[str]:
        """Record a feed, let its segments begin 200 seconds ago, and judge one.stl, which is
        scheduled 120 seconds ago, with a margin of 110 seconds. Return the endings of the
        files in `out`, in which there is no state.json, since `setUp` replaces `write_state`."""
        now = time.time()
        process = self.tool("air", "record", self.path("segments"), "--free", "0",
                            data=b"".join(self.make_feed(is_wrong)))
        self.check("record", (process.status, process.errors), (0, []))
        self.write_schedule_line(now - 120)
        names = sorted(name for name in os.listdir(self.path("segments")) if name.endswith(".ts"))
        for number, name in enumerate(names):
            path = self.path(f"segments/{make_segment_name(now - 200 + number)}")
            os.rename(self.path(f"segments/{name}"), path)
            os.utime(path, (now, now))
        process = self.call(self.make_judge_command("--once", "--margin", "110", *options))
        self.check("judge", (process.status, process.errors), (0, []))
        return sorted(os.path.splitext(name)[1] for name in os.listdir(self.path("out")))

    def test_records_a_file(self) -> None:
        self.write("feed.ts", b"feed")
        process = self.call(["sh", "-c", 'exec "$0" record segments --free 0 <feed.ts',
                             get_tool_path("air")])
        names = os.listdir(self.path("segments"))
        self.check("segments", (process.status, [self.read(f"segments/{name}") for name in names]),
                   (0, [b"feed"]))

    def test_judges_a_recorded_feed(self) -> None:
        for is_wrong, verdict in ((False, "relative"), (True, "refused")):
            self.delete_all("segments", "out")
            endings = self.judge_recorded_feed(is_wrong, "--keep", "--work", self.path("new/work"))
            self.check("verdicts", [*self.verdicts().values()], [verdict])
            self.check("--keep", endings, [".html", ".json", ".pes", ".txt"])

    def test_deletes_only_the_temporary_files_of_earlier_calls(self) -> None:
        os.makedirs(self.path("out/.work-of-an-earlier-call"))
        self.write("out/.work-of-an-earlier-call/other.json", b"{}")
        for name in (".subttx-of-an-earlier-call", "a.subttx-b", "a.work-b"):
            self.write(f"out/{name}", b"")
        self.check("endings", self.judge_recorded_feed(is_wrong=False),
                   [".html", ".json", ".subttx-b", ".txt", ".work-b"])

    def test_writes_one_result_although_the_judge_is_killed(self) -> None:
        """The judge is killed before the programme, in it and after it."""
        frames = self.make_feed()
        recorder = self.start(subprocess.PIPE, "record", self.path("segments"), "--length", "2",
                              "--free", "0")
        assert recorder.stdin
        wait_until(lambda: os.path.exists(self.path("segments/.recorder.lock")))
        begin = time.time() + 2
        self.write_schedule_line(begin + LEAD_SECONDS - 1)
        judge = self.start_judge()
        for number, frame in enumerate(frames):
            time.sleep(max(begin + number / FRAMES_A_SECOND - time.time(), 0))
            os.write(recorder.stdin.fileno(), frame)
            if number in (60, 200, 420):
                judge.kill()
                judge.wait()
                judge = self.start_judge()
        wait_until(lambda: self.verdicts())
        recorder.stdin.close()
        self.check("the recorder ends with the feed", recorder.wait(SECONDS), 0)
        judge.terminate()
        self.check("a signal ends the judge", judge.wait(SECONDS), 2)
        self.check("results", [*self.verdicts().values()], ["relative"])
        self.check("programmes that wait", json.loads(self.read("out/state.json"))["waiting"], 0)

    @staticmethod
    def start(source: int, *args: str) -> subprocess.Popen[bytes]:
        return subprocess.Popen([sys.executable, get_tool_path("air"), *args], stdin=source,
                                stdout=subprocess.DEVNULL, stderr=subprocess.DEVNULL)

    def start_judge(self) -> subprocess.Popen[bytes]:
        return self.start(subprocess.DEVNULL, *self.make_judge_command(
            "--margin", "120", "--pause", "60", "--every-seconds", "1")[1:])

    def test_reports_wrong_arguments_in_one_line(self) -> None:
        rows: dict[str, tuple[int, str]] = {  # arguments, exit status and message
            "": (64, "the first argument must be record, judge or status"),
            "watch": (64, "the first argument must be record, judge or status"),
            # A service tries this again: the folder may be on a disk that is mounted later.
            "judge schedule nothing -o o": (2, "nothing is not a folder: start `record` first, or "
                                               "give its folder"),
            "judge schedule segments": (64, "the following arguments are required: -o"),
            "record segments --keep 0": (64, "argument --keep: 0 is not a number of hours: give 1 "
                                             "to 99999")}
        for line, (status, message) in rows.items():
            process = self.tool("air", *line.split())
            self.check(line or "none", (process.status, process.errors),
                       (status, [f"air: {message}"]))

    def test_records_with_limits_in_seconds_and_bytes(self) -> None:
        for options, limits in (("", (10, 48 * 3600, 1_000_000_000)),
                                ("--length 7 --keep 3 --free 5", (7, 3 * 3600, 5_000_000))):
            with mock.patch.object(main, "record") as record:
                main.main("", ["record", self.path("feed"), *options.split()])
            self.check(f"limits {options}", record.call_args[0][2], limits)

    def test_the_help_names_the_default_of_each_number(self) -> None:
        for make_parser in (main.make_record_parser, main.make_judge_parser,
                            main.make_status_parser):
            for action in make_parser()._actions:
                if type(action.default) is int:
                    self.must(f"{action.option_strings}", f"(default: {action.default})" in
                              f"{action.help}", action.help)

    def test_refuses_a_folder_that_another_call_writes(self) -> None:
        self.write("schedule", b"")
        # The name of the lock that another call holds, its folder, the call, and its message
        for name, folder, line, message in (
                ("recorder", "segments", "air record segments", "feed is being recorded in"),
                ("state", "out", "air judge schedule segments -o out", "service is judging into"),
                ("state", "out", "qc --watch segments -o out", "service is judging into")):
            with hold_lock(self.path(folder), name, ""):
                process = self.tool(*line.split())
            self.check(line, (process.status, process.errors),
                       (2, [f"{line.split()[0]}: another {message} {folder}"]))
