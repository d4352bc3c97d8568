"""Test the schedule of tools/air, the state of its services, and `tools/air status`."""
from __future__ import annotations

import contextlib
import io
import json
import os
import re
import time
from typing import Callable, Sequence
from unittest import mock

from developing.stl import make_box_line, make_gsi_block, make_subtitle_blocks
from subtitles.air import judge, main as air_main
from subtitles.air.delivery import Delivery, read_delivery
from subtitles.air.status import CRITICAL, UNKNOWN, name_feeds, print_status
from subtitles.cli import batch, main as qc_main
from subtitles.cli.single import now as date
from subtitles.cli.state import BUG_LOG, State, log_bug, write_state
from subtitles.common.command_line import run_main, Stop
from subtitles.formats.stl import GSI, TTI
from subtitles.request.request import Request
from .air import AirCase, DAY, OLD_MTIME
from .bench import Case
from .stories import Story, read_files, read_vectors


def format_seconds(time: float | None) -> str:
    return "None" if time is None else f"{time - DAY:.15g}"


class Lines(AirCase):
    """A schedule that was last changed at the time OLD_MTIME, long before DAY."""

    def read_lines(self, text: str, now: float = DAY) -> list[str]:
        """Write and read a schedule. Return `NAME BEGIN END` for each programme, then the faults.
        """
        self.write("schedule", text.encode())
        schedule = self.read_schedule(now=now)
        return [*(f"{item.name} {format_seconds(item.begin)} {format_seconds(item.end)}"
                  for item in schedule.programmes), *schedule.faults]

    @mock.patch.dict(os.environ, TZ="CET-1CEST,M3.5.0,M10.5.0/3")  # Berlin
    def test_reads_each_line(self) -> None:
        self.addCleanup(time.tzset)
        time.tzset()
        for row in read_vectors("schedule-lines.tsv"):
            fault = f"line 1: {row['fault']}" if row["fault"] else ""
            self.check(row["name"], self.read_lines(row["line"] + "\n"),
                       [*filter(None, (row["programme"], fault))])

    def test_ignores_a_line_without_a_line_end_for_a_minute_after_the_last_change(self) -> None:
        text = "".join(f"2026-12-01T08:00:00Z news{number}.stl --page 889\n" for number in range(3))
        for end in range(len(text) + 1):
            count = text[:end].count("\n")
            self.check(f"{end} bytes", self.read_lines(text[:end], now=OLD_MTIME + 59), [
                f"20261201T080000Z-news{number}-889 0 None" for number in range(count)])
        self.check("a minute", len(self.read_lines(text[:-1], now=OLD_MTIME + 60)), 3)

    def test_reads_each_kind_of_line_end(self) -> None:
        lines = ["2026-12-01T08:00:00Z a.stl", "2026-12-01T08:00:00Z b.stl"]
        for end in ("\n", "\r\n", "\r"):
            self.check(repr(end), len(self.read_lines(end.join(lines) + end, now=OLD_MTIME)), 2)

    def test_judges_the_first_of_several_lines_with_the_same_name(self) -> None:
        for frames in ([1, 50], [50, 1], [2, 1, 3]):  # values of --within, beginning with line 2
            self.write_schedule("# a comment", *(
                f"2026-12-01T08:00:00Z a.stl --within {within}" for within in frames))
            schedule = self.read_schedule()
            self.check(f"{frames}: judged", [(item.name, item.request.within)
                                             for item in schedule.programmes],
                       [("20261201T080000Z-a", frames[0])])
            self.check(f"{frames}: reported", [*schedule.faults], [
                f"line {number} is not judged: its result would be named 20261201T080000Z-a, as "
                "that of line 2" for number, _ in enumerate(frames[1:], 3)])

    def test_finds_the_profile_of_a_line_in_the_folder_of_the_schedule(self) -> None:
        self.write("profile", b"--within 3")
        self.write_schedule("2026-12-01T08:00:00Z a.stl --profile profile")
        self.check("within", self.read_schedule().programmes[0].request.within, 3)

    def test_finds_the_severity_file_of_a_line_in_the_folder_of_the_schedule(self) -> None:
        self.write("profile", b"--severity from-profile")
        for options, expected in (("--severity own", self.path("own")), ("", None), (
                "--severity=/own --profile profile", "/own"), (
                "--profile profile", self.path("from-profile"))):
            self.write_schedule(f"2026-12-01T08:00:00Z a.stl {options}")
            self.check(options, self.read_schedule().programmes[0].request.severity, expected)

    def test_reads_the_profile_of_a_line_again_after_a_minute(self) -> None:
        self.write_schedule("2026-12-01T08:00:00Z a.stl --profile profile")
        schedule = self.read_schedule()
        self.check("no profile", len(schedule.faults), 1)
        for now, text, expected in ((59, b"--within 3", []), (60, b"--within 3", [3]),
                                    (119, b"--within 5", [3]), (120, b"--within 5", [5])):
            self.write("profile", text)
            schedule = self.read_schedule(schedule, DAY + now)
            self.check(f"at {now}", [item.request.within for item in schedule.programmes], expected)

    def test_does_not_parse_an_unchanged_schedule_again(self) -> None:
        self.write_schedule("2026-12-01T08:00:00Z a.stl")
        first = self.read_schedule()
        self.must("the same", self.read_schedule(first) is first)


class Lengths(AirCase):
    """A schedule with one line, about the subtitle file one.stl."""

    def read_request(self, options: str = "") -> Request:
        self.write_schedule(f"2026-12-01T08:00:00Z one.stl {options}")
        item, = self.read_schedule().programmes
        return item.request

    def read_delivery(self, options: str = "", now: float = DAY) -> Delivery:
        """Write the line with options, and return the state of its subtitle file."""
        return read_delivery(self.read_request(options), now, settled=60)

    def write_stl(self, *times: tuple[int, int]) -> bytes:
        """Write one.stl with a subtitle for each TCI and TCO in frames. Return its bytes."""
        blocks = [make_subtitle_blocks(number, begin, end, 20, 2, make_box_line(b"One"))
                  for number, (begin, end) in enumerate(times)]
        data = make_gsi_block(b"one", len(times), len(times), 0) + b"".join(blocks)
        self.write("one.stl", data)
        return data

    def test_a_programme_lasts_from_first_tci_to_last_tco(self) -> None:
        for row in read_vectors("programme-lengths.tsv"):
            self.write_stl(*((int(tci), int(tco)) for tci, _, tco in (
                subtitle.partition("-") for subtitle in row["subtitles"].split())))
            delivery = self.read_delivery(row["options"])
            self.check(row["name"], (delivery.fault, delivery.content.length),
                       ("", float(row["seconds"])))

    def test_an_invalid_file_has_no_length(self) -> None:
        self.write("one.stl", b"no subtitle file" * 99)
        delivery = self.read_delivery()
        self.check("length", (delivery.fault, delivery.content.length), ("", 0.0))

    def test_waits_for_all_blocks_of_a_file(self) -> None:
        data = self.write_stl((0, 250), (500, 1000))
        for size in range(0, len(data), 64):
            self.write("one.stl", data[:size])
            what = "ends in its GSI block" if size < GSI else \
                f"announces 2 blocks (TNB) and has {(size - GSI) // TTI}"
            self.check(f"{size} bytes", self.read_delivery().fault,
                       f"the subtitle file is incomplete: it {what}; copy it again, or create "
                       f"{self.path('one.done')}")

    def test_waits_until_a_file_is_unchanged_for_a_minute(self) -> None:
        self.write_stl((0, 250), (500, 1000))
        os.utime(self.path("one.stl"), (DAY, DAY))
        for seconds, expected in ((-3600, self.changed), (0, self.changed), (59, self.changed),
                                  (60, "")):
            self.check(f"{seconds} seconds later", self.read_delivery(now=DAY + seconds).fault,
                       expected)

    def test_waits_for_a_minute_for_a_file_from_the_future(self) -> None:
        """The clock was three days ahead when the file was written, so only monotonic time shows
        for how long it is unchanged."""
        self.write_stl((0, 250), (500, 1000))
        os.utime(self.path("one.stl"), (DAY, DAY))
        request = self.read_request()
        for seconds, expected in ((0, self.changed), (59, self.changed), (60, "")):
            with mock.patch.object(time, "monotonic", lambda: 1e9 + seconds):
                self.check(f"{seconds} seconds after it was first read", read_delivery(
                    request, DAY - 3 * 86_400, settled=60).fault, expected)

    @property
    def changed(self) -> str:
        return f"{self.path('one.stl')} was changed at 2026-12-01T08:00:00Z and may still be " \
            "incomplete"

    def test_a_done_file_marks_a_complete_file(self) -> None:
        data = self.write_stl((0, 250), (500, 1000))
        self.write("one.stl", data[:-TTI])
        self.write("one.done", b"")
        self.check("fault", self.read_delivery().fault, "")

    def test_a_done_file_that_is_older_than_its_file_marks_nothing(self) -> None:
        self.write_stl((0, 250), (500, 1000))
        self.write("one.done", b"")
        os.utime(self.path("one.stl"), (DAY, DAY))
        self.check("fault", self.read_delivery().fault, self.changed)


# A state of `air judge` without alarms. Its alarms `schedule` and `page 888` are only warnings.
STATE: dict[str, object] = {
    "alarms": [], "warnings": ["schedule", "page 888"],
    "free_bytes": {"segments": 5, "results": 7}, "last_byte": None,
    "last_header": {"888": None}, "waiting": 0, "late": [], "segments": 1, "last_result": ""}


@mock.patch.dict(os.environ, TZ="EAST-5")  # five hours ahead of UTC, in which states have dates
class Status(Case):
    def print_status(self, row: Story, *outs: str) -> tuple[int, str]:
        """Write the state of a row to the folder `feed`. Return the exit status and the output for
        folders, the last of them `feed`, and write the metrics."""
        state: dict[str, object] = {**STATE, "date": date(DAY), **json.loads(row["changes"])}
        self.write("feed/state.json", json.dumps(state).encode())
        with mock.patch.object(time, "time", lambda: DAY + float(row["age"])), \
                contextlib.redirect_stdout(io.StringIO()) as out:
            status = print_status([*outs, self.path("feed")], 60, self.path("metrics"))
        return status, out.getvalue()

    def test_prints_the_state_and_ends_with_the_status_of_nagios(self) -> None:
        os.mkdir(self.path("feed"))
        for row in read_vectors("air-statuses.tsv"):
            name, status = row["name"], int(row["status"])
            result, text = self.print_status(row)
            self.check(name, (result, text.replace(f"{self.folder}/", "")),
                       (status, f"{row['line']}\n"))
            self.check(f"{name}, and another folder has no state", self.print_status(
                row, self.path("nothing"))[0], CRITICAL if status == CRITICAL else UNKNOWN)

    def test_writes_the_metrics_of_all_feeds(self) -> None:
        os.mkdir(self.path("feed"))
        row, = (row for row in read_vectors("air-statuses.tsv") if row["name"] == "all members")
        self.print_status(row, self.path("nothing"))
        (_, metrics), = read_files("air-metrics.txt")
        self.check("metrics", self.read("metrics").decode(), metrics)

    def test_a_watched_folder_has_no_metrics_of_a_feed(self) -> None:
        """The state of `qc --watch` is from 2009, with 5 free bytes and a refused film."""
        feed, state = 'the "news"', State()
        os.mkdir(self.path(feed))
        blocks = mock.Mock(f_bavail=1, f_bfree=9, f_frsize=5)  # only root may fill all free blocks
        with mock.patch.object(os, "statvfs", return_value=blocks):
            state.look_at_folders(1_234_567_890.0, results=self.path(feed))
        state.waiting = 2
        state.add_result("news", "refused", "refused: 38 | Spacing")
        state.add_result("film", "refused", "refused: 72 | RowMissing")
        write_state(self.path(feed), state.make_contents())
        process = self.tool("air", "status", self.path(feed), "--metrics", self.path("metrics"))
        self.check("line", re.sub("[0-9]{9,}", "AGE", process.out.decode()),
                   f"SUBTTX CRITICAL: {feed}: no news for AGE s, disk; last result: film: refused: "
                   "72 / RowMissing|age=AGEs waiting=2 late=0 free_results=5B\n")
        lines = self.read("metrics").decode().replace(r'feed="the \"news\""', "").splitlines()
        self.check("metrics", [line for line in lines if not line.startswith("# ")], [
            "subttx_air_date_timestamp_seconds{} 1234567890",
            'subttx_air_alarm{,alarm="disk"} 1',
            'subttx_air_alarm{,alarm="bug"} 0', 'subttx_air_free_bytes{,folder="results"} 5',
            "subttx_air_waiting{} 2", "subttx_air_late{} 0",
            'subttx_air_results_total{,verdict="refused"} 2', "subttx_air_status{} 2"])

    def test_names_a_feed_by_its_folder_unless_two_have_the_same_name(self) -> None:
        self.check_rows(name_feeds, {
            "channels": ((["/a/news/results", "/a/film/results/"],), ["news", "film"]),
            "watched folders": ((["/a/out"],), ["out"]),
            "two of one name": ((["/a/out", "/b/out"],), ["/a/out", "/b/out"])})


class Bugs(Case):
    """`air record`, `air judge` and `qc --watch`, each of which an exception ends."""

    def setUp(self) -> None:
        super().setUp()
        for name in ("in", "segments", "out"):
            os.mkdir(self.path(name))
        self.write("schedule", b"")

    def check_services(self, error: Exception, status: int, has_alarm: Sequence[bool]) -> None:
        """Run each service until a function that it calls raises `error`. Check its exit status,
        and whether the alarm `bug` is active a second, almost a day and more than a day later. If
        it ever is, check that bug.log has the message."""
        options = ["-o", self.path("out"), "-p", "/bin/true"]
        services: dict[str, tuple[object, str, Callable[[], int], str]] = {
            "record": (air_main, "record", lambda: air_main.main(
                "", ["record", self.path("segments")]), "segments"),
            "judge": (judge.Judge, "look", lambda: air_main.main(
                "", ["judge", self.path("schedule"), self.path("segments"), *options]), "out"),
            "--watch": (batch, "find_folder_pairs", lambda: qc_main.main(
                "", "tools/qc", ["--watch", self.path("in"), *options]), "out")}
        now = time.time()
        for name, (module, function, service, folder) in services.items():
            with mock.patch.object(module, function, side_effect=error), \
                    mock.patch("signal.signal"), contextlib.redirect_stderr(io.StringIO()) as told:
                self.check(f"{name}: status", run_main(lambda words: service(), []), status)
            state, alarms = State(), list[bool]()
            for seconds in (1, 86_400 - 10, 86_400 + 100):
                state.look_at_folders(now + seconds, a=self.path(folder), b=self.path("in"))
                alarms.append(state.find_alarms()["bug"])
            self.check(f"{name}: alarms", alarms, [*has_alarm])
            if any(has_alarm):
                text = self.read(f"{folder}/{BUG_LOG}").decode()
                _, _, message = text.partition("  ")  # without the date
                self.must(f"{name}: message", message and message in told.getvalue(), text)
                os.unlink(self.path(f"{folder}/{BUG_LOG}"))

    def test_a_bug_in_a_service_is_an_alarm_for_a_day(self) -> None:
        self.check_services(ValueError("\x1b"), status=70, has_alarm=[True, True, False])

    def test_a_missing_folder_hides_no_bug(self) -> None:
        """The folder of a service was deleted. The service ends with its bug all the same."""
        write_state(self.path("none"), {})
        with self.assertRaises(KeyError), log_bug(self.path("none")):
            raise KeyError("x")

    def test_a_missing_file_is_no_bug(self) -> None:
        self.check_services(Stop("there is no such file"), status=2, has_alarm=[False] * 3)
