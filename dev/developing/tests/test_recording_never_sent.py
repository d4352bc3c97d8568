"""Test how a recording is read, and recordings whose PMT announces a page that is never sent."""
from __future__ import annotations

import dataclasses
import itertools
import json
import stat
import subprocess
from types import SimpleNamespace
from typing import Any, Mapping, Sequence
from unittest import mock

from developing.pes import decode_pts, make_pes_packet
from subtitles.common.command_line import ReportedError
from subtitles.common.times import CLOCK, find_frame_of_day, TICKS
from subtitles.recording.notices import (
    Announcement, explain_never_sent, find_announcements, find_origin, find_recorded_time,
    find_silent_pids, find_timing_notices, find_unsent, is_all_read, is_page_expected, NeverSent,
    Notice, refuse_other_pid, refuse_unsent_page)
from subtitles.recording.recording import Recording, refuse_stream
from subtitles.request.commands import OutputNames
from subtitles.request.request import Unclear
from subtitles.stream.gaps import SECOND
from subtitles.stream.packets import GapMarker, PacketRun, Packets, PES
from subtitles.stream.survey import Survey
from .bench import Case
from .judged import judge_files, JudgedPair, ProgrammeCase
from .parts import make_example_request, make_packets, read_survey
from .stories import read_vectors
from .streams import (
    CarriedPackets, make_planned_stream, multiplex_programmes, NEW, OLD, Programme, VIDEO_PID)
from .test_correct_recordings import make_service_stream
from .test_formats_files import refusal
from .test_judging_pairs import damage_packet
from .transmissions import join_pes_packets, packets, PAGE, SentPes, write_programme

FIRST_PID, SECOND_PID, THIRD_PID = 257, 258, 259
# Lines of `survey` for the second PID: all of its 9 TS packets are scrambled, or it has a PES
# packet of Teletext and then data other than Teletext (fault 31).
SCRAMBLED_SECOND = f"end {SECOND_PID} 0 0 9 9 0 0 -"
READ_SECOND = [f"pes {SECOND_PID} 0 1 {SECOND} 0 -/ 1 0", f"end {SECOND_PID} 0 0 9 9 31 0 -"]


def list_announcements(*lines: str) -> list[Announcement]:
    return [*find_announcements(read_survey(*lines).programmes, PAGE)]


def make_pmt_lines(number: int, *pids: int, clock: int = 100, page: str = "888") -> list[str]:
    """Return lines of `survey`: a PMT with the PCR PID `clock` announces a page on PIDs."""
    return [f"programme {number} {clock}", *(line for pid in pids for line in (
        f"stream {pid} 6", f"announce {pid} {page} 656e67 2"))]


class Announcements(Case):
    """Recordings in which PMTs announce the page 888 on some PIDs, in lines of `survey`."""

    def test_finds_when_a_pmt_announces_the_page(self) -> None:
        self.check("PIDs, and PCRs of the first and the next PMT", list_announcements(
            *make_pmt_lines(1, FIRST_PID), f"pcr 100 {SECOND}", *make_pmt_lines(1, SECOND_PID),
            f"pcr 100 {9 * SECOND}", *make_pmt_lines(2, THIRD_PID, clock=200),
            *make_pmt_lines(1, FIRST_PID, page="150")), [
            Announcement(1, frozenset({FIRST_PID}), begin=None, end=SECOND),
            Announcement(1, frozenset({SECOND_PID}), begin=SECOND, end=9 * SECOND),
            Announcement(2, frozenset({THIRD_PID}), begin=None, end=None)])

    def test_warns_of_pts_behind_the_pcr(self) -> None:
        # One of three samples is behind, in a frame of the day or before the first one.
        for origin, frame in itertools.product((0, CLOCK - 60 * TICKS), (50, 90, -5)):
            pts = (origin + frame * TICKS) % CLOCK
            packets = Packets(1, samples=[(pts, -SECOND // 10), (pts, 9), (pts, 9)])
            time = None if frame < 0 else f"00:00:{frame // 25:02}:{frame % 25:02}"
            where = f"from {time or f'PTS {pts}'} on"
            self.check(f"{origin} {frame}", [*find_timing_notices(packets, origin)], [Notice(
                "pts_behind", f"{where}, the Teletext PTS are behind the PCR (by up to "
                "0.10 s, in 1 of 3 samples)", time)])

    def test_finds_an_announced_page_that_is_not_sent(self) -> None:
        begin, end = 10 * SECOND, 20 * SECOND
        own = Announcement(1, frozenset({FIRST_PID}), None, None)
        other = Announcement(1, frozenset({SECOND_PID}), None, None)
        both = Announcement(1, frozenset({FIRST_PID, SECOND_PID}), None, None)
        foreign = Announcement(2, frozenset({SECOND_PID}), None, None)
        # Announcements, the PIDs with the page from second 10 to 20, and the announcement of a
        # missing page. It must begin more than 2 s before second 20, and end 2 s after second 10.
        rows: list[tuple[str, Sequence[Announcement], set[int], Announcement | None]] = [
            ("sent", [own], {FIRST_PID}, None), ("sent elsewhere", [other], {FIRST_PID}, other),
            ("one of two", [both], {FIRST_PID}, None), ("sent by none", [other], set(), None),
            ("another programme", [own, foreign], {FIRST_PID}, None),
            ("one of two, another programme", [both, foreign], {FIRST_PID}, None),
            ("no programme announces it", [foreign], {FIRST_PID}, foreign),
            ("nothing announced", [], {FIRST_PID}, None),
            *((f"from {first} to {last}", [own, item], {FIRST_PID}, item if is_in else None)
              for first, last, is_in in (
                  (None, 12.5, True), (None, 12, False), (None, 9, False), (17.5, None, True),
                  (18, None, False), (25, None, False), (5, 30, True), (12, 15, True))
              for item in [Announcement(1, frozenset({SECOND_PID}),
                                        int(first * SECOND) if first else None,
                                        int(last * SECOND) if last else None)])]
        for name, announced, carriers, expected in rows:
            self.check(name, find_unsent(announced, carriers, begin, end), expected)
            shifted = [item._replace(begin=item.begin and (item.begin - 15 * SECOND) % CLOCK,
                                     end=item.end and (item.end - 15 * SECOND) % CLOCK)
                       for item in announced]
            unsent = find_unsent(shifted, carriers, (begin - 15 * SECOND) % CLOCK, 5 * SECOND)
            self.check(f"{name}: over the wrap", unsent is None, expected is None)

    def test_names_the_pids_of_a_page_that_was_never_sent(self) -> None:
        known = Survey()
        known.by_pid = {FIRST_PID: Packets(FIRST_PID, packets=5), THIRD_PID: Packets(THIRD_PID)}
        for row in read_vectors("never-sent.tsv"):
            pids, carriers = ([int(pid, 16) for pid in row[column].split()]
                              for column in ("announced", "carriers"))
            self.check(row["announced"], explain_never_sent(known, PAGE, pids, carriers),
                       row["message"])

    def test_finds_programmes_that_never_send_the_page(self) -> None:
        for row in read_vectors("silent-programmes.tsv"):
            name, lines = row["name"], list[str]()
            for number, *pids in map(str.split, row["announced"].split(", ")):
                lines += make_pmt_lines(int(number), *(int(pid, 16) for pid in pids))
            carriers, expected = ({int(pid, 16) for pid in row[column].split()}
                                  for column in ("carriers", "silent"))
            self.check(name, find_silent_pids(list_announcements(*lines), carriers), expected)
            for pes in (None, (0, 9)):  # --pes decides which programme is meant
                commands = [f"--pid 0x{pid:X}" for pid in sorted(carriers | expected)]
                self.check(f"{name}: commands with --pes {pes}", self.describe_unclear(
                    lines, carriers, pes), commands if expected and pes is None else None)

    def describe_unclear(self, lines: list[str], carriers: set[int], pes: tuple[int, int] | None) \
            -> list[str] | None:
        """Return the commands that qc suggests, or `None` if it knows which programme is meant."""
        recording = mock.Mock(survey=read_survey(*lines), request=mock.Mock(page=PAGE, pes=pes),
                              said=str, suggest_call=lambda *words: " ".join(words))
        try:
            Recording.refuse_silent_programmes(recording, carriers)
        except Unclear as reason:
            return [*reason.commands]
        return None

    def test_expects_the_page_if_a_subtitle_is_recorded(self) -> None:
        subtitles = [(100, 150), (500, 600)]
        # The first and the last frame of the recording, and its origin. If it is unknown (`None`),
        # the recording must be as long as from the first TCI to the last TCO: 500 frames.
        for first, last, origin, expected in (
                (0, 1000, 0, True), (100, 150, 0, True), (101, 599, 0, False),
                (100, 149, 0, False), (500, 600, 0, True), (160, 490, 0, False),
                (601, 9999, 0, False), (0, 90, 0, False), (0, 500, None, True),
                (7, 507, None, True), (0, 499, None, False)):
            for shift in (0, CLOCK - 300 * TICKS):
                clock = (shift + first * TICKS) % CLOCK, (shift + last * TICKS) % CLOCK
                result = is_page_expected(clock, subtitles, None if origin is None else shift)
                self.check(f"{first} {last} {origin} {shift}", result, expected)
        self.must("no PCR", not is_page_expected(None, subtitles, 0))
        self.must("no subtitle", not is_page_expected((0, CLOCK // 2), [], 0))

    def test_a_recording_is_all_read_without_loss_damage_and_refused_pes_packets(self) -> None:
        run, markers = PacketRun(0, 1, 0, 0, "-", ""), [GapMarker(9, 0, 1, 0)]
        rows: list[tuple[dict[str, Any], bool]] = [
            ({}, True), ({"gap_markers": markers}, False), ({"damage": "is damaged"}, False),
            ({"refusal": 31}, False), ({"runs": [run, run._replace(fault=33)]}, False),
            ({"runs": [run, run._replace(pts=None)]}, False)]
        for more, expected in rows:
            given: dict[str, Any] = {"runs": [run], **more}
            self.check(f"{more}", is_all_read(Packets(1, **given)), expected)

    def test_without_a_pcr_only_one_time_base_shows_the_recorded_time(self) -> None:
        rows: list[tuple[list[int], object]] = [
            ([5, 6, 7], (5, 7)), ([5, 6, 7, 0, 1], None), ([], None)]
        for pts, expected in rows:
            self.check(f"{pts}", find_recorded_time(Survey(), make_packets(pts)), expected)

    def check_refusals(self, rows: Mapping[str, tuple[list[str], list[str], bool]], is_sent: bool
                       ) -> None:
        """Check which recordings of 60 s are refused. The rows have lines of `survey`, arguments,
        and whether the recording is refused. A subtitle is expected in frames 100 to 150. `is_sent`
        says whether some PID carries the page."""
        for name, (lines, words, is_refused) in rows.items():
            survey, reason = read_survey(*lines, "pcr 100 0", f"pcr 100 {60 * SECOND}"), ""
            request = make_example_request("a.stl", "a.ts", *words)
            try:
                if is_sent:
                    refuse_other_pid(request, survey, SECOND, 9 * SECOND)
                else:
                    refuse_unsent_page(request, survey, [(100, 150)])
            except NeverSent as refused:
                reason = str(refused)
            self.check(f"{name}: {reason}", bool(reason), is_refused)

    def test_refuses_a_page_that_is_sent_nowhere(self) -> None:
        first, second = make_pmt_lines(1, FIRST_PID), make_pmt_lines(1, SECOND_PID)
        both = make_pmt_lines(1, FIRST_PID, SECOND_PID)
        # A programme whose PCRs, on PID 200, are only a second apart
        short, of_short = ["pcr 200 0", f"pcr 200 {SECOND}"], make_pmt_lines(
            1, FIRST_PID, clock=200)
        # The video of any programme, whose first picture has the PTS 90 s.
        picture = [f"stream {THIRD_PID} 2", f"video {THIRD_PID} 0",
                   f"picture {THIRD_PID} {90 * SECOND}"]
        self.check_refusals({
            "announced on a PID without packets": (first, [], True),
            "announced on the given PID": (second, ["--pid", f"{SECOND_PID}"], True),
            "announced on another PID than the given one": (first, ["--pid", f"{SECOND_PID}"],
                                                            False),
            "its PID is scrambled": ([*second, SCRAMBLED_SECOND], [], False),
            "one of its PIDs is scrambled": ([*both, SCRAMBLED_SECOND], [], False),
            "another PID is scrambled": ([*first, SCRAMBLED_SECOND], [], True),
            "its PID has Teletext, then other data": ([*second, *READ_SECOND], [], True),
            "one of its PIDs has Teletext, then other data": ([*both, *READ_SECOND, *short], [],
                                                              True),
            "the second of two programmes is short": (
                [*first, *make_pmt_lines(2, SECOND_PID, clock=200), *short], [], True),
            "the first of two programmes is short": (
                [*of_short, *make_pmt_lines(2, SECOND_PID), *short], [], True),
            "the only programme is too short for a subtitle": ([*of_short, *short], [], False),
            "a picture without --start": ([*first, *picture], [], True),
            "--start without a picture": (first, ["--start", "00:00:00:00"], True),
            "by --start, all subtitles are later": (
                [*first, *picture], ["--start", "00:00:00:00"], False),
            "by --start, the first picture is after a subtitle": (
                [*first, *picture], ["--start", "00:01:30:00"], True)}, is_sent=False)

    def test_a_reading_expects_a_page_without_knowing_its_subtitles(self) -> None:
        survey = read_survey(*make_pmt_lines(1, FIRST_PID))
        request = make_example_request("a.stl", "a.ts")
        refuse_unsent_page(request, survey, ())
        with self.assertRaises(NeverSent):
            refuse_unsent_page(dataclasses.replace(request, is_reading=True), survey, ())

    def test_the_clock_is_unknown_if_the_subtitle_file_has_no_tcp(self) -> None:
        stl = self.write("none.stl", b" " * 1024)
        request = make_example_request(stl, "a.ts", "--start", "tcp")
        survey = read_survey(*make_pmt_lines(1, FIRST_PID), f"stream {THIRD_PID} 2",
                             f"video {THIRD_PID} 0", f"picture {THIRD_PID} {90 * SECOND}")
        self.check("origin", find_origin(request, survey, FIRST_PID), None)

    def test_refuses_a_page_that_is_sent_on_another_pid(self) -> None:
        sent = [f"pes {FIRST_PID} 0 1 {SECOND} 0 h/ 1 0"]
        second = make_pmt_lines(1, SECOND_PID)
        self.check_refusals({
            "announced on a PID without packets": ([*sent, *second], [], True),
            "announced on a PID with other Teletext": ([*sent, READ_SECOND[0], *second], [], True),
            "announced on a scrambled PID": ([*sent, *second, SCRAMBLED_SECOND], [], False),
            "one of the announced PIDs is scrambled": (
                [*sent, *make_pmt_lines(1, SECOND_PID, THIRD_PID), SCRAMBLED_SECOND], [], False),
            "the given PID sends it": ([*sent, *second], ["--pid", f"{FIRST_PID}"], False)},
            is_sent=True)


class JudgedStreams(ProgrammeCase):
    """Streams whose PMT announces page 888, mostly on PID 0x111 (NEW), which has no row of it."""

    qc_args = ()

    def judge_planned_stream(self, plan: Sequence[tuple[int, int]], sent: CarriedPackets,
                             *args: str, count: int | None = None) -> JudgedPair:
        return self.judge_stream(make_planned_stream(self.pes[:count], plan, sent), *args)

    def send_on_old_pid(self, at: int) -> Sequence[tuple[int, bytes]]:
        return [(OLD, self.pes[at])]

    def send_headers_only(self, at: int) -> Sequence[tuple[int, bytes]]:
        return [(NEW, make_pes_packet(decode_pts(self.pes[at]), []))]

    def check_never_sent(self, name: str, judged: JudgedPair, reason: str) -> None:
        """Check that a pair is refused with the one fault `never sent`, and nothing is judged."""
        result, line = judged.result, "refused never sent"
        self.check(f"{name}: verdict", (judged.timed_verdict, result["status"], result["line"],
                                        result["worst_fault"]), ("refused", 1, line, line))
        faults = [(fault["number"], fault["name"], fault["meaning"]) for fault in result["faults"]]
        self.check(f"{name}: faults", faults, [(None, "never sent", reason)])
        self.check(f"{name}: sentence", judged.verdict.sentence, f"Refused: {reason}.")
        self.check(f"{name}: parts", (result["parts"], result["subtitle_counts"]), ([], None))
        self.must(f"{name}: a checksum", result["inputs"]["recording"]["sha256"])
        self.must(f"{name}: told", any("announces page 888" in line for line in judged.printed))

    def test_refuses_a_page_that_comes_on_another_pid(self) -> None:
        words = "page 888 is announced on PID 0x111, but was never sent (PID 0x111 has no TS " \
            "packet); PID 0x101 has it"
        self.check_never_sent("announced elsewhere",
                              self.judge_planned_stream([(0, NEW)], self.send_on_old_pid), words)
        half = len(self.pes) // 2
        self.check_never_sent("moved", self.judge_planned_stream([(0, OLD), (half, NEW)],
                                                                 self.send_on_old_pid), words)

    def test_accepts_a_page_that_comes_on_the_announced_or_the_given_pid(self) -> None:
        # The indexes of PES packets from which on a PID is announced, and arguments
        rows: dict[str, tuple[list[tuple[int, int]], list[str]]] = {
            "announced": ([(0, OLD)], []), "given": ([(0, NEW)], ["--pid", f"0x{OLD:X}"]),
            "another announced at the end": ([(0, OLD), (len(self.pes) - 1, NEW)], [])}
        for name, (plan, more) in rows.items():
            judged = self.judge_planned_stream(plan, self.send_on_old_pid, "--every", "25", *more)
            self.check(name, judged.timed_verdict, "accepted")

    def test_refuses_headers_without_rows_on_the_announced_pid(self) -> None:
        whole, third = len(self.pes), len(self.pes) // 3
        # How many PES packets are recorded, the arguments, and whether a subtitle was expected
        rows: dict[str, tuple[int, list[str], bool]] = {
            "so long that a subtitle lies in it": (whole, [], True),
            "so short that it may lie between subtitles": (third, [], False),
            "short, but a subtitle lies in it by the clock": (third, ["--origin", "0"], True),
            "long, but at another time by the clock": (whole, ["--origin", f"{CLOCK // 2}"], False),
            "the PID is given": (whole, ["--pid", f"0x{NEW:X}"], True)}
        for name, (count, words, is_expected) in rows.items():
            judged = self.judge_planned_stream([(0, NEW)], self.send_headers_only, *words,
                                               count=count)
            if is_expected:
                self.check_never_sent(name, judged, "page 888 is announced on PID 0x111, but was "
                                      "never sent")
            else:
                self.check(name, judged.timed_verdict, "not judged")

    def test_reports_that_one_of_several_programmes_never_sends_it(self) -> None:
        first, frames = decode_pts(self.pes[0]), find_frame_of_day(decode_pts(self.pes[-1]), 0) or 0
        result = multiplex_programmes([Programme({OLD: self.pes}, first),
                                       Programme({NEW: []}, first, VIDEO_PID + 1)], frames)
        judged = self.judge_stream(result.data)
        self.check("verdict", judged.timed_verdict, "not judged")
        self.must("reason",
                  judged.stderr[0].endswith("but sent only on PID 0x101, not on PID 0x111"),
                  judged.stderr)
        self.check("suggested PIDs", [line.split()[-1] for line in judged.stderr
                                      if line.startswith(("try: ", "or: "))], ["0x101", "0x111"])

    def test_reports_a_refused_subtitle_first(self) -> None:
        with open(self.stl, "rb") as file:
            bad = self.write("bad.stl", file.read().replace(b"Number 3", b"Number \xe6"))
        stream = make_planned_stream(self.pes, [(0, NEW)], self.send_on_old_pid)
        judged = judge_files(self, bad, self.write("one.ts", stream))
        self.check("faults", (judged.verdict.line, {
            item["number"] for item in judged.result["faults"]}),
                   ("refused 50 Character block 3 at 7", {50, None}))
        self.must("other subtitles", judged.stderr[0].startswith(
            "the other subtitles were not judged: page 888 is announced on PID 0x111, but was "
            "never sent "), judged.stderr)

    def test_is_not_judged_if_the_fault_is_waived(self) -> None:
        path = self.write("severity", b"never sent warning\n")
        judged = self.judge_planned_stream([(0, NEW)], self.send_headers_only, "--severity", path)
        self.check("verdict", judged.timed_verdict, "not judged")

    def test_writes_report_and_result_of_a_page_never_sent(self) -> None:
        out = self.path("out")
        self.judge_planned_stream([(0, NEW)], self.send_headers_only, "-o", out)
        page = self.read("out/one.html").decode()
        self.must("report", "is announced on PID 0x111, but was never sent" in page and
                  json.loads(self.read("out/one.json"))["status"] == 1, page[:2000])


class SourcesWithoutPage(ProgrammeCase):
    """Transmissions of ten subtitles, of which the rows or the headers too are missing."""

    qc_args = ("--every", "25")

    def remove_rows(self, last: int = 1 << 30) -> SentPes:
        """Return the transmission without the rows up to frame `last`."""
        return [(pts, [packets[0], packets[-1]] if pts // TICKS <= last and packets else packets)
                for pts, packets in self.sent]

    def remove_headers(self, last: int) -> SentPes:
        """Return the transmission without rows. PES packets up to frame `last` are empty."""
        return [(pts, packets if pts // TICKS > last else [])
                for pts, packets in self.remove_rows()]

    def test_refuses_headers_without_rows_if_a_subtitle_is_expected(self) -> None:
        end, count, headers = self.cues[-1][1], len(self.sent), self.remove_rows()
        later = [(pts + TICKS * 2 * end, pes_packets) for pts, pes_packets in self.sent]
        clock, before, behind = (("--origin", f"{origin % CLOCK}")
                                 for origin in (0, TICKS * 2 * end, -TICKS * 2 * end))
        pts, (header, row, closing) = self.sent[10]
        stray = [*headers[:10], (pts, [header, closing, row]), *headers[11:]]
        # What is sent, the arguments, and why the page is never sent ("": another sentence). With a
        # clock, only PES packets before the last TCO count: all but the last.
        rows: dict[str, tuple[SentPes, tuple[str, ...], str]] = {
            "headers": (headers, (), f"{count} headers, no row"),
            "headers, with a clock": (headers, clock, f"{count - 1} headers, no row"),
            "headers, with a clock before": (headers, before, ""),
            "headers, with a clock behind": (headers, behind, ""),
            "the first header at the last TCO": (self.remove_headers(end - 1), clock,
                                                 f"{count - 1} PES packets, no header"),
            "a header before it": (self.remove_headers(end - 26), clock, "1 header, no row"),
            "rows behind the last TCO": (
                [*headers, *later], clock, f"{count - 1} headers, no row; the first row comes "
                f"{2 * end} frames after the first TCI"),
            "rows behind it, without a clock": ([*headers, *later], (), ""),
            "a row": (self.remove_rows(end - 100), clock, ""),
            "a row after the page was closed": (stray, clock, ""),
            "no header at all": (self.remove_headers(1 << 30), clock, ""),
            "some PES packets, by --pes": (headers, ("--pes", f"0-{count}"), "")}
        for name, (sent, words, printed) in rows.items():
            judged = judge_files(self, self.stl, self.write("one.pes", join_pes_packets(sent)),
                                 *self.qc_args, *words)
            reason = judged.verdict.sentence.partition(" while subtitles are expected: ")
            self.check(name, reason[2], printed and f"{printed}.")
            if printed:
                self.check(f"{name}: verdict", (
                    reason[0], judged.timed_verdict, judged.verdict.line, judged.result["parts"]), (
                        "Refused: page 888 is never sent", "refused", "refused never sent", []))

    def test_does_not_say_never_sent_if_a_pes_packet_can_not_be_read(self) -> None:
        pes = packets(join_pes_packets(self.remove_rows()))
        path = self.write("one.pes", b"".join([*pes[:3], damage_packet(pes[3], 37), *pes[4:]]))
        judged = judge_files(self, self.stl, path, *self.qc_args, "--origin", "0")
        self.check("sentence", "never sent while" in judged.verdict.sentence, False)

    def test_refuses_headers_without_rows_in_a_stream(self) -> None:
        result = self.judge_stream(make_service_stream(self.remove_rows()))
        self.check("stream", (result.timed_verdict, "headers, no row" in result.verdict.sentence),
                   ("refused", True))

    def test_does_not_say_never_sent_if_all_subtitles_are_blank(self) -> None:
        stl = write_programme(self, self.cues, text=b" ", name="blank.stl")
        pes = self.write("one.pes", join_pes_packets(self.remove_rows()))
        result = judge_files(self, stl, pes, *self.qc_args, "--origin", "0")
        self.check("sentence", "never sent while" in result.verdict.sentence, False)


def make_recording(survey: Survey, *args: str, name: str = "one.ts", kind: int = stat.S_IFREG,
                   folder: str = "") -> Any:
    """Return a surveyed recording, with a subtitle in the frames 100 to 150."""
    lines = list[str]()
    listener: Any = SimpleNamespace(lines=lines, print_line=lines.append,
                                    add_selection=lambda item: lines.append(item.line))
    with mock.patch("os.stat", return_value=SimpleNamespace(st_mode=kind)):
        result: Any = Recording(make_example_request("a.stl", name, *args), mock.Mock(),
                                OutputNames("one", folder, None), listener, [(100, 150)])
    result.survey, result.suggest_call = survey, lambda *more: " ".join(more)
    result.append_contents, result.header_problem = str, lambda packets: ""
    return result


def make_pes_line(pid: int, flags: str = "heob", pts: int = SECOND) -> str:
    """Return the line of a PES packet. The flag `h` is a header of page 888."""
    return f"pes {pid} 0 1 {pts} 0 {flags}/{'0' * ('h' in flags)} 1 0"


class ChosenPids(Case):
    def test_chooses_the_given_or_only_pid_with_the_page_or_suggests_others(self) -> None:
        page_on_first, page_on_second = make_pes_line(FIRST_PID), make_pes_line(SECOND_PID)
        rows_on_first, rows_on_second = (make_pes_line(pid, "-") for pid in (FIRST_PID, SECOND_PID))
        announced_on_first, announced_on_second = (
            ["pcr 100 0", *make_pmt_lines(7, pid), f"pcr 100 {60 * SECOND}"]
            for pid in (FIRST_PID, SECOND_PID))
        both = [page_on_first, make_pes_line(SECOND_PID, "he")]
        moves = [*announced_on_first, page_on_first,
                 *announced_on_second, make_pes_line(SECOND_PID, pts=60 * SECOND)]
        others = [page_on_first, f"sub {SECOND_PID} 888", f"sub {THIRD_PID} 801"]
        never_sent = [rows_on_first, *announced_on_first]
        # Lines of `survey` (`sub` and `subs` list pages, `subs` with their numbers of headers), the
        # value of --pid, and the PID, suggested options (three pages at most) or `NeverSent`
        rows: list[tuple[list[str], int | None, object]] = [
            ([page_on_first], None, FIRST_PID),
            ([make_pes_line(FIRST_PID, "he")], None, FIRST_PID),
            ([page_on_first, rows_on_second], None, FIRST_PID),
            ([page_on_second, rows_on_first], None, SECOND_PID),
            (both, None, ["--pid 0x101", "--pid 0x102"]),
            (both[::-1], None, ["--pid 0x101", "--pid 0x102"]),
            ([rows_on_first], None, []), ([], None, []),
            ([rows_on_first, *(f"subs {SECOND_PID} 80{at} {count}" for at, count in enumerate(
                (2, 1, 4, 3)))], None, ["--page 802", "--page 803", "--page 800"]),
            (never_sent, None, NeverSent), (never_sent, FIRST_PID, NeverSent),
            (moves, None, ["--pid 0x101", "--pid 0x102"]),
            (others, FIRST_PID, FIRST_PID), (both, SECOND_PID, SECOND_PID),
            ([page_on_first, rows_on_second], SECOND_PID, SECOND_PID),
            (others, THIRD_PID, [f"--pid 0x{SECOND_PID:X}"]),
            ([page_on_first], SECOND_PID, ["--pid PID"])]
        for lines, pid, expected in rows:
            args = [] if pid is None else ["--pid", f"{pid}"]
            recording = make_recording(read_survey("size 188", *lines), *args)
            result: object = None
            try:
                packets = recording.find_packets()
                result = packets.pid
                self.check(f"{lines}: PES packets", packets.count, 1)
            except NeverSent:
                result = NeverSent
            except Unclear as reason:
                result = [*reason.commands]
            self.check(f"{lines} {pid}", result, expected)

    def test_reads_all_of_a_file_of_pes_packets(self) -> None:
        for count in (0, 1):
            survey = read_survey("size 0", *[make_pes_line(PES)] * count)
            packets = make_recording(survey).find_packets()
            self.check(f"{count}", (packets.pid, packets.count), (PES, count))

    def test_distinguishes_files_pipes_and_streams(self) -> None:
        types = {"file": stat.S_IFREG, "pipe": stat.S_IFIFO}
        for row in read_vectors("kept-recordings.tsv"):
            name, size = row["name"], int(row["packet size"])
            item = make_recording(read_survey(f"size {size}"), name=name, kind=types[row["type"]])
            item.packets = Packets(FIRST_PID)
            self.check(" ".join(row.values()), (
                item.path, item.is_piped, item.stream(), item.display_name, item.kept_ending), (
                    row["read"], row["read"] != name, (FIRST_PID, size) if size else None,
                    row["shown"], row["ending"] or None))

    def test_reports_files_that_are_no_recordings(self) -> None:
        # The first bytes, the TS packet size that `survey` found (0: PES packets), and the message
        for head, size, words in (
                (b"", None, "is empty"), (b"850STL25", None, "is a subtitle file"),
                (b"\0\0\1\xe0", None, "stream_id E0 instead of BD"), (b"\0\0\1\xe0", 188, ""),
                (b"\0\0\1", None, "is not a transport stream"),
                (b"\0\0\1\xbd", None, "is not a transport"), (b"\0\0\1\xbd", 0, ""),
                (b"G", None, "is not a transport stream"), (b"G", 192, "")):
            survey = Survey()
            survey.head, survey.size = head, size
            result = refusal(lambda: refuse_stream(survey, "one"), ReportedError)
            self.must(f"{head!r} {size}", words in result and bool(words) == bool(result), result)


class Messages(Case):
    def check_lines(self, lines: Sequence[str], expected: Sequence[str]) -> None:
        """Check that each line contains the expected text."""
        self.assertEqual(len(lines), len(expected), (lines, expected))
        self.assertTrue(all(map(str.__contains__, lines, expected)), (lines, expected))

    def test_counts_the_pes_packets_with_a_header_of_the_page(self) -> None:
        for count, words in ((1, "1 of 5 PES packets has"), (3, "3 of 5 PES packets have")):
            recording = make_recording(read_survey(
                "size 188", f"pes {FIRST_PID} 0 {count} 0 9 he/0 1 0",
                f"pes {FIRST_PID} {count} {5 - count} 50 9 -/ 1 0"))
            recording.find_packets()
            self.check(words, recording.listener.lines, [
                f"PID 0x101: {words} a header of page 888; no other PID sends the page"])

    def test_gives_the_reason_for_each_pid_that_can_not_be_read(self) -> None:
        recording = make_recording(read_survey("size 188"))
        for pid in (FIRST_PID, SECOND_PID):
            recording.survey.by_pid[pid] = Packets(pid, packets=3, scrambled=3)
        with mock.patch.object(recording, "header_problem", return_value=""):
            self.check("reasons", recording.list_unreadable_reasons(), [
                f"PID 0x{pid:X} is scrambled, in all its 3 TS packets"
                for pid in (FIRST_PID, SECOND_PID)])

    def test_lists_the_pages_of_all_pids_after_a_reason(self) -> None:
        recording = make_recording(read_survey("size 188"), "--pid", "0x101")
        with mock.patch.object(recording, "run_survey", return_value=Survey()) as run:
            text = Recording.append_contents(recording, "why")
        self.check("lines", text, "why\nno PID has Teletext")
        self.check("PIDs", run.call_args_list, [mock.call(None)])

    def test_the_last_time_is_the_later_one_of_pts_and_pcr(self) -> None:
        for pts, pcr, last in ((CLOCK - 5, 5, 5), (5, CLOCK - 5, 5), (7, None, 7), (None, 7, 7)):
            item: Any = SimpleNamespace(packets=SimpleNamespace(pid=FIRST_PID, last_pts=pts))
            item.survey = SimpleNamespace(get_pcr_range=lambda _: pcr and (0, pcr))
            self.check(f"{pts} {pcr}", Recording.find_last_time(item), last)

    def test_reports_missing_parts_of_a_recording(self) -> None:
        for damage, refusal, skipped, markers, size in itertools.product(
                (None, "is damaged"), (0, 31), (0, 40), range(3), (0, 188)):
            recording = make_recording(read_survey(f"size {size}", f"over {skipped} 9"))
            recording.packets = Packets(FIRST_PID, [PacketRun(0, 9, 0, TICKS, "-", "")] + [
                PacketRun(9 + at, 1, None, 0, "m", "") for at in range(markers)], damage=damage,
                refusal=refusal, gap_markers=[GapMarker(9 + at, 8 * TICKS, 1, 0)
                                              for at in range(markers)])
            recording.print_losses()
            of_stream = [*["refused 31 Start"] * bool(refusal),
                         *["40 bytes outside TS packets"] * bool(skipped),
                         *["1 TS packet was lost"] * markers]
            self.check_lines(recording.listener.lines,
                             ["is damaged"] * bool(damage) + of_stream * bool(size))

    def test_warns_of_a_cut_and_of_damage(self) -> None:
        for is_cut, refusal, damage, size in itertools.product(
                (False, True), (0, 31), (None, "is damaged"), (0, 188)):
            recording = make_recording(read_survey(f"size {size}"))
            recording.packets = Packets(FIRST_PID, is_cut=is_cut, refusal=refusal, damage=damage)
            result = [notice.line.split(" ", 1)[1] for notice in recording.find_notices()]
            ends = ["ends within"] * (is_cut and not refusal and size > 0) + ["is damaged"] * bool(
                damage)
            self.check_lines(result, ends)

    def test_keeps_the_extracted_pid_if_extract_ends_with_status_0_or_1(self) -> None:
        # `extract` with --pid PID writes this PID. It is killed, or ends with status 2 or 1.
        path = self.write_program(
            "program", '#!/bin/sh\nfor file; do :; done\necho "$3" >"$file"\n'
            '[ "$3" != 0x103 ] || exit 2\n[ "$3" != 0x102 ] || kill -9 $$\n[ "$3" != 0x104 ]\n')
        rows: list[tuple[int, bytes | None]] = [(FIRST_PID, b"0x101\n"), (SECOND_PID, None),
                                                (THIRD_PID, None), (0x104, b"0x104\n")]
        for pid, expected in rows:
            recording, result = make_recording(read_survey("size 188"), folder=self.folder), None
            recording.command_paths.program_path, recording.packets = path, Packets(pid)
            try:
                result = b"".join(recording.read_kept_data())
            except subprocess.CalledProcessError:
                pass
            self.check(f"{pid:#x}", result, expected)
