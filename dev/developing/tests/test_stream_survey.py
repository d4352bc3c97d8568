"""Test how the tools read `survey` and `extract`, and the comparison of `survey` with `packets`."""
from __future__ import annotations

import operator
import os
import re
import sys
from types import SimpleNamespace
from typing import Any, Callable, Iterable, Sequence
from unittest import mock

from developing.multiplex import PACKET, PAYLOAD_START
from developing.pes import decode_pts, make_pes_packet
from subtitles.common.command_line import BUG, ProgramInterrupted, RESOURCE
from subtitles.common.program import read, TOP
from subtitles.common.times import CLOCK, TICKS
from subtitles.formats.teletext import Page
from subtitles.judging.pair import PairJudge
from subtitles.recording.recording import find_unreadable_packets, Recording
from subtitles.stream.gaps import explain_refusal
from subtitles.stream.packets import GapMarker, PacketRun, Packets, PageChange, PCRStep, Texts
from subtitles.stream.pictures import VideoLead
from subtitles.stream.proved import (
    collect_items, compare_lines, End, find_end, find_unproved_number, has_proved_numbers, Item,
    list_items, PacketsCommand, SurveyMismatch)
from subtitles.stream.survey import (
    Announced, find_first_pages, list_language_codes, ProgramMap, read_stored_survey, Survey,
    survey, survey_runs, VERSION, Video)
from .bench import Case, get_example_path, read_example_file
from .judged import judge_files, ProgrammeCase
from .parts import read_survey
from .stories import read_vectors
from .streams import (
    AUDIO, AUDIO_PID, DISCONTINUITY, filler, make_components, make_mpeg_2_picture,
    make_stream_of_pids, make_teletext_descriptor, make_video_packet, PRIVATE, PTS_AHEAD,
    StreamMaker, TELETEXT_PID, VIDEO_PID)
from .test_judging_pairs import damage_packet
from .transmissions import CLOSING, join_pes_packets, packets, PAGE

FIRST_PTS = 1_000_000  # PTS of the first PES packet of Teletext
LAST_PTS = FIRST_PTS + 100_000 * TICKS  # PTS of the last PES packet, in a stream with PCRs


def make_stream(pes: Iterable[bytes], change: Callable[[list[bytes]], list[bytes]] = list,
                picture_pts: int = FIRST_PTS) -> bytes:
    """Return a stream with tables, a picture, and Teletext, whose TS packets `change` changes."""
    maker = StreamMaker(make_components())
    maker.put_tables()
    maker.put(VIDEO_PID, make_video_packet(picture_pts, make_mpeg_2_picture()))
    before = maker.taken()
    for item in pes:
        maker.put(TELETEXT_PID, item)
    return b"".join([*before, *change(maker.taken())])


class Lines(Case):
    def list_lines(self, data: bytes, *kinds: str) -> list[str]:
        """Return the lines of `survey` that begin with one of these words."""
        status, lines = self.program("survey", self.write("one.ts", data))
        self.check("status", status, 0)
        return [line for line in lines if line.split()[0] in kinds]

    def test_prints_a_step_by_half_the_clock_as_a_step_back(self) -> None:
        for ticks, printed in ((CLOCK // 2, -CLOCK // 2), (CLOCK // 2 - 1, CLOCK // 2 - 1)):
            pes = [make_pes_packet(pts, [CLOSING]) for pts in (FIRST_PTS, FIRST_PTS + ticks)]
            data = make_stream(pes, picture_pts=(FIRST_PTS - ticks) % CLOCK)
            self.check(f"{ticks} ticks", self.list_lines(data, "lead", "pes"), [
                f"lead {TELETEXT_PID} {FIRST_PTS} {printed} {VIDEO_PID} 1",
                f"pes {TELETEXT_PID} 0 2 {FIRST_PTS} {printed} b/ 1 0"])

    def make_clock_stream(self, interval: int, after_last: int) -> bytes:
        """Return a stream with 21 PCRs, `interval` TS packets apart, between two PES packets. The
        last PES packet is `after_last` TS packets after the last PCR."""
        maker = StreamMaker(make_components())
        maker.put_tables()
        maker.put(TELETEXT_PID, make_pes_packet(FIRST_PTS, []))
        for number in range(21):
            maker.put_pcr(FIRST_PTS + TICKS * number)
            others = interval if number < 20 else after_last
            maker.packets += [filler(AUDIO_PID, maker.counters).data for _ in range(others - 1)]
        maker.put(TELETEXT_PID, make_pes_packet(LAST_PTS, []))
        return maker.data

    def test_samples_no_pts_long_after_the_last_pcr(self) -> None:
        # TS packets between PCRs, and the most after the last PCR for a comparison with the PTS:
        # fewer than four times as many, or than 256
        for interval, most in ((1, 255), (64, 255), (65, 259), (200, 799)):
            for after_last in (most, most + 1):
                lines = self.list_lines(self.make_clock_stream(interval, after_last), "ahead")
                sample = f"ahead {TELETEXT_PID} {LAST_PTS} {LAST_PTS - FIRST_PTS - TICKS * 20}"
                self.check(f"{interval} {after_last}", lines, [sample] * (after_last <= most))

    def test_the_manual_states_the_order_of_gap_and_seam(self) -> None:
        two_ts_packets_each = [make_pes_packet(FIRST_PTS + TICKS * at, [CLOSING] * 4)
                               for at in range(3)]
        data = make_stream(two_ts_packets_each,
                           lambda packets: [*packets[:3], DISCONTINUITY, *packets[4:]])
        first, second = (line.split(" ")[0] for line in self.list_lines(data, "gap", "seam"))
        manual = " ".join((read(os.path.join(TOP, "docs", "manual", "survey.md")) or "").split())
        self.check("lines", {first, second}, {"gap", "seam"})
        self.must("the manual", f"A `{first}` at the same place comes first." in manual, first)


def of_pid_5(*names: str) -> Callable[[Survey], object]:
    """Return a function that returns these attributes of the packets of PID 5."""
    return lambda received: operator.attrgetter(*names)(received.by_pid[5])


class SurveyAnswers(Case):
    """How the tools parse the lines of `survey`, or of a script in its place."""

    def test_refuses_a_survey_that_does_not_end_with_over_and_status_0(self) -> None:
        begin, over = f"survey {VERSION}", "over 0 9"
        for lines, status, why in (
                ([begin, over], 0, None), ([begin], 0, "it did not end, status 0"),
                ([begin, over], 1, "it did not end, status 1"), (["survey 2", over], 0,
                                                                 "survey 2, status 0"),
                ([begin, "fault 2 Read", over], 2, "fault 2 Read, status 2"),
                (["usage 0 Words"], 2, "usage 0 Words, status 2"),
                ([begin, "refused 60 Empty", over], 0, "refused 60 Empty, status 0")):
            received = read_survey(*lines)
            if why is None:
                received.refuse(status)
            else:
                with self.subTest(why), self.assertRaisesRegex(ProgramInterrupted, f": {why}$"):
                    received.refuse(status)

    def check_lines(self, rows: Iterable[tuple[str, Callable[[Survey], object], object]]) -> None:
        """Check lines, separated by `; `, by a value of the parsed survey. Further fields, which a
        new version may print, are ignored, but not after a line whose last fields are optional."""
        for lines, get_value, expected in rows:
            for more in ("", " more")[:1 if "sub" in lines or "pictures" in lines else 2]:
                received = read_survey(*(line + more for line in lines.split("; ")))
                self.check(f"{lines}{more}", get_value(received), expected)

    def test_reads_lines_about_the_recording_and_its_pmts(self) -> None:
        self.check_lines([
            ("head 4740", lambda it: it.head, b"G@"), ("head ", lambda it: it.head, b""),
            ("size 0", lambda it: it.size, 0), ("size 204", lambda it: it.size, 204),
            ("over 12 9", lambda it: (it.skipped, it.is_complete), (12, True)),
            ("teletext 5", lambda it: [*it.by_pid], [5]), ("later 1 2", vars, vars(Survey())),
            ("pcr 9 7; pcr 9 5; pcr 8 0", lambda it: it.clocks, {9: (7, 5), 8: (0, 0)}),
            ("programme 2 9; stream 5 6; stream 9 27; announce 5 888 656e67 2; "
             "announce 5 150 e96e67 5; announce 5 8FF 656e67 1; programme 1 8; stream 9 2",
             lambda it: it.programmes,
             [ProgramMap(2, 9, {5: 6, 9: 27}, {5: [
                 Announced((0, 0x88), "eng", 2), Announced((1, 0x50), "\xe9ng", 5),
                 Announced((0, 0xFF), "eng", 1)]}), ProgramMap(1, 8, {9: 2})]),
            ("sub 5 888; subs 5 888 9; subs 5 150 7",
             of_pid_5("header_counts"), {"888": 9, "150": 7}),
            ("programme 1 9; announce 5 888 656e67 2; announce 5 100 656e67 1; sub 5 150; "
             "announce 5 8FF 656e67 2; announce 6 888 646575 2; announce 6 777 646575 5; sub 6 160",
             lambda it: [it.list_pages(None), it.list_pages(5)], [
                 {(1, 0x50): [], (1, 0x60): [], (7, 0x77): ["deu"], (0, 0x88): ["eng", "deu"]},
                 {(1, 0x50): [], (0, 0x88): ["eng"]}]),
            *(("programme 1 9; stream 5 6; announce 5 888 656e67 2; announce 5 888 656e67 2; " +
               "; ".join(f"sub 5 2{page}" for page in range(9 + count, 9, -1)),
               lambda it: it.lines(), [
                   "PID 0x5: the PMT announces page 888 (eng, subtitles) in programme 1; subtitle "
                   f"pages sent: 210 211 212 213 214 215 216 217 218 219 220 221{more}"])
              for count, more in ((12, ""), (13, " and 1 more"), (14, " and 2 more"))),
            ("programme 1 9; stream 5 6; announce 5 888 656e67 1; announce 5 889 656e67 3; "
             "announce 5 150 656e67 4; announce 5 151 1b5b41 5; announce 5 8FF 656e67 6; "
             "teletext 7; teletext 5", lambda it: it.lines(), [
                 "PID 0x5: the PMT announces page 888 (eng, initial page) in programme 1, page 889 "
                 "(eng, additional information) in programme 1, page 150 (eng, programme schedule) "
                 "in programme 1, page 151 (\\x1b[A, subtitles for the hard of hearing) in "
                 "programme 1, page 8FF (eng, of an unknown kind) in programme 1; subtitle pages "
                 "sent: none",
                 "PID 0x7: the PMT announces nothing; subtitle pages sent: none"]),
            # A PMT is dated by the last PCR on its PCR PID, or else on one of its eight previous
            # PCR PIDs.
            *((f"pcr 9 5; programme 1 9; pcr 9 8; {more}",
               lambda it: [programme.after for programme in it.programmes[1:]], expected)
              for more, expected in (
                   ("pcr 8 20; programme 1 8; programme 1 7; programme 2 7; programme 1 9",
                    [20, 20, None, 8]),
                   ("; ".join(["programme 1 7"] * 9), [8] * 9),
                   ("; ".join(f"programme 1 {pid}" for pid in range(10, 20)),
                    [8] * 8 + [None] * 2)))])

    def test_reads_lines_about_pes_packets(self) -> None:
        self.check_lines([
            ("pes 5 3 2 - 0 -/ 4 33; pes 5 5 9 0 -10 he/08080810+0 1 0", of_pid_5("runs"),
             [PacketRun(3, 2, None, 0, "-", "", units=4, fault=33),
              PacketRun(5, 9, 0, -10, "he", "08080810+0", units=1)]),
            ("gap 5 0 1 2; pes 5 1 5 7 10 -/ 1 0; gap 5 6 3 0; gap 5 7 0 4; pes 5 8 1 9 0 -/ 1 0; "
             "gap 5 9 1 0",
             lambda it: (it.by_pid[5].gap_markers, [run.first for run in it.by_pid[5].runs]),
             ([GapMarker(0, None, 1, 2), GapMarker(6, 47, 3, 0), GapMarker(7, 47, 0, 4),
               GapMarker(9, 9, 1, 0)], [0, 1, 6, 7, 8, 9])),
            ("clock 5 - 9 900 8 90 7 broken; clock 5 0 - -1 2 3 4 whole",
             of_pid_5("pcr_steps"),
             [PCRStep(None, 9, 900, 8, 90, 7, "broken"), PCRStep(0, None, -1, 2, 3, 4, "whole")]),
            ("ahead 5 9 -7; ahead 5 0 3", of_pid_5("samples"), [(9, -7), (0, 3)]),
            ("set 5 28 0 1 -; set 5 29 4 - 7", of_pid_5("character_sets"),
             [(28, 0, 1, None), (29, 4, None, 7)]),
            ("strays 5 3 20:41,21:4243; strays 5 9 -", of_pid_5("stray_rows"),
             [(3, ((20, b"A"), (21, b"BC"))), (9, ())]),
            # Rows of spaces, and spaces with a parity error, do not change the text.
            ("pes 5 0 1 100 0 he/ 1 0; rows 5 0 20:2041a042; pes 5 1 3 200 50 o/ 1 0; "
             "rows 5 1 20:20412042,21:2020; rows 5 3 -; pes 5 4 1 9 0 o/ 1 0; rows 5 4 20:20412042"
             "; pes 5 5 1 10 0 o/ 1 0; rows 5 5 21:20412042",
             of_pid_5("decoded_rows", "changes"),
             ([(0, ((20, b" A\xa0B"),)), (1, ((20, b" A B"), (21, b"  "))), (3, ()),
               (4, ((20, b" A B"),)), (5, ((21, b" A B"),))],
              [PageChange(100, b"AB", 0, ((20, b" A B"),)), PageChange(300, b"", 3),
               PageChange(9, b"AB", 4, ((20, b" A B"),)),
               PageChange(10, b"AB", 5, ((21, b" A B"),))])),
            ("damaged 5 3 start", of_pid_5("damage", "damage_faults"),
             ("PES packet 3 does not begin with 00 00 01 BD", (31, 32))),
            ("damaged 5 0 cut", of_pid_5("damage", "damage_faults"),
             ("PES packet 0 is incomplete", (30,))),
            *((f"end 5 7 8 30 4 {refusal} {cut} {begun}",
               of_pid_5("packets", "scrambled", "refusal", "is_cut", "last_pts"),
               (30, 4, refusal, bool(cut), pts))
              for refusal, cut, begun, pts in ((31, 1, "77", 77), (0, 0, "-", None), (0, 0, 0, 0))),
            ("seam 5 7; seam 5 9", of_pid_5("counter_jumps"), [7, 9])])

    def test_reads_lines_about_video(self) -> None:
        self.check_lines([
            ("video 9 3; picture 9 0; picture 9 -; group 9 0 1 open", lambda it: it.videos,
             {9: Video(3, [0, None], form="open")}),
            ("pictures 9 1 2", lambda it: it.videos, {9: Video(0, [], 1, 2)}),
            ("video 9 3; pictures 9 1 2 0 1", lambda it: it.videos, {9: Video(3, [], 1, 2, True)}),
            ("pictures 9 0 0 7 0", lambda it: it.videos, {9: Video(7, [], 0, 0, True)}),
            ("lead 5 7 -9 9 3; lead 5 8 0 9 4; lead 5 1 2 8 1", lambda it: it.leads,
             {(5, 9): [VideoLead(7, -9, 3), VideoLead(8, 0, 4)], (5, 8): [VideoLead(1, 2, 1)]})])

    def fake_survey(self, lines: Sequence[str], status: int = 0) -> str:
        """Write a script that prints the version, an unknown line that is not ASCII, its arguments
        as `head`, these lines and `over`. Return its path."""
        return self.write_program("program", "\n".join([
            "#!/bin/sh", "echo survey 1", r"printf 'later \377\n'",
            "echo head $(printf %s \"$*\" | od -An -v -tx1 | tr -d ' \\n')",
            *(f"echo '{line}'" for line in lines), "echo over 0 9", f"exit {status}"]))

    def test_calls_the_program_and_a_function_after_each_line(self) -> None:
        looks = list[int]()
        result = survey(self.fake_survey([]), "-one.ts", PAGE, 5, lambda: looks.append(1))
        self.check("call, and lines", (result.head, len(looks)),
                   (b"survey --page 888 --pid 0x5 -- -one.ts", 4))
        result = survey(self.fake_survey([]), "one.ts", PAGE)
        self.check("call without a PID", result.head, b"survey --page 888 -- one.ts")

    def test_reads_1000_lines_from_the_first_subtitle_page_on(self) -> None:
        rows: dict[str, tuple[list[str], list[Page]]] = {
            "the second page in line 1000": (["sub 257 1A0", *["pcr 5 1"] * 998, "sub 257 199"],
                                             [(1, 0x99), (1, 0xA0)]),
            "in line 1001": (["sub 257 1A0", *["pcr 5 1"] * 999, "sub 257 199"], [(1, 0xA0)]),
            "no page in the whole recording": ([], [(0, 0x88)])}
        for name, (lines, pages) in rows.items():
            program = self.fake_survey(lines)
            if lines:  # let it print lines without end
                self.write("program", self.read("program").replace(b"echo over", b"yes pcr 5 1 #"))
            self.check(name, find_first_pages(program, "one.ts", None), pages)

    def test_reads_the_lines_of_one_page_of_a_stored_survey(self) -> None:
        of_first, of_second = ([f"pes 5 {at} 1 9 0 h/ 1 0", f"rows 5 {at} -", f"strays 5 {at} -",
                                f"set 5 28 {at} 0 0"] for at in (1, 2))
        path = self.write("stored", "\n".join(["teletext 5", "page 888", *of_first, "page 150",
                                               *of_second, "seam 5 9"]).encode())
        for page, lines in ((PAGE, of_first), ((1, 0x50), of_second)):
            self.check(f"{page}", vars(read_stored_survey(path, page)),
                       vars(read_survey(*lines, "seam 5 9")))

    def test_yields_each_run_with_its_rows_before_the_program_ends(self) -> None:
        runs = [f"pes 0 {number} 1 {number} 0 -/ 1 0" for number in range(4)]
        lines = [runs[0], "rows 0 0 20:41", runs[1], runs[2], "rows 0 2 -", runs[3],
                 "rows 0 3 20:41"]
        rows_of_first = ((20, b"A"),)
        for count, expected in ((0, []), (2, [(0, rows_of_first)]),
                                (3, [(0, rows_of_first), (1, None)])):
            self.check(f"{count} lines", [(run.first, rows) for run, rows in survey_runs(
                self.fake_survey(lines[:count]), "one.pes", PAGE)], expected)
        yielded: list[tuple[int, Texts | None]] = []
        with self.assertRaises(ProgramInterrupted):
            for run, rows in survey_runs(self.fake_survey(lines, status=3), "one.pes", PAGE):
                yielded.append((run.first, rows))
        self.check("a program that fails at the end", yielded,
                   [(0, rows_of_first), (1, None), (2, ())])


PID, SCRAMBLED_PID = 0x101, 0x102
# A program that changes what `survey` prints, by one of SURVEY_CHANGES.
FAULTY_PROGRAM = """#!{python}
import re, subprocess, sys
run = subprocess.run([{program!r}, *sys.argv[1:]], stdout=subprocess.PIPE)
out = run.stdout.decode()
if sys.argv[1] == "survey":
    out = re.sub({pattern!r}, {replacement}, out, flags=re.M)
sys.stdout.write(out)
sys.exit(run.returncode)
"""
SURVEY_CHANGES = {  # patterns, and expressions for the replacements
    "omits PES packet 5": (r"^pes \d+ 5 1 .*\n", '""'),
    "omits the gap marker": (r"^gap .*\n", '""'),
    "delays PES packet 5 by 900 ticks": (r"^(pes \d+ 5 1 )(\d+)",
                                         "lambda match: match[1] + str(int(match[2]) + 900)")}


def remove_first_ts_packet(stream: bytes, pes: bytes) -> bytes:
    """Return a stream without the first TS packet of a PES packet."""
    at = stream.index(pes[:20]) // PACKET * PACKET
    return stream[:at] + stream[at + PACKET:]


def make_stream_with_late_tables(pes: list[bytes], count: int) -> bytes:
    """Return a stream whose PAT and PMT follow `count` PES packets, each of which has its
    data_identifier in its second TS packet. The PMT also announces a scrambled PID."""
    maker = StreamMaker([(VIDEO_PID, AUDIO, b""), *(
        (pid, PRIVATE, make_teletext_descriptor()) for pid in (PID, SCRAMBLED_PID))])
    for number, item in enumerate(pes):
        if number == count:
            maker.put_tables()
            maker.put_packet(SCRAMBLED_PID, PAYLOAD_START, item[:184])
            packet = maker.packets.pop()  # then with transport_scrambling_control 2
            maker.packets.append(packet[:3] + bytes([packet[3] | 0x80]) + packet[4:])
        maker.put_pcr(decode_pts(item) - PTS_AHEAD)
        first = 40 if number < count else 184
        maker.put_packet(PID, PAYLOAD_START, item[:first])
        for at in range(first, len(item), 184):
            maker.put_packet(PID, 0, item[at:at + 184])
    return maker.data


class Comparison(Case):
    """Items (PES packets and gap markers) that `survey` printed, and lines of `packets`, which ends
    at the first PES packet that it refuses (`refused 45 Lost` for a gap marker)."""

    def test_compares_the_items_of_survey_with_the_lines_of_packets(self) -> None:
        for row in read_vectors("proved-packets.tsv"):
            numbers = [re.split("([!:])", item) for item in row["survey"].split()]
            items = [Item(int(number), int(value)) if sign == ":" else
                     Item(int(number), None, int(value)) for number, sign, value in numbers]
            end, *faults = map(int, row["end"].split())
            try:
                number = compare_lines(iter(items), filter(None, row["packets"].split("; ")),
                                       End(end, faults))
                found = "" if number is None else f"{number}", ""
            except SurveyMismatch as reason:
                found = "", str(reason)
            self.check(row["name"], found, (row["again"], row["error"]))

    def test_calls_packets_with_the_options_of_the_pid_for_25_pes_packets(self) -> None:
        packets = Packets(PID, [PacketRun(0, 1, 5, 0, "h", "")])
        # The lines and the exit status of `packets`; whether `survey` has the same numbers, or the
        # kind of the error
        for lines, status, expected in (
                (["pes 0 pts 5", "1 pes"], 0, True), (["pes 0 pts 6", "1 pes"], 0, False),
                (["pes 0 pts 5", "refused 31 Start pes 1"], 1, False),
                (["pes 0 pts 5", r"\377"], 0, False), (["pes 0 pts 5", "1 pes"], 2, RESOURCE),
                (["pes 0 pts 5", "1 pes"], 3, BUG)):
            program = self.write_program("program", "\n".join([
                "#!/bin/sh", f"echo \"$*\" >{self.path('args')}", "echo other",
                *(rf"printf '{line}\n'" for line in lines), f"exit {status}"]))
            try:
                result: object = has_proved_numbers(
                    PacketsCommand(program, "-one.ts", ["--pid", "0x5"]), packets)
            except ProgramInterrupted as reason:
                self.check("message", str(reason), f"packets ended with status {status}")
                result = reason.kind
            self.check(f"{lines} {status}", (result, self.read("args")), (
                expected, b"packets --pid 0x5 --pes 0-24 -- -one.ts\n"))

    def test_lists_items_as_packets_counts_them(self) -> None:
        packets = Packets(PID, [
            PacketRun(0, length=2, pts=5, step=3, flags="h", control=""),
            PacketRun(2, length=1, pts=None, step=0, flags="m", control=""),
            PacketRun(3, length=1, pts=9, step=0, flags="", control="", fault=37)], refusal=32)
        self.check("items", [*list_items(packets, (1, 9))], [
            Item(1, pts=8), Item(2, pts=None, fault=45), Item(3, pts=None, fault=37)])
        self.check("end", find_end(packets), End(4, {32}))
        packets.refusal, packets.damage_faults = 0, (30,)
        self.check("end at damage", find_end(packets), End(4, (30,)))

    def test_recognises_items_that_were_compared(self) -> None:
        # Number, count, PTS, ticks to the next, flags (h: a header, m: a gap marker), C bits
        runs = [PacketRun(0, 1, 5, 0, "h", ""), PacketRun(1, 2, 8, 3, "", ""),
                PacketRun(3, 1, None, 0, "m", ""), PacketRun(4, 1, 9, 0, "", "", fault=37)]
        compared = collect_items(Packets(PID, runs), (1, 4))
        # The first item of the other range, the run that differs in it, and its changed members
        rows: dict[str, tuple[int, int, dict[str, Any], bool]] = {
            "the same": (1, 0, {}, True), "from a later item on": (2, 0, {}, True),
            "from an earlier item on": (0, 0, {}, False), "another PTS": (1, 1, {"pts": 9}, False),
            "no gap marker": (1, 2, {"flags": ""}, False),
            "another fault": (1, 3, {"fault": 38}, False), "one more": (1, 3, {"length": 2}, False)}
        for name, (first, at, change, is_included) in rows.items():
            other = Packets(PID, [*runs[:at], runs[at]._replace(**change), *runs[at + 1:]])
            self.check(name, compared.includes(collect_items(other, (first, 5))), is_included)
        other = Packets(PID, runs, refusal=32)
        self.check("another end", compared.includes(collect_items(other, (1, 4))), False)

    def test_calls_packets_for_at_most_twenty_gap_markers(self) -> None:
        packets = Packets(PID, [PacketRun(at, 1, None, 0, "m", "") for at in range(30)])
        for last, first_not_compared, calls in ((18, None, 19), (19, None, 20), (20, 20, 20),
                                                (29, 20, 20)):
            command = mock.Mock()
            command.list_packets.side_effect = lambda first, _: [f"refused 45 Lost pes {first}"]
            number = find_unproved_number(command, packets, (0, last))
            self.check(f"0 to {last}", (number, command.list_packets.call_count),
                       (first_not_compared, calls))

    def test_compares_a_range_unless_the_last_one_of_its_pid_ends_with_it(self) -> None:
        recording: Any = SimpleNamespace(compared={}, make_packets_command=mock.Mock())
        # The PID, the range, the first number that is not compared, and whether the range is new
        for pid, pes, number, is_new in (
                (PID, (0, 8), 3, True), (PID, (0, 8), None, True), (PID, (0, 8), None, False),
                (PID, (4, 8), None, False), (PID, (0, 4), None, True), (PID, (0, 8), None, True),
                (VIDEO_PID, (4, 8), None, True), (VIDEO_PID, (0, 8), None, True),
                (PID, (0, 8), None, False)):
            recording.packets = Packets(pid, [PacketRun(0, 9, 0, 5, "h", "")])
            with mock.patch(f"{Recording.__module__}.find_unproved_number", return_value=number
                            ) as compare:
                found = Recording.find_unproved_number(recording, pes)
            self.check(f"{pid} {pes}", (found, compare.call_args_list), (number, [mock.call(
                recording.make_packets_command(), recording.packets, pes)] * is_new))


class JudgedRecordings(ProgrammeCase):
    """A correct transmission of ten subtitles on one PID, with a loss or a damaged PES packet."""

    def test_judges_nothing_if_survey_and_packets_differ(self) -> None:
        path = self.write("one.ts", remove_first_ts_packet(
            make_stream_of_pids((PID, join_pes_packets(self.sent))), self.pes[7]))
        verdict = judge_files(self, self.stl, path, *self.qc_args, "--allow-lost").verdict
        self.check("the correct program", (verdict.word, verdict.status), ("waived", 0))
        for name, (pattern, replacement) in SURVEY_CHANGES.items():
            program = self.write_program("program", FAULTY_PROGRAM.format(
                python=sys.executable, program=self.bench.program, pattern=pattern,
                replacement=replacement))
            verdict = judge_files(self, self.stl, path, *self.qc_args, "--allow-lost",
                                  program=program).verdict
            self.check(name, (verdict.word, verdict.status, verdict.not_judged_kind,
                              "SurveyMismatch" in (verdict.unjudged_reason or "")),
                       ("not judged", 70, "bug", True))

    def test_the_comparison_does_not_change_verdicts_on_losses_and_damage(self) -> None:
        whole = make_stream_of_pids((PID, join_pes_packets(self.sent)))
        damaged = make_stream_of_pids((PID, b"".join(
            damage_packet(item, 37) if at == 5 else item for at, item in enumerate(self.pes))))
        first, repeated = (remove_first_ts_packet(whole, self.pes[at]) for at in (5, 7))
        rows: dict[str, tuple[bytes, tuple[str, ...]]] = {
            "damaged": (damaged, ()), "lost": (first, ()), "a repeated page lost": (repeated, ()),
            "lost, --allow-lost": (first, ("--allow-lost",)),
            "a repeated page lost, --allow-lost": (repeated, ("--allow-lost",))}
        for name, (data, words) in rows.items():
            judged = self.judge_stream(data, *words)
            with mock.patch.object(PairJudge, "compare_packets"):
                without = self.judge_stream(data, *words)
            self.check(name, (judged.verdict.word, judged.verdict.line),
                       (without.verdict.word, without.verdict.line))
            self.check(f"{name}: judged", judged.verdict.word != "not judged", True)

    def test_judges_the_range_of_a_pid_that_survey_recognises_late(self) -> None:
        for count in (0, 1, 4):  # PES packets before the tables, by which `survey` knows the PID
            verdict = self.judge_stream(make_stream_with_late_tables(self.pes, count)).verdict
            self.check(f"{count}", (verdict.word, [part.pes for part in verdict.parts]),
                       ("accepted", [(0, len(self.pes) - 1)]))
            recording, _ = verdict.parts[0].judged_recording
            by_pid = recording.survey.by_pid
            self.check(f"{count}: PIDs", (by_pid.keys(), by_pid[PID] is recording.packets),
                       ({PID, SCRAMBLED_PID}, True))


class ExtractMessages(Case):
    def test_explains_why_no_more_pes_packets_of_a_pid_are_read(self) -> None:
        known, unreadable = Survey(), list[int]()
        for row in read_vectors("unread-pids.tsv"):
            pid, count, scrambled, fault, pes_count = (int(row[column]) for column in (
                "PID", "TS packets", "scrambled", "fault", "PES packets"))
            known.by_pid[pid] = Packets(
                pid, [PacketRun(0, pes_count, 0, 0, "", "")] * bool(pes_count),
                packets=count, scrambled=scrambled, refusal=fault)
            self.check(f"{pid:#x}", explain_refusal(known.by_pid[pid]), row["reason"] or None)
            unreadable += [pid] * (row["unreadable"] == "yes")
        self.check("PIDs with TS packets but no PES packet",
                   [item.pid for item in find_unreadable_packets(known)], sorted(unreadable))

    def test_names_the_languages_of_ebu_tech_3264(self) -> None:
        for row in read_vectors("language-codes.tsv"):
            self.check(f"{row['lc']} {row['language']}", list_language_codes(row["lc"]),
                       row["codes"].split())


class ConvertedStreams(Case):
    """The five PES packets of examples/story.pes, multiplexed by dev/pes2ts as PID 0x101."""

    def test_extracts_the_multiplexed_pes_packets(self) -> None:
        process = self.tool("pes2ts", get_example_path("story.pes"), "0x101")
        self.check("made", (process.status, process.errors),
                   (0, ["pes2ts: 5 PES packets as PID 0x101"]))
        result = [process.out[at:at + PACKET] for at in range(0, len(process.out), PACKET)]
        for name, data, packet_size in (
                ("188 bytes", b"".join(result), "188"),
                ("192 bytes", b"".join(b"TIME" + item for item in result), "192"),
                ("204 bytes", b"".join(item + b"\x47" * 16 for item in result), "204"),
                ("from the midst of a packet", result[0][77:] + b"".join(result), "188")):
            process = self.call([
                self.bench.program, "extract", self.write("one.ts", data), self.path("back.pes"),
                "--pid", "0x101", "--packet-size", packet_size])
            self.check(name, (process.status, process.out), (0, b"written 5 pes 0 gaps\n"))
            self.check(f"{name}: bytes",
                       self.read("back.pes") == read_example_file("story.pes"), True)

    def test_converts_the_pes_packets_before_the_first_that_is_no_teletext(self) -> None:
        data = read_example_file("story.pes")
        first = packets(data)[0]
        # What is wrong, the file, the number of PES packets before that, and the message
        for name, pes, count, line in (
                ("the last byte is missing", data[:-1], 4, "PES packet 4 is incomplete"),
                ("another start code", first + b"\1" + data, 1,
                 "PES packet 1 does not begin with 00 00 01 BD"),
                ("no PTS", first + data[:7] + b"\0" + data[8:], 1,
                 "PES packet 1 is not a Teletext packet"),
                ("185 bytes long", data[:4] + b"\0\xb3" + data[6:184] + b"x", 0,
                 "PES packet 0 is not a Teletext packet")):
            path = self.write("wrong.pes", pes)
            process = self.tool("pes2ts", path, "0x101")
            self.check(name, (process.status, process.errors), (1, [
                f"pes2ts: {path}: {line}",
                f"pes2ts: {count} PES packet{'s' * (count != 1)} as PID 0x101"]))
            payloads = [item[4:] for at in range(0, len(process.out), PACKET)
                        if (item := process.out[at:at + PACKET])[1:3] in (b"\x41\x01", b"\1\1")]
            self.check(f"{name}: before it", b"".join(payloads), b"".join(packets(data)[:count]))
