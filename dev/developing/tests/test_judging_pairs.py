"""Test verdicts on pairs with unreadable packets, losses or pictures that were not checked."""
from __future__ import annotations

import itertools
import re
from types import SimpleNamespace
from typing import Any, Mapping, Sequence
from unittest import mock

from developing.pes import DATA, decode_pts, GAP_MARKER, make_pes_packet, STUFFING_UNIT
from subtitles.clock.start import Clock, GIVEN, RECORDING, START, TCP, TimedPart
from subtitles.common.checks import DRIFT, LOSSES
from subtitles.common.times import CLOCK, format_frame, pts_of, TICKS
from subtitles.judging.desync import find_desync
from subtitles.judging.status import (
    CheckSummary, decide, Decision, Grounds, NOT_JUDGED, REFUSED, Severity)
from subtitles.judging import timing
from subtitles.judging.timing import (
    describe_pace, describe_unchecked_losses, measure_part_pace)
from subtitles.judging.unchecked import Unchecked
from subtitles.request.commands import Listener
from subtitles.stream.pace import BY_EVERY, IRREGULAR, Pace, PAUSED, REGULAR, TOO_FEW
from subtitles.stream.survey import Survey
from .bench import Case, get_example_path, read_example_file
from .judged import judge_files, JudgedPair, LineRecorder, ProgrammeCase
from .parts import make_example_request, make_part
from .results import check_schema
from .stories import read_table, read_vectors, StoryCase
from .streams import find_teletext_places, make_multiplex, Packet, remove_packets_at, Shape
from .test_stream_pace import BEGIN, fill_missing_frames, TIMES
from .transmissions import (
    CLOSING, HEADER, join_pes_packets, make_numbered_row, ORIGIN, packets, schedule_pages, SentPes,
    subtitle_times, write_subtitle_file)

STORY, HELLO = get_example_path("story.stl"), get_example_path("hello.stl")
ACCENT = get_example_path("accent.stl")
NOT_READ = "none of the recording was read, and --severity makes all faults warnings"
EVERY_OPTION = ["--every", "40"]  # frames; allows the loss of two page transmissions
BITS = {33: (6, 0xC0), 37: (DATA - 1, 0x30)}  # byte and bits whose damage is this fault


def damage_packet(packet: bytes, number: int) -> bytes:
    """Return a PES packet with damage for which `check` reports this fault number."""
    at, bits = BITS[number]
    return packet[:at] + bytes([packet[at] ^ bits]) + packet[at + 1:]


class UnreadablePackets(ProgrammeCase):
    """A programme of 20 adjoining subtitles. PES packets 22, 23 and 61 of its transmission are
    missing: gap markers replace them, and become PES packets 22 and 60."""

    cues, every, origin = [(60 * at, 60 * at + 60) for at in range(2, 22)], 12, ORIGIN

    def judge_with_gaps(self, *args: str) -> JudgedPair:
        received = [*self.pes[:22], GAP_MARKER, *self.pes[24:61], GAP_MARKER, *self.pes[62:]]
        return judge_files(self, self.stl, self.write("one.pes", b"".join(received)),
                           *EVERY_OPTION, "--origin", str(ORIGIN), *args)

    def test_reports_gap_markers_and_trusts_the_frames_between_them(self) -> None:
        def time(sent: int, frames_earlier: int = 0) -> str:
            """Return the time of a PES packet of the transmission, or of an earlier frame. The
            frame of the last PES packet before a gap marker is not trusted."""
            return format_frame((decode_pts(self.pes[sent]) - ORIGIN) // TICKS - frames_earlier)

        judged = self.judge_with_gaps()
        self.check("trusted frames", [(item["part"], item["from"], item["to"])
                                      for item in judged.result["trusted_frames"]],
                   [(1, time(0), time(21, 1)), (1, time(24), time(60, 1)), (1, time(62), time(-1))])
        self.check("faults", [(item["number"], item["pes"]) for item in judged.result["faults"]],
                   [(45, 22), (45, 60)])
        self.check("losses", [(item["from"], item["to"]) for item in judged.result["losses"]],
                   [(time(21), time(24)), (time(60), time(62))])
        lines = [line for line in judged.stderr if "between" in line or "record" in line]
        self.check("lines", (len(lines), lines[2]), (
            3, "record that part again: the missing frames were not checked"))

    def test_waives_gap_markers_only_if_an_option_names_them(self) -> None:
        of_45 = self.write("severity", b"45 warning\n")
        of_others = self.write("others", b"others warning\n")
        rows: list[tuple[list[str], str]] = [
            (["--allow-lost"], "waived"), (["--severity", of_45], "waived"),
            (["--severity", of_others], "refused"), ([], "refused")]
        for options, verdict in rows:
            self.check(f"{options}", self.judge_with_gaps(*options).timed_verdict, verdict)

    def test_waives_no_pair_of_whose_recording_nothing_was_read(self) -> None:
        unread = b"".join(damage_packet(item, 37)
                          for item in packets(read_example_file("hello.pes")))
        files = {"accent.stl": [ACCENT], "hello.stl unread.pes": [
            HELLO, self.write("unread.pes", unread)],
            "accent.stl recording.ts": [ACCENT, get_example_path("recording.ts")]}
        self.write("others", b"others warning\n")
        self.write("one", b"52 warning\n")
        for row in read_table(UNREAD_FILES):
            judged = judge_files(self, *files[row["files"]], "--severity",
                                 self.path(row["severity"]))
            is_unread, name = row["verdict"] == "not judged", f"{row['files']} {row['severity']}"
            self.check(f"{name}: verdict", judged.timed_verdict, row["verdict"])
            self.check(f"{name}: reason", judged.result["reason"], NOT_READ if is_unread else None)
            self.check(f"{name}: printed", judged.stderr[-1:] == [NOT_READ], is_unread)
            self.check(f"{name}: has no line", judged.result["line"] is None, is_unread)
            self.must(f"{name}: faults", judged.result["faults"])


# Files, the faults that --severity makes warnings (`others warning` or `52 warning`), and the
# verdict. A character of accent.stl is refused with fault 50, and all of unread.pes with fault 37.
UNREAD_FILES = """
files                   | severity | verdict
accent.stl recording.ts | others   | not judged
hello.stl unread.pes    | others   | not judged
hello.stl unread.pes    | one      | refused
accent.stl              | others   | waived
accent.stl              | one      | refused
accent.stl recording.ts | one      | refused
"""
# What was sent, with options of qc, and the sentence about it. `mild` is a file with `73 warning`.
# The warning `repeat`: with --every 250, the default, a missing repeat would not be noticed.
SENTENCES = {
    "2-20 late by 7": "Refused: 19 of 20 subtitles appeared 7 frames late (the first at "
    "00:00:08:00, the last at 00:01:20:00).",
    "4-7 late by 7": "Refused: 4 of 20 subtitles appeared 7 frames late (the first at "
    "00:00:16:00, the last at 00:00:28:00).",
    "3 late by 7": 'Refused: subtitle 3 (SN 52) at 00:00:12:00, "Number 52", appeared 7 frames '
    'late.',
    "as scheduled": "Accepted: all 20 subtitles have the right text from the first frame to the "
    "last.",
    "as scheduled --within 2": "Accepted: all 20 subtitles have the right text within 2 frames.",
    "as scheduled --strict": "Not accepted: --strict treats warnings as faults (repeat); "
    "everything that was received is right.",
    "3 not repeated --every 49": "Refused: from 00:00:13:24 on, the page had no header for up to "
    "50 frames (usually 25).",
    "3 not repeated --every 49 --severity mild": "Waived, since these faults are declared as "
    "warnings: from 00:00:13:24 on, the page had no header for up to 50 frames (usually 25).",
    "as scheduled --every 20": "Refused: from 00:00:04:20 on, the page had no header for up to 25 "
    "frames; 59 faults in all."}


# Options for a programme that is sent twice, the verdict, and by how many frames the clock of the
# judged airing differs from the first. `first`, `second` and `none` are the PES packets of the
# first airing, of the second, and none that was sent; 0 is the origin of the first airing.
AIRINGS = """
options      | verdict    | frames
             | not judged |
--origin 0   | not judged |
--pes first  | accepted   | 0
--pes second | accepted   | 6000
--pes none   | not judged |
"""


class Sentences(StoryCase):
    """A programme of 20 subtitles with the subtitle numbers 50 to 69."""

    cues, first = subtitle_times(20), 50
    qc_args = ("--origin", f"{ORIGIN}")

    def test_says_what_is_wrong_with_the_programme(self) -> None:
        mild = self.write("mild", b"73 warning\n")
        for story, sentence in SENTENCES.items():
            sent, _, options = story.partition(" --")
            judged = self.judge_changes(sent, *self.qc_args, *(
                f"--{options}".replace("mild", mild).split() if options else ()))
            self.check(f"{story}: result", judged.sentence, sentence)
            self.check(f"{story}: last line but one", judged.printed[-2][:len(sentence)], sentence)

    def test_names_a_subtitle_by_its_place_and_number(self) -> None:
        result = self.judge(self.apply_changes("3 late by 7")).result
        place = {"position": 3, "number": 52, "begin": "00:00:12:00", "end": "00:00:14:10"}
        cause, fault = result["causes"][0], result["faults"][0]
        check_schema(self, result)
        self.check("subtitles", [item["subtitle"]
                                 for item in (*result["causes"], *result["faults"])], [place] * 2)
        self.check("positions", [row["position"] for row in result["subtitles"]],
                   [*range(1, 21)])
        self.check("cause", (cause["name"], cause["frames"], cause["expected_text"]),
                   ("late", 7, "Number 52"))
        self.check("cause of the fault", fault["cause"],
                   {name: value for name, value in cause.items() if name != "part"})

    def test_judges_no_pes_packets_before_frame_0(self) -> None:
        pages = [(ORIGIN - at * TICKS, self.sent[-1][1]) for at in (200, 150, 100, 50)]
        judged = self.judge([*pages, *self.apply_changes("3 late by 4")])
        self.check_answers("four pages", judged, {
            "causes": "3 late by 4 frames", "pes": f"4-{len(self.sent) + 3}"})

    def test_judges_a_programme_that_is_sent_twice_only_if_one_airing_is_named(self) -> None:
        count = len(self.sent)
        path = self.write("one.pes", join_pes_packets([
            *self.sent, *((pts + 6000 * TICKS, packets) for pts, packets in self.sent)]))
        airings = {"first": f"0-{count - 1}", "second": f"{count}-{2 * count - 1}",
                   "none": "99990-99999"}
        for row in read_table(AIRINGS):
            words = [airings.get(word, word) for word in row["options"].split()]
            words = [f"{ORIGIN}" if word == "0" else word for word in words]
            judged, name = judge_files(self, self.stl, path, *words), row["options"]
            self.check_answers(name, judged, {"verdict": row["verdict"]})
            self.check(f"{name}: parts", judged.parts("origin", "pes"), [
                (ORIGIN + int(frames) * TICKS, words[-1]) for frames in row["frames"].split()])
            if "--pes" not in words:
                advice = [line.split() for line in judged.stderr
                          if line.startswith(("try: ", "or: "))]
                self.check(f"{name}: advice", [line[-2:] for line in advice], [["--pes", "I-J"]])
                self.check(f"{name}: options of the call", {*words} <= {*advice[0]}, True)


# The options --page, --option and --complete, and the verdict of the pair. The page of the pair
# `german` is 1A9, and its file is refused without --option german: English has no "ü". In the pair
# `without an end`, no header follows that ends the last page; --complete is the default.
OPTIONS = """
pair             | options                     | verdict
german           | --page 1a9 --option german  | accepted
german           | --page 1a9 --option auto    | accepted
german           | --page 1a9                  | refused
german           |                             | refused
german           | --option german             | not judged
without an end   |                             | refused
without an end   | --complete                  | refused
without an end   | --no-complete               | accepted
"""


class Options(Case):
    def test_judges_by_the_given_page_option_and_end(self) -> None:
        german = write_subtitle_file(self, [(90_000, 90_050, b"Gr\xc8u\xfbe"),
                                            (90_100, 90_150, b"Ja")], "two.stl", language=b"08")
        pairs = {"without an end": [HELLO, get_example_path("no-end.pes")], "german": [
            german, self.schedule(german, "two.pes", "--page", "1A9", "--option", "german",
                                  "--origin", "4242")]}
        for row in read_table(OPTIONS):
            judged = judge_files(self, *pairs[row["pair"]], *row["options"].split())
            self.check(f"{row['pair']} {row['options']}", judged.timed_verdict, row["verdict"])


WRONG = [HEADER, make_numbered_row(22, b"Wrong"), CLOSING]
WRONG_PAGE_FRAME = BEGIN + 300  # frame of the wrong page, within a subtitle
WRONG_PAGE_INDEX = WRONG_PAGE_FRAME - BEGIN  # index of the PES packet with the wrong page
WRONG_PAGE_REPORTED = {"verdict": "refused", "fault numbers": "72", "losses judged": ""}
# With pace N, silence is reported N frames after the last PES packet, which is in 10:00:11:24.
SILENT_STREAM = {"verdict": "refused", "line": "refused 79 Silent frame 10:00:12:01"}
SILENT_FILE = {"verdict": "refused", "line": "refused 79 Silent frame 10:00:12:00", "pace": "1"}
ANNOUNCED = "between 10:00:11:24 and 10:00:12:01: the interval between PES packets is unusually " \
    "long, and the stream announces a jump of the continuity counter"
TOO_CLOSE = "not checked: a missing PES packet, at 1 place where PES packets are too close together"
UNNOTICED_JUMP = "not checked: losses on PID 0x101, at 1 place where the stream announces a " \
    "jump of the continuity counter"
# The number of lost PES packets, and of TS packets in each. In all, 16 or 32 TS packets are lost,
# after which the 4-bit continuity counter goes on as if none were.
LOST_PES = ((2, 8), (4, 8), (4, 4), (16, 1))


def enlarge_pes_packets(data: bytes, count: int) -> bytes:
    """Return a PES packet with so many stuffing units that it fills `count` TS packets."""
    result = data + STUFFING_UNIT * (4 * count - len(data) // 46)
    return result[:4] + (len(result) - 6).to_bytes(2, "big") + result[6:]


def lose(result: list[Packet], count: int, is_announced: bool = False, frame: int = WRONG_PAGE_FRAME
         ) -> list[Packet]:
    """Delete `count` TS packets of Teletext, from the PES packet in this frame on.

    If `is_announced` is true, a discontinuity_indicator follows the last of them.
    """
    return remove_packets_at(result, frame * TICKS, count, is_announced)


class HiddenPages(StoryCase):
    """Each frame from 10:00:00:00 on has a PES packet; that of 10:00:12:00 has a wrong page."""

    cues, origin = TIMES, 0

    def send_wrong_page(self, every: int = 25) -> SentPes:
        sent = fill_missing_frames(schedule_pages(self, self.stl, every=every))
        return [*sent[:WRONG_PAGE_INDEX], (sent[WRONG_PAGE_INDEX][0], WRONG),
                *sent[WRONG_PAGE_INDEX + 1:]]

    def make_stream_packets(self, sent: SentPes, size: int, first: int = 0, count: int = 1 << 20
                            ) -> list[Packet]:
        """Return a stream in which `count` PES packets from `first` on fill `size` TS packets each.
        """
        result = [make_pes_packet(pts, packets) for pts, packets in sent]
        result[first:first + count] = [enlarge_pes_packets(item, size)
                                       for item in result[first:first + count]]
        return make_multiplex(result, Shape(400))

    def test_refuses_a_stream_that_lacks_pes_packets_without_a_gap_in_the_counter(self) -> None:
        for count, size in LOST_PES:
            stream = self.make_stream_packets(self.send_wrong_page(), size, WRONG_PAGE_INDEX, count)
            name = f"{count} PES packets of {size} TS packets"
            self.check_answers(f"{name} received", self.judge_stream(stream), WRONG_PAGE_REPORTED)
            judged = self.judge_stream(lose(stream, count * size))
            self.check_answers(f"{name} lost", judged, {**SILENT_STREAM, "pace": "2"})

    def test_refuses_a_file_that_lacks_pes_packets(self) -> None:
        sent = self.send_wrong_page()
        for count in (1, 2, 3, 5, 7):
            judged = self.judge(sent[:WRONG_PAGE_INDEX] + sent[WRONG_PAGE_INDEX + count:])
            self.check_answers(f"{count} lost", judged, SILENT_FILE)
            self.check(f"{count} lost: printed pace", judged.lines("pace: "),
                       ["PES packets are at most 1 frame apart: --pace 1"])
            self.check(f"{count} lost: advises --pace none",
                       "--pace none" in judged.verdict.sentence, False)

    def test_notes_places_where_pes_packets_are_too_close_to_notice_a_loss(self) -> None:
        # A PES packet in every second frame, and one between two of them
        judged = self.judge([item for at, item in enumerate(self.send_wrong_page(50))
                             if at % 2 == 0 or at == WRONG_PAGE_INDEX + 1])
        self.check_answers("an additional PES packet", judged, {"pace": "2"})
        self.check("note", [note for note in judged.notes if note == TOO_CLOSE], [TOO_CLOSE])

    def test_finds_lost_pes_packets_at_an_announced_jump_of_the_counter(self) -> None:
        stream = self.make_stream_packets(self.send_wrong_page(), size=3)
        self.check_answers("received", self.judge_stream(stream), WRONG_PAGE_REPORTED)
        for options, verdict in (((), "lost"), (("--pace", "none"), "lost"),
                                 (("--allow-lost",), "accepted")):
            judged = self.judge_stream(lose(stream, 3, is_announced=True), *options)
            self.check_answers(f"{options}", judged, {"verdict": verdict, "losses judged": "True"})
            self.must(f"{options}: line", ANNOUNCED in judged.stderr, judged.stderr)
            self.check(f"{options}: output of check", judged.check_lines[-1].split()[0], "accepted")
        for name, count, line in (
                ("one PES packet and two thirds of another", 5, "refused 45 Lost pes 300"),
                ("two PES packets", 6, SILENT_STREAM["line"])):
            judged = self.judge_stream(lose(stream, count, is_announced=True))
            self.check_answers(name, judged, {"verdict": "refused", "line": line})

    def test_notes_a_possible_loss_at_an_announced_jump(self) -> None:
        # A PES packet in every second frame, and the wrong page between two of them
        sent = [item for at, item in enumerate(self.send_wrong_page(50)) if at % 2 == 0 or item[1]]
        wrong = sent.index((WRONG_PAGE_FRAME * TICKS, WRONG))
        frame = sent[wrong - 1][0] // TICKS + 1
        sent[wrong:wrong + 1] = [(frame * TICKS, WRONG), (WRONG_PAGE_FRAME * TICKS, [])]
        stream = self.make_stream_packets(sent, size=3)
        for words in ((), ("--pace", "3"), ("--pace", "none")):
            received = self.judge_stream(stream, *words)
            self.check_answers(f"received {words}", received, {"verdict": "refused"})
            self.check(f"received {words}: note", received.stderr.count(UNNOTICED_JUMP), 0)
            judged = self.judge_stream(lose(stream, 3, is_announced=True, frame=frame), *words)
            self.check_answers(f"lost {words}", judged, {
                "verdict": "accepted", "losses judged": ""})
            self.check(f"lost {words}: notes", (judged.stderr.count(UNNOTICED_JUMP),
                                                judged.notes.count(UNNOTICED_JUMP)), (1, 1))

    def test_ignores_an_announced_jump_without_loss(self) -> None:
        stream = self.make_stream_packets(self.send_wrong_page(), size=1)
        wrong, later = (find_teletext_places(stream, (WRONG_PAGE_FRAME + frames) * TICKS)[0]
                        for frames in (0, 60))
        announcement = lose(stream, 1, is_announced=True)[wrong]
        judged = self.judge_stream([*stream[:later], announcement, *stream[later:]])
        self.check_answers("a jump in a later frame", judged, WRONG_PAGE_REPORTED)


def make_recording(is_stream: bool, pcr_range: tuple[int, int] | None = (0, 9)) -> Any:
    """Return a recording with PES packets on PID 5, and the first and last PCR of its programme."""
    return SimpleNamespace(is_stream=is_stream, packets=SimpleNamespace(pid=5),
                           survey=SimpleNamespace(get_pcr_range=lambda pid: pcr_range))


class LossEvidence(Case):
    def test_describes_what_would_not_be_noticed(self) -> None:
        stream, file = make_recording(True), make_recording(False, pcr_range=None)
        too_close = Pace(REGULAR, interval=1, loss_interval=3, hidden_places=5)
        irregular = "on this PID alone, since the PES packets come at irregular intervals"
        # The pace, the number of frames of the shortest loss that would not be noticed, and the
        # recording. With a loss interval of 3 frames, losses of up to 2 (0.08 s) may be hidden.
        self.check_rows(describe_unchecked_losses, {
            "a pause": ((Pace(PAUSED, 1701), 15, stream), "losses of 0.6 s or more on this PID "
                        "alone, since there is no PES packet for up to 1701 frames"),
            "a file": ((Pace(TOO_FEW), None, file), "missing PES packets, since there are too few "
                       "PES packets to measure their interval"),
            "too close together": ((too_close, 15, stream), "losses of up to 0.08 s on this PID "
                                   "alone, at 5 places where PES packets are too close together"),
            "regular": ((too_close._replace(hidden_places=0), 15, stream), ""),
            "no PCR": ((Pace(IRREGULAR), None, make_recording(True, pcr_range=None)),
                       "losses that the counter does not show, such as 16 TS packets, since the "
                       "programme of PID 0x5 has no PCR"),
            **{f"{frames} frames": ((Pace(IRREGULAR), frames, stream), f"{losses} {irregular}")
               for frames, losses in ((None, "losses"), (0, "losses"), (2, "losses"), (
                   3, "losses of 0.1 s or more"), (25, "losses of 1.0 s or more"))}})

    def test_chooses_a_pace_or_notes_losses_that_are_not_checked(self) -> None:
        regular, irregular = Pace(REGULAR, 1, 3, 2, 9), Pace(IRREGULAR)
        no_pcr = "losses that the counter does not show, such as 16 TS packets, since the " \
            "programme of PID 0x5 has no PCR"
        # The given --pace, the measured pace, and whether there is a PCR; then --pace, the chosen
        # value of --pace, the PES packets that show a loss, and the note on losses
        rows: list[tuple[str, Pace, bool, str | None, list[tuple[str | None, int | None]], str]] = [
            ("", regular._replace(hidden_places=0), True, "2", [("2", 9)], ""),
            ("", regular, False, "2", [("2", 7)], no_pcr),
            ("", irregular, False, None, [(None, None)], no_pcr),
            ("", Pace(BY_EVERY), True, None, [], ""), ("--pace 3", irregular, False, "3", [], ""),
            ("--pace none", irregular, False, "none", [], no_pcr),
            ("--pace none", irregular, True, "none", [], "")]
        for options, pace, has_pcr, value, chosen, note in rows:
            listener = Listener(LineRecorder())
            part = make_part(0, 9, 0, number=4, recording=make_recording(
                True, (0, 9) if has_pcr else None), request=make_example_request(
                    "a.stl", "a.ts", *options.split()))
            with mock.patch.object(timing, "measure_pace", return_value=(pace, None)), \
                    mock.patch.object(timing, "find_late_jumps", return_value=([], 0)):
                new, unchecked = measure_part_pace(part, [], listener)
            self.check(f"{options} {pace} {has_pcr}", (
                new.request.pace_word, [(item.value, item.match_count)
                                        for item in listener.selections], unchecked),
                (value, chosen, [Unchecked(LOSSES, note, 4)] * bool(note)))

    def test_prints_the_pace_of_a_dense_recording(self) -> None:
        pace = Pace(REGULAR, interval=1, loss_interval=3, is_dense=True)
        self.check("line", describe_pace(pace, True), "pace: PES packets are at most 1 frame "
                   "apart, with several in some frames: --pace 2")


TELETEXT_PID, VIDEO_PID = 0x101, 0x200
PRIVATE, H_264 = 6, 27  # stream_types
PART_BEGIN, PART_END, SECOND = 1000, 4000, 25  # in frames
SENT = [TICKS * frame for frame in range(PART_BEGIN, PART_END, SECOND)]  # PTS of the subtitles
ONE_VIDEO = {VIDEO_PID: H_264}


def list_seconds(frames: str) -> range:
    """Return each 25th frame from the first up to the second number, such as `500-4500`."""
    begin, end = map(int, frames.split("-"))
    return range(begin, end, SECOND)


def make_leads(begin: int, end: int, lead: float = 6, growth: float = 0, each: float = SECOND, *,
               video: int = VIDEO_PID, number_shift: int = 0, origin: int = 0) -> list[str]:
    """Return the `lead` line of `survey` for each second, or `each` frames, between two frames.

    Teletext is `lead` frames ahead of the last picture before it, and `growth` more in each line.
    The number of this picture is its frame plus `number_shift`.
    """
    return [f"lead {TELETEXT_PID} {pts_of(frame, origin)} {round(TICKS * (lead + growth * at))} "
            f"{video} {frame + number_shift}"
            for at, frame in enumerate(range(begin, end, int(each)))]


class Pictures(Case):
    """A part from frame 1000 to frame 4000, which sends Teletext in each second."""

    def find_unchecked(self, lines: Sequence[str], streams: Mapping[int, int] = ONE_VIDEO,
                       sent: Sequence[int] = SENT, *, pcr_pid: int = VIDEO_PID,
                       source: str = GIVEN, origin: int = 0) -> list[Unchecked]:
        """Return what was not checked in a programme with these PIDs and their stream_types."""
        survey = Survey()
        for line in ["size 188", f"programme 1 {pcr_pid}", f"stream {TELETEXT_PID} {PRIVATE}", *(
                f"stream {pid} {kind}" for pid, kind in streams.items()), *lines]:
            survey.read_line(line)
        part = TimedPart(PART_BEGIN, PART_END, Clock(origin, source))
        return [*find_desync(survey, TELETEXT_PID, part, 0, 1, sent).unchecked]

    def test_says_what_was_not_checked(self) -> None:
        """Each row is tested with the PTS 0 in frame 0, and with PTS that wrap in the part."""
        for row, origin in itertools.product([*read_vectors("unchecked-pictures.tsv")],
                                             (0, CLOCK - TICKS * 2000)):
            lines = row["lines"].split("; ") if row["lines"] else []
            for frames, *ahead in map(str.split, filter(None, row["ahead"].split("; "))):
                lines += [f"ahead {TELETEXT_PID} {pts_of(frame, origin)} {TICKS * int(by)}"
                          for frame, by in zip(list_seconds(frames), itertools.cycle(ahead))]
            for video, frames, *values in map(str.split, filter(None, row["leads"].split("; "))):
                begin, end = map(int, frames.split("-"))
                lines += make_leads(begin, end, *map(float, values), video=int(video),
                                    origin=origin)
            pcr_pid, *streams = row["programme"].split()
            unchecked = self.find_unchecked(
                lines, {int(pid): int(kind) for pid, kind in (item.split(":") for item in streams)},
                [pts_of(frame, origin) for frames in (row["sent"] or "1000-4000").split()
                 for frame in list_seconds(frames)], pcr_pid=int(pcr_pid), origin=origin)
            name = f"{row['name']}, from {origin}"
            self.check(name, "; ".join(item.kind + item.text.removeprefix(DRIFT)
                                       for item in unchecked), row["unchecked"])
            self.check(f"{name}: parts and times", [
                (item.part, *filter(None, (item.begin, item.end))) for item in unchecked], [
                (1, *re.findall(r"\d\d:\d\d:\d\d:\d\d", item.text)) for item in unchecked])

    def test_a_lead_that_changes_by_a_second_prevents_a_verdict(self) -> None:
        def may_be_wrong(change: int) -> list[bool]:
            """Change the lead by some frames where the decoding times jump, at frame 2500."""
            return [item.may_be_wrong for item in self.find_unchecked([
                *make_leads(500, 2500), *make_leads(2500, 4500, 6 + change, number_shift=-60)])]

        # The change of the lead in frames, and whether the only unchecked place prevents a verdict
        self.check_rows(may_be_wrong, {
            "no change": ((0,), [False]), "a frame": ((1,), [False]),
            "less than a second": ((24,), [False]), "a second": ((25,), [True]),
            "two seconds": ((50,), [True]), "two seconds less": ((-50,), [True])})

    def test_a_jump_near_the_picture_that_gives_the_clock_prevents_a_verdict(self) -> None:
        # The source of the clock, the frame at which decoding times jump and the lead becomes a
        # frame shorter, and whether the clock may be wrong. The last picture before frame 1025 is
        # in the part's first second, the last before frame 1050 is not. The first picture gives the
        # clock if its source is START or TCP.
        for source, frame, is_doubtful in ((START, 900, True), (START, 1025, True),
                                           (START, 1050, False), (TCP, 900, True),
                                           (GIVEN, 1025, False), (RECORDING, 1025, False)):
            unchecked, = self.find_unchecked([*make_leads(500, frame), *make_leads(
                frame, 4500, 5, number_shift=-2)], source=source)
            warns = unchecked.text.endswith(", so the clock of --start may be wrong")
            self.check(f"{source} {frame}", (unchecked.may_be_wrong, warns), (is_doubtful,) * 2)

    def test_a_doubt_prevents_a_verdict_unless_an_error_was_found(self) -> None:
        doubtful = Grounds([CheckSummary(0, True)], Severity(None), doubts=["a", "b"],
                           has_clock=True)
        self.check("no fault", decide(doubtful), Decision(NOT_JUDGED, "a\nb", "undecided"))
        self.check("checks that are required", decide(doubtful._replace(
            doubts=[], missing_kinds=["losses", "clock"])).reason,
            "required but not checked: losses, clock")
        wrong_text = CheckSummary(1, fault_count=1, printed_total=1, fault_numbers=[72])
        self.check("a fault", decide(doubtful._replace(parts=[wrong_text])).word, REFUSED)
