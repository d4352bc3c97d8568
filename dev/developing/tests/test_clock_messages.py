"""Test the messages about the origin and the first picture."""
from __future__ import annotations

import itertools
import re
import unittest
from types import SimpleNamespace
from typing import Any, Sequence

from subtitles.clock.alignment import CueOffset, EarlyCues, OriginFit
from subtitles.clock.origin import (
    OriginEstimate, OriginSearch, compare_with_known_origin, describe_mismatch, format_breaks,
    format_part, report_sent_pages, shift_lines, store_parts)
from subtitles.clock.start import (
    Clock, ESTIMATED_NOTE, FirstPicture, GIVEN, NoFirstPicture, RECORDING, START, TCP,
    StartClock, compute_start_clock, count_skipped, find_first_picture)
from subtitles.clock.stretches import Stretch
from subtitles.common.times import CLOCK, TICKS
from subtitles.request.request import ORIGIN_CHOICE, Selection, Unclear
from subtitles.stream.packets import GapMarker, PacketRun, Packets, PageChange
from subtitles.stream.survey import Survey
from .streams import HEVC, H_264, MPEG_2
from .parts import make_example_request, read_survey
from .stories import read_vectors
from .test_formats_files import refusal

ORIGIN = CLOCK - 5 * TICKS


def make_part_at(frames: int, begin: int = 0, base: int = 0) -> Any:
    """Return a part with this first frame and time base, and an origin `frames` after `ORIGIN`."""
    return SimpleNamespace(origin=(ORIGIN + TICKS * frames) % CLOCK, begin=begin, base=base)


class OriginLines(unittest.TestCase):
    def part(self, matches: int, total: int, content_matches: int, cues: int = 20,
             others: Sequence[OriginFit] = (), within: int = 0, early: EarlyCues | None = None,
             cue_offset: CueOffset | None = None, **more: Any) -> Any:
        """Return a part whose best origin is 9, with `matches` of `total` cues.

        `content_matches` of them match the expected page. `more` has other members of the best
        origin.
        """
        best = OriginFit(9, matches, content_matches, 0, matches, total, None, None, 0, [0])
        base = SimpleNamespace(cues=[None] * cues, within=within,
                               find_cue_offset=lambda _: cue_offset)
        return SimpleNamespace(best=best._replace(**more), others=others, time_base=base,
                               early=early, origin=9, begin=0, end=50, base=0, overlapping=[])

    def store(self, parts: Sequence[Any], bases: Sequence[Any] = (), **options: Any
              ) -> OriginEstimate:
        """Return the estimate with these parts if the search has these options."""
        estimate = OriginEstimate()
        store_parts(estimate, OriginSearch("a", "b", **options), bases, parts)
        return estimate

    def test_describes_a_part_by_its_best_origin(self) -> None:
        for row in read_vectors("origin-reports.tsv"):
            matches, total, content_matches, exact, others, within = (
                int(row[column]) for column in ("matches", "cues", "texts", "exact", "others",
                                                "--within"))
            early, offset, delays = ([int(number) for number in re.findall(r"-?\d+", row[column])]
                                     for column in ("early", "offset", "delays"))
            part = self.part(
                matches, total, content_matches, within=within, exact_matches=exact, delays=delays,
                others=[OriginFit(at, 9, 9, 1, 9, 12, None, None, 900) for at in range(others)],
                early=EarlyCues(*early) if early else None,
                cue_offset=CueOffset("in-cues" in row["offset"], *offset) if offset else None,
                first_unmatched=int(row["unmatched"]) if row["unmatched"] else None)
            lines = row["report"].split(" / ")
            with self.subTest(row["name"]):
                self.assertEqual([*format_part(part, count=20, has_picture=True)], lines)
                self.assertEqual([*format_part(part, count=20)], [
                    line.replace("--origin or --start", "--origin") for line in lines])

    def test_says_how_many_cues_a_part_has_if_the_file_has_others(self) -> None:
        for count, words in ((20, "the file has 20 cues"), (9, "this part has 20 cues")):
            line, = format_part(self.part(9, 9, 9), count)
            self.assertIn(f"; {words};", line)

    def test_names_another_programme_if_few_of_its_texts_are_sent(self) -> None:
        # How many texts the file has, how many of these and of other texts are sent, and whether
        # the file is probably another programme's: the file has and the recording sends at least
        # three texts, and fewer than a quarter of the smaller number are the same.
        for count, own, others, is_other in ((8, 1, 7, True), (8, 2, 6, False), (3, 0, 9, True),
                                             (2, 0, 9, False), (9, 0, 2, False)):
            cues, *sent = ([SimpleNamespace(letters=b"%d" % at if at else b"") for at in texts]
                           for texts in (range(count + 1), range(count - own + 1, count + 1),
                                         (0, *range(count + 1, count + others + 1))))
            bases: Any = [SimpleNamespace(cues=cues, changes=dict(enumerate(it))) for it in sent]
            self.assertEqual(describe_mismatch(self.part(4, 9, 4), bases), "probably another "
                             "programme's subtitle file: 4 of 9 cues match" * is_other, count)
            self.assertEqual(describe_mismatch(self.part(4, 8, 4), bases), "", count)

    def test_needs_one_part_more_than_breaks(self) -> None:
        for count, breaks in itertools.product(range(5), (1, 2, 3)):
            parts = [self.part(20, 20, 20) for _ in range(count)]
            estimate, found = self.store(parts, breaks=breaks), max(count - 1, 0)
            words = {0: "no break", 1: "1 break"}.get(found, f"{found} breaks")
            with self.subTest(parts=count, breaks=breaks):
                result = estimate.status, len(estimate.parts), estimate.breaks
                if count == breaks + 1:
                    self.assertEqual(result, (0, count, None))
                else:
                    self.assertEqual(result, (1, 0, found))
                    self.assertEqual(estimate.lines, [
                        f"{words} found, but --breaks is {breaks}", *format_breaks(parts)])

    def test_describes_each_part(self) -> None:
        in_no_part = [f"the subtitle from 00:00:0{at}:00 to 00:00:0{at + 2}:00 reaches into the "
                        "next part, so it is in no part" for at in range(3)]
        for origin, bases in itertools.product((None, 9), (1, 2)):
            parts = [self.part(cues - 1, cues, cues - 1, cues) for cues in (20, 12, 6)]
            for at, part in enumerate(parts):
                part.begin, part.end, part.origin = 1000 * at, 1000 * at + 500, 9 + at
                part.time_base.packets = at, 7
            parts[0].overlapping, parts[1].overlapping = (
                [SimpleNamespace(begin=25 * at, end=25 * at + 50) for at in several]
                for several in ((0, 1), (2,)))
            estimate = self.store(parts, [part.time_base for part in parts][:bases],
                                  origin=origin, breaks=2)
            pes = [f"--pes {at}-7 " * (bases > 1) for at in range(3)]
            self.assertEqual(estimate.printed, [
                f"--from 00:00:00:00 --to 00:00:20:00 {pes[0]}--origin 9",
                f"--from 00:00:40:00 --to 00:01:00:00 {pes[1]}--origin 10",
                f"--from 00:01:20:00 --to 00:01:40:00 {pes[2]}--origin 11"], (origin, bases))
            self.assertEqual([part[:5] for part in estimate.parts], [
                (9 + at, (at, 7) if bases > 1 else None, (1000 * at, 1000 * at + 500), cues - 1,
                 cues) for at, cues in enumerate((20, 12, 6))], (origin, bases))
            self.assertEqual((estimate.status, estimate.ticks_late), (0, origin and 0))
            self.assertEqual(estimate.lines, [
                "3 parts: 35 of 38 cues match", *format_breaks(parts), *format_part(parts[0], 38),
                *["the subtitles match --origin 9"] * (origin == 9), *in_no_part[:2],
                *format_part(parts[1], 38), in_no_part[2], *format_part(parts[2], 38)])

    def test_is_unclear_if_many_cues_of_a_part_are_early(self) -> None:
        many, few = EarlyCues(9, 20, 1), EarlyCues(1, 30, 1)
        # The early cues of both parts, the given origin of the first part, and the status
        for early, origin, status in (((None, None), None, 0), ((many, None), None, 1),
                                      ((many, None), 9, 0), ((None, many), None, 1),
                                      ((None, many), 9, 1), ((many, few), 9, 0)):
            parts = [self.part(20, 20, 20, early=item) for item in early]
            estimate = self.store(parts, [parts[0].time_base], origin=origin, breaks=1)
            self.assertEqual((estimate.status, len(estimate.parts)), (status, 0 if status else 2),
                             early)

    def test_compares_an_origin_with_a_given_one(self) -> None:
        for row in read_vectors("origin-delays.tsv"):
            known, ticks = int(row["given"]) if row["given"] else None, int(row["ticks"])
            estimate, part = OriginEstimate(), self.part(20, 20, 20)
            part.origin = ((known or 0) + ticks) % CLOCK
            compare_with_known_origin(estimate, known, part)
            self.assertEqual(estimate.lines, [
                f"compared with --origin {known or 0}, the subtitles are {row['delay']}"] if
                row["delay"] else [f"the subtitles match --origin {known}"] * (known is not None),
                             row)
            self.assertEqual(estimate.ticks_late, None if known is None else ticks, row)

    def test_reports_skipped_pes_packets_and_other_pages(self) -> None:
        pages = {"888": 9, "150": 2, "777": 3, "101": 1, "102": 1, "103": 1, "104": 1}
        cut = "one: is cut; only the PES packets before it are used"
        marked = "1 gap marker was ignored here, but check refuses gap markers (fault 45)"
        # Two PES packets with a PTS, a gap marker, and a PES packet without a PTS
        runs = [PacketRun(0, 2, 0, TICKS, "h", ""), PacketRun(2, 1, None, 0, "m", ""),
                PacketRun(3, 1, None, 0, "", "")]
        rows: dict[str, tuple[int, str, bool, dict[str, int], list[str]]] = {
            "only PTS": (1, "", True, pages, []), "cut off": (1, "is cut", True, pages, [cut]),
            "a gap marker": (2, "", True, pages, [marked]),
            "all": (3, "is cut", True, pages, [
                cut, marked, "1 of 4 PES packets have no PTS and were skipped: they are refused "
                "with fault 34"]),
            "other pages": (1, "", False, pages, ["one has no header of page 888; other subtitle "
                                                  "pages: 777, 150, 101, 102, 103"]),
            "no other page": (1, "", False, {"888": 9}, ["one has no header of page 888; other "
                                                         "subtitle pages: none"])}
        for name, (count, damage, is_sent, header_counts, expected) in rows.items():
            lines, packets = list[str](), Packets(0, runs[:count])
            packets.gap_markers = [GapMarker(2, None, 0, 0)] * (count > 1)
            packets.changes = [PageChange(0, b"", 0)] * is_sent
            packets.damage, packets.header_counts = damage, header_counts
            self.assertEqual(report_sent_pages(packets, OriginSearch("a", "one"), lines), is_sent)
            self.assertEqual(lines, expected, name)

    def test_reports_the_length_of_each_break(self) -> None:
        parts = [make_part_at(0), make_part_at(25, 100), make_part_at(-50, 200),
                 make_part_at(0, 300, 1)]
        parts.append(SimpleNamespace(origin=ORIGIN + 7, begin=400, base=1))
        self.assertEqual(list(format_breaks(parts)), [
            "part 2 begins at 00:00:04:00, after a break of 00:00:01:00",
            "part 3 begins at 00:00:08:00, where the recording lacks 00:00:03:00",
            "part 4 begins at 00:00:12:00, where the PTS go back",
            "part 5 begins at 00:00:16:00, after a break of 00:00:00:00 and 7 ticks"])
        self.assertEqual(list(format_breaks(parts[:1])), [])

    def shift_texts(self, *frames: int, bases: tuple[int, ...] = ()) -> list[str]:
        """Return the lines printed for one-minute parts with these delays in frames."""
        parts = [make_part_at(item, 1500 * at, (*bases, *[0] * 99)[at])
                 for at, item in enumerate(frames)]
        cues = [SimpleNamespace(frame=1500 * at) for at in range(len(parts))]
        tracks: list[Any] = [SimpleNamespace(cues=cues, start=item, base=part.base)
                             for item, part in zip(frames, parts)]
        return shift_lines([Stretch(item, at, at + 1) for at, item in enumerate(tracks)], parts,
                           ORIGIN)

    def test_reports_from_which_time_subtitles_are_late(self) -> None:
        printed = "on, subtitles are"
        self.assertEqual(self.shift_texts(0, 26, 0), [
            f"from 00:01:00:00 {printed} 1.04 s (26 frames) late",
            f"from 00:02:00:00 {printed} on time"])
        self.assertEqual(self.shift_texts(0, -1500, -3000), [
            f"from 00:01:00:00 {printed} 60.00 s (1500 frames) early",
            f"from 00:02:00:00 {printed} 120.00 s (3000 frames) early"])
        self.assertEqual(self.shift_texts(0, 5, 1, bases=(0, 1, 1)), [
            "from 00:01:00:00 on, where the PTS go back, subtitles are 0.20 s (5 frames) late",
            f"from 00:02:00:00 {printed} 0.04 s (1 frame) late"])

    def test_reports_the_first_19_changes_of_the_delay_and_the_last(self) -> None:
        for count, omitted in ((20, ""), (21, "and 1 more change"), (25, "and 5 more changes")):
            *lines, last = self.shift_texts(*((at * 7) % 5 * 30 for at in range(count + 1)))
            self.assertEqual((len(lines[:19]), lines[19:]), (19, [omitted] * bool(omitted)), count)
            self.assertTrue(last.startswith(f"from 00:{count:02}:00:00"), last)


TELETEXT, VIDEO = 0x101, 0x200
# Display order of nine pictures that are sent in the order I B B P B B P B B.
GROUP = [2, 0, 1, 5, 3, 4, 8, 6, 7]


def list_programme_lines(*streams: tuple[int, int]) -> list[str]:
    return [f"programme 1 {VIDEO}", f"stream {TELETEXT} 6",
            *(f"stream {pid} {kind}" for pid, kind in streams)]


def survey_lines(lines: Sequence[str], is_complete: bool = True) -> Survey:
    survey = read_survey(*lines)
    survey.is_complete = is_complete
    return survey


def list_picture_lines(*pts: int, kind: int = MPEG_2, skipped: int = 0) -> list[str]:
    """Return the lines of `survey` for pictures with these PTS, after `skipped` other pictures."""
    return [*list_programme_lines((VIDEO, kind)), f"video {VIDEO} {skipped}",
            *(f"picture {VIDEO} {item}" for item in pts)]


def make_picture_lines(frames: Sequence[int | None], end: str = "0 0") -> list[str]:
    """Return the lines of `survey` for pictures at these frames, after three other pictures.

    The PTS wrap between the pictures. `end` has the numbers of lost and of scrambled packets.
    """
    pts = ["-" if item is None else (CLOCK - 5 + TICKS * item) % CLOCK for item in frames]
    return [*list_picture_lines(skipped=3), *(f"picture {VIDEO} {item}" for item in pts),
            f"pictures {VIDEO} {end}"]


def find(lines: Sequence[str], is_complete: bool = True) -> str | FirstPicture:
    """Find the first picture in lines of `survey`. Return the reason if there is none."""
    try:
        return find_first_picture(survey_lines(lines, is_complete), TELETEXT)
    except NoFirstPicture as reason:
        return str(reason)


class FirstPictures(unittest.TestCase):
    """The first picture of a programme with Teletext on PID 0x101 and video on PID 0x200."""

    def test_reads_all_supported_formats(self) -> None:
        for kind in (0x01, MPEG_2, H_264, HEVC):
            self.assertEqual(find(list_picture_lines(9, kind=kind)),
                             FirstPicture(VIDEO, kind, 9, skipped=0), kind)
        self.assertIn("(HEVC, PID 0x200) has PTS 9; 1 earlier PES packet of video was skipped",
                      FirstPicture(VIDEO, HEVC, 9, skipped=1).line())

    def test_refuses_skipped_frames_unless_the_group_is_cut_off(self) -> None:
        lines = list_picture_lines(0, 3 * TICKS)
        self.assertIn("skip 2 frames", str(find(lines)))
        # Four numbers after the PID mean that the recording ends within the group.
        self.assertEqual(find([*lines, f"pictures {VIDEO} 0 0 0 0"]),
                         FirstPicture(VIDEO, MPEG_2, 0, 0))

    def start(self, lines: Sequence[str], pts: Sequence[int], within: int = 0) -> StartClock:
        """Return the clock if the first picture has the time 00:00:00:02. `pts` are of Teletext."""
        packets = Packets(TELETEXT, [PacketRun(at, 1, item % CLOCK, 0, "h", "")
                                     for at, item in enumerate(pts)])
        request = make_example_request("a.stl", "a.ts", "--start", "00:00:00:02", "--within",
                                       str(within))
        return compute_start_clock(request, survey_lines(lines), packets)

    def test_the_clock_of_the_first_picture_is_shifted_to_the_nearest_teletext_pts(self) -> None:
        for first, row in itertools.product((0, CLOCK - 3), read_vectors("picture-clocks.tsv")):
            pts = [first + TICKS * (7 + at) + int(later)
                   for at, later in enumerate(row["ticks"].split())]
            within = int(row["--within"])
            if not row["shift"]:
                with self.assertRaises(Unclear):
                    self.start(list_picture_lines(first), pts, within)
                continue
            start = self.start(list_picture_lines(first), pts, within)
            origin = (first - 2 * TICKS + int(row["shift"])) % CLOCK
            self.assertEqual((start.clock, start.frame), (Clock(origin, START), 2), (first, row))
            self.assertTrue(start.lines[1].endswith(f", {row['words']}"), (first, row, start))

    def test_gives_the_distance_to_the_other_picture_of_the_group_in_frames(self) -> None:
        lines = [*list_picture_lines(TICKS, 0), f"group {VIDEO} 0 0 open"]
        clock = self.start(lines, [7 * TICKS, 8 * TICKS + 5], within=1).clock
        self.assertEqual(clock.picture_offset, -1)
        for other, frames in ((None, 0), (0, -3), (5 * TICKS + 9, 2), (5 * TICKS - 9, 2),
                              (CLOCK - TICKS, -4)):
            self.assertEqual(FirstPicture(VIDEO, MPEG_2, 3 * TICKS, 0, other).picture_offset,
                             frames, other)

    def test_only_an_estimated_clock_is_a_choice_with_evidence(self) -> None:
        for source, evidence in itertools.product((RECORDING, GIVEN, START, TCP), (
                None, Selection(ORIGIN_CHOICE, "8", "words"))):
            chosen = evidence or Selection(ORIGIN_CHOICE, "7", ESTIMATED_NOTE)
            self.assertEqual(Clock(7, source, evidence=evidence).get_selection(part=2),
                             chosen._replace(part=2) if source == RECORDING else None,
                             (source, evidence))

    def test_finds_the_first_picture_of_each_kind_of_group(self) -> None:
        # The PTS of the picture with the random_access_indicator, and the smallest PTS of `GROUP`
        flagged, least = (CLOCK - 5 + TICKS * 2) % CLOCK, CLOCK - 5
        skipped = "; 3 earlier PES packets of video were skipped"
        # The order of pictures, and whether the group is closed ("": it has no header). Expected:
        # the PTS of the first picture and of the other one, its distance in frames, the line's end
        for frames, form, first, other, distance, more in (
                (GROUP, "", least, None, 0, ""),
                (GROUP, "closed", least, flagged, 2, "; the picture with the "
                 f"random_access_indicator has PTS {flagged}, 2 frames later"),
                (GROUP, "open", flagged, least, -2, "; earlier pictures of its group, from PTS "
                 f"{least} on (2 frames), can't be decoded"),
                (GROUP, "unknown", flagged, least, -2, "; earlier pictures of its group, from "
                 f"PTS {least} on (2 frames), can't be decoded"),
                ([0, 1, 2], "open", least, None, 0, ""), ([0, 2, 1], "closed", least, None, 0, "")):
            lines = make_picture_lines(frames)
            result = find([*lines[:-1], *[f"group {VIDEO} {flagged} {least} {form}"] * (form != ""),
                           lines[-1]])
            self.assertEqual(result, FirstPicture(VIDEO, MPEG_2, first, 3, other), (frames, form))
            assert isinstance(result, FirstPicture)
            self.assertEqual((result.picture_offset, result.line()), (
                distance, f"the first picture (MPEG-2, PID 0x200) has PTS {first}{skipped}{more}"),
                             (frames, form, first))

    def test_asks_about_a_delay_that_is_the_distance_to_the_other_picture(self) -> None:
        for row in read_vectors("picture-questions.tsv"):
            delay = int(row["delay"]) if row["delay"] else None
            question = Clock(0, START, delay, picture_offset=int(row["distance"])).question()
            self.assertEqual(question, row["question"], row)

    def test_uses_the_first_video_pid_of_a_programme(self) -> None:
        first, moved = list_programme_lines((VIDEO, MPEG_2)), list_programme_lines((0x201, H_264))
        both = list_programme_lines((VIDEO, MPEG_2), (0x201, H_264))
        other = [line.replace("programme 1", "programme 2") for line in moved]
        pictures = make_picture_lines([0, 1])[len(first):]
        # Lines of PMTs, and whether the first picture on PID 0x200 is found
        rows = {"moved": ([*first, *moved], True),
                "there and back": ([*first, *moved, *first], True),
                "then both": ([*first, *both], True), "first both": ([*both, *first], False),
                "first none": ([*list_programme_lines(), *first, *moved], True),
                "then none": ([*first, *list_programme_lines()], True),
                "the other one first": ([*moved, *first], False),
                "of two programmes": ([*first, *other], False)}
        for (name, (lines, is_found)), is_complete in itertools.product(
                rows.items(), (True, False)):
            result = find([*lines, *pictures], is_complete)
            self.assertEqual(isinstance(result, FirstPicture) and result.pid == VIDEO, is_found,
                             (name, result))

    def test_reports_why_there_is_no_first_picture(self) -> None:
        two = list_programme_lines((VIDEO, MPEG_2), (0x201, H_264))
        rows: list[tuple[list[str], bool, str]] = [
                ([], True, "no PMT names PID 0x101"),
                (list_programme_lines(), True, "has no video: PID 0x101 stream_type 06"),
                (two, True, "has several video PIDs: PID 0x101 stream_type 06, PID 0x200 MPEG-2, "
                            "PID 0x201 H.264"),
                (list_programme_lines((VIDEO, 0x33)), True, "VVC video is not supported"),
                (list_programme_lines((VIDEO, MPEG_2)), True,
                 "MPEG-2, has no PES packets of video"),
                (list_programme_lines((VIDEO, MPEG_2)), False,
                 "no PES packet of MPEG-2 of PID 0x200 had the random_access_indicator so far"),
                ([*list_programme_lines((VIDEO, MPEG_2)), f"pictures {VIDEO} 0 0 7 0"], True,
                 "none of 7 PES packets of MPEG-2 of PID 0x200 has the random_access_indicator"),
                (make_picture_lines([0, 1], "1 0"), True,
                 "MPEG-2 of PID 0x200 lost 1 TS packet among"),
                (make_picture_lines([0, 1], "1 1"), True, "is scrambled"),
                (make_picture_lines([0, None]), True,
                 "a picture of MPEG-2 of PID 0x200 has no PTS"),
                (make_picture_lines([None]), True, "a picture of MPEG-2 of PID 0x200 has no PTS"),
                # With two pictures in each PES packet, the first displayed picture has no PTS.
                (make_picture_lines(GROUP[::2] + [9]), True,
                 "skip 3 frames: a PES packet has several")]
        for lines, is_whole, words in rows:
            self.assertIn(words, find(lines, is_whole), (lines, is_whole))

    def test_does_not_take_a_picture_before_an_early_jump(self) -> None:
        # The number of pictures before the first one, the number of the picture at which decoding
        # times jump by 11 frames, and whether it is in between. Teletext follows picture 30.
        for skipped, number, is_refused in ((0, 20, True), (0, 30, True), (0, 31, False),
                                            (19, 20, False), (18, 20, True)):
            lines = [*list_picture_lines(0, skipped=skipped), f"steps {VIDEO} {TICKS} 2 {TICKS} 2",
                     f"steps {VIDEO} {TICKS} {number - 5} {11 * TICKS} {number}",
                     f"steps {VIDEO} {TICKS} 40 {TICKS} 40",
                     *(f"lead {TELETEXT} {at} 0 {VIDEO} {at}" for at in (30, 500))]
            reason = refusal(lambda: self.start(lines, [7 * TICKS]), NoFirstPicture)
            self.assertEqual(reason, "the decoding times of PID 0x200 jump before the first PES "
                             "packet of PID 0x101" if is_refused else "", (skipped, number))

    def test_counts_frames_without_a_pts(self) -> None:
        for first, row in itertools.product((0, CLOCK - TICKS), read_vectors(
                "skipped-pictures.tsv")):
            frames = list[float]()
            for begin, _, end in (item.partition("-") for item in row["frames"].split()):
                frames += range(int(begin), int(end) + 1) if end else [float(begin)]
            pts = [(first + round(TICKS * frame)) % CLOCK for frame in frames]
            self.assertEqual(count_skipped(pts, row["cut"] == "yes"), int(row["skipped"]),
                             (first, row))
