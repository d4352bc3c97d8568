"""Test where video timestamps jump in relation to Teletext timestamps, and steps of both."""
from __future__ import annotations

import itertools
import random
import re
from types import SimpleNamespace
from typing import Any, Mapping, Sequence

from developing.pes import decode_pts
from subtitles.clock.start import Clock, GIVEN, RECORDING, START, TCP, TimedPart
from subtitles.common.checks import DRIFT
from subtitles.common.times import CLOCK, format_frame, pts_of, subtract_pts, TICKS
from subtitles.formats.listing import PICTURES_LEFT
from subtitles.judging.desync import find_departures, find_desync, has_own_clock
from subtitles.judging.timing import find_late_jumps
from subtitles.judging.unchecked import summarize_pictures
from subtitles.stream.pace import Pace, REGULAR
from subtitles.stream.packets import find_announced_jumps, PCRStep
from subtitles.stream.pictures import (
    Departure, find_steady_change, have_moved, locate_changes_of_video, locate_departures,
    mark_pcr_jumps, separate_clock_jumps, VideoLead)
from subtitles.stream.steps import (
    ALIKE_TICKS, find_clock_steps, find_unusual_steps, MAX_REORDER_TICKS, measure_reordering,
    StepRange, UnusualStep)
from subtitles.stream.survey import Survey
from .bench import Case
from .judged import judge_files
from .parts import make_packets, read_survey
from .stories import read_vectors, repeat_words
from .streams import multiplex_programmes, Programme, TELETEXT_PID
from .transmissions import schedule_pes, subtitle_times, write_programme

# Tests of `lead` lines of `survey`, and of the clock jumps that are found in them. A lead is the
# PTS of a Teletext PES packet minus the decoding time of the last picture before it.

PID, VIDEO = 0x101, 0x200
SECOND = 25  # frames in a second


def make_video_leads(leads: Sequence[float], steps: Mapping[int, float] = {},
                     first: int = 0) -> list[VideoLead]:
    """Return `lead` lines at intervals of a second, with these leads in frames. `steps` has indexes
    of lines, and the frames by which decoding times jump before the line."""
    result, missing = list[VideoLead](), 0.0
    for at, ahead in enumerate(leads):
        missing += steps.get(at, 0)
        time = first + round(TICKS * (SECOND * at + missing))
        lead = round(TICKS * ahead)
        result.append(VideoLead((time + lead) % CLOCK, lead, SECOND * at))
    return result


class PictureDepartures(Case):
    """Places (`Departure`) where the pictures leave the Teletext: the decoding times jump by some
    frames, and the lead changes by as much. The PTS of subtitles are early by that for viewers."""

    def list_jumps(self, leads: Sequence[VideoLead], ahead: Sequence[int] = (9,) * 80,
                   unusual: Sequence[UnusualStep] = ()) -> list[float | None] | None:
        """Return the size of each jump in frames, or `None` if it is unclear. The Teletext PTS of
        each lead are `ahead` of the PCR by these frames."""
        departures = locate_departures(leads, unusual, [
            (lead.pts, TICKS * frames) for lead, frames in zip(leads, ahead)])
        return None if departures is None else [
            item.ticks and item.ticks / TICKS for item in departures]

    def test_finds_jumps_of_the_pictures_against_the_teletext(self) -> None:
        for by, first in itertools.product((1, 2, 12, 250, -1, -2, -250, 0.5, -0.5),
                                           (0, CLOCK - TICKS * 500)):
            # The later leads, the jump of the decoding times, and the jumps found
            rows: dict[str, tuple[float, Mapping[int, float], list[float]]] = {
                "only the pictures jump": (6 - by, {40: by}, [by]),
                "pictures and Teletext jump": (6, {40: by}, []),
                "the multiplexer changes its delay": (6 + by, {}, [])}
            for name, (after, steps, expected) in rows.items():
                self.check(f"{name} by {by} from {first}", self.list_jumps(
                    make_video_leads([6.0] * 40 + [after] * 40, steps, first)), expected)

    def test_finds_several_departures_in_order(self) -> None:
        leads = make_video_leads([6.0] * 20 + [-3.0] * 20 + [6.0] * 40, {20: 9, 40: -9, 60: 9})
        self.check("three steps", locate_departures(leads), [
            Departure(leads[20].pts, leads[19].pts, 9 * TICKS, ahead=6 * TICKS),
            Departure(leads[40].pts, leads[39].pts, -9 * TICKS)])
        for first, (after, ticks) in itertools.product((6, -3), ((0, 6 * TICKS), (4, None))):
            near = make_video_leads([first] * 20 + [first - 3] + [first - 6 + after] * 20,
                                    {20: 3, 21: 3})
            self.check(f"two steps with one line between, {first} {after}", locate_departures(
                near), [Departure(near[21].pts, near[19].pts, ticks, change=0 if ticks
                                  else 2 * TICKS, ahead=max(first, 0) * TICKS)])
        for count in (0, 1):
            self.check(f"{count} lines", locate_departures(leads[:count]), [])
        # The mean lead changes by at least its change less 2.5 standard errors.
        rows: dict[str, tuple[list[float], list[float], str, int]] = {
            "steady leads": ([6.0] * 10, [8.0] * 30, "3@240 4@245", 2 * TICKS),
            "leads that vary": ([6.0, 7.0] * 5, [9.0, 10.0] * 15, "3@240 4@245", 9079),
            "the same mean": ([6.0, 7.0] * 5, [6.0, 7.0] * 15, "3@240 -4@245", 0)}
        for name, (before, later, unusual, change) in rows.items():
            self.check(f"two steps between two lines, {name}", locate_departures(
                make_video_leads(before + later), read_steps(unusual)), [
                    Departure(245 * TICKS, 239 * TICKS, None, change, MAX_REORDER_TICKS)])

    def test_finds_the_places_where_the_lead_changes(self) -> None:
        for row in read_vectors("lead-departures.tsv"):
            departures = locate_departures(make_video_leads(
                [float(lead) for lead in repeat_words(row["leads"]).split()],
                {step.number: step.ticks / TICKS for step in read_steps(row["jumps"])}),
                                           read_steps(row["steps"]))
            self.check(row["name"], "irregular" if departures is None else " ".join(
                f"{'?' if item.ticks is None else f'{item.ticks / TICKS:g}'}@{item.pts / TICKS:g}"
                for item in departures), row["found"])

    def test_measures_a_jump_at_which_pictures_are_lost_too(self) -> None:
        for lost in (0, 1, 2, 5, 12):
            self.check(f"{lost} lost", self.list_jumps(
                make_video_leads([6.0] * 40 + [6.0 - 50] * 40, {40: 50 + lost})), [50])
        self.check("none lost, but few leads that vary", self.list_jumps(
            make_video_leads([6.0, 7, 6, 7, 6] * 8 + [8.0] * 2, {40: -1})), [-1])

    def test_a_loss_of_a_second_is_unclear_if_teletext_may_jump_against_the_pcr(self) -> None:
        # Lost pictures, frames by which PTS are ahead of the PCR in spans of ten leads, and jumps
        for lost, ahead, expected in (
                (50, "99999999", []), (50, "99998888", [None]), (50, "79999999", []),
                (50, "", [None]), (25, "", [None]), (24, "99998888", []), (24, "", []),
                (-50, "", [])):
            self.check(f"{lost} lost, {ahead}", self.list_jumps(
                make_video_leads([6.0] * 80, {40: lost}),
                [int(frames) for frames in ahead for _ in range(10)]), expected)

    def test_finds_a_lead_that_changes_steadily_but_not_a_jump_of_the_teletext_pts(self) -> None:
        for name, slope, count in (("it grows", 0.02, 100), ("it shrinks", -0.02, 100),
                                   ("in 60 leads", 0.02, 60), ("in 59 leads", 0.02, 59),
                                   ("by a frame", 1 / 60, 61)):
            leads = make_video_leads([6 + slope * at for at in range(count)])
            change = round((count - 1) * slope * TICKS) if count > 59 else 0
            self.check(name, find_steady_change(leads), change)
        for vary, change in ((0.2, round(99 * 0.02 * TICKS)), (0.3, 0)):
            self.check(f"the leads vary by {vary}", find_steady_change(make_video_leads(
                [6 + 0.02 * at + vary * ((at + 1) // 2 % 2) for at in range(100)])), change)
        for slopes, longest in (((0.04, 0.02), 0.04), ((0.02, 0.04), 0.04), ((-0.04, 0.02), -0.04)):
            self.check(f"after few leads and after a step: {slopes}", find_steady_change(
                make_video_leads([6.0] * 9 + [6 + slope * at for slope in slopes
                                              for at in range(100)], {9: 9, 109: 9})),
                round(99 * longest * TICKS))
        for by in (50, 25 * 3600, -25 * 3600):
            jumped = [lead._replace(pts=(lead.pts + TICKS * by) % CLOCK, ticks=lead.ticks + TICKS
                                    * by) for lead in make_video_leads([6.0] * 100)[50:]]
            self.check(f"the PTS jump by {by} frames", find_steady_change(
                [*make_video_leads([6.0] * 50), *jumped]), 0)

    def test_finds_other_delays_of_later_videos_across_the_wrap_of_the_pts(self) -> None:
        old, new, third, fourth = (
            make_video_leads([lead] * 20, first=CLOCK + TICKS * (500 * at - 500))
            for at, lead in enumerate((6.0, 5.5, -1.0, 3.0)))
        self.check("places", locate_changes_of_video([[], old, new, third, fourth]), [
            Departure(new[0].pts, old[-1].pts, None, change=TICKS // 2, ahead=6 * TICKS),
            Departure(third[0].pts, new[-1].pts, None, change=13 * TICKS // 2,
                      ahead=11 * TICKS // 2),
            Departure(fourth[0].pts, third[-1].pts, None, change=4 * TICKS)])
        self.check("two leads", locate_changes_of_video([old, make_video_leads([5, 7])]), [
            Departure(5 * TICKS, old[-1].pts, None, ahead=6 * TICKS)])
        changed = make_video_leads([9.0] * 10 + [6.0] * 10, first=CLOCK - TICKS * 500)
        self.check("one lead of another video before a change", locate_changes_of_video(
            [changed, [changed[10]._replace(pts=changed[10].pts - TICKS)], new]), [
                Departure(new[0].pts, old[-1].pts, None, change=TICKS // 2, ahead=6 * TICKS)])

    def test_the_lead_may_differ_from_the_jump_by_less_than_half_a_frame(self) -> None:
        for jump, change, expected in (
                (5, 5.0, [5]), (5, 5.4, [5]), (5, 0.4, []), (5, 0.0, []), (5, -3.0, [None]),
                (0.5, 0.3, [0.5]), (0.5, 0.2, []), (0.25, 0.25, [0.25])):
            self.check(f"the times jump by {jump}, the lead falls by {change}", self.list_jumps(
                make_video_leads([8.0] * 9 + [8 - change] * 9, {9: jump})), expected)

    def test_reports_unclear_departures(self) -> None:
        chance = random.Random(1)

        def make_leads_around(frames: float, jitter: float, count: int = 40) -> list[float]:
            return [frames - chance.uniform(0, jitter) for _ in range(count)]

        rows: dict[str, tuple[Any, list[int | None]]] = {  # leads, and jumps in frames
            "a frame of jitter": (make_video_leads(
                make_leads_around(6, 1) + make_leads_around(4, 1), {40: 2}), [2]),
            "eight frames of jitter": (make_video_leads(
                make_leads_around(6, 8, 9) + make_leads_around(4, 8, 9), {9: 2}), [None]),
            "one line before": (make_video_leads([6.0] + [5, 3] * 9, {1: 2}), [None]),
            "one line behind": (make_video_leads([6, 4] * 9 + [3.0], {18: 2}), [None]),
            "the extremes of leads that vary by more": (
                make_video_leads([-2, 5, 1, 1, 1, 1] * 5 + [-1, 6, 1, 1, 2, 2] * 5, {30: -1}),
                [None]),
            **{f"a line that is away alone, by {by}": (make_video_leads(
                [6.0] * 20 + [6.0 - by] + [6.0] * 20, {20: by, 21: -by}),
                                                       [None] * (abs(by) >= 0.5))
               for by in (3, -3, 0.5, -0.5, 0.4, -0.4)}}
        # Groups of 25 pictures, of which the first is large, and losses of 1 to 3 pictures.
        vary = [5, 5, 4, 4, 3, 3, 2, 2, 1, 1, 0, 0, -1, -1, -2, -2]
        rows["leads vary between losses"] = (
            make_video_leads(vary * 4, {6: 2, 11: 1, 15: 1, 21: 3, 25: 3, 31: 2, 37: 2, 42: 3}),
            [None] * 8)
        rows["away and back at the beginning"] = (
            make_video_leads([6] * 2 + [7] * 2 + [6] * 40, {2: -1, 4: 1}), [None, None])
        for name, (leads, wanted) in rows.items():
            self.check(name, self.list_jumps(leads), wanted)

    def test_a_jump_below_a_second_is_unclear_if_over_20_steps_are_unusual(self) -> None:
        # or more than one in ten leads
        for frames, others, later, expected in (
                (3, 19, 70, 3), (3, 20, 70, None), (3, 29, 290, 3), (3, 30, 290, None),
                (30, 30, 70, 30), (-30, 30, 70, -30)):
            leads = make_video_leads([6.0] * 10 + [6.0 - frames] * later, {10: frames})
            unusual = [UnusualStep(SECOND * at - 5, TICKS * (frames if at == 10 else 1), TICKS)
                       for at in range(10, 11 + others)]
            sizes = [item.ticks for item in locate_departures(leads, unusual) or []]
            self.check(f"{frames} frames, {others} others", sizes, [expected and expected * TICKS])

    def test_lost_pictures_need_three_leads_before_them_and_steps_that_explain_them(self) -> None:
        for row in read_vectors("missing-pictures.tsv"):
            count, missing, moved = int(row["leads"]), float(row["missing"]), int(row["moved"])
            result = self.list_jumps(make_video_leads([6.0] * count + [6.0 - moved] * 40, {
                count: missing}), (), read_steps(row["steps"]))
            self.check(row["name"], " ".join("?" if item is None else f"{item:g}"
                                             for item in result or []), row["found"])

    def test_finds_no_jumps_at_random_decoding_times_or_at_another_picture_rate(self) -> None:
        chance = random.Random(1)
        steps = {at: float(chance.randrange(-9, 9)) for at in range(40)}
        self.check("at random", locate_departures(make_video_leads([6.0] * 40, steps)), None)
        for each in (1, 12.5, 50):  # pictures per second
            steady = [lead._replace(number=round(each * at))
                      for at, lead in enumerate(make_video_leads([6.0] * 40))]
            self.check(f"{each} a second", locate_departures(steady), [])


def make_lead_survey_lines(steps: Sequence[tuple[float, int]], origin: int = 0,
                           video: int = VIDEO) -> list[str]:
    """Return `lead` lines for the frames 500 to 2500. `steps` contains jumps of the decoding times:
    the size of each jump in frames, and the frame at which it occurs."""
    result = []
    for frame in range(500, 2500, SECOND):
        lead = round(TICKS * (6 - sum(by for by, at in steps if at <= frame)))
        result.append(f"lead {PID} {(origin + TICKS * frame) % CLOCK} {lead} {video} {frame}")
    return result


def survey_extra_lines(lines: Sequence[str] = (), origin: int = 0) -> Survey:
    """Return a survey of two programmes. The first, with the Teletext PID, has the video in `lines`
    and a video without jumps, and the second a video that jumps."""
    quiet, others = 0x300, 0x302
    return read_survey(
        f"programme 1 {VIDEO}", f"stream {PID} 6", f"programme 2 {others}", f"stream {others} 2",
        f"programme 1 {VIDEO}", f"stream {PID} 6", f"stream {quiet} 2", f"stream {VIDEO} 2",
        *make_lead_survey_lines([], origin, quiet), *lines,
        *make_lead_survey_lines([(9, 1500)], video=others))


class DepartureFaults(Case):
    """Pictures that jump, and a part of the frames 1000 (00:00:40:00) to 2000 (00:01:20:00)."""

    def list_faults_and_notes(
            self, steps: Sequence[tuple[float, int]], within: int = 0, source: str = GIVEN,
            origin: int = 0) -> tuple[list[tuple[str | None, str | None, str]], list[str]]:
        """Return the start, end and direction of each fault, and all notes ("unclear" if it is
        unclear whether pictures jump). `source` says where the clock comes from."""
        faults, notes, unchecked, _ = find_desync(
            survey_extra_lines(make_lead_survey_lines(steps, origin), origin), PID,
            TimedPart(1000, 2000, Clock(origin, source)), within, 1)
        self.check("kinds",
                   {(fault.name, fault.part) for fault in faults} - {(PICTURES_LEFT, 1)}, set())
        return [(fault.time, fault.until, fault.text.partition(", subtitles are ")[2].partition(
            " for viewers")[0]) for fault in faults], [*notes, *(
                "unclear" if "decoding times jump" in text else text
                for text in summarize_pictures(unchecked))]

    def test_reports_departures_as_early_or_late(self) -> None:
        for row, origin in itertools.product([*read_vectors("departures.tsv")],
                                             (0, CLOCK - 1400 * TICKS)):
            jumps = [(float(by), int(frame))
                     for by, frame in re.findall(r"(\S+) at (\d+)", row["jumps"])]
            self.check(f"{row['name']}, from {origin}",
                       self.list_faults_and_notes(jumps, int(row["within"]), origin=origin),
                       ([(row["from"], row["until"], row["fault"])] * bool(row["fault"]),
                        [row["note"]] * bool(row["note"])))

    def test_counts_jumps_from_the_first_picture_on_if_it_gives_the_clock(self) -> None:
        self.check("the clock comes from a recording", self.list_faults_and_notes(
            [(2, 900)], source=RECORDING), ([], []))
        self.check("from the first picture", self.list_faults_and_notes(
            [(2, 900)], source=START)[0], [("00:00:40:00", "00:01:19:24", "2 frames early")])
        several = [Departure(pts=TICKS * (earlier + 1), earlier_pts=TICKS * earlier, ticks=9)
                   for earlier in (899, 999, 1000, 1998, 1999, 2000)]
        later = [Departure(TICKS * frame, TICKS * frame, 9, margin=2 * TICKS)
                 for frame in (997, 998, 1997, 1998)]
        # It is unclear if a jump between frames 999 and 1000, or 1999 and 2000, is in the part, and
        # if one before frame 1000 or 2000 is up to two frames later.
        for jumps, source, expected in (
                (several, GIVEN, [None, 9, 9, None]), (several, START, [9, 9, 9, 9, None]),
                (later, GIVEN, [None, 9, None]), (later, TCP, [9, 9, 9, None])):
            departures = find_departures(jumps, TimedPart(1000, 2000, Clock(0, source)))
            self.check(source, [item.ticks for item in departures], expected)

    def test_counts_a_jump_before_the_part_if_the_pictures_come_back_within(self) -> None:
        for back, expected in ((1500, [9, -9]), (2500, [])):
            pair = [Departure(pts=TICKS * 990, earlier_pts=TICKS * 989, ticks=9),
                    Departure(pts=TICKS * back, earlier_pts=TICKS * (back - 1), ticks=-9)]
            self.check(f"back at {back}", [item.ticks for item in find_departures(
                pair, TimedPart(1000, 2000, Clock(0, GIVEN)))], expected)

    def test_expects_pictures_up_to_the_last_teletext(self) -> None:
        # A step back by two frames to picture 2480 is a jump if five pictures follow it. The last
        # lead is that of frame 2475, and the Teletext goes on up to frame `last`. The fault begins
        # when picture 2480 is decoded, in frame 2474, since the Teletext is six frames ahead.
        # A usual step to a later picture shows too that pictures follow.
        for last, usual, at, expected in (
                (2484, 2476, 2480, []), (2485, 2476, 2480, ["00:01:38:24"]),
                (2475, 2485, 2480, ["00:01:38:24"]), (2600, 2476, 2496, [])):
            lines = [*make_lead_survey_lines([]), f"steps {VIDEO} 3600 501 3600 501",
                     f"steps {VIDEO} -3600 {at} 3600 {usual}",
                     f"end {PID} 9 0 9 0 0 0 {TICKS * last}"]
            part = TimedPart(1000, 2500, Clock(0, GIVEN))
            desync = find_desync(survey_extra_lines(lines), PID, part, 0, 1, (), [TICKS * 2495])
            self.check(f"{last} {at}", [fault.time for fault in desync.faults], expected)

    def test_notes_a_missing_usual_step(self) -> None:
        chance = random.Random(1)
        steps = [(chance.randrange(-9, 9), frame) for frame in range(500, 2500, SECOND)]
        lines = make_lead_survey_lines([(by + 0.5, at) for by, at in steps])
        for name, survey, expected in (
                ("at random", survey_extra_lines(lines),
                 [f"{DRIFT}: the video's decoding times have no usual step"]),
                ("no line", Survey(), [])):
            desync = find_desync(survey, PID, TimedPart(1000, 2000, Clock(0, GIVEN)), 0, 1)
            self.check(name, (desync.faults, desync.notes, [*summarize_pictures(desync.unchecked)],
                              desync.is_made), ([], [], expected, bool(expected)))


class Pairs(Case):
    """Recordings with a picture in each frame, whose PTS jump against the Teletext."""

    def test_reports_jumps_of_the_pictures(self) -> None:
        times = subtitle_times(20)
        stl = write_programme(self, times)
        pes = schedule_pes(self, stl, "--every", "10")
        begin, end = decode_pts(pes[0]) // TICKS - 25, decode_pts(pes[-1]) // TICKS + 25
        tci, tco = times[10][0], times[-1][1]
        # Arguments, frames at which the pictures leave and may come back, by how much, the verdict
        rows: list[tuple[str, list[int], float, str]] = [
            ("", [], 0, "accepted"), ("", [begin + 1500], 12, "refused"),
            ("", [begin + 1500], -3, "refused"), ("--within 3", [begin + 1500], -3, "accepted"),
            *(("", [tco - ahead], frames, "refused")
              for ahead, frames in ((12, 10), (20, -0.5), (30, -10))),
            *(("", [tci - 3, tci + 3], frames, "refused") for frames in (10, -10, 0.5)),
            *(("", [tci - 15, tci + 15], frames, "refused") for frames in (1, -1)),
            ("", [tco + 1], -10, "accepted")]
        for words, places, frames, word in rows:
            programme = Programme({TELETEXT_PID: pes}, TICKS * begin, later=[
                (place - begin, round(TICKS * frames) * (-1) ** at)
                for at, place in enumerate(places)])
            path = self.write("one.ts", multiplex_programmes([programme], end - begin).data)
            judged_pair = judge_files(self, stl, path, "--origin", "0", *words.split())
            name = f"{words} {places} {frames}"
            self.check(name, judged_pair.timed_verdict, word)
            if frames and places[0] < tco:
                last = f"to {format_frame(places[1] - 1)}" if places[1:] else "on"
                count = f"{abs(frames)} frame{'s' * (abs(frames) != 1)}"
                self.must(f"{name}: text", any(
                    f"from {format_frame(places[0])} {last}, subtitles are {count} "
                    f"{'early' if frames > 0 else 'late'} for viewers: the video's timestamps jump"
                    in item for item in judged_pair.printed), judged_pair.printed)

    def test_refuses_a_jump_of_video_and_pcr_just_before_the_end(self) -> None:
        times = subtitle_times(5)
        stl = write_programme(self, times)
        pes = schedule_pes(self, stl, "--every", "1")
        begin, tco = decode_pts(pes[0]) // TICKS - 25, times[-1][1]
        for is_late, word in ((True, "refused"), (False, "accepted")):
            programme = Programme({TELETEXT_PID: pes}, TICKS * begin, is_pcr_late=is_late,
                                  later=[(tco - 5 - begin, 4 * TICKS)])
            path = self.write("one.ts", multiplex_programmes([programme], tco + 3 - begin).data)
            judged_pair = judge_files(self, stl, path, "--origin", "0")
            self.check(f"{is_late}", judged_pair.timed_verdict, word)
            places = [fault.time for fault in judged_pair.verdict.named_faults]
            self.check(f"{is_late}, places", places, [format_frame(tco - 5)] * is_late)


class AnnouncedJumps(Case):
    """PES packets before some of which the stream announces a jump of the continuity counter."""

    def test_finds_announced_jumps_with_more_time_than_usual(self) -> None:
        # The usual interval, the PES packets of the part, and the frames before and after each jump
        rows: list[tuple[int, tuple[int, int], list[tuple[int, int]]]] = [
            (1, (0, 7), [(2, 5), (6, 8)]), (2, (0, 7), [(2, 5)]), (3, (0, 7), []),
            (1, (0, 2), []), (1, (3, 7), [(6, 8)]), (1, (2, 3), [(2, 5)])]
        frames = [0, 1, 2, 5, 6, 8, 9, 12]
        counter_jumps = [0, *(frames.index(frame) for frame in (2, 5, 5, 8)), 99]
        for origin, (usual, inside, wanted) in itertools.product((0, CLOCK - 5 * TICKS), rows):
            pts = [pts_of(frame, origin) for frame in frames]
            packets = make_packets(pts, "-", counter_jumps=counter_jumps)
            self.check(f"{origin} {usual} {inside}", find_announced_jumps(packets, inside, usual), [
                (pts[frames.index(item)], pts[frames.index(other)]) for item, other in wanted])

    def test_counts_the_announced_jumps_that_no_late_pes_packet_follows(self) -> None:
        frames = [0, 1, 3, 4, 7, 8, 12, 13]
        # The usual interval, the frames before and after each late PES packet, and the number of
        # other jumps across more than one frame
        rows: list[tuple[int, list[tuple[int, int]], int]] = [
            (0, [(1, 3), (3, 4), (4, 7), (7, 8), (8, 12)], 0),
            (1, [(1, 3), (4, 7), (8, 12)], 0), (2, [(4, 7), (8, 12)], 1), (3, [(8, 12)], 2),
            (4, [], 3)]
        for origin, (interval, late, others) in itertools.product(
                (0, *(CLOCK - frame * TICKS for frame in range(14))), rows):
            packets = make_packets([pts_of(frame, origin) for frame in frames], "-",
                                   counter_jumps=[2, 3, 4, 5, 6])
            recording: Any = SimpleNamespace(is_stream=True, packets=packets)
            part: Any = SimpleNamespace(judged_recording=(recording, None), pes=(0, 7))
            self.check(f"{origin} {interval}", find_late_jumps(part, Pace(REGULAR, interval)), ([
                (pts_of(item, origin), pts_of(other, origin)) for item, other in late], others))


SECOND_TICKS = 90_000  # ticks
# Decoding time that picture 0 would have. Picture 99 follows the wrap.
FIRST_TIME = CLOCK - 99 * TICKS
LEAD = 6  # frames by which the Teletext PTS are ahead of the decoding times


def make_times(moves: Mapping[int, float], count: int = 500) -> list[int]:
    """Return the decoding times of the pictures from 1 to `count`, which are a frame apart. From
    each picture in `moves` on, the times are later by its number of frames."""
    result, late = [], 0.0
    for at in range(1, count + 1):
        late += moves.get(at, 0)
        result.append((FIRST_TIME + round((at + late) * TICKS)) % CLOCK)
    return result


def list_step_ranges(times: list[int]) -> list[StepRange]:
    """Return the least and the greatest step of each second in which they are new, or differ."""
    ranges, begin, steps = list[StepRange](), times[0], list[tuple[int, int]]()
    for at, (before, time) in enumerate(zip(times, [*times[1:], begin]), 2):
        if at <= len(times):
            steps.append((subtract_pts(before, time), at))
        if steps and (at > len(times) or not 0 <= subtract_pts(begin, time) < SECOND_TICKS):
            least, most = (pick(steps, key=lambda row: row[0]) for pick in (min, max))
            is_new = not ranges or any(abs(new - old) >= ALIKE_TICKS for new, old in (
                (least[0], ranges[-1].least), (most[0], ranges[-1].most)))
            if is_new or most[0] - least[0] >= ALIKE_TICKS:
                ranges.append(StepRange(*least, *most))
            begin, steps = time, []
    return ranges


def survey_times(times: list[int], jitter: int = 0) -> tuple[list[VideoLead], list[UnusualStep]]:
    """Return a lead for every 25th picture, and the unusual steps. The Teletext PTS do not jump.
    Every second lead is greater by `jitter` frames."""
    leads = []
    for at in range(1, len(times), 25):
        pts = (FIRST_TIME + (at + LEAD + at // 25 % 2 * jitter) * TICKS) % CLOCK
        leads.append(VideoLead(pts, subtract_pts(times[at - 1], pts), at))
    return leads, find_unusual_steps(list_step_ranges(times), len(times))


def read_steps(text: str, usual: str = "") -> list[UnusualStep]:
    """Read steps such as `-3@210 ?1@300` (see dev/vectors/clock-steps.tsv). The usual step is one
    frame, or `usual` frames."""
    return [UnusualStep(int(number), round(TICKS * float(frames.strip("?"))), round(
        TICKS * float(usual or 1)), "?" not in frames)
            for frames, number in (item.split("@") for item in text.split())]


def read_ranges(text: str) -> list[StepRange]:
    """Read ranges of steps such as `1@2 1@100..11@110` (see dev/vectors/unusual-steps.tsv)."""
    ends = (read_steps(item.replace("..", " ")) for item in text.split())
    return [StepRange(least.ticks, least.number, most.ticks, most.number)
            for least, *_, most in (steps * 2 for steps in ends)]


def read_pts(text: str) -> list[int]:
    """Read frames such as `5 100..150/25`, which are 5, 100, 125 and 150. Return their PTS."""
    result = list[int]()
    for item in text.split():
        frames, _, step = item.partition("/")
        first, *_, last = (round(TICKS * float(frame)) for frame in frames.split("..") * 2)
        result += range(first, last + 1, round(TICKS * float(step or 1)))
    return result


class Steps(Case):
    """A video with 500 pictures and 25 pictures per second, whose decoding times jump, and regular
    Teletext PTS. There is a lead at the pictures 1, 26, .. 201, 226 and so on, up to 476."""

    def locate(self, leads: list[VideoLead], unusual: list[UnusualStep],
               has_clock: bool = True) -> list[tuple[float, float | None]]:
        """Return the picture and the size in frames of each jump found. The size is `None` if
        pictures may have been lost instead. `has_clock` says whether only the video jumps."""
        jumps = separate_clock_jumps(leads, unusual, 500, lambda several: has_clock)
        return [(subtract_pts(FIRST_TIME, place.pts) / TICKS,
                 None if place.ticks is None else place.ticks / TICKS) for place in [
                     *jumps.departures, *(locate_departures(jumps.leads, jumps.steps) or [])]]

    def test_finds_the_picture_and_the_size_of_each_jump(self) -> None:
        for row in read_vectors("video-jumps.tsv"):
            moves = {step.number: step.ticks / TICKS for step in read_steps(row["moves"])}
            lost = read_steps(row["lost"])
            leads, unusual = survey_times(make_times(moves, int(row["count"] or 500)),
                                          int(row["jitter"] or 0))
            for at, lead in enumerate(leads):
                ticks = sum(step.ticks for step in lost if step.number <= lead.number)
                leads[at] = lead._replace(pts=(lead.pts + ticks) % CLOCK, ticks=lead.ticks + ticks)
            self.check(row["name"], " ".join(f"{'?' if size is None else f'{size:g}'}@{place:g}"
                                             for place, size in self.locate(leads, unusual)),
                       row["found"])

    def test_finds_steps_that_may_be_jumps_of_the_clock(self) -> None:
        for row in read_vectors("clock-steps.tsv"):
            found = find_clock_steps(read_steps(row["steps"], row["usual"]), 1000)
            self.check(row["name"], " ".join("+".join(
                str(step.number) for step in steps) for steps in found), row["found"])

    def test_finds_steps_that_are_unusual(self) -> None:
        for row in read_vectors("unusual-steps.tsv"):
            unusual = find_unusual_steps(read_ranges(row["ranges"]), 500)
            self.check(row["name"], unusual, read_steps(row["unusual"], row["usual"]))

    def test_finds_jumps_before_the_first_lead(self) -> None:
        for away, back in ((10, 20), (20, 40), (20, 60)):
            leads, unusual = survey_times(make_times({away: 10, back: -10}))
            self.check(f"{away} {back}", self.locate(leads[1:], unusual),
                       [(away, 10), (back, -10)])

    def test_needs_few_leads_if_lost_pictures_do_not_explain_a_step(self) -> None:
        # Leads follow picture 450. A step by one frame may be a lost or a repeated picture.
        for at, frames, found in (
                (450, -3, -3), (450, -.5, -.5), (450, -1.5, -1.5), (450, -1, None), (450, .5, .5),
                (450, 1.5, 1.5), (450, 1, None), (476, -.5, -.5)):
            leads, unusual = survey_times(make_times({at: frames}), jitter=3)
            for has_clock in (True, False):
                self.check(f"{frames} at {at} {has_clock}", [size for _, size in self.locate(
                    leads, unusual, has_clock)], [found if has_clock else None])

    def test_finds_no_jumps_of_a_video_with_many_steps(self) -> None:
        for name, places in (("30 steps of half a frame", range(210, 240)),
                             ("30 steps of half a frame, apart", range(100, 1900, 60))):
            leads, unusual = survey_times(make_times(dict.fromkeys(places, -.5), 2000))
            self.check(name, separate_clock_jumps(
                leads, unusual, 2000, lambda several: True).departures, [])

    def test_few_leads_show_that_pictures_moved_by_a_frame(self) -> None:
        for row, ticks in itertools.product([*read_vectors("moved-pictures.tsv")],
                                            (TICKS, -TICKS)):
            before, between, after = ([int(lead) for lead in repeat_words(row[column]).split()]
                                      for column in ("before", "between", "after"))
            name, expected = row["name"], row["moved"] == "yes"
            frames = [*before, *between, *after]
            leads = [VideoLead(0, ticks * ahead, 25 * at) for at, ahead in enumerate(frames, 1)]
            steps = [UnusualStep(25 * len(before) + int(row["at"] or 9), ticks, TICKS)]
            if row["steps"] == "2":
                back = steps[0].number + 30 * max(len(between), 1) - 10
                steps.append(UnusualStep(back, -ticks, TICKS))
            others = read_steps(row["others"])
            self.check(f"{name}, {ticks}", have_moved(leads, steps, [*steps, *others]), expected)
            self.check(f"{name}, {ticks}, unclear since there is another step", have_moved(
                leads, steps, [*steps, UnusualStep(25 * len(frames), TICKS, TICKS)]), False)

    def test_the_teletext_pts_show_that_only_the_video_jumps(self) -> None:
        for row in read_vectors("own-clocks.tsv"):
            jumps = [Departure(TICKS * jump.number, 0, jump.ticks)
                     for jump in read_steps(row["jumps"])]
            self.check(row["name"], has_own_clock(jumps, read_pts(row["Teletext"]), read_pts(
                row["subtitles"])), row["own clock"] == "yes")

    def test_a_step_of_the_pcr_shows_a_jump(self) -> None:
        for row in read_vectors("pcr-jumps.tsv"):
            (jump,), lost = read_steps(row["jump"]), read_steps(row["lost"])
            # PTS at each lead and at the jump, which wrap around at picture 480
            pts = {at: (at - 480) * TICKS + sum(step.ticks for step in lost if step.number <= at)
                   for at in (*range(26, 500, 25), jump.number)}
            before, after = (None if item == "-" else round(
                pts[jump.number] + TICKS * float(item)) % CLOCK
                             for item in (row["before"], row["after"]))
            step = PCRStep(before, after, round(TICKS * float(row["ticks"])), int(
                row["packets"] or 8), TICKS, int(row["usual"] or 8), row["counters"])
            leads = [VideoLead(pts[at] % CLOCK, 0, at) for at in range(26, 500, 25)]
            self.check(row["name"], [item.has_pcr for item in mark_pcr_jumps(
                [jump], leads, [step])], [row["marked"] == "yes"])

    def test_a_jump_of_the_pcr_too_is_no_loss_of_pictures(self) -> None:
        # The video jumps by five frames after the last lead but one.
        leads, (jump,) = survey_times(make_times({490: 5}))
        for has_pcr, expected in ((True, 5), (False, None)):
            self.check(f"{has_pcr}", self.locate(leads[:-1], [jump._replace(has_pcr=has_pcr)])[0][
                1], expected)

    def test_several_steps_may_be_usual(self) -> None:
        for name, steps in {"25 pictures per second, then 50": [3600] * 200 + [1800] * 200,
                            "2:3 pulldown": [3600, 5400] * 200}.items():
            times = [sum(steps[:at]) for at in range(len(steps))]
            self.check(name, survey_times(times)[1], [])

    def test_measures_the_reordering_of_pictures(self) -> None:
        for row in read_vectors("reordering.tsv"):
            pictures = [None if pts == "-" else round(TICKS * float(pts))
                        for pts in row["pts"].split()]
            result = measure_reordering(pictures, int(row["before"]), read_ranges(row["steps"]),
                                        0, int(row["decoded"]))
            self.check(row["name"], result, TICKS * int(row["frames"]))
