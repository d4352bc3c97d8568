"""Test time bases, breaks, PCRs, unusual PTS, losses, and ranges of a recording."""
from __future__ import annotations

import itertools
import random
import unittest
from types import SimpleNamespace
from typing import Any

from subtitles.clock.stretches import MIN_BREAK_FRAMES, Stretch, split_at_breaks
from subtitles.common.times import (
    CLOCK, FRAMES_OF_A_DAY, Spans, TICKS, format_frame, join_spans, subtract_pts)
from subtitles.stream.gaps import (
    ClockJump, LossPlace, SECOND, describe_loss, describe_loss_place, find_clock_jumps,
    find_loss_places, find_pts_anomalies)
from subtitles.stream.packets import (
    GapMarker, PCRStep, PacketRun, Packets, PageChange, Texts, parse_headers)
from subtitles.stream.ranges import StepBack, find_range, is_outside
from subtitles.stream.survey import Survey
from .parts import make_packets, read_survey
from .stories import read_vectors


PID = 257


def make_pcr_step(before: int, ticks: int, counters: str, packets: int = 100) -> PCRStep:
    """Return a step between two PCRs, which are usually 0.1 s and 100 TS packets apart."""
    return PCRStep(before, before + 1, ticks, packets, SECOND // 10, 100, counters)


def list_spans(numbers: set[int]) -> list[tuple[int, int]]:
    """Return the first and the last number of each row of consecutive numbers."""
    firsts = sorted(number for number in numbers if number - 1 not in numbers)
    return list(zip(firsts, sorted(number for number in numbers if number + 1 not in numbers)))


def text_of(number: int, flags: str) -> Texts:
    """Return the rows decoded after a PES packet: none, the same text (y), or a new text."""
    return () if "b" in flags else ((20, b"same" if flags[-1] == "y" else b"%d" % number),)


class TimesAndRanges(unittest.TestCase):
    def test_spans_agree_with_a_set_of_frames(self) -> None:
        chance = random.Random(7)
        for _ in range(300):
            several = [Spans(sorted((first, first + chance.randrange(6)) for first in chance.sample(
                range(40), chance.randrange(5)))) for _ in range(3)]
            frames, others, more = ({number for first, last in spans for number in range(
                first, last + 1)} for spans in several)
            begin, end = sorted((chance.randrange(45), chance.randrange(45)))
            spans = several[0]
            self.assertEqual((list(spans), spans.total(), len(spans)), (
                list_spans(frames), len(frames), len(list_spans(frames))))
            self.assertEqual(list(spans.between(begin, end)), [
                span for span in spans if span[1] >= begin and span[0] < end])
            self.assertEqual(list(spans.exclude([*several[1], *several[2]])),
                             list_spans(frames - others - more))
            self.assertEqual(list(join_spans(several)), list_spans(frames | others | more))

    def test_joins_spans_that_are_not_in_order(self) -> None:
        falling = Spans([(7, 9), (1, 3), (4, 8)])
        self.assertEqual((list(falling), falling.is_rising(), list(join_spans([falling]))),
                         ([(7, 9), (1, 8)], False, [(1, 9)]))

    def test_packets_agree_with_a_list_of_pes_packets(self) -> None:
        chance = random.Random(7)
        for _ in range(400):
            packets = Packets(5)
            known: list[tuple[int, int | None, str]] = []
            for _ in range(chance.randrange(7)):
                pts = chance.choice((None, 0, CLOCK - 2 * TICKS, 5 * TICKS, 9 * TICKS))
                run = PacketRun(len(known), chance.randrange(1, 8), pts, chance.choice(
                    (0, TICKS, -TICKS)), chance.choice(("h", "oh", "-")), "")
                known += [(run.first + at, None if pts is None else (pts + run.step * at) % CLOCK,
                           run.flags) for at in range(run.length)]
                packets.runs.append(run)
                self.assertEqual((run.last, packets.count), (known[-1][1], len(known)))
            first, last = chance.randrange(-1, 20), chance.randrange(-1, 40)
            inside = [item for item in known if first <= item[0] <= last]
            self.assertEqual([item for run in packets.list_runs_between(first, last)
                              for item in Packets(5, [run])], inside)
            self.assertEqual(list(packets), known)
            for flags, some, several in (("", None, known), ("h", (first, last), inside)):
                self.assertEqual(list(packets.pts(some, flags)), [
                    pts for _, pts, kinds in several if pts is not None and flags in kinds],
                                 (flags, some, several))
            self.assertEqual([packets.get_pts(number) for number in range(-1, len(known) + 1)],
                             [None, *(pts for _, pts, _ in known), None])
            timed = [(number, pts) for number, pts, _ in known if pts is not None]
            begins = [0] + [timed[at][0] for at in range(2, len(timed) - 1) if all(
                subtract_pts(new, old) > 0 for _, old in timed[at - 2:at]
                for _, new in timed[at:at + 2])]
            self.assertEqual([base.start for base in packets.split_time_bases()], begins)

    def test_parses_the_headers_of_a_run(self) -> None:
        self.assertEqual(parse_headers("0808081f+10"), (bytes([0, 8, 0, 8, 0, 8, 1, 15]), b"\1\0"))

    def test_splits_a_programme_at_breaks(self) -> None:
        five = MIN_BREAK_FRAMES
        # For each stretch of nine page changes: its time base, and the frame at its first PTS,
        # which falls by five seconds or grows by a minute at a break. Expected is the number of
        # page changes before the end of each part.
        for tracks, ends in (
                ([(0, 0)], [9]), ([(0, 0), (0, -five)], [9, 18]), ([(0, 0), (0, 1 - five)], [18]),
                ([(0, 0), (0, -1)], [18]), ([(0, 0), (0, 1)], [18]),
                ([(0, 0), (0, 1499)], [18]), ([(0, 0), (0, 1500)], [9, 18]),
                ([(0, 0), (1, 1)], [9, 18]), ([(0, 0), (1, -1)], [9, 18]),
                ([(0, 0), (0, -five), (0, -2 * five)], [9, 18, 27]),
                ([(0, 0), (0, -75), (0, -150)], [27]),  # two delays of three seconds each
                ([(0, 0), (0, -75), (0, -75 - five)], [18, 27]),
                ([(0, 0), (0, 75), (0, 75 - five)], [27]),  # early for a while
                ([(0, 0), (0, -five), (0, -1 - five)], [9, 27]),
                ([(0, 0), (0, 5), (0, 0)], [27]), ([(0, 0), (0, 5), (0, -five)], [18, 27])):
            row: Any = [Stretch(SimpleNamespace(base=base, start=start),  # type: ignore[arg-type]
                                9 * at, 9 * at + 9) for at, (base, start) in enumerate(tracks)]
            self.assertEqual([at_break.end for at_break in split_at_breaks(row)], ends, tracks)

    def test_uses_the_pcr_pid_of_the_last_programme(self) -> None:
        self.assertIsNone(Survey().get_pcr_range(257))
        survey = read_survey("programme 1 100", "stream 257 6", "programme 2 200", "stream 257 6",
                          "programme 3 300", "stream 258 6", "pcr 100 5", "pcr 200 9", "pcr 300 1",
                          "pcr 100 8", "pcr 200 11")
        self.assertEqual([survey.get_pcr_range(pid)
                          for pid in (257, 258, 259)], [(9, 11), (1, 1), None])

    def test_finds_unusual_pts_and_the_worst_one(self) -> None:
        # Usually PTS are 1000 ticks ahead of the PCR. Further samples, one a second, and anomalies:
        # the first sample, how many show it, and the worst distance (`changed`: from the usual one,
        # if it is over 0.5 s)
        rows: list[tuple[list[int], list[tuple[str, int, int, int]]]] = [
            ([], []), ([0], []), ([-1], [("behind", 0, 1, -1)]),
            ([0, -5, -700, -20], [("behind", 1, 3, -700)]),
            ([SECOND, SECOND + 1], [("early", 1, 1, SECOND + 1), ("changed", 0, 2, SECOND - 999)]),
            ([1000 + SECOND // 2], []), ([1001 + SECOND // 2] * 20, [("changed", 0, 20, 45_001)]),
            ([-45_000, 47_000], [("behind", 0, 1, -45_000), ("changed", 0, 2, -46_000)])]
        # The samples come after the first minute, or before a PTS wrap in the first minute.
        for begin, (more, expected) in itertools.product((61, -100), rows):
            ahead = [*enumerate([*[30_000] * 3, *[1000] * 6]), *enumerate(more, begin)]
            samples = [(SECOND * (at - 3) % CLOCK, item) for at, item in ahead]
            result = list(find_pts_anomalies(make_packets([], samples=samples)))
            self.assertEqual([tuple(item) for item in result], [
                (kind, samples[9 + first][0], number, len(samples), worst)
                for kind, first, number, worst in expected], (begin, more))

    def test_lists_gap_markers_and_losses_once(self) -> None:
        late = make_pcr_step(500, ticks=99_000, counters="broken")
        marker = GapMarker(1, before=100, lost=3, scrambled=0)
        # Gap markers, PCR steps, and the losses: the PTS before each, and the missing ticks
        rows: list[tuple[list[GapMarker], list[PCRStep], list[tuple[int, int]]]] = [
            ([], [late], [(500, 90_000)]), ([], [late._replace(ticks=-99_000)], []),
            ([], [late._replace(ticks=9001)], [(500, 1)]), ([], [late._replace(ticks=0)], []),
            ([], [late, late], [(500, 90_000)] * 2),
            ([marker], [], [(100, 0)]), ([marker], [late], [(100, 0), (500, 90_000)]),
            # a PCR step at the gap marker that does not fit between the PTS 100 and 200
            ([marker], [make_pcr_step(150, 99_000, "broken")], [(100, 0)]),
            ([], [late._replace(counters="whole"), late._replace(counters="unknown")], [])]
        for markers, pcr_steps, expected in rows:
            packets = make_packets([100, None, 200, 600], pcr_steps=pcr_steps,
                                   gap_markers=markers)
            self.assertEqual([(place.before, place.missing) for place in find_loss_places(packets)],
                             expected, (markers, pcr_steps))

    def test_finds_the_range_of_a_programme(self) -> None:
        for row in read_vectors("ranges.tsv"):
            every, within = int(row["every"]) if row["every"] else None, int(row["within"])
            low, high = 100 - (every or 0), 200 + (every or 0)
            sent = [item.partition(":")[::2] for item in row["sent"].split()]
            times = [-1.0 if frame == "m" else float(frame) for frame, _ in sent]
            pts = [None if frame < 0 else round(TICKS * frame) for frame in times]
            packets = Packets(PID, [
                PacketRun(at, 1, pts[at], 0, flags.strip("xy-"), "")
                for at, (_, flags) in enumerate(sent)], changes=[
                    PageChange(pts[at] or 0, b"", at, text_of(at, flags))
                    for at, (_, flags) in enumerate(sent) if flags[-1:] in {"x", "y"}])
            result = find_range(packets, 100, 200, 0, every, within)
            found = "-".join(map(str, result.range or ()))
            words = f"{result.read} PES packet{'s' * (result.read != 1)}"
            frames = [round(frame) for frame in times]
            first, last = [int(number) for number in row["range"].split("-")] if row["range"] \
                else [len(sent), -1]
            with self.subTest(f"{row['sent']}: {row['name']}"):
                self.assertEqual((found, " ".join(["end"] * result.has_end + ["over"] * (
                    result.is_over)), f"{result.read}"), (row["range"], row["found"], row["read"]))
                self.assertEqual((result.first_packet_frame, result.first, result.last), (
                    next((frame for frame in frames if low <= frame <= high), None),
                    next((frame for frame in frames[first:] if frame >= 0), None),
                    next((frame for frame in frames[first:last + 1][::-1]
                          if low <= frame <= high), None)))
                span = f", from {format_frame(result.first or 0)} to " \
                    f"{format_frame(result.last or 0)}"
                self.assertEqual(result.describe(), f"{last - first + 1} of {words}{span}" if row[
                    "range"] else f"none of {words} at the time of the subtitles contains a header "
                                 "of the page or follows such a header")

    def test_a_part_omits_an_earlier_header_if_the_text_was_expected_before_the_part(self) -> None:
        packets = make_packets([TICKS * frame for frame in (75, 100, 200)], "he")
        packets.runs[-1] = packets.runs[-1]._replace(flags="heb")
        packets.changes = [PageChange(TICKS * 75, b"", 0, text_of(0, "hey"))]
        for within, is_continued in itertools.product((0, 1), (False, True)):
            result = find_range(packets, 100, 200, 0, 25, within, is_continued=is_continued)
            self.assertEqual(result.range, (int(is_continued), 2), (within, is_continued))

    def test_uses_only_the_given_pes_packets(self) -> None:
        packets = make_packets(range(TICKS * 100, TICKS * 109, TICKS), "he")
        result = find_range(packets, 100, 200, 0, 25, inside=(3, 5))
        self.assertEqual((result.range, result.first_packet_frame, result.read), ((3, 5), 103, 7))

    def test_finds_ranges_at_the_start_and_end_of_the_day(self) -> None:
        for frames, begin, end in (([0, 5], 0, 9), ([-50, -20, 0, 1], -50, -20)):
            first, last = (item % FRAMES_OF_A_DAY for item in (begin, end))
            packets = Packets(PID, [
                PacketRun(at, 1, TICKS * (first + item - begin), 0, "h-h-"[at], "")
                for at, item in enumerate(frames)])
            result = find_range(packets, first, last, 0, 25)
            self.assertEqual((result.range, result.first_packet_frame, result.has_end),
                             ((0, 1), first, False), (frames, begin, end))

    def test_finds_all_of_a_long_programme(self) -> None:
        hour, step = 90_000, 250  # frames in an hour and from one header to the next
        # Hours of the programme, and of the recording before and after it
        for hours, before, after in ((1, 3, 9), (9, 0, 9), (13, 1, 1), (14, 0, 0), (14, 1, 8),
                                     (20, 0, 0), (20, 1, 2), (23, 0, 0), (23, 0, 2)):
            begin, end = before * hour, (before + hours) * hour
            for length, origin in itertools.product((1, 10, 360), (0, CLOCK - TICKS * end // 2)):
                count = (before + hours + after) * hour // step
                packets = Packets(PID, [PacketRun(
                    at, length, (origin + TICKS * step * at) % CLOCK, TICKS * step, "heb", "")
                    for at in range(0, count, length)])
                result = find_range(packets, begin, end, origin, step).range
                expected = max(begin // step - 1, 0), min(end // step, count - 1)
                self.assertEqual(result, expected, (hours, before, after, length, origin))

    def test_skips_runs_more_than_a_frame_before_a_range_and_none_near_it(self) -> None:
        # A run from frame `first` on, and the range from frame 5 to 8, with frame `shift` at PTS 0
        for first, step, length, shift in itertools.product(
                range(14), (-2, -1, 0, 1, 3), (1, 2, 5), (0, 5, 7, 9)):
            frames = [first + step * at for at in range(length)]
            run = PacketRun(0, length, TICKS * (first - shift) % CLOCK, TICKS * step, "-", "")
            low, high = (TICKS * (frame - shift) % CLOCK for frame in (5, 8))
            is_near = any(4 <= frame <= 9 for frame in frames)
            self.assertFalse(is_near and is_outside(run, low, high), (frames, shift))
            self.assertTrue(step < 0 or frames[-1] >= 4 or is_outside(run, low, high), frames)
        self.assertTrue(is_outside(PacketRun(0, 9, None, 0, "m", ""), 0, 9))

    def test_extends_a_range_by_the_longer_limit(self) -> None:
        for (every, within), more in itertools.product(((25, 2), (25, 40), (2, 40)), (0, 1)):
            # The first header after the programme, in the last frame of the range or one later
            last = 100 + max(every, within) + more
            packets = make_packets([TICKS * frame for frame in (
                *range(80), last, last + 1, last + 2)], "heo")
            result = find_range(packets, 0, 100, 0, every, within)
            self.assertEqual((result.range, result.has_end), ((0, 80 - more), not more),
                             (every, within, more))

    def test_finds_clock_jumps_where_nothing_is_missing(self) -> None:
        # 99,000 ticks usually have 1100 TS packets; a jump has fewer than a tenth of them.
        for item, expected in (
                (make_pcr_step(5, 99_000, "whole"), [ClockJump(5, 90_000)]),
                (make_pcr_step(5, 99_000, "broken"), []),
                (make_pcr_step(5, 99_000, "unknown"), []),
                (make_pcr_step(5, 99_000, "whole", packets=109), [ClockJump(5, 90_000)]),
                (make_pcr_step(5, 99_000, "whole", packets=110), []),
                (make_pcr_step(5, -99_000, "whole"), [ClockJump(5, -108_000)])):
            self.assertEqual(list(find_clock_jumps(make_packets([], pcr_steps=[item]))),
                             expected, item)

    def test_describes_losses(self) -> None:
        for row in read_vectors("losses.tsv"):
            lost, scrambled, missing = (int(row[name] or 0) for name in (
                "lost", "scrambled", "missing"))
            self.assertEqual(describe_loss(LossPlace(
                1, 2, lost, scrambled, missing, is_announced=row["announced"] == "yes")),
                             row["text"], row["name"])

    def test_describes_by_how_much_the_pts_go_back(self) -> None:
        for ticks, duration in ((1, "1 tick"), (2, "2 ticks"), (TICKS, "1 frame"), (
                2 * TICKS + 1, "2 frames 1 tick"), (26 * TICKS + 3599, "1 s 1 frame 3599 ticks")):
            self.assertEqual(StepBack(7, 250, ticks).describe(), "the PTS go back by "
                             f"{duration} in PES packet 7, after 00:00:10:00", ticks)

    def test_describes_the_place_of_a_loss(self) -> None:
        for place, words in (
                (LossPlace(None, 7200, 1), "before PTS 7200 (00:00:00:02 after the first PTS)"),
                (LossPlace(3600, None, 1), "after PTS 3600 (00:00:00:01 after the first PTS)")):
            self.assertEqual(describe_loss_place(place, 0), f"{words}: 1 TS packet was lost", place)
        self.assertEqual(describe_loss_place(LossPlace(None, 3600, 0), None),
                         "before PTS 3600 (00:00:00:01 after the first PTS): a break in the stream")
        self.assertEqual(describe_loss_place(LossPlace(None, None, 1), None),
                         "1 TS packet was lost")
        words = f"between PTS {CLOCK - 3600} and 3600 (00:00:00:01 and 00:00:00:03 after the " \
            "first PTS): "
        for first, last in ((CLOCK - 7200, 3600), (CLOCK - 7201, 3599)):
            printed = describe_loss_place(LossPlace(CLOCK - 3600, last, 1, 2), first)
            self.assertEqual(printed, words.replace(" 3600", f" {last}") +
                             "1 TS packet was lost, 2 TS packets were scrambled", (first, last))
