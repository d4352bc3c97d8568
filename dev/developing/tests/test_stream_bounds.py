"""Test values at and next to time limits, with the PTS wrap at different places."""
from __future__ import annotations

import itertools
import unittest
from types import SimpleNamespace
from typing import Any

from subtitles.clock.alignment import CueOffset, EarlyCues, MAX_CUE_OFFSET, OriginFit
from subtitles.clock.origin import find_equal_origins, is_clear
from subtitles.clock.start import (
    Clock, StartClock, TCP, find_frame_offset, refuse_outside_recording)
from subtitles.common.times import CLOCK, EARLY_TICKS, FRAMES_A_SECOND, NO_FRAME, Span, TICKS
from subtitles.recording.recording import Recording
from subtitles.request.request import Unclear
from subtitles.stream.gaps import LossPlace, SECOND, describe_gap_markers, is_within
from subtitles.stream.pace import DEFAULT_REPEAT_LIMIT, Pauses, Silence, select_idle_silences
from subtitles.stream.repeats import MAX_CUE_DISTANCE, measure_repeats
from subtitles.stream.packets import GapMarker, PCRStep, PacketRun, Packets, Texts
from subtitles.stream.receiver import (
    BLANK_PAGE, HIT, OLD, OLD_PAGE, ReceivedPackets, SpanIndex, Timeline, clear_unsent_cells,
    decode_pages_around)
from .parts import make_example_request, make_packets
from .stories import read_vectors
from .test_formats_files import refusal
from .transmissions import PAGE

ORIGINS = 0, 7, CLOCK - 100 * SECOND - 5, CLOCK - 20 * SECOND, CLOCK - 5


def move_pts(ticks: int | None, origin: int) -> int | None:
    return None if ticks is None else (origin + ticks) % CLOCK


class Silences(unittest.TestCase):
    def test_a_loss_is_at_most_as_long_as_the_interval_between_the_pts(self) -> None:
        # The PTS before and after a loss, if any, the ticks that are missing, and whether the PTS
        # have room for them (otherwise the PCR jumped)
        for origin, (before, after, missing, expected) in itertools.product(ORIGINS, (
                (0, 2 * SECOND, 2 * SECOND, True), (0, 2 * SECOND, 2 * SECOND + 1, False),
                (0, 2 * SECOND, 1, True), (None, 2 * SECOND, 9 * SECOND, True),
                (0, None, 9 * SECOND, True))):
            place = LossPlace(move_pts(before, origin), move_pts(after, origin))
            self.assertEqual(is_within(missing, place), expected, (origin, before, after, missing))

    def test_a_silence_is_idle_at_the_end_of_a_pause_or_if_every_allows_it(self) -> None:
        every, begin, end = 400, 1000, 1500
        pause: Pauses = [(begin, end)]
        # First and last frame of the silence, pauses of the programme, whether the silence is idle
        # if no other is near: it begins in a pause and ends with it, give or take MAX_CUE_DISTANCE.
        # In the pause before the first subtitle (`None` to 940) or after the last it may end early.
        rows: list[tuple[tuple[int, int], Pauses, bool]] = [
            ((0, 50), [], False), ((0, DEFAULT_REPEAT_LIMIT), [], False),
            ((0, DEFAULT_REPEAT_LIMIT + 1), [], True),
            ((0, every), [], True), ((0, every + 1), [], False),
            ((begin, end), pause, True), ((begin - 1, end), pause, False),
            ((begin + 490, end + MAX_CUE_DISTANCE), pause, True),
            ((begin + 490, end + MAX_CUE_DISTANCE + 1), pause, False),
            ((begin + 490, end - MAX_CUE_DISTANCE), pause, True),
            ((begin + 490, end - MAX_CUE_DISTANCE - 1), pause, False),
            ((900, 940 + MAX_CUE_DISTANCE), [(None, 940)], True),
            ((900, 941 + MAX_CUE_DISTANCE), [(None, 940)], False),
            ((940, 980), [(940, None)], True), ((939, 980), [(940, None)], False)]
        for (first, last), pauses, expected in rows:
            for is_near in (False, True):
                silence = Silence(first, last, is_near_other_silence=is_near)
                self.assertEqual(select_idle_silences([silence], every, pauses),
                                 [silence] * (expected or is_near), (first, last, pauses))

    def test_a_silence_is_idle_if_most_pauses_that_are_as_long_end_with_one(self) -> None:
        begin, end = 1000, 1500
        silence = Silence(begin + 400, end, is_near_other_silence=False)
        # Lengths of other pauses, which have no silence
        rows: list[tuple[list[int], bool]] = [
            ([], True), ([500], False), ([499], True), ([499, 499], True), ([500, 499], False),
            ([600, 700], False)]
        for others, expected in rows:
            pauses: Pauses = [(begin, end), *((5000 * at, 5000 * at + length)
                                              for at, length in enumerate(others, 1))]
            self.assertEqual(select_idle_silences([silence], 50, pauses), [silence] * expected,
                             others)

    def test_finds_the_longest_time_without_a_header(self) -> None:
        steady = [*range(0, 100, 10)]
        # The frames of the headers, the frame of the last PES packet, and of cues; the number of
        # headers, the longest interval, its first frame, the usual interval (`None` if fewer
        # than MIN_REPEATS have no cue nearby), and more than half as long ones if they are rare
        rows: list[tuple[list[float], float | None, list[int], tuple[object, ...] | None]] = [
            ([], None, [], None), ([], 9, [], None), ([5, 5], None, [], None),
            ([5], 5, [], (1, 1, 5, None)), ([0, 10, 20, 25], None, [], (4, 10, 0, None)),
            ([0, 10, 25], 19, [], (3, 15, 10, None)), ([0, 10, 25], 39, [], (3, 15, 10, None)),
            ([0, 10, 25], 40, [], (3, 16, 25, None)), ([25, 0, 10], 30, [], (3, 15, 10, None)),
            ([-9, 0, 10], -1, [], (2, 10, 0, None)), ([0, 9.75, 15], None, [], (3, 10, 0, None)),
            ([*steady], None, [], (10, 10, 0, 10)), ([*steady], 99, [20, 50], (10, 10, 0, 10)),
            ([*range(0, 410, 10), 415, 431, 447], None, [],
             (44, 15, 400, 10, [(415, 16), (431, 16)])),
            ([*range(0, 380, 10), 385, 401, 417], None, [], (41, 16, 385, 10, [])),
            ([*steady], None, [20, 40, 60, 80], (10, 10, 0, None))]
        origins = *ORIGINS, *(CLOCK - TICKS * item for item in (5, 10, 19, 39, 40, 99))
        for origin, (frames, last, cues, expected) in itertools.product(origins, rows):
            pts = [round(origin + TICKS * item) % CLOCK for item in frames]
            end = None if last is None else round(origin + TICKS * last) % CLOCK
            repeats = measure_repeats(pts, end, origin, [*zip(cues, cues[1:])])
            self.assertEqual(repeats and (*repeats[:len(expected or "")],), expected,
                             (origin, frames, last, cues))

    def test_describes_nineteen_of_more_than_twenty_gap_markers(self) -> None:
        for count, last_line in ((0, ""), (1, ""), (19, ""), (20, ""),
                                 (21, "and at 2 more places"), (22, "and at 3 more places")):
            pts = [SECOND + at * TICKS for at in range(2 * count + 1)]
            result = describe_gap_markers(make_packets(
                [None if at % 2 else item for at, item in enumerate(pts)],
                gap_markers=[GapMarker(at, pts[at - 1], 1, 0) for at in range(1, 2 * count, 2)],
                # a loss without a gap marker, which is not described
                pcr_steps=[PCRStep(TICKS * 90, TICKS * 91, TICKS * 9, 9, 1, 9, "broken")]))
            self.assertEqual((len(result), [line for line in result if line.startswith("and at")]),
                             (min(count, 20), [last_line] * bool(last_line)), count)
            times = f"PTS {SECOND} and {SECOND + 2 * TICKS} (00:00:00:00 and 00:00:00:02 after " \
                "the first PTS)"
            self.assertEqual(result[:1], [f"between {times}: 1 TS packet was lost"][:count], count)


class RecordingBounds(unittest.TestCase):
    def test_uses_the_later_of_last_pts_and_pcr(self) -> None:
        for origin, (pts, pcr, expected) in itertools.product(ORIGINS, (
                (None, None, None), (4, None, 4), (None, 7, 7), (4, 7, 7), (7, 4, 7))):
            last_pcr = move_pts(pcr, origin)
            recording: Any = SimpleNamespace(
                packets=Packets(5, last_pts=move_pts(pts, origin)), survey=SimpleNamespace(
                    get_pcr_range=lambda _: None if last_pcr is None else (0, last_pcr)))
            self.assertEqual(Recording.find_last_time(recording), move_pts(expected, origin),
                             (origin, pts, pcr))

    def test_finds_the_most_common_distance_of_pts_from_the_frames_of_pictures(self) -> None:
        # Ticks by which PTS follow the start of a frame, and the distance without and with --within
        early, half = EARLY_TICKS, TICKS // 2
        for origin, (ticks, most_common, near_frame) in itertools.product(ORIGINS, (
                ([0, 0, 5], 0, 0), ([5, 5, 0], 5, 5), ([early, half, half], half, early),
                ([early + 1, half, half], half, half),
                ([-early, half, half], half, TICKS - early),
                ([-early - 1, half, half], half, half))):
            packets = make_packets([origin + TICKS * (at + 3) + item
                                    for at, item in enumerate(ticks)])
            result = [find_frame_offset(packets, origin, within) for within in (0, 1)]
            self.assertEqual(result, [most_common, near_frame], (origin, ticks))

    def test_refuses_subtitles_before_and_after_the_recording(self) -> None:
        # By the TCP, the recording has the frames 100 to 1000; its last PTS may be unknown. The
        # subtitles may end a second later.
        request, last = make_example_request("a.stl", "a.ts"), 1000
        for origin, (begin, end, is_last_known, is_refused) in itertools.product((
                *ORIGINS, CLOCK - last * TICKS), (
                (100, last + FRAMES_A_SECOND, True, False),
                (100, last + FRAMES_A_SECOND + 1, True, True),
                (100, last + FRAMES_A_SECOND + 1, False, False), (99, 200, True, True))):
            start = StartClock(Clock(origin, TCP), [], 100)
            pts = (origin + TICKS * last) % CLOCK if is_last_known else None
            self.assertEqual(is_refused, bool(refusal(lambda: refuse_outside_recording(
                request, start, begin, end, pts), Unclear)), (origin, begin, end))
            with self.assertRaises(Unclear):  # the recording ends with the programme's first frame
                refuse_outside_recording(request, start._replace(frame=0), 0,
                                         FRAMES_A_SECOND + 1, origin)


class ReceivedFrames(unittest.TestCase):
    """PES packets as a receiver gets them, with the page 888 and frame 0 at the PTS 0."""

    # Runs of PES packets: the number of the first packet, and the frame of each packet.
    RUNS = ((0, [10]), (1, [11, 12, 13]), (6, [20, 20, 24]), (9, [30]))

    def test_finds_the_frames_around_a_pes_packet(self) -> None:
        received = Timeline(Packets(5), PAGE, 0)
        for first, frames in self.RUNS:
            run = PacketRun(first, len(frames), TICKS * frames[0], TICKS, "h", "")
            received.is_uncertain = first == 6  # packets 4 and 5 are missing
            self.assertTrue(received.add_run(run, frames), (first, frames))
        known = {first + at: frame for first, frames in self.RUNS
                 for at, frame in enumerate(frames)}
        for number in range(-1, 12):
            before = [frame for other, frame in known.items() if other < number]
            after = [frame for other, frame in known.items() if other > number]
            self.assertEqual(
                (received.find_frame_before(number), received.find_frame_after(number)),
                (before[-1] if before else None, after[0] if after else None), number)
        for frame in range(9, 32):
            self.assertEqual([run.first for run in received.list_frame_runs(frame)],
                             [number for number, item in known.items() if item == frame], frame)
        self.assertEqual((received.first, received.last, received.count), (10, 30, 8))
        self.assertEqual(([*received.pauses], received.uncertain_spans),
                         ([Span(14, 19), Span(21, 23), Span(25, 29)], [Span(13, 20)]))

    def test_a_span_was_received_before_a_step_back_and_away_from_gaps_and_losses(self) -> None:
        # The frames of four PES packets, and the one before which there is a gap marker (4: none)
        for frames, gap in itertools.product(itertools.product(range(4), repeat=4), range(5)):
            lost = [Span(3, 3)] * (gap % 2)
            received = ReceivedPackets(lost)
            for at, frame in enumerate(frames):
                received.is_uncertain = received.is_uncertain or at == gap
                received.add_run(PacketRun(at, 1, 0, 0, "h", ""), [frame])
            steps_back = [at for at in range(1, 4) if frames[at] < frames[at - 1]]
            count = steps_back[0] if steps_back else 4
            uncertain = [Span(frames[gap - 1] if gap else 0, frames[gap])] if gap < count else []
            self.assertEqual((received.count, received.halt, received.uncertain_spans), (
                count, steps_back[0] if steps_back else None, uncertain), (frames, gap))
            for first, last in itertools.combinations_with_replacement(range(5), 2):
                is_known = (not steps_back or last <= frames[count - 1]) and not any(
                    item.first <= last and first <= item.last for item in uncertain + lost)
                self.assertEqual(received.was_received(first, last), is_known, (frames, gap))

    def test_finds_overlapping_spans(self) -> None:
        some = [Span(*item) for item in itertools.combinations_with_replacement(range(4), 2)]
        for several in ((), *itertools.permutations(some, 3)):
            for first, last in some:
                self.assertEqual(SpanIndex(several).includes(first, last), any(
                    item.first <= last and first <= item.last for item in several), (first, last))

    @staticmethod
    def make_timeline(sent: str, **more: Any) -> Timeline:
        """Return a timeline of PES packets, which `sent` describes as dev/vectors/decoded-pages.tsv
        does; the flag `s` means a stray row. `more` contains further arguments of `Timeline`."""
        packets = Packets(5)
        for number, word in enumerate(filter(None, sent.split(" "))):
            frame, flags, *texts = word.split(":")
            packets.runs.append(PacketRun(number, 1, round(TICKS * float(frame.rstrip("!"))), 0,
                                          flags, "0" * ("h" in flags), fault=33 * ("!" in frame)))
            packets.decoded_rows += [(number, ((20, text.encode("latin-1").ljust(40)),))
                                     for text in texts]
        return Timeline(packets, PAGE, 0, **more)

    def test_decodes_the_transmitted_pages(self) -> None:
        for row in read_vectors("decoded-pages.tsv"):
            decoded = self.make_timeline(row["sent"].replace("_", "\xa0"))
            texts = " ".join(f"{frame} {page[19].decode().strip()}"
                             for frame, page in zip(decoded.frames, decoded.pages))
            self.assertEqual((texts, [*decoded.open_changes], [*decoded.header_frames]), (
                row["decoded"], *([int(frame) for frame in row[name].split()]
                                  for name in ("opened", "headers"))), row["name"])
            is_open = len(decoded.open_changes) % 2 == 1
            self.assertEqual(decoded.find_closed_frame(99), None if is_open else 99, row["name"])

    def test_stops_at_a_step_back_after_the_first_frame_of_the_programme(self) -> None:
        for sent, halt, last in (
                ("200:he 299:he 290:he", None, 290), ("200:he 300:he 290:he", 2, 300),
                ("200:he 310:he 290:he", 2, 310), ("200:he 310:he 200:he 400:he", 2, 310),
                ("310:heo:a 310:c 311:c", None, 311)):
            decoded = self.make_timeline(sent, begin=300)
            self.assertEqual((decoded.halt, decoded.last), (halt, last), sent)

    def test_forgets_all_pes_packets_before_a_step_back_before_the_programme(self) -> None:
        before, after = "200:heos:a 205!:he 220:c ", "150:heos:b 160!:h 170:c 310:ho:c"
        alone, both = (self.make_timeline(sent, begin=300) for sent in (after, before + after))
        for name in ("frames", "pages", "open_changes", "header_frames", "erasure_frames",
                     "stray_rows", "uncertain_spans", "begins", "ends", "count", "first", "last",
                     "states", "state_frames"):
            self.assertEqual(getattr(both, name), getattr(alone, name), name)
        self.assertEqual([*both.pauses], [*alone.pauses])

    def test_stray_rows_stay_until_survey_prints_others(self) -> None:
        runs = [PacketRun(0, 3, 0, 5 * TICKS, "s", ""), PacketRun(3, 1, 20 * TICKS, 0, "s", ""),
                PacketRun(4, 1, 30 * TICKS, 0, "s", "")]
        a, b = ((20, b"a"),), ((20, b"b"),)
        decoded = Timeline(Packets(5, runs, stray_rows=[(0, a), (4, b)]), PAGE, 0)
        self.assertEqual(decoded.stray_rows, [(Span(0, 10), a), (Span(20, 20), a),
                                              (Span(30, 30), b)])
        self.assertEqual([*decoded.ends], [10, 20, 30])

    def test_decodes_250_frames_or_the_repeat_limit_around_a_subtitle(self) -> None:
        # A page in each tenth frame, but none in frame 750, and a subtitle in frames 1000 to 1200;
        # --every, the PES packets to use (default: all), and the first and last decoded frame
        runs = [PacketRun(at, 1, TICKS * 10 * at, 0, "heo" if at != 75 else "-", "0" * (at != 75))
                for at in range(300)]
        packets = Packets(5, runs, decoded_rows=[(at, ((20, b"%d" % at),)) for at in range(300)])
        for every, pes_range, first, last in ((25, None, 750, 1450), (400, None, 600, 1600),
                                              (25, (90, 110), 900, 1100)):
            decoded = decode_pages_around(packets, PAGE, 0, 0, Span(1000, 1200), every, pes_range,
                                          lost=[Span(5, 6)])
            self.assertEqual((decoded.first, decoded.last, decoded.lost.includes(6, 7)),
                             (first, last, True), (every, pes_range))
            self.assertEqual([decoded.get_page_span(at) for at in (0, len(decoded.frames) - 1)], [
                Span(decoded.frames[0], decoded.frames[0] + 9), Span(last, last)],
                             (every, pes_range))
        decoded = decode_pages_around(packets, PAGE, EARLY_TICKS, 1, Span(1000, 1200), 25)
        self.assertEqual((decoded.first, decoded.last), (750, 1450))
        decoded = decode_pages_around(packets, PAGE, 0, 0, Span(9000, 9100), 25)
        self.assertEqual((decoded.count, decoded.first), (0, NO_FRAME))
        # PTS that go back by 15 frames before the subtitle, or while it is shown
        for at, halt in ((95, None), (105, 105)):
            packets.runs = [*runs[:at], *(run._replace(pts=TICKS * (10 * run.first - 15))
                                          for run in runs[at:])]
            decoded = decode_pages_around(packets, PAGE, 0, 0, Span(1000, 1200), 25)
            self.assertEqual(decoded.halt, halt, at)

    def test_begins_with_the_last_rows_that_survey_printed_before_the_range(self) -> None:
        # Of the PES packets 0 to 3 only number 2 is in the range.
        texts: list[tuple[int, Texts]] = [(at, ((20, text),)) for at, text in enumerate(
            (b"w", b"x", b"y", b"z"))]
        rows_of_own: tuple[Texts | None, ...] = (((20, b"y"),), (), None)
        for flags, own in itertools.product(("he", "h"), rows_of_own):
            runs = [PacketRun(at, 1, TICKS * at, 0, item, "0") for at, item in enumerate(
                (flags, "h", "ho", "he"))]
            packets = Packets(5, runs, decoded_rows=[
                *texts[:2], *([] if own is None else [(2, own)]), texts[3]])
            rows = Timeline(packets, PAGE, 0, inside=(2, 2)).get_state_after(2).rows
            other = (BLANK_PAGE if "e" in flags else OLD_PAGE)[0]
            self.assertEqual((rows[0], rows[19]), (
                other, b"x" if own is None else b"y" if own else other), (flags, own))

    def test_replaces_unsent_cells_and_parity_errors_with_spaces(self) -> None:
        for marks in ((), (OLD,), (HIT,), (HIT, OLD)):
            self.assertEqual(clear_unsent_cells((b"a", bytes([*marks, 0x62]))), (
                b"a", b" " * len(marks) + b"b"), marks)


class ClearOrigins(unittest.TestCase):
    """An origin at which the most cues match, and others that may match as well. Cues match page
    changes, some of these the expected page (`pages`), and some of these a page with text."""

    OFFSET = CueOffset(is_begin=True, delay=3, matches=5, total=5)  # in-cues 3 frames late

    @staticmethod
    def fit(matches: int, pages: int, texts: int = 0, total: int = 5, start: int = 0) -> OriginFit:
        return OriginFit(9, matches, pages, texts, matches, total, None, None, start)

    def part(self, best: OriginFit, *others: OriginFit, early: EarlyCues | None = None,
             offset: CueOffset | None = None) -> Any:
        return SimpleNamespace(best=best, others=others, early=early,
                               time_base=SimpleNamespace(find_cue_offset=lambda _: offset))

    def test_an_origin_is_unclear_if_another_has_at_least_its_score(self) -> None:
        # The score is `matches` + `pages`. Below 5 matches, another origin with as high a sum of
        # `matches` + `texts` is enough. If in-cues and out-cues have different delays (`offset`),
        # other origins up to MAX_CUE_OFFSET frames away, or without a matching text, do not count.
        five, four, offset, most = self.fit(5, 5, 2), self.fit(4, 4, 2), self.OFFSET, MAX_CUE_OFFSET
        for best, other, cue_offset, expected in (
                (five, self.fit(5, 4, 9), None, False), (five, self.fit(5, 5), None, True),
                (five, self.fit(6, 4), None, True), (four, self.fit(4, 3, 1), None, False),
                (four, self.fit(4, 3, 2), None, True), (four, self.fit(4, 4, 0), None, True),
                (five, self.fit(5, 5, 2, start=most), offset, False),
                (five, self.fit(5, 5, 2, start=-most), offset, False),
                (five, self.fit(5, 5, 2, start=most + 1), offset, True),
                (five, self.fit(5, 5, 0, start=most + 1), offset, False)):
            part = self.part(best, self.fit(1, 1), other, offset=cue_offset)
            self.assertEqual(find_equal_origins(part), [other] * expected, (best, other))
            self.assertEqual([is_clear(part), is_clear(part, is_known=True)], [not expected] * 2,
                             (best, other, cue_offset))

    def test_an_origin_is_clear_if_half_of_the_cues_match_or_have_one_offset(self) -> None:
        for matches, total, offset, expected in (
                (5, 10, None, True), (5, 11, None, False), (5, 11, self.OFFSET, True),
                (0, 0, None, True)):
            part = self.part(self.fit(matches, matches, total=total), offset=offset)
            self.assertEqual([is_clear(part), is_clear(part, is_known=True)], [expected] * 2,
                             (matches, total))

    def test_an_unknown_origin_is_unclear_if_one_in_twenty_cues_is_early(self) -> None:
        for total, expected in ((21, True), (20, False)):
            part = self.part(self.fit(5, 5), early=EarlyCues(1, total, frames=2))
            self.assertEqual((is_clear(part), is_clear(part, is_known=True)), (expected, True))
