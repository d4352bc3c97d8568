"""Test the alignment of cues with page changes: delays, drifts, repetitions and PTS wraps."""
from __future__ import annotations

import itertools
import random
import unittest
from typing import Callable, Sequence

from developing.multiplex import Multiplex, TENTH_TICKS
from subtitles.clock.alignment import (
    Drift, EarlyCues, ExpectedCue, ExpectedSubtitle, MAX_ERASED_FRAMES, MatchedChange, RARE_SHARE,
    UNSEEN_SHARE, choose_clock, find_drift, find_expected_cues, find_repeat, find_time_bases,
    find_usual_delay)
from subtitles.clock.origin import OriginEstimate, OriginSearch, store_first_part
from subtitles.clock.start import Clock, RECORDING, TimedPart
from subtitles.clock.stretches import (
    find_stretches, fit_parts, have_equal_steps, is_repeated_airing)
from subtitles.common.command_line import Lateness, parse_lateness
from subtitles.common.times import CLOCK, FRAMES_OF_A_DAY, Span, TICKS
from subtitles.judging.part import belongs_to_part, find_lost_spans, find_recorded_span
from subtitles.stream.gaps import LossPlace
from subtitles.stream.packets import Packets
from .bench import Case
from .parts import make_part
from .stories import read_vectors, repeat_words
from .test_clock_tables import changes_at, make_sent_packets, make_time_base


class Edges(Case):
    def test_finds_a_cue_where_the_page_changes(self) -> None:
        first = ExpectedSubtitle(10, 20, (20, 2, b"one"), b"one")
        for name, second, frames in (
                ("a pause", first._replace(begin=25, end=30), [10, 20, 25, 30]),
                ("the same once more", first._replace(begin=20, end=30), [10, 30]),
                ("on another row", ExpectedSubtitle(20, 30, (22, 2, b"one"), b"one"), [10, 20, 30]),
                ("other letters", ExpectedSubtitle(20, 30, (20, 2, b"two"), b"two"), [10, 20, 30])):
            self.check(name, [cue.frame for cue in find_expected_cues([first, second])], frames)


class RepeatedPages(Case):
    """Pages with the text "text" that are erased, and sent again some frames later."""

    def test_finds_the_repeat_of_an_erased_page(self) -> None:
        def find(changes: Sequence[tuple[int, bytes]], first: int, max_erased: int) -> int | None:
            """Return the index of the change that repeats the page of the change `first`.

            Changes are given by frame and text; the page is erased for up to `max_erased` frames.
            """
            return find_repeat(changes_at([(frame * TICKS, text) for frame, text in changes],
                                          origin), first, max_erased)

        text, erased, other = b"text", b"", b"other"
        for origin in (0, *(CLOCK - frames * TICKS for frames in (1, 2, 5, 100))):
            for repeat, max_erased, expected in ((3, 1, 2), (3, 2, 2), (4, 1, None), (4, 2, 2),
                                                 (52, 50, 2), (53, 50, None)):
                changes = [(0, text), (2, erased), (repeat, text)]
                self.check(f"{origin}, {repeat} within {max_erased}",
                           find(changes, 0, max_erased), expected)
            changes = [(0, text), (2, erased), (3, other), (4, text)]
            self.check(f"{origin}: after another text", find(changes, 0, 5), 3)
            self.check(f"{origin}: not erased", find(changes, 2, 5), None)

    def test_ignores_an_erasure_that_is_shorter_than_the_expected_pause(self) -> None:
        # The expected pause before the second subtitle, for how long the page is erased in frame
        # 110, and the text of the second subtitle. A pause before another text does not matter. An
        # erasure of more than MAX_ERASED_FRAMES is never ignored.
        for pause, erased, text in itertools.product(range(1, 9), range(1, 9), (b"text", b"new")):
            cues = find_expected_cues([ExpectedSubtitle(100, 130, 1, b"text"),
                                       ExpectedSubtitle(130 + pause, 160, 1, text)])
            frames = [100, 110, 110 + erased, 130, 130 + pause, 160]
            base = make_time_base(cues, [(TICKS * frame, sent) for frame, sent in zip(
                frames, (b"text", b"", b"text", b"", text, b""))], 1000)
            if erased <= min(MAX_ERASED_FRAMES, 9 if text == b"new" else pause - 1):
                del frames[1:3]
            self.check(f"{pause} {erased}", [*base.changes], frames)
            self.check(f"{pause} {erased}: copy without the first and last", [
                *base.copy_between(cues, 100, 160).changes], frames[1:-1])


Inserter = Callable[[random.Random, bool], int]  # returns the delay of an in-cue or out-cue
# Correct inserters: the tolerance that accepts them, and a function that returns random delays.
INSERTERS: dict[str, tuple[int, Inserter]] = {
    "on time": (1, lambda chance, is_begin: 0),
    "rows": (1, lambda chance, is_begin: int(is_begin)),
    "by rows": (3, lambda chance, is_begin: is_begin * chance.choice((1, 1, 2, 2, 3))),
    "any of two": (1, lambda chance, is_begin: chance.randrange(2)),
    "any of six": (5, lambda chance, is_begin: chance.randrange(6)),
    "mostly one": (2, lambda chance, is_begin: chance.choices((0, 1, 2), (2, 6, 2))[0]),
    "seldom on time": (1, lambda chance, is_begin: chance.choices((0, 1), (5, 95))[0]),
    "seldom late": (2, lambda chance, is_begin: chance.choices((0, 1, 2), (90, 8, 2))[0]),
    "never on time": (2, lambda chance, is_begin: chance.randrange(1, 3) if is_begin else 1)}


def measure_inserter_delays(inserter: Inserter) -> Lateness:
    """Return delays of an inserter, as if they had been measured with a known clock."""
    chance = random.Random(99)
    kinds = [[inserter(chance, is_begin) for _ in range(400)] for is_begin in (True, False)]
    return Lateness(*({by: kind.count(by) for by in sorted({*kind})} for kind in kinds))


def does_first_part_agree(origin: OriginEstimate) -> bool:
    """Return whether the origin is clear, and all cues of the first part match."""
    return origin.status == 0 and any(part.matches == part.total for part in origin.parts[:1])


def make_random_subtitles(chance: random.Random, count: int) -> list[ExpectedSubtitle]:
    end, result = chance.randrange(FRAMES_OF_A_DAY // 2), []
    for number in range(count):
        begin = end + chance.choice((30, 36, chance.randrange(36, 230)))
        end = begin + chance.randrange(12, 150)
        result.append(ExpectedSubtitle(begin, end, number, b"text %d" % number))
    return result


def find_origin(shown: Sequence[ExpectedSubtitle], packets: Packets, within: int,
                late: Lateness | None = None) -> OriginEstimate:
    """Estimate the origin of a programme without breaks."""
    origin, bases = OriginEstimate(), find_time_bases(shown, packets, within)
    row = find_stretches(bases)
    store_first_part(origin, OriginSearch("", ""), bases, row, fit_parts(shown, bases, row, late))
    return origin


class EstimatedClocks(Case):
    def test_uses_the_shortest_usual_delay(self) -> None:
        """A delay of in-cues or of out-cues is usual if at least half as many cues have it as have
        their most common delay, and at least three or just as many."""
        for row in read_vectors("usual-delays.tsv"):
            begins, ends = ({int(frames): int(count) for frames, _, count in (
                item.partition(":") for item in row[kind].split())} for kind in (
                    "in-cues", "out-cues"))
            self.check(row["name"], find_usual_delay(begins, ends), int(row["delay"]))

    def estimate_clock_delay(self, delays: Sequence[int], within: int,
                             shares: Lateness | None = None) -> tuple[int, EarlyCues | None]:
        """Choose a clock for in-cues with these delays.

        Return by how many frames it is later than the clock of the earliest cue, and the early
        cues: their number, the number of all cues, and by how many frames they are early.
        """
        frames = [100 * at + at * at for at in range(1, len(delays) + 1)]
        cues = [ExpectedCue(frame, b"%d" % at, True) for at, frame in enumerate(frames)]
        sent = [(TICKS * (cue.frame + by), cue.letters) for cue, by in zip(cues, delays)]
        base = make_time_base(cues, sent, within=within)
        fit = base.fit(base.fits[0].start)
        best, early = choose_clock(base, fit, shares)
        return fit.start - best.start, early

    def test_counts_cues_before_the_usual_clock(self) -> None:
        # The arguments are the delay of each in-cue and --within, both in frames.
        self.check_rows(self.estimate_clock_delay, {
            "all cues are on time": (([0] * 9, 2), (0, None)),
            "all cues have the same delay": (([2] * 9, 2), (0, None)),
            "three delays are common": (([0, 1, 2] * 4, 2), (0, None)),
            "one of nine cues is early": (([0, *[2] * 8], 2), (2, EarlyCues(1, 9, 2))),
            "one of 20 cues is early": (([0, *[1] * 19], 1), (1, EarlyCues(1, 20, 1))),
            "one of 21 cues is early": (([0, *[1] * 20], 1), (1, EarlyCues(1, 21, 1))),
            "two of 52 cues are early": (([0, 1, *[2] * 50], 2), (2, EarlyCues(2, 52, 2)))})

    def test_many_early_cues_may_mean_that_the_others_are_late(self) -> None:
        self.check_rows(lambda count, total: EarlyCues(count, total, 1).is_common_delay, {
            "one of 20": ((1, RARE_SHARE), True), "one of 21": ((1, RARE_SHARE + 1), False),
            "two of 40": ((2, 2 * RARE_SHARE), True),
            "two of 41": ((2, 2 * RARE_SHARE + 1), False)})

    def test_finds_the_likeliest_clock_for_known_delays(self) -> None:
        for row in read_vectors("likeliest-clocks.tsv"):
            delays = [int(frames) for frames in repeat_words(row["in-cues"]).split()]
            clock = self.estimate_clock_delay(delays, 2, parse_lateness(row["--late"]))
            self.check(row["name"], clock, (int(row["clock"]), None))

    def test_a_delay_that_was_never_measured_is_rarer_than_one_in_400_cues(self) -> None:
        """Otherwise a delay of one in 400 cues would count as one that was never measured."""
        self.assertLess(UNSEEN_SHARE, 1 / 400)

    def test_accepts_correct_inserters_or_reports_rare_cues_as_early(self) -> None:
        for (name, (within, inserter)), seed in itertools.product(INSERTERS.items(), range(6)):
            chance = random.Random(seed)
            subtitles = make_random_subtitles(chance, (12, 40)[seed % 2])
            packets = make_sent_packets([
                (TICKS * (cue.frame + inserter(chance, cue.is_begin)), cue.letters)
                for cue in find_expected_cues(subtitles)])
            with self.subTest(name, seed=seed):
                shares = measure_inserter_delays(inserter)
                origin = find_origin(subtitles, packets, within, late=shares)
                self.assertTrue(does_first_part_agree(origin), origin.lines)
                origin = find_origin(subtitles, packets, within)
                self.assertTrue(does_first_part_agree(origin) or any(
                    " early compared with" in line for line in origin.lines), origin.lines)


class Drifts(Case):
    def drift(self, delays: Sequence[int], texts: Sequence[bytes] = ()) -> Drift | None:
        """Return the drift found in texts that are sent every 100 frames with these delays."""
        texts = texts or [b"%d" % at for at in range(len(delays))]
        return find_drift([ExpectedCue(100 * at, text, True) for at, text in enumerate(texts)], {
            100 * at + by: MatchedChange(0, b"%d" % at, 0) for at, by in enumerate(delays)})

    def test_finds_only_a_steady_drift(self) -> None:
        for row in read_vectors("drifts.tsv"):
            drift = Drift(*map(int, row["drift"].split())) if row["drift"] else None
            self.check(row["name"], self.drift([*map(int, row["delays"].split())]), drift)

    def test_measures_a_drift_by_texts_that_are_expected_and_sent_once(self) -> None:
        # The expected texts. Texts 0 to 11 are sent, each second one a frame later. A drift needs
        # six texts, and half of those that are expected once must be sent once.
        sent = [b"%d" % at for at in range(12)]
        others = [b"x%d" % at for at in range(7)]
        steady = [at // 2 for at in range(12)]
        for name, texts, drift in (
                ("6 texts, and one that repeats", [*sent[:6], *[b"other"] * 6], Drift(0, 500, 2)),
                ("6 of 13 texts", [*sent[:6], *others], None),
                ("7 of 12 texts", [*sent[:7], *others[:5]], Drift(0, 600, 3)),
                ("10 texts, of which two repeat", [*sent[:10], *sent[:2]], Drift(200, 900, 3))):
            self.check(name, self.drift(steady, texts), drift)

    def test_finds_a_drift_in_at_most_3_of_1800_programmes_of_correct_inserters(self) -> None:
        count = 0
        for (_, inserter), seed in itertools.product(INSERTERS.values(), range(200)):
            chance = random.Random(seed)
            delays = [inserter(chance, True) for _ in range(chance.choice((6, 8, 12, 40)))]
            count += self.drift(delays) is not None
        self.assertLessEqual(count, 3)


class RepeatedProgrammes(Case):
    def test_recognises_evenly_spaced_cues(self) -> None:
        """At least half as many pairs of cues as there are cues are equally far apart."""
        self.check_rows(have_equal_steps, {
            "equal steps": (([0, 10, 20, 30],), True),
            "pairs at equal steps": (([0, 1, 10, 11, 20, 21],), True),
            "each step is longer": (([0, 3, 9, 27, 81],), False),
            "many steps, each longer": (([at * at for at in range(40)],), False),
            "one frame": (([5],), False), "no frame": (([],), True)})

    def test_half_of_the_cues_and_texts_or_a_quarter_of_the_texts_make_a_repeat(self) -> None:
        base = make_time_base([ExpectedCue(at, b"%d" % at if at % 2 == 0 else b"", at % 2 == 0)
                               for at in range(40)], [])
        quarter = (0, 4, 8, 16, 20)  # a quarter of the texts, over half of the programme
        # The arguments are the cues that match in the first airing, and those that match again.
        # Even cues have a text; odd cues erase it. Half of the texts that match again must match in
        # the first airing.
        self.check_rows(lambda first, again: is_repeated_airing(
            [base], {at: (0, at) for at in first}, {at: (0, 100 + at) for at in again}), {
            "half of the cues, and of the texts": ((range(40), range(20)), True),
            "half of the cues, but nine of 20 texts": (
                (range(40), (*range(0, 18, 2), *range(1, 23, 2))), False),
            "one cue less than half": ((range(40), range(19)), False),
            "all texts": ((range(40), range(0, 40, 2)), True),
            "no text": ((range(40), range(1, 40, 2)), False),
            "a quarter of the texts, all in the first half": ((range(40), range(0, 20, 4)), False),
            "a quarter of the texts, over half": ((range(40), quarter), True),
            "a quarter of the texts, over less than half": ((range(40), (0, 4, 8, 16, 18)), False),
            "a fifth of the texts": ((range(40), range(0, 36, 5)), False),
            "two of the five are in the first airing": (((0, 4), quarter), False),
            "three of the five are in the first airing": (((0, 4, 20), quarter), True),
            "no cue": ((range(40), ()), False),
            "half of six texts are in the first airing": (((0, 4, 20), range(0, 24, 4)), True)})


# Ticks added to all PTS: none, or amounts that make the PTS wrap.
SHIFTS = (0, CLOCK - 150 * TICKS, CLOCK - 10 * TICKS, CLOCK - TICKS // 2, CLOCK - 1, 5 * TICKS)


def shift_pts(pts: int, shift: int) -> int:
    return (pts + shift) % CLOCK


class LossesInParts(unittest.TestCase):
    def test_finds_the_losses_that_affect_a_part(self) -> None:
        for row, shift in itertools.product([*read_vectors("losses-in-parts.tsv")], SHIFTS):
            before, after = (None if frame == "unknown" else shift_pts(
                TICKS * int(frame) + int(row["ticks"]), shift) for frame in (
                    row["before"], row["after"]))
            with self.subTest(row["name"], shift=shift):
                place = LossPlace(before, after, lost=1)
                self.assertEqual(belongs_to_part(place, make_part(100, 200, shift)),
                                 row["affects"] == "yes")

    def test_finds_losses_in_a_part_of_many_hours(self) -> None:
        hour = 90_000
        for hours, shift in itertools.product((1, 12, 14, 20, 23, 24), SHIFTS):
            part = make_part(0, hours * hour, shift)
            for at, expected in ((-hour // 2, False), (1, True), (hours * hour // 2, True),
                                 (hours * hour - hour // 2, True), (hours * hour - 2, True),
                                 (hours * hour + hour // 2, False)):
                before, after = (shift_pts(TICKS * (at + more), shift) for more in (-1, 1))
                # The length of a loss (`missing`) has no effect.
                for place in (LossPlace(before, after), LossPlace(before, after, missing=90_000)):
                    self.assertEqual(belongs_to_part(place, part), expected, (hours, at))

    def test_assigns_a_gap_marker_by_its_pes_packet(self) -> None:
        part = make_part(100, 200, 0, pes=(7, 19))
        for pes, expected in ((0, False), (6, False), (7, True), (12, True), (19, True),
                              (20, False)):
            for pts in ((None, None), (TICKS * 150, TICKS * 151), (TICKS * 300, None)):
                self.assertEqual(belongs_to_part(LossPlace(*pts, gap_marker=pes), part), expected,
                                 (pes, pts))

    def test_no_loss_affects_a_part_without_a_clock(self) -> None:
        self.assertFalse(belongs_to_part(LossPlace(1, 2), make_part(None, None, None)))

    def test_returns_the_frames_that_a_loss_hides(self) -> None:
        day = FRAMES_OF_A_DAY
        # The frames before and after each loss (`None`: unknown), and the hidden frames. A frame
        # before a loss that is outside of the day counts as unknown.
        rows: list[tuple[int | None, int | None, Span]] = [
            (None, 5, Span(0, 5)), (7, 9, Span(7, 9)), (20, None, Span(20, day)),
            (-1, 1, Span(0, 1)), (None, None, Span(0, day)), (day - 1, day, Span(day - 1, day)),
            (day, 9, Span(0, 9))]
        for shift in SHIFTS:
            def pts_at(frame: int | None) -> int | None:
                return None if frame is None else shift_pts(TICKS * frame, shift)

            places = [LossPlace(pts_at(before), pts_at(after)) for before, after, _ in rows]
            with self.subTest(shift=shift):
                self.assertEqual([*find_lost_spans(
                    places, origin=shift, within=0)], [span for *_, span in rows])

    def test_computes_the_frames_of_a_recording_from_its_first_and_last_pcr(self) -> None:
        hour = 90_000
        # The frames of the part, by how many ticks the first and the last PCR are later than frame
        # 0, and the complete frames between them
        for shift, (frames, ticks, span) in itertools.product(SHIFTS, (
                ((20, 40), (0, 50 * TICKS), Span(0, 50)),
                ((20, 40), (1, 50 * TICKS - 1), Span(1, 49)),
                ((20, 40), (-TICKS, 60 * TICKS), Span(-1, 60)),
                ((20, 40), (-1, 9 * TICKS), Span(0, 9)),
                *(((0, last), (-hour // 2 * TICKS, (last + hour // 2) * TICKS),
                   Span(-hour // 2, last + hour // 2))
                  for last in range(hour, 25 * hour, hour)))):
            part = TimedPart(*frames, Clock(shift, RECORDING))
            with self.subTest(shift=shift, ticks=ticks):
                self.assertEqual(find_recorded_span((
                    shift_pts(ticks[0], shift), shift_pts(ticks[1], shift)), part), span)

    def test_does_not_know_the_frames_without_pcr_or_if_pts_go_back(self) -> None:
        part = TimedPart(20, 40, Clock(0, RECORDING))
        self.assertIsNone(find_recorded_span(None, part))
        gone_back = part._replace(packets=(0, 1))  # a part has `packets` only if the PTS go back
        self.assertIsNone(find_recorded_span((0, 50 * TICKS), gone_back))


class PrintedClocks(unittest.TestCase):
    def test_writes_a_pcr_every_tenth_of_a_second_except_in_a_long_pause(self) -> None:
        # Each PES packet has a PCR a tenth of a second before its PTS. A pause of more than two
        # minutes has no other PCR.
        for shift in SHIFTS:
            multiplex, pcr = Multiplex(0x101, b"eng", (0, 0x88)), list[int]()
            for pts in (0, 5 * TENTH_TICKS, 5 * TENTH_TICKS + 7,
                        5 * TENTH_TICKS + 130 * 10 * TENTH_TICKS):
                multiplex.add_pes_packet(b"", shift_pts(pts, shift))
            data = multiplex.take_packets()
            for at in range(0, len(data), 188):
                if data[at + 3] & 0x20:
                    pcr.append(int.from_bytes(data[at + 6:at + 12], "big") >> 15)
            expected = [-TENTH_TICKS, 0, TENTH_TICKS, 2 * TENTH_TICKS, 3 * TENTH_TICKS,
                        4 * TENTH_TICKS, 4 * TENTH_TICKS + 7,
                        5 * TENTH_TICKS + 130 * 10 * TENTH_TICKS - TENTH_TICKS]
            with self.subTest(shift=shift):
                self.assertEqual(pcr, [shift_pts(item, shift) for item in expected])
