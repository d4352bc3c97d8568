"""Table-driven tests of the search for a clock: time bases, matching cues, parts and repeats."""
from __future__ import annotations

import itertools
import unittest
from typing import Sequence
from unittest import mock

from subtitles.clock.alignment import (
    CueOffset, EarlyCues, ExpectedCue, ExpectedSubtitle, MAX_BASES, MAX_CUE_OFFSET, OriginFit,
    MAX_REPEATED_TEXTS, TimeBase, find_expected_cues, find_single_texts, find_time_bases,
    select_time_bases)
from subtitles.clock.origin import find_airing_packets
from subtitles.clock.stretches import (
    EstimatedPart, Stretch, Track, find_airings, find_changes_by_time, fit_parts, limit_bases)
from subtitles.common.command_line import Lateness
from subtitles.common.times import CLOCK, EARLY_TICKS, TICKS
from subtitles.stream.packets import PacketRun, Packets, PageChange
from .bench import Case

EACH = 5000  # frames between the starts of two airings of the programme
SHIFTS = (0, CLOCK - 2 * TICKS - 7)  # first PTS: without a wrap, and shortly before a wrap


def changes_at(several: Sequence[tuple[int, bytes]], shift: int = 0) -> list[PageChange]:
    """Return page changes to these texts, each at its time in ticks after the PTS `shift`."""
    return [PageChange((shift + ticks) % CLOCK, letters, at, ((20, letters),) if letters else ())
            for at, (ticks, letters) in enumerate(several)]


def make_time_base(cues: Sequence[ExpectedCue], several: Sequence[tuple[int, bytes]],
                   length: int = 9999, within: int = 0, shift: int = 0) -> TimeBase:
    return TimeBase(cues, changes_at(several, shift), shift, (shift + TICKS * length) % CLOCK,
                    (0, 99), within)


def make_sent_packets(sendings: Sequence[tuple[int, bytes]], every: int = 0) -> Packets:
    """Return the PES packets of page transmissions, given by unwrapped PTS and text.

    They are repeated after `every` frames if this is not 0.
    """
    packets = Packets(0)
    shown: bytes | None = None
    for at, (pts, letters) in enumerate(sendings):
        end = sendings[at + 1][0] if at + 1 < len(sendings) else pts + 1
        for place in range(pts, max(end, pts + 1), TICKS * every or 1 << 40):
            number = packets.count
            packets.runs.append(PacketRun(number, 1, place % CLOCK, 0, "heo" + "b" * (not letters),
                                          ""))
            if letters != shown:
                packets.changes.append(PageChange(place % CLOCK, letters, number, ((20, letters),)))
            shown = letters
    return packets


class TimeBases(unittest.TestCase):
    def test_assigns_each_change_to_a_frame(self) -> None:
        """Without --within, to the nearest frame. With it, frames begin at the median of the PTS
        that are less than EARLY_TICKS off, and only the last change in a frame counts, if it is
        blank or changes the text of the frame before."""
        half = TICKS // 2
        early = EARLY_TICKS  # PTS that are less early belong to the following frame
        # --within in frames; the PTS and text of each change; the PTS of frame 0; by frame, the
        # text, and by how many ticks its PTS is later than the frame
        rows: list[tuple[int, list[tuple[int, bytes]], int, dict[int, tuple[bytes, int]]]] = [
            (0, [(-5, b"a"), (half - 1, b""), (half, b"c")], 0,
             {0: (b"", half - 1), 1: (b"c", half - TICKS)}),
            (1, [(0, b"a"), (half, b"b"), (TICKS, b"")], 0, {0: (b"b", half), 1: (b"", 0)}),
            (1, [(0, b"a"), (half, b""), (TICKS, b"a")], 0, {0: (b"", half), 1: (b"a", 0)}),
            (1, [(0, b"a"), (TICKS, b""), (TICKS + half, b"a"), (4 * TICKS, b"b")], 0,
             {0: (b"a", 0), 4: (b"b", 0)}),
            (1, [(0, b"a"), (TICKS, b"b"), (2 * TICKS, b"a"), (3 * TICKS, b"b")], 0,
             {0: (b"a", 0), 1: (b"b", 0), 2: (b"a", 0), 3: (b"b", 0)}),
            (1, [(0, b""), (TICKS, b""), (2 * TICKS, b"a")], 0,
             {0: (b"", 0), 1: (b"", 0), 2: (b"a", 0)}),
            (1, [(9, b"a"), (TICKS + half, b"b"), (2 * TICKS + half, b"c"), (3 * TICKS + 7, b"d"),
                 (4 * TICKS + 8, b"e")], 8, {0: (b"a", 1), 1: (b"b", half - 8), 2: (b"c", half - 8),
                                             3: (b"d", -1), 4: (b"e", 0)}),
            (1, [(1 - early, b"a"), (2 * TICKS + 1 - early, b"b")], 1 - early,
             {0: (b"a", 0), 2: (b"b", 0)}),
            (1, [(-early, b"a"), (2 * TICKS - early - 1, b"b"), (3 * TICKS, b"c")], 0,
             {0: (b"a", -early), 1: (b"b", TICKS - early - 1), 3: (b"c", 0)})]
        for shift, (within, sent, first, expected) in itertools.product(SHIFTS, rows):
            base = make_time_base([], sent, 7, within, shift)
            self.assertEqual((base.first - shift) % CLOCK, first % CLOCK, sent)
            self.assertEqual({frame: (change.letters, change.ticks)
                              for frame, change in base.changes.items()}, expected, sent)
            self.assertEqual(base.length, 7, sent)

    def select(self, counts: Sequence[int], inside: tuple[int, int]) -> list[tuple[int, int, int]]:
        """Return the first and end PES packet and the number of page changes of each time base.

        Each of `counts` is the number of page changes in four PES packets, after which the PTS go
        back. Only the PES packets `inside` are used.
        """
        packets = Packets(0, [PacketRun(4 * at, 4, 10 ** 9 - at * 10 ** 6, TICKS, "h", "")
                              for at in range(len(counts))])
        packets.changes = [PageChange(0, b"", 4 * at + more) for at, count in enumerate(counts)
                           for more in range(count)]
        return [(base.start, base.stop, len(changes))
                for base, changes in select_time_bases(packets, inside)]

    def test_selects_the_time_bases_with_changes_in_the_given_pes_packets(self) -> None:
        whole = [(0, 4, 2), (4, 8, 4), (12, 16, 1), (16, 20, 3)]
        for inside, expected in (
                ((0, 19), whole), ((0, 99), whole), ((1, 19), [(1, 4, 1), *whole[1:]]),
                ((2, 7), [(4, 8, 4)]), ((0, 6), [(0, 4, 2), (4, 7, 3)]), ((7, 7), [(7, 8, 1)]),
                ((8, 11), []), ((8, 12), [(12, 13, 1)]), ((5, 17), [(5, 8, 3), (12, 16, 1),
                                                                    (16, 18, 2)])):
            self.assertEqual(self.select([2, 4, 0, 1, 3], inside), expected, inside)

    def test_selects_the_time_bases_with_the_most_changes(self) -> None:
        result = self.select([1, *[2] * (MAX_BASES - 1), 3, 1], (0, 999))
        self.assertEqual([begin for begin, _, _ in result],
                         [4 * at for at in range(1, MAX_BASES + 1)])

    def test_a_time_base_spans_the_first_to_last_header(self) -> None:
        # Runs of two PES packets: h with headers, o without any, m gap markers; and the first and
        # last frame of the time base
        for kinds, expected in (("hhh", (0, 5)), ("ohh", (2, 5)), ("hho", (0, 3)), ("oho", (2, 3)),
                                ("ooo", None), ("mhh", (2, 5)), ("hhm", (0, 3))):
            packets = Packets(0, [PacketRun(2 * at, 2, None if kind == "m" else 2 * TICKS * at,
                                            TICKS, kind, "") for at, kind in enumerate(kinds)])
            packets.changes = [PageChange(0, b"", 1)]
            self.assertEqual([base.pts_range for base in find_time_bases([], packets, 0)], [
                (TICKS * expected[0], TICKS * expected[1])] if expected else [], kinds)


class Fits(Case):
    """Three subtitles from frame 10 on, with six cues; frame 10 is sent in frame 0 of `SENT`."""

    cues = find_expected_cues([ExpectedSubtitle(10, 20, 1, b"a"), ExpectedSubtitle(30, 45, 2, b"b"),
                               ExpectedSubtitle(50, 60, 3, b"c")])
    SENT = [(0, b"a"), (10, b""), (20, b"b"), (35, b""), (40, b"c"), (50, b"")]

    def make_base(self, sent: Sequence[tuple[int, bytes]], length: int = 60, within: int = 0
                  ) -> TimeBase:
        """Return a time base of `length` frames with page changes, given by frame and text."""
        return make_time_base(self.cues, [(TICKS * frame, text) for frame, text in sent], length,
                              within)

    def fit(self, sent: Sequence[tuple[int, bytes]], ticks: Sequence[int] = (0,) * 9,
            length: int = 50, within: int = 0, shift: int = 0) -> OriginFit:
        """Match the cues with page changes if the first PTS, `shift`, is at frame 10.

        Each change is `ticks` later than its frame.
        """
        changes = [(TICKS * frame + off, text) for (frame, text), off in zip(sent, ticks)]
        return make_time_base(self.cues, changes, length, within, shift).compare(10)

    def test_counts_cues_with_their_characters_and_texts(self) -> None:
        sent = self.SENT
        wrong = [*sent[:2], (20, b"x"), *sent[3:]]
        # What is sent, and the length of the time base in frames. Expected are the matching cues,
        # those with the expected page, with the expected text, those at the start of a frame, and
        # all during the time base; and the frames of the first text and of the first unmatched cue.
        rows: list[tuple[list[tuple[int, bytes]], int, tuple[
            int, int, int, int, int, int | None, int | None]]] = [
            (sent, 50, (6, 6, 3, 6, 6, 10, None)), (sent, 49, (5, 5, 3, 5, 5, 10, None)),
            (wrong, 50, (6, 5, 2, 6, 6, 10, None)), (sent[:-1], 50, (5, 5, 3, 5, 6, 10, 60)),
            (sent[1:], 50, (5, 5, 2, 5, 6, 30, 10)), (sent[:1], 0, (1, 1, 1, 1, 1, 10, None)),
            ([(0, b"x"), *sent[1:2]], 10, (2, 1, 0, 2, 2, None, None)),
            ([*sent[:3], *sent[4:]], 50, (5, 5, 3, 5, 6, 10, 45)),
            ([], 50, (0, 0, 0, 0, 6, None, 10))]
        for shift, (changes, length, counts) in itertools.product(SHIFTS, rows):
            fit = self.fit(changes, length=length, shift=shift)
            self.assertEqual(fit, OriginFit((shift - 10 * TICKS) % CLOCK, *counts, start=10,
                                            delays=[]), changes)
            self.assertEqual((fit.score(), fit.score(counts_erasures=False)), (
                fit.matches + fit.content_matches, fit.matches + fit.text_matches), changes)

    def test_the_origin_is_that_of_most_cues(self) -> None:
        # The ticks by which each PTS is later than its frame, those of the origin, and how many
        # cues are at the start of a frame
        for ticks, rest, exact in (((0, 0, 0, 0, 0, 0), 0, 6), ((0, 0, 5, 5, 5, 5), 5, 4),
                                   ((-9, -9, 0, 0, 0, 7), 0, 3), ((-9, -9, -9, -9, 0, 7), -9, 4),
                                   ((1, 2, 3, 4, 5, 6), 4, 1)):
            fit = self.fit(self.SENT, ticks)
            self.assertEqual((fit.origin, fit.exact_matches), ((rest - 10 * TICKS) % CLOCK, exact),
                             ticks)

    def test_measures_the_delay_of_each_matching_cue_in_whole_frames(self) -> None:
        late = [(1, b"a"), (10, b""), (22, b"b"), (36, b""), (42, b"x"), (50, b"")]
        expected = OriginFit(
            origin=-10 * TICKS % CLOCK, matches=5, content_matches=5, text_matches=2,
            exact_matches=5, total=6, first_text=10, first_unmatched=50, start=10,
            delays=[1, 0, 2, 1, 0])
        for ticks in ([0] * 6, [0, 1800, 9, -9, 0, 5]):
            self.assertEqual(self.fit(late, ticks, within=2), expected, ticks)

    def test_says_whether_the_text_of_a_cue_is_sent_in_its_frame(self) -> None:
        for frame, text, expected in ((20, b"b", True), (20, b"x", False), (21, b"b", False)):
            base = self.make_base([(frame, text)])
            self.assertEqual(base.has_text_at(self.cues[2], 10), expected, (frame, text))

    def test_matches_the_first_change_to_the_expected_page_within_the_tolerance(self) -> None:
        base = self.make_base([(20, b"b"), (21, b"x"), (22, b"b"), (36, b"")], within=2)
        # The cue, the frame of the first PTS, and the delay of the match
        for at, start, delay in ((2, 10, 0), (2, 9, 1), (2, 8, 0), (2, 7, None), (2, 11, 1),
                                 (3, 10, 1), (3, 9, 0), (3, 8, None), (3, 11, 2)):
            match = base.find_match(self.cues[at], start)
            self.assertEqual(match and match.delay, delay, (at, start))

    def test_a_delay_of_all_cues_is_part_of_the_origin(self) -> None:
        fit = self.make_base([(22, b"b")], within=2).fit(10)
        self.assertEqual((fit.start, fit.delays), (8, [0]))
        base = self.make_base([(frame + 2, text) for frame, text in self.SENT], within=2)
        for start in (8, 9, 10):
            self.assertEqual((base.fit(start).start, base.fit(start).delays), (8, [0] * 6), start)
        self.assertEqual([min(fit.delays) for fit in base.fits], [0] * len(base.fits))

    def test_finds_no_origin_without_changes(self) -> None:
        self.assertEqual(make_time_base(self.cues, []).fits, [])

    def find_offset(self, sent: Sequence[tuple[int, bytes]], within: int = 0,
                    cues: Sequence[ExpectedCue] = cues, start: int = 10) -> CueOffset | None:
        """Return the constant delay of in-cues after out-cues, or of out-cues after in-cues.

        It has whether it is of in-cues, the frames, and how many of these cues have this delay.
        """
        base = make_time_base(cues, [(TICKS * frame, text) for frame, text in sent], 1000, within)
        return base.find_cue_offset(base.compare(start))

    def test_finds_the_constant_difference_between_in_cues_and_out_cues(self) -> None:
        """It is greater than the tolerance, and at most MAX_CUE_OFFSET. An erasure without any text
        is no evidence of it."""
        late = [(frame + 2 * (not text), text) for frame, text in self.SENT]
        first, two, most = (0, b"a"), self.cues[:2], MAX_CUE_OFFSET
        twice_erased = [first, (10, b""), (12, b""), (20, b"b"), (37, b"")]
        self.check_rows(self.find_offset, {
            "no delay": ((self.SENT,), None),
            "late out-cues": ((late,), CueOffset(False, 2, 3, 3)),
            "later than the tolerance": ((late, 1), CueOffset(False, 2, 3, 3)),
            "within the tolerance": ((late, 2), None),
            "one of three is on time": (([*late[:5], (50, b"")],), None),
            "three delays": (([first, (12, b""), late[2], (37, b""), late[4], (56, b"")],), None),
            "an out-cue on time and late": ((twice_erased, 0, self.cues[:4]), None),
            "only an erasure": (([(10, b"")],), None), "a late one": (([(13, b"")], 0, two), None),
            "one out-cue": (([first, (10 + most, b"")], 0, two), CueOffset(False, most, 1, 1)),
            "later than the maximum": (([first, (11 + most, b"")], 0, two), None)})

    def test_nine_in_ten_cues_have_to_have_the_same_delay(self) -> None:
        cues = find_expected_cues([ExpectedSubtitle(100 * at, 100 * at + 50, at, b"%d" % at)
                                   for at in range(10)])
        for is_begin, on_time in itertools.product((True, False), (0, 1, 2)):
            late = [cue for cue in cues if cue.is_begin == is_begin][on_time:]
            sent = [(cue.frame + 7 * (cue in late), cue.letters) for cue in cues]
            self.check(f"in-cues {is_begin}, {on_time} on time", self.find_offset(sent, 0, cues, 0),
                       None if on_time == 2 else CueOffset(is_begin, 7, 10 - on_time, 10))

    def test_counts_cues_with_a_delay(self) -> None:
        base = self.make_base(self.SENT, length=49)
        # Whether in-cues are counted, their delay in frames, how many have it, and how many would
        # be sent during the time base
        for is_begin, late, matches, total in (
                (True, 0, 3, 3), (False, 0, 2, 2), (True, 10, 0, 2), (True, -1, 0, 2),
                (False, -1, 0, 3), (True, 9, 0, 3), (False, -36, 0, 1), (True, 20, 0, 2)):
            self.check(f"in-cues {is_begin}, {late} late", base.count_delayed(
                base.compare(10), is_begin, late), CueOffset(is_begin, late, matches, total))

    def test_in_cues_determine_the_origin_if_only_out_cues_are_on_time(self) -> None:
        for by in (-3, 3):  # in-cues are three frames earlier or later than out-cues
            sent = [(frame + 9 + by * bool(text), text) for frame, text in self.SENT]
            base = self.make_base(sent, length=70)
            self.check(f"{by}", self.find_offset(sent, start=1), CueOffset(True, by, 3, 3))
            for start in (1, 1 - by):
                self.check(f"{by}: start from {start}",
                           base.align_to_in_cues(base.compare(start)).start, 1 - by)

    def test_samples_many_changes_to_find_origins(self) -> None:
        # The pairs of a cue and a change that are compared at most; there are 6 cues, 47 changes.
        sent = [(at, b"x") for at in range(0, 80, 2)] + [
            (cue.frame + 500, b"y") for cue in self.cues] + [(900, b"x")]
        for votes in (1 << 20, 100):
            with mock.patch("subtitles.clock.alignment.VOTES", votes):
                starts = [fit.start for fit in self.make_base(sent, length=9999).fits]
            self.assertIn(-500, starts, votes)
        with mock.patch("subtitles.clock.alignment.VOTES", 60):
            base = make_time_base(self.cues * 2, [(TICKS * frame, text) for frame, text in sent])
            self.assertEqual(len(find_changes_by_time([base], 12)), 12)

    def test_ignores_texts_of_more_cues_than_the_maximum(self) -> None:
        for count, is_counted in ((MAX_REPEATED_TEXTS, True), (MAX_REPEATED_TEXTS + 1, False)):
            cues = [ExpectedCue(1000 * at * at, b"x", True) for at in range(count)] + [
                ExpectedCue(5, b"", False), ExpectedCue(7, b"y", True)]
            base = make_time_base(cues, [(TICKS, b"x"), (2 * TICKS, b""), (3 * TICKS, b"y")])
            self.assertEqual(base.count_equal_texts(), {7 - 3: 1, **{
                1000 * at * at - 1: 1 for at in range(count if is_counted else 0)}}, count)

    def test_returns_texts_that_are_sent_once(self) -> None:
        self.assertEqual(find_single_texts([(1, b"a"), (2, b""), (3, b"b"), (4, b"a"), (5, b""),
                                            (6, b"c"), (7, b"a")]), {b"b": 3, b"c": 6})
        self.assertEqual(find_single_texts([(1, b""), (2, b"a")]), {b"a": 2})


class Parts(unittest.TestCase):
    """Six subtitles from frame 100 to frame 650. The second half begins with frame 400."""

    shown = [ExpectedSubtitle(100 * at, 100 * at + 50, at, b"%d" % at) for at in range(1, 7)]

    def parts(self, shown: Sequence[ExpectedSubtitle], later: int, has_two_bases: bool,
              extra: Sequence[tuple[int, bytes]] = ()) -> list[EstimatedPart]:
        """Return the parts of a programme whose second half is `later` frames late.

        Both halves share a time base, or each has its own. `extra` contains further page changes of
        the first half.
        """
        cues = find_expected_cues(shown)
        half = sum(cue.frame < 400 for cue in cues)
        first = [(TICKS * cue.frame, cue.letters) for cue in cues[:half]]
        second = [(TICKS * (cue.frame + later), cue.letters) for cue in cues[half:]]
        first += [(TICKS * frame, letters) for frame, letters in extra]
        several = [first, second] if has_two_bases else [sorted(first + second)]
        bases = [make_time_base(cues, some, 6000) for some in several]
        row = [Stretch(Track(0, 0, bases[0]), 0, half),
               Stretch(Track(len(bases) - 1, -later, bases[-1]), half, len(cues))]
        return fit_parts(shown, bases, row)

    def test_each_part_has_its_frames_and_agreeing_cues(self) -> None:
        shown = self.shown
        up_to = [*shown[:2], shown[2]._replace(end=400), *shown[3:]]
        into = [*shown[:2], shown[2]._replace(end=401), *shown[3:]]
        two = [shown[0], shown[1]._replace(end=230), shown[1]._replace(begin=240, end=405),
               *shown[3:]]
        both: list[tuple[int, ...]] = [(100, 350, 6, 6, 0), (400, 650, 6, 6, 0)]
        # The subtitles, more page changes, and for each part the first and last frame, the matching
        # cues, all cues, and the number of subtitles that reach into the next part
        rows: dict[str, tuple[list[ExpectedSubtitle], list[tuple[int, bytes]],
                              list[tuple[int, ...]]]] = {
            "a pause between the parts": (shown, [], both),
            "other pages in the pause": (shown, [(351, b"x"), (4399, b"y")], both),
            "no pause": (up_to, [(400, b"")], [(100, 400, 6, 6, 0), (400, 650, 6, 6, 0)]),
            "a subtitle reaches into the second part": (
                into, [], [(100, 250, 4, 4, 1), (400, 650, 5, 6, 0)]),
            "a subtitle after a short pause does": (
                two, [], [(100, 230, 4, 4, 1), (400, 650, 5, 6, 0)])}
        for (name, (some, extra, expected)), has_two_bases in itertools.product(
                rows.items(), (False, True)):
            result = self.parts(some, 4000, has_two_bases, extra)
            self.assertEqual([(*item[:2], item.best.matches, item.best.total, len(item.overlapping))
                              for item in result], expected, name)
            self.assertEqual([(item.best.start, item.base, item.early) for item in result],
                             [(0, 0, None), (-4000, int(has_two_bases), None)], name)
            # The last page change of the first part, and the first of the second
            first, second = ([*item.time_base.changes] for item in result)
            others = sorted(frame for frame, _ in extra)
            last = some[2].begin if expected[0][4] else min(some[2].end, 399)
            self.assertEqual((first[-1], second[0]), (
                others[-1] if others else last, 4400 if has_two_bases else min(
                    [item for item in others if item > last] + [4400])), name)

    def test_each_part_has_its_own_delays(self) -> None:
        # In each part, all cues but the first are as many frames late; --late may say that no cue
        # ever is.
        cues = find_expected_cues(self.shown)
        late = Lateness({0: 1}, {0: 1})
        for delays in itertools.product((0, 1), repeat=2):
            sent = [(TICKS * (cue.frame + by + (cue.frame in (100, 400)) * -by + 4000 * part),
                     cue.letters) for part, by in enumerate(delays)
                    for cue in cues[6 * part:6 * part + 6]]
            base = make_time_base(cues, sent, 6000, 1)
            row = [Stretch(Track(0, 0, base), 0, 6), Stretch(Track(0, -4000, base), 6, 12)]
            for shares in (None, late):
                result = fit_parts(self.shown, [base], row, shares)
                self.assertEqual([(item.best.start, item.early) for item in result], [
                    (start - by, None if shares or not by else EarlyCues(1, 6, 1))
                    for start, by in zip((0, -4000), delays)], (delays, shares))

    def test_chooses_the_time_base_with_most_matches(self) -> None:
        cues = find_expected_cues(self.shown)
        own = [(TICKS * cue.frame, cue.letters) for cue in cues]
        none = make_time_base(cues, [(0, b"x")]).copy_between([], -1, 9)
        other_texts = make_time_base(cues, [(TICKS * at * at, b"x") for at in range(30)])
        two, three, four, five = (make_time_base(cues, own[:count]) for count in (2, 3, 4, 5))
        # The time bases, named by the number of matching cues, and the number of the chosen one
        for bases, number in (([two, five], 1), ([five, four], 0), ([none, three, none], 1),
                              ([five, other_texts], 0), ([other_texts, five], 1)):
            [part] = fit_parts(self.shown[::-1], bases, [])  # subtitles in reverse order
            self.assertEqual((part.base, part[:2], part.best.start, part.overlapping), (
                number, (100, 650), 0, []), number)
            self.assertIs(part.time_base, bases[number], (bases, number))
            self.assertEqual([fit for fit in bases[number].fits if fit.start], part.others,
                             (bases, number))
        self.assertEqual(fit_parts(self.shown, [none], []), [])


class Runs(unittest.TestCase):
    """Airings of a programme of 12 subtitles: `due` at unequal distances, `grid` at equal ones."""

    due = [ExpectedSubtitle(at * at * 7 + 90 * at, at * at * 7 + 90 * at + 60 + at, at, b"%d" % at)
           for at in range(12)]
    grid = [ExpectedSubtitle(100 * at, 100 * at + 50, at, b"%d" % at) for at in range(12)]

    def find_airings(self, shown: Sequence[ExpectedSubtitle], kinds: str, step: int,
                     has_clock: bool = False) -> list[tuple[int, int]]:
        """Return the first and last frame of each airing that is found.

        An airing begins `step` frames after the one before. `kinds` has a letter for each: r
        (right), w (wrong texts), f (a quarter of the texts are right), h (half of the cues) or l
        (less than half). The frames of a time base count from `EACH` times its number on.
        """
        sendings = []
        for number, kind in enumerate(kinds):
            for at, cue in enumerate(find_expected_cues(shown)[:{"h": 12, "l": 11}.get(kind, 24)]):
                is_text = kind in "rhl" or kind == "f" and at % 8 < 2 or not cue.letters
                sendings.append((TICKS * (cue.frame + step * number),
                                 cue.letters if is_text else b"wrong %d" % at))
        bases = find_time_bases(shown, make_sent_packets(sendings), 0)
        return [(first[1] + EACH * first[0], last[1] + EACH * last[0])
                for first, last in find_airings(bases, has_clock)]

    def test_finds_airings_with_half_of_the_cues_or_a_quarter_of_the_texts(self) -> None:
        """Airings with wrong texts are found by the times of their cues, unless a clock is given.
        """
        for step, kinds, has_clock in itertools.product((EACH, -10 ** 6), (
                "r", "rrr", "hrr", "lr", "rwr", "wrw", "fr"), (False, True)):
            kept = [(EACH * at, EACH * at + self.due[5 if kind == "h" else 11].end)
                    for at, kind in enumerate(kinds)
                    if kind != "l" and not (kind == "w" and has_clock)]
            self.assertEqual(self.find_airings(self.due, kinds, step, has_clock), kept,
                             (step, kinds, has_clock))

    def test_finds_an_airing_at_equal_distances_only_by_its_texts(self) -> None:
        self.assertEqual(self.find_airings(self.grid, "rw", EACH), [(0, 1150)])
        self.assertEqual(self.find_airings(self.grid, "rr", EACH), [(0, 1150), (EACH, EACH + 1150)])

    def test_finds_the_pes_packets_of_airings_many_hours_apart(self) -> None:
        hour = 90_000
        for away in (14 * hour, 19 * hour + 7):
            packets = make_sent_packets([
                (TICKS * (cue.frame + begin), cue.letters) for begin in (0, away)
                for cue in find_expected_cues(self.due)], hour)
            half = len(packets.changes) // 2
            last, first = (item.number for item in packets.changes[half - 1:half + 1])
            bases = find_time_bases(self.due, packets, 0)
            runs = find_airings(bases)
            self.assertEqual([find_airing_packets(runs, at, bases, packets)
                              for at in range(len(runs))],
                             [(0, first - 1), (last + 1, packets.count - 1)], away)

    def test_returns_the_changes_between_two_frames_of_time_bases(self) -> None:
        bases = [make_time_base([], [(TICKS * at, b"%d" % at) for at in range(5)], 4)
                 for _ in range(3)]
        # A time base and frame to begin after, and to end before; the frames of the changes between
        for low, high, expected in (
                ((0, 1), (0, 3), [[2], [], []]), ((0, 1), (1, 1), [[2, 3, 4], [0], []]),
                ((-1, 0), (1, 0), [[0, 1, 2, 3, 4], [], []]), ((1, 4), (1 << 40, 0), [
                    [], [], [0, 1, 2, 3, 4]]), ((0, 4), (2, 2), [[], [0, 1, 2, 3, 4], [0, 1]]),
                ((1, 2), (1, 3), [[], [], []]), ((-1, 0), (0, 1), [[0], [], []])):
            self.assertEqual([[*base.changes] for base in limit_bases(bases, low, high)], expected,
                             (low, high))

    def test_finds_an_airing_by_its_times_alone(self) -> None:
        cues = find_expected_cues(self.due[:10])
        # The number of cues that matched in the first airing, that of page changes at the times of
        # its 20 cues, and whether they are an airing: 90 % of the first number, and 75 % of 20.
        # This needs 10 cues that matched, and 20 with --within.
        for within, (count, changes, is_airing) in itertools.product((0, 1), (
                (20, 20, True), (20, 18, True), (20, 17, False), (16, 15, True), (10, 15, True),
                (10, 14, False), (9, 20, False), (19, 20, True))):
            base = make_time_base(cues, [(TICKS * (cue.frame + within * at % 2), b"%d" % at)
                                         for at, cue in enumerate(cues[:changes])], 9999, within)
            for bases in ([base], [base.copy_between(cues, -1, -1), base],
                          [base.copy_between(cues, -1, 300), base]):
                expected = {at: (len(bases) - 1, cue.frame + within * at % 2)
                            for at, cue in enumerate(cues[:changes])}
                is_found = is_airing and count >= 10 * (1 + within)
                self.assertEqual(find_changes_by_time(bases, count), expected if is_found else {},
                                 (within, count, changes))
