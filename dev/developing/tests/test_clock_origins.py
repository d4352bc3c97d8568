"""Test the estimated origin of known transmissions, options of the search, and printed lines."""
from __future__ import annotations

import itertools
import unittest
from collections import Counter
from typing import Any, Sequence

from developing.pes import decode_pts, get_data_field, get_teletext_packets, make_pes_packet
from developing.stl import make_box_line
from subtitles.clock.alignment import (
    ExpectedCue, ExpectedSubtitle, TimeBase, count_delays, find_expected_cues)
from subtitles.clock.origin import (
    OriginEstimate, OriginSearch, estimate_origin, prefer_known_origin, read_subtitles_between)
from subtitles.clock.stretches import (
    EstimatedPart, Stretch, Track, find_best_stretches, find_stretches, select_other_origins)
from subtitles.common.command_line import Lateness, Stop
from subtitles.common.times import ALL_DAY, CLOCK, FrameRange, TICKS
from .bench import Case
from .parts import make_example_request, survey_packets
from .stories import read_vectors
from .transmissions import (
    CLOSING, HEADER, ShownSubtitle, make_numbered_row, schedule_pes, write_programme,
    write_subtitle_file)
from .test_clock_tables import EACH, make_sent_packets, make_time_base

FIRST_TCI, COUNT = 1_000_000, 12  # first TCI in frames; number of subtitles


def make_even_times(count: int, step: int, lasts: int, text: bytes = b"Number %d", begin: int = 0
         ) -> list[ShownSubtitle]:
    return [(begin + step * at, begin + step * at + lasts, text % at if b"%" in text else text)
            for at in range(count)]


class Origins(Case):
    def stl(self, times: Sequence[ShownSubtitle], name: str = "one.stl") -> str:
        return write_subtitle_file(self, [(begin, end, make_box_line(text))
                                          for begin, end, text in times], name, first=0, row=20)

    def find(self, stl: str, pes: Sequence[bytes], *args: str) -> OriginEstimate:
        """Estimate the origin from a subtitle file and PES packets, with options of qc."""
        request = make_example_request(stl, "one.pes", *args)
        search = OriginSearch(stl, "one.pes", request.page, request.option, request.origin,
                              request.within, request.breaks, request.pes)
        return estimate_origin(search, survey_packets(self, b"".join(pes), request.page))

    def test_selects_subtitles_by_time_and_number(self) -> None:
        stl = self.stl([(0, 50, b"a"), (60, 60, b"b"), (100, 150, b"c"), (200, 300, b"d")])
        # The frames in which subtitles begin, the positions of skipped subtitles, and their TCIs
        self.check_rows(lambda between, skipped: [
            item.begin for item in read_subtitles_between(stl, "english", between, skipped)], {
            "all that last a frame or more": ((ALL_DAY, ()), [0, 100, 200]),
            "up to a TCI": ((FrameRange(0, 100), ()), [0]),
            "without the first": ((ALL_DAY, (1,)), [100, 200]),
            "up to after a TCI": ((FrameRange(100, 201), ()), [100, 200]),
            "from after a TCI on": ((FrameRange(1, 200), ()), [100]),
            "without the last two": ((ALL_DAY, (3, 4)), [0])})

    def test_distinguishes_subtitles_by_text_row_and_justification(self) -> None:
        def read(text: bytes, row: int = 20, justify: int = 2) -> ExpectedSubtitle:
            stl = write_subtitle_file(self, [(0, 9, make_box_line(text))], "look.stl", 0, row,
                                      justify)
            return read_subtitles_between(stl, "english", ALL_DAY, ())[0]

        different = [read(b"a"), read(b"a", row=22), read(b"a", justify=1), read(b"b")]
        self.check("different looks", len({subtitle.look for subtitle in different}), 4)
        self.check("equal looks", read(b"a"), read(b"a"))
        self.check("letters", [subtitle.letters for subtitle in different],
                   [b"a", b"a", b"a", b"b"])

    def test_reads_characters_by_the_national_option(self) -> None:
        stl = self.stl([(0, 9, b"\xc8a")])  # an a umlaut, which English lacks
        for option, has_umlaut in (("german", True), ("swedish", True), ("english", False)):
            letters = read_subtitles_between(stl, option, ALL_DAY, ())[0].letters
            self.check(option, letters == b"{", has_umlaut)

    def test_reports_that_no_cue_agrees(self) -> None:
        pes = [*self.transmission(5000), make_pes_packet(CLOCK // 2, [])]
        last = len(pes) - 1
        rows: dict[str, tuple[list[bytes], list[str], str]] = {
            "only the last PES packet": (pes, ["--pes", f"{last}-{last}"],
                                         "no cue matches at any origin"),
            "no PTS": ([b"\0\0\1\xbd\0\5abcde"], [], "none of 1 PES packet in one.pes has a PTS: "
                       "they are refused with fault 34"),
            "no PES packet": ([], [], "none of 0 PES packets in one.pes has a PTS: they are "
                              "refused with fault 34")}
        for name, (sent, options, line) in rows.items():
            result = self.find(self.write_own_stl(), sent, *options)
            self.check(name, (result.status, result.lines), (1, [line]))

    def test_refuses_an_incomplete_pes_packet(self) -> None:
        for data in (self.transmission(5000)[0][:-1], b"\0\0\1\xbd"):
            with self.assertRaisesRegex(Stop, "^one.pes: PES packet 0 is incomplete$"):
                self.find(self.write_own_stl(), [data])

    def test_refuses_a_file_all_of_whose_subtitles_are_skipped(self) -> None:
        with self.assertRaisesRegex(Stop, "has no subtitle that begins and ends within a day$"):
            read_subtitles_between(self.write_own_stl(), "english", ALL_DAY, range(COUNT + 1))

    def test_uses_the_origin_of_rows_that_are_a_frame_late(self) -> None:
        """Headers erase the page on time (out-cues). The rows of a text are sent a frame later, so
        the page has the text a frame late (in-cues)."""
        for count in (1, 2, 3, 20):
            stl = self.stl(make_even_times(count, 100, 60))
            pes_packets = []
            for item in schedule_pes(self, stl, "--every", "1500"):
                header, *rest = get_teletext_packets(get_data_field(item))
                pes_packets.append(make_pes_packet(decode_pts(item), [header]))
                pes_packets += [make_pes_packet(decode_pts(item) + TICKS, rest)] * (len(rest) > 1)
            sent = {"all": pes_packets}
            if count == 20:
                sent["19 of 20"] = pes_packets[:7] + pes_packets[8:]  # without an erased page
            for share, some in sent.items():
                result = self.find(stl, some)
                self.check(f"{count} {share}", result.printed, [f"--origin {TICKS}"])
                self.must(f"{count} {share}: line", f"{share} out-cues are 1 frame early compared "
                          "with the in-cues" in result.lines, result.lines)

    def test_reports_an_ambiguous_origin_of_a_single_subtitle(self) -> None:
        stl = self.stl([(100, 150, b"Own")])
        # The texts that are sent, 200 frames apart, and the origin in frames if it is clear
        rows: dict[str, tuple[list[bytes], list[int]]] = {
            "another text": ([b"Other"], [0]), "two other texts": ([b"Other", b"Another"], []),
            "the text, then another": ([b"Own", b"Other"], [0]),
            "another, then the text": ([b"Other", b"Own"], [200]),
            "the text twice": ([b"Own", b"Own"], [])}
        for name, (texts, origins) in rows.items():
            result = self.find(stl, schedule_pes(self, self.stl(
                [(200 * at + 100, 200 * at + 150, text) for at, text in enumerate(texts)],
                "sent.stl")))
            self.check(f"{name}: origin", [part.origin for part in result.parts],
                       [TICKS * frame for frame in origins])
            self.check(f"{name}: ambiguous", any("ambiguous" in line for line in result.lines),
                       not origins)

    def test_a_text_that_is_sent_once_is_enough_but_no_erased_page(self) -> None:
        stl = self.stl([(100, 150, b"Own")])
        pes = schedule_pes(self, self.stl([(100, 150, b"Other"), (300, 350, b"Own")], "sent.stl"))
        self.check("the text", self.find(stl, pes[2:3]).printed, [f"--origin {200 * TICKS}"])
        self.check("an erased page", self.find(stl, pes[1:2]).printed, [])

    def test_needs_all_cues_if_all_texts_are_equal(self) -> None:
        stl = self.stl(make_even_times(30, 100, 50, b"Again"))
        pes = schedule_pes(self, stl)
        self.check("all cues", self.find(stl, pes).printed, ["--origin 0"])
        self.check("ten cues", self.find(stl, pes[10:20]).printed, [])

    def transmission(self, begin: int, late: Sequence[int] = (0,) * COUNT) -> list[bytes]:
        """Return the PES packets of a programme whose out-cues have these delays in frames."""
        return [make_pes_packet((begin + TICKS * (70 * number + frame)) % CLOCK, [
            HEADER, *[make_numbered_row(20, b"Number %d" % number)] * (not frame), CLOSING])
                for number, by in enumerate(late) for frame in (0, 40 + by)]

    def write_own_stl(self) -> str:
        return self.stl(make_even_times(COUNT, 70, 40, begin=FIRST_TCI))

    def test_accepts_out_cues_with_the_same_delay(self) -> None:
        # The delay of each out-cue in frames, and whether all cues agree
        for late, has_all_cues in (([3] * COUNT, True), ([3] * 6 + [9] * 6, False),
                                   ([3] * (COUNT - 1) + [9], False)):
            result = self.find(self.write_own_stl(), self.transmission(0, late))
            self.check(f"{late}", result.has_all_cues, has_all_cues)
            self.must(f"{late}: times", f"subtitles are expected from 11:06:40:00 to 11:07:12:10; "
                      f"the page was received from 11:06:40:00 to 11:07:12:{10 + late[-1]}"
                      in result.lines, result.lines)


class KnownOrigins(unittest.TestCase):
    cues = [ExpectedCue(frame, text, text != b"") for frame, text in (
        (100, b"a"), (150, b""), (200, b"b"), (250, b""), (400, b"c"))]

    def test_prefers_a_known_origin_if_only_the_first_page_matches_the_estimated_one(self) -> None:
        for row in read_vectors("known-origins.tsv"):
            sent = [(TICKS * int(frame), text.replace("blank", "").encode()) for frame, _, text in (
                item.partition(" ") for item in row["sent"].split(", "))]
            begin, within = int(row["begin"]), int(row["--within"])
            base = make_time_base(self.cues, sent, int(row["last"]), within)
            frame, _, ticks = row["known"].partition(" ")
            part = prefer_known_origin(EstimatedPart(
                0, 0, base.compare(100), select_other_origins(base, 100), base, 0, []),
                                       int(ticks) - TICKS * int(frame) if frame else None)
            self.assertEqual((part.best.start, part.best.matches, len(part.time_base.changes)), (
                begin, int(row["matches"]), len(sent) - (begin != 100)), row["name"])
            self.assertEqual([fit.start for fit in part.others], [
                fit.start for fit in base.fits if abs(fit.start - begin) > within], row["name"])


class Tracks(Case):
    """Twelve cues: subtitles begin in frames 100, 200 .. 600, and end 50 frames later. A track is a
    possible origin, given by the frame of the first PTS."""

    cues = find_expected_cues([ExpectedSubtitle(100 * at, 100 * at + 50, at, b"%d" % at)
                               for at in range(1, 7)])

    def base(self, changes: dict[int, bytes], within: int = 0) -> TimeBase:
        """Return a time base of 1000 frames with page changes to these texts, by frame."""
        return make_time_base(self.cues, [(TICKS * frame, letters) for frame, letters
                                          in sorted(changes.items())], 1000, within)

    def test_gives_a_text_more_points_than_an_erased_page(self) -> None:
        # In frame 200 another text is sent, in 250 the page is not erased, and the text of frame
        # 300 is a frame late: within a tolerance of a frame, it is the expected text.
        due = {cue.frame: cue.letters for cue in self.cues}
        sent = {**due, 200: b"x", 301: due[300]}
        del sent[250], sent[300]
        for within, points, delay, places in ((0, [3, 2, 1, 0, 0, 2], 0, [150, 200, 350]),
                                              (1, [3, 2, 0, 0, 3, 2], 1, [150, 301, 350])):
            track = Track(0, 0, self.base(sent, within))
            self.assertEqual(track.points, points + [3, 2] * 3, within)
            self.assertEqual(track.rank(), (-sum(track.points), delay, 0), within)
            self.assertEqual(Stretch(track, 1, 6).list_matching_places(), places, within)
            self.assertEqual(max(track.row_lengths), 8 if within else 7, within)

    def test_two_equal_texts_outweigh_many_equal_times(self) -> None:
        cues = [ExpectedCue(1000 * at, b"%d" % at, True) for at in range(4)]
        others = [(TICKS * (frame + cue.frame), b"other %d" % frame)
                  for cue in cues for frame in range(100, 250, 2)]
        for within in (0, 1):
            sent = sorted([*others, (TICKS * 51, b"0"), (TICKS * (1051 + within), b"1")])
            base = make_time_base(cues, sent, 9000, within)
            self.assertEqual((base.fits[0].start, base.fits[0].matches), (-51, 2), within)

    def test_needs_five_cues_in_a_row_for_a_track(self) -> None:
        due = {cue.frame: cue.letters for cue in self.cues}
        # The number of cues that are sent in each time base, and the time base of the track
        for counts, chosen in (([4], []), ([5], [0]), ([4, 12], [1]), ([4, 5, 12], [2])):
            row = find_stretches([self.base(dict([*due.items()][:count])) for count in counts])
            self.assertEqual([stretch.track.base for stretch in row], chosen, counts)

    def test_finds_a_second_track_by_texts_or_by_times(self) -> None:
        due = {cue.frame: cue.letters for cue in self.cues}
        later = {frame + 40 * (frame > 350): letters for frame, letters in due.items()}
        for some in (later, {frame: text and b"other " + text for frame, text in later.items()}):
            row = find_stretches([self.base(some)])
            self.assertEqual([(stretch.track.start, stretch.first, stretch.end)
                              for stretch in row], [(0, 0, 6), (-40, 6, 12)], some)

    def test_chooses_the_later_of_two_airings_without_the_last_cue(self) -> None:
        # The result must not depend on the order in which a set of start frames is iterated.
        most = {cue.frame: cue.letters for cue in self.cues[:-1]}
        for later in (300, 301, 400, 500):
            twice = {**most, **{frame + later: text for frame, text in most.items()}}
            self.assertEqual([stretch.track.start for stretch
                              in find_stretches([self.base(twice)])], [-later], later)

    def test_splits_only_where_another_track_agrees_better(self) -> None:
        due = {cue.frame: cue.letters for cue in self.cues}
        half, rest = ({frame: due[frame] for frame in due if (frame < 400) == is_first}
                      for is_first in (True, False))
        rest_later = {frame + 300: letters for frame, letters in rest.items()}
        late_ends = {frame + 3 * (not letters): letters for frame, letters in due.items()}
        late_rest = {frame + 2 - (frame == 400): letters for frame, letters in rest.items()}
        # The time bases; the time base, start, first cue and end of each stretch
        rows: dict[str, tuple[list[TimeBase], list[tuple[int, int, int, int]]]] = {
            "all cues": ([self.base(due)], [(0, 0, 0, 12)]),
            "only four cues": ([self.base(due).copy_between(self.cues[:4], -1, 1000)], []),
            "all out-cues are three frames late": ([self.base(late_ends)], [(0, 0, 0, 12)]),
            "the second half is 300 frames late": (
                [self.base({**half, **dict.fromkeys(rest, b"x"), **rest_later})],
                [(0, 0, 0, 6), (0, -300, 6, 12)]),
            "the second half is a frame late, then two, within one": (
                [self.base({**half, **late_rest}, 1)], [(0, 0, 0, 7), (0, -2, 7, 12)]),
            "each half in its time base": (
                [self.base(half, 1), self.base(rest, 1)], [(0, 0, 0, 6), (1, 0, 6, 12)])}
        for name, (bases, stretches) in rows.items():
            self.check(name, [(stretch.track.base, stretch.track.start, stretch.first, stretch.end)
                              for stretch in find_stretches(bases)], stretches)

    def divide(self, *tracks: tuple[int, int, list[int]]) -> list[tuple[int, int]]:
        """Divide the cues into stretches. Return the start of each track and the end of its cues.

        Each track has the number of its time base, its start and the points of the twelve cues.
        """
        candidates = list[Track]()
        for number, start, points in tracks:
            candidates.append(Track(number, start, self.base({})))
            candidates[-1].points = points
        stretches = find_best_stretches(self.cues, candidates)
        self.assertEqual([item.first for item in stretches],
                         [0, *(item.end for item in stretches[:-1])])
        return [(item.track.start, item.end) for item in stretches]

    def test_prefers_the_track_nearest_in_time(self) -> None:
        first, second = (0, 0, [3] * 6 + [0] * 6), [0] * 6 + [3] * 6
        # The time base and the start of two tracks with the same points
        for near, far in (((0, -40), (0, -500)), ((0, 40), (0, -41)), ((0, -4000), (1, 0))):
            for tracks in itertools.permutations([first, (*near, second), (*far, second)]):
                self.assertEqual(self.divide(*tracks), [(0, 6), (near[1], 12)], tracks)

    def test_begins_a_track_with_its_first_better_cue(self) -> None:
        half, rest = [3] * 6 + [0] * 6, [0] * 6 + [3] * 6
        # The points of two tracks, and the first cue of the second
        for first, second, cue in (
                ([3] * 6 + [1, 1, 0, 0, 0, 0], rest, 6), (half, [0] * 5 + [3] * 7, 5),
                (half, [0] * 7 + [3] * 5, 7), ([3] * 7 + [0] * 5, rest, 6),
                ([3] * 5 + [0, 1] + [0] * 5, [0] * 5 + [3, 0] + [3] * 5, 5)):
            self.assertEqual(self.divide((0, 0, first), (0, -40, second)), [(0, cue), (-40, 12)],
                             second)

    def test_another_track_must_gain_more_than_four_points_and_not_go_back_in_time(self) -> None:
        rest = [0] * 7 + [3] * 5
        # The points of the first track, the start of the second one, and the start and end of each
        # stretch. The second one begins with cue 7, which is 50 frames after cue 6.
        for first, start, stretches in (
                ([3] * 8 + [2] * 4, -40, [(0, 12)]), ([3] * 7 + [2] * 5, -40, [(0, 7), (-40, 12)]),
                ([3] * 7 + [0] * 5, 50, [(0, 12)]), ([3] * 7 + [0] * 5, 49, [(0, 7), (49, 12)]),
                ([3] * 7 + [0] * 5, 100, [(0, 12)])):
            self.assertEqual(self.divide((0, 0, first), (0, start, rest)), stretches,
                             (first, start))

    def test_no_track_follows_one_of_a_later_time_base(self) -> None:
        first, second = [3] * 7 + [0] * 5, [0] * 7 + [3] * 5
        self.assertEqual(self.divide((1, 0, first), (0, -40, second)), [(0, 12)])

    def test_matching_cues_before_the_first_five_consecutive_matches_count(self) -> None:
        """The first track has 27 points, 12 of them before these five. The second one, which can't
        follow it, has 18."""
        self.assertEqual(self.divide((0, 0, [3] * 4 + [0] + [3] * 5 + [0, 0]),
                                     (0, 5000, [0] * 6 + [3] * 6)), [(0, 12)])


class Delays(unittest.TestCase):
    def test_counts_delays_of_in_cues_and_out_cues(self) -> None:
        # The delay of the in-cue and out-cue of each subtitle in frames; `None` if it was not sent
        late = [(0, 0), (1, 0), (2, 1), (2, 0), (None, None), (2, 2)]
        cues = [ExpectedCue(100 * at + 40 * is_end + at * at, b"" if is_end else b"%d" % at,
                            not is_end) for at in range(len(late)) for is_end in (False, True)]
        sent = [(TICKS * (cue.frame + by), cue.letters)
                for cue, by in zip(cues, itertools.chain(*late)) if by is not None]
        base = make_time_base(cues, sent, within=3)
        self.assertEqual(count_delays(base, base.compare(0)), (
            Counter({2: 3, 0: 1, 1: 1}), Counter({0: 3, 1: 1, 2: 1})))


class Requests(Case):
    """A programme of 12 subtitles (24 cues). Its origin is 0, so a cue has the PTS of its frame.

    A second airing begins `EACH` frames after the first.
    """

    times = [(at * at * 7 + 90 * at, at * at * 7 + 90 * at + 60 + at) for at in range(12)]

    def setUp(self) -> None:
        super().setUp()
        self.stl = write_programme(self, self.times)
        self.shown = read_subtitles_between(self.stl, "english", ALL_DAY, ())
        self.cues = find_expected_cues(self.shown)

    def find(self, sent: Sequence[tuple[int, bytes]], **options: Any) -> OriginEstimate:
        """Estimate the origin of page transmissions with options of the search."""
        return estimate_origin(OriginSearch(self.stl, "one.pes", **options),
                               make_sent_packets(sent))

    def send(self, delays: Sequence[int]) -> list[tuple[int, bytes]]:
        """Return the PTS and text of the page transmission of each cue, with delays in frames."""
        return [(TICKS * (cue.frame + by), cue.letters) for cue, by in zip(self.cues, delays)]

    def test_searches_only_the_requested_subtitles_and_packets(self) -> None:
        twice = [*self.send([0] * 24), *self.send([EACH] * 24)]
        twice[24] = twice[24][0], b"other"  # instead of the first text
        half, rest = self.times[6][0], FrameRange(self.times[6][0])
        # The options of the search, the matching cues, the origin in frames, and whether all match
        rows: dict[str, tuple[dict[str, Any], int, int, bool]] = {
            "the first airing": ({"inside": (0, 23)}, 24, 0, True),
            "the second airing": ({"inside": (24, 47)}, 24, EACH, False),
            "half of the first airing": ({"inside": (0, 11)}, 12, 0, False),
            "the first half": ({"between": FrameRange(0, half), "inside": (0, 23)}, 12, 0, True),
            "the second half, of the second airing": (
                {"between": rest, "inside": (24, 47)}, 12, EACH, True),
            "the second half without two subtitles": (
                {"between": rest, "left_out": (7, 8), "inside": (0, 23)}, 8, 0, True)}
        for name, (options, count, origin, is_every) in rows.items():
            result = self.find(twice, **options)
            self.check(f"{name}: airings", result.airings, [])
            self.check(f"{name}: matching cues", [
                (part.origin, part.matches, part.total, result.matches_every_cue)
                for part in result.parts], [(TICKS * origin, count, count, is_every)])

    def test_a_given_origin_excludes_an_airing_with_other_texts(self) -> None:
        twice = [*self.send([0] * 24), *self.send([EACH] * 24)]
        other_texts = [*twice[:24], *((ticks, text and b"x" + text) for ticks, text in twice[24:])]
        # What was sent, the given origin in ticks, and the number of airings that are possible (0:
        # there is only one). Any given origin has this effect, and none chooses of equal airings.
        rows: dict[str, tuple[list[tuple[int, bytes]], int | None, int]] = {
            "equal airings": (twice, None, 2), "one has other texts": (other_texts, None, 2),
            "the origin of the first": (other_texts, 0, 0),
            "a frame more": (other_texts, TICKS, 0)}
        for name, (sent, origin, airings) in rows.items():
            result, is_clear = self.find(sent, origin=origin), airings == 0
            self.check(name, (len(result.airings), len(result.parts), result.status),
                       (airings, 1 if is_clear else 0, 0 if is_clear else 1))

    def test_many_early_cues_are_clear_if_clock_or_delays_are_given(self) -> None:
        early = [0, 0, 0, *[2] * 21]  # three cues are two frames earlier than all others
        parts = [*early[:12], *(by + 400 for by in early[:12])]  # three in each of two parts
        equally_likely = Lateness({2: 1, 0: 1}, {2: 1, 0: 1})
        # Options, the delay of each cue in frames, and how many parts have a clear origin
        rows: dict[str, tuple[dict[str, Any], list[int], int]] = {
            "nothing": ({}, early, 0), "an origin": ({"origin": 0}, early, 1),
            "an origin of the late cues": ({"origin": 2 * TICKS}, early, 1),
            "delays": ({"lateness": equally_likely}, early, 1),
            "a break": ({"breaks": 1}, parts, 0),
            "a break, and delays": ({"breaks": 1, "lateness": equally_likely}, parts, 2),
            "a break, and the origin of one part": ({"breaks": 1, "origin": 0}, parts, 0)}
        for name, (options, delays, count) in rows.items():
            result = self.find(self.send(delays), within=2, **options)
            self.check(name, (len(result.parts), result.status), (count, 0 if count else 1))

    def test_reports_each_new_delay_from_the_given_origin(self) -> None:
        result = self.find(self.send([*[100] * 8, *[150] * 8, *[190] * 8]), origin=0)
        self.check("first frame", result.first_shift, self.cues[8].frame)
        self.check("delays", [text.partition(" subtitles are ")[2] for text in result.shift_texts],
                   ["6.00 s (150 frames) late", "7.60 s (190 frames) late"])

    def test_reports_that_it_searches_only_32_time_bases(self) -> None:
        line = "PTS go back at 32 places: only the 32 stretches between them with the most page " \
            "changes are searched"
        for count in (32, 33):
            sent = [(10 ** 7 * (count - at) + TICKS * frame, b"%d.%d" % (at, frame))
                    for at in range(count) for frame in (0, 9)]
            self.check(f"{count}", line in self.find(sent).lines, count == 33)

    def test_names_no_time_of_a_pts_outside_of_the_day(self) -> None:
        result = self.find([(-TICKS, b"other"), *self.send([0] * 24)])
        self.check("last line", result.lines[-1], "subtitles are expected from 00:00:00:00 to "
                   "00:01:16:08; the page was received from a time outside the day to 00:01:16:08")

    def test_a_delay_before_a_break_begins_no_part(self) -> None:
        # A break has at least 125 frames.
        delayed = self.send([*[0] * 12, *[50] * 6, *[600] * 6])
        self.check("parts", len(self.find(delayed, breaks=1).parts), 2)

    def test_reports_a_drift_also_after_three_blank_pages_with_other_pts(self) -> None:
        other_pts = [(10 ** 9 + TICKS * at, b"") for at in range(3)]
        for (name, delays, has_drift), within, blank_pages in itertools.product((
                ("a frame later after each six cues", [at // 6 for at in range(24)], True),
                ("no delay", [0] * 24, False)), (0, 4), (0, 3)):
            result = self.find(other_pts[:blank_pages] + self.send(delays), within=within)
            self.assertEqual([(line[:5], "later and later, by " in line, line[-24:])
                              for line in result.shift_texts],
                             [("from ", True, "have another frame rate?")] * has_drift,
                             (name, within, blank_pages))

    def test_reports_rows_of_a_closed_page_only_if_the_origin_is_unclear(self) -> None:
        for delays, is_unclear in (([0] * 24, False), ([0, 0, 0, *[2] * 21], True)):
            packets = make_sent_packets(self.send(delays))
            packets.stray_rows.append((0, ()))
            packets.runs[0] = packets.runs[0]._replace(flags="hs", length=2)
            result = estimate_origin(OriginSearch(self.stl, "one.pes", within=2), packets)
            line = "rows came while page 888 was not open, in 2 PES packets"
            self.assertEqual(result.status, 1 if is_unclear else 0, delays)
            self.assertEqual(result.lines[0] == line, is_unclear, result.lines)
            self.assertEqual(any("rows came" in line for line in result.lines), is_unclear, delays)

    def test_reports_that_no_cue_matches_if_other_texts_are_sent(self) -> None:
        result = self.find([(TICKS * 99, b"other"), (TICKS * 200, b"texts")], within=1)
        self.assertEqual((result.status, result.lines), (1, ["no cue matches at any origin"]))
