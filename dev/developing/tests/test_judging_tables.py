"""Table-driven tests of the decisions about pairs and their parts."""
from __future__ import annotations

import itertools
import os
import random
import re
import unittest
from types import SimpleNamespace
from typing import Any
from unittest import mock

from developing.pes import make_pes_packet
from developing.stl import make_gsi_block, make_subtitle_blocks, make_tti_block
from subtitles.clock.origin import OriginEstimate, OriginSearch, PartOrigin
from subtitles.clock.start import (
    Clock, GIVEN, RECORDING, START, TCP, TimedPart, find_largest_offset, read_start_frame)
from subtitles.common.command_line import CONTROL_CHARACTERS
from subtitles.common.times import CLOCK, TICKS
from subtitles.formats.stl import SubtitleFile
from subtitles.judging import desync, timing
from subtitles.judging.pages import (
    ATTRIBUTES, describe_attribute_difference, describe_code, describe_extra_rows, describe_move,
    format_cells, format_page_text, join_page_text)
from subtitles.judging.pair import PairJudge
from subtitles.judging.subtitles import OptionAdvice
from subtitles.judging.timing import (
    PartSearch, find_part_packets, find_parts, find_subtitle_packets, list_timed_parts,
    report_estimated_origin)
from subtitles.judging.unchecked import summarize_pictures
from subtitles.reading.judge import ReadingJudge
from subtitles.recording.notices import (
    format_presence, format_duration, find_count_notices, find_jump_notices, find_pause_notices,
    find_pmt_notices, find_repeat_notices)
from subtitles.recording.recording import is_recording
from subtitles.request.commands import (
    CommandPaths, Listener, ListNames, OutputNames, list_pair_files, make_pair_name,
    make_part_name, make_command)
from subtitles.request.request import Selection, Unclear
from subtitles.stream import repeats
from subtitles.stream.gaps import ClockJump
from subtitles.stream.repeats import find_longest_gap, repeat_distance
from subtitles.stream.packets import Packets
from subtitles.stream.ranges import PacketRange
from subtitles.stream.receiver import BLANK_PAGE
from subtitles.stream.pictures import Departure
from subtitles.stream.survey import Announced, Survey
from .bench import Case
from .judged import LineRecorder
from .parts import make_example_request
from .transmissions import PAGE, write_subtitle_file


class PartClocks(unittest.TestCase):
    def test_uses_parts_only_with_a_clear_origin(self) -> None:
        whole = TimedPart(begin=3, end=9, clock=Clock(7, GIVEN))
        origin = PartOrigin(5, packets=(1, 2), matches=3, total=4, line="3 of 4")
        self.assertEqual(list_timed_parts(OriginEstimate(status=1, parts=[origin]), whole), [])
        evidence = Selection("origin", "5", "clock: 3 of 4", 3, 4)
        self.assertEqual(list_timed_parts(OriginEstimate(status=0, parts=[origin]), whole),
                         [TimedPart(3, 9, Clock(5, RECORDING, evidence=evidence), (1, 2))])

    def make_search(self) -> tuple[PartSearch, Any]:
        """Return a search in the PES packets 2 to 8 for subtitles in the frames 3 to 9, with an
        origin of 7 and without the subtitle at position 4; and a recording."""
        request = make_example_request(
            "a.stl", "a.pes", *"--page 150 --option german --within 3 --breaks 2 --every 30 "
            "--from 00:00:01:00 --late 0:9,3:1/0:12".split())
        return (PartSearch(request, TimedPart(3, 9, Clock(7, GIVEN)), (2, 8), frozenset({4})),
                SimpleNamespace(packets="packets", display_name="name", has_picture=lambda: True))

    def test_estimates_the_origin_with_all_requested_options(self) -> None:
        search, recording = self.make_search()
        request = search.request
        with mock.patch.object(timing, "estimate_origin", return_value=OriginEstimate(0)) as called:
            report_estimated_origin(search, recording, Clock(5, GIVEN), mock.Mock())
        self.assertEqual(called.call_args.args, (OriginSearch(
            request.stl_path, "name", page=(1, 0x50), option="german", origin=5, within=3, breaks=2,
            inside=(2, 8), between=request.between, left_out=frozenset({4}), lateness=request.late,
            has_picture=True), "packets"))

    def test_keeps_the_notes_and_the_mismatch_of_the_estimated_origin(self) -> None:
        (search, recording), listener = self.make_search(), Listener(LineRecorder())
        origins = [PartOrigin(at, packets=(1, 2), matches=3, total=4, line="") for at in (5, 6)]
        with mock.patch.object(timing, "report_estimated_origin", return_value=OriginEstimate(
                0, parts=origins, shift_texts=["later"], mismatch="another programme")):
            found = find_parts(search, recording, listener)
        self.assertEqual((listener.notes, found.mismatch, [
            part.origin for part in found.alignments]), (["later"], "another programme", [5, 6]))

    def test_finds_pes_packets_with_the_repeat_limit_and_the_range_of_the_part(self) -> None:
        search, recording = self.make_search()
        with mock.patch.object(timing, "find_range") as called:
            # PES packets of the part, those to search, its first TCI, and whether it continues.
            for packets, inside, begin, is_continued in (
                    (None, (2, 8), 3, False), ((4, 5), (4, 5), 3, False), (None, (2, 8), 3, True),
                    (None, (2, 8), 5, True)):  # the part begins after the first judged subtitle
                part = search.full_range._replace(packets=packets, begin=begin)
                find_subtitle_packets(search._replace(is_continued=is_continued), recording,
                                      part, within=6)
                self.assertEqual(called.call_args.args, (
                    "packets", begin, 9, 7, 30, 6, inside, is_continued and begin == 3))

    def test_reports_the_pes_packets_of_a_part_and_damage_before_its_end(self) -> None:
        """Of 9 PES packets that are read, part 4 has the packets 2 to 6, or no packet."""
        search, _ = self.make_search()
        line = "range: 5 of 9 PES packets, from 00:00:00:10 to 00:00:00:20"
        cut = "range: name: damage; the recording was read up to this point"
        for damage, is_over, inside in itertools.product(("", "damage"), (True, False),
                                                         ((2, 6), None)):
            recorder = LineRecorder()
            listener, recording = Listener(recorder), mock.Mock(display_name="name")
            recording.packets.damage = damage
            recording.suggest_call = lambda *words: " ".join(words)
            recording.suggest_other_pages, commands = lambda _: ["page 1"], tuple[str, ...]()
            with mock.patch.object(timing, "find_range", return_value=PacketRange(
                    inside, 9, 10, 20, is_over=is_over)):
                try:
                    self.assertEqual(find_part_packets(search, mock.Mock(
                        number=4, judged_recording=(recording, search.full_range)), listener),
                        inside)
                except Unclear as unclear:
                    commands = unclear.commands
            self.assertEqual((recorder.lines[1:], commands, listener.selections), (
                [cut] * (damage != "" and not is_over), *(
                    ((), [Selection("pes", "2-6", line, 5, 9, 4)]) if inside else
                    (("--origin T", "page 1"), []))), (damage, is_over, inside))

    def test_reports_where_a_video_drifts_from_the_subtitles(self) -> None:
        """The Teletext PID 9 is in two programmes, with the video PIDs 1 and 2, and 3, but not 4.
        Frames 10 to 100 are judged. An earlier drift is a fault if the clock is the first picture's
        time code; unclear drifts are not checked, and a later one does not matter."""
        drift, unclear, second, earlier, later = (
            Departure(TICKS * frame, TICKS * (frame - 1), ticks) for frame, ticks in (
                (50, 5 * TICKS), (60, None), (70, None), (5, 2 * TICKS), (101, None)))
        departures = {1: [earlier], 2: [drift, unclear, second, later], 3: [drift], 4: [drift]}
        survey: Any = SimpleNamespace(
            leads={**{(9, video): departures[video] for video in departures}, (8, 3): []},
            get_packets=Survey().get_packets, find_programmes=lambda pid: [
                SimpleNamespace(kinds={pid: 6, 1: 2, 2: 2}),
                SimpleNamespace(kinds={pid: 6, 3: 27})])
        with mock.patch.object(desync, "locate_video_departures",
                               lambda survey, video, several, *args: several):
            for source, count in ((GIVEN, 2), (RECORDING, 2), (START, 3), (TCP, 3)):
                found = desync.find_desync(survey, 9, TimedPart(10, 100, Clock(0, source)),
                                           within=0, number=7)
                self.assertEqual([fault.part for fault in found.faults], [7] * count, source)
                self.assertEqual([text.partition(" decoding times jump")[2] for text in
                                  summarize_pictures(found.unchecked)],
                                 ["; and at 1 more place"], source)

    def test_subtitles_on_time_show_that_the_teletext_clock_did_not_jump(self) -> None:
        subtitle: Any = SimpleNamespace(begin=10, end=20)
        # qc or tools/read, whether the part is refused, --within, --late, and the PTS of the cues
        # that were sent in time.
        rows: list[tuple[Any, bool, int, str | None, list[int]]] = [
            (PairJudge, False, 0, None, [5 + 10 * TICKS, 5 + 20 * TICKS]),
            (PairJudge, True, 0, None, []), (PairJudge, False, 2, None, []),
            (PairJudge, False, 0, "0:9", []), (ReadingJudge, False, 0, None, [])]
        for judge, is_refused, within, late, expected in rows:
            part: Any = SimpleNamespace(
                is_refused=is_refused, request=SimpleNamespace(within=within, late=late),
                judged_recording=(None, SimpleNamespace(origin=5)))
            changes = judge.list_timely_changes(mock.Mock(), part, [subtitle])
            self.assertEqual(changes, expected, (judge, is_refused, within, late))


FIRST_BLOCK = make_subtitle_blocks(1, 25, 45, 20, 2, b"a")


class Notices(Case):
    def test_warns_of_clock_jumps_in_the_judged_range(self) -> None:
        for origin in (0, CLOCK - 15 * TICKS):  # with the second, the PTS wrap in the range
            jumps = [ClockJump(None, 90_000), *(ClockJump((origin + TICKS * frame) % CLOCK, ticks)
                                                for frame, ticks in (
                     (-1, 1), (0, 90_000), (15, -90_000), (20, 8_640_000), (21, 5)))]
            with mock.patch("subtitles.recording.notices.find_clock_jumps", lambda packets: jumps):
                result = [(jump_notice.kind, jump_notice.time,
                           jump_notice.line.partition(" at ")[0])
                          for jump_notice in find_jump_notices(Packets(1), origin, 0, 20)]
            self.assertEqual(result, [
                ("clock_jump", "00:00:00:00", "the clock jumps by 1.00 s"),
                ("clock_jump", "00:00:00:15", "the clock jumps back by 1.00 s"),
                ("clock_jump", "00:00:00:20", "the clock jumps by 0:01:36")], origin)

    def test_formats_durations_of_a_minute_or_more_with_hours_and_minutes(self) -> None:
        for ticks, words in ((0, "0.00 s"), (45_000, "0.50 s"), (59 * 90_000, "59.00 s"),
                             (60 * 90_000, "0:01:00"), (3599 * 90_000, "0:59:59"),
                             (8641 * 90_000, "2:24:01")):
            self.assertEqual(format_duration(ticks), words, ticks)

    def test_warns_of_pages_that_the_pmt_announces(self) -> None:
        own, other = Announced(PAGE, "eng", 2), Announced((1, 0x50), "ger", 5)
        stl = self.write("one.stl", make_gsi_block(b"", 0, 0))
        request = make_example_request(stl, "one.ts")
        # The pages in the PMT of each programme that has PID 0x101, and the end of the warning.
        of_pages: list[tuple[list[list[Announced]], str]] = [
            ([], ""), ([[own]], ""), ([[other, own]], ""), ([[], [own]], ""),
            ([[other], [own]], ""), ([[own], [other]], ""), ([[own, other]], ""),
            ([[]], "announces no page on PID 0x101, so receivers do not find page 888"),
            ([[], []], "announces no page on PID 0x101, so receivers do not find page 888"),
            ([[other]],
             "announces page 150 (ger, subtitles for the hard of hearing), but not page 888"),
            ([[other], [other]],
             "page 150 (ger, subtitles for the hard of hearing), but not page 888"),
            ([[Announced((0, 0x89), "eng", 2)]],
             "announces page 889 (eng, subtitles), but not page 888")]
        for pages, words in of_pages:
            listing: Any = SimpleNamespace(find_programmes=lambda pid: [
                SimpleNamespace(pages={0x101: some, 0x102: [other]}) for some in pages])
            result = [*find_pmt_notices(listing, 0x101, request)]
            self.assertEqual([item.kind for item in result], ["page"] * bool(words), pages)
            self.assertTrue(not result or result[0].line.endswith(words), result)

    def list_count_notices(self, data: bytes) -> list[tuple[str, str]]:
        file = SubtitleFile(self.write("one.stl", data))
        return [(item.kind, item.line) for item in find_count_notices(file)]

    def test_warns_of_wrong_counts_of_blocks_and_subtitles_in_the_gsi_block(self) -> None:
        data = b"".join(make_subtitle_blocks(at, 25 * at, 25 * at + 20, 20, 2, b"a")
                        for at in (1, 2))
        for blocks, subtitles in itertools.product(range(4), repeat=2):
            result = self.list_count_notices(make_gsi_block(b"", blocks, subtitles) + data)
            self.assertEqual([(kind, "there are 2" in line) for kind, line in result],
                             [("blocks", True)] * (blocks != 2)
                             + [("subtitles", True)] * (subtitles != 2), (blocks, subtitles))

    def test_warns_of_a_readable_wrong_count_beside_an_unreadable_one(self) -> None:
        gsi = make_gsi_block(b"", 1, 1)
        gsi = gsi[:238] + b"  x  00000" + gsi[248:]  # the number of blocks, and of subtitles
        self.assertEqual(self.list_count_notices(gsi + FIRST_BLOCK), [
            ("subtitles", "the GSI block counts 0 subtitles (TNS), but there is 1: is the subtitle "
             "file complete?")])

    def test_a_comment_may_be_counted_as_a_subtitle(self) -> None:
        comment = make_tti_block(2, 30, 40, 20, 2, b"", comment=1)
        wrong = "subtitles", "the GSI block counts 3 subtitles (TNS), but there is 1: is the " \
            "subtitle file complete?"
        for count in (1, 2, 3):
            self.assertEqual(self.list_count_notices(make_gsi_block(
                b"", 2, count) + FIRST_BLOCK + comment), [wrong] * (count == 3), count)

    def test_formats_a_count_with_the_right_verb(self) -> None:
        self.assertEqual([format_presence(item) for item in (0, 1, 2, 1234)],
                         ["there are 0", "there is 1", "there are 2", "there are 1,234"])

    def test_warns_of_pauses_in_a_regular_stream(self) -> None:
        """A pause has no PES packet for more than 2 frames. A regular stream has at least 20 PES
        packets for each pause."""
        request = make_example_request("one.stl", "one.pes")
        three = [("no PES packet for 3 frames", "00:00:00:20")]
        for origin in (0, CLOCK - 10 * TICKS):
            for frames, expected in (
                    (list(range(40)), []), ([*range(20), *range(22, 40)], []),
                    ([*range(20), *range(23, 40)], three), ([*range(20), 23], three),
                    ([*range(18), 21], []),
                    ([*range(19), 22], [(three[0][0], "00:00:00:19")]),
                    ([*range(20), *range(23, 40), *range(45, 60)],
                     [*three, ("no PES packet for 5 frames", "00:00:01:15")]), ([], []), ([5], [])):
                pts = [(origin + TICKS * frame) % CLOCK for frame in frames]
                self.assertEqual([(item.line.partition(" from ")[0], item.time) for item in
                                  find_pause_notices(pts, request, origin)], expected, frames)

    def test_warns_of_a_repeat_limit_that_is_too_long(self) -> None:
        # The frames between headers, --every, and a part of the warning, from over twice on.
        for step, every, words in ((25, 51, "every 25 frames: give --every 25 "), (25, 50, ""),
                                   (25, 25, ""), (1, 3, "every frame: give --every 1 "), (1, 2, ""),
                                   (2, 5, "every 2 frames")):
            headers = [TICKS * frame for frame in range(0, 600, step)]
            request = make_example_request("one.stl", "one.pes", "--every", str(every))
            lines = [item.line for item in find_repeat_notices(headers, request, 0, [(0, 599)])]
            self.assertEqual((len(lines), words in "".join(lines)), (bool(words), True),
                             (step, every))


class FrameGrids(Case):
    def test_measures_how_far_pts_are_off_their_frames(self) -> None:
        # The ticks by which each PTS is after the start of its frame, and the largest distance to
        # the nearest frame. A frame lasts 3600 ticks.
        rows: list[tuple[list[int], int]] = [
            ([0, 0], 0), ([1, 0], 1), ([0, -1], 1), ([1799, 0], 1799), ([1800, 5], 1800),
            ([1801], 1799), ([-1799, 3], 1799), ([], 0), ([7, -9, 8], 9)]
        for origin in (0, CLOCK - 3 * TICKS):
            for offsets, largest in rows:
                for hours in (0, 1, 13, 14, 23):  # 2^32 ticks last 13 h 15 min
                    pts = [(origin + TICKS * (90_000 * hours + 5 + at) + offset) % CLOCK
                           for at, offset in enumerate(offsets)]
                    self.assertEqual(find_largest_offset(pts, origin), largest, (offsets, hours))

    def test_reads_the_start_time_from_tcp_in_the_gsi_block(self) -> None:
        for code, frame in ((b"00000000", 0), (b"10000001", 900_001), (b"23595924", 2_159_999),
                            (b"24000000", None), (b"        ", None), (b"1000000 ", None),
                            (b"100000\xb90", None), (b"00000025", None), (b"1000", None)):
            gsi = make_gsi_block(b"", 0, 0)
            # The last file ends within the time code.
            stl = self.write("one.stl", gsi[:256] + code + gsi[264:] * (len(code) == 8))
            request = make_example_request(stl, "one.ts", "--start", "tcp")
            try:
                result: int | None = read_start_frame(request)
            except Unclear:
                result = None
            self.assertEqual(result, frame, code)

    def test_reads_a_given_start_time(self) -> None:
        request = make_example_request("one.stl", "one.ts", "--start", "10:00:00:01")
        self.assertEqual(read_start_frame(request), 900_001)


def make_page_with_rows(*rows: tuple[int, bytes]) -> tuple[bytes, ...]:
    page = list(BLANK_PAGE)
    for number, text in rows:
        page[number - 1] = text.ljust(40)
    return tuple(page)


class NamesOfFiles(Case):
    def test_names_the_files_of_a_pair_and_its_parts(self) -> None:
        for out in (None, "out"):
            names = OutputNames("one", self.folder, out)
            for item, name in ((names, "one"), (names.make_part_paths(2), "one.2")):
                typed = os.path.join(out or "", name)
                temporary = os.path.join(self.folder, name)
                self.check(f"{out} {name}", (
                    item.report_path, item.json_path, item.recording_path, item.list_path), (
                    f"{typed}.html", f"{typed}.json" if out else None, f"{temporary}.recording",
                    f"{temporary}.txt"))

    def test_names_results_by_subtitle_files_with_reserved_characters_encoded(self) -> None:
        names = {"film": "film", "film.1": "film%2E1", "film.12": "film%2E12",
                    "film~12": "film%7E12", "line 12": "line%2012", "film.v2": "film.v2",
                    "index": "%69ndex", "state": "%73tate", "index.1": "index%2E1",
                    ".film": "%2Efilm", "film~2": "film%7E2", "50%": "50%25",
                    "caf\udce9": "caf%E9", "caf%E9": "caf%25E9", "caf\\xe9": "caf\\xe9",
                    "a\x1b\n": "a%1B%0A", "line 5": "line%205", "line 5 ": "line 5 ", "-a": "-a",
                    "a\u202eb": "a%E2%80%AEb", "": "%", "%": "%25", "Index": "Index"}
        for stem, name in names.items():
            self.check(f"{stem!r}", make_pair_name(f"a/{stem}.stl" if stem else ""), name)

    def test_gives_no_two_results_the_same_name(self) -> None:
        chance, seen = random.Random(94), dict[str, object]()
        for _ in range(20_000):
            stem = "".join(chance.choice(["a", "1", ".", "~", "%", "2", "index", "line ", "\udce9",
                                          "\n", "é" * 50]) for _ in range(chance.randrange(1, 7)))
            copies, part, names = chance.randrange(1, 4), chance.randrange(3), ListNames()
            name = [names.name_pair(f"{stem}.stl") for _ in range(copies)][-1]
            name = make_part_name(name, part) if part else name
            self.assertEqual(seen.setdefault(name, (stem, copies, part)), (stem, copies, part))
            self.assertFalse(name == "index" or CONTROL_CHARACTERS.search(name)
                             or re.fullmatch("line [0-9]+(~[0-9]+)?", name)
                             or name[0] == "." or len(os.fsencode(f".{name}.recording.pes")) > 255,
                             name)

    def test_numbers_results_of_a_list_with_the_same_name(self) -> None:
        names = ListNames()
        self.check("pairs", [names.name_pair(item) for item in (
            "a.stl", "b/a.stl", "a~2.stl", "b.stl", "a.STL")], ["a", "a~2", "a%7E2", "b", "a~3"])
        self.check("lines", [names.make_line_name(item) for item in (2, 3, 2)],
                   ["line 2", "line 3", "line 2~2"])

    def test_finds_the_files_of_an_earlier_call(self) -> None:
        """The folder has files of the pair `one`, also of its parts 1 to 12, and other files."""
        out = self.path("out")
        os.mkdir(out)
        own = ["one.1.txt", "one.12.cut.pes", "one.3.txt", "one.9.html", "one.5.html"]
        others = ["one.0.txt", "one.x.txt", "one.1x.txt", "two.1.txt", "one.1.a.txt", "one.01.txt",
                  "one.txt.1", "one.1.stl", "one.5.json", "one.x.recording.pes", "one.x.1.html",
                  "one.1.txt.1", "one.2.txt.old"]
        for name in [*own, *others]:
            self.write(f"out/{name}", b"")
        possible = ["one.cut.pes", "one.recording.pes", "one.recording.ts", "one.midnight.copy",
                    "one.txt", "one.html", "one.json"]  # listed even if they do not exist
        self.check("own", sorted(os.path.basename(path) for path in list_pair_files(out, "one")),
                   sorted([*own, *possible]))
        for name in ("a[1]", "a*", "a?"):
            path = self.write(f"out/{name}.1.txt", b"")
            kept = list_pair_files(out, name)
            self.must(name, path in kept and os.path.join(out, "one.1.txt") not in kept, kept)
        self.check("no folder", len(list_pair_files(self.path("none"), "one")), len(possible))

    def test_replaces_options_in_the_printed_call(self) -> None:
        typed = CommandPaths("tools/qc", self.bench.program)
        options = "--page 150 --every 50 --option german --origin 7 --no-complete --pid 0x101 " \
            "--breaks 1 --pes 2-9 --within 2"
        call = f"tools/qc one.stl one.ts {options}"
        given = "--within 2 --pes 2-9 --page 150 --every 50 --no-complete --pid 0x101 --origin 7 " \
            "--breaks 1 --option german"  # the same in another order
        request = make_example_request("one.stl", "one.ts", *given.split())
        self.check("all options", make_command(request, typed), call)
        for old, new in (("--page 150", "--page P"), ("--origin 7", "--origin T"),
                         ("--breaks 1", "--breaks 0"), ("--within 2", "--within 5"),
                         ("--pes 2-9", "--pes 1-2")):
            self.check(new, make_command(request, typed, *new.split()),
                       call.replace(f" {old}", "") + f" {new}")
        start = make_example_request("one.stl", "one.ts", "--start", "tcp")
        self.check("start", make_command(start, typed), "tools/qc one.stl one.ts --start tcp")
        self.check("an origin instead", make_command(start, typed, "--origin", "T"),
                   "tools/qc one.stl one.ts --origin T")
        self.check("a file alone", make_command(make_example_request("one.stl", None), typed),
                   "tools/qc one.stl --file-only")


class RecordingKinds(Case):
    def test_recognises_a_recording_by_its_first_bytes(self) -> None:
        # PES packets begin with 00 00 01 BD. TS packets of 188, 192 or 204 bytes have the byte "G"
        # at the same place.
        for data, expected in (
                (make_pes_packet(0, []), True), (make_pes_packet(0, [])[:4], True),
                (b"G" * 400, True), (make_gsi_block(b"", 0, 0), False),
                (b"\0\0\1\xbdG" + b"\0" * 300, True), (b"\0\0\1\xe0" + b"\0" * 99, False),
                (b"\0\0\1", False), (b"abcd" * 99, False), (b"", False),
                (b"G" + b"\0" * 187 + b"G" + b"\0" * 99, True),
                (b"G" + b"\0" * 203 + b"G" + b"\0" * 99, True),
                (b"timeG" + b"\0" * 191 + b"G" + b"\0" * 99, True),
                (b"G" + b"\0" * 188 + b"G" + b"\0" * 99, False)):
            self.check(f"{data[:6]!r}", is_recording(self.write("one", data)), expected)


HELLO = b"\x0b\x0bHello"
ONE, YELLOW, TWO = (20, HELLO), (20, b"\x03" + HELLO), (22, b"  two")  # rows with their numbers
OWN = make_page_with_rows(ONE, TWO)


class PageDifferences(Case):
    """The page `OWN` is expected, and a page with other rows was sent."""

    def test_describes_how_the_rows_or_columns_of_a_page_moved(self) -> None:
        self.check_rows(lambda *rows: describe_move(OWN, make_page_with_rows(*rows)), {
            "first row": (((18, HELLO), TWO), "row 18 instead of 20"),
            "last row": ((ONE, (23, b"  two")), "row 23 instead of 22"),
            "to the right": (((20, b" " + HELLO), TWO), "row 20 from column 3 instead of 2"),
            "to the left": ((ONE, (22, b" two")), "row 22 from column 1 instead of 2"),
            "a row is missing": ((ONE,), "1 rows instead of 2")})

    def test_describes_the_first_wrong_cell(self) -> None:
        self.check_rows(lambda *rows: describe_attribute_difference(
            OWN, make_page_with_rows(*rows)), {
            "none": ((ONE, TWO), ""),
            "a letter": (((20, b"\x0b\x0bHallo"), TWO), "row 20 column 3: 61 instead of 65"),
            "no start box": (((20, b"\x0b Hello"), TWO),
                             "row 20 column 1: a space instead of start box"),
            "a longer row": ((ONE, (22, b"  twos")),
                             "row 22 column 5: 73 instead of a space, ends a column late"),
            "a row that begins with a start box": (
                (ONE, (22, b"\x0b two")), "row 22 column 0: start box instead of a space, begins "
                "2 columns early"),
            "a shorter row in green": (
                (ONE, (22, b"\x02 tw")), "row 22 column 0: alpha green instead of a space, "
                "begins 2 columns early, ends a column early")})

    def test_lists_additional_rows_if_the_others_are_right(self) -> None:
        self.check_rows(lambda *rows: describe_extra_rows(OWN, make_page_with_rows(*rows)), {
            "none": ((ONE, TWO), ""), "one": ((ONE, TWO, (2, b"x")), "an additional row: 2"),
            "two": ((ONE, TWO, (2, b"x"), (24, b"y")), "additional rows: 2 and 24"),
            "three": ((ONE, TWO, (2, b"x"), (3, b"z"), (24, b"y")), "additional rows: 2, 3 and 24"),
            "another colour": ((YELLOW, TWO, (2, b"x")), "")})

    def test_joins_the_texts_of_the_rows_of_a_page(self) -> None:
        self.check("words", join_page_text(OWN), "Hello two")
        self.check("lines", format_page_text(OWN, 0), "Hello / two")
        self.check("German", format_page_text(make_page_with_rows((1, b"\x5b[#")), 4), "ÄÄ#")
        self.check("a colour", join_page_text(make_page_with_rows((3, b"a \x03 b"))), "a b")
        self.check("cells", format_cells(make_page_with_rows((1, b"  \x0ba b\x7f"), (24, b"c"))),
                   "row 1 column 2: <0B>a b<7F>, row 24 column 0: c")

    def test_names_the_codes_of_attributes(self) -> None:
        self.check("codes", [describe_code(code) for code in (0, 7, 0x1F, 0x20, 0x21, 0x7F)],
                   ["alpha black", "alpha white", "release mosaics", "a space", "21", "7F"])
        self.check("attributes", (len(ATTRIBUTES), ATTRIBUTES[0x0D]), (32, "double height"))


class SubtitleBlocks(Case):
    def test_reads_a_subtitle_from_all_its_blocks(self) -> None:
        """The blocks 2 and 5 are subtitle 1 (SN 7), and block 6 is subtitle 2 (SN 300)."""
        first = make_tti_block(7, 25, 50, 20, 2, b"a\xc2e\x80", 0)
        last = make_tti_block(7, 25, 50, 20, 2, b"\xf9\xff")
        comment = make_tti_block(7, 25, 50, 20, 2, b"no", comment=1)
        user = make_tti_block(7, 25, 50, 20, 2, b"no", 0xFE)
        other = make_tti_block(300, 75, 99, 20, 2, b"$")
        data = make_gsi_block(b"", 6, 2) + b"".join([user, first, user, comment, last, other])
        path = self.write("one.stl", data + b"x" * 127)
        file = SubtitleFile(path)
        self.check("counts", (file.count(), file.count_ended(), list(file.list_last_blocks())),
                   (6, (2, 3), [5, 6]))
        self.check("texts", (file.text(5), file.text(6)), (b"a\xc2e\x80\xf9\xff", b"$"))
        self.check("characters", [file.describe_byte(5, at) for at in range(7)], [
            ("61", "a"), ("C2", "é"), ("65", "e"), ("80", None), ("F9", "ø"), ("FF", "\ufffd"),
            (None, None)])
        self.check("no block", [file.describe_byte(at, 0) for at in (0, 7)], [(None, None)] * 2)
        found = [file.find_by_block(at) for at in range(8)]
        self.check("by block", [item and (item.position, item.number, item.begin) for item in found
                                ], [None, (0, 7, "00:00:01:00"), *[(1, 7, "00:00:01:00")] * 4,
                                    (2, 300, "00:00:03:00"), None])
        frames = (24, 25, 49, 50, 75, 98, 99)
        self.check("by frame", [file.find_by_frame(frame) for frame in frames],
                   [None, found[2], found[2], None, found[6], found[6], None])
        for left_out, subtitles in (((), [found[2], found[6]]), ({1}, [found[6]]),
                                    ({2}, [found[2]])):
            self.check(f"subtitles without {left_out}", [
                *SubtitleFile(path, left_out=left_out).list_subtitles()], subtitles)
        advice = OptionAdvice(file, "english")
        self.check("no option", advice.complete_options, [])
        self.check("advice", [advice.advise(5, at) for at in (4, 5, 6)], [
            "no national option has ø: replace it (it needs other character sets, or packets X/26, "
            "which are refused with fault 70)",
            "byte FF is not a character of code table 00: correct it", ""])

    def test_advises_options_that_have_all_characters_of_a_file(self) -> None:
        rows: dict[bytes, str] = {
            b"\xc8a": "german or swedish, which have all the characters in the file",
            b"\xcea": "polish or lithuanian, which have all the characters in the file, if "
            "receivers are set to their region",
            b"\xc8a\xc4o": "estonian, which has all the characters in the file, if receivers are "
            "set to its region"}
        for text, words in rows.items():
            file = SubtitleFile(write_subtitle_file(self, [(25, 50, text)]))
            self.check(f"{text!r}", OptionAdvice(file, "english").advise(1, 0),
                       f"use --option {words}")


class RepeatIntervals(unittest.TestCase):
    def test_measures_the_usual_interval_of_headers_between_cues(self) -> None:
        """The median, weighted by time, of three intervals or more. The first interval after a cue,
        or of all, does not count, nor one that ends up to 5 frames before a cue."""
        steady = list(range(0, 200, 10))
        # The frames of headers and of cues, and the usual interval in frames.
        rows: list[tuple[list[int], list[int], int | None]] = [
            ([], [], None), (steady[:4], [], None), (steady[:5], [], 10), (steady[:5], [45], None),
            (steady[:5], [46], 10), (steady[:8], [35, 45], None), (steady[:8], [36, 45], 10),
            (sorted(steady[:4] * 2), [], None), (steady[:5] * 2, [46], 10),
            ([0, 1, 2, 3, 4, 8], [], 4), ([0, 10, 20, 30, 50, 90], [], 20)]
        for frames, cues, every in rows:
            self.assertEqual(repeat_distance(frames, cues), every, (frames, cues))

    def test_measures_many_headers_with_few_sums(self) -> None:
        with mock.patch.object(repeats, "sum", side_effect=sum, create=True) as summed:
            self.assertEqual(repeat_distance(range(1000), []), 1)
        self.assertIn(summed.call_count, (1, 2))  # fewer calls than page transmissions

    def test_finds_the_longest_gap_between_sorted_frames(self) -> None:
        rows: list[tuple[list[int], int]] = [([], 0), ([5], 0), ([5, 5], 0), ([9, 5, 30], 21)]
        for frames, longest in rows:
            self.assertEqual(find_longest_gap(frames), longest, frames)
