"""Table-driven tests of how qc handles folders, watched pairs, subtitles and pages."""
from __future__ import annotations

import os
import re
from dataclasses import replace
from typing import Callable
from unittest import mock

from developing.pes import make_pes_packet
from developing.stl import make_gsi_block
from subtitles.cli.batch import FolderWatch
from subtitles.clock.origin import OriginEstimate
from subtitles.clock.start import Clock, RECORDING, START, TCP, TimedPart
from subtitles.common.times import FrameRange, Span, TICKS
from subtitles.formats.stl import Subtitle
from subtitles.judging import pair
from subtitles.judging.pair import PairJudge
from subtitles.judging.part import choose_parts, refuse_missing_subtitles
from subtitles.judging.timing import add_delay, describe_wrong_clock, make_unclear_origin
from subtitles.judging.verdict import measure_delay
from subtitles.recording.notices import find_character_set_notices, find_page_notices
from subtitles.request.commands import OutputNames
from subtitles.request.lines import find_folder_pairs
from subtitles.request.request import Unclear
from subtitles.results.files import find_hint
from subtitles.results.schema import add_numbers_if_known
from subtitles.stream.packets import Packets
from subtitles.stream.receiver import BLANK_PAGE, PACKETS_PER_PAUSE, Rows, Timeline
from subtitles.stream.survey import Announced
from .bench import Case
from .parts import make_example_request, make_default_options, survey_packets, decode_packets
from .stories import read_vectors
from .transmissions import CLOSING, HEADER, PAGE, make_numbered_row, write_subtitle_file


class Results(Case):
    def test_counts_faults_only_if_each_part_is_counted(self) -> None:
        rows: list[tuple[list[int | None], int | None]] = [
            ([], None), ([3], 3), ([None], None), ([3, 4, 5], 12), ([None, 4, 5], None),
            ([3, None, 5], None), ([3, 4, None], None), ([0], 0)]
        for fault_counts, expected in rows:
            self.check(f"{fault_counts}", add_numbers_if_known(fault_counts), expected)

    def test_shows_the_first_hint_of_the_worst_fault(self) -> None:
        hints = ["5: of none", "7: of none", "72: of the content", "72: once more", "6: of none"]
        for line, expected in (
                ("refused 72 Content frame 1", "of the content"), ("refused 70 Repeat", ""),
                ("waived: refused 72 Content", "of the content"), ("refused 7 Other", "of none"),
                ("accepted 72 frames", ""), (None, ""),
                ("not accepted, since TS packets are lost: waived: refused 5 X", "of none")):
            hint = find_hint({"worst_fault": line, "hints": hints})
            self.check(f"{line}", hint, expected)
        self.check("no hints", find_hint({"worst_fault": "refused 72 Content", "hints": []}), "")


class Folders(Case):
    def test_pairs_only_regular_files_and_links_to_them(self) -> None:
        # What a.stl and a.ts are: `to` is a link to a file or folder, and `link` a link to nothing.
        for number, (first, second, is_pair) in enumerate([
                ("file", "file", True), ("folder", "file", False), ("file", "folder", False),
                ("pipe", "file", False), ("file", "pipe", False), ("file", "link", False),
                ("to file", "to file", True), ("file", "to folder", False)]):
            folder = self.path(str(number))
            os.mkdir(folder)
            for ending, kind in (("stl", first), ("ts", second)):
                path = os.path.join(folder, f"a.{ending}")
                if kind == "file":
                    self.write(f"{number}/a.{ending}", b"")
                elif kind == "folder":
                    os.mkdir(path)
                elif kind == "pipe":
                    os.mkfifo(path)
                else:
                    self.write("a file", b"")
                    os.symlink({"to file": self.path("a file"), "to folder": folder}.get(
                        kind, "nowhere"), path)
            [item] = find_folder_pairs(folder, make_default_options())
            self.check(f"{first} {second}", item.request is not None, is_pair)

    def test_lists_the_files_of_a_pair_also_if_its_options_are_wrong(self) -> None:
        os.mkdir(self.path("in"))
        files = {self.write("in/a.stl", b""), self.write("in/a.ts", b"")}
        wrong = make_default_options("--origin", "5")
        wrong.start = "tcp"  # not allowed with --origin
        for options in (make_default_options(), wrong):
            [item] = find_folder_pairs(self.path("in"), options)
            self.check(f"{options}", (item.request is None, {*item.files} - {None}),
                       (options is wrong, files))

    def test_judges_a_pair_once_it_has_not_changed_for_ten_seconds(self) -> None:
        os.mkdir(self.path("in"))
        watch = FolderWatch(self.path("in"), 10)
        for name in ("in/one.stl", "in/one.ts"):
            self.write(name, b"1")

        def list_ready_pairs(clock: Callable[[], float]) -> list[str]:
            with mock.patch("time.monotonic", clock):
                return [item.name for item in watch.find_ready_items(
                    find_folder_pairs(self.path("in"), make_default_options()))]

        # The time of a search in seconds, and the pairs that are to be judged then.
        for now, expected in ((100, []), (109, []), (110, ["one"]), (111, []), (150, [])):
            self.check(f"at {now}", list_ready_pairs(lambda: now), expected)
        self.write("in/one.ts", b"12")
        for now, expected in ((200, []), (205, []), (210, ["one"]), (230, [])):
            self.check(f"recording changed, at {now}", list_ready_pairs(lambda: now), expected)
        self.write("in/one.stl", b"12")
        for now, expected in ((300, []), (310, ["one"])):
            self.check(f"subtitles changed, at {now}", list_ready_pairs(lambda: now), expected)
        self.write("in/two.ts", b"2")
        self.write("in/two.stl", b"2")
        self.write("in/two.done", b"")
        self.check("two.done exists", list_ready_pairs(lambda: 311), ["two"])
        os.utime(self.path("in/two.done"), (1e9, 1e9))  # it is older than the new recording
        self.write("in/two.ts", b"22")
        times = iter([400.0, 409.0, 418.0, 419.0])  # one search takes nine seconds
        self.check("ten seconds after the end of the search that saw the change", [
            list_ready_pairs(lambda: next(times)) for _ in range(3)], [[], [], ["two"]])
        self.must("the state of the first pair is kept", "one" in watch.seen, watch.seen)


def make_subtitle(index: int, begin: int) -> Subtitle:
    return Subtitle(index, index, begin, begin + 1, 20, 2, b"text")


class SubtitleFiles(Case):
    def test_warns_unless_subtitles_in_the_language_are_announced(self) -> None:
        for row in read_vectors("announced-pages.tsv"):
            stl = self.write("one.stl", make_gsi_block(b"", 0, 0, language=row["LC"].encode()))
            own = [Announced(PAGE, language, int(kind)) for kind, language in (
                item.split() for item in row["announced"].split(", "))]
            notices = find_page_notices(own, make_example_request(stl, "one.ts"))
            self.check(f"{row['LC']}: {row['announced']}", " | ".join(
                f"{notice.kind}: {notice.line}" for notice in notices), row["warnings"])

    def test_warns_of_each_packet_with_another_character_set(self) -> None:
        # Packet, designation, region and option. The second packet names the expected set.
        packets = Packets(0, character_sets=[
            (29, 4, 0, 1), (28, 0, 0, 0), (28, 0, None, 0), (28, 0, 0, None)])
        notices = find_character_set_notices(packets, make_example_request("one.stl", "one.ts"))
        self.check("names", [re.split(" names |, not |: ", item.line)[1] for item in notices], [
            "character set 001 of region 0000 (German)", *["an unreadable character set"] * 2])

    def test_continues_the_same_text_of_a_subtitle_that_ends_within_the_tolerance(self) -> None:
        """The frames of two subtitles with the same text are 100 to 159 and 162 to 219. The judged
        range begins with the second, which continues the first if --within covers the pause."""
        stl = write_subtitle_file(self, [(100, 160, b"text"), (162, 220, b"text")])
        names = OutputNames("one", self.folder, None)
        names.set_subtitle_file(stl)
        for within, is_continued in (("1", False), ("2", True)):
            request = make_example_request(stl, "a.pes", "--from", "00:00:06:12", "--within",
                                           within)
            judge = PairJudge(mock.Mock(request=request, valid_subtitles=None), mock.Mock(), names,
                              mock.Mock(), False)
            self.check(within, judge.is_continued(make_subtitle(2, 162)), is_continued)


class EstimatedOrigins(Case):
    def test_rounds_a_delay_to_the_nearest_frame(self) -> None:
        clock = Clock(5, START)
        # The delay in ticks, the status of the estimate (0: clear), the rounded delay in frames,
        # and the exact delay, which is printed. A frame lasts 3600 ticks.
        for away, status, expected, printed in (
                (0, 0, 0, None), (3 * TICKS, 0, 3, "3 frames late"),
                (-TICKS, 0, -1, "1 frame early"), (TICKS - 1, 0, 1, "3599 ticks late"),
                (TICKS // 2 - 1, 0, 0, "1799 ticks late"),
                (5 - 2 * TICKS, 0, -2, "1 frame and 3595 ticks early"), (TICKS, 1, None, None),
                (None, 0, None, None)):
            delayed_clock, lines = add_delay(clock, OriginEstimate(status, ticks_late=away,
                                                                   printed=["--origin 5"]))
            self.check(f"{away} {status}", (delayed_clock, lines), (
                clock._replace(delay_frames=expected),
                [f"all subtitles are {printed}"] if printed else []))

    def test_all_subtitles_share_a_delay_if_it_is_of_complete_frames(self) -> None:
        for away, is_shared in ((0, True), (2 * TICKS, True), (2 * TICKS + 1, False)):
            delayed_clock, _ = add_delay(Clock(5, START), OriginEstimate(
                0, ticks_late=away, matches_every_cue=True, printed=["--origin 5"]))
            self.check(f"{away}", delayed_clock.is_delay_of_all, is_shared)

    def test_reports_which_subtitles_are_delayed(self) -> None:
        # Whether all cues share the delay, the first frame with another one, the number of parts
        # whose origin is printed, and the words.
        for has_all_cues, shifted, printed, words in (
                (True, None, 1, "all"), (False, None, 1, "most"),
                (True, None, 2, "up to the first break, all"),
                (False, None, 3, "up to the first break, most"),
                (False, 50, 1, "up to 00:00:02:00,"), (True, 50, 2, "up to 00:00:02:00,"),
                (True, 0, 1, "up to 00:00:00:00,")):
            origin = OriginEstimate(0, ticks_late=TICKS, has_all_cues=has_all_cues,
                                    first_shift=shifted,
                                    printed=["--origin 5"] * printed)
            self.check(f"{words} {has_all_cues}", add_delay(Clock(5, START), origin)[1],
                       [f"{words} subtitles are 1 frame late"])

    def test_asks_about_a_delay_of_a_picture_distance(self) -> None:
        # The delay in ticks, and whether all subtitles have it. A question follows if they have,
        # and if the delay is exactly `picture_offset`.
        for away, is_of_all, is_asked in ((TICKS, True, True), (TICKS, False, False),
                                          (TICKS + 5, True, False), (2 * TICKS, True, False)):
            printed = add_delay(Clock(5, START, picture_offset=1), OriginEstimate(
                0, ticks_late=away, has_all_cues=is_of_all, printed=["one"]))[1]
            self.must(f"{away} {is_of_all}", bool(printed[1:]) == is_asked, printed)

    def test_gives_only_the_lines_for_several_airings_or_another_number_of_breaks(self) -> None:
        # The number of airings, the number of breaks if it is not that of --breaks, and whether the
        # reason is the line alone, without "the clock cannot be estimated: ".
        for runs, breaks, is_alone in ((0, None, False), (2, None, True), (0, 0, True),
                                       (0, 2, True), (3, 2, True)):
            why = make_unclear_origin(OriginEstimate(airings=[(0, 9)] * runs, breaks=breaks,
                                                     lines=["one", "two"]),
                                      [])
            self.check(f"{runs} {breaks}", why.reason, "one\ntwo" if is_alone else
                       "the clock cannot be estimated: one; two")

    def test_describes_a_start_after_a_beginning_on_the_day_before_and_a_wrong_tcp(self) -> None:
        gsi = make_gsi_block(b"", 0, 0)
        stl = self.write("one.stl", gsi[:256] + b"10000000" + gsi[264:])
        for value, source, words in (
                ("00:00:00:10", START, "--start 00:00:00:10 is 1 s later than the beginning of the "
                 "recording by its subtitles, 23:59:59:10"),
                ("tcp", TCP, "the TCP 10:00:00:00 is 1 s later than the beginning of the recording "
                 "by its subtitles, 09:59:59:00")):
            request = make_example_request(stl, "one.ts", "--start", value)
            self.check(value, describe_wrong_clock(request, Clock(5, source), delay=25), f"{words}"
                       ". TIME is on the subtitle file's own clock, not the time of day")


class DecodedPages(Case):
    def test_a_page_must_be_closed_before_its_tco(self) -> None:
        """The page of a subtitle in the frames 100 to 149 is sent in frame 100."""
        subtitle = Subtitle(1, 1, 100, 150, 20, 2, b"a")
        # The frame of the header that closes the page (120: of another page), and the delay
        for closed, expected in ((100, 0), (101, 1), (120, None), (149, 49), (150, None)):
            page, end = [HEADER, make_numbered_row(20, b"a")], [CLOSING]
            end[:0] = [HEADER, make_numbered_row(20, b"b")] * (closed == 120)
            data = make_pes_packet(TICKS * 100, page + [CLOSING]) if closed == 100 else \
                make_pes_packet(TICKS * 100, page) + make_pes_packet(TICKS * closed, end)
            decoded = decode_packets(self, make_pes_packet(0, [CLOSING]) + data)
            for is_complete, frames in ((True, expected), (False, 0)):
                delay = measure_delay(subtitle, decoded.get_page_at(100), decoded, is_complete)
                self.check(f"{closed} {is_complete}", delay, frames)

    def test_shows_a_page_once_a_header_ends_it(self) -> None:
        old, new = make_numbered_row(20, b"old"), make_numbered_row(20, b"new")
        # What follows a header and the row `old`, and the text of the decoded page.
        rows: list[tuple[list[bytes], bytes | None]] = [
            ([], None), ([new], None), ([HEADER], None), ([HEADER, new], None),
            ([CLOSING], b"old"), ([CLOSING, HEADER, new], b"old"), ([new, CLOSING], b"new"),
            ([HEADER, new, CLOSING], b"new"), ([HEADER, CLOSING], b""),
            ([HEADER, CLOSING, HEADER, new], b""), ([CLOSING, HEADER, CLOSING], b"")]
        for units, expected in rows:
            data = make_pes_packet(0, [HEADER, old]) + make_pes_packet(TICKS * 10, units)
            screen = decode_packets(self, data).states[-1].screen
            self.check(f"{units}", screen and screen[0][19].strip(b"\x0b "), expected)

    def test_shows_no_page_if_the_judged_packets_begin_with_the_header_that_ends_it(self) -> None:
        old, new = make_numbered_row(20, b"old"), make_numbered_row(20, b"new")
        packets = survey_packets(self, make_pes_packet(0, [HEADER, old])
                                 + make_pes_packet(TICKS, [CLOSING, HEADER, new]))
        self.check("screen", Timeline(packets, PAGE, 0, 0, (1, 1)).states[-1].screen, None)

    def test_frames_around_unreadable_packets_are_uncertain(self) -> None:
        """Every 10 frames, from 0 to 90, there is a PES packet. Some cannot be read. The frames
        from the packet before them to the packet after them, if there is one, are uncertain."""
        good = [make_pes_packet(TICKS * frame, [HEADER, CLOSING]) for frame in range(0, 100, 10)]
        broken = [item[:45] + b"\x20" + item[46:] for item in good]
        rows: list[tuple[tuple[int, ...], list[Span]]] = [
            ((), []), ((3,), [Span(20, 40)]), ((3, 4), [Span(20, 50)]),
            ((3, 7), [Span(20, 40), Span(60, 80)]), ((0,), [Span(0, 10)]), ((9,), [])]
        for numbers, uncertain in rows:
            decoded = decode_packets(self, b"".join(
                broken[at] if at in numbers else item for at, item in enumerate(good)))
            self.check(f"{numbers}", decoded.uncertain_spans, uncertain)

    def test_uses_the_last_page_of_a_frame(self) -> None:
        a, b = (((text.ljust(40),) * 24) for text in (b"a", b"b"))
        # Pages with the frames in which they are complete, and the kept frames and pages.
        rows: list[tuple[list[tuple[int, Rows]], list[int], list[Rows]]] = [
            ([(5, a), (10, b)], [5, 10], [a, b]), ([(5, a), (10, a)], [5], [a]),
            ([(5, a), (10, b), (10, a)], [5], [a]), ([(5, a), (5, b)], [5], [b]),
            ([(5, a), (10, b), (12, a)], [5, 10, 12], [a, b, a]),
            ([(5, a), (10, b), (10, BLANK_PAGE), (11, b)], [5, 10, 11], [a, BLANK_PAGE, b])]
        for changes, frames, pages in rows:
            decoded = Timeline(Packets(0), PAGE, 0)
            for frame, page in changes:
                decoded.record_page(frame, page)
            name = ", ".join(f"{frame} {page[0][:1].decode()}" for frame, page in changes)
            self.check(name, (list(decoded.frames), decoded.pages), (frames, pages))
            self.check(f"{name}: before the first", decoded.get_page_at(4), BLANK_PAGE)

    def test_finds_pauses_of_a_regular_stream(self) -> None:
        first, second = Span(90, 92), Span(120, 123)
        steady = [*range(5, first.first), *range(first.last + 1, second.first),
                  *range(second.last + 1, 200)]
        # Two frames without a PES packet are no pause, but three are.
        for frames, pauses in (([*range(50), *range(52, 99)], []), (steady, [first, second])):
            decoded = decode_packets(self, b"".join(
                make_pes_packet(TICKS * frame, [HEADER, CLOSING]) for frame in frames))
            self.check(f"{pauses}", [*decoded.pauses], pauses)
        for frame, pause in ((89, None), (90, first), (92, first), (93, None), (119, None),
                             (120, second), (123, second), (124, None)):
            self.check(f"{frame}", decoded.find_pause(frame), pause)
        enough = 2 * PACKETS_PER_PAUSE  # number of PES packets in a regular stream with two pauses
        for decoded.count, is_regular in ((enough, True), (enough - 1, False)):
            self.check(f"{decoded.count}", decoded.find_pause(91) is not None, is_regular)


class SubtitlesInParts(Case):
    FOUND = TimedPart(0, 9, Clock(7, START), packets=(3, 5))

    def test_each_subtitle_is_in_one_part(self) -> None:
        """Nine subtitles of one frame each are at the frames 0, 1, 2, 9, 10, 11, 18, 19 and 20."""
        nine = [make_subtitle(3 * part + at, 9 * part + at)
                for part in range(3) for at in range(3)]
        three = [(0, 3), (9, 12), (18, 21)]
        left, both = (f"{count} of one.stl would be in no part, " for count in (
            "1 subtitle", "2 subtitles"))
        other = "the parts of one.stl would have other subtitles than the file"
        for name, subtitles, parts, expected in (
                ("as they are", nine, three, ""),
                ("parts that adjoin", nine, [(0, 9), (9, 18), (18, 27)], ""),
                ("the last goes later", [*nine[:-1], replace(nine[-1], end=99)], three, ""),
                ("one more at an end", [*nine[:3], make_subtitle(9, 3), *nine[3:]], three, left),
                ("one before all", nine, [(1, 3), (9, 12), (18, 21)], left),
                ("one behind all", [*nine, make_subtitle(9, 21)], three, left),
                ("two", nine, [(1, 3), (9, 12), (18, 20)], both),
                ("one in two", nine, [(0, 10), (9, 12), (18, 21)], other),
                ("one in two, one missing", nine, [(0, 10), (9, 12), (18, 20)], other),
                ("another order", nine, three[::-1], other)):
            result = [self.FOUND._replace(begin=begin, end=end) for begin, end in parts]
            chosen_parts = choose_parts(result, self.FOUND)
            self.check(f"{name}: frames", [(item[:4], item.between) for item in chosen_parts],
                       [(item[:4], FrameRange(*item[:2])) for item in result])
            reason = ""
            try:
                refuse_missing_subtitles(chosen_parts, subtitles, "one.stl")
            except Unclear as unclear:
                reason = unclear.reason
            self.must(name, reason.startswith(expected) and bool(reason) == bool(expected), reason)

    def test_a_single_part_has_all_subtitles(self) -> None:
        whole = TimedPart(2, 90, Clock(5, RECORDING))
        for item in (self.FOUND, self.FOUND._replace(begin=5, end=7)):
            self.check(f"{item}", choose_parts([item], whole),
                       [whole._replace(clock=item.clock, packets=(3, 5))])

    def test_parts_that_lack_a_subtitle_are_refused_before_they_are_judged(self) -> None:
        item = PairJudge(mock.Mock(request=make_example_request("one.stl", "one.pes")), mock.Mock(),
                         OutputNames("one", self.folder, None), mock.Mock(), False)
        parts = [self.FOUND._replace(begin=at, end=at + 9) for at in (10, 20, 30)]
        for count in (1, 2, 3):
            with mock.patch.object(pair, "choose_parts", return_value=parts[:count]), \
                    mock.patch.object(pair, "refuse_missing_subtitles") as refuse:
                item.make_parts(mock.Mock(), parts, mock.Mock(), [])
            self.check(f"{count} parts", refuse.called, count > 1)
