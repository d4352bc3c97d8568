"""Test how a report draws pages, what it lists about a verdict, and the text of chosen reports."""
from __future__ import annotations

import collections
import dataclasses
import functools
import re
import unittest
import xml.etree.ElementTree as tree
from types import SimpleNamespace
from typing import Any, Callable
from unittest import mock

from developing.pes import make_packet, make_pes_packet
from subtitles.clock.start import Clock, GIVEN, START, TCP
from subtitles.common.files import SummedFile
from subtitles.common.markup import escape
from subtitles.common.times import CLOCK, Span, TICKS
from subtitles.formats.listing import NamedFault
from subtitles.formats.stl import GSI, TTI
from subtitles.formats.teletext import ENGLISH
from subtitles.judging.part import Part
from subtitles.judging.verdict import Gap
from subtitles.report.page import (
    describe_given_clock, list_waived, make_footer, make_verdict_box, PartView)
from subtitles.report.pictures import (
    BLANK_PAGE_ROWS, CellStyle, draw_outlines, draw_picture, draw_row, find_differences,
    find_used_rows, is_boxed, style_row)
from subtitles.report.timeline import Lanes
from subtitles.request.commands import CommandPaths
from subtitles.stream.gaps import LossPlace
from subtitles.stream.receiver import BLANK_PAGE, HIT, OLD, Rows
from .bench import Case, get_example_path
from .judged import judge_files, JudgedPair, ProgrammeCase
from .parts import make_answer, make_part, markup_text
from .stories import get_tci_pts, read_vectors, Story, StoryCase
from .streams import multiplex_frames
from .test_judging_status import make_severity
from .test_judging_verdicts import make_part_verdict
from .transmissions import (
    join_pes_packets, LASTS, make_delay, make_numbered_row, ORIGIN, packets, schedule_pages,
    SentPes, subtitle_times, write_programme)

# Page address and control bits: with C6, whose pages show only what is within a box, and without it
SUBTITLE_HEADER, PLAIN_HEADER = bytes([8, 8, 0, 8, 0, 8, 1, 0]), bytes([8, 8, 0, 8, 0, 0, 1, 0])


def page(**rows: bytes) -> Rows:
    """Return a page with the given rows, such as `r20`. All other rows are blank."""
    return tuple(rows.get(f"r{number}", b"").ljust(40) for number in range(1, 25))


class Attributes(unittest.TestCase):
    def style_last_cell(self, row: bytes, number: int = 20, is_boxed_page: bool = True
                        ) -> CellStyle:
        return style_row(row, number, 0, is_boxed_page)[-1]

    def test_only_two_start_box_codes_in_a_row_begin_a_box(self) -> None:
        # Codes with parity bits or conceal (18) change nothing else.
        plain = CellStyle("A", ink=7, background=0, boxed=False, flash=False, double=False)
        for row, is_in_box in ((b"\x8b\x8bA", True), (b"\x18A", False), (b"\x0bA", False),
                               (b"\x0b \x0bA", False), (b"\x0b\x0b\x0aA", True)):
            self.assertEqual(self.style_last_cell(row), plain._replace(boxed=is_in_box), row)

    def test_double_height_ends_with_row_22(self) -> None:
        for number, expected in ((22, True), (23, False), (24, False)):
            self.assertEqual(self.style_last_cell(b"\x0dA", number).double, expected, number)

    def test_a_page_without_boxes_is_shown_completely(self) -> None:
        for row in (b"A", b"\x0b\x0bA", b"\x0a\x0aA"):
            self.assertTrue(self.style_last_cell(row, is_boxed_page=False).boxed, row)

    def test_draws_rows_as_ffmpeg_and_libzvbi_do(self) -> None:
        for row in read_vectors("cell-styles.tsv"):
            codes, *expected = row.values()
            cells = [item for item in style_row(bytes.fromhex(codes), 20, ENGLISH.bits, True)
                     for _ in item.characters]
            result = ["".join(letters) for letters in zip(*(
                (str(cell.ink), str(cell.background), "-b"[cell.boxed], "-f"[cell.flash],
                 "-d"[cell.double]) for cell in cells))]
            self.assertEqual(result, expected, codes)

    def test_draws_mosaics_after_a_mosaic_colour(self) -> None:
        for row, letters in ((b"\x11a", "\u2592"), (b"\x11A", "A"), (b"\x11 ", " "),
                             (b"\x11\1a", "a"), (b"\x11!", "\u2592"), (b"a", "a"),
                             (b"\x10a", "\u2592"), (b"\x17a", "\u2592"), (b"\x0fa", "a")):
            self.assertEqual(self.style_last_cell(row).characters, letters, row)


class Drawings(unittest.TestCase):
    ROWS = page(r20=b"\x0b\x0b\x0dtall", r21=b"\x0b\x0bcovered", r22=b"\x0b\x0b\1seen <")

    def test_draws_only_boxes_and_no_row_below_double_height(self) -> None:
        drawn = markup_text(draw_picture(self.ROWS, SUBTITLE_HEADER, (19, 23), [(22, 3), (22, 4)]))
        for text, is_drawn in (("tall", True), ("covered", False), ("seen &lt;</text>", True)):
            self.assertEqual(text in drawn, is_drawn, text)
        for name, markup, count in (
                ("row numbers", 'class="n"', 2),
                ("background", '<rect class="p0" x="12" width="468" height="30"/>', 1),
                ("row 22", '<g transform="translate(0 315)"><rect class="p0" x="12"', 1),
                ("red", 'class="i1" x="36"', 1), ("double height", 'transform="scale(1 2)"', 1),
                ("frame of both cells that differ",
                 '<rect class="d1" x="36" y="315" width="24" height="15"/>', 1)):
            self.assertEqual(drawn.count(markup), count, name)

    def test_draws_all_given_rows_of_a_page_without_boxes(self) -> None:
        for header, count in ((PLAIN_HEADER, 3), (SUBTITLE_HEADER, 1)):
            drawn = markup_text(draw_picture(self.ROWS, header, (18, 20)))
            self.assertEqual(drawn.count('class="n"'), count, header)
        for last, is_there in ((21, False), (22, True)):
            drawn = markup_text(draw_picture(self.ROWS, PLAIN_HEADER, (18, last)))
            self.assertEqual("seen" in drawn, is_there, last)

    def test_marks_cells_of_an_old_row_and_of_bytes_with_even_parity(self) -> None:
        marked = markup_text(draw_row(bytes([OLD] * 3 + [0x41, HIT, HIT]).ljust(40), 20, 0,
                                      True)[0])
        self.assertIn('<rect class="old" x="1" y="1" width="34" height="13"/>', marked)
        self.assertIn('<rect class="hit" x="49" y="1" width="22" height="13"/>', marked)

    def test_a_page_has_boxes_if_c5_or_c6_is_set(self) -> None:
        self.assertEqual([is_boxed(bytes([8, 8, 0, 0, 0, bits, 1, 0])) for bits in (0, 4, 8, 12)],
                         [False, True, True, True])

    def test_draws_each_mark_of_the_timeline_to_its_end(self) -> None:
        """Marks less than half a unit apart are drawn as one, which is at least 2 units wide."""
        lanes: Any = SimpleNamespace(compute_x=lambda frame: frame / 4)
        text = markup_text(Lanes.draw_lane(lanes, "fault", "", [
            (401, 440), (40, 80), (0, 400), (442, 442)]))
        self.assertEqual(re.findall(' d="([^"]*)"', text), [
            "M0 0H110V10H0zM110.5 0H112.5V10H110.5z"])

    def test_draws_frames_outside_of_the_timeline_at_its_ends(self) -> None:
        lanes: Any = SimpleNamespace(begin=100, end=400)
        for frame, place in ((99, 0), (100, 0), (101, 3.3), (399, 996.7), (400, 1000), (401, 1000)):
            self.assertEqual(Lanes.compute_x(lanes, frame), place, frame)

    def test_labels_a_timeline_with_the_times_before_subtitles(self) -> None:
        for row in read_vectors("timeline-labels.tsv"):
            cues = [SimpleNamespace(subtitle=SimpleNamespace(index=at, begin=int(frame)))
                    for at, frame in enumerate(row["subtitles"].split(), 1)]
            lanes: Any = SimpleNamespace(begin=int(row["begin"]), end=int(row["end"]),
                                         cues=SimpleNamespace(cues=cues))
            lanes.compute_x = functools.partial(Lanes.compute_x, lanes)
            labels = re.findall('<a class="(.*?)" href="#s(.*?)" style="left:(.*?)%">(.*?)</a>',
                                markup_text(Lanes.draw_axis(lanes)))
            self.assertEqual("; ".join(map(" ".join, labels)), row["labels"], row["name"])

    def test_outlines_neighbouring_cells_once(self) -> None:
        # Rows and columns of cells, rows with double height, and the number of outlines
        rows: list[tuple[list[tuple[int, int]], list[int], int]] = [
            ([], [], 0), ([(5, 1)], [], 1), ([(5, 1), (5, 2)], [], 1), ([(5, 1), (5, 3)], [], 2),
            ([(5, 1), (6, 1)], [], 1), ([(5, 1), (7, 1)], [], 2), ([(5, 1), (7, 1)], [5], 1),
            ([(5, 1), (6, 1), (6, 2)], [], 2)]
        for cells, tall, count in rows:
            drawn = markup_text(draw_outlines(cells, set(tall)))
            self.assertEqual(drawn.count('class="d1"'), count, cells)
            self.assertEqual(drawn.count('class="d2"'), count, cells)
        self.assertIn('x="12" y="60" width="12" height="30"',
                      markup_text(draw_outlines([(6, 1), (5, 1)], set())))

    def test_shows_the_used_rows_and_one_more_on_each_side(self) -> None:
        for pages, expected in (
                ([BLANK_PAGE], BLANK_PAGE_ROWS), ([page(r20=b"x")], (19, 21)),
                ([page(r1=b"x")], (1, 2)), ([page(r24=b"x")], (23, 24)),
                ([page(r20=b"x"), page(r5=b"x")], (4, 21))):
            self.assertEqual(find_used_rows(pages), expected, pages)

    def test_finds_cells_whose_codes_differ(self) -> None:
        item = page(r20=b"abc", r22=b"x")
        for other, expected in ((item, []), (page(r20=b"abd", r22=b"x"), [(20, 2)]),
                                (page(r20=b"Abd"), [(20, 0), (20, 2), (22, 0)]),
                                (page(r1=b"!", r20=b"abc", r22=b"x", r24=b"!".rjust(40)),
                                 [(1, 0), (24, 39)]),
                                (page(r20=b"abc\xa0", r22=b"\xf8"), [])):
            self.assertEqual(find_differences(item, other), expected, other)

    def test_draws_characters_of_the_header_option(self) -> None:
        for bits, region, letter in ((0, 0, "\u2190"), (4, 0, "\u00c4"), (7, 0, "\u25a1"),
                                     (0, 1, "\u017b"), (4, 1, "\u00c4"), (7, 3, "\u00c2")):
            header = bytes([*SUBTITLE_HEADER[:7], bits << 1])
            self.assertIn(f">{letter}</text>", markup_text(draw_picture(
                page(r20=b"\x0b\x0b["), header, (19, 21), (), region)), (bits, region, letter))


class VerdictLists(Case):
    # Two faults with number 68 and one with number 67, as `check` prints them
    PRINTED = ("refused 68 Parity frame 00:00:03:10 packet 1",
               "refused 67 Control frame 00:00:03:12 packet 0",
               "refused 68 Parity frame 00:00:03:15 packet 1", "3 faults")

    def make_refused_part(self, number: int) -> Part:
        return make_part(75, 99, 0, make_answer(self.PRINTED, path=self.path(f"{number}")), number,
                         program_stl=get_example_path("story.stl"))

    def test_names_the_option_that_gave_the_clock(self) -> None:
        picture = "from the first picture (--start), 00:00:00:00 at PTS"
        for source, words in ((GIVEN, "given: --origin"), (START, picture), (TCP, picture)):
            self.check(source, describe_given_clock(Clock(9, source)), f"Clock {words} 9.")

    def test_the_box_lists_judged_losses_and_faults_without_a_number(self) -> None:
        gaps = [Gap("00:00:01:00", None, f"{at} packets", LossPlace(1, 2, at), is_judged=at != 2)
                for at in range(8)]
        faults = [NamedFault("not shown", f"row {at}", block=at) for at in (1, 2)]
        verdict = dataclasses.replace(make_part_verdict([make_part(0, 9, 0)]), gaps=gaps,
                                      named_faults=faults)
        box = markup_text(make_verdict_box(verdict))
        for line, is_listed in (*((gap.format_line(), gap.is_judged) for gap in gaps),
                                *((f"{fault.line}: {fault.text}", True) for fault in faults)):
            self.check(line, escape(line) in box, is_listed)
        self.must("number of judged losses", "<summary>7 places</summary>" in box, box)

    def test_a_timeline_shows_the_judged_losses_of_its_part(self) -> None:
        part = make_part(100, 200, 0, program_stl=get_example_path("story.stl"))
        gaps = [Gap(None, None, "", LossPlace(at * TICKS, at * TICKS + 1), is_judged=is_judged)
                for at, is_judged in ((50, True), (150, True), (160, False), (250, True))]
        view = PartView(dataclasses.replace(make_part_verdict([part]), gaps=gaps), part)
        with mock.patch("subtitles.report.page.Lanes") as lanes:
            view.draw_timeline()
        self.check("losses", lanes.call_args[0][2], [Span(150, 150)])

    def test_counts_the_waived_faults_of_all_parts(self) -> None:
        verdict = make_part_verdict([self.make_refused_part(at) for at in (1, 2)],
                                    make_severity("68 warning", "pictures left warning"))
        verdict.named_faults = [NamedFault(name, "") for name in ("not shown", "pictures left")]
        self.check("waived", [*list_waived(verdict)], ["68 Parity (4)", "pictures left: "])

    def test_lists_the_pes_file_of_each_part(self) -> None:
        parts = [dataclasses.replace(part, judged_file=SummedFile(f"{part.number}.pes", 5, "sum"))
                 for part in map(self.make_refused_part, (1, 2))]
        footer = markup_text(make_footer(make_part_verdict(parts),
                                         CommandPaths("tools/qc", self.bench.program)))
        self.check("names", re.findall('>PES</th><td class="long">(.*?)<', footer),
                   ["1.pes", "2.pes"])

    def test_marks_the_waived_faults_of_a_number(self) -> None:
        part = self.make_refused_part(1)
        view = PartView(make_part_verdict([part]), part)
        for count, words in ((0, ""), (1, " (1 waived)"), (2, " (waived)")):
            with mock.patch.object(Part, "waived_counts", collections.Counter({68: count})):
                table = markup_text(view.make_fault_table())
            self.must(f"{count} of 2", f">68 Parity{words}</th>" in table, table)


# A header with C4 set, C5 and C6 clear
PLAIN_PACKET = make_packet(0, 0, [8, 8, 0, 8, 0, 0, 1, 0], b" " * 32)
HTML = "{http://www.w3.org/1999/xhtml}"
FOREIGN_MARKUP = re.compile(r"<script|<link|<img|<iframe|@import|\burl\(|\bsrc=|\bon\w+="
                            r"|https?://(?!www\.w3\.org/1999/xhtml)")
REPORTS = {story["name"]: story for story in read_vectors("reports.tsv")}
BYTES = re.compile(r"(block|pes) (\d+): (\d+)=([0-9A-F]{2})")


def is_of(pts: int, number: int) -> bool:
    """Return whether a page transmission shows the subtitle with this number."""
    return 0 <= pts - get_tci_pts(f"{number}") < LASTS * TICKS


def change_first_row_of_6(sent: SentPes, change: Callable[[bytes], bytes]) -> SentPes:
    return [(pts, [some[0], change(some[1]), *some[2:]] if is_of(pts, 6) else some)
            for pts, some in sent]


def change_letter(row: bytes) -> bytes:
    return row[:20] + bytes([row[20] ^ 3]) + row[21:]


class Reports(StoryCase):
    text, lines = b"\3No! <&> %d", 2
    more_changes = {
        "6 in row 24": lambda sent: change_first_row_of_6(
            sent, lambda row: make_numbered_row(24, b"\x0dElsewhere.")),
        "6 with a wrong letter": lambda sent: change_first_row_of_6(sent, change_letter),
        "6 with an even byte": lambda sent: change_first_row_of_6(
            sent, lambda row: row[:20] + bytes([row[20] ^ 0x80]) + row[21:]),
        "6 not erased": lambda sent: [item for item in sent if not (
            is_of(item[0] - LASTS * TICKS, 6))],
        "6 erased after a second": lambda sent: [
            (pts, sent[-1][1] if is_of(pts - 25 * TICKS, 6) else some) for pts, some in sent],
        "another page in a pause": lambda sent: sorted([*sent, *(
            (pts + 75 * TICKS, [some[0], make_numbered_row(20, b"Elsewhere"), some[-1]])
            for pts, some in sent if pts == get_tci_pts("2"))]),
        "6 with a wrong letter before the right one": lambda sent: [
            (pts, [some[0], change_letter(some[1]), *some[1:]] if is_of(pts, 6) else some)
            for pts, some in sent],
        "6 in a page without boxes": lambda sent: [
            (pts, [PLAIN_PACKET, *some[1:]] if is_of(pts, 6) else some) for pts, some in sent],
        "other packets before": lambda sent: [
            (sent[0][0] - 40 * TICKS, sent[-1][1][-1:]), *sent],
        "5 a tick late": lambda sent: [(pts + (pts == get_tci_pts("5")), some)
                                       for pts, some in sent],
        "from subtitle 3 on": lambda sent: [item for item in sent if item[0] > get_tci_pts("3")]}

    def report(self, story: Story) -> tuple[JudgedPair, str]:
        """Judge a pair, or with --file-only a file. Return the judged pair and its report."""
        self.stl = write_programme(self, subtitle_times(int(story["count"])), self.lines, self.text)
        self.sent = schedule_pages(self, self.stl, origin=ORIGIN)
        stl = bytearray(self.read("one.stl"))
        pes = [bytearray(make_pes_packet(pts % CLOCK, some))
               for pts, some in self.apply_changes(story["sent"])]
        for kind, block, offset, value in BYTES.findall(story["bytes"]):
            data, begin = (pes[int(block)], 0) if kind == "pes" else (
                stl, GSI + TTI * (int(block) - 1) if int(block) else 0)
            data[begin + int(offset)] = int(value, 16)
        words = [] if "--file-only" in story["options"] else [
            self.write("one.pes", b"".join(pes)), "--origin", f"{ORIGIN}"]
        lines = story["severity"].replace("; ", "\n").encode()
        words += ["--severity", self.write("severity", lines)] if lines else []
        result = judge_files(self, self.write("one.stl", stl), *words, *story["options"].split(),
                             "-o", self.path("out"))
        return result, self.read("out/one.html").decode()

    def check_page(self, page: str) -> None:
        """Check that a report loads nothing, has no broken link, and names its table headers."""
        items = list(tree.fromstring(page).iter())
        self.assertIsNone(FOREIGN_MARKUP.search(page))
        anchors = [item.get("id") for item in items if item.get("id")]
        self.assertEqual(len(anchors), len(set(anchors)))
        links = {item.get("href") for item in items if item.tag == f"{HTML}a"}
        self.assertLessEqual(links, {f"#{name}" for name in anchors})
        self.assertTrue(any(item.tag == f"{HTML}th" for item in items))
        for item in items:
            if item.tag == f"{HTML}th":
                self.assertIn(item.get("scope"), ("col", "row"))
            elif item.tag == f"{HTML}svg":
                self.assertEqual(item.get("aria-hidden"), "true")
            elif item.tag == f"{HTML}a":
                self.assertTrue("".join(item.itertext()).strip())

    def test_reports_are_accessible_xml_without_scripts_and_external_resources(self) -> None:
        for name, story in REPORTS.items():
            with self.subTest(name):
                self.check_page(self.report(story)[1])


class StreamReports(ProgrammeCase):
    """A transport stream in which the PTS and the PCR wrap after 20 seconds."""

    origin = CLOCK - 500 * TICKS
    qc_args = ("--origin", f"{origin}")

    def test_names_the_length_of_the_stream_and_the_options_and_waivers(self) -> None:
        third = self.origin + 300 * TICKS
        late = make_delay(3, third, third + LASTS * TICKS - 1)(self.sent)
        frames = multiplex_frames(packets(join_pes_packets(late)), self.origin, 1200, rounds=1)
        severity = self.write("severity", "\n".join(  # the second line waives nothing
            f'72 warning at {time} in one.stl until 2999-12-31 by "Ann": known'
            for time in ("00:00:12:00", "00:00:16:00")).encode())
        self.judge_stream(b"".join(frames), "--from", "00:00:08:00", "--to", "00:00:40:00",
                          "--severity", severity, "-o", self.path("out"))
        page = self.read("out/one.html").decode()
        made = dict(re.findall("<dt>(.*?)</dt><dd>(.*?)</dd>", page))
        self.must("of 1199 frames", ", 0:00:47 long, last changed " in made["Recording"], made)
        self.check("options", made["Options"], f"--page 888 --every 250 --origin {self.origin} "
                   "--option english --complete --pes 4-43 --from 00:00:08:00 --to 00:00:40:00")
        self.check("waived", made["Waived"], "72 Content (1); 72 in the subtitle at 00:00:12:00 "
                   "(1), until 2999-12-31, by Ann: known")
        self.must("caption", " Into recording: counted from its first PCR." in page, page)


@functools.lru_cache(maxsize=None)
def make_case() -> Reports:
    result = Reports("test_reports_are_accessible_xml_without_scripts_and_external_resources")
    result.folder = result.bench.make_folder("reports")
    return result


def make_report(name: str) -> tuple[JudgedPair, str, str]:
    """Return a judged pair of `REPORTS`, its report, and the folder of its files."""
    case = make_case()
    return (*case.report(REPORTS[name]), case.folder)
