"""Test recordings whose pages are not in the default layout, and files with open subtitles."""
from __future__ import annotations

from typing import Sequence

from subtitles.common.times import TICKS
from subtitles.formats.layout import (
    TextFault, draw_text, find_layout_fault, make_page_rows, parse_layout)
from subtitles.formats.stl import Subtitle
from subtitles.formats.teletext import ENGLISH
from subtitles.judging.pages import describe_row_difference
from subtitles.stream.layout import find_sent_subtitles
from .bench import Case
from .judged import JudgedPair, judge_files
from .parts import decode_packets
from .transmissions import (
    CLOSING, HEADER, join_pes_packets, make_numbered_row, write_subtitle_file)

FIRST_TCI, DISTANCE, DURATION = 3000, 60, 45  # first TCI, interval between TCIs, in frames
CENTRED, VP = 2, 18  # justification code, and vertical position (row)
# Items of --layout that are not valid, and the values that the item takes
INVALID_ITEMS = {
    "left=40": "0 to 39", "right=40": "0 to 39", "free=0": "1, 2 or 3", "row=23": "-22 to 22",
    "strip=0000": "codes 00 to 1F, each once", "fit=1": "no value",
    "before=0E": "up to 6 codes 01 to 0D and one * at most", "after=0E": "up to 4 codes 01 to 0D"}
# Values of --layout, and the message about each, or `None` if the value is valid
FAULTS = [
    *((f"up,{item}", f"{item} is not valid: {item.partition('=')[0]} takes {values}")
      for item, values in INVALID_ITEMS.items()),
    ("left=1,left=2", "left is given twice"), ("pitch=1", "pitch=1 is an unknown item"),
    ("", "an empty word is an unknown item"), ("fit,", "an empty word is an unknown item"),
    ("fit,up", None)]


def write_texts(case: Case, texts: Sequence[bytes], name: str, dsc: bytes = b"1") -> str:
    """Write a subtitle file with these texts and this display standard code (DSC)."""
    write_subtitle_file(case, [
        (FIRST_TCI + DISTANCE * at, FIRST_TCI + DISTANCE * at + DURATION, text)
        for at, text in enumerate(texts)], name, first=0, row=VP)
    data = case.read(name)
    return case.write(name, data[:11] + dsc + data[12:])


class OtherLayouts(Case):
    TEXTS = [b"Line one is: %d\x8aline two" % at for at in range(30)]

    def judge_sent_texts(self, texts: Sequence[bytes], sent: Sequence[bytes],
                         layout: Sequence[str], *args: str) -> JudgedPair:
        """Judge a file of `texts` with a recording that has the texts `sent` in another layout."""
        pes = self.schedule(write_texts(self, sent, "sent.stl"), "sent.pes", "--every", "20",
                            *layout)
        return judge_files(self, write_texts(self, texts, "one.stl"), pes, *args)

    def test_names_the_differing_cells_but_no_layout(self) -> None:
        judged = self.judge_sent_texts(self.TEXTS, self.TEXTS, ["--layout", "after=0A"],
                                       "-o", self.path("out"))
        hint = "subtitle 1 (SN 0) and 29 more subtitles have the right text in another layout: " \
            "row 18, 0A after the text instead of 0A 0A"
        self.check("verdict", judged.timed_verdict, "refused")
        self.check("hints", judged.result["hints"], [f"72: {hint}"])
        self.must("printed", f"72: {hint}" in judged.printed, judged.printed)
        self.check("remedy", judged.result["faults"][0]["remedy"], hint)
        self.must("report", hint.encode() in self.read("out/one.html"))

    def test_gives_no_hint_about_a_wrong_letter(self) -> None:
        expected, sent = ([*self.TEXTS[:7], text, *self.TEXTS[8:]]
                          for text in (b"Hi there", b"Hi thEre"))
        judged = self.judge_sent_texts(expected, sent, layout=[])
        self.check("verdict and hints", (judged.timed_verdict, judged.result["hints"]),
                   ("refused", []))


class DecodedPages(Case):
    """A subtitle with the text "ab", whose pages with this text differ in the row that they use."""

    def test_chooses_the_page_that_lasts_longest_while_the_subtitle_is_expected(self) -> None:
        # The frames in which the subtitle is expected, the first frame of each page with the row
        # of the text (`None`: another text), and the row of the chosen page. The last page ends
        # with frame 199.
        rows: dict[str, tuple[tuple[int, int], list[tuple[int, int | None]], list[int]]] = {
            "10 frames, then 40": ((0, 50), [(0, 18), (10, 20)], [20]),
            "20 frames, then 10": ((0, 30), [(0, 18), (20, 20)], [18]),
            "10 frames and 50 before, then 20": ((50, 80), [(0, 18), (60, 20)], [20]),
            "25 frames each": ((0, 50), [(0, 18), (25, 20)], [18]),
            "5, 15, 10 and 20 frames": ((0, 50), [(0, 18), (5, 19), (20, 20), (30, 21)], [21]),
            "10 frames, then 40 of another text": ((0, 50), [(0, 18), (10, None)], [18]),
            "no page": ((0, 50), [(50, 18)], [])}
        for name, (frames, pages, chosen) in rows.items():
            sent = [(TICKS * frame, [
                HEADER, make_numbered_row(row or 1, b"ab" if row else b"other"), CLOSING])
                for frame, row in (*pages, (200, None))]
            sent_subtitles = find_sent_subtitles([Subtitle(1, 0, *frames, VP, CENTRED, b"ab")],
                                                 decode_packets(self, join_pes_packets(sent)),
                                                 ENGLISH)
            self.check(name, [number for sent in sent_subtitles
                              for number, cells in enumerate(sent.rows, 1) if cells.strip()],
                       chosen)


class LayoutMessages(Case):
    def test_reports_the_first_fault_of_a_layout(self) -> None:
        for text, fault in FAULTS:
            self.check(f"{text}: message", find_layout_fault(text), fault)
            self.check(f"{text}: is refused", parse_layout(text) is None, bool(fault))

    def test_refuses_a_wrong_layout_and_names_the_option_that_finds_one(self) -> None:
        for layout, message in (
                ("auto", "auto is no longer a layout: find the layout of your inserter with "
                 "`--measure STL RECORDING ..`, and keep it in a profile"),
                ("up,up", "'up,up' is not a layout: up is given twice")):
            process = self.tool("qc", "one.stl", "one.ts", "--layout", layout)
            self.check(layout, process, (64, b"", [f"qc: argument --layout: {message}"]))

    def make_rows(self, text: bytes, layout: str = "after=0A0A") -> tuple[bytes, ...]:
        """Return the rows of a page that shows a text in a layout, by default the layout of qc."""
        parsed = parse_layout(layout)
        lines = draw_text(text, VP, CENTRED, parsed, ENGLISH) if parsed else None
        assert lines and not isinstance(lines, TextFault)
        return make_page_rows(lines)

    def test_names_the_cells_in_which_layouts_differ(self) -> None:
        # The layout in which a text was sent instead of the default layout, and the description
        for layout, difference in {
                "row=1": "row 19 instead of 18",
                "after=0A": "row 18, 0A after the text instead of 0A 0A",
                "after=": "row 18, column 18 instead of 17, nothing after the text instead of "
                          "0A 0A",
                "before=060B0B": "row 18, column 16 instead of 17, 06 0B 0B before the text "
                                 "instead of 0B 0B"}.items():
            self.check(layout, describe_row_difference(
                self.make_rows(b"Hi"), self.make_rows(b"Hi", layout)), difference)

    def test_names_the_rows_in_which_texts_are_divided_otherwise(self) -> None:
        # The expected text, the text that was sent, and the description of the difference
        for expected, sent, difference in (
                (b"Hi Ho", b"Hi\x8aHo", "2 rows instead of 1"),
                (b"H i", b"H\x02i", "row 18, other codes within the text"),
                (b"Hi\x8aH o", b"Hi\x8aH\x02o", "row 19, other codes within the text")):
            self.check(f"{sent!r}", describe_row_difference(
                self.make_rows(expected), self.make_rows(sent)), difference)


class OpenSubtitles(Case):
    """Files of twelve open subtitles, whose DSC is not 1 or 2."""

    TEXTS = [b"Number %d\x0a" % at for at in range(12)]  # 0A may hide text

    def test_a_hint_advises_the_option_open_if_the_dsc_allows_it(self) -> None:
        for dsc, kind in ((b"0", "0 (open subtitles)"), (b" ", "blank"), (b"3", None)):
            judged = judge_files(self, write_texts(self, self.TEXTS, "open.stl", dsc))
            hint = f"its DSC is {kind}: --open accepts it"
            self.check(f"{dsc!r}: line", judged.result["line"], "refused 13 Display block 0")
            self.check(f"{dsc!r}: hints", judged.result["hints"], [f"13: {hint}"] * bool(kind))
            self.check(f"{dsc!r}: the hint is the remedy",
                       judged.result["faults"][0]["remedy"] == hint, bool(kind))

    def test_judges_open_subtitles_with_the_option_open_and_refuses_another_dsc(self) -> None:
        judged = judge_files(self, write_texts(self, self.TEXTS, "open.stl", b"3"), "--open")
        self.check("another DSC: line", judged.result["line"], "refused 13 Display block 0")
        for dsc in (b"0", b" "):
            stl = write_texts(self, self.TEXTS, "open.stl", dsc)
            self.check(f"{dsc!r}: a file", judge_files(self, stl, "--open").timed_verdict, "valid")
            pes = self.schedule(stl, "open.pes", "--open", "--every", "20", "--layout", "after=0A")
            judged = judge_files(self, stl, pes, "--open", "--layout", "after=0A", "-o",
                                 self.path("out"))
            self.check(f"{dsc!r}: a pair", (judged.timed_verdict, judged.result["request"]["open"]),
                       ("accepted", True))
            self.must(f"{dsc!r}: report", b"12 subtitles" in self.read("out/one.html"))
            judged = judge_files(self, stl, pes, "--open")
            self.check(f"{dsc!r}: in another layout",
                       (judged.timed_verdict, len(judged.result["causes"])),
                       ("refused", 12))
