"""Test the details of faults in each part, and waivers, which turn a fault into a warning."""
from __future__ import annotations

import dataclasses
import hashlib
import itertools
import time
from typing import Any, Sequence
from unittest import mock

from developing.stl import make_gsi_block, make_tti_block
from subtitles.common.command_line import Stop
from subtitles.common.times import CLOCK, format_frame, TICKS
from subtitles.formats.listing import NamedFault, read_meanings, remove_markup
from subtitles.formats.stl import Subtitle
from subtitles.judging import faults as judging_faults
from subtitles.judging.causes import Causes, NEVER
from subtitles.judging.faults import (
    describe_first_hint, describe_parity_fault, FaultPlace, find_code, list_hints, make_faults)
from subtitles.judging.part import Part
from subtitles.judging.status import REFUSED, Severity, WAIVED
from subtitles.judging.transmissions import ExpectedPages
from subtitles.judging.waivers import choose_waivers, is_waiver, parse_waiver, Waiver
from subtitles.results.files import describe_inputs, is_current
from subtitles.results.schema import REQUEST
from subtitles.stream.receiver import BLANK_PAGE, HIT, OLD
from .bench import Case
from .judged import judge_files
from .parts import (
    decode_packets, make_answer, make_example_request, make_part, parse_single_fault,
    survey_packets)
from .results import make_result
from .stories import read_vectors
from .test_cli_earlier_results import PROGRAM
from .test_judging_faults import cause, NO_C4, ORIGIN_BEFORE_WRAP
from .test_judging_status import make_severity
from .test_judging_verdicts import make_part_verdict
from .transmissions import (
    CLOSING, HEADER, join_pes_packets, make_numbered_row, ORIGIN, schedule_pages, SentPes,
    ShownSubtitle, write_programme, write_subtitle_file)

# The output of `check` about a part, with the part's number for `{}`
ACCEPTED = ["accepted 1 frames 1 transmissions"]
REFUSED_LINES = [
    "refused 63 Begin frame 00:00:0{}:01", "refused 33 Flags pes 1", "ended 33 Flags pes 3",
    "refused 72 Content frame 00:00:0{}:02 row 1 column 2",
    "ended 72 Content frame 00:00:0{}:03",
    "refused 72 Content frame 00:00:0{}:04 row 1 column 0",
    "refused 74 Late frame 00:00:0{}:05", "5 faults"]
REFUSED_SUBTITLE = ["refused 50 Character block {} at 1", "1 faults"]


class FaultDetails(Case):
    def make_read_part(self, lines: list[str], sent: SentPes, stl: str, **more: Any) -> Part:
        """Return a part from frame 0 to 150 with a PES packet for each PTS and packets in `sent`.

        `check` printed these lines about it, and the number of faults.
        """
        answer = make_answer([*lines, f"{len(lines)} faults"], path=self.path("list"))
        return make_part(0, 150, more.pop("origin", 0), answer, program_stl=stl,
                         packets=survey_packets(self, join_pes_packets(sent)),
                         pes=(0, len(sent) - 1), **more)

    def part(self, output: list[str], number: int, stl: str) -> Part:
        """Return a part of a second, in which one of six subtitles is expected.

        With `REFUSED_LINES`, subtitle N + 1 is the cause of fault 63 in part N, N + 2 that of 74.
        """
        lines = [line.replace("{}", str(number)) for line in output]
        times = [f"00:00:0{at}:00" for at in (number, number + 1)]
        frames = range(25, 151, 25)
        programme = ExpectedPages([Subtitle(at, at, frame, frame + 20, 22, 2, b"") for at, frame in
                                   enumerate(frames, 1)], [(b"[".ljust(40), *BLANK_PAGE[1:])] * 6)
        causes = Causes(programme, decode_packets(self, b""))
        causes.cause_by_index = {at: cause(at, NEVER) for at in range(len(frames))}
        causes.frames_by_end_fault = {63: number, 74: number + 1}
        request = make_example_request("one.stl", "one.pes", "--from", times[0], "--to", times[1])
        answer = make_answer(lines, path=self.path(f"list{number}"))
        return make_part(25 * number, 25 * number + 24, 0, answer, number, request=request,
                         program_stl=stl, causes=causes if output == REFUSED_LINES else None)

    def list_results(self, *outputs: list[str]) -> list[dict[str, Any]]:
        """Return the faults of a recording in which each part has one of these outputs.

        Two more faults have no number: one in the third subtitle, the other in block 2.
        """
        stl = write_programme(self, [(25 * at, 25 * at + 20) for at in range(1, 7)])
        severity = Severity(self.write("severity", b"others warning\nnot shown error\n63 error\n"))
        verdict = make_part_verdict([self.part(output, number, stl)
                                     for number, output in enumerate(outputs, 1)], severity)
        verdict.request = make_example_request("one.stl", "one.pes", "--option", "german")
        verdict.named_faults = [NamedFault("never sent", "a", "00:00:03:07", "00:00:09:00", part=3),
                                NamedFault("not shown", "b", block=2)]
        return [*make_faults(verdict)]

    def list_faults(self, *outputs: list[str]) -> list[str]:
        """Return a line with the values of each fault that the comment below names."""
        return [" ".join("-" if value is None else f"{value}" for value in (
            fault["part"], fault["number"], fault["severity"],
            fault["subtitle"] and fault["subtitle"]["position"], fault["time"], fault["row"],
            fault["column"], fault["last_time"], fault["last_pes"],
            fault["cause"] and fault["cause"]["subtitle"]["position"]))
                for fault in self.list_results(*outputs)]

    # Part, number, severity, subtitle, frame, row, column, last frame, last PES packet, and the
    # subtitle of the cause.
    UNNUMBERED = ["3 - warning 3 00:00:03:07 - - 00:00:09:00 - -", "1 - error 2 - - - - - -"]
    FIRST = ["1 63 error 1 00:00:01:01 - - - - 2", "1 33 warning - - - - - 3 -",
             "1 72 warning 1 00:00:01:02 1 2 00:00:01:03 - 1",
             "1 72 warning 1 00:00:01:04 1 0 - - 1", "1 74 warning 1 00:00:01:05 - - - - 3"]
    THIRD = ["3 63 error 3 00:00:03:01 - - - - 4", "3 33 warning - - - - - 3 -",
             "3 72 warning 3 00:00:03:02 1 2 00:00:03:03 - 3",
             "3 72 warning 3 00:00:03:04 1 0 - - 3", "3 74 warning 3 00:00:03:05 - - - - 5"]

    def test_lists_faults_without_a_number_first_then_those_of_each_refused_part(self) -> None:
        for second, lines in ((REFUSED_SUBTITLE, ["2 50 warning 2 - - - - - -"]),
                              (ACCEPTED, list[str]())):
            self.check(f"{second}", self.list_faults(REFUSED_LINES, second, REFUSED_LINES), [
                *self.UNNUMBERED, *self.FIRST, *lines, *self.THIRD])
        self.check("all accepted", self.list_faults(*[ACCEPTED] * 3), self.UNNUMBERED)

    def test_gives_the_line_of_a_fault_without_a_number(self) -> None:
        self.check("lines", [fault["line"] for fault in self.list_results(*[ACCEPTED] * 3)], [
            "refused never sent frame 00:00:03:07", "refused not shown block 2"])

    def test_gives_the_expected_text_of_a_cause_in_the_national_option(self) -> None:
        faults = self.list_results(REFUSED_LINES, REFUSED_SUBTITLE, REFUSED_LINES)
        self.check("[ in German", {fault["cause"]["expected_text"] for fault in faults
                                   if fault["cause"]}, {"\u00c4"})

    def test_a_hint_replaces_the_meaning_or_remedy_of_a_fault_number(self) -> None:
        stl = self.write("one.stl", make_gsi_block(b"", 3, 3).replace(b"STL25.011", b"STL25.010")
                         + b"".join(make_tti_block(at, begin, begin + 25, 20, 2, b"\xc8a")
                                    for at, begin in ((1, 25), (2, 75), (3, 125))))
        manual = read_meanings()
        # A line of `check`, and the hint in place of the meaning or of the remedy in the manual
        rows: list[tuple[str, str, str]] = [
            ("67 Control frame 00:00:01:00 packet 0", "C4 (erase page) is clear: a repeat that "
             "does not erase", ""), ("50 Character block 1 at 0", "",
                                "use --option german or swedish, which have all the characters "
                                "in the file"),
            ("50 Character block 1 at 2", "", ""), ("13 Display block 0", "",
                                           "its DSC is 0 (open subtitles): --open accepts it"),
            ("72 Content frame 00:00:01:00 row 1 column 1", "", "drawn otherwise"),
            ("68 Parity frame 00:00:01:00 packet 0", "", "")]
        part = self.make_read_part([f"refused {line}" for line, _, _ in rows], [
            (25 * TICKS, [NO_C4, CLOSING])], stl, drawing_differences="drawn otherwise")
        verdict = make_part_verdict([part])
        faults = [*make_faults(verdict)]
        for (line, meaning, remedy), fault in zip(rows, faults):
            known = manual[int(line[:2])]
            self.check(line, (fault["meaning"], fault["remedy"]), (
                meaning or remove_markup(known.meaning), remedy or remove_markup(known.remedy)))
        first_hints = {line[:2]: meaning or remedy for line, meaning, remedy in reversed(rows)}
        self.check("hints on the first fault with each number", [*list_hints(verdict)], [
            f"{number}: {first_hints[number] or 'a byte of the page has even parity'}"
            for number in dict.fromkeys(line[:2] for line, _, _ in rows)])
        self.check("bytes", [(fault["byte"], fault["character"]) for fault in faults][:3],
                   [(None, None), ("C8", "\u00e4"), (None, None)])

    def test_gives_pes_packet_and_time_of_each_fault(self) -> None:
        frames = (0, 75, 150)  # of three PES packets
        lines = [*(f"refused 38 UnitLength pes {at}" for at in range(3)), *(
            f"refused 68 Parity frame {format_frame(frame)} packet 0" for frame in frames),
                 "refused 73 Gap frame 00:00:00:10"]
        stl = write_programme(self, [(0, 50)])  # the subtitle of a fault in these frames
        for origin in (0, ORIGIN, ORIGIN_BEFORE_WRAP):
            pts = [(origin + TICKS * frame) % CLOCK for frame in frames]
            part = self.make_read_part(lines, [(item, [HEADER, CLOSING]) for item in pts], stl,
                                       origin=origin)
            places = [(at, pts[at], format_frame(frame)) for at, frame in enumerate(frames)]
            self.assertEqual([(item["pes"], item["pes_pts"], item["pes_time"], bool(
                item["subtitle"])) for item in make_faults(make_part_verdict([part]))], [
                *((*place, False) for place in places),
                *((*place, at == 0) for at, place in enumerate(places)),
                (None, None, None, True)], origin)

    def test_gives_the_expected_and_the_decoded_cell(self) -> None:
        sent = [(25 * TICKS, [HEADER, make_numbered_row(20, b"\x01xyz"), CLOSING])]
        stl = write_programme(self, [(25, 50)])
        due = (*BLANK_PAGE[:19], b"  [b".ljust(40), *BLANK_PAGE[20:])
        # No PES packet is sent in the second frame.
        lines = [f"refused 72 Content frame 00:00:01:{place}" for place in (
            "00 row 20 column 2", "00 row 20 column 3", "00 row 20 column 4", "10 row 20 column 3")]
        for within, (option, letter) in itertools.product((0, 3), (
                ("english", "\u2190"), ("german", "\u00c4"))):
            part = self.make_read_part(lines, sent, stl, expected_pages=lambda: ExpectedPages(
                [Subtitle(1, 1, 25, 50, 20, 2, b"")], [due]))
            verdict = make_part_verdict([part])
            verdict.request = make_example_request("one.stl", "one.pes", "--within", str(within),
                                                   "--option", option)
            cells = [[(fault[name]["code"], fault[name]["character"])
                      for name in ("expected", "decoded")] for fault in make_faults(verdict)]
            # Two start box codes precede the cells that `make_numbered_row` sends.
            self.assertEqual(cells, [[("5B", letter), ("01", None)], [("62", "b"), ("78", "x")],
                                     [("20", " "), ("79", "y")], [("62", "b"), ("78", "x")]],
                             (within, option))

    def test_gives_no_hint_on_a_header_in_an_unread_part(self) -> None:
        line = "refused 67 X frame 00:00:01:00"
        part = dataclasses.replace(self.make_read_part([line], [(25 * TICKS, [NO_C4, CLOSING])],
                                                       write_programme(self, [(25, 50)])), pes=None)
        hint = describe_first_hint(parse_single_fault(line), part, make_part_verdict([part]))
        self.check("hint", hint, "")

    def test_finds_the_code_of_a_received_cell(self) -> None:
        cells = (bytes([0x41, HIT, OLD, 0x01]).ljust(40), *BLANK_PAGE[1:])
        self.assertEqual([find_code(cells, row=1, column=at) for at in range(4)],
                         [0x41, 0x20, None, 0x01])
        self.assertIsNone(find_code(None, row=1, column=0))

    def test_names_the_character_with_even_parity(self) -> None:
        due = b"\x0b\x0b[b \x01c"  # row 22 of subtitle 1, which is expected in frames 25 to 49
        pages = [((due if row == 21 else b"").ljust(40)) for row in range(24)]
        request = make_example_request("one.stl", "one.pes", "--option", "german")
        part = make_part(0, 99, 0, request=request, expected_pages=lambda: ExpectedPages(
            [Subtitle(1, 1, 25, 50, 22, 2, b"")], [tuple(pages)]))
        # The columns with even parity, and how the first of them that has a character is described
        rows: list[tuple[tuple[int, ...], str]] = [
            ((), "a byte"), ((0, 4), "a byte (start box)"), ((4, 5), "a byte (a space)"),
            ((5,), "a byte (alpha red)"), ((3,), 'the character "b"'),
            ((2, 3, 6), 'the character "\u00c4"'), ((0, 6), 'the character "c"')]
        for (columns, words), (frame, whose) in itertools.product(rows, (
                (24, "the page"), (25, 'subtitle 1, "\u00c4b  c",'),
                (50, "the page after subtitle 1"))):
            fault = parse_single_fault(f"refused 68 Parity frame {format_frame(frame)} packet 1")
            cells = bytes(HIT if at in columns else code for at, code in enumerate(pages[21]))
            decoded = FaultPlace(None, None, (*pages[:21], cells, *pages[22:]))
            # A blank page is expected before and after the subtitle.
            byte = words if frame == 25 or not columns else "a byte (a space)"
            for place, expected in ((decoded, f"{byte} of {whose} has even parity"),
                                    (decoded._replace(rows=None), "")):
                with mock.patch.object(judging_faults, "find_fault_place", return_value=place):
                    self.assertEqual(describe_parity_fault(fault, part), expected, (columns, frame))


LINE = '72 warning at 10:03:30:17 in news.stl until 2027-01-31 by "Ann": her decision #4'
SUM = "ab" * 32
# TCI and TCO in frames. The third subtitle follows the second without a pause.
TIMES = [(100, 160), (200, 260), (260, 320), (400, 460), (500, 560)]
PROGRAMME = [(begin, end, b"Number %d" % number) for number, (begin, end) in enumerate(TIMES, 1)]


def make_waiver(number: int, subtitle: int, file: str = "one.stl",
                until: str = "2999-12-31") -> str:
    """Return a line that waives a fault in a subtitle of `PROGRAMME`."""
    time = format_frame(TIMES[subtitle - 1][0])
    return f'{number} warning at {time} in {file} until {until} by "Ann": known'


def replace_subtitles(changes: dict[int, ShownSubtitle | None]) -> list[ShownSubtitle]:
    """Return `PROGRAMME` with changed subtitles, by number. Leave out those that are `None`."""
    sent = [changes.get(number, subtitle) for number, subtitle in enumerate(PROGRAMME, 1)]
    return [subtitle for subtitle in sent if subtitle]


WRONG_TEXTS = replace_subtitles({2: (200, 260, b"Numbex 2"), 4: (400, 460, b"Numbex 4")})
SENT: dict[str, Sequence[ShownSubtitle]] = {
    "as scheduled": PROGRAMME, "two wrong texts": WRONG_TEXTS,
    "neither 2 nor 3 sent": replace_subtitles({2: None, 3: None}),
    "3 early": replace_subtitles({2: (200, 250, b"Number 2"), 3: (250, 320, b"Number 3")}),
    "3 not erased": replace_subtitles({3: (260, 390, b"Number 3")}),
    "a text in the pause after 3": sorted([*PROGRAMME, (340, 380, b"Another text")])}


class ParsedWaivers(Case):
    def test_reads_a_waiver(self) -> None:
        expected = Waiver(number=72, time="10:03:30:17", file="news.stl", until="2027-01-31",
                          author="Ann", reason="her decision #4", line_number=7)
        for line, file in (
                (f"  {LINE}\r", "news.stl"),
                (LINE.replace("news.stl", f"sha256:{SUM}"), f"sha256:{SUM}"),
                (LINE.replace(" in news", "   in   the news").replace(": ", ":"), "the news.stl")):
            self.check(line, parse_waiver("file", 7, line), expected._replace(file=file))

    def test_distinguishes_a_waiver_from_other_lines(self) -> None:
        for line, expected in ((LINE, True), (f"\t{LINE}", True), (f"# {LINE}", False),
                               ("72 warning", False)):
            self.check(line, is_waiver(line), expected)

    def test_refuses_a_wrong_waiver(self) -> None:
        for row in read_vectors("wrong-waivers.tsv"):
            with self.subTest(row["name"]), self.assertRaisesRegex(Stop, row["message"]):
                make_severity("", row["line"])

    def test_refuses_a_waiver_for_a_fault_that_concerns_no_single_subtitle(self) -> None:
        for number in (*range(10, 26), *range(30, 46), *range(60, 64), 74, 76, 79):
            with self.subTest(number), self.assertRaisesRegex(
                    Stop, f"{number} can't be waived for one subtitle"):
                make_severity("", LINE.replace("72", f"{number}"))
        for number in (*range(50, 58), *range(64, 74), 77, 78):  # these may be waived
            make_severity(LINE.replace("72", f"{number}"))

    def test_uses_waivers_for_the_file_up_to_their_day(self) -> None:
        waiver = parse_waiver("", 1, LINE)
        by_sum = waiver._replace(file=f"sha256:{SUM}")
        key = {(72, ((10 * 60 + 3) * 60 + 30) * 25 + 17)}  # the fault number, and the frame
        other = waiver._replace(number=68, file="others.stl")
        # A waiver after a waiver for another file, the judged file with the checksum `SUM`, the
        # current day, the keys of the waivers that are used, and how many have ended
        rows: dict[str, tuple[Waiver, str, str, set[tuple[int, int]], int]] = {
            "the last day": (waiver, "in/news.stl", "2027-01-31", key, 0),
            "the day after": (waiver, "in/news.stl", "2027-02-01", set(), 1),
            "another file": (waiver, "other.stl", "2027-01-31", set(), 0),
            "the checksum": (by_sum, "other.stl", "2027-01-31", key, 0),
            "another checksum": (by_sum._replace(file=f"sha256:{SUM[:-1]}c"), "news.stl",
                                 "2027-01-31", set(), 0)}
        for name, (item, path, day, keys, ended) in rows.items():
            chosen = choose_waivers([other, item], path, lambda: SUM, day)
            self.check(name, (chosen.keys, chosen.numbers, chosen.ended),
                       (keys, {number for number, _ in keys}, [item] * ended))

    def test_a_result_is_judged_again_after_the_day_of_a_waiver(self) -> None:
        request = make_example_request("one.stl", "one.ts")
        # Whether the waiver, until 2027-01-31, was over when the pair was judged, the current day,
        # and whether the result is still up to date
        for had_ended, day, expected in ((False, "2027-01-31", True), (False, "2027-02-01", False),
                                         (True, "2027-02-01", True)):
            result = make_result(
                "waived", request=REQUEST.to_json(request), program=PROGRAM._asdict(),
                files_at_start=describe_inputs(request),
                waivers=[{"until": "2027-01-31", "ended": had_ended}])
            self.check(f"{had_ended} {day}", is_current(result, request, PROGRAM, day), expected)
            with mock.patch("time.gmtime", return_value=time.strptime(day, "%Y-%m-%d")):
                self.check(f"{day} UTC", is_current(result, request, PROGRAM), expected)


class WaivedSubtitles(Case):
    """A subtitle file `one.stl` with `PROGRAMME`, and recordings that differ from it."""

    def judge_with(self, severity: Sequence[str], *args: str) -> dict[str, Any]:
        """Judge files with the lines of a severity file. Return the JSON result."""
        path = self.write("severity", "\n".join(severity).encode())
        return judge_files(self, *args, "--severity", path).result

    def judge(self, sent: Sequence[ShownSubtitle], severity: Sequence[str],
              programme: Sequence[ShownSubtitle] = PROGRAMME) -> dict[str, Any]:
        """Judge a transmission by `programme` with the lines of a severity file."""
        pages = schedule_pages(self, write_subtitle_file(self, sent, "sent.stl"))
        return self.judge_with(
            severity, write_subtitle_file(self, programme),
            self.write("one.pes", join_pes_packets(pages)), "--origin", "0", "--every", "25")

    def test_waives_a_fault_in_the_named_subtitles_or_warns_about_the_waiver(self) -> None:
        write_subtitle_file(self, PROGRAMME)
        checksum = "sha256:" + hashlib.sha256(self.read("one.stl")).hexdigest()
        for row in read_vectors("waivers.tsv"):
            lines = row["severity"].replace("CHECKSUM", checksum).split("; ")
            result, name = self.judge(SENT[row["sent"]], lines), row["name"]
            self.check(f"{name}: verdict", result["verdict"], row["verdict"])
            self.must(f"{name}: sentence", row["sentence"] in result["sentence"], result)
            self.check(f"{name}: warnings", [warning["line"] for warning in result["warnings"]
                                             if warning["kind"] == "waiver"],
                       [f"the waiver {row['warning']}"] * bool(row["warning"]))

    def test_the_result_names_the_waivers_and_what_they_waive(self) -> None:
        result = self.judge(WRONG_TEXTS, [
            "67 warning", make_waiver(72, 2), make_waiver(72, 4, until="2026-01-01"),
            make_waiver(72, 1, "two.stl")])
        self.check("waivers", [(item["time"], item["until"], item["ended"], item["fault_count"])
                               for item in result["waivers"]], [
            ("00:00:08:00", "2999-12-31", False, 1), ("00:00:16:00", "2026-01-01", True, 0)])
        self.check("faults", [(fault["time"], fault["severity"]) for fault in result["faults"]], [
            ("00:00:08:00", "warning"), ("00:00:16:00", "error")])
        self.check("subtitles", [item["verdict"] for item in result["subtitles"]],
                   ["right", "waived", "right", "wrong", "right"])

    def test_says_how_to_waive_one_subtitle_if_72_is_waived_in_all(self) -> None:
        # The lines of the severity file, and whether a note gives a waiver for subtitle 2
        rows: list[tuple[list[str], bool]] = [
            (["72 warning"], True), (["others warning"], True), ([], False),
            ([make_waiver(72, 2), make_waiver(72, 4)], False)]
        for lines, is_noted in rows:
            notes = self.judge(WRONG_TEXTS, lines)["notes"]
            self.check(f"{lines}", any("to waive it in one: 72 warning at 00:00:08:00 in one.stl "
                                       "until" in note for note in notes), is_noted)

    def test_names_the_subtitle_that_is_not_waived_in_a_file_alone(self) -> None:
        # Byte 9F is a fault 51.
        stl = write_subtitle_file(self, replace_subtitles({
            2: (200, 260, b"Number \x9f 2"), 4: (400, 460, b"Number \x9f 4")}))
        two, four = make_waiver(51, 2), make_waiver(51, 4)
        # The waivers in the severity file, and the beginning of the sentence
        rows: list[tuple[list[str], str]] = [
            ([], "Refused: in subtitle 2 at"), ([two], "Refused: in subtitle 4 at"),
            ([make_waiver(51, 1)], "Refused: in subtitle 2 at"), ([two, four], "Waived, ")]
        for lines, words in rows:
            sentence = self.judge_with(lines, stl)["sentence"]
            self.check(f"{lines}", sentence[:len(words)], words)

    def test_a_refused_subtitle_needs_a_waiver_for_the_unknown_page_too(self) -> None:
        # Byte 9F is a fault 51, and makes the expected page unknown, which is fault 78.
        programme = replace_subtitles({2: (200, 260, b"\x9f"), 4: (400, 460, b"Number \x9f 4")})
        refused, unknown = ([make_waiver(number, at) for at in (2, 4)] for number in (51, 78))
        rows: list[tuple[list[str], str]] = [
            ([], REFUSED), (refused, REFUSED), (unknown, REFUSED), ([*refused, *unknown], WAIVED),
            ([*refused, unknown[0]], REFUSED), ([*refused, unknown[1]], REFUSED)]
        for lines, verdict in rows:
            result = self.judge(PROGRAMME, lines, programme)
            self.check(f"{lines}", result["verdict"], verdict)
