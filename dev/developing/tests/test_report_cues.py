"""Test the cue list, timeline, refused subtitles and verdict box of a report."""
from __future__ import annotations

import csv
import json
from types import SimpleNamespace
from typing import Any
from unittest import mock

from developing.stl import make_gsi_block, make_tti_block
from subtitles.common.times import Span, TICKS, format_frame
from subtitles.formats.stl import NamedSubtitle, Subtitle, SubtitleFile
from subtitles.judging.causes import Cause, LATE, NEVER
from subtitles.judging.cues import (
    Cue, CueJudge, CueVerdict, find_cues, find_recording_start, find_refused_subtitles,
    find_text_spans, is_variant, read_block_text)
from subtitles.judging.status import (
    ACCEPTED, AS_SHOWN, DIFFERS, LOST, NOT_JUDGED, NOT_READ, REFUSED, RELATIVE, SAME, VALID, WAIVED,
    WARNED, WITH_FAULTS)
from subtitles.judging.transmissions import ExpectedPages
from subtitles.report.blocks import (
    make_fault_lines, mark_field, mark_text, mark_times, show_byte)
from subtitles.report.cue_list import CueList, CueRow, mark_difference
from subtitles.report.page import draw_verdict, keep_options_together
from subtitles.report.timeline import find_cue_span
from subtitles.stream.receiver import BLANK_PAGE, Rows
from .bench import Case
from .judged import ProgrammeCase, judge_files
from .parts import make_answer, make_packets, make_part, markup_text, parse_single_fault
from .stories import read_vectors
from .transmissions import delay_subtitle, join_pes_packets
from .test_judging_causes import decode, make_page_named, make_programme
from .test_judging_faults import parse_causes
from .test_judging_status import make_severity


FIRST = Subtitle(1, 1, 100, 200, 20, 2, b"")  # in frames 100 to 199


def page(text: bytes) -> Rows:
    return (*BLANK_PAGE[:19], text.ljust(40), *BLANK_PAGE[20:])


class ActualCues(Case):
    def test_finds_the_frames_in_which_subtitles_were_decoded(self) -> None:
        for row in read_vectors("cues.tsv"):
            programme = make_programme(row["subtitles"])
            causes = {cause.subtitle_index: cause._replace(
                sent_page=make_page_named(cause.details) if cause.details else None)
                for cause in parse_causes(row["causes"])}
            part = make_part(0, 999, 0, delays=[int(delay) for delay in row["delays"].split()],
                             expected_pages=mock.Mock(return_value=programme),
                             causes=SimpleNamespace(cause_by_index=causes, timeline=decode(
                                 row["sent"], programme, first=int(row["first"] or 0))))
            cues = [(cue.begin, cue.end, cue.delay_in) for cue in find_cues(part)]
            self.check(row["name"], "; ".join(f"{begin} {end}" for begin, end, _ in cues).replace(
                "None", "-"), row["cues"])
            self.check(f"{row['name']}: delays", [delay for _, _, delay in cues], [
                None if begin is None else begin - subtitle.begin
                for (begin, _, _), subtitle in zip(cues, programme.subtitles)])

    def test_a_variant_of_a_page_has_most_of_its_characters(self) -> None:
        self.check_rows(lambda text: is_variant(page(text), page(b"abcd"), ExpectedPages([], [])), {
            "three of four": ((b"xbcd",), True), "half of them": ((b"xxcd",), False)})

    def test_the_timeline_has_the_frames_with_a_text(self) -> None:
        decoded = decode("0:- 100:a 150:- 200:b 250:-", make_programme("100-150 a"))
        self.check("frames", [*find_text_spans(decoded)], [Span(100, 149), Span(200, 249)])

    def test_a_mark_lasts_from_the_earlier_in_cue_to_the_later_out_cue(self) -> None:
        self.check_rows(lambda *cues: find_cue_span(
            Cue(FIRST, page(b"one"), None, None, *cues)), {
            "not decoded": ((None, None), (100, 200)), "early": ((90, 190), (90, 200)),
            "late": ((110, 210), (100, 210)), "no out-cue": ((110, None), (100, 200))})


class ActualTimes(ProgrammeCase):
    """Ten subtitles, from frame 100 on, and recordings of them. The PTS of frame 0 is 0."""

    def test_subtitles_outside_the_recording_have_no_actual_times(self) -> None:
        for first, end in ((0, 20), (0, 21), (20, None), (21, None), (12, 25)):
            sent, name = self.sent[first:end], f"PES packets {first} to {end}"
            begin, last = (sent[at][0] // TICKS for at in (0, -1))
            rows = self.judge(sent).result["subtitles"]
            self.check(f"{name}: times", [(row["actual_in"], row["actual_out"]) for row in rows], [
                (format_frame(tci) if begin <= tci <= last else None,
                 format_frame(tco) if begin < tco <= last else None) for tci, tco in self.cues])
            self.check(f"{name}: right", [row["position"] for row in rows
                                          if row["verdict"] == "right"],
                       [number for number, (tci, tco) in enumerate(self.cues, 1)
                        if begin <= tci and tco <= last + 1])

    def test_gives_the_actual_times_of_a_subtitle_with_a_moved_in_cue(self) -> None:
        for name, by in (("late", 3), ("early", -3)):
            rows = self.judge(delay_subtitle(3, by)(self.sent)).result["subtitles"]
            self.check(name, [(row["actual_in"], row["actual_out"], row["verdict"])
                              for row in rows], [
                (format_frame(tci + by * (number == 3)), format_frame(tco),
                 "wrong" if number == 3 else "right")
                for number, (tci, tco) in enumerate(self.cues, 1)])

    def read_csv(self, *args: str) -> tuple[dict[str, Any], list[dict[str, str]]]:
        """Judge a pair. Return the JSON result, and the rows of the CSV file."""
        result = judge_files(self, self.stl, *args, "--csv", self.path("one.csv")).result
        with open(self.path("one.csv"), encoding="utf-8", newline="") as file:
            return result, [*csv.DictReader(file)]

    def test_writes_a_csv_row_for_the_pair_and_each_subtitle(self) -> None:
        tci = self.cues[2][0] * TICKS
        late = [(pts + 3 * TICKS * (pts == tci), some) for pts, some in self.sent]
        result, (pair, *rows) = self.read_csv(
            self.write("one.pes", join_pes_packets(late)), "--origin", "0")
        self.check("pair", (pair["position"], pair["verdict"], pair["reason"]),
                   ("", "refused", result["sentence"]))
        self.check("subtitles", [{name: row[name] for name in result["subtitles"][0]}
                                 for row in rows],
                   [{name: "" if value is None else str(value) for name, value in row.items()}
                    for row in result["subtitles"]])

    def test_writes_a_csv_row_with_the_reason(self) -> None:
        result, rows = self.read_csv(self.write("empty.pes", b""))
        self.check("rows", [(row["verdict"], row["reason"]) for row in rows],
                   [("not judged", result["reason"])])


def make_list(faults: list[str], trusted: list[tuple[int, int]]) -> list[str]:
    """Return the output of `check --all` with fault 60, which has no frame, other faults, and
    trusted frames, given by the first and last of each range."""
    return ["refused 60 Empty", *faults, *(
        f"trusted frames {format_frame(first)} {format_frame(last)}"
        for first, last in trusted), f"{len(faults) + 1} faults"]


class CueVerdicts(Case):
    """The verdict on the subtitle `FIRST`."""

    def test_considers_the_cause_and_simultaneous_faults(self) -> None:
        programme = ExpectedPages([FIRST], [page(b"one")])
        severities = [make_severity(f"{faults} warning") for faults in ("67", "72", "others")]
        for row in read_vectors("cue-verdicts.tsv"):
            name = "" if row["cause"] == "-" else row["cause"]
            first, numbers = int(row["trusted from"]), [*map(int, row["faults"].split())]
            expected = [row[f"{faults} warning"] for faults in ("67", "72", "others")]
            cause = name and Cause(0, name, 3, None, None, "", 0)
            faults = [f"refused {number} Name frame {format_frame(int(row['fault frame']))}"
                      for number in [*numbers, *[72] * bool(cause)]]
            output = make_answer(make_list(faults, [(first, 199)]))
            causes = SimpleNamespace(expected=programme, frames_by_end_fault={}) if cause \
                else None
            cue = Cue(FIRST, page(b"one"), cause or None)
            result = [CueJudge(make_part(0, 300, 0, output, causes=causes, severity=severity)
                               ).judge(cue).word for severity in severities]
            self.check(f"{row}", result, expected)

    def test_a_cause_is_waived_if_its_subtitle_has_no_error(self) -> None:
        second = Subtitle(2, 2, 200, 300, 20, 2, b"")
        due = ExpectedPages([FIRST, second], [page(b"one"), page(b"two")])
        for row in read_vectors("waived-causes.tsv"):
            owners, ends, at = (json.loads(row[name]) for name in ("owners", "ends", "cause"))
            causes: Any = SimpleNamespace(expected=due, frames_by_end_fault=dict(ends))
            causes.find_owners = mock.Mock(return_value=[*map(set, owners)])
            severity = make_severity(*row["severity"].split("; ")).limit_to_file("a.stl", str, "")
            part = make_part(0, 300, 0, make_answer(row["lines"].split("; "), path=self.path(
                "list")), causes=causes, severity=severity)
            self.check(row["name"], part.is_cause_waived(Cause(at[0], LATE, 3, None, None, "", 0,
                                                               at[1])), row["waived"] == "yes")

    def test_marks_subtitles_with_losses_as_unknown(self) -> None:
        cue = Cue(FIRST, page(b"one"), None)
        for span, word in (((0, 99), "right"), ((100, 100), "not known"), ((199, 300), "not known"),
                           ((200, 300), "right")):
            part: Any = SimpleNamespace(
                causes=None, doubts=None, unmarked_losses=[Span(*span)],
                check_output=SimpleNamespace(is_file=False, fault_spans={}, verdict=ACCEPTED))
            verdict = CueJudge(part).judge(cue)
            self.check(f"{span}", (verdict.word, verdict.doubt), (
                word, "not received completely" if word == "not known" else ""))

    def test_a_subtitle_that_was_read_may_be_certain_in_spite_of_a_fault(self) -> None:
        answer = make_answer(make_list(["refused 67 Control frame 00:00:06:00"], [(100, 199)]))
        for doubts, word in ((dict[int, str](), "certain"), ({1: "a loss"}, "not certain")):
            judge = CueJudge(make_part(0, 300, 0, answer, doubts=doubts))
            self.check(word, judge.judge(Cue(FIRST, page(b"one"), None)),
                       CueVerdict(word, "", [67], doubts.get(1, "")))

    def test_finds_a_refused_subtitle_by_the_faults_of_its_blocks(self) -> None:
        file = SubtitleFile(self.write("a.stl", make_gsi_block(b"", 0, 0) + b"".join(
            make_tti_block(1, 0, 25, 20, 2, b"%d" % ebn, ebn) for ebn in (0, 1, 255))))
        part = make_part(0, 99, 0, make_answer([
            "refused 50 Character block 1 at 0", "refused 50 Character block 3 at 0",
            "refused 73 Gap frame 00:00:02:00", "3 faults"], path=self.path("list")))
        self.check("blocks", [[fault.block for fault in item.faults] for item
                              in find_refused_subtitles(part, file, None)], [[1, 3]])
        self.check("text", read_block_text(file, 2), b"01255")

    def test_a_stream_begins_with_its_first_pcr(self) -> None:
        """The first PCR is 3 s before the first PTS. The clock jumps by 2 hours within the part."""
        packets = make_packets(90_000 * second for second in (5, 6, 7, 7207))
        recording: Any = SimpleNamespace(is_stream=True, packets=packets, survey=SimpleNamespace(
            get_pcr_range=lambda pid: (90_000 * 2, 90_000 * 9)))
        part = make_part(0, 99, 0, recording=recording, pes=(1, 3))
        self.check("start", find_recording_start(part), 90_000 * 2)

    def test_the_reason_has_the_cause_and_all_faults_and_the_doubt(self) -> None:
        frame = f"frame {format_frame(150)} packet 0"
        part = make_part(0, 300, 0, make_answer([
            f"refused 67 Control {frame}", f"refused 68 Parity {frame}", "2 faults"]))
        for row in read_vectors("verdict-reasons.tsv"):
            verdict = CueVerdict(row["verdict"], row["cause"], tuple(map(
                int, row["faults"].split())), row["doubt"])
            reported: Any = SimpleNamespace(part=part)
            self.check(f"{verdict}", (
                CueJudge(part).describe_reason(verdict),
                markup_text(CueList.make_verdict_cell(reported, verdict))),
                       (row["reason"], row["cell"]))

    def test_explains_why_a_subtitle_is_not_known(self) -> None:
        for row in read_vectors("doubts.tsv"):
            begin, end = (int(row[name]) if row[name] else None for name in ("in-cue", "out-cue"))
            spans = [(first, last) for first, last in json.loads(row["trusted"])]
            part = make_part(0, 300, 0, make_answer(make_list([], spans)))
            cue = Cue(FIRST, page(b"one"), None, None, begin, end)
            self.check(row["name"], CueJudge(part).judge(cue).doubt, row["doubt"])


class TextMarkup(Case):
    def test_marks_characters_that_differ(self) -> None:
        for row in read_vectors("text-differences.tsv"):
            marked = tuple(markup_text(item).replace("<mark>", "[").replace("</mark>", "]")
                           for item in mark_difference(row["first"], row["second"]))
            self.check(f"{row}", marked, (row["marked first"], row["marked second"]))

    def test_shows_another_decoded_text_only_if_there_is_a_cause(self) -> None:
        cue_list: Any = SimpleNamespace(option=0)
        for cause, text in ((None, "Own"), (Cause(0, LATE, 1, None, None, "", 0),
                                            "<mark>Own</mark><br/><mark>Let</mark>")):
            self.check(f"{cause}", markup_text(CueList.make_text_cell(
                cue_list, Cue(FIRST, page(b"Own"), cause, page(b"Let")))), text)

    def test_shows_the_first_200_of_1203_wrong_rows_besides_repeated_ones(self) -> None:
        result: Any = SimpleNamespace(
            rows=[CueRow(at, look, [], [at], is_repeated=look == "bad" and at == 5)
                  for look in ("ok", "bad") for at in range(1203)],
            part=SimpleNamespace(number=1, recording="one.pes"), kinds=[], make_caption=lambda: "")
        text = markup_text(CueList.make_list(result))
        self.check("rows", [text.count(f'class="{name}"') for name in (
            "bad", "bad again", "bad more")], [200, 1, 1002])
        self.must("right rows", "1203 right subtitles" in text, text[:900])
        self.must("omitted rows", "and 1,003 more rows" in text, text[:900])

    def test_a_row_repeats_the_row_before_with_the_same_cause_delay_and_faults(self) -> None:
        causes = [Cause(0, name, frames, None, None, "", 0) for name, frames in (
            (LATE, 1), (LATE, 1), (LATE, 2), (NEVER, None), (NEVER, None), (NEVER, None))]
        verdicts = [CueVerdict("wrong", "", (68,) * (at == 5)) for at in range(8)]  # with a fault
        result: Any = SimpleNamespace(
            cues=[Cue(FIRST, BLANK_PAGE, cause) for cause in (*causes, None, None)],
            judge=SimpleNamespace(judge=mock.Mock(side_effect=verdicts)), causes=None,
            cells=lambda *_: [], part=SimpleNamespace(recording="one.pes"))
        self.check("repeated", [row.is_repeated for row in CueList.make_judged_rows(result)],
                   [False, True, False, False, True, False, False, False])

    def test_breaks_no_line_within_an_option(self) -> None:
        # No line is broken within <b>.
        self.check_rows(lambda text: markup_text(keep_options_together(text)), {
            "two options": (("use --origin or --start",), "use <b>--origin</b> or <b>--start</b>"),
            "a hyphen in an option": (("give --allow-lost",), "give <b>--allow-lost</b>"),
            "a value and a special character": (("--every 25 <x>",), "<b>--every 25</b> &lt;x&gt;"),
            "a dash": (("a - b",), "a - b")})

    def test_draws_each_verdict_of_qc_otherwise_and_those_of_read_like_them(self) -> None:
        words = (ACCEPTED, VALID, WAIVED, RELATIVE, REFUSED, LOST, WARNED, NOT_JUDGED)
        drawn = [draw_verdict(word) for word in words]
        self.check("classes", len({name for name, _ in drawn}), len(words))
        self.check("shapes", len({markup_text(shape) for _, shape in drawn}), len(words))
        for reading, pair in ((AS_SHOWN, ACCEPTED), (NOT_READ, NOT_JUDGED), (WITH_FAULTS, REFUSED),
                              (SAME, ACCEPTED), (DIFFERS, REFUSED)):
            self.check(reading, draw_verdict(reading)[0], draw_verdict(pair)[0])


class RefusedFiles(Case):
    def test_shows_the_field_that_a_fault_of_a_block_names(self) -> None:
        path = self.write("two.stl", make_gsi_block(b"", 1, 1) + bytes(range(16)) + b"\x8f" * 112)
        subtitle_file = SubtitleFile(path)
        fields = {11: "DFC STL25.01", 12: "DFC STL25.01", 13: "DSC 1", 14: "CCT 00", 15: "EBN 03",
                  16: "CS 04", 17: "CF 0F", 18: "JC 0E", 19: "VP 0D", 22: "SGN and SN 000102"}
        for number in range(10, 60):  # faults up to 14 are of the GSI block, number 0
            fault = parse_single_fault(f"refused {number} X block {int(number > 14)}")
            head, _, value = fields.get(number, "").rpartition(" ")
            self.check(f"{number}", markup_text(mark_field(subtitle_file, fault)).strip(),
                       f"{head} <mark>{value}</mark>" if head else "")
        self.check("no block",
                   markup_text(mark_field(subtitle_file, parse_single_fault("refused 14 Cct"))), "")
        self.check("two faults", markup_text(make_fault_lines(subtitle_file, [
            parse_single_fault(f"refused {number} X block 1") for number in (18, 57)])),
                   '<a href="#n18">18 X</a> block 1 JC <mark>0E</mark><br/>'
                   '<a href="#n57">57 X</a> block 1')

    def test_marks_the_byte_or_line_that_a_fault_names(self) -> None:
        for row in read_vectors("marked-texts.tsv"):
            faults = [parse_single_fault(f"refused {place}") for place in filter(
                None, row["faults"].split("; "))]
            self.check(row["faults"], markup_text(mark_text(b"a b\x8ac", faults)), row["text"])

    def test_shows_a_byte_as_a_character_or_as_a_hexadecimal_number(self) -> None:
        self.check("bytes", [markup_text(show_byte(byte)) for byte in (0x20, 0x3C, 0x7E, 0x7F, 0x0B)
                             ], ["\u2423", "&lt;", "~", "<i>7F</i>", "<i>0B</i>"])

    def test_marks_the_times_that_a_fault_names(self) -> None:
        for row in read_vectors("marked-times.tsv"):
            cues = [row["TCI"], row["TCO"]]
            times = mark_times(NamedSubtitle(3, 3, *(time.strip("[]") for time in cues)), [
                parse_single_fault(f"refused {row['fault']} X block 6")])
            self.check(row["name"], [markup_text(time) for time in times], [
                time.replace("[", "<mark>").replace("]", "</mark>") for time in cues])
