"""Test how the causes of refused subtitles are found, with tables and random pages."""
from __future__ import annotations

import os
import re
import unittest
from types import SimpleNamespace
from typing import Any

from subtitles.common.program import TOP, read
from subtitles.common.times import Span, Spans, TICKS, format_frame
from subtitles.formats.listing import parse_fault_line
from subtitles.formats.stl import Subtitle
from subtitles.judging.causes import (
    Cause, CAUSE_NAMES, CauseDescriber, Causes, EARLY, LATE, NEVER, NOT_ERASED, OTHER_TEXT,
    TEXT_IN_PAUSE, WRONG_TEXT, count_causes, format_cause_counts, list_cause_counts)
from subtitles.judging.faults import describe_unrecorded
from subtitles.judging.transmissions import ExpectedPages
from subtitles.judging.verdict import measure_delay
from subtitles.stream.packets import Packets
from subtitles.stream.receiver import BLANK_PAGE, Rows, SpanIndex, Timeline
from .judged import JudgedPair, ProgrammeCase
from .parts import parse_single_fault
from .stories import read_vectors
from .test_judging_fault_details import TIMES as WAIVED_TIMES, make_waiver
from .transmissions import CLOSING, HEADER, PAGE, SentPes, make_numbered_row

BEGIN = 900_000
TIMES = [(BEGIN + 100 * at, BEGIN + 100 * at + 50) for at in range(6)]
OTHER_ROWS = (make_numbered_row(22, b"Others"),)  # a text that no subtitle has


def insert_page(sent: SentPes, frame: int, *rows: bytes) -> SentPes:
    """Return the transmission with a page with these rows at a frame, in place of any other."""
    pts = frame * TICKS
    return sorted([*(item for item in sent if item[0] != pts), (pts, [HEADER, *rows, CLOSING])])


class SenderFaults(ProgrammeCase):
    """The subtitles "Number 1" to "Number 6" appear every 100 frames from 10:00:00:00 on, for 50
    frames each. Pages with other rows are added to their transmission or replace some of it."""

    cues = TIMES

    def judge_pages(self, *pages: tuple[int, tuple[bytes, ...]]) -> JudgedPair:
        """Judge the transmission with pages given by frames after 10:00:00:00 and rows."""
        sent = self.sent
        for frame, rows in pages:
            sent = insert_page(sent, BEGIN + frame, *rows)
        return self.judge(sent)

    def list_causes(self, judged: JudgedPair) -> list[tuple[Any, ...]]:
        return [(item["name"], item["subtitle"]["number"], item["line"])
                for item in judged.result["causes"]]

    def test_reports_an_unexpected_text_in_the_pause_after_a_subtitle(self) -> None:
        for number, frame, time in ((1, 60, "10:00:02:10"), (3, 270, "10:00:10:20")):
            judged = self.judge_pages((frame, OTHER_ROWS))
            words = f"another text was sent in a pause, at {time}"
            line = f'{words}; received "Others"'
            self.check(f"{frame}: causes", self.list_causes(judged),
                       [("another text in a pause", number, line)])
            self.check(f"{frame}: line", judged.lines("cause: "), [line])
            self.check(f"{frame}: sentence", judged.sentence, f'Refused: {words}: "Others".')

    def test_counts_an_unexpected_text_while_a_subtitle_is_shown_as_a_wrong_text(self) -> None:
        counts = self.judge_pages((60, OTHER_ROWS), (130, OTHER_ROWS)).result["cause_counts"]
        self.check("causes", {name: count for name, count in counts.items() if count},
                   {"another text in a pause": 1, "wrong text": 1})

    def test_names_no_other_text_if_a_subtitle_is_repeated_after_its_tco(self) -> None:
        judged = self.judge_pages((60, (make_numbered_row(22, b"Number 1"),)))
        self.check("causes", self.list_causes(judged),
                   [("unknown", 1, "unknown: sent after its TCO, at 10:00:02:10")])

    def test_names_an_extra_row_only_if_the_other_rows_are_right(self) -> None:
        own = next(packets[1] for pts, packets in self.sent if pts == TICKS * (BEGIN + 100))
        prices = make_numbered_row(11, b"Share prices")
        # The rows sent for subtitle 2, and what the cause and the sentence say of additional ones.
        rows: dict[str, tuple[tuple[bytes, ...], str]] = {
            "one more": ((own, prices), "an additional row: 11"),
            "two more": ((make_numbered_row(3, b"A"), make_numbered_row(11, b"B"), own),
                         "additional rows: 3 and 11"),
            "one more with another text": ((prices, make_numbered_row(22, b"Number 9")), "")}
        for name, (sent, words) in rows.items():
            judged = self.judge_pages((100, sent))
            cause = judged.result["causes"][0]
            self.check(f"{name}: cause", (cause["name"], cause["line"].partition("; received ")[0]),
                       ("wrong text", f"wrong text: {words}".removesuffix(": ")))
            text = "has the wrong text" + f" ({words})" * bool(words) + ": expected "
            self.must(f"{name}: sentence", text in judged.sentence, judged.sentence)

    def test_the_manual_lists_each_cause(self) -> None:
        manual = read(os.path.join(TOP, "docs", "manual", "refusals.md")) or ""
        items = [line.partition(": ")[0] for line in manual.splitlines() if line.startswith("- `")]
        for name in CAUSE_NAMES:
            self.must(name, any(f"`{name}" in item for item in items))


class WaivedFaults(ProgrammeCase):
    """Five subtitles. The second, in the frames 200 to 259, is followed by the third without a
    pause, up to frame 319."""

    cues, qc_args = WAIVED_TIMES, ("--origin", "0", "--every", "25")

    def test_a_fault_is_waived_only_if_each_subtitle_that_it_concerns_has_a_waiver(self) -> None:
        def leave_out(first: int, end: int) -> SentPes:
            return [item for item in self.sent if not first * TICKS <= item[0] < end * TICKS]

        third = dict(self.sent)[260 * TICKS][1:-1]  # the row of subtitle 3
        # The transmission, and the subtitles that each fault concerns, by its number (72: a wrong
        # page, 73: no header). 0 is a pause, for which there are no waivers.
        rows: dict[str, tuple[SentPes, dict[int, list[int]]]] = {
            "nothing sent for 2 and 3": (leave_out(200, 320), {72: [2, 3], 73: [2, 3]}),
            "3 neither repeated nor erased": (leave_out(285, 400), {72: [3], 73: [3, 0]}),
            "3 early, in the time of 2": (insert_page(self.sent, 250, *third), {72: [2, 3]})}
        for name, (sent, concerned) in rows.items():
            waivers = [(number, at) for number, places in concerned.items() for at in places if at]
            for missing in (None, *waivers):
                waived = {waiver for waiver in waivers if waiver != missing}
                severity = self.write("severity", "\n".join(
                    make_waiver(*waiver) for waiver in waived).encode())
                faults = self.judge(sent, "--severity", severity).result["faults"]
                self.check(f"{name}, without a waiver for {missing}", {
                    fault["number"]: fault["severity"] for fault in faults}, {
                    number: "warning" if {(number, at) for at in places} <= waived else "error"
                    for number, places in concerned.items()})


# Causes of refused subtitles, by the tables causes.tsv and causes-by-hand.tsv in dev/vectors, whose
# first lines explain how subtitles and decoded pages are written.

END = 1600  # end of the examined range of frames


def make_page_named(name: str) -> Rows:
    """Return the page that a name describes.

    A letter stands for a page with two lines, and `-` for the blank page. A second letter after a
    comma changes the first line: t (text), a (attribute), r (removed), m (margin) or p (position).
    """
    page = list(BLANK_PAGE)
    if name[0] == "-":
        return BLANK_PAGE
    first, second = b"\x0b\x0bLine " + name[0].encode(), b"\x0b\x0band more " + name[0].encode()
    if "," in name:
        first = {"t": b"\x0b\x0bstrange", "a": b"\x03" + first, "r": b"", "m": b"  " + first,
                 "p": first}[name[2]]
    page[18 - ("p" in name)], page[20] = first.ljust(40), second.ljust(40)
    return tuple(page)


def make_empty_timeline(within: int = 0) -> Timeline:
    return Timeline(Packets(0), PAGE, 0, within)


def parse_span(frames: str) -> Span:
    first, _, last = frames.rpartition("-")
    return Span(int(first or last), int(last))


def make_programme(subtitles: str, first_number: int = 1) -> ExpectedPages:
    items = [item.split() for item in subtitles.split(";")]
    return ExpectedPages(
        [Subtitle(at, at + first_number - 1, *parse_span(frames), 20, 2, b"")
         for at, (frames, _) in enumerate(items, 1)], [make_page_named(page) for _, page in items])


def decode(sent: str, programme: ExpectedPages, within: int = 0, first: int = 0,
           last: int = 999) -> Timeline:
    """Return the decoded pages of a row, for a recording from frame `first` to frame `last`."""
    decoded = make_empty_timeline(within)
    spans: dict[str, list[Span]] = {mark: [] for mark in "!?~@"}
    for item in sent.split():
        if item[0] in spans:
            spans[item[0]].append(parse_span(item[1:]))
            continue
        frame, page, frames_open = re.split("[:/]", f"{item}/0")[:3]
        decoded.record_page(int(frame), make_page_named(page))
        for at in (int(frame), int(frame) + int(frames_open)):
            decoded.record_opening(at)
    decoded.first, decoded.last, decoded.lost = first, last, SpanIndex(spans["~"])
    decoded.uncertain_spans, decoded.pauses = spans["?"], Spans(spans["!"])
    decoded.count = 500  # enough PES packets for pauses between them to be considered
    decoded.stray_rows = [(span, ((19, programme.pages[-1][18]),)) for span in spans["@"]]
    return decoded


def fake_check_output(spans: list[Span], *edges: tuple[int, int]) -> Any:
    """Return output of `check`: fault 72 in the frames `spans`, and other faults with frames."""
    firsts = {number: parse_fault_line(f"refused {number} Edge frame {format_frame(frame)}")
              for number, frame in edges}
    return SimpleNamespace(first_faults=firsts, fault_spans={72: Spans(spans)})


def find_wrong_spans(causes: Causes) -> list[Span]:
    """Return the frames with a wrong page, as `check` reports them."""
    wrong = {frame for frame in range(min(causes.timeline.last, END))
             if not causes.finder.is_expected_page(frame)}
    return [Span(*ends) for ends in zip(sorted(frame for frame in wrong if frame - 1 not in wrong),
                                        sorted(frame for frame in wrong if frame + 1 not in wrong))]


def format_cause(cause: Cause, sent: str) -> str:
    """Return a subtitle's number, the cause, its frames, another subtitle, and the decoded page."""
    pages = {make_page_named(page): page for page in ["-", *re.findall(r":([^ /]+)", sent)]}
    frames = "" if cause.frames is None else f" {cause.frames}"
    other = "" if cause.other_index is None else f" of {cause.other_index + 1}"
    page = "" if cause.sent_page is None else f", {pages.get(cause.sent_page, 'due')}"
    return f"{cause.subtitle_index + 1} {cause.name}{frames}{other}{page}"


class StoredRows(unittest.TestCase):
    def find_results(self, subtitles: str, sent: str, words: str) -> list[str]:
        options = dict(word.split("=") for word in words.split())
        programme = make_programme(subtitles, int(options.get("number", 1)))
        decoded = decode(sent, programme, *(int(options[name])
                                            for name in ("within", "first", "last")))
        causes = Causes(programme, decoded,
                        parse_span(options["reach"]) if "reach" in options else None)
        spans = find_wrong_spans(causes)
        causes.classify_faults(fake_check_output(spans, *(
            (number, int(options[name])) for number, name in ((63, "begin"), (74, "end"))
            if name in options)))
        printed = [f"{format_cause(cause, sent)} until {cause.final_frame}"
                   + f": {cause.details}" * bool(cause.details) for cause in causes.list_causes()]
        owners = [cause and cause.subtitle_index + 1 for cause in (
            causes.find_cause(63, 0), causes.find_cause(74, 0), *(
                causes.find_cause(72, span.first) for span in spans[:3]))]
        delays = [[measure_delay(item, page, decoded, is_complete) for item, page in zip(
            programme.subtitles, programme.pages)] for is_complete in (False, True)]
        return ["; ".join(printed), f"{owners}", f"{delays[0]} {delays[1]}"]

    def test_finds_the_causes_of_each_row(self) -> None:
        for row in read_vectors("causes.tsv"):
            with self.subTest(row["subtitles"], sent=row["sent"], options=row["options"]):
                self.assertEqual(self.find_results(row["subtitles"], row["sent"], row["options"]),
                                 [row["causes"], row["owners"], row["delays"]])


class CausesByHand(unittest.TestCase):
    def find_causes(self, subtitles: str, sent: str, last: int = 999) -> Causes:
        programme = make_programme(subtitles)
        causes = Causes(programme, decode(sent, programme, last=last))
        causes.classify_faults(fake_check_output(find_wrong_spans(causes)))
        return causes

    def test_keeps_the_first_wrong_frame_of_a_subtitle(self) -> None:
        causes: Any = SimpleNamespace(
            finder=SimpleNamespace(find_text_in_pause=lambda *_: None),
            first_wrong_frames={}, cause_by_index={0: None})
        for span in (Span(10, 12), Span(20, 21)):
            Causes.add_span(causes, 0, span)
        self.assertEqual(causes.first_wrong_frames, {0: 10})

    def test_finds_the_causes_derived_by_hand(self) -> None:
        for row in read_vectors("causes-by-hand.tsv"):
            programme = make_programme(row["subtitles"])
            causes = Causes(programme, decode(row["sent"], programme))
            spans = find_wrong_spans(causes)
            causes.classify_faults(fake_check_output(spans))
            places = {cause.subtitle_index for cause in causes.list_causes()}
            with self.subTest(row["name"]):
                self.assertEqual("; ".join(format_cause(cause, row["sent"])
                                           for cause in causes.list_causes()), row["causes"])
                for first, _ in spans:
                    item = causes.find_cause(72, first)
                    self.assertIn(item and item.subtitle_index, places)

    def test_finds_causes_behind_a_delay_of_all_subtitles(self) -> None:
        """By a clock that is as late as all subtitles, the second may have another fault: its page
        changes before its delayed TCO, or is not erased then."""
        for row in read_vectors("delayed-causes.tsv"):
            causes = self.find_causes(row["subtitles"], row["sent"], int(row["last"] or 999))
            causes.classify_by_delay(int(row["delay"]))
            with self.subTest(row["name"]):
                self.assertEqual("; ".join(format_cause(cause, row["sent"])
                                           for cause in causes.list_causes()), row["causes"])
                self.assertEqual(causes.delay_of_all, int(row["delay of all"]))

    def test_leaves_out_causes_of_subtitles_and_of_pauses(self) -> None:
        sent = "0:- 103:a 150:- 170:z 190:- 203:b 250:-"
        causes = self.find_causes("100-150 a;200-250 b", sent)
        late, pause = ["1 late 3, a", "2 late 3, b"], "1 another text in a pause, z"
        for name, expected in (("", [late[0], pause, late[1]]), (LATE, [pause]),
                               (TEXT_IN_PAUSE, late)):
            rest = causes.leave_out(lambda cause: cause.name == name)
            self.assertEqual([format_cause(cause, sent) for cause in rest.list_causes()], expected)

    def test_an_early_subtitle_was_replaced_if_the_next_page_was_recorded(self) -> None:
        for sent, expected in (("0:- 90:a 140:-", True), ("0:- 90:a", False),
                               ("0:- 110:a 160:-", False), ("0:- 100:a 150:-", False)):
            causes = self.find_causes("100-150 a", sent)
            self.assertEqual(causes.was_replaced_early(0), expected, sent)
            part: Any = SimpleNamespace(causes=causes, expected_pages=lambda: causes.expected)
            self.assertEqual(
                describe_unrecorded(parse_single_fault("refused 74 End frame 00:00:05:20"), part),
                "" if expected else "1 of 1 subtitle was not recorded completely", sent)

    def test_a_recording_covers_the_frames_of_its_pes_packets_and_of_its_pcr(self) -> None:
        for pcr_frames, expected in ((None, (10, 20)), ((5, 30), (5, 30)), ((12, 18), (10, 20)),
                                     ((5, 18), (5, 20)), ((12, 30), (10, 30))):
            decoded = make_empty_timeline()
            decoded.first, decoded.last = 10, 20
            causes = Causes(ExpectedPages([], []), decoded, pcr_frames and Span(*pcr_frames))
            self.assertEqual(causes.find_covered_span(), expected, pcr_frames)

    def test_finds_causes_of_early_and_late_ends_only_in_recorded_frames(self) -> None:
        """A subtitle is expected from frame 100 to 150, but its page is shown from 103 to 155. The
        PES packets from 103 to 140 are judged, which faults 63 and 74 at these frames report."""
        for row in read_vectors("end-causes.tsv"):
            programme, decoded = make_programme("100-150 a"), make_empty_timeline()
            for frame, name in ((int(row["blank page"]), "-"), (103, "a"), (155, "-")):
                decoded.record_page(frame, make_page_named(name))
            decoded.first, decoded.last = 103, 140
            causes = Causes(programme, decoded, parse_span(row["recorded"]))
            causes.classify_faults(fake_check_output([], (63, 103), (74, 140)))
            caused = [f"{number}" for number in (63, 74) if causes.find_cause(number, 103)]
            self.assertEqual(" ".join(caused), row["caused"], row["name"])

    def test_the_end_of_the_first_page_shows_its_delay_only_if_a_pause_follows(self) -> None:
        """The recording begins with the first page, 3 frames after its TCI. The second page is 10
        frames late."""
        for subtitles, sent, expected in (
                ("100-150 a;155-200 b", "103:a 160:- 165:b 210:-",
                 "1 late 10, a; 2 late 10, b"),
                ("100-150 a;150-200 b", "103:a 160:b 210:-", "2 late 10, b")):
            programme = make_programme(subtitles)
            causes = Causes(programme, decode(sent, programme, first=103))
            causes.classify_faults(fake_check_output([Span(155, 159)], (63, 103)))
            self.assertEqual("; ".join(format_cause(cause, sent)
                                       for cause in causes.list_causes()), expected)

    def test_describes_a_cause_as_values_and_as_text(self) -> None:
        """Subtitles 1 to 3 have the subtitle numbers (SN) 6 to 8 and the pages a to c."""
        programme = make_programme("100-150 a;200-250 b;300-350 c", first_number=6)
        wording = CauseDescriber(Causes(programme, make_empty_timeline()), "english")
        due, other, strange = (f"Line {name} / and more {name}" for name in "acz")
        # The cause of subtitle 1: its name, frames, sent page, the index of the subtitle with this
        # page, and details; and its text.
        for name, frames, sent, of, words, printed in (
                (LATE, 3, "a", None, "", "late by 3 frames"),
                (EARLY, 1, None, None, "why", "early by 1 frame: why"),
                (NOT_ERASED, None, "a", None, "", "not erased at 00:00:06:00"),
                (WRONG_TEXT, None, "z", None, "why", f'wrong text: why; received "{strange}"'),
                (NEVER, None, None, None, "", "never sent"),
                (OTHER_TEXT, None, "c", 2, "",
                 f"another subtitle's text at its time; received \"{other}\" of subtitle 3 (SN "
                 "8)")):
            cause = Cause(0, name, frames, None if sent is None else make_page_named(sent), of,
                          words, 0)
            known = wording.make_json(cause)
            self.assertEqual(
                (known["name"], known["frames"], known["expected_text"], known["decoded_text"],
                 known["other_number"], known["other_position"], known["line"], known["subtitle"]),
                (name, frames, due, sent and f"Line {sent} / and more {sent}", of and 8, of and 3,
                 printed, {"position": 1, "number": 6, "begin": "00:00:04:00",
                           "end": "00:00:06:00"}), (name, frames, sent))
            self.assertEqual(wording.format_line(cause), "cause: subtitle 1 (SN 6) at 00:00:04:00, "
                             f'"{due}": {printed}', (name, frames, sent))

    def test_counts_causes_of_all_parts_by_name(self) -> None:
        def fake_part(*names: str) -> Any:
            causes = [Cause(at, name, 1, None, None, "", 0) for at, name in enumerate(names)]
            return SimpleNamespace(list_causes=lambda: causes, pause_texts={},
                                   cause_by_index=dict(enumerate(causes)))

        parts = [fake_part(LATE, NEVER), fake_part(), fake_part(NEVER, LATE, LATE)]
        counts = "3 late, 2 never sent"
        self.assertEqual(list_cause_counts(parts), counts)
        self.assertEqual(format_cause_counts(parts), f"5 subtitles with a wrong page: {counts}")
        self.assertEqual(count_causes(parts), {**dict.fromkeys(CAUSE_NAMES, 0), NEVER: 2, LATE: 3})
        self.assertEqual(format_cause_counts([fake_part(LATE)]),
                         "1 subtitle with a wrong page: 1 late")
        without = [fake_part()]
        self.assertEqual((list_cause_counts(without), format_cause_counts(without)), ("", ""))
