"""Test long inputs, and the judging of correct subtitles in files with refused subtitles."""
from __future__ import annotations

import csv
import itertools
import json
import re
import subprocess
import xml.etree.ElementTree as tree
from unittest import mock

from developing.multiplex import PACKET, PAYLOAD, PAYLOAD_START, make_packet_header
from developing.pes import make_packet
from subtitles.cli.collection import make_pair_row, format_summary
from subtitles.common.times import TICKS
from subtitles.formats.stl import GSI, NamedSubtitle, Subtitle, SubtitleFile, TTI
from subtitles.formats.teletext import OPTIONS, OPTION_BY_WORD, has_characters
from subtitles.judging import subtitles
from subtitles.judging.subtitles import (
    RefusedSubtitle, SubtitleCounts, ValidSubtitles, draw_valid_pages, find_valid_subtitles,
    has_valid_subtitles)
from subtitles.results.files import make_row
from subtitles.stream.receiver import read_national_option
from .bench import Case, read_example_file
from .judged import JudgedPair, judge_files
from .parts import parse_single_fault
from .stories import read_vectors
from .transmissions import (
    SentPes, ShownSubtitle, delay_subtitle, join_pes_packets, packets, schedule_pages,
    subtitle_times, write_programme, write_subtitle_file)
from .test_judging_pairs import NOT_READ, damage_packet
from .test_judging_reasons import KEEPING_HEADER, change_numbers

BAD = b"\xe6: no letter"  # begins with U+0132, which no national option has
REPLACE_ADVICE = "replace it (it needs other character sets, or packets X/26, which are " \
    "refused with fault 70)"
WORDS = "--origin", "0", "--every", "100"
PAGE = 0, 0x88
TCI_HOURS, TCI_SECONDS = 5, 7  # offsets in a TTI block


class RefusedSubtitles(Case):
    """The subtitles "Number 1" to "Number 10" appear at the frames 100, 200 .. 1000 for 60 frames.
    Their transmission is correct; in the subtitle file, some have the refused text `BAD`."""

    first = 1  # number of the first subtitle

    def setUp(self) -> None:
        super().setUp()
        self.blocks: list[ShownSubtitle] = [
            (begin, end, b"Number %d" % number)
            for number, (begin, end) in enumerate(subtitle_times(10), 1)]
        self.stl = write_subtitle_file(self, self.blocks, "good.stl")
        self.sent = schedule_pages(self, self.stl)
        self.pes = self.write("one.pes", join_pes_packets(self.sent))

    def write_stl(self, *bad: int) -> str:
        """Write the subtitle file with the refused text in the subtitles with these numbers."""
        return write_subtitle_file(self, [
            (begin, end, BAD if number in bad else text)
            for number, (begin, end, text) in enumerate(self.blocks, 1)], "bad.stl", self.first)

    def write_changed_stl(self, number: int, at: int, byte: int) -> str:
        """Write the subtitle file with this byte at an offset in the TTI block of a subtitle."""
        data = bytearray(self.read(self.write_stl()))
        data[GSI + TTI * (number - 1) + at] = byte
        return self.write("changed.stl", data)

    def write_late_recording(self) -> str:
        """Write a recording in which subtitle 6 appears 5 frames late."""
        return self.write("late.pes", join_pes_packets(delay_subtitle(6, by=5)(self.sent)))

    def judge(self, stl: str, *args: str) -> JudgedPair:
        return judge_files(self, stl, *args, *WORDS)

    def test_judges_the_other_subtitles_if_one_is_refused(self) -> None:
        first = "subtitle 3 at 00:00:12:00 has fault 50 Character (\u0132): no national option " \
            f"has \u0132: {REPLACE_ADVICE}"
        line = "refused 50 Character block 3 at 0"
        for pes, end in ((self.pes, "all have the right text from the first frame to the last"),
                         (self.write_late_recording(),
                          'subtitle 6 at 00:00:24:00, "Number 6", appeared 5 frames late')):
            judged = self.judge(self.write_stl(3), pes)
            begin = f"Refused: {first}; 9 other subtitles were judged: {end}. Not checked: "
            self.check(f"{pes}: sentence", judged.verdict.sentence[:len(begin)], begin)
            self.check(f"{pes}: lines", (judged.verdict.status, judged.printed[-1],
                                         judged.check_lines[0], judged.lines("undecided: ")),
                       (1, line, line, [first.replace(" has fault",
                                                      ", until 00:00:14:10, has fault", 1)]))
            self.must(f"{pes}: 78 from the second TCO on", "refused 78 Undecided frame 00:00:10:10"
                      in judged.check_lines, judged.check_lines)

    def test_the_sentence_names_up_to_three_refused_subtitles(self) -> None:
        # The refused subtitles, and how many more are refused and how many others are judged
        for bad, more in (((3, 5), []), (range(2, 5), []), (range(2, 6), ["1 more; 6"]),
                          (range(2, 9), ["4 more; 3"])):
            sentence = self.judge(self.write_stl(*bad), self.pes).verdict.sentence
            self.must(f"{bad}", f"{len(bad)} of 10 subtitles have faults: " in sentence, sentence)
            self.check(f"{bad}: named", re.findall(r"subtitle (\d+) at .*? fault 50 ", sentence),
                       [f"{number}" for number in bad][:3])
            self.check(f"{bad}: others", re.findall(r" and (\d+ more; \d+) other", sentence), more)

    def test_writes_both_counts_into_all_results(self) -> None:
        judged = self.judge(self.write_stl(3, 7), self.pes, "--json", self.path("x.json"),
                            "--csv", self.path("x.csv"), "--junit", self.path("x.xml"))
        known = json.loads(self.read("x.json"))
        for result in (known, judged.result):
            self.check("result", (result["subtitle_counts"], result["fault_count"]),
                       ({"judged": 8, "refused": 2}, 4))
        self.check("faults", [(item["number"], item["subtitle"] and item["subtitle"]["position"],
                               item["character"]) for item in known["faults"]], [
            (50, 3, "\u0132"), (50, 7, "\u0132"), (78, None, None), (78, None, None)])
        verdicts = ["wrong" if position in (3, 7) else "right" for position in range(1, 11)]
        self.check("subtitles", [item["verdict"] for item in known["subtitles"]], verdicts)
        rows = list(csv.DictReader(self.read("x.csv").decode().splitlines()))
        self.check("CSV: pair first", [item["verdict"] for item in rows], ["refused", *verdicts])
        row = make_row(known, "one")
        for name, text in (("JUnit", "".join(tree.fromstring(self.read("x.xml")).itertext())),
                           ("last lines of a batch", "".join(format_summary([row]))),
                           ("page of a batch", make_pair_row(self.folder, row).source)):
            self.must(name, "8 subtitles judged, 2 refused" in text, text)

    def test_gives_all_values_of_each_subtitle(self) -> None:
        """Subtitle 1 begins at midnight. Subtitle 7 is 3 frames late, 8 has a repeat with a wrong
        header, and 9 is erased 5 frames early. In the file, 3 begins within 2 and has the text
        `BAD`, 5 begins within 4, 6 has another text, and 10 has a control code. Faults 51 (the
        code) and 57 (an overlap) are only warnings. The numbers (SN) are 7 to 16."""
        self.first, german = 7, ("--option", "german")
        self.blocks = [(0, 60, b"\xc8ONumber 1"), *(
            (begin, end, b"\xc8O" + text) for begin, end, text in self.blocks[1:])]
        late = delay_subtitle(7, by=3)(schedule_pages(self, self.write_stl(), *german))
        sent = [(pts - TICKS * 5 * (pts == TICKS * 960),
                 [KEEPING_HEADER, *some[1:]] if pts == TICKS * 825 else some) for pts, some in late]
        for number, begin, text in ((3, 250, BAD), (5, 450, b"Number 5"), (6, 600, b"\xc8Over 6"),
                                    (10, 1000, b"Number \x9f")):
            self.blocks[number - 1] = begin, self.blocks[number - 1][1], text
        result = self.judge(
            self.write_stl(), self.write("one.pes", join_pes_packets(sent)), *german,
            "--severity", self.write("severity", b"51 warning\n57 warning\n")).result
        self.check("values", [{name: "-" if value is None else f"{value}" for name, value
                               in row.items()} for row in result["subtitles"]],
                   [*read_vectors("subtitle-rows.tsv")])

    def test_the_sentence_names_the_first_fault_of_a_subtitle_that_is_an_error(self) -> None:
        """Subtitle 4 begins too early (fault 57) and has the text `BAD` (fault 50). Subtitle 8 has
        a control code (fault 51)."""
        for number, text in ((4, BAD), (8, b"\x9f")):
            self.blocks[number - 1] = *self.blocks[number - 1][:2], text
        stl = self.write_changed_stl(4, TCI_SECONDS, 14)
        for lines, words in (
                (b"", "2 of 10 subtitles have faults: subtitle 4 at 00:00:14:00 has fault 57 "),
                (b"57 warning", "subtitles have faults: subtitle 4 at 00:00:14:00 has fault 50 "),
                (b"57 warning\n50 warning", "Refused: subtitle 8 at 00:00:32:00 has fault 51 ")):
            severity = self.write("severity", lines)
            sentence = self.judge(stl, self.pes, "--severity", severity).verdict.sentence
            self.must(f"{lines!r}", words in sentence, sentence)

    def test_waives_file_faults_and_fault_78_by_number(self) -> None:
        recordings = {"late": self.write_late_recording(), "on time": self.pes}
        for row in read_vectors("waived-file-faults.tsv"):
            name = f"{row['lines']}, {row['recording']}"
            text = row["lines"].replace("; ", "\n").encode()
            judged = self.judge(self.write_stl(3), recordings[row["recording"]], "--severity",
                                self.write("severity", text), "-o", self.path("out"))
            self.check(name, judged.timed_verdict, row["verdict"])
            self.check(f"{name}: fault 50", {
                item["severity"] for item in judged.result["faults"] if item["number"] == 50},
                {row["severity"]})
            row_class = "waived" if row["severity"] == "warning" else "bad"
            self.must(f"{name}: its row", f'<tr id="s3" class="{row_class} n50"' in self.read(
                "out/one.html").decode(), row_class)
            sentence = judged.verdict.sentence
            is_other = row["verdict"] == "refused" and row["severity"] == "warning"
            self.must(f"{name}: sentence", sentence.startswith(row["begin"]) and row["part"] in
                      sentence and not (is_other and "has fault 50" in sentence), sentence)

    def test_refuses_a_hidden_row_of_a_judged_subtitle(self) -> None:
        """The faults of subtitle 3 are only warnings. No receiver shows subtitle 6."""
        self.blocks[5] = *self.blocks[5][:2], b"\n\nNumber 6"
        pes = self.write("hidden.pes", join_pes_packets(schedule_pages(self, self.write_stl())))
        for recording in ((pes,), ()):
            judged = self.judge(self.write_stl(3), *recording, "--severity",
                                self.write("severity", b"50 warning\n78 warning\n"))
            self.check(f"{recording}", (judged.timed_verdict, judged.printed[-1]),
                       ("refused", "refused not shown block 6"))
        sentence = self.judge(self.write_stl(3), pes).verdict.sentence
        self.must("sentence", "; 9 other subtitles were judged: subtitle 6 at 00:00:24:00, row 22: "
                  'no receiver shows "Number6", which is ' in sentence, sentence)

    def test_ignores_refused_subtitles_outside_the_range(self) -> None:
        """Subtitle 3, at 00:00:12:00, is refused, or 7, whose TCI is no time, so in any range."""
        no_time = self.write_changed_stl(7, TCI_HOURS, 99)
        bad = self.write_stl(3)
        for stl, words, verdict, counts in (
                (no_time, ("--from", "00:00:20:00"), "refused", (5, 1)),
                (bad, ("--from", "00:00:20:00"), "accepted", (6, 0)),
                (bad, ("--to", "00:00:12:00"), "accepted", (2, 0)),
                (bad, ("--to", "00:00:24:00"), "refused", (4, 1)),
                (bad, ("--from", "00:00:20:00", "--to", "00:00:10:00"), "not judged", None)):
            judged = self.judge(stl, self.pes, *words)
            self.check(f"{stl} {words}", (judged.timed_verdict, judged.verdict.subtitle_counts),
                       (verdict, counts and SubtitleCounts(*counts)))
        self.must("the reason", " has no subtitle with a TCI at " in judged.stderr[0],
                  judged.stderr)

    def judge_in_two_parts(self, stl: str, sent: SentPes, *args: str) -> JudgedPair:
        """Judge a transmission with a break of 500 frames before subtitle 5."""
        return judge_files(self, stl, self.write("two.pes", join_pes_packets([
            (pts + TICKS * 500 * (pts >= TICKS * 480), packets) for pts, packets in sent])),
            "--breaks", "1", "--every", "100", *args)

    def test_the_sentence_names_no_waived_fault_of_a_part_without_errors(self) -> None:
        """Subtitle 2 is late, as a waiver permits, and 7, in the second part, is refused."""
        judged = self.judge_in_two_parts(
            self.write_stl(7), delay_subtitle(2, by=5)(self.sent), "--severity", self.write(
                "mild", b'72 warning at 00:00:08:00 in bad.stl until 2999-12-31 by "Ann": known'))
        self.must("sentence", "judged: all faults that were found are declared as warnings; waived:"
                  in judged.verdict.sentence, judged.verdict.sentence)

    def test_judges_each_part_with_refused_subtitles(self) -> None:
        """Of two refused subtitles next to the break, both are in the part before it."""
        keeping = [(pts, [KEEPING_HEADER, *packets[1:]] if at in (2, 40) else packets)
                   for at, (pts, packets) in enumerate(self.sent)]  # a header in each part
        right = "all have the right text"
        # The part of each refused subtitle, the PES packets, and a part of the sentence
        for parts, sent, words in (
                ({7: 2}, self.sent, right), ({2: 1, 7: 2}, self.sent, right),
                ({4: 1}, self.sent, right), ({5: 1}, self.sent, right),
                ({4: 1, 5: 1}, self.sent, right), ({1: 1}, self.sent, right),
                ({10: 2}, self.sent, right), ({2: 1, 7: 2}, keeping, " headers; 2 faults in all.")):
            judged = self.judge_in_two_parts(self.write_stl(*parts), sent)
            self.check(f"{parts} {words}", (judged.timed_verdict, len(judged.result["parts"]),
                                            judged.verdict.subtitle_counts),
                       ("refused", 2, SubtitleCounts(10 - len(parts), len(parts))))
            self.check(f"{parts} {words}: part of each subtitle", [
                (row["part"], row["position"]) for row in judged.result["subtitles"]],
                [(parts.get(number, 1 + (number > 4)), number) for number in range(1, 11)])
            self.must(f"{parts} {words}: sentence", words in judged.verdict.sentence,
                      judged.verdict.sentence)

    def test_a_subtitle_whose_tci_is_no_time_is_in_the_first_part(self) -> None:
        judged = self.judge_in_two_parts(self.write_changed_stl(7, TCI_HOURS, 99), self.sent)
        self.check("verdict and parts of subtitle 7", (judged.timed_verdict, [
            row["part"] for row in judged.result["subtitles"] if row["position"] == 7]),
            ("refused", [1]))

    def test_refuses_a_subtitle_whose_time_is_in_the_break(self) -> None:
        """Subtitle 8 begins at 00:00:19:00, before 5, 6 and 7 (fault 56)."""
        judged = self.judge_in_two_parts(self.write_changed_stl(8, TCI_SECONDS, 19), self.sent)
        self.check("verdict and faults", (judged.timed_verdict, judged.check_lines), (
            "refused", ["refused 56 OutOfOrder block 8", "1 faults"]))
        self.check("note", judged.verdict.notes[-1], "the other subtitles were not judged: "
                   "subtitle 8 at 00:00:19:00 has no fault in its part of the recording")

    def test_refuses_a_subtitle_out_of_order_in_another_part(self) -> None:
        """Subtitle 7 begins at 00:00:10:00, in the part before the break."""
        judged = self.judge_in_two_parts(self.write_changed_stl(7, TCI_SECONDS, 10), self.sent)
        self.check("verdict and faults", (judged.timed_verdict, judged.check_lines), (
            "refused", ["refused 56 OutOfOrder block 7", "1 faults"]))
        self.check("note", judged.verdict.notes[-1], "the other subtitles were not judged: a "
                   "subtitle out of order is in another part of the recording than the subtitles "
                   "around it")

    def test_explains_a_header_that_keeps_the_page_but_changes_the_sub_code(self) -> None:
        header = make_packet(0, 0, change_numbers({2: 1}), b" " * 32)
        sent = [(pts, [header, *packets[1:]] if at == 30 else packets)
                for at, (pts, packets) in enumerate(self.sent)]
        recording = self.write("odd.pes", join_pes_packets(sent))
        hints = self.judge(self.write_stl(3), recording, "--keeping").result["hints"]
        self.must("hint", "67: C4 (erase page) is clear, though the sub-code changes from 0000 to "
                  "0001" in hints, hints)

    def test_draws_the_judged_subtitles_by_a_layout(self) -> None:
        self.blocks = [(begin, end, b"N\xc8umber %d" % number)
                       for number, (begin, end) in enumerate(subtitle_times(14), 1)]
        words = "--layout", "row=-2", "--option", "german"
        sent = schedule_pages(self, self.write_stl(), *words)
        others = "13 other subtitles were judged: "
        # The refused subtitle, the frames by which subtitle 6 is late, and a part of the sentence.
        for bad, by, sentence in (
                ((), 0, ""), ((3,), 0, f"{others}all have the right text from the first"),
                ((3,), 5, f'{others}subtitle 6 at 00:00:24:00, "N\u00fcmber 6", appeared 5 frames '
                          'late')):
            path = self.write("one.pes", join_pes_packets(delay_subtitle(6, by)(sent)))
            judged = self.judge(self.write_stl(*bad), path, *words)
            self.must(f"{bad} {by}", judged.timed_verdict == ("refused" if bad else "accepted") and
                      sentence in judged.verdict.sentence and
                      " --layout " in judged.lines("+ ")[-1], judged.printed)

    def test_notes_that_other_subtitles_are_not_judged_with_an_empty_recording(self) -> None:
        empty = self.write("empty.pes", b"")
        judged = self.judge(self.write_stl(3), empty, "--from", "00:00:08:00")
        self.check("verdict", (judged.timed_verdict, judged.check_lines,
                               judged.result["subtitle_counts"]), (
            "refused", ["refused 50 Character block 3 at 0", "1 faults"], None))
        found = [(item["kind"], item["text"]) for item in judged.result["not_checked"]]
        self.check("not checked", found, [("outside", "1 subtitle outside of --from and --to")])
        self.must("note", f"the other subtitles were not judged: {empty} is empty"
                  in judged.verdict.notes, judged.verdict.notes)
        self.must("sentence", " (block 3), the national option " in judged.verdict.sentence,
                  judged.verdict.sentence)

    def test_does_not_waive_a_pair_of_which_nothing_was_read(self) -> None:
        empty, mild = self.write("empty.pes", b""), self.write("mild", b"others warning\n")
        unread = self.write("unread.pes", b"".join(
            damage_packet(item, 33) for item in packets(self.read("one.pes"))))
        odd = bytearray(self.read("good.stl"))
        odd[11:12] = b"7"  # an invalid DSC refuses all subtitles, and can't be waived
        rows: list[tuple[str, list[str], str, str | None]] = [
            (self.write_stl(3), [empty], "not judged", NOT_READ),
            (self.path("bad.stl"), [unread], "not judged", NOT_READ),
            (self.path("bad.stl"), [], "waived", None),
            (self.write("odd.stl", bytes(odd)), [self.pes], "refused", None),
            (self.path("odd.stl"), [], "refused", None)]
        for stl, recording, verdict, reason in rows:
            judged = self.judge(stl, *recording, "--severity", mild)
            self.check(f"{stl} {recording}", (
                judged.timed_verdict, judged.verdict.unjudged_reason), (verdict, reason))

    def test_is_not_judged_if_the_program_fails(self) -> None:
        for stl, call in ((self.write_stl(3), "check*--pes*--all*"), (self.stl, "show*")):
            judged = judge_files(self, stl, self.pes, *WORDS,
                                 program=self.make_program_with_exception(call, "exit 9"))
            self.check(call, judged.timed_verdict, "not judged")

    def test_is_not_judged_after_a_bug_of_qc(self) -> None:
        with mock.patch("subtitles.judging.pair.find_parts", side_effect=ValueError):
            judged = self.judge(self.write_stl(3), self.pes)
        self.check("verdict", judged.timed_verdict, "not judged")

    def test_compares_each_text_with_each_option_at_most_once(self) -> None:
        bad = range(19, 800, 19)
        file = SubtitleFile(write_subtitle_file(self, [
            (200 * at, 200 * at + 100, BAD if at in bad else b"Number %d" % at)
            for at in range(1, 801)]))
        faults = [parse_single_fault(f"refused 50 Character block {at} at 0") for at in bad]
        with mock.patch.object(subtitles, "has_characters", side_effect=has_characters) as search:
            result = find_valid_subtitles(file, faults, "english")
        self.check("judged", len(result.judged), 758)
        self.must("these texts and `BAD`", search.call_count <= (758 + 1) * len(OPTIONS),
                  search.call_count)


class ExpectedPages(Case):
    def test_others_are_judged_if_the_file_has_faults_and_fault_60(self) -> None:
        """Fault 60 (no PES packet) is printed for a file alone only if some can be judged."""
        rows: list[tuple[set[int], bool]] = [
            ({60}, False), ({50}, False), ({50, 60}, True), (set(), False), ({10, 60}, True),
            ({72, 60}, False), ({57, 78, 60}, True)]
        for numbers, expected in rows:
            self.assertEqual(has_valid_subtitles(numbers), expected, numbers)

    def test_the_drawn_transmission_decodes_to_the_expected_pages(self) -> None:
        """A blank page is between the subtitles, unless the second follows without a gap."""
        for gap, option in itertools.product(range(4), ("english", "german")):
            some = [Subtitle(at, at, begin, begin + 50, 20, 2, b"Number %d" % at)
                    for at, begin in ((1, 100), (2, 150 + gap))]
            due = draw_valid_pages(some, PAGE, option)
            frames, decoded = range(99, 203 + gap), due.timeline
            assert decoded
            self.assertEqual(list(map(decoded.get_page_at, frames)),
                             list(map(due.get_page_at, frames)), gap)
            self.assertEqual({read_national_option(decoded.get_state_at(frame).header or b"")
                              for frame in frames[1:]}, {OPTION_BY_WORD[option].bits},
                             (gap, option))

    def test_judges_subtitles_without_a_fault_unless_the_next_is_out_of_order(self) -> None:
        file = SubtitleFile(write_subtitle_file(self, [
            (100 * at, 100 * at + 60, b"\x9f\xe6 %d" % at) for at in range(1, 6)]))
        for row in read_vectors("valid-subtitles.tsv"):
            found = find_valid_subtitles(file, [
                parse_single_fault(f"refused {line}") for line in row["faults"].split("; ")],
                "english", lambda fault: f"{fault.number}" not in row["waived"].split())
            self.check(row["name"], (" ".join(f"{item.index}" for item in found.judged), [
                f"{item.subtitle.position}: {item.fault.number} {item.character}".rstrip()
                + " waived" * item.is_waived for item in found.refused], [*found.skipped_positions]
                ), (row["judged"], row["refused"].split("; "), [
                    at for at in range(1, 6) if f"{at}" not in row["judged"]]))

    def test_lists_forty_refused_subtitles_and_counts_the_others(self) -> None:
        rows: list[tuple[int, list[str]]] = [
            (1, []), (40, []), (41, ["undecided: 1 more subtitle"]),
            (42, ["undecided: 2 more subtitles"])]
        for count, more in rows:
            refused = [RefusedSubtitle(NamedSubtitle(at, at, "00:00:01:00", "00:00:02:00"),
                                       parse_single_fault(f"refused 19 Row block {at}"), "", "")
                       for at in range(1, count + 1)]
            self.assertEqual([*ValidSubtitles([], refused, frozenset()).format_lines()],
                             [item.format_line() for item in refused[:40]] + more)


# Test that very long inputs are read to their end.

NULL_PID, PID = 0x1FFF, 0x101
NULL = make_packet_header(NULL_PID, 0, PAYLOAD).ljust(PACKET, b"\xff")
PACKETS_PER_WRITE, TIMES = 1000, 1001  # null packets per write, and number of writes


class LongInputs(Case):
    def test_surveys_a_pes_packet_after_a_million_packets(self) -> None:
        first = packets(read_example_file("hello.pes"))[0]
        parts = [first[at:at + 184] for at in range(0, len(first), 184)]
        sent = b"".join(make_packet_header(PID, 0 if number else PAYLOAD_START,
                                           PAYLOAD | number) + part
                        for number, part in enumerate(parts))
        with subprocess.Popen([self.bench.program, "survey", "/dev/stdin"], stdin=subprocess.PIPE,
                              stdout=subprocess.PIPE) as run:
            assert run.stdin and run.stdout
            for _ in range(TIMES):
                run.stdin.write(NULL * PACKETS_PER_WRITE)
            run.stdin.write(sent)
            run.stdin.close()
            lines = run.stdout.read().decode().splitlines()
        self.check("status", run.returncode, 0)
        self.check("bytes, packets", lines[-1], f"over 0 {PACKETS_PER_WRITE * TIMES + len(parts)}")
        reported = [line for line in lines if line.startswith(f"pes {PID} 0 1 ")]
        self.must("its PES packet", len(reported) == 1, lines)

    def test_judges_around_a_refused_subtitle_after_twelve_others(self) -> None:
        self.schedule(write_programme(self, subtitle_times(14)), "sent.pes")
        padded = b"Number 13".ljust(len(BAD), b"\x8f")
        stl = self.write("bad.stl", self.read("one.stl").replace(padded, BAD))
        status, lines = self.program("check", stl, self.path("sent.pes"), "--all")
        self.check("status, and faults: 78 from the twelfth TCO on", (status, [
            line for line in lines if line.startswith("refused ")]), (1, [
                "refused 50 Character block 13 at 0", "refused 78 Undecided frame 00:00:50:10"]))
