"""Test the sentence about a verdict, which fault it names, and text that viewers can't see."""
from __future__ import annotations

import ctypes
import itertools
import json
import re
from types import SimpleNamespace
from typing import Any, Iterator

from developing.pes import make_packet
from subtitles.common.times import CLOCK, TICKS
from subtitles.formats.layout import make_cell_lines, PLAIN, prepare_line, TextFault
from subtitles.formats.listing import NamedFault, NOT_SHOWN, parse_fault_line, read_meanings, SILENT
from subtitles.formats.stl import Subtitle
from subtitles.formats.teletext import ENGLISH, OPTION_BY_WORD, OPTIONS, select_option
from subtitles.judging.pages import (
    decode_cells, describe_hidden_characters, find_hidden_rows, find_visibility,
    HIDDEN as HIDDEN_KIND, may_hide_rows, Visibility)
from subtitles.judging.sentence import (
    Facts, FAULT_CLAUSES, FaultCount, write_sentence)
from subtitles.judging.status import FAULT_NUMBERS, REFUSED
from subtitles.judging.transmissions import describe_control_bits
from subtitles.recording.notices import Notice
from subtitles.stream.receiver import BLANK_PAGE
from .bench import Case
from .inserters import FIRST_TCI
from .judged import judge_files, JudgedPair, ProgrammeCase
from .stories import read_vectors
from .streams import add_pictures, make_mpeg_2_picture
from .test_formats_characters import ANY_SUBCODE, CHARACTER, LEVEL_1, Receiver, TEXT_OFFSET
from .transmissions import (
    CLOSING, delay_subtitle, HEADER, join_pes_packets, schedule_pages, SentPes, subtitle_times,
    write_programme, write_subtitle_file)

# Options with which qc accepts more recordings
ADVICE_OPTIONS = ("--within", "--keeping", "--no-complete", "--allow-lost", "--severity", "--pace")
PACKET_FAULTS_ONLY = {3, 4}  # of `subttx packet`, which qc does not call
VERB = re.compile(r"\b(is|are|has|have|was|were|does|ends|comes|begins?|differs|fall|appeared|"
                  r"lacks|had|do)\b")


class HeaderOptions(Case):
    def test_names_the_option_of_a_header_unless_it_is_the_requested_one(self) -> None:
        for bits, requested in itertools.product(range(8), OPTIONS):  # bits C12 to C14
            sent = select_option(bits, requested)
            words = f"the header is {sent.name}, but --option is {requested.word}" if sent else \
                "C12, C13 and C14 are set, which is reserved"
            header = bytes([8, 8, 0, 8, 0, 8, 1, bits << 1])
            self.check(f"{bits} {requested.word}", describe_control_bits(header, requested.word),
                       [words] * (sent != requested))

    def test_reads_bits_by_the_region_of_the_option_or_by_the_default_region(self) -> None:
        # The bits C12 to C14, the requested option, and the option that the bits mean.
        for bits, requested, expected in (
                (0, "english", "english"), (0, "polish", "polish"), (4, "polish", "german"),
                (5, "polish", "spanish"), (7, "croatian", "romanian"), (7, "polish", None),
                (0, "estonian", "english"), (6, "estonian", "lithuanian")):
            option = select_option(bits, OPTION_BY_WORD[requested])
            self.assertEqual(option and option.word, expected, (bits, requested))


class Sentences(Case):
    def test_describes_each_verdict(self) -> None:
        for row in read_vectors("sentences.tsv"):
            more: dict[str, Any] = json.loads(row["other facts"])
            more["first"] = parse_fault_line(more.get("first", ""))
            for name in ("counts", "waived"):
                more[name] = [FaultCount(*count) for count in more.get(name, ())]
            facts = Facts(row["verdict"], int(row["subtitles"]), **more)
            self.check(row["name"], write_sentence(facts), row["sentence"])

    def test_has_a_sentence_for_each_fault_number_in_the_manual(self) -> None:
        self.assertEqual(set(FAULT_CLAUSES), FAULT_NUMBERS - PACKET_FAULTS_ONLY)
        self.assertEqual(set(FAULT_CLAUSES), set(read_meanings()))
        found = []
        for row in read_vectors("fault-sentences.tsv"):
            fault = parse_fault_line(row["line"])
            assert fault
            found.append(fault.number)
            with self.subTest(row["line"]):
                self.assertEqual(write_sentence(Facts(REFUSED, 1, first=fault, faults=1)),
                                 row["sentence"])
                words = FAULT_CLAUSES[fault.number]
                self.assertRegex(words, VERB)
                # one clause, without the manual's placeholders and code
                self.assertNotRegex(words, r"TIME|\bN frames|\bK\b|`|[;.] |--complete")
        self.assertEqual(found, sorted(FAULT_CLAUSES))

    def test_no_clause_advises_an_option_that_accepts_its_fault(self) -> None:
        for number, clause in FAULT_CLAUSES.items():
            if number != SILENT:
                self.check(f"{number}", [item for item in ADVICE_OPTIONS if item in clause], [])

    def test_names_the_subtitle_of_a_refused_character_or_line(self) -> None:
        for row in read_vectors("refused-texts.tsv"):
            stl = write_subtitle_file(self, [
                (100, 150, b"One"), (200, 250, make_cells(row["text"])), (300, 350, b"Three")],
                first=7)
            self.check(row["name"], judge_files(self, stl).verdict.sentence,
                       f"Refused: in subtitle 2 (SN 8) at 00:00:08:00, {row['sentence']}")


BEGIN = 900_000
TIMES = [(BEGIN + 50 * at, BEGIN + 50 * at + 40) for at in range(6)]


class RecordingEnds(ProgrammeCase):
    """The subtitles 1 to 9 appear at the frames 100, 200, .. 900, for 60 frames each. Subtitle 10
    follows the ninth without a pause."""

    cues = [*subtitle_times(9), (960, 1060)]

    def test_counts_subtitles_that_are_cut_off(self) -> None:
        for row in read_vectors("recording-ends.tsv"):
            first, last = (TICKS * int(row[name]) for name in ("first", "last"))
            sent = [item for item in self.sent if first <= item[0] <= last]
            judged = self.judge(sent, "--origin", str(-int(row["delay"]) * TICKS % CLOCK))
            self.check(f"{row['name']}: hint", [
                hint for hint in judged.result["hints"] if hint.startswith(("63", "74"))],
                [row["hint"]] * bool(row["hint"]))
            self.must(f"{row['name']}: sentence", row["sentence"] in judged.sentence,
                      judged.sentence)

    def test_never_leads_with_a_waived_fault(self) -> None:
        """Subtitle 3 is 2 frames late (fault 72), and subtitle 1 has an even byte (fault 68)."""
        sent = delay_subtitle(3, by=2)(self.sent)
        pts, (header, text, *more) = sent[0]
        sent[0] = pts, [header, text[:-1] + bytes([text[-1] ^ 0x80]), *more]
        # The severity file makes `waived` a warning; part of the sentence, which names the worst
        # fault, and of the last line, which is the first fault of `check` that is not waived.
        for waived, sentence, last in (
                ("", "subtitle 3 at 00:00:12:00, \"Number 3\", appeared 2 frames late; also 68 "
                     "Parity",
                 "refused 68 Parity"),
                ("68", "subtitle 3 at 00:00:12:00, \"Number 3\", appeared 2 frames late; waived: "
                 "68 Parity", "refused 72 Content"),
                ("72", "of subtitle 1, \"Number 1\", has even parity; waived: 72 Content.",
                 "refused 68 Parity"), ("others", "Waived", "waived: refused 68 Parity")):
            severity = self.write("mild", f"{waived} warning\n".encode() if waived else b"")
            result = self.judge(sent, "--severity", severity)
            self.must(waived, sentence in result.verdict.sentence, result.verdict.sentence)
            self.must(waived, result.printed[-1].startswith(last), result.printed[-1])


def make_header(c4: int = 8, c5: int = 8, c7: int = 1, c11: int = 8) -> bytes:
    """Return a header of page 888 with these values, each named for its lowest control bit."""
    return make_packet(0, 0, [8, 8, 0, c4, 0, c5, c7, c11], b" " * 32)


class NamedPlaces(ProgrammeCase):
    """German subtitles, "Number 1, Ösl" and so on, appear every 50 frames from 10:00:00:00 on
    for 40 frames. The header of one page is wrong: that of subtitle 3 or of the blank page after.
    """

    cues, qc_args = TIMES, ("--origin", "0", "--option", "german")

    def test_names_the_subtitle_of_a_wrong_header(self) -> None:
        self.stl = write_programme(self, TIMES, text=b"Number %d, \xc8Osl")
        sent = schedule_pages(self, self.stl, "--option", "german")
        begin, end = TIMES[2]
        pages = {begin: '10:00:04:00, subtitle 3, "Number 3, Ösl",',
                 end: "10:00:05:15, the page after subtitle 3"}
        for row, (frame, page) in itertools.product(read_vectors("headers.tsv"), pages.items()):
            header = make_header(**{name: int(value) for name, _, value in (
                word.partition("=") for word in row["values"].split())})
            sentence = self.judge([
                (pts, [header, *some[1:]] if pts == frame * TICKS % CLOCK else some)
                for pts, some in sent]).sentence
            expected = f"Refused: at {page} {row['effect']}"
            self.check(f"{row['values']} at {frame}", sentence[:len(expected)], expected)


class EmptyRanges(ProgrammeCase):
    cues, qc_args = TIMES, ()

    def test_does_not_judge_a_range_without_pes_packets(self) -> None:
        for words in ((), ("--origin", "0")):
            for pes, verdict in (("100-200", "not judged"), ("7-7", "not judged"),
                                 ("6-200", "refused")):
                judged = self.judge(self.sent[:7], "--pes", pes, *words)
                reason = f"{self.path('one.pes')} has 7 PES packets, 0-6: --pes {pes} is outside " \
                    "this range"
                self.check(f"{pes} {words}", (judged.timed_verdict, reason in judged.stderr),
                           (verdict, verdict == "not judged"))


NO_BOX = 'no receiver shows "Hi", which is outside of a box'
SAME_COLOUR = 'no receiver shows "Hi", which has the colour of its background'
ONE = 'libzvbi does not show "Hi", which follows a single start box (0B); ffmpeg does'
# offsets in libzvbi's characters
HIDDEN, OPACITY_OFFSET, FOREGROUND_OFFSET, BACKGROUND_OFFSET = 0, 2, 3, 4


class DrawingReceiver(Receiver):
    """A receiver that decodes pages with libzvbi and reads the characters drawn by it."""

    def draw_row(self, cells: bytes) -> str:
        """Return the characters that libzvbi shows for the cells of a row."""
        text = self.row([HEADER, make_packet(0, 20, (), cells.ljust(40)), CLOSING], 20)
        page = ctypes.create_string_buffer(65536)
        self.library.vbi_fetch_vt_page(self.decoder, page, 0x888, ANY_SUBCODE, LEVEL_1, 25, 0)
        result = ""
        for column, letter in enumerate(text):
            item = page.raw[TEXT_OFFSET + CHARACTER * (41 * 20 + column):][:CHARACTER]
            if letter > " " and item[OPACITY_OFFSET] != HIDDEN \
                    and item[FOREGROUND_OFFSET] != item[BACKGROUND_OFFSET]:
                result += letter
        return result


def make_cells(text: str) -> bytes:
    return b"".join(bytes.fromhex(word) if re.fullmatch("[0-9A-F]{2}", word) else word.encode()
                    for word in text.split())


class VisibleRows(Case):
    def test_finds_the_characters_that_decoders_show(self) -> None:
        for row in read_vectors("hidden-rows.tsv"):
            cells = make_cells(row["cells"])
            self.check(row["name"], (find_visibility(cells).name, describe_hidden_characters(
                cells, "german")), (row["shown"], row["message"]))

    def test_no_decoder_shows_text_in_the_colour_of_its_background(self) -> None:
        # Code 1D makes the colour before it the background, 1C makes the background black.
        colours = [*range(8), *range(0x10, 0x18)]  # of text and of mosaics, from black to white
        for paper, ink in itertools.product(colours, colours):
            for last_code, is_hidden in ((b"", ink % 8 == paper % 8), (b"\x1c", ink % 8 == 0)):
                cells = b"\x0b\x0b%c\x1d%c%sHi" % (paper, ink, last_code)
                self.assertEqual(find_visibility(cells),
                                 Visibility.NONE if is_hidden else Visibility.ALL, cells)

    def test_agrees_with_libzvbi(self) -> None:
        try:
            receiver = DrawingReceiver()
        except OSError:
            self.skipTest("what libzvbi draws, which is not installed")
        for row in read_vectors("hidden-rows.tsv"):
            cells = make_cells(row["cells"])
            expected = "".join(chr(cell.code) for cell in decode_cells(cells) if cell.is_shown)
            self.check(row["name"], receiver.draw_row(cells), expected)

    def test_reports_each_hidden_row_with_its_block(self) -> None:
        shown, hidden, partly = (cells.ljust(40) for cells in (b"\x0b\x0bHi", b"Hi", b"\x0bHi"))
        pages = [(hidden, partly, shown, *BLANK_PAGE[3:]), (shown, hidden, hidden, *BLANK_PAGE[3:])]
        subtitles = [Subtitle(1, 1, 25, 34, 1, 2, b""), Subtitle(3, 3, 75, 84, 1, 2, b"")]
        file: Any = SimpleNamespace(start_blocks=[2, 5, 6])  # first block of each subtitle
        first, third = "subtitle 1 at 00:00:01:00, row", "subtitle 3 at 00:00:03:00, row"
        hidden_rows = find_hidden_rows(subtitles, pages, file, "english")
        self.check("faults", hidden_rows.faults, [
            NamedFault(NOT_SHOWN, f"{first} 1: {NO_BOX}", block=2),
            NamedFault(NOT_SHOWN, f"{third} 2: {NO_BOX}", block=6),
            NamedFault(NOT_SHOWN, f"{third} 3: {NO_BOX}", block=6)])
        self.check("warnings", hidden_rows.warnings, [
            Notice(HIDDEN_KIND, f"{first} 2: {ONE}", "00:00:01:00")])

    def test_checks_only_files_with_a_layout_or_with_codes_that_may_hide_text(self) -> None:
        for code, has_layout, at in itertools.product(range(256), (False, True), range(3)):
            texts = [b"one", b"two", b"three"]  # the code is inserted into one of them
            texts[at] = texts[at][:at] + bytes([code]) + texts[at][at:]
            subtitles = [Subtitle(1, 1, 25, 50, 20, 2, text) for text in texts]
            lines = make_cell_lines(texts[at], ENGLISH)
            drawn = [] if isinstance(lines, TextFault) else [prepare_line(item, PLAIN) for item in
                                                             lines]
            is_checked = may_hide_rows(subtitles, has_layout)
            self.assertEqual(is_checked, has_layout or code in (0x0A, 0x0B, 0x1D), (code, at))
            self.assertTrue(is_checked or all(find_visibility(item) == Visibility.ALL
                                              for item in drawn), code)


class InvisibleRows(Case):
    """Three subtitles with the same text (SN 7 to 9) appear from 10:00:00:00 on. They are judged
    alone, and with their correct transmission."""

    def judge_text(self, text: bytes) -> Iterator[tuple[bool, JudgedPair]]:
        """Judge subtitles without and with a recording. "Ö" is added to "Hi" in their text."""
        stl = write_programme(self, TIMES[:3], text=text.replace(b"Hi", b"Hi\xc8O"), first=7)
        sent = schedule_pages(self, stl, "--option", "german")
        recording = self.write("one.pes", join_pes_packets(sent))
        for more in ((), (recording, "--origin", "0")):
            yield bool(more), judge_files(self, stl, *more, "--option", "german")

    def list_hidden_warnings(self, judged: JudgedPair) -> list[str]:
        return [item["line"] for item in judged.result["warnings"] if item["kind"] == "hidden"]

    def test_refuses_subtitles_that_no_receiver_shows(self) -> None:
        for text, why in ((b"\x1dHi", SAME_COLOUR), (b"Hi\x0b", NO_BOX), (b"\x0a\x0aHi", NO_BOX)):
            begin = "Refused: subtitle 1 (SN 7) at 10:00:00:00, row 22: " \
                f"{why.replace('Hi', 'HiÖ')}; 3 faults in all"
            for has_recording, judged in self.judge_text(text):
                name = f"{text!r} {has_recording}"
                line = "refused not shown block 1"
                self.check(name, (judged.timed_verdict, judged.result["sentence"][:len(begin)],
                                  judged.result["worst_fault"], judged.printed[-1]),
                           ("refused", begin, line, line))
                self.must(f"{name}: manual", judged.printed[-2].endswith(
                    " See docs/manual/refusals.md#not-shown."), judged.printed)
                self.check(f"{name}: faults", [
                    (item["name"], item["number"], item["block"], item["subtitle"]["position"])
                    for item in judged.result["faults"]],
                    [("not shown", None, at, at) for at in (1, 2, 3)])
                self.check(f"{name}: warnings", self.list_hidden_warnings(judged), [])

    def test_warns_of_subtitles_that_some_receivers_do_not_show(self) -> None:
        message = f"subtitle 1 (SN 7) at 10:00:00:00, row 22: {ONE.replace('Hi', 'HiÖ')}"
        for text, warnings in ((b"\x0bHi", [message]), (b"Hi", [])):
            for has_recording, judged in self.judge_text(text):
                self.check(f"{text!r} {has_recording}",
                           (judged.timed_verdict, self.list_hidden_warnings(judged)[:1]),
                           ("accepted" if has_recording else "valid", warnings))

    def test_warns_of_subtitles_that_a_layout_hides_from_some_receivers(self) -> None:
        stl = write_programme(self, TIMES[:3], text=b"Hi\xc8O", first=7)
        judged = judge_files(self, stl, "--option", "german", "--layout", "before=0B")
        self.check("kinds", [item["kind"] for item in judged.result["warnings"]], ["hidden"] * 3)

    def test_a_severity_file_waives_invisible_rows(self) -> None:
        mild = self.write("mild", b"not shown warning\n")
        judged = judge_files(self, write_programme(self, TIMES[:3], text=b"\x1dHi"),
                             "--severity", mild)
        self.check("verdict and severities", (judged.timed_verdict, {
            item["severity"] for item in judged.result["faults"]}), ("waived", {"warning"}))


JPEG_2000 = 0x21  # stream_type of a video format that is not supported


class OffFramePts(ProgrammeCase):
    """A programme in which the PTS of some PES packets are not a whole number of frames apart.

    Two of three subtitles are followed by another without a pause.
    """

    cues = [(FIRST_TCI + 100 * at, FIRST_TCI + 100 * at + (100 if at % 3 else 60))
           for at in range(10)]

    def shift_pts(self, sent: SentPes, places: slice, ticks: int) -> SentPes:
        shifted = range(len(sent))[places]
        return [(pts + ticks * (at in shifted), some) for at, (pts, some) in enumerate(sent)]

    def test_the_sentence_names_the_largest_distance_from_a_frame(self) -> None:
        # The indexes of the PES packets whose PTS are shifted, by how many ticks, and the distance
        # in the sentence
        for name, (places, ticks, distance) in {
                "every second from index 1 on": (slice(1, None, 2), 1, "1 tick (0.01 ms)"),
                "every second from index 0 on": (slice(0, None, 2), 1, "1 tick (0.01 ms)"),
                "every third": (slice(0, None, 3), 900, "900 ticks (10.00 ms)"),
                "every fifth, early": (slice(2, None, 5), -450, "450 ticks (5.00 ms)"),
                "only the last": (slice(-1, None), 7, "7 ticks (0.08 ms)"),
                "only one, with a page change": (slice(8, 9), 90, "90 ticks (1.00 ms)")}.items():
            sent = self.shift_pts(self.sent, places, ticks)
            judged = self.judge(sent, "--every", "25")
            sentence = judged.verdict.sentence
            self.check(f"{name}: begins", sentence.startswith("Refused: from PES packet "), True)
            self.check(f"{name}: distance", " on, PTS differ from the times of their frames by up "
                       f"to {distance}" in sentence, True)
            self.check(f"{name}: advised options", [
                option for option in ADVICE_OPTIONS
                if option in "".join([sentence, *judged.result["hints"]])], [])
            self.check(f"{name}: with a tolerance", self.judge(
                sent, "--every", "26", "--within", "1").timed_verdict, "accepted")

    def test_a_subtitle_that_was_never_sent_is_named_before_pts_off_frames(self) -> None:
        begin, end = (TICKS * frame for frame in self.cues[6])
        without_7 = [(pts, some) for pts, some in self.sent if not begin <= pts < end]
        sentence = self.judge(self.shift_pts(without_7, slice(2, 3), 9),
                              "--every", "25").verdict.sentence
        self.check("subtitle", sentence.startswith("Refused: subtitle 7 at "), True)
        self.check("cause", "was never sent" in sentence, True)


class EarlyFirstSubtitle(ProgrammeCase):
    """A programme whose first page is also sent 25 frames before its TCI."""

    cues = [(FIRST_TCI + 100 * at, FIRST_TCI + 100 * at + 60) for at in range(10)]

    def test_names_an_early_first_subtitle_if_its_rows_follow_within_a_frame(self) -> None:
        pts, page = self.sent[0]
        early, blank = (pts - 25 * TICKS, page), (pts - 26 * TICKS, [page[0], page[-1]])
        name_it = 'subtitle 1 at 10:00:00:00, "Number 1", appeared 25 frames early.'
        # The ticks from the header of each page to its rows, and what the sentence reports
        for ticks, reported in ((0, name_it), (TICKS // 2, name_it), (
                TICKS, "at 10:00:00:00, the page is still open: no other header terminates it; 2 "
                "faults in all: 72 Content and 77 Incomplete.")):
            for name, sent in (("no page before", [early, *self.sent]),
                               ("a blank page before", [blank, early, *self.sent])):
                judged = self.judge([part for pts, some in sent for part in (
                    [(pts, some[:1]), (pts + ticks, some[1:])] if ticks and len(some) > 2
                    else [(pts, some)])], "--every", "27", "--within", "1")
                self.check(f"{name}, {ticks} ticks", judged.sentence, f"Refused: {reported}")


class NoClock(ProgrammeCase):
    """A programme that is judged without a clock."""

    qc_args = ("--every", "25")

    def test_advises_start_only_if_the_video_has_a_supported_format(self) -> None:
        first, pes = TICKS * 40, join_pes_packets(self.sent)
        mpeg_2 = add_pictures(pes, first).data
        jpeg_2000 = add_pictures(pes, first, JPEG_2000, make_mpeg_2_picture()).data
        for name, data, is_start in (("PES packets", pes, False), ("MPEG-2", mpeg_2, True),
                                     ("JPEG 2000", jpeg_2000, False)):
            judged = judge_files(self, self.stl, self.write("one", data), *self.qc_args)
            advice = judged.verdict.sentence.partition(" was not checked: ")[2]
            self.check(f"{name}: verdict", judged.verdict.word, "relative")
            self.check(f"{name}: --start, --origin", ("--start" in advice, "--origin" in advice),
                       (is_start, True))
