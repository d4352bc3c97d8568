"""Test tools/read: stored pages, cut and joined pages, verdicts and complete calls."""
from __future__ import annotations

import hashlib
import itertools
import json
import os
import shlex
import time
from types import SimpleNamespace
from typing import Any, Iterable, cast
from unittest import mock

from developing import TOOLS
from developing.pes import decode_pts, encode_triplet, make_packet, make_pes_packet
from subtitles.cli.single import lock_pair
from subtitles.common.checks import OPTION, OUTSIDE
from subtitles.common.times import CLOCK, FRAMES_OF_A_DAY, Spans, TICKS
from subtitles.formats.layout import PLAIN, draw_text, make_page_rows
from subtitles.formats.stl_writer import (
    READ_PUBLISHER, StoredPage, make_gsi_block, make_subtitle_blocks, store_page)
from subtitles.formats.teletext import (
    CROATIAN, ENGLISH, GERMAN, OPTIONS, OPTION_BY_WORD, NationalOption)
from subtitles.judging.cues import CERTAIN, NOT_CERTAIN
from subtitles.judging.status import (
    ACCEPTED, AS_SHOWN, CheckSummary, Grounds, NOT_READ, REFUSED, Severity, WITH_FAULTS,
    decide_reading)
from subtitles.reading.judge import AFTER, BEFORE, is_trusted, list_doubts
from subtitles.recording.dates import find_date, find_times
from subtitles.reading.received import (
    ShownPage, choose_header_option, choose_language, find_header_bits, find_header_range,
    find_likely_errors, find_recorded_day, find_step_back, find_undecided_option, join_late_pages,
    prefer_option, store_pages)
from subtitles.reading.reference import ReferenceVerdict
from subtitles.results.schema import find_misfit
from subtitles.stream.packets import PES, PacketRun, Packets
from subtitles.stream.receiver import BLANK_PAGE, Rows
from .bench import Case, CompletedCall
from .stories import read_vectors, repeat_words
from .streams import Shape, add_pictures, join_packets, make_multiplex, make_stream_of_pids
from .transmissions import (
    CLOSING, HEADER, join_pes_packets, make_numbered_row, make_random_stl, packets, replace_pts)


def make_page(rows: dict[int, bytes]) -> Rows:
    return tuple(rows.get(number, b"").ljust(40) for number in range(1, 25))


def boxed(text: bytes) -> bytes:
    return b"\x0b\x0b" + text + b"\x0a\x0a"


class StoredPages(Case):
    """Pages, and the text, the row and the justification with which subtitle files store them."""

    def test_stores_rows_as_the_text_that_draws_them_or_says_why_it_can_not(self) -> None:
        for row in read_vectors("stored-pages.tsv"):
            pages = (item.split(maxsplit=2) for item in repeat_words(row["page"]).split("; "))
            rows = {int(number): b" " * int(column) + bytes.fromhex(codes)
                    for number, column, codes in pages}
            self.check(row["name"], store_page(make_page(rows), OPTION_BY_WORD[row["option"]]),
                       row["reason"] or StoredPage(int(row["row"]), int(row["justify"]),
                                                   bytes.fromhex(repeat_words(row["text"]))))

    def test_writes_each_field_of_the_gsi_block(self) -> None:
        block = make_gsi_block(b"t" * 33, 5, 3, 979_331, b"08", b"p" * 33, b"991231").decode()
        for row in read_vectors("gsi-block.tsv"):
            size = int(row["bytes"])
            self.check(row["field"], block[:size], row["value"].ljust(size))
            block = block[size:]
        self.check("the rest", block, "")

    def test_numbers_the_blocks_of_a_subtitle(self) -> None:
        for count, numbers in ((0, b"\xff"), (1, b"\xff"), (9, bytes(range(8)) + b"\xff")):
            blocks = make_subtitle_blocks(1, 0, 25, 20, 2, b"a" * count * 112)  # 112 fill a block
            self.check(f"EBN of {count} blocks of 128 bytes", blocks[3::128], numbers)

    def test_draws_each_stored_character_as_its_code(self) -> None:
        national_codes = bytes.fromhex("23 24 40 5B 5C 5D 5E 5F 60 7B 7C 7D 7E")
        for option in OPTIONS:
            unknown = [code for code, text in zip(national_codes, option.cells.split())
                       if text == "-"]
            self.check(option.word, [code for code in range(0x20, 0x7F)
                                     if not self.is_drawn(code, option)], unknown)

    @staticmethod
    def is_drawn(code: int, option: NationalOption) -> bool:
        rows = make_page({12: boxed(b"A" + bytes([code]) + b"A")})
        stored = store_page(rows, option)
        if isinstance(stored, str):
            return False
        drawn = draw_text(stored.text, stored.row, stored.justify, PLAIN, option)
        return isinstance(drawn, list) and make_page_rows(drawn) == rows


ONE, TWO = make_page({22: b"\x0bOne"}), make_page({21: b"\x0bTwo", 22: b"\x0bOne"})
BLANK = BLANK_PAGE


def show_in_turn(pages: Iterable[Rows]) -> list[ShownPage]:
    """Return pages that are each shown for a frame."""
    return [ShownPage(at, at + 1, rows, "") for at, rows in enumerate(pages)]


class ReceivedPages(Case):
    """Pages that `read` decoded, and what it decides about their cues, text and language."""

    def test_joins_pages_whose_rows_come_late(self) -> None:
        # --within, and the first frames of the pages; the last page ends with frame 100
        def join(within: int, *parts: tuple[int, Rows]) -> list[tuple[int, int, Rows]]:
            ends = [*(begin for begin, _ in parts[1:]), 100]
            pages = [ShownPage(begin, end, rows, "") for (begin, rows), end in zip(parts, ends)]
            return [item[:3] for item in join_late_pages(pages, within)]

        for name, joined, expected in (
                ("nothing without --within", join(0, (0, ONE), (5, BLANK), (6, ONE)),
                 [(0, 5, ONE), (5, 6, BLANK), (6, 100, ONE)]),
                ("a repeat", join(1, (0, ONE), (5, BLANK), (6, ONE)), [(0, 100, ONE)]),
                ("a longer pause", join(1, (0, ONE), (5, BLANK), (7, ONE)),
                 [(0, 5, ONE), (5, 7, BLANK), (7, 100, ONE)]),
                ("a row later", join(1, (0, BLANK), (5, ONE), (6, TWO)),
                 [(0, 5, BLANK), (5, 100, TWO)]),
                ("a repeat in three steps", join(1, (0, TWO), (5, BLANK), (6, ONE), (7, TWO)),
                 [(0, 100, TWO)]),
                ("a pause between others", join(2, (0, ONE), (5, BLANK), (6, TWO)),
                 [(0, 5, ONE), (5, 6, BLANK), (6, 100, TWO)])):
            self.check(name, joined, expected)

    def test_finds_the_day_of_a_recording(self) -> None:
        evening, noon = FRAMES_OF_A_DAY - 100, FRAMES_OF_A_DAY // 2
        # The first frame, the number of frames, and the frame with which the day begins
        for name, first, count, expected in (
                ("until a frame before midnight", evening, 99, 0),
                ("until midnight", evening, 100, noon), ("over midnight", evening, 200, noon),
                ("from midnight on", 0, 100, 0)):
            sent = Packets(PES, [PacketRun(0, count, TICKS * first, TICKS, "h", "")])
            self.check(name, find_recorded_day(sent, (0, count - 1), 0), expected)

    def test_finds_the_first_step_back_of_a_frame_or_more(self) -> None:
        def find(*runs: tuple[int, ...]) -> int | None:
            """Search runs given by length, first PTS, step in ticks, and fault if they have one."""
            firsts = itertools.accumulate((length for length, *_ in runs), initial=0)
            sent = [PacketRun(first, run[0], run[1], run[2], "h", "", fault=sum(run[3:]))
                    for first, run in zip(firsts, runs)]
            return find_step_back(Packets(PES, sent), (0, 99))

        self.check_rows(find, {
            "a tick less than a frame": (((1, TICKS - 1, 0), (1, 0, 0)), None),
            "a frame": (((1, TICKS, 0), (1, 0, 0)), 1),
            "after the last of a run": (((9, 0, TICKS), (1, 7 * TICKS, 0)), 9),
            "not read": (((1, TICKS, 0), (1, 0, 0, 33), (1, TICKS, 0)), None),
            "in a run": (((2, 9 * TICKS, TICKS), (4, 11 * TICKS, -TICKS)), 3),
            "over the wrap": (((1, CLOCK - TICKS, 0), (1, 0, 0)), None)})

    def test_takes_the_option_of_most_headers(self) -> None:
        runs = [PacketRun(0, 1, 0, 0, "h", "88080810+88080810"),
                PacketRun(1, 3, TICKS, TICKS, "h", "88080818"),
                PacketRun(4, 9, TICKS, TICKS, "h", "88080810", fault=33)]
        self.check("C12 to C14", find_header_bits(Packets(PES, runs), (0, 12)), GERMAN.bits)

    def test_begins_with_the_first_header_that_can_be_read(self) -> None:
        runs = [PacketRun(0, 1, 0, 0, "h", "", fault=33), PacketRun(1, 1, None, 0, "h", ""),
                PacketRun(2, 1, 0, 0, "", ""), PacketRun(3, 2, 0, TICKS, "h", "")]
        self.check("PES packets", find_header_range(Packets(PES, runs), None), (3, 4))

    def test_finds_adjoining_pages_that_differ_in_few_characters(self) -> None:
        letter, letters, three, longer = (make_page({22: b"\x0b" + text}) for text in (
            b"Onf", b"Off", b"Eff", b"Ones"))
        for name, rows, expected in (
                ("a letter", [TWO, ONE, letter], {1, 2}), ("two letters", [ONE, letters], {0, 1}),
                ("three letters", [ONE, three], {}), ("a row", [ONE, TWO], {}),
                ("a letter more", [ONE, longer], {}), ("a pause", [ONE, BLANK, letter], {})):
            pages = [page for page in show_in_turn(rows) if page.rows != BLANK]
            self.check(name, find_likely_errors(pages), {*expected})

    def test_chooses_the_option_by_the_headers_and_the_announcement(self) -> None:
        for row in read_vectors("header-options.tsv"):
            options = choose_header_option(int(row["C12 to C14"]), row["languages"].split()).options
            self.check(row["name"], " ".join(option.word for option in options), row["options"])

    def test_prefers_the_languages_of_a_given_option(self) -> None:
        self.check_rows(prefer_option, {
            "no option": ((["eng", "pol"], None), ["eng", "pol"]),
            "announced": ((["eng", "srp", "hrv"], CROATIAN), ["srp", "hrv", "eng"]),
            "not announced": ((["eng"], CROATIAN), ["hrv", "eng"])})

    def test_takes_the_undecided_option_that_can_store_all_pages(self) -> None:
        polish, mosaic = make_page({22: boxed(b"kt\x7e")}), make_page({22: b"\x0b\x11a"})
        for name, rows, word in (
                ("both can", [ONE], "english"), ("one can", [ONE, polish], "polish"),
                ("one can most", [polish, mosaic], "polish"), ("none can", [mosaic], "english")):
            sent, pages = store_pages(choose_header_option(0, []), show_in_turn(rows))
            self.check(f"{name}: option", (sent.options[0].word, len(sent.options)), (word, 2))
            self.check(f"{name}: stored", [item.is_written for item in pages],
                       [item != mosaic for item in rows])

    def test_lists_pages_whose_characters_no_option_decides(self) -> None:
        shown = {"One": ONE, "Two": TWO, "#5": make_page({22: b"\x0b#5"})}
        for row in read_vectors("undecided-options.tsv"):
            languages = row["languages"].split()
            found = find_undecided_option(
                choose_header_option(int(row["C12 to C14"]), languages), languages,
                show_in_turn(shown[text] for text in row["pages"].split()))
            self.check(row["name"], [(item.kind, item.text) for item in found],
                       [(OPTION, row["entry"])] if row["entry"] else [])

    def test_chooses_the_language_by_the_announcement_and_the_headers(self) -> None:
        for row in read_vectors("read-languages.tsv"):
            self.check(row["name"], choose_language(
                row["announced"].split(), OPTION_BY_WORD[row["option"]]), row["LC"].encode())


class Decisions(Case):
    def test_trusts_no_frame_of_a_loss_without_a_gap_marker(self) -> None:
        part: Any = SimpleNamespace(trusted_frames=Spans([(6, 9), (13, 98), (100, 199)]))
        part.unmarked_losses = Spans([(3, 5), (10, 12), (99, 99), (200, 201)])
        reading: Any = SimpleNamespace(first=5, last=200)
        for verdict in ACCEPTED, REFUSED:
            part.check_output = SimpleNamespace(verdict=verdict)
            self.check(verdict, [frame for frame in range(300) if not is_trusted(
                part, reading, frame)], [5, 10, 11, 12, 99, 200])
        reading.written_pages = [SimpleNamespace(begin=begin, end=end, cut="") for begin, end in (
            (5, 9), (5, 10), (13, 20), (14, 20))]
        self.check("subtitles next to it", dict(list_doubts(part, reading)), {2: AFTER, 3: BEFORE})

    def test_decides_the_verdict(self) -> None:
        other_answers: dict[str, list[CheckSummary]] = {
            "accepted": [CheckSummary(0, True)], "not ended": [CheckSummary(None)], "no part": []}
        for row in read_vectors("reading-verdicts.tsv"):
            numbers = [] if row["check"] in other_answers else [*map(int, row["check"].split())]
            refused = CheckSummary(1, False, len(numbers), len(numbers), {*numbers})
            grounds = Grounds(
                other_answers.get(row["check"], [refused]),
                Severity(None, is_loss_allowed=row["allow lost"] == "yes"),
                judged_losses=[True] * (row["lost"] == "yes"), error_kinds=row["error"].split(),
                named_faults=[*filter(None, [row["named fault"]])], has_clock=True,
                missing_kinds=row["not made"].split())
            result = decide_reading(grounds, row["cut"] == "yes", int(row["not trusted"]))
            self.check(row["name"], f"{result.word}, {result.status}", row["verdict"])


GERMAN_HEADER = make_packet(0, 0, [8, 8, 0, 8, 0, 8, 1, 8], b" " * 32)
RESERVED_OPTION = make_packet(0, 0, [8, 8, 0, 8, 0, 8, 1, 14], b" " * 32)
OTHER_SUBCODE = make_packet(0, 0, [8, 8, 1, 8, 0, 8, 1, 0], b" " * 32)
NEXT_PAGE = make_packet(0, 0, [9, 8, 0, 8, 0, 8, 1, 0], b" " * 32)
KEEPING_HEADER = make_packet(0, 0, [8, 8, 0, 0, 0, 8, 1, 0], b" " * 32)  # C4 clear: fault 67
ROW = make_numbered_row(22, b"Good evening.")
TEXT, NO_TEXT = [HEADER, ROW, CLOSING], [HEADER, CLOSING]  # page transmissions
# M/29: region 1, so that receivers above level 1 show other characters
OTHER_SET = make_packet(0, 29, [0], b"") + encode_triplet(0x400) + encode_triplet(0) * 12
TRANSMISSIONS = {
    "text": TEXT, "blank": NO_TEXT, "other": [HEADER, make_numbered_row(21, b"No"), CLOSING],
    "row 24": [HEADER, make_packet(0, 24, (), b"x" * 40), CLOSING], "no header": [CLOSING],
    "not closed": [HEADER, ROW], "German text": [GERMAN_HEADER, ROW, CLOSING],
    "reserved with #": [RESERVED_OPTION, make_numbered_row(22, b"#"), CLOSING],
    "reserved": [RESERVED_OPTION, CLOSING], "sub-page 1": [OTHER_SUBCODE, ROW, CLOSING],
    "character set": [OTHER_SET]}


def read_transmissions(text: str) -> list[tuple[int, list[bytes]]]:
    """Return the frames and packets of transmissions in a table, such as `0 text, 25 blank`."""
    parts = (item.partition(" ") for item in text.split(", "))
    return [(int(frame), TRANSMISSIONS[name]) for frame, _, name in parts]


def schedule_random_programme(case: Case) -> str:
    stl = case.write("one.stl", make_random_stl(1)[0])
    return case.schedule(stl, "sent.pes", "--every", "25")


class WholeCalls(Case):
    """Calls of tools/read, which writes out/888.stl and out/888.json for page 888."""

    def read_pages(self, *args: str) -> CompletedCall:
        return self.tool("read", *args, "-o", "out")

    def result(self, name: str = "888") -> dict[str, Any]:
        result: dict[str, Any] = json.loads(self.read(f"out/{name}.json"))
        self.check("the schema", find_misfit(result), None)
        return result

    def list_verdicts(self) -> list[str]:
        return [row["verdict"] for row in self.result()["subtitles"]]

    def send(self, *transmissions: tuple[int, list[bytes]]) -> str:
        """Write PES packets with the given frames and Teletext packets. Return their path."""
        return self.write("sent.pes", join_pes_packets([
            (TICKS * frame, item) for frame, item in transmissions]))

    def test_reads_back_random_programmes(self) -> None:
        for seed in range(4):
            stl = self.write("one.stl", make_random_stl(seed)[0])
            layout = ["--layout", "before=0D0B0B,row=-1"] if seed % 2 else []
            sent = self.schedule(stl, "sent.pes", "--every", "25", *layout)
            call = self.read_pages(sent, "--origin", "0")
            self.check(f"{seed}", (call.status, self.result()["verdict"]), (0, AS_SHOWN))
            again = self.schedule(self.path("out/888.stl"), "again.pes", "--every", "25")
            status, lines = self.program("check", stl, again, *layout)
            self.must(f"{seed}: the source accepts it", status == 0, lines)
            rows = self.result()["subtitles"]
            self.must(f"{seed}: certain, but for the first", all(
                row["verdict"] == (NOT_CERTAIN if row["cut"] else CERTAIN) for row in rows), rows)

    def test_reports_the_source_of_the_times(self) -> None:
        sent = join_pes_packets([(90_000 + TICKS * frame, item) for frame, item in (
            (0, NO_TEXT), (25, TEXT), (50, NO_TEXT))])
        self.write("sent.pes", sent)
        self.write("sent.ts", add_pictures(sent, 90_000).data)
        # The arguments, the source of the clock, the first in-cue, the last frame, and the sentence
        for args, clock, begin, last, text in (
                (("sent.pes",), "first_pes", "00:00:01:00", "00:00:02:00", "from the first PES "
                 "packet, which is at 00:00:00:00 (--origin 90000)."),
                (("sent.pes", "--origin", "0"), "given", "00:00:02:00", "00:00:03:00",
                 "as given (--origin 0)."),
                (("sent.ts", "--start", "10:00:00:00"), "start", "10:00:01:00", "10:00:02:00",
                 "by the first picture (--origin 5350024592).")):
            call = self.read_pages(*args)
            result = self.result()
            source, cue = result["parts"][0]["clock"]["source"], result["subtitles"][0]
            is_listed = "read: not checked: the time of day: no clock was given, so the first " \
                "PES packet is at 00:00:00:00" in call.errors
            self.must(f"{args}: {text}", f" Times are {text} " in result["sentence"] and (
                " on PID 0x101 (eng), " in result["sentence"]) == ("sent.ts" in args), result)
            self.check(" ".join(args), (call.status, source, cue["expected_in"], is_listed),
                       (0, clock, begin, clock == "first_pes"))
            self.check(f"{args}: the last frame, and the first in-cue in the TCF", (
                result["reading"]["to"], self.read("out/888.stl")[264:272].decode()),
                (last, begin.replace(":", "")))
        call = self.read_pages("sent.pes", "--start", "10:00:00:00")
        self.check("no picture", (call.status, self.result()["verdict"]), (2, NOT_READ))

    def test_marks_what_the_recording_cuts(self) -> None:
        for row in read_vectors("reading-cuts.tsv"):
            name, cuts = row["name"], row["cuts"].split()
            call = self.read_pages(self.send(*read_transmissions(row["sent"])))
            result = self.result()
            self.check(name, (call.status, [item["cut"] for item in result["subtitles"]],
                              self.list_verdicts()), (0, cuts, [NOT_CERTAIN] * len(cuts)))
            self.check(f"{name}: a note", ("the page was blank all the time" in result["notes"],
                                           result["hints"]), (not cuts, []))

    def test_reports_why_the_subtitle_file_may_be_wrong(self) -> None:
        for row in read_vectors("reading-faults.tsv"):
            self.send(*read_transmissions(row["sent"]))
            call = self.read_pages("sent.pes", *row["options"].split())
            page = "889" if "--page 889" in row["options"] else "888"
            result, line = self.result(page), row["line"].replace("READ", os.path.join(
                TOOLS, "read"))
            self.check(row["name"], (call.status, result["status"], result["reason"]
                                     or result["line"], result["sentence"]),
                       (int(row["status"]), int(row["status"]), line, row["sentence"]))
            lines = [f"{page} {NOT_READ}: {line}"] if call.status == 2 else [
                row["sentence"] + " See out/888.html." * (call.status == 1), line]
            self.check(f"{row['name']}: last lines",
                       call.out.decode().splitlines()[-len(lines):], lines)
            self.check(f"{row['name']}: the option", any(
                "not checked: the characters of" in text for text in call.errors),
                line.endswith("option"))
            self.check(f"{row['name']}: counts", not result["subtitle_counts"], call.status == 2)
            if row["name"] == "row 24":
                fault = result["faults"][0]
                self.check("counts, times", [
                    result["subtitles"], result["subtitle_counts"], result["reading"]["shown"],
                    result["reading"]["written"], fault["time"], fault["last_time"]],
                    [[], {"judged": 0, "refused": 1}, 1, 0, "00:00:01:00", "00:00:01:24"])

    def test_exits_with_the_worst_status_of_all_pages(self) -> None:
        self.send((0, [HEADER, ROW, NEXT_PAGE, ROW, CLOSING]),
                  (25, [KEEPING_HEADER, ROW, NEXT_PAGE, ROW, CLOSING]),
                  (50, [HEADER, NEXT_PAGE, CLOSING]))
        with lock_pair(self.path("out"), "889"):
            self.check("the second is in use", self.read_pages("sent.pes").errors, [
                "read: another run of qc is writing the files of pair 889 to out"])
        self.write("out/889.1.txt", b"")
        call = self.read_pages("sent.pes")
        self.check("statuses", (call.status, self.result("888")["status"],
                                self.result("889")["status"]), (1, 1, 0))
        self.must("an earlier result", not os.path.exists(self.path("out/889.1.txt")))
        self.check("last lines", [line.partition(":")[0] for line
                                  in call.out.decode().splitlines()[-2:]],
                   [f"888 {WITH_FAULTS}", f"889 {AS_SHOWN}"])

    def test_reports_a_jump_of_the_pcr_and_another_character_set_as_faults(self) -> None:
        pes = [make_pes_packet(TICKS * frame, NO_TEXT) for frame in range(100, 250, 25)]
        other = make_pes_packet(TICKS * 125, [*NO_TEXT, OTHER_SET])
        jump = "clock jump", "00:00:02:00"
        for line, sent, faults in (
                ("clock jump, the clock jumps by 3.00 s at 00:00:02:00", pes, [jump]),
                ("character set, packet 8/29/0 names character set 000 of region 0001",
                 [pes[0], other, *pes[2:]], [jump, ("character set", None)])):
            self.write("jump.ts", join_packets(make_multiplex(sent, Shape(jump=(60, 3 * 90_000)))))
            call, result = self.read_pages("jump.ts"), self.result()
            self.must(line, call.status == 1 and result["line"].startswith(
                f"{WITH_FAULTS}: {line}"), result["line"])
            self.check(f"{line}: faults", [(item["name"], item["time"])
                                           for item in result["faults"]], faults)
            self.check(f"{line}: no warning", {"clock_jump", "character_set"}.intersection(
                item["kind"] for item in result["warnings"]), set())

    def test_names_the_pes_packets_that_it_does_not_read(self) -> None:
        self.send((0, [CLOSING]), (25, [CLOSING]), (30, NO_TEXT), (50, TEXT), (75, NO_TEXT))
        # The value of --pes, the first in-cue, how many PES packets are read, and the others
        for pes, begin, count, others in (
                ("0-99", "00:00:02:00", 3, (
                    "00:00:00:00", "00:00:01:00", "2 PES packets before the first header of the "
                    "page, from 00:00:00:00 to 00:00:01:00")),
                ("3-99", "00:00:00:00", 2, (None, None, "3 PES packets outside of --pes 3-99"))):
            call, result = self.read_pages("sent.pes", "--pes", pes), self.result()
            self.check(f"{pes}: range", (call.status, [
                (item["matches"], item["total"], item["line"]) for item in result["choices"]
                if item["option"] == "pes"]), (0, [(count, 5, f"range: {count} of 5 PES packets, "
                                                    "from the first header of the page on")]))
            self.check(f"{pes}: others", (result["subtitles"][0]["expected_in"], *(
                (item["from"], item["to"], item["text"]) for item in result["not_checked"]
                if item["kind"] == OUTSIDE)), (begin, others))
            self.must(f"{pes}: line", f"read: not checked: {others[2]}" in call.errors, call)

    def test_reports_which_subtitles_may_differ_from_what_receivers_show(self) -> None:
        not_stored = [[HEADER, make_packet(0, 24, (), text * 40), CLOSING] for text in (b"x", b"y")]
        enhanced = [HEADER, ROW, make_packet(0, 26, [0], b"") + encode_triplet(0) * 13, CLOSING]
        other = [HEADER, make_numbered_row(22, b"Good evening!"), CLOSING]
        self.send(*((25 * at, item) for at, item in enumerate((
            NO_TEXT, *not_stored, NO_TEXT, TEXT, NO_TEXT, other, enhanced, NO_TEXT))))
        self.check("status", self.read_pages("sent.pes").status, 1)
        result = self.result()
        self.check("count", (result["reading"]["enhanced"], result["reading"]["certain"],
                             self.list_verdicts()), (1, 3, [CERTAIN] * 3))
        self.must("sentence", "5 subtitles, 3 certain" in result["sentence"], result["sentence"])
        # The reason, whether each subtitle of the file has it, and the note
        for reason, expected, note in (
                ("packets X/26", [False, False, True], "1 subtitle, first at 00:00:07:00: packets"),
                ("differs from", [False, True, True], "2 subtitles, first at 00:00:06:00: it")):
            self.check(reason, [reason in str(row["reason"]) for row in result["subtitles"]],
                       expected)
            self.must(f"{reason}: note", any(item.startswith(note) for item in result["notes"]),
                      result["notes"])

    def test_is_not_certain_of_a_subtitle_next_to_a_loss(self) -> None:
        # Four subtitles in a stream; the third is shown from frame 150 to 200.
        frames = {at: NO_TEXT for at in range(0, 300, 5)}
        frames |= {at: TEXT for at in (*range(20, 40, 5), *range(60, 100, 5), *range(150, 200, 5),
                                       *range(220, 240, 5))}
        sent = join_pes_packets([
            (TICKS * at + 90_000, item) for at, item in sorted(frames.items())])
        whole = make_stream_of_pids((0x101, sent))
        stream = [whole[at:at + 188] for at in range(0, len(whole), 188)]
        begins = [at for at, packet in enumerate(stream) if packet[1:3] == b"\x41\x01"]
        third = [CERTAIN, CERTAIN, NOT_CERTAIN, CERTAIN]
        for name, lost_frame, expected in (
                ("before the in-cue", 145, third), ("within", 170, third),
                ("after the out-cue", 200, third), ("in a pause", 120, [CERTAIN] * 4)):
            at = begins[lost_frame // 5]
            self.write("lost.ts", b"".join(stream[:at] + stream[at + 1:]))
            for words in ((), ("--allow-lost",)):
                call = self.read_pages("lost.ts", *words)
                self.check(f"{name} {words}", (
                    call.status, self.list_verdicts(), self.result()["reading"]["certain"]),
                    (1, expected, expected.count(CERTAIN)))

    def test_reports_a_file_of_which_the_rest_can_not_be_read(self) -> None:
        data = self.read(schedule_random_programme(self))
        pes = packets(data)
        broken = bytearray(data)
        broken[len(b"".join(pes[:10])) + 5] ^= 1
        # The file, and how many of its PES packets can be read
        for name, content, count in (("a wrong length", bytes(broken), 11),
                                     ("no end", data[:-50], len(pes) - 1)):
            self.write("a.pes", content)
            for args, is_fault in (((), True), (("--pes", f"0-{count}"), True),
                                   (("--pes", f"0-{count - 1}"), False)):
                call, faults = self.read_pages("a.pes", *args), self.result()["faults"]
                self.check(f"{name} {args}", call.status == 1 and faults[0]["name"] == "ends early",
                           is_fault)

    def test_asks_for_the_pid_if_the_page_is_on_two(self) -> None:
        data = self.read(schedule_random_programme(self))
        other = self.read(self.schedule(self.path("one.stl"), "other.pes", "--page", "777"))
        self.write("two.ts", make_stream_of_pids((0x101, data), (0x102, data), (0x103, other)))
        call = self.read_pages("two.ts")
        reason = self.result()["reason"]
        self.must("both", call.status == 2 and "page 888 is sent on 2 PIDs" in reason, call)
        line = reason.splitlines()[0]
        self.check("sentence, last line", [self.result()["sentence"], call.out.decode(
            ).splitlines()[-1]], [f"Not read: {line}.", f"888 {NOT_READ}: {line}"])
        command = f"{os.path.join(TOOLS, 'read')} two.ts --page 888 --pid"
        self.must("commands", all(f"{command} {pid}" in line for pid, line in zip(
            ("0x101", "0x102"), call.errors[-2:])), call)
        self.check("one", self.read_pages("two.ts", "--pid", "0x102").status, 0)

    def test_reads_all_pages_in_two_runs_of_survey(self) -> None:
        sent = []
        for seed, name in enumerate(["777", "888"]):
            stl = self.write("one.stl", make_random_stl(seed)[0])
            data = self.read(self.schedule(stl, "a.pes", "--every", "25", "--page", name))
            first = decode_pts(data)
            sent.append(replace_pts(data, lambda _, pts: pts - first + 90_000))
        recording = self.write("two.ts", make_stream_of_pids(*zip((0x101, 0x102), sent)))
        program = self.make_program_with_exception("survey*two.ts", "echo $* >>calls")
        self.check("status", self.read_pages(recording, "-p", program).status, 0)
        self.check("pages of the first and second", [line.count(b"--page") for line in
                                            self.read("calls").splitlines()], [1, 2])
        for name in ("777", "888"):
            self.tool("read", recording, "--page", name, "-o", "one")
            self.check(name, self.read(f"out/{name}.stl"), self.read(f"one/{name}.stl"))
        self.tool("read", recording, "--pid", "0x102", "-o", "pid")
        self.check("the pages of a PID", sorted(os.listdir(self.path("pid"))),
                   ["888.html", "888.json", "888.stl", "888.txt"])

    def test_gives_no_verdict_if_the_recording_changes_meanwhile(self) -> None:
        sent = self.send((0, NO_TEXT), (25, TEXT), (50, NO_TEXT))
        program = self.make_program_with_exception("check*", f"printf x >>'{sent}'")
        call = self.read_pages("sent.pes", "-p", program)
        self.check("status, reason", (call.status, self.result()["reason"]), (
            2, "sent.pes changed while it was judged: judge it again when it is complete"))

    def test_replaces_only_its_own_files(self) -> None:
        sent = self.send((0, NO_TEXT), (25, TEXT), (50, NO_TEXT))
        self.check("first", self.read_pages(sent).status, 0)
        self.write("out/888.1.txt", b"")
        self.check("again", (self.read_pages(sent).status, sorted(os.listdir(self.path("out")))),
                   (0, ["888.html", "888.json", "888.stl", "888.txt"]))
        self.read_pages(sent, "--option", "german")
        self.check("files if it is not read", sorted(os.listdir(self.path("out"))),
                   ["888.html", "888.json"])
        self.write("out/888.stl", READ_PUBLISHER + make_random_stl(1)[0])  # at another place
        call = self.read_pages(sent)
        self.must("of the operator", call.status == 2 and "was not written by" in
                  "".join(call.errors), call)


DAY_2000 = (51544).to_bytes(2, "big")  # the modified Julian date of 1 January 2000
FEBRUARY_2001 = 981_173_106, 981_173_106  # atime and mtime: 3 February 2001


class WrittenFiles(Case):
    @mock.patch.dict(os.environ, TZ="WEST5")  # five hours behind UTC: still 2 February
    def test_takes_the_date_from_the_tdt(self) -> None:
        self.addCleanup(time.tzset)
        time.tzset()
        # A TS packet on PID 0x14, and the date YYMMDD, without a TDT that of the file: 010203
        table = b"\x70\x70\x05" + DAY_2000 + b"\x12\x34\x56"
        other = b"\x71\x70\x05\xff\xff\x12\x34\x56"
        null = b"\x47\x1f\xff\x10".ljust(188, b"\xff")
        path = self.write("one.ts", b"")
        os.utime(path, FEBRUARY_2001)
        for name, packet, date in (
                ("a TDT", b"\x47\x40\x14\x10\x00" + table, b"000101"),
                ("a TOT", b"\x47\x40\x14\x1f\x00\x73" + table[1:], b"000101"),
                ("after a pointer", b"\x47\x40\x14\x10\x02\xff\xff" + table, b"000101"),
                ("an adaptation field", b"\x47\x40\x14\x31\x02\x00\xff\x00" + table, b"000101"),
                ("another table", b"\x47\x40\x14\x10\x00" + other, b"010203"),
                ("no decimal digits", b"\x47\x40\x14\x10\x00" + table[:-1] + b"\x5a", b"010203"),
                ("no payload", b"\x47\x40\x14\x20\x00" + table, b"010203"),
                ("no section", b"\x47\x00\x14\x10\x00" + table, b"010203"),
                ("a long pointer", b"\x47\x40\x14\x10\xfe" + table, b"010203"),
                ("another PID", b"\x47\x40\x15\x10\x00" + table, b"010203")):
            for size, is_cut in itertools.product((188, 192, 204), (False, True)):
                data = b"".join(item.ljust(size, b"\xff")
                                for item in (null, null, null, packet, null))
                at = 3 * size + 6 if is_cut else len(data)  # the end of the first chunk
                with mock.patch("subtitles.recording.dates.read_chunks", return_value=[
                        data[:at], data[at:]]):
                    self.check(f"{name}, {size}, {at}", find_date(path, size), date)
                    self.check(f"{name}, {size}, {at}: place", {place for place, _ in find_times(
                        path)}, {3 * size} if date == b"000101" else set())
                    self.check(f"{name}: PES packets", find_date(path, 0), b"010203")

    def test_writes_the_same_file_again(self) -> None:
        sent = schedule_random_programme(self)
        for out in ("a", "b"):
            self.check(out, self.tool("read", sent, "-o", out).status, 0)
        self.check("bytes", self.read("a/888.stl"), self.read("b/888.stl"))
        os.utime(sent, FEBRUARY_2001)
        self.tool("read", sent, "-o", "c")
        self.check("the dates", self.read("c/888.stl")[224:236], b"010203010203")

    def test_takes_the_title_from_the_name_of_the_recording(self) -> None:
        """The title has the first 32 characters, in code page 850. The folder is not an option."""
        name = "-in/\xe9" + "n" * 40
        os.mkdir(self.path("-in"))
        os.rename(schedule_random_programme(self), self.path(name))
        self.tool("read", "-o", "out", "--", name)
        self.check("title", self.read("out/888.stl")[16:48], b"\x82" + b"n" * 31)

    def test_writes_the_files_of_qc(self) -> None:
        sent = schedule_random_programme(self)
        data = self.read(sent)
        for name, args, piped in (("a file", [sent], None), ("a pipe", ["-"], data)):
            call = self.tool("read", *args, "--page", "888", "-o", "out", "--json", "1.json",
                             "--csv", "1.csv", "--junit", "1.xml", data=piped)
            self.check(name, (call.status, sorted(os.listdir(self.path("out")))),
                       (0, ["888.html", "888.json", "888.stl", "888.txt"]))
        self.write("888.stl", b"theirs")
        self.tool("read", sent, "--page", "888", "--json", "without -o.json")
        for name in ("without -o.json", "1.json"):
            result = json.loads(self.read(name))
            self.check(f"sum in {name}, subtitle file", (
                result["inputs"]["recording"]["sha256"], result["files_at_start"]["stl"]),
                (hashlib.sha256(data).hexdigest(), None))
        self.check("subtitles", len(self.read("1.csv").splitlines()) - 2, len(result["subtitles"]))
        call = self.tool("qc", "--collect", "out", "--junit", "all.xml")
        self.must("collected", call.status == 0 and b"1 pair: 1 as shown" in call.out, call)
        self.check("the report", self.read("out/888.html").count(b"<td>certain</td>"),
                   len(result["subtitles"]) - 1)


class TwoRecordings(Case):
    """Calls of qc with --reference: two transport streams are compared with each other."""

    def write_stream(self, name: str, frames: list[tuple[int, list[bytes]]]) -> str:
        """Write a stream with pictures, and the transmissions in the given frames."""
        sent = join_pes_packets([(TICKS * frame + 90_000, item) for frame, item in frames])
        return self.write(name, add_pictures(sent, 90_000).data)

    def compare(self, *args: str) -> tuple[int, list[str]]:
        """Return the exit status, and the reason if there is no verdict, or the last two lines."""
        call = self.tool("qc", "--reference", *args, "--every", "100", "-o", "out")
        result = json.loads(self.read("out/b.json"))
        self.check(f"{args}: the schema", find_misfit(result), None)
        self.must(f"{args}: no subtitle is wrong", call.status == 1 or not result["causes"] and all(
            row["verdict"] != "wrong" for row in result["subtitles"]), result["subtitles"])
        self.check(f"{args}: hints", bool(result["hints"]) and call.status != 1, False)
        if result["reason"]:
            return call.status, result["reason"].splitlines()
        self.check(f"{args}: the checksum", result["inputs"]["recording"]["sha256"],
                   hashlib.sha256(self.read("b.ts")).hexdigest())
        return call.status, call.out.decode().splitlines()[-2:]

    def test_compares_what_both_recordings_cover(self) -> None:
        for row in read_vectors("compared-recordings.tsv"):
            for name in ("a.ts", "b.ts"):
                self.write_stream(name, read_transmissions(row[name]))
            self.check(row["name"], self.compare("a.ts", "b.ts", *row["arguments"].split()),
                       (int(row["status"]), [row["sentence"], *filter(None, [row["last line"]])]))
            causes = json.loads(self.read("out/b.json"))["causes"]
            self.check(f"{row['name']}: a cause", bool(causes), " does not " in row["sentence"])

    def test_describes_by_how_much_later_the_pts_are_than_in_the_reference(self) -> None:
        self.check_rows(lambda ticks: ReferenceVerdict.describe_shift(
            cast(Any, SimpleNamespace(shift=ticks))), {
            "nothing": ((0,), "equal to"), "a frame": ((TICKS,), "1 frame later than"),
            "a frame and a tick less": ((-TICKS - 1,), "1 frame and 1 tick earlier than")})

    def test_names_the_subtitles_outside_of_the_common_range(self) -> None:
        self.write_stream("a.ts", [(0, TEXT), (25, NO_TEXT), (50, TEXT), (75, NO_TEXT),
                                   (100, TEXT)])
        self.write_stream("b.ts", [(60, TEXT), (75, NO_TEXT), (100, TEXT), (140, NO_TEXT)])
        os.mkdir(self.path("out"))
        self.write("out/b.1.txt", b"")
        self.compare("a.ts", "b.ts", "--same-start")
        self.must("an earlier result", not os.path.exists(self.path("out/b.1.txt")))
        result = json.loads(self.read("out/b.json"))
        self.check("choices", [item["option"] for item in result["choices"]],
                   ["pid", "pes", "pace"])
        self.check("entries", [
            (item["from"], item["to"], item["text"]) for item in result["not_checked"]
            if item["kind"] == OUTSIDE], [
            ("10:00:04:00", "10:00:05:14", "1 subtitle of b.ts after 10:00:04:00, when one ends"),
            ("10:00:00:00", "10:00:02:24", "2 subtitles of a.ts before 10:00:02:10, when both "
             "recordings have begun")])

    def test_names_subtitles_before_the_reference_without_a_clock(self) -> None:
        """The recording begins 50 frames before the reference, which begins at 00:00:00:00."""
        self.write_stream("a.ts", read_transmissions("60 blank, 75 text, 100 blank"))
        self.write_stream("b.ts", read_transmissions(
            "10 text, 30 blank, 50 other, 75 text, 100 blank"))
        self.check("status", self.compare("a.ts", "b.ts")[0], 3)
        self.check("entries", [
            (item["from"], item["to"], item["text"]) for item in json.loads(self.read(
                "out/b.json"))["not_checked"] if item["kind"] == OUTSIDE], [
            (None, "00:00:00:14", "2 subtitles of b.ts before 00:00:00:15, when both recordings "
             "have begun")])

    def test_says_why_no_recording_is_judged(self) -> None:
        """The files in `theirs` were not written by the tools. two.ts has the pages 888 and 889."""
        self.write_stream("a.ts", [(0, NO_TEXT), (25, TEXT), (50, NO_TEXT)])
        self.write_stream("b.ts", [(0, NO_TEXT), (25, TEXT), (60, NO_TEXT)])
        self.write_stream("two.ts", [(0, [*TEXT[:2], NEXT_PAGE, *TEXT])])
        self.write("copy.ts", self.read("a.ts"))
        self.write("text.txt", b"--every 100\n")
        for folder, name in ("theirs", "b.stl"), ("theirs", "889.json"), ("their stl", "889.stl"):
            os.makedirs(self.path(folder), exist_ok=True)
            self.write(f"{folder}/{name}", b"theirs")
        for row in read_vectors("reading-calls.tsv"):
            call = self.tool(*shlex.split(row["call"]))
            self.check(row["name"], (call.status, " / ".join(call.errors).replace(TOOLS, "TOOLS")),
                       (int(row["status"]), row["messages"]))
