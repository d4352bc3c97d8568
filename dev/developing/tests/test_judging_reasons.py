"""Test the reported reasons for a verdict, and headers that do not erase the page."""
from __future__ import annotations

from developing.pes import make_packet, make_pes_packet
from subtitles.clock.origin import explain_mismatch
from subtitles.common.times import Span, TICKS, format_frame
from subtitles.formats.listing import CONTENT
from subtitles.formats.stl import Subtitle
from subtitles.formats.teletext import CODE_WORDS
from subtitles.judging.causes import (
    CauseFinder, COMPLETED_LATER, EVEN_PARITY, FaultyFrames, NOT_READABLE, OMITTED_BY_REPEAT)
from subtitles.judging.check import CheckOutput
from subtitles.judging.transmissions import (
    ExpectedPages, PageHeader, REPEAT_WITHOUT_ERASE, count_keeping_headers, describe_control_bits,
    describe_effect, describe_header_faults, describe_missing_erase, describe_omitted_rows,
    find_page_headers, name_omitted_rows)
from subtitles.recording.recording import check_pes_header, read_pes_header
from subtitles.stream.gaps import LossPlace, describe_loss, find_loss_places
from subtitles.stream.packets import (
    GapMarker, PCRStep, PacketRun, Packets, find_alternating_subcodes, read_subcode)
from subtitles.stream.receiver import BLANK_PAGE, INITIAL_STATE, Rows, SpanIndex, Timeline
from .bench import Case
from .judged import ProgrammeCase, judge_files
from .stories import read_vectors
from .streams import OLD, TELETEXT_PID, make_stream_with_video, make_planned_stream
from .parts import make_answer, make_example_request, decode_packets
from .transmissions import (
    CLOSING, HEADER, PAGE, SentPes, write_pipe, join_pes_packets, make_numbered_row, subtitle_times)


WORDS = "--every", "100"
OTHER_PAGE = make_packet(0, 0, [0, 0, 0, 8, 0, 0, 0, 0], b" " * 32)  # header of page 800


def set_last_subcode_digit(sent: SentPes, digit: int) -> SentPes:
    """Return the transmission with this digit in the sub-code of each page's header."""
    return [(pts, [header[:4] + bytes([CODE_WORDS[digit]]) + header[5:], *rows])
            for pts, (header, *rows) in sent]


class Reasons(ProgrammeCase):
    """Ten subtitles appear every 100 frames for 60 frames; each page is sent every 25 frames."""

    def test_reports_why_the_page_of_a_frame_is_hidden(self) -> None:
        text = make_numbered_row(20, b"Text")
        even = text[:10] + bytes([text[10] ^ 0x80]) + text[11:]
        page = [HEADER, text, CLOSING]
        rows: dict[str, tuple[SentPes, int, int, str]] = {  # PES packets, --within, frame, reason
            "erased in its frame": ([(0, page), (0, [HEADER, CLOSING])], 1, 0, COMPLETED_LATER),
            "a byte with even parity": ([(0, [HEADER, even, CLOSING])], 1, 0, EVEN_PARITY),
            "a complete page": ([(0, page)], 1, 0, ""),
            "after PTS that go back": ([(7200, page), (3600, page)], 0, 5, NOT_READABLE)}
        for name, (sent, within, frame, reason) in rows.items():
            decoded = decode_packets(self, join_pes_packets(sent), within=within)
            finder = CauseFinder(ExpectedPages([], []), decoded)
            self.check(name, finder.describe_hidden_fault(frame), reason)

    def test_reports_that_all_packets_of_a_pid_are_scrambled(self) -> None:
        data = bytearray(make_stream_with_video(b"".join(self.pes)))
        for at in range(0, len(data), 188):
            if (data[at + 1] & 31, data[at + 2]) == (TELETEXT_PID >> 8, TELETEXT_PID & 255):
                data[at + 3] |= 0x80
        words = f"PID 0x101 is scrambled, in all its {len(self.pes)} TS packets"
        for recording in (self.write("one.ts", data), write_pipe(self, bytes(data))):
            judged = judge_files(self, self.stl, recording)
            self.check(f"{recording}: verdict", judged.timed_verdict, "not judged")
            self.check(f"{recording}: sentence", judged.verdict.sentence,
                       f"Not judged: {recording} has no header of page 888; {words}.")
            self.must(f"{recording}: no advice", "try: " not in "".join(judged.stderr),
                      judged.stderr)

    def set_header_length(self, length: int) -> list[bytes]:
        """Return the PES packets with this PES_header_data_length."""
        return [item[:4] + (len(item) - 6 + length - 36).to_bytes(2, "big") + item[6:8]
                + bytes([length]) + item[9:14].ljust(length, b"\xff")[:length] + item[45:]
                for item in self.pes]

    def test_reports_the_length_of_pes_headers_in_a_stream(self) -> None:
        # PES_header_data_length and the verdict. A header that is longer than a TS packet is read.
        for length, word in {0: "not judged", 5: "not judged", 14: "not judged",
                             0x23: "not judged", 0x25: "not judged", 36 + 184: "refused"}.items():
            changed = self.set_header_length(length)
            data = make_planned_stream(self.pes, [(0, OLD)], lambda at: [(OLD, changed[at])])
            words = f"has {9 + length} bytes (PES_header_data_length {length:02X}), but " \
                "EN 300 472 requires 45 (24)"
            for options in ((), ("--pid", "0x101")):
                judged = self.judge_stream(data, *options)
                self.check(f"{length} {options}: verdict", judged.timed_verdict, word)
                self.must(f"{length} {options}: sentence", f"the PES header of PID 0x101 {words}"
                          in judged.verdict.sentence, judged.verdict.sentence)
            for item in (changed[0], b"\0\0\1\xbe" + changed[0][4:]):
                self.check(f"{length} {item[3]:X}: a header", check_pes_header(item, 0),
                           f"the PES header {words}")

    def test_reports_the_length_of_pes_headers_in_a_file(self) -> None:
        for length in (5, 14, 0x23, 0x25, 36 + 184):
            path = self.write("one.pes", b"".join(self.set_header_length(length)))
            judged = judge_files(self, self.stl, path, "--origin", "0")
            self.check(f"{length}: verdict", judged.timed_verdict, "refused")
            self.must(f"{length}: sentence", f"the PES header has {9 + length} bytes "
                      f"(PES_header_data_length {length:02X}), but EN 300 472 requires 45 (24)"
                      in judged.verdict.sentence, judged.verdict.sentence)

    def test_reports_no_length_without_a_wrong_header(self) -> None:
        for name, data in (("nothing", b""), ("a line", b"refused 60"), ("right", self.pes[0]),
                           ("cut", self.pes[0][:8])):
            self.check(name, check_pes_header(data, 0), "")

    def test_finds_no_pes_header_in_broken_ts_packets(self) -> None:
        path = self.write("none", b"\x47\x41\x01\x30\xff".ljust(188, b"\0") * 9)
        self.check("no PES header", read_pes_header(self.bench.program, path, TELETEXT_PID, 188),
                   b"")

    def test_reports_rows_of_a_closed_page(self) -> None:
        """A header of page 8FF or 800 closes each page before its rows."""
        for name, between in (("8FF", CLOSING), ("800", OTHER_PAGE)):
            sent = [(pts, [packets[0], between, *packets[1:]]) for pts, packets in self.sent]
            path = self.write("one.pes", join_pes_packets(sent))
            reason = "rows came while page 888 was not open"
            for words, word, begin in (
                    ((), "not judged", f"Not judged: the clock cannot be estimated: {reason}, in "),
                    (("--origin", "0"), "refused", "Refused: ")):
                judged = judge_files(self, self.stl, path, *WORDS, *words)
                sentence = judged.verdict.sentence
                self.check(f"{name} {words}: verdict", judged.timed_verdict, word)
                self.check(f"{name} {words}: sentence", sentence[:len(begin)], begin)
                self.must(f"{name} {words}: reason", reason in sentence, sentence)

    def test_reports_alternating_sub_pages(self) -> None:
        others = [(pts + 4 * TICKS, [HEADER, make_numbered_row(20, b"Other"), CLOSING])
                  for pts, _ in self.sent]
        alternate = sorted(set_last_subcode_digit(self.sent, 1) + set_last_subcode_digit(others, 2))
        once = set_last_subcode_digit(self.sent[:20], 1) + set_last_subcode_digit(self.sent[20:], 2)
        words = "sub-pages of 888 alternate, with the sub-codes 0001 and 0002"
        blank = [(pts, [HEADER, CLOSING]) for pts, _ in self.sent]
        for name, sent, is_reported in (("alternate", alternate, True),
                                        ("change once", once, False), ("one", blank, False)):
            judged = self.judge(sent, *WORDS)
            self.check(f"{name}: sentence", words in judged.verdict.sentence, is_reported)
            self.check(f"{name}: causes", any(words in cause["line"]
                                              for cause in judged.result["causes"]), is_reported)

    def test_reads_a_subcode_without_the_control_bits(self) -> None:
        self.check("digits", read_subcode(bytes([8, 8, 1, 8 + 2, 3, 8 + 2, 1, 0])), "2321")

    def test_finds_sub_pages_that_alternate(self) -> None:
        def make_runs(*runs: str) -> Packets:
            return Packets(0, [PacketRun(at, int(run[0]), 0, 0, "h", "+".join(
                f"88{digit}80810" for digit in run[1:])) for at, run in enumerate(runs)])

        # A run is the number of PES packets, and the last digit of each header's sub-code. The
        # sub-codes alternate if at least four headers return to an earlier one.
        self.check_rows(lambda *runs: find_alternating_subcodes(make_runs(*runs)), {
            "one run": (("91",), []), "one sub-code": (("11",) * 9, []),
            "one, two, one, two": (("11", "12", "11", "12"), []),
            "one, then two": (("11", "92", "92"), []),
            "one, then two for long, again": (("11", "92", "11", "92"), []),
            "three times each": (("11", "12") * 3, ["0001", "0002"]),
            "both in two PES packets": (("212",), []),
            "both in three PES packets": (("312",), ["0001", "0002"]),
            "three sub-codes": (("11", "12", "13") * 3, ["0001", "0002", "0003"]),
            "six sub-codes, each once": (("11", "12", "13", "14", "15", "16"), [])})
        runs = make_runs(*("11", "12") * 3, *("11",) * 6)  # the first six alternate
        self.check_rows(lambda first, last: len(find_alternating_subcodes(runs, (first, last))), {
            "while they alternate": ((0, 5), 2), "all": ((0, 11), 2),
            "after the first two": ((2, 11), 0), "after they alternate": ((6, 11), 0)})
        self.check("two PES packets", [*explain_mismatch(make_runs("11", "12"), PAGE)], [])

    def test_merges_a_gap_marker_with_the_pcr_step_of_the_same_loss(self) -> None:
        """PES packets with the PTS 0 to 30, a gap marker for 3 lost packets, and the PTS `far`."""
        far = 200_000
        item = Packets(1, [PacketRun(0, 4, 0, 10, "h", ""), PacketRun(4, 1, None, 0, "m", ""),
                           PacketRun(5, 4, far, 10, "h", "")], gap_markers=[GapMarker(4, 30, 3, 0)])
        alone = LossPlace(30, far, 3, gap_marker=4)
        rows: dict[str, tuple[list[PCRStep], LossPlace]] = {
            "no step": ([], alone),
            "a step that lacks a second": ([PCRStep(30, far, 99_000, 9, 9000, 9, "broken")],
                                   LossPlace(30, far, 3, 0, 90_000, 4)),
            "a step longer than the loss": ([PCRStep(30, far, 299_000, 9, 9000, 9, "broken")],
                                            alone),
            "no counter is broken": ([PCRStep(30, far, 99_000, 9, 9000, 9, "whole")], alone),
            "after the loss": ([PCRStep(far + 10, far + 30, 99_000, 9, 9000, 9, "whole")], alone)}
        # A step of 99,000 ticks, where 9000 are usual, lacks 90,000, which fit between PTS 30 and
        # `far`. It is a loss if the counters of other PIDs are broken too.
        for name, (steps, expected) in rows.items():
            item.pcr_steps = steps
            self.check(name, find_loss_places(item), [expected])

    def test_describes_a_loss_by_pcr_counter_and_scrambled_packets(self) -> None:
        self.check("text", describe_loss(LossPlace(1, 2, 3, 4, 9000)),
                   "0.10 s of TS packets are missing according to the PCR (3 TS packets "
                   "according to the counter), 4 TS packets were scrambled")


NUMBERS = bytes([8, 8, 0, 8, 0, 8, 1, 0])  # values in HEADER: page, subcode, control bits
KEEPING_NUMBERS = bytes([8, 8, 0, 0, 0, 8, 1, 0])
KEEPING_HEADER = make_packet(0, 0, KEEPING_NUMBERS, b" " * 32)
FIRST_ROW, SECOND_ROW = make_numbered_row(20, b"One"), make_numbered_row(22, b"Two")
CLEAR = "C4 (erase page) is clear"


def change_numbers(changes: dict[int, int], numbers: bytes = KEEPING_NUMBERS) -> bytes:
    """Return the values of a header with other values at these indexes."""
    return bytes(changes.get(at, number) for at, number in enumerate(numbers))


OTHER_SUBCODE = change_numbers({2: 1})  # a header that does not erase, of sub-code 0001
NO_SUBTITLE = change_numbers({5: 0})  # a header that does not erase, with C6 clear


class Headers(Case):
    def test_finds_the_previous_header_of_each_header(self) -> None:
        item, other = "88000810", "88100810"
        received = INITIAL_STATE._replace(is_received=True, is_open=True, header=NUMBERS)
        first, second = KEEPING_NUMBERS, OTHER_SUBCODE
        # The flags of a PES packet (h: header, e: it erases, c: closed, o: open at the end), the
        # values of its headers, and the state before it; each header with the previous one, and
        # whether the page was open.
        self.check_rows(lambda flags, values, state: find_page_headers(
            PacketRun(0, 1, 0, 0, flags, values), state), {
            "no header": (("-", "", INITIAL_STATE), []),
            "the first header": (("h", item, INITIAL_STATE), [(first, None, False)]),
            "the page is open": (("hec", "88080810", received), [(NUMBERS, NUMBERS, True)]),
            "the page was closed before": (("cho", item, received), [(first, NUMBERS, False)]),
            "two headers": (("hh", f"{item}+{other}", INITIAL_STATE),
                            [(first, None, False), (second, first, True)]),
            "two headers, closed between": (("hchc", f"{other}+{item}", received),
                                            [(second, NUMBERS, True), (first, second, False)])})

    def test_explains_why_a_header_must_erase(self) -> None:
        headers = {"": None, "erases": NUMBERS, "keeps": KEEPING_NUMBERS, "0001": OTHER_SUBCODE}
        for row in read_vectors("missing-erase.tsv"):
            header = PageHeader(headers[row["header"]] or b"", headers[row["previous"]],
                                is_open=row["open"] == "yes")
            request = make_example_request("one.stl", "one.pes", *row["options"].split())
            self.check(row["name"], describe_missing_erase(header, request), row["message"])

    def test_describes_the_first_wrong_header_of_several(self) -> None:
        good, keeps, german, no_subtitle = map(PageHeader, (
            NUMBERS, KEEPING_NUMBERS, change_numbers({7: 8}, NUMBERS),
            change_numbers({5: 0}, NUMBERS)))
        other, clear = "the header is German, but --option is english", "C6 (subtitle) is clear"
        rows: dict[str, tuple[list[PageHeader], str, str | None, str]] = {
            "one keeps": ([good, keeps, no_subtitle], "", "may appear over old text",
                          REPEAT_WITHOUT_ERASE),
            "one may keep, one is no subtitle": ([good, keeps, no_subtitle], "--keeping",
                                                 "hides the picture", clear),
            "one is German": ([german, keeps], "", "is shown with wrong characters", other),
            "one is no subtitle, and English": (
                [german, no_subtitle], "--option german", "hides the picture",
                f"{clear}; the header is English, but --option is german"),
            "two are English": ([german, keeps, good], "--option german --keeping",
                                "is shown with wrong characters",
                                "the header is English, but --option is german"),
            "none is wrong": ([good], "", None, "")}
        for name, (headers, words, effect, reason) in rows.items():
            request = make_example_request("one.stl", "one.pes", *words.split())
            self.check(f"{name}: reason", describe_header_faults(headers, request), reason)
            if effect is not None:
                self.check(f"{name}: effect", describe_effect(headers, request), effect)

    def test_reports_a_wrong_c4_bit_first(self) -> None:
        self.check_rows(describe_control_bits, {
            "allowed": ((KEEPING_NUMBERS, "english"), []),
            "C4 and C6": ((NO_SUBTITLE, "english", REPEAT_WITHOUT_ERASE),
                          [REPEAT_WITHOUT_ERASE, "C6 (subtitle) is clear"])})


class HeaderCounts(Case):
    def test_counts_all_headers_and_those_that_keep_if_no_other_bit_is_wrong(self) -> None:
        keep, english = KEEPING_NUMBERS, "english"
        self.check_rows(count_keeping_headers, {
            "no header": (({}, english), None), "all erase": (({NUMBERS: 7}, english), None),
            "the only one keeps": (({keep: 1}, english), (1, 1)),
            "three of ten keep": (({NUMBERS: 7, keep: 3}, english), (10, 3)),
            "two sub-codes": (({NUMBERS: 7, keep: 3, OTHER_SUBCODE: 2}, english), (12, 5)),
            "another option": (({NUMBERS: 7, keep: 3}, "german"), None),
            "one is no subtitle": (({keep: 3, NO_SUBTITLE: 1}, english), None),
            "one has C4, but not C7": (({keep: 3, change_numbers({3: 8, 6: 0}): 1}, english),
                                       None)})

    def test_names_missing_rows(self) -> None:
        for row in read_vectors("missing-rows.tsv"):
            self.check(row["name"], describe_omitted_rows(
                [*map(int, row["rows"].split())], int(row["fault"]) if row["fault"] else None,
                int(row["packets"])), row["missing"])


COMPLETE_PAGE = [HEADER, FIRST_ROW, SECOND_ROW, CLOSING]
ONE_ROW_LESS, WITHOUT_ROWS = [KEEPING_HEADER, FIRST_ROW, CLOSING], [KEEPING_HEADER, CLOSING]
# Names of packets in omitted-rows.tsv. All but the complete page keep what was sent before.
PACKETS = {"complete": COMPLETE_PAGE, "repeat": [KEEPING_HEADER, FIRST_ROW, SECOND_ROW, CLOSING],
           "one row": ONE_ROW_LESS, "no rows": WITHOUT_ROWS, "header": [KEEPING_HEADER],
           "row": [FIRST_ROW]}


class MissingRows(Case):
    """A page with the rows 20 and 22 is sent. Later headers of the page do not erase it, and the
    rows that do not follow them are missing: receivers may show what they received before."""

    def decode(self, *frames: tuple[int, list[bytes]], within: int = 0) -> tuple[Timeline, Rows]:
        """Return the decoded pages, and the page of the first frame."""
        timeline = decode_packets(self, b"".join(make_pes_packet(TICKS * frame, packets)
                                                 for frame, packets in frames), within=within)
        return timeline, timeline.get_page_at(frames[0][0])

    def make_row_fault(self, frame: int, changed: str = "") -> CheckOutput:
        """Return output of `check --all` with a fault in row 22, and perhaps a changed row."""
        lines = [f"refused 69 RowChanged frame {format_frame(int(changed))} packet 1"] \
            if changed else []
        lines.append(f"refused 72 Content frame {format_frame(frame)} row 22 column 0")
        return make_answer([*lines, f"{len(lines)} faults"], path=self.path("told"))

    def test_names_the_rows_that_a_header_does_not_repeat(self) -> None:
        for row in read_vectors("omitted-rows.tsv"):
            sent = [(int(frame), PACKETS[name]) for frame, _, name in (
                item.partition(" ") for item in row["sent"].split(", "))]
            timeline, expected = self.decode(*sent, within=int(row["within"]))
            output = self.make_row_fault(int(row["wrong"]), row["changed"])
            self.check(f"{row}", name_omitted_rows(timeline, expected, int(row["wrong"]), output),
                       row["missing"])

    def test_names_no_row_if_the_page_is_not_expected_or_has_no_header(self) -> None:
        timeline, expected = self.decode((0, COMPLETE_PAGE), (50, ONE_ROW_LESS))
        closed, _ = self.decode((5, [CLOSING]))
        self.check_rows(lambda pages, page, frame: name_omitted_rows(pages, page, frame, None), {
            "the expected page, no fault line": ((timeline, expected, 50), "a row"),
            "another page": ((timeline, BLANK_PAGE, 50), ""),
            "no header": ((closed, BLANK_PAGE, 5), "")})

    def test_finds_the_row_of_a_fault_in_or_before_a_frame(self) -> None:
        self.check("rows", [self.make_row_fault(frame).find_fault_row(9) for frame in (0, 9, 10)],
                   [22, 22, None])

    def make_cause_finder(self, *frames: tuple[int, list[bytes]], wrong: int, within: int = 0
                          ) -> CauseFinder:
        """Return the causes of a subtitle in the frames 0 to 99 that has the first frame's page.
        Row 22 has a fault in frame `wrong`."""
        decoded, page = self.decode(*frames, within=within)
        return CauseFinder(ExpectedPages([Subtitle(1, 1, 0, 100, 20, 2, b"1")], [page]), decoded,
                           self.make_row_fault(wrong))

    def test_finds_rows_missing_after_a_keeping_header_unless_packets_are_lost(self) -> None:
        finder = self.make_cause_finder((0, COMPLETE_PAGE), (25, WITHOUT_ROWS), (50, ONE_ROW_LESS),
                                        wrong=50)
        for frame, expected in ((0, ""), (25, "rows 20 and 22"), (50, "row 22")):
            self.check(f"{frame}", finder.explain_omitted_rows(frame), expected)
        finder.timeline.lost = SpanIndex([Span(50, 50)])
        self.check("lost", [finder.explain_omitted_rows(frame) for frame in (25, 50)],
                   ["rows 20 and 22", ""])

    def test_finds_a_missing_row_of_a_page_in_two_pes_packets_of_a_frame(self) -> None:
        for within, expected in ((0, ""), (1, "row 22")):
            finder = self.make_cause_finder((0, COMPLETE_PAGE), (25, [KEEPING_HEADER]),
                                            (25, [FIRST_ROW, CLOSING]), wrong=25, within=within)
            self.check(f"--within {within}", finder.explain_omitted_rows(25), expected)

    def test_a_header_without_rows_erases_a_page_only_from_its_tci_on(self) -> None:
        """The subtitle has the frames 25 to 99. An erasing header without rows is sent in frame 0
        or 30. With --within 1, a page in frame 26 is not late."""
        for bare, page, name, words in (
                (0, 26, "unknown", "it is missing at 00:00:01:00"),
                (30, 25, "erased", "by a header without rows, at 00:00:01:05")):
            decoded, _ = self.decode(*sorted([(bare, [HEADER, CLOSING]), (page, COMPLETE_PAGE),
                                              (50, COMPLETE_PAGE)]), within=1)
            expected = ExpectedPages([Subtitle(1, 1, 25, 100, 20, 2, b"1")],
                                     [decoded.get_page_at(50)])
            faulty = FaultyFrames()
            faulty.during = Span(max(25, bare), 35)
            cause = CauseFinder(expected, decoded, self.make_row_fault(25)).find_cause(0, faulty)
            self.check(name, (cause.name, cause.details), (name, words))


def add_keeping_repeats(sent: SentPes) -> SentPes:
    """Return the transmission with headers that do not erase the page in all repeated pages."""
    return [*sent[:1], *((pts, [KEEPING_HEADER, *some[1:]] if some == before else some)
                         for (pts, some), (_, before) in zip(sent[1:], sent))]


class RepeatsWithKeeping(ProgrammeCase):
    """The headers of all repeats of three subtitles' pages do not erase the page (C4 is clear)."""

    cues = subtitle_times(3)

    def test_accepts_keeping_headers_if_they_are_allowed(self) -> None:
        judged = self.judge(add_keeping_repeats(self.sent), "--keeping")
        self.check("verdict", (judged.timed_verdict, judged.result["request"]["keeping"]),
                   ("accepted", True))
        self.must("command", " --keeping " in judged.lines("+ ")[-1], judged.printed)

    def test_refuses_keeping_headers_and_counts_them(self) -> None:
        sent = add_keeping_repeats(self.sent)
        judged = self.judge(sent)
        keeping = sum(item != other for item, other in zip(sent, self.sent))
        words = f"{CLEAR} in {keeping} of {len(self.sent)} headers"
        self.check("verdict", (judged.timed_verdict, judged.result["request"]["keeping"],
                               judged.result["hints"]), ("refused", False, [f"67: {words}"]))
        self.must("sentence", words in judged.verdict.sentence, judged.verdict.sentence)
        self.check("meanings", {item["meaning"] for item in judged.result["faults"]},
                   {REPEAT_WITHOUT_ERASE})

    def test_names_missing_rows_as_the_cause(self) -> None:
        first, (repeat_pts, _), *rest = add_keeping_repeats(self.sent)
        judged = self.judge([first, (repeat_pts, [KEEPING_HEADER, CLOSING]), *rest], "--keeping")
        self.check("faults", (judged.timed_verdict, {
            item["number"] for item in judged.result["faults"]}), ("refused", {CONTENT}))
        self.check("causes", [item["line"] for item in judged.result["causes"]],
                   [f"not repeated whole: row 22 {OMITTED_BY_REPEAT}"])
        self.must("sentence", "(row 22 missing after a header" in judged.verdict.sentence,
                  judged.verdict.sentence)
