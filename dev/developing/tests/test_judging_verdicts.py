"""Test the verdicts on pairs with one to three parts."""
from __future__ import annotations

import dataclasses
import itertools
import json
from types import SimpleNamespace
from typing import Any, Sequence
from unittest import mock

from developing.pes import make_pes_packet
from subtitles.clock.start import GIVEN, RECORDING
from subtitles.common.checks import JUMP
from subtitles.common.files import SummedFile
from subtitles.common.program import ProgramInfo
from subtitles.common.times import CLOCK, Span, TICKS, format_frame
from subtitles.formats.listing import NamedFault, NEVER_SENT, PICTURES_LEFT
from subtitles.formats.teletext import ENGLISH, GERMAN, ROMANIAN, SWEDISH
from subtitles.judging.check import CheckOutput, NO_END
from subtitles.judging.part import Part, find_part_causes
from subtitles.judging.status import Severity
from subtitles.judging.subtitles import SubtitleCounts, ValidSubtitles
from subtitles.judging.unchecked import MIN_UNJUDGED_CHANGE, Unchecked
from subtitles.judging.verdict import (
    DELAYING_FAULTS, DelaySpread, FailedOutput, Gap, Unjudged, Verdict, count_fault_numbers,
    find_gaps, make_gaps, summarize_delays)
from subtitles.recording.notices import Notice
from subtitles.results.schema import ResultSource, list_trusted_frames
from subtitles.stream.gaps import LossPlace
from subtitles.stream.packets import PacketRun, Packets
from .bench import Case
from .parts import make_answer, make_example_request, survey_packets, make_part
from .stories import read_vectors
from .transmissions import CLOSING, HEADER, make_numbered_row

REFUSED = ("refused 72 Content frame 00:00:05:00 row 20 column 1", "1 faults")
OTHER_LINES = ("refused 38 UnitLength pes 7", "refused 70 Repeat frame 00:00:09:00", "2 faults")


def make_part_verdict(parts: Sequence[Part], severity: Severity | None = None) -> Verdict:
    """Return the verdict on a pair with a given clock. All faults are errors by default."""
    severity = severity or Severity(None)
    return Verdict(make_example_request("one.stl", "one.pes", "--origin", "0"), severity, "now", [
        dataclasses.replace(part, severity=severity) for part in parts])


def read_lines(case: Case, lines: Sequence[str]) -> CheckOutput:
    """Return the output of a `check` that has printed these lines, and has not ended."""
    result = CheckOutput(case.path("list"))
    for line in lines:
        result.read_line(line)
    result.close_file()
    return result


class Verdicts(Case):
    def make_three_parts(self, *refused: int, origin: int = 5) -> list[Part]:
        """Return three parts of 100 frames each. Those with the indexes `refused` are refused."""
        return [make_part(100 * at, 100 * at + 99, origin, make_answer(REFUSED if at in refused else
                          ("accepted 10 frames 2 transmissions",)), at + 1) for at in range(3)]

    def test_chooses_the_last_line_and_the_leading_fault(self) -> None:
        self.write("mild", b"72 warning\nnever sent warning\n")
        self.write("allowing", f"--allow-lost\n--severity {self.path('mild')}\n".encode())
        self.write("relative", b"--relative\n")
        accepted, lost = ["accepted 10 frames 2 transmissions"], Gap(
            None, None, "", LossPlace(1, 2, missing=9), is_judged=True)
        outputs = {"accepted": accepted, "estimated": accepted, "72": REFUSED, "38 70": OTHER_LINES}
        named = {NEVER_SENT: NamedFault(NEVER_SENT, ""),
                 PICTURES_LEFT: NamedFault(PICTURES_LEFT, "away", "00:00:01:00")}
        for row in read_vectors("verdicts.tsv"):
            request = make_example_request("one.stl", "one.pes", *(
                self.path(word) if word.isalpha() else word for word in row["options"].split()))
            verdict = make_part_verdict([
                make_part(0, 99, 0, make_answer(outputs[word]), number,
                          RECORDING if word == "estimated" else GIVEN)
                for number, word in enumerate(filter(None, row["parts"].split(", ")), 1)],
                Severity(request.severity, request.is_loss_allowed))
            verdict = dataclasses.replace(
                verdict, request=request, gaps=[lost] * bool(row["lost"]),
                warnings=[Notice(kind, kind, None) for kind in row["warnings"].split()],
                named_faults=[named[name] for name in row["named faults"].split(", ") if name])
            last_line = row["last line"]
            self.check(row["name"], (verdict.word, verdict.line, verdict.worst_line),
                       (row["verdict"], last_line, row["line of the worst fault"] or last_line))

    def test_is_not_judged_after_an_error_or_a_failed_output(self) -> None:
        full, broken = FailedOutput("full", "resource"), FailedOutput("broken", "bug")
        # The error, the outputs that failed, the reason and status of the verdict, and whether
        # another call would give the same verdict.
        rows: list[tuple[Unjudged | None, list[FailedOutput], str, int, bool]] = [
            (Unjudged("why", "undecided"), [], "why", 2, True),
            (Unjudged("why", "usage"), [], "why", 64, True),
            (None, [full, broken], "full\nbroken", 70, False),
            (Unjudged("why", "input"), [full], "why\nfull", 2, False),
            (Unjudged("why", "bug"), [full], "why\nfull", 70, False),
            (Unjudged("why", "resource", is_temporary=True), [], "why", 2, False),
            (Unjudged("why", "signal", is_stopped=True), [], "why", 2, False)]
        for refused, (unjudged, failed, why, status, is_final) in itertools.product(
                ((), (0,), (2,)), rows):
            verdict = dataclasses.replace(make_part_verdict(self.make_three_parts(*refused)),
                                          unjudged=unjudged, failed_outputs=failed)
            self.check(f"{refused} {unjudged} {failed}", (
                verdict.word, verdict.status, verdict.line, verdict.subtitle_counts,
                verdict.unjudged_reason, verdict.is_final),
                ("not judged", status, None, None, why, is_final))
        self.must("final without an error", make_part_verdict(self.make_three_parts()).is_final)

    def test_a_large_jump_of_pictures_prevents_a_verdict_unless_it_is_a_warning(self) -> None:
        for lines, word in ((b"", "not judged"), (b"pictures left warning\n", "accepted")):
            verdict = make_part_verdict([make_part(0, 9, 0)], Severity(self.write("mild", lines)))
            verdict.unchecked.append(Unchecked(JUMP, "", change=MIN_UNJUDGED_CHANGE))
            self.check(f"{lines!r}", verdict.word, word)

    def test_lists_each_check_of_a_part_that_was_neither_made_nor_found_a_fault(self) -> None:
        for row in read_vectors("unmade-checks.tsv"):
            parts = [make_part(0, 9, 0, make_answer([row[f"part {number}"], "1 faults"]), number,
                               RECORDING if number == int(row["estimated"]) else GIVEN, pes=(0, 9))
                     for number in (1, 2)]
            verdict = dataclasses.replace(
                make_part_verdict(parts), made_checks={*map(tuple, json.loads(row["made"]))},
                named_faults=[NamedFault(PICTURES_LEFT, "", part=int(row["pictures left"]))])
            self.check(row["name"], [f"{item.kind} of part {item.part}: {item.text}"
                                     for item in verdict.list_unchecked()],
                       [entry for entry in row["entries"].split("; ") if entry])

    def test_keeps_each_warning_once(self) -> None:
        notice, other = Notice("pause", "1", None), Notice("pause", "2", None)
        verdict = make_part_verdict([])
        verdict.warn([notice, notice])
        verdict.warn([other, notice])
        self.check("each", verdict.warnings, [notice, other])

    def test_the_sentence_names_the_first_loss_in_judged_frames(self) -> None:
        """Of five gaps, 1, 3 and 4 have judged frames."""
        verdict = make_part_verdict(self.make_three_parts())
        verdict.gaps = [Gap("1", "9", f"{at} lost", LossPlace(1, 2, 3), is_judged=at in (1, 3, 4))
                        for at in range(5)]
        self.must("judged", verdict.sentence.startswith(
            "Not accepted: between 1 and 9: 1 lost, and in 2 more places;"), verdict.sentence)

    def test_the_sentence_names_never_sent_before_a_wrong_page(self) -> None:
        refused = dataclasses.replace(make_part_verdict(self.make_three_parts(0)), named_faults=[
            NamedFault(NEVER_SENT, "nothing was sent")])
        self.check("a name", refused.sentence, "Refused: nothing was sent; 2 faults in all.")

    def test_a_waived_pair_has_the_fault_numbers_of_all_parts(self) -> None:
        waived = make_part_verdict([make_part(0, 9, 0, make_answer(lines))
                                    for lines in (OTHER_LINES, REFUSED)],
                                   Severity(self.write("mild", b"others warning\n")))
        self.check("lines", (waived.line, waived.worst_line),
                   (f"waived: {OTHER_LINES[0]}", f"waived: {REFUSED[0]}"))
        self.must("sentence", "; 3 faults in all: 72 Content, 38 UnitLength and 70 Repeat." in
                  waived.sentence, waived.sentence)

    def test_a_loss_is_judged_if_it_lies_within_a_part(self) -> None:
        """Three parts have the frames 0 to 99, 100 to 199 and 200 to 299. Each loss is between two
        consecutive frames. With the second origin the PTS wrap at frame 150."""
        for origin in (0, CLOCK - 150 * TICKS):
            verdict = make_part_verdict(self.make_three_parts(origin=origin))
            # The frames before the losses, and which losses are judged.
            for frames, judged in (([10, 110, 210], [True, True, True]),
                                   ([99, 299, -5], [False, False, False]),
                                   ([99, 150], [False, True]), ([150, 99], [True, False]),
                                   ([10, 299, -9], [True, False, False])):
                pts = [(origin + TICKS * frame) % CLOCK for frame in frames]
                verdict.gaps = make_gaps([LossPlace(item, (item + TICKS) % CLOCK) for item in pts],
                                         verdict.parts)
                self.check(f"{origin} {frames}", (
                    verdict.collect_grounds().judged_losses, verdict.is_lost),
                    (judged, any(judged)))

    def test_finds_announced_jumps_of_each_part(self) -> None:
        """Some of three parts, each of 100 frames, have a jump from their frame 50 to 60."""
        recording: Any = SimpleNamespace(list_losses=lambda jumps: [
            LossPlace(before, after, is_announced=True) for before, after in jumps])
        for indexes in ((0,), (1,), (2,), (0, 2), (0, 1, 2), ()):
            parts = [make_part(100 * at, 100 * at + 99, 0, recording=recording, jumps=[
                (TICKS * (100 * at + 50), TICKS * (100 * at + 60))] * (at in indexes))
                     for at in range(3)]
            self.check(f"{indexes}: gaps", [
                (gap.after, gap.is_judged) for gap in find_gaps(recording, parts)],
                [(format_frame(100 * at + 50), True) for at in indexes])
            self.check(f"{indexes}: losses of parts", [
                len(part.find_loss_places()) for part in parts], [at in indexes for at in range(3)])

    def test_a_loss_has_the_times_of_its_part(self) -> None:
        """Part 1 has the frames 100 to 199 with the origin 0, and part 2 the frames 300 to 399 with
        an origin 2000 frames later. A loss in no part has times by the clock of part 1."""
        parts = [make_part(100, 199, 0), make_part(300, 399, TICKS * 2000, number=2)]
        for pts_frame, times in ((50, ("00:00:02:00", "00:00:02:01")),
                                 (150, ("00:00:06:00", "00:00:06:01")),
                                 (2000 + 350, ("00:00:14:00", "00:00:14:01")),
                                 (2500, ("00:01:40:00", "00:01:40:01"))):
            gap, = make_gaps([LossPlace(TICKS * pts_frame, TICKS * (pts_frame + 1), 1)], parts)
            self.check(f"{pts_frame}", (gap.after, gap.before), times)

    def test_formats_the_times_of_losses(self) -> None:
        """A time outside of the day is the beginning or the end. The losses are judged, since their
        gap marker is PES packet 0, which is in the part."""
        for before, after, words in (
                (TICKS * 25, TICKS * 51 - 1, "between 00:00:01:00 and 00:00:02:00"),
                (None, TICKS, "between the beginning and 00:00:00:01"),
                (TICKS, None, "between 00:00:00:01 and the end"),
                (-1, 0, "between the beginning and 00:00:00:00"),
                (TICKS * 2_159_999, TICKS * 2_160_000, "between 23:59:59:24 and the end")):
            for origin in (0, CLOCK - 40 * TICKS):  # with the second, the PTS wrap
                first, second = (None if pts is None else (origin + pts) % CLOCK
                                 for pts in (before, after))
                place = LossPlace(first, second, 3, gap_marker=0)
                gap, = make_gaps([place], [make_part(0, 1, origin, pes=(0, 0))])
                self.check(f"{words} {origin}", (gap.format_line(), gap.is_judged, gap.place),
                           (f"{words}: 3 TS packets were lost", True, place))

    def test_frames_with_losses_are_not_clean(self) -> None:
        """In both of two parts, `check` reports the frames 100 to 199 as clean. Losses of part 2
        that have a gap marker are known to `check`; the others are only known by the PCR. With
        --within 1, a PTS 5 ticks before a frame belongs to that frame."""
        printed = ["trusted frames 00:00:04:00 00:00:07:24", "accepted 10 frames 2 transmissions"]
        loss, other = (LossPlace(TICKS * at - 5, TICKS * (at + 10) - 5, missing=9)
                       for at in (151, 121))
        marked, late = LossPlace(TICKS * 170, TICKS * 180, 1, gap_marker=7), ("--within", "1")
        rows: list[tuple[list[LossPlace], Sequence[str], list[tuple[int, int]]]] = [
            ([], (), [(100, 199)]), ([marked], (), [(100, 199)]),
            ([loss], (), [(100, 149), (160, 199)]), ([loss], late, [(100, 150), (161, 199)]),
            ([marked, loss, other], (), [(100, 119), (130, 149), (160, 199)])]
        for places, words, clean_frames in rows:
            parts = [make_part(100, 199, 0, make_answer(printed), 1),
                     make_part(100, 199, 0, make_answer(printed), 2, places=places,
                               request=make_example_request("a.stl", "a.pes", *words))]
            known = ResultSource(make_part_verdict(parts), ProgramInfo("1", "0" * 64, None))
            self.check(f"{places} {words}", [
                (item["part"], item["from"], item["to"]) for item in list_trusted_frames(known)],
                [(1, format_frame(100), format_frame(199)), *(
                    (2, format_frame(first), format_frame(last)) for first, last in clean_frames)])

    def test_counts_faults_of_each_number_in_all_parts(self) -> None:
        verdict = make_part_verdict([make_part(0, 9, 0, make_answer(item))
                                     for item in (REFUSED, OTHER_LINES, OTHER_LINES)])
        counts = [tuple(item) for item in count_fault_numbers(
            verdict.parts, lambda part: part.check_output.counts_by_number)]
        self.check("each", counts, [(72, "Content", 1), (38, "UnitLength", 2), (70, "Repeat", 2)])
        verdict.named_faults.append(NamedFault(NEVER_SENT, ""))
        self.check("in all, with one without a number", verdict.fault_count, 6)

    def test_counts_judged_and_refused_subtitles(self) -> None:
        verdict = make_part_verdict(self.make_three_parts(0))
        verdict.subtitle_count = 2
        self.check("valid file", verdict.subtitle_counts, SubtitleCounts(judged=2, refused=0))
        verdict.valid_subtitles = ValidSubtitles([], [], skipped_positions=frozenset({4, 5}))
        self.check("others judged", verdict.subtitle_counts, SubtitleCounts(judged=0, refused=2))
        self.check("text", SubtitleCounts(judged=1, refused=1234).describe(),
                   "1 subtitle judged, 1,234 refused")
        refused_file = make_answer(["refused 50 Character block 1 at 4", "1 faults"])
        verdict = make_part_verdict([*self.make_three_parts(), make_part(0, 9, 0, refused_file)])
        self.check("others not judged", verdict.subtitle_counts, None)

    def test_spreads_the_delays_of_subtitles(self) -> None:
        for row in read_vectors("delay-spreads.tsv"):
            spread = summarize_delays(None if item == "-" else int(item)
                                      for item in row["delays"].split())
            self.check(row["delays"], (" ".join(map(str, spread or ())),
                                       spread.describe() if spread else ""),
                       (row["spread"], row["line"]))
        delays: list[list[int | None]] = [[1, None], [], [7]]
        parts = [dataclasses.replace(part, delays=known)
                 for part, known in zip(self.make_three_parts(), delays)]
        self.check("of all parts", make_part_verdict(parts).delays, DelaySpread(1, 7, 7, 1))


class PartDecisions(Case):
    def test_detects_whether_any_pes_packet_of_a_part_was_read(self) -> None:
        for row in read_vectors("read-parts.tsv"):
            count, part_range = int(row["PES packets"]), row["part"].split("-")
            packets = Packets(0, [PacketRun(0, count, 0, TICKS, "h", "")] * bool(count))
            part = make_part(0, 9, 0, make_answer(row["lines"].split("; ")), packets=packets,
                             pes=(int(part_range[0]), int(part_range[1])) if row["part"] else None)
            self.check(row["name"], part.is_read(), row["is read"] == "yes")

    def test_a_part_is_not_read_if_all_its_clean_frames_are_lost(self) -> None:
        lines = ["refused 50 Character block 1 at 4",
                 "trusted frames 10:00:00:00 10:00:01:24", "1 faults"]
        first = 900_000  # 10:00:00:00
        for lost_frames, is_read in ((25, True), (50, False)):
            part = make_part(first, first + 50, 0, make_answer(lines), pes=(0, 1), places=[
                LossPlace(TICKS * (first - 1), TICKS * (first + lost_frames + 1), missing=9)])
            self.check(f"{lost_frames} lost frames", part.is_read(), is_read)

    def test_counts_the_headers_in_the_readable_pes_packets_of_a_part(self) -> None:
        # First PES packet, number of PES packets, PTS, step of the PTS, flags, headers. Without a
        # PTS or with a fault, a PES packet is not readable.
        runs = [PacketRun(0, 2, 0, 9, "h", "88080812"), PacketRun(2, 4, 20, 9, "h", "88080810"),
                PacketRun(6, 1, 60, 0, "hh", "88080818+88080810"),
                PacketRun(7, 1, None, 0, "h", "88080814"),
                PacketRun(8, 1, 80, 0, "h", "8808081E", fault=38),
                PacketRun(9, 1, 90, 0, "h", "8808081A")]
        part = make_part(0, 9, 0, packets=Packets(0, runs), pes=(3, 8))
        english, german = (bytes([8, 8, 0, 8, 0, 8, 1, last]) for last in (0, 8))
        self.check("headers", part.count_headers(), {english: 4, german: 1})
        self.check("options of all headers", part.find_option_bits(),
                   {option.bits for option in (ENGLISH, GERMAN, SWEDISH, ROMANIAN)})

    def test_decodes_the_pages_of_a_part_once(self) -> None:
        """With --within 1, a PTS 5 ticks before one of the frames 10 to 50 belongs to it."""
        packets = survey_packets(self, b"".join(make_pes_packet(TICKS * at - 5, [
            HEADER, make_numbered_row(20, b"%d" % at), CLOSING]) for at in range(10, 60, 10)))
        part = make_part(10, 50, 0, packets=packets,
                         request=make_example_request("a.stl", "a.pes", "--within", "1"))
        summed = SummedFile("a", 9, "")
        for pes, frames in (((1, 2), [20, 30]), ((0, 3), [10, 20, 30, 40])):
            result = part.add_packets(pes, summed)
            self.check(f"{pes}", (result.pes, result.judged_file), (pes, summed))
            self.check(f"{pes}: frames with a new page", result.decoded_pages
                       and [*result.decoded_pages.frames], frames)
            self.must(f"{pes}: decoded once",
                      result.decoded_pages is dataclasses.replace(result, hint="x").decoded_pages)

    def test_opens_the_subtitle_file_with_the_range_and_the_skipped_subtitles(self) -> None:
        request = make_example_request("a.stl", "a.pes", "--from", "00:00:01:00")
        part = make_part(None, None, None, request=request, skipped_positions={4})
        with mock.patch("subtitles.judging.part.SubtitleFile") as file:
            part.open_subtitle_file()
        file.assert_called_once_with("a.stl", request.between, {4})

    def test_passes_losses_and_range_to_the_causes(self) -> None:
        """The recorded frames are 0 to 250, but fault 31 hides the end; the judged ones 100 to 199.
        Packets are lost in the frames 120 to 129 and 150 to 159; only a stream shows where."""
        places = [LossPlace(TICKS * at, TICKS * (at + 9), missing=9) for at in (120, 150)]
        for refusal, is_stream in itertools.product((None, 31), (True, False)):
            recording: Any = SimpleNamespace(
                is_stream=is_stream, packets=SimpleNamespace(refusal=refusal),
                find_recorded_pts=lambda: (0, TICKS * 250), list_losses=lambda jumps: places)
            part = make_part(100, 199, 0, recording=recording, pes=(0, 9),
                             request=make_example_request(
                "a.stl", "a.ts", "--within", "2", "--every", "300"))
            with mock.patch("subtitles.judging.part.decode_pages_around") as near, \
                    mock.patch("subtitles.judging.part.Causes") as causes:
                part_causes = find_part_causes(part)
            self.must(f"{refusal}", causes.call_args.args[2] == (
                Span(0, 250) if refusal is None else None), causes.call_args)
            *request, lost = near.call_args.args
            self.check(f"{is_stream}: near", request,
                       [recording.packets, part.request.page, 0, 2, (100, 199), 300, None])
            self.check(f"{is_stream}: lost", [*lost], [(120, 129), (150, 159)] * is_stream)
            causes.return_value.classify_faults.assert_called_once_with(part.check_output)
            self.must("named", part_causes is causes.return_value)

    def test_finds_the_pes_packets_that_check_skipped(self) -> None:
        for row in read_vectors("skipped-packets.tsv"):
            output = read_lines(self, [line for line in row["lines"].split("; ") if line])
            self.check(row["name"], " ".join(f"{first}-{last}" for first, last in
                                             output.skipped_packets), row["skipped"])


class FaultNumbers(Case):
    def test_lists_the_faults_that_can_delay_a_page(self) -> None:
        self.check("numbers", DELAYING_FAULTS,
                   {30, 31, 32, 44, 45, 60, 62, 63, 71, 72, 74, 77})

    def test_finds_the_end_of_each_fault_and_the_clean_frames(self) -> None:
        lines = ["refused 72 Content frame 00:00:01:00 row 1 column 1",
                 "refused 38 UnitLength pes 4", "ended 72 Content frame 00:00:02:00",
                 "refused 72 Content frame 00:00:03:00 row 1 column 1", "ended 38 UnitLength pes 9",
                 "refused 38 UnitLength pes 11", "refused 72 Content frame 00:00:04:00 row 2 "
                 "column 1", "ended 72 Content frame 00:00:05:00",
                 "trusted frames 00:00:06:00 00:00:07:00", "trusted frames 00:00:09:00 00:00:09:00"]
        output = read_lines(self, lines)
        ends = [tuple(output.fault_ends.get(index, NO_END)) for index in range(5)]
        self.check("last frame or PES packet of each fault", ends, [
            ("00:00:02:00", None), (None, 9), (None, None), (None, None), ("00:00:05:00", None)])
        self.check("clean frames", [*output.trusted_frames], [(150, 175), (225, 225)])
        self.check("frames of fault 72", [*output.fault_spans[72]],
                   [(25, 50), (75, 75), (100, 125)])
