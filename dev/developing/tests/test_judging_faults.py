"""Test the descriptions of faults: their places, cells, hints and causes."""
from __future__ import annotations

import contextlib
import io
import json
import os
import re
from types import SimpleNamespace
from typing import Any
from unittest import mock

from developing.pes import make_packet, make_pes_packet
from subtitles.common.program import find_proof
from subtitles.common.times import CLOCK, TICKS
from subtitles.formats.listing import parse_fault_line
from subtitles.formats.stl import Subtitle
from subtitles.judging.causes import Cause, CAUSE_NAMES, LATE, WRONG_TEXT
from subtitles.judging.faults import describe_first_hint, find_fault_place, list_hints
from subtitles.judging.part import report_causes
from subtitles.judging.sentence import Facts, FaultCount, describe_causes, describe_faults
from subtitles.judging.transmissions import ExpectedPages, run_program
from subtitles.request.commands import CLEAR_LINE, Listener, Progress
from subtitles.request.request import Unclear
from subtitles.stream.packets import PacketRun, Packets
from subtitles.stream.receiver import BLANK_PAGE
from .bench import Case
from .judged import LineRecorder
from .parts import (
    decode_packets, make_answer, make_example_request, make_packets, make_part, make_shell_script,
    parse_single_fault, survey_packets)
from .stories import read_vectors
from .transmissions import CLOSING, HEADER, ORIGIN, make_numbered_row
from .test_judging_verdicts import make_part_verdict

ORIGIN_BEFORE_WRAP = CLOCK - 60 * TICKS  # origin one minute before the PTS wrap
CONTENT = parse_fault_line("refused 72 Content frame 00:00:01:00 row 1 column 1")
NO_C4 = make_packet(0, 0, [8, 8, 0, 0, 0, 8, 1, 0], b" " * 32)


def cause(place: int, name: str, frames: int | None = None, words: str = "") -> Cause:
    """Return a cause of the subtitle with index `place`, with its delay in frames and details."""
    return Cause(place, name, frames, None, None, words, 0)


def parse_causes(text: str) -> list[Cause]:
    """Return causes given by subtitle number, name, frames and details: `3 late 5; 4 erased (a)`.
    """
    found = re.findall(r"(\d+) ([a-z' ]+[a-z])(?: (\d+))?(?: \((.*?)\))?(?:; |$)", text)
    return [cause(int(number) - 1, name, int(frames) if frames else None, details)
            for number, name, frames, details in found]


def make_causes(*several: Cause, text: bytes = b"text") -> Any:
    """Return the causes of nine subtitles, one each second from 00:00:00:00 on, with one text."""
    subtitles = [SimpleNamespace(begin=25 * at, end=25 * at + 20, name=f"subtitle {at + 1}")
                 for at in range(9)]
    page = (b" " * 40,) * 19 + (text.ljust(40),) + (b" " * 40,) * 4
    return SimpleNamespace(expected=SimpleNamespace(subtitles=subtitles, pages=[page] * 9),
                           list_causes=lambda: list(several),
                           cause_by_index=dict(enumerate(several)), frames_by_end_fault={},
                           first_wrong_frames={}, delay_of_all=0)


class Descriptions(Case):
    def test_reports_the_worst_cause_first(self) -> None:
        found = set[str]()
        for row in read_vectors("worst-causes.tsv"):
            several = parse_causes(row["causes"])
            found.update(item.name for item in several)
            self.check(row["name"], describe_causes(make_causes(*several), "english"),
                       row["sentence"])
        self.check("all causes", found, set(CAUSE_NAMES))

    def test_quotes_texts_in_the_characters_of_the_option(self) -> None:
        wrong = cause(0, WRONG_TEXT)._replace(sent_page=(b"]".ljust(40),) + BLANK_PAGE[1:])
        part = make_part(0, 9, 0, make_answer(["refused 72 X frame 00:00:00:00", "1 faults"]),
                         causes=make_causes(wrong, text=b"["))
        verdict = make_part_verdict([part])
        verdict.request = make_example_request("one.stl", "one.pes", "--option", "german")
        self.check("sentence", verdict.sentence, 'Refused: subtitle 1 at 00:00:00:00 has the wrong '
                   'text: expected "Ä", received "Ü".')

    def test_lists_other_causes_after_a_shared_delay(self) -> None:
        for row in read_vectors("shared-delays.tsv"):
            words = describe_faults(Facts(
                "refused", subtitles=9, first=CONTENT, has_cause=True, faults=9,
                delay=int(row["delay"]), causes=make_causes(*parse_causes(row["causes"]))))
            self.check(f"{row}", words, row["sentence"])

    def test_lists_other_faults_after_a_cause(self) -> None:
        causes = make_causes(cause(2, LATE, 3))
        for row in read_vectors("other-faults.tsv"):
            counts = [FaultCount(number, "Name", count)
                      for number, count in json.loads(row["counts"])]
            words = describe_faults(Facts("refused", subtitles=9, first=CONTENT, has_cause=True,
                                          faults=9, counts=counts, causes=causes))
            self.check(row["counts"], words, describe_causes(causes, "english") + row["end"])

    def test_finds_the_pes_packet_of_a_fault(self) -> None:
        """PES packets 0 to 3 are at the frames 0, 10, 10 and 20."""
        data = b"".join(make_pes_packet(TICKS * frame, [HEADER, CLOSING])
                        for frame in (0, 10, 10, 20))
        for row in read_vectors("fault-places.tsv"):
            decoded = decode_packets(self, data, 0, int(row["within"]))
            fault = parse_single_fault(f"refused {row['fault']}")
            place = find_fault_place(fault, decoded.packets, decoded)
            self.check(f"{row}", place.pes, int(row["pes"]) if row["pes"] else None)

    def test_finds_the_last_pes_packet_of_a_frame_that_makes_a_cell_wrong(self) -> None:
        data = b"".join(make_pes_packet(10 * TICKS, [HEADER, *rows]) for rows in (
            [make_numbered_row(20, b"a")], [make_numbered_row(20, b"b")], list[bytes]()))
        decoded = decode_packets(self, data)
        # The column, the PES packet that makes the page right, and the last PES packet that makes
        # the cell wrong. If there is none, this is the last PES packet of the frame.
        for column, right, wrong in ((2, 0, 2), (2, 1, 2), (2, 2, 1), (0, 2, 1), (3, 0, 2)):
            fault = parse_single_fault(f"refused 72 X frame 00:00:00:10 row 20 column {column}")
            expected = decoded.get_state_after(right).rows
            self.check(f"{column} {right}", find_fault_place(
                fault, decoded.packets, decoded, expected).pes, wrong)
        parity = parse_single_fault("refused 68 Parity frame 00:00:00:10 packet 1")
        self.check("page after the frame", find_fault_place(parity, decoded.packets, decoded).rows,
                   decoded.get_state_after(2).rows)

    def test_finds_the_headers_of_a_frame_with_a_wrong_control_bit(self) -> None:
        data = make_pes_packet(0, [HEADER]) + make_pes_packet(9, [CLOSING])  # of page 8FF
        decoded = decode_packets(self, data, within=1)
        fault = parse_single_fault("refused 67 Control frame 00:00:00:00 packet 0")
        self.check("headers", len(find_fault_place(fault, decoded.packets, decoded).headers), 1)

    def test_reports_why_the_teletext_ends(self) -> None:
        # Five PES packets, after which the PID has other data.
        packets = Packets(0x101, [PacketRun(0, 5, 0, TICKS, "h", "")], refusal=31)
        answer = make_answer(["refused 63 Early frame 00:00:00:05",
                              "refused 74 End frame 00:00:00:09", "2 faults"])
        why = "74: PID 0x101 has data other than PES packets of private_stream_1 from PES packet " \
            "5 on: refused 31 Start pes 5"
        for last, hints in ((4, [why]), (3, [])):
            part = make_part(0, 9, 0, answer, packets=packets, pes=(0, last))
            self.check(f"{last}", [*list_hints(make_part_verdict([part]))], hints)

    def test_reports_the_longest_gap_without_losses(self) -> None:
        for row in read_vectors("longest-gaps.tsv"):
            frames, ends = ([*map(int, row[name].split())] for name in ("headers", "last"))
            lines = [f"refused {number} Name" for number in row["faults"].split()]
            answer = make_answer([*lines, f"{len(lines)} faults"])
            cues = (item.partition("-") for item in row["cues"].split())
            pages = ExpectedPages([Subtitle(1, 1, int(begin), int(end), 20, 2, b"")
                                   for begin, _, end in cues], [])
            for origin, ticks in ((ORIGIN, 0), (ORIGIN_BEFORE_WRAP, 0), (ORIGIN, 5), (ORIGIN, -5)):
                packets = Packets(0x101, [PacketRun(at, 1, (origin + TICKS * frame + ticks) % CLOCK,
                                                    0, "h" * (at < len(frames)), "")
                                          for at, frame in enumerate(frames + ends)])
                part = make_part(0, 1200, origin, answer, packets=packets,
                                 pes=(0, len(frames)), expected_pages=lambda: pages)
                verdict = make_part_verdict([part])
                verdict.request = make_example_request("one.stl", "one.pes", "--every",
                                                       row["every"], "--within", f"{abs(ticks)}")
                self.check(f"{row['name']} {origin} {ticks}", [*list_hints(verdict)],
                           [f"73: {row['hint']}"] * bool(row["hint"]))

    def test_gives_a_hint_on_the_times_of_pes_packets(self) -> None:
        for row in read_vectors("time-hints.tsv"):
            begin, frames = ORIGIN + int(row["ticks"]), [*map(int, row["sent"].split())]
            line, hint = f"refused {row['fault']}", row["hint"]
            part = make_part(0, 999, ORIGIN, make_answer([line, "1 faults"]), pes=(0, 99),
                             header_problem="a wrong header",
                             packets=make_packets([begin + TICKS * frame for frame in frames], ""),
                             request=make_example_request("one.stl", "one.pes", "--within",
                                                          row["within"], "--pace", row["pace"]))
            verdict = make_part_verdict([part])
            hints = [*list_hints(verdict)]
            first_hint = describe_first_hint(parse_single_fault(line), part, verdict)
            self.check(row["name"], (hints, first_hint), ([f"{line[8:10]}: {hint}"] * bool(hint),
                                                          hint))

    def test_gives_a_hint_for_the_first_fault_of_each_number_in_each_part(self) -> None:
        """Three parts: one with wrong headers and a gap, an accepted one, and one with a gap."""
        data = b"".join(make_pes_packet(
            (ORIGIN + TICKS * frame) % CLOCK, [NO_C4 if frame % 50 else HEADER, CLOSING])
            for frame in (0, 25, 50, 75, 300))
        lines = ["refused 67 Control frame 00:00:01:00 packet 0",
                 "refused 67 Control frame 00:00:03:00 packet 0",
                 "refused 73 Gap frame 00:00:03:00",
                 "refused 72 Content frame 00:00:04:00 row 1 column 1", "4 faults"]
        good = ["accepted 1 frames 1 transmissions"]
        expected = ["67: C4 (erase page) is clear: a repeat that does not erase",
                    "73: the page had no header for up to 225 frames"]
        parts = [make_part(0, 99, ORIGIN, make_answer(some, path=self.path(f"list{at}")), at,
                           packets=survey_packets(self, data), pes=(0, 4),
                           request=make_example_request("one.stl", "one.pes"))
                 for at, some in enumerate((lines, good, [lines[2], "1 faults"]), 1)]
        verdict = make_part_verdict(parts)
        verdict.request.every = 100
        self.check("of each", list(list_hints(verdict)), [*expected, expected[1]])
        verdict.parts = parts[1:2]
        self.must("none", not list(list_hints(verdict)))

    def test_prints_the_first_forty_lines_and_the_last_line_of_a_list(self) -> None:
        for count in (0, 1, 40, 41, 42, 50):
            recorder = LineRecorder()
            for at in range(count):
                recorder.print_list_line(f"{at}")
            recorder.end_list(f"{count - 1}")
            more = [f".. {count - 41} more lines"] * (count > 41)
            expected = [*map(str, range(min(count, 40))), *more, *[f"{count - 1}"] * (count > 40)]
            self.check(f"{count}", recorder.lines, expected)
            recorder.print_command("next")
            recorder.print_list_line("first")
            self.check(f"{count}: another list", recorder.lines[len(expected):],
                       ["+ next", "first"])

    def test_prints_the_first_forty_causes(self) -> None:
        with mock.patch("subtitles.judging.part.CauseDescriber") as wording:
            wording.return_value.format_line = lambda item: f"cause {item}"
            for count in (0, 40, 41, 45):
                recorder = LineRecorder()
                causes: Any = SimpleNamespace(list_causes=lambda: list(range(count)))
                report_causes(Listener(recorder), causes, "german")
                self.check(f"{count} causes", (wording.call_args.args[1], recorder.lines), (
                    "german", [*(f"cause {at}" for at in range(min(count, 40))),
                               *[f".. {count - 40} more causes"] * (count > 40)]))


class ProgramCalls(Case):
    def test_uses_only_output_that_matches_the_exit_status(self) -> None:
        # The lines and the status of a program, and whether the lines are returned. Of all faults,
        # only 82, a file without subtitles, is a result.
        rows: list[tuple[list[str], int, bool]] = [
            (["a", "b"], 0, True), ([], 0, True), (["refused 82 NoSubtitles"], 1, True),
            (["refused 50 Character block 1 at 6"], 1, False), (["a"], 1, False), ([], 2, False),
            (["a"], -9, False), (["refused 82 NoSubtitles", "b"], 1, False)]
        for lines, status, is_right in rows:
            path = self.write_program("program", f"#!/bin/sh\n{make_shell_script(lines, status)}")
            try:
                result: list[str] | None = run_program(path, "schedule", "x")
            except Unclear as reason:
                result = None
                self.check(f"{lines} {status}: reason", reason.reason,
                           f"schedule gave no result: {''.join(lines[-1:])}")
            self.check(f"{lines} {status}", result, lines if is_right else None)

    def test_updates_the_progress_line_of_a_terminal_five_times_a_second(self) -> None:
        for is_terminal, times, shown in ((True, (0.0, 0.1, 0.2, 0.5), 3), (False, (0.0, 9.0), 0)):
            with contextlib.redirect_stderr(io.StringIO()) as errors:
                vars(errors)["isatty"] = lambda: is_terminal
                progress = Progress()
                for now in times:
                    with mock.patch("time.monotonic", lambda: now + 100):
                        progress.show(lambda: "x" * 500)
                progress.clear()
                progress.clear()
            lines = errors.getvalue().split(CLEAR_LINE)
            self.must(f"{is_terminal}", len(lines) == (shown + 2 if shown else 1) and
                      all(0 < len(line) < 500 for line in lines[1:-1]), lines)


class Versions(Case):
    def test_finds_the_proof_of_this_program(self) -> None:
        os.makedirs(self.path("top/bin"))
        good = ("program 5\ncrate other 1 logic=proved functions=30 sum=a\n"
                "crate subttx 2 logic=proved functions=4 axioms=9\n")
        both = "logic=proved crates=2 functions=34 axioms=9"
        for name, file, text, expected in (
                ("beside the program", "top/bin/PROVED", good, both),
                ("in the folder above", "top/PROVED", good, both),
                ("two folders above", "PROVED", good, None),
                ("another program's", "top/bin/PROVED", good.replace("program 5", "program 6"),
                 None),
                ("the program is not proved", "top/bin/PROVED",
                 good.replace("proved functions=4", "open functions=4"), None),
                ("another crate is not proved", "top/bin/PROVED",
                 good.replace("proved functions=30", "open functions=30"), None),
                ("no crates", "top/bin/PROVED", "program 5\n", None)):
            path = self.write(file, text.encode())
            self.check(name, find_proof(self.path("top/bin/subttx"), "5"), expected)
            os.unlink(path)
