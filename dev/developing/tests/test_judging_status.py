"""Test the verdict, the choice of the worst fault, and the parser of fault lines."""
from __future__ import annotations

import itertools
import tempfile
from types import SimpleNamespace
from typing import Any, Sequence

from subtitles.common.command_line import Stop
from subtitles.formats.listing import (
    Accepted, FAULT_NAMES, FaultLine, NamedFault, NEVER_SENT, READING_FAULT_NAMES, STL_FAULTS,
    Trusted, parse_accepted_line, parse_count_line, parse_fault_line, read_meanings,
    parse_fault_number, parse_trusted_line)
from subtitles.formats.stl import Subtitle, parse_subtitles
from subtitles.judging.causes import Cause, CAUSE_NAMES
from subtitles.judging.check import CheckOutput
from subtitles.judging.sentence import (
    CAUSE_RANKS, NAME_RANKS, NUMBER_RANKS, Rank, find_worst_cause, find_worst_fault,
    find_worst_named_fault, rank_number)
from subtitles.judging.status import (
    ACCEPTED, CheckSummary, DIFFERS, Decision, FAULT_NUMBERS, Grounds, LOST, NOT_ANSWERED,
    NOT_JUDGED, NOTHING_READ, REFUSED, RELATIVE, SAME, Severity, STATUSES, VALID, WAIVED, WARNED,
    combine_statuses, decide, decide_comparison, matches_exit_status)
from .bench import Case
from .parts import make_answer, make_part
from .stories import read_vectors

ENDS_READING = (*range(10, 16), 17, *range(22, 26), 30, 31, 32, 44)
# Whether judged frames have lost packets, for each loss.
LOSSES: Sequence[Sequence[bool]] = (
    (), (False,), (True,), (True, False, False), (False, True), (False, False, True), (True, True))
# The kinds of errors, and the status to which they lead
ERRORS: dict[tuple[str, ...], int] = {
    ("input",): 2, ("undecided",): 2, ("resource",): 2, ("signal",): 2, ("usage",): 64,
    ("bug",): 70, ("resource", "usage"): 64, ("signal", "bug"): 70, ("usage", "bug"): 70,
    ("bug", "usage", "input"): 70}
# Whether a clock is known, and whether --relative is given.
CLOCKS: Sequence[dict[str, Any]] = (
    {"has_clock": True}, {"has_clock": False},
    {"has_clock": False, "is_relative_allowed": True},
    {"has_clock": True, "is_relative_allowed": True})


def make_severity(*lines: str, is_loss_allowed: bool = False) -> Severity:
    """Return the severities in a file with these lines; `is_loss_allowed` means --allow-lost."""
    with tempfile.NamedTemporaryFile("w", suffix=".severity") as file:
        file.write("".join(f"{line}\n" for line in lines))
        file.flush()
        return Severity(file.name, is_loss_allowed)


def read_summaries(is_complete: str) -> dict[str, CheckSummary]:
    """Return the outputs of `check` that are complete (`yes`), or those that are not (`no`)."""
    return {row["name"]: CheckSummary(
        int(row["exit status"]) if row["exit status"] else None, row["accepted"] == "yes",
        int(row["faults"]), int(row["printed total"]) if row["printed total"] else None,
        [*map(int, row["fault numbers"].split())], row["read"] == "yes")
        for row in read_vectors("check-summaries.tsv") if row["complete"] == is_complete}


RIGHT, WRONG = read_summaries("yes"), read_summaries("no")


def decide_by_clock(word: str, clock: dict[str, Any]) -> tuple[str, int]:
    """Return the expected verdict and exit status. `word` is the verdict if a clock is known."""
    if clock["has_clock"] or word not in (ACCEPTED, WAIVED):
        return word, STATUSES[word]
    return RELATIVE, 0 if "is_relative_allowed" in clock else 3


def get_outcome(decision: Decision) -> tuple[str, int]:
    """Return the verdict and the exit status. Other tests check the status of `not judged`, which
    its kind decides."""
    return decision.word, 2 if decision.word == NOT_JUDGED else decision.status


ONE_WARNING = make_severity("67 warning")
NAMES_ARE_WARNINGS = make_severity("67 warning", *(f"{name} warning" for name in FAULT_NAMES))
# Lost packets (45) are also a warning.
ALLOWING_SEVERITIES = [make_severity("67 warning", is_loss_allowed=True),
                       make_severity("67 warning", "45 warning")]


class Decisions(Case):
    """A pair has parts with the outputs of `check` in `RIGHT` and `WRONG`, with or without a given
    clock and --relative (`CLOCKS`)."""

    def test_the_worst_part_decides_the_verdict(self) -> None:
        outputs = RIGHT | WRONG
        for count, clock in itertools.product((1, 2, 3), CLOCKS):
            for names in itertools.product(outputs, repeat=count):
                expected = decide_by_clock(self.decide_expected_word(names), clock)
                result = decide(Grounds([outputs[name] for name in names], ONE_WARNING, **clock))
                if get_outcome(result) != expected:
                    self.fail(f"{names} {clock}: {result}, and not {expected}")

    @staticmethod
    def decide_expected_word(names: Sequence[str]) -> str:
        """Return the expected verdict for parts without losses that have the named outputs."""
        if set(names) & WRONG.keys():
            return NOT_JUDGED
        if any(name.startswith("refused") for name in names):
            return REFUSED
        if any(name.endswith("not read") for name in names):
            return NOT_JUDGED
        return WAIVED if "waived" in names else ACCEPTED

    def test_losses_and_strict_warnings_prevent_accepted_and_waived(self) -> None:
        for name, losses, is_allowed, warnings, is_strict, clock in itertools.product(
                ("accepted", "waived", "refused", "silent"), LOSSES, (False, True),
                ((), ("page",), ("repeat", "page")), (False, True), CLOCKS):
            parts = [RIGHT["accepted"], (RIGHT | WRONG)[name], RIGHT["accepted"]]
            if name in ("refused", "silent"):
                word = REFUSED if name == "refused" else NOT_JUDGED
            elif True in losses and not is_allowed:
                word = LOST
            elif is_strict and warnings:
                word = WARNED
            else:
                word = ACCEPTED if name == "accepted" else WAIVED
            for severity in ALLOWING_SEVERITIES if is_allowed else [ONE_WARNING]:
                result = decide(Grounds(parts, severity, losses, warnings, is_strict, **clock))
                self.check(f"{name} {losses} {is_allowed} {warnings} {is_strict} {clock}",
                           get_outcome(result), decide_by_clock(word, clock))

    def test_a_named_fault_refuses_a_pair_unless_it_is_a_warning(self) -> None:
        outputs = RIGHT | WRONG
        for name, is_error, count in itertools.product(FAULT_NAMES, (True, False), (0, 1, 2)):
            severity = ONE_WARNING if is_error else NAMES_ARE_WARNINGS
            for parts in itertools.product(outputs, repeat=count):
                word = self.decide_expected_word(parts) if parts else NOT_JUDGED
                if is_error and not set(parts) & WRONG.keys():
                    word = REFUSED
                elif word == ACCEPTED:
                    word = WAIVED
                for clock in CLOCKS:
                    result = decide(Grounds([outputs[part] for part in parts], severity,
                                            named_faults=[name], **clock))
                    self.assertEqual(get_outcome(result), decide_by_clock(word, clock),
                                     (name, is_error, parts, clock))

    def test_without_a_part_an_error_or_a_named_warning_leaves_a_pair_unjudged(self) -> None:
        self.assertEqual(decide(Grounds([], ONE_WARNING, error_kinds=["input"],
                                        named_faults=[NEVER_SENT])).word, NOT_JUDGED)
        self.assertEqual(decide(Grounds([], NAMES_ARE_WARNINGS, named_faults=[NEVER_SENT])),
                         Decision(NOT_JUDGED, NOTHING_READ, "undecided"))

    def test_a_named_warning_waives_a_file_that_is_judged_alone(self) -> None:
        valid = CheckSummary(0, is_accepted=True, is_file=True)
        words = [decide(Grounds([valid], NAMES_ARE_WARNINGS, named_faults=names)).word
                 for names in ((), FAULT_NAMES)]
        self.assertEqual(words, [VALID, WAIVED])

    def test_two_recordings_differ_by_any_fault(self) -> None:
        accepted, waived = [RIGHT["accepted"]], [RIGHT["waived"]]
        rows: dict[str, tuple[Grounds, str, str]] = {  # the verdict with and without a clock
            "no fault": (Grounds(accepted, ONE_WARNING), SAME, RELATIVE),
            "an error": (Grounds([RIGHT["refused"]], ONE_WARNING), DIFFERS, DIFFERS),
            "a waived fault": (Grounds(waived, ONE_WARNING), DIFFERS, DIFFERS),
            "a waived named fault": (Grounds(accepted, NAMES_ARE_WARNINGS,
                                             named_faults=[NEVER_SENT]), DIFFERS, DIFFERS),
            "an allowed loss": (Grounds(accepted, ALLOWING_SEVERITIES[0], [True]), DIFFERS,
                                DIFFERS),
            "no output": (Grounds([WRONG["silent"]], ONE_WARNING), NOT_JUDGED, NOT_JUDGED)}
        statuses = {SAME: 0, DIFFERS: 1, RELATIVE: 3, NOT_JUDGED: 70}
        for name, (grounds, *words) in rows.items():
            decisions = [decide_comparison(grounds._replace(has_clock=has_clock), False, 0)
                         for has_clock in (True, False)]
            self.check(name, [(item.word, item.status) for item in decisions],
                       [(word, statuses[word]) for word in words])

    def test_is_not_judged_after_an_error(self) -> None:
        for name, output in (RIGHT | WRONG).items():
            for kinds, status in ERRORS.items():
                result = decide(Grounds([output, output], ONE_WARNING, error_kinds=kinds,
                                        has_clock=True))
                self.check(f"{name} {kinds}", (
                    result.word, result.status, result.not_judged_kind in kinds),
                    (NOT_JUDGED, status, True))

    def test_gives_a_reason_and_a_kind_of_error_if_not_judged(self) -> None:
        accepted, unread = RIGHT["accepted"], RIGHT["waived, not read"]
        rows: list[tuple[list[CheckSummary], str, str]] = [
            ([], NOT_ANSWERED, "bug"), ([accepted, WRONG["silent"]], NOT_ANSWERED, "bug"),
            ([unread], NOTHING_READ, "undecided"),
            ([accepted, accepted, unread], NOTHING_READ, "undecided")]
        for parts, reason, kind in rows:
            self.assertEqual(decide(Grounds(parts, ONE_WARNING)),
                             Decision(NOT_JUDGED, reason, kind), parts)
        self.assertEqual(decide(Grounds([accepted], ONE_WARNING, has_clock=True)),
                         Decision(ACCEPTED))


class BatchStatus(Case):
    def test_returns_the_worst_status(self) -> None:
        """The worst is 70, then 64, 2, 1 and 3. Unknown statuses and missing pairs count as 2."""
        # The exit statuses of pairs, whether the batch was stopped, and the status of the batch.
        rows: list[tuple[list[int], bool, int]] = [
            ([0], False, 0), ([0, 3], False, 3), ([3, 0, 1], False, 1), ([1, 3, 2], False, 2),
            ([2, 0, 64], False, 64), ([64, 1, 70], False, 70), ([], False, 2), ([4], False, 2),
            ([0, -9], False, 2), ([0, 71], False, 2), ([], True, 2), ([3], True, 2),
            ([0, 64], True, 64)]
        for statuses, is_stopped, status in rows:
            for order in (statuses, statuses[::-1]):
                self.check(f"{order} {is_stopped}", combine_statuses(order, is_stopped), status)

    def test_rejects_a_result_whose_status_is_not_that_of_its_verdict_and_process(self) -> None:
        for verdict, status, exit_status in itertools.product(
                [*STATUSES, "fine"], (*range(5), 64, 70), (0, 1, 2, 3, 64, 70, -9, -15)):
            is_possible = status == STATUSES.get(verdict) or (verdict, status) in (
                (RELATIVE, 0), (NOT_JUDGED, 64), (NOT_JUDGED, 70))
            self.check(f"{verdict} {status} {exit_status}", matches_exit_status(
                verdict, status, exit_status), is_possible and status == exit_status)


class Severities(Case):
    def test_the_last_line_about_a_fault_decides_its_severity(self) -> None:
        """Faults that end the reading are always errors. --allow-lost makes 45 a warning, and 79 if
        no line decides it. The line `others` decides 79, but not 45 and what other lines list."""
        each: dict[int | str, str] = {number: "warning" for number in FAULT_NUMBERS}
        ends: dict[int | str, str] = {number: "error" for number in ENDS_READING}
        names: dict[int | str, str] = {name: "error" for name in FAULT_NAMES}
        mild: dict[int | str, str] = {name: "warning" for name in FAULT_NAMES}
        # The lines of a severity file, whether --allow-lost is given, and the severities.
        rows: list[tuple[str, bool, dict[int | str, str]]] = [
            ("", False, {72: "error", 67: "error", 45: "error", 79: "error", **names}),
            ("", True, {72: "error", 67: "error", 45: "warning", 79: "warning"}),
            ("others warning\n72 error", False, {72: "error", 67: "warning", 45: "error"}),
            ("72 warning\n72 error", False, {72: "error"}),
            ("\n072 warning # so", False, {72: "warning"}),
            ("45 warning\nothers error", False, {45: "warning", 79: "error"}),
            ("45 warning\nothers warning", False, {45: "warning", 79: "warning"}),
            ("others error", True, {45: "warning", 79: "error"}),
            ("79 warning", False, {79: "warning", 45: "error"}),
            ("45 error", True, {45: "warning"}),
            ("never sent warning", False, {**names, "never sent": "warning", 45: "error"}),
            ("others warning\nnot shown error", False, {**mild, "not shown": "error"}),
            ("\n".join(f"{number} warning" for number in FAULT_NUMBERS), False, each)]
        for lines, is_allowed, expected in rows:
            severity = make_severity(lines, is_loss_allowed=is_allowed)
            for item, word in {**expected, **ends}.items():
                self.check(f"{lines} {is_allowed} {item}", (
                    severity.classify(item), severity.is_error(item)), (word, word == "error"))

    def test_with_a_given_pace_missing_pes_packets_are_errors(self) -> None:
        self.assertEqual([Severity(None, is_loss_allowed, is_pace_given=True).classify(number)
                          for is_loss_allowed in (False, True) for number in (45, 79)],
                         ["error", "error", "warning", "error"])

    def test_refuses_wrong_lines(self) -> None:
        no_faults = (0, 5, 9, 26, 29, 41, 43, 46, 49, 58, 59, 75, 81, 83, 90, 100)
        wrong = ("72", "72 fatal", "x error", "others", "72 warning now", "warning 72", "٧٢ error",
                 "sent error", "never error", "never sent", "never  sent wrong", "not error")
        for line, words in [*((line, "a line is `NUMBER error`") for line in wrong), *(
                (f"{number} error", f"no refusal has the number {number}$")
                for number in no_faults)]:
            with self.subTest(line), self.assertRaisesRegex(Stop, f"line 2: {words}"):
                make_severity("", line)


BEGIN = "refused 63 Begin frame 10:00:00:00"
END = "refused 74 Late frame 10:00:09:00"
INCOMPLETE = "refused 77 Incomplete frame 10:00:02:00"
CONTROL = "refused 67 Control frame 10:00:00:00 packet 0"
LOST_LINE = "refused 45 Lost pes 7"
OTHER_COMMANDS = {3, 4, 76, 82}  # fault numbers that only other commands than `check` report
SECOND = 25


# A wrong control bit, and the fault 72 of four subtitles, one second after another.
WRONG_PAGES = [CONTROL, *(f"refused 72 Content frame 10:00:0{second}:00 row 22 column 3"
                          for second in (1, 2, 3, 4))]


def make_check_output(*lines: str, path: str) -> CheckOutput:
    return make_answer([*lines, f"{len(lines)} faults"], path=path)


def make_causes_named(names: Sequence[str]) -> Any:
    """Return the causes with these names, one for each of the subtitles in `WRONG_PAGES`."""
    causes = {at: Cause(at, name, 1, None, None, "", 0) for at, name in enumerate(names)}
    return SimpleNamespace(
        frames_by_end_fault={}, cause_by_index=causes, list_causes=lambda: [*causes.values()],
        first_wrong_frames={at: 900_000 + SECOND * (at + 1) for at in range(4)})


class LeadingFaults(Case):
    """Of all faults, qc names that of the worst rank first, and of these the one reported first."""

    def test_each_cause_and_fault_number_has_a_rank(self) -> None:
        self.check("causes", set(CAUSE_RANKS), set(CAUSE_NAMES))
        self.check("numbers", set(NUMBER_RANKS), FAULT_NUMBERS - OTHER_COMMANDS)
        self.check("names", set(NAME_RANKS), {*FAULT_NAMES, *READING_FAULT_NAMES})

    def test_ranks_fault_numbers_by_what_viewers_notice_according_to_the_manual(self) -> None:
        for number, item in read_meanings().items():
            rank, notice = rank_number(number), item.name.partition("</a>")[2]
            if number in STL_FAULTS:
                self.check(f"{number}", rank, Rank.FILE)
            elif number in (63, 74):  # the recording is too short, unless a cause is known
                self.check(f"{number}", rank, Rank.UNSEEN)
            elif notice.startswith("now"):
                self.must(f"{number}", rank <= Rank.SOME, rank)
            elif notice.startswith("next") and number != 61:  # 61 is about times, like 60 and 62
                self.check(f"{number}", rank, Rank.LATER)

    def test_orders_causes_from_never_sent_to_not_received(self) -> None:
        names = sorted(CAUSE_NAMES, key=lambda name: CAUSE_RANKS[name])
        self.check("order", (names[0], names[-4:]), ("never sent", [
            "late", "early", "wrong colour or attribute", "not received"]))

    def test_chooses_the_first_fault_of_the_worst_rank(self) -> None:
        for row in read_vectors("leading-faults.tsv"):
            lines, expected = row["faults"].split("; "), row["first"]
            part = make_part(0, 9, 0, make_check_output(*lines, path=self.path("list")))
            worst = part.worst_fault_line
            self.check(row["name"], (part.first_text, worst and worst.line, part.check_output.line),
                       (expected, expected, lines[0]))

    def test_an_accepted_part_has_no_worst_fault(self) -> None:
        part = make_part(0, 9, 0, make_answer([line := "accepted 10 frames 2 transmissions"]))
        self.check("none", (part.worst_fault_line, part.first_text), (None, line))
        self.check("no cause", find_worst_cause([]), None)

    def test_chooses_the_worst_named_fault_unless_a_numbered_fault_is_worse(self) -> None:
        never, left, hidden = (NamedFault(name, "") for name in FAULT_NAMES)
        # The named faults, the rank of the worst fault with a number, and the chosen named fault.
        rows: tuple[tuple[list[NamedFault], Rank | None, NamedFault | None], ...] = (
            ([], None, None), ([], Rank.LATER, None), ([left], None, left),
            ([left, hidden, never], None, never), ([left, hidden], Rank.MOVED, hidden),
            ([left], Rank.WRONG, None), ([left], Rank.MOVED, left), ([hidden], Rank.FILE, None),
            ([never], Rank.NEVER, never))
        for faults, rank, expected in rows:
            self.must(f"{[fault.name for fault in faults]} {rank}",
                      find_worst_named_fault(faults, rank) is expected)

    def check_worst_fault(self, name: str, lines: Sequence[str], causes: Any, expected: str
                          ) -> None:
        output = make_check_output(*lines, path=self.path("list"))
        worst = find_worst_fault(output, output.first_faults, causes)
        self.check(name, worst and worst.fault.line, expected)

    def test_chooses_the_fault_of_the_subtitle_with_the_worst_cause(self) -> None:
        # The causes of the four subtitles, the printed faults, and the fault to name
        rows: tuple[tuple[list[str], list[str], str], ...] = (
            (["late", "late", "never sent", "never sent"], WRONG_PAGES, WRONG_PAGES[3]),
            (["late", "wrong text", "wrong place", "early"], WRONG_PAGES, WRONG_PAGES[2]),
            (["wrong colour or attribute", "early", "early", "early"], WRONG_PAGES, WRONG_PAGES[2]),
            (["wrong colour or attribute"] * 4, WRONG_PAGES, WRONG_PAGES[1]),
            (["not received"] * 4, WRONG_PAGES, CONTROL),
            (["not received"] * 4, WRONG_PAGES[1:], WRONG_PAGES[1]),
            (["not received"] * 4, [LOST_LINE, *WRONG_PAGES[1:]], WRONG_PAGES[1]),
            (["late"] * 4, [*WRONG_PAGES, INCOMPLETE], INCOMPLETE),
            (["late", "never sent", "late", "late"],
             [*WRONG_PAGES[:3], INCOMPLETE, *WRONG_PAGES[3:]], WRONG_PAGES[2]),
            (["wrong text"] * 4, [*WRONG_PAGES, INCOMPLETE], WRONG_PAGES[1]))
        for names, lines, expected in rows:
            self.check_worst_fault(f"{names}", lines, make_causes_named(names), expected)

    def test_chooses_an_early_or_late_end_if_it_belongs_to_the_worst_cause(self) -> None:
        causes = make_causes_named(["wrong text"] * 4)  # the worst is that of the subtitle 0
        # The indexes of the subtitles with the faults 63 and 74.
        for places, expected in (({63: 0}, BEGIN), ({74: 0, 63: 0}, BEGIN),
                                 ({63: 1}, WRONG_PAGES[1]), ({74: 0, 63: 1}, END)):
            causes.frames_by_end_fault = places
            self.check_worst_fault(f"{places}", [BEGIN, *WRONG_PAGES, END], causes, expected)


# Two subtitles as `show` prints them, and their values.
FIRST = "00001 00:00:01:00 00:00:02:00 vp 20 jc 2 text 41"
SECOND_LINE = "00002 00:00:02:00 00:00:04:00 vp 22 jc 1 text -"
FIRST_SUBTITLE = Subtitle(1, 1, begin=25, end=50, row=20, justify=2, text=b"A")
SECOND_SUBTITLE = Subtitle(2, 2, begin=50, end=100, row=22, justify=1, text=b"")


class ParsedLines(Case):
    def test_parses_each_kind_of_place(self) -> None:
        # Lines, and the members of their places; the other members are `None`.
        places: dict[str, dict[str, object]] = {
            "refused 60 Empty": {}, "fault 91 Memory": {},
            "refused 16 Cumulative block 1": {"block": 1},
            "refused 50 Text block 0 at 7": {"block": 0, "at": 7},
            "refused 33 Flags pes 0": {"pes": 0},
            "refused 70 Repeat frame 00:00:01:00 packet 3": {"time": "00:00:01:00", "packet": 3},
            "refused 72 Content frame 00:00:01:00 row 20 column 0": {
                "time": "00:00:01:00", "row": 20, "column": 0},
            "ended 72 Content frame 00:00:03:00": {"time": "00:00:03:00"}}
        for line, place in places.items():
            kind, number, name = line.split(" ")[:3]
            self.check(line, parse_fault_line(line), (line, kind, int(number), name, *(
                place.get(member) for member in FaultLine._fields[4:])))
            self.check(f"number of {line}", parse_fault_number(line),
                       int(number) if kind == "refused" else None)
        for line in ("", "refused", "refused 72", "refused x Content", "refused 72 Content frame",
                     "refused 72 Content row 1 column 2", "refused 72 Content pes 1 more",
                     " refused 72 Content", "accepted 72 Content"):
            self.must(f"no such line: {line}", parse_fault_line(line) is None,
                      parse_fault_line(line))

    def test_parses_accepted_trusted_and_count_lines(self) -> None:
        self.check("accepted", parse_accepted_line("accepted 226 frames 5 transmissions"),
                   Accepted(226, 5))
        self.check("no transmissions", parse_accepted_line("accepted 226 frames"), None)
        self.check("trusted", parse_trusted_line("trusted frames 00:00:01:00 00:00:02:00"),
                   Trusted("00:00:01:00", "00:00:02:00"))
        self.check("counted", parse_count_line("12 faults"), 12)

    def test_parses_subtitles(self) -> None:
        for lines, expected in (([FIRST, SECOND_LINE, "2 subtitles"],
                                 [FIRST_SUBTITLE, SECOND_SUBTITLE]),
                                (["0 subtitles"], []),
                                ([FIRST, "refused 16 Cumulative block 2"], [FIRST_SUBTITLE]),
                                (["refused 10 Format block 0"], [])):
            self.check(str(lines), parse_subtitles(lines), expected)

    def test_reports_incomplete_or_wrong_lists_of_subtitles_as_bugs(self) -> None:
        unread: list[list[str]] = [
            [], [FIRST], [FIRST, SECOND_LINE], [FIRST, "2 subtitles"], [FIRST, "fault 91 Memory"],
            [FIRST + " ", "1 subtitles"], [FIRST.replace("vp", "row"), "1 subtitles"],
            [FIRST.replace("00:00:01:00", "00:00:01:25"), "1 subtitles"], ["", "1 subtitles"]]
        for lines in unread:
            try:
                result: object = parse_subtitles(lines)
            except Stop as reason:
                result = f"{reason.kind}: {reason}"
            self.must(f"not read: {lines}", str(result).startswith("bug: `show` printed no "),
                      result)
