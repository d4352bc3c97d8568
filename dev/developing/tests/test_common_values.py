"""Test JSON shapes, ranges, printed lines, result names, and whether checks are made or listed."""
from __future__ import annotations

import argparse
import hashlib
import io
import itertools
import os
import unittest
from types import SimpleNamespace
from typing import Any, Sequence
from unittest import mock

from subtitles.common.checks import (
    CHECK_KINDS, CHECKS, CheckState, CLOCK, decide_check, describe_kinds, FAILED,
    find_missing_kinds, HOLE, JUMP, KINDS, LISTED, LOSSES, MADE, NO_VIDEO, OPTION,
    parse_required_kinds, PHRASES, UNREAD)
from subtitles.common.markup import markup
from subtitles.common.shapes import (
    Flag, Integer, ListOf, Maybe, Member, Number, OneOf, Record, Rules, Shape, Text)
from subtitles.common.times import ALL_DAY, FrameRange, FRAMES_OF_A_DAY
from subtitles.judging.sentence import Facts, write_sentence
from subtitles.judging.status import ACCEPTED, NOT_JUDGED, REFUSED, RELATIVE
from subtitles.judging.unchecked import list_check_entries, MISSING_TEXTS, Unchecked
from subtitles.request.commands import Listener, make_pair_name, OutputNames, Printer, Progress
from subtitles.request.request import ORIGIN_CHOICE, Selection
from .bench import Case
from .judged import ProgrammeCase
from .test_formats_files import refusal


class Shapes(unittest.TestCase):
    """The rules of `OUTER_RECORD`: a is "p" and b is `None`, or a consists of q and r; and a is "p"
    or "q", or b is an inner record."""

    INNER_RECORD = Record("inner", "", Member("x", Integer(0, 5)),
                          Member("y", Flag(), is_required=False))
    OUTER_RECORD = Record("outer", "", Member("a", Text()), Member("b", Maybe(INNER_RECORD)),
                          Member("c", ListOf(INNER_RECORD, 2), is_required=False), rules=(
                       Rules(({"a": OneOf("p"), "b": OneOf(None)}, {"a": Text("[qr]+")})),
                       Rules(({"a": Text("[pq]")}, {"b": INNER_RECORD}))))

    def test_accepts_only_values_of_the_right_type(self) -> None:
        nan, inf = float("nan"), float("inf")
        # A shape, values that fit, and values that do not
        rows: list[tuple[Shape, list[object], list[object]]] = [
            (Text(), ["", "a", "\n"], [None, 5, b"a", ["a"]]),
            (Text("[a-c]+"), ["abc", "a"], ["", "abcd", "dabc", "abc\n", "ab\nc", None]),
            (Text("", 3, 1), ["a", "abc"], ["", "abcd"]),
            (Text("a*", 3, 1), ["a", "aaa"], ["", "aaaa", "b"]),
            (Integer(1, 5), [1, 5], [0, 6, 2.0, True, "1", None]), (Integer(0, 1), [0, 1], [
                True, False, -1]),
            (Number(5), [0, 5, 2.5, 5.0], [-1, -0.1, 5.1, 6, nan, inf, -inf, True, "1", None]),
            (OneOf("a", 1, None), ["a", 1, None], ["b", 2, True, 1.0, "1", False, ""]),
            (OneOf(True), [True], [1, 1.0, False]), (Flag(), [True, False], [0, 1, None, "true"]),
            (Maybe(Integer(0, 1)), [None, 1], [2, "", False])]
        for shape, good, bad in rows:
            for value in good:
                self.assertIsNone(shape.find_misfit(value), (shape.schema(), value))
            for value in bad:
                self.assertEqual(shape.find_misfit(value), "", (shape.schema(), value))

    def test_reports_the_place_of_the_first_value_that_does_not_fit(self) -> None:
        item: dict[str, Any] = {"x": 1}
        # A shape, a value, and the place ("": the value itself, `None`: all of it fits)
        deep: list[tuple[Shape, object, str | None]] = [
            (ListOf(Integer(0, 9), 3, 1), [1, 2, 3], None), (ListOf(Integer(0, 9), 3, 1), [], ""),
            (ListOf(Integer(0, 9), 3, 1), [1, 2, 3, 4], ""), (ListOf(Flag(), 3), [], None),
            (ListOf(Integer(0, 9), 3, 1), (1, 2), ""), (ListOf(Integer(0, 9), 3), None, ""),
            (ListOf(Integer(0, 9), 3), [1, 10, "x"], "[1]"), (ListOf(Flag(), 3), [True, 1], "[1]"),
            (self.INNER_RECORD, item, None), (self.INNER_RECORD, {"x": 1, "y": False}, None),
            (self.INNER_RECORD, {"y": True}, ".x"), (self.INNER_RECORD, {"x": 6}, ".x"),
            (self.INNER_RECORD, [item], ""), (self.INNER_RECORD, {"x": 1, "y": 1}, ".y"),
            (self.INNER_RECORD, {"x": 1, "z": 1}, ".z"),
            (self.INNER_RECORD, None, ""), (self.OUTER_RECORD, {"a": "p", "b": None}, None),
            (self.OUTER_RECORD, {"a": "q", "b": None, "c": [item, item]}, None),
            (self.OUTER_RECORD, {"a": "q", "b": {"x": 9}}, ".b.x"),
            (self.OUTER_RECORD, {"b": None}, ".a"),
            (self.OUTER_RECORD, {"a": "q", "b": item, "c": [item, {"x": 1, "y": 2}]}, ".c[1].y"),
            (self.OUTER_RECORD, {"a": "p", "b": item}, ".a"),
            (self.OUTER_RECORD, {"a": "s", "b": item}, ".a"),
            (self.OUTER_RECORD, {"a": "r", "b": item}, None),
            (self.OUTER_RECORD, {"a": "r", "b": None}, ".a")]
        for shape, value, place in deep:
            self.assertEqual(shape.find_misfit(value), place, value)

    def test_cuts_a_text_and_a_list_that_are_too_long(self) -> None:
        # A shape, a value, and what the result file has
        rows: list[tuple[Shape, object, object]] = [
                (Text(most=5), "abcde", "abcde"), (Text(most=5), "abcdef", "ab..."),
                (Text("a*", 5), "a" * 6, "a" * 6),  # a text with a pattern is not cut
                (Text(most=5), None, None),
                (Maybe(Text(most=5)), "abcdef", "ab..."), (Maybe(Text()), None, None),
                (ListOf(Text(most=4), 2), iter(["abcde", "b", "c"]), ["a...", "b"]),
                (ListOf(Flag(), 2), (), []), (Integer(0, 1), 0, 0),
                (self.INNER_RECORD, {"x": 1, "y": False, "z": 3}, {"x": 1, "y": False}),
                (self.INNER_RECORD, {"x": 0}, {"x": 0}),
                (Record("", "", Member("n", Text(most=4), getter=lambda value: value.m)),
                 SimpleNamespace(m="abcde"), {"n": "a..."}),
                (Record("", "", Member("n", Flag())), SimpleNamespace(n=False), {"n": False})]
        for shape, value, expected in rows:
            self.assertEqual(shape.to_json(value), expected, value)

    def test_prefixes_all_anchors_of_a_part_and_their_links(self) -> None:
        some = markup('<a id="x">{}</a><a href="#x">b</a><a id="y" href="#y">c</a>', ' id="')
        self.assertEqual(some.prefix_anchors("p").source,
                         '<a id="px"> id=&quot;</a><a href="#px">b</a><a id="py" href="#py">c</a>')


class Spans(unittest.TestCase):
    def test_has_the_first_frame_and_not_the_end(self) -> None:
        day = FRAMES_OF_A_DAY
        # A range, whether it includes the frames 0, 25 and 50, and its options
        for between, inside, words in (
                (ALL_DAY, [True, True, True], ""), (FrameRange(25, 50), [False, True, False],
                                                    "--from 00:00:01:00 --to 00:00:02:00"),
                (FrameRange(0, 25), [True, False, False], "--to 00:00:01:00"),
                (FrameRange(50, day), [False, False, True], "--from 00:00:02:00"),
                (FrameRange(0, 0), [False] * 3, "--to 00:00:00:00"),
                (FrameRange(1, day - 1), [False, True, True],
                 "--from 00:00:00:01 --to 23:59:59:24")):
            self.assertEqual([between.includes(frame) for frame in (0, 25, 50)], inside, between)
            self.assertEqual(" ".join(between.words()), words, (between, inside))


class PrintedLines(unittest.TestCase):
    def setUp(self) -> None:
        self.printer, self.out = Printer(Progress()), io.StringIO()
        self.printer.out = self.out
        self.printed = list[str]()
        printer: Any = SimpleNamespace(print_line=self.printed.append,
                                       print_command=self.printed.append)
        self.listener = Listener(printer)

    def test_keeps_each_note_once_and_prints_none(self) -> None:
        for notes in (("a", "", "b"), ("a", "c"), ("b",)):
            self.listener.add_notes(*notes)
        self.assertEqual((self.listener.notes, self.printed), (["a", "b", "c"], []))

    def test_keeps_and_prints_commands_and_choices(self) -> None:
        first, second = (Selection(ORIGIN_CHOICE, value, f"line {value}") for value in "12")
        self.listener.add_selection(first)
        self.listener.add_selection(second, False)  # which is not printed
        self.listener.add_command("check", "a b", ">", "c")
        self.listener.add_command("check", "d'", "|", "e")
        self.listener.print_line("more")
        commands = ["check 'a b' >c", "check 'd'\"'\"'' | e"]
        self.assertEqual(self.listener.selections, [first, second])
        self.assertEqual(self.listener.commands, commands)
        self.assertEqual(self.printed, ["line 1", *commands, "more"])

    def test_runs_the_last_step_between_sentence_and_last_line(self) -> None:
        self.printer.before_last_line = lambda: print("at end", file=self.out)
        self.printer.is_quiet = True
        self.printer.print_verdict("sentence", "line")
        self.assertEqual(self.out.getvalue(), "sentence\nat end\nline\n")
        self.assertEqual(self.printer.last_line, "line")

    def test_prints_other_lines_only_if_it_is_not_quiet(self) -> None:
        self.printer.print_line("one\x07")
        self.printer.is_quiet = True
        self.printer.print_line("two")
        self.assertEqual((self.printer.last_line, self.out.getvalue()), ("two", "one\\x07\n"))

    def test_discards_the_output_if_nobody_reads_it(self) -> None:
        with mock.patch.object(self.out, "write", side_effect=BrokenPipeError), mock.patch(
                "subtitles.request.commands.discard_output") as discard_output:
            self.printer.print_line("nobody reads it")
        self.assertEqual((discard_output.call_args.args, self.printer.last_line),
                         ((self.out,), "nobody reads it"))


class FileNames(Case):
    def setUp(self) -> None:
        super().setUp()
        # Files are written to `later`, and moved to `out` when all are complete.
        self.names = OutputNames("one", self.folder, "out", "later")

    def test_writes_to_one_folder_and_displays_the_other(self) -> None:
        for names, name in ((self.names, "one"), (self.names.make_part_paths(2), "one.2")):
            self.check(name, (names.make_display_path("html"), names.report_path, names.json_path),
                       (f"out/{name}.html", f"later/{name}.html", f"later/{name}.json"))

    def test_names_the_file_that_the_program_reads_and_its_copy_with_moved_times(self) -> None:
        path = self.write("a.stl", b"one")
        self.names.set_subtitle_file(path)
        self.check("itself", (self.names.program_stl, self.names.make_part_paths(1).program_stl),
                   (path, path))
        self.names.set_subtitle_file(path, is_moved=True)
        self.check("moved", self.names.make_part_paths(1).moved_stl, "out/one.midnight.copy")

    def test_gives_the_program_a_file_name_in_utf_8(self) -> None:
        latin_1 = os.fsdecode(os.fsencode(self.path("caf")) + b"\xe9")
        self.write(latin_1, b"two")
        link = self.path("one.given.stl")
        for _ in range(2):
            self.names.set_subtitle_file(latin_1)
            self.check("names", (self.names.program_stl,
                                 self.names.make_part_paths(1).program_stl), (link, link))
            self.check("content", self.read("one.given.stl"), b"two")
            self.must("another", self.names.make_utf_8_path(latin_1, "x") != link)

    def test_shortens_names_of_more_than_180_bytes_and_adds_their_checksum(self) -> None:
        # A name and, if it is shortened, its first 120 bytes without half a character
        for name, beginning in (
                ("a" * 180, ""), ("é" * 90, ""), ("a" * 181, "a" * 120), ("a" * 182, "a" * 120),
                ("a" + "é" * 90, "a" + "é" * 59), ("\x07" * 61, "%07" * 40)):
            checksum = hashlib.sha256(name.encode()).hexdigest()[:32]
            self.check(name, make_pair_name(f"{name}.stl"),
                       f"{beginning}%~{checksum}" if beginning else name)


# Whether a check was made, failed, and is listed as not made somewhere: the decision about it
DECISIONS = {(False, False, False): LISTED, (False, False, True): LISTED,
             (False, True, False): FAILED, (False, True, True): LISTED,
             (True, False, False): MADE, (True, False, True): LISTED,
             (True, True, False): FAILED, (True, True, True): LISTED}


class Checks(Case):
    def test_a_check_is_made_has_failed_or_is_listed(self) -> None:
        self.check("all combinations are in the table", sorted(DECISIONS),
                   sorted(itertools.product((False, True), repeat=3)))
        for values, decision in DECISIONS.items():
            self.check(f"{values}", decide_check(CheckState(*values)), decision)

    def test_each_kind_of_check_has_a_phrase_and_belongs_to_a_check(self) -> None:
        self.check("kinds", sorted({kind for kinds in CHECKS.values() for kind in kinds}),
                   sorted(CHECK_KINDS))
        self.check("phrases", sorted(PHRASES), sorted(CHECK_KINDS))
        self.check("first kinds", KINDS[:len(CHECK_KINDS)], CHECK_KINDS)

    def test_lists_a_check_of_a_part_that_was_neither_made_nor_failed_nor_listed(self) -> None:
        states = [CheckState(is_made, has_failed) for is_made in (False, True)
                  for has_failed in (False, True)]
        for name, kinds in CHECKS.items():
            for state, kind, number in itertools.product(states, (None, *kinds), (None, 1, 2)):
                entries = [Unchecked(kind, "why", number)] if kind else []
                others = {other: CheckState(True) for other in CHECKS}
                listed = [*list_check_entries(entries, [(1, {**others, name: state}),
                                                        (2, others)])]
                is_listed = kind is not None and number in (None, 1)
                is_new = not is_listed and state == CheckState()
                self.check(f"{name} {state} {kind} {number}", listed, [
                    Unchecked(kinds[0], MISSING_TEXTS[name], 1)] * is_new)
        self.check("nothing is known", [item.kind for item in list_check_entries([], [(1, {})])],
                   [UNREAD, LOSSES, CLOCK, OPTION])

    def test_describes_kinds_of_unmade_checks(self) -> None:
        drift = "whether the video and the subtitles drift apart"
        rows: dict[str, tuple[Sequence[str], str]] = {
            "nothing": ((), ""), "unread": ((UNREAD,), f"Not checked: {drift}."),
            "places": ((HOLE, JUMP), f"Not checked: {drift}, at each place."),
            "no video": ((NO_VIDEO, LOSSES), "Not checked: the pictures, since there is no video; "
                         "losses that leave no trace.")}
        for name, (kinds, sentence) in rows.items():
            self.check(name, describe_kinds(kinds), sentence)

    def test_the_sentence_of_a_judged_pair_names_unmade_checks(self) -> None:
        drift = " Not checked: whether the video and the subtitles drift apart"
        delay = "; a delay that all subtitles share"  # `relative` means this, so it is not named
        for word, end in ((ACCEPTED, f"{drift}{delay}."), (REFUSED, f"{drift}{delay}."),
                          (RELATIVE, f"{drift}."), (NOT_JUDGED, "")):
            sentence = write_sentence(Facts(word, 2, unchecked=[UNREAD, CLOCK], reason="why"))
            self.check(word, "".join(sentence.partition(" Not checked: ")[1:]), end)

    def test_parses_required_kinds(self) -> None:
        self.check_rows(parse_required_kinds, {
            "all": (("all",), CHECK_KINDS), "one": (("clock",), (CLOCK,)),
            "in order": (("losses, no_video,losses",), (NO_VIDEO, LOSSES)),
            "all and one": (("clock,all",), CHECK_KINDS)})
        for text, wrong in (("", ""), ("row_0", "row_0"), ("clock,", ""), ("all,video", "video")):
            message = refusal(lambda: parse_required_kinds(text), argparse.ArgumentTypeError)
            self.check(text, message, f"{wrong!r} is not a check: give all or some of "
                       f"{','.join(CHECK_KINDS)}")

    def test_names_all_required_checks_that_were_not_made(self) -> None:
        self.check("kinds", find_missing_kinds((CLOCK, LOSSES, NO_VIDEO),
                                               (OPTION, NO_VIDEO, CLOCK)), [NO_VIDEO, CLOCK])


class RequiredChecks(ProgrammeCase):
    """A recording of PES packets, which has no video, with a given clock."""

    def test_does_not_judge_without_a_required_check(self) -> None:
        profile = self.write("profile", b"--require no_video,clock\n")
        reason = "required but not checked: no_video"
        rows: dict[str, tuple[Sequence[str], str, str | None]] = {
            "not required": ((), "accepted", None), "required": (("--require", "no_video"),
                                                                 "not judged", reason),
            "a profile": (("--profile", profile), "not judged", reason),
            "made": (("--require", "clock,video_unread,option"), "accepted", None),
            "one made": (("--require", "clock"), "accepted", None),
            "all": (("--require", "all"), "not judged", reason),
            "strict": (("--strict",), "accepted", None)}
        for name, (words, verdict, why) in rows.items():
            judged = self.judge(self.sent, "--every", "25", *words)
            self.check(name, (judged.verdict.word, judged.verdict.unjudged_reason),
                       (verdict, why))
        judged = self.judge(self.sent[:-9], "--every", "25", "--require", "all")
        self.check("a fault", (judged.verdict.word, judged.verdict.status), ("refused", 1))
