"""Test the limits of options and arguments, and that files are read and written completely."""
from __future__ import annotations

import argparse
import ast
import contextlib
import hashlib
import io
import os
import random
import shlex
import shutil
import subprocess
import sys
import time
from types import SimpleNamespace
from typing import Any, Callable
from unittest import mock

from subtitles.common import command_line
from subtitles.common.command_line import Stop
from subtitles.common.files import (
    BUFFER_SIZE, BackgroundChecksum, File, Input, Inputs, SummedFile, add_name_to_errors,
    is_replaced, make_safe_name, make_temporary_folder, open_output, open_result, read_first_bytes)
from subtitles.common.markup import join_markup, markup
from subtitles.common.program import find_built_program, sources
from subtitles.formats import listing
from subtitles.request.lines import (
    MAX_BYTES, MAX_LINES, MAX_LINE_CHARACTERS, MAX_WORDS, MAX_LINE_WORDS, split_lines,
    read_list, split_arguments)
from .bench import Case
from .stories import read_vectors
from .test_dev_layers import TOOLS, modules
from .test_formats_files import refusal


class CommandLine(Case):
    def test_accepts_the_limits_of_each_option(self) -> None:
        """The rows of dev/vectors/arguments.tsv. Numbers of 5,000 digits are refused too."""
        for row in read_vectors("arguments.tsv"):
            function = getattr(command_line, row["function"])
            for text, expected in ((row["text"], row["value"]), ("9" * 5000, "refused")):
                try:
                    result = repr(function(text))
                except argparse.ArgumentTypeError as error:
                    result = "refused" if expected == "refused" else str(error)
                self.check(f"{row['function']} {text[:20]}", result, expected)

    def test_gives_the_program_a_pid_and_a_packet_size_other_than_188(self) -> None:
        """A file of PES packets has no PID (`None`), and gets neither option."""
        for pid, size, expected in ((None, 188, []), (None, 204, []),
                                    (0x101, 188, ["--pid", "0x101"]),
                                    (0, 192, ["--pid", "0x0", "--packet-size", "192"])):
            self.assertEqual(command_line.make_stream_options(pid, size), expected, (pid, size))

    def test_page_888_is_the_default_of_pes2ts(self) -> None:
        parser = command_line.ToolParser("")
        command_line.add_page(parser)
        self.assertEqual(vars(parser.parse_args([])), {"page": (0, 0x88)})

    def test_escapes_control_characters_of_terminals(self) -> None:
        for text, expected in (("\x1f ~\x7f", "\\x1f ~\\x7f"),
                               ("\x80\x9f\xa0", "\\u0080\\u009f\xa0"),
                               ("\u061c\u061b", "\\u061c\u061b"),
                               ("\u200d\u200e\u200f\u2010", "\u200d\\u200e\\u200f\u2010"),
                               ("\u2027\u2028\u202e\u202f", "\u2027\\u2028\\u202e\u202f"),
                               ("\u2065\u2066\u2069\u206a", "\u2065\\u2066\\u2069\u206a"),
                               ("\ufffd\ufffe\uffff", "\ufffd\\ufffe\\uffff"),
                               ("\udc80\udcff", "\\x80\\xff"), ("\udc7f\ud800", "\\udc7f\\ud800"),
                               ("a\nb\0", "a\\x0ab\\x00")):
            self.assertEqual(command_line.escape_hidden(text), expected, text)
            self.assertTrue(command_line.quote_argument(text).startswith("$'"), text)

    def test_a_shell_reads_a_quoted_argument_as_the_text(self) -> None:
        for text in ("plain", "two words", "it's", "a\\b", ""):
            self.assertEqual(shlex.split(command_line.quote_argument(text)), [text], text)
        for text in ("it's\na\\n", "\x1b[1m"):
            process = self.call(["bash", "-c", f"printf %s {command_line.quote_argument(text)}"])
            self.assertEqual(process.out.decode(), text, text)

    def test_formats_each_error_as_one_line(self) -> None:
        for reason, expected in (
                (Stop("a  line\nof two"), "a line of two"), (KeyboardInterrupt(), "stopped"),
                (MemoryError(), "out of memory"),
                (OSError(2, "No such file", "a.stl"), "a.stl: No such file"),
                (OSError(28, "No space"), "the output: No space"),
                (OSError(2, "No such file", ""), "an empty name: No such file"),
                (OSError("a  word"), "the output: a word"),
                (ValueError("x  y"), "internal error: ValueError in no line: x y")):
            self.assertEqual(command_line.format_error(reason), expected, reason)

    def test_prints_a_traceback_of_an_internal_error_if_subttx_debug_is_1(self) -> None:
        for value, error, count in (("0", ValueError("x"), 0), ("0", Stop("x"), 0),
                                    ("1", ValueError("x"), 1), ("1", Stop("x"), 0)):
            with mock.patch.dict(os.environ, {"SUBTTX_DEBUG": value}), \
                    mock.patch("traceback.print_exception") as print_exception:
                command_line.format_error(error)
            self.assertEqual(print_exception.call_count, count, (value, error))

    def test_a_safe_name_begins_with_no_character_that_has_a_meaning_for_tools(self) -> None:
        for name, expected in (("a", "a"), ("-", "./-"), ("-a", "./-a"), ("=a", "./=a"),
                               ("+a", "./+a"), ("@a", "./@a"), ("a-", "a-"), ("/-a", "/-a")):
            self.assertEqual(make_safe_name(name), expected, name)

    def test_the_version_is_unknown_without_its_file(self) -> None:
        with mock.patch.object(command_line, "HOME", self.folder):
            self.assertEqual(command_line.version(), "of an unknown version")

    def test_fails_if_standard_output_is_closed(self) -> None:
        with mock.patch.object(sys, "stdout", None), \
                mock.patch.object(command_line, "discard_output"), \
                contextlib.redirect_stderr(io.StringIO()) as errors:
            self.assertEqual(command_line.run_main(lambda words: 0, []), 2)
        self.assertIn(": standard output is closed\n", errors.getvalue())

    def test_names_a_file_as_it_was_given(self) -> None:
        with self.assertRaises(OSError) as reported, add_name_to_errors("typed"):
            raise OSError(2, "No such file", "one", None, "two")
        self.assertEqual((reported.exception.filename, reported.exception.filename2),
                         ("typed", None))

    def test_waits_twice_for_a_pipe_that_twice_has_no_data(self) -> None:
        reads = [None, None, b"some"]
        pipe: Any = SimpleNamespace(read=lambda size: reads.pop(0), close=lambda: None)
        with Input(os.devnull) as source, mock.patch("select.select") as select:
            source.file.close()
            source.file = pipe
            self.assertEqual((source.read(5), select.call_count), (b"some", 2))

    def test_refuses_special_files_without_waiting(self) -> None:
        os.mkdir(self.path("folder"))
        os.mkfifo(self.path("pipe"))
        self.make_socket("socket")
        for name, may_be_pipe, kind in (
                ("folder", False, "a folder"), ("folder", True, "a folder"),
                ("pipe", False, "a pipe: give a file"),
                ("socket", False, "a socket"), ("socket", True, "a socket"),
                ("/dev/zero", False, "a device: give a file"),
                ("/dev/zero", True, "a device: give a file or a pipe")):
            self.check(f"{name} {may_be_pipe}", refusal(lambda: read_first_bytes(
                self.path(name), 5, may_be_pipe)), f"{self.path(name)} is {kind}")

    def test_follows_a_link_only_if_this_is_allowed(self) -> None:
        self.write("file", b"12345")
        os.symlink("file", self.path("link"))
        self.check("followed", read_first_bytes(self.path("link"), 9), b"12345")
        self.check("not followed", refusal(lambda: read_first_bytes(
            self.path("link"), 9, is_followed=False)), f"{self.path('link')} is a link")

    def test_refuses_a_file_of_the_system_that_waits(self) -> None:
        with File(self.write("file", b"12345")) as file, mock.patch.object(
                file, "file", mock.Mock(**{"read.return_value": None})):
            self.check("message", refusal(lambda: file.read()),
                       f"{self.path('file')} has no end: give a file")

    def test_splits_random_lines_as_shlex_does(self) -> None:
        def split(function: Callable[..., list[str]], **options: bool) -> list[str] | None:
            """Return the words of the line, or `None` if the function refuses it."""
            with contextlib.suppress(ValueError):
                return function(line, **options)
            return None

        chance = random.Random(94)
        for _ in range(20_000):
            line = "".join(chance.choice("ab \t\\'\"#é\r=-") for _ in range(chance.randrange(12)))
            self.assertEqual(split(split_arguments), split(shlex.split, comments=True), repr(line))

    def test_splits_four_lines_of_the_maximum_length_within_5_seconds(self) -> None:
        began = time.process_time()
        for item in ("a", "'b'c", "\\d", '"\\e"'):
            self.assertEqual(len(split_arguments(item * (MAX_LINE_CHARACTERS // len(item)))),
                             1, item)
        self.assertLess(time.process_time() - began, 5)

    def test_reports_a_line_that_is_too_long_and_goes_on(self) -> None:
        lines = split_lines(f"a\n{'b' * (MAX_LINE_CHARACTERS + 1)}\nc\x0b\x85\u2028 'd e'\n'\nf\\")
        self.assertEqual([(item.number, item.arguments[-1], item.fault) for item in lines], [
            (1, "a", ""), (2, "b" * 80, "it has more than 65,536 characters"), (3, "d e", ""),
            (4, "'", "a quote is not closed"), (5, "f\\", "it ends with a backslash")])

    def test_reads_a_list_of_at_most_16_million_bytes(self) -> None:
        path = self.write("list", (b"#" * 63_999 + b"\n") * (MAX_BYTES // 64_000))
        self.assertEqual([*split_lines(read_list(path))], [])
        with open(path, "ab") as file:
            file.write(b"#")
        self.assertIn("more than 16,000,000 bytes", refusal(lambda: read_list(path)))

    def test_limits_lines_and_words_of_lists(self) -> None:
        many = "a " * MAX_LINE_WORDS
        whole = MAX_WORDS // MAX_LINE_WORDS
        rows = {
            "the most lines": ("a\n" * MAX_LINES, ""),
            "comments and empty lines": ("#\n\n" * MAX_LINES, ""),
            "one line more": ("a\n" * MAX_LINES + "a", f"line {MAX_LINES + 1}"),
            "quotes that do not end": ('"\n' * 2 * MAX_LINES, f"line {MAX_LINES + 1}"),
            "the most words": (f"{many}\n" * whole, ""),
            "more words": (f"{many}\n" * (whole + 1), f"line {whole + 1}")}
        for name, (text, place) in rows.items():
            message = refusal(lambda: [*split_lines(text)])
            self.check(name, message, place and f"{place} exceeds the limits of a list: 100,000 "
                       "lines and 1,000,000 words")

    def test_limits_words_of_a_line_and_refuses_nul_characters_in_words(self) -> None:
        many = "a " * MAX_LINE_WORDS
        for name, (text, fault) in {
                "the most words of a line": (many, ""),
                "one more": (f"{many}a", "it has more than 256 words"),
                "a NUL character": ("a b\0c", "a word has a NUL character"),
                "one in a comment": ("a #\0", "")}.items():
            self.check(name, [line.fault for line in split_lines(text)], [fault])

    def test_escapes_text_in_pages(self) -> None:
        for text, expected in (("a<b>&\"'", "a&lt;b&gt;&amp;&quot;&#x27;"), ("\x07", "\\x07"),
                               ("\ufffe", "\\ufffe"), ("{}", "{}"), ("a\nb", "a\nb"),
                               ("\r", "\\x0d"), ("\t", "\\x09")):
            self.assertEqual(markup('<a b="{}">{}</a>', text, text).source,
                             f'<a b="{expected}">{expected}</a>', text)

    def test_joins_markup_without_escaping_it_again_and_refuses_text(self) -> None:
        bold = markup("<b>{}</b>", 5)
        self.assertEqual((markup("{}{:,}{:.1f}", bold, 1000, 2.55).source, (bold + bold).source,
                          join_markup([bold, "<"], markup("<br/>")).source, bool(bold),
                          bool(markup(""))),
                         ("<b>5</b>1,0002.5", "<b>5</b><b>5</b>", "<b>5</b><br/>&lt;", True,
                          False))
        for wrong in (lambda: f"{bold}", lambda: str(bold), lambda: "".join([bold]),  # type: ignore
                      lambda: bold + "<b>"):  # type: ignore[operator]
            self.assertRaises((TypeError, AttributeError), wrong)

    def test_all_markup_in_the_tools_is_constant(self) -> None:
        for path in modules(TOOLS):
            with open(path, encoding="utf-8") as file:
                calls = [node for node in ast.walk(ast.parse(file.read()))
                         if isinstance(node, ast.Call) and isinstance(node.func, ast.Name)]
            for call in calls:
                at = {"markup": 0, "Markup": 0}.get(call.func.id)  # type: ignore
                if at is not None and not path.endswith("markup.py"):
                    self.must(f"{path} line {call.lineno}", all(isinstance(
                        arg, ast.Constant) for arg in call.args[at:at + 1]))

    def test_reads_meanings_from_the_manual(self) -> None:
        path = self.write("chapter", b"""# Refusals
| Number | Name | Means | Do | Accepted with |
|---|---|---|---|---|
| 10 | One | first | mend it |
| 11 | Two | second | replace it | [a](b) |
""")
        with mock.patch.object(listing, "REFUSALS_PATH", path):
            self.assertEqual(listing.read_meanings(), {
                10: ("One", "first", "mend it"), 11: ("Two", "second", "replace it")})
        with mock.patch.object(listing, "REFUSALS_PATH", self.path("none")):
            self.assertEqual(listing.read_meanings(), {})
        meanings = listing.read_meanings()
        self.assertLessEqual({50, 72}, {*meanings})
        self.assertTrue(all(map(all, meanings.values())))

    def test_writes_through_a_link(self) -> None:
        os.symlink(self.write("one", b"old"), self.path("link"))
        with open_output(self.path("link")) as file:
            file.write(b"linked")
        self.assertEqual((self.read("one"), os.path.islink(self.path("link"))), (b"linked", True))

    def test_an_output_gets_the_permissions_of_a_new_file(self) -> None:
        mask = os.umask(0o027)
        for path in (self.write("old", b"old"), self.path("new")):
            with open_output(path) as file:
                file.write(b"new")
            self.assertEqual(os.stat(path).st_mode & 0o777, 0o640, path)
        os.umask(mask)

    def test_writes_a_file_completely_or_not_at_all(self) -> None:
        path = self.write("one", b"old")
        with self.assertRaises(KeyError), open_output(path) as file:
            file.write(b"half")
            raise KeyError
        self.assertEqual(self.read("one"), b"old")

    def test_replaces_files_but_neither_devices_nor_standard_output(self) -> None:
        for path, expected in ((self.write("one", b""), True), (self.path("none"), True),
                               ("/dev/null", False), ("-", False)):
            self.assertEqual(is_replaced(path), expected, path)

    def test_replaces_a_link_in_a_folder_of_results(self) -> None:
        for target in (self.write("one", b"theirs"), self.path("none"), self.folder):
            os.symlink(target, self.path("link"))
            with open_result(self.path("link")) as file:
                file.write(b"own")
            self.must(target, not os.path.islink(self.path("link")) and
                      self.read("link") == b"own" and self.read("one") == b"theirs" and
                      not os.path.exists(self.path("none")))
            os.unlink(self.path("link"))

    def test_hashes_all_bytes_of_a_file(self) -> None:
        for size in (0, 1, BUFFER_SIZE - 1, BUFFER_SIZE, BUFFER_SIZE + 1, 2 * BUFFER_SIZE + 5):
            name = self.write(f"{size}", bytes(range(251)) * (size // 251) + b"x" * (size % 251))
            expected = SummedFile(name, size, hashlib.sha256(self.read(name)).hexdigest())
            self.check(f"{size} bytes", BackgroundChecksum(name).result(), expected)
            with mock.patch("threading.Thread.start", side_effect=RuntimeError("no thread")):
                self.check(f"{size} bytes, no thread", BackgroundChecksum(name).result(), expected)
        os.mkfifo(self.path("pipe"))
        for wrong in (self.folder, self.path("none"), self.path("0/x"), self.path("pipe")):
            self.assertRaises((Stop, OSError), BackgroundChecksum(wrong).result)

    def test_refuses_a_file_that_is_not_executable(self) -> None:
        self.write_program("program", "#!/bin/sh\n")
        self.write("text", b"#!/bin/sh\n")
        os.mkdir(self.path("folder"))
        for name in ("program", "text", "folder", "none"):
            path = self.path(name)
            self.check(name, refusal(lambda: find_built_program(path)),
                       "" if name == "program" else f"{path} is not an executable program")

    def test_finds_the_program_and_the_checksum_of_the_sources_or_says_why_not(self) -> None:
        # The program's path and the message that tools/program prints, and the reported message
        rows: list[tuple[tuple[str, str], str]] = [
            (("path", ""), ""), (("", "damaged"), "damaged"),
            (("", ""), "no program is built for the sources: run ./subttx, or the gate")]
        for chosen, why in rows:
            with mock.patch("subtitles.common.program.find_program", return_value=chosen):
                message = refusal(lambda: self.assertEqual(find_built_program(), "path"))
            self.check(f"{chosen}", message, why)
        for status in (0, 1, -9):  # of tools/sources
            completed_process = subprocess.CompletedProcess([], status, b"a sum\n")
            with mock.patch("subprocess.run", return_value=completed_process):
                message = refusal(lambda: self.assertEqual(sources(), "a sum"))
            self.check(f"{status}", message, "tools/sources can't read the sources" * bool(status))

    def refuses(self, inputs: Inputs, name: str, is_followed: bool) -> bool:
        """Return whether `inputs` refuse to write to a file, or to replace it without following."""
        return bool(refusal(lambda: inputs.refuse(self.path(name), is_followed)))

    def test_refuses_an_output_that_is_an_input_under_any_name(self) -> None:
        os.link(self.write("one", b"1"), self.path("hard"))
        self.write("other", b"2")
        for link in ("link", "another"):
            os.symlink("one", self.path(link))
        inputs = Inputs(self.path("link"), None, "-", self.path("none"))
        for name, is_followed, expected in (
                ("one", False, True), ("hard", False, True), ("link", False, True),
                ("other", True, False), ("none", True, False), ("another", False, False),
                ("another", True, True)):
            self.check(f"{name} {is_followed}", self.refuses(inputs, name, is_followed), expected)

    def test_refuses_an_output_that_is_the_standard_input(self) -> None:
        path, before = self.write("one", b"1"), os.dup(0)
        for name, expected in (("one", True), ("pipe", False)):
            os.dup2(os.open(path, os.O_RDONLY) if name == "one" else os.pipe()[0], 0)
            self.check(name, self.refuses(Inputs("-"), "one", True), expected)
        os.dup2(before, 0)

    def test_does_not_refuse_an_input_that_was_renamed(self) -> None:
        inputs = Inputs(self.write("other", b"2"))
        self.check("before", self.refuses(inputs, "other", True), True)
        os.rename(self.path("other"), self.path("kept"))
        self.check("after", self.refuses(inputs, "kept", True), False)


class Signals(Case):
    """Calls that a KeyboardInterrupt, such as by Ctrl-C, ends."""

    def test_leaves_the_old_or_the_new_file_and_no_other(self) -> None:
        for is_before in (True, False):
            path = self.write("file", b"old")

            def replace(name: str, target: str) -> None:
                if not is_before:
                    os.rename(name, target)
                raise KeyboardInterrupt

            name = "before the file is replaced" if is_before else "after the file was replaced"
            with self.assertRaises(KeyboardInterrupt, msg=name), mock.patch(
                    "subtitles.common.files.os.replace", replace), open_output(path) as file:
                file.write(b"new")
            self.check(f"{name}: file", self.read("file"), b"old" if is_before else b"new")
            self.check(f"{name}: files", os.listdir(self.folder), ["file"])

    def test_removes_a_temporary_folder(self) -> None:
        # The signal comes when the folder is made, when it is removed, or while it is used.
        for place in ("os.mkdir", "shutil.rmtree", ""):
            def interrupt(path: str, *args: Any, **more: Any) -> None:
                paths.append(path)
                if place != "shutil.rmtree":
                    function(path, *args, **more)
                if len(paths) == 1:
                    raise KeyboardInterrupt
                function(path, *args, **more)

            paths: list[str] = []
            function: Any = os.mkdir if place == "os.mkdir" else shutil.rmtree
            patched: Any = \
                mock.patch(f"subtitles.common.files.{place}", interrupt) if place else \
                contextlib.nullcontext()
            with mock.patch("tempfile.tempdir", self.folder), self.assertRaises(KeyboardInterrupt):
                with patched, make_temporary_folder("one-") as folder:
                    self.check(f"{place}: parent", os.path.dirname(folder), self.folder)
                    self.check(f"{place}: mode", os.stat(folder).st_mode & 0o777, 0o700)
                    for name in ("one", "two"):
                        os.mkdir(os.path.join(folder, name))
                    if not place:
                        raise KeyboardInterrupt
            self.check(f"{place}: files", os.listdir(self.folder), [])
