"""Test which options each mode of tools/qc accepts, and how tools refuse wrong arguments."""
from __future__ import annotations

import argparse
import csv
import itertools
import json
import os
import re
import shlex
import string
import xml.etree.ElementTree as tree
from types import ModuleType
from typing import Iterator, NamedTuple
from unittest import mock

from subtitles.cli import batch, collection, main, measure, single
from subtitles.cli.main import (
    OPTION_MODES, find_mode, make_parser, find_output_path, find_pair_name, read_jobs,
    parse_line_number, read_seconds, refuse_options)
from subtitles.common import command_line
from subtitles.common.command_line import Stop, UsageError
from subtitles.common.program import TOP, read
from subtitles.request.commands import CommandPaths
from subtitles.request.lines import make_line_request
from subtitles.request.request import (
    ALONE, BATCH, COLLECT, LINE, MEASURE, MODES, Mode, PAIR, WATCH)
from subtitles.results.files import FORMULA_BEGINNINGS
from .bench import Case, get_example_path, get_tool_path, is_python
from .parts import make_default_options
from .stories import read_vectors

# Arguments that select each mode of tools/qc.
CALLS: dict[Mode, list[str]] = {
    PAIR: ["a.stl", "a.ts"], ALONE: ["a.stl", "--file-only"], BATCH: ["--batch", "in"],
    WATCH: ["--watch", "in"], COLLECT: ["--collect", "in"],
    MEASURE: ["--measure", "a.stl", "a.ts"]}
# A valid value for each option that takes a value.
VALUES = {"--reference": "b.ts", "--reference-start": "10:00:00:00", "--page": "801",
          "--every": "25", "--within": "1", "--option": "german", "--origin": "7",
          "--start": "tcp", "--breaks": "1", "--pes": "2-9", "--pid": "0x101", "--severity": "file",
          "-o": "out", "--json": "x", "--csv": "x", "--junit": "x", "-p": "none",
          "--require": "losses", "--line": "2", "--jobs": "2", "--limit": "9", "--settled": "1",
          "--from": "00:00:01:00",
          "--to": "00:00:02:00", "--layout": "fit", "--pace": "9", "--late": "0:9/0:9"}
MANUAL = os.path.join(TOP, "docs", "manual", "qc.md")
NO_RECORDING = "no recording was given; to check the subtitle file alone, add --file-only"
MODE_OPTIONS = {"--batch", "--watch", "--collect", "--measure", "--help", "-h", "--version"}


def list_option_arguments(name: str, folder: str) -> list[str]:
    if name == "--profile":
        return [name, os.path.join(folder, "house")]
    return [name, VALUES[name]] if name in VALUES else [name]


def refusal(mode: Mode, name: str, folder: str) -> str | None:
    """Return the error message about an option in a mode, or `None` if the mode accepts it."""
    try:
        if mode is LINE:
            make_line_request(["a.stl", "a.ts", *list_option_arguments(name, folder)],
                              make_default_options())
        else:
            line = [*CALLS[mode], *list_option_arguments(name, folder)]
            refuse_options(make_parser(""), line, find_mode(make_parser("").parse_args(line)))
    except Stop as reason:
        return str(reason)
    return None


class Modes(Case):
    """The options that each mode of tools/qc accepts: one pair, a batch, --watch and others."""

    def test_each_mode_accepts_or_refuses_each_option(self) -> None:
        self.write("house", b"--every 25\n")
        for name, taken_by in OPTION_MODES.items():
            for mode in MODES:
                error = refusal(mode, name, self.folder)
                is_right = error is None if mode in taken_by else name in (error or "")
                self.must(f"{name} and {mode.text}", is_right, error)

    def test_the_last_of_repeated_options_wins(self) -> None:
        for words, name, value in (
                ("--every 25 --every 50", "every", 50), ("--json a --json b", "json", "b"),
                ("--no-complete --complete", "is_complete", True),
                ("--complete --no-complete", "is_complete", False), ("-o a -o b", "out", "b"),
                ("--page 801 --page 8A2", "page", (0, 0xA2))):
            args = make_parser("").parse_args(["a.stl", "a.ts", *words.split()])
            self.check(words, vars(args)[name], value)

    def test_refuses_an_option_of_another_mode_even_with_its_default_value(self) -> None:
        modes = {mode.text: mode for mode in MODES}
        for row in read_vectors("options-of-other-modes.tsv"):
            mode = modes[row["mode"]]
            with self.assertRaises(Stop) as refused:
                refuse_options(make_parser(""), [*CALLS[mode], *row["options"].split()], mode)
            self.must(row["name"], str(refused.exception).startswith(row["message"]),
                      refused.exception)

    def test_calls_the_function_of_each_mode(self) -> None:
        # Arguments of qc, the function that they call, and some arguments that it gets.
        rows: list[tuple[list[str], ModuleType, str, dict[str, object]]] = [
            (CALLS[PAIR], single, "judge_command", {"recording": "a.ts", "out": None}),
            (CALLS[ALONE], single, "judge_command", {"stl": "a.stl", "recording": None}),
            ([*CALLS[PAIR], "-o", "x", "--keep"], single, "judge_command",
             {"out": "x", "is_kept": True}),
            ([*CALLS[PAIR], "-o@x"], single, "judge_command", {"out": "./@x"}),
            (CALLS[BATCH], batch, "judge_batch", {"batch": "in"}),
            (CALLS[COLLECT], collection, "collect", {"collect": "in"}),
            ([*CALLS[MEASURE], "--page", "801"], measure, "measure",
             {"measure": ["a.stl", "a.ts"], "stl": None}),
            (CALLS[WATCH], batch, "watch", {"settled": 5}),
            ([*CALLS[WATCH], "--settled", "0"], batch, "watch", {"settled": 0})]
        for line, module, name, expected in rows:
            with mock.patch.object(module, name, return_value=7) as function:
                self.check(f"{line}: status", main.dispatch("", "tools/qc", line), 7)
            args, *others = function.call_args.args
            self.check(f"{line}: options", {item: vars(args)[item] for item in expected}, expected)
            self.check(f"{line}: program name", others, ["tools/qc"] * (module is not collection))
        nothing: list[str] = []
        for line in (nothing, [*CALLS[PAIR], "--keep"]):  # --keep needs -o
            with self.assertRaises(Stop):
                main.dispatch("", "tools/qc", line)

    def test_the_table_has_all_options(self) -> None:
        names = {name for action in make_parser("")._actions for name in action.option_strings}
        self.check("all options", set(OPTION_MODES), names - MODE_OPTIONS)

    def test_a_missing_recording_is_a_usage_error(self) -> None:
        """So a script with an unset variable does not pass."""
        for options in ("", "--strict", "--origin 0", "--profile house", "-o out"):
            with self.assertRaises(UsageError) as refused:
                main.dispatch("", "tools/qc", ["a.stl", *options.split()])
            self.check(options, str(refused.exception), NO_RECORDING)

    def test_prints_the_names_of_tools_as_typed(self) -> None:
        """The names of other tools are paths like that of qc. Only if qc is installed as subttx-qc,
        and the PATH finds it, they are names without a folder."""
        self.write("subttx-qc", b"#!/bin/sh\n")
        os.chmod(self.path("subttx-qc"), 0o755)
        program = self.bench.program
        with mock.patch.dict(os.environ, {"PATH": self.folder}):
            for name, air, subttx in (
                    ("tools/qc", "tools/air", "./subttx"), ("qc", "./air", "../subttx"),
                    ("./qc", "./air", "../subttx"),
                    ("/some/tools/qc", "/some/tools/air", "/some/subttx"),
                    ("/some/subttx-qc", "/some/subttx-air", "/some/subttx"),
                    (self.path("subttx-qc"), "subttx-air", "subttx")):
                paths = CommandPaths(name, program)
                self.check(name, (paths.get_tool_command("air"), paths.get_default_program()),
                           (air, subttx))


class PartialCommandLines(Case):
    """Wrong arguments, of which qc must understand enough to report them in the output files."""

    def test_finds_an_output_file_in_wrong_arguments(self) -> None:
        paths: list[tuple[list[str], str | None]] = [
            (["--json", "x"], "x"), (["--json=x"], "x"), (["--json", "-"], "-"),
            (["--json", "--page"], None), (["--json"], None), (["--json="], None),
            (["--", "--json", "x"], None), (["a", "--json", "x", "--", "b"], "x"),
            (["--json", "a", "--json", "b"], "b"), (["--jsonx", "a"], None),
            (["--json=a", "--json", "b"], "b"), ([], None)]
        for line, path in paths:
            self.assertEqual(find_output_path(line, "--json"), path, line)
            others = [word.replace("json", "junit") for word in line]
            self.assertEqual(find_output_path(others, "--junit"), path, others)

    def test_finds_the_name_of_the_pair_in_wrong_arguments(self) -> None:
        names: list[tuple[list[str], str]] = [
            (["a.STL", "b.ts"], "a"), (["--x", "dir/one.stl"], "one"), ([], ""), (["b.ts"], ""),
            (["one.stl", "two.stl"], "one")]
        for line, name in names:
            self.assertEqual(find_pair_name(line), name, line)

    def test_writes_the_reason_into_each_new_file_but_into_no_foreign_file(self) -> None:
        """Each output is a new file, in a missing folder, or a file with other contents."""
        for at, kinds in enumerate(itertools.product(("new", "none", "other"), repeat=3)):
            paths: dict[str, str | None] = {}
            for option, kind in zip(main.MAKE_CONTENTS, kinds):
                name = f"{at}{option}"
                paths[option] = self.write(name, b"other") if kind == "other" else self.path(
                    f"none/{name}" if kind == "none" else name)
            main.write_unjudged("one", paths, Stop("the reason"))
            for option, kind in zip(main.MAKE_CONTENTS, kinds):
                data = read(paths[option] or "") or ""
                self.check(f"{kinds} {option}", ("the reason" in data, data == "other"),
                           (kind == "new", kind == "other"))

    def test_accepts_numbers_within_their_limits(self) -> None:
        for parse, good, bad in (
                (parse_line_number, ("1", "9999999"), ("0", "10000000", "-1", "", "x", "\u00b2")),
                (read_jobs, ("1", "9999"), ("0", "10000", "-1", "", "x", "\u00b2")),
                (read_seconds, ("0", "99999"), ("100000", "-1", "", "1.5", "\u0663"))):
            self.assertEqual([parse(word) for word in good], list(map(int, good)), parse)
            for word in bad:
                self.assertRaises(argparse.ArgumentTypeError, parse, word)


STL, PES = get_example_path("hello.stl"), get_example_path("hello.pes")


class ToolCall(NamedTuple):
    """A script in tools/ or dev/, its arguments, and the exit status of this call."""

    tool: str
    words: list[str]
    status: int

    @property
    def name(self) -> str:
        return f"{self.tool} {' '.join(self.words)}"


def read_calls() -> Iterator[ToolCall]:
    """Yield the calls in dev/vectors/calls.tsv, with the values of names that begin with $."""
    values = {"STL": STL, "PES": PES, "TOP": TOP, "NINES": "9" * 5000}
    for row in read_vectors("calls.tsv"):
        yield ToolCall(row["tool"], [string.Template(word).substitute(values) for word
                                     in shlex.split(row["arguments"])], int(row["status"]))


def list_tool_names() -> list[str]:
    listed = {name for folder in ("tools", "dev") for name in os.listdir(os.path.join(TOP, folder))}
    return [name for name in sorted(listed)
            if os.access(get_tool_path(name), os.X_OK) and os.path.isfile(get_tool_path(name))]


# Scripts without valid calls in calls.tsv: these are in the gate, in another test, or need the
# toolchain.
CALLED_ELSEWHERE = {
    "tools/check-program": ["check-live", "check-manual", "check-preview", "check-readme",
                            "faults"],
    ".ci/run": ["check-program"], "test_dev_clones": ["release"],
    "test_dev_scripts": ["check-tools", "make-examples"],
    "test_dev_documents": ["make-pages", "make-picture"],
    "the toolchain": ["prove", "slow-proofs"], "by hand": ["plant", "install-test-tools"]}


class ValidArguments(Case):
    """All executable files in tools/ and dev/."""

    def test_each_script_has_a_valid_call(self) -> None:
        valid_tools = {call.tool for call in read_calls() if call.status == 0}
        self.check("scripts", sorted([*valid_tools, *itertools.chain(*CALLED_ELSEWHERE.values())]),
                   list_tool_names())

    def test_a_valid_call_ends_with_status_0(self) -> None:
        for call in read_calls():
            if call.status == 0:
                self.check(call.name, self.tool(call.tool, *call.words).status, 0)

    def test_scripts_read_only_arguments_that_they_define(self) -> None:
        shared_options = read(command_line.__file__) or ""
        for name in list_tool_names():
            text = read(get_tool_path(name)) or ""
            if not is_python(get_tool_path(name)) or "add_argument(" not in text:
                continue
            quoted_names = {word.replace("-", "_")
                            for word in re.findall(r'"-*([-\w]+)"', text + shared_options)}
            self.must(name, set(re.findall(r"\bargs\.(\w+)", text)) <= quoted_names)


class WrongArguments(Case):
    """Tools with wrong arguments, files or devices."""

    def test_prints_one_line_and_writes_no_file(self) -> None:
        calls = [call for call in read_calls() if call.status != 0]
        for tool in sorted({*list_tool_names(), *(call.tool for call in calls)}):
            calls += [ToolCall(tool, [option], 64) for option in ("--colour", "---")]
        for call in calls:
            before = sorted(os.listdir(self.folder))
            process = self.tool(call.tool, *call.words)
            self.must(call.name, process.status == call.status and not process.out
                      and len(process.errors) == 1
                      and process.errors[0].startswith(os.path.basename(call.tool) + ": ")
                      and sorted(os.listdir(self.folder)) == before, process)

    def test_writes_one_unjudged_entry_into_each_requested_file(self) -> None:
        """Each call is made twice: it may replace its own earlier files."""
        names = {"--json": "one.json", "--csv": "one.csv", "--junit": "one.xml"}
        files = [f"{option}={self.path(name)}" for option, name in names.items()]
        usage, missing = (64, "usage"), (2, "input")
        for words, expected in (
                ([STL, PES, "--page", "8FF"], usage), ([STL, PES, "--colour"], usage),
                ([STL, PES, "--jobs", "2"], usage), (["none.stl", PES], missing),
                ([STL, PES, PES], usage), (["--file-only", "none.stl"], missing),
                ([STL, PES, "-p", "none"], missing), ([STL, PES, "--severity", "none"], missing),
                (["--batch", "none"], missing), (["--collect", "none"], missing),
                (["--watch", "none"], usage)) * 2:  # --watch takes none of the three
            process = self.tool("qc", *words, *files)
            reason = process.errors[0].partition(": ")[2]
            known = json.loads(self.read("one.json"))
            known = known.get("pairs", [known])[0]
            self.check(f"{words}: status, kind", (process.status, known["not_judged_kind"]),
                       expected)
            self.check(f"{words}: JSON", (known["status"], known["verdict"], known["reason"]),
                       (process.status, "not judged", reason))
            [row] = csv.DictReader(self.read("one.csv").decode().splitlines())
            cell = "'" * reason.startswith(FORMULA_BEGINNINGS) + reason
            self.check(f"{words}: CSV", (row["verdict"], row["reason"]), ("not judged", cell))
            suite = tree.fromstring(self.read("one.xml"))
            [case] = suite.iter("testcase")
            self.check(f"{words}: JUnit", (suite.get("errors"), [
                item.get("message") for item in case.iter("error")]),
                ("1", [known.get("sentence", reason)]))

    def test_prints_the_help_and_the_version(self) -> None:
        version = (read(os.path.join(TOP, "VERSION")) or "").strip()
        for name in list_tool_names():
            self.check(f"{name} --version", self.tool(name, "--version"),
                       (0, f"{name} {version}\n".encode(), []))
            process = self.tool(name, "--help")
            text = read(get_tool_path(name)) or ""
            shown = re.findall(r'\A[^\n]*\n(?:"""(.*?)"""|((?:#[^\n]*\n)*))', text, re.S)[0]
            shown = shown[0] or re.sub("^# ?", "", shown[1], flags=re.M)
            self.must(name, process.status == 0 and process.out.decode().startswith(shown), process)

    def test_reports_a_full_standard_output(self) -> None:
        if not os.path.exists("/dev/full"):
            self.skipTest("a full device, since there is no /dev/full")
        for name, *words in (["qc", STL, PES, "-p", self.bench.program],
                             ["pes2ts", PES, "0x101"], ["poke", STL], ["qc", "--help"]):
            process = self.call(["sh", "-c", 'exec "$@" >/dev/full', "sh",
                                 get_tool_path(name), *words])
            self.must(name, process.status == 2 and process.errors
                      and "No space" in process.errors[-1], process)

    def test_refuses_devices(self) -> None:
        os.symlink("/dev/zero", self.path("link"))
        for device in ("/dev/zero", "/dev/full", "/dev/urandom", "/dev/null", self.path("link")):
            if not os.path.exists(device):
                self.bench.over.append(f"a device, since there is no {device}")
                continue
            for words in (["poke", device], ["poke", device, "-c", "4"],
                          ["qc", STL, PES, "--severity", device], ["qc", "--batch", device]):
                expected = "a file" if "--severity" in words else "a file or a pipe"
                self.check(" ".join(words), self.tool(*words), (
                    2, b"", [f"{words[0]}: {device} is a device: give {expected}"]))
            for name in "-", "/dev/stdin":
                process = self.call(["sh", "-c", f'exec "$0" "$@" <{device}', get_tool_path("poke"),
                                     name])
                self.check(f"poke {name} <{device}", process, (
                    2, b"", [f"poke: {name} is a device: give a file or a pipe"]))

    def test_poke_changes_bytes_up_to_the_last_one(self) -> None:
        """The input is "abcdef", and `0=@3+2` copies 2 bytes from offset 3 to offset 0. -c limits
        the bytes to write. `None`: the change is outside of these 6 bytes."""
        for words, expected in (
                (["0=41", "5=5A"], b"AbcdeZ"), (["0=4142", "1=5A"], b"AZcdef"),
                (["0=@3+3"], b"defdef"), (["3=@0+3", "0=5A"], b"Zbcabc"),
                (["0=5A", "3=@0+3"], b"ZbcZbc"), (["1=@0+5"], b"aabcde"), (["0=@6+0"], b"abcdef"),
                (["1=41", "-c", "2"], b"aA"), (["-c", "0"], b""), (["-c", "9"], b"abcdef"),
                (["6=41"], None), (["5=4142"], None), (["0=@4+3"], None), (["4=@0+3"], None)):
            refused = 2, b"", ["poke: - has only 6 bytes"]
            self.check(f"{words}", self.tool("poke", "-", *words, data=b"abcdef"),
                       refused if expected is None else (0, expected, []))

    def test_names_files_as_they_were_given(self) -> None:
        for words, named in ((["qc", STL, "no/folder.pes"], "no/folder.pes"),
                             (["qc", "--file-only", "-"], "qc: - does not exist"),
                             (["qc", "--file-only", ""], "an empty name"),
                             (["qc", "--file-only", "--", "-x.stl"], "qc: -x.stl"),
                             (["qc", STL, self.write("cut.pes", b"\0\0\1"), "-p",
                               self.bench.program], self.path("cut.pes"))):
            process = self.tool(*words)
            self.must(" ".join(words), process.status in (1, 2) and named in process.errors[-1]
                      and "subttx-" not in process.errors[-1], process)
