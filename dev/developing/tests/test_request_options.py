"""Test profiles, the table of options, and options in a list of pairs."""
from __future__ import annotations

import dataclasses
import hashlib
import itertools
import os
from typing import Any

from subtitles.common.command_line import (
    Lateness, Stop, ToolParser, UsageError, format_lateness, parse_lateness)
from subtitles.common.times import FRAMES_OF_A_DAY
from subtitles.request.commands import CommandPaths, format_profile, make_command
from subtitles.request.lines import read_pairs, read_profile, make_line_request
from subtitles.request.request import (
    ALONE, JUDGED, LINE, MEASURE, OPTIONS, add_options, keep_stl, make_file_request)
from subtitles.results.schema import REQUEST
from .bench import Case, get_example_path
from .judged import judge_files
from .parts import make_example_request, list_call_arguments, make_default_options
from .stories import read_vectors
from .transmissions import write_pipe, write_subtitle_file


# Options, their arguments, and the matching values in a JSON result.
ROWS: list[tuple[str, str, Any]] = [
    ("--page", "8A1", "8A1"), ("--every", "7", 7), ("--option", "german", "german"),
    ("--origin", "0", 0), ("--pid", "0x101", 257), ("--severity", "a file", "a file"),
    ("--breaks", "2", 2), ("--pes", "3-9", [3, 9]), ("--start", "tcp", "tcp"), ("--within", "5", 5),
    ("--from", "00:00:01:00", "00:00:01:00"), ("--to", "00:00:02:00", "00:00:02:00"),
    ("--layout", "fit,up", "fit,up"), ("--pace", "none", "none"), ("--no-complete", "", False),
    ("--allow-lost", "", True), ("--strict", "", True), ("--open", "", True),
    ("--keeping", "", True), ("--relative", "", True),
    ("--late", "0:31,5:69/0:100", "0:31,5:69/0:100"),
    ("--require", "video_gap,clock", ["video_gap", "clock"])]
FOR_A_FILE = ("--option", "--from", "--to", "--layout", "--open")  # taken without a recording
BACK = {"--complete", "--no-allow-lost", "--no-keeping"}  # options that restore a default


class OptionRows(Case):
    """The table OPTIONS of the options of qc, and the requests to judge a pair with them."""

    def test_each_option_survives_all_conversions(self) -> None:
        """From arguments to a request, and back to arguments, a JSON result and a list's line."""
        self.check("all options", {item.name for item in OPTIONS},
                   {*BACK, "--profile", *(name for name, _, _ in ROWS)})
        parser = ToolParser("")
        add_options(parser)
        default_args = parser.parse_args([])
        without = REQUEST.to_json(make_example_request("one.stl", "one.pes"))
        for name, value, member in ROWS:
            words = [name, value] if value else [name]
            words += ["--within", "5"] if name == "--late" else []
            request = make_example_request("one.stl", "one.pes", *words)
            self.check(f"{name}: arguments", sorted(list_call_arguments(request)),
                       sorted([*words, "--", "one.stl", "one.pes"]))
            self.check(f"{name}: parsed again", make_file_request(
                "one.stl", "one.pes", parser.parse_args(words)), request)
            key = name.replace("--no-", "--").strip("-").replace("-", "_")
            self.check(f"{name}: JSON", REQUEST.to_json(request), {
                **without, **({"within": 5} if name == "--late" else {}), key: member})
            self.check(f"{name}: `schedule`", request.list_schedule_arguments(),
                       words if name in ("--layout", "--open") else [])
            self.check(f"{name}: `check` of a file alone", request.list_check_arguments(True),
                       words if name in FOR_A_FILE else [])
            self.check(f"{name}: line of a list", make_line_request(
                ["one.stl", "one.pes", *words], default_args), request)

    def test_an_advised_command_has_all_options(self) -> None:
        """--start is left out, since --origin is given too."""
        words = [word for name, value, _ in ROWS if name != "--start"
                 for word in ([name, value] if value else [name])]
        request = make_example_request("one.stl", "one.pes", *words)
        command = make_command(request, CommandPaths("tools/qc", self.bench.program))
        for name, _, _ in ROWS:
            self.check(name, f" {name}" in command, name != "--start")

    def test_an_advised_command_for_two_recordings_gives_no_pid_or_clock_of_only_one(self) -> None:
        # Options of the call, the advised option, and the options of the advised command
        for options, more, expected in (
                ("--option german", "--pid 0x101", " --pid 0x101"),
                ("--pid 0x102", "--pid 0x101", ""), ("--start 10:00:00:00", "--pes 0-9", ""),
                ("", "--origin T", " --start TIME --reference-start TIME")):
            request = make_example_request("a.stl", "a.ts", *options.split())
            request.reference_call = ["--reference", "b.ts", "a.ts"]
            paths = CommandPaths("tools/qc", self.bench.program)
            self.check(f"{options}: {more}", make_command(request, paths, *more.split()),
                       f"tools/qc --reference b.ts a.ts{expected}")

    def test_each_row_is_complete(self) -> None:
        for item in OPTIONS:
            self.must(item.name, bool(item.description and item.default_text and item.modes) and
                      {*item.modes} <= {*JUDGED, MEASURE} and not {*item.help} & {*"`["}, item)
            self.check(f"{item.name}: has no member of results", item.member is None,
                       item.name.startswith("--no-"))
            self.must(f"{item.name}: is allowed in lists", LINE in item.modes, item.modes)
        self.check("options with --file-only", [
            item.name for item in OPTIONS if ALONE in item.modes], [
            "--option", "--severity", "--strict", "--from", "--to", "--layout", "--open"])

    def test_selects_subtitles_by_time(self) -> None:
        """The selected frames of a day begin with the first value and end before the second."""
        day = FRAMES_OF_A_DAY
        for words, first, end in (
                ("", 0, day), ("--from 00:00:00:00", 0, day), ("--to 00:00:00:00", 0, 0),
                ("--to 00:00:00:01", 0, 1), ("--from 23:59:59:24", day - 1, day),
                ("--from 00:00:01:00 --to 23:59:59:24", 25, day - 1)):
            request = make_example_request("a.stl", "a.ts", *words.split())
            self.assertEqual(request.between, (first, end), words)
            self.assertEqual(request.limit_to_range(first, end).between, (first, end), words)
        for option, time in itertools.product(("--from", "--to"), (
                "24:00:00:00", "00:00:00:25", "00:00:00", "10", "")):
            with self.assertRaises(Stop):
                make_example_request("a.stl", "a.ts", option, time)


STORY, RECORDING = get_example_path("story.stl"), get_example_path("recording.ts")
PROFILE_OPTIONS = "--page, --every, --option, --origin, --complete, --no-complete, --pid, " \
    "--allow-lost, --severity, --start, --relative, --within, --late, --require, --layout, " \
    "--keeping, --pace"


class ProfileFiles(Case):
    """Profiles: files with one option on each line."""

    def test_reads_an_option_from_each_line(self) -> None:
        rows: list[tuple[str, dict[str, object]]] = [
            ("", {}), ("# nothing\n\n  # here\n", {}), ("--every 25", {"every": 25}),
            ("--every=25  # each second\r\n--keeping\r\n", {"every": 25, "may_keep": True}),
            ("--no-complete\n--pid 0x1A1\n--page 801", {
                "is_complete": False, "pid": 0x1A1, "page": (0, 1)}),
            ("--layout 'fit,up'\n--pace none\n--option auto", {
                "layout": "fit,up", "pace_word": "none", "option": "auto"}),
            ("--severity one\n--allow-lost", {
                "severity": self.path("one"), "is_loss_allowed": True}),
            ("--severity /one", {"severity": "/one"}), ("#" * 5000 + "\n--every 25", {"every": 25}),
            ("--within 2\n--late 0:31,2:69/0:1", {
                "within": 2, "late": Lateness({0: 31, 2: 69}, {0: 1})}),
            ("--start tcp\n--relative", {"start": "tcp", "is_relative_allowed": True}),
            ("--origin 5", {"origin": 5})]
        for text, expected in rows:
            profile = read_profile(self.write("house", text.encode()))
            self.check(text, {field: setting.value for field, setting in profile.settings.items()},
                       expected)
            self.check(f"{text}: name, checksum", (profile.name, profile.sha256), (
                self.path("house"), hashlib.sha256(text.encode()).hexdigest()))

    def test_stores_a_subtitle_file_from_a_pipe(self) -> None:
        """The file is in German (language code 08), so its option is known after it is read."""
        path = write_subtitle_file(self, [(0, 9, b"text")], "one.stl", language=b"08")
        data = self.read("one.stl")
        for name, words, expected in (
                ("a file", ["--option", "auto"], ("german", "08")),
                ("a pipe", ["--option", "auto"], ("german", "08")),
                ("a pipe, with the option given", ["--option", "swedish"], ("swedish", None))):
            is_pipe = name != "a file"
            stl = write_pipe(self, data) if is_pipe else path
            request = make_example_request(stl, "a.ts", *words)
            self.check(f"{name}: before it is read", (request.stl_path, request.language),
                       (stl, None if is_pipe else "08"))
            keep_stl(request, self.folder)
            kept = self.path("subtitles.stl") if is_pipe else path
            self.check(name, (request.stl, request.stl_path), (stl, kept))
            self.check(f"{name}: option", (request.option, request.language), expected)
            self.check(f"{name}: copy", self.read(kept), data)

    def test_refuses_wrong_lines_with_their_number(self) -> None:
        not_allowed = f"is not allowed in a profile: use {PROFILE_OPTIONS}"
        for text, number, message in (
                ("--every 25\n\n--breaks 1", 3, f"--breaks {not_allowed}"),
                *((f"{name}=1", 1, f"{name} {not_allowed}") for name in (
                    "--from", "--to", "--pes", "--profile")),
                *((name, 1, f"{name} {not_allowed}") for name in (
                    "--no-keeping", "--no-allow-lost", "--strict", "--open")),
                *((text, 1, f"its first word {not_allowed}") for text in (
                    "--json=1", "--new=1", "keeping=1", "one.stl", "root:*:20228:0")),
                ("--every 0", 1, "argument --every: 0 is not a repeat interval: give 1 to 2160000 "
                 "frames"),
                ("#\n--within", 2, "argument --within: expected one argument"),
                ("--keeping --every 25", 1, "unrecognized arguments: --every 25"),
                ("--every 25 50", 1, "unrecognized arguments: 50"),
                ("--every '25", 1, "a quote is not closed"),
                ("--every 25\n--every 25", 2, "--every is already in line 1"),
                ("--complete\n#\n--no-complete", 3, "--no-complete is already in line 1"),
                ("--late 0:1", 1, "argument --late: 0:1 has no shares of delays: give "
                 "in-cues, a slash and out-cues, as 0:31,1:40,2:29/0:100")):
            path = self.write("house", text.encode())
            with self.assertRaises(Stop) as refused:
                read_profile(path)
            self.check(text, str(refused.exception), f"{path}, line {number}: {message}")

    def test_reads_delay_counts(self) -> None:
        """--late has the number of in-cues, and after a slash of out-cues, with each delay."""
        for text, longest in (("0:1/0:1", 0), ("1:31,50:1000000/0:7,2:1", 50), ("0:1/1:1,2:9", 2)):
            late = parse_lateness(text)
            self.check(text, (format_lateness(late), late.longest), (text, longest))


class Overrides(Case):
    """Options of a call of qc, of its profile, and of the line of a list, which override others."""

    def test_options_override_those_of_the_profile_and_of_the_call(self) -> None:
        """Relative paths of profiles in a line are in the folder of the list."""
        self.write("house", b"--every 25\n--keeping\n--within 2\n--late 0:1,2:1/0:1\n")
        self.write("other", b"--every 50\n--no-complete\n")
        self.write("tcp", b"--start tcp\n")
        for row in read_vectors("overrides.tsv"):
            call = row["call"].replace("--profile ", f"--profile {self.folder}/").split()
            request = make_line_request(
                row["line"].split(), make_default_options(*call), self.folder) if row["line"] \
                else make_example_request("a.stl", "a.ts", *call)
            without = dataclasses.replace(request, profile=None)
            self.check(row["name"], list_call_arguments(without),
                       [*row["options"].split(), "--", "a.stl", "a.ts"])
            again = make_example_request("a.stl", "a.ts", *list_call_arguments(request)[:-3])
            self.check(f"{row['name']}: parsed again", again, request)

    def test_refuses_two_clocks(self) -> None:
        two = self.write("two", b"--start tcp\n--origin 0\n")
        for words, error in (("--start tcp --origin 0", UsageError), (f"--profile {two}", Stop)):
            with self.assertRaises(Stop) as refused:
                make_example_request("a.stl", "a.ts", *words.split())
            self.check(words, (str(refused.exception), type(refused.exception)),
                       ("--start and --origin both give the clock: remove one", error))

    def test_requires_a_tolerance_for_delay_counts(self) -> None:
        for words, delay, within in (("--late 0:1,1:1/0:1", "1 frame", 0),
                                     ("--late 0:1/0:1,3:1 --within 2", "3 frames", 2)):
            with self.assertRaises(Stop) as refused:
                make_example_request("a.stl", "a.ts", *words.split())
            self.check(words, str(refused.exception), f"--late contains a delay of {delay}, but "
                       f"--within allows only {within}: increase --within")

    def test_finds_a_profile_in_the_folder_of_the_list(self) -> None:
        os.mkdir(self.path("in"))
        for name, data in (("in/house", b"--every 25\n"), ("in/bad", b"#\n--breaks 1\n"),
                           ("a.stl", b""), ("a.ts", b"")):
            self.write(name, data)
        pair = f"{self.path('a.stl')} {self.path('a.ts')} --profile"
        path = self.write("in/list", f"{pair} house\n{pair} bad\n{pair} none\n".encode())
        good, bad, missing = read_pairs(path, make_default_options())
        self.must("good", good.request and good.request.every == 25
                  and self.path("in/house") in good.files, good)
        message = f"{path}, line 2: {self.path('in/bad')}, line 2: --breaks is not allowed in a "
        self.must("bad", bad.request is None and str(bad.reason).startswith(message), bad.reason)
        self.must("missing", missing.request is None
                  and self.path("in/none") in str(missing.reason), missing.reason)


class ProfileVerdicts(Case):
    """How qc names the options of a profile, and protects its file."""

    def test_names_the_lenient_options_of_the_profile(self) -> None:
        self.write("some", b"--every 250\n")
        self.write("waive", b"--allow-lost\n--severity levels\n")
        self.write("relative", b"--relative\n")
        for words, expected in (
                ("--profile some", []), ("--profile waive", ["--allow-lost", "--severity"]),
                ("--profile waive --no-allow-lost", ["--severity"]),
                ("--profile waive --severity others --no-allow-lost", []),
                ("--allow-lost", []), ("--profile relative", ["--relative"]),
                # --relative has no effect with a clock.
                ("--profile relative --origin 0", []), ("--profile relative --start tcp", [])):
            request = make_example_request("a.stl", "a.ts", *(
                self.path(word) if word in ("some", "waive", "relative") else word
                for word in words.split()))
            self.check(words, request.waivers, expected)

    def test_prints_and_stores_profile_options(self) -> None:
        data = b"--every 25  # each second\n--no-complete\n--layout 'fit,up'\n"
        path = self.write("house", data)
        request = make_example_request("a.stl", "a.ts", "--profile", path, "--every", "50")
        assert request.profile
        self.check("printed line", format_profile(request.profile),
                   f"profile {path}: --every 25 --no-complete --layout fit,up")
        empty = read_profile(self.write("none", b"#\n"))
        self.check("no options", format_profile(empty), f"profile {empty.name}: no options")
        known = judge_files(self, STORY, RECORDING, "--profile", path, "--layout", "up",
                            "--every", "50").result["request"]
        self.check("JSON", known["profile"], {
            "name": path, "sha256": hashlib.sha256(data).hexdigest()})
        self.check("JSON: options", (known["every"], known["complete"], known["layout"]),
                   (50, False, "up"))

    def test_never_overwrites_a_profile(self) -> None:
        path = self.write("house", b"--every 25\n")
        process = self.tool("qc", STORY, RECORDING, "--profile", path, "--json", path)
        self.check("status, messages, contents", (
            process.status, process.errors, self.read("house")),
                   (2, [f"qc: {path} is also an input: give another name"], b"--every 25\n"))
