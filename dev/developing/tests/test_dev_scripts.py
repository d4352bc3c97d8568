"""Test the scripts of the gate and those that read crates: what they print, and what they count."""
from __future__ import annotations

import contextlib
import io
import os
import re
import shutil
import signal
import subprocess
import sys
import time
from concurrent.futures import ThreadPoolExecutor
from functools import partial
from typing import Any, Callable
from unittest import mock

from developing.proved import Crates, format_proved, list_crate_sums, ProvedProgram
from developing.every_place import trying
from developing.every_place.calls import Answer, Call, KnownCall
from developing.planting import run_forked, TOO_LONG
from developing.shown import has_expected_status
from developing.surveying.streams import make_random_recording, Recording
from subtitles.common.command_line import Stop
from subtitles.common.program import read, TOP
from ..compiled import share_compiled
from ..shown import find_commands, run_command
from ..trial import Command, judge, parse_calls, RunResult, Trial
from .bench import (
    BENCH, Bench, Case, CompletedCall, EXAMPLES, get_example_path, get_tool_path, import_script,
    read_example_file)
from .failures import MAX_LINES_PRINTED
from .programmes import wait_until
from .runner import Counts
from .stories import read_vectors
from .test_dev_clones import list_omitted_names

VECTORS = os.path.join(TOP, "dev", "vectors")
GATE = os.path.join(TOP, ".ci", "run")
# The stages of the gate in their order: the script, and the counts in its last line.
STAGES = {"dev/edits": "1 passed, 0 failed", "dev/graph": "20 passed, 0 failed",
          "rt": "300 passed, 0 failed", "tools/check-program": "4000 passed, 0 failed",
          "dev/release": "50000 passed, 0 failed"}
INSTALLER = "dev/install-test-tools"  # CI is set in the rows about it


def make_stage(name: str, line: str, status: int) -> str:
    """Return a script that adds its call to $CALLS, prints two lines and ends with a status."""
    # dev/release is also called to store lines and to keep the program, which is no stage.
    condition = '[ "$1" = --compare ] || exit 0\n' if name == "dev/release" else \
        f'[ "$1" = help ] && echo "  {name} ci [NAME ..]" && exit\n'
    note = 'set -- "$1" "$(head -n 1 "$2")" "$(cat "$3")"'
    return (f'#!/bin/sh\ncase $1 in --note) {note} ;; esac\n'
            f'[ "$1" = help ] || echo {name} "$@" >>"$CALLS"\n{condition}'
            f'echo "first line of {name}"\necho "{line}"\nexit {status}\n')


class Gate(Case):
    """A copy of .ci/run, whose stages are scripts that only print what STAGES or a row says."""

    def call_gate(self, folder: str, args: str, changed: str, line: str,
                  status: int) -> CompletedCall:
        """Call the gate in a new folder, with a changed stage, last line and status."""
        for part in (".ci", "bin", "dev", "tools"):
            os.makedirs(self.path(f"{folder}/{part}"))
        shutil.copy(GATE, self.path(f"{folder}/.ci/run"))
        for stage in (*STAGES, changed):
            text = make_stage(stage, line, status) if stage == changed else \
                make_stage(stage, STAGES[stage], 0)
            self.write_program(f"{folder}/{stage if '/' in stage else f'bin/{stage}'}", text)
        changes = '[ ! -e "$CALLS" ] || echo more' if changed == "tools/sources" else ""
        self.write_program(f"{folder}/tools/sources", f"#!/bin/sh\necho sum\n{changes}\n")
        env = {**os.environ, "PATH": f"{self.path(folder)}/bin:{os.environ['PATH']}",
               "CALLS": self.path(f"{folder}/calls"), "CI": "yes" * (changed == INSTALLER)}
        return self.call(["bash", self.path(f"{folder}/.ci/run"), *args.split()], env=env)

    def test_prints_its_first_comment_as_help(self) -> None:
        comment = (read(GATE) or "").partition("\n")[2].partition("\n\n")[0]
        for option in ("-h", "--help"):
            self.check(option, self.call_gate(option, option, "rt", "", 0), (
                0, f"{re.sub('^# ?', '', comment, flags=re.M)}\n".encode(), []))

    def test_takes_no_names_if_rt_ci_takes_none(self) -> None:
        self.check("status, output, message", self.call_gate("gate", "low", "bin/rt", "", 0), (
            2, b"", ["run: this toolchain's rt ci takes no names: call .ci/run alone"]))

    def test_adds_the_counts_of_its_stages_and_stops_if_one_of_the_first_three_fails(self) -> None:
        for row in read_vectors("gate.tsv"):
            name, folder = row["name"], row["name"].replace(" ", "-").replace("/", "")
            process = self.call_gate(folder, row["arguments"], row["stage"], row["line"],
                                     int(row["status"]))
            self.check(f"{name}: last line", process.out.decode().splitlines()[-1], row["last"])
            self.check(f"{name}: status", process.status,
                       int(not row["last"].endswith(" 0 failed")))
            self.check(f"{name}: calls", self.read(f"{folder}/calls").decode().splitlines(),
                       row["calls"].split("; "))


class DocumentStatuses(Case):
    def test_compares_the_status_unless_a_pipe_hides_it(self) -> None:
        for row in read_vectors("document-statuses.tsv"):
            self.check(row["name"], " ".join(
                "none" if status is None else f"{status}" for status in (None, 0, 1, 2, 3)
                if has_expected_status(status, row["command"], row["output"] + "\n")),
                row["statuses"])


class FailedScripts(Case):
    def test_check_manual_compares_output_and_status(self) -> None:
        script = import_script("check-manual")
        os.mkdir(self.path("copy"))
        # The manual says that the command prints `accepted`. The counts are passed and failed.
        for name, command, counts in (
                ("right", "echo accepted", (1, 0)), ("another output", "echo refused", (0, 1)),
                ("another status", "echo accepted; exit 1", (0, 1))):
            path = self.write("a.md", f"```\n$ {command}\naccepted\n```\n".encode())
            self.check(name, script.run(path, self.path("copy"))[:2], counts)

    def test_check_live_requires_each_line_with_its_pes_packet_and_none_before(self) -> None:
        script = import_script("check-live")
        # A command that reads "a\nb\n"; the expected output and the part after the first line of
        # input; and the counts of passed and failed checks.
        rows: dict[str, tuple[str, bytes, bytes, tuple[int, int]]] = {
            "right": ("cat", b"a\nb\n", b"a\n", (2, 0)),
            "a late line": ("tail -n 2", b"a\nb\n", b"a\n", (0, 1)),
            "an early end": ("sed -un 1p", b"a\nb\n", b"a\n", (1, 1)),
            "an early line": ("cat", b"a\nb\n", b"", (0, 1)),
            "another complete list": ("cat", b"a\nc\n", b"a\n", (1, 1))}
        for name, (command, output, begin, counts) in rows.items():
            with mock.patch.multiple(script, MAX_WAIT=0.2, QUIET_TIME=0.1), \
                    contextlib.redirect_stdout(io.StringIO()):
                self.check(name, script.follow("", [["sh", "-c", command]], [b"a\n", b"b\n"],
                                               output, [begin]), counts)

    def test_a_pair_that_breaks_one_rule_has_that_fault_alone(self) -> None:
        script = import_script("check-every-place")
        pair, trial = script.ONE_RULE_PAIRS[0], mock.Mock(find_differences=lambda _: [])
        for numbers, is_right in (([pair.number, pair.number], True), ([], False),
                                  ([pair.number, 99], False), ([99], False)):
            lines = [*(f"refused {number} Name" for number in numbers), "1 faults"]
            call = mock.Mock(answer=mock.Mock(lines=lines))
            with mock.patch.object(script, "define_answers", lambda *_, call=call: [call]):
                self.check(f"{numbers}", not script.try_one_rule(trial, pair).faults, is_right)

    def test_a_known_call_has_the_answer_of_the_definitions(self) -> None:
        script, call = import_script("check-every-place"), Call("a", "check", (b"",), "")
        trial, known = mock.Mock(find_differences=lambda _: []), KnownCall(call, Answer(["one"]))
        for line, faults in ("one", []), ("two", ["the definitions: line 1: two, expected: one"]):
            with mock.patch.object(script, "define_answer", lambda _, line=line: Answer([line])):
                self.check(line, script.try_known(trial, known).faults, faults)

    def test_check_every_place_compares_status_lines_and_written_files(self) -> None:
        for row in read_vectors("compared-answers.tsv"):
            trial = trying.Trial(self.write_program("program", f"#!/bin/sh\n{row['program']}\n"),
                                 self.folder)
            known = KnownCall(Call("", row["command"], (b"one", b"two"), row["arguments"]),
                              Answer(row["lines"].split("; "), row["written"].encode() or None))
            self.check(row["program"], " | ".join(trial.find_differences(known)),
                       row["differences"])

    def test_faults_prints_failed_cases_and_counts_the_others(self) -> None:
        script = import_script("faults")
        results = [(f"case {number}", RunResult(status, printed, None, []), faults)
                   for number, (status, printed, faults) in enumerate((
                       (0, b"0\n1 pes 2 gaps\n", []), (0, b"1 pes 2 frames", []), (2, b"", []),
                       (0, b"1 pes 2", []), (1, b"2 pes", ["one", "two"]), (0, b"1 pes 2", []),
                       (-9, None, ["three"])))]
        with contextlib.redirect_stdout(io.StringIO()) as out:
            for is_verbose in (False, True):
                print(script.print_group(results, is_verbose), "failed")
        self.check("output", out.getvalue(), read(os.path.join(VECTORS, "fault-groups.txt")))

    def test_faults_compares_runs_with_failed_calls_with_the_requirements(self) -> None:
        trial = mock.Mock(inputs={"long.pes": b"\0\0\1\xbd\0\2ab" * 3})
        commands = {name: Command(name, [name], out, status, printed, b"12345678" if out else None)
                    for name, out, status, printed in (
                        ("normal", "b", 0, b"2 subtitles\n"), ("schedule", "b", 0, b"2 pes\n"),
                        ("show", None, 0, b"one\ntwo\n2 subtitles\n"),
                        ("usage", None, 2, b"usage 0 Words\n"),
                        ("packets", None, 0, b"pes 0\nunit\npes 1\npes 2\n3 pes\n"))}
        for row in read_vectors("failed-calls.tsv"):
            calls = parse_calls(("1 " + row["calls"].replace("; ", "\n1 ")).encode())
            result = RunResult(int(row["status"]), row["printed"].replace("; ", "\n").encode(), None
                               if row["written"] == "-" else row["written"].encode(), calls,
                               row["error"])
            self.check(f"{row['command']}: {row['calls']}: {row['printed']}",
                       "; ".join(judge(trial, commands[row["command"]], result)), row["faults"])

    def test_faults_requires_one_line_that_explains_wrong_arguments(self) -> None:
        script = import_script("faults")
        line, printed = "subttx: argument 2 is not UTF-8 text", b"usage 0 Words\n"
        for text, is_right in ((line, True), (f"{line}, more", False), ("", False)):
            trial = mock.Mock()
            trial.run.return_value = RunResult(2, printed, None, [], text)
            [(_, _, found)] = next(script.try_explanations(trial))()
            self.check(repr(text), not found, is_right)

    def test_check_preview_limits_time_memory_and_size_of_a_large_report(self) -> None:
        script = import_script("check-preview")
        small = script.CallCost(0, 2, 30, 0.5)  # status, seconds, MiB, MB
        for short, day, wrong in (
                (small, (0, 40, 400, 20), []), (small, (1, 2, 30, 1), ["large: accepted"]),
                (small._replace(status=2), (0, 2, 30, 1), ["large: accepted"]),
                (small, (0, 2, 401, 1), ["large: 400 MiB, 20 MB"]),
                (small, (0, 2, 30, 20.1), ["large: 400 MiB, 20 MB"]),
                (small, (0, 41, 30, 1), ["large: time in proportion"])):
            with mock.patch.object(script, "measure_call",
                                   mock.Mock(side_effect=[short, script.CallCost(*day)])):
                self.check(f"{day}", [name for name, fault in script.check_full_day("") if fault],
                           wrong)


# What `check` prints about the inputs of bench/inputs.py with 200 frames or subtitles
INPUTS = {
    **dict.fromkeys(("day", "pages", "fresh"), "accepted 201 frames 201 transmissions"),
    "many": "accepted 4001 frames 201 transmissions",
    "service": "accepted 200 frames 8 transmissions",
    "late": "accepted 200 frames 8 transmissions",  # with --within 1
    "cells": "refused 72 Content frame 00:00:00:00 row 22 column 11",
    "passed": "refused 37 DataId pes 0",
    "swing": "refused 73 Gap frame 00:00:00:01",
}


class Measurements(Case):
    """The scripts in bench/."""

    @staticmethod
    def import_from_bench(name: str) -> Any:
        with mock.patch.object(sys, "path", [os.path.join(TOP, "bench"), *sys.path]):
            return import_script(f"../bench/{name}")

    def test_each_kind_of_input_is_accepted_or_has_its_faults(self) -> None:
        script, stl, pes = self.import_from_bench("inputs.py"), self.path("stl"), self.path("pes")
        self.check("kinds", {*INPUTS}, {*script.EVERY})
        for kind, line in INPUTS.items():
            script.make(self.bench.program, kind, 200, stl, pes)
            options = ["--every", script.EVERY[kind], *["--within", "1"] * (kind == "late")]
            self.check(kind, self.program("check", stl, pes, *options)[1], [line])

    def test_counts_instructions_for_one_more_frame_and_memory_of_long_inputs(self) -> None:
        script, make, record = self.import_from_bench("count"), mock.Mock(), mock.Mock()

        def count_instructions(_: str, words: list[str]) -> int:
            """Return 7 for each word and each frame, whose number is in the file's name."""
            return 7 * len(words) * int(os.path.basename(words[1]).split("-")[1].split(".")[0])

        with mock.patch.multiple(script, make=make, record=record,
                                 instructions=count_instructions,
                                 peak=lambda words: f"{len(words)} MB"), \
                contextlib.redirect_stdout(io.StringIO()) as out:
            script.main(["-p", "/bin/true", "late", "mixed", "many"])
            self.check("inputs", sorted(call.args[1:3] for call in make.mock_calls), [
                ("late", 10000), ("late", 20000), ("many", 2000), ("many", 4000), ("many", 99999),
                ("service", 500), ("service", 1000)])
            self.check("sizes of frames", [call.args[2] for call in record.mock_calls],
                       [script.MIXED] * 2)
            script.main(["-p", "/bin/true"])
        self.check("output", out.getvalue(), read(os.path.join(VECTORS, "bench-count.txt")))

    def test_takes_the_number_of_instructions_from_valgrind(self) -> None:
        script = self.import_from_bench("count")
        self.write_program("valgrind", "#!/bin/sh\n[ $GLIBC_TUNABLES ] || exit\n"
                                       "echo ==1== $4 : 1234 >&2\n")
        with mock.patch.dict(os.environ, PATH=f"{self.folder}:{os.environ['PATH']}"):
            self.check("number", script.instructions("program", ["Collected"]), 1234)
            self.assertRaises(Stop, script.instructions, "program", ["killed"])

    def test_a_recording_has_equally_many_ts_packets_for_each_frame(self) -> None:
        script, stl, pes, ts = self.import_from_bench("inputs.py"), *map(self.path, ("s", "p", "t"))
        script.make(self.bench.program, "service", 150, stl, pes)
        for size, count in (0, 150 * 5), (12, 150 * 12 + 12):  # the first 12 have the tables
            script.record(pes, ts, size)
            self.check(f"{size}: packets", os.path.getsize(ts) / 188, count)
            process = self.program("check", stl, ts, "--pid", "257", "--every", "25")
            self.check(f"{size}: judged", process, (0, ["accepted 150 frames 6 transmissions"]))

    def test_measures_the_processor_time_of_the_program_and_of_the_system_for_it(self) -> None:
        script = self.import_from_bench("run")
        used = mock.Mock(ru_utime=0.25, ru_stime=1.5)
        with mock.patch.object(os, "wait4", lambda *_: (0, 0, used)):
            self.check("milliseconds", script.milliseconds(["true"]), 1750)

    def test_the_least_time_of_each_command_counts(self) -> None:
        script = self.import_from_bench("run")
        with mock.patch.multiple(script, RUNS=2, milliseconds=mock.Mock(side_effect=[5, 1, 3, 2])):
            self.check("milliseconds", script.least(["a"], ["b"]), [3, 1])

    def test_bench_measures_each_command_on_each_of_its_inputs(self) -> None:
        script, old = self.import_from_bench("run"), self.write("old", b"")

        def print_commands(*commands: list[str]) -> list[float]:
            """Print commands. Return 10 ms for each word, and 5 ms more for the old program."""
            print(*(" ".join(words) for words in commands), sep="\n")
            return [10 * len(words) + 5 * (words[0] == old) for words in commands]

        with mock.patch.multiple(script, FRAMES=500, STREAM=50, PAIRS=5, COUNTS={"many": 9},
                                 make=print, record=print, least=print_commands,
                                 milliseconds=lambda words: 8 * print_commands(words)[0],
                                 peak=lambda _: "7 MB", find_built_program=lambda: "program"), \
                mock.patch.object(os, "sched_setaffinity", lambda _, used: print(len(used))), \
                mock.patch.object(subprocess, "run"), \
                mock.patch.object(shutil, "which", lambda _: None), \
                mock.patch.object(os.path, "getsize", lambda _: 1_000_000), \
                contextlib.redirect_stdout(io.StringIO()) as out:
            for words in [self.folder], [old, self.folder]:
                script.main(words)
        text = out.getvalue() + self.read("list").decode()
        for path, name in ((self.folder, "FOLDER"), (script.TOOLS, "tools"), (TOP, "TOP"),
                           (sys.executable, "python3")):
            text = text.replace(path, name)
        self.check("printed", text, read(os.path.join(VECTORS, "bench-run.txt")))

    def test_bench_measures_no_command_that_failed(self) -> None:
        script = self.import_from_bench("run")
        logger = self.write_program("log", '#!/bin/sh\n: >$2\nshift 2\nexec "$@"\n')
        for command, is_measured in (("exit 0", True), ("exit 1", True), ("exit 2", False),
                                     ("kill -9 $$", False)):
            time = 0.0
            with contextlib.suppress(Stop):
                time = script.milliseconds(["sh", "-c", command])
            self.check(command, time > 0, is_measured)
            with contextlib.suppress(Stop):
                sys.modules["memory"].lines_of_log([logger], ["sh", "-c", command])
                self.must(f"{command}: its log is read", is_measured)

    def test_bench_prints_megabytes_a_second_and_the_ratio_to_cat(self) -> None:
        script = self.import_from_bench("run")
        bench = script.Bench("program", None, self.folder)
        path = self.write("day.pes", bytes(1_000_000))
        milliseconds = mock.Mock(side_effect=[[10.0], [40.0]])  # of `cat` and `check`
        # Percent of the time, seconds, µs for each call, calls, failed calls, name
        self.write_program("strace", "#!/bin/sh\necho ' 60 0.1 5 12 read\n 40 0.1 5 3 1 write\n"
                                     "100 0.2 5 15 1 total' >$3\n")
        kibibytes = self.write_program("time", "#!/bin/sh\necho 'Command exited with non-zero "
                                               "status 1' >$4\necho 7000 >>$4\nexit 1\n")
        with mock.patch.object(script, "least", milliseconds), \
                mock.patch.object(sys.modules["memory"], "GNU_TIME", kibibytes), \
                mock.patch.dict(os.environ, {"PATH": f"{self.folder}:{os.environ['PATH']}"}), \
                contextlib.redirect_stdout(io.StringIO()) as out:
            bench.row("day: cat PES", path, ["cat", path])
            bench.row("day: check", path, ["program", "check"])
        self.check("rows", out.getvalue(), "| day | cat PES | 100 | 1.00 | 7.17 MB | 15 |\n"
                   "| day | check | 25 | 0.25 | 7.17 MB | 15 |\n")


# The arguments of tools that read a recording from a pipe, what is sent, and the status unless a
# signal ends the tool
PIPED_TOOLS = {"qc": ([get_example_path("story.stl"), "-"], "story.pes", 3),
               "read": (["-"], "story.pes", 0), "air": (["record", "temporary"], "recording.ts", 0)}


class Signals(Case):
    def test_a_hangup_ends_a_tool_with_status_2_unless_nohup_ignores_it(self) -> None:
        """The tool has read a part of the pipe."""
        self.check_signal(signal.SIGHUP, ["trap '' HUP; ", ""])

    def test_an_interrupt_ends_a_tool_with_status_2(self) -> None:
        self.check_signal(signal.SIGINT, [""])

    def test_a_request_to_terminate_ends_a_tool_with_status_2(self) -> None:
        self.check_signal(signal.SIGTERM, [""])

    def check_signal(self, number: int, setups: list[str]) -> None:
        """Check the status of each tool if a signal comes when it has read a part of a pipe. Before
        the call the shell runs a setup, which lets the tool ignore the signal unless it is empty.
        """
        for name, (words, sent, usual_status) in PIPED_TOOLS.items():
            for setup in setups:
                status = usual_status if setup else 2
                shutil.rmtree(self.path("temporary"), ignore_errors=True)
                os.mkdir(self.path("temporary"))
                command = f'{setup}TMPDIR=temporary exec "$@" >output 2>&1'
                with subprocess.Popen(["sh", "-c", command, "sh", get_tool_path(name), *words],
                                      cwd=self.folder, stdin=subprocess.PIPE) as process:
                    assert process.stdin
                    process.stdin.write(read_example_file(sent))
                    process.stdin.flush()
                    self.must(f"{name}: begins", wait_until(lambda: any(
                        files for _, _, files in os.walk(self.path("temporary")))))
                    process.send_signal(number)
                    process.stdin.close()
                self.check(f"{setup}{name}: status", process.returncode, status)


class FailedChecks(Case):
    def test_a_failed_check_prints_expected_and_found_values_in_few_lines(self) -> None:
        def fail(case: Case) -> None:
            case.check("a number", 1 + 1, 3)
            case.must("two conditions", case.folder == "" and len(case.folder) > 1, "no folder")
            case.check("many lines", "a\n" * 99, "b\n" * 99)

        counts = Counts(False)
        counts.out = io.StringIO()
        case = type("Failing", (Case,), {"test": fail, "setUp": lambda _: None})("test")
        case.run(counts)
        number, conditions, many = counts.out.getvalue().split("FAILED: ")[1:]
        self.check("number", number.splitlines()[2:], ["  expected: 3", "  found:    2"])
        self.check("conditions", [line for line in conditions.splitlines() if "false" in line
                                  or "found" in line],
                   ["  false:    len(case.folder) > 1", "  found:    'no folder'"])
        self.check("lines", len(many.splitlines()), MAX_LINES_PRINTED)

    def test_faults_finds_each_faulty_program(self) -> None:
        script = import_script("faults")
        for number, row in enumerate(read_vectors("faulty-programs.tsv")):
            os.makedirs(self.path(f"{number}"))
            right = shutil.copy(self.bench.program, self.path(f"{number}/right"))
            trial = Trial(self.path(f"{number}/program"), self.path(f"{number}"))
            trial.can_change_user = trial.has_strace = False  # the same cases on each machine
            shutil.copy(right, trial.program)
            script.prepare(trial)
            command = row["command"].replace("PROGRAM", right)
            self.write_program(f"{number}/program", f"#!/bin/sh\n{command}\n")
            faults = [case[2] for task in script.GROUPS[row["group"]](trial) for case in task()]
            if trial.skipped and not faults:
                self.bench.over += trial.skipped
                continue
            self.check(f"{row['group']}: failed cases, all cases",
                       (sum(map(bool, faults)), len(faults)), (int(row["failed"]),
                                                               int(row["cases"])))

    def test_check_readme_accepts_only_commands_with_the_status_of_a_verdict(self) -> None:
        for status in (0, 1, 2, 3, 64, 70):
            steps = import_script("check-readme").CloneCommands(self.folder)
            with contextlib.redirect_stdout(io.StringIO()):
                steps.check_command(f"exit {status}", "out")
            self.check(f"status {status}", steps.failed == 0, status in (0, 1, 3))

    def test_check_survey_compares_the_status_as_the_last_line(self) -> None:
        script = import_script("check-survey")
        for command, lines in (("exit 0", []), ("exit 3", ["status 3"]),
                               ("kill -9 $$", ["status -9"])):
            program = self.write_program("other", f"#!/bin/sh\n{command}\n")
            self.check(command, script.printed(program, make_random_recording(1)), lines)

    def test_check_survey_compares_a_line_for_each_pes_packet(self) -> None:
        script = import_script("check-survey")
        self.check("a line for each of two PES packets", script.without_runs(
            ["pes 9 4 2 8589931000 3600 a", "pid 9"]), [
                "pid 9", "9 4 8589931000 a", "9 5 8 a"])

    def test_check_survey_compares_the_lines_of_the_last_page(self) -> None:
        script, recording = import_script("check-survey"), Recording(b"", [(0, 0x88), (3, 0)])
        with mock.patch.multiple(
                script, make_random_recording=lambda _: recording, survey=lambda *_: ["set 1"],
                printed=lambda *_: ["page 888", "set 1", "page 300", "set 2"]):
            self.check("difference", script.compare("", 1)[2],
                       "page 300: line 1: set 2, expected: set 1")

    def test_pytest_uses_the_program_in_subttx_and_lists_each_skipped_test_once(self) -> None:
        script, bench = import_script("conftest.py"), Bench()
        with mock.patch.dict(os.environ, {"SUBTTX": "/bin/true"}), \
                mock.patch.object(script, "BENCH", bench), \
                contextlib.redirect_stdout(io.StringIO()) as out:
            script.pytest_configure()
            bench.over = ["no mypy", "no bash", "no mypy"]
            script.pytest_terminal_summary()
            script.pytest_unconfigure()
        self.check("program, has a folder, last line",
                   (bench.program, os.path.isdir(bench.folder), out.getvalue()),
                   (os.path.realpath("/bin/true"), True, "skipped: no mypy; no bash\n"))


def replace_check(name: str, script: Any, faults: list[str]) -> dict[str, Any]:
    """Return replacements for functions of a script. They do one check, which finds the faults."""
    result: dict[str, Callable[[], dict[str, Any]]] = {
        "check-every-place": lambda: {
            **dict.fromkeys(("TOLERANCE_CASES", "LATE_PAGE_CASES", "ONE_FILE", "ONE_RULE_PAIRS"),
                            []), "make_example_calls": list, "KNOWN_CALLS": [None],
            "try_known": lambda *_: script.CheckResult("a", faults, (), 1)},
        "check-live": lambda: {
            "make_feeds": lambda: [script.Feed("a", [], [], ())], "make_stream": lambda _: [],
            "follow": mock.Mock(side_effect=[(0, len(faults)), (1 - len(faults), 0)])},
        "check-manual": lambda: {
            "copy_named_files": mock.Mock(), "CHAPTERS": [], "DOCUMENTS": [],
            "check_names": lambda: (1 - len(faults), len(faults))},
        "check-preview": lambda: {"check_in_browser": lambda _: [("a", " ".join(faults))]},
        "check-readme": lambda: {
            "clone_repository": lambda _: "clone", "place_program": mock.Mock(),
            "has_program": lambda _: True,
            "run_commands": lambda steps: steps.check_result("a", not faults)},
        "faults": lambda: {"prepare": mock.Mock(), "GROUPS": {"a": lambda _: [lambda: [
            ("a", RunResult(0, b"", None, []), faults)]], "no cases": lambda _: []}},
        "plant": lambda: {"Worker": mock.Mock(), "Planting": mock.Mock(
            return_value=mock.Mock(try_bugs=lambda _: [True, not faults]))}}
    return result[name]()


# The arguments of each script, and its last line if it has replace_check's fault and if not
CHECKS = {
    "check-every-place": ("--count 0 --recordings 0", "0 passed, 1 failed", "1 passed, 0 failed"),
    **dict.fromkeys(("check-live", "check-manual", "check-preview", "check-readme", "faults"), (
        "", "0 passed, 1 failed", "1 passed, 0 failed")),
    "plant": ("a.py", "2 bugs, 1 passed all tests", "2 bugs, 0 passed all tests")}


class CheckStatuses(Case):
    def call_main(self, script: Any, args: list[str], **replaced: Any) -> tuple[int, list[str]]:
        """Run a script in which functions are replaced. Return the status and printed lines."""
        with mock.patch.multiple(script, **replaced), mock.patch.dict(vars(BENCH)), \
                contextlib.redirect_stdout(io.StringIO()) as out:
            return script.main(args), out.getvalue().splitlines()

    def test_a_check_with_a_fault_counts_it_and_ends_with_status_1(self) -> None:
        for name, (words, *lines) in CHECKS.items():
            for count, line in zip((1, 0), lines):
                script, faults = import_script(name), ["wrong"] * count
                status, printed = self.call_main(script, ["-p", "/bin/true", *words.split()],
                                                 **replace_check(name, script, faults))
                self.check(f"{name} {faults}", (status, printed[-1]), (count, line))

    def test_check_every_place_checks_and_counts_each_case(self) -> None:
        script = import_script("check-every-place")

        def try_case(kind: str, _: Any, *args: Any) -> Any:
            return script.CheckResult(f"{kind} {args}", ["wrong"] * (args[-1] in (6, "late")), (),
                                      7, kind == "pair", args[-1] == 5, args[-1] == 6)

        status, lines = self.call_main(
            script, ["-p", "/bin/true", "--refused", "--keeping", "-v",
                     *"--count 3 --recordings 2 --first 5".split()],
            ProcessPoolExecutor=ThreadPoolExecutor, KNOWN_CALLS=["known"],
            TOLERANCE_CASES=["tolerance"], LATE_PAGE_CASES=["late"], ONE_FILE=["file"],
            RECORDING_CASES=["recorded"], ONE_RULE_PAIRS=["rule"],
            make_example_calls=lambda: ["example"],
            **{f"try_{kind}": partial(try_case, kind)
               for kind in ("known", "one_rule", "example", "pair", "recording")})
        lines = [line for line in lines if not line.startswith("skipped")]
        self.check("output", "".join(f"{line}\n" for line in [*lines, f"status {status}"]),
                   read(os.path.join(VECTORS, "every-place.txt")))

    def test_check_every_place_counts_refused_judged_and_accepted_pairs(self) -> None:
        script = import_script("check-every-place")
        lists: dict[str, Any] = dict.fromkeys(("KNOWN_CALLS", "TOLERANCE_CASES", "LATE_PAGE_CASES",
                                               "ONE_FILE", "ONE_RULE_PAIRS"), [])
        for option, line in (("--refused", "10 with refused subtitles, 7 of them judged"),
                             ("--keeping", "2 with headers that keep the page are accepted")):
            _, lines = self.call_main(
                script, ["-p", self.bench.program, "--count", "12", "--recordings", "0", option],
                make_example_calls=list, **lists)
            self.check(option, lines[-2:], [line, "12 passed, 0 failed"])

    def test_plant_ends_tests_that_take_too_long(self) -> None:
        def fail() -> dict[str, Any]:
            return {"failed": "a" if limit > 1 else time.sleep(600) or ""}  # type: ignore

        for limit, failed in ((600, "a"), (0.1, TOO_LONG)):
            self.check(f"limit {limit} s", run_forked(fail, limit)["failed"], failed)

    def test_check_every_place_keeps_each_file_of_a_failed_case(self) -> None:
        script = import_script("check-every-place")
        result = script.CheckResult("pair 7", ["wrong"], (b"stl", b"pes"), 1)
        with contextlib.redirect_stdout(io.StringIO()):
            script.report(result, self.path("kept"), False)
        self.check("files", {name: self.read(f"kept/{name}") for name in
                             os.listdir(self.path("kept"))},
                   {"pair-7.0": b"stl", "pair-7.1": b"pes"})

    def test_plant_runs_the_quick_tests_that_call_the_function_or_the_module(self) -> None:
        script = import_script("plant")
        planting = script.Planting([], "", mock.Mock(quick=5))  # tests of less than 5 seconds
        calls = {"a": (3, ["one.py:f", "two.py:g"]), "b": (1, ["one.py:f", "one.py:h"]),
                 "c": (9, ["one.py:f"]), "d": (0, ["two.py:g"]), "e": (2, ["one.py:C.h"])}
        planting.calls = {name: {"seconds": seconds, "calls": functions}
                          for name, (seconds, functions) in calls.items()}
        # MODULE is the code outside of functions.
        for function, tests in (("f", ["b", "a"]), ("h", ["b"]), ("C.h", ["e"]),
                                ("f.<lambda>", ["b", "a"]), (script.MODULE, ["b", "e", "a"])):
            self.check(function, planting.list_tests("one.py", function), tests)

    def test_check_manual_counts_each_unknown_name_and_wrong_number_in_documents(self) -> None:
        status, lines = self.call_main(
            import_script("check-manual"), ["-p", "/bin/true"], DOCUMENTS=[],
            copy_named_files=mock.Mock(), find_unknown_names=lambda _: {"a": [], "b": ["wrong"]},
            correct_count_rows=lambda _: [("1", "1"), ("2", "3")],
            correct_number_rows=lambda _: [("4", "5")], correct_readme_counts=lambda _: [],
            find_long_readings=lambda *_: [None, "too long"])
        self.check("status, last line", (status, lines[-1]), (1, "3 passed, 4 failed"))

    def test_check_tools_lists_each_reason_for_a_skipped_test_once(self) -> None:
        counts = Counts(False)
        counts.over, counts.testsRun, counts.passed = ["no mypy", "no bash", "no mypy"], 2, 1200
        _, lines = self.call_main(import_script("check-tools"), ["-p", "/bin/true", "Counts"],
                                  run_all=lambda *_: counts)
        self.check("lines", lines[1:], [
            "skipped: no mypy; no bash", "2 tests, 1,200 checks", "1200 passed, 0 failed"])

    def test_make_pages_replaces_a_file_by_a_shorter_one(self) -> None:
        path = self.write("page", b"the old text\n")
        self.call_main(import_script("make-pages"), [], TOP=self.folder,
                       make_pages=lambda: {"page": "new\n"})
        self.check("text", read(path), "new\n")


class NewMachines(Case):
    def test_check_program_counts_each_script_without_counts_as_failed(self) -> None:
        """These scripts crash, do not start, or do not end in time. Another fails one test."""
        script = import_script("check-program")
        self.patch_scripts(script, subprocess.CompletedProcess([], 1, "4 passed, 1 failed\n"), *(
            subprocess.CompletedProcess([], status, "running\n") for status in (0, 1, -9)),
            OSError("no file"), subprocess.TimeoutExpired("faults", 1))
        with contextlib.redirect_stdout(io.StringIO()) as out:
            self.check("status", script.main(["-p", self.bench.program]), 1)
        self.check("last line", out.getvalue().splitlines()[-1], "5 passed, 6 failed")

    def test_check_program_limits_the_time_of_each_script(self) -> None:
        script = import_script("check-program")
        with mock.patch.object(subprocess, "run") as run:
            script.run("faults", "/bin/true")
        self.check("time limit", run.call_args.kwargs["timeout"], script.SECONDS)

    def patch_scripts(self, script: Any, *results: object) -> None:
        """Let check-program run a script for each result or error, and count a correct example."""
        for name, value in {
                "SCRIPTS": [*map(str, range(len(results)))],
                "run": lambda number, _: mock.Mock(side_effect=[results[int(number)]])(),
                "compare_examples": lambda _: (1, 0)}.items():
            patch = mock.patch.object(script, name, value)
            patch.start()
            self.addCleanup(patch.stop)

    def test_the_first_24_lines_of_readme_have_the_first_commands_and_the_licence(self) -> None:
        lines = (read(os.path.join(TOP, "README.md")) or "").splitlines()
        screen = " ".join(" ".join(lines[:24]).split())
        for text in ("apt-get install git python3", "tools/qc MY.stl MY.ts", "tools/check-program",
                     "dev/install-test-tools", "licence"):
            self.must(text, text in screen)


CRATE_LINES = {name: (digest, "logic=proved functions=1")
               for name, digest in list_crate_sums().items()}


class ReleasedArchives(Case):
    def test_needs_the_prover_line_of_the_sources_of_each_crate(self) -> None:
        dist, last = import_script("dist"), [*CRATE_LINES][-1]
        program = self.write_program("subttx", "")
        cases: dict[str, Crates] = {
            "no crates": {}, "the last is missing": {
                name: line for name, line in CRATE_LINES.items() if name != last},
            "other sources": {**CRATE_LINES, last: ("0", CRATE_LINES[last][1])}}
        with mock.patch.object(dist, "find_built_program", lambda: program):
            for name, crates in cases.items():
                self.write("PROVED", format_proved(
                    ProvedProgram(None, None, None, crates)).encode())
                with self.subTest(name), self.assertRaisesRegex(Stop, "has no line of each crate"):
                    dist.find_proved_program()
            self.write("PROVED", format_proved(
                ProvedProgram(None, None, None, CRATE_LINES)).encode())
            self.check("all crates", dist.find_proved_program()[0], program)


class ProverJobs(Case):
    def test_processors_memory_and_the_quota_of_the_control_group_limit_the_jobs(self) -> None:
        script = import_script("prove")
        for memory, quota, jobs in ((99, "max 1", 8), (99, "500 100", 5), (9, "400 50", 3),
                                    (1, "", 1)):
            words = {"/proc/meminfo": ["MemAvailable:", f"{memory << 20}", "kB"],
                     "/sys/fs/cgroup/cpu.max": quota.split()}
            with mock.patch.object(script, "read_words", words.get), \
                    mock.patch.object(os, "sched_getaffinity", lambda _: range(8)):
                self.check(f"{memory} GiB, {quota}", script.compute_job_limit(), jobs)

    def test_crates_on_which_much_work_depends_get_more_jobs_and_processor_time(self) -> None:
        script = import_script("prove")
        work = mock.Mock(remaining_work={"long": 10, "half": 5, "short": 4})
        for limit, crate, is_only_job, jobs in (
                (8, "short", True, 4), (3, "long", True, 3), (8, "long", False, 2),
                (8, "half", False, 2), (8, "short", False, 1), (1, "long", False, 1)):
            work.limit = limit
            self.check(f"{limit} {crate} {is_only_job}", script.Work.compute_jobs(
                work, crate, 10, is_only_job), jobs)
        for limit, expected in (5, [("long", 0), ("half", 5), ("short", 5)]), (2, [("long", 0)]):
            work.limit, work.lanes, work.waiting = limit, [], {"half", "short", "long"}
            work.compute_jobs = lambda *_: 3
            with mock.patch.object(script, "Lane", lambda crate, _, jobs, nice: mock.Mock(
                    crate=crate, jobs=jobs, nice=nice)):
                script.Work.begin(work)
            self.check(f"begins with {limit}", [(lane.crate, lane.nice) for lane in work.lanes],
                       expected)

    def test_a_terminal_shows_a_line_that_is_cut_at_its_width(self) -> None:
        script = import_script("prove")
        with contextlib.redirect_stderr(io.StringIO()) as out, \
                mock.patch.object(out, "isatty", lambda: True), \
                mock.patch.object(os, "get_terminal_size", lambda _: os.terminal_size((46, 9))):
            progress = script.Progress(3)
            progress.report("a")
            progress.draw(["b", "c", "d"])
            progress.clear()
        self.check("printed", out.getvalue(),
                   "\r\x1b[Ksubttx: 0 s, 2 of 3 crates left; proving b, c\r\x1b[K")


class SmallRepository(Case):
    """The repository of dev/vectors/small-repository.txt with the scripts. The commands in its
    folder bin/ replace those of the toolchain and of apt."""

    def write_files(self) -> None:
        _, *sections = (read(os.path.join(VECTORS, "small-repository.txt")) or "").split("\n=== ")
        for section in sections:
            name, _, text = section.partition("\n")
            os.makedirs(os.path.dirname(self.path(name)), exist_ok=True)
            self.write_program(name, text.rstrip("\n") + "\n")

    def check_outputs(self, name: str, ignore: Callable[[Any, list[str]], set[str]]) -> None:
        """Compare the commands in a file of dev/vectors/ with their output."""
        self.write_files()
        for folder in ("tools", "dev", "bench"):
            shutil.copytree(os.path.join(TOP, folder), self.path(folder), ignore=ignore)
        share_compiled(self.path("tools"))
        for copied in ("VERSION", "HANDLES"):
            shutil.copy(os.path.join(TOP, copied), self.folder)
        environment = {**os.environ, "PATH": f"{self.path('bin')}:{os.environ['PATH']}",
                       "EXAMPLES": EXAMPLES, "PROGRAM": self.bench.program}
        for line in find_commands(os.path.join(VECTORS, name)):
            result = run_command(f"{line.command}\necho status $?", self.folder, environment)
            self.check(f"line {line.number}: {line.command}", result, (line.shown, 0))

    def test_scripts_print_the_stored_output(self) -> None:
        self.check_outputs("script-outputs.txt", list_omitted_names)

    def test_checks_print_the_stored_output(self) -> None:
        self.check_outputs("check-outputs.txt", shutil.ignore_patterns("__pycache__"))

    def test_runs_of_tests_print_the_stored_output(self) -> None:
        self.check_outputs("test-outputs.txt", shutil.ignore_patterns("__pycache__"))
