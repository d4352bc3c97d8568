"""Test shell scripts, the job scripts in the manual, and the selection of tests by .ci/run."""
from __future__ import annotations

import glob
import os
import re
import shutil
import subprocess
import unittest
from random import Random
from typing import Sequence

from developing import read_counts
from developing.every_place.carried_laws import LAW_CHECKS, make_random_packets
from developing.every_place.recordings import MAX_UNSEEN_PACKETS
from developing.every_place.streams import multiplex, drop_random_units
from developing.every_place.trying import get_status
from subtitles.common.program import TOP, read
from subtitles.results.files import read_result
from . import runner, table
from .bench import Case, CompletedCall, Row, get_tool_path, read_example_file

EVAL_COMMAND = re.compile(r"^\s*(?:[^#]*[;&|(]\s*)?(?:eval|exec\s+sh\s+-c)\b")


class Scripts(Case):
    def test_no_script_evaluates_its_arguments(self) -> None:
        names = subprocess.run(["git", "-C", TOP, "ls-files"], stdout=subprocess.PIPE, check=True)
        for name in names.stdout.decode().split("\n"):
            path = os.path.join(TOP, name)
            text = os.path.isfile(path) and read(path) or ""
            is_script = text.startswith("#!") and "sh" in text.split("\n", 1)[0]
            if is_script or name.endswith((".sh", ".bash", ".md")):
                self.check(name, list(filter(EVAL_COMMAND.match, text.split("\n"))), [])

    def test_finds_a_line_that_evaluates_its_arguments(self) -> None:
        for line, is_found in (('eval "$@"', True), ("cd in && exec sh -c \"$1\"", True),
                               ('exec "$@"', False), ("# Call eval.", False)):
            self.check(line, EVAL_COMMAND.match(line) is not None, is_found)


class JobScripts(Case):
    """A list of six pairs, each of which is a job of a queue. The files in `in` are correct except
    bad.pes. Two of their names contain commands, which create the file `hit` if a shell executes
    them. Lines 5 and 6 have options that a list may not have."""

    LINES = ["in/one.stl in/one.pes", "'in/a b; touch hit.stl' in/one.pes --page 888",
             "in/$(touch${IFS}hit).stl in/one.pes", "in/one.stl in/bad.pes",
             "in/one.stl in/one.pes -p /bin/true", "-one.stl in/one.pes"]
    EXPECTED_VERDICTS = {"one": "relative", "a b; touch hit": "relative",
                         "$(touch${IFS}hit)": "relative", "one~2": "refused",
                         "line 5": "not judged", "line 6": "not judged"}

    def setUp(self) -> None:
        super().setUp()
        for folder in ("in", "bin", "home"):
            os.mkdir(self.path(folder))
        for name in ("one.stl", "a b; touch hit.stl", "$(touch${IFS}hit).stl"):
            self.write(f"in/{name}", read_example_file("hello.stl"))
        for name, data in (("one", "hello"), ("bad", "no-erase")):
            self.write(f"in/{name}.pes", read_example_file(f"{data}.pes"))
        self.write("list", "".join(f"{line}\n" for line in self.LINES).encode())
        self.write_program("bin/subttx-qc", f'#!/bin/sh\nexec {get_tool_path("qc")} "$@" -p '
                                            f"'{self.bench.program}'\n")
        self.env = {**os.environ, "PATH": f"{self.path('bin')}:{os.environ['PATH']}"}

    def call_shell(self, command: Sequence[str], **variables: str) -> CompletedCall:
        """Run a shell that finds subttx-qc, with more environment variables."""
        return self.call(command, env={**self.env, **variables})

    def check_results(self) -> None:
        """Check that each line of the list has a result, and that none of its text was executed."""
        os.makedirs(self.path("out"), exist_ok=True)
        names = os.listdir(self.path("out"))
        results = {name.removesuffix(".json"): read_result(self.path(f"out/{name}")) or {}
                   for name in names if name.endswith(".json")}
        self.check("verdicts", {name: result["verdict"] for name, result in results.items()},
                   self.EXPECTED_VERDICTS)
        self.check("has the file of a command", os.path.exists(self.path("hit")), False)
        self.check("has an overview", "index.html" in names, False)

    def test_runs_each_line_as_a_job_of_slurm(self) -> None:
        statuses = [self.call_shell(["bash", SLURM_SCRIPT], SLURM_ARRAY_TASK_ID=f"{line}").status
                    for line in range(1, 8)]  # line 7 is missing; a refused pair was judged
        self.check("statuses", statuses, [0, 0, 0, 0, 1, 1, 1])
        self.check_results()

    def test_a_job_of_slurm_without_one_number_judges_nothing(self) -> None:
        for number in ("", "1 2", "1 --line 2"):
            process = self.call_shell(["bash", SLURM_SCRIPT], SLURM_ARRAY_TASK_ID=number)
            self.check(f"{number!r}", (process.status, os.path.exists(self.path("out"))),
                       (1, False))

    def test_the_command_for_slurm_makes_a_folder_and_a_job_for_each_line(self) -> None:
        """Slurm drops each job without a message if there is no folder `log` for its output."""
        self.write_program("bin/sbatch", 'cd log && echo "$@" >../called\n')
        self.call_shell(["bash", "-c", read_command("mkdir -p log")])
        self.check("the manual's command", self.read("called"), b"--array=1-6%20 judge.sh\n")

    def test_runs_each_line_as_a_job_of_an_installed_slurm(self) -> None:
        if not shutil.which("sbatch") or self.call(["sinfo"]).status:
            self.skipTest("an array of Slurm, since no node of it is here")
        shutil.copy(SLURM_SCRIPT, self.path("judge.sh"))
        command = read_command("mkdir -p log").replace("sbatch", "sbatch --wait")
        self.call_shell(["bash", "-c", command])
        self.check_results()

    def test_runs_each_line_as_an_index_of_kubernetes(self) -> None:
        command = read_command("subttx-qc --batch list --line")
        statuses = [self.call_shell(["sh", "-c", command], JOB_COMPLETION_INDEX=f"{index}").status
                    for index in range(len(self.LINES))]
        self.check("statuses", statuses, [0, 0, 0, 0, 64, 64])
        self.check_results()

    def test_gnu_parallel_runs_a_line_again_only_if_it_was_not_judged(self) -> None:
        if not shutil.which("parallel"):
            self.skipTest("GNU parallel, which is not here")
        command = read_command("seq ")
        self.write("hosts", b":\n")
        command = command.replace("parallel", "parallel --sshloginfile hosts --workdir .")
        self.call_shell(["bash", "-c", command], PARALLEL_HOME=self.path("home"))
        self.check_results()
        times = self.read_result_times()
        self.write("list", "".join(f"{line}\n" for line in [
            *self.LINES[:4], self.LINES[0], self.LINES[5]]).encode())
        self.call_shell(["bash", "-c", command], PARALLEL_HOME=self.path("home"))
        new_times = self.read_result_times()
        self.check("results", {path for path in new_times if new_times[path] != times.get(path)},
                   {self.path("out/line 6.json"), self.path("out/one~3.json")})

    def read_result_times(self) -> dict[str, int]:
        """Return the mtime of each JSON result in nanoseconds, by its path."""
        return {path: os.stat(path).st_mtime_ns for path in glob.glob(self.path("out/*.json"))}


SLURM_SCRIPT = os.path.join(TOP, "docs", "manual", "judge.sh")


def read_command(beginning: str) -> str:
    """Return the command of the manual's page about many machines that begins so."""
    manual = read(os.path.join(TOP, "docs", "manual", "many-pairs.md")) or ""
    return " ".join(re.findall(f"`({beginning}[^`]*)`", manual)[0].split())


# What a script prints and its exit status, and the counts of passed and failed checks, or `None` if
# these can't be trusted
COUNT_CASES: dict[str, Row] = {
    "all passed": (("7 passed, 0 failed\n", 0), (7, 0)),
    "two failed": (("a\n7 passed, 2 failed\n", 1), (7, 2)),
    "two failed, and a signal": (("7 passed, 2 failed\n", -9), (7, 2)),
    "two failed, and status 0": (("7 passed, 2 failed\n", 0), None),
    "none failed, and status 1": (("7 passed, 0 failed\n", 1), None),
    "none failed, and a signal": (("7 passed, 0 failed\n", -9), None),
    "not the last line": (("7 passed, 0 failed\nmore\n", 0), None),
    "no line end": (("7 passed, 0 failed", 0), None),
    "not a complete line": (("of 7 passed, 0 failed\n", 0), None),
    "nothing": (("", 0), None),
    "two lines": (("1 passed, 1 failed\n7 passed, 0 failed\n", 0), (7, 0))}


class Counts(unittest.TestCase):  # without a folder, since test_dev_scripts also runs it
    def test_uses_the_last_line_only_if_the_status_agrees(self) -> None:
        for name, (arguments, expected) in COUNT_CASES.items():
            with self.subTest(name):
                self.assertEqual(read_counts(*arguments), expected)


class LastLines(Case):
    def test_the_last_line_of_the_program_implies_its_status(self) -> None:
        for line, status in (
                ("accepted 51 frames 2 transmissions", 0), ("written 2 transmissions", 0),
                ("written 3 pes 1 gaps", 0), ("2 pes", 0), ("blank", 0), ("heard no", 0),
                ("row 22 |refused 45 Lost pes 1                   |", 0), ("1 faults", 1),
                ("refused 45 Lost pes 1", 1), ("refused 60 Empty", 1), ("usage 86 Pid", 2),
                ("fault 41 Read pes 1", 2)):
            self.check(line, get_status(line), status)


class RecordingProperties(Case):
    """Random recordings of dev/check-every-place, one for each of 150 seeds."""

    SEEDS = range(150)

    def test_checks_the_properties_of_extracted_packets(self) -> None:
        for name, find_violation in LAW_CHECKS.items():
            for seed in self.SEEDS:
                self.check(f"{name}, seed {seed}", find_violation(seed), None)

    def test_the_longest_loss_is_a_packet_shorter_than_one_that_looks_like_a_repeat(self) -> None:
        longest = 0  # number of TS packets in a row without an intact copy
        for seed in self.SEEDS:
            chance = Random(seed)
            sent = multiplex(chance, make_random_packets(chance) * 3, 257, has_jumps=False)
            kept = {item.number for item in drop_random_units(chance, sent) if not item.is_wrong}
            lost = 0
            for number in sorted({item.number for item in sent if item.number is not None}):
                lost = 0 if number in kept else lost + 1
                longest = max(longest, lost)
        self.check("packets", longest, MAX_UNSEEN_PACKETS - 1)


class SelectedTests(Case):
    """The arguments of dev/check-tools, which dev/vectors/tests.tsv maps to test classes."""

    def list_classes(self, *names: str) -> set[str]:
        """Return the classes of the tests that check-tools runs for these arguments."""
        return {runner.get_test_name(item).rpartition(".")[0] for item in runner.find_tests(names)}

    def test_finds_a_module_by_any_of_its_names(self) -> None:
        for name, module in (
                ("stream/layout.py", "stream/layout.py"), ("stream.layout", "stream/layout.py"),
                ("tools/subtitles/stream/layout.py", "stream/layout.py"),
                ("subtitles.stream.layout", "stream/layout.py"), ("tools/qc", "qc"),
                ("dev/dist", "dev/dist"), ("air/judge.py", "air/judge.py"),
                ("tools/completion.bash", "completion.bash")):
            self.check(name, table.get_module_path(name), module)

    def test_the_table_has_a_row_for_each_module_of_the_tools_and_each_script(self) -> None:
        paths = [path for form in ("tools/subtitles/**/*.py", "tools/*", "dev/*", "bench/*",
                                   ".ci/*", "subttx")
                 for path in glob.glob(os.path.join(TOP, form), recursive=True)]
        expected = {table.get_module_path(os.path.relpath(path, TOP)) for path in paths
                    if os.path.isfile(path) and not path.endswith(("__init__.py", ".txt"))}
        self.must("files", {"clock/start.py", "qc", "dev/dist"} < expected, expected)
        self.check("files without a row", expected - {*table.rows()}, set())
        self.check("rows of no file", {row for row in table.rows() if row.endswith(".py")
                                       and not row.startswith("dev/")} - expected, set())

    def test_each_row_of_the_table_has_existing_classes(self) -> None:
        classes = self.list_classes()
        for row, tests in table.rows().items():
            self.must(row, tests and {*tests} <= classes, {*tests} - classes)

    def test_each_class_is_in_a_row_of_the_table(self) -> None:
        self.check("classes without a row", self.list_classes() - {
            name for tests in table.rows().values() for name in tests}, set())

    def test_runs_only_the_classes_in_the_row_of_a_module_or_script(self) -> None:
        for name, module in (("stream.layout", "test_stream_layouts."),
                             ("tools/qc", "test_cli_earlier_results.")):
            listed = table.list_tests_of(name)
            self.must(f"{name}: {module}", any(module in item for item in listed), listed)
            self.check(name, self.list_classes(name), {*listed})

    def test_an_unknown_module_has_no_tests(self) -> None:
        self.check("tests", table.list_tests_of("subtitles.none"), [])

    def test_a_new_table_keeps_the_rows_of_documents_and_scripts(self) -> None:
        kinds = {type(item) for item in runner.find_tests([])}
        before = {"docs": ["test_dev_gate.Scripts"], "dev/dist": ["test_dev_gate.Counts"],
                  "gone": ["test_dev_gate.Gone"]}
        rows = dict(line.rstrip("\n").split("\t") for line in table.lines({}, kinds, before))
        self.check("documents", rows["docs"], "test_dev_gate.Scripts")
        self.must("a script", "test_dev_gate.Counts" in rows["dev/dist"].split(), rows["dev/dist"])
        self.check("deleted tests", rows.get("gone"), None)
