"""Find the tests in this folder, and run them in parallel."""
from __future__ import annotations

import gc
import itertools
import json
import os
import select
import sys
import unittest
from types import TracebackType
from typing import Iterator, Sequence, Tuple, Type, Union

from subtitles.common.command_line import Stop
from .. import DEV
from .bench import BENCH
from .failures import Mismatch
from .table import list_tests_of

FOLDER = os.path.dirname(os.path.realpath(__file__))
PATTERN = "test_*.py"
# The slowest tests, which start first so that none of them runs alone at the end.
LONG = ("test_dev_layers.Hints", "test_snapshots", "test_cli_install",
        "test_clock_delays.FfmpegStreams", "test_dev_clones", "test_dev_gate.JobScripts",
        "test_dev_scripts.SmallRepository",
        "test_stream_layouts", "test_cli_pairs")
Error = Union[Tuple[Type[BaseException], BaseException, TracebackType], Tuple[None, None, None]]
SeveralTests = Sequence[unittest.TestCase]


class Counts(unittest.TestResult):
    """A test result that counts passed and failed checks, and prints each failure."""

    def __init__(self, is_verbose: bool) -> None:
        super().__init__()
        self.is_verbose = is_verbose
        self.out = sys.stdout  # tests may redirect sys.stdout
        self.passed = self.failed = 0
        self.over: list[str] = []  # reasons for skipped tests
        self.names_with_subtests: set[str] = set()  # names of tests with subtests

    def count(self, test: unittest.TestCase, error: Error | None) -> None:
        self.passed += error is None
        self.failed += error is not None
        if error is not None:
            reported = str(error[1]) if isinstance(error[1], Mismatch) else \
                self._exc_info_to_string(error, test)  # type: ignore[attr-defined]
            whole = test.test_case if isinstance(error[1], Mismatch) and hasattr(
                test, "test_case") else test  # the message contains the subtest's name
            print(f"FAILED: {get_test_name(whole)}: {reported}", file=self.out, flush=True)
        elif self.is_verbose:
            print(f"passed: {get_test_name(test)}", file=self.out, flush=True)

    def addSubTest(self, test: unittest.TestCase, subtest: unittest.TestCase,
                   err: Error | None) -> None:
        self.names_with_subtests.add(test.id())
        self.count(subtest, err)

    def addSuccess(self, test: unittest.TestCase) -> None:
        if test.id() not in self.names_with_subtests:
            self.count(test, None)

    def addFailure(self, test: unittest.TestCase, err: Error) -> None:
        self.count(test, err)

    def addError(self, test: unittest.TestCase, err: Error) -> None:
        self.count(test, err)

    def addSkip(self, test: unittest.TestCase, reason: str) -> None:
        self.over.append(reason)


def get_test_name(test: unittest.TestCase) -> str:
    """Return the name of a test or subtest as `module.class.method`, with its parameters."""
    return test.id().replace("developing.tests.", "")


def flatten_suites(tests: unittest.TestSuite) -> Iterator[unittest.TestCase]:
    for one in tests:
        if isinstance(one, unittest.TestSuite):
            yield from flatten_suites(one)
        else:
            yield one


def find_tests(names: Sequence[str]) -> list[unittest.TestCase]:
    """Return the tests selected by names, or all tests if there are no names.

    Each name is part of a test's name, or a module or script of the tools. Raise `Stop` if a name
    selects no test.
    """
    everything = list(flatten_suites(unittest.TestLoader().discover(FOLDER, PATTERN, DEV)))
    of_names = [[item for item in everything if name in item.id() or get_test_name(item).startswith(
        tuple(f"{each}." for each in list_tests_of(name)))] for name in names]
    for name, several in zip(names, of_names):
        if not several:
            broken = [item.id() for item in everything if "_FailedTest" in item.id()]
            raise Stop(f"no test is named {name}, and none is of a module or script of that name"
                       + f"; not loaded: {', '.join(broken)}" * bool(broken))
    expected = {item for several in of_names for item in several}
    return [item for item in everything if not names or item in expected]


def has_fixture(kind: Type[unittest.TestCase]) -> bool:
    return "setUpClass" in kind.__dict__


def group_tests(tests: SeveralTests) -> Iterator[SeveralTests]:
    """Yield groups of tests that must run in one process, because they share a class fixture."""
    for kind, several in itertools.groupby(tests, type):
        if has_fixture(kind):
            yield list(several)
        else:
            yield from ([item] for item in several)


class TestProcess:
    """A forked process that runs tests. Patches and crashes in it do not affect other tests."""

    def __init__(self, several: SeveralTests, is_verbose: bool) -> None:
        self.name = get_test_name(several[0])
        sys.stdout.flush()
        self.said, printed = os.pipe()
        self.process = os.fork()
        if not self.process:
            try:
                counts = Counts(is_verbose)
                unittest.TestSuite(several).run(counts)
                counts.over += BENCH.over
                os.write(printed, json.dumps((counts.passed, counts.failed, counts.testsRun,
                                              counts.over)).encode())
            finally:
                os._exit(0)
        os.close(printed)

    def fileno(self) -> int:
        """Return the file descriptor that becomes readable when the process ends."""
        return self.said

    def add_to(self, whole: Counts) -> None:
        """Add the results of the process to `whole`. Count a crash as a failure."""
        printed = os.read(self.said, 1 << 16)
        os.close(self.said)
        _, status = os.waitpid(self.process, 0)
        if not printed:
            print(f"FAILED: {self.name}: its process ended by {status}", flush=True)
        passed, failed, count, over = json.loads(printed or b"[0, 1, 1, []]")
        whole.passed, whole.failed = whole.passed + passed, whole.failed + failed
        whole.testsRun += count
        whole.over += over


def run_all(tests: SeveralTests, process_count: int, is_verbose: bool) -> Counts:
    whole, running = Counts(is_verbose), list[TestProcess]()
    waiting = sorted(group_tests(tests), key=lambda item: get_test_name(item[0]).startswith(LONG))
    BENCH.get_shared_folder()
    gc.freeze()  # share more memory pages with the forked processes
    while running or waiting:
        while waiting and len(running) < process_count:
            running.append(TestProcess(waiting.pop(), is_verbose))
        for item in select.select(running, [], [])[0]:
            running.remove(item)
            item.add_to(whole)
    return whole
