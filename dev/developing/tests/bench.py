"""The base class of tests, with methods to write files, run the tools and check values.

Each test of a `Case` has its own folder, and continues after a failed check. From dev/, `python3 -m
unittest developing.tests.test_clock_delays` runs the tests in one module.
"""
from __future__ import annotations

import atexit
import contextlib
import functools
import importlib.machinery
import importlib.util
import os
import runpy
import shutil
import signal
import socket
import subprocess
import sys
import tempfile
import traceback
import unittest
from typing import Any, Callable, Mapping, NamedTuple, NoReturn, Sequence, Tuple

from developing import DEV, TOOLS
from subtitles.common.program import TOP, find_built_program
from .failures import (
    Mismatch, explain_condition, find_calling_frame, format_comparison, format_failure, list_lines)

EXAMPLES = os.path.join(TOP, "examples")
INTERNAL_ERROR = ": internal error: "  # in the message of a tool that failed because of a bug
SECONDS = 600  # time limit for a command or a wait, in seconds


Row = Tuple[Tuple[Any, ...], object]  # arguments, and the expected value


class CompletedCall(NamedTuple):
    """The exit status, standard output and standard error of a finished command."""

    status: int
    out: bytes
    errors: list[str]


class Bench:
    """Settings of a test run. `over` lists the tests that were skipped, with reasons."""

    def __init__(self) -> None:
        self.folder, self.is_timed, self.is_updated = "", False, False
        self.over = list[str]()
        self.chosen: str | None = None

    @property
    def program(self) -> str:
        """Return the path of the program under test, by default the program run by ./subttx."""
        if self.chosen is None:
            self.chosen = os.path.realpath(find_built_program(None))
        return self.chosen

    def get_shared_folder(self) -> str:
        """Return the folder for all tests. Other users can read it. Create it in the first call."""
        if not self.folder:
            self.folder = tempfile.mkdtemp()
            os.chmod(self.folder, 0o755)
            atexit.register(shutil.rmtree, self.folder, ignore_errors=True)
        return self.folder

    def make_folder(self, name: str) -> str:
        result = os.path.join(self.get_shared_folder(), name)
        os.mkdir(result)
        return result


BENCH = Bench()


class Case(unittest.TestCase):
    """A test case whose tests have folders of their own."""

    bench = BENCH
    folder = ""

    def setUp(self) -> None:
        self.folder = self.bench.make_folder(self.id().rpartition("tests.")[2])

    def must(self, name: str, is_right: object, evidence: object = "") -> bool:
        """Check a condition. Continue after a failure. Use `check` if there is an expected value.
        """
        with self.subTest(name):
            if not is_right:
                found = "\n".join(list_lines(evidence))
                raise Mismatch(format_failure(name, explain_condition(find_calling_frame()),
                                              f"  found:    {found}" * (evidence != "")))
        return bool(is_right)

    def check(self, name: str, result: object, expected: object) -> bool:
        """Check that two values are equal. Continue after a failure."""
        with self.subTest(name):
            if result != expected:
                raise Mismatch(format_failure(name, format_comparison(result, expected)))
        return result == expected

    def check_rows(self, function: Callable[..., object], rows: Mapping[str, Row]) -> None:
        """Call a function with the arguments in each named row, and check its return values."""
        for name, (arguments, expected) in rows.items():
            self.check(f"{name}: {getattr(function, '__name__', 'call')}"
                       f"({', '.join(map(repr, arguments))})", function(*arguments), expected)

    def path(self, name: str) -> str:
        return os.path.join(self.folder, name)

    def write(self, name: str, data: bytes | bytearray) -> str:
        with open(self.path(name), "wb") as file:
            file.write(data)
        return self.path(name)

    def make_socket(self, name: str) -> str:
        """Make a socket. The path given to `bind` is short, since at most 107 bytes are allowed."""
        folder = os.open(self.folder, os.O_PATH)
        with socket.socket(socket.AF_UNIX) as result:
            result.bind(f"/proc/self/fd/{folder}/{name}")
        os.close(folder)
        return self.path(name)

    def write_program(self, name: str, text: str) -> str:
        path = self.write(name, text.encode())
        os.chmod(path, 0o755)
        return path

    def read(self, name: str) -> bytes:
        with open(self.path(name), "rb") as file:
            return file.read()

    def call(self, command: Sequence[str], data: bytes | None = None,
             env: dict[str, str] | None = None, user: int | None = None,
             folder: str = "") -> CompletedCall:
        """Run a command in the test's folder or in a folder within it.

        Python tools run in a fork of this process, unless `env` or `user` is given.
        """
        does = find_forked_tool(command) if env is None and user is None else None
        process = subprocess.run(command, cwd=os.path.join(self.folder, folder), check=False,
                                 stdout=subprocess.PIPE, stderr=subprocess.PIPE, timeout=SECONDS,
                                 input=data or b"", env=env, user=user, preexec_fn=does)
        errors = process.stderr.decode("utf-8", "surrogateescape").splitlines()
        self.check_no_internal_error(errors)
        return CompletedCall(process.returncode, process.stdout, errors)

    def check_no_internal_error(self, errors: Sequence[str]) -> None:
        """Check that no bug ended a tool. Its status would be that of a wrong argument."""
        if wrong := [line for line in errors if INTERNAL_ERROR in line]:
            self.check("internal errors", wrong, [])

    def tool(self, name: str, *args: str, data: bytes | None = None) -> CompletedCall:
        return self.call([get_tool_path(name), *args], data)

    def program(self, *args: str) -> tuple[int, list[str]]:
        """Run the program under test. Return its exit status and output lines."""
        process = self.call([self.bench.program, *args])
        return process.status, process.out.decode().splitlines()

    def make_program_with_exception(self, when: str, does: str) -> str:
        """Write a script that runs a shell command, then the program under test. Return its path.

        The command `does` runs only if the script's arguments match the shell pattern `when`.
        """
        return self.write_program("program", f"#!/bin/sh\ncase $* in {when}) {does} ;; esac\nexec "
                                             f"'{self.bench.program}' \"$@\"\n")

    def schedule(self, stl: str, name: str, *options: str) -> str:
        process = self.call([self.bench.program, "schedule", stl, self.path(name), *options])
        assert process.status == 0, process
        return self.path(name)


def get_tool_path(name: str) -> str:
    path = os.path.join(TOP, "tools", name)
    return path if os.path.exists(path) else os.path.join(TOP, "dev", name)


@functools.lru_cache(None)
def is_python(path: str) -> bool:
    if os.path.dirname(path) not in (TOOLS, DEV):
        return False
    with open(path, "rb") as file:
        return file.readline().endswith(b"python3\n")


def find_forked_tool(command: Sequence[str]) -> Callable[[], NoReturn] | None:
    """Return a function that runs a Python tool in a fork. Return `None` for other commands."""
    sys.__stdout__.flush()
    return functools.partial(run_forked, command) if is_python(command[0]) else None


def run_forked(command: Sequence[str]) -> NoReturn:
    """Run a Python tool in this forked process, and exit with its status."""
    status: object = 1
    try:
        for number in (signal.SIGPIPE, signal.SIGXFSZ):
            signal.signal(number, signal.SIG_IGN)  # as a new interpreter does
        if signal.getsignal(signal.SIGINT) == signal.SIG_DFL:
            signal.signal(signal.SIGINT, signal.default_int_handler)
        for name in os.listdir("/proc/self/fd"):
            if int(name) > 2:
                with contextlib.suppress(OSError):
                    os.close(int(name))
        sys.argv, sys.path[:0] = [*command], [os.path.dirname(command[0])]
        for name in ("stdin", "stdout", "stderr"):
            setattr(sys, name, getattr(sys, f"__{name}__"))
        runpy.run_path(command[0], run_name="__main__")
    except SystemExit as end:
        status = end.code or 0
    except BaseException:
        traceback.print_exc()
    finally:
        with contextlib.suppress(OSError, ValueError):
            sys.stdout.flush()
        with contextlib.suppress(OSError, ValueError):
            sys.stderr.flush()
        os._exit(status if isinstance(status, int) else 1)


def import_script(name: str) -> Any:
    loader = importlib.machinery.SourceFileLoader(name, get_tool_path(name))
    spec = importlib.util.spec_from_loader(name, loader)
    assert spec
    # Data classes look up their module in sys.modules.
    result = sys.modules[name] = importlib.util.module_from_spec(spec)
    loader.exec_module(result)
    return result


def get_example_path(name: str) -> str:
    return os.path.join(EXAMPLES, name)


def read_example_file(name: str) -> bytes:
    with open(get_example_path(name), "rb") as file:
        return file.read()
