"""Find the tests that call a function, and check whether a test fails on a planted bug.

The tests are loaded once, in a copy of the repository. Each test run is a forked process.
"""
from __future__ import annotations

import contextlib
import importlib
import io
import json
import os
import select
import shutil
import signal
import subprocess
import sys
import tempfile
import time
import unittest
from typing import Any, Callable, Sequence

from subtitles.common.command_line import Stop
from subtitles.common.program import TOP
from .edits import replace_files
from .tests import bench, runner

COPIED_FOLDERS = ("tools", "dev")
TOO_LONG = "too long"  # reason if a test exceeds its time limit
CALLS = "SUBTTX_CALLS"  # environment variable with the path of the file that lists called functions
# Code for each traced process: it writes the name of each function at its first call.
TRACE_CODE = """
import os, sys, threading
path, known = os.environ["SUBTTX_CALLS"], set()
def seen(frame, event, arg):
    code = frame.f_code
    if code not in known:
        known.add(code)
        if code.co_flags & 1 and "/subtitles/" in code.co_filename:
            module = code.co_filename.rpartition("/subtitles/")[2]
            file = os.open(path, os.O_WRONLY | os.O_APPEND | os.O_CREAT, 0o666)
            os.write(file, f"{module}:{code.co_qualname}\\n".encode())
            os.close(file)  # a forked process may close all files
threading.settrace(seen)
sys.settrace(seen)
"""
Answer = dict[str, Any]


class StopAtFailure(runner.Counts):
    """A test result that prints nothing and stops at the first failure."""

    by = ""

    def count(self, test: unittest.TestCase, error: Any) -> None:
        self.passed += error is None
        self.failed += error is not None
        if error is not None:
            self.by = self.by or error[0].__name__
            self.stop()


def get_unit_name(unit: runner.SeveralTests) -> str:
    """Return the name of a test, or of the class if its tests share a fixture and run together."""
    name = runner.get_test_name(unit[0])
    return name.rpartition(".")[0] if runner.has_fixture(type(unit[0])) else name


def strip_nested(name: str) -> str:
    """Remove comprehensions and lambdas from a function's qualified name."""
    return ".".join(part for part in name.split(".") if not part.startswith("<"))


class LoadedCopy:
    """A copy of the repository in the folder `top`, with its tests loaded."""

    def __init__(self, top: str, program: str) -> None:
        self.top, self.program = top, program
        tempfile.tempdir = os.environ["TMPDIR"] = os.path.join(top, "temporary")
        os.makedirs(tempfile.tempdir, exist_ok=True)
        bench.BENCH.chosen = program
        self.units = {get_unit_name(unit): unit
                      for unit in runner.group_tests(runner.find_tests([]))}

    def reload(self) -> None:
        """Load the tests and their imports again."""
        for name in list(sys.modules):
            if name.split(".")[0] in ("subtitles", "developing"):
                del sys.modules[name]
        module = importlib.import_module("developing.planting")
        self.units = module.LoadedCopy(self.top, self.program).units

    def run(self, names: Sequence[str]) -> Answer:
        """Run tests until one fails. Return how many passed, the failed test, and the reason."""
        for passed, name in enumerate(names):
            counts = StopAtFailure(False)
            with contextlib.redirect_stdout(io.StringIO()), \
                    contextlib.redirect_stderr(sys.__stderr__):  # also applies to forked processes
                unittest.TestSuite(self.select_tests(name)).run(counts)
            if counts.failed:
                return {"passed": passed, "failed": name, "by": counts.by}
        return {"passed": len(names), "failed": "", "by": ""}

    def select_tests(self, name: str) -> list[unittest.TestCase]:
        """Return the tests of the group `name`, or the tests whose names contain `name`."""
        result = self.units.get(name) or [test for unit in self.units.values() for test in unit
                                          if name in runner.get_test_name(test)]
        if not result:
            raise Stop(f"no test is named {name}")
        return list(result)

    def run_changed(self, texts: dict[str, str], names: Sequence[str], seconds: float) -> Answer:
        """Run tests with changed files in the copy of the repository, then restore the files."""
        def run_with_edit() -> Answer:
            self.reload()  # also computes the tables of modules again
            return self.run(names)

        with replace_files(self.top, texts):
            return run_forked(run_with_edit, seconds)

    def trace_calls(self, name: str, seconds: float) -> Answer:
        """Run a test. Return the functions that it called, its seconds, and its failure, if any."""
        folder = os.path.join(self.top, "watch")
        os.makedirs(folder, exist_ok=True)
        with open(os.path.join(folder, "sitecustomize.py"), "w", encoding="utf-8") as file:
            file.write(TRACE_CODE)
        calls = os.path.join(folder, "calls")
        with open(calls, "w", encoding="utf-8"):
            pass
        os.chmod(calls, 0o666)

        def watching() -> Answer:
            os.environ.update({CALLS: calls, "PYTHONPATH": folder})
            exec(TRACE_CODE, {})  # other processes of the test load this code as sitecustomize
            return self.run([name])

        begun = time.monotonic()
        answer = run_forked(watching, seconds)
        with open(calls, encoding="utf-8") as file:
            called = sorted({strip_nested(line.strip()) for line in file})
        return {"unit": name, "calls": called, "seconds": round(time.monotonic() - begun, 2),
                "failed": answer["failed"]}


def run_forked(serve: Callable[[], Answer], seconds: float) -> Answer:
    """Run `serve` in a forked process, and return its answer.

    After `seconds`, kill the process and its children, and return an answer with TOO_LONG.
    """
    reading, writing = os.pipe()
    child = os.fork()
    if not child:
        try:
            os.setsid()
            os.dup2(os.open(os.devnull, os.O_WRONLY), 2)
            os.write(writing, json.dumps(serve()).encode())
        except BaseException as error:  # the module with the bug cannot be loaded
            os.write(writing, json.dumps(
                {"passed": 0, "failed": "loading", "by": type(error).__name__}).encode())
        finally:
            os._exit(0)
    os.close(writing)
    output = b""
    if select.select([reading], [], [], seconds)[0]:
        output = os.read(reading, 65536)
    for kill in (os.killpg, os.kill):  # the process group may not exist yet
        with contextlib.suppress(OSError):
            kill(child, signal.SIGKILL)
    os.waitpid(child, 0)
    os.close(reading)
    return dict(json.loads(output)) if output else {"passed": 0, "failed": TOO_LONG, "by": "time"}


class Worker:
    """A process that runs tasks in a copy of the repository. Parts of the copy are links."""

    def __init__(self, folder: str, program: str) -> None:
        os.chmod(folder, 0o755)  # some tests run as another user, who must read the copy
        for name in os.listdir(TOP):
            source, target = os.path.join(TOP, name), os.path.join(folder, name)
            if name in COPIED_FOLDERS:
                shutil.copytree(source, target, ignore=shutil.ignore_patterns("__pycache__"))
            elif name != ".git":
                os.symlink(source, target)
        self.running = subprocess.Popen(
            [sys.executable, "-m", __name__, folder, program], stdin=subprocess.PIPE,
            cwd=os.path.join(folder, "dev"), stdout=subprocess.PIPE, text=True,
            start_new_session=True)
        self.names = self.run_task({})["names"]

    def run_task(self, task: Answer) -> Answer:
        """Send a task to the process and return its answer."""
        assert self.running.stdin and self.running.stdout
        print(json.dumps(task), file=self.running.stdin, flush=True)
        line = self.running.stdout.readline()
        if not line:
            raise Stop("a worker process ended unexpectedly")
        return dict(json.loads(line))

    def end(self) -> None:
        os.killpg(self.running.pid, signal.SIGKILL)
        self.running.wait()


def serve(folder: str, program: str) -> None:
    """Run tasks from standard input: trace a test, or run tests with changed files."""
    sys.dont_write_bytecode = False  # store bytecode of the copy, but not of modules with a bug
    copy = LoadedCopy(folder, program)
    sys.dont_write_bytecode = True
    out = os.fdopen(os.dup(1), "w")
    os.dup2(2, 1)
    for line in sys.stdin:
        task = json.loads(line)
        if "watch" in task:
            answer = copy.trace_calls(task["watch"], task["seconds"])
        elif "texts" in task:
            answer = copy.run_changed(task["texts"], task["names"], task["seconds"])
        else:
            answer = {"names": list(copy.units)}
        print(json.dumps(answer), file=out, flush=True)


if __name__ == "__main__":
    serve(*sys.argv[1:])
