"""Let pytest run the tests of dev/check-tools. With `--forked`, each test has its own process.

The tests use the program that ./subttx runs, or the program named by the variable SUBTTX.
"""
import os
import sys

sys.dont_write_bytecode = True
sys.path.insert(0, os.path.dirname(os.path.realpath(__file__)))
from developing.compiled import use_compiled_tools  # noqa: E402
from developing.tests.bench import BENCH  # noqa: E402
from subtitles.common.program import find_built_program  # noqa: E402

COMPILED = use_compiled_tools()


def pytest_configure() -> None:
    """Prepare the tests in the same way as dev/check-tools."""
    BENCH.chosen = os.path.realpath(os.environ.get("SUBTTX") or find_built_program(None))
    COMPILED.__enter__()
    BENCH.get_shared_folder()


def pytest_runtest_call() -> None:
    """Let tests print to the standard output of the process, which forked processes share."""
    sys.stdout, sys.stderr = sys.__stdout__, sys.__stderr__


def pytest_unconfigure() -> None:
    COMPILED.__exit__(None, None, None)


def pytest_terminal_summary() -> None:
    """List the tests that were skipped because a tool is missing on this machine."""
    if BENCH.over:
        print("skipped: " + "; ".join(dict.fromkeys(BENCH.over)))
