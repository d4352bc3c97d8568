"""Compile the tools once for the calls of many tests.

Without this, each call would compile all modules again: installed tools write no bytecode.
"""
from __future__ import annotations

import contextlib
import os
import subprocess
import sys
import tempfile
from typing import Iterator

from . import TOOLS

PREFIX, NO_BYTECODE = "PYTHONPYCACHEPREFIX", "PYTHONDONTWRITEBYTECODE"
IMPORT_ALL = """
import importlib, pkgutil, subtitles
for module in pkgutil.walk_packages(subtitles.__path__, "subtitles."):
    importlib.import_module(module.name)
"""


def compile_in_place(folder: str) -> None:
    """Compile the modules of a folder. Copies of the folder can use the result."""
    subprocess.run([sys.executable, "-m", "compileall", "-q", folder], check=False,
                   env=make_plain_environment())


def share_compiled(folder: str) -> None:
    """Let a copy of the tools use the compiled modules. Its modification times must be equal."""
    if PREFIX in os.environ:
        place = os.environ[PREFIX] + os.path.realpath(folder)
        os.makedirs(os.path.dirname(place), exist_ok=True)
        os.symlink(os.environ[PREFIX] + TOOLS, place)


def make_plain_environment() -> dict[str, str]:
    """Return the environment without the variables that control bytecode."""
    return {name: value for name, value in os.environ.items() if name not in (PREFIX, NO_BYTECODE)}


@contextlib.contextmanager
def use_compiled_tools() -> Iterator[None]:
    """Compile the tools into a temporary folder. Calls in the `with` block use this folder."""
    if PREFIX in os.environ:
        yield
        return
    with tempfile.TemporaryDirectory() as folder:
        os.chmod(folder, 0o755)  # tests that run as another user read this folder
        subprocess.run([sys.executable, "-c", IMPORT_ALL], check=False,
                       env={**make_plain_environment(), PREFIX: folder, "PYTHONPATH": TOOLS})
        os.environ[PREFIX] = folder
        try:
            yield
        finally:
            del os.environ[PREFIX]
