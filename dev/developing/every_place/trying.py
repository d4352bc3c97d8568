"""Call the program, and compare its output with the second implementation's output."""
from __future__ import annotations

import os
import re
import shlex
import shutil
import subprocess

from .calls import Answer, Call, KnownCall, add_first_fault_call

WRITING_COMMANDS = ("extract", "schedule")  # commands that write a file
# A read returns at most this many bytes. If a file is shorter, the second read reaches its end.
READ_SIZE = 65536


def make_reads_fail(path: str, data: bytes) -> list[str]:
    """Return a command prefix (strace) that makes reads at the end of a file fail."""
    when = 2 if data else 1
    return ["strace", "-qq", "-o", os.devnull, "-P", path, "-e", "trace=read",
            "-e", f"inject=read:error=EIO:when={when}+"]


def get_status(line: str) -> int:
    """Return the exit status that corresponds to the last line of an output."""
    if re.fullmatch(r"refused .*|\d+ faults", line):
        return 1
    return 2 if line.split()[0] in ("fault", "usage") else 0


def find_first_difference(printed: list[str], expected: list[str]) -> str:
    """Return a message about the first difference between two lists of lines."""
    for number, (one, other) in enumerate(zip(printed, expected), 1):
        if one != other:
            return f"line {number}: {one}, expected: {other}"
    count = min(len(printed), len(expected))
    if len(printed) == len(expected):
        return "the lines are the same"
    what, line = ("unexpected", printed[count]) if len(printed) > count else \
        ("missing", expected[count])
    return f"line {count + 1} is {what}: {line}"


class Trial:
    """Runs the program on files in `folder`, and compares its output."""

    def __init__(self, program: str, folder: str) -> None:
        self.program, self.folder = program, folder
        self.can_fail = bool(shutil.which("strace")) and not subprocess.run(
            [*make_reads_fail("/dev/null", b""), "true"], stderr=subprocess.DEVNULL,
            check=False).returncode

    def call_program(self, call: Call) -> tuple[int, Answer]:
        """Run a call. Return the program's status and output."""
        names = [os.path.join(self.folder, f"{number}-{os.getpid()}")
                 for number in range(len(call.files))]
        for name, data in zip(names, call.files):
            with open(name, "wb") as file:
                file.write(data)
        written = os.path.join(self.folder, f"written-{os.getpid()}")
        before = make_reads_fail(names[-1], call.files[-1]) if call.is_failing else []
        outputs = [written] if call.command in WRITING_COMMANDS else []
        process = subprocess.run(
            [*before, self.program, call.command, *names, *outputs, *call.options], check=False,
            stdin=subprocess.DEVNULL, stdout=subprocess.PIPE, stderr=subprocess.DEVNULL)
        result: bytes | None = None
        if os.path.exists(written):
            with open(written, "rb") as file:
                result = file.read()
            os.remove(written)
        for name in names:
            os.remove(name)
        lines = process.stdout.decode("utf-8", "replace").splitlines()
        return process.returncode, Answer(lines, result)

    def schedule(self, stl: bytes, arguments: list[str]) -> bytes:
        """Return the transmission that the program's `schedule` writes."""
        return self.call_program(Call("", "schedule", (stl,),
                                      shlex.join(arguments)))[1].written or b""

    def find_differences(self, known: KnownCall) -> list[str]:
        """Return differences from the expected output. Skip read failures if there is no strace."""
        messages = []
        for call, expected in add_first_fault_call(*known):
            if call.is_failing and not self.can_fail:
                continue
            status, own = self.call_program(call)
            expected_value = get_status(expected.lines[-1])
            what = " ".join([call.command, call.arguments, *(["failing"] if call.is_failing
                                                             else [])])
            if (status, own.lines) != (expected_value, expected.lines):
                messages.append(f"{what}: status {status}, expected {expected_value}; "
                                f"{find_first_difference(own.lines, expected.lines)}")
            if own.written != expected.written:
                sizes = [None if data is None else len(data)
                         for data in (own.written, expected.written)]
                messages.append(f"{what}: wrote {sizes[0]} bytes, expected these {sizes[1]}")
        return messages
