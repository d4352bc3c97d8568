"""Find the command lines and their expected output in documents, and run the command lines."""
from __future__ import annotations

import re
import subprocess

SECONDS = 600  # time limit in seconds for one command line on a busy machine


class Line:
    """A command line in a document: its line number, the command, and the output shown there."""

    def __init__(self, number: int, command: str) -> None:
        self.number, self.command, self.shown = number, command, ""


def find_commands(path: str) -> list[Line]:
    inside = False
    current: Line | None = None
    result: list[Line] = []
    with open(path, encoding="utf-8") as file:
        for number, line in enumerate(file, 1):
            if path.endswith(".1"):
                line = line.replace("\\-", "-")
            if line.startswith(("```", ".EX", ".EE")):
                inside, current = not inside, None
            elif inside and current and current.command.endswith("\\"):
                current.command += "\n" + line.rstrip("\n")
            elif inside and re.match(r"\$ |\./subttx ", line):
                current = Line(number, line.rstrip("\n").removeprefix("$ "))
                result.append(current)
            elif inside and current:
                current.shown += line
    return result


def has_expected_status(status: int | None, command: str, output: str) -> bool:
    """Return whether the exit status (`None` after a timeout) agrees with the last line of the
    output. Lines that explain a fault on standard error do not count."""
    if status is None:
        return False
    if "|" in command.rsplit(";", 1)[-1]:
        return True
    last = [line for line in output.rstrip("\n").split("\n")
            if not line.startswith("subttx: ")][-1:] or [""]
    if re.fullmatch(r"\d+ faults", last[0]):
        return status == 1
    statuses = {"refused": 1, "fault": 2, "usage": 2, "relative": 3}
    return status == statuses.get(last[0].split(" ")[0], 0)


def run_command(command: str, folder: str, env: dict[str, str]) -> tuple[str, int | None]:
    """Run a command line. Return its output and its exit status (`None` after a timeout)."""
    try:
        process = subprocess.run(["sh", "-c", command], cwd=folder, env=env, check=False,
                                 stdin=subprocess.DEVNULL, stdout=subprocess.PIPE,
                                 stderr=subprocess.STDOUT, timeout=SECONDS)
    except subprocess.TimeoutExpired:
        return f"did not end within {SECONDS} seconds", None
    return process.stdout.decode("utf-8", "replace"), process.returncode
