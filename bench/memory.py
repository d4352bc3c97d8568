"""Measure the peak memory of a command with GNU time."""
from __future__ import annotations

import os
import subprocess
import tempfile

from subtitles.common.command_line import Stop

GNU_TIME = "/usr/bin/time"


def lines_of_log(command: list[str], words: list[str]) -> list[str]:
    """Return the log lines of a command, such as strace, that runs another command."""
    with tempfile.TemporaryDirectory() as folder:
        log = os.path.join(folder, "log")
        process = subprocess.run([*command, "-o", log, *words], stdout=subprocess.DEVNULL,
                                 check=False)
        if process.returncode not in (0, 1):  # status 1: the input is refused
            raise Stop(f"{' '.join(words)} ended with status {process.returncode}")
        with open(log, encoding="utf-8") as file:
            return file.read().splitlines()


def peak(words: list[str]) -> str:
    """Return the peak memory of a command in MB (10^6 bytes), or `-` without GNU time.

    GNU time starts the command, since a process started by Python inherits Python's peak.
    """
    if not os.path.exists(GNU_TIME):
        return "-"
    kibibytes = int(lines_of_log([GNU_TIME, "-f", "%M"], words)[-1])
    return f"{kibibytes * 1024 / 1e6:.3g} MB"
