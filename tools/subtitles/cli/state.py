"""Write the state of a service (`air judge`, `qc --watch`) to a JSON file for monitoring, which
only `air status` reads."""
from __future__ import annotations

import collections
import contextlib
import json
import os
from typing import Any, Iterator

from ..common.command_line import BUG, classify_error, escape_hidden, format_error
from ..common.files import open_result
from ..request.commands import STATE
from .single import hold_lock, now as date

BUG_LOG = "bug.log"  # message of the last bug that ended a service, in the folder that it writes to
BUG_SECONDS = 86_400.0  # seconds after a bug during which the alarm `bug` is active
MIN_FREE_BYTES = 100_000_000  # bytes of free disk space below which the alarm `disk` is active


class State:
    """The state of a service's disks and results."""

    def __init__(self) -> None:
        self.now = 0.0
        self.free = dict[str, int]()  # number of free bytes for each folder
        self.has_bug = False
        self.waiting, self.late = 0, list[str]()
        self.last_error = self.last_result = ""
        self.verdicts = collections.Counter[str]()  # since the start

    def look_at_folders(self, now: float, **folders: str) -> None:
        """Update the time and the state of the folders that services write to."""
        self.now = now
        self.free = {name: count_free_bytes(folder) for name, folder in folders.items()}
        self.has_bug = any(has_recent_bug(folder, now) for folder in folders.values())

    def add_result(self, name: str, verdict: str, text: str) -> None:
        """Count a verdict, and keep the text about it."""
        self.verdicts[verdict] += 1
        self.last_result = f"{name}: {text}"

    def find_alarms(self) -> dict[str, bool]:
        """Return whether each alarm is active."""
        return {"disk": min(self.free.values()) < MIN_FREE_BYTES, "bug": self.has_bug}

    def find_warnings(self) -> list[str]:
        """Return the names of active alarms that are only warnings."""
        return []

    def make_contents(self) -> dict[str, Any]:
        """Return the contents of the state file."""
        alarms = self.find_alarms()
        return {
            "date": date(self.now),
            "alarms": [name for name, is_active in alarms.items() if is_active],
            "inactive_alarms": [name for name, is_active in alarms.items() if not is_active],
            "warnings": self.find_warnings(), "free_bytes": self.free,
            "waiting": self.waiting, "late": self.late, "last_error": self.last_error,
            "last_result": self.last_result, "verdicts": dict(self.verdicts)}


def format_date_or_none(time: float) -> str | None:
    """Format a time in UTC. Return `None` for 0, which means never."""
    return date(time) if time else None


def count_free_bytes(folder: str) -> int:
    """Return the number of free bytes on the disk of a folder, or 0 if there is no such folder."""
    with contextlib.suppress(OSError):
        info = os.statvfs(folder)
        return info.f_bavail * info.f_frsize
    return 0


def has_recent_bug(folder: str, now: float) -> bool:
    """Return whether a bug ended a service that writes to a folder within the last day."""
    with contextlib.suppress(OSError):
        return os.stat(os.path.join(folder, BUG_LOG)).st_mtime > now - BUG_SECONDS
    return False


def lock_service(folder: str) -> contextlib.AbstractContextManager[None]:
    """Lock a folder of results until the `with` block ends, since only one service may write the
    state file. No pair has the lock's name."""
    return hold_lock(folder, "state", "another service is judging into ")


@contextlib.contextmanager
def log_bug(folder: str) -> Iterator[None]:
    """If a bug ends the `with` block, write its message to a file in a folder. The service is
    restarted, but its developers should read the message."""
    try:
        yield
    except Exception as reason:
        if classify_error(reason) == BUG:
            text = f"{date()}  {escape_hidden(format_error(reason))}\n"
            with contextlib.suppress(OSError), open_result(os.path.join(folder, BUG_LOG)) as file:
                file.write(text.encode())
        raise


def write_state(folder: str, state: dict[str, Any]) -> None:
    """Write the state file. Ignore errors, since monitoring can detect the old date in the file."""
    with contextlib.suppress(OSError), open_result(os.path.join(folder, STATE)) as file:
        file.write(json.dumps(state, indent=1).encode() + b"\n")
