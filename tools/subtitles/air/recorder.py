"""Record a feed in segments that are named by time, and delete the oldest segments. The recorder
may be killed and restarted at any time."""
from __future__ import annotations

import bisect
import contextlib
import errno
import fcntl
import math
import os
import threading
import time
from typing import NamedTuple

from ..cli.single import hold_lock
from ..common.command_line import print_stderr
from .segments import NOTE, list_segment_names, make_segment_name

MAX_READ_BYTES = 1 << 18  # maximum number of bytes per read
PIPE_SIZE = 1 << 20  # pipe buffer in bytes: 0.2 seconds at 40 Mbit/s
# Seconds between writes to a full disk, and seconds after which unwritten bytes are dropped.
WRITE_RETRY, WRITE_PATIENCE = 0.1, 5.0
# Segments deleted for each new one: a wrong clock or a full disk must not delete all at once
MAX_DELETED_SEGMENTS = 2
MAX_STEP_BACK = 10.0  # seconds by which the names of segments may be ahead of the clock
MAX_SILENCE = 5.0  # seconds without a byte after which a segment ends, so that `judge` sees them
# Errors of a full disk or quota, and seconds without room after which the note is written. On a
# disk that several recorders share, there is room for a moment after each of them deletes segments.
FULL_ERRORS, NOTE_SECONDS = (errno.ENOSPC, errno.EDQUOT), 60.0
# Seconds after the start during which segments from the future are kept, since the clock may be
# behind. After that, the clock of an earlier run is assumed to have been ahead.
FUTURE_SECONDS = 3600.0


class Limits(NamedTuple):
    """The length and retention time of segments in seconds, and the disk space to leave free."""

    length: float
    kept: float
    free: int


class Recorder:
    """Writes a feed to segments. A segment does not change after the next segment has begun."""

    def __init__(self, folder: str, limits: Limits) -> None:
        self.folder, self.limits = folder, limits
        self.names = list_segment_names(folder)  # of closed segments, since listing takes long
        self.file: int | None = None
        self.name = ""  # name of the current segment
        self.is_new = True  # data before the next segment may be missing
        self.segment_begin = self.latest = 0.0  # segment start, and the time in the segment's name
        self.latest_wrong = 0.0  # the latest time in a name before the clock was set back
        # Monotonic times of the start, when enough disk space was free, and when bytes were lost.
        self.start = self.last_room = time.monotonic()
        self.last_loss, self.deadline = -math.inf, math.inf  # of writing the last bytes
        self.deletions = list[float]()  # monotonic times, since a segment with bytes was closed

    def take(self, data: bytes) -> None:
        """Write bytes. If the disk is full, delete a few segments. Bytes that still can't be
        written are dropped, and the name of the next segment shows the loss."""
        left, deadline = memoryview(data), time.monotonic() + WRITE_PATIENCE
        if deadline > self.deadline + MAX_SILENCE:
            self.close()
        self.deadline = deadline
        self.has_room()
        while left:
            try:
                left = left[os.write(self.prepare_file(), left):]
            except OSError as error:
                if error.errno not in FULL_ERRORS:
                    raise
                if not self.delete_first():
                    if time.monotonic() > deadline:
                        print_stderr(f"{self.folder} has no room: {len(left)} bytes are lost")
                        self.close()
                        self.is_new, self.last_loss = True, time.monotonic()
                        self.write_note()
                        return
                    time.sleep(WRITE_RETRY)

    def prepare_file(self) -> int:
        """Return the file descriptor of the current segment. Begin a new segment if the current one
        is long enough or the clock was changed."""
        now = time.time()
        if self.file is None or not 0 <= now - self.segment_begin < self.limits.length:
            self.close()
            self.make_room(now)
            self.file, self.segment_begin, self.is_new = self.open_segment(now), now, False
        return self.file

    def open_segment(self, now: float) -> int:
        """Open a new segment. If the clock was set back by a few seconds, name the segment so that
        it still sorts last. Otherwise name it by the clock, since the clock was wrong before."""
        if self.latest >= now + MAX_STEP_BACK:
            print_stderr(f"the clock was set back by {self.latest - now:.0f} seconds")
            self.is_new, self.latest_wrong = True, self.latest
        earlier = self.names[:bisect.bisect_left(self.names, (now + MAX_STEP_BACK, ""))]
        self.latest = round(max([now, *(begin + 0.001 for begin, _ in earlier[-1:])]), 3)
        self.name = make_segment_name(self.latest, self.is_new)
        return os.open(os.path.join(self.folder, self.name),
                       os.O_WRONLY | os.O_CREAT | os.O_APPEND)

    def close(self) -> None:
        """Close the segment. A thread syncs the file, since the feed can't wait for the disk."""
        if self.file is not None:
            if os.fstat(self.file).st_size:
                bisect.insort(self.names, (self.latest, self.name))
                self.deletions.clear()
            else:  # the disk is full
                with contextlib.suppress(FileNotFoundError):
                    os.unlink(os.path.join(self.folder, self.name))
            threading.Thread(target=store_and_close, args=(self.file,)).start()
            self.file = None

    def make_room(self, now: float) -> None:
        """Delete segments from the future that were written before the clock was set back, segments
        after their retention time, and the oldest if too little disk space is free."""
        is_certain = time.monotonic() > self.start + FUTURE_SECONDS
        wrong = math.inf if is_certain else self.latest_wrong + 0.001
        while self.delete_first(now + MAX_STEP_BACK, wrong) or self.delete_first(
                before=now - self.limits.kept if self.has_room() else math.inf):
            pass
        self.write_note()

    def has_room(self) -> bool:
        """Return whether enough disk space is free."""
        info = os.statvfs(self.folder)
        has_room = info.f_bavail * info.f_frsize >= self.limits.free
        self.last_room = time.monotonic() if has_room else self.last_room
        return has_room

    def write_note(self) -> None:
        """Write the note if bytes were lost or deleting segments does not help, for `judge`."""
        now, path = time.monotonic(), os.path.join(self.folder, NOTE)
        with contextlib.suppress(OSError):
            if now < self.last_loss + NOTE_SECONDS or now > self.last_room + NOTE_SECONDS:
                with open(path, "w", encoding="utf-8") as file:
                    file.write("The disk or a quota is full, and deleting segments does not help\n")
            else:
                os.unlink(path)

    def delete_first(self, after: float = -math.inf, before: float = math.inf) -> bool:
        """Delete the first segment that begins between two times. Never delete the current segment
        or, before there is one, the last. Return whether a segment was deleted."""
        if len(self.deletions) >= MAX_DELETED_SEGMENTS and \
                time.monotonic() < self.deletions[-1] + NOTE_SECONDS:  # that did not help
            return False
        for begin, name in self.names[bisect.bisect_left(self.names, (after, "")):]:
            if begin >= before or name == (self.name or self.names[-1][1]):
                break
            self.names.remove((begin, name))
            with contextlib.suppress(FileNotFoundError):  # somebody else deleted it
                os.unlink(os.path.join(self.folder, name))
                self.deletions.append(time.monotonic())
                return True
        return False


def store_and_close(file: int) -> None:
    """Sync a file, so that it survives a power failure, and close the file."""
    with contextlib.suppress(OSError):
        os.fsync(file)
    os.close(file)


def record(source: int, folder: str, limits: Limits) -> None:
    """Record a feed until it ends."""
    with contextlib.suppress(OSError):  # the source may not be a pipe
        fcntl.fcntl(source, getattr(fcntl, "F_SETPIPE_SZ", 1031), PIPE_SIZE)
    with hold_lock(folder, "recorder", "another feed is being recorded in "):
        recorder = Recorder(folder, limits)
        while data := os.read(source, MAX_READ_BYTES):
            recorder.take(data)
        recorder.close()
