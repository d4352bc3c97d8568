"""Segments of a feed: files that are named after the UTC time at which they begin. A segment ends
at the time of its last write (mtime)."""
from __future__ import annotations

import bisect
import collections
import contextlib
import datetime
import errno
import functools
import math
import os
import re
from typing import Iterable, Iterator, NamedTuple, Sequence

from ..common.command_line import PACKET_SIZES, Stop
from ..common.times import subtract_pts
from ..recording.dates import DAY, find_times

# Names such as 20261129T201500.250Z.ts, news-20261129-201500.ts, feed_2026-11-29_20-15-00.ts.
NAME = re.compile(r"(?:.*\D)?(\d{4})-?(\d\d)-?(\d\d)[T_-]?(\d\d)[-.:]?(\d\d)[-.:]?(\d\d)"
                  r"(\.\d{1,6})?Z?(?:-new)?\.(?:ts|m2ts|mts|trp)", re.ASCII | re.DOTALL)
NEW = "-new.ts"  # suffix of a segment's name if data before the segment may be missing
NOTE = "no-room.txt"  # file that `record` writes if deleting segments does not help a full disk
BLOCK = 1 << 19  # bytes per read, and bytes to compare on each side of a segment boundary
MAX_STALL = 60.0  # seconds for which a recorder may stall without losing data
# A segment is not used if its last write was more than a minute before the time in its name, or so
# long after it that the name may be in another time zone: it then overlaps the segments next to it.
CLOCK_TOLERANCE, MAX_SEGMENT_SECONDS = 60.0, 900.0
# Seconds by which the clock must jump from the TDT, and segments in which to search for a TDT: it
# comes every 30 seconds, and a recorder that stalled may need time to catch up
MIN_JUMP, TDT_SEGMENTS = 30.0, 8
MAX_PAUSE, MAX_OVERLAP = 5.0, 1.0  # seconds between two segments if the clock does not jump
SYNC, MIN_SYNC_PACKETS = 0x47, 5  # number of sync bytes needed to find where TS packets begin
TimedName = tuple[float, str]  # start time and name of a segment
Sides = tuple[list[int], list[int]]  # counters or PCR, before and after a segment boundary
# Time of a jump of the clock, and seconds by which it differs from the TDT before and after that
ClockJump = tuple[float, float, float]


class Segment(NamedTuple):
    """A segment with its path, its size in bytes, and the times of its first and last byte in
    seconds since the epoch. `is_new` is true if data before the segment may be missing."""

    path: str
    size: int
    begin: float
    end: float
    is_new: bool = False

    def find_offset(self, time: float) -> int:
        """Return the number of bytes written before a time, assuming a constant rate."""
        share = (time - self.begin) / max(self.end - self.begin, 1e-6)
        return int(self.size * min(max(share, 0.0), 1.0))


def make_segment_name(time: float, is_new: bool = False) -> str:
    """Return the name of a segment that begins at `time`, in seconds since the epoch."""
    date = datetime.datetime.fromtimestamp(round(time, 3), datetime.timezone.utc)
    return f"{date:%Y%m%dT%H%M%S}.{date.microsecond // 1000:03}Z{NEW if is_new else '.ts'}"


@functools.lru_cache(maxsize=100_000)
def parse_segment_begin(name: str) -> float | None:
    """Return the start time in the name of a segment. Return `None` for other files."""
    if found := NAME.fullmatch(name):
        *numbers, fraction = found.groups("0")
        with contextlib.suppress(ValueError):
            date = datetime.datetime(*map(int, numbers))  # type: ignore
            return date.replace(tzinfo=datetime.timezone.utc).timestamp() + float(fraction)
    return None


def list_segment_names(folder: str) -> list[TimedName]:
    """Return the start times and the names of the segments in a folder, earliest first."""
    timed_names = ((parse_segment_begin(name), name) for name in os.listdir(folder))
    return sorted((begin, name) for begin, name in timed_names if begin is not None)


def find_deleted(folder: str) -> float:
    """Return the time before which `record` has deleted all segments, or minus infinity. The names
    of other recorders do not show whether the oldest segment was the first."""
    begin, name = [*list_segment_names(folder), (0.0, "")][0]
    return begin if name == make_segment_name(begin) else -math.inf


def find_segments(folder: str, begin: float, end: float) -> list[Segment]:
    """Return the segments that overlap a period, earliest first. Skip empty segments, which a power
    failure may leave, and segments whose names are wrong."""
    names = list_segment_names(folder)
    # The segment before may overlap too. One more on each side shows whether a name is right.
    first = max(bisect.bisect_left(names, (begin, "")) - 2, 0)
    last = bisect.bisect_left(names, (end, "")) + 1
    return [segment for segment, _, is_right in compare_times(folder, names[first:last])
            if is_right and segment.size and segment.begin < end and segment.end >= begin]


def compare_times(folder: str, names: Iterable[TimedName]) -> list[tuple[Segment, float, bool]]:
    """Return each segment that was not deleted, its last write, and whether its name agrees with
    that. The name of a long segment agrees if the segment does not overlap the ones next to it."""
    found = list[tuple[Segment, float]]()
    for begin, name in names:
        path = os.path.join(folder, name)
        with contextlib.suppress(FileNotFoundError):
            info = os.stat(path)
            found.append((Segment(path, info.st_size, begin, max(begin, info.st_mtime),
                                  name.endswith(NEW)), info.st_mtime))
    before = [-math.inf, *(write for _, write in found)]
    after = [*(segment.begin for segment, _ in found[1:]), math.inf]
    return [(segment, write, segment.begin <= write + CLOCK_TOLERANCE and (
                write <= segment.begin + MAX_SEGMENT_SECONDS
                or max(last_write - segment.begin, write - next_begin) <= CLOCK_TOLERANCE))
            for (segment, write), last_write, next_begin in zip(found, before, after)]


def find_clock_jumps(folder: str, begin: float) -> tuple[list[ClockJump], float]:
    """Return the jumps of the clock after `begin`, and its difference from the newest TDT if there
    are any. The clock may differ from the TDT, but always by the same time. A clock that is set
    ahead makes a pause, and one that is set back a new segment or an overlap. The TDT may also
    jump, and go back if a recording is sent again."""
    jumps, names = list[ClockJump](), list_segment_names(folder)
    first = max(bisect.bisect_left(names, (begin, "")) - TDT_SEGMENTS, 0)
    segments = tuple(segment for segment, _, is_right in compare_times(folder, names[first:])
                     if is_right and segment.size)
    for number, (before, after) in enumerate(zip(segments, segments[1:]), 1):
        pause = after.begin - before.end
        is_ahead, is_back = pause > MAX_PAUSE, after.is_new or pause < -MAX_OVERLAP
        if not (is_ahead or is_back) or after.begin < begin:
            continue
        earlier_tdt, earlier = find_difference(segments[:number][-TDT_SEGMENTS:])
        later_tdt, later = find_difference(segments[number:][:TDT_SEGMENTS])
        # If a recording that is sent has an old TDT, the TDT jumps when the recording ends.
        if earlier < DAY and later_tdt > earlier_tdt and (
                later > earlier + MIN_JUMP and is_ahead or later < earlier - MIN_JUMP and is_back):
            jumps.append((after.begin, earlier, later))
    return jumps, find_difference(segments[-TDT_SEGMENTS:])[1] if jumps else math.nan


@functools.lru_cache(maxsize=10_000)
def find_difference(segments: tuple[Segment, ...]) -> tuple[float, float]:
    """Return the last TDT in segments, and the difference of the clock from it, or else NaN."""
    for segment in reversed(segments):
        with contextlib.suppress(OSError, Stop):  # the segment was deleted
            for place, time in reversed([*find_times(segment.path)]):
                share = place / segment.size
                return time, segment.begin + (segment.end - segment.begin) * share - time
    return math.nan, math.nan


class UnbrokenRun(NamedTuple):
    """A continuous part of the feed: segments with no missing data between them."""

    segments: tuple[Segment, ...]

    @property
    def begin(self) -> float:
        return self.segments[0].begin

    @property
    def end(self) -> float:
        return self.segments[-1].end

    def size(self, begin: float, end: float) -> int:
        """Return the number of bytes between two times."""
        return sum(item.find_offset(end) - item.find_offset(begin) for item in self.segments)

    def read(self, begin: float, end: float) -> Iterator[bytes]:
        """Yield the bytes between two times. Skip the first byte if the data begins like a PES
        packet, since the program would otherwise read the bytes as a PES file."""
        data = (block for segment in self.segments if segment.begin < end and segment.end > begin
                for block in read_range(segment.path, segment.find_offset(begin),
                                        segment.find_offset(end)))
        block = next(data, b"")
        yield block[block.startswith(b"\0\0\1"):]
        yield from data


def read_range(path: str, first: int, end: int) -> Iterator[bytes]:
    """Yield the bytes of a file between two offsets. Raise `OSError` if the file is too short."""
    with open(path, "rb") as file:
        file.seek(first)
        while first < end:
            block = file.read(min(end - first, BLOCK))
            if not block:
                raise OSError(errno.EIO, "it became shorter", path)
            first += len(block)
            yield block


@functools.lru_cache(maxsize=10_000)
def is_continued(before: Segment, after: Segment) -> bool | None:
    """Return whether the TS packets continue from one segment to the next, according to the
    continuity counters and the PCR, or `None` if this is unclear."""
    middle, data = min(before.size, BLOCK), b""
    with contextlib.suppress(OSError):  # a segment was deleted
        data = b"".join((*read_range(before.path, before.size - middle, before.size),
                         *read_range(after.path, 0, min(after.size, BLOCK))))
    size, first = next(((size, first) for size in PACKET_SIZES for first in range(size)
                        if {*data[first:middle:size]} == {SYNC}), (BLOCK, 0))
    packets = [data[at:at + 188] for at in range(first, len(data) - 187, size)]
    count = len(range(first, middle, size))
    if min(count, len(packets) - count) < MIN_SYNC_PACKETS:
        return None
    counters, clocks = (collections.defaultdict[int, Sides](lambda: ([], [])) for _ in range(2))
    for number, packet in enumerate(packets):
        pid = int.from_bytes(packet[1:3], "big") & 0x1FFF
        if packet[3] & 0x10:  # only packets with payload are counted
            counters[pid][number >= count].append(packet[3] & 15)
        if packet[3] & 0x20 and packet[4] > 6 and packet[5] & 0x10:
            clocks[pid][number >= count].append(int.from_bytes(packet[6:11], "big") >> 7)
    out = sum(packet[0] != SYNC for packet in packets[count:count + MIN_SYNC_PACKETS])
    lost = [(new[0] - old[-1]) % 16 != 1 for old, new in counters.values() if old and new and all(
        (after - before) % 16 == 1 for before, after in (
            *zip(old[-2:-1], old[-1:]), *zip(new, new[1:2])))]
    usual = [is_usual_step(*pcrs) for pcrs in clocks.values() if all(pcrs)
             and sum(map(len, pcrs)) > 2]
    is_long = not all(usual) if usual else 2 * sum(lost) > len(lost)
    if out or any(lost):
        return False if is_long or 2 * out > MIN_SYNC_PACKETS else None
    return True if lost and usual and all(usual) else None


def is_usual_step(before: Sequence[int], after: Sequence[int]) -> bool:
    """Return whether the PCR step from one segment to the next is as short as other PCR steps. The
    longest of those is ignored, since the PCR may jump there."""
    step, *steps = (subtract_pts(first, second) for pcrs in (
        [before[-1], after[0]], before, after) for first, second in zip(pcrs, pcrs[1:]))
    return 0 <= 2 * step <= 3 * sorted(steps)[-2:][0]


def find_unbroken_runs(segments: Iterable[Segment], longest_pause: float) -> Iterator[UnbrokenRun]:
    """Divide segments into continuous parts of the feed. A part ends where TS packets are missing.
    It also ends where a segment's name or a pause of more than `longest_pause` seconds shows a gap,
    unless the TS packets clearly continue and the pause is no longer than a recorder can stall. If
    only the TS packets show the gap, the segment before the gap is incomplete, and is omitted."""
    stretch = list[Segment]()
    for segment in segments:
        is_continuation = is_continued(stretch[-1], segment) if stretch else None
        pause = segment.begin - stretch[-1].end if stretch else 0.0
        is_expected = bool(stretch) and (segment.is_new or pause > longest_pause)
        if is_continuation is False or is_expected and not is_continuation or \
                pause > max(longest_pause, MAX_STALL):
            if complete_run := stretch if is_expected else stretch[:-1]:
                yield UnbrokenRun(tuple(complete_run))
            stretch = []
        stretch.append(segment)
    if stretch:
        yield UnbrokenRun(tuple(stretch))
