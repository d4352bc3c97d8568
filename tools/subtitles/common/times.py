"""Times of day, frames and PTS, and spans of frames or of PES packets."""
from __future__ import annotations

import array
import bisect
import contextlib
import contextvars
import heapq
import operator
import re
from typing import Callable, Iterable, Iterator, NamedTuple, Sequence, TypeVar


# By default a PES packet belongs to a frame only if both have exactly the same PTS. With `check
# --within N` a frame begins a quarter of a frame before its PTS, so that PES packets may be a
# little early, and those of both fields belong to the same frame.

FRAMES_A_SECOND = 25
FRAMES_OF_A_DAY = 2_160_000
CLOCK = 2**33  # number of ticks after which a PTS of 33 bits wraps around
TICKS = 3600  # 90 kHz ticks in a frame
NO_FRAME = -1  # result for a PTS that belongs to no frame; less than every frame
EARLY_TICKS = TICKS // 4  # number of ticks by which a PTS may be early unless --within is 0


class FrameRange(NamedTuple):
    """The frames in `range(begin, end)`. A subtitle belongs to the frame of its TCI."""

    begin: int = 0
    end: int = FRAMES_OF_A_DAY

    def includes(self, frame: int) -> bool:
        return self.begin <= frame < self.end

    def words(self) -> list[str]:
        """Return the options --from and --to for this range. The whole day needs no options."""
        return [*(["--from", format_frame(self.begin)] if self.begin else []),
                *(["--to", format_frame(self.end)] if self.end < FRAMES_OF_A_DAY else [])]


ALL_DAY = FrameRange()

TIME_CODE = re.compile(r"\d\d:\d\d:\d\d:\d\d", re.ASCII)


def parse_time_code(time: str) -> int | None:
    """Return the number of frames for a time of day HH:MM:SS:FF, or `None` if it is not valid."""
    return decode_frame(map(int, time.split(":"))) if TIME_CODE.fullmatch(time) else None


def decode_frame(code: Iterable[int]) -> int | None:
    """Return the frame of the day for hours, minutes, seconds and frames. Return `None` if a number
    is too large."""
    hours, minutes, seconds, frames = code
    if hours > 23 or minutes > 59 or seconds > 59 or frames > 24:
        return None
    return ((hours * 60 + minutes) * 60 + seconds) * FRAMES_A_SECOND + frames


def format_time_code(frames: int) -> str:
    """Return a number of frames as HH:MM:SS:FF. A day is 24:00:00:00."""
    seconds, frames = divmod(frames, FRAMES_A_SECOND)
    return f"{seconds // 3600:02}:{seconds // 60 % 60:02}:{seconds % 60:02}:{frames:02}"


# The day of a programme
#
# The program `subttx` counts frames from midnight. If a programme runs over midnight, it reads a
# copy of the subtitle file in which all times are earlier (see `formats.midnight`). Then the frames
# here are those of the copy. Times in messages and results, and the value of --origin, are those of
# the subtitle file.

_day_begin = contextvars.ContextVar("day_begin", default=0)  # time of frame 0, in frames


@contextlib.contextmanager
def begin_day_at(frames: int) -> Iterator[None]:
    """In a `with` block, count frames from a time of day other than midnight."""
    token = _day_begin.set(frames)
    try:
        yield
    finally:
        _day_begin.reset(token)


def change_day_begin(frames: int) -> None:
    """Count frames from another time of day, until the innermost block of `begin_day_at` ends."""
    _day_begin.set(frames)


def format_frame(frame: int) -> str:
    """Return the time HH:MM:SS:FF of a frame. The end of the day is 24:00:00:00."""
    return format_time_code(find_time_at(frame) if _day_begin.get() else frame)


def parse_frame(time: str) -> int | None:
    """Return the frame at a time HH:MM:SS:FF, or `None` if this is not a valid time of day."""
    frames = parse_time_code(time)
    return None if frames is None else find_frame_at(frames)


def find_frame_at(time: int) -> int:
    """Return the frame at a time of day, given in frames since midnight."""
    return (time - _day_begin.get()) % FRAMES_OF_A_DAY


def find_time_at(frame: int) -> int:
    """Return the time of day of a frame, in frames since midnight."""
    return (frame + _day_begin.get()) % FRAMES_OF_A_DAY


def decode_time(code: bytes) -> str:
    """Return four bytes of a TTI block as HH:MM:SS:FF, even if that is not a valid time of day."""
    frame = decode_frame(code)
    return ":".join(f"{part:02}" for part in code) if frame is None else format_frame(frame)


def format_program_time(time: str) -> str:
    """Return the time that the program `subttx` needs for a time of the subtitle file."""
    frame = parse_frame(time)
    return time if frame is None else format_time_code(frame)


def restore_times(line: str) -> str:
    """Return a line of the program `subttx` with the times of the subtitle file."""
    def restore(match: re.Match[str]) -> str:
        frame = parse_time_code(match[0])
        return match[0] if frame is None else format_frame(frame)

    return TIME_CODE.sub(restore, line) if _day_begin.get() else line


def compute_midnight(origin: int) -> int:
    """Return the PTS of 00:00:00:00 (the value of --origin) if frame 0 has the PTS `origin`."""
    return wrap_pts(origin - TICKS * _day_begin.get())


def format_origin(origin: int) -> str:
    """Return the option --origin for a clock on which frame 0 has the PTS `origin`."""
    return f"--origin {compute_midnight(origin)}"


def compute_origin(midnight: int) -> int:
    """Return the PTS of frame 0 if 00:00:00:00 has the PTS `midnight`."""
    return wrap_pts(midnight + TICKS * _day_begin.get())


def describe_duration(frames: int) -> str:
    """Return a duration in frames as text, such as `10 h 15 min`."""
    seconds, rest = divmod(frames, FRAMES_A_SECOND)
    parts = [(seconds // 3600, "h"), (seconds // 60 % 60, "min"), (seconds % 60, "s"),
             (rest, "frame" if rest == 1 else "frames")]
    return " ".join(f"{count} {unit}" for count, unit in parts if count)


def format_seconds(seconds: int) -> str:
    """Return a duration as H:MM:SS."""
    return f"{seconds // 3600}:{seconds // 60 % 60:02}:{seconds % 60:02}"


def wrap_pts(ticks: int) -> int:
    """Return ticks modulo 2^33, like a PTS."""
    return ticks % CLOCK


def subtract_pts(first: int, second: int) -> int:
    """Return the ticks from the first PTS to the second (negative if the second is earlier)."""
    return wrap_pts(second - first + CLOCK // 2) - CLOCK // 2


def subtract_pts_within(first: int, length: int, pts: int) -> int:
    """Return the number of ticks from the PTS `first` to `pts`, negative if `pts` is earlier. A PTS
    up to `length` ticks after `first` counts as later, even if `length` is more than half of the
    clock's range."""
    before = (CLOCK - length) // 2
    return wrap_pts(pts - first + before) - before


def subtract_origin(origin: int, pts: int) -> int:
    """Return the ticks from an origin to a PTS of the following 24 hours. The result is negative if
    the PTS is up to an hour before the origin."""
    return subtract_pts_within(origin, TICKS * FRAMES_OF_A_DAY, pts)


def pts_of(frame: int, origin: int) -> int:
    """Return the PTS of a frame of the day; `origin` is the PTS of frame 0."""
    return wrap_pts(origin + TICKS * frame)


def compute_frame(pts: int, origin: int, within: int = 0) -> int:
    """Return the number of the frame that contains a PTS, even after the end of the day. `origin`
    is the PTS of frame 0. If `within` is not 0, frames begin a quarter of a frame earlier."""
    return wrap_pts(pts - origin + EARLY_TICKS * (within > 0)) // TICKS


def compute_time(pts: int, origin: int) -> str | None:
    """Return the time of the frame that contains a PTS. Return `None` after the end of the day."""
    frame = compute_frame(pts, origin)
    return format_frame(frame) if frame < FRAMES_OF_A_DAY else None


def find_frame_of_day(pts: int, origin: int, within: int = 0) -> int | None:
    """Return the frame of the day to which a PTS belongs, or `None` if it belongs to none."""
    frame = find_frames_of_day([pts], origin, within)[0]
    return None if frame == NO_FRAME else frame


def find_frames_of_day(several: Sequence[int], origin: int, within: int = 0) -> Sequence[int]:
    """Return the frame of the day to which each PTS belongs, or `NO_FRAME` if there is none."""
    early = EARLY_TICKS * (within > 0)
    end, count = TICKS * FRAMES_OF_A_DAY, len(several)
    if count and several[-1] == several[0] + TICKS * (count - 1) and all(
            map(operator.eq, several, range(several[0], several[-1] + 1, TICKS))):
        ticks = wrap_pts(several[0] - origin + early)
        if (within or ticks % TICKS == 0) and ticks // TICKS + count <= FRAMES_OF_A_DAY:
            # Most recordings have one PTS per frame.
            return range(ticks // TICKS, ticks // TICKS + count)
    distances = ((pts - origin + early) % CLOCK for pts in several)
    if within:
        return [ticks // TICKS if ticks < end else NO_FRAME for ticks in distances]
    return [NO_FRAME if ticks % TICKS or ticks >= end else ticks // TICKS for ticks in distances]


def split_rising_rows(frames: Sequence[int]) -> list[tuple[int, Sequence[int]]]:
    """Split frames into sequences that never decrease, each with the index of its first frame. Each
    `NO_FRAME` is a sequence of its own."""
    if isinstance(frames, range):
        return [(0, frames)]
    breaks = [at for at, (one, other) in enumerate(zip(frames, frames[1:]), 1)
              if other < one or NO_FRAME in (one, other)]
    return [(begin, frames[begin:end]) for begin, end in zip([0, *breaks], [*breaks, len(frames)])
            if begin < end]


Item = TypeVar("Item")


def count_until(items: Sequence[Item], is_later: Callable[[Item], bool]) -> int:
    """Return the number of items before the first item for which `is_later` is true. `bisect_right`
    has no `key` before Python 3.10."""
    low, high = 0, len(items)
    while low < high:
        middle = (low + high) // 2
        low, high = (low, middle) if is_later(items[middle]) else (middle + 1, high)
    return low


class Span(NamedTuple):
    """A range of consecutive frames or PES packets: its first and last number."""

    first: int
    last: int


class Spans:
    """A list of spans, in the order of addition. Adjacent or overlapping spans are joined."""

    def __init__(self, spans: Iterable[tuple[int, int]] = ()) -> None:
        self.begins, self.ends = array.array("I"), array.array("I")
        for begin, end in spans:
            self.add(begin, end)

    def __iter__(self) -> Iterator[Span]:
        return map(Span, self.begins, self.ends)

    def __len__(self) -> int:
        return len(self.begins)

    def add(self, begin: int, end: int) -> None:
        """Add a span. Join it with the last span if they touch."""
        if self.begins and self.begins[-1] <= begin <= self.ends[-1] + 1:
            self.ends[-1] = max(self.ends[-1], end)
        else:
            self.begins.append(begin)
            self.ends.append(end)

    def is_rising(self) -> bool:
        """Return whether the spans are in ascending order."""
        return all(map(int.__le__, self.begins, self.begins[1:]))

    def between(self, begin: int, end: int) -> Iterator[Span]:
        """Yield the spans that overlap `begin` up to, but not including, `end`. The spans must be
        in ascending order."""
        first, last = bisect.bisect_left(self.ends, begin), bisect.bisect_left(self.begins, end)
        return map(Span, self.begins[first:last], self.ends[first:last])

    def exclude(self, others: Iterable[tuple[int, int]]) -> Spans:
        """Return these spans without the numbers that are also in `others`."""
        found: list[tuple[int, int]] = [*self]
        for begin, end in others:
            parts = [part for first, last in found for part in (
                (first, min(last, begin - 1)), (max(first, end + 1, begin), last))]
            found = [part for part in parts if part[0] <= part[1]]
        return Spans(found)

    def total(self) -> int:
        """Return the number of frames or PES packets in all spans."""
        return sum(last + 1 - first for first, last in self)


def join_spans(several: Iterable[Spans]) -> Spans:
    """Join several lists of spans into one list in ascending order."""
    rising_spans = [spans if spans.is_rising() else Spans(sorted(spans)) for spans in several]
    return Spans(heapq.merge(*rising_spans))
