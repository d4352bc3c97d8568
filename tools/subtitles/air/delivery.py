"""Subtitle files as they are delivered: whether a file is complete, and how long its programme
lasts."""
from __future__ import annotations

import contextlib
import functools
import os
import time
from typing import NamedTuple

from ..cli.batch import DONE_SUFFIX
from ..cli.single import now as date
from ..common.command_line import Stop, format_error
from ..common.files import DamagedFile
from ..common.times import FRAMES_A_SECOND, FRAMES_OF_A_DAY, begin_day_at
from ..formats.midnight import find_day_begin, move_times
from ..formats.stl import GSI, TTI, get_subtitle_times, read_stl, read_stored_subtitles
from ..recording.notices import TNB, read_count
from ..request.commands import make_pair_name
from ..request.request import Request, parse_range

MAX_STEP = 6 * 3600 * FRAMES_A_SECOND  # frames from a TCI to the TCO of the next subtitle


class Content(NamedTuple):
    """The content of a subtitle file: the size that its GSI block announces, the length of the
    programme in seconds, a hash of its times and texts, and the monotonic time when it was read."""

    announced_size: int = 0
    length: float = 0.0
    subtitles: int = 0
    first_look: float = 0.0


class Delivery(NamedTuple):
    """The state of a subtitle file: the reason why it can't be judged yet, if any, and the mtime in
    nanoseconds and the size."""

    fault: str = ""
    content: Content = Content()
    version: tuple[int, int] = 0, 0


def read_delivery(request: Request, now: float, settled: float) -> Delivery:
    """Return the state of a programme's subtitle file. The file is complete if it has not changed
    for `settled` seconds and has all blocks that its GSI block counts, or if a file NAME.done was
    written after it."""
    stl, fault = request.stl, ""
    marker = os.path.join(os.path.dirname(stl), make_pair_name(stl) + DONE_SUFFIX)
    try:
        info = os.stat(stl)
        version = info.st_mtime_ns, info.st_size
        content = read_content(stl, version, request.from_time, request.to_time)
    except FileNotFoundError:
        return Delivery(f"{stl} does not exist")
    except (OSError, Stop) as reason:
        return Delivery(format_error(reason))
    # If the file was written while a clock was ahead, its mtime does not show when it last changed.
    if info.st_mtime > now - settled and time.monotonic() < content.first_look + settled:
        fault = f"{stl} was changed at {date(info.st_mtime)} and may still be incomplete"
    elif info.st_size < content.announced_size:
        announced, found = ((size - GSI) // TTI for size in (content.announced_size, info.st_size))
        state = "ends in its GSI block" if found < 0 else \
            f"announces {announced} blocks (TNB) and has {found}"
        fault = f"the subtitle file is incomplete: it {state}; copy it again, or create {marker}"
    with contextlib.suppress(OSError):
        fault = "" if os.stat(marker).st_mtime_ns >= info.st_mtime_ns else fault
    return Delivery(fault, content, version)


@functools.lru_cache(maxsize=10_000)
def read_content(path: str, _version: tuple[int, int], *limits: str | None) -> Content:
    """Read a subtitle file. Its length is the time from the first TCI to the last TCO, but ends
    where the subtitles are damaged or not in order, since `check` refuses such files. `limits` are
    the values of --from and --to."""
    data, first, last, subtitles = read_stl(path), -1, 0, list[tuple[int, int, bytes]]()
    day_begin = find_day_begin(data)
    with begin_day_at(day_begin), contextlib.suppress(DamagedFile, Stop):
        between = parse_range(*limits)
        for subtitle in read_stored_subtitles(move_times(data, day_begin, True)):
            begin, end = get_subtitle_times(subtitle)
            if begin is None or end is None or not between.includes(begin):
                continue
            first = begin if first < 0 else first
            begin, end = (begin - first) % FRAMES_OF_A_DAY, (end - first) % FRAMES_OF_A_DAY
            if not last <= begin <= end <= last + MAX_STEP:
                break
            last = begin
            subtitles.append((begin, end, subtitle.text))
    return Content(GSI + TTI * (read_count(data[TNB]) or 0),
                   max((end for _, end, _ in subtitles), default=0) / FRAMES_A_SECOND,
                   hash(tuple(subtitles)), time.monotonic())
