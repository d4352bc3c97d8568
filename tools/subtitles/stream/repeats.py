"""Measure how often a page is repeated while it does not change."""
from __future__ import annotations

import array
import bisect
import collections
import itertools
import operator
from typing import Iterable, NamedTuple, Sequence

from ..common.times import NO_FRAME, find_frames_of_day


MIN_REPEATS = 3  # minimum number of repeats for a measurement
# maximum number of frames by which a page may precede its cue if the clock is late
MAX_CUE_DISTANCE = 5


def find_longest_gap(frames: Iterable[int]) -> int:
    """Return the longest interval between two consecutive frames, or 0 if there is none."""
    known = sorted(set(frames))
    return max((second - first for first, second in zip(known, known[1:])), default=0)


def list_cue_frames(times: Iterable[tuple[int, int]]) -> list[int]:
    """Return the frames of all cues in ascending order."""
    return sorted({frame for pair in times for frame in pair})


def count_repeats(frames: Iterable[int], edges: Sequence[int]) -> collections.Counter[int]:
    """Count the intervals of repeats, in frames.

    A repeat is a transmission that no cue separates from the transmission before it. Skip the first
    repeat after a cue, because it may follow immediately. Skip a repeat just before a cue, because
    it may carry the next page. `frames` contains the frames of page transmissions, and `edges` the
    frames of cues in ascending order.
    """
    known = array.array("i", frames)
    if any(map(operator.ge, known, itertools.islice(known, 1, None))):
        known = array.array("i", sorted({*known}))
    return collections.Counter(second - first for before, first, second in zip(
        known, itertools.islice(known, 1, None), itertools.islice(known, 2, None))
        if bisect.bisect_right(edges, before) == bisect.bisect_right(edges,
                                                                     second + MAX_CUE_DISTANCE))


def repeat_distance(frames: Iterable[int], edges: Sequence[int]) -> int | None:
    """Return the typical number of frames between repeats, or `None` if there are too few repeats.
    The median is weighted by time, which also suits pages that are always sent twice in a row."""
    repeats = count_repeats(frames, edges)
    if sum(repeats.values()) < MIN_REPEATS:
        return None
    sorted_repeats = sorted(repeats)
    totals = [*itertools.accumulate(distance * repeats[distance] for distance in sorted_repeats)]
    return sorted_repeats[bisect.bisect_left(totals, -(-totals[-1] // 2))]


# A repeat was lost if an interval is longer than this multiple of the usual interval.
LOST_REPEAT_FACTOR = 1.5
RARE_SHARE = 20  # longer intervals are exceptions if they are fewer than 1/20 of all intervals


class Repeats(NamedTuple):
    """The intervals between the headers of a page."""

    headers: int  # number of page headers
    longest: int  # longest interval in frames
    longest_start: int  # first frame of the longest interval
    usual: int | None  # usual interval
    exceptions: Sequence[tuple[int, int]] = ()  # longer intervals: first frame and length


def measure_repeats(pts: Sequence[int], last: int | None, origin: int,
                    times: Sequence[tuple[int, int]]) -> Repeats | None:
    """Measure the intervals between page headers with the given PTS. Return `None` if there are
    fewer than two headers. `last` is the PTS of the last PES packet. `times` contains the cues."""
    frames = [frame for frame in find_frames_of_day(pts, origin, 1) if frame != NO_FRAME]
    ends = [] if last is None else [frame + 1 for frame in find_frames_of_day([last], origin, 1)
                                    if frame != NO_FRAME and frames and frame >= frames[-1]]
    known = sorted({*frames, *ends})
    gaps = [(frame, other - frame) for frame, other in zip(known, known[1:])]
    if not gaps:
        return None
    usual = repeat_distance(frames, list_cue_frames(times))
    longer_gaps = [gap for gap in gaps if usual and gap[1] > LOST_REPEAT_FACTOR * usual]
    exceptions = longer_gaps if len(longer_gaps) * RARE_SHARE < len(gaps) else []
    longest_begin, longest = max((gap for gap in gaps if gap not in exceptions), key=
                                 lambda gap: gap[1])
    return Repeats(len(frames), longest, longest_begin, usual, exceptions)
