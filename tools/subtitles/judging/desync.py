"""Compare the pictures with the subtitles, to find where they drift apart."""
from __future__ import annotations

import statistics
from typing import Callable, Iterator, NamedTuple, Sequence

from ..clock.start import START, TCP, TimedPart
from ..common.checks import DRIFT, IRREGULAR
from ..common.command_line import counted
from ..common.times import TICKS, format_frame, pts_of, subtract_pts, subtract_pts_within, wrap_pts
from ..formats.listing import NamedFault, PICTURES_LEFT
from ..stream.packets import Packets
from ..stream.pictures import (
    Departure, VideoLead, locate_changes_of_video, locate_departures, mark_pcr_jumps,
    separate_clock_jumps)
from ..stream.steps import (
    ALIKE_TICKS, are_in_order, find_unusual_steps, measure_reordering)
from ..stream.survey import Survey, Video
from .unchecked import Unchecked, find_unchecked, make_unclear_places


# Viewers notice if subtitles and pictures drift apart, but the Teletext PTS do not show the drift.

MIN_WITHIN = 2  # minimum number of different Teletext PTS after a jump that show their clock
NEAR_TICKS = 180_000  # Teletext within this time of a jump must have regular PTS


class DesyncFindings(NamedTuple):
    """The faults of pictures that drift from the subtitles, notes about drifts that --within
    allows, entries about what was not checked, and whether any picture was compared."""

    faults: list[NamedFault]
    notes: list[str]
    unchecked: list[Unchecked]
    is_made: bool


def find_desync(survey: Survey, pid: int, alignment: TimedPart, within: int, number: int,
                sent: Sequence[int] = (), changes: Sequence[int] = ()) -> DesyncFindings:
    """Find where pictures drift from the subtitles on the Teletext PID `pid`, in part `number`.
    `sent` has the PTS of the judged PES packets, and `changes` the PTS at which subtitles changed,
    if all did at their expected time."""
    kinds = {pid for programme in survey.find_programmes(pid) for pid in programme.kinds}
    by_video = {video: leads for (own, video), leads in survey.leads.items()
                if own == pid and video in kinds}
    several = [*by_video.values()]
    packets = survey.get_packets(str(pid))
    all_sent = [*packets.pts()] or sent
    faults, notes, unclear = list[NamedFault](), list[str](), list[Departure]()
    unchecked = [*find_unchecked(survey, pid, by_video, alignment, sent, number)] if sent else []
    for video, leads in by_video.items():
        departure_places = locate_video_departures(
            survey, video, leads, packets,
            lambda several: has_own_clock(several, all_sent, changes))
        inside = find_departures(departure_places or [], alignment)
        for span in find_desync_spans([item for item in inside if item.ticks], alignment):
            if -TICKS * within <= span.ticks < 0:
                notes.append(f"{span.describe()}, as --within {within} allows")
            else:
                faults.append(NamedFault(PICTURES_LEFT, span.describe(), format_frame(span.first),
                                         format_frame(span.end - 1), part=number))
        unclear += [departure for departure in inside if not departure.ticks]
        if departure_places is None:
            unchecked.append(Unchecked(IRREGULAR, f"{DRIFT}: the video's decoding times have no "
                                       "usual step", number))
    unclear += find_departures(locate_changes_of_video(several), alignment)
    unchecked += make_unclear_places(unclear, alignment, number)
    return DesyncFindings(faults, notes, unchecked, any(by_video.values()))


def locate_video_departures(survey: Survey, video: int, leads: Sequence[VideoLead],
                            packets: Packets,
                            has_own_clock: Callable[[Sequence[Departure]], bool]) \
        -> list[Departure] | None:
    """Return the places where the delay between a video PID and Teletext changes or may change.
    Return `None` if most decoding times are irregular."""
    ranges = survey.steps.get(video, [])
    seen = max([leads[-1].number, *(max(item.least_at, item.most_at) for item in ranges)])
    if not are_in_order(ranges, seen):
        return None
    # Pictures usually go on until the last Teletext PTS, at most a second after the last lead.
    rest = min(subtract_pts(leads[-1].pts, packets.last_pts or leads[-1].pts) // TICKS, 25)
    count = max(leads[-1].number + rest, seen)
    unusual = mark_pcr_jumps(find_unusual_steps(ranges, seen), leads, packets.pcr_steps)
    jumps = separate_clock_jumps(leads, unusual, count, has_own_clock)
    places = locate_departures(jumps.leads, jumps.steps, packets.samples)
    group = survey.videos.get(video) or Video()
    margin = measure_reordering(group.pictures, group.skipped, ranges,
                                wrap_pts(leads[0].pts - leads[0].ticks), leads[0].number)
    return None if places is None else sorted(
        (item._replace(margin=min(item.margin, margin)) for item in [*jumps.departures, *places]),
        key=lambda departure: subtract_pts(leads[0].pts, departure.pts))


def has_own_clock(several: Sequence[Departure], sent: Sequence[int],
                  changes: Sequence[int]) -> bool:
    """Return whether the Teletext clock does not jump where pictures leave, and may come back.

    It is sure if the PTS are regular. If pictures leave by a frame or more, it is also sure if a
    subtitle changes at its expected time after the jump, or if the PTS never go back and are closer
    together than the jump is long. If they do not leave by whole frames, it is sure if no PTS is a
    fraction of a frame off.
    """
    begin, ticks = several[0].pts, several[0].ticks or 0
    length = subtract_pts(begin, several[1].pts) if len(several) > 1 else None
    places = [at for at, pts in enumerate(sent) if -NEAR_TICKS
              < subtract_pts(begin, pts) < (length or 0) + NEAR_TICKS]
    near = sent[places[0]:places[-1] + 1] if places else []
    within = {pts for pts in near if 0 <= subtract_pts(begin, pts) < (length or NEAR_TICKS)}
    later = [subtract_pts(begin, pts) for pts in changes] if abs(ticks) >= TICKS else []
    if any(time >= 0 and (length is None or time < length) for time in later):
        return True
    steps = [*map(subtract_pts, near, near[1:])]
    if len(within) >= MIN_WITHIN and max(steps) - min(steps) < ALIKE_TICKS // 2:
        return True
    if measure_fraction(ticks) >= ALIKE_TICKS:
        return bool(within) and all(
            measure_fraction(subtract_pts(near[0], pts)) < ALIKE_TICKS // 2 for pts in near)
    return len(within) >= MIN_WITHIN and min(steps) >= 0 and statistics.median(
        filter(None, steps)) < abs(ticks)


def measure_fraction(ticks: int) -> int:
    """Return the ticks to the nearest whole number of frames."""
    return abs(ticks - TICKS * round(ticks / TICKS))


def find_departures(several: Sequence[Departure], alignment: TimedPart) -> list[Departure]:
    """Return the drifts within a part and, if the clock comes from the first picture, between this
    picture and the part. Also return a drift before the part if pictures come back within it. If
    another drift may be outside the part, its `ticks` are `None`."""
    found = list[Departure]()
    for departure, later in zip(several, [*several[1:], None]):
        here = is_within(departure, alignment)
        if here or (later and departure.ticks and later.ticks == -departure.ticks
                    and is_within(later, alignment)):
            found.append(departure)
        elif here is None:
            found.append(departure._replace(ticks=None))
    return found


def is_within(departure: Departure, alignment: TimedPart) -> bool | None:
    """Return whether pictures drift within a part, or between the picture that gives the clock and
    the part. Return `None` if it is unclear."""
    first = pts_of(alignment.begin, alignment.origin)
    length = TICKS * (alignment.end - alignment.begin)
    is_of_picture = alignment.clock.source in (START, TCP)
    at, begin_ticks = (subtract_pts_within(first, length, pts)
                       for pts in (departure.pts, departure.earlier_pts))
    if begin_ticks - departure.ahead >= length or at + departure.margin < 0 and not is_of_picture:
        return False
    is_surely_within = at + departure.margin < length and (
        at >= 0 and begin_ticks >= 0 or is_of_picture)
    return is_surely_within or None


class Desync(NamedTuple):
    """The frames `range(first, end)`, in which subtitles are `ticks` early for viewers, or late if
    `ticks` is negative."""

    first: int
    end: int
    ticks: int
    is_over: bool  # whether later frames of the part have another delay

    def describe(self) -> str:
        """Return a clause that describes the fault."""
        last = f"to {format_frame(self.end - 1)}" if self.is_over else "on"
        frames = round(abs(self.ticks) / TICKS, 1)
        count = counted(int(frames), "frame") if frames.is_integer() else f"{frames} frames"
        return f"from {format_frame(self.first)} {last}, subtitles are {count} " \
            f"{'early' if self.ticks > 0 else 'late'} for viewers: the video's timestamps jump"


def find_desync_spans(several: Sequence[Departure], alignment: TimedPart) -> Iterator[Desync]:
    """Yield the frames in which the sum of all drifts makes subtitles early or late."""
    first = pts_of(alignment.begin, alignment.origin)
    length, total = alignment.end - alignment.begin, 0
    frames = [alignment.begin + max(subtract_pts_within(first, TICKS * length, item.pts),
                                    0) // TICKS
              for item in several]
    for departure, frame, end in zip(several, frames, [*frames[1:], alignment.end]):
        total += departure.ticks or 0
        if abs(total) * 2 >= TICKS and frame < end:
            yield Desync(frame, end, total, end < alignment.end)
