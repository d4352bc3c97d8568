"""Where it was not checked whether the pictures drift from the subtitles."""
from __future__ import annotations

import bisect
import statistics
from typing import Collection, Iterator, Mapping, NamedTuple, Sequence

from ..clock.start import NAMES, OTHER_STREAM_TYPES, START, TCP, TimedPart
from ..common.checks import (
    CHECKS, CLOCK, CheckState, DRIFT, HOLE, JUMP, LISTED, NO_VIDEO, PHRASES,
    PICTURE_KINDS, STEADY, UNREAD, decide_check)
from ..common.command_line import counted, format_pid
from ..common.times import TICKS, compute_time, pts_of, subtract_pts, subtract_pts_within
from ..stream.pictures import Departure, VideoLead, find_steady_change
from ..stream.survey import Survey


ENHANCEMENTS = {0x1E, 0x1F, 0x20, 0x25}  # stream_types that add to another video PID
MAX_HOLE = 5 * 90_000  # longest time without a comparison that needs no mention, in ticks
USUAL_INTERVALS = 3  # a hole is longer than this number of usual intervals of comparisons
SECOND = 90_000
MIN_LATE = 3  # minimum number of consecutive leads that show pictures behind the PCR
# From this change of the mean lead on, pictures that were lost do not explain it: the pair is not
# judged. A multiplexer changes its delay by less.
MIN_UNJUDGED_CHANGE = 25 * TICKS
# The text of the entry about a check that was not made, if no other entry says why
MISSING_TEXTS = {CLOCK: "a delay of all subtitles, since the clock was estimated",
                 **{name: f"{PHRASES[kinds[0]]}: the check was not made"
                    for name, kinds in CHECKS.items() if name != CLOCK}}


class Unchecked(NamedTuple):
    """An entry about a check that was not made: its kind, a text, the number of the part (`None`
    for the whole pair), the time codes between which the check was not made (`None` for
    everywhere), the least number of ticks by which the lead changes, and whether the clock of
    --start may be wrong."""

    kind: str
    text: str
    part: int | None = None
    begin: str | None = None
    end: str | None = None
    change: int = 0
    is_of_start: bool = False

    @property
    def has_video(self) -> bool:
        return self.kind in PICTURE_KINDS and self.kind != NO_VIDEO

    @property
    def may_be_wrong(self) -> bool:
        """Return whether the pair can't be judged without looking at the change."""
        return self.is_of_start or self.change >= MIN_UNJUDGED_CHANGE


def find_unread_video(survey: Survey, pid: int, number: int) -> Unchecked:
    """Explain why no picture was compared with the subtitles on the Teletext PID `pid`."""
    if not survey.size:
        return Unchecked(NO_VIDEO, f"{DRIFT}: a file of PES packets has no pictures", number)
    programmes = survey.find_programmes(pid)
    kinds = {item: kind for programme in programmes for item, kind in programme.kinds.items()}
    known = {**NAMES, **OTHER_STREAM_TYPES}
    named = [item for item, kind in kinds.items() if kind in known or item in survey.videos]
    others = {item for programme in survey.programmes for item in programme.kinds}
    unnamed = sorted(item for item in survey.videos if item not in others)
    if not named and not unnamed:
        return Unchecked(NO_VIDEO, f"{DRIFT}: the programme has no video", number)
    if not named:
        reason = f"no PMT names {format_pid(unnamed[0])}, which has pictures"
    elif readable := [item for item in named if item in survey.videos]:
        name = format_pid(readable[0])
        reason = f"the programme's PMT names no PCR_PID, so the pictures of {name} were not read" \
            if programmes[-1].pcr_pid == 0x1FFF else f"no picture of {name} has a time stamp " \
            "that can be read before a PES packet of the subtitles"
    else:
        reason = f"{format_pid(named[0])}, which the PMT names as " \
            f"{known.get(kinds[named[0]], 'video')}, has no PES packets of video that can be " \
            "read: it is scrambled or damaged"
    return Unchecked(UNREAD, f"{DRIFT}: {reason}", number)


def find_other_videos(survey: Survey, pid: int, compared: Collection[int], number: int) \
        -> Iterator[Unchecked]:
    """Yield the video PIDs of the last PMT whose pictures were not compared, although those of
    another video PID were."""
    programmes = survey.find_programmes(pid)
    for item, kind in programmes[-1].kinds.items() if programmes else ():
        is_named = kind in NAMES or kind in OTHER_STREAM_TYPES and kind not in ENHANCEMENTS
        has_pictures = item in survey.videos and kind not in ENHANCEMENTS
        if item not in compared and (is_named or has_pictures):
            yield Unchecked(UNREAD, f"{DRIFT} on {format_pid(item)}: only the pictures of "
                            f"{' and '.join(map(format_pid, sorted(compared)))} were compared",
                            number)


def find_holes(several: Sequence[Sequence[VideoLead]], pts: Sequence[int], origin: int,
               number: int) -> Iterator[Unchecked]:
    """Yield the times in which subtitles were sent, but not compared with a picture. `several` has
    the leads of each video PID, and `pts` the PTS of the judged PES packets."""
    first = pts[0]
    sent = sorted({subtract_pts(first, item) for item in pts})
    compared = sorted({subtract_pts(first, lead.pts) for leads in several for lead in leads})
    intervals = [after - before for before, after in zip(compared, compared[1:])]
    usual = statistics.median(intervals) if intervals else SECOND
    limit = max(MAX_HOLE, USUAL_INTERVALS * usual)
    inside = [item for item in compared if sent[0] - limit <= item <= sent[-1] + limit]
    for begin, end in zip([None, *inside], [*inside, None]):
        between = sent[0 if begin is None else bisect.bisect_right(sent, begin + SECOND):
                       len(sent) if end is None else bisect.bisect_left(sent, end)]
        if not between:
            continue
        start = between[0] if begin is None else begin
        last = between[-1] if end is None else min(end, between[-1])
        if last - start > limit or begin is end is None:
            begin_time, end_time = (compute_time((first + item) % (1 << 33), origin)
                                    for item in (start, last))
            yield Unchecked(HOLE, f"{DRIFT} from {begin_time} to {end_time}: no picture with "
                            "a time stamp was read there", number, begin_time, end_time)


def find_late_pictures(leads: Sequence[VideoLead], samples: Sequence[tuple[int, int]],
                       origin: int, number: int) -> Iterator[Unchecked]:
    """Yield the times in which the video's decoding times lie behind the PCR, as they do if
    pictures were lost but the decoding times go on where they stopped. `samples` has PTS of
    Teletext, and the number of ticks by which each is ahead of the PCR."""
    first = leads[0].pts if leads else 0
    ordered = sorted((subtract_pts(first, pts), ticks) for pts, ticks in samples)
    times, late = [time for time, _ in ordered], list[int]()
    for lead in [*leads, None]:
        time = subtract_pts(first, lead.pts) if lead else 0
        near = ordered[bisect.bisect_left(times, time - SECOND):
                       bisect.bisect_right(times, time + SECOND)] if lead else []
        if lead and near and max(ticks for _, ticks in near) - lead.ticks < -TICKS:
            late.append(lead.pts)
            continue
        if len(late) >= MIN_LATE:
            begin, end = compute_time(late[0], origin), compute_time(late[-1], origin)
            yield Unchecked(JUMP, f"{DRIFT} from {begin} to {end}, where the video's decoding "
                            "times lie behind the PCR: pictures may be lost", number, begin, end)
        late.clear()


def find_unchecked(survey: Survey, pid: int, by_video: Mapping[int, Sequence[VideoLead]],
                   alignment: TimedPart, pts: Sequence[int], number: int) -> Iterator[Unchecked]:
    """Yield what was not checked in part `number`, except places where decoding times jump.
    `by_video` has the leads of each video PID."""
    if not by_video:
        yield find_unread_video(survey, pid, number)
        return
    yield from find_other_videos(survey, pid, by_video.keys(), number)
    yield from find_holes([*by_video.values()], pts, alignment.origin, number)
    first = pts_of(alignment.begin, alignment.origin)
    length = TICKS * (alignment.end - alignment.begin)
    for leads in by_video.values():
        inside = [lead for lead in leads if 0 <= subtract_pts_within(first, length, lead.pts)
                  < length]
        yield from find_late_pictures(inside, survey.get_packets(str(pid)).samples,
                                      alignment.origin, number)
        if ticks := find_steady_change(leads):
            yield Unchecked(STEADY, f"{DRIFT}: the delay between them changes steadily, by "
                            f"{abs(ticks) / TICKS:.1f} frames", number)


def make_unclear_places(departures: Sequence[Departure], alignment: TimedPart, number: int) \
        -> Iterator[Unchecked]:
    """Yield the places where it is unclear whether the pictures drift. If this is between the
    picture that gives the clock and the first second of subtitles, the clock may be wrong."""
    first = pts_of(alignment.begin, alignment.origin)
    length = TICKS * (alignment.end - alignment.begin)
    for departure in departures:
        begin, end = (compute_time(item, alignment.origin)
                      for item in (departure.earlier_pts, departure.pts))
        more = f", and the subtitles are at least {departure.change / TICKS:.1f} frames earlier " \
            "or later after it" if departure.change >= TICKS else ""
        is_of_start = alignment.clock.source in (START, TCP) and \
            subtract_pts_within(first, length, departure.earlier_pts) < SECOND
        more += ", so the clock of --start may be wrong" if is_of_start else ""
        yield Unchecked(JUMP, f"{DRIFT} between {begin} and {end}, where the video's "
                        f"decoding times jump{more}", number, begin, end, departure.change,
                        is_of_start)


def list_check_entries(entries: Sequence[Unchecked], parts: Sequence[tuple[int, Mapping[
        str, CheckState]]]) -> Iterator[Unchecked]:
    """Yield an entry for each check of a part that was neither made nor has an entry. `parts` has
    the number of each part and the state of its checks."""
    for number, states in parts:
        for name, kinds in CHECKS.items():
            is_listed = any(item.kind in kinds and item.part in (None, number) for item in entries)
            state = states.get(name, CheckState())._replace(is_listed=is_listed)
            if decide_check(state) == LISTED and not is_listed:
                yield Unchecked(kinds[0], MISSING_TEXTS[name], number)


def summarize_pictures(several: Sequence[Unchecked]) -> Iterator[str]:
    """Yield texts about pictures that were not compared. Of all places where decoding times jump,
    yield the text about the first, and the number of the others. Leave out programmes without
    video."""
    yield from dict.fromkeys(item.text for item in several if item.has_video and item.kind != JUMP)
    jumps = [item.text for item in several if item.kind == JUMP]
    if jumps:
        more = f"; and at {counted(len(jumps) - 1, 'more place')}" if len(jumps) > 1 else ""
        yield jumps[0] + more
