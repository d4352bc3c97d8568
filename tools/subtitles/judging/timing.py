"""Find the parts of a recording, their clocks and PES packets."""
from __future__ import annotations

import dataclasses
import os
from typing import Iterable, Iterator, NamedTuple, Sequence

from ..clock.origin import OriginEstimate, OriginSearch, PartOrigin, estimate_origin
from ..clock.start import (
    Clock, GIVEN, NoFirstPicture, RECORDING, START, TCP, TimedPart, compute_start_clock,
    read_start_frame, refuse_outside_recording)
from ..common.checks import LOSSES
from ..common.command_line import Stop, counted, format_error, format_pid
from ..common.times import (
    FRAMES_A_SECOND, FRAMES_OF_A_DAY, TICKS, compute_midnight, compute_origin, describe_duration,
    format_frame, format_origin, pts_of, subtract_origin, subtract_pts, subtract_pts_within,
    wrap_pts)
from ..recording.recording import Recording
from ..request.commands import Listener
from ..request.request import (
    NONE, ORIGIN_CHOICE, PACE_CHOICE, PES_CHOICE, Request, Selection, Unclear)
from ..stream.pace import (
    BY_EVERY, IRREGULAR, PAUSED, Pace, REGULAR, TOO_FEW, compute_pace, estimate_packets_per_pes,
    find_hidden_loss, find_pauses, list_frame_rows)
from ..stream.packets import NO_RANGE, PTSPair, Range, find_announced_jumps
from ..stream.ranges import PacketRange, find_range
from .part import Part
from .unchecked import Unchecked


NO_CLOCK = Clock(0, RECORDING)  # a placeholder until the clock is known
CLOCK_PREFIX = "clock: "


class PartSearch(NamedTuple):
    """A request to find the parts of a recording."""

    request: Request
    # The first and the last frame of the subtitles, and the clock if one was given
    full_range: TimedPart
    allowed_packets: Range | None  # PES packets that may be judged
    skipped_positions: frozenset[int] = frozenset()  # positions of the subtitles to skip
    # Whether the first judged subtitle directly follows a subtitle that has the same text and is
    # not judged
    is_continued: bool = False


class PartClocks(NamedTuple):
    """The parts of a recording with their clocks, and notes on the delay in the first part."""

    search: PartSearch
    alignments: list[TimedPart]
    delay_notes: list[str]
    mismatch: str  # says that the file is probably another programme's


def find_parts(search: PartSearch, recording: Recording, listener: Listener) -> PartClocks:
    """Find the parts of a recording and their clocks. The first part has the clock from --origin or
    --start, if given."""
    request, full_part = search.request, search.full_range
    given_clock = get_given_clock(request) or find_start_clock(search, recording, listener)
    origin = report_estimated_origin(search, recording, given_clock, listener)
    listener.add_notes(*origin.shift_texts)
    alignments = list_timed_parts(origin, full_part)
    if not alignments and (given_clock is None or request.breaks or origin.airings):
        raise make_unclear_origin(origin, suggest_options(recording, origin))
    alignments, delay = alignments or [full_part], list[str]()
    if given_clock:
        clock, delay = add_delay(given_clock, origin)
        alignments[0] = alignments[0]._replace(clock=clock)
        refuse_wrong_clock(search, recording, alignments[0])
    return PartClocks(search, alignments, delay, origin.mismatch)


def get_given_clock(request: Request) -> Clock | None:
    """Return the clock from --origin, if given."""
    return None if request.origin is None else Clock(compute_origin(request.origin), GIVEN)


def find_start_clock(search: PartSearch, recording: Recording, listener: Listener) -> Clock | None:
    """Return the clock from --start and the first picture, if --start was given."""
    request, full_part = search.request, search.full_range
    if request.start is None:
        return None
    try:
        if not recording.is_stream:
            raise NoFirstPicture("a file of Teletext PES packets has no pictures")
        begin = compute_start_clock(request, recording.survey, recording.packets)
    except NoFirstPicture as reason:
        raise recording.make_picture_error(reason) from None
    for line in begin.lines:
        listener.print_line(line)
    if begin.clock.source == TCP:
        refuse_outside_recording(request, begin, full_part.begin, full_part.end,
                                 recording.find_last_time())
    return begin.clock


def report_estimated_origin(search: PartSearch, recording: Recording, clock: Clock | None,
                            listener: Listener) -> OriginEstimate:
    """Estimate the origin of a recording, and print it and its distance from a given `clock`."""
    request = search.request
    origin_search = OriginSearch(request.stl_path, recording.display_name, request.page,
                                 request.option,
                                 clock and clock.origin, request.within, request.breaks,
                                 search.allowed_packets,
                                 request.between, search.skipped_positions, request.late,
                                 recording.has_picture())
    try:
        origin = estimate_origin(origin_search, recording.packets)
    except (Stop, OSError) as reason:
        origin = OriginEstimate(2, lines=[format_error(reason)])
    for line in [*origin.printed, *(CLOCK_PREFIX + line for line in origin.lines)]:
        listener.print_line(line)
    return origin


def list_timed_parts(origin: OriginEstimate, full_range: TimedPart) -> list[TimedPart]:
    """Return the parts with their clocks, or an empty list if the origin is ambiguous."""
    if origin.status:
        return []
    return [TimedPart(*(part.frames or (full_range.begin, full_range.end)),
                      make_estimated_clock(part), part.packets)
            for part in origin.parts]


def make_estimated_clock(part: PartOrigin) -> Clock:
    """Return the estimated clock of a part, with the matching cues as evidence."""
    return Clock(part.origin, RECORDING, evidence=Selection(
        ORIGIN_CHOICE, str(compute_midnight(part.origin)), f"{CLOCK_PREFIX}{part.line}",
        part.matches, part.total))


def add_delay(clock: Clock, origin: OriginEstimate) -> tuple[Clock, list[str]]:
    """Return a clock with `delay_frames` set for the first part, and notes about this delay."""
    if origin.ticks_late is None or origin.status:
        return clock, []
    frames, ticks = divmod(abs(origin.ticks_late), TICKS)
    sign = -1 if origin.ticks_late < 0 else 1
    clock = clock._replace(delay_frames=sign * round(frames + ticks / TICKS),
                           is_delay_of_all=origin.matches_every_cue and not ticks)
    if not origin.ticks_late:
        return clock, []
    words = " and ".join([counted(frames, "frame")] * (frames > 0)
                         + [counted(ticks, "tick")] * (ticks > 0))
    scope_text = "all" if origin.has_all_cues else "most"
    period_text = f"up to {format_frame(origin.first_shift)}," if origin.first_shift is not None \
        else scope_text if len(origin.printed) == 1 else f"up to the first break, {scope_text}"
    line = f"{period_text} subtitles are {words} {'early' if sign < 0 else 'late'}"
    question = clock.question() if scope_text == "all" and not ticks else ""
    return clock, [line, *filter(None, [question])]


def refuse_wrong_clock(search: PartSearch, recording: Recording, part: TimedPart) -> None:
    """Raise `Unclear` if the given clock is wrong: nothing was recorded at the time of the
    subtitles, although the recording contains them at another time."""
    clock = part.clock
    if not clock.delay_frames or find_subtitle_packets(search, recording, part,
                                                       search.request.within).range is not None:
        return
    raise Unclear(describe_wrong_clock(search.request, clock, clock.delay_frames))


def describe_wrong_clock(request: Request, clock: Clock, delay: int) -> str:
    """Describe how wrong a given clock is. With this clock, subtitles are `delay` frames late."""
    if clock.source == GIVEN:
        return f"with {format_origin(clock.origin)}, all subtitles would be " \
            f"{describe_duration(abs(delay))} {'late' if delay > 0 else 'early'}, so the " \
            "recording contains no subtitle at its expected time"
    given_frame = read_start_frame(request)
    estimated_origin = wrap_pts(clock.origin + TICKS * delay)
    begins = round(subtract_origin(estimated_origin, pts_of(given_frame, clock.origin)) / TICKS)
    name = "the TCP" if clock.source == TCP else "--start"
    direction = "earlier" if given_frame < begins else "later"
    return f"{name} {format_frame(given_frame)} is " \
        f"{describe_duration(abs(given_frame - begins))} {direction} than the beginning of the " \
        f"recording by its subtitles, {format_frame(begins % FRAMES_OF_A_DAY)}. TIME is on the " \
        "subtitle file's own clock, not the time of day"


def make_unclear_origin(origin: OriginEstimate, commands: Iterable[str]) -> Unclear:
    """Return the exception that explains why the origin is ambiguous, and suggests commands."""
    is_printed = origin.airings or origin.breaks is not None
    reason = f"{origin.mismatch}, so the clock cannot be estimated" if origin.mismatch else \
        "\n".join(origin.lines) if is_printed else \
        f"the clock cannot be estimated: {'; '.join(origin.lines)}"
    return Unclear(reason, *commands)


def suggest_options(recording: Recording, origin: OriginEstimate) -> Iterator[str]:
    """Yield the commands to suggest to the operator if the origin is ambiguous."""
    if origin.airings:
        yield recording.suggest_call("--pes", "I-J")
    elif origin.breaks is None:
        if not origin.mismatch:
            yield recording.suggest_call("--origin", "T")
        yield from recording.suggest_other_pages([recording.packets])


def find_subtitle_packets(search: PartSearch, recording: Recording, alignment: TimedPart,
                          within: int) -> PacketRange:
    """Find the PES packets sent while subtitles are expected, or up to `within` frames later."""
    return find_range(recording.packets, alignment.begin, alignment.end, alignment.origin,
                      search.request.every, within, alignment.packets or search.allowed_packets,
                      search.is_continued and alignment.begin == search.full_range.begin)


def find_part_packets(search: PartSearch, part: Part, listener: Listener) -> Range:
    """Find the range of PES packets in a part, and report it."""
    recording, alignment = part.judged_recording
    part_packets = find_subtitle_packets(search, recording, alignment, search.request.within)
    damage, line = recording.packets.damage, f"range: {part_packets.describe()}"
    if part_packets.range is None:
        listener.print_line(line)
    else:
        first, last = part_packets.range
        listener.add_selection(Selection(PES_CHOICE, f"{first}-{last}", line, last - first + 1,
                                         part_packets.read,
                                         part.number))
    if damage and not part_packets.is_over:
        listener.print_line(f"range: {recording.display_name}: {damage}; the recording was read "
                            "up to this point")
    if part_packets.range is None:
        raise Unclear("the recording does not contain the page at the time of the subtitles",
                      recording.suggest_call("--origin", "T"),
                      *recording.suggest_other_pages([recording.packets]))
    return part_packets.range


NEXT_FRAME = 1  # interval between PES packets, in frames, if each frame has one


def measure_part_pace(part: Part, times: Sequence[tuple[int, int]], listener: Listener) \
        -> tuple[Part, list[Unchecked]]:
    """Return a copy of the part with --pace computed from the usual intervals between PES packets,
    and entries about losses that can't be detected. Do not compute --pace if it is given, or if the
    intervals are irregular. `times` has the TCI and TCO of each subtitle."""
    number, request, (recording, _) = part.number, part.request, part.judged_recording
    pace, unseen_frames = measure_pace(part, times)
    jumps, count = find_late_jumps(part, pace)
    notes = [describe_jumps(count, recording)]
    if request.pace_word is not None:
        notes.append(describe_missing_pcr(recording) if request.pace_word == NONE else "")
    else:
        notes.append(note := describe_unchecked_losses(pace, unseen_frames, recording))
        if pace.frames:
            listener.add_selection(make_pace_selection(pace, recording.is_stream, number))
            request = dataclasses.replace(request, pace_word=str(pace.frames))
        elif note:
            listener.add_selection(Selection(PACE_CHOICE, None, f"not checked: {note}",
                                             part=number),
                                   is_printed=False)
    return dataclasses.replace(part, request=request, jumps=jumps), [
        Unchecked(LOSSES, text, number) for text in dict.fromkeys(notes) if text]


def measure_pace(part: Part, times: Sequence[tuple[int, int]]) -> tuple[Pace, int | None]:
    """Measure the intervals between the PES packets of a part. Also return the length, in frames,
    of the shortest loss that the continuity counter may not show."""
    request, (recording, alignment), pes = part.request, part.judged_recording, part.pes or NO_RANGE
    size = None if recording.is_stream else os.path.getsize(recording.path)
    rows = list_frame_rows(recording.packets, pes, alignment.origin, request.within)
    packets_per_pes = estimate_packets_per_pes(recording.packets, pes, size)
    return compute_pace(rows, packets_per_pes, request.every, find_pauses(times),
                        recording.is_stream), \
        find_hidden_loss(rows, packets_per_pes)


def find_late_jumps(part: Part, pace: Pace) -> tuple[list[PTSPair], int]:
    """Return the announced jumps of the continuity counter that are followed by a late PES packet.
    Also return the number of the other announced jumps, which may hide a loss of PES packets."""
    (recording, _), inside = part.judged_recording, part.pes or NO_RANGE
    if not recording.is_stream:
        return [], 0
    jumps = find_announced_jumps(recording.packets, inside, min(pace.interval, NEXT_FRAME))
    late = [pair for pair in jumps if subtract_pts(*pair) > pace.interval * TICKS]
    return late, len(jumps) - len(late)


def describe_jumps(count: int, recording: Recording) -> str:
    """Return the note that losses can't be detected at `count` announced jumps of the counter, or
    "" if `count` is 0."""
    return f"losses on {format_pid(recording.packets.pid)}, at " \
        f"{counted(count, 'place')} where the stream announces a jump of the continuity counter" \
        if count else ""


def make_pace_selection(pace: Pace, is_stream: bool, part: int) -> Selection:
    """Return the `Selection` that reports the chosen --pace, and how often it reveals a loss."""
    return Selection(PACE_CHOICE, str(pace.frames), describe_pace(pace, is_stream),
                     pace.total - pace.hidden_places, pace.total, part)


def describe_pace(pace: Pace, is_stream: bool) -> str:
    """Describe the usual interval between PES packets, and the value of --pace chosen from it."""
    more = ", with several in some frames" if pace.is_dense else \
        f", or at least {pace.loss_interval} after a loss of 16 TS packets" if is_stream else ""
    return f"pace: PES packets are at most {counted(pace.interval, 'frame')} apart{more}: " \
        f"--pace {pace.frames}"


def describe_unchecked_losses(pace: Pace, unseen_frames: int | None, recording: Recording) -> str:
    """Describe the losses that can't be detected. Return an empty string if --every or --pace shows
    all losses."""
    if pace.kind == BY_EVERY or pace.kind == REGULAR and not pace.hidden_places:
        return ""
    if missing_pcr_text := describe_missing_pcr(recording):
        return missing_pcr_text
    if pace.kind == REGULAR:
        seconds = (pace.loss_interval - 1) / FRAMES_A_SECOND
        loss_text = f"losses of up to {seconds:.2f} s on this PID alone" \
            if recording.is_stream else "a missing PES packet"
        return f"{loss_text}, at {counted(pace.hidden_places, 'place')} where PES " \
            "packets are too close together"
    reason = {IRREGULAR: "the PES packets come at irregular intervals",
              PAUSED: f"there is no PES packet for up to {counted(pace.interval, 'frame')}",
              TOO_FEW: "there are too few PES packets to measure their interval"}[pace.kind]
    if not recording.is_stream:
        return f"missing PES packets, since {reason}"
    tenths_of_second = 10 * (unseen_frames or 0) // FRAMES_A_SECOND
    loss_text = f"losses of {tenths_of_second / 10} s or more" if tenths_of_second else "losses"
    return f"{loss_text} on this PID alone, since {reason}"


def describe_missing_pcr(recording: Recording) -> str:
    """Return the losses that are not detected if there is no PCR, or "" if there is one."""
    if not recording.is_stream or recording.survey.get_pcr_range(recording.packets.pid) is not None:
        return ""
    return "losses that the counter does not show, such as 16 TS packets, since the programme of " \
        f"{format_pid(recording.packets.pid)} has no PCR"
