"""Find the PES packets of a range of frames."""
from __future__ import annotations

import bisect
import itertools
from typing import Iterator, NamedTuple

from ..common.command_line import counted
from ..common.times import (
    FRAMES_OF_A_DAY, TICKS, compute_frame, describe_duration, format_frame, pts_of, subtract_pts,
    wrap_pts)
from .packets import BLANK, CLOSED, HEADER, OPEN, PacketRun, Packets, PageChange, Range


# A run of at least this many ticks is not skipped, since the PTS may wrap around within it.
MAX_SKIPPED_TICKS = 1 << 31
# The search ends after this number of consecutive PES packets after the last frame.
PACKETS_AFTER_RANGE = 2


class SentPacket(NamedTuple):
    """A PES packet: its number, its frame if it has a PTS, and its flags."""

    number: int
    frame: int | None
    flags: str


class PacketRange(NamedTuple):
    """The PES packets of a range of frames."""

    range: Range | None  # the first and last PES packet, if there are any
    read: int  # number of PES packets read
    first: int | None = None  # first frame of the range
    last: int | None = None  # last frame of the range
    first_packet_frame: int | None = None  # frame of the first PES packet, with or without the page
    has_end: bool = False  # whether the last page transmission was found
    is_over: bool = False  # whether no later PES packet can be in the range

    def describe(self) -> str:
        count = counted(self.read, "PES packet")
        if self.range is None or self.first is None or self.last is None:
            return f"none of {count} at the time of the subtitles contains a header of the page " \
                "or follows such a header"
        packet_count = self.range[1] - self.range[0] + 1
        return f"{packet_count} of {count}, from {format_frame(self.first)} to " \
            f"{format_frame(self.last)}"


def find_range(packets: Packets, begin: int, end: int, origin: int, every: int | None = None,
           within: int = 0, inside: Range | None = None, is_continued: bool = False) -> PacketRange:
    """Find the PES packets from frame `begin` to `end`, starting with a page header.

    If `every` is given, start with the last page transmission that leaves the page blank, at most
    `every` frames before `begin`. End with the first page transmission at `end` or up to `every`
    frames later. If `within` is not 0, end instead with the first PES packet from `end` on that
    leaves the page blank and closed, but at the latest `within` frames after `end`.

    Use only the PES packets in the range `inside`. If `is_continued`, the text of the first frame
    is also expected before that frame.
    """
    low = max(begin - (every or 0), 0)
    high = end if every is None else min(end + max(every, within), FRAMES_OF_A_DAY - 1)
    beginning = RangeStart(begin, within, PageTexts(packets, origin, within, is_continued))
    ending = RangeEnd(low, high, end, within, every is not None)
    first = first_packet_frame = None
    read, is_over = 0, False
    for sent in read_packets_between(packets, low, high, origin, within):
        read = sent.number + 1
        if inside and sent.number > inside[1]:
            break
        is_in_time = sent.frame is not None and low <= sent.frame <= high
        if inside and sent.number < inside[0] or first_packet_frame is None and not is_in_time:
            continue
        first_packet_frame = sent.frame if first_packet_frame is None else first_packet_frame
        if first is None and is_in_time:
            first = beginning.find(sent)
        if first is None:
            beginning.take(sent)
        is_over = ending.take(sent, first)
        if is_over:
            break
    read = read or packets.count
    if first is None:
        return PacketRange(None, read, first_packet_frame=first_packet_frame, is_over=is_over)
    begin_frame = compute_frame(next(packets.pts((first, ending.number))), origin, within)
    return PacketRange((first, ending.number), read, begin_frame, ending.last, first_packet_frame,
                       ending.has_end, is_over)


class StepBack(NamedTuple):
    """A PES packet whose PTS is before that of the previous PES packet: its number, the previous
    frame, and the difference in ticks."""

    number: int
    frame: int
    ticks: int

    def describe(self) -> str:
        frames, ticks = divmod(self.ticks, TICKS)
        duration = " ".join([describe_duration(frames)] * (frames > 0)
                            + [counted(ticks, "tick")] * (ticks > 0))
        return f"the PTS go back by {duration} in PES packet {self.number}, after " \
            f"{format_frame(self.frame)}"


def find_step_back(packets: Packets, begin: int, end: int, origin: int,
                   inside: Range | None = None) -> StepBack | None:
    """Return the first PES packet that goes back from a frame between `begin` and `end`. Search
    only the PES packets in the range `inside`, if it is given."""
    last: int | None = None
    for run in packets.list_runs_between(*inside) if inside else packets.runs:
        if run.pts is None or run.last is None:
            continue
        steps = [(run.first, last, run.pts)] if last is not None else []
        if run.length > 1 and subtract_pts(0, run.step) < 0:
            steps.append((run.first + 1, run.pts, wrap_pts(run.pts + run.step)))
        for number, before, pts in steps:
            frame = compute_frame(before, origin)
            if subtract_pts(before, pts) < 0 and begin <= frame < end:
                return StepBack(number, frame, subtract_pts(pts, before))
        last = run.last
    return None


class PageTexts:
    """The texts of the page, to distinguish a repeat from a new text. Rows may arrive up to
    `within` frames after the header that erases the page. If `is_continued`, no transmission is a
    repeat."""

    def __init__(self, packets: Packets, origin: int, within: int, is_continued: bool) -> None:
        self.changes, self.origin = packets.changes, origin
        self.numbers = [change.number for change in packets.changes]
        self.within, self.is_continued = within, is_continued

    def find_changes(self, sent: SentPacket) -> list[PageChange]:
        """Return the page changes caused by the page transmission that begins with a header."""
        def is_change_of_run(change: PageChange) -> bool:
            frame = compute_frame(change.pts, self.origin, self.within)
            return sent.frame is not None and sent.frame <= frame <= sent.frame + self.within

        at = bisect.bisect_left(self.numbers, sent.number)
        return [*itertools.takewhile(is_change_of_run, itertools.islice(self.changes, at, None))]

    def is_repeat(self, sent: SentPacket) -> bool:
        """Return whether a page transmission erases the text before it and sends it again."""
        at = bisect.bisect_left(self.numbers, sent.number)
        rows = self.changes[at - 1].rows if at else ()
        return bool(rows) and not self.is_continued and any(
            change.rows == rows for change in self.find_changes(sent))

    def is_replaced(self, sent: SentPacket) -> bool:
        """Return whether a page transmission replaces the text that was sent before its header."""
        return self.is_continued or bool(self.find_changes(sent)) and not self.is_repeat(sent)


class RangeStart:
    """Finds the first PES packet of a range. This is the first PES packet of the last page
    transmission before frame `begin` that leaves the page blank. If there is no such transmission,
    it is the first header from `begin` on. If `within` is greater than 0, all PES packets of a
    frame belong to one transmission."""

    def __init__(self, begin: int, within: int, texts: PageTexts) -> None:
        self.begin, self.within, self.texts = begin, within, texts
        self.transmission: list[SentPacket] = []
        # First PES packet of the last transmission that leaves the page blank.
        self.blank: int | None = None
        self.header: int | None = None  # PES packet of the last header
        self.is_blank = True

    def take(self, sent: SentPacket) -> None:
        """Read a PES packet that precedes the range."""
        if not (self.within and self.transmission and sent.frame in (self.transmission[0].frame,
                                                                     None)):
            self.blank, self.transmission = self.find_last_blank(), []
        self.transmission.append(sent)
        if HEADER in sent.flags:
            self.header = sent.number
        if sent.frame is not None:
            self.is_blank = BLANK in sent.flags

    def find_last_blank(self) -> int | None:
        """Return the first PES packet of the last page transmission that leaves the page blank."""
        header = next((sent for sent in self.transmission if HEADER in sent.flags), None)
        is_left_blank = header and BLANK in self.transmission[-1].flags and \
            not self.texts.is_repeat(header)
        return self.transmission[0].number if is_left_blank else self.blank

    def find(self, sent: SentPacket) -> int | None:
        """Return the first PES packet of the range, if the range begins at or before `sent`."""
        if sent.frame is None or sent.frame < self.begin:
            return None
        is_shown, is_replaced = not self.is_blank, self.texts.is_replaced(sent)
        blank = None if is_shown and is_replaced and sent.frame == self.begin \
            else self.find_last_blank()
        if blank is not None or HEADER not in sent.flags:
            return blank
        # If this header repeats an earlier text, `check` also needs the previous header.
        is_repeat = is_shown and not is_replaced and sent.frame <= self.begin + self.within
        return self.header if is_repeat and self.header is not None else sent.number


class RangeEnd:
    """Finds the last PES packet of a range, between the frames `low` and `high`. Usually it is the
    last PES packet in the frame of the first header from `end` on. If pages may be late, it is the
    first PES packet from `end` on that leaves the page blank (and closed, if the page was closed
    before), but at the latest the first PES packet `within` frames after `end`."""

    def __init__(self, low: int, high: int, end: int, within: int, is_bound: bool) -> None:
        self.low, self.high, self.end, self.within = low, high, end, within
        self.may_be_late = is_bound and within > 0
        self.has_end = not is_bound  # whether the last page transmission was found
        self.number, self.last, self.behind = -1, -1, 0
        self.closed = -1  # the last PES packet that closed the page

    def take(self, sent: SentPacket, first: int | None) -> bool:
        """Read a PES packet. Return whether the range is complete. One PES packet after the range
        usually does not suffice, since its PTS may be wrong. `first` is the number of the range's
        first PES packet, if known."""
        frame = sent.frame
        if CLOSED in sent.flags:
            self.closed = sent.number
        if frame is not None:
            if self.may_be_late and self.has_end and frame > self.last:
                self.high = self.last
            self.behind = self.behind + 1 if frame > self.high else 0
            if self.behind == (1 if self.has_end and self.last == self.high
                               else PACKETS_AFTER_RANGE):
                return True
        if first is not None and not self.behind:
            self.number = sent.number
            if frame is not None and self.low <= frame <= self.high:
                self.last = frame
                if not self.has_end and frame >= self.end:
                    self.has_end = self.is_last(sent, frame, first)
                    self.high = frame if self.has_end and not self.within else self.high
        return False

    def is_last(self, sent: SentPacket, frame: int, first: int) -> bool:
        """Return whether a PES packet, at or after the last out-cue, ends the range."""
        if not self.within:
            return HEADER in sent.flags
        is_page_over = BLANK in sent.flags and not (OPEN in sent.flags and self.closed >= first)
        return is_page_over or frame >= self.end + self.within


def read_packets_between(packets: Packets, low: int, high: int, origin: int, within: int) \
        -> Iterator[SentPacket]:
    """Yield the PES packets from the first run that may overlap the frames `low` to `high`."""
    first, last = pts_of(low, origin), pts_of(high, origin)
    for run in itertools.dropwhile(lambda run: is_outside(run, first, last), packets.runs):
        for number in range(run.first, run.end):
            pts = run.pts_of(number)
            frame = None if pts is None else compute_frame(pts, origin, within)
            yield SentPacket(number, frame, run.flags)


def is_outside(run: PacketRun, low: int, high: int) -> bool:
    """Return whether a run lies more than a frame before PTS `low` or after PTS `high`. A simple
    comparison is not possible: `low` and `high` may be a day apart, more than half of the clock's
    range."""
    first, last = run.pts, run.last
    if first is None or last is None or not 0 <= run.step * run.length < MAX_SKIPPED_TICKS:
        return first is None
    begin, length = low - TICKS, wrap_pts(high - low) + 2 * TICKS
    return wrap_pts(first - begin) > length and wrap_pts(begin - first) > wrap_pts(last - first)
