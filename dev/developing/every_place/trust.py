"""Find the frames that are trusted despite faults, and the positions of their lines in the output.

An `EventLog` collects events and PES packets. `TrustedFrames` then finds groups of consecutive
frames without a fault.
"""
from __future__ import annotations

from dataclasses import dataclass, field
from typing import Iterator, NamedTuple

from subtitles.common.times import format_frame

# Faults of a PES packet that make its frame untrusted, since receivers may handle them differently.
PACKET_FAULTS = {64, 65, 67, 68, 69}
ORDER = 62
SKIPPED = {*range(33, 41), 45, 61}  # fault numbers of unreadable PES packets


class Event(NamedTuple):
    """A printed line, with its fault number.

    `pes` is the PES packet at which the line is printed, even if the line concerns an earlier
    frame. It is `None` after the last frame. `frame` is the frame that the line concerns, or
    `None`. `is_end_of_frame` is true for a line at the end of this frame.
    """

    line: str
    number: int
    pes: int | None
    frame: int | None = None
    is_end_of_frame: bool = False


class SentPacket(NamedTuple):
    """A readable PES packet: index, frame, and whether it has a header that erases the page."""

    pes: int
    frame: int
    has_header: bool


class FrameEnd(NamedTuple):
    """The state at the end of a frame: whether a fault is active, and whether a page is pending.

    `incomplete_since` is the frame from which the page has been incomplete, or `None`.
    """

    frame: int
    has_active: bool
    incomplete_since: int | None
    is_late: bool


class CleanFrames(NamedTuple):
    """Consecutive frames without a fault."""

    first: int
    last: int


@dataclass
class EventLog:
    """The events of a transmission, and its PES packets.

    `sent` and `ends` contain the PES packets and frame ends before the first PES packet that is out
    of order. `has_rising_frames` is true if all are in order. `skipped` contains the indices of
    unreadable PES packets. `has_trailing_bytes` is true if bytes follow the last PES packet.
    """

    events: list[Event] = field(default_factory=list)
    sent: list[SentPacket] = field(default_factory=list)
    ends: list[FrameEnd] = field(default_factory=list)
    skipped: list[int] = field(default_factory=list)
    has_rising_frames: bool = True
    has_trailing_bytes: bool = False


class TrustedFrames:
    """Finds the trusted frames before the first PES packet that is out of order.

    `is_refused` is true if the subtitle file has faults.
    """

    def __init__(self, event_log: EventLog, is_refused: bool) -> None:
        self.is_refused = is_refused
        self.events, self.sent = event_log.events, event_log.sent
        self.first, self.last = self.sent[0].frame, self.sent[-1].frame
        self.ends = {item.frame: item for item in event_log.ends}
        pes = {item.pes for item in self.sent}
        self.faulty_frames = {item.frame for item in self.events
                              if item.pes in pes and item.number in PACKET_FAULTS}
        self.faulty_frames |= {item.frame for item in event_log.ends if item.has_active}
        # Unread data after a PES packet may belong to its frame, or to a later frame.
        if not event_log.has_rising_frames or event_log.has_trailing_bytes:
            self.faulty_frames.add(self.last)
        for piece in event_log.skipped:
            before = [item.frame for item in self.sent if item.pes < piece]
            after = [item.frame for item in self.sent if item.pes > piece]
            if before:
                end = after[0] if after else self.last + 1
                self.faulty_frames |= {before[-1], *range(before[-1], end)}

    def find_runs(self) -> Iterator[CleanFrames]:
        """Yield the groups of consecutive frames without a fault."""
        begin = self.first
        for frame in range(self.first, self.last + 2):
            if frame in self.faulty_frames or frame > self.last:
                if begin < frame:
                    yield CleanFrames(begin, frame - 1)
                begin = frame + 1

    def find_trusted_frames(self) -> Iterator[tuple[int, CleanFrames]]:
        """Yield the index of an event and the group of trusted frames that is printed before it."""
        for run in self.find_runs():
            headers = [packet.frame for packet in self.sent
                       if packet.has_header and run.first <= packet.frame <= run.last]
            if headers:
                at = self.find_report_place(run.last)
                clean_run = CleanFrames(headers[0], self.find_last_trusted(run.last, at))
                if any(self.is_complete_at(frame)
                       for frame in range(clean_run.first, clean_run.last + 1)):
                    yield at, clean_run

    def is_complete_at(self, frame: int) -> bool:
        return frame in self.ends and self.ends[frame].incomplete_since is None

    def find_report_place(self, last: int) -> int:
        """Return the index of the event before which trusted frames up to `last` are printed.

        This event reports a fault of the next frame, an order fault, or the end of the file. Return
        the number of events if there is no such event.
        """
        after = last + 1
        pes = [packet.pes for packet in self.sent if packet.frame == after]
        for at, event in enumerate(self.events):
            is_skipped = event.number in SKIPPED and event.pes is not None
            if event.number == ORDER or event.pes is None \
                    or event.frame == after and (event.is_end_of_frame or event.number
                                                 in PACKET_FAULTS) \
                    or is_skipped and pes and event.pes > pes[0]:
                return at
        return len(self.events)

    def find_last_trusted(self, last: int, at: int) -> int:
        """Return the last trusted frame of a group of frames without a fault that ends at `last`.

        Final frames with an incomplete page are not trusted if the subtitle file has faults, or if
        the event at index `at` reports a late page. The same holds if there is no such event, or if
        it follows the last frame. The group is printed before this event.
        """
        event = self.events[at] if at < len(self.events) else None
        end: FrameEnd | None = None
        if event is None or event.pes is None:
            end = self.ends.get(self.last)
        elif event.is_end_of_frame and event.frame is not None and self.ends[event.frame].is_late:
            end = self.ends[event.frame]
        last_end = self.ends.get(last)
        if self.is_refused and last_end is not None and last_end.incomplete_since is not None:
            end = last_end
        return last if end is None or end.incomplete_since is None else end.incomplete_since - 1


def list_lines(event_log: EventLog, has_failed: bool, is_refused: bool) -> Iterator[str]:
    """Yield the printed lines. If there are faults, include the lines about trusted frames.

    After a read failure it is unknown where the last group of trusted frames ends.
    """
    before: dict[int, list[str]] = {}
    if (event_log.events or is_refused) and event_log.sent:
        for at, run in TrustedFrames(event_log, is_refused).find_trusted_frames():
            line = f"trusted frames {format_frame(run.first)} {format_frame(run.last)}"
            before.setdefault(at, []).append(line)
    for at, event in enumerate(event_log.events):
        yield from before.get(at, [])
        yield event.line
    if not has_failed:
        yield from before.get(len(event_log.events), [])
