"""Compute the lines of `check --all`: a second implementation, simple and slow.

It stores all Teletext packets, and decodes the page from this list at the end of each frame.
"""
from __future__ import annotations

from typing import Iterable

from developing.pes import decode_address
from subtitles.common.times import format_frame
from .due import ExpectedPages, judge_subtitles
from .ends import FrameEnds
from .on_air import Packet, erases_page, decode, find_packet_faults, get_page
from .reading import CUT, decode_header, split_packets, read_packet
from .recordings import Range, read_stream, select_range
from .told import format_ended, format_refused
from .trust import EventLog, FrameEnd, Event, SentPacket, list_lines
from .arguments import Options


class Transmission:
    """The items (PES packets and gap markers) of a file from index `first` on, and their faults."""

    def __init__(self, due: ExpectedPages, options: Options, first: int) -> None:
        self.due, self.options, self.first = due, options, first
        self.event_log, self.ends = EventLog(), FrameEnds(due, options)
        self.frames: list[int] = []  # frames of the readable PES packets
        self.packets: list[Packet] = []
        self.headers: list[int] = []  # frames with a header of the page
        # State of the current frame: the index of its last PES packet, the number of Teletext
        # packets in its PES packets, and whether it is the first frame.
        self.sending: int | None = None
        self.count, self.is_first = 0, True
        # The last consecutive unreadable items with the same fault: the fault, and the first and
        # last index.
        self.skipped: tuple[int, int, int] | None = None

    def describe_place(self, pes: int) -> str:
        return f"pes {self.first + pes}"

    def report_fault(self, number: int, place: str, pes: int | None,
                     frame: int | None = None) -> None:
        self.add_event(Event(format_refused(number, place), number, pes, frame))

    def add_event(self, event: Event) -> None:
        """Add an event. First report the end of the preceding unreadable items."""
        self.end_skipped()
        self.event_log.events.append(event)

    def skip(self, pes: int, number: int) -> None:
        """Skip an unreadable item. Report it unless the previous item has the same fault."""
        self.event_log.skipped.append(pes)
        if self.skipped and (self.skipped[0], self.skipped[2]) == (number, pes - 1):
            self.skipped = number, self.skipped[1], pes
        else:
            self.report_fault(number, self.describe_place(pes), pes)
            self.skipped = number, pes, pes

    def end_skipped(self) -> None:
        """Report the end of consecutive unreadable items."""
        if self.skipped and self.skipped[1] < self.skipped[2]:
            number, _, last = self.skipped
            self.event_log.events.append(Event(format_ended(number, self.describe_place(last)),
                                               number, last))
        self.skipped = None

    def receive(self, pes: int, frame: int, teletext: list[bytes]) -> None:
        """Process a PES packet. If pages may be late, process a frame's PES packets together."""
        if self.options.within == 0 or self.frames[-1:] != [frame]:
            self.end_current_frame()
            self.begin_frame(pes, frame)
            self.count = 0
        has_header = self.receive_packets(pes, frame, teletext)
        self.frames.append(frame)
        self.sending = pes
        if self.event_log.has_rising_frames:
            self.event_log.sent.append(SentPacket(pes, frame, has_header))
        if self.options.within == 0:
            self.end_current_frame()

    def begin_frame(self, pes: int, frame: int) -> None:
        """Report the faults that are known before the packets of a frame are decoded."""
        begin = self.due.first()
        if not self.frames:
            self.ends.first = frame
            if begin is not None and begin < frame:
                self.report_fault(63, f"frame {format_frame(frame)}", pes)
            return
        if frame <= self.frames[-1]:
            self.event_log.has_rising_frames = False
            self.report_fault(62, self.describe_place(pes), pes)
        self.end_frames(pes, range(max(self.frames) + 1, frame))

    def receive_packets(self, pes: int, frame: int, teletext: list[bytes]) -> bool:
        """Process Teletext packets. Return whether one of them is a header that erases the page."""
        page, has_erased = self.options.page, False
        for item in teletext:
            packet = Packet(item, decode_address(item), decode_header(item))
            for fault in find_packet_faults(packet, self.packets, self.options):
                self.report_fault(fault, f"frame {format_frame(frame)} packet {self.count}",
                                  pes, frame)
            self.packets.append(packet)
            self.count += 1
            if get_page(packet) == page:
                self.headers.append(frame)
                has_erased |= erases_page(packet)
        return has_erased

    def end_current_frame(self) -> None:
        """Process the end of the last PES packet's frame, unless it has already been processed."""
        if self.sending is None:
            return
        pes, frame, self.sending = self.sending, self.frames[-1], None
        if self.is_first and not self.headers:
            self.report_fault(71, f"frame {format_frame(frame)}", pes)
        self.is_first = False
        self.end_frames(pes, [frame])

    def end_frames(self, pes: int, frames: Iterable[int]) -> None:
        """Process the end of the PES packet's frame, or the ends of the empty frames before it."""
        decoded, ends = decode(self.packets, self.options), self.ends
        for frame in frames:
            for number, line in ends.at(frame, decoded, self.headers, self.frames):
                self.add_event(Event(line, number, pes, frame, True))
            if self.event_log.has_rising_frames:
                self.event_log.ends.append(
                    FrameEnd(frame, bool(ends.active), ends.incomplete_since, ends.is_late))

    def end_file(self, end_fault: int | None, pes: int) -> None:
        """Process the end of the file. Bytes after its `pes` items have the fault `end_fault`."""
        self.end_current_frame()
        self.end_skipped()
        for number, line in self.ends.list_final_lines():
            self.add_event(Event(line, number, None))
        end = self.due.last()
        if end_fault is not None:
            self.event_log.has_trailing_bytes = True
            self.report_fault(end_fault, self.describe_place(pes), None)
        elif pes == 0:
            self.report_fault(60, "", None)
        elif self.frames and (self.ends.incomplete_since is not None and not self.ends.is_late
                              or end is not None and end > self.frames[-1]):
            self.report_fault(74, f"frame {format_frame(self.frames[-1])}", None)

    def format_accepted(self) -> str:
        """Return the line that reports an accepted transmission."""
        count = self.frames[-1] - self.frames[0] + 1
        return f"accepted {count} frames {len(self.headers)} transmissions"


def find_failure_line(selection: Range, count: int, end_fault: int | None,
                      is_failing: bool) -> str | None:
    """Return the line about a read failure, or `None` if reading stops before the failure.

    The failure occurs after the last byte. `count` is the number of complete items, `end_fault` the
    fault in the bytes after them, or `None`.
    """
    is_so = is_failing and selection.is_end and end_fault in (None, CUT)
    return f"fault 41 Read pes {selection.first + count}" if is_so else None


def select_data(data: bytes, options: Options) -> Range:
    """Return the part of a PES file or transport stream that the options select."""
    pes = data if options.pid is None else read_stream(data, options.pid, options.size).data
    return select_range(pes, options.first, options.last)


def check_all(stl: bytes, pes: bytes, options: Options, is_failing: bool = False) -> list[str]:
    """Return the lines of `check --all`. If `is_failing`, reading `pes` fails at its end."""
    subtitles = judge_subtitles(stl, options)
    subtitle_lines = subtitles.lines
    if subtitles.records is None:
        return [*subtitle_lines, f"{len(subtitle_lines)} faults"]
    read = select_data(pes, options)
    pieces, end_fault = split_packets(read.data)
    due = ExpectedPages(subtitles.records, subtitles.has_preceding_fault, options)
    transmission = Transmission(due, options, read.first)
    for number, piece in enumerate(pieces):
        sending = read_packet(piece, options.origin, options.within)
        if isinstance(sending, int):
            transmission.skip(number, sending)
        else:
            transmission.receive(number, *sending)
    # After a read failure, nothing more is reported, and no fault ends.
    event_log, is_refused = transmission.event_log, bool(subtitle_lines)
    if failure := find_failure_line(read, len(pieces), end_fault, is_failing):
        return [*subtitle_lines, *list_lines(event_log, True, is_refused), failure]
    transmission.end_file(end_fault, len(pieces))
    lines = [*subtitle_lines, *list_lines(event_log, False, is_refused)]
    count = sum(line.startswith("refused") for line in lines)
    return [*lines, f"{count} faults"] if count else [transmission.format_accepted()]
