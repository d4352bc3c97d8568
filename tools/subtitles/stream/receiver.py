"""The page that a receiver has decoded at the end of each frame."""
from __future__ import annotations

import array
import bisect
import functools
import itertools
from typing import Iterable, Iterator, NamedTuple, Sequence

from ..common.times import (
    FRAMES_OF_A_DAY, NO_FRAME, Span, Spans, count_until, find_frames_of_day, split_rising_rows)
from ..formats.teletext import Page
from .packets import (
    CLOSED, ERASE, HEADER, NO_RANGE, OPEN, PacketRun, Packets, Range, STRAY, Texts, parse_headers)
from .ranges import find_range


# A cell has a 7-bit code and a flag in bit 8. `OLD` is a cell that was not received since the
# receiver was tuned in. `HIT` is a space whose byte had even parity.

OLD, HIT = 0xBF, 0xA0

Rows = tuple[bytes, ...]  # rows 1 to 24, a byte for each cell

BLANK_PAGE: Rows = (b" " * 40,) * 24
OLD_PAGE: Rows = (bytes([OLD]) * 40,) * 24


class ReceiverState(NamedTuple):
    """The state of a receiver."""

    is_received: bool
    is_open: bool
    header: bytes | None  # eight four-bit values of the page's last header
    rows: Rows  # the decoded page
    screen: tuple[Rows, bytes] | None  # the last complete page, which is displayed, and its header


INITIAL_STATE = ReceiverState(False, False, None, OLD_PAGE, None)


def read_national_option(header: bytes) -> int:
    """Return C12, C13 and C14 of a header as a number: 0 is English, 4 German."""
    return header[7] >> 1


CLEARED_MARKS = bytes(0x20 if code in (OLD, HIT) else code for code in range(256))


def clear_unsent_cells(rows: Rows) -> Rows:
    """Return a page with spaces in place of cells that were not received or had even parity."""
    cells = b"".join(rows)
    if OLD not in cells and HIT not in cells:
        return rows
    return tuple(row.translate(CLEARED_MARKS) for row in rows)


PAUSE = 2  # a longer interval in frames without a PES packet is a pause
PACKETS_PER_PAUSE = 20  # pauses are frequent if there are fewer PES packets per pause than this


class SpanIndex:
    """An index to find whether given frames overlap any of many spans."""

    def __init__(self, spans: Iterable[Span]) -> None:
        sorted_spans = sorted(spans)
        self.begins = [span.first for span in sorted_spans]
        last_frames: list[int] = [span.last for span in sorted_spans]
        self.reach = [*itertools.accumulate(last_frames, lambda item, other: max(item, other))]

    def includes(self, first: int, last: int) -> bool:
        """Return whether a span overlaps the frames from `first` to `last`."""
        at = bisect.bisect_right(self.begins, last)
        return at > 0 and self.reach[at - 1] >= first


class ReceivedPackets:
    """The PES packets that were received, in runs of consecutive packets."""

    def __init__(self, lost: Iterable[Span] = ()) -> None:
        self.lost = SpanIndex(lost)  # frames with losses from any source
        self.clear()

    def clear(self) -> None:
        """Forget all PES packets."""
        # Runs, and the frames of each run with gaps or repeated frames, by the index of the run
        self.received_runs, self.uneven_frames = list[PacketRun](), dict[int, Sequence[int]]()
        self.begins, self.ends = array.array("i"), array.array("i")  # frames of each run
        self.count = 0  # number of received PES packets
        self.first = self.last = NO_FRAME  # first and last frame of all runs
        # First PES packet with an earlier frame than the packet before it. Reception ends there.
        self.halt: int | None = None
        self.is_uncertain = False
        # Frames around gap markers and unreadable PES packets; frames without a PES packet
        self.uncertain_spans, self.pauses = list[Span](), Spans()

    def add_run(self, run: PacketRun, frames: Sequence[int]) -> bool:
        """Add PES packets with ascending frames. If the frame number has decreased, now or before,
        ignore the packets and return `False`."""
        if self.halt is None and frames[0] < self.last:
            self.halt = run.first
        if self.halt is not None:
            return False
        if self.is_uncertain:
            self.uncertain_spans.append(Span(max(self.last, 0), frames[0]))
            self.is_uncertain = False
        for pause in find_pauses(self.last, frames):
            self.pauses.add(*pause)
        if not isinstance(frames, range):
            self.uneven_frames[len(self.received_runs)] = frames
        self.received_runs.append(run)
        self.begins.append(frames[0])
        self.ends.append(frames[-1])
        self.count += len(frames)
        self.first = frames[0] if self.first == NO_FRAME else self.first
        self.last = frames[-1]
        return True

    def run_frames(self, at: int) -> Sequence[int]:
        """Return the frames of the run with index `at`."""
        return self.uneven_frames.get(at, range(self.begins[at], self.ends[at] + 1))

    def find_pause(self, frame: int) -> Span | None:
        """Return the pause around a frame. Return `None` if the frame is not in a pause, or if
        pauses are frequent."""
        has_usual_pauses = len(self.pauses) * PACKETS_PER_PAUSE <= self.count
        return next(self.pauses.between(frame, frame + 1), None) if has_usual_pauses else None

    @functools.cached_property
    def uncertain_index(self) -> SpanIndex:
        """Return an index of the uncertain spans; call it only after all packets were added."""
        return SpanIndex(self.uncertain_spans)

    def was_received(self, first: int, last: int) -> bool:
        """Return whether all PES packets of a span of frames were received."""
        is_known = self.halt is None or last <= self.last
        return is_known and not (
            self.uncertain_index.includes(first, last) or self.lost.includes(first, last))

    def list_frame_runs(self, frame: int) -> list[PacketRun]:
        """Return the PES packets of a frame, each as a run."""
        first, end = bisect.bisect_left(self.ends, frame), bisect.bisect_right(self.begins, frame)
        return [self.received_runs[at].part(self.received_runs[at].first + place, 1)
                for at in range(first, end) for frames in [self.run_frames(at)] for place in range(
                    bisect.bisect_left(frames, frame), bisect.bisect_right(frames, frame))]

    def find_frame_before(self, number: int) -> int | None:
        """Return the last received frame before a PES packet, or `None` if there is none."""
        at = count_until(self.received_runs, lambda run: run.first >= number) - 1
        if at < 0:
            return None
        run = self.received_runs[at]
        return self.run_frames(at)[min(number - run.first, run.length) - 1]

    def find_frame_after(self, number: int) -> int | None:
        """Return the first received frame after a PES packet, or `None` if there is none."""
        at = count_until(self.received_runs, lambda run: run.end - 1 > number)
        if at == len(self.received_runs):
            return None
        return self.run_frames(at)[max(number + 1 - self.received_runs[at].first, 0)]


def find_pauses(before: int, frames: Sequence[int]) -> Iterator[Span]:
    """Yield the pauses between the frames of PES packets. `before` is the last frame of earlier PES
    packets."""
    frames = frames[:1] if isinstance(frames, range) else frames
    for first, second in zip([before if before != NO_FRAME else frames[0], *frames], frames):
        if second - first - 1 > PAUSE:
            yield Span(first + 1, second - 1)


# The receiver is tuned in before the first PES packet. It ignores PES packets that `check` can't
# read or that have no frame. From the first PES packet with an earlier frame than the packet before
# it, all PES packets are ignored.

MIN_FRAMES = 250  # minimum number of frames to decode before and after a span


class Timeline(ReceivedPackets):
    """The pages that a receiver decodes. If the frame number decreases before frame `begin`, all
    earlier packets are forgotten. `first_packet_frame` is the frame of the first PES packet, if
    known."""

    def __init__(self, packets: Packets, page: Page, origin: int, within: int = 0,
                 inside: Range | None = None, begin: int = NO_FRAME, first_packet_frame: int
                 = NO_FRAME, lost: Iterable[Span] = ()) -> None:
        self.packets, self.page, self.origin, self.within = packets, page, origin, within
        self.inside = (0, packets.count - 1) if inside is None else inside
        self.begin, self.first_packet_frame = begin, first_packet_frame
        self.printed_rows: Rows = OLD_PAGE  # the last rows that `survey` printed
        self.is_erased = False  # whether the page was ever erased
        super().__init__(lost)
        self.receive_all(dict(packets.decoded_rows), dict(packets.stray_rows))

    def clear(self) -> None:
        """Forget all PES packets and pages."""
        super().clear()
        # Each page is decoded from the end of the frame with the same index.
        self.frames, self.pages = array.array("i"), list[Rows]()
        self.states = [INITIAL_STATE]  # then the state after each of `state_packets`
        self.state_frames, self.state_packets = array.array("i"), array.array("q")
        # Frames in which a transmission of the page begins or ends, frames with a header of the
        # page, and frames with a header that erases the page
        self.open_changes, self.header_frames, self.erasure_frames = (array.array("i") for _
                                                                      in range(3))
        # Rows received outside a transmission of the page
        self.stray_rows: list[tuple[Span, Texts]] = []
        self.is_outdated = False

    def receive_all(self, held: dict[int, Texts], strays: dict[int, Texts]) -> None:
        """Receive the PES packets in the range `inside`. `held` has the rows decoded after a PES
        packet, `strays` the rows received outside a transmission of the page."""
        first, last = self.inside
        self.is_erased = any(ERASE in run.flags
                             for run in self.packets.list_runs_between(0, first - 1))
        earlier = [texts for number, texts in self.packets.decoded_rows if number < first]
        if earlier:
            self.printed_rows = complete_page(earlier[-1], self.is_erased)
        stray_texts: Texts = ()
        for run in self.packets.list_runs_between(first, last):
            stray_texts = strays.get(run.first, stray_texts)
            self.receive_run(run, held.get(run.first), stray_texts)

    def receive_run(self, run: PacketRun, texts: Texts | None, stray_texts: Texts = ()) -> None:
        """Receive a run of PES packets. `texts` contains the rows that `survey` printed after the
        first packet, if any. If that packet is not received, the receiver may not have decoded
        these rows. `stray_texts` contains rows received outside a transmission of the page."""
        has_texts = texts is not None
        self.is_erased = self.is_erased or ERASE in run.flags
        if texts is not None:
            self.printed_rows = complete_page(texts, self.is_erased)
        all_frames = find_frames_of_day(() if run.fault else run.list_pts(), self.origin,
                                        self.within)
        for place, frames in split_rising_rows(all_frames) or [(0, [NO_FRAME])]:
            if frames[0] != NO_FRAME:
                self.receive(run.part(run.first + place, len(frames)), frames, has_texts,
                             stray_texts)
            else:
                self.is_uncertain = True
                self.is_outdated = self.is_outdated or has_texts or is_of_page(run)

    def receive(self, run: PacketRun, frames: Sequence[int], has_texts: bool,
                stray_texts: Texts) -> None:
        """Receive PES packets with ascending frames. `has_texts` is true if `survey` printed rows
        after the first of them."""
        if self.halt is None and frames[0] < self.last < self.begin:
            self.clear()
        is_first = self.first == NO_FRAME
        if not self.add_run(run, frames):
            return
        if is_first and self.first_packet_frame != NO_FRAME:
            self.first = self.first_packet_frame
        for flag, sent in ((HEADER, self.header_frames), (ERASE, self.erasure_frames)):
            if flag in run.flags:
                sent.extend(frame for frame in dict.fromkeys(frames)
                            if not sent or frame > sent[-1])
        if STRAY in run.flags:
            self.stray_rows.append((Span(frames[0], frames[-1]), stray_texts))
        if (self.states[-1].is_received or HEADER in run.flags) and (is_of_page(run) or has_texts):
            self.update_state(run, frames[0], has_texts)

    def update_state(self, run: PacketRun, frame: int, has_texts: bool) -> None:
        """Update the state after a run of PES packets. `has_texts` is true if `survey` printed rows
        after the first packet."""
        before = self.states[-1]
        self.is_outdated = self.is_outdated and not (ERASE in run.flags or has_texts)
        rows = before.rows if self.is_outdated else self.printed_rows
        header, screen, held = before.header, before.screen, before.rows
        headers = iter(parse_headers(run.control))
        for at, flag in enumerate(run.flags):
            if flag == HEADER:
                header = next(headers, b"")
            elif flag == ERASE:
                held = BLANK_PAGE
            elif flag == CLOSED and header:
                screen = rows if at > run.flags.rfind(HEADER) else held, header
        after = ReceiverState(True, OPEN in run.flags, header, rows, screen)
        if after == before:
            return
        self.states.append(after)
        self.state_frames.append(frame)
        self.state_packets.append(run.first)
        if after.is_open != len(self.open_changes) % 2:
            self.record_opening(frame)
        if rows != before.rows:
            self.record_page(frame, clear_unsent_cells(rows))

    def record_opening(self, frame: int) -> None:
        """Record that the transmission of the page begins or ends at the end of a frame."""
        if self.open_changes and self.open_changes[-1] == frame:
            self.open_changes.pop()
        else:
            self.open_changes.append(frame)

    def record_page(self, frame: int, page: Rows) -> None:
        """Record the page decoded from `frame` onwards, if it differs from the previous page."""
        if self.frames and self.frames[-1] == frame:
            self.frames.pop()
            self.pages.pop()
        if not self.pages or self.pages[-1] != page:
            self.frames.append(frame)
            self.pages.append(page)

    @functools.cached_property
    def page_frames(self) -> dict[Rows, array.array[int]]:
        """Return the start frames of each decoded page. Call this only after the last PES
        packet."""
        frames_by_page: dict[Rows, array.array[int]] = {}
        for frame, page in zip(self.frames, self.pages):
            frames_by_page.setdefault(page, array.array("i")).append(frame)
        return frames_by_page

    def find_page_number_at(self, frame: int) -> int:
        """Return the index of the page decoded at the end of a frame, or -1 if there is none."""
        return bisect.bisect_right(self.frames, frame) - 1

    def get_page_at(self, frame: int) -> Rows:
        """Return the page decoded at the end of a frame, or a blank page before the first page."""
        number = self.find_page_number_at(frame)
        blank: Rows = BLANK_PAGE
        return self.pages[number] if number >= 0 else blank

    def get_state_at(self, frame: int) -> ReceiverState:
        """Return the receiver's state at the end of a frame."""
        return self.states[bisect.bisect_right(self.state_frames, frame)]

    def get_state_after(self, number: int) -> ReceiverState:
        """Return the receiver's state after a PES packet."""
        return self.states[bisect.bisect_right(self.state_packets, number)]

    def list_page_numbers(self, begin: int, end: int) -> Iterator[int]:
        """Yield the indexes of the pages decoded in the frames from `begin` to `end - 1`."""
        number = max(self.find_page_number_at(begin), 0)
        while number < len(self.frames) and self.frames[number] < end:
            yield number
            number += 1

    def get_page_span(self, number: int) -> Span:
        """Return the frames during which page `number` is decoded."""
        is_last = number + 1 == len(self.frames)
        return Span(self.frames[number], self.last if is_last else self.frames[number + 1] - 1)

    def find_closed_frame(self, frame: int) -> int | None:
        """Return the first frame, not before `frame`, at the end of which the page is closed."""
        at = bisect.bisect_right(self.open_changes, frame)
        if at % 2 == 0:
            return frame
        return self.open_changes[at] if at < len(self.open_changes) else None


def is_of_page(run: PacketRun) -> bool:
    """Return whether a run has a header of the page, or a header that closes the page."""
    return HEADER in run.flags or CLOSED in run.flags


def decode_pages_around(packets: Packets, page: Page, origin: int, within: int, span: Span,
                        every: int, inside: Range | None = None,
                        lost: Iterable[Span] = ()) -> Timeline:
    """Decode the pages of a span, and of `MIN_FRAMES` or `every` frames before and after it,
    whichever is more. `lost` lists the spans with losses."""
    more = max(MIN_FRAMES, every)
    packet_range = find_range(packets, max(span.first - more, 0),
                              min(span.last + more, FRAMES_OF_A_DAY - 1), origin, None,
                              within, inside)
    return Timeline(packets, page, origin, within, packet_range.range or NO_RANGE, span.first,
                    NO_FRAME if packet_range.first_packet_frame is None
                    else packet_range.first_packet_frame, lost=lost)


def complete_page(texts: Texts, is_erased: bool) -> Rows:
    """Return a page with the rows `texts`. The other rows are blank if `is_erased`. Otherwise they
    have not been received yet."""
    blank: Rows = BLANK_PAGE if is_erased else OLD_PAGE
    if not texts:
        return blank
    rows = list(blank)
    for row, cells in texts:
        rows[row - 1] = cells
    return tuple(rows)
