"""Compute the output lines of `survey` for a PID with video.

The lines report pictures, and the first group of pictures at which decoding can start.
"""
from __future__ import annotations

from developing.every_place.recordings import Stretch
from developing.pes import has_pts, decode_pts
from subtitles.common.times import subtract_pts
from .clocks import PrintLine, Seconds, number
from .packets import Packet

MAX_GROUP_TICKS = 900_000  # maximum duration of a group of pictures, in ticks (10 seconds)
VIDEO = 0xE0  # stream_id of video; the lower four bits may differ
MPEG, H264, HEVC = (1, 2), 0x1B, 0x24  # values of stream_type in a PMT
GROUP, PICTURE = 0xB8, 0  # start codes
CLOSED_GOP = 0x40
START = b"\0\0\1"
ALIKE_TICKS = 900  # steps that differ by less are alike (a quarter of a frame)


def is_video(data: bytes) -> bool:
    """Return whether the data, which may be incomplete, begin a PES packet of video."""
    return data[:3] == START[:len(data)] and (len(data) < 4 or data[3] & 0xF0 == VIDEO)


def has_times(header: bytes) -> bool:
    """Return whether a PES header is complete up to its PTS and DTS."""
    return len(header) > 8 and len(header) >= {2: 14, 3: 19}.get(header[7] >> 6, 9)


def find_picture_form(kind: int, data: bytes) -> str | None:
    """Return the form of a group of pictures: `open`, `closed` or `unknown`.

    `data` contains the start of the group's first picture. Return `None` if more data are needed.
    """
    if kind == H264:
        return "open"
    if kind not in (*MPEG, HEVC):
        return None
    at = data.find(START)
    while 0 <= at < len(data) - 3:
        if kind == HEVC and data[at + 3] >> 1 & 63 < 32:  # nal_unit_type of a slice
            unit = data[at + 3] >> 1 & 63
            return "closed" if 17 <= unit <= 20 else "open" if unit in (16, 21) else "unknown"
        if kind != HEVC and data[at + 3] == PICTURE:
            return "unknown"
        if kind != HEVC and data[at + 3] == GROUP and at + 7 < len(data):
            return "closed" if data[at + 7] & CLOSED_GOP else "open"
        at = data.find(START, at + 3)
    return None


class Steps:
    """Prints the least and the greatest step between decoding times in each second."""

    def __init__(self, pid: int, line_printer: PrintLine) -> None:
        self.pid, self.print_line = pid, line_printer
        self.seconds = Seconds()
        self.least: tuple[int, int] | None = None  # a step, and the number of the picture after it
        self.most = 0, 0
        self.printed: tuple[int, int] | None = None  # the steps in the last line

    def take(self, before: int | None, decoding: int, number: int) -> None:
        """Process picture `number` with its decoding time and the one before."""
        if before is not None:
            step = subtract_pts(before, decoding), number
            self.most = step if self.least is None or step[0] > self.most[0] else self.most
            self.least = step if self.least is None or step[0] < self.least[0] else self.least
        if self.seconds.is_next(decoding):
            self.end()

    def end(self) -> None:
        """End a second. Print its steps if they differ, or if they are not those of the last line.
        """
        if self.least is None:
            return
        values = self.least[0], self.most[0]
        if self.printed is None or values[1] - values[0] >= ALIKE_TICKS or any(
                abs(new - old) >= ALIKE_TICKS for new, old in zip(values, self.printed)):
            self.print_line(f"steps {self.pid} {self.least[0]} {self.least[1]} "
                            f"{self.most[0]} {self.most[1]}")
            self.printed = values
        self.least = None


class Video:
    """Collects the output lines of `survey` for a PID with video."""

    def __init__(self, pid: int, line_printer: PrintLine,
                 pmt_entries: dict[int, tuple[int, int]]) -> None:
        self.pid, self.print_line, self.pmt_entries = pid, line_printer, pmt_entries
        self.stretch = Stretch(None)
        self.header: bytes | None = None  # incomplete PES header of a picture
        self.is_flagged = False  # whether random_access_indicator precedes the next picture
        self.is_next_flagged = False  # whether random_access_indicator is set for this picture
        self.count = self.passed = 0
        self.decoding: int | None = None  # decoding time of the last picture that has one
        self.number = 0  # number of the last picture that has a decoding time
        self.steps = Steps(pid, line_printer)
        # The state and the properties of the first group of pictures.
        self.has_begun = self.has_ended = False
        self.flagged: int | None = None
        self.least: int | None = None
        self.lost = self.scrambled = 0
        self.kind = 0
        self.first: bytes | None = None  # payload of the group's first picture
        self.header_bytes_left = 0  # bytes of the first picture's PES header that are still missing
        self.form: str | None = None

    @property
    def is_in_group(self) -> bool:
        return self.has_begun and not self.has_ended

    def take(self, packet: Packet) -> None:
        if packet.has_error:
            return
        # For pictures, a discontinuity_indicator counts even in a scrambled TS packet.
        packet.announces_jump = packet.is_discontinuity
        if not packet.has_payload:
            self.stretch.has_jump |= packet.is_discontinuity
            self.is_flagged |= packet.is_random_access
        elif self.stretch.is_repeat(packet):
            self.stretch.has_repeat = True
        else:
            self.count_lost(packet)
            self.read_payload(packet)

    def count_lost(self, packet: Packet) -> None:
        """Count lost TS packets. A loss also ends an incomplete header."""
        before, is_announced = self.stretch.before, self.stretch.has_jump or packet.is_discontinuity
        is_break = before is not None and packet.counter != (before.counter + 1) % 16
        if is_break or is_announced or packet.is_wrong:
            self.header = None
        self.lost += self.is_in_group and is_break and not is_announced
        self.scrambled += self.is_in_group and packet.is_scrambled
        self.stretch = Stretch(packet)

    def read_payload(self, packet: Packet) -> None:
        if packet.begins:
            self.is_next_flagged = self.is_flagged or packet.is_random_access
            self.first, self.is_flagged, self.header_bytes_left = None, False, 0
            self.header = None if packet.is_wrong else b""
            if packet.is_scrambled and self.begin(None, None):
                self.first = b""
        if packet.is_wrong:
            return
        if self.header is not None:
            self.header += packet.payload
            self.read_header(self.header)
        elif self.first is not None:
            self.read_first(packet.payload[self.header_bytes_left:])
            self.header_bytes_left = max(0, self.header_bytes_left - len(packet.payload))

    def read_header(self, data: bytes) -> None:
        """Begin a picture when its header is complete up to its PTS and DTS."""
        if not is_video(data):
            self.header = None
            return
        if not has_times(data):
            return
        pts = decode_pts(data) if has_pts(data) else None
        decoding = decode_pts(data[5:]) if has_pts(data) and data[7] & 0x40 else pts  # DTS or PTS
        self.header = None
        if self.begin(pts, decoding):
            self.first = b""
            self.header_bytes_left = max(0, 9 + data[8] - len(data))
            self.read_first(data[9 + data[8]:])

    def read_first(self, data: bytes) -> None:
        """Process more bytes of the first picture in the group."""
        assert self.first is not None
        self.first += data
        self.form = self.form or find_picture_form(self.kind, self.first)

    def begin(self, pts: int | None, decoding: int | None) -> bool:
        """Begin a picture. Return whether it is the first picture of the group."""
        self.count += 1
        if decoding is not None:
            self.steps.take(self.decoding, decoding, self.count)
            self.decoding, self.number = decoding, self.count
        if self.is_in_group and self.is_next_flagged:
            self.end_group()
        is_first = self.is_next_flagged and not self.has_begun
        if is_first:
            self.print_line(f"video {self.pid} {self.passed}")
            self.has_begun, self.flagged = True, pts
            self.kind = self.pmt_entries[self.pid][1]
            self.form = find_picture_form(self.kind, b"")  # H.264 needs no data
        self.passed += not self.has_begun
        if self.is_in_group:
            self.add(pts)
        return is_first

    def add(self, pts: int | None) -> None:
        self.print_line(f"picture {self.pid} {number(pts)}")
        if pts is None:
            return
        later = 0 if self.least is None else subtract_pts(self.least, pts)
        if later > MAX_GROUP_TICKS:
            self.end_group()
        elif self.least is None or later < 0:
            self.least = pts

    def end_group(self, more: str = "") -> None:
        if self.has_begun:
            self.print_line(f"group {self.pid} {number(self.flagged)} {number(self.least)} "
                            f"{self.form or 'unknown'}")
        self.print_line(f"pictures {self.pid} {self.lost} {self.scrambled}{more}")
        self.has_ended = True

    def end(self) -> None:
        self.steps.end()
        if not self.has_ended:
            self.end_group(f" {self.passed} {int(self.has_begun)}")
