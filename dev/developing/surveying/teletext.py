"""Compute the lines for a PID with Teletext: its PES packets, gap markers and pages."""
from __future__ import annotations

from developing.every_place.reading import LENGTH, START, find_head_fault, read_length, read_units
from developing.every_place.recordings import Stretch
from developing.pes import (
    decode_address, decode_header, decode_pts, get_data_field, get_page_number,
    get_teletext_packets, has_pts)
from subtitles.common.times import subtract_pts
from subtitles.formats.teletext import NUMBER, START as PES_START, SUBTITLE, Page, has_bit, \
    page_name
from .clocks import Counters, Jump, PrintLine, Seconds, number
from .packets import Packet
from .pictures import Video, has_times
from .page import DecodedPage, Rows, decode_triplet, shown

GAP_MARKER_FAULT = 45  # fault number of a gap marker
MAX_PENDING_JUMPS = 4  # maximum number of pending jumps
MAX_PENDING_PACKETS = 5000  # number of TS packets after which a pending jump is printed
CHARACTER_SETS = 28, 29  # packets that select character sets


def find_packet_fault(data: bytes) -> int:
    """Return the number of the fault that `packets` reports, or 0 if there is none."""
    is_length = len(data) in range(184, 184 * 9 + 1, 184)
    return (find_head_fault(data) or read_units(data)[1] or 0) if is_length else LENGTH


def step_of(times: list[int | None]) -> int:
    """Return the number of ticks from the first PTS to the last, or 0 if either is missing."""
    first, second = times[0], times[-1]
    return subtract_pts(first, second) if first is not None and second is not None else 0


class PesLines:
    """Collects the lines for the PES packets and gap markers of a PID."""

    def __init__(self, pid: int, page: Page, line_printer: PrintLine) -> None:
        self.pid, self.print_line = pid, line_printer
        self.count = self.marks = 0
        self.ends_with_gap = False
        self.page = DecodedPage(page)
        # For the PES packets of the next `pes` line: their PTS, and the line's fields after STEP.
        self.times: list[int | None] = []
        self.rest = ""
        self.printed: dict[str, Rows | None] = {"rows": None, "strays": {}}
        self.subtitles: dict[Page, int] = {}
        self.sets: set[str] = set()
        self.last_pts: int | None = None  # PTS of the last complete PES packet

    def flush(self) -> None:
        count = len(self.times)
        if count:
            self.print_line(f"pes {self.pid} {self.count - count} {count} {number(self.times[0])} "
                            f"{step_of(self.times[:2])} {self.rest}")
        self.times = []

    def gap(self, lost: int = 0, scrambled: int = 0) -> None:
        self.flush()
        self.print_line(f"gap {self.pid} {self.count} {lost} {scrambled}")
        self.count, self.marks, self.ends_with_gap = self.count + 1, self.marks + 1, True

    def read(self, data: bytes) -> None:
        fault = find_packet_fault(data)
        if fault == GAP_MARKER_FAULT and len(data) == 184:
            self.gap()
            return
        if not has_pts(data):
            self.put(None, f"-/ 0 {fault}")
            return
        pts, page, packets = decode_pts(data), self.page, get_teletext_packets(get_data_field(data))
        self.last_pts = pts
        page.begin()
        for one in packets:
            page.take(one)
            self.note(one)
        changes = {"rows": page.rows} if page.is_received else {}
        changes |= {"strays": page.strays} if page.has_strays else {}
        changes = {word: rows for word, rows in changes.items() if rows != self.printed[word]}
        if changes:
            self.flush()
        self.put(pts, f"{page.done()} {len(packets)} {fault}")
        for word, rows in changes.items():
            self.flush()
            self.print_line(f"{word} {self.pid} {self.count - 1} {shown(rows)}")
            self.printed[word] = dict(rows)

    def put(self, pts: int | None, rest: str) -> None:
        """Add a PES packet to the pending line, or begin a new line."""
        times = [*self.times, pts]
        if None in times or rest != self.rest or step_of(times[-2:]) != step_of(times[:2]):
            self.flush()
        self.times.append(pts)
        self.rest, self.count, self.ends_with_gap = rest, self.count + 1, False

    def note(self, data: bytes) -> None:
        """Print the first subtitle header of each page, and each new character set."""
        address = decode_address(data)
        header = decode_header(data) if address and address[1] == 0 else None
        if address and header and has_bit(header, SUBTITLE):
            page = address[0], get_page_number(header)
            if page not in self.subtitles:
                self.print_line(f"sub {self.pid} {page_name(*page)}")
            self.subtitles[page] = self.subtitles.get(page, 0) + 1
        if address and address[1] in CHARACTER_SETS and address[0] == self.page.magazine:
            self.record_character_set(address[1], NUMBER[data[2]], decode_triplet(data[3:6]))

    def record_character_set(self, packet: int, designation: int | None, value: int | None) -> None:
        # The lowest four bits of a triplet are the page function.
        is_of_page = self.page.is_last_header_own and not (value and value & 15)
        if designation not in (0, 4) or packet == 28 and not is_of_page:
            return
        region, option = (value >> 10 & 15, value >> 7 & 7) if value is not None else "--"
        line = f"set {self.pid} {packet} {designation} {region} {option}"
        if line not in self.sets:
            self.sets.add(line)
            self.print_line(line)

    def end(self, packets: int = 0, scrambled: int = 0, refusal: int = 0, is_cut: bool = False,
            last_pts: int | None = None) -> None:
        self.flush()
        for page, count in sorted(self.subtitles.items()):
            self.print_line(f"subs {self.pid} {page_name(*page)} {count}")
        self.print_line(f"end {self.pid} {self.count} {self.marks} {packets} {scrambled} {refusal} "
                        f"{int(is_cut)} {number(last_pts)}")


class Teletext:
    """Collects the output lines of `survey` for a PID with Teletext."""

    def __init__(self, pid: int, page: Page, line_printer: PrintLine, counters: Counters) -> None:
        self.pid, self.print_line, self.counters = pid, line_printer, counters
        self.lines = PesLines(pid, page, line_printer)
        self.packets = self.scrambled = 0
        self.refusal = 0
        # Stretch after the TS packet with a wrong PES start or length, to detect repeats of it.
        self.refused_stretch: Stretch | None = None
        # The payloads since the last start of a PES packet, break or announced jump.
        self.stretch = Stretch(None)
        self.part = b""
        self.header: bytes | None = None  # incomplete PES header
        self.begins = self.is_payload_used = False
        self.has_gap = self.has_seam = self.is_last_packet_wrong = False
        self.lost = self.scrambled_there = 0
        # State of the PES packet that began last.
        self.last_pts: int | None = None
        self.is_complete = True
        self.is_behind_gap = False
        self.ahead_seconds, self.leads = Seconds(), Seconds()
        self.picture: tuple[Video | None, int] = None, 0  # picture in the last `lead` line
        self.settled: int | None = None  # last PTS before the last PCR
        # Pending jumps of the PCR, with the PTS before and after each jump.
        self.waiting: list[tuple[Jump, int | None, int | None]] = []

    def take(self, packet: Packet) -> int | None:
        """Process a TS packet. Return the PTS of a PES packet whose header it completes."""
        self.packets += 1
        self.is_behind_gap &= not self.refusal
        self.scrambled += packet.is_scrambled
        stretch = self.stretch
        if packet.is_wrong:
            stretch.has_lost_packets = self.is_last_packet_wrong = True
            self.scrambled_there += packet.is_scrambled
        elif not packet.has_payload:
            stretch.has_jump |= packet.announces_jump
        elif (self.refused_stretch or stretch).is_repeat(packet):
            stretch.has_repeat = True
        else:
            self.read_good_packet(packet, stretch)
            return self.time()
        return None

    def read_good_packet(self, packet: Packet, stretch: Stretch) -> None:
        good, before = stretch.make_good_packet(packet), stretch.before
        self.stretch, self.is_last_packet_wrong = Stretch(packet), False
        self.has_gap |= good.is_break
        self.has_seam |= good.is_announced_jump
        is_announced = stretch.has_jump or packet.announces_jump
        lost = (packet.counter - before.counter - 1) % 16 if before and not is_announced else 0
        self.lost += lost
        self.header = b"" if packet.begins else None if lost or is_announced else self.header
        if self.header is not None:
            self.header += packet.payload
        if packet.begins or good.is_break or good.is_announced_jump or not before:
            self.has_gap |= self.part != b"" and not self.is_payload_used
            self.is_behind_gap = not self.refusal and self.lines.count > 0 \
                and (self.has_gap or self.lines.ends_with_gap)
            self.part, self.begins, self.is_payload_used = b"", packet.begins, False
            self.is_complete &= not packet.begins
        self.part += packet.payload
        if not self.refusal:
            self.use_payload(packet.payload)

    def use_payload(self, payload: bytes) -> None:
        """Process a payload. If it completes the PES packet, read the packet."""
        length = read_length(self.part) if self.begins else None
        if self.is_payload_used:
            self.has_gap |= payload != b""
        elif length in (START, LENGTH):
            self.mark()
            self.refusal, self.refused_stretch = length or 0, Stretch(self.stretch.before)
        elif length is not None and len(self.part) >= length:
            self.is_payload_used = self.is_complete = True
            self.mark()
            if self.has_seam:
                self.print_line(f"seam {self.pid} {self.lines.count}")
            self.has_seam, self.has_gap = False, len(self.part) > length
            self.is_behind_gap |= self.has_gap
            self.lines.read(self.part[:length])

    def mark(self) -> None:
        """Print a gap marker if data are missing after the last PES packet. Reset the counts."""
        if self.has_gap and self.lines.count:
            self.lines.gap(self.lost, self.scrambled_there)
        self.has_gap, self.lost, self.scrambled_there = False, 0, 0

    def time(self) -> int | None:
        """Return the PTS of the PES packet that began last, if its header is now complete."""
        header = self.header
        if header is None or not has_times(header):
            return None
        self.header = None
        if header[:4] != PES_START or not has_pts(header):
            return None
        self.last_pts = decode_pts(header)
        self.waiting = [(jump, before, self.last_pts if after is None else after)
                        for jump, before, after in self.waiting]
        return self.last_pts

    def record_pcr(self, jump: Jump | None) -> None:
        if jump:
            self.waiting.append((jump, self.settled, None))
            self.print_jumps(jump.last)
        self.settled = self.last_pts

    def print_jumps(self, place: float) -> None:
        """Print pending jumps in excess of MAX_PENDING_JUMPS or older than MAX_PENDING_PACKETS."""
        while len(self.waiting) > MAX_PENDING_JUMPS or self.waiting \
                and place - self.waiting[0][0].last > MAX_PENDING_PACKETS:
            jump, before, after = self.waiting.pop(0)
            self.print_line(f"clock {self.pid} {number(before)} {number(after)} {jump.fields} "
                            f"{self.counters.word(jump, self.pid)}")

    def end(self) -> None:
        self.has_gap |= self.is_last_packet_wrong and self.stretch.before is not None
        if not self.refusal:
            self.mark()
        self.lines.end(self.packets, self.scrambled, self.refusal,
                       not self.is_complete, self.last_pts)
