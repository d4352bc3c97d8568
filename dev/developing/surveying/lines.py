"""Compute the lines of `survey` for a recording, in order."""
from __future__ import annotations

from collections import defaultdict
from math import inf

from developing.every_place.recordings import (
    TIME_STAMP, MAX_UNSEEN_PACKETS, SkippedBytes, find_packets)
from developing.every_place.reading import HEAD
from subtitles.common.times import subtract_pts
from subtitles.formats.teletext import START, Page
from .clocks import Clock, Counters, Seconds
from .packets import Packet, size_of
from .pictures import Video, is_video
from .tables import PAT, PMT, Programme, Sections, list_section_pids, read_programme
from .teletext import PesLines, Teletext

READ = 65_536  # number of bytes in one read of the program
MAX_PIDS, MAX_TABLES = 64, 128  # maximum number of PIDs of each kind, and of PIDs with tables
NO_PCR = NULL = 0x1FFF  # PCR_PID of a programme without PCR; PID of null packets
DATA_IDENTIFIERS = range(0x10, 0x20)


def survey(data: bytes, page: Page, pid: int | None = None, size: int | None = None) -> list[str]:
    """Return the lines of `survey`. The PID and the packet size are detected unless given."""
    lines = ["survey 1", f"head {data[:11].hex()}".rstrip()]
    if data.startswith(START) and data[4:5] != b"\x47":
        return lines + list_pes_file_lines(data, page)
    size, is_short = (size, False) if size else size_of(data)
    if size is None:
        return [*lines, "nothing", f"over {len(data)} 0"]
    return [*lines, f"size {size}", *Stream(page, pid, size).lines_of(data, is_short)]


def list_pes_file_lines(data: bytes, page: Page) -> list[str]:
    """Return the output lines of `survey` for a file of PES packets."""
    lines = ["size 0"]
    pes = PesLines(0, page, lines.append)
    place, damage = 0, ""
    while place < len(data) and not damage:
        head = data[place:place + HEAD]
        length = HEAD + int.from_bytes(head[4:], "big")
        if len(head) == HEAD and not head.startswith(START):
            damage = "start"
        elif len(head) < HEAD or len(data) - place < length:
            damage = "cut"
        else:
            pes.read(data[place:place + length])
            place += length
    pes.flush()
    if damage:
        lines.append(f"damaged 0 {pes.count} {damage}")
    pes.end(last_pts=pes.last_pts)
    return [*lines, "over 0 0"]


class Stream:
    """Collects the output lines of `survey` for a transport stream."""

    def __init__(self, page: Page, pid: int | None, size: int) -> None:
        self.page, self.asked, self.size = page, pid, size
        self.lines: list[str] = []
        self.print_line = self.lines.append
        self.place = 0  # position of the current TS packet
        self.counters = Counters()
        self.sections = {0: Sections()}
        self.printed: dict[tuple[bytes, int], bytes] = {}  # the last printed section of each PMT
        # The PCR_PID and the stream_type of each PID, from the last PMT that names the PID.
        self.pmt_entries: dict[int, tuple[int, int]] = defaultdict(lambda: (NO_PCR, 0))
        # The position of the TS packet in which that PMT ended.
        self.pmt_places: dict[int, int] = {}
        self.clocks: dict[int, Clock] = {}
        self.teletext: dict[int, Teletext] = {}
        self.video: dict[int, Video] = {}
        self.others: set[int] = set()  # PIDs without Teletext

    def lines_of(self, data: bytes, is_short: bool) -> list[str]:
        """Return the lines of `survey`.

        The last `pes` lines precede the other final lines, unless the recording is short or its
        length is a multiple of READ.
        """
        if self.asked is not None:
            self.follow(self.asked)
        skipped = 0
        for packet in find_packets(data, self.size):
            if isinstance(packet, SkippedBytes):
                skipped += packet.length
                is_loss = packet.length >= MAX_UNSEEN_PACKETS * self.size
                for teletext in self.teletext.values():
                    teletext.stretch.has_lost_packets |= is_loss
            elif packet.pid == NULL:
                self.place += 1
            else:
                self.take(Packet(packet.data))
        if not is_short and len(data) % READ:
            for teletext in self.teletext.values():
                teletext.lines.flush()
        self.end()
        read = TIME_STAMP * (self.size == 192) + skipped + self.place * self.size
        return [*self.lines, f"over {skipped + max(0, len(data) - read)} {self.place}"]

    def end(self) -> None:
        for teletext in self.teletext.values():
            teletext.print_jumps(inf)
        for video in self.video.values():
            video.end()
        for _, teletext in sorted(self.teletext.items()):
            teletext.end()
        for pid, clock in self.clocks.items():
            if clock.last is not None:
                self.print_line(f"pcr {pid} {clock.last}")

    def follow(self, pid: int) -> None:
        if pid not in self.teletext and len(self.teletext) < MAX_PIDS:
            self.print_line(f"teletext {pid}")
            self.teletext[pid] = Teletext(pid, self.page, self.print_line, self.counters)

    def take(self, packet: Packet) -> None:
        pid = packet.pid
        self.place += 1
        self.counters.take(packet, self.place)
        if pid in self.clocks:
            self.read_pcr(self.clocks[pid], packet)
        if pid in self.sections:
            for section in self.sections[pid].take(packet):
                self.read_section(pid, section)
        elif pid not in self.teletext and pid not in self.video:
            self.read_packet(packet)
        if pid in self.video:
            self.video[pid].take(packet)
        if pid in self.teletext:
            pts = self.teletext[pid].take(packet)
            if pts is not None:
                self.compare(self.teletext[pid], pts)
        for teletext in self.teletext.values():
            if teletext.waiting:
                teletext.print_jumps(self.place)

    def read_packet(self, packet: Packet) -> None:
        """Detect from the start of a PES packet whether its PID carries Teletext or video."""
        data = packet.payload
        if packet.is_wrong or not packet.begins or not packet.has_payload or len(data) < 4 \
                or not data.startswith(START[:3]):
            return
        if is_video(data):
            self.others.add(packet.pid)
            if len(self.video) < MAX_PIDS:
                self.video[packet.pid] = Video(packet.pid, self.print_line, self.pmt_entries)
        elif packet.pid in self.others:
            return
        elif not data.startswith(START):
            self.others.add(packet.pid)
        elif len(data) > 9 and len(data) > 9 + data[8]:
            if data[9 + data[8]] not in DATA_IDENTIFIERS:
                self.others.add(packet.pid)
            elif self.asked is None:
                self.follow(packet.pid)

    def read_section(self, pid: int, section: bytes) -> None:
        if pid == 0 and section[0] == PAT:
            for item in list_section_pids(section):
                if len(self.sections) < MAX_TABLES:
                    self.sections.setdefault(item, Sections())
        elif section[0] == PMT:
            name = section[3:5], section[6]  # program_number, section_number
            programme = read_programme(section) if section != self.printed.get(name) else None
            self.printed[name] = section
            if programme:
                self.read_pmt_programme(programme)

    def read_pmt_programme(self, programme: Programme) -> None:
        self.print_line(f"programme {programme.number} {programme.clock}")
        if programme.clock != NO_PCR and len(self.clocks) < MAX_PIDS:
            self.clocks.setdefault(programme.clock, Clock(programme.clock, self.print_line))
        for stream in programme.streams:
            self.print_line(f"stream {stream.pid} {stream.kind}")
            self.pmt_entries[stream.pid] = programme.clock, stream.kind
            self.pmt_places[stream.pid] = self.place
            for page in stream.announced:
                self.print_line(f"announce {stream.pid} {page}")
            if stream.announced and self.asked is None:
                self.follow(stream.pid)

    def read_pcr(self, clock: Clock, packet: Packet) -> None:
        if packet.is_discontinuity:
            clock.is_compared = False
        if packet.pcr is None:
            return
        jump = clock.take(packet.pcr, self.place)
        for pid, teletext in self.teletext.items():
            if self.pmt_entries[pid][0] == clock.pid:
                teletext.record_pcr(jump)

    def belongs_together(self, video: int, teletext: int) -> bool:
        """Return whether the last PMT that names the Teletext names the video too, or a later PMT
        with the same PCR_PID does."""
        pcr, own = self.pmt_entries[teletext][0], self.pmt_places.get(teletext)
        place = self.pmt_places.get(video)
        if own is None or place is None or self.pmt_entries[video][0] != pcr:
            return False
        return place == own or place > own and pcr != NO_PCR

    def compare(self, teletext: Teletext, pts: int) -> None:
        """Print how far a PTS is ahead of the programme's pictures and PCR."""
        pcr, _ = self.pmt_entries[teletext.pid]
        pids = [pid for pid in self.video if self.belongs_together(pid, teletext.pid)]
        video = self.video[pids[0]] if pids else None
        if video and video.decoding is not None and (video, video.number) != teletext.picture:
            if video != teletext.picture[0]:
                teletext.leads = Seconds()
            teletext.picture = video, video.number
            if teletext.leads.is_next(pts):
                self.print_line(f"lead {teletext.pid} {pts} {subtract_pts(video.decoding, pts)} "
                                f"{video.pid} {video.number}")
        clock = self.clocks.get(pcr) if pcr != NO_PCR else None
        if clock and clock.last is not None and clock.is_near_jump(self.place) \
                and not teletext.is_behind_gap and teletext.ahead_seconds.is_next(pts):
            self.print_line(f"ahead {teletext.pid} {pts} {subtract_pts(clock.last, pts)}")
