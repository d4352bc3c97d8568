"""Read the output of `subttx survey`: maps, pictures, languages, packets of each PID."""
from __future__ import annotations

import dataclasses
import subprocess
import sys
from typing import Callable, Collection, Iterable, Iterator, NamedTuple, Sequence

from ..common.command_line import (
    ProgramInterrupted, decode_page, escape_hidden, format_pid, make_stream_options)
from ..formats.teletext import Page, page_name
from .packets import GapMarker, PCRStep, PES, PacketRun, Packets, PageChange, Texts
from .pictures import VideoLead
from .steps import StepRange


# The manual describes each output line. Unknown lines of a later version are skipped.

VERSION = "1"
DEFAULT_PAGE: Page = (0, 0x88)
TIME_FILLING = 0xFF  # the number of no page
MAX_PAGES = 12  # maximum number of pages in a line
MAX_SURVEYED_PAGES = 8  # maximum number of pages of one call
PAGE_LINES = {"pes", "rows", "strays", "set"}  # lines that belong to one page
START_LINES = 1000  # number of lines to read after a page is known, to find further pages
SUBTITLE_KINDS = (2, 5)
KINDS = {1: "initial page", 2: "subtitles", 3: "additional information", 4: "programme schedule",
         5: "subtitles for the hard of hearing"}
MAX_PCR_PIDS = 8  # maximum number of PCR PIDs of a programme to remember
HIT = b"\xa0"  # a space whose byte had even parity
NO_CHARACTERS = bytes(range(0x21))


class Announced(NamedTuple):
    """A page that a Teletext descriptor announces."""

    page: Page
    language: str
    kind: int

    def line(self) -> str:
        return f"page {page_name(*self.page)} ({escape_hidden(self.language)}, " \
            f"{KINDS.get(self.kind, 'of an unknown kind')})"


@dataclasses.dataclass
class ProgramMap:
    """A PMT: the stream_type of each PID, and its Teletext pages."""

    number: int
    pcr_pid: int
    kinds: dict[int, int] = dataclasses.field(default_factory=dict)
    pages: dict[int, list[Announced]] = dataclasses.field(default_factory=dict)
    after: int | None = None  # the programme's last PCR before this PMT


@dataclasses.dataclass
class Video:
    """The pictures of a video PID from the first random access point to the next."""

    skipped: int = 0
    pictures: list[int | None] = dataclasses.field(default_factory=list)  # PTS of each picture
    lost: int = 0
    scrambled: int = 0
    is_cut: bool = False  # whether the recording ends before the next random access point
    form: str = ""  # group of pictures: closed, open or unknown; empty if not printed


def describe_pid(packets: Packets, programmes: Iterable[ProgramMap]) -> str:
    """Return a line with the pages that are announced and sent on a PID."""
    announced = dict.fromkeys(f"{page.line()} in programme {program_map.number}"
                              for program_map in programmes
                              for page in program_map.pages.get(packets.pid, []))
    pages = sorted(packets.header_counts)
    more = [f"and {len(pages) - MAX_PAGES} more"] if len(pages) > MAX_PAGES else []
    return f"{format_pid(packets.pid)}: the PMT announces {', '.join(announced) or 'nothing'}; " \
        f"subtitle pages sent: {' '.join(pages[:MAX_PAGES] + more) or 'none'}"


def parse_optional_number(word: str) -> int | None:
    return None if word == "-" else int(word)


def parse_rows(word: str) -> Texts:
    """Parse rows such as `22:2020..,23:..`; `-` means no rows."""
    return () if word == "-" else tuple(
        (int(row), bytes.fromhex(cells)) for row, _, cells in (
            item.partition(":") for item in word.split(",")))


class Survey:
    """The output of `survey` about a recording, or about its first part until the rest is read."""

    def __init__(self) -> None:
        self.size: int | None = None  # TS packet size, or 0 for a PES file
        self.head = b""
        self.skipped = 0
        self.is_complete = False
        self.unexpected_line = ""  # the line that reports a wrong version or a failure, if any
        self.programmes: list[ProgramMap] = []
        self.pcr_pids: dict[int, list[int]] = {}  # PCR PIDs of each programme, most recent last
        self.by_pid: dict[int, Packets] = {}
        self.videos: dict[int, Video] = {}
        self.leads: dict[tuple[int, int], list[VideoLead]] = {}  # keys: PIDs of Teletext and video
        self.steps: dict[int, list[StepRange]] = {}  # keys: PIDs of video
        self.clocks: dict[int, tuple[int, int]] = {}  # first and last PCR of each PCR PID

    def read_line(self, line: str) -> None:
        """Parse a line of the output of `survey`."""
        word, *rest = line.split(" ")
        parser = getattr(self, f"parse_{word}", None)
        if parser:
            parser(*rest)

    def get_packets(self, pid: str) -> Packets:
        return self.by_pid.setdefault(int(pid), Packets(int(pid)))

    def parse_survey(self, version: str, *_: str) -> None:
        if version != VERSION:
            self.unexpected_line = f"survey {version}"

    def parse_fault(self, *args: str) -> None:
        self.unexpected_line = " ".join(("fault", *args))

    def parse_usage(self, *args: str) -> None:
        self.unexpected_line = " ".join(("usage", *args))

    def parse_refused(self, *args: str) -> None:
        self.unexpected_line = " ".join(("refused", *args))

    def parse_head(self, data: str = "", *_: str) -> None:
        self.head = bytes.fromhex(data)

    def parse_size(self, size: str, *_: str) -> None:
        self.size = int(size)

    def parse_programme(self, number: str, clock: str, *_: str) -> None:
        pids = self.pcr_pids.setdefault(int(number), [])
        known = (self.clocks[pid][1] for pid in (int(clock), *reversed(pids)) if pid in self.clocks)
        self.programmes.append(ProgramMap(int(number), int(clock), after=next(known, None)))
        if int(clock) in pids:
            pids.remove(int(clock))
        pids[:] = [*pids, int(clock)][-MAX_PCR_PIDS:]

    def parse_stream(self, pid: str, kind: str, *_: str) -> None:
        self.programmes[-1].kinds[int(pid)] = int(kind)

    def parse_announce(self, pid: str, page: str, language: str, kind: str, *_: str) -> None:
        escape_hidden = decode_page(page) or (int(page[0]) % 8, TIME_FILLING)
        self.programmes[-1].pages.setdefault(int(pid), []).append(
            Announced(escape_hidden, bytes.fromhex(language).decode("latin-1"), int(kind)))

    def parse_teletext(self, pid: str, *_: str) -> None:
        self.get_packets(pid)

    def parse_sub(self, pid: str, page: str, count: str = "1", *_: str) -> None:
        self.get_packets(pid).header_counts[page] = int(count)

    parse_subs = parse_sub

    def parse_pes(self, pid: str, first: str, count: str, pts: str, step: str, actions: str,
                  units: str, fault: str, *_: str) -> None:
        flags, control = map(sys.intern, actions.split("/"))  # most of these strings are equal
        self.get_packets(pid).runs.append(PacketRun(int(first), int(count),
                                                    parse_optional_number(pts),
                                                    int(step), flags,
                                                    control, int(units), int(fault)))

    def parse_rows(self, pid: str, number: str, rows: str, *_: str) -> None:
        packets, texts, behind = self.get_packets(pid), parse_rows(rows), int(number)
        pts = packets.runs[-1].last
        assert pts is not None
        packets.decoded_rows.append((behind, texts))
        plain = tuple((row, cells) for row, cells in (
            (row, cells.replace(HIT, b" ")) for row, cells in texts) if cells.strip(b" "))
        if not packets.changes or packets.changes[-1].rows != plain:
            letters = b"".join(cells for _, cells in plain).translate(None, NO_CHARACTERS)
            # If the rows are equal, keep only one object.
            stored_rows = texts if plain == texts else plain
            packets.changes.append(PageChange(pts, letters, behind, stored_rows))

    def parse_strays(self, pid: str, number: str, rows: str, *_: str) -> None:
        self.get_packets(pid).stray_rows.append((int(number), parse_rows(rows)))

    def parse_gap(self, pid: str, number: str, lost: str, scrambled: str, *_: str) -> None:
        packets = self.get_packets(pid)
        before = next((run.last for run in reversed(packets.runs) if run.pts is not None), None)
        packets.gap_markers.append(GapMarker(int(number), before, int(lost), int(scrambled)))
        packets.runs.append(PacketRun(int(number), 1, None, 0, "m", ""))

    def parse_clock(self, pid: str, before: str, after: str, ticks: str, packets: str, usual: str,
                    usual_packets: str, counters: str, *_: str) -> None:
        self.get_packets(pid).pcr_steps.append(PCRStep(
            parse_optional_number(before), parse_optional_number(after), int(ticks), int(packets),
            int(usual), int(usual_packets), counters))

    def parse_ahead(self, pid: str, pts: str, ticks: str, *_: str) -> None:
        self.get_packets(pid).samples.append((int(pts), int(ticks)))

    def parse_pcr(self, pid: str, pcr: str, *_: str) -> None:
        known = self.clocks.get(int(pid), (int(pcr), 0))
        self.clocks[int(pid)] = known[0], int(pcr)

    def parse_set(self, pid: str, number: str, designation: str, region: str, option: str,
                  *_: str) -> None:
        self.get_packets(pid).character_sets.append((int(number), int(designation),
                                                     parse_optional_number(region),
                                                     parse_optional_number(option)))

    def parse_video(self, pid: str, passed: str, *_: str) -> None:
        self.videos[int(pid)] = Video(int(passed))

    def parse_picture(self, pid: str, pts: str, *_: str) -> None:
        self.videos[int(pid)].pictures.append(parse_optional_number(pts))

    def parse_seam(self, pid: str, number: str, *_: str) -> None:
        self.get_packets(pid).counter_jumps.append(int(number))

    def parse_group(self, pid: str, flagged: str, least: str, form: str, *_: str) -> None:
        self.videos[int(pid)].form = form

    def parse_lead(self, pid: str, pts: str, ticks: str, video: str, number: str, *_: str) -> None:
        self.leads.setdefault((int(pid), int(video)), []).append(
            VideoLead(int(pts), int(ticks), int(number)))

    def parse_steps(self, pid: str, *words: str) -> None:
        least, least_at, most, most_at = map(int, words[:4])
        self.steps.setdefault(int(pid), []).append(StepRange(least, least_at, most, most_at))

    def parse_pictures(self, pid: str, lost: str, scrambled: str, passed: str = "",
                       *_: str) -> None:
        video = self.videos.setdefault(int(pid), Video(int(passed or 0)))
        video.lost, video.scrambled = int(lost), int(scrambled)
        video.is_cut = passed != ""

    def parse_damaged(self, pid: str, number: str, reason: str, *_: str) -> None:
        packets = self.get_packets(pid)
        packets.damage = f"PES packet {number} " + {
            "start": "does not begin with 00 00 01 BD", "cut": "is incomplete"}[reason]
        packets.damage_faults = {"start": (31, 32), "cut": (30,)}[reason]

    def parse_end(self, pid: str, *numbers: str) -> None:
        pid_packets = self.get_packets(pid)
        packets, scrambled, refusal, cut, begun = numbers[2:7]
        pid_packets.packets, pid_packets.scrambled = int(packets), int(scrambled)
        pid_packets.refusal = int(refusal)
        pid_packets.is_cut, pid_packets.last_pts = cut == "1", parse_optional_number(begun)

    def parse_over(self, skipped: str, *_: str) -> None:
        self.skipped, self.is_complete = int(skipped), True

    def find_programmes(self, pid: int) -> list[ProgramMap]:
        """Return the PMTs that contain a PID."""
        return [program_map for program_map in self.programmes if pid in program_map.kinds]

    def list_pages(self, pid: int | None) -> dict[Page, list[str]]:
        """Return the subtitle pages that are announced, or sent with C6 set, and their announced
        languages. If `pid` is given, consider only that PID."""
        languages: dict[Page, dict[str, None]] = {
            page: {} for packets in self.by_pid.values() if pid in (None, packets.pid)
            for page in filter(None, map(decode_page, packets.header_counts))}
        for program_map in self.programmes:
            for announced_pid, announcements in program_map.pages.items():
                for announced in announcements:
                    if announced.kind in SUBTITLE_KINDS and pid in (None, announced_pid) and \
                            announced.page[1] != TIME_FILLING:
                        languages.setdefault(announced.page, {})[announced.language] = None
        return {page: [*languages[page]] for page in sorted(languages,
                                                            key=lambda page: page_name(*page))}

    def get_pcr_range(self, pid: int) -> tuple[int, int] | None:
        """Return the first and last PCR of the programme of a PID, if they are known."""
        known = self.find_programmes(pid)
        return self.clocks.get(known[-1].pcr_pid) if known else None

    def lines(self) -> list[str]:
        """Return a line for each PID with Teletext."""
        return [describe_pid(self.by_pid[pid], self.find_programmes(pid))
                for pid in sorted(self.by_pid)]

    def refuse(self, status: int) -> None:
        """Raise `ProgramInterrupted` if the output is incomplete or the exit status is not 0."""
        if self.unexpected_line or status or not self.is_complete:
            raise ProgramInterrupted("survey gave no complete result: "
                                     f"{self.unexpected_line or 'it did not end'}, status "
                                     f"{status}", status)


def survey(program: str, name: str, page: Page, pid: int | None = None,
           look: Callable[[], None] = lambda: None) -> Survey:
    """Run `survey` on a recording and return its output; call `look` after each line."""
    answer = Survey()
    for _ in read_lines(answer, program, name, [page], pid):
        look()
    return answer


def read_lines(answer: Survey, program: str, name: str, pages: Sequence[Page],
               pid: int | None = None, skipped: Collection[str] = ()) -> Iterator[str]:
    """Run `survey` on a recording and read its output, except lines that begin with one of the
    `skipped` words, into `answer`. Yield each line. Raise `ProgramInterrupted` if the output is
    incomplete."""
    options = [word for page in pages for word in ("--page", page_name(*page))]
    words = [program, "survey", *options, *make_stream_options(pid), "--", name]
    with subprocess.Popen(words, stdout=subprocess.PIPE, encoding="ascii",
                          errors="replace") as process:
        assert process.stdout
        for line in process.stdout:
            if line.partition(" ")[0] not in skipped:
                answer.read_line(line.rstrip("\n"))
            yield line
    answer.refuse(process.returncode)


def find_first_pages(program: str, name: str, pid: int | None) -> list[Page]:
    """Return the subtitle pages at the start of a recording, or page 888 if the whole recording has
    none. Stop `survey` soon after the first page is known."""
    answer, count = Survey(), 0
    for _ in read_lines(answer, program, name, [DEFAULT_PAGE], pid):
        count += count > 0 or bool(answer.list_pages(pid))
        if count == START_LINES:
            break
    return [*answer.list_pages(pid)] or [DEFAULT_PAGE]


def store_survey(program: str, name: str, pages: Sequence[Page], pid: int | None, path: str,
                 look: Callable[[], None]) -> Survey:
    """Run `survey` for several pages of a recording, and store its output in a file. Return the
    output without the lines of single pages, which need much memory."""
    answer = Survey()
    with open(path, "w", encoding="utf-8") as file:
        for line in read_lines(answer, program, name, pages, pid, PAGE_LINES):
            file.write(line)
            look()
    return answer


def read_stored_survey(path: str, page: Page) -> Survey:
    """Return the stored output of `survey` about a page."""
    answer, is_own = Survey(), True
    with open(path, encoding="utf-8") as file:
        for line in file:
            word, _, name = line.rstrip("\n").partition(" ")
            if word == "page":
                is_own = name == page_name(*page)
            elif is_own or word not in PAGE_LINES:
                answer.read_line(line.rstrip("\n"))
    return answer


def survey_runs(program: str, name: str, page: Page) -> Iterator[tuple[PacketRun, Texts | None]]:
    """Yield the runs of PES packets of a file without storing them. Each run has the rows that
    `survey` printed after its first PES packet, or `None`."""
    answer = Survey()
    packets = answer.get_packets(str(PES))
    for _ in read_lines(answer, program, name, [page]):
        if len(packets.runs) > 1:
            yield pop_first_run(packets)
    if packets.runs:
        yield pop_first_run(packets)


def pop_first_run(packets: Packets) -> tuple[PacketRun, Texts | None]:
    """Remove and return the first run of packets, and the rows printed after its first packet."""
    run, held = packets.runs.pop(0), dict(packets.decoded_rows)
    packets.decoded_rows.clear()
    del packets.changes[:-1]
    return run, held.get(run.first)


# Language codes of GSI blocks (EBU Tech 3264, field LC), and of PMTs (ISO 639-2).

CODES = {
    0x01: "sqi alb", 0x02: "bre", 0x03: "cat", 0x04: "hrv scr", 0x05: "cym wel", 0x06: "ces cze",
    0x07: "dan", 0x08: "deu ger", 0x09: "eng", 0x0A: "spa", 0x0B: "epo", 0x0C: "est",
    0x0D: "eus baq", 0x0E: "fao", 0x0F: "fra fre", 0x10: "fry", 0x11: "gle", 0x12: "gla",
    0x13: "glg", 0x14: "isl ice", 0x15: "ita", 0x16: "smi sme", 0x17: "lat", 0x18: "lav",
    0x19: "ltz", 0x1A: "lit", 0x1B: "hun", 0x1C: "mlt", 0x1D: "nld dut", 0x1E: "nor nob nno",
    0x1F: "oci", 0x20: "pol", 0x21: "por", 0x22: "ron rum", 0x23: "roh", 0x24: "srp scc",
    0x25: "slk slo", 0x26: "slv", 0x27: "fin", 0x28: "swe", 0x29: "tur", 0x2A: "nld dut",
    0x2B: "wln", 0x45: "zul", 0x46: "vie", 0x47: "uzb", 0x48: "urd", 0x49: "ukr", 0x4A: "tha",
    0x56: "rus", 0x5A: "fas per", 0x63: "mkd mac", 0x65: "kor", 0x69: "jpn", 0x6A: "ind",
    0x6B: "hin", 0x6C: "heb", 0x70: "ell gre", 0x71: "kat geo", 0x75: "zho chi", 0x77: "bul",
    0x78: "ben", 0x79: "bel", 0x7D: "hye arm", 0x7E: "ara",
}
ANY_LANGUAGE_CODES = {"und", "mul"}  # codes for an undefined language and for several languages


def list_language_codes(code: str) -> list[str]:
    """Return the PMT language codes for an LC of two hexadecimal digits. The list may be empty."""
    try:
        return CODES.get(int(code, 16), "").split()
    except ValueError:
        return []
