"""Read a recording, find the PID of the page, and copy a pipe to a file."""
from __future__ import annotations

import collections
import functools
import hashlib
import os
import stat
import subprocess
from typing import Callable, Collection, Iterable, Iterator, Sequence

from ..clock.start import NoFirstPicture, has_first_picture
from ..common.command_line import (
    PACKET_SIZES, Stop, counted, escape_hidden, format_pid, make_stream_options, was)
from ..common.files import (
    BackgroundChecksum, STANDARD, SummedFile, read_first_bytes, add_name_to_errors, read_chunks)
from ..common.times import subtract_pts
from ..formats.stl import describe_other_file
from ..formats.teletext import START
from ..request.commands import (
    CommandPaths, KEPT_PES, KEPT_TS, Listener, OutputNames, Printer, make_command)
from ..request.request import PID_CHOICE, Request, Selection, Unclear, WrongInput
from ..stream.gaps import (
    LossPlace, describe_gap_markers, explain_refusal, find_loss_places, find_recorded_range)
from ..stream.packets import HEADER, PES, PTSPair, Packets, Range
from ..stream.proved import (
    ComparedItems, PacketsCommand, collect_items, find_unproved_number, has_proved_numbers)
from ..stream.survey import Survey, survey
from .dates import find_date
from .notices import Notice, find_announcements, refuse_unsent_page, find_silent_pids


MAX_PAGES = 3  # maximum number of other pages to suggest
# maximum number of bytes to copy from a pipe: two hours at 35 Mbit/s
MAX_PIPED_BYTES = 32_000_000_000


def copy_piped(name: str, path: str, printer: Printer) -> SummedFile:
    """Copy all bytes from a pipe to a file, which is judged later. Return its size and checksum."""
    source = "standard input" if name == STANDARD else name
    digest, count = hashlib.sha256(), 0
    with open(path, "wb") as file:
        for data in read_chunks(name, may_be_pipe=True):
            count += len(data)
            if count > MAX_PIPED_BYTES:
                raise Stop(f"{source} has not ended after {MAX_PIPED_BYTES:,} bytes: judge an "
                           "endless feed with tools/air")
            digest.update(data)
            with add_name_to_errors(path):
                file.write(data)
                file.flush()
            printer.show_progress(lambda: f"{source}: {count / 1e6:,.1f} MB")
    return SummedFile(name, count, digest.hexdigest())


# In Teletext, a PES header has 45 bytes (EN 300 472): 9 fixed bytes, and 36 (24 hex) more. The last
# fixed byte is PES_header_data_length, the number of header bytes that follow.
HEADER_LENGTH_OFFSET, FIXED_HEADER_BYTES, TELETEXT = 8, 9, 0x24


def read_pes_header(program: str, path: str, pid: int, size: int) -> bytes:
    """Return the first nine bytes of a PID's first PES packet, as `subttx extract` writes it."""
    reader, writer = os.pipe()
    arguments = [program, "extract", *make_stream_options(pid, size), "--", path,
                 f"/dev/fd/{writer}"]
    with open(reader, "rb") as packets:
        try:
            call = subprocess.Popen(arguments, pass_fds=(writer,),
                                    stdout=subprocess.DEVNULL, stderr=subprocess.DEVNULL)
        finally:
            os.close(writer)
        with call:
            header = packets.read(FIXED_HEADER_BYTES)
            call.kill()
    return header


def check_pes_header(header: bytes, pid: int) -> str:
    """Return a message if a PES header has the wrong length for Teletext, else an empty string."""
    if not header.startswith(START[:3]) \
            or header[HEADER_LENGTH_OFFSET:FIXED_HEADER_BYTES] in (b"", bytes([TELETEXT])):
        return ""
    length, pid_text = header[HEADER_LENGTH_OFFSET], f" of {format_pid(pid)}" if pid != PES else ""
    return (f"the PES header{pid_text} has {FIXED_HEADER_BYTES + length} bytes "
            f"(PES_header_data_length {length:02X}), but EN 300 472 requires "
            f"{FIXED_HEADER_BYTES + TELETEXT} ({TELETEXT:02X})")


def is_recording(path: str) -> bool:
    """Return whether a file begins like a transport stream or a Teletext PES packet."""
    head = read_first_bytes(path, 209)
    return head.startswith(START) or any(
        head[at:at + size + 1:size] == b"GG" for at in (0, 4) for size in PACKET_SIZES)


def refuse_files(request: Request) -> None:
    """Raise `Unclear` if the subtitle file is missing or is no subtitle file. Raise `OSError` if
    the recording is missing."""
    if not os.path.isfile(request.stl_path):
        name = request.stl.removeprefix("./") if request.stl.startswith("./-") else request.stl
        raise WrongInput(f"{name or 'an empty name'} does not exist or is not a file")
    if is_recording(request.stl_path):
        raise WrongInput(f"{request.stl} is a recording: give the subtitle file before it")
    if other_text := describe_other_file(request.stl_path):
        raise WrongInput(f"{request.stl} is {other_text}")
    if request.recording is not None and request.recording != STANDARD:
        os.stat(request.recording)


def refuse_stream(survey: Survey, name: str) -> None:
    """Raise `Stop` or `Unclear` if a file is not a recording that can contain Teletext."""
    head = survey.head
    if not head:
        raise Stop(f"{name} is empty")
    if head[3:6] == b"STL":
        raise Stop(f"{name} is a subtitle file: give the recording after the subtitle file")
    if survey.size is None and head.startswith(START[:3]) and head[3:4] not in (b"", START[3:]):
        raise Stop(f"{name} has PES packets of another kind than Teletext: stream_id "
                   f"{head[3]:02X} instead of BD")
    if survey.size is None:
        raise WrongInput(f"{name} is not a transport stream: packets of 188 bytes that begin with "
                         "47")


def find_unreadable_packets(survey: Survey) -> list[Packets]:
    """Return the packets of the PIDs without a readable PES packet, in order of the PIDs."""
    return [packets for _, packets in sorted(survey.by_pid.items())
            if not packets.count and packets.packets]


class Recording:
    """A recording to judge. `packets` contains the packets of the PID with the page. `path` is the
    path of the recording, or of its copy if the recording comes from a pipe."""

    def __init__(self, request: Request, command_paths: CommandPaths, names: OutputNames,
                 listener: Listener, times: Sequence[tuple[int, int]] = ()) -> None:
        assert request.recording is not None
        self.request, self.command_paths = request, command_paths
        self.names, self.listener = names, listener
        self.name = request.recording
        self.times = times  # in-cue and out-cue of each subtitle, in frames
        self.is_piped = self.name == STANDARD or not stat.S_ISREG(os.stat(self.name).st_mode)
        self.path = names.recording_path if self.is_piped else \
            names.make_utf_8_path(self.name, "given")
        self.survey, self.packets = Survey(), Packets(PES)
        self.file: SummedFile | None = None
        self.compared: dict[int, ComparedItems] = {}  # PES packets of each PID

    @functools.cached_property
    def date(self) -> bytes:
        """Return the date of the recording as YYMMDD."""
        return find_date(self.path, self.survey.size or 0)

    def read(self, is_summed: bool) -> None:
        """Read the whole recording, and find the packets of the page. If `is_summed` is true,
        compute the SHA-256 of the recording."""
        self.read_contents(is_summed)
        self.choose_packets()

    def read_contents(self, is_summed: bool, run_survey: Callable[[], Survey] | None = None
                      ) -> None:
        """Read the whole recording with `run_survey`, by default for the requested page."""
        if self.is_piped:
            self.file = copy_piped(self.name, self.path, self.listener.printer)
        background_sum = BackgroundChecksum(self.name) if is_summed and not self.is_piped else None
        self.survey = run_survey() if run_survey else self.run_survey(self.request.pid)
        self.file = background_sum.result() if background_sum else self.file
        refuse_stream(self.survey, self.name)

    def run_survey(self, pid: int | None) -> Survey:
        return survey(self.command_paths.program_path, self.path, self.request.page, pid,
                      look=self.show_progress)

    def choose_packets(self) -> None:
        """Find the packets of the page, and report losses."""
        self.packets = self.find_packets()
        self.count_from_first_packet()
        self.print_losses()

    def count_from_first_packet(self) -> None:
        """Read the recording again with the chosen PID if `survey` has recognised this PID only
        after its first PES packets, and so does not count as `check` does."""
        is_chosen = self.is_stream and self.request.pid is None
        if is_chosen and not has_proved_numbers(self.make_packets_command(), self.packets):
            pid, other_pids = self.packets.pid, self.survey.by_pid
            self.survey = self.run_survey(pid)
            self.packets = self.survey.get_packets(str(pid))
            self.survey.by_pid = {**other_pids, pid: self.packets}

    def make_packets_command(self) -> PacketsCommand:
        """Return the command with which the program lists the PES packets of the page's PID."""
        return PacketsCommand(self.command_paths.program_path, self.path,
                              self.list_program_options())

    def find_unproved_number(self, pes: Range) -> int | None:
        """Compare the PES packets of a range with the output of `packets`, unless they were
        compared for another page. Return the number of the first one that was not compared, if any.
        """
        items, pid = collect_items(self.packets, pes), self.packets.pid
        if pid in self.compared and self.compared[pid].includes(items):
            return None
        number = find_unproved_number(self.make_packets_command(), self.packets, pes)
        if number is None:
            self.compared[pid] = items
        return number

    def show_progress(self) -> None:
        self.listener.printer.show_progress(lambda: self.name)

    def find_packets(self) -> Packets:
        """Return the packets of the requested PID, or of the only PID that carries the page."""
        page, by_pid = self.request.page_name, self.survey.by_pid
        if self.survey.size == PES:
            return by_pid.setdefault(PES, Packets(PES))
        if self.request.pid is not None:
            packets = by_pid.setdefault(self.request.pid, Packets(self.request.pid))
            if not packets.has_page:
                refuse_unsent_page(self.request, self.survey, self.times)
            if packets.count:
                return packets
            explanation = "; ".join([f"{self.name}: {explain_refusal(packets)}", *filter(None, [
                self.header_problem(packets)])])
            raise Unclear(self.append_contents(explanation), *self.suggest_other_pids())
        pids = [by_pid[pid] for pid in sorted(by_pid) if by_pid[pid].has_page]
        self.refuse_silent_programmes({item.pid for item in pids})
        if len(pids) == 1:
            self.print_choice(pids[0], "no other PID sends the page")
            return pids[0]
        if not pids:
            refuse_unsent_page(self.request, self.survey, self.times)
            reasons = self.list_unreadable_reasons()
            if not by_pid and not reasons:
                raise Unclear(f"{self.name} contains no Teletext")
            explanation = "; ".join([f"{self.name} has no header of page {page}", *reasons])
            raise Unclear(self.append_contents(explanation),
                          *self.suggest_other_pages(by_pid.values()))
        raise Unclear(self.append_contents(f"page {page} is sent on {len(pids)} PIDs of "
                                           f"{self.name}"),
                      *(self.suggest_call("--pid", f"0x{item.pid:X}") for item in pids))

    def refuse_silent_programmes(self, carriers: Collection[int]) -> None:
        """Raise `Unclear` if several programmes announce the page but some never send it. Only the
        operator knows which programme to judge."""
        announced = [*find_announcements(self.survey.programmes, self.request.page)]
        silent_pids = find_silent_pids(announced, carriers)
        if silent_pids and self.request.pes is None:
            raise Unclear(self.append_contents(
                f"page {self.request.page_name} is announced by several programmes of {self.name}, "
                f"but sent only on {' and '.join(map(format_pid, sorted(carriers)))}, not on "
                f"{' and '.join(map(format_pid, sorted(silent_pids)))}"),
                          *(self.suggest_call("--pid", f"0x{pid:X}")
                            for pid in sorted({*carriers} | silent_pids)))

    def print_choice(self, packets: Packets, explanation: str) -> None:
        """Report the chosen PID, and the reason for the choice."""
        header = sum(run.length for run in packets.list_runs_with_pts() if HEADER in run.flags)
        line = f"{format_pid(packets.pid)}: {header} of {counted(packets.count, 'PES packet')} " \
            f"{'has' if header == 1 else 'have'} a header of page {self.request.page_name}; " \
            f"{explanation}"
        self.listener.add_selection(Selection(PID_CHOICE, f"0x{packets.pid:X}", line, header,
                                              packets.count))

    def list_unreadable_reasons(self) -> list[str]:
        """Return reasons why PIDs can't be read as Teletext, for example because of scrambling."""
        return [words for packets in find_unreadable_packets(self.survey)
                for words in (explain_refusal(packets), self.header_problem(packets)) if words]

    def header_problem(self, packets: Packets) -> str:
        """Return a message if a PID's first PES header has the wrong length, or else ""."""
        if packets.pid != PES and not packets.packets:
            return ""
        header = self.survey.head if packets.pid == PES else read_pes_header(
            self.command_paths.program_path, self.path, packets.pid, self.survey.size or 0)
        return check_pes_header(header, packets.pid)

    def print_losses(self) -> None:
        """Report damage, skipped bytes, and the places where packets are missing."""
        packets = self.packets
        if packets.damage:
            self.listener.print_line(f"{self.name}: {packets.damage}; the recording was read up to "
                                     "this point")
        if not self.is_stream:
            return
        explanation = explain_refusal(packets)
        if explanation:
            self.listener.print_line(explanation)
        if self.survey.skipped:
            self.listener.print_line(f"{counted(self.survey.skipped, 'byte')} outside TS packets "
                                     f"{was(self.survey.skipped)} skipped")
        for line in describe_gap_markers(packets):
            self.listener.print_line(line)

    @property
    def is_stream(self) -> bool:
        """Return whether the recording is a transport stream."""
        return bool(self.survey.size)

    def stream(self) -> tuple[int, int] | None:
        """Return the PID and the TS packet size in bytes, or `None` for a file of PES packets."""
        return (self.packets.pid, self.survey.size or 0) if self.is_stream else None

    def list_program_options(self) -> list[str]:
        """Return the options with which the program reads the recording."""
        stream = self.stream()
        return make_stream_options(*stream) if stream else []

    @property
    def display_name(self) -> str:
        """Return the name of the recording or, if it came from a pipe, the name of its copy."""
        if not self.is_piped:
            return self.name
        return self.names.make_display_path(KEPT_TS if self.is_stream else KEPT_PES)

    @property
    def kept_ending(self) -> str | None:
        """Return the file name extension of the copy that --keep makes. The copy contains all data
        from a pipe, or the PES packets of a transport stream. Return `None` for a file of PES
        packets, which needs no copy."""
        if self.is_piped and self.is_stream:
            return KEPT_TS
        return KEPT_PES if self.is_piped or self.is_stream else None

    def read_kept_data(self) -> Iterator[bytes]:
        """Yield the bytes of the copy that --keep makes."""
        if self.is_piped:
            yield from read_chunks(self.path)
            return
        pes_path = self.names.make_temporary_path("kept.pes")
        process = subprocess.run([self.command_paths.program_path, "extract",
                                  *self.list_program_options(), "--",
                                  self.path, pes_path], stdout=subprocess.DEVNULL,
                                 check=False)
        if process.returncode != 1:  # with status 1, the PES packets before a refused one are kept
            process.check_returncode()
        yield from read_chunks(pes_path)

    def list_losses(self, jumps: Iterable[PTSPair] = ()) -> list[LossPlace]:
        """Return the places where packets are missing. They include `jumps`, the announced jumps of
        the continuity counter, which may hide a loss."""
        return find_loss_places(self.packets, jumps)

    def find_recorded_pts(self) -> tuple[int, int] | None:
        """Return the first and last PTS of the range in which, according to the PCR, all packets of
        the PID were recorded. Return `None` if there is no PCR."""
        return find_recorded_range(self.survey, self.packets)

    def find_last_time(self) -> int | None:
        """Return the last PTS or the last PCR, whichever is later."""
        clock, pts = self.survey.get_pcr_range(self.packets.pid), self.packets.last_pts
        known = [item for item in (pts, clock and clock[1]) if item is not None]
        return max(known, default=None, key=functools.partial(subtract_pts, known[0])) \
            if known else None

    def find_notices(self) -> list[Notice]:
        """Return warnings if the recording is damaged or ends within a PES packet."""
        notices = list[Notice]()
        is_open = self.packets.is_cut and not self.packets.refusal
        if self.is_stream and is_open:
            notices.append(Notice("cut", f"{escape_hidden(self.name)} ends within a PES packet of "
                                  "the page's PID, which is not judged"))
        if self.packets.damage:
            notices.append(Notice("cut", f"{escape_hidden(self.name)}: {self.packets.damage}; "
                                  "the recording was read up to this point"))
        return notices

    def suggest_other_pids(self) -> list[str]:
        """Return the suggested commands with other PIDs."""
        known = [f"0x{pid:X}" for pid, packets in sorted(self.survey.by_pid.items())
                 if self.request.page_name in packets.header_counts]
        return [self.suggest_call("--pid", word)
                for word in known or ["PID"] * bool(self.survey.by_pid)]

    def has_picture(self) -> bool:
        """Return whether the recording has a first picture, which `--start` needs."""
        return self.is_stream and has_first_picture(self.survey, self.packets.pid)

    def make_picture_error(self, reason: NoFirstPicture) -> Unclear:
        return Unclear(f"--start cannot be used with {self.name}: {reason}",
                       self.suggest_call("--origin", "T"))

    def suggest_call(self, *more: str) -> str:
        return make_command(self.request, self.command_paths, *more)

    def suggest_other_pages(self, several: Iterable[Packets]) -> Iterator[str]:
        """Return suggested commands for the other pages on these PIDs. The page with the most
        headers comes first."""
        counts = collections.Counter[str]()
        for item in several:
            counts.update(item.header_counts)
        del counts[self.request.page_name]
        return (self.suggest_call("--page", name) for name, _ in counts.most_common(MAX_PAGES))

    def append_contents(self, reason: str) -> str:
        """Return a reason, followed by a list of the Teletext pages in the recording."""
        if self.request.pid is not None:
            self.survey = self.run_survey(None)
        return "\n".join([reason, *(self.survey.lines() or ["no PID has Teletext"])])
