"""Convert the faults of a verdict to JSON values, and give hints on them."""
from __future__ import annotations

import itertools
from typing import Iterator, NamedTuple, Sequence

from ..clock.start import describe_largest_offset, find_largest_offset
from ..common.command_line import counted, was
from ..common.shapes import Members
from ..common.times import find_frame_of_day, format_frame, parse_frame, parse_time_code
from ..formats.listing import (
    BEGIN, CHARACTER, CONTENT, CONTROL, DISPLAY, END, FaultLine, GAP, TEXT_FAULTS,
    NamedFault, OFF_FRAME, PARITY, SKIPPED_PACKETS, SILENT, STL_FAULTS,
    FAULTS_WITH_CAUSE, read_meanings, read_named_meanings, remove_markup)
from ..formats.stl import NamedSubtitle, NEW_LINE, SubtitleFile, format_subtitle_name
from ..formats.teletext import (
    OPTION_BY_WORD, decode_character, read_character_bytes, make_character_table)
from ..request.request import Request
from ..stream.gaps import explain_refusal
from ..stream.pace import list_frame_rows
from ..stream.repeats import find_longest_gap, list_cue_frames, repeat_distance
from ..stream.packets import HEADER, PacketRun, Packets
from ..stream.receiver import HIT, OLD, Rows, Timeline
from .causes import CauseDescriber
from .check import FaultEnd
from .pages import SPACE, describe_code, format_page_text
from .part import Part
from .status import ERROR, WARNING
from .subtitles import OptionAdvice
from .transmissions import PageHeader, describe_effect, describe_header_faults, find_page_headers
from .verdict import Verdict


class FaultPlace(NamedTuple):
    """The place of a fault in the transmission."""

    pes: int | None  # number of the PES packet, or `None` between two packets
    pts: int | None  # PTS of the PES packet
    rows: Rows | None  # the page decoded after this packet
    headers: Sequence[PageHeader] = ()  # the page headers, if control bits are refused


NO_PLACE = FaultPlace(None, None, None)


def find_fault_place(fault: FaultLine, packets: Packets, timeline: Timeline | None,
                     expected: Rows | None = None) -> FaultPlace:
    """Return the place of a transmission fault. If a frame has several PES packets and `expected`
    is given, choose the last packet after which the faulty cell differs from the expected page."""
    if fault.pes is not None:
        return FaultPlace(fault.pes, packets.get_pts(fault.pes), None)
    if fault.frame is None or timeline is None:
        return NO_PLACE
    members = timeline.list_frame_runs(fault.frame)
    if not members:
        return FaultPlace(None, None, timeline.get_state_at(fault.frame).rows)
    # Without --within, fault 73 is reported for the first PES packet in a frame.
    if not timeline.within and fault.number == GAP:
        members = members[:1]
    if expected:
        members = [next((member for member in reversed(members)
                         if find_fault_code(fault, expected) != find_fault_code(
            fault, timeline.get_state_after(member.first).rows)), members[-1])]
    run = members[-1] if fault.packet is None else find_pes_packet(members, fault.packet)
    return FaultPlace(run.first, run.pts, timeline.get_state_after(members[-1].first).rows,
                      find_page_headers(run, timeline.get_state_after(run.first - 1))
                      if fault.number == CONTROL else ())


def find_pes_packet(members: Sequence[PacketRun], packet: int) -> PacketRun:
    """Return the PES packet that contains a Teletext packet. `members` has the PES packets of a
    frame. `packet` is the number of the Teletext packet among all those of this frame."""
    ends = itertools.accumulate(run.units for run in members)
    return next((run for run, end in zip(members, ends) if packet < end), members[-1])


def find_fault_code(fault: FaultLine, page: Rows) -> int | None:
    """Return the code of the cell that a fault refers to, if it is known."""
    return None if fault.row is None or fault.column is None else \
        find_code(page, fault.row, fault.column)


def find_code(rows: Rows | None, row: int, column: int) -> int | None:
    """Return the code of a cell, if it was received."""
    if rows is None or rows[row - 1][column] == OLD:
        return None
    return rows[row - 1][column] & 0x7F


HINTS_BY_NUMBER = {CHARACTER, OFF_FRAME, CONTROL, GAP, PARITY, SILENT}
HINTS_ON_PAGES = {DISPLAY, CONTENT}
LENGTH_FAULTS = {32, 35}  # wrong lengths of PES packets or of their headers
RANGE_FAULTS = {BEGIN, END}  # faults of a recording that begins late or ends early
FAULTS_WITH_HINT = HINTS_BY_NUMBER | HINTS_ON_PAGES | LENGTH_FAULTS | RANGE_FAULTS
DSC = slice(11, 12)  # the byte of the display standard code (DSC) in the GSI block


def list_hints(verdict: Verdict) -> Iterator[str]:
    """Yield a hint on the first fault with each number, in the order of the faults."""
    for part in verdict.parts:
        for number, fault in part.check_output.first_faults.items():
            if number in FAULTS_WITH_HINT and (words := describe_hint(fault, part, verdict)):
                yield f"{number}: {words}"


def describe_hint(fault: FaultLine, part: Part, verdict: Verdict) -> str:
    """Return a hint on a fault, or an empty string if there is none."""
    request = verdict.request
    if fault.number == CHARACTER:
        if not fault.block or fault.at is None:
            return ""
        return OptionAdvice(part.open_subtitle_file(), request.option).advise(fault.block, fault.at)
    if fault.number == DISPLAY:
        return describe_open_option(part.open_subtitle_file())
    if fault.number in LENGTH_FAULTS:
        return part.header_problem
    if fault.number in RANGE_FAULTS:
        return (describe_pid_end(part) if fault.number == END else "") or \
            describe_unrecorded(fault, part)
    if fault.number == CONTENT:
        return part.drawing_differences
    if part.pes is None or part.origin is None:
        return ""
    if fault.number == OFF_FRAME:
        return describe_largest_offset(find_largest_offset(part.list_pts(), part.origin))
    if fault.number == SILENT:
        return describe_silence(fault, part)
    if fault.number == GAP:
        times = [(subtitle.begin, subtitle.end) for subtitle in part.expected_pages().subtitles]
        return describe_longest_gap((part.list_pts(HEADER), part.list_pts()[-1:]), part.origin,
                                    request, part.check_output.fault_numbers, times)
    if fault.number == PARITY:
        return describe_parity_fault(fault, part)
    if part.keeping_headers:
        return part.keeping_headers.describe()
    return describe_header_faults(find_fault_place(fault, part.packets, part.decoded_pages).headers,
                                  request)


def describe_first_hint(fault: FaultLine, part: Part, verdict: Verdict) -> str:
    """Return the hint on the fault to report first. For a header fault, it begins with the subtitle
    and the effect on receivers."""
    words = describe_hint(fault, part, verdict)
    if fault.number != CONTROL or not words or fault.frame is None:
        return words
    effect = describe_effect(find_fault_place(fault, part.packets, part.decoded_pages).headers,
                             verdict.request)
    return f"{describe_subtitle_at(fault.frame, part)} {effect} on some receivers: {words}"


def describe_subtitle_at(frame: int, part: Part) -> str:
    """Return the name and the text of the subtitle expected in a frame. In a pause, return a text
    such as `the page after subtitle 5`."""
    due = part.expected_pages()
    count, is_due = due.count_begun(frame)
    if not is_due:
        return f"the page after {due.subtitles[count - 1].name}" if count else "the page"
    text = format_page_text(due.pages[count - 1], OPTION_BY_WORD[part.request.option].number)
    return f'{due.subtitles[count - 1].name}, "{text}",'


def describe_parity_fault(fault: FaultLine, part: Part) -> str:
    """Describe which character of a subtitle has even parity, or return "" if it is unknown."""
    rows = find_fault_place(fault, part.packets, part.decoded_pages).rows
    if fault.frame is None or rows is None:
        return ""
    due = part.expected_pages().get_page_at(fault.frame)
    codes = [code
             for cells, expected_row in zip(rows, due) for cell, code in zip(cells, expected_row)
             if cell == HIT]
    code = next((code for code in codes if code > SPACE), codes[0] if codes else None)
    if code is None:
        subject = "a byte"
    elif code > SPACE:
        subject = 'the character ' \
            f'"{make_character_table(OPTION_BY_WORD[part.request.option].number)[code]}"'
    else:
        subject = f"a byte ({describe_code(code)})"
    return f"{subject} of {describe_subtitle_at(fault.frame, part)} has even parity"


def describe_pid_end(part: Part) -> str:
    """Explain why the PID has no Teletext after the last judged PES packet, or return ""."""
    is_last = part.pes is not None and part.pes[1] == part.packets.count - 1
    return (explain_refusal(part.packets) or "") if is_last and part.packets.refusal else ""


def describe_unrecorded(fault: FaultLine, part: Part) -> str:
    """Describe how many subtitles were not recorded, and suggest an option to judge the others."""
    frame, subtitles = fault.frame, part.expected_pages().subtitles
    if frame is None or not subtitles or part.causes \
            and fault.number in part.causes.frames_by_end_fault:
        return ""
    if fault.number == BEGIN:
        left = [item for item in subtitles if item.begin < frame]
        option = [f"--from {format_frame(item.begin)}" for item in subtitles
                  if item.begin >= frame][:1]
    else:
        left = [item for place, item in enumerate(subtitles)
                if item.end > frame and not (part.causes and part.causes.was_replaced_early(place))]
        option = [f"--to {format_frame(item.end + 1)}"
                  for item, other in zip(subtitles, subtitles[
                  1:]) if item.end <= frame and item.end < other.begin][-1:]
    if not left:
        return ""
    words = f"{len(left):,} of {counted(len(subtitles), 'subtitle')} " \
        f"{was(len(left))} not recorded completely"
    return f"{words}; use {option[0]} to judge the others" if option else words


def describe_block_subtitle(fault: FaultLine, subtitles: SubtitleFile) -> str:
    """Return the name, time and text of the subtitle in a fault's block, or "" if there is none."""
    subtitle = subtitles.find_by_block(fault.block) if fault.block else None
    if subtitle is None or not fault.block:
        return ""
    name = format_subtitle_name(subtitle.position, subtitle.number)
    return f'{name} at {subtitle.begin}, "{format_stored_text(subtitles.text(fault.block))}"'


def format_stored_text(text: bytes) -> str:
    """Return the stored text of a subtitle in readable form, with a slash between lines."""
    lines = list[str]()
    for line in text.split(NEW_LINE):
        at, characters = 0, ""
        while at < len(line):
            character = read_character_bytes(line, at)
            characters += (decode_character(character) or "") if line[at] > SPACE else " " * (
                line[at] == SPACE)
            at += len(character)
        lines += [characters.strip()] * bool(characters.strip())
    return " / ".join(lines)


def describe_open_option(subtitles: SubtitleFile) -> str:
    """Return the hint that --open accepts the display standard code of the file. Return "" if
    --open does not accept this code."""
    kind = {b"0": "0 (open subtitles)", b" ": "blank"}.get(subtitles.data[DSC])
    return f"its DSC is {kind}: --open accepts it" if kind else ""


def describe_silence(fault: FaultLine, part: Part) -> str:
    """Describe the start and the length of the interval without a PES packet before a fault."""
    request, pes, origin = part.request, part.pes, part.origin
    if request is None or request.pace is None or pes is None or origin is None \
            or fault.frame is None:
        return ""
    before = fault.frame - request.pace
    after = next((frame for row in list_frame_rows(part.packets, pes, origin, request.within)
                  for frame in row if frame > before), None)
    return "" if after is None else \
        f"no PES packet for {counted(after - before - 1, 'frame')} from " \
        f"{format_frame(before + 1)} on"


def describe_longest_gap(sent: tuple[Sequence[int], Sequence[int]], origin: int, request: Request,
                         numbers: set[int], times: Sequence[tuple[int, int]]) -> str:
    """Describe the longest interval without a page header. Return an empty string if the interval
    is short enough, or if some PES packets can't be read. `sent` holds two lists: the PTS of the
    page headers, and the last PTS of the recording. `numbers` holds the numbers of all faults, and
    `times` the TCI and TCO of each subtitle."""
    headers, last = ([frame for pts in some
                      if (frame := find_frame_of_day(pts, origin, request.within)) is not None]
                     for some in sent)
    end = last[0] + 1 if last else 0
    gap = find_longest_gap([*headers, end] if headers and end > headers[-1] else headers)
    if gap <= request.every or numbers & SKIPPED_PACKETS:
        return ""
    words = f"the page had no header for up to {counted(gap, 'frame')}"
    usual = repeat_distance(headers, list_cue_frames(times))
    return f"{words} (usually {usual})" if usual and usual <= request.every else words


class PartFaults:
    """Converts the faults in one part, with their details, to JSON values."""

    def __init__(self, verdict: Verdict, part: Part) -> None:
        self.verdict, self.part, self.request = verdict, part, verdict.request
        self.letters: list[str] = make_character_table(OPTION_BY_WORD[self.request.option].number)
        self.read_meanings = {number: (remove_markup(meaning.meaning),
                                       remove_markup(meaning.remedy))
                              for number, meaning in read_meanings().items()}
        self.wording = CauseDescriber(part.causes, self.request.option) if part.causes else None
        self.subtitles = part.open_subtitle_file()
        self.character_advice = OptionAdvice(self.subtitles, self.request.option)

    def __iter__(self) -> Iterator[Members]:
        return itertools.starmap(self.make_fault, self.part.check_output.read_faults())

    def make_fault(self, fault: FaultLine, end: FaultEnd) -> Members:
        """Return the JSON value of a fault, with details."""
        is_stl = fault.number in STL_FAULTS
        due = self.part.expected_pages().get_page_at(fault.frame) if fault.number == CONTENT and \
            fault.frame is not None else None
        place = NO_PLACE if is_stl else find_fault_place(
            fault, self.part.packets, self.part.decoded_pages, due)
        byte, character = self.subtitles.describe_byte(fault.block, fault.at) \
            if fault.number in TEXT_FAULTS and fault.block and fault.at is not None else (None,
                                                                                          None)
        subtitle = self.find_subtitle(fault)
        meaning, remedy = self.read_meanings.get(fault.number, ("", ""))
        if fault.number == CHARACTER and fault.block and fault.at is not None:
            remedy = self.character_advice.advise(fault.block, fault.at) or remedy
        if fault.number == DISPLAY:
            remedy = describe_open_option(self.subtitles) or remedy
        if fault.number == CONTENT:
            remedy = self.part.drawing_differences or remedy
        meaning = describe_header_faults(place.headers, self.request) or meaning
        return {
            "part": self.part.number, "line": fault.line, "number": fault.number,
            "name": fault.name,
            "severity": ERROR if self.part.is_error(fault, end) else WARNING,
            "file": "stl" if is_stl else "pes", "block": fault.block,
            "subtitle": subtitle and make_subtitle(subtitle),
            "byte": byte, "character": character, "text_offset": fault.at,
            "pes": place.pes if fault.pes is None else fault.pes,
            "pes_pts": place.pts, "pes_time": self.format_time(place.pts), "packet": fault.packet,
            "frame": count_frames(fault), "time": fault.time,
            "row": fault.row, "column": fault.column,
            "expected": self.make_cell(due, fault),
            "decoded": self.make_cell(place.rows, fault) if fault.number == CONTENT else None,
            "last_time": end.time, "last_pes": end.pes, "meaning": meaning, "remedy": remedy,
            "cause": self.make_cause(fault),
        }

    def make_cause(self, fault: FaultLine) -> Members | None:
        """Return the cause of a fault with number 63, 72 or 74, if it has one, as a JSON value."""
        if self.wording is None or fault.number not in FAULTS_WITH_CAUSE or fault.frame is None:
            return None
        cause = self.wording.causes.find_cause(fault.number, fault.frame)
        return self.wording.make_json(cause) if cause else None

    def find_subtitle(self, fault: FaultLine) -> NamedSubtitle | None:
        """Return the subtitle in the block of a fault, or the subtitle expected in its frame."""
        if fault.block is not None:
            return self.subtitles.find_by_block(fault.block)
        return self.subtitles.find_by_frame(fault.frame) if fault.frame is not None else None

    def format_time(self, pts: int | None) -> str | None:
        """Return the time code of a PTS, if a frame starts there."""
        if pts is None or self.part.origin is None:
            return None
        frame = find_frame_of_day(pts, self.part.origin, self.request.within)
        return None if frame is None else format_frame(frame)

    def make_cell(self, rows: Rows | None, fault: FaultLine) -> Members | None:
        """Return the JSON value of the cell that a fault refers to, if it is known."""
        if fault.row is None or fault.column is None:
            return None
        code = find_code(rows, fault.row, fault.column)
        if code is None:
            return None
        return {"code": f"{code:02X}", "character": self.letters[code] if code >= 0x20 else None}


# Keys of details that faults without a number do not have.
KEYS_WITHOUT_NUMBER = ("number", "byte", "character", "text_offset", "pes", "pes_pts", "pes_time",
                       "packet", "row", "column", "expected", "decoded", "last_pes", "cause")


def make_subtitle(subtitle: NamedSubtitle) -> Members:
    return {"position": subtitle.position, "number": subtitle.number, "begin": subtitle.begin,
            "end": subtitle.end}


def count_frames(fault: FaultLine | NamedFault) -> int | None:
    """Return the frame of a fault, counted from midnight, if it has one."""
    frames: int | None = parse_time_code(fault.time) if fault.time else None
    return frames


def make_named_fault(verdict: Verdict, fault: NamedFault) -> Members:
    """Return the JSON value of a fault without a number, with details."""
    part = next((part for part in verdict.parts if part.number == fault.part), None)
    file = part.open_subtitle_file() if part else None
    frame = parse_frame(fault.time) if fault.time else None
    subtitle = None if file is None else file.find_by_block(fault.block) \
        if fault.block is not None else file.find_by_frame(frame) if frame is not None else None
    meaning = read_named_meanings().get(fault.name)
    return {**dict.fromkeys(KEYS_WITHOUT_NUMBER), "part": fault.part, "line": fault.line,
            "name": fault.name, "severity": verdict.severity.classify(fault.name),
            "file": "pes" if fault.block is None else "stl", "block": fault.block,
            "subtitle": subtitle and make_subtitle(subtitle), "frame": count_frames(fault),
            "time": fault.time, "last_time": fault.until, "meaning": fault.text,
            "remedy": remove_markup(meaning.remedy) if meaning else ""}


def make_faults(verdict: Verdict) -> Iterator[Members]:
    """Yield the JSON values of all faults: those without a number, then the numbered ones."""
    yield from (make_named_fault(verdict, fault) for fault in verdict.named_faults)
    for part in verdict.parts:
        if part.check_output.fault_count:
            yield from PartFaults(verdict, part)
