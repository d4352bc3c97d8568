"""A part of a pair, which is judged separately, and the causes of its faults."""
from __future__ import annotations

import array
import collections
import dataclasses
import functools
from typing import Callable, Collection, Iterator, Mapping, NamedTuple, Sequence

from ..clock.start import Clock, TimedPart
from ..common.command_line import counted
from ..common.files import SummedFile
from ..common.times import (
    FRAMES_OF_A_DAY, FrameRange, Span, Spans, TICKS, compute_frame, format_frame, pts_of,
    subtract_pts_within)
from ..formats.listing import (
    BEGIN, CONTENT, EMPTY, END, FAULTS_WITH_CAUSE, FaultLine, ORDER, SKIPPED_PACKETS, STL_FAULTS,
    UNDECIDED, parse_place_time)
from ..formats.layout import encode_text_characters
from ..formats.stl import Subtitle, SubtitleFile
from ..formats.teletext import OPTION_BY_WORD
from ..recording.recording import Recording
from ..request.commands import Listener, MAX_LIST_LINES, OutputNames
from ..request.request import Request, Unclear
from ..stream.gaps import LossPlace
from ..stream.packets import NO_RANGE, PES, PTSPair, Packets, Range, parse_headers
from ..stream.ranges import StepBack, find_step_back
from ..stream.receiver import Timeline, decode_pages_around, read_national_option
from .causes import Cause, CauseDescriber, Causes
from .check import CheckOutput, FaultEnd, NO_END
from .sentence import WorstFault, find_worst_fault
from .status import ALL_ERRORS, CheckSummary, REFUSED, Severity
from .transmissions import ExpectedPages, KeepingHeaders
from .waivers import Owners


def make_empty_pages() -> ExpectedPages:
    """Return an object without pages, since a refused subtitle file has no expected pages."""
    return ExpectedPages([], [])


class FaultSeverities(NamedTuple):
    """The faults of a part that are errors. The keys of the last two members are fault numbers of
    waivers, each with the TCI of a subtitle: `waived_counts` says how many faults are waived there,
    `other_owners` which other subtitles need a waiver too."""

    first_errors: dict[int, FaultLine]
    error_counts: collections.Counter[int]
    waived_counts: collections.Counter[tuple[int, int | None]]
    other_owners: dict[tuple[int, int | None], set[int | None]]


@dataclasses.dataclass(frozen=True)
class Part:
    """A pair, or the part of a pair that has one clock. It is judged separately. Each step of
    judging returns a copy with more fields."""

    number: int
    request: Request
    names: OutputNames
    check_output: CheckOutput  # faults that `check` reports
    alignment: TimedPart | None = None  # frames and clock, if there is a recording
    recording: Recording | None = None
    skipped_positions: Collection[int] = ()
    pes: Range | None = None  # PES packets to judge
    judged_file: SummedFile | None = None  # the judged PES packets of a piped recording
    # PTS before and after each announced jump of the continuity counter that may hide lost packets
    jumps: Sequence[PTSPair] = ()
    # If the subtitles were read from the recording: why some are not certain although `check`
    # trusts their frames, by position in the file
    doubts: Mapping[int, str] | None = None
    expected_pages: Callable[[], ExpectedPages] = make_empty_pages
    timeline: Callable[[], Timeline | None] = lambda: None
    severity: Severity = ALL_ERRORS
    causes: Causes | None = None
    delays: Sequence[int | None] = ()  # number of frames from each TCI to the complete page
    is_recording_read: bool = False  # also true if there is no recording
    hint: str = ""  # hint on the fault to report first
    block_subtitle: str = ""  # description of the refused block's subtitle
    transmission_hint: str = ""  # hint on the first fault of the transmission
    header_problem: str = ""  # fault in the headers of PES packets
    # Differences in the layout of pages whose characters are correct
    drawing_differences: str = ""
    # Number of headers with C4 clear, if this is their only fault
    keeping_headers: KeepingHeaders | None = None

    @property
    def packets(self) -> Packets:
        """Return the packets on the PID that is judged."""
        return self.recording.packets if self.recording else Packets(PES)

    @property
    def clock(self) -> Clock | None:
        return self.alignment and self.alignment.clock

    @property
    def origin(self) -> int | None:
        return self.alignment and self.alignment.origin

    @property
    def stream(self) -> tuple[int, int] | None:
        """Return the PID and the TS packet size in bytes, or `None` for a file of PES packets."""
        return self.recording.stream() if self.recording else None

    @property
    def judged_recording(self) -> tuple[Recording, TimedPart]:
        """Return the recording, and the frames and the clock of the part."""
        assert self.recording and self.alignment
        return self.recording, self.alignment

    def is_error(self, fault: FaultLine, end: FaultEnd = NO_END) -> bool:
        """Return whether a fault of this part, which ends at `end`, is an error."""
        return self.severity.is_subtitle_error(fault.number, self.find_owners(fault, end))

    def find_owners(self, fault: FaultLine, end: FaultEnd) -> Owners:
        """Return the subtitles that a fault concerns in each of its frames. The list is empty if
        there is no waiver for the number of the fault."""
        if fault.number not in self.severity.waivers.numbers:
            return []
        if fault.block is not None:
            return [{self.complete_file.find_block_begin(fault.block)}]
        if fault.number == UNDECIDED:  # all subtitles that are not judged need a waiver
            blocks = self.complete_file.start_blocks
            return [{self.complete_file.find_block_begin(blocks[position - 1])}
                    for position in sorted(self.skipped_positions)]
        if fault.frame is None:
            return [{None}]
        last = parse_place_time(end.time) if end.time else fault.frame
        if fault.number == CONTENT:
            return self.causes.find_owners(fault.frame, last) if self.causes else [{None}]
        return self.expected_pages().find_owners(fault.frame, last)

    @functools.cached_property
    def complete_file(self) -> SubtitleFile:
        return SubtitleFile(self.names.program_stl)

    @functools.cached_property
    def severities(self) -> FaultSeverities:
        """Return which faults are errors. The list of faults is read only if there are waivers."""
        output, waivers = self.check_output, self.severity.waivers
        result = FaultSeverities({}, collections.Counter(), collections.Counter(), {})
        if not waivers.numbers & output.fault_numbers:
            errors = {number for number in output.fault_numbers if self.severity.is_error(number)}
            return result._replace(
                first_errors={number: fault for number, fault in output.first_faults.items()
                              if number in errors},
                error_counts=collections.Counter({
                    number: count for number, count in output.counts_by_number.items()
                    if number in errors}))
        for fault, end in output.read_faults():
            number, owners = fault.number, self.find_owners(fault, end)
            if self.severity.is_subtitle_error(number, owners):
                result.first_errors.setdefault(number, fault)
                result.error_counts[number] += 1
            covered = [group for group in owners if waivers.cover(number, [group])]
            result.waived_counts.update((number, owner) for owner in set().union(*covered))
            for group in owners:
                for owner in group if group not in covered else ():
                    result.other_owners.setdefault((number, owner), set()).update(group - {owner})
        return result

    @property
    def first_errors(self) -> dict[int, FaultLine]:
        """Return the first fault with each number that is an error."""
        return self.severities.first_errors

    @property
    def error_numbers(self) -> set[int]:
        return set(self.first_errors)

    @property
    def error_counts(self) -> collections.Counter[int]:
        """Return the number of errors with each number."""
        return self.severities.error_counts

    @property
    def waived_counts(self) -> collections.Counter[int]:
        """Return the number of faults with each number that are only warnings."""
        return self.check_output.counts_by_number - self.error_counts

    def has_error(self, number: int, begin: int) -> bool:
        """Return whether a fault with this number, in the subtitle that begins in a frame, is an
        error."""
        return number in self.error_numbers and not (
            self.severities.waived_counts[number, begin]
            and (number, begin) not in self.severities.other_owners)

    def is_cause_waived(self, cause: Cause) -> bool:
        """Return whether the faults that a cause explains are only warnings."""
        assert self.causes
        subtitles, index = self.causes.expected.subtitles, cause.subtitle_index
        of_ends = self.causes.frames_by_end_fault
        indices: dict[int, set[int | None]] = {
            BEGIN: {0, of_ends.get(BEGIN)}, END: {len(subtitles) - 1, of_ends.get(END)},
            CONTENT: {index}}
        errors = {number for number in self.error_numbers & FAULTS_WITH_CAUSE
                  if index in indices[number]}
        if errors == {CONTENT} and cause.frame is None:  # not a text in a pause
            return not self.has_error(CONTENT, subtitles[index].begin)
        return not errors

    @property
    def reported_faults(self) -> dict[int, FaultLine]:
        """Return the first error with each number. If there is no error, return the first waived
        fault with each number."""
        return self.first_errors or self.check_output.first_faults

    @functools.cached_property
    def reported_causes(self) -> Causes | None:
        """Return the causes of errors, or if there is no error, the causes of waived faults."""
        causes = self.causes
        is_any_left_out = causes and self.first_errors and any(
            map(self.is_cause_waived, causes.list_causes()))
        return causes.leave_out(self.is_cause_waived) if causes and is_any_left_out else causes

    @functools.cached_property
    def worst_fault(self) -> WorstFault | None:
        """Return the fault to report first, if there is one."""
        return find_worst_fault(self.check_output, self.reported_faults, self.reported_causes)

    @functools.cached_property
    def worst_transmission_fault(self) -> WorstFault | None:
        """Return the transmission fault to report first, if there is one."""
        faults = {number: fault for number, fault in self.reported_faults.items()
                  if number not in STL_FAULTS | {UNDECIDED}}
        return find_worst_fault(self.check_output, faults, self.reported_causes)

    @property
    def worst_fault_line(self) -> FaultLine | None:
        return self.worst_fault.fault if self.worst_fault else None

    @property
    def first_text(self) -> str:
        """Return the line of output to report first."""
        return self.worst_fault.fault.line if self.worst_fault else self.check_output.last_line

    @property
    def decoded_pages(self) -> Timeline | None:
        """Return the pages that a receiver decodes from the judged PES packets."""
        return self.timeline()

    def add_packets(self, pes: Range, judged: SummedFile | None = None) -> Part:
        """Return a copy of the part with the PES packets to judge, and the decoded pages."""
        recording, alignment = self.judged_recording
        request = self.request

        def timeline() -> Timeline:
            return Timeline(recording.packets, request.page, alignment.origin, request.within, pes)

        return dataclasses.replace(self, pes=pes, judged_file=judged,
                                   timeline=functools.lru_cache(maxsize=None)(timeline))

    def open_subtitle_file(self) -> SubtitleFile:
        """Open the subtitle file, to find subtitles by block or frame."""
        return SubtitleFile(self.names.program_stl, self.request.between, self.skipped_positions)

    def summarize_check(self) -> CheckSummary:
        waived = {number for number in self.check_output.fault_numbers - self.error_numbers
                  if self.severity.is_error(number)}
        return self.check_output.summarize(self.is_recording_read, waived)

    @functools.cached_property
    def step_back(self) -> StepBack | None:
        """Return where the PTS go back during the programme, if they do and the part is refused
        because of the times of its PES packets."""
        if self.alignment is None or not self.error_numbers & {ORDER, *FAULTS_WITH_CAUSE}:
            return None
        inside = self.pes if self.request.breaks else None
        return find_step_back(self.packets, self.alignment.begin, self.alignment.end,
                              self.alignment.origin, inside)

    @property
    def is_refused(self) -> bool:
        """Return whether the part has any faults, whatever their severity."""
        return self.check_output.verdict == REFUSED

    def is_read(self) -> bool:
        """Return whether at least one PES packet in the part could be read."""
        if self.pes is None:
            return False
        numbers = self.check_output.fault_numbers - STL_FAULTS
        if not numbers:  # faults of the transmission also show that PES packets were read
            return not self.check_output.fault_numbers or len(self.trusted_frames) > 0
        if numbers - SKIPPED_PACKETS - {EMPTY}:
            return True
        count = min(self.pes[1] + 1, self.packets.count) - self.pes[0]
        return count > self.check_output.skipped_packets.total()

    def find_loss_places(self) -> list[LossPlace]:
        """Return the places in the recording where packets are missing."""
        return self.recording.list_losses(self.jumps) if self.recording else []

    @functools.cached_property
    def unmarked_losses(self) -> list[Span]:
        """Return the frames with lost packets that `check` can't report: these losses have no gap
        marker, and only the PCR shows them."""
        if self.alignment is None:
            return []
        places = [place for place in self.find_loss_places() if place.gap_marker is None
                  and belongs_to_part(place, self)]
        return [*find_lost_spans(places, self.alignment.origin, self.request.within, False)]

    @functools.cached_property
    def trusted_frames(self) -> Spans:
        """Return the frames that `check` trusts, except frames with lost packets."""
        return self.check_output.trusted_frames.exclude(self.unmarked_losses)

    def list_pts(self, flags: str = "") -> array.array[int]:
        """Return the PTS of the PES packets in the part that have all `flags`."""
        return array.array("q", self.packets.pts(self.pes, flags) if self.pes else ())

    def find_option_bits(self) -> set[int]:
        """Return the values of C12 to C14 in the page headers."""
        return {read_national_option(header)
                for run in self.packets.list_runs_between(*self.pes or NO_RANGE)
                for header in parse_headers(run.control)}

    def count_headers(self) -> collections.Counter[bytes]:
        """Count how often each page header occurs in the PES packets that `check` reads."""
        counts: collections.Counter[bytes] = collections.Counter()
        for run in self.packets.list_runs_between(*self.pes or NO_RANGE):
            if run.pts is not None and not run.fault:
                for header in parse_headers(run.control):
                    counts[header] += run.length
        return counts

    @property
    def pes_argument(self) -> str | None:
        """Return the range of the part's PES packets as the value of --pes."""
        return self.pes and f"{self.pes[0]}-{self.pes[1]}"

    def format_time_codes(self) -> tuple[str, str] | tuple[None, None]:
        """Return the first and the last frame of a part as time codes."""
        alignment = self.alignment
        return (format_frame(alignment.begin),
                format_frame(alignment.end)) if alignment else (None, None)


def belongs_to_part(place: LossPlace, part: Part) -> bool:
    """Return whether missing packets belong to a part. If they have a gap marker, it must be among
    the PES packets of the part. Otherwise, they belong to it unless they are certainly outside its
    frames."""
    if part.alignment is None:
        return False
    if place.gap_marker is not None and part.pes is not None:
        return part.pes[0] <= place.gap_marker <= part.pes[1]
    begin, end = part.alignment[:2]
    first, length = pts_of(begin, part.alignment.origin), TICKS * (end - begin)
    is_before = place.after is not None and subtract_pts_within(first, length, place.after) <= 0
    is_after = place.before is not None and subtract_pts_within(first, length,
                                                                place.before) >= length
    return not is_before and not is_after


def choose_parts(alignments: Sequence[TimedPart], full_part: TimedPart) -> list[TimedPart]:
    """Return the parts to judge. A single part has all subtitles of the file. Each of several parts
    has the subtitles that begin in its frames."""
    if len(alignments) == 1:
        return [full_part._replace(clock=alignments[0].clock, packets=alignments[0].packets)]
    return [alignment._replace(between=FrameRange(alignment.begin, alignment.end))
            for alignment in alignments]


def extend_ranges(parts: Sequence[TimedPart], between: FrameRange) -> list[TimedPart]:
    """Return the parts with ranges that together are the range `between`, so that each refused
    subtitle is in a part. One that begins in a break is in the part before the break."""
    limits = [between.begin, *(part.between.begin for part in parts[1:]), between.end]
    return [part._replace(between=FrameRange(begin, end))
            for part, begin, end in zip(parts, limits, limits[1:])]


def refuse_missing_subtitles(parts: Sequence[TimedPart], subtitles: Sequence[Subtitle],
                             stl: str) -> None:
    """Raise `Unclear` unless the parts together have all subtitles of the file, in order."""
    own = [subtitle for part in parts for subtitle in subtitles
           if part.between.includes(subtitle.begin)]
    left = len(subtitles) - len(own)
    if left > 0:
        raise Unclear(f"{counted(left, 'subtitle')} of {stl} would be in no part, so nothing would "
                      "check it: correct its times")
    if own != [*subtitles]:
        raise Unclear(f"the parts of {stl} would have other subtitles than the file")


def find_part_causes(part: Part) -> Causes | None:
    """Return the causes of the faults in a judged part, if any fault has a cause."""
    request, (recording, alignment) = part.request, part.judged_recording
    lost = part.find_loss_places() if recording.is_stream else []
    held = decode_pages_around(part.packets, request.page, alignment.origin, request.within,
                               Span(alignment.begin, alignment.end), request.every,
                               alignment.packets,
                               find_lost_spans(lost, alignment.origin, request.within))
    causes = Causes(part.expected_pages(), held,
                    find_recorded_span(None if recording.packets.refusal
                                       else recording.find_recorded_pts(), alignment))
    causes.classify_faults(part.check_output)
    if alignment.clock.delay_frames and not request.within:
        causes.classify_by_delay(alignment.clock.delay_frames)
    if part.step_back:
        option, sent = OPTION_BY_WORD[request.option], {item.letters
                                                        for item in part.packets.changes}
        causes.doubt_unsent([
            place for place, subtitle in enumerate(causes.expected.subtitles)
            if encode_text_characters(subtitle.text, option) in sent])
    return causes if causes.list_causes() else None


def find_recorded_span(pts: tuple[int, int] | None, alignment: TimedPart) -> Span | None:
    """Return the frames that were recorded completely. `pts` has the first and the last PTS between
    which all packets were recorded, if known. Return `None` if the PTS go back in the recording."""
    if pts is None or alignment.packets:
        return None
    first, last = (subtract_pts_within(pts_of(alignment.begin, alignment.origin),
                                       TICKS * (alignment.end - alignment.begin), item)
                   for item in pts)
    return Span(alignment.begin - -first // TICKS, alignment.begin + last // TICKS)


def find_lost_spans(places: Sequence[LossPlace], origin: int, within: int,
                    is_with_next: bool = True) \
        -> Iterator[Span]:
    """Yield the frames that may lack packets because of losses. If `is_with_next` is true, include
    the frame of the next PES packet after each loss."""
    for place in places:
        first, last = (None if pts is None else compute_frame(pts, origin, within)
                       for pts in (place.before, place.after))
        yield Span(0 if first is None or first >= FRAMES_OF_A_DAY else first,
                   FRAMES_OF_A_DAY if last is None else last - (not is_with_next))


def report_causes(listener: Listener, causes: Causes, option: str) -> None:
    """Print the first causes, and the number of further causes."""
    wording, every = CauseDescriber(causes, option), causes.list_causes()
    for cause in every[:MAX_LIST_LINES]:
        listener.print_line(wording.format_line(cause))
    if len(every) > MAX_LIST_LINES:
        listener.print_line(f".. {len(every) - MAX_LIST_LINES} more causes")
