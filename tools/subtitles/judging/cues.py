"""Find the times at which each subtitle of a part was expected and decoded, and its verdict."""
from __future__ import annotations

import itertools
import operator
from typing import Iterator, NamedTuple, Sequence

from ..common.command_line import counted
from ..common.shapes import Members
from ..common.times import (
    Span, format_frame, format_seconds, join_spans, pts_of, subtract_pts, wrap_pts)
from ..formats.listing import BEGIN, FAULTS_WITH_CAUSE, FaultLine, STL_FAULTS, UNDECIDED
from ..formats.stl import COMMENT, LAST_BLOCK, NamedSubtitle, Subtitle, SubtitleFile, USER_DATA
from ..formats.teletext import OPTION_BY_WORD
from ..stream.receiver import BLANK_PAGE, Rows, Timeline
from .causes import (
    Cause, CauseDescriber, EARLY, LATE, NOT_RECEIVED, OTHER_TEXT, UNKNOWN_CAUSE, WRONG_ATTRIBUTE,
    WRONG_PLACE, WRONG_TEXT)
from .pages import SPACE, format_page_text
from .part import Part
from .status import ACCEPTED, VALID
from .subtitles import ValidSubtitles, list_positions
from .transmissions import ExpectedPages


# The causes of faults in which another page was sent instead of the expected page
REPLACING_CAUSES = {WRONG_TEXT, WRONG_PLACE, WRONG_ATTRIBUTE, OTHER_TEXT}


class Cue(NamedTuple):
    """A subtitle, its expected page, and the page that a receiver decoded for it."""

    subtitle: Subtitle
    expected: Rows
    cause: Cause | None
    decoded: Rows | None = None
    begin: int | None = None  # first frame of the decoded page, if recorded
    end: int | None = None  # first frame after the decoded page, if recorded

    @property
    def delay_in(self) -> int | None:
        """Return the delay of the in-cue in frames; it is negative for an early cue."""
        return None if self.begin is None else self.begin - self.subtitle.begin

    @property
    def delay_out(self) -> int | None:
        """Return the delay of the out-cue in frames; it is negative for an early cue."""
        return None if self.end is None else self.end - self.subtitle.end


def find_cues(part: Part) -> Iterator[Cue]:
    """Yield the cues of a part in the order of its subtitles."""
    expected, causes = part.expected_pages(), part.causes
    timeline = causes.timeline if causes else part.decoded_pages
    for place, (subtitle, page) in enumerate(zip(expected.subtitles, expected.pages)):
        cue = Cue(subtitle, page, causes.cause_by_index.get(place) if causes else None)
        delay = part.delays[place] if part.delays else 0
        yield add_decoded_page(cue, place, expected, timeline, delay) if timeline else cue


def add_decoded_page(cue: Cue, place: int, expected: ExpectedPages, timeline: Timeline,
                     delay: int | None) -> Cue:
    """Return a copy of a cue with the decoded page and its times. `place` is the position of the
    subtitle in `expected`, and `delay` the delay of the subtitle."""
    number = find_page_number(cue, expected, timeline, delay)
    if number is None:
        return cue
    subtitle, page, (first,
                     last) = cue.subtitle, timeline.pages[number], timeline.get_page_span(number)
    while last + 1 < subtitle.end and number + 1 < len(timeline.pages) and is_variant(
            timeline.pages[number + 1], page, expected):
        number += 1
        last = timeline.get_page_span(number).last
    before, after = expected.subtitles[place - 1:place], expected.subtitles[place + 1:place + 2]
    begin: int | None = first
    if place and before[0].end == subtitle.begin and expected.pages[place - 1] == page:
        # Earlier frames belong to the previous subtitle, which has the same page.
        begin = max(first, subtitle.begin)
    elif subtitle.begin < first == timeline.first and not (
            cue.cause and subtitle.begin + (cue.cause.frames or 0) == first):
        begin = None  # the page was sent before the recording began
    end: int | None = last + 1
    if after and after[0].begin == subtitle.end and expected.pages[place + 1] == page:
        end = min(last + 1, subtitle.end)
    elif number + 1 == len(timeline.pages) or \
            last + 1 != subtitle.end and not timeline.was_received(
            min(subtitle.end, last + 1), max(subtitle.end, last + 1)):
        end = None  # the recording ended before the page, or packets are lost
    return cue._replace(decoded=page, begin=begin, end=end)


def find_page_number(cue: Cue, expected: ExpectedPages, timeline: Timeline,
                     delay: int | None) -> int | None:
    """Return the number of the decoded page for a cue, if there is one."""
    cause, (begin, end) = cue.cause, (cue.subtitle.begin, cue.subtitle.end)
    if cause and cause.name in (LATE, EARLY):
        frame = begin + (cause.frames or 0) * (1 if cause.name == LATE else -1)
        number = timeline.find_page_number_at(max(frame, timeline.first))
        return number if number >= 0 else None
    number = timeline.find_page_number_at(max(begin + (delay or 0), min(timeline.first, end - 1)))
    if number >= 0 and timeline.pages[number] == cue.expected:
        return number
    sent = cause.sent_page if cause and cause.name in REPLACING_CAUSES else None
    if sent is not None and sent != BLANK_PAGE:
        frames = [frame for frame in timeline.page_frames.get(sent, ()) if frame < end
                  and timeline.get_page_span(timeline.find_page_number_at(frame)).last >= begin]
        if frames:
            return timeline.find_page_number_at(min(frames, key=lambda frame: abs(frame - begin)))
    return next((number for number in timeline.list_page_numbers(begin, end)
                 if is_variant(timeline.pages[number], cue.expected, expected)), None) \
        if cause else None


def is_variant(page: Rows, decoded: Rows, expected: ExpectedPages) -> bool:
    """Return whether `page` is a damaged or corrected repeat of the page `decoded`. Most characters
    must be equal, and `page` must not be the expected page of any subtitle."""
    if page == decoded or page in expected.positions_by_page:
        return page == decoded
    differing_cells: int = sum(map(operator.ne, b"".join(page), b"".join(decoded)))
    return 2 * differing_cells < sum(code > SPACE for code in b"".join(decoded))


RIGHT, WRONG, WAIVED, NOT_KNOWN = "right", "wrong", "waived", "not known"
CERTAIN, NOT_CERTAIN = "certain", "not certain"  # of subtitles that were read from a recording
CUTS = START, END, BOTH = "start", "end", "both"  # of such a subtitle: what is not in the recording
NOT_ALL_RECEIVED = "not received completely"


class CueVerdict(NamedTuple):
    """The verdict on a subtitle, and its reason."""

    word: str
    cause: str = ""  # cause of the subtitle's fault
    fault_numbers: Sequence[int] = ()  # numbers of the other faults during the subtitle
    doubt: str = ""  # why the verdict is not known


class CueJudge:
    """Decides the verdict on each subtitle in a part."""

    def __init__(self, part: Part) -> None:
        self.part = part
        self.wording = CauseDescriber(part.causes, part.request.option) if part.causes else None
        cause_numbers = FAULTS_WITH_CAUSE if part.causes else set[int]()
        self.spans = {number: join_spans([spans]) for number,
                      spans in part.check_output.fault_spans.items()
                      if number not in cause_numbers | {BEGIN}}

    def judge(self, cue: Cue) -> CueVerdict:
        """Return the verdict on the subtitle of a cue."""
        if self.part.check_output.is_file:
            return CueVerdict(VALID)
        begin, end = cue.subtitle.begin, cue.subtitle.end
        numbers = [number for number, spans in self.spans.items()
                   if any(True for _ in spans.between(begin, end))]
        if self.part.doubts is not None:
            unsure = self.describe_doubt(cue)
            return CueVerdict(NOT_CERTAIN if unsure else CERTAIN, fault_numbers=numbers,
                              doubt=unsure)
        words = self.wording.describe(cue.cause,
                                      has_text=False) if cue.cause and self.wording else ""
        if not words and not numbers:
            unsure = self.describe_doubt(cue)
            return CueVerdict(NOT_KNOWN if unsure else RIGHT, doubt=unsure)
        is_waived = not any(self.part.has_error(number, begin) for number in numbers) and (
            cue.cause is None or self.part.is_cause_waived(cue.cause))
        is_unknown = {*numbers} <= {UNDECIDED} and (
            cue.cause is None or cue.cause.name in (NOT_RECEIVED, UNKNOWN_CAUSE))
        word = WAIVED if is_waived else NOT_KNOWN if is_unknown else WRONG
        return CueVerdict(word, words, numbers)

    def describe_doubt(self, cue: Cue) -> str:
        """Explain why a cue without a fault may be wrong. Return "" if it must be right: the part
        is accepted and no TS packet was lost during the cue, or `check` trusts all frames of the
        cue."""
        begin, end = cue.subtitle.begin, cue.subtitle.end
        if doubt := (self.part.doubts or {}).get(cue.subtitle.index):
            return doubt
        if self.part.check_output.verdict == ACCEPTED:
            is_lost = any(span.first < end and begin <= span.last
                          for span in self.part.unmarked_losses)
            return NOT_ALL_RECEIVED if is_lost else ""
        trusted_count = sum(min(span.last + 1, end) - max(span.first, begin)
                            for span in self.part.trusted_frames.between(begin, end))
        if trusted_count == end - begin:
            return ""
        if cue.begin is None and cue.end is None:
            return "not received"
        words = f"check does not trust {end - begin - trusted_count} of its frames"
        return f"{words}: the out-cue is moved" if cue.delay_out else words

    def describe_reason(self, verdict: CueVerdict) -> str:
        """Return the reason for a verdict as text, or an empty string for a right cue."""
        faults_by_number = self.part.check_output.first_faults
        faults = [f"{number} {faults_by_number[number].name}" for number in verdict.fault_numbers]
        also = "also " if verdict.cause and faults else ""
        return "; ".join(filter(None, [verdict.cause, also + ", ".join(faults), verdict.doubt]))


MAX_FAULTS_READ = 20_000  # maximum number of faults to read from a subtitle file
NEXT_REFUSED = "not judged: the next subtitle is refused"


class SubtitleFaults(NamedTuple):
    """A subtitle and its faults. Faults of the GSI block have no subtitle."""

    subtitle: NamedSubtitle | None
    faults: Sequence[FaultLine]

    def is_waived(self, part: Part) -> bool:
        """Return whether all faults of the subtitle are only warnings."""
        return not any(map(part.is_error, self.faults))


def find_refused_subtitles(part: Part, file: SubtitleFile, valid_subtitles: ValidSubtitles | None) \
        -> Iterator[SubtitleFaults]:
    """Yield the refused subtitles in a file, each with its faults. Then yield the subtitles that
    have no fault but are not judged, because the next subtitle is refused. `valid_subtitles` has
    the judged subtitles, if others are refused."""
    own_positions = {*list_positions(file, part.number)}
    left_out = own_positions & valid_subtitles.skipped_positions if valid_subtitles else set[int]()
    faults = [fault for fault,
              _ in itertools.islice(part.check_output.read_faults(), MAX_FAULTS_READ)
              if fault.number in STL_FAULTS]
    for _, several in itertools.groupby(faults, lambda fault: find_first_block(file, fault)):
        group = list(several)
        block = group[0].block
        subtitle = None if block is None else file.find_by_block(block)
        left_out.discard(subtitle.position if subtitle else 0)
        if subtitle is None or subtitle.position in own_positions:
            yield SubtitleFaults(subtitle, group)
    for position in sorted(left_out):
        yield SubtitleFaults(file.find_by_block(file.start_blocks[position - 1]), [])


def find_first_block(file: SubtitleFile, fault: FaultLine) -> int:
    """Return the first block of the subtitle that has a fault."""
    block = fault.block or 0
    return file.first_blocks[block] if block < len(file.first_blocks) else block


def read_block_text(file: SubtitleFile, block: int) -> bytes:
    """Return the text of the subtitle that contains the block `block`. If the last blocks of the
    subtitle are missing, return the text of those that exist."""
    first, last = file.first_blocks[block], block
    for number in range(block, len(file.first_blocks)):
        data = file.block(number)
        if file.first_blocks[number] == first and data[3] != USER_DATA and data[15] != COMMENT:
            last = number
            if data[3] == LAST_BLOCK:
                break
    return file.text(last)


LONGEST_STEP = 3600 * 90_000  # in ticks; a longer step, or a step back, is a jump of the clock


def find_recording_start(part: Part) -> int | None:
    """Return the time of the beginning of the recording, as a PTS on the clock of a part. This is
    the first PCR, or the first PTS if there is no PCR. If the clock jumps between the beginning and
    the part, the length of the jump is left out."""
    if part.recording is None or part.pes is None:
        return None
    clock = part.recording.survey.get_pcr_range(part.packets.pid) if part.recording.is_stream \
        else None
    last, elapsed_ticks = clock[0] if clock else None, 0
    for run in part.packets.list_runs_between(0, part.pes[0]):
        if run.pts is not None and run.last is not None:
            step = 0 if last is None else subtract_pts(last, run.pts)
            elapsed_ticks += (step if 0 <= step < LONGEST_STEP else 0) + subtract_pts(run.pts,
                                                                                      run.last)
            last = run.last
    return None if last is None else wrap_pts(last - elapsed_ticks)


def format_recording_offset(part: Part, start: int | None, frame: int) -> str:
    """Return the time between `start`, the beginning of the recording, and a frame as H:MM:SS.
    Return an empty string if the beginning is unknown or later than the frame."""
    if start is None or part.origin is None:
        return ""
    seconds = subtract_pts(start, pts_of(frame, part.origin)) // 90_000
    return "" if seconds < 0 else format_seconds(seconds)


def find_text_spans(timeline: Timeline) -> Iterator[Span]:
    """Yield the spans of frames in which the decoded page has text."""
    for number, page in enumerate(timeline.pages):
        if page != BLANK_PAGE:
            yield timeline.get_page_span(number)


def make_subtitle_rows(part: Part, valid_subtitles: ValidSubtitles | None) -> Iterator[Members]:
    """Yield the JSON value of each subtitle in a part, in the order of the file."""
    rows = [*make_judged_rows(part), *make_refused_rows(part, valid_subtitles)]
    yield from sorted(rows, key=lambda row: int(row["position"]))


def make_judged_rows(part: Part) -> Iterator[Members]:
    """Yield the JSON values of the judged subtitles."""
    judge, option = CueJudge(part), OPTION_BY_WORD[part.request.option].number
    start = find_recording_start(part)
    for place, cue in enumerate(find_cues(part)):
        subtitle, verdict = cue.subtitle, judge.judge(cue)
        yield {
            "part": part.number, "position": subtitle.index, "number": subtitle.number,
            "recording_offset": format_recording_offset(part, start, subtitle.begin) or None,
            "expected_in": format_frame(subtitle.begin), "expected_out": format_frame(subtitle.end),
            "actual_in": None if cue.begin is None else format_frame(cue.begin),
            "actual_out": None if cue.end is None else format_frame(cue.end),
            "delay_in": cue.delay_in, "delay_out": cue.delay_out,
            "expected_text": format_page_text(cue.expected, option),
            "decoded_text": None if cue.decoded is None else format_page_text(cue.decoded, option),
            "verdict": verdict.word, "cut": None,
            "reason": judge.describe_reason(verdict) or None,
            "complete_after": part.delays[place] if part.delays else None}


def make_refused_rows(part: Part, valid_subtitles: ValidSubtitles | None) -> Iterator[Members]:
    """Yield the JSON values of the subtitles that are not judged because of faults in the file."""
    file = SubtitleFile(part.names.program_stl, part.request.between)
    for refused in find_refused_subtitles(part, file, valid_subtitles):
        if refused.subtitle and (refused.faults or valid_subtitles):
            word = NOT_KNOWN if not refused.faults else \
                WAIVED if refused.is_waived(part) else WRONG
            reason = "; ".join(fault.line for fault in refused.faults) or NEXT_REFUSED
            subtitle, unknown_values = refused.subtitle, dict.fromkeys((
                "recording_offset", "actual_in", "actual_out", "delay_in", "delay_out",
                "expected_text", "decoded_text", "complete_after"))
            yield {"part": part.number, "position": subtitle.position, "number": subtitle.number,
                   "expected_in": subtitle.begin, "expected_out": subtitle.end,
                   "verdict": word, "cut": None, "reason": reason, **unknown_values}
