"""Judge a recording by the subtitles that were read from another recording, the reference."""
from __future__ import annotations

import dataclasses
from typing import Callable, Iterator, Sequence

from ..clock.start import Clock, TimedPart
from ..common.checks import CLOCK, OUTSIDE, describe_kinds
from ..common.command_line import counted
from ..common.times import TICKS, compute_frame, format_frame, subtract_pts, wrap_pts
from ..formats.listing import END, NEVER_SENT
from ..judging.causes import Causes
from ..judging.pair import measure_delays
from ..judging.part import Part
from ..judging.sentence import describe_faults
from ..judging.status import (
    AS_SHOWN, Decision, DIFFERS, Grounds, NOT_JUDGED, RELATIVE, SAME, decide_comparison)
from ..judging.timing import NO_CLOCK, PartSearch, find_parts
from ..judging.unchecked import Unchecked
from ..judging.verdict import SCOPE_REFERENCE
from ..recording.recording import Recording
from ..request.request import Request, Unclear
from ..stream.packets import HEADER, Packets
from ..stream.receiver import BLANK_PAGE, Timeline
from .judge import RangeJudge, ReadingJudge
from .received import Reading, ShownPage, find_step_back, list_spans, make_stl
from .result import JudgedRange, RangeVerdict


@dataclasses.dataclass
class ReferenceVerdict(RangeVerdict):
    """The verdict on a recording that was judged by another recording."""

    decide: Callable[[Grounds, bool, int], Decision] = decide_comparison
    reference: str = ""  # name of the other recording
    shift: int | None = None  # ticks by which the PTS are later than in the reference

    @property
    def scope(self) -> str:
        return SCOPE_REFERENCE

    @property
    def names(self) -> tuple[str, str]:
        return self.request.recording or "", self.reference

    @property
    def sentence(self) -> str:
        name, reference = self.names
        if self.word == NOT_JUDGED:
            return f"Not judged: {(self.unjudged_reason or '').splitlines()[0]}."
        if self.word == DIFFERS or not self.judged:
            return self.describe_difference()
        shift = f" Its PTS are {self.describe_shift()} those of {reference}, so a delay of all " \
            "subtitles was not checked." if self.word == RELATIVE else ""
        return f"{name} shows the same as {reference} from {format_frame(self.judged.begin)} to " \
            f"{format_frame(self.judged.end - 1)}.{shift} " \
            f"{describe_kinds({*self.unchecked_kinds} - {CLOCK})}".rstrip()

    def describe_difference(self) -> str:
        """Return the sentence about the subtitles that differ. If no subtitle is known to differ,
        return the sentence about the fault of the transmission."""
        (name, reference), facts = self.names, self.collect_facts()
        causes = next((part.reported_causes for part in self.parts), None)
        if causes and causes.list_causes():
            facts = facts._replace(has_cause=True, causes=causes)
        text = describe_faults(facts) if facts.faults else self.fault_text
        if facts.has_cause or any(fault.name == NEVER_SENT for fault in self.named_faults):
            return f"{name} does not show what {reference} shows: {text}."
        return f"The transmission in {name} has a fault: {text}. No subtitle with other codes or " \
            f"times than in {reference} was found."

    def describe_shift(self) -> str:
        """Describe how much later the PTS are than in the reference."""
        ticks = self.shift or 0
        frames, rest = divmod(abs(ticks), TICKS)
        return "equal to" if not ticks else counted(frames, "frame") + (
            f" and {counted(rest, 'tick')}" if rest else "") + (
            " later than" if ticks > 0 else " earlier than")

    @property
    def success(self) -> str:
        return f"{f'{RELATIVE}, ' * (self.word == RELATIVE)}{SAME} as {self.reference}"


class ReferenceJudge(RangeJudge):
    """Reads the reference with `reader`, and judges a recording by it, in the frames that both
    cover."""

    range_text = "in which both recordings are on"

    def __init__(self, verdict: ReferenceVerdict, recording: Recording, reader: ReadingJudge,
                 is_result_written: bool) -> None:
        super().__init__(verdict, recording, is_result_written)
        self.reference_verdict, self.reader = verdict, reader

    def judge(self) -> None:
        """Read the reference, find the common range, and judge the recording by its subtitles."""
        reading, verdict, recording = self.read_reference(), self.reference_verdict, self.source
        recording.times = [(page.begin, page.end) for page in reading.pages]
        with self.catch_missing_page():
            try:
                recording.read(self.is_result_written)
            finally:
                verdict.recording = recording.file
            self.request.option = reading.option.word
            self.write(reading.pages)
            clock = self.find_clock(reading)
            verdict.shift = subtract_pts(reading.clock.origin, clock.origin)
            judged = find_common_range(recording.packets, reading, clock, self.request)
            shown = list_shown_pages(recording.packets, clock, self.request)
            verdict.unchecked += self.list_outside(shown, judged)
            begin, end = judged[:2]
            pages = [page._replace(begin=max(page.begin, begin), end=min(page.end, end))
                     for page in reading.pages if page.begin < end and begin < page.end]
            verdict.judged = judged._replace(is_cut=bool(pages) and pages[-1].end == end)
            self.write(pages)
            super().judge()

    def read_reference(self) -> Reading:
        """Read the reference. Raise `Unclear` if receivers do not show exactly what was read."""
        self.reader.judge()
        verdict = self.reader.reading_verdict
        name = verdict.request.recording
        if verdict.word != AS_SHOWN or not verdict.reading:
            raise Unclear(f"{name}, page {verdict.request.page_name}: {verdict.last_line}")
        if verdict.reading.day_begin:
            raise Unclear(f"{name} runs over midnight: cut both recordings there")
        self.listener.printer.print_line(f"{name}: {verdict.last_line}")
        return verdict.reading

    def write(self, pages: list[ShownPage]) -> None:
        """Write pages as the subtitle file."""
        verdict = self.reader.reading_verdict
        with open(self.request.stl_path, "wb") as file:
            file.write(make_stl(self.reader.reading._replace(pages=pages), "", verdict.languages,
                                b"000101"))
        self.names.set_subtitle_file(self.request.stl_path)

    def find_clock(self, reading: Reading) -> Clock:
        """Return the clock from --start, or else the clock with which the subtitles match best."""
        subtitles = self.find_subtitles()
        if not subtitles and self.request.start is None:
            raise Unclear("the reference shows no subtitle, so no clock can be estimated: give "
                          "--start and --reference-start")
        full_range = TimedPart(subtitles[0].begin, subtitles[-1].end, NO_CLOCK) if subtitles else \
            TimedPart(reading.first, reading.last + 1, NO_CLOCK)
        search = PartSearch(self.request, full_range, None)
        return find_parts(search, self.source, self.listener).alignments[0].clock

    def list_outside(self, shown: Sequence[ShownPage], judged: JudgedRange) -> Iterator[Unchecked]:
        """Yield entries about the subtitles of both recordings outside of the common range. The
        recording shows the pages `shown`."""
        for name, pages in zip(self.reference_verdict.names, (shown, self.reader.reading.pages)):
            before = [page for page in pages if page.begin < judged.begin]
            after = [page for page in pages if page.end > judged.end]
            for found, text in ((before, f"before {format_frame(judged.begin)}, when both "
                                 "recordings have begun"),
                                (after, f"after {format_frame(judged.end - 1)}, when one ends")):
                if found:
                    first, last = (format_frame(frame) if frame >= 0 else None
                                   for frame in (found[0].begin, found[-1].end - 1))
                    yield Unchecked(OUTSIDE, f"{counted(len(found), 'subtitle')} of {name} "
                                    f"{text}", None, first, last)

    def explain(self, part: Part) -> Part:
        """Return a copy of a part with the causes of its faults, if there is a subtitle. If the
        range ends during a subtitle and `check` trusts all its frames, fault 74 alone is no
        difference, so it has no cause."""
        output, timeline, judged = part.check_output, part.decoded_pages, self.judged
        is_only_cut = judged.is_cut and output.fault_count == 1 and END in output.fault_numbers \
            and part.trusted_frames.total() == judged.end - judged.begin
        if timeline and is_only_cut:
            part = dataclasses.replace(
                part, causes=Causes(part.expected_pages(), timeline),
                delays=measure_delays(part, None, self.request, self.is_result_written))
        elif self.verdict.subtitle_count:
            return super().explain(part)
        return dataclasses.replace(part, severity=self.verdict.severity,
                                   is_recording_read=part.is_read())


def list_shown_pages(packets: Packets, clock: Clock, request: Request) -> list[ShownPage]:
    """Return the pages that a recording shows, except blank ones. Frames before 00:00:00:00, in
    which it may begin if no clock was given, are negative."""
    pts = [*packets.pts()]
    is_early = compute_frame(pts[0], clock.origin) > compute_frame(pts[-1], clock.origin)
    early = compute_frame(clock.origin, pts[0]) + 1 if is_early and request.start is None else 0
    timeline = Timeline(packets, request.page, wrap_pts(clock.origin - TICKS * early),
                        request.within, (0, packets.count - 1))
    return [page._replace(begin=page.begin - early, end=page.end - early)
            for page in list_spans(timeline) if page.rows != BLANK_PAGE]


def find_common_range(packets: Packets, reading: Reading, clock: Clock, request: Request) \
        -> JudgedRange:
    """Return what a recording and the reference cover: from the first header of the page after the
    reference has begun to the last PES packet before it ends."""
    back = find_step_back(packets, (0, packets.count - 1))
    if back is not None:
        raise Unclear(f"the PTS go back at PES packet {back}, so the recordings can't be "
                      "compared: cut the recording there")
    frames = [(compute_frame(pts, clock.origin, request.within), number, flags)
              for number, pts, flags in packets if pts is not None]
    inside = [item for item in frames if reading.first <= item[0] <= reading.last]
    begin, first = next(((frame, number) for frame, number, flags in inside if HEADER in flags),
                        (0, None))
    if first is None:
        raise Unclear("no header of the page is sent while the reference lasts: check the clocks")
    end, last = inside[-1][0] + 1, inside[-1][1]
    # A recording that has begun, or goes on, must also show the changes that it sent nothing for.
    has_begun = any(HEADER in flags for _, number, flags in frames if number < inside[0][1])
    if has_begun and has_change(reading, reading.first + 1, begin - request.within):
        begin = reading.first
    if frames[-1][1] > last and has_change(reading, end, reading.last + 1 - request.within):
        end = reading.last + 1
    return JudgedRange(begin, end, (first, last), clock, False)


def has_change(reading: Reading, begin: int, end: int) -> bool:
    """Return whether the reference changes in the frames from `begin` up to, but not including,
    `end`."""
    return any(begin <= frame < end for page in reading.pages for frame in (page.begin, page.end))
