"""The verdicts by subtitles that were read from a recording, and the JSON values of a reading."""
from __future__ import annotations

import dataclasses
from typing import Callable, Iterator, NamedTuple, Sequence

from ..clock.start import Clock, FIRST_PES, GIVEN
from ..common.checks import CLOCK, OPTION, OUTSIDE, describe_kinds
from ..common.command_line import counted, format_pid
from ..common.shapes import Members
from ..common.times import format_frame, format_origin
from ..judging.status import DIFFERS, Decision, Grounds, NOT_READ, WITH_FAULTS, decide_reading
from ..judging.subtitles import SubtitleCounts
from ..judging.verdict import Verdict
from ..stream.packets import Range
from .received import CUT_TEXTS, Reading, find_likely_errors

LIKELY_ERROR = "from an adjoining subtitle in one or two characters: a transmission error?"
X_26 = "packets X/26 were sent, so receivers above level 1 show other characters"
CLOCK_TEXTS = {GIVEN: "as given", FIRST_PES: "from the first PES packet, which is at 00:00:00:00"}


class JudgedRange(NamedTuple):
    """The frames that are judged, from `begin` up to, but not including, `end`, their PES packets
    and their clock."""

    begin: int
    end: int
    pes: Range
    clock: Clock
    is_cut: bool  # whether the page is shown in the last frame


@dataclasses.dataclass
class RangeVerdict(Verdict):
    """The verdict on a range of a recording that is judged by subtitles read from a recording."""

    judged: JudgedRange | None = None
    decide: Callable[[Grounds, bool, int], Decision] = decide_reading

    @property
    def decision(self) -> Decision:
        judged, part = self.judged, self.parts[0] if self.parts else None
        untrusted = judged.end - judged.begin - part.trusted_frames.total() \
            if judged and part else 0
        return self.decide(self.collect_grounds(), bool(judged and judged.is_cut), untrusted)

    @property
    def success(self) -> str:
        """Return the first words of the last line if there is no fault."""
        return self.word

    @property
    def line(self) -> str | None:
        if not self.is_judged:
            return None
        if self.word in (WITH_FAULTS, DIFFERS) or not self.judged:
            return f"{self.word}: {self.fault_text}"
        kinds, (begin, end, *_) = self.unchecked_kinds, self.judged
        return f"{self.success}: {counted(self.subtitle_count, 'subtitle')} in " \
            f"{counted(end - begin, 'frame')}{'; not checked: ' * bool(kinds)}{', '.join(kinds)}"

    @property
    def fault_text(self) -> str:
        """Return the worst fault, or the first loss if only the PCR shows losses."""
        worst, part = self.worst_named_fault, self.worst_part
        return f"{worst.name}, {worst.text}" if worst else str(part.first_text) if part else next(
            gap.format_line() for gap in self.gaps if gap.is_judged)

    @property
    def worst_line(self) -> str | None:
        return self.line

    def list_unchecked_lines(self) -> list[str]:
        """Return the lines about everything that was not checked."""
        return [*super().list_unchecked_lines(), *(
            f"not checked: {item.text}" for item in self.unchecked
            if item.kind in (CLOCK, OPTION, OUTSIDE))]


@dataclasses.dataclass
class ReadingVerdict(RangeVerdict):
    """The verdict on a page: what was read, and how `check` judges the recording by it."""

    languages: Sequence[str] = ()  # announced languages
    reading: Reading | None = None
    certain_count: int = 0  # number of certain subtitles
    enhanced_numbers: list[int] = dataclasses.field(default_factory=list)  # subtitles with X/26

    @property
    def has_clock(self) -> bool:
        """Return true, since the subtitles have the clock of the recording."""
        return True

    @property
    def sentence(self) -> str:
        """Return a sentence about the page: where it is sent, and how many subtitles it has."""
        if not self.is_judged:
            return f"Not read: {(self.unjudged_reason or '').splitlines()[0]}."
        if not self.reading or not self.parts:
            return f"{self.named_faults[0].text}."
        clock, stream = self.reading.clock, self.parts[0].stream
        where = format_pid(stream[0]) if stream else "no PID"
        times = CLOCK_TEXTS.get(clock.source, "by the first picture")
        return f"Page {self.request.page_name} on {where} " \
            f"({' '.join(self.languages) or 'not announced'}), {self.request.option}: " \
            f"{counted(len(self.reading.pages), 'subtitle')}, {self.certain_count} certain. " \
            f"Times are {times} ({format_origin(clock.origin)}). " \
            f"{describe_kinds({*self.unchecked_kinds} - {CLOCK})}".rstrip()

    @property
    def last_line(self) -> str:
        """Return the line that says whether the page was read."""
        return self.line or f"{NOT_READ}: {(self.unjudged_reason or '').splitlines()[0]}"

    @property
    def subtitle_counts(self) -> SubtitleCounts | None:
        """Return the numbers of subtitles that are in the file, and that are not."""
        if not self.reading or not self.is_judged:
            return None
        written = len(self.reading.written_pages)
        return SubtitleCounts(written, len(self.reading.pages) - written)

    def describe_pages(self) -> Iterator[str]:
        """Yield the sentences about cut subtitles, X/26, likely errors and an empty page."""
        assert self.reading
        pages = self.reading.pages
        yield from (f"{format_frame(page.begin)}: {CUT_TEXTS[page.cut]}" for page in pages
                    if page.cut)
        enhanced = [self.reading.written_pages[number - 1] for number in self.enhanced_numbers]
        likely_errors = [pages[at] for at in sorted(find_likely_errors(pages))]
        for found, reason in ((enhanced, X_26), (likely_errors, f"it differs {LIKELY_ERROR}")):
            if found:
                yield f"{counted(len(found), 'subtitle')}, first at " \
                    f"{format_frame(found[0].begin)}: {reason}"
        if not pages:
            yield "the page was blank all the time"

    def list_subtitle_rows(self) -> Iterator[Members]:
        """Yield the JSON value of each subtitle in the file."""
        if not self.reading:
            return
        errors, enhanced = find_likely_errors(self.reading.pages), {*self.enhanced_numbers}
        written = [(at, page) for at, page in enumerate(self.reading.pages) if page.is_written]
        for number, ((at, page), row) in enumerate(zip(written, super().list_subtitle_rows()), 1):
            notes = [row["reason"], *[X_26] * (number in enhanced),
                     *[f"differs {LIKELY_ERROR}"] * (at in errors)]
            yield {**row, "cut": page.cut, "reason": "; ".join(filter(None, notes)) or None}

    def describe_reading(self) -> Members | None:
        reading = self.reading
        return reading and {
            "languages": [*self.languages], "from": format_frame(reading.first),
            "to": format_frame(reading.last), "shown": len(reading.pages),
            "written": len(reading.written_pages), "certain": self.certain_count,
            "enhanced": len(self.enhanced_numbers)}
