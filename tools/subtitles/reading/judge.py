"""Read a page of a recording, and judge the recording by the subtitles that were read."""
from __future__ import annotations

import dataclasses
import functools
import os
from typing import Callable, Iterator, Sequence

from ..clock.start import TimedPart
from ..common.times import FRAMES_OF_A_DAY, Spans
from ..formats.listing import CHARACTER_SET, CLOCK_JUMP, NamedFault
from ..formats.midnight import move_times
from ..formats.stl import Subtitle
from ..formats.stl_writer import StoredPage
from ..formats.teletext import NationalOption
from ..judging.cues import Cue, CueJudge
from ..judging.pair import LocatedRecording, PairJudge
from ..judging.part import Part
from ..judging.status import ACCEPTED
from ..judging.timing import (
    NO_CLOCK, PartClocks, PartSearch, find_start_clock, get_given_clock)
from ..recording.recording import Recording
from ..request.request import PES_CHOICE, Selection, Unclear, write_moved_copy
from ..stream.packets import Range
from .received import CUT_TEXTS, Reading, make_stl, prefer_option, read_pages
from .result import JudgedRange, RangeVerdict, ReadingVerdict

# The warnings that forbid `as shown`: receivers may show other characters, or the times are not
# those of the pictures
FAULTS_BY_WARNING = {"character_set": CHARACTER_SET, "clock_jump": CLOCK_JUMP}
WHOLE_DAY = TimedPart(0, FRAMES_OF_A_DAY, NO_CLOCK)
ENHANCED = 70  # a packet X/25 to X/28 while the page is open
BEFORE, AFTER = "the in-cue may be earlier, since check does not trust the frame before it", \
    "the out-cue may be later, since check does not trust the frame after it"


class RangeJudge(PairJudge):
    """Judges a range of a recording by subtitles that were read from a recording. The clock is
    known, so it is not estimated. A range without subtitles is judged, too."""

    may_be_empty = True
    range_text = ""  # says which PES packets are judged

    def __init__(self, verdict: RangeVerdict, recording: Recording,
                 is_result_written: bool) -> None:
        super().__init__(verdict, recording.command_paths, recording.names, recording.listener,
                         is_result_written)
        self.range_verdict = verdict
        self.recording = self.source = recording

    @property
    def judged(self) -> JudgedRange:
        assert self.range_verdict.judged
        return self.range_verdict.judged

    @functools.cached_property
    def located_recording(self) -> LocatedRecording:
        """Return the recording with a single part, the judged range."""
        subtitles = self.find_subtitles()
        self.verdict.subtitle_count = len(subtitles)
        part = TimedPart(self.judged.begin, self.judged.end, self.judged.clock)
        return LocatedRecording(self.source, PartClocks(PartSearch(self.request, part, None),
                                                        [part], [], ""), subtitles)

    def find_packets(self, part: Part, programme: PartSearch) -> Range:
        """Return the range of PES packets to judge, and report it."""
        (first, last), count = self.judged.pes, part.packets.count
        self.listener.add_selection(Selection(
            PES_CHOICE, f"{first}-{last}", f"range: {last - first + 1} of {count} PES packets, "
            f"{self.range_text}", last - first + 1, count, part.number))
        return first, last


class ReadingJudge(RangeJudge):
    """Reads a page, writes the subtitles to the file of the request, and judges all PES packets by
    them, not only those around the subtitles. `read_contents` reads the recording with `survey`."""

    range_text = "from the first header of the page on"

    def __init__(self, verdict: ReadingVerdict, recording: Recording,
                 read_contents: Callable[[], None], is_result_written: bool,
                 option: NationalOption | None = None) -> None:
        super().__init__(verdict, recording, is_result_written)
        self.reading_verdict, self.option = verdict, option
        self.read_contents = read_contents

    @property
    def reading(self) -> Reading:
        assert self.reading_verdict.reading
        return self.reading_verdict.reading

    def judge(self) -> None:
        """Read the page, and judge the recording by it."""
        self.read_contents()
        self.verdict.recording = self.source.file
        self.reading_verdict.languages = self.source.survey.list_pages(self.request.pid).get(
            self.request.page, [])
        with self.catch_missing_page():
            self.source.choose_packets()
            self.read_page()
            super().judge()

    def read_page(self) -> None:
        """Store in the verdict what is shown on the page, and write the subtitle file."""
        verdict, request, recording = self.reading_verdict, self.request, self.source
        clock = get_given_clock(request) or find_start_clock(
            PartSearch(request, WHOLE_DAY, None), recording, self.listener)
        languages = prefer_option(verdict.languages, self.option)
        verdict.reading = reading = read_pages(
            recording.packets, request, clock, languages,
            lambda first, last: self.format_call("--pes", f"{first}-{last}"))
        verdict.judged = JudgedRange(reading.first, reading.last + 1, reading.pes, reading.clock,
                                     reading.is_cut)
        verdict.named_faults += reading.faults
        verdict.unchecked += reading.unchecked
        request.option = reading.option.word
        if self.option and self.option != reading.option:
            raise Unclear(f"--option is {self.option.word}, but C12 to C14 of the headers of the "
                          f"page select {reading.option.word}")
        data = make_stl(reading, os.path.basename(recording.name), languages, recording.date)
        with open(request.original_path, "wb") as file:
            file.write(data)
        if reading.day_begin:
            write_moved_copy(request, move_times(data, reading.day_begin), self.names.folder)
        self.names.set_subtitle_file(request.stl_path, request.moved_stl is not None)

    def add_recording_warnings(self, recording: Recording, origin: int, part: TimedPart) -> None:
        """Add warnings about the recording and the PID. Some of them are faults of a reading."""
        super().add_recording_warnings(recording, origin, part)
        for warning in [*self.verdict.warnings]:
            if name := FAULTS_BY_WARNING.get(warning.kind):
                self.verdict.warnings.remove(warning)
                self.verdict.named_faults.append(NamedFault(name, warning.line, warning.time))

    def list_timely_changes(self, part: Part, subtitles: Sequence[Subtitle]) -> list[int]:
        """Return nothing, since the times of the subtitles come from the Teletext PTS."""
        return []

    def explain(self, part: Part) -> Part:
        """Return a copy of a part without causes, since a cause says how the recording differs from
        the subtitles, but with the reasons why subtitles are not certain."""
        verdict, reading = self.reading_verdict, self.reading
        part = dataclasses.replace(
            part, severity=verdict.severity, is_recording_read=part.is_read(),
            timeline=lambda: reading.timeline)
        part = dataclasses.replace(part, doubts=dict(list_doubts(part, reading)))
        judge, enhanced = CueJudge(part), part.check_output.fault_spans.get(
            ENHANCED, Spans())
        for number, page in enumerate(reading.written_pages, 1):
            assert isinstance(page.stored, StoredPage)
            subtitle = Subtitle(number, number, page.begin, page.end, *page.stored)
            verdict.certain_count += not judge.describe_doubt(Cue(subtitle, page.rows, None,
                                                                  page.rows, page.begin, page.end))
            if any(True for _ in enhanced.between(page.begin, page.end)):
                verdict.enhanced_numbers.append(number)
        self.listener.add_notes(*verdict.describe_pages())
        return part


def list_doubts(part: Part, reading: Reading) -> Iterator[tuple[int, str]]:
    """Yield the number of each subtitle that the recording cuts, or whose cues may be different
    since the frame before or after it is not trusted, with the reason."""
    for number, page in enumerate(reading.written_pages, 1):
        if page.cut:
            yield number, CUT_TEXTS[page.cut]
        elif not is_trusted(part, reading, page.begin - 1):
            yield number, BEFORE
        elif not is_trusted(part, reading, page.end):
            yield number, AFTER


def is_trusted(part: Part, reading: Reading, frame: int) -> bool:
    """Return whether `check` trusts a frame, or the frame was not read."""
    if not reading.first <= frame <= reading.last:
        return True
    if part.check_output.verdict == ACCEPTED:
        return not any(span.first <= frame <= span.last for span in part.unmarked_losses)
    return any(True for _ in part.trusted_frames.between(frame, frame + 1))
