"""List what was not checked, for reports and JSON results."""
from __future__ import annotations

from typing import Iterator

from ..common.checks import NO_RECORDING, NOT_READ, OUTSIDE, REFUSED_SUBTITLES, ROW_0
from ..common.command_line import counted
from ..common.times import ALL_DAY
from ..formats.stl import SubtitleFile
from .unchecked import Unchecked, summarize_pictures
from .verdict import SCOPE_PAIR, Verdict

UNCHECKED_ROW_0 = "row 0, the header line of the page"
UNCHECKED_GAP = "the transmission between the parts"


def list_unchecked(verdict: Verdict) -> Iterator[Unchecked]:
    """Yield everything that was not checked."""
    yield from verdict.list_unchecked()
    yield from (Unchecked(kind, text) for kind, text in list_outside(verdict))


def describe_unchecked(verdict: Verdict) -> Iterator[str]:
    """Yield descriptions of everything that was not checked."""
    entries = verdict.list_unchecked()
    yield from dict.fromkeys(item.text for item in entries if not item.has_video)
    yield from summarize_pictures(entries)
    yield from (text for _, text in list_outside(verdict))


def list_outside(verdict: Verdict) -> Iterator[tuple[str, str]]:
    """Yield the kind and the description of what was not judged, or that can't be judged."""
    request = verdict.request
    if request.recording is None:
        yield NO_RECORDING, "the transmission: no recording was given"
    if len(verdict.parts) > 1:
        yield OUTSIDE, UNCHECKED_GAP
    if any(part.pes for part in verdict.parts):
        yield ROW_0, UNCHECKED_ROW_0
        judged_count = sum(part.pes[1] + 1 - part.pes[0] for part in verdict.parts if part.pes)
        count = verdict.parts[0].packets.count
        if judged_count < count and verdict.scope == SCOPE_PAIR:
            yield OUTSIDE, f"{counted(count - judged_count, 'PES packet')} of {count:,}, before " \
                "and after the subtitles"
    elif request.recording and not verdict.recording:
        yield NOT_READ, f"{request.recording}: it was not read"
    if request.between != ALL_DAY and verdict.parts:
        file = SubtitleFile(verdict.parts[0].names.program_stl)
        count = sum(not request.between.includes(begin) for begin in file.begins)
        yield OUTSIDE, f"{counted(count, 'subtitle')} outside of --from and --to"
    if verdict.valid_subtitles:
        skipped = counted(len(verdict.valid_subtitles.skipped_positions), "subtitle")
        yield REFUSED_SUBTITLES, f"{skipped} refused in the file, or followed by a refused subtitle"
    yield from ((OUTSIDE, f"{gap.format_line()}, outside the judged range")
                for gap in verdict.gaps if not gap.is_judged)
