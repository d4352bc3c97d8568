"""Monitor the feed, the disks, the schedule and the results."""
from __future__ import annotations

import contextlib
import os
from typing import Any, Collection, Sequence

from ..cli.state import State, format_date_or_none
from ..common.command_line import Stop
from ..formats.teletext import Page, page_name
from ..stream.survey import survey
from .decision import HOUR, is_clock_wrong
from .segments import (
    CLOCK_TOLERANCE, NEW, NOTE, TimedName, compare_times, find_clock_jumps, list_segment_names)

SILENCE = 10.0  # seconds without data after which the alarm `silence` is active
PAGE_SILENCE = 600.0  # seconds without a page header after which the alarm for the page is active
SEARCH_EVERY = 60.0  # seconds between searches for page headers
NEWEST_SEGMENTS = 3  # number of segments that show when the last byte was written
MAX_ZONE_SECONDS = 86_400.0  # seconds by which a time zone can't change the name of a segment


class Monitor(State):
    """The state of the feed, the disks, the schedule and the results."""

    def __init__(self) -> None:
        super().__init__()
        self.next_search = 0.0
        self.segments, self.oldest, self.last_byte = 0, 0.0, 0.0
        self.is_deleted_early = self.is_clock_wrong = self.has_note = False
        self.pages_on_air: Collection[Page] = ()  # pages of programmes that must have begun
        self.headers: dict[Page, float] = {}  # time of the last header of each page
        self.schedule_faults = list[str]()

    def look(self, segments: str, out: str, now: float, program: str,
             pages: Collection[Page], needed: float) -> None:
        """Update the state of the segments and the disks. Segments after the time `needed` must not
        have been deleted."""
        self.look_at_folders(now, segments=segments, results=out)
        names = list[TimedName]()
        with contextlib.suppress(OSError):
            names = list_segment_names(segments)
        self.segments, self.oldest = len(names), names[0][0] if names else 0.0
        self.has_note = os.path.exists(os.path.join(segments, NOTE))
        self.is_deleted_early = self.oldest > needed and not names[0][1].endswith(NEW)
        past_names = [item for item in names if item[0] <= now + CLOCK_TOLERANCE]
        self.look_at_clock(segments, names, past_names)
        is_new = self.headers.keys() != {*pages}
        self.headers = {page: min(self.headers.get(page, 0.0), now) for page in pages}
        if is_new or not now < self.next_search <= now + SEARCH_EVERY:
            self.next_search = now + SEARCH_EVERY
            first = now - (PAGE_SILENCE if is_new else 2 * SEARCH_EVERY)
            self.search(segments, [item for item in past_names if item[0] >= first], program)

    def look_at_clock(self, folder: str, names: Sequence[TimedName],
                      past_names: Sequence[TimedName]) -> None:
        """Compare the names and the last writes of segments with the clock. A segment from the
        future is no sign that the feed is alive. A file that no clock could name is ignored."""
        # At first and while the clock is wrong, search all segments, since an old jump may matter.
        begin = self.now - HOUR if self.last_byte and not self.is_clock_wrong else 0.0
        self.last_byte = 0.0
        newest = sorted({*names[-NEWEST_SEGMENTS:], *past_names[-NEWEST_SEGMENTS:]})
        with contextlib.suppress(OSError):
            self.is_clock_wrong = is_clock_wrong(*find_clock_jumps(folder, begin), self.now)
            for segment, write, is_right in compare_times(folder, newest):
                if segment.begin > write + MAX_ZONE_SECONDS:
                    continue
                self.is_clock_wrong |= not is_right or segment.end > self.now + CLOCK_TOLERANCE
                if write <= self.now + 1:
                    self.last_byte = max(self.last_byte, min(write, self.now))

    def search(self, folder: str, names: Sequence[TimedName], program: str) -> None:
        """Search segments for headers of the scheduled pages, from the last segment back."""
        missing = {*self.headers}
        for _, name in reversed(names):
            for page in sorted(missing):
                path = os.path.join(folder, name)
                with contextlib.suppress(OSError, Stop):
                    found = survey(program, path, page)
                    if any(packets.has_page for packets in found.by_pid.values()):
                        missing.discard(page)
                        self.headers[page] = min(os.stat(path).st_mtime, self.now)

    def find_alarms(self) -> dict[str, bool]:
        """Return whether each alarm is active."""
        alarms = super().find_alarms()
        alarms["disk"] |= self.is_deleted_early or self.has_note
        return {
            "silence": self.now - self.last_byte > SILENCE, "clock": self.is_clock_wrong, **alarms,
            "late": bool(self.late), "schedule": bool(self.schedule_faults),
            **{f"page {page_name(*page)}": self.now - max(header, self.oldest) > PAGE_SILENCE
               for page, header in sorted(self.headers.items())}}

    def find_warnings(self) -> list[str]:
        """Return the names of active alarms that are only warnings. Many inserters send a page only
        during programmes."""
        on_air = {f"page {page_name(*page)}" for page in self.pages_on_air}
        return [alarm for alarm, is_active in self.find_alarms().items() if is_active and (
            alarm == "schedule" or alarm.startswith("page ") and alarm not in on_air)]

    def make_contents(self) -> dict[str, Any]:
        """Return the contents of the state file."""
        return {
            **super().make_contents(), "last_byte": format_date_or_none(self.last_byte),
            "oldest": format_date_or_none(self.oldest), "segments": self.segments,
            "last_header": {page_name(*page): format_date_or_none(header)
                            for page, header in self.headers.items()},
            "schedule_faults": self.schedule_faults}
