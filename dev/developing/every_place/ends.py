"""Find the faults that are active at the end of a frame."""
from __future__ import annotations

from typing import Iterator

from subtitles.common.times import format_frame
from .due import ExpectedPages
from .on_air import DecodedFrames
from .rows import COLUMNS, SPACE
from .told import format_ended, format_refused
from .arguments import Options

NO_CELL = -1  # cell number for faults without a cell


class FrameEnds:
    """The active faults at the end of a frame, for comparison with the next frame."""

    def __init__(self, due: ExpectedPages, options: Options) -> None:
        self.due, self.options = due, options
        self.first = self.frame = 0  # first and previous frame
        self.active: dict[int, int] = {}  # cell, or NO_CELL, of each active fault number
        # The frame from which the page has been incomplete.
        self.incomplete_since: int | None = None
        self.is_late = False

    def find_active_faults(self, frame: int, decoded: DecodedFrames, headers: list[int],
                           sent: list[int]
                      ) -> dict[int, int]:
        """Return the number of each active fault at the end of a frame, with its cell or NO_CELL.

        `headers` contains the frames with headers of the page, and `sent` those with PES packets.
        """
        options = self.options
        is_open = options.is_complete and decoded.is_open
        different_cell = None if self.due.is_undecided(frame) else \
            decoded.find_first_difference(self.due.at(frame))
        is_finished = different_cell is None and not is_open
        if is_finished:
            self.incomplete_since = None
        elif self.incomplete_since is None:
            self.incomplete_since = frame
        self.is_late = self.is_overdue(frame)
        cell = different_cell if self.is_late else None
        cell = self.find_unexpected_cell(decoded.page, frame) if cell is None else cell
        is_repeat_overdue = frame >= self.first + options.every - 1
        result = {
            72: cell is not None,
            73: is_repeat_overdue and not any(frame < item + options.every for item in headers),
            77: self.is_late and is_open,
            78: any(map(self.due.is_undecided, self.list_allowed_frames(frame))),
            79: options.pace and not any(frame < item + options.pace for item in sent)}
        return {number: cell if number == 72 and cell is not None else NO_CELL
                for number, is_so in result.items() if is_so}

    def list_allowed_frames(self, frame: int) -> list[int]:
        """Return `frame`, and as many frames before it as --within allows."""
        return [frame, *range(max(self.first, frame - self.options.within), frame)]

    def is_overdue(self, frame: int) -> bool:
        """Return whether the page is incomplete and late.

        A page is late after `within` frames, or if the subtitle ends before its page is complete.
        """
        start, within = self.incomplete_since, self.options.within
        return start is not None and (within == 0 or frame >= start + within or any(
            begin >= start or begin < self.first == start
            for begin in self.due.list_starts(frame + 1)))

    def find_unexpected_cell(self, page: bytes, frame: int) -> int | None:
        """Return the index of the first cell that differs from a space and from all allowed pages.

        Return `None` if there is no such cell, or if an allowed page is unknown.
        """
        frames = self.list_allowed_frames(frame)
        if any(map(self.due.is_undecided, frames)):
            return None
        expected_pages = [self.due.at(item) for item in frames]
        if page in expected_pages:
            return None
        return next((at for at, code in enumerate(page)
                     if code != SPACE and all(due[at] != code for due in expected_pages)), None)

    def at(self, frame: int, decoded: DecodedFrames, headers: list[int], sent: list[int]
           ) -> Iterator[tuple[int, str]]:
        """Yield the number and the printed line of each fault that begins or ends at a frame."""
        active_faults = self.find_active_faults(frame, decoded, headers, sent)
        for number in (72, 73, 77, 78, 79):
            now, before = active_faults.get(number), self.active.get(number)
            if now == before:
                continue
            if before is not None:
                yield number, format_ended(number, f"frame {format_frame(self.frame)}")
            if now is not None:
                yield number, format_refused(number, self.describe_place(number, frame, now))
        self.active, self.frame = active_faults, frame

    @staticmethod
    def describe_place(number: int, frame: int, cell: int) -> str:
        arguments = f"frame {format_frame(frame)}"
        return f"{arguments} row {cell // COLUMNS + 1} column {cell % COLUMNS}" if number == 72 \
            else arguments

    def list_final_lines(self) -> Iterator[tuple[int, str]]:
        """Yield a line for the end of each fault that is active after the last frame."""
        for number in sorted(self.active):
            yield number, format_ended(number, f"frame {format_frame(self.frame)}")
