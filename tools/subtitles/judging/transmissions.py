"""Find the expected page of each subtitle, its page transmissions, and faults in their headers."""
from __future__ import annotations

import bisect
import dataclasses
import functools
import os
import subprocess
from typing import Mapping, NamedTuple, Sequence

from ..common.command_line import counted
from ..common.files import make_temporary_folder
from ..common.times import ALL_DAY, FrameRange, Span, format_program_time
from ..formats.listing import CHANGED
from ..formats.stl import Subtitle, SubtitleList, read_stl, decode_subtitles, parse_subtitles
from ..formats.teletext import (
    ERASE, INHIBIT, NEWSFLASH, OPTION_BY_WORD, Page, SUBTITLE, SUPPRESS, select_option,
    has_bit, page_name)
from ..request.request import Request, Unclear, IncompleteAnswer
from ..stream.packets import CLOSED, HEADER, PES, PacketRun, Packets, parse_headers, read_subcode
from ..stream.receiver import (
    BLANK_PAGE, MIN_FRAMES, ReceiverState, Rows, Timeline, read_national_option)
from ..stream.survey import survey_runs
from .check import CheckOutput
from .pages import is_partial_page, join_page_text
from .waivers import Owners


ERASE_CLEAR = "C4 (erase page) is clear"
REPEAT_WITHOUT_ERASE = f"{ERASE_CLEAR}: a repeat that does not erase"
# The control bits of subtitle headers except C4, whether each must be set, and the message if it
# has the wrong value
CONTROL_BIT_FAULTS = (
    (SUBTITLE, True, "C6 (subtitle) is clear"),
    (SUPPRESS, True, "C7 (suppress header) is clear"),
    (NEWSFLASH, False, "C5 (newsflash) is set"),
    (INHIBIT, False, "C10 (inhibit display) is set"),
)
# Effects of a faulty control bit on receivers that use it, worst first
RECEIVER_EFFECTS = (
    (INHIBIT, False, "is not shown"),
    (SUBTITLE, True, "hides the picture"),
    (ERASE, True, "may appear over old text"),
    (SUPPRESS, True, "shows a header line"),
    (NEWSFLASH, False, "appears as a newsflash"),
)
OTHER_CHARACTERS = "is shown with wrong characters"


class PageHeader(NamedTuple):
    """A header of the page, the header before it, and whether rows of the page were still accepted
    when this header arrived."""

    header: bytes
    previous: bytes | None = None
    is_open: bool = False


def find_page_headers(run: PacketRun, state: ReceiverState) -> list[PageHeader]:
    """Return the headers of the page in a PES packet. `state` is the state of the decoder before
    this packet."""
    page_headers: list[PageHeader] = []
    before, is_open = state.header, state.is_open
    headers = iter(parse_headers(run.control))
    for flag in run.flags:
        if flag == HEADER:
            header = PageHeader(next(headers), before, is_open)
            page_headers.append(header)
            before, is_open = header.header, True
        elif flag == CLOSED:
            is_open = False
    return page_headers


def keeps_page(header: bytes) -> bool:
    """Return whether a header keeps the page, that is, whether C4 (erase page) is clear."""
    return not has_bit(header, ERASE)


def describe_missing_erase(page_header: PageHeader, request: Request) -> str:
    """Describe why a header wrongly does not erase the page. Return an empty string if the header
    erases the page, or does not have to."""
    if not keeps_page(page_header.header):
        return ""
    if not request.may_keep:
        return REPEAT_WITHOUT_ERASE
    codes = [read_subcode(header)
             for header in (page_header.header, page_header.previous or page_header.header)]
    if codes[0] != codes[1]:
        return f"{ERASE_CLEAR}, though the sub-code changes from {codes[1]} to {codes[0]}"
    if request.is_complete and page_header.is_open:
        return f"{ERASE_CLEAR}, and the page was still open: no header had terminated it"
    return ""


def describe_control_bits(header: bytes, option: str, erase_fault: str = "") -> list[str]:
    """Return messages about a header's control bits. The first is `erase_fault`, about C4."""
    faults = [erase_fault] if erase_fault else []
    faults += [words for bit, is_set, words in CONTROL_BIT_FAULTS if has_bit(header, bit) != is_set]
    bits, judged = read_national_option(header), OPTION_BY_WORD[option]
    sent = select_option(bits, judged)
    if sent is None:
        faults.append("C12, C13 and C14 are set, which is reserved")
    elif bits != judged.bits:
        faults.append(f"the header is {sent.name}, but --option is {option}")
    return faults


def describe_effect(headers: Sequence[PageHeader], request: Request) -> str:
    """Describe how the first faulty header affects some receivers."""
    numbers = next((header.header for header in headers if describe_control_bits(
        header.header, request.option, describe_missing_erase(header, request))), b"")
    wrong_texts = (words for bit, is_set,
                   words in RECEIVER_EFFECTS if numbers and has_bit(numbers, bit) != is_set
                   and not (bit == ERASE and request.may_keep))
    return next(wrong_texts, OTHER_CHARACTERS)


def describe_header_faults(headers: Sequence[PageHeader], request: Request) -> str:
    """Describe the faults in the first faulty header."""
    wrong_texts = (describe_control_bits(header.header, request.option,
                                         describe_missing_erase(header, request))
                   for header in headers)
    return "; ".join(next(filter(None, wrong_texts), []))


class KeepingHeaders(NamedTuple):
    """The number of page headers, and the number of headers with C4 clear. These do not erase the
    page, so a receiver keeps the earlier rows. The decoded page may then be correct although
    `check` reports fault 72, because a row is missing after the last header."""

    headers: int
    keeping: int

    def describe(self) -> str:
        """Return text such as `C4 (erase page) is clear in 3 of 20 headers`."""
        return f"{ERASE_CLEAR} in {self.keeping} of {counted(self.headers, 'header')}"


def count_keeping_headers(headers: Mapping[bytes, int], option: str) -> KeepingHeaders | None:
    """Count the headers that do not erase the page. Return `None` if there are none, or if any
    header has another fault."""
    keeping = sum(count for item, count in headers.items() if keeps_page(item))
    if not keeping or any(describe_control_bits(item, option) for item in headers):
        return None
    return KeepingHeaders(sum(headers.values()), keeping)


def name_omitted_rows(timeline: Timeline, expected: Rows, frame: int,
                      output: CheckOutput | None) -> str:
    """Describe which rows are missing after the last header before a frame. Return an empty string
    if this header erases the page, if the decoded page is not the expected page, or if a row has
    changed since the page was last erased."""
    header = timeline.get_state_at(frame).header
    at = bisect.bisect_right(timeline.header_frames, frame) - 1
    if header is None or not keeps_page(header) or at < 0 \
            or timeline.get_page_at(frame) != expected:
        return ""
    erased_at = timeline.erasure_frames[bisect.bisect_right(timeline.erasure_frames, frame) - 1] \
        if timeline.erasure_frames and timeline.erasure_frames[0] <= frame else 0
    changed = output.fault_spans.get(CHANGED) if output else None
    if changed and any(changed.between(erased_at, frame + 1)):
        return ""
    sent = timeline.header_frames[at]
    runs = [run for item in range(sent, min(frame, sent + timeline.within) + 1)
            for run in timeline.list_frame_runs(item)]
    sent_frame = sum(run.units - run.flags.count(HEADER) - run.flags.count(CLOSED) for run in runs)
    return describe_omitted_rows([number for number,
                                  cells in enumerate(expected, 1) if cells.strip(b" ")],
                                 output.find_fault_row(frame) if output else None, sent_frame)


def describe_omitted_rows(rows: Sequence[int], row: int | None, received: int) -> str:
    """Describe which rows are missing if only `received` packets followed the header. `rows` has
    the numbers of all rows. `check` reports the fault at row `row`."""
    if not rows:
        return ""
    if received <= 0:
        *others, last = map(str, rows)
        return f"rows {', '.join(others)} and {last}" if others else f"row {last}"
    more = len(rows) - received - 1
    first = "a row" if row is None else f"row {row}"
    return f"{first} and {more} more" if more > 0 else first


NO_SUBTITLE_FAULT = 82  # number of the fault reported for a file without subtitles
LONGEST_INTERVAL = "1500"  # value of --every, in frames, that results in the fewest repeats


class ExpectedPages(SubtitleList):
    """The subtitles of a programme with their expected pages. `timeline` has the pages that a
    receiver should decode, if there are any subtitles."""

    def __init__(self, subtitles: list[Subtitle], pages: list[Rows],
                 timeline: Timeline | None = None) -> None:
        super().__init__(subtitles)
        self.pages, self.timeline = pages, timeline

    def move(self, frames: int) -> ExpectedPages:
        """Return the pages as a clock expects them that is wrong by a number of frames."""
        return ExpectedPages([dataclasses.replace(item, begin=item.begin + frames,
                                                  end=item.end + frames)
                              for item in self.subtitles], self.pages, self.timeline)

    def find_owners(self, first: int, last: int) -> Owners:
        """Return which subtitles are expected from frame `first` to `last`."""
        begun = [self.count_begun(frame) for frame in (first, *self.list_cues(first, last))]
        return [{self.begins[count - 1] if is_due else None} for count, is_due in begun]

    @functools.cached_property
    def positions_by_page(self) -> dict[Rows, list[int]]:
        """Return the indices of the subtitles with each page."""
        by_page: dict[Rows, list[int]] = {}
        for place, page in enumerate(self.pages):
            by_page.setdefault(page, []).append(place)
        return by_page

    @functools.cached_property
    def positions_by_letters(self) -> dict[str, list[int]]:
        """Return the indices of the subtitles with each text."""
        positions_by_text: dict[str, list[int]] = {}
        for place, page in enumerate(self.pages):
            positions_by_text.setdefault(join_page_text(page), []).append(place)
        return positions_by_text

    def find_subtitle(self, page: Rows, frame: int) -> int | None:
        """Return the index of the subtitle with this page that begins nearest to a frame. Return
        `None` for a blank page, or if no subtitle has the page."""
        places = self.positions_by_page.get(page)
        return self.find_nearest(places, frame) if places and page != BLANK_PAGE else None

    def get_page_at(self, frame: int) -> Rows:
        """Return the page that is expected in a frame."""
        count, is_due = self.count_begun(frame)
        blank: Rows = BLANK_PAGE
        return self.pages[count - 1] if is_due else blank


def run_program(program: str, *arguments: str) -> list[str]:
    """Run the program and return its output lines; raise `IncompleteAnswer` if it fails."""
    process = subprocess.run([program, *arguments], stdin=subprocess.DEVNULL, check=False,
                             stdout=subprocess.PIPE, encoding="utf-8", errors="replace")
    lines = process.stdout.splitlines()
    if process.returncode and f"refused {NO_SUBTITLE_FAULT} " not in "".join(lines[-1:]):
        raise IncompleteAnswer(f"{arguments[0]} gave no result: {''.join(lines[-1:])}",
                               process.returncode)
    return lines


def read_subtitles(program: str, stl: str, between: FrameRange = ALL_DAY,
                   is_open: bool = False) -> list[Subtitle]:
    """Return the subtitles of a file that begin in the range `between`, from the output of `subttx
    show`. Parse the file in Python if it has refused or open subtitles."""
    try:
        subtitles = decode_subtitles(read_stl(stl)) if is_open else \
            parse_subtitles(run_program(program, "show", "--", stl))
    except Unclear:
        if between == ALL_DAY:
            raise
        subtitles = decode_subtitles(read_stl(stl))
    return [subtitle for subtitle in subtitles if between.includes(subtitle.begin)]


def schedule_pages(program: str, stl: str, subtitles: list[Subtitle], page: Page, option: str,
                   between: FrameRange = ALL_DAY,
                   layout_arguments: Sequence[str] = ()) -> ExpectedPages:
    """Return the expected pages of a file's subtitles, decoded from the output of `subttx
    schedule`. `layout_arguments` contains the options for drawing pages."""
    if not subtitles:
        return ExpectedPages([], [])
    with make_temporary_folder("subttx-qc-") as folder:
        path = os.path.join(folder, "due.pes")
        run_program(program, "schedule", "--page", page_name(*page), "--option", option,
                    "--every", LONGEST_INTERVAL, *map(format_program_time, between.words()),
                    *layout_arguments, "--", stl, path)
        timeline = Timeline(Packets(PES), page, 0)
        for run, texts in survey_runs(program, path, page):
            timeline.receive_run(run, texts)
    timeline.received_runs.clear()  # PES packets that nothing uses need much memory
    return ExpectedPages(subtitles,
                         [timeline.get_page_at(subtitle.begin) for subtitle in subtitles], timeline)


class PageTransmissions:
    """Finds the page transmissions of subtitles among the decoded pages.

    `place` is the index of a subtitle, and `number` the index of a decoded page. A page
    transmission belongs to the nearest subtitle with its page. The search window of a subtitle
    lasts from the previous TCO to the next TCI, and at least from 250 frames before its TCI to 250
    frames after its TCI.
    """

    def __init__(self, expected: ExpectedPages, timeline: Timeline) -> None:
        self.expected, self.timeline = expected, timeline
        self.subtitles, self.pages = expected.subtitles, expected.pages

    def is_expected_page(self, frame: int) -> bool:
        return self.timeline.get_page_at(frame) == self.expected.get_page_at(frame)

    def split_frames(self, first: int, last: int) -> list[Span]:
        """Split the frames of a fault wherever the expected or the decoded page changes."""
        begins = {first, *self.expected.list_cues(first, last)}
        begins.update(self.timeline.frames[number]
                      for number in self.timeline.list_page_numbers(first, last + 1)
                      if self.timeline.frames[number] > first)
        sorted_begins = sorted(begins)
        return [Span(begin, end - 1) for begin, end in zip(sorted_begins, [*sorted_begins[1:],
                last + 1])]

    def find_owner(self, frame: int) -> int:
        """Return the index of the subtitle that a wrong page in a frame belongs to. This is the
        last subtitle that begins at or before this frame, or the subtitle whose page was sent at
        the wrong time."""
        place = self.expected.find_place(frame)
        number = self.timeline.find_page_number_at(frame)
        if place < 0 or number < 0:
            return max(place, 0)
        if place and self.is_delayed_page(number, place, frame):
            return self.find_owner(self.subtitles[place].begin - 1)
        if self.is_sent_for_next(number, place):
            return place + 1
        page = self.timeline.pages[number]
        sent = self.expected.find_subtitle(page, self.timeline.frames[number])
        if sent is None or sent == place or \
                self.find_transmission(sent) != self.timeline.frames[number]:
            return place
        is_due = frame < self.subtitles[place].end
        if is_due and not (sent > place and (self.was_sent_by_cue(place)
                                             or self.was_replaced_at_cue(place))):
            return place
        return sent

    def was_replaced_at_cue(self, place: int) -> bool:
        """Return whether a page that belongs to no subtitle is decoded at the TCI of a subtitle."""
        number = self.timeline.find_page_number_at(self.subtitles[place].begin)
        return number >= 0 and self.is_unknown_page(number, place)

    def was_sent_by_cue(self, place: int) -> bool:
        """Return whether the page of a subtitle was sent before or at its TCI, or at most the
        allowed delay later."""
        sent_frame = self.find_transmission(place)
        begin = self.subtitles[place].begin
        return sent_frame is not None and sent_frame <= begin + self.timeline.within or \
            self.timeline.get_page_at(begin) == self.pages[place]

    def is_delayed_page(self, number: int, place: int, frame: int) -> bool:
        """Return whether page `number` was already wrong before the TCI of a subtitle, and is
        replaced within the allowed delay. If so, the fault belongs to the previous subtitle."""
        begin, following = self.subtitles[place].begin, number + 1
        limit = begin + self.timeline.within
        return self.timeline.frames[number] < begin <= frame < limit and \
            following < len(self.timeline.frames) and self.timeline.frames[following] <= limit and \
            not self.is_expected_page(begin - 1)

    def is_sent_for_next(self, number: int, place: int) -> bool:
        """Return whether page `number` was sent for the subtitle after `place`. This is so if the
        page belongs to no subtitle, follows the page of the subtitle at `place`, and lasts longer
        in the time of the next subtitle than before its TCI."""
        if place + 1 >= len(self.subtitles) or not self.is_unknown_page(number, place):
            return False
        item, following = self.subtitles[place], self.subtitles[place + 1]
        return item.begin < self.timeline.frames[number] < following.begin and \
            self.was_sent_by_cue(place) and \
            self.count_frames(number, following.begin, following.end) > \
            self.count_frames(number, item.begin, following.begin)

    def find_search_window(self, place: int) -> Span:
        """Return the frames in which to search for the page transmission of a subtitle."""
        begin = self.subtitles[place].begin
        return Span(min(self.expected.before(place), begin - MIN_FRAMES),
                    max(self.expected.after(place), begin + MIN_FRAMES))

    def find_transmission(self, place: int) -> int | None:
        """Return the frame, nearest to a subtitle's TCI, in which its page was sent. Return `None`
        if it was not sent. A page that was sent at another subtitle's TCI instead of that
        subtitle's page does not count, unless both subtitles are early or late by the same number
        of frames."""
        numbers = [frame for frame in self.find_transmissions(place)
                   if self.find_subtitle_at_cue(frame)
                   in (None, place) or self.are_moved_together(place, frame)]
        return find_nearest(numbers, self.subtitles[place].begin)

    def find_transmissions(self, place: int) -> list[int]:
        """Return all frames in the search window in which the page was sent for this subtitle."""
        page, window = self.pages[place], self.find_search_window(place)
        frames = self.timeline.page_frames.get(page)
        if not frames or page == BLANK_PAGE:
            return []
        first, end = (bisect.bisect_left(frames, frame)
                      for frame in (window.first, window.last + 1))
        return [frame for frame in frames[first:end]
                if self.expected.find_subtitle(page, frame) == place]

    def find_subtitle_at_cue(self, frame: int) -> int | None:
        """Return the subtitle that begins in a frame, or earlier by at most the allowed delay."""
        place = self.expected.find_place(frame)
        is_in_time = place >= 0 and frame <= self.subtitles[place].begin + self.timeline.within
        return place if is_in_time else None

    def are_moved_together(self, place: int, frame: int) -> bool:
        """Return whether two subtitles are early or late by the same number of frames: the subtitle
        at `place`, whose page was sent in `frame`, and the subtitle that is expected in `frame`.
        The two delays may differ by the allowed delay."""
        other = self.expected.find_place(frame)
        begin = self.subtitles[other].begin
        sent_frame = find_nearest(self.find_transmissions(other), begin)
        shift = frame - self.subtitles[place].begin
        return sent_frame is not None and abs(sent_frame - begin - shift) <= self.timeline.within

    def find_unknown_page(self, place: int, sent_frame: int | None) -> int | None:
        """Return the number of the unknown page that was sent for a subtitle, if any. If there are
        several, return the one that lasts longest during the subtitle. Ignore pages after frame
        `sent_frame`, in which the subtitle's own page was sent."""
        subtitle = self.subtitles[place]
        end = subtitle.end if sent_frame is None or sent_frame <= subtitle.begin \
            else min(sent_frame, subtitle.end)
        least = subtitle.begin if place == 0 and sent_frame is not None else 0
        numbers = [number for number in self.timeline.list_page_numbers(subtitle.begin, end)
                   if self.belongs_to_subtitle(number, place)
                   and self.is_unknown_page(number, place)
                   and self.timeline.frames[number] >= least]
        lengths = [self.count_frames(number, subtitle.begin, end) for number in numbers]
        return numbers[lengths.index(max(lengths))] if numbers else None

    def belongs_to_subtitle(self, number: int, place: int) -> bool:
        """Return whether page `number` was sent after the TCO of the previous subtitle, or was sent
        early for this subtitle."""
        begin = min(self.expected.before(place), self.subtitles[place].begin)
        return self.timeline.frames[number] >= begin or \
            place > 0 and self.is_sent_for_next(number, place - 1)

    def is_unknown_page(self, number: int, place: int) -> bool:
        """Return whether a page belongs to no subtitle, and is neither blank nor an incomplete page
        of the subtitle at `place`."""
        page = self.timeline.pages[number]
        return page != BLANK_PAGE and page not in self.expected.positions_by_page and \
            not is_partial_page(page, self.pages[place])

    def count_frames(self, number: int, begin: int, end: int) -> int:
        """Return the number of frames in `range(begin, end)` in which page `number` is decoded."""
        stretch = self.timeline.get_page_span(number)
        return min(stretch.last + 1, end) - max(stretch.first, begin)

    def find_other_text_at_cue(self, place: int) -> int | None:
        """Return another subtitle whose page was sent at the TCI of the subtitle at `place`, or
        within the allowed delay. Ignore a page if its subtitle and the one at `place` are early or
        late by the same number of frames."""
        subtitle = self.subtitles[place]
        limit = min(subtitle.begin + self.timeline.within + 1, subtitle.end)
        for number in self.timeline.list_page_numbers(subtitle.begin, limit):
            frame = self.timeline.frames[number]
            other = self.expected.find_subtitle(self.timeline.pages[number], frame)
            if frame >= subtitle.begin and other is not None and other != place and \
                    not self.are_moved_together(other, frame):
                return other
        return None

    def find_other_text_during(self, place: int) -> int | None:
        """Return another subtitle whose page was sent during the subtitle at `place`. Ignore a
        transmission that belongs to that other subtitle (see `find_transmission`)."""
        subtitle = self.subtitles[place]
        for number in self.timeline.list_page_numbers(subtitle.begin, subtitle.end):
            frame = self.timeline.frames[number]
            other = self.expected.find_subtitle(self.timeline.pages[number], frame)
            if frame >= subtitle.begin and other not in (None, place) and \
                    self.find_transmission(other or 0) != frame:
                return other
        return None


def find_nearest(frames: list[int], wanted_frame: int) -> int | None:
    """Return the frame nearest to `wanted_frame`, if there are any frames."""
    return min(frames, key=lambda frame: abs(frame - wanted_frame)) if frames else None
