"""Find out why each subtitle differs from its expected page, and describe the causes."""
from __future__ import annotations

import collections
import copy
import functools
from typing import Callable, Collection, Iterable, NamedTuple

from ..common.command_line import counted
from ..common.shapes import Members
from ..common.times import FRAMES_OF_A_DAY, Span, format_frame
from ..formats.listing import BEGIN, CONTENT, END
from ..formats.stl import Subtitle
from ..formats.teletext import OPTION_BY_WORD, page_name
from ..stream.packets import HEADER, describe_subpages, find_alternating_subcodes
from ..stream.receiver import BLANK_PAGE, HIT, MIN_FRAMES, Rows, Timeline
from .check import CheckOutput
from .pages import (
    describe_attribute_difference, describe_extra_rows, describe_move, format_page_text,
    is_partial_page, is_text_moved, join_page_text)
from .transmissions import ExpectedPages, PageTransmissions, name_omitted_rows
from .waivers import Owners


# Each subtitle that has a wrong page at any frame gets one cause.

LATE, EARLY, NEVER, OTHER_TEXT = "late", "early", "never sent", "another subtitle's text"
WRONG_TEXT, WRONG_PLACE, WRONG_ATTRIBUTE = "wrong text", "wrong place", "wrong colour or attribute"
NOT_ERASED, INCOMPLETE_REPEAT, UNKNOWN_CAUSE = "not erased", "not repeated whole", "unknown"
# ERASED: a header without rows was sent before the TCO. TEXT_IN_PAUSE: a text that belongs to no
# subtitle was sent in the pause after the subtitle. NOT_RECEIVED: TS packets were lost.
ERASED, TEXT_IN_PAUSE, NOT_RECEIVED = "erased", "another text in a pause", "not received"
CAUSE_NAMES = (LATE, EARLY, NEVER, OTHER_TEXT, WRONG_TEXT, WRONG_PLACE, WRONG_ATTRIBUTE, NOT_ERASED,
               INCOMPLETE_REPEAT, ERASED, TEXT_IN_PAUSE, NOT_RECEIVED, UNKNOWN_CAUSE)
# Causes that a late or an early subtitle may have too
HIDDEN_BY_DELAY = {WRONG_TEXT, OTHER_TEXT, WRONG_PLACE, WRONG_ATTRIBUTE, NOT_ERASED,
                   INCOMPLETE_REPEAT, ERASED}
NOT_READABLE = "some of the PES packets at that time cannot be read"
NEXT_PROGRAMME = "the page sent at the last TCO is the next programme's"
COMPLETED_LATER = "as expected only after another PES packet of the same frame"
OMITTED_BY_REPEAT = "missing after a header with C4 (erase page) clear"
SENT_AND_PTS_GO_BACK = "sent at another time, since the PTS go back"
EVEN_PARITY = "a byte of its rows has even parity"


class Cause(NamedTuple):
    """The reason why a subtitle is refused."""

    subtitle_index: int  # index among the judged subtitles
    name: str
    frames: int | None  # number of frames by which the page is late or early
    sent_page: Rows | None  # the page that was sent
    other_index: int | None  # index of the subtitle with the text of this page
    details: str
    final_frame: int  # last frame that can change the cause
    frame: int | None = None  # first frame of a text in a pause

    @property
    def may_be_correct(self) -> bool:
        """Return whether the subtitle may be correct, because PES packets can't be read or because
        the next programme begins at its TCO."""
        return self.details in (NOT_READABLE, NEXT_PROGRAMME)


class FaultyFrames:
    """The first span with a wrong page before a subtitle's TCO, and the first one after it."""

    def __init__(self) -> None:
        self.during: Span | None = None
        self.span_after_end: Span | None = None

    def add(self, span: Span, subtitle: Subtitle) -> None:
        """Add consecutive frames in which the decoded page is wrong and does not change."""
        if subtitle.begin <= span.first < subtitle.end:
            self.during = self.during or span
        elif span.first >= subtitle.end:
            self.span_after_end = self.span_after_end or span


class CauseFinder(PageTransmissions):
    """Finds the causes of faults from the decoded pages and the faults that `check` reports."""

    def __init__(self, expected: ExpectedPages, timeline: Timeline,
                 output: CheckOutput | None = None) -> None:
        super().__init__(expected, timeline)
        self.output = output

    def find_cause(self, place: int, faulty_frames: FaultyFrames) -> Cause:
        """Return the cause of a subtitle's fault. It is unknown if an interval without PES packets
        explains the fault."""
        cause, subtitle = self.classify_transmission(place, faulty_frames), self.subtitles[place]
        pause = self.timeline.find_pause(subtitle.end if cause.name == NOT_ERASED
                                         else subtitle.begin)
        if pause is None:
            return cause
        is_in_pause = {
            LATE: subtitle.begin + (cause.frames or 0) == pause.last + 1,
            NEVER: subtitle.end - 1 <= pause.last,
            NOT_ERASED: self.timeline.find_page_number_at(pause.last +
                                                          1)
            != self.timeline.find_page_number_at(pause.last)}
        if not is_in_pause.get(cause.name):
            return cause
        return self.make_unknown_cause(place, subtitle.begin, cause.final_frame,
                                       "no PES packet for "
                                       f"{counted(pause.last + 1 - pause.first, 'frame')}, from "
                                       f"{format_frame(pause.first)} on")

    def classify_transmission(self, place: int, faulty_frames: FaultyFrames) -> Cause:
        """Find the cause of a subtitle's fault in the subtitle's page transmissions."""
        subtitle, sent_frame = self.subtitles[place], self.find_transmission(place)
        if self.timeline.get_page_at(subtitle.begin) == self.pages[place]:
            if sent_frame is not None and sent_frame < subtitle.begin:
                return self.classify_delay(place, sent_frame)
            return self.classify_later_fault(place, faulty_frames)
        if sent_frame is not None and self.is_allowed_delay(place, sent_frame):
            return self.classify_later_fault(place, faulty_frames)
        unknown_page = self.find_unknown_page(place, sent_frame)
        if unknown_page is not None:
            cause = self.classify_difference(place, unknown_page)
            if place == 0 or not self.is_sent_for_next(unknown_page, place - 1):
                return cause
            early = subtitle.begin - self.timeline.frames[unknown_page]
            return cause._replace(details="; ".join(filter(None, [
                cause.details, f"{counted(early, 'frame')} {EARLY}"])))
        other = self.find_other_text_at_cue(place)
        if other is not None:
            return self.make_other_text_cause(place, other, self.find_search_window(place).last)
        if sent_frame is None:
            return self.classify_missing_page(place)
        return self.classify_delay(place, sent_frame)

    def classify_delay(self, place: int, sent_frame: int) -> Cause:
        """Return the cause of the fault if a page was sent late or early, in `sent_frame`."""
        subtitle = self.subtitles[place]
        if sent_frame > subtitle.begin and not self.timeline.was_received(subtitle.begin,
                                                                          sent_frame):
            return self.make_unknown_cause(place, subtitle.begin, sent_frame,
                                           self.describe_unreceived(subtitle.begin, sent_frame))
        name, frames = (LATE, sent_frame - subtitle.begin) if sent_frame > subtitle.begin else (
            EARLY, subtitle.begin - sent_frame)
        words = self.describe_wrong_frames(sent_frame) if name == LATE and \
            frames <= self.timeline.within else ""
        if name == LATE and self.was_received_while_closed(place):
            words = self.describe_closed_page()
        return Cause(place, name, frames, self.pages[place], None, words,
                     max(sent_frame, subtitle.begin))

    def is_allowed_delay(self, place: int, sent_frame: int) -> bool:
        """Return whether a page was late and incomplete for no longer than the allowed delay."""
        late = sent_frame - self.subtitles[place].begin
        return 0 < late <= self.timeline.within and \
            sent_frame - self.find_first_wrong_frame(sent_frame - 1) <= self.timeline.within

    def find_first_wrong_frame(self, frame: int) -> int:
        """Return the first frame of the uninterrupted span of wrong pages that ends at `frame`.
        Search at most 250 frames."""
        first = frame
        while frame - first < MIN_FRAMES and first > 0 and not self.is_expected_page(first - 1):
            first -= 1
        return first

    def describe_wrong_frames(self, sent_frame: int) -> str:
        """Describe for how many frames the page was wrong before frame `sent_frame`. The number is
        larger than the delay if the page was already wrong before the TCI."""
        first = self.find_first_wrong_frame(sent_frame - 1)
        return f"the page is wrong for {counted(sent_frame - first, 'frame')} in a row, " \
            f"from {format_frame(first)} on"

    def classify_missing_page(self, place: int) -> Cause:
        """Return the cause of the fault if a subtitle's page was not sent near its TCI."""
        subtitle, window = self.subtitles[place], self.find_search_window(place)
        other = self.find_other_text_during(place)
        if other is not None:
            return self.make_other_text_cause(place, other, window.last)
        if not self.timeline.was_received(subtitle.begin, subtitle.end - 1):
            reason = self.describe_unreceived(subtitle.begin, subtitle.end - 1)
            return self.make_unknown_cause(place, subtitle.begin, window.last, reason)
        if self.was_received_while_closed(place):
            return self.make_unknown_cause(place, subtitle.begin, window.last,
                                           self.describe_closed_page())
        for number in self.timeline.list_page_numbers(subtitle.begin, subtitle.end):
            page = self.timeline.pages[number]
            if page != BLANK_PAGE and self.belongs_to_subtitle(number, place) and \
                    is_partial_page(page, self.pages[place]):
                words = "the subtitle has no text" if self.pages[place] == BLANK_PAGE else \
                    "rows are missing"
                return Cause(place, WRONG_TEXT, None, page, None, words, window.last)
        sent = self.timeline.get_page_at(subtitle.begin)
        is_decoded_completely = self.timeline.last >= min(window.last, subtitle.begin + MIN_FRAMES)
        words = self.subcode_text if is_decoded_completely else \
            f"the recording was read up to {format_frame(self.timeline.last)}"
        return Cause(place, NEVER, None, None if sent == BLANK_PAGE else sent, None, words,
                     window.last)

    def was_received_while_closed(self, place: int) -> bool:
        """Return whether rows of a subtitle were received outside a transmission of the page."""
        subtitle, page = self.subtitles[place], self.pages[place]
        return any(span.first < subtitle.end and subtitle.begin <= span.last and any(
            content == page[row - 1] for row, content in texts)
                   for span, texts in self.timeline.stray_rows)

    def describe_closed_page(self) -> str:
        """Return the message that rows were received outside a transmission of the page."""
        return f"its rows came while page {page_name(*self.timeline.page)} was not open"

    def classify_difference(self, place: int, number: int) -> Cause:
        """Return the cause of the fault if page `number`, which belongs to no subtitle, was sent
        instead of the expected page."""
        subtitle, due, sent = self.subtitles[place], self.pages[place], self.timeline.pages[number]
        words = join_page_text(sent)
        if words != join_page_text(due):
            places = self.expected.positions_by_letters.get(words)
            if places and words:
                other = self.expected.find_nearest(places, subtitle.begin)
                return self.make_other_text_cause(place, other,
                                                  subtitle.end)._replace(sent_page=sent)
            return Cause(place, WRONG_TEXT, None, sent, None,
                         describe_extra_rows(due, sent) or self.subcode_text, subtitle.end)
        if is_text_moved(due, sent):
            return Cause(place, WRONG_PLACE, None, sent, None, describe_move(due, sent),
                         subtitle.end)
        return Cause(place, WRONG_ATTRIBUTE, None, sent, None,
                     describe_attribute_difference(due, sent), subtitle.end)

    def make_other_text_cause(self, place: int, other: int, known: int) -> Cause:
        return Cause(place, OTHER_TEXT, None, self.pages[other], other, "", known)

    def classify_later_fault(self, place: int, faulty_frames: FaultyFrames) -> Cause:
        """Return the cause of the fault if a page was correct at the TCI, but wrong later."""
        subtitle = self.subtitles[place]
        span = faulty_frames.during or faulty_frames.span_after_end
        if span and self.is_expected_page(span.first):
            if rows := self.explain_omitted_rows(span.first):
                return Cause(place, INCOMPLETE_REPEAT, None, self.pages[place], None,
                             f"{rows} {OMITTED_BY_REPEAT}", subtitle.end)
            return self.make_unknown_cause(place, span.first, subtitle.end,
                                           self.describe_hidden_fault(span.first))
        if faulty_frames.during:
            return self.classify_replacement(place, faulty_frames.during)
        if faulty_frames.span_after_end is None:
            return self.make_unknown_cause(place, subtitle.begin, subtitle.end,
                                           "the same text is also sent at another time")
        number = self.timeline.find_page_number_at(faulty_frames.span_after_end.first)
        last_frame = self.timeline.get_page_span(number).last
        if self.timeline.frames[number] >= subtitle.end:
            return self.classify_after_end(place, number, faulty_frames.span_after_end.first)
        if not self.timeline.was_received(subtitle.end, last_frame):
            return self.make_unknown_cause(place, subtitle.end, subtitle.end,
                                           self.describe_unreceived(subtitle.end, last_frame))
        return Cause(place, NOT_ERASED, None, self.timeline.pages[number], None,
                     self.describe_removal(place, number), subtitle.end)

    def describe_hidden_fault(self, frame: int) -> str:
        """Describe why `check` reports a wrong page in a frame although the decoded page is correct
        at the end of this frame."""
        if len(self.timeline.list_frame_runs(frame)) > 1:
            return COMPLETED_LATER
        if not self.timeline.was_received(frame, frame):
            return NOT_READABLE
        return EVEN_PARITY if HIT in b"".join(self.timeline.get_state_at(frame).rows) else ""

    def explain_omitted_rows(self, frame: int) -> str:
        """Describe which rows a repeat of the page omitted. Return an empty string if omitted rows
        can't explain the fault in this frame: some of the frame's packets can't be read, or the
        frame has several PES packets and --within is not given."""
        is_single = self.timeline.within or len(self.timeline.list_frame_runs(frame)) == 1
        return name_omitted_rows(self.timeline, self.expected.get_page_at(frame), frame,
                                 self.output) \
            if is_single and self.timeline.was_received(frame, frame) else ""

    @functools.cached_property
    def subcode_text(self) -> str:
        """Describe the sub-pages that alternate, or return an empty string."""
        subcodes = find_alternating_subcodes(self.timeline.packets, self.timeline.inside)
        return describe_subpages(subcodes, page_name(*self.timeline.page)) if subcodes else ""

    def classify_after_end(self, place: int, number: int, frame: int) -> Cause:
        """Return the cause of the fault if page `number` was sent after the TCO of a subtitle. A
        page that belongs to no subtitle is another text in the pause. After the last TCO there is
        no pause: the page is then the next programme's, or that of a subtitle after --to."""
        subtitle, page = self.subtitles[place], self.timeline.pages[number]
        is_unexpected_page = page not in self.expected.positions_by_page and page != BLANK_PAGE
        is_expected_text = join_page_text(page) in self.expected.positions_by_letters
        is_last = place == len(self.subtitles) - 1
        late = self.timeline.frames[number] - subtitle.end
        if is_unexpected_page and is_last and late <= self.timeline.within:
            return self.make_unknown_cause(place, frame, subtitle.end, NEXT_PROGRAMME)
        if is_unexpected_page and not is_last and not is_expected_text \
                and self.timeline.was_received(subtitle.end, frame):
            return Cause(place, TEXT_IN_PAUSE, None, page, None, f"at {format_frame(frame)}",
                         subtitle.end, frame)
        return self.make_unknown_cause(place, frame, subtitle.end,
                                       f"sent after its TCO, at {format_frame(frame)}")

    def find_text_in_pause(self, place: int, span: Span) -> Cause | None:
        """Return the cause if a span of wrong frames has a text that was sent in the pause after a
        subtitle and belongs to no subtitle."""
        number = self.timeline.find_page_number_at(span.first)
        if number < 0 or self.timeline.frames[number] < self.subtitles[place].end:
            return None
        cause = self.classify_after_end(place, number, span.first)
        return cause if cause.name == TEXT_IN_PAUSE else None

    def is_page_of(self, place: int, frame: int) -> bool:
        """Return whether the page in a wrong frame concerns the subtitle at `place`: the frame is
        in its time, or the page was sent for this subtitle, or in its time and not erased."""
        subtitle, number = self.subtitles[place], self.timeline.find_page_number_at(frame)
        if subtitle.begin <= frame < subtitle.end or number >= 0 and \
                self.timeline.pages[number] == self.pages[place]:
            return True
        if frame < subtitle.begin:
            return place > 0 and self.is_sent_for_next(number, place - 1)
        return number >= 0 and self.timeline.frames[number] < subtitle.end

    def describe_removal(self, place: int, number: int) -> str:
        """Describe how long page `number` stayed after the TCO, or return "" if this is unknown."""
        last_frame, end = self.timeline.get_page_span(number).last, self.subtitles[place].end
        following = self.subtitles[place + 1:place + 2]
        if following and following[0].begin <= last_frame and \
                self.pages[place + 1] == self.timeline.pages[number]:
            frames = following[0].begin - end
            return f"it stays for {counted(frames, 'frame')}, until {following[0].name}, which " \
                "has the same content" if frames else \
                f"{following[0].name} follows immediately and has the same content"
        if last_frame == self.timeline.last or self.timeline.halt is not None:
            return ""
        return f"it disappears {counted(last_frame + 1 - end, 'frame')} later"

    def classify_replacement(self, place: int, span: Span) -> Cause:
        """Return the cause of the fault if a page was received, but replaced before the TCO."""
        subtitle, number = self.subtitles[place], self.timeline.find_page_number_at(span.first)
        page = self.timeline.pages[number]
        other = self.expected.find_subtitle(page, span.first)
        if not self.timeline.was_received(span.first, span.last):
            return self.make_unknown_cause(place, span.first, subtitle.end,
                                           self.describe_unreceived(span.first, span.last))
        if other is not None and other != place:
            return self.make_other_text_cause(place, other, subtitle.end)
        if page == BLANK_PAGE:
            erased_page = self.timeline.frames[number]
            if erased_page < subtitle.begin:
                return self.make_unknown_cause(place, span.first, subtitle.end,
                                               f"it is missing at {format_frame(span.first)}")
            if self.was_erased(number):
                return Cause(place, ERASED, None, None, None,
                             f"by a header without rows, at {format_frame(erased_page)}",
                             subtitle.end)
            wrong_frame = self.find_first_wrong_frame(span.first)
            return self.make_unknown_cause(place, span.first, subtitle.end,
                                           f"it disappears at {format_frame(wrong_frame)}")
        return self.classify_difference(place, number)

    def was_erased(self, number: int) -> bool:
        """Return whether a header without rows erased the page. Return false if the next page has
        no header of its own: then its rows follow this header."""
        begins = self.timeline.frames[number:number + 2]
        return all(any(HEADER in run.flags for run in self.timeline.list_frame_runs(frame))
                   for frame in begins)

    def describe_unreceived(self, first: int, last: int) -> str:
        """Explain why it is unknown what was sent from frame `first` to frame `last`."""
        return NOT_RECEIVED if self.timeline.lost.includes(first, last) else NOT_READABLE

    def make_unknown_cause(self, place: int, frame: int, known: int, words: str) -> Cause:
        """Return the cause `NOT_RECEIVED` or `UNKNOWN_CAUSE` with the details `words`. No frame
        after `known` can change the cause."""
        sent = self.timeline.get_page_at(frame)
        name, words = (NOT_RECEIVED, "") if words == NOT_RECEIVED else (UNKNOWN_CAUSE, words)
        return Cause(place, name, None, None if sent == BLANK_PAGE else sent, None, words, known)


SENT_BEFORE_CUT = f"its page was sent before the judged range, so fault {BEGIN} is reported"


class Causes:
    """The causes of the faults that `check --all` lists. `recorded_span` is the range of frames
    that the PCRs cover, if they cover more frames than the PES packets."""

    def __init__(self, expected: ExpectedPages, timeline: Timeline,
                 recorded_span: Span | None = None) -> None:
        self.expected, self.timeline, self.recorded_span = expected, timeline, recorded_span
        self.finder = CauseFinder(expected, timeline)
        self.cause_by_index: dict[int, Cause] = {}  # causes, by index of the subtitle
        # The first text in each pause that belongs to no subtitle, by index of the subtitle before.
        # This subtitle may be right.
        self.pause_texts: dict[int, Cause] = {}
        # Index of the subtitle with fault `BEGIN` or `END`, if frames outside the range are known
        self.frames_by_end_fault: dict[int, int] = {}
        self.pending: dict[int, FaultyFrames] = {}
        # For each subtitle, the first frame with a wrong page
        self.first_wrong_frames: dict[int, int] = {}
        self.delay_of_all = 0  # delay of all subtitles in frames, negative if they are early

    def classify_faults(self, output: CheckOutput) -> None:
        """Find the causes of all reported faults."""
        self.finder.output = output
        begin, end = (output.first_faults.get(number) for number in (BEGIN, END))
        if begin and begin.frame is not None:
            self.compare_before(begin.frame)
        for first, last in output.fault_spans.get(CONTENT, ()):
            self.add_frames(first, last)
        if end and end.frame is not None:
            self.compare_after(end.frame)
        for place in sorted(self.pending):
            self.cause_by_index[place] = self.classify_subtitle(place)
        self.pending = {}
        if begin and begin.frame is not None:
            self.classify_first(begin.frame)

    def classify_by_delay(self, delay: int) -> None:
        """Find what else is wrong with subtitles that are all `delay` frames late or early. Compare
        them with a clock that is wrong by this delay, and store a cause that hides behind it."""
        name = LATE if delay > 0 else EARLY
        late = [place for place, cause in self.cause_by_index.items()
                if (cause.name, cause.frames) == (name, abs(delay))]
        if len(late) == len(self.expected.subtitles):
            self.delay_of_all = delay
        delayed = Causes(self.expected.move(delay), self.timeline, self.recorded_span)
        first, last = delayed.expected.begins[0], delayed.expected.subtitles[-1].end
        if first < 0 or last >= FRAMES_OF_A_DAY:
            return
        for span in delayed.finder.split_frames(first, min(last, self.timeline.last)):
            if not delayed.finder.is_expected_page(span.first):
                delayed.add_span(delayed.finder.find_owner(span.first), span)
        for place in sorted({*late} & {*delayed.pending}):
            cause = delayed.finder.find_cause(place, delayed.pending[place])
            # A late subtitle that is erased at its own TCO is only late.
            is_erased_in_time = cause.name == ERASED and \
                delayed.first_wrong_frames[place] >= self.expected.subtitles[place].end
            if cause.name in HIDDEN_BY_DELAY and not is_erased_in_time:
                self.cause_by_index[place] = cause

    def add_frames(self, first: int, last: int) -> None:
        """Add the frames from `first` to `last`, which have a wrong page."""
        for span in self.finder.split_frames(first, last):
            self.add_span(self.finder.find_owner(span.first), span)

    def add_span(self, place: int, span: Span) -> int:
        """Add frames with a wrong page to the subtitle with index `place`, or to the pause after
        it, and return `place`."""
        if pause_text := self.finder.find_text_in_pause(place, span):
            self.pause_texts.setdefault(place, pause_text)
            return place
        self.first_wrong_frames.setdefault(place, span.first)
        if place not in self.cause_by_index:
            self.pending.setdefault(place, FaultyFrames()).add(span, self.expected.subtitles[place])
        return place

    def find_covered_span(self) -> Span:
        """Return the frames that the recording covers."""
        first, last = self.timeline.first, self.timeline.last
        known = self.recorded_span
        return Span(min(first, known.first), max(last, known.last)) if known else Span(first, last)

    def compare_before(self, frame: int) -> None:
        """Compare the decoded pages with the expected pages before `frame`, the first judged frame.
        Do so only if the recording shows whether the first subtitle is early or late: it must have
        a page at the first TCI, or begin before this TCI by at least the time from the TCI to
        `frame`."""
        begin, held = self.expected.begins[0], self.timeline
        if not (held.frames and held.frames[0] <= begin or
                self.find_covered_span().first <= 2 * begin - frame):
            return
        sent_frame = self.finder.find_transmission(0)
        if sent_frame is not None and sent_frame < begin and self.finder.is_expected_page(begin):
            self.frames_by_end_fault[BEGIN] = self.add_span(0, Span(sent_frame, begin - 1))
        self.add_differences(BEGIN, begin, frame - 1)

    def classify_first(self, frame: int) -> None:
        """Classify the first subtitle as late if the recording begins with its page. The second
        subtitle must be late too, and the beginning or the end of the first page must have the same
        delay. The first page alone is no evidence: its beginning may be cut off."""
        page, following = self.expected.pages[0], self.cause_by_index.get(1)
        if following is None or following.name != LATE or BEGIN in self.frames_by_end_fault \
                or self.timeline.first != frame or self.timeline.get_page_at(frame) != page:
            return
        first, second = self.expected.subtitles[:2]
        last_frame = self.timeline.get_page_span(self.timeline.find_page_number_at(frame)).last
        late = following.frames or 0
        if late == frame - first.begin:
            self.frames_by_end_fault[BEGIN] = 0
        elif late != last_frame + 1 - first.end or first.end == second.begin:
            return
        self.cause_by_index[0] = Cause(0, LATE, late, page, None, "",
                                       max(frame, first.begin + late))

    def compare_after(self, frame: int) -> None:
        """Compare the decoded pages with the expected pages after `frame`, the last judged frame,
        if the recording covers the frames up to the last TCO."""
        end = self.expected.subtitles[-1].end
        if self.find_covered_span().last >= end:
            self.add_differences(END, frame + 1, end)

    def add_differences(self, number: int, first: int, last: int) -> None:
        """Add the frames from `first` to `last` that have a wrong page, for which `check` reports
        the fault `number`."""
        for span in self.finder.split_frames(first, last):
            if not self.finder.is_expected_page(span.first):
                place = self.add_span(self.finder.find_owner(span.first), span)
                self.frames_by_end_fault.setdefault(number, place)

    def classify_subtitle(self, place: int) -> Cause:
        cause = self.finder.find_cause(place, self.pending[place])
        begin = self.expected.begins[place]
        if cause.name == LATE and begin + (cause.frames or 0) == self.timeline.first \
                and begin < self.find_covered_span().first:
            # The subtitle is not certainly late: its page may have been sent before the recording.
            cause = self.finder.classify_later_fault(place, self.pending[place])
        is_before = cause.name == EARLY and self.frames_by_end_fault.get(BEGIN) == place
        return cause._replace(details=SENT_BEFORE_CUT) if is_before else cause

    def find_cause(self, number: int, frame: int) -> Cause | None:
        """Return the cause of fault `number` in a frame, or `None` if no cause was found."""
        if number == CONTENT:
            place = self.finder.find_owner(frame)
            pause_text = self.pause_texts.get(place)
            is_pause = pause_text and pause_text.frame is not None and frame >= pause_text.frame
            return pause_text if is_pause else self.cause_by_index.get(place)
        edge = self.frames_by_end_fault.get(number)
        return None if edge is None else self.cause_by_index.get(edge)

    def was_replaced_early(self, place: int) -> bool:
        """Return whether a subtitle was sent early and the recording has the page after it."""
        cause = self.cause_by_index.get(place)
        if cause is None or cause.name != EARLY:
            return False
        sent_frame = self.expected.begins[place] - (cause.frames or 0)
        return self.timeline.find_page_number_at(sent_frame) + 1 < len(self.timeline.frames)

    def doubt_unsent(self, sent_places: Collection[int]) -> None:
        """Replace the cause `NEVER` of subtitles whose text was sent at times that the PTS do not
        show, since they go back."""
        for place in sent_places:
            cause = self.cause_by_index.get(place)
            if cause and cause.name == NEVER:
                self.cause_by_index[place] = cause._replace(name=UNKNOWN_CAUSE,
                                                            details=SENT_AND_PTS_GO_BACK)

    def find_owners(self, first: int, last: int) -> Owners:
        """Return which subtitles the wrong pages from frame `first` to `last` concern. A wrong page
        concerns the subtitle that it belongs to and the subtitle that is expected in its frame."""
        owners = []
        for span in self.finder.split_frames(first, last):
            place = self.finder.find_owner(span.first)
            group = {self.expected.begins[place]
                     if self.finder.is_page_of(place, span.first) else None}
            count, is_due = self.expected.count_begun(span.first)
            owners.append(group | ({self.expected.begins[count - 1]} if is_due else set()))
        return owners

    def leave_out(self, is_left_out: Callable[[Cause], bool]) -> Causes:
        """Return a copy without some of the causes."""
        other = copy.copy(self)
        other.cause_by_index, other.pause_texts = (
            {place: cause for place, cause in causes.items() if not is_left_out(cause)}
            for causes in (self.cause_by_index, self.pause_texts))
        return other

    def list_causes(self) -> list[Cause]:
        """Return the causes in the order of the subtitles and of the pauses after them."""
        return sorted([*self.cause_by_index.values(), *self.pause_texts.values()],
                      key=lambda cause: (cause.subtitle_index, cause.name == TEXT_IN_PAUSE))

    def find_pause_text_span(self, cause: Cause) -> Span:
        """Return the frames in which the text of a cause `TEXT_IN_PAUSE` is decoded."""
        assert cause.frame is not None
        return self.timeline.get_page_span(self.timeline.find_page_number_at(cause.frame))



def find_first_frame(causes: Causes, cause: Cause) -> int | None:
    """Return the first frame with a wrong page that a cause explains, if known."""
    return causes.first_wrong_frames.get(cause.subtitle_index) if cause.frame is None \
        else cause.frame


def count_causes(several: Iterable[Causes]) -> dict[str, int]:
    """Return the number of causes in several parts, by name of the cause."""
    counted = collections.Counter(cause.name for item in several
                                  for cause in item.list_causes())
    return {name: counted[name] for name in CAUSE_NAMES}


LINE_PREFIX = "cause: "  # the beginning of each line with a cause


class CauseDescriber:
    """Converts the causes of faults in a part to text and to JSON values. `option` is the name of
    the national option that selects the characters."""

    def __init__(self, causes: Causes, option: str) -> None:
        self.causes, self.subtitles = causes, causes.expected.subtitles
        self.pages = causes.expected.pages
        self.option = OPTION_BY_WORD[option].number

    def make_json(self, cause: Cause) -> Members:
        subtitle = self.subtitles[cause.subtitle_index]
        other = None if cause.other_index is None else self.subtitles[cause.other_index]
        return {
            "subtitle": {"position": subtitle.index, "number": subtitle.number,
                         "begin": format_frame(subtitle.begin), "end": format_frame(subtitle.end)},
            "name": cause.name, "frames": cause.frames,
            "time": None if cause.frame is None else format_frame(cause.frame),
            "expected_text": self.format_expected_text(cause),
            "decoded_text": None if cause.sent_page is None
            else format_page_text(cause.sent_page, self.option),
            "other_number": None if other is None else other.number,
            "other_position": None if other is None else other.index,
            "line": self.describe(cause),
        }

    def format_expected_text(self, cause: Cause) -> str:
        """Return the expected text of the subtitle whose fault has this cause."""
        return format_page_text(self.pages[cause.subtitle_index], self.option)

    def format_line(self, cause: Cause) -> str:
        subtitle = self.subtitles[cause.subtitle_index]
        if cause.name == TEXT_IN_PAUSE:  # not a fault of the subtitle before the pause
            return f"{LINE_PREFIX}{self.describe(cause)}"
        return (f'{LINE_PREFIX}{subtitle.name} at {format_frame(subtitle.begin)}, '
                f'"{self.format_expected_text(cause)}": {self.describe(cause)}')

    def describe(self, cause: Cause, has_text: bool = True) -> str:
        """Describe a cause and its details, including a wrong text if `has_text` is true."""
        subtitle = self.subtitles[cause.subtitle_index]
        words = cause.name
        if cause.name in (LATE, EARLY):
            words += f" by {counted(cause.frames or 0, 'frame')}"
        elif cause.name == NOT_ERASED:
            words += f" at {format_frame(subtitle.end)}"
        elif cause.name == OTHER_TEXT:
            words += " at its time"
        if cause.name == TEXT_IN_PAUSE:
            words = f"another text was sent in a pause, {cause.details}"
        elif cause.details:
            words += f": {cause.details}"
        if has_text and cause.sent_page not in (None, self.pages[cause.subtitle_index]):
            sent = format_page_text(cause.sent_page or (), self.option)
            if sent != self.format_expected_text(cause):
                words += f'; "{sent}" was shown instead' if cause.name == NEVER else \
                    f'; received "{sent}"'
        if cause.other_index is not None:
            words += f" of {self.subtitles[cause.other_index].name}"
        return words


def format_cause_counts(several: list[Causes]) -> str:
    """Return a line with the number of subtitles whose fault has a cause, in total and by cause,
    and the number of pauses with another text."""
    count = sum(len(item.cause_by_index) for item in several)
    pause_count = sum(len(item.pause_texts) for item in several)
    causes = list_cause_counts(several, (TEXT_IN_PAUSE,))
    return "; ".join([f"{counted(count, 'subtitle')} with a wrong page: {causes}"] * (count > 0)
                     + [f"{counted(pause_count, 'pause')} with another text"] * (pause_count > 0))


def list_cause_counts(several: list[Causes], left_out: Collection[str] = ()) -> str:
    """Return a text with the number of subtitles for each cause that is not in `left_out`."""
    return ", ".join(f"{count} {name}" for name, count in count_causes(several).items()
                     if count and name not in left_out)
