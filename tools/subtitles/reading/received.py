"""Find the pages that a receiver shows during a recording, and the subtitles that draw them.

Nothing here decides a verdict: `check` compares the subtitles with the recording, frame by frame.
What forbids the verdict `as shown`, or was not checked, is returned with the pages.
"""
from __future__ import annotations

import collections
import operator
from typing import Callable, Iterator, NamedTuple, Sequence

from ..clock.start import Clock, FIRST_PES
from ..common.checks import CLOCK, OPTION, OUTSIDE
from ..common.command_line import counted, format_pid
from ..common.times import (
    TICKS, change_day_begin, compute_frame, compute_origin, compute_time, find_time_at,
    format_frame, subtract_pts, wrap_pts)
from ..formats.listing import ENDS_EARLY, NOT_IN_FILE, NamedFault, SUB_PAGES, TIME_GOES_BACK
from ..formats.midnight import choose_day_begin
from ..formats.stl import TTI
from ..formats.stl_writer import (
    READ_PUBLISHER, StoredPage, make_gsi_block, make_subtitle_blocks, store_page)
from ..formats.teletext import (
    ENGLISH, NATIONAL_CODES, NationalOption, SentOption, choose_language_option,
    choose_track_option, find_sent_option)
from ..judging.cues import BOTH, END, START
from ..judging.pages import format_page_text, is_partial_page
from ..judging.unchecked import Unchecked
from ..request.request import Request, Unclear
from ..stream.packets import (
    HEADER, Packets, Range, describe_subpages, find_alternating_subcodes, parse_headers)
from ..stream.receiver import BLANK_PAGE, Rows, Timeline, read_national_option
from ..stream.survey import CODES

MAX_TITLE = 32
FEW_CELLS = 2  # a page that differs from its neighbour in so few characters may be an error
CUT_TEXTS = {START: "the recording begins during this subtitle: its in-cue is not known",
             END: "the recording ends during this subtitle: its out-cue is not known",
             BOTH: "the recording shows only this subtitle: its cues are not known"}


class ShownPage(NamedTuple):
    """A page that is not blank, the frames `range(begin, end)` in which a receiver shows it, and
    the fields of the subtitle that draws it, or the reason why there is none."""

    begin: int
    end: int
    rows: Rows
    stored: StoredPage | str
    cut: str | None = None  # a key of `CUT_TEXTS`, if the recording begins or ends meanwhile

    @property
    def is_written(self) -> bool:
        return not isinstance(self.stored, str)


class Reading(NamedTuple):
    """What a receiver shows on a page, from its first header to the end of the recording."""

    pes: Range  # PES packets from the first header on
    clock: Clock
    timeline: Timeline
    option: NationalOption
    pages: list[ShownPage]
    faults: list[NamedFault]  # each forbids the verdict `as shown`
    unchecked: list[Unchecked]
    day_begin: int  # time of day of frame 0: midnight (0), unless the recording runs over midnight

    @property
    def first(self) -> int:
        return self.timeline.frames[0]

    @property
    def last(self) -> int:
        return self.timeline.last

    def format_text(self, page: ShownPage) -> str:
        return format_page_text(page.rows, self.option.number)

    @property
    def written_pages(self) -> list[ShownPage]:
        return [page for page in self.pages if page.is_written]

    @property
    def is_cut(self) -> bool:
        """Return whether the page is shown when the recording ends."""
        return bool(self.pages) and self.pages[-1].cut in (END, BOTH)


def find_header_range(packets: Packets, inside: Range | None) -> Range:
    """Return the PES packets from the first header of the page on. Raise `Unclear` if there is
    none."""
    last = min(packets.count - 1, inside[1] if inside else packets.count)
    for run in packets.list_runs_between(inside[0] if inside else 0, last):
        if HEADER in run.flags and run.pts is not None and not run.fault:
            return run.first, last
    raise Unclear("no header of the page can be read" + (" in this range" if inside else ""))


def find_step_back(packets: Packets, pes: Range) -> int | None:
    """Return the first PES packet whose PTS is at least a frame before the last one, if any."""
    last: int | None = None
    for run in packets.list_runs_between(*pes):
        end = run.last
        if run.pts is None or end is None or run.fault:
            continue
        if last is not None and subtract_pts(last, run.pts) <= -TICKS:
            return run.first
        if run.length > 1 and run.step <= -TICKS:
            return run.first + 1
        last = end
    return None


def choose_origin(packets: Packets, pes: Range, inside: Range | None) -> int:
    """Return the origin with which the first PES packet is in frame 0 and the first header of the
    page exactly at the beginning of a frame."""
    header, first = packets.get_pts(pes[0]), next(packets.pts(inside))
    assert header is not None
    return wrap_pts(header - TICKS * max(subtract_pts(first, header) // TICKS, 0))


def find_recorded_day(packets: Packets, pes: Range, origin: int) -> int:
    """Return the time of day at which the day of a recording begins, if 00:00:00:00 has the PTS
    `origin`."""
    runs = [run for run in packets.list_runs_between(*pes) if run.pts is not None]
    first, last = runs[0].pts, runs[-1].last
    assert first is not None and last is not None
    frame = compute_frame(first, origin)
    return choose_day_begin(frame, frame + wrap_pts(last - first) // TICKS + 1)


def find_header_bits(packets: Packets, pes: Range) -> int:
    """Return C12 to C14 of most headers."""
    counts: collections.Counter[int] = collections.Counter()
    for run in packets.list_runs_between(*pes):
        for header in () if run.fault else parse_headers(run.control):
            counts[read_national_option(header)] += run.length
    return counts.most_common(1)[0][0]


def prefer_option(languages: Sequence[str], option: NationalOption | None) -> list[str]:
    """Return the announced languages. If an option is given, its languages come first, and there is
    at least one."""
    own = [word for word in languages if option and choose_track_option(word) == option]
    return [*own, *(option.tracks.split()[:1] if option and not own else []),
            *(word for word in languages if word not in own)]


def choose_header_option(bits: int, languages: Sequence[str]) -> SentOption:
    """Return the national options whose C12 to C14 are `bits`, first the one to use: that of the
    first announced language with such an option, which then is the only one, or else that of the
    default region, if it has one."""
    for option in map(choose_track_option, languages):
        if option and option.bits == bits:
            return SentOption([option], [option])
    return find_sent_option(bits, ENGLISH, ())


def find_undecided_option(sent: SentOption, languages: Sequence[str],
                          pages: Sequence[ShownPage]) -> list[Unchecked]:
    """Return an entry if no announced language decides which national option receivers use, and a
    page has a character that differs between the options. If the default region has none, all
    characters of the option differ."""
    options = sent.options
    if options[0] in map(choose_track_option, languages):
        return []
    is_reserved = all(option.region for option in options)
    characters = zip(NATIONAL_CODES, *(option.characters for option in options))
    codes = {code for code, *several in characters if is_reserved or len({*several}) > 1}
    count = sum(not codes.isdisjoint(b"".join(page.rows)) for page in pages)
    return [Unchecked(OPTION, f"the characters of {counted(count, 'subtitle')}: C12 to C14 of the "
                      f"headers select {sent.words}{', but nothing in region 0000' * is_reserved}, "
                      "no announced language decides it, and the text was read as "
                      f"{options[0].word}: give --option")] if count else []


def list_spans(timeline: Timeline) -> Iterator[ShownPage]:
    """Yield the decoded pages, including blank pages."""
    for number, rows in enumerate(timeline.pages):
        first, last = timeline.get_page_span(number)
        yield ShownPage(first, last + 1, rows, "")


def join_late_pages(pages: Sequence[ShownPage], within: int) -> list[ShownPage]:
    """Join pages that a transmission splits because its rows come up to `within` frames after its
    header: an incomplete page belongs to the page after it, and a blank page between equal pages
    to these."""
    joined: list[ShownPage] = []
    for page in pages:
        while joined and joined[-1].end - joined[-1].begin <= within and \
                is_partial_page(joined[-1].rows, page.rows):
            is_blank = joined[-1].rows == BLANK_PAGE
            if is_blank and not (len(joined) > 1 and joined[-2].rows == page.rows):
                break
            page = page._replace(begin=joined.pop().begin)
        if joined and joined[-1].rows == page.rows:
            joined[-1] = joined[-1]._replace(end=page.end)
        else:
            joined.append(page)
    return joined


def mark_cuts(pages: list[ShownPage]) -> list[ShownPage]:
    """Mark the first page if the recording begins with it, and the last if it ends with it."""
    if pages and pages[0].rows != BLANK_PAGE:
        pages[0] = pages[0]._replace(cut=START)
    if pages and pages[-1].rows != BLANK_PAGE:
        pages[-1] = pages[-1]._replace(cut=BOTH if pages[-1].cut else END)
    return pages


def read_pages(packets: Packets, request: Request, clock: Clock | None,
               languages: Sequence[str], call: Callable[[int, int], str]) -> Reading:
    """Return what a receiver shows on the page of `request`. If `clock` is `None`, choose an
    origin. `call` returns the command that reads a range of PES packets. Raise `Unclear` if
    nothing can be read."""
    pes = find_header_range(packets, request.pes)
    sent = choose_header_option(find_header_bits(packets, pes), languages)
    unchecked = [] if clock else [Unchecked(
        CLOCK, "the time of day: no clock was given, so the first PES packet is at 00:00:00:00")]
    clock = clock or Clock(choose_origin(packets, pes, request.pes), FIRST_PES)
    back = find_step_back(packets, pes)
    pes = pes if back is None else (pes[0], back - 1)
    day_begin = find_recorded_day(packets, pes, clock.origin)
    change_day_begin(day_begin)
    clock = clock._replace(origin=compute_origin(clock.origin))
    timeline = Timeline(packets, request.page, clock.origin, request.within, pes)
    if not timeline.pages:
        raise Unclear("no header of the page has a time between 00:00:00:00 and 24:00:00:00 on "
                      "this clock: check --origin or --start")
    faults = find_early_end(packets, request.pes)
    if back is not None:
        time = format_frame(max(timeline.last, 0))
        rest = back, request.pes[1] if request.pes else packets.count - 1
        faults.append(NamedFault(
            TIME_GOES_BACK, f"at {time}, where the PTS of PES packet {back} is earlier than the "
            f"last, so reading ends there. Read the rest with {call(*rest)}", time))
    if subcodes := find_alternating_subcodes(packets, pes):
        faults.append(NamedFault(SUB_PAGES, describe_subpages(subcodes, request.page_name)))
    sent, pages = store_pages(sent, [
        page for page in mark_cuts(join_late_pages([*list_spans(timeline)], request.within))
        if page.rows != BLANK_PAGE])
    reading = Reading(pes, clock, timeline, sent.options[0], pages, faults, [
        *unchecked, *find_undecided_option(sent, languages, pages),
        *find_beginning(packets, pes, request.pes, clock.origin)], day_begin)
    faults += [NamedFault(NOT_IN_FILE, f"{page.stored}: {reading.format_text(page)}",
                          format_frame(page.begin), format_frame(page.end - 1))
               for page in pages if isinstance(page.stored, str)]
    return reading


def store_pages(sent: SentOption, pages: Sequence[ShownPage]) -> tuple[SentOption, list[ShownPage]]:
    """Store the pages by the first of the national options that can store the most of them. Return
    the options, beginning with this one, and the pages."""
    stored: dict[NationalOption, list[ShownPage]] = {}
    for option in sent.options:
        stored[option] = [page._replace(stored=store_page(page.rows, option)) for page in pages]
        if all(page.is_written for page in stored[option]):
            break
    best = max(stored, key=lambda option: sum(page.is_written for page in stored[option]))
    options = [best, *(option for option in sent.options if option != best)]
    return sent._replace(options=options), stored[best]


def find_beginning(packets: Packets, pes: Range, inside: Range | None, origin: int) \
        -> Iterator[Unchecked]:
    """Yield entries about the PES packets outside of --pes, and about those before the first header
    of the page."""
    first, last = inside or (0, packets.count - 1)
    outside = packets.count - (min(last, packets.count - 1) + 1 - first)
    if outside:
        yield Unchecked(OUTSIDE, f"{counted(outside, 'PES packet')} outside of --pes {first}-"
                        f"{last}")
    if first < pes[0]:
        pts = [*packets.pts((first, pes[0] - 1))]
        begin, end = (compute_time(item, origin) for item in (pts[:1] + pts[-1:])) if pts else \
            (None, None)
        yield Unchecked(OUTSIDE, f"{counted(pes[0] - first, 'PES packet')} before the first header "
                        f"of the page, from {begin or 'an unknown time'} to "
                        f"{end or 'an unknown time'}", None, begin, end)


def find_early_end(packets: Packets, inside: Range | None) -> list[NamedFault]:
    """Return a fault if bytes after the last PES packet can't be read."""
    if inside and inside[1] < packets.count:
        return []
    if packets.damage:
        return [NamedFault(ENDS_EARLY, f"{packets.damage}: the rest was not read")]
    if packets.refusal:
        return [NamedFault(ENDS_EARLY, f"{format_pid(packets.pid)}: fault {packets.refusal} after "
                           f"PES packet {packets.count - 1}: the rest was not read")]
    return []


def find_likely_errors(pages: Sequence[ShownPage]) -> set[int]:
    """Return the indexes of pages that differ from an adjoining page in a few characters only. Two
    wrong bits in a byte change a character, and no receiver notices it."""
    found: set[int] = set()
    for at, (page, other) in enumerate(zip(pages, pages[1:])):
        cells, others = b"".join(page.rows), b"".join(other.rows)
        if page.end == other.begin and sum(map(operator.ne, cells, others)) <= FEW_CELLS and all(
                min(pair) > 0x20 for pair in zip(cells, others) if pair[0] != pair[1]):
            found |= {at, at + 1}
    return found


def choose_language(languages: Sequence[str], option: NationalOption) -> bytes:
    """Return the language code (LC) for the first announced language that has the national option
    of the headers, or else for the first announced language. If no language with an LC is
    announced, return 00, or for another option than English its first language, so that `qc
    --option auto` chooses the right option."""
    for language in sorted(languages, key=lambda word: choose_track_option(word) != option):
        for code, words in CODES.items():
            if language.lower() in words.split():
                return b"%02X" % code
    is_default = choose_language_option(b"00") == option
    return b"00" if is_default else option.languages.split()[0].encode()


def make_stl(reading: Reading, title: str, languages: Sequence[str], date: bytes) -> bytes:
    """Return the subtitle file that draws the pages of a reading. `date` is YYMMDD."""
    blocks = []
    for number, page in enumerate(reading.written_pages, 1):
        assert isinstance(page.stored, StoredPage)
        blocks.append(make_subtitle_blocks(number, find_time_at(page.begin),
                                           find_time_at(page.end), *page.stored))
    size = sum(map(len, blocks)) // TTI
    first_in_cue = next((page.begin for page in reading.written_pages), reading.first)
    return make_gsi_block(title.encode("cp850", "replace")[:MAX_TITLE], size, len(blocks),
                          find_time_at(first_in_cue), choose_language(languages, reading.option),
                          READ_PUBLISHER, date) + b"".join(blocks)
