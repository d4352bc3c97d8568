"""Estimate the origin of a recording, and report on it.

A part is a range of the subtitle file with one origin; a file has several parts if the recording
has breaks.
"""
from __future__ import annotations

import dataclasses
from typing import Collection, Iterator, NamedTuple, Sequence

from ..common.command_line import Lateness, Stop, counted, format_frame_range, was
from ..common.times import (
    ALL_DAY, FRAMES_A_SECOND, FrameRange, TICKS, compute_origin, compute_time, format_frame,
    format_origin, format_time_code, subtract_origin, subtract_pts, subtract_pts_within)
from ..formats.stl import encode_page_characters, read_until_damage, read_stl, get_subtitle_times
from ..formats.teletext import Page, page_name
from ..stream.packets import Packets, Range, STRAY, describe_subpages, find_alternating_subcodes
from .alignment import (
    Drift, EarlyCues, ExpectedSubtitle, MAX_BASES, MAX_CUE_OFFSET, OriginFit, TimeBase,
    find_drift, find_time_bases)
from .stretches import (
    Airing, EstimatedPart, MIN_MATCHING_CUES, Stretch, find_airings, find_stretches, fit_parts,
    select_other_origins, split_at_breaks)


# An origin is reported if its distance from 0 is at most this number of frames.
MAX_PRINTED_DISTANCE = 10 * FRAMES_A_SECOND
MAX_PRINTED_ITEMS = 5  # maximum number of origins or pages to list
MAX_LISTED_CHANGES = 20  # maximum number of changes of the delay to list
# A file is another programme's if the recording has fewer than 1/4 of the texts that it could have,
# and could have at least 3.
MIN_COMPARED_TEXTS, OTHER_PROGRAMME_SHARE = 3, 4


class OriginSearch(NamedTuple):
    """A request to estimate the origin from the subtitles of a file and a page of a recording."""

    stl: str
    name: str
    page: Page = (0, 0x88)
    option: str = "english"
    origin: int | None = None  # the known origin, if any
    within: int = 0  # allowed delay in frames
    breaks: int = 0  # number of breaks
    inside: Range | None = None  # PES packets to use
    between: FrameRange = ALL_DAY  # range of frames in which subtitles begin
    left_out: Collection[int] = ()  # positions of subtitles to ignore
    lateness: Lateness | None = None  # value of --late
    has_picture: bool = False  # whether the operator may use `--start`


class PartOrigin(NamedTuple):
    """The origin of a part, and the number of its cues that match."""

    origin: int
    packets: Range | None = None  # PES packets of the part, if the PTS of the recording go back
    frames: tuple[int, int] | None = None  # first and last frame, if there are several parts
    matches: int = 0
    total: int = 0
    line: str = ""  # the line that reports how many cues match


@dataclasses.dataclass
class OriginEstimate:
    """The result of estimating the origin of a recording."""

    status: int = 1  # 0 if the origin is unambiguous
    # The origin of each part, if it is unambiguous
    parts: list[PartOrigin] = dataclasses.field(default_factory=list)
    # PES packets of each airing of the programme, if there are several
    airings: list[Range] = dataclasses.field(default_factory=list)
    breaks: int | None = None  # number of breaks, if it differs from --breaks
    ticks_late: int | None = None  # delay of the first part relative to the known origin
    # Whether all cues of the first part match, or all its in-cues (or out-cues) share a delay
    has_all_cues: bool = True
    matches_every_cue: bool = False  # whether every cue of the file matches the expected page
    mismatch: str = ""  # says that the file is probably another programme's
    first_shift: int | None = None  # first frame from which the delay is different
    shift_texts: list[str] = dataclasses.field(default_factory=list)  # changes of the delay
    printed: list[str] = dataclasses.field(default_factory=list)  # command-line options to print
    lines: list[str] = dataclasses.field(default_factory=list)  # messages


def read_subtitles_between(path: str, option: str, between: FrameRange,
                           left_out: Collection[int] = ()) -> list[ExpectedSubtitle]:
    """Return the subtitles that begin in the range `between` and end on the same day."""
    expected_subtitle = []
    for place, stored_subtitle in enumerate(read_until_damage(path, read_stl(path)), 1):
        begin, end = get_subtitle_times(stored_subtitle)
        is_selected = begin is not None and between.includes(begin) and place not in left_out
        if is_selected and begin is not None and end is not None and begin < end:
            expected_subtitle.append(ExpectedSubtitle(begin, end,
                                                      (stored_subtitle.row, stored_subtitle.justify,
                                                       stored_subtitle.text),
                                                      encode_page_characters(stored_subtitle.text,
                                                                             option)))
    if not expected_subtitle:
        raise Stop(f"{path} has no subtitle that begins and ends within a day")
    return expected_subtitle


def estimate_origin(search: OriginSearch, packets: Packets) -> OriginEstimate:
    """Estimate the origin of a recording, or explain why it is ambiguous."""
    origin = OriginEstimate()
    subtitles = read_subtitles_between(search.stl, search.option, search.between, search.left_out)
    if not report_sent_pages(packets, search, origin.lines):
        return origin
    bases = find_time_bases(subtitles, packets, search.within, search.inside)
    if not bases:
        origin.lines += [*explain_mismatch(packets, search.page), "no cue matches at any origin"]
        return origin
    if (count := len(packets.split_time_bases())) > MAX_BASES:
        origin.lines.append(f"PTS go back at {count - 1} places: only the {MAX_BASES} stretches "
                            "between them with the most page changes are searched")
    airings = find_airings(bases, search.origin is not None)
    if len(airings) > 1:
        origin.airings = [find_airing_packets(airings, number, bases, packets)
                          for number in range(len(airings))]
        times = "twice" if len(airings) == 2 else f"{len(airings)} times"
        origin.lines.append(f"the recording contains the programme {times}")
        return origin
    row = find_stretches(bases)
    if search.breaks:
        store_parts(origin, search, bases, fit_parts(subtitles, bases, split_at_breaks(row),
                                                     search.lateness))
    else:
        store_first_part(origin, search, bases, row, fit_parts(subtitles, bases, row,
                                                               search.lateness))
    if origin.status:
        origin.lines[:0] = explain_mismatch(packets, search.page)
    return origin


def report_sent_pages(packets: Packets, search: OriginSearch, lines: list[str]) -> bool:
    """Return whether the page was sent. Append messages to `lines` about skipped PES packets and,
    if the page was not sent, about the other pages."""
    count, marks = packets.count, len(packets.gap_markers)
    pts_count = sum(run.length for run in packets.list_runs_with_pts())
    if packets.damage:
        if not count:
            raise Stop(f"{search.name}: {packets.damage}")
        lines.append(f"{search.name}: {packets.damage}; only the PES packets before it are used")
    if not pts_count:
        lines.append(f"none of {counted(count, 'PES packet')} in {search.name} has a PTS: they "
                     "are refused with fault 34")
        return False
    if marks:
        lines.append(f"{counted(marks, 'gap marker')} {was(marks)} ignored here, but "
                     "check refuses gap markers (fault 45)")
    if pts_count + marks < count:
        lines.append(f"{count - pts_count - marks} of {counted(count, 'PES packet')} have no PTS "
                     "and were skipped: they are refused with fault 34")
    if not packets.changes:
        requested_page = page_name(*search.page)
        others = sorted((page for page in packets.header_counts if page != requested_page),
                        key=lambda page: -packets.header_counts[page])
        lines.append(f"{search.name} has no header of page {requested_page}; other subtitle pages: "
                     f"{', '.join(others[:MAX_PRINTED_ITEMS]) or 'none'}")
    return bool(packets.changes)


def store_first_part(origin: OriginEstimate, search: OriginSearch, bases: Sequence[TimeBase],
                     row: Sequence[Stretch], parts: Sequence[EstimatedPart]) -> None:
    """Store messages about the delays of the first part. Store its origin if it is unambiguous."""
    if not parts:
        origin.lines.append("no cue matches at any origin")
        return
    part, cues = prefer_known_origin(parts[0], search.origin), bases[0].cues
    if is_clear(part, search.origin is not None):
        origin.status = 0
        is_back = len(bases) > 1 and len(parts) == 1
        add_part(origin, part, part.time_base.packets if is_back else None, None, len(cues))
        origin.matches_every_cue = part.best.matches == part.best.content_matches == len(cues)
    origin.mismatch = describe_mismatch(part, bases)
    origin.lines += format_part(part, len(cues), search.has_picture, origin.mismatch)
    if not origin.mismatch:
        compare_with_known_origin(origin, search.origin, part)
    if len(parts) > 1:
        origin.first_shift = cues[row[1].first].frame
        origin.shift_texts = shift_lines(row, parts,
                                         part.origin if search.origin is None else search.origin)
    if drift := find_drift(cues, bases[part.base].changes):
        origin.shift_texts = [describe_drift(drift)]
    origin.lines += origin.shift_texts
    first, last = (compute_time(pts, part.origin) or "a time outside the day"
                   for pts in part.time_base.pts_range)
    origin.lines.append(f"subtitles are expected from {format_frame(cues[0].frame)} to "
                        f"{format_frame(cues[-1].frame)}; the page was received from {first} to "
                        f"{last}")


def prefer_known_origin(part: EstimatedPart, known: int | None) -> EstimatedPart:
    """Return a part with the known origin if the estimated origin matches only the first page. Such
    a match is no evidence: if a recording begins during a subtitle, its first header seems late."""
    # All page changes except the first, which is at frame 0
    sent = part.time_base.copy_between(part.time_base.cues, 0, part.time_base.length +
                                       1)
    if known is None or sent.compare(part.best.start).matches:
        return part
    start = round(subtract_origin(known, sent.first) / TICKS)
    fit = sent.compare(start)
    if not fit.matches:
        return part
    return part._replace(best=fit, others=select_other_origins(part.time_base, start),
                         time_base=sent)


def store_parts(origin: OriginEstimate, search: OriginSearch, bases: Sequence[TimeBase],
                parts: Sequence[EstimatedPart]) -> None:
    """Store the parts if their number matches --breaks and all their origins are unambiguous."""
    if len(parts) != search.breaks + 1:
        origin.breaks = max(len(parts) - 1, 0)
        breaks = counted(origin.breaks, "break") if origin.breaks else "no break"
        origin.lines += [f"{breaks} found, but --breaks is {search.breaks}",
                         *format_breaks(parts)]
        return
    count = sum(len(part.time_base.cues) for part in parts)
    if all(is_clear(part, part is parts[0] and search.origin is not None) for part in parts):
        origin.status = 0
        for part in parts:
            add_part(origin, part, part.time_base.packets if len(bases) > 1 else None,
                     (part.begin, part.end), count)
    origin.lines += [f"{len(parts)} parts: {sum(part.best.matches for part in parts)} of "
                     f"{counted(count, 'cue')} match", *format_breaks(parts)]
    for part in parts:
        origin.lines += format_part(part, count, search.has_picture)
        if part is parts[0]:
            compare_with_known_origin(origin, search.origin, part)
        origin.lines += [f"the subtitle from {format_frame(expected_subtitle.begin)} to "
                         f"{format_frame(expected_subtitle.end)} reaches into the next part, so it "
                         "is in no part" for expected_subtitle in part.overlapping]


def add_part(origin: OriginEstimate, part: EstimatedPart, packets: Range | None,
             frames: tuple[int, int] | None, count: int) -> None:
    """Store a part whose origin is unambiguous, and its command-line options. `count` is the number
    of cues in the file."""
    between = f"--from {format_frame(frames[0])} --to {format_frame(frames[1])} " if frames else ""
    pes = f"--pes {packets[0]}-{packets[1]} " if packets else ""
    best = part.best
    origin.parts.append(PartOrigin(part.origin, packets, frames, best.matches, best.total,
                                   format_match(part, count)))
    origin.printed.append(f"{between}{pes}{format_origin(part.origin)}")


def compare_with_known_origin(origin: OriginEstimate, known: int | None,
                              part: EstimatedPart) -> None:
    """Store whether all cues of the first part match, and the part's delay relative to the known
    origin. If the origin is unknown, report a short delay relative to --origin 0."""
    best, cue_offset = part.best, part.time_base.find_cue_offset(part.best)
    origin.has_all_cues = best.matches == best.total or bool(
        cue_offset and cue_offset.matches == cue_offset.total)
    compared = compute_origin(0) if known is None else known
    ticks_late = subtract_pts(compared, part.origin)
    origin.ticks_late = None if known is None else ticks_late
    if known is not None or abs(ticks_late) // TICKS <= MAX_PRINTED_DISTANCE \
            and not 0 <= abs(ticks_late) < TICKS:
        origin_text = format_origin(compared)
        origin.lines.append(f"compared with {origin_text}, the subtitles are "
                            f"{describe_offset(ticks_late)}" if ticks_late
                            else f"the subtitles match {origin_text}")


def explain_mismatch(packets: Packets, page: Page) -> Iterator[str]:
    """Yield possible reasons why cues do not match: rows that were sent outside a transmission of
    the page, and sub-pages."""
    name = page_name(*page)
    if packets.stray_rows:
        count = sum(run.length for run in packets.runs if STRAY in run.flags)
        yield f"rows came while page {name} was not open, in {counted(count, 'PES packet')}"
    subcodes = find_alternating_subcodes(packets)
    if subcodes:
        yield describe_subpages(subcodes, name)


def describe_offset(ticks: int) -> str:
    """Return a delay in ticks as text, such as `2 frames late`."""
    frames, rest = divmod(abs(ticks), TICKS)
    words = [counted(frames, "frame")] * bool(frames or not rest) + \
        [counted(rest, "tick")] * bool(rest)
    return f"{' and '.join(words)} {'late' if ticks > 0 else 'early'}"


def find_equal_origins(part: EstimatedPart) -> list[OriginFit]:
    """Return the origins that are as likely as the best origin of a part. If in-cues and out-cues
    have different delays, ignore nearby origins and those at which only erasures match."""
    best, cue_offset = part.best, part.time_base.find_cue_offset(part.best)
    erasure_choices = (True,) if best.matches >= MIN_MATCHING_CUES else (True, False)
    return [fit for fit in part.others
            if any(fit.score(one) >= best.score(one) for one in erasure_choices)
            and not (cue_offset and (abs(fit.start - best.start) <= MAX_CUE_OFFSET
                                     or not fit.text_matches))]


def is_clear(part: EstimatedPart, is_known: bool = False) -> bool:
    """Return whether the origin of a part is unambiguous. If `is_known` is false, too many early
    cues make it ambiguous."""
    is_open = part.early is not None and part.early.is_common_delay and not is_known
    return not find_equal_origins(part) and not is_open and (
        part.best.matches * 2 >= part.best.total or bool(part.time_base.find_cue_offset(part.best)))


def format_match(part: EstimatedPart, count: int) -> str:
    """Return a line with the number of matching cues; `count` is the number of cues in the file."""
    best, others, cues = part.best, part.others, len(part.time_base.cues)
    following = f"the next best is {format_origin(others[0].origin)} with " \
        f"{counted(others[0].matches, 'cue')}" if others else "no other origin matches a cue"
    return (f"{best.matches} of {counted(best.total, 'cue')} in the recording "
            f"{'matches' if best.matches == 1 else 'match'}, {best.content_matches} with the "
            f"expected text; {'the file' if cues == count else 'this part'} has "
            f"{counted(cues, 'cue')}; {following}")


def format_part(part: EstimatedPart, count: int, has_picture: bool = False,
                mismatch: str = "") -> Iterator[str]:
    """Yield the report on the origin of a part. `count` is the number of cues in the file.
    `mismatch` says that the file is probably another programme's."""
    best = part.best
    yield format_match(part, count)
    if part.time_base.within:
        delays = sorted(best.delays)
        yield "no cue is late" if not delays[-1] else f"cues are " \
            f"{format_frame_range(delays[0], delays[-1])} late (median {delays[len(delays) // 2]})"
    equal, cue_offset = find_equal_origins(part), part.time_base.find_cue_offset(best)
    if equal:
        names = ", ".join(format_origin(fit.origin) for fit in equal[:MAX_PRINTED_ITEMS])
        yield (f"ambiguous: {format_origin(best.origin)} fits no better than {names}"
               + (f" and {len(equal) - MAX_PRINTED_ITEMS} more" if len(equal) > MAX_PRINTED_ITEMS
                  else ""))
    if part.early:
        yield describe_early_cues(part.early, has_picture)
    if best.first_unmatched is not None:
        yield f"the first cue without a match is at {format_frame(best.first_unmatched)}"
    if cue_offset:
        kinds = ("in-cues", "out-cues")[::1 if cue_offset.is_begin else -1]
        count_text = "all" if cue_offset.matches == cue_offset.total else \
            f"{cue_offset.matches} of {cue_offset.total}"
        yield f"{count_text} {kinds[0]} are {describe_offset(TICKS * cue_offset.delay)} compared " \
            f"with the {kinds[1]}"
    if best.exact_matches < best.matches:
        yield (f"{best.matches - best.exact_matches} of the matching cues match only to the "
               "nearest "
               "frame: PTS that are not whole frames apart are refused with fault 61")
    if mismatch:
        yield mismatch
    elif best.matches * 2 < best.total and not cue_offset:
        yield (f"fewer than half of the cues match with {format_origin(best.origin)}: check that "
               "this is the right subtitle file")


def describe_mismatch(part: EstimatedPart, bases: Sequence[TimeBase]) -> str:
    """Return a message if the file is probably another programme's, otherwise "". Then fewer than
    half of the cues match a page change, and hardly any text of the file was sent at any time. If
    the file is right, but its subtitles are late, missing or drift, most texts on air are its."""
    best, cues = part.best, bases[0].cues
    if best.matches * 2 >= best.total or part.time_base.find_cue_offset(best):
        return ""
    expected_texts = {cue.letters for cue in cues if cue.letters}
    sent_texts = {change.letters for base in bases for change in base.changes.values()
                  if change.letters}
    count = min(len(expected_texts), len(sent_texts))
    if count < MIN_COMPARED_TEXTS or \
            len(expected_texts & sent_texts) * OTHER_PROGRAMME_SHARE >= count:
        return ""
    return "probably another programme's subtitle file: " \
        f"{best.matches} of {counted(best.total, 'cue')} match"


def describe_early_cues(early: EarlyCues, has_picture: bool) -> str:
    """Report early cues. If there are many, ask the operator to give the clock."""
    count = f"{early.early_count} of {counted(early.total, 'cue')} " \
        f"{'is' if early.early_count == 1 else 'are'} up to {counted(early.frames, 'frame')} " \
        "early compared with the other cues"
    options = "--origin or --start" if has_picture else "--origin"
    return f"{count}: either these cues are early, or the other cues are late. Give {options}" \
        if early.is_common_delay else count


def describe_drift(drift: Drift) -> str:
    direction = "later and later" if drift.frames > 0 else "earlier and earlier"
    amount = counted(abs(drift.frames), "frame")
    return f"from {format_frame(drift.first)} to {format_frame(drift.last)}, subtitles come " \
        f"{direction}, by {amount}: does the file or the recording have another frame rate?"


def shift_lines(row: Sequence[Stretch], parts: Sequence[EstimatedPart], known: int) -> list[str]:
    """Return a line for each change of the delay, which is relative to the origin `known`."""
    lines = []
    for stretch, before, part in zip(row[1:], parts, parts[1:]):
        distance = subtract_pts(known, part.origin)
        frames = round(abs(distance) / TICKS)
        words = f"{frames / FRAMES_A_SECOND:.2f} s ({counted(frames, 'frame')}) " \
            f"{'late' if distance > 0 else 'early'}" if abs(distance) >= TICKS else "on time"
        reset_text = ", where the PTS go back" if part.base != before.base else ""
        lines.append(f"from {format_frame(stretch.track.cues[stretch.first].frame)} "
                     f"on{reset_text}, subtitles are {words}")
    left = lines[MAX_LISTED_CHANGES - 1:-1]
    lines = lines[:MAX_LISTED_CHANGES - 1] \
        + [f"and {counted(len(left), 'more change')}"] * bool(left) + lines[MAX_LISTED_CHANGES
                                                                            - 1:][-1:]
    return lines


def format_breaks(parts: Sequence[EstimatedPart]) -> Iterator[str]:
    """Yield a line about each part after the first, with its start and the break before it."""
    for number, (previous, part) in enumerate(zip(parts, parts[1:]), 2):
        frames, rest = divmod(abs(gap_ticks := subtract_pts(previous.origin, part.origin)), TICKS)
        length = format_time_code(frames) + (f" and {counted(rest, 'tick')}" if rest else "")
        place_text = "where the PTS go back" if part.base != previous.base else \
            f"after a break of {length}" if gap_ticks > 0 else f"where the recording lacks {length}"
        yield f"part {number} begins at {format_frame(part.begin)}, {place_text}"


def find_airing_packets(airings: Sequence[Airing], number: int, bases: Sequence[TimeBase],
                        packets: Packets) -> Range:
    """Return the PES packets between the last page change of the previous airing and the first page
    change of the next airing."""
    first, last = bases[0].packets[0], bases[-1].packets[1]
    if number:
        first = find_packet_number(airings[number - 1].last, bases, packets) + 1
    if number + 1 < len(airings):
        last = find_packet_number(airings[number + 1].first, bases, packets) - 1
    return first, last


def find_packet_number(place: tuple[int, int], bases: Sequence[TimeBase], packets: Packets) -> int:
    """Return the number of the first PES packet at or after a place in a time base."""
    base = bases[place[0]]
    length, least = TICKS * base.length, TICKS * place[1] - TICKS // 2

    def is_reached(pts: int) -> bool:
        return subtract_pts_within(base.first, length, pts) >= least

    return next((number for run in packets.list_runs_between(*base.packets)
                 if run.last is not None and is_reached(run.last)
                 for number in range(run.first, run.end) if is_reached(run.pts_of(number) or 0)),
                base.packets[1])
