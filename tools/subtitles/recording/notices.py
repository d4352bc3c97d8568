"""Warn about anomalies of a recording that break no rule of `check`, without changing the exit
status. Refuse a recording whose announced page is never sent."""
from __future__ import annotations

import array
import contextlib
import itertools
from typing import Collection, Iterator, NamedTuple, Sequence

from ..clock.start import NoFirstPicture, find_first_picture, read_start_frame
from ..common.command_line import counted, format_pid, escape_hidden
from ..common.files import read_first_bytes
from ..common.times import (
    FRAMES_OF_A_DAY, NO_FRAME, TICKS, compute_frame, compute_origin, compute_time,
    find_frames_of_day, format_frame, pts_of, subtract_origin, subtract_pts, subtract_pts_within,
    wrap_pts)
from ..formats.listing import NEVER_SENT, NamedFault
from ..formats.stl import SubtitleFile
from ..formats.teletext import (
    OPTION_BY_NUMBER, OPTION_BY_WORD, OTHER_REGIONS, Page, choose_track_option, page_name,
    reverse_bits)
from ..request.request import LC, Request, Unclear
from ..stream.gaps import (
    ANOMALY_TEXTS, SECOND, explain_refusal, find_clock_jumps, find_pts_anomalies)
from ..stream.repeats import list_cue_frames, repeat_distance
from ..stream.packets import HEADER, PES, Packets
from ..stream.receiver import PACKETS_PER_PAUSE, PAUSE
from ..stream.survey import (
    ANY_LANGUAGE_CODES, Announced, KINDS, ProgramMap, SUBTITLE_KINDS, Survey, list_language_codes)

TNB, TNS = slice(238, 243), slice(243, 248)  # bytes of TNB and TNS in a GSI block


class Notice(NamedTuple):
    """A warning: its kind, which is a word for result files, its message, and its time, if any."""

    kind: str
    line: str
    time: str | None = None

    def format_warning(self) -> str:
        """Return the message with the prefix `warning: `."""
        return f"warning: {self.line}"


def find_timing_notices(packets: Packets, origin: int) -> Iterator[Notice]:
    """Yield warnings about PTS that do not match the PCR."""
    for anomaly in find_pts_anomalies(packets):
        time = compute_time(anomaly.pts, origin)
        period_text = f"from {time} on" if time else f"from PTS {anomaly.pts} on"
        yield Notice(f"pts_{anomaly.kind}",
                     f"{period_text}, the Teletext PTS {ANOMALY_TEXTS[anomaly.kind]} (by up "
                     f"to {abs(anomaly.worst) / SECOND:.2f} s, in {anomaly.number} of "
                     f"{anomaly.total} samples)", time)


def find_jump_notices(packets: Packets, origin: int, first: int, last: int) -> Iterator[Notice]:
    """Yield warnings about clock jumps without a loss of packets between two frames."""
    for jump in find_clock_jumps(packets):
        frame = FRAMES_OF_A_DAY if jump.before is None else compute_frame(jump.before, origin)
        if first <= frame <= last:
            direction = "by" if jump.ticks > 0 else "back by"
            yield Notice("clock_jump",
                         f"the clock jumps {direction} {format_duration(abs(jump.ticks))} at "
                         f"{format_frame(frame)}, but no packet is missing: was an encoder "
                         "restarted?", format_frame(frame))


def format_duration(ticks: int) -> str:
    """Return a duration in ticks as text: hours, minutes and seconds, or `12.34 s` if short."""
    seconds = round(ticks / SECOND)
    if seconds < 60:
        return f"{ticks / SECOND:.2f} s"
    return f"{seconds // 3600}:{seconds // 60 % 60:02}:{seconds % 60:02}"


def find_pmt_notices(survey: Survey, pid: int, request: Request) -> Iterator[Notice]:
    """Yield warnings if the PMT does not announce the requested page, or announces it wrongly."""
    programmes = survey.find_programmes(pid)
    if not programmes:
        return
    announced = [page for program_map in programmes for page in program_map.pages.get(pid, [])]
    page_announcements = [item for item in announced if item.page == request.page]
    name = request.page_name
    if not announced:
        yield Notice("page", f"the PMT announces no page on {format_pid(pid)}, so receivers do not "
                     f"find page {name}")
    elif not page_announcements:
        yield Notice("page", f"the PMT announces {format_pages(announced)}, but not page {name}")
    else:
        yield from find_page_notices(page_announcements, request)


def find_page_notices(page_announcements: list[Announced], request: Request) -> Iterator[Notice]:
    """Yield warnings if the PMT does not announce the page as subtitles, or announces another
    language or character set than those of the subtitle file."""
    name = request.page_name
    if not any(announced.kind in SUBTITLE_KINDS for announced in page_announcements):
        kinds = '" and "'.join(dict.fromkeys(KINDS.get(announced.kind, "an unknown kind")
                                             for announced in page_announcements))
        yield Notice("type", f'the PMT announces page {name} as "{kinds}", not as subtitles')
    code = read_language_code(request.stl_path)
    expected_languages = {*list_language_codes(code)}
    languages = dict.fromkeys(announced.language.lower() for announced in page_announcements)
    if expected_languages and not (expected_languages | ANY_LANGUAGE_CODES) & languages.keys():
        yield Notice("language", f"the PMT announces page {name} in "
                     f"{' and '.join(map(escape_hidden, languages))}, but the language of the "
                     f"subtitle file is {' or '.join(list_language_codes(code))} (LC {code})")
    yield from find_option_notices([*languages], request)


def find_option_notices(languages: list[str], request: Request) -> Iterator[Notice]:
    """Yield a warning if none of the announced languages uses the national option. Receivers may
    choose the character set by the language in the PMT."""
    options = [choose_track_option(item) for item in languages]
    is_other_option = [bool(option and option.word != request.option) or language in OTHER_REGIONS
                       for language, option in zip(languages, options)]
    if not languages or not all(is_other_option):
        return
    words = list(dict.fromkeys(f"--option {option.word}" if option else "another region"
                               for option in options))
    yield Notice("option", f"the PMT announces page {request.page_name} in "
                 f"{' and '.join(languages)}, which uses {' and '.join(words)}, but it was judged "
                 f"with --option {request.option}")


def find_character_set_notices(packets: Packets, request: Request) -> Iterator[Notice]:
    """Yield warnings about packets whose character set is not that of the national option."""
    judged = OPTION_BY_WORD[request.option]
    for number, designation, region, bits in packets.character_sets:
        if region is None or bits is None:
            set_name = "an unreadable character set"
        elif OPTION_BY_NUMBER.get(8 * region + reverse_bits(bits)) != judged:
            set_name = f"character set {describe_character_set(region, bits)}, not " + \
                describe_character_set(judged.region, reverse_bits(judged.bits))
        else:
            continue
        yield Notice("character_set", f"packet {request.page_name[0]}/{number}/{designation} "
                     f"names {set_name}: receivers above level 1 may show other characters")


def describe_character_set(region: int, bits: int) -> str:
    """Describe a character set. `bits` are in the order of packets X/28 and M/29."""
    option = OPTION_BY_NUMBER.get(8 * region + reverse_bits(bits))
    return f"{bits:03b} of region {region:04b}" + (f" ({option.name})" if option else "")


def format_pages(announced: list[Announced]) -> str:
    return ", ".join(dict.fromkeys(item.line() for item in announced))


def read_language_code(stl: str) -> str:
    return read_first_bytes(stl, LC.stop)[LC].decode("latin-1")


def find_count_notices(subtitles: SubtitleFile) -> Iterator[Notice]:
    """Yield warnings if the numbers of TTI blocks and subtitles differ from those in the GSI block:
    the file may be cut off. The number of subtitles (TNS) may include comments. Ignore a field that
    is not a number."""
    expected = read_count(subtitles.data[TNB])
    subtitle_count = subtitles.count()
    if expected is not None and expected != subtitle_count:
        yield Notice("blocks", f"the GSI block counts {counted(expected, 'TTI block')} (TNB), but "
                     f"{format_presence(subtitle_count)}: is the subtitle file complete?")
    expected, known = read_count(subtitles.data[TNS]), subtitles.count_ended()
    if expected is not None and expected not in known:
        yield Notice("subtitles", f"the GSI block counts {counted(expected, 'subtitle')} (TNS), "
                     f"but {format_presence(known[0])}: is the subtitle file complete?")


def read_count(digits: bytes) -> int | None:
    """Return the number in a field of a GSI block, or `None` if the field is not a number."""
    return int(digits) if digits.isdigit() else None


def format_presence(count: int) -> str:
    """Return the phrase `there is 1` or `there are N`."""
    return "there is 1" if count == 1 else f"there are {count:,}"


def find_pause_notices(pts: Sequence[int], request: Request, origin: int) -> Iterator[Notice]:
    """Yield a warning about each long interval without a PES packet, unless there are many."""
    frames = array.array("i", (frame for frame in find_frames_of_day(pts, origin, request.within)
                               if frame != NO_FRAME))
    pauses = [(first + 1, second) for first, second in zip(
        frames, itertools.islice(frames, 1, None)) if second - first - 1 > PAUSE]
    if len(pauses) * PACKETS_PER_PAUSE <= len(frames):
        for first, second in pauses:
            yield Notice("pause", f"no PES packet for {counted(second - first, 'frame')} from "
                         f"{format_frame(first)} on", format_frame(first))


def find_repeat_notices(headers: Sequence[int], request: Request, origin: int,
                        times: list[tuple[int, int]]) -> Iterator[Notice]:
    """Yield a warning if --every is too long to show a missing repeat of the page."""
    every = repeat_distance((compute_frame(pts, origin, request.within) for pts in headers),
                            list_cue_frames(times))
    if every is not None and every * 2 < request.every:
        yield Notice("repeat", f"the page is repeated every "
                     f"{'frame' if every == 1 else counted(every, 'frame')}: give --every {every} "
                     "to notice a missing repeat")


# Uncertainty of a PMT's time, in ticks. A PMT is dated by the last PCR listed before it, and PCRs
# are listed once a second.
PMT_TOLERANCE = 2 * SECOND


class NeverSent(Exception):
    """Raised if a page is announced but never sent. This is a fault, so nothing else is judged."""

    def __init__(self, words: str) -> None:
        super().__init__(words)
        self.fault = NamedFault(NEVER_SENT, words)


class Announcement(NamedTuple):
    """The PIDs on which a PMT announces a page, and the programme number. The PMT applies from the
    PCR `begin` (if `None`, from the beginning of the recording) to the PCR `end` (if `None`, to the
    end)."""

    number: int
    pids: frozenset[int]
    begin: int | None
    end: int | None

    def is_valid_between(self, begin: int, end: int) -> bool:
        """Return whether the announcement certainly applies at some time between two PTS."""
        return (self.begin is None or subtract_pts(self.begin, end) > PMT_TOLERANCE) and (
            self.end is None or subtract_pts(begin, self.end) > PMT_TOLERANCE)


def find_announcing_pids(program_map: ProgramMap, page: Page) -> set[int]:
    return {pid for pid, pages in program_map.pages.items()
            if any(known.page == page for known in pages)}


def find_announcements(records: Sequence[ProgramMap], page: Page) -> Iterator[Announcement]:
    """Return an iterator over the announcements of a page, in the order of the PMTs."""
    ends: dict[int, int | None] = {}  # last PCR before the next PMT, by programme number
    several: list[Announcement] = []
    for record in reversed(records):
        if pids := find_announcing_pids(record, page):
            several.append(Announcement(record.number, frozenset(pids), record.after,
                                        ends.get(record.number)))
        ends[record.number] = record.after
    return reversed(several)


def find_unsent(announced: Sequence[Announcement], carriers: Collection[int], begin: int,
                end: int) -> Announcement | None:
    """Return the first announcement, between the PTS `begin` and `end`, of a page that is sent only
    on other PIDs, if there is one. `carriers` has the PIDs that send the page. If a programme
    announces the page on one of these PIDs, ignore the programmes that do not."""
    carrying_programmes = {announcement.number for announcement in announced if announcement.pids &
                           {*carriers}}
    return next((announcement for announcement in announced
                 if carriers and not announcement.pids & {*carriers}
                 and announcement.is_valid_between(begin, end)
                 and (not carrying_programmes or announcement.number in carrying_programmes)), None)


def find_silent_pids(announced: Sequence[Announcement], carriers: Collection[int]) -> set[int]:
    """Return the PIDs on which programmes announce the page but never send it. Return an empty set
    if no other programme announces the page and sends it."""
    carrying_programmes = {announcement.number for announcement in announced if announcement.pids &
                           {*carriers}}
    others = {pid for announcement in announced if announcement.number not in carrying_programmes
              for pid in announcement.pids}
    return (others - {*carriers}) if carrying_programmes else set()


def is_page_expected(clock: tuple[int, int] | None, times: Sequence[tuple[int, int]],
                     origin: int | None) -> bool:
    """Return whether a page is expected between the two PCRs in `clock`. If the origin is known, a
    complete subtitle must lie between them. Otherwise they must be at least as far apart as the
    first TCI and the last TCO."""
    if clock is None or not times:
        return False
    length = wrap_pts(clock[1] - clock[0])
    if origin is None:
        return length >= TICKS * (times[-1][1] - times[0][0])
    return any(wrap_pts(pts_of(begin, origin) - clock[0]) + TICKS * (end - begin) <= length
               for begin, end in times)


def has_unreadable(survey: Survey, pids: Collection[int]) -> bool:
    """Return whether any of these PIDs has TS packets but no readable PES packet, for example
    because it is scrambled."""
    packets = [survey.by_pid[pid] for pid in pids if pid in survey.by_pid]
    return any(not packet.count and packet.packets and explain_refusal(packet)
               for packet in packets)


def explain_never_sent(survey: Survey, page: Page, pids: Collection[int],
                       carriers: Collection[int] = ()) -> str:
    """Return a message with the PIDs that announce the page and the PIDs that send it."""
    names = " and ".join(map(format_pid, sorted(pids)))
    words = f"page {page_name(*page)} is announced on {names}, but was never sent"
    unused_pids = [pid for pid in sorted(pids)
                   if pid not in survey.by_pid or not survey.by_pid[pid].packets]
    if unused_pids:
        words += f" ({' and '.join(map(format_pid, unused_pids))} " \
            f"{'has' if len(unused_pids) == 1 else 'have'} no TS packet)"
    if carriers:
        words += f"; {' and '.join(map(format_pid, sorted(carriers)))} " \
            f"{'has' if len(carriers) == 1 else 'have'} it"
    return words


def refuse_unsent_page(request: Request, survey: Survey, times: Sequence[tuple[int, int]]) -> None:
    """Raise `NeverSent` if the page is announced but never sent, and a subtitle is expected in the
    recording, or nothing is known about its subtitles. If --pid is given, consider only that PID.
    """
    announced = find_announcements(survey.programmes, request.page)
    named_pids = {pid for announcement in announced for pid in announcement.pids
                  if request.pid in (None, pid)}
    if named_pids and not has_unreadable(survey, named_pids) and (request.is_reading or any(
            is_page_expected(survey.get_pcr_range(pid), times, find_origin(request, survey, pid))
            for pid in named_pids)):
        raise NeverSent(explain_never_sent(survey, request.page, named_pids))


def find_origin(request: Request, survey: Survey, pid: int) -> int | None:
    """Return the origin from --start and the first picture, or from --origin, if given."""
    if request.start is not None:
        with contextlib.suppress(NoFirstPicture, Unclear):
            return wrap_pts(find_first_picture(survey, pid).pts - TICKS * read_start_frame(request))
    return None if request.origin is None else compute_origin(request.origin)


def refuse_dead_source(request: Request, survey: Survey, packets: Packets,
                       times: Sequence[tuple[int, int]]) -> None:
    """Raise `NeverSent` if a subtitle is expected in the recording, but no row of the page is sent
    before the last TCO.

    If the origin is unknown, search the whole recording for rows. Return if no header of the page
    is sent, since the page may be the wrong one, or if some PES packets can't be read. `times` has
    the TCI and TCO of each subtitle with text.
    """
    origin, clock = find_origin(request, survey, packets.pid), find_recorded_time(survey, packets)
    if not packets.has_page or not is_all_read(packets) or \
            not is_page_expected(clock, times, origin):
        return
    begin, end = times[0][0], times[-1][1]

    def is_before_end(pts: int | None) -> bool:
        return pts is not None and (origin is None or subtract_pts_within(
            pts_of(begin, origin), TICKS * (end - begin), pts) < TICKS * (end - begin))

    rows = [packets.get_pts(number) for number, texts in [*packets.decoded_rows,
            *packets.stray_rows] if texts]
    if any(map(is_before_end, rows)):
        return
    headers = sum(map(is_before_end, packets.pts(flags=HEADER)))
    content = f"{headers:,} header{'s' * (headers != 1)}, no row" if headers else \
        f"{sum(map(is_before_end, packets.pts())):,} PES packets, no header"
    if origin is not None and rows and rows[0] is not None:
        late = round(subtract_origin(pts_of(begin, origin), rows[0]) / TICKS)
        content += f"; the first row comes {counted(late, 'frame')} after the first TCI"
    raise NeverSent(f"page {request.page_name} is never sent while subtitles are expected: "
                    f"{content}")


def is_all_read(packets: Packets) -> bool:
    """Return whether no PES packet is missing or refused."""
    return not packets.gap_markers and not packets.damage and not packets.refusal and \
        all(run.pts is not None and not run.fault for run in packets.runs)


def find_recorded_time(survey: Survey, packets: Packets) -> tuple[int, int] | None:
    """Return the first and the last PCR, or the first and the last PTS if there is no PCR."""
    clock = survey.get_pcr_range(packets.pid) if packets.pid != PES else None
    if clock or not packets.runs or len(packets.split_time_bases()) > 1:
        return clock
    first, last = packets.runs[0].pts, packets.runs[-1].last
    return None if first is None or last is None else (first, last)


def refuse_other_pid(request: Request, survey: Survey, begin: int, end: int) -> None:
    """Raise `NeverSent` if the PMT announces the page on a PID that never sends it. Consider only
    announcements between the PTS `begin` and `end`. If --pid is given, do nothing."""
    carriers = {pid for pid, packets in survey.by_pid.items() if packets.has_page}
    announced = [*find_announcements(survey.programmes, request.page)]
    announcement = find_unsent(announced, carriers, begin, end) if request.pid is None else None
    if announcement and not has_unreadable(survey, announcement.pids):
        raise NeverSent(explain_never_sent(survey, request.page, announcement.pids, carriers))
