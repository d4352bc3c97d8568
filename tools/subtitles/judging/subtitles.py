"""Give advice on refused subtitles, and find the other subtitles of the file, which are judged."""
from __future__ import annotations

import functools
from typing import Callable, Iterable, Iterator, NamedTuple, Sequence

from ..common.command_line import counted
from ..common.times import FRAMES_A_SECOND, FRAMES_OF_A_DAY, TICKS, decode_frame, format_frame
from ..formats.layout import Layout, PLAIN, TextFault, draw_text, make_page_rows
from ..formats.listing import (
    CHARACTER, EMPTY, FaultLine, Meaning, STL_FAULTS, TEXT_FAULTS,
    UNDECIDED, read_meanings, remove_markup)
from ..formats.stl import (
    NamedSubtitle, Subtitle, SubtitleFile, format_subtitle_name, decode_subtitles)
from ..formats.teletext import (
    OPTION_BY_WORD, NationalOption, OPTIONS, Page, decode_character, has_characters,
    read_character_bytes, find_options)
from ..request.commands import MAX_LIST_LINES
from ..stream.packets import PES, PacketRun, Packets
from ..stream.receiver import BLANK_PAGE, Rows, Timeline
from .sentence import FAULT_CLAUSES
from .transmissions import ExpectedPages


HOUR = 3600 * FRAMES_A_SECOND


def advise_on_title(subtitles: SubtitleFile) -> str:
    """Return advice about the first subtitle if it is probably a title that is not meant to be
    sent: it is at 00:00:00:00, an hour before all others. Otherwise return an empty string."""
    rest = min((frame for frame in subtitles.begins if frame), default=0)
    if not rest >= HOUR or subtitles.begins[0]:
        return ""
    return (f"the first subtitle is at 00:00:00:00, all others are from {format_frame(rest)} on: "
            f"if that is a title, which is not sent, give --from {format_frame(rest)}")


class OptionAdvice:
    """Gives advice on characters in a subtitle file that the national option lacks (fault 50)."""

    def __init__(self, subtitles: SubtitleFile, option: str) -> None:
        self.subtitles, self.option = subtitles, option

    @functools.cached_property
    def complete_options(self) -> list[NationalOption]:
        """Return the options, except the chosen one, that contain all characters of the file."""
        texts = {self.subtitles.text(block) for block in self.subtitles.list_last_blocks()}
        options = [option for option in OPTIONS if option.word != self.option
                   and all(has_characters(text, option) for text in texts)]
        return [option for option in options if not option.region] or options

    def advise(self, block: int, offset: int) -> str:
        """Return advice on the byte at `offset` in the text whose last TTI block is `block`."""
        text = self.subtitles.text(block)
        return "" if offset >= len(text) else advise_on_character(
            read_character_bytes(text, offset), self.complete_options)


def advise_on_character(letter: bytes, complete_options: list[NationalOption]) -> str:
    """Return advice on a character that the national option lacks. `complete_options` lists the
    options that contain all characters of the file."""
    if complete_options:
        verb, its = ("has", "its") if len(complete_options) == 1 else ("have", "their")
        words = join_words([option.word for option in complete_options], "or")
        return f"use --option {words}, which {verb} all the characters in the file" + (
            f", if receivers are set to {its} region" if complete_options[0].region else "")
    character = decode_character(letter)
    if character is None:
        return f"byte {letter[:1].hex().upper()} is not a character of code table 00: correct it"
    options = find_options(letter)
    if options:
        return f"no national option has all the characters in the file; {character} is in " \
            f"{join_words([option.word for option in options], 'and')}"
    return (f"no national option has {character}: replace it (it needs other character sets, or "
            "packets X/26, which are refused with fault 70)")


def join_words(words: list[str], conjunction: str) -> str:
    """Join words with commas and a conjunction, as in `english, italian or czech`."""
    *first_words, last = words
    return f"{', '.join(first_words)} {conjunction} {last}" if first_words else last


# A subtitle with one of these faults is not compared with other subtitles.
NOT_COMPARED = {16, *range(18, 22)}
ORDER_FAULTS = {56, 57}  # faults found by comparing a subtitle with the previous one
# maximum number of refused subtitles to name in the sentence about the verdict
MAX_NAMED_SUBTITLES = 3
PAGE_FLAGS, ERASE_FLAGS = "heo", "heb"  # flags of a PES packet with a page, or with a blank page


class SubtitleCounts(NamedTuple):
    """The number of judged subtitles, and the number of subtitles that are not judged because they
    or the next subtitle are refused."""

    judged: int
    refused: int

    def describe(self) -> str:
        """Return text such as `7 subtitles judged, 2 refused`, or "" if none is refused."""
        return f"{counted(self.judged, 'subtitle')} judged, {self.refused:,} refused" \
            if self.refused else ""


class RefusedSubtitle(NamedTuple):
    """A refused subtitle, its first fault that is an error (or its first fault, if all are
    waived), its refused character, if any, and advice."""

    subtitle: NamedSubtitle
    fault: FaultLine
    character: str
    advice: str
    is_waived: bool = False  # whether the severity file makes all its faults warnings

    def describe_subtitle(self) -> str:
        subtitle = self.subtitle
        return f"{format_subtitle_name(subtitle.position, subtitle.number)} at {subtitle.begin}"

    def describe_reason(self) -> str:
        """Describe the fault, with its refused character or its meaning, and add advice."""
        more = self.character or FAULT_CLAUSES.get(self.fault.number, "")
        do = f": {self.advice}" if self.advice else ""
        return f"has fault {self.fault.number} {self.fault.name} ({more}){do}"

    def format_line(self) -> str:
        return f"undecided: {self.describe_subtitle()}, until {self.subtitle.end}, " \
            f"{self.describe_reason()}"


class ValidSubtitles(NamedTuple):
    """The subtitles that are judged although others in the file are refused. `check --all` judges
    the transmission from each correct subtitle to the next one. A subtitle is correct if it has no
    fault, and the next subtitle is not out of order and does not overlap it."""

    judged: list[Subtitle]
    refused: list[RefusedSubtitle]
    skipped_positions: frozenset[int]  # positions of the subtitles that are not judged

    def format_lines(self) -> Iterator[str]:
        """Yield a line about each refused subtitle, up to a maximum number of lines."""
        yield from (refused.format_line() for refused in self.refused[:MAX_LIST_LINES])
        if len(self.refused) > MAX_LIST_LINES:
            yield f"undecided: {counted(len(self.refused) - MAX_LIST_LINES, 'more subtitle')}"

    def describe(self) -> str:
        """Describe the first refused subtitles, and the number of the others. Leave out those whose
        faults are waived, unless all are."""
        several = [item for item in self.refused if not item.is_waived] or self.refused
        if len(several) == 1:
            return f"{several[0].describe_subtitle()} {several[0].describe_reason()}"
        subtitle_texts = [f"{refused.describe_subtitle()} {refused.describe_reason()}"
                          for refused in several[:MAX_NAMED_SUBTITLES]]
        more, total = len(several) - len(subtitle_texts), len(self.judged) \
            + len(self.skipped_positions)
        last = f"{more:,} more" if more else subtitle_texts.pop()
        return f"{len(several):,} of {total:,} subtitles have faults: " \
            f"{'; '.join(subtitle_texts)}; and {last}"

    def describe_errors(self, is_undecided_error: bool) -> str:
        """Describe the subtitles without which the pair would not be refused. If the faults of all
        refused subtitles are waived, this is at most the unknown page next to them."""
        if not all(item.is_waived for item in self.refused):
            return self.describe()
        return f"the expected page is unknown next to {counted(len(self.refused), 'subtitle')} " \
            f"with waived faults (fault {UNDECIDED})" if is_undecided_error else ""


def has_valid_subtitles(numbers: set[int]) -> bool:
    """Return whether `check` judges some subtitles although others are refused. `numbers` contains
    the fault numbers for the subtitle file alone. If subtitles were judged, these numbers include
    `EMPTY`, the fault for missing PES packets."""
    return EMPTY in numbers and bool(numbers & STL_FAULTS)


def find_valid_subtitles(file: SubtitleFile, faults: Iterable[FaultLine], option: str,
                         is_error: Callable[[FaultLine], bool] = lambda fault: True) \
        -> ValidSubtitles:
    """Return the subtitles that can be judged, and those that can't because of the faults.
    `is_error` says whether a fault is an error."""
    faults_by_position: dict[int, list[FaultLine]] = {}
    for fault in faults:
        subtitle = file.find_by_block(fault.block) if fault.block is not None else None
        if subtitle and fault.number in STL_FAULTS:
            faults_by_position.setdefault(subtitle.position, []).append(fault)
    requested_positions = [*list_positions(file)]
    records = [place for place in requested_positions
               if not {item.number for item in faults_by_position.get(place, ())} & NOT_COMPARED]
    judged_places = {place for place, after in zip(records, [*records[1:], None])
                     if place not in faults_by_position and not (after is not None and {
                  item.number for item in faults_by_position.get(after, ())} & ORDER_FAULTS)}
    advice, known = OptionAdvice(file, option), read_meanings()
    refused = []
    for _, several in sorted(faults_by_position.items()):
        errors = [fault for fault in several if is_error(fault)]
        refused.append(make_refused_subtitle(file, (errors or several)[0], advice,
                                             known)._replace(is_waived=not errors))
    return ValidSubtitles([item for item in decode_subtitles(file.data)
                           if item.index in judged_places],
                          refused, frozenset(requested_positions) - judged_places)


def list_positions(file: SubtitleFile, part: int = 1) -> Iterator[int]:
    """Yield the positions of the subtitles that begin in the range of a file, which is that of
    `part`. A subtitle whose TCI is not valid belongs to the first part."""
    for place, block in enumerate(file.start_blocks, 1):
        begin = decode_frame(file.block(block)[5:9])
        if part == 1 if begin is None else file.between.includes(begin):
            yield place


def make_refused_subtitle(file: SubtitleFile, fault: FaultLine, advice: OptionAdvice,
                          known: dict[int, Meaning]) -> RefusedSubtitle:
    """Return a refused subtitle. `fault` is its first fault."""
    assert fault.block is not None
    subtitle = file.find_by_block(fault.block)
    assert subtitle
    byte, character = file.describe_byte(fault.block, fault.at) \
        if fault.number in TEXT_FAULTS and fault.at is not None else (None, None)
    advice_text = advice.advise(fault.block, fault.at) \
        if fault.number == CHARACTER and fault.at is not None else ""
    manual_text = remove_markup(known[fault.number].remedy) if fault.number in known else ""
    do = advice_text or manual_text
    return RefusedSubtitle(subtitle, fault, character or (f"byte {byte}" if byte else ""), do)


def draw_valid_pages(subtitles: Sequence[Subtitle], page: Page, option: str,
                     layout: Layout = PLAIN) \
        -> ExpectedPages:
    """Return the expected pages of the judged subtitles. They are drawn in Python, because `subttx
    schedule` refuses a file with refused subtitles."""
    pages = [draw_page(item, option, layout) for item in subtitles]
    packets = Packets(PES)
    for place, (subtitle, rows) in enumerate(zip(subtitles, pages)):
        add_transmission(packets, subtitle.begin, rows, page, option)
        following = subtitles[place + 1:place + 2]
        if not following or following[0].begin > subtitle.end:
            add_transmission(packets, subtitle.end, BLANK_PAGE, page, option)
    return ExpectedPages([*subtitles], pages, Timeline(packets, page, 0))


def draw_page(subtitle: Subtitle, option: str, layout: Layout) -> Rows:
    """Return the page with a subtitle, whose text must have no fault."""
    lines = draw_text(subtitle.text, subtitle.row, subtitle.justify, layout, OPTION_BY_WORD[option])
    assert not isinstance(lines, TextFault)
    return make_page_rows(lines)


def add_transmission(packets: Packets, frame: int, rows: Rows, page: Page, option: str) -> None:
    """Add a PES packet that sends a page in a frame."""
    number = packets.count
    header = (page[1] & 15, page[1] >> 4, 0, 8, 0, 8, 1, OPTION_BY_WORD[option].bits << 1)
    packets.runs.append(PacketRun(number, 1, TICKS * frame, 0,
                                  ERASE_FLAGS if rows == BLANK_PAGE else PAGE_FLAGS,
                                  "".join(f"{item:X}" for item in header)))
    packets.decoded_rows.append((number, tuple((row, cells) for row, cells in enumerate(rows, 1)
                                               if cells != BLANK_PAGE[0])))
