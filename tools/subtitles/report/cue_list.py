"""The cue list: a row for each subtitle, with expected and actual cues, text and verdict."""
from __future__ import annotations

import collections
import functools
import itertools
from typing import Collection, Iterable, Iterator, NamedTuple, Sequence

from ..common.command_line import counted
from ..common.markup import BREAK, Markup, NO_MARKUP, Value, join_markup, markup
from ..common.times import format_frame, parse_frame
from ..formats.listing import FAULTS_WITH_CAUSE, FaultLine
from ..formats.stl import NamedSubtitle, Subtitle, SubtitleFile
from ..formats.teletext import OPTION_BY_WORD
from ..judging.causes import Cause, CAUSE_NAMES, LATE, find_first_frame
from ..judging.cues import (
    CERTAIN, Cue, CueJudge, CueVerdict, NEXT_REFUSED, NOT_CERTAIN, NOT_KNOWN, RIGHT, WAIVED, WRONG,
    find_cues, find_recording_start, find_refused_subtitles, format_recording_offset,
    read_block_text)
from ..judging.pages import format_page_text
from ..judging.part import Part
from ..judging.sentence import (
    CAUSE_RANKS, Rank, describe_shared_cause, describe_single_cause, rank_number)
from ..judging.status import VALID
from ..judging.subtitles import ValidSubtitles, join_words
from ..stream.receiver import BLANK_PAGE
from .blocks import make_fault_lines, mark_text, mark_times

COLUMNS = ("No.", "Into recording", "Expected in", "Expected out", "Received in", "Received out",
           "Frames late (in / out)", "Text", "Verdict")
MAX_PRINTED_ROWS = 200  # maximum number of rows to print on paper
MAX_BARS = 12  # maximum number of delays in the histogram
# CSS classes
ROW_CLASSES = {RIGHT: "ok", VALID: "valid", WAIVED: "waived", WRONG: "bad", NOT_KNOWN: "unseen",
               CERTAIN: "ok", NOT_CERTAIN: "unseen"}
GOOD_CLASSES = {ROW_CLASSES[RIGHT], ROW_CLASSES[VALID]}


class Kind(NamedTuple):
    """A kind of fault: its CSS class, its name, and whether faults of this kind are waived."""

    key: str
    name: str
    is_waived: bool


class CueRow(NamedTuple):
    """A row of the cue list: position of the subtitle, CSS class, kinds of fault, and cells."""

    position: int
    row_class: str
    kinds: Sequence[str]
    cells: Sequence[Value]
    is_repeated: bool = False  # whether the previous row has the same fault; if so, not printed
    is_pause: bool = False  # whether the row is about the pause after the subtitle

    @property
    def anchor(self) -> str:
        return f"{self.position}-pause" if self.is_pause else f"{self.position}"


class WrongRow(NamedTuple):
    """A row of the table "What is wrong": its rank, its text, how much is wrong, and the anchor and
    the frame of the first place."""

    rank: Rank
    text: str
    amount: Value
    anchor: str
    frame: int | None


class CueList:
    """The cue list of a part of a recording."""

    def __init__(self, part: Part, valid_subtitles: ValidSubtitles | None) -> None:
        self.part, self.valid_subtitles = part, valid_subtitles
        self.option = OPTION_BY_WORD[part.request.option].number
        self.start, self.causes = find_recording_start(part), part.causes
        self.judge, self.cues = CueJudge(part), [*find_cues(part)]
        self.rows = sorted([*self.make_judged_rows(), *self.make_refused_rows()],
                           key=lambda row: row.position)
        self.counts = collections.Counter(key for row in self.rows for key in row.kinds)
        self.first_rows: dict[str, str] = {}  # anchor of the first row of each kind
        for row in self.rows:
            for key in row.kinds:
                self.first_rows.setdefault(key, row.anchor)

    @functools.cached_property
    def file(self) -> SubtitleFile:
        return SubtitleFile(self.part.names.program_stl, self.part.request.between)

    def make_judged_rows(self) -> Iterator[CueRow]:
        last: object = None
        for place, cue in enumerate(self.cues):
            verdict = self.judge.judge(cue)
            kinds = [*([make_cause_key(cue.cause)] if cue.cause else []),
                     *(f"n{number}" for number in verdict.fault_numbers)]
            repeat_key = cue.cause and (cue.cause.name, cue.cause.frames, tuple(kinds))
            yield CueRow(cue.subtitle.index, ROW_CLASSES[verdict.word], kinds,
                         self.cells(cue, verdict), bool(repeat_key) and repeat_key == last)
            last = repeat_key
            if self.causes and (text := self.causes.pause_texts.get(place)):
                yield self.make_pause_row(cue.subtitle.index, text)

    def cells(self, cue: Cue, verdict: CueVerdict) -> list[Value]:
        subtitle, late = cue.subtitle, [format_signed(cue.delay_in), format_signed(cue.delay_out)]
        actual_times: tuple[Value, Value] = ("", "") if self.part.recording is None else (
            mark_late_time(cue.begin, cue.delay_in), mark_late_time(cue.end, cue.delay_out))
        return [make_number_cell(subtitle.index, subtitle.number),
                self.format_offset(subtitle.begin), format_frame(subtitle.begin),
                format_frame(subtitle.end), *actual_times, late[0] if late[0] == late[1]
                else " / ".join(frames or "-" for frames in late), self.make_text_cell(cue),
                self.make_verdict_cell(verdict)]

    def make_pause_row(self, position: int, cause: Cause) -> CueRow:
        """Return the row about a text that was sent in the pause after a subtitle."""
        assert self.causes and cause.frame is not None
        text = format_page_text(cause.sent_page or BLANK_PAGE, self.option)
        is_waived = self.part.is_cause_waived(cause)
        return CueRow(position, ROW_CLASSES[WAIVED if is_waived else WRONG], [
            make_cause_key(cause)], [
                "", self.format_offset(cause.frame), "", "", format_frame(cause.frame),
                format_frame(self.causes.find_pause_text_span(cause).last + 1), "", text,
                cause.name], is_pause=True)

    def make_verdict_cell(self, verdict: CueVerdict) -> Value:
        """Return the cell with a verdict and its reason. Fault numbers are links."""
        faults_by_number = self.part.check_output.first_faults
        links = [markup('<a href="#n{}">{} {}</a>', number, number, faults_by_number[number].name)
                 for number in verdict.fault_numbers]
        words = join_markup(filter(None, [verdict.cause, *links, verdict.doubt]), "; ")
        return verdict.word if verdict.word in (RIGHT, VALID, CERTAIN) else \
            markup("{}: {}", verdict.word, words) if verdict.word in (WAIVED, NOT_CERTAIN) else \
            words

    def make_text_cell(self, cue: Cue) -> Value:
        """Return the expected text and a different decoded text, with the differences marked."""
        expected = format_page_text(cue.expected, self.option)
        sent = cue.decoded or (cue.cause.sent_page if cue.cause else None)
        decoded = format_page_text(sent, self.option) if sent else expected
        if decoded == expected or cue.cause is None:
            return expected
        return join_markup([*mark_difference(expected, decoded)], BREAK)

    def make_refused_rows(self) -> Iterator[CueRow]:
        """Yield the rows of refused subtitles, and of subtitles that depend on them."""
        for refused in find_refused_subtitles(self.part, self.file, self.valid_subtitles):
            subtitle, faults = refused
            if subtitle and faults and faults[0].block:
                text = mark_text(read_block_text(self.file, faults[0].block), faults)
                row_class = ROW_CLASSES[WAIVED if refused.is_waived(self.part) else WRONG]
                kinds = [*dict.fromkeys(f"n{fault.number}" for fault in faults)]
                yield self.make_file_row(subtitle, mark_times(subtitle, faults), text,
                                         make_fault_lines(self.file, faults), row_class, kinds)
            elif subtitle and not faults:
                yield self.make_file_row(subtitle, (subtitle.begin, subtitle.end), "",
                                         NEXT_REFUSED,
                                         ROW_CLASSES[NOT_KNOWN], [])

    def make_file_row(self, subtitle: NamedSubtitle, times: tuple[Value, Value], text: Value,
                      verdict: Value, row_class: str, kinds: Sequence[str]) -> CueRow:
        """Return the row of a subtitle that has no expected page."""
        begin = parse_frame(subtitle.begin)
        return CueRow(subtitle.position, row_class, kinds, [
            make_number_cell(subtitle.position, subtitle.number),
            "" if begin is None else self.format_offset(begin), *times, "", "", "", text, verdict])

    def format_offset(self, frame: int) -> str:
        """Return the time of a frame from the beginning of the recording."""
        return format_recording_offset(self.part, self.start, frame)

    def get_fault_name(self, number: int) -> str:
        return self.part.check_output.first_faults[number].name

    @functools.cached_property
    def kinds(self) -> list[Kind]:
        """Return the kinds of fault in the part, worst first."""
        causes = self.causes.list_causes() if self.causes else []
        names = {cause.name for cause in causes}
        errors = {cause.name for cause in causes if not self.part.is_cause_waived(cause)}
        ranked = [(CAUSE_RANKS[name], Kind(make_cause_class(name), name, name not in errors))
                  for name in names]
        ranked += [(rank_number(number),
                    Kind(f"n{number}", f"{number} {self.get_fault_name(number)}",
                         number not in self.part.error_numbers))
                   for number in self.part.check_output.counts_by_number
                   if not (names and number in FAULTS_WITH_CAUSE)]
        return [kind for _, kind in sorted(ranked)]

    def make_cause_table(self, fault_rows: Iterable[WrongRow]) -> Markup:
        """Return a table with a row for each cause, and for each number of other faults."""
        rows = sorted([*self.list_cause_rows(), *fault_rows], key=lambda row: row.rank)
        return markup(
            '<table class="groups"><caption>Reasons, worst first</caption><thead><tr><th '
            'scope="col">Reason</th><th scope="col">How much</th><th scope="col">First, into the '
            "recording</th></tr></thead><tbody>{}</tbody></table>", join_markup(
                markup('<tr><td>{}{}</td><td><a href="#{}">{}</a></td><td>{}</td></tr>',
                       row.text[0].upper(), row.text[1:], row.anchor, row.amount,
                       "" if row.frame is None else self.format_offset(row.frame))
                for row in rows)) if rows else NO_MARKUP

    def list_cause_rows(self) -> Iterator[WrongRow]:
        """Yield a row for each cause of wrong subtitles."""
        causes_by_name: dict[str, list[Cause]] = {}
        for cause in self.causes.list_causes() if self.causes else ():
            causes_by_name.setdefault(cause.name, []).append(cause)
        for name in sorted(causes_by_name, key=CAUSE_NAMES.index):
            assert self.causes
            causes, subtitles = causes_by_name[name], self.causes.expected.subtitles
            text = describe_single_cause(causes[0], self.causes, self.part.request.option) \
                if len(causes) == 1 else describe_shared_cause(causes, subtitles)
            first, frame = subtitles[causes[0].subtitle_index], causes[0].frame
            yield WrongRow(CAUSE_RANKS[name], text, counted(
                len(causes), "subtitle" if frame is None else "pause"),
                           f"s{first.index}" + "-pause" * (frame is not None),
                           first.begin if frame is None else frame)

    def make_histogram(self) -> Markup:
        """Return a histogram of the delays, or empty markup if no cue is late or early."""
        in_cue_delays = collections.Counter(cue.delay_in for cue in self.cues
                                            if cue.delay_in is not None)
        out_cue_delays = collections.Counter(cue.delay_out for cue in self.cues
                                             if cue.delay_out is not None)
        all_delays = in_cue_delays + out_cue_delays
        if set(all_delays) <= {0}:
            return NO_MARKUP
        most = max(all_delays.values())
        common = sorted(value for value, _ in all_delays.most_common(MAX_BARS))
        rows = [markup('<tr><th scope="row">{}</th><td>{}</td><td>{}</td><td class="bars"><i '
                       'style="width:{:.1f}%"></i></td></tr>', format_signed(value),
                       in_cue_delays[value],
                       out_cue_delays[value], 100 * all_delays[value] / most) for value in common]
        omitted_count = len(all_delays) - len(common)
        rows += [markup('<tr><th scope="row">{}</th><td>{}</td><td>{}</td><td></td></tr>',
                        counted(omitted_count, "other value"), *(
                            sum(delays.values()) - sum(delays[item] for item in common)
                            for delays in (in_cue_delays,
                                           out_cue_delays)))] if omitted_count else []
        return markup(
            '<table class="spread"><caption>Frames late (negative: early)</caption><thead><tr><th '
            'scope="col">Frames</th><th scope="col">In-cues</th><th scope="col">Out-cues</th>'
            '<td></td></tr></thead><tbody>{}</tbody></table>', join_markup(rows))

    def make_list(self) -> Markup:
        """Return the HTML section with the cue list."""
        number = self.part.number
        heads = join_markup(markup('<th scope="col">{}</th>', name) for name in COLUMNS)
        wrong_count = sum(row.row_class not in GOOD_CLASSES for row in self.rows)
        hidden = [counted(len(self.rows) - wrong_count, "right subtitle"), "repeated faults"]
        hidden += [f"{wrong_count - MAX_PRINTED_ROWS:,} more rows"] * (
            wrong_count > MAX_PRINTED_ROWS)
        printed_count = 0
        rows = []
        for row in self.rows:
            printed_count += row.row_class not in GOOD_CLASSES and not row.is_repeated
            classes = [row.row_class, *row.kinds, *["again"] * row.is_repeated,
                       *["more"] * (printed_count > MAX_PRINTED_ROWS)]
            cells = join_markup(markup("<td>{}</td>", cell) for cell in row.cells[1:])
            rows.append(markup('<tr id="s{}" class="{}"><th scope="row">{}</th>{}</tr>',
                               row.anchor, " ".join(classes), row.cells[0], cells))
        table_rows = join_markup(rows, "\n")
        rows.clear()  # they need much memory
        choices = [("all", "all", len(self.rows)), (ROW_CLASSES[WRONG], "not right", wrong_count)]
        choices += [(kind.key, kind.name, self.counts[kind.key]) for kind in self.kinds
                    if self.counts[kind.key]]
        radios = join_markup(
            markup('<label><input type="radio" name="cues{}" value="{}"{}/> {} ({:,})</label>',
                   number, value, markup(' checked="checked"') * (value == "all"), name, count)
            for value, name, count in choices)
        return markup(
            '<section class="cues"><h2 id="cues">Cue list</h2><fieldset class="filter"><legend>'
            'Show subtitles</legend>{}</fieldset><p class="paper">On paper, {} are omitted.</p>'
            '<table class="list{}"><caption>{}</caption><thead><tr>{}</tr></thead><tbody>{}</tbody>'
            "</table>"
            "</section>",
            radios if wrong_count else NO_MARKUP, join_words(hidden, "and"),
            "" if self.part.recording else " file", self.make_caption(), heads,
            table_rows)

    def make_caption(self) -> str:
        """Return the caption of the cue list, which explains its columns."""
        subtitle_rows = [row for row in self.rows if not row.is_pause]
        row_classes = collections.Counter(row.row_class for row in subtitle_rows)
        is_reading = self.part.doubts is not None
        counts = ", ".join(f"{row_classes[row_class]:,} {word}" for word, row_class in
                           ROW_CLASSES.items() if row_classes[row_class]
                           and (word in (CERTAIN, NOT_CERTAIN)) == is_reading)
        words = f"{counted(len(subtitle_rows), 'subtitle')}: {counts}. Expected: TCI and TCO."
        if self.part.recording:
            words += " Received: the first frame at whose end a receiver has the page, and the " \
                "first without."
        if self.start is not None:
            words += " Into recording: counted from its first " \
                f"{'PCR' if self.part.recording and self.part.recording.is_stream else 'PTS'}."
        if self.part.clock and self.part.clock.is_estimated:
            words += " The clock is estimated: these times do not include a delay of all subtitles."
        return words

    def find_first_faults(self) -> Iterator[tuple[str, Subtitle, int]]:
        """Yield each cause with its first subtitle and the first wrong frame. For a late subtitle,
        this is the frame of the in-cue."""
        if self.causes is None:
            return
        seen: set[str] = set()
        for cause in self.causes.list_causes():
            item = self.causes.expected.subtitles[cause.subtitle_index]
            if cause.name not in seen and item.begin >= self.causes.timeline.first:
                seen.add(cause.name)
                first = find_first_frame(self.causes, cause)
                yield cause.name, item, item.begin if first is None or cause.name == LATE else first


def make_number_cell(position: int, number: int) -> Value:
    """Return the position of a subtitle in the file, followed by its SN if that differs."""
    return position if position == number else markup("{} <small>SN {}</small>", position, number)


def format_signed(frames: int | None) -> str:
    """Format a number of frames with its sign. Return an empty string for `None`."""
    return "" if frames is None else f"{frames:+}" if frames else "0"


def mark_late_time(frame: int | None, late: int | None) -> Value:
    """Return the time of a frame, marked if it is not the expected time."""
    if frame is None:
        return "not seen"
    return markup("<b>{}</b>", format_frame(frame)) if late else format_frame(frame)


def make_cause_key(cause: Cause) -> str:
    return make_cause_class(cause.name)


def make_cause_class(name: str) -> str:
    """Return the CSS class of the rows with the cause `name`."""
    return f"c{CAUSE_NAMES.index(name)}"


def mark_difference(expected: str, decoded: str) -> tuple[Markup, Markup]:
    """Mark the characters that differ between two texts. If the texts differ in length, mark
    everything between their common prefix and their common suffix."""
    length = min(len(expected), len(decoded))
    if len(expected) == len(decoded):
        places = [at for at in range(length) if expected[at] != decoded[at]]
        return mark_characters(expected, places), mark_characters(decoded, places)
    first = next((at for at in range(length) if expected[at] != decoded[at]), length)
    last = next((at for at in range(length - first)
                 if expected[-1 - at] != decoded[-1 - at]), length - first)
    return (mark_characters(expected, range(first, len(expected) - last)),
            mark_characters(decoded, range(first, len(decoded) - last)))


def mark_characters(text: str, places: Collection[int]) -> Markup:
    """Mark the characters of a text at the given positions."""
    runs = itertools.groupby(range(len(text)), set(places).__contains__)
    pieces = ((is_marked, "".join(text[at] for at in run)) for is_marked, run in runs)
    return join_markup(markup("<mark>{}</mark>", piece) if is_marked else piece
                       for is_marked, piece in pieces)


# Maximum number of places listed for each fault number
MAX_PLACES = 20


def find_places(part: Part) -> dict[int, list[tuple[FaultLine, str]]]:
    """For each fault number, return the first faults and a text about the end of each fault."""
    places: dict[int, list[tuple[FaultLine, str]]] = {}
    for fault, end in part.check_output.read_faults():
        fault_places = places.setdefault(fault.number, [])
        if len(fault_places) < MAX_PLACES:
            end_text = f", until {end.time}" if end.time else \
                f", up to PES packet {end.pes}" if end.pes is not None else ""
            fault_places.append((fault, end_text))
    return places


def make_filter_style(lists: Iterable[CueList]) -> Markup:
    """Return the CSS that hides rows without the selected kind of fault."""
    keys = sorted({kind.key for item in lists for kind in item.kinds})
    return join_markup(markup('.cues:has([value="{}"]:checked) tbody tr:not(.{}) '
                              '{{ display: none; }}\n', key, key) for key in keys)
