"""The report: a page with the verdict, the cue list, the faults and the files."""
from __future__ import annotations

import os
import re
from typing import Any, Iterable, Iterator, Sequence

from ..clock.start import Clock, START, TCP
from ..common.command_line import counted
from ..common.files import SummedFile
from ..common.markup import BREAK, HEAD, Markup, NO_MARKUP, Value, join_markup, markup, read_style
from ..common.program import describe_program
from ..common.times import Span, format_frame, format_origin, format_seconds, subtract_pts
from ..formats.listing import (
    CHANGED, CONTENT, FAULTS_WITH_CAUSE, FaultLine, PARITY, STL_FAULTS, make_cell_markup,
    make_number_link, read_meanings)
from ..formats.stl import Subtitle, read_titles
from ..formats.teletext import OPTION_BY_WORD, page_name
from ..judging.causes import list_cause_counts
from ..judging.coverage import describe_unchecked
from ..judging.faults import describe_hint
from ..judging.part import Part, belongs_to_part, find_lost_spans
from ..judging.sentence import FAULT_CLAUSES, rank_number
from ..judging.status import (
    ACCEPTED, AS_SHOWN, LOST, NOT_JUDGED, NOT_READ, REFUSED, RELATIVE, SAME, VALID, WAIVED, WARNED)
from ..judging.verdict import SCOPE_READING, Verdict, count_fault_numbers, summarize_delays
from ..request.commands import CommandPaths
from ..recording.recording import Recording
from ..stream.gaps import limit_lines
from ..stream.receiver import BLANK_PAGE
from ..stream.survey import describe_pid
from .blocks import make_fault_lines
from .cue_list import CueList, WrongRow, make_filter_style, find_places
from .pictures import draw_picture_pair
from .timeline import Lanes


# The verdict box. Each verdict has its own colour and shape.

SHAPES = {
    ACCEPTED: ("accepted", markup('<circle cx="31" cy="31" r="27"/><path d="M17 32L28 43L46 '
                                  '20"/>')),
    VALID: ("valid", markup('<path d="M12 4H38L52 18V58H12z"/><path d="M38 4V18H52M20 30H44M20 '
                            '42H44"/>')),
    WAIVED: ("waived", markup('<circle cx="31" cy="31" r="27"/><path d="M18 31H44"/>')),
    REFUSED: ("refused", markup('<path d="M20 4H42L58 20V42L42 58H20L4 42V20z"/><path d="M21 21L41 '
                                '41M41 21L21 41"/>')),
    LOST: ("lost", markup('<path d="M24 6H5V56H22M38 6H57V56H36"/><path d="M32 5L25 24L36 34L28 '
                          '57"/>')),
    WARNED: ("warned", markup('<path d="M31 6L58 55H4z"/><path d="M31 23V40M31 44V50"/>')),
    RELATIVE: ("relative", markup('<circle cx="31" cy="31" r="27"/><path d="M16 34Q24 22 31 31Q38 '
                                  '40 46 28"/>')),
    NOT_JUDGED: ("unjudged", markup('<path d="M31 4L58 31L31 58L4 31z"/><path d="M23 25Q23 17 31 '
                                    '17Q39 17 39 24Q39 29 31 32V37M31 41V46"/>'))}
SHAPES |= {AS_SHOWN: SHAPES[ACCEPTED], SAME: SHAPES[ACCEPTED], NOT_READ: SHAPES[NOT_JUDGED]}
MAX_LINES = 5  # number of places to show; a longer list is folded
LOST_TITLE = "TS packets are missing from the recording, which could not be checked there"
NAMED_FAULTS_TITLE = "Faults without a number"
# An option, with its value if this is a number or a time
OPTION = re.compile(r"(--[a-z]+(?:-[a-z]+)*(?: \d[\d:]*)?)")
PROOF_NOTE = markup("The verdict and the faults are the lines that <code>subttx check --all</code> "
              "printed. The times, texts and pictures are computed by Python that is not proved; "
              "they show one receiver, tuned in before the first packet.")
FILE_NOTE = markup("With an empty recording, <code>subttx check --all</code> printed fault 60 "
                   "(Empty) alone: the file keeps the rules of faults 10 to 25 and 50 to 57. The "
                   "texts are computed by Python that is not proved.")


def draw_verdict(word: str) -> tuple[str, Markup]:
    """Return the CSS class and the SVG picture of a verdict."""
    kind, shape_markup = SHAPES.get(word, SHAPES[REFUSED])
    return kind, markup('<svg aria-hidden="true" viewBox="0 0 62 62">{}</svg>', shape_markup)


def make_verdict_box(verdict: Verdict) -> Markup:
    """Return the box with the verdict: sentence, clock, advice and notes."""
    kind, shape_markup = draw_verdict(verdict.word)
    not_judged = not verdict.is_judged
    # The sentences about relative verdicts and readings already describe the clock.
    parts = [describe_clock(verdict)] if verdict.is_judged and verdict.word != RELATIVE and \
        verdict.scope != SCOPE_READING else []
    parts += [make_folded_list(LOST_TITLE, [gap.format_line() for gap in verdict.gaps
                                            if gap.is_judged]),
              make_folded_list(NAMED_FAULTS_TITLE,
                               [f"{item.line}: {item.text}" for item in verdict.named_faults])]
    if not_judged:
        parts += [markup("<p>{}</p>", item)
                  for item in (verdict.unjudged_reason or "").splitlines()[1:]]
        parts += [markup('<p>Type <code class="long">{}</code></p>', item)
                  for item in verdict.suggestions]
    elif verdict.word not in (ACCEPTED, VALID, AS_SHOWN, SAME):
        parts.append(make_advice(verdict))
    notes = [*verdict.notes, *(item.format_warning() for item in verdict.warnings), *dict.fromkeys(
        part.drawing_differences for part in verdict.parts if part.drawing_differences)]
    parts += [markup('<p class="note">{}</p>', keep_options_together(item)) for item in notes]
    return markup('<div class="verdict {}">{}<div><p class="sentence">{}</p>{}</div></div>', kind,
                  shape_markup, keep_options_together(verdict.sentence), join_markup(parts))


def keep_options_together(text: str) -> Markup:
    """Mark up the options in a text, so that no line breaks within an option."""
    return join_markup(markup("<b>{}</b>", item) if at % 2 else item
                       for at, item in enumerate(OPTION.split(text)))


def describe_clock(verdict: Verdict) -> Markup:
    """Return the paragraph about the source of the clock."""
    clocks = [part.clock for part in verdict.parts if part.clock]
    if not clocks:
        return NO_MARKUP
    if verdict.estimated_clock_note:
        words = verdict.estimated_clock_note[0].upper() + verdict.estimated_clock_note[1:]
        return markup('<p class="clock estimated">{}.</p>', keep_options_together(words))
    return markup('<p class="clock">{}</p>', describe_given_clock(clocks[0]))


def describe_given_clock(clock: Clock) -> str:
    """Return the sentence about a clock that the operator gave with --start or --origin."""
    source = "from the first picture (--start), 00:00:00:00 at PTS" \
        if clock.source in (START, TCP) else "given: --origin"
    return f"Clock {source} {clock.midnight}."


def make_folded_list(title: str, lines: Sequence[str]) -> Markup:
    """Return a titled list of places, folded if long, or empty markup if there are none."""
    if not lines:
        return NO_MARKUP
    list_markup = markup("<ul>{}</ul>", join_markup(markup("<li>{}</li>", item)
                                                    for item in limit_lines(lines)))
    if len(lines) > MAX_LINES:
        list_markup = markup("<details><summary>{}</summary>{}</details>",
                             counted(len(lines), "place"), list_markup)
    return markup('<p class="count">{}</p>{}', title, list_markup)


def make_advice(verdict: Verdict) -> Markup:
    """Return the manual's advice on the worst fault."""
    worst_line = verdict.worst_part.worst_fault_line if verdict.worst_part and \
        not verdict.worst_named_fault else None
    advice = find_advice(worst_line) if worst_line else None
    return markup('<details><summary>What {} {} means, and what to do</summary><dl><dt>Meaning</dt>'
                  "<dd>{}</dd><dt>Remedy</dt><dd>{}</dd></dl></details>", worst_line.number,
                  worst_line.name, *advice) if worst_line and advice else NO_MARKUP


def find_advice(fault: FaultLine) -> tuple[Markup, Markup] | None:
    """Return the manual's meaning and remedy for a fault, or `None` if the manual has none."""
    meaning = read_meanings().get(fault.number)
    if meaning is None:
        return None
    return make_cell_markup(meaning.meaning), make_cell_markup(meaning.remedy)


class PartView:
    """The sections of the report about one part of the recording."""

    def __init__(self, verdict: Verdict, part: Part) -> None:
        self.verdict, self.part = verdict, part
        self.cue_list = CueList(part, verdict.valid_subtitles)
        self.gaps = [gap for gap in verdict.gaps if gap.is_judged
                     and belongs_to_part(gap.place, part)]
        self.decoded = part.causes.timeline if part.causes else part.decoded_pages

    def make_sections(self) -> Iterator[Markup]:
        """Yield all sections that are not empty."""
        groups = self.cue_list.make_cause_table(self.list_fault_rows()) + \
            self.cue_list.make_histogram()
        if groups:
            yield markup('<section><h2 id="causes">What is wrong</h2><div class="beside">{}</div>'
                         "</section>", groups)
        if self.cue_list.cues and self.part.recording:
            yield markup('<section><h2 id="timeline">Timeline</h2>{}</section>',
                         self.draw_timeline())
        if pictures := join_markup(self.pictures()):
            yield markup('<section><h2 id="pictures">First fault of each kind, as a picture</h2>{}'
                         "</section>", pictures)
        if self.cue_list.rows:
            yield self.cue_list.make_list()
        if self.part.check_output.fault_count:
            yield self.make_fault_table()

    def list_fault_rows(self) -> Iterator[WrongRow]:
        """Yield a row for each number of transmission faults that no cause explains, with the
        reason of the first fault."""
        answer = self.part.check_output
        for number, fault in answer.first_faults.items():
            if number in STL_FAULTS or number in FAULTS_WITH_CAUSE and self.part.causes:
                continue
            reason = describe_hint(fault, self.part, self.verdict) or FAULT_CLAUSES.get(number, "")
            waived = "" if number in self.part.error_numbers else " (waived)"
            yield WrongRow(rank_number(number), f"{number} {fault.name}{waived}: {reason}",
                           counted(answer.counts_by_number[number], "fault"), f"n{number}",
                           self.find_fault_frame(fault))

    def find_fault_frame(self, fault: FaultLine) -> int | None:
        """Return the frame of a fault, or of the PES packet before it."""
        return fault.frame if fault.pes is None or self.decoded is None else \
            self.decoded.find_frame_before(fault.pes)

    def draw_timeline(self) -> Markup:
        """Draw the timeline of the part, with the frames that were lost or skipped."""
        lost_spans = [span
                for span in find_lost_spans([gap.place for gap in self.gaps], self.part.origin or 0,
                                            self.part.request.within)
                if span.first <= span.last]
        decoded = self.decoded
        for first, last in self.part.check_output.skipped_packets:
            before = decoded.find_frame_before(first) if decoded else None
            if decoded and before is not None:
                lost_spans.append(Span(before, decoded.find_frame_after(last) or before))
        return Lanes(self.cue_list, decoded, lost_spans).draw()

    def pictures(self) -> Iterator[Markup]:
        """Yield pictures of the expected and the decoded page at the first fault of each kind."""
        due, decoded, request = self.part.expected_pages(), self.decoded, self.part.request
        if decoded is None:
            return
        first_fault_rows: list[tuple[str, Subtitle | None,
                                     int]] = [*self.cue_list.find_first_faults()]
        first_fault_rows += [(f"{fault.number} {fault.name}", due.subtitle(fault.frame),
                              fault.frame)
                             for number, fault in sorted(self.
                             part.check_output.first_faults.items()) if fault.frame is not None
                             and (number in (PARITY, CHANGED) or
                                  number == CONTENT
                                                             and not first_fault_rows)]
        option = OPTION_BY_WORD[request.option]
        # C4, C6, C7 set
        blank = bytes([0, 0, 0, 8, 0, 8, 1, option.bits << 1])
        for name, subtitle, frame in first_fault_rows:
            expected_state = due.timeline.get_state_at(frame) if due.timeline else None
            rows, header = BLANK_PAGE, blank
            if expected_state and expected_state.header:
                rows, header = expected_state.rows, expected_state.header
            state = decoded.get_state_at(frame) if frame <= decoded.last else None
            words: Value = "no subtitle is expected" if subtitle is None else \
                markup('<a href="#s{}">{}</a>', subtitle.index, subtitle.name)
            offset = self.cue_list.format_offset(frame)
            yield markup('<div class="kind"><h3>{}: {}{}</h3>{}</div>',
                         name[0].upper() + name[1:], words,
                         offset and f", {offset} into the recording",
                         draw_picture_pair(format_frame(frame), rows, header, state,
                                           option.region))

    def make_fault_table(self) -> Markup:
        """Return a table with a row for each fault number."""
        answer, places = self.part.check_output, find_places(self.part)
        rows = []
        for number, count in sorted(answer.counts_by_number.items()):
            first = answer.first_faults[number]
            frame = self.find_fault_frame(first)
            advice = find_advice(first)
            more = NO_MARKUP if advice is None else markup(
                "<dl><dt>Meaning</dt><dd>{}</dd><dt>Remedy</dt><dd>{}</dd></dl>", *advice)
            fault_items = join_markup((markup("<li>{}{}</li>", make_number_link(fault.line),
                                              end_text)
                                       for fault, end_text in places.get(number, ())))
            omitted_count = count - len(places.get(number, ()))
            fault_items += markup("<li>and {:,} more: <code>check --all</code> lists them</li>",
                                  omitted_count) \
                if omitted_count else NO_MARKUP
            waived_count = self.part.waived_counts[number]
            waived = " (waived)" if waived_count == count else \
                f" ({waived_count:,} waived)" if waived_count else ""
            rows.append(markup(
                '<tr id="n{}"><th scope="row">{} {}{}</th><td data-name="Faults">{:,}</td><td '
                'data-name="First">{}</td><td data-name="Into recording">{}</td><td><details>'
                "<summary>Meaning, remedy, places</summary>{}<ol>{}</ol></details></td></tr>",
                number, number, first.name, waived, count, format_fault_place(self.part, first),
                "" if frame is None else self.cue_list.format_offset(frame), more, fault_items))
        return markup(
            '<section><h2 id="faults">{}</h2><table class="faults"><caption>Faults by number, as '
            "check reports them</caption><thead><tr>{}</tr></thead><tbody>{}</tbody></table>"
            "</section>", counted(answer.fault_count, "fault"), join_markup(
                markup('<th scope="col">{}</th>', name) for name in (
                    "Number", "Faults", "First", "Into recording", "More")), join_markup(rows))


def format_fault_place(part: Part, fault: FaultLine) -> Value:
    """Return the place of a fault. For a fault in the GSI block, return the lines of `check` with
    the faulty field marked."""
    if fault.block == 0:
        return make_fault_lines(part.open_subtitle_file(), [fault])
    return fault.time or " ".join(fault.line.split(" ")[3:]) or fault.name


def make_definition_list(rows: Iterable[tuple[str, Value]]) -> Markup:
    """Return an HTML definition list of the names whose values are not empty."""
    return markup('<dl class="made">{}</dl>', join_markup(
        markup("<dt>{}</dt><dd>{}</dd>", name, value) for name, value in rows if value))


def make_scope_section(verdict: Verdict) -> Markup:
    """Return the section about the judged range."""
    path = verdict.request.stl_path
    titles = read_titles(path) if os.path.isfile(path) else []
    times = [part.format_time_codes() for part in verdict.parts if part.alignment]
    count = counted(verdict.subtitle_count, "subtitle")
    recording = verdict.parts[0].recording if verdict.parts else None
    range_text = f"{times[0][0]} to {times[-1][1]}, {count}" if times else ""
    delays = summarize_delays(frames for part in verdict.parts for frames in part.delays) \
        if verdict.request.within else None
    return make_definition_list([
        ("Programme", " / ".join(titles)), ("Subtitle file", verdict.request.stl),
        ("Recording", describe_recording(verdict, recording)), ("Judged", range_text),
        ("Page", page_name(*verdict.request.page)),
        ("Teletext", describe_pid(recording.packets, recording.survey.programmes)
         if recording and recording.is_stream else ""),
        ("Delays", delays.describe() if delays else "")])


def describe_recording(verdict: Verdict, recording: Recording | None) -> str:
    """Return the name of the recording, its length by the PCR, and the time of its last change."""
    words = [verdict.request.recording or ""]
    pcr_range = recording.survey.get_pcr_range(recording.packets.pid) \
        if recording and recording.is_stream else None
    if pcr_range and subtract_pts(*pcr_range) > 0:
        words.append(f"{format_seconds(subtract_pts(*pcr_range) // 90_000)} long")
    file: Any = verdict.files_at_start.get("recording")
    if file:
        words.append(f"last changed {file['modified'][:19].replace('T', ' ')} UTC")
    return ", ".join(words)


def list_waived(verdict: Verdict) -> Iterator[str]:
    """Yield descriptions of the faults that the severity file turns into warnings."""
    counts = count_fault_numbers(verdict.parts, lambda part: part.waived_counts)
    for number, name, count in sorted(counts):
        yield f"{number} {name} ({count:,})"
    for waiver, fault_count, _, _ in verdict.list_waivers():
        if fault_count:
            yield f"{waiver.number} in the subtitle at {waiver.time} ({fault_count:,}), until " \
                f"{waiver.until}, by {waiver.author}: {waiver.reason}"
    yield from (f"{named_fault.name}: {named_fault.text}" for named_fault in verdict.named_faults
                if not verdict.severity.is_error(named_fault.name))


def format_judging_options(verdict: Verdict, part: Part) -> str:
    """Return the options with which a part of the recording was judged."""
    request = verdict.request
    words = [f"--page {page_name(*request.page)}", f"--every {request.every}",
             format_origin(part.origin or 0), f"--option {request.option}"]
    words += ["--complete"] * request.is_complete
    words += [f"--within {request.within}"] * (request.within > 0)
    words += [f"--pes {part.pes_argument}"] if part.pes else []
    return " ".join([*words, *part.request.between.words()])


def make_footer(verdict: Verdict, command_paths: CommandPaths) -> Markup:
    """Return a report's last sections: unchecked properties, waived faults, files and commands."""
    program = describe_program(command_paths.program_path)
    size = os.path.getsize(command_paths.program_path)
    files = [("STL", verdict.stl), *(("PES", part.judged_file) for part in verdict.parts),
             ("Recording", verdict.recording),
             ("Program", SummedFile(command_paths.program_command, size, program.sha256))]
    rows = join_markup(markup('<tr><th scope="row">{}</th><td class="long">{}</td>'
                              '<td>{:,} bytes</td><td class="long"><code>{}</code></td></tr>',
                              kind, item.name, item.size, item.sha256)
                       for kind, item in files if item)
    commands = join_markup((markup('<code class="long">{}</code>', item)
                            for item in verdict.commands), BREAK)
    proved: Value = markup('<code class="long">{}</code>', program.proved) if program.proved else \
        "there is no file PROVED with the prover's result for this program"
    return join_markup([
        markup('<section><h2 id="unchecked">Not checked, waived</h2>{}</section>',
               make_definition_list([
            ("Not checked", "; ".join(describe_unchecked(verdict))),
            ("Waived", "; ".join(list_waived(verdict)) or "nothing")])),
        markup('<section><h2 id="files">Made from</h2><table class="files"><caption>Files and '
               'their checksums</caption><thead><tr><td></td><th scope="col">Name</th><th '
               'scope="col">Size</th><th scope="col">SHA-256</th></tr></thead><tbody>{}</tbody>'
               "</table>{}<p class=\"says\">{}</p></section>", rows, make_definition_list([
                   ("Last line", verdict.line or NOT_JUDGED), ("Commands", commands),
                   *(("Options", format_judging_options(verdict, part))
                                             for part in verdict.parts),
                   ("Date", verdict.date.replace("T", " ").replace("Z", " UTC")),
                   ("Version", program.version), ("PROVED", proved)]),
               FILE_NOTE if verdict.word == VALID else PROOF_NOTE)])


PART_COLUMNS = ("From", "To", "Verdict", "Faults", "Causes", "Clock")


def make_parts_table(parts: Sequence[Part]) -> Markup:
    """Return a table with a row and a link for each part of the recording."""
    rows = []
    for part in parts:
        assert part.clock
        name, delay = f"#part{part.number}", part.clock.delay_frames
        clock = "estimated" if part.clock.is_estimated else describe_given_clock(part.clock)
        clock += f" All {counted(abs(delay), 'frame')} {'late' if delay > 0 else 'early'}." \
            if delay else ""
        cells: list[Value] = [*(time or "" for time in part.format_time_codes()), part.first_text,
                              f"{part.check_output.fault_count:,}",
                              list_cause_counts([part.causes]) if part.causes else "none", clock]
        rows.append(markup('<tr><th scope="row"><a href="{}">part {}</a></th>{}</tr>', name,
                           part.number, join_markup(markup('<td data-name="{}">{}</td>', *pair)
                                                    for pair in zip(PART_COLUMNS, cells))))
    return markup('<table class="parts"><caption>{} parts</caption><thead><tr><td></td>{}</tr>'
                  "</thead><tbody>{}</tbody></table>", len(parts), join_markup(
                      markup('<th scope="col">{}</th>', name) for name in PART_COLUMNS),
                  join_markup(rows))


LINKS = (("causes", "What is wrong"), ("timeline", "Timeline"), ("pictures", "Pictures"),
         ("cues", "Cue list"), ("faults", "Faults"), ("unchecked", "Not checked"),
         ("files", "Made from"))


def make_report_page(verdict: Verdict, command_paths: CommandPaths) -> Markup:
    """Return the HTML report on a verdict."""
    title = " and ".join(os.path.basename(name) for name in
                         (verdict.request.stl, verdict.request.recording) if name)
    views = [] if not verdict.is_judged else [
        PartView(verdict, part) for part in verdict.parts]
    body = [make_verdict_box(verdict), make_scope_section(verdict)]
    if len(views) == 1:
        body += views[0].make_sections()
    elif views:
        body.append(make_parts_table(verdict.parts))
    for view in views if len(views) > 1 else ():
        name = f"part{view.part.number}"
        begin, end = view.part.format_time_codes()
        body.append(markup('<section class="part" id="{}"><h2>Part {}, from {} to {}: {}</h2>{}'
                           "</section>", name, view.part.number, begin or "", end or "",
                           view.part.first_text,
                           join_markup(view.make_sections(), "\n").prefix_anchors(f"{name}-")))
    body.append(make_footer(verdict, command_paths))
    filter_style = make_filter_style(view.cue_list for view in views)
    views.clear()  # a cue list needs much memory
    content = join_markup(body, "\n")
    body.clear()
    links = join_markup((markup('<a href="#{}">{}</a>', anchor, words) for anchor, words in LINKS
                         if f' id="{anchor}"' in content.source), " ")
    style = read_style(os.path.join(os.path.dirname(__file__), "style.css"))
    return markup(
        "{}<title>{} &#8211; {}</title><style>\n{}{}</style></head><body><main><h1>Report on {}"
        '</h1>\n<nav aria-label="Sections">{}</nav>\n{}\n</main></body></html>\n', HEAD,
        verdict.word, title, style, filter_style, title, links, content)
