"""Judge a pair (a subtitle file and its recording) step by step."""
from __future__ import annotations

import contextlib
import dataclasses
import functools
from typing import Iterator, NamedTuple, Sequence

from ..clock.start import TimedPart
from ..common.checks import LOSSES, OUTSIDE, PICTURES
from ..common.command_line import Stop, counted
from ..common.files import sum_file
from ..common.times import (
    ALL_DAY, FRAMES_OF_A_DAY, FrameRange, describe_duration, format_frame, parse_time_code, pts_of)
from ..formats.layout import PLAIN, parse_layout, encode_text_characters
from ..formats.listing import CONTENT, CONTROL, EMPTY, FAULTS_WITH_CAUSE, STL_FAULTS
from ..formats.stl import Subtitle, SubtitleFile, decode_subtitles
from ..formats.teletext import OPTION_BY_WORD
from ..recording import notices
from ..recording.notices import NeverSent, Notice, refuse_dead_source, refuse_other_pid
from ..recording.recording import Recording, refuse_files
from ..request.commands import CommandPaths, Listener, OutputNames, make_command
from ..request.request import (
    OPTION_CHOICE, Request, Selection, Unclear, IncompleteAnswer, WrongInput, describe_option)
from ..stream.packets import HEADER, NO_RANGE, Range
from .causes import Causes
from .check import CheckOutput, check_file_alone, print_file_check_command, run_check
from .desync import find_desync
from .faults import LENGTH_FAULTS, describe_block_subtitle, describe_first_hint, describe_hint
from .pages import describe_drawing_differences, find_hidden_rows, may_hide_rows
from .part import (
    Part, choose_parts, extend_ranges, find_part_causes, refuse_missing_subtitles, report_causes)
from .sentence import WorstFault
from .status import NOT_ANSWERED, REFUSED, VALID
from .subtitles import (
    ValidSubtitles, advise_on_title, draw_valid_pages, find_valid_subtitles, has_valid_subtitles)
from .timing import (
    NO_CLOCK, PartClocks, PartSearch, find_part_packets, find_parts, get_given_clock,
    measure_part_pace)
from .transmissions import ExpectedPages, count_keeping_headers, read_subtitles, schedule_pages
from .unchecked import Unchecked
from .verdict import DELAYING_FAULTS, Verdict, find_gaps, measure_delay


def explain_part(part: Part, verdict: Verdict, listener: Listener, is_result_written: bool) -> Part:
    """Return a copy of a part with the causes of its faults, its hints and its delays. With
    --within 0, compute the delays only if a result is written, since results contain them."""
    request, numbers = verdict.request, part.check_output.fault_numbers
    causes = find_part_causes(part) if numbers & FAULTS_WITH_CAUSE else None
    if causes:
        report_causes(listener, causes, request.option)
    part = dataclasses.replace(
        part, causes=causes,
        drawing_differences=describe_part_drawing(part, causes, request.option) if causes else "",
        delays=measure_delays(part, causes, request, is_result_written),
        is_recording_read=part.is_read(),
        keeping_headers=count_keeping_headers(part.count_headers(), part.request.option)
        if CONTROL in numbers and not part.request.may_keep else None,
        header_problem=part.judged_recording[0].header_problem(part.packets)
        if LENGTH_FAULTS & numbers else "")
    return dataclasses.replace(
        part, hint=find_hint(part.worst_fault, part, verdict),
        transmission_hint=find_hint(part.worst_transmission_fault, part, verdict))


def describe_part_drawing(part: Part, causes: Causes, option: str) -> str:
    """Describe how a refused page with the correct characters differs from the expected page."""
    if CONTENT not in part.check_output.fault_numbers:
        return ""
    due = part.expected_pages()
    return describe_drawing_differences(due.subtitles, due.pages, causes.timeline,
                                        OPTION_BY_WORD[option])


def measure_delays(part: Part, causes: Causes | None, request: Request, is_result_written: bool) \
        -> Sequence[int | None]:
    """Return the delay of each subtitle in frames. Return an empty list if no output needs them."""
    timeline = causes.timeline if causes else part.decoded_pages
    if not (is_result_written or request.within) or not timeline:
        return ()
    if not request.within and not part.check_output.fault_numbers & DELAYING_FAULTS:
        return [0] * len(part.open_subtitle_file().begins)
    due = part.expected_pages()
    return [measure_delay(subtitle, page, timeline, request.is_complete)
            for subtitle, page in zip(due.subtitles, due.pages)]


def find_hint(worst_fault: WorstFault | None, part: Part, verdict: Verdict) -> str:
    """Return the hint on `worst_fault`, the fault to report first, or an empty string."""
    return describe_first_hint(worst_fault.fault, part, verdict) if worst_fault else ""


def list_check_options(part: Part) -> list[str]:
    """Return the options for running `check` on a part."""
    recording, alignment = part.judged_recording
    first, last = part.pes or (0, 0)
    return [*recording.list_program_options(), "--pes", f"{first}-{last}",
            *part.request.list_check_arguments(),
            *(["--origin", str(alignment.origin)] if alignment.origin else [])]


def check_part(part: Part, command_paths: CommandPaths, listener: Listener) -> None:
    """Run `check` on the PES packets of a part, and read its list of faults."""
    recording, words = part.judged_recording[0], [*list_check_options(part), "--all"]
    listener.add_command(command_paths.program_command, "check",
                         part.names.moved_stl or part.request.stl, recording.display_name, *words)
    run_check([command_paths.program_path, "check", *words, "--", part.names.program_stl,
               recording.path],
              part.check_output, listener.printer.print_list_line)
    listener.printer.end_list(part.check_output.last_line)


class LocatedRecording(NamedTuple):
    """A recording, its parts and their clocks, and the subtitles of the file."""

    recording: Recording
    clocks: PartClocks
    subtitles: list[Subtitle]


def find_adjoining_end(part: Part) -> int | None:
    """Return the last TCO of a part if its only fault is in the page decoded at this TCO."""
    fault, (_, alignment) = part.check_output.first_fault, part.judged_recording
    is_only_fault = part.check_output.fault_count == 1 and fault is not None \
        and fault.number == CONTENT
    frame = fault.frame if fault else None
    is_adjoining_frame = frame is not None \
        and alignment.end <= frame <= alignment.end + part.request.within
    return alignment.end if is_only_fault and is_adjoining_frame else None


def find_nearest_pauses(subtitles: Sequence[Subtitle], at: int) -> list[int]:
    """Return the TCOs at which a pause begins: the last before frame `at` and the first after it.
    The end of the file counts as a pause."""
    ends = [subtitle.end for subtitle, other in zip(subtitles, subtitles[1:])
            if subtitle.end < other.begin]
    ends += [subtitles[-1].end] if subtitles else []
    return [*[end for end in ends if end < at][-1:], *[end for end in ends if end > at][:1]]


def describe_moved_times(stl: str, names: OutputNames) -> str:
    """Return the note that the program read a copy of a subtitle file that runs over midnight."""
    return f"{stl} runs over midnight: check read {names.moved_stl}, a copy in which all times " \
        f"are {describe_duration(parse_time_code(format_frame(0)) or 0)} earlier" + \
        ("" if names.out else " (-o DIR keeps it)")


class PairJudge:
    """Judges a pair step by step, and collects the results in `verdict`."""

    may_be_empty = False  # whether a recording may be judged by a file without subtitles

    def __init__(self, verdict: Verdict, command_paths: CommandPaths, names: OutputNames,
                 listener: Listener, is_result_written: bool) -> None:
        self.verdict, self.request = verdict, verdict.request
        self.command_paths, self.names, self.listener = command_paths, names, listener
        self.is_result_written = is_result_written
        self.recording: Recording | None = None
        # Set if some subtitles are refused and others are not
        self.valid_subtitles: ValidSubtitles | None = None
        self.current_part: Part | None = None  # the part that is being judged or was judged last

    def format_call(self, *more: str) -> str:
        """Return the command line of this run, with the additional arguments `more`."""
        return make_command(self.request, self.command_paths, *more)

    def judge(self) -> None:
        """Judge the pair; raise `Unclear` if the operator must decide something first."""
        request, verdict = self.request, self.verdict
        refuse_files(request)
        verdict.severity = verdict.severity.limit_to_file(
            request.stl, lambda: sum_file(request.original_path, request.stl).sha256,
            verdict.date[:10])
        if request.language is not None:
            self.listener.add_selection(Selection(
                OPTION_CHOICE, request.option, describe_option(request)))
        answer = self.judge_file()
        is_refused = answer.fault_numbers != {EMPTY}
        if not is_refused or self.valid_subtitles:
            self.check_hidden_rows()
        if request.recording is None or is_refused and not verdict.valid_subtitles:
            self.judge_file_only(answer, is_refused)
        elif is_refused:
            self.judge_valid_subtitles(answer)
        else:
            with self.catch_missing_page():
                self.judge_transmission()
        verdict.warn(verdict.find_waiver_notices())
        self.listener.add_notes(*verdict.advise_on_waiver())

    @contextlib.contextmanager
    def catch_missing_page(self) -> Iterator[None]:
        """Return a context manager that catches `NeverSent` and adds its fault to the verdict."""
        try:
            yield
        except NeverSent as never:
            assert self.recording
            self.verdict.named_faults.append(never.fault)
            for line in self.recording.survey.lines():
                self.listener.print_line(line)

    def stop(self, now: str) -> str:
        """Keep the faults that were reported before a signal. Return the message `now`, with the
        time up to which the recording was judged."""
        part = self.current_part
        if part is None or any(known.check_output is part.check_output
                               for known in self.verdict.parts):
            return now
        part.check_output.close_file()
        self.verdict.parts.append(part)
        time = part.check_output.find_last_time()
        return f"{now}, when check had reported {f'all up to {time}' if time else 'nothing yet'}"

    def judge_file(self) -> CheckOutput:
        """Return the faults of the subtitle file. If some subtitles are refused, store in the
        verdict which of the others are judged."""
        request, verdict = self.request, self.verdict
        if self.is_result_written:
            verdict.stl = sum_file(request.original_path, request.stl)
        answer = self.check_file_only()
        if has_valid_subtitles(answer.fault_numbers):
            answer = self.find_valid_subtitles(answer)
        file = SubtitleFile(self.names.program_stl)
        verdict.warnings += notices.find_count_notices(file)
        if request.from_time is None and not request.is_reading and \
                (title := advise_on_title(file)):
            self.listener.add_notes(title)
        if request.moved_stl:
            self.listener.add_notes(describe_moved_times(request.stl, self.names))
        return answer

    def check_hidden_rows(self) -> None:
        """Add a fault for each row that no receiver shows, and a warning for each row that some
        receivers hide."""
        request, file = self.request, SubtitleFile(self.names.program_stl)
        if not may_hide_rows(decode_subtitles(file.data), bool(request.layout)):
            return
        valid = self.valid_subtitles
        due = self.make_expected_pages(request, valid.judged if valid else read_subtitles(
            self.command_paths.program_path, self.names.program_stl, request.between,
            request.is_open))
        hidden_rows = find_hidden_rows(due.subtitles, due.pages, file, request.option)
        self.verdict.named_faults += hidden_rows.faults
        self.verdict.warn(hidden_rows.warnings)

    def check_file_only(self) -> CheckOutput:
        """Return the faults of the subtitle file, including the fault for missing PES packets."""
        answer = check_file_alone(self.request, self.command_paths.program_path, self.names)
        if answer.verdict != REFUSED or not answer.fault_numbers <= STL_FAULTS | {EMPTY}:
            raise IncompleteAnswer(
                f"{NOT_ANSWERED}: {answer.last_line}, though there is no PES packet", 1)
        return answer

    def find_valid_subtitles(self, answer: CheckOutput) -> CheckOutput:
        """Find the subtitles that are not refused although others are. Return `answer` without the
        fault for missing PES packets."""
        file = SubtitleFile(self.names.program_stl, self.request.between)
        faults = (fault for fault, _ in answer.read_faults())
        self.valid_subtitles = find_valid_subtitles(
            file, faults, self.request.option, lambda fault:
            self.verdict.severity.is_subtitle_error(
                fault.number, [{file.find_block_begin(fault.block or 0)}]))
        if self.request.recording is not None:
            self.verdict.valid_subtitles = self.valid_subtitles
        return answer.copy_without(EMPTY, self.names.make_temporary_path("refused.txt"))

    @property
    def skipped_positions(self) -> frozenset[int]:
        """Return the positions of subtitles that are not judged."""
        return self.verdict.valid_subtitles.skipped_positions \
            if self.verdict.valid_subtitles else frozenset()

    def judge_file_only(self, answer: CheckOutput, is_refused: bool) -> None:
        """Decide the verdict from the subtitle file only. `answer` has its faults, if `is_refused`
        is true. Otherwise there is no recording to judge."""
        print_file_check_command(self.request, self.command_paths, self.names, self.listener)
        answer.move_file(self.names.list_path)
        if is_refused:
            for line in answer.read_lines():
                self.listener.printer.print_list_line(line)
            self.listener.printer.end_list(answer.last_line)
        part = Part(1, self.request, self.names, answer, severity=self.verdict.severity,
                    is_recording_read=self.request.recording is None)
        if not is_refused:
            subtitles = self.find_subtitles()
            count = self.verdict.subtitle_count = len(subtitles)
            answer.accept_file(f"{VALID}: {counted(count, 'subtitle')}; no recording was judged")
            part = dataclasses.replace(part, expected_pages=functools.lru_cache(maxsize=None)(
                lambda: self.make_expected_pages(self.request, subtitles)))
        self.verdict.parts.append(part)
        if fault := part.worst_fault_line:
            self.verdict.parts[-1] = dataclasses.replace(
                part, hint=describe_hint(fault, part, self.verdict),
                block_subtitle=describe_block_subtitle(fault, part.open_subtitle_file()))

    def find_subtitles(self) -> list[Subtitle]:
        """Return the subtitles to judge. Raise `Unclear` if --from and --to leave none."""
        between = self.request.between
        if self.verdict.valid_subtitles:
            return self.verdict.valid_subtitles.judged
        subtitles = read_subtitles(self.command_paths.program_path, self.names.program_stl, between,
                                   self.request.is_open)
        if not subtitles and not self.may_be_empty:
            period_text = "" if between == ALL_DAY else \
                f" with a TCI at {format_frame(between.begin)} or later and before " \
                f"{format_frame(between.end)}"
            raise WrongInput(f"{self.request.stl} has no subtitle{period_text}")
        return subtitles

    @functools.cached_property
    def located_recording(self) -> LocatedRecording:
        """Read the recording once, and find its parts and their clocks, or raise `Unclear`."""
        request = self.request
        subtitles = self.find_subtitles()
        self.verdict.subtitle_count = len(subtitles)
        clock = get_given_clock(request) or NO_CLOCK
        programme = PartSearch(request, TimedPart(subtitles[0].begin, subtitles[-1].end, clock),
                               request.pes, self.skipped_positions, self.is_continued(subtitles[0]))
        self.recording = recording = Recording(request, self.command_paths, self.names,
                                               self.listener, [(subtitle.begin, subtitle.end)
                                                               for subtitle in subtitles])
        try:
            recording.read(self.is_result_written)
        finally:
            self.verdict.recording = recording.file
        self.refuse_range(recording)
        if request.pes is None:
            option = OPTION_BY_WORD[request.option]
            refuse_dead_source(request, recording.survey, recording.packets, [
                (item.begin, item.end) for item in subtitles
                if encode_text_characters(item.text, option)])
        clocks = find_parts(programme, recording, self.listener)
        first, last = clocks.alignments[0], clocks.alignments[-1]
        refuse_other_pid(request, recording.survey, pts_of(first.begin, first.origin),
                         pts_of(last.end, last.origin))
        self.verdict.notes[:0] = clocks.delay_notes
        self.verdict.mismatch = clocks.mismatch
        return LocatedRecording(recording, clocks, subtitles)

    def is_continued(self, first: Subtitle) -> bool:
        """Return whether a subtitle with the same text directly precedes the first judged subtitle,
        `first`, with no pause between them."""
        request, option = self.request, OPTION_BY_WORD[self.request.option]
        if not request.between.begin and not self.skipped_positions:
            return False
        return any(one.begin < first.begin <= one.end + request.within
                   and encode_text_characters(one.text,
                                              option) == encode_text_characters(first.text, option)
                   for one in decode_subtitles(SubtitleFile(self.names.program_stl).data))

    def refuse_range(self, recording: Recording) -> None:
        """Raise `Unclear` if there is no PES packet in the range of --pes."""
        count, pes = recording.packets.count, self.request.pes
        if pes and count and pes[0] >= count:
            content = f"{counted(count, 'PES packet')}, 0-{count - 1}"
            raise Unclear(f"{recording.name} has {content}: --pes {pes[0]}-{pes[1]} is outside "
                          "this range",
                          self.format_call("--pes", f"0-{count - 1}"))

    def judge_valid_subtitles(self, answer: CheckOutput) -> None:
        """Judge the transmission of the subtitles that are not refused. If this is impossible,
        refuse only the subtitle file, and add a note with the reason."""
        try:
            with self.catch_missing_page():
                self.judge_transmission()
            if self.verdict.parts:
                return
            explanation: object = self.verdict.named_faults[-1].text
        except (Stop, Unclear) as reason:
            if self.current_part:
                raise
            explanation = reason
        self.verdict.valid_subtitles = None
        text = "; ".join(str(explanation).splitlines())
        self.listener.add_notes(f"the other subtitles were not judged: {text}")
        self.judge_file_only(answer, True)

    def judge_transmission(self) -> None:
        recording, clocks, subtitles = self.located_recording
        programme = clocks.search._replace(skipped_positions=self.skipped_positions)
        if self.verdict.valid_subtitles:
            subtitles = self.verdict.valid_subtitles.judged
            self.verdict.subtitle_count = len(subtitles) + len(self.skipped_positions)
            for line in self.verdict.valid_subtitles.format_lines():
                self.listener.print_line(line)
        self.add_recording_warnings(recording, clocks.alignments[0].origin, programme.full_range)
        parts = self.make_parts(recording, clocks.alignments, programme, subtitles)
        if len(parts) > 1 and self.verdict.valid_subtitles:
            self.refuse_unreported_subtitles(parts, self.verdict.valid_subtitles)
        for part in parts:
            if selection := part.judged_recording[1].clock.get_selection(part.number):
                self.listener.add_selection(selection, is_printed=False)
        for part in parts:
            self.judge_part(part, programme, subtitles)
        self.verdict.gaps += find_gaps(recording, self.verdict.parts)

    def make_parts(self, recording: Recording, alignments: list[TimedPart], programme: PartSearch,
                   subtitles: list[Subtitle]) -> list[Part]:
        """Return the parts to judge, with their frames and their clocks."""
        request = self.request
        alignments = choose_parts(alignments, programme.full_range)
        is_single_part = len(alignments) == 1
        if not is_single_part:
            refuse_missing_subtitles(alignments, subtitles, request.stl)
            if self.skipped_positions:
                alignments = extend_ranges(alignments, request.between)
        parts = []
        for number, alignment in enumerate(alignments, 1):
            own = request if is_single_part else request.limit_to_range(*alignment.between)
            names = self.names if is_single_part else self.names.make_part_paths(number)
            parts.append(Part(number, own, names, CheckOutput(names.list_path), alignment,
                              recording, self.skipped_positions, severity=self.verdict.severity))
        return parts

    def refuse_unreported_subtitles(self, parts: Sequence[Part], valid: ValidSubtitles) -> None:
        """Raise `Stop` unless `check` reports a fault of each refused subtitle in one of the parts,
        and judges the same subtitles in the parts as in the file. A subtitle whose time is in
        another part than those around it may have no fault there, or be out of order after a
        subtitle that is judged in the file."""
        lines, judged_positions = set[str](), set[int]()
        for part in parts:
            faults = [fault for fault, _ in check_file_alone(
                part.request, self.command_paths.program_path, part.names).read_faults()]
            lines.update(fault.line for fault in faults)
            own = find_valid_subtitles(
                SubtitleFile(part.names.program_stl, part.request.between), faults,
                part.request.option)
            judged_positions.update(subtitle.index for subtitle in own.judged)
        for refused in valid.refused:
            if refused.fault.line not in lines:
                raise Stop(f"{refused.describe_subtitle()} has no fault in its part of the "
                           "recording")
        if judged_positions != {subtitle.index for subtitle in valid.judged}:
            raise Stop("a subtitle out of order is in another part of the recording than the "
                       "subtitles around it")

    def judge_part(self, part: Part, programme: PartSearch, subtitles: list[Subtitle]) -> None:
        """Judge a part: find its PES packets, run `check`, explain the faults, and add warnings."""
        listener, request, (recording, _) = self.listener, part.request, part.judged_recording
        own = [subtitle for subtitle in subtitles if request.between.includes(subtitle.begin)]
        due = functools.lru_cache(maxsize=None)(lambda: self.make_expected_pages(request, own))
        part = dataclasses.replace(part, expected_pages=due).add_packets(
            self.find_packets(part, programme),
            sum_file(recording.path, recording.display_name)
            if self.is_result_written and recording.is_piped else None)
        self.current_part = part
        part, unchecked = measure_part_pace(
            part, [(subtitle.begin, subtitle.end) for subtitle in own], listener)
        self.verdict.unchecked += unchecked
        self.verdict.made_checks.add((LOSSES, part.number))
        self.current_part = part
        check_part(part, self.command_paths, listener)
        self.compare_packets(part)
        self.refuse_adjoining_cut(part)
        self.verdict.parts.append(part)
        self.check_pictures(part, own)
        part = self.explain(part)
        self.verdict.parts[-1] = part
        self.add_part_warnings(part, subtitles)

    def explain(self, part: Part) -> Part:
        """Return a copy of a part with the causes of its faults, its hints and its delays."""
        return explain_part(part, self.verdict, self.listener, self.is_result_written)

    def find_packets(self, part: Part, programme: PartSearch) -> Range:
        """Return the range of PES packets to judge in a part, and report it."""
        return find_part_packets(programme, part, self.listener)

    def refuse_adjoining_cut(self, part: Part) -> None:
        """Raise `Unclear` if the only fault is in the page decoded at the last TCO, and the next
        subtitle begins there. The option --to then cuts the file between two adjoining
        subtitles."""
        at = find_adjoining_end(part) if self.request.to_time and \
            not self.verdict.valid_subtitles else None
        if at is None or part.decoded_pages is None:
            return
        request, stl_path = self.request, self.names.program_stl
        program = self.command_paths.program_path
        between = FrameRange(at, at + 1)
        due = schedule_pages(program, stl_path,
                             read_subtitles(program, stl_path, between, request.is_open),
                             request.page, request.option, between,
                             request.list_schedule_arguments())
        fault = part.check_output.first_fault
        if not due.pages or not fault or \
                part.decoded_pages.get_page_at(fault.frame or at) != due.pages[0]:
            return
        # With the default range, `read_subtitles` would raise another `Unclear` for a refused
        # subtitle. With any other range it skips refused subtitles.
        subtitles = read_subtitles(program, stl_path, FrameRange(0, FRAMES_OF_A_DAY + 1),
                                   request.is_open)
        raise Unclear(f"--to ends the range at {format_frame(at)}, where the next subtitle follows "
                      "directly: the page is not erased there",
                      *(self.format_call("--to", format_frame(end + 1))
                        for end in find_nearest_pauses(subtitles, at)))

    def compare_packets(self, part: Part) -> None:
        """Raise `SurveyMismatch` if `survey` printed other PES packets of a part than the proved
        command `packets`. Add an entry for those that were not compared."""
        recording, pes = part.judged_recording[0], part.pes or NO_RANGE
        number = recording.find_unproved_number(pes)
        if number is not None:
            self.verdict.unchecked.append(Unchecked(
                OUTSIDE, f"whether survey read PES packets {number} to {pes[1]} as the proved "
                "command packets does, since many before them are refused", part.number))

    def check_pictures(self, part: Part, subtitles: Sequence[Subtitle]) -> None:
        """Add a fault for each interval in which the pictures drift from the subtitles."""
        recording, alignment = part.judged_recording
        faults, notes, unchecked, is_made = find_desync(
            recording.survey, recording.packets.pid, alignment, part.request.within, part.number,
            part.list_pts(), self.list_timely_changes(part, subtitles))
        self.verdict.named_faults += faults
        self.verdict.unchecked += unchecked
        self.verdict.made_checks |= {(PICTURES, part.number)} if is_made else set()
        self.listener.add_notes(*notes)

    def list_timely_changes(self, part: Part, subtitles: Sequence[Subtitle]) -> list[int]:
        """Return the PTS at which subtitles changed, if all did at their expected time. They show
        that the Teletext clock did not jump before."""
        if part.is_refused or part.request.within or part.request.late:
            return []
        origin = part.judged_recording[1].origin
        return [pts_of(frame, origin) for item in subtitles for frame in (item.begin, item.end)]

    def make_expected_pages(self, request: Request, subtitles: list[Subtitle]) -> ExpectedPages:
        """Return the expected pages of subtitles. If the file has refused subtitles, draw the pages
        in Python, not with `subttx schedule`."""
        if self.valid_subtitles:
            layout = parse_layout(request.layout or "") or PLAIN
            return draw_valid_pages(subtitles, request.page, request.option, layout)
        return schedule_pages(self.command_paths.program_path, self.names.program_stl, subtitles,
                              request.page,
                              request.option, request.between, request.list_schedule_arguments())

    def add_recording_warnings(self, recording: Recording, origin: int, part: TimedPart) -> None:
        """Add warnings about the recording and the PID."""
        warnings, packets, survey = list[Notice](), recording.packets, recording.survey
        warnings += recording.find_notices()
        if recording.is_stream:
            warnings += [*notices.find_timing_notices(packets, origin),
                         *notices.find_jump_notices(packets, origin, part.begin, part.end),
                         *notices.find_pmt_notices(survey, packets.pid, self.request)]
        self.verdict.warn([*warnings, *notices.find_character_set_notices(packets, self.request)])

    def add_part_warnings(self, part: Part, subtitles: list[Subtitle]) -> None:
        """Add warnings about intervals without PES packets, and about too large an --every."""
        origin = part.judged_recording[1].origin
        times = [(subtitle.begin, subtitle.end) for subtitle in subtitles]
        self.verdict.warn([
            *notices.find_pause_notices(part.list_pts(), self.request, origin),
            *notices.find_repeat_notices(part.list_pts(HEADER), self.request, origin, times)])
