"""The verdict on a pair, with its texts, gaps and warnings, and the delays of its subtitles."""
from __future__ import annotations

import collections
import dataclasses
import os
from typing import Callable, Collection, Iterable, Iterator, Mapping, NamedTuple, Sequence

from ..clock.start import ESTIMATED_LATER_NOTE, ESTIMATED_NOTE, advise_on_clock
from ..common.checks import (
    CHECK_KINDS, CLOCK, CheckState, LOSSES, OPTION, PICTURES, find_missing_kinds)
from ..common.command_line import (
    RESOURCE, classify_error, format_error, format_frame_range, was)
from ..common.files import SummedFile
from ..common.shapes import Members
from ..common.times import compute_time, format_frame
from ..formats.listing import (
    CONTENT, LOST_PACKETS, NamedFault, PICTURES_LEFT, SILENT, STL_FAULTS, UNDECIDED)
from ..formats.stl import Subtitle
from ..recording.recording import Recording
from ..recording.notices import Notice
from ..request.request import Request, Selection
from ..stream.gaps import LossPlace, describe_loss
from ..stream.receiver import Rows, Timeline
from .cues import make_subtitle_rows
from .part import Part, belongs_to_part
from .sentence import Facts, FaultCount, Rank, WorstFault, find_worst_named_fault, write_sentence
from .status import (
    ACCEPTED, Decision, Grounds, LOST, NO_VERDICTS, NOT_JUDGED, REFUSED, RELATIVE, Severity,
    WAIVED, WARNED, decide)
from .subtitles import SubtitleCounts, ValidSubtitles
from .unchecked import Unchecked, list_check_entries, summarize_pictures
from .waivers import Waiver


# What was judged: a recording by a subtitle file, a subtitle file alone, a recording alone, or a
# recording by another recording
SCOPES = SCOPE_PAIR, SCOPE_FILE, SCOPE_READING, SCOPE_REFERENCE = (
    "pair", "file", "reading", "reference")
# Faults that may delay a page. Without them, and with --within 0, each page is complete at its TCI.
DELAYING_FAULTS = {*range(30, 33), 44, 45, 60, 62, 63, 71, 72, 74, 77}


class DelaySpread(NamedTuple):
    """The minimum, the median and the maximum delay until subtitles are complete, in frames, and
    the number of subtitles that were never complete."""

    minimum: int
    median: int
    maximum: int
    never_complete: int

    def describe(self) -> str:
        """Return a clause that describes the delays."""
        middle = "" if self.minimum == self.maximum else f" (median {self.median})"
        never_text = f", except {self.never_complete} that {was(self.never_complete)} never " \
            "complete" if self.never_complete else ""
        delay = f"{format_frame_range(self.minimum, self.maximum)} after" if self.maximum else "at"
        return f"all subtitles were complete {delay} their TCI{middle}{never_text}"


def summarize_delays(several: Iterable[int | None]) -> DelaySpread | None:
    """Return the minimum, the median and the maximum of several delays. A delay is `None` if the
    subtitle's page was never complete. Return `None` if there is no other delay."""
    spreads = list(several)
    known = sorted(frames for frames in spreads if frames is not None)
    if not known:
        return None
    return DelaySpread(known[0], known[len(known) // 2], known[-1], len(spreads) - len(known))


def measure_delay(subtitle: Subtitle, page: Rows, timeline: Timeline,
                  is_complete: bool) -> int | None:
    """Return the number of frames from the TCI until the page of a subtitle is complete, and also
    closed if `is_complete` is true. Return `None` if this never happens, or if nothing was received
    before the TCI."""
    if timeline.first > subtitle.begin:
        return None
    for number in timeline.list_page_numbers(subtitle.begin, subtitle.end):
        if timeline.pages[number] != page:
            continue
        stretch = timeline.get_page_span(number)
        first = max(stretch.first, subtitle.begin)
        frame = timeline.find_closed_frame(first) if is_complete else first
        if frame is not None and frame <= min(stretch.last, subtitle.end - 1):
            return frame - subtitle.begin
    return None


def find_worst_part(parts: Sequence[Part],
                    find_worst: Callable[[Part], WorstFault | None]) -> Part | None:
    """Return the first part in which `find_worst` returns the most severe fault."""
    def rank(part: Part) -> Rank:
        worst = find_worst(part)
        return worst.rank if worst else Rank.LATER

    return min(parts, key=rank) if parts else None


def add_worst_fault(facts: Facts, worst: WorstFault | None) -> Facts:
    """Return a copy of `facts` with `worst`, the fault to report first, if there is one."""
    return facts._replace(first=worst.fault, has_cause=worst.has_cause) if worst else facts


def count_fault_numbers(parts: Sequence[Part],
                        count: Callable[[Part], Mapping[int, int]]) -> list[FaultCount]:
    """Return the number of faults in all parts by fault number. `count` returns the numbers of one
    part."""
    counts: collections.Counter[int] = collections.Counter()
    names: dict[int, str] = {}
    for part in parts:
        counts.update(count(part))
        names |= {number: fault.name for number, fault in part.check_output.first_faults.items()}
    return [FaultCount(number, names.get(number, ""), count) for number, count in counts.items()]


ESTIMATED = "estimated"  # kind of the warning that the clock after a break was estimated


@dataclasses.dataclass
class Gap:
    """A place where packets are missing: the times before and after it, and a description."""

    after: str | None
    before: str | None
    description: str
    place: LossPlace
    is_judged: bool  # whether frames in the gap were judged

    def format_line(self) -> str:
        """Return an output line with the times around the gap, and a description of the loss."""
        return f"between {self.after or 'the beginning'} and {self.before or 'the end'}: " \
            f"{self.description}"


class Unjudged(NamedTuple):
    """The reason why a pair is not judged, in one or more lines, the kind of error, and commands to
    suggest."""

    reason: str
    kind: str
    suggestions: tuple[str, ...] = ()
    is_temporary: bool = False  # whether a system error is the reason, so another run may succeed
    is_stopped: bool = False  # whether a signal stopped the run


class UsedWaiver(NamedTuple):
    """A waiver for the judged file, the number of faults that it waives, the TCI of subtitles that
    need a waiver too (`None` for a pause), and whether it has ended."""

    waiver: Waiver
    fault_count: int
    owners: Collection[int | None]
    has_ended: bool = False


class FailedOutput(NamedTuple):
    """The reason why an output could not be written, or would describe files other than the judged
    ones, and the kind of error."""

    reason: str
    kind: str


@dataclasses.dataclass
class Verdict:
    """The result of judging a pair, with the texts about it.

    `sentence` and `line` are the last lines on standard output. `format_part_lines` and
    `estimated_clock_note` come before them. Standard error has `notes`, `unjudged_reason` and
    `suggestions`. Reports and tables of many pairs show `worst_line` instead of `line`; JSON has
    both. Reports and JSON have the notes from `list_notes`.
    """

    request: Request
    severity: Severity
    date: str
    parts: list[Part] = dataclasses.field(default_factory=list)
    gaps: list[Gap] = dataclasses.field(default_factory=list)
    warnings: list[Notice] = dataclasses.field(default_factory=list)
    notes: list[str] = dataclasses.field(default_factory=list)  # neither faults nor warnings
    # Checks that were not made everywhere, and the name and part of each check that was made
    unchecked: list[Unchecked] = dataclasses.field(default_factory=list)
    made_checks: set[tuple[str, int]] = dataclasses.field(default_factory=set)
    hints: list[str] = dataclasses.field(default_factory=list)  # one for each fault number
    commands: list[str] = dataclasses.field(default_factory=list)
    selections: list[Selection] = dataclasses.field(default_factory=list)
    stl: SummedFile | None = None
    recording: SummedFile | None = None
    is_kept: bool = False  # whether the judged files are kept
    unjudged: Unjudged | None = None  # set if the pair is not judged
    failed_outputs: list[FailedOutput] = dataclasses.field(default_factory=list)
    # State of the input files when judging began
    files_at_start: dict[str, object] = dataclasses.field(default_factory=dict)
    seconds: float = 0.0  # duration of judging
    subtitle_count: int = 0
    mismatch: str = ""  # says that the subtitle file is probably another programme's
    # Set only if some subtitles are refused and others are judged
    valid_subtitles: ValidSubtitles | None = None
    # Faults that have a name instead of a number
    named_faults: list[NamedFault] = dataclasses.field(default_factory=list)

    @property
    def is_lost(self) -> bool:
        """Return whether TS packets were lost in judged frames."""
        return any(gap.is_judged for gap in self.gaps)

    def warn(self, notices: Iterable[Notice]) -> None:
        """Add warnings, except those that were added before."""
        self.warnings += [notice for notice in dict.fromkeys(notices)
                          if notice not in self.warnings]

    def list_notes(self) -> list[str]:
        """Return all notes for the report and the JSON result."""
        return [*self.notes, *([self.estimated_clock_note] if self.estimated_clock_note
                               and self.word != RELATIVE else [])]

    @property
    def estimated_clock_note(self) -> str | None:
        """Return a note if the clock, or the clock after a break, was estimated."""
        if not any(part.clock and part.clock.is_estimated for part in self.parts):
            return None
        return ESTIMATED_LATER_NOTE if self.has_clock else \
            f"{ESTIMATED_NOTE}: {advise_on_clock(self.has_picture)}"

    @property
    def has_picture(self) -> bool:
        """Return whether the recording has pictures, which `--start` needs."""
        recording = self.parts[0].recording if self.parts else None
        return recording is not None and recording.has_picture()

    @property
    def has_clock(self) -> bool:
        """Return true if the clock of the recording was given, or if there is no recording."""
        clocks = [part.clock for part in self.parts if part.clock]
        return self.request.has_clock and not (clocks and clocks[0].is_estimated)

    def collect_grounds(self) -> Grounds:
        is_later = bool(self.estimated_clock_note) and self.has_clock
        kinds = [*(warning.kind for warning in self.warnings), *[ESTIMATED] * is_later]
        return Grounds([part.summarize_check() for part in self.parts], self.severity,
                       [gap.is_judged and gap.place.gap_marker is None for gap in self.gaps], kinds,
                       self.request.is_strict, [item.kind for item in self.errors],
                       [fault.name for fault in self.named_faults],
                       self.has_clock, self.request.is_relative_allowed,
                       [f"not checked {item.text}" for item in self.unchecked
                        if item.may_be_wrong] if self.severity.is_error(PICTURES_LEFT) else [],
                       find_missing_kinds(self.request.required, self.unchecked_kinds))

    def find_check_states(self, part: Part) -> dict[str, CheckState]:
        """Return the state of each check of a part."""
        names = {name for name, number in self.made_checks if number == part.number}
        has_left = any(fault.name == PICTURES_LEFT and fault.part == part.number
                       for fault in self.named_faults)
        is_lost = bool(part.check_output.fault_numbers & {LOST_PACKETS, SILENT})
        return {PICTURES: CheckState(PICTURES in names, has_left),
                LOSSES: CheckState(LOSSES in names, is_lost),
                CLOCK: CheckState(part.clock is not None and not part.clock.is_estimated),
                OPTION: CheckState(True)}

    def list_unchecked(self) -> list[Unchecked]:
        """Return the checks of the judged parts that were not made everywhere."""
        parts = [(part.number, self.find_check_states(part)) for part in self.parts if part.pes]
        return [*self.unchecked, *list_check_entries(self.unchecked, parts)]

    @property
    def unchecked_kinds(self) -> list[str]:
        """Return the kinds of the checks that were not made everywhere."""
        found = {item.kind for item in self.list_unchecked()}
        return [kind for kind in CHECK_KINDS if kind in found]

    def list_unchecked_lines(self) -> list[str]:
        """Return the lines about losses and pictures that were not checked."""
        losses = dict.fromkeys(item.text for item in self.unchecked if item.kind == LOSSES)
        return [f"not checked: {text}" for text in (
            *losses, *summarize_pictures(self.list_unchecked()))]

    @property
    def scope(self) -> str:
        return SCOPE_READING if self.request.is_reading else \
            SCOPE_FILE if self.request.recording is None else SCOPE_PAIR

    @property
    def is_judged(self) -> bool:
        return self.word not in NO_VERDICTS

    def list_subtitle_rows(self) -> Iterator[Members]:
        """Yield the JSON value of each subtitle. Yield nothing if the pair was not judged."""
        for part in self.parts if self.is_judged else ():
            yield from make_subtitle_rows(part, self.valid_subtitles)

    def describe_reading(self) -> Members | None:
        """Return the JSON value of what was read, if a recording was judged alone."""
        return None

    @property
    def decision(self) -> Decision:
        return decide(self.collect_grounds())

    @property
    def is_final(self) -> bool:
        """Return whether another run would give the same verdict. It may give another verdict after
        a system error, or if the run was stopped."""
        return not (self.is_stopped or self.unjudged and self.unjudged.is_temporary
                    or self.failed_outputs)

    @property
    def is_stopped(self) -> bool:
        return bool(self.unjudged and self.unjudged.is_stopped)

    @property
    def errors(self) -> list[Unjudged | FailedOutput]:
        """Return the errors because of which the pair is not judged."""
        return [*([self.unjudged] if self.unjudged else []), *self.failed_outputs]

    @property
    def not_judged_kind(self) -> str | None:
        """Return the kind of error because of which the pair is not judged, if it is not."""
        return self.decision.not_judged_kind

    def add_failed_output(self, error: BaseException) -> None:
        """Withdraw the verdict, since an output could not be written."""
        kind = classify_error(error)
        # A path was wrong after judging began, so it was right before.
        self.failed_outputs.append(FailedOutput(format_error(error), RESOURCE if isinstance(
            error, OSError) else kind))

    @property
    def suggestions(self) -> tuple[str, ...]:
        """Return the commands to suggest to the operator if the pair is not judged."""
        return self.unjudged.suggestions if self.unjudged else ()

    @property
    def word(self) -> str:
        return self.decision.word

    @property
    def unjudged_reason(self) -> str | None:
        """Return the reason why the pair is not judged, or `None` if it is judged."""
        return "\n".join(item.reason for item in self.errors) or self.decision.reason

    @property
    def sentence(self) -> str:
        """Return the verdict as one sentence."""
        return write_sentence(self.collect_facts())

    def collect_facts(self) -> Facts:
        """Return the facts for the sentence."""
        refused, counts = self.worst_part, count_fault_numbers(self.parts, self.count_reported)
        facts = Facts(
            self.word, self.subtitle_count, option=self.request.option,
            faults=sum(count.fault_count for count in counts) + len(self.named_faults),
            counts=counts, waived=count_fault_numbers(
                self.parts, lambda part: part.waived_counts) if self.word == REFUSED else [],
            lost=[gap.format_line() for gap in self.gaps if gap.is_judged],
            warnings=self.collect_grounds().warnings,
            reason=self.unjudged_reason,
            named=self.worst_named_fault.text if self.worst_named_fault else "",
            is_file=self.request.recording is None, within=self.request.within,
            parts=len(self.parts), delay=self.delay_of_all, has_picture=self.has_picture,
            unchecked=self.unchecked_kinds, mismatch=self.mismatch,
            step_back=refused.step_back.describe() if refused and refused.step_back else "")
        if refused and self.valid_subtitles:
            facts = self.add_transmission_facts(facts, self.valid_subtitles)
        elif refused and not self.worst_named_fault:
            facts = add_worst_fault(facts._replace(hint=refused.hint,
                                                   of_block=refused.block_subtitle,
                                                   causes=refused.reported_causes),
                                    refused.worst_fault)
        return facts

    def count_reported(self, part: Part) -> collections.Counter[int]:
        """Return the number of faults of a part with each number: of the errors if the pair is
        refused, otherwise of all."""
        return part.error_counts if self.word == REFUSED else part.check_output.counts_by_number

    @property
    def delay_of_all(self) -> int:
        """Return the delay in frames that all subtitles have on the given clock, or 0 if their
        delays differ, or if --within allows delays."""
        if len(self.parts) != 1 or self.request.within:
            return 0
        clock, causes = self.parts[0].clock, self.parts[0].causes
        return clock.delay_frames or 0 if clock and clock.is_delay_of_all else \
            causes.delay_of_all if causes else 0

    def add_transmission_facts(self, facts: Facts, valid_subtitles: ValidSubtitles) -> Facts:
        """Return a copy of `facts` with facts about the transmission added, for a file with refused
        subtitles. `valid_subtitles` holds the other subtitles, which are judged nevertheless."""
        parts = [part for part in self.parts if part.worst_transmission_fault
                 and (part.error_numbers or self.word != REFUSED)]
        part = find_worst_part(parts, lambda item: item.worst_transmission_fault)
        refused = valid_subtitles.describe() if self.word != REFUSED else \
            valid_subtitles.describe_errors(any(UNDECIDED in part.error_numbers
                                                for part in self.parts))
        counts = [count for count in facts.counts
                  if count.number not in STL_FAULTS | {UNDECIDED}]
        named = self.find_named_fault(part, lambda item: item.worst_transmission_fault)
        facts = facts._replace(refused=refused, subtitles=len(valid_subtitles.judged),
                               named=named.text if named else "", counts=counts,
                               faults=sum(count.fault_count for count in counts)
                               + len(self.named_faults))
        return add_worst_fault(facts._replace(hint=part.transmission_hint,
                                              causes=part.reported_causes),
                               part.worst_transmission_fault) if part and not named else facts

    @property
    def subtitle_counts(self) -> SubtitleCounts | None:
        """Return the numbers of judged and refused subtitles, or `None` if they are unknown."""
        if not self.is_judged or not self.parts:
            return None
        if self.valid_subtitles:
            return SubtitleCounts(len(self.valid_subtitles.judged),
                                  len(self.valid_subtitles.skipped_positions))
        is_refused = any(part.check_output.fault_numbers & STL_FAULTS for part in self.parts)
        return None if is_refused else SubtitleCounts(self.subtitle_count, 0)

    @property
    def delays(self) -> DelaySpread | None:
        """Return the minimum, the median and the maximum delay until subtitles are complete."""
        return summarize_delays(frames for part in self.parts for frames in part.delays)

    @property
    def fault_count(self) -> int:
        return sum(part.check_output.fault_count for part in self.parts) + len(self.named_faults)

    @property
    def status(self) -> int:
        return self.decision.status

    @property
    def line(self) -> str | None:
        """Return the last line on standard output. This is the line of `check` for the first error.
        Without errors it is the line for the first waived fault. Without faults it is the
        `accepted` line, with the total number of frames if there are several parts."""
        errors = [fault.line for part in self.parts for fault in part.first_errors.values()]
        errors += [fault.line for fault in self.named_errors]
        faults = [fault.line for part in self.parts
                  for fault in part.check_output.first_faults.values()]
        faults += [fault.line for fault in self.named_faults]
        return self.format_check_line(next(iter(errors or faults), None))

    @property
    def worst_line(self) -> str | None:
        """Return the line for reports and batch tables. It names the worst fault, not the first."""
        if self.worst_named_fault:
            return self.format_check_line(self.worst_named_fault.line)
        return self.format_check_line(self.worst_part.first_text if self.worst_part else None)

    @property
    def worst_named_fault(self) -> NamedFault | None:
        """Return the worst fault without a number, unless a numbered fault is worse."""
        return self.find_named_fault(self.worst_part, lambda part: part.worst_fault)

    def find_named_fault(self, part: Part | None, find_worst: Callable[[Part], WorstFault | None]) \
            -> NamedFault | None:
        """Return the worst fault without a number, unless the fault that `find_worst` returns for a
        part is worse. A waived fault is never worse than an error."""
        candidates = self.named_errors if self.named_errors or self.word == REFUSED \
            else self.named_faults
        is_compared = part and (part.error_numbers or not self.named_errors)
        worst = find_worst(part) if part and is_compared else None
        return find_worst_named_fault(candidates, worst.rank if worst else None)

    def list_waivers(self) -> Iterator[UsedWaiver]:
        """Yield the waivers for the subtitle file, with the faults that each of them waives."""
        waivers, severities = self.severity.waivers, [part.severities for part in self.parts]
        for waiver in waivers.used:
            owners: set[int | None] = set()
            owners.update(*(item.other_owners.get(waiver.key, ()) for item in severities))
            yield UsedWaiver(waiver, sum(item.waived_counts[waiver.key] for item in severities),
                             owners)
        yield from (UsedWaiver(waiver, 0, set(), True) for waiver in waivers.ended)

    def find_waiver_notices(self) -> Iterator[Notice]:
        """Yield a warning for each waiver that has not ended and waives nothing."""
        for waiver, fault_count, owners, has_ended in self.list_waivers():
            if not fault_count and not has_ended:
                times = ", ".join("a pause" if frame is None else format_frame(frame)
                                  for frame in sorted(owners, key=lambda frame: frame or 0))
                yield Notice("waiver", f"the waiver in {waiver.describe()}, waives nothing" + (
                    f": the fault also concerns {times}" if times else ""), waiver.time)

    def advise_on_waiver(self) -> Iterator[str]:
        """Yield the line that waives the first wrong subtitle, if the severity file waives wrong
        pages of all subtitles."""
        begins = [part.causes.expected.begins[place] for part in self.parts if part.causes
                  for place in sorted(part.causes.cause_by_index)]
        if begins and not self.severity.is_error(CONTENT):
            yield f"{self.request.severity} waives fault {CONTENT} in all subtitles; to waive it " \
                f"in one: {CONTENT} warning at {format_frame(begins[0])} in " \
                f'{os.path.basename(self.request.stl)} until YYYY-MM-DD by "NAME": REASON'

    @property
    def named_errors(self) -> list[NamedFault]:
        return [fault for fault in self.named_faults if self.severity.is_error(fault.name)]

    @property
    def worst_part(self) -> Part | None:
        refused = [part for part in self.parts if part.is_refused]
        errors = [part for part in refused if part.error_numbers]
        return find_worst_part(errors or refused, lambda part: part.worst_fault)

    def format_check_line(self, refused: str | None) -> str | None:
        """Return the verdict and a line of `check`, or `None` if the pair is not judged. The line
        is `refused` if this is given, otherwise the `accepted` line."""
        word = self.word
        if word == NOT_JUDGED:
            return None
        if word == REFUSED:
            return refused
        line = self.format_good_line() if refused is None else f"{WAIVED}: {refused}"
        if word == RELATIVE and refused is not None:
            line = f"{RELATIVE}, {line}"
        if self.request.waivers:
            line += f"; the profile has {' and '.join(self.request.waivers)}"
        if self.unchecked_kinds:
            line += f"; not checked: {', '.join(self.unchecked_kinds)}"
        if word == LOST:
            return f"not accepted, since TS packets are lost: {line}"
        if word == WARNED:
            kinds = ", ".join(dict.fromkeys(self.collect_grounds().warnings))
            return f"not accepted, since --strict treats warnings as faults ({kinds}): {line}"
        return line

    def format_good_line(self) -> str:
        """Return the last line of output for a pair without faults. If there are several parts, the
        line gives the total number of frames. It begins with `relative` if no clock was given."""
        outputs = [part.check_output for part in self.parts]
        line = outputs[0].line if len(outputs) == 1 else (
            f"{ACCEPTED} {sum(answer.frames or 0 for answer in outputs)} frames "
            f"{sum(answer.transmissions or 0 for answer in outputs)} transmissions in "
            f"{len(outputs)} parts")
        return line if self.has_clock else f"{RELATIVE}{line.removeprefix(ACCEPTED)}"

    def format_part_lines(self) -> list[str]:
        """Return a line with the times and the result of each part, if there are several."""
        return [f"part {part.number}, from {' to '.join(map(str, part.format_time_codes()))}: "
                f"{part.check_output.line}" for part in self.parts] if len(self.parts) > 1 else []


def find_gaps(recording: Recording, parts: Sequence[Part]) -> list[Gap]:
    """Return the gaps in a recording, including those hidden by announced jumps of the counter."""
    return make_gaps(recording.list_losses([jump for part in parts for jump in part.jumps]), parts)


def make_gaps(places: Sequence[LossPlace], parts: Sequence[Part]) -> list[Gap]:
    """Return the gaps at the given places in the recording. Their times are time codes of the first
    part that contains the place, or of the first part if no part contains it."""
    gaps = []
    for place in places:
        own = [part for part in parts if belongs_to_part(place, part)]
        origin = (own or parts)[0].origin or 0
        after, before = (None if pts is None else compute_time(pts, origin)
                         for pts in (place.before, place.after))
        gaps.append(Gap(after, before, describe_loss(place), place, bool(own)))
    return gaps
