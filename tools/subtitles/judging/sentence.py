"""Choose the fault to report first, and write the sentence of the verdict."""
from __future__ import annotations

import collections
import enum
from typing import Iterable, Mapping, NamedTuple, Sequence

from ..clock.start import advise_on_clock
from ..common.checks import CLOCK, describe_kinds
from ..common.command_line import counted, format_frame_range, was
from ..common.times import format_frame
from ..formats.listing import (
    BEGIN, CHARACTER_SET, CLOCK_JUMP, CONTENT, CONTROL, END, ENDS_EARLY, ENDS_READING, FaultLine,
    GAP, INCOMPLETE, LOSSES, LOST_PACKETS, NamedFault, NEVER_SENT, NOT_IN_FILE, NOT_SHOWN,
    OFF_FRAME, ORDER, PARITY, PICTURES_LEFT, SILENT, STL_FAULTS, SUB_PAGES, TIME_GOES_BACK,
    UNDECIDED, FAULTS_WITH_CAUSE)
from ..formats.stl import Subtitle
from ..formats.teletext import OPTION_BY_WORD
from .causes import (
    Cause, CAUSE_NAMES, Causes, EARLY, ERASED, INCOMPLETE_REPEAT, LATE, NEVER, NOT_ERASED,
    NOT_RECEIVED, OTHER_TEXT, TEXT_IN_PAUSE, UNKNOWN_CAUSE, WRONG_ATTRIBUTE, WRONG_PLACE,
    WRONG_TEXT, find_first_frame)
from .check import CheckOutput
from .pages import format_page_text
from .status import (
    ACCEPTED, LOST, NOT_ANSWERED, NOT_JUDGED, REFUSED, RELATIVE, VALID, WAIVED, WARNED)


class Rank(enum.IntEnum):
    """The severity of a fault for viewers. The worst rank has the lowest number. Sentences, reports
    and batch tables begin with a fault of the worst rank."""

    FILE = 0  # the subtitle file is refused, so it should not be sent at all
    NEVER = 1  # viewers do not see a subtitle
    WRONG = 2  # viewers see a wrong text, or only part of a text
    MOVED = 3  # viewers see a text late or early
    COLOUR = 4  # viewers see a text with a wrong colour, height or box
    SOME = 5  # some receivers show the fault
    UNSEEN = 6  # nothing was received at the time of the fault
    LATER = 7  # the fault may show on other receivers, with weak reception, or after switching on


CAUSE_RANKS = {
    NEVER: Rank.NEVER,
    OTHER_TEXT: Rank.WRONG, WRONG_TEXT: Rank.WRONG, WRONG_PLACE: Rank.WRONG, NOT_ERASED: Rank.WRONG,
    INCOMPLETE_REPEAT: Rank.WRONG, ERASED: Rank.WRONG, TEXT_IN_PAUSE: Rank.WRONG,
    UNKNOWN_CAUSE: Rank.WRONG, LATE: Rank.MOVED, EARLY: Rank.MOVED,
    WRONG_ATTRIBUTE: Rank.COLOUR,
    NOT_RECEIVED: Rank.UNSEEN}
# Receivers ignore PES packets with the faults 31 to 40. Faults 60 to 62 are about times, 67 about
# headers, and 68 about characters. BEGIN (63) and END (74) without a cause mean that the recording
# is incomplete.
NUMBER_RANKS = {
    **dict.fromkeys(STL_FAULTS, Rank.FILE),
    CONTENT: Rank.WRONG, INCOMPLETE: Rank.WRONG,
    **dict.fromkeys((*range(31, 41), 60, 61, 62, 67, 68), Rank.SOME),
    **dict.fromkeys((*ENDS_READING - {31, 32}, *LOSSES, BEGIN, END, UNDECIDED), Rank.UNSEEN),
    **dict.fromkeys((64, 65, 66, 69, 70, 71, 73), Rank.LATER)}

NAME_RANKS = {
    NEVER_SENT: Rank.NEVER, NOT_SHOWN: Rank.WRONG, PICTURES_LEFT: Rank.MOVED,
    NOT_IN_FILE: Rank.FILE, SUB_PAGES: Rank.SOME, CHARACTER_SET: Rank.SOME,
    **dict.fromkeys((ENDS_EARLY, TIME_GOES_BACK, CLOCK_JUMP), Rank.UNSEEN)}


def find_worst_named_fault(faults: Sequence[NamedFault],
                           worse_than: Rank | None) -> NamedFault | None:
    """Return the first fault of the worst rank, or `None` if the rank `worse_than` is worse."""
    worst = min(faults, key=lambda fault: NAME_RANKS[fault.name]) if faults else None
    return worst if worst and (worse_than is None or NAME_RANKS[worst.name] <= worse_than) else None


def rank_number(number: int) -> Rank:
    return NUMBER_RANKS.get(number, Rank.LATER)


def rank_cause(cause: Cause) -> Rank:
    """Return the rank of a cause. If the subtitle may be correct, the cause is less severe."""
    return Rank.UNSEEN if cause.may_be_correct else CAUSE_RANKS[cause.name]


def find_worst_cause(causes: Iterable[Cause]) -> Cause | None:
    """Return the first cause of the worst rank, or `None` if there is no cause."""
    several = [*causes]
    return min(several,
               key=lambda cause: (rank_cause(cause), cause.subtitle_index)) if several else None


class WorstFault(NamedTuple):
    """The fault to report first: its rank, its position among faults of this rank, and its line."""

    rank: Rank
    place: int
    fault: FaultLine
    has_cause: bool = False  # whether a cause explains the fault


def find_worst_fault(answer: CheckOutput, faults: Mapping[int, FaultLine],
                     causes: Causes | None) -> WorstFault | None:
    """Return the first fault of the worst rank in a part, if there is a fault. `faults` has the
    first fault to report with each number."""
    is_caused = bool(causes and causes.list_causes())
    worst_faults = [WorstFault(rank_number(number), at, fault)
                    for at, (number, fault) in enumerate(faults.items())
                    if not (number == CONTENT and is_caused)]
    cause = find_worst_cause(causes.list_causes()) if causes else None
    fault = find_fault_line(answer, causes, cause) if causes and cause else None
    if cause and fault and fault.number in faults:
        worst_faults.append(WorstFault(rank_cause(cause), -1, fault, True))
    return min(worst_faults, default=None)


def find_fault_line(answer: CheckOutput, causes: Causes, cause: Cause) -> FaultLine | None:
    """Return the line of the fault that a cause explains. This is the last fault at or before the
    first frame with a wrong page. If there is none, it is the first fault of the same kind."""
    cue_fault = next((number for number in (BEGIN, END)
                      if causes.frames_by_end_fault.get(number) == cause.subtitle_index
                      and number in answer.first_faults), None)
    first = find_first_frame(causes, cause)
    if cue_fault is not None or first is None:
        return answer.first_faults.get(cue_fault or CONTENT)
    last = answer.first_faults.get(CONTENT)
    for fault, _ in answer.read_faults():
        if fault.number == CONTENT and fault.frame is not None:
            if fault.frame > first:
                break
            last = fault
    return last


# Clauses by fault number, which follow `Refused: at TIME`. The tables of the manual explain all
# cases.

FAULT_CLAUSES = {
    10: "the file ends within the GSI block (1024 bytes) or within a TTI block (128 bytes)",
    11: "DFC is neither STL25.01 nor STL30.01",
    12: "DFC is STL30.01",
    13: "DSC is neither 1 nor 2",
    14: "CCT is not 00, Latin",
    15: "EBN is F0 to FD, reserved",
    16: "CS is not 0 in the first block of a subtitle",
    17: "CF is over 1",
    18: "JC is over 3",
    19: "VP is not 1 to 23",
    20: "TCI or TCO is not a time of day at 25 frames a second",
    21: "TCI is not before TCO",
    22: "the blocks of one subtitle have more than one SGN or SN",
    23: "a subtitle has a tenth block",
    24: "the file ends, but no block with EBN FF ended the subtitle",
    25: "there is a byte after 99,999 TTI blocks",
    30: "the file ends within the PES packet",
    31: "the packet does not begin with 00 00 01 BD",
    32: "PES_packet_length is not 184 N - 6, N from 1 to 9",
    33: "byte 6 does not begin with the bits 10, or the packet is scrambled",
    34: "PTS_DTS_flags is not 10, a PTS alone",
    35: "PES_header_data_length is not 24 (hexadecimal)",
    36: "the bits around the PTS are not 0010 and three markers",
    37: "data_identifier is not 10 to 1F",
    38: "data_unit_length is not 2C (hexadecimal)",
    39: "the framing code of a Teletext unit is not E4",
    40: "two Teletext units are on one line, or lines fall within a PES packet",
    44: "there is a byte after 2,160,000 PES packets, a day of frames",
    45: "part of the recording is missing: the PES packet is a gap marker, with FF from byte 6 on",
    50: "the national option lacks a character",
    51: "a control code is not allowed",
    52: "a line has more than 40 cells, box codes included",
    53: "a line with text is above row 1 or below row 23",
    54: "double height (0D) is on row 23, which has no row below",
    55: "a line is directly below one with double height, which hides it",
    56: "TCI is before the TCI of the previous subtitle",
    57: "TCI is before the TCO of the previous subtitle",
    60: "no PES packet was read",
    61: "the PTS is not that of any frame of the day by this origin",
    62: "its frame is not after that of the previous PES packet",
    63: "the recording begins after the first TCI",
    64: "an address byte has a wrong bit",
    65: "one of the eight coded bytes of a header has a wrong bit",
    66: "C11 (magazine serial) differs from the first header's",
    67: "a header of the page has C4, C6 or C7 clear, or C5 or C10 set, or its C12 to C14 are not "
        "those of the national option",
    68: "a byte in a row of the page has even parity",
    69: "a row of the page is sent again with other codes, and no new header between",
    70: "a packet X/25 to X/28 of the magazine is sent while the page is open",
    71: "the first frame has no header of the page",
    72: "the decoded page is not the expected one",
    73: "the page had no header for as many frames as --every allows",
    74: "the recording ends before the last TCO",
    76: "a packet in --lose is a header, or has no valid address",
    77: "the page is still open: no other header terminates it",
    78: "the expected page is unknown, since a subtitle is refused",
    79: "there was no PES packet for as many frames as --pace allows",
    82: "the file has no subtitle",
}


# Predicates for each cause: the form for one subtitle, and the form for several
CAUSE_PREDICATES = {
    NEVER: ("was never sent", "were never sent"),
    OTHER_TEXT: ("has another subtitle's text", "have other subtitles' texts"),
    WRONG_TEXT: ("has the wrong text", "have the wrong text"),
    WRONG_PLACE: ("is in the wrong place", "are in the wrong place"),
    WRONG_ATTRIBUTE: ("has a wrong colour or attribute", "have wrong colours or attributes"),
    NOT_ERASED: ("was not erased", "were not erased"),
    INCOMPLETE_REPEAT: ("was not repeated completely", "were not repeated completely"),
    ERASED: ("was erased before its TCO", "were erased before their TCO"),
    NOT_RECEIVED: ("was not received", "were not received"),
    UNKNOWN_CAUSE: ("is not as expected", "are not as expected")}
# The predicate that follows `none of the subtitles`, for each cause that all subtitles have
NONE_PREDICATES = {
    NEVER: "was sent", NOT_ERASED: "was erased", INCOMPLETE_REPEAT: "was repeated completely",
    NOT_RECEIVED: "was received", UNKNOWN_CAUSE: "is as expected"}
HINTS_ON_ALL = {GAP, OFF_FRAME}  # faults whose hint is about all frames, not about the first fault
HINTS_FOR_CLAUSE = {CONTROL, PARITY}  # faults explained by their hint, not by `FAULT_CLAUSES`
FILE_ONLY = "No recording was judged"
ANOTHER_DELAY = "another delay"  # of subtitles that do not have the delay of all others
MAX_NUMBERS = 4  # maximum number of fault numbers listed in a sentence


class FaultCount(NamedTuple):
    number: int
    name: str
    fault_count: int


class Facts(NamedTuple):
    """The facts that the sentence about a verdict reports."""

    word: str  # the verdict
    subtitles: int
    first: FaultLine | None = None  # the fault to report first
    has_cause: bool = False
    faults: int = 0
    counts: Sequence[FaultCount] = ()  # number of faults for each fault number
    hint: str = ""  # explanation of the first fault
    of_block: str = ""
    causes: Causes | None = None
    option: str = "english"
    lost: Sequence[str] = ()  # lines that report the gaps
    warnings: Sequence[str] = ()  # kinds of warnings
    reason: str | None = None
    is_file: bool = False  # whether only a subtitle file was judged
    refused: str = ""  # description of refused subtitles, if the others are judged
    within: int = 0
    named: str = ""  # text of the first fault without a number
    waived: Sequence[FaultCount] = ()  # empty unless there are also faults that are not waived
    parts: int = 1  # number of parts, each with its own clock
    delay: int = 0  # delay of all subtitles in frames, if the operator gave the clock
    has_picture: bool = False  # whether the operator may use --start
    unchecked: Sequence[str] = ()  # kinds of the checks that were not made everywhere
    mismatch: str = ""  # says that the subtitle file is probably another programme's
    step_back: str = ""  # says where the PTS go back


def write_sentence(facts: Facts) -> str:
    """Return the sentence about a verdict, and one about the checks that were not made."""
    if facts.word == NOT_JUDGED:
        reason = (facts.reason or NOT_ANSWERED).splitlines()[0]
        mismatch = f"{facts.mismatch}; " * bool(facts.mismatch and facts.mismatch not in reason)
        return f"Not judged: {mismatch}{reason}."
    # The sentence of a relative verdict already says that a delay was not checked.
    unchecked = describe_kinds([kind for kind in facts.unchecked
                                if kind != CLOCK or facts.word != RELATIVE])
    return f"{write_verdict(facts)} {unchecked}".rstrip()


def write_verdict(facts: Facts) -> str:
    """Return the sentence about a verdict on a pair that was judged."""
    if facts.word == REFUSED:
        waived = f"; waived: {describe_counts(facts.waived)}" if facts.waived else ""
        faults = describe_faults(facts)
        step_back = "" if facts.step_back in faults else facts.step_back
        reasons = filter(None, [facts.mismatch, step_back, faults])
        return f"Refused: {'; '.join(reasons)}{waived}."
    if facts.word == RELATIVE:
        return f"{describe_relative_match(facts)} was not checked: " \
            f"{advise_on_clock(facts.has_picture)}."
    if facts.word == WAIVED:
        return f"{describe_waived_faults(facts)}.{f' {FILE_ONLY}.' * facts.is_file}"
    acceptance = "all faults that were found are declared as warnings" if facts.faults \
        or facts.refused else FILE_ONLY.lower() if facts.is_file \
        else "everything that was received is right"
    if facts.word == LOST:
        more = f", and in {counted(len(facts.lost) - 1, 'more place')}" if len(facts.lost) > 1 \
            else ""
        lost = facts.lost[0] if facts.lost else "TS packets are lost"
        return f"Not accepted: {lost}{more}; {acceptance}."
    if facts.word == WARNED:
        kinds = ", ".join(dict.fromkeys(facts.warnings))
        return f"Not accepted: --strict treats warnings as faults ({kinds}); {acceptance}."
    if facts.word == VALID:
        return f"The subtitle file is valid: {counted(facts.subtitles, 'subtitle')}. {FILE_ONLY}."
    assert facts.word == ACCEPTED
    return f"Accepted: {describe_success(facts)}."


def describe_waived_faults(facts: Facts) -> str:
    """Describe the faults that the severity file turns into warnings."""
    return f"Waived, since these faults are declared as warnings: {describe_faults(facts)}"


def describe_relative_match(facts: Facts) -> str:
    """Return a clause for the verdict `relative`. It says what matches if the clock is estimated,
    and which delay was not checked."""
    within = f" within {counted(facts.within, 'frame')}" if facts.within else ""
    if facts.faults or facts.refused:
        found, delay = describe_waived_faults(facts), "a delay that all subtitles share"
    elif facts.subtitles == 1:
        found, delay = f"The subtitle has the right text and duration{within}", "its delay"
    elif facts.parts == 1:
        found = f"All {facts.subtitles} subtitles match relative to each other{within}"
        delay = "a delay that they all share"
    else:
        found = f"All {facts.subtitles} subtitles match relative to the others in their " \
            f"part{within}"
        delay = "a delay that all subtitles in a part share"
    return f"{found}. No clock was given, so {delay}"


def describe_success(facts: Facts) -> str:
    """Return the clause that says that the subtitles have no fault."""
    subtitles = counted(facts.subtitles, "subtitle")
    if facts.subtitles > 1:
        return f"all {subtitles} have the right text {describe_text_period(facts)}"
    return f"{subtitles} has the right text {describe_text_period(facts)}"


def describe_valid_subtitles(facts: Facts) -> str:
    """Describe the refused subtitles, and the result of judging the other subtitles."""
    others = f"{counted(facts.subtitles, 'other subtitle')} " \
        f"{was(facts.subtitles)} judged"
    sent = facts._replace(refused="")
    if facts.first is None and not facts.named:
        is_single = facts.subtitles == 1
        is_waived = facts.faults or any(count.number not in STL_FAULTS | {UNDECIDED}
                                        for count in facts.waived)
        how = "all faults that were found are declared as warnings" if is_waived else \
            f"{'it has' if is_single else 'all have'} the right text {describe_text_period(facts)}"
    else:
        how = describe_faults(sent)
    return f"{facts.refused}; {others}: {how}"


def describe_text_period(facts: Facts) -> str:
    """Return the clause that says how soon each subtitle must have the right text."""
    return f"within {counted(facts.within, 'frame')}" if facts.within else \
        "from the first frame to the last"


def describe_faults(facts: Facts) -> str:
    """Describe the worst fault, the place where it first occurs, and the number of other faults."""
    if facts.refused:
        return describe_valid_subtitles(facts)
    words = describe_first_fault(facts)
    if facts.delay and facts.first and facts.first.number in FAULTS_WITH_CAUSE:
        return describe_delay(facts.subtitles, facts.delay) + (
            describe_other_delays(facts.causes, facts.delay) if facts.causes else "") \
            + describe_other_faults(facts)
    if facts.has_cause and facts.causes:
        words = describe_causes(facts.causes, facts.option) + describe_other_faults(facts)
    return words


def describe_delay(subtitles: int, delay: int) -> str:
    """Return a clause with the delay that all subtitles share, in frames."""
    subject = f"all {subtitles:,} subtitles" if subtitles > 1 else "the subtitle"
    return f"{subject} appeared {counted(abs(delay), 'frame')} {LATE if delay > 0 else EARLY}"


def describe_other_delays(causes: Causes, delay: int) -> str:
    """Return a clause with the causes other than the delay that all subtitles share."""
    shared = LATE if delay > 0 else EARLY
    names = [cause.name if cause.name not in (LATE, EARLY) else ANOTHER_DELAY
             for cause in causes.list_causes()
             if (cause.name, cause.frames) != (shared, abs(delay))]
    return f"; also {count_names(names, 1)}" if names else ""


def count_names(names: Iterable[str], least: int) -> str:
    """Return the names of causes, worst first, with their counts from `least` on."""
    counts = collections.Counter(names)
    order = [*CAUSE_NAMES, ANOTHER_DELAY]
    return ", ".join(f"{name} ({counts[name]:,})" if counts[name] >= least else name
                     for name in sorted(counts, key=lambda name: (
                         CAUSE_RANKS.get(name, Rank.MOVED), order.index(name))))


def describe_first_fault(facts: Facts) -> str:
    """Describe the first fault, its place, and the number of faults with each fault number."""
    fault = facts.first
    if fault is None and facts.named:
        return facts.named + f"; {facts.faults:,} faults in all" * (facts.faults > 1)
    if fault is None:
        return f"{counted(facts.faults, 'fault')}"
    if fault.number == LOST_PACKETS and facts.lost:
        more = f", and in {counted(len(facts.lost) - 1, 'more place')}" if len(facts.lost) > 1 \
            else ""
        return f"{facts.lost[0]}{more}{describe_other_faults(facts)}; record that part again"
    words = FAULT_CLAUSES.get(fault.number, fault.name)
    if fault.number == ORDER and facts.step_back:
        facts, words, fault = facts._replace(hint=""), facts.step_back, fault._replace(pes=None)
    block = f"{facts.of_block} (block {fault.block})," if facts.of_block else f"block {fault.block}"
    place = fault.time or (f"PES packet {fault.pes}" if fault.pes is not None else
                           block if fault.block is not None else "")
    if facts.hint and fault.number in HINTS_ON_ALL:
        words, place = f"from {place} on, {facts.hint}", ""
    elif facts.hint and fault.number == SILENT:
        words, place = f"there was {facts.hint}", ""
    elif facts.hint:
        words = facts.hint if fault.number in HINTS_FOR_CLAUSE else f"{words}: {facts.hint}"
    place = place and f"{'at' if fault.time else 'in'} {place.removesuffix(',')}, "
    more = f"; {facts.faults:,} faults in all" if facts.faults > 1 else ""
    several = f": {describe_counts(facts.counts)}" if len(facts.counts) > 1 else ""
    return f"{place}{words}{more}{several}"


def describe_other_faults(facts: Facts) -> str:
    """Describe the faults with other numbers than the first fault. Omit the numbers in
    `FAULTS_WITH_CAUSE`, since these faults are described by their causes."""
    first = facts.first.number if facts.first else None
    others = [count for count in facts.counts
              if count.number not in FAULTS_WITH_CAUSE and count.number != first]
    return f"; also {describe_counts(others)}" if others else ""


def describe_counts(several: Sequence[FaultCount]) -> str:
    """Describe how many faults have each fault number, worst first. After `MAX_NUMBERS` fault
    numbers, describe only how many fault numbers are left."""
    sorted_counts = sorted(several, key=lambda count: (rank_number(count.number), count.number))
    words = [f"{count.number} {count.name}" +
             (f" ({count.fault_count:,})" if count.fault_count > 1 else "")
             for count in sorted_counts]
    if len(words) > MAX_NUMBERS:
        words[MAX_NUMBERS:] = [counted(len(words) - MAX_NUMBERS, "more number")]
    return " and ".join(filter(None, (", ".join(words[:-1]), words[-1])))


def describe_causes(causes: Causes, option: str) -> str:
    """Describe the worst cause, its first subtitle, and the number of other causes."""
    every = causes.list_causes()
    worst_cause = find_worst_cause(every)
    assert worst_cause
    same_causes = [cause for cause in every if cause.name == worst_cause.name]
    subtitles = causes.expected.subtitles
    words = describe_single_cause(worst_cause, causes, option) if len(same_causes) == 1 else \
        describe_shared_cause(same_causes, subtitles)
    others = [cause.name for cause in every
              if cause.name not in (worst_cause.name, TEXT_IN_PAUSE)]
    pauses = [cause for cause in every if TEXT_IN_PAUSE == cause.name != worst_cause.name]
    return "; ".join([words, *[f"other subtitles: {count_names(others, 2)}"] * bool(others),
                      *[f"also another text in {describe_pauses(len(pauses))}"] * bool(pauses)])


def describe_pauses(count: int) -> str:
    """Return a number of pauses as text."""
    return "a pause" if count == 1 else counted(count, "pause")


def describe_single_cause(cause: Cause, causes: Causes, option: str) -> str:
    """Describe a cause that only one subtitle has."""
    subtitle = causes.expected.subtitles[cause.subtitle_index]
    if cause.name == TEXT_IN_PAUSE:
        sent = format_page_text(cause.sent_page,
                                OPTION_BY_WORD[option].number) if cause.sent_page else ""
        return f"another text was sent in a pause, {cause.details}" + f': "{sent}"' * bool(
            cause.sent_page)
    text = format_page_text(causes.expected.pages[cause.subtitle_index],
                            OPTION_BY_WORD[option].number)
    description = f"appeared {counted(cause.frames or 0, 'frame')} {cause.name}" \
        if cause.name in (LATE, EARLY) else CAUSE_PREDICATES[cause.name][0]
    more = f" ({cause.details})" if cause.details else ""
    sent = format_page_text(cause.sent_page,
                            OPTION_BY_WORD[option].number) if cause.sent_page and cause.name in (
        WRONG_TEXT, OTHER_TEXT) else ""
    name = f"{subtitle.name} at {format_frame(subtitle.begin)}"
    return f'{name} {description}{more}: expected "{text}", received "{sent}"' \
        if sent and sent != text else f'{name}, "{text}", {description}{more}'


def describe_shared_cause(causes: Sequence[Cause], subtitles: Sequence[Subtitle]) -> str:
    """Describe a cause that several subtitles have, with the first and the last subtitle."""
    first, last = subtitles[causes[0].subtitle_index], subtitles[causes[-1].subtitle_index]
    name = causes[0].name
    if name == TEXT_IN_PAUSE:
        return f"another text was sent in {describe_pauses(len(causes))}, the first " \
            f"{causes[0].details}"
    is_none = len(causes) == len(subtitles) and name in NONE_PREDICATES
    subject = f"none of the {len(subtitles):,} subtitles" if is_none else \
        f"all {len(subtitles):,} subtitles" if len(causes) == len(subtitles) else \
        f"{len(causes):,} of {len(subtitles):,} subtitles"
    period_text = f"the first at {format_frame(first.begin)}, the last at " \
        f"{format_frame(last.begin)}"
    frames = sorted(cause.frames or 0 for cause in causes)
    description = f"appeared {format_frame_range(frames[0], frames[-1])} {name}" \
        if name in (LATE, EARLY) \
        else NONE_PREDICATES[name] if is_none else CAUSE_PREDICATES[name][1]
    words = {cause.details for cause in causes}
    more = f" ({words.pop()})" if len(words) == 1 and words != {""} else ""
    return f"{subject} {description}{more} ({period_text})"
