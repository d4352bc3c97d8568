"""Decide the verdict, its exit status, and which faults are errors. No other module does this."""
from __future__ import annotations

import copy
from typing import Callable, Collection, Iterable, NamedTuple, Sequence

from ..common.command_line import (
    BUG, BUG_STATUS, OTHER_STATUS, STATUSES_BY_KIND, Stop, UNDECIDED, USAGE_STATUS)
from ..common.files import read_bounded_bytes
from ..formats.listing import END, ENDS_FILE, ENDS_READING, FAULT_NAMES, LOST_PACKETS, SILENT
from ..request.lines import MAX_PROFILE_BYTES, decode_text
from .waivers import (
    EXAMPLE, FileWaivers, Owners, Waiver, choose_waivers, is_waiver, parse_waiver)


ERROR, WARNING = "error", "warning"
OTHERS = "others"  # means all numbers and names that the severity file does not list
# The fault numbers of all commands
FAULT_NUMBERS = {3, 4, *range(10, 26), *range(30, 41), 44, LOST_PACKETS, *range(50, 58),
                 *range(60, 75), *range(76, 80), 82}
CHECK_FAULTS = FAULT_NUMBERS - {3, 4, 82}  # fault numbers that `check` reports


class Severity:
    """The severity of each fault number and fault name.

    A fault is an error unless the severity file at `path` makes it a warning. Lost packets (45) are
    a warning only with `is_loss_allowed` (--allow-lost) or if the file lists them; the name
    `others` in the file does not include them. --allow-lost also makes an interval without a PES
    packet (79) a warning, unless the file lists 79 or `others`, or the operator gave --pace.
    A waiver makes a fault in one subtitle a warning.
    """

    def __init__(self, path: str | None, is_loss_allowed: bool = False,
                 is_pace_given: bool = False) -> None:
        self.severity_by_fault: dict[int | str, str] = {}
        self.all_waivers: list[Waiver] = []
        self.waivers = FileWaivers()  # the waivers for the judged subtitle file
        self.is_loss_allowed, self.is_pace_given = is_loss_allowed, is_pace_given
        if path is not None:
            text = decode_text(path, read_bounded_bytes(path, MAX_PROFILE_BYTES))
            for at, line in enumerate(text.split("\n"), 1):
                if is_waiver(line):
                    self.all_waivers.append(parse_waiver(path, at, line))
                else:
                    self.read_line(path, at, line.partition("#")[0].split())

    def read_line(self, path: str, line_number: int, words: list[str]) -> None:
        """Parse one line of the severity file. Raise `Stop` if it is invalid."""
        if not words:
            return
        *names, severity = words
        name = " ".join(names)
        is_number = name.isascii() and name.isdecimal()
        if severity not in (ERROR, WARNING) or not is_number and name not in (OTHERS, *FAULT_NAMES):
            raise Stop(f"{path}, line {line_number}: a line is `NUMBER error` or `NUMBER warning`, "
                       f"or for one subtitle `{EXAMPLE}`")
        if name in (OTHERS, *FAULT_NAMES):
            self.severity_by_fault[name] = severity
        elif name.lstrip("0") in map(str, FAULT_NUMBERS):
            self.severity_by_fault[int(name)] = severity
        else:
            raise Stop(f"{path}, line {line_number}: no refusal has the number {name}")

    def classify(self, number: int | str) -> str:
        """Return `ERROR` or `WARNING` for the faults with this number or name."""
        if number in ENDS_READING | ENDS_FILE:
            return ERROR
        if number == LOST_PACKETS:
            return WARNING if self.is_loss_allowed else self.severity_by_fault.get(number, ERROR)
        is_loss = number == SILENT and self.is_loss_allowed and not self.is_pace_given
        default = self.severity_by_fault.get(OTHERS, WARNING if is_loss else ERROR)
        return self.severity_by_fault.get(number, default)

    def is_error(self, number: int | str) -> bool:
        return self.classify(number) == ERROR

    def is_subtitle_error(self, number: int, owners: Owners) -> bool:
        """Return whether a fault that concerns some subtitles is an error."""
        return self.is_error(number) and not self.waivers.cover(number, owners)

    def limit_to_file(self, name: str, find_checksum: Callable[[], str], day: str) -> Severity:
        """Return a copy that uses the waivers for a subtitle file on a day."""
        severity = copy.copy(self)
        severity.waivers = choose_waivers(self.all_waivers, name, find_checksum, day)
        return severity


ALL_ERRORS = Severity(None)  # the severities without a severity file


ACCEPTED, WAIVED = "accepted", "waived"  # a waived pair has only faults that are warnings
VALID = "valid"  # a subtitle file without faults, and no recording
RELATIVE = "relative"  # accepted or waived, but with an estimated clock
REFUSED = "refused"
LOST = "lost"  # no errors, but TS packets were lost
WARNED = "warned"  # no errors, but --strict does not accept warnings
NOT_JUDGED = "not judged"
STATUSES = {ACCEPTED: 0, VALID: 0, WAIVED: 0, REFUSED: 1, LOST: 1, WARNED: 1,
            NOT_JUDGED: OTHER_STATUS, RELATIVE: 3}
# `relative` has status 0 with --relative. The kind decides the status of `not judged`.
POSSIBLE_RESULTS = [*STATUSES.items(), (RELATIVE, 0), (NOT_JUDGED, USAGE_STATUS),
                    (NOT_JUDGED, BUG_STATUS)]
STATUS_ORDER = (BUG_STATUS, USAGE_STATUS, OTHER_STATUS, 1, 3, 0)
# The verdicts on a reading, which is the subtitles that were read from a recording
AS_SHOWN, WITH_FAULTS, NOT_READ = "as shown", "shown with faults", "not read"
READING_STATUSES = {AS_SHOWN: 0, WITH_FAULTS: 1, NOT_READ: OTHER_STATUS}
POSSIBLE_READINGS = [*READING_STATUSES.items(), (NOT_READ, USAGE_STATUS), (NOT_READ, BUG_STATUS)]
NO_VERDICTS = (NOT_JUDGED, NOT_READ)
# The verdicts on a recording that was judged by another recording. Others are `relative` and `not
# judged`.
SAME, DIFFERS = "same", "differs"
COMPARISON_STATUSES = {SAME: 0, DIFFERS: 1}

NOT_ANSWERED = "check gave no verdict"
NOT_CHECKED = "required but not checked"
NOTHING_READ = "none of the recording was read, and --severity makes all faults warnings"


class CheckSummary(NamedTuple):
    """The result of `check` for one part."""

    exit_status: int | None  # negative after a signal; `None` while `check` is running
    is_accepted: bool = False  # whether the last line accepts the part
    fault_count: int = 0  # number of reported faults
    printed_total: int | None = None  # the number that the last line of the output states
    fault_numbers: Collection[int] = ()
    is_read: bool = True  # false if there is a recording, but `check` read no PES packet
    is_file: bool = False  # whether only the subtitle file was judged, and has no fault
    waived_numbers: Collection[int] = ()  # fault numbers that only waived subtitles have


class Grounds(NamedTuple):
    """The values that decide a verdict."""

    parts: Sequence[CheckSummary]
    severity: Severity
    # For each loss that only the PCR shows, whether packets of judged frames are lost (`check`
    # itself reports the other losses)
    judged_losses: Sequence[bool] = ()
    warnings: Sequence[str] = ()
    is_strict: bool = False
    # Why the pair was not judged, or which outputs could not be written, or would describe other
    # files than the judged ones: the kind of each such error
    error_kinds: Sequence[str] = ()
    named_faults: Sequence[str] = ()
    # Whether the clock was given, or there is no recording. Without a clock, a delay that all
    # subtitles share can't be detected, so the best verdict is `relative`.
    has_clock: bool = False
    is_relative_allowed: bool = False  # value of --relative
    # What could not be checked, where the recording is probably wrong
    doubts: Sequence[str] = ()
    missing_kinds: Sequence[str] = ()  # required checks that were not made everywhere


class Decision(NamedTuple):
    """A verdict in one word."""

    word: str
    reason: str | None = None  # why the pair is not judged, unless an error is the reason
    not_judged_kind: str | None = None
    is_relative_allowed: bool = False

    @property
    def status(self) -> int:
        """Return the exit status of the verdict."""
        if self.not_judged_kind:
            return STATUSES_BY_KIND[self.not_judged_kind]
        return 0 if self.word == RELATIVE and self.is_relative_allowed else \
            (STATUSES | READING_STATUSES | COMPARISON_STATUSES)[self.word]


def decide_part(summary: CheckSummary) -> str:
    """Return the verdict on one part. The part is not judged unless the last line, the faults and
    the exit status of `check` agree."""
    if summary.exit_status == 0 and summary.is_accepted and not summary.fault_count and \
            not summary.fault_numbers:
        return VALID if summary.is_file else ACCEPTED
    if summary.exit_status == 1 and summary.fault_numbers and \
            summary.fault_count == summary.printed_total and \
            CHECK_FAULTS.issuperset(summary.fault_numbers):
        return REFUSED
    return NOT_JUDGED


def decide(grounds: Grounds) -> Decision:
    """Return the verdict on all parts of a pair.

    If an input can't be judged or an output can't be written, the pair is not judged. Otherwise the
    most severe finding decides, in the order error, loss, warning, missing clock. A fault without a
    number, for example a page that is never sent, counts even if there are no parts.
    """
    words = [decide_part(part) for part in grounds.parts]
    if grounds.error_kinds:
        return Decision(NOT_JUDGED, not_judged_kind=find_worst_kind(grounds.error_kinds))
    if not words and not grounds.named_faults or NOT_JUDGED in words:
        return Decision(NOT_JUDGED, NOT_ANSWERED, BUG)
    faults: list[int | str] = [number for part in grounds.parts for number in part.fault_numbers
                               if number not in part.waived_numbers]
    if any(grounds.severity.is_error(fault) for fault in [*faults, *grounds.named_faults]):
        return Decision(REFUSED)
    if not words or not all(part.is_read for part in grounds.parts):
        return Decision(NOT_JUDGED, NOTHING_READ, UNDECIDED)
    if any(grounds.judged_losses) and grounds.severity.is_error(LOST_PACKETS):
        return Decision(LOST)
    if grounds.doubts:
        return Decision(NOT_JUDGED, "\n".join(grounds.doubts), UNDECIDED)
    if grounds.missing_kinds:
        return Decision(NOT_JUDGED, f"{NOT_CHECKED}: {', '.join(grounds.missing_kinds)}", UNDECIDED)
    if grounds.warnings and grounds.is_strict:
        return Decision(WARNED)
    if VALID in words:
        return Decision(WAIVED if grounds.named_faults else VALID)
    if not grounds.has_clock:
        return Decision(RELATIVE, is_relative_allowed=grounds.is_relative_allowed)
    return Decision(WAIVED if REFUSED in words or grounds.named_faults else ACCEPTED)


def decide_reading(grounds: Grounds, is_cut: bool, untrusted_frames: int) -> Decision:
    """Return the verdict on a reading. `is_cut` says whether the page is shown when the recording
    ends, and `untrusted_frames` is the number of frames that were read but `check` does not trust.

    A recording that ends while the page is shown has one fault by construction, 74: the page was
    not erased. `check` then does not accept it, but trusts each of its frames, and the main theorem
    holds for trusted frames as well. All other faults forbid `as shown`, even if they are warnings.
    """
    found = decide_with_cut(grounds, is_cut, untrusted_frames)
    if found.word == NOT_JUDGED:
        return found._replace(word=NOT_READ)
    return Decision(AS_SHOWN if found.word == ACCEPTED else WITH_FAULTS)


def decide_comparison(grounds: Grounds, is_cut: bool, untrusted_frames: int) -> Decision:
    """Return the verdict on a recording that was judged by another recording. The arguments are
    those of `decide_reading`, for the frames that both recordings cover."""
    found = decide_with_cut(grounds, is_cut, untrusted_frames)
    if found.word in (NOT_JUDGED, RELATIVE):
        return found
    return Decision(SAME if found.word == ACCEPTED else DIFFERS)


def decide_with_cut(grounds: Grounds, is_cut: bool, untrusted_frames: int) -> Decision:
    """Return the verdict of `decide`, but `refused` for all losses and waived faults, and
    `accepted` if the only fault is 74, because the recording ends while the page is shown."""
    if is_cut and not untrusted_frames and [is_only_cut(part) for part in grounds.parts] == [True]:
        grounds = grounds._replace(parts=[CheckSummary(0, True, is_read=grounds.parts[0].is_read)])
    found = decide(grounds)
    has_fault = any(decide_part(part) == REFUSED for part in grounds.parts) or \
        any(grounds.judged_losses) or bool(grounds.named_faults)
    return Decision(REFUSED) if has_fault and found.word != NOT_JUDGED else found


def is_only_cut(part: CheckSummary) -> bool:
    """Return whether the only fault of a part is that the recording ends before the last TCO."""
    return decide_part(part) == REFUSED and part.fault_count == 1 and {*part.fault_numbers} == {END}


def find_worst_kind(kinds: Iterable[str]) -> str:
    """Return the first kind of error whose exit status is the worst."""
    return min(kinds, key=lambda kind: STATUS_ORDER.index(STATUSES_BY_KIND[kind]))


def matches_exit_status(word: str, status: int, exit_status: int) -> bool:
    """Return whether a run of qc ended with the exit status in its JSON result, which is `status`,
    and whether the verdict `word` permits this status."""
    return status == exit_status and (word, status) in POSSIBLE_RESULTS


def combine_statuses(statuses: Iterable[int], is_stopped: bool = False) -> int:
    """Return the exit status for several verdicts, which is the worst of their statuses. An unknown
    status counts as 2. So do pairs that are missing, because `is_stopped` is true or because there
    is no pair."""
    found = {status if status in STATUS_ORDER else OTHER_STATUS for status in statuses}
    if is_stopped or not found:
        found.add(OTHER_STATUS)
    return min(found, key=STATUS_ORDER.index)
