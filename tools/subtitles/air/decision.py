"""Decide which result a programme gets, from the recorded segments and the outcomes of judging. All
times are in seconds since the epoch."""
from __future__ import annotations

from typing import NamedTuple, Sequence

from ..cli.single import now as date
from ..common.command_line import INPUT
from ..judging.status import NOT_JUDGED
from ..results.files import make_unjudged
from .check import Outcome
from .segments import MIN_JUMP, ClockJump, Segment, UnbrokenRun

RECORDER_LAG = 10.0  # seconds to wait after the end of a programme, since the recorder may lag
LENGTH_TOLERANCE = 1.0  # seconds by which a recording may seem shorter than its programme
MAX_GAPS = 3  # maximum number of gaps listed in a result
HOUR = 3600.0
# Seconds that are recorded after a window if it has passed, and the clock is not only ahead
MIN_RECORDED_LATER = HOUR
MAX_WAIT = 48 * HOUR  # seconds after a window after which a programme is given up for any reason


class Window(NamedTuple):
    """The scheduled period of a programme. The programme is searched for from `early` seconds
    before `begin` to `late` seconds after `end`."""

    begin: float
    end: float
    length: float  # duration of the programme's subtitle file in seconds
    early: float
    late: float
    more: float = 0.0  # extra seconds for a programme that began in time but has not ended yet

    @property
    def first(self) -> float:
        return self.begin - self.early

    @property
    def last(self) -> float:
        return self.end + self.late + self.more

    def can_contain(self, stretch: UnbrokenRun) -> bool:
        """Return whether a recorded part is long and early enough to contain the programme."""
        is_long_enough = stretch.end - stretch.begin >= self.length - LENGTH_TOLERANCE
        return is_long_enough and stretch.begin < self.begin + self.late


def describe_gaps(window: Window, recorded_runs: Sequence[UnbrokenRun],
                  longest_pause: float) -> list[str]:
    """Describe the periods of a window that were not recorded or were deleted later."""
    ends = [window.first, *(stretch.end for stretch in recorded_runs)]
    begins = [*(stretch.begin for stretch in recorded_runs), window.last]
    # If the clock was set back, a part may begin before the end of the last.
    return [" to ".join(map(date, sorted(times))) for number, times in enumerate(zip(ends, begins))
            if 0 < number < len(recorded_runs) or times[1] - times[0] > longest_pause]


def decide(name: str, outcomes: Sequence[Outcome], gaps: Sequence[str], has_passed: bool,
           failure: str = "") -> Outcome | None:
    """Return the outcome of a programme from the outcomes of all recorded parts that may contain
    it. Return `None` if later segments or a corrected subtitle file may still change it.
    `has_passed` is true after the end of the window. `failure` is the last system error."""
    failed = next((outcome for outcome in outcomes if outcome.result is None), None)
    final_outcome = failed or next((outcome for outcome in outcomes if outcome.is_final and (
        has_passed or not outcome.has_file_fault)), None)
    if final_outcome or not has_passed:
        return final_outcome
    if outcomes and (not gaps or outcomes[0].is_file_refused):
        return outcomes[0]  # the feed was recorded during the whole window, or does not matter
    gap_text = ", ".join(gaps[:MAX_GAPS]) or "some seconds"
    more = f" and {len(gaps) - MAX_GAPS} more" if len(gaps) > MAX_GAPS else ""
    rest = f"; of the rest: {outcomes[0].reason}" if outcomes else ""
    before = f"; before that: {failure}" if failure else ""
    reason = f"not recorded: {gap_text}{more}{rest}{before}"
    return Outcome(make_unjudged(name, reason, INPUT), reason, is_recorded=False)


def is_given_up(window: Window, later: Sequence[Segment], deleted: float, clock: float) -> bool:
    """Return whether a programme gets a result although it can't be judged. `record` has deleted
    all segments before the time `deleted`. `later` are the segments after the window. `clock` is
    the earliest time that the clock has shown for an hour, so one wrong time ends no programme."""
    is_deleted = deleted > window.begin + window.late
    end = window.last + MAX_WAIT
    return is_deleted or clock > end or count_seconds(later, end - HOUR) >= HOUR


def give_up(name: str, outcome: Outcome) -> Outcome:
    """Return the last outcome of a programme that is given up. A refusal is not certain if another
    line's missing subtitle file limits the margins."""
    if outcome.verdict == NOT_JUDGED:
        return outcome
    reason, kind = outcome.reason, outcome.error_kind
    if outcome.result:
        reason, kind = f"a line nearby has no subtitle file: {reason}", INPUT
    return Outcome(make_unjudged(name, reason, kind), reason)


def is_clock_wrong(jumps: Sequence[ClockJump], difference: float, now: float) -> bool:
    """Return whether the clock jumped within the last hour, or is wrong since an earlier jump. A
    clock that agreed with the TDT only before a jump is wrong until the newest TDT shows that it
    differs as before. If it agreed only after the jump, or never, nobody knows that it is wrong."""
    right = next((before if abs(after) > MIN_JUMP else None for _, before, after in reversed(jumps)
                  if min(abs(before), abs(after)) <= MIN_JUMP), None)
    return any(now - time <= HOUR for time, _, _ in jumps) or (
        right is not None and not abs(difference - right) <= MIN_JUMP)


def count_seconds(segments: Sequence[Segment], begin: float) -> float:
    """Return the number of recorded seconds after a time."""
    return sum(max(segment.end - max(segment.begin, begin), 0.0) for segment in segments)
