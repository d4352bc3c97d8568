"""Find the places where the delay between video and Teletext changes."""
from __future__ import annotations

import bisect
import itertools
import math
import statistics
from typing import Callable, Iterable, Mapping, NamedTuple, Sequence

from ..common.times import CLOCK, TICKS, subtract_pts, wrap_pts
from .packets import PCRStep
from .steps import (
    ALIKE_TICKS, MAX_CLOCK_JUMPS, MAX_REORDER_TICKS, MIN_PICTURES, UnusualStep, find_clock_steps,
    may_keep_delay)


# Once a second `survey` prints the lead of Teletext: its PTS minus the decoding time of the last
# picture, with the number of that picture. If the decoding times advance more or less than usual
# for the number of pictures, this is a step. If the lead changes by as much as the step, pictures
# drift: viewers see later subtitles early or late. If the lead stays the same, pictures were lost,
# or both clocks were reset. If the lead changes without a step, the multiplexer changes its delay.
#
# A step that lost pictures do not explain, by its size or since the PCR makes it too, is enough if
# the Teletext PTS do not jump (see steps.py). So is the only step, or pair of steps away and back,
# that they may explain, if a few leads show that the pictures moved: these leads are usual only if
# they are moved back by the step. The other leads are compared without these steps.
#
# Leads vary, because a multiplexer sends Teletext before or after a picture. So the mean leads
# before and after a step are compared, with their standard error. Where steps are close together,
# the leads between them show too little of how leads vary: those beyond the next steps count too.
# If there are enough leads, their extremes are compared too. If many pictures are lost, leads may
# stay the same by chance, since they come from other places of the groups of pictures than before:
# then Teletext must keep its distance from the PCR too.

SAMPLE_SIZE = 30  # number of leads to compare on each side of a step
SAMPLE_TICKS = 2_700_000  # the time for which PTS are compared with the PCR, before and after
MIN_LEADS = 20  # minimum number of leads on each side of a step to compare their extremes
SIGNIFICANT_ERRORS = 2.5  # number of standard errors that a difference of means must exceed
MIN_RATIO = 15  # how much more likely leads must be if pictures moved than if they did not
MIN_FIRST_LEADS = 3  # fewer leads do not show that the pictures stay in step
SECOND = 90_000  # if this is lost, the PCR must agree; a step of the PCR is as near to its picture
NEAR_SIZE = 5  # number of leads next to a step that must not show another delay than those before
# A lead that changes steadily may mean that two clocks drift apart. A multiplexer changes its delay
# in another way.
MIN_TREND_LEADS = 60  # minimum number of leads without a step to look for a steady change
MIN_TREND_TICKS = TICKS
MIN_TREND_SHARE = 0.95  # minimum share of the variance that a straight line explains


class VideoLead(NamedTuple):
    """A PES packet of Teletext: its PTS, its lead in ticks over the decoding time of the last
    picture before it, and the number of that picture."""

    pts: int
    ticks: int
    number: int


class Departure(NamedTuple):
    """A place where pictures drift from Teletext, between the PES packets with PTS `earlier_pts`
    and `pts`. Later subtitles are early by `ticks`, or late if `ticks` is negative. `ticks` is
    `None` if the drift is unclear. Then `change` is the least number of ticks by which the mean
    lead changes there, allowing for its error. If the step is known, `pts` is that of Teletext that
    belongs to the first picture after it, or is at most `margin` ticks earlier."""

    pts: int
    earlier_pts: int
    ticks: int | None
    change: int = 0
    margin: int = 0
    # Ticks by which the first picture that may drift belongs before `earlier_pts`, since video is
    # sent earlier or later than Teletext with the same PTS
    ahead: int = 0


class ClockJumps(NamedTuple):
    """The departures where the video's clock surely jumps, the leads as they would be without them,
    and the other unusual steps."""

    departures: list[Departure]
    leads: Sequence[VideoLead]
    steps: Sequence[UnusualStep]


def separate_clock_jumps(leads: Sequence[VideoLead], unusual: Sequence[UnusualStep], count: int,
                         has_own_clock: Callable[[Sequence[Departure]], bool]) -> ClockJumps:
    """Find the unusual steps, in a video with `count` pictures, that are jumps of the video's clock
    for sure. `has_own_clock` returns whether the Teletext PTS show that only the video jumps.
    """
    departures, rest = list[Departure](), [*unusual]
    numbers = [lead.number for lead in leads]
    for steps in find_clock_steps(unusual, count):
        at = bisect.bisect_left(numbers, steps[0].number)
        end = bisect.bisect_left(numbers, steps[-1].number + MIN_PICTURES)
        earlier, later = max(at - 1, 0), min(end, len(leads) - 1)
        if not are_all_steps_known(leads[earlier], leads[later], rest, steps[0].usual):
            continue
        if may_keep_delay(steps):
            size = steps[0].ticks if have_moved(leads, steps, rest) else None
        else:
            size = measure_jump(leads, at, steps[0], unusual) if len(steps) == 1 else steps[0].ticks
        if size is None:
            continue
        sizes = [*zip(steps, (size, steps[-1].ticks))]
        steady = [lead._replace(ticks=lead.ticks + sum(
            ticks for step, ticks in sizes if step.number <= lead.number)) for lead in leads]
        found = [make_departure(steady[earlier], step, ticks) for step, ticks in sizes]
        if has_own_clock(found):
            departures += found
            rest = [step for step in rest if step not in steps]
            leads = steady
    return ClockJumps(departures, leads, rest)


def mark_pcr_jumps(unusual: Sequence[UnusualStep], leads: Sequence[VideoLead],
                   pcr_steps: Sequence[PCRStep]) -> list[UnusualStep]:
    """Set `has_pcr` of the unusual steps at which the PCR jumps as far, although no TS packet is
    missing and the Teletext PTS do not jump forwards."""
    jumps = [(item.before, item.ticks - item.usual * item.packets // max(item.usual_packets, 1))
             for item in pcr_steps
             if item.counters == "whole" and item.before is not None and item.after is not None
             and (item.ticks < 0 or subtract_pts(item.before, item.after) < item.ticks)]
    numbers, result = [lead.number for lead in leads], list[UnusualStep]()
    for step in unusual:
        lead = leads[max(bisect.bisect_left(numbers, step.number) - 1, 0)]
        sent = wrap_pts(lead.pts + (step.number - lead.number) * step.usual)
        result.append(step._replace(has_pcr=any(
            abs(ticks - step.ticks) < TICKS // 2 and abs(subtract_pts(sent, pts)) < SECOND
            for pts, ticks in jumps)))
    return result


def have_moved(leads: Sequence[VideoLead], steps: Sequence[UnusualStep],
               unusual: Sequence[UnusualStep]) -> bool:
    """Return whether the leads show that pictures move at a step, or away and back at two steps,
    that lost pictures may explain. It is unclear if there are more such steps among `unusual`."""
    if any(step.may_keep_delay and step not in steps for step in unusual):
        return False
    begin, end, ticks = steps[0].number, steps[-1].number, steps[0].ticks
    first = max((step.number for step in unusual if step.number < begin), default=0)
    last = min((step.number for step in unusual if step.number > end), default=CLOCK)
    before = [lead.ticks for lead in leads if first <= lead.number < begin][-SAMPLE_SIZE:]
    between = [lead.ticks for lead in leads if begin <= lead.number < end]
    after = [lead.ticks for lead in leads if end <= lead.number < last][:SAMPLE_SIZE]
    if len(steps) > 1:
        moved, around, near = between, [*before, *after], [*before[-NEAR_SIZE:], *after[:NEAR_SIZE]]
    elif len(before) >= len(after):
        moved, around, near = after, before, before[-NEAR_SIZE:]
    else:
        moved, around, near, ticks = before, after, after[:NEAR_SIZE], -ticks
    if sum_squares(around) > ticks ** 2 * len(around):
        return False  # the leads vary by more than the step
    usual, nearest = steps[0].usual, moved[-NEAR_SIZE:] if moved is before else moved[:NEAR_SIZE]
    return compare_moves(moved, around, ticks, 0) >= math.log(MIN_RATIO) \
        and min(compare_moves(moved, near, ticks, 0),
                compare_moves(nearest, around, ticks, 0)) > 0 \
        and all(compare_moves(moved, around, ticks, other) >= 0
                for other in (ticks - usual, ticks + usual))


def compare_moves(moved: Sequence[int], around: Sequence[int], ticks: int, other: int) -> float:
    """Return the logarithm of how much more likely the leads in `moved` are if pictures moved by
    `ticks` than if they moved by `other`. `around` has usual leads."""
    def count(value: int) -> int:
        return 1 + sum(abs(value - lead) < ALIKE_TICKS for lead in around)
    total = 2 * sum_squares(around)
    changes = min(total, sum((after - before) ** 2 for before, after in zip(
        [*around[-1:], *around], around)))
    # Leads that stay the same for some time count as fewer leads.
    share = changes / (2 * total - changes) if total else 1
    return share * sum(math.log(count(lead + ticks) / count(lead + other)) for lead in moved)


def are_all_steps_known(before: VideoLead, after: VideoLead, unusual: Sequence[UnusualStep],
                        usual: int) -> bool:
    """Return whether the decoding times advance between two leads as the number of pictures and the
    unusual steps say. `survey` prints only two steps of a second."""
    ticks = subtract_pts(wrap_pts(before.pts - before.ticks), wrap_pts(after.pts - after.ticks))
    known = sum(step.ticks for step in unusual if before.number < step.number <= after.number)
    return abs(ticks - usual * (after.number - before.number) - known) < ALIKE_TICKS


def measure_jump(leads: Sequence[VideoLead], at: int, step: UnusualStep,
                 unusual: Sequence[UnusualStep]) -> int | None:
    """Return the ticks by which pictures drift at a step before the lead with index `at`. They are
    those of the step, unless the leads surely show that pictures were lost there too. Return `None`
    if there is no lead before, if the leads stay the same, or if it is unclear how many pictures
    were lost."""
    end = min((other.number for other in unusual if other.number > step.number),
              default=leads[-1].number + 1)
    before = [lead.ticks for lead in leads[:at]]
    after = [lead.ticks for lead in leads[at:] if lead.number < end]
    if not before or not after:
        return step.ticks if before else None
    mean_change, error = compare_means(before, after)
    if abs(mean_change) + error < ALIKE_TICKS:
        return None
    if step.ticks + mean_change - error < step.usual / 2:
        return step.ticks
    ticks = leave_out_lost(step.ticks, mean_change, step.usual)
    return ticks if abs(ticks + mean_change) + error < step.usual / 2 else None


def leave_out_lost(step: int, mean_change: float, usual: int) -> int:
    """Return the part of a step that is left if a whole number of pictures of `usual` ticks was
    lost, by the change of the mean lead."""
    return step - usual * round((step + mean_change) / usual)


def locate_departures(leads: Sequence[VideoLead], unusual: Sequence[UnusualStep] = (),
                      samples: Sequence[tuple[int, int]] = ()) -> list[Departure] | None:
    """Return the places where the delay between video and Teletext changes or may change. Return
    `None` if most decoding times are irregular. `unusual` has the unusual steps of the decoding
    times, if `survey` prints steps, and `samples` some Teletext PTS, each with the ticks by which
    it is ahead of the PCR."""
    steps = compute_steps(leads)
    ends = find_step_places(steps)
    if len(ends) * 2 > len(leads):
        return None
    inside = collect_steps(leads, unusual)
    departures = [*find_departures_at_edges(leads, inside),
                  *find_departures_between_rows(leads, steps, ends, inside, samples),
                  *find_departures_in_rows(leads, ends, inside)]
    first = leads[0].pts if leads else 0
    return sorted(departures, key=lambda departure: subtract_pts(first, departure.pts))


def find_departures_between_rows(leads: Sequence[VideoLead], steps: Sequence[int],
                                 ends: Sequence[int], inside: dict[int, list[UnusualStep]],
                                 samples: Sequence[tuple[int, int]]) -> list[Departure]:
    """Return the departures between rows of leads without a step. `ends` has the index after each
    row. Remove the unusual steps between these rows from `inside`, which has the unusual steps
    before each lead."""
    all_ticks, departures = [lead.ticks for lead in leads], list[Departure]()
    row_begin, row_end, ticks = 0, min(ends, default=0), 0
    unclear, total = [step.ticks for step in inside.get(0, [])], 0
    is_variable = sum(map(len, inside.values())) > max(MAX_CLOCK_JUMPS, len(leads) / 10)
    for begin, end in zip(ends, [*ends[1:], len(leads)]):
        ticks += steps[begin - 1]
        if end - begin == 1 and end < len(leads):
            continue
        before, after = all_ticks[row_begin:row_end], all_ticks[begin:end]
        around = all_ticks[max(row_end - SAMPLE_SIZE, 0):row_end], \
            all_ticks[begin:begin + SAMPLE_SIZE]
        here = [step for place in range(row_end, begin + 1) for step in inside.pop(place, [])]
        usual = here[0].usual if here else TICKS
        left = measure_departure(before, after, ticks, around, usual)
        if left is None and len(before) >= MIN_LEADS:
            # Where pictures are lost, the last lead may be that of Teletext long after its picture.
            left = measure_departure(before[:-1], after, ticks, (around[0][:-1], around[1]), usual)
        if left == 0 and (here and (row_end < MIN_FIRST_LEADS
                                    or not here[0]._replace(ticks=ticks).is_whole)
                          or is_outside(all_ticks[row_end:begin], before)
                          or not all(step.is_whole for step in here)
                          or ticks >= SECOND and not keep_pcr_distance(
                              samples, leads[row_end - 1].pts, leads[begin].pts)):
            # few leads, a short drift, a damaged PTS, a step without lost pictures, or a long loss
            left = None
        if left and is_variable and abs(ticks) < SECOND or any(
                abs(other + ticks) < ALIKE_TICKS for other in unclear):
            left = None  # pictures are shown for different times, or may come back
        unclear = [ticks] if left is None else []
        earlier = leads[row_end - 1]
        places = [step for step in here if step.is_sure and any(
            abs(step.ticks - size) < ALIKE_TICKS for size in (ticks, left or ticks))]
        if left and len(places) == 1:
            steady = earlier._replace(ticks=earlier.ticks + total)
            departures.append(make_departure(steady, places[0], left))
        elif left:
            departures.append(Departure(leads[begin].pts, earlier.pts, left,
                                        ahead=max(earlier.ticks, 0)))
        elif left is None or len({step.ticks > 0 for step in here}) > 1:  # or away and back
            departures.append(make_unclear_departure(
                earlier, leads[begin], here, measure_least_change(before, after, around)))
        row_begin, row_end, ticks, total = begin, end, 0, total + (left or 0)
    return departures


def keep_pcr_distance(samples: Sequence[tuple[int, int]], earlier: int, later: int) -> bool:
    """Return whether Teletext is as far ahead of the PCR up to one PTS as from a later one on."""
    before = [ticks for pts, ticks in samples if 0 <= subtract_pts(pts, earlier) < SAMPLE_TICKS]
    after = [ticks for pts, ticks in samples if 0 <= subtract_pts(later, pts) < SAMPLE_TICKS]
    change, error = compare_means(before, after) if before and after else (0, TICKS)
    return abs(change) + error < TICKS / 2


def find_departures_in_rows(leads: Sequence[VideoLead], ends: Sequence[int],
                            inside: Mapping[int, Sequence[UnusualStep]]) -> list[Departure]:
    """Return the departures at unusual steps in rows of leads, which show no step themselves.
    `inside` has the unusual steps before each lead."""
    bounds, departures = [0, *ends, len(leads)], list[Departure]()
    for at, here in inside.items():
        if not 0 < at < len(leads):
            continue
        row_at = bisect.bisect_right(bounds, at) - 1
        before = [lead.ticks for lead in leads[bounds[row_at]:at]]
        after = [lead.ticks for lead in leads[at:bounds[row_at + 1]]]
        change = measure_least_change(before, after) if before and after else 0
        if change < TICKS // 2 and all(step.ticks > 0 for step in here):
            continue  # the times of pictures are missing
        departures.append(make_unclear_departure(leads[at - 1], leads[at], here, change))
    return departures


def make_unclear_departure(before: VideoLead, after: VideoLead, steps: Sequence[UnusualStep],
                           change: int) -> Departure:
    """Return a departure of unknown size between two leads, at the unusual steps if these are
    known."""
    if not steps:
        return Departure(after.pts, before.pts, None, change, ahead=max(before.ticks, 0))
    first, last = (make_departure(before, step, None) for step in (steps[0], steps[-1]))
    return last._replace(earlier_pts=first.earlier_pts, change=change)


def collect_steps(leads: Sequence[VideoLead], unusual: Iterable[UnusualStep]) \
        -> dict[int, list[UnusualStep]]:
    """Return the unusual steps before each lead, and after the last one, by its index."""
    numbers = [lead.number for lead in leads]
    result = dict[int, list[UnusualStep]]()
    for step in unusual:
        result.setdefault(bisect.bisect_left(numbers, step.number), []).append(step)
    return result


def make_departure(lead: VideoLead, step: UnusualStep, ticks: int | None) -> Departure:
    """Return a departure at a step that comes after a lead, or shortly before it."""
    pts = wrap_pts(lead.pts - lead.ticks + (step.number - lead.number) * step.usual)
    return Departure(pts, wrap_pts(pts - step.usual), ticks, 0, MAX_REORDER_TICKS)


def find_departures_at_edges(leads: Sequence[VideoLead],
                             inside: Mapping[int, Sequence[UnusualStep]]) -> list[Departure]:
    """Return the steps before the first lead and after the last, where no leads can be compared."""
    return [make_departure(leads[at - 1 if at else 0], step, None)
            for at, steps in inside.items() if leads and at in (0, len(leads)) for step in steps]


def find_step_places(steps: Sequence[int]) -> list[int]:
    """Return the indices of the leads before which the decoding times jump."""
    return [at for at, step in enumerate(steps, 1) if abs(step) * 4 >= TICKS]


def measure_least_change(before: Sequence[int], after: Sequence[int],
                         around: Sequence[Sequence[int]] = ()) -> int:
    """Return the least number of ticks by which the mean lead changes, allowing for its error."""
    mean_change, error = compare_means(before, after, around)
    return max(0, int(abs(mean_change) - error))


def locate_changes_of_video(several: Sequence[Sequence[VideoLead]]) -> list[Departure]:
    """Return the places where the video moves to another PID, and the lead changes or may change.
    `several` has the leads of each PID. Numbers of pictures of two PIDs can't be compared, so it is
    unclear whether the pictures drift there."""
    first = next((leads[0].pts for leads in several if leads), 0)
    ordered = sorted(((subtract_pts(first, lead.pts), at, lead)
                      for at, leads in enumerate(several) for lead in leads),
                     key=lambda row: row[0])
    groups = [(at, [lead for _, _, lead in group])
              for at, group in itertools.groupby(ordered, key=lambda row: row[1])]
    long_groups = [(at, group) for at, group in groups if len(group) > 1]
    departures = list[Departure]()
    for (old_at, old), (new_at, new) in zip(long_groups, long_groups[1:]):
        if old_at == new_at:
            continue
        before, after = [lead.ticks for lead in old], [lead.ticks for lead in new]
        mean_change, error = compare_means(before, after)
        if abs(mean_change) + error >= TICKS / 2:
            departures.append(Departure(new[0].pts, old[-1].pts, None,
                                        max(0, int(abs(mean_change) - error)),
                                        ahead=max(old[-1].ticks, 0)))
    return departures


def find_steady_change(leads: Sequence[VideoLead]) -> int:
    """Return the ticks by which the lead changes steadily between two steps, or 0."""
    ends, found = find_step_places(compute_steps(leads)), 0
    for begin, end in zip([0, *ends], [*ends, len(leads)]):
        row = leads[begin:end]
        if len(row) < MIN_TREND_LEADS:
            continue
        # The PTS may jump, but pictures come at regular intervals.
        numbers = [lead.number for lead in row]
        slope, share = fit_line(numbers, [lead.ticks for lead in row])
        ticks = round(slope * (numbers[-1] - numbers[0]))
        if abs(ticks) >= max(MIN_TREND_TICKS, abs(found)) and share >= MIN_TREND_SHARE:
            found = ticks
    return found


def fit_line(places: Sequence[int], values: Sequence[int]) -> tuple[float, float]:
    """Return the slope of the straight line that fits best, and the share of the variance of
    `values` that it explains."""
    middle, mean = statistics.fmean(places), statistics.fmean(values)
    spread = sum((place - middle) ** 2 for place in places)
    both = sum((place - middle) * (value - mean) for place, value in zip(places, values))
    total = sum((value - mean) ** 2 for value in values)
    return (both / spread, both ** 2 / spread / total) if spread and total else (0.0, 0.0)


def compute_steps(leads: Sequence[VideoLead]) -> list[int]:
    """Return the ticks by which each interval of decoding times exceeds the usual duration of its
    pictures."""
    times = [wrap_pts(lead.pts - lead.ticks) for lead in leads]
    intervals = [(subtract_pts(first, second), after.number - before.number)
                 for first, second, before, after in zip(times, times[1:], leads, leads[1:])]
    usual = statistics.median(ticks / count for ticks, count in intervals) if intervals else TICKS
    return [round(ticks - usual * count) for ticks, count in intervals]


def is_outside(between: Iterable[int], before: Sequence[int]) -> bool:
    """Return whether a Teletext lead in `between` is at least half a frame below or above all leads
    in `before`."""
    half_frame = TICKS // 2
    return any(lead <= min(before) - half_frame or lead >= max(before) + half_frame
               for lead in between)


def compare_means(before: Sequence[int], after: Sequence[int],
                  around: Sequence[Sequence[int]] = ()) -> tuple[float, float]:
    """Return the change of the mean lead from `before` to `after`, and its error. The leads vary
    as much as each of the two does, and as the leads of both sides in `around`, or of `before` and
    `after`."""
    rows = before[-SAMPLE_SIZE:], after[:SAMPLE_SIZE]
    sides = around or rows
    count = sum(len(side) - 1 for side in sides)
    usual = sum(map(sum_squares, sides)) / count if count else TICKS ** 2
    error = SIGNIFICANT_ERRORS * math.sqrt(sum(
        max(sum_squares(row) / max(len(row) - 1, 1), usual) / len(row) for row in rows))
    return statistics.fmean(rows[1]) - statistics.fmean(rows[0]), error


def sum_squares(row: Sequence[int]) -> float:
    """Return the sum of the squared distances from the mean."""
    mean = statistics.fmean(row) if row else 0
    return sum((item - mean) ** 2 for item in row)


def measure_departure(before: Sequence[int], after: Sequence[int], step: int,
                      around: Sequence[Sequence[int]], usual: int) -> int | None:
    """Return the ticks by which pictures drift at a step of the decoding times.

    `before` and `after` are the leads from the step before to the next step, and `around` those of
    both sides, beyond other steps too. A picture usually takes `usual` ticks. Return 0 if the leads
    stay the same, the step if they change by the step, and what is left of it if pictures were lost
    too. Return `None` if the drift is unclear.
    """
    limit = min(abs(step) or TICKS, TICKS) / 2
    mean_change, error = compare_means(before, after, around)
    for ticks in (0, step):
        ends = [abs(end(after[:SAMPLE_SIZE]) - end(before[-SAMPLE_SIZE:]) + ticks) * 2
                for end in (min, max)]
        is_significant = min(len(before), len(after)) >= MIN_LEADS and max(ends) < limit \
            and (not ticks or sum_squares(before[-SAMPLE_SIZE:]) <= ticks ** 2 * SAMPLE_SIZE)
        if abs(mean_change + ticks) + (0 if is_significant else error) < limit:
            return ticks
    if step and abs(mean_change) - error >= limit:
        rest = step + mean_change
        if abs(rest) <= min(limit + error, abs(step) / 4):
            return step
        if 0 <= rest <= abs(mean_change) / 2:
            return step if rest - error < usual / 2 else \
                leave_out_lost(step, mean_change, usual)
    return None
