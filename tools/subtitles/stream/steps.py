"""Find unusual steps between the decoding times of pictures."""
from __future__ import annotations

import math
import statistics
from typing import NamedTuple, Sequence

from ..common.times import TICKS, subtract_pts


# For each second `survey` prints the least and the greatest step between the decoding times of
# pictures, unless all steps are alike and like those of the line before.

ALIKE_TICKS = TICKS // 4  # steps that differ by less are alike
MIN_PICTURES = 5  # least number of pictures in a row with a step that is usual
MIN_AWAY_PICTURES = 3  # fewer pictures with other times may be damaged times
MAX_AWAY_TICKS = 270_000  # the longest time between two steps that are compared as away and back
MAX_CLOCK_JUMPS = 20  # a video with more jumps has pictures that are shown for different times
ALONE_TICKS = 90_000  # within this time of another unusual step, it is unclear what happened
MAX_REORDER_TICKS = 8 * TICKS  # the time from decoding a picture to showing it, if unknown


class StepRange(NamedTuple):
    """The least and the greatest step in a second, in ticks, and the number of the picture after
    each."""

    least: int
    least_at: int
    most: int
    most_at: int

    @property
    def is_steady(self) -> bool:
        return self.most - self.least < ALIKE_TICKS


class UnusualStep(NamedTuple):
    """A step to the decoding time of the picture `number` that is unusual by `ticks`. `is_sure` is
    false if most seconds have different steps. `has_pcr` is true if the PCR jumps as far."""

    number: int
    ticks: int
    usual: int
    is_sure: bool = True
    has_pcr: bool = False

    @property
    def is_whole(self) -> bool:
        """Return whether the step differs from the usual one by a whole number of pictures."""
        return abs(self.ticks - self.usual * round(self.ticks / self.usual)) < ALIKE_TICKS

    @property
    def may_keep_delay(self) -> bool:
        """Return whether pictures may keep their delay: some may be lost, or one may be sent
        twice."""
        return self.is_whole and self.ticks > -1.5 * self.usual and not self.has_pcr


def find_unusual_steps(several: Sequence[StepRange], count: int) -> list[UnusualStep]:
    """Return the unusual steps of a video with `count` pictures, in order. A step is usual if
    it is the only step for a while, or the least or the greatest step of most pictures."""
    if not several:
        return []
    lengths = measure_lengths(several, count)
    steady = [item.least for item, length in zip(several, lengths)
              if item.is_steady and length >= MIN_PICTURES and item.least > 0]
    usual = {*steady,
             find_typical([(item.least, length) for item, length in zip(several, lengths)]),
             find_typical([(item.most, length) for item, length in zip(several, lengths)])}
    base = steady[0] if steady else min(usual)
    is_sure = sum(length for item, length in zip(several, lengths) if item.is_steady) * 2 \
        >= sum(lengths)
    found = list[UnusualStep]()
    for item, length in zip(several, lengths):
        if item.is_steady and length >= MIN_PICTURES and item.least > 0:
            base = item.least
        ends_of_range = [(item.least, item.least_at)] if item.least_at == item.most_at else \
            [(item.least, item.least_at), (item.most, item.most_at)]
        found += [UnusualStep(number, step - base, base, is_sure)
                  for step, number in ends_of_range
                  if all(abs(step - other) >= ALIKE_TICKS for other in usual)]
    return sorted(found)


def find_clock_steps(unusual: Sequence[UnusualStep], count: int) -> list[Sequence[UnusualStep]]:
    """Return the steps that may be jumps of the video's clock, in a video with `count` pictures:
    single steps, and pairs that lead away and back. First come those that nothing else explains;
    return none if there are many. The last may be explained otherwise, if it is the only one."""
    found, at = list[Sequence[UnusualStep]](), 0
    while at < len(unusual):
        step, length = unusual[at], 1
        least = ALONE_TICKS // max(step.usual, 1)
        if is_return(unusual[at:at + 2]):
            length, least = 2, MIN_PICTURES
        steps = unusual[at:at + length]
        before = step.number - unusual[at - 1].number if at else least
        after = unusual[at + length].number - steps[-1].number if at + length < len(unusual) \
            else least
        if step.is_sure and min(before, after) >= least and MIN_PICTURES < step.number \
                and steps[-1].number + MIN_PICTURES <= count:
            found.append(steps)
        at += length
    sure = [steps for steps in found if not may_keep_delay(steps)]
    others = [steps for steps in found if may_keep_delay(steps)]
    return [] if len(sure) > MAX_CLOCK_JUMPS else [*sure, *others] if len(others) == 1 else sure


def may_keep_delay(steps: Sequence[UnusualStep]) -> bool:
    """Return whether lost pictures, or pictures sent twice, explain all steps."""
    return all(step.may_keep_delay for step in steps)


def is_return(steps: Sequence[UnusualStep]) -> bool:
    """Return whether two steps lead away and back."""
    if len(steps) < 2:
        return False
    (away, back), pictures = steps, steps[1].number - steps[0].number
    return abs(away.ticks + back.ticks) < ALIKE_TICKS and pictures >= MIN_AWAY_PICTURES \
        and pictures * away.usual <= MAX_AWAY_TICKS


def measure_lengths(several: Sequence[StepRange], count: int) -> list[int]:
    """Return the number of pictures from each range of steps to the next, of `count` in all."""
    ends = [*(min(item.least_at, item.most_at) for item in several[1:]), count]
    return [max(end - item.most_at, 1) for item, end in zip(several, ends)]


def are_in_order(several: Sequence[StepRange], count: int) -> bool:
    """Return whether decoding times usually increase. Otherwise they are times of showing."""
    lengths = measure_lengths(several, count)
    return not several or find_typical(
        [(item.least, length) for item, length in zip(several, lengths)]) > 0


def find_typical(weighted: Sequence[tuple[int, int]]) -> int:
    """Return the median of values with weights."""
    rest = sum(weight for _, weight in weighted) / 2
    for value, weight in sorted(weighted):
        rest -= weight
        if rest <= 0:
            return value
    return weighted[-1][0]


def measure_reordering(pictures: Sequence[int | None], passed: int, steps: Sequence[StepRange],
                       decoding: int, number: int) -> int:
    """Return the greatest time from decoding a picture to showing it or a later picture that is
    shown before it, in ticks.

    `pictures` has the PTS of the first group of pictures, after `passed` others. `decoding` is the
    decoding time of picture `number`. Return `MAX_REORDER_TICKS` if it can't be measured.
    """
    if not steps or not steps[0].is_steady or any(
            min(item.least_at, item.most_at) <= max(number, passed + len(pictures))
            for item in steps[1:]):
        return MAX_REORDER_TICKS
    delays = [subtract_pts(decoding, pts) - steps[0].least * (at - number)
              for at, pts in enumerate(pictures, passed + 1) if pts is not None]
    if not delays or min(delays) <= -ALIKE_TICKS or max(delays) > MAX_REORDER_TICKS:
        return MAX_REORDER_TICKS
    # The mean is the time from decoding the Nth picture to showing the Nth in the order of display.
    # By then at least one of the Nth decoded picture and all later ones is shown.
    return max(0, math.ceil(statistics.fmean(delays)) if len(delays) == len(pictures)
               else max(delays))
