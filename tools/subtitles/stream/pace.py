"""Measure the intervals between PES packets, and find the interval that indicates a loss."""
from __future__ import annotations

import array
import collections
import itertools
import operator
from typing import Iterator, NamedTuple, Optional, Sequence, Tuple

from ..common.times import NO_FRAME, find_frames_of_day, split_rising_rows
from .packets import Packets, Range
from .repeats import MAX_CUE_DISTANCE


# qc chooses the longest interval between PES packets that reveals every loss. It is worse to refuse
# an intact recording than to note that a loss may be hidden.
#
# The continuity counter has four bits: it does not show a loss of 16 TS packets, and after a loss
# of 15 the next packet looks like a repeat. A PES packet of Teletext has at most nine TS packets,
# so a loss of 16 destroys at least two PES packets. A PES file has no counter, so that a single PES
# packet may be lost.
#
# The interval reveals every loss if the first TS packet of each PES packet has the PTS. Otherwise,
# after a loss of 16 packets, the start of one PES packet may continue with the middle of another.

MIN_PES_PACKETS = 100  # minimum number of PES packets for a measurement
MAX_EXCEPTIONS, PART = 3, 1000  # maximum number of exceptions: three, or one in 1000
# An interval is usual if at least 1/20 of all have its length and at most 1/100 are longer.
USUAL_SHARE, RARE_SHARE = 20, 100
# Longer intervals show losses only if the others are regular: up to 12 are longer, or 1/100, and
# either the longest usual interval is four times as frequent as each one that is at least half as
# long (a timer limits it), or nearly all sums of eight intervals are equal, or differ by a frame.
MAX_LONGER, TIMER_SHARE, SUMMED, MAX_UNEVEN_SHARE = 12, 4, 8, 100
LOSS_DISTANCE = 17  # distance of the TS packets before and after a loss of 16 packets
# After a loss of two PES packets the next is the third; after a loss of one, the second.
DISTANCE_IF_TWO_LOST, DISTANCE_IF_ONE_LOST = 3, 2
UNITS = 4  # Teletext units in a TS packet; a PES header takes the place of one
PAYLOAD = 184  # payload bytes of a TS packet
DEFAULT_REPEAT_LIMIT = 250  # default of --every, in frames
MAX_PES_PACKETS_TS = 9  # maximum number of TS packets in a PES packet
REGULAR, IRREGULAR, PAUSED, BY_EVERY, TOO_FEW = \
    "regular", "irregular", "paused", "by --every", "too few"
Pauses = Sequence[Tuple[Optional[int], Optional[int]]]


class Silence(NamedTuple):
    """A long interval without a PES packet. `first` and `last` are the frames of the PES packets
    around it. `is_near_other_silence` is true if only a few PES packets separate it from another
    one."""

    first: int
    last: int
    is_near_other_silence: bool


class Pace(NamedTuple):
    """The intervals between PES packets, in frames."""

    kind: str
    interval: int = 0  # longest usual interval, or the longest pause if the kind is `PAUSED`
    # Shortest interval that a loss causes. If PES packets are regular, a `--pace` one frame shorter
    # reveals every loss, except at `hidden_places` of `total` places.
    loss_interval: int = 0
    hidden_places: int = 0
    total: int = 0
    # Whether the interval across two lost PES packets can be as short as a usual interval
    is_dense: bool = False

    @property
    def frames(self) -> int | None:
        """Return the value for `--pace`, if PES packets are sent at regular intervals."""
        return self.loss_interval - 1 if self.kind == REGULAR else None


def compute_pace(rows: Sequence[Sequence[int]], packets_per_pes: int, every: int,
                 pauses: Pauses = (), is_stream: bool = True) -> Pace:
    """Measure the intervals between PES packets.

    Each of `rows` contains the frames of PES packets between which no loss is known. A PES packet
    has at most `packets_per_pes` TS packets. A page header is sent at least every `every` frames.
    `pauses` are the spans without a subtitle. A few intervals longer than the usual ones count as
    losses, so that damage can't change the result. If the inserter causes most of the longer
    intervals, the intervals are not regular.
    """
    distances = count_distances(rows, 1)
    loss_distances = count_distances(rows, DISTANCE_IF_TWO_LOST if is_stream
                                     else DISTANCE_IF_ONE_LOST)
    count = sum(distances.values())
    max_exceptions = max(MAX_EXCEPTIONS, count // PART)
    interval = find_number_at_rank(distances, max_exceptions,
                                   True) if count > max_exceptions else max(distances, default=0)
    if count < MIN_PES_PACKETS or sum(loss_distances.values()) <= max_exceptions:
        return Pace(BY_EVERY if min(loss_distances, default=0) > every else TOO_FEW, interval)
    loss_interval = find_loss_distance(loss_distances, interval,
                                       max_exceptions) if is_stream else interval + 1
    if min(loss_interval, *loss_distances) > every:
        return Pace(BY_EVERY, interval, loss_interval)
    is_dense = max(interval, 1) >= loss_interval
    if is_dense:
        usual = find_usual_distance(distances, count, max_exceptions)
        if usual is None:
            return Pace(IRREGULAR, interval, loss_interval)
        loss_interval = usual + 2
    silences = [silence for row in rows for silence
                in find_silences(row, loss_interval, count_loss_steps(packets_per_pes))]
    idle_silences = select_idle_silences(silences, every, pauses)
    if 2 * len(idle_silences) > len(silences):
        return Pace(PAUSED,
                    max(silence.last - silence.first for silence in idle_silences), loss_interval)
    if silences and not is_regular(rows, distances):
        return Pace(IRREGULAR, interval, loss_interval)
    hidden_places = sum(frequency for frames, frequency in loss_distances.items()
                        if frames < loss_interval)
    return Pace(REGULAR, interval, loss_interval, hidden_places, sum(loss_distances.values()),
                is_dense)


def is_regular(rows: Sequence[Sequence[int]], distances: collections.Counter[int]) -> bool:
    """Return whether the usual intervals are regular, so that longer ones show losses. Random
    intervals have longer ones, too."""
    count = sum(distances.values())
    usual = max((frames for frames, frequency in distances.items()
                 if frequency * USUAL_SHARE >= count), default=None)
    if usual is None:
        return False
    longer_count = sum(frequency for frames, frequency in distances.items() if frames > usual)
    if longer_count > max(MAX_LONGER, count // RARE_SHARE):
        return False
    next_count = max((frequency for frames, frequency in distances.items()
                      if usual <= 2 * frames < 2 * usual), default=0)
    return distances[usual] >= TIMER_SHARE * next_count or is_even(rows, usual)


def is_even(rows: Sequence[Sequence[int]], usual: int) -> bool:
    """Return whether nearly all sums of `SUMMED` intervals in a row, each at most `usual` frames
    long, have one of two adjacent values."""
    sums: collections.Counter[int] = collections.Counter()
    for row in rows:
        ends = [at for at in range(1, len(row)) if row[at] - row[at - 1] > usual]
        for begin, end in zip([0, *ends], [*ends, len(row)]):
            sums.update(row[at + SUMMED] - row[at] for at in range(begin, end - SUMMED))
    even_count = max((sums[value] + sums[value + 1] for value in sums), default=0)
    return even_count > 0 and \
        (sum(sums.values()) - even_count) * MAX_UNEVEN_SHARE <= sum(sums.values())


def find_loss_distance(loss_distances: collections.Counter[int], usual_distance: int,
                       max_exceptions: int) -> int:
    """Return the shortest interval, in frames, after a loss of two PES packets. If it does not
    exceed the usual interval, skip `max_exceptions` intervals, beginning with the shortest."""
    least = min(loss_distances)
    return least if least > max(usual_distance, 1) else find_number_at_rank(loss_distances,
                                                                            max_exceptions, False)


def find_usual_distance(distances: collections.Counter[int], count: int,
                        max_exceptions: int) -> int | None:
    """Return the usual interval if PES packets are dense (see `Pace`), for example two in a frame.
    Return `None` if too many intervals are longer."""
    usual = max([1, *(frames for frames, frequency in distances.items()
                      if frequency * USUAL_SHARE >= count)])
    longer_count = sum(frequency for frames, frequency in distances.items() if frames > usual)
    is_usual = longer_count * RARE_SHARE <= count \
        and longer_count - distances[usual + 1] <= max_exceptions
    return usual if is_usual else None


def count_loss_steps(packets_per_pes: int) -> int:
    """Return the distance in PES packets between the last one received before a loss of 16 TS
    packets and the first one received after it."""
    return max(DISTANCE_IF_TWO_LOST, -(-LOSS_DISTANCE // packets_per_pes))


def find_hidden_loss(rows: Sequence[Sequence[int]], packets_per_pes: int) -> int | None:
    """Return the shortest interval, in frames, that may hide a loss of 16 TS packets, since the
    continuity counter does not show such a loss. Return `None` if there are too few PES packets."""
    return min(count_distances(rows, count_loss_steps(packets_per_pes)), default=None)


def select_idle_silences(silences: Sequence[Silence], every: int, pauses: Pauses) -> list[Silence]:
    """Return the silences in which the inserter had no PES packet to send.

    Include a silence near another silence, since another page of the PID may have ended. Include a
    silence that is longer than usual but allowed by `--every`, or that is outside of the programme.
    If most long pauses between subtitles end with a silence, include these silences.
    """
    inside = [(silence, end - begin) for begin, end in pauses if begin is not None
              and end is not None
              for silence in silences if begin <= silence.first
              and abs(end - silence.last) <= MAX_CUE_DISTANCE]
    shortest_silence = min((length for _, length in inside), default=0)
    longer_count = sum(begin is not None and end is not None and end - begin >= shortest_silence
                       for begin, end in pauses)
    usual = [silence for silence, _ in inside] if 2 * len(inside) > longer_count else []
    return [silence for silence in silences if silence.is_near_other_silence or silence in usual
            or DEFAULT_REPEAT_LIMIT < silence.last - silence.first <= every
            or any(is_outside(silence, *pause) for pause in pauses)]


def is_outside(silence: Silence, begin: int | None, end: int | None) -> bool:
    """Return whether a silence lies in the pause before the first in-cue (`begin` is `None`) or
    after the last out-cue (`end` is `None`)."""
    if begin is None:
        return end is not None and silence.last <= end + MAX_CUE_DISTANCE
    return end is None and begin <= silence.first


def count_distances(rows: Sequence[Sequence[int]], steps: int) -> collections.Counter[int]:
    """Count the intervals in frames between each PES packet and the PES packet `steps` later."""
    counts: collections.Counter[int] = collections.Counter()
    for row in rows:
        if isinstance(row, range):
            counts[steps * row.step] += max(len(row) - steps, 0)
        else:
            counts.update(map(operator.sub, itertools.islice(row, steps, None), row))
    return counts


def find_number_at_rank(counts: collections.Counter[int], rank: int, is_from_above: bool) -> int:
    """Return the number at a rank in ascending order, or in descending order if `is_from_above`.
    Ranks begin at 0. `counts` maps each number to its frequency."""
    numbers = sorted(counts, reverse=is_from_above)
    totals = itertools.accumulate(counts[number] for number in numbers)
    return next(number for number, total in zip(numbers, totals) if total > rank)


def find_silences(row: Sequence[int], lost: int, steps: int) -> Iterator[Silence]:
    """Yield the silences in a sequence of frames: intervals of at least `lost` frames without a PES
    packet. A silence is near another silence if fewer than `steps` PES packets separate the two."""
    places = [] if isinstance(row, range) else [
        at for at, (first, last) in enumerate(zip(row, row[1:])) if last - first >= lost]
    for before, at, after in zip([-steps, *places], places, [*places[1:], len(row) + steps]):
        yield Silence(row[at], row[at + 1], min(at - before, after - at) < steps)



def list_frame_rows(packets: Packets, inside: Range, origin: int,
                    within: int) -> list[Sequence[int]]:
    """Return sequences of frames of the PES packets in the range `inside` that `check` reads. A
    sequence ends at a gap marker, at a refused packet, at a packet without a frame, and where the
    frame number decreases."""
    rows, pts = [], array.array("q")
    for run in itertools.chain(packets.list_runs_between(*inside), [None]):
        if run is not None and run.pts is not None and not run.fault:
            pts.extend(run.list_pts())
        elif pts:
            rows += [row for _, row in split_rising_rows(find_frames_of_day(pts, origin, within))
                     if row[0] != NO_FRAME]
            pts = array.array("q")
    return rows


def estimate_packets_per_pes(packets: Packets, inside: Range, size: int | None) -> int:
    """Estimate the maximum number of TS packets in a PES packet: the mean, or the number for the
    largest PES packet `inside` if that is greater. `size` is the number of bytes of a PES file."""
    total = packets.packets if size is None else size // PAYLOAD
    usual = round(total / packets.count) if packets.count else 0
    units = max((run.units for run in packets.list_runs_between(*inside)), default=0)
    return min(max(usual, -(-(units + 1) // UNITS), 1), MAX_PES_PACKETS_TS)


def find_pauses(times: Sequence[tuple[int, int]]) -> Pauses:
    """Return the spans between subtitles, as pairs of frames. The first begins and the last ends
    with `None`."""
    begins, ends = [begin for begin, _ in times], [end for _, end in times]
    return [*zip([None, *ends], begins), *((end, None) for end in ends[-1:])]
