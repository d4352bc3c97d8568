"""Find places with missing packets, and PTS that do not agree with the PCR."""
from __future__ import annotations

import dataclasses
import statistics
from typing import Iterable, Iterator, NamedTuple, Sequence

from ..common.command_line import counted, format_pid, was
from ..common.times import TICKS, format_time_code, subtract_pts, wrap_pts
from .packets import PCRStep, PTSPair, Packets
from .survey import Survey


SECOND = 90_000  # ticks
MAX_LISTED_PLACES = 20  # maximum number of places to list
PAUSE = 10  # the clock jumped if a PCR step has less than 1/10 of the usual number of TS packets


@dataclasses.dataclass
class LossPlace:
    """A place between two PES packets where packets are missing."""

    before: int | None  # PTS of the PES packet before the place
    after: int | None = None  # PTS of the PES packet after the place
    # Number of missing TS packets according to the continuity counters, which count modulo 16 and
    # show no loss at an announced jump
    lost: int = 0
    scrambled: int = 0  # number of TS packets that can't be read
    missing: int = 0  # duration of the loss in ticks, according to the PCR
    gap_marker: int | None = None  # number of the gap marker at this place, if any
    is_announced: bool = False


class ClockJump(NamedTuple):
    """A jump of the PCR after PTS `before`. `ticks` is negative if the PCR goes back."""

    before: int | None
    ticks: int


def find_loss_places(packets: Packets, announced: Iterable[PTSPair] = ()) -> list[LossPlace]:
    """Return the places with missing packets: those with a gap marker, losses that only the PCR and
    other PIDs show, and announced jumps of the continuity counter."""
    following: dict[int, int | None] = {}
    pts = None
    for run in reversed(packets.runs):
        pts = run.pts if run.pts is not None else pts
        following[run.first] = pts
    known = [LossPlace(mark.before, following[mark.number], mark.lost, mark.scrambled,
                       gap_marker=mark.number)
             for mark in packets.gap_markers]
    gaps = [*filter(None, map(find_pcr_loss, packets.pcr_steps))]
    for gap in gaps:
        for place in known:
            if do_overlap(gap, place) and is_within(gap.missing, place):
                place.missing = max(place.missing, gap.missing)
    known += [gap for gap in gaps if not any(do_overlap(gap, item) for item in known)]
    jumps = [LossPlace(before, after, is_announced=True) for before, after in announced]
    return known + [jump for jump in jumps if not any(do_overlap(jump, item) for item in known)]


def find_pcr_loss(pcr_step: PCRStep) -> LossPlace | None:
    """Return the loss that a late PCR shows, if the counters of other PIDs show a loss too."""
    if pcr_step.counters != "broken" or pcr_step.ticks <= 0:
        return None
    return LossPlace(pcr_step.before, pcr_step.after,
                     missing=pcr_step.ticks - round(pcr_step.usual))


def find_clock_jumps(packets: Packets) -> Iterator[ClockJump]:
    """Yield the jumps of the PCR at which no packet is missing."""
    for pcr_step in packets.pcr_steps:
        if pcr_step.counters == "whole" and pcr_step.packets * PAUSE * pcr_step.usual < \
                pcr_step.usual_packets * abs(pcr_step.ticks):
            yield ClockJump(pcr_step.before, pcr_step.ticks - round(pcr_step.usual))


def is_within(ticks: int, place: LossPlace) -> bool:
    """Return whether a loss of `ticks` fits between the two PTS of a place. A longer loss is a jump
    of the PCR."""
    return place.before is None or place.after is None or \
        ticks <= subtract_pts(place.before, place.after)


def do_overlap(place: LossPlace, other: LossPlace) -> bool:
    """Return whether two places overlap."""
    return not is_after(place, other) and not is_after(other, place)


def is_after(place: LossPlace, other: LossPlace) -> bool:
    return place.before is not None and other.after is not None and \
        subtract_pts(other.after, place.before) >= 0


def describe_loss(place: LossPlace) -> str:
    """Describe the missing packets at a place."""
    loss_texts = [f"{counted(place.lost, 'TS packet')} {was(place.lost)} lost"] \
        if place.lost and not place.missing else []
    evidence = f" ({counted(place.lost, 'TS packet')} according to the counter)" if place.lost \
        else " and the counters of other PIDs"
    loss_texts += [f"{place.missing / SECOND:.2f} s of TS packets are missing according to the "
                   f"PCR{evidence}"] \
        if place.missing else []
    loss_texts += [f"{counted(place.scrambled, 'TS packet')} {was(place.scrambled)} scrambled"] \
        if place.scrambled else []
    loss_texts += ["the interval between PES packets is unusually long, and the stream announces a "
                   "jump of the continuity counter"] if place.is_announced else []
    return ", ".join(loss_texts) or "a break in the stream"


def describe_loss_place(place: LossPlace, first: int | None) -> str:
    """Describe a loss: its PTS and its missing packets. `first` is the recording's first PTS."""
    known = [pts for pts in (place.before, place.after) if pts is not None]
    names = " and ".join(map(str, known))
    times = " and ".join(format_time_code(wrap_pts(pts - (first or 0)) // TICKS) for pts in known)
    position = "between" if len(known) == 2 else "before" if place.before is None else "after"
    return (f"{position} PTS {names} ({times} after the first PTS): " if known
            else "") + describe_loss(place)


def limit_lines(lines: Sequence[str]) -> list[str]:
    """Return the first `MAX_LISTED_PLACES` lines. If more exist, add a line with their number."""
    more = len(lines) - MAX_LISTED_PLACES
    return [*lines[:MAX_LISTED_PLACES],
            *([f"and at {counted(more, 'more place')}"] if more > 0 else [])]


def describe_gap_markers(packets: Packets) -> list[str]:
    """Return a line for each gap marker. If there are more than `MAX_LISTED_PLACES`, the last line
    has the number of omitted gap markers."""
    first = next(packets.pts(), None)
    lines = [describe_loss_place(place, first) for place in find_loss_places(packets)
             if place.gap_marker is not None]
    if len(lines) > MAX_LISTED_PLACES:
        omitted = len(lines) - MAX_LISTED_PLACES + 1
        lines[MAX_LISTED_PLACES - 1:] = [f"and at {counted(omitted, 'more place')}"]
    return lines


def explain_refusal(packets: Packets) -> str | None:
    """Return the reason why a PID has no Teletext or why reading stopped. Return `None` if all PES
    packets are Teletext."""
    name = format_pid(packets.pid)
    if not packets.refusal and packets.count:
        return None
    if not packets.refusal:
        if not packets.packets:
            return f"{name} has no packets"
        if packets.scrambled == packets.packets:
            return f"{name} is scrambled, in all its {counted(packets.packets, 'TS packet')}"
        return f"{name} has no complete PES packet in {counted(packets.packets, 'TS packet')}"
    packet_kind = "PES packets of private_stream_1" if packets.refusal == 31 else \
        "PES packets of 184 to 1656 bytes"
    if not packets.count:
        return f"{name} has no {packet_kind}, which carry Teletext"
    word = "Start" if packets.refusal == 31 else "Length"
    return f"{name} has data other than {packet_kind} from PES packet {packets.count} on: " \
        f"refused {packets.refusal} {word} pes {packets.count}"


# Anomalies of the distance between PTS and PCR, sampled once a second

MAX_LATE = 60  # number of samples, taken once a second, of which the largest distance is used
ANOMALY_TEXTS = {"behind": "are behind the PCR", "early": "are more than a second ahead of the PCR",
                 "changed": "moved relative to the PCR by more than half a second"}


class PTSAnomaly(NamedTuple):
    """An anomaly of the distance between PTS and PCR: its kind, its first PTS, the number of
    samples that show it, the number of all samples, and the largest deviation in ticks."""

    kind: str
    pts: int
    number: int
    total: int
    worst: int


def find_pts_anomalies(packets: Packets) -> Iterator[PTSAnomaly]:
    """Yield the anomalies of the PTS. The usual distance to the PCR is the median of the distances
    in the first minute."""
    samples = packets.samples
    first = [ticks_ahead for pts, ticks_ahead in samples
             if 0 <= subtract_pts(samples[0][0], pts) <= 60 * SECOND]
    usual = round(statistics.median(first)) if first else 0
    for kind, distances, anomalies in (
            ("behind", 0, [sample for sample in samples if sample[1] < 0]),
            ("early", 0, [sample for sample in samples if sample[1] > SECOND]),
            ("changed", usual, [sample for sample in samples
                                if abs(sample[1] - usual) > SECOND // 2])):
        if anomalies:
            worst = max((ticks_ahead - distances for _, ticks_ahead in anomalies), key=abs)
            yield PTSAnomaly(kind, anomalies[0][0], len(anomalies), len(samples), worst)


def find_pts_delay(packets: Packets) -> int:
    """Return the largest number of ticks by which a recent PTS is behind the PCR, or 0."""
    return max([0, *(-ticks_ahead for _, ticks_ahead in packets.samples[-MAX_LATE:])])


def find_recorded_range(survey: Survey, packets: Packets) -> tuple[int, int] | None:
    """Return the first and the last PTS between which the recording has all packets of the PID,
    judging by the PCR. Return `None` if there is no PCR."""
    clock = survey.get_pcr_range(packets.pid)
    if clock is None:
        return None
    ticks_ahead = max([0, *(item for _, item in packets.samples[:MAX_LATE])])
    return wrap_pts(clock[0] + ticks_ahead), clock[1] - find_pts_delay(packets)
