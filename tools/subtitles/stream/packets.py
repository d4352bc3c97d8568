"""The PES packets of a Teletext PID, and announced jumps of its continuity counter."""
from __future__ import annotations

import array
import dataclasses
import functools
import itertools
from typing import Collection, Iterable, Iterator, NamedTuple, Sequence

from ..common.times import CLOCK, TICKS, count_until, subtract_pts, wrap_pts


PES = 0  # used as the PID of a PES file
HEADER, ERASE, CLOSED, OPEN, BLANK, STRAY = "h", "e", "c", "o", "b", "s"
Range = tuple[int, int]  # the numbers of the first and the last PES packet
NO_RANGE: Range = (0, -1)
PTSPair = tuple[int, int]  # the PTS of two PES packets
Texts = tuple[tuple[int, bytes], ...]  # rows, each with its number


class PacketRun(NamedTuple):
    """Consecutive PES packets with the same contents and a constant step of the PTS."""

    first: int
    length: int
    pts: int | None
    step: int
    flags: str  # letters such as `HEADER`: events in each PES packet, then the page's state
    control: str  # eight four-bit values of each page header, in hexadecimal
    units: int = 0  # number of Teletext packets
    fault: int = 0  # number of the fault for which `packets` refuses the PES packets, else 0

    def pts_of(self, number: int) -> int | None:
        return None if self.pts is None else wrap_pts(self.pts + self.step * (number - self.first))

    def list_pts(self) -> Sequence[int]:
        """Return the PTS of the PES packets, or an empty list if the PES packets have no PTS."""
        if self.pts is None or self.length == 1:  # most runs have one PES packet
            return [] if self.pts is None else [self.pts]
        end = self.pts + self.step * self.length
        if self.step > 0 and end <= CLOCK:  # most runs
            return range(self.pts, end, self.step)
        return [wrap_pts(self.pts + self.step * at) for at in range(self.length)]

    def part(self, first: int, length: int) -> PacketRun:
        """Return `length` PES packets of this run, starting with number `first`."""
        return self if length == self.length else self._replace(
            first=first, length=length, pts=self.pts_of(first))

    @property
    def end(self) -> int:
        return self.first + self.length

    @property
    def last(self) -> int | None:
        """Return the PTS of the last PES packet."""
        return self.pts_of(self.end - 1)


@functools.lru_cache(maxsize=1 << 10)
def parse_headers(control: str) -> tuple[bytes, ...]:
    """Parse page headers in hexadecimal. Return the eight four-bit values of each."""
    return tuple(bytes(int(digit, 16) for digit in item) for item in control.split("+") if item)


class PageChange(NamedTuple):
    """A PES packet that changes the page's text: its PTS, the page's new characters, the number of
    the PES packet, and the rows that are not blank."""

    pts: int
    letters: bytes
    number: int
    rows: Texts = ()


class GapMarker(NamedTuple):
    """A gap marker: its number, the PTS before it, and the lost and scrambled TS packets."""

    number: int
    before: int | None
    lost: int
    scrambled: int


class PCRStep(NamedTuple):
    """An unusual step from one PCR to the next, between the Teletext PTS `before` and `after`."""

    before: int | None
    after: int | None
    ticks: int  # duration of the step
    packets: int  # number of TS packets
    usual: int  # usual duration
    usual_packets: int  # usual number of TS packets in a step
    counters: str  # `broken` if the continuity counters of other PIDs show a loss, else `whole`


@dataclasses.dataclass
class Packets:
    """The PES packets and gap markers of a Teletext PID, and the contents of the page.
    `decoded_rows` are the page's rows after each change of a cell. `stray_rows` are rows that were
    received outside a transmission of the page. Each entry begins with the number of the PES
    packet. `changes` are the changes of the page's text."""

    pid: int
    runs: list[PacketRun] = dataclasses.field(default_factory=list)
    decoded_rows: list[tuple[int, Texts]] = dataclasses.field(default_factory=list)
    stray_rows: list[tuple[int, Texts]] = dataclasses.field(default_factory=list)
    changes: list[PageChange] = dataclasses.field(default_factory=list)
    gap_markers: list[GapMarker] = dataclasses.field(default_factory=list)
    pcr_steps: list[PCRStep] = dataclasses.field(default_factory=list)
    # PTS, and the ticks by which it is ahead of the PCR.
    samples: list[tuple[int, int]] = dataclasses.field(default_factory=list)
    character_sets: list[tuple[int, int, int | None,
                               int | None]] = dataclasses.field(default_factory=list)
    # Number of headers of each subtitle page.
    header_counts: dict[str, int] = dataclasses.field(default_factory=dict)
    # Numbers of the PES packets at announced jumps of the counter.
    counter_jumps: list[int] = dataclasses.field(default_factory=list)
    damage: str | None = None  # reason why the rest of a PES file can't be read
    damage_faults: Collection[int] = ()  # faults with which `packets` may end there
    refusal: int = 0  # 31 (Start) or 32 (Length) if the next PES packet is not Teletext
    packets: int = 0  # number of TS packets of the PID
    scrambled: int = 0  # number of scrambled TS packets
    is_cut: bool = False
    last_pts: int | None = None  # the last PTS, even if its PES packet is cut off

    @property
    def count(self) -> int:
        """Return the number of PES packets and gap markers."""
        return self.runs[-1].end if self.runs else 0

    @property
    def has_page(self) -> bool:
        return any(HEADER in run.flags for run in self.runs)

    def list_runs_between(self, first: int, last: int) -> list[PacketRun]:
        """Return the runs of the PES packets from number `first` to `last`."""
        begin = count_until(self.runs, lambda run: run.end > first)
        runs = self.runs[begin:count_until(self.runs, lambda run: run.first > last)]
        if not runs or first > last:
            return []
        if runs[0].first < first:
            runs[0] = runs[0].part(first, runs[0].end - first)
        if runs[-1].end > last + 1:
            runs[-1] = runs[-1].part(runs[-1].first, last + 1 - runs[-1].first)
        return runs

    def get_pts(self, number: int) -> int | None:
        """Return the PTS of a PES packet, if it has one."""
        return next((run.pts for run in self.list_runs_between(number, number)), None)

    def __iter__(self) -> Iterator[tuple[int, int | None, str]]:
        """Yield the number, the PTS and the flags of each PES packet."""
        for run in self.runs:
            for number in range(run.first, run.end):
                yield number, run.pts_of(number), run.flags

    def pts(self, inside: Range | None = None, flags: str = "") -> Iterator[int]:
        """Return the PTS of the PES packets in the range `inside` that have all `flags`."""
        runs = self.list_runs_between(*inside) if inside else self.runs
        return itertools.chain.from_iterable(run.list_pts() for run in runs if flags in run.flags)

    def list_runs_with_pts(self) -> Iterator[PacketRun]:
        return (run for run in self.runs if run.pts is not None)

    def split_time_bases(self) -> list[range]:
        """Return the ranges of PES packets with one time base. A new range begins where two PTS in
        a row are less than the two PTS before them."""
        known = [(number, pts) for run in self.list_runs_with_pts() for number in end_numbers(run)
                 if (pts := run.pts_of(number)) is not None]
        begins = [0] + [known[at][0] for at in range(2, len(known) - 1) if all(
            subtract_pts(new, old) > 0 for _, old in known[at - 2:at]
            for _, new in known[at:at + 2])]
        return [range(*pair) for pair in zip(begins, [*begins[1:], self.count])]


def end_numbers(run: PacketRun) -> Iterable[int]:
    """Return the numbers of the first two and the last two PES packets of a run. If the run is
    short or its PTS decrease, return all numbers."""
    numbers = range(run.first, run.end)
    return numbers if run.length < 5 or run.step < 0 else [*numbers[:2], *numbers[-2:]]


# Alternating sub-pages, which a receiver shows in turn

# sub-pages alternate if at least this many changes return to an earlier sub-page
MIN_SUBCODE_CHANGES = 4


def read_subcode(header: bytes) -> str:
    """Return the sub-code in a header's eight four-bit values, S4 first (EN 300 706, 9.3.1.2)."""
    return f"{header[5] & 3:X}{header[4]:X}{header[3] & 7:X}{header[2]:X}"


def find_alternating_subcodes(packets: Packets, inside: Range | None = None) -> list[str]:
    """Return the page's sub-codes in ascending order, or an empty list unless they alternate."""
    subcodes, last, return_count = set[str](), "", 0
    for run in packets.list_runs_between(*inside) if inside else packets.runs:
        codes = [*map(read_subcode, parse_headers(run.control))]
        for code in codes * min(run.length, MIN_SUBCODE_CHANGES):
            return_count += code != last and code in subcodes
            subcodes.add(code)
            last = code
    return sorted(subcodes) if return_count >= MIN_SUBCODE_CHANGES else []


def describe_subpages(subcodes: Sequence[str], page: str) -> str:
    """Return a note that sub-pages of a page alternate."""
    return f"sub-pages of {page} alternate, with the sub-codes {', '.join(subcodes[:-1])} and " \
        f"{subcodes[-1]}"


# Announced jumps of the continuity counter (ISO/IEC 13818-1, discontinuity_indicator)

def find_announced_jumps(packets: Packets, inside: Range, usual: int) -> list[PTSPair]:
    """Return the PTS before and after each announced jump of the counter, if they are more than
    `usual` frames apart. Use only the PES packets `inside`."""
    if not packets.counter_jumps:
        return []
    pts = array.array("q", packets.pts(inside))
    previous_pts = {after: before for before, after in zip(pts, itertools.islice(pts, 1, None))
                    if subtract_pts(before, after) > usual * TICKS}
    jumps = (packets.get_pts(number) for number in packets.counter_jumps
             if inside[0] <= number <= inside[1])
    return [(previous_pts[jump], jump) for jump in dict.fromkeys(jumps) if jump in previous_pts]
