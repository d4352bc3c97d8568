"""Track the PCRs of a PID, PCR jumps and continuity counter breaks."""
from __future__ import annotations

from typing import Callable, NamedTuple

from subtitles.common.times import subtract_pts, wrap_pts
from .packets import Packet

SECOND, TENTH_TICKS = 90_000, 9_000  # ticks
# Number of intervals for the median, and minimum number of intervals to detect a late PCR.
MEDIANS, FEWEST = 100, 5
MAX_BREAKS = 256
NEAR = 256  # a PCR that is fewer than 256 TS packets before a position is near it
PrintLine = Callable[[str], None]


def number(value: int | None) -> str:
    """Format a number for output, with `-` for `None`."""
    return "-" if value is None else str(value)


class Seconds:
    """Selects the times to print: one in each second, and each time that jumps back."""

    def __init__(self) -> None:
        self.last: int | None = None

    def is_next(self, time: int) -> bool:
        is_next = self.last is None or wrap_pts(time - self.last) >= SECOND
        self.last = time if is_next else self.last
        return is_next


class Jump(NamedTuple):
    """An irregular PCR: the fields of its output line, and the positions of the last two PCRs."""

    fields: str
    first: int
    last: int


class Clock:
    """Compares each PCR of a PID with the previous one."""

    def __init__(self, pid: int, line_printer: PrintLine) -> None:
        self.pid, self.print_line = pid, line_printer
        self.seconds = Seconds()
        self.last: int | None = None
        self.place = 0
        # Whether the next PCR is compared. It is not compared after an announced jump.
        self.is_compared = False
        self.distances: list[tuple[int, int]] = []

    def take(self, pcr: int, place: int) -> Jump | None:
        """Process a PCR. Return an irregular PCR as a `Jump`, else `None`."""
        jump = None
        if self.last is not None and self.is_compared:
            jump = self.jump(subtract_pts(self.last, pcr), place)
        self.last, self.place, self.is_compared = pcr, place, True
        if self.seconds.is_next(pcr):
            self.print_line(f"pcr {self.pid} {pcr}")
        return jump

    def usual(self) -> tuple[int, int]:
        """Return the median interval between PCRs, in ticks and in TS packets."""
        ticks, packets = (sorted(some)[len(some) // 2]
                          for some in zip(*self.distances or [(0, 0)]))
        return ticks, packets

    def is_near_jump(self, place: int) -> bool:
        """Return whether the last PCR comes shortly before a TS packet."""
        return self.last is not None and place - self.place < max(NEAR, 4 * self.usual()[1])

    def jump(self, ticks: int, place: int) -> Jump | None:
        """Compare a PCR with the previous PCR. Return a `Jump` if the PCR is irregular."""
        packets, (usual, usual_packets) = place - self.place, self.usual()
        is_late = len(self.distances) >= FEWEST and ticks > max(TENTH_TICKS, 3 * usual)
        if ticks < 0 or is_late:
            return Jump(f"{ticks} {packets} {usual} {usual_packets}", self.place, place)
        self.distances = (self.distances + [(ticks, packets)])[-MEDIANS:]
        return None


class Counters:
    """The continuity counters of all PIDs, and the positions of TS packets with a payload."""

    def __init__(self) -> None:
        self.first: dict[int, int] = {}
        self.last: dict[int, tuple[int, int]] = {}  # last counter and its position, by PID
        self.announced: set[int] = set()
        # For each break, the PID and the positions of the TS packets before and after it.
        self.breaks: list[tuple[int, int, int]] = []

    def take(self, packet: Packet, place: int) -> None:
        pid = packet.pid
        if packet.is_discontinuity:
            self.announced.add(pid)
        if packet.has_error or not packet.has_payload:
            return
        counter, before = self.last.get(pid, (packet.counter, place))
        is_break = packet.counter not in (counter, (counter + 1) % 16)
        if is_break and pid not in self.announced:
            self.breaks = (self.breaks + [(pid, before, place)])[-MAX_BREAKS:]
        self.first.setdefault(pid, place)
        self.last[pid] = packet.counter, place
        self.announced.discard(pid)

    def word(self, jump: Jump, pid: int) -> str:
        """Return the word that describes the counters of other PIDs near a jump.

        It is `broken` after a discontinuity, `whole` without any, and `unknown` without counters.
        """
        if any(other != pid and first < jump.last and last > jump.first
               for other, first, last in self.breaks):
            return "broken"
        return "whole" if any(other != pid and first <= jump.first < self.last[other][1]
                              for other, first in self.first.items()) else "unknown"
