"""Find the faults in a subtitle file, and the expected page of each frame."""
from __future__ import annotations

from typing import Iterator, NamedTuple

from .reading import FIRST_BLOCK_FAULTS, OutsideSubtitle, Record, StlFault, read_subtitles
from .rows import BLANK, TextFault, draw_page
from .told import format_refused
from .arguments import Options


class Subtitles(NamedTuple):
    """The faults in a subtitle file, and the records that can be checked.

    For each record, and for the end of the file, `has_preceding_fault` is true if a subtitle with a
    fault precedes it directly. `records` is `None` if the PES file is not read.
    """

    lines: list[str]
    records: list[Record] | None
    has_preceding_fault: list[bool]


def list_record_faults(record: Record, before: Record | None, options: Options) -> Iterator[str]:
    """Yield a line for each fault in the record of a subtitle."""
    if before and record.tci < before.tci:
        yield format_refused(56, f"block {record.block}")
    elif before and record.tci < before.tco:
        yield format_refused(57, f"block {record.block}")
    try:
        draw_page(record, options.option, options.layout)
    except TextFault as fault:
        yield format_refused(fault.number, f"block {record.block} at {fault.at}")


def is_order_fault(line: str) -> bool:
    return line.startswith(("refused 56 ", "refused 57 "))


def judge_subtitles(data: bytes, options: Options) -> Subtitles:
    """Return the faults in a subtitle file, and the records that can still be checked."""
    lines: list[str] = []
    groups: list[Record | None] = []  # requested subtitles, or `None` for a faulty subtitle
    faults: dict[int, list[str]] = {}  # fault lines of each record, by its index in `groups`
    before: Record | None = None
    result: list[Record | StlFault | OutsideSubtitle] = list(
        read_subtitles(data, options.is_open, options.from_frame, options.to_frame))
    for item in result:
        if isinstance(item, StlFault):
            lines.append(format_refused(item.number, f"block {item.block}"))
            groups.append(None)
        elif isinstance(item, Record):
            faults[len(groups)] = list(list_record_faults(item, before, options))
            lines += faults[len(groups)]
            groups.append(item)
            before = item
    places = list(faults)
    judged_positions = [place for place, after in zip(places, [*places[1:], None])
              if not faults[place] and not (after and any(map(is_order_fault, faults[after])))]
    records = [record for place in judged_positions if (record := groups[place])]
    has_fault_before = [second - first > 1 for first,
                        second in zip([-1, *judged_positions], [*judged_positions, len(groups)])]
    is_known = not any(isinstance(item, StlFault) and item.number not in FIRST_BLOCK_FAULTS
                       for item in result)
    are_in_order = all(item.tci >= earlier.tco for at, item in enumerate(records)
                       for earlier in records[:at])
    is_read = not lines or is_known and bool(records) and are_in_order
    return Subtitles(lines, records if is_read else None, has_fault_before)


class ExpectedPages:
    """The expected page of each frame, and the frames whose expected page is unknown."""

    def __init__(self, records: list[Record], has_fault_before: list[bool],
                 options: Options) -> None:
        self.has_preceding_fault = has_fault_before
        self.pages = [(one.tci, one.tco, draw_page(one, options.option, options.layout))
                      for one in records]

    def at(self, frame: int) -> bytes:
        return next((page for tci, tco, page in self.pages if tci <= frame < tco), BLANK)

    def is_undecided(self, frame: int) -> bool:
        """Return whether a faulty subtitle may be on air and no other page is expected."""
        count = sum(tci <= frame for tci, _, _ in self.pages)
        return self.has_preceding_fault[count] and not any(tci <= frame < tco for tci, tco,
                                                           _ in self.pages)

    def first(self) -> int | None:
        return self.pages[0][0] if self.pages else None

    def last(self) -> int | None:
        return self.pages[-1][1] if self.pages else None

    def list_starts(self, end: int) -> list[int]:
        """Return the first frame of each subtitle that ends at a frame."""
        return [tci for tci, tco, _ in self.pages if tco == end]
