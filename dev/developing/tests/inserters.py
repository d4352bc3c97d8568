"""Make random programmes as simulated inserters send them, with at most one late subtitle."""
from __future__ import annotations

import random
from typing import Callable, NamedTuple, Optional, Sequence

from subtitles.common.times import TICKS
from subtitles.formats.stl import NEW_LINE
from .bench import Case
from .transmissions import CLOSING, HEADER, SentPes, schedule_pages, write_subtitle_file
from .test_judging_reasons import KEEPING_HEADER
from .test_correct_recordings import SHARES

FIRST_TCI = 900_000  # earliest frame number of the first TCI
BLANK_FRAMES = 80  # number of blank frames before the first and after the last subtitle
WORDS = "boats harbour light mother never often quiet river stairs storm turns under window".split()
Page = Optional[Sequence[bytes]]  # row packets, or `None` for a blank page


class Inserter(NamedTuple):
    """A simulated inserter.

    `begins` and `ends` contain possible delays of in-cues and out-cues in frames. A page is
    repeated after `every` frames. If `keeps` is true, the headers of repeated pages do not erase
    the page. `each` PES packets are sent per frame, except in frames that `is_left_out` selects.
    """

    name: str
    begins: Sequence[int] = (0,)
    ends: Sequence[int] = (0,)
    every: int = 25
    keeps: bool = False
    each: int = 1
    is_left_out: Callable[[random.Random], bool] = lambda chance: False

    @property
    def within(self) -> int:
        """Return the inserter's largest delay in frames."""
        return max(*self.begins, *self.ends, int(self.each > 1))


# All inserters. They send one PES packet in each frame, one in most frames, or two in each frame,
# and repeat pages with headers that either erase the page or keep it.
INSERTERS = [Inserter(name, begins, ends, 12 if keeps else 25, keeps, each, is_left_out)
             for name, (begins, ends) in SHARES.items() for keeps in (False, True)
             for each, is_left_out in (
                 (1, lambda chance: False), (1, lambda chance: chance.randrange(20) == 0),
                 (2, lambda chance: False))]


class LateSubtitle(NamedTuple):
    """The index of a subtitle, and by how many frames it is late."""

    place: int
    frames: int


class Programme:
    """A random programme, its subtitle file, and its transmission by an inserter."""

    def __init__(self, case: Case, number: int, inserter: Inserter, count: int = 0) -> None:
        self.case, self.inserter, self.number = case, inserter, number
        self.chance = random.Random(f"{number} {inserter.name}")
        self.times = self.choose_random_times(count or self.chance.randrange(10, 16))
        self.texts = [self.make_random_text_at(at) for at in range(len(self.times))]
        self.stl = write_subtitle_file(case, [(begin, end, text) for (begin, end), text in zip(
            self.times, self.texts)], f"{number}.stl", row=20)
        known = dict(schedule_pages(case, self.stl, every=1500))
        self.pages = [known[begin * TICKS][1:-1] for begin, _ in self.times]
        self.late: LateSubtitle | None = None

    def choose_random_times(self, count: int) -> list[tuple[int, int]]:
        frame, times = FIRST_TCI + self.chance.randrange(5000), list[tuple[int, int]]()
        for _ in range(count):
            end = frame + self.chance.randrange(30, 90)
            times.append((frame, end))
            frame = end + self.chance.choice((0, 0, 12, 30, 70, 130))
        return times

    def make_random_text_at(self, at: int) -> bytes:
        lines = [" ".join(self.chance.sample(WORDS, self.chance.randrange(1, 4)))
                 for _ in range(self.chance.choice((1, 1, 2)))]
        lines[0] = f"{at} {lines[0]}" if self.chance.randrange(10) else lines[0]
        return (NEW_LINE * 2).join(line.encode() for line in lines)

    def delay_random_subtitle(self) -> LateSubtitle:
        """Delay a subtitle by more frames than the inserter ever does, but not to its TCO."""
        least = self.inserter.within + 1
        longest = {place: min(end - begin - 2 - least, 25)
                   for place, (begin, end) in enumerate(self.times)}
        place = self.chance.choice([place for place, most in longest.items() if most >= least])
        self.late = LateSubtitle(place, self.chance.randrange(least, longest[place] + 1))
        return self.late

    def changes(self) -> dict[int, Page]:
        """Map the frame of each page change to the page on air from this frame on."""
        result, inserter = dict[int, Page](), self.inserter
        begins = [begin + self.chance.choice(inserter.begins) for begin, _ in self.times]
        ends = [end + self.chance.choice(inserter.ends) for _, end in self.times]
        if self.late:
            begins[self.late.place] = self.times[self.late.place][0] + self.late.frames
        for place, ((_, end), page) in enumerate(zip(self.times, self.pages)):
            following = self.times[place + 1][0] if place + 1 < len(self.times) else None
            limit = begins[place + 1] if following is not None else ends[place] + 1
            result[begins[place]] = page
            if end != following and ends[place] < limit:
                result[ends[place]] = None
        return result

    def sent(self) -> SentPes:
        """Return the transmission: pages, repeated pages, and PES packets without Teletext."""
        changes, inserter, chance = self.changes(), self.inserter, self.chance
        begin, end = self.times[0][0] - BLANK_FRAMES, max(max(changes),
                                                          self.times[-1][1]) + BLANK_FRAMES
        sent, page, repeated = SentPes(), None, begin
        for frame in range(begin, end):
            is_change = frame in changes
            page = changes.get(frame, page)
            packets = list[bytes]()
            if is_change or frame == repeated:
                keeps = inserter.keeps and not is_change
                packets = [KEEPING_HEADER if keeps else HEADER, *(page or ()), CLOSING]
                repeated = frame + inserter.every
            if packets or not inserter.is_left_out(chance):
                sent += [(frame * TICKS + TICKS // inserter.each * at, packets * (not at))
                         for at in range(inserter.each)]
        return sent
