"""Test that correct recordings are accepted even if their delays or intervals are unusual.

The recordings have eleven kinds of delays, sixteen kinds of intervals between PES packets, breaks,
several programmes, or repeats. `BOUNDS` limits how many recordings of each kind may be refused or
not judged. The tests judge every eighth recording of a kind; with --speed, they judge all.
"""
from __future__ import annotations

import collections
import itertools
import random
from functools import partial
from typing import Any, Callable, Iterator, NamedTuple, Sequence

from developing.pes import make_pes_packet
from subtitles.common.times import FRAMES_OF_A_DAY, TICKS, format_frame
from .bench import Case
from .judged import JudgedPair, judge_files
from .streams import (
    PTS_AHEAD, MPEG_2, PMT_PID, PRIVATE, TELETEXT_PID, VIDEO_PID, StreamMaker,
    make_program_association, program_map, make_teletext_descriptor)
from .transmissions import (
    CLOSING, HEADER, SentPes, join_pes_packets, write_programme, schedule_pages)
from .test_judging_pairs import WRONG, enlarge_pes_packets

# first TCI, interval between TCIs, and duration, in frames
FIRST_TCI, DISTANCE, DURATION = 900_000, 100, 60
SILENT_PID, OTHER_PID, LATER_PMT = 0x121, 0x111, 0x110
INSERTERS, ONE_A_FRAME, TWO_A_FRAME = "inserters", "one a frame", "two a frame"
BREAKS, PROGRAMMES, AIRINGS = "breaks", "programmes", "airings"
SAMPLE_STEP = 8  # the tests judge every eighth recording of a kind


class Bound(NamedTuple):
    """The number of recordings of a kind, and how many of them may be refused or not judged."""

    recordings: int
    refused: int
    not_judged: int


# Limits for each kind of recording. The refused recordings can't be distinguished from faulty
# recordings: see `IndistinguishableFaults`.
BOUNDS = {
    INSERTERS: Bound(66, 2, 12), ONE_A_FRAME: Bound(32, 6, 0),
    TWO_A_FRAME: Bound(32, 6, 0), BREAKS: Bound(9, 0, 5), PROGRAMMES: Bound(8, 0, 2),
    AIRINGS: Bound(11, 0, 0)}


EVERY = ("--every", "40", "--no-complete")


class Recording(NamedTuple):
    """A correct recording, with its kind, name, files, and arguments for qc."""

    kind: str
    name: str
    write_files: Callable[[Case], tuple[str, str]]
    args: Sequence[str] = EVERY

    def judge(self, case: Case) -> JudgedPair:
        return judge_files(case, *self.write_files(case), *self.args)


def list_even_times(count: int, is_adjoining: bool = False) -> list[tuple[int, int]]:
    lasts = DISTANCE if is_adjoining else DURATION
    return [(FIRST_TCI + DISTANCE * at, FIRST_TCI + DISTANCE * at + lasts) for at in range(count)]


# Inserters, by a short name from which random seeds are made: possible delays of in-cues and
# out-cues in frames, in proportion to how often they occur.
SHARES: dict[str, tuple[Sequence[int], Sequence[int]]] = {
    "const": ((0,), (0,)), "b1": ((1,), (0,)), "rows": ((1, 1, 2, 2, 3), (0,)),
    "u1": ((0, 1), (0, 1)), "u2": ((0, 1, 2), (0, 1, 2)),
    "tri": ((0, *(1,) * 3, 2), (0, *(1,) * 3, 2)),
    "skew": ((0, *(1,) * 5, *(2,) * 4), (0, *(1,) * 5, *(2,) * 4)),
    "rare": ((0, *(1,) * 19), (0, *(1,) * 19)),
    "tail": ((*(0,) * 45, *(1,) * 4, 2), (*(0,) * 45, *(1,) * 4, 2)), "bu": ((1, 2), (0,)),
    "u5": (range(6), range(6))}


def write_late_cues(case: Case, kind: str, count: int, is_adjoining: bool) -> tuple[str, str]:
    chance = random.Random(f"{kind} {count} {is_adjoining}")
    begins, ends = SHARES[kind]
    times = [(begin, begin + DISTANCE if is_adjoining and chance.randrange(2) else end)
             for begin, end in list_even_times(count)]
    delays = {end: chance.choice(ends) for _, end in times}
    delays |= {begin: chance.choice(begins) for begin, _ in times}
    stl = write_programme(case, times)
    known = {pts // TICKS + delays.get(pts // TICKS, 0): packets
             for pts, packets in schedule_pages(case, stl)}
    known |= {frame: [HEADER, CLOSING] for frame in (
        FIRST_TCI - 50, FIRST_TCI - 25, times[-1][1] + 25, times[-1][1] + 50)}
    return stl, case.write("late.pes", join_pes_packets([
        (frame * TICKS, known.get(frame, [])) for frame in range(min(known), max(known) + 1)]))


def list_inserters() -> Iterator[Recording]:
    """Yield six recordings of each inserter: of three lengths, and each with and without adjoining
    subtitles. They have no clock."""
    for kind, (begins, ends) in SHARES.items():
        within = max([1, *begins, *ends])
        for count, is_adjoining in itertools.product((12, 24, 80), (False, True)):
            yield Recording(INSERTERS, f"{kind} {count} {is_adjoining}", partial(
                write_late_cues, kind=kind, count=count, is_adjoining=is_adjoining),
                            ["--within", f"{within}", *EVERY])


def leave_out(one_in: int) -> Callable[[random.Random, int], int]:
    """Return a function for `PES_STEPS` that leaves out random frames, one in `one_in`."""
    return lambda chance, at: next(step for step in itertools.count(1) if chance.randrange(one_in))


# Functions that return, for each frame after the first TCI in which a PES packet is sent besides
# those of the pages, the number of frames to the next
PES_STEPS: dict[str, Callable[[random.Random, int], int]] = {
    "each": lambda chance, at: 1, "each third": lambda chance, at: 3,
    "alone": lambda chance, at: FRAMES_OF_A_DAY,
    "one silence": lambda chance, at: 13 if at == 499 else 1,
    "two silences": lambda chance, at: 13 if at in (499, 999) else 1,
    "three silences": lambda chance, at: 13 if at in (249, 499, 749) else 1,
    **{f"1 in {one_in} left out": leave_out(one_in) for one_in in (500, 200, 100, 20)},
    "geometric": lambda chance, at: 1 + (chance.randrange(2) and int(chance.expovariate(0.7))),
    "slow": lambda chance, at: 1 + int(chance.expovariate(0.15)),
    "normal": lambda chance, at: max(1, round(chance.gauss(3, 2))),
    "bursts": lambda chance, at: chance.choice((1, 1, 1, 8)),
    "wall clock": lambda chance, at: chance.choices((1, 2), (9, 1))[0],
    "next to filler": lambda chance, at: 2 if at % 6 == 4 else 1}


def make_paced_programme(case: Case, name: str, count: int, each: int) -> tuple[str, SentPes]:
    """Return a subtitle file and its transmission, with `each` PES packets in each frame that has a
    page or that `PES_STEPS[name]` selects."""
    chance, times = random.Random(f"{name} {count}"), list_even_times(count)
    stl = write_programme(case, times)
    known = dict(schedule_pages(case, stl))
    frame, frames = FIRST_TCI, {pts // TICKS for pts in known}
    while frame < times[-1][1]:
        frames.add(frame)
        frame += PES_STEPS[name](chance, frame - FIRST_TCI)
    return stl, [(frame * TICKS + TICKS // each * at,
                  known.get(frame * TICKS, []) if not at else [])
                 for frame in sorted(frames) for at in range(each)]


def write_paced_stream(case: Case, name: str, count: int, each: int) -> tuple[str, str]:
    """Write the stream of a `make_paced_programme`."""
    stl, sent = make_paced_programme(case, name, count, each)
    return stl, case.write("paced.ts", make_service_stream(sent))


def paces() -> Iterator[Recording]:
    for kind, each, args in ((ONE_A_FRAME, 1, EVERY),
                             (TWO_A_FRAME, 2, (*EVERY, "--within", "1"))):
        for name, count in itertools.product(PES_STEPS, (12, 30)):
            yield Recording(kind, f"{name} {count}", partial(
                write_paced_stream, name=name, count=count, each=each), args)


class Service(NamedTuple):
    """A programme in a stream: its number, and its announced pages (PID, type, page number)."""

    number: int
    pages: Sequence[tuple[int, int, int]]


def make_service_tables(services: Sequence[Service]) -> list[tuple[int, bytes]]:
    pids = [PMT_PID if not at else LATER_PMT + at for at in range(len(services))]
    result = [(0,
               make_program_association([(item.number, pid) for item, pid in zip(services, pids)]))]
    for item, pid in zip(services, pids):
        result.append((pid, program_map(item.number, [(VIDEO_PID, MPEG_2, b""), *(
            (own, PRIVATE, make_teletext_descriptor(kind=kind, page=page))
            for own, kind, page in item.pages)], VIDEO_PID)))
    return result


OWN_SERVICE = Service(1, [(TELETEXT_PID, 2, 0x88)])


def make_service_stream(sent: SentPes, services: Sequence[Service] = (OWN_SERVICE,),
                        last: Sequence[Service] = (), beside: Sequence[int] = ()) -> bytes:
    """Return a transport stream with a PCR before each PES packet.

    The programmes `services` are announced before the first PES packet, and `last`, if any, before
    the last. Each PID in `beside` carries PES packets without Teletext.
    """
    maker = StreamMaker([])
    for number, (pts, some) in enumerate(sent):
        if announced := {0: services, len(sent) - 1: last}.get(number):
            maker.tables = make_service_tables(announced)
            maker.put_tables()
        maker.put_pcr(pts - PTS_AHEAD)
        maker.put(TELETEXT_PID, make_pes_packet(pts, some))
        for pid in beside:
            maker.put(pid, make_pes_packet(pts, []))
    return maker.data


def write_services(case: Case, **more: Any) -> tuple[str, str]:
    """Write a programme, and its transport stream with these arguments of `make_service_stream`."""
    stl = write_programme(case, list_even_times(12))
    return stl, case.write("some.ts", make_service_stream(schedule_pages(case, stl), **more))


def list_services() -> Iterator[Recording]:
    """Yield recordings with several programmes, or with tables that change after the subtitles."""
    silent = Service(2, [(SILENT_PID, 2, 0x88)])
    other_page = Service(2, [(SILENT_PID, 2, 0x89)])
    twice = Service(1, [(TELETEXT_PID, 2, 0x88), (SILENT_PID, 5, 0x88)])
    same = Service(2, [(TELETEXT_PID, 2, 0x88)])
    moved = Service(1, [(OTHER_PID, 2, 0x88)])
    for name, services, last, beside in (
            ("alone", [OWN_SERVICE], [], []),
            ("another page", [OWN_SERVICE, other_page], [], [SILENT_PID]),
            ("silent service", [OWN_SERVICE, silent], [], [SILENT_PID]),
            ("silent service without packets", [OWN_SERVICE, silent], [], []),
            ("two announce one PID", [OWN_SERVICE, same], [], []),
            ("of two types", [twice], [], [SILENT_PID]),
            ("another PID behind", [OWN_SERVICE], [moved], []),
            ("not announced", [Service(1, [])], [], [])):
        yield Recording(PROGRAMMES, name, partial(write_services, services=services, last=last,
                                                  beside=beside))


def write_breaks(case: Case, lengths: Sequence[int]) -> tuple[str, str]:
    """Write a programme with breaks of these lengths in frames."""
    stl = write_programme(case, list_even_times(20 * (len(lengths) + 1)))
    sent = []
    for pts, packets in schedule_pages(case, stl):
        part = (pts // TICKS - FIRST_TCI) // (20 * DISTANCE)
        sent.append((pts + TICKS * sum(lengths[:part]), packets))
    return stl, case.write("breaks.pes", join_pes_packets(sent))


def breaks() -> Iterator[Recording]:
    for lengths in ((25,), (50,), (100,), (124,), (125,), (126,), (250,), (400, 50), (400, 150)):
        yield Recording(BREAKS, f"{lengths}", partial(write_breaks, lengths=lengths),
                        ["--breaks", f"{len(lengths)}", *EVERY])


def write_tail(case: Case, count: int) -> tuple[str, str]:
    """Write a programme and repeat `count` subtitles ten minutes later."""
    times = [(frame + at * at * 7, end + at * at * 7) for at, (frame, end) in
             enumerate(list_even_times(20))]
    stl = write_programme(case, times)
    sent = schedule_pages(case, stl)
    end = times[count - 1][1] * TICKS if count else -1
    later = [(pts + 15_000 * TICKS, packets) for pts, packets in sent if pts <= end]
    return stl, case.write("tail.pes", join_pes_packets([*sent, *later]))


def write_short_subtitles(case: Case, count: int, is_before: bool) -> tuple[str, str]:
    """Write a programme and many short subtitles of another programme.

    The short subtitles last six minutes. They precede the programme if `is_before` is true, and
    otherwise follow it.
    """
    quick = [(FIRST_TCI + 20 * at, FIRST_TCI + 20 * at + 15) for at in range(450)]
    others = schedule_pages(case,
                            write_programme(case, quick, text=b"Others %d", name="quick.stl"))
    stl = write_programme(case, list_even_times(count))
    by = TICKS * (10_000 if not is_before else -10_000)
    return stl, case.write("quick.pes", join_pes_packets(sorted([
        *schedule_pages(case, stl), *((pts + by, packets) for pts, packets in others)])))


def write_cut(case: Case, count: int) -> tuple[str, str]:
    """Write a programme with a break between adjoining subtitles.

    At the break, after `count` subtitles, the page is erased.
    """
    times = list_even_times(20, True)
    stl = write_programme(case, times)
    own = write_programme(case, times[:count], name="first.stl")
    rest = [(pts + 500 * TICKS, packets) for pts, packets in schedule_pages(case, stl)
            if pts >= times[count][0] * TICKS]
    return stl, case.write("cut.pes", join_pes_packets([*schedule_pages(case, own), *rest]))


def airings() -> Iterator[Recording]:
    """Yield recordings with repeated subtitles, another programme, or a break."""
    for count in (0, 3, 6):
        yield Recording(AIRINGS, f"tail {count}", partial(write_tail, count=count), EVERY[:2])
    for count, is_before in itertools.product((5, 8, 12), (False, True)):
        yield Recording(AIRINGS, f"quick {count} {is_before}",
                        partial(write_short_subtitles, count=count, is_before=is_before))
    for count in (8, 12):
        yield Recording(AIRINGS, f"cut {count}", partial(write_cut, count=count), [
            *EVERY, "--to", format_frame(FIRST_TCI + DISTANCE * count)])


def recordings() -> list[Recording]:
    return [*list_inserters(), *paces(), *breaks(), *list_services(), *airings()]


class CorrectRecordings(Case):
    def test_has_the_stated_number_of_recordings(self) -> None:
        counts = collections.Counter(item.kind for item in recordings())
        self.check("counts", counts, {kind: item.recordings for kind, item in BOUNDS.items()})

    def test_accepts_all_but_a_bounded_number_of_correct_recordings_of_each_kind(self) -> None:
        for kind, bound in BOUNDS.items():
            several = [item for item in recordings() if item.kind == kind]
            judged = {item.name: item.judge(self).timed_verdict
                      for item in several[::1 if self.bench.is_timed else SAMPLE_STEP]}
            words = [*judged.values()]
            refused = sum(word not in ("accepted", "not judged") for word in words)
            self.must(f"{kind}: accepted", "accepted" in words, judged)
            self.must(f"{kind}: refused", refused <= bound.refused, judged)
            self.must(f"{kind}: refused or not judged", refused + words.count("not judged")
                      <= bound.refused + bound.not_judged, judged)


class IndistinguishableFaults(Case):
    def test_a_stream_with_silence_equals_one_that_lost_pes_packets(self) -> None:
        for each, name in itertools.product(
                (1, 2), ("one silence", "two silences", "three silences")):
            _, sent = make_paced_programme(self, name, 12, each)
            self.check(f"{name}, {each} a frame",
                       make_stream_with_losses(sent, each) == make_service_stream(sent), True)

    def test_rare_cues_on_time_look_like_early_subtitles(self) -> None:
        # An inserter that sends one cue in twenty on time, and all others a frame late, is accepted
        # by the clock of those on time, and refused by the clock of the others.
        for inserter in list_inserters():
            if inserter.name in ("rare 80 False", "rare 80 True"):
                files = inserter.write_files(self)
                self.check(inserter.name, [
                    judge_files(self, *files, *inserter.args, "--origin", origin).timed_verdict
                    for origin in ("0", f"{TICKS}")], ["accepted", "refused"])


def make_stream_with_losses(sent: SentPes, each: int) -> bytes:
    """Return a stream with `each` PES packets in every frame that has lost all PES packets not in
    `sent`. They had a multiple of 16 TS packets, so that the continuity counters do not show it."""
    maker = StreamMaker([])
    maker.tables = make_service_tables((OWN_SERVICE,))
    for number, (pts, some) in enumerate(sent):
        before = len(maker.packets)
        missing = (pts - sent[number - 1][0]) * each // TICKS - 1 if number else 0
        for at in range(missing, 0, -1):
            size = 1 + -missing % 16 if at == 1 else 1  # in TS packets
            maker.put(TELETEXT_PID, enlarge_pes_packets(make_pes_packet(
                pts - TICKS // each * at, WRONG * (at == 1)), size))
        del maker.packets[before:]
        if not number:
            maker.put_tables()
        maker.put_pcr(pts - PTS_AHEAD)
        maker.put(TELETEXT_PID, make_pes_packet(pts, some))
    return maker.data
