"""Compare the cues of subtitles with the changes of the transmitted page.

A cue is a frame at which the expected page changes. The origin is the PTS of the subtitle file's
00:00:00:00. Given an origin, a cue matches a page change in the same frame. With --within N it
matches only a change to the expected text, up to N frames later.
"""
from __future__ import annotations

import bisect
import collections
import copy
import functools
import heapq
import itertools
import math
import operator
import statistics
from typing import Hashable, Iterable, Iterator, Mapping, NamedTuple, Sequence

from ..common.command_line import Lateness
from ..common.times import EARLY_TICKS, TICKS, wrap_pts
from ..stream.packets import HEADER, Packets, PageChange, Range, Texts

VOTES = 1_000_000  # maximum number of pairs of a cue and a page change to compare
MAX_REPEATED_TEXTS = 20  # texts that occur in more cues than this are not compared
MAX_TRIED_ORIGINS = 64  # maximum number of origins to compare with all cues
MAX_CUE_OFFSET = 50  # maximum difference between the delays of in-cues and out-cues, in frames
MAX_BASES = 32  # maximum number of time bases to search
MAX_ERASED_FRAMES = 5  # maximum number of frames without a text that are not treated as an erasure


class ExpectedSubtitle(NamedTuple):
    """A subtitle that is shown from frame `begin` and erased at frame `end`. `look` has its text,
    row and justification, and `letters` only its characters."""

    begin: int
    end: int
    look: Hashable
    letters: bytes


class ExpectedCue(NamedTuple):
    """A cue: its frame, the new characters of the expected page, and whether it is an in-cue."""

    frame: int
    letters: bytes
    is_begin: bool


class OriginFit(NamedTuple):
    """An origin and the number of cues that match."""

    origin: int
    matches: int  # number of cues that match a page change
    content_matches: int  # number of cues that match a change to the expected page
    text_matches: int  # number of content matches whose page has text
    exact_matches: int  # number of matches at the start of a frame
    total: int  # number of cues during the recording
    first_text: int | None  # frame of the first text match
    first_unmatched: int | None  # frame of the first cue without a match
    start: int  # frame of the first PTS
    delays: Sequence[int] = ()  # delay of each match, if --within N is given

    def score(self, counts_erasures: bool = True) -> int:
        """Return the number of matches. Count a change to the expected page as two matches. If
        `counts_erasures` is false, do so only if the page has text."""
        return self.matches + (self.content_matches if counts_erasures else self.text_matches)


class CueOffset(NamedTuple):
    """A constant delay, in frames, of in-cues relative to out-cues (if `is_begin` is true) or of
    out-cues relative to in-cues. `matches` of `total` cues have this delay."""

    is_begin: bool
    delay: int
    matches: int
    total: int


class MatchedChange(NamedTuple):
    """A page change: its delay in frames after a cue, the characters of the new page, and the ticks
    from the start of its frame to its PTS."""

    delay: int
    letters: bytes
    ticks: int


def find_expected_cues(subtitles: Sequence[ExpectedSubtitle]) -> list[ExpectedCue]:
    """Return the cues of subtitles: the frames at which the expected page changes."""
    text_by_frame: dict[int, ExpectedSubtitle | None] = {expected_subtitle.end: None
                                                         for expected_subtitle in subtitles}
    text_by_frame.update((expected_subtitle.begin, expected_subtitle)
                         for expected_subtitle in subtitles)
    cues: list[ExpectedCue] = []
    before: ExpectedSubtitle | None = None
    for frame, now in sorted(text_by_frame.items(), key=lambda item: item[0]):
        if (now and now[2:]) != (before and before[2:]):
            cues.append(ExpectedCue(frame, now.letters if now else b"", now is not None))
            before = now
    return cues


class TimeBase:
    """A part of a recording in which PTS increase. `changes` has the page changes in this part, by
    the number of frames since the first header."""

    def __init__(self, cues: Sequence[ExpectedCue], changes: Sequence[PageChange], first: int,
                 last: int, packets: Range, within: int) -> None:
        self.cues, self.within, self.packets = cues, within, packets
        self.frames = [cue.frame for cue in cues]
        self.first, self.pts_range = first, (first, last)
        if within:
            offsets = [(wrap_pts(change.pts - first) + TICKS // 2) % TICKS - TICKS // 2
                       for change in changes]
            near_offsets = sorted(ticks for ticks in offsets if abs(ticks) < EARLY_TICKS)
            self.first = wrap_pts(first + (near_offsets[len(near_offsets) // 2] if near_offsets
                                           else 0))
            changes = list(self.changes_by_frame(changes))
        erased_frames = min([MAX_ERASED_FRAMES] + [
            third.frame - second.frame - 1 for cue, second, third in zip(cues, cues[1:], cues[2:])
            if cue.letters == third.letters and not second.letters])
        self.changes: dict[int, MatchedChange] = {}
        for change in skip_repeats(changes, erased_frames):
            frames, ticks = self.split_distance(change.pts)
            self.changes[frames] = MatchedChange(0, change.letters, ticks)
        self.length = self.split_distance(last)[0]

    def changes_by_frame(self, changes: Sequence[PageChange]) -> Iterator[PageChange]:
        """Yield the last change in each frame, unless it leaves the page as it was before."""
        before: Texts | None = None
        for change in {self.split_distance(item.pts)[0]: item for item in changes}.values():
            if change.rows != before or not change.letters:
                yield change
            before = change.rows

    def split_distance(self, pts: int) -> tuple[int, int]:
        """Return the number of whole frames since the first PTS, and the remaining ticks."""
        early = EARLY_TICKS if self.within else TICKS // 2
        frames, ticks = divmod(wrap_pts(pts - self.first + early), TICKS)
        return frames, ticks - early

    def copy_between(self, cues: Sequence[ExpectedCue], low: int, high: int) -> TimeBase:
        """Return a copy with the given cues and the page changes between `low` and `high`."""
        base = copy.copy(self)
        base.__dict__.pop("fits", None)
        base.cues, base.frames = cues, [cue.frame for cue in cues]
        base.changes = {at: change for at, change in self.changes.items() if low < at < high}
        return base

    def find_match(self, cue: ExpectedCue, start: int) -> MatchedChange | None:
        """Return the page change that matches a cue if the first PTS is at frame `start`."""
        if not self.within:
            return self.changes.get(cue.frame - start)
        for delay in range(self.within + 1):
            change = self.changes.get(cue.frame - start + delay)
            if change and change.letters == cue.letters:
                return change._replace(delay=delay)
        return None

    @functools.cached_property
    def fits(self) -> list[OriginFit]:
        """Return the most likely origins, ordered by score and then by number of text matches. If
        several origins share the best score, the one with the earliest text match comes first."""
        if not self.cues or not self.changes:
            return []
        votes = self.votes()
        for start, count in self.count_equal_texts().items():
            votes[start] += 2 * count
        if self.within:
            exact_votes = dict(votes)
            votes = collections.Counter({
                start: sum(exact_votes.get(start - delay, 0) for delay in range(self.within + 1))
                for start in exact_votes})
        best = heapq.nlargest(MAX_TRIED_ORIGINS + 4 * self.within, votes,
                              key=lambda start: (votes[start], -start))
        # Also try the origins of the first and the last cue: all subtitles may have the same text.
        starts = {*best, self.cues[0].frame, self.cues[-1].frame - max(self.changes)}
        fits = [fit for fit in map(self.fit, starts) if fit.matches]
        first = min(fits, default=None, key=lambda fit: (
            -fit.score(), -fit.text_matches, fit.first_text or 0, fit.start))
        return sorted(fits, key=lambda fit: (
            fit is not first, -fit.score(), -fit.text_matches, fit.start))

    def votes(self) -> collections.Counter[int]:
        """Return, for each start frame, the number of cues that match a page change. If there are
        too many combinations, use only every n-th page change."""
        places = sorted(self.changes)
        sampled_places = places[::len(places) * len(self.cues) // VOTES + 1]
        return collections.Counter(itertools.starmap(operator.sub, itertools.product(
            self.frames, sampled_places)))

    def count_equal_texts(self) -> collections.Counter[int]:
        """Return, for each start frame, the number of cues that match a change to their text."""
        frames = collections.defaultdict(list)
        for cue in self.cues:
            frames[cue.letters].append(cue.frame)
        return collections.Counter(
            frame - at for at, (_, letters, _) in self.changes.items()
            if letters and len(frames[letters]) <= MAX_REPEATED_TEXTS for frame in frames[letters])

    def has_text_at(self, cue: ExpectedCue, start: int) -> bool:
        """Return whether the characters of a cue are received in the frame of the cue if the first
        PTS is at frame `start`."""
        change = self.changes.get(cue.frame - start)
        return change is not None and change.letters == cue.letters

    def fit(self, start: int) -> OriginFit:
        """Compare the cues with the page changes, with a later origin if all cues are late."""
        fit = self.compare(start)
        least = min(fit.delays, default=0)
        return self.fit(start - least) if least else fit

    def compare(self, start: int) -> OriginFit:
        """Compare the cues with the page changes if the first PTS is at frame `start`."""
        inside = self.cues[bisect.bisect_left(self.frames, start):
                           bisect.bisect_right(self.frames, start + self.length)]
        pairs = [(cue, change) for cue in inside if (change := self.find_match(cue, start))]
        delays = [change.delay for _, change in pairs] if self.within else []
        equal_cues = [cue for cue, change in pairs if change.letters == cue.letters]
        ticks = sorted([change.ticks for _, change in pairs])
        rest = ticks[len(ticks) // 2] if ticks and not self.within else 0
        matches = {cue.frame for cue, _ in pairs}
        unmatched_frames = (cue.frame for cue in inside if cue.frame not in matches)
        return OriginFit(wrap_pts(self.first + rest - TICKS * start), len(pairs), len(equal_cues),
                         sum(cue.letters != b"" for cue in equal_cues),
                         len(ticks) if self.within else ticks.count(rest), len(inside),
                         next((cue.frame for cue in equal_cues if cue.letters), None),
                         next(unmatched_frames, None) if len(pairs) < len(inside) else None,
                         start, delays)

    def find_cue_offset(self, fit: OriginFit) -> CueOffset | None:
        """Return the constant difference between the delays of in-cues and out-cues, if any."""
        for is_begin in (True, False):
            before_offset = self.count_delayed(fit, is_begin, 0)
            if before_offset.total and before_offset.matches * 2 >= before_offset.total:
                continue
            best = max((self.count_delayed(fit, is_begin, delay)
                        for delay in range(-MAX_CUE_OFFSET, MAX_CUE_OFFSET + 1)),
                       key=lambda cue_offset: (cue_offset.matches, -abs(cue_offset.delay)))
            # A single erasure is no evidence: it may belong to another subtitle.
            least = 1 if is_begin or fit.text_matches else 2
            if abs(best.delay) > self.within and best.matches >= least and \
                    best.matches * 10 >= best.total * 9:
                return best
        return None

    def count_delayed(self, fit: OriginFit, is_begin: bool, delay: int) -> CueOffset:
        """Count the in-cues or (if `is_begin` is false) out-cues that are `delay` frames late."""
        expected_texts = [(at, cue.letters) for cue in self.cues if cue.is_begin == is_begin
                          and 0 <= (at := cue.frame - fit.start + delay) <= self.length]
        matches = sum(at in self.changes and self.changes[at].letters == letters
                      for at, letters in expected_texts)
        return CueOffset(is_begin, delay, matches, len(expected_texts))

    def align_to_in_cues(self, fit: OriginFit) -> OriginFit:
        """Return the origin of the in-cues if it differs from that of the out-cues. Otherwise
        return `fit`."""
        cue_offset = self.find_cue_offset(fit)
        return self.fit(fit.start - cue_offset.delay) if cue_offset and cue_offset.is_begin else fit


def skip_repeats(changes: Sequence[PageChange], most: int) -> Iterator[PageChange]:
    """Yield the page changes. If a text is erased and sent again within `most` frames, skip the
    erasure and the repeat."""
    at = 0
    while at < len(changes):
        yield changes[at]
        previous_place: int | None = at
        while previous_place is not None:
            at, previous_place = previous_place, find_repeat(changes, previous_place, most)
        at += 1


def find_repeat(changes: Sequence[PageChange], at: int, most: int) -> int | None:
    """Return the index of the change that shows the text of `changes[at]` again within `most`
    frames after this text was erased."""
    text, after = changes[at], changes[at + 1:at + 26]
    if not text.letters or not after or after[0].letters:
        return None
    following = itertools.takewhile(
        lambda change: wrap_pts(change.pts - after[0].pts) <= TICKS * most, after)
    return next((at + distance for distance, change in enumerate(following, 1) if change.rows ==
                 text.rows),
                None)


def find_time_bases(subtitles: Sequence[ExpectedSubtitle], packets: Packets, within: int,
                    inside: Range | None = None) -> list[TimeBase]:
    """Return the time bases in which the page changes; use only the PES packets in `inside`."""
    cues, bases = find_expected_cues(subtitles), []
    run_starts = [run.first for run in packets.runs]
    for base, changes in select_time_bases(packets, inside or (0, packets.count - 1)):
        first, end = (bisect.bisect_left(run_starts, at) for at in (base.start, base.stop))
        runs = [run for run in packets.runs[first:end] if run.pts is not None
                and HEADER in run.flags]
        if runs and runs[0].pts is not None and runs[-1].last is not None:
            bases.append(TimeBase(cues, changes, runs[0].pts, runs[-1].last,
                                  (base.start, base.stop - 1), within))
    return bases


def select_time_bases(packets: Packets, inside: Range) -> list[tuple[range, Sequence[PageChange]]]:
    """Return the ranges of PES packets between backward jumps of the PTS, with their page changes.
    Return only the `MAX_BASES` ranges with the most page changes."""
    numbers = [change.number for change in packets.changes]
    candidates = []
    for base_numbers in packets.split_time_bases():
        base = range(max(base_numbers.start, inside[0]), min(base_numbers.stop, inside[1] + 1))
        first, end = (bisect.bisect_left(numbers, at) for at in (base.start, base.stop))
        if first < end:
            candidates.append((base, packets.changes[first:end]))
    most = heapq.nlargest(MAX_BASES, candidates, key=lambda candidate: len(candidate[1]))
    selected = {base for base, _ in most}
    return [candidate for candidate in candidates if candidate[0] in selected]


# Estimating the clock from the delays of cues
#
# With --within N the estimated clock must not depend on a few early subtitles, nor on an inserter
# that delays most subtitles. So the clock is set to the shortest usual delay of in-cues or
# out-cues, unless --late gives the delays. Out-cues are often the earliest, because an erasure
# takes no time to send. If a few cues are early by that clock, they are reported as early. If many
# cues are early, the inserter may delay all others, and the operator must give the clock.

COMMON = 2  # a delay is usual if it occurs at least half as often as the most common delay
MIN_EQUAL_DELAYS = 3  # a usual delay occurs at least 3 times, or as often as the most common delay
OUT_CUE_SHARE = 10  # out-cues are ignored if they make up less than 1/10 of all cues
RARE_SHARE = 20  # the operator must give the clock if at least 1/20 of the cues are early
UNSEEN_SHARE = 0.002  # minimum probability of a delay, and probability of a cue without a match


class EarlyCues(NamedTuple):
    """The number of early cues, the total number of matching cues, and the maximum number of frames
    by which a cue is early."""

    early_count: int
    total: int
    frames: int

    @property
    def is_common_delay(self) -> bool:
        """Return whether so many cues are early that the other cues may in fact be late."""
        return self.early_count * RARE_SHARE >= self.total


def choose_clock(base: TimeBase, fit: OriginFit,
                 lateness: Lateness | None) -> tuple[OriginFit, EarlyCues | None]:
    """Correct the estimated clock `fit` by the usual delay, or by `lateness` (the option --late).
    Without `lateness`, also return the number of early cues, if any."""
    if not base.within or not fit.matches:
        return fit, None
    if lateness:
        return find_likeliest_clock(base, fit, lateness), None
    begins, ends = count_delays(base, fit)
    first = find_usual_delay(begins, ends)
    if not first:
        return fit, None
    both_delays = begins + ends
    before = {delay: count for delay, count in both_delays.items() if delay < first}
    return base.fit(fit.start - first), EarlyCues(
        sum(before.values()), sum(both_delays.values()), first - min(before))


def count_delays(base: TimeBase, fit: OriginFit) -> tuple[collections.Counter[int],
                                                          collections.Counter[int]]:
    """Return the number of in-cues, and the number of out-cues, with each delay in frames."""
    kinds: tuple[collections.Counter[int], collections.Counter[int]] = (
        collections.Counter(), collections.Counter())
    for cue in base.cues:
        if change := base.find_match(cue, fit.start):
            kinds[not cue.is_begin][change.delay] += 1
    return kinds


def find_usual_delay(begins: Mapping[int, int], ends: Mapping[int, int]) -> int:
    """Return the shortest usual delay of in-cues or out-cues, or 0 if there is none."""
    count = sum(begins.values()) + sum(ends.values())
    kinds = [kind for kind in (begins, ends) if kind and (
        kind is begins or sum(kind.values()) * OUT_CUE_SHARE >= count)]
    return min((delay for kind in kinds for most in [max(kind.values())]
                for delay, frequency in kind.items()
                if frequency * COMMON >= most and frequency >= min(most, MIN_EQUAL_DELAYS)),
               default=0)


def find_likeliest_clock(base: TimeBase, fit: OriginFit, lateness: Lateness) -> OriginFit:
    """Return the clock near the clock `fit` that makes the observed delays most likely."""
    near_frames = range(-base.within, 2 * base.within + 1)
    patterns = collections.Counter(
        (cue.is_begin,
         tuple(shift for shift in near_frames if base.has_text_at(cue, fit.start - shift)))
        for cue in base.cues)
    kinds = [{delay: max(share / sum(kind.values()), UNSEEN_SHARE)
              for delay, share in kind.items()} for kind in lateness]

    def compute_likelihood(shift: int) -> float:
        return sum(count * math.log(next((
            kinds[not is_begin].get(delay - shift, UNSEEN_SHARE) for delay in delays
            if 0 <= delay - shift <= base.within), UNSEEN_SHARE))
                   for (is_begin, delays), count in patterns.items())

    return base.compare(fit.start - max(range(base.within, -base.within - 1, -1),
                                        key=compute_likelihood))


# Drift: delays that steadily grow or shrink, as in a recording with another frame rate

MIN_TEXTS = 6  # minimum number of texts that are expected once and sent once
MIN_DRIFT = 2  # minimum drift, in frames
NEAR_LINE = 1.5  # maximum distance in frames between a delay and the regression line
MAX_OFF = 10  # at most 1/10 of the delays may be farther from the line than `NEAR_LINE`
# The line must explain at least 4/5 of the variance of the delays. If the delays change only once,
# a line leaves at least 1/4 of it unexplained.
MAX_LEFT = 5


class Drift(NamedTuple):
    """A steady change of the delay by `frames` from frame `first` to frame `last`. `frames` is
    negative if the subtitles become earlier."""

    first: int
    last: int
    frames: int


def find_drift(cues: Sequence[ExpectedCue], changes: Mapping[int, MatchedChange]) -> Drift | None:
    """Return the drift of the delays, or `None` if they do not change steadily. Compare only texts
    that are expected once and sent once."""
    due = find_single_texts((cue.frame, cue.letters) for cue in cues)
    sent = find_single_texts((at, change.letters) for at, change in changes.items())
    frames = sorted(frame for letters, frame in due.items() if letters in sent)
    if len(frames) < MIN_TEXTS or 2 * len(frames) < len(due):
        return None
    at = {frame: sent[letters] - frame for letters, frame in due.items() if letters in sent}
    points = select_near_line([(frame, at[frame]) for frame in frames])
    if (len(frames) - len(points)) * MAX_OFF > len(frames):
        return None
    times, delays = [frame for frame, _ in points], [delay for _, delay in points]
    middle, usual = statistics.fmean(times), statistics.fmean(delays)
    slope = sum((frame - middle) * delay for frame, delay in points) / sum(
        (frame - middle) ** 2 for frame in times)
    drift = slope * (times[-1] - times[0])
    left = sum((delay - usual - slope * (frame - middle)) ** 2 for frame, delay in points)
    if abs(drift) < MIN_DRIFT or left * MAX_LEFT > sum((delay - usual) ** 2 for delay in delays):
        return None
    return Drift(times[0], times[-1], round(drift))


def select_near_line(delays: Sequence[tuple[int, int]]) -> list[tuple[int, int]]:
    """Return the pairs of frame and delay that are close to a common straight line."""
    half_count = len(delays) // 2
    slope = statistics.median((late - early) / (last - first) for (first, early), (last, late)
                              in zip(delays, delays[half_count:]))
    middle = statistics.median(delay - slope * frame for frame, delay in delays)
    return [(frame, delay) for frame, delay in delays
            if abs(delay - slope * frame - middle) <= NEAR_LINE]


def find_single_texts(several: Iterable[tuple[int, bytes]]) -> dict[bytes, int]:
    """Return the frame of each text that occurs exactly once."""
    places_by_text: dict[bytes, list[int]] = {}
    for at, letters in several:
        if letters:
            places_by_text.setdefault(letters, []).append(at)
    return {letters: places[0] for letters, places in places_by_text.items() if len(places) == 1}
