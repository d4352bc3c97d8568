"""Find the parts of a programme between breaks, and its repeated airings.

A track is a possible origin in a time base. A stretch is a sequence of consecutive cues on one
track. A place is a frame in the recording: the number of a time base, and the number of frames
since its first PTS.
"""
from __future__ import annotations

import collections
import functools
import heapq
import itertools
from typing import Mapping, NamedTuple, Sequence

from ..common.command_line import Lateness
from ..common.times import FRAMES_A_SECOND, FRAMES_OF_A_DAY
from .alignment import (
    EarlyCues, ExpectedCue, ExpectedSubtitle, MAX_TRIED_ORIGINS, OriginFit, TimeBase, choose_clock,
    find_expected_cues)

MAX_CANDIDATES = 8  # a change of track is considered only for this number of best sequences
MIN_MATCHING_CUES = 5  # minimum number of consecutive cues that must match on a new track
NEW_TRACK = MIN_MATCHING_CUES - 1  # cost of a change of track, in points of `Track.points`
MIN_BREAK_FRAMES = 5 * FRAMES_A_SECOND  # minimum length of a break; a shorter shift is a delay
MIN_GAP_FRAMES = 60 * FRAMES_A_SECOND  # minimum jump of the subtitle file's time codes at a break
TEXT_POINTS = 3  # score of a cue whose expected text is sent
MAX_COMPARED_CUES = 500  # maximum number of cues to compare with each other
TRIED_TIMES = 8  # maximum number of origins to try if texts are ignored
MIN_AIRING_CUES = 10  # minimum number of cues if texts are ignored; twice as many with --within N
Place = tuple[int, int]


class Track:
    """A possible origin in the time base with number `base`. `places` has the frame of each cue in
    the time base. `points` has a score for each cue: 3 if the expected text is sent, 2 if the page
    is erased as expected, 1 for another page change, and 0 for no change."""

    def __init__(self, number: int, start: int, base: TimeBase) -> None:
        self.base, self.start, self.within, self.cues = number, start, base.within, base.cues
        matches = [base.find_match(cue, start) for cue in base.cues]
        self.points = [0 if not item else 1 if item.letters != cue.letters else
                       TEXT_POINTS if cue.letters else 2 for cue, item in zip(base.cues, matches)]
        self.total_delay = sum(item.delay for item in matches if item)
        self.places = [cue.frame - start + (item.delay if item else 0)
                       for cue, item in zip(base.cues, matches)]

    @functools.cached_property
    def row_lengths(self) -> list[int]:
        """Return, for each cue, the number of consecutive matching cues, starting with this cue."""
        rows = itertools.accumulate(reversed(self.points), lambda row, item: row + 1 if item else 0,
                                    initial=0)
        return list(rows)[:0:-1]

    def rank(self) -> tuple[int, int, int]:
        """Return a sort key: highest score first, then smallest delay, then earliest text match."""
        first = self.points.index(TEXT_POINTS) if TEXT_POINTS in self.points else len(self.cues)
        return -sum(self.points), self.total_delay, first

    def may_follow(self, previous: Track, frames: int) -> bool:
        """Return whether a cue on this track is sent after a cue on the track `previous`. `frames`
        is the expected distance between the cues."""
        return self.base > previous.base or \
            self.base == previous.base and frames > self.start - previous.start


class Stretch(NamedTuple):
    """The cues with the numbers `range(first, end)`, and their track."""

    track: Track
    first: int
    end: int

    def list_matching_places(self) -> list[int]:
        """Return the frames of the matching cues in the time base."""
        return [self.track.places[at] for at in range(self.first, self.end)
                if self.track.points[at]]


def find_stretches(bases: Sequence[TimeBase]) -> list[Stretch]:
    """Divide all cues into stretches. Return an empty list if five consecutive cues never match at
    the same origin."""
    candidates = [(number, base) for number, base in enumerate(bases)
                  if len(base.changes) >= MIN_MATCHING_CUES]
    for number, base in candidates:
        first_fit = base.align_to_in_cues(base.fits[0]) if base.fits else None
        if first_fit and len(base.cues) >= MIN_MATCHING_CUES and (
                first_fit.content_matches == len(base.cues) or base.find_cue_offset(first_fit)):
            return [Stretch(Track(number, first_fit.start, base), 0, len(base.cues))]
    tracks: list[Track] = []
    for number, base in candidates:
        starts = {fit.start for fit in base.fits[:MAX_TRIED_ORIGINS]}
        starts.update(start for start, _ in base.count_equal_texts().most_common(MAX_TRIED_ORIGINS))
        tracks += [track for start in sorted(starts) if max(
            (track := Track(number, start, base)).row_lengths, default=0) >= MIN_MATCHING_CUES]
    distinct_tracks: list[Track] = []
    for track in sorted(tracks, key=Track.rank):
        if not track.within or not any(other.base == track.base and abs(
                other.start - track.start) <= track.within for other in distinct_tracks):
            distinct_tracks.append(track)
    return find_best_stretches(bases[0].cues,
                               distinct_tracks[:MAX_TRIED_ORIGINS]) if distinct_tracks else []


class TrackSequence(NamedTuple):
    """A choice of a track for each of the file's first cues."""

    points: int  # sum of the points of the cues, minus `NEW_TRACK` for each change of track
    nearness: int  # higher if the origins of the tracks are closer
    turns: tuple[tuple[int, Track], ...]  # each track with its first cue

    @property
    def rank(self) -> tuple[int, int]:
        return self[:2]

    def switch_track(self, cue: int, track: Track) -> TrackSequence:
        previous = self.turns[-1][1]
        distance = abs(track.start - previous.start) + \
            FRAMES_OF_A_DAY * (track.base - previous.base)
        return TrackSequence(self.points - NEW_TRACK, self.nearness - distance,
                             (*self.turns, (cue, track)))


def find_best_stretches(cues: Sequence[ExpectedCue], tracks: Sequence[Track]) -> list[Stretch]:
    """Return the stretches of the `TrackSequence` with the highest `rank`. A change of track
    requires that five consecutive cues match on the new track. At each cue, keep the best sequence
    that ends on each track, and consider a change of track only for the `MAX_CANDIDATES` best ones.
    Finally, move the borders between stretches to earlier cues if this gives a higher score."""
    best: dict[Track, TrackSequence] = {}
    for at, cue in enumerate(cues):
        gap = cue.frame - cues[at - 1].frame if at else 0
        candidates = heapq.nlargest(MAX_CANDIDATES, best.items(), key=lambda item: item[1].rank)
        extended: dict[Track, TrackSequence] = {}
        for track in tracks:
            sequences = [best[track]] if track in best else []
            if track.row_lengths[at] >= MIN_MATCHING_CUES:
                sequences = sequences or [TrackSequence(sum(track.points[:at]), 0, ((0, track),))]
                sequences += [sequence.switch_track(at, track) for previous, sequence in candidates
                              if previous is not track and track.may_follow(previous, gap)]
            if sequences:
                sequence = max(sequences, key=lambda sequence: sequence.rank)
                extended[track] = sequence._replace(points=sequence.points + track.points[at])
        best = extended
    turns = max(best.values(), key=lambda sequence: sequence.rank).turns
    row = [Stretch(track, cue, end) for (cue, track), end in zip(
        turns, [*(cue for cue, _ in turns[1:]), len(cues)])]
    for number in range(1, len(row)):
        previous, own = row[number - 1:number + 1]
        border = find_border(cues, previous, own)
        row[number - 1:number + 1] = previous._replace(end=border), own._replace(first=border)
    return row


def find_border(cues: Sequence[ExpectedCue], previous: Stretch, following: Stretch) -> int:
    """Return the number of the cue at which `following` should begin: its first cue, or an earlier
    cue if that gives a higher score or is the in-cue of a late subtitle."""
    best, most, gain = following.first, 0, 0
    for border in range(following.first - 1, previous.first + MIN_MATCHING_CUES - 1, -1):
        gain += following.track.points[border] - previous.track.points[border]
        if gain > most and following.track.may_follow(
                previous.track, cues[border].frame - cues[border - 1].frame):
            best, most = border, gain
    # The in-cue of a subtitle that is late after a break matches nothing, but its out-cue does.
    earlier = best - 1
    is_late = earlier >= previous.first + MIN_MATCHING_CUES and \
        following.track.points[best] == 2 and not (
            previous.track.points[earlier] or following.track.points[earlier])
    return earlier if is_late and following.track.may_follow(
        previous.track, cues[earlier].frame - cues[earlier - 1].frame) else best


class EstimatedPart(NamedTuple):
    """A part of a programme with its own origin."""

    begin: int  # first TCI
    end: int  # last TCO
    best: OriginFit  # the best origin
    others: list[OriginFit]  # the other possible origins
    time_base: TimeBase  # cues and page changes of the part
    base: int  # number of the time base
    overlapping: list[ExpectedSubtitle]  # subtitles that end in the next part
    early: EarlyCues | None = None

    @property
    def origin(self) -> int:
        return self.best.origin


def fit_parts(subtitles: Sequence[ExpectedSubtitle], bases: Sequence[TimeBase],
              row: Sequence[Stretch],
              lateness: Lateness | None = None) -> list[EstimatedPart]:
    """Return one part for each stretch in `row`, or a single part if there are fewer than two
    stretches. Return an empty list if no cue matches. `lateness` is the value of --late."""
    if len(row) > 1:
        return [fit_part(subtitles, bases, row, number, lateness) for number in range(len(row))]
    number = row[0].track.base if row else max(
        range(len(bases)), key=lambda item: bases[item].fits[0].matches if bases[item].fits else 0)
    own = bases[number]
    if not own.fits:
        return []
    estimate = own.fit(row[0].track.start) if row else own.align_to_in_cues(own.fits[0])
    best, early = choose_clock(own, estimate, lateness)
    return [EstimatedPart(min(expected_subtitle.begin for expected_subtitle in subtitles),
                          max(expected_subtitle.end for expected_subtitle in subtitles), best,
                          select_other_origins(own, estimate.start, best.start), own, number, [],
                          early)]


def select_other_origins(base: TimeBase, *starts: int) -> list[OriginFit]:
    """Return the origins of a time base that are not near any of the start frames `starts`."""
    return [fit for fit in base.fits if all(
        abs(fit.start - start) > base.within for start in starts)]


def fit_part(subtitles: Sequence[ExpectedSubtitle], bases: Sequence[TimeBase],
             row: Sequence[Stretch],
             number: int, lateness: Lateness | None) -> EstimatedPart:
    """Return the part for stretch `number`, without the page changes of neighbouring stretches."""
    track, first, end = row[number]
    full_base = bases[track.base]
    begin = full_base.cues[first].frame if number else 0
    stop = full_base.cues[end].frame if number + 1 < len(row) else FRAMES_OF_A_DAY
    low, high = -1, full_base.length + 1
    if number and row[number - 1].track.base == track.base:
        low = row[number - 1].list_matching_places()[-1]
    if number + 1 < len(row) and row[number + 1].track.base == track.base:
        high = row[number + 1].list_matching_places()[0]
    inside = [expected_subtitle for expected_subtitle in subtitles
              if begin <= expected_subtitle.begin and expected_subtitle.end <= stop]
    overlapping = [expected_subtitle for expected_subtitle in subtitles
                   if begin <= expected_subtitle.begin < stop < expected_subtitle.end]
    # `find_expected_cues` adds an out-cue at the end of the part, even if the first subtitle of the
    # next part follows without a pause.
    own = full_base.copy_between(find_expected_cues(inside) or full_base.cues[first:end], low, high)
    best, early = choose_clock(own, own.fit(track.start), lateness)
    return EstimatedPart(min((expected_subtitle.begin for expected_subtitle in inside), default=
                             begin),
                         max((expected_subtitle.end for expected_subtitle in inside), default=stop),
                         best, select_other_origins(own, track.start, best.start), own, track.base,
                         overlapping, early)


def split_at_breaks(row: Sequence[Stretch]) -> list[Stretch]:
    """Join stretches if there is no break between them. There is a break if the PTS go back, if the
    time codes of the file jump forward, or if the origin is at least five seconds later than in the
    previous stretch and in the first stretch of the part. A shorter delay is not a break, nor are
    subtitles that are early for a while."""
    parts = list(row[:1])
    for previous, stretch in zip(row, row[1:]):
        track = stretch.track
        gap_frames = track.start - parts[-1].track.start
        is_break = max(gap_frames, track.start - previous.track.start) <= -MIN_BREAK_FRAMES
        if track.base != parts[-1].track.base or is_break or gap_frames >= MIN_GAP_FRAMES:
            parts.append(stretch)
        else:
            parts[-1] = parts[-1]._replace(end=stretch.end)
    return parts


class Airing(NamedTuple):
    """An airing of the programme: the places of its first and last page change."""

    first: Place
    last: Place


def find_airings(bases: Sequence[TimeBase], has_clock: bool = False) -> list[Airing]:
    """Return the airings of the programme, in order of time. First find the airing in which most
    cues match. Then search the recording before and after it for repeats, which contain enough
    texts of the cues. If all texts of a repeat are wrong, find it by the times of its page changes,
    but only if the clock is unknown and the cues are irregular: regular cues match anywhere."""
    row = find_stretches(bases)
    uses_times = not has_clock and not have_equal_steps([cue.frame for cue in bases[0].cues])
    if len(row) > 1:  # some stretches may belong to a repeat of the programme
        whole, *others = sorted((Stretch(track, 0, row[-1].end) for track in dict.fromkeys(
            stretch.track for stretch in row)), key=lambda item: -sum(item.track.points))
        if places := find_text_places([whole]):
            first, last = make_airing(places)
            sides = (side for found in (find_text_places([other]) for other in others) for side in (
                {at: place for at, place in found.items() if place < first},
                {at: place for at, place in found.items() if place > last}))
            row = [whole] if any(is_repeated_airing(bases, places, side) for side in sides) else row
    first_places = find_text_places(row)
    if not first_places:
        return []
    airings = [make_airing(first_places)]
    windows = [((-1, 0), airings[0].first), (airings[0].last, (1 << 40, 0))]
    while windows:
        low, high = windows.pop()
        other_bases = limit_bases(bases, low, high)
        repeat_places = find_text_places(find_stretches(other_bases)) \
            if any(base.changes for base in other_bases) else {}
        if not is_repeated_airing(bases, first_places, repeat_places):
            repeat_places = find_changes_by_time(other_bases,
                                                 len(first_places)) if uses_times else {}
        if repeat_places:
            airings.append(run := make_airing(repeat_places))
            windows += [(low, run.first), (run.last, high)]
    return sorted(airings)


def find_text_places(row: Sequence[Stretch]) -> dict[int, Place]:
    """Return the places at which expected pages are sent, by the number of the cue."""
    return {at: (stretch.track.base, stretch.track.places[at]) for stretch in row
            for at in range(stretch.first, stretch.end) if stretch.track.points[at] > 1}


def make_airing(places: Mapping[int, Place]) -> Airing:
    """Return the airing that lasts from the first to the last of the given places."""
    return Airing(min(places.values()), max(places.values()))


def is_repeated_airing(bases: Sequence[TimeBase], first: dict[int, Place],
                       repeat_places: dict[int, Place]) -> bool:
    """Return whether the cues that match outside the first airing are a repeat of the programme.
    Either at least half of all cues and half of the cues with a text must match, or a quarter of
    the cues with a text must match and extend over half of the programme. In both cases, half of
    the matching cues with a text must also match in the first airing."""
    cues = bases[0].cues
    texts = [at for at in repeat_places if cues[at].letters]
    count = sum(1 for cue in cues if cue.letters)
    if not texts or sum(at in first for at in texts) * 2 < len(texts):
        return False
    is_half_repeated = len(repeat_places) * 2 >= len(cues) and len(texts) * 2 >= count
    return is_half_repeated or len(texts) * 4 >= count \
        and (max(texts) - min(texts)) * 2 >= len(cues)


def have_equal_steps(frames: Sequence[int]) -> bool:
    """Return whether many pairs of frames are equally far apart, as with regular cues. Many means
    at least half the number of frames. Compare only the first `MAX_COMPARED_CUES` frames."""
    frames = frames[:MAX_COMPARED_CUES]
    counts = collections.Counter(second - first for first, second in itertools.combinations(
        frames, 2))
    return max(counts.values(), default=0) * 2 >= len(frames)


def find_changes_by_time(bases: Sequence[TimeBase], count: int) -> dict[int, Place]:
    """Return a dictionary from the number of each cue to the page change at the time of the cue,
    whatever its text. Return an empty dictionary if page changes are found for fewer than 75 % of
    all cues, or for fewer than 90 % of `count`, the number of matching cues in the first airing."""
    for number, base in enumerate(bases):
        if not base.changes or count < MIN_AIRING_CUES * (2 if base.within else 1):
            continue
        for start, _ in base.votes().most_common(TRIED_TIMES):
            changed = find_changes(base, number, start)
            if len(changed) * 10 >= count * 9 and len(changed) * 4 >= len(base.cues) * 3:
                return changed
    return {}


def find_changes(base: TimeBase, number: int, start: int) -> dict[int, Place]:
    """Return a dictionary from the number of each cue to the page change that follows the cue
    within the allowed delay."""
    return {at: (number, place) for at, cue in enumerate(base.cues)
            for place in [next((place for place in range(
                cue.frame - start, cue.frame - start + base.within + 1)
                                if place in base.changes), None)] if place is not None}


def limit_bases(bases: Sequence[TimeBase], low: Place, high: Place) -> list[TimeBase]:
    """Return copies of the time bases with only the page changes between two places."""
    return [base.copy_between(base.cues,
                         -1 if number > low[0] else low[1] if number == low[0] else base.length + 1,
                         base.length + 1 if number < high[0] else high[1] if number == high[0]
                         else 0)
            for number, base in enumerate(bases)]
