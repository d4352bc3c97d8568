"""Draw the timeline of a part, with lanes for expected pages, decoded pages and kinds of fault."""
from __future__ import annotations

from typing import Iterable, Iterator

from ..common.markup import Markup, NO_MARKUP, Value, join_markup, markup
from ..common.times import FRAMES_A_SECOND, Span, format_frame
from ..judging.cues import Cue, find_text_spans
from ..stream.receiver import Timeline
from .cue_list import CueList, make_cause_key

WIDTH = 1000  # width of a lane in units, which are scaled to the width of the page
MIN_MARK_WIDTH = 2  # minimum width of a bar in units
MINUTE = 60 * FRAMES_A_SECOND
STEPS = [seconds * FRAMES_A_SECOND for seconds in (1, 2, 5, 10, 30)] + [
    minutes * MINUTE for minutes in (1, 2, 5, 10, 30, 60, 120, 240)]
MAX_TIMES = 10  # maximum number of time labels below the lanes
# Percentage of a lane's width, at either end, in which a label is aligned with that end.
EDGE_PERCENT = 8


class Lanes:
    """The lanes of a timeline, with bars for expected pages, decoded pages and faults."""

    def __init__(self, cues: CueList, decoded: Timeline | None, lost_spans: Iterable[Span]) -> None:
        self.cues, self.decoded, self.lost_spans = cues, decoded, list(lost_spans)
        subtitles = [cue.subtitle for cue in cues.cues]
        self.begin = min(item.begin for item in subtitles)
        self.end = max(item.end for item in subtitles)
        if decoded and decoded.frames:
            self.begin, self.end = min(self.begin, decoded.first), max(self.end, decoded.last + 1)

    def compute_x(self, frame: int) -> float:
        """Return the horizontal position of a frame on a lane."""
        inside = min(max(frame, self.begin), self.end) - self.begin
        return round(inside * WIDTH / (self.end - self.begin), 1)

    def draw(self) -> Markup:
        """Draw all lanes, and the times below them."""
        lanes = [self.draw_lane("expected", "Expected", ((cue.subtitle.begin, cue.subtitle.end)
                                                         for cue in self.cues.cues))]
        if self.decoded:
            lanes.append(self.draw_lane("received", "Received", (
                (span.first, span.last + 1) for span in find_text_spans(self.decoded))))
        lanes += self.draw_fault_lanes()
        if self.lost_spans:
            lanes.append(self.draw_lane("fault", "not recorded", (
                (span.first, span.last + 1) for span in self.lost_spans)))
        label = f"Timeline from {format_frame(self.begin)} to {format_frame(self.end)}"
        return markup('<figure class="lanes"><figcaption>{}</figcaption>{}{}</figure>', label,
                      join_markup(lanes), self.draw_axis())

    def draw_fault_lanes(self) -> Iterator[Markup]:
        """Draw a lane for each kind of fault."""
        places = {kind.key: list[tuple[int, int]]() for kind in self.cues.kinds}
        for cue in self.cues.cues:
            if cue.cause:
                places[make_cause_key(cue.cause)].append(find_cue_span(cue))
        causes = self.cues.causes
        for cause in causes.pause_texts.values() if causes else ():
            assert causes
            span = causes.find_pause_text_span(cause)
            places[make_cause_key(cause)].append((span.first, span.last + 1))
        for number, spans in self.cues.judge.spans.items():
            places[f"n{number}"] += [(span.first, span.last + 1) for span in spans]
        for kind in self.cues.kinds:
            if places[kind.key]:
                first = self.cues.first_rows.get(kind.key)
                words: Value = f"{kind.name} ({self.cues.counts[kind.key]})" if first else kind.name
                if first:
                    words = markup('<a href="#s{}">{}</a>', first, words)
                yield self.draw_lane("waive" if kind.is_waived else "fault", words,
                                     places[kind.key])

    def draw_lane(self, css_class: str, name: Value, spans: Iterable[tuple[int, int]]) -> Markup:
        """Draw a lane. Marks that would touch are drawn as one mark."""
        runs: list[list[float]] = []
        for begin, end in sorted(spans):
            left, right = self.compute_x(begin), self.compute_x(end)
            right = max(right, left + MIN_MARK_WIDTH)
            if runs and left - runs[-1][1] < 0.5:
                runs[-1][1] = max(runs[-1][1], right)
            else:
                runs.append([left, right])
        path = "".join(f"M{left:g} 0H{right:.6g}V10H{left:g}z" for left, right in runs)
        return markup('<div class="lane"><span>{}</span><svg aria-hidden="true" viewBox="0 0 {} '
                      '10" preserveAspectRatio="none"><path class="{}" d="{}"/></svg></div>', name,
                      WIDTH, css_class, path)

    def draw_axis(self) -> Markup:
        """Draw the times below the lanes. Each time links to the next subtitle."""
        length = self.end - self.begin
        step = next((item for item in STEPS if length <= MAX_TIMES * item), STEPS[-1])
        begins = [cue.subtitle for cue in self.cues.cues]
        words = []
        for frame in range(-(-self.begin // step) * step, self.end - length // 30, step):
            label = format_frame(frame)[:5] if step >= MINUTE else format_frame(frame)[3:8]
            item = next((item for item in begins if item.begin >= frame), None)
            place = self.compute_x(frame) / 10
            position_class = "first" if place < EDGE_PERCENT else "last" \
                if place > 100 - EDGE_PERCENT else "inner"
            words.append(markup('<a class="{}" href="#s{}" style="left:{:.4g}%">{}</a>',
                                position_class, item.index, place, label) if item else NO_MARKUP)
        return markup('<div class="axis"><div>{}</div></div>', join_markup(words))


def find_cue_span(cue: Cue) -> tuple[int, int]:
    """Return the earlier of the expected and actual in-cue, and the later out-cue."""
    item = cue.subtitle
    return (min(item.begin, item.begin if cue.begin is None else cue.begin),
            max(item.end, item.end if cue.end is None else cue.end))
