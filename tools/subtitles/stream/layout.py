"""Find the layout that draws subtitles as they were sent, and the evidence for its items."""
from __future__ import annotations

import itertools
from collections import Counter
from typing import Iterable, Iterator, NamedTuple, Optional, Sequence, TypeVar

from ..formats.layout import (
    CODES, COLOURS, COLUMNS, DOUBLE, DRAWN_CODES, Layout, MAX_AFTER, MAX_BEFORE, MAX_SHIFT, PLAIN,
    START_BOX, TextFault, WHITE, assign_rows, compute_complexity, count_leading_codes,
    count_leading_spaces, draw_text, encode_text_characters, find_column, find_start_column,
    format_layout, list_page_characters, make_page_rows, prepare_line, remove_blank_cells,
    remove_codes, split_raw_lines, trim_line)
from ..formats.stl import Subtitle
from ..formats.teletext import COMMON, NationalOption
from .receiver import Rows, Timeline


# A layout changes only rows, columns and codes. So a subtitle is *found* if a page with the same
# characters in the same order was sent. Each item of a layout affects the cells, the row or the
# column of a line. The best items of each kind are found separately. Then the subtitles are drawn,
# to check the result.

# Codes that `check` refuses unless the layout strips them.
UNUSUAL_CODES = {code for code in CODES if code not in COMMON}
BOX_CODES, LINE_CODES = b"\x0a\x0b", b"\x0a\x0b\x0d"
MIN_SUBTITLES, MIN_TENTHS = 10, 9  # a layout must draw 9/10 of at least 10 subtitles as sent
MAX_STRIP_CODES = 5  # maximum number of codes for which all combinations are tried
MAX_KEPT_CANDIDATES = 6
Element = TypeVar("Element")


class SentSubtitle(NamedTuple):
    """A subtitle and the page that was sent for it: the subtitle's text in the file, the row of its
    first line (VP), its justification code (JC), and rows 1 to 24 of the page."""

    text: bytes
    row: int
    justify: int
    rows: tuple[bytes, ...]


class SentLine(NamedTuple):
    """A line with characters: the index of its subtitle, the line's number, and its cells with all
    codes. `row` and `sent` are the number and the cells of the row in which it was sent."""

    place: int
    number: int
    cells: bytes
    row: int
    sent: bytes


def is_found(sent: SentSubtitle, option: NationalOption) -> bool:
    """Return whether a subtitle has text, and its page has the same characters."""
    letters = encode_text_characters(sent.text, option)
    return bool(letters) and list_page_characters(sent.rows) == letters


def match_lines(place: int, lines: Sequence[bytes], rows: Sequence[bytes]) -> list[SentLine]:
    """Return the lines of a subtitle with the rows in which they were sent. Return an empty list if
    the characters differ."""
    file_lines = [(number, line) for number, line in enumerate(lines) if remove_blank_cells(line)]
    page_rows = [(number, row) for number, row in enumerate(rows, 1) if remove_blank_cells(row)]
    if [remove_blank_cells(line) for _, line in file_lines] != [remove_blank_cells(row) for _, row
                                                                in
                                                                page_rows]:
        return []
    return [SentLine(place, number, line, row, sent)
            for (number, line), (row, sent) in zip(file_lines, page_rows)]


def find_codes_to_strip(pairs: Sequence[SentLine]) -> Iterator[bytes]:
    """Yield sets of codes that a layout may strip: codes that `check` refuses, codes that were not
    sent inside lines, and combinations of the codes in the lines."""
    missing_codes, present_codes, end_codes = set[int](), set[int](), set[int]()
    for cells, sent in {(pair.cells, pair.sent) for pair in pairs}:
        file_codes, page_codes = Counter(trim_line(cells)), Counter(trim_line(sent))
        for code in set(file_codes) & set(CODES):
            (present_codes if page_codes[code] else missing_codes).add(code)
        end_codes |= set(cells) & set(CODES)
    required_codes = (end_codes & UNUSUAL_CODES) | (missing_codes - present_codes)
    free = sorted(end_codes - required_codes - present_codes)
    some: list[list[int]] = [
        free, [], *([code] for code in free), [code for code in free if code in BOX_CODES],
        [code for code in free if code in LINE_CODES],
        *([other for other in free if other != code] for code in free)]
    if len(free) <= MAX_STRIP_CODES:
        some += [list(item) for size in range(len(free) + 1)
                 for item in itertools.combinations(free, size)]
    choices = {bytes(sorted({*required_codes, *item})) for item in some}
    yield from sorted(choices, key=lambda it: (len(it), it))


def most(counts: Counter[Element], size: int) -> list[Element]:
    """Return the `size` elements with the highest counts."""
    return [item for item, _ in counts.most_common(size)]


def find_line_beginnings(lines: Counter[tuple[bytes, bytes]],
                         trim: bool) -> list[tuple[bool, bytes, bytes]]:
    """Return the most frequent beginnings of lines. Each has three parts: whether white is added to
    a line without a colour, and the codes to add before and after the line's leading codes."""
    # Counts of pairs: the leading codes of a line, and the leading codes of the row sent for it.
    line_counts = Counter[tuple[bytes, bytes]]()
    for (cells, sent), count in lines.items():
        page_codes = sent.lstrip(b" ")
        cells = cells.strip(b" ") if trim else cells
        line_counts[cells[:count_leading_codes(cells)],
                    page_codes[:count_leading_codes(page_codes)]] += count
    votes = Counter[tuple[bool, bytes, bytes]]()
    for white in (False, True):
        candidates = {(own + bytes([WHITE]) * (white and not any(it in COLOURS
                                                                 for it in own)), page_codes)
                      for own, page_codes in line_counts}
        beginnings = {(white, page_codes[:at], page_codes[at + len(own):])
                      for own, page_codes in candidates for at in range(len(page_codes) -
                      len(own) + 1) if page_codes[at:at + len(own)] == own
                      and (own or at == len(page_codes))}
        for beginning in beginnings:
            if len(beginning[1] + beginning[2]) <= MAX_BEFORE and all(
                    code in DRAWN_CODES for code in beginning[1] + beginning[2]):
                votes[beginning] = sum(count for (own, page_codes), count in line_counts.items()
                                       if page_codes == beginning[1] + own + bytes([WHITE]) * (
                                     white and not any(it in COLOURS for it in own)) + beginning[2])
    return most(votes, MAX_KEPT_CANDIDATES)


def find_ends(lines: Counter[tuple[bytes, bytes]]) -> list[bytes]:
    """Return the codes that were most often added at the end of a line."""
    votes = Counter[bytes]()
    for (cells, sent), count in lines.items():
        own, page_codes = (item.rstrip(b" ")[::-1] for item in (cells, sent))
        codes, added_codes = (item[:count_leading_codes(item)][::-1] for item in (own, page_codes))
        if cells.endswith(b" ") and not sent.rstrip(b" ").endswith(cells.strip(b" ")):
            codes = b""
        if added_codes.startswith(codes):
            votes[added_codes[len(codes):]] += count
    return [item for item in most(votes, MAX_KEPT_CANDIDATES)
            if len(item) <= MAX_AFTER and all(code in DRAWN_CODES for code in item)]


def find_line_layouts(pairs: Sequence[SentLine]) -> list[Layout]:
    """Return the layouts that draw the cells of the most lines exactly as sent, sorted from best to
    worst. Ignore the rows and columns of the lines."""
    scores = Counter[Layout]()
    for strip, trim in itertools.product(find_codes_to_strip(pairs), (False, True)):
        all_lines = Counter((remove_codes(pair.cells, strip), pair.sent) for pair in pairs)
        lines = Counter({line: count for line, count in all_lines.items()
                         if START_BOX not in line[0]})
        beginnings = [(False, PLAIN.before, PLAIN.behind)]
        beginnings = [*find_line_beginnings(lines, trim), *beginnings] if lines else beginnings
        ends = {PLAIN.after, *find_ends(lines)}
        for (white, before, behind), after, fit in itertools.product(
                beginnings, ends, (False, True)):
            layout = Layout(strip, before, behind, after, fit, white, trim)
            if layout not in scores:
                scores[layout] = sum(
                    count for (cells, sent), count in all_lines.items()
                    for prepared in [prepare_line(cells, layout)]
                    if prepared.strip(b" ") == sent.strip(b" ") and len(prepared) <= COLUMNS)
    best = max(scores.values())
    candidates = [item for item, score in scores.items() if score * 10 >= best * MIN_TENTHS]
    return sorted(candidates, key=lambda item: (-scores[item],
                                                compute_complexity(item)))[:4 * MAX_KEPT_CANDIDATES]


def make_bit_set(places: Iterable[int]) -> int:
    """Return a bit mask in which the bits `places` are set."""
    bits = 0
    for place in places:
        bits |= 1 << place
    return bits


def find_row_layouts(layout: Layout, pairs: Sequence[SentLine],
                     all_lines: Sequence[Sequence[bytes]],
                     subtitles: Sequence[SentSubtitle]) -> Iterator[tuple[Layout, int]]:
    """Yield variants of a layout that place lines in other rows, each with a bit mask of the
    subtitles that have a line in a wrong row."""
    lines = [[prepare_line(remove_codes(line, layout.strip), layout) for line in all_line]
             for all_line in all_lines]
    for double, pack, last in itertools.product((False, True), repeat=3):
        row_layout = layout._replace(double=double, pack=pack, last=last)
        rows = {pair.place: assign_rows(lines[pair.place], subtitles[pair.place].row, row_layout)
                for pair in pairs}
        votes = Counter(pair.row - rows[pair.place][pair.number] for pair in pairs)
        for shift in {0, *most(votes, 2)}:
            if abs(shift) <= MAX_SHIFT:
                wrong_places = make_bit_set({pair.place for pair in pairs
                                             if rows[pair.place][pair.number] + shift != pair.row})
                yield row_layout._replace(row=shift), wrong_places


def find_column_layouts(layout: Layout, pairs: Sequence[SentLine], subtitles: Sequence[SentSubtitle]
              ) -> Iterator[tuple[Layout, int]]:
    """Yield variants of a layout that place lines in other columns, each with a bit mask of the
    subtitles that have a wrong line."""
    wrong_places, kinds = set[int](), dict[tuple[bytes, int, int], set[int]]()
    for pair in pairs:
        cells = prepare_line(remove_codes(pair.cells, layout.strip), layout)
        if cells.strip(b" ") != pair.sent.strip(b" ") or not 0 < len(cells) <= COLUMNS:
            wrong_places.add(pair.place)
            continue
        column = count_leading_spaces(pair.sent) - count_leading_spaces(cells)
        kind = cells, subtitles[pair.place].justify, column
        kinds.setdefault(kind, set()).add(pair.place)
    for text, up, free in itertools.product((False, True), (False, True), (1, 2, 3)):
        column_layout = layout._replace(text=text, up=up, free=free)
        left, right = Counter[int](), Counter[int]()
        for (cells, justify, column), places in kinds.items():
            if (justify or free) == 1:
                left[column - find_start_column(cells, 1, column_layout)] += len(places)
            elif (justify or free) == 3:
                right[find_start_column(cells, 3, column_layout) - column] += len(places)
        for free_left, free_right in itertools.product({0, *most(left, 2)}, {0, *most(right, 2)}):
            if free_left in range(COLUMNS) and free_right in range(COLUMNS):
                candidate = column_layout._replace(left=free_left, right=free_right)
                others = {place for (cells, justify, column), places in kinds.items()
                          if find_column(cells, justify, candidate) != column for place in places}
                yield candidate, make_bit_set(wrong_places | others)


def draws_as_sent(layout: Layout, sent: SentSubtitle, option: NationalOption) -> bool:
    """Return whether a layout can draw a subtitle and draws it as it was sent."""
    lines = draw_text(sent.text, sent.row, sent.justify, layout, option)
    return not isinstance(lines, TextFault) and make_page_rows(lines) == sent.rows


def count_misdrawn(layout: Layout, subtitles: Sequence[SentSubtitle], option: NationalOption,
                   most: int) -> int:
    """Count the subtitles that a layout does not draw as sent. Stop at `most` + 1."""
    others = (sent for sent in subtitles if not draws_as_sent(layout, sent, option))
    return sum(1 for _ in itertools.islice(others, most + 1))


def simplify(layout: Layout, subtitles: Sequence[SentSubtitle], option: NationalOption) -> Layout:
    """Remove each item of a layout that does not reduce the number of wrongly drawn subtitles."""
    most = count_misdrawn(layout, subtitles, option, len(subtitles))
    for names in (("strip",), ("before", "behind"), ("behind",), ("after",), *(
            (name,) for name in Layout._fields[4:])):
        smaller_layout = layout._replace(**{name: getattr(PLAIN, name) for name in names})
        if smaller_layout != layout \
                and compute_complexity(smaller_layout) < compute_complexity(layout):
            others = count_misdrawn(smaller_layout, subtitles, option, most)
            if others <= most:
                layout, most = smaller_layout, others
    return layout


def find_candidates(subtitles: Sequence[SentSubtitle], option: NationalOption) -> list[Layout]:
    """Return the plain layout, and the layouts that draw the most subtitles as sent."""
    all_lines = [split_raw_lines(sent.text, option) for sent in subtitles]
    pairs = [pair for place, sent in enumerate(subtitles)
             for pair in match_lines(place, all_lines[place], sent.rows)]
    if not pairs:
        return [PLAIN]
    unpaired_places = make_bit_set(range(len(subtitles))) ^ make_bit_set({pair.place
                                                                          for pair in pairs})
    counts = Counter[Layout]()
    for cells in find_line_layouts(pairs):
        rows = list(find_row_layouts(cells, pairs, all_lines, subtitles))
        for column, wrong_places in find_column_layouts(cells, pairs, subtitles):
            for row, others in rows:
                layout = column._replace(double=row.double, pack=row.pack, last=row.last,
                                         row=row.row)
                counts[layout] = len(subtitles) - bin(wrong_places | others
                                                      | unpaired_places).count("1")
    best = max(counts.values())
    candidates = sorted((item for item in counts if counts[item] == best), key=compute_complexity)
    return [PLAIN,
            *(simplify(item, subtitles, option) for item in candidates[:MAX_KEPT_CANDIDATES])]


# Evidence for the items of a layout
#
# The layout that draws the most subtitles as sent may contain an item that only reproduces a
# wrongly sent page. So each item needs evidence: subtitles that the layout draws differently
# without the item. Items can cancel each other, as `last` and `row=1` do for a text of two lines,
# so each group of items needs evidence too. An item that removes something visible needs the
# operator's decision.

STAR = "*"  # name of the item for codes inserted after the leading codes of a line
SINGLE_VALUE_ITEMS = ("after", "fit", "white", "trim", "text", "up", "left", "right", "free",
                      "double", "pack", "last", "row")
MAX_ITEMS = 12  # maximum number of items for which all groups are tried
# Visible codes of a text: colours other than white, flash, backgrounds.
VISIBLE_CODES = (*range(0x01, 0x07), 0x08, 0x1C, 0x1D)
RESTORABLE_CODES = (DOUBLE, START_BOX)  # stripped codes that the item `before` can add again
# Codes that replace the colour, flash or double height of a line if they come after its own codes.
OVERRIDING_CODES = (*COLOURS, 0x09, 0x0C)
FLASH = 0x08
BOXES_SHOWN = 2  # number of start boxes that libzvbi needs in order to show a line
MAX_MOVED_ROWS = 2  # maximum number of rows by which a broadcaster is likely to move all lines
LayoutItem = tuple[str, int]  # name of an item; for `strip` also the removed code, else 0
Group = frozenset[LayoutItem]
Page = Optional[Rows]  # page that a layout draws, or `None` if it can't draw the text


class ItemEvidence(NamedTuple):
    """The evidence for the layout items in `text`."""

    text: str
    redrawn: int  # number of subtitles that are drawn differently without the items
    as_sent: int  # number of redrawn subtitles that are drawn as sent with the items

    @property
    def has_evidence(self) -> bool:
        """Return whether there is enough evidence to accept the items."""
        return self.redrawn >= MIN_SUBTITLES and self.as_sent * 10 >= self.redrawn * MIN_TENTHS


class RejectedItems(NamedTuple):
    """Layout items that lack evidence or that only the operator can accept."""

    text: str
    more: int  # number of further subtitles that are drawn as sent if the items are added
    whole: str  # value of `--layout` with the items added


class LayoutChoice(NamedTuple):
    """A layout with the evidence for its items."""

    layout: Layout
    as_sent: int  # number of subtitles that the layout draws as they were sent
    total: int  # number of subtitles whose characters were decoded
    items: tuple[ItemEvidence, ...] = ()
    left: tuple[RejectedItems, ...] = ()  # rejected items that would draw more subtitles as sent

    @property
    def is_clear(self) -> bool:
        """Return whether the layout is probably the broadcaster's."""
        return self.total >= MIN_SUBTITLES and self.as_sent * 10 >= self.total * MIN_TENTHS


def list_items(layout: Layout) -> list[LayoutItem]:
    """Return the items of a layout. Each stripped code is an item of its own. `STAR` is the item
    for codes inserted after the leading codes of a line."""
    items = [("strip", code) for code in layout.strip]
    if (layout.before, layout.behind) != (PLAIN.before, PLAIN.behind):
        items.append(("before", 0))
    if layout.behind and layout.before + layout.behind != PLAIN.before:
        items.append((STAR, 0))
    return items + [(name, 0) for name in SINGLE_VALUE_ITEMS
                    if getattr(layout, name) != getattr(PLAIN, name)]


def remove_items(layout: Layout, group: Iterable[LayoutItem]) -> Layout:
    """Return a layout with the default values for a group of items."""
    removed_items = {*group}
    layout = layout._replace(strip=bytes(
        code for code in layout.strip if ("strip", code) not in removed_items))
    if (STAR, 0) in removed_items:
        layout = layout._replace(before=layout.before + layout.behind, behind=b"")
    if ("before", 0) in removed_items:
        layout = layout._replace(before=PLAIN.before, behind=PLAIN.behind)
    return layout._replace(**{name: getattr(PLAIN, name) for name in SINGLE_VALUE_ITEMS if (name, 0)
                              in removed_items})


def add_items(layout: Layout, group: Iterable[LayoutItem], other: Layout) -> Layout:
    """Return a copy of a layout with a group of items taken from another layout."""
    codes = {code for name, code in group if name == "strip"}
    layout = layout._replace(strip=bytes(sorted({*layout.strip, *codes})))
    names = {name for name, _ in group}
    if names & {"before", STAR}:
        layout = layout._replace(before=other.before, behind=other.behind)
    return layout._replace(**{name: getattr(other, name) for name in SINGLE_VALUE_ITEMS
                              if name in names})


def format_items(group: Iterable[LayoutItem], layout: Layout) -> str:
    """Return a group of items as a value of `--layout`."""
    return format_layout(add_items(PLAIN, group, layout))


def find_questionable_items(layout: Layout) -> Group:
    """Return the items of a layout that are unlikely, or that remove something visible."""
    brought = layout.before + layout.behind
    removed_codes = {*VISIBLE_CODES, *({*RESTORABLE_CODES} - {*brought})}
    removed_items: set[LayoutItem] = {("strip", code) for code in layout.strip
                                      if code in removed_codes}
    if {*OVERRIDING_CODES} & {*layout.behind}:
        removed_items.add((STAR, 0))
    if FLASH in brought or brought.count(START_BOX) < BOXES_SHOWN:
        removed_items.add(("before", 0))
    if abs(layout.row) > MAX_MOVED_ROWS:
        removed_items.add(("row", 0))
    return frozenset(removed_items)


class Evidence:
    """The subtitles found in a recording, and the pages that layouts draw for them."""

    def __init__(self, subtitles: Sequence[SentSubtitle], option: NationalOption) -> None:
        self.subtitles, self.option = subtitles, option
        self.known: dict[Layout, list[Page]] = {}

    def page(self, sent: SentSubtitle, layout: Layout) -> Page:
        """Return the page that a layout draws for a subtitle, or `None` if the text has a fault."""
        lines = draw_text(sent.text, sent.row, sent.justify, layout, self.option)
        return None if isinstance(lines, TextFault) else make_page_rows(lines)

    def pages(self, layout: Layout) -> list[Page]:
        """Return the page that a layout draws for each subtitle."""
        if layout not in self.known:
            self.known[layout] = [self.page(sent, layout) for sent in self.subtitles]
        return self.known[layout]

    def count(self, layout: Layout) -> int:
        """Count the subtitles that a layout draws exactly as they were sent."""
        return sum(page == sent.rows for page, sent in zip(self.pages(layout), self.subtitles))

    def measure_evidence(self, layout: Layout, group: Iterable[LayoutItem],
                         is_enough: bool = False) -> ItemEvidence:
        """Return the evidence for a group of items. If `is_enough`, stop as soon as the evidence
        suffices."""
        smaller_layout, text = remove_items(layout, group), format_items(group, layout)
        right = [page == item.rows for page, item in zip(self.pages(layout), self.subtitles)]
        decisive_count = sent_count = 0
        for is_right in (False, True):
            for page, sent, was_drawn_right in zip(self.pages(layout), self.subtitles, right):
                if was_drawn_right == is_right and self.page(sent, smaller_layout) != page:
                    decisive_count, sent_count = decisive_count + 1, sent_count + is_right
                    if is_enough and is_right and ItemEvidence(text, decisive_count,
                                                               sent_count).has_evidence:
                        return ItemEvidence(text, decisive_count, sent_count)
        return ItemEvidence(text, decisive_count, sent_count)

    def find_unsupported(self, layout: Layout) -> Group | None:
        """Among the groups of items that lack evidence, return the group that changes the fewest
        subtitles. Return `None` if every group has evidence. If there are more than `MAX_ITEMS`
        items, return a single item."""
        items = list_items(layout)
        has_few_items = len(items) <= MAX_ITEMS
        sizes = range(1, len(items) + 1) if has_few_items else (1,)
        group_evidence = [(self.measure_evidence(layout, group, has_few_items), group)
                          for size in sizes for group in itertools.combinations(items, size)]
        weak_groups = [(rest.redrawn, len(group), group) for rest, group in group_evidence
                       if not (rest.has_evidence and has_few_items)]
        return frozenset(min(weak_groups)[-1]) if weak_groups else None

    def remove_unsupported(self, layout: Layout) -> tuple[Layout, list[Group]]:
        """Remove items that lack evidence or need the operator's decision. Return the layout and
        the removed groups of items."""
        removed_groups: list[Group] = []
        while group := find_questionable_items(layout) or self.find_unsupported(layout):
            layout = remove_items(layout, group)
            removed_groups.append(group)
        return layout, removed_groups

    def make_choice(self, layout: Layout, left: Sequence[RejectedItems] = ()) -> LayoutChoice:
        """Return a layout with the evidence for its items. If two items have the same text, keep
        the weaker evidence."""
        items: dict[str, ItemEvidence] = {}
        for item in list_items(layout):
            rest = self.measure_evidence(layout, [item])
            items[rest.text] = min(rest, items.get(rest.text, rest),
                                   key=lambda element: element.redrawn)
        return LayoutChoice(layout, self.count(layout), len(self.subtitles), (*items.values(),),
                            (*left,))

    def find_rejected_items(self, layout: Layout, removed_groups: Sequence[Group],
                            whole: Layout) -> list[RejectedItems]:
        """Return the removed groups of items with which a layout would draw more subtitles as sent.
        `whole` is the layout with all these groups. If `whole` draws even more subtitles as sent,
        append all groups as one entry."""
        count, left = self.count(layout), list[RejectedItems]()
        for group in removed_groups:
            other, text = add_items(layout, group, whole), format_items(group, whole)
            more = self.count(other) - count
            if more > 0 and all(element.text != text for element in left):
                left.append(RejectedItems(text, more, format_layout(other)))
        joint_count = self.count(whole) - count
        if joint_count > max((element.more for element in left), default=0):
            items = [item for group in removed_groups for item in group]
            left.append(RejectedItems(format_items(items, whole), joint_count,
                                      format_layout(whole)))
        return left


def choose_layouts(sent: Sequence[SentSubtitle],
                   option: NationalOption) -> tuple[LayoutChoice, LayoutChoice]:
    """Return two layouts: the layout that draws the most subtitles as sent, and a layout that can
    be recommended, since there is enough evidence for each of its items."""
    subtitles = [item for item in sent if is_found(item, option)]
    evidence = Evidence(subtitles, option)
    best = find_candidates(subtitles, option)
    closest = evidence.make_choice(min(best, key=lambda item: (-evidence.count(item),
                                                               compute_complexity(item))))
    if not closest.is_clear:
        return closest, closest
    layout = min((evidence.remove_unsupported(item)[0] for item in best),
                 key=lambda item: (-evidence.count(item), compute_complexity(item)))
    removed_groups = evidence.remove_unsupported(closest.layout)[1]
    return closest, evidence.make_choice(
        layout, evidence.find_rejected_items(layout, removed_groups, closest.layout))


def find_sent_subtitles(subtitles: Iterable[Subtitle], held: Timeline,
                        option: NationalOption) -> list[SentSubtitle]:
    """Return the subtitles whose characters were decoded while they were expected. Each has the
    page with these characters that lasted longest."""
    drawn_pages = []
    for subtitle in subtitles:
        letters = encode_text_characters(subtitle.text, option)
        pages = [(-count_shared_frames(held, number, subtitle), number)
                 for number in held.list_page_numbers(subtitle.begin, subtitle.end)
                 if letters and list_page_characters(held.pages[number]) == letters]
        if pages:
            drawn_pages.append(SentSubtitle(subtitle.text, subtitle.row, subtitle.justify,
                                            held.pages[min(pages)[1]]))
    return drawn_pages


def count_shared_frames(held: Timeline, number: int, subtitle: Subtitle) -> int:
    """Count the frames in which a subtitle is expected and page `number` is decoded."""
    span = held.get_page_span(number)
    return min(span.last + 1, subtitle.end) - max(span.first, subtitle.begin)
