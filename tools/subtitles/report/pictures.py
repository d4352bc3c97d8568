"""Draw Teletext pages as a level 1 receiver shows them."""
from __future__ import annotations

import codecs
import functools
import itertools
import operator
import re
from typing import Any, Callable, Iterable, Iterator, NamedTuple, TypeVar

from ..common.command_line import counted
from ..common.markup import Markup, NO_MARKUP, join_markup, markup
from ..formats.teletext import NEWSFLASH, SUBTITLE, has_bit, make_character_table
from ..stream.receiver import BLANK_PAGE, HIT, OLD, ReceiverState, Rows, read_national_option


# A Teletext page of level 1 (EN 300 706, 12.2), drawn as SVG. Each cell has 12 by 15 units. Cells
# outside a box are faint, since receivers do not show them.

WIDTH, HEIGHT = 12, 15
SPACE = 0x20
BLANK_ROW = b" " * 40
BLANK_PAGE_ROWS = 21, 23  # rows to draw if a page is blank
ARIA_HIDDEN = markup('aria-hidden="true"')  # screen readers read the rows as text instead
NUMBERS = 22  # width of the row numbers in units

Look = tuple[int, bool, bool, bool]  # foreground colour, flash, boxed, double height
Ground = tuple[int, bool]  # background colour, and whether the cell is boxed
Place = tuple[int, int]  # row and column
RowRange = tuple[int, int]  # first and last row
Key = TypeVar("Key")

# A single spacing attribute, or a sequence of characters.
PARTS = re.compile(rb"[\0-\x1f\x80-\x9f]|[^\0-\x1f\x80-\x9f]+")
MARKED_CELLS = re.compile(bytes([HIT]) + b"+|" + bytes([OLD]) + b"+")


class CellStyle(NamedTuple):
    """The characters and style of neighbouring cells. Ink and paper are colours from 0 to 7."""

    characters: str
    ink: int
    background: int
    flash: bool
    boxed: bool
    double: bool


# Key functions to group neighbouring cells that are drawn together
get_characters: Callable[[CellStyle], str] = operator.attrgetter("characters")
get_look: Callable[[CellStyle], Look] = operator.attrgetter("ink", "flash", "boxed", "double")
get_ground: Callable[[CellStyle], Ground] = operator.attrgetter("background", "boxed")


@functools.lru_cache(maxsize=None)
def make_decoding_table(option: int, is_mosaic: bool) -> Any:
    """Return the characters of bytes 00 to FF as a decoding table for `codecs`. The type is `Any`,
    since mypy rejects a string there."""
    table = make_character_table(option)
    return "".join("\u2592" if is_mosaic and byte & 0x20 and byte & 0x7F != SPACE
                   else table[byte & 0x7F] for byte in range(256))


def decode_cells(cells: bytes, option: int, is_mosaic: bool = False) -> str:
    """Return the characters of consecutive cells."""
    return codecs.charmap_decode(cells, "strict", make_decoding_table(option, is_mosaic))[0]


def style_row(row: bytes, number: int, option: int, is_boxed_page: bool) -> list[CellStyle]:
    """Return the style of each group of cells in a row. Spacing attributes set the style."""
    ink, paper, flash, boxed, double, mosaic = 7, 0, False, not is_boxed_page, False, False
    spans: list[CellStyle] = []
    last = SPACE
    for part in PARTS.findall(row):
        code = part[0] & 0x7F
        # These spacing attributes act on their own cell. The second of two equal box codes begins
        # or ends a box.
        if code >= SPACE:
            pass
        elif code == 0x09:
            flash = False
        elif code == 0x0C:
            double = False
        elif code == 0x1C:
            paper = 0
        elif code == 0x1D:
            paper = ink
        elif code in (0x0A, 0x0B) and code == last and is_boxed_page:
            boxed = code == 0x0B
        text = decode_cells(part, option, mosaic)
        spans.append(CellStyle(text, ink, paper, flash, boxed, double))
        last = code
        # The other spacing attributes act on the next cell.
        if code >= SPACE:
            pass
        elif code < 8 or 0x10 <= code < 0x18:
            ink, mosaic = code & 7, code >= 0x10
        elif code == 0x08:
            flash = True
        elif code == 0x0D:
            double = number < 23  # no room for double height below row 22
    return spans


def group_cells(spans: Iterable[CellStyle], key: Callable[[CellStyle], Key]) \
        -> Iterator[tuple[Key, int, str]]:
    """Yield the key, first column and text of each group of adjacent cells with the same key."""
    column = 0
    for value, several in itertools.groupby(spans, key):
        text = "".join(map(get_characters, several))
        yield value, column, text
        column += len(text)


def draw_text(look: Look, column: int, text: str) -> Markup:
    """Draw the text of neighbouring cells with the same style, without spaces."""
    column += len(text) - len(text.lstrip(" "))
    text = text.strip(" ")
    if not text:
        return NO_MARKUP
    ink, flash, boxed, double = look
    names = [f"i{ink}"] + ["f"] * flash + ["u"] * (not boxed)
    scale = markup(' transform="scale(1 2)"') * double
    return markup('<text class="{}" x="{}" y="11.8"{} textLength="{}" '
                  'lengthAdjust="spacingAndGlyphs">{}</text>', " ".join(names), column * WIDTH,
                  scale, len(text) * WIDTH, text)


@functools.lru_cache(maxsize=4096)
def draw_row(row: bytes, number: int, option: int, is_boxed_page: bool) -> tuple[Markup, bool]:
    """Draw a row as SVG. Also return whether double height hides the next row."""
    spans = style_row(row, number, option, is_boxed_page)
    is_tall = any(item.double for item in spans)
    height = HEIGHT * (2 if is_tall else 1)
    parts = [markup('<g transform="translate(0 {})">', (number - 1) * HEIGHT)]
    for (paper, boxed), column, text in group_cells(spans, get_ground):
        if boxed:
            parts.append(markup('<rect class="p{}" x="{}" width="{}" height="{}"/>', paper,
                                column * WIDTH, len(text) * WIDTH, height))
    for look, column, text in group_cells(spans, get_look):
        parts.append(draw_text(look, column, text))
    for found in MARKED_CELLS.finditer(row):
        name, (begin, end) = "hit" if found[0][0] == HIT else "old", found.span()
        parts.append(markup('<rect class="{}" x="{}" y="1" width="{}" height="13"/>', name,
                            begin * WIDTH + 1, (end - begin) * WIDTH - 2))
    parts.append(markup('<text class="n" x="-4" y="11">{}</text></g>', number))
    return join_markup(parts), is_tall


def draw_outlines(different: Iterable[Place], tall: set[int]) -> Markup:
    """Draw outlines around differing cells. Neighbouring cells share an outline."""
    boxes: dict[tuple[int, int, int], int] = {}
    for row, group in itertools.groupby(sorted(different), lambda cell: cell[0]):
        columns = [column for _, column in group]
        for _, pairs in itertools.groupby(enumerate(columns), lambda pair: pair[1] - pair[0]):
            run = [column for _, column in pairs]
            end = row + 1 + (row in tall)
            first = boxes.pop((run[0], len(run), row), row)
            boxes[run[0], len(run), end] = first
    return join_markup(draw_outline(column, width, first, end)
                       for (column, width, end), first in boxes.items())


def draw_outline(column: int, width: int, first: int, end: int) -> Markup:
    """Draw an outline around cells from row `first` to the row before `end`."""
    place = markup('x="{}" y="{}" width="{}" height="{}"', column * WIDTH, (first - 1) * HEIGHT,
                   width * WIDTH, (end - first) * HEIGHT)
    return markup('<rect class="d1" {}/><rect class="d2" {}/>', place, place)


def is_boxed(header: bytes) -> bool:
    """Return whether a receiver shows only the boxed cells of a page."""
    return has_bit(header, NEWSFLASH) or has_bit(header, SUBTITLE)


def find_used_rows(pages: Iterable[Rows]) -> RowRange:
    """Return the first and the last row to draw. They lie one row above and below the used rows."""
    used = [number for rows in pages for number, row in enumerate(rows, 1) if row != BLANK_ROW]
    if not used:
        return BLANK_PAGE_ROWS
    return max(1, min(used) - 1), min(24, max(used) + 1)


def begin_picture(kind: str, shown_rows: RowRange) -> Markup:
    """Return the beginning of a picture: its background, with room for row numbers."""
    top, height = (shown_rows[0] - 1) * HEIGHT, (shown_rows[1] - shown_rows[0] + 1) * HEIGHT
    return markup('<svg class="{}" viewBox="{} {} {} {}" {} xml:space="preserve"><rect class="v" '
                  'y="{}" width="480" height="{}"/>', kind, -NUMBERS, top - 1, 482 + NUMBERS,
                  height + 2, ARIA_HIDDEN, top, height)


def draw_picture(rows: Rows, header: bytes, shown_rows: RowRange,
                 different: Iterable[Place] = (), region: int = 0) -> Markup:
    """Draw rows of a page as SVG, with outlines around differing cells, for a receiver that is set
    to a region."""
    parts = [begin_picture("page", shown_rows)]
    tall: set[int] = set()
    option, has_boxes = 8 * region + read_national_option(header), is_boxed(header)
    for number, row in enumerate(rows[shown_rows[0] - 1:shown_rows[1]], shown_rows[0]):
        if (row != BLANK_ROW or not has_boxes) and number - 1 not in tall:
            row_markup, is_tall = draw_row(row, number, option, has_boxes)
            parts.append(row_markup)
            tall |= {number} if is_tall else set()
    parts.append(draw_outlines(different, tall))
    parts.append(markup("</svg>"))
    return join_markup(parts)


def draw_empty_picture(words: str, shown_rows: RowRange) -> Markup:
    """Draw a picture with the reason why there is no page."""
    middle = (shown_rows[0] + shown_rows[1] - 1) * HEIGHT // 2 + 7
    return markup('{}<text class="w" x="240" y="{}">{}</text></svg>',
                  begin_picture("page none", shown_rows), middle, words)


def find_differences(expected: Rows, decoded: Rows) -> list[Place]:
    """Return the row and column of each cell that differs between two pages."""
    if expected == decoded:
        return []
    return [(number, column)
            for number, (one, other) in enumerate(zip(expected, decoded), 1) if one != other
            for column in range(40) if (one[column] ^ other[column]) & 0x7F]


NO_TEXT = "no text"


def draw_picture_pair(time: str, expected: Rows, header: bytes, state: ReceiverState | None,
                      region: int = 0) -> Markup:
    """Draw the expected and the received page at the end of a frame."""
    decoded = state.rows if state and state.is_received else None
    shown_rows = find_used_rows([expected, decoded] if decoded else [expected])
    left = make_figure(f"Expected at {time}", NO_TEXT * (expected == BLANK_PAGE),
                       draw_picture(expected, header, shown_rows, (), region))
    if state is None or decoded is None or state.header is None:
        reason = "not known" if state is None else "nothing received yet"
        return markup('<div class="pictures">{}{}</div>', left, make_figure(
            f"Received at {time}", reason, draw_empty_picture(reason, shown_rows)))
    different = find_differences(expected, decoded)
    words = [f"{counted(len(different), 'cell')} differ{'s' * (len(different) == 1)}"
             if different else "no cell differs"]
    words += [NO_TEXT] * (decoded == BLANK_PAGE)
    words += [] if is_boxed(state.header) else ["C5 and C6 are clear: the whole page is shown"]
    marks = set(b"".join(decoded))
    words += ["dotted: never sent"] * (OLD in marks) + ["dashed: even parity"] * (HIT in marks)
    if state.screen and state.screen[0] != decoded:
        words.append("the page is incomplete: receivers that wait for the next header still show "
                     "the previous page")
    return markup('<div class="pictures">{}{}</div>', left, make_figure(
        f"Received at {time}", "; ".join(words), draw_picture(decoded, state.header, shown_rows,
                                                             different, region)))


def make_figure(caption: str, words: str, picture: Markup) -> Markup:
    """Return a picture with a caption, followed by `words` in small print."""
    return markup("<figure><figcaption>{} <small>{}</small></figcaption>{}</figure>", caption,
                  words, picture)
