"""Format and compare pages, and find rows that no receiver shows."""
from __future__ import annotations

import enum
import functools
from typing import Iterator, NamedTuple, Sequence

from ..common.command_line import counted
from ..common.times import format_frame
from ..formats.listing import NamedFault, NOT_SHOWN
from ..formats.stl import Subtitle, SubtitleFile
from ..formats.teletext import NationalOption, OPTION_BY_WORD, make_character_table
from ..recording.notices import Notice
from ..stream.layout import find_sent_subtitles
from ..stream.receiver import Rows, Timeline


ATTRIBUTES = (
    "alpha black", "alpha red", "alpha green", "alpha yellow", "alpha blue", "alpha magenta",
    "alpha cyan", "alpha white", "flash", "steady", "end box", "start box", "normal height",
    "double height", "double width", "double size", "mosaic black", "mosaic red", "mosaic green",
    "mosaic yellow", "mosaic blue", "mosaic magenta", "mosaic cyan", "mosaic white", "conceal",
    "contiguous mosaics", "separated mosaics", "escape", "black background", "new background",
    "hold mosaics", "release mosaics")  # names of the codes 00 to 1F
SPACE = 0x20
SPACES = bytes(max(code, SPACE) for code in range(256))  # translates attributes to spaces


class TextRow(NamedTuple):
    """A row with characters: its number, the column of its first character, the text from the first
    to the last character, and all its attributes."""

    row: int
    column: int
    text: bytes
    attributes: bytes


@functools.lru_cache(maxsize=1 << 12)
def find_text_rows(rows: Rows) -> tuple[TextRow, ...]:
    """Return the rows of a page that contain characters."""
    text_rows = []
    for number, row in enumerate(rows, 1):
        words = row.translate(SPACES)
        if words.strip():
            column = len(words) - len(words.lstrip())
            attributes = bytes(code for code in row if code < SPACE)
            text_rows.append(TextRow(number, column, words.strip(), attributes))
    return tuple(text_rows)


def join_page_text(rows: Rows) -> str:
    """Return the text of a page as one line, without its positions on the page."""
    return " ".join(b" ".join(line.text for line in find_text_rows(rows)).decode("latin-1").split())


def format_page_text(rows: Rows, option: int) -> str:
    """Return the text of a page, with slashes between rows. `option` is the number of the national
    option that selects the characters."""
    table = make_character_table(option)
    return " / ".join("".join(table[code & 0x7F] for code in line.text)
                      for line in find_text_rows(rows))


def format_cells(rows: Rows) -> str:
    """Return the non-blank rows of a page as text. Attributes are hexadecimal numbers."""
    lines = []
    for number, row in enumerate(rows, 1):
        cells = row.strip(b" ")
        if cells:
            words = "".join(chr(cell) if SPACE <= cell < 0x7F else f"<{cell:02X}>"
                            for cell in cells)
            column = len(row) - len(row.lstrip(b" "))
            lines.append(f"row {number} column {column}: {words}")
    return ", ".join(lines)


def find_text_columns(rows: Rows) -> list[int]:
    """Return the column of the first character in each row that has characters."""
    return [next(at for at, cell in enumerate(row) if cell > SPACE) for row in rows
            if any(cell > SPACE for cell in row)]


def describe_code(code: int) -> str:
    """Return the name of an attribute, or the code of any other cell."""
    if code == SPACE:
        return "a space"
    return ATTRIBUTES[code] if code < SPACE else f"{code:02X}"


def describe_move(due: Rows, sent: Rows) -> str:
    """Describe the first difference in position between two pages with the same text."""
    for row, other in zip(find_text_rows(due), find_text_rows(sent)):
        if row.row != other.row:
            return f"row {other.row} instead of {row.row}"
        if row.column != other.column:
            return f"row {row.row} from column {other.column} instead of {row.column}"
    return f"{len(find_text_rows(sent))} rows instead of {len(find_text_rows(due))}"


def describe_attribute_difference(due: Rows, sent: Rows) -> str:
    """Describe the first cell that differs between two pages. If its row begins or ends at another
    column, describe this too."""
    for number, (row, other) in enumerate(zip(due, sent), 1):
        for column, (code, held) in enumerate(zip(row, other)):
            if code != held:
                return (f"row {number} column {column}: {describe_code(held)} instead of "
                        f"{describe_code(code)}{describe_row_ends(row, other)}")
    return ""


def describe_row_ends(due: bytes, sent: bytes) -> str:
    """Describe how many columns too early or too late a row, including its attributes, begins or
    ends. Return an empty string if it begins and ends as expected."""
    (first, end), (begins, ends) = find_extent(due), find_extent(sent)
    words = [] if begins == first else [describe_columns("begins", begins - first)]
    words += [] if ends == end else [describe_columns("ends", ends - end)]
    return "".join(f", {word}" for word in words)


def find_extent(row: bytes) -> tuple[int, int]:
    """Return the column of the first cell that is no space, and the column after the last such
    cell."""
    return len(row) - len(row.lstrip(b" ")), len(row.rstrip(b" "))


def describe_columns(subject: str, columns: int) -> str:
    """Return text such as `begins a column early`. A positive number of columns means `late`."""
    count = "a column" if abs(columns) == 1 else counted(abs(columns), "column")
    return f"{subject} {count} {'late' if columns > 0 else 'early'}"


def is_text_moved(due: Rows, sent: Rows) -> bool:
    """Return whether the same text has different positions on two pages. Ignore a shift by columns
    if the attributes differ too: an attribute takes a cell, so adding one shifts the text."""
    rows, other = find_text_rows(due), find_text_rows(sent)
    if [line.row for line in rows] != [line.row for line in other]:
        return True
    has_same_attributes = [line.attributes for line in rows] == [line.attributes for line in other]
    return has_same_attributes and [line.column for line in rows] != [line.column for line in other]


def describe_extra_rows(due: Rows, sent: Rows) -> str:
    """Describe the rows that a page has in addition to the expected rows. Return an empty string if
    there are none, or if an expected row is wrong."""
    if any(row != other for row, other in zip(due, sent) if row.strip()):
        return ""
    *others, last = ["", *(str(line.row) for line in find_text_rows(sent)
                           if not due[line.row - 1].strip())]
    if not last:
        return ""
    return f"additional rows: {', '.join(others[1:])} and {last}" if others[1:] else \
        f"an additional row: {last}"


def is_partial_page(sent: Rows, due: Rows) -> bool:
    """Return whether a page has only some of the rows of another page."""
    return all(row == expected_row or not row.strip() for row, expected_row in zip(sent, due))


class CodedRow(NamedTuple):
    """A row with characters: its number, the column of its first cell, the codes before the first
    character, the cells from the first to the last character, and the codes after it."""

    row: int
    column: int
    codes_before: bytes
    characters: bytes
    codes_after: bytes


def find_coded_rows(rows: Rows) -> Iterator[CodedRow]:
    """Yield the rows of a page that contain characters."""
    for number, row in enumerate(rows, 1):
        cells = row.strip(b" ")
        at = [place for place, cell in enumerate(cells) if cell > SPACE]
        if at:
            yield CodedRow(number, len(row) - len(row.lstrip(b" ")), cells[:at[0]],
                           cells[at[0]:at[-1] + 1], cells[at[-1] + 1:])


def describe_drawing_differences(subtitles: Sequence[Subtitle], pages: Sequence[Rows],
                                 held: Timeline, option: NationalOption) -> str:
    """Describe how many subtitles have the correct characters in a different layout, and the
    difference in the first of them. `held` has the decoded pages."""
    differing_subtitles = [(subtitle, page, sent.rows) for subtitle, page in zip(subtitles, pages)
                           for sent in find_sent_subtitles([subtitle], held, option)
                           if sent.rows != page]
    if not differing_subtitles:
        return ""
    subtitle, page, rows = differing_subtitles[0]
    others = f" and {counted(len(differing_subtitles) - 1, 'more subtitle')} have" \
        if len(differing_subtitles) > 1 else " has"
    return f"{subtitle.name}{others} the right text in another layout: " \
        f"{describe_row_difference(page, rows)}"


def describe_row_difference(due: Rows, sent: Rows) -> str:
    """Describe the first difference between two pages with the same characters: the row, the column
    or the attributes that differ."""
    lines, others = [*find_coded_rows(due)], [*find_coded_rows(sent)]
    if len(lines) != len(others):
        return f"{counted(len(others), 'row')} instead of {len(lines)}"
    row, other = next((pair for pair in zip(lines, others) if pair[0] != pair[1]),
                      (lines[0], others[0]))
    words = [
        f"row {other.row} instead of {row.row}" if other.row != row.row else f"row {row.row}",
        *([f"column {other.column} instead of {row.column}"] * (other.column != row.column)),
        *(f"{format_codes(other_codes)} {position} the text instead of {format_codes(own_codes)}"
          for position, own_codes, other_codes in (("before", row.codes_before, other.codes_before),
                                                   ("after", row.codes_after, other.codes_after))
          if own_codes != other_codes),
        *(["other codes within the text"] * (other.characters != row.characters))]
    return ", ".join(words)


def format_codes(codes: bytes) -> str:
    """Return codes as hexadecimal numbers. A space character is written as 20."""
    return " ".join(f"{code:02X}" for code in codes) or "nothing"


# Receivers show only the boxes of a subtitle page. libzvbi opens a box at two consecutive start box
# codes (0B 0B), ffmpeg at the first one. Two end box codes (0A 0A) close the box. Characters in the
# colour of their background are invisible. docs/FIELD.md has a table of both decoders.

START_BOX, END_BOX, BLACK_BACKGROUND, NEW_BACKGROUND = 0x0B, 0x0A, 0x1C, 0x1D
WHITE, BLACK = 7, 0
# codes that may hide characters of a text
HIDING_CODES = bytes((START_BOX, END_BOX, NEW_BACKGROUND))
HIDDEN = "hidden"  # kind of the warnings about hidden rows


class Cell(NamedTuple):
    """A character of a row."""

    column: int
    code: int
    is_boxed: bool  # whether two start box codes open the character's box
    is_after_start_box: bool  # whether at least one start box code opens the character's box
    is_invisible: bool  # whether the character has the colour of its background

    @property
    def is_shown(self) -> bool:
        """Return whether libzvbi shows the character."""
        return self.is_boxed and not self.is_invisible

    @property
    def is_shown_anywhere(self) -> bool:
        """Return whether any of the tested decoders shows the character."""
        return self.is_after_start_box and not self.is_invisible


class Visibility(enum.Enum):
    """How much of a row receivers show."""

    ALL = "all of it, or it has no letters"
    SOME = "some letters, or all by some receivers"
    NONE = "none of its letters"


def decode_cells(cells: bytes) -> Iterator[Cell]:
    """Yield the characters of a row as cells."""
    ink, paper, is_boxed, is_begun, last = WHITE, BLACK, False, False, SPACE
    for column, byte in enumerate(cells):
        code = byte & 0x7F
        if code == START_BOX:
            is_boxed, is_begun = is_boxed or last == START_BOX, True
        elif code == END_BOX and last == END_BOX:
            is_boxed = is_begun = False
        elif code == BLACK_BACKGROUND:
            paper = BLACK
        elif code == NEW_BACKGROUND:
            paper = ink
        if code > SPACE:
            yield Cell(column, code, is_boxed, is_begun, ink == paper)
        elif code < 8 or 0x10 <= code < 0x18:  # a colour acts on the cells after it
            ink = code & 7
        last = code


@functools.lru_cache(maxsize=1000)
def find_visibility(cells: bytes) -> Visibility:
    """Return how much of a row receivers show."""
    drawn_cells = [*decode_cells(cells)]
    if all(cell.is_shown for cell in drawn_cells):
        return Visibility.ALL
    return Visibility.SOME if any(cell.is_shown_anywhere
                                  for cell in drawn_cells) else Visibility.NONE


def describe_hidden_characters(cells: bytes, option: str) -> str:
    """Describe which characters of a row are hidden, by which decoders, and why."""
    table = make_character_table(OPTION_BY_WORD[option].number)

    def text(several: Sequence[Cell]) -> str:
        return '"' + "".join(table[cell.code] for cell in several) + '"'

    hidden_cells = [cell for cell in decode_cells(cells) if not cell.is_shown]
    similar_cells = [cell for cell in hidden_cells if cell.is_invisible]
    outside = [cell for cell in hidden_cells if not cell.is_invisible
               and not cell.is_after_start_box]
    shown_elsewhere = [cell for cell in hidden_cells if cell.is_shown_anywhere]
    words = [f"no receiver shows {text(similar_cells)}, which has the colour of its background"] \
        if similar_cells else []
    words += [f"no receiver shows {text(outside)}, which is outside of a box"] if outside else []
    words += [f"libzvbi does not show {text(shown_elsewhere)}, which follows a single start box "
              "(0B); ffmpeg does"] if shown_elsewhere else []
    return "; ".join(words)


class HiddenRows(NamedTuple):
    """The rows that no receiver shows, and warnings about the rows that some receivers hide."""

    faults: list[NamedFault]
    warnings: list[Notice]


def may_hide_rows(subtitles: Sequence[Subtitle], has_layout: bool) -> bool:
    """Return whether a row may be hidden. Only a layout or certain codes in a text can hide one."""
    return has_layout or any(bytes([code]) in subtitle.text
                             for subtitle in subtitles for code in HIDING_CODES)


def find_hidden_rows(subtitles: Sequence[Subtitle], pages: Sequence[Rows], file: SubtitleFile,
                     option: str) -> HiddenRows:
    """Return the faults of hidden rows in all subtitles, and the warnings about them."""
    hidden_rows = HiddenRows([], [])
    for subtitle, page in zip(subtitles, pages):
        for row, cells in enumerate(page, 1):
            sight = find_visibility(cells)
            if sight == Visibility.ALL:
                continue
            words = f"{subtitle.name} at {format_frame(subtitle.begin)}, row {row}: " \
                f"{describe_hidden_characters(cells, option)}"
            if sight == Visibility.NONE:
                hidden_rows.faults.append(NamedFault(
                    NOT_SHOWN, words, block=file.start_blocks[subtitle.index - 1]))
            else:
                hidden_rows.warnings.append(Notice(HIDDEN, words, format_frame(subtitle.begin)))
    return hidden_rows
