"""Test how layouts are parsed, how they draw subtitles, and how they are detected and proposed."""
from __future__ import annotations

import itertools
from collections import Counter
from typing import Iterable, NamedTuple, Sequence

from developing.pes import decode_address
from developing.stl import make_gsi_block, make_subtitle_blocks
from subtitles.formats.layout import (
    compute_complexity, draw_text, encode_text_characters, format_layout, Layout,
    list_page_characters, make_page_rows, parse_layout, PLAIN, TextFault)
from subtitles.formats.listing import parse_fault_line
from subtitles.formats.teletext import ENGLISH, OPTION_BY_WORD, Page
from subtitles.stream.layout import (
    add_items, choose_layouts, count_misdrawn, draws_as_sent, Evidence, find_ends,
    find_questionable_items, is_found, ItemEvidence, LayoutChoice, list_items, match_lines,
    MAX_ITEMS, remove_items, SentSubtitle)
from ..every_place.on_air import find_page_span, Packet, read_rows
from ..every_place.reading import decode_header, read_packet, split_packets
from .bench import Case
from .stories import read_vectors

GERMAN = OPTION_BY_WORD["german"]
# Invalid values of --layout besides those in dev/vectors/layouts.tsv
INVALID_LAYOUTS = (
    "", "row=23", "row=--1", "left=-1", "free=4", "left=", ",fit", "fit fit", "before", "row=1\n",
    "left=\u0661", "left=-0", "free=-1")
TEXTS = [b"the cat", b"on a mat, and then it went to see", b"what was there", b"Hi Ho", b"yes"]


def draw_programme(layout: Layout, has_codes: bool = False, leaves_room: bool = False,
                   count: int = 120) -> list[SentSubtitle]:
    """Return subtitles of one or two lines, with the pages that a layout draws. `has_codes` adds
    control codes to the lines. `leaves_room` puts an empty line between two lines."""
    sent = list[SentSubtitle]()
    for number in range(count):
        colour, begin, end = (b"", b"\3", b"", b"\6")[number % 4], b"", b""
        if has_codes:
            colour, begin, end = b"\x0d" + colour, b"\x0b\x0b", b"\x0a\x0a"
        lines = [colour + begin + TEXTS[number * by % 5] + end for by in (1, 2)[:1 + number % 3]]
        text, justify = (b"\x8a\x8a" if leaves_room else b"\x8a").join(lines), number // 3 % 4
        drawn = draw_text(text, row := 16 + number // 2 % 3 * 2, justify, layout, ENGLISH)
        assert not isinstance(drawn, TextFault), (text, row, layout)
        sent.append(SentSubtitle(text, row, justify, make_page_rows(drawn)))
    return sent


class Layouts(Case):
    def test_rejects_invalid_layouts(self) -> None:
        for text in INVALID_LAYOUTS:
            self.check(f"{text!r}", parse_layout(text), None)

    def test_writes_the_shortest_text_of_a_layout(self) -> None:
        for row in read_vectors("equal-layouts.tsv"):
            text, shortest = row["layout"], row["shortest"]
            found = parse_layout(text)
            self.must(text, found and format_layout(found) == shortest, found)
            self.check(f"{text}, read again", parse_layout(shortest) if shortest else PLAIN, found)

    def test_sorts_layouts_by_their_number_of_items_then_by_length(self) -> None:
        order = ["", "up", "fit", "last", "text", "after=", "row=-1", "before=0D070B0B", "fit,up"]
        self.check("order", sorted(order[::-1], key=lambda text: compute_complexity(
            parse_layout(text) or PLAIN)), order)

    def test_encodes_the_characters_of_a_text_without_codes_and_spaces(self) -> None:
        self.check_rows(lambda text: encode_text_characters(text, ENGLISH), {
            "E6 is not a character of the option": ((b"a\xe6b",), None),
            "a colour between spaces": ((b" \x03 ",), b""),
            "a new line and a colour": ((b"a\x8a\x03b",), b"ab")})

    def test_an_accent_needs_its_letter_next_to_it_before_codes_are_stripped(self) -> None:
        # The German option has "ä" (C8 and "a" in the file) as `{`, and no accent alone (fault 50).
        strips_0a = Layout(strip=b"\x0a")
        pair = draw_text(b"a\x0a\xc8a", 5, 2, strips_0a, GERMAN)
        assert isinstance(pair, list)
        self.check("next to each other", [line.cells for line in pair], [b"\x0b\x0ba{\x0a\x0a"])
        self.check("with a code between them", draw_text(b"\xc8\x0aa", 5, 2, strips_0a, GERMAN),
                   TextFault(50, 0))


class LayoutSearch(Case):
    """Programmes whose pages a broadcaster's layout draws; `choose_layouts` finds this layout."""

    def test_finds_the_layout_of_each_broadcaster(self) -> None:
        for row in read_vectors("broadcaster-layouts.tsv"):
            layout = read_intended_layout(row["layout"])
            sent = draw_programme(layout, row["control codes"] == "yes", row["empty line"] == "yes")
            result = choose_layouts(sent, ENGLISH)[1]
            self.must(row["layout"], result.as_sent == result.total == len(sent) and result.is_clear
                      and compute_complexity(result.layout) <= compute_complexity(layout), result)

    def test_finds_layouts_that_only_some_texts_show(self) -> None:
        for name, layout, justify, texts in (
                ("a full row has no codes after its text", Layout(fit=True), 2,
                 [b"%02d" % at + b"x" * size for at in range(12) for size in (9, 36)]),
                ("a left margin of lines without justification", Layout(left=4), 0,
                 [b"%02d" % at + b"x" * at for at in range(12)])):
            sent = draw_sent_subtitles([SentText(text, text, justify) for text in texts], layout)
            self.check(name, choose_layouts(sent, ENGLISH)[1][:3],
                       (layout, len(texts), len(texts)))

    def test_finds_the_layout_although_two_pages_are_wrong(self) -> None:
        sent = draw_programme(Layout(text=True))
        misspelt = sent[20]._replace(rows=tuple(row.replace(b"e", b"c") for row in sent[20].rows))
        moved = sent[30]._replace(rows=tuple(row[-3:] + row[:-3] for row in sent[30].rows))
        sent[20:21], sent[30:31] = [misspelt], [moved]
        result = choose_layouts(sent, ENGLISH)[1]
        self.check("layout", (result.layout, result.is_clear), (Layout(text=True), True))
        # The misspelt page is not found by its text, and the moved page is found elsewhere.
        self.check("counts", (result.as_sent, result.total), (len(sent) - 2, len(sent) - 1))

    def test_finds_columns_although_one_subtitle_differs(self) -> None:
        house, other = map(read_intended_layout, ("left=3,text", "left=3,text,after=0A"))
        sent, otherwise = map(draw_programme, (house, other))
        for place in (0, len(sent) - 1):
            mixed = [*sent[:place], otherwise[place], *sent[place + 1:]]
            self.check(f"subtitle {place} differs", choose_layouts(mixed, ENGLISH)[1][:3],
                       LayoutChoice(house, as_sent=len(sent) - 1, total=len(sent))[:3])

    def test_finds_no_layout_without_evidence(self) -> None:
        sent = draw_programme(PLAIN)
        others = [item._replace(rows=other.rows) for item, other in zip(sent, sent[1:])]
        self.must("another programme", not choose_layouts(others, ENGLISH)[1].is_clear)
        self.must("nine subtitles", not choose_layouts(sent[:9], ENGLISH)[1].is_clear)
        self.check("ten subtitles", choose_layouts(sent[:10], ENGLISH)[1],
                   LayoutChoice(PLAIN, as_sent=10, total=10))
        self.check("no subtitle", choose_layouts([], ENGLISH)[1], LayoutChoice(PLAIN, 0, 0))

    def test_finds_no_layout_if_two_are_used_in_turns(self) -> None:
        turns = [item for pair in zip(draw_programme(PLAIN, count=60),
                                      draw_programme(Layout(row=-1), count=60)) for item in pair]
        closest = choose_layouts(turns, ENGLISH)[0]
        self.check("clear, and subtitles", (closest.is_clear, closest.total), (False, 120))
        self.must("at least as good as the plain one", closest.total - closest.as_sent <=
                  count_misdrawn(PLAIN, turns, ENGLISH, len(turns)), closest)


class StoredRows(Case):
    """The rows of dev/vectors/layouts.tsv."""

    def test_tools_draw_what_the_program_sends(self) -> None:
        for row in read_vectors("layouts.tsv"):
            name, text = " ".join(row.values()), bytes.fromhex(row["text"])
            layout = parse_layout(row["layout"]) if row["layout"] != "-" else PLAIN
            if layout is None:
                self.check(name, row["page"], "usage 89 Layout")
                continue
            lines = draw_text(text, int(row["row"]), int(row["justify"]), layout, ENGLISH)
            fault = parse_fault_line(row["page"])
            result: object = lines if isinstance(lines, TextFault) else format_rows(
                enumerate(make_page_rows(lines), 1))
            self.check(name, result,
                       TextFault(fault.number, fault.at or 0) if fault else row["page"])
            if not isinstance(lines, TextFault):
                self.check(f"{name}: characters", list_page_characters(make_page_rows(lines)),
                           encode_text_characters(text, ENGLISH))

    def test_the_program_sends_and_accepts_each_row(self) -> None:
        for row in read_vectors("layouts.tsv"):
            stl = self.write("one.stl", make_gsi_block(b"One", 1, 1) + make_subtitle_blocks(
                1, 0, 50, int(row["row"]), int(row["justify"]), bytes.fromhex(row["text"])))
            words = [] if row["layout"] == "-" else ["--layout", row["layout"]]
            name = " ".join(row.values())
            process = self.call([self.bench.program, "schedule", stl, "one.pes", *words])
            if process.status:
                self.check(name, process.out.decode(), f"{row['page']}\n")
                continue
            self.check(name, list_sent_rows(self.read("one.pes")), row["page"])
            process = self.call([self.bench.program, "check", stl, "one.pes", *words])
            # From the TCI in frame 0 to the TCO in frame 50: the page and its erasure
            self.check(f"{name}: check", process.out, b"accepted 51 frames 2 transmissions\n")


def list_sent_rows(pes: bytes) -> str:
    """Return the rows of the first page transmission, in the format of `format_rows`."""
    page: Page = (0, 0x88)
    sending = read_packet(split_packets(pes)[0][0], 0, 0)
    assert not isinstance(sending, int)
    packets = [Packet(item, decode_address(item), decode_header(item)) for item in sending[1]]
    return format_rows(sorted(read_rows(find_page_span(packets, page)[0], page).items()))


def format_rows(rows: Iterable[tuple[int, bytes]]) -> str:
    """Format rows as `ROW COLUMN CODES`, separated by `; `. Return `blank` if there are none."""
    return "; ".join(f"{number} {len(codes) - len(codes.lstrip(b' '))} {codes.strip(b' ').hex()}"
                     for number, codes in rows if codes.strip(b" ")) or "blank"


SHORT_TEXTS = [b"cat", b"dog", b"the sun", b"and then", b"who knows", b"yes"]


class SentText(NamedTuple):
    """A subtitle's text in the file, the text of its page, and its justification code (JC)."""

    text: bytes
    sent: bytes
    justify: int = 2


# Texts sent without one of their codes, without spaces or without an empty line, and the layout
# item that describes it: items that hide something from viewers, and others (00 is never sent).
COLOUR, SPACES = SentText(b"\3Hi", b"Hi"), SentText(b"  Hi", b"Hi")
WHITE, TWO_LINES = SentText(b"\7Hi", b"Hi"), SentText(b"Hi\x8aHo", b"Hi\x8aHo")
HIDING_ITEMS = [
    ("strip=03", COLOUR), ("strip=08", SentText(b"\x08Hi", b"Hi")),
    ("strip=0D", SentText(b"\x0dHi", b"Hi")), ("strip=1D", SentText(b"\x04\x1d\7Hi", b"\4\7Hi")),
    ("strip=1C", SentText(b"\x1cHi", b"Hi"))]
HARMLESS_ITEMS = [
    ("trim", SPACES), ("pack", SentText(b"Hi\x8a\x8aHo", b"Hi\x8aHo")), ("strip=07", WHITE),
    ("strip=09", SentText(b"\x09Hi", b"Hi")), ("strip=00", SentText(b"\x00Hi", b"Hi"))]


def read_intended_layout(text: str) -> Layout:
    result = parse_layout(text) if text else PLAIN
    assert result is not None, text
    return result


def draw_sent_subtitles(several: Sequence[SentText], layout: Layout = PLAIN) -> list[SentSubtitle]:
    result = list[SentSubtitle]()
    for item in several:
        lines = draw_text(item.sent, 18, item.justify, layout, ENGLISH)
        assert not isinstance(lines, TextFault), item
        result.append(SentSubtitle(item.text, 18, item.justify, make_page_rows(lines)))
    return result


def make_unchanged_texts(count: int) -> list[SentText]:
    return [SentText(text, text) for at in range(count)
            for text in [SHORT_TEXTS[at % len(SHORT_TEXTS)]]]


def move_left(sent_subtitle: SentSubtitle, columns: int) -> SentSubtitle:
    return sent_subtitle._replace(rows=tuple(row[columns:] + row[:columns]
                                             for row in sent_subtitle.rows))


def format_rejected_items(choice: LayoutChoice) -> list[tuple[str, int]]:
    """Return the items that are not proposed, each with the subtitles that it would draw too."""
    return [(item.text, item.more) for item in choice.left]


class ItemDecisions(Case):
    def test_adds_and_removes_each_item_of_a_layout(self) -> None:
        for row in read_vectors("layout-items.tsv"):
            text, layout = row["layout"], read_intended_layout(row["layout"])
            items = [(alone, rest.strip("-")) for alone, rest in zip(
                row["alone"].split(), row["without"].split())]
            self.check(text, [(format_layout(add_items(PLAIN, [item], layout)),
                               format_layout(remove_items(layout, [item])))
                              for item in list_items(layout)], items)
            self.check(f"{text}, all items", (remove_items(layout, list_items(layout)), add_items(
                PLAIN, list_items(layout), layout)), (PLAIN, layout))
        self.check("the default layout", list_items(PLAIN), [])

    def test_finds_items_that_only_the_operator_can_accept(self) -> None:
        for row in read_vectors("questionable-items.tsv"):
            layout = read_intended_layout(row["layout"])
            self.check(row["layout"], format_layout(add_items(PLAIN, find_questionable_items(
                layout), layout)), row["items"])

    def test_an_item_needs_ten_redrawn_subtitles_of_which_nine_in_ten_are_as_sent(self) -> None:
        for redrawn, as_sent, has_evidence in (
                (9, 9, False), (10, 9, True), (10, 8, False), (0, 0, False), (19, 17, False),
                (19, 18, True), (100, 90, True), (100, 89, False)):
            self.check(f"{as_sent} of {redrawn}",
                       ItemEvidence("", redrawn, as_sent).has_evidence, has_evidence)

    def test_a_layout_needs_ten_subtitles_of_which_it_draws_nine_in_ten(self) -> None:
        for total, as_sent, is_clear in ((9, 9, False), (10, 9, True), (10, 8, False),
                                         (100, 90, True), (100, 89, False)):
            self.check(f"{as_sent} of {total}", LayoutChoice(PLAIN, as_sent, total).is_clear,
                       is_clear)


class ProposedItems(Case):
    """Programmes whose pages are drawn with the plain layout, if no other is named. Some subtitles
    are sent otherwise. `closest` draws all as sent, and `choice` is the layout that qc proposes."""

    def check_item(self, item: str, text: SentText, count: int, is_proposed: bool) -> None:
        """Check whether an item is proposed if `count` of 100 subtitles are sent like `text`."""
        closest, choice = choose_layouts(draw_sent_subtitles(
            [text] * count + make_unchanged_texts(100 - count)), ENGLISH)
        self.check(f"{item}, {count}: proposed, not proposed", (
            format_layout(choice.layout), format_rejected_items(choice)),
            (item, []) if is_proposed else ("", [(item, count)]))
        self.check(f"{item}, {count}: drawn as sent", (
            closest.as_sent, choice.as_sent, choice.total),
                   (100, 100 if is_proposed else 100 - count, 100))

    def test_proposes_an_item_that_ten_subtitles_show(self) -> None:
        for (item, text), count in itertools.product(HARMLESS_ITEMS, (1, 9, 10)):
            self.check_item(item, text, count, is_proposed=count == 10)
        self.check_item("", COLOUR, count=0, is_proposed=True)

    def test_never_proposes_an_item_that_hides_something(self) -> None:
        for (item, text), count in itertools.product(HIDING_ITEMS, (1, 9, 10)):
            self.check_item(item, text, count, is_proposed=False)

    def test_counts_subtitles_for_each_item_that_is_not_proposed_and_for_both(self) -> None:
        several = [COLOUR] * 5 + [SPACES] * 4 + make_unchanged_texts(91)
        choice = choose_layouts(draw_sent_subtitles(several), ENGLISH)[1]
        self.check("not proposed", format_rejected_items(choice),
                   [("strip=03", 5), ("trim", 4), ("strip=03,trim", 9)])

    def test_proposes_a_margin_if_ten_subtitles_are_two_columns_farther_left(self) -> None:
        right_aligned = draw_sent_subtitles([SentText(b"Hi", b"Hi", justify=3)])[0]
        for count, proposed, as_sent in ((1, "", 99), (9, "", 91), (10, "right=2", 100)):
            choice = choose_layouts([*draw_sent_subtitles(make_unchanged_texts(100 - count)),
                                     *[move_left(right_aligned, 2)] * count], ENGLISH)[1]
            self.check(f"{count}", (format_layout(choice.layout), choice.as_sent),
                       (proposed, as_sent))

    def test_proposes_no_white_after_the_own_colour_of_a_line(self) -> None:
        # Subtitles with a colour, the proposed layout, and how many of 100 it draws as sent (fewer
        # than 90 are too few for a proposal)
        for count, proposed, as_sent in ((1, "before=070B0B", 99), (10, "before=070B0B", 90),
                                         (30, "", 0)):
            coloured = [SentText(b"\3Hi", b"\3Hi")] * count
            closest, choice = choose_layouts(draw_sent_subtitles(
                coloured + make_unchanged_texts(100 - count),
                read_intended_layout("before=*070B0B")), ENGLISH)
            self.check(f"{count}: drawn as sent", (closest.as_sent, choice.as_sent), (100, as_sent))
            self.check(f"{count}: proposed", (format_layout(choice.layout), choice.is_clear),
                       (proposed, bool(proposed)))
            self.check(f"{count}: not proposed", format_rejected_items(choice),
                       [("before=*070B0B", 100 - as_sent)])

    def test_needs_nine_in_ten_of_the_affected_subtitles(self) -> None:
        # Ten subtitles of two lines are sent with `double`, and some others without it.
        for others, supported in ((0, "double"), (1, "double"), (2, "")):
            sent = [*draw_sent_subtitles([TWO_LINES] * 10, Layout(double=True)),
                    *draw_sent_subtitles([TWO_LINES] * others + make_unchanged_texts(100))]
            evidence = Evidence(sent, ENGLISH)
            layout, removed = evidence.remove_unsupported(Layout(double=True))
            self.check(f"{others}: kept, removed", (format_layout(layout), bool(removed)),
                       (supported, not supported))
            self.check(f"{others}: evidence", evidence.measure_evidence(Layout(
                double=True), [("double", 0)]), ItemEvidence("double", 10 + others, as_sent=10))

    def test_removes_the_item_that_changes_the_fewest_subtitles_first(self) -> None:
        evidence = Evidence(draw_sent_subtitles(
            [WHITE] * 3 + [SPACES] * 5 + make_unchanged_texts(92)), ENGLISH)
        self.check("removed", evidence.remove_unsupported(read_intended_layout(
            "strip=07,trim"))[1], [{("strip", 7)}, {("trim", 0)}])  # 0: the item has no code

    def test_keeps_the_weaker_evidence_of_two_items_with_the_same_text(self) -> None:
        # The codes change all 100 pages, but their places around the colour only 12.
        layout, coloured = read_intended_layout("before=0D*0B0B"), SentText(b"\3Hi", b"\3Hi")
        evidence = Evidence(draw_sent_subtitles(
            [coloured] * 12 + make_unchanged_texts(88), layout), ENGLISH)
        self.check("items", evidence.make_choice(layout).items,
                   (ItemEvidence("before=0D*0B0B", redrawn=12, as_sent=12),))

    def test_compares_the_page_that_a_layout_draws(self) -> None:
        blank = SentSubtitle(b"\x00Hi", 20, 2, (b" " * 40,) * 24)
        for name, sent, expected in (
                ("as drawn", draw_sent_subtitles(make_unchanged_texts(1))[0], True),
                ("a text that can not be drawn", blank, False)):
            self.check(name, draws_as_sent(PLAIN, sent, ENGLISH), expected)
        self.check("a subtitle without text", is_found(blank._replace(text=b""), ENGLISH), False)

    def test_matches_lines_to_rows_with_the_same_characters(self) -> None:
        for lines, rows, count in (
                ([b"ab", b"c"], [b"ab", b"c"], 2), ([b"ab", b"", b"c"], [b"", b" ab", b"c"], 2),
                ([b"ab", b"c"], [b"a", b"bc"], 0), ([b"ab", b"c"], [b"abc"], 0), ([b""], [b""], 0)):
            pairs = match_lines(7, lines, rows)
            self.must(f"{lines} {rows}", len(pairs) == count and all(
                lines[pair.number] == pair.cells and rows[pair.row - 1] == pair.sent and
                pair.place == 7 for pair in pairs), pairs)

    def test_the_end_of_most_lines_comes_first_even_if_their_texts_are_equal(self) -> None:
        sent = Counter({(b"yes", b"yes\x0a"): 9, (b"cat", b"cat\7"): 1, (b"dog", b"dog\7"): 1})
        self.check("ends", find_ends(sent), [b"\x0a", b"\7"])

    def test_tests_items_that_cancel_each_other_together(self) -> None:
        # In a text of two lines `last` moves the lines one row up, and `row=1` one row down.
        layout = Layout(last=True, row=1)
        for count, supported in ((1, PLAIN), (9, PLAIN), (10, layout)):
            evidence = Evidence([
                *draw_sent_subtitles([TWO_LINES] * 90),
                *draw_sent_subtitles(make_unchanged_texts(count), layout)], ENGLISH)
            self.check(f"{count}: each alone", [
                evidence.measure_evidence(layout, [item]).has_evidence
                for item in list_items(layout)], [True, True])
            self.check(f"{count}: both", evidence.remove_unsupported(layout)[0], supported)

    def test_keeps_items_that_fit_although_one_that_hides_a_colour_is_removed(self) -> None:
        sent = draw_sent_subtitles([*make_unchanged_texts(99), COLOUR],
                                   Layout(text=True, after=b"\x0a"))
        choice = choose_layouts(sent, ENGLISH)[1]
        self.must("proposed", format_layout(choice.layout) in ("after=0A,text", "after=0A"), choice)
        self.check("not proposed", [item.text for item in choice.left], ["strip=03"])

    def test_accepts_a_stripped_code_that_is_added_again(self) -> None:
        several = [SentText(b"\x0dHi", b"Hi")] * 20 + make_unchanged_texts(80)
        evidence = Evidence(draw_sent_subtitles(several, Layout(before=b"\x0d\x0b\x0b")), ENGLISH)
        layout = Layout(before=b"\x0d\x0b\x0b", strip=b"\x0d")
        self.check("kept, removed", evidence.remove_unsupported(layout), (layout, []))

    def test_removes_items_one_by_one_if_there_are_too_many_for_all_groups(self) -> None:
        codes = bytes([0x00, 0x07, 0x09, 0x0A, 0x0C, *range(0x10, 0x1B)])
        layout = Layout(strip=codes)
        self.must("many items", len(list_items(layout)) > MAX_ITEMS)
        sent = draw_sent_subtitles([SentText(codes + b"Hi", b"Hi")] * 10)
        kept, removed = Evidence(sent, ENGLISH).remove_unsupported(layout)
        # Of 16 items at most 12 are kept.
        self.must("few items", len(list_items(kept)) <= MAX_ITEMS and len(removed) >= 4, kept)
