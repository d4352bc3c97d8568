"""Test characters, national options and character sets."""
from __future__ import annotations

import ctypes
import dataclasses
import json
import unittest
from typing import NamedTuple

from developing.pes import (
    NATIONAL, decode_address, decode_header, decode_pts, encode_triplet, get_data_field,
    get_teletext_packets, make_packet, make_pes_packet)
from developing.stl import END_BOX, START_BOX, make_gsi_block, make_tti_block
from subtitles.common.times import TICKS
from subtitles.formats.stl import UNUSED
from subtitles.formats.teletext import (
    OPTION_BY_WORD, CODE_WORDS, ENGLISH, FRENCH, GERMAN, NationalOption, OPTIONS,
    NATIONAL_CODES, SPANISH, decode_character, encode_line, has_bit,
    has_characters, read_character_bytes, make_character_table, choose_language_option,
    choose_track_option, find_options, reverse_bits)
from subtitles.judging.subtitles import advise_on_character
from subtitles.recording.notices import find_character_set_notices, find_option_notices
from .bench import Case, CompletedCall, read_example_file
from .parts import make_example_request, survey_packets
from .results import check_schema
from .stories import read_vectors
from .transmissions import CLOSING, HEADER, packets
from .test_cli_pairs import STORY, qc, split_output_lines


class NationalOptions(unittest.TestCase):
    """The codes of characters in subtitle files, the cells (codes of Teletext) with which each
    national option draws them, and the tables in dev/vectors/national, from outside sources."""

    def test_each_character_has_the_cell_of_the_table(self) -> None:
        count = 0
        for row in read_vectors("national/options.tsv"):
            count += 1
            option, text = OPTION_BY_WORD[row["option"]], bytes.fromhex(row["stl"])
            cell, character = int(row["cell"], 16), row["char"].replace("SPACE", " ")
            with self.subTest(option=option.word, stl=row["stl"]):
                bits = sum(int(row[name]) << at for at, name in enumerate(("C12", "C13", "C14")))
                self.assertEqual(option.bits, bits)
                self.assertEqual(encode_line(text, option), [cell])
                self.assertEqual(decode_character(text), character)
                self.assertEqual(make_character_table(option.number)[cell], character)
                self.assertIn(option, find_options(text))
        self.assertEqual(count, 1228)

    def test_decodes_cells_that_no_subtitle_uses_as_libzvbi(self) -> None:
        for option in OPTIONS:
            self.assertEqual(make_character_table(option.number)[0x7F], "\u25a0", option)
        table = make_character_table(ENGLISH.bits)
        self.assertEqual("".join(table[code] for code in b"[\\]^`{|}~"), "←½→↑—¼‖¾÷")
        self.assertEqual(make_character_table(GERMAN.bits)[0x5E:0x60], ["^", "_"])

    def test_national_characters_are_unknown_if_the_bits_select_no_option_of_the_region(
            self) -> None:
        for number in (7, 8 + 5, 8 * 3):  # eight times the region, plus C12 to C14
            table = make_character_table(number)
            self.assertEqual([code for code in range(32, 127) if table[code] == "\u25a1"],
                             sorted(NATIONAL_CODES), number)

    def test_encodes_no_other_character_in_one_cell(self) -> None:
        known = {(row["option"], bytes.fromhex(row["stl"]))
                 for row in read_vectors("national/options.tsv")}
        for option in OPTIONS:
            for first in range(0x20, 0x100):
                for text in (bytes([first]), *(bytes([first, second]) for second in b"AaeEzZ ")):
                    whole = encode_line(text, option)
                    if (option.word, text) not in known and len(whole) == 1:
                        self.assertEqual(whole, [None], (option.word, text))
                    if (option.word, text) not in known:  # each byte has its own cell
                        self.assertEqual(whole, [code for byte in text for code in encode_line(
                            bytes([byte]), option)], (option.word, text))

    def test_finds_the_texts_of_eleven_languages_that_an_option_can_draw(self) -> None:
        rows = [row for row in read_vectors("national/vectors.tsv")
                if row["kind"] in ("drawn", "refused")]
        self.assertGreater(len(rows), 150)
        for row in rows:
            with self.subTest(no=row["no"], option=row["option"], text=row["text"]):
                text = bytes.fromhex(row["stl"])
                self.assertEqual(has_characters(text, OPTION_BY_WORD[row["option"]]),
                                 row["kind"] == "drawn")

    def test_ignores_codes_80_to_8f_of_a_text_but_not_90(self) -> None:
        for byte in range(0x80, 0x90):
            self.assertTrue(has_characters(b"A%cA" % byte, ENGLISH), byte)
        self.assertFalse(has_characters(b"A\x90A", ENGLISH))

    def test_names_the_languages_of_each_option(self) -> None:
        self.assertEqual({option.word: option.name for option in OPTIONS}, {
            row["option"]: row["name"] for row in read_vectors("language-options.tsv")})

    def test_chooses_the_option_of_each_language_code_of_subtitle_files(self) -> None:
        for row in read_vectors("language-options.tsv"):
            for code in row["codes"].encode().split():
                self.assertEqual(choose_language_option(code).word, row["option"], code)
        for code in (b"", b" 2", b"\xff\x00"):
            self.assertEqual(choose_language_option(code), ENGLISH, code)

    def test_chooses_the_option_of_a_language_that_the_pmt_announces(self) -> None:
        for track, named in (("FRE", FRENCH), ("gre", None), ("lav", None), ("", None)):
            self.assertEqual(choose_track_option(track), named, track)


class Advice(unittest.TestCase):
    def test_names_the_options_that_have_a_refused_character(self) -> None:
        # The bytes of a character in a subtitle file, and the begin of the advice
        for text, words in (
                ("C265", "no national option has all the characters in the file; é is in swedish, "
                 "italian, french, spanish and czech"),
                ("24", "no national option has all the characters in the file; $ is in english, "
                 "german, italian, spanish and lithuanian"),
                ("C24F", "no national option has Ó: "), ("F9", "no national option has ø: "),
                ("C2", "byte C2 is not a character"), ("C678", "byte C6 is not a character"),
                ("FF", "byte FF is not a character")):
            self.assertTrue(advise_on_character(bytes.fromhex(text), []).startswith(words), text)
        self.assertEqual(advise_on_character(b"\xc2e", [FRENCH, SPANISH]), "use --option french or "
                         "spanish, which have all the characters in the file")

    def test_a_diacritical_mark_includes_the_next_letter(self) -> None:
        # A text, the place of a byte, and the bytes of the character there. C9 is no mark.
        for text, at, letter in ((b"a\xc2eb", 1, b"\xc2e"), (b"a\xc2", 1, b"\xc2"),
                                 (b"\xc2\x80e", 0, b"\xc2"), (b"ab", 1, b"b"),
                                 (b"\xc2 e", 0, b"\xc2"), (b"\xc2\x31", 0, b"\xc2"),
                                 (b"\xc9e", 0, b"\xc9")):
            self.assertEqual(read_character_bytes(text, at), letter, text)


# Tests that compare transmissions in each national option with dev/vectors/national/ and libzvbi

FIRST_TCI, LENGTH = 90_000, 25  # first TCI and subtitle duration, in frames
ACCENT_BYTES = range(0xC0, 0xD0)  # diacritical marks
SPACING = {*range(0x01, 0x0E), 0x1C, 0x1D}  # spacing attributes allowed in a text
# codes for italics, underline, boxing and a new line
BYTES_WITHOUT_CELL = {*range(0x80, 0x86), 0x8A}


class Text(NamedTuple):
    """A subtitle text with its position and the 40 cells of the expected row."""

    text: bytes
    row: int
    justify: int
    cells: bytes = b""


def list_character_texts(option: NationalOption) -> list[tuple[Text, str]]:
    """Return pairs of a character of a national option and a text that contains it."""
    return [(Text(bytes.fromhex(line["stl"]), 5, 0, (
        START_BOX * 2 + bytes([int(line["cell"], 16)]) + END_BOX * 2).ljust(40)),
             chr(int(line["unicode"][2:], 16)))
            for line in read_vectors("national/options.tsv") if line["option"] == option.word]


def texts(option: NationalOption) -> list[tuple[Text, str]]:
    """Return each text of vectors.tsv for an option, and its error message or an empty string."""
    result = []
    for line in read_vectors("national/vectors.tsv"):
        cells, message = b"", line["prepared line or refusal"]
        if line["kind"] == "drawn":
            cells = bytes.fromhex(line["row of 40 cells"])
        elif message.startswith("drawn "):
            drawn = bytes.fromhex(message.split()[1])
            cells = (b" " * ((40 - len(drawn)) // 2) + drawn).ljust(40)
        if line["option"] == option.word:
            result.append((Text(bytes.fromhex(line["stl"]), 22, 2, cells), "" if cells
                           else message))
    return result


class SlicedData(ctypes.Structure):
    """The type `vbi_sliced` in libzvbi: a line of the vertical blanking interval."""

    _fields_ = [("id", ctypes.c_uint32), ("line", ctypes.c_uint32), ("data", ctypes.c_uint8 * 56)]


HANDLER = ctypes.CFUNCTYPE(None, ctypes.c_void_p, ctypes.c_void_p)
TELETEXT_B = 3  # the constant VBI_SLICED_TELETEXT_B in libzvbi
PAGE_EVENT = 2  # VBI_EVENT_TTX_PAGE; libzvbi decodes pages only with a handler for this event
ANY_SUBCODE = 0x3F7F
LEVEL_1 = 0  # the constant VBI_WST_LEVEL_1 in libzvbi
TEXT_OFFSET, CHARACTER = 28, 8  # offset and size of characters in `vbi_page`
UNICODE_OFFSET = 6  # offset of the code point in `vbi_char`


class Receiver:
    """A level 1 receiver that is set to a region, implemented by libzvbi."""

    def __init__(self, region: int = 0) -> None:
        self.library = ctypes.CDLL("libzvbi.so.0")
        self.library.vbi_decoder_new.restype = ctypes.c_void_p
        self.decoder = ctypes.c_void_p(self.library.vbi_decoder_new())
        self.handler = HANDLER(lambda event, data: None)
        self.library.vbi_event_handler_register(self.decoder, PAGE_EVENT, self.handler, None)
        self.library.vbi_teletext_set_default_region(self.decoder, 8 * region)
        self.time = 0.0

    def row(self, sent: list[bytes], row: int) -> str:
        """Decode packets, and return the text in a row of page 888."""
        lines = (SlicedData * len(sent))()
        for line, packet in zip(lines, sent):
            line.id = TELETEXT_B
            line.line = 0
            line.data[:42] = list(packet)
        self.time += 0.04
        self.library.vbi_decode(self.decoder, lines, len(sent), ctypes.c_double(self.time))
        page = ctypes.create_string_buffer(65536)
        if not self.library.vbi_fetch_vt_page(self.decoder, page, 0x888, ANY_SUBCODE, LEVEL_1, 25,
                                              0):
            return ""
        at = [TEXT_OFFSET + CHARACTER * (41 * row + column) + UNICODE_OFFSET
              for column in range(40)]
        return "".join(chr(int.from_bytes(page.raw[place:place + 2], "little")) for place in at)


# Seven letters for which libzvbi shows others. Nobody compared these with a printed Table 36 of
# EN 300 706.
OTHER_LETTERS = {
    ("polish", "Ż"): "Ƶ", ("croatian", "Đ"): "Ð", ("croatian", "đ"): "ð", ("romanian", "Ă"): "Ǎ",
    ("romanian", "Î"): "Í", ("romanian", "ă"): "ǎ", ("lithuanian", "ę"): "ȩ"}


class Transmissions(Case):
    """Subtitle files with one text in each subtitle, scheduled and checked with each option."""

    def schedule_texts(self, option: NationalOption, several: list[Text]) -> str:
        blocks = [make_tti_block(number, begin, begin + LENGTH, item.row, item.justify, item.text)
                  for number, item in enumerate(several) for begin in [FIRST_TCI + LENGTH * number]]
        gsi = make_gsi_block(b"", len(blocks), len(blocks), FIRST_TCI)
        self.write("a.stl", gsi + b"".join(blocks))
        return self.program("schedule", "a.stl", "a.pes", "--every", "1500", "--option",
                            option.word)[1][-1]

    def transmit(self, option: NationalOption, several: list[Text]) -> list[list[bytes]]:
        """Return the Teletext packets of each text; a repeated text has none."""
        line = self.schedule_texts(option, several)
        self.must(f"{option.word}: a schedule", line.startswith("written "), line)
        line = self.program("check", "a.stl", "a.pes", "--every", "1500", "--option",
                            option.word)[1][-1]
        self.must(f"{option.word}: a check", line.startswith("accepted "), line)
        by_frame = {decode_pts(packet) // TICKS: get_teletext_packets(get_data_field(packet))
                    for packet in packets(self.read("a.pes"))}
        return [by_frame.get(FIRST_TCI + LENGTH * number, []) for number in range(len(several))]

    def check_cells(self, option: NationalOption, several: list[Text]) -> None:
        """Check the cells sent for each text, and the control bits of the national option."""
        before = b""
        for item, result in zip(several, self.transmit(option, several)):
            name = f"{option.word} {item.text.hex()}"
            if not result:
                self.must(f"{name}: the same page", item.cells == before)
                continue
            header, *rows, _ = result
            bits = [has_bit(decode_header(header) or b"", bit) for bit in NATIONAL]
            self.check(f"{name}: C12 to C14", bits, [option.bits >> at & 1 == 1 for at in range(3)])
            sent = [(decode_address(row), bytes(byte & 0x7F for byte in row[2:])) for row in rows]
            self.check(f"{name}: the row", sent, [((0, item.row), item.cells)])
            before = item.cells

    def test_sends_each_character_as_in_the_table(self) -> None:
        for option in OPTIONS:
            self.check_cells(option, [item for item, _ in list_character_texts(option)])

    def test_sends_texts_or_names_the_refused_byte(self) -> None:
        for option in OPTIONS:
            several = texts(option)
            self.check_cells(option, [item for item, message in several if not message])
            for item, message in several:
                if message:
                    self.check(f"{option.word} {item.text.hex()}",
                               self.schedule_texts(option, [item]),
                               "refused {} {} block 1 {} {}".format(*message.split()))

    def test_refuses_all_remaining_bytes(self) -> None:
        singles = [bytes([byte]) for byte in range(256) if byte != UNUSED[0]]
        tried = singles + [bytes([mark, byte]) for mark in ACCENT_BYTES for byte in range(256)]
        for option in OPTIONS:
            known = {item.text for item, _ in list_character_texts(option)}
            known |= {bytes([byte]) for byte in SPACING | BYTES_WITHOUT_CELL}
            expected = []
            for number, text in enumerate(tried, 1):
                if text not in known:
                    is_control = text[0] < 0x20 or 0x80 <= text[0] < 0xA0
                    fault = "51 Control" if is_control else "50 Character"
                    expected.append(f"refused {fault} block {number} at 0")
            self.schedule_texts(option, [Text(text, 5, 0) for text in tried])
            lines = self.program("check", "a.stl", "/dev/null", "--all", "--option", option.word)[1]
            result = [line for line in lines if " block " in line]
            self.must(option.word, result == expected, sorted(set(result) ^ set(expected))[:4])

    def test_libzvbi_decodes_the_same_characters(self) -> None:
        for option in OPTIONS:
            try:
                receiver = Receiver(option.region)
            except OSError:
                self.skipTest("the letters by libzvbi, which is not installed")
            several = list_character_texts(option)
            for (item, character), result in zip(several, self.transmit(option, [
                    item for item, _ in several])):
                shown = receiver.row(result, item.row)[2:3] if result else character
                self.must(f"{option.word} {item.text.hex()} {character}", shown in (
                    character, OTHER_LETTERS.get((option.word, character))), shown)


JUDGED_REQUEST = make_example_request("a.stl", "a.ts", "--option", "english", "--origin", "0")
ROW = make_packet(0, 20, (), b"a row".ljust(40))


def make_character_set_packet(character_set: int, designation: int = 0,
                              magazine: int = 0) -> bytes:
    """Return a packet M/29 that designates a set: eight times the region, plus an option."""
    address = magazine + 8 * 29
    head = bytes(CODE_WORDS[item] for item in (address & 15, address >> 4, designation))
    return (head + encode_triplet(character_set << 7)).ljust(42, encode_triplet(0)[:1])


class Warnings(Case):
    """Recordings whose packets M/29 designate a character set for receivers above level 1, judged
    with the option english (000 in region 0000) or another one."""

    def test_warns_if_another_character_set_is_designated(self) -> None:
        may = "receivers above level 1 may show other characters"
        english = ", not 000 of region 0000 (English)"
        unreadable = bytearray(make_character_set_packet(8))
        unreadable[3] ^= 0x40
        unreadable[5] ^= 1  # two wrong bits in one triplet
        cases: list[tuple[str, bytes, list[str]]] = [
            ("another region", make_character_set_packet(8),
             [f"packet 8/29/0 names character set 000 of region 0001 (Polish){english}: {may}"]),
            ("another option", make_character_set_packet(1, designation=4),
             [f"packet 8/29/4 names character set 001 of region 0000 (German){english}: {may}"]),
            ("a set without an option", make_character_set_packet(24),
             [f"packet 8/29/0 names character set 000 of region 0011{english}: {may}"]),
            ("unreadable", bytes(unreadable),
             [f"packet 8/29/0 names an unreadable character set: {may}"]),
            ("the same", make_character_set_packet(0), []),
            ("the same of another region", make_character_set_packet(16), []),
            ("another magazine's", make_character_set_packet(8, magazine=1), [])]
        for name, packet, lines in cases:
            surveyed = survey_packets(self, make_pes_packet(0, [HEADER, ROW, CLOSING, packet]))
            self.check(name, [(item.kind, item.line) for item in find_character_set_notices(
                surveyed, JUDGED_REQUEST)], [("character_set", line) for line in lines])

    def test_warns_with_each_option_but_the_designated_one(self) -> None:
        for designated, region in {"french": 0, "polish": 1, "romanian": 3}.items():
            bits = reverse_bits(OPTION_BY_WORD[designated].bits)
            surveyed = survey_packets(self, make_pes_packet(
                0, [HEADER, make_character_set_packet(8 * region + bits)]))
            for option in OPTIONS:
                request = dataclasses.replace(JUDGED_REQUEST, option=option.word)
                self.check(f"{designated} {option.word}", bool([*find_character_set_notices(
                    surveyed, request)]), option.word != designated)

    def check_warnings(self, process: CompletedCall, kinds: list[str]) -> None:
        """Check the warnings in one.json, and that all were printed and are in the report."""
        verdict = json.loads(self.read("one.json"))
        check_schema(self, verdict, "the schema")
        self.check("kinds", [item["kind"] for item in verdict["warnings"]], kinds)
        lines = [item["line"] for item in verdict["warnings"]]
        self.check("printed", [line.removeprefix("qc: warning: ") for line in process.errors
                               if line.startswith("qc: warning: ")], lines)
        report = self.read("out/story.html").decode()
        self.must("in the report", all(
            f'<p class="note">warning: {line}</p>' in report for line in lines), lines)

    def test_a_warning_changes_the_verdict_only_with_strict(self) -> None:
        pes = packets(read_example_file("story.pes"))
        sent = [*get_teletext_packets(get_data_field(pes[1])), make_character_set_packet(8)]
        data = b"".join([pes[0], make_pes_packet(decode_pts(pes[1]), sent), *pes[2:]])
        path = self.write("one.pes", data)
        process = qc(self, STORY, path, "--origin", "0", "-o", "out", "--json", "one.json")
        self.check("accepted", process.status, 0)
        self.check_warnings(process, ["character_set"])
        process = qc(self, STORY, "-", "--origin", "0", "--strict", data=data)
        self.check("strict, a feed", process.status, 1)
        self.must("its last line", split_output_lines(process)[-1].startswith("not accepted, since "
                  "--strict treats warnings as faults (character_set): accepted"), process)


class Languages(unittest.TestCase):
    """Languages that the PMT announces for the page, and the option with which it was judged."""

    def test_warns_if_no_announced_language_uses_the_option(self) -> None:
        """It is unknown which option nld and und use, so they may use the judged one."""
        cases: list[tuple[list[str], str, str]] = [
            (["eng"], "french", "eng, which uses --option english"),
            (["fra"], "german", "fra, which uses --option french"),
            (["pol"], "english", "pol, which uses --option polish"),
            (["gre"], "english", "gre, which uses another region"),
            (["ces", "gre"], "english", "ces and gre, which uses --option czech and another "
             "region"),
            (["fre", "fra"], "english", "fre and fra, which uses --option french"),
            (["fre", "eng"], "english", ""), (["nld"], "english", ""), (["nld"], "czech", ""),
            (["fre", "und"], "english", ""), ([], "english", "")]
        for languages, option, words in cases:
            request = dataclasses.replace(JUDGED_REQUEST, option=option)
            result = [notice.line for notice in find_option_notices(languages, request)]
            line = f"the PMT announces page 888 in {words}, but it was judged with --option " \
                   f"{option}"
            with self.subTest(languages=languages, option=option):
                self.assertEqual(result, [line] * bool(words))

    def test_warns_with_each_option_but_that_of_the_announced_language(self) -> None:
        rows = [*read_vectors("national/pmt.tsv")]
        self.assertEqual(len(rows), 32)
        for row in rows:
            language, word = row["ISO 639-2"], row["option"]
            for option in OPTIONS:
                request = dataclasses.replace(JUDGED_REQUEST, option=option.word)
                result = [*find_option_notices([language], request)]
                with self.subTest(language=language, option=option.word):
                    self.assertEqual(bool(result), word != option.word)
