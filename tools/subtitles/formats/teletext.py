"""Teletext (EN 300 706): control bits, characters, national options."""
from __future__ import annotations

import functools
import unicodedata
from typing import Collection, Iterator, NamedTuple


# Hamming 8/4 codes of 0 to F (EN 300 706)
CODE_WORDS = bytes.fromhex("1502495E6473382FD0C78C9BA1B6FDEA")
# The four-bit value that each byte encodes (Hamming 8/4). It is `None` if more than one bit is
# wrong.
NUMBER: list[int | None] = [None] * 256
for number, word in enumerate(CODE_WORDS):
    for wrong in (0, 1, 2, 4, 8, 16, 32, 64, 128):
        NUMBER[word ^ wrong] = number

# For each control bit C4 to C14: the index of the four-bit value in a page header that contains it,
# and the bit in this value.
CONTROL_BITS = {4: (3, 8), 5: (5, 4), 6: (5, 8), **{7 + bit: (6, 1 << bit) for bit in range(4)},
                **{11 + bit: (7, 1 << bit) for bit in range(4)}}
ERASE, NEWSFLASH, SUBTITLE, SUPPRESS, INHIBIT = 4, 5, 6, 7, 10

Page = tuple[int, int]  # magazine (0 stands for 8) and page number


def is_odd(byte: int) -> bool:
    """Return whether a byte has odd parity."""
    return bin(byte).count("1") % 2 == 1


def has_bit(header: bytes, bit: int) -> bool:
    """Return whether a control bit, from C4 to C14, is set in a page header. `header` contains the
    eight four-bit values of the page header."""
    place, value = CONTROL_BITS[bit]
    return header[place] & value != 0


def page_name(magazine: int, page: int) -> str:
    """Return the full number of a page, such as 888. A magazine of 0 stands for 8."""
    return f"{magazine or 8}{page:02X}"


# Characters of a subtitle file's text (EBU Tech 3264, code table 00, which is ISO 6937).

# Combining marks of Unicode for the accents C1 to CF. An unused code has a space.
ACCENTS = dict(zip(range(0xC1, 0xD0),
                   "\u0300\u0301\u0302\u0303\u0304\u0306\u0307\u0308 "
                   "\u030a\u0327 \u030b\u0328\u030c"))
UPPER = {
    **dict(zip(range(0xA0, 0xB0), "\u00a0¡¢£$¥#§¤‘“«←↑→↓")),
    **dict(zip(range(0xB0, 0xC0), "°±²³×µ¶·÷’”»¼½¾¿")),
    **dict(zip(range(0xD0, 0xD8), "—¹®©™♪¬¦")),
    **dict(zip(range(0xDC, 0xE5), "⅛⅜⅝⅞ΩÆĐªĦ")),
    **dict(zip(range(0xE6, 0xF0), "ĲĿŁØŒºÞŦŊŉ")),
    **dict(zip(range(0xF0, 0xFF), "ĸæđðħıĳŀłøœßþŧŋ")),
}
NO_CHARACTER = "\ufffd"


def decode_byte(byte: int) -> str:
    """Return the character of a byte. Byte 24 is a dollar sign, as in the program."""
    return chr(byte) if 0x20 <= byte <= 0x7E else UPPER.get(byte, NO_CHARACTER)


def decode_text(text: bytes) -> str:
    """Decode a text in code table 00, in which an accent comes before its letter."""
    decoded, at = "", 0
    while at < len(text):
        accent = ACCENTS.get(text[at], " ")
        if accent != " " and at + 1 < len(text):
            decoded += unicodedata.normalize("NFC", decode_byte(text[at + 1]) + accent)
            at += 2
        else:
            decoded += decode_byte(text[at])
            at += 1
    return decoded


# National options (EN 300 706, Latin national option sub-sets)
#
# To add an option, add a row here and a word in `tools/completion.bash`. The tools use this table
# to search a recording, to draw a page and to give advice. The verdict depends only on the program.

NATIONAL_CODES = bytes.fromhex("23 24 40 5B 5C 5D 5E 5F 60 7B 7C 7D 7E")

# Bytes that have the same code in all sub-sets: colours, boxes, sizes, letters, figures, signs.
COMMON = (*range(0x01, 0x0E), 0x1C, 0x1D, *range(0x20, 0x23), *range(0x25, 0x40),
          *range(0x41, 0x5B), *range(0x61, 0x7B))


class NationalOption(NamedTuple):
    """A national option: the characters that the control bits C12 to C14 select."""

    word: str
    name: str
    bits: int  # C12 + 2 C13 + 4 C14
    characters: str
    cells: str  # hexadecimal codes in a text for each of `NATIONAL_CODES`; `-` if there are none
    languages: str  # language codes in a GSI block (LC)
    tracks: str  # language codes in a PMT
    # Regions in which the control bits select this option. The judgement assumes a receiver that is
    # set to the first region.
    regions: str

    @property
    def region(self) -> int:
        """Return the region to which a receiver must be set."""
        return int(self.regions.split()[0], 2)

    @property
    def number(self) -> int:
        """Return a number that no other option has: 8 times the region, plus `bits`."""
        return 8 * self.region + self.bits


ENGLISH = NationalOption(
    "english", "English", 0, "£$@←½→↑#—¼‖¾÷",
    "A3 24,A4 40 - - - - 23 - - - - -", "09", "eng", "0000 0010")
GERMAN = NationalOption(
    "german", "German", 4, "#$§ÄÖÜ^_°äöüß",
    "23 24,A4 A7 C841 C84F C855 - - B0 C861 C86F C875 FB", "08", "deu ger",
    "0000 0001 0010 0100")
SWEDISH = NationalOption(
    "swedish", "Swedish, Finnish, Hungarian", 2, "#¤ÉÄÖÅÜ_éäöåü",
    "23 A8 C245 C841 C84F CA41 C855 5F C265 C861 C86F CA61 C875", "27 28 1B", "swe fin hun",
    "0000 0001 0010")
ITALIAN = NationalOption(
    "italian", "Italian", 6, "£$é°ç→↑#ùàòèì",
    "A3 24,A4 C265 B0 CB63 AE AD 23 C175 C161 C16F C165 C169", "15", "ita",
    "0000 0001 0010")
FRENCH = NationalOption(
    "french", "French", 1, "éïàëêùî#èâôûç",
    "C265 C869 C161 C865 C365 C175 C369 23 C165 C361 C36F C375 CB63", "0F", "fra fre",
    "0000 0001 0010")
SPANISH = NationalOption(
    "spanish", "Portuguese, Spanish", 5, "ç$¡áéíóú¿üñèà",
    "CB63 24,A4 A1 C261 C265 C269 C26F C275 BF C875 C46E C165 C161", "0A 21", "spa por",
    "0000 0010")
CZECH = NationalOption(
    "czech", "Czech, Slovak", 3, "#ůčťžýířéáěúš",
    "23 CA75 CF63 CF74 CF7A C279 C269 CF72 C265 C261 CF65 C275 CF73", "06 25",
    "ces cze slk slo", "0000 0001 0100")
POLISH = NationalOption(
    "polish", "Polish", 0, "#ńąŻŚŁćóężśłź",
    "23 C26E CE61 C75A C253 E8 C263 C26F CE65 C77A C273 F8 C27A", "20", "pol", "0001")
TURKISH = NationalOption(
    "turkish", "Turkish", 3, "₺ğİŞÖÇÜĞışöçü",
    "- C667 C749 CB53 C84F CB43 C855 C647 F5 CB73 C86F CB63 C875", "29", "tur", "0010 0110")
CROATIAN = NationalOption(
    "croatian", "Croatian, Slovenian, Serbian", 5, "#ËČĆŽĐŠëčćžđš",
    "23 C845 CF43 C243 CF5A E2 CF53 C865 CF63 C263 CF7A F2 CF73", "04 26 24",
    "hrv scr srp scc slv", "0011")
ROMANIAN = NationalOption(
    "romanian", "Romanian", 7, "#¤ŢÂŞĂÎıţâşăî",
    "23 A8 CB54 C341 CB53 C641 C349 F5 CB74 C361 CB73 C661 C369", "22", "ron rum", "0011")
ESTONIAN = NationalOption(
    "estonian", "Estonian", 2, "#õŠÄÖŽÜÕšäöžü",
    "23 C46F CF53 C841 C84F CF5A C855 C44F CF73 C861 C86F CF7A C875", "0C", "est", "0100")
# Also for Latvian, which lacks seven small letters in it: no language code chooses it for Latvian.
LITHUANIAN = NationalOption(
    "lithuanian", "Lithuanian", 6, "#$ŠėęŽčūšąųžį",
    "23 24,A4 CF53 C765 CE65 CF5A CF63 C575 CF73 CE61 CE75 CF7A CE69", "1A", "lit", "0100")

OPTIONS = (ENGLISH, GERMAN, SWEDISH, ITALIAN, FRENCH, SPANISH, CZECH, POLISH, TURKISH, CROATIAN,
           ROMANIAN, ESTONIAN, LITHUANIAN)
OPTION_WORDS = tuple(one.word for one in OPTIONS)
OPTION_BY_WORD = {one.word: one for one in OPTIONS}
OPTION_BY_NUMBER = {8 * int(region, 2) + one.bits: one
                    for one in OPTIONS for region in one.regions.split()}
# Language codes in a PMT for languages that need other than Latin characters.
OTHER_REGIONS = "ara bul ell gre heb rus ukr".split()
UNKNOWN_CHARACTER = "\u25a1"  # shown for a character of an unknown option
ACCENT_BYTES = {byte for byte, mark in ACCENTS.items() if mark != " "}

def choose_language_option(language: bytes) -> NationalOption:
    """Return the national option for the language of a GSI block (LC). The default is English."""
    word = language.decode("ascii", "replace").upper()
    return next((option for option in OPTIONS if word in option.languages.split()), ENGLISH)


def choose_track_option(language: str) -> NationalOption | None:
    """Return the national option for the language code of a PMT, if an option has this code."""
    return next((option for option in OPTIONS if language.lower() in option.tracks.split()), None)


def select_option(bits: int, judged: NationalOption) -> NationalOption | None:
    """Return the option that C12 to C14 of a header (`bits`) select in the region of the option
    `judged`, or else in the default region. Return `None` if they select no option there."""
    return OPTION_BY_NUMBER.get(8 * judged.region + bits, OPTION_BY_NUMBER.get(bits))


def reverse_bits(bits: int) -> int:
    """Return the bits of an option (C12 + 2 C13 + 4 C14) in the order of packets X/28 and M/29,
    4 C12 + 2 C13 + C14, or the other way round."""
    return sum((bits >> at & 1) << 2 - at for at in range(3))


@functools.lru_cache(maxsize=None)
def list_option_cells(option: NationalOption) -> dict[bytes, int]:
    """Return the codes of the 13 characters that depend on the option, by their bytes in a text."""
    return {bytes.fromhex(item): place
            for place, words in zip(NATIONAL_CODES, option.cells.split())
            for item in words.split(",") if item != "-"}


def split_cells(text: bytes, option: NationalOption) -> Iterator[tuple[int, int, int | None]]:
    """Yield the offset, first byte and code of each character in a text. The code is `None` if the
    option lacks the character."""
    own, at = list_option_cells(option), 0
    while at < len(text):
        size = 2 if text[at:at + 2] in own and text[at] in ACCENT_BYTES else 1
        yield at, text[at], own.get(text[at:at + size], text[at] if text[at] in COMMON else None)
        at += size


def encode_line(text: bytes, option: NationalOption) -> list[int | None]:
    """Return the code of each character in a line, or `None` for a character without a code."""
    return [cell for _, _, cell in split_cells(text, option)]


def has_characters(text: bytes, option: NationalOption) -> bool:
    """Return whether a national option has all characters of a text. Ignore control codes."""
    character_codes = bytes(byte for byte in text if byte not in range(0x80, 0x90))
    return None not in encode_line(character_codes, option)


class SentOption(NamedTuple):
    """The options of all regions whose C12 to C14 a header has, and those of them that have all
    characters of some texts."""

    options: list[NationalOption]
    complete_options: list[NationalOption]

    @property
    def option(self) -> NationalOption:
        """Return the first option that has all characters, or else the first option."""
        return [*self.complete_options, *self.options][0]

    @property
    def words(self) -> str:
        """Return the names of the options."""
        return " or ".join(option.word for option in self.options) + (
            ", by the region to which the receiver is set" if len(self.options) > 1 else "")


def find_sent_option(bits: int, judged: NationalOption, texts: Collection[bytes]) -> SentOption:
    """Return the options whose C12 to C14 are `bits`. If `judged` is one, it is the first."""
    options = sorted((option for option in OPTIONS if option.bits == bits),
                     key=lambda option: option != judged)
    return SentOption(options, [option for option in options
                                if all(has_characters(text, option) for text in texts)])


def read_character_bytes(text: bytes, at: int) -> bytes:
    """Return the byte at an offset. If it is an accent, add the letter after it."""
    is_accent_pair = text[at] in ACCENT_BYTES and text[at + 1:at + 2].isalpha()
    return text[at:at + 1 + is_accent_pair]


def find_options(character: bytes) -> list[NationalOption]:
    """Return the national options that have a character, given as its bytes in a text."""
    if len(character) == 1 and character[0] in COMMON:
        return list(OPTIONS)
    return [option for option in OPTIONS if character in list_option_cells(option)]


def decode_character(letter: bytes) -> str | None:
    """Decode a byte or a pair of bytes in code table 00. Return `None` if it is not a character."""
    if len(letter) == 1 and letter[0] in ACCENT_BYTES:
        return None
    character = decode_text(letter)
    return None if NO_CHARACTER in character or len(character) != 1 else character


BLOCK = "\u25a0"  # the character displayed for code 7F


@functools.lru_cache(maxsize=None)
def make_character_table(option: int) -> list[str]:
    """Return the character of each code 00 to 7F (EN 300 706, Latin G0). A spacing attribute is a
    space. `option` is the number of a national option. In the default region, it is C12 + 2 C13 +
    4 C14 of a page header."""
    table = [" "] * 32 + [chr(code) for code in range(32, 127)] + [BLOCK]
    national_characters = OPTION_BY_NUMBER.get(option)
    for code, character in zip(NATIONAL_CODES, national_characters.characters if national_characters
                               else UNKNOWN_CHARACTER * len(NATIONAL_CODES)):
        table[code] = character
    return table


# The first bytes of a PES packet of private_stream_1, which carries Teletext (EN 300 472).
START = b"\0\0\1\xbd"
