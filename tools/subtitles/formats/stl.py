"""EBU STL: blocks, texts and subtitles of a subtitle file."""
from __future__ import annotations

import array
import bisect
import re
from dataclasses import dataclass
from typing import Collection, Iterable, Iterator, NamedTuple, Sequence

from ..common.command_line import Stop, WrongAnswer, print_stderr
from ..common.files import DamagedFile, read_first_bytes
from ..common.times import (
    ALL_DAY, FRAMES_OF_A_DAY, FrameRange, count_until, decode_frame, decode_time,
    parse_time_code)
from .listing import parse_fault_line
from .teletext import ACCENTS, OPTION_BY_WORD, encode_line, decode_text


# Blocks of subtitle files: a GSI block, then TTI blocks (EBU Tech 3264).

GSI, TTI, TEXT = 1024, 128, 112  # sizes of the blocks and of a TTI block's text field
USER_DATA, LAST_BLOCK = 0xFE, 0xFF  # extension block numbers (EBN)
MAX_STL = GSI + TTI * 99_999 + 1  # bytes to read: one more than the largest valid file has
UNUSED, NEW_LINE = b"\x8f", b"\x8a"
LAST_CONTINUED = 0xEF  # the highest EBN of a block that is not the last of its subtitle


class StoredSubtitle(NamedTuple):
    """A subtitle as stored in a file. `begin` and `end` are the four bytes of TCI and TCO. `text`
    is joined from all blocks of the subtitle."""

    number: int
    begin: bytes
    end: bytes
    row: int
    justify: int
    text: bytes


def read_stored_subtitles(data: bytes) -> Iterator[StoredSubtitle]:
    """Yield the stored subtitles of a file, without comments and user data. Raise `DamagedFile` if
    a block can't be read."""
    if len(data) < GSI or data[3:8] not in (b"STL25", b"STL30"):
        raise DamagedFile("not an EBU STL file: its GSI block is too short, or its DFC is not "
                          "STL25.01")
    if data[3:8] == b"STL30":
        raise DamagedFile("it has 30 frames a second (STL30.01): give a file with 25 (STL25.01)")
    first: bytes | None = None
    texts: list[bytes] = []
    block = 0
    for block, at in enumerate(range(GSI, len(data), TTI), 1):
        tti = data[at:at + TTI]
        if len(tti) < TTI:
            raise DamagedFile(f"block {block} is incomplete")
        ebn = tti[3]
        if ebn == USER_DATA or tti[15] == 1:
            continue
        if LAST_CONTINUED < ebn < LAST_BLOCK:
            raise DamagedFile(f"block {block} has the reserved extension block number {ebn:02X}")
        if first is not None and first[:3] != tti[:3]:
            raise DamagedFile(f"block {block} begins a subtitle, but the one before is incomplete")
        first = first or tti
        texts.append(tti[16:].split(UNUSED)[0])
        if ebn == LAST_BLOCK:
            yield StoredSubtitle(first[1] + 256 * first[2], first[5:9], first[9:13], first[13],
                                 first[14], b"".join(texts))
            first = None
            texts.clear()
    if first is not None:
        raise DamagedFile(f"the subtitle of block {block} has no last block")


def get_subtitle_times(subtitle: StoredSubtitle) -> tuple[int | None, int | None]:
    """Return the frames of a subtitle's TCI and TCO. An invalid time is `None`."""
    return decode_frame(subtitle.begin), decode_frame(subtitle.end)


def read_stl(path: str) -> bytes:
    """Read a subtitle file or a pipe, up to the maximum size that `check` accepts."""
    return read_first_bytes(path, MAX_STL, may_be_pipe=True)


def read_until_damage(name: str, data: bytes) -> Iterator[StoredSubtitle]:
    """Yield the subtitles before the first damaged block, and report the damage. Raise `Stop` if
    there is no such subtitle."""
    is_empty = True
    try:
        for stored_subtitle in read_stored_subtitles(data):
            is_empty = False
            yield stored_subtitle
    except DamagedFile as reason:
        if is_empty:
            raise Stop(f"{name}: {reason}") from None
        print_stderr(f"{name}: {reason}; only the subtitles before it are used")


def encode_page_characters(text: bytes, option: str) -> bytes:
    """Return the codes of a text on a page, omitting spaces and characters that have no code."""
    return bytes(code for code in encode_line(text, OPTION_BY_WORD[option])
                 if code is not None and code > 0x20)


# Fields of a GSI block (EBU Tech 3264)

CODE_PAGE = slice(0, 3)  # code page number (CPN)
ORIGINAL, TRANSLATED = slice(16, 48), slice(80, 112)  # programme titles (OPT, TPT)
CODE_PAGES = {"437", "850", "860", "863", "865"}
TCP_PLACE = slice(256, 264)  # time code of the start of the programme (TCP)
DISK_FORMAT = slice(3, 11)  # disk format code (DFC)
# The first bytes of other files, and what they are
OTHER_FILES = {b"\x1f\x8b": "gzip-compressed: unpack it", b"PK\3\4": "a zip archive: unpack it",
               b"\x89PNG": "a picture", b"%PDF": "a PDF file"}


def describe_other_file(path: str) -> str:
    """Return what a file is if it is no STL file, otherwise "". An STL file has a DFC that begins
    with STL or one of the five CPNs, so one damaged field does not make it another file."""
    head = read_first_bytes(path, GSI)
    if head[DISK_FORMAT].startswith(b"STL") or head[CODE_PAGE].decode("latin-1") in CODE_PAGES:
        return ""
    if not head:
        return "empty"
    if b"\n" in head and not head.translate(None, b"\t\n\r" + bytes(range(0x20, 0x100))):
        return "text: export the subtitles as EBU STL"
    return next((text for begin, text in OTHER_FILES.items() if head.startswith(begin)),
                "not an EBU STL file: it begins with neither a code page (CPN, such as 850) nor a "
                "disk format code (DFC, STL25.01)")


def decode_tcp(code: bytes) -> int | None:
    """Return the frame of a TCP, eight digits, or `None` if it is not a time."""
    is_code = code.isdigit() and len(code) == 8
    frame: int | None = decode_frame(int(code[at:at + 2]) for at in range(0, 8, 2)) \
        if is_code else None
    return frame


def read_titles(path: str) -> list[str]:
    """Return the original and the translated programme title of a subtitle file. Omit an empty
    title. Return equal titles only once."""
    block = read_first_bytes(path, GSI)
    number = block[CODE_PAGE].decode("latin-1")
    code_page = f"cp{number}" if number in CODE_PAGES else "cp850"
    titles: list[str] = []
    for place in (ORIGINAL, TRANSLATED):
        text = block[place].decode(code_page, "replace")
        title = "".join(character if character.isprintable() else " " for character in text).strip()
        if title and title not in titles:
            titles.append(title)
    return titles


# Matches a line in the output of `subttx show`.

SHOW_LINE = re.compile(r"(?P<number>\d{5}) (?P<begin>[\d:]+) (?P<end>[\d:]+) vp (?P<row>\d+) "
                       r"jc (?P<justify>\d+) text (?P<text>-|[\da-f]+)")
NO_TEXT = "-"


@dataclass(frozen=True)
class Subtitle:
    """A subtitle as read by the program: position counted from 1, SN, frames of TCI and TCO, VP,
    JC, text."""

    index: int
    number: int
    begin: int
    end: int
    row: int
    justify: int
    text: bytes

    @property
    def name(self) -> str:
        """Return the name of the subtitle in messages."""
        return format_subtitle_name(self.index, self.number)


def format_subtitle_name(position: int, number: int) -> str:
    """Return the name of a subtitle: its position, counted from 1, and its SN if that differs."""
    return f"subtitle {position}" if number == position else f"subtitle {position} (SN {number})"


def parse_subtitles(lines: Sequence[str]) -> list[Subtitle]:
    """Parse the output of `show`, which ends at the first fault of a refused file."""
    subtitles = [parse_subtitle(index, line) for index, line in enumerate(lines[:-1], 1)]
    last = "".join(lines[-1:])
    fault = parse_fault_line(last)
    if not (fault and fault.is_fault) and last.split(" ")[0] != str(len(subtitles)):
        raise WrongAnswer(f"`show` printed no list of subtitles: {last or 'it printed nothing'}")
    return subtitles


def decode_subtitles(data: bytes) -> list[Subtitle]:
    """Decode the stored subtitles that have valid times."""
    subtitles: list[Subtitle] = []
    for index, stored_subtitle in enumerate(read_stored_subtitles(data), 1):
        begin, end = get_subtitle_times(stored_subtitle)
        if begin is not None and end is not None and begin < end:
            subtitles.append(Subtitle(index, stored_subtitle.number, begin, end,
                                      stored_subtitle.row, stored_subtitle.justify,
                                      stored_subtitle.text))
    return subtitles


def parse_subtitle(index: int, line: str) -> Subtitle:
    """Parse a line of the output of `show`."""
    match = SHOW_LINE.fullmatch(line)
    begin, end = (parse_time_code(match[name]) if match else None for name in ("begin", "end"))
    if not match or begin is None or end is None:
        raise WrongAnswer(f"`show` printed no subtitle: {line}")
    text = b"" if match["text"] == NO_TEXT else bytes.fromhex(match["text"])
    return Subtitle(index, int(match["number"]), begin, end, int(match["row"]),
                    int(match["justify"]), text)


class SubtitleList:
    """Subtitles sorted by time. A place is an index in this list."""

    def __init__(self, subtitles: Iterable[Subtitle]) -> None:
        self.subtitles = list(subtitles)
        self.begins = [subtitle.begin for subtitle in self.subtitles]

    def find_place(self, frame: int) -> int:
        """Return the index of the last subtitle that begins at or before a frame, or -1."""
        return bisect.bisect_right(self.begins, frame) - 1

    def count_begun(self, frame: int) -> tuple[int, bool]:
        """Return how many subtitles begin at or before a frame, and whether the last of them is
        expected at the frame."""
        place = self.find_place(frame)
        return place + 1, place >= 0 and frame < self.subtitles[place].end

    def subtitle(self, frame: int) -> Subtitle | None:
        """Return the subtitle that is expected at a frame, or `None` if there is none."""
        count, is_due = self.count_begun(frame)
        return self.subtitles[count - 1] if is_due else None

    def before(self, place: int) -> int:
        """Return the TCO of the subtitle before index `place`, or 0 for the first subtitle."""
        return self.subtitles[place - 1].end if place > 0 else 0

    def after(self, place: int) -> int:
        """Return the TCI of the subtitle after index `place`, or the end of the day."""
        is_last = place + 1 == len(self.subtitles)
        return FRAMES_OF_A_DAY if is_last else self.begins[place + 1]

    def find_nearest(self, places: Sequence[int], frame: int) -> int:
        """Return the member of `places` whose subtitle begins nearest to a frame."""
        at = count_until(places, lambda place: self.begins[place] >= frame)
        return min(places[max(at - 1, 0):at + 1], key=lambda item: abs(self.begins[item] - frame))

    def list_cues(self, first: int, last: int) -> list[int]:
        """Return the frames of the cues after frame `first`, up to `last`."""
        frames = []
        for subtitle in self.subtitles[max(self.find_place(first), 0):self.find_place(last) + 1]:
            frames += [frame for frame in (subtitle.begin, subtitle.end) if first < frame <= last]
        return frames


COMMENT = 1  # comment flag (CF) of a TTI block that is a comment


class NamedSubtitle(NamedTuple):
    """A subtitle's position in the file, counted from 1, its SN, and its TCI and TCO as text."""

    position: int
    number: int
    begin: str
    end: str


class SubtitleFile:
    """A subtitle file, which may be faulty. Subtitles outside `between` are skipped like comments.
    The subtitles at the positions `left_out` are not expected."""

    def __init__(self, path: str, between: FrameRange = ALL_DAY,
                 left_out: Collection[int] = ()) -> None:
        self.between = between
        self.data = read_stl(path)
        self.first_blocks = array.array("I", [0])  # for each block, the first block of its subtitle
        self.start_blocks = array.array("I")  # first block of each subtitle
        self.begins, self.blocks = array.array("I"), array.array("I")
        first, is_open = 0, False
        for block in range(1, (len(self.data) - GSI) // TTI + 1):
            tti = self.block(block)
            if tti[3] == USER_DATA or tti[15] == COMMENT:
                self.first_blocks.append(block)
                continue
            if not is_open:
                self.start_blocks.append(block)
            first, is_open = first if is_open else block, tti[3] != LAST_BLOCK
            self.first_blocks.append(first)
            begin = decode_frame(tti[5:9])
            is_listed = first == block and len(self.start_blocks) not in left_out
            if is_listed and begin is not None and between.includes(begin):
                self.begins.append(begin)
                self.blocks.append(block)

    def block(self, number: int) -> bytes:
        at = GSI + TTI * (number - 1)
        return self.data[at:at + TTI]

    def find_by_block(self, block: int) -> NamedSubtitle | None:
        """Return the subtitle of a block. Return `None` for the GSI block and for an incomplete
        block."""
        if not 0 < block < len(self.first_blocks):
            return None
        tti = self.block(self.first_blocks[block])
        return NamedSubtitle(bisect.bisect_right(self.start_blocks, self.first_blocks[block]),
                             tti[1] + 256 * tti[2], decode_time(tti[5:9]),
                             decode_time(tti[9:13]))

    def find_block_begin(self, block: int) -> int | None:
        """Return the frame of the TCI of a block's subtitle. Return `None` if it is not a time, and
        for the GSI block and an incomplete block."""
        return decode_frame(self.block(self.first_blocks[block])[5:9]) \
            if 0 < block < len(self.first_blocks) else None

    def is_outside(self, block: int) -> bool:
        """Return whether the subtitle of a block is outside the judged range."""
        begin = self.find_block_begin(block)
        return begin is not None and not self.between.includes(begin)

    def count(self) -> int:
        """Return the number of blocks."""
        return len(self.first_blocks) - 1

    def count_ended(self) -> tuple[int, int]:
        """Return how many subtitles have a last block, first without comments, then with them."""
        own = sum(1 for _ in self.list_last_blocks())
        last_block_count = sum(self.block(number)[3] == LAST_BLOCK for number in
                               range(1, len(self.first_blocks)))
        return own, last_block_count

    def list_subtitles(self) -> Iterator[NamedSubtitle]:
        """Yield the expected subtitles."""
        for block in self.blocks:
            subtitle = self.find_by_block(block)
            assert subtitle
            yield subtitle

    def find_by_frame(self, frame: int) -> NamedSubtitle | None:
        """Return the subtitle expected at a frame, if any. The subtitles must be in order."""
        at = bisect.bisect_right(self.begins, frame) - 1
        if at < 0:
            return None
        block = self.blocks[at]
        end = decode_frame(self.block(block)[9:13])
        return self.find_by_block(block) if end is not None and frame < end else None

    def text(self, block: int) -> bytes:
        """Return the text of a subtitle, up to and including the given block."""
        blocks = (self.block(item) for item in range(self.first_blocks[block], block + 1))
        return b"".join(item[16:].split(UNUSED)[0] for item in blocks
                        if item[3] != USER_DATA and item[15] != COMMENT)

    def list_last_blocks(self) -> Iterator[int]:
        """Yield the block number of the last block of each subtitle."""
        for number in range(1, len(self.first_blocks)):
            tti = self.block(number)
            if tti[3] == LAST_BLOCK and tti[15] != COMMENT and not self.is_outside(number):
                yield number

    def describe_byte(self, block: int, at: int) -> tuple[str | None, str | None]:
        """Return the byte at an offset of a text in hexadecimal, and its character. The character
        of a control code is `None`. `block` is the last block of the text."""
        text = self.text(block) if 0 < block < len(self.first_blocks) else b""
        if at >= len(text):
            return None, None
        has_accent = ACCENTS.get(text[at], " ") != " "
        character = decode_text(text[at:at + 1 + has_accent])
        is_character = 0x20 <= text[at] <= 0x7E or text[at] >= 0xA0
        return f"{text[at]:02X}", character if is_character else None
