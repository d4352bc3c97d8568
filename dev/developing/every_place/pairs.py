"""Make random pairs of a subtitle file and a transmission, with faults.

The program's `schedule` writes a correct transmission. Then bytes, Teletext packets, PES packets
and subtitles are changed.
"""
from __future__ import annotations

import contextlib
import shlex
from random import Random
from typing import Callable, NamedTuple

from developing.stl import make_gsi_block, make_subtitle_blocks
from subtitles.common.times import FRAMES_OF_A_DAY
from subtitles.formats.stl import GSI, TTI, USER_DATA
from .broadcasters import (
    mark_as_open, make_layout, make_pace_options, make_part_options, spoil_subtitles, keep_pages)
from .broken import LETTERS, break_transmission
from .due import judge_subtitles
from .late import delay_transmission
from .national import BITS, CELLS, COMMON_CODES
from .arguments import UsageFault, parse_options

Schedule = Callable[[bytes, list[str]], bytes]  # function that schedules a subtitle file
OPTIONS = [*BITS]  # national options
MAX_TRIES = 20  # maximum number of tries to make a refused subtitle


class Pair(NamedTuple):
    """Two files and the options of `check`. `is_failing` requests a check with a read failure."""

    stl: bytes
    pes: bytes
    options: list[str]
    is_failing: bool = False

    @property
    def arguments(self) -> str:
        return shlex.join(self.options)


class Subtitle(NamedTuple):
    """A subtitle. TCI and TCO are frames since midnight."""

    tci: int
    tco: int
    row: int
    justify: int
    text: bytes


def add_letters(rng: Random, text: bytes, option: str) -> bytes:
    """Replace letters with letters of a national option, or occasionally with an invalid byte."""
    if rng.random() < 0.1:
        option = rng.choice(OPTIONS)
    own = [letter for letter, cell in CELLS[option].items()
           if cell not in COMMON_CODES] * 4 + [b"\xc2"]
    for _ in range(rng.choice([1, 2, 5])):
        letter = bytes([rng.choice(LETTERS)])
        text = text.replace(letter, rng.choice(own), rng.choice([1, 2]))
    return text


def make_random_text(rng: Random, row: int, option: str) -> bytes:
    """Return random lines of text that fit on a page from `row` on, some with national letters."""
    lines = []
    for _ in range(rng.choice([1, 1, 2, 3])):
        line = bytes(rng.choices(LETTERS, k=rng.randrange(1, 30)))
        if rng.random() < 0.2:
            line = bytes([rng.randrange(1, 8)]) + line
        lines.append(line)
    separator = b"\x8a"
    if rng.random() < 0.4:
        lines, separator = [b"\x0d\x0b\x0b" + line + b"\x0a\x0a" for line in lines], b"\x8a\x8a"
    text = separator.join(lines[:max(1, (23 - row) // len(separator))])
    return add_letters(rng, text, option) if rng.random() < 0.3 else text


def make_random_subtitles(rng: Random, option: str) -> list[Subtitle]:
    """Return subtitles in ascending order of time. Some of them are adjacent."""
    frame = rng.choice([0, 25, 900_000, rng.randrange(FRAMES_OF_A_DAY - 2000)])
    result = []
    for _ in range(rng.choice([1, 1, 2, 3, 4, 6])):
        frame += rng.choice([0, 0, 1, 2, rng.randrange(80)])
        end = frame + rng.choice([1, 2, 25, 25, *(rng.randrange(1, 120) for _ in range(3))])
        row = rng.randrange(1, 23)
        text = make_random_text(rng, row, option)
        result.append(Subtitle(frame, end, row, rng.randrange(4), text))
        frame = end
    return result


def make_stl_file(rng: Random, subtitles: list[Subtitle]) -> bytes:
    """Return a subtitle file, sometimes with comments or user data between its blocks."""
    gsi_block = make_gsi_block(b"At random", 0, len(subtitles))
    for number, subtitle in enumerate(subtitles):
        gsi_block += make_subtitle_blocks(number, *subtitle)
        if rng.random() < 0.1:
            skipped = bytearray(gsi_block[-TTI:])
            at, value = rng.choice([(15, 1), (3, USER_DATA)])
            skipped[at] = value
            gsi_block += skipped
    return gsi_block


def change_subtitle(rng: Random, subtitles: list[Subtitle], option: str) -> list[Subtitle]:
    """Change a subtitle, so that it does not match the original transmission."""
    subtitles = list(subtitles)
    at = rng.randrange(len(subtitles))
    item = subtitles[at]
    way = rng.randrange(5)
    if way == 0:
        item = item._replace(tci=min(max(0, item.tci + rng.randrange(-30, 30)), item.tco - 1))
    elif way == 1:
        item = item._replace(tco=item.tci + rng.randrange(1, 90))
    elif way == 2:
        item = item._replace(text=make_random_text(rng, item.row, option))
    elif way == 3:
        item = item._replace(justify=rng.randrange(4))
    else:
        del subtitles[at]
        return subtitles
    subtitles[at] = item
    return subtitles


# Field values at the limits of valid values: EBN, CS, TCI and TCO, VP, JC, CF.
FIELDS = {3: [0, 1, 0xF0, 0xFD, 0xFE, 0xFF], 4: [0, 1], 5: [0, 10, 24], 8: [0, 24, 25], 9: [0, 24],
          12: [0, 24, 25], 13: [0, 1, 20, 22, 23, 24], 14: [0, 3, 4], 15: [0, 1, 2]}
CODES = [0x00, 0x0B, 0x0D, 0x0E, 0x23, 0x24, 0x40, 0x5B, 0x80, 0x8A, 0x8F, 0xA7, 0xC2, 0xC8]


def corrupt_block(rng: Random, data: bytearray, block: int) -> None:
    """Change a field of a block or a byte of its text."""
    way = rng.random()
    if way < 0.5:
        data[block + 16 + rng.randrange(20)] = rng.choice([*CODES, rng.randrange(256)])
    elif way < 0.9:
        at = rng.choice([*FIELDS])
        data[block + at] = rng.choice([*FIELDS[at], rng.randrange(256)])
    else:
        data[block + rng.randrange(3)] ^= 1  # change the subtitle group or the subtitle number


def remove_or_repeat_block(rng: Random, block: bytearray) -> bytearray:
    """Remove a block, or repeat it. The repeated blocks sometimes form one subtitle."""
    count = rng.choice([0, 2, 2, 3, 10])
    if rng.random() < 0.6:
        block[3] = rng.choice([0, 1])
        last = block[:3] + bytes([0xFF]) + block[4:]
        return block * (count - 1) + last if count else last
    return block * count


def corrupt_stl_file(rng: Random, whole: bytes) -> bytes:
    """Change bytes, blocks or the length of a subtitle file."""
    data = bytearray(whole)
    for _ in range(rng.choice([1, 1, 2, 5])):
        blocks = (len(data) - GSI) // TTI
        if blocks < 1:
            break
        item, other = (GSI + TTI * rng.randrange(blocks) for _ in range(2))
        way = rng.random()
        if way < 0.75:
            corrupt_block(rng, data, item)
        elif way < 0.8:
            data[rng.choice([3, 6, 11, 12, rng.randrange(GSI)])] = rng.randrange(256)
        elif way < 0.88:
            data[item:item + TTI], data[other:other + TTI] = \
                data[other:other + TTI], data[item:item + TTI]
        elif way < 0.91:
            data[item:item + TTI] = remove_or_repeat_block(rng, data[item:item + TTI])
        elif way < 0.95:
            data[item + 16:item + TTI] = rng.choice([b"xx", b"x\x8a"]) * 56
        else:
            del data[rng.randrange(len(data)):]
    return bytes(data)


def make_random_options(rng: Random) -> dict[str, str]:
    """Return random values of the options that `schedule` and `check` share."""
    return {"--page": rng.choice(["888", "888", "888", "1A0", "8f0"]),
            "--every": str(rng.choice([1, 2, 25, 25, 50, 250])),
            "--origin": str(rng.choice([0, 0, 3600, 2**33 - 3600 * 900_001, 5])),
            "--option": rng.choice(["english"] * 4 + OPTIONS)}


def change_options(rng: Random, arguments: dict[str, str]) -> dict[str, str]:
    """Return the options, occasionally with one value changed."""
    if rng.random() >= 0.25:
        return arguments
    name = rng.choice(["--every"] * 4 + ["--page", "--origin", "--origin", "--option"])
    origin = int(arguments["--origin"]) + rng.choice([3600, -3600, 1, 90_000])
    other = {"--every": str(rng.choice([1, 10, 24, 49, 1501])), "--page": "100",
             "--origin": str(origin % 2**33),
             "--option": rng.choice([*OPTIONS, "danish", "French", ""])}
    return {**arguments, name: other[name]}


def list_arguments(arguments: dict[str, str]) -> list[str]:
    return [word for pair in arguments.items() for word in pair]


WRONG_NUMBERS = ["51", "x", "", "+1", "1 ", "4294967297", "00000000001"]


def make_within_option(rng: Random, within: int) -> list[str]:
    """Return the option --within. Occasionally return no option, or an invalid number."""
    if rng.random() < 0.02:
        return ["--within", rng.choice(WRONG_NUMBERS)]
    if within == 0 and rng.random() < 0.8:
        return []
    return ["--within", rng.choice([str(within)] * 9 + [f"{within:010}"])]


def add_refused_subtitles(broadcaster_rng: Random, stl: bytes, arguments: list[str],
                          is_sure: bool) -> bytes:
    """Return the file, occasionally (always if `is_sure`) with subtitles that are refused."""
    if not is_sure:
        return spoil_subtitles(broadcaster_rng, stl) if broadcaster_rng.random() < 0.15 else stl
    for _ in range(MAX_TRIES):
        spoiled_stl = spoil_subtitles(broadcaster_rng, stl)
        with contextlib.suppress(UsageFault):
            if judge_subtitles(spoiled_stl, parse_options(arguments)).lines:
                return spoiled_stl
    return stl


def make_random_pair(seed: int, schedule: Schedule, is_refused: bool = False,
                     has_keeping_headers: bool = False) -> Pair:
    """Return a random pair of files, whose transmission `schedule` makes.

    `is_refused` asks for refused subtitles, `has_keeping_headers` for headers that keep the page.
    """
    rng, broadcaster_rng = Random(seed), Random(f"house {seed}")
    arguments = make_random_options(rng)
    subtitles = make_random_subtitles(rng, arguments["--option"])
    within = rng.choice([0] * 8 + [1, 1, 1, 2, 2, 3, 3, 4])
    stl = make_stl_file(rng, subtitles)
    modes: list[list[str]] = [[], [], ["--serial"]]
    draw_page = ["--layout", make_layout(broadcaster_rng)] if broadcaster_rng.random() < 0.2 else []
    part = make_part_options(broadcaster_rng, stl) if broadcaster_rng.random() < 0.15 else []
    flags = ["--open"] if broadcaster_rng.random() < 0.05 else []
    stl = mark_as_open(stl, broadcaster_rng) if flags else stl
    mode = rng.choice(modes)
    pes = schedule(stl, [*list_arguments(arguments), *draw_page, *part, *flags, *mode])
    if not pes:  # these options select no subtitles
        draw_page = part = []
        pes = schedule(stl, [*list_arguments(arguments), *flags, *mode])
    if is_page_kept := has_keeping_headers or broadcaster_rng.random() < 0.2:
        pes = keep_pages(broadcaster_rng, pes)
        flags += ["--keeping"] if broadcaster_rng.random() < 0.9 else []
    is_late = rng.random() < (0.9 if within else 0.1)
    if is_late:
        pes = delay_transmission(rng, pes, within or rng.randrange(3), int(arguments["--origin"]))
        if rng.random() < 0.7:
            arguments["--every"] = str(int(arguments["--every"]) + within)
    # Pairs with late pages, headers that keep the page, or refused subtitles often get no fault.
    is_broken = not (is_late or is_refused or is_page_kept and broadcaster_rng.random() < 0.6) \
        or rng.random() < 0.4
    if is_broken and rng.random() < 0.3:
        stl = make_stl_file(rng, change_subtitle(rng, subtitles, arguments["--option"]))
    stl = add_refused_subtitles(broadcaster_rng, stl, [*list_arguments(arguments), *draw_page,
                                                       *part, *flags], is_refused)
    if is_broken:
        if rng.random() < (0.04 if is_refused else 0.2):
            stl = corrupt_stl_file(rng, stl)
        pes = break_transmission(rng, pes)
        arguments = change_options(rng, arguments)
    pace = make_pace_options(broadcaster_rng) if broadcaster_rng.random() < 0.12 else []
    requested_options = [*list_arguments(arguments), *make_within_option(rng, within), *draw_page,
                         *part, *pace, *flags]
    if rng.random() < 0.4:
        requested_options.append("--complete")
    return Pair(stl, pes, requested_options, rng.random() < 0.25)
