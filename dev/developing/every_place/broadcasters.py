"""Make random options and transmissions with features that differ between broadcasters.

These features are the text layout, the time range, headers that do not erase the page, the maximum
interval between PES packets, and whether refused subtitles are transmitted.
"""
from __future__ import annotations

import io
from random import Random
from typing import NamedTuple

from developing.pes import (
    add_odd_parity, decode_pts, make_packet as teletext_packet, make_pes_packet, read_pes_packets)
from developing.stl import encode_time_code
from subtitles.common.times import FRAMES_OF_A_DAY, decode_frame, format_frame
from subtitles.formats.layout import FLAGS, NUMBER_RANGES
from subtitles.formats.stl import GSI, TTI
from subtitles.formats.teletext import CODE_WORDS, NUMBER
from .broken import LETTERS, MAX_PACKETS, read_teletext

DISPLAY_CODE = 11  # offset of DSC in the GSI block
CODES = [0x0A, 0x0B, 0x0B, 0x0D, 0x07, 0x03, 0x01, 0x0C]
WRONG_LAYOUTS = ["", "fit,fit", "Fit", "before=0", "left=40", "after=0A*", "row=+1", "strip=20"]
INVALID_PACES = ["0", "2160001", "", "x", "+1", "00000000001"]
WRONG_TIMES = ["", "24:00:00:00", "1:00:00:00", "10:00:00:25", "10:00:00"]
SUBCODE, S2_C4, S4_C6 = 4, 5, 7  # offsets of fields in a page header


def make_codes(rng: Random, most: int, some: list[int]) -> str:
    return "".join(f"{rng.choice(some):02X}" for _ in range(rng.randrange(most + 1)))


def make_layout(rng: Random) -> str:
    """Return a random layout option, occasionally an invalid option."""
    if rng.random() < 0.04:
        return rng.choice(WRONG_LAYOUTS)
    items = [name for name in FLAGS if rng.random() < 0.2]
    items += [f"{name}={rng.choice(numbers[:6])}" for name, numbers in NUMBER_RANGES.items()
              if rng.random() < 0.15 and name != "row"]
    if rng.random() < 0.15:
        items.append(f"row={rng.randrange(-3, 3)}")
    if rng.random() < 0.4:
        star = "*" + make_codes(rng, 3, CODES) if rng.random() < 0.6 else ""
        items.append(f"before={make_codes(rng, 3, CODES)}{star}")
    if rng.random() < 0.3:
        items.append(f"after={make_codes(rng, 3, CODES)}")
    if rng.random() < 0.3:
        stripped = rng.sample([0x00, 0x0A, 0x0B, 0x0D, 0x03, 0x1F], rng.randrange(1, 4))
        items.append("strip=" + bytes(stripped).hex())
    rng.shuffle(items)
    return ",".join(items) or "fit"


def split_blocks(stl: bytes) -> list[bytearray]:
    return [bytearray(stl[at:at + TTI]) for at in range(GSI, len(stl), TTI)]


def make_part_options(rng: Random, stl: bytes) -> list[str]:
    """Return --from and --to options with times near the start of subtitles."""
    arguments: list[str] = []
    begins = [frame for block in split_blocks(stl)
              if (frame := decode_frame(bytes(block[5:9]))) is not None] or [0]
    for name in ("--from", "--to"):
        if rng.random() < 0.6:
            frame = rng.choice(begins) + rng.choice([0, 0, 1, -1, 30])
            wrong = rng.random() < 0.04
            arguments += [name, rng.choice(WRONG_TIMES) if wrong
                          else format_frame(min(max(frame, 0), FRAMES_OF_A_DAY - 1))]
    return arguments


def mark_as_open(stl: bytes, rng: Random) -> bytes:
    """Set the display code to open subtitles, or occasionally to another value."""
    return stl[:DISPLAY_CODE] + rng.choice([b"0", b"0", b" ", b"3"]) + stl[DISPLAY_CODE + 1:]


class RepeatSettings(NamedTuple):
    """Probabilities that a header does not erase the page, and that rows change."""

    repeat_probability: float
    change_probability: float
    error_probability: float
    has_new_subcodes: bool


def change_header(rng: Random, teletext: list[bytes], subcode: int, keeps_page: bool) -> None:
    """Set the subcode of the first header. If `keeps_page`, clear C4, and occasionally C6 too."""
    head = bytearray(teletext[0])
    head[SUBCODE] = CODE_WORDS[subcode]
    if keeps_page:
        head[S2_C4] = CODE_WORDS[(NUMBER[head[S2_C4]] or 0) & 7]
    if keeps_page and rng.random() < 0.02:
        head[S4_C6] = CODE_WORDS[(NUMBER[head[S4_C6]] or 0) & 7]
    teletext[0] = bytes(head)


def change_page_body(rng: Random, teletext: list[bytes]) -> None:
    """Change the packets after a header: for example, remove rows, add rows or change a byte."""
    at, way = rng.randrange(1, len(teletext)), rng.randrange(9)
    item = bytearray(teletext[at])
    if way < 3:
        del teletext[at]
    elif way == 3:
        item[rng.randrange(2, 42)] ^= 0x80
        teletext[at] = bytes(item)
    elif way == 4:
        item[rng.randrange(10, 42)] = add_odd_parity(rng.choice(LETTERS))
        teletext[at] = bytes(item)
    elif way == 5:
        text = rng.choice([b" " * 40, bytes(rng.choices(LETTERS, k=40))])
        teletext.insert(at, teletext_packet(0, rng.randrange(1, 25), [], text))
    elif way == 6:  # move the closing header to an earlier place
        teletext.insert(rng.randrange(len(teletext)), teletext.pop())
    elif way == 7:
        teletext.pop()
    else:
        teletext.insert(rng.randrange(1, len(teletext) + 1), teletext[0])


def keep_pages(rng: Random, pes: bytes) -> bytes:
    """Clear C4 in random headers, usually of repeated pages. Sometimes also change these pages."""
    packets: list[bytes] = []
    previous_packets: list[bytes] = []
    repeats = RepeatSettings(rng.choice([0.3, 0.9, 1.0]), rng.choice([0, 0, 0, 0.08, 1.0]),
                             rng.choice([0, 0, 0, 0.04, 0.2]), rng.random() < 0.1)
    subcode = rng.choice([0, 0, 1])
    for packet in read_pes_packets(io.BytesIO(pes)):
        teletext = read_teletext(bytearray(packet))
        is_repeat = teletext == previous_packets
        previous_packets = list(teletext)
        if (repeats.has_new_subcodes and not is_repeat
                or rng.random() < repeats.error_probability / 4):
            subcode = rng.randrange(4)
        if teletext:
            keeps_page = rng.random() < (repeats.repeat_probability if is_repeat
                                         else repeats.change_probability)
            change_header(rng, teletext, subcode, keeps_page)
            if keeps_page and len(teletext) > 1 and rng.random() < repeats.error_probability:
                change_page_body(rng, teletext)
        packets.append(make_pes_packet(decode_pts(packet), teletext) if len(teletext) < MAX_PACKETS
                       else bytes(packet))
    return b"".join(packets)


def spoil_subtitles(rng: Random, stl: bytes) -> bytes:
    """Add a fault to one or two subtitles: in the text, in a block's field, or in the order."""
    blocks = split_blocks(stl)
    for _ in range(rng.choice([1, 1, 2])):
        if not blocks:
            break
        at, way = rng.randrange(len(blocks)), rng.randrange(6)
        block = blocks[at]
        if way < 2:
            block[16 + rng.randrange(4)] = rng.choice([0xE6, 0xC2, 0x00, 0x1F])
        elif way == 2:
            field, value = rng.choice([(14, 4), (4, 1), (8, 25), (12, 25), (9, 23), (13, 24)])
            block[field] = value
        elif way == 3:  # the subtitle ends during or after the next subtitle
            tco = decode_frame(bytes(block[9:13])) or 0
            block[9:13] = encode_time_code(min(tco + rng.randrange(1, 90), FRAMES_OF_A_DAY - 1))
        elif way == 4:
            blocks.insert(at, blocks.pop(rng.randrange(len(blocks))))
        else:
            blocks.insert(at, bytearray(rng.choice(blocks)))
    return stl[:GSI] + b"".join(blocks)


def make_pace_options(rng: Random) -> list[str]:
    wrong = rng.random() < 0.04
    return ["--pace", rng.choice(INVALID_PACES) if wrong
            else str(rng.choice([1, 2, 25, 26, 50, 100, 250, 2160000]))]
