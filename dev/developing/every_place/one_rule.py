"""Pairs of files that each break one rule: only this rule's number is reported.

A transmission is a list of PES packets, each with a frame number and the names of its Teletext
packets: `0 h r c` is the header, row 22 and the closing header at 10:00:00:00; `50 h c` is the page
without rows two seconds later. `+` after the frame means half a frame later (the second field), `-`
a quarter of a frame earlier. `*` is the tested packet.
"""
from __future__ import annotations

from typing import NamedTuple

from developing.pes import make_pes_packet
from developing.stl import make_gsi_block, make_subtitle_blocks
from subtitles.common.times import CLOCK, FRAMES_OF_A_DAY, TICKS

FIRST_FRAME = 900_000  # frame number of 10:00:00:00
PTS_OFFSETS = {"+": TICKS // 2, "-": -TICKS // 4}


class OneRule(NamedTuple):
    """A pair of files, the options of `check`, and the number of the rule that the pair breaks."""

    name: str
    number: int
    stl: bytes
    pes: bytes
    arguments: str


def make_packet(head: str, byte: int = 0x20) -> bytes:
    """Return a packet that begins with `head` and `byte`, and continues with spaces (0x20)."""
    first = bytes.fromhex(head)
    return first + bytes([byte]) + b"\x20" * (41 - len(first))


def make_header(c4: str = "D0", c5_c6: str = "D0", c7_c10: str = "02",
                c11_c14: str = "15") -> bytes:
    """Return a header of page 888, by default for a subtitle. The control bytes are hexadecimal."""
    return make_packet(f"15 15 D0 D0 15 {c4} 15 {c5_c6} {c7_c10} {c11_c14}")


def make_row_1(byte: int) -> bytes:
    """Return row 1 of magazine 8: a byte and 39 spaces."""
    return make_packet("D0 15", byte)


HEADER = make_header()
CLOSING = make_packet("15 15 EA EA EA 2F EA 5E 15 15")  # page FF, subcode 3F7F
SERIAL_CLOSING = make_packet("15 15 EA EA EA 2F EA 5E 15 02")  # sets C11
NO_HEADER = make_packet("15 15 D3 D0 15 D0 15 D0 02 15")  # undecodable page units
PACKET_26 = make_packet("15 B6")
ROW_22 = bytes.fromhex("15 9B") + b"\x20" * 17 + bytes.fromhex("0B 0B C8 E9 8A 8A") + b"\x20" * 17
EXCLAMATION_MARK = make_row_1(0xA1)  # an exclamation mark with odd parity
PAGE = [HEADER, CLOSING]


def parse_transmission(packets: str, meaning: dict[str, bytes]) -> list[bytes]:
    """Return the PES packets that a comma-separated list describes.

    The module's docstring describes the format. `meaning` maps the names in the list to packets.
    """
    result = []
    for frame, *names in map(str.split, packets.split(",")):
        ticks = (FIRST_FRAME + int(frame.rstrip("+-"))) * TICKS + PTS_OFFSETS.get(frame[-1], 0)
        result.append(make_pes_packet(ticks, [meaning[name] for name in names]))
    return result


def make_programme(text: bytes | None = None, begin: int = 0, end: int = 1) -> bytes:
    """Return a file without subtitles, or with one on row 22 from frame `begin` to `end`."""
    if text is None:
        return make_gsi_block(b"One rule", 0, 0)
    return make_gsi_block(b"One rule", 1, 1) + make_subtitle_blocks(1, FIRST_FRAME + begin,
                                                                    FIRST_FRAME + end, 22, 2, text)


NONE, BLANK, HI = make_programme(), make_programme(b""), make_programme(b"Hi")
HI_PAGE_9, HI_TWO_LATER = make_programme(b"Hi", 0, 9), make_programme(b"Hi", 2, 9)


def make_case(name: str, number: int, packets: str, tested_packet: bytes = b"",
              arguments: str = "--every 1", stl: bytes = NONE) -> OneRule:
    meaning = {"h": HEADER, "r": ROW_22, "c": CLOSING, "*": tested_packet, "s": make_row_1(0x20)}
    return OneRule(name, number, stl, b"".join(parse_transmission(packets, meaning)), arguments)


def make_pair_at_day_bound(name: str, *ticks: int) -> OneRule:
    """Return a pair with an empty page at each of these PTS. One PTS is outside the day."""
    pes = b"".join(make_pes_packet(tick % CLOCK, PAGE) for tick in ticks)
    return OneRule(name, 61, NONE, pes, "--every 1")


PLAIN = [
    make_case("frames that do not rise", 62, "0 h c, 2 h c, 1 h c", arguments="--every 3"),
    make_case("the first TCI is before the first frame", 63, "1 h c", stl=BLANK),
    make_case("the last TCO is after the last frame", 74, "0 h c", stl=BLANK),
    make_case("an address byte with a wrong bit", 64, "0 * c", b"\x14" + HEADER[1:]),
    make_case("a coded byte of a header with a wrong bit", 65, "0 * c",
              HEADER[:2] + b"\xd1" + HEADER[3:]),
    make_case("a packet X/0 that is no header", 65, "0 h c *", NO_HEADER),
    make_case("a closing header in another mode", 66, "0 h *", SERIAL_CLOSING),
    make_case("C4, erase page, is clear", 67, "0 * c", make_header(c4="15")),
    make_case("C5, newsflash, is set", 67, "0 * c", make_header(c5_c6="A1")),
    make_case("C6, subtitle, is clear", 67, "0 * c", make_header(c5_c6="15")),
    make_case("C7, suppress header, is clear", 67, "0 * c", make_header(c7_c10="15")),
    make_case("C10, inhibit display, is set", 67, "0 * c", make_header(c7_c10="C7")),
    make_case("C12 names another sub-set", 67, "0 * c", make_header(c11_c14="49")),
    make_case("C13 names another sub-set", 67, "0 * c", make_header(c11_c14="64")),
    make_case("C14 names the German sub-set", 67, "0 * c", make_header(c11_c14="D0")),
    make_case("C14 is clear where German is asked for", 67, "0 h c",
              arguments="--every 1 --option german"),
    make_case("a row with a space of even parity", 68, "0 h * c", make_row_1(0xA0)),
    make_case("a second packet of a row that differs", 69, "0 h s * c", EXCLAMATION_MARK),
    make_case("a packet X/26 while the page is open", 70, "0 h * c", PACKET_26),
    make_case("a frame without a header of the page", 73, "0 h c, 1 c"),
    make_case("a first frame without one", 71, "0 c, 1 h c", arguments="--every 2"),
    make_case("a letter that is not due", 72, "0 h * c", EXCLAMATION_MARK),
    make_case("no row where one is due", 72, "0 h c, 1 h c", stl=HI),
    make_case("a row that stands for a frame too long", 72, "0 h r c, 2 h c", arguments="--every 2",
              stl=HI),
]

# The page may be two frames late.
LATE = [
    make_pair_at_day_bound("a PTS just before the day", -901, 0),
    make_pair_at_day_bound("a PTS just after the day", 0, TICKS * FRAMES_OF_A_DAY - 900),
    make_case("a frame before that of the PES packet before", 62, "0 h c, 1 h c, 0 h c"),
    make_case("the first TCI is before the first frame", 63, "1 h c", stl=BLANK),
    make_case("a wrong bit in the second PES packet of a frame", 64, "0 h c, 0 * c",
              b"\x14" + HEADER[1:]),
    make_case("a packet X/0 that is no header in the second PES packet of a frame", 65,
              "0 h c, 0 *", NO_HEADER),
    make_case("C4 is clear in the second PES packet of a frame", 67, "0 h c, 0 * c",
              make_header(c4="15")),
    make_case("another mode in the second PES packet of a frame", 66, "0 h, 0 *", SERIAL_CLOSING),
    make_case("an even byte in the second PES packet of a frame", 68, "0 h, 0 * c",
              make_row_1(0xA0)),
    make_case("another row in the second PES packet of a frame", 69, "0 h s, 0 * c",
              EXCLAMATION_MARK),
    make_case("a packet X/26 in the second PES packet of a frame", 70, "0 h, 0 * c", PACKET_26),
    make_case("two PES packets of the first frame without a header", 71, "0 c, 0 c, 1 h c",
              arguments="--every 2"),
    make_case("a frame of two PES packets without a header", 73, "0 h c, 1 c, 1 c"),
    make_case("a row three frames after its header", 72, "0 h, 3 r c, 9 h c", arguments="",
              stl=HI_PAGE_9),
    make_case("a page that is not whole before its TCO", 72, "0 h c, 1 h r c, 2 h c", arguments="",
              stl=HI),
    make_case("a letter that was never due", 72, "0 h * c, 1 h c", EXCLAMATION_MARK, arguments=""),
    make_case("a page a frame early", 72, "0 h c, 1 h r c, 9 h c", arguments="", stl=HI_TWO_LATER),
    make_case("a page of three frames before", 72, "0 h r c, 1 h c, 3 h r c, 4 h c", arguments="",
              stl=HI),
    make_case("a page that is open for three frames", 77, "0 h, 3 c", arguments="--complete"),
    make_case("a page that is open at its last frame", 77, "0 h r, 1 h c", arguments="--complete",
              stl=HI),
    make_case("the last TCO is after the last frame", 74, "0 h c", arguments="", stl=BLANK),
    make_case("a last frame that is not whole yet", 74, "0 h r c, 1", arguments="", stl=HI),
    make_case("a last frame with an open page", 74, "0 h", arguments="--complete"),
]
ONE_RULE_PAIRS = [*PLAIN, *(one._replace(arguments=f"--within 2 {one.arguments}".rstrip())
                            for one in LATE)]
