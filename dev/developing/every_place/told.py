"""Format the printed lines of faults, and define the names of fault numbers."""
from __future__ import annotations

NAMES = dict(
    (int(fields[0]), fields[1]) for fields in map(str.split, """
    10 Truncated|11 Format|12 Rate|13 Display|14 Alphabet|15 Extension|16 Cumulative|17 CommentFlag
    |18 Justify|19 Row|20 Time|21 EmptyTime|22 Sequence|23 TooLong|24 Unfinished|25 TooManyBlocks
    |30 Truncated|31 Start|32 Length|33 Flags|34 NoTime|35 HeaderLength|36 Time|37 DataId
    |38 UnitLength|39 Framing|40 LineOrder|44 TooMany|45 Lost|50 Character|51 Control|52 RowTooLong
    |53 PastBottom|54 DoubleRow|55 Hidden|56 OutOfOrder|57 Overlap|60 Empty|61 OffFrame|62 Order
    |63 Early|64 Address|65 HeaderCode|66 Mode|67 Control|68 Parity|69 RowChanged|70 Enhancement
    |71 NoFirstHeader|72 Content|73 Gap|74 Late|77 Incomplete|78 Undecided|79 Silent
    """.split("|")))


def format_refused(number: int, place: str = "") -> str:
    return f"refused {number} {NAMES[number]} {place}".rstrip()


def format_ended(number: int, place: str) -> str:
    return f"ended {number} {NAMES[number]} {place}"
