"""Latin national option sub-sets of characters (EN 300 706, table 36).

The module gives the header bits that select a sub-set, and the bytes of a subtitle text for its
characters. Texts use code table 00 of EBU Tech 3264 (ISO 6937): a letter with a diacritical mark is
two bytes, the mark first.
"""
from __future__ import annotations

# The bits of C12, C13 and C14 that are set in the page header for each national option.
BITS: dict[str, set[int]] = {
    "english": set(), "german": {14}, "swedish": {13}, "italian": {13, 14}, "french": {12},
    "spanish": {12, 14}, "czech": {12, 13}, "polish": set(), "turkish": {12, 13},
    "croatian": {12, 14}, "romanian": {12, 13, 14}, "estonian": {13}, "lithuanian": {13, 14}}
ALL_OPTION_BITS = {12, 13, 14}

# Bytes with the same meaning in each sub-set: spacing attributes, digits, letters, symbols.
COMMON_CODES = (*range(0x01, 0x0E), 0x1C, 0x1D, *range(0x20, 0x23), *range(0x25, 0x40),
                *range(0x41, 0x5B), *range(0x61, 0x7B))

# The character codes that differ between national option sub-sets. After the code, there is a
# column for each option in the order of BITS. It contains the bytes of a subtitle text that encode
# the character: a byte, alternatives (`,`) or a pair (`.`). `-` means that no bytes encode it.
CELL_TEXTS = """
23  A3     23     23     A3     C2.65  CB.63  23     23     -      23     23     23     23
24  24,A4  24,A4  A8     24,A4  C8.69  24,A4  CA.75  C2.6E  C6.67  C8.45  A8     C4.6F  24,A4
40  40     A7     C2.45  C2.65  C1.61  A1     CF.63  CE.61  C7.49  CF.43  CB.54  CF.53  CF.53
5B  -      C8.41  C8.41  B0     C8.65  C2.61  CF.74  C7.5A  CB.53  C2.43  C3.41  C8.41  C7.65
5C  -      C8.4F  C8.4F  CB.63  C3.65  C2.65  CF.7A  C2.53  C8.4F  CF.5A  CB.53  C8.4F  CE.65
5D  -      C8.55  CA.41  AE     C1.75  C2.69  C2.79  E8     CB.43  E2     C6.41  CF.5A  CF.5A
5E  -      -      C8.55  AD     C3.69  C2.6F  C2.69  C2.63  C8.55  CF.53  C3.49  C8.55  CF.63
5F  23     -      5F     23     23     C2.75  CF.72  C2.6F  C6.47  C8.65  F5     C4.4F  C5.75
60  -      B0     C2.65  C1.75  C1.65  BF     C2.65  CE.65  F5     CF.63  CB.74  CF.73  CF.73
7B  -      C8.61  C8.61  C1.61  C3.61  C8.75  C2.61  C7.7A  CB.73  C2.63  C3.61  C8.61  CE.61
7C  -      C8.6F  C8.6F  C1.6F  C3.6F  C4.6E  CF.65  C2.73  C8.6F  CF.7A  CB.73  C8.6F  CE.75
7D  -      C8.75  CA.61  C1.65  C3.75  C1.65  C2.75  F8     CB.63  F2     C6.61  CF.7A  CF.7A
7E  -      FB     C8.75  C1.69  CB.63  C1.61  CF.73  C2.7A  C8.75  CF.73  C3.69  C8.75  CE.69
"""


def map_cells_by_option() -> dict[str, dict[bytes, int]]:
    """Return, for each sub-set, a dictionary that maps the bytes of a character to its cell."""
    result = {option: {bytes([code]): code for code in COMMON_CODES} for option in BITS}
    for line in CELL_TEXTS.split("\n")[1:-1]:
        cell, *columns = line.split()
        for option, arguments in zip(BITS, columns):
            for word in arguments.split(",") if arguments != "-" else []:
                result[option][bytes.fromhex(word.replace(".", ""))] = int(cell, 16)
    return result


CELLS = map_cells_by_option()
