"""Dates and times in recordings."""
from __future__ import annotations

import contextlib
import datetime
import os
import re
from typing import Iterator

from ..common.command_line import PACKET_SIZE, PACKET_SIZES
from ..common.files import read_chunks

# The TS packet in which a TDT or TOT begins (EN 300 468): PID 14 (hexadecimal), with a payload
TIME_PACKET = re.compile(rb"\x47\x40\x14[\x10-\x1f\x30-\x3f]")
TABLES = (0x70, 0x73)  # table_id of TDT and TOT
DAY, FIRST_DAY = 86_400, 40_587  # seconds of a day, and the modified Julian date of 1970-01-01
MAX_BYTES = 1 << 28  # number of bytes to search: a TDT comes every 30 seconds


def find_date(path: str, size: int) -> bytes:
    """Return a recording's date as YYMMDD: that of its first TDT or TOT, or else of the file's last
    change (UTC). `size` is the packet size, or 0 for a file of PES packets."""
    times = (time for _, time in find_times(path)) if size else iter(())
    date = datetime.datetime.fromtimestamp(next(times, os.stat(path).st_mtime),
                                           datetime.timezone.utc)
    return date.strftime("%y%m%d").encode()


def find_times(path: str) -> Iterator[tuple[int, float]]:
    """Yield the place in bytes of each TDT and TOT of a transport stream, and the time in it, in
    seconds since the epoch. Those at the end of a chunk come twice."""
    rest, count = b"", 0
    for data in read_chunks(path):
        rest, count = rest + data, count + len(data)
        for place in map(re.Match.start, TIME_PACKET.finditer(rest)):
            packet = rest[place:place + PACKET_SIZE]
            if not any(rest[place + size:][:1] == packet[:1] for size in PACKET_SIZES):
                continue  # other bytes, or the next chunk is needed
            start = 4 + (1 + packet[4] if packet[3] & 0x20 else 0)
            start += 1 + packet[start] if start < PACKET_SIZE else 0
            table = packet[start:start + 8]
            with contextlib.suppress(ValueError):  # too short, or not decimal digits
                hours, minutes, seconds = map(int, table[5:].hex(" ").split())
                if table[0] in TABLES:
                    days = int.from_bytes(table[3:5], "big") - FIRST_DAY
                    yield (count - len(rest) + place,
                           days * DAY + 3600.0 * hours + 60 * minutes + seconds)
        rest = rest[-2 * max(PACKET_SIZES):]
        if count > MAX_BYTES:
            return
