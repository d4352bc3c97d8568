"""Subtitle files that run over midnight: move all times, so that they lie within one day.

The program `subttx` judges the subtitles of one day. It reads a copy of the file in which all times
are earlier, as a rule by 12 hours, on a clock that is later by as much. So each cue keeps its PTS.
"""
from __future__ import annotations

import contextlib

from ..common.files import DamagedFile
from ..common.times import FRAMES_A_SECOND, FRAMES_OF_A_DAY, decode_frame
from .stl import GSI, TCP_PLACE, TTI, decode_tcp, get_subtitle_times, read_stored_subtitles
from .stl_writer import encode_time_code

HOUR = 3600 * FRAMES_A_SECOND
# A step back by at least this number of frames is one over midnight. A shorter one is an error.
MIN_STEP_BACK = 20 * HOUR
NOON = 12 * HOUR
TIMES = slice(5, 9), slice(9, 13)  # bytes of TCI and TCO in a TTI block


def find_day_begin(data: bytes) -> int:
    """Return the time of day, in frames, at which the day of a subtitle file begins. This is
    midnight (0), unless the times go back exactly once by 20 hours or more: from a TCI to the next,
    or from the last TCI to its TCO. Then it is noon, or a time that no subtitle contains. A first
    subtitle at 00:00:00:00 does not count, since it is a title that is not sent."""
    begins, ends, midnight = list[int](), list[int](), 0
    with contextlib.suppress(DamagedFile):
        for subtitle in read_stored_subtitles(data):
            begin, end = get_subtitle_times(subtitle)
            if begin is None or end is None or not begins and not begin:  # or a title
                continue
            if begins and begins[-1] % FRAMES_OF_A_DAY - begin >= MIN_STEP_BACK:
                midnight += FRAMES_OF_A_DAY
            begins.append(midnight + begin)
            ends.append(midnight + end)
    if begins and begins[-1] - ends[-1] >= MIN_STEP_BACK:
        ends[-1] += FRAMES_OF_A_DAY
    return choose_day_begin(min(begins, default=0), max([*begins, *ends], default=0))


def choose_day_begin(first: int, last: int) -> int:
    """Return the time of day at which a day begins that contains the frames from `first` to `last`,
    which are counted from the first midnight. Return 0 if the first day contains them, or if they
    last longer than a day."""
    end = last - FRAMES_OF_A_DAY
    if not 0 <= end < first < FRAMES_OF_A_DAY:
        return 0
    return NOON if end + HOUR <= NOON <= first - HOUR else (end + 1 + first) // 2


def move_times(data: bytes, day_begin: int, may_have_title: bool = False) -> bytes:
    """Return a copy of a subtitle file in which all valid times are earlier, by the time of day at
    which the file's day begins. If `may_have_title`, a first subtitle at 00:00:00:00 stays there,
    so it is at the beginning of this day."""
    moved, is_title = bytearray(data), may_have_title
    for at in range(GSI, len(data) - TTI + 1, TTI):
        is_title = is_title and data[at + 5:at + 9] == encode_time_code(0)
        for place in (slice(at + 5, at + 9), slice(at + 9, at + 13)):  # TCI and TCO
            frame = decode_frame(data[place])
            if frame is not None and not is_title:
                moved[place] = encode_time_code((frame - day_begin) % FRAMES_OF_A_DAY)
    first = decode_tcp(data[TCP_PLACE])
    if first is not None:
        code = encode_time_code((first - day_begin) % FRAMES_OF_A_DAY)
        moved[TCP_PLACE] = b"%02d%02d%02d%02d" % tuple(code)
    return bytes(moved)
