"""Write subtitle files and transmissions of complete programmes."""
from __future__ import annotations

import time
from typing import Callable, Sequence

from developing.pes import encode_pts
from developing.stl import make_box_line, make_gsi_block, make_subtitle_blocks
from subtitles.common.times import CLOCK, FRAMES_A_SECOND, TICKS
from .bench import Case, SECONDS
from .transmissions import packets

SECOND = TICKS * FRAMES_A_SECOND
BEGIN = CLOCK - 30 * SECOND  # first PTS of a feed, 30 seconds before the PTS wrap
LASTS = 12  # duration of a programme with four subtitles, in seconds
SHOWN, EACH = 50, 75  # duration of a subtitle, and interval between TCIs, in frames


def make_subtitles(case: Case, name: str, first: int, texts: Sequence[str]) -> str:
    """Write a subtitle file with one subtitle for each text; `first` is the first TCI in frames."""
    blocks = [make_subtitle_blocks(number, first + EACH * number, first + EACH * number + SHOWN, 20,
                                   2, make_box_line(text.encode()))
              for number, text in enumerate(texts)]
    return case.write(f"{name}.stl", make_gsi_block(name.encode(), len(texts), len(texts), first)
                      + b"".join(blocks))


def make_programme(case: Case, name: str, first: int, words: str, pts: int) -> bytes:
    """Write a subtitle file, and return its transmission; `pts` is the PTS of its first TCI."""
    stl = make_subtitles(case, name, first, words.split())
    origin = (pts - TICKS * first) % CLOCK
    case.schedule(stl, f"{name}.pes", "--origin", str(origin), "--every", "25")
    return case.read(f"{name}.pes")


def repeat_last_page(data: bytes, pts: int, count: int, step: int = SECOND) -> bytes:
    last = packets(data)[-1]
    return b"".join(last[:9] + encode_pts((pts + step * at) % CLOCK) + last[14:]
                    for at in range(count))


def wait_until(condition: Callable[[], object]) -> bool:
    end = time.monotonic() + SECONDS
    while not condition() and time.monotonic() < end:
        time.sleep(0.02)
    return bool(condition())
