"""The checks that a result depends on, and the kinds of what was not checked."""
from __future__ import annotations

import argparse
from typing import Collection, Iterable, NamedTuple


# Kinds for pictures. All except `NO_VIDEO` mean that the programme has video.
NO_VIDEO = "no_video"  # a programme without video, or a file of PES packets
UNREAD = "video_unread"  # no picture of a video PID was compared with the subtitles
HOLE = "video_gap"  # for some time, no picture was compared
JUMP = "video_jump"  # it is unclear whether the pictures drift
IRREGULAR = "video_irregular"  # most decoding times are irregular
STEADY = "video_steady"  # the delay changes steadily
PICTURE_KINDS = (NO_VIDEO, UNREAD, HOLE, JUMP, IRREGULAR, STEADY)
LOSSES = "losses"  # losses that can't be detected
CLOCK = "clock"  # a delay that all subtitles of the pair or of a part share
OPTION = "option"  # the characters of a page that was read, if no national option is certain
CHECK_KINDS = (*PICTURE_KINDS, LOSSES, CLOCK, OPTION)
# Kinds that only JSON results and reports list, since each call has them or asked for them
NO_RECORDING = "no_recording"  # only the subtitle file was judged
NOT_READ = "not_read"  # the recording was not read, since the subtitle file was refused
ROW_0 = "row_0"  # the header line
OUTSIDE = "outside"  # PES packets, subtitles or losses outside of what was judged
REFUSED_SUBTITLES = "refused_subtitles"  # subtitles that are refused in the file
KINDS = (*CHECK_KINDS, NO_RECORDING, NOT_READ, ROW_0, OUTSIDE, REFUSED_SUBTITLES)

DRIFT = "whether the video and the subtitles drift apart"
# The words for each kind in a sentence
PHRASES = {NO_VIDEO: "the pictures, since there is no video", UNREAD: DRIFT,
           **dict.fromkeys((HOLE, JUMP, IRREGULAR, STEADY), f"{DRIFT}, at each place"),
           LOSSES: "losses that leave no trace", CLOCK: "a delay that all subtitles share",
           OPTION: "the national option"}

ALL = "all"  # value of --require: all of `CHECK_KINDS`
PICTURES = "pictures"
# The kinds of the entries about each check, first the kind if nothing is known about the check
CHECKS = {PICTURES: (UNREAD, *PICTURE_KINDS), LOSSES: (LOSSES,), CLOCK: (CLOCK,),
          OPTION: (OPTION,)}
MADE, FAILED, LISTED = "made", "failed", "listed"


class CheckState(NamedTuple):
    """What is known about a check: whether it was made, whether it found a fault, and whether an
    entry says where it was not made."""

    is_made: bool = False
    has_failed: bool = False
    is_listed: bool = False


def decide_check(state: CheckState) -> str:
    """Return `LISTED` if a check was not made everywhere, `FAILED` if it found a fault, otherwise
    `MADE`. A check about which nothing is known was not made."""
    if state.is_listed:
        return LISTED
    if state.has_failed:
        return FAILED
    return MADE if state.is_made else LISTED


def parse_required_kinds(text: str) -> tuple[str, ...]:
    """Parse kinds that are separated by commas, or `all`."""
    words = [word.strip() for word in text.split(",")]
    for word in words:
        if word not in (*CHECK_KINDS, ALL):
            raise argparse.ArgumentTypeError(
                f"{word!r} is not a check: give {ALL} or some of {','.join(CHECK_KINDS)}")
    return tuple(kind for kind in CHECK_KINDS if kind in words or ALL in words)


def find_missing_kinds(required: Iterable[str], unchecked: Collection[str]) -> list[str]:
    """Return the kinds of required checks that were not made, in the order of `CHECK_KINDS`."""
    needed = {*required}
    return [kind for kind in CHECK_KINDS if kind in needed and kind in unchecked]


def describe_kinds(kinds: Collection[str]) -> str:
    """Return a sentence that says what was not checked, or an empty string if there is nothing."""
    phrases = [*dict.fromkeys(PHRASES[kind] for kind in CHECK_KINDS if kind in kinds)]
    return f"Not checked: {'; '.join(phrases)}." if phrases else ""
