"""Write blocks of subtitle files (EBU Tech 3264), and lines of text with box codes."""
from __future__ import annotations

from subtitles.formats.stl_writer import (
    encode_time_code, make_gsi_block, make_subtitle_blocks, make_tti_block)

__all__ = ["DOUBLE_HEIGHT", "END_BOX", "START_BOX", "encode_time_code", "make_box_line",
           "make_gsi_block", "make_subtitle_blocks", "make_tti_block"]

DOUBLE_HEIGHT, START_BOX, END_BOX = b"\x0d", b"\x0b", b"\x0a"


def make_box_line(text: bytes, colour: bytes = b"") -> bytes:
    """Return a double-height line with the doubled box codes that most files use."""
    return DOUBLE_HEIGHT + colour + START_BOX * 2 + text + END_BOX * 2
