"""Parse the PAT and PMTs (ISO/IEC 13818-1, 2.4.4), and Teletext descriptors (EN 300 468)."""
from __future__ import annotations

from functools import lru_cache
from typing import Iterator, NamedTuple

from developing.multiplex import compute_crc
from subtitles.formats.teletext import page_name
from .packets import Packet

PAT, PMT = 0, 2  # table_id
CURRENT = 1  # current_next_indicator
TELETEXT_TAGS = 0x56, 0x46  # tags of Teletext descriptors
cached_crc = lru_cache(256)(compute_crc)


class Stream(NamedTuple):
    """An elementary stream in a PMT, with its announced pages, formatted for output."""

    pid: int
    kind: int
    announced: list[str]


class Programme(NamedTuple):
    number: int
    clock: int
    streams: list[Stream]


class Sections:
    """Reassembles the sections in the TS packets of a PID."""

    def __init__(self) -> None:
        self.part: bytes | None = None  # the incomplete section

    def take(self, packet: Packet) -> Iterator[bytes]:
        """Yield the sections that end in a TS packet."""
        if packet.is_wrong or not packet.has_payload:
            return
        payload = packet.payload
        if packet.begins:
            pointer = payload[0]
            if self.part is not None:
                self.part += payload[1:1 + pointer]
                yield from self.ended()
            self.part, payload = b"", payload[1 + pointer:]
        if self.part is not None:
            self.part += payload
            yield from self.ended()

    def ended(self) -> Iterator[bytes]:
        while self.part:
            if self.part[0] == 0xFF:
                self.part = None
                return
            length = 3 + (int.from_bytes(self.part[1:3], "big") & 0xFFF)
            if len(self.part) < 3 or len(self.part) < length:
                return
            section, self.part = self.part[:length], self.part[length:]
            if length >= 12 and section[5] & CURRENT and cached_crc(section) == 0:
                yield section


def list_section_pids(section: bytes) -> Iterator[int]:
    """Yield the PMT PIDs in a section of the PAT."""
    body = section[8:-4]
    for at in range(0, len(body) - 3, 4):
        if body[at:at + 2] != b"\0\0":
            yield int.from_bytes(body[at + 2:at + 4], "big") & 0x1FFF


def list_announced_pages(descriptors: bytes) -> Iterator[str]:
    """Yield the pages announced in the descriptors of a stream, formatted for output."""
    at = 0
    while at + 2 <= len(descriptors):
        tag, length = descriptors[at:at + 2]
        body = descriptors[at + 2:at + 2 + length]
        if tag in TELETEXT_TAGS:
            for place in range(0, len(body) - 4, 5):
                language, kind, page = body[place:place + 3], body[place + 3], body[place + 4]
                yield f"{page_name(kind & 7, page)} {language.hex()} {kind >> 3}"
        at += 2 + length


def read_programme(section: bytes) -> Programme | None:
    """Return the programme in a section of a PMT, or `None` if the section is too short."""
    body = section[8:-4]
    if len(body) < 4:
        return None
    number, clock = (int.from_bytes(part, "big") for part in (section[3:5], body[0:2]))
    at = 4 + (int.from_bytes(body[2:4], "big") & 0xFFF)
    streams = []
    while at + 5 <= len(body):
        kind, pid = body[at], int.from_bytes(body[at + 1:at + 3], "big") & 0x1FFF
        end = at + 5 + (int.from_bytes(body[at + 3:at + 5], "big") & 0xFFF)
        streams.append(Stream(pid, kind, list(list_announced_pages(body[at + 5:end]))))
        at = end
    return Programme(number, clock & 0x1FFF, streams)
