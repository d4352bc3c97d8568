"""Make transport streams with video and Teletext for tests."""
from __future__ import annotations

from typing import Callable, Iterable, Iterator, Mapping, NamedTuple, Sequence

from developing.multiplex import (
    ADAPTATION_ALONE, PACKET, PAYLOAD, PAYLOAD_START, make_packet_header, make_section)
from developing.pes import encode_pts, decode_pts
from subtitles.common.times import CLOCK, TICKS, subtract_pts, wrap_pts
from subtitles.stream.gaps import SECOND
from .transmissions import packets

RANDOM_ACCESS = 0x40
PMT_PID, VIDEO_PID, AUDIO_PID, TELETEXT_PID = 0x100, 0x200, 0x201, 0x101
MPEG_2, H_264, HEVC, PRIVATE = 0x02, 0x1B, 0x24, 0x06
AUDIO = 0x03  # for streams whose other PIDs have no pictures
SLICES = b"\0\0\1\1" + b"slice data " * 9  # slices of an MPEG-2 picture
PTS_AHEAD = 18_000  # difference between PTS and PCR in ticks


def make_mpeg_2_picture() -> bytes:
    """Return an MPEG-2 frame picture."""
    extension = bytes([0x80, 0, 3, 0, 0])
    return b"\0\0\1\0\0\0\0\0" + b"\0\0\1\xb5" + extension + SLICES


CLOSED_GROUP = b"\0\0\1\xb8\0\x08\0\x40"  # an MPEG-2 GOP header with closed_gop


def make_h_264_picture() -> bytes:
    """Return an H.264 frame, with a sequence parameter set that allows fields."""
    # Baseline profile, level 3, seq_parameter_set_id 0, frame_num with 4 bits, pic_order_cnt_type
    # 2, one reference frame, width and height of 16 macroblocks, frame_mbs_only_flag 0.
    sequence = convert_bits("01000010 00000000 00011110 1 1 011 010 0 00001111 00001111 0 1 0 0 1")
    # first_mb_in_slice 0, slice_type 2, pic_parameter_set_id 0, frame_num 0, field_pic_flag
    return (b"\0\0\0\1\x09\xf0" + b"\0\0\0\1\x67" + sequence + b"\0\0\1\x65"
            + convert_bits("1 011 1 0000 0 1") + b"\x55" * 40)


def convert_bits(text: str) -> bytes:
    digits = text.replace(" ", "")
    digits += "0" * (-len(digits) % 8)
    return bytes(int(digits[at:at + 8], 2) for at in range(0, len(digits), 8))


def make_hevc_picture() -> bytes:
    return b"\0\0\0\1\x46\x01\x50" + b"\0\0\1\x26\x01\xaf" + b"\x55" * 40 \
        + b"\0\0\1\x26\x01\x2f" + b"\x55" * 40


def make_video_packet(pts: int | None, data: bytes) -> bytes:
    """Return a video PES packet with PES_packet_length 0."""
    if pts is None:
        return b"\0\0\1\xe0\0\0\x80\0\0" + data
    return b"\0\0\1\xe0\0\0\x80\x80\x05" + encode_pts(pts % CLOCK) + data


Component = tuple[int, int, bytes]  # a PID, its stream_type and its descriptors


def make_program_association(pmt_pids: Iterable[tuple[int, int]]) -> bytes:
    """Return a PAT section from pairs of a programme number and a PMT PID."""
    return make_section(0, 1, b"".join(number.to_bytes(2, "big") + (0xE000 | pid).to_bytes(2, "big")
                                       for number, pid in pmt_pids))


def program_map(number: int, components: Iterable[Component], pcr_pid: int) -> bytes:
    return make_section(2, number, (0xE000 | pcr_pid).to_bytes(2, "big") + b"\xf0\0" + b"".join(
        bytes([kind]) + (0xE000 | pid).to_bytes(2, "big")
        + (0xF000 | len(more)).to_bytes(2, "big") + more for pid, kind, more in components))


class StreamMaker:
    """A builder for the TS packets of a transport stream with one programme."""

    def __init__(self, components: list[Component]) -> None:
        self.packets: list[bytes] = []
        self.counters: dict[int, int] = {}
        self.pcr_pid = VIDEO_PID
        self.tables: Sequence[tuple[int, bytes]] = [
            (0, make_program_association([(1, PMT_PID)])),
            (PMT_PID, program_map(1, components, VIDEO_PID))]

    @property
    def data(self) -> bytes:
        return b"".join(self.packets)

    def taken(self) -> list[bytes]:
        """Return the packets made since the last call, and forget them."""
        result, self.packets = self.packets, []
        return result

    def list_taken_packets(self, pid: int) -> list[Packet]:
        return [Packet(pid, item) for item in self.taken()]

    def put_tables(self) -> None:
        for pid, data in self.tables:
            self.put_packet(pid, PAYLOAD_START, data.ljust(PACKET - 4, b"\xff"))

    def put_packet(self, pid: int, begins: int, payload: bytes, field: bytes = b"") -> None:
        """Add a TS packet with this payload, filled with stuffing bytes."""
        room = PACKET - 4
        control = PAYLOAD if payload else 0
        if field or len(payload) < room:
            control |= 0x20
            length = room - 1 - len(payload)
            field = bytes([length]) + (field or (b"\0" if length else b"")).ljust(length, b"\xff")
        counter = self.counters.get(pid, 15 if payload else 0)
        counter = counter + 1 & 15 if payload else counter
        self.counters[pid] = counter
        result = make_packet_header(pid, begins, control | counter) + field + payload
        assert len(result) == PACKET
        self.packets.append(result)

    def put(self, pid: int, data: bytes, is_access: bool = False) -> None:
        first = 160 if is_access else PACKET - 4
        self.put_packet(pid, PAYLOAD_START, data[:first], bytes([RANDOM_ACCESS] * is_access))
        for at in range(first, len(data), PACKET - 4):
            self.put_packet(pid, 0, data[at:at + PACKET - 4])

    def put_pcr(self, pcr: int) -> None:
        field = b"\x10" + ((pcr % CLOCK) << 15 | 0x3F << 9).to_bytes(6, "big")
        self.put_packet(self.pcr_pid, 0, b"", field)


def make_teletext_descriptor(language: bytes = b"eng", kind: int = 2, page: int = 0x88) -> bytes:
    return b"\x56\x05" + language + bytes([kind << 3, page])


def make_components(kind: int = MPEG_2, descriptor: bytes = make_teletext_descriptor(),
                    pid: int = TELETEXT_PID) -> list[Component]:
    return [(VIDEO_PID, kind, b""), (pid, PRIVATE, descriptor)]


def add_pictures(pes: bytes, first: int, kind: int = MPEG_2, picture: bytes = b"",
                 leading: int = 2) -> StreamMaker:
    """Make a stream whose first random access picture in display order has the PTS `first`. Three
    pictures precede it. `leading` pictures follow it but are displayed before it. The group is
    closed, except with H.264."""
    maker = StreamMaker(make_components(kind))
    result = picture or {MPEG_2: make_mpeg_2_picture(), H_264: make_h_264_picture(),
                         HEVC: make_hevc_picture()}[kind]
    maker.put_tables()
    for number in range(3):
        maker.put(VIDEO_PID, make_video_packet(first + TICKS * (number - 3), result))
    group_begin = CLOSED_GROUP if kind == MPEG_2 else b""
    for number in range(2):
        group = first + TICKS * (leading + 12) * number
        maker.put(VIDEO_PID, make_video_packet(group + TICKS * leading, group_begin + result), True)
        for place in (*range(leading), *range(leading + 1, leading + 12)):
            maker.put(VIDEO_PID, make_video_packet(group + TICKS * place, result))
    for packet in packets(pes):
        maker.put_pcr(decode_pts(packet) - PTS_AHEAD)
        maker.put(TELETEXT_PID, packet)
    return maker


class Programme(NamedTuple):
    """A programme with one picture per frame. `pes` contains the PES packets of each Teletext PID.
    The PID `video` carries pictures from the PTS `first` on, and PCRs. The pictures of the frames 0
    and 12 have a random_access_indicator. `later` contains frames, each with the ticks by which
    pictures from this frame on are delayed, and the PCR too if `is_pcr_late`."""

    pes: Mapping[int, Sequence[bytes]]
    first: int
    video: int = VIDEO_PID
    later: Sequence[tuple[int, int]] = ()
    is_pcr_late: bool = False


def multiplex_programmes(programmes: Sequence[Programme], frames: int) -> StreamMaker:
    """Make a transport stream with several programmes. Each frame has a PCR, a picture, and the PES
    packets whose PTS is not later than the frame."""
    maker, waiting = StreamMaker([]), [{pid: [*pes] for pid, pes in item.pes.items()}
                                       for item in programmes]
    pmt_pids = range(PMT_PID, PMT_PID - len(programmes), -1)
    maker.tables = [(0, make_program_association(enumerate(pmt_pids, 1))), *(
        (pid, program_map(number, [(item.video, MPEG_2, b""), *(
            (own, PRIVATE, make_teletext_descriptor()) for own in item.pes)], item.video))
        for number, (pid, item) in enumerate(zip(pmt_pids, programmes), 1))]
    maker.put_tables()
    for frame in range(frames):
        for item, rest in zip(programmes, waiting):
            now = item.first + TICKS * frame
            later = sum(by for begin, by in item.later if begin <= frame)
            maker.pcr_pid = item.video
            maker.put_pcr(now - PTS_AHEAD + later * item.is_pcr_late)
            maker.put(item.video, make_video_packet(now + later, make_mpeg_2_picture()),
                      frame in (0, 12))
            for pid, pes in rest.items():
                while pes and subtract_pts(decode_pts(pes[0]), wrap_pts(now)) >= 0:
                    maker.put(pid, pes.pop(0))
    return maker


def multiplex_frames(pes: list[bytes], begin: int, count: int, rounds: int) -> Iterator[bytes]:
    """Yield the frames of a transport stream. Each frame has a PCR, PES packets, and 16 * `rounds`
    video packets."""
    maker = StreamMaker(make_components(AUDIO))
    video, at = b"".join(item.data for item in FILLER_PACKETS[VIDEO_PID]) * rounds, 0
    for frame in range(count):
        now = begin + TICKS * frame
        if frame % 12 == 0:
            maker.put_tables()
        maker.put_pcr(now - PTS_AHEAD)
        while at < len(pes) and subtract_pts(decode_pts(pes[at]), wrap_pts(now)) >= 0:
            maker.put(TELETEXT_PID, pes[at])
            at += 1
        yield b"".join([*maker.taken(), video])


def change_packet_size(data: bytes, size: int) -> bytes:
    """Extend each TS packet of 188 bytes to 192 or 204 bytes."""
    before, behind = (b"time", b"") if size == 192 else (b"", b"\xa5" * (size - PACKET))
    return b"".join(before + data[at:at + PACKET] + behind
                    for at in range(0, len(data), PACKET))


class Packet(NamedTuple):
    """A TS packet with its PID."""

    pid: int
    data: bytes


def filler(pid: int, counters: dict[int, int]) -> Packet:
    counter = counters[pid] = counters.get(pid, 15) + 1 & 15
    return FILLER_PACKETS[pid][counter]


FILLER_PACKETS = {pid: [Packet(pid, make_packet_header(pid, 0, PAYLOAD | counter)
                               + b"\x55" * (PACKET - 4))
                        for counter in range(16)] for pid in (VIDEO_PID, AUDIO_PID)}


class Shape(NamedTuple):
    """The parameters of a transport stream. The stream has `rate` TS packets per second. `jump`
    contains the frame and the ticks of a clock jump."""

    rate: int = 1000
    jump: tuple[int, int] = (0, 0)


def make_multiplex(pes: list[bytes], shape: Shape) -> list[Packet]:
    """Make a transport stream with PES packets of Teletext, video with PCRs, and audio."""
    maker = StreamMaker(make_components(AUDIO))
    maker.put_tables()
    result = maker.list_taken_packets(0)
    begin, end = (decode_pts(pes[at]) for at in (0, -1))
    frames, due, waiting = (end - begin) // TICKS + 30, begin - SECOND, list(pes)
    for number in range(frames * shape.rate // 25):
        now = begin - SECOND + number * SECOND // shape.rate
        frame = (now - begin) // TICKS
        later = shape.jump[1] if shape.jump[1] and frame >= shape.jump[0] else 0
        if now >= due:
            due += TICKS
            maker.put_pcr(now - PTS_AHEAD + later)
            result += maker.list_taken_packets(VIDEO_PID)
        if waiting and decode_pts(waiting[0]) <= now:
            maker.put(TELETEXT_PID, waiting.pop(0))
            result += maker.list_taken_packets(TELETEXT_PID)
        result.append(filler(AUDIO_PID if number % 9 == 0 else VIDEO_PID, maker.counters))
    return result


def join_packets(result: Iterable[Packet]) -> bytes:
    return b"".join(item.data for item in result)


def find_teletext_places(result: Sequence[Packet], pts: int) -> list[int]:
    """Return the indexes of Teletext packets, beginning with the PES packet that has this PTS."""
    begin = encode_pts(pts)
    first = next(at for at, item in enumerate(result)
                 if item.pid == TELETEXT_PID and begin in item.data[4:40])
    return [at for at in range(first, len(result)) if result[at].pid == TELETEXT_PID]


# A TS packet of Teletext without payload that has a discontinuity_indicator
DISCONTINUITY = make_packet_header(TELETEXT_PID, 0, ADAPTATION_ALONE) + bytes(
    [PACKET - 5, 0x80]).ljust(PACKET - 4, b"\xff")


def remove_packets_at(result: Sequence[Packet], pts: int, count: int, is_announced: bool = False
                      ) -> list[Packet]:
    """Delete `count` Teletext packets, beginning with the PES packet that has this PTS. If the loss
    is announced, insert a packet with a discontinuity_indicator."""
    missing = find_teletext_places(result, pts)[:count]
    announcement = Packet(TELETEXT_PID, DISCONTINUITY)
    return [announcement if at in missing else item for at, item in enumerate(result)
            if at not in missing or is_announced and at == missing[-1]]


def delete_between(result: list[Packet], first: int, count: int) -> list[Packet]:
    """Delete all packets from Teletext packet `first` until Teletext packet `first + count`."""
    own = [at for at, item in enumerate(result) if item.pid == TELETEXT_PID]
    return result[:own[first]] + result[own[first + count]:]


OLD, NEW = TELETEXT_PID, 0x111
# A function that takes the index of a PES packet. It returns the PES packets to send instead, each
# with its PID.
CarriedPackets = Callable[[int], Sequence[tuple[int, bytes]]]


def make_planned_stream(pes: Sequence[bytes], plan: Sequence[tuple[int, int]],
                        carried: CarriedPackets | None = None,
            descriptor: bytes = make_teletext_descriptor(), ahead: int | None = PTS_AHEAD) -> bytes:
    """Return a transport stream whose Teletext moves to other PIDs. `plan` contains indexes of PES
    packets, each with the PID that the PMT names from this packet on. `carried` may put PES packets
    on other PIDs. PCRs precede PES packets by `ahead` ticks."""
    maker, pid, named_pids = StreamMaker([]), 0, dict(plan)
    for number, item in enumerate(pes):
        if number in named_pids:
            pid = named_pids[number]
            maker.tables = StreamMaker(make_components(AUDIO, descriptor, pid)).tables
            maker.put_tables()
        if ahead is not None:
            maker.put_pcr(decode_pts(item) - ahead)
        for each, data in carried(number) if carried else [(pid, item)]:
            maker.put(each, data)
    return maker.data


def make_stream_with_video(pes: bytes, descriptor: bytes = make_teletext_descriptor(),
                           ahead: int = PTS_AHEAD) -> bytes:
    return make_planned_stream(packets(pes), [(0, TELETEXT_PID)], None, descriptor, ahead)


def make_stream_of_pids(*of_pids: tuple[int, bytes]) -> bytes:
    maker = StreamMaker([(VIDEO_PID, AUDIO, b""), *(
        (pid, PRIVATE, make_teletext_descriptor()) for pid, _ in of_pids)])
    maker.put_tables()
    waiting = sorted((decode_pts(item), pid, item)
                     for pid, data in of_pids for item in packets(data))
    for now in range(waiting[0][0], waiting[-1][0] + TICKS, TICKS):
        maker.put_pcr(now - PTS_AHEAD)
        while waiting and waiting[0][0] <= now:
            _, pid, item = waiting.pop(0)
            maker.put(pid, item)
    return maker.data
