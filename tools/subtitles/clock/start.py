"""The clock of a part: given, estimated, or computed from `--start` and the first picture."""
from __future__ import annotations

import collections
from typing import NamedTuple, Sequence

from ..common.command_line import counted, format_pid, escape_hidden, was
from ..common.files import read_first_bytes
from ..common.times import (
    ALL_DAY, EARLY_TICKS, FrameRange, TICKS, compute_frame, compute_midnight, format_frame,
    format_origin, parse_frame, subtract_origin, subtract_pts, wrap_pts)
from ..formats.stl import GSI, TCP_PLACE, decode_tcp
from ..request.request import ORIGIN_CHOICE, Request, Selection, Unclear
from ..stream.packets import Packets, Range
from ..stream.steps import find_unusual_steps
from ..stream.survey import ProgramMap, Survey


RECORDING, GIVEN, START, TCP = "recording", "given", "start", "tcp"
FIRST_PES = "first_pes"  # for tools/read: the first PES packet is at 00:00:00:00
SOURCES = {RECORDING: "estimated", GIVEN: "given", START: "by the first picture",
           TCP: "by the first picture, TCP", FIRST_PES: "from the first PES packet"}
ESTIMATED_NOTE = "no clock was given"
ESTIMATED_LATER_NOTE = "the clock after a break was estimated, so a delay that all subtitles of " \
    "that part share was not checked"


class Clock(NamedTuple):
    """An origin and its source, which is a key of `SOURCES`."""

    origin: int
    source: str
    # Delay of the cues. It is `None` if the clock was estimated from the cues and so includes the
    # delay.
    delay_frames: int | None = None
    evidence: Selection | None = None  # explains an estimated clock
    # Number of frames from the chosen first picture to the other possible first picture
    picture_offset: int = 0
    is_delay_of_all: bool = False  # whether every cue of the file has this delay

    def get_selection(self, part: int | None) -> Selection | None:
        """Return the `Selection` to report for an estimated clock, or `None` for other clocks."""
        evidence = self.evidence or Selection(ORIGIN_CHOICE, str(self.midnight), ESTIMATED_NOTE)
        return evidence._replace(part=part) if self.is_estimated else None

    @property
    def is_estimated(self) -> bool:
        return self.source == RECORDING

    @property
    def midnight(self) -> int:
        """Return the PTS of 00:00:00:00."""
        return compute_midnight(self.origin)

    def words(self) -> str:
        """Return the origin and its source as text."""
        return f"origin {self.midnight}, {SOURCES[self.source]}"

    def question(self) -> str:
        """Return the question whether the time code belongs to the other picture. Return an empty
        string if the delay is not the distance between the two pictures."""
        if not self.picture_offset or self.delay_frames != self.picture_offset:
            return ""
        return "is the time code from the GOP header? That belongs to the first picture in " \
            "display order, even if it can't be decoded" if self.picture_offset < 0 else \
            "is the time code that of the picture with the random_access_indicator? Others are " \
            "shown before it"


class TimedPart(NamedTuple):
    """A part of the subtitle file that is judged with one clock."""

    begin: int  # first TCI of the part
    end: int  # last TCO of the part
    clock: Clock
    packets: Range | None = None  # PES packets of the part, if the PTS of the recording go back
    between: FrameRange = ALL_DAY  # range of frames in which the part's subtitles begin

    @property
    def origin(self) -> int:
        return self.clock.origin


# Names of the supported video formats, by stream_type.
NAMES = {0x01: "MPEG-1", 0x02: "MPEG-2", 0x1B: "H.264", 0x24: "HEVC"}
# Video formats that are not supported.
OTHER_STREAM_TYPES = {0x10: "MPEG-4 part 2", 0x1E: "MPEG-C", 0x1F: "SVC", 0x20: "MVC",
                      0x21: "JPEG 2000", 0x25: "HEVC sub-bitstream", 0x32: "JPEG XS", 0x33: "VVC",
                      0x35: "EVC", 0x42: "AVS", 0xD1: "Dirac", 0xD2: "AVS2", 0xD4: "AVS3",
                      0xEA: "VC-1"}
MAX_PCR_DISTANCE = 25  # maximum number of frames from the last PTS to the end of the last subtitle
MAX_SAMPLES = 1000  # maximum number of Teletext PTS to compare with the first picture
# maximum number of pictures that are sent before a picture shown earlier
MAX_REORDERED_PICTURES = 16
MAX_COMPARED_TICKS = 10 * 90_000  # longest span of pictures to compare, in ticks
CLOSED = "closed"  # `Video.form` of a group whose pictures can all be decoded


class NoFirstPicture(Exception):
    """Raised if the first picture is missing or ambiguous; the message gives the reason."""


class FirstPicture(NamedTuple):
    """The first picture of a recording. Two pictures may be the first: the one with the
    random_access_indicator, and the one with the smallest PTS of the same group of pictures."""

    pid: int  # PID of the video
    kind: int  # stream_type of the video
    pts: int  # PTS of the chosen picture
    skipped: int  # PES packets of video before this picture
    other: int | None = None  # PTS of the other picture, if there are two

    @property
    def picture_offset(self) -> int:
        """Return the number of frames from `pts` to `other`. Return 0 if `other` is `None`."""
        return 0 if self.other is None else round(subtract_pts(self.pts, self.other) / TICKS)

    def line(self) -> str:
        frames = counted(abs(self.picture_offset), "frame")
        more = "" if self.other is None else \
            f"; the picture with the random_access_indicator has PTS {self.other}, {frames} " \
            "later" if self.picture_offset > 0 else \
            f"; earlier pictures of its group, from PTS {self.other} on ({frames}), can't be " \
            "decoded"
        skipped = f"; {counted(self.skipped, 'earlier PES packet')} of video " \
            f"{was(self.skipped)} skipped" if self.skipped else ""
        return (f"the first picture ({NAMES[self.kind]}, {format_pid(self.pid)}) has PTS "
                f"{self.pts}{skipped}{more}")


class StartClock(NamedTuple):
    """The clock that `--start` sets, the report lines about it, and the first picture's frame."""

    clock: Clock
    lines: list[str]
    frame: int


def find_video(survey: Survey, teletext: int) -> tuple[int, int]:
    """Return the video PID that belongs to a Teletext PID, and its stream_type. If a programme's
    PMT moves the video, use the first PMT. Raise `NoFirstPicture` if there is not exactly one video
    PID, or if its format is not supported."""
    programmes, known = survey.find_programmes(teletext), NAMES | OTHER_STREAM_TYPES
    if not programmes:
        raise NoFirstPicture(f"no PMT names {format_pid(teletext)}")
    maps: dict[int, ProgramMap] = {}  # the first PMT of each programme that names a video
    for program_map in programmes:
        known_map = maps.setdefault(program_map.number, program_map)
        if known.keys().isdisjoint(known_map.kinds.values()):
            maps[program_map.number] = program_map
    kinds = {pid: kind for program_map in maps.values() for pid, kind in program_map.kinds.items()}
    stream_texts = ", ".join(f"{format_pid(pid)} {known.get(kind, f'stream_type {kind:02X}')}"
                             for pid, kind in sorted(kinds.items()))
    videos = {pid: kind for pid, kind in kinds.items() if kind in known}
    if len(videos) != 1:
        raise NoFirstPicture(f"the PMT that names {format_pid(teletext)} has "
                             f"{'several video PIDs' if videos else 'no video'}: {stream_texts}")
    pid, kind = videos.popitem()
    if kind not in NAMES:
        raise NoFirstPicture(f"{OTHER_STREAM_TYPES[kind]} video is not supported: {stream_texts}")
    return pid, kind


def find_first_picture(survey: Survey, teletext: int) -> FirstPicture:
    """Return the first picture that can be decoded, from the video that belongs to a Teletext PID.

    It is the picture with the smallest PTS in the first group of pictures. In an open group, it is
    the picture with the random_access_indicator: pictures shown earlier can't be decoded. Raise
    `NoFirstPicture` if the first picture is missing or ambiguous.
    """
    pid, kind = find_video(survey, teletext)
    name, video = f"{NAMES[kind]} of {format_pid(pid)}", survey.videos.get(pid)
    if video is None and not survey.is_complete:
        raise NoFirstPicture(f"no PES packet of {name} had the random_access_indicator so far")
    if video is None:
        raise NoFirstPicture(f"{format_pid(pid)}, which the PMT names as {NAMES[kind]}, has no PES "
                             "packets of video that can be read")
    if not video.pictures:
        raise NoFirstPicture(f"none of {counted(video.skipped, 'PES packet')} of {name} has the "
                             "random_access_indicator")
    if video.scrambled:
        raise NoFirstPicture(f"{name} is scrambled")
    if video.lost:
        raise NoFirstPicture(f"{name} lost {counted(video.lost, 'TS packet')} among its first "
                             "pictures")
    pts = [pts for pts in video.pictures if pts is not None]
    if len(pts) < len(video.pictures):
        raise NoFirstPicture(f"a picture of {name} has no PTS")
    if frames := count_skipped(pts, video.is_cut):
        raise NoFirstPicture(f"the PTS of the first pictures of {name} skip "
                             f"{counted(frames, 'frame')}: a PES packet has several pictures, or "
                             "pictures are missing")
    least = min(pts, key=lambda pts_value: subtract_pts(pts[0], pts_value))
    first, other = (least, pts[0]) if video.form in ("", CLOSED) else (pts[0], least)
    return FirstPicture(pid, kind, first, video.skipped, other if video.form and other != first
                        else None)


def count_skipped(pts: list[int], is_cut: bool) -> int:
    """Count the frames without a picture between the pictures with the given PTS. If the recording
    is cut off, ignore the last pictures: pictures displayed between them may be missing."""
    display_ticks = sorted(subtract_pts(pts[0], item) for item in pts)
    if is_cut or display_ticks[-1] - display_ticks[0] > MAX_COMPARED_TICKS:
        del display_ticks[-MAX_REORDERED_PICTURES:]
    steps = [second - first for first, second in zip(display_ticks, display_ticks[1:])]
    return sum(round(step / TICKS) - 1 for step in steps if step > TICKS + EARLY_TICKS)


def has_first_picture(survey: Survey, teletext: int) -> bool:
    """Return whether `--start` can set the clock of a Teletext PID."""
    try:
        find_first_picture(survey, teletext)
    except NoFirstPicture:
        return False
    return True


def advise_on_clock(has_picture: bool) -> str:
    """Return advice on the options that set the clock of a recording."""
    return "add --origin PTS, --start tcp, or --start TIME (the time code of the recording's " \
        "first picture on the subtitle file's clock)" if has_picture else \
        "add --origin PTS (the PTS of the subtitle file's 00:00:00:00)"


def find_frame_offset(packets: Packets, pts: int, within: int) -> int:
    """Return the most common distance in ticks (0 to 3599) from the start of a frame to the PTS of
    Teletext. A frame starts at the PTS `pts` of a picture. If `within` is not 0, prefer distances
    near a whole frame: Teletext may have a PTS for each of the two fields of a frame."""
    ticks: collections.Counter[int] = collections.Counter()
    for _, (sent, _) in zip(range(MAX_SAMPLES), ((sent, 0) for sent in packets.pts())):
        ticks[subtract_origin(pts, sent) % TICKS] += 1
    known = [rest for rest, _ in ticks.most_common()]
    near_rests = [rest for rest in known if rest <= EARLY_TICKS or rest >= TICKS - EARLY_TICKS]
    return (near_rests if within and near_rests else known)[0]


def read_start_frame(request: Request) -> int:
    """Return the frame of the first picture: the value of --start, or the TCP of the GSI block."""
    if request.start != TCP:
        frame = parse_frame(request.start or "")
        assert frame is not None  # the command line was checked
        return frame
    code = read_first_bytes(request.stl_path, GSI)[TCP_PLACE]
    first = decode_tcp(code)
    if first is None:
        raise Unclear(f"the TCP in the GSI block of {request.stl} is not a time: "
                      f"{escape_hidden(code.decode('latin-1'))!r}")
    return first


def compute_start_clock(request: Request, survey: Survey, packets: Packets) -> StartClock:
    """Return the clock that `--start` sets, moved to the nearest PTS of Teletext."""
    first, frame = find_first_picture(survey, packets.pid), read_start_frame(request)
    refuse_early_jump(survey, packets.pid, first)
    after = find_frame_offset(packets, first.pts, request.within)
    if after * 2 == TICKS:
        raise Unclear(f"{first.line()}. The Teletext PTS are half a frame later, so it is "
                      "not clear to which frame they belong")
    ticks = after if after * 2 < TICKS else after - TICKS
    shifted_pts = wrap_pts(first.pts - TICKS * frame + ticks)
    source = TCP if request.start == TCP else START
    name = "the TCP" if source == TCP else "--start"
    relation = "which agrees with the Teletext PTS" if not ticks else \
        f"shifted {'forward' if ticks > 0 else 'back'} by {counted(abs(ticks), 'tick')} to " \
        "agree with the Teletext PTS"
    return StartClock(Clock(shifted_pts, source, picture_offset=first.picture_offset),
                      [first.line(),
                       f"by {name}, the time of this picture is {format_frame(frame)}, so the "
                       f"clock is {format_origin(shifted_pts)}, {relation}"], frame)


def refuse_early_jump(survey: Survey, teletext: int, first: FirstPicture) -> None:
    """Raise `NoFirstPicture` if the decoding times jump between the first picture and the first
    Teletext PES packet that can be compared with a picture. Then it is unknown on which side of the
    jump the Teletext PTS belong to the pictures."""
    leads = survey.leads.get((teletext, first.pid), [])
    unusual = find_unusual_steps(survey.steps.get(first.pid, []), leads[-1].number) if leads else []
    if any(step.is_sure and first.skipped + 1 < step.number <= leads[0].number
           for step in unusual):
        raise NoFirstPicture(f"the decoding times of {format_pid(first.pid)} jump before the first "
                             f"PES packet of {format_pid(teletext)}")


def refuse_outside_recording(request: Request, start_clock: StartClock, begin: int, end: int,
                             last: int | None) -> None:
    """Raise `Unclear` if the subtitles from frame `begin` to `end` lie outside the recording,
    assuming that it begins at the TCP and ends at the PTS `last`."""
    if begin < start_clock.frame:
        raise Unclear(f"the first subtitle of {request.stl} begins at {format_frame(begin)}, "
                      f"before its TCP {format_frame(start_clock.frame)}, at which the recording "
                      "would begin")
    last_frame = None if last is None else compute_frame(last, start_clock.clock.origin)
    if last_frame is not None and end > last_frame + MAX_PCR_DISTANCE:
        raise Unclear(f"the last subtitle of {request.stl} ends at {format_frame(end)}, but by the "
                      f"TCP the recording ends at {format_frame(last_frame)}")


MILLISECOND = 90  # ticks in a millisecond
MAX_PTS = 100_000  # maximum number of PTS to compare


def find_largest_offset(several: Sequence[int], origin: int) -> int:
    """Return the largest distance in ticks from a PTS to the start of the nearest frame."""
    remainders = (subtract_origin(origin, pts) % TICKS for pts in several[:MAX_PTS])
    return max((min(rest, TICKS - rest) for rest in remainders), default=0)


def describe_largest_offset(most: int) -> str:
    """Return a text with the largest distance between a PTS and its frame, or "" if it is 0."""
    return f"PTS differ from the times of their frames by up to {counted(most, 'tick')} " \
        f"({most / MILLISECOND:.2f} ms)" if most else ""
