"""Test delays, breaks and repeated programmes, and the clock derived from the first picture."""
from __future__ import annotations

import itertools
import re
import shutil
import subprocess

from developing.stl import make_box_line
from subtitles.common.times import CLOCK, TICKS, format_frame
from subtitles.formats.stl import TCP_PLACE
from .bench import Case, get_example_path, read_example_file
from .judged import JudgedPair, ProgrammeCase, judge_files
from .streams import H_264, HEVC, MPEG_2, add_pictures
from .transmissions import (
    CLOSING, HEADER, join_pes_packets, make_delay, make_numbered_row, make_two_parts, packets,
    replace_pts, schedule_pages, write_pipe, write_programme)
from .test_cli_pairs import TS, qc, split_output_lines

# First TCI, interval between TCIs, and subtitle duration, in frames.
FIRST_TCI, DISTANCE, DURATION = 900_000, 125, 60
WORDS = ["--every", "25", "--no-complete"]
STORY, BEGIN = get_example_path("story.stl"), 1_822_500  # first TCI: 20:15:00:00
START_OFFSET = 25  # frames between the start of a recording and the first TCI
FIRST_PTS, START_TIME = (BEGIN - START_OFFSET) * TICKS, format_frame(BEGIN - START_OFFSET)


class Delays(ProgrammeCase):
    """A programme of 20 subtitles with a pause after each. The PTS of frame 0 is 0."""

    cues = [(FIRST_TCI + DISTANCE * at, FIRST_TCI + DISTANCE * at + DURATION) for at in range(20)]
    qc_args = WORDS

    def test_does_not_report_a_delay_if_all_received_cues_agree(self) -> None:
        pes = packets(self.read(self.schedule(STORY, "all.pes", "--every", "25")))
        cut = self.write("cut.pes", b"".join(pes[7:11]))
        judged = judge_files(self, STORY, cut, "--origin", "0")
        self.must("clock", "clock: the subtitles match --origin 0" in judged.printed,
                  judged.printed)
        self.check("lines about a delay", [
            line for line in judged.printed if "late" in line
            and not line.startswith("refused 74 Late")], [])
        self.must("delay", judged.result["parts"][0]["clock"]["delay_frames"] in (0, None))

    def test_says_that_all_subtitles_are_late_unless_a_text_is_wrong(self) -> None:
        late, (begin, end) = make_delay(3)(self.sent), self.cues[2]
        wrong = [(pts, [HEADER, make_numbered_row(22, b"Other"), CLOSING]
                  if begin <= pts // TICKS - 3 < end else some) for pts, some in late]
        for sent, sentence in ((late, "Refused: all 20 subtitles appeared 3 frames late."), (
                wrong, "Refused: subtitle 3 at 10:00:10:00 has the wrong text: expected")):
            result = self.judge(sent, "--origin", "0").result
            self.must(sentence, result["sentence"].startswith(sentence), result["sentence"])

    def test_judges_both_sides_of_a_short_break_by_two_calls(self) -> None:
        middle = format_frame(self.cues[10][0])
        for length in (124, 25):  # in frames; a break of 125 frames would begin a part
            sent = make_delay(length, self.cues[10][0] * TICKS)(self.sent)
            for words in (["--to", middle], ["--from", middle], ["--to", middle, "--origin", "0"]):
                judged = self.judge(sent, *words)
                self.check(f"{length} {words}",
                           (judged.timed_verdict, judged.verdict.subtitle_count),
                           ("accepted", 10))
            late = make_delay(1, self.cues[15][0] * TICKS)(sent)  # a frame from subtitle 16 on
            self.check(f"{length}: a delay after the break", [
                self.judge(late, option, middle).timed_verdict for option in ("--to", "--from")],
                ["accepted", "refused"])

    def test_judges_adjoining_parts(self) -> None:
        # Subtitle 10 lasts until subtitle 11 begins, and there the PTS go on from another origin.
        times = [*self.cues[:9], (self.cues[9][0], self.cues[10][0]), *self.cues[10:]]
        stl = write_programme(self, times)
        for origins in ((0, 4500 * TICKS), (3_000_000_000, 77_000)):
            sent = [(pts + origin, some) for half, number, origin in zip(
                (times[:10], times[10:]), (1, 11), origins) for pts, some in schedule_pages(
                    self, write_programme(self, half, first=number, name="sent.stl"))]
            path = self.write("one.pes", join_pes_packets(sent))
            for source in ("recording", "given"):
                options = ["--origin", f"{origins[0]}"] * (source == "given")
                judged = judge_files(self, stl, path, *WORDS, "--breaks", "1", *options)
                self.check(f"{origins} {source}", judged.parts("from", "to", "origin", "verdict"), [
                    (format_frame(half[0][0]), format_frame(half[-1][1]), origin, "accepted")
                    for half, origin in zip((times[:10], times[10:]), origins)])
                self.check(f"{origins} {source}: sources of the clocks", [
                    clock["source"] for clock, in judged.parts("clock")], [source, "recording"])
            judged = judge_files(self, stl, path, *WORDS)
            self.check(f"{origins}: without --breaks", judged.timed_verdict, "refused")
            self.check(f"{origins}: says that the PTS go back",
                       "where the PTS go back" in judged.stderr[0], origins[1] < origins[0])


class FirstPictures(Case):
    """A recording that begins 25 frames before the first TCI. The PTS of frame 0 is 0."""

    def judge(self, data: bytes, *args: str, stl: str = STORY) -> JudgedPair:
        return judge_files(self, stl, self.write("one.ts", data), *args)

    def test_uses_the_clock_of_the_first_picture(self) -> None:
        # The second shift makes the PTS wrap 40 frames before the first TCI.
        for kind, shift in itertools.product((MPEG_2, H_264, HEVC),
                                             (0, CLOCK - (BEGIN - 40) * TICKS)):
            pes = replace_pts(read_example_file("story.pes"), lambda _, pts: pts + shift)
            first = (FIRST_PTS + shift) % CLOCK
            data = add_pictures(pes, first, kind, leading=0 if kind == H_264 else 2).data
            judged = self.judge(data, "--start", START_TIME)
            self.check(f"{kind} {shift}", judged.timed_verdict, "accepted")
            self.must(f"{kind} {shift}: line", any(
                line.startswith("the first picture (") and f"has PTS {first}; 3 earlier PES "
                "packets of video were skipped" in line for line in judged.printed), judged.printed)
            judged = self.judge(data, "--start", format_frame(BEGIN - START_OFFSET - 2))
            self.check(f"{kind} {shift}, --start is 2 frames early",
                       (judged.timed_verdict, judged.result["parts"][0]["clock"]), (
                           "refused", {"origin": (shift + 2 * TICKS) % CLOCK, "source": "start",
                                       "delay_frames": -2}))

    def test_reports_a_start_that_is_off_by_hours(self) -> None:
        data = add_pictures(read_example_file("story.pes"), FIRST_PTS).data
        ends = f"the beginning of the recording by its subtitles, {START_TIME}. TIME is on the " \
            "subtitle file's own clock, not the time of day"
        for options, line in (
                (("--start", "10:00:00:00"), "--start 10:00:00:00 is 10 h 14 min 59 s earlier than "
                 f"{ends}"),
                (("--start", "00:00:00:01"), "--start 00:00:00:01 is 20 h 14 min 58 s 24 frames "
                 f"earlier than {ends}"),
                (("--start", "23:00:00:00"), "--start 23:00:00:00 is 2 h 45 min 1 s later than "
                 f"{ends}"),
                (("--origin", f"{90_000 * 3600}"), "with --origin 324000000, all subtitles would "
                 "be 1 h early, so the recording contains no subtitle at its expected time")):
            judged = self.judge(data, *options)
            self.check(f"{options}", (judged.timed_verdict, judged.stderr), ("not judged", [line]))

    def test_uses_the_first_picture_of_a_pipe(self) -> None:
        data = add_pictures(read_example_file("story.pes"), FIRST_PTS).data
        judged = judge_files(self, STORY, write_pipe(self, data), "--start", START_TIME)
        self.check("verdict", judged.timed_verdict, "accepted")

    def test_only_the_first_part_uses_the_clock_of_the_first_picture(self) -> None:
        stl, pes = make_two_parts(self)
        start = FIRST_TCI - START_OFFSET
        judged = self.judge(add_pictures(pes, 1000 + start * TICKS).data, "--start",
                            format_frame(start), "--breaks", "1", stl=stl)
        self.check("verdict", judged.timed_verdict, "accepted")
        self.check("clocks", [(clock["source"], clock["origin"])
                              for clock, in judged.parts("clock")],
                   [("start", 1000), ("recording", 1000 + 4500 * TICKS)])

    def test_reads_the_tcp_of_the_gsi_block(self) -> None:
        data = add_pictures(read_example_file("story.pes"), FIRST_PTS).data
        stl = bytearray(read_example_file("story.stl"))
        # The TCP, and part of the reason why the pair is not judged, if it is not accepted
        for tcp, reason in (
                (START_TIME.replace(":", ""), ""),
                ("20150100", "begins at 20:15:00:00, before its TCP 20:15:01:00"),
                ("20000000", "ends at 20:15:09:00, but by the TCP the recording ends at"),
                *((tcp, "is not a time: ") for tcp in ("        ", "2015000a", "25000000",
                                                       "20150025"))):
            stl[TCP_PLACE] = tcp.encode()
            judged = self.judge(data, "--start", "tcp", stl=self.write("two.stl", stl))
            self.check(f"{tcp}: verdict", judged.timed_verdict,
                       "not judged" if reason else "accepted")
            if reason:
                self.must(f"{tcp}: reason", reason in judged.stderr[0], judged.stderr)
            else:
                self.check("clock", judged.result["parts"][0]["clock"]["source"], "tcp")


SECONDS = 8  # duration of the streams made by ffmpeg
PARTS = (0, 3, 20, 45)  # percentages of a stream that are cut from its start
ENCODERS = {"mpeg2video": ["-bf", "2", "-g", "15"],
            "mpeg2video closed": ["-bf", "2", "-g", "15", "-flags", "+cgop", "-sc_threshold",
                                  "1000000000"],
            "libx264": ["-bf", "2", "-g", "25", "-x264-params", "open-gop=1:scenecut=0"],
            "libx264 closed": ["-bf", "2", "-g", "25"],
            "libx264 fields": ["-bf", "2", "-g", "25", "-x264-params", "tff=1"],
            "libx265": ["-bf", "2", "-g", "25"],
            "libx265 closed": ["-bf", "2", "-g", "25", "-x265-params", "open-gop=0"]}


def compare_with_ffprobe(case: Case, name: str, stl: str, data: bytes, is_closed: bool) -> None:
    """Check that qc names the first picture of a stream, and its PTS, as ffprobe does.

    In an open group, this is the PTS of the first key frame. Otherwise it is the smallest PTS in
    the group of this frame.
    """
    path = case.write("cut.ts", data)
    process = qc(case, stl, path, "--start", "00:00:00:00")
    survey = case.call([case.bench.program, "survey", "--page", "888", "--", path])
    # `survey` prints `group` for groups of each form. Without it, qc takes the smallest PTS.
    has_least = is_closed or b"\ngroup " not in survey.out
    packets_of = read_ffprobe_rows(case, path, "packet=pts,flags")
    keys = [number for number, row in enumerate(packets_of) if "K" in row[1]]
    if not case.must(f"{name}: groups", len(keys) > 1, packets_of):
        return
    group = [int(row[0]) for row in packets_of[keys[0]:keys[1]]]
    first = min(group) if has_least else group[0]
    line = next((line for line in split_output_lines(process)
                 if line.startswith("the first picture")), "")
    case.must(f"{name}: its PTS", f" has PTS {first}" in line,
              (line, group, process.errors))
    case.check(f"{name}: skipped", re.findall(r"; (\d+) earlier PES packet", line),
               [f"{keys[0]}"] * (keys[0] > 0))
    if is_closed:
        shown = [int(row[1]) for row in read_ffprobe_rows(case, path, "frame=key_frame,pts")
                 if row[0] == "1"]
        case.must(f"{name}: the first that is shown", shown[:1] == [first], (shown, line))


def read_ffprobe_rows(case: Case, path: str, entries: str) -> list[list[str]]:
    process = subprocess.run(["ffprobe", "-v", "quiet", "-select_streams", "v", "-show_entries",
                              entries, "-of", "csv=p=0", path], stdout=subprocess.PIPE, check=False)
    rows = [line.split(",") for line in process.stdout.decode().split("\n")]
    return [row for row in rows if len(row) > 1 and row[0] not in ("", "N/A")
            and row[1] not in ("", "N/A")]


class FfmpegStreams(Case):
    def test_agrees_with_ffprobe(self) -> None:
        if not (shutil.which("ffmpeg") and shutil.which("ffprobe")):
            self.skipTest("streams of MPEG-2, H.264 and HEVC, since there is no ffmpeg")
        stl = write_programme(self, [(begin, begin + 30) for begin in range(60, 161, 50)],
                              text=make_box_line(b"Number %d"), name="own.stl")
        self.schedule(stl, "own.pes", "--every", "25")
        self.write("own.ts", self.tool("pes2ts", self.path("own.pes"), "0x101").out)
        known = self.call(["ffmpeg", "-v", "quiet", "-encoders"]).out.decode()
        for name, words in ENCODERS.items():
            codec = name.split()[0]
            if f" {codec} " not in known:
                self.bench.over.append(f"streams of {codec}, which ffmpeg lacks")
                continue
            path = self.path(name.replace(" ", "-") + ".ts")
            process = self.call(["ffmpeg", "-v", "error", "-f", "lavfi", "-i",
                                 f"testsrc=size=176x144:rate=25:duration={SECONDS}", "-i",
                                 "own.ts", "-map", "0:v", "-map", "1:s", "-c:s", "copy", "-c:v",
                                 codec, "-pix_fmt", "yuv420p", *words, path])
            self.must(f"{name}: made", process.status == 0, process)
            with open(path, "rb") as file:
                data = file.read()
            for part in PARTS:
                at = len(data) // TS * part // 100
                compare_with_ffprobe(self, f"{name} from TS packet {at}", stl, data[TS * at:],
                                     "closed" in name)
