"""Test programmes that run over midnight: when their day begins, and how they are judged."""
from __future__ import annotations

import itertools
import os
import shlex
from typing import Callable, NamedTuple, Sequence

from developing.pes import make_pes_packet
from developing.stl import make_gsi_block, make_subtitle_blocks
from subtitles.air.judge import Judge
from subtitles.common.times import (
    CLOCK, FRAMES_OF_A_DAY, TICKS, begin_day_at, compute_origin, decode_time, format_frame,
    format_origin, format_program_time, parse_frame, restore_times)
from subtitles.formats.listing import parse_place_time
from subtitles.formats.midnight import find_day_begin, move_times
from subtitles.formats.stl import TCP_PLACE, get_subtitle_times, read_stored_subtitles
from .air import AirCase, DAY, SEGMENT_SECONDS
from .bench import Case
from .judged import JudgedPair, judge_files
from .stories import read_vectors
from .streams import multiplex_frames
from .transmissions import (
    CLOSING, HEADER, Change, SentPes, join_pes_packets, make_numbered_row, packets, schedule_pages,
    write_subtitle_file)

NOON, MIDNIGHT = FRAMES_OF_A_DAY // 2, FRAMES_OF_A_DAY  # in frames


def make_stl(*times: str, first: bytes = b"00000000") -> bytes:
    """Return a file with a subtitle for each TCI and TCO, such as `22:00:00:00-22:00:02:00`, and
    the TCP `first`."""
    codes = [text.split("-") for text in times]
    blocks = [make_subtitle_blocks(number, 0, 0, 22, 2, b"Number %d" % number)
              for number in range(1, len(codes) + 1)]
    for number, pair in enumerate(codes):
        code = bytes(int(part) for time in pair for part in time.split(":"))
        blocks[number] = blocks[number][:5] + code + blocks[number][13:]
    gsi = make_gsi_block(b"Late film", len(blocks), len(blocks))
    return gsi[:TCP_PLACE.start] + first + gsi[TCP_PLACE.stop:] + b"".join(blocks)


EVENING = "22:00:00:00-22:00:02:00"


class Times(Case):
    def test_finds_the_day_of_a_file(self) -> None:
        for row in read_vectors("days.tsv"):
            data = make_stl(*filter(None, row["subtitles"].split(", ")))
            self.check(row["name"], format_frame(find_day_begin(data)), row["day begins"])

    def test_moves_all_valid_times_and_the_tcp(self) -> None:
        data = make_stl(EVENING, "23:59:58:00-00:00:02:10", "24:00:00:00-01:00:60:00",
                        first=b"12000005")
        moved = move_times(data, NOON)
        self.check("moved by 12 hours", moved, make_stl(
            "10:00:00:00-10:00:02:00", "11:59:58:00-12:00:02:10", "24:00:00:00-01:00:60:00",
            first=b"00000005"))
        self.check("moved back", move_times(moved, NOON), data)

    def test_only_a_title_at_the_beginning_keeps_its_time(self) -> None:
        title, moved = "00:00:00:00-00:00:01:00", "12:00:00:00-12:00:01:00"
        for may_have_title, first in ((True, title), (False, moved)):
            self.check(f"may be a title: {may_have_title}", move_times(
                make_stl(title, EVENING, title), NOON, may_have_title), make_stl(
                    first, "10:00:00:00-10:00:02:00", moved, first=b"12000000"))

    def test_prints_the_times_of_a_subtitle_file_whose_day_begins_at_noon(self) -> None:
        with begin_day_at(NOON):
            for frame, time in ((0, "12:00:00:00"), (NOON - 1, "23:59:59:24"),
                                (NOON, "00:00:00:00"), (MIDNIGHT - 1, "11:59:59:24")):
                self.check(time, (format_frame(frame), parse_frame(time), parse_place_time(time)),
                           (time, frame, frame))
            self.check("a TCI of the copy", decode_time(bytes((10, 0, 2, 0))), "22:00:02:00")
            self.check("a line of check", restore_times("trusted frames 11:59:59:24 12:00:00:00"),
                       "trusted frames 23:59:59:24 00:00:00:00")
            self.check("an option of check", [format_program_time(word) for word in (
                "--to", "00:00:02:00", "24:00:00:00")], ["--to", "12:00:02:00", "24:00:00:00"])
            self.check("a clock", format_origin(compute_origin(CLOCK - 1)), f"--origin {CLOCK - 1}")
            self.check("the PTS of frame 0", compute_origin(CLOCK - 1), TICKS * NOON - 1)
        self.check("afterwards", (format_frame(MIDNIGHT), parse_frame("12:00:00:00")),
                   ("24:00:00:00", NOON))


class Programme(NamedTuple):
    """Times of subtitles in frames from midnight, so that those of the evening are negative, a
    change of the transmission, and options of qc."""

    times: Sequence[tuple[int, int]]
    change: Callable[[SentPes], SentPes] = list
    arguments: Sequence[str] = ()


TITLE = 0, 25  # a subtitle that is not sent
OVER = [(-200, -150), (-50, 30), (60, 100), (160, 200)]  # the second is shown at midnight
PAGES = {"blank": [HEADER, CLOSING], "wrong": [HEADER, make_numbered_row(22, b"Wrong"), CLOSING]}


def replace_frames(frames: str, page: str) -> Change:
    """Return a function that replaces the packets sent in frames such as `60..73`, counted from
    midnight, by one of `PAGES` in the first of them, or by nothing if `page` is empty."""
    if not frames:
        return list
    first, last = (int(frame) for frame in frames.split(".."))
    instead = [(TICKS * (MIDNIGHT + first), PAGES[page])] if page else []
    return lambda sent: sorted([
        item for item in sent if not first <= item[0] // TICKS - MIDNIGHT <= last] + instead)


# Programmes, whose pages are repeated every 25 frames, and the beginning of the sentence about each
PROGRAMMES = {row["name"]: (Programme(
    [(int(begin), int(end)) for begin, end in (
        item.split("..") for item in row["subtitles"].split())],
    replace_frames(row["frames"], row["page"]), row["arguments"].split()), row["sentence"])
              for row in read_vectors("midnight-programmes.tsv")}
ORIGIN = CLOCK - TICKS * MIDNIGHT  # the PTS wraps at midnight


class MidnightCase(Case):
    """A test case that writes programmes over midnight."""

    def write_programme(self, programme: Programme) -> tuple[str, str]:
        """Write the subtitle file and the recording of a programme."""
        subtitles = [(begin, end, b"Number %d" % number)
                     for number, (begin, end) in enumerate(programme.times, 1)]
        noon = write_subtitle_file(self, [
            (NOON + begin, NOON + end, text) for begin, end, text in subtitles
            if (begin, end) != TITLE], "noon.stl")
        sent = schedule_pages(self, noon, origin=TICKS * NOON)
        stl = write_subtitle_file(self, [(begin % MIDNIGHT, end % MIDNIGHT, text)
                                         for begin, end, text in subtitles], "film.stl")
        return stl, self.write("film.pes", join_pes_packets([
            (pts + ORIGIN, packets) for pts, packets in programme.change(sent)]))


class Programmes(MidnightCase):
    def judge(self, programme: Programme) -> JudgedPair:
        return judge_files(self, *self.write_programme(programme), "--origin", str(ORIGIN),
                           "--no-complete", "-o", self.path("out"), *programme.arguments)

    def test_judges_each_programme_as_it_is(self) -> None:
        for name, (programme, sentence) in PROGRAMMES.items():
            judged = self.judge(programme)
            self.check(name, judged.result["sentence"][:len(sentence)], sentence)

    def test_a_waiver_names_the_time_and_the_checksum_of_the_file(self) -> None:
        late = PROGRAMMES["late"][0]
        checksum = self.judge(late).result["inputs"]["stl"]["sha256"]
        # `check` reads a copy of the file in which the TCI is 12:00:02:10.
        for name, time, word in ((f"sha256:{checksum}", "00:00:02:10", "waived"),
                                 ("film.stl", "00:00:02:10", "waived"),
                                 ("film.stl", "12:00:02:10", "refused")):
            path = self.write("severity", f"72 warning at {time} in {name} until 9999-12-31 "
                              'by "NN": late\n'.encode())
            judged = self.judge(late._replace(arguments=("--severity", path)))
            self.check(f"{name} {time}", judged.result["verdict"], word)

    def test_judges_into_the_folder_of_the_files_twice(self) -> None:
        stl, _ = self.write_programme(Programme(OVER))
        os.rename(stl, self.path("late film.v2.stl"))
        os.rename(self.path("film.pes"), self.path("late film.v2.pes"))
        for made in ("noon.stl", "planned.pes"):  # what `write_programme` needed
            os.unlink(self.path(made))
        for name in ("first", "again"):
            call = self.tool("qc", "--batch", self.folder, "-o", self.folder, "--no-complete",
                             "--relative")
            self.check(name, (call.status, call.out.decode().splitlines()[-1]),
                       (0, "1 pair: 1 relative"))
            # The copy with other times is no input of the next call.
            self.must(f"{name}: copy", os.path.exists(self.path("late film.v2.midnight.copy")))

    def test_prints_a_check_command_that_a_user_can_run(self) -> None:
        judged = self.judge(Programme(OVER))
        command = shlex.split(judged.verdict.commands[-1])
        self.check("its file", command[2], self.path("out/one.midnight.copy"))
        status, lines = self.program(*command[1:])
        self.check("its result", (status, lines[-1]), (0, judged.result["line"].split(";")[0]))
        self.check("the note", judged.result["notes"], [
            f"{self.path('film.stl')} runs over midnight: check read {command[2]}, a copy in which "
            "all times are 12 h earlier"])
        alone = judge_files(self, self.path("film.stl"), "-o", self.path("out")).verdict.commands
        self.check("its file without a recording", shlex.split(alone[-1])[2], command[2])

    def test_reads_a_recording_into_one_file(self) -> None:
        blank = [(TICKS * (MIDNIGHT - 210), [HEADER, CLOSING])]
        for name, times in (("over midnight", OVER), ("from midnight on", [(0, 50), (60, 100)])):
            _, pes = self.write_programme(Programme(times, lambda sent: [*blank, *sent]))
            call = self.tool("read", pes, "--origin", str(ORIGIN), "--no-complete", "--page",
                             "888", "-o", self.path("out"))
            self.check(name, call.out.decode().splitlines()[-1].split(":")[0], "as shown")
            subtitles = read_stored_subtitles(self.read("out/888.stl"))
            self.check(f"{name}: times", [get_subtitle_times(subtitle) for subtitle in subtitles],
                       [(begin % MIDNIGHT, end % MIDNIGHT) for begin, end in times])
            origin = ORIGIN if times[0][0] < 0 else 0  # that of the day of the first subtitle
            judged = judge_files(self, self.path("out/888.stl"), pes, "--origin", str(origin),
                                 "--no-complete")
            self.check(f"{name}: judged", judged.timed_verdict, "accepted")


class OnAir(AirCase, MidnightCase):
    """A feed of five segments of ten seconds, in which midnight is 28 seconds after the start."""

    def test_judges_a_programme_when_it_has_ended(self) -> None:
        self.write_schedule(f"2026-12-01T08:00:20Z film.stl --no-complete --origin {ORIGIN}")
        for name in ("a subtitle over midnight", "late"):
            programme, sentence = PROGRAMMES[name]
            self.write_programme(programme)
            later = make_pes_packet(TICKS * 225, [HEADER, CLOSING])  # after the last subtitle
            stream = multiplex_frames([*packets(self.read("film.pes")), later], begin=CLOCK -
                                      TICKS * 700, count=5 * SEGMENT_SECONDS * 25, rounds=1)
            self.delete_all("segments", "out")
            judge = Judge(self.args("-p", self.bench.program), "tools/qc")
            for now in range(0, 50, SEGMENT_SECONDS):
                self.put_segment(now, now + SEGMENT_SECONDS,
                                 b"".join(itertools.islice(stream, 250)))
                judge.look(DAY + now + SEGMENT_SECONDS)
            self.check(name, self.result("20261201T080020Z-film")["sentence"][:len(sentence)],
                       sentence)
