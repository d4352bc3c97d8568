"""Test --from and --to, files written for printed commands, and PTS that go back."""
from __future__ import annotations

import itertools
import os

from developing.stl import make_gsi_block, make_subtitle_blocks, make_tti_block
from subtitles.common.times import CLOCK, FrameRange, TICKS, format_frame
from subtitles.formats.stl import Subtitle, SubtitleFile, decode_subtitles
from subtitles.judging.pair import find_adjoining_end, find_nearest_pauses
from subtitles.judging.subtitles import HOUR, advise_on_title
from subtitles.judging.transmissions import read_subtitles
from subtitles.stream.packets import PES, PacketRun, Packets
from subtitles.stream.ranges import find_step_back
from .bench import Case
from .judged import ProgrammeCase, judge_files, list_shown_files
from .parts import make_answer, make_example_request, make_part
from .transmissions import (
    CLOSING, HEADER, join_pes_packets, make_delay, write_programme, make_numbered_row,
    schedule_pages, subtitle_times, write_subtitle_file)

MINUTE = 1500  # frames in a minute
EARLIER, LATER = ("--to", "00:01:00:00"), ("--from", "00:01:00:00")
BAD = b"no letter: \xe6"


def make_times(first: int) -> list[tuple[int, int]]:
    """Return the TCI and TCO of three subtitles, 2, 4 and 6 seconds after a frame."""
    return [(first + 50 * at, first + 50 * at + 40) for at in range(1, 4)]


class DayFiles(Case):
    """The subtitle file of a day with two programmes of three subtitles, from 00:00:00:00 and from
    00:01:00:00 on, and the transmission of the second programme."""

    def write_day(self, *texts: bytes, name: str = "day.stl") -> str:
        texts = texts or tuple(b"Number %d" % number for number in range(1, 7))
        return write_subtitle_file(self, [(begin, end, text) for (begin, end), text in zip(
            [*make_times(0), *make_times(MINUTE)], texts)], name)

    def write_second(self) -> str:
        return self.schedule(self.write_day(), "second.pes", *LATER)

    def test_judges_only_subtitles_in_the_range(self) -> None:
        day, second = self.write_day(), self.write_second()
        # The options, the verdict, and the number of subtitles
        for words, word, count in (
                (LATER, "accepted", 3), (("--from", "00:01:02:00"), "accepted", 3),
                (("--from", "00:01:02:01"), "accepted", 2), ((), "refused", 6),
                (EARLIER, "not judged", 3), (("--from", "00:00:06:00"), "refused", 4),
                ((*LATER, "--to", "00:01:06:00"), "accepted", 2),
                ((*LATER, "--to", "00:01:06:01"), "accepted", 3)):
            judged_pair = judge_files(self, day, second, "--origin", "0", *words)
            self.check(f"{words}", (judged_pair.timed_verdict, judged_pair.verdict.subtitle_count),
                       (word, count))
            if word != "not judged":
                self.check(f"{words}: subtitles", len(judged_pair.result["subtitles"]), count)

    def test_reports_only_subtitles_in_the_range(self) -> None:
        day = self.write_day()
        judged = judge_files(self, day, self.write_second(), *LATER, "-o", self.path("out"))
        self.check("part", (judged.timed_verdict, judged.parts("from", "to", "stl")),
                   ("accepted", [("00:01:02:00", "00:01:07:15", day)]))
        self.check("places", [item["position"] for item in judged.result["subtitles"]], [4, 5, 6])
        page = self.read("out/one.html")
        self.must("report", b'<tr id="s4"' in page and b'<tr id="s3"' not in page and
                  b"--from 00:01:00:00" in page, page)
        self.check("files", sorted(os.listdir(self.path("out"))), [
            "one.html", "one.json", "one.txt"])

    def test_ignores_faults_outside_the_range(self) -> None:
        texts = [b"Number %d" % number for number in range(1, 7)]
        third_bad = self.write_day(*texts[:2], BAD, *texts[3:], name="third.stl")
        last_bad, second = self.write_day(*texts[:5], BAD, name="last.stl"), self.write_second()
        judged = judge_files(self, third_bad, second, *LATER, "-o", self.path("out"))
        self.check("outside", (judged.timed_verdict, judged.verdict.subtitle_count),
                   ("accepted", 3))
        self.check("no range", judge_files(self, third_bad, second).verdict.line,
                   "refused 50 Character block 3 at 11")
        judged = judge_files(self, last_bad, second, *LATER, "-o", self.path("out"))
        self.check("inside", (judged.verdict.line, judged.result["faults"][0]["subtitle"][
            "position"]), ("refused 50 Character block 6 at 11", 6))
        for words, word in ((EARLIER, "valid"), ((), "refused"), (LATER, "refused")):
            self.check(f"no recording, {words}", judge_files(self, last_bad, *words).timed_verdict,
                       word)

    def test_refuses_a_range_without_subtitles(self) -> None:
        day, second = self.write_day(), self.write_second()
        for words in (("--from", "00:02:00:00", "--to", "00:01:00:00"), ("--from", "00:05:00:00"),
                      ("--to", "00:00:00:00"), (*LATER, "--to", "00:01:02:00")):
            for recording in list[list[str]]([[], [second]]):
                result = judge_files(self, day, *recording, *words)
                self.must(f"{words} {recording}", result.timed_verdict == "not judged" and
                          f"{day} has no subtitle with a TCI" in result.stderr[-1], result.printed)
        result = judge_files(self, day, "--from", "00:05:00:00", "--to", "00:06:00:00")
        self.check("reason", result.verdict.unjudged_reason, f"{day} has no subtitle with a TCI at "
                   "00:05:00:00 or later and before 00:06:00:00")
        none = self.write("none.stl", make_gsi_block(b"", 0, 0))
        result = judge_files(self, none, second)
        self.check("a file without subtitles", (result.timed_verdict, result.stderr[-1]),
                   ("not judged", f"{none} has no subtitle"))

    def test_refuses_invalid_times(self) -> None:
        for option, time in (("--from", "1:00"), ("--to", "24:00:00:00"),
                             ("--from", "00:00:00:25")):
            process = self.tool("qc", self.write_day(), option, time)
            self.check(f"{option} {time}", (process.status, process.errors), (64, [
                f"qc: argument {option}: {time} is not a time of day: give HH:MM:SS:FF, 25 frames "
                "a second"]))

    def test_finds_parts_within_the_range(self) -> None:
        times = [(100 * at, 100 * at + 60) for at in range(1, 15)]
        day = write_programme(self, [*times, (MINUTE * 5, MINUTE * 5 + 9)], name="day.stl")
        # From frame 780 on, before the eighth subtitle, the PTS are 999 frames later.
        sent = [(pts + (pts >= 780 * TICKS) * TICKS * 999, packets)
                for pts, packets in schedule_pages(self, write_programme(self, times))]
        result = judge_files(self, day, self.write("day.pes", join_pes_packets(sent)),
                             "--breaks", "1", "--to", "00:04:00:00")
        self.check("accepted", (result.timed_verdict, result.verdict.subtitle_count),
                   ("accepted", 14))
        commands = result.lines("+ ")
        self.must("commands", len(commands) == 2 and
                  "--from 00:00:04:00 --to 00:00:30:10" in commands[0] and
                  "--from 00:00:32:00 --to 00:00:58:10" in commands[1], commands)

    def test_finds_the_files_that_a_command_names(self) -> None:
        for line, files in (
                ("subttx check one.stl one.pes --pes 0-9 --all", ["one.stl", "one.pes"]),
                ("./subttx check 'one of.stl' /dev/null --option german",
                 ["one of.stl", "/dev/null"]),
                ("subttx check out/film.1.stl film.ts --pid 0x101", ["out/film.1.stl", "film.ts"])):
            self.check(line, list_shown_files(line), files)


class SkippedSubtitles(Case):
    def test_leaves_out_subtitles_by_the_tci_of_their_first_block(self) -> None:
        # Blocks 2 and 3 are one subtitle, block 5 is a comment, and block 7 has an invalid TCI: its
        # subtitle is in each range.
        blocks = [make_tti_block(1, 25, 50, 20, 2, b"one"),
                  make_tti_block(2, 75, 99, 20, 2, b"tw", 0), make_tti_block(2, 0, 0, 20, 2, b"o"),
                  make_tti_block(3, 100, 150, 20, 2, b"three"),
                  make_tti_block(4, 0, 0, 20, 2, b"note", comment=1),
                  make_tti_block(5, 200, 225, 20, 2, b"five")]
        timeless = bytearray(make_tti_block(6, 0, 0, 20, 2, b"six"))
        timeless[5] = 99
        path = self.write("one.stl", make_gsi_block(b"", 7, 5) + b"".join(blocks) + timeless)
        # The range of TCI, and the TCI and the last block of each subtitle in it
        for between, begins, last_blocks in (
                (FrameRange(), [25, 75, 100, 200], [1, 3, 4, 6, 7]),
                (FrameRange(25), [25, 75, 100, 200], [1, 3, 4, 6, 7]),
                (FrameRange(26, 100), [75], [3, 7]), (FrameRange(75, 101), [75, 100], [3, 4, 7]),
                (FrameRange(101, 100), [], [7])):
            file = SubtitleFile(path, between)
            self.check(f"{between}", ([*file.begins], [*file.list_last_blocks()]),
                       (begins, last_blocks))
            subtitles = [file.find_by_block(block) for block in range(1, 8)]
            self.check(f"{between}: places of blocks", [
                item and item.position for item in subtitles], [1, 2, 2, 3, 3, 4, 5])

    def test_reads_a_file_as_the_program_shows_it(self) -> None:
        path = write_programme(self, [(9, 20), (20, 30), (40, 50)], 2)
        self.check("two lines", decode_subtitles(self.read(path)),
                   read_subtitles(self.bench.program, path))
        data = b"".join(make_subtitle_blocks(at, 50 * at, 50 * at + 9, 20 + at, at % 4, text)
                        for at, text in enumerate((b"one", b"", b"x" * 38 + b"\x8a" + b"y" * 80,
                                                   b"\x8f".join([b"z"] * 60))))
        path = self.write("long.stl", make_gsi_block(b"", 6, 4) + data)
        shown = read_subtitles(self.bench.program, path)
        self.check("long texts", (len(shown), decode_subtitles(self.read(path))), (4, shown))

    def test_notes_a_title_an_hour_before_the_programme(self) -> None:
        # The TCI of a file's subtitles, and the first TCI after the title. There is one if the
        # first subtitle is at 0, and all that are not at 0 are an hour later or more.
        rows: list[tuple[list[int], str | None]] = [
            ([0, HOUR], "01:00:00:00"), ([0, HOUR - 1], None), ([1, HOUR], None), ([0], None),
            ([], None), ([0, 0, HOUR + 25, 2 * HOUR], "01:00:01:00"), ([0, 9, HOUR], None),
            ([HOUR, 0], None), ([0, 10 * HOUR, 9 * HOUR], "09:00:00:00"), ([0, 0], None)]
        for begins, time in rows:
            data = b"".join(make_tti_block(1, begin, begin, 20, 2, b"text") for begin in begins)
            path = self.write("one.stl", make_gsi_block(b"", 1, 1) + data)
            words = advise_on_title(SubtitleFile(path))
            self.check(f"{begins}", words, time and (
                f"the first subtitle is at 00:00:00:00, all others are from {time} on: if that is "
                f"a title, which is not sent, give --from {time}") or "")

    def test_prints_the_note_on_a_title_once(self) -> None:
        times = make_times(10 * HOUR)
        without = write_programme(self, times, name="without.stl")
        pes = self.write("one.pes", join_pes_packets(schedule_pages(self, without)))
        # TCI and TCO of the title, and the fault for which it is refused (63: with a recording)
        for title, number in (((0, 0), 21), ((0, 25), 63)):
            whole = write_programme(self, [title, *times], name="whole.stl", first=0)
            for recording in list[list[str]]([[], [pes, "--origin", "0"]]):
                result = judge_files(self, whole, *recording)
                notes = [item for item in result.stderr if "00:00:00:00" in item]
                self.must(f"{title} {recording}", len(notes) == 1 and notes[0].endswith(
                    "give --from 10:00:02:00"), result.printed)
                self.must(f"{title} {recording}: refused", not (recording or number == 21) or
                          str(number) in (result.verdict.line or ""), result.printed)
                result = judge_files(self, whole, *recording, "--from", "10:00:02:00")
                self.must(f"{title} {recording}: without", result.timed_verdict == (
                    "accepted" if recording else "valid") and
                    "00:00:00:00" not in "\n".join(result.stderr), result.printed)


class AdjoiningSubtitles(ProgrammeCase):
    """Subtitles of which the second, third and fourth follow each other without a pause."""

    cues = [(100, 150), (200, 250), (250, 300), (300, 350), (400, 450), (500, 550)]

    def test_advises_pauses_instead_of_an_end_between_adjoining_subtitles(self) -> None:
        for frame in (250, 300):
            judged = self.judge(self.sent, "--to", format_frame(frame))
            self.check(f"{frame}", (judged.timed_verdict, judged.result["parts"]),
                       ("not judged", []))
            ends = [word.rpartition(" ")[2] for word in judged.verdict.suggestions]
            self.check(f"{frame}: suggested ends", ends, [format_frame(151), format_frame(351)])
            self.check(f"{frame}: reason", judged.verdict.unjudged_reason, "--to ends the range at "
                       f"{format_frame(frame)}, where the next subtitle follows directly: the page "
                       "is not erased there")
        for frame in (151, 351, 500):
            self.check(f"{frame}", self.judge(self.sent, "--to", format_frame(frame)).timed_verdict,
                       "accepted")

    def test_reports_other_faults_and_not_the_end_between_adjoining_subtitles(self) -> None:
        other = [(pts, [HEADER, make_numbered_row(22, b"Other"), CLOSING])
                 if pts == 250 * TICKS else (pts, packets) for pts, packets in self.sent]
        one_late = make_delay(1, 200 * TICKS, 200 * TICKS)(self.sent)
        for name, sent in (("another page", other), ("a late subtitle", one_late)):
            judged = self.judge(sent, "--to", format_frame(250))
            self.check(name, judged.timed_verdict, "refused")
        self.check("sentence", judged.sentence,
                   'Refused: subtitle 2 at 00:00:08:00, "Number 2", appeared 1 frame late.')

    def test_expects_pages_with_the_options_of_the_call(self) -> None:
        words = "--open", "--layout", "row=-2", "--option", "german", "--page", "150"
        stl = write_subtitle_file(
            self, [(*item, b"Gr\xc8u\xfbe %d" % item[0]) for item in self.cues], row=20)
        with open(stl, "r+b") as file:
            file.seek(11)
            file.write(b"0")  # set DSC to open subtitles
        pes = self.schedule(stl, "one.pes", "--every", "25", *words)
        judged = judge_files(self, stl, pes, "--origin", "0", *words, "--to", format_frame(250))
        self.check("suggestions", (judged.timed_verdict, len(judged.verdict.suggestions)),
                   ("not judged", 2))

    def test_finds_an_end_that_only_the_next_subtitle_makes_a_fault(self) -> None:
        # The part has the frames 100 to 200. The number and the frames of faults, --within, and the
        # end of the part if the only fault is 72 (Content) there
        rows: list[tuple[int, list[int], int, int | None]] = [
            (72, [200], 0, 200), (72, [199], 0, None), (72, [201], 0, None), (72, [], 0, None),
            (72, [202], 2, 200), (72, [203], 2, None), (67, [200], 0, None),
            (72, [200, 200], 0, None)]
        for number, frames, within, expected in rows:
            lines = [f"refused {number} Name frame {format_frame(frame)}" for frame in frames]
            printed = make_answer([*lines, f"{len(lines)} faults"] if lines
                                  else ["accepted 9 frames 2 transmissions"])
            part = make_part(100, 200, 0, printed, packets=Packets(0), request=make_example_request(
                "a.stl", "a.pes", "--within", str(within)))
            self.assertEqual(find_adjoining_end(part), expected, (number, within, frames))

    def test_finds_the_pauses_near_a_frame(self) -> None:
        subtitles = [Subtitle(at, at, begin, end, 22, 2, b"")
                     for at, (begin, end) in enumerate(self.cues)]
        # The number of subtitles in the file, a frame, and the nearest TCOs that a pause follows
        for count, frame, expected in ((6, 300, [150, 350]), (6, 100, [150]), (6, 500, [450, 550]),
                                       (4, 300, [150, 350]), (0, 300, [])):
            self.assertEqual(find_nearest_pauses(subtitles[:count], frame), expected,
                             (count, frame))


class StepsBack(Case):
    def test_finds_a_pts_before_that_of_the_previous_pes_packet(self) -> None:
        # Runs of PES packets: the frame of the first, their number and the step in frames; and the
        # PES packet, the frame before it and the ticks back, if that frame is between 10 and 40
        rows: dict[str, tuple[list[tuple[int, int, int]], tuple[int, int, int] | None]] = {
            "forward": ([(10, 3, 1), (13, 2, 5)], None),
            "to the same frame": ([(10, 3, 1), (12, 1, 0)], None),
            "by two frames": ([(10, 3, 1), (10, 2, 1)], (3, 12, 2 * TICKS)),
            "within a run": ([(12, 2, 1), (20, 2, -4)], (3, 20, 4 * TICKS)),
            "before the programme": ([(5, 2, 1), (4, 1, 0), (30, 1, 0)], None),
            "from its last frame": ([(39, 1, 0), (20, 1, 0)], (1, 39, 19 * TICKS)),
            "after the programme": ([(40, 1, 0), (20, 1, 0)], None),
            "past the largest PTS": ([(CLOCK // TICKS + 1, 1, 0), (2, 1, 0)], None)}
        for origin, (name, (runs, expected)) in itertools.product((0, CLOCK - 12 * TICKS),
                                                                  rows.items()):
            packets, number = Packets(PES), 0
            for frame, length, step in runs:
                packets.runs.append(PacketRun(number, length, (origin + TICKS * frame) % CLOCK,
                                              TICKS * step, "", ""))
                number += length
            self.check(f"{name}, {origin}", find_step_back(packets, 10, 40, origin), expected)

    def test_the_sentence_names_a_step_back_before_subtitles(self) -> None:
        stl = write_programme(self, subtitle_times(9))
        for by, words in ((150, "the PTS go back by 5 s 10 frames in PES packet 10, after "
                           "00:00:11:10; 2 of 9 subtitles are not as expected (sent at another "
                           "time, since the PTS go back)"), (5, "")):  # to 11:20, after 11:10
            sent = make_delay(-by, 300 * TICKS - 1)(schedule_pages(self, stl))
            judged_pair = judge_files(self, stl, self.write("one.pes", join_pes_packets(sent)),
                                      "--origin", "0", "--every", "25")
            sentence = judged_pair.result["sentence"]
            self.must(f"{by}", words in sentence and "never sent" not in sentence and
                      ("go back" in sentence) == bool(words), sentence)
