"""Test segments of tools/air: their names and times, gaps between them, and the recorder."""
from __future__ import annotations

import errno
import os
import random
import time
from unittest import mock

from developing.multiplex import PACKET, PAYLOAD
from subtitles.air import recorder, segments
from subtitles.air.recorder import Limits, Recorder
from subtitles.air.segments import (
    Segment, UnbrokenRun, find_clock_jumps, find_segments, find_unbroken_runs, list_segment_names,
    make_segment_name, parse_segment_begin)
from .air import AirCase, DAY, make_tdt
from .programmes import BEGIN, SECOND
from .stories import read_vectors
from .streams import change_packet_size, multiplex_frames


def make_feeds() -> dict[str, bytes]:
    """Return feeds of 110 frames, which have tables, and video with PCRs."""
    sent, later = ([data[at:at + PACKET] for at in range(0, len(data), PACKET)] for data in (
        b"".join(multiplex_frames([], begin, 110, rounds=1)) for begin in (BEGIN, BEGIN + SECOND)))
    tables = {packet for packet in sent if packet[1] in (0x40, 0x41)}  # PAT and PMT
    return {name: b"".join(packets) for name, packets in {
        "complete": sent,
        "without PCR": [packet for packet in sent if packet[3] & PAYLOAD],
        "only video": [packet for packet in sent if packet not in tables],
        "equal counters": [packet[:3] + bytes([PAYLOAD]) + packet[4:] if packet in tables else
                           packet for packet in sent],  # of tables
        "jump at 700": [*sent[:700], *later[700:]],
        "back at 900": [*later[:900], *sent[900:]]}.items()}


CHANCE = random.Random(3)
RANDOM_TIMES = [round(CHANCE.uniform(0, 4e9), 3) for _ in range(500)]


class Segments(AirCase):
    def test_reads_the_time_in_a_name(self) -> None:
        for row in read_vectors("segment-names.tsv"):
            self.check(row["name"], parse_segment_begin(row["name"]),
                       DAY + float(row["begin"]) if row["begin"] else None)

    def test_names_keep_the_time_to_the_millisecond(self) -> None:
        for time in RANDOM_TIMES:
            name = make_segment_name(time)
            self.must(f"{time}", abs((parse_segment_begin(name) or 0) - time) < 1e-3, name)

    def test_names_are_in_the_order_of_their_times(self) -> None:
        names = [make_segment_name(time) for time in sorted(RANDOM_TIMES)]
        self.check("order", names, sorted(names))

    def test_splits_at_possible_losses(self) -> None:
        for row in read_vectors("runs.tsv"):
            self.check(row["name"], self.describe_runs(row["segments"], int(row["pause"])),
                       row["intervals"])

    @mock.patch.object(segments, "BLOCK", 100_000)
    def test_detects_losses_by_counters_between_segments(self) -> None:
        feeds = make_feeds()
        for row in read_vectors("joined-segments.tsv"):
            for size in (188, 192, 204):  # bytes of a packet in the file
                data = change_packet_size(feeds[row["feed"]], size)
                last_two = [data[:int(float(row["end"]) * size)],
                            data[int(float(row["begin"]) * size):]]
                others = [b""] * (len(row["segments"].split()) - len(last_two))
                result = self.describe_runs(row["segments"], 5, *others, *last_two)
                self.check(f"{row['name']}, {size} bytes a packet", result, row["intervals"])

    def describe_runs(self, text: str, pause: float, *data: bytes) -> str:
        """Write segments with the times in `text` and the contents `data`. Return the intervals
        without losses. A gap of up to `pause` seconds is not a loss."""
        self.delete_all("segments")
        segments.is_continued.cache_clear()  # other rows have the same names, sizes and times
        for number, word in enumerate(text.split()):
            begin, end = map(float, word.strip("!").split("-"))
            self.put_segment(begin, end, b"".join(data[number:number + 1]), is_new=word[0] == "!")
        result = find_unbroken_runs(find_segments(self.path("segments"), 0, DAY + 99), pause)
        return " ".join(f"{item.begin - DAY:.0f}-{item.end - DAY:.0f}" for item in result)

    def test_finds_the_last_jump_of_the_clock_from_the_tdt(self) -> None:
        for row in read_vectors("clock-jumps.tsv"):
            self.delete_all("segments")
            segments.find_difference.cache_clear()  # as above
            for word in row["segments"].split():
                times, _, tdt = word.strip("!").partition(":")
                begin, end = map(float, times.split(".."))
                self.put_segment(begin, end, make_tdt(float(tdt)) if tdt else b"",
                                 is_new=word[0] == "!")
            jumps, _ = find_clock_jumps(self.path("segments"), DAY)
            self.check(row["name"], [f"{after - before:+.0f} at {begin - DAY:.0f}"
                                     for begin, before, after in jumps][-1:],
                       [*filter(None, [row["jump"]])])

    def test_takes_a_tdt_at_its_time_within_a_segment(self) -> None:
        """The last TDT before the pause counts. It is at 5/6 of the segment, so at 500 s."""
        self.put_segment(0, 600, make_tdt(0) * 5 + make_tdt(500))
        self.put_segment(620, 630, make_tdt(620))
        self.check("jumps", find_clock_jumps(self.path("segments"), DAY)[0], [])

    def test_finds_the_segments_that_overlap_a_time_range_and_are_not_empty(self) -> None:
        chance = random.Random(4)
        end, times = 0, []
        for _ in range(60):
            begin = end + chance.choice((0, 0, 0, 7))
            end = begin + chance.randint(1, 9)
            path = self.put_segment(begin, end)
            if chance.random() < .1:
                os.truncate(path, 0)
                os.utime(path, (DAY + end, DAY + end))
            else:
                times.append((begin, end))
        for _ in range(300):
            first, last = sorted(chance.sample(range(end), 2))
            result = find_segments(self.path("segments"), DAY + first, DAY + last)
            self.check(f"{first} to {last}",
                       [(item.begin - DAY, item.end - DAY) for item in result],
                       [(begin, end) for begin, end in times if begin < last and end >= first])

    def test_ignores_a_segment_that_was_deleted_meanwhile(self) -> None:
        self.put_segments(0, 30)
        names = list_segment_names(self.path("segments"))
        os.unlink(self.path(f"segments/{names[1][1]}"))
        with mock.patch.object(segments, "list_segment_names", lambda _: names):
            self.check("segments", len(find_segments(self.path("segments"), DAY, DAY + 30)), 2)

    def test_converts_a_time_to_an_offset_in_a_segment(self) -> None:
        for row in read_vectors("segment-offsets.tsv"):
            segment = Segment("", 100, float(row["begin"]), float(row["end"]))
            self.check(row["name"], segment.find_offset(float(row["time"])), int(row["offset"]))

    def test_reads_the_bytes_of_a_time_range(self) -> None:
        # From 0 to 30, each second has one byte with its number.
        run = UnbrokenRun(tuple(Segment(
            self.put_segment(at, at + 10, bytes(range(at, at + 10))), 10, DAY + at, DAY + at + 10)
            for at in (0, 10, 20)))
        for first, middle, last in ((0, 5, 30), (3, 10, 25), (7, 7, 8), (0, 0, 99), (12, 18, 19)):
            for begin, end in ((first, middle), (middle, last)):
                self.check(f"{begin} to {end}", b"".join(run.read(DAY + begin, DAY + end)),
                           bytes(range(begin, min(end, 30))))

    def test_skips_the_first_byte_of_a_feed_that_begins_as_a_pes_file(self) -> None:
        pes = Segment(self.put_segment(40, 50, b"\0\0\1\xbdxxxxxx"), 10, DAY + 40, DAY + 50)
        self.check("bytes", b"".join(UnbrokenRun((pes,)).read(DAY, DAY + 99)), b"\0\1\xbdxxxxxx")


class Recorded(AirCase):
    """A recorder that begins a segment every ten seconds, and keeps it for 1,000 seconds. Times are
    seconds after DAY."""

    def setUp(self) -> None:
        super().setUp()
        self.now = DAY
        for name, does in (("time", lambda: self.now), ("sleep", self.wait),
                           ("monotonic", lambda: self.now)):
            self.patch(time, name, does)
        self.patch(recorder, "print_stderr", self.printed.append)

    def wait(self, seconds: float) -> None:
        self.now += seconds

    def make_recorder(self, length: float = 10, kept: float = 1000, free: int = 0) -> Recorder:
        """Return a recorder; `length` and `kept` are in seconds, `free` is in bytes."""
        return Recorder(self.path("segments"), Limits(length, kept, free))

    def take(self, item: Recorder, at: float, data: bytes = b".") -> None:
        """Let a recorder take bytes from the feed at a time."""
        self.now = DAY + at
        item.take(data)

    def read_segments(self) -> list[tuple[float, bytes]]:
        """Return the begin and the contents of each segment."""
        return [(round(begin - DAY, 3), self.read(f"segments/{name}"))
                for begin, name in list_segment_names(self.path("segments"))]

    def list_begins(self) -> list[float]:
        return [begin for begin, _ in self.read_segments()]

    def are_new(self) -> list[bool]:
        """Return, for each segment, whether its name reports a possible loss before it."""
        return ["-new" in name for _, name in list_segment_names(self.path("segments"))]

    def has_note(self) -> bool:
        """Return whether the recorder notes that deleting segments does not help a full disk."""
        return os.path.exists(self.path(f"segments/{segments.NOTE}"))

    def test_never_deletes_the_last_segment_of_an_earlier_recorder(self) -> None:
        self.put_segments(-10, 20)  # three segments
        item = self.make_recorder()
        os.unlink(self.path(f"segments/{make_segment_name(DAY - 10)}"))  # by somebody else
        self.check("deleted", [item.delete_first() for _ in range(3)], [True, False, False])

    def test_writes_each_byte_into_the_segment_of_its_time(self) -> None:
        item = self.make_recorder()
        text = bytes(range(65, 100))
        for at in range(35):
            self.take(item, at, text[at:at + 1])
        self.check("contents", self.read_segments(), [(0.0, text[:10]), (10.0, text[10:20]),
                                                      (20.0, text[20:30]), (30.0, text[30:])])
        self.check("only the first is new", self.are_new(), [True, False, False, False])

    def test_a_pause_of_more_than_five_seconds_ends_a_segment(self) -> None:
        item = self.make_recorder(length=60)
        for at in (0, 5, 11, 12):
            self.take(item, at, b"%d" % at)
        self.check("contents", self.read_segments(), [(0.0, b"05"), (11.0, b"1112")])

    def test_each_start_begins_a_new_segment(self) -> None:
        for at in (0, 3, 3, 9):
            self.take(self.make_recorder(), at, b"%d" % at)
        self.check("contents", self.read_segments(),
                   [(0.0, b"0"), (3.0, b"3"), (3.001, b"3"), (9.0, b"9")])
        self.check("all are new", self.are_new(), [True] * 4)

    def test_keeps_the_order_when_the_clock_is_set(self) -> None:
        item = self.make_recorder(kept=10_000)
        for number, at in enumerate((0, 5, -9.5, -5, 3600, 3605, 20, 30)):
            self.take(item, at, b"%d" % number)
        # The clock is set back to -9.5: the next segment is named 0.001, so that it comes last. It
        # is set back to 20: when the next segment begins, the segment from 3600 is deleted.
        self.check("by the clock", self.read_segments(), [
            (0.0, b"01"), (0.001, b"23"), (20.0, b"6"), (30.0, b"7")])
        self.check("a large step back is a loss", self.are_new(), [True, False, True, False])
        self.check("message", self.printed, ["the clock was set back by 3580 seconds"])

    def test_a_step_back_by_exactly_ten_seconds_is_a_loss(self) -> None:
        item = self.make_recorder()
        for at in (0, 10, 20, 10):
            self.take(item, at)
        self.check("new segments", self.are_new(), [True, False, True, False])

    def test_deletes_segments_that_are_too_old_without_listing_a_large_folder(self) -> None:
        item = self.make_recorder(kept=50)
        with mock.patch.object(recorder, "list_segment_names", side_effect=AssertionError):
            for at in range(0, 200, 10):
                self.take(item, at)
        self.check("begins", self.list_begins(), [*range(140, 200, 10)])

    def test_deletes_only_two_segments_if_the_clock_is_wrong_for_a_moment(self) -> None:
        self.put_segments(140, 200)
        self.take(self.make_recorder(kept=50), 9999)
        self.check("begins", self.list_begins(), [*range(160, 200, 10), 9999])

    def test_deletes_segments_until_the_disk_has_free_space(self) -> None:
        self.put_segments(-200, 0)

        def find_free_blocks(_: str) -> object:  # of 15 blocks, each with room for one segment
            count = len(os.listdir(self.path("segments")))
            return mock.Mock(f_bavail=max(15 - count, 0), f_frsize=4096)

        item = self.make_recorder(free=5 * 4096)
        with mock.patch.object(os, "statvfs", find_free_blocks):
            self.take(item, 0)
            self.check("two for a new one", self.list_begins()[0], -180)
            for at in range(10, 200, 10):
                self.take(item, at)
        # When a segment begins, five blocks are free, of which it takes one.
        self.check("begins", self.list_begins(), [*range(90, 200, 10)])

    def test_marks_a_loss_after_a_full_disk(self) -> None:
        for error in (errno.ENOSPC, errno.EDQUOT):
            self.delete_all("segments")
            self.put_segments(-20, 0)
            self.now, room, real = DAY, [12], os.write  # bytes for which the disk has room

            def write(file: int, data: bytes) -> int:
                if sum(len(data) for _, data in self.read_segments()) >= room[0]:
                    raise OSError(error, "full")
                return real(file, data[:1])

            item = self.make_recorder()
            with mock.patch.object(os, "write", write):
                item.take(b"abcd")
                self.check("the oldest made room", self.read_segments(), [(0.0, b"abcd")])
                self.check("no note", self.has_note(), False)
                for size, data in ((5, b"lost"), (99, b"more")):
                    room[0] = size
                    item.take(data)
                    self.check(f"note, {size} bytes", self.has_note(), True)  # for a minute
            self.check("what was written stays", self.read_segments()[0], (0.0, b"abcdl"))
            self.must("message", self.printed[-1].endswith(" has no room: 3 bytes are lost"),
                      self.printed)
            self.check("what came later", self.read_segments()[-1][1], b"more")
            self.check("the last one is new", self.are_new()[-1], True)

    def test_keeps_the_history_if_deleting_does_not_help(self) -> None:
        real, is_full = os.write, True

        def write(file: int, data: bytes) -> int:
            if is_full:
                raise OSError(errno.EDQUOT, "full")
            return real(file, data)

        # Two segments are deleted at once, and then one a minute.
        for free in (0, 1 << 60):  # a quota, and a disk with snapshots
            self.delete_all("segments")
            self.put_segments(-1000, 0)
            self.now, item, is_full = DAY, self.make_recorder(kept=9999, free=free), True
            with mock.patch.object(os, "write", write):
                for end, count in ((1, 98), (50, 98), (90, 97), (150, 96)):  # of 100 segments
                    while self.now < DAY + end:  # `take` waits
                        item.take(b"lost")
                    self.check(f"segments at {end}", len(self.read_segments()), count)
                    self.check(f"note at {end}", self.has_note(), True)
                self.check("no other files are known", len(item.names), 96)
                is_full = False
                item.take(b"more")
            self.check("recorded again", self.read_segments()[-1][1], b"more")
            self.check("the last one is new", self.are_new()[-2:], [False, True])

    def test_notes_a_disk_on_which_deleting_does_not_help_for_a_minute(self) -> None:
        item, room = self.make_recorder(free=10), [20]
        with mock.patch.object(os, "statvfs", lambda _: mock.Mock(f_bavail=room[0], f_frsize=1)):
            # The time, the free bytes (10 are required), and whether there is a note, which is
            # written or deleted only when a segment begins
            for at, free, expected in ((0, 20, False), (10, 9, False), (60, 9, False),
                                       (65, 9, False), (75, 9, True), (76, 10, True),
                                       (85, 9, False), (136, 9, False), (146, 9, True),
                                       (156, 10, False)):
                room[0] = free
                self.take(item, at)
                self.check(f"{free} bytes at {at}", self.has_note(), expected)

    def test_deletes_what_it_wrote_before_the_clock_was_set_back(self) -> None:
        self.put_segments(3800, 3820)  # segments of another run
        item = self.make_recorder(kept=10_000)
        with mock.patch.object(time, "monotonic", lambda: DAY):
            for at in (-20, -10, *range(3600, 3700, 10), *range(0, 80, 10)):
                self.take(item, at)
        self.check("begins", self.list_begins(), [-20, -10, *range(0, 80, 10), 3800, 3810])

    def test_deletes_segments_from_the_future_an_hour_after_its_start(self) -> None:
        self.put_segments(9000, 9030)  # written by a recorder that was killed while ahead
        item = self.make_recorder(kept=10_000)
        # The time, and the number of segments from the future: each new one deletes at most two
        for at, count in ((0, 3), (3600, 3), (3610, 1), (3620, 0)):
            self.take(item, at)
            self.check(f"at {at}", sum(begin >= 9000 for begin in self.list_begins()), count)

    def test_raises_any_other_error(self) -> None:
        with mock.patch.object(os, "write", side_effect=OSError(errno.EIO, "disk")):
            self.assertRaises(OSError, self.make_recorder().take, b"x")
