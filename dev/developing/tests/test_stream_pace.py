"""Test the estimated interval between PES packets (the pace), and the losses found with it."""
from __future__ import annotations

import collections
import contextlib
import io
import itertools
import os
import random
from typing import Any, Iterable, Sequence

from developing.pes import make_pes_packet
from subtitles.common.command_line import Stop
from subtitles.common.times import CLOCK, pts_of, TICKS
from subtitles.results.schema import REQUEST
from subtitles.stream.gaps import (
    describe_gap_markers, do_overlap, find_loss_places, find_pts_delay, find_recorded_range,
    LossPlace, MAX_LATE, SECOND)
from subtitles.stream.pace import (
    BY_EVERY, compute_pace, count_distances, estimate_packets_per_pes, find_hidden_loss,
    find_pauses, find_silences, find_usual_distance, list_frame_rows, MAX_EXCEPTIONS, PAUSED,
    Pauses, REGULAR, Silence)
from subtitles.stream.packets import GapMarker, PacketRun, Packets, PCRStep
from subtitles.stream.repeats import list_cue_frames
from subtitles.stream.survey import ProgramMap, Survey
from ..cited import find_long_readings
from ..definitions import count_lines_to_read, Definition, Library
from ..promises import find_unknown_clauses, list_indexed_clauses
from .bench import Case, import_script
from .judged import judge_files, JudgedPair, ProgrammeCase
from .parts import make_example_request, make_packets
from .stories import read_files, read_vectors, repeat_words
from .streams import delete_between, join_packets, make_multiplex, Packet, Shape, TELETEXT_PID
from .transmissions import schedule_pages, SentPes, write_pipe, write_programme

BEGIN = 900_000  # frame number of the first TCI


def read_frames(text: str) -> list[Sequence[int]]:
    """Return the frames of the PES packets in each row, as dev/vectors/paces.tsv describes them. A
    row with equal steps is a range, as `list_frame_rows` returns one PES packet per frame."""
    result = list[Sequence[int]]()
    for row in filter(str.strip, repeat_words(text).split("/")):
        steps = [int(step) for step in row.split() if step != "-"]
        frames = [*itertools.accumulate(steps)]
        is_even = len({*steps[1:]}) == 1 and steps[1] > 0
        result.append(range(frames[0], frames[-1] + 1, steps[1]) if is_even else frames)
    return result


def read_pauses(text: str) -> Pauses:
    ends = [item.split("-") for item in text.split()]
    return [(int(begin) if begin else None, int(end) if end else None) for begin, end in ends]


class PaceDecisions(Case):
    """How far apart PES packets may be (the pace), from the frames in which they come."""

    def test_measures_the_pace_of_streams_and_of_files_of_pes_packets(self) -> None:
        for row in read_vectors("paces.tsv"):
            pace = compute_pace(
                read_frames(row["frames"]), int(row["each"] or 1), int(row["every"] or 250),
                read_pauses(row["pauses"]), is_stream=row["source"] == "stream")
            self.check(f"{row['source']}, {row['name']}",
                       (pace.kind, pace.frames, pace.hidden_places),
                       (row["kind"], int(row["pace"]) if row["pace"] else None,
                        int(row["hidden"] or 0)))

    def test_returns_the_usual_interval_or_the_longest_pause_and_the_shortest_loss(self) -> None:
        self.check_rows(lambda *arguments: compute_pace(*arguments)[:3], {
            "regular, one loss": (([[*range(10), *range(30, 5000)]], 2, 250), (REGULAR, 1, 3)),
            "many, far apart": (([range(0, 20_000, 100)], 1, 250), (BY_EVERY, 100, 300)),
            "few, far apart": (([range(0, 500, 100)], 1, 250), (BY_EVERY, 100, 0)),
            "a pause of 301 frames": (
                ([[*range(10), *range(310, 5000)]], 1, 999, [(0, 9)]), (PAUSED, 301, 3)),
            "two pauses, and a loss in a subtitle": (
                ([[*range(10), *range(210, 1000), *range(1090, 3000), *range(3094, 5000)]], 1, 250,
                 [(999, 1090), (2999, 3094)]), (PAUSED, 95, 3))})

    def test_ignores_the_three_longest_of_four_or_more_intervals(self) -> None:
        self.check_rows(lambda rows: compute_pace(rows, 1, 250).interval, {
            "no PES packet": (([],), 0), "one": (([[7]],), 0), "two intervals": (([[0, 2, 9]],), 7),
            "four": (([[0, 1, 3], [9, 13, 18]],), 1), "five": (([[0, 9, 17, 24, 30, 31]],), 6)})

    def test_finds_no_loss_in_random_intervals(self) -> None:
        # The weights of intervals of one frame, two frames, and so on
        for name, weights in (("halving", [.5 ** at for at in range(20)]),
                              ("seldom a frame without", [.1 ** at for at in range(9)]),
                              ("seldom long", [.8 ** at for at in range(40)]),
                              ("of even frames", [.7 ** at * (at % 2) for at in range(40)])):
            for seed, is_stream in itertools.product(range(10), (True, False)):
                frames = [0, *itertools.accumulate(random.Random(seed).choices(
                    range(1, len(weights) + 1), weights, k=400))]
                pace = compute_pace([frames], 1, 250, (), is_stream)
                longest = max(count_distances([frames], 1))
                self.must(f"{name} {seed} {is_stream}",
                          pace.frames is None or longest <= pace.frames, (pace, longest))

    def test_finds_the_usual_interval(self) -> None:
        for row in read_vectors("usual-intervals.tsv"):
            counts = collections.Counter[int]()
            for item in row["intervals"].split():
                frames, count = item.split(":")
                counts[int(frames)] = int(count)
            usual = find_usual_distance(counts, sum(counts.values()), MAX_EXCEPTIONS)
            self.check(row["name"], "" if usual is None else f"{usual}", row["usual"])

    def test_finds_the_shortest_loss_that_no_counter_shows(self) -> None:
        # The frames of PES packets, and the TS packets of each; the least distance in frames of PES
        # packets between which 16 TS packets, and at least two whole PES packets, may be missing
        two = [at // 2 for at in range(800)]
        self.check_rows(find_hidden_loss, {
            "no PES packet": (([], 1), None), "17, all in one frame": (([[7] * 17], 1), None),
            "18, one a frame": (([[*range(18)]], 1), 17), "two a frame": (([two], 1), 8),
            "of two TS packets": (([two], 2), 4), "of nine TS packets": (([two], 9), 1),
            "all in one frame": (([[5] * 400], 1), 0),
            "rows of 200 and 9": (([[*range(0, 1000, 5)], [*range(9)]], 3), 6)})

    def test_splits_the_frames_at_losses_and_steps_back(self) -> None:
        origin = CLOCK - 5 * TICKS
        # Runs of PES packets: the first number, how many, the first frame (`None`: a gap marker),
        # the step in frames, and the fault; --within; and the frames of PES packets without a loss
        rows: list[tuple[list[tuple[int, int, float | None, int, int]], int, list[list[int]]]] = [
            ([], 0, []), ([(0, 3, 0, 1, 0)], 0, [[0, 1, 2]]),
            ([(0, 3, 0, 1, 0), (3, 9, 9, 1, 0)], 0, [[0, 1, 2, *range(9, 18)]]),
            ([(0, 3, 0, 1, 0), (3, 1, None, 0, 0), (4, 2, 9, 1, 0)], 0, [[0, 1, 2], [9, 10]]),
            ([(0, 3, 0, 1, 0), (3, 1, 3, 0, 33), (4, 2, 4, 1, 0)], 0, [[0, 1, 2], [4, 5]]),
            ([(0, 3, 7, 1, 0), (3, 2, 2, 1, 0)], 0, [[7, 8, 9], [2, 3]]),
            ([(0, 1, 1, 0, 0), (1, 1, 1, 0, 0), (2, 1, 2, 0, 0)], 1, [[1, 1, 2]]),
            ([(0, 2, 0.5, 1, 0)], 0, []), ([(0, 2, 0.5, 1, 0)], 1, [[0, 1]]),
            ([(0, 1, 0, 0, 0), (1, 1, 0.5, 0, 0), (2, 2, 1, 1, 0)], 0, [[0], [1, 2]])]
        for runs, within, expected in rows:
            packets = Packets(5, [PacketRun(first, count, None if frame is None else int(
                origin + frame * TICKS) % CLOCK, step * TICKS, "-", "", fault=fault)
                                  for first, count, frame, step, fault in runs])
            self.check(f"{runs}", [[*row] for row in list_frame_rows(
                packets, (0, 99), origin, within)], expected)
        packets = Packets(5, [PacketRun(0, 9, origin, TICKS, "-", "")])
        self.check("PES packets 3 to 5", [[*row] for row in list_frame_rows(
            packets, (3, 5), origin, within=0)], [[3, 4, 5]])

    def test_estimates_the_ts_packets_of_a_pes_packet(self) -> None:
        # TS packets of the PID, bytes of 100 PES packets if it is a file, and Teletext packets in
        # the last PES packet; the TS packets of a PES packet: the mean (184 bytes each), or those
        # of the largest, whose first TS packet has three Teletext packets, and others four
        for total, size, units, expected in (
                (100, None, 0, 1), (103, None, 3, 1), (103, None, 4, 2), (149, None, 0, 1),
                (151, None, 0, 2), (800, None, 3, 8), (100, None, 35, 9), (5000, None, 1, 9),
                (0, 184 * 100, 3, 1), (0, 184 * 151, 0, 2), (0, 184 * 300, 3, 3), (0, 0, 7, 2),
                (0, None, 0, 1)):
            packets = Packets(5, [PacketRun(0, 99, 0, TICKS, "-", "", 3 * (units > 3)),
                                  PacketRun(99, 1, 0, 0, "-", "", units)], packets=total)
            self.check(f"{total} {size} {units}",
                       estimate_packets_per_pes(packets, (0, 99), size), expected)
            self.must("without the last", estimate_packets_per_pes(packets, (0, 98), size) <= max(
                1, round((total if size is None else size // 184) / 100)))
        self.check("no PES packet", estimate_packets_per_pes(Packets(5, packets=3), (0, 0), None),
                   1)

    def test_finds_silences_between_frames(self) -> None:
        # Five intervals; one of 5 frames or more is a silence, which is near another if fewer than
        # `steps` PES packets are between them.
        for apart, steps in itertools.product(itertools.product((1, 4, 5, 6), repeat=5), (1, 2, 4)):
            row = [*itertools.accumulate(apart, initial=7)]
            places = [at for at, frames in enumerate(apart) if frames >= 5]
            self.assertEqual([*find_silences(row, 5, steps)], [Silence(row[at], row[at + 1], any(
                0 < abs(at - other) < steps for other in places)) for at in places], (row, steps))
        self.check("one a frame", [*find_silences(range(9), 1, 3)], [])

    def test_finds_the_pauses_between_subtitles(self) -> None:
        self.check("cues", list_cue_frames([(5, 9), (9, 30), (2, 5)]), [2, 5, 9, 30])
        self.must("no subtitle", not find_pauses([]))
        self.check("two", find_pauses([(5, 9), (20, 30)]), [(None, 5), (9, 20), (30, None)])


# Start and end frames of the subtitles in a programme of one minute.
TIMES = [(BEGIN + 250 * at, BEGIN + 250 * at + 200) for at in range(6)]


def fill_missing_frames(sent: SentPes) -> SentPes:
    known = dict(sent)
    return [(pts, known.get(pts, [])) for pts in range(sent[0][0], sent[-1][0] + 1, TICKS)]


def send_in_bursts(sent: SentPes) -> SentPes:
    """Keep only the PES packets that are sent within a second after a cue."""
    return [(pts, packets) for pts, packets in sent if any(
        edge * TICKS <= pts < (edge + 25) * TICKS for both in TIMES for edge in both)]


def remove_pid_packets(result: list[Packet], first: int, count: int) -> list[Packet]:
    """Delete `count` TS packets of the Teletext PID, beginning with the one at index `first`."""
    own = [at for at, item in enumerate(result) if item.pid == TELETEXT_PID][first:first + count]
    missing = {*own}
    return [item for at, item in enumerate(result) if at not in missing]


IRREGULAR_NOTE = "not checked: losses of 0.6 s or more on this PID alone, since the PES packets " \
    "come at irregular intervals"
PACE_LINE = "PES packets are at most 1 frame apart, or at least 3 after a loss of 16 TS packets: " \
    "--pace 2"


class Losses(ProgrammeCase):
    """A stream with a PES packet of one TS packet in each frame, from 10:00:00:00 on. If 16 are
    lost, the continuity counter goes on as if none were, and only the intervals show it."""

    cues = TIMES
    first = 660  # number of the first lost PES packet, whose frame is 10:00:26:10
    lost, silent = "45 Lost pes 660", "79 Silent frame 10:00:26:11"

    def make_stream_packets(self, sent: SentPes) -> list[Packet]:
        return make_multiplex([make_pes_packet(pts, packets) for pts, packets in sent], Shape(100))

    def check_faults(self, name: str, judged: JudgedPair, word: str, *faults: str) -> None:
        """Check the verdict, and the lines of all faults."""
        listed = [line for line in judged.check_lines if line.startswith("refused")]
        self.check(name, (judged.timed_verdict, listed),
                   (word, [f"refused {line}" for line in faults]))

    def test_measures_the_pace_of_a_regular_stream(self) -> None:
        judged = self.judge_stream(self.make_stream_packets(fill_missing_frames(self.sent)))
        self.check_faults("verdict", judged, "accepted")
        self.check("line", judged.lines("pace: "), [PACE_LINE])
        self.check("result", (judged.parts("pace"), judged.result["request"]["pace"]),
                   ([(2,)], None))
        self.must("command", " --complete --pace 2 --all" in judged.verdict.commands[-1])

    def test_reports_a_silence_whether_or_not_a_counter_shows_the_loss(self) -> None:
        multiplex = self.make_stream_packets(fill_missing_frames(self.sent))
        # `delete_between` cuts the whole stream, `remove_pid_packets` only this PID.
        for cut, counts in ((remove_pid_packets, (1, 2, 14, 15, 16, 17)),
                            (delete_between, (1, 15, 16, 17))):
            for count in counts:
                faults = [*[self.lost] * (count % 16 > 0), *[self.silent] * (count > 1)]
                judged = self.judge_stream(cut(multiplex, self.first, count))
                self.check_faults(f"{cut.__name__} {count}", judged, "refused", *faults)
                if count == 16:
                    self.check(f"{cut.__name__}: sentence", judged.sentence, "Refused: there was "
                               "no PES packet for 16 frames from 10:00:26:10 on.")

    def test_reports_a_silence_of_several_times_16_pes_packets(self) -> None:
        multiplex = self.make_stream_packets(fill_missing_frames(self.sent))
        for cut, count in ((remove_pid_packets, 32), (remove_pid_packets, 160),
                           (delete_between, 160)):
            judged = self.judge_stream(cut(multiplex, self.first, count))
            self.check(f"{cut.__name__} {count}: verdict", judged.timed_verdict, "refused")
            self.must(f"{cut.__name__} {count}: faults",
                      f"refused {self.silent}" in judged.check_lines
                      and not any("refused 45" in line for line in judged.check_lines),
                      judged.check_lines)

    def test_judges_by_the_given_pace(self) -> None:
        multiplex = remove_pid_packets(self.make_stream_packets(fill_missing_frames(self.sent)),
                                       self.first, 16)
        # The option, the verdict, the pace that is used, and the lines about it
        for option, word, pace, lines in (
                ("--pace=none", "accepted", None, []), ("--pace=17", "accepted", 17, []),
                ("--pace=16", "refused", 16, []), ("--allow-lost", "waived", 2, [PACE_LINE])):
            judged = self.judge_stream(multiplex, option)
            self.check(option, (judged.timed_verdict, judged.lines("pace: "), judged.parts("pace")),
                       (word, lines, [(pace,)]))
            self.check(f"{option}: requested", judged.result["request"]["pace"],
                       option[7:] if option.startswith("--pace") else None)

    def test_reports_a_silence_of_a_pipe_and_of_a_file_of_pes_packets(self) -> None:
        sent = fill_missing_frames(self.sent)
        pipe = write_pipe(self, join_packets(remove_pid_packets(self.make_stream_packets(sent),
                                                                self.first, 16)))
        self.check_faults("a pipe", judge_files(self, self.stl, pipe, *self.qc_args), "refused",
                          self.silent)
        # A file has no counters: since it may lose a single PES packet, its pace is 1 and not 2.
        self.check_faults("PES packets", self.judge(sent[:self.first] + sent[self.first + 16:]),
                          "refused", "79 Silent frame 10:00:26:10")

    def test_notes_undetectable_losses_at_an_irregular_pace(self) -> None:
        multiplex = self.make_stream_packets(send_in_bursts(schedule_pages(
            self, write_programme(self, TIMES), every=1)))
        first = 155  # number of the first lost PES packet, within a burst
        # `delete_between` cuts other PIDs too: their counters and the PCR show a loss of 16, too.
        for cut, count, word in (
                (remove_pid_packets, 0, "accepted"), (remove_pid_packets, 1, "refused"),
                (remove_pid_packets, 15, "refused"),
                (remove_pid_packets, 16, "accepted"), (remove_pid_packets, 17, "refused"),
                (delete_between, 16, "lost"), (delete_between, 17, "refused")):
            name = f"{cut.__name__} {count}"
            judged = self.judge_stream(cut(multiplex, first, count))
            self.check_faults(name, judged, word, *["45 Lost pes 155"] * (word == "refused"))
            self.check(f"{name}: the note", (IRREGULAR_NOTE in judged.stderr,
                                             IRREGULAR_NOTE in judged.notes), (True, True))
            self.check(f"{name}: no pace", (judged.lines("pace: "), judged.parts("pace")),
                       ([], [(None,)]))
        for option in ("--pace=none", "--pace=180"):  # bursts are at most 176 frames apart
            judged = self.judge_stream(remove_pid_packets(multiplex, first, 16), option)
            self.check(option, (judged.timed_verdict, IRREGULAR_NOTE in judged.stderr),
                       ("accepted", False))
        # The first burst of each subtitle ends 24 frames after its TCI; the fault is 100 later.
        self.check_faults("--pace=100", self.judge_stream(multiplex, "--pace=100"), "refused", *(
            f"79 Silent frame 10:00:{10 * at + 4:02}:24" for at in range(6)))


PID, PCR_PID = 5, 0x200


class LossPlaces(Case):
    """A recording with nine PES packets or gap markers, one per frame."""

    def test_lists_each_loss_once(self) -> None:
        for wrapped in range(9):  # number of PES packets before the wrap of the PTS
            pts = [TICKS * (at - wrapped) % CLOCK for at in range(9)]
            jump, other = (pts[3], pts[5]), (pts[7], pts[8])
            late_pcr = PCRStep(*jump, 9 * TICKS, 9, TICKS, 9, "broken")
            marker, ends = GapMarker(4, pts[3], 2, 0), [GapMarker(0, None, 0, 0),
                                                        GapMarker(8, pts[7], 0, 1)]
            # Gap markers, late PCRs, and announced jumps of the counter; and the PTS before and
            # after each loss, and whether it is known only from an announced jump
            rows: dict[str, tuple[Any, ...]] = {
                "nothing": ([], [], [], []), "a jump": ([], [], [jump], [(jump, True)]),
                "two jumps": ([], [], [jump, other], [(jump, True), (other, True)]),
                "a late PCR at a jump": ([], [late_pcr], [jump], [(jump, False)]),
                "gap markers at both ends": (ends, [], [], [((None, pts[1]), False),
                                                            ((pts[7], None), False)]),
                "a gap marker at one of two jumps": ([marker], [], [jump, other],
                                                     [(jump, False), (other, True)])}
            for name, (markers, pcr_steps, jumps, expected) in rows.items():
                missing = {item.number for item in markers}
                packets = make_packets([None if at in missing else item
                                        for at, item in enumerate(pts)],
                                       "-", gap_markers=markers, pcr_steps=pcr_steps)
                self.check(f"{name}, {wrapped}", [
                    ((item.before, item.after), item.is_announced)
                    for item in find_loss_places(packets, jumps)], expected)
                self.check(f"{name}, {wrapped}: lines about gap markers", [
                    line.partition(" (")[0] for line in describe_gap_markers(packets)], [
                    f"between PTS {before} and {after}" if None not in (before, after) else
                    f"before PTS {after}" if before is None else f"after PTS {before}"
                    for (before, after), _ in expected[:len(markers)]])

    def test_losses_overlap_if_both_may_be_in_one_interval(self) -> None:
        # The frames before and after a loss, or `None` if no PES packet is before or after it
        ends = [None, *range(5)]
        pairs = [(first, last) for first, last in itertools.product(ends, ends)
                 if first is None or last is None or first < last]
        for origin, pair, other in itertools.product((0, CLOCK - 2 * TICKS), pairs, pairs):
            places = [LossPlace(begin, end) for begin, end in (
                [None if at is None else pts_of(at, origin) for at in item]
                for item in (pair, other))]
            (first, last), (begin, end) = ((-9 if item[0] is None else item[0],
                                            9 if item[1] is None else item[1])
                                           for item in (pair, other))
            self.assertEqual(do_overlap(*places), max(first, begin) < min(last, end), places)

    def test_uses_the_longest_pcr_step_that_fits_between_the_pts_at_a_gap_marker(self) -> None:
        # The gap marker is number 4, in two frames between the PTS. A step of three frames between
        # PCRs that are usually a frame apart means that two frames are missing.
        for origin, steps in itertools.product((0, CLOCK - 4 * TICKS), ((2, 3), (3, 2), (3, 3))):
            pts = [pts_of(at, origin) for at in range(9)]
            packets = make_packets([*pts[:4], None, *pts[5:]], "-", gap_markers=[
                GapMarker(4, pts[3], 2, 0)], pcr_steps=[
                    PCRStep(pts[3], pts[5], frames * TICKS, 9, TICKS, 9, "broken")
                    for frames in steps])
            self.check(f"{origin} {steps}", [item.missing for item in find_loss_places(packets)],
                       [2 * TICKS])


class LatePts(Case):
    def test_the_pts_delay_and_lead_shorten_the_recorded_range(self) -> None:
        # Ticks by which PTS are ahead of the PCR, once a second; by how many ticks a PTS in the
        # last MAX_LATE samples is late at most, and in the first MAX_LATE samples ahead at most
        for samples, late, ahead in (
                (list[int](), 0, 0), ([9], 0, 9), ([-9], 9, 0), ([-9, -30, 5, 7, 6], 30, 7),
                ([-30, *[5] * MAX_LATE], 0, 5), ([*[5] * MAX_LATE, -30], 30, 5),
                ([-30, *[5] * (MAX_LATE - 1)], 30, 5), ([*[5] * MAX_LATE, 7], 0, 5),
                ([*[5] * (MAX_LATE - 1), 7], 0, 7)):
            packets = Packets(PID, samples=[(at * SECOND, sample)
                                            for at, sample in enumerate(samples)])
            self.check(f"{samples}", find_pts_delay(packets), late)
            known, last_pcr = Survey(), SECOND
            self.check(f"{samples}: no PCR", find_recorded_range(known, packets), None)
            known.programmes = [ProgramMap(1, PCR_PID, {PID: 6})]
            for first_pcr in (1000, CLOCK - 1, CLOCK - 8):
                known.clocks[PCR_PID] = first_pcr, last_pcr
                self.check(f"{samples}: range", find_recorded_range(known, packets),
                           ((first_pcr + ahead) % CLOCK, last_pcr - late))


class PaceOptions(Case):
    def test_passes_the_pace_to_check(self) -> None:
        for value, pace in (("none", None), ("1", 1), ("0025", 25), ("2160000", 2160000)):
            request = make_example_request("one.stl", "one.ts", "--pace", value)
            args = ["--pace", str(pace)] if pace else []
            self.check(value, (request.list_check_arguments(), request.pace, REQUEST.to_json(
                request)["pace"]), (["--complete", *args], pace, str(pace or "none")))
        request = make_example_request("one.stl", "one.ts")
        self.check("no --pace", REQUEST.to_json(request)["pace"], None)

    def test_rejects_a_pace_that_is_no_number_of_frames_of_a_day(self) -> None:
        for value in ("0", "", "-1", "x", "None", "2160001", "9" * 5000, "1.5", "\u0661"):
            with self.assertRaises(Stop, msg=value):
                make_example_request("one.stl", "one.ts", "--pace", value)


def format_names(definitions: Iterable[Definition]) -> str:
    return " ".join(f"{item.file.crate}.{item.name}" for item in definitions)


class ReadingLists(Case):
    """What somebody has to read in the files of dev/vectors/two-crates.txt to understand a
    definition or a clause."""

    def setUp(self) -> None:
        super().setUp()
        for name, text in read_files("two-crates.txt"):
            os.makedirs(os.path.dirname(self.path(name)), exist_ok=True)
            self.write(name, text.encode())
        self.library = Library(self.folder)

    def test_lists_definitions_after_their_dependencies(self) -> None:
        for name, expected in {
                "total": "low.size low.pair high.total",
                "high/Things.size": "high.size",
                "IsSize": "low.size high.IsSize",
                "count.exact": "low.size low.pair high.total",
                "high/count.other": "low.size high.size high.IsSize",
                "law": "low.size high.size high.IsSize",
                "count": "low.size low.pair high.size high.total high.IsSize"}.items():
            self.check(name, format_names(self.library.list_reading(name)[0]), expected)

    def test_counts_definitions_lines_without_comments_and_names_of_std(self) -> None:
        self.check("total", count_lines_to_read(*self.library.list_reading("total")), (3, 6, 2))

    def test_lists_definitions_before_their_dependencies(self) -> None:
        for name, expected in {
                "total": "high.total low.pair low.size", "law": "high.IsSize high.size low.size",
                "count": "high.total high.IsSize high.size low.pair low.size"}.items():
            self.check(name, format_names(self.library.sort_highest_first(name)), expected)

    def test_prints_the_names_of_std(self) -> None:
        with contextlib.redirect_stdout(io.StringIO()) as out:
            import_script("reading-list").print_external_names(
                self.library, self.library.list_reading("total")[1])
        self.check("printed", out.getvalue(),
                   "== types of the code\n\n== names of std\nℕ ◌+◌\n\n")

    def test_limits_the_lines_to_read(self) -> None:
        most_lines = {"total": 6, "high/count.other": 2}
        self.check("messages", [*find_long_readings(self.folder, most_lines)], [
            None, "high/count.other needs 6 lines to be read, at most 2 are allowed"])

    def test_refuses_ambiguous_and_unknown_names(self) -> None:
        for name, message in (("size", "high/Things.size"), ("none", "no definition"),
                              ("count.none", "clause")):
            with self.subTest(name), self.assertRaisesRegex(Stop, message):
                self.library.list_reading(name)

    def test_finds_clauses_of_the_index_that_the_sources_lack(self) -> None:
        index = "| one | two |\n| a | `high/count.other`, `high/law` |\n| b | `high/law` |\n"
        self.check("clauses", list_indexed_clauses(index), ["high/count.other", "high/law"])
        self.check("all exist", find_unknown_clauses(index, self.library), [])
        messages = find_unknown_clauses(index.replace("count.other", "count.gone"), self.library)
        self.must("one does not exist",
                  len(messages) == 1 and "high/count.gone is no" in messages[0], messages)
