"""Test the output of --measure: delays of cues, and profiles for recordings with several parts."""
from __future__ import annotations

import itertools
import random
import re
from collections import Counter
from typing import Iterable

from developing.pes import make_packet
from subtitles.cli.measure import (
    Delays, Finding, LateCue, MAX_EXAMPLES, find_sent_options, format_name_lines, list_refused,
    list_separate_cues, measure_delays, measure_recording, propose_keeping, propose_lateness,
    propose_option, remove_unusual)
from subtitles.common.command_line import MAX_WITHIN
from subtitles.common.times import FRAMES_OF_A_DAY, TICKS
from subtitles.formats.stl import Subtitle
from subtitles.formats.teletext import OPTION_BY_WORD
from subtitles.request.commands import CommandPaths
from subtitles.stream.repeats import measure_repeats
from subtitles.stream.packets import Packets
from subtitles.stream.receiver import BLANK_PAGE, Timeline
from .bench import Case
from .judged import judge_files
from .parts import make_example_request
from .inserters import INSERTERS, BLANK_FRAMES, Inserter, Programme
from .stories import read_vectors
from .transmissions import (
    ORIGIN, PAGE, add_pauses, join_pes_packets, write_programme, schedule_pages, subtitle_times)
from .test_judging_reasons import KEEPING_HEADER

GERMAN_HEADER = make_packet(0, 0, bytes([8, 8, 0, 8, 0, 8, 1, 8]), b" " * 32)
GERMAN_KEEPING = make_packet(0, 0, bytes([8, 8, 0, 0, 0, 8, 1, 8]), b" " * 32)


class Cues(Case):
    def test_measures_delays_and_lists_early_cues_and_unsent_subtitles(self) -> None:
        for row in read_vectors("delays.tsv"):
            subtitles = [Subtitle(at, at, int(begin), int(end), 20, 2, text.strip("-").encode())
                         for at, (text, begin, end) in enumerate(
                             re.findall(r"(\S) (\d+)-(\d+)", row["subtitles"]), 1)]
            decoded = Timeline(Packets(0), PAGE, 0)
            decoded.first, decoded.last = map(int, (row["received"] or "0-999").split("-"))
            decoded.record_page(decoded.first, BLANK_PAGE)
            for frame, text in re.findall(r"(\d+) (\S)", row["on air"]):
                decoded.record_page(int(frame), (text.strip("-").encode().ljust(40),
                                                 *BLANK_PAGE[1:]))
            found = measure_delays("x.stl", subtitles, decoded, OPTION_BY_WORD["english"])
            for column, delays in ("in-cues", found.begins), ("out-cues", found.ends):
                self.check(f"{row['name']}: {column}", delays,
                           Counter(map(int, row[column].split())))
            self.check(f"{row['name']}: early", ", ".join(
                line.partition(" at 00:00:04:00 ")[2] for line in found.early), row["early"])
            self.check(f"{row['name']}: unsent", " ".join(
                line.split()[2] for line in found.unseen), row["unsent"])


def join_options(findings: Iterable[Finding]) -> str:
    return "|".join(finding.text for finding in findings if finding.text)


class Proposals(Case):
    """The options that --measure proposes from delays in frames, headers and repeats."""

    def test_proposes_the_longest_delay_of_all_recordings(self) -> None:
        most, without_cues = MAX_WITHIN, Delays(Counter(), Counter(), ["z"], [])
        # Delays of in-cues and of out-cues, and the options: none if a list is empty, if all are 0,
        # or if one is more than MAX_WITHIN
        rows: list[tuple[list[int], list[int], str]] = [
            ([0, 0], [0], ""), ([0, 2], [1], "--within 2|--late 0:1,2:1/1:1"),
            ([0], [3], "--within 3|--late 0:1/3:1"), ([2], [], ""), ([], [2], ""),
            ([most], [0], f"--within {most}|--late {most}:1/0:1"), ([most + 1], [0], ""),
            ([0], [most + 1], "")]
        for begins, ends, options in rows:
            item = Delays(Counter(begins), Counter(ends), ["x"], ["y"])
            for several in ([item], [item, without_cues], [without_cues, item]):
                result = [*propose_lateness(several, [])]
                name = f"in-cues {begins}, out-cues {ends}, {len(several)} recordings"
                self.check(name, join_options(result), options)
                lines = [line for finding in result for line in finding.lines]
                self.check(f"{name}: is the limit mentioned", any(
                    f"within can be at most {most} frames" in line for line in lines),
                    most + 1 in (*begins, *ends))
                early = "; ".join(cue for delays in several for cue in delays.early)
                self.must(f"{name}: early cues, unsent text", {
                    f"early, which no option accepts: {early}", "text never sent: y"} <= {*lines})

    def test_proposes_within_1_if_a_twentieth_of_the_pts_are_off_frame(self) -> None:
        on_time = [Delays(Counter([0]), Counter([0]), [], [])]
        rows: list[tuple[list[Delays], int, str]] = [  # delays, PTS off frame of 100, options
            (on_time, 0, ""), (on_time, 4, ""), ([], 4, ""),
            (on_time, 5, "--within 1|--late 0:1/0:1"), ([], 5, "--within 1"),
            ([Delays(Counter(), Counter([0]), [], [])], 5, "--within 1"),
            ([Delays(Counter([3]), Counter([0]), [], [])], 50, "--within 3|--late 3:1/0:1")]
        for delays, off_frame, options in rows:
            self.check(f"{delays}, {off_frame} off", join_options(
                propose_lateness(delays, [], (off_frame, 100))), options)

    def test_names_at_most_the_first_examples(self) -> None:
        names = [f"n{at}" for at in range(MAX_EXAMPLES + 2)]
        self.check("no names", format_name_lines("what", []), [])
        for count, end in ((MAX_EXAMPLES, ""), (MAX_EXAMPLES + 1, ", and 1 more"),
                           (MAX_EXAMPLES + 2, ", and 2 more")):
            self.check(f"{count} names", format_name_lines("what", names[:count]),
                       [f"what: {'; '.join(names[:MAX_EXAMPLES])}{end}"])

    def test_proposes_keeping_if_a_twentieth_of_the_headers_keep_the_page(self) -> None:
        for headers, keeping, is_alone in itertools.product((9, 20, 21), (0, 1), (False, True)):
            finding = propose_keeping(headers, keeping, is_alone)
            self.check(f"{keeping} of {headers} headers, no other control bit is wrong: {is_alone}",
                       finding.text, "--keeping" if keeping and headers < 21 and is_alone else "")

    def test_ignores_delays_of_fewer_than_one_cue_in_twenty(self) -> None:
        """The longest delays are ignored if together they have fewer than a twentieth of the cues.
        Arguments and results map each delay in frames to its number of cues."""
        self.check_rows(lambda delays: dict(remove_unusual(Counter(delays))), {
            "none": (({},), {}), "one alone": (({5: 1},), {5: 1}),
            "one of twenty": (({0: 19, 5: 1},), {0: 19, 5: 1}),
            "one of 21": (({0: 20, 5: 1},), {0: 20}),
            "two of 40, each alone": (({0: 38, 4: 1, 5: 1},), {0: 38, 4: 1}),
            "a tail": (({0: 45, 1: 4, 2: 1},), {0: 45, 1: 4})})

    def test_names_a_cue_that_is_later_than_proposed(self) -> None:
        """If it is one of 20, --within 5 is proposed, but it is named, since it may be wrong."""
        late = Delays(Counter({0: 89, 5: 1}), Counter({0: 90}), [], [],
                      [LateCue(5, "x begins late")])
        result = [*propose_lateness([late], [])]
        self.check("one of 90", ("".join(item.text for item in result), result[0].lines[1]), (
            "", "later than usual, which check refuses with this --within: x begins late"))
        late = Delays(Counter({0: 19, 5: 1}), Counter({0: 19, 5: 1, 9: 1}), [], [], [
            LateCue(5, "x"), LateCue(5, "y", False), LateCue(9, "z", False)])
        self.check("one of 20", next(propose_lateness([late], [])).lines[1:], [
            "later than usual, which check refuses with this --within: z",
            *(f"1 of 20 {cues} is at least 5 frames late, the others at most 0; they may be wrong: "
              f"{name}" for cues, name in (("in-cues", "x"), ("out-cues", "y")))])

    def test_names_the_cues_whose_delays_are_separate(self) -> None:
        for row in read_vectors("separate-delays.tsv"):
            delays = Counter(map(int, row["delays"].split()))
            late = [LateCue(delay, f"{delay} late") for delay in delays.elements()]
            self.check(row["name"], list_separate_cues(delays, "in-cues", late),
                       [*filter(None, [row["line"]])])

    def test_proposes_the_option_of_all_headers(self) -> None:
        for row in read_vectors("measured-options.tsv"):
            sent = find_sent_options([*map(int, row["C12 to C14"].split())], "english",
                                     [b"A", bytes.fromhex(row["text"])])
            self.check(row["name"], propose_option(sent, "english"), (row["option"], [row["line"]]))

    def test_a_lost_repeat_is_an_exception(self) -> None:
        """Headers in `frames`: the longest usual interval, and longer ones (frame, length) if fewer
        than a twentieth are longer."""
        for name, frames, longest, exceptions in (
                ("one is lost", [*range(0, 400, 25), *range(425, 900, 25)], 25, [(375, 50)]),
                ("one of twenty", [*range(0, 400, 25), *range(425, 550, 25)], 50, []),
                ("none is lost", [*range(0, 900, 25)], 25, []),
                ("some are longer", [at for at in range(0, 900, 25) if at % 100 != 50], 50, [])):
            repeats = measure_repeats([TICKS * frame for frame in frames], None, 0, [(0, 900)])
            self.check(name, repeats and (repeats.longest, repeats.exceptions),
                       (longest, exceptions))


class Parts(Case):
    """A recording of 24 subtitles in two parts, with a break of 130 frames between them."""

    def test_measures_each_part_of_a_recording(self) -> None:
        """One part lacks a repeat, has an in-cue 2 frames late, or two headers with other bits."""
        stl = write_programme(self, subtitle_times(24))
        sent = schedule_pages(self, stl)
        repeats = [next(at for at, (pts, _) in enumerate(sent) if pts == frame * TICKS)
                   for frame in (425, 1225)]  # frame of a repeat in each part
        headers = {"keeping": KEEPING_HEADER, "german": GERMAN_HEADER}
        for number, (part, what) in enumerate(itertools.product(
                (0, 1), ("missing", "late", *headers))):
            repeat, changed = repeats[part], [*sent]
            if what == "late":
                changed[repeat - 1] = (sent[repeat - 1][0] + 2 * TICKS, sent[repeat - 1][1])
            elif what == "missing":
                del changed[repeat]
            else:
                for at in (repeat, repeat + 1):
                    changed[at] = (sent[at][0], [headers[what], *sent[at][1][1:]])
            path = self.write("one.pes", join_pes_packets(add_pauses(changed, 130)))
            measured = measure_recording(
                make_example_request(stl, path, "--breaks", "1", "--origin", f"{ORIGIN}"),
                CommandPaths("tools/qc", self.bench.program), self.path(f"{number}"))
            name, both = f"{what} in part {part}", (0, 1)
            self.check(f"{name}: longest intervals, missing repeats", [
                (item.longest, len(item.exceptions)) for item in measured.repeats],
                [(25, int(what == "missing" and part == at)) for at in both])
            self.check(f"{name}: all headers, keeping headers", measured.headers,
                       (len(changed), 2 * (what == "keeping")))
            self.check(f"{name}: are other control bits right", measured.is_alone, what != "german")
            self.check(f"{name}: C12 to C14", measured.option_bits, {0, *[4] * (what == "german")})
            self.check(f"{name}: in-cues that are 2 frames late",
                       [item.begins[2] for item in measured.delays],
                       [int(what == "late" and part == at) for at in both])
            self.must(f"{name}: no subtitle is unsent or early", not any(
                item.unseen or item.early for item in measured.delays), measured.delays)
            self.check(f"{name}: paces, subtitles sent",
                       (len(measured.paces), len(measured.sendings)), (2, 24))


SEEDS, ALL_SEEDS = 20, 200  # number of random programmes, and their number with --speed
ACCEPTED = "# With this profile, qc refuses none of these recordings."


class Profiles(Case):
    """The profile that `qc --measure` prints for recordings of random programmes."""

    def profile(self, *programme: Programme, more: str = "") -> tuple[list[str], list[str]]:
        """Measure recordings with qc, given a list with the options `more`. Return the lines of the
        profile and the recordings' paths."""
        paths = [self.write(f"{item.number}.pes", join_pes_packets(item.sent()))
                 for item in programme]
        lines = [f"{item.stl} {path} --origin 0 {more}" for item, path in zip(programme, paths)]
        listed = self.write("list", "\n".join(lines).encode())
        process = self.tool("qc", "--measure", listed, "-p", self.bench.program)
        self.check("status", (process.status, process.errors), (0, []))
        self.write("profile", process.out)
        return process.out.decode().splitlines(), paths

    def test_accepts_its_own_recordings_or_lists_others(self) -> None:
        for seed in range(ALL_SEEDS if self.bench.is_timed else SEEDS):
            self.check_profile_of(seed)

    def check_profile_of(self, seed: int) -> None:
        """Check that the profile of one or two random programmes accepts them or lists them."""
        chance = random.Random(seed)
        inserter = chance.choice(INSERTERS)
        programmes = [Programme(self, 10 * seed + number, inserter)
                      for number in range(chance.choice((1, 2)))]
        lines, paths = self.profile(*programmes)
        refused = [line for line in lines if "# With this profile, qc does not accept " in line]
        name = f"{seed}, {inserter.name}"
        self.check(f"{name}: last line", lines[-1] == ACCEPTED, not refused)
        for item, path in zip(programmes, paths):
            result = judge_files(self, item.stl, path, "--profile", self.path("profile"),
                                 "--origin", "0")
            self.check(f"{name}: {result.verdict.sentence}", result.timed_verdict == "accepted",
                       not any(path in line for line in refused))

    def test_allows_off_frame_pts_of_two_packets_a_frame(self) -> None:
        made = [Programme(self, number, Inserter("two a frame", each=2)) for number in (0, 1)]
        lines, _ = self.profile(*made)
        self.check("accepted", ("--within 1" in lines, lines[-1]), (True, ACCEPTED))

    def test_does_not_allow_a_single_off_frame_pts(self) -> None:
        single = Programme(self, 2, Inserter("one a frame"))
        sent = single.sent()
        late_ticks = 7
        sent[BLANK_FRAMES] = (sent[BLANK_FRAMES][0] + late_ticks, sent[BLANK_FRAMES][1])
        process = self.tool("qc", "--measure", single.stl,
                            self.write("one.pes", join_pes_packets(sent)), "--origin", "0", "-p",
                            self.bench.program)
        self.check("messages about PTS", [line.partition(" PTS ")[2] for line in process.out.decode(
            ).splitlines() if line.startswith("# within: 1 of ")],
                   ["differ from their frames, which check refuses with --within 0 (fault 61)"])

    def test_names_an_unusual_delay_and_refuses_it(self) -> None:
        """In-cues are 0 or 1 frame late, except that of one subtitle, which is later. The profile
        lacks an option that would accept it."""
        for begins, more, within in ((0, 0, 1), "", ["--within 1"]), ((0,), "--within 50", []):
            programme = Programme(self, 7, Inserter("usual", begins=begins), 40)
            late = programme.delay_random_subtitle()
            lines, _ = self.profile(programme, more=more)
            name = f"subtitle {late.place + 1} at "
            self.check(f"within {more}", [line for line in lines if line.startswith("--within")],
                       within)
            self.check(f"named {more}", [name in line for line in lines
                                         if "later than usual" in line], [True])
            self.check(f"refused {more}", ": Refused: subtitle " in lines[-1]
                       and name[:-4] in lines[-1], True)

    def test_lists_a_recording_that_is_not_judged_with_the_profile(self) -> None:
        stl = write_programme(self, subtitle_times(2))
        path = self.write("one.pes", join_pes_packets(schedule_pages(self, stl)))
        requests = [make_example_request(stl, path, "--origin", "0", "--page", page)
                    for page in ("888", "100")]  # only page 888 is sent
        lines = [*list_refused(requests, CommandPaths("tools/qc", self.bench.program),
                               self.folder)]
        self.check("lines", [line.rpartition(f"{path}: ")[2] for line in lines], [
            "Not judged: the recording does not contain the page at the time of the subtitles"])

    def test_measures_no_programme_over_midnight(self) -> None:
        midnight = write_programme(self, [(FRAMES_OF_A_DAY - 100, FRAMES_OF_A_DAY - 50), (50, 100)])
        sent = self.write("one.pes", join_pes_packets(schedule_pages(self, write_programme(
            self, subtitle_times(2), name="two.stl"))))
        call = self.tool("qc", "--measure", midnight, sent, "--origin", "0")
        self.must("reason", call.status == 2 and "run over midnight" in call.errors[0], call)

    def test_decodes_by_the_option_that_it_proposes(self) -> None:
        """C12 to C14 of all headers select german. Some headers clear C4 (erase page) too."""
        stl = write_programme(self, subtitle_times(12))
        sent = [(pts, [GERMAN_KEEPING if pts // TICKS % 100 in (25, 50) else GERMAN_HEADER,
                       *packets[1:]]) for pts, packets in schedule_pages(self, stl)]
        process = self.tool("qc", "--measure", stl,
                            self.write("one.pes", join_pes_packets(sent)), "-p", self.bench.program)
        lines = process.out.decode().splitlines()
        self.check("profile", [line in lines for line in ("--option german", "--keeping")],
                   [True, True])
        self.check("accepted", lines[-1], ACCEPTED)
