"""Test the values that qc chooses by itself, and the options that --measure proposes."""
from __future__ import annotations

import itertools
import json
import os
import shlex
from collections import Counter
from typing import Any, Sequence

from developing.pes import make_pes_packet
from subtitles.cli.main import make_parser
from subtitles.cli.measure import (
    Delays, LateCue, MeasuredRecording, explain_omission, make_profile_lines)
from subtitles.common.command_line import version
from subtitles.common.program import TOP, read
from subtitles.common.times import TICKS
from subtitles.judging.status import RELATIVE, STATUSES
from subtitles.request.lines import read_profile
from subtitles.request.request import CHOICES, describe_option, make_request
from subtitles.stream.pace import PAUSED, Pace, REGULAR
from subtitles.stream.repeats import Repeats
from .bench import Case, get_example_path, read_example_file
from .judged import ProgrammeCase, judge_files
from .streams import OLD, Shape, make_planned_stream, make_multiplex, join_packets
from .parts import make_example_request
from .results import list_choice_errors
from .stories import read_vectors
from .transmissions import (
    ORIGIN, add_pauses, write_pipe, join_pes_packets, write_programme, schedule_pages,
    write_subtitle_file, subtitle_times)

TS = get_example_path("story.stl"), get_example_path("recording.ts")
PES = get_example_path("story.stl"), get_example_path("story.pes")
ORIGIN_CHOICE_TS = "origin", "5000000000", 5, 5, 1, "clock: 5 of 5 cues in the recording match, " \
    "5 with the expected text; the file has 5 cues; the next best is --origin 1678370000 with 2 " \
    "cues"
CUT = "pes", "2-6", 5, 7, 1, "range: 5 of 7 PES packets, from 20:15:00:00 to 20:15:09:00"
PID = "pid", "0x101", 7, 7, None, "PID 0x101: 7 of 7 PES packets have a header of page 888; no " \
    "other PID sends the page"
PACE = "pace", None, None, None, 1, "not checked: losses on this PID alone, since " \
    "there are too few PES packets to measure their interval"
LANGUAGE = "option", "english", None, None, None, "option: english, since the language of the " \
    "file (LC) is 09"
CHOICE_KEYS = ("option", "value", "matches", "total", "part", "line")
# Arguments, and the expected choices, with their values in the order of `CHOICE_KEYS`.
ROWS: dict[str, tuple[Sequence[str], list[tuple[Any, ...]]]] = {
    "a stream": (TS, [PID, ORIGIN_CHOICE_TS, CUT, PACE]),
    "a given PID": ((*TS, "--pid", "0x101"), [ORIGIN_CHOICE_TS, CUT, PACE]),
    "a given clock": ((*TS, "--origin", "5000000000"), [PID, CUT, PACE]),
    "both are given": ((*TS, "--pid", "0x101", "--origin", "5000000000"), [CUT, PACE]),
    "a subtitle file": ((TS[0],), []),
    "the language of a file": ((TS[0], "--option", "auto"), [LANGUAGE])}
LANGUAGES = {b"08": ("german", "the language of the file (LC) is 08"),
             b"0F": ("french", "the language of the file (LC) is 0F"),
             b"  ": ("english", "the language of the file (LC) is   "),
             b"\x1b[": ("english", r"the language of the file (LC) is \x1b["),
             None: ("english", "the file names no language (LC)")}


class Choices(Case):
    """qc chooses a PID, a clock, PES packets, a pace and a national option that are not given."""

    def list_choices(self, name: str, *words: str) -> list[tuple[Any, ...]]:
        """Judge a pair, and return the choices. Check that they are printed and complete."""
        judged = judge_files(self, *words)
        self.check(f"{name}: wrong choices",
                   [*list_choice_errors(judged.result, judged.printed)], [])
        choices = [tuple(choice[key] for key in CHOICE_KEYS) for choice in judged.result["choices"]]
        return sorted(choices, key=lambda values: CHOICES.index(values[0]))

    def test_lists_each_choice_with_its_evidence(self) -> None:
        for name, (words, expected) in ROWS.items():
            self.check(name, self.list_choices(name, *words), expected)

    def test_chooses_a_clock_and_a_range_for_each_part(self) -> None:
        """A break of 130 frames divides 24 subtitles into two parts."""
        stl = write_programme(self, subtitle_times(24))
        path = self.write("one.pes", join_pes_packets(add_pauses(schedule_pages(self, stl), 130)))
        first, second = f"{ORIGIN}", f"{ORIGIN + 130 * TICKS}"
        for name, words, clocks in (("no clock", (), [(first, 1), (second, 2)]),
                                    ("the clock of part 1", ("--origin", first), [(second, 2)])):
            choices = self.list_choices(name, stl, path, "--breaks", "1", "--every", "25", *words)
            self.check(f"{name}: clocks", [(value, part) for option, value, _, _, part, _ in choices
                                           if option == "origin"], clocks)
            self.check(f"{name}: ranges", [part for option, *_, part, _ in choices
                                           if option == "pes"], [1, 2])

    def test_chooses_the_pace_of_regular_pes_packets(self) -> None:
        """There is a PES packet in each frame from 100 to 6099."""
        stl = write_programme(self, subtitle_times(60))
        sent = dict(schedule_pages(self, stl))
        path = self.write("one.pes", join_pes_packets([
            (TICKS * frame, sent.get(TICKS * frame, [])) for frame in range(100, 6100)]))
        (_, pace, matches, total, part, line), = [
            choice for choice in self.list_choices("regular", stl, path, "--origin", "0")
            if choice[0] == "pace"]
        self.check("pace", (pace, part, line), (
            "1", 1, "pace: PES packets are at most 1 frame apart: --pace 1"))
        self.check("all intervals match", (matches == total, total > 5_000), (True, True))

    def test_chooses_no_pace_if_pes_packets_pause(self) -> None:
        """After 25 frames with PES packets, 35 frames have none except those of page changes."""
        stl = write_programme(self, subtitle_times(60))
        sent = dict(schedule_pages(self, stl))
        multiplex = make_multiplex([
            make_pes_packet(TICKS * (frame + 250), sent.get(TICKS * frame, []))
            for frame in range(100, 6100) if TICKS * frame in sent or frame % 60 < 25], Shape(100))
        path = self.write("one.ts", join_packets(multiplex))
        rows: list[tuple[tuple[str, ...], list[object]]] = [
            ((), [(None, None, None, 1)]), (("--pace", "none"), [])]
        for words, expected in rows:
            name = f"{words}"
            choices = self.list_choices(name, stl, path, "--origin", f"{TICKS * 250}", *words)
            paces = [choice for choice in choices if choice[0] == "pace"]
            self.check(f"{name}: pace", [choice[1:5] for choice in paces], expected)
            self.check(f"{name}: line", ["not checked: " in choice[5] for choice in paces],
                       [True] * len(expected))

    def test_chooses_english_if_a_file_cannot_be_read(self) -> None:
        for path in ("none.stl", self.folder):
            request = make_example_request(path, None, "--option", "auto")
            self.check(path, request.option, "english")

    def test_chooses_the_option_of_the_language_code(self) -> None:
        data = read_example_file("story.stl")
        for language, (option, why) in LANGUAGES.items():
            path = self.write(
                "one.stl", b"" if language is None else data[:14] + language + data[16:])
            request = make_request(make_parser("").parse_args([path, "--option", "auto"]))
            self.check(f"{language!r}", (request.option, describe_option(request)),
                       (option, f"option: {option}, since {why}"))

    def judge_batch(self, *words: str) -> list[dict[str, Any]]:
        """Judge a list with two pairs; only for the second pair, the list gives an option."""
        self.write("list", f"{' '.join(PES)}\n{' '.join(PES)} --option english".encode())
        process = self.tool("qc", "--batch", "list", "-o", "out", "-p", self.bench.program,
                            "--option", "auto", *words)
        self.check(f"{words}: status", process.status, STATUSES[RELATIVE])
        return [json.loads(self.read(f"out/{name}.json")) for name in ("story", "story~2")]

    def test_chooses_the_option_of_each_pair_of_a_batch(self) -> None:
        self.check("options", [
            [item["value"] for item in result["choices"] if item["option"] == "option"]
            for result in self.judge_batch()], [["english"], []])

    def test_resume_keeps_results_with_a_chosen_option(self) -> None:
        self.check("kept", self.judge_batch(), self.judge_batch("--resume"))

    def test_the_manual_lists_each_choice(self) -> None:
        manual = read(os.path.join(TOP, "docs", "manual", "qc.md")) or ""
        rule = manual.partition('<a id="what-qc-chooses">')[2].partition("<a id=")[0]
        rule = " ".join(rule.split())
        words = {"pid": "the PID that carries the page", "origin": "a clock",
                 "pes": "the PES packets of the programme", "pace": "a pace",
                 "option": "`--option`"}
        for what in CHOICES:
            self.must(what, words[what] in rule, rule)
        # Options that the user must give
        for option in ("layout", "within", "keeping", "breaks", "every", "option", "allow-lost",
                       "severity"):
            self.must(f"--{option}", f"`--{option}`" in rule, rule)


WORDS = "--origin", "0", "--every", "100"


class Magazines(Case):
    def test_judges_only_the_requested_page(self) -> None:
        """The texts of a subtitle file and other texts are sent on two pages of one PID."""
        stl = write_programme(self, subtitle_times(5))
        others = write_programme(self, subtitle_times(5), text=b"Another %d", name="other.stl")
        for magazine in range(1, 9):
            page, other = f"{magazine}88", "188" if magazine == 8 else "888"
            for page_of_texts, page_of_others, verdict in ((page, other, "accepted"),
                                                           (other, page, "refused")):
                texts = schedule_pages(self, stl, "--page", page_of_texts)
                path = self.write("both.pes", join_pes_packets([
                    (pts, [*some, *more]) for (pts, some), (_, more) in zip(
                        texts, schedule_pages(self, others, "--page", page_of_others))]))
                judged = judge_files(self, stl, path, "--page", page, *WORDS)
                self.check(f"{page}: {verdict}", (
                    judged.timed_verdict, judged.result["request"]["page"]), (verdict, page))
            # The last `texts` of the loop are on the other page.
            path = self.write("other.pes", join_pes_packets(texts))
            judged = judge_files(self, stl, path, "--page", page, *WORDS)
            self.check(f"{page}: not sent", judged.timed_verdict, "not judged")


ALL_ACCEPTED = "accepted 961 frames 49 transmissions; not checked: no_video, losses"
# The first of the PES packets that have another start code or length, and the last line. The page
# is sent in the PES packets up to 48. Fault 74: the recording ends before the last TCO.
TELETEXT_ENDS = {1: "refused 74 Late frame 00:00:04:00", 20: "refused 74 Late frame 00:00:19:10",
                 48: "refused 74 Late frame 00:00:42:00", 49: ALL_ACCEPTED, 52: ALL_ACCEPTED}


class ForeignPackets(ProgrammeCase):
    """From one PES packet on, the PID of the Teletext has other data: PES packets with the start
    code of another stream (fault 31), or with another PES_packet_length (fault 32)."""

    qc_args = WORDS

    def setUp(self) -> None:
        super().setUp()
        last, blank = self.sent[-1]
        self.pes += [make_pes_packet(last + 90_000 * at, blank) for at in range(1, 5)]

    def make_stream(self, first: int, fault: int) -> bytes:
        """Return a stream with the fault 31 or 32 in all PES packets from `first` on."""
        def list_carried_packets(at: int) -> list[tuple[int, bytes]]:
            item = self.pes[at]
            if at >= first:
                item = b"\0\0\1\xbf" + item[4:] if fault == 31 else \
                    item[:4] + (len(item) + 4).to_bytes(2, "big") + item[6:] + b"\xff" * 10
            return [(OLD, item)]

        return make_planned_stream(self.pes, [(0, OLD)], list_carried_packets)

    def test_reports_where_the_teletext_ends(self) -> None:
        for (number, word), (first, line) in itertools.product(
                ((31, "Start"), (32, "Length")), TELETEXT_ENDS.items()):
            data, last = self.make_stream(first, number), min(first, 49) - 1
            reason = f"from PES packet {first} on: refused {number} {word} pes {first}"
            for recording, words in ((self.write("one.ts", data), ()),
                                     (self.path("one.ts"), ("--pid", "0x101")),
                                     (write_pipe(self, data), ())):
                judged = judge_files(self, self.stl, recording, *WORDS, *words)
                name = f"{number} from {first} {recording} {words}"
                self.check(f"{name}: line", judged.verdict.line, line)
                self.check(f"{name}: reason", reason in judged.verdict.sentence, first < 49)
                self.check(f"{name}: PES packets", judged.parts("pes"), [(f"0-{last}",)])
                self.check(f"{name}: warnings", [warning for warning in judged.result["warnings"]
                                                 if warning["kind"] == "cut"], [])

    def test_judges_no_stream_without_teletext(self) -> None:
        judged = self.judge_stream(self.make_stream(first=0, fault=31))
        self.check("verdict", judged.timed_verdict, "not judged")
        self.must("reason", "no PES packets of private_stream_1" in judged.stderr[0], judged.stderr)


# First TCI (10:00:00:00), interval between TCIs, and duration, in frames
FIRST_TCI, DISTANCE, DURATION = 900_000, 100, 60
LINES = ("Good evening.", "Here", "is the news of today", "Thank you, Anne.", "Yes", "No no no")


# Layouts, each of which all subtitles of a recording show, and why it is not proposed, or an empty
# text if it is. The last is that without --layout.
PROPOSED_LAYOUTS = {
    "before=0B0B08": "all would flash",
    "before=0B": "receivers show a line only after two start boxes",
    "row=-10": "no site moves all by more than 2 rows",
    "row=-1": "", "before=0B0B06": "", "double,row=-1": "", "": ""}


ON_TIME = Delays(begins=Counter({0: 3}), ends=Counter({0: 3}), early=[], unseen=[])
LATE = Delays(begins=Counter({0: 1, 2: 1}), ends=Counter({1: 4}), early=[], unseen=[])
# `Pace(REGULAR, 1, 3)`: PES packets are a frame apart, and 3 frames if one is lost, so --pace is 2.
MEASURED = MeasuredRecording(
    pid="0x101", lines=[], repeats=[Repeats(9, 25, 7, 25)], paces=[Pace(REGULAR, 1, 3)],
    delays=[ON_TIME], headers=(9, 0), is_alone=True, option_bits={0}, sendings=[])


def make_number_text(number: int, margin: str = "") -> bytes:
    both = [f"{margin}{number} {LINES[(number + at) % len(LINES)]}{margin}" for at in (0, 1)]
    return "\x8a\x8a".join(both).encode("latin-1")


class Profiles(Case):
    """--measure prints the options with which recordings of correct subtitles are accepted.

    The subtitles have two lines each, in row 20 and below, and the subtitle numbers 0, 1 and so on.
    """

    def write_stl(self, name: str, margin: str = "", justify: int = 2, count: int = 12) -> str:
        begins = [FIRST_TCI + DISTANCE * number for number in range(count)]
        return write_subtitle_file(self, [
            (begin, begin + DURATION, make_number_text(number, margin))
            for number, begin in enumerate(begins)], name, first=0, row=20, justify=justify)

    def measure_profile(self, *args: str) -> list[str]:
        process = self.tool("qc", "--measure", *args)
        self.must(f"{args}", process.status == 0 and not process.errors, process)
        read_profile(self.write("profile", process.out))
        return process.out.decode().splitlines()

    def propose_options(self, *args: str) -> list[str]:
        return [line for line in self.measure_profile(*args) if not line.startswith("#")]

    def test_a_measured_profile_accepts_its_recording(self) -> None:
        """Subtitles are 0, 1 or 2 frames late, in turn. The in-cue at the start is not counted."""
        stl = self.write_stl("one.stl")
        sent = schedule_pages(self, stl, "--layout", "fit,after=0A")
        for at, (pts, packets) in enumerate(sent):
            number, rest = divmod(pts // TICKS - FIRST_TCI, DISTANCE)
            if rest == 0 and 0 <= number < 12:
                sent[at] = pts + TICKS * (number % 3), packets
        pes = self.write("one.pes", join_pes_packets(sent))
        self.check("proposed", self.propose_options(stl, pes, "--origin", "0"), [
            "--page 888", "--option english", "--every 25", "--within 2",
            "--late 0:3,1:4,2:4/0:12", "--layout after=0A"])
        again = judge_files(self, stl, pes, "--origin", "0", "--profile", self.path("profile"))
        self.check("verdict", again.timed_verdict, "accepted")
        self.check("delays", again.result["complete_after"], {
            "minimum": 0, "median": 1, "maximum": 2, "never_complete": 0})

    def test_proposes_a_layout_unless_it_is_implausible(self) -> None:
        stl = self.write_stl("one.stl")
        for layout, reason in PROPOSED_LAYOUTS.items():
            pes = self.schedule(stl, "one.pes", "--every", "25",
                                *["--layout", layout] * bool(layout))
            lines = self.measure_profile(stl, pes)
            self.check(f"{layout}: proposed", [line for line in lines
                                               if line.startswith("--layout")],
                       [f"--layout {layout}"] * bool(layout and not reason))
            self.must(f"{layout}: reason", any(line.endswith(f"more of 12: {reason}")
                                               for line in lines) or not reason, lines)

    def test_shows_the_evidence_against_a_layout(self) -> None:
        stl = self.write_stl("one.stl")
        against = f"# against it: {stl}, subtitle 1 (SN 0) at 10:00:00:00: sent row "
        for name, margin, justify, words, printed in (
                ("spaces", " ", 2, (), "a space is in the box in 12 of the 12 others"),
                ("block", "", 1, ("--layout", "left=9"),
                 "lines form a block, aligned left, in ")):
            sent = schedule_pages(self, self.write_stl(f"{name}.stl", margin, justify), *words)
            lines = self.measure_profile(stl, self.write("one.pes", join_pes_packets(sent)))
            self.check(f"{name}: proposed", [line for line in lines
                                             if line.startswith("--layout")], [])
            # Of the 12 subtitles, 5 are listed.
            for part in (printed, "The nearest, ", against, "# against it: 7 more"):
                self.must(f"{name}: {part}", any(part in line for line in lines), lines)

    def test_names_a_subtitle_with_another_layout(self) -> None:
        stl = self.write_stl("one.stl")
        usual, other = schedule_pages(self, stl, "--layout", "after=0A"), schedule_pages(self, stl)
        tci_pts = (FIRST_TCI + 3 * DISTANCE) * TICKS
        mixed = [second if tci_pts <= first[0] < tci_pts + DURATION * TICKS else first
                 for first, second in zip(usual, other)]
        lines = self.measure_profile(stl, self.write("one.pes", join_pes_packets(mixed)))
        against = [line for line in lines if line.startswith("# against it: ")]
        self.must("one", "--layout after=0A" in lines and len(against) == 1 and
                  f"{stl}, subtitle 4 (SN 3) at 10:00:12:00: sent row 20" in against[0], lines)
        self.must("evidence", "# layout: 11 of 12 subtitles as they were sent; after=0A is based "
                  "on 12, of which 11 were sent so" in lines, lines)

    def test_measures_all_pairs_together(self) -> None:
        """Two pairs have six subtitles each. A layout is only proposed if at least ten show it."""
        paths = []
        for number, every in enumerate((25, 50)):
            stl = self.write_stl(f"{number}.stl", count=6)
            self.schedule(stl, f"{number}.pes", "--every", str(every), "--layout", "after=0A")
            paths += [stl, self.path(f"{number}.pes")]
        result = self.propose_options(*paths)
        self.must("both", "--every 50" in result and "--layout after=0A" in result, result)
        alone = self.propose_options(*paths[:2])
        self.must("one", "--every 25" in alone and "--layout after=0A" not in alone, alone)

    def test_proposes_only_options_that_fit_all_recordings(self) -> None:
        request = make_example_request("a.stl", "a.ts", "--origin", "0")
        same = ["--page 888", "--pid 0x101", "--option english", "--every 25", "--pace 2"]
        # What differs in a second recording, the option that is no longer proposed for both, and
        # new options. Polish has the control bits of English, and the letter CE 61.
        rows: list[tuple[dict[str, Any], str, str]] = [
            ({}, "", ""), ({"pid": "0x102"}, "--pid 0x101", ""), ({"pid": None}, "--pid 0x101", ""),
            ({"option_bits": {4}}, "--option english", ""),
            ({"option_bits": {0, 4}}, "--option english", ""),
            ({"option_bits": set()}, "", ""), ({"repeats": []}, "", ""),
            ({"texts": {b"\xcea"}}, "--option english", "--option polish"),
            ({"repeats": [Repeats(9, 50, 7, 25)]}, "--every 25", "--every 50"),
            ({"paces": [Pace(REGULAR, 2, 5)]}, "--pace 2", "--pace 4"),
            ({"paces": [Pace(PAUSED, 2, 5)]}, "--pace 2", ""),
            ({"delays": [LATE]}, "", "--within 2|--late 0:4,2:1/0:3,1:4"),
            ({"headers": (9, 4)}, "", "--keeping"),
            ({"headers": (9, 4), "is_alone": False}, "", ""), ({"is_alone": False}, "", "")]
        for changes, missing, new in rows:
            expected = {*same, *filter(None, new.split("|"))} - {missing}
            for both in itertools.permutations((MEASURED, MEASURED._replace(**changes))):
                lines = [*make_profile_lines([request, request], both)]
                result = [line for line in lines if not line.startswith("#")]
                self.check(f"{changes}", sorted(result), sorted(expected))

    def test_prints_the_evidence_of_all_recordings(self) -> None:
        """Of four recordings, the first two have a clock. The other two are also measured alone."""
        requests = [make_example_request(f"{name}.stl", f"{name}.ts", *words) for name, *words in (
            ("a b", "--origin", "0"), ("b", "--start", "10:00:00:00"), ("c",), ("d",))]
        early = LATE._replace(early=["b begins early"], unseen=["b"],
                              late=[LateCue(2, "b begins late")])
        rows = [*read_vectors("profile-lines.tsv")]
        for name, measured in {
                "four": (requests, [
                    MEASURED._replace(lines=["one", "both"], headers=(20, 1)),
                    MEASURED._replace(
                        lines=["two", "both"], repeats=[Repeats(8, 50, 9, 26, [(75, 60), (5, 30)])],
                        paces=[Pace(REGULAR, 2, 5)], delays=[early], headers=(30, 2),
                        off_frame=(1, 40)),
                    MEASURED._replace(delays=[LATE], off_frame=(0, 30), is_alone=False),
                    MEASURED._replace(repeats=[Repeats(3, 40, 9, None)])]),
                "two": (requests[2:], [
                    MEASURED._replace(pid=None, paces=[Pace(PAUSED, 2, 5)], headers=(9, 5),
                                      option_bits={0, 4}),
                    MEASURED._replace(is_alone=False, paces=[Pace(PAUSED, 2, 5)], repeats=[],
                                      off_frame=(3, 60))])}.items():
            lines = [line.replace(version(), "VERSION") for line in make_profile_lines(*measured)]
            self.check(name, lines, [row["line"] for row in rows if row["recordings"] == name])

    def test_refuses_wrong_arguments(self) -> None:
        """copy is the subtitle file without its ending, and text.STL is no subtitle file."""
        for name, data in (("one.stl", read_example_file("story.stl")), ("none.pes", b""),
                           ("one.pes", read_example_file("story.pes")), ("text.STL", b"text"),
                           ("copy", read_example_file("story.stl")), ("list", b"one.stl none.ts"),
                           ("bad list", b"one.stl one.pes --bad")):
            self.write(name, data)
        for row in read_vectors("measure-calls.tsv"):
            process = self.tool("qc", "--measure", *shlex.split(row["arguments"]))
            self.check(row["name"], (process.status, process.out, process.errors),
                       (int(row["status"]), b"", [f"qc: {row['message']}"]))

    def test_explains_why_a_layout_is_not_proposed(self) -> None:
        for text, reason in (
                ("strip=03", "it removes something that viewers see"),
                ("after=0A", "10 subtitles have to show it, 9 in 10 of them as they were sent")):
            self.check(text, explain_omission(text), reason)
