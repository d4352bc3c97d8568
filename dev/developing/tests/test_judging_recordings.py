"""Test recordings in PES files, transport streams and pipes, with missing or foreign data."""
from __future__ import annotations

import gzip
import hashlib
import os
import re
import shlex

from developing.pes import make_pes_packet, decode_pts
from subtitles.common.times import TICKS, format_frame, wrap_pts
from subtitles.formats.stl import GSI, TTI
from subtitles.judging.coverage import describe_unchecked
from subtitles.results.schema import find_misfit
from .bench import Case, read_example_file
from .judged import judge_files
from .stories import read_vectors
from .streams import (
    NEW, OLD, TELETEXT_PID, make_stream_with_video, make_stream_of_pids, make_planned_stream,
    change_packet_size, make_teletext_descriptor)
from .transmissions import (
    HEADER, ORIGIN, add_pauses, write_pipe, join_pes_packets, replace_pts, packets, write_programme,
    make_random_stl, schedule_pages, subtitle_times)
from .test_judging_pairs import ACCENT, HELLO, STORY, damage_packet

PES, STL = read_example_file("story.pes"), read_example_file("story.stl")
STREAM = make_stream_of_pids((TELETEXT_PID, PES))  # without a picture
TEXT_AT = 16  # offset of the text field in a TTI block
STRICT = "not accepted, since --strict treats warnings as faults"


class Recordings(Case):
    """examples/story.stl has three subtitles from 20:15:00:00 to 20:15:09:00. story.pes, also as
    the transport stream `STREAM`, is its correct transmission: frame 0 has the PTS 0."""

    def test_judges_all_kinds_of_recordings_the_same(self) -> None:
        five = list(packets(read_example_file("five-faults.pes")))
        for at in (2, 3, 7):
            five[at] = damage_packet(five[at], 37)
        self.schedule(STORY, "every.pes", "--every", "25")
        slow = replace_pts(self.read("every.pes"), lambda _, pts: pts + 8 * TICKS * (
            pts == 1_822_675 * TICKS))  # the page of subtitle 3, 20:15:07:00
        # Name, PES packets, --every, and the expected numbers of faults and causes, and last line.
        for name, data, every, faults, causes, last in (
                ("right", PES, "250", 0, 0,
                 "accepted 226 frames 5 transmissions; not checked: no_video, losses"),
                ("five faults", b"".join(five), "25", 8, 2,
                 "refused 67 Control frame 20:15:01:00 packet 0"),
                ("late", slow, "25", 1, 1,
                 "refused 72 Content frame 20:15:07:00 row 22 column 16")):
            stream = make_stream_of_pids((TELETEXT_PID, data))
            check_lines = set[tuple[str, ...]]()
            # A file or a pipe, and the name of the copy that qc stores of a pipe's data.
            for recording, copy in (
                    (self.write("one.pes", data), ""), (self.write("one.ts", stream), ""),
                    (write_pipe(self, data), "one.recording.pes"),
                    (write_pipe(self, stream), "one.recording.ts --pid 0x101")):
                judged = judge_files(self, STORY, recording, "--every", every, "--origin", "0")
                check_lines.add(tuple(judged.check_lines))
                self.check(f"{name} {recording}", (
                    judged.printed[-1], judged.verdict.fault_count, len(judged.lines("cause: "))),
                    (last, faults, causes))
                self.check(f"{name} {recording}: part", judged.parts("origin", "from", "to"),
                           [(0, "20:15:00:00", "20:15:09:00")])
                if copy:
                    every_option = f" --every {every}" * (every != "250")
                    self.check(f"{name} {recording}: command", [
                        re.sub(r"\d+-\d+", "I-J", line, count=1) for line in judged.lines("+ ")],
                        [f"{self.bench.program} check {STORY} {copy} --pes I-J{every_option} "
                         "--complete --all"])
            self.must(f"{name}: the same list", len(check_lines) == 1, check_lines)

    def test_warns_without_changing_the_status_unless_strict(self) -> None:
        french = self.write("french.stl", STL[:14] + b"00" + STL[16:])  # no known language code
        # The subtitle file, the PMT's descriptor, the ticks of a PTS ahead of the PCR, and the
        # kinds of the expected warnings.
        rows: list[tuple[str, bytes, int, list[str]]] = [
            (STORY, make_teletext_descriptor(), 0, []),
            (STORY, make_teletext_descriptor(), 90_000, []),
            (STORY, make_teletext_descriptor(), -1, ["pts_behind"]),
            (STORY, make_teletext_descriptor(), 90_001, ["pts_early"]),
            (STORY, make_teletext_descriptor(kind=5), 9, []),
            (STORY, make_teletext_descriptor(page=0x89), 9, ["page"]),
            (STORY, b"\x0a\x04eng\0", 9, ["page"]),  # a descriptor without pages
            (STORY, make_teletext_descriptor(kind=1), 9, ["type"]),
            (STORY, make_teletext_descriptor(b"ice"), 9, ["language"]),
            (STORY, make_teletext_descriptor(b"ger") + make_teletext_descriptor(), 9, []),
            (STORY, make_teletext_descriptor(b"\x1b[2"), -1, ["pts_behind", "language"]),
            (french, make_teletext_descriptor(b"fre"), 9, ["option"])]
        for stl, descriptor, ahead, kinds in rows:
            name = f"{descriptor!r} {ahead}"
            path = self.write("one.ts", make_stream_with_video(PES, descriptor, ahead))
            judged = judge_files(self, stl, path, "--origin", "0")
            warned = judged.result["warnings"]
            self.check(name, (judged.timed_verdict, [item["kind"] for item in warned]),
                       ("accepted", kinds))
            self.check(f"{name}: lines", judged.lines("! warning: "),
                       [item["line"] for item in warned])
            if kinds == ["type"]:
                self.check(f"{name}: line", warned[0]["line"],
                           'the PMT announces page 888 as "initial page", not as subtitles')
            strict = judge_files(self, stl, path, "--origin", "0", "--strict")
            self.check(f"{name}: strict", strict.timed_verdict, "warned" if kinds else "accepted")
            self.check(f"{name}: strict line", strict.printed[-1].startswith(
                f"{STRICT} ({', '.join(kinds)}): "), bool(kinds))

    def test_warns_of_a_recording_that_is_cut_within_a_pes_packet(self) -> None:
        later = make_pes_packet(decode_pts(packets(PES)[-1]) + 100 * TICKS,
                                [HEADER] * 5)  # this PES packet fills two TS packets
        cut_stream = make_stream_of_pids((TELETEXT_PID, PES + later))[:-188]
        for name, data, kinds in (("a cut file", PES + later[:100], ["cut"]),
                                  ("a cut stream", cut_stream, ["cut"]),
                                  ("a complete stream", STREAM, [])):
            judged = judge_files(self, STORY, self.write("cut.rec", data), "--origin", "0")
            self.check(name, (judged.timed_verdict, [
                item["kind"] for item in judged.result["warnings"]]), ("accepted", kinds))

    def test_strict_rejects_a_subtitle_file_without_its_last_block(self) -> None:
        cut = self.write("cut.stl", STL[:-128])
        line = judge_files(self, cut, "--strict").printed[-1]
        self.must("counts", line.startswith(f"{STRICT} (blocks, subtitles): "), line)

    def test_judges_a_pipe_in_parts(self) -> None:
        stl = write_programme(self, subtitle_times(24))
        data = join_pes_packets(add_pauses(schedule_pages(self, stl), 1000))  # a break, in frames
        judged = judge_files(self, stl, write_pipe(self, data), "--breaks", "1")
        self.check("in two parts", (judged.timed_verdict, judged.parts("origin")),
                   ("accepted", [(ORIGIN,), (ORIGIN + 1000 * TICKS,)]))
        self.check("commands", [f" check {stl} one.recording.pes " in line
                                for line in judged.lines("+ ")], [True] * 2)
        unchecked = [*describe_unchecked(judged.verdict)]
        self.check("the report lists what was not checked once for both parts", unchecked,
                   [*dict.fromkeys(unchecked)])

    def test_leaves_jumps_of_the_clock_out_of_times_into_the_recording(self) -> None:
        """A blank page is sent twice in 10 seconds, and then a subtitle 4 seconds after PTS 0."""
        stl = write_programme(self, subtitle_times(1))
        sent = schedule_pages(self, stl)
        # The first PTS in hours, and the time from it to the subtitle as H:MM:SS. A step forward by
        # less than an hour is no jump.
        for hours, time in ((1, "0:00:10"), (-2, "0:00:10"), (-1, "1:00:04")):
            first = hours * 3600 * 25 * TICKS
            pages = [(first, sent[-1][1]), (first + 250 * TICKS, sent[-1][1]), *sent]
            recording = self.write("one.pes", join_pes_packets(pages))
            row, = judge_files(self, stl, recording, "--origin", "0").result["subtitles"]
            self.check(f"{hours} hours", row["recording_offset"], time)

    def test_lists_refused_subtitles_and_those_outside_of_a_range_as_not_checked(self) -> None:
        stl = bytearray(STL)
        stl[GSI + 2 * TTI + TEXT_AT + 4] = 0xC2  # subtitle 3 is refused
        judged = judge_files(self, self.write("one.stl", stl), self.write("one.pes", PES),
                             "--from", "20:15:03:00")
        self.check("not checked", [
            (item["kind"], item["text"]) for item in judged.result["not_checked"]][-2:], [
            ("outside", "1 subtitle outside of --from and --to"), ("refused_subtitles",
             "1 subtitle refused in the file, or followed by a refused subtitle")])

    def test_counts_losses_of_the_page_pid_only(self) -> None:
        """Pages 888 and 801 are sent on two PIDs, and the fifth TS packet of one PID is lost."""
        stl = write_programme(self, subtitle_times(10), 2)
        own = join_pes_packets(schedule_pages(self, stl))
        self.schedule(stl, "other.pes", "--page", "801", "--every", "25")
        for page, other in ((0x101, 0x102), (0x102, 0x101)):
            whole = make_stream_of_pids((page, own), (other, self.read("other.pes")))
            for lost, verdict in ((None, "accepted"), (other, "accepted"), (page, "refused")):
                places = [at for at in range(0, len(whole), 188) if lost and
                          whole[at + 1:at + 3] == lost.to_bytes(2, "big")]
                data = whole[:places[4]] + whole[places[4] + 188:] if lost else whole
                for recording in (self.write("one.ts", data), write_pipe(self, data)):
                    judged = judge_files(self, stl, recording, "--origin", "0", "--every", "100")
                    name = f"{page} {lost} {recording}"
                    self.check(name, (judged.timed_verdict, judged.parts("pid")),
                               (verdict, [(page,)]))
                    self.check(f"{name}: losses", [
                        (item["judged"], item["lost_ts_packets"])
                        for item in judged.result["losses"]], [(True, 1)] * (lost == page))
                    self.check(f"{name}: one place", "more place" in "".join(judged.printed), False)

    def test_reads_packets_of_all_sizes_and_reports_skipped_bytes(self) -> None:
        junk = STREAM[:188 * 20] + b"x" * 40 + STREAM[188 * 20:]
        end = " outside TS packets were skipped"
        for data, size, skipped in ((STREAM, 188, []), (change_packet_size(STREAM, 192), 192, []),
                                    (change_packet_size(STREAM, 204), 204, []),
                                    (junk, 188, ["40 bytes"])):
            for recording in (self.write("one.ts", data), write_pipe(self, data)):
                judged = judge_files(self, STORY, recording, "--origin", "0")
                self.check(f"{size} {skipped} {recording}", (
                    judged.timed_verdict, judged.parts("pid", "packet_size"),
                    [line[:-len(end)] for line in judged.printed if line.endswith(end)]),
                    ("accepted", [(0x101, size)], skipped))

    def test_reports_where_a_pipe_has_other_bytes_than_pes_packets(self) -> None:
        for data, is_cut in ((PES, False), (PES + b"x" * 50, True)):
            judged = judge_files(self, STORY, write_pipe(self, data), "--origin", "0")
            reports = [line for line in judged.printed
                       if "the recording was read up to this point" in line]
            self.check(f"{is_cut}", (judged.timed_verdict, bool(reports)), ("accepted", is_cut))

    def test_advises_what_to_type_if_a_pair_cannot_be_judged(self) -> None:
        two_pids = make_stream_of_pids((TELETEXT_PID, PES), (0x102, PES))
        moved = make_planned_stream(packets(PES), [(0, OLD), (2, NEW)])
        files = {name: self.write(name, data) for name, data in (
            ("one.ts", STREAM), ("both.ts", two_pids), ("moved.ts", moved), ("empty.ts", b""),
            ("text.ts", b"no packets\n" * 400), ("other.stl", make_random_stl(7)[0]))}
        files.update({"story.stl": STORY, "accent.stl": ACCENT, "own.pes": self.path("own.pes"),
                      "PIPE": write_pipe(self, two_pids), "FOLDER": self.folder})
        self.schedule(self.write("own.stl", make_random_stl(8)[0]), "own.pes")
        for row in read_vectors("advice.tsv"):
            judged = judge_files(self, *(files.get(word, word)
                                         for word in shlex.split(row["arguments"])))
            typed = [line.split(" ", 4)[-1] for line in judged.stderr
                     if line.startswith(("try: ", "or: "))]
            self.check(row["name"], (judged.timed_verdict, typed),
                       ("not judged", [*filter(None, row["advice"].split("; "))]))
            reason = row["reason"].replace("own.pes", files["own.pes"])
            self.must(f"{row['name']}: reason", reason in "".join(judged.stderr)
                      and not judged.stderr[0].startswith("./"), judged.stderr)
        for pid in ("0x101", "0x102"):
            judged = judge_files(self, STORY, files["both.ts"], "--pid", pid)
            self.check(pid, (judged.timed_verdict, judged.parts("pid")),
                       ("accepted", [(int(pid, 16),)]))

    def test_keeps_the_recording_only_if_requested_and_always_its_hash(self) -> None:
        path = self.write("one.ts", STREAM)
        # Options, the recording, and the endings of the files in the output folder.
        rows: list[tuple[list[str], str, list[str]]] = [
            ([], path, ["html", "json", "txt"]),
            (["--keep"], path, ["html", "json", "recording.pes", "txt"]),
            ([], write_pipe(self, STREAM), ["html", "json", "txt"]),
            (["--keep"], write_pipe(self, STREAM), ["html", "json", "recording.ts", "txt"])]
        for words, recording, endings in rows:
            name, out = f"{words} {recording}", self.path(f"out{len(os.listdir(self.folder))}")
            judged = judge_files(self, STORY, recording, "-o", out, "--origin", "0", *words)
            self.check(name, sorted(os.listdir(out)), [f"one.{ending}" for ending in endings])
            part, inputs = judged.result["parts"][0], judged.result["inputs"]
            self.check(f"{name}: part", (
                part["pid"], part["packet_size"], part["judged_file"] is None, part["pes"]),
                (0x101, 188, recording == path, "0-4"))
            self.check(f"{name}: hash of the recording", [
                inputs["recording"][key] for key in ("name", "size", "sha256")],
                [recording, len(STREAM), hashlib.sha256(STREAM).hexdigest()])
            self.check(f"{name}: hash of the subtitles", inputs["stl"]["sha256"],
                       hashlib.sha256(STL).hexdigest())
            if "recording.pes" in endings:
                self.check(f"{name}: kept", self.read(f"{out}/one.recording.pes"), PES)

    def test_writes_a_report_a_result_and_a_list_of_a_subtitle_file_alone(self) -> None:
        judge_files(self, STORY, "-o", self.path("alone"))
        self.check("files", sorted(os.listdir(self.path("alone"))),
                   ["one.html", "one.json", "one.txt"])

    def test_reports_that_no_recording_was_read_if_all_subtitles_are_refused(self) -> None:
        judged = judge_files(self, ACCENT, self.write("one.ts", b"x"), "-o", self.path("out"))
        self.check("verdict", judged.timed_verdict, "refused")
        self.must("report", b"one.ts: it was not read" in self.read("out/one.html"))

    def test_judges_a_subtitle_file_alone(self) -> None:
        valid = "The subtitle file is valid: {}. No recording was judged."
        for stl, count, lines in (
                (STORY, 3, [valid.format("3 subtitles"),
                            "valid: 3 subtitles; no recording was judged"]),
                (HELLO, 1, [valid.format("1 subtitle"),
                            "valid: 1 subtitle; no recording was judged"]),
                (ACCENT, None, ["refused 50 Character block 1 at 6"])):
            judged = judge_files(self, stl)
            self.check(f"{stl}: last lines", judged.printed[-len(lines):], lines)
            self.check(f"{stl}: part", judged.parts("from", "pes"), [(None, None)])
            self.check(f"{stl}: faults", "1 faults" in judged.printed, stl == ACCENT)
            self.check(f"{stl}: counts", judged.result["subtitle_counts"],
                       count and {"judged": count, "refused": 0})

    def test_a_subtitle_file_alone_is_never_accepted(self) -> None:
        mild = self.write("mild", b"16 warning\nothers warning\n")
        accent = bytearray(STL)
        accent[GSI + TEXT_AT + 4] = 0xC2  # subtitle 1 is refused
        first_refused = self.write("accent.stl", accent)
        # Arguments, the verdict, and the numbers of the subtitles in the result.
        for words, verdict, numbers in (
                ([STORY], "valid", [1, 2, 3]), ([STORY, "--strict"], "valid", [1, 2, 3]),
                ([STORY, "--severity", mild], "valid", [1, 2, 3]),
                ([STORY, "--from", "20:15:03:00"], "valid", [2, 3]),
                ([STORY, "--to", "20:15:03:00"], "valid", [1]),
                ([first_refused, "--from", "20:15:03:00"], "valid", [2, 3]),
                ([first_refused, "--severity", mild], "waived", [1])):
            result = judge_files(self, *words, "-o", self.path("out")).result
            rows = [(row["position"], row["verdict"], row["actual_in"])
                    for row in result["subtitles"]]
            self.check(f"{words}", (result["verdict"], rows), (
                verdict, [(number, verdict, None) for number in numbers]))
            self.must(f"{words}: result", "No recording was judged." in result["sentence"]
                      and {part["verdict"] for part in result["parts"]} <= {"valid", "refused"}
                      and not find_misfit(result), result)
            self.check(f"{words}: no fault", result["worst_fault"] is None, verdict == "valid")
            self.must(f"{words}: never accepted", find_misfit({**result, "verdict": "accepted"}))
            page = self.read("out/one.html").decode()
            self.must(f"{words}: report", 'class="verdict accepted"' not in page and
                      "\ufffd" not in page and 'class="list file"' in page
                      and "Timeline" not in page, page)
            self.check(f"{words}: fault 60", "printed fault 60" in page, verdict == "valid")

    def test_lists_the_expected_and_the_decoded_text_in_the_national_option(self) -> None:
        stl = write_programme(self, subtitle_times(1), lines=2, text=b"\xc8Ol")
        self.schedule(stl, "one.pes", "--every", "25", "--option", "german")
        for recording, decoded in (((), None),
                                   ((self.path("one.pes"), "--origin", "0"), "\u00d6l / \u00d6l")):
            row, = judge_files(self, stl, *recording, "--option", "german").result["subtitles"]
            self.check(f"{recording}", (row["expected_text"], row["decoded_text"]),
                       ("\u00d6l / \u00d6l", decoded))

    def test_does_not_judge_a_file_without_subtitles(self) -> None:
        result = judge_files(self, self.write("none.stl", STL[:GSI])).result
        self.check("no subtitle", (result["verdict"], result["reason"]), (
            "not judged", f"{self.path('none.stl')} has no subtitle"))

    def test_a_file_that_is_no_stl_is_not_judged(self) -> None:
        no_stl = "not an EBU STL file"
        # The file is not judged with the reason `FILE is ..`, or refused if one of the two fields
        # of an STL file, CPN and DFC, is intact. It is valid with other bytes in CPN.
        for name, data, expected in (
                ("empty", b"", "empty"), ("gzip", gzip.compress(STL), "gzip-compressed: unpack it"),
                ("zip", b"PK\3\4" + STL, "a zip archive"),
                ("picture", b"\x89PNG\r\n\x1a\n", "a p"),
                ("SRT", b"1\r\n00:00:01,000 --> 00:00:02,000\r\nHi\r\n", "text"),
                ("TTML", "<tt>\n\u00e9</tt>".encode(), "text"), ("TTI blocks", STL[GSI:], no_stl),
                ("a byte too many", b"x" + STL, no_stl), ("two bytes", STL[:2], no_stl),
                ("UTF-16", "a\n".encode("utf-16"), no_stl),
                ("no DFC", STL[:3] + bytes(8) + STL[11:], "refused 11 Format block 0"),
                ("no CPN", bytes(3) + STL[3:], "valid"),
                ("30 frames", STL.replace(b"25.01", b"30.01", 1), "refused 12 Rate block 0"),
                ("cut in the GSI block", STL[:500], "refused 10 Truncated block 0"),
                ("three bytes", STL[:3], "refused 10 Truncated block 0"),
                ("cut in a TTI block", STL[:-1], "refused 10 Truncated block 3")):
            path = self.write("one.stl", data)
            result = judge_files(self, path).result
            if expected.startswith("refused"):
                self.check(name, (result["verdict"], result["line"]), ("refused", expected))
            elif expected == "valid":
                self.check(name, (result["verdict"], result["reason"]), ("valid", None))
            else:
                reason = f"{path} is {expected}"
                self.check(name, (result["verdict"], result["reason"][:len(reason)]),
                           ("not judged", reason))

    def test_names_the_file_of_another_programme_first(self) -> None:
        (sent, (first, *_)), (other, (begin, *_)) = make_random_stl(1), make_random_stl(2)
        self.schedule(self.write("sent.stl", sent), "one.pes", "--every", "25")
        stl = self.write("other.stl", other.replace(b"Number", b"Figure"))
        origin = wrap_pts(TICKS * (first - begin))  # the first TCI is that of the first page
        for words, verdict in ((), "Not judged"), (("--origin", f"{origin}"), "Refused"):
            judged = judge_files(self, stl, self.path("one.pes"), *words)
            self.must(verdict, judged.result["sentence"].startswith(
                f"{verdict}: probably another programme's subtitle file: "), judged.printed)

    def test_does_not_suspect_another_programme_if_the_texts_come_at_other_times(self) -> None:
        cues = subtitle_times(20)
        stl = write_programme(self, cues)
        drifting = [(begin + 4 * at, end + 4 * at) for at, (begin, end) in enumerate(cues)]
        for name, times, first in (("right", cues, 1), ("each 4 frames later", drifting, 1),
                                   ("2 to 11 at the times of 2, 4 .. 20", cues[1::2], 2)):
            sent = write_programme(self, times, name="sent.stl", first=first)
            self.schedule(sent, "one.pes", "--every", "25")
            for words in ((), ("--origin", "0")):
                judged = judge_files(self, stl, self.path("one.pes"), *words)
                self.must(f"{name} {words}", "another programme" not in "".join(judged.printed),
                          judged.printed)

    def test_finds_the_causes_behind_a_delay_of_all_subtitles(self) -> None:
        """All subtitles are 3 frames late, and the third has another fault by that clock."""
        cues = subtitle_times(5)
        late = [(begin + 3, end + 3) for begin, end in cues]
        stl = write_programme(self, cues)
        for name, times, causes, more in (
                ("late alone", late, {"late": 5}, ""),
                ("late, but erased in time", [*late[:2], (late[2][0], cues[2][1]), *late[3:]],
                 {"late": 5}, ""),
                ("erased early", [*late[:2], (late[2][0], late[2][1] - 8), *late[3:]],
                 {"late": 4, "erased": 1}, "; also erased (1)")):
            write_programme(self, times, name="sent.stl")
            self.schedule(self.path("sent.stl"), "one.pes", "--every", "25")
            result = judge_files(self, stl, self.path("one.pes"), "--origin", "0").result
            self.check(name, {cause: count for cause, count in result["cause_counts"].items()
                              if count}, causes)
            self.must(f"{name}: sentence", result["sentence"].startswith(
                f"Refused: all 5 subtitles appeared 3 frames late{more}."), result["sentence"])

    def test_what_follows_the_last_judged_subtitle_is_no_text_in_a_pause(self) -> None:
        """The last subtitle is erased 1 frame early, and the next text comes 14 frames later."""
        *cues, (begin, end) = subtitle_times(5)
        following = (end + 14, end + 60)
        write_programme(self, [*cues, (begin, end - 1), following], name="sent.stl")
        self.schedule(self.path("sent.stl"), "one.pes", "--every", "25")
        less = write_programme(self, [*cues, (begin, end)], name="less.stl")
        full = write_programme(self, [*cues, (begin, end), following], name="full.stl")
        for words in ([less], [full, "--to", format_frame(following[0])]):
            result = judge_files(self, words[0], self.path("one.pes"), "--origin", "0", *words[1:])
            self.check(" ".join(words), [(cause["name"], cause["subtitle"]["position"])
                                         for cause in result.result["causes"]], [("erased", 5)])

    def test_a_text_in_a_pause_is_no_fault_of_the_subtitle_before(self) -> None:
        """Subtitle 2 is sent, but not in the file: its text has a row and times of its own."""
        cues = subtitle_times(5)
        stl = write_programme(self, cues)
        self.schedule(stl, "one.pes", "--every", "25")
        data = self.read("one.stl")
        self.write("less.stl", data[:GSI + 128] + data[GSI + 256:])
        result = judge_files(self, self.path("less.stl"), self.path("one.pes"), "--origin", "0",
                             "-o", self.path("out"))
        time, end = (format_frame(frame) for frame in cues[1])
        self.check("subtitles", [row["verdict"] for row in result.result["subtitles"]],
                   ["right"] * 4)
        cause, = result.result["causes"]
        self.check("cause", (cause["name"], cause["time"], cause["subtitle"]["position"]),
                   ("another text in a pause", time, 1))
        self.must("faults", {fault["cause"]["name"] for fault in result.result["faults"]} ==
                  {cause["name"]} and "1 pause with another text" in result.printed, result.printed)
        page = self.read("out/one.html").decode()
        row = page.partition('<tr id="s1-pause"')[2].partition("</tr>")[0]
        self.must("row", f"<td>{time}</td><td>{end}</td>" in row and row.startswith(' class="bad')
                  and 'href="#s1-pause"' in page and "Reasons, worst first</caption>" in page, page)
