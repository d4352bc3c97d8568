"""Test the parsing of the output of `check --all`, files that change, and stored recordings."""
from __future__ import annotations

import contextlib
import itertools
import json
import os
import re
import subprocess
from unittest import mock

from subtitles.formats.listing import parse_fault_line
from subtitles.judging.check import CheckOutput, run_check
from subtitles.judging.pair import PairJudge
from subtitles.request.request import Unclear
from .bench import Case, get_example_path, read_example_file
from .judged import judge_files
from .stories import read_vectors
from .streams import TELETEXT_PID, make_stream_of_pids
from .parts import make_part, make_shell_script
from .transmissions import write_pipe
from .test_judging_verdicts import make_part_verdict, read_lines

# Lines of `check --all`: two faults, acceptance, and frames that are trusted
CONTENT = "refused 72 Content frame 00:00:05:00 row 20 column 1"
LENGTH = "refused 38 UnitLength pes 7"
GOOD = "accepted 10 frames 2 transmissions"
TRUSTED, TRUSTED_FRAME = "trusted frames 00:00:06:00 00:00:07:00", 6 * 25


class Answers(Case):
    """The outputs in dev/vectors/answers.tsv, and the file that stores an output."""

    def run_check(self, lines: list[str], status: int) -> tuple[CheckOutput, list[str], str]:
        """Run a script instead of `check`. Return the output, the reported lines and the error."""
        check_output, received = CheckOutput(self.path("list")), list[str]()
        try:
            run_check(["sh", "-c", make_shell_script(lines, status)], check_output, received.append)
        except Unclear as error:
            return check_output, received, error.reason
        return check_output, received, ""

    def test_gives_the_verdict_or_the_line_that_gives_none_and_stores_all_lines(self) -> None:
        for row in read_vectors("answers.tsv"):
            lines, status, verdict = json.loads(row["lines"]), int(row["status"]), row["verdict"]
            check_output, received, error = self.run_check(lines, status)
            printed = [item.replace("\udcff", "\ufffd") for item in lines]
            faults = [item for item in printed if re.match(r"refused \d+( |$)", item, re.ASCII)]
            with self.subTest(lines=lines, status=status):
                self.assertEqual(error, "" if verdict else
                                 f"check gave no verdict: {row['reported']}, status {status}")
                self.assertEqual("" if error else check_output.verdict, verdict)
                # Lines are reported while `check` runs; from the first `accepted` on, only the last
                # line, and only if it is the verdict.
                self.assertEqual(received, [*itertools.takewhile(GOOD.__ne__, printed),
                                            *[GOOD] * (verdict == "accepted")])
                self.assertEqual([*check_output.read_lines()], printed)
                self.assertEqual(check_output.fault_count, len(faults))
                self.assertEqual(check_output.fault_numbers,
                                 {int(item.split()[1]) for item in faults})
                if verdict:
                    self.assertEqual(check_output.line, [*faults, printed[-1]][0])
                self.assertEqual([item.line for item, _ in check_output.read_faults()],
                                 [item for item in printed if item.startswith("refused ") and
                                  parse_fault_line(item)])
                self.assertEqual([begin for begin, _ in check_output.trusted_frames],
                                 [TRUSTED_FRAME] * (TRUSTED in printed))

    def test_an_error_while_a_line_is_reported_kills_the_program(self) -> None:
        for error in (ValueError, BrokenPipeError, KeyboardInterrupt, SystemExit):
            with mock.patch.object(subprocess.Popen, "kill") as kill:
                with self.assertRaises(error):
                    run_check(["echo", CONTENT], CheckOutput(self.path("list")),
                              mock.Mock(side_effect=error))
            kill.assert_called_once_with()

    def test_an_unfinished_output_gives_the_last_time_on_its_last_line_and_no_verdict(self) -> None:
        rows: list[tuple[list[str], str | None]] = [
            ([], None), ([CONTENT], "00:00:05:00"), ([CONTENT, LENGTH], None),
            ([TRUSTED], "00:00:07:00")]
        for lines, time in rows:
            result = read_lines(self, lines)
            self.assertEqual(result.find_last_time(), time, lines)
            self.assertEqual((result.verdict, result.summarize().exit_status),
                             ("not judged", None), lines)

    def test_a_stopped_pair_keeps_its_part_and_reports_how_far_check_came(self) -> None:
        verdict, nothing = make_part_verdict([]), mock.Mock()
        pair = PairJudge(verdict, nothing, nothing, nothing, False)
        self.assertEqual(pair.stop("10:00"), "10:00")
        # The last line of `check`, and its time; a line without a time counts as nothing.
        for line, progress in ((CONTENT, "all up to 00:00:05:00"), (LENGTH, "nothing yet")):
            pair.current_part = make_part(0, 9, 0, CheckOutput(self.path("list")))
            pair.current_part.check_output.read_line(line)
            self.assertEqual(pair.stop("10:00"), f"10:00, when check had reported {progress}")
            self.assertEqual(verdict.parts[-1], pair.current_part)
            self.assertEqual(pair.stop("10:00"), "10:00", "a second call has no effect")
        self.assertEqual(len(verdict.parts), 2)

    def test_a_moved_list_keeps_its_lines_unless_the_file_alone_is_valid(self) -> None:
        result = read_lines(self, [CONTENT, "1 faults"])
        result.finish(1)
        result.move_file(self.path("other"))
        self.assertEqual((result.path, [*result.read_lines()]),
                         (self.path("other"), [CONTENT, "1 faults"]))
        result.accept_file("2 subtitles")
        self.assertEqual((result.verdict, result.line, result.fault_count, result.fault_numbers,
                          [*result.read_lines()]), ("valid", "2 subtitles", 0, set(), []))
        self.assertFalse(result.summarize(False).is_read)


class ChangingFiles(Case):
    """A program that changes a file as soon as it is called as `survey` or as `check`."""

    # Shell commands that change FILE
    CHANGES = {
        "nothing": ":",
        "one byte more": "printf x >>FILE",
        "one byte less": "truncate -s -1 FILE",
        "written to, with the times of before":
            "touch -r FILE like; printf x | dd conv=notrunc of=FILE 2>&-; touch -r like FILE",
        "another file of that size and those times": "touch -r FILE other; mv other FILE",
        "a link to the same file": "mv FILE kept; ln -s kept FILE",
        "another file, then the first again": "mv FILE kept; cp other FILE; mv kept FILE",
        "gone": "rm FILE"}

    def test_gives_no_verdict_if_a_file_changed_meanwhile(self) -> None:
        data = {"one.stl": read_example_file("story.stl"), "one.severity": b"79 warning\n",
                "one.ts": make_stream_of_pids((TELETEXT_PID, read_example_file("story.pes")))}
        for (change, command), changed, program_call in itertools.product(
                self.CHANGES.items(), data, ("survey*one.ts", "check*--pes*--all*")):
            with contextlib.suppress(FileExistsError):  # the severity file is a symbolic link
                os.symlink("its target", self.path("one.severity"))
            for name, content in data.items():
                self.write(name, content)
            self.write("other", data[changed])
            program = self.make_program_with_exception(
                program_call, f"(cd '{self.folder}'; {command.replace('FILE', changed)})")
            stl, recording, severity = map(self.path, ("one.stl", "one.ts", "one.severity"))
            judged = judge_files(self, stl, recording, "--origin", "0", "--severity", severity,
                                 "-o", self.path("out"), program=program)
            word = "accepted" if change == "nothing" else "not judged"
            stored, place = json.loads(self.read("out/one.json")), \
                f"{change}: {changed}, {program_call}"
            self.check(f"{place}: verdicts", (judged.timed_verdict, stored["verdict"]),
                       (word, word))
            reason = f"{self.path(changed)} changed while it was judged: judge it again when it " \
                "is complete"
            self.must(f"{place}: the reason", (reason in (stored["reason"] or "")) ==
                      (word == "not judged"), stored)
            with contextlib.suppress(FileNotFoundError):
                os.unlink(self.path(changed))


class StoredRecordings(Case):
    def test_stores_the_pes_packets_of_a_file_or_all_data_of_a_pipe_with_keep(self) -> None:
        pes = read_example_file("story.pes")
        stream = make_stream_of_pids((TELETEXT_PID, pes))
        path = self.write("one.ts", stream)
        # With the second origin, nothing was recorded at the time of the subtitles.
        for origin, word in (("0", "accepted"), ("900000000", "not judged")):
            for recording, name, data in ((path, "one.recording.pes", pes),
                                          (write_pipe(self, stream), "one.recording.ts", stream)):
                judged = judge_files(self, get_example_path("story.stl"), recording, "--origin",
                                     origin, "--keep", "-o", self.path("out"))
                self.check(f"{word} {name}: verdict", judged.timed_verdict, word)
                self.check(f"{word} {name}: bytes", self.read(f"out/{name}") == data, True)
                os.remove(self.path(f"out/{name}"))
