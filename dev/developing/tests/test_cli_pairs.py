"""Test tools/qc on one pair: files, pipes, signals, hostile names and unwritable folders."""
from __future__ import annotations

import csv
import json
import os
import shutil
import signal
import subprocess
import xml.etree.ElementTree as tree
from unittest import mock

from subtitles.cli.single import lock_pair
from subtitles.common.command_line import Stop, counted
from subtitles.common.program import TOP
from subtitles.recording import recording
from .bench import Case, CompletedCall, get_example_path, get_tool_path, read_example_file, SECONDS
from .judged import judge_files
from .programmes import wait_until
from .streams import make_stream_with_video, make_teletext_descriptor
from .transmissions import make_two_parts, write_pipe

STORY, RECORDING = get_example_path("story.stl"), get_example_path("recording.ts")
RELATIVE = "relative 226 frames 5 transmissions; not checked: no_video, losses, clock"
TS = 188  # size of a TS packet in bytes


def qc(case: Case, *args: str, data: bytes | None = None) -> CompletedCall:
    return case.tool("qc", *args, "-p", case.bench.program, data=data)


def split_output_lines(process: CompletedCall) -> list[str]:
    return process.out.decode().splitlines()


def make_stream(case: Case, example: str) -> bytes:
    """Return a transport stream with the PES packets of an example, which dev/pes2ts makes."""
    process = case.tool("pes2ts", get_example_path(example), "0x101", "--page", "888")
    assert process.status == 0, process
    return process.out


class Pairs(Case):
    """The story example, which matches its recording: relative (status 3) without a clock."""

    def test_prints_the_command_that_it_ran(self) -> None:
        lines = split_output_lines(qc(self, STORY, RECORDING))
        [command] = [line[2:] for line in lines if line.startswith("+ ")]
        self.check("command", command.split()[1:], [
            "check", STORY, RECORDING, "--pid", "0x101", "--pes", "2-6", "--complete", "--origin",
            "5000000000", "--all"])
        again = self.call(["sh", "-c", command])
        next_line = lines[lines.index(f"+ {command}") + 1]
        self.check("typed again", (again.status, again.out.decode().splitlines()), (0, [next_line]))

    def test_judges_files_and_pipes_the_same(self) -> None:
        pes = read_example_file("story.pes")
        for name, recording, data in (
                ("a file", get_example_path("story.pes"), None), ("a pipe", "-", pes),
                ("a stream in a pipe", "-", read_example_file("recording.ts")),
                ("/dev/stdin", "/dev/stdin", pes)):
            process = qc(self, STORY, recording, data=data)
            self.check(name, (process.status, split_output_lines(process)[-1]), (3, RELATIVE))

    def test_copies_a_file_on_standard_input_only_for_a_dash(self) -> None:
        for name, is_copied in (("-", True), ("/dev/stdin", False)):
            with open(RECORDING, "rb") as file:
                again = subprocess.run([os.path.join(TOP, "tools", "qc"), STORY, name, "-p",
                                        self.bench.program, "--relative", "--json", "one.json"],
                                       stdin=file, capture_output=True, cwd=self.folder,
                                       check=False)
            self.check(f"{name}: status", again.returncode, 0)
            [part] = json.loads(self.read("one.json"))["parts"]
            self.check(f"{name}: copied, PID, PES packets", (
                part["judged_file"] is not None, part["pid"], part["pes"]),
                (is_copied, 0x101, "2-6"))


class PipedRecordings(Case):
    def test_judges_a_pipe_of_at_most_32_gigabytes(self) -> None:
        self.check("limit", recording.MAX_PIPED_BYTES, 32_000_000_000)
        pes = read_example_file("story.pes")
        for limit, word in ((len(pes), "accepted"), (len(pes) - 1, "not judged")):
            with mock.patch.object(recording, "MAX_PIPED_BYTES", limit):
                result = judge_files(self, STORY, write_pipe(self, pes), "--origin", "0")
            self.check(f"{len(pes)} bytes, limit {limit}", result.timed_verdict, word)
        self.must("message of the pipe that is too long", result.stderr[-1].endswith(
            f" has not ended after {limit:,} bytes: judge an endless feed with tools/air"),
            result.stderr)
        with self.assertRaisesRegex(Stop, "^standard input has"), mock.patch.object(
                recording, "MAX_PIPED_BYTES", 1), mock.patch.object(
                    recording, "read_chunks", return_value=[b"ab"]):
            recording.copy_piped("-", self.path("copy"), mock.Mock())

    def test_reports_a_pipe_that_it_cannot_copy_completely(self) -> None:
        """The pipe contains more than the 200 KiB that the shell allows qc to write to a file."""
        data = make_stream(self, "story.pes") * 400
        command = 'ulimit -f 200; exec "$0" "$1" - --json one.json -p "$2"'
        process = self.call(["bash", "-c", command, get_tool_path("qc"), STORY, self.bench.program],
                            data)
        self.must("message", process.status == 2
                  and "File too large" in process.errors[-1], process)
        self.must("result", "File too large" in json.loads(self.read("one.json"))["reason"])


class Ended(Case):
    """Runs of qc that a signal or a closed output ends before the pair is judged."""

    def test_a_signal_leaves_a_result_and_no_temporary_files(self) -> None:
        """The signal arrives when qc has copied a part of a pipe that stays open."""
        os.mkdir(self.path("temporary"))
        for item in (signal.SIGINT, signal.SIGTERM, signal.SIGHUP):
            with subprocess.Popen(
                    [get_tool_path("qc"), "-p", self.bench.program, STORY, "-", "--json",
                     "one.json", "-o", "out"], cwd=self.folder, stdin=subprocess.PIPE,
                    stdout=subprocess.PIPE, stderr=subprocess.PIPE,
                    env={**os.environ, "TMPDIR": self.path("temporary")}) as process:
                assert process.stdin and process.stderr
                process.stdin.write(read_example_file("story.pes"))
                process.stdin.flush()
                is_copying = wait_until(lambda: any("story.recording" in files for _, _, files in
                                                    os.walk(self.path("temporary"))))
                process.send_signal(item if is_copying else signal.SIGKILL)
                errors = process.stderr.read().decode().splitlines()
            known = json.loads(self.read("one.json"))
            self.check(f"{item}: statuses, faults", (
                process.returncode, known["status"], known["faults"]), (2, 2, []))
            self.must(f"{item}: reason", known["reason"].startswith("stopped at ") and
                      errors == [f"qc: not judged: {known['reason']}"], errors)
            self.check(f"{item}: temporary files", os.listdir(self.path("temporary")), [])
            self.check(f"{item}: files", sorted(os.listdir(self.path("out"))),
                       ["story.html", "story.json"])

    def test_reports_the_progress_at_a_signal(self) -> None:
        """A program prints the first `count` lines of `check`, then sleeps until the signal."""
        # The number of printed lines and of faults among them, and the time that qc reports: the
        # end of the trusted frames, which the first line has, or the time of the last fault
        for count, faults, up_to in ((0, 0, "nothing yet"), (1, 0, "all up to 20:15:00:24"),
                                     (2, 1, "all up to 20:15:01:00"),
                                     (4, 3, "all up to 20:15:03:00")):
            begun = self.path(f"begun {count}")
            self.make_program_with_exception("check*--pes*--all*",
                                             f"'{self.bench.program}' \"$@\" | head -n {count}; "
                                             f"touch '{begun}'; exec sleep {SECONDS} 2>/dev/null")
            with subprocess.Popen([get_tool_path("qc"), STORY, get_example_path("five-faults.pes"),
                                   "--every", "25",
                                   "-o", "out", "-p", "./program"], cwd=self.folder,
                                  stdout=subprocess.PIPE, stderr=subprocess.PIPE) as process:
                assert process.stdout
                for line in process.stdout:
                    if line.startswith(b"+ ./program check"):
                        break
                came = [process.stdout.readline() for _ in range(count)]
                self.must(f"{count}: check sleeps", wait_until(lambda: os.path.exists(begun)))
                process.send_signal(signal.SIGTERM)
                lines, errors = (text.decode().splitlines() for text in process.communicate())
            known = json.loads(self.read("out/story.json"))
            self.check(f"{count}: statuses", (process.returncode, known["status"]), (2, 2))
            self.must(f"{count}: output", f"{counted(faults, 'fault')} so far" in lines, lines)
            self.must(f"{count}: reason", errors[-1:] == [f"qc: not judged: {known['reason']}"]
                      and known["reason"].endswith(f"Z, when check had reported {up_to}"), errors)
            self.check(f"{count}: JSON faults, verdict of part 1", (
                len(known["faults"]), known["parts"][0]["verdict"]), (faults, "not judged"))
            self.check(f"{count}: list", self.read("out/story.txt"), b"".join(came))

    def test_writes_a_complete_result_if_its_output_is_closed(self) -> None:
        """`head -2` closes the output of qc after two lines; `echo` prints a third line. The
        recording has five faults."""
        five = self.write("five.ts", make_stream(self, "five-faults.pes"))
        command = ('cat "$1" | "$2" "$3" "$4" --origin 0 --every 25 --json one.json -p "$5" 2>told '
                   '| head -2; echo ${PIPESTATUS[1]}')
        for name, recording in (("a feed", "-"), ("a file", five)):
            process = self.call(["bash", "-c", command, "bash", five, get_tool_path("qc"), STORY,
                                 recording,
                                 self.bench.program])
            reported = self.read("told").decode()
            self.must(name, len(process.out.splitlines()) == 3 and "Traceback" not in reported
                      and "Exception" not in reported, (process, reported))
            self.check(f"{name}: faults", json.loads(self.read("one.json"))["fault_count"], 5)


PES = get_example_path("story.pes")


class SubtitlePipes(Case):
    """Subtitle files that qc reads from a named pipe."""

    def qc(self, *args: str) -> CompletedCall:
        return self.tool("qc", *args, "-p", self.bench.program, "--json", self.path("x.json"))

    def test_judges_a_subtitle_pipe_as_a_file(self) -> None:
        french = read_example_file("story.stl")[:14] + b"0F" + read_example_file("story.stl")[16:]
        rows: list[tuple[bytes, list[str]]] = [
            (read_example_file("story.stl"), [PES, "--origin", "0"]),
            (read_example_file("story.stl"), [PES, "--start", "tcp"]),
            (read_example_file("story.stl"), ["--file-only"]),
            (read_example_file("accent.stl"), [PES]),
            (french, [PES, "--origin", "0", "--option", "auto"]),
            (b"", [PES]), (read_example_file("story.pes"), [PES]), (b"x" * 2000, [PES])]
        for data, words in rows:
            name = self.write("one.stl", data)
            of_file = self.qc(name, *words, "-o", self.path("out"))
            known = json.loads(self.read("x.json"))
            pipe = self.path("pipe/one.stl")  # the pipe has the same file name as one.stl
            shutil.rmtree(os.path.dirname(pipe), ignore_errors=True)
            os.mkdir(os.path.dirname(pipe))
            write_pipe(self, data, pipe)
            of_pipe = self.qc(pipe, *words, "-o", self.path("out"))
            other = json.loads(self.read("x.json"))
            told = [line.replace(pipe, name) for line in of_pipe.errors]
            self.check(f"{words}: output", of_pipe._replace(
                errors=told, out=of_pipe.out.replace(pipe.encode(), name.encode())), of_file)
            for item in (known, other):  # the names of the two files differ
                item["inputs"]["stl"] = {**(item["inputs"]["stl"] or {}), "name": ""}
            for member in ("verdict", "status", "fault_count", "faults", "inputs",
                           "trusted_frames"):
                self.check(f"{words}: {member}", other[member], known[member])
            self.check(f"{words}: option", other["request"]["option"], known["request"]["option"])

    def test_refuses_an_endless_subtitle_pipe(self) -> None:
        """`yes` writes lines of text for as long as somebody reads them."""
        process = self.call(["sh", "-c", 'mkfifo endless; (yes >endless &) ; exec "$@"', "sh",
                             get_tool_path("qc"), "endless", PES, "-p", self.bench.program])
        self.check("endless", process, (2, b"", [
            "qc: endless is text: export the subtitles as EBU STL"]))


NAMES = {"an escape": "a\x1b[31mb", "a dash": "-story", "an equals sign": "=story",
         "a plus": "+s", "not UTF-8": "caf\udce9", "a new line": "two\nlines",
         "a quote": "it's \\ \u202e"}
NOBODY_UID = 65534


def find_control_bytes(data: bytes) -> list[int]:
    return [byte for byte in data if byte < 0x20 and byte != 0x0A or byte == 0x7F]


class NamesCase(Case):
    """A test case with checks of what qc prints and writes about a pair with a hostile name."""

    def check_output(self, what: str, process: CompletedCall, status: int) -> None:
        """Check the exit status, and that no control character reaches the terminal."""
        self.check(f"{what}: status", process.status, status)
        shown = process.out + "".join(process.errors).encode("utf-8", "replace")
        self.must(f"{what}: control characters are escaped", not find_control_bytes(shown), shown)

    def check_commands(self, what: str, process: CompletedCall, folder: str, status: int) -> None:
        """Check that bash can run each printed command, and that it ends with this status."""
        commands = [line[2:] for line in split_output_lines(process) if line.startswith("+ ")]
        self.must(f"{what}: a command is printed", commands, process)
        for command in commands:
            again = self.call(["bash", "-c", command], folder=folder)
            self.check(f"{what}: {command}", again.status, status)

    def check_files(self, what: str, folder: str) -> None:
        """Check the output files of the relative pair, and that no CSV cell is a formula."""
        def read(name: str) -> bytes:
            return self.read(os.path.join(folder, name))

        self.check(f"{what}: JSON", json.loads(read("one.json"))["verdict"], "relative")
        rows = list(csv.reader(read("one.csv").decode().splitlines()))
        self.check(f"{what}: CSV rows (a header, the pair, three subtitles)", len(rows), 5)
        self.must(f"{what}: CSV cells", not find_control_bytes(read("one.csv")) and not any(
            cell.startswith(("=", "-", "+", "@")) for row in rows for cell in row), rows)
        self.check(f"{what}: JUnit", tree.fromstring(read("one.xml")).get("tests"), "1")
        names = os.listdir(os.path.join(self.folder, folder, "out"))
        self.check(f"{what}: kinds of files", sorted(name.rpartition(".")[2] for name in names),
                   ["html", "json", "txt"])
        self.must(f"{what}: names", not find_control_bytes(os.fsencode("".join(names))), names)
        [report] = [name for name in names if name.endswith(".html")]
        self.must(f"{what}: report", not find_control_bytes(read(os.path.join("out", report))))


class HostileNames(NamesCase):
    """The story example, which matches its recording: relative (status 3) without a clock."""

    def test_judges_files_with_hostile_names(self) -> None:
        for what, name in NAMES.items():
            folder = what.replace(" ", "-")
            os.mkdir(self.path(folder))
            self.write(f"{folder}/{name}.stl", read_example_file("story.stl"))
            self.write(f"{folder}/{name}.ts", read_example_file("recording.ts"))
            process = self.call([get_tool_path("qc"), "-p", self.bench.program, "--csv", "one.csv",
                                 "--json", "one.json", "--junit", "one.xml", "-o", "out", "--",
                                 f"{name}.stl", f"{name}.ts"], folder=folder)
            self.check_output(what, process, 3)
            self.check(f"{what}: last line", split_output_lines(process)[-1], RELATIVE)
            self.check_files(what, folder)
            # The program cannot open a file whose name is not UTF-8.
            self.check_commands(what, process, folder, 2 if what == "not UTF-8" else 0)

    def test_escapes_the_language_of_a_pmt(self) -> None:
        """The PMT announces page 888 in the language "ESC[2", but --page selects page 801."""
        data = make_stream_with_video(read_example_file("story.pes"),
                                      make_teletext_descriptor(b"\x1b[2"))
        process = qc(self, STORY, self.write("one.ts", data), "--page", "801")
        self.check_output("another page", process, 2)
        self.must("the announced page", "888 (\\x1b[2, subtitles)" in "\n".join(process.errors),
                  process)


class HostileFolders(NamesCase):
    """Output folders (-o) with hostile names."""

    def out_arguments(self, what: str) -> list[str]:
        name = NAMES[what]
        return [f"-o{name}"] if name.startswith("-") else ["-o", name]

    def test_writes_one_pair_into_a_folder_with_a_hostile_name(self) -> None:
        """The recording has five faults, so the pair is refused (status 1)."""
        for what in ("an escape", "a dash", "not UTF-8", "a quote"):
            process = qc(self, STORY, get_example_path("five-faults.pes"), "--every", "25",
                         "--keep", *self.out_arguments(what))
            self.check_output(what, process, 1)
            self.check(f"{what}: files", sorted(os.listdir(self.path(NAMES[what]))),
                       ["story.html", "story.json", "story.txt"])
            result = json.loads(self.read(f"{NAMES[what]}/story.json"))
            self.check(f"{what}: JSON", (result["verdict"], len(result["faults"])), ("refused", 5))
            tree.fromstring(self.read(f"{NAMES[what]}/story.html"))  # the report is valid XML
            self.check_commands(what, process, ".", 1)

    def test_writes_parts_and_batches_into_a_folder_with_a_hostile_name(self) -> None:
        """A recording with two parts is relative, alone and in a batch of its folder."""
        os.mkdir(self.path("in"))
        stl, pes = make_two_parts(self)
        os.rename(stl, self.path("in/two.stl"))
        pair = self.path("in/two.stl"), self.write("in/two.pes", pes)
        for what in ("an escape", "a dash", "not UTF-8", "a quote"):
            words = ["--breaks", "1", *self.out_arguments(what)]
            for name, files, written in (("a pair", pair, "two.2.txt"),
                                         ("a batch", ("--batch", "in"), "index.html")):
                self.check_output(f"{what}, {name}", qc(self, *files, *words), 3)
                self.must(f"{what}: {written}", written in os.listdir(self.path(NAMES[what])))


class UnusableFolders(Case):
    """Output folders (-o) into which qc cannot write the results of the story example."""

    def test_reports_a_folder_that_is_in_use(self) -> None:
        with lock_pair(self.path("out"), "story"):
            process = qc(self, STORY, RECORDING, "-o", "out")
        self.check("in use", process, (2, b"", [
            "qc: another run of qc is writing the files of pair story to out"]))

    def test_reports_an_unwritable_folder(self) -> None:
        if os.geteuid() != 0:
            self.skipTest("a folder of somebody else, since this is not root")
        os.mkdir(self.path("theirs"), 0o755)
        try:
            process = self.call([get_tool_path("qc"), STORY, RECORDING, "-o", self.path("theirs"),
                                 "-p", self.bench.program], user=NOBODY_UID)
        except PermissionError:
            self.skipTest("a folder of somebody else, since no other user can reach the tools here")
        self.check("the folder of root, as nobody", process, (2, b"", [
            f"qc: {self.path('theirs')}: Permission denied"]))

    def test_reports_a_folder_that_is_a_file(self) -> None:
        process = qc(self, STORY, RECORDING, "-o", self.write("file", b""))
        self.check("a file", process, (2, b"", [f"qc: {self.path('file')}: File exists"]))

    def test_reports_a_full_disk(self) -> None:
        """`full` is a file system of 64 KiB, of which a file already takes 64 or 56 KiB."""
        script = ('mount -t tmpfs -o size=64k none full || exit 77; head -c "$1" /dev/zero '
                  '>full/zeros 2>/dev/null; shift; "$@"')
        words = [get_tool_path("qc"), STORY, RECORDING, "-o", "full", "-p", self.bench.program]
        os.mkdir(self.path("full"))
        for taken in ("64k", "56k"):
            command = ["unshare", "-rm", "sh", "-c", script, "sh", taken, *words]
            process = self.call(command) if shutil.which("unshare") else CompletedCall(77, b"", [])
            if process.status in (1, 77) and not any("qc: " in line for line in process.errors):
                self.skipTest("a full disk, since no file system can be mounted here")
            self.must(f"{taken} taken", process.status == 2
                      and "No space left" in process.errors[-1]
                      and "full/" in process.errors[-1], process)


class TimeStamps(Case):
    def test_detects_192_byte_packets_whatever_their_time_stamps(self) -> None:
        """Each packet has a time stamp of 4 bytes. The first looks like a start or sync code."""
        data = read_example_file("recording.ts")
        for stamp in (b"\0\0\1\xbd", b"\0\0\1\xe0", b"G\0\0\0"):
            long = stamp + b"TIME".join(data[at:at + TS] for at in range(0, len(data), TS))
            path = self.write("long.ts", long)
            for name, process in (("a file", qc(self, STORY, path)),
                                  ("a pipe", qc(self, STORY, "-", data=long))):
                self.check(f"{stamp.hex()}, {name}", (
                    process.status, split_output_lines(process)[-1]), (3, RELATIVE))
            process = qc(self, path, STORY)
            self.must(f"{stamp.hex()}, given as subtitle file", process.status == 2
                      and "is a recording" in process.errors[0], process)
