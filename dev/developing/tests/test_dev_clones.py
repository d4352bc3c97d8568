"""Test ./subttx, tools/prove and dev/release in fresh copies of the repository."""
from __future__ import annotations

import os
import re
import shutil
import signal
import subprocess
import time
from typing import Iterable

from subtitles.common.program import TOP, copy, read, resolve_script, write
from ..compiled import share_compiled
from ..proved import ProvedProgram, compute_digest, parse_proved, format_proved
from ..trial import ANOTHER_USER, Trial
from .bench import Case, CompletedCall, SECONDS

PACKET = ["packet", "00"]  # a command of ./subttx that reads no file
SOURCE = os.path.join("crates", "ttx_packet", "src", "parity.rt")
VERSION = "a toolchain"
# A script that replaces `rt`, prints its version and proves nothing.
TOOLCHAIN = f'#!/bin/sh\n[ "$1" = version ] && echo {VERSION!r}\n'
LINE = "logic=proved functions=7"  # the prover's line about a crate
NEEDED_PATHS = ["subttx", "crates.txt", "HANDLES", "tools", "dev", "crates"]
COPIED_SOURCES = {"lib.rt", "parity.rt", "Lib.antt"}  # names of sources that a copy has
OMITTED = {"out", "must-fail", "release-edits", "__pycache__", "vectors", "transcripts"}
USAGE_FAULT = b"usage 0 Words\n"  # what the program prints about wrong arguments
HELP_REQUESTS = [["--help"], ["-h"], ["help"], ["help", "check"], ["check", "--help"],
                 ["-h", "survey"]]


def list_omitted_names(folder: str, names: list[str]) -> set[str]:
    """Return the names in a folder that a copy omits: most sources, tests and output files."""
    if os.path.basename(folder) in ("src", "specs", "proofs"):
        return set(names) - COPIED_SOURCES
    tests = {"tests", "every_place"} if os.path.basename(folder) == "developing" else set()
    return set(names) & (tests | OMITTED)


class Clone:
    """A copy of the repository in a test's folder. In dist/ it has the program under test, and a
    file PROVED that names this program and the copied sources."""

    def __init__(self, case: Case) -> None:
        self.case, self.top = case, case.path("clone")
        os.mkdir(self.top)
        for name in NEEDED_PATHS:
            here, there = os.path.join(TOP, name), self.path(name)
            if os.path.isdir(here):
                shutil.copytree(here, there, ignore=list_omitted_names)
            else:
                shutil.copy(here, there)
        share_compiled(self.path("tools"))
        self.crates = dict(line.split(" ") for line in self.tool("sources", "--crates"))
        self.put("dist", case.bench.program)

    def path(self, *names: str) -> str:
        return os.path.join(self.top, *names)

    def tool(self, name: str, *args: str) -> list[str]:
        return self.case.call([self.path("tools", name), *args]).out.decode().splitlines()

    def put(self, folder: str, program: str, line: str = LINE) -> None:
        """Copy a program to a folder, and write PROVED with the digests of the current sources."""
        copy(program, self.path(folder, "subttx"), 0o755)
        crates = {name: (digest, line) for name, digest in self.crates.items()}
        self.write(os.path.join(folder, "PROVED"), format_proved(
            ProvedProgram(self.tool("sources")[0], compute_digest(program), VERSION, crates)))

    def write(self, name: str, text: str) -> None:
        write(self.path(name), text)

    def add_comment(self, name: str = SOURCE) -> None:
        """Change a source, so that dist/ has the program of other sources."""
        self.write(name, (read(self.path(name)) or "") + "// changed\n")

    def build(self) -> None:
        """Copy the program to the place at which the toolchain builds it."""
        copy(self.case.bench.program, self.path("crates", "subttx", "out", "subttx"), 0o755)

    def write_command(self, name: str, text: str) -> None:
        """Write a script to the folder that contains `rt`."""
        os.makedirs(self.path("bin"), exist_ok=True)
        self.case.write_program(self.path("bin", name), text)

    def write_toolchain(self, text: str = TOOLCHAIN) -> str:
        """Write the script `rt`. Return a PATH that contains its folder."""
        self.write_command("rt", text)
        return os.pathsep.join([self.path("bin"), remove_rt_from_path()])

    def call(self, command: list[str], path: str, user: int | None = None) -> CompletedCall:
        """Run a command with a value of PATH."""
        return self.case.call(command, env={**os.environ, "PATH": path}, user=user)

    def run(self, *args: str, script: str | None = None, user: int | None = None) -> CompletedCall:
        """Run ./subttx without an `rt` command on the PATH."""
        return self.call([script or self.path("subttx"), *args], remove_rt_from_path(), user)

    def release(self, *args: str) -> CompletedCall:
        return self.call([self.path("dev", "release"), *args], self.write_toolchain())

    def check_comparison(self, message: str, passed: int = 0, failed: int = 0) -> None:
        """Check what dev/release --compare prints, and its status."""
        process = self.release("--compare")
        self.case.check("--compare", (process.status, process.out.decode()), (
            failed, f"{message}\n{passed} passed, {failed} failed\n"))

    def check_runs(self, name: str, process: CompletedCall | None = None) -> None:
        """Check that ./subttx runs the program and prints only the program's output."""
        process = process or self.run(*PACKET)
        self.case.must(name, process == self.case.call([self.case.bench.program, *PACKET]), process)

    def check_failure(self, name: str, why: str) -> None:
        """Check that ./subttx runs no program and prints the reason `why` on two lines."""
        process = self.run(*PACKET)
        self.case.must(name, process.status == 2 and not process.out and len(process.errors) == 2
                       and why in process.errors[0]
                       and "rt is not on the PATH" in process.errors[1], process)


def remove_rt_from_path() -> str:
    folders = os.environ["PATH"].split(os.pathsep)
    return os.pathsep.join(folder for folder in folders
                           if not os.path.exists(os.path.join(folder, "rt")))


def make_log(clone: Clone, kept: Iterable[str] = ()) -> str:
    """Return output of `rt ci` on proved crates, previously proved crates, and a failed crate."""
    lines = []
    for name in clone.crates:
        if name in kept:
            lines.append(f"rt: {name} is kept: an earlier run proved the same files")
        else:
            lines += [f"== {name}", f"fn {name}::a: proved", f"{LINE} of={name}",
                      f"rt: {name} proved", f"== {name}: its tests", "logic=proved tests=1",
                      f"rt: {name}: its tests are proved"]
    return "\n".join([*lines, "== other", LINE, "rt: other NOT PROVED", "1 passed, 1 failed", ""])


class Clones(Case):
    """./subttx, tools/program and dev/release in a copy of the repository. Unless a test gives one,
    there is no toolchain, so nothing can be proved."""

    def setUp(self) -> None:
        super().setUp()
        self.clone = Clone(self)

    def check_usage_fault(self, *args: str) -> None:
        """Check that ./subttx rejects its arguments, with one message."""
        process = self.clone.run(*args)
        self.must(f"{args}", (process.status, process.out) == (2, USAGE_FAULT)
                  and len(process.errors) == 1
                  and process.errors[0].startswith("subttx: "), process)

    def test_runs_the_program_in_dist_also_again_and_through_a_link(self) -> None:
        self.clone.check_runs("at first")
        self.clone.check_runs("again, with the choice kept")
        self.check("its path", self.clone.tool("program"), [self.clone.path("dist", "subttx")])
        os.symlink(self.clone.path("subttx"), self.path("link"))
        self.clone.check_runs("a link", self.clone.run(*PACKET, script=self.path("link")))

    def test_prints_the_same_help_with_and_without_a_program(self) -> None:
        text = self.clone.run("--help").out
        self.must("usage", text.startswith(b"usage: subttx COMMAND FILES [options]\n"), text)
        for words in HELP_REQUESTS:
            self.check(f"{words}", self.clone.run(*words), CompletedCall(0, text, []))
        os.remove(self.clone.path("dist", "PROVED"))
        commands = re.findall(r"^  ([a-z]+) ", text.decode(), re.M)
        for words in [*HELP_REQUESTS, *([name, "-h"] for name in commands)]:
            process = self.clone.run(*words)
            self.check(f"{words}, no program", (process.status, process.out), (0, text))

    def test_prints_the_help_as_errors_without_arguments(self) -> None:
        lines = self.clone.run("--help").out.decode().splitlines()
        self.check("process", self.clone.run(), CompletedCall(2, USAGE_FAULT, [
            *lines, "subttx: give a command (subttx --help lists the commands)"]))

    def test_prints_no_help_for_wrong_arguments(self) -> None:
        for words in [["check"], ["chec"], ["help", "me", "please"], ["help", "me"],
                      ["check", "a.stl", "b.pes", "-h"],
                      ["check", "a.stl", "b.pes", "--page", "-h"]]:
            self.check_usage_fault(*words)

    def test_prints_the_version(self) -> None:
        text = f"subttx {(read(os.path.join(TOP, 'VERSION')) or '').strip()}\n".encode()
        for word in ("--version", "-V"):
            self.check(word, self.clone.run(word), CompletedCall(0, text, []))
            self.check_usage_fault(word, "check")

    def test_scripts_without_a_built_program_begin_no_proof(self) -> None:
        os.remove(self.clone.path("dist", "PROVED"))
        path = self.clone.write_toolchain(f"#!/bin/sh\ntouch '{self.path('called')}'\nexit 1\n")
        for command in (["tools/check-program"], ["dev/make-examples", "."]):
            process = self.clone.call([self.clone.path(command[0]), *command[1:]], path)
            self.check(f"{command}: status, calls the prover",
                       (process.status, os.path.exists(self.path("called"))), (2, False))

    def test_detects_a_damaged_program(self) -> None:
        self.clone.check_runs("intact")
        with open(self.clone.path("dist", "subttx"), "r+b") as file:
            file.seek(-100, os.SEEK_END)
            byte = file.read(1)[0]
            file.seek(-1, os.SEEK_CUR)
            file.write(bytes([byte ^ 1]))
        self.clone.check_failure("one bit", "dist/subttx is damaged")

    def test_reports_a_missing_program(self) -> None:
        os.remove(self.clone.path("dist", "subttx"))
        self.clone.check_failure("no file", "dist/subttx is not an executable program")

    def test_detects_changed_sources(self) -> None:
        for name in (SOURCE, *(os.path.join("crates", "sub_listing", part, "Lib.antt")
                               for part in ("specs", "proofs")), "crates.txt"):
            self.clone.check_runs("as it is")
            text = read(self.clone.path(name)) or ""
            self.clone.write(name, text.replace("subttx:", "subttx: sub_laws", 1)
                             if name == "crates.txt" else text + "// changed\n")
            self.clone.check_failure(name, "dist/subttx was built from other sources")
            self.clone.write(name, text)

    def test_detects_a_renamed_source(self) -> None:
        os.rename(self.clone.path(SOURCE), self.clone.path(SOURCE + "2"))
        self.clone.check_failure("another name", "dist/subttx was built from other sources")

    def test_runs_the_program_of_changed_sources_once_it_is_in_dist(self) -> None:
        self.clone.add_comment()
        self.clone.put("dist", self.bench.program)
        self.clone.check_runs("changed sources")

    def test_runs_in_a_read_only_clone(self) -> None:
        clone, user = self.clone, None if os.geteuid() else ANOTHER_USER
        if user and not Trial.can_run(["test", "-x", clone.path("subttx")], user=user):
            self.skipTest("a read-only clone, since no other user can read it")
        subprocess.run(["chmod", "-R", "a-w", clone.top], check=True)
        clone.check_runs("read only", clone.run(*PACKET, user=user))
        subprocess.run(["chmod", "-R", "u+w", clone.top], check=True)
        self.must("nothing was written", not os.path.exists(clone.path("out")))

    def test_reports_a_program_for_another_machine(self) -> None:
        for name, text in (("no program of this machine", "\x7fELF\x02 and no more"),
                           ("another answer", "#!/bin/sh\necho nothing\n"),
                           ("it ends by a signal", "#!/bin/sh\nkill -ILL $$\n")):
            self.clone.write("other", text)
            self.clone.put("dist", self.clone.path("other"))
            self.clone.check_failure(name, "dist/subttx does not run here")

    def test_replaces_the_script_of_a_repository_with_its_program(self) -> None:
        self.clone.write("other", "\x7fELF")
        for name, path, program in (
                ("the script", self.clone.path("subttx"), self.clone.path("dist", "subttx")),
                ("a program next to it", self.clone.path("other"), self.clone.path("other")),
                ("a script elsewhere", self.write("alone", b"#!/bin/sh\n"), self.path("alone"))):
            self.check(name, os.path.realpath(resolve_script(path)), os.path.realpath(program))

    def test_prefers_a_program_that_was_built_here(self) -> None:
        # what a valid program prints when tools/program tries it
        stored = self.clone.path("crates", "subttx", "stdout")
        self.clone.check_runs("there is none yet")
        self.clone.write("other", f"#!/bin/sh\n[ $2 = 00 ] && exec echo built\ncat {stored}\n")
        self.clone.put("out", self.clone.path("other"))
        self.check("out/", self.clone.run(*PACKET), CompletedCall(0, b"built\n", []))
        self.clone.add_comment()
        self.clone.put("dist", self.bench.program)
        self.clone.check_runs("dist/, where out/ is older")
        self.clone.check_comparison("out/ does not have the program of these sources", failed=1)
        os.remove(self.clone.path("dist", "subttx"))
        self.check("reasons why none is valid", self.clone.run(*PACKET).errors[:2], [
            "subttx: out/subttx was built from other sources",
            "subttx: dist/subttx is not an executable program"])

    def note_log(self, kept: Iterable[str], *sums: str) -> CompletedCall:
        """Let dev/release store the prover's lines about all crates but `kept`."""
        self.clone.write("log", make_log(self.clone, kept))
        return self.clone.release("--note", self.clone.path("log"), *sums)

    def test_does_not_release_a_program_without_the_line_of_each_crate(self) -> None:
        self.clone.build()
        os.remove(self.clone.path("dist", "PROVED"))
        first, *_ = self.clone.crates
        process = self.note_log(kept=[first])
        self.check("--note", (process.status, process.errors), (0, []))
        process = self.clone.release("--keep")
        self.must("--keep reports the crate", first.encode() in process.out, process)
        process = self.clone.release()
        self.must("refused", process.status == 2 and first in process.errors[0], process)
        self.clone.check_comparison("there is no dist/ yet: run dev/release")

    def test_releases_a_program_with_the_line_of_each_crate_from_two_logs(self) -> None:
        self.clone.build()
        os.remove(self.clone.path("dist", "PROVED"))
        first, *others = self.clone.crates
        self.note_log(kept=[first])
        self.clone.release("--keep")
        self.note_log(kept=others)
        self.clone.write("out/subttx", "damaged")
        self.check("a damaged program", self.clone.release(), (2, b"", [
            "release: out/subttx is not the program that out/PROVED names: run .ci/run"]))
        self.clone.release("--keep")
        self.check("status", self.clone.release().status, 0)
        self.check("lines", parse_proved(read(self.clone.path("dist", "PROVED"))).crates, {
            name: (digest, f"{LINE} of={name}") for name, digest in self.clone.crates.items()})
        self.clone.check_comparison("dist/ has the program that was proved here, byte for byte",
                                    passed=1)
        shutil.rmtree(self.clone.path("out"))
        self.clone.check_runs("dist/")

    def test_release_keeps_lines_of_unchanged_sources(self) -> None:
        """The sources of ttx_packet change after the prover was called."""
        self.clone.build()
        sums = "\n".join(f"{name} {digest}" for name, digest in self.clone.crates.items())
        self.clone.write("sums", sums)
        self.clone.add_comment()
        self.note_log({*self.clone.crates} - {"ttx_packet"}, self.clone.path("sums"))
        self.clone.release("--keep")
        reported = parse_proved(read(self.clone.path("out", "PROVED"))).crates
        self.check("without a line", {*self.clone.crates} - {*reported}, {"ttx_packet"})
        self.clone.check_comparison("dist/ has the program of other sources: run dev/release")

    def test_compare_fails_if_dist_and_out_have_different_programs(self) -> None:
        shutil.copy(self.clone.path("dist", "subttx"), self.path("other"))
        with open(self.path("other"), "ab") as file:
            file.write(b"\0")
        self.clone.put("out", self.path("other"))
        self.clone.check_comparison(
            "dist/PROVED names these sources, but they do not build dist/subttx", failed=1)

    def test_compare_fails_if_the_program_in_dist_is_damaged_or_missing(self) -> None:
        message = "dist/subttx is not the program that dist/PROVED names"
        self.clone.write("dist/subttx", "damaged")
        self.clone.check_comparison(message, failed=1)
        os.remove(self.clone.path("dist", "subttx"))
        self.clone.check_comparison(message, failed=1)


# A fake prover, which logs the crate, runs FIRST, and proves all crates except FAILS.
PROVER = """#!/bin/sh
[ "$1 $2" = 'build --crate-name' ] || exit 2
crate=$3
echo "$crate" >>'CALLED'
FIRST
[ ! -e must-fail ] && [ ! -e release-edits ] || exit 2
for word; do
    case $word in *=*/out/libraries/*.rlib) [ -e "${word#*=}" ] || exit 2 ;; esac
done
[ "$crate" = 'FAILS' ] && echo 'LINE' && echo 'a goal is open' && exit 1
echo 'LINE'
: >"$word"
"""
LINKER = """#!/bin/sh
[ "$5" = -o ] && cp 'PROGRAM' "$6"
"""
PROVED_PROGRESS = re.compile(r"subttx: (\w+) proved after \d+ s, (\d+) of \d+ crates left")


class BareClone(Clone):
    """A copy of the repository without the file PROVED, and with a fake toolchain. Its prover runs
    the shell command `first` for each crate, and proves all crates but `fails`."""

    def __init__(self, case: Case, fails: str = "", first: str = "") -> None:
        super().__init__(case)
        os.remove(self.path("dist", "PROVED"))
        self.environment = self.write_toolchain(TOOLCHAIN)
        self.called = case.path("called")
        self.write_prover(fails, first)
        self.write_command("rattle-link", LINKER.replace("PROGRAM", case.bench.program))

    def write_prover(self, fails: str = "", first: str = "", line: str = LINE) -> None:
        text = PROVER.replace("FIRST", first).replace("FAILS", fails).replace("LINE", line)
        self.write_command("rattle", text.replace("CALLED", self.called))

    def start(self) -> CompletedCall:
        return self.call([self.path("subttx"), *PACKET], self.environment)

    def prove(self, *args: str) -> list[str]:
        """Call tools/prove. Return the crates for which it calls the prover."""
        self.write(self.called, "")
        self.call([self.path("tools", "prove"), *args], self.environment)
        return (read(self.called) or "").split()

    def check_nothing_is_left(self) -> None:
        """Check that there is no program in out/, and no folder in which one is proved."""
        self.case.check("left", [name for name in ("subttx", "proving")
                                 if os.path.exists(self.path("out", name))], [])


class ProvingClones(Case):
    """./subttx and tools/prove in a copy of the repository with a fake toolchain."""

    def test_proves_stores_and_runs_the_program(self) -> None:
        clone = BareClone(self)
        process = clone.start()
        self.check("output", process.out, self.call([self.bench.program, *PACKET]).out)
        reported = [PROVED_PROGRESS.fullmatch(line) for line in process.errors[1:]]
        progress = {it[1]: int(it[2]) for it in reported if it}
        self.check("reported crates", {*progress}, {*clone.crates})
        self.check("crates left", [*progress.values()], [*reversed(range(len(clone.crates)))])
        self.must("no temporary folder", not os.path.exists(clone.path("out", "proving")))
        self.check("PROVED", parse_proved(read(clone.path("out", "PROVED"))), ProvedProgram(
            clone.tool("sources")[0], compute_digest(self.bench.program), VERSION,
            {name: (digest, LINE) for name, digest in clone.crates.items()}))
        clone.check_runs("again, without the toolchain")

    def test_reports_a_crate_that_is_not_proved(self) -> None:
        clone = BareClone(self, fails="ttx_page")
        process = clone.start()
        self.check("status, output", (process.status, process.out), (2, b""))
        self.must("only its messages", process.errors[-3:-1] == [LINE, "a goal is open"]
                  and process.errors.count(LINE) == 1
                  and process.errors[-1].startswith("subttx: ttx_page was not proved"), process)
        clone.check_nothing_is_left()

    def test_keeps_no_program_if_the_linker_fails(self) -> None:
        clone = BareClone(self)
        clone.write_command("rattle-link", "#!/bin/sh\necho no room\n>\"$6\"\nexit 1\n")
        process = clone.start()
        self.check("status, last messages", (process.status, process.errors[-2:]), (2, [
            "no room", "subttx: the program was not linked: see the messages above"]))
        clone.check_nothing_is_left()

    def test_refuses_all_output_but_a_line_of_proved_functions(self) -> None:
        clone = BareClone(self)
        for name, line in (("a word", f"{LINE} foreign=low::adds"), ("no line", "only=1 proved=1"),
                           ("a warning", f"warning: no call of `low::adds` can meet it\n{LINE}")):
            clone.write_prover(line=line)
            process = clone.start()
            self.must(name, process.status == 2 and "was not proved" in process.errors[-1], process)

    def test_proves_only_changed_crates_and_those_that_use_them(self) -> None:
        clone = BareClone(self)
        self.check("all at first", sorted(clone.prove()), sorted(clone.crates))
        self.check("then none", clone.prove(), [])
        clone.add_comment(os.path.join("crates", "sub_check", "proofs", "Lib.antt"))
        self.check("after a change", clone.prove(), [
            "sub_check", "sub_answer", "sub_headline", "subttx"])
        self.check("all with --anew", sorted(clone.prove("--anew")), sorted(clone.crates))

    def test_proves_a_crate_again_that_could_not_be_proved_anew(self) -> None:
        clone = BareClone(self)
        clone.prove()
        clone.write_prover(fails="sub_answer")
        clone.prove("--anew")
        clone.write_prover()
        self.check("proved again", clone.prove()[0], "sub_answer")

    def test_reports_a_source_that_changes_meanwhile(self) -> None:
        clone = BareClone(self, first=f"echo '// changed' >>'{self.path('clone')}/{SOURCE}'")
        process = clone.start()
        self.must("status, message", process.status == 2
                  and any("were changed" in it for it in process.errors), process)
        clone.check_nothing_is_left()

    def test_stops_the_toolchain_after_sigterm(self) -> None:
        pids = self.path("pids")
        clone = BareClone(self, first=f"echo $$ >>'{pids}'; exec sleep 600")
        running = subprocess.Popen([clone.path("tools", "prove")], stdin=subprocess.DEVNULL,
                                   stderr=subprocess.DEVNULL,
                                   env={**os.environ, "PATH": clone.environment})
        while not read(pids) and running.poll() is None:
            time.sleep(0.05)
        running.send_signal(signal.SIGTERM)
        self.check("status", running.wait(SECONDS), 130)
        started = (read(pids) or "").split()
        self.must("nothing runs on", started and not any(
            os.path.exists(f"/proc/{pid}") for pid in started), started)
        clone.check_nothing_is_left()
