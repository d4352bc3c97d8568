"""Run the program for dev/faults, and check runs in which system calls fail."""
from __future__ import annotations

import os
import re
import shlex
import shutil
import subprocess
import tempfile
from typing import IO, Any, Callable, NamedTuple, Sequence, Union

from subtitles.formats.stl import GSI, TTI

NO_MEMORY = re.compile(rb"fault (91 Memory|58 Memory block \d+)\n")
ANOTHER_USER = 65534
SECONDS = 2  # limit on the processor time of one run, in seconds
MAX_SECONDS = 600  # limit on the duration of one run on a busy machine, in seconds
MAX_LOG_BYTES = 1 << 20  # bytes of strace's log above which a run is considered endless
END_FORMAT = "\\0ended\\0"  # printf format that marks the end of a run's output
RUNS_PER_SHELL = 16

CALL = re.compile(r"^\d+ +(\w+)\((.*)\) += (-?\w+)(.*)$")
CALLS = "trace=openat,read,write,fsync,close,statx,mmap,brk,rt_sigaction"
STRACE = ["strace", "-f", "--seccomp-bpf", "-y", "-s", "0", "-e", CALLS]
# Lines on standard error that the shell or strace prints.
SHELL_MESSAGES = re.compile(r"(sh|strace): ")
# Printed faults that need an explanation on standard error, and how each line of it begins.
EXPLAINED = re.compile(rb"^(fault \d+ (Open|Read|Write)|usage \d+)\b", re.MULTILINE)
EXPLANATION = "subttx: "
COMMAND_LINE_ERROR = "subttx: cannot read the command line: "  # printed if memory runs out
# For each input, the number of faults that `check --all` reports for each PES packet but the last.
FAULTS_PER_PACKET = {"long.pes": 0, "even.pes": 2, "unread.pes": 1}


# Make call number REFUSE_AT to malloc or realloc fail, and create the file named by REFUSED.
REFUSING_LIBRARY = rb"""
#define _GNU_SOURCE
#include <dlfcn.h>
#include <fcntl.h>
#include <stdlib.h>
#include <unistd.h>

static long left = -1;

static int is_refused(void) {
    if (left < 0) {
        const char *at = getenv("REFUSE_AT");
        left = at ? atol(at) : 0;
    }
    if (left == 0 || --left != 0)
        return 0;
    close(open(getenv("REFUSED"), O_CREAT | O_WRONLY, 0600));
    return 1;
}

void *malloc(size_t size) {
    static void *(*real)(size_t);
    if (!real)
        real = dlsym(RTLD_NEXT, "malloc");
    return is_refused() ? NULL : real(size);
}

void *realloc(void *old, size_t size) {
    static void *(*real)(void *, size_t);
    if (!real)
        real = dlsym(RTLD_NEXT, "realloc");
    return is_refused() ? NULL : real(old, size);
}
"""

# Make close fail as on a file system that stores a file's data only when the file is closed. The
# first KEPT bytes of the file remain. If KEPT is negative, the file is removed.
UPLOADER = rb"""
#define _GNU_SOURCE
#include <dlfcn.h>
#include <errno.h>
#include <fcntl.h>
#include <stdio.h>
#include <stdlib.h>
#include <sys/stat.h>
#include <unistd.h>

int close(int fd) {
    static int (*real)(int);
    struct stat there;
    char way[64], name[4096];
    long kept = atol(getenv("KEPT"));
    if (!real)
        real = dlsym(RTLD_NEXT, "close");
    if ((fcntl(fd, F_GETFL) & O_ACCMODE) != O_WRONLY || fstat(fd, &there)
        || !S_ISREG(there.st_mode))
        return real(fd);
    snprintf(way, sizeof way, "/proc/self/fd/%d", fd);
    ssize_t length = readlink(way, name, sizeof name - 1);
    name[length < 0 ? 0 : length] = 0;
    if (kept < 0 ? unlink(name) : ftruncate(fd, kept))
        abort();
    real(fd);
    errno = ENOSPC;
    return -1;
}
"""


class Command(NamedTuple):
    """A command line, its output file, and the expected result if no system call fails."""

    name: str
    program_args: list[str]
    out: str | None
    status: int | str
    printed: bytes
    written: bytes | None

    def replace_output(self, path: str) -> Command:
        return self._replace(program_args=[*self.program_args[:2], path], out=path)


class Call(NamedTuple):
    """A system call in a log from strace.

    `on` is the descriptor, or the file name in a call to openat or statx. `number` is the position
    of the call among those with the same name, counted from 1.
    """

    name: str
    on: str
    file: str
    result: int | None
    is_injected: bool
    number: int


class RunResult(NamedTuple):
    """The result of a run. `printed` is the output, if known. `written` is the file, if it exists.

    If the program could not run, `status` is the reason. `error_text` is standard error. `changed`
    contains the names of other changed files.
    """

    status: int | str
    printed: bytes | None
    written: bytes | None
    calls: list[Call]
    error_text: str = ""
    changed: tuple[str, ...] = ()


CaseResult = tuple[str, Union[RunResult, Command], list[str]]  # name, run and faults of a case
Case = Callable[[], list[CaseResult]]  # runs the program, and returns the result of each run
End = tuple[int, bytes]  # expected status and output


def read(path: str) -> bytes | None:
    if not os.path.isfile(path):
        return None
    with open(path, "rb") as file:
        return file.read()


def read_files(place: str, command: Command) -> dict[str, bytes | None]:
    """Return the contents of a folder's files, except strace's log and the command's output."""
    out = os.path.realpath(os.path.join(place, command.out)) if command.out else ""
    return {name: read(os.path.join(place, name)) for name in os.listdir(place)
            if name not in (command.out, "calls")
            and os.path.realpath(os.path.join(place, name)) != out}


def parse_calls(log: bytes) -> list[Call]:
    """Return the system calls in a log from strace."""
    calls: list[Call] = []
    numbers: dict[str, int] = {}
    for line in log[:MAX_LOG_BYTES].decode("utf-8", "replace").splitlines():
        match = CALL.match(line)
        if not match:
            continue
        name, arguments, result, rest = match.groups()
        numbers[name] = numbers.get(name, 0) + 1
        on, _, path = arguments.partition(",")[0].rstrip(">").partition("<")
        if name in ("openat", "statx"):
            on = arguments.split('"')[1]
        calls.append(Call(name, on, os.path.basename(path),
                          int(result, 0) if result != "?" else None,
                          "(INJECTED)" in rest, numbers[name]))
    return calls


class Setup(NamedTuple):
    """Shell commands to run before the program, and arguments to put before its command line."""

    setup: str
    before: Sequence[str] = ()


def split_output(printed: bytes, errors: bytes, count: int) -> list[tuple[int, bytes, bytes]]:
    """Return the status (negative for a signal), output and error text of each run in a shell."""
    end = END_FORMAT.replace("\\0", "\0").encode()
    texts, error_text = printed.split(end), errors.split(end)
    if (len(texts), len(error_text)) != (2 * count + 1, count + 1):
        raise ValueError("the shell ended before its runs")
    return [(128 - status if status > 128 else status, text, item)
            for text, status, item in zip(texts[::2], map(int, texts[1::2]), error_text)]


def collect_run(place: str, command: Command, before: dict[str, bytes | None], status: int,
                printed: bytes | None, errors: bytes) -> RunResult:
    """Return the result of a run in a folder. `before` contains the files before the run."""
    calls = parse_calls(read(os.path.join(place, "calls")) or b"")
    written = read(os.path.join(place, command.out)) if command.out else None
    after, error_text = read_files(place, command), errors.decode("utf-8", "replace")
    names = sorted(before.keys() | after.keys())
    return RunResult(status, printed, written, calls,
                     "\n".join(line for line in error_text.splitlines()
                               if not SHELL_MESSAGES.match(line)),
                     tuple(name for name in names if before.get(name) != after.get(name)))


class Trial:
    """The program, its inputs and commands, and the tests that this machine can't run."""

    def __init__(self, program: str, folder: str) -> None:
        self.program, self.folder = program, folder
        self.commands: dict[str, Command] = {}
        self.inputs: dict[str, bytes] = {}
        self.skipped: list[str] = []
        self.has_strace = self.can_run([*STRACE, "-o", os.devnull, "true"])
        # Root may read every file, so permission tests run as another user.
        self.user_arguments: dict[str, int] = {} if os.geteuid() else {"user": ANOTHER_USER}
        self.can_change_user = self.can_run(["test", "-x", program], **self.user_arguments)

    @staticmethod
    def can_run(command: Sequence[str], **more: Any) -> bool:
        try:
            return subprocess.run(command, stdin=subprocess.DEVNULL, stdout=subprocess.DEVNULL,
                                  stderr=subprocess.DEVNULL, check=False, **more).returncode == 0
        except (OSError, subprocess.SubprocessError):
            return False

    def add_input(self, name: str, data: bytes) -> None:
        """Write an input file, which each run can read as ../NAME."""
        self.inputs[name] = data
        with open(os.path.join(self.folder, name), "wb") as file:
            file.write(data)

    def build_library(self, name: str, source: bytes) -> str | None:
        """Build a library for LD_PRELOAD. Return `None` if there is no C compiler."""
        if not shutil.which("cc"):
            self.skipped.append(f"{name}: there is no C compiler (cc)")
            return None
        file = name.replace(" ", "-")  # spaces separate the libraries in LD_PRELOAD
        self.add_input(f"{file}.c", source)
        path = os.path.join(self.folder, file)
        subprocess.run(["cc", "-O2", "-shared", "-fPIC", "-o", f"{path}.so", f"{path}.c", "-ldl"],
                       check=True)
        return f"{path}.so"

    def make_command(self, name: str, program_args: list[str]) -> Command:
        """Return a command with the result that is expected if no system call fails."""
        out = program_args[2] if program_args[0] in ("normal", "schedule", "extract") else None
        run_result = self.run(Command(name, program_args, out, 0, b"", None))
        return Command(name, program_args, out, run_result.status, run_result.printed or b"",
                       run_result.written)

    def run(self, command: Command, before: Sequence[str] = (), setup: str = "",
            prepare: Callable[[str], object] | None = None,
            stdout: int | IO[bytes] = subprocess.PIPE, **more: Any) -> RunResult:
        """Run the program in a new folder, from a shell that first runs the commands `setup`."""
        with tempfile.TemporaryDirectory(dir=self.folder) as place:
            os.chmod(place, 0o777)
            if prepare:
                prepare(place)
            files_before = read_files(place, command)
            script = f'ulimit -c 0; ulimit -t {SECONDS}; {setup} exec "$@"'
            line = ["sh", "-c", script, "sh", *before, self.program, *command.program_args]
            try:
                process = subprocess.run(line, stdout=stdout, stderr=subprocess.PIPE, cwd=place,
                                         stdin=subprocess.DEVNULL, timeout=MAX_SECONDS, check=False,
                                         **more)
            except (OSError, subprocess.SubprocessError) as error:
                return RunResult(str(error), b"", None, [])
            return collect_run(place, command, files_before, process.returncode, process.stdout,
                               process.stderr)

    def run_with_setups(self, command: Command, setups: Sequence[Setup]) -> list[RunResult]:
        """Run the program with each setup in a new folder, all from one shell to save time."""
        places = [tempfile.mkdtemp(dir=self.folder) for _ in setups]
        script = f"ulimit -c 0; ulimit -t {SECONDS}\n" + "".join(
            f"(cd {shlex.quote(place)} && {{ {setup.setup} exec "
            f"{shlex.join([*setup.before, self.program, *command.program_args])}; }})\n"
            f"printf '{END_FORMAT}%d{END_FORMAT}' $?; printf '{END_FORMAT}' >&2\n"
            for place, setup in zip(places, setups))
        try:
            process = subprocess.run(["sh", "-c", script], stdout=subprocess.PIPE,
                                     stderr=subprocess.PIPE, stdin=subprocess.DEVNULL,
                                     timeout=MAX_SECONDS, check=False)
            return [collect_run(place, command, {}, *ended) for place, ended in zip(
                places, split_output(process.stdout, process.stderr, len(setups)))]
        except (OSError, ValueError, subprocess.SubprocessError) as error:
            return [RunResult(str(error), b"", None, []) for _ in setups]
        finally:
            for place in places:
                shutil.rmtree(place)

    def run_traced(self, command: Command, injections: Sequence[str]) -> list[RunResult]:
        """Run a command under strace once for each fault injection."""
        return self.run_with_setups(command, [
            Setup("", [*STRACE, "-o", "calls", *(["-e", injection] if injection else [])])
            for injection in injections])

    def list_own_calls(self, command: Command) -> list[Call]:
        """Return the system calls of the program itself, without the calls of the loader."""
        calls = self.run_traced(command, [""])[0].calls
        start = next(at for at, call in enumerate(calls) if call.name == "rt_sigaction")
        return calls[start + 1:]


def find_faults(run_result: RunResult, status: int | str, printed: bytes,
                written: bytes | None) -> list[str]:
    """Return the differences between a run and the expected status, output and file."""
    faults = []
    if run_result.status != status:
        faults.append(f"status {run_result.status}, expected {status}")
    if run_result.printed is not None and run_result.printed != printed:
        faults.append(f"printed {shown(run_result.printed)}, expected {shown(printed)}")
    if run_result.written != written:
        faults.append(f"wrote {size(run_result.written)}, expected {size(written)}")
    if run_result.changed:
        faults.append(f"changed {', '.join(run_result.changed)}")
    return faults + find_explanation_faults(run_result, printed)


def find_explanation_faults(run_result: RunResult, printed: bytes) -> list[str]:
    """Return the faults in the standard error of a run.

    It must explain each fault of a file or of the arguments, wrong arguments in one line, and be
    empty for status 0 and 1.
    """
    if run_result.status in (0, 1) and run_result.error_text:
        return [f"unexpected standard error: {run_result.error_text!r}"]
    lines = run_result.error_text.splitlines()
    if run_result.status != 2 or not EXPLAINED.search(printed):
        return []
    if not lines or not all(line.startswith(EXPLANATION) for line in lines):
        return [f"standard error does not explain the fault: {run_result.error_text!r}"]
    if printed.startswith(b"usage ") and len(lines) > 1:
        return [f"standard error has {len(lines)} lines: {run_result.error_text!r}"]
    return []


def shown(text: bytes) -> str:
    return f"{len(text)} bytes up to {text[-30:]!r}" if text else "nothing"


def size(data: bytes | None) -> str:
    return "no file" if data is None else f"these {len(data)} bytes"


def compare_with_normal_run(command: Command, run_result: RunResult) -> list[str]:
    """Compare a run with the run of the same command in which no call fails."""
    return find_faults(run_result, command.status, command.printed, command.written)


def check_memory_failure(command: Command, run_result: RunResult) -> list[str]:
    """Return the faults in a run with little memory.

    The output must be the normal output, or must report that memory ran out. With the normal
    output, the explanation of wrong arguments may be missing or incomplete.
    """
    result = NO_MEMORY.search(run_result.printed or b"")
    if not result or run_result.printed is None:
        if command.status == 2 and (not run_result.error_text
                                    or run_result.error_text.startswith(COMMAND_LINE_ERROR)):
            run_result = run_result._replace(error_text=EXPLANATION)
        return compare_with_normal_run(command, run_result)
    before = run_result.printed[:result.start()]
    faults = find_faults(run_result, 2, before + result[0], run_result.written)
    if not command.printed.startswith(before):
        faults.append("the output before is not a prefix of the complete output")
    if not (command.written or b"").startswith(run_result.written or b""):
        faults.append("the file is not a prefix of the complete file")
    return faults


def expect_write_fault(command: Command) -> bytes:
    return b"fault 29 Write\n" if command.program_args[0] == "normal" else b"fault 42 Write\n"


def count_packets_before(data: bytes, offset: int) -> int:
    """Return the number of PES packets that end at or before an offset."""
    count = at = 0
    while at + 6 <= offset:
        at += 6 + int.from_bytes(data[at + 4:at + 6], "big")
        count += at <= offset
    return count


def parse_block(line: bytes) -> int:
    """Return the block number in a line of the form `refused NN Name block N`."""
    return int(line.split()[4])


def expect_read_fault(trial: Trial, command: Command, name: str, offset: int) -> bytes:
    """Return the expected output if reading an input fails at an offset."""
    lines = command.printed.splitlines(True)
    if name.endswith(".stl"):
        block = 0 if offset < GSI else (offset - GSI) // TTI + 1
        before = lines[:max(block - 1, 0)] if command.program_args[0] == "show" else []
        if "--all" in command.program_args:
            # The program continues reading after faults in earlier blocks.
            before = [line for line in lines if b" block " in line and parse_block(line) < block]
        return b"".join(before) + b"fault 26 Read block %d\n" % block
    index = count_packets_before(trial.inputs[name], offset)
    starts = [at for at, line in enumerate(lines) if line.startswith(b"pes ")] + [len(lines) - 1]
    before = lines[:starts[index]] if command.program_args[0] == "packets" else []
    if "--all" in command.program_args:
        # Lines about the subtitle file come first, then FAULTS_PER_PACKET lines for each PES packet
        # in a frame whose expected page is known, then lines about trusted frames.
        error_text = FAULTS_PER_PACKET[name] * index
        for line in lines:
            if line.startswith(b"refused ") and b" block " not in line and b" 78 " not in line:
                error_text -= 1
                if error_text < 0:
                    break
            if line.startswith((b"refused ", b"ended 78 ")):
                before.append(line)
    return b"".join(before) + b"fault 41 Read pes %d\n" % index


def count_bytes_before(calls: list[Call], call: Call) -> int:
    """Return how many bytes earlier calls of the same name transferred on the same descriptor."""
    return sum(other.result or 0 for other in calls[:calls.index(call)]
               if (other.name, other.on, other.file) == (call.name, call.on, call.file))


def is_output_check(calls: list[Call], call: Call) -> bool:
    """Return whether a call comes after the output was stored, to check the file and its folder."""
    return call.name != "write" and any(
        other.name == "fsync" for other in calls[:calls.index(call)])


def is_explanation(call: Call) -> bool:
    """Return whether a call writes to standard error."""
    return call.name == "write" and call.on == "2"


def judge(trial: Trial, command: Command, run_result: RunResult) -> list[str]:
    """Return the faults of a run in which strace made system calls fail.

    A failed write to standard error must not change the rest of the output.
    """
    injected_calls = [call for call in run_result.calls if call.is_injected]
    if not injected_calls:
        return ["no call failed"] + compare_with_normal_run(command, run_result)
    if any(is_explanation(call) for call in injected_calls):
        run_result = run_result._replace(error_text=EXPLANATION)
    failed = {(call.name, call.on): call for call in reversed(injected_calls)
              if not is_explanation(call)}
    if not failed:
        return compare_with_normal_run(command, run_result)
    first = next(iter(call for call in injected_calls if not is_explanation(call)))
    text, written = command.printed, command.written
    if is_output_check(run_result.calls, first):
        text = expect_write_fault(command)
    elif first.name in ("openat", "statx"):
        text, written = b"fault 90 Open\n", None
    elif first.name == "read":
        text = expect_read_fault(trial, command, first.file,
                                 count_bytes_before(run_result.calls, first))
        written = b"" if command.out else None
    elif first.name == "fsync":
        text = expect_write_fault(command)
    elif first.on != "1":
        text = expect_write_fault(command)
        written = (command.written or b"")[:count_bytes_before(run_result.calls, first)]
    output_failure = failed.get(("write", "1"))
    if output_failure:
        text = text[:count_bytes_before(run_result.calls, output_failure)]
    faults = find_faults(run_result, 2, text, written)
    for (name, on), call in failed.items():
        after = [other for other in run_result.calls[run_result.calls.index(call) + 1:]
                 if other.name == name and not is_explanation(other)]
        if name in ("read", "write") and any(on in (other.on, "1") for other in after):
            faults.append(f"a {name} after the one that failed")
    return faults
