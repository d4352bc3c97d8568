"""Judge a pair, print the verdict, and write the result files."""
from __future__ import annotations

import argparse
import contextlib
import fcntl
import functools
import itertools
import os
import re
import signal
import stat
import time
from typing import Callable, Iterator, Mapping, NamedTuple, TypeVar

from ..common.command_line import (
    BUG, ProgramInterrupted, RESOURCE, SIGNAL, Stop, classify_error, counted, discard_output,
    escape_character, format_error, print_stderr)
from ..common.files import (
    Inputs, STANDARD_OUTPUTS, Stamp, add_name_to_errors, describe_kind, is_replaced,
    make_temporary_folder, open_output, open_result, read_chunks, read_first_bytes, read_stamp,
    refuse_output_name)
from ..common.markup import HEAD
from ..common.program import describe_program
from ..formats.listing import parse_count_line, is_check_line
from ..formats.stl_writer import PUB, READ_PUBLISHER
from ..judging.causes import format_cause_counts
from ..judging.faults import list_hints
from ..judging.pair import PairJudge
from ..judging.status import ACCEPTED, AS_SHOWN, NOT_JUDGED, RELATIVE, SAME, Severity, VALID
from ..judging.verdict import FailedOutput, SCOPE_FILE, SCOPE_PAIR, Unjudged, Verdict
from ..recording.recording import Recording
from ..request.commands import (
    CommandPaths, Listener, LOCK, MOVED_STL, OutputNames, PartFiles, Progress, Printer, STATE,
    list_pair_files, make_index_path, make_lock_path, make_pair_name, format_profile)
from ..request.request import (
    Request, Unclear, IncompleteAnswer, begin_programme_day, keep_stl, make_request)
from ..results import files as results
from ..results.files import describe_inputs, encode_result, make_unjudged
from ..stream.gaps import limit_lines


# Only one run of qc at a time writes the results of a pair into a folder. It removes earlier
# results, but no other files, since the folder may also contain the inputs. `RESULT` recognises a
# JSON result by its first bytes.

RESULT = re.compile(rb'\{\s*"format": [0-9]+,\s*"(verdict": "|status": )')
STATE_PREFIX = b'{\n "date": "'  # first bytes of a state file
PREFIX_BYTES = 4096  # maximum number of bytes to read to recognise a file
KEPT_SECONDS = 600  # maximum number of seconds from writing a recording to writing its result


class FilesInUse(Stop):
    """Raised if another run of qc is already writing the same output files."""

    kind = RESOURCE


def refuse_pair_files(folder: str, name: str, inputs: Inputs, parts: PartFiles | None = None
                    ) -> None:
    """Raise `Stop` if the result files of a pair would replace an input, or a file that these tools
    did not write."""
    for path in [*list_pair_files(folder, name, parts), make_lock_path(folder, name)]:
        refuse_file(path, inputs)


def refuse_folder_files(folder: str, inputs: Inputs) -> None:
    """Raise `Stop` if a folder's index page or lock file would replace an input, or a file that
    these tools did not write."""
    for path in (make_index_path(folder), make_lock_path(folder, "")):
        refuse_file(path, inputs)


def is_own_file(path: str) -> bool:
    """Return whether these tools wrote a file. Examine the file's first bytes, or for a copy of an
    input the time at which it was written."""
    stem, ending = os.path.splitext(path)
    if ending in (".pes", ".ts", ".copy"):
        return is_kept_copy(path, f"{os.path.splitext(stem)[0]}.json")
    data = read_first_bytes(path, PREFIX_BYTES, is_followed=False)
    if not data or ending == f".{LOCK}":
        return not data
    if ending == ".txt":
        line = data.split(b"\n")[0].decode("utf-8", "replace")
        return is_check_line(line) and parse_count_line(line) is None
    if os.path.basename(path) == STATE:
        return data.startswith(STATE_PREFIX)
    if ending == ".stl":
        return data[PUB].startswith(READ_PUBLISHER)
    return bool(RESULT.match(data)) if ending == ".json" else data.startswith(HEAD.page())


def is_kept_copy(path: str, result: str) -> bool:
    """Return whether the copy of an input was kept by the run that wrote the file `result`. The run
    writes the result soon after the copy."""
    if not os.path.isfile(result) or not is_own_file(result):
        return False
    return 0 <= os.stat(result).st_mtime_ns - os.stat(path).st_mtime_ns < KEPT_SECONDS * 10**9


def refuse_file(path: str, inputs: Inputs) -> None:
    """Raise `Stop` if a file is an input or was not written by these tools. A symbolic link may be
    replaced, but not its target."""
    inputs.refuse(path, False)
    with contextlib.suppress(FileNotFoundError, NotADirectoryError):
        info = os.lstat(path)
        if not stat.S_ISLNK(info.st_mode) and (describe_kind(info.st_mode)
                                               or not is_own_file(path)):
            raise Stop(f"{path} exists and was not written by these tools: move it away, or give "
                       "another folder")


def remove_results(folder: str, name: str, parts: PartFiles | None = None) -> None:
    """Remove the results that an earlier run wrote for a pair."""
    for path in list_pair_files(folder, name, parts):
        if os.path.lexists(path):
            os.unlink(path)


def lock_pair(folder: str | None, name: str) -> contextlib.AbstractContextManager[None]:
    """Create a folder, and lock the result files of a pair in it until the `with` block ends."""
    return hold_lock(folder, name, f"another run of qc is writing the files of pair {name} to ")


def lock_folder(folder: str | None) -> contextlib.AbstractContextManager[None]:
    """Create a folder, and lock it against other batches until the `with` block ends."""
    return hold_lock(folder, "", "another run of qc is judging a batch into ")


@contextlib.contextmanager
def hold_lock(folder: str | None, name: str, refusal: str) -> Iterator[None]:
    """If `folder` is not `None`, create the folder and hold a lock in it. Raise `FilesInUse` with
    the message `refusal` if another process holds the lock."""
    if folder is None:
        yield
        return
    path = make_lock_path(folder, name)
    with add_name_to_errors(folder):
        os.makedirs(folder, exist_ok=True)
        handle = open_locked_file(path)
    if handle is None:
        raise FilesInUse(refusal + folder)
    try:
        yield
    finally:
        with contextlib.suppress(OSError):  # the folder may be missing now
            if is_file_at(handle, path):
                os.unlink(path)
        os.close(handle)


def open_locked_file(path: str) -> int | None:
    """Open and lock a file. Return `None` if another process has locked it. If the path is a
    symbolic link, replace the link with a file."""
    while True:
        if os.path.islink(path):
            os.unlink(path)
        handle = os.open(path, os.O_RDWR | os.O_CREAT | os.O_CLOEXEC | os.O_NOFOLLOW
                         | os.O_NONBLOCK, 0o666)
        try:
            fcntl.flock(handle, fcntl.LOCK_EX | fcntl.LOCK_NB)
        except BlockingIOError:
            os.close(handle)
            return None
        except OSError:
            return handle  # the file system does not support locks
        if is_file_at(handle, path):
            return handle
        os.close(handle)  # another process has removed the file


def is_file_at(handle: int, path: str) -> bool:
    """Return whether an open file is still the file at a path."""
    try:
        return os.path.samestat(os.fstat(handle), os.lstat(path))
    except FileNotFoundError:
        return False


SURROGATES = re.compile("[\ud800-\udfff]")  # bytes of a file name that are not UTF-8
SIGNALS = (signal.SIGINT, signal.SIGTERM, signal.SIGHUP)
SUMMARY_LINES = 100  # maximum number of lines of a list in a summary, and in a JUnit file


def now(seconds: float | None = None) -> str:
    """Format a time in seconds since the epoch as UTC. The default is the current time."""
    return time.strftime("%Y-%m-%dT%H:%M:%SZ", time.gmtime(seconds))


class PairOptions(NamedTuple):
    """The program and the output files for a pair."""

    program: str | None
    out: str | None = None
    is_kept: bool = False
    json: str | None = None
    csv: str | None = None
    junit: str | None = None
    name: str | None = None  # overrides the name from the subtitle file
    staging_folder: str | None = None  # folder for files that the caller moves later
    is_claimed: bool = False  # whether the caller has locked the files
    is_quiet: bool = False
    # Called with the verdict before it is written. If it raises `Unclear`, the pair is not judged.
    examine: Callable[[Verdict], None] = lambda _: None

    def make_printer(self) -> Printer:
        """Return the printer. If standard output is for a result, it prints to standard error."""
        printer = Printer(Progress(), any(path in STANDARD_OUTPUTS
                                          for path in (self.json, self.csv, self.junit)))
        printer.is_quiet = self.is_quiet
        return printer


def read_pair_options(args: argparse.Namespace) -> PairOptions:
    """Return the program and the output files that a command line names."""
    return PairOptions(args.program, args.out or None, args.is_kept, args.json, args.csv,
                       args.junit, is_quiet=args.is_quiet)


def judge_command(args: argparse.Namespace, program_name: str) -> int:
    """Judge the pair on a command line. Return the exit status."""
    return judge_and_report(make_request(args), read_pair_options(args), program_name).status


def judge_and_report(request: Request, call: PairOptions, program_name: str) -> Verdict:
    """Judge a pair, print the verdict and write the output files. Return the verdict."""
    out, staging_folder = call.out, call.staging_folder or call.out
    printer = call.make_printer()
    printer.before_last_line = ignore_signals  # so that the last line agrees with the exit status
    if request.profile:
        printer.print_line(format_profile(request.profile))
    command_paths = CommandPaths(program_name, call.program)
    listener = Listener(printer)
    stamps = stamp_inputs(request)
    verdict = make_verdict(request, listener, Verdict)
    verdict.is_kept = call.is_kept
    name = call.name or make_pair_name(request.stl)
    refuse_outputs(call, request, staging_folder, name)
    with make_temporary_folder("subttx-qc-") as folder, lock_pair(
            None if call.is_claimed else staging_folder, name):
        if staging_folder is not None and not call.is_claimed:
            remove_results(staging_folder, name)
        names = OutputNames(name, folder, out, staging_folder)
        keep_stl(request, folder)
        with begin_programme_day(request, folder):
            names.set_subtitle_file(request.stl_path, request.moved_stl is not None)
            files = OutputFiles(call, verdict, command_paths, names, stamps)
            verdict.files_at_start = describe_inputs(request)
            pair = PairJudge(verdict, command_paths, names, listener, files.needs_sums())
            judge_pair(pair, files)
            report_pair(verdict, printer, files)
    return verdict


def stamp_inputs(request: Request) -> dict[str, Stamp | None]:
    """Return the stamps (identity, size, times) of the input files that are read more than once."""
    names = request.stl, request.recording, request.severity
    return {name: read_stamp(name) for name in names if name}


AnyVerdict = TypeVar("AnyVerdict", bound=Verdict)


def make_verdict(request: Request, listener: Listener, kind: type[AnyVerdict]) -> AnyVerdict:
    """Return an empty verdict that shares the notes, commands and choices of `listener`."""
    return kind(request, Severity(
        request.severity, request.is_loss_allowed, request.pace is not None), now(),
                notes=listener.notes, commands=listener.commands, selections=listener.selections)


def refuse_outputs(call: PairOptions, request: Request, out: str | None, name: str) -> None:
    """Raise `Stop`, before judging begins, if an output can't be written or is an input."""
    inputs = Inputs(request.stl, request.recording, *request.other_files)
    for path in (call.json, call.csv, call.junit):
        if path:
            inputs.refuse(path, True)
            refuse_output_name(path)
    if out is not None and not call.is_claimed:
        refuse_pair_files(out, name, inputs)


def judge_pair(pair: PairJudge, files: OutputFiles) -> None:
    """Judge a pair and write its output files. The verdict says why a pair is not judged."""
    verdict, start_time = pair.verdict, time.monotonic()
    try:
        pair.judge()
        files.call.examine(verdict)
        if verdict.word not in (AS_SHOWN, SAME):
            verdict.hints = [*dict.fromkeys(list_hints(verdict))]  # parts may share a hint
    except Unclear as unclear:
        verdict.unjudged = Unjudged(unclear.reason, unclear.kind, unclear.commands,
                                    isinstance(unclear, IncompleteAnswer))
    except Exception as reason:  # any error means that the pair is not judged
        verdict.unjudged = Unjudged(format_error(reason), classify_error(reason),
                                    is_temporary=isinstance(
            reason, (ProgramInterrupted, OSError, MemoryError)))
    except KeyboardInterrupt:
        ignore_signals()  # so that the known faults can be written
        verdict.unjudged = Unjudged(f"stopped at {pair.stop(now())}", SIGNAL, is_stopped=True)
    verdict.seconds = round(time.monotonic() - start_time, 3)
    try:
        files.write(pair.recording)
    except KeyboardInterrupt as reason:
        ignore_signals()
        verdict.add_failed_output(reason)
        files.write(pair.recording)


def report_pair(verdict: Verdict, printer: Printer, files: OutputFiles) -> None:
    """Print the verdict. If that fails, write the verdict `not judged` to all output files."""
    try:
        print_verdict(verdict, printer, files.page)
    except KeyboardInterrupt as reason:
        ignore_signals()
        verdict.add_failed_output(reason)
        files.rewrite_outputs()
        print_verdict(verdict, printer, files.page)
    except Exception as reason:
        verdict.add_failed_output(reason)
        files.rewrite_outputs()
        print_stderr(verdict.failed_outputs[-1].reason)
        discard_output(printer.out)


def handle_signals() -> None:
    """Make signals interrupt this run, except those that are ignored, for example under nohup."""
    for signal_number in SIGNALS:
        if signal.getsignal(signal_number) != signal.SIG_IGN:
            signal.signal(signal_number, signal.default_int_handler)


def ignore_signals() -> None:
    """Ignore the signals that would interrupt writing the results."""
    for signal_number in SIGNALS:
        signal.signal(signal_number, signal.SIG_IGN)


def print_verdict(verdict: Verdict, printer: Printer, page: str | None = None) -> None:
    """Print the verdict after losses, notes and warnings. `page` is the path of the report."""
    causes = [part.causes for part in verdict.parts if part.causes]
    if causes:
        printer.print_line(format_cause_counts(causes))
    for line in verdict.format_part_lines():
        printer.print_line(line)
    for line in limit_lines([gap.format_line() +
                             ("" if gap.is_judged else ", outside the judged range")
                             for gap in verdict.gaps]):
        printer.print_error(line)
    if verdict.is_lost and not verdict.request.is_loss_allowed:
        printer.print_error("record that part again: the missing frames were not checked")
    for line in [*verdict.notes, *verdict.list_unchecked_lines()]:
        printer.print_error(line)
    for warning in verdict.warnings:
        printer.print_error(warning.format_warning())
    if verdict.line is not None:
        if verdict.request.within and verdict.delays:
            printer.print_line(verdict.delays.describe())
        if verdict.estimated_clock_note and verdict.word != RELATIVE:
            printer.print_line(verdict.estimated_clock_note)
        for line in verdict.hints:
            printer.print_line(line)
        printer.print_verdict(verdict.sentence + format_reference(verdict, page), verdict.line)
    elif is_check_line(printer.last_line):  # the program's last line is not the verdict
        printer.print_line(NOT_JUDGED)
    if verdict.is_stopped:
        printer.print_line(counted(verdict.fault_count, "fault") + " so far" if verdict.parts else
                   "nothing was judged so far")
    for line in (verdict.unjudged_reason or "").splitlines():
        printer.print_error(f"{NOT_JUDGED}: {line}" if verdict.is_stopped else line)
    for at, line in enumerate(verdict.suggestions):
        printer.print_error(f"{'try' if at == 0 else 'or'}: {line}")


def format_reference(verdict: Verdict, page: str | None) -> str:
    """Return a sentence that refers the reader to the report or, if there is no report, to the
    manual's section about the worst fault. Return an empty string if there is no fault."""
    if verdict.word in (ACCEPTED, VALID, AS_SHOWN, SAME) or \
            verdict.word == RELATIVE and not verdict.fault_count:
        return ""
    if page:
        return f" See {page}."
    if verdict.worst_named_fault:
        return f" See docs/manual/refusals.md#{verdict.worst_named_fault.name.replace(' ', '-')}."
    fault = verdict.worst_part.worst_fault_line if verdict.worst_part else None
    return f" See docs/manual/refusals.md#n{fault.number}." if fault else ""


class Output(NamedTuple):
    """A requested file, and the function that makes its contents."""

    path: str
    make_chunks: Callable[[], Iterator[bytes]]
    is_result: bool = False  # whether the file is in the output folder
    is_json: bool = False
    is_raw: bool = False  # whether the file lacks the verdict

    @property
    def is_replaced(self) -> bool:
        """Return whether the file can be written again. A pipe or a device can't."""
        return self.is_result or is_replaced(self.path)


class OutputFiles:
    """Writes the requested output files."""

    def __init__(self, call: PairOptions, verdict: Verdict, command_paths: CommandPaths,
                 names: OutputNames, stamps: Mapping[str, Stamp | None] = {}) -> None:
        self.call, self.verdict, self.names = call, verdict, names
        self.command_paths = command_paths
        self.stamps = stamps  # state of the input files when judging began
        self.written: list[Output] = []

    @property
    def page(self) -> str | None:
        """Return the path of the report, as the user would type it."""
        return self.names.make_display_path("html") if self.names.out else None

    def needs_sums(self) -> bool:
        """Return whether an output contains the checksums of the inputs."""
        return bool(self.call.out or self.call.json or self.call.csv)

    def write(self, recording: Recording | None = None) -> None:
        """Write all outputs. The JSON result in the output folder comes last. If an output can't be
        written, change the verdict to `not judged`, and write the earlier outputs again."""
        for output in sorted(self.list_outputs(recording), key=lambda item: not item.is_replaced):
            self.find_changes()
            if self.try_to_write(output):
                self.written.append(output)
            else:
                self.rewrite_outputs()
        self.find_changes()

    def find_changes(self) -> None:
        """Withdraw the verdict if an input file has changed. The file was read several times, so it
        is unknown which bytes were judged."""
        changed = [name for name, stamp in self.stamps.items() if read_stamp(name) != stamp]
        if changed:
            self.stamps = {}  # report each change only once
            self.verdict.failed_outputs += [
                FailedOutput(f"{name} changed while it was judged: judge it again when it is "
                             "complete", RESOURCE) for name in changed]
            self.rewrite_outputs()

    def rewrite_outputs(self) -> None:
        """Write the outputs again, since a failure has changed the verdict."""
        for output in self.written:
            if output.is_replaced and not output.is_raw:
                self.try_to_write(output)

    def try_to_write(self, output: Output) -> bool:
        """Write an output. If that fails, add the reason to the verdict. Return whether it
        succeeded."""
        try:
            self.write_output(output)
        except Exception as reason:
            self.verdict.add_failed_output(reason)
            if output.is_json and not isinstance(reason, (Stop, OSError)):
                known = make_unjudged(self.names.name, self.verdict.unjudged_reason or "",
                                      self.verdict.not_judged_kind or BUG)
                self.write_output(output._replace(make_chunks=lambda: iter([encode_result(known)])))
            return False
        return True

    def list_outputs(self, recording: Recording | None) -> list[Output]:
        """Return the requested output files."""
        call, verdict, names = self.call, self.verdict, self.names
        outputs = [Output(call.csv,
                          lambda: results.make_subtitle_lines(verdict))] if call.csv else []
        outputs += [Output(call.junit, self.make_pair_junit_file)] if call.junit else []
        outputs += self.list_raw_outputs(recording) if names.out else []
        if not call.json and not names.json_path:
            return outputs
        program = describe_program(self.command_paths.program_path)

        def page() -> Iterator[bytes]:
            from ..report.page import make_report_page  # most runs do not need it
            return iter([make_report_page(verdict, self.command_paths).page()])

        def members() -> Iterator[bytes]:
            return map(encode_text, results.make_result_chunks(verdict, program))

        outputs += [Output(names.report_path, page, True)] if names.out else []
        outputs += [Output(call.json, members, is_json=True)] if call.json else []
        outputs += [Output(names.json_path, members, True, True)] if names.json_path else []
        return outputs

    def list_raw_outputs(self, recording: Recording | None) -> list[Output]:
        """Return the fault lists of all parts, the copy of the subtitle file with moved times, the
        kept recording, and the subtitle file that was read from the recording."""
        lists = [Output(part.names.make_final_path("txt"), part.check_output.read_bytes, True,
                        is_raw=True)
                 for part in self.verdict.parts]
        if moved_stl := self.verdict.request.moved_stl:
            lists.append(Output(self.names.make_final_path(MOVED_STL),
                                functools.partial(read_chunks, moved_stl), True, is_raw=True))
        ending = recording and recording.packets.count and recording.kept_ending
        if self.call.is_kept and recording and ending:
            lists.append(Output(self.names.make_final_path(ending), recording.read_kept_data, True,
                                is_raw=True))
        if self.verdict.scope not in (SCOPE_PAIR, SCOPE_FILE) and self.verdict.is_judged and \
                self.verdict.stl:
            lists.append(Output(self.names.make_final_path("stl"), lambda: read_chunks(
                self.verdict.request.original_path), True, is_raw=True))
        return lists

    def make_pair_junit_file(self) -> Iterator[bytes]:
        """Yield the JUnit file, which has one test case for the pair."""
        verdict = self.verdict
        case = results.TestCase(make_pair_title(verdict.request), verdict.word, verdict.status,
                                verdict.worst_line or verdict.unjudged_reason or "",
                                self.list_lines(), verdict.seconds,
                                verdict.subtitle_counts.describe() if verdict.subtitle_counts
                                else "", verdict.sentence,
                                ", ".join(verdict.unchecked_kinds))
        yield results.make_junit_file([case], verdict.date)

    def list_lines(self) -> list[str]:
        """Return the first lines of the fault list of each part."""
        lines = (line for part in self.verdict.parts for line in part.check_output.read_lines()
                 if part.check_output.fault_count)
        return list(itertools.islice(lines, SUMMARY_LINES))

    @staticmethod
    def write_output(output: Output) -> None:
        """Write a file completely or not at all."""
        with open_result(output.path) if output.is_result else open_output(output.path) as file:
            for chunk in output.make_chunks():
                file.write(chunk)


def encode_text(text: str) -> bytes:
    """Encode the text of a JSON result, and escape bytes of file names that are not UTF-8."""
    return SURROGATES.sub(lambda found: "\\" + escape_character(found[0]), text).encode()


def make_pair_title(request: Request) -> str:
    """Return the title that tables show for a pair: the names of its files."""
    return " ".join([request.stl, *([request.recording] if request.recording else [])])
