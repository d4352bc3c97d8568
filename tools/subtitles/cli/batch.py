"""Judge the pairs of a folder, list or watched folder. A separate process judges each pair."""
from __future__ import annotations

import argparse
import collections
import contextlib
import fcntl
import gc
import os
import select
import signal
import time
from typing import (
    Any, Callable, Collection, Iterable, Iterator, Mapping, NamedTuple, NoReturn, Sequence)

from ..cli import collection
from ..common.command_line import (
    RESOURCE, Stop, UsageError, classify_error, counted, format_error,
    print_stderr, run_main)
from ..common.files import OutputIsInput, NO_INPUTS, make_temporary_folder
from ..common.program import ProgramInfo, TOP, describe_program
from ..judging.status import NOT_JUDGED
from ..report import page
from ..request.commands import CommandPaths, PartFiles, Progress, STATE
from ..request.lines import (
    BatchItem, collect_inputs, find_file_problem, find_folder_pairs, find_subtitle_files,
    read_line_pair, read_pairs)
from ..request.request import Request
from ..results.files import (
    ENDING, Row, describe_file, describe_inputs, is_current, read_call_result, read_result,
    write_result_file, make_failed, make_row, make_unjudged)
from .main import write_unjudged
from .single import (
    FilesInUse, PairOptions, SIGNALS, handle_signals, ignore_signals, judge_and_report, lock_folder,
    lock_pair, refuse_file, refuse_folder_files, refuse_pair_files, remove_results)
from .state import lock_service, log_bug


# A forked process judges each pair, since loading the modules takes ten times as long as judging a
# small pair. If the process crashes or hangs, the other pairs are still judged.

PRELOADED_MODULE = page  # loaded before forking, since each process may write a report
INPUT, OUTPUT, ERRORS = range(3)
FILES = "/proc/self/fd"  # folder that lists the open files of this process


def judge_forked_pair(request: Request, call: PairOptions) -> int:
    """Judge a pair in a forked process and return the exit status. After an error, write the reason
    to the JSON result. A pipe is refused, since reading it might never end."""
    def judge(_: Sequence[str]) -> int:
        try:
            if reason := find_file_problem(request):
                raise Stop(reason)
            return judge_and_report(request, call, os.path.join(TOP, "tools", "qc")).status
        except (Exception, KeyboardInterrupt) as reason:
            if not isinstance(reason, OutputIsInput):
                name = call.name or ""
                path = call.json or call.out and os.path.join(call.out, name + ENDING)
                write_unjudged(name, {"--json": path}, reason)
            raise

    return run_main(judge, ())


class ProcessNotStarted(Stop):
    """Raised if the system refuses another process."""

    kind = RESOURCE


class ForkedProcess:
    """A forked process that calls a function and uses its result as the exit status. Its standard
    input and output are /dev/null. Its lines on standard error can be read after it has ended."""

    def __init__(self, function: Callable[[], int]) -> None:
        # The error messages go to a file in memory, since the disk may be full.
        self.errors = open(os.memfd_create("errors"), "w+b", buffering=0)
        # This pipe is open until the process ends; its children do not inherit it.
        self.alive_pipe, pipe_end = os.pipe()
        with hold_signals():
            try:
                self.pid = os.fork()
            except OSError as error:
                self.errors.close()
                os.close(self.alive_pipe)
                os.close(pipe_end)
                raise ProcessNotStarted("a process could not be started: "
                                        f"{error.strerror}") from None
            if not self.pid:
                run_and_exit(function, self.errors.fileno(), pipe_end)
            os.close(pipe_end)

    def fileno(self) -> int:
        """Return the descriptor of a pipe, for `select`. The pipe closes when the process ends."""
        return self.alive_pipe

    def stop(self) -> None:
        """Send SIGTERM to the process."""
        with contextlib.suppress(ProcessLookupError):
            os.kill(self.pid, signal.SIGTERM)

    def kill(self) -> None:
        """Kill the process and its children."""
        for kill in (os.killpg, os.kill):  # the process may not be a group leader yet
            with contextlib.suppress(ProcessLookupError):
                kill(self.pid, signal.SIGKILL)

    def cpu_seconds(self) -> float:
        """Return the CPU time of the process and its children in seconds."""
        with contextlib.suppress(OSError):
            with open(f"/proc/{self.pid}/task/{self.pid}/children", encoding="ascii") as file:
                return sum(map(read_cpu_seconds, [str(self.pid), *file.read().split()]))
        return read_cpu_seconds(str(self.pid))

    def wait(self) -> tuple[int, list[str]]:
        """Wait until the process ends. Return its exit status, which is negative for a signal, and
        its lines on standard error."""
        _, status = os.waitpid(self.pid, 0)
        os.close(self.alive_pipe)
        with self.errors:
            self.errors.seek(0)
            lines = self.errors.read().decode("utf-8", "replace").splitlines()
        return os.waitstatus_to_exitcode(status), lines


def read_cpu_seconds(process: str) -> float:
    """Return the CPU time in seconds of a process and its ended children, or 0 if it is gone."""
    try:
        with open(f"/proc/{process}/stat", encoding="utf-8", errors="replace") as file:
            times = file.read().rpartition(")")[2].split()[11:15]  # utime, stime, cutime, cstime
    except OSError:
        return 0.0
    return sum(map(int, times)) / os.sysconf("SC_CLK_TCK")


@contextlib.contextmanager
def hold_signals() -> Iterator[None]:
    """Block the signals that stop qc until the `with` block is complete."""
    before = signal.pthread_sigmask(signal.SIG_BLOCK, SIGNALS)
    try:
        yield
    finally:
        signal.pthread_sigmask(signal.SIG_SETMASK, before)


def run_and_exit(function: Callable[[], int], errors_file: int, pipe_end: int) -> NoReturn:
    """Run the function in this forked process and exit with its result as the status. Keep only the
    files `errors_file` and `pipe_end` open, and skip the cleanup of the parent process."""
    status = 2
    try:
        try:
            gc.freeze()  # keep garbage collection from copying the parent's memory
            os.setsid()
            redirect_files(errors_file, pipe_end)
            handle_signals()
            signal.pthread_sigmask(signal.SIG_UNBLOCK, SIGNALS)
            status = function()
        finally:
            os._exit(status)
    finally:
        os._exit(2)  # reached only if a signal interrupted the inner block


def redirect_files(errors_file: int, pipe_end: int) -> None:
    """Close all files of the parent, including locks, except `errors_file` and the pipe `pipe_end`.
    Redirect standard input and output to /dev/null, and standard error to `errors_file`."""
    errors_file, pipe_end = (fcntl.fcntl(item, fcntl.F_DUPFD_CLOEXEC, ERRORS + 1) for item in
                             (errors_file, pipe_end))
    nothing = os.open(os.devnull, os.O_RDWR)
    for file, place in ((nothing, INPUT), (nothing, OUTPUT), (errors_file, ERRORS)):
        os.dup2(file, place)
    for name in os.listdir(FILES):
        with contextlib.suppress(OSError):
            if int(name) > ERRORS and int(name) != pipe_end:
                os.close(int(name))


def wait_for_any(calls: Collection[ForkedProcess], seconds: float) -> list[ForkedProcess]:
    """Wait up to `seconds` until at least one process ends. Return the ended processes."""
    calls_by_file, poll = {call.fileno(): call for call in calls}, select.poll()
    for file in calls_by_file:
        poll.register(file, select.POLLIN)
    return [calls_by_file[file] for file, _ in poll.poll(1000 * seconds)]


POLL_SECONDS = 0.2
MIN_SECONDS, BYTES_PER_SECOND = 60, 10_000_000
MAX_SECONDS = 3600  # a sparse file may claim any size
GRACE_SECONDS = 10  # seconds between SIGTERM and SIGKILL, in which a process can write its result


def compute_default_limit(files: Mapping[str, Any]) -> int:
    """Return the CPU time limit of a pair in seconds, computed from the sizes of its files. qc does
    not use RLIMIT_CPU, since RLIMIT_CPU would not show which limit ended a program."""
    size: int = sum(info["size"] for info in files.values() if info)
    return min(MIN_SECONDS + size // BYTES_PER_SECOND, MAX_SECONDS)


class RunningPair(NamedTuple):
    """A pair that is being judged, its CPU time limit in seconds, and the lock of its results."""

    item: BatchItem
    limit: int
    pair_lock: contextlib.ExitStack


class PairRunner:
    """Runs the processes that judge pairs. Each process writes the JSON result of its pair into the
    output folder `out`, or into the temporary folder `folder` if there is no output folder."""

    def __init__(self, command_paths: CommandPaths, folder: str, out: str | None, is_kept: bool,
                 limit: int | None = None) -> None:
        self.command_paths, self.folder = command_paths, folder
        self.out, self.is_kept = out, is_kept
        self.limit = limit  # CPU seconds per pair, or `None` for the default limit
        self.parts = PartFiles(out) if out is not None else None
        self.running_pairs: dict[ForkedProcess, RunningPair] = {}
        self.overdue_processes: set[ForkedProcess] = set()
        self.inputs = NO_INPUTS  # inputs of all pairs
        self.unwritten_results: dict[str, dict[str, Any]] = {}
        # names of pairs whose files another run of qc was writing
        self.names_in_use: set[str] = set()
        self.is_stopped = False
        self.report: Callable[[], None] = lambda: None  # called while pairs are judged
        describe_program(command_paths.program_path)  # caches the checksum for forked processes

    def get_result_path(self, item: BatchItem) -> str:
        """Return the path of the JSON result for a pair."""
        return os.path.join(self.out or self.folder, item.name + ENDING)

    def start(self, item: BatchItem) -> Row | None:
        """Start judging a pair. If its results would replace input files or files that qc did not
        write, or if another run of qc is writing them, return the table row of the pair at once."""
        self.unwritten_results.pop(item.name, None)
        self.names_in_use.discard(item.name)
        pair_lock = contextlib.ExitStack()
        try:
            if self.out is not None:
                refuse_pair_files(self.out, item.name, self.inputs, self.parts)
            pair_lock.enter_context(lock_pair(self.out, item.name))
            return self.start_locked_pair(item, pair_lock)
        except (Stop, OSError) as reason:
            if isinstance(reason, FilesInUse):
                self.names_in_use.add(item.name)
            result = make_failed(item.name, reason)
            self.unwritten_results[item.name] = result
            return make_row(result, item.name)
        finally:
            pair_lock.close()  # no effect once `self.running_pairs` has the lock

    def start_locked_pair(self, item: BatchItem, pair_lock: contextlib.ExitStack) -> Row | None:
        """Start judging a pair whose results are locked. Return its row if that fails."""
        if self.out is not None:
            remove_results(self.out, item.name, self.parts)
        if item.request is None:
            return self.record_unjudged(item, item.reason or "", item.reason_kind)
        request = item.request
        call = PairOptions(self.command_paths.program_path, name=item.name, is_claimed=True)
        call = call._replace(out=self.out, is_kept=self.is_kept) if self.out else \
            call._replace(json=self.get_result_path(item))
        limit = self.limit or compute_default_limit(describe_inputs(request))
        try:
            with hold_signals():
                process = ForkedProcess(lambda: judge_forked_pair(request, call))
                self.running_pairs[process] = RunningPair(item, limit, pair_lock.pop_all())
        except Stop as reason:
            return self.record_unjudged(item, str(reason), classify_error(reason))
        return None

    def collect_rows(self, seconds: float) -> Iterator[Row]:
        """Wait up to `seconds` until a process ends. Yield the rows of the pairs whose processes
        have ended, and stop the processes that are over their limit."""
        self.report()
        for call in wait_for_any(self.running_pairs, seconds):
            yield self.finish(call)
        for call, running_pair in self.running_pairs.items():
            more = call.cpu_seconds() - running_pair.limit
            if more >= 0:
                self.overdue_processes.add(call)
                (call.kill if more >= GRACE_SECONDS else call.stop)()

    def finish(self, call: ForkedProcess) -> Row:
        """Read the result of an ended process. Return the row of its pair."""
        item, limit, pair_lock = self.running_pairs.pop(call)
        is_overdue = call in self.overdue_processes
        self.overdue_processes.discard(call)
        try:
            status, lines = call.wait()
            result = read_call_result(self.get_result_path(item), item.name, status, lines)
            if result["verdict"] == NOT_JUDGED and is_overdue:
                return self.record_unjudged(
                    item, f"it used more than {counted(limit, 'second')} of CPU time: give a "
                          "greater --limit", RESOURCE)
            if "request" in result:
                return make_row(result, item.name)
            return self.record_unjudged(item, result["reason"], result["not_judged_kind"])
        finally:
            pair_lock.close()

    def record_unjudged(self, item: BatchItem, reason: str, kind: str) -> Row:
        """Write a JSON result `not judged` for a pair, if possible. Return its row."""
        result = make_unjudged(item.name, reason, kind)
        try:
            if not self.is_stopped:
                write_result_file(self.get_result_path(item), result)
        except OSError as error:
            result = make_unjudged(item.name, f"{reason}; {format_error(error)}", kind)
            self.unwritten_results[item.name] = result
        return make_row(result, item.name)

    def stop(self) -> None:
        """Stop all running processes. Pairs whose judging is stopped get no result."""
        self.is_stopped = True
        for call in self.running_pairs:
            call.stop()
        while self.running_pairs:
            call, running_pair = next(iter(self.running_pairs.items()))
            if not self.finish(call).is_judged:  # the process was stopped before it finished
                with contextlib.suppress(OSError):
                    os.unlink(self.get_result_path(running_pair.item))


def judge_batch(args: argparse.Namespace, program_name: str) -> int:
    """Judge all pairs in a folder or list. Return the exit status."""
    command_paths = CommandPaths(program_name, args.program)
    if args.is_resumed and args.out is None:
        raise UsageError("--resume needs -o, the folder with the results of an earlier call")
    if args.line is None:
        find_items = find_subtitle_files if args.is_file_only else read_pairs
        items, more, common_folder = find_items(args.batch, args), list[str](), args.out
    # Other runs of qc judge the other lines, so no page listing all pairs is written.
    else:
        item, more = read_line_pair(args.batch, args.line, args)
        items, common_folder = [item], None
    inputs = collect_inputs(items, args.batch, *more)
    collection.refuse_output_names(args, inputs, common_folder)
    with make_temporary_folder("subttx-qc-") as folder, \
            lock_folder(common_folder):
        calls = PairRunner(command_paths, folder, args.out, args.is_kept, args.limit)
        calls.inputs = inputs
        kept_rows = read_resumed_rows(calls, items) if args.is_resumed else {}
        rows_by_name = judge_items(calls, items, kept_rows, args.jobs or os.cpu_count() or 1)
        finished_items = [item for item in items if item.name in rows_by_name]
        rows = [rows_by_name[item.name] for item in finished_items]
        status = collection.write_collection(args, rows, [
            calls.unwritten_results.get(item.name) or calls.get_result_path(item)
            for item in finished_items], calls.is_stopped, common_folder)
        if calls.is_stopped:
            print_stderr(f"stopped when {len(finished_items)} of {counted(len(items), 'pair')} "
                         "were judged" + ("; --resume judges the others" if args.out is not None
                                          else ""))
        return status


def read_resumed_rows(calls: PairRunner, items: list[BatchItem]) -> dict[str, Row]:
    """Return the table row of each pair whose earlier result is up to date."""
    program, rows = describe_program(calls.command_paths.program_path), {}
    for item in items:
        path = calls.get_result_path(item)
        result = read_result(path, is_refused=True) if item.request and os.path.exists(path) \
            else None
        if result and is_reusable(result, item, program):
            rows[item.name] = make_row(result, item.name)
    return rows


def is_reusable(result: dict[str, Any] | None, item: BatchItem, program: ProgramInfo) -> bool:
    """Return whether the earlier result of a pair is up to date."""
    return result is not None and item.request is not None and result["verdict"] != NOT_JUDGED \
        and is_current(result, item.request, program)


def judge_items(calls: PairRunner, items: list[BatchItem], kept_rows: dict[str, Row], jobs: int,
                handle_row: Callable[[Row], None] = lambda row: None) -> dict[str, Row]:
    """Judge pairs, show the progress, and return the rows of the pairs. `handle_row` is called with
    each new row. After a signal, return the rows of the pairs judged so far."""
    progress, start_time, rows = Progress(), time.monotonic(), dict(kept_rows)
    waiting = collections.deque(item for item in items if item.name not in kept_rows)
    try:
        while waiting or calls.running_pairs:
            for row in judge_next_items(calls, waiting, jobs):
                rows[row.name] = row
                progress.clear()
                handle_row(row)
            progress.show(lambda: collection.format_progress(rows, len(items), len(kept_rows),
                                                             start_time))
    except BaseException as reason:
        if isinstance(reason, KeyboardInterrupt):
            ignore_signals()  # so that the results can be written
        for row in calls.collect_rows(0.0):
            rows[row.name] = row
            handle_row(row)
        calls.stop()
        if not isinstance(reason, KeyboardInterrupt):
            raise
    progress.clear()
    return rows


def judge_next_items(calls: PairRunner, waiting: collections.deque[BatchItem],
                     jobs: int) -> Iterator[Row]:
    """Start waiting pairs, so that up to `jobs` run at a time. Yield the rows of finished pairs."""
    while waiting and len(calls.running_pairs) < jobs:
        row = calls.start(waiting.popleft())
        if row:
            yield row
    yield from calls.collect_rows(POLL_SECONDS)


# A watched folder is judged like a batch that is resumed repeatedly. A pair is judged when both of
# its files are complete.

SCAN_SECONDS = 1.0  # seconds between scans; notifications would miss files from other machines
DONE_SUFFIX = ".done"  # suffix of a file that marks both files of a pair as complete


class FolderState(NamedTuple):
    """The state of a pair's files and the time when it was first seen. If the files are not a valid
    pair, the state says why."""

    file_state: object
    seen_at: float


class FolderWatch:
    """Finds complete pairs in a folder. `handled_states` has the state of the files of each pair
    that was already judged or reported."""

    def __init__(self, folder: str, settled: int) -> None:
        self.folder, self.settled = folder, settled
        self.seen: dict[str, FolderState] = {}
        self.handled_states: dict[str, object] = {}

    def find_ready_items(self, items: Iterable[BatchItem]) -> list[BatchItem]:
        """Return the complete pairs that are new or changed. If files do not form a valid pair,
        print the reason once."""
        now, ready = time.monotonic(), []
        for item in items:
            file_state = describe_inputs(item.request) if item.request else item.reason
            if self.handled_states.get(item.name) == file_state or not self.is_complete(
                    item.name, file_state, now):
                continue
            self.handled_states[item.name] = file_state
            if item.request:
                ready.append(item)
            else:
                print_stderr(item.reason or item.name)
        return ready

    def is_complete(self, name: str, file_state: object, now: float) -> bool:
        """Return whether the files of a pair are complete: there is a file PAIR.done that is not
        older than the files, or the files have not changed for `settled` seconds."""
        done = describe_file(os.path.join(self.folder, name + DONE_SUFFIX))
        files = file_state.values() if isinstance(file_state, dict) else ()
        if done and all(done["modified"] >= info["modified"] for info in files if info):
            return True
        seen = self.seen.get(name)
        if seen is None or seen.file_state != file_state:
            self.seen[name] = FolderState(file_state, time.monotonic())
            return False
        return now - seen.seen_at >= self.settled


def refuse_folders(args: argparse.Namespace) -> None:
    """Raise `Stop` unless the watched folder and the output folder exist and are different, and
    `UsageError` if an option is missing."""
    if args.out is None:
        raise UsageError("--watch needs -o, the folder for results and reports")
    if not os.path.isdir(args.watch):
        raise Stop(f"{args.watch} is not a folder")
    os.makedirs(args.out, exist_ok=True)
    if os.path.samefile(args.watch, args.out):
        raise Stop(f"{args.out} is the watched folder: give another folder with -o")
    refuse_folder_files(args.out, NO_INPUTS)
    refuse_file(os.path.join(args.out, STATE), NO_INPUTS)


def watch(args: argparse.Namespace, program_name: str) -> int:
    """Watch a folder until a signal is received. Return status 2."""
    refuse_folders(args)
    with log_bug(args.out), lock_service(args.out):
        return judge_arriving_pairs(args, program_name)


def judge_arriving_pairs(args: argparse.Namespace, program_name: str) -> int:
    """Judge pairs as they arrive, until a signal is received. Return status 2. A pair that was
    being judged at that time has no result, and is judged after a restart."""
    command_paths = CommandPaths(program_name, args.program)
    calls = PairRunner(command_paths, args.out, args.out, args.is_kept, args.limit)
    program = describe_program(command_paths.program_path)
    folder_watch = FolderWatch(args.watch, args.settled)
    results = collection.FolderRows(args.out)
    calls.report = results.report

    def handle_row(row: Row) -> None:
        results.state.waiting -= 1
        if row.name in calls.names_in_use:  # report this once, and judge the pair in a later scan
            folder_watch.handled_states.pop(row.name, None)
            if results.rows.get(row.name) == row:
                return
        results.add(row)

    handle_signals()
    try:
        while not calls.is_stopped:
            items = find_folder_pairs(args.watch, args)
            calls.inputs = collect_inputs(items)
            ready_pairs = [item for item in folder_watch.find_ready_items(items)
                   if not is_reusable(results.identities.pop(item.name, None), item, program)]
            results.state.waiting = len(ready_pairs)
            results.report()
            judge_items(calls, ready_pairs, {}, args.jobs or os.cpu_count() or 1, handle_row)
            results.write_page()
            time.sleep(SCAN_SECONDS)
    except KeyboardInterrupt:
        ignore_signals()
    results.write_page(is_last=True)
    return 2
