"""Judge programmes after they have ended. Only retry times are in memory. Everything else is on
disk, so the process may be killed and restarted at any time."""
from __future__ import annotations

import argparse
import contextlib
import math
import os
import signal
import subprocess
import sys
import time

from ..cli.single import handle_signals, now as date
from ..cli.state import lock_service, log_bug, write_state
from ..common.command_line import INPUT, Stop, format_error, print_stdout
from ..common.files import TEMPORARY_PREFIX, open_result, read_chunks
from ..request.commands import CommandPaths
from ..results.files import ENDING, encode_result, make_unjudged
from .check import Checker, Outcome
from .decision import (
    HOUR, MAX_WAIT, MIN_RECORDED_LATER, RECORDER_LAG, Window, count_seconds, decide, describe_gaps,
    give_up, is_given_up)
from .delivery import Delivery, read_delivery
from .schedule import Programme, Schedule, read_schedule
from .segments import find_clock_jumps, find_deleted, find_segments, find_unbroken_runs
from .state import Monitor

RETRY_SECONDS = 60.0  # minimum delay in seconds after a system error
SHARE = 10  # failing programmes get at most a tenth of the judging time
OTHER_FILE_SECONDS = 600.0  # seconds between attempts while another line's file is missing
HOOK_SECONDS = 10  # time limit of the command of --on-result


class Attempts:
    """When a programme is judged again, why it was not judged yet, and the last system error."""

    def __init__(self) -> None:
        self.next, self.reason, self.failure = 0.0, "", ""


class Judge:
    """Judges the programmes of a schedule after they have ended."""

    def __init__(self, args: argparse.Namespace, program_name: str) -> None:
        self.args, self.segments, self.out = args, args.segments, args.out
        self.program = CommandPaths(program_name, args.program).program_path
        self.checker = Checker(args.program, program_name, args.work or args.out, args.out,
                               args.is_kept)
        self.attempts: dict[str, Attempts] = {}
        self.schedule = Schedule()
        self.monitor = Monitor()
        self.polls = list[tuple[float, float]]()  # monotonic time and clock of the last hour

    def look(self, now: float) -> bool:
        """Write the state file, and judge the first programme that is ready unless the clock is
        wrong. Return whether any programme was ready."""
        start_time = time.monotonic()
        self.checker.report = lambda: self.report(now + time.monotonic() - start_time)
        self.read_schedule(now)
        self.checker.report()
        if self.polls and now < self.polls[-1][1]:  # the clock was set back
            self.attempts.clear()
        self.polls.append((start_time, now))
        while len(self.polls) > 1 and self.polls[1][0] <= start_time - HOUR:
            del self.polls[0]
        return not self.monitor.is_clock_wrong and any(
            self.try_to_judge(item, now) for item in self.waiting())

    def report(self, now: float) -> None:
        """Write the state file."""
        waiting = [(item, self.window(item, self.read_delivery(item, now)).last)
                   for item in self.waiting()]
        self.monitor.waiting = len(waiting)
        self.monitor.late = [item.name for item, last in waiting if now > last + self.args.margin]
        self.monitor.pages_on_air = {item.request.page for item, last in waiting
                                     if item.begin + item.late <= now <= last}
        self.monitor.look(self.segments, self.out, now, self.program,
                          {item.request.page for item in self.schedule.programmes},
                          min([now - 2 * self.args.margin,
                               *(item.begin - item.early for item, _ in waiting)]))
        write_state(self.out, self.monitor.make_contents())

    def read_schedule(self, now: float) -> None:
        """Read the schedule. If it can't be read, keep the previous one."""
        try:
            self.schedule = read_schedule(self.args.schedule, self.args, now, self.schedule)
            self.monitor.schedule_faults = [*self.schedule.faults]
        except (OSError, Stop) as reason:
            self.monitor.schedule_faults = [format_error(reason)]

    def waiting(self) -> list[Programme]:
        """Return the programmes without a result, earliest first."""
        files = {*os.listdir(self.out)}
        return [item for item in self.schedule.programmes if item.name + ENDING not in files]

    def try_to_judge(self, programme: Programme, now: float) -> bool:
        """Judge a programme if it is over. Return whether an attempt was made."""
        attempts, start_time = self.attempts.setdefault(programme.name,
                                                        Attempts()), time.monotonic()
        if now < max(attempts.next, programme.begin + RECORDER_LAG):
            return False
        try:
            delivery = self.read_delivery(programme, now)
            programme, is_limited = self.limit_margins(programme, delivery, now)
            window = self.window(programme, delivery)
            if now < window.end + RECORDER_LAG:
                return False
            outcome = self.judge(programme, window, delivery, now)
            if outcome and outcome.result and not outcome.is_finished:
                window = window._replace(more=window.length)  # breaks may delay the programme's end
                outcome = self.judge(programme, window, delivery, now)
            if outcome is None:
                # Each attempt doubles the time since the end, until the window has passed.
                attempts.next = min(2 * now - window.end, max(window.last + RECORDER_LAG, now))
            else:
                self.conclude(programme, window, outcome, is_limited, now, start_time)
        except Exception as reason:  # other programmes must still be judged
            self.retry(programme, now, start_time, format_error(reason))
        return True

    def read_delivery(self, programme: Programme, now: float) -> Delivery:
        """Return the state of a programme's subtitle file."""
        return read_delivery(programme.request, now, self.args.settled)

    @staticmethod
    def window(programme: Programme, delivery: Delivery) -> Window:
        """Return the window in which to search for a programme. A scheduled end before the end of
        the subtitle file is ignored."""
        length = delivery.content.length
        end = max(programme.end or 0.0, programme.begin + length)
        return Window(programme.begin, end, length, programme.early, programme.late)

    def limit_margins(self, programme: Programme, delivery: Delivery, now: float
                      ) -> tuple[Programme, bool]:
        """End the margins of a programme half way to other lines with the same subtitles and page,
        so that an airing counts only for the line that is nearest to it. Lines that wait for a
        subtitle file may have the same subtitles. Return also whether there are such lines."""
        others = [(item, self.read_delivery(item, now)) for item in self.schedule.programmes
                  if item.request.page == programme.request.page
                  and 0 < abs(item.begin - programme.begin) < 2 * self.args.margin]
        missing = [item for item, other in others if other.fault and item in self.waiting()]
        times = [(item.begin - programme.begin) / 2 for item, other in others
                 if item in missing or other.content.subtitles == delivery.content.subtitles]
        return programme._replace(
            early=min([programme.early, *(-time for time in times if time < 0)]),
            late=min([programme.late, *(time for time in times if time > 0)])), bool(missing)

    def conclude(self, programme: Programme, window: Window, outcome: Outcome, is_limited: bool,
                 now: float, start_time: float) -> None:
        """Publish the result of a programme if it is certain or if the programme is given up.
        Otherwise try again later. It is not certain if a wrong clock may be the reason for it, or
        margins that another line's missing subtitle file limits (`is_limited`)."""
        needed_begin = window.last if outcome.result else window.last + MAX_WAIT - HOUR
        later = find_segments(self.segments, needed_begin, math.inf)
        missing_seconds = MIN_RECORDED_LATER - count_seconds(later, window.last)
        if outcome.result and not outcome.is_file_refused and (
                jumps := find_clock_jumps(self.segments, window.first)[0]):
            begin, before, after = jumps[-1]
            jump = f"the clock jumped by {after - before:+.0f} s from the TDT at {date(begin)}"
            reason = f"{jump}: {outcome.reason}"
            outcome = outcome._replace(result=make_unjudged(programme.name, reason, INPUT),
                                       reason=reason)
        seconds: float | None = None
        if outcome.result and is_limited and not (outcome.is_final or outcome.is_file_refused):
            seconds = OTHER_FILE_SECONDS
        elif outcome.result:
            seconds = 0.0 if outcome.is_recorded or missing_seconds <= 0 else max(
                missing_seconds, RECORDER_LAG)
        # The earliest time that the clock has shown for an hour
        clock = -math.inf if self.polls[0][0] > self.polls[-1][0] - HOUR else min(
            clock for _, clock in self.polls)
        if self.monitor.is_clock_wrong:  # it became wrong while the programme was judged
            self.retry(programme, now, start_time, "the clock differs from the segments", 0.0)
        elif seconds == 0:
            self.publish(programme.name, outcome)
        elif is_given_up(window, later, find_deleted(self.segments), clock):
            self.publish(programme.name, give_up(programme.name, outcome))
        else:
            self.retry(programme, now, start_time, outcome.reason, seconds)

    def judge(self, programme: Programme, window: Window, delivery: Delivery, now: float
              ) -> Outcome | None:
        """Judge each recorded part that may contain a programme, until a result is final. Return
        `None` if later segments may still change the result."""
        name, has_passed = programme.name, now >= window.last + RECORDER_LAG
        segments = find_segments(self.segments, window.first, window.last)
        if delivery.fault:
            return Outcome(None, delivery.fault, error_kind=INPUT)
        recorded_runs, outcomes = [*find_unbroken_runs(segments, self.args.pause)], list[Outcome]()
        for stretch in filter(window.can_contain, recorded_runs):
            outcomes.append(self.checker.check(programme, stretch, window.last))
            if outcomes[-1].is_final or outcomes[-1].result is None or outcomes[-1].is_file_refused:
                break
        if self.read_delivery(programme, now).version != delivery.version:
            return Outcome(None, f"{programme.request.stl} was changed while it was judged")
        gaps = describe_gaps(window, recorded_runs, self.args.pause)
        return decide(name, outcomes, gaps, has_passed, self.attempts[name].failure)

    def retry(self, programme: Programme, now: float, start_time: float, reason: str,
              seconds: float | None = None) -> None:
        """Schedule another attempt after `seconds`, or after a system error. Report each reason
        once."""
        attempts, elapsed_seconds = self.attempts[programme.name], time.monotonic() - start_time
        if reason != attempts.reason:
            line, *_ = reason.split("\n")
            print_stdout(f"{date()}  {programme.name}: will be tried again: {line}")
        if seconds is None:
            seconds, attempts.failure = max(RETRY_SECONDS, SHARE * elapsed_seconds), reason
        attempts.next, attempts.reason = now + seconds, reason
        self.monitor.last_error = f"{programme.name}: {reason}"

    def publish(self, name: str, outcome: Outcome) -> None:
        """Store the result files. The JSON result comes last, since it marks the end of judging."""
        assert outcome.result is not None
        work, main = self.checker.work, name + ENDING
        files = [file for file in os.listdir(work) if file.startswith(f"{name}.")] \
            if "request" in outcome.result else []
        for file in sorted({*files, main}, key=lambda file: (file == main, file)):
            with open_result(os.path.join(self.out, file), is_stored=True) as target:
                target.writelines(read_chunks(os.path.join(work, file)) if file in files else
                                  [encode_result(outcome.result)])
        self.checker.clear()
        self.attempts.pop(name, None)
        self.monitor.add_result(name, outcome.result["verdict"], outcome.reason)
        line, *_ = outcome.reason.split("\n")
        print_stdout(f"{date()}  {name}  {outcome.verdict}: {line}")
        self.call_hook(os.path.join(self.out, main), outcome.result["verdict"])

    def call_hook(self, *words: str) -> None:
        """Run the command of --on-result, if any, and ignore its failure. After some seconds, kill
        it and its children."""
        if self.args.on_result:
            with contextlib.suppress(OSError):
                process = subprocess.Popen([self.args.on_result, *words], start_new_session=True)
                try:
                    process.wait(HOOK_SECONDS)
                except subprocess.TimeoutExpired:
                    os.killpg(process.pid, signal.SIGKILL)
                    process.wait()


def judge_schedule(args: argparse.Namespace, program_name: str) -> int:
    """Judge a schedule's programmes, once or until a signal arrives. Return the exit status."""
    handle_signals()
    os.makedirs(args.work or args.out, exist_ok=True)
    with log_bug(args.out), lock_service(args.out):
        for name in os.listdir(args.out):
            if name.startswith(TEMPORARY_PREFIX):  # left by a killed run
                os.unlink(os.path.join(args.out, name))
        judge = Judge(args, program_name)
        judge.checker.clear()
        while True:
            while judge.look(time.time()):
                sys.stdout.flush()
            if args.is_once:
                return 0
            time.sleep(args.every_seconds)
