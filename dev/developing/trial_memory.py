"""Run the program with little memory, for dev/faults.

In these runs a memory request fails, the address space or the stack is limited, or a file with many
subtitles is checked in a few megabytes.
"""
from __future__ import annotations

import itertools
import os
from functools import partial
from typing import Callable, Iterable, Iterator

from subtitles.common.program import TOP
from subtitles.formats.stl import TTI

from .stl import make_box_line, make_gsi_block, make_tti_block
from .trial import (
    RUNS_PER_SHELL, Case, Command, CaseResult, REFUSING_LIBRARY, RunResult, Setup, Trial,
    check_memory_failure, compare_with_normal_run)
from .trial_inputs import HEADER

KIBIBYTES = [96 * 1024, 64 * 1024, 32 * 1024, 16 * 1024, *range(8192, 1024, -48)]
START_MEMORY = 8192  # KiB of memory; enough to start the program
STACK_SIZE = 64  # KiB; each command needs less than 48
SURVEY_STACK_SIZE = 160  # KiB; `survey` needs between 144 and 152
MAX_SUBTITLES = 99_999  # maximum number of subtitles in a file, with one block each
MEMORY_WITHOUT_TEXTS = 10_000_000  # bytes that MAX_SUBTITLES subtitles may need besides their texts
TOO_LITTLE_MEMORY = 1_000_000  # bytes; not enough for MAX_SUBTITLES subtitles
# Commands whose memory requests are refused in turn. Their files are in examples/.
REFUSED_REQUESTS = [line.split() for line in f"""
packet {HEADER}
packets hello.pes
show story.stl
normal comments.stl out.stl
schedule hello.stl out.pes
schedule story.stl out.pes --every 25 --serial
check hello.stl hello.pes
check story.stl story.pes
check story.stl five-faults.pes --every 25 --all
check low.stl story.pes --all
listen hello-25.pes --at 10:00:00:10 --flip 1:21:1,1:22:1 --lose 7,9
check hello.stl""".strip().split("\n")]
# More commands to run with a small stack.
STACK_COMMANDS = [line.split() for line in """
help
survey hello.pes
survey recording.ts
survey lost.ts --page 888
packets recording.ts --pid 257
extract recording.ts out.pes --pid 257
check story.stl recording.ts --pid 257 --all
check hello.stl hello.pes --keeping --pace 25
check german.stl german.pes --option german --pes 0-
listen recording.ts --pid 257 --at 10:00:00:10""".strip().split("\n")]


def run_parallel(trial: Trial, command: Command, numbers: Iterable[int], setup: Callable[[int], str]
                 ) -> Iterator[tuple[int, RunResult]]:
    """Run a command once for each number, RUNS_PER_SHELL runs at a time."""
    waiting = iter(numbers)
    while some := list(itertools.islice(waiting, RUNS_PER_SHELL)):
        yield from zip(some, trial.run_with_setups(command, [Setup(setup(item)) for item in some]))


def run_with_less_memory(trial: Trial) -> Iterator[Case]:
    def run_with_limit(command: Command) -> list[CaseResult]:
        result: list[CaseResult] = []
        for size, run_result in run_parallel(trial, command, KIBIBYTES,
                                             lambda size: f"ulimit -v {size};"):
            name = f"{command.name} in {size} KiB"
            # With too little memory, the loader ends the program before its first instruction.
            if run_result.status in (127, -9, -11) and not run_result.printed:
                result.append((name, run_result, [] if size < START_MEMORY else ["not started"]))
                break
            result.append((name, run_result, check_memory_failure(command, run_result)))
        return result

    return (partial(run_with_limit, command) for command in trial.commands.values())


def resolve_examples(program_args: list[str]) -> list[str]:
    """Return the arguments with the path of each example file in place of its name."""
    places = [os.path.join(TOP, "examples", word) for word in program_args]
    return [place if os.path.exists(place) else word for word, place in zip(program_args, places)]


def run_with_small_stack(trial: Trial) -> Iterator[Case]:
    others = (trial.make_command(" ".join(program_args), resolve_examples(program_args))
              for program_args in STACK_COMMANDS)
    for command in [*trial.commands.values(), *others]:
        def run(command: Command = command) -> list[CaseResult]:
            size = SURVEY_STACK_SIZE if command.program_args[0] == "survey" else STACK_SIZE
            # Clear the environment, which is also on the stack.
            run_result = trial.run(command, before=["env", "-i"], setup=f"ulimit -s {size};")
            return [(f"{command.name} in a stack of {size} KiB", run_result,
                     compare_with_normal_run(command, run_result))]
        yield run


def run_with_refused_memory(trial: Trial) -> Iterator[Case]:
    library = trial.build_library("refused memory", REFUSING_LIBRARY)
    if not library:
        return

    def refused(number: int, program_args: list[str]) -> list[CaseResult]:
        name, mark = " ".join(program_args)[:60], os.path.join(trial.folder, f"refused-{number}")
        command = trial.make_command(name, resolve_examples(program_args))
        result: list[CaseResult] = []
        for call, run_result in run_parallel(
                trial, command, itertools.count(1), lambda call: f"export LD_PRELOAD={library} "
                f"REFUSE_AT={call} REFUSED={mark}-{call};"):
            if not os.path.exists(f"{mark}-{call}"):
                break
            result.append((f"{name}: call {call}", run_result,
                           check_memory_failure(command, run_result)))
        faults = (compare_with_normal_run(command, run_result) if result
                  else ["no memory call was seen: is the program linked to libc?"])
        return [*result, (f"{name}: no more calls", run_result, faults)]

    for number, program_args in enumerate(REFUSED_REQUESTS):
        yield partial(refused, number, program_args)


def run_with_many_subtitles(trial: Trial) -> Iterator[Case]:
    """Check that MAX_SUBTITLES subtitles need little more memory than their texts."""
    texts = [make_box_line(b"Subtitle %05d" % number) for number in range(MAX_SUBTITLES)]
    blocks = [make_tti_block(number & 0xFFFF, 20 * number, 20 * number + 20, 22, 2, text)
              for number, text in enumerate(texts)]
    trial.add_input("many.stl", make_gsi_block(b"Many", len(blocks), MAX_SUBTITLES) +
                    b"".join(blocks))
    assert len(trial.inputs["many.stl"]) == 1024 + MAX_SUBTITLES * TTI
    schedule = trial.make_command("schedule", ["schedule", "../many.stl", "out.pes", "--every",
                                               "25"])
    trial.add_input("many.pes", schedule.written or b"")
    files = ["../many.stl", "../many.pes", "--every", "25"]
    commands = [schedule, trial.make_command("check", ["check", *files]),
                trial.make_command("check --all", ["check", *files, "--all"])]
    most = MEMORY_WITHOUT_TEXTS + sum(map(len, texts))
    for command in commands:
        def run(command: Command = command) -> list[CaseResult]:
            run_result, short = (trial.run(command, setup=f"ulimit -d {size // 1024};")
                                 for size in (most, TOO_LITTLE_MEMORY))
            kept = check_memory_failure(command, short)
            if short.status != 2:
                kept.append("the limit has no effect: they fit all the same")
            accepted = [] if command.status == 0 else [f"status {command.status} without a limit"]
            name = f"{command.name} of {MAX_SUBTITLES} subtitles"
            return [(f"{name} in {most} bytes", run_result,
                     accepted + compare_with_normal_run(command, run_result)),
                    (f"{name} in {TOO_LITTLE_MEMORY} bytes", short, kept)]
        yield run
