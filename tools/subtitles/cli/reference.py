"""Judge a recording by another recording, the reference: `qc --reference A B`."""
from __future__ import annotations

import argparse
import dataclasses
import os
from typing import Sequence

from ..common.command_line import Stop, UsageError
from ..common.files import Inputs, STANDARD, make_safe_name, make_temporary_folder, sum_file
from ..reading.judge import ReadingJudge
from ..reading.reference import ReferenceJudge, ReferenceVerdict
from ..reading.result import ReadingVerdict
from ..recording.recording import Recording
from ..request.commands import CommandPaths, Listener, OutputNames, make_pair_name
from ..request.request import make_file_request
from .read import judge_range
from .single import (
    OutputFiles, lock_pair, make_verdict, read_pair_options, refuse_file, refuse_outputs,
    remove_results, stamp_inputs)

# The options for a pair that two recordings accept
ACCEPTED_OPTIONS = {
    "--reference", "--reference-start", "--same-start", "--start", "--page", "--pid", "--every",
    "--within", "--complete", "--no-complete", "--keeping", "--pace", "--require", "--relative",
    "--allow-lost", "-o", "--json", "--csv", "--junit", "-p", "--quiet"}
SAME_START = "10:00:00:00"  # time code of both first pictures with --same-start


def refuse_options(args: argparse.Namespace, given_options: Sequence[str]) -> None:
    """Raise `UsageError` for options that two recordings do not accept."""
    if args.stl is None or args.recording is not None:
        raise UsageError("--reference needs exactly one other recording")
    for name in given_options:
        if name not in ACCEPTED_OPTIONS:
            raise UsageError(f"{name} can't be given with --reference: remove it")
    if args.is_same_start and (args.start or args.reference_start):
        given = "--start" if args.start else "--reference-start"
        raise UsageError(f"--same-start and {given} both give the clock: remove one")
    if (args.start is None) != (args.reference_start is None):
        raise UsageError("--start and --reference-start are the first pictures of the two "
                         "recordings: give both, or --same-start for copies of one file")
    if args.start == "tcp":
        raise UsageError("--start tcp needs a subtitle file: give a time code")


def judge_reference(args: argparse.Namespace, program_name: str) -> int:
    """Judge a recording by another recording. Return the exit status."""
    if args.is_same_start:
        args.start = args.reference_start = SAME_START
    if STANDARD in (args.stl, args.reference):
        raise UsageError("--reference needs two files: standard input can be read only once")
    args.stl, args.reference = make_safe_name(args.stl), make_safe_name(args.reference)
    name, reference = args.stl, args.reference
    if sum_file(name, name).sha256 == sum_file(reference, reference).sha256:
        raise Stop(f"{name} and {reference} have the same bytes: give another recording")
    call, paths = read_pair_options(args), CommandPaths(program_name, args.program)
    with make_temporary_folder("subttx-reference-") as folder:
        names = OutputNames(make_pair_name(name), folder, call.out)
        recording = make_recording(args, name, paths, names, Listener(call.make_printer()))
        verdict = make_verdict(recording.request, recording.listener, ReferenceVerdict)
        verdict.reference = reference
        inputs = dataclasses.replace(recording.request, stl=reference)
        files = OutputFiles(call, verdict, paths, names, stamp_inputs(inputs))
        refuse_outputs(call, inputs, call.out, names.name)
        with lock_pair(call.out, names.name):
            if call.out is not None:
                refuse_file(recording.request.stl, Inputs(name, reference))
                remove_results(call.out, names.name)
            reader = make_reader(args, reference, recording)
            judge_range(ReferenceJudge(verdict, recording, reader, files.needs_sums()), files)
    return verdict.status


def make_recording(args: argparse.Namespace, name: str, paths: CommandPaths, names: OutputNames,
                   listener: Listener) -> Recording:
    """Return a recording with the request to judge it, or to read it as the reference."""
    request = make_file_request(names.make_display_path("stl"), name, args)
    request.kept_stl = names.make_temporary_path("stl")
    clock = ["--same-start"] if args.is_same_start else [
        "--start", args.start, "--reference-start", args.reference_start] if args.start else []
    request.reference_call = ["--reference", args.reference, args.stl, *clock]
    return Recording(request, paths, names, listener)


def make_reader(args: argparse.Namespace, reference: str, judged: Recording) -> ReadingJudge:
    """Return the judge that reads the reference. Its files are in a new folder."""
    folder = os.path.join(judged.names.folder, "reference")
    os.mkdir(folder)
    recording = make_recording(args, reference, judged.command_paths, OutputNames(
        "reference", folder, None), Listener(judged.listener.printer))
    recording.request.is_reading, recording.request.start = True, args.reference_start
    verdict = make_verdict(recording.request, recording.listener, ReadingVerdict)
    return ReadingJudge(verdict, recording, lambda: recording.read_contents(False), False)
