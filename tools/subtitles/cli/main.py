"""The command line of qc, and the options that each mode accepts."""
from __future__ import annotations

import argparse
import contextlib
import os
import sys
from typing import Any, Callable, Iterable, Sequence

from ..cli import single
from ..common.command_line import Stop, ToolParser, UsageError
from ..common.files import OutputIsInput, make_safe_name
from ..request.lines import describe_mode_conflict, needs_recording, read_options
from ..request.request import (
    ALONE, BATCH, COLLECT, MEASURE, Mode, OPTIONS, Option, PAIR, WATCH, add_options, check_time,
    find_conflict)
from ..results import files


CALLS = (PAIR, ALONE, BATCH, WATCH)
OUTPUT_MODES = (PAIR, ALONE, BATCH, COLLECT)


def make_number_parser(value_name: str, least: int, most: int) -> Callable[[str], int]:
    """Return a parser for numbers from `least` to `most`. `value_name` names the number in
    messages."""

    def parse_number(text: str) -> int:
        is_number = text.isascii() and text.isdecimal() and len(text) <= len(str(most))
        if not is_number or not least <= int(text) <= most:
            raise argparse.ArgumentTypeError(f"{text} is not a number of {value_name}: give "
                                             f"{least} to {most}")
        return int(text)

    return parse_number


parse_line_number = make_number_parser("a line", 1, 9_999_999)
read_jobs = make_number_parser("pairs at a time", 1, 9_999)
read_seconds = make_number_parser("seconds", 0, 99_999)
read_limit = make_number_parser("seconds", 1, 99_999)

MODE_OPTIONS = (
    Option("--batch", "FOLDER|LIST", "judge the pairs in a folder or a list", (BATCH,),
           field="batch"),
    Option("--collect", "DIR", "combine the JSON results in DIR into one table and one HTML page",
           (COLLECT,), field="collect"),
    Option("--watch", "IN", "judge pairs as they arrive in a folder", (WATCH,), field="watch"),
    Option("--measure", "STL RECORDING", "print a profile made from correct recordings, given as "
           "pairs or as a list of pairs", (MEASURE,), field="measure", nargs="+"))
CALL_OPTIONS = (
    Option("--reference", "RECORDING", "judge by another recording, not by a subtitle file",
           (PAIR,), field="reference"),
    Option("--reference-start", "TIME", "take TIME as the time code of the first picture of the "
           "reference", (PAIR,), field="reference_start", read=check_time),
    Option("--same-start", None, "the first pictures of both recordings have the same time",
           (PAIR,), field="is_same_start", default=False),
    Option("--file-only", None, "judge the subtitle file alone, or each subtitle file in FOLDER",
           (ALONE, BATCH), field="is_file_only", default=False),
    Option("-o", "DIR", "write the report, the list of faults and the JSON result to DIR", CALLS,
           field="out"),
    Option("--keep", None, "keep the recording's PES packets in DIR (NAME.recording.pes), or "
           "all data of a pipe (.ts)", (PAIR, BATCH, WATCH), field="is_kept", default=False),
    Option("--json", "FILE", "write the verdict as a JSON result", OUTPUT_MODES, field="json"),
    Option("--csv", "FILE", "write a CSV file with a line for each subtitle, or for many pairs "
           "with a line for each fault", OUTPUT_MODES, field="csv"),
    Option("--junit", "FILE", "write a test case for each pair, for CI", OUTPUT_MODES,
           field="junit"),
    Option("-p", "PROGRAM", "judge with this program", (*CALLS, MEASURE), "./subttx",
           field="program"),
    Option("--resume", None, "skip pairs whose results are up to date",
           (BATCH,), field="is_resumed", default=False),
    Option("--line", "N", "judge only line N of LIST", (BATCH,), field="line",
           read=parse_line_number),
    Option("--jobs", "N", "judge N pairs at a time", (BATCH, WATCH), "one for each processor",
           field="jobs", read=read_jobs),
    Option("--limit", "SECONDS", "limit the CPU time for a pair, including subprocesses",
           (BATCH, WATCH), "60, plus 1 for each 10 MB of the recording, at most 3600",
           field="limit", read=read_limit),
    Option("--settled", "S", "treat a file as complete after S seconds without change", (WATCH,),
           "5", field="settled", default=5, read=read_seconds),
    Option("--quiet", None, "print only the last two lines of standard output", (ALONE, PAIR),
           field="is_quiet", default=False))
OPTION_MODES = {one.name: one.modes for one in (*OPTIONS, *CALL_OPTIONS)}
NO_RECORDING = "no recording was given; to check the subtitle file alone, add --file-only"


def find_mode(args: argparse.Namespace) -> Mode:
    """Return the mode that a command line selects. Raise `UsageError` if it selects more than one.
    """
    values = {BATCH: args.batch, COLLECT: args.collect, WATCH: args.watch,
              MEASURE: args.measure}
    given_modes = [mode for mode, value in values.items() if value is not None]
    if args.reference is not None and not given_modes and not args.is_file_only:
        return PAIR
    if len(given_modes) > 1:
        raise UsageError(f"{given_modes[0].text} and {given_modes[1].text} can't be given together")
    if given_modes and args.stl is not None:
        source = "from its arguments" if given_modes[0] is MEASURE \
            else f"from {values[given_modes[0]]}"
        raise UsageError(f"{given_modes[0].text} takes its pairs {source}: remove {args.stl}")
    if given_modes or args.recording is not None:
        return given_modes[0] if given_modes else PAIR
    if args.stl is not None and not args.is_file_only:
        raise UsageError(NO_RECORDING)
    return ALONE


def list_given_options(parser: ToolParser, line: Sequence[str]) -> list[str]:
    """Return the options on a command line, in the order of `OPTION_MODES`."""
    names, no_value = parser.fields, object()
    values = parser.parse_args([*line], argparse.Namespace(**dict.fromkeys(
        names.values(), no_value)))
    given_fields = {field for field, value in vars(values).items() if value is not no_value}
    # If two options set the same field, only return the option on the command line.
    words = {word.partition("=")[0] for word in line}
    return [name for name in OPTION_MODES if names.get(name) in given_fields and (
        name in words or not words & {other for other in names if names[other] == names[name]})]


def refuse_options(parser: ToolParser, line: Sequence[str], mode: Mode) -> None:
    """Raise `UsageError` for the first option that the mode does not accept. With --file-only, a
    batch does not accept options that need a recording."""
    given_options = list_given_options(parser, line)
    for name in given_options:
        modes = OPTION_MODES[name]
        if mode not in modes:
            raise UsageError(describe_mode_conflict(name, modes, mode))
        if "--file-only" in given_options and needs_recording(modes):
            raise UsageError(describe_mode_conflict(name, modes, ALONE))


def make_parser(text: str) -> ToolParser:
    """Return the argument parser of tools/qc. Its help begins with `text`."""
    parser = ToolParser(text)
    parser.add_argument("stl", metavar="STL", nargs="?", help="the subtitle file")
    parser.add_argument("recording", metavar="RECORDING", nargs="?",
                        help="the recording, - for standard input")
    add_options(parser)
    add_options(parser, [*MODE_OPTIONS, *CALL_OPTIONS])
    return parser


def main(text: str, program_name: str, line: list[str]) -> int:
    """Run a command line of qc and return the exit status."""
    return report_failures(lambda: dispatch(text, program_name, line), line)


def report_failures(run: Callable[[], int], line: list[str]) -> int:
    """Run a command line and return the exit status. If it fails before judging begins, write the
    reason to the files of --json, --csv and --junit."""
    try:
        status = run()
        sys.stdout.flush()
        return status
    except (Exception, KeyboardInterrupt) as reason:
        if not isinstance(reason, OutputIsInput):
            paths = {option: find_output_path(line, option) for option in MAKE_CONTENTS}
            has_pairs = any(word.partition("=")[0] in (BATCH.text, COLLECT.text) for word in line)
            write_unjudged(find_pair_name(line), paths, reason, has_pairs)
        raise


def write_unjudged(name: str, paths: dict[str, str | None], error: BaseException,
                   has_pairs: bool = False) -> None:
    """Write each requested output file with the verdict `not judged` because of an exception. If
    `has_pairs` is true, the JSON file is that of a batch."""
    result = files.make_failed(name, error)
    for option, path in paths.items():
        with contextlib.suppress(Stop, OSError):
            if path is not None and files.can_replace(path, FIRST_BYTES[option]):
                files.write_file(path, lambda: make_batch_file(result) if has_pairs
                                 and option == "--json" else MAKE_CONTENTS[option](result))


def make_batch_file(result: dict[str, Any]) -> Iterable[bytes]:
    """Return the JSON file of a batch with a single result."""
    from . import collection  # only loaded if needed
    return collection.make_json_chunks([result], result["status"], single.now())


def make_unjudged_junit_file(result: dict[str, Any]) -> list[bytes]:
    """Return the JUnit file, with its single test case, for a pair that was not judged."""
    case = files.TestCase(result["name"], result["verdict"], result["status"], result["reason"], [],
                          0.0)
    return [files.make_junit_file([case], single.now())]


# Functions that make each kind of file from a result
MAKE_CONTENTS: dict[str, Callable[[dict[str, Any]], Iterable[bytes]]] = {
    "--json": lambda result: [files.encode_result(result)],
    "--csv": lambda result: files.make_table_lines([result]), "--junit": make_unjudged_junit_file}
# First bytes of earlier output files. Other files are not replaced, since they may be inputs.
FIRST_BYTES = {"--json": b"{", "--csv": b"stl,recording,", "--junit": b"<?xml version='1.0' "}


def find_output_path(line: Sequence[str], option: str) -> str | None:
    """Return the path of an output file, even if other arguments are invalid."""
    parser = ToolParser(None)
    parser.add_argument(option, dest="file")
    try:
        return parser.parse_known_args([*line])[0].file or None
    except Stop:
        return None


def find_pair_name(line: Sequence[str]) -> str:
    """Return the name of the pair, from the first argument that ends in .stl, even if other
    arguments are invalid. Return an empty string if no argument ends in .stl."""
    stl = next((word for word in line if word.lower().endswith(".stl")), "")
    return os.path.splitext(os.path.basename(stl))[0]


def dispatch(text: str, program_name: str, line: list[str]) -> int:
    """Run qc in the mode that the command line selects. Return the exit status."""
    typed = make_parser(text).parse_args(line)
    mode = find_mode(typed)
    refuse_options(make_parser(text), line, mode)
    # A line of a list may replace one of two options.
    if mode is not BATCH and (conflict := find_conflict(typed)):
        raise UsageError(conflict)
    args = read_options(make_parser(text), line, {}, {}, is_typed=True)
    if args.reference is not None:
        from . import reference  # only loaded if needed
        reference.refuse_options(args, list_given_options(make_parser(text), line))
        return reference.judge_reference(args, program_name)
    if args.reference_start or args.is_same_start:
        raise UsageError("--reference-start and --same-start need --reference")
    if args.is_kept and args.out is None:
        raise UsageError("--keep needs -o DIR, the folder for the recording")
    args.out = args.out and make_safe_name(args.out)
    if args.collect is not None:
        from . import collection  # only loaded if needed
        return collection.collect(args)
    if args.batch is not None:
        from . import batch
        return batch.judge_batch(args, program_name)
    if args.measure is not None:
        from . import measure
        return measure.measure(args, program_name)
    if args.watch is not None:
        from . import batch
        return batch.watch(args, program_name)
    if args.stl is None:
        raise UsageError("give a subtitle file and a recording; --help lists all options")
    return single.judge_command(args, program_name)
