"""The command line of tools/air."""
from __future__ import annotations

import os

from ..cli.main import make_number_parser, read_seconds
from ..cli.state import log_bug
from ..common.command_line import Stop, ToolParser, UsageError, add_program
from ..common.files import make_safe_name
from ..common.program import TOP
from ..request.lines import read_options
from ..request.request import add_options
from .judge import judge_schedule
from .recorder import Limits, record
from .status import print_status


def make_record_parser() -> ToolParser:
    """Return the argument parser of the command `record`."""
    parser = ToolParser("Record a feed in segments that are named by time, and delete the oldest.")
    parser.add_argument("segments", metavar="SEGMENTS", help="write segments to this folder")
    parser.add_argument("--length", metavar="S", type=read_seconds, default=10,
                        help="begin a segment every S seconds (default: 10)")
    parser.add_argument("--keep", metavar="HOURS", type=make_number_parser("hours", 1, 99_999),
                        default=48, help="delete segments older than HOURS (default: 48)")
    parser.add_argument("--free", metavar="MB", default=1000,
                        type=make_number_parser("megabytes", 0, 999_999_999),
                        help="keep MB megabytes of the disk free (default: 1000)")
    return parser


def make_judge_parser() -> ToolParser:
    """Return the argument parser of the command `judge`."""
    parser = ToolParser("Judge each programme of a schedule from segments of a feed, once it is "
                        "over.")
    parser.add_argument("schedule", metavar="SCHEDULE", help="read air times from this file")
    parser.add_argument("segments", metavar="SEGMENTS", help="read segments from this folder")
    parser.add_argument("-o", dest="out", metavar="OUT", required=True,
                        help="write results to OUT")
    parser.add_argument("--margin", metavar="S", type=read_seconds, default=300,
                        help="let a programme begin up to S seconds early or late (default: 300)")
    parser.add_argument("--pause", metavar="S", type=read_seconds, default=5,
                        help="treat a pause of more than S seconds between two segments as not "
                             "recorded (default: 5)")
    parser.add_argument("--settled", metavar="S", type=read_seconds, default=60,
                        help="treat a subtitle file as complete after S seconds without change "
                             "(default: 60)")
    parser.add_argument("--every-seconds", metavar="S", type=read_seconds, default=5,
                        help="look for new segments every S seconds (default: 5)")
    parser.add_argument("--once", dest="is_once", action="store_true",
                        help="judge the programmes that have ended, then exit; for a timer")
    parser.add_argument("--work", metavar="DIR",
                        help="store the PES packets in DIR while they are judged (default: OUT)")
    parser.add_argument("--keep", dest="is_kept", action="store_true",
                        help="keep the PES packets of each programme next to its result")
    parser.add_argument("--on-result", metavar="COMMAND",
                        help="call COMMAND with each JSON result and its verdict")
    add_program(parser)
    add_options(parser)
    return parser


def make_status_parser() -> ToolParser:
    """Return the argument parser of the command `status`."""
    parser = ToolParser("Print a line about each folder of results. The status is that of Nagios: "
                        "0 OK, 1 WARNING, 2 CRITICAL, 3 UNKNOWN.")
    parser.add_argument("out", metavar="OUT", nargs="+",
                        help="read the state of `judge` or `qc --watch` in OUT")
    parser.add_argument("--max-age", metavar="S", type=read_seconds, default=60,
                        help="raise an alarm if the state is older than S seconds (default: 60)")
    parser.add_argument("--metrics", metavar="FILE",
                        help="write metrics for Prometheus's textfile collector to FILE")
    return parser


def main(text: str, words: list[str]) -> int:
    """Run a command line of tools/air. Return the exit status."""
    mode, *line = words or [""]
    if mode == "record":
        args = make_record_parser().parse_args(line)
        os.makedirs(args.segments, exist_ok=True)
        with log_bug(args.segments):
            record(0, args.segments, Limits(args.length, 3600 * args.keep, 1_000_000 * args.free))
        return 0
    if mode == "status":
        args = make_status_parser().parse_args(line)
        return print_status(args.out, args.max_age, args.metrics)
    if mode != "judge":
        ToolParser(text).parse_known_args(words)  # handles --help and --version
        raise UsageError("the first argument must be record, judge or status")
    args = read_options(make_judge_parser(), line, {}, {}, is_typed=True)
    args.out = make_safe_name(args.out)
    if not os.path.isdir(args.segments):
        raise Stop(f"{args.segments} is not a folder: start `record` first, or give its folder")
    return judge_schedule(args, os.path.join(TOP, "tools", "qc"))
