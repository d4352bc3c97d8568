"""The command line of tools/read: list the subtitle pages of a recording, and read each."""
from __future__ import annotations

import argparse
import contextlib
import os
from typing import Any, Iterator, Sequence

from ..common.command_line import Stop, ToolParser, UsageError
from ..common.files import (
    Inputs, STANDARD, make_safe_name, make_temporary_folder, read_stamp)
from ..common.times import begin_day_at
from ..formats.teletext import ENGLISH, OPTION_BY_WORD, OPTION_WORDS, Page, page_name
from ..judging.status import combine_statuses
from ..reading.judge import RangeJudge, ReadingJudge
from ..reading.result import ReadingVerdict
from ..recording.recording import Recording
from ..request.commands import CommandPaths, Listener, OutputNames
from ..request.request import OPTIONS, Option, Unclear, add_options, make_file_request
from ..results.files import describe_inputs
from ..stream.survey import (
    DEFAULT_PAGE, MAX_SURVEYED_PAGES, Survey, find_first_pages, read_stored_survey, store_survey)
from .main import CALL_OPTIONS, report_failures
from .single import (
    OutputFiles, judge_pair, lock_pair, make_verdict, read_pair_options, refuse_file,
    refuse_outputs, refuse_pair_files, remove_results, report_pair)


OWN_OPTIONS = ("--page", "--option", "--pid", "--pes", "--origin", "--start", "--every", "--within",
               "--no-complete", "--keeping", "--pace", "--allow-lost", "--require",
               "-o", "--json", "--csv", "--junit", "-p")
RESULT_OPTIONS = ("json", "csv", "junit")
NO_CLOCK_TEXT = "times count from the first PES packet"
# The values of options that differ from those of qc
CHANGES: dict[str, dict[str, Any]] = {
    "--page": {"default": None, "default_text": "all subtitle pages", "description": "read page P"},
    "--option": {"default": None, "default_text": "by the announced language",
                 "description": "read the text with this national option",
                 "choices": OPTION_WORDS},
    "--start": {"description": "take TIME as the time code of the recording's first picture",
                "metavar": "TIME", "default_text": NO_CLOCK_TEXT},
    "--origin": {"default_text": NO_CLOCK_TEXT},
    "-o": {"description": "write PAGE.stl, and the report, the list of faults and the JSON result "
           "of each page, to DIR"},
    "--csv": {"description": "write a CSV file with a line for each subtitle"},
    "--junit": {"description": "write a test case for the page, for CI"}}


def list_options() -> Iterator[Option]:
    """Yield the options that read shares with qc."""
    for option in (*OPTIONS, *CALL_OPTIONS):
        if option.name in OWN_OPTIONS:
            changes: dict[str, Any] = {"description": option.description.replace("judge", "read")}
            yield option._replace(**changes | CHANGES.get(option.name, {}))


def make_parser(text: str) -> ToolParser:
    """Return the argument parser of tools/read. Its help begins with `text`."""
    parser = ToolParser(text)
    parser.add_argument("recording", metavar="RECORDING",
                        help="the recording, - for standard input")
    parser.set_defaults(**{option.field: option.default for option in (*OPTIONS, *CALL_OPTIONS)})
    add_options(parser, list_options())
    return parser


class PageReader:
    """Reads pages of a recording, and writes their files to a folder. `folder` is the temporary
    folder."""

    def __init__(self, args: argparse.Namespace, program_name: str, folder: str) -> None:
        self.args, self.folder, self.call = args, folder, read_pair_options(args)
        self.printer = self.call.make_printer()
        self.command_paths = CommandPaths(program_name, args.program)
        self.stamps = {args.recording: read_stamp(args.recording)}
        self.recording = self.make_recording(args.page or DEFAULT_PAGE)
        self.survey_paths: dict[Page, str] = {}  # the stored output of `survey` about each page
        refuse_outputs(self.call, self.recording.request, None, "")

    def make_recording(self, page: Page) -> Recording:
        """Return the recording with the request to read a page, and to judge it by this page."""
        args = argparse.Namespace(**{**vars(self.args), "page": page,
                                     "option": self.args.option or ENGLISH.word})
        request = make_file_request(self.make_stl_path(args.out or "", page), args.recording, args)
        request.is_reading = True
        request.kept_stl = self.make_stl_path(self.folder, page)
        names = OutputNames(request.page_name, self.folder, args.out)
        return Recording(request, self.command_paths, names, Listener(self.printer))

    @staticmethod
    def make_stl_path(folder: str, page: Page) -> str:
        return os.path.join(folder, f"{page_name(*page)}.stl")

    def find_pages(self) -> list[Page]:
        """Read the recording, and return the pages to read. Raise `Stop` if there is none."""
        args = self.args
        try:
            self.recording.read_contents(any([args.out, args.json, args.csv]),
                                         self.store_surveys)
        except Unclear as reason:
            raise Stop(reason.reason) from None
        found = self.recording.survey
        pages = [*found.list_pages(args.pid)] if args.page is None else [args.page]
        if not pages:
            raise Stop("\n".join(["not read: no subtitle page is announced or sent",
                                  *found.lines()]))
        return pages

    def store_surveys(self) -> Survey:
        """Run `survey` for the pages to read, if possible once for all, and store its output.
        Return the output without the lines of single pages."""
        page, pid = self.args.page, self.args.pid
        program, recording = self.command_paths.program_path, self.recording
        pages = [page] if page else find_first_pages(program, recording.path, pid)
        while True:
            path = os.path.join(self.folder, f"{len(self.survey_paths)}.survey")
            del pages[MAX_SURVEYED_PAGES:]
            survey = store_survey(program, recording.path, pages, pid, path,
                                  recording.show_progress)
            self.survey_paths |= dict.fromkeys(pages, path)
            pages = [item for item in survey.list_pages(pid) if item not in self.survey_paths]
            if page or not pages:
                return survey

    def read_contents(self, recording: Recording) -> None:
        """Read the stored output of `survey` about the page of `recording`."""
        page = recording.request.page
        recording.path, recording.file = self.recording.path, self.recording.file
        recording.date, recording.compared = self.recording.date, self.recording.compared
        recording.survey = read_stored_survey(self.survey_paths[page], page)

    def clear_folder(self, pages: Sequence[Page]) -> None:
        """Remove earlier results. Raise `Stop` if a result would replace the recording, or a file
        that these tools did not write."""
        out, inputs = self.args.out, Inputs(self.args.recording)
        for page in pages:
            refuse_pair_files(out, page_name(*page), inputs)
            refuse_file(self.make_stl_path(out, page), inputs)
        for page in pages:
            remove_results(out, page_name(*page))
            with contextlib.suppress(FileNotFoundError):
                os.unlink(self.make_stl_path(out, page))

    def read(self, page: Page) -> ReadingVerdict:
        """Read a page, judge the recording by it, print the verdict and write the files."""
        recording = self.make_recording(page)
        verdict = make_verdict(recording.request, recording.listener, ReadingVerdict)
        files = OutputFiles(self.call, verdict, self.command_paths, recording.names, self.stamps)
        judge_range(ReadingJudge(verdict, recording, lambda: self.read_contents(recording),
                                 files.needs_sums(), OPTION_BY_WORD.get(self.args.option)), files)
        return verdict


def judge_range(judge: RangeJudge, files: OutputFiles) -> None:
    """Judge a recording by the subtitles that `judge` reads, print the verdict and write the files.
    """
    judge.verdict.files_at_start = {**describe_inputs(judge.request), "stl": None}
    with begin_day_at(0):  # reading a recording over midnight changes this
        judge_pair(judge, files)
        report_pair(judge.verdict, judge.listener.printer, files)


def main(text: str, program_name: str, line: list[str]) -> int:
    """Run a command line of tools/read and return its exit status. If it fails before reading
    begins, write the reason to the files of --json, --csv and --junit."""
    return report_failures(
        lambda: read_command(make_parser(text).parse_args(line), program_name), line)


def read_command(args: argparse.Namespace, program_name: str) -> int:
    """Read the pages that a command line selects. Return the exit status."""
    args.recording = args.recording if args.recording == STANDARD else \
        make_safe_name(args.recording)
    args.out = args.out and make_safe_name(args.out)
    if args.start == "tcp":
        raise UsageError("--start tcp needs a subtitle file: give the time code of the first "
                         "picture")
    for name in RESULT_OPTIONS:
        if args.page is None and getattr(args, name) is not None:
            raise UsageError(f"--{name} is for one page: give --page, or -o for all pages")
    with make_temporary_folder("subttx-read-") as folder:
        reader = PageReader(args, program_name, folder)
        pages = reader.find_pages()
        with contextlib.ExitStack() as locks:
            if args.out is not None:
                for page in pages:
                    locks.enter_context(lock_pair(args.out, page_name(*page)))
                reader.clear_folder(pages)
            lines, statuses = list[str](), list[int]()
            for page in pages:
                verdict = reader.read(page)
                statuses.append(verdict.status)
                if len(pages) > 1 or not verdict.is_judged:
                    lines.append(f"{page_name(*page)} {verdict.last_line}")
                if verdict.is_stopped:
                    break
                del verdict  # before the next page is read, since it needs much memory
            for text in lines:
                reader.printer.print_line(text)
    return combine_statuses(statuses)
