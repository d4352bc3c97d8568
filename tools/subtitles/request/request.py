"""The request for a pair: the table of options, profiles, and choices that qc makes."""
from __future__ import annotations

import argparse
import contextlib
import dataclasses
import os
import stat
from typing import Any, Callable, Iterable, Mapping, NamedTuple, Sequence

from ..common.checks import CHECK_KINDS, parse_required_kinds
from ..common.command_line import (
    INPUT, Lateness, MAX_EVERY, MAX_WITHIN, ReportedError, Stop, ToolParser, UNDECIDED, UsageError,
    classify_program_end, counted, escape_hidden, format_lateness,
    parse_break_count, parse_lateness, parse_origin, parse_packet_range, parse_page,
    parse_pes_interval, parse_pid, parse_repeat_interval, parse_time, parse_within,
    validate_start_time)
from ..common.files import read_first_bytes, make_safe_name
from ..common.shapes import (
    CHECKSUM, COUNT, Flag, Integer, ListOf, Maybe, Member, OneOf, PID, PTS, Record, Shape, TIME,
    Text)
from ..common.times import (
    FRAMES_OF_A_DAY, FrameRange, begin_day_at, format_frame, format_program_time, parse_frame)
from ..formats.layout import find_layout_fault
from ..formats.midnight import find_day_begin, move_times
from ..formats.stl import read_stl
from ..formats.teletext import OPTION_WORDS, choose_language_option, page_name


# The options for a pair
#
# The table `OPTIONS` defines the parser and its help, the man page, the completion, the arguments
# of `qc` and `check`, and the members of a JSON result that --resume compares.
# To add an option, add a row to the table and a field to `Request`.


class Mode(NamedTuple):
    """A way to use the tool: its name in the manual, and its name in messages."""

    name: str
    text: str


PAIR = Mode("a pair", "a recording")
ALONE = Mode("STL alone", "a subtitle file alone")
BATCH = Mode("`--batch`", "--batch")
WATCH = Mode("`--watch`", "--watch")
COLLECT = Mode("`--collect`", "--collect")
MEASURE = Mode("`--measure`", "--measure")
LINE = Mode("a line of a batch", "a line of a batch's list")
MODES = (PAIR, ALONE, BATCH, WATCH, COLLECT, MEASURE, LINE)

PAIRS = (PAIR, BATCH, WATCH, LINE)
JUDGED = (*PAIRS, ALONE)
MEASURED_PAIRS, MEASURED = (*PAIRS, MEASURE), (*JUDGED, MEASURE)

NOT_ACCEPTED_BY_CHECK = object()  # `check` does not take the option


class Option(NamedTuple):
    """An option of the command line or of a line in a list."""

    name: str
    metavar: str | None  # name of the option's value, or `None` for a flag
    description: str  # in the imperative
    modes: Sequence[Mode]
    default_text: str = ""
    field: str = ""  # field in `Request` or in the parsed arguments
    default: Any = None
    read: Callable[[str], Any] = str  # parses the value; may raise `ArgumentTypeError`
    write: Callable[[Any], str] = str  # formats the value
    flag_value: Any = True  # value of the field if the flag is given
    choices: Sequence[str] = ()
    nargs: str | None = None
    check_default: Any = NOT_ACCEPTED_BY_CHECK  # default in `check`
    changes_pages: bool = False  # whether `schedule` accepts the option too
    is_in_profile: bool = False  # whether a profile may contain the option
    # The option's member in a JSON result
    shape: Shape | None = None
    note: str = ""
    result_value: Callable[[Any], Any] = lambda value: value

    @property
    def help(self) -> str:
        default = f" (default: {self.default_text})" if self.default_text and self.metavar else ""
        return self.description + default

    @property
    def member(self) -> Member | None:
        """Return the option's member in the object `request` of a JSON result, if any."""
        if self.shape is None:
            return None
        meaning = self.description[0].upper() + self.description[1:] + "."
        return Member(self.name.strip("-").replace("-", "_"), self.shape,
                      f"{meaning} {self.note}".strip(), lambda request: self.result_value(
                          self.get_value(request)))

    def get_value(self, request: Any) -> Any:
        return getattr(request, self.field)

    def format_arguments(self, value: Any, default: Any) -> list[str]:
        """Return the arguments that set the option to a value. The default needs no arguments."""
        if value is None or value == default:
            return []
        if self.metavar:
            return [self.name, self.write(value)]
        return [self.name] if value == self.flag_value else []


def check_time(text: str) -> str:
    """Check a time of day and return it unchanged. Raise `ArgumentTypeError` if it is invalid."""
    parse_time(text)
    return text


AUTO = "auto"  # value of --option: use the language of the subtitle file
NONE = "none"  # value of --pace: do not check the PES interval


def check_layout(text: str) -> str:
    """Check a layout and return it unchanged. Raise `ArgumentTypeError` if it is invalid."""
    if text == AUTO:
        raise argparse.ArgumentTypeError(
            "auto is no longer a layout: find the layout of your inserter with `--measure STL "
            "RECORDING ..`, and keep it in a profile")
    fault = find_layout_fault(text)
    if fault is not None:
        raise argparse.ArgumentTypeError(f"{text!r} is not a layout: {fault}")
    return text


def parse_pace_or_none(text: str) -> str:
    """Parse a maximum PES interval, or `none`."""
    return text if text == NONE else str(parse_pes_interval(text))


def format_range(pes: tuple[int, int]) -> str:
    """Format a range of PES packets as the value of --pes."""
    return f"{pes[0]}-{pes[1]}"


PROFILE = Record("profile", "", Member("name", Text()), Member("sha256", CHECKSUM))

PART_NOTE = "Null if qc chose the value, which is then in the part."

OPTIONS: tuple[Option, ...] = (
    Option("--page", "P", "judge page P", MEASURED_PAIRS, "888", field="page", default=(0, 0x88),
           read=parse_page, write=lambda page: page_name(*page), check_default=(0, 0x88),
           is_in_profile=True,
           shape=Text(r"[1-8][0-9A-F]{2}"), result_value=lambda page: page_name(*page)),
    Option("--every", "N", "allow at most N frames from one header of the page to the next", PAIRS,
           "250", field="every", default=250, read=parse_repeat_interval, check_default=250,
           is_in_profile=True, shape=Integer(1, MAX_EVERY)),
    Option("--option", "O", "use this national option; auto: choose it by the language of the "
           "subtitle file (LC)", MEASURED, "english", field="option", default="english",
           choices=(*OPTION_WORDS, AUTO), check_default="english", is_in_profile=True,
           shape=OneOf(*OPTION_WORDS)),
    Option("--origin", "T", "take T as the PTS of 00:00:00:00", MEASURED_PAIRS, "estimated",
           field="origin", read=parse_origin, is_in_profile=True, shape=Maybe(PTS), note=PART_NOTE),
    Option("--complete", None, "require a terminator header after each page", PAIRS, "required",
           field="is_complete", default=True, check_default=False, is_in_profile=True,
           shape=Flag()),
    Option("--no-complete", None, "do not require terminator headers", PAIRS, "required",
           field="is_complete", default=True, flag_value=False, is_in_profile=True),
    Option("--pid", "PID", "judge this PID of a transport stream", MEASURED_PAIRS,
           "the PID that carries the page", field="pid", read=parse_pid,
           write=lambda pid: f"0x{pid:X}", is_in_profile=True, shape=Maybe(PID), note=PART_NOTE),
    Option("--allow-lost", None, "treat lost TS packets (faults 45 and 79) as warnings", PAIRS,
           "they are errors", field="is_loss_allowed", default=False, is_in_profile=True,
           shape=Flag()),
    Option("--no-allow-lost", None, "treat lost TS packets as errors, even if the profile allows "
           "them", PAIRS, "they are errors", field="is_loss_allowed", default=False,
           flag_value=False),
    Option("--severity", "FILE", "read from FILE which faults are only warnings, in lines such as "
           "67 warning or others warning", JUDGED, "all are errors",
           field="severity", is_in_profile=True, shape=Maybe(Text())),
    Option("--breaks", "N", "expect N breaks in the programme; each part has its own clock",
           PAIRS, "0", field="breaks", default=0, read=parse_break_count, shape=COUNT),
    Option("--pes", "I-J", "judge only PES packets I to J, for a recording that contains the "
           "programme twice", MEASURED_PAIRS, "all", field="pes", read=parse_packet_range,
           write=format_range, shape=Maybe(ListOf(COUNT, 2, 2))),
    Option("--start", "TIME|tcp", "take TIME as the time code of the recording's first picture; "
           "tcp: use the TCP of the GSI block", MEASURED_PAIRS, "estimated", field="start",
           read=validate_start_time, is_in_profile=True, shape=Maybe(Text())),
    Option("--relative", None, "exit with status 0, not 3, if the verdict is relative",
           PAIRS, "status 3", field="is_relative_allowed", default=False, is_in_profile=True,
           shape=Flag()),
    Option("--within", "N", "accept pages that are complete at most N frames after their cues",
           MEASURED_PAIRS, "0", field="within", default=0, read=parse_within, check_default=0,
           is_in_profile=True, shape=Integer(0, MAX_WITHIN)),
    Option("--late", "SHARES", "choose the likeliest clock by the usual delays of in-cues and, "
           "after a slash, out-cues: each delay in frames and its share, for example "
           "0:31,1:40,2:29/0:100; only with --within",
           PAIRS, "none", field="late", read=parse_lateness, write=format_lateness,
           is_in_profile=True,
           shape=Maybe(Text()), result_value=lambda late: late and format_lateness(late)),
    Option("--strict", None, "treat warnings about the recording as faults", JUDGED,
           "they change nothing", field="is_strict", default=False, shape=Flag()),
    Option("--require", "KINDS", "do not judge a recording if one of these checks was not made "
           "everywhere: kinds separated by commas, or all", PAIRS, "none",
           field="required", default=(), read=parse_required_kinds, write=",".join,
           is_in_profile=True, shape=ListOf(OneOf(*CHECK_KINDS), len(CHECK_KINDS)),
           result_value=list),
    Option("--from", "TIME", "judge only subtitles with a TCI at TIME or later", MEASURED, "all",
           field="from_time", read=check_time, check_default=None, shape=Maybe(TIME)),
    Option("--to", "TIME", "judge only subtitles with a TCI before TIME", MEASURED, "all",
           field="to_time", read=check_time, check_default=None, shape=Maybe(TIME)),
    Option("--layout", "TEXT", "expect pages in the layout of your inserter", JUDGED,
           "the layout that check expects", field="layout", read=check_layout, check_default=None,
           changes_pages=True, is_in_profile=True, shape=Maybe(Text())),
    Option("--open", None, "accept a file of open subtitles", MEASURED, "it is refused",
           field="is_open", default=False, check_default=False, changes_pages=True, shape=Flag()),
    Option("--keeping", None, "allow C4 (erase page) to be clear in headers that repeat the page",
           PAIRS, "it must be set", field="may_keep", default=False, check_default=False,
           is_in_profile=True, shape=Flag()),
    Option("--no-keeping", None, "require C4 in headers that repeat the page, even if the "
           "profile has --keeping",
           PAIRS, "it must be set", field="may_keep", default=False, flag_value=False),
    Option("--pace", "K|none", "allow at most K frames from one PES packet to the next (the pace); "
           "none: do not check this", PAIRS, "measured", field="pace_word",
           read=parse_pace_or_none, check_default=None, is_in_profile=True,
           shape=Maybe(Text(r"(none|[1-9][0-9]{0,6})")), note=PART_NOTE),
    Option("--profile", "FILE", "read options from FILE, one per line; options on "
           "the command line override them", PAIRS, "none", field="profile",
           write=lambda profile: str(profile.name), shape=Maybe(PROFILE),
           note="The other keys have its options."),
)

# The options in each group of the help. All other options are in `ACCEPTED`.
ACCEPTED = "acceptance"
GROUPS = {
    "input": ("--page", "--option", "--pid", "--breaks", "--pes", "--from", "--to", "--layout",
              "--open", "--profile", "--reference", "-p"),
    "clock": ("--origin", "--start", "--reference-start", "--same-start", "--relative", "--late"),
    ACCEPTED: (),
    "output": ("-o", "--keep", "--json", "--csv", "--junit", "--quiet"),
    "many pairs": ("--batch", "--collect", "--watch", "--measure", "--resume", "--line", "--jobs",
                   "--limit", "--settled")}


def add_options(parser: ToolParser, options: Iterable[Option] | None = None) -> None:
    """Add options to a parser in groups. By default, add the options for a pair."""
    for option in sorted(OPTIONS if options is None else options, key=group_number):
        arguments: dict[str, Any] = {"help": option.help, "dest": option.field,
                                     "default": option.default}
        if option.metavar is None:
            arguments |= {"action": "store_const", "const": option.flag_value}
        elif option.choices:
            arguments["choices"] = option.choices
        else:
            arguments |= {"metavar": option.metavar, "type": option.read, "nargs": option.nargs}
        parser.add_to_group([*GROUPS][group_number(option)], option.name, **arguments)


def group_number(option: Option) -> int:
    """Return the number of an option's group in the help. The default group is `ACCEPTED`."""
    titles = [title for title, names in GROUPS.items() if option.name in names]
    return [*GROUPS].index(titles[0] if titles else ACCEPTED)


def list_arguments(request: Any) -> list[list[str]]:
    """Return the command-line arguments for a request, without the options in its profile."""
    profile = request.profile
    return [option.format_arguments(
        option.get_value(request), profile.get_value(option.field, option.default)
        if profile else option.default) for option in OPTIONS]


def list_request_members() -> list[Member]:
    """Return the members of the object `request` in a JSON result."""
    return [member for option in OPTIONS if (member := option.member)]


class Setting(NamedTuple):
    """A setting in a profile: its option, the field in a request, and the value."""

    name: str
    field: str
    value: Any


class Profile(NamedTuple):
    """A profile: its path as typed, its SHA-256, and its settings by field name."""

    name: str
    sha256: str
    settings: Mapping[str, Setting]

    def get_value(self, field: str, default: Any) -> Any:
        """Return the value that the profile sets for a field, or the default."""
        setting = self.settings.get(field)
        return setting.value if setting else default


LC = slice(14, 16)  # bytes of the language code (LC) in the GSI block
COPY_NAME = "subtitles.stl"  # file name of the copy in the temporary folder
MOVED_NAME = "moved.stl"  # file name of the copy with moved times


def parse_range(from_time: str | None, to_time: str | None) -> FrameRange:
    """Return the frames between the values of --from and --to."""
    begin, end = parse_frame(from_time or ""), parse_frame(to_time or "")
    return FrameRange(begin or 0, FRAMES_OF_A_DAY if end is None else end)


@dataclasses.dataclass
class Request:
    """A pair with its options."""

    stl: str
    recording: str | None
    page: tuple[int, int]  # magazine (0 is 8) and page number
    every: int
    option: str
    origin: int | None
    is_complete: bool
    pid: int | None
    is_loss_allowed: bool
    severity: str | None
    breaks: int
    pes: tuple[int, int] | None
    start: str | None  # time code of the first picture, or `tcp`
    is_relative_allowed: bool = False  # whether the verdict `relative` has exit status 0
    within: int = 0  # maximum number of frames from a cue until its page is complete
    is_strict: bool = False  # whether warnings are treated as faults
    required: Sequence[str] = ()  # kinds of the checks without which the pair is not judged
    from_time: str | None = None
    to_time: str | None = None
    layout: str | None = None
    is_open: bool = False  # whether open subtitles are accepted
    may_keep: bool = False  # whether repeated headers with C4 clear are accepted
    pace_word: str | None = None  # maximum PES interval in frames, or `none`
    late: Lateness | None = None  # usual delays of the inserter
    profile: Profile | None = None  # the other fields contain its values
    kept_stl: str | None = None  # path of the copy, if the subtitle file is a pipe
    moved_stl: str | None = None  # path of the copy with moved times, if it runs over midnight
    language: str | None = None  # language code by which `option` was chosen, if any
    is_reading: bool = False  # whether `stl` is read from the recording
    reference_call: Sequence[str] = ()  # arguments of `qc --reference`, if it reads the recording

    @property
    def stl_path(self) -> str:
        """Return the path of the file to judge: the subtitle file, or its copy with moved times."""
        return self.moved_stl or self.original_path

    @property
    def original_path(self) -> str:
        """Return the path of the subtitle file. If it is a pipe, return the path of its copy."""
        return self.kept_stl or self.stl

    @property
    def other_files(self) -> tuple[str | None, ...]:
        """Return the paths of the other input files: severity file and profile."""
        return self.severity, self.profile and self.profile.name

    @property
    def page_name(self) -> str:
        name: str = page_name(*self.page)
        return name

    @property
    def between(self) -> FrameRange:
        """Return the judged range. Only subtitles that begin in it are judged."""
        return parse_range(self.from_time, self.to_time)

    def limit_to_range(self, begin: int, end: int) -> Request:
        """Return this request limited to the subtitles that begin from frame `begin` up to, but not
        including, frame `end`."""
        return dataclasses.replace(self, from_time=format_frame(begin) if begin else None,
                                   to_time=format_frame(end) if end < FRAMES_OF_A_DAY else None)

    @property
    def pace(self) -> int | None:
        """Return the maximum PES interval in frames, or `None` if it is not given."""
        word = self.pace_word
        return None if word is None or word == NONE else int(word)

    @property
    def has_clock(self) -> bool:
        """Return whether the clock is given, or the pair has no recording."""
        return not self.recording or self.origin is not None or self.start is not None

    @property
    def waivers(self) -> list[str]:
        """Return the options of the profile that may turn a refusal into another verdict."""
        fields = ["is_loss_allowed", "severity", *["is_relative_allowed"] * (not self.has_clock)]
        return [option.name for option in OPTIONS if option.field in fields
                and option.format_arguments(option.get_value(self), option.default) and self.profile
                and self.profile.get_value(option.field, None) == option.get_value(self)]

    def list_schedule_arguments(self) -> list[str]:
        """Return the arguments for `schedule`: the options that change the expected pages."""
        return self.list_program_arguments([option for option in OPTIONS if option.changes_pages])

    def list_check_arguments(self, is_file_alone: bool = False) -> list[str]:
        """Return the arguments for `check`, except the origin."""
        return self.list_program_arguments([
            option for option in OPTIONS if option.check_default is not NOT_ACCEPTED_BY_CHECK
            and (ALONE in option.modes or not is_file_alone)])

    def list_program_arguments(self, options: Iterable[Option]) -> list[str]:
        """Return the program's arguments for the given options, without `--pace none`."""
        request = dataclasses.replace(
            self, pace_word=None if self.pace_word == NONE else self.pace_word)
        return [format_program_time(word) for option in options for word in
                option.format_arguments(option.get_value(request), option.check_default)]


def get_option_values(args: argparse.Namespace) -> dict[str, Any]:
    """Return the values of options by field name."""
    return {option.field: getattr(args, option.field) for option in OPTIONS}


def make_request(args: argparse.Namespace) -> Request:
    """Return the request for the pair on a command line."""
    return make_file_request(args.stl, args.recording, args)


def make_file_request(stl: str, recording: str | None, options: argparse.Namespace) -> Request:
    """Return the request for a subtitle file and a recording, with parsed options."""
    recording_name = recording and (recording if recording == "-" else make_safe_name(recording))
    if conflict := find_conflict(options):
        raise (Stop if isinstance(options.profile, Profile) else UsageError)(conflict)
    request = Request(make_safe_name(stl), recording_name, **get_option_values(options))
    if request.option == AUTO and not is_pipe(request.stl):  # a pipe is read later
        choose_option(request)
    return request


def find_conflict(options: argparse.Namespace) -> str | None:
    """Return the message about options that contradict each other, or `None`. A profile that was
    not read yet may set --within."""
    if options.origin is not None and options.start is not None:
        return "--start and --origin both give the clock: remove one"
    if options.late and options.late.longest > options.within and \
            not isinstance(options.profile, str):
        return f"--late contains a delay of {counted(options.late.longest, 'frame')}, but " \
            f"--within allows only {options.within}: increase --within"
    return None


def is_pipe(name: str) -> bool:
    """Return whether a path is a pipe, which can be read only once."""
    return os.path.exists(name) and stat.S_ISFIFO(os.stat(name).st_mode)


def keep_stl(request: Request, folder: str) -> None:
    """If the subtitle file is a pipe, copy it into a folder. Choose the national option again,
    because the file may have changed after the list was read."""
    if is_pipe(request.stl):
        request.kept_stl = os.path.join(folder, COPY_NAME)
        data = read_stl(request.stl)
        with open(request.kept_stl, "wb") as file:
            file.write(data)
    if request.option == AUTO or request.language is not None:
        choose_option(request)


def begin_programme_day(request: Request, folder: str) -> contextlib.AbstractContextManager[None]:
    """Return a context manager in which frames are counted in the day of the subtitle file. If the
    file runs over midnight, write a copy with moved times into a folder."""
    data = b""
    with contextlib.suppress(Stop, OSError):  # the error is reported later
        data = read_stl(request.original_path)
    day_begin = find_day_begin(data)
    if day_begin:
        write_moved_copy(request, move_times(data, day_begin, True), folder)
    return begin_day_at(day_begin)


def write_moved_copy(request: Request, data: bytes, folder: str) -> None:
    """Write the copy of a subtitle file with moved times, which the program reads, to a folder."""
    request.moved_stl = os.path.join(folder, MOVED_NAME)
    with open(request.moved_stl, "wb") as file:
        file.write(data)


def choose_option(request: Request) -> None:
    """Choose the national option from the language code (LC) in the subtitle file's GSI block."""
    language = b""
    with contextlib.suppress(Stop, OSError):  # the error is reported later
        language = read_first_bytes(request.stl_path, LC.stop)[LC]
    request.option = choose_language_option(language).word
    request.language = language.decode("latin-1")


def describe_option(request: Request) -> str:
    """Return the line that explains the choice of the national option."""
    language = f"the language of the file (LC) is {escape_hidden(request.language)}" \
        if request.language else "the file names no language (LC)"
    return f"option: {request.option}, since {language}"


# The options that can replace a choice made by qc
PID_CHOICE, ORIGIN_CHOICE, PES_CHOICE = "pid", "origin", "pes"
PACE_CHOICE, OPTION_CHOICE = "pace", "option"
CHOICES = (PID_CHOICE, ORIGIN_CHOICE, PES_CHOICE, PACE_CHOICE, OPTION_CHOICE)


class Selection(NamedTuple):
    """A value that qc chose for an option, or a choice that the operator must make."""

    option: str  # name of the option
    value: str | None  # the chosen value, if any
    line: str  # the line to print
    match_count: int | None = None  # number of items (PES packets, cues) that match the value
    total_count: int | None = None  # number of all items
    part: int | None = None  # `None` for all parts


class Unclear(ReportedError):
    """Raised if a pair can't be judged. Contains the reason, and commands that may help."""

    kind = UNDECIDED

    def __init__(self, reason: str, *commands: str) -> None:
        super().__init__(reason)
        self.reason, self.commands = reason, commands


class WrongInput(Unclear):
    """Raised if a file is missing, or is not what the pair needs."""

    kind = INPUT


class IncompleteAnswer(Unclear):
    """Raised if the program ended, for example after a signal, before its output was complete. Its
    exit status is negative after a signal."""

    def __init__(self, reason: str, exit_status: int) -> None:
        super().__init__(reason)
        self.kind = classify_program_end(exit_status)
