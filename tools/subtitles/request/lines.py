"""Read lists and profiles, and find the pairs in a list or a folder."""
from __future__ import annotations

import argparse
import codecs
import collections
import functools
import hashlib
import io
import os
import re
from typing import Any, Collection, Iterable, Iterator, Mapping, NamedTuple, Sequence

from ..common.command_line import (
    INPUT, Stop, ToolParser, UsageError, classify_error, format_error)
from ..common.files import Inputs, read_bounded_bytes, describe_kind, make_safe_name
from .commands import ListNames, make_pair_name
from .request import (
    ALONE, Mode, OPTIONS, PAIR, Profile, Request, Setting, add_options, get_option_values,
    make_request,
    make_file_request)


# Lines of lists and profiles, which are split into words like shell commands.

# Limits of a list. Python needs about 600 bytes of memory for a line that is not a valid pair, and
# 150 bytes for each word of a line.
MAX_BYTES, MAX_LINES, MAX_WORDS = 16_000_000, 100_000, 1_000_000
MAX_LINE_CHARACTERS, MAX_LINE_WORDS = 65_536, 256
BYTE_ORDER_MARKS = codecs.BOM_UTF8, codecs.BOM_UTF16_LE, codecs.BOM_UTF16_BE
# Matches a part of a word, a blank or a comment, but not a quote that is never closed.
LIST_TOKEN = re.compile(r"""(?P<blank>[ \t\r\n]+) | (?P<comment>\#.*)
                       | (?P<plain>[^ \t\r\n\\'"\#]+)
                       | \\(?P<letter>.) | '(?P<single>[^']*)' | "(?P<double>(?:[^"\\]|\\.)*)" """,
                        re.VERBOSE | re.DOTALL)
QUOTED_ESCAPE = re.compile(r'\\(["\\])')


class Line(NamedTuple):
    """A line of a list: its number and arguments. If the line is faulty, `fault` is the reason and
    `arguments` contains the first characters."""

    number: int
    arguments: tuple[str, ...]
    fault: str = ""


def read_list(path: str, may_be_pipe: bool = False) -> str:
    """Return the text of a list file."""
    return decode_text(path, read_bounded_bytes(path, MAX_BYTES, may_be_pipe))


def decode_text(name: str, data: bytes) -> str:
    """Decode the text of a file. Raise `Stop` if it begins with a byte order mark."""
    if data.startswith(BYTE_ORDER_MARKS):
        raise Stop(f"{name} begins with a byte order mark (BOM): save it as UTF-8 without one")
    return data.decode("utf-8", "surrogateescape")


def find_list_folder(path: str) -> str:
    """Return the folder to which paths in a list are relative, or "" for a pipe."""
    return os.path.dirname(path) if os.path.isfile(path) else ""


def split_lines(text: str) -> Iterator[Line]:
    """Yield the lines of a list, except empty lines and comments. Raise `Stop` if there are too
    many lines."""
    line_count = word_count = 0
    for number, text_line in enumerate(io.StringIO(text, newline="\n"), 1):
        line = parse_line(number, text_line.removesuffix("\n"))
        line_count += bool(line.arguments)
        word_count += len(line.arguments)
        if line_count > MAX_LINES or word_count > MAX_WORDS:
            raise Stop(f"line {number} exceeds the limits of a list: {MAX_LINES:,} lines and "
                       f"{MAX_WORDS:,} words")
        if line.arguments:
            yield line


def parse_line(number: int, text: str) -> Line:
    """Parse a line of a list. Empty lines and comments have no arguments."""
    try:
        return Line(number, tuple(split_arguments(text)))
    except ValueError as reason:
        return Line(number, (text[:80],), str(reason))


def split_arguments(line: str) -> list[str]:
    """Split a line into words as `shlex` does, but in linear time. Raise `ValueError` if the line
    is too long, a quote is not closed or a word has a NUL character."""
    if len(line) > MAX_LINE_CHARACTERS:
        raise ValueError(f"it has more than {MAX_LINE_CHARACTERS:,} characters")
    parts: list[list[str]] = [[]]  # parts of each word
    at = 0
    while at < len(line):
        match = LIST_TOKEN.match(line, at)
        if match is None:
            raise ValueError("a quote is not closed" if line[at] in "'\"" else
                             "it ends with a backslash")
        at, kind = match.end(), match.lastgroup or ""
        if kind in ("blank", "comment"):
            parts += [[]] * bool(parts[-1])
        else:
            parts[-1].append(match[kind] if kind != "double" else
                             QUOTED_ESCAPE.sub(r"\1", match[kind]))
    arguments = ["".join(word_parts) for word_parts in parts if word_parts]
    if len(arguments) > MAX_LINE_WORDS:
        raise ValueError(f"it has more than {MAX_LINE_WORDS} words")
    if any("\0" in word for word in arguments):
        raise ValueError("a word has a NUL character")
    return arguments


MAX_PROFILE_BYTES = 65_536
PATH_FIELDS = {"severity"}  # options with a path as value


def parse_setting(arguments: Sequence[str]) -> Setting:
    """Parse a line of a profile. Raise `Stop` if the option is not allowed in a profile. The
    message quotes only known options, since the user may have given a private file by mistake."""
    name = arguments[0].partition("=")[0]
    option = next((item for item in OPTIONS if item.name == name), None)
    if option is None or not option.is_in_profile:
        names = ", ".join(item.name for item in OPTIONS if item.is_in_profile)
        raise Stop(f"{option.name if option else 'its first word'} is not allowed in a profile: "
                   f"use {names}")
    parser = ToolParser("")
    add_options(parser, [option])
    return Setting(name, option.field, getattr(parser.parse_args(arguments), option.field))


def read_profile(path: str, may_be_pipe: bool = False) -> Profile:
    """Read a profile. Raise `Stop` for the first faulty or repeated line."""
    name = make_safe_name(path)
    try:
        data = read_bounded_bytes(name, MAX_PROFILE_BYTES, may_be_pipe)
    except OSError as reason:
        raise Stop(format_error(reason)) from None
    settings, lines = dict[str, Setting](), dict[str, int]()
    for line in split_lines(decode_text(name, data)):
        try:
            if line.fault:
                raise Stop(line.fault)
            setting = parse_setting(line.arguments)
            if setting.field in lines:
                raise Stop(f"{setting.name} is already in line {lines[setting.field]}")
        except Stop as reason:
            raise Stop(f"{name}, line {line.number}: {reason}") from None
        lines[setting.field] = line.number
        settings[setting.field] = resolve_setting_path(setting, os.path.dirname(name))
    return Profile(name, hashlib.sha256(data).hexdigest(), settings)


def resolve_setting_path(setting: Setting, folder: str) -> Setting:
    """Interpret the path in a setting as relative to the folder of the profile."""
    if setting.field not in PATH_FIELDS:
        return setting
    return setting._replace(value=os.path.join(folder, setting.value))


def read_options(parser: ToolParser, line: Sequence[str], defaults: Mapping[str, Any],
                 own_defaults: Mapping[str, Any], folder: str = "", is_typed: bool = False) \
        -> argparse.Namespace:
    """Return the options of a line. Add the options that the line lacks from `defaults`.

    `defaults` contains the options of the command line and its profile. `own_defaults` contains the
    options of the command line alone. A line with its own profile uses that profile and
    `own_defaults` instead of `defaults`. `is_typed` is true if the line is the command line itself.
    Only then may the profile be a pipe, since a list could name a pipe to which nothing is written.
    """
    given_options = {word.partition("=")[0] for word in line}
    defaults = remove_replaced_clock(defaults, given_options)
    own_defaults = remove_replaced_clock(own_defaults, given_options)
    options = parser.parse_args([*line], argparse.Namespace(**defaults))
    if isinstance(options.profile, str):
        profile = read_profile(os.path.join(folder, options.profile), is_typed)
        profile_values = {name: setting.value for name, setting in profile.settings.items()}
        own_options = parser.parse_args([*line], argparse.Namespace(**own_defaults))
        own_options.profile = None
        names = {setting.name for setting in profile.settings.values()}
        defaults = {**remove_replaced_clock(own_defaults, names),
                    **remove_replaced_clock(profile_values, given_options)}
        options = parser.parse_args([*line], argparse.Namespace(**defaults))
        options.profile, options.own_defaults = profile, own_options
    if options.within != defaults.get("within", options.within) and "--late" not in given_options:
        options.late = None  # --late only suits the previous value of --within
    return options


def remove_replaced_clock(options: Mapping[str, Any], names: Collection[str]) -> dict[str, Any]:
    """Remove the value of `origin` if `names` contains `--start`, and the value of `start` if
    `names` contains `--origin`."""
    replaced_options = [other for field, other in (("origin", "start"), ("start", "origin"))
                        if f"--{field}" in names]
    return {**options, **dict.fromkeys(replaced_options)}


def needs_recording(modes: Sequence[Mode]) -> bool:
    """Return whether an option of these modes has a meaning only for a pair with a recording."""
    return PAIR in modes and ALONE not in modes


def describe_mode_conflict(name: str, modes: Sequence[Mode], mode: Mode) -> str:
    """Return the message which reports that an option can't be used in a mode."""
    if mode is ALONE and needs_recording(modes):
        return f"{name} needs a recording: remove {name} or --file-only"
    *others, last = (mode_.text for mode_ in modes)
    accepted_modes = f"{', '.join(others)} or {last}" if others else last
    return f"{name} may be given with {accepted_modes}, not with {mode.text}"


@functools.lru_cache(maxsize=None)
def make_line_parser() -> ToolParser:
    """Return the parser for lines of a list. The parser is cached, since creating it takes longer
    than parsing a line."""
    parser = ToolParser("")
    parser.add_argument("stl")
    parser.add_argument("recording")
    add_options(parser)
    return parser


def make_line_request(line: Sequence[str], defaults: argparse.Namespace,
                      folder: str = "") -> Request:
    """Return the request for a line of a list. `folder` is the folder of the list. `defaults`
    contains the options of the command line."""
    own_defaults = get_option_values(getattr(defaults, "own_defaults", defaults))
    request = make_request(read_options(make_line_parser(), line, get_option_values(defaults),
                                        own_defaults, folder))
    if request.recording == "-":
        raise UsageError("a list can't have standard input (-) as a recording: give a file")
    return request


SUBTITLE_ENDING = ".stl"
# Suffixes of transport streams with any packet size, and of files of PES packets.
RECORDING_ENDINGS = (".ts", ".m2t", ".m2ts", ".mts", ".trp", ".pes")


class BatchItem(NamedTuple):
    """A pair in a batch. If the pair can't be judged, `request` is `None`, `reason` says why and
    `reason_kind` is the kind of error. `files` lists all input files that the pair may have."""

    name: str
    request: Request | None
    reason: str | None
    files: Sequence[str | None] = ()
    reason_kind: str = INPUT


def read_pairs(path: str, defaults: argparse.Namespace) -> list[BatchItem]:
    """Return the pairs in a folder or a list."""
    items = find_folder_pairs(path, defaults) if os.path.isdir(path) else [
        *map(check_files, read_list_pairs(path, split_lines(read_list(path, may_be_pipe=True)),
                                          defaults))]
    if not items:
        raise Stop(f"{path} has no pair of a subtitle file and a recording")
    return items


def find_subtitle_files(folder: str, defaults: argparse.Namespace) -> list[BatchItem]:
    """Return the subtitle files in a folder, which are judged without recordings."""
    if not os.path.isdir(folder):
        raise Stop(f"--file-only needs a folder, but {folder} is not a folder")
    paths_by_name: dict[str, list[str]] = collections.defaultdict(list)
    for file in sorted(os.listdir(folder)):
        if os.path.splitext(file)[1].lower() == SUBTITLE_ENDING:
            paths_by_name[make_pair_name(file)].append(os.path.join(folder, file))
    if not paths_by_name:
        raise Stop(f"{folder} has no subtitle file")
    return [make_item(name, paths[0], None, defaults) if len(paths) == 1 else BatchItem(
        name, None, f"{', '.join(paths)}: more than one subtitle file has this name", paths)
            for name, paths in paths_by_name.items()]


def find_folder_pairs(folder: str, defaults: argparse.Namespace) -> list[BatchItem]:
    """Return the pairs in a folder: files with the same base name, ignoring case."""
    files_by_stem: dict[str, list[str]] = collections.defaultdict(list)
    for file in sorted(os.listdir(folder)):
        stem, ending = os.path.splitext(file)
        if ending.lower() in (SUBTITLE_ENDING, *RECORDING_ENDINGS):
            files_by_stem[stem.lower()].append(file)
    return [item for files in files_by_stem.values() for item in
            match_pair(folder, files, defaults)]


def collect_inputs(items: Iterable[BatchItem], *more: str) -> Inputs:
    """Return the input files of all pairs, and the additional files `more`."""
    return Inputs(*more, *(name for item in items for name in item.files))


def find_path_problem(path: str) -> str | None:
    """Return the reason why a file can't be judged, or `None` if the path is a regular file."""
    try:
        kind = describe_kind(os.stat(path).st_mode)
    except OSError as error:
        return f"{path}: {error.strerror}"
    except ValueError as error:
        return f"{path}: {error}"
    return kind and f"{path} is {kind}"


def find_file_problem(request: Request) -> str | None:
    """Return the reason why a file of a pair can't be judged, or `None` if there is none."""
    return find_path_problem(request.stl) or \
        (None if request.recording is None else find_path_problem(request.recording))


def make_item(name: str, stl: str, recording: str | None,
              defaults: argparse.Namespace) -> BatchItem:
    """Return the pair of a subtitle file and a recording, or the subtitle file alone."""
    try:
        request = make_file_request(stl, recording, defaults)
    except Stop as reason:
        return BatchItem(name, None, str(reason), (stl, recording), classify_error(reason))
    return check_files(BatchItem(name, request, None))


def check_files(item: BatchItem) -> BatchItem:
    """Check that the files of a pair can be judged. Return the pair with its files. If a file can't
    be judged, replace the request with the reason."""
    request = item.request
    if request is None:
        return item
    reason = find_file_problem(request)
    return item._replace(request=None if reason else request, reason=reason,
                         files=(request.stl, request.recording, *request.other_files))


def match_pair(folder: str, files: list[str], defaults: argparse.Namespace) -> Iterable[BatchItem]:
    """Return the pair among files whose names differ only in case. If there are more than two
    files, match exact names."""
    subtitles, recordings = split_file_names(files)
    if len(subtitles) > 1 or len(recordings) > 1:
        files_by_stem: dict[str, list[str]] = collections.defaultdict(list)
        for file in files:
            files_by_stem[os.path.splitext(file)[0]].append(file)
        if len(files_by_stem) > 1:
            return [item for group in files_by_stem.values() for item in
                    match_pair(folder, group, defaults)]
    name = make_pair_name((subtitles or recordings)[0])
    paths = [os.path.join(folder, file) for file in subtitles + recordings]
    if not recordings:
        reason = f"{', '.join(paths)}: no recording has the same name"
    elif not subtitles:
        reason = f"{', '.join(paths)}: no subtitle file has the same name"
    elif len(paths) > 2:
        reason = f"{', '.join(paths)}: more than one pair has this name"
    else:
        return [make_item(name, paths[0], paths[1], defaults)]
    return [BatchItem(name, None, reason, paths)]


def split_file_names(files: list[str]) -> tuple[list[str], list[str]]:
    """Separate the subtitle files in a list of names from the recordings."""
    is_subtitles = [os.path.splitext(file)[1].lower() == SUBTITLE_ENDING for file in files]
    return ([file for file, is_subtitle_file in zip(files, is_subtitles) if is_subtitle_file],
            [file for file, is_subtitle_file in zip(files, is_subtitles) if not is_subtitle_file])


def read_list_pairs(path: str, lines: Iterable[Line],
                    defaults: argparse.Namespace) -> Iterator[BatchItem]:
    """Yield the pairs in a list, without checking that their files exist."""
    names, folder = ListNames(), find_list_folder(path)
    for line in lines:
        try:
            if line.fault:
                raise UsageError(line.fault)
            request = make_line_request(line.arguments, defaults, folder)
        except (Stop, ValueError) as reason:
            yield BatchItem(names.make_line_name(line.number), None,
                            f"{path}, line {line.number}: {reason}",
                            list_possible_paths(line.arguments, folder),
                            classify_error(reason) if isinstance(reason, Stop) else INPUT)
            continue
        yield BatchItem(names.name_pair(request.stl), request, None)


def list_possible_paths(words: Sequence[str], folder: str) -> list[str]:
    """Return the paths that a faulty line may contain. These files must not be replaced."""
    values = [value for word in words for value in {word, word.partition("=")[2]} if value]
    return [*values, *(os.path.join(folder, value) for value in values)]


def read_line_pair(path: str, number: int, defaults: argparse.Namespace) \
        -> tuple[BatchItem, list[str]]:
    """Return the pair in line `number` of a list, and the words of all lines, since any word may be
    an input file. The earlier lines affect the name of the pair."""
    if os.path.isdir(path):
        raise Stop(f"--line needs a list, but {path} is a folder")
    lines = [*split_lines(read_list(path, may_be_pipe=True))]
    before = [line for line in lines if line.number <= number]
    if not before or before[-1].number < number:
        raise Stop(f"line {number} of {path} has no pair")
    *_, item = read_list_pairs(path, before, defaults)
    return check_files(item), [word for line in lines for word in line.arguments]
