"""Propose a profile from correct recordings (`--measure`), with evidence for each option."""
from __future__ import annotations

import argparse
import collections
import contextlib
import dataclasses
import os
import re
from typing import Callable, Collection, Iterable, Iterator, NamedTuple, Sequence

from ..clock.start import TCP
from ..common.command_line import (
    Lateness, MAX_WITHIN, Stop, USAGE, UsageError, counted, format_lateness, quote_argument,
    print_stdout, version)
from ..common.files import read_first_bytes, make_temporary_folder
from ..common.times import FRAMES_OF_A_DAY, Span, TICKS, format_frame, subtract_origin
from ..formats.layout import (
    PLAIN, TextFault, draw_text, parse_layout, format_layout, encode_text_characters,
    list_page_characters, make_page_rows)
from ..formats.midnight import find_day_begin
from ..formats.stl import Subtitle, read_stl
from ..formats.teletext import (
    NationalOption, OPTION_BY_WORD, SentOption, find_sent_option, page_name)
from ..judging.pages import find_text_columns, format_cells
from ..judging.pair import PairJudge
from ..judging.part import Part
from ..judging.status import Severity
from ..judging.timing import PartSearch, find_subtitle_packets, measure_pace
from ..judging.transmissions import describe_control_bits, keeps_page
from ..judging.verdict import Verdict
from ..recording.notices import NeverSent
from ..recording.recording import refuse_files
from ..request.commands import CommandPaths, Listener, OutputNames, Progress, Printer
from ..request.lines import read_pairs, read_profile
from ..request.request import (
    OPTIONS, PID_CHOICE, Request, Setting, Unclear, make_file_request)
from ..stream.pace import BY_EVERY, IRREGULAR, Pace, PAUSED, TOO_FEW
from ..stream.repeats import RARE_SHARE, Repeats, measure_repeats
from ..stream.layout import (
    FLASH, LayoutChoice, MAX_MOVED_ROWS, MIN_SUBTITLES, MIN_TENTHS, SentSubtitle, choose_layouts,
    draws_as_sent, find_questionable_items, find_sent_subtitles)
from ..stream.packets import HEADER
from ..stream.receiver import Timeline, decode_pages_around
from .single import now


MAX_EXAMPLES = 5  # maximum number of counterexamples to list
MAX_EARLY = 25  # number of frames before a TCI in which to search for the subtitle's page
PAIR_FIELDS = {"origin", "start", "pid"}  # options that may differ between the pairs of a site
GOOD_STATUSES = {0, 3}  # exit statuses for the verdicts accepted and relative


class Finding(NamedTuple):
    """The proposed option (empty if there is none), and lines with the evidence."""

    text: str
    lines: Sequence[str]

    def list_profile_lines(self) -> Iterator[str]:
        """Yield the lines that this finding adds to a profile."""
        yield from (f"# {line}" for line in self.lines)
        if self.text:
            yield self.text


class ReceivedSubtitle(NamedTuple):
    """A subtitle of the file `stl`, and the page that was sent with the text of the subtitle at the
    expected time."""

    stl: str
    subtitle: Subtitle
    sent: SentSubtitle

    @property
    def name(self) -> str:
        """Return a description of the subtitle: its file, position and time."""
        subtitle = self.subtitle
        return f"{self.stl}, {subtitle.name} at {format_frame(subtitle.begin)}"


def propose_repeat_limit(all_repeats: Sequence[Repeats]) -> Finding:
    """Propose --every: the longest interval between two headers of the page in all recordings."""
    if not all_repeats:
        return Finding("", ["every: there are too few headers of the page"])
    worst_repeats = max(all_repeats, key=lambda item: item.longest)
    usual = [item.usual for item in all_repeats if item.usual is not None]
    words = f" (usually {max(usual)})" if usual else ""
    lines = [
        f"every: {counted(sum(repeats.headers for repeats in all_repeats), 'header')} of the page, "
        f"at most {counted(worst_repeats.longest, 'frame')} apart{words}; the longest interval "
        f"begins at {format_frame(worst_repeats.longest_start)}"]
    return Finding(f"--every {worst_repeats.longest}", lines + format_name_lines(
        "longer intervals, which check refuses with this --every", [
            f"{counted(frames, 'frame')} from {format_frame(begin_frame)} on"
            for repeats in all_repeats for begin_frame, frames in repeats.exceptions
            if frames > worst_repeats.longest]))


MISSING_PACE_REASONS = {
    IRREGULAR: "PES packets come at irregular intervals", PAUSED: "PES packets have pauses",
    BY_EVERY: "--every shows each loss", TOO_FEW: "there are too few PES "
    "packets, or they are too close together, to show a loss"}


def propose_pace(paces: Sequence[Pace]) -> Finding:
    """Propose --pace: the longest interval between PES packets in all recordings."""
    frames = [pace.frames for pace in paces]
    known_frames = [pace for pace in frames if pace is not None]
    if not known_frames or len(known_frames) < len(frames):
        reason = "; ".join(dict.fromkeys(MISSING_PACE_REASONS[pace.kind] for pace, pace_frames in
                                         zip(paces, frames)
                                         if pace_frames is None))
        return Finding("", [f"pace: none, since {reason or 'there are no PES packets'}"])
    return Finding(f"--pace {max(known_frames)}", [
        "pace: PES packets are nearly always at most "
        f"{counted(max(pace.interval for pace in paces), 'frame')} apart"])


class LateCue(NamedTuple):
    """A late cue: its delay in frames, its description, and whether it is an in-cue."""

    delay: int
    text: str
    is_in_cue: bool = True


class Delays(NamedTuple):
    """The delays of cues."""

    begins: collections.Counter[int]  # number of in-cues with each delay in frames
    ends: collections.Counter[int]  # number of out-cues with each delay
    early: list[str]  # descriptions of early cues
    unseen: list[str]  # subtitles that were never sent
    late: Sequence[LateCue] = ()


def measure_delays(stl: str, subtitles: Sequence[Subtitle], held: Timeline,
                   option: NationalOption) -> Delays:
    """Measure the delays of a file's cues from the decoded text. If a subtitle ends when the next
    begins, do not count its out-cue."""
    late = list[LateCue]()
    delays = Delays(collections.Counter(), collections.Counter(), [], [], late)
    rows = [(item, encode_text_characters(item.text, option)) for item in subtitles]
    for place, (subtitle, letters) in enumerate(rows):
        if not letters:
            continue
        name = f"{stl}, {subtitle.name} at {format_frame(subtitle.begin)}"
        before, after = (rows[at][0] if 0 <= at < len(rows) else None
                         for at in (place - 1, place + 1))
        is_new = before is None or rows[place - 1][1] != letters \
            or before.end + MAX_EARLY < subtitle.begin
        first = find_text_begin(held, subtitle, letters, MAX_EARLY if is_new else 0)
        if first is None:
            delays.unseen.append(name)
            continue
        if is_new and first > held.first:
            add_delays(delays, late, first - subtitle.begin, f"{name} begins", True)
        if after is None or after.begin > subtitle.end:
            last = find_text_end(held, subtitle, letters, first,
                                 FRAMES_OF_A_DAY if after is None else after.begin)
            if last < held.last:
                add_delays(delays, late, last + 1 - subtitle.end, f"{name} ends", False)
    return delays


def add_delays(delays: Delays, late: list[LateCue], delay: int, name: str,
               is_in_cue: bool) -> None:
    """Count the delay of a cue. If the delay is negative, describe the cue as early instead. If it
    is positive, add it to `late` too."""
    if delay < 0:
        delays.early.append(f"{name} {counted(-delay, 'frame')} early")
        return
    (delays.begins if is_in_cue else delays.ends)[delay] += 1
    if delay:
        late.append(LateCue(delay, f"{name} {counted(delay, 'frame')} late", is_in_cue))


def remove_unusual(delays: collections.Counter[int]) -> collections.Counter[int]:
    """Return the delays, leaving out the longest ones if they are rare."""
    usual, rest = collections.Counter(delays), 0
    for delay in sorted(delays, reverse=True):
        rest += delays[delay]
        if rest * RARE_SHARE >= sum(delays.values()):
            break
        del usual[delay]
    return usual


def list_separate_cues(delays: collections.Counter[int], name: str,
                       late: Sequence[LateCue]) -> list[str]:
    """Return a line that names the cues whose delays are separate from those of the other cues, by
    two frames or more: they may be wrong, and --within would hide that."""
    several = sorted(delays)
    least, usual = next(((after, before) for before, after in zip(several, several[1:])
                         if after > before + 1), (None, 0))
    cues = sorted((cue for cue in late if least is not None and cue.delay >= least),
                  key=lambda cue: -cue.delay)
    return format_name_lines(
        f"{len(cues)} of {sum(delays.values())} {name} {'is' if len(cues) == 1 else 'are'} at "
        f"least {least} frames late, the others at most {usual}; they may be wrong",
        [cue.text for cue in cues])


def find_text_begin(held: Timeline, subtitle: Subtitle, letters: bytes, earlier: int) -> int | None:
    """Return the first frame with the text of a subtitle, or `None`. The search starts `earlier`
    frames before its TCI."""
    numbers = held.list_page_numbers(max(subtitle.begin - earlier, 0), subtitle.end)
    return next((held.get_page_span(number).first for number in numbers
                 if list_page_characters(held.pages[number]) == letters), None)


def find_text_end(held: Timeline, subtitle: Subtitle, letters: bytes, first: int,
                  limit: int) -> int:
    """Return the last frame with the text of a subtitle. The search ends soon after its TCO, and
    not after frame `limit`."""
    end = min(subtitle.end + MAX_WITHIN + 1, limit)
    numbers = held.list_page_numbers(first, max(end, subtitle.end))
    return max(held.get_page_span(number).last for number in numbers
               if list_page_characters(held.pages[number]) == letters)


def propose_lateness(several: Sequence[Delays], names_without_clock: Sequence[str],
                     off_frame: tuple[int, int] = (0, 0)) -> Iterator[Finding]:
    """Propose --within and --late from the recordings with a given clock. `off_frame` gives the
    number of PTS that are not at the start of a frame, and the number of all PTS. Propose --within
    1 or more unless PTS off the frame start are rare."""
    off, count = off_frame
    least = int(off * RARE_SHARE >= count > 0)
    lines = [f"within: {off} of {count} PTS differ from their frames, which check "
             f"{'accepts with --within 1' if least else 'refuses with --within 0 (fault 61)'}"] \
        * (off > 0)
    lines += [f"within, late: no clock was given for {name} (--origin or --start), so it is not "
              "known how late its cues are" for name in names_without_clock]
    if not several:
        yield Finding("--within 1" if least else "", lines)
        return
    begins, ends = collections.Counter[int](), collections.Counter[int]()
    for delays in several:
        begins, ends = begins + delays.begins, ends + delays.ends
    lines += ["within, late (frames late:number of cues): in-cues "
              f"{format_delays(begins)}; out-cues {format_delays(ends)}"]
    begins, ends = remove_unusual(begins), remove_unusual(ends)
    lines += format_name_lines("early, which no option accepts", [
        name for item in several for name in item.early])
    lines += format_name_lines("text never sent", [
        name for item in several for name in item.unseen])
    longest = max([*begins, *ends, least])
    late = [cue for item in several for cue in item.late]
    lines += format_name_lines("later than usual, which check refuses with this --within", [
        cue.text for cue in late if cue.delay > longest])
    for counts, name, is_in_cue in (begins, "in-cues", True), (ends, "out-cues", False):
        lines += list_separate_cues(counts, name, [
            cue for cue in late if cue.is_in_cue == is_in_cue and cue.delay <= longest])
    if longest > MAX_WITHIN:
        lines.append(f"within can be at most {MAX_WITHIN} frames")
    if not longest or longest > MAX_WITHIN or not (least or begins and ends):
        yield Finding("", lines)
        return
    yield Finding(f"--within {longest}", lines)
    if not begins or not ends:
        return
    shares = Lateness(*(dict(sorted(counts.items())) for counts in (begins, ends)))
    yield Finding(f"--late {format_lateness(shares)}", [])


def format_delays(counts: collections.Counter[int]) -> str:
    """Format delays and their counts, for example as `0:31, 1:40`, or `none`."""
    return ", ".join(f"{delay}:{count}" for delay, count in sorted(counts.items())) or "none"


def format_name_lines(title: str, names: Sequence[str]) -> list[str]:
    """Return one line with the first names in a list and the number of other names. If the list is
    empty, return no line."""
    if not names:
        return []
    more = f", and {len(names) - MAX_EXAMPLES} more" if len(names) > MAX_EXAMPLES else ""
    return [f"{title}: {'; '.join(names[:MAX_EXAMPLES])}{more}"]


def propose_keeping(headers: int, keeping: int, is_alone: bool) -> Finding:
    """Propose --keeping if many headers keep the page. `is_alone` is true if no header has a wrong
    control bit other than C4."""
    lines = [f"keeping: C4 (erase page) is clear in {keeping} of {counted(headers, 'header')}"]
    is_frequent = keeping > 0 and keeping * RARE_SHARE >= headers
    if keeping and not is_frequent:
        lines.append("keeping: these headers are too few to be usual: check refuses them (fault "
                     "67)")
    if is_frequent and not is_alone:
        lines.append("keeping: other control bits are wrong too: check refuses them (fault 67)")
    return Finding("--keeping" if is_frequent and is_alone else "", lines)


def propose_option(sent: Sequence[SentOption], judged_option: str) -> Finding:
    """Propose the national option if C12 to C14 are the same in all page headers. The text was
    decoded with `judged_option`."""
    words = sorted(item.words + describe_choice(item) for item in sent)
    lines = [f"option: C12 to C14 of the headers select {' and '.join(words) or 'none'}; the text "
             f"was read as {judged_option}"]
    return Finding(f"--option {sent[0].option.word}" if len(sent) == 1 else "", lines)


def describe_choice(sent: SentOption) -> str:
    """Return why an option was chosen, if the options of several regions have the same bits."""
    if len(sent.options) == 1:
        return ""
    known = {0: "neither has", 1: f"only {sent.option.word} has", 2: "both have"}
    return f" (chosen: {sent.option.word}; {known[len(sent.complete_options)]} all characters of " \
        "the subtitle files)"


def find_sent_options(several_bits: Collection[int], judged_option: str,
                      texts: Collection[bytes]) -> list[SentOption]:
    """Return the options for each value of C12 to C14 in the page headers."""
    return [find_sent_option(bits, OPTION_BY_WORD[judged_option], texts)
            for bits in sorted(several_bits)]


# Matches spaces after the codes that open a box, or before the codes that close it.
SPACE_IN_BOX = re.compile(rb"^[\x00-\x1f]*\x0b[\x00-\x1f]* | [\x00-\x1f]*\x0a[\x00-\x1f]*$")


def propose_layout(sendings: Sequence[ReceivedSubtitle], option: NationalOption) -> Finding:
    """Propose the layout that draws nearly all subtitles as they were sent, and list the
    exceptions. If there is no such layout, describe the nearest one."""
    closest, choice = choose_layouts([sending.sent for sending in sendings], option)
    if closest.total < MIN_SUBTITLES:
        return Finding("", [f"layout: the text of {counted(closest.total, 'subtitle')} was found, "
                            f"but {MIN_SUBTITLES} subtitles are needed"])
    text = format_layout(choice.layout)
    if not choice.is_clear:
        nearest_choice = choice if closest.is_clear else closest
        return Finding("", [*explain_missing_layout(nearest_choice, sendings, option),
                            *list_omitted_items(choice)])
    rest_texts = [f"{rest.text} is based on {rest.redrawn}, of which {rest.as_sent} were sent so"
                  for rest in choice.items]
    lines = ["; ".join([f"layout: {format_counts(choice)}", *rest_texts])]
    return Finding(f"--layout {quote_argument(text)}" if text else "", [
        *lines, *list_counterexamples(choice, sendings, option), *list_omitted_items(choice)])


def list_omitted_items(choice: LayoutChoice) -> list[str]:
    """Return a line for each item that the proposed layout omits. The line says how many more
    subtitles the layout would draw exactly as sent with the item, and why the item is omitted."""
    return [f"{left.text} would draw {left.more} more of {choice.total}: "
            f"{explain_omission(left.whole)}" for left in choice.left]


def list_counterexamples(choice: LayoutChoice, sendings: Sequence[ReceivedSubtitle],
                         option: NationalOption) \
        -> Iterator[str]:
    """Yield the subtitles that a layout does not draw as they were sent."""
    others = [item for item in sendings if not draws_as_sent(choice.layout, item.sent, option)]
    for sending in others[:MAX_EXAMPLES]:
        yield f"against it: {sending.name}: sent {format_cells(sending.sent.rows)}; drawn " \
            f"{draw_page_text(choice, sending.sent, option)}"
    if len(others) > MAX_EXAMPLES:
        yield f"against it: {len(others) - MAX_EXAMPLES} more"


def draw_page_text(choice: LayoutChoice, sent: SentSubtitle, option: NationalOption) -> str:
    """Describe the page on which the chosen layout draws a subtitle."""
    lines = draw_text(sent.text, sent.row, sent.justify, choice.layout, option)
    return f"nothing: refused {lines.number}" if isinstance(lines, TextFault) else \
        format_cells(make_page_rows(lines))


def explain_missing_layout(nearest_choice: LayoutChoice, sendings: Sequence[ReceivedSubtitle],
                           option: NationalOption) \
        -> Iterator[str]:
    """Yield the reasons why no layout is proposed, and a description of the nearest layout."""
    others = [sending.sent for sending in sendings
              if not draws_as_sent(nearest_choice.layout, sending.sent, option)]
    text = format_layout(nearest_choice.layout)
    yield f"layout: none is proposed. The nearest, {text or 'that without --layout'}, draws " \
        f"{format_counts(nearest_choice)}; {MIN_TENTHS} in 10 are needed"
    for words, is_match in KINDS:
        count = sum(is_match(sent, nearest_choice, option) for sent in others)
        if count:
            yield f"{words} in {count} of the {len(others)} others: no layout can do that"
    yield from list_counterexamples(nearest_choice, sendings, option)


def is_spaced(sent: SentSubtitle, _: LayoutChoice, option: NationalOption) -> bool:
    """Return whether a sent line has spaces at its beginning or end, within the box."""
    return any(SPACE_IN_BOX.search(row.strip(b" ")) for row in sent.rows)


def is_block(sample: SentSubtitle, nearest_choice: LayoutChoice, option: NationalOption) -> bool:
    """Return whether all sent lines begin in the same column, unlike the lines of the layout."""
    lines = draw_text(sample.text, sample.row, sample.justify, nearest_choice.layout, option)
    if isinstance(lines, TextFault):
        return False
    due, sent = find_text_columns(make_page_rows(lines)), find_text_columns(sample.rows)
    return len(sent) > 1 and len({*sent}) == 1 < len({*due})


KINDS: Sequence[tuple[str, Callable[[SentSubtitle, LayoutChoice, NationalOption], bool]]] = (
    ("a space is in the box", is_spaced), ("lines form a block, aligned left,", is_block))


def find_decoded_subtitles(stl: str, subtitles: Iterable[Subtitle], held: Timeline,
                           option: NationalOption) \
        -> list[ReceivedSubtitle]:
    """Return each subtitle whose text was decoded while it was expected, with the decoded page."""
    return [ReceivedSubtitle(stl, subtitle, sent) for subtitle in subtitles
            for sent in find_sent_subtitles([subtitle], held, option)]


def explain_omission(text: str) -> str:
    """Explain why a layout is not proposed although it draws more subtitles as they were sent."""
    layout = parse_layout(text) or PLAIN
    added_codes, questionable_items = layout.before + layout.behind, find_questionable_items(layout)
    if FLASH in added_codes:
        return "all would flash"
    if ("before", 0) in questionable_items:
        return "receivers show a line only after two start boxes"
    if ("row", 0) in questionable_items:
        return f"no site moves all by more than {MAX_MOVED_ROWS} rows"
    return "it removes something that viewers see" if questionable_items else \
        f"{MIN_SUBTITLES} subtitles have to show it, {MIN_TENTHS} in 10 of them as they were sent"


def format_counts(choice: LayoutChoice) -> str:
    """Describe how many subtitles a layout draws as they were sent."""
    return f"{choice.as_sent} of {counted(choice.total, 'subtitle')} as they were sent"


class SilentPrinter(Printer):
    """A printer that stores lines instead of printing them."""

    def __init__(self) -> None:
        super().__init__(Progress())
        self.lines: list[str] = []

    def print_line(self, line: str) -> None:
        self.last_line = line
        self.lines.append(line)

    def print_error(self, line: str) -> None:
        self.lines.append(line)


class MeasuredRecording(NamedTuple):
    """Measurements of one recording."""

    pid: str | None
    lines: Sequence[str]  # reasons for the choice of the PID
    repeats: Sequence[Repeats]  # intervals between page headers
    paces: Sequence[Pace]  # intervals between PES packets
    delays: Sequence[Delays]
    headers: tuple[int, int]  # number of all headers, and of headers that do not erase the page
    is_alone: bool  # whether no header has a wrong control bit other than C4
    option_bits: set[int]  # values of C12 to C14 in the page headers
    sendings: Sequence[ReceivedSubtitle]
    # Number of PTS that are not at the start of a frame, and number of all PTS
    off_frame: tuple[int, int] = (0, 0)
    option: str = "english"  # national option used to decode the text
    texts: Collection[bytes] = ()  # texts of the subtitles


def measure(args: argparse.Namespace, program_name: str) -> int:
    """Measure the pairs on a command line and print their profile. Return the exit status."""
    command_paths, requests = CommandPaths(program_name, args.program), read_requests(args)
    with make_temporary_folder("subttx-qc-") as folder:
        recordings = [measure_recording(request, command_paths, os.path.join(folder, str(number)))
                      for number, request in enumerate(requests)]
        lines = [*make_profile_lines(requests, recordings)]
        path = os.path.join(folder, "profile")
        with open(path, "w", encoding="utf-8", errors="surrogateescape") as file:
            file.writelines(f"{line}\n" for line in lines)
        settings = read_profile(path).settings.values()
        lines += list_refused([apply_profile(request, settings) for request in requests],
                              command_paths, folder)
    for line in lines:
        print_stdout(line)
    return 0


def apply_profile(request: Request, settings: Iterable[Setting]) -> Request:
    """Return a pair with the options of a profile. The pair keeps only its clock, its PID and the
    options that a profile can't contain."""
    defaults = {option.field: option.default for option in OPTIONS
                if option.is_in_profile and option.field not in PAIR_FIELDS}
    return dataclasses.replace(request, **defaults | {
        setting.field: setting.value for setting in settings})


def read_requests(args: argparse.Namespace) -> list[Request]:
    """Return the pairs given as arguments or in a list."""
    names = args.measure
    if len(names) == 1 and not is_stl(names[0]):
        return read_list_requests(names[0], args)
    if len(names) % 2:
        raise UsageError(f"--measure needs pairs, STL RECORDING: {names[-1]} has no recording")
    requests = [make_file_request(stl, recording, args)
                for stl, recording in zip(names[::2], names[1::2])]
    if len(requests) > 1 and (args.origin is not None or args.start not in (None, TCP)):
        raise UsageError("--origin and --start give the clock of one recording: for several, give "
                         "a list of pairs, each with its clock")
    return requests


def is_stl(path: str) -> bool:
    """Return whether a file is a subtitle file, by its name or its first bytes."""
    return path.lower().endswith(".stl") or read_first_bytes(path, 6)[3:6] == b"STL"


def read_list_requests(path: str, args: argparse.Namespace) -> list[Request]:
    """Return the pairs in a list with the options of each line. Raise `Stop` for an invalid
    line."""
    items = read_pairs(path, args)
    for item in items:
        if item.reason:
            raise (UsageError if item.reason_kind == USAGE else Stop)(item.reason)
    return [item.request for item in items if item.request]


def measure_recording(request: Request, command_paths: CommandPaths,
                      folder: str) -> MeasuredRecording:
    """Measure the recording of a pair. Raise `Stop` if that fails."""
    os.mkdir(folder)
    try:
        refuse_files(request)
        refuse_midnight(request)
        pair = measure_pair(make_pair(request, command_paths, folder))
        sent = find_sent_options(pair.option_bits, request.option, pair.texts)
        if len(sent) == 1 and request.option != sent[0].option.word:
            request = dataclasses.replace(request, option=sent[0].option.word)
            pair = measure_pair(make_pair(request, command_paths, folder))
        return pair._replace(option=request.option)
    except Unclear as reason:
        raise Stop(f"{request.stl} and {request.recording} can't be measured: {reason}") from None
    except NeverSent as reason:
        raise Stop(f"{request.stl} and {request.recording} can't be measured: {reason}") from None


def refuse_midnight(request: Request) -> None:
    """Raise `Unclear` if the subtitles run over midnight, since their times are not moved here."""
    data = b""
    with contextlib.suppress(Stop, OSError):  # the error is reported later
        data = read_stl(request.stl)
    if find_day_begin(data):
        raise Unclear("the subtitles run over midnight: measure another programme")


def make_pair(request: Request, command_paths: CommandPaths, folder: str) -> PairJudge:
    """Return an object that judges a pair without printing."""
    names = OutputNames("measured", folder, None)
    names.set_subtitle_file(request.stl)
    return PairJudge(Verdict(request, Severity(None), now()), command_paths, names,
                     Listener(SilentPrinter()), False)


def list_refused(requests: Sequence[Request], command_paths: CommandPaths,
                 folder: str) -> Iterator[str]:
    """Yield a line for each recording that is not accepted with the profile. If all are accepted,
    yield one line that reports this."""
    refused = 0
    for request in requests:
        pair = make_pair(request, command_paths, folder)
        try:
            pair.judge()
            sentence, is_good = pair.verdict.sentence, pair.verdict.status in GOOD_STATUSES
        except Unclear as reason:
            sentence, is_good = f"Not judged: {reason}", False
        if not is_good:
            refused += 1
            first, *more = sentence.splitlines()
            yield f"# With this profile, qc does not accept {request.stl} {request.recording}: " \
                f"{first}"
            yield from (f"# {line}" for line in more)
    if not refused:
        yield "# With this profile, qc refuses none of these recordings."


def measure_pair(pair: PairJudge) -> MeasuredRecording:
    """Find the parts of a pair and measure its recording."""
    request, option = pair.request, OPTION_BY_WORD[pair.request.option]
    recording, clocks, subtitles = pair.located_recording
    parts = [add_part_packets(clocks.search, part) for part in pair.make_parts(
        recording, clocks.alignments, clocks.search, subtitles)]
    times = [(one.begin, one.end) for one in subtitles]
    sent = [(find_subtitles(part, subtitles), decode_pages(part)) for part in parts]
    headers = [part.count_headers() for part in parts]
    texts = {one.text for one in subtitles}
    option_bits = {bits for part in parts for bits in part.find_option_bits()}
    sent_options = find_sent_options(option_bits, request.option, texts)
    word = sent_options[0].option.word if len(sent_options) == 1 else request.option
    return MeasuredRecording(
        *find_pid(pair),
        [repeats for part in parts if (repeats := measure_repeats(
            part.list_pts(HEADER), part.list_pts()[-1], part.origin or 0, times))],
        [measure_pace(part, times)[0] for part in parts],
        [measure_delays(request.stl, *sent_pair, option) for sent_pair in sent],
        (sum(sum(counts.values()) for counts in headers),
         sum(count for counts in headers for header,
             count in counts.items() if keeps_page(header))),
        not any(describe_control_bits(header, word) for counts in headers for header in counts),
        option_bits,
        [sending for sent_pair in sent
         for sending in find_decoded_subtitles(request.stl, *sent_pair, option)],
        (sum(subtract_origin(part.origin or 0, pts) % TICKS > 0 for part in parts
             for pts in part.list_pts()), sum(len(part.list_pts()) for part in parts)),
        texts=texts)


def add_part_packets(programme: PartSearch, part: Part) -> Part:
    """Return a part together with the PES packets of its frames."""
    pes = find_subtitle_packets(programme, *part.judged_recording, programme.request.within).range
    if pes is None:
        raise Unclear("the recording does not contain the page at the time of the subtitles")
    return part.add_packets(pes)


def decode_pages(part: Part) -> Timeline:
    """Return the decoded pages around the frames of a part."""
    recording, frames = part.judged_recording
    return decode_pages_around(recording.packets, part.request.page, frames.origin, 1,
                               Span(frames.begin, frames.end), part.request.every, frames.packets)


def find_subtitles(part: Part, subtitles: Iterable[Subtitle]) -> list[Subtitle]:
    """Return the subtitles that begin in the frames of a part."""
    return [one for one in subtitles if part.request.between.includes(one.begin)]


def find_pid(pair: PairJudge) -> tuple[str | None, list[str]]:
    """Return the PID that carries the page, and lines with the evidence and the entry in the PMT.
    For a file of PES packets the PID is `None`."""
    recording, name = pair.located_recording.recording, pair.request.page_name
    lines = [item.line for item in pair.listener.selections if item.option == PID_CHOICE]
    if not recording.is_stream:
        return None, lines
    pid = recording.packets.pid
    for programme in recording.survey.programmes:
        for other, pages in programme.pages.items():
            if any(item.page == pair.request.page for item in pages):
                lines.append(f"programme {programme.number} announces page {name} on PID "
                             f"0x{other:X}: {', '.join(item.line() for item in pages)}")
    return f"0x{pid:X}", [*dict.fromkeys(lines)] or [f"PID 0x{pid:X} was given"]


def make_profile_lines(requests: Sequence[Request],
                       recordings: Sequence[MeasuredRecording]) -> Iterator[str]:
    """Yield the lines of the profile, which `--profile` can read."""
    first = requests[0]
    files = " ".join(quote_argument(name) for request in requests
                     for name in (request.stl, request.recording or ""))
    yield f"# qc {version()} --measure {files}"
    yield (f"# This profile describes {counted(len(requests), 'recording')}. Read each line, and "
           "keep the lines that are true of your site.")
    are_known = [request.origin is not None or request.start is not None for request in requests]
    counts = [item.headers for item in recordings]
    sent_options = find_sent_options(
        {bits for item in recordings for bits in item.option_bits}, recordings[0].option,
        {text for item in recordings for text in item.texts})
    option = sent_options[0].option if len(sent_options) == 1 else \
        OPTION_BY_WORD[recordings[0].option]
    findings = [
        Finding(f"--page {page_name(*first.page)}", []), propose_pid(recordings),
        propose_option(sent_options, recordings[0].option),
        propose_repeat_limit([repeats for item in recordings for repeats in item.repeats]),
        propose_pace([pace for item in recordings for pace in item.paces]),
        *propose_lateness([delays for item, is_known in zip(recordings, are_known) if is_known
                           for delays in item.delays],
                          [request.recording or "" for request, is_known in zip(requests, are_known)
                           if not is_known],
                          (sum(item.off_frame[0] for item in recordings),
                           sum(item.off_frame[1] for item in recordings))),
        propose_keeping(sum(count for count, _ in counts), sum(count for _, count in counts),
                        all(item.is_alone for item in recordings)),
        propose_layout([sending for item in recordings for sending in item.sendings], option)]
    for finding in findings:
        yield from finding.list_profile_lines()


def propose_pid(recordings: Sequence[MeasuredRecording]) -> Finding:
    """Propose --pid if the PID is the same in all recordings."""
    pids = {one.pid for one in recordings}
    lines = [f"pid: {line}"
             for line in dict.fromkeys(line for one in recordings for line in one.lines)]
    pid = next(iter(pids)) if len(pids) == 1 else None
    if len(pids) > 1:
        lines.append("pid: not the same in all recordings")
    return Finding(f"--pid {pid}" if pid else "", lines)
