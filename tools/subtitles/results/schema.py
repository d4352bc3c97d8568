"""The members of JSON results, in tables with their names, shapes, meanings and sources.

The tables are used to write and check results, and `dev/make-pages` makes docs/verdict.schema.json
from them. To add a member, add a row here or in `request.members`.
"""
from __future__ import annotations

from typing import Iterator, NamedTuple

from ..clock.start import SOURCES
from ..common.checks import KINDS as UNCHECKED_KINDS
from ..common.command_line import (
    BUG_STATUS, KINDS, MAX_EVERY, PACKET_SIZES, STATUSES_BY_KIND, USAGE_STATUS)
from ..common.program import ProgramInfo
from ..common.shapes import (
    COUNT, Flag, Integer, ListOf, Maybe, Member, MAX_NUMBER, Number, OneOf, PID, PTS, Record,
    Rules, Schema, Shape, CHECKSUM, Text, TIME, make_definitions, make_named_shape)
from ..common.times import FRAMES_OF_A_DAY, format_frame
from ..judging.causes import CAUSE_NAMES, CauseDescriber, count_causes
from ..judging.coverage import list_unchecked
from ..judging.cues import (
    CERTAIN, CUTS, NOT_CERTAIN, NOT_KNOWN, RIGHT, WAIVED, WRONG)
from ..judging.faults import make_faults
from ..judging.part import Part
from ..judging.status import (
    ACCEPTED, COMPARISON_STATUSES, NO_VERDICTS, NOT_JUDGED, POSSIBLE_READINGS, POSSIBLE_RESULTS,
    READING_STATUSES, REFUSED, RELATIVE, STATUSES, VALID)
from ..judging.verdict import (
    SCOPE_FILE, SCOPE_PAIR, SCOPE_READING, SCOPE_REFERENCE, SCOPES, Verdict)
from ..judging.waivers import WAIVABLE
from ..request.request import CHOICES, list_request_members


FIRST_FAULT, LAST_FAULT = 10, 79
MAX_LISTED_ITEMS = 20_000

CODE_TIME = make_named_shape("code_time", Text(r"[0-9]{2,3}(:[0-9]{2,3}){3}"))
DATE = make_named_shape("date", Text(r"[0-9]{4}-[0-9]{2}-[0-9]{2}T[0-9]{2}:[0-9]{2}:[0-9]{2}Z"))
PART = make_named_shape("part_number", Integer(1, MAX_NUMBER))
STATUS = make_named_shape("status", OneOf(*sorted({*STATUSES.values(), USAGE_STATUS, BUG_STATUS})))
KIND = make_named_shape("kind", OneOf(*KINDS))
KIND_NOTE = "The kind of that reason: `usage` (wrong arguments, also in a list), `input` (a file " \
    "is missing or wrong), `undecided`, `resource` (device, memory, time or another process), " \
    "`signal` or `bug`."
WORD = make_named_shape("word", OneOf(
    *STATUSES, *READING_STATUSES, *COMPARISON_STATUSES))

FILE_AT_START = Record(
    "file_at_start", "",
    Member("size", COUNT),
    Member("modified", Text(r"[0-9-]{10,20}T[0-9:]{8}[.][0-9]{9}Z"), "The time is in UTC."))

FILE = Record(
    "file", "",
    Member("name", Maybe(Text()), "Null if the PES packets were not stored."),
    Member("size", COUNT),
    Member("sha256", CHECKSUM))

SUBTITLE = Record(
    "subtitle", "",
    Member("position", COUNT, "The subtitle's position in the subtitle file or part, from 1. "
           "A comment or user data has the position of the previous subtitle."),
    Member("number", Integer(0, 65535), "The SN."),
    Member("begin", CODE_TIME, "The TCI."),
    Member("end", CODE_TIME, "The TCO."))

CAUSE_NAME = make_named_shape("cause_name", OneOf(*CAUSE_NAMES))
OTHER_SUBTITLE = "The subtitle whose text was received."
CAUSE_MEMBERS = (
    Member("subtitle", SUBTITLE),
    Member("name", CAUSE_NAME),
    Member("frames", Maybe(Integer(1, FRAMES_OF_A_DAY)),
           "The number of frames by which the subtitle is late or early."),
    Member("time", Maybe(TIME), "The first frame of another text in a pause. `subtitle` is then "
           "the subtitle before the pause, which may be right."),
    Member("expected_text", Text(), "A slash separates the rows."),
    Member("decoded_text", Maybe(Text())),
    Member("other_number", Maybe(Integer(0, 65535)), OTHER_SUBTITLE),
    Member("other_position", Maybe(Integer(1, MAX_NUMBER)), OTHER_SUBTITLE),
    Member("line", Text()))
CAUSE = Record("cause", "All reports of fault 72 in a subtitle have the same cause.",
               *CAUSE_MEMBERS)
LISTED_CAUSE = Record("listed_cause", "",
                      Member("part", PART), *CAUSE_MEMBERS)

CELL = Record(
    "cell", "",
    Member("code", Text(r"[0-7][0-9A-F]"), "The 7-bit code, in hexadecimal."),
    Member("character", Maybe(Text())))

FAULT = Record(
    "fault", "",
    Member("part", PART),
    Member("line", Text(r"refused [ -~]+", 200), "The line that `check --all` prints."),
    Member("number", Maybe(Integer(FIRST_FAULT, LAST_FAULT))),
    Member("name", Text(r"[A-Za-z]+([ -][a-z]+)*", 40)),
    Member("severity", OneOf("error", "warning"), "`error`, or `warning` for a waived fault."),
    Member("file", OneOf("stl", "pes"), "`stl` for the subtitle file, `pes` for the recording."),
    Member("block", Maybe(COUNT), "The number of the TTI block, from 1; 0 means the GSI block."),
    Member("subtitle", Maybe(SUBTITLE),
           "The subtitle that contains the block, or that is expected in the frame."),
    Member("byte", Maybe(Text(r"[0-9A-F]{2}")), "The refused byte of faults 50 and 51, in "
           "hexadecimal."),
    Member("character", Maybe(Text())),
    Member("text_offset", Maybe(COUNT), "The offset of `byte` in the text or, for faults 52 to "
           "55, the number of the line. Both count from 0."),
    Member("pes", Maybe(COUNT), "The number of the PES packet, from 0 (in a feed: from the start "
           "of the judged part); null if the fault is between PES packets."),
    Member("pes_pts", Maybe(PTS)),
    Member("pes_time", Maybe(TIME)),
    Member("packet", Maybe(COUNT), "The number of the Teletext packet in the frame, from 0."),
    Member("frame", Maybe(Integer(0, FRAMES_OF_A_DAY - 1)), "The frame, counted from "
           "midnight."),
    Member("time", Maybe(TIME)),
    Member("row", Maybe(Integer(1, 24)), "1 to 24."),
    Member("column", Maybe(Integer(0, 39)), "0 to 39."),
    Member("expected", Maybe(CELL)),
    Member("decoded", Maybe(CELL), "Null if the row was not sent."),
    Member("last_time", Maybe(TIME),
           "For faults 72, 73, 77, 78 and 79, the last frame with the fault."),
    Member("last_pes", Maybe(COUNT),
           "For faults 33 to 40, 45 and 61, the last skipped PES packet."),
    Member("meaning", Text()),
    Member("remedy", Text()),
    Member("cause", Maybe(CAUSE)))

REQUEST = Record(
    "request", "",
    Member("stl", Text(), "The subtitle file as typed."),
    Member("recording", Maybe(Text()), "The recording as typed; null: a subtitle file alone."),
    *list_request_members())

CLOCK_OF_PART = Record(
    "clock", "",
    Member("origin", PTS, "The PTS of 00:00:00:00.",
           lambda clock: clock.midnight),
    Member("source", OneOf(*SOURCES), "recording (estimated), given (--origin), start (--start "
           "TIME), tcp (--start tcp) or first_pes (00:00:00:00 is the first PES packet)."),
    Member("delay_frames", Maybe(Integer(-FRAMES_OF_A_DAY, FRAMES_OF_A_DAY)), "The number of "
           "frames by which the cues come later than this clock predicts."))


class PartResult(NamedTuple):
    """A part of the recording. `is_kept` is true if the file of its judged PES packets is kept."""

    part: Part
    is_kept: bool

    @property
    def judged_file(self) -> dict[str, object] | None:
        """Return the members for the judged PES file. Only a kept file has a name."""
        file = self.part.judged_file
        return file and {**file._asdict(), **({} if self.is_kept else {"name": None})}


JUDGED_PART = Record(
    "part", "",
    Member("part", PART, getter=lambda of: of.part.number),
    Member("stl", Text(), getter=lambda of: of.part.request.stl),
    Member("origin", Maybe(PTS),
           getter=lambda of: of.part.clock and of.part.clock.midnight),
    Member("from", Maybe(TIME), getter=lambda of: of.part.format_time_codes()[0]),
    Member("to", Maybe(TIME), getter=lambda of: of.part.format_time_codes()[1]),
    Member("verdict", OneOf(ACCEPTED, VALID, "refused", NOT_JUDGED), "`not judged` means that "
           "a signal ended the call after the listed faults.",
           lambda of: of.part.check_output.verdict),
    Member("line", Text(), "The last line that `check` prints without `--all`.",
           lambda of: of.part.check_output.line),
    Member("frames", Maybe(COUNT), getter=lambda of: of.part.check_output.frames),
    Member("transmissions", Maybe(COUNT), getter=lambda of: of.part.check_output.transmissions),
    Member("fault_count", COUNT, getter=lambda of: of.part.check_output.fault_count),
    Member("pid", Maybe(PID), getter=lambda of: (of.part.stream or (None, None))[0]),
    Member("packet_size", OneOf(*PACKET_SIZES, None),
           getter=lambda of: (of.part.stream or (None, None))[1]),
    Member("pes", Maybe(Text(r"[0-9]+-[0-9]+", 40)), "The judged PES packets, in the form that "
           "`--pes` takes; null if all of a feed was judged.", lambda of: of.part.pes_argument),
    Member("pace", Maybe(Integer(1, MAX_EVERY)),
           getter=lambda of: of.part.request.pace),
    Member("judged_file", Maybe(FILE), "The judged PES packets of a feed."),
    Member("clock", Maybe(CLOCK_OF_PART), getter=lambda of: of.part.clock))

AROUND_LOSS = "The time of the PES packet before or after the loss."
LOSS = Record(
    "loss", "",
    Member("from", Maybe(TIME), AROUND_LOSS, lambda gap: gap.after),
    Member("to", Maybe(TIME), AROUND_LOSS, lambda gap: gap.before),
    Member("from_pts", Maybe(PTS), AROUND_LOSS, lambda gap: gap.place.before),
    Member("to_pts", Maybe(PTS), AROUND_LOSS, lambda gap: gap.place.after),
    Member("gap_marker", Maybe(COUNT), "The number of the gap marker, counted together with the "
           "PES packets.",
           lambda gap: gap.place.gap_marker),
    Member("lost_ts_packets", COUNT, "The number may be too small, since a continuity counter has "
           "only 4 bits.",
           lambda gap: gap.place.lost),
    Member("scrambled_ts_packets", COUNT, getter=lambda gap: gap.place.scrambled),
    Member("missing_ticks", COUNT, "The length in 90 kHz ticks; 0 if the PCR does not show the "
           "loss.", lambda gap: gap.place.missing),
    Member("judged", Flag(), "Whether the verdict covers this time.",
           lambda gap: gap.is_judged))

WARNING = Record(
    "warning", "",
    Member("kind", OneOf(
        "pts_behind", "pts_early", "pts_changed", "page", "type", "language", "option",
        "character_set", "repeat", "clock_jump", "pause", "blocks", "subtitles", "cut", "hidden",
        "waiver")),
    Member("line", Text()),
    Member("time", Maybe(TIME), "The time of the first occurrence."))

UNCHECKED = Record(
    "unchecked", "",
    Member("kind", OneOf(*UNCHECKED_KINDS)),
    Member("part", Maybe(PART), "Null if it applies to the whole pair."),
    Member("from", Maybe(TIME), "Null, like `to`, if it applies everywhere.",
           lambda item: item.begin),
    Member("to", Maybe(TIME), getter=lambda item: item.end),
    Member("text", Text()))

WAIVER = Record(
    "waiver", "",
    Member("number", Integer(min(WAIVABLE), max(WAIVABLE)), "The fault number.",
           lambda item: item.waiver.number),
    Member("time", TIME, "The TCI of the subtitle.", lambda item: item.waiver.time),
    Member("file", Text(), "The file name, or `sha256:` and its checksum.",
           lambda item: item.waiver.file),
    Member("until", Text(r"[0-9]{4}-[0-9]{2}-[0-9]{2}"), "The last day (UTC).",
           lambda item: item.waiver.until),
    Member("ended", Flag(), "Whether this day is before `date`.", lambda item: item.has_ended),
    Member("author", Text(), getter=lambda item: item.waiver.author),
    Member("reason", Text(), getter=lambda item: item.waiver.reason),
    Member("fault_count", COUNT, "The number of faults that it waives, at least in part.",
           lambda item: item.fault_count))

TRUSTED = Record("trusted_frames", "", Member("part", PART),
                 Member("from", TIME), Member("to", TIME, "The last trusted frame."))

DELAY = Maybe(Integer(-FRAMES_OF_A_DAY, FRAMES_OF_A_DAY))
CUE = Record(
    "cue", "",
    Member("part", PART),
    Member("position", Integer(1, MAX_NUMBER)),
    Member("number", Integer(0, 65535)),
    Member("recording_offset", Maybe(Text(r"[0-9]+:[0-9]{2}:[0-9]{2}")), "The TCI, "
           "counted from the recording's beginning, as H:MM:SS."),
    Member("expected_in", CODE_TIME),
    Member("expected_out", CODE_TIME),
    Member("actual_in", Maybe(TIME), "The first frame at whose end a receiver has the page, or "
           "another page in its place."),
    Member("actual_out", Maybe(TIME), "The first frame at whose end a receiver no longer has "
           "the page."),
    Member("delay_in", DELAY, "The delay in frames; negative if the in-cue is early."),
    Member("delay_out", DELAY),
    Member("expected_text", Maybe(Text())),
    Member("decoded_text", Maybe(Text())),
    Member("verdict", OneOf(RIGHT, VALID, WRONG, WAIVED, NOT_KNOWN, CERTAIN, NOT_CERTAIN), "right, "
           "valid (there is no recording), wrong, waived (all faults are warnings) or not known "
           "(it could not be judged). In a reading: certain or not certain."),
    Member("cut", OneOf(*CUTS, None), "In a reading: the recording begins (`start`) or ends "
           "(`end`) during the subtitle, or both."),
    Member("reason", Maybe(Text()), "The reason for the verdict, or a note about the subtitle."),
    Member("complete_after", Maybe(COUNT), "The number of frames from the TCI until the page was "
           "complete and, with `--complete`, closed."))

CHOICE = Record(
    "choice", "",
    Member("part", Maybe(PART), "Null if the choice applies to all parts."),
    Member("option", OneOf(*CHOICES), getter=lambda choice: choice.option),
    Member("value", Maybe(Text()), "Null if `qc` chose no value."),
    Member("matches", Maybe(COUNT), "The number of PES packets (for pid and pes), cues (origin) or "
           "positions (pace) that match the value.",
           lambda choice: choice.match_count),
    Member("total", Maybe(COUNT), getter=lambda choice: choice.total_count),
    Member("line", Text()))

PROGRAM = Record(
    "program", "",
    Member("version", Text()),
    Member("sha256", CHECKSUM),
    Member("proof", Maybe(Text()), "The prover's result: the number of crates and proved "
           "functions, and the details of the last crate.",
           lambda program: program.proved))

DELAY_SPREAD = Record(
    "spread", "",
    Member("minimum", COUNT, getter=lambda delays: delays.minimum),
    Member("median", COUNT, getter=lambda delays: delays.median),
    Member("maximum", COUNT, getter=lambda delays: delays.maximum),
    Member("never_complete", COUNT, "The number of subtitles, not of frames.",
           lambda delays: delays.never_complete))

COUNTS = Record(
    "counts", "",
    Member("judged", COUNT),
    Member("refused", COUNT, "The count includes the subtitle before a subtitle with fault 56 or "
           "57."))

READING = Record(
    "reading", "",
    Member("languages", ListOf(Text(), MAX_LISTED_ITEMS), "The languages that the PMT announces."),
    Member("from", TIME),
    Member("to", TIME, "The last frame that was read."),
    Member("shown", COUNT, "The number of subtitles that receivers show."),
    Member("written", COUNT, "The number of subtitles in the file."),
    Member("certain", COUNT),
    Member("enhanced", COUNT, "The number of subtitles with packets X/26."))

FORMAT = 8
MAX_SUBTITLES = 100_000  # maximum number of subtitles; a subtitle file has at most 99,999 blocks
MAX_SECONDS = 10 ** 9
Value = object


class ResultSource(NamedTuple):
    """The verdict and the program from which a result is made."""

    verdict: Verdict
    program: ProgramInfo


def list_trusted_frames(known: ResultSource) -> Iterator[dict[str, Value]]:
    """Yield the ranges of frames, in all parts, that have no fault."""
    for part in known.verdict.parts:
        for begin, end in part.trusted_frames:
            yield {"part": part.number, "from": format_frame(begin), "to": format_frame(end)}


def list_cause_rows(known: ResultSource) -> Iterator[dict[str, Value]]:
    """Yield the causes of all parts, in the order of the subtitles."""
    for part in known.verdict.parts:
        if part.causes:
            wording = CauseDescriber(part.causes, known.verdict.request.option)
            for cause in part.causes.list_causes():
                yield {"part": part.number, **wording.make_json(cause)}


def add_numbers_if_known(numbers: list[int | None]) -> int | None:
    """Return the sum of the numbers. Return `None` if a number is unknown or the list is empty."""
    known = [number for number in numbers if number is not None]
    return sum(known) if known and len(known) == len(numbers) else None


def sum_parts(known: ResultSource, name: str) -> int | None:
    """Return the sum of a count over all parts, or `None` if it is unknown."""
    return add_numbers_if_known([getattr(part.check_output, name) for part in known.verdict.parts])


FILES_AT_START = Record(
    "files_at_start", "", *(
        Member(name, Maybe(FILE_AT_START)) for name in ("stl", "recording", "severity")))
INPUTS = Record("inputs", "",
                Member("stl", Maybe(FILE)), Member("recording", Maybe(FILE)))
CAUSE_COUNTS = Record("cause_counts", "", *(
    Member(name, COUNT) for name in CAUSE_NAMES))


def list_kinds(status: int) -> list[str]:
    """Return the kinds of errors with an exit status."""
    return [kind for kind in KINDS if STATUSES_BY_KIND[kind] == status]


# Allowed combinations of verdict, status, last line and reason
TEXT, NOTHING = Text(least=1), OneOf(None)
JOINT_RULES = Rules([
    {"verdict": OneOf(word), "status": OneOf(status),
     "line": NOTHING if word in NO_VERDICTS else TEXT,
     "worst_fault": NOTHING if word in (ACCEPTED, VALID, *NO_VERDICTS) else
     TEXT if word in (REFUSED, WAIVED) else Maybe(TEXT),
     "reason": TEXT if word in NO_VERDICTS else NOTHING,
     "not_judged_kind": OneOf(*list_kinds(status)) if word in NO_VERDICTS else NOTHING,
     "scope": OneOf(SCOPE_READING) if word in READING_STATUSES else
     OneOf(SCOPE_REFERENCE) if word in COMPARISON_STATUSES else
     OneOf(SCOPE_PAIR, SCOPE_FILE, *[SCOPE_REFERENCE] * (word in (RELATIVE, NOT_JUDGED)))}
    for word, status in [*POSSIBLE_RESULTS, *POSSIBLE_READINGS, *COMPARISON_STATUSES.items()]])
# Without a clock no pair is accepted or waived. Only a subtitle file without a recording is valid,
# and it is never accepted. The verdict `relative` has status 0 only with --relative.
IS_FILE: dict[str, Shape | Rules] = {"recording": NOTHING}
HAS_CLOCK: list[dict[str, Shape | Rules]] = [
    {"origin": PTS, "recording": TEXT}, {"start": TEXT, "recording": TEXT}]
RELATIVE_RULES = Rules([{"relative": OneOf(True)}])
TIME_RULES = Rules([
    {"verdict": OneOf(*(word for word in STATUSES
                        if word not in (ACCEPTED, VALID, WAIVED, RELATIVE)),
                      *READING_STATUSES, *COMPARISON_STATUSES)},
    {"verdict": OneOf(ACCEPTED), "request": Rules(HAS_CLOCK)},
    {"verdict": OneOf(WAIVED), "request": Rules([*HAS_CLOCK, IS_FILE])},
    {"verdict": OneOf(VALID), "request": Rules([IS_FILE])},
    {"verdict": OneOf(RELATIVE), "status": OneOf(STATUSES[RELATIVE])},
    {"verdict": OneOf(RELATIVE), "request": RELATIVE_RULES}])

# The lists of a result are written item by item. `omitted` counts the items left out of each.
LISTS = (
    Member("parts", ListOf(JUDGED_PART, MAX_LISTED_ITEMS), "Frames between parts are not judged.",
           lambda known: (PartResult(part, known.verdict.is_kept) for part in known.verdict.parts)),
    Member("losses", ListOf(LOSS, MAX_LISTED_ITEMS), getter=lambda known: known.verdict.gaps),
    Member("notes", ListOf(Text(), MAX_LISTED_ITEMS),
           getter=lambda known: known.verdict.list_notes()),
    Member("not_checked", ListOf(UNCHECKED, MAX_LISTED_ITEMS), "What was not checked.",
           lambda known: list_unchecked(known.verdict)),
    Member("hints", ListOf(Text(), MAX_LISTED_ITEMS), getter=lambda known: known.verdict.hints),
    Member("warnings", ListOf(WARNING, MAX_LISTED_ITEMS),
           getter=lambda known: known.verdict.warnings),
    Member("waivers", ListOf(WAIVER, MAX_LISTED_ITEMS), "The waivers for this subtitle file, also "
           "those that have ended.", lambda known: known.verdict.list_waivers()),
    Member("commands", ListOf(Text(), MAX_LISTED_ITEMS),
           getter=lambda known: known.verdict.commands),
    Member("choices", ListOf(CHOICE, MAX_LISTED_ITEMS),
           getter=lambda known: known.verdict.selections),
    Member("trusted_frames", ListOf(TRUSTED, MAX_LISTED_ITEMS), "The list is empty if `check` "
           "accepts the part.", list_trusted_frames),
    Member("faults", ListOf(FAULT, MAX_LISTED_ITEMS), "Faults without a number come first.",
           lambda known: make_faults(known.verdict)),
    Member("causes", ListOf(LISTED_CAUSE, MAX_LISTED_ITEMS),
           "Each cause also has a key named `part`.", list_cause_rows),
    Member("subtitles", ListOf(CUE, MAX_SUBTITLES), "The list includes refused subtitles.",
           lambda known: known.verdict.list_subtitle_rows()))
OMITTED = Record("omitted", "The number of items omitted from each list.", *(
    Member(one.name, COUNT) for one in LISTS))

VERDICT = Record(
    "verdict", "",
    Member("format", OneOf(FORMAT), getter=lambda _: FORMAT),
    Member("verdict", WORD, getter=lambda known: known.verdict.word),
    Member("status", STATUS, getter=lambda known: known.verdict.status),
    Member("line", Maybe(Text()), "The last line on standard output.",
           lambda known: known.verdict.line),
    Member("worst_fault", Maybe(Text()), "The last line, but with the worst fault instead of "
           "the first; null if there is no fault.",
           lambda known: known.verdict.worst_line if known.verdict.fault_count else None),
    Member("sentence", Text(), getter=lambda known: known.verdict.sentence),
    Member("reason", Maybe(Text()), "The reason why the pair was not judged.",
           lambda known: known.verdict.unjudged_reason),
    Member("not_judged_kind", Maybe(KIND), KIND_NOTE,
           lambda known: known.verdict.not_judged_kind),
    Member("scope", OneOf(*SCOPES), "What was judged: `pair` (a recording by a subtitle file), "
           "`file` (a subtitle file alone), `reading` (a recording alone) or `reference` (a "
           "recording by another).",
           lambda known: known.verdict.scope),
    Member("reading", Maybe(READING), "Null unless a recording was judged alone.",
           lambda known: known.verdict.describe_reading()),
    Member("frames", Maybe(COUNT), getter=lambda known: sum_parts(known, "frames")),
    Member("transmissions", Maybe(COUNT),
           getter=lambda known: sum_parts(known, "transmissions")),
    Member("fault_count", COUNT, "The count includes omitted faults.",
           lambda known: known.verdict.fault_count),
    Member("subtitle_counts", Maybe(COUNTS), getter=lambda known: known.verdict.subtitle_counts),
    Member("request", REQUEST, getter=lambda known: known.verdict.request),
    Member("files_at_start", FILES_AT_START, getter=lambda known: known.verdict.files_at_start),
    Member("inputs", INPUTS, getter=lambda known: known.verdict),
    Member("program", PROGRAM),
    Member("date", DATE, getter=lambda known: known.verdict.date),
    Member("seconds", Number(MAX_SECONDS), "The time that judging took.",
           lambda known: known.verdict.seconds),
    Member("cause_counts", CAUSE_COUNTS, getter=lambda known: count_causes(
        part.causes for part in known.verdict.parts if part.causes)),
    Member("complete_after", Maybe(DELAY_SPREAD),
           "The number of frames from the TCI until a subtitle was complete.",
           lambda known: known.verdict.delays),
    *LISTS,
    Member("omitted", OMITTED),
    rules=[JOINT_RULES, TIME_RULES])

NO_PAIR = Record(
    "no_pair", "A result without a request: a file or a line of a batch that is not a pair, or a "
               "call that ended early.",
               Member("format", OneOf(FORMAT)),
               Member("verdict", OneOf(NOT_JUDGED)),
               Member("status", OneOf(*sorted({*STATUSES_BY_KIND.values()}))),
               Member("name", Text()),
               Member("reason", Text(least=1)),
               Member("not_judged_kind", KIND),
               rules=[Rules([
                   {"status": OneOf(status), "not_judged_kind": OneOf(*list_kinds(status))}
                   for status in sorted({*STATUSES_BY_KIND.values()})])])

BATCH = Record(
    "batch", "The results for many pairs, in `pairs`.",
    Member("format", OneOf(FORMAT)),
    Member("status", STATUS),
    Member("date", DATE))


def find_misfit(known: object) -> str | None:
    """Return the path of a value that does not match the schema of a pair's result. Return `None`
    if all values match."""
    is_pair = isinstance(known, dict) and "request" in known
    return (VERDICT if is_pair else NO_PAIR).find_misfit(known)


def schema() -> Schema:
    """Return the JSON schema of the results."""
    batch = BATCH.schema()
    batch["required"].append("pairs")
    batch["properties"]["pairs"] = {
        "type": "array", "items": {"oneOf": [VERDICT.make_reference(), NO_PAIR.make_reference()]}}
    return {
        "$schema": "http://json-schema.org/draft-07/schema#",
        "$comment": "tools/qc --json writes this format; dev/make-pages makes this file. All "
                    "members are always present; null means unknown or not applicable. Times are "
                    "HH:MM:SS:FF at 25 frames a second, on the subtitle file's clock.",
        "title": "A verdict on a subtitle file and its recording, or on a batch of them",
        "oneOf": [item.make_reference() for item in (VERDICT, BATCH, NO_PAIR)],
        "definitions": {**make_definitions([VERDICT, NO_PAIR]), BATCH.name: batch}}
