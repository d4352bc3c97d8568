"""Text tables of end-to-end tests: what was sent, the options of qc, and what qc has to answer.

    sent          | options    | verdict  | causes
    as scheduled  |            | accepted |
    3 late by 7   | --within 2 | refused  | 3 late by 7 frames

The programme has a subtitle every 100 frames, which is shown for 60 frames. The first line of a
table names its columns. Numbers in `sent` are subtitle numbers and frames: `3 late by 7` delays
subtitle 3 by 7 frames. `CHANGES` lists these changes, which commas separate. `ANSWERS` lists the
columns that are compared with the result.
"""
from __future__ import annotations

import csv
import os
import re
from typing import Callable, Iterator, Mapping, Match

from developing import DEV
from developing.pes import GAP_MARKER, make_pes_packet
from subtitles.common.times import CLOCK, TICKS
from .judged import JudgedPair, ProgrammeCase, judge_files
from .transmissions import Change, EACH, LASTS, ORIGIN, SentPes, make_delay

PAUSE = 20  # frames between a break and the subtitle after it
Story = dict[str, str]  # maps the name of each column to its cell


def read_table(text: str) -> Iterator[Story]:
    names, *rows = ([cell.strip() for cell in line.split("|")]
                    for line in text.strip().splitlines())
    for row in rows:
        assert len(row) == len(names), row
        yield dict(zip(names, row))


def read_vectors(name: str) -> Iterator[Story]:
    """Yield the rows of a table in dev/vectors. Lines that begin with # are comments; the first
    other line names the columns."""
    with open(os.path.join(DEV, "vectors", name), encoding="utf-8", newline="") as file:
        lines = (line for line in file if not line.startswith("#"))
        yield from csv.DictReader(lines, delimiter="\t", quoting=csv.QUOTE_NONE, restval="")


def read_files(name: str) -> Iterator[tuple[str, str]]:
    """Yield the path and the text of each file in a text file in dev/vectors, in which a line
    `=== PATH` precedes the text."""
    with open(os.path.join(DEV, "vectors", name), encoding="utf-8") as file:
        for section in file.read().split("\n=== ")[1:]:
            path, _, text = section.partition("\n")
            yield path, text.rstrip("\n") + "\n"


def repeat_words(text: str) -> str:
    """Write out the repeated words of a cell: `3*2` as `3 3`, and `(1 2)*2` as `1 2 1 2`."""
    while "*" in text:
        text = re.sub(r"(?:\(([^()]*)\)|(\w+))\*(\d+)",
                      lambda match: f"{match[1] or match[2]} " * int(match[3]), text)
    return text


def get_tci_pts(number: str) -> int:
    return ORIGIN + EACH * int(number) * TICKS


def delay(sent: SentPes, match: Match[str]) -> SentPes:
    """Delay the PES packets in the frames in which each of the subtitles is shown."""
    by = int(match[4]) * (-1 if match[3] == "early" else 1)
    for number in range(int(match[1]), int(match[2] or match[1]) + 1):
        begin = get_tci_pts(f"{number}")
        sent = make_delay(by, begin, begin + LASTS * TICKS - 1)(sent)
    return sent


def leave_out(sent: SentPes, match: Match[str]) -> SentPes:
    begin = get_tci_pts(match[1])
    return [item for item in sent if not begin <= item[0] < begin + LASTS * TICKS]


def leave_out_repeats(sent: SentPes, match: Match[str]) -> SentPes:
    begin = get_tci_pts(match[1])
    return [item for item in sent if not begin < item[0] < begin + EACH * TICKS // 2]


def send_another_text(sent: SentPes, match: Match[str]) -> SentPes:
    """Send the page of another subtitle in the frames in which a subtitle is shown."""
    begin, other = get_tci_pts(match[1]), dict(sent)[get_tci_pts(match[2])]
    return [(pts, other if begin <= pts < begin + LASTS * TICKS else some) for pts, some in sent]


def add_blank_page(sent: SentPes, match: Match[str]) -> SentPes:
    return [(sent[0][0] - int(match[1]) * TICKS, sent[-1][1]), *sent]


CHANGES: dict[str, Callable[[SentPes, Match[str]], SentPes]] = {
    r"as scheduled": lambda sent, _: sent,
    r"(\d+)(?:-(\d+))? (late|early) by (\d+)": delay,
    r"(\d+) not sent": leave_out,
    r"(\d+) with the text of (\d+)": send_another_text,
    r"(\d+) not repeated": leave_out_repeats,
    r"from the second packet on": lambda sent, _: sent[1:],
    r"a blank page (\d+) frames before": add_blank_page}
# Changes made last: breaks, which move all later PTS, and gap markers in place of lost packets.
BREAK = re.compile(r"break ([+-]\d+) before (\d+)")
MARKER = re.compile(r"marker before (\d+)")


def describe_part(judged: JudgedPair, index: int) -> str:
    """Return the shift of a part's clock in frames, and its PES packets."""
    return "".join(f"{(origin - ORIGIN) / TICKS:+g} {pes}"
                   for origin, pes in judged.parts("origin", "pes")[index:index + 1])


ANSWERS: dict[str, Callable[[JudgedPair], str]] = {
    "verdict": lambda judged: judged.timed_verdict,
    "line": lambda judged: str(judged.result["line"]),
    "causes": lambda judged: "; ".join(re.sub(r'subtitle (\d+).* at [\d:]+, ".*?": ', r"\1 ", line)
                                       for line in judged.lines("cause: ")),
    "part verdicts": lambda judged: " ".join(word for word, in judged.parts("verdict")),
    "part 1": lambda judged: describe_part(judged, 0),
    "part 2": lambda judged: describe_part(judged, 1),
    "part 3": lambda judged: describe_part(judged, 2),
    "losses judged": lambda judged: " ".join(f"{loss['judged']}"
                                             for loss in judged.result["losses"]),
    "fault numbers": lambda judged: " ".join(
        f"{number}" for number in sorted({fault["number"] for fault in judged.result["faults"]})),
    "pace": lambda judged: " ".join(f"{pace}" for pace, in judged.parts("pace")),
    "complete after": lambda judged: " ".join(
        "-" if row["complete_after"] is None else str(row["complete_after"])
        for row in judged.result["subtitles"]),
    "pes": lambda judged: " ".join(pes for pes, in judged.parts("pes")),
    "of all": lambda judged: " ".join(f"{judged.result['complete_after'][name]}" for name in (
        "minimum", "median", "maximum", "never_complete"))}


class StoryCase(ProgrammeCase):
    """A test case with a programme whose frame 0 has the PTS `ORIGIN`."""

    origin = ORIGIN
    more_changes: Mapping[str, Change] = {}  # further changes that `sent` may name

    def apply_changes(self, words: str) -> SentPes:
        """Return the transmission with the changes that `words` names."""
        sent = self.sent
        for item in words.split(", "):
            if BREAK.fullmatch(item) or MARKER.fullmatch(item):
                continue
            if item in self.more_changes:
                sent = self.more_changes[item](sent)
                continue
            (does, match), = ((does, match) for form, does in CHANGES.items()
                              if (match := re.fullmatch(form, item)))
            sent = does(sent, match)
        breaks = [(int(number), int(by)) for by, number in BREAK.findall(words)]
        return [(pts + TICKS * sum(by for number, by in breaks
                                   if pts >= get_tci_pts(f"{number}") - PAUSE * TICKS), some)
                for pts, some in sent]

    def judge_changes(self, words: str, *args: str) -> JudgedPair:
        """Judge a recording with the changes that `words` names."""
        places = {*map(int, MARKER.findall(words))}
        pes = [make_pes_packet(pts % CLOCK, some) for pts, some in self.apply_changes(words)]
        data = b"".join(GAP_MARKER * (at in places) + item for at, item in enumerate(pes))
        return judge_files(self, self.stl, self.write("one.pes", data), *args)

    def check_stories(self, table: str, *args: str, **same: str) -> None:
        """Check all rows of a table with more options; `same` has answers that all rows share."""
        for row in read_table(table):
            story = {**row, **same}
            words = [story["sent"], *story.get("options", "").split(), *args]
            self.check_answers(" ".join(words), self.judge_changes(*words), story)

    def check_answers(self, name: str, judged: JudgedPair, story: Story, *others: str) -> None:
        """Compare all columns of `ANSWERS`. `others` are the columns that the test reads itself."""
        for column in story.keys() - {"sent", "options", *others}:
            self.check(f"{name}: {column}", ANSWERS[column](judged), story[column])
