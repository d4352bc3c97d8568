"""Combine the results of many pairs into a table, a page, and JSON, CSV and JUnit files."""
from __future__ import annotations

import argparse
import collections
import json
import os
import sys
import time
from typing import Any, Callable, Iterator, Sequence, Union
from urllib.parse import quote

from ..common.command_line import (
    INPUT, Stop, counted, discard_output, escape_hidden, format_error, print_stderr, print_stdout)
from ..common.files import Inputs, NO_INPUTS, STANDARD_OUTPUTS, refuse_output_name, open_result
from ..common.markup import BREAK, HEAD, Markup, NO_MARKUP, Value, join_markup, markup
from ..judging.status import (
    ACCEPTED, AS_SHOWN, DIFFERS, LOST, NOT_JUDGED, NOT_READ, REFUSED, RELATIVE, SAME, VALID, WAIVED,
    WARNED, WITH_FAULTS, combine_statuses)
from ..request.commands import STATE, make_index_path
from ..results.files import (
    ENDING, NO_CLOCK, Row, TestCase, sort_rows, make_junit_file, read_result, read_results,
    write_file, make_row, make_table_lines, make_unjudged)
from ..results.schema import FORMAT
from .single import is_own_file, now, refuse_folder_files
from .state import State, write_state


STYLE = Markup("""<style>
:root { --ground: #fff; --words: #1b1e23; --soft: #545c66; --line: #c3c9d1; --shade: #f1f3f6;
  --link: #0b57b0; --good: #0a6b33; --bad: #b3150f; --amber: #855400; --lost: #6a3a9c;
  color-scheme: light dark; }
@media (prefers-color-scheme: dark) {
  :root { --ground: #14171c; --words: #e7eaee; --soft: #a9b2be; --line: #424a56; --shade: #1f242b;
    --link: #82b4ff; --good: #5fd08d; --bad: #ff8a80; --amber: #f0b64a; --lost: #c9a2f5; } }
* { box-sizing: border-box; }
body { margin: 0 auto; padding: 16px 12px 60px; max-width: 1280px; background: var(--ground);
  color: var(--words); font: 15px/1.45 system-ui, "DejaVu Sans", Arial, sans-serif; }
h1 { font-size: 22px; margin: 0 0 8px; }
a { color: var(--link); }
table { border-collapse: collapse; margin: 12px 0; } table.pairs { width: 100%; }
th, td { border: 1px solid var(--line); padding: 4px 8px; text-align: left; vertical-align: top;
  overflow-wrap: anywhere; }
th { background: var(--shade); font-weight: 600; }
caption { text-align: left; color: var(--soft); font-size: 13px; }
.pairs thead th { position: sticky; top: 0; overflow-wrap: normal; }
td.verdict { font-weight: 600; white-space: nowrap; border-left: 4px solid; }
.accepted .verdict, .as-shown .verdict, .same .verdict { color: var(--good); }
.refused .verdict, .shown-with-faults .verdict, .differs .verdict { color: var(--bad); }
.waived .verdict { color: var(--soft); } .lost .verdict { color: var(--lost); }
.warned .verdict, .relative .verdict, .not-judged .verdict, .not-read .verdict,
.estimated { color: var(--amber); }
.verdict .estimated { display: block; font-size: 13px; }
small { color: var(--soft); }
fieldset { border: 1px solid var(--line); display: flex; flex-wrap: wrap; gap: 4px 16px; }
@media screen and (max-width: 640px) {
  .pairs thead { display: none; }
  .pairs tr { display: block; margin: 0 0 10px; border: 1px solid var(--line); }
  .pairs td { display: block; border: 0; padding: 2px 8px; }
  .pairs td.verdict { border-left: 4px solid; } td:empty { display: none; } }
@media print { fieldset { display: none; } .pairs thead th { position: static; } }
""")
VERDICT_SIGNS = {ACCEPTED: "\u2713", VALID: "\u25a1", WAIVED: "\u2212", REFUSED: "\u2715",
                 LOST: "\u29d6", WARNED: "!", NOT_JUDGED: "?", RELATIVE: "\u223c",
                 AS_SHOWN: "\u2713", WITH_FAULTS: "\u2715", NOT_READ: "?", SAME: "\u2713",
                 DIFFERS: "\u2715"}
PAGE_HEADS = ("Verdict", "Pair", "What is wrong", "Faults", "Files")
MAX_CAUSES = 6
MAX_PAGE_PAIRS = 5000  # a page with 100,000 pairs would have 38 MB


def make_index_page(folder: str, rows: Sequence[Row], date: str) -> bytes:
    """Return the HTML page with all pairs of a folder, worst verdict first."""
    verdicts = collections.Counter(row.verdict for row in rows)
    counts = ", ".join(f"{verdicts[item]} {item}" for item in sorted(verdicts))
    title = f"{counted(len(rows), 'pair')}: {counts}"
    headers = join_markup(markup('<th scope="col">{}</th>', text) for text in PAGE_HEADS)
    shown = sorted(rows, key=make_sort_key)[:MAX_PAGE_PAIRS]
    lines = join_markup((make_pair_row(folder, row) for row in shown), "\n")
    limit_note = markup('<p class="estimated">This page lists only the worst {:,} of {:,} pairs. '
                        "All are in the files of --csv and --json.</p>", len(shown), len(rows)
                        ) if len(shown) < len(rows) else NO_MARKUP
    filter_rules = join_markup(markup('main:has([value="{}"]:checked) .pairs tbody tr:not(.{}) '
                                      "{{ display: none; }}\n", *[item.replace(" ", "-")] * 2)
                               for item in sorted(verdicts))
    radios = join_markup(
        markup('<label><input type="radio" name="verdict" value="{}"{}/> {} ({})</label>',
               item.replace(" ", "-"), markup(' checked="checked"') * (item == "all"), item, count)
        for item, count in [("all", len(rows)), *sorted(verdicts.items())])
    no_clock_count = sum(row.clock == NO_CLOCK for row in rows)
    note = markup('<p class="estimated">{}: {} of {}. A delay of all subtitles of these pairs '
                  "was not checked.</p>", NO_CLOCK.capitalize(), no_clock_count,
                  counted(len(rows), "pair")) if no_clock_count else NO_MARKUP
    page = HEAD + markup("<title>{}</title>", title) + STYLE + filter_rules + markup(
        "</style></head><body><main>\n<h1>{}</h1>\n<p><small>Made {}. Pairs that need attention "
        "come first.</small></p>\n{}{}\n<fieldset><legend>Show</legend>{}</fieldset>\n"
        '<table class="pairs"><caption>All pairs</caption><thead><tr>{}</tr></thead><tbody>\n{}\n'
        "</tbody></table>\n</main></body></html>\n", title, date, note + limit_note,
        make_cause_totals(rows),
        radios, headers, lines)
    return page.page()


def make_cause_totals(rows: Sequence[Row]) -> Markup:
    """Return a paragraph with the numbers of subtitles or faults, and of pairs, by cause."""
    causes, pairs = collections.Counter[str](), collections.Counter[str]()
    for row in rows:
        causes.update(row.causes)
        pairs.update(row.causes.keys())
    words = join_markup((markup("<b>{:,}</b> {} in {}", count, cause, counted(pairs[cause], "pair"))
                         for cause, count in causes.most_common()), "; ")
    return markup("<p>Subtitles or faults by cause: {}.</p>", words) if causes else NO_MARKUP


def make_sort_key(row: Row) -> tuple[int, str]:
    """Return a key that sorts refused pairs first, then pairs that were not judged, then waived and
    relative pairs and subtitle files without a recording, and accepted pairs last."""
    ranks = {NOT_JUDGED: 1, NOT_READ: 1, WAIVED: 2, RELATIVE: 2, VALID: 2, ACCEPTED: 3, AS_SHOWN: 3,
             SAME: 3}
    return ranks.get(row.verdict, 0), row.name


def make_pair_row(folder: str, row: Row) -> Markup:
    """Return the HTML table row of a pair."""
    causes = list(row.causes.items())
    fault_lines = [markup("<b>{}</b>", counted(row.faults, "fault"))] if row.faults else []
    fault_lines += [markup("<small>{} &times; {}</small>", count, cause)
                    for cause, count in causes[:MAX_CAUSES]]
    fault_lines += [markup("&hellip;")] if len(causes) > MAX_CAUSES else []
    reasons = [row.sentence or row.line, *([row.counts] if row.counts else [])]
    verdict = markup("{} {}", VERDICT_SIGNS.get(row.verdict, ""), row.verdict)
    if row.clock:
        verdict += markup('<span class="estimated">{}</span>', row.clock)
    name: Value = row.name
    if os.path.isfile(os.path.join(folder, row.name + ".html")):
        name = markup('<a href="./{}">{}</a>', quote(os.fsencode(row.name + ".html")), row.name)
    return markup(
        '<tr class="{}"><td class="verdict">{}</td><td>{}<br/><small>{}</small></td><td>{}<br/>'
        "<small>{}</small></td><td>{}</td><td>{}</td></tr>", row.verdict.replace(" ", "-"), verdict,
        name, row.title, join_markup(reasons, BREAK), row.line if row.sentence and row.is_judged
        else "", join_markup(fault_lines, BREAK), make_file_links(folder, row.name))


def make_file_links(folder: str, name: str) -> Markup:
    """Return links to the fault list and the JSON result of a pair."""
    links = []
    for ending, word in ((".txt", "list"), (ENDING, "JSON")):
        if os.path.isfile(os.path.join(folder, name + ending)):
            links.append(markup('<a href="./{}">{}</a>', quote(os.fsencode(name + ending)), word))
    return join_markup(links, " ")


ResultSource = Union[str, dict[str, Any]]  # the path of a JSON result, or the result itself
TABLE_HEADS = ("pair", "verdict", "faults", "worst fault")


def collect(args: argparse.Namespace) -> int:
    """Combine the JSON results in a folder into a page and files. Return the exit status."""
    folder = args.collect
    refuse_output_names(args)
    if not os.path.isdir(folder):
        raise Stop(f"{folder} is not a folder")
    rows, paths = [], []
    for path, result in read_results(folder, is_refused=True):
        if result is None:
            if os.path.basename(path) != STATE or not is_own_file(path):
                print_stderr(f"{path} is not the JSON result of a pair and is skipped")
            continue
        name = os.path.basename(path).removesuffix(ENDING)
        rows.append(make_row(result, name))
        paths.append(path)
    if not rows:
        raise Stop(f"{folder} has no JSON result of a pair")
    refuse_output_names(args, Inputs(*paths), folder)
    return write_collection(args, rows, paths, folder=folder)


def write_collection(args: argparse.Namespace, rows: Sequence[Row], sources: Sequence[ResultSource],
                     is_stopped: bool = False, folder: str | None = None) -> int:
    """Write the index page and the output files, and print the table of results. Return the exit
    status, which is 2 if pairs are missing or a file could not be written. The JSON file is written
    last, since it contains the status."""
    date, failed = now(), list[str]()

    def status() -> int:
        return combine_statuses((row.status for row in rows), is_stopped or bool(failed))

    outputs: list[Callable[[], None]] = [
        lambda: write_index(folder, rows), lambda: write_file(
            args.csv, lambda: make_table_lines(map(load_for_csv, sources))),
        lambda: write_file(args.junit, lambda: make_junit_chunks(rows, date)),
        lambda: write_file(args.json, lambda: make_json_chunks(sources, status(), date))]
    for write in outputs:
        try:
            write()
        except (Stop, OSError) as reason:
            failed.append(format_error(reason))
            print_stderr(failed[-1])
    note = "stopped before the others" if is_stopped else "an output was not written" if failed \
        else ""
    is_output_taken = any(path in STANDARD_OUTPUTS for path in (args.json, args.csv, args.junit))
    out = sys.stderr if is_output_taken else sys.stdout
    try:
        for line in format_summary(rows, note) if rows else ():
            print(escape_hidden(line), file=out)
        out.flush()
    except BrokenPipeError:  # the reading process has closed the pipe
        discard_output(out)
    return status()


# A page with N pairs in a watched folder is rewritten at most every N / 1000 seconds.
PAIRS_PER_SECOND = 1000
STATE_SECONDS = 5.0  # seconds between updates of the state file


class FolderRows:
    """The rows of the results in a folder, and the state of the service that writes them. For each
    result, `identities` has the members that show whether the result is up to date."""

    IDENTITY_KEYS = "request", "files_at_start", "program", "verdict", "waivers"

    def __init__(self, folder: str) -> None:
        self.folder, self.rows = folder, dict[str, Row]()
        self.identities = dict[str, dict[str, Any]]()
        self.is_page_outdated, self.next_page = False, 0.0
        self.state, self.next_state = State(), 0.0
        for path, result in read_results(folder):
            if result is not None:
                name = os.path.basename(path).removesuffix(ENDING)
                self.rows[name] = make_row(result, name)
                self.identities[name] = {key: result[key] for key in self.IDENTITY_KEYS
                                         if key in result}

    def add(self, row: Row) -> None:
        """Print the verdict on a pair, and add its row to the index page."""
        self.rows[row.name], self.is_page_outdated = row, True
        line = worst_fault(row)
        text = f"{row.verdict}{': ' if line else ''}{line}"
        self.state.add_result(row.name, row.verdict, text)
        print_stdout(f"{time.strftime('%Y-%m-%d %H:%M:%S')}  {row.name}  {text}")
        self.write_page()

    def report(self) -> None:
        """Write the state file every few seconds."""
        if time.monotonic() >= self.next_state:
            self.next_state = time.monotonic() + STATE_SECONDS
            self.state.look_at_folders(time.time(), results=self.folder)
            write_state(self.folder, self.state.make_contents())

    def write_page(self, is_last: bool = False) -> None:
        """Write the page if there is a new verdict. Unless `is_last`, wait one second per thousand
        pairs after each write, since a longer page takes longer to write."""
        if not self.is_page_outdated or not is_last and time.monotonic() < self.next_page:
            return
        try:
            write_index(self.folder, sort_rows(self.rows))
        except OSError as reason:
            print_stderr(format_error(reason))
        self.is_page_outdated = False
        self.next_page = time.monotonic() + len(self.rows) / PAIRS_PER_SECOND


def refuse_output_names(args: argparse.Namespace, inputs: Inputs = NO_INPUTS,
                        folder: str | None = None) -> None:
    """Raise `Stop` if an output file can't be written. Also raise it if an output file, or the
    index page or lock file of `folder`, would replace an input file."""
    for path in (args.json, args.csv, args.junit):
        if path is not None:
            refuse_output_name(path)
            inputs.refuse(path, True)
    if folder is not None:
        refuse_folder_files(folder, inputs)


def write_index(folder: str | None, rows: Sequence[Row]) -> None:
    """Write the page with all pairs of a folder. If the folder is `None`, do nothing."""
    if folder is None:
        return
    with open_result(make_index_path(folder)) as file:
        file.write(make_index_page(folder, rows, now()))


def format_summary(rows: Sequence[Row], note: str = "") -> Iterator[str]:
    """Yield the lines of a table of pairs, and a line with the number of pairs by verdict. `note`
    explains the exit status if the verdicts do not."""
    lines = [TABLE_HEADS, *((row.name, row.verdict, str(row.faults) if row.is_judged else "",
                             worst_fault(row)) for row in rows)]
    widths = [max(len(line[column]) for line in lines) for column in range(3)]
    for name, verdict, faults, first in lines:
        yield (f"{name:{widths[0]}}  {verdict:{widths[1]}}  {faults:>{widths[2]}}  "
               f"{first}").rstrip()
    counts = [f"{sum(row.verdict == verdict for row in rows)} {verdict}"
              for verdict in dict.fromkeys(row.verdict for row in rows)]
    yield f"{counted(len(rows), 'pair')}: {', '.join(counts)}" + (f"; {note}" if note else "")


def format_progress(rows: dict[str, Row], count: int, kept_count: int, start_time: float) -> str:
    """Return the progress line: the number of pairs by verdict, and the estimated time left."""
    verdicts = [row.verdict for row in rows.values()]
    good_words = (ACCEPTED, VALID, WAIVED, RELATIVE)
    good_counts = [f"{verdicts.count(word)} {word}, " for word in good_words
                   if word in verdicts or word == ACCEPTED]
    unjudged_count = verdicts.count(NOT_JUDGED)
    refused = sum(word not in (*good_words, NOT_JUDGED) for word in verdicts)
    line = f"{len(rows)} of {counted(count, 'pair')}: {''.join(good_counts)}{refused} refused, " \
        f"{unjudged_count} not judged"
    done_count = len(rows) - kept_count
    if not done_count:
        return line
    seconds_left = (time.monotonic() - start_time) / done_count * (count - len(rows))
    return f"{line}; {counted(round(seconds_left), 'second')} left"


def worst_fault(row: Row) -> str:
    """Return the worst fault of a pair and its hint, or the reason why the pair was not judged."""
    if row.verdict == VALID:
        return "no recording was judged"
    if row.verdict in (ACCEPTED, RELATIVE) and not row.faults:
        notes = [NO_CLOCK] if row.verdict == RELATIVE else []
        return "; ".join(notes + [f"not checked: {row.not_checked}"] * bool(row.not_checked))
    if not row.line:
        return ""
    line = row.line.splitlines()[0].removeprefix("refused ").partition("; ")[0]
    more = f"; {row.counts}" if row.counts else ""
    return (f"{line}: {row.hint}" if row.hint else line) + more


def make_json_chunks(sources: Sequence[ResultSource], status: int, date: str) -> Iterator[bytes]:
    """Yield the JSON results of all pairs as one JSON object."""
    head = {"format": FORMAT, "status": status, "date": date}
    yield json.dumps(head, indent=1).removesuffix("\n}").encode() + b',\n "pairs": ['
    before = b"\n"
    for source in sources:
        yield before + json.dumps(load_result(source)).encode()
        before = b",\n"
    yield b"]\n}\n"


def load_result(source: ResultSource) -> dict[str, Any]:
    """Return the JSON result of a pair. If its file was deleted, return a result `not judged`."""
    if isinstance(source, dict):
        return source
    name = os.path.basename(source).removesuffix(ENDING)
    return read_result(source) or make_unjudged(name, "its JSON result is gone: judge it again",
                                                INPUT)


def load_for_csv(source: ResultSource) -> dict[str, Any]:
    """Return the JSON result of a pair, and print a message if the result omits faults."""
    result = load_result(source)
    omitted_count = result["omitted"]["faults"] if "request" in result else 0
    if omitted_count:
        print_stderr(f"{source} omits {counted(omitted_count, 'fault')}, so the CSV file does too")
    return result


def make_junit_chunks(rows: Sequence[Row], date: str) -> Iterator[bytes]:
    """Yield the JUnit file with a test case for each pair."""
    yield make_junit_file([
        TestCase(row.title, row.verdict, row.status, row.line, row.lines, row.seconds,
                 row.counts, row.sentence, row.not_checked) for row in rows], date)
