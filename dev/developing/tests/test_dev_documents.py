"""Test the documents: links, quoted sources, man pages, and lists of tools and of functions."""
from __future__ import annotations

import collections
import difflib
import functools
import glob
import os
import re
import struct
import subprocess
import sys
from typing import Iterator

from subtitles.air.main import make_judge_parser, make_record_parser
from subtitles.air.state import Monitor
from subtitles.cli.main import make_parser
from subtitles.common.command_line import KINDS as KIND_NAMES, OTHER_STATUS, STATUSES_BY_KIND, Stop
from subtitles.common.program import TOP, read
from subtitles.formats.listing import read_meanings
from subtitles.formats.teletext import ERASE, OPTION_WORDS, OPTIONS as NATIONAL_OPTIONS
from subtitles.judging.sentence import FAULT_CLAUSES
from subtitles.judging.status import FAULT_NUMBERS, READING_STATUSES, STATUSES, Severity
from subtitles.judging.transmissions import CONTROL_BIT_FAULTS
from .. import pages
from ..definitions import Library
from ..looks import find_browser
from ..promises import find_unknown_clauses, list_index_rows, list_indexed_clauses
from ..sizes import KINDS, count_lines, add_sizes
from .bench import Case, CompletedCall, get_example_path, import_script, read_example_file
from .test_dev_layers import ORDER

NAMES = ["*.md", "docs/*.md", "docs/manual/*.md", "examples/*.md"]
LINK = re.compile(r"\]\(([^)\s]*)\)")
HEADING = re.compile(r"^#+ (.*)$", re.M)
ANCHOR = re.compile(r'<a id="([^"]+)"></a>')
BLOCK = re.compile(r"^```(\w*)\n(.*?)^```$", re.M | re.S)
CODE = re.compile(r"`[^`\n]*`")
PNG_SIGNATURE = b"\x89PNG\r\n\x1a\n"


def list_document_texts() -> Iterator[tuple[str, str]]:
    """Yield the path of each document, relative to the repository, and its text."""
    for form in NAMES:
        for path in sorted(glob.glob(os.path.join(TOP, form))):
            yield os.path.relpath(path, TOP), read(path) or ""


def list_anchors(text: str) -> set[str]:
    """Return the names of a document's anchors and headings, as used in links."""
    text = BLOCK.sub("", text)
    return {*ANCHOR.findall(text), *(re.sub(r"[^\w\- ]", "", result.lower()).replace(" ", "-")
                                     for result in HEADING.findall(text))}


class AllDocuments(Case):
    """The documents of NAMES."""

    def test_links_have_existing_targets(self) -> None:
        count = 0
        for path, text in list_document_texts():
            for target in LINK.findall(CODE.sub("", BLOCK.sub("", text))):
                if ":" in target:  # the target is not in the repository
                    continue
                count += 1
                name, _, heading = target.partition("#")
                there = os.path.join(TOP, os.path.dirname(path), name) if name else \
                    os.path.join(TOP, path)
                self.must(f"{path}: {target}", os.path.exists(there) and (
                    not heading or heading in list_anchors(read(there) or "")))
        self.must("links", count > 100, count)

    def test_lines_that_a_quoted_difference_removes_are_once_in_its_file(self) -> None:
        blocks = [(path, block) for path, text in list_document_texts()
                  for kind, block in BLOCK.findall(text) if kind == "diff"]
        self.must("blocks", len(blocks) > 2, blocks)
        for path, block in blocks:
            changed = re.search(r"^--- a/(.*)$", block, re.M)
            old = read_document(changed[1]) if changed else ""
            removed = re.findall(r"^-(?!-- )(.*)$", block, re.M)
            self.must(f"{path}: {block[:60]!r}", removed and all(
                old.count(line + "\n") == 1 for line in removed), removed)

    def call_make_picture(self, *args: str) -> CompletedCall:
        return self.tool("make-picture", "-p", self.bench.program, *args)

    def test_make_picture_detects_an_old_picture(self) -> None:
        process = self.call_make_picture("--compare", self.write("old.png", PNG_SIGNATURE))
        self.must("status, message", process.status == 1
                  and b"is not of today's report" in process.out, process)

    def test_make_picture_makes_a_picture_that_it_accepts(self) -> None:
        if not find_browser():
            self.skipTest("the picture of README, since there is no browser")
        path = self.path("new.png")
        self.check("made", self.call_make_picture(path).status, 0)
        head = self.read("new.png")[:24]
        self.check("signature, width, height", (head[:8], struct.unpack(">II", head[16:])),
                   (PNG_SIGNATURE, (1000, 800)))
        self.check("--compare", self.call_make_picture("--compare", path).status, 0)


class GeneratedFiles(Case):
    def test_dev_make_pages_would_change_no_file(self) -> None:
        for name, text in pages.make_pages().items():
            self.must(name, read(os.path.join(TOP, name)) == text)


class GeneratedParts(Case):
    """Facts of the generator that none of the generated files shows."""

    def test_rejects_a_usage_text_without_commands(self) -> None:
        self.assertRaises(Stop, pages.parse_commands, "usage: none")

    def test_a_command_is_no_value_of_an_option(self) -> None:
        """The values are the words that are no commands of the option, if these are at least three.
        """
        for cell, values in (("`a`, `b` or `check`", []), ("`a`, `b` or `c`", ["a", "b", "c"])):
            option, = pages.parse_options(f"| `--kind K` | `check` | {cell} | `a` |\n")
            self.check(cell, option.list_choices(), values)

    TEXT = "a\n# made: one\nold\n# end\nb\n# made: other\nkept\n# end\n"

    def test_replaces_the_text_between_the_markers_of_a_part(self) -> None:
        self.check("text", pages.replace_parts(self.TEXT, {"one": "new\n"}),
                   self.TEXT.replace("old", "new"))

    def test_rejects_a_text_without_the_markers_of_a_part(self) -> None:
        self.assertRaises(Stop, pages.replace_parts, self.TEXT, {"two": ""})


# Folders whose scripts CONTRIBUTING.md lists, and the heading of each list.
FOLDERS = [("tools", "Tools"), ("dev", "For developers of this repository")]
PACKAGES = [*(f"tools/subtitles/{name}" for name in ORDER), "dev/developing",
            "dev/developing/every_place"]
SCRIPT = re.compile(r"`([a-z][\w.-]*/?)`")
LINE = re.compile(r"^([a-z_]+) +\S", re.M)  # line of the module list in __init__.py


def list_folder_entries(name: str) -> list[str]:
    """Return the names in a folder, except caches. Remove the extension of modules, and add a slash
    to folders."""
    folder = os.path.join(TOP, name)
    return sorted(entry.removesuffix(".py") + "/" * os.path.isdir(os.path.join(folder, entry))
                  for entry in os.listdir(folder) if not entry.startswith(("__", ".")))


class ModuleLists(Case):
    """Lists of scripts, modules, clauses and crates in documents and docstrings."""

    def test_contributing_lists_all_scripts(self) -> None:
        for name, heading in FOLDERS:
            section = read_document("CONTRIBUTING.md").partition(f"## {heading}\n")[2]
            rows = [row for row in SCRIPT.findall(section.partition("\n## ")[0])
                    if row[-1] != "/" or not os.path.exists(os.path.join(TOP, row))]
            self.check(name, sorted(rows), [entry for entry in list_folder_entries(name)
                                            if entry not in ("subtitles/", "developing/")])

    def test_the_tools_list_their_packages(self) -> None:
        listed, _, _ = read_document("tools/subtitles/__init__.py").partition("To find")
        self.check("packages", sorted(re.findall(r"^([a-z]+)  +\S", listed, re.M)),
                   [entry.rstrip("/") for entry in list_folder_entries("tools/subtitles")])

    def test_each_package_lists_its_modules(self) -> None:
        for name in PACKAGES:
            _, docstring, *_ = read_document(f"{name}/__init__.py").split('"""')
            self.check(name, sorted(LINE.findall(docstring)), [
                entry.rstrip("/") for entry in list_folder_entries(name)
                if "." not in entry and "-" not in entry])

    def test_class_names_of_the_tools_are_unique(self) -> None:
        names = [name for path in glob.glob(os.path.join(TOP, "tools", "subtitles", "*", "*.py"))
                 for name in re.findall(r"^class (\w+)", read(path) or "", re.M)]
        self.must("classes", len(names) > 100, names)
        self.check("several", [name for name, count in collections.Counter(names).items()
                               if count > 1], [])

    def test_the_index_names_only_existing_clauses(self) -> None:
        text = read_document("docs/CLAUSES.md")
        self.check("unknown", find_unknown_clauses(text, Library(TOP)), [])
        listed = list_indexed_clauses(text)
        self.must("rows", "sub_check/check_files.accepted" in listed and len(listed) > 60, listed)

    def test_each_row_of_the_index_is_compared_with_the_sources(self) -> None:
        facts = read_document("dev/vectors/facts/docs/CLAUSES.tsv")
        for promise, clauses in list_index_rows(read_document("docs/CLAUSES.md")):
            self.must(promise, f"\n| {promise} | `{clauses[0]}`" in facts)

    def test_a_reading_list_describes_each_crate_in_a_sentence(self) -> None:
        read_first_paragraph = import_script("reading-list").read_first_paragraph
        for crate in Library(TOP).crates:
            text = read_first_paragraph(crate)
            self.must(crate, text.endswith("."), text)
        self.check("an unknown crate", read_first_paragraph("nowhere"), "")

    def test_stated_numbers_of_lines_are_right_to_a_tenth(self) -> None:
        _, _, text = read_document("docs/ASSURANCE.md").partition("The crates contain ")
        stated = [int(number.replace(",", "")) for number in re.findall(r"\d+,\d+", text)]
        counts = add_sizes(count_lines(TOP))
        self.must("numbers", len(stated) >= len(KINDS), stated)
        for kind, number in zip(KINDS, stated):
            self.must(kind, abs(number - counts[kind]) * 10 < counts[kind], (number, counts[kind]))


STORED_FILE = "dev/bodies-to-read.txt"
# An implementation of Drop, possibly over several lines, or an import of Drop under another name.
DROP = re.compile(r"\bimpl\b[^{};]*\bDrop\s+for\b|\bDrop\s+as\b")
COMMENT = re.compile(r"//[^\n]*|/\*.*?\*/", re.DOTALL)


def join_control_bits() -> str:
    """Return the control bits that must be set or clear in a header, as documents state them."""
    bits = {ERASE: True, **{bit: is_set for bit, is_set, _ in CONTROL_BIT_FAULTS}}
    groups = ([f"C{bit}" for bit in sorted(bits) if bits[bit] == is_set]
              for is_set in (True, False))
    return " ".join(f"{', '.join(first)} and {last} {word},"
                    for (*first, last), word in zip(groups, ("set", "clear")))


with open(os.path.join(TOP, "dist", "subttx"), "rb") as released_program:
    GLIBC_MINOR = max(map(int, re.findall(rb"GLIBC_2\.(\d+)", released_program.read())))
WRONG_CALLS = sum(map(int, re.findall(r"^const \w+: \[&\[&str\]; (\d+)\]", read(os.path.join(
    TOP, "crates", "word_tests", "src", "explanations.rt")) or "", re.M)))
# Values that no single line of a source has: the document, its words, and the value at {}
STATED: list[tuple[str, str, object]] = [
    ("CLAUSES.md", "the line on standard error for {} wrong calls,", WRONG_CALLS),
    ("../README.md", "x86-64-v2, glibc 2.{}+ and Python", GLIBC_MINOR),
    ("MANUAL.md", "with glibc 2.{} or newer", GLIBC_MINOR),
    ("HEADLINE.md", "Each header of the page has {} and", join_control_bits())]
FIELD = re.compile(r"\b(?:C\d+|X/\d+|TC[IO]|DFC|DSC|CCT|EBN|CS|CF|JC|VP|SGN|SN)\b")
OPTION_NAME = re.compile(r"(?<![\w-])--[a-z][a-z-]*")
# Faults of `packet`, and of files and memory, which the table of refusals does not have
PACKET_FAULTS, DEVICE_FAULTS = {3, 4}, {26, 29, 41, 42, 58, 90, 91}
# Options of other programs that the documents mention.
OTHER_OPTIONS = {"--forked", "--now", "--sshloginfile", "--workdir", "--joblog", "--resume-failed",
                 "--array", "--system", "--list-axioms"}


class StatedFacts(Case):
    """Tables and sentences of documents, which are compared with values of the tools."""

    def test_documents_state_the_values_of_the_tools(self) -> None:
        for name, words, value in STATED:
            text = " ".join(read_document(os.path.normpath(f"docs/{name}")).split())
            self.must(f"docs/{name} states: {words.format(value)}", words.format(value) in text)

    def test_a_fault_has_the_same_fields_in_the_manual_and_in_its_sentence(self) -> None:
        for number, row in read_meanings().items():
            if clause := FAULT_CLAUSES.get(number):
                self.check(f"{number}", {*FIELD.findall(row.meaning)}, {*FIELD.findall(clause)})

    def test_tables_have_each_verdict_and_kind_of_error_with_its_status(self) -> None:
        kinds = {kind: STATUSES_BY_KIND.get(kind, OTHER_STATUS) for kind in KIND_NAMES}
        tables: dict[str, tuple[str, str, dict[str, int]]] = {
            "verdicts of qc": ("qc", r"^\| `([a-z ]+)` \|.*\| (\d)[^|]*\|$", STATUSES),
            "kinds of errors": ("qc", r"^\| `([a-z]+)` \| [^|]+ \| (\d+) \| [^|]+ \|$", kinds),
            "verdicts of read": ("read", r"^\| `([a-z ]+)` \|.*\| (\d) \|$", READING_STATUSES)}
        for name, (page, pattern, statuses) in tables.items():
            rows = re.findall(pattern, read_document(f"docs/manual/{page}.md"), re.M)
            self.check(name, {word: int(status) for word, status in rows}, statuses)

    def test_the_table_of_refusals_has_each_fault(self) -> None:
        self.check("numbers", sorted(map(int, self.list_fault_rows())),
                   sorted(FAULT_NUMBERS - PACKET_FAULTS))

    @staticmethod
    def list_fault_rows() -> list[str]:
        """Return the numbers of the rows of faults in files, which begin with an anchor."""
        return re.findall(r'^\| (\d+) \| <a id="n\d+"></a>',
                          read_document("docs/manual/refusals.md"), re.M)

    def test_the_anchor_of_a_fault_has_its_number(self) -> None:
        text = read_document("docs/manual/refusals.md")
        pairs = [*re.findall(r'^\| (\d+) \| <a id="n(\d+)"></a>', text, re.M),
                 *re.findall(r'<a id="n(\d+)"></a>(\d+)', text)]
        self.check("different", [pair for pair in pairs if pair[0] != pair[1]], [])
        self.must("anchors", len(pairs) > len(FAULT_NUMBERS), pairs)

    def test_the_man_page_lists_each_fault(self) -> None:
        text = read_document("docs/manual/refusals.md")
        arguments = re.findall(
            r'<a id="n(\d+)">', text.partition("## Arguments")[2].partition("\n## ")[0])
        page = read_document("docs/subttx.1").partition("what to do about it:")[2]
        groups = re.findall(r"^(\d[\d, to]*) [A-Z]", page.partition('.SH "EXIT')[0], re.M)
        ranges = [item.split(" to ") for group in groups for item in group.split(", ")]
        self.check("numbers", sorted(number for first, *last in ranges for number in range(
            int(first), int((last or [first])[0]) + 1)), sorted({
                *map(int, self.list_fault_rows() + arguments), *PACKET_FAULTS, *DEVICE_FAULTS}))

    def test_the_alarm_file_of_the_manual_waives_the_faults_marked_as_next(self) -> None:
        listed = re.findall(r"`(\d+) warning`", read_document("docs/MANUAL.md").partition(
            "into the file `alarm`")[2].partition("\n\n")[0])
        waiting = re.findall(r'^\| (\d+) \| <a id="n\d+"></a>next:',
                             read_document("docs/manual/refusals.md"), re.M)
        self.check("faults", listed, waiting)

    def test_the_manual_has_the_region_bits_and_characters_of_each_national_option(self) -> None:
        rows = re.findall(r"^\| `(\w+)` \| (\d{4}) \| (\d{3}) \| [^|]+ \| ([^|]+) \|$",
                          read_document("docs/manual/subtitle-files.md"), re.M)
        self.check("options", [row[0] for row in rows], [*OPTION_WORDS])
        for (word, region, bits, shown), option in zip(rows, NATIONAL_OPTIONS):
            sent = "".join(item for item, cell in zip(option.characters, option.cells.split())
                           if cell != "-")
            self.check(word, (int(region, 2), sum(int(bit) << place for place, bit
                                                  in enumerate(bits)), shown.replace(" ", "")),
                       (option.region, option.bits, sent))

    def test_readme_lists_languages_by_whether_the_manual_misses_letters_of_them(self) -> None:
        rows = re.findall(r"^\| ([A-Z][^|]+) \| (?:`[^|]+`|the one[^|]+|none) \| ([^|]+) \|$",
                          read_document("docs/manual/subtitle-files.md"), re.M)
        complete = {name: letters == "none" for names, letters in rows
                    for name in re.sub(r" \([^)]*\)", "", names).split(", ")}
        text = " ".join(read_document("README.md").partition("**Languages**")[2].split())
        _, _, text = text.partition("): ")
        known, _, text = text.partition(" with all letters; ")
        for names, expected in (known, True), (text.partition(" without ")[0], False):
            for name in re.split(", | and ", names):
                self.check(name, complete.get(name), expected)

    def test_the_manual_of_air_lists_each_alarm(self) -> None:
        monitor = Monitor()
        monitor.now, monitor.free, monitor.headers = 1e9, {"results": 0}, {(0, 0x88): 0.0}
        monitor.late, monitor.schedule_faults, monitor.is_clock_wrong = ["one"], ["line 1"], True
        chapter = read_document("docs/manual/air.md")
        item = chapter.partition("- `alarms`, ")[2].partition("\n- ")[0]
        self.check("alarms", sorted(re.findall("^  - `([a-z][a-z 8]*)`:", item, re.M)),
                   sorted(monitor.find_alarms()))

    def test_each_option_in_a_document_is_in_a_tool_or_source(self) -> None:
        forms = ("tools/*", "dev/*", "bench/*", "tools/subtitles/*/*.py", "crates/*/src/*.rt")
        known = {*OTHER_OPTIONS}
        for path in (path for form in forms for path in glob.glob(os.path.join(TOP, form))):
            known |= {*OPTION_NAME.findall(read(path) or "")} if os.path.isfile(path) else set()
        known |= {name for parser in (make_parser(""), make_record_parser(), make_judge_parser())
                  for action in parser._actions for name in action.option_strings}
        for path, text in list_document_texts():
            if not path.endswith("CHANGELOG.md"):
                quoted = "\n".join(CODE.findall(BLOCK.sub("", text)))
                unknown = {*OPTION_NAME.findall(quoted)} - known
                self.check(path, unknown, set())


FACTS = os.path.join(TOP, "dev", "vectors", "facts")  # a table for each document


@functools.lru_cache(maxsize=None)
def read_words(name: str) -> str:
    return " ".join(read_document(name).split())


def find_most_similar(words: str, text: str) -> str:
    """Return `words` if the text contains them, otherwise the part of the text most like them."""
    if words in text:
        return words
    common = difflib.SequenceMatcher(None, text, words, autojunk=False).find_longest_match(
        0, len(text), 0, len(words))
    begin = max(0, common.a - common.b)
    return text[begin:begin + len(words)]


class SourcesOfFacts(Case):
    """The tables in FACTS. A row has words of a document, a file, and the words of that file that
    make them true."""

    def test_the_document_and_the_file_of_each_row_have_its_words(self) -> None:
        for document, _ in list_document_texts():
            path = os.path.join(FACTS, document.removesuffix("md") + "tsv")
            for number, row in enumerate(read_document(path).splitlines(), 1):
                place = f"row {number} of {os.path.relpath(path, TOP)}"
                stated, source, code = row.split("\t")
                self.check(f"{place}: {document} states", find_most_similar(
                    stated, read_words(document)), stated)
                self.check(f"{place}: {source}, on which this depends, has", find_most_similar(
                    code, read_words(source)), code)
                self.check(f"{place}: more often in {document}",
                           read_words(document).count(stated) > 1, False)


class Examples(Case):
    """A script and a file that the manual shows."""

    def test_a_recording_that_the_script_of_the_manual_shortens_has_the_same_verdict(self) -> None:
        script = next(text for language, text in BLOCK.findall(read_document("docs/MANUAL.md"))
                      if language == "python")
        kept = subprocess.run([sys.executable, "-c", script, "0", "0x100", "0x101"],
                              input=read_example_file("recording.ts"), stdout=subprocess.PIPE,
                              check=True).stdout
        verdicts = [self.tool("qc", get_example_path("story.stl"), path, "--origin",
                              "5000000000", "-p", self.bench.program).out.splitlines()[-1:]
                    for path in (get_example_path("recording.ts"), self.write("kept.ts", kept))]
        self.must("bytes", 0 < len(kept) <= len(read_example_file("recording.ts")), len(kept))
        self.check("verdict", verdicts[1], verdicts[0])

    def test_the_severity_file_of_the_manual_is_valid(self) -> None:
        manual = read_document("docs/manual/qc.md")
        text = next(text for _, text in BLOCK.findall(manual.partition("**A severity file**")[2]))
        result = Severity(self.write("severity", text.encode()))
        rules = [line.partition("#")[0].split() for line in text.splitlines()]
        named = {" ".join(words): severity for *words, severity in rules}
        others = named.pop("others")
        self.check("named", {name: result.classify(int(name) if name.isdecimal() else name)
                             for name in named}, named)
        self.check("others", (others, result.classify(72), result.classify("never sent")),
                   ("error",) * 3)
        self.check("some are warnings", set(named.values()), {"warning"})


def read_document(name: str) -> str:
    with open(os.path.join(TOP, name), encoding="utf-8") as file:
        return file.read()


def implements_drop(text: str) -> bool:
    return DROP.search(COMMENT.sub(" ", text)) is not None


class ReadBodies(Case):
    """The functions and impls in STORED_FILE, which were reviewed by hand."""

    def test_reviewed_function_bodies_are_unchanged(self) -> None:
        for part in read_document(STORED_FILE).split("\n== ")[1:]:
            name, _, body = part.partition("\n")
            with self.subTest(body.partition("\n")[0]):
                code = "\n".join(line for line in read_document(name).split("\n")
                                 if not line.lstrip().startswith("//"))
                self.assertIn(f"\n{body.strip()}\n", code,
                              f"read the change of {name}, and store it in {STORED_FILE}")

    def test_no_crate_implements_drop(self) -> None:
        paths = glob.glob(os.path.join(TOP, "crates", "*", "src", "**", "*.rt"), recursive=True)
        self.must("sources", len(paths) > 100, paths)
        self.check("found", [path for path in paths if implements_drop(read(path) or "")], [])

    def test_finds_an_implementation_of_drop(self) -> None:
        rows = {
            "impl Drop for Line {}": True,
            "    impl<K: Sink> Drop for Line<K> {}": True,
            "impl<'a, K>\n    Drop\n    for Line<'a, K>\nwhere\n    K: Sink,\n{}": True,
            "mod inner { impl std::ops::Drop for Line {} }": True,
            "impl /* one */ Drop /* two */ for Line {}": True,
            "use std::ops::Drop as End;": True,
            "impl<T: Drop> Release for T {}": False,
            "#[derive(Drop)]\npub struct Line;": False,
            "// impl Drop for Line {}": False,
            "impl Line {}\n// A Drop for each.\n": False}
        for text, is_found in rows.items():
            self.check(text, implements_drop(text), is_found)
