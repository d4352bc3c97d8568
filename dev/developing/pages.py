"""Generate man pages, shell completion, and the JSON schema.

The program's page is made from the usage text of ./subttx and the option table in
docs/manual/reference.md, and each tool's page from its --help text. The schema is made from the
definition of results. Generated parts of a file are between the comment lines `made: NAME` and
`end`.
"""
from __future__ import annotations

import json
import os
import re
import subprocess
import sys
import textwrap
from typing import NamedTuple

from subtitles.common.command_line import INSTALLED, Stop
from subtitles.common.program import COMPLETION, TOOLS, TOP, read
from subtitles.request import request
from subtitles.results.schema import schema
from .cited import correct_number_rows

TABLE = os.path.join("docs", "manual", "reference.md")
PROGRAM_PAGE, QC_PAGE = os.path.join("docs", "subttx.1"), os.path.join("docs", "subttx-qc.1")
AIR_PAGE = os.path.join("docs", "subttx-air.1")
READ_PAGE = os.path.join("docs", "subttx-read.1")
SCHEMA = os.path.join("docs", "verdict.schema.json")
NUMBERS = os.path.join("docs", "ASSURANCE.md")  # the document with the table of proof numbers
MADE = re.compile(r'^((?:\.\\"|#|<!--) made: (\w+)(?: -->)?\n)(.*?)'
                  r'^((?:\.\\"|#|<!--) end(?: -->)?\n)', re.M | re.S)
COMMAND = re.compile(r"^  ([a-z]+) ([A-Z]\S*(?: (?:[A-Z]\S*|--\w+))*) +(?=[a-z])", re.M)
ROW = re.compile(r"^\| `(--[\w-]+)(?: (\S+))?` \| (`.*?`) \| (.*) \| (.*) \|$", re.M)
ENTRY_LINE = re.compile(
    r"^  ((?:--?[\w-]+)(?: .*?)??)(?:, (--?[\w-]+)(?: .*?)??)?(?:  +|\n +)(\S.*)$", re.M)
# Names of option values that are file names.
FILES = re.compile(r"FILE|DIR|FOLDER|LIST|STL|PES|OUT|IN|PROGRAM|FEED|TS|WORD")
LINK = re.compile(r"\[([^]]*)\]\([^)]*\)")
WIDTH = 100
PAGE_REFERENCE = "See also "  # text that introduces a reference to a man page in help text


class Command(NamedTuple):
    """A command of the program: its files, its required options, and its purpose."""

    name: str
    files: str
    needed: list[str]
    does: str


class Option(NamedTuple):
    """An option, the name of its value if it takes one, and the commands that accept it."""

    name: str
    value: str
    commands: list[str]
    means: str
    default: str

    def list_choices(self) -> list[str]:
        """Return the words in the option table that are no commands of the option, if there are at
        least three: the values that the option accepts."""
        values = [word for word in re.findall(r"`([a-z0-9]+)`", self.means)
                  if word not in self.commands]
        return values if len(values) > 2 else []


def parse_commands(text: str) -> list[Command]:
    """Parse the commands in the usage text."""
    result = []
    lines = re.sub(r"\n {10,}", " ", text)
    for match in COMMAND.finditer(lines):
        words = match[2].split(" ")
        effect = lines[match.end():].split("\n", 1)[0]
        result.append(Command(match[1], " ".join(operand for operand in words if operand.isupper()
                                                 and operand not in ("TIME", "P")),
                              [operand for operand in words if operand.startswith("--")],
                              effect.strip()))
    if not result:
        raise Stop("the usage text of ./subttx lists no command")
    return result


def parse_options(text: str) -> list[Option]:
    """Parse the options in the option table of the manual."""
    return [Option(row[1], row[2] or "", re.findall(r"`(\w+)`", row[3]), row[4].strip(),
                   row[5].strip()) for row in ROW.finditer(text)]


def run_help(tool: str, *command: str) -> str:
    """Return the help text of a tool, with each option on one line."""
    process = subprocess.run([sys.executable, os.path.join(TOP, "tools", tool), *command, "--help"],
                             text=True, env=dict(os.environ, COLUMNS="2000"),
                             stdin=subprocess.DEVNULL, stdout=subprocess.PIPE, check=True)
    return process.stdout


def parse_entries(text: str) -> list[tuple[str, str, str]]:
    """Parse the options in a help text. Return the name, value and meaning of each."""
    result = []
    for entry in ENTRY_LINE.finditer(text):
        name, _, value = (entry[1] or "").partition(" ")
        result.append((entry[2] or name, value, entry[3]))
    return result


def escape_roff(text: str) -> str:
    """Format a sentence for a man page, with code in bold and links as plain text."""
    text = LINK.sub(r"\1", text)
    text = re.sub(r"\btools/(\w+)", INSTALLED + r"\1", text)
    text = text.replace("\\", "\\e").replace("-", "\\-")
    text = re.sub(r"`([^`]*)`", r"\\fB\1\\fP", text)
    return re.sub(r"^(?=[.'])", "\\&", text, flags=re.M)


def fill_paragraph(text: str) -> str:
    """Break a paragraph into lines."""
    lines: list[str] = []
    line = ""
    for word in escape_roff(text).split():
        if line and len(line) + len(word) >= WIDTH:
            lines, line = [*lines, line], word
        else:
            line += " " * bool(line) + word
    return re.sub(r"^(?=[.'])", "\\&", "\n".join([*lines, line]), flags=re.M)


def format_option(name: str, value: str, text: str) -> str:
    """Return the entry for an option in a man page."""
    head = f"\\fB{escape_roff(name)}\\fP" + (f" \\fI{escape_roff(value)}\\fP" if value else "")
    return f".TP\n{head}\n{fill_paragraph(text)}\n"


def to_sentence(text: str) -> str:
    """Format a table cell as a sentence."""
    text = LINK.sub(r"\1", text)
    return text[0].upper() + text[1:] + "." * (text[-1] not in ".:") if text else text


def format_synopsis(commands_of_program: list[Command], table: list[Option]) -> str:
    page = ""
    for command in commands_of_program:
        own_options = [option for option in table if command.name in option.commands]
        page += f".SY subttx\n.B {command.name}\n.I {escape_roff(command.files)}\n"
        for option in sorted(own_options, key=lambda other: other.name not in command.needed):
            call = f"{escape_roff(option.name)} {escape_roff(option.value)}".strip()
            page += f".B {call}\n" if option.name in command.needed else f".OP {call}\n"
        page += ".YS\n"
    return page


def make_program_parts(usage: str, table: str) -> dict[str, str]:
    """Return the generated parts of the program's man page."""
    def make_command_entry(command: Command) -> str:
        return (f".TP\n\\fB{command.name}\\fP \\fI{escape_roff(command.files)}\\fP\n"
                f"{fill_paragraph(to_sentence(command.does))}\n")

    def option_entry(option: Option) -> str:
        names = ", ".join(f"`{name}`" for name in option.commands)
        text = f"{to_sentence(option.means)} Without it: {option.default}. Of {names}."
        return format_option(option.name, option.value, text)

    program_commands, table_options = parse_commands(usage), parse_options(table)
    return {"synopsis": format_synopsis(program_commands, table_options),
            "commands": "".join(map(make_command_entry, program_commands)),
            "options": "".join(map(option_entry, table_options))}


def make_tool_parts(text: str, name: str = "qc") -> dict[str, str]:
    """Return the generated parts of a tool's man page, from its help text."""
    def option_entry(name: str, value: str, means: str) -> str:
        if not value.startswith("{"):
            return format_option(name, value, to_sentence(means))
        words = value[1:-1].replace(",", ", ")
        return format_option(name, "WORD", f"{to_sentence(means)} WORD is {words}.")

    prose = re.split(r"\n(?:positional arguments|options|optional arguments):\n", text)[0]
    paragraphs = [part for part in prose.strip().split("\n\n") if part.strip()]
    calls = [part for part in paragraphs if part.startswith("    ")]
    status = [part for part in paragraphs[1:] if part.startswith("Status ")]
    others = [part for part in paragraphs[1:]
              if part not in (*calls, *status) and not part.startswith(PAGE_REFERENCE)]
    lines = re.sub(r"\n {8,}", " ", "\n".join(calls)).split("\n")
    synopses = (escape_roff(line.strip().partition(" ")[2]) for line in lines)
    return {"synopsis": "".join(f".SY subttx\\-{name}\n{line}\n.YS\n" for line in synopses),
            "description": "\n.PP\n".join(map(fill_paragraph, [paragraphs[0], *others])) + "\n",
            "options": "".join(option_entry(*entry) for entry in parse_entries(text)),
            "status": "".join(fill_paragraph(part) + "\n" for part in status)}


def make_air_parts(text: str, help_texts: dict[str, str]) -> dict[str, str]:
    """Return the generated parts of air's man page from its help texts, without qc's options."""
    others = {option.name for option in request.OPTIONS} | {"--help", "--version"}
    commands = {command: "".join(format_option(name, value, to_sentence(means))
                                 for name, value, means in parse_entries(help)
                                 if name not in others)
                for command, help in help_texts.items()}
    return {**{name: part for name, part in make_tool_parts(text, "air").items()
               if name != "options"},
            **commands}


def make_completion_parts(usage: str, table: str, help_texts: list[str]) -> dict[str, str]:
    """Return the generated parts of the shell completion script."""
    program_commands, table_options = parse_commands(usage), parse_options(table)
    choices = {option.name: " ".join(option.list_choices()) for option in table_options
               if option.list_choices()}
    values = "".join(f"        {name}) _subttx_words '{words}' \"$2\" ;;\n"
                     for name, words in choices.items())
    named = {option.name for option in table_options if option.value}
    named |= {name for text in help_texts for name, value, _ in parse_entries(text)
              if value and not value.startswith("{") and not FILES.search(value)}
    flags = {name for text in help_texts for name, value, _ in parse_entries(text) if not value}
    pattern = "        " + " | ".join(sorted(named - choices.keys() - flags)) + ")\n"
    while (long_lines := [line for line in pattern.split("\n") if len(line) > WIDTH - 2]):
        at = long_lines[0].rindex(" | ", 0, WIDTH - 3) + 3
        pattern = pattern.replace(long_lines[0],
                                  long_lines[0][:at] + "\\\n            " + long_lines[0][at:])
    listed = ""
    for command in program_commands:
        names = " ".join(option.name for option in table_options
                         if command.name in option.commands)
        if names:
            listed += textwrap.fill(
                f"{command.name}) options='{names}' ;;", WIDTH, initial_indent=" " * 8,
                subsequent_indent=" " * 12, break_on_hyphens=False) + "\n"
    command_names = " ".join(command.name for command in program_commands)
    return {"values": values + pattern + "            COMPREPLY=()\n            ;;\n",
            "commands": f"    local commands='{command_names}'\n", "options": listed}


def format_json(value: object, indent: str = "") -> str:
    """Format a value as JSON: on one line if it is short, else one line for each item."""
    line = json.dumps(value)
    if not isinstance(value, (dict, list)) or len(indent) + len(line) < WIDTH - 20:
        return line
    inner_record = indent + " "
    if isinstance(value, list):
        items = [format_json(item, inner_record) for item in value]
        if all(isinstance(item, str) for item in value):
            items = fill_rows(items, WIDTH - 20 - len(inner_record))
        return f"[\n{inner_record}" + f",\n{inner_record}".join(items) + f"\n{indent}]"
    members = [f"{json.dumps(name)}: {format_json(item, inner_record)}" for name, item in value.
               items()]
    return f"{{\n{inner_record}" + f",\n{inner_record}".join(members) + f"\n{indent}}}"


def fill_rows(words: list[str], width: int) -> list[str]:
    """Join words with commas, in lines of at most `width` columns."""
    rows = [words[0]]
    for word in words[1:]:
        if len(rows[-1]) + len(word) < width:
            rows[-1] += f", {word}"
        else:
            rows.append(word)
    return rows


def replace_parts(text: str, parts: dict[str, str]) -> str:
    """Return `text` with new contents for the generated parts that `parts` contains."""
    missing = set(parts) - {result[2] for result in MADE.finditer(text)}
    if missing:
        raise Stop(f"add a line `made: NAME` for these parts: {', '.join(sorted(missing))}")
    return MADE.sub(lambda result: result[1] + parts.get(result[2], result[3]) + result[4], text)


def make_pages() -> dict[str, str]:
    """Return the generated files by path below the top folder."""
    def text(name: str) -> str:
        return read(os.path.join(TOP, name)) or ""

    usage, table = text("subttx").partition("usage: ")[2].partition("\nEND\n")[0], text(TABLE)
    help_texts = {tool: run_help(tool) for tool in TOOLS}
    command_helps = {command: run_help("air", command) for command in ("record", "judge")}
    parts = {PROGRAM_PAGE: make_program_parts(usage, table),
             QC_PAGE: make_tool_parts(help_texts["qc"]),
             AIR_PAGE: make_air_parts(help_texts["air"], command_helps),
             READ_PAGE: make_tool_parts(help_texts["read"], "read"),
             COMPLETION: make_completion_parts(usage, table, [
                 *help_texts.values(), *command_helps.values(), run_help("air", "status")])}
    numbers = text(NUMBERS)
    for row, counted in correct_number_rows(TOP):
        numbers = numbers.replace(row, counted)
    return {**{name: replace_parts(text(name), of) for name, of in parts.items()},
            SCHEMA: format_json(schema()) + "\n", NUMBERS: numbers}
