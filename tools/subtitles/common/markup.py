"""Markup for HTML pages. Text is escaped before it becomes part of the markup."""
from __future__ import annotations

import html
import re
from typing import Iterable, Union

from .command_line import escape_hidden_lines


# The page loads nothing, runs no scripts and submits no forms. Its style is part of the page.
POLICY = ("default-src 'none'; style-src 'unsafe-inline'; base-uri 'none'; form-action 'none'")
ANCHOR = re.compile(' id="| href="#')


class Markup:
    """Escaped markup. It has its own class, so that it can't be mistaken for unescaped text."""

    __slots__ = ("source",)

    def __init__(self, source: str) -> None:
        self.source = source

    def __str__(self) -> str:
        raise TypeError("markup is no text")

    def __bool__(self) -> bool:
        return bool(self.source)

    def __add__(self, other: Markup) -> Markup:
        return Markup(self.source + other.source)

    def __mul__(self, times: int) -> Markup:
        return Markup(self.source * times)

    def prefix_anchors(self, prefix: str) -> Markup:
        """Add a prefix to each anchor and each link to an anchor, so that anchors of several parts
        of a page differ. Quotes in text are escaped, so text never matches `ANCHOR`."""
        return Markup(ANCHOR.sub(lambda found: found[0] + prefix, self.source))

    def page(self) -> bytes:
        """Return this markup as the bytes of a page, in UTF-8."""
        return self.source.encode("utf-8", "replace")


Value = Union[Markup, str, int, float]


def escape(text: str) -> str:
    """Escape a text for XML, and replace hidden characters with escape sequences such as \\x1b."""
    return html.escape(escape_hidden_lines(text))


def markup(template: str, *values: Value) -> Markup:
    """Return a template with each `{}` replaced with markup, a number, or text, which is escaped.
    The template must be a literal; a test checks this. A `{}` in a tag must be in quotes."""
    return Markup(template.format(*map(format_value, values)))


def format_value(value: Value) -> str | int | float:
    """Return a value for a template; text is escaped."""
    if isinstance(value, Markup):
        return value.source
    return escape(value) if isinstance(value, str) else value


def join_markup(parts: Iterable[Value], between: Value = "") -> Markup:
    """Join values with the separator `between`. Text is escaped."""
    return Markup(str(format_value(between)).join(str(format_value(part)) for part in parts))


def read_style(path: str) -> Markup:
    """Return the style of a page from a CSS file."""
    with open(path, encoding="utf-8") as file:
        return Markup(file.read())


NO_MARKUP, BREAK = markup(""), markup("<br/>")
HEAD = markup('<!DOCTYPE html>\n<html xmlns="http://www.w3.org/1999/xhtml" lang="en"><head>'
              '<meta charset="UTF-8"/><meta http-equiv="Content-Security-Policy" content="{}"/>'
              '<meta name="viewport" content="width=device-width, initial-scale=1"/>', POLICY)
