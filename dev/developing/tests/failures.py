"""Explain a failed check: the line that calls it, both values and their differences."""
from __future__ import annotations

import ast
import difflib
import linecache
import os
import pprint
import sys
from types import FrameType
from typing import Iterator

# Files that are skipped in the search for the caller.
HELPERS = ("bench.py", "failures.py", "snapshots.py", "stories.py")
MAX_NAME_LENGTH = 160  # maximum number of characters of a check's name in a message
MAX_LINES_PRINTED = 40  # maximum number of printed lines of a failure
MAX_TEXT_PRINTED = 600  # maximum number of printed characters of a value in a comparison
WIDTH = 96


class Mismatch(AssertionError):
    """Raised by a failed check; its message is printed without a traceback."""


def find_calling_frame() -> FrameType:
    """Return the stack frame of the test that called a method of a helper module."""
    frame: FrameType | None = sys._getframe(1)
    while frame and os.path.basename(frame.f_code.co_filename) in HELPERS:
        frame = frame.f_back
    assert frame
    return frame


def format_place_of(frame: FrameType) -> str:
    """Return the file, number and source text of the line that a stack frame executes."""
    path = frame.f_code.co_filename
    line = linecache.getline(path, frame.f_lineno).strip()
    return f"{os.path.basename(path)}:{frame.f_lineno}: {line}"


def format_failure(name: str, *parts: str) -> str:
    """Return the message of a failed check: its name, its place in a test, and `parts`.

    Lines after MAX_LINES_PRINTED are replaced with a line that gives their number.
    """
    place = f"  {format_place_of(find_calling_frame())}"
    lines = "\n".join(filter(None, (name[:MAX_NAME_LENGTH], place, *parts))).split("\n")
    if len(lines) > MAX_LINES_PRINTED:
        count = len(lines) - MAX_LINES_PRINTED + 1
        lines[MAX_LINES_PRINTED - 1:] = [f"  .. {count} more lines"]
    return "\n".join(lines)


def crop(text: str) -> str:
    return text if len(text) <= MAX_TEXT_PRINTED else \
        f"{text[:MAX_TEXT_PRINTED]}.. {len(text)} characters"


def list_lines(value: object) -> list[str]:
    return value.splitlines() if isinstance(value, str) and "\n" in value else \
        pprint.pformat(value, width=WIDTH, compact=True).splitlines()


def format_comparison(result: object, expected: object) -> str:
    own, expected_value = list_lines(result), list_lines(expected)
    if len(own) == 1 and len(expected_value) == 1:
        return f"  expected: {expected_value[0]}\n  found:    {own[0]}"
    diff = difflib.unified_diff(expected_value, own, "expected", "found", lineterm="", n=2)
    return "\n".join(f"  {line}" for line in diff)


def condition_in(frame: FrameType, helper: str) -> ast.expr | None:
    """Return the second argument in the call to `helper` that a frame executes, or `None`."""
    source = "".join(linecache.getlines(frame.f_code.co_filename))
    calls = [item for item in ast.walk(ast.parse(source)) if isinstance(item, ast.Call)
             and isinstance(item.func, ast.Attribute) and item.func.attr == helper
             and item.lineno <= frame.f_lineno <= (item.end_lineno or item.lineno)
             and len(item.args) > 1]
    return max(calls, key=lambda item: (item.lineno, item.col_offset)).args[1] if calls else None


def list_conditions(condition: ast.expr) -> Iterator[ast.expr]:
    """Yield the operands of `and` in a condition, or the condition itself."""
    if isinstance(condition, ast.BoolOp) and isinstance(condition.op, ast.And):
        for value in condition.values:
            yield from list_conditions(value)
    else:
        yield condition


def explain_condition(frame: FrameType, helper: str = "must") -> str:
    """Return the text of the first false operand in a failed condition.

    Add both sides of a comparison. The condition is evaluated again, which the text says if the
    condition contains a call: a call may return something else than before.
    """
    condition = condition_in(frame, helper)
    names = {**frame.f_globals, **frame.f_locals}

    def value(node: ast.expr) -> object:
        return eval(compile(ast.Expression(node), "<check>", "eval"), names)

    try:
        for fact in list_conditions(condition) if condition else ():
            if value(fact):
                continue
            text = f"  false:    {ast.unparse(fact)}"
            if any(isinstance(node, ast.Call) for node in ast.walk(fact)):
                text += "\n  evaluated again, so these may not be the values that failed:"
            if isinstance(fact, ast.Compare) and len(fact.ops) == 1:
                left, right = value(fact.left), value(fact.comparators[0])
                kind = isinstance(fact.ops[0], ast.Eq)
                return f"{text}\n" + (format_comparison(left, right) if kind else
                                      f"  left:     {crop(repr(left))}\n"
                                      f"  right:    {crop(repr(right))}")
            return text
    except Exception as error:
        return f"  not explained: {type(error).__name__}: {error}"
    return ""
