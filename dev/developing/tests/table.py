"""Map modules and scripts to their tests with dev/vectors/tests.tsv, which dev/plant writes."""
from __future__ import annotations

import inspect
import os
import re
import sys
from typing import AbstractSet, Collection, Iterator, Mapping, NamedTuple, Sequence, Type

from .. import DEV, TOOLS

PATH = os.path.join(DEV, "vectors", "tests.tsv")
PACKAGE = "subtitles/"
TIMES = 3  # number of test classes chosen for each function


class CalledFunctions(NamedTuple):
    """The functions that a test class calls, such as `stream/gaps.py:late_of`, and its run time."""

    functions: AbstractSet[str]
    seconds: float


def rows() -> dict[str, list[str]]:
    with open(PATH, encoding="utf-8") as file:
        result = [line.rstrip("\n").split("\t") for line in file if not line.startswith("#")]
    return {module: tests.split() for module, tests in result}


def get_module_path(name: str) -> str:
    """Return a module's name in tests.tsv, such as `stream/gaps.py`, from a path or dotted name."""
    path = name.removeprefix("tools/").removeprefix(PACKAGE).removeprefix("subtitles.")
    is_path = "/" in name or path.endswith(".py") or "." not in path
    return path if is_path else path.replace(".", "/") + ".py"


def list_tests_of(name: str) -> list[str]:
    return rows().get(get_module_path(name), [])


def chosen(functions: Collection[str], classes: Mapping[str, CalledFunctions],
           near: Collection[str] = (), standing: Collection[str] = ()) -> list[str]:
    """Choose test classes so that `TIMES` of them call each function, or all that call it.

    Choose all classes in `standing`, then classes from `near`, then any other classes. Always
    choose the class that covers the largest number of missing functions per second of run time.
    """
    expected = {name: min(TIMES, sum(name in item.functions for item in classes.values()))
                for name in functions}
    result = list[str]()

    def take(name: str) -> None:
        result.append(name)
        for item in classes[name].functions & expected.keys() if name in classes else ():
            expected[item] -= 1

    def lacking(name: str) -> int:
        return sum(expected.get(item, 0) > 0 for item in classes[name].functions)

    for name in standing:
        take(name)
    for some in ({*near}, {*classes}):
        while rest := [name for name in sorted(some - {*result}) if lacking(name)]:
            take(max(rest, key=lambda name: lacking(name) / (1 + classes[name].seconds)))
    return sorted(result)


def lines(classes: Mapping[str, CalledFunctions], kinds: Collection[Type[object]],
          before: Mapping[str, Sequence[str]]) -> Iterator[str]:
    """Yield the new lines of tests.tsv.

    Keep the existing test classes of a module, since some classes run the module in another
    process. Add classes that call the module's functions; prefer classes that import the module.
    The tests of a script are the classes whose source contains its name. Keep the other lines, such
    as that of `docs`.
    """
    names = {get_type_name(item) for item in kinds}
    standing = {module: {*tests} & names for module, tests in before.items()}
    functions = {item for called in classes.values() for item in called.functions
                 if not item.partition(":")[0].endswith("__init__.py")}
    modules = {get_type_name(item): inspect.getsource(sys.modules[item.__module__])
               for item in kinds}
    tested = {item.partition(":")[0] for item in functions} | {
        item for item in standing if os.path.isfile(os.path.join(TOOLS, PACKAGE, item))}
    for module in sorted(tested):
        own = [item for item in functions if item.startswith(f"{module}:")]
        taken = f"from subtitles.{module[:-3].replace('/', '.')} import "
        near = {item for item, text in modules.items() if taken in text and item in classes}
        some = chosen(own, classes, near, standing.get(module, ()))
        yield f"{module}\t{' '.join(some)}\n" * bool(some)
    texts = {get_type_name(item): inspect.getsource(item) for item in kinds}
    scripts = {f"{prefix}{name}": name for folder, prefix in ((TOOLS, ""), (DEV, "dev/"))
               for name in os.listdir(folder)}
    for row in sorted(scripts | {row: "" for row in standing.keys() - tested - scripts.keys()}):
        name = scripts.get(row, "")
        called = re.compile(rf"\b(?:tool|script|tool_path|typed)\(['\"]{re.escape(name)}['\"]")
        named = {item for item, text in texts.items() if name and called.search(text)}
        if named := named | standing.get(row, set()):
            yield f"{row}\t{' '.join(sorted(named))}\n"


def get_type_name(kind: Type[object]) -> str:
    return f"{kind.__module__.rpartition('.')[2]}.{kind.__name__}"
