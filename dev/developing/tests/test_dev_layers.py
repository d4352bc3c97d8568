"""Check the imports, type hints and style of the tools and scripts."""
from __future__ import annotations

import ast
import contextlib
import fcntl
import glob
import os
import shutil
import subprocess
from typing import Iterator

from subtitles.common.program import TOP, read
from .bench import Case, SECONDS

# Packages of the tools. Each may import only packages before it.
ORDER = ["common", "formats", "request", "stream", "clock", "recording", "judging", "results",
         "report", "reading", "cli", "air"]
LONGEST_LINE = 100
MAIN = "subtitles.cli.main"  # module that imports other modules on demand
TABLE_FILE = os.path.join("developing", "signs.py")  # file with a table of long lines
# Modules of the tools that the second implementation may import.
SHARED_MODULES = {"subtitles." + name for name in (
    "common.command_line", "common.program.TOP", "common.program.find_built_program",
    "common.times", "formats.layout", *("formats.stl." + name for name in (
        "GSI", "LAST_BLOCK", "TEXT", "TTI", "USER_DATA")),
    *("formats.teletext." + name for name in ("CODE_WORDS", "NUMBER", "Page", "START", "is_odd")))}


def get_module_name(path: str) -> str:
    home = TOOLS if path.startswith(TOOLS + os.sep) else DEV
    words = os.path.relpath(path, home).removesuffix(".py").split(os.sep)
    return ".".join(words[:-1] if words[-1] == "__init__" else words)


def list_imports(text: str, name: str, is_package: bool) -> Iterator[str]:
    """Yield the names that a module imports, including imports in functions and for type hints."""
    here = name.split(".") if is_package else name.split(".")[:-1]
    for node in ast.walk(ast.parse(text)):
        if isinstance(node, ast.Import):
            yield from (item.name for item in node.names)
        elif isinstance(node, ast.ImportFrom):
            above = here[:len(here) - node.level + 1] if node.level else []
            module = ".".join([*above, *([node.module] if node.module else [])])
            yield module
            yield from (f"{module}.{item.name}" for item in node.names)


def list_wrong_imports(name: str, names: Iterator[str]) -> list[str]:
    """Return the names among `names` that the module `name` must not import."""
    here = name.split(".")
    if here[0] == "developing":
        if here[1:2] != ["every_place"]:
            return []
        return [item for item in names if item.startswith("subtitles")
                and not any((item + ".").startswith(shared + ".") for shared in SHARED_MODULES)
                and not any(shared.startswith(item + ".") for shared in SHARED_MODULES)]
    allowed = ORDER[:ORDER.index(here[1]) + 1] if here[1:] else []
    result = []
    for item in names:
        words = item.split(".")
        is_right = words[0] != "developing" and (words[0] != "subtitles"
                                                 or words[1:2] == [] or words[1] in allowed)
        result += [] if is_right else [item]
    return result


def list_wrapping_lines(text: str) -> list[int]:
    """Return the numbers of lines that compute modulo CLOCK instead of calling `wrap_pts`."""
    return [node.lineno for node in ast.walk(ast.parse(text))
            if isinstance(node, ast.BinOp) and isinstance(node.op, (ast.Mod, ast.FloorDiv))
            and isinstance(node.right, ast.Name) and node.right.id == "CLOCK"]


# Functions with keyword arguments that Python 3.9 does not have.
NEWER_ARGUMENTS = {*((name, "key") for name in ("bisect", "bisect_left", "bisect_right", "insort")),
                   ("dataclass", "slots"), ("dataclass", "kw_only"), ("zip", "strict")}


def list_newer_lines(text: str) -> list[int]:
    """Return the numbers of lines that Python 3.9 rejects, such as `X | None` in an assignment."""
    result = []
    for node in ast.walk(ast.parse(text, feature_version=(3, 9))):
        if isinstance(node, ast.Call):
            name = node.func.attr if isinstance(node.func, ast.Attribute) else \
                getattr(node.func, "id", "")
            result += [node.lineno] * any((name, keyword.arg) in NEWER_ARGUMENTS
                                          for keyword in node.keywords)
        elif isinstance(node, ast.Assign) and isinstance(node.value, ast.BinOp) and \
                isinstance(node.value.right, ast.Constant) and node.value.right.value is None:
            result.append(node.lineno)
    return result


def list_long_lines(text: str) -> list[int]:
    return [number for number, line in enumerate(text.split("\n"), 1) if len(line) > LONGEST_LINE]


def find_cycle(imports: dict[str, set[str]]) -> list[str]:
    """Return modules of which each imports the next, and the last the first, or an empty list."""
    clear: set[str] = set()

    def walk(name: str, way: list[str]) -> list[str]:
        if name in way:
            return way[way.index(name):]
        if name not in clear:
            for other in sorted(imports[name]):
                if cycle := walk(other, [*way, name]):
                    return cycle
            clear.add(name)
        return []

    return next(filter(None, (walk(name, []) for name in sorted(imports))), [])


# A module, a text in it, and whether the module may import what the text imports
IMPORT_CASES = [
    ("subtitles.judging.pair", "from ..report.page import document", False),
    ("subtitles.judging.pair", "from .. import report", False),
    ("subtitles.judging.pair", "def f():\n    from ..cli import main", False),
    ("subtitles.judging.pair", "if TYPE_CHECKING:\n    import subtitles.cli.main", False),
    ("subtitles.judging.pair", "from ..common.command_line import Stop\nfrom .part import Part",
     True),
    ("subtitles.cli.single", "from ..report.page import overview", True),
    ("subtitles.common.command_line", "from developing import TOOLS", False),
    ("subtitles.common.command_line", "from ..stream import survey", False),
    # The second implementation may import only what SHARED_MODULES names.
    ("developing.every_place.known", "from subtitles.formats.listing import parse_fault_line",
     False),
    ("developing.every_place.known", "from subtitles.formats.teletext import OPTIONS", False),
    ("developing.every_place.known", "from subtitles.common.times import CLOCK", True)]
# The modules that each module imports, and those of a cycle
CYCLE_CASES: list[tuple[dict[str, set[str]], list[str]]] = [
    ({"a": set()}, []), ({"a": {"b"}, "b": set()}, []), ({"a": {"a"}}, ["a"]),
    ({"a": {"b"}, "b": {"a"}}, ["a", "b"]),
    ({"a": {"b", "c"}, "b": set(), "c": {"d"}, "d": {"c"}}, ["c", "d"])]


class Imports(Case):
    """The Python modules and scripts in tools/, dev/ and bench/."""

    def test_packages_import_only_lower_packages(self) -> None:
        paths = [path for folder in PACKAGES for path in modules(folder)]
        self.must("modules", len(paths) > 50, len(paths))
        for path in paths:
            name = get_module_name(path)
            names = list_imports(read(path) or "", name, path.endswith("__init__.py"))
            self.check(name, list_wrong_imports(name, names), [])

    def test_finds_wrong_imports(self) -> None:
        for name, text, is_right in IMPORT_CASES:
            wrong = list_wrong_imports(name, list_imports(text, name, is_package=False))
            self.must(f"{name}: {text}", (not wrong) == is_right, wrong)

    def test_the_tools_have_no_line_that_python_3_9_rejects(self) -> None:
        for path in modules(PACKAGES[0]):
            self.check(get_module_name(path), list_newer_lines(read(path) or ""), [])

    def test_finds_lines_that_python_3_9_rejects(self) -> None:
        for line in ("at = bisect.bisect_left(a, b, key=c)", "dataclass(slots=True)",
                     "for a in zip(b, c, strict=True): pass", "Page = Rows | None"):
            self.check(line, list_newer_lines(line), [1])
        self.check("annotations",
                   list_newer_lines("a: int | None = 3\ndef b() -> int | None: pass"), [])

    def test_the_tools_have_no_import_cycle(self) -> None:
        texts = {get_module_name(path): read(path) or "" for path in modules(PACKAGES[0])
                 if not path.endswith("__init__.py")}
        self.check("cycle", find_cycle({
            name: texts.keys() & {*list_imports(text, name, is_package=False)}
            for name, text in texts.items() if name != MAIN} | {MAIN: set()}), [])

    def test_finds_an_import_cycle(self) -> None:
        for imports, expected in CYCLE_CASES:
            self.check(f"{imports}", find_cycle(imports), expected)

    def test_lines_have_at_most_100_columns(self) -> None:
        for path in [*(path for folder in PACKAGES for path in modules(folder)), *scripts()]:
            if not path.endswith(TABLE_FILE):
                self.check(path, list_long_lines(read(path) or ""), [])

    def test_finds_long_lines(self) -> None:
        self.check("lines", list_long_lines("a" * 100 + "\n" + "ä" * 101 + "\n"), [2])

    def test_only_one_module_of_the_tools_wraps_pts(self) -> None:
        names = [get_module_name(path) for path in modules(PACKAGES[0])
                 if list_wrapping_lines(read(path) or "")]
        self.check("modules", names, ["subtitles.common.times"])

    def test_finds_lines_that_wrap_pts(self) -> None:
        self.check("lines", list_wrapping_lines("a = 1\nb = (a - 2) % CLOCK"), [2])


TOOLS, DEV, BENCH = (os.path.join(TOP, name) for name in ("tools", "dev", "bench"))
PACKAGES = [os.path.join(TOOLS, "subtitles"), os.path.join(DEV, "developing")]


def modules(folder: str) -> list[str]:
    return sorted(glob.glob(os.path.join(folder, "**", "*.py"), recursive=True))


def scripts() -> list[str]:
    """Return the paths of the Python scripts in the folders, not in those within them."""
    paths = (os.path.join(folder, name) for folder in (TOOLS, DEV, BENCH)
             for name in sorted(os.listdir(folder)))
    return [path for path in paths if (read(path) or "").partition("\n")[0].endswith("python3")]


@contextlib.contextmanager
def open_mypy_cache(case: Case) -> Iterator[str]:
    """Yield the user's cache folder for mypy; in CI or if it is in use, yield an empty folder."""
    home = os.environ.get("XDG_CACHE_HOME") or os.path.expanduser("~/.cache")
    kept = os.path.join(home, "subttx-mypy")
    with contextlib.ExitStack() as stack:
        own = case.path("cache")
        if "CI" not in os.environ:
            with contextlib.suppress(OSError):
                os.makedirs(kept, exist_ok=True)
                lock = stack.enter_context(open(os.path.join(kept, "lock"), "w", encoding="ascii"))
                fcntl.flock(lock, fcntl.LOCK_EX | fcntl.LOCK_NB)
                own = kept
        yield own


class Hints(Case):
    def test_mypy_accepts_the_type_hints_of_all_modules_and_scripts(self) -> None:
        mypy = shutil.which("mypy")
        if mypy is None and "CI" not in os.environ:
            self.skipTest("type hints, since there is no mypy")
        assert mypy, "there is no mypy, which dev/install-test-tools installs"
        command = [mypy, "--strict", "--python-version=3.9", "--scripts-are-modules",
                   "--follow-imports=silent"]
        try:
            listed = [path for folder in PACKAGES for path in modules(folder)]
            with open_mypy_cache(self) as cache:
                process = self.call([*command, f"--cache-dir={cache}", *listed, *scripts()],
                                    env={**os.environ, "MYPYPATH": os.pathsep.join([TOOLS, DEV])})
        except subprocess.TimeoutExpired:
            if "CI" in os.environ:
                raise
            self.skipTest(f"type hints, since mypy took more than {SECONDS} seconds")
        self.must("mypy --strict", process.status == 0, process.out.decode())
