"""Find the definitions of crates/*/specs on which a name or a clause depends.

Files are read as text. A name in a definition refers to an import or to another definition in the
file, unless the definition binds the name as a parameter, the label of a field, or a variable of a
pattern. A variable of one equation is not bound in the next equation.
"""
from __future__ import annotations

import collections
import functools
import os
import re
from typing import Iterable, Iterator, NamedTuple, Union

from subtitles.common.command_line import Stop
from .crates import list_dependencies, read_lines

DEFINITION_STARTS = ("abbrev ", "unfoldable ", "pub record ", "pub data ", "record ", "data ")
IMPORT_STARTS = ("use ", "pub use ", "mod ", "pub mod ", "infix")
HEAD = re.compile(r"(?:(?:pub|abbrev|unfoldable|record|data) )+([^\s:(]+)")
USE_STATEMENT = re.compile(r"^ *(pub |ghost )?use (\S+?)(?:\.\{([^}]*)\}| as (\w+))?;?$", re.M)
TOKEN = re.compile(r"[^\s()\[\]{},;]+")
# Expressions that bind names: (x y : A), λ x y. e, let x = e in, and x ← e.
BINDING_PATTERNS = [re.compile(form)
                    for form in (r"[({]([^(){}:]*) : ", r"λ ([^.]*)\.", r"\blet (\S+) =",
                                 r"(\S+) ←")]
CONSTRUCTOR = re.compile(r"^  (\S+) :", re.M)
FUNCTION = re.compile(r"^( *)(?:pub )?(?:const )?fn (\w+)", re.M)
CLAUSE = re.compile(r"^ *ensures (\w+)? ?\{", re.M)


class Definition:
    """A definition: its leading comment, and its source lines, which begin at `line`."""

    def __init__(self, file: SpecsFile, line: int, comment: list[str], first: str) -> None:
        self.file, self.line, self.comment, self.text = file, line, comment, [first]
        head = HEAD.match(first)
        assert head
        self.name = head[1]
        self.is_function = first.startswith(("abbrev", "unfoldable"))
        self.is_data = first.startswith(("data", "pub data"))

    def code(self) -> list[str]:
        return [line for line in self.text if not line.lstrip().startswith("--")]

    def parts(self) -> list[str]:
        """Return the parts of the text that bind names separately.

        These are the type and each equation of a function. A record is a single part.
        """
        chunks: list[str] = []
        for line in self.code():
            if chunks and not (self.is_function and re.match(r"[^\s})]", line)):
                chunks[-1] += "\n" + line
            else:
                chunks.append(line)
        return chunks

    def constructors(self) -> list[str]:
        return CONSTRUCTOR.findall("\n".join(self.code())) if self.is_data else []


class ExternalName(NamedTuple):
    """A name from another library, such as std, or a type that a crate's code declares."""

    crate: str
    module: str | None
    name: str


Meaning = Union[Definition, ExternalName]


class File:
    """A file of a crate, and the names that its `use` lines import."""

    def __init__(self, crate: str, path: str, module: str) -> None:
        self.crate, self.path, self.module = crate, path, module
        with open(path, encoding="utf-8") as file:
            self.text = file.read()
        self.definitions: dict[str, Definition] = {}
        self.constructors: dict[str, Definition] = {}
        self.names: dict[str, tuple[str, str]] = {}
        self.aliases: dict[str, str] = {}
        self.reexported_modules: list[str] = []
        for keyword, source, names, alias in USE_STATEMENT.findall(self.text):
            if path.endswith(".rt") and keyword != "ghost ":
                continue
            for name in filter(None, map(str.strip, names.split(","))):
                original, _, alias_name = name.partition(" as ")
                self.names[alias_name or original] = source, original
            if alias:
                self.aliases[alias] = source
            elif keyword == "pub " and not names:
                self.reexported_modules.append(source)


class SpecsFile(File):
    """A file in specs/, which contains definitions."""

    def __init__(self, crate: str, path: str, module: str) -> None:
        super().__init__(crate, path, module)
        self.definitions = self.read_definitions()
        self.constructors = {name: definition for definition in self.definitions.values()
                             for name in definition.constructors()}

    def read_definitions(self) -> dict[str, Definition]:
        """Return the definitions in a file by name, each with the comment directly above it."""
        result: dict[str, Definition] = {}
        comment: list[str] = []
        now: Definition | None = None
        for number, line in enumerate(self.text.split("\n"), 1):
            if line.startswith("--"):
                comment.append(line)
                continue
            if line.startswith(DEFINITION_STARTS):
                now = Definition(self, number, comment, line)
                result[now.name] = now
            elif now and line.strip() and not line.startswith(IMPORT_STARTS):
                now.text += [*comment, line]
            comment = []
        return result


def list_files(top: str, crate: str, part: str, ending: str) -> Iterator[tuple[str, str]]:
    """Yield the path and module name of each file in one folder of a crate."""
    start = os.path.join(top, "crates", crate, part)
    for folder, _, names in sorted(os.walk(start)):
        for path in (os.path.join(folder, name) for name in sorted(names)):
            if path.endswith(ending):
                module_name = os.path.relpath(path, start)[:-len(ending)].replace(os.sep, ".")
                yield path, f"Rattle.{crate}.{part}.{module_name}"


class Library:
    """All files in specs/ of all crates, in the order of crates.txt."""

    def __init__(self, top: str) -> None:
        self.top = top
        self.files: dict[str, SpecsFile] = {}
        self.crates = list(read_lines(os.path.join(top, "crates.txt")))
        for crate in self.crates:
            for path, module in list_files(top, crate, "specs", ".antt"):
                if not path.endswith("/Lib.antt"):
                    self.files[module] = SpecsFile(crate, path, module)

    def resolve(self, module: str, name: str) -> Meaning:
        """Return the definition or external name to which a name in a module refers."""
        crate, _, inner = module.removeprefix("Rattle.").partition(".")
        if crate not in self.crates:
            return ExternalName(crate, None, name)
        if inner.startswith("specs.declared."):
            path = inner.removeprefix("specs.declared.").removesuffix(".TheVariants")
            where, _, kind = path.rpartition(".")
            return ExternalName(crate, where, kind)
        file = self.files.get(module)
        if not file:
            above, _, kind = module.rpartition(".")  # a constructor belongs to its type
            if above in self.files and kind in self.files[above].definitions:
                return self.files[above].definitions[kind]
            raise Stop(f"{module} is not a file of specs/")
        result = self.resolve_in(file, name)
        for source in file.reexported_modules if not result else ():
            result = result or self.resolve(source, name)
        if not result:
            raise Stop(f"{module} has no {name}")
        return result

    def resolve_in(self, file: File, name: str) -> Meaning | None:
        """Return the definition or external name to which a name in a file refers, or `None`."""
        if name in file.definitions:
            return file.definitions[name]
        if name in file.constructors:
            return file.constructors[name]
        return self.resolve(*file.names[name]) if name in file.names else None

    def list_uses(self, file: File, text: str, bound: set[str]) -> list[Meaning]:
        """Return the definitions and external names to which the unbound names in `text` refer."""
        result = (self.resolve(source, name) if source else self.resolve_in(file, name)
                  for source, name in list_names(file, file.definitions, text, bound))
        return [meaning for meaning in result if meaning]

    @functools.lru_cache(None)
    def list_meanings_used(self, definition: Definition) -> list[Meaning]:
        """Return the definitions and external names to which the names in a definition refer."""
        first, *equations = definition.parts()
        uses = self.list_uses(definition.file, first, find_bound_names(first))
        for text in equations:
            left, *right = re.split(r" =(?=\s)", text, maxsplit=1)
            bound = find_bound_names(text) | {token for token in TOKEN.findall(left)
                                              if not self.is_constructor(definition.file, token)}
            uses += self.list_uses(definition.file, " ".join([left, *right]), bound)
        return [other for other in dict.fromkeys(uses) if other is not definition]

    def is_constructor(self, file: File, name: str) -> bool:
        """Return whether a name in a pattern is a constructor and not a variable."""
        if "." in name:
            return True
        meaning = self.resolve_in(file, name)
        return bool(meaning) and not (isinstance(meaning, Definition) and meaning.is_function)

    def resolve_clauses(self, name: str) -> list[Meaning]:
        """Return what the names in a clause refer to. `name` is FUNCTION.CLAUSE or FUNCTION."""
        return [meaning for file, _, text in self.find_clauses(name)
                for meaning in self.list_uses(file, text, find_bound_names(text))]

    def find_clauses(self, name: str) -> list[tuple[File, str, str]]:
        """Return the file, name and text of a clause, or of all clauses of a function."""
        function, _, clause = name.partition(".")
        crate, slash, function = function.rpartition("/")
        result: list[tuple[File, str, str]] = []
        for crate_name in [crate] if slash else self.crates:
            for path, module in list_files(self.top, crate_name, "src", ".rt"):
                file = File(crate_name, path, module)
                result += [(file, *part) for part in list_clauses(file.text, function, clause)]
        if not slash and len({file.path for file, *_ in result}) > 1:
            places = ", ".join(sorted({file.crate for file, *_ in result}))
            raise Stop(f"{name} is a function of {places}: put the crate before it, as CRATE/NAME")
        return result

    def find_definitions(self, name: str) -> list[Definition]:
        """Return the definitions with the name NAME or CRATE/FILE.NAME."""
        place, _, last = name.rpartition(".")
        return [file.definitions[last] for file in self.files.values()
                if last in file.definitions
                and place in ("", f"{file.crate}/{file.module.split('.specs.')[1]}")]

    def find_roots(self, name: str) -> list[Meaning]:
        """Return the definitions named `name`, or those to which its clauses refer."""
        definitions = self.find_definitions(name)
        if len(definitions) > 1:
            places = ", ".join(f"{definition.file.crate}/"
                               f"{definition.file.module.split('.specs.')[1]}.{definition.name}"
                               for definition in definitions)
            raise Stop(f"{name} is ambiguous: give one of {places}")
        roots: list[Meaning] = list(definitions)
        roots = roots or self.resolve_clauses(name)
        if not roots:
            raise Stop(f"{name} is no definition of specs/ and no function or clause of src/")
        return roots

    def find_type(self, outside: ExternalName) -> tuple[str, int]:
        """Return the file and line of a type's declaration in the code."""
        form = re.compile(rf"^ *(?:pub(?:\(\w+\))? )?(?:struct|enum|trait) {outside.name}\b", re.M)
        for path, _ in list_files(self.top, outside.crate, "src", ".rt"):
            with open(path, encoding="utf-8") as file:
                text = file.read()
            if result := form.search(text):
                return path, text.count("\n", 0, result.start()) + 1
        raise Stop(f"{outside.crate} declares no {outside.name}")

    def find_dependencies(self, name: str) -> dict[Meaning, list[Meaning]]:
        """Return everything on which a name depends, with the direct dependencies of each item."""
        used: dict[Meaning, list[Meaning]] = {}
        left = collections.deque(self.find_roots(name))
        while left:
            meaning = left.popleft()
            if meaning not in used:
                used[meaning] = (self.list_meanings_used(meaning)
                                 if isinstance(meaning, Definition) else [])
                left += used[meaning]
        return used

    def sort_highest_first(self, name: str) -> list[Definition]:
        """Return the definitions on which a name depends, each before the definitions that it uses.

        Crates that use other crates come first.
        """
        used, seen, last_first = self.find_dependencies(name), set[Meaning](), list[Definition]()

        def visit(meaning: Meaning) -> None:
            if isinstance(meaning, Definition) and meaning not in seen:
                seen.add(meaning)
                for other in reversed(used[meaning]):
                    visit(other)
                last_first.append(meaning)

        for root in reversed(self.find_roots(name)):
            visit(root)
        lines = read_lines(os.path.join(self.top, "crates.txt"))
        ranks = {crate: (-len(list_dependencies(crate, lines)), at) for at,
                 crate in enumerate(lines)}
        return sorted(reversed(last_first), key=lambda definition: ranks[definition.file.crate])

    def list_reading(self, name: str) -> tuple[list[Definition], list[ExternalName]]:
        """Return the definitions on which a name depends, and the external names.

        Each definition comes after the definitions that it uses.
        """
        used = self.find_dependencies(name)
        definition_names = {definition: {meaning for meaning in names
                                         if isinstance(meaning, Definition)}
                            for definition, names in used.items()
                            if isinstance(definition, Definition)}
        outside = sorted(meaning for meaning in used if isinstance(meaning, ExternalName))
        return self.sort_by_dependency(definition_names), outside

    def sort_by_dependency(self,
                           definition_names: dict[Definition, set[Definition]]) -> list[Definition]:
        """Sort definitions so that each follows its dependencies.

        Definitions of the same crate, and if possible of the same file, stay together.
        """
        ranks = {module: (self.crates.index(file.crate), at)
                 for at, (module, file) in enumerate(self.files.items())}
        left, sorted_definitions = dict(definition_names), list[Definition]()
        missing_counts = {definition: len(names & definition_names.keys() - {definition})
                          for definition, names in definition_names.items()}
        needed_by = collections.defaultdict[Definition, list[Definition]](list)
        for definition, names in definition_names.items():
            for other in names - {definition}:
                needed_by[other].append(definition)
        ready = {definition for definition, count in missing_counts.items() if not count}
        while left:
            now = sorted_definitions[-1].file if sorted_definitions else None
            # Definitions that depend on each other are in one file. Keep their order in the file.
            definition = min(ready or left, key=lambda candidate: (
                ranks[candidate.file.module][0], candidate.file is not now,
                ranks[candidate.file.module], candidate.line))
            del left[definition]
            ready.discard(definition)
            sorted_definitions.append(definition)
            for other in needed_by[definition]:
                missing_counts[other] -= 1
                if other in left and not missing_counts[other]:
                    ready.add(other)
        return sorted_definitions


def list_names(file: File, own: Iterable[str], text: str, bound: Iterable[str] = ()
             ) -> Iterator[tuple[str | None, str]]:
    """Yield the names in a text that refer to definitions or imports.

    A name is yielded with its module if an alias of the module qualifies it, otherwise with `None`.
    `own` contains names that the file defines. `bound` contains names of parameters and variables.
    """
    tokens = [token.lstrip("λ") for token in TOKEN.findall(text)]
    for before, token, after in zip(["", *tokens], tokens, [*tokens[1:], ""]):
        base, _, rest = token.partition(".")
        if base in file.aliases and rest:
            yield file.aliases[base], rest.split(".")[0]
        elif base not in bound and before != "pub" and after not in ("=", ":"):
            yield None, base
    signs = set(tokens)
    for name in [*file.names, *own]:
        if "◌" in name and signs.issuperset(filter(None, name.split("◌"))):
            yield None, name


def find_bound_names(text: str) -> set[str]:
    """Return the names that a text binds as variables."""
    groups = [result for form in BINDING_PATTERNS for result in form.findall(text)]
    return {name for group in groups for name in group.split()}


def list_clauses(text: str, function: str, clause: str) -> Iterator[tuple[str, str]]:
    """Yield the name and text of each clause of a function, or only of the clause `clause`."""
    for result in FUNCTION.finditer(text):
        if result[2] != function:
            continue
        end = re.compile(rf"^{result[1]}(?:\{{\}}?|.*\}};|\S.*;)$", re.M).search(text, result.end())
        head = text[result.end():end.start() if end else len(text)]
        for start in CLAUSE.finditer(head):
            if not clause or start[1] == clause:
                yield start[1] or "", read_braced_text(head, start.end())


def read_braced_text(text: str, start: int) -> str:
    """Return the text from `start` to the matching closing brace."""
    depth = 1
    for at in range(start, len(text)):
        depth += {"{": 1, "}": -1}.get(text[at], 0)
        if depth == 0:
            return text[start:at]
    return text[start:]


def count_lines_to_read(definitions: list[Definition], outside: Iterable[ExternalName]
                  ) -> tuple[int, int, int]:
    """Return three numbers: the definitions, their lines, and the names used from std."""
    lines = sum(len(item.code()) for item in definitions)
    return len(definitions), lines, sum(item.module is None for item in outside)
