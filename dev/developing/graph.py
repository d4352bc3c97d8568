"""Find which definitions, lemmas and functions use each other, and which promises depend on them.

A promise is a law (a public function named `law_of_..` or `example_of_..`) or a clause of a public
function. The module searches the text of each file for names, and resolves them by the `use` lines.
Therefore a variable with the name of an imported item counts as a use. A method call counts as a
use of each method with that name in the crate and its dependencies.
"""
from __future__ import annotations

import collections
import os
import re

from .crates import list_dependencies, read_lines
from .definitions import list_names, list_files
from .sources import (
    Node, Source, find_head_names, list_contract_clauses, read_definitions, read_functions)

USING_CLAUSE = re.compile(r"using\(([^)]*)\)")
CALL = re.compile(r"(\.|\b\w+::)?\b([a-z_]\w*)(?:::<[^()]*?>)?\(")
METHOD = re.compile(r"\( ?&?(?:'\w+ )?(?:mut )?self\b")
GOAL = re.compile(r"-clause-(\w+)$")
LAW_NAME = re.compile(r"(?:law|laws|example|examples)_of_\w+$")
PROOF_FILES = ("Answers", "Invariants", "Given", "Walk", "Proof")  # proof files of each function


class UseGraph:
    """The definitions, lemmas and functions of all crates, and their uses."""

    def __init__(self, top: str) -> None:
        lines = read_lines(os.path.join(top, "crates.txt"))
        self.lower_crates = {crate: list_dependencies(crate, lines) for crate in lines}
        self.files: dict[str, Source] = {}
        self.nodes: list[Node] = []  # definitions, lemmas and clauses
        self.functions: list[Node] = []
        self.functions_by_name: dict[tuple[str, str], list[Node]] = collections.defaultdict(list)
        self.nodes_with_body: dict[Node, Node] = {}
        other_text: list[tuple[Source, str]] = []  # text in src/ outside functions
        for part, ending in (("specs", ".antt"), ("proofs", ".antt"), ("src", ".rt")):
            for crate in self.lower_crates:
                for path, module in list_files(top, crate, part, ending):
                    file = self.files[module] = Source(top, crate, path, module)
                    if part == "src":
                        other_text.append((file, " ".join(read_functions(file))))
                        continue
                    kind = "definition" if part == "specs" else "lemma"
                    for node in read_definitions(file, kind):
                        self.nodes.append(node)
                        file.own.setdefault(node.name, node)
        for file, _ in other_text:
            self.functions += file.functions
            for function in file.functions:
                self.functions_by_name[file.crate, function.name].append(function)
        proofs = [node for node in self.nodes if node.file.module.endswith(PROOF_FILES)]
        for node in [*self.nodes, *self.functions]:
            if node.kind == "function" or node.file.own[node.name] is node:
                self.link(node, " ".join(node.text))
        for file, text in other_text:
            self.link_functions(file, text)
        for node in proofs:
            self.link_proof(node)

    def resolve(self, module: str, name: str, seen: frozenset[str] = frozenset()) -> Node | None:
        """Return the node to which a name in a module refers, or `None`. Skip modules in `seen`."""
        file = self.files.get(module)
        if file is None:
            above, _, kind = module.rpartition(".")  # a constructor belongs to its type
            return self.files[above].own.get(kind) if above in self.files else None
        if name in file.own:
            return file.own[name]
        if name in file.names and module not in seen:
            return self.resolve(*file.names[name], seen | {module})
        for source in file.reexported_modules:
            if source not in seen and (result := self.resolve(source, name, seen | {module})):
                return result
        return None

    def resolve_in(self, file: Source, name: str) -> Node | None:
        if name in file.own:
            return file.own[name]
        return self.resolve(*file.names[name]) if name in file.names else None

    def link(self, node: Node, text: str) -> None:
        """Record that `node` uses each node that is named in `text`."""
        for source, name in list_names(node.file, node.file.own, text):
            node.add(self.resolve(source, name) if source else self.resolve_in(node.file, name))

    def link_functions(self, file: Source, other_text: str) -> None:
        """Link each function to its clauses and body, and each clause to the names in it."""
        file_node = Node("body", file, file.module, 1, [])
        self.link(file_node, other_text)
        self.add_lemmas(file_node, other_text)
        for function in file.functions:
            text, end = " ".join(function.text), 0
            body = self.nodes_with_body[function] = Node("body", file, function.name,
                                                         function.line, [])
            body.add(file_node)
            is_law_name = function.is_promised = function.is_public \
                and bool(LAW_NAME.match(function.name))
            for keyword, name, inner, end in list_contract_clauses(text):
                if keyword == "requires":
                    self.link(body, inner)
                    continue
                clause = Node("clause", file, f"{function.name}.{name}" if name else function.name,
                              function.line, [], 0, function.is_public and not is_law_name,
                              owner=function.owner, function=function)
                self.nodes.append(clause)
                self.link(clause, inner)
                clause.add(body)
                function.add(clause)
            if not any(node.kind == "clause" for node in function.used_nodes):
                function.add(body)
            self.add_lemmas(body, text)
            for prefix, name in dict.fromkeys(CALL.findall(text[end:])):
                for callee in self.find_callees(function, prefix, name):
                    body.add(callee)

    def add_lemmas(self, node: Node, text: str) -> None:
        """Record that `node` uses the lemmas in `using(..)`, such as crate::proofs::M::law."""
        for path in filter(None, map(str.strip, ",".join(USING_CLAUSE.findall(text)).split(","))):
            crate, *inner = path.split("::")
            if len(inner) > 1:
                crate = node.file.crate if crate == "crate" else crate
                node.add(self.resolve(".".join(["Rattle", crate, *inner[:-1]]), inner[-1]))

    def find_callees(self, caller: Node, prefix: str, name: str) -> list[Node]:
        """Return the functions that a call in a body may refer to, given the name's prefix."""
        crate, text = caller.file.crate, caller.file.text
        result = [function for lower in [crate, *self.lower_crates[crate]]
                  for function in self.functions_by_name.get((lower, name), ())
                  if function is not caller]
        if prefix == ".":
            return [function for function in result if METHOD.search(" ".join(function.text))]
        if prefix:
            owner = caller.owner if prefix == "Self::" else prefix[:-2]
            return [function for function in result if function.owner == owner] or [
                function for function in result if function.owner]
        is_imported = re.search(rf"^use [^;]*\b{name}\b", text, re.M)
        return [function for function in result
                if not function.owner and (function.file.crate == crate or is_imported)]

    def link_proof(self, node: Node) -> None:
        """Record which part of a function uses the lemma `node` of the function's proof folder.

        This part is the clause in the lemma's name, or the body if the name contains no clause.
        """
        _, crate, _, *inner, name, _ = node.file.module.split(".")
        functions = self.functions_by_name.get((crate, name), [])
        # The proof folder of a method is named after the module of its type, which may not define
        # it.
        nearest = [function for function in functions
                   if function.file.module.split(".")[3:] in (inner, inner[:-1])]
        for function in nearest or functions:
            goal = GOAL.search(node.name)
            clause = f"{function.name}.{goal[1]}" if goal else ""
            users = [other for other in function.used_nodes
                     if other.kind == "clause" and other.name == clause]
            for user in users or [self.nodes_with_body[function]]:
                user.add(node)

    def find_unreached(self, crate: str = "") -> list[Node]:
        """Return the definitions and lemmas that no function uses directly or indirectly."""
        visited: set[Node] = set()
        left = list(self.functions)
        while left:
            node = left.pop()
            if node not in visited:
                visited.add(node)
                left += node.used_nodes
        return [node for node in self.nodes if node.kind != "clause" and node not in visited
                and node.file.crate == (crate or node.file.crate)]

    def list_promised_definitions(self) -> list[Node]:
        """Return the definitions used by theorems (laws) and by contracts of public functions."""
        result: dict[Node, None] = {}
        left = [node for node in self.nodes if node.kind == "clause"
                and (node.is_promised or node.function is not None and node.function.is_promised)]
        while left:
            for node in left.pop().used_nodes:
                if node.kind == "definition" and node not in result:
                    result[node] = None
                    left.append(node)
        return list(result)

    def find_unknown_head_names(self) -> dict[Source, list[str]]:
        """Return the unknown names in the first comment of each file in proofs/."""
        names = {part for node in [*self.nodes, *self.functions]  # include the name of each clause
                 for part in (node.name, node.name.partition(".")[2])}
        return {file: sorted(find_head_names(file.text) - names)
                for file in self.files.values() if ".proofs." in file.module}

    def find_promises(self, node: Node) -> list[Node]:
        """Return the guarantees (promises) that use a node directly or through other items."""
        result: dict[Node, None] = {}
        visited = {node}
        left = collections.deque(node.used_by)
        while left:
            user = left.popleft()
            if user in visited:
                continue
            visited.add(user)
            if user.is_promised:
                result[user] = None
            else:
                left += user.used_by
        return list(result)

    def find_nodes(self, name: str) -> list[Node]:
        """Return the nodes with the name NAME or CRATE/NAME. A clause is named FUNCTION.CLAUSE."""
        crate, slash, last = name.rpartition("/")
        return [node for node in [*self.nodes, *self.functions]
                if node.name == last and (not slash or node.file.crate == crate)
                and (node.kind != "clause" or "." in last)]
