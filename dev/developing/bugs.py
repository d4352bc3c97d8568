"""Plant bugs in a module, one typical mistake each time."""
from __future__ import annotations

import ast
from types import CodeType
from typing import Any, Callable, Iterator, NamedTuple

MODULE = "<module>"  # name for the code outside functions
LONG_TABLE = 12  # numbers in tables with more elements are not changed
OPERATORS = ((ast.Lt, ast.LtE), (ast.Gt, ast.GtE), (ast.Eq, ast.NotEq), (ast.In, ast.NotIn),
             (ast.Is, ast.IsNot), (ast.And, ast.Or), (ast.Add, ast.Sub))
OPPOSITE_OPERATORS: dict[type[ast.AST], type[Any]] = {
    old: new for pair in OPERATORS for old, new in (pair, pair[::-1])}
PAIRS = (("any", "all"), ("min", "max"), ("first", "last"), ("begin", "end"), ("before", "after"))
SIMILAR_NAMES = {old: new for pair in PAIRS for old, new in (pair, pair[::-1])}
Changes = Iterator[tuple[str, ast.AST]]


class Bug(NamedTuple):
    """A planted bug: its line, function and kind, the old and new code, and the complete module."""

    line: int
    function: str
    kind: str
    old: str
    new: str
    text: str


def make_constant(value: object) -> ast.Constant:
    return ast.Constant(value)


def replace_part(node: ast.AST, name: str, value: object) -> ast.AST:
    """Return a copy of a syntax node with a new value for one field."""
    parts = {field: getattr(node, field, None) for field in node._fields}
    return ast.copy_location(type(node)(**{**parts, name: value}), node)


def drop_item(items: list[Any], at: int) -> list[Any]:
    return items[:at] + items[at + 1:]


def change_comparison(node: Any) -> Changes:
    for at, operator in enumerate(node.ops):
        if type(operator) in OPPOSITE_OPERATORS:
            operators = [*node.ops[:at], OPPOSITE_OPERATORS[type(operator)](), *node.ops[at + 1:]]
            yield "comparison", replace_part(node, "ops", operators)


def change_boolean(node: Any) -> Changes:
    yield "and, or", replace_part(node, "op", OPPOSITE_OPERATORS[type(node.op)]())
    for at in range(len(node.values)):
        rest = drop_item(node.values, at)
        yield "condition dropped", rest[0] if len(rest) == 1 else replace_part(node, "values", rest)


def change_unary(node: Any) -> Changes:
    if isinstance(node.op, (ast.Not, ast.USub)):
        yield "sign", node.operand


def change_binary(node: Any) -> Changes:
    operands = (node.left, node.right)
    has_text_operand = any(isinstance(operand, ast.JoinedStr)
                           or isinstance(getattr(operand, "value", 0), str) for operand in operands)
    if type(node.op) in OPPOSITE_OPERATORS and not has_text_operand:
        yield "sign", replace_part(node, "op", OPPOSITE_OPERATORS[type(node.op)]())
    if isinstance(node.op, ast.Mod) and not has_text_operand:
        yield "wrap dropped", node.left


def change_name(node: Any) -> Changes:
    name = node.id if isinstance(node, ast.Name) else node.attr
    if name in SIMILAR_NAMES and isinstance(node.ctx, ast.Load):
        yield "other one", replace_part(node, node._fields[-2], SIMILAR_NAMES[name])


def change_constant(node: Any) -> Changes:
    if isinstance(node.value, bool):
        yield "truth", make_constant(not node.value)
    elif isinstance(node.value, int):
        yield "off by one", make_constant(node.value + 1)
        if node.value:
            yield "off by one", make_constant(node.value - 1)


def change_subscript(node: Any) -> Changes:
    if isinstance(node.slice, ast.Constant) and node.slice.value == 0:
        yield "last for first", replace_part(node, "slice", make_constant(-1))
    if ast.unparse(node.slice) == "-1":
        yield "first for last", replace_part(node, "slice", make_constant(0))


def change_slice(node: Any) -> Changes:
    for name in ("lower", "upper"):
        bound = getattr(node, name)
        if bound and not isinstance(bound, (ast.Constant, ast.UnaryOp)):
            yield "off by one", replace_part(node, name,
                                             ast.BinOp(bound, ast.Add(), make_constant(1)))


def change_call(node: Any) -> Changes:
    for at in range(len(node.keywords)):
        yield "default", replace_part(node, "keywords", drop_item(node.keywords, at))
    for at, pair in enumerate(zip(node.args, node.args[1:])):
        if not any(isinstance(argument, ast.Starred) for argument in pair):
            args = [*node.args[:at], *pair[::-1], *node.args[at + 2:]]
            yield "swapped", replace_part(node, "args", args)
    if isinstance(node.func, ast.Name) and node.func.id == "range":
        for at, argument in enumerate(node.args):
            if not isinstance(argument, ast.Constant):
                changed = ast.BinOp(argument, ast.Add(), make_constant(1))
                args = [*node.args[:at], changed, *node.args[at + 1:]]
                yield "off by one", replace_part(node, "args", args)


def change_loop(node: Any) -> Changes:
    first = ast.parse("__import__('itertools').islice(0, 1)", mode="eval").body
    assert isinstance(first, ast.Call)
    first.args[0] = node.iter
    yield "first only", replace_part(node, "iter", first)
    for at in range(len(getattr(node, "ifs", ()))):
        yield "condition dropped", replace_part(node, "ifs", drop_item(node.ifs, at))


def change_choice(node: Any) -> Changes:
    is_of_types = ast.unparse(node.test) == "TYPE_CHECKING"  # always false at run time
    for value in () if is_of_types else (True, False):
        yield (f"condition made {value}".lower(),
               replace_part(node, "test", make_constant(value)))


def change_statement(node: Any) -> Changes:
    is_docstring = isinstance(getattr(node, "value", None), ast.Constant)
    if not is_docstring and not (isinstance(node, ast.Assign)
                                 and isinstance(node.targets[0], ast.Name)):
        yield "statement dropped", ast.copy_location(ast.Pass(), node)
    if isinstance(node, ast.AugAssign) and type(node.op) in OPPOSITE_OPERATORS:
        yield "sign", replace_part(node, "op", OPPOSITE_OPERATORS[type(node.op)]())


def change_jump(node: Any) -> Changes:
    is_break = isinstance(node, ast.Break)
    yield "loop ends", ast.copy_location(ast.Continue() if is_break else ast.Break(), node)


RULES: dict[type[ast.AST], Callable[[Any], Changes]] = {
    ast.Compare: change_comparison, ast.BoolOp: change_boolean, ast.UnaryOp: change_unary,
    ast.BinOp: change_binary,
    ast.Name: change_name, ast.Attribute: change_name, ast.Constant: change_constant,
    ast.Slice: change_slice,
    ast.Subscript: change_subscript, ast.Call: change_call, ast.For: change_loop,
    ast.comprehension: change_loop, ast.If: change_choice, ast.IfExp: change_choice,
    ast.Expr: change_statement,
    ast.Assign: change_statement, ast.AugAssign: change_statement, ast.Break: change_jump,
    ast.Continue: change_jump}
SKIPPED = ("annotation", "returns", "decorator_list", "exc", "cause", "msg")


def find_places(node: ast.AST, names: str = "", inside: str = MODULE
                ) -> Iterator[tuple[ast.AST, str, int | None, str]]:
    """Yield the places in a syntax tree whose nodes a planted bug may change.

    Each place is a parent node, the name of its field, the index if the field is a list, and the
    name of the function. Type hints, raised exceptions and constant text are skipped.
    """
    for name in node._fields:
        value = getattr(node, name, None)
        items = value if isinstance(value, list) else [value]
        if name in SKIPPED or name in ("elts", "keys", "values") and len(items) > LONG_TABLE:
            continue
        for at, child in enumerate(items):
            if not isinstance(child, ast.AST):
                continue
            yield node, name, at if isinstance(value, list) else None, inside
            is_function = isinstance(child, ast.FunctionDef)
            name_inside = f"{names}.{getattr(child, 'name')}".lstrip(".") \
                if is_function or isinstance(child, ast.ClassDef) else names
            is_default = isinstance(child, ast.arguments)  # defaults belong to the enclosing scope
            function = name_inside if is_function else MODULE if is_default else inside
            yield from find_places(child, name_inside, function)


def set_part(node: ast.AST, name: str, at: int | None, new: ast.AST) -> None:
    if at is None:
        setattr(node, name, new)
    else:
        getattr(node, name)[at] = new


def list_nested_codes(code: CodeType) -> Iterator[CodeType]:
    """Yield a code object and all code objects nested in it."""
    yield code
    for constant_value in code.co_consts:
        if isinstance(constant_value, CodeType):
            yield from list_nested_codes(constant_value)


def compile_comparable(text: str) -> list[tuple[bytes, str]] | None:
    """Compile source text. Return its bytecode, constants and names, or `None` if that fails."""
    try:
        nested_codes = list_nested_codes(compile(text, "", "exec"))
        return [(code.co_code, repr([value for value in code.co_consts
                                     if not isinstance(value, CodeType)]) + repr(code.co_names)
                 + repr(code.co_varnames)) for code in nested_codes]
    except (SyntaxError, ValueError):
        return None


def shorten(node: ast.AST) -> str:
    text = " ".join(ast.unparse(node).split())
    return text if len(text) <= 60 else f"{text[:57]}..."


def make_bugs(text: str, interval: int = 1, at: int = 0) -> Iterator[Bug]:
    """Yield every `interval`th bug from index `at` on, unless its code equals the original's."""
    tree = ast.parse(text)
    seen = [compile_comparable(ast.unparse(tree)), None]
    count = 0
    for node, name, place, function in list(find_places(tree)):
        value = getattr(node, name)
        old = value if place is None else value[place]
        for kind, new in RULES.get(type(old), lambda _: iter(()))(old):
            count += 1
            if count % interval != at:
                continue
            set_part(node, name, place, new)
            result = ast.unparse(ast.fix_missing_locations(tree))
            set_part(node, name, place, old)
            if compile_comparable(result) not in seen:
                head = "if " * isinstance(old, ast.If)
                parts = [getattr(part, "test", part) if head else part for part in (old, new)]
                yield Bug(getattr(old, "lineno", getattr(node, "lineno", 0)), function, kind,
                          head + shorten(parts[0]), head + shorten(parts[1]), result)
