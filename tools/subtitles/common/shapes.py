"""Types of JSON values, used to write and check results and to make their schema."""
from __future__ import annotations

import itertools
import re
from typing import Any, Callable, Iterator, NamedTuple, Sequence

from .command_line import NO_PID
from .times import CLOCK


MAX_TEXT = 65_536  # default maximum length of a text, in characters
Schema = dict[str, Any]


class Shape:
    """A type of JSON values. If it has a `name`, the schema defines it once, under this name."""

    name, meaning = "", ""

    def to_json(self, value: Any) -> Any:
        return value

    def find_misfit(self, value: object) -> str | None:
        """Return the path of the first value that does not fit this type, such as
        `.faults[3].number`. An empty path means the value itself. Return `None` if everything
        fits."""
        raise NotImplementedError

    def schema(self) -> Schema:
        raise NotImplementedError

    def list_inner_shapes(self) -> Iterator[Shape]:
        """Yield the types that this type contains."""
        return iter(())

    def make_reference(self) -> Schema:
        """Return a reference to this type, or the complete schema if the type has no name."""
        return {"$ref": f"#/definitions/{self.name}"} if self.name else self.schema()


class Text(Shape):
    """A string of limited length that matches a pattern. Without a pattern, a longer string is
    shortened when it is written."""

    def __init__(self, pattern: str = "", most: int = MAX_TEXT, least: int = 0) -> None:
        self.pattern, self.most, self.least = pattern and re.compile(pattern), most, least

    def to_json(self, value: Any) -> Any:
        is_cut = not self.pattern and isinstance(value, str) and len(value) > self.most
        return value[:self.most - 3] + "..." if is_cut else value

    def find_misfit(self, value: object) -> str | None:
        is_valid = isinstance(value, str) and self.least <= len(value) <= self.most and (
            not self.pattern or self.pattern.fullmatch(value))
        return None if is_valid else ""

    def schema(self) -> Schema:
        pattern = {"pattern": f"^{self.pattern.pattern}$"} if self.pattern else {}
        least = {"minLength": self.least} if self.least else {}
        return {"type": "string", **pattern, **least, "maxLength": self.most}


class Integer(Shape):
    """An integer from `least` to `most`, inclusive."""

    def __init__(self, least: int, most: int) -> None:
        self.least, self.most = least, most

    def find_misfit(self, value: object) -> str | None:
        return None if type(value) is int and self.least <= value <= self.most else ""

    def schema(self) -> Schema:
        return {"type": "integer", "minimum": self.least, "maximum": self.most}


class Number(Shape):
    """A number from 0 to `most`, inclusive."""

    def __init__(self, most: int) -> None:
        self.most = most

    def find_misfit(self, value: object) -> str | None:
        if isinstance(value, bool) or not isinstance(value, (int, float)):
            return ""
        return None if 0 <= value <= self.most else ""  # NaN and infinity fail this test

    def schema(self) -> Schema:
        return {"type": "number", "minimum": 0, "maximum": self.most}


class OneOf(Shape):
    """One of several constants, such as strings or numbers."""

    def __init__(self, *values: str | int | None) -> None:
        self.values = values

    def find_misfit(self, value: object) -> str | None:
        return None if any(type(value) is type(item) and value == item
                           for item in self.values) else ""

    def schema(self) -> Schema:
        return {"const": self.values[0]} if len(self.values) == 1 else {"enum": [*self.values]}


class Flag(Shape):
    """A Boolean value."""

    def find_misfit(self, value: object) -> str | None:
        return None if isinstance(value, bool) else ""

    def schema(self) -> Schema:
        return {"type": "boolean"}


class Maybe(Shape):
    """A value of another type, or `None`."""

    def __init__(self, shape: Shape) -> None:
        self.shape = shape

    def to_json(self, value: Any) -> Any:
        return None if value is None else self.shape.to_json(value)

    def find_misfit(self, value: object) -> str | None:
        return None if value is None else self.shape.find_misfit(value)

    def schema(self) -> Schema:
        return {"anyOf": [self.shape.make_reference(), {"type": "null"}]}

    def list_inner_shapes(self) -> Iterator[Shape]:
        yield self.shape


class ListOf(Shape):
    """A list of values of the same type. Values after the first `most` are not written."""

    def __init__(self, shape: Shape, most: int, least: int = 0) -> None:
        self.shape, self.most, self.least = shape, most, least

    def to_json(self, value: Any) -> Any:
        return [self.shape.to_json(item) for item in itertools.islice(value, self.most)]

    def find_misfit(self, value: object) -> str | None:
        if not isinstance(value, list) or not self.least <= len(value) <= self.most:
            return ""
        for at, item in enumerate(value):
            place = self.shape.find_misfit(item)
            if place is not None:
                return f"[{at}]{place}"
        return None

    def schema(self) -> Schema:
        least = {"minItems": self.least} if self.least else {}
        return {"type": "array", "items": self.shape.make_reference(), **least,
                "maxItems": self.most}

    def list_inner_shapes(self) -> Iterator[Shape]:
        yield self.shape


class Member(NamedTuple):
    """A member of a JSON object: its name, type and meaning. `getter` returns the member's value
    from the object to write. By default the value is the attribute or item of the same name."""

    name: str
    shape: Shape
    meaning: str = ""
    getter: Callable[[Any], Any] | None = None
    is_required: bool = True  # whether every object has this member

    def to_json(self, value: Any) -> Any:
        """Return the JSON form of this member of an object."""
        if self.getter is not None:
            member = self.getter(value)
        else:
            member = value[self.name] if isinstance(value, dict) else getattr(value, self.name)
        return self.shape.to_json(member)

    def schema(self) -> Schema:
        """Return the JSON schema of this member. No other key may be next to `$ref`."""
        known = self.shape.make_reference()
        if not self.meaning:
            return known
        return {"description": self.meaning, **({"allOf": [known]} if "$ref" in known else known)}


class Record(Shape):
    """A JSON object with exactly these members. The object must also satisfy each of `rules`."""

    def __init__(self, name: str, meaning: str, *members: Member,
                 rules: Sequence[Rules] = ()) -> None:
        self.name, self.meaning, self.members, self.rules = name, meaning, members, rules
        self.shapes = {member.name: member.shape for member in members}
        self.needed = {member.name for member in members if member.is_required}

    def to_json(self, value: Any) -> Any:
        return {member.name: member.to_json(value) for member in self.members
                if member.is_required or member.name in value}

    def find_misfit(self, value: object) -> str | None:
        if not isinstance(value, dict):
            return ""
        wrong_keys = (value.keys() - self.shapes.keys()) | (self.needed - value.keys())
        if wrong_keys:
            return f".{min(wrong_keys)}"
        for name, member in value.items():
            place = self.shapes[name].find_misfit(member)
            if place is not None:
                return f".{name}{place}"
        return next((place for rule in self.rules if (place := rule.find_misfit(value)) is
                     not None),
                    None)

    def schema(self) -> Schema:
        rules = {"allOf": [rule.schema() for rule in self.rules]} if self.rules else {}
        meaning = {"description": self.meaning} if self.meaning else {}
        return {**meaning, "type": "object",
                "required": [member.name for member in self.members if member.is_required],
                "additionalProperties": False,
                "properties": {member.name: member.schema() for member in self.members}, **rules}

    def list_inner_shapes(self) -> Iterator[Shape]:
        return iter(self.shapes.values())


class Rules(NamedTuple):
    """Alternative types for some members of an object. At least one of the `rows` must match."""

    rows: Sequence[dict[str, Shape | Rules]]

    def find_misfit(self, value: Any) -> str | None:
        """Return `None` if the value matches any row. Otherwise return the path of a member."""
        is_valid = any(all(shape.find_misfit(value[name]) is None for name, shape in row.items())
                       for row in self.rows)
        return None if is_valid else f".{next(iter(self.rows[0]))}"

    def schema(self) -> Schema:
        """Return the JSON schema of the alternatives."""
        return {"anyOf": [{"properties": {name: shape.schema() for name, shape in row.items()}}
                          for row in self.rows]}


def make_named_shape(name: str, shape: Shape, meaning: str = "") -> Shape:
    """Give a type a name, under which it is defined once in the schema."""
    shape.name, shape.meaning = name, meaning
    return shape


def make_definitions(shapes: Sequence[Shape]) -> Schema:
    """Return the schemas of the named types in `shapes`, and of all named types inside them."""
    known: Schema = {}
    waiting = [*shapes]
    while waiting:
        shape = waiting.pop(0)
        if shape.name and shape.name in known:
            continue
        if shape.name:
            meaning = {"description": shape.meaning} if shape.meaning else {}
            known[shape.name] = {**meaning, **shape.schema()}
        waiting += shape.list_inner_shapes()
    return known


Members = dict[str, Any]  # members of a JSON object, by name
MAX_NUMBER = (1 << 53) - 1  # largest integer that every JSON parser reads exactly

TIME = make_named_shape("time", Text(r"[0-9]{2}:[0-9]{2}:[0-9]{2}:[0-9]{2}"))
COUNT = make_named_shape("count", Integer(0, MAX_NUMBER))
PTS = make_named_shape("pts", Integer(0, CLOCK - 1))
PID = make_named_shape("pid", Integer(0, NO_PID - 1))
CHECKSUM = make_named_shape("sum", Text(r"[0-9a-f]{64}"))
