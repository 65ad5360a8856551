"""The tables of an office as files of lines: the members of each line, and the columns of FILE that they come from."""
import json
from collections.abc import Iterator, Mapping, Sequence
from typing import Any, NamedTuple

from office_exchange import kinds
from office_exchange.kinds import Kind

NAME, VERSION = "office-export", 1
"""the name of the form, and its version"""
Row = Sequence[Any]


class Member(NamedTuple):
    """A member of a line, with the column that it comes from. If it is optional, null stands for null."""

    name: str
    column: str
    kind: Kind
    is_optional: bool = False

    def schema(self) -> kinds.Schema:
        return {"anyOf": [self.kind.schema, {"type": "null"}]} if self.is_optional else self.kind.schema


class Group(NamedTuple):
    """Members that are there together or not at all: an object of them, or null."""

    name: str
    members: tuple[Member, ...]

    def schema(self) -> kinds.Schema:
        return {"anyOf": [object_schema(self.members), {"type": "null"}]}


class Table(NamedTuple):
    """A file of lines: its name, its table in FILE, the order of its lines, and the members of each."""

    name: str
    table: str
    order: str
    parts: tuple[Member | Group, ...]

    def columns(self) -> list[str]:
        return [member.column for part in self.parts
                for member in (part.members if isinstance(part, Group) else (part,))]

    def query(self) -> str:
        return f"SELECT {', '.join(self.columns())} FROM {self.table} ORDER BY {self.order}"

    def insertion(self) -> str:
        columns = self.columns()
        return f"INSERT INTO {self.table}({', '.join(columns)}) VALUES ({', '.join('?' * len(columns))})"

    def schema(self) -> kinds.Schema:
        return object_schema(self.parts)


class WrongLine(ValueError):
    """A line, or a row, that is not of the form."""


def group(name: str, *members: Member) -> Group:
    return Group(name, members)


def object_schema(parts: Sequence[Member | Group]) -> kinds.Schema:
    """Returns the schema of an object that has each of these members and no other."""
    return {"type": "object", "additionalProperties": False, "required": [part.name for part in parts],
            "properties": {part.name: part.schema() for part in parts}}


def table(name: str, order: str, *parts: Member | Group, of: str = "") -> Table:
    return Table(name, of or name, order, parts)


TABLES = (
    table("schedules", "code", Member("code", "code", kinds.CODE), Member("trigger", "start_at", kinds.TRIGGER),
          Member("unit", "unit", kinds.UNIT), Member("count", "span", kinds.COUNT),
          Member("offset", "roll", kinds.OFFSET), Member("action", "disposal", kinds.ACTION), of="schedules2"),
    table("classes", "code", Member("code", "code", kinds.CODE), Member("title", "title", kinds.TEXT),
          Member("schedule", "schedule", kinds.CODE)),
    table("aggregations", "num", Member("number", "num", kinds.NUMBER), Member("ref", "ref", kinds.TEXT),
          Member("title", "title", kinds.TEXT), Member("parent", "parent", kinds.NUMBER, True),
          Member("class", "class", kinds.CODE, True), Member("closed", "closed", kinds.DAY, True)),
    table("records", "num", Member("number", "num", kinds.NUMBER), Member("ref", "ref", kinds.TEXT),
          Member("title", "title", kinds.TEXT), Member("originated", "originated", kinds.DAY),
          Member("added", "added", kinds.DAY), Member("aggregation", "aggregation", kinds.NUMBER),
          Member("length", "size", kinds.LENGTH), Member("digest", "digest", kinds.DIGEST),
          Member("status", "status", kinds.STATUS), Member("class", "class", kinds.CODE, True),
          Member("schedule", "schedule", kinds.CODE, True),
          group("review", Member("day", "reviewed", kinds.DAY), Member("by", "reviewed_by", kinds.TEXT)),
          group("confirmation", Member("action", "conf_action", kinds.ACTION), Member("due", "conf_due", kinds.DAY),
                Member("day", "conf_day", kinds.DAY), Member("by", "conf_by", kinds.TEXT)),
          group("receipt", Member("day", "receipt_day", kinds.DAY), Member("by", "receipt_by", kinds.TEXT))),
    table("events", "record", Member("record", "record", kinds.NUMBER), Member("occurred", "occurred", kinds.DAY),
          Member("day", "day", kinds.DAY), Member("by", "told_by", kinds.TEXT)),
    table("holds", "code", Member("code", "code", kinds.CODE), Member("reason", "reason", kinds.TEXT),
          Member("placed", "placed", kinds.DAY), Member("by", "placed_by", kinds.TEXT),
          Member("lifted", "lifted", kinds.DAY, True)),
    table("targets", "hold, kind, length(target), target", Member("hold", "hold", kinds.CODE),
          Member("kind", "kind", kinds.TARGET), Member("target", "target", kinds.CODE)),
    table("runs", "num", Member("number", "num", kinds.NUMBER), Member("day", "day", kinds.DAY),
          Member("by", "opened_by", kinds.TEXT), Member("cursor", "place", kinds.COUNT),
          Member("closed", "closed", kinds.FLAG)),
    table("entries", "run, record", Member("run", "run", kinds.NUMBER), Member("record", "record", kinds.NUMBER),
          Member("outcome", "outcome", kinds.OUTCOME), Member("class", "class", kinds.CODE),
          Member("schedule", "schedule", kinds.CODE), Member("due", "due", kinds.DAY),
          Member("confirmed_by", "confirmed_by", kinds.TEXT), Member("hold", "hold", kinds.CODE, True)),
)
LACKING = table("lacking", "", Member("record", "record", kinds.NUMBER),
                Member("digest", "digest", kinds.DIGEST), Member("what", "what", kinds.one_of(("content", "file"))))
COUNTED = (*(each.name for each in TABLES), "certificates", "contents", "files", "lacking")
"""what the office's own line counts"""
OFFICE = {"type": "object", "additionalProperties": False, "required": ["counts", "day", "form", "version"],
          "properties": {"form": {"const": NAME}, "version": {"const": VERSION}, "day": kinds.DAY.schema,
                         "counts": {"type": "object", "additionalProperties": False, "required": list(COUNTED),
                                    "properties": {name: {"type": "integer", "minimum": 0} for name in COUNTED}}}}


# ---- lines


def line_of(value: Mapping[str, Any]) -> bytes:
    """Writes an object as the only line that stands for it: members in byte order, no spaces, UTF-8."""
    return (json.dumps(value, ensure_ascii=False, sort_keys=True, separators=(",", ":")) + "\n").encode()


def value_of(line: bytes) -> dict[str, Any]:
    """Reads an object from its line. WrongLine says that another line would stand for it, or that it is none."""
    try:
        value = json.loads(line)
        if isinstance(value, dict) and line_of(value) == line:
            return value
    except (ValueError, RecursionError) as error:
        raise WrongLine(f"it is not read: {error}") from error
    raise WrongLine("it is not written as this form writes it")


def member_from(member: Member, column: Any) -> Any:
    """Returns the member that a column gives."""
    if column is None and member.is_optional:
        return None
    value = member.kind.member_of(column)
    if not member.kind.has_form(value):
        raise WrongLine(f"{member.column} is {column!r}")
    return value


def column_from(member: Member, value: Any) -> Any:
    """Returns the column that a member gives."""
    if value is None and member.is_optional:
        return None
    if not member.kind.has_form(value):
        raise WrongLine(f"{member.name} is {value!r}")
    return member.kind.column_of(value)


def object_from(parts: Sequence[Member | Group], row: Iterator[Any]) -> dict[str, Any]:
    """Returns the object that the columns of a row give."""
    value: dict[str, Any] = {}
    for part in parts:
        if isinstance(part, Member):
            value[part.name] = member_from(part, next(row))
            continue
        columns = [next(row) for _ in part.members]
        value[part.name] = None if set(columns) == {None} else object_from(part.members, iter(columns))
    return value


def columns_from(parts: Sequence[Member | Group], value: Any) -> Iterator[Any]:
    """Returns the columns that an object gives."""
    if not isinstance(value, dict) or set(value) != {part.name for part in parts}:
        raise WrongLine(f"it has not the members {', '.join(sorted(part.name for part in parts))}")
    for part in parts:
        if isinstance(part, Member):
            yield column_from(part, value[part.name])
        elif value[part.name] is None:
            yield from (None for _ in part.members)
        else:
            yield from columns_from(part.members, value[part.name])


def line_from(form: Table, row: Row) -> bytes:
    """Returns the line of a row of FILE."""
    return line_of(object_from(form.parts, iter(row)))


def row_from(form: Table, line: bytes) -> list[Any]:
    """Returns the row of FILE that a line stands for."""
    return list(columns_from(form.parts, value_of(line)))
