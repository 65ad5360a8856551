"""XML as other systems export it: without document types and entities, and of bounded depth, size and count.

Each text of an element and each attribute is a part of the source. An object of the source, such as a file with all that
is in it, is read as a tree and given to the reader of its kind. Then what nobody read is counted as lost, and the tree
goes, so memory is bounded by the largest object.
"""
from __future__ import annotations

from collections.abc import Callable, Iterator
from pathlib import Path
from typing import NoReturn
from xml.parsers import expat

from office_bring.ledger import Ledger
from office_common.errors import USAGE, Refused

MOST_BYTES = 2 * 1024**3
MOST_DEPTH = 64
MOST_NODES = 1_000_000
"""elements in one object"""
MOST_TEXT = 1024 * 1024
"""letters in one element, or in its attributes"""
CHUNK = 65_536


class Node:
    """An element: its name without a namespace, its attributes, its text and the elements in it."""

    __slots__ = ("name", "line", "attributes", "children", "pieces", "is_read", "is_wrong", "read_attributes")

    def __init__(self, name: str, line: int, attributes: dict[str, str]) -> None:
        self.name, self.line, self.attributes = name, line, attributes
        self.children: list[Node] = []
        self.pieces: list[str] = []
        self.is_read = self.is_wrong = False
        self.read_attributes: set[str] = set()

    def place(self) -> str:
        return f"line {self.line}"

    def own(self) -> str:
        """Returns the text of the element itself, which goes into a sheet."""
        self.is_read = True
        return "".join(self.pieces).strip()

    def every(self, name: str) -> Iterator[Node]:
        """Gives the elements of a name directly in this one."""
        return (child for child in self.children if child.name == name)

    def first(self, *path: str) -> Node | None:
        """Returns the first element at a path, or None."""
        node: Node | None = self
        for name in path:
            node = next(node.every(name), None) if node is not None else None
        return node

    def text(self, *path: str) -> str:
        """Returns the text at a path, which goes into a sheet, or an empty one."""
        node = self.first(*path)
        return node.own() if node is not None else ""

    def attribute(self, name: str) -> str:
        """Returns an attribute, which goes into a sheet, or an empty text."""
        self.read_attributes.add(name)
        return self.attributes.get(name, "").strip()

    def parts(self) -> int:
        """Counts the parts of the element and of all in it."""
        return sum(bool("".join(node.pieces).strip()) + len(node.attributes) for node in self.walk())

    def walk(self) -> Iterator[Node]:
        """Gives the element and all in it, but for what is wrong already."""
        waiting = [self]
        while waiting:
            node = waiting.pop()
            yield node
            waiting.extend(child for child in node.children if not child.is_wrong)


def fault(node: Node, reason: str, ledger: Ledger) -> None:
    """Counts an element and all in it as wrong."""
    ledger.fault(f"{node.place()}, {node.name}", reason, node.parts())
    node.is_wrong = True


def settle(node: Node, ledger: Ledger, objects: frozenset[str], name: str = "") -> None:
    """Counts the parts of an element and of all in it, by the nearest object that they are in."""
    waiting = [(node, name)]
    while waiting:
        each, around = waiting.pop()
        if each.is_wrong:
            continue
        own = each.name if each.name in objects or not around else f"{around}/{each.name}"
        if "".join(each.pieces).strip():
            if each.is_read:
                ledger.take()
            else:
                ledger.lose(own)
        for attribute in each.attributes:
            if attribute in each.read_attributes:
                ledger.take()
            else:
                ledger.lose(f"{own}@{attribute}")
        waiting.extend((child, own) for child in each.children)


def local_names(attributes: dict[str, str]) -> dict[str, str]:
    """Returns the attributes that have a value, by their names without namespaces if these are not alike."""
    local: dict[str, str] = {}
    for key, value in attributes.items():
        name = key.rpartition(" ")[2]
        if value.strip():
            local[key if name in local else name] = value
    return local


class Reader:
    """Reads a file of XML, and hands each object over once its end is there."""

    def __init__(self, path: Path, units: frozenset[str], objects: frozenset[str], ledger: Ledger,
                 take: Callable[[Node], None]) -> None:
        self.path, self.units, self.objects, self.ledger, self.take = path, units, objects, ledger, take
        self.open: list[Node] = []
        self.unit = -1
        self.nodes = self.letters = 0
        self.root = ""
        self.parser = expat.ParserCreate(namespace_separator=" ")
        self.parser.buffer_text = True
        self.parser.StartElementHandler = self.start
        self.parser.EndElementHandler = self.end
        self.parser.CharacterDataHandler = self.text
        self.parser.StartDoctypeDeclHandler = self.doctype
        self.parser.EntityDeclHandler = self.doctype

    def refuse(self, text: str) -> NoReturn:
        """Ends the command: the file is none that can be read."""
        raise Refused(USAGE, f"{self.path}, line {self.parser.CurrentLineNumber}: {text}")

    def doctype(self, *_: object) -> None:
        self.refuse("it has a document type, and so may have entities: no export of these systems has one")

    def start(self, name: str, attributes: dict[str, str]) -> None:
        """Begins an element."""
        if len(self.open) >= MOST_DEPTH:
            self.refuse(f"elements are more than {MOST_DEPTH} deep")
        self.nodes += 1
        self.letters = 0
        if self.nodes > MOST_NODES:
            self.refuse(f"one object has more than {MOST_NODES:,} elements")
        if sum(map(len, attributes.values())) > MOST_TEXT:
            self.refuse(f"an element has more than {MOST_TEXT:,} letters")
        node = Node(name.rpartition(" ")[2], self.parser.CurrentLineNumber, local_names(attributes))
        if not self.open:
            self.root = node.name
        elif self.unit >= 0:
            self.open[-1].children.append(node)
        if self.unit < 0 and node.name in self.units:
            self.unit = len(self.open)
        self.open.append(node)

    def text(self, text: str) -> None:
        """Adds a text to the element that is open."""
        self.letters += len(text)
        if self.letters > MOST_TEXT:
            self.refuse(f"an element has more than {MOST_TEXT:,} letters")
        self.open[-1].pieces.append(text)

    def end(self, _: str) -> None:
        """Ends an element: an object is handed over, and what is in none is lost."""
        node = self.open.pop()
        self.letters = 0
        if self.unit == len(self.open):
            self.unit = -1
            self.nodes = 0
            self.take(node)
            settle(node, self.ledger, self.objects)
        elif self.unit < 0:
            around = "/".join(each.name for each in self.open)
            node.children = []
            settle(node, self.ledger, self.objects, around)

    def read(self) -> str:
        """Reads the whole file, and returns the name of its outermost element."""
        size = 0
        try:
            with self.path.open("rb") as file:
                while data := file.read(CHUNK):
                    size += len(data)
                    if size > MOST_BYTES:
                        self.refuse(f"it has more than {MOST_BYTES:,} bytes: bring it in parts")
                    self.parser.Parse(data, False)
                self.parser.Parse(b"", True)
        except expat.ExpatError as error:
            raise Refused(USAGE, f"{self.path}, line {error.lineno}: it is no whole XML: {expat.ErrorString(error.code)}") from None
        except (LookupError, ValueError) as error:
            if self.root:
                raise
            raise Refused(USAGE, f"{self.path}: its encoding is not read: {error}") from None
        return self.root
