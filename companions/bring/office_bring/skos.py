"""A filing plan in SKOS, as RDF in XML: each concept without narrower ones is a class.

SKOS has no element for a retention rule, and a note about one is no rule: the schedule of each class is --schedule, or
empty.
"""
from __future__ import annotations

from pathlib import Path

from office_bring import markup
from office_bring.brought import Brought
from office_bring.how import How
from office_bring.ledger import Ledger, Wrong
from office_bring.markup import Node
from office_common.errors import USAGE, Refused

UNITS = frozenset({"Concept", "Description"})


def is_concept(node: Node) -> bool:
    """Returns whether an element describes a concept."""
    types = [each.attributes.get("resource", "") for each in node.every("type")]
    return node.name == "Concept" or any(each.endswith("#Concept") for each in types)


class Concepts:
    """The concepts of a plan, which is read twice: at first for those that have narrower ones."""

    def __init__(self, how: How, brought: Brought) -> None:
        self.how, self.brought = how, brought
        self.broader: set[str] = set()
        self.count = 0

    def look(self, node: Node) -> None:
        """Notes which concepts have narrower ones."""
        self.broader |= {each.attributes.get("resource", "") for each in node.every("broader")}
        if any(node.every("narrower")):
            self.broader.add(node.attributes.get("about", ""))

    def take(self, node: Node) -> None:
        """Takes a concept as a class."""
        if not is_concept(node):
            return
        self.count += 1
        if node.attributes.get("about", "") in self.broader:
            self.brought.notes["concepts with narrower ones, which are no classes: classes have no hierarchy"] += 1
            return
        try:
            about = node.attribute("about")
            word = node.text("notation") or about.rpartition("#")[2].rpartition("/")[2]
            if not word:
                raise Wrong("it has neither a notation nor an address")
            if self.brought.codes.of(word) in self.brought.classes:
                raise Wrong(f"its code {self.brought.codes.of(word)} is that of a class above")
            self.brought.class_of(word, self.label(node), self.how.schedule)
            if not self.how.schedule:
                self.brought.look(f"{node.place()}, {word}", "SKOS has no rule: say --schedule, or write one into the sheet")
        except Wrong as wrong:
            markup.fault(node, str(wrong), self.brought.ledger)

    def label(self, node: Node) -> str:
        """Returns the label of a concept in the language that is asked for, or its only one."""
        labels = {each.attributes.get("lang", ""): each for each in node.every("prefLabel")}
        if len(labels) > 1 and self.how.language is None:
            raise Refused(USAGE, f"labels are in {' and '.join(sorted(labels))}: say --language {max(labels)}")
        wanted = self.how.language if self.how.language in labels or len(labels) > 1 else next(iter(labels), "")
        label = labels.get(wanted or "")
        if label is None:
            raise Wrong(f"it has no label in {self.how.language}" if labels else "it has no label")
        label.attribute("lang")
        return label.own()


def bring(path: Path, how: How, brought: Brought) -> None:
    """Reads a plan."""
    concepts = Concepts(how, brought)
    markup.Reader(path, UNITS, UNITS, Ledger(), concepts.look).read()
    root = markup.Reader(path, UNITS, UNITS, brought.ledger, concepts.take).read()
    if not concepts.count:
        raise Refused(USAGE, f"{path} has no concept of SKOS: its outermost element is {root}")
