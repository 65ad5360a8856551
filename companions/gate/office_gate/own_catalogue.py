"""The catalogue of a name that is limited to classes: what of the whole one lies in these, made once and kept."""
import asyncio
import datetime
import gzip
import hashlib
import json
import shutil
from collections import Counter
from collections.abc import Callable, Iterator
from pathlib import Path
from typing import Any

from office_common.catalogue import FAILURES, data_of
from office_gate.access import Person
from office_gate.body import Json
from office_gate.catalogue import Aggregations
from office_gate.errors import Answered

PARTS = ("about", "schedules", "classes", "aggregations", "holds", "records", "details", "receipts", "todo")
"""what such a name gets: runs lie in no class"""
STATUSES = ("here", "sent", "received", "ended")
LEVEL = 4
Row = Any
"""a row of a part, as JSON has it"""


def limits_of(person: Person) -> str:
    """Names the classes of a name, so that names with the same classes share what is made."""
    limits = sorted(str(it.limits) + str(it.sent) for it in person.grants if it.word == "read catalogue")
    return hashlib.sha256(repr(limits).encode()).hexdigest()[:32]


class Part:
    """One file of the whole catalogue."""

    def __init__(self, folder: Path, name: str) -> None:
        self.text = data_of(folder / f"{name}.json.gz").decode()
        mark = f'"{name}":['
        self.begins = self.text.index(mark) + len(mark)
        self.moment = json.loads(self.text[:self.begins] + "]}")["moment"]

    def rows(self) -> Iterator[tuple[Row, str]]:
        """Gives each row, and how it was written."""
        decoder, at = json.JSONDecoder(), self.begins
        while True:
            while self.text[at] in ", \n":
                at += 1
            if self.text[at] == "]":
                return
            row, end = decoder.raw_decode(self.text, at)
            yield row, self.text[at:end]
            at = end

    def all(self) -> list[Row]:
        return [row for row, _ in self.rows()]


class Making:
    """One making of the files: what is kept, and the places of codes among those that are."""

    def __init__(self, whole: Path, covers: Callable[[str | None], bool], known: Aggregations,
                 moved: set[str]) -> None:
        self.whole, self.covers, self.known, self.moved = whole, covers, known, moved
        self.numbers = set[int]()
        self.counts: dict[int, Counter[str]] = {}
        self.files: dict[str, list[str]] = {}

    def part(self, name: str) -> Part:
        return Part(self.whole, name)

    def is_moved(self, aggregation: int) -> bool:
        """Returns whether an aggregation, or one that it lies in, may have another class than the catalogue says."""
        return any(f"aggregation:{it}" in self.moved for it in self.known.chain(aggregation))

    def has(self, aggregation: int | None) -> bool:
        """Returns whether an aggregation is of the name's classes."""
        return aggregation is not None and self.covers(self.known.class_of(aggregation)) \
            and not self.is_moved(aggregation)

    def make(self) -> tuple[str, dict[str, list[str]]]:
        """Returns the moment of the catalogue, and the rows of each file."""
        classes = self.part("classes")
        codes = [it["code"] for it in classes.all()]
        columns = self.part("details").all()
        places = self.records([codes[it] if it is not None else None for it in columns[2]])
        kept = [[column[at] for at in places] for column in columns]
        self.codes("classes", kept[2], self.covers)
        ruled = {json.loads(it)["schedule"] for it in self.files["classes"]}
        self.codes("schedules", kept[3], lambda code: code in ruled)
        self.aggregations()
        self.holds(kept[6] if len(kept) > 6 else [])
        self.files["details"] = [json.dumps(it, separators=(",", ":")) for it in kept]
        self.todo()
        self.files["receipts"] = [text for row, text in self.part("receipts").rows() if row[0] in self.numbers]
        self.about()
        return classes.moment, self.files

    def records(self, classes: list[str | None]) -> list[int]:
        """Takes the records of the name's classes, and returns their places."""
        places, texts = list[int](), list[str]()
        for at, (row, text) in enumerate(self.part("records").rows()):
            number, aggregation, status = row[0], row[3], row[4]
            if not self.covers(classes[at]) or f"record:{number}" in self.moved or self.is_moved(aggregation):
                continue
            # of what was sent or ended the class is that of its last run, and its file may have another one since
            if status != "here" and not self.covers(self.known.class_of(aggregation)):
                continue
            places.append(at)
            texts.append(text)
            self.numbers.add(number)
            self.counts.setdefault(aggregation, Counter())[status] += 1
        self.files["records"] = texts
        return places

    def codes(self, name: str, column: list[int | None], wanted: Callable[[str], bool]) -> None:
        """Takes the codes that are wanted, or that a record has, and puts their new places into a column."""
        used, new, texts = set(column), dict[int, int](), list[str]()
        for at, (row, text) in enumerate(self.part(name).rows()):
            if at in used or wanted(row["code"]):
                new[at] = len(texts)
                texts.append(text)
        self.files[name] = texts
        column[:] = [None if it is None else new[it] for it in column]

    def aggregations(self) -> None:
        """Takes the files of the name's classes, with counts of its records; and the file above if that is one."""
        texts = []
        for row, _ in self.part("aggregations").rows():
            if self.has(row["number"]):
                counts = self.counts.get(row["number"], Counter())
                row |= {it: counts[it] for it in STATUSES}
                row["parent"] = row["parent"] if self.has(row["parent"]) else None
                texts.append(written(row))
        self.files["aggregations"] = texts

    def is_own(self, target: str) -> bool:
        kind, _, name = target.partition(":")
        if kind == "class":
            return self.covers(name)
        return int(name) in self.numbers if kind == "record" else self.has(int(name))

    def holds(self, column: list[int | None]) -> None:
        """Takes the holds on something of the name's classes, with these targets alone."""
        used, new, texts = set(column), dict[int, int](), list[str]()
        for at, (row, _) in enumerate(self.part("holds").rows()):
            row["targets"] = list(filter(self.is_own, row["targets"]))
            if at in used or row["targets"]:
                new[at] = len(texts)
                texts.append(written(row))
        self.files["holds"] = texts
        column[:] = [None if it is None else new[it] for it in column]

    def todo(self) -> None:
        row = self.part("todo").all()[0]
        kept = {"sent": [it for it in row["sent"] if it[0] in self.numbers],
                "received": [it for it in row["received"] if it in self.numbers],
                "waiting": [it for it in row["waiting"] if self.covers(it["class"])],
                "idle": [it for it in row["idle"] if self.has(it[0])]}
        self.files["todo"] = [written(kept)]

    def about(self) -> None:
        names = ("schedules", "classes", "aggregations", "holds", "records")
        day = self.part("about").all()[0]["day"]
        self.files["about"] = [written({"day": day} | {it: len(self.files[it]) for it in names})]


def written(row: Json) -> str:
    return json.dumps(row, separators=(",", ":"), ensure_ascii=False)


class OwnCatalogues:
    """A folder with what was made: one folder for each set of classes, of the newest catalogue alone."""

    def __init__(self, folder: Path) -> None:
        self.folder, self.making = folder, asyncio.Lock()

    async def file(self, name: str, person: Person, whole: Path, known: tuple[Aggregations, int, set[str]]) -> bytes:
        """Returns a file of a name's own catalogue, compressed. It is made anew once a class was given since."""
        aggregations, line, moved = known
        mark = f"{whole.name}+{line}"
        place = self.folder / limits_of(person) / mark
        async with self.making:
            if not place.is_dir():
                making = Making(whole, lambda code: code is not None and person.may_in("read catalogue", code),
                                aggregations, moved)
                try:
                    await asyncio.to_thread(self.make, making, place)
                except (*FAILURES, IndexError) as error:
                    # an older program made less of a catalogue, or a newer one is being put in its place
                    raise Answered(404, "path") from error
            return await asyncio.to_thread((place / f"{name}.json.gz").read_bytes)

    def make(self, making: Making, place: Path) -> None:
        moment, files = making.make()
        new = place.parent / "new"
        shutil.rmtree(new, ignore_errors=True)
        new.mkdir(parents=True)
        for name, texts in files.items():
            rows = ",\n".join(texts)
            data = f'{{"moment":"{moment}","{name}":[\n{rows}\n]}}\n'.encode()
            (new / f"{name}.json.gz").write_bytes(gzip.compress(data, LEVEL))
        for old in [it for it in place.parent.iterdir() if it != new]:
            shutil.rmtree(old, ignore_errors=True)
        new.rename(place)
        self.tidy(place.parent)

    def tidy(self, kept: Path) -> None:
        """Removes what no name has asked for in a day, as of names whose classes were changed."""
        now = datetime.datetime.now().timestamp()
        for folder in self.folder.iterdir():
            if folder != kept and now - folder.stat().st_mtime > 86400:
                shutil.rmtree(folder, ignore_errors=True)
