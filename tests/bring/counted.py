"""The parts of sources, counted by other readers of CSV, XML and folders."""
from __future__ import annotations

import csv
import random
from pathlib import Path
from xml.etree import ElementTree

import compared
import systems
from kit.judging import judge, same

LOST = {"share": ["owner and rights of an entry"], "plan": ["column Sperrvermerk", "headings, since classes have no hierarchy"],
        "xdomea": ["Akte/Identifikation/ID", "Akte/AllgemeineMetadaten/Medium@listVersionID", "Dokument/Version/Nummer"],
        "m365-labels": ["column IsRecordLabel", "column ReviewerEmail", "comments of labels"],
        "sharepoint": ["column Author", "the day modified, from which no period runs"],
        "trim": ["column Author", "the day on which a container was registered"],
        "grs": ["column Disposition Authority"], "skos": ["Concept/prefLabel", "Concept/prefLabel@lang"],
        "alfresco": ["content/properties/name", "dispositionSchedule/properties/dispositionAuthority", "recordFolder@childName"]}
"""some of what is lost of each source, by its names"""


def cells_of(path: Path) -> int:
    """Counts the cells below the header of a table that are not empty."""
    with path.open(encoding="utf-16" if path.suffix == ".tsv" else "utf-8-sig", newline="") as file:
        separator = "\t" if path.suffix == ".tsv" else ";" if file.readline().count(";") > 2 else ","
        file.seek(0)
        return sum(bool(cell.strip()) for row in list(csv.reader(file, delimiter=separator))[1:] for cell in row)


def parts_of(path: Path) -> int:
    """Counts the texts and attributes of XML by another reader."""
    if path.is_dir():
        return 2 * sum(1 for _ in path.rglob("*"))
    if path.suffix in (".csv", ".tsv"):
        return cells_of(path)
    return sum(bool("".join([each.text or "", *(child.tail or "" for child in each)]).strip())
               + sum(bool(value.strip()) for value in each.attrib.values()) for each in ElementTree.parse(path).iter())


def counts_in(error: str) -> list[int]:
    """Returns the counts of the last line: all parts, those taken, lost and wrong."""
    return [int(part) for part in error.splitlines()[-1].split() if part.isdecimal()]


def sums(folder: Path) -> None:
    """Each part of a source is counted once: in a sheet, lost, or wrong."""
    for system in systems.ALL:
        for seed in range(3 * compared.SEEDS):
            place, rng = folder / f"{id(system)}-{seed}", random.Random(seed)
            place.mkdir()
            for source in system.write(place, system.model(rng), rng):
                done = compared.brought(place, source)
                whole, *parts = counts_in(done.error)
                same(f"{source.kind} {seed}: parts", (whole, sum(parts)), (parts_of(source.path), whole))
                lost = {row["part"]: int(row["count"]) for row in compared.rows_in(place / f"out-{source.kind}/lost.csv")}
                same(f"{source.kind} {seed}: lost parts are listed", sum(lost.values()), parts[1])
                same(f"{source.kind} {seed}: lost parts have names", [name for name in LOST[source.kind] if name not in lost], [])
                judge(f"{source.kind} {seed}: something is taken", parts[0] > 0, is_quiet=True)
