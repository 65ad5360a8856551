"""The lists of a morning and the catalogue, with the laws beside FILE, without them, and with damaged ones."""
from __future__ import annotations

import gzip
import hashlib
import json
import sys
import unittest.mock as mock
from pathlib import Path

from kit.commands import TOP, Done, office, run
from kit.companions import companion
from kit.judging import judge, same
from library.place import applied, library, table

sys.path[:0] = [str(TOP / "companions/registers")]

from office_lists import laws, todo  # noqa: E402

DAY = "2027-06-01"
MARGIN = "30"
READERS = {"companions/library", "companions/registers"}
"""the folders of the companions that know of the laws"""


def acts() -> list[dict[str, object]]:
    """Returns the acts of an office: two classes of a library, of which one has another rule, and one of its own."""
    day = "2020-01-02"
    rule = {"trigger": "added", "unit": "years", "count": 1, "offset": "none", "action": "destroy"}
    return [{"act": "add-schedule", "day": day, "code": "CLOSED-10Y-JAN-D", **rule, "trigger": "origin"},
            {"act": "add-schedule", "day": day, "code": "OWN", **rule},
            *({"act": "add-class", "day": day, "code": code, "title": code, "schedule": schedule}
              for code, schedule in (("BOOKS", "CLOSED-10Y-JAN-D"), ("VOUCHERS", "OWN"), ("CATS", "OWN"))),
            *({"act": "add-aggregation", "day": day, "ref": code, "title": code, "parent": None, "class": code}
              for code in ("BOOKS", "VOUCHERS", "CATS")),
            *({"act": "add-record", "day": day, "ref": f"r{at}", "title": "T", "originated": day, "aggregation": at,
               "class": None, "schedule": None, "content": ""} for at in (1, 2, 3))]


def overdue(folder: Path, name: str) -> tuple[Done, list[list[str]]]:
    """Makes the lists of a morning in a new folder, and returns how that ended, and the register."""
    (folder / name).mkdir()
    done = run(companion("office-overdue"), folder / "city.db", folder / name, DAY, MARGIN)
    return done, table((folder / name / f"overdue-{DAY}.csv").read_text())


def to_do(copy: Path, mandates: Path) -> list[str]:
    """Returns the lines of the list of what is to do that are about laws."""
    return [" ".join(line.split()) for line in todo.by_laws(copy, mandates, DAY)]


def lists(folder: Path) -> None:
    """A list of a morning shows the laws, and goes as it is if they cannot be had."""
    file, kept = folder / "city.db", laws.file_of(folder / "city.db")
    same("the name of the laws", kept.name, "city.db.mandates.json")
    same("the office", applied(file, acts()).status, 0)
    header, *rows = plain = table(office("overdue", file, DAY, MARGIN).out)
    same("three are overdue", [row[2] for row in rows], ["BOOKS", "VOUCHERS", "CATS"])
    library("add", kept, "de", "--only", "BOOKS,VOUCHERS")
    done, shown = overdue(folder, "laws")
    same("with laws", (done.status, done.error), (0, ""))
    same("the register with laws", [[*row[:-3], row[-3][:16], row[-2][:20], row[-1]] for row in shown],
         [[*header, "law", "why", "as of"], [*rows[0], "HGB § 257 Abs. 1", "Zehn Jahre ab dem Sc", "2025-01-01"],
          [*rows[1], "", "another rule than th", ""], [*rows[2], "", "no law is on file", ""]])
    data = kept.read_bytes()
    kept.write_bytes(data[:-3])
    done, cut = overdue(folder, "damaged")
    same("damaged laws", (done.status, cut), (0, plain))
    judge("that is reported", "is damaged" in done.error and "the register has no laws" in done.error, done.error)
    same("the list of what is to do ends with the laws", (folder / "city.db").exists() and run(
        companion("office-todo"), file, "-", DAY, MARGIN).out.splitlines()[-1].split(":")[0], "Laws of the classes")


def counted(folder: Path) -> None:
    """The list of what is to do counts classes without a law and old laws, and the catalogue has the laws."""
    copy, kept = folder / "copy.db", folder / "copy.db.mandates.json"
    same("the office", applied(copy, acts()).status, 0)
    same("a checkpoint", office("init", copy).status, 0)
    with mock.patch("sys.argv", [str(companion("office-todo"))]):
        same("without laws", (to_do(copy, kept), laws.entries(kept, folder)), ([], "[]\n"))
        library("add", kept, "de", "--only", "BOOKS,VOUCHERS")
        same("with laws", to_do(copy, kept), ["Classes without a law: 2", "Classes whose law is as of two years ago: 1"])
        entries = json.loads(kept.read_bytes())["classes"]
        same("the laws of a catalogue", json.loads(laws.entries(kept, folder)),
             [{"class": code, "entries": entries[code]} for code in sorted(entries)])
        kept.write_bytes(b"{}")
        same("damaged laws", (to_do(copy, kept), json.loads(laws.entries(kept, folder))),
             (["Laws of the classes: the file cannot be read: see office-library"], [{"damaged": True}]))
    with mock.patch("sys.argv", [str(folder / "office-todo")]):
        same("no office-library", json.loads(laws.entries(kept, folder)), [{"damaged": True}])


def catalogued(folder: Path) -> None:
    """A catalogue has a file of the laws if they are named."""
    copy, kept = folder / "copy.db", folder / "copy.db.mandates.json"
    same("the office", applied(copy, acts()).status, 0)
    library("add", kept, "de", "--only", "BOOKS")
    (folder / "catalogue").mkdir()
    done = run(companion("office-catalogue"), copy, folder / "catalogue", kept)
    same("a catalogue", (done.status, done.error), (0, ""))
    parts = {path.name: json.loads(gzip.decompress(path.read_bytes())) for path in (folder / "catalogue/now").glob("*.gz")}
    same("its files", len(parts), 12)
    whole = parts["mandates.json.gz"]
    same("its laws", ([row["class"] for row in whole["mandates"]], whole["moment"]), (["BOOKS"], parts["about.json.gz"]["moment"]))


def deciding(folder: Path) -> None:
    """A run is the same with laws and without, to the last byte, and no other companion knows of them."""
    day = "2024-01-01"
    run_acts = [*({"act": "confirm", "day": day, "record": at, "action": "destroy", "by": "Ada"} for at in (1, 2, 3)),
                {"act": "open-run", "day": day, "by": "Ada"}]
    sums = []
    for name in ("without", "with"):
        file = folder / f"{name}.db"
        if name == "with":
            library("add", folder / f"{name}.db.mandates.json", "de")
        answers = applied(file, [*acts(), *run_acts]).out
        certificate = [office("resume", file).out, office("certificate", file, 1).out]
        sums.append((answers, certificate, hashlib.sha256(file.read_bytes()).hexdigest()))
    judge("an office destroys the same with laws and without",
          sums[0] == sums[1] and sums[0][1][1].count("\tdestroyed\t") == 3, sums)
    folders = {"/".join(path.relative_to(TOP).parts[:2]) for path in (TOP / "companions").rglob("*")
               if path.is_file() and path.suffix != ".pyc" and b"mandates" in path.read_bytes()}
    same("who knows of the laws", folders - {"companions/README.md"}, READERS)
