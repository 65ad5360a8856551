"""A file that records of two classes name: sweep and check report it, and it stays until the last of them ends."""
import contextlib
import pathlib
import sqlite3

from vault_trial.expected import GRACE
from kit.judging import judge, same
from vault_trial.standin import StandIn
from vault_trial.world import World, free_port


def reported(it: World) -> list[list[str]]:
    """Sweeps, and returns what the report says of files that several classes name."""
    it.model.now += 1
    it.sweep()
    newest = max((it.vault / "reports").iterdir())
    rows = [line.split("\t") for line in newest.read_text().splitlines()]
    count = next(int(row[0].split()[1]) for row in rows if row[0].startswith("SHARED "))
    found = [row[1:] for row in rows if row[0] == "IN-CLASSES"]
    same("the count is that of the lines", count, len(found))
    return found


def checked(it: World, place: object) -> list[str]:
    done = it.run("check", it.vault, place, "--quick")
    same("a file of two classes is nothing wrong", done.returncode, 0)
    return [line for line in done.stdout.splitlines() if "is named in the classes" in line]


def swept(it: World) -> None:
    """From sweep to sweep."""
    name = it.note(b"of two classes" * 99)
    it.put(name)
    first = [it.file("D", [name]), it.file("D", [name])]
    same("two records of one class", (reported(it), checked(it, it.place())), ([], []))
    last = it.file("K", [name])
    line = f"object {name} is named in the classes D K"
    same("one of another class", (reported(it), checked(it, it.place())), ([[name, "D", "K"]], [line]))
    same("the next sweep has no news of it", (reported(it), checked(it, it.place())), ([], [line]))
    it.office.records[last].kind = "T"
    same("another class of one", reported(it), [[name, "D", "T"]])
    it.office.end(first[0])
    same("one of them ends", reported(it), [])
    it.office.end(first[1])
    same("the other of that class ends", (reported(it), checked(it, it.place())), ([], []))
    for _ in range(2):
        it.model.now += GRACE
        it.sweep()
    judge("the file stays as long as a record of the other class names it", name in it.there())
    it.office.end(last)
    for _ in range(2):
        it.model.now += GRACE + 1
        it.sweep()
    judge("then it goes", name not in it.there())


def older(it: World) -> None:
    """A memory of sweeps that has no classes yet gets them."""
    name = it.note(b"noted before" * 99)
    it.put(name)
    it.file("D", [name])
    it.file("K", [name])
    same("both are new", reported(it), [[name, "D", "K"]])
    with contextlib.closing(sqlite3.connect(it.vault / "state.db")) as tables:
        tables.executescript("ALTER TABLE naming DROP COLUMN class; DROP TABLE shared;")
    same("a vault of before", reported(it), [[name, "D", "K"]])


def by_program(folder: pathlib.Path) -> None:
    """The program's own answers and its FILE name the same classes, inherited ones too."""
    with World(folder, 8) as it:
        name = it.note(b"real" * 99)
        it.put(name)
        it.file("D", [name])
        act = it.office.filing("K", it.manifest([name]))
        del act["class"]
        same("a record whose class is that of its file", it.office.act(act), [{"number": 2}])
        wanted = [f"object {name} is named in the classes D K"]
        same("served", checked(it, f"http://127.0.0.1:{it.office.port}"), wanted)
        same("in a copy", checked(it, it.office.file), wanted)


def tried(folder: pathlib.Path) -> None:
    with World(folder / "a", 8, StandIn(free_port())) as it:
        swept(it)
    with World(folder / "b", 8, StandIn(free_port())) as it:
        older(it)
    by_program(folder / "c")
