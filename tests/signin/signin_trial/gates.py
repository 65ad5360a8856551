"""What the gates get: their own settings, with the people who signed in, and nothing that a table could smuggle in."""
from __future__ import annotations

import json
import pathlib
import re

from kit.commands import Done, run
from kit.judging import absent, judge, same
from signin_trial.room import GATE, HEAD, OWN, ROLES, Room, directory, session_of, tool
from signin_trial.slapd import Slapd

ID = "5f3c0d9e-8179-1041-9756-e5d9b69b7349@directory"
END = "end\n"
"""the mark below all statements of a file"""


class Gates:
    """The folder of the gates' settings, and commands that stand for systemctl."""

    def __init__(self, folder: pathlib.Path) -> None:
        self.folder, self.own, self.gates = folder, folder / "own", folder / "gates"
        self.own.mkdir(parents=True)
        self.gates.mkdir()
        (self.own / "city.access").write_text(OWN)
        self.settings, self.people, self.given = folder / "settings.toml", folder / "people.json", folder / "given"
        self.settings.write_text(HEAD + ROLES)
        self.reload = folder / "reload"
        self.reload.write_text(f"#!/bin/sh\necho \"$@\" >>{folder}/reloads\n")
        self.reload.chmod(0o755)

    def put(self, table: object) -> Done:
        """Gives the gates a table."""
        self.people.write_text(table if isinstance(table, str) else json.dumps(table))
        return self.give()

    def give(self, *more: str) -> Done:
        return tool("gates", *more, "--settings", self.settings, "--people", self.people, "--given", self.given, "--gates", self.gates,
                    "--own", self.own, "--check", f"/usr/bin/python3 -I {GATE} check", "--reload", self.reload)

    def text(self) -> str:
        """Returns the lines about people."""
        file = self.gates / "city.access"
        lines = file.read_text().partition("# ---- who signed in")[2].partition("\n")[2] if file.exists() else ""
        return lines.removesuffix(END)

    def reloads(self) -> int:
        file = self.folder / "reloads"
        return len(file.read_text().splitlines()) if file.exists() else 0


def entry(signs: str = "anna", **grants: list[str]) -> dict[str, object]:
    return {"name": "anna", "signs": signs, "groups": [], "grants": grants or {"city": ["registry"]}, "day": "2026-12-01"}


def compared(it: Gates) -> None:
    """A comparison names the gates that lack the table, and changes nothing."""
    file, own = it.gates / "city.access", it.own / "city.access"
    before, reloads, table = file.read_text(), it.reloads(), it.people.read_text()
    same("a gate that has the table", it.give("--compare")[:2], (0, ""))
    for name, path, text in (("another table", it.people, "{}"), ("other statements", own, OWN.replace("keep contents 3", "keep contents 4")),
                             ("a line that somebody wrote", file, before.replace("begin\n", "begin\nname eve is registry\n"))):
        kept = path.read_text()
        path.write_text(text)
        same(f"{name} is seen", it.give("--compare")[:2], (1, "the gate of city has other settings\n"))
        path.write_text(kept)
    file.unlink()
    same("a gate without settings is seen", it.give("--compare")[:2], (1, "the gate of city has other settings\n"))
    judge("and gets none", not file.exists())
    file.write_text(before)
    same("nothing was changed", (it.people.read_text(), it.reloads()), (table, reloads))


def gates(folder: pathlib.Path) -> None:
    it = Gates(folder / "gates")
    same("nobody yet", (it.put({}).status, it.text(), it.reloads()), (0, "", 1))
    done = it.put({ID: entry(), "b-2@directory": entry("Bert Beck", city=["records-manager", "department in BLDG*"])})
    same("two people", (done.status, it.text()), (0, (
        f"name {ID} is registry\nname {ID} signs anna\nname b-2@directory is records-manager\n"
        "name b-2@directory is department in BLDG*\nname b-2@directory signs Bert Beck\n")))
    text = (it.gates / "city.access").read_text()
    judge("the city's own statements stand before them", text.startswith(OWN.removesuffix(END)))
    judge("and the mark of the end below them", OWN.endswith(END) and text.endswith(END))
    same("the gate is told, once for each change", (it.reloads(), it.give().status, it.reloads()), (2, 0, 2))
    same("what was given is noted", len(it.given.read_text()), 64)
    compared(it)
    rights = run("/usr/bin/python3", "-I", GATE, "rights", it.gates / "city.access", "b-2@directory")
    judge("the gate knows what a person may do", "Bert Beck, roles: records-manager department" in rights.out, rights)
    unmarked(it)
    smuggled(it)
    alike(it)
    own(it)
    together(folder)


def unmarked(it: Gates) -> None:
    """A city whose file has no marks: people stand below all statements."""
    file = it.own / "city.access"
    file.write_text("".join(line for line in OWN.splitlines(True) if line not in ("begin\n", END)))
    done, text = it.give(), (it.gates / "city.access").read_text()
    judge("a file without marks has people at its end", done.status == 0 and text.endswith("signs Bert Beck\n"), done)
    file.write_text(OWN)
    same("and with marks above its end again", (it.give().status, (it.gates / "city.access").read_text()[-4:]), (0, END))


def smuggled(it: Gates) -> None:
    """A table that the service would not write: what is wrong of it is left out, and the rest counts."""
    bad = {
        "a role of no group": {ID: entry(city=["auditor"])}, "a rule": {ID: entry("anna\nrule reason-for resume")},
        "a role in a text": {ID: entry("anna # is records-manager")}, "two lines": {ID: entry(city=["registry\nname x is registry"])},
        "a name of the city": {"registrar": entry()}, "another realm": {"x@other": entry()}, "everybody": {"*": entry()},
        "a name with a space": {"x y@directory": entry()}, "a name with a line feed": {"x\n@directory": entry()},
        "a name that is too long": {"x" * 48 + "@directory": entry()}, "a text of 201 bytes": {ID: entry("a" * 201)},
        "an empty text": {ID: entry("")}, "a text that is a number": {ID: {**entry(), "signs": 7}},
        "spaces around a text": {ID: entry(" anna")}, "a tab in a text": {ID: entry("an\tna")},
        "other classes": {ID: entry(city=["department in *"])}, "a right by itself": {ID: entry(city=["resume"])},
    }
    for title, table in bad.items():
        done = it.put({**table, "c-3@directory": entry("carl")})
        same(f"{title} is left out", (done.status, it.text()),
             (0, "name c-3@directory is registry\nname c-3@directory signs carl\n"))
    before = (it.gates / "city.access").read_text()
    for title, table in (("no JSON", "{"), ("a list", "[]"), ("no person", f'{{"{ID}": 7}}'),
                         ("no grants", f'{{"{ID}": {{"signs": "a"}}}}'), ("grants that are none", {ID: {**entry(), "grants": 7}})):
        same(f"{title} changes nothing", (it.put(table).status, (it.gates / "city.access").read_text()), (3, before))
    same("roles in another office", (it.put({ID: entry(court=["registry"])}).status, it.text()), (0, ""))


def alike(it: Gates) -> None:
    """Texts that look like another's: that one person has no rights, and all others do."""
    people = {f"p-{at}@directory": entry(f"person {at}") for at in range(9)}
    done = it.put({**people, "q-1@directory": entry("Registrar"), "q-2@directory": entry("Person 3"),
                   "q-3@directory": entry("anna\u0430")})
    names = set(re.findall(r"^name (\S+) signs", it.text(), re.M))
    same("a text of the city's own, of another person, and of two scripts", (done.status, names), (0, set(people)))
    judge("each is reported", all(f"does not take {name}" in done.error for name in ("q-1", "q-2", "q-3")), done.error)


def own(it: Gates) -> None:
    """The city's own statements: wrong ones change nothing."""
    before = (it.gates / "city.access").read_text()
    file = it.own / "city.access"
    for title, text, status in (("that the gate does not take", "site x\n", 2), ("about a name of the directory", f"{OWN}name {ID} is registry\n", 2)):
        file.write_text(text)
        same(f"statements {title}", (it.give().status, (it.gates / "city.access").read_text()), (status, before))
    file.unlink()
    same("no statements", (it.give().status, (it.gates / "city.access").read_text()), (2, before))
    file.write_text(OWN)
    it.reload.write_text("#!/bin/sh\nexit 1\n")
    it.people.write_text("{}")
    noted = it.given.read_text()
    same("a gate that does not read them is an error, and not noted", (it.give().status, it.given.read_text()), (3, noted))
    same("the settings are those of before then", (it.gates / "city.access").read_text(), before)
    it.reload.write_text(f"#!/bin/sh\necho again >>{it.folder}/reloads\n")
    count = it.reloads()
    same("and the next call has the gate read the new ones", (it.give().status, it.text(), it.reloads()), (0, "", count + 1))


def together(folder: pathlib.Path) -> None:
    """From the directory to the gate: who signs in has the rights of the groups."""
    slapd = Slapd(folder / "slapd")
    it = Gates(folder / "whole")
    room = Room(folder / "room", HEAD + directory(slapd, folder / "room") + ROLES)
    room.gives = False
    try:
        room.start()
        room.sign_in("bert")
        done = tool("gates", "--settings", room.file, "--people", room.state / "people.json", "--given", room.given, "--gates", it.gates,
                    "--own", it.own, "--check", f"/usr/bin/python3 -I {GATE} check", "--reload", it.reload)
        same("the table of the service is taken", done.status, 0)
        who = room.who(session_of(room.sign_in("bert"))).line("Office-Name")
        rights = run("/usr/bin/python3", "-I", GATE, "rights", it.gates / "city.access", who).out
        judge("bert has the role of his group, and signs as bert", f"{who} signs as bert, roles: records-manager" in rights, rights)
        absent("carl is nowhere", it.text(), ["carl"])
    finally:
        room.stop()
        slapd.stop()
