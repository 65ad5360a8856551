"""A PUT and a sweep are stopped at each of their lines: killed, or made to wait while an object is put again."""
import collections
import hashlib
import io
import os
import pathlib
import shutil
import signal
import threading

from vault_trial import forked
from kit.judging import judge
from vault_trial.standin import StandIn
from vault_trial.world import free_port

from office_common import manifest
from office_vault.objects import Vault

DATA = {name: name.encode() * 1000 for name in ("named", "shared", "due", "late", "young", "grace", "damaged")}
DIGESTS = {name: hashlib.sha256(data).hexdigest() for name, data in DATA.items()}
STAY = {"named", "shared", "late", "young", "grace"}
STEP = int(os.environ.get("STEP", "1"))


def put(vault: Vault, name: str) -> bool:
    return vault.receive(DIGESTS[name], len(DATA[name]), io.BytesIO(DATA[name]).read)


class Template:
    """A vault of which a run ended one record of three that name objects; a sweep saw what is due a grace ago."""

    def __init__(self, folder: pathlib.Path) -> None:
        self.folder, self.again = folder / "vault", folder / "again"
        self.wrong: list[str] = []
        self.stops = 0
        self.office = StandIn(free_port())
        self.office.start()
        vault = Vault.make(self.folder)
        for name in ("named", "shared", "due", "late"):
            put(vault, name)
        self.file("K", "named")
        first = self.file("D", "shared", "due")
        second = self.file("T", "shared", "late")
        self.file("D", "late")
        self.sweep(vault, 1000)
        self.office.end(first)
        # what was sent and is not received has its content
        self.office.records[second].status = "sent"
        self.sweep(vault, 1100)
        put(vault, "young")
        self.sweep(vault, 1150)
        put(vault, "grace")
        self.stamps = {it: it.stat().st_mtime_ns for it in self.folder.glob("objects/*/*")}

    def is_over(self) -> bool:
        """Whether the trial may end: a mistake that was planted is seen."""
        return bool(self.wrong) and "FIRST" in os.environ

    def file(self, kind: str, *names: str) -> int:
        text = manifest.text_of([manifest.Named(DIGESTS[it], len(DATA[it]), it) for it in names])
        return self.office.add(kind, text.encode(), {DIGESTS[it] for it in names})

    def words(self, vault: Vault) -> list[str]:
        return ["sweep", str(vault.folder), f"http://127.0.0.1:{self.office.port}", "--grace", "100", "--many"]

    def sweep(self, vault: Vault, at: float) -> None:
        done = forked.run(self.words(vault), now=at)
        if done.returncode:
            self.wrong.append(f"sweep at {at}: {done.returncode} {done.stderr}")

    def fresh(self) -> Vault:
        """The vault as it was: its objects are links to those of the template, whose stamps are put back first."""
        vault = Vault.make(self.again)
        for old in [*self.again.glob("objects/*/*"), *self.again.glob("state.db*"), *vault.going.iterdir(),
                    *vault.reports.iterdir()]:
            old.unlink()
        for path, stamp in self.stamps.items():
            os.utime(path, ns=(stamp, stamp))
            os.link(path, self.again / path.relative_to(self.folder))
        for path in [self.folder / "state.db", *self.folder.glob("reports/*")]:
            shutil.copy2(path, self.again / path.relative_to(self.folder))
        for name in ("damaged", "named"):
            path = vault.path(DIGESTS[name])
            if path.exists():
                # a file of its own, since the trial writes into it
                path.unlink()
                shutil.copy2(self.folder / path.relative_to(self.again), path)
        return vault

    def look(self, what: str, vault: Vault, reported: collections.Counter[str]) -> None:
        """All stays that must, nothing else is there, and what went was reported once."""
        found = {name for name, digest in DIGESTS.items() if vault.path(digest).exists()}
        wanted = STAY | ({"due"} if "wait" in what else set())
        if found != wanted:
            self.wrong.append(f"{what}: {sorted(found)} are there, and not {sorted(wanted)}")
        for name in found:
            if vault.path(DIGESTS[name]).read_bytes() != DATA[name]:
                self.wrong.append(f"{what}: {name} has other bytes")
        rows = [row.split("\t") for path in vault.reports.glob("sweep-*.txt") for row in path.read_text().splitlines()]
        gone = collections.Counter(name for row in rows if row[0] == "OBJECT" for name in DIGESTS
                                   if row[1] == DIGESTS[name])
        kept = sum(row[:3] == ["BY-RECORD", DIGESTS["shared"], "2"] for row in rows)
        if kept != 1 or gone != reported:
            self.wrong.append(f"{what}: {dict(gone)} are reported, and not {dict(reported)}; kept {kept} times")
        left = [it.name for it in vault.going.iterdir()] + vault.strangers() + list(vault.work.iterdir())
        if left:
            self.wrong.append(f"{what}: {left} are left")


def killed_sweeps(it: Template, lines: int) -> None:
    for line in range(1, lines + 1, STEP):
        if it.is_over():
            return
        vault = it.fresh()
        done = forked.run(it.words(vault), now=1200, stop=f"kill:{line}")
        if done.returncode != -signal.SIGKILL:
            it.wrong.append(f"sweep, line {line}: {done.returncode} {done.stderr}")
        it.sweep(vault, 1200)
        it.look(f"sweep killed at {line}", vault, collections.Counter(due=1))
        it.stops += 1


def waiting_sweeps(it: Template, first: int, lines: int) -> None:
    for line in range(first, lines + 1, STEP):
        if it.is_over():
            return
        vault = it.fresh()
        child = forked.Child(it.words(vault), dict(os.environ), 1200, f"wait:{line}")
        child.waits()
        was_there = vault.path(DIGESTS["due"]).exists()
        putting = threading.Thread(target=put, args=(vault, "due"))
        putting.start()
        putting.join(0.05)
        is_held = putting.is_alive()
        child.tell()
        putting.join()
        child.wait()
        went = not was_there or is_held and any(DIGESTS["due"] in path.read_text() for path in vault.reports.iterdir())
        gone = collections.Counter(due=1) if went else collections.Counter()
        it.look(f"sweep that waited at {line}", vault, gone)
        # it has a new stamp: a sweep of the same moment leaves it
        it.sweep(vault, 1200)
        it.look(f"sweep after one that waited at {line}", vault, gone)
        it.stops += 1


def killed_puts(it: Template) -> None:
    for name, before in (("damaged", None), ("named", None), ("damaged", b"x")):
        file = it.folder.parent / name
        file.write_bytes(DATA[name])
        for line in range(1, 400, STEP):
            if it.is_over():
                return
            vault = it.fresh()
            path = vault.path(DIGESTS[name])
            if before is not None:
                path.write_bytes(before)
            done = forked.run(["put", vault.folder, file, "--reserve", "0"], stop=f"kill:{line}")
            data = path.read_bytes() if path.exists() else None
            if data not in (DATA[name], before) and not (data is None and before is None and name == "damaged"):
                it.wrong.append(f"PUT of {name} killed at {line}: {data and len(data)} bytes")
            put(vault, name)
            if path.read_bytes() != DATA[name]:
                it.wrong.append(f"PUT of {name} after one killed at {line} has other bytes")
            vault.clear()
            if vault.strangers():
                it.wrong.append(f"PUT of {name} killed at {line}: {vault.strangers()} left")
            if done.returncode == 0:
                break
            it.stops += 1


def tried(folder: pathlib.Path) -> None:
    folder.mkdir(parents=True)
    it = Template(folder)
    try:
        vault = it.fresh()
        lines = forked.run(it.words(vault), now=1200, stop="count").lines
        it.look("a whole sweep", vault, collections.Counter(due=1))
        killed_puts(it)
        # the lines before these list the objects and ask the office
        waiting_sweeps(it, max(1, lines - 400), lines)
        killed_sweeps(it, lines)
    finally:
        it.office.stop()
    print(f"{it.stops} stops, {len(it.wrong)} differences; a sweep has {lines} lines", flush=True)
    judge("lines", not it.wrong, it.wrong[:5])
