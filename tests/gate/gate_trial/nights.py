"""What is looked at each night, and what a replay leaves that fails: nothing."""
import os
import pathlib
import subprocess
import threading
import time

from gate_trial.base import SETTINGS, filing, plan
from kit.judging import judge, same
from gate_trial.world import JOURNAL, OFFICE, PYTHON, TOP, World, today

BACKUP = TOP / "companions/copies/office-backup"
HOLD = {"act": "place-hold", "reason": "r"}
PRINTS = '#!/bin/sh\necho "$@" > {folder}/asked\ncat {log}\n'


def tried(folder: pathlib.Path) -> None:
    world = World(folder, SETTINGS)
    for name in ("copies", "work", "bin"):
        (folder / name).mkdir()
    world.start_office()
    world.start_gate()
    same("the plan", world.act("records-manager", *plan())[0], 200)
    few(world)
    work(world)
    copied(world, "02T023000", acting=True)
    agree(world)
    heads(world)
    failing(world)
    contents(world)
    past(world)
    broken(world)
    world.end()


def copied(world: World, night: str, acting: bool = False) -> pathlib.Path:
    """Takes a copy as the backup of a night does, while acts go on if there are to be any."""
    stop, number = threading.Event(), 0

    def act() -> None:
        nonlocal number
        while not stop.is_set():
            number += 1
            world.act("legal", {**HOLD, "code": f"N{number}"}, {**HOLD, "code": f"M{number}"})

    thread = threading.Thread(target=act)
    if acting:
        thread.start()
        time.sleep(0.5)
    place = world.folder / "copies" / f"202601{night}Z.db"
    done = subprocess.run([BACKUP, world.file, place], capture_output=True, text=True, check=False)
    judge("the copy is taken", done.returncode == 0, done.stderr)
    if acting:
        time.sleep(0.5)
        stop.set()
        thread.join()
        judge("acts went on", number > 3, number)
    return place


def nightly(world: World, *more: object) -> tuple[int, str]:
    """Does what the timer does, with a journal of systemd that is this trial's log."""
    words = [PYTHON, "-I", JOURNAL, "nightly", world.journal, "--state", world.state, "--work", world.folder / "work",
             "--copies", world.folder / "copies", *more]
    done = subprocess.run(list(map(str, words)), capture_output=True, text=True, check=False,
                          env=os.environ | {"PATH": f"{world.folder / 'bin'}:{os.environ['PATH']}"})
    same("no file of it stays but the head", {it.name for it in (world.folder / "work").iterdir()} - {"head"}, set())
    return done.returncode, done.stdout + done.stderr


def few(world: World) -> None:
    """Before there are two copies nothing is replayed, which is no failure."""
    for count in range(2):
        # as a check leaves it that was cut off
        (world.folder / "work/.office-journal-x").mkdir()
        status, said = nightly(world)
        judge(f"with {count} copies", status == 0 and f"copies in {world.folder / 'copies'}: {count}. Nothing" in said, said)
        if count == 0:
            copied(world, "01T023000")
    (world.folder / "copies/other.db").write_bytes(b"no copy")


def work(world: World) -> None:
    world.act("registry", *(filing(it, 1 + it % 2, b"content %d" % it) for it in range(3, 8)))
    world.act("records-manager", *({"act": "confirm", "record": it, "action": "destroy"} for it in range(1, 4)))
    world.act("records-manager", {"act": "open-run"})
    same("a run", world.ask("records-manager", "POST", "/run/resume", b"")[0], 200)


def agree(world: World) -> None:
    """The acts between two copies give the second one, though acts went on as it was taken, and since."""
    status, said = nightly(world)
    judge("the copies and the journal agree", status == 0 and "differences: 0" in said and "lines: " in said, said)
    judge("the head of the journal is kept for the seals",
          f"head {(world.folder / 'work/head').read_text().strip()}, heads compared" in said, said)
    judge("all acts between are done once more", int(said.split("requests: ")[1].split(",")[0]) > 4, said)


def heads(world: World) -> None:
    """The heads of the service come out of the journal of systemd. Without them it says so."""
    program = world.folder / "bin/journalctl"
    log = world.folder / "systemd"
    log.write_text((world.folder / "log").read_text())
    program.write_text(PRINTS.format(folder=world.folder, log=log))
    program.chmod(0o755)
    # without copies this takes no replay
    unit = ("--unit", "office-gate@city", "--copies", world.folder / "bin")
    status, said = nightly(world, *unit)
    count = log.read_text().count("office-gate: head ")
    judge("heads are compared", status == 0 and count and f"heads compared: {count}, not met: 0" in said, said)
    judge("those of the unit", "--unit=office-gate@city" in (world.folder / "asked").read_text())
    log.write_text(f"office-gate: head 2:{'0' * 64}\n")
    status, said = nightly(world, *unit)
    judge("one that does not fit fails", status == 1 and "line 2 is another" in said, said)
    log.write_text("")
    status, said = nightly(world, *unit)
    judge("without heads it says so", status == 0 and "no heads of office-gate@city" in said, said)
    program.unlink()


def replayed(world: World, *more: object) -> tuple[int, str, list[str]]:
    """Replays from the first copy into a folder of its own, and returns what is in that afterwards."""
    place = world.folder / "made"
    place.mkdir(exist_ok=True)
    (place / "x.db").unlink(missing_ok=True)
    words = [PYTHON, "-I", JOURNAL, "replay", world.journal, first(world), place / "x.db", "--state", world.state, *more]
    done = subprocess.run(list(map(str, words)), capture_output=True, text=True, check=False)
    return done.returncode, done.stdout + done.stderr, sorted(it.name for it in place.iterdir())


def first(world: World) -> pathlib.Path:
    return min((world.folder / "copies").glob("2*.db"))


def failing(world: World) -> None:
    """A replay that fails leaves no file, and takes no name of another."""
    kept = world.state / "contents"
    kept.rename(world.state / "away")
    status, said, there = replayed(world)
    judge("a replay that fails leaves nothing", (status, there) == (1, []) and "is no longer there" in said, (said, there))
    (world.state / "away").rename(kept)
    words = [PYTHON, "-I", JOURNAL, "replay", world.journal, first(world), first(world), "--state", world.state]
    done = subprocess.run(list(map(str, words)), capture_output=True, text=True, check=False)
    same("nor does it write over a file", done.returncode, 2)


def contents(world: World) -> None:
    """Contents that the gate removed are taken from an office that has them still."""
    world.act("registry", filing(20, 1, b"since the last copy"))
    before = world.folder / "office.db.before"
    world.stop_gate()
    world.stop_office()
    subprocess.run([OFFICE, "init", world.file], check=True, stdout=subprocess.DEVNULL)
    before.write_bytes(world.file.read_bytes())
    kept = world.state / "contents"
    kept.rename(world.state / "away")
    kept.mkdir()
    last = max((world.folder / "copies").glob("2*.db"))
    words = [PYTHON, "-I", JOURNAL, "replay", world.journal, last, world.folder / "made/y.db", "--state", world.state]
    done = subprocess.run(list(map(str, words)), capture_output=True, text=True, check=False)
    judge("without the contents", done.returncode == 1 and "is no longer there" in done.stderr, done.stderr)
    done = subprocess.run(list(map(str, [*words, "--contents", before])), capture_output=True, text=True, check=False)
    judge("with those of the file of before", done.returncode == 0, done.stderr)
    same("a replay leaves its file alone", [it.name for it in (world.folder / "made").iterdir()], ["y.db"])
    query = "SELECT count(*) FROM records WHERE ref = 'r20'"
    seen = subprocess.run(["sqlite3", world.folder / "made/y.db", query], capture_output=True, text=True, check=True).stdout
    same("the record is there", seen.strip(), "1")
    kept.rmdir()
    (world.state / "away").rename(kept)
    world.start_office()
    world.start_gate()


def past(world: World) -> None:
    """An act past the gate fails the night after, by the row of it. The night after that is as it should be."""
    world.direct("POST", "/acts", f'[{{"act":"place-hold","day":"{today()}","code":"PAST","reason":"r","by":"x"}}]'.encode())
    # a copy of an hour later is none of a night
    copied(world, "03T023000")
    copied(world, "03T033000")
    status, said = nightly(world)
    judge("an act past the gate", status == 1 and "differs: holds code PAST" in said, said)
    last = max((world.folder / "copies").glob("2*.db"))
    status, said, there = replayed(world, "--beside", last)
    judge("a replay that differs leaves nothing", status == 1 and there == ["y.db"], (said[-300:], there))
    same("the next night", (copied(world, "04T023000").exists(), nightly(world)[0]), (True, 0))


def broken(world: World) -> None:
    """A journal whose beginning is gone fails, and so does a replay on a copy that is older than that."""
    world.stop_gate()
    lines = world.journal.read_bytes().splitlines(keepends=True)
    world.journal.write_bytes(b"".join(lines[-6:]))
    status, said = nightly(world)
    judge("a beginning that is gone", status == 1 and "are not here" in said, said)
    status, said, there = replayed(world)
    judge("a replay from before it", status == 1 and "after the copy was made" in said and there == ["y.db"], said)
    world.journal.write_bytes(b"".join(lines))
    world.start_gate()
