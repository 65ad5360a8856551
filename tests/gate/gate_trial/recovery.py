"""A copy and the journal since make the office of now; what was done past the gate shows."""
import datetime
import pathlib
import shutil
import subprocess
import threading
import time

from gate_trial.base import SETTINGS, filing, plan
from kit.judging import judge, same
from gate_trial.world import JOURNAL, OFFICE, PYTHON, TOP, World, today

BACKUP = TOP / "companions/copies/office-backup"


def tried(folder: pathlib.Path) -> None:
    world = World(folder, SETTINGS)
    world.start_office()
    world.start_gate()
    same("the plan", world.act("records-manager", *plan())[0], 200)
    copy = copied(world)
    moment = datetime.datetime.now(datetime.UTC).isoformat()
    work(world)
    unread(world)
    now = closed(world)
    same("the copy and the journal are the office of now", replayed(world, copy, "--beside", now)[0], 0)
    until(world, copy, moment)
    lost(world, copy, now)
    past(world, copy)
    world.end()


def copied(world: World) -> pathlib.Path:
    """Takes a copy by office-backup while acts go on."""
    stop = threading.Event()

    def act() -> None:
        number = 0
        while not stop.is_set():
            number += 1
            world.act("legal", {"act": "place-hold", "code": f"BEFORE-{number}", "reason": "r"})

    thread = threading.Thread(target=act)
    thread.start()
    time.sleep(0.5)
    place = world.folder / "copy.db"
    done = subprocess.run([BACKUP, world.file, place], capture_output=True, text=True, check=False)
    time.sleep(0.5)
    stop.set()
    thread.join()
    judge("the copy is taken", done.returncode == 0, done.stderr)
    return place


def work(world: World) -> None:
    """A day's work: records with contents, decisions, a run."""
    world.act("registry", *(filing(it, 1 + it % 2, b"content %d" % it) for it in range(3, 30)))
    world.act("legal", {"act": "place-hold", "code": "LAW", "reason": "r"},
              {"act": "hold-on", "hold": "LAW", "target": "record:5"})
    world.act("records-manager", *({"act": "confirm", "record": it, "action": "destroy"} for it in range(1, 12)))
    world.act("records-manager", {"act": "open-run"}, {"act": "run-step"})
    same("a run", world.ask("records-manager", "POST", "/run/resume", b"")[0], 200)
    world.act("legal", {"act": "lift-hold", "hold": "LAW"})
    world.act("registry", {"act": "add-aggregation", "ref": "last", "title": "last", "class": "PER1"})


def unread(world: World) -> None:
    """Kills the gate while lists are at the office that it does not read, or of which it refuses all: they did nothing."""
    for at, acts in enumerate(([{"act": "lift-hold", "hold": 5}], [{"act": "place-hold", "code": "H", "reason": "r" * 5000}],
                               [{"act": "place-hold", "code": "UNREAD", "reason": "r"}, {"act": "lift-hold"}],
                               [{"act": "place-hold", "code": "STRANGE", "reason": "r", "strange": "no act has this"}],
                               [{"act": "lift-hold", "hold": "NONE"}], [{"act": "place-hold", "code": "READ", "reason": "r"}])):
        world.cut_off("legal", *acts)
        same(f"list {at}: nobody knows", world.last("answered")["known"], False)
        same(f"list {at}: the next act", world.act("legal", {"act": "place-hold", "code": f"NEXT{at}", "reason": "r"})[0], 200)


def closed(world: World) -> pathlib.Path:
    """Closes the office, as its service does, and returns a copy of its file."""
    world.stop_office()
    subprocess.run([OFFICE, "init", world.file], check=True, stdout=subprocess.DEVNULL)
    place = world.folder / "now.db"
    shutil.copyfile(world.file, place)
    return place


def replayed(world: World, copy: pathlib.Path, *more: object) -> tuple[int, str]:
    new = world.folder / "new.db"
    new.unlink(missing_ok=True)
    done = subprocess.run([PYTHON, "-I", JOURNAL, "replay", world.journal, copy, new, "--state", world.state,
                           *map(str, more)],
                          capture_output=True, text=True, check=False)
    return done.returncode, done.stdout + done.stderr


def until(world: World, copy: pathlib.Path, moment: str) -> None:
    """An end before the day's work leaves all of it out."""
    status, said = replayed(world, copy, "--until", moment)
    query = "SELECT (SELECT count(*) FROM records) || ' ' || (SELECT count(*) FROM runs)"
    found = subprocess.run(["sqlite3", world.folder / "new.db", query], capture_output=True, text=True, check=True)
    same("until a moment", (status, found.stdout.strip()), (0, "2 0"))
    judge("nothing of it stays", not [*world.folder.glob(".office-journal-*")], said)
    status, said = replayed(world, copy, "--until", "yesterday")
    judge("no moment", status == 2 and "'yesterday'" in said, said)


def lost(world: World, copy: pathlib.Path, now: pathlib.Path) -> None:
    """Contents that are no longer there are named; those that the newer copy has are taken of it."""
    kept = world.state / "contents"
    kept.rename(world.state / "away")
    status, said = replayed(world, copy)
    judge("without the contents it says which", status == 1 and "is no longer there" in said and "SHA-256" in said,
          said)
    (world.state / "away").rename(kept)
    status, said = replayed(world, now)
    judge("a copy from after all of it needs nothing", status == 0 and said.startswith("requests: 0"), said)


def past(world: World, copy: pathlib.Path) -> None:
    """An act past the gate shows, in an answer after it or in a row."""
    world.start_office()
    world.direct("POST", "/acts", f'[{{"act":"lift-hold","day":"{today()}","hold":"BEFORE-1"}}]'.encode())
    now = closed(world)
    status, said = replayed(world, copy, "--beside", now)
    judge("a lift past the gate", status == 1 and "differs: holds code BEFORE-1" in said, said)
    world.start_office()
    status, found = world.act("legal", {"act": "lift-hold", "hold": "BEFORE-1"})
    same("the gate's lift is refused after it", (status, found), (409, [{"refused": 12}]))
    closed(world)
    status, said = replayed(world, copy)
    judge("that answer shows it too", status == 1 and "was answered, and now" in said, said)
    world.start_office()
