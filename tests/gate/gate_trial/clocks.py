"""A clock that jumps: no act by it and no content removed, until it is right, synchronised, or said to be right.

The gate runs with libfaketime, which shows it another time than the machine has. Whether the machine keeps its clock
right says a library of this trial, in the place of the system.
"""
import datetime
import os
import pathlib
import re
import subprocess
import time

from gate_trial.base import SETTINGS, filing, plan
from kit.judging import judge, same
from gate_trial.world import GATE, JOURNAL, OFFICE, PYTHON, TOP, World, today
from kit.units import text_of

FAKETIME = "/usr/lib/x86_64-linux-gnu/faketime/libfaketime.so.1"
KEPT = """#include <stdlib.h>
int adjtimex(void *all) { return getenv("CLOCK_IS_KEPT") ? 0 : 5; }
"""
HOLD = {"act": "place-hold", "reason": "r"}
AFTER = "\nrole late may place-hold later-day\nname late is late\n"


def tried(folder: pathlib.Path) -> None:
    allowed()
    world = World(folder, SETTINGS + AFTER)
    clock = Fake(world)
    world.start_office()
    world.start_gate()
    same("the plan", world.act("records-manager", *plan())[0], 200)
    ahead(world, clock)
    behind(world, clock)
    said_right(world, clock)
    synchronised(world, clock)
    stopped(world, clock)
    lost(world, clock)
    closed(world, clock, 400)
    world.end()


def allowed() -> None:
    """The unit lets the gate ask whether the clock is synchronised."""
    unit = TOP / "companions/gate/units/office-gate@.service"
    code = f"import sys; sys.path[:0] = {[str(JOURNAL.parent), str(JOURNAL.parents[1])]}\nfrom office_gate import clock\n" \
           "clock.TIMESYNCD = None\nprint(clock.is_synchronised())"
    for what, words in (("without the unit", []), ("in the unit", [TOP / "tests/unit_filter.py", unit])):
        done = subprocess.run([*words, PYTHON, "-I", "-c", code], capture_output=True, text=True, check=False)
        judge(f"it can be asked {what}", done.stdout in ("True\n", "False\n"), done.stderr)
    protected = re.findall("^ProtectClock=(.*)$", text_of(unit), re.MULTILINE)
    judge("no other line of the unit forbids it", protected[-1:] == ["no"], protected)


class Fake:
    """The clock of the gate: so many seconds from that of the machine, and whether the system keeps it right."""

    def __init__(self, world: World) -> None:
        self.place, library = world.folder / "clock.txt", world.folder / "kept.so"
        subprocess.run(["gcc", "-shared", "-fPIC", "-o", library, "-xc", "-"], input=KEPT, text=True, check=True)
        self.world = world
        world.more = {"LD_PRELOAD": f"{library} {FAKETIME}", "FAKETIME_TIMESTAMP_FILE": str(self.place),
                      "FAKETIME_NO_CACHE": "1", "FAKETIME_DONT_FAKE_MONOTONIC": "1", "DONT_FAKE_MONOTONIC": "1"}
        self.set(0)

    def set(self, seconds: float) -> None:
        new = self.place.with_name("clock.new")
        new.write_text(f"{seconds:+.0f}\n")
        new.rename(self.place)

    def is_kept(self, is_kept: bool) -> None:
        """Says, from the next start of the gate on, whether the system keeps the clock right."""
        self.world.more.pop("CLOCK_IS_KEPT", None)
        if is_kept:
            self.world.more["CLOCK_IS_KEPT"] = "1"

    def restart(self) -> None:
        self.world.stop_gate()
        self.world.start_gate()


def log(world: World) -> str:
    return (world.folder / "log").read_text()


def place(world: World, code: str, day: int = 0) -> tuple[int, object]:
    return world.act("legal", {**HOLD, "code": code, "day": today(day)})


def contents(world: World) -> set[str]:
    return {it.name for it in (world.state / "contents").iterdir()}


def refusing(world: World, what: str) -> None:
    """Whatever acts is refused, and says why; readings go on; the monitor sees it."""
    same(f"{what}: an act", place(world, "NEVER"), (503, {"error": "clock"}))
    same(f"{what}: a run", world.ask("records-manager", "POST", "/run/resume", b""), (503, b'{"error":"clock"}'))
    same(f"{what}: a reading", world.ask("auditor", "GET", "/records/1")[0], 200)
    same(f"{what}: the monitor", world.get("monitor", "/alive"), (503, {"error": "clock"}))
    same(f"{what}: the journal has the act", world.last("refused")["answer"], {"error": "clock"})
    same(f"{what}: and that the clock is not believed", world.last("clock")["believed"], False)
    same(f"{what}: the contents stay", {today(-1), today()} - contents(world), set())


def acting(world: World, what: str, code: str, day: int = 0) -> None:
    same(f"{what}: an act", place(world, code, day), (200, [{"done": True}]))
    same(f"{what}: the monitor", world.ask("monitor", "GET", "/alive")[0], 200)


def ahead(world: World, clock: Fake) -> None:
    """A clock ahead by more than 36 hours, while the gate runs, in one step or in several."""
    (world.state / "contents" / today(-1)).write_bytes(b"of yesterday")
    same("a record of today", world.act("registry", filing(3, 1))[0], 200)
    acting(world, "the clock as it is", "ASIS")
    for days in (5, 400):
        clock.set(days * 86400)
        refusing(world, f"{days} days ahead")
    same("it says so once, with what to do", log(world).count("no act is done and no content removed"), 1)
    judge("and how to go on", f"office-gate clock-is-right {world.state}" in log(world), log(world)[-400:])
    clock.restart()
    refusing(world, "after a start")
    clock.set(0)
    acting(world, "right again", "RIGHT")
    same("the journal says so", world.last("clock")["believed"], True)
    clock.set(20 * 3600)
    acting(world, "20 hours ahead", "HOURS")
    clock.set(40 * 3600)
    refusing(world, "20 hours more")
    clock.restart()
    refusing(world, "20 hours more, after a start")
    clock.set(0)


def behind(world: World, clock: Fake) -> None:
    """A clock that goes back by more than five minutes."""
    acting(world, "right again", "BACK0")
    clock.set(-240)
    acting(world, "four minutes back", "BACK1")
    clock.set(-900)
    refusing(world, "a quarter of an hour back")
    clock.restart()
    refusing(world, "a quarter of an hour back, after a start")
    clock.set(0)
    acting(world, "right again after that", "BACK2")


def right(state: pathlib.Path, seconds: float = 0) -> tuple[int, str]:
    """Says that the clock is right, as it is with so many seconds more."""
    fake = {"LD_PRELOAD": FAKETIME, "FAKETIME": f"{seconds:+.0f}", "FAKETIME_DONT_FAKE_MONOTONIC": "1",
            "DONT_FAKE_MONOTONIC": "1"} if seconds else {}
    done = subprocess.run([PYTHON, "-I", GATE, "clock-is-right", str(state)], capture_output=True, text=True,
                          check=False, env=os.environ | fake)
    return done.returncode, done.stdout + done.stderr


def said_right(world: World, clock: Fake) -> None:
    """A person says that the clock is right: the gate goes by it, and notes that."""
    clock.set(-900)
    refusing(world, "back")
    status, said = right(world.state, -900)
    judge("a person says that it is right", status == 0 and "goes by it" in said, said)
    acting(world, "as somebody said", "SAID")
    same("the journal has it", (world.last("clock")["believed"], world.last("clock")["why"]),
         (True, "somebody said that it is right"))
    clock.restart()
    acting(world, "after a start too", "SAID2")
    clock.set(90 * 86400)
    refusing(world, "three months later")
    right(world.state)
    refusing(world, "as the word was about another time")
    judge("no folder", right(world.folder / "none")[0] == 2, right(world.folder / "none"))
    clock.set(0)
    acting(world, "the word was about this time", "SAID3")


def synchronised(world: World, clock: Fake) -> None:
    """A clock that the system keeps right is believed, however long the machine was off."""
    world.stop_gate()
    clock.is_kept(True)
    # as after some days off: the last moment is long ago
    (world.state / "clock").write_text(f"{time.time() - 7 * 86400:.3f} {time.clock_gettime(time.CLOCK_BOOTTIME):.3f}\n")
    world.start_gate()
    acting(world, "a week off, and synchronised", "KEPT")
    clock.is_kept(False)
    clock.restart()
    acting(world, "synchronised no more", "KEPT2")


def stopped(world: World, clock: Fake) -> None:
    """The machine was off: a night is believed, a week is not. What it counted since its start is."""
    counted = time.clock_gettime(time.CLOCK_BOOTTIME)
    (world.state / "clock-is-right").unlink(missing_ok=True)
    for what, off, was, passes in (("a night off", 14 * 3600, counted + 999, True), ("a week off", 7 * 86400, counted + 999, False),
                                   ("a week in which it counted", 7 * 86400, counted - 7 * 86400, True)):
        world.stop_gate()
        (world.state / "clock").write_text(f"{time.time() - off:.3f} {was:.3f}\n")
        world.start_gate()
        (acting(world, what, "OFF" + str(int(was))[:9] + str(off)[:3]) if passes else refusing(world, what))
    right(world.state)
    acting(world, "a week off, and said to be right", "OFF")


def lost(world: World, clock: Fake) -> None:
    """Without its file, or with one that is none, the gate goes by the last line of the journal."""
    for at, data in enumerate((None, "", "0 0 0", "\0" * 40, "yesterday")):
        world.stop_gate()
        (world.state / "clock").unlink()
        if data is not None:
            (world.state / "clock").write_text(data)
        world.start_gate()
        acting(world, f"{data!r} in the place of its file", f"LOST{at}")
        world.stop_gate()
        (world.state / "clock").unlink()
        clock.set(5 * 86400)
        world.start_gate()
        refusing(world, f"{data!r}, and 5 days ahead")
        world.stop_gate()
        clock.set(0)
        # the lines of the clock that was ahead are in the journal: only the file knows which moment was believed
        world.start_gate()
        acting(world, f"{data!r}, and right again", f"LOST{at}B")


def closed(world: World, clock: Fake, days: int) -> None:
    """A future day is taken all the same: the monitor sees it, and the way out of the page makes it undone."""
    acting(world, f"before {days}", f"PRE{days}")
    copy = world.folder / f"copy{days}.db"
    subprocess.run([TOP / "companions/copies/office-backup", world.file, copy], check=True, capture_output=True)
    time.sleep(1)
    same("a record since", world.act("registry", filing(1000 + days, 1, b"since"))[0], 200)
    time.sleep(1)
    until = datetime.datetime.now(datetime.UTC).isoformat()
    time.sleep(1)
    same("a day of then", world.act("late", {**HOLD, "code": f"LATE{days}", "day": today(days)})[0], 200)
    same("no act of today is done", place(world, f"TODAY{days}"), (409, [{"refused": 1}]))
    same("the monitor", world.get("monitor", "/alive"), (503, {"error": "day"}))
    clock.restart()
    same("the monitor after a start", world.get("monitor", "/alive"), (503, {"error": "day"}))
    # the page: the line with the first such day, and the one before it
    found = subprocess.run(f"grep -h -m 1 -B 1 '\"day\":\"{today(days)}\"' {world.journal} | grep -o '\"at\":\"[^\"]*' | head -n 1",
                           shell=True, capture_output=True, text=True, check=True).stdout.removeprefix('"at":"').strip()
    judge("the page's command gives a moment before it", found and found < until, (found, until))
    world.stop_gate()
    world.stop_office()
    subprocess.run([OFFICE, "init", world.file], check=True, stdout=subprocess.DEVNULL)
    new = world.folder / f"new{days}.db"
    done = subprocess.run([PYTHON, "-I", JOURNAL, "replay", world.journal, copy, new, "--state", world.state, "--until", found],
                          capture_output=True, text=True, check=False)
    judge("the acts before it are done once more", done.returncode == 0, done.stdout + done.stderr)
    words = [TOP / "companions/copies/office-restore", world.file, new]
    done = subprocess.run(words, capture_output=True, text=True, check=False)
    if done.returncode == 1:
        done = subprocess.run([words[0], "--since-was-read", *words[1:]], capture_output=True, text=True, check=False)
    judge("the file is restored", done.returncode == 0, done.stdout + done.stderr)
    world.start_office()
    world.start_gate()
    same("an act of today", place(world, f"AGAIN{days}"), (200, [{"done": True}]))
    same("the monitor then", world.ask("monitor", "GET", "/alive")[0], 200)
    same("the record since is there", world.get("auditor", "/records/4")[1]["ref"], f"r{1000 + days}")
    judge("the chain holds", world.check().returncode == 0, world.check().stderr)
