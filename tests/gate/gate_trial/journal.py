"""The chain of the journal: what was changed, cut or added is found; stops, rotations and a full disk break nothing."""
import json
import pathlib
import resource
import signal
import subprocess
import sys
import threading
from collections import Counter
from collections.abc import Callable
from functools import partial

from gate_trial.base import SETTINGS, filing, made
from kit.judging import judge, same
from gate_trial.world import JOURNAL, PYTHON, World, until

sys.path[:0] = [str(JOURNAL.parent), str(JOURNAL.parent.parent)]

from office_gate import chain, checking  # noqa: E402
from office_gate.errors import Refused  # noqa: E402

EACH = 20
"""so many requests of each client at least"""
LEAST_TURNS = 3
"""so many rotations at least meanwhile"""
MOST = 500
"""so many requests of each client at most, if no rotation comes"""


def tried(folder: pathlib.Path) -> None:
    world = made(folder)
    for at in range(12):
        world.act("legal", {"act": "place-hold", "code": f"H{at}", "reason": "r"})
        world.ask("auditor", "GET", "/records/1")
    world.stop_gate()
    forged(world)
    torn(world)
    rotated(world)
    beside(world)
    alone(world)
    full(world)
    cut_again(world)
    other_settings(world)
    before_the_first(world)
    readings(world)
    world.end()


def quick(place: pathlib.Path, *heads: str) -> tuple[int, str]:
    """Checks as the command does, without starting it."""
    try:
        found = checking.check(chain.files_of(place), checking.heads_in(" ".join(heads)))
    except Refused as refused:
        return refused.status, str(refused)
    return 0, f"head {found.head}"


def check(place: pathlib.Path, *more: str) -> tuple[int, str]:
    """Checks by the command."""
    done = subprocess.run([PYTHON, "-I", JOURNAL, "check", place, *more], capture_output=True, text=True, check=False)
    return done.returncode, done.stdout + done.stderr


def forged(world: World) -> None:
    """What somebody does to the lines is found, with the place of it."""
    lines = world.journal.read_bytes().splitlines(keepends=True)
    place = world.folder / "forged/journal"
    place.parent.mkdir()
    heads = [f"{at}:{chain.digest(it[:-1])}" for at, it in enumerate(lines, 1)]

    def with_lines(what: str, other: list[bytes], word: str, *more: str) -> None:
        place.write_bytes(b"".join(other))
        status, said = quick(place, *more)
        judge(f"{what}: status 1", status == 1 and word in said, (status, said))

    place.write_bytes(b"".join(lines))
    same("the journal itself", check(place)[0], 0)
    for at in range(len(lines) - 1):
        changed = lines[at].replace(b'"at":"2', b'"at":"3')
        with_lines(f"line {at + 1} changed", [*lines[:at], changed, *lines[at + 1:]], f"line {at + 1} was changed")
        if at:
            with_lines(f"line {at + 1} cut out", [*lines[:at], *lines[at + 1:]], "lines were cut out")
        with_lines(f"line {at + 1} twice", [*lines[:at], lines[at], *lines[at:]], "a line was added or moved")
        with_lines(f"lines {at + 1} and {at + 2} changed over",
                   [*lines[:at], lines[at + 1], lines[at], *lines[at + 2:]], "line")
        with_lines(f"something after line {at + 1}", [*lines[:at + 1], b"something\n", *lines[at + 1:]], "other bytes")
    # who writes all lines anew from some line on leaves a chain that holds: heads that were written down find it
    anew, head = lines[:6], chain.Head(6, chain.digest(lines[5][:-1]))
    for data in lines[7:]:
        entry = json.loads(data)
        line, head = chain.linked({name: it for name, it in entry.items() if name not in ("before", "line")}, head)
        anew.append(line)
    place.write_bytes(b"".join(anew))
    same("all written anew, without heads", check(place)[0], 0)
    with_lines("all written anew", anew, "somebody wrote the journal anew", heads[9])
    with_lines("the end cut", lines[:-3], "its end was cut", heads[-1])
    same("the command says so too", check(place, "--head", heads[-1])[0], 1)
    place.write_bytes(b"".join(lines))
    told = world.folder / "heads"
    told.write_text((world.folder / "log").read_text() + "\n" + "\n".join(heads))
    status, said = check(place, "--heads", str(told))
    judge("with the heads of the service and of the answers", status == 0 and f"heads compared: {len(heads)}" in said,
          said)


def torn(world: World) -> None:
    """What a stop in the middle of a line leaves is named by the next line."""
    whole = world.journal.read_bytes()
    for rest in (b'{"before":"00', b"x", b'{"before":"' + b"0" * 64 + b'","line":99'):
        with world.journal.open("ab") as file:
            file.write(rest)
        world.start_gate()
        line = stop_and_read(world, 1)
        same(f"the next line tells of {len(rest)} bytes", line.get("torn"), chain.torn(rest))
        same("the chain holds", check(world.journal)[0], 0)
        data = world.journal.read_bytes()
        place = world.folder / "forged/journal"
        for other in (data.replace(rest + b"\n", rest + b"y\n", 1), data.replace(b"\n" + rest + b"\n", b"\n", 1)):
            place.write_bytes(other)
            same("what was left is changed", check(place)[0], 1 if other != data else 0)
    # a line that lacks its end alone is a line
    world.journal.write_bytes(whole[:-1])
    world.start_gate()
    line = stop_and_read(world, 1)
    judge("a line without its end", "torn" not in line and check(world.journal)[0] == 0, line)


def rotated(world: World) -> None:
    """The chain goes on in a new file, also after a start, and after two rotations of one day."""
    world.start_gate()
    for name in ("journal-20260101", "journal-20260102"):
        rotate(world, name)
        same("an act after a rotation", world.act("legal", {"act": "lift-hold", "hold": "NONE"})[0], 409)
        same("the chain holds", check(world.journal)[0], 0)
    judge("the new file begins in the middle", json.loads(world.journal.read_bytes().split(b"\n")[0])["line"] > 20)
    world.stop_gate()
    world.journal.rename(world.folder / "journal-20260103")
    world.start_gate()
    world.stop_gate()
    status, said = check(world.journal)
    judge("the chain goes on from an older file", status == 0 and "from line 1," in said, said)
    middle = world.folder / "journal-20260102"
    data = middle.read_bytes()
    middle.unlink()
    judge("a file that is missing is found", check(world.journal)[0] == 1)
    middle.write_bytes(data)
    oldest = world.folder / "journal-20260101"
    oldest.rename(world.folder / "put-away")
    status, said = check(world.journal)
    judge("the oldest one missing is found", status == 1 and "are not here" in said, said)
    last = f"{whole_in(world.folder / 'put-away')[-1]['line']}:{whole_in(middle)[0]['before']}"
    same("the others hold after its head", check(world.journal, "--from", last)[0], 0)
    (world.folder / "put-away").rename(oldest)
    begun(world)


def begun(world: World) -> None:
    """A stop in the middle of the first line of a new file, or of what is left in the file before: the chain goes on."""
    for at, (old, new) in enumerate(((b"", b'{"before":"00'), (b"xy", b""), (b"xy\n", b"z"), (b"x\ny", b"z\n"))):
        with world.journal.open("ab") as file:
            file.write(old)
        number = whole_lines(world)[-1]["line"]
        world.journal.rename(world.folder / f"journal-2026011{at}")
        world.journal.write_bytes(new)
        world.start_gate()
        line = stop_and_read(world, 1)
        same(f"{old!r} and {new!r}: the next line", line["line"], number + 1)
        pieces = [it for part in (old, new) if part for it in part.removesuffix(b"\n").split(b"\n")]
        same(f"{old!r} and {new!r}: what it tells", line["torn"], chain.torn(b"\n".join(pieces)))
        same(f"{old!r} and {new!r}: the chain holds", check(world.journal)[0], 0)


class Beside:
    """Clients that read, act and file at once, while somebody rotates the journal."""

    def __init__(self, world: World) -> None:
        self.world, self.turns = world, 0
        # what each request was, and its status
        self.done: list[tuple[str, int]] = []
        kinds: list[tuple[str, Callable[[int], int]]] = []
        for at in (1, 2):
            kinds += [("read", partial(self.read, at)), ("read", partial(self.read, at)), ("act", partial(self.place, at)),
                      ("file", partial(self.file, at))]
        self.threads = [threading.Thread(target=self.run, args=kind) for kind in kinds]

    def read(self, at: int, _: int) -> int:
        return self.world.ask("auditor", "GET", f"/records/{at}")[0]

    def place(self, at: int, count: int) -> int:
        return self.world.act("legal", {"act": "place-hold", "code": f"B{at}-{count}", "reason": "r"})[0]

    def file(self, at: int, count: int) -> int:
        return self.world.act("records-manager", filing(1000 * at + count, 1, b"z" * 9000))[0]

    def run(self, what: str, ask: Callable[[int], int]) -> None:
        """Sends requests until there were enough of them, and of rotations."""
        count = 0
        while count < EACH or self.turns < LEAST_TURNS and count < MOST:
            self.done.append((what, ask(count)))
            count += 1

    def is_going(self) -> bool:
        return any(thread.is_alive() for thread in self.threads)

    def rotate(self) -> None:
        """Rotates the journal once some requests are done, and waits until the gate goes on in a new file."""
        wanted = len(self.done) + 12
        until(lambda: len(self.done) >= wanted or not self.is_going())
        rotate(self.world, f"journal-202602{self.turns:04d}")
        self.turns += 1


def rotate(world: World, name: str) -> None:
    world.journal.rename(world.folder / name)
    world.gate.send_signal(signal.SIGHUP)
    judge("the gate goes on in a new file", until(world.journal.exists))


def beside(world: World) -> None:
    """Readings, acts, contents, rotations: all at once they leave one chain, with each of them in it."""
    world.start_gate()
    clients = Beside(world)
    for thread in clients.threads:
        thread.start()
    while clients.is_going():
        clients.rotate()
    for thread in clients.threads:
        thread.join()
    seen, turns = Counter(clients.done), clients.turns
    same("each was answered", sorted(seen), [("act", 200), ("file", 200), ("read", 200)])
    judge("there were enough of each kind", seen["read", 200] >= 4 * EACH and min(seen.values()) >= 2 * EACH, seen)
    world.stop_gate()
    status, text = check(world.journal)
    judge(f"the chain holds over {turns} rotations", status == 0 and "from line 1," in text and turns >= LEAST_TURNS,
          (turns, text))
    lines = [line for path in [*world.folder.glob("journal-202602*"), world.journal] for line in whole_in(path)]
    count = Counter(line["request"].split("/")[1] for line in lines if line["what"] in ("asked", "read"))
    same("lines of readings and acts", (count["records"], count["acts"]),
         (seen["read", 200], seen["act", 200] + seen["file", 200]))


def alone(world: World) -> None:
    """One gate alone writes a journal."""
    world.start_gate()
    other = subprocess.run([*world.words()[:-4], "--socket", str(world.folder / "other")], capture_output=True,
                           text=True,
                           check=False, timeout=60)
    judge("a second gate does not start", other.returncode == 3 and "another process writes" in other.stderr,
          other.stderr)
    same("the first one goes on", world.ask("auditor", "GET", "/records/1")[0], 200)


def full(world: World) -> None:
    """If the disk does not take a line, nothing is done; once it does, all goes on."""
    before = sum(it["what"] == "asked" for it in world.lines())
    room = world.journal.stat().st_size + 300
    resource.prlimit(world.gate.pid, resource.RLIMIT_FSIZE, (room, resource.RLIM_INFINITY))
    found = [world.act("legal", {"act": "place-hold", "code": f"FULL{it}", "reason": "r" * 100}) for it in range(4)]
    same("acts while the disk is full", {(status, said["error"]) for status, said in found}, {(503, "journal")})
    same("a reading", world.ask("auditor", "GET", "/records/1")[0], 503)
    same("a monitor sees it", world.ask("monitor", "GET", "/alive")[0], 503)
    resource.prlimit(world.gate.pid, resource.RLIMIT_FSIZE, (resource.RLIM_INFINITY, resource.RLIM_INFINITY))
    status, said = world.act("legal", {"act": "place-hold", "code": "FULL0", "reason": "r"})
    same("with room it goes on, and nothing was done before", (status, said), (200, [{"done": True}]))
    same("a monitor sees that", world.ask("monitor", "GET", "/alive")[0], 200)
    same("the chain holds", check(world.journal), (0, check(world.journal)[1]))
    lines = whole_lines(world)
    judge("only what was done was asked for", sum(it["what"] == "asked" for it in lines) == before + 1)
    judge("a line tells what the disk did not take", any("torn" in it for it in lines))
    # the same of a reading, whose line the disk takes in part
    count = len(lines)
    resource.prlimit(world.gate.pid, resource.RLIMIT_FSIZE, (world.journal.stat().st_size + 100, resource.RLIM_INFINITY))
    same("readings while the disk is full", {world.ask("auditor", "GET", "/records/1") for _ in range(3)},
         {(503, b'{"error":"journal"}')})
    same("and an act", world.act("legal", {"act": "lift-hold", "hold": "NONE"}), (503, {"error": "journal"}))
    resource.prlimit(world.gate.pid, resource.RLIMIT_FSIZE, (resource.RLIM_INFINITY, resource.RLIM_INFINITY))
    same("with room it reads", world.ask("auditor", "GET", "/records/1")[0], 200)
    lines = whole_lines(world)[count:]
    same("the line of that, which tells what is before it", [(it["what"], it.get("torn", {}).get("bytes")) for it in lines],
         [("read", 100)])
    same("the chain holds over that", check(world.journal)[0], 0)


def at_most(world: World, size: int) -> None:
    """Lets the gate write no file beyond so many bytes."""
    resource.prlimit(world.gate.pid, resource.RLIMIT_FSIZE, (size, resource.RLIM_INFINITY))


def cut_again(world: World) -> None:
    """A disk that takes some bytes now and then: each rest is kept, and the first whole line tells of all of it."""
    hold = {"act": "place-hold", "code": "CUT", "reason": "r"}
    for kill in (False, True):
        begins = world.journal.stat().st_size
        for more in (100, 1, 60, 2, 90):
            at_most(world, world.journal.stat().st_size + more)
            same(f"an act with room for {more} bytes", world.act("legal", hold), (503, {"error": "journal"}))
            same(f"a reading with room for {more} bytes", world.ask("auditor", "GET", "/records/1")[0], 503)
        rest = world.journal.read_bytes()[begins:]
        judge("there is more than one rest", rest.count(b"\n") > 2, rest)
        if kill:
            world.stop_gate(signal.SIGKILL)
            world.start_gate()
        at_most(world, resource.RLIM_INFINITY)
        status, _ = world.act("legal", {**hold, "code": f"CUT{kill}"})
        same("with room it is done", status, 200)
        told = [it["torn"] for it in whole_lines(world) if "torn" in it][-1]
        same("the line tells of all that is before it", told, chain.torn(rest.removesuffix(b"\n")))
        same("the chain holds over that", check(world.journal)[0], 0)


def other_settings(world: World) -> None:
    """Other settings on a full disk: the journal has them before anything that is decided by them."""
    # the gate's log is shorter than the journal, so that the disk still takes its lines
    while world.journal.stat().st_size < (world.folder / "log").stat().st_size + 10_000:
        world.act("legal", {"act": "lift-hold", "hold": "NONE" * 20})
    at_most(world, world.journal.stat().st_size)
    world.settings.write_text("site https://localhost\nzone UTC\n" + SETTINGS + "name extra is auditor\n")
    world.gate.send_signal(signal.SIGHUP)
    judge("the gate reads other settings", world.prints("new settings"))
    same("while the disk is full", world.ask("extra", "GET", "/records/1")[0], 503)
    at_most(world, resource.RLIM_INFINITY)
    same("with room they count", world.ask("extra", "GET", "/records/1")[0], 200)
    lines = whole_lines(world)
    found = [it["what"] for it in lines[-2:]]
    same("the journal has them first", (found, lines[-2].get("sha256")),
         (["settings", "read"], chain.digest(world.settings.read_bytes())))


def before_the_first(world: World) -> None:
    """Bytes before the first line of all are found too."""
    place = world.folder / "forged/journal"
    data = (world.folder / "journal-20260101").read_bytes()
    for rest in (b"something\n", b"\n", b'{"line":0}\n', data.splitlines(keepends=True)[0]):
        place.write_bytes(rest + data)
        same(f"{rest[:20]!r} before the first line", check(place)[0], 1)


def readings(world: World) -> None:
    """The journal has readings, or only those that were refused."""
    count = len(whole_lines(world))
    world.ask("auditor", "GET", "/records/1")
    same("a reading is a line", [it["request"] for it in whole_lines(world)[count:]], ["GET /records/1"])
    world.stop_gate()
    world.settings.write_text("site https://localhost\nzone UTC\njournal acts\n" + SETTINGS)
    world.start_gate()
    count = len(whole_lines(world))
    world.ask("auditor", "GET", "/records/1")
    world.ask("auditor", "GET", "/records/1/content")
    same("without readings only the refused one", [it["request"] for it in whole_lines(world)[count:]],
         ["GET /records/1/content"])
    asked = {"Office-Method": "PUT", "Office-Path": f"/vault/{'b' * 64}"}
    same("a file for the vault is no reading", (world.ask("registry", "GET", "/may", None, asked)[0],
                                                whole_lines(world)[-1]["what"], whole_lines(world)[-1]["request"]),
         (204, "put", f"PUT /vault/{'b' * 64}"))


def whole_lines(world: World) -> list[dict]:
    return whole_in(world.journal)


def whole_in(place: pathlib.Path) -> list[dict]:
    lines = place.read_bytes().split(b"\n")
    return [json.loads(it) for it in lines if it.startswith(b'{"before"') and it.endswith(b"}")]


def stop_and_read(world: World, back: int) -> dict:
    """Stops the gate, and returns the line that it wrote so many lines before its last one."""
    world.stop_gate()
    return whole_lines(world)[-1 - back]

