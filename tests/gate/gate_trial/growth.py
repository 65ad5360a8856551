"""The growth of the journal: a summary of each refusal, the members of acts, and nothing that hides text."""
import json
import pathlib
import subprocess
import sys

from gate_trial.base import SETTINGS, filing, made
from kit.judging import judge, same
from gate_trial.world import JOURNAL, PYTHON, SOURCES, TOP, World, today

sys.path[:0] = [str(JOURNAL.parent), str(JOURNAL.parent.parent)]

from office_gate import chain  # noqa: E402

SECRET = "Jane Roe was dismissed for theft"
LONG = {f"{SECRET} {at}": SECRET * 100 for at in range(290)}
BY = {"act": "confirm", "record": 1, "action": "destroy", "by": SECRET}
DAY = today()
# each with the name that sends it, and the status and the word of its answer
REFUSED: list[tuple[str, str, tuple[int, str]]] = [
    ("auditor", json.dumps([{"act": "lift-hold", **LONG}]), (403, "right")),
    ("legal", json.dumps([{"act": "confirm", **LONG}, {"act": "lift-hold"}]), (403, "right")),
    ("legal", json.dumps([{"act": SECRET * 30_000}]), (400, "act")),
    ("legal", json.dumps([{"act": "lift-hold", **LONG}, [SECRET]]), (400, "act")),
    ("legal", json.dumps([{"act": "lift-hold", **LONG}]) + SECRET, (400, "json")),
    ("legal", json.dumps([{"act": "lift-hold", **LONG}])[:-2] + f',"a":"{SECRET}","a":1}}]', (400, "double")),
    ("department", json.dumps([{"day": DAY, **BY, **LONG}]), (403, "by")),
    ("legal", json.dumps([{"act": "lift-hold", "day": today(2), "hold": SECRET, **LONG}]), (403, "future")),
    ("legal", json.dumps([{"act": "hold-off", "day": DAY, "hold": SECRET, **LONG}]), (400, "reason"))]
HIDING = "\x7f\x85\x9b31m\u061c\u200e\u200f\u2028\u2029\u202a\u202e\u2066\u2069"
BUDGET = 20_000


def tried(folder: pathlib.Path) -> None:
    world = made(folder, f"rule reason-for hold-off\nlimit journal-bytes {BUDGET * 100}\n")
    printed()
    summed(world)
    members(world)
    hidden(world)
    older(world)
    read(world)
    world.reload(SETTINGS + f"limit journal-bytes {BUDGET}\n")
    elsewhere(world)
    bounded(world)
    judge("the chain holds", world.check().returncode == 0, world.check().stderr)
    world.end()


def printed() -> None:
    """The members that the gate knows are those of the description of the interface."""
    done = subprocess.run([TOP / "tests/gate/members"], capture_output=True, text=True, check=True)
    same("members.json is as printed", (SOURCES / "gate/office_gate/members.json").read_text(), done.stdout)


def summed(world: World) -> None:
    """What is refused before the classes leaves who, how many of which kinds, length and digest."""
    for name, body, expected in REFUSED:
        size = world.journal.stat().st_size
        status, answer = world.text(name, body)
        same(f"{name}: {body[:40]}", (status, answer["error"]), expected)
        grown = world.journal.stat().st_size - size
        judge(f"{expected}: the journal grows little", grown < 1500, grown)
        line = world.last("refused")
        same(f"{expected}: length and digest", line["body"], {"bytes": len(body.encode()), "sha256":
                                                              chain.digest(body.encode())})
    same("kinds that there are", [line.get("kinds") for line in world.lines() if line["what"] == "refused"],
         [None, {"lift-hold": 1, "confirm": 1}, {}, {"lift-hold": 1}, None, None, {"confirm": 1}, {"lift-hold": 1},
          {"hold-off": 1}])
    lines = {"Office-Reason": SECRET, "Idempotency-Key": SECRET}
    for name, path in (("auditor", "/acts"), ("legal", "/acts"), ("legal", "/run/resume")):
        body = json.dumps([{"act": "confirm", "day": DAY}]).encode() if path == "/acts" else b""
        same(f"{name} at {path}", world.ask(name, "POST", path, body, lines)[0], 403)
    judge("no text of a client is in the journal", SECRET.encode() not in world.journal.read_bytes())


def members(world: World) -> None:
    """Members that a kind does not have are in no line, and the office gets them, and refuses them."""
    for more in ({SECRET: 1}, LONG, {"content": "QUJD"}, {"other": SECRET}):
        act = {"act": "lift-hold", "day": DAY, "hold": "H", **more}
        size = world.journal.stat().st_size
        same(f"{list(more)[0]}", world.act("legal", act), (400, {"error": "act", "place": 0, "refused": 2}))
        other = world.last("asked")["acts"][0]["other"]
        same(f"{list(more)[0]}: their count", (other["members"], len(other["sha256"])), (len(more), 64))
        judge(f"{list(more)[0]}: the journal grows little", world.journal.stat().st_size - size < 1500)
    act = filing(70, 1) | {SECRET: 1}
    same("an act with a content", world.act("registry", act)[0], 400)
    noted = world.last("asked")["acts"][0]
    judge("all that its kind has is there", noted.keys() == act.keys() - {SECRET} | {"day", "other"}, noted)
    judge("no such text is in the journal", SECRET.encode() not in world.journal.read_bytes())


def hidden(world: World) -> None:
    """What would change how a terminal shows a line is written as an escape, in acts, answers, reasons and paths."""
    for text in HIDING:
        world.act("legal", {"act": "place-hold", "code": "H", "reason": f"a{text}b"}, Office_Reason="r")
        same(f"U+{ord(text):04X} is the reason", world.last("asked")["acts"][0]["reason"], f"a{text}b")
    world.ask("auditor", "GET", f"/records/{HIDING}")
    raw = world.journal.read_bytes().decode()
    judge("none of them is there as it is", not set(raw) & set(HIDING) - set("31m"), set(raw) & set(HIDING))
    judge("others are", '"r1 \u00e9"' in chain.linked({"a": "r1 \u00e9"}, chain.START)[0].decode())
    half = chain.linked({"a": "\ud800x"}, chain.START)[0]
    judge("half of a pair is written too", b'"a":"\\ud800x"' in half, half)


def older(world: World) -> None:
    """A journal from before, in which they are as they were, is checked as it is."""
    place = world.folder / "older/journal"
    place.parent.mkdir()
    data, head = b"", chain.START
    for at in range(3):
        entry = {"before": head.sha256, "line": head.line + 1, "at": f"2026-11-28T10:00:0{at}.000000+00:00",
                 "what": "refused", "name": "legal", "request": "GET /", "reason": f"{HIDING}{at}"}
        line = json.dumps(entry, ensure_ascii=False, separators=(",", ":")).encode()
        data, head = data + line + b"\n", chain.Head(head.line + 1, chain.digest(line))
    place.write_bytes(data)
    done = subprocess.run([PYTHON, "-I", JOURNAL, "check", place], capture_output=True, text=True, check=False)
    judge("its chain holds", done.returncode == 0 and f"{head}" in done.stdout, done.stdout + done.stderr)


def read(world: World) -> None:
    """The line of a reading has no text of the client: whoever has a password reads their own rights."""
    size = world.journal.stat().st_size
    lines = {"Office-Reason": "x" * 500, "Idempotency-Key": SECRET}
    same("a stranger reads their rights", world.ask("stranger", "GET", "/rights", None, lines)[0], 200)
    judge("the line has what was read", world.last("read")["request"] == "GET /rights", world.last("read"))
    judge("and no reason", world.journal.stat().st_size - size < 400, world.last("read"))


def elsewhere(world: World) -> None:
    """What a page from elsewhere makes a browser send takes nothing of the share of the name that signed in there."""
    for line in ({"Origin": "https://evil.example"}, {"Sec-Fetch-Site": "cross-site"}):
        statuses = [world.ask("legal", "GET", "/records/1", None, line)[0] for _ in range(90)]
        same(f"it is refused, and ends as others do: {line}", (statuses[0], statuses[-1]),
             (403 if "Origin" in line else 429, 429))
    size = len(world.lines())
    same("the name's long list is read", world.text("legal", b"[" + b" " * 70_000 + b"]")[0], 200)
    same("and its refusals have lines", (world.act("legal", {"act": "confirm"})[0], len(world.lines()) > size), (403, True))


def bounded(world: World) -> None:
    """The refusals of a name take so many bytes of the journal on a day, and no more; another name has its own."""
    size, count = world.journal.stat().st_size, len(world.lines())
    statuses = [world.act("department", {"act": "lift-hold", "hold": "H"})[0] for _ in range(120)]
    grown = world.journal.stat().st_size - size
    judge("the journal grows by as much", BUDGET * 0.5 < grown < BUDGET * 1.5, grown)
    judge("then the answer is another one", statuses[0] == 403 and statuses[-1] == 429 and
          sorted(statuses) == statuses, statuses)
    same("its word", world.act("department", {"act": "lift-hold", "hold": "H"})[1], {"error": "often"})
    same("a reading that is refused", world.get("department", "/metrics"), (429, {"error": "often"}))
    lines = [line for line in world.lines()[count:] if line["what"] == "refused"]
    same("the last line says so, once", [at for at, line in enumerate(lines) if line.get("last")], [len(lines) - 1])
    same("what it may do goes on", (world.get("department", "/records/1")[0],
                                    world.act("department", {"act": "confirm", "record": 1, "action": "destroy"})[0]),
         (200, 200))
    size = world.journal.stat().st_size
    same("but for a list that would have a line of its own before it",
         world.text("department", b"[" + b" " * 70_000 + b"]"), (429, {"error": "often"}))
    same("it has none", world.journal.stat().st_size, size)
    same("another name has its own", world.act("registry", {"act": "lift-hold", "hold": "H"})[0], 403)
