"""Gates before members of an office on several machines: who opened a run elsewhere, and answers from a member's memory.

What stands for the members is a small proxy each before one office: it adds the lines of a member, and has its memory of
keys, which they share.
"""
import http.client
import http.server
import pathlib
import threading
import time

from gate_trial.base import ROLES, filing, plan
from gate_trial.classes import write_catalogue
from gate_trial.eyes import OPEN, STEP, confirm, eyes, resume
from kit.judging import judge, same
from gate_trial.world import World

NAMES = "".join(f"name {it} is records-manager\n" for it in ("anna", "berta", "carl", "records-manager"))
NAMES += "name legal is legal\nname registry is registry\nname dora is department\nlimit requests 64\n"
NAMES += "name anna signs Anna A.\nname berta signs Berta B.\n"
RULE = "opener-does-not-carry-out"
RULES = f"rule {RULE}\nrule confirmer-does-not-open\nrule changer-does-not-open 30\n"


class Memory:
    """The log of all members: the position of the last entry, and the answer to each key."""

    def __init__(self, office: int) -> None:
        self.office, self.position, self.lock = office, 0, threading.Lock()
        self.answers: dict[str, tuple[int, bytes, int]] = {}
        # a member of before marks no answer
        self.is_marking = True


class Member(http.server.BaseHTTPRequestHandler):
    """Passes a request to the office, with the lines of a member around its answer."""

    memory: Memory

    def do_GET(self) -> None:
        self.passed(b"")

    def do_POST(self) -> None:
        body = self.rfile.read(int(self.headers.get("Content-Length", "0")))
        key = self.headers.get("Idempotency-Key", "")
        with self.memory.lock:
            if key in self.memory.answers:
                status, answer, position = self.memory.answers[key]
                self.answer(status, answer, position, {"Office-Repeated": "1"} if self.memory.is_marking else {})
                return
            self.memory.position += 1
            status, answer = self.passed(body)
            if key:
                self.memory.answers[key] = (status, answer, self.memory.position)

    def passed(self, body: bytes) -> tuple[int, bytes]:
        link = http.client.HTTPConnection("127.0.0.1", self.memory.office, timeout=60)
        link.request(self.command, self.path, body)
        got = link.getresponse()
        status, answer = got.status, got.read()
        link.close()
        self.answer(status, answer, self.memory.position, {})
        return status, answer

    def answer(self, status: int, body: bytes, position: int, more: dict[str, str]) -> None:
        self.send_response(status)
        for name, value in {"Content-Length": len(body), "Office-Position": position, "Office-Age": 0, **more}.items():
            self.send_header(name, str(value))
        self.end_headers()
        self.wfile.write(body)

    def log_message(self, *_: object) -> None:
        pass


def gate(folder: pathlib.Path, memory: Memory) -> World:
    """Starts a member and a gate before it."""
    world = World(folder, ROLES + NAMES + RULES)
    handler = type("Handler", (Member,), {"memory": memory})
    server = http.server.ThreadingHTTPServer(("127.0.0.1", world.port), handler)
    server.daemon_threads = True
    threading.Thread(target=server.serve_forever, daemon=True).start()
    world.start_gate()
    return world


def tried(folder: pathlib.Path) -> None:
    folder.mkdir(parents=True)
    office = World(folder / "office", ROLES)
    office.start_office()
    memory = Memory(office.port)
    one, other = (gate(folder / f"gate{it}", memory) for it in (0, 1))
    same("the plan", one.act("records-manager", *plan())[0], 200)
    elsewhere(one, other)
    stale(one, other)
    known(one, other)
    repeated(one, memory)
    for world in (one, other):
        judge("the chain holds", world.check().returncode == 0, world.check().stderr)
        world.end()
    office.end()


def elsewhere(one: World, other: World) -> None:
    """Of a run that another machine's gate opened nobody knows here who did: then nobody carries it out here."""
    same("anna opens at one gate", one.act("anna", OPEN)[0], 200)
    for name in ("anna", "berta"):
        same(f"{name} does not carry it out at the other gate", other.ask(name, "POST", "/run/resume", b""),
             (403, b'{"error":"eyes","rule":"opener-does-not-carry-out"}'))
        eyes(other, f"nor does {name} take a step", name, RULE, STEP)
    same("anna does not carry it out here either", resume(one, "anna"), 403)
    same("berta does", resume(one, "berta"), 200)
    other.stop_gate()
    other.start_gate()
    same("nor does anybody where no run is known, after a start", resume(other, "berta"), 403)


def stale(one: World, other: World) -> None:
    """A run that was opened here and closed elsewhere is not taken for the one that is open now."""
    number = one.act("anna", OPEN)[1][0]["number"]
    write_catalogue(other, time.time(), [], [{"number": number, "by": "Anna A.", "closed": False}])
    same("the catalogue has who opened it: not anna", resume(other, "anna"), 403)
    same("but berta carries it out at the other gate", resume(other, "berta"), 200)
    record = one.act("registry", filing(10, 1))[1][0]["number"]
    same("anna is no opener any more", one.act("anna", confirm(record))[0], 200)
    number = one.act("carl", OPEN)[1][0]["number"]
    # a catalogue has whole seconds
    time.sleep(1.1)
    write_catalogue(other, time.time(), [], [{"number": number, "by": "carl", "closed": False}])
    same("berta carries carl's run out at the other gate", resume(other, "berta"), 200)
    same("and opens one there", other.act("berta", OPEN)[0], 200)
    same("which she does not carry out at the first gate", resume(one, "berta"), 403)
    same("carl carries it out where it was opened", resume(other, "carl"), 200)


def known(one: World, other: World) -> None:
    """Who confirmed a record the office reports at each machine."""
    record = one.act("registry", filing(20, 1))[1][0]["number"]
    same("berta confirms at one gate", one.act("berta", confirm(record))[0], 200)
    eyes(other, "and does not open at the other", "berta", "confirmer-does-not-open", OPEN)
    same("carl opens there", other.act("carl", OPEN)[0], 200)
    same("anna carries it out there", resume(other, "anna"), 200)


def repeated(world: World, memory: Memory) -> None:
    """An answer from a member's memory changes nothing of what the gate knows, and the journal marks it."""
    def carried(name: str, key: str) -> tuple[int, bytes]:
        return world.ask(name, "POST", "/run/resume", b"", {"Idempotency-Key": key})
    same("anna opens", world.act("anna", OPEN)[0], 200)
    first = carried("berta", "resume-1")
    same("berta carries it out with a key", first[0], 200)
    same("anna opens the next one", world.act("anna", OPEN)[0], 200)
    same("anna does not carry it out", resume(world, "anna"), 403)
    same("berta's request comes once more", carried("berta", "resume-1"), first)
    same("the journal says so", world.last("answered").get("repeated"), True)
    same("anna still does not carry it out", resume(world, "anna"), 403)
    memory.is_marking = False
    same("once more, without a mark", carried("berta", "resume-1"), first)
    judge("the journal has none", "repeated" not in world.last("answered"))
    same("a closing of an earlier run closes none", resume(world, "anna"), 403)
    memory.is_marking = True
    world.start_without_facts()
    same("nor after a start", resume(world, "anna"), 403)
    same("carl does", resume(world, "carl"), 200)
    judge("which is no repetition", "repeated" not in world.last("answered"))
    # what a repeated list did then is not done by whoever repeats it now
    opened = world.act("anna", OPEN, Idempotency_Key="open-1")
    same("anna opens with a key", opened[0], 200)
    same("carl carries it out", resume(world, "carl"), 200)
    same("anna's request comes once more", world.act("anna", OPEN, Idempotency_Key="open-1"), opened)
    record = world.act("registry", filing(30, 1))[1][0]["number"]
    same("she has no run open, and confirms", world.act("anna", confirm(record))[0], 200)
    same("carl confirms with a key", world.act("carl", confirm(record), Idempotency_Key="confirm-1")[0], 200)
    same("and berta after him", world.act("berta", confirm(record))[0], 200)
    same("carl's request comes once more", world.act("carl", confirm(record), Idempotency_Key="confirm-1")[0], 200)
    eyes(world, "berta is still the last one", "berta", "confirmer-does-not-open", OPEN)
    same("carl is not, and opens", world.act("carl", OPEN)[0], 200)
