"""Files of a vault behind nginx and the gate: a content names only what its name put in, or may read."""
import base64
import hashlib
import json
import os
import pathlib
import signal
import subprocess
import time
from typing import Any

from gate_trial.base import SETTINGS, filing, plan
from kit.judging import judge, same
from gate_trial.proxy import Proxy
from gate_trial.world import SOURCES, STARTED, World, today

CLERKS = """role clerk may add-record add-aggregation vault
role clerk reads records contents lists
name builder is clerk in BLDG*
name personnel is clerk in PER*
"""
NAMES = ["registry", "records-manager", "legal", "department", "auditor", "builder", "personnel"]
LETTER = 980_000
"""bytes of the file that is somebody else's"""
FAKE = "/usr/lib/x86_64-linux-gnu/faketime/libfaketime.so.1"


def digest(data: bytes) -> str:
    return hashlib.sha256(data).hexdigest()


def manifest(*files: bytes) -> bytes:
    return "".join(f"SHA256 {digest(it)}\nLENGTH {len(it)}\nPLACE scan.pdf\n" for it in files).encode()


class Vault:
    """The service of a vault, and nginx in front of it and of the gate."""

    def __init__(self, folder: pathlib.Path, world: World) -> None:
        self.world, self.number = world, 10
        self.place, self.socket = folder / "vaults/city", folder / "sockets/city"
        for it in (self.place, self.socket.parent):
            it.mkdir(parents=True)
        self.command = SOURCES / "vault/office-vault"
        subprocess.run([self.command, "make", self.place], check=True)
        more = {"/var/lib/office-vaults/": f"{folder}/vaults/",
                "/run/office-vault/$vault/socket": f"{folder}/sockets/$vault"}
        self.proxy = Proxy(folder / "nginx", "gated.conf", NAMES, world.place, world.port, folder / "catalogue", more)
        world.settings.write_text(f"site {self.proxy.here}\nzone UTC\n" + SETTINGS + CLERKS)
        self.process: subprocess.Popen | None = None

    def start(self, *more: str) -> None:
        if self.process:
            self.process.kill()
            self.process.wait()
        self.process = subprocess.Popen([self.command, "serve", self.place, self.socket, "--office",
                                         f"127.0.0.1:{self.world.port}", "--reserve", "0", "--internal",
                                         "/office-vault-objects/city/objects", *more], stdout=subprocess.PIPE)
        STARTED.append(self.process)
        assert self.process.stdout.readline().startswith(b"listening")

    def start_gate(self, **more: str) -> None:
        self.world.more = more
        self.world.start_gate()
        self.world.place.chmod(0o666)

    # ---- requests

    def put(self, name: str, data: bytes, of: bytes | None = None) -> tuple[int, bytes]:
        """Puts bytes in, perhaps under the digest of others."""
        return self.proxy.ask(name, "PUT", f"/city/vault/{digest(data if of is None else of)}", data)

    def file(self, name: str, content: bytes, aggregation: int) -> tuple[int, Any]:
        """Files a record with a ref of its own."""
        self.number += 1
        return self.proxy.act(name, [{**filing(self.number, aggregation, content), "day": today()}])

    def get(self, name: str, record: int, **lines: str) -> tuple[int, bytes]:
        return self.proxy.ask(name, "GET", f"/city/records/{record}/files/1", None,
                              {it.replace("_", "-"): value for it, value in lines.items()})


def tried(folder: pathlib.Path) -> None:
    world = World(folder / "world", SETTINGS + CLERKS)
    it = Vault(folder, world)
    world.start_office()
    it.start()
    it.start_gate()
    it.proxy.start()
    same("the plan", it.proxy.act("records-manager", [{**act, "day": today()} for act in plan()])[0], 200)
    letter = os.urandom(LETTER)
    record = foreign(it, letter)
    own(it, letter)
    slips(it)
    alike(it)
    read_elsewhere(it, letter, record)
    ended(it, letter, record)
    kept(it)
    quota(it)
    late(it)
    without(it)
    judge("the chain holds", world.check().returncode == 0, world.check().stderr)
    it.proxy.stop()
    world.end()


def refusal(data: bytes, place: int = 0) -> tuple[int, dict[str, object]]:
    return 403, {"error": "file", "place": place, "sha256": digest(data)}


def foreign(it: Vault, letter: bytes) -> int:
    """Who knows the digest of a file, and has not its bytes, does not read it by naming it."""
    same("personnel puts a letter in", it.put("personnel", letter)[0], 201)
    status, found = it.file("personnel", manifest(letter), 2)
    same("and files it", status, 200)
    record = found[0]["number"]
    for lines in ({}, {"Range": "bytes=0-9"}):
        same(f"builder does not read it {lines}", it.get("builder", record, **lines), (403, b'{"error":"class"}'))
    same("builder names it in a class of their own", it.file("builder", manifest(letter), 1), refusal(letter))
    line = it.world.last("refused")
    same("the journal has it", (line["name"], line["status"], line["answer"]["error"]), ("builder", 403, "file"))
    for name, data, wanted in (("other bytes", letter[1:], 422), ("other bytes, as many", letter[1:] + b"x", 422),
                               ("none", b"", 422)):
        same(f"builder puts {name} in under its digest", it.put("builder", data, letter)[0], wanted)
        same(f"{name} are no possession", it.file("builder", manifest(letter), 1), refusal(letter))
    same("nginx alone reports what is there", it.proxy.ask("builder", "GET", f"/city/stored?length={LETTER}")[0], 404)
    status, found = it.proxy.act("builder", [{**filing(5, 1, b"plain"), "day": today()},
                                             {**filing(6, 1, manifest(b"x", letter)), "day": today()}])
    same("the first one in a list", (status, found), refusal(b"x", 1))
    same("nothing of the list is done", json.loads(it.proxy.ask("builder", "GET", "/city/records/4")[1]),
         {"error": "record"})
    for name, path, wanted in (("auditor", "files", "right"), ("auditor", "files/1", "right"),
                               ("builder", "files", "class"), ("department", "files", "class")):
        same(f"{name} sees no digest by {path}", it.proxy.ask(name, "GET", f"/city/records/{record}/{path}"),
             (403, f'{{"error":"{wanted}"}}'.encode()))
    return record


def own(it: Vault, letter: bytes) -> None:
    """Who has the bytes names them, reads them, and goes on after a start of the gate."""
    status, body = it.put("builder", letter)
    same("builder puts the same bytes in", (status, json.loads(body)),
         (201, {"length": LETTER, "sha256": digest(letter)}))
    line = it.world.last("stored")
    same("the journal has it", (line["name"], line["request"], line["bytes"], line["from"]),
         ("builder", f"PUT /vault/{digest(letter)}", LETTER, "127.0.0.1"))
    status, found = it.file("builder", manifest(letter), 1)
    same("and names them", status, 200)
    same("the journal has what they are", it.world.last("asked")["files"], [{"place": 0, "sha256": [digest(letter)]}])
    same("and reads them", it.get("builder", found[0]["number"]), (200, letter))
    same("in parts too", it.get("builder", found[0]["number"], Range="bytes=5-9"), (206, letter[5:10]))
    same("personnel still does not read that record", it.get("personnel", found[0]["number"])[0], 403)


def slips(it: Vault) -> None:
    """What begins as a manifest and is none keeps a file, so it names it too."""
    data = b"of personnel" * 99
    same("personnel puts it in", it.put("personnel", data)[0], 201)
    text = manifest(data)
    for name, slip in (("line ends", text.replace(b"\n", b"\r\n")), ("capitals", text.upper()),
                       ("a mark", b"\xef\xbb\xbf" + text), ("a tail", text + b"x"), ("no place", text[:text.index(b"PLACE")]), ("blanks", b" \n" + text),
                       ("UTF-16", text.decode().encode("utf-16"))):
        same(f"with {name}", it.file("builder", slip, 1), refusal(data))
    for name, plain in (("a digest alone", digest(data).encode()),
                        ("a list of digests", f"{digest(data)}  scan\n".encode()),
                        ("a word", b"SHA256 is an algorithm, and this is a text about it of more than 64 letters")):
        same(f"{name} names nothing", it.file("builder", plain, 1)[0], 200)
    coded = base64.b64encode(text).decode()
    for name, spelled in (("white space", f" {coded}"), ("a line end", coded[:60] + "\n" + coded[60:]),
                          ("two parts", coded + coded), ("URL letters", coded + "-_"),
                          ("no padding", base64.b64encode(text + b"x").decode().rstrip("="))):
        act = {**filing(900, 1), "content": spelled, "day": today()}
        status, found = it.proxy.act("builder", [act])
        judge(f"base64 with {name} names nothing unseen", status in (400, 403), (status, found))


def alike(it: Vault) -> None:
    """The answer to a PUT is one, whether anybody had put these bytes in before."""
    data = b"a draft" * 20_000
    seen = [it.put(name, data) for name in ("builder", "personnel", "builder")]
    same("each is answered alike", seen, [(201, json.dumps({"length": len(data), "sha256": digest(data)},
                                                           separators=(",", ":")).encode())] * 3)
    same("who may not put in", it.put("department", data), (403, b'{"error":"right"}'))


def read_elsewhere(it: Vault, letter: bytes, record: int) -> None:
    """Who may read a file in some record may name it."""
    status, found = it.file("records-manager", manifest(letter), 1)
    same("who reads the contents of all classes names it", status, 200)
    same("legal may not file at all", it.file("legal", manifest(letter), 1),
         (403, {"error": "right", "act": "add-record", "place": 0}))
    judge("it is a record of its own", found[0]["number"] > record, found)


def ended(it: Vault, letter: bytes, record: int) -> None:
    """A record that ended lets nobody read, so it lets nobody name."""
    secret = b"to be destroyed" * 999
    same("personnel puts it in", it.put("personnel", secret)[0], 201)
    status, found = it.file("personnel", manifest(secret), 2)
    number = found[0]["number"]
    same("who reads all names it", it.file("records-manager", manifest(secret), 2)[0], 200)
    acts = [{"act": "confirm", "record": one, "action": "destroy", "day": today()} for one in (number, number + 1)]
    same("both are confirmed", it.proxy.act("records-manager", [*acts, {"act": "open-run", "day": today()}])[0], 200)
    same("a run", it.proxy.ask("records-manager", "POST", "/city/run/resume", b"")[0], 200)
    same("it ended both", it.get("records-manager", number)[0], 404)
    same("nobody keeps what a run destroyed", it.file("records-manager", manifest(secret), 2), refusal(secret))
    same("the other file stays", it.get("personnel", record), (200, letter))


def kept(it: Vault) -> None:
    """A start of the gate forgets nothing, nor does the loss of what it derived."""
    for what in ("a stop", "a loss of what is derived", "what an older gate derived"):
        data = what.encode() * 99
        same("builder puts it in", it.put("builder", data)[0], 201)
        it.world.stop_gate()
        if what == "a loss of what is derived":
            (it.world.state / "facts.db").unlink()
        if what == "what an older gate derived":
            subprocess.run(["sqlite3", it.world.state / "facts.db", "DROP TABLE stored; DROP TABLE named"], check=True)
        it.start_gate()
        same(f"after {what}", it.file("builder", manifest(data), 1)[0], 200)
        same(f"after {what}, another name", it.file("personnel", manifest(data), 2), refusal(data))
        same(f"after {what}, who reads it", it.file("records-manager", manifest(data), 1)[0], 200)


def quota(it: Vault) -> None:
    """A name has so many bytes in the vault that no record names. What it files counts no longer."""
    it.start("--unnamed", "1000000")
    first, second = os.urandom(600_000), os.urandom(600_000)
    same("a first file", it.put("builder", first)[0], 201)
    same("a second one is too much", it.put("builder", second), (507, b'{"error":"quota"}'))
    same("but not for another name", it.put("registry", second)[0], 201)
    same("the first one is filed", it.file("builder", manifest(first), 1)[0], 200)
    same("then there is room", it.put("builder", second)[0], 201)
    it.start()


def late(it: Vault) -> None:
    """A day after the PUT the file may be gone, so it is put in again first."""
    early, late = b"filed in time" * 999, b"filed a day later" * 999
    for data in (early, late):
        same("builder puts it in", it.put("builder", data)[0], 201)
    for hours, data, wanted in ((23, early, 200), (25, late, 403)):
        it.world.stop_gate()
        it.start_gate(LD_PRELOAD=FAKE, FAKETIME=f"+{hours}h", FAKETIME_DONT_FAKE_MONOTONIC="1", DONT_FAKE_MONOTONIC="1")
        same(f"after {hours} hours", it.file("builder", manifest(data), 1)[0], wanted)
    same("a PUT begins the day anew", it.put("builder", late)[0], 201)
    same("then it is filed", it.file("builder", manifest(late), 1)[0], 200)


def without(it: Vault) -> None:
    """An office that has no vault takes each content as it did."""
    it.proxy.put("vaults.conf", "")
    it.proxy.process.send_signal(signal.SIGHUP)
    status = 403
    for _ in range(100):
        status, found = it.file("builder", manifest(b"nobody's"), 1)
        if status != 403:
            break
        time.sleep(0.1)
    same("without a vault a manifest is a text", status, 200)
    same("and no file goes anywhere", it.put("builder", b"x")[0], 404)
