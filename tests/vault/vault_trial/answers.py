"""The answers of the service: each request, its status and its body; what is cut, too long, or not asked for well."""
import hashlib
import json
import pathlib
import socket

from kit.judging import judge, same
from vault_trial.world import World


def digest(data: bytes) -> str:
    return hashlib.sha256(data).hexdigest()


def raw(it: World, name: str, lines: dict[str, str], body: bytes = b"") -> int:
    """A PUT as no library sends it; returns its status."""
    with socket.socket(socket.AF_UNIX) as conn:
        conn.connect(str(it.folder / "socket"))
        head = "".join(f"{key}: {value}\r\n" for key, value in lines.items())
        conn.sendall(f"PUT /vault/{name} HTTP/1.1\r\nHost: x\r\n{head}\r\n".encode() + body)
        conn.shutdown(socket.SHUT_WR)
        answer = conn.makefile("rb").readline()
    return int(answer.split()[1])


def statuses(it: World, data: bytes) -> None:
    name = digest(data)
    rows = [("PUT", f"/vault/{name}", data, 201), ("PUT", f"/vault/{name}", data, 200),
            ("PUT", f"/vault/{digest(b'')}", b"", 201), ("PUT", f"/vault/{name}", data + b"y", 422),
            ("PUT", f"/vault/{name}", data[:-1], 422), ("PUT", f"/vault/{name.upper()}", data, 404),
            ("PUT", f"/vault/../{name}", data, 404), ("PUT", f"/vault/{name}/", data, 404),
            ("PUT", f"/vault/%61{name[1:]}", data, 404), ("PUT", f"/vault/{name}?x", data, 404),
            ("PUT", "/vault/" + "0" * 63, b"", 404), ("GET", f"/vault/{name}", b"", 404),
            ("DELETE", f"/vault/{name}", b"", 405), ("POST", f"/vault/{name}", b"", 405),
            ("GET", "/records/1/files/1", b"", 404), ("GET", "/records/01/files/1", b"", 404),
            ("GET", "/records/99999999999/files/1", b"", 404), ("GET", "/records/1/../files/1", b"", 404),
            ("GET", "/records/1/files/0", b"", 404), ("GET", "/records/1/files", b"", 404)]
    for method, path, body, wanted in rows:
        status, said, _ = it.ask(method, path, body)
        same(f"{method} {path[:30]}", status, wanted)
        judge(f"{method} {path[:30]} is answered in JSON", json.loads(said), said)
    for lines, wanted in [({"Content-Length": "x"}, 400), ({"Content-Length": "-1"}, 400), ({}, 411),
                          ({"Content-Length": str(1 << 60)}, 413), ({"Content-Length": "9" * 40}, 400),
                          ({"Content-Length": str(1 << 36)}, 507), ({"Transfer-Encoding": "chunked"}, 501)]:
        same(f"PUT with {lines}", raw(it, name, lines), wanted)
    cut = digest(b"cut")
    same("a PUT that is cut", raw(it, cut, {"Content-Length": "300"}, b"cut"), 400)
    judge("leaves nothing", cut not in it.there() and not list((it.vault / "objects").glob("*/.*")))


def damaged(it: World, data: bytes) -> None:
    """A PUT puts right what is damaged, cut, or a link in the place of an object."""
    path = it.vault / "objects" / digest(data)[:2] / digest(data)
    number = it.file("K", [it.note(data)])
    for what in ("other bytes", "fewer bytes", "a link", "a link to itself"):
        path.unlink()
        if "link" in what:
            path.symlink_to("/etc/passwd" if what == "a link" else path)
        else:
            path.write_bytes(b"y" * (len(data) if what == "other bytes" else 7))
        done = it.run("check", it.vault, it.place())
        judge(f"the check finds {what}", done.returncode == 1 and digest(data) in done.stdout, done.stdout)
        if "link" in what:
            same(f"{what} is not served", it.ask("GET", f"/records/{number}/files/1")[0], 503)
        same(f"a PUT puts right {what}", it.ask("PUT", f"/vault/{digest(data)}", data)[0], 201)
        judge("and the bytes are there", path.read_bytes() == data and not path.is_symlink())
    done = it.run("check", it.vault, it.place())
    judge("then the check finds nothing", done.returncode == 0, done.stdout)


def files(it: World) -> None:
    """A record of several files: the list, each file, and what is missing."""
    data = [b"one" * 1000, b"two" * 1000]
    names = [it.note(one) for one in data]
    for one in names:
        it.put(one)
    number = it.file("K", names)
    status, said, _ = it.ask("GET", f"/records/{number}/files")
    wanted = [{"file": at + 1, "length": 3000, "place": f"scan {at}.pdf", "sha256": names[at], "there": True}
              for at in range(2)]
    same("the list of files", (status, json.loads(said)), (200, wanted))
    for at in range(2):
        status, _, lines = it.ask("GET", f"/records/{number}/files/{at + 1}")
        same(f"file {at + 1}", (status, lines["X-Accel-Redirect"][-64:], lines["Content-Disposition"]),
             (200, names[at], f"attachment; filename*=UTF-8''scan%20{at}.pdf"))
    same("a file more", it.ask("GET", f"/records/{number}/files/3")[:2], (404, b'{"error":"file"}'))
    plain = it.office.add("K", b"no manifest" * 20, set())
    same("a record without files", it.ask("GET", f"/records/{plain}/files")[:2], (200, b"[]"))
    same("a file of it", it.ask("GET", f"/records/{plain}/files/1")[0], 404)
    (it.vault / "objects" / names[1][:2] / names[1]).unlink()
    same("one that is missing", it.ask("GET", f"/records/{number}/files/2")[:2], (503, b'{"error":"object"}'))
    judge("is not there in the list", b'"there":false' in it.ask("GET", f"/records/{number}/files")[1])
    it.office.stop()
    same("without the office", it.ask("GET", f"/records/{number}/files/1")[:2], (502, b'{"error":"office"}'))


def tried(folder: pathlib.Path) -> None:
    with World(folder, 8) as it:
        data = b"x" * 300_000
        statuses(it, data)
        damaged(it, data)
        files(it)
