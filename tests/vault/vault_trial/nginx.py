"""The vault through nginx, with the repository's own configuration: names, rights, TLS, limits, the journal, times."""
import json
import os
import pathlib
import time

from vault_trial import proxy
from vault_trial.answers import digest
from kit.judging import judge, same
from vault_trial.proxy import Proxy
from vault_trial.standin import StandIn
from vault_trial.world import World, free_port

from office_common.manifest import Named

# TRIAL_MEGABYTES=300 measures more than a machine's noise
MEGABYTES = int(os.environ.get("TRIAL_MEGABYTES", "30"))


def coming_in(it: Proxy, world: World, file: pathlib.Path, name: str) -> None:
    """Who may put a file in, and from where."""
    path = f"/city/vault/{name}"
    put = ("--upload-file", file)
    for who, here, status, word in [("", True, 401, "password"), ("reader", True, 403, "name"),
                                    ("registrar", False, 403, "origin"), ("judge", True, 401, "password")]:
        found = it.curl(path, *put, name=who, here=here)
        same(f"PUT of {who or 'nobody'}, here {here}", found, (status, b'{"error":"%s"}' % word.encode()))
    judge("nothing came in", name not in world.there())
    same("PUT of a registrar", it.curl(path, *put)[0], 201)
    same("PUT again", it.curl(path, *put)[0], 200)
    same("PUT of other bytes", it.curl(f"/city/vault/{'0' * 64}", *put)[0], 422)
    same("PUT in chunks", it.curl(path, *put, "--header", "Transfer-Encoding: chunked")[0], 501)
    same("PUT into an office without a vault", it.curl(f"/court/vault/{name}", *put, name="judge")[0], 404)
    same("GET there", it.curl("/court/records/1/files/1", name="judge")[0], 404)
    for path in (f"/city/vault/{name[:-1]}", f"/city/vault/{name}0", f"/city/vault/{name.upper()}", f"/vault/{name}"):
        judge(f"PUT {path[:20]} reaches nothing", it.curl(path, *put)[0] in (403, 404), it.curl(path, *put))
    lines = [json.loads(line) for line in it.journal().splitlines()]
    puts = [(line["name"], line["status"], line["acts"]) for line in lines if line["path"] == f"/city/vault/{name}"]
    judge("the journal names who put it in", ("registrar", 201, "") in puts and ("registrar", 200, "") in puts, puts)
    judge("and nobody who was refused", {who for who, _, _ in puts} == {"registrar"}, puts)
    judge("nginx kept nothing of it", it.temporary() == 0, it.temporary())


def limits(it: Proxy, folder: pathlib.Path) -> None:
    """The vault's limit of a body is its own: a list of acts has that of the office."""
    (folder / "acts").write_bytes(b"[" + b" " * (2 << 20) + b"]")
    for path in ("/city/acts", "/city/run/resume"):
        same(f"2 MiB to {path}", it.curl(path, "--data-binary", f"@{folder / 'acts'}")[0], 413)


def going_out(it: Proxy, world: World, name: str, data: bytes) -> int:
    """Who may read a file, whole and in parts."""
    number = world.office.add("D", Named(name, len(data), "scan Ü.tif").text().encode(), {name})
    path = f"/city/records/{number}/files/1"
    for who in ("reader", "registrar"):
        same(f"GET of {who}", it.curl(path, name=who, here=False), (200, data))
    same("GET of nobody", it.curl(path, name="")[0], 401)
    same("GET of a name of another office", it.curl(path, name="judge")[0], 401)
    status, head = it.curl(path, "--head", name="reader")
    text = proxy.clean(head.decode())
    judge("HEAD has name and length", status == 200 and "filename*=UTF-8''scan%20%C3%9C.tif" in text
          and f"Content-Length: {len(data)}" in text and "nosniff" in text and "no-store" in text
          and "application/octet-stream" in text, text)
    judge("HEAD has no time of the file, and nothing that stands for one",
          "Last-Modified" not in text and "ETag" not in text, text)
    judge("HEAD has the lines of the server", all(line in text for line in proxy.ALWAYS), text)
    for line in ("If-Modified-Since: Thu, 01 Jan 2099 00:00:00 GMT", "If-None-Match: \"x\"",
                 "If-Range: Thu, 01 Jan 2099 00:00:00 GMT"):
        same(f"GET with {line}", it.curl(path, "--header", line, name="reader"), (200, data))
    seen = {it.curl(path, "--header", f"If-Unmodified-Since: Thu, 01 Jan {year} 00:00:00 GMT", name="reader")[0]
            for year in (1999, 2099)}
    judge("no date is compared with that of the file", len(seen) == 1, seen)
    same("a range", it.curl(path, "--range", "299990-299999", name="reader"), (206, data[299990:300000]))
    status, body = it.curl(f"/city/records/{number}/files", name="reader")
    same("the list", (status, json.loads(body)[0]["place"]), (200, "scan Ü.tif"))
    for other in (f"/city/vault/{name}", f"/office-vault-objects/city/objects/{name[:2]}/{name}",
                  f"/city/office-vault-objects/city/objects/{name[:2]}/{name}", f"/city/records/{number}/files/2",
                  f"/city/records/{number}/files/0", f"/city/records/{number + 1}/files/1",
                  f"/city/records/{number}/files/1/../../../../{name}", f"/city/records/{number}/files/%2e%2e"):
        status, body = it.curl(other, "--path-as-is", name="reader")
        judge(f"GET {other[:40]} shows nothing", status in (400, 404) and data[:100] not in body, (status, body[:80]))
    same("the office's own paths are as before", it.curl(f"/city/records/{number}", name="reader")[0], 200)
    return number


def times(it: Proxy, world: World, folder: pathlib.Path) -> None:
    """A file of many megabytes in and out, beside a plain nginx that takes and serves the same bytes with the same TLS."""
    file = folder / "large"
    file.write_bytes(os.urandom(1_000_000) * MEGABYTES)
    name = digest(file.read_bytes())
    number = world.office.add("D", Named(name, file.stat().st_size, "l").text().encode(), {name})
    plain = f"https://localhost:{it.port + 2}/file"
    for turn in range(2):
        took = {}
        for what, url, words in [("vault in", f"/city/vault/{name}", ("--upload-file", file)),
                                 ("plain nginx in", plain, ("--upload-file", file)),
                                 ("vault out", f"/city/records/{number}/files/1", ("--output", folder / "back")),
                                 ("plain nginx out", plain, ("--output", folder / "other"))]:
            began = time.monotonic()
            status, _ = it.curl(url, *words)
            took[what] = time.monotonic() - began
            judge(f"{what} is done", status in (200, 201, 204), status)
        print(f"{MEGABYTES} MB, turn {turn + 1}: " + ", ".join(f"{what} {it:.1f} s" for what, it in took.items()),
              flush=True)
    same("what comes back is the same", digest((folder / "back").read_bytes()), name)


def unreadable(it: Proxy, world: World, name: str, size: int) -> None:
    """An object that nginx may not read is answered as one that is missing."""
    number = world.office.add("D", Named(name, size, "x").text().encode(), {name})
    conf = it.folder / "nginx.conf"
    conf.write_text(conf.read_text().replace("user root", "user nobody nogroup"))
    places = [it.folder.parent.parent, it.folder.parent, world.folder]
    modes = [one.stat().st_mode for one in places]
    for one in places:
        one.chmod(0o755)
    (world.folder / "socket").chmod(0o666)
    world.vault.chmod(0o700)
    with it:
        same("its list", it.curl(f"/city/records/{number}/files", name="reader")[0], 200)
        same("an object that nginx may not read", it.curl(f"/city/records/{number}/files/1", name="reader"),
             (503, b'{"error":"object"}'))
    for one, mode in zip(places, modes):
        one.chmod(mode)


def alone(it: Proxy, world: World, data: bytes) -> None:
    """The site of one office alone: the same paths without a folder."""
    name = digest(data)
    same("one office: PUT", it.curl(f"/vault/{name}", "--upload-file", it.folder.parent / "file")[0], 200)
    number = world.office.add("D", Named(name, len(data), "x").text().encode(), {name})
    same("one office: GET", it.curl(f"/records/{number}/files/1", name="reader"), (200, data))
    same("one office: PUT of a reader", it.curl(f"/vault/{name}", "--upload-file", it.folder.parent / "file",
                                                name="reader")[0], 403)
    same("one office: a folder", it.curl(f"/city/records/{number}/files/1", name="reader")[0], 404)


def tried(folder: pathlib.Path) -> None:
    court = StandIn(free_port())
    with World(folder / "world", 8, StandIn(free_port())) as world:
        (folder / "vaults").mkdir()
        (folder / "sockets").mkdir()
        (folder / "vaults/city").symlink_to(world.vault)
        (folder / "sockets/city").symlink_to(world.folder / "socket")
        world.restart_service("--internal", "/office-vault-objects/city/objects")
        court.start()
        court.add("D", b"x" * 100, set())
        data = os.urandom(1_000_000)
        (folder / "file").write_bytes(data)
        places = folder / "vaults", folder / "sockets"
        with Proxy(folder / "nginx", world.office.port, court.port, 21570, *places) as it:
            coming_in(it, world, folder / "file", digest(data))
            limits(it, folder)
            number = going_out(it, world, digest(data), data)
            world.office.end(number)
            same("after the record's end", it.curl(f"/city/records/{number}/files/1", name="reader"),
                 (404, b'{"error":"content"}'))
            times(it, world, folder)
            world.restart_service("--internal", "/office-vault-objects/city/objects", "--reserve", str(1 << 50))
            same("a disk without room, with most of the bytes to come",
                 it.curl(f"/city/vault/{'1' * 64}", "--upload-file", folder / "large"), (507, b'{"error":"full"}'))
            world.restart_service("--internal", "/office-vault-objects/city/objects")
            other = Proxy(folder / "nobody", world.office.port, court.port, 21590, *places)
            unreadable(other, world, digest(data), len(data))
            with Proxy(folder / "alone", world.office.port, court.port, 21580, *places, "office.conf") as one:
                alone(one, world, data)
            world.service.kill()
            world.service.wait()
            same("without the service", it.curl("/city/records/1/files/1", name="reader"), (502, b'{"error":"office"}'))
        court.stop()
