"""A disk without room: PUTs, sweeps and mirrors say so, and nothing is lost."""
import contextlib
import http.client
import json
import os
import pathlib
import shutil
import socket
import subprocess
import time
from collections.abc import Iterator

from vault_trial import forked
from vault_trial.answers import digest
from kit.judging import judge, same
from vault_trial.standin import StandIn
from vault_trial.world import World, free_port

from office_common.manifest import Named

MEGABYTE = 1 << 20


@contextlib.contextmanager
def small(place: pathlib.Path, size: str) -> Iterator[None]:
    """A file system of its own, of this size."""
    place.mkdir(parents=True)
    subprocess.run(["mount", "-t", "tmpfs", "-o", f"size={size},nr_inodes=2000", "none", str(place)], check=True)
    try:
        yield
    finally:
        subprocess.run(["umount", "--lazy", str(place)], check=False)


def puts(it: World) -> list[str]:
    """Objects come in until the disk is full; the last ones are refused, and those that came in are whole."""
    came, full = [], 0
    for at in range(12):
        data = os.urandom(MEGABYTE)
        status, body, _ = it.ask("PUT", f"/vault/{digest(data)}", data)
        judge(f"PUT {at} is 201 or 507", (status, body) == (507, b'{"error":"full"}') or status == 201, (status, body))
        full += status == 507
        if status == 201:
            came.append(it.note(data))
    judge("some came in, and some had no room", len(came) >= 3 and full >= 3, (len(came), full))
    same("those that came in are there, and nothing else", it.there(), set(came))
    return came


def filled(it: World, place: pathlib.Path) -> str:
    """The disk becomes full in the middle of a PUT, which has taken its room. Returns the digest of what came in."""
    with contextlib.suppress(OSError), (place / "filler").open("wb", buffering=0) as file:
        conn = http.client.HTTPConnection("vault")
        conn.sock = socket.socket(socket.AF_UNIX)
        conn.sock.connect(str(it.folder / "socket"))
        data = os.urandom(200_000)
        conn.putrequest("PUT", f"/vault/{digest(data)}")
        conn.putheader("Content-Length", str(len(data)))
        conn.endheaders()
        conn.send(data[:1000])
        # by then the service has taken the room
        time.sleep(2)
        while True:
            file.write(bytes(4096))
    conn.send(data[1000:])
    answer = conn.getresponse()
    same("a disk that becomes full meanwhile takes none of its room", (answer.status, json.loads(answer.read())),
         (201, {"length": len(data), "sha256": digest(data)}))
    status, body, _ = it.ask("PUT", f"/vault/{digest(b'x')}", b"x")
    same("the next one has no room", (status, body), (507, b'{"error":"full"}'))
    return it.note(data)


def crowded(it: World, place: pathlib.Path) -> None:
    """A disk that has room and no inode."""
    (place / "many").mkdir()
    with contextlib.suppress(OSError):
        for at in range(2000):
            (place / f"many/{at}").touch()
    status, body, _ = it.ask("PUT", f"/vault/{digest(b'x')}", b"x")
    same("without an inode", (status, body), (507, b'{"error":"full"}'))
    judge("nothing came in", digest(b"x") not in it.there())
    shutil.rmtree(place / "many")


def tried(folder: pathlib.Path) -> None:
    with World(folder, 8, StandIn(free_port())) as it:
        place = folder / "small"
        with small(place, "8700k"):
            it.vault = place / "vault"
            same("a vault on a small disk", forked.run(["make", it.vault]).returncode, 0)
            it.restart_service("--reserve", "131072")
            came = puts(it)
            number = it.office.add("D", "".join(Named(one, MEGABYTE, "x").text() for one in came[:-1]).encode(),
                                   set(came[:-1]))
            it.model.things.clear()
            came.append(filled(it, place))
            done = it.run(*it.sweep_words())
            judge("a sweep on a full disk says so", done.returncode == 3 and "full" in done.stderr, done.stderr)
            same("and nothing is lost", it.there(), set(came))
            (place / "filler").unlink()
            crowded(it, place)
            done = it.run("check", it.vault, it.place())
            judge("all are whole", done.returncode == 0, done.stdout)
            for _ in range(2):
                it.model.now += 101
                done = it.run(*it.sweep_words())
                same("with room again it sweeps", (done.returncode, done.stderr), (0, ""))
            same("what nobody names is gone", it.there(), set(came[:-2]))
            second = place / "second"
            forked.run(["make", second])
            done = it.run("mirror", it.vault, second, "--reserve", "0")
            judge("a mirror without room says so", done.returncode == 3 and "room" in done.stderr, done.stderr)
            done = it.run("check", second, it.place(), "--quick")
            judge("and what it copied is whole", "bytes, and" not in done.stdout, done.stdout)
            it.restart_service("--reserve", str(64 * MEGABYTE))
            same("what is to stay free stays free", it.ask("PUT", f"/vault/{digest(b'x')}", b"x")[0], 507)
            same("reading goes on", it.ask("GET", f"/records/{number}/files/1")[0], 200)
            it.service.kill()
            it.service.wait()
