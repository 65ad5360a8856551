"""Uploads beside so many requests a second to the office: how long these take, without an upload and with three."""
import concurrent.futures
import contextlib
import hashlib
import os
import pathlib
import subprocess
import time
from collections.abc import Iterator

from kit.judging import judge
from vault_trial.world import World

RATE = 200
"""requests a second that are asked for; a program that is slow answers fewer"""
SECONDS = 10
UPLOADS = 3
CLIENTS = 16
"""so many requests are under way at once at most: the office serves one after another"""


def asked(it: World, due: float) -> float:
    """Asks for a record at a moment, or at once if that is over; how long it took from that moment on."""
    time.sleep(max(due - time.monotonic(), 0))
    began = time.monotonic()
    status, _ = it.office.ask("GET", "/records/1")
    assert status == 200
    return time.monotonic() - began


def requests(it: World) -> tuple[list[float], float]:
    """Asks at the rate for some seconds: how long each took, and how many were answered a second."""
    began = time.monotonic()
    with concurrent.futures.ThreadPoolExecutor(CLIENTS) as pool:
        calls = [pool.submit(asked, it, began + at / RATE) for at in range(RATE * SECONDS)]
        took = sorted(one.result() for one in calls)
    return took, len(took) / (time.monotonic() - began)


def figures(took: list[float], rate: float) -> str:
    return (f"{rate:.0f} of {RATE} requests a second, median {took[len(took) // 2] * 1000:.1f} ms, "
            f"99 of 100 within {took[len(took) * 99 // 100] * 1000:.1f} ms")


@contextlib.contextmanager
def uploads(it: World, folder: pathlib.Path) -> Iterator[list[subprocess.Popen[bytes]]]:
    """Puts files of 1 GB in, again and again."""
    loops = []
    for at in range(UPLOADS):
        file = folder / f"large{at}"
        file.write_bytes(os.urandom(1 << 20) * 1000)
        with file.open("rb") as data:
            name = hashlib.file_digest(data, "sha256").hexdigest()
        call = ["curl", "--silent", "--fail", "--unix-socket", str(folder / "socket"), "--upload-file", str(file),
                "--output", "/dev/null", f"http://vault/vault/{name}"]
        loops.append(subprocess.Popen(["sh", "-c", 'while "$@"; do :; done', "sh", *call]))
    try:
        yield loops
    finally:
        for one in loops:
            one.kill()
            one.wait()


def tried(folder: pathlib.Path) -> None:
    with World(folder, 8) as it:
        it.office.add("K", b"x" * 100, set())
        alone, rate = requests(it)
        print(f"without an upload: {figures(alone, rate)}", flush=True)
        with uploads(it, folder) as loops:
            took, beside = requests(it)
            running = [one.poll() is None for one in loops]
        print(f"with {UPLOADS} uploads of 1 GB, again and again: {figures(took, beside)}", flush=True)
        judge("the uploads ran all the while, and each request was answered", all(running) and took, running)
        judge("the office keeps at least half of its pace", beside >= rate / 2, (rate, beside))
