"""An object of 4 GB: it comes in, is checked, mirrored and renewed, with little memory."""
import hashlib
import pathlib
import shutil
import subprocess
import sys
import time

from vault_trial import forked
from kit.judging import judge, same
from vault_trial.places import COMMAND
from vault_trial.standin import StandIn
from vault_trial.world import World, free_port

from office_common.manifest import Named

SIZE = 4 << 30
MOST = 100 << 20


def digest_of_zeros() -> str:
    found, part = hashlib.sha256(), bytes(1 << 20)
    for _ in range(SIZE >> 20):
        found.update(part)
    return found.hexdigest()


def most_memory(pid: int) -> int:
    """Returns the most bytes of memory that a process has had."""
    for line in pathlib.Path(f"/proc/{pid}/status").read_text().splitlines():
        if line.startswith("VmHWM:"):
            return int(line.split()[1]) << 10
    return 0


def measured(*words: object) -> tuple[int, float, int]:
    """Runs a command: its status, its seconds, and the most bytes of memory that it had.

    The kernel's own sum at its end counts what this trial had before it, too.
    """
    began = time.monotonic()
    call = [sys.executable, "-I", COMMAND, *map(str, words)]
    done = subprocess.Popen(call, stdout=subprocess.DEVNULL)
    most = 0
    while done.poll() is None:
        most = max(most, most_memory(done.pid))
        time.sleep(0.05)
    return done.returncode, time.monotonic() - began, most


def tried(folder: pathlib.Path) -> None:
    with World(folder, 8, StandIn(free_port())) as it:
        file = folder / "sparse"
        with file.open("wb") as out:
            out.truncate(SIZE)
        name = digest_of_zeros()
        before = most_memory(it.service.pid)
        began = time.monotonic()
        done = subprocess.run(["curl", "--silent", "--unix-socket", folder / "socket", "--upload-file", file,
                               "--write-out", "%{http_code}", "--output", "/dev/null", f"http://vault/vault/{name}"],
                              capture_output=True, text=True)
        same("4 GB come in", done.stdout, "201")
        print(f"PUT of 4 GB: {time.monotonic() - began:.1f} s", flush=True)
        most = most_memory(it.service.pid)
        judge(f"memory of the service: {most >> 20} MB, {before >> 20} MB before", most < MOST)
        print(f"memory of the service: {most >> 20} MB, {before >> 20} MB before")
        same("its size", it.vault.joinpath("objects", name[:2], name).stat().st_size, SIZE)
        number = it.office.add("D", Named(name, SIZE, "large").text().encode(), {name})
        same("it is served", it.ask("GET", f"/records/{number}/files/1")[0], 200)
        second = folder / "second"
        forked.run(["make", second])
        for what, words in [("check", ["check", it.vault, it.place()]),
                            ("mirror", ["mirror", it.vault, second, "--reserve", "0"])]:
            status, seconds, memory = measured(*words)
            judge(f"{what}: {memory >> 20} MB", status == 0 and memory < MOST, (status, memory))
            print(f"{what} of 4 GB: {seconds:.1f} s, {memory >> 20} MB", flush=True)
        same("the mirror has it", second.joinpath("objects", name[:2], name).stat().st_size, SIZE)
    shutil.rmtree(folder)
