"""Kills of the gate under random requests: the journal, done once more, gives the file of the office.

Each answer that a client got has to be in the journal, at the line that the answer names.
"""
import hashlib
import json
import pathlib
import random
import re
import shutil
import signal
import subprocess
import threading
import time

from gate_trial.acts import KINDS, Acts
from kit.judging import judge, same
from gate_trial.world import HERE, JOURNAL, OFFICE, PYTHON, TOKEN, World, parted

CLIENTS = 4
HEAD = re.compile(rb"\r\nOffice-Journal: (\d+):([0-9a-f]{64})\r\n")
LENGTH = re.compile(rb"\r\nContent-Length: (\d+)\r\n")
LAST = re.compile(r"requests: (\d+), without an answer: (\d+), of these done: (\d+), tried otherwise: (\d+), "
                  r"differences: (\d+)")
SETTINGS = "role all may {}\nrole all reads records lists\nlimit requests 64\n" + \
    "".join(f"name n{it} is all\n" for it in range(CLIENTS))


class Clients:
    """Clients that send random requests until so many were sent."""

    def __init__(self, world: World, count: int, seed: int) -> None:
        self.world, self.count, self.sent = world, count, 0
        self.acts = Acts(random.Random(seed))
        self.lock = threading.Lock()
        self.heads: list[tuple[int, str, bytes]] = []
        self.lost = 0
        self.odd: list[bytes] = []

    def next(self) -> tuple[str, bytes] | None:
        with self.lock:
            if self.sent >= self.count:
                return None
            self.sent += 1
            return self.acts.request()

    def run(self, name: str) -> None:
        while (it := self.next()) is not None:
            path, body = it
            answer = self.send(name, path, body)
            found = HEAD.search(answer)
            status, said = parted(answer)
            length = LENGTH.search(answer)
            if length is None or int(length[1]) != len(said):
                # the end of the gate cut it
                status, found = 0, None
            with self.lock:
                if found:
                    self.heads.append((int(found[1]), found[2].decode(), said))
                elif status == 0:
                    self.lost += 1
                else:
                    self.odd.append(answer)
                if path == "/acts" and status in (200, 409):
                    self.acts.learn(body, said)

    def send(self, name: str, path: str, body: bytes) -> bytes:
        lines = {**HERE, "Office-Token": TOKEN, "Office-Name": name, "Content-Length": str(len(body))}
        head = "".join(f"{key}: {value}\r\n" for key, value in lines.items())
        data = f"POST {path} HTTP/1.1\r\n{head}\r\n".encode() + body
        for _ in range(2000):
            try:
                return self.world.raw(data)
            except (FileNotFoundError, ConnectionRefusedError):
                # nothing was sent: the gate is not there
                time.sleep(0.005)
            except (ConnectionError, TimeoutError):
                return b""
        raise AssertionError("the gate did not come back")


def tried(folder: pathlib.Path, requests: int, kills: int, seed: int) -> None:
    world = World(folder, SETTINGS.format(" ".join([*KINDS, "resume"])))
    subprocess.run([OFFICE, "init", str(world.file)], check=True, stdout=subprocess.DEVNULL)
    shutil.copyfile(world.file, folder / "copy.db")
    began = time.time()
    world.start_office()
    world.start_gate()
    clients = Clients(world, requests, seed)
    threads = [threading.Thread(target=clients.run, args=(f"n{it}",)) for it in range(CLIENTS)]
    for it in threads:
        it.start()
    done = killed(world, clients, requests, kills, random.Random(seed))
    for it in threads:
        it.join()
    world.stop_gate()
    world.stop_office()
    world.log.close()
    subprocess.run([OFFICE, "init", str(world.file)], check=True, stdout=subprocess.DEVNULL)
    # a copy is as old as its file, and FILE is older than each request
    shutil.copyfile(world.file, folder / "now.db")
    print(f"sent {clients.sent}, answered {len(clients.heads)}, lost {clients.lost}, {time.time() - began:.0f} s",
          flush=True)
    judge("each answer names its line, or says that nothing was done", all(b'"error"' in it for it in clients.odd),
          clients.odd)
    found = world.check()
    judge("the chain holds", found.returncode == 0, found.stdout + found.stderr)
    answers(world, clients)
    replayed(world, folder, clients, requests, done)


def killed(world: World, clients: Clients, requests: int, kills: int, chance: random.Random) -> int:
    """Kills the gate so many times, as the requests go on, and starts it again."""
    done = 0
    for at in range(kills):
        while clients.sent < requests * (at + 1) // (kills + 1):
            time.sleep(0.001)
        time.sleep(chance.uniform(0, 0.03))
        world.stop_gate(signal.SIGKILL)
        done += 1
        world.start_gate()
    return done


def answers(world: World, clients: Clients) -> None:
    """Each answer is in the journal, at its line, as the client got it."""
    lines = {}
    for data in world.journal.read_bytes().split(b"\n"):
        if data.startswith(b'{"before"'):
            try:
                lines[json.loads(data)["line"]] = data
            except ValueError:
                continue
    wrong = 0
    for number, sha256, said in clients.heads:
        data = lines.get(number, b"{}")
        entry = json.loads(data)
        noted = entry.get("answers", entry.get("answer"))
        wrong += hashlib.sha256(data).hexdigest() != sha256 or noted != json.loads(said)
    same("answers that are not in the journal as they were given", wrong, 0)


def replayed(world: World, folder: pathlib.Path, clients: Clients, requests: int, kills: int) -> None:
    began = time.time()
    done = subprocess.run([PYTHON, "-I", JOURNAL, "replay", world.journal, folder / "copy.db", folder / "new.db",
                           "--state", world.state, "--beside", folder / "now.db", "--moment", "2000-01-01"],
                          capture_output=True, text=True, check=False)
    found = LAST.search(done.stdout)
    judge("the journal's acts give the file", done.returncode == 0 and found and found[5] == "0",
          done.stdout[-2000:] + done.stderr[-2000:])
    print(f"{done.stdout.strip()[-300:]}; {time.time() - began:.0f} s", flush=True)
    print(f"{requests} requests, {kills} kills, {found[5] if found else 'no'} differences", flush=True)
