"""Journals in which requests have no answer, some done, some not, some in part: their replay gives the file each time.

A list is sent to the office in the order of the journal, without a gate, so what was done is known here.
"""
import json
import pathlib
import random
import re
import shutil
import subprocess
import sys
import time

from gate_trial.acts import Acts
from kit.judging import judge
from gate_trial.world import JOURNAL, OFFICE, PYTHON, SOURCES, World

sys.path[:0] = [str(JOURNAL.parent), str(SOURCES / "vault"), str(SOURCES)]

from office_gate import chain, journal  # noqa: E402
from office_gate.contents import Contents, noted  # noqa: E402

SEEDS, REQUESTS = 4, 3000
LEAST, MOST = 8, 40
"""between two requests without an answer are so many with one"""
LAST = re.compile(r"without an answer: (\d+), of these done: (\d+), tried otherwise: (\d+), differences: 0\n")


class Written:
    """A journal, written line by line."""

    def __init__(self, world: World) -> None:
        self.file, self.head = world.journal.open("wb"), chain.START
        self.contents = Contents(world.state / "contents").make()

    def line(self, what: str, **entry: object) -> int:
        data, self.head = chain.linked({"at": journal.now(), "what": what, **entry}, self.head)
        self.file.write(data)
        return self.head.line

    def asked(self, path: str, body: bytes) -> int:
        if not body:
            return self.line("asked", name="n", request=f"POST {path}")
        plain, parts = noted(json.loads(body))
        more = {"contents": self.contents.add(parts)} if parts else {}
        return self.line("asked", name="n", request=f"POST {path}", acts=plain, **more)


def tried(folder: pathlib.Path) -> None:
    for seed in range(SEEDS):
        one(folder / f"{seed}", random.Random(seed), f"journal {seed}")


def one(folder: pathlib.Path, chance: random.Random, name: str) -> None:
    world = World(folder, "")
    subprocess.run([OFFICE, "init", str(world.file)], check=True, stdout=subprocess.DEVNULL)
    shutil.copyfile(world.file, folder / "copy.db")
    world.start_office()
    unknown = filled(world, chance)
    world.stop_office()
    subprocess.run([OFFICE, "init", str(world.file)], check=True, stdout=subprocess.DEVNULL)
    # a replay ends at the moment at which the later copy was made
    shutil.copyfile(world.file, folder / "later.db")
    began = time.monotonic()
    done = subprocess.run([PYTHON, "-I", JOURNAL, "replay", world.journal, folder / "copy.db", folder / "new.db",
                           "--state", world.state, "--beside", folder / "later.db", "--moment", "2000-01-01"],
                          capture_output=True, text=True, check=False)
    found = LAST.search(done.stdout)
    judge(f"{name}: the replay gives the file", done.returncode == 0 and found and int(found[1]) == unknown,
          done.stdout[-400:] + done.stderr[-400:])
    judge(f"{name}: it is the file, row by row", rows(folder / "new.db") == rows(world.file))
    print(f"{name}: {unknown} without an answer, {time.monotonic() - began:.0f} s", flush=True)
    world.end()


def filled(world: World, chance: random.Random) -> int:
    """Does random requests, and returns how many of them have no answer in the journal."""
    acts, written, unknown = Acts(chance), Written(world), 0
    wait = chance.randint(LEAST, MOST)
    for _ in range(REQUESTS):
        path, data = acts.request()
        if path == "/acts":
            for act in (given := json.loads(data)):
                if act["act"] in ("place-hold", "confirm", "review", "open-run", "receipt", "event"):
                    act["by"] = "n"
            data = json.dumps(given).encode()
        line, wait = written.asked(path, data), wait - 1
        if wait > 0:
            status, said = world.direct("POST", path, data)
            answer = json.loads(said)
            given_back = {"answers": answer} if isinstance(answer, list) else {"answer": answer}
            written.line("answered", of=line, status=status, **given_back)
            if isinstance(answer, list):
                acts.learn(data, said)
            continue
        unknown, wait = unknown + 1, chance.randint(LEAST, MOST)
        if chance.random() < 0.5:
            written.line("answered", of=line, status=0, known=False)
        if chance.random() < 0.6:
            cut_off(world, chance, path, data)
    written.file.close()
    return unknown


def cut_off(world: World, chance: random.Random, path: str, data: bytes) -> None:
    """Does a request, or what comes before some place of a list."""
    if path == "/acts":
        given = json.loads(data)
        data = json.dumps(given[:chance.randint(1, len(given))]).encode()
    world.direct("POST", path, data)


def rows(file: pathlib.Path) -> str:
    """Returns all that a file says, as sqlite3 writes it."""
    words = ["sqlite3", f"file:{file}?immutable=1", ".dump"]
    return subprocess.run(words, capture_output=True, text=True, check=True).stdout
