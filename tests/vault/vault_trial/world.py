"""One office with its vault, its service, its copies and a second vault, and the model of it all."""
import hashlib
import http.client
import os
import pathlib
import random
import shutil
import signal
import socket
import subprocess
import time

from kit.companions import companion
from kit.ports import free_port
from vault_trial import forked
from vault_trial.expected import GRACE, Expected
from vault_trial.office import Office
from vault_trial.places import COMMAND, HERE, OFFICE
from vault_trial.standin import StandIn

from office_common.manifest import Named, text_of


class World:
    """A folder with all of it."""

    def __init__(self, folder: pathlib.Path, seed: int, office: Office | StandIn | None = None) -> None:
        shutil.rmtree(folder, ignore_errors=True)
        folder.mkdir(parents=True)
        self.folder, self.vault, self.kept = folder, folder / "vault", folder / "kept"
        self.kept.mkdir()
        self.copies = 0
        self.over_http = seed % 2 == 0
        self.random = random.Random(seed)
        random.seed(seed)
        self.model = Expected()
        self.bytes: dict[str, bytes] = {}
        self.counts = {"put kills": 0, "service kills": 0, "sweep kills": 0, "sweeps": 0, "races": 0, "answers": 0,
                       "looks": 0, "missed": 0}
        self.wrong: list[str] = []
        self.lines = {"sweep": 3000, "put": 150, "mirror": 1500}
        self.pending: list[tuple[float, list[str]]] = []
        self.service: subprocess.Popen | None = None
        subprocess.run([COMMAND, "make", str(self.vault)], check=True)
        self.office = office or Office(folder / "office.db", free_port())
        self.office.start()
        self.office.found()
        self.start_service()

    def __enter__(self) -> "World":
        return self

    def __exit__(self, *_: object) -> None:
        self.end()

    def environment(self) -> dict[str, str]:
        """What a command sees. A slow program opens every COPIES-th copy alone; SQLite's own recovery the others."""
        self.copies += 1
        by_program = self.copies % int(os.environ.get("COPIES", "12")) == 0
        return {**os.environ, "PATH": f"{HERE}/fast:{os.environ['PATH']}", "KEPT": str(self.kept),
                "BACKUP": str(companion("office-backup")),
                "OFFICE": OFFICE if by_program else str(HERE / "opened-by-sqlite")}

    def run(self, *words: object, stop: str = "plain") -> forked.Done:
        """Runs a command of the vault at the time of the trial, perhaps stopped at a line."""
        return forked.run(list(words), self.environment(), self.model.now, stop)

    def end(self) -> None:
        self.office.stop()
        self.service.kill()
        self.service.wait()

    # ---- the service

    def start_service(self, *more: str, office: str = "") -> None:
        words = [COMMAND, "serve", str(self.vault), str(self.folder / "socket"), "--office",
                 office or f"127.0.0.1:{self.office.port}", "--reserve", "0", *more]
        self.service = subprocess.Popen(words, stdout=subprocess.PIPE)
        assert self.service.stdout.readline().startswith(b"listening")

    def restart_service(self, *more: str, office: str = "") -> None:
        self.service.kill()
        self.service.wait()
        self.start_service(*more, office=office)

    def ask(self, method: str, path: str, body: bytes = b"", **lines: str) -> tuple[int, bytes, dict[str, str]]:
        it = http.client.HTTPConnection("vault", timeout=60)
        it.sock = socket.socket(socket.AF_UNIX)
        it.sock.settimeout(60)
        it.sock.connect(str(self.folder / "socket"))
        fields = {name.replace("_", "-"): value for name, value in lines.items()}
        it.request(method, path, body if method == "PUT" else None, headers=fields)
        answer = it.getresponse()
        found = answer.status, answer.read(), dict(answer.getheaders())
        it.close()
        return found

    # ---- objects

    def some_bytes(self) -> bytes:
        size = self.random.choice([0, 1, 100, 70_000, 300_000, 1 << 20, (1 << 20) + 1, 3_000_000])
        return self.random.randbytes(size)

    def note(self, data: bytes) -> str:
        digest = hashlib.sha256(data).hexdigest()
        self.bytes[digest] = data
        return digest

    def choose(self) -> str:
        """A new object, or one that was put before, whatever became of it."""
        if self.bytes and self.random.random() < 0.4:
            return self.random.choice(sorted(self.bytes))
        return self.note(self.some_bytes())

    def put(self, digest: str) -> bool:
        """A PUT to the service: whether it was answered."""
        try:
            status, body, _ = self.ask("PUT", f"/vault/{digest}", self.bytes[digest])
        except (OSError, http.client.HTTPException):
            self.model.put(digest, False)
            return False
        assert status in (200, 201), (status, body)
        self.counts["answers"] += 1
        self.model.put(digest, True)
        return True

    def put_killed(self, digest: str) -> None:
        """A PUT whose service, or a command of it, is killed at a random instant."""
        if self.random.random() < 0.5:
            file = self.folder / "file"
            file.write_bytes(self.bytes[digest])
            at = self.random.randint(1, self.lines["put"])
            done = self.run("put", self.vault, file, "--reserve", "0", stop=f"kill:{at}")
            self.counts["put kills"] += done.returncode == -signal.SIGKILL
            self.model.put(digest, done.returncode == 0)
            return
        delay = self.random.uniform(0, 0.06)
        if os.fork() == 0:
            time.sleep(delay)
            os.kill(self.service.pid, signal.SIGKILL)
            os._exit(0)
        self.put(digest)
        os.wait()
        self.service.wait()
        self.counts["service kills"] += 1
        self.start_service()

    def manifest(self, digests: list[str]) -> bytes:
        return text_of([Named(it, len(self.bytes[it]), f"scan {at}.pdf") for at, it in enumerate(digests)]).encode()

    def file(self, kind: str, digests: list[str]) -> int:
        return self.office.add(kind, self.manifest(digests), set(digests))

    # ---- sweeps

    def there(self) -> set[str]:
        return forked.names(self.vault)

    def place(self) -> str:
        """How sweeps ask the office: over HTTP in half of the worlds, by copies in the others."""
        return f"http://127.0.0.1:{self.office.port}" if self.over_http else str(self.office.file)

    def sweep_words(self) -> list[str]:
        return ["sweep", str(self.vault), self.place(), "--grace", str(GRACE), "--many"]

    def look(self, is_whole: bool) -> None:
        """Compares the vault with the model, and bytes with what was put."""
        there = self.there()
        self.counts["looks"] += 1
        self.wrong += self.model.after(self.office.named(), there, is_whole)
        for it in there:
            if hashlib.sha256((self.vault / "objects" / it[:2] / it).read_bytes()).hexdigest() != it:
                self.wrong.append(f"{it[:8]} has other bytes")

    def sweep(self, *more: str) -> None:
        done = self.run(*self.sweep_words(), *more, stop="count")
        assert done.returncode == 0, done.stderr
        self.lines["sweep"] = done.lines
        self.counts["sweeps"] += 1
        self.look(True)

    def sweep_killed(self) -> None:
        """A sweep that is killed at a random line; mostly at one of the last, where it acts."""
        last = self.lines["sweep"]
        first = 1 if self.random.random() < 0.3 else last - 250
        at = self.random.randint(max(first, 1), last + 20)
        done = self.run(*self.sweep_words(), stop=f"kill:{at}")
        is_killed = done.returncode == -signal.SIGKILL
        assert is_killed or done.returncode == 0, done.stderr
        self.counts["sweep kills" if is_killed else "missed"] += 1
        self.look(not is_killed)

    def race(self) -> None:
        """A sweep waits at a random line while objects that are unnamed are put again and filed; then it continues.

        It may have taken one out before the PUT, which then brings it back: what counts is what is there at the end.
        """
        unnamed = sorted(self.there() - self.office.named())
        chosen = self.random.sample(unnamed, min(len(unnamed), 3))
        last = self.lines["sweep"]
        late = self.random.randint(max(1, last - 250), last)
        at = self.random.randint(1, last) if self.random.random() < 0.4 else late
        sweep = forked.Child(self.sweep_words(), self.environment(), self.model.now, f"wait:{at}")
        is_waiting = sweep.waits()
        before = self.there()
        renewed = [it for it in chosen if self.put_again(it, before)]
        if renewed:
            self.file(self.random.choice("DTK"), renewed)
        is_killed = is_waiting and self.random.random() < 0.3
        if is_killed:
            sweep.kill()
        elif is_waiting:
            sweep.tell()
        done = sweep.wait()
        self.counts["races"] += 1
        self.counts["sweep kills"] += is_killed
        assert is_killed or done.returncode == 0, done.stderr
        self.look(not is_killed)
        for it in renewed:
            if it not in self.there():
                self.wrong.append(f"{it[:8]} was put and filed during a sweep, and is gone")

    def put_again(self, digest: str, before: set[str]) -> bool:
        if digest not in before:
            self.model.things[digest].went += self.model.things[digest].is_there is True
        return self.put(digest)
