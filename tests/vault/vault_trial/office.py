"""An office for the trial: the real program, served, and beside it what the vault depends on, as a model."""
import base64
import http.client
import json
import pathlib
import random
import signal
import subprocess
import threading
import time
from dataclasses import dataclass, field

from vault_trial.places import OFFICE

DAY = "2024-01-02"
KINDS = {"D": "destroy", "T": "transfer", "K": "keep"}
GONE = (OSError, http.client.HTTPException)


@dataclass
class Record:
    """A record as the model has it."""

    kind: str
    names: set[str]
    digest: str
    status: str = "here"
    is_confirmed: bool = False
    hold: str | None = None
    run: int | None = None

    def has_content(self) -> bool:
        return self.status != "ended"


@dataclass
class Office:
    """The program, serving FILE, and the model beside it."""

    file: pathlib.Path
    port: int
    process: subprocess.Popen | None = None
    records: dict[int, Record] = field(default_factory=dict)
    runs: int = 0
    holds: int = 0
    kills: int = 0

    def start(self) -> None:
        self.process = subprocess.Popen([OFFICE, "serve", str(self.file), str(self.port), "1000000"],
                                        stdout=subprocess.PIPE, stderr=subprocess.DEVNULL)
        assert self.process.stdout.readline().startswith(b"listening")

    def stop(self) -> None:
        """Ends the program by SIGKILL: what was answered is in FILE and its log."""
        if self.process:
            self.process.kill()
            self.process.wait()
            self.process = None

    def ask(self, method: str, path: str, body: bytes | None = None) -> tuple[int, bytes]:
        it = http.client.HTTPConnection("127.0.0.1", self.port, timeout=300)
        try:
            it.request(method, path, body)
            answer = it.getresponse()
            return answer.status, answer.read()
        finally:
            it.close()

    def act(self, *acts: dict) -> list[dict]:
        status, body = self.ask("POST", "/acts", json.dumps(list(acts)).encode())
        assert status in (200, 409), (status, body)
        return json.loads(body)

    def killed(self, longest: float, what, *words: object) -> object:
        """Does something while the program is killed at a random moment, starts it again, and returns the answer."""
        victim = self.process
        killer = threading.Timer(random.uniform(0, longest), victim.send_signal, [signal.SIGKILL])
        killer.start()
        try:
            answer = what(*words)
        except GONE:
            answer = None
        killer.join()
        victim.wait()
        self.kills += 1
        self.start()
        return answer

    def found(self) -> None:
        acts = []
        for code, action in KINDS.items():
            acts.append({"act": "add-schedule", "day": DAY, "code": code, "trigger": "added", "unit": "days",
                         "count": 0, "offset": "none", "action": action})
            acts.append({"act": "add-class", "day": DAY, "code": code, "title": code, "schedule": code})
        acts.append({"act": "add-aggregation", "day": DAY, "ref": "A", "title": "A", "class": "K"})
        assert not any("refused" in it for it in self.act(*acts))

    def filing(self, kind: str, content: bytes) -> dict:
        number = len(self.records) + 1
        return {"act": "add-record", "day": DAY, "ref": f"r{number}", "title": "t", "originated": DAY,
                "aggregation": 1, "class": kind, "content": base64.b64encode(content).decode()}

    def note(self, kind: str, names: set[str]) -> int:
        number = len(self.records) + 1
        self.records[number] = Record(kind, names, self.said(number)["digest"])
        return number

    def add(self, kind: str, content: bytes, names: set[str]) -> int:
        [answer] = self.act(self.filing(kind, content))
        assert answer == {"number": len(self.records) + 1}, answer
        return self.note(kind, names)

    def add_killed(self, kind: str, content: bytes, names: set[str]) -> int | None:
        """Files a record while the program is killed: it is there, or it is not, and if it was answered it is."""
        answer = self.killed(0.03, self.act, self.filing(kind, content))
        is_there = self.said(len(self.records) + 1) is not None
        assert is_there or answer is None, answer
        return self.note(kind, names) if is_there else None

    def said(self, number: int) -> dict | None:
        status, body = self.ask("GET", f"/records/{number}")
        return json.loads(body) if status == 200 else None

    # ---- disposal

    def confirm(self, numbers: list[int]) -> None:
        acts = [{"act": "confirm", "day": DAY, "record": it, "action": KINDS[self.records[it].kind], "by": "b"}
                for it in numbers]
        if acts:
            assert all(it == {"done": True} for it in self.act(*acts))
        for it in numbers:
            self.records[it].is_confirmed = True

    def hold(self, number: int) -> None:
        self.holds += 1
        code = f"H{self.holds}"
        answers = self.act({"act": "place-hold", "day": DAY, "code": code, "reason": "r", "by": "b"},
                           {"act": "hold-on", "day": DAY, "hold": code, "target": f"record:{number}"})
        assert all(it == {"done": True} for it in answers), answers
        self.records[number].hold = code

    def lift(self, number: int) -> None:
        it = self.records[number]
        assert self.act({"act": "lift-hold", "day": DAY, "hold": it.hold}) == [{"done": True}]
        it.hold = None

    def receive(self, number: int) -> None:
        it = self.records[number]
        receipt = {"act": "receipt", "day": DAY, "record": number, "digest": it.digest, "by": "b"}
        assert self.act(receipt) == [{"done": True}]
        it.status = "received"

    def open_run(self) -> None:
        self.runs += 1
        assert self.act({"act": "open-run", "day": DAY, "by": "b"}) == [{"number": self.runs}]

    def outcomes(self) -> dict[int, str]:
        """Returns what the run that is open makes of each record, by the rules as the model has them."""
        found = {}
        for number, it in self.records.items():
            if it.status == "received" and it.hold is None:
                found[number] = "ended"
            elif it.status == "here" and it.is_confirmed and it.kind == "T":
                found[number] = "sent"
            elif it.status == "here" and it.is_confirmed and it.kind == "D" and it.hold is None:
                found[number] = "ended"
        return found

    def settle(self, outcomes: dict[int, str]) -> None:
        for number, status in outcomes.items():
            it = self.records[number]
            it.status, it.run = status, self.runs if status == "ended" else it.run

    def run(self) -> None:
        """One run, in the model and in the office; their statuses are compared."""
        self.open_run()
        outcomes = self.outcomes()
        status, body = self.ask("POST", "/run/resume", b"")
        assert status == 200, body
        self.settle(outcomes)
        for number in random.sample(sorted(self.records), min(3, len(self.records))):
            said = self.said(number)
            assert said["status"] == self.records[number].status, said

    def run_killed(self, between) -> None:
        """A run during which the program is killed. `between` is done while it is half done; then it is resumed."""
        self.open_run()
        outcomes = self.outcomes()
        self.killed(0.05, self.ask, "POST", "/run/resume", b"")
        done = {it: status for it, status in outcomes.items() if self.said(it)["status"] == status}
        self.settle(done)
        between()
        status, body = self.ask("POST", "/run/resume", b"")
        assert status in (200, 409), body
        self.settle(outcomes)
        for number, it in self.records.items():
            said = self.said(number)["status"]
            assert said == it.status, (number, said, it)

    # ---- what the vault is to hold

    def named(self) -> set[str]:
        return {name for it in self.records.values() if it.has_content() for name in it.names}


def wait_for(port: int) -> None:
    """Waits until somebody listens at a port."""
    for _ in range(600):
        try:
            http.client.HTTPConnection("127.0.0.1", port, timeout=1).connect()
            return
        except OSError:
            time.sleep(0.05)
    raise SystemExit(f"nobody listens at {port}")
