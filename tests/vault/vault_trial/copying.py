"""Backups and restores of an office and its vault, whole and killed: FILE first, then the vault."""
import copy
import pathlib
import signal
import subprocess
import time
from dataclasses import dataclass

from kit.companions import companion
from vault_trial import forked
from vault_trial.expected import GRACE
from vault_trial.office import Record
from vault_trial.places import COMMAND
from vault_trial.world import World

MOST_COPIES = 3


@dataclass
class Copy:
    """A copy of FILE, with what the office was then; covered once a mirror ended within the grace."""

    path: pathlib.Path
    records: dict[int, Record]
    runs: int
    holds: int
    made: float
    is_covered: bool = False

    def named(self) -> set[str]:
        return {name for it in self.records.values() if it.has_content() for name in it.names}


class Copies:
    """The copies of a world, and the second vault beside them."""

    def __init__(self, it: World) -> None:
        self.it = it
        self.folder, self.second = it.folder / "copies", it.folder / "second"
        self.folder.mkdir()
        subprocess.run([COMMAND, "make", str(self.second)], check=True)
        self.there: list[Copy] = []
        self.kills = {"backup kills": 0, "mirror kills": 0, "restore kills": 0}
        self.restores = 0

    def objects(self) -> set[str]:
        return forked.names(self.second)

    def killed(self, words: list[str], longest: float) -> bool:
        """Runs a script and kills it, with all that it started, at a random moment; returns whether it was killed."""
        running = subprocess.Popen(words, env=self.it.environment(), stdin=subprocess.DEVNULL,
                                   stdout=subprocess.DEVNULL, stderr=subprocess.DEVNULL, start_new_session=True)
        try:
            running.wait(self.it.random.uniform(0, longest))
        except subprocess.TimeoutExpired:
            pass
        is_killed = running.poll() is None
        if is_killed:
            # the script alone, or everything but the watcher that lets the service continue
            running.kill()
        running.wait()
        return is_killed

    def backup(self) -> None:
        """Copies FILE, perhaps after a try that is killed; removes old copies; mirrors; sweeps the second vault."""
        it = self.it
        number = it.copies + 1
        path = self.folder / f"20240102T{number // 3600:02}{number // 60 % 60:02}{number % 60:02}Z.db"
        it.copies += 1
        words = [str(companion("office-backup")), str(it.office.file), str(path)]
        if it.random.random() < 0.4:
            self.kills["backup kills"] += self.killed(words, 0.6)
        if not path.exists():
            done = subprocess.run(words, env=it.environment(), capture_output=True, text=True)
            assert done.returncode == 0, done.stderr
        office = it.office
        self.there.append(Copy(path, copy.deepcopy(office.records), office.runs, office.holds, it.model.now))
        for old in self.there[:-MOST_COPIES]:
            old.path.unlink()
        del self.there[:-MOST_COPIES]
        if it.random.random() < 0.7:
            self.mirror()
        self.sweep()

    def mirror(self) -> None:
        """Mirrors the vault into the second one, perhaps after tries that are killed."""
        it = self.it
        for _ in range(it.random.randint(0, 3)):
            stop = f"kill:{it.random.randint(1, it.lines['mirror'])}"
            done = it.run("mirror", it.vault, self.second, "--reserve", "0", stop=stop)
            self.kills["mirror kills"] += done.returncode == -signal.SIGKILL
        done = it.run("mirror", it.vault, self.second, "--reserve", "0", stop="count")
        assert done.returncode == 0, done.stderr
        it.lines["mirror"] = max(300, done.lines)
        for one in self.there:
            one.is_covered |= it.model.now - one.made < GRACE
        self.look("after a mirror")

    def sweep(self) -> None:
        """Sweeps the second vault by the copies, perhaps after tries that are killed."""
        it = self.it
        words = ["sweep", self.second, self.folder, "--copies", "--grace", GRACE, "--many"]
        for _ in range(it.random.randint(0, 2)):
            done = it.run(*words, stop=f"kill:{it.random.randint(1, it.lines['sweep'])}")
            it.counts["sweep kills"] += done.returncode == -signal.SIGKILL
            self.look("after a killed sweep of the second vault")
        done = it.run(*words)
        assert done.returncode == 0, done.stderr
        self.look("after a sweep of the second vault")

    def look(self, when: str) -> None:
        """Whatever a covered copy names is in the second vault."""
        there = self.objects()
        for one in self.there:
            if one.is_covered and (lost := one.named() - there):
                self.it.wrong.append(f"{when}: {sorted(lost)[0][:8]} of {one.path.name} is not in the second vault")

    # ---- restore

    def restore(self) -> None:
        """Restores the office from a covered copy, and its files from the second vault."""
        it = self.it
        covered = [one for one in self.there if one.is_covered]
        if not covered:
            return
        one = it.random.choice(covered)
        it.office.stop()
        self.restore_file(one)
        it.office.records, it.office.runs, it.office.holds = copy.deepcopy(one.records), one.runs, one.holds
        it.pending.clear()
        it.office.start()
        # until somebody says --restored nothing goes, and a sweep either refuses or has seen nothing that differs
        before = it.there()
        done = it.run(*it.sweep_words())
        assert done.returncode in (0, 4), done.stderr
        gone = before - it.there()
        if gone & one.named() or (gone and done.returncode == 4):
            it.wrong.append(f"a sweep after a restore, with status {done.returncode}, took out {sorted(gone)[0][:8]}")
        for digest in gone:
            it.model.things[digest].went += 1
            it.model.things[digest].is_there = False
        self.bring_back(one)
        it.model.forget()
        it.sweep("--restored")
        self.restores += 1

    def restore_file(self, one: Copy) -> None:
        """Calls office-restore until it has ended: it may be killed, and it asks for its text to be read."""
        it = self.it
        words = [str(companion("office-restore")), str(it.office.file), str(one.path)]
        for _ in range(it.random.randint(0, 2)):
            self.kills["restore kills"] += self.killed(words, 0.8)
        while True:
            done = subprocess.run(words, env=it.environment(), capture_output=True, text=True)
            if done.returncode == 0:
                return
            # what a killed script had started may still read FILE
            is_open = "open" in done.stderr
            assert done.returncode == 1 and (is_open or "--since-was-read" in done.stderr), done.stderr
            if not is_open and "--since-was-read" not in words:
                words.insert(1, "--since-was-read")
            time.sleep(0.1)

    def bring_back(self, one: Copy) -> None:
        """Mirrors the second vault into the vault: then all is there that the restored office names."""
        it = self.it
        for _ in range(it.random.randint(0, 2)):
            stop = f"kill:{it.random.randint(1, it.lines['mirror'])}"
            done = it.run("mirror", self.second, it.vault, "--reserve", "0", stop=stop)
            self.kills["mirror kills"] += done.returncode == -signal.SIGKILL
        done = it.run("mirror", self.second, it.vault, "--reserve", "0")
        assert done.returncode == 0, done.stderr
        there = it.there()
        for digest in there:
            if it.model.things.get(digest) is None or not it.model.things[digest].is_there:
                it.model.put(digest, True)
        if lost := one.named() - there:
            it.wrong.append(f"after a restore {sorted(lost)[0][:8]} is missing")

    def last(self) -> None:
        """At the end the newest copy alone stays, and two sweeps a grace apart leave what it names."""
        it = self.it
        if not self.there:
            return
        for old in self.there[:-1]:
            old.path.unlink()
        del self.there[:-1]
        for _ in range(3):
            it.model.now += GRACE
            done = it.run("sweep", self.second, self.folder, "--copies", "--grace", GRACE, "--many")
            assert done.returncode == 0, done.stderr
        self.look("at the end")
        if left := self.objects() - self.there[0].named():
            it.wrong.append(f"{sorted(left)[0][:8]} is left in the second vault at the end")
