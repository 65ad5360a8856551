"""A nightly copy, with the vault's copy after it, brings everything back; a restored office has to be named as one."""
import os
import pathlib
import subprocess

from vault_trial.copying import Copies
from kit.companions import companion
from kit.judging import judge, same
from vault_trial.world import World


def night(it: World, copies: Copies, day: int) -> pathlib.Path:
    """FILE first, then the vault."""
    path = copies.folder / f"2024010{day}T000000Z.db"
    done = subprocess.run([str(companion("office-backup")), str(it.office.file), str(path)], env=it.environment(),
                          capture_output=True, text=True)
    same("FILE is copied", (done.returncode, done.stderr), (0, ""))
    done = it.run("mirror", it.vault, copies.second, "--reserve", "0")
    judge("then the vault", done.returncode == 0, done.stdout + done.stderr)
    return path


def by_copies(it: World, copies: Copies, names: set[str]) -> None:
    """The second vault keeps what its copies name, and nothing else."""
    for _ in range(2):
        it.model.now += 101
        done = it.run("sweep", copies.second, copies.folder, "--copies", "--grace", "100", "--many")
        same("the second vault is swept by its copies", (done.returncode, done.stderr), (0, ""))
    same("what any copy names stays there", copies.objects(), names)
    done = it.run("check", copies.second, copies.folder)
    judge("it is checked by the newest copy", done.returncode == 0, done.stdout + done.stderr)


def restore(it: World, number: int, path: pathlib.Path) -> None:
    """Puts the copy in the place of FILE, by office-restore."""
    it.office.stop()
    words = [str(companion("office-restore")), str(it.office.file), str(path)]
    done = subprocess.run(words, env=it.environment(), capture_output=True, text=True)
    judge("office-restore wants its text read", done.returncode == 1 and "to destroy or transfer again" in done.stdout,
          done.stdout + done.stderr)
    done = subprocess.run([words[0], "--since-was-read", *words[1:]], env=it.environment(), capture_output=True)
    same("then it restores", done.returncode, 0)
    it.office.records[number].status, it.office.records[number].is_confirmed = "here", False
    it.office.runs -= 1
    it.office.start()


def brought_back(it: World, copies: Copies, number: int, names: set[str]) -> None:
    """What the restored office names comes from the second vault, and stays."""
    same("a restored office is refused until it is named so", it.run(*it.sweep_words()).returncode, 4)
    done = it.run("check", it.vault, it.place())
    judge("the check names what is missing", done.returncode == 1 and all(one in done.stdout for one in names),
          done.stdout)
    done = it.run("mirror", copies.second, it.vault, "--reserve", "0")
    same("the mirror brings it back", (done.returncode, it.there()), (0, names))
    same("then it is swept again", it.run(*it.sweep_words(), "--restored").returncode, 0)
    it.model.now += 101
    same("once more", it.run(*it.sweep_words()).returncode, 0)
    same("and nothing of it goes", it.there(), names)
    status, _, lines = it.ask("GET", f"/records/{number}/files/5")
    judge("and it is served", status == 200 and lines["X-Accel-Redirect"][-64:] in names, lines)


def tried(folder: pathlib.Path) -> None:
    with World(folder, 7) as it:
        copies = Copies(it)
        names = {it.note(os.urandom(10_000 + at)) for at in range(5)}
        for one in names:
            it.put(one)
        number = it.file("D", sorted(names))
        it.sweep()
        path = night(it, copies, 2)
        it.office.confirm([number])
        it.office.run()
        for _ in range(2):
            it.model.now += 101
            it.sweep()
        same("they are gone here", it.there(), set())
        later = night(it, copies, 3)
        by_copies(it, copies, names)
        restore(it, number, path)
        brought_back(it, copies, number, names)
        path.unlink()
        later.unlink()
        done = it.run("sweep", copies.second, copies.folder, "--copies")
        same("without a copy nothing is swept there", done.returncode, 3)
