"""What a sweep refuses: the mistakes that would empty a vault."""
import hashlib
import os
import pathlib
import subprocess

from vault_trial.expected import GRACE
from kit.judging import judge, same
from vault_trial.places import OFFICE
from vault_trial.standin import StandIn
from vault_trial.world import World, free_port

from office_common import files
from office_common import manifest


def other_offices(it: World) -> None:
    """Another office, an empty one, none, one that went back, one whose record is another."""
    it.put(it.note(b"kept" * 99))
    number = it.file("D", [it.note(b"kept" * 99)])
    it.sweep()
    empty = StandIn(free_port())
    empty.start()
    done = it.run("sweep", it.vault, f"http://127.0.0.1:{empty.port}", "--grace", "100")
    judge("an empty office is refused", done.returncode == 4 and "--restored" in done.stderr, done.stderr)
    empty.add("D", b"another", set())
    same("another office is refused", it.run("sweep", it.vault, f"http://127.0.0.1:{empty.port}").returncode, 4)
    empty.stop()
    same("an office that does not answer", it.run("sweep", it.vault, f"http://127.0.0.1:{empty.port}").returncode, 3)
    for status in (500, 503, 302, 403):
        it.office.status = status
        same(f"an office that answers {status}", it.run(*it.sweep_words()).returncode, 3)
    it.office.status = 0
    same("a FILE that is missing", it.run("sweep", it.vault, it.folder / "no.db").returncode, 3)
    judge("none was made", not (it.folder / "no.db").exists())
    it.office.end(number)
    it.sweep()
    it.office.records[number].status, it.office.records[number].run = "here", None
    it.model.now += GRACE
    it.model.things[it.note(b"kept" * 99)].sure = it.model.things[it.note(b"kept" * 99)].early = None
    done = it.run(*it.sweep_words())
    judge("a record that had ended and is here again", done.returncode == 4 and it.there(), done.stderr)
    it.model.forget()
    it.sweep("--restored")


def refiled(it: World) -> None:
    """After a restore other records have old numbers, and the last one is the same: nothing goes that is named."""
    it.office.add("K", b"plain" * 30, set())
    last = it.office.add("K", b"the last one" * 30, set())
    it.put(it.note(b"filed again" * 50))
    it.put(it.note(b"nobody's" * 50))
    it.sweep()
    digest = it.note(b"filed again" * 50)
    it.office.contents[last - 1] = manifest.Named(digest, 550, "x").text().encode()
    it.office.records[last - 1].digest = hashlib.sha256(it.office.contents[last - 1]).hexdigest()
    it.model.now += GRACE
    done = it.run(*it.sweep_words())
    judge("a record that was filed anew under an old number is noticed before anything goes",
          done.returncode == 4 and digest in it.there(), (done.returncode, done.stderr))
    it.office.records[last - 1].names = {digest}
    it.model.forget()
    it.sweep("--restored")
    judge("with --restored it is kept", digest in it.there())


def clocks_and_counts(it: World) -> None:
    late, it.model.now = it.model.now, it.model.now - 50
    same("a clock that went back", it.run(*it.sweep_words()).returncode, 3)
    it.model.now = late
    for at in range(120):
        it.put(it.note(f"orphan {at}".encode()))
    it.sweep()
    it.model.now += 200
    before = it.there()
    words = [word for word in it.sweep_words() if word != "--many"]
    done = it.run(*words)
    judge("more than stay do not go at once", done.returncode == 4 and it.there() == before, done.stderr)
    it.sweep()
    judge("unless it is said", len(before - it.there()) >= 120)
    with files.locked(it.vault / "sweep.lock", is_made=True):
        same("two sweeps at once", it.run(*it.sweep_words()).returncode, 3)
    same("a vault that is none", it.run("sweep", it.folder / "nothing", it.place()).returncode, 3)
    same("no folder of copies", it.run("sweep", it.vault, it.folder, "--copies").returncode, 3)


def words(it: World) -> None:
    """Wrong words end with status 2, and nothing is done."""
    for wrong in (["sweep"], ["sweep", it.vault, "http://here", "--grace", "-1"], ["swep", it.vault],
                  ["sweep", it.vault, "http://here", "--line", "x"], ["put", it.vault], ["serve", it.vault]):
        same(f"{wrong[:1]} with {wrong[2:]}", it.run(*wrong).returncode, 2)
    same("an address that is none", it.run("sweep", it.vault, "http://here").returncode, 2)


def real_file(folder: pathlib.Path) -> None:
    """A FILE that is another office, and one that is no office, by the real program."""
    env = {**os.environ, "OFFICE": OFFICE}
    with World(folder, 7, StandIn(free_port())) as it:
        it.office.add("K", b"x" * 100, set())
        done = it.run("sweep", it.vault, f"http://127.0.0.1:{it.office.port}")
        same("a first sweep", done.returncode, 0)
        subprocess.run([OFFICE, "init", str(it.folder / "empty.db")], check=True, capture_output=True, env=env)
        done = it.run("sweep", it.vault, it.folder / "empty.db")
        judge("another FILE", done.returncode == 4, (done.returncode, done.stderr))
        (it.folder / "text.db").write_text("no office" * 1000)
        done = it.run("sweep", it.vault, it.folder / "text.db")
        judge("a FILE that is no office", done.returncode == 3, (done.returncode, done.stderr))


def tried(folder: pathlib.Path) -> None:
    with World(folder / "a", 8, StandIn(free_port())) as it:
        other_offices(it)
        refiled(it)
        clocks_and_counts(it)
        words(it)
    judge("the model agrees", not it.wrong, it.wrong)
    real_file(folder / "b")
