"""A power cut at each point between two syncs: what is on the disk then is a journal, and has each line that counts.

A kill leaves what the system has. A power cut leaves what is synced, and of the rest any part. Both are laid down here
from a trace of one gate's calls, and a gate starts on each.
"""
import asyncio
import contextlib
import io
import pathlib
import shutil
import sys
import tempfile
from collections.abc import Iterator
from dataclasses import dataclass

from gate_trial.calls import Traced, is_there
from gate_trial.disk import Disk, File
from kit.judging import judge, same
from gate_trial.seen import Line, Seen, digests
from gate_trial.workload import SETTINGS, placing, together, turned, worked
from gate_trial.world import JOURNAL, SITE, SOURCES, TOKEN, World

sys.path[:0] = [str(JOURNAL.parent), str(SOURCES / "vault"), str(SOURCES)]

from office_gate import chain, checking, starting  # noqa: E402
from office_gate.errors import Refused  # noqa: E402
from office_gate.gate import Gate  # noqa: E402

SAMPLE = 6
"""on so many of the cuts the gate itself starts, and acts"""
Names = dict[str, bytes]
"""what is in a folder, by the names of files"""


@dataclass
class Promise:
    """A moment from which on a line has to be on the disk, whatever happens."""

    begins: int
    line: Line
    why: str


def tried(folder: pathlib.Path) -> None:
    if not is_there():
        print("skipped: no strace", flush=True)
        return
    world, client = worked(folder / "world")
    turned(client, "journal-20260102", creates=True)
    together(client, "C")
    seen = Seen(world, world.calls())
    same("each request that was sent has one line", seen.faults(), [])
    promises = promised(seen)
    same("there are promises of each kind", {promise.why for promise in promises}, KINDS)
    cuts = moments(seen.disk)
    judge("the power is cut at many points", len(cuts) >= 60, len(cuts))
    with emptied(folder) as place:
        room = Room(place, world)
        for count, moment in enumerate(cuts):
            certain(room, seen, promises, moment, f"cut {count}, what is synced")
            torn(room, seen, promises, moment, f"cut {count}, a part of the rest")
        judge("many disks were laid down", room.count >= 200, room.count)
        for moment in cuts[1::max(1, len(cuts) // SAMPLE)]:
            begun(room, seen, promises, moment)
    world.end()


@contextlib.contextmanager
def emptied(folder: pathlib.Path) -> Iterator[pathlib.Path]:
    """Gives a folder in memory, where a sync costs nothing, or one of the trial's where there is none."""
    memory = pathlib.Path("/dev/shm")
    place = pathlib.Path(tempfile.mkdtemp(prefix="gate-power-", dir=memory if memory.is_dir() else folder))
    try:
        yield place
    finally:
        shutil.rmtree(place, ignore_errors=True)


KINDS = {"the office has it", "the client has its answer", "the vault gets it", "it is in the vault", "its head is printed"}


def promised(seen: Seen) -> list[Promise]:
    """Lists from when on which line counts: once the office, a client, nginx, or a person who reads heads goes by it."""
    promises = []
    for act in seen.acts():
        promises.append(Promise(act.office.sends[0].begins, act.line, "the office has it"))
        promises += [Promise(act.client.sends[0].begins, line, "the client has its answer") for line in act.answers]
    for what, why in (("put", "the vault gets it"), ("stored", "it is in the vault")):
        promises += [Promise(client.sends[0].begins, line, why) for line, client in seen.others(what)]
    for number, _, begins in seen.printed():
        line = seen.line(number)
        assert line is not None
        promises.append(Promise(begins, line, "its head is printed"))
    return promises


def moments(disk: Disk) -> list[int]:
    """Lists the moments before each sync of the journal, at which the most is not on the disk, and the end."""
    syncs = {begins for syncs in [disk.journal.syncs, *(file.syncs for file in disk.files())] for begins, _ in syncs}
    ends = {place for file in disk.files() for place, _, _ in file.changes}
    return sorted(syncs) + [max(ends | syncs) + 1]


# ---- what a disk may have

def laid(disk: Disk, names: int, contents: dict[int, bytes]) -> Names:
    """Returns the files of a journal by their names, after so many changes of names."""
    return {name: contents[id(file)] for name, file in disk.journal.now(names).items()}


def synced(disk: Disk, moment: int) -> Names:
    """Returns what is certain to be on the disk."""
    return laid(disk, disk.journal.synced(moment), {id(file): file.synced(moment) for file in disk.files()})


def partly(disk: Disk, moment: int) -> Iterator[Names]:
    """Gives what may be on the disk beside that: each prefix of the names, and of the bytes; or zeros for bytes."""
    certain_ones = {id(file): file.synced(moment) for file in disk.files()}
    for names in range(disk.journal.synced(moment), disk.journal.done(moment) + 1):
        yield laid(disk, names, certain_ones)
        for file in disk.files():
            for data in prefixes(file, moment):
                yield laid(disk, names, certain_ones | {id(file): data})


def prefixes(file: File, moment: int) -> Iterator[bytes]:
    begin, whole = len(file.synced(moment)), file.content(moment)
    for length in file.lengths(begin, len(whole)) if len(whole) > begin else []:
        yield whole[:length]
    if len(whole) > begin:
        yield whole[:begin] + bytes(len(whole) - begin)


# ---- what has to hold

class Room:
    """A folder in which a journal is laid down, and a gate begins on it."""

    def __init__(self, folder: pathlib.Path, world: Traced) -> None:
        self.folder, self.world = folder, world
        (folder / "access").write_text(SITE.format(zone="UTC") + SETTINGS)
        (folder / "token").write_text(TOKEN)
        self.journal, self.state = folder / "log/journal", folder / "state"
        self.count = 0

    def lay(self, names: Names) -> None:
        """Lays a journal down; every second one beside what the gate had noted at its end, which is ahead of it."""
        for place in (self.journal.parent, self.state):
            shutil.rmtree(place, ignore_errors=True)
            place.mkdir()
        for name, data in names.items():
            (self.journal.parent / name).write_bytes(data)
        self.count += 1
        if self.count % 2:
            for path in self.world.state.glob("facts.db*"):
                shutil.copy(path, self.state)

    def begin(self) -> None:
        """Begins a gate as its service does, up to its first request."""
        places = starting.Paths(self.folder / "access", self.journal, self.state, self.folder / "token", None, None)

        async def run() -> None:
            gate = starting.opened(places, "127.0.0.1:9")
            try:
                await starting.begin(gate)
            finally:
                ended(gate)
        with contextlib.redirect_stderr(io.StringIO()):
            asyncio.run(run())

    def check(self, promises: list[Promise]) -> str:
        """Checks the chain with the heads that count, and returns what is wrong with it."""
        heads = {chain.Head(promise.line.number, promise.line.sha256) for promise in promises}
        try:
            checking.check(chain.files_of(self.journal), heads)
        except Refused as refused:
            return str(refused)
        return ""

    def lines(self) -> list[bytes]:
        """Returns all that lies between two LFs."""
        return [line for path in self.journal.parent.iterdir() for line in path.read_bytes().split(b"\n") if line]


def ended(gate: Gate) -> None:
    gate.index.end()
    gate.index.db.close()
    gate.facts.db.close()
    gate.journal.close()


def certain(room: Room, seen: Seen, promises: list[Promise], moment: int, what: str) -> None:
    due = [promise for promise in promises if promise.begins < moment]
    same(what, wrong_with(room, synced(seen.disk, moment), due), "")
    same(f"{what}: the contents of what the office has", missing(seen, due, moment), [])


def torn(room: Room, seen: Seen, promises: list[Promise], moment: int, what: str) -> None:
    due = [promise for promise in promises if promise.begins < moment]
    faults = [wrong_with(room, names, due) for names in partly(seen.disk, moment)]
    same(what, [fault for fault in faults if fault], [])


def wrong_with(room: Room, names: Names, due: list[Promise]) -> str:
    """Lays a journal down, begins a gate on it, and returns what is wrong with what comes of that."""
    room.lay(names)
    digests_here = {chain.digest(line) for line in room.lines()}
    for promise in due:
        if promise.line.sha256 not in digests_here:
            sizes = {name: len(data) for name, data in names.items()}
            return f"line {promise.line.number} is not there, and {promise.why}: {sizes}"
    try:
        room.begin()
    except (Exception, SystemExit) as error:
        return f"no gate begins: {error!r}"
    entries = [entry for line in room.lines() if (entry := chain.entry_of(chain.Line(room.journal, 0, line, True)))]
    sent = sorted(entry["line"] for entry in entries if entry["what"] == "asked")
    if sent != sorted(entry["of"] for entry in entries if entry["what"] == "answered"):
        return f"of the lines {sent} not each has one answer"
    return room.check(due)


def missing(seen: Seen, due: list[Promise], moment: int) -> list[str]:
    """Lists the lines whose contents the disk does not have, of those that the office got and took."""
    folder = seen.disk.contents
    names, lines = folder.now(folder.synced(moment)), []
    for promise in due:
        entry = promise.line.entry
        if promise.why != "the office has it" or "contents" not in entry or not was_taken(seen, promise.line):
            continue
        file, at = names.get(entry["contents"]["day"]), entry["contents"]["from"]
        contents = [act["content"] for act in entry["acts"] if "content" in act]
        data = file.synced(moment)[at:] if file else b""
        if digests(data, [each["bytes"] for each in contents]) != [each["sha256"] for each in contents]:
            lines.append(f"line {promise.line.number}")
    return lines


def was_taken(seen: Seen, line: Line) -> bool:
    """Reports whether the office did all of a list, so that the gate freed none of its contents."""
    return any(answer.entry["of"] == line.number and answer.entry["status"] == 200 for answer in seen.of("answered"))


def begun(room: Room, seen: Seen, promises: list[Promise], moment: int) -> None:
    """A gate starts on what a cut leaves, its command finds the chain whole, and it acts."""
    due, disk = [promise for promise in promises if promise.begins < moment], seen.disk
    *_, names = partly(disk, moment)
    world = World(room.folder / f"start-{moment}", SETTINGS)
    world.port = room.world.port
    for name, data in names.items():
        (world.folder / name).write_bytes(data)
    for path in room.world.state.glob("facts.db*"):
        shutil.copy(path, world.state)
    world.start_gate()
    same("after a cut: an act", world.act("legal", placing(f"S{moment}"))[0], 200)
    (world.folder / "heads").write_text("\n".join(promise.line.head for promise in due))
    done = world.check("--heads", world.folder / "heads")
    judge("after a cut: the chain has each head", done.returncode == 0, done.stderr)
    same("after a cut: and compares all of them", count_of(done.stdout), len({promise.line.number for promise in due}))
    world.stop_gate()
    world.log.close()


def count_of(text: str) -> int:
    """Returns how many heads a check compared, by its last line."""
    return int(text.rpartition("heads compared: ")[2].partition(",")[0])
