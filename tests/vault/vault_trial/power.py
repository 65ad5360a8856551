"""The order of writes: what a power cut may leave. A kill leaves what the system has; this looks at what is synced."""
import contextlib
import io
import os
import pathlib
import stat
from collections.abc import Callable, Iterator

from vault_trial.answers import digest
from vault_trial.forked import names
from kit.judging import judge
from vault_trial.standin import StandIn
from vault_trial.world import free_port

from office_common import manifest
from office_vault import state, sweeping
from office_vault.objects import Vault

NOTED = 3
"""transactions of a sweep up to the one that notes what goes: two finish an earlier sweep"""


class Disk:
    """What was written and synced: of each file its bytes and times, of each folder its names."""

    def __init__(self) -> None:
        self.unsynced: set[int] = set()
        self.open_names: dict[int, set[str]] = {}
        self.commits = self.events = 0
        self.wrong: list[str] = []

    def key(self, fd: int) -> int:
        return os.fstat(fd).st_ino

    def wrote(self, fd: int) -> None:
        self.unsynced.add(self.key(fd))

    def synced(self, fd: int) -> None:
        found = os.fstat(fd)
        self.unsynced.discard(found.st_ino)
        if stat.S_ISDIR(found.st_mode):
            self.open_names.pop(found.st_ino, None)

    def named(self, path: str) -> None:
        """A name changed in a folder: whatever has a name is synced before."""
        folder = os.stat(os.path.dirname(path) or ".")
        self.open_names.setdefault(folder.st_ino, set()).add(os.path.basename(path))
        with contextlib.suppress(FileNotFoundError):
            if os.lstat(path).st_ino in self.unsynced:
                self.wrong.append(f"{path} has a name before its bytes are synced")

    def settled(self, what: str) -> None:
        """What is answered now is on the disk."""
        if self.unsynced or self.open_names:
            self.wrong.append(f"{what}: not synced: {self.unsynced} {self.open_names}")


class Calls:
    """The calls of this process, each noted after it was done."""

    def __init__(self, disk: Disk) -> None:
        self.disk = disk

    def after_write(self, fd: int, *_: object, **__: object) -> None:
        self.disk.wrote(fd)

    after_utime = after_write

    def after_fsync(self, fd: int) -> None:
        self.disk.synced(fd)

    def after_link(self, _: str, name: str, dst_dir_fd: int = 0, **__: object) -> None:
        self.disk.named(os.path.join(os.readlink(f"/proc/self/fd/{dst_dir_fd}"), name))

    def after_rename(self, old: pathlib.Path, new: pathlib.Path) -> None:
        if new.parent.name == "going" and self.disk.commits < NOTED:
            self.disk.wrong.append("an object is taken out before it is noted why")
        self.disk.named(str(new))
        self.disk.named(str(old))

    after_replace = after_rename

    def after_unlink(self, path: pathlib.Path, **_: object) -> None:
        if pathlib.Path(path).parent.name == "going" and self.disk.commits <= NOTED:
            self.disk.wrong.append("an object is removed before it is noted")
        self.disk.named(str(path))

    def noted(self, name: str, real: Callable[..., object]) -> Callable[..., object]:
        """Returns a call that does the real one, and has it noted."""
        def call(*words: object, **more: object) -> object:
            found = real(*words, **more)
            self.disk.events += 1
            getattr(self, f"after_{name}")(*words, **more)
            return found
        return call


@contextlib.contextmanager
def watched(disk: Disk) -> Iterator[None]:
    """Has the calls of this process noted."""
    calls = Calls(disk)
    names = [it.removeprefix("after_") for it in dir(Calls) if it.startswith("after_")]
    real = {name: getattr(os, name) for name in names}
    leave = state.State.__exit__

    def committed(it: state.State, *words: object) -> None:
        leave(it, *words)
        disk.commits += 1

    for name, call in real.items():
        setattr(os, name, calls.noted(name, call))
    state.State.__exit__ = committed
    try:
        yield
    finally:
        for name, call in real.items():
            setattr(os, name, call)
        state.State.__exit__ = leave


def put(vault: Vault, data: bytes, what: str) -> None:
    disk = Disk()
    with watched(disk):
        vault.receive(digest(data), len(data), io.BytesIO(data).read)
        disk.settled(what)
    judge(what, not disk.wrong and disk.events > 2, disk.wrong)


def swept(vault: Vault, office: StandIn, at: float) -> list[str]:
    disk = Disk()
    sweeping.now = lambda: at
    with watched(disk):
        sweeping.sweep(vault, f"http://127.0.0.1:{office.port}", sweeping.Rules(grace=100, may_be_many=True))
        disk.settled("a sweep")
    return disk.wrong


def tried(folder: pathlib.Path) -> None:
    vault = Vault.make(folder / "vault")
    data = os.urandom(3_000_000)
    put(vault, data, "a new object is on the disk before the answer, its bytes before its name")
    put(vault, data, "a new stamp is on the disk before the answer")
    path = vault.path(digest(data))
    path.chmod(0o640)
    path.write_bytes(b"damaged")
    put(vault, data, "a damaged object is replaced by one that is on the disk")
    judge("and its bytes are right", path.read_bytes() == data)
    put(vault, b"", "an empty object")
    office = StandIn(free_port())
    office.start()
    number = office.add("D", manifest.Named(digest(data), len(data), "x").text().encode(), set())
    clock = sweeping.now
    try:
        wrong = swept(vault, office, 1000)
        office.end(number)
        wrong += swept(vault, office, 1100) + swept(vault, office, 1200)
        judge("a sweep notes before it takes out and before it removes, and all is synced", not wrong, wrong)
        judge("and it took out", names(folder / "vault") == set(), names(folder / "vault"))
    finally:
        sweeping.now = clock
        office.stop()
