"""One member: its log, its office, its snapshots and its clients, joined.

    member CONFIG

CONFIG is a file of settings (settings.py). It runs until SIGTERM; SIGHUP makes a snapshot now.
Status 0 after SIGTERM, 1 where one of its threads ended, 2 for wrong settings, 3 where another program has the folder or the port,
5 where it halted: then the file `halted` says why, and it does not start until that file is gone.
"""
from __future__ import annotations

import fcntl
import os
import signal
import sys
import threading
import traceback
from typing import Callable

from replica.appending import Appender
from replica.clients import Clients
from replica.errors import Halt, say
from replica.etcd import Etcd
from replica.follower import Follower
from replica.freshness import Freshness
from replica.guard import Guard
from replica.log import Log
from replica.office import Office, work_file
from replica.program import Program
from replica.service import Service
from replica.settings import Settings, read_settings
from replica.snapshots import Snapshots

ENDED, HALTED = 1, 5


def made(settings: Settings) -> tuple[Log, Follower]:
    """Returns the parts of a member, none of them started."""
    program = Program(settings.office, settings.disk)
    log = Log(settings, Etcd(settings.etcd, settings.tls()), program.digest)
    office = Office(program, work_file(settings.folder), settings.office_port)
    return log, Follower(settings, log, office, Snapshots(settings.folder, program), Appender(log))


def locked(settings: Settings) -> object:
    """Returns the lock of the folder, with this process's number in it, held as long as this value lives."""
    file = open(settings.folder / "lock", "a", encoding="utf-8")
    fcntl.flock(file, fcntl.LOCK_EX | fcntl.LOCK_NB)
    file.truncate(0)
    print(os.getpid(), file=file, flush=True)
    return file


def lasting(part: Callable[[], None], follower: Follower) -> None:
    """Runs a part that never returns. If it fails, the member ends, and systemd starts it again: to end it is safe."""
    try:
        part()
    except BaseException:
        traceback.print_exc()
    if not follower.stopping.is_set():
        say("a thread of the member ended, and so does the member")
        sys.stderr.flush()
        os._exit(ENDED)


def start(settings: Settings) -> int:
    """Runs the member, and gives its exit status. Its office has ended then."""
    halted = settings.folder / "halted"
    if halted.exists():
        say(f"it was halted: see {halted}, and remove that file when all is well")
        return HALTED
    log, follower = made(settings)
    signal.signal(signal.SIGTERM, lambda *_: follower.ask_to_stop())
    signal.signal(signal.SIGINT, lambda *_: follower.ask_to_stop())
    signal.signal(signal.SIGHUP, lambda *_: follower.ask_for_snapshot())
    freshness = Freshness(log, settings.age_limit)
    service = Service(log, follower, freshness)
    try:
        lock = locked(settings)
        clients = Clients(settings.listen, service)
    except OSError as error:
        say(f"the folder {settings.folder} or the port {settings.listen} is taken: {error}")
        return 3
    guard = Guard(service, settings.reading_limit)
    threads: list[Callable[[], None]] = [clients.run, freshness.run, guard.run, follower.appender.run,
                                         lambda: log.watch(follower.appender.arrived, follower.changed)]
    for thread in threads:
        threading.Thread(target=lasting, args=(thread, follower), daemon=True).start()
    try:
        follower.run()
    except Halt as error:
        say(f"halted: {error}")
        halted.write_text(f"{error}\n", encoding="utf-8")
        return HALTED
    finally:
        del lock
    return 0


def main() -> None:
    if len(sys.argv) != 2:
        print(__doc__, file=sys.stderr)
        raise SystemExit(2)
    os.umask(0o077)
    status = start(read_settings(sys.argv[1]))
    sys.stderr.flush()
    # threads of clients may wait for what does not come any more
    os._exit(status)
