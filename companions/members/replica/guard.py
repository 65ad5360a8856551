"""The guard: an office that hangs is found, and killed, so that it is started again.

A reading that takes longer than the limit hangs. An entry may take as long as it needs. An office hangs that has used no
processor for a while though somebody waits. One that nobody asks is asked now and then, so that it is found within 30
seconds in each case. After half of that time the member tells that its office does nothing.
To kill an office is safe at any moment: what it had answered is in FILE, and else the member goes back to a snapshot.
"""
from __future__ import annotations

import pathlib
import subprocess
import threading
import time

from replica.errors import say
from replica.office import Office
from replica.service import Service

LOOK_SECONDS = 1
ASK_SECONDS = 5
"""between two questions of the guard's own"""
STILL_SECONDS = 20
"""without the use of a processor while somebody waits"""


def ticks_of(process: subprocess.Popen[bytes]) -> int | None:
    """Returns the processor time that a process has used, or None where there is none of it."""
    try:
        stat = pathlib.Path(f"/proc/{process.pid}/stat").read_text(encoding="utf-8", errors="replace")
    except OSError:
        return None
    fields = stat.rpartition(")")[2].split()
    return int(fields[11]) + int(fields[12])


class Guard:
    """What was last seen of the office; for one thread."""

    def __init__(self, service: Service, limit: int) -> None:
        self.service, self.limit = service, min(limit, STILL_SECONDS)
        self.office: Office = service.follower.office
        self.seen: tuple[float, int, int] | None = None
        self.still = self.asked = time.monotonic()

    def run(self) -> None:
        """Looks again and again. Never returns."""
        while True:
            time.sleep(LOOK_SECONDS)
            try:
                self.look()
                if time.monotonic() - self.asked > min(ASK_SECONDS, self.limit):
                    self.asked = time.monotonic()
                    threading.Thread(target=self.service.ask_if_free, args=(self.limit,), daemon=True).start()
            except Exception as error:  # without this thread nobody would find an office that hangs
                say(f"the office is not looked at: {error!r}")

    def look(self) -> None:
        """Kills an office for which somebody waits, and which has done nothing for a while."""
        owes, process = self.office.owes, self.office.process
        ticks = None if owes is None or process is None else ticks_of(process)
        if owes is None or process is None or ticks is None:
            self.seen, self.office.is_still = None, False
            return
        state, now = (owes, process.pid, ticks), time.monotonic()
        if state != self.seen:
            self.seen, self.still = state, now
        self.office.is_still = now - self.still > self.limit / 2
        if now - self.still > self.limit:
            say(f"the office has done nothing for {self.limit} seconds while somebody waits: it is started again")
            self.seen = None
            self.office.kill()
