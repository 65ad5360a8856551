"""Refuses an entry that no member can do: from then on no member does it, and its client is told so.

    refuse CONFIG POSITION

It is done by an entry of its own, which a majority of the machines confirms. Each member must have failed at the entry
and promised not to do it, so nobody has been answered of it. Status 0 where it is refused, 1 where a member has not
promised that, or there is no such entry, 2 for wrong settings or operands, 3 where no majority answers.
"""
from __future__ import annotations

import json
import sys

from replica.doing import REFUSE
from replica.entries import Entry, entry_at
from replica.errors import Halt, NotTaken, Unclear
from replica.etcd import Etcd, absent, get, has, none_after, put
from replica.log import Log
from replica.settings import read_settings

TRIES = 5


class NotRefused(Exception):
    """The entry stays as it is."""


def refuse(log: Log, position: int) -> int:
    """Gives the position of the entry that refuses another one. NotRefused where that may not be."""
    for _ in range(TRIES):
        outcome = try_refuse(log, position)
        if outcome is not None:
            return outcome
    raise NotRefused("the members change just now: try again")


def try_refuse(log: Log, position: int) -> int | None:
    """One transaction; None where something changed after it was looked at."""
    top = log.top
    revision, rows = log.etcd.read([
        get(log.entry_key(position)), get(top + "members/", top + "members0"), get(top + "blocked/", top + "blocked0"),
        get(top + "tail"), get(log.refused_key(position))])
    entry, members, blocked, tail, refused = rows
    if refused:
        return int(refused[0][1])
    if not entry:
        raise NotRefused(f"the log has no entry {position}")
    names = [key.rpartition("/")[2] for key, _ in members]
    positions = {key.rpartition("/")[2]: int(value) for key, value in blocked}
    others = [name for name in names if positions.get(name) != position]
    if others or not names:
        raise NotRefused(f"not promised by {', '.join(others) or 'any member'}: a member promises once it has failed "
                         "at the entry three times; start it, or strike it off")
    last, value = int(tail[0][1]) + 1, own_value(log, entry_at(*entry[0]))
    done, _ = log.etcd.transact(
        [has(top + "tail", str(last - 1)), absent(log.refused_key(position)),
         none_after(revision, top + "members/", top + "members0"),
         *(has(f"{top}blocked/{name}", str(position)) for name in names)],
        [put(top + "tail", str(last)), put(log.entry_key(last), value), put(log.refused_key(position), str(last)),
         put(f"{top}keys/refuse-{position}", f"{last} -")])
    return last if done else None


def own_value(log: Log, entry: Entry) -> bytes:
    """Returns the value of the entry that refuses another one."""
    head = {"key": f"refuse-{entry.position}", "kind": REFUSE, "member": log.member, "program": entry.program}
    return json.dumps(head).encode() + b"\n" + str(entry.position).encode()


def main() -> None:
    if len(sys.argv) != 3 or not (sys.argv[2].isascii() and sys.argv[2].isdigit() and len(sys.argv[2]) < 16):
        print(__doc__, file=sys.stderr)
        raise SystemExit(2)
    settings = read_settings(sys.argv[1])
    log = Log(settings, Etcd(settings.etcd, settings.tls()), "")
    try:
        last = refuse(log, int(sys.argv[2]))
    except (NotRefused, Halt) as error:
        print(f"not refused: {error}", file=sys.stderr)
        raise SystemExit(1) from error
    except (NotTaken, Unclear) as error:
        print(f"perhaps not refused, call it again: {error}", file=sys.stderr)
        raise SystemExit(3) from error
    print(f"entry {int(sys.argv[2])} is refused by entry {last}")
