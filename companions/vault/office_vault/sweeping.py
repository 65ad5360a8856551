"""The sweep: an object goes if no record names it, and that was so, with the same stamp, a grace ago.

1. The objects are listed with their stamps. 2. The clock is read. 3. The office is asked. 4. What new records name is
noted, and what nobody names, with the time of 2. 5. What an earlier sweep noted a grace ago, with the same stamp, is
moved out of reach, object by object, if it still has that stamp. 6. What was moved is noted, removed and reported. A
kill at any instant leaves what the next sweep continues with.
"""
import contextlib
import time
from dataclasses import dataclass, field
from pathlib import Path

from office_common.errors import IMPOSSIBLE, Refused
from office_common.files import copies_in, sync

from office_vault import offices, opening, reports
from office_vault.copies import Copied
from office_vault.objects import Stamp, Vault
from office_vault.offices import Metadata, Office
from office_vault.state import State

GRACE = 86_400.0
MANY = 100
UNSURE = 4
"""the status of a sweep that is refused until an argument is added"""
OTHER = "If it was restored from a backup, say --restored"
now = time.time


@dataclass(frozen=True)
class Rules:
    """When an object goes: how long it was unnamed, and whether more may go at once than stay."""

    grace: float = GRACE
    is_restored: bool = False
    may_be_many: bool = False
    lines: dict[str, str] = field(default_factory=dict)


def finish(vault: Vault, state: State) -> None:
    """Removes what was moved out of reach, by this sweep or by one that was killed, and reports it once."""
    number = state.last()[0]
    names = sorted(path.name for path in vault.going.iterdir())
    with state:
        pending = {digest.hex() for digest, in state.rows("SELECT digest FROM gone WHERE at IS NULL")}
        rows = [(number, bytes.fromhex(name), (vault.going / name).stat().st_size)
                for name in names if name not in pending]
        state.tables.executemany("INSERT INTO gone VALUES (?, ?, ?, NULL)", rows)
    for name in names:
        (vault.going / name).unlink()
    sync(vault.going)
    with state:
        state.tables.execute("UPDATE gone SET at = ? WHERE at IS NULL", [now()])
    reports.write_missing(vault, state)


def begin(vault: Vault, state: State) -> float:
    """Finishes an earlier sweep, lists the objects, and only then reads the clock."""
    vault.clear()
    finish(vault, state)
    state.listed(vault.stamps())
    began = now()
    if began < state.last()[1]:
        raise Refused(IMPOSSIBLE, "the clock is before that of the last sweep: set it right, or wait")
    return began


def compare(office: Office, number: int, digest: str, has_ended: bool) -> Metadata:
    """Asks for a record that an earlier sweep read, and refuses another office: a wrong one, or one that went back."""
    metadata = office.metadata(number)
    if metadata is None or metadata.digest != digest:
        raise Refused(UNSURE, f"record {number} is not the one that an earlier sweep read: is this another office? {OTHER}")
    if has_ended and metadata.is_here:
        raise Refused(UNSURE, f"record {number} had ended, and is here again. {OTHER}")
    return metadata


def learn(state: State, office: Office) -> None:
    """Notes what records name that were filed since the last sweep, and which ended."""
    for last in state.last_ones():
        compare(office, *last)
    old = {record: compare(office, record, digest, False) for record, digest in state.naming()}
    number = state.last_record() + 1
    while (metadata := office.metadata(number)) is not None:
        state.learn(number, metadata, offices.reading(office, number, metadata))
        number += 1
    state.ended({record: metadata for record, metadata in old.items() if not metadata.is_here})
    state.name_all()
    state.compare_classes({record: metadata.code for record, metadata in old.items()})


def decide(state: State, began: float, rules: Rules) -> list[tuple[str, Stamp]]:
    """Notes the sweep and what is unnamed, and returns what goes."""
    state.see(began)
    due = state.due(began, rules.grace)
    there, unnamed = state.counts()
    stay = there - len(due)
    if len(due) > max(MANY, stay) and not rules.may_be_many:
        raise Refused(UNSURE, f"{len(due)} objects would go and {stay} would stay. If that is right, say --many")
    counts = (state.last()[0] + 1, began, there - unnamed, unnamed - len(due))
    state.tables.execute("INSERT INTO sweeps VALUES (?, ?, ?, ?)", counts)
    return due


def move(vault: Vault, due: list[tuple[str, Stamp]]) -> None:
    """Moves out of reach what goes; that it is out is on the disk then."""
    folders = {vault.path(digest).parent for digest, stamp in due if vault.take_out(digest, stamp)}
    sync(vault.going)
    for folder in sorted(folders):
        sync(folder)


def end(vault: Vault, state: State, due: list[tuple[str, Stamp]]) -> Path:
    move(vault, due)
    finish(vault, state)
    return reports.path(vault, state.last()[0])


def sweep(vault: Vault, place: str, rules: Rules = Rules()) -> Path:
    """Sweeps the vault of the office at an address, or in FILE, and returns the report."""
    with vault.sweeping(), contextlib.closing(State(vault.folder)) as state:
        began = begin(vault, state)
        with opening.opened(place, vault.work, rules.lines) as office, state:
            if rules.is_restored:
                state.forget()
            learn(state, office)
            due = decide(state, began, rules)
            if due:
                # what was read once counts only if each record is still the one that was read
                for known in state.known():
                    compare(office, *known)
        return end(vault, state, due)


def sweep_copies(vault: Vault, folder: Path, rules: Rules = Rules()) -> Path:
    """Sweeps a vault that is kept beside copies of the office: an object goes that no copy names."""
    with vault.sweeping(), contextlib.closing(State(vault.folder)) as state:
        began = begin(vault, state)
        copies = copies_in(folder)
        if not copies:
            raise Refused(IMPOSSIBLE, f"there is no copy in {folder}")
        with state:
            for copy in copies:
                with contextlib.closing(Copied(copy)) as office:
                    for _, _, reading in offices.readings(office):
                        state.name(digest for digest, _ in reading.names)
            due = decide(state, began, rules)
        return end(vault, state, due)
