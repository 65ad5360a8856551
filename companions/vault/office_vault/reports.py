"""The report of a sweep, made of the state alone: what went, which records had named it, which runs ended these."""
import hashlib
import time
from pathlib import Path

from office_common import files

from office_vault.objects import Vault
from office_vault.state import State

BECAUSE = """
SELECT record, ref, run, outcome FROM names JOIN naming USING (record) WHERE digest = ? ORDER BY record"""
KEPT = """
SELECT digest, record, ref, run, outcome, by FROM kept JOIN naming USING (record) WHERE sweep = ?
  ORDER BY digest, record"""

SHARED = "SELECT digest, classes FROM shared WHERE sweep = ? ORDER BY digest"


def path(vault: Vault, number: int) -> Path:
    return vault.reports / f"sweep-{number:06}.txt"


def moment(seconds: float) -> str:
    return time.strftime("%Y-%m-%dT%H:%M:%SZ", time.gmtime(seconds))


def row(*values: object) -> str:
    """Writes one line of a report, with tabs; what is not known is a hyphen."""
    return "\t".join("-" if it is None else it.hex() if isinstance(it, bytes) else str(it) for it in values)


def text(state: State, number: int) -> str:
    """Writes the report of a sweep. An object has a line for each record that named it, or one if none is known."""
    began, named, waiting = state.rows("SELECT began, named, waiting FROM sweeps WHERE number = ?", number)[0]
    gone = state.rows("SELECT digest, length FROM gone WHERE sweep = ? ORDER BY digest", number)
    kept = state.rows(KEPT, number)
    lines = [f"SWEEP {number}", f"BEGAN {moment(began)}", f"NAMED {named}", f"WAITING {waiting}", f"GONE {len(gone)}"]
    for digest, length in gone:
        because = state.rows(BECAUSE, digest) or [(None,) * 4]
        lines += [row("OBJECT", digest, length, *it) for it in because]
    lines += [f"KEPT {len(kept)}", *(row("BY-RECORD", *it) for it in kept)]
    shared = state.rows(SHARED, number)
    lines += [f"SHARED {len(shared)}", *(row("IN-CLASSES", digest, *classes.split()) for digest, classes in shared)]
    body = "".join(f"{it}\n" for it in lines)
    return f"{body}SHA256 {hashlib.sha256(body.encode()).hexdigest()}\n"


def write_missing(vault: Vault, state: State) -> None:
    """Writes the report of the last sweep, and those that a kill left unwritten."""
    for number, in state.rows("SELECT number FROM sweeps"):
        if not path(vault, number).exists():
            files.write(path(vault, number), text(state, number).encode(), 0o640)
