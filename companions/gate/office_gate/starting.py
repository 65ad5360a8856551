"""How a gate begins: it finds the end of its journal, and takes what the lines say into what it knows."""
import asyncio
from dataclasses import dataclass
from pathlib import Path

from office_gate import alone, chain, deciding, settings
from office_gate.acts_index import ActsIndex
from office_gate.catalogue import Catalogue
from office_gate.catching import catch_up, unanswered
from office_gate.checking import moment_of
from office_gate.clock import Clock
from office_gate.contents import Contents
from office_gate.errors import Refused, say
from office_gate.facts import Facts
from office_gate.gate import Gate
from office_gate.journal import Journal
from office_gate.office import Office
from office_gate.own_catalogue import OwnCatalogues
from office_gate.standing import Standing
from office_gate.stating import Stating, check_reader

LEAST_TOKEN = 32


@dataclass(frozen=True)
class Paths:
    """Where a gate has its files."""

    settings: Path
    journal: Path
    state: Path
    token: Path
    catalogue: Path | None
    socket: Path | None
    # the secret of an office that decides too, and the name by which the gate itself asks
    office_token: Path | None = None
    office_reader: str | None = None
    # what an administrator who closes the office writes
    closed: Path | None = None


def token_of(path: Path) -> str:
    """Reads the token that nginx sends with each request."""
    try:
        text = path.read_text().strip()
    except (OSError, UnicodeDecodeError) as error:
        raise Refused(2, f"{path} is not read: {error}") from error
    if len(text) < LEAST_TOKEN or not text.isascii() or not text.isalnum():
        raise Refused(2, f"{path} has no token of {LEAST_TOKEN} letters and digits or more: openssl rand -hex 32")
    return text


def opened(paths: Paths, address: str) -> Gate:
    """Opens all parts. The journal's first line is written by `begin`."""
    access = settings.read(paths.settings)
    token = token_of(paths.token)
    journal = Journal(paths.journal, Contents(paths.state / "contents").make())
    journal.open()
    last = chain.last_entry(chain.files_of(paths.journal))
    gate = Gate(access, token, journal, Facts(paths.state / "facts.db"), Catalogue(paths.catalogue), Office(address),
                ActsIndex(paths.state / "history.db", paths.journal), OwnCatalogues(paths.state / "catalogues"),
                Clock(paths.state, moment_of(last) if last else None))
    gate.office.stating = stating_of(paths, gate)
    gate.office.standing = Standing(paths.closed)
    return gate


def stating_of(paths: Paths, gate: Gate) -> Stating | None:
    """Returns what states to the office who asks; None for an office that does not decide."""
    if paths.office_token is None or paths.office_reader is None:
        if (paths.office_token, paths.office_reader) != (None, None):
            raise Refused(2, "--office-token and --office-reader need each other")
        return None
    check_reader(gate.access, paths.office_reader)
    return Stating(token_of(paths.office_token), paths.office_reader, lambda: deciding.today(gate.access))


async def begin(gate: Gate) -> None:
    """Writes that the gate is open, and which requests an end of the gate left without an answer."""
    for sentence in alone.statement(gate.access):
        say(sentence)
    await gate.journal.append({"what": "opened", "settings": gate.access.digest})
    gate.noted = gate.access.digest
    for line in unanswered(gate.journal.path, gate.facts):
        await gate.journal.append({"what": "answered", "of": line, "status": 0, "known": False})
    catch_up(gate.journal.path, gate.facts, gate.journal.head)
    gate.facts.extend(gate.aggregations())
    if gate.clock.is_believed():
        await asyncio.to_thread(gate.journal.contents.prune, gate.access.content_days)
    await gate.clock.note(gate.journal)
    gate.clock.keep(is_asked=True)
