"""What becomes of a sign-in: who somebody is, with which roles, and what the journal, the gates and the mail get of it."""
import asyncio
import contextlib
import datetime
import secrets
import time
from collections import OrderedDict
from collections.abc import Callable
from concurrent.futures import ThreadPoolExecutor
from pathlib import Path
from typing import NamedTuple, TypeVar

from office_common import files
from office_common.command import ERROR, report

from office_signin import local_names
from office_signin.attempts import Attempts
from office_signin.clock import Moment, now
from office_signin.directory import Away, Known, Ldap
from office_signin.journal import Journal
from office_signin.people import KEPT_DAYS, People, gate_name, person_of
from office_signin.provider import Provided
from office_signin.sessions import Session, Sessions
from office_signin.settings import DIRECTORY, PROVIDER, Program, Settings

Value = TypeVar("Value")
LOCAL, TOKEN = "local", "token"
"""ways to sign in, beside the directory and the provider"""
LEAST_SECONDS = 1.0
"""a refusal comes after so long, whatever was looked at: nobody learns which names are local, or there at all"""
GATE_SECONDS = 5.0
"""so long a sign-in waits for the gates to know it; they learn it later all the same"""
DIRECTORY_AT_ONCE, HASHES_AT_ONCE, MOST_WAITING = 16, 2, 64
MOST_TOKENS_KEPT = 10_000


class Refusal(Exception):
    """A sign-in that came to nothing: the word of the page, and the status."""

    def __init__(self, status: int, word: str) -> None:
        super().__init__(word)
        self.status, self.word = status, word


class Places(NamedTuple):
    """The files of the service: its journal, its state, and what the gates were given last."""

    journal: Path
    state: Path
    given: Path


class Line:
    """Threads for questions that take a while, with a limit to who waits for them."""

    def __init__(self, at_once: int) -> None:
        self.threads = ThreadPoolExecutor(at_once)
        self.waiting = 0

    async def run(self, work: Callable[[], Value]) -> Value:
        """Runs work in a thread. Refusal says that too many wait."""
        if self.waiting >= MOST_WAITING:
            raise Refusal(503, "busy")
        self.waiting += 1
        try:
            return await asyncio.get_running_loop().run_in_executor(self.threads, work)
        finally:
            self.waiting -= 1


class SigningIn:
    """All that knows who is who."""

    def __init__(self, settings: Settings, places: Places) -> None:
        self.settings, self.places = settings, places
        self.sessions, self.attempts = Sessions(settings.times), Attempts()
        self.people, self.journal = People(places.state / "people.json"), Journal(places.journal)
        self.ldap = Ldap(settings.directory) if settings.directory else None
        self.provided = Provided(settings.provider, settings.site) if settings.provider else None
        self.asking, self.hashing = Line(DIRECTORY_AT_ONCE), Line(HASHES_AT_ONCE)
        self.tokens: OrderedDict[tuple[str, str, str], int] = OrderedDict()

    def day(self, moment: Moment, before: int = 0) -> str:
        """Returns the day of a moment, or one so many days before, in the zone of the offices."""
        here = datetime.datetime.fromtimestamp(moment.wall, self.settings.times.zone)
        return (here.date() - datetime.timedelta(days=before)).isoformat()

    # ---- people

    async def by_password(self, name: str, password: str, address: str) -> str:
        """Signs somebody in by a password, and returns the key of the session."""
        began = time.monotonic()
        try:
            return await self.looked_at(name, password, address)
        except Refusal:
            await asyncio.sleep(max(0.0, began + LEAST_SECONDS - time.monotonic()))
            raise

    async def looked_at(self, name: str, password: str, address: str) -> str:
        """Looks at a password, unless the name or the address waits for an earlier wrong one."""
        machine = now().machine
        if self.attempts.waits(name, address, machine):
            self.refused(name, address, "often")
            raise Refusal(429, "often")
        self.attempts.begin(name, address, machine)
        if name in self.settings.local or self.ldap is None:
            return await self.by_local_name(name, password, address)
        ldap = self.ldap
        try:
            known = await self.asking.run(lambda: ldap.sign_in(name, password))
        except Away as away:
            report("office-sign-in", f"the directory is away: {away}", ERROR)
            # no password was looked at, so this was no guess
            self.attempts.forgive(name, address)
            self.refused(name, address, "away")
            raise Refusal(503, "away") from away
        if known is None:
            self.refused(name, address, "wrong")
            raise Refusal(401, "wrong")
        self.attempts.forgive(name, address)
        return await self.known(known, DIRECTORY, address)

    async def by_local_name(self, name: str, password: str, address: str) -> str:
        """Signs in by a name of this site. Each use is a mail, a right password or not."""
        if not await self.hashing.run(lambda: local_names.is_right(self.settings, name, password)):
            self.refused(name, address, "wrong")
            if name in self.settings.local:
                self.mail(f"A wrong password for the local name {name} came from {address}.")
            raise Refusal(401, "wrong")
        self.attempts.forgive(name, address)
        moment = now()
        line = self.journal.write("in", name=name, way=LOCAL, **{"from": address})
        self.mail(f"The local name {name} signed in from {address}: line {line} of the journal of sign-ins.")
        return self.sessions.begin(name, LOCAL, line, moment)[0]

    async def known(self, known: Known, way: str, address: str, refresh: str | None = None) -> str:
        """Begins the session of somebody whom the directory or the provider knows, once the gates know the roles."""
        moment, name = now(), gate_name(self.settings, known)
        person = person_of(self.settings, known, self.day(moment))
        members = {"name": name, "called": known.name, "groups": list(known.groups), "way": way, "from": address}
        if person is None:
            self.journal.write("refused", why="no-role", **members)
            self.forget(name)
            raise Refusal(403, "no-role")
        line = self.journal.write("in", roles=person.grants, **members)
        if self.people.put(name, person, self.day(moment, KEPT_DAYS)):
            await self.wait_for_gates()
        key, session = self.sessions.begin(name, way, line, moment)
        session.refresh = refresh
        return key

    def refused(self, name: str, address: str, why: str) -> None:
        """Notes a sign-in that came to nothing. What was typed as a name may be a password, so only a known one is there."""
        is_known = name in self.settings.local or any(person.name == name for person in self.people.kept.values())
        self.journal.write("refused", why=why, called=name if is_known else None, **{"from": address})

    def forget(self, name: str) -> int:
        """Ends what somebody has who has no role any more, and returns the count of sessions."""
        self.people.drop(name)
        return self.sessions.end_all(lambda session: session.name == name)

    async def wait_for_gates(self) -> None:
        """Waits until root gave the gates the table of people, or some seconds."""
        until = time.monotonic() + GATE_SECONDS
        while time.monotonic() < until and not self.gates_know():
            await asyncio.sleep(0.05)

    def gates_know(self) -> bool:
        """Whether the gates have the table of people as it is."""
        with contextlib.suppress(OSError):
            return self.places.given.read_text(encoding="ascii") == self.people.digest
        return False

    def sign_out(self, key: str) -> Session | None:
        """Ends a session, and returns it."""
        session = self.sessions.end(key)
        if session is not None:
            self.journal.write("out", name=session.name, of=session.line)
        return session

    # ---- programs

    def program(self, name: str, token: str, address: str) -> tuple[Program, int] | None:
        """Returns the program of a token, with the line of the journal: one for each day and address."""
        moment = now()
        program = local_names.program_of(self.settings, name, token, moment)
        if program is None:
            return None
        key = (name, address, self.day(moment))
        if key not in self.tokens:
            self.tokens[key] = self.journal.write("in", name=name, way=TOKEN, **{"from": address})
            while len(self.tokens) > MOST_TOKENS_KEPT:
                self.tokens.popitem(last=False)
        return program, self.tokens[key]

    # ---- groups, asked again

    async def ask_again(self) -> None:
        """Asks the directory, or the provider, about each person with a session. Whoever lost all roles is signed out."""
        self.sessions.sweep(now())
        for way in (DIRECTORY, PROVIDER):
            for session in list(self.sessions.of_way(way)):
                try:
                    await self.ask_again_about(session)
                except (Away, Refusal) as away:
                    report("office-sign-in", f"the groups of {session.name} are not asked again: {away}", ERROR)
        if not self.gates_know() and self.people.path.is_file():
            # whoever gives them to the gates looks once more
            self.people.write()

    async def ask_again_about(self, session: Session) -> None:
        """Asks about one person."""
        person = self.people.kept.get(session.name)
        known: Known | None = None
        if person is not None and session.way == DIRECTORY and self.ldap is not None:
            ldap, called, id_ = self.ldap, person.name, session.name.rpartition("@")[0]
            known = await self.asking.run(lambda: ldap.again(called, id_))
        elif person is not None and session.refresh is not None and self.provided is not None:
            provided, refresh = self.provided, session.refresh
            known, session.refresh = await self.asking.run(lambda: provided.again(refresh))
        elif person is not None and session.way == PROVIDER:
            # the provider gave nothing by which it could be asked: the session ends with the day
            return
        moment = now()
        again = person_of(self.settings, known, self.day(moment)) if known and gate_name(self.settings, known) == session.name else None
        if again is None:
            count = self.forget(session.name)
            self.journal.write("ended", name=session.name, of=session.line, sessions=count,
                               groups=list(known.groups) if known else None)
        elif person is None or again.grants != person.grants or again.groups != person.groups:
            self.journal.write("again", name=session.name, of=session.line, groups=list(again.groups), roles=again.grants)
            self.people.put(session.name, again, self.day(moment, KEPT_DAYS))

    async def go_on_asking(self, at_once: asyncio.Event) -> None:
        """Asks again for as long as the service runs, each time that it is due, and at once if that is wanted."""
        while True:
            with contextlib.suppress(TimeoutError):
                await asyncio.wait_for(at_once.wait(), self.settings.times.again_seconds)
            at_once.clear()
            try:
                await self.ask_again()
            except OSError as error:
                report("office-sign-in", f"groups are not asked again: {error}", ERROR)

    # ---- mails

    def mail(self, text: str) -> None:
        """Leaves a mail for the unit that sends it, and writes it into the journal of systemd."""
        report("office-sign-in", text, ERROR)
        folder = self.places.state / "mails"
        folder.mkdir(mode=0o750, exist_ok=True)
        name = f"{datetime.datetime.now(datetime.timezone.utc):%Y%m%dT%H%M%S}-{secrets.token_hex(4)}"
        files.write(folder / name, f"{text}\n".encode(), 0o640)
