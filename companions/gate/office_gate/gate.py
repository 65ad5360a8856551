"""What one gate has open: its settings, the journal, what it knows, the office; and how it acts for a name."""
import asyncio
import contextlib
import sqlite3
import sys
import time
import traceback
from collections.abc import AsyncIterator
from dataclasses import dataclass, field, replace
from functools import partial

from office_gate import body, deciding, members, settings
from office_gate.access import Access
from office_gate.acts_index import ActsIndex
from office_gate.body import Json
from office_gate.budget import Budget, share_of
from office_gate.catalogue import Aggregations, Catalogue
from office_gate.catching import catch_up
from office_gate.chain import START, Head, digest
from office_gate.clock import Clock
from office_gate.contents import require, unneeded
from office_gate.deciding import Caller
from office_gate.errors import Answered, Refused, say
from office_gate.eyes import Eyes
from office_gate.facts import Facts
from office_gate.journal import Journal
from office_gate.journaled import WHOLE, answered, line_of
from office_gate.metrics import Metrics
from office_gate.office import UNKNOWN, Answer, Office
from office_gate.own_catalogue import OwnCatalogues
from office_gate.possession import Possession
from office_gate.questions import Questions
from office_gate.scopes import Scopes
from office_gate.stating import check_reader
from office_gate.turns import AtOnce, Turns

Written = asyncio.Future[Head]
"""the line of an answer, once it is on the disk"""
LONG = 65_536
"""the bytes of a list above which the journal names it before it is read, and one is read at a time"""


@dataclass
class Gate:
    """The parts of a gate, made by `starting.opened`."""

    access: Access
    token: str
    journal: Journal
    facts: Facts
    catalogue: Catalogue
    office: Office
    index: ActsIndex
    own: OwnCatalogues
    clock: Clock
    metrics: Metrics = field(default_factory=Metrics)
    requests: AtOnce = field(default_factory=AtOnce)
    lists: AtOnce = field(default_factory=AtOnce)
    # one long list is read at a time, and one list of acts is judged and done
    reading: Turns = field(default_factory=lambda: Turns(1))
    acting: Turns = field(default_factory=lambda: Turns(1))
    refusals: Budget = field(default_factory=Budget)
    is_behind: bool = False
    # the line of the last answer, which may be on its way to the disk
    last: Written | None = None
    # the settings of which the journal says that they count
    noted: str = ""

    # ---- settings

    async def reload(self) -> None:
        """Takes the settings as they are now, if nothing is wrong with them, and opens the journal anew."""
        try:
            access = settings.read(self.access.path)
            if self.office.stating is not None:
                check_reader(access, self.office.stating.reader)
        except Refused as refused:
            say(f"the settings stay as they were: {refused}")
        else:
            is_new, self.access = access.digest != self.access.digest, access
            if is_new:
                say(f"new settings, SHA-256 {access.digest}")
        # a full disk does not keep a rotation from taking effect
        with contextlib.suppress(Answered):
            await self.note_settings()
        with contextlib.suppress(Answered):
            await self.journal.turn()

    async def note_settings(self) -> None:
        """Writes which settings count, if the journal does not say so. Nothing is decided by others."""
        before, now = self.noted, self.access.digest
        if before == now:
            return
        self.noted = now
        try:
            await self.journal.append({"what": "settings", "sha256": now})
        except Answered:
            if self.noted == now:
                self.noted = before
            raise

    def aggregations(self) -> Aggregations:
        aggregations, is_new = self.catalogue.read()
        if is_new:
            self.facts.extend(aggregations)
        return aggregations

    # ---- acts

    async def acts(self, caller: Caller, data: bytes) -> tuple[Answer, Head]:
        """Does the acts of a list for a name. Answered says that it may not: then nothing was done."""
        entry = self.head(caller, "POST /acts") | {"body": {"bytes": len(data), "sha256": digest(data)}}
        async with self.refusing(entry):
            async with self.reading_one(caller, entry, len(data)):
                acts = await self.read(caller, entry, data)
                plain, parts = await members.journaled(acts)
                entry["acts"] = plain
            questions = Questions(self.office, self.catalogue)
            await self.ask_ahead(caller, acts, questions)
            async with self.acting.turn(caller.person.name, caller.ends):
                while True:
                    access, caller = await self.now(caller, entry)
                    if earlier := await self.judge(access, caller, acts, questions):
                        entry["earlier"] = earlier
                    sent = await body.bytes_of(await deciding.signed(caller.person, acts))
                    entry["acts"] = await deciding.signed(caller.person, plain)
                    if files := await self.possess(caller, acts, questions):
                        entry["files"] = files
                    if parts and "contents" not in entry:
                        entry["contents"] = await self.journal.in_thread(self.keep, parts)
                    if self.counts(access):
                        break
                answer, written = await self.send(caller, entry, "/acts", sent)
        answer, head = await self.durable(answer, written)
        if parts:
            await self.take_back(entry, answer)
        return answer, head

    def keep(self, parts: list[bytes]) -> dict[str, object]:
        """Writes contents beside the journal, if the disks have room for more than them."""
        contents = self.journal.contents
        require((contents.folder, self.journal.path.parent), sum(map(len, parts)), self.access.free_bytes)
        return contents.add(parts)

    async def take_back(self, entry: Json, answer: Answer) -> None:
        """Frees the contents that the office did not take. The journal has its answer, so no replay needs them."""
        place = entry["contents"]
        if spans := unneeded(entry["acts"], place["from"], answered(START, answer)):
            with contextlib.suppress(Answered):
                await self.journal.in_thread(self.journal.contents.take_back, place["day"], spans)

    @contextlib.asynccontextmanager
    async def reading_one(self, caller: Caller, entry: Json, length: int) -> AsyncIterator[None]:
        """Lets one long list at a time be read, which the journal names before. A short one need not wait."""
        name = caller.person.name
        if length <= LONG:
            yield
            return
        if self.refusals.is_spent(name, self.access.journal_bytes):
            raise Answered(429, "often")
        came = line_of("came", entry, False)
        await self.journal.append(came, is_durable=False)
        try:
            async with self.reading.turn(name, caller.ends):
                yield
        except Answered:
            self.refusals.spend(name, len(body.text_of(came)))
            raise

    async def read(self, caller: Caller, entry: Json, data: bytes) -> list[Json]:
        """Reads a list of acts. Whoever lacks the right to a kind of them costs nobody a turn."""
        values = await body.list_of(data)
        entry |= {"count": len(values), "kinds": deciding.kinds_in(values)}
        acts = body.acts_of(values)
        await deciding.kinds(caller.person, acts)
        return acts

    async def ask_ahead(self, caller: Caller, acts: list[Json], questions: Questions) -> None:
        """Asks for what a run's opening needs of many records, while others act. It is judged under the turn."""
        days = [str(act.get("day")) for act in acts if act["act"] == "open-run"]
        if not days:
            return
        eyes = Eyes(self.access, self.facts, self.aggregations(), questions)
        if not eyes.asks_of_records():
            return
        with self.lists.one(caller.person.name, self.access.lists_at_once):
            questions.is_ahead = True
            try:
                async with asyncio.timeout_at(caller.ends):
                    await eyes.opened(caller.person, days[0], 0)
            except TimeoutError:
                raise Answered(503, "office") from None
            except Answered as refused:
                if refused.status >= 500:
                    raise
            finally:
                questions.is_ahead = False

    async def now(self, caller: Caller, entry: Json) -> tuple[Access, Caller]:
        """Returns the settings of this moment, and who a name is by them. The line of the request names them."""
        await self.note_settings()
        access = self.access
        entry.pop("earlier", None)
        entry["settings"] = access.digest
        return access, replace(caller, person=access.person(caller.person.name))

    def counts(self, access: Access) -> bool:
        """Reports whether settings are still those that count, and the journal says so."""
        return self.noted == self.access.digest == access.digest

    async def judge(self, access: Access, caller: Caller, acts: list[Json], questions: Questions) -> list[int]:
        """Judges a list by these settings, while nobody else acts. Returns the places of acts with an earlier day."""
        person = caller.person
        await deciding.kinds(person, acts)
        await deciding.sign(person, acts)
        await self.clock.need(self.journal)
        earlier = await deciding.days(access, person, acts)
        await deciding.reasons(access, caller, acts)
        await self.recover()
        known = self.aggregations()
        try:
            async with asyncio.timeout_at(caller.ends):
                await deciding.classes(person, acts, Scopes(known, partial(questions.record, person.name)))
                await Eyes(access, self.facts, known, questions).acts(person, acts)
        except TimeoutError:
            raise Answered(503, "office") from None
        return earlier

    async def possess(self, caller: Caller, acts: list[Json], questions: Questions) -> list[Json]:
        """Refuses contents that name a file of the vault which is not the name's. Returns what they name."""
        if not caller.has_vault:
            return []
        try:
            async with asyncio.timeout_at(caller.ends):
                record = partial(questions.record, caller.person.name)
                return await Possession(self.facts.files, caller.person, record).judge(acts)
        except TimeoutError:
            raise Answered(503, "office") from None

    async def resume(self, caller: Caller) -> tuple[Answer, Head]:
        """Carries out the run that is open."""
        entry = self.head(caller, "POST /run/resume")
        async with self.refusing(entry):
            deciding.resume(self.access, caller)
            await self.clock.need(self.journal)
            async with self.acting.turn(caller.person.name, caller.ends):
                await self.recover()
                while True:
                    access, caller = await self.now(caller, entry)
                    deciding.resume(access, caller)
                    questions = Questions(self.office, self.catalogue)
                    await Eyes(access, self.facts, self.aggregations(), questions).carry_out(caller.person)
                    if self.counts(access):
                        break
                answer, written = await self.send(caller, entry, "/run/resume", None)
        return await self.durable(answer, written)

    async def send(self, caller: Caller, entry: Json, path: str, data: bytes | None) -> tuple[Answer, Written]:
        """Sends what acts. It is in the journal before the office has it."""
        began = time.monotonic()
        head = await self.journal.append(line_of("asked", entry, True))
        try:
            answer = await self.office.post(caller.person.name, path, data, caller.lines, caller.ends)
        except Answered as closed:
            answer = Answer(closed.status, body.text_of(closed.body()).encode())
        except Exception as error:
            say(f"the office is not asked as it should be: {error!r}")
            answer = UNKNOWN
        line = answered(head, answer)
        # the next act is decided while the disk takes this line
        self.last = written = asyncio.ensure_future(self.journal.append(line))
        await asyncio.sleep(0)
        self.learn(entry, line, head)
        self.metrics.note("act", answer.status, time.monotonic() - began)
        return answer, written

    async def durable(self, answer: Answer, written: Written) -> tuple[Answer, Head]:
        """Waits until an answer is in the journal. If it does not get there, nobody is told what was done."""
        try:
            return answer, await written
        except Answered:
            return UNKNOWN, self.journal.written

    def learn(self, entry: Json, line: Json, head: Head) -> None:
        """Takes what was done into what the gate knows. If the disk does not take it, no act follows before it does."""
        try:
            self.facts.begin()
            self.facts.fold(entry, line, head.line, time.time())
            self.facts.commit(self.journal.head)
            self.facts.extend(self.catalogue.known)
        except Exception as error:
            say(f"what was done is not noted: {error!r}")
            self.facts.undo()
            self.is_behind = True

    async def recover(self) -> None:
        """Takes from the journal what was not noted, or refuses to act."""
        if not self.is_behind:
            return
        if self.last:
            await asyncio.wait([self.last])
        try:
            self.facts.forget()
            catch_up(self.journal.path, self.facts, self.journal.written)
            self.facts.extend(self.catalogue.known)
        except (sqlite3.Error, OSError) as error:
            self.facts.undo()
            raise Answered(503, "journal") from error
        self.is_behind = False

    @contextlib.asynccontextmanager
    async def refusing(self, entry: Json) -> AsyncIterator[None]:
        """Writes the line of an act that does not get to the office, with all that is known of it by then."""
        try:
            yield
        except Answered as refused:
            if "contents" in entry:
                await self.take_back(entry, Answer(refused.status, b""))
            await self.refuse(entry, refused)
            raise
        except Exception as error:
            traceback.print_exc(file=sys.stderr)
            await self.refuse(entry, Answered(500, "gate"))
            raise Answered(500, "gate") from error

    async def refuse(self, entry: Json, refused: Answered) -> None:
        """Writes the line of a refusal. Answered 429 `often` says that this name has no more of them today."""
        self.metrics.note("refused", refused.status, 0.0)
        name, most = share_of(str(entry["name"]), refused.word), self.access.journal_bytes
        if refused.status < 500 and self.refusals.is_spent(name, most):
            raise Answered(429, "often")
        line = line_of("refused", entry, refused.word in WHOLE)
        line |= {"status": refused.status, "answer": refused.body()}
        self.refusals.spend(name, len(body.text_of(line)))
        is_last = refused.status < 500 and self.refusals.is_spent(name, most)
        await self.journal.append(line | ({"last": True} if is_last else {}), is_durable=False)

    def head(self, caller: Caller, request: str) -> dict[str, object]:
        """What each line says of a request."""
        head: dict[str, object] = {"name": caller.person.name, "from": caller.origin, "request": request}
        if caller.reason:
            head["reason"] = caller.reason
        if key := caller.lines.get("Idempotency-Key"):
            head["key"] = key[:200]
        return head

    async def put(self, caller: Caller, request: str) -> None:
        """Writes the line of a file that goes into the vault now, whose digest its path names."""
        self.metrics.note("put", 204, 0.0)
        await self.journal.append({"what": "put", **self.head(caller, request)})

    async def stored(self, caller: Caller, digest: str, length: int) -> None:
        """Writes the line of a file that is in the vault now: this name had its bytes."""
        self.metrics.note("stored", 201, 0.0)
        # a later line may be noted before this one is on the disk, and says that all lines before it are noted
        self.facts.files.store(caller.person.name, digest, length, time.time())
        await self.journal.append({"what": "stored", **self.head(caller, f"PUT /vault/{digest}"), "bytes": length})

    async def note(self, caller: Caller, request: str, status: int, length: int) -> None:
        """Writes the line of a reading."""
        self.metrics.note("read", status, 0.0)
        if self.access.journals_readings or status >= 400:
            # a reason is for acts: every name that has a password reads something
            line = {"what": "read", "name": caller.person.name, "from": caller.origin, "request": request,
                    "status": status, "bytes": length}
            await self.journal.append(line, is_durable=False)
