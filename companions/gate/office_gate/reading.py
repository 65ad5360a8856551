"""What can be read through the gate: each path needs a right, and what lies in classes is shown by its class."""
import asyncio
import json
import re

from office_gate import deciding
from office_gate.access import Person
from office_gate.body import Json
from office_gate.catalogue_reading import CATALOGUE, CatalogueReading
from office_gate.deciding import Caller
from office_gate.errors import Answered
from office_gate.gate import Gate
from office_gate.history import History
from office_gate.office import Answer
from office_gate.rights import need
from office_gate.words import MAY, READS, VAULT

NUMBER = "[1-9][0-9]{0,9}"
DAY = "[0-9]{4}-[0-9]{2}-[0-9]{2}"
RECORD = re.compile(f"/records/({NUMBER})")
CONTENT = re.compile(f"/records/({NUMBER})/content")
FILES = re.compile(f"/records/({NUMBER})/files(?:/[1-9][0-9]{{0,5}})?")
LIST = re.compile(f"/due/{DAY}|/overdue/{DAY}/[0-9]{{1,9}}")
CERTIFICATE = re.compile(f"/certificates/{NUMBER}")
OBJECT = re.compile("/vault/[0-9a-f]{64}")
LIMITS = "/vault/limits"
"""what fits into the vault, for whoever puts a file in"""
KEYS = ("Office-Read", "Office-After")


def filtered(data: bytes, person: Person) -> bytes:
    """Returns the rows of a list whose classes the name may read, each as the office wrote it."""
    text, decoder, kept, at = data.decode(), json.JSONDecoder(), [], 1
    while at < len(text) - 1:
        row, end = decoder.raw_decode(text, at)
        if person.may_in("read lists", row["class"]):
            kept.append(text[at:end])
        at = end + 1
    return f"[{','.join(kept)}]".encode()


class Reading:
    """One reading of one name."""

    def __init__(self, gate: Gate, caller: Caller) -> None:
        self.gate, self.caller, self.person = gate, caller, caller.person

    async def office(self, path: str) -> Answer:
        """Asks the office for the name."""
        return await self.gate.office.get_for(self.person.name, path, self.passed())

    def passed(self) -> dict[str, str]:
        """Returns the lines that go on to a member."""
        return {name: value for name, value in self.caller.lines.items() if name in KEYS}

    async def own(self, path: str) -> Answer:
        """Asks the office for what this gate has to know before it decides."""
        return await self.gate.office.get(self.person.name, path, self.passed())

    async def answer(self, path: str) -> Answer:
        if path == "/rights":
            return given(self.rights())
        if path == "/alive":
            return await self.alive()
        if path == "/metrics":
            need(self.person, "health")
            return Answer(200, self.metrics().encode(), "text/plain; version=0.0.4")
        if match := RECORD.fullmatch(path):
            return await self.record(int(match[1]))
        if match := CONTENT.fullmatch(path):
            await self.may_content(int(match[1]))
            return await self.office(path)
        if LIST.fullmatch(path):
            return await self.list(path)
        if CERTIFICATE.fullmatch(path):
            return await self.certificate(path)
        if path.startswith("/history"):
            return await History(self.gate, self.caller).about(path)
        if path.startswith("/since"):
            return await History(self.gate, self.caller).since(path)
        if match := CATALOGUE.fullmatch(path):
            return await CatalogueReading(self.gate, self.caller).answer(match[1])
        raise Answered(404, "path")

    # ---- the office's paths

    async def record(self, number: int) -> Answer:
        need(self.person, "records")
        answer = await self.office(f"/records/{number}")
        if answer.status == 200:
            self.compare("records", answer.json())
        return answer

    def compare(self, thing: str, record: Json) -> None:
        if not self.person.may_in(f"read {thing}", record["class"], record["status"]):
            raise Answered(403, "class", read=thing)

    async def may_content(self, number: int) -> None:
        """Refuses the content of a record, and its files, to a name that may not read them."""
        need(self.person, "contents")
        if self.person.may_all("read contents"):
            return
        answer = await self.own(f"/records/{number}")
        if answer.status == 404:
            raise Answered(404, "content")
        if answer.status != 200:
            raise Answered(503, "office")
        self.compare("contents", answer.json())

    async def list(self, path: str) -> Answer:
        need(self.person, "lists")
        with self.gate.lists.one(self.person.name, self.gate.access.lists_at_once):
            answer = await self.office(path)
            if answer.status != 200 or self.person.may_all("read lists"):
                return answer
            rows = await asyncio.to_thread(filtered, answer.body, self.person)
            return Answer(200, rows, answer.kind, answer.lines)

    async def certificate(self, path: str) -> Answer:
        need(self.person, "certificates")
        if not self.person.may_all("read certificates"):
            raise Answered(403, "class", read="certificates")
        with self.gate.lists.one(self.person.name, self.gate.access.lists_at_once):
            return await self.office(path)

    # ---- the gate's own

    async def alive(self) -> Answer:
        """Says whether the office has a record and can act today, and the journal takes lines, and nothing of either."""
        need(self.person, "health")
        if not self.gate.journal.is_well:
            raise Answered(503, "journal")
        if not self.gate.clock.is_believed():
            raise Answered(503, "clock")
        if self.gate.facts.office_day() > deciding.today(self.gate.access):
            raise Answered(503, "day")
        if self.gate.office.standing.has_fault():
            raise Answered(503, "fault")
        answer = await self.own("/records/1")
        if answer.status == 200:
            return given({"records": True})
        raise Answered(answer.status, "record" if answer.status == 404 else "office")

    def metrics(self) -> str:
        gate = self.gate
        return gate.metrics.text({"waiting": gate.office.turns.count(), "journal_line": gate.journal.written.line,
                                  "journal_well": int(gate.journal.is_well)})

    def rights(self) -> dict[str, object]:
        """What the name may do here, for the page: null for each class, else a list of lists of classes."""
        person, rules = self.person, self.gate.access.rules
        return {"acts": any(map(person.may, MAY)), "name": person.name, "by": person.signs, "roles": list(person.roles),
                "today": deciding.today(self.gate.access), "reasons": sorted(rules.reasons),
                "may": {it: person.classes_of(it) for it in MAY if person.may(it)},
                "reads": {it: person.classes_of(f"read {it}") for it in READS if person.may(f"read {it}")}}

    async def may(self, method: str, path: str) -> None:
        """Answers nginx, which has the file itself: whether this name may have it."""
        if method == "PUT" and OBJECT.fullmatch(path) or method in ("GET", "HEAD") and path == LIMITS:
            if not self.person.may(VAULT):
                raise Answered(403, "right", act=VAULT)
        elif method in ("GET", "HEAD") and (match := FILES.fullmatch(path)):
            await self.may_content(int(match[1]))
        elif method in ("GET", "HEAD") and CATALOGUE.fullmatch(path):
            # a site of nginx from before the gate gave the catalogue itself
            need(self.person, "catalogue")
            if not self.person.may_all("read catalogue"):
                raise Answered(403, "class", read="catalogue")
        else:
            raise Answered(403, "path")


def given(body: object) -> Answer:
    return Answer(200, json.dumps(body, separators=(",", ":"), sort_keys=True).encode())
