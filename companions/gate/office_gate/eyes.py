"""The rules of four eyes: what one name did keeps it from the other step."""
from typing import Literal

from office_gate.access import Access, Person
from office_gate.body import Json, number_in
from office_gate.catalogue import Aggregations
from office_gate.deciding import DAY
from office_gate.errors import Answered
from office_gate.facts import Facts, made_with
from office_gate.office import NEWEST, Answer
from office_gate.questions import Questions, rows_of
from office_gate.sendings import records_sent
from office_gate.words import DECISIONS, RUN

OPENS = "confirmer-does-not-open"
CHANGES = "changer-does-not-open"
CARRIES = "opener-does-not-carry-out"
SENDS = "sender-does-not-receive"
RECEIVES = "receiver-does-not-open"

Opener = Literal["own", "other", "none", "unknown"]
"""who opened the run that is open: this name, another one; or none is open; or nobody here knows"""


def refused(rule: str, **more: object) -> Answered:
    return Answered(403, "eyes", rule=rule, **more)


class Eyes:
    """The rules that are switched on, for one list of acts of one name."""

    def __init__(self, access: Access, facts: Facts, aggregations: Aggregations, office: Questions) -> None:
        self.rules, self.facts, self.aggregations, self.office = access.rules, facts, aggregations, office

    # ---- the run that is open

    async def opener(self, person: Person) -> Opener:
        """Returns who opened the run that is open, by the journal, or else by the catalogue."""
        opened = self.facts.opened()
        if opened and not await self.is_closed(person, [number for _, number in opened if number is not None]):
            if person.name in (name for name, _ in opened):
                return "own"
            # several machines: a run that nobody here saw opened may be another machine's
            is_sure = all(number is not None for _, number in opened) or not await self.office.is_member(person.name)
            return "other" if is_sure else "unknown"
        if self.facts.closed_at() < self.aggregations.moment:
            for number, by in self.aggregations.open_runs.items():
                if not await self.is_closed(person, [number]):
                    return "own" if by == person.signs else "other"
        return "unknown" if await self.office.is_member(person.name) else "none"

    async def is_closed(self, person: Person, numbers: list[int]) -> bool:
        """Reports whether another machine closed these runs. On one machine each closing is in the journal."""
        if not numbers or not await self.office.is_member(person.name):
            return False
        for number in numbers:
            answer = await self.read(person, f"/certificates/{number}", (200, 404))
            if answer.status == 404:
                return False
            self.facts.closed(number)
        return True

    async def carry_out(self, person: Person) -> None:
        """Refuses whoever opened the run. Where several machines act, an opener whom nobody knows may be anybody."""
        if self.rules.opener_does_not_carry_out and await self.opener(person) in ("own", "unknown"):
            raise refused(CARRIES)

    async def has_part(self, person: Person) -> bool:
        """Reports whether the name opened the run that is open, or may carry it out."""
        opener = await self.opener(person)
        return opener == "own" or opener == "other" and any(person.may_all(it) for it in RUN if it != "open-run")

    # ---- a list

    async def acts(self, person: Person, acts: list[Json]) -> None:
        """Looks at a list as a whole, and at what the name did before."""
        kinds = [it["act"] for it in acts]
        if "run-step" in kinds:
            await self.carry_out(person)
            if self.rules.opener_does_not_carry_out and "open-run" in kinds:
                raise refused(CARRIES, place=kinds.index("run-step"))
        decided = [place for place, act in enumerate(acts) if self.decides(act)]
        if decided and ("open-run" in kinds or await self.has_part(person)):
            raise refused(self.rule_of(kinds[decided[0]]), place=decided[0])
        if self.rules.sender_does_not_receive and "receipt" in kinds:
            await self.received(person, acts)
        for place, act in enumerate(acts):
            if act["act"] == "open-run":
                await self.opened(person, str(act.get("day")), place)

    def looks(self) -> bool:
        """Returns whether a rule looks at the records that a run may take."""
        return self.rules.confirmer_does_not_open or self.rules.changer_days is not None

    def asks_of_records(self) -> bool:
        """Returns whether a rule asks the office for records before a run is opened."""
        return self.looks() or self.rules.receiver_does_not_open

    def decides(self, act: Json) -> bool:
        """Returns whether an act is none for whoever opens a run, or has a part in the one that is open."""
        if act["act"] == "receipt":
            return self.rules.receiver_does_not_open
        if act["act"] in DECISIONS:
            return self.looks()
        # what is made with a schedule or a class of its own has it from whoever made it
        return self.rules.changer_days is not None and made_with(act, 0) is not None

    def rule_of(self, kind: str) -> str:
        """Names the rule that an act breaks, which is switched on."""
        if kind == "receipt":
            return RECEIVES
        is_of_confirmers = kind in ("confirm", "event") or self.rules.changer_days is None
        return OPENS if is_of_confirmers and self.rules.confirmer_does_not_open else CHANGES

    # ---- opening

    async def opened(self, person: Person, day: str, place: int) -> None:
        """Looks at each record that a run of that day may take."""
        if not DAY.fullmatch(day):
            # the office refuses it
            return
        if self.rules.receiver_does_not_open:
            await self.receives(person, place)
        if self.looks():
            await self.due(person, day, place)

    async def due(self, person: Person, day: str, place: int) -> None:
        touched = self.facts.touched(person.name, self.rules.changer_days) if self.rules.changer_days else set()
        confirmed = self.facts.confirmed(person.name)
        listed = await self.office.due(person.name, day)
        if listed is None:
            # the office refuses the act too
            return
        is_of_file = any(thing.startswith("aggregation:") for thing in touched)
        async for row in rows_of(listed):
            # what does not count now may count again before the run comes to the record
            may_count = row["confirmed"] or f"record:{row['record']}" in confirmed
            if self.rules.confirmer_does_not_open and may_count and await self.is_confirmer(person, row["record"]):
                raise refused(OPENS, place=place, record=row["record"])
            # whoever moved the due day of a record is refused, whoever confirms it
            if f"record:{row['record']}" in touched or f"class:{row['class']}" in touched or \
                    is_of_file and await self.changed(person, row, touched):
                raise refused(CHANGES, place=place, record=row["record"])

    async def changed(self, person: Person, row: Json, touched: set[str]) -> bool:
        """Reports whether the name changed a file of the record, whoever confirms it."""
        file = await self.office.aggregation(person.name, row)
        # a file that nobody knows may lie in one that the name changed
        return not self.aggregations.is_known(file) or any(f"aggregation:{it}" in touched
                                                           for it in self.aggregations.chain(file))

    async def is_confirmer(self, person: Person, number: int) -> bool:
        names = self.facts.confirmers(number)
        if names:
            return person.name in names
        confirmed = await self.office.confirmation(person.name, number)
        return confirmed is not None and confirmed["by"] == person.signs

    # ---- receipts

    async def receives(self, person: Person, place: int) -> None:
        """Refuses a record of which the name filed the receipt, as long as no run ended it."""
        for number in self.facts.received(person.name):
            status = (await self.record(person, number, (200, 404))).get("status")
            if status == "received":
                raise refused(RECEIVES, place=place, record=number)
            if status == "ended":
                self.facts.gone.add(number)

    async def received(self, person: Person, acts: list[Json]) -> None:
        """Refuses a receipt of what the name sent: by a run that it opened, or of which it carried out a part."""
        runs = self.facts.parts(person.name)
        records = {number_in(it, "record"): place for place, it in enumerate(acts) if it["act"] == "receipt"}
        if None in runs and await self.opener(person) != "none":
            # a run that is not closed has no certificate of what it sent
            raise refused(SENDS, place=min(records.values()))
        for run in sorted(it for it in runs if it is not None):
            if run not in self.facts.sent:
                answer = await self.read(person, f"/certificates/{run}", (200, 404))
                if answer.status == 404:
                    continue
                self.facts.sent[run] = records_sent(answer.body)
            for number in self.facts.sent[run] & records.keys():
                raise refused(SENDS, place=records[number], record=number)

    # ---- what the office reports

    async def record(self, person: Person, number: int, statuses: tuple[int, ...] = (200,)) -> Json:
        record: Json = (await self.read(person, f"/records/{number}", statuses)).json()
        return record

    async def read(self, person: Person, path: str, statuses: tuple[int, ...]) -> Answer:
        """Reads something of now; another answer than these decides nothing."""
        answer = await self.office.get(person.name, path, NEWEST)
        if answer.status not in statuses:
            raise Answered(503, "office")
        return answer
