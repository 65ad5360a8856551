"""The questions of one list of acts to the office: the records that it is about, and those that a run may take."""
import asyncio
import re
from collections.abc import AsyncIterator

from office_gate.body import DECODER, Json
from office_gate.catalogue import Catalogue, Places
from office_gate.errors import Answered
from office_gate.office import NEWEST, Answer, Office
from office_gate.pace import Pace

MOST_RECORDS = 500
"""the records for which one list has the office asked at most, while nobody else acts"""
RECORD = re.compile(r"/records/([1-9][0-9]*)")


async def rows_of(answer: Answer) -> AsyncIterator[Json]:
    """Gives the rows of a list, and yields to other requests between two of them."""
    text, pace, at = answer.body.decode(), Pace(), 1
    while at < len(text) - 1:
        row, at = DECODER.raw_decode(text, at)
        yield row
        await pace.rest()
        # a comma, or the end of the list
        at += 1


class Questions(Office):
    """The office for one list of acts: it is asked for each record once, and for `MOST_RECORDS` of them at most.

    Before its turn (`is_ahead`) a list may ask for any number of records. Only what no act changes is kept of these:
    the aggregation of a record, and its last confirmation, which counts only if the journal has none. Nobody waits for
    that.
    """

    def __init__(self, office: Office, catalogue: Catalogue) -> None:
        # the same address and the same turns
        self.__dict__.update(vars(office))
        self.catalogue = catalogue
        self.is_ahead = False
        self.listed: Answer | None = None
        self.records: dict[str, Answer] = {}
        self.places: Places = {}
        self.confirmations: dict[int, Json | None] = {}

    async def get(self, name: str, path: str, lines: dict[str, str] | None = None) -> Answer:
        if self.is_ahead or not RECORD.fullmatch(path):
            return await super().get(name, path, lines)
        if path not in self.records:
            if len(self.records) >= MOST_RECORDS:
                raise Answered(413, "work", records=MOST_RECORDS)
            self.records[path] = await super().get(name, path, lines)
        return self.records[path]

    async def due(self, name: str, day: str) -> Answer | None:
        """Returns the list of a day, or None if the office has no such day, and so refuses an act of it too."""
        answer = await self.get(name, f"/due/{day}", NEWEST)
        if answer.status not in (200, 400):
            raise Answered(503, "office")
        if answer.status == 400:
            return None
        self.listed = answer if self.is_ahead else None
        return answer

    async def look_up(self) -> None:
        """Takes from the catalogue in which aggregations the records of a long list lie."""
        listed, self.listed = self.listed, None
        wanted = {row["record"]: row["ref"] async for row in rows_of(listed)} if listed else {}
        if len(wanted) > MOST_RECORDS:
            self.places |= await asyncio.to_thread(self.catalogue.places, wanted)

    async def aggregation(self, name: str, row: Json) -> int:
        """Returns in which aggregation the record of a row lies. No act moves a record to another one."""
        key = (row["record"], row["ref"])
        if key not in self.places:
            await self.look_up()
        if key not in self.places:
            await self.learn(name, row["record"])
        if key not in self.places:
            raise Answered(503, "office")
        return self.places[key]

    async def confirmation(self, name: str, number: int) -> Json | None:
        """Returns the last confirmation of a record. It is asked for only if the journal has none."""
        if number not in self.confirmations:
            await self.learn(name, number)
        return self.confirmations[number]

    async def learn(self, name: str, number: int) -> None:
        """Asks for a record, and keeps where it lies and its last confirmation."""
        record = await self.record(name, number)
        if record is None:
            raise Answered(503, "office")
        self.places[number, record["ref"]] = record["aggregation"]
        self.confirmations[number] = record["confirmed"]
