"""The catalogue as a name may read it: whole, or what of it lies in the name's classes."""
import asyncio
import re
from pathlib import Path

from office_gate.deciding import Caller
from office_gate.errors import Answered
from office_gate.gate import Gate
from office_gate.history import History, moment_of
from office_gate.office import Answer
from office_gate.own_catalogue import PARTS
from office_gate.rights import need

CATALOGUE = re.compile(r"/catalogue/([a-z]{1,32})\.json")


def contents_of(folder: Path, name: str) -> bytes:
    """Reads a file of the catalogue, compressed as it is there."""
    try:
        return (folder / f"{name}.json.gz").read_bytes()
    except OSError as error:
        raise Answered(404, "path") from error


class CatalogueReading:
    """The readings of the catalogue by one name."""

    def __init__(self, gate: Gate, caller: Caller) -> None:
        self.gate, self.caller, self.person = gate, caller, caller.person

    async def answer(self, name: str) -> Answer:
        need(self.person, "catalogue")
        known = self.gate.aggregations()
        whole = self.gate.catalogue.now()
        if whole is None:
            raise Answered(404, "path")
        if self.person.may_all("read catalogue"):
            data = await asyncio.to_thread(contents_of, whole, name)
        elif name in PARTS:
            index = await History(self.gate, self.caller).index()
            line, moved = await asyncio.to_thread(index.moved, moment_of(known.moment))
            data = await self.gate.own.file(name, self.person, whole, (known, line, moved))
        else:
            raise Answered(403, "class", read="catalogue")
        return Answer(200, data, lines={"Content-Encoding": "gzip"})
