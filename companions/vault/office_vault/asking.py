"""An office that is served, asked over its paths: no copy is taken, nobody is paused, and FILE need not be readable."""
import json

from office_common.client import Client
from office_common.errors import IMPOSSIBLE, USAGE, NoAnswer, Refused
from office_common.facts import LONGEST_CONTENT

from office_vault.offices import Metadata

SECONDS = 300
MOST_SAID = 1 << 20


class Served:
    """The office at an address, or at its socket for readings; `lines` are field lines of each request, such as
    Office-Read for a member."""

    def __init__(self, address: str, lines: dict[str, str]) -> None:
        self.address = address.removeprefix("http://").rstrip("/")
        self.lines = lines
        if not self.address.startswith("/") and not self.address.rpartition(":")[2].isdigit():
            raise Refused(USAGE, f"{address} is no address as http://127.0.0.1:8081, and no socket")
        self.office = Client(self.address, SECONDS)

    def get(self, path: str, most: int) -> bytes | None:
        """Returns the body of an answer, or None if there is no such thing."""
        try:
            reply = self.office.ask("GET", path, lines=self.lines, most=most)
        except NoAnswer as error:
            raise Refused(IMPOSSIBLE, f"the office at {self.address} does not answer: {error}") from error
        if reply.status not in (200, 404):
            raise Refused(IMPOSSIBLE, f"the office at {self.address} answers {reply.status} to {path}")
        return reply.body if reply.status == 200 else None

    def metadata(self, number: int) -> Metadata | None:
        body = self.get(f"/records/{number}", MOST_SAID)
        if body is None:
            return None
        try:
            record = json.loads(body)
            end = record["ended"] or {"run": None, "outcome": None}
            if (record["status"] == "ended") != (end["run"] is not None):
                raise ValueError("status and end of the record differ")
            return Metadata(record["ref"], record["digest"], record["length"], end["run"], end["outcome"],
                            record["class"])
        except (ValueError, KeyError, TypeError) as error:
            raise Refused(IMPOSSIBLE, f"{self.address} is no office: record {number} is {body[:200]!r}") from error

    def content(self, number: int) -> bytes | None:
        return self.get(f"/records/{number}/content", LONGEST_CONTENT + 1)
