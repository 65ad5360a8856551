"""What is looked at before anybody's rights: that the request is from nginx, from this site, and one request."""
import hmac
import re
import urllib.parse
from collections.abc import Mapping

from office_gate.body import MOST_BYTES
from office_gate.errors import Answered
from office_gate.gate import Gate
from office_gate.office import PASSED_LINES

NAME = re.compile(r"[A-Za-z0-9._@-]{1,64}")
MOST_REASON = 500
FROM_HERE = ("same-origin", "none")
"""what a browser says, in Sec-Fetch-Site, of a page of this site, and of an address that somebody typed"""


class Lines:
    """The field lines of a request. A line that is there twice is refused, if it is one that counts."""

    def __init__(self, raw: tuple[tuple[bytes, bytes], ...]) -> None:
        self.values: dict[str, list[str]] = {}
        for name, value in raw:
            self.values.setdefault(name.decode("latin-1").lower(), []).append(value.decode("utf-8", "replace").strip(" \t"))

    def one(self, name: str) -> str:
        values = self.values.get(name.lower(), [])
        if len(values) > 1:
            raise Answered(400, "header")
        return values[0] if values else ""

    def first(self, name: str) -> str:
        """Returns a line for the journal, which has also what is refused."""
        return self.values.get(name.lower(), [""])[0]

    def has(self, name: str) -> bool:
        return name.lower() in self.values


def is_from_nginx(gate: Gate, lines: Lines) -> bool:
    return hmac.compare_digest(lines.one("Office-Token").encode(), gate.token.encode())


def name_of(gate: Gate, lines: Lines) -> str:
    """Returns the name that signed in, which nginx alone may say."""
    if not is_from_nginx(gate, lines):
        raise Answered(403, "token")
    name = lines.one("Office-Name")
    if not NAME.fullmatch(name):
        raise Answered(401, "password")
    return name


def site(gate: Gate, lines: Lines, acts: bool) -> None:
    """Refuses what comes by another name of the machine, and what a page from elsewhere makes a browser send."""
    if lines.one("Host") != gate.access.host():
        raise Answered(421, "host")
    origin, fetched = lines.one("Origin"), lines.one("Sec-Fetch-Site")
    if origin and origin != gate.access.site or fetched and fetched not in FROM_HERE:
        raise Answered(403, "origin")
    if acts and not origin and fetched != "same-origin":
        raise Answered(403, "origin")


def length(lines: Lines) -> int:
    """Returns how many bytes come, by the rules that the office has for a body."""
    if lines.has("Transfer-Encoding"):
        raise Answered(501, "coding")
    values = lines.values.get("content-length", [])
    if not values:
        raise Answered(411, "length")
    if len(values) > 1 or not re.fullmatch("[0-9]{1,19}", values[0]):
        raise Answered(400, "length")
    if int(values[0]) > MOST_BYTES:
        raise Answered(413, "size")
    return int(values[0])


def reason(lines: Lines) -> str:
    """Returns the reason that somebody gave for the request, which is written with percent signs, as in an address."""
    try:
        text = urllib.parse.unquote(lines.one("Office-Reason"), errors="strict")
    except UnicodeDecodeError as error:
        raise Answered(400, "header") from error
    if len(text) > MOST_REASON or not text.isprintable():
        raise Answered(400, "header")
    return text.strip()


def passed(lines: Lines) -> Mapping[str, str]:
    """Returns the lines that go on to a member of an office on several machines."""
    values = {name: lines.one(name) for name in PASSED_LINES}
    if any(len(it) > MOST_REASON or not it.isprintable() for it in values.values()):
        raise Answered(400, "header")
    return {name: value for name, value in values.items() if value}
