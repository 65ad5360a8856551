"""Reads the file of settings: one statement a line. An error names the file and the line, and nothing is taken then."""
import hashlib
import re
from collections.abc import Callable, Iterator
from dataclasses import replace
from pathlib import Path
from typing import Any
from zoneinfo import ZoneInfo, ZoneInfoNotFoundError

from office_gate.access import Access, Grant, Person, Rules
from office_gate.alike import folded, scripts
from office_gate.errors import Refused
from office_gate.patterns import is_pattern
from office_gate.words import MAY, READS

NAME = re.compile(r"[A-Za-z0-9._@-]{1,64}")
ROLE = re.compile(r"[a-z0-9-]{1,32}")
SITE = re.compile(r"https://[A-Za-z0-9.\[\]:-]+|http://(localhost|127(\.\d{1,3}){3}|\[::1\])(:\d+)?", re.ASCII)
RULES = ("opener-does-not-carry-out", "confirmer-does-not-open", "sender-does-not-receive", "receiver-does-not-open")
"""the rules that are on or off; each is a member of `Rules`, with _ in place of -"""
ALONE = "'begin' and 'end' have a line of their own"
MOST_SIGNED = 200
"""the longest text of an act, in bytes"""


class Wrong(Exception):
    """What is wrong in one line."""


def after(words: list[str], mark: str) -> tuple[list[str], list[str]]:
    """Parts words at a mark; without it the second part is empty."""
    if mark not in words:
        return words, []
    at = words.index(mark)
    if not words[at + 1:]:
        raise Wrong(f"nothing follows '{mark}'")
    return words[:at], words[at + 1:]


def classes_in(words: list[str]) -> tuple[str, ...]:
    for it in words:
        if not is_pattern(it):
            raise Wrong(f"'{it}' is no code of a class: letters, digits and hyphens, and a star at its end for all "
                        "that begin so")
    return tuple(words)


def known(words: list[str], those: tuple[str, ...], what: str) -> list[str]:
    for it in words:
        if it not in those:
            raise Wrong(f"there is no {what} '{it}': there are {', '.join(those)}")
    if not words:
        raise Wrong(f"no {what} is named")
    return words


def number(words: list[str], least: int, most: int) -> int:
    text = words[0] if len(words) == 1 else ""
    if not (text.isascii() and text.isdigit() and least <= int(text) <= most):
        raise Wrong(f"'{' '.join(words)}' is no number from {least} to {most}")
    return int(text)


class Reader:
    """Reads the lines of one file."""

    def __init__(self, path: Path) -> None:
        self.path = path
        self.roles: dict[str, list[Grant]] = {}
        self.named: dict[str, list[tuple[int, list[str], tuple[str, ...]]]] = {}
        self.signed: dict[str, str] = {}
        self.rules = Rules()
        self.once: dict[str, Any] = {}
        self.has_statement = False
        self.marks: set[str] = set()

    # ---- the statements

    def site(self, words: list[str]) -> None:
        if len(words) != 1 or not SITE.fullmatch(words[0]):
            raise Wrong("a site is an address such as https://records.city.example, without a path; http is for this "
                        "machine alone, as http://localhost:8080")
        self.set_once("site", words[0])

    def zone(self, words: list[str]) -> None:
        try:
            self.set_once("zone", ZoneInfo(" ".join(words)))
        except (ZoneInfoNotFoundError, ValueError, OSError) as error:
            raise Wrong(f"'{' '.join(words)}' is no time zone such as Europe/Berlin") from error

    def role(self, words: list[str]) -> None:
        if len(words) < 3 or words[1] not in ("may", "reads"):
            raise Wrong("write: role ROLE may ACT.. [in CLASS..], or role ROLE reads THING.. [in CLASS..] [if sent]")
        if not ROLE.fullmatch(words[0]):
            raise Wrong(f"'{words[0]}' is no name of a role: small letters, digits and hyphens")
        words, condition = after(words, "if")
        if condition not in ([], ["sent"]):
            raise Wrong("after 'if' only 'sent' is known")
        rest, classes = after(words[2:], "in")
        if words[1] == "may":
            if condition:
                raise Wrong("'if sent' is for what is read")
            rights = known(rest, MAY, "kind of act")
        else:
            rights = [f"read {it}" for it in known(rest, READS, "thing to read")]
        limits = (classes_in(classes),) if classes else ()
        self.roles.setdefault(words[0], []).extend(Grant(it, limits, bool(condition)) for it in rights)

    def name(self, words: list[str], line: int) -> None:
        if len(words) < 3 or words[1] not in ("is", "signs"):
            raise Wrong("write: name NAME is ROLE.. [in CLASS..], or name NAME signs TEXT")
        if not NAME.fullmatch(words[0]) and words[:2] != ["*", "is"]:
            raise Wrong(f"'{words[0]}' is no name: letters, digits and . _ @ -, or * for all other names")
        if words[1] == "is":
            roles, classes = after(words[2:], "in")
            self.named.setdefault(words[0], []).append((line, roles, classes_in(classes)))
            return
        text = " ".join(words[2:])
        if words[0] in self.signed:
            raise Wrong(f"'{words[0]}' signs already")
        if len(text.encode()) > MOST_SIGNED or not text.isprintable():
            raise Wrong(f"a text that is signed has at most {MOST_SIGNED} bytes, all of them printable")
        if len(mixed := scripts(text)) > 1:
            raise Wrong(f"'{text}' has letters of {' and '.join(sorted(mixed))}, which may look alike: take one script")
        self.signed[words[0]] = text

    def rule(self, words: list[str]) -> None:
        kind, rest = (words[0] if words else ""), words[1:]
        if kind in RULES and not rest:
            self.rules = replace(self.rules, **{kind.replace("-", "_"): True})
        elif kind == "changer-does-not-open":
            self.rules = replace(self.rules, changer_days=number(rest, 1, 3650))
        elif kind == "reason-for":
            self.rules = replace(self.rules, reasons=self.rules.reasons | set(known(rest, MAY, "kind of act")))
        else:
            raise Wrong(f"the rules are {', '.join(RULES)}, changer-does-not-open DAYS and reason-for ACT..")

    def limit(self, words: list[str]) -> None:
        if words[:1] == ["requests"]:
            self.set_once("requests_at_once", number(words[1:], 1, 1000))
        elif words[:1] == ["lists"]:
            self.set_once("lists_at_once", number(words[1:], 1, 100))
        elif words[:1] == ["journal-bytes"]:
            self.set_once("journal_bytes", number(words[1:], 10_000, 10**12))
        else:
            raise Wrong("write: limit requests N, limit lists N, or limit journal-bytes N")

    def keep(self, words: list[str]) -> None:
        if words[:1] == ["contents"]:
            self.set_once("content_days", number(words[1:], 0, 366))
        elif words[:1] == ["free"]:
            self.set_once("free_bytes", number(words[1:], 0, 1_000_000) << 20)
        else:
            raise Wrong("write: keep contents DAYS, or keep free MEGABYTES")

    def journal(self, words: list[str]) -> None:
        if words not in (["readings"], ["acts"]):
            raise Wrong("write: journal readings, or journal acts")
        self.set_once("journals_readings", words == ["readings"])

    def begin(self, words: list[str]) -> None:
        if words:
            raise Wrong(ALONE)
        if self.has_statement:
            raise Wrong("'begin' stands above all other statements")
        self.marks.add("begin")

    def end(self, words: list[str]) -> None:
        if words:
            raise Wrong(ALONE)
        if "begin" not in self.marks:
            raise Wrong("no 'begin' stands above this 'end'")
        self.marks.add("end")

    def set_once(self, name: str, value: object) -> None:
        if name in self.once:
            raise Wrong("this is set already above")
        self.once[name] = value

    # ---- the whole

    def statement(self, words: list[str], line: int) -> None:
        if "end" in self.marks:
            raise Wrong("no statement stands below 'end'")
        self.read_statement(words, line)
        self.has_statement = True

    def read_statement(self, words: list[str], line: int) -> None:
        if words[0] == "name":
            self.name(words[1:], line)
            return
        kinds: dict[str, Callable[[list[str]], None]] = {
            "site": self.site, "zone": self.zone, "role": self.role, "rule": self.rule, "limit": self.limit,
            "keep": self.keep, "journal": self.journal, "begin": self.begin, "end": self.end}
        if words[0] not in kinds:
            raise Wrong(f"no line begins with '{words[0]}': they begin with {', '.join([*kinds, 'name'])}")
        kinds[words[0]](words[1:])

    def read(self, data: bytes) -> Access:
        for line, words in self.lines(data):
            try:
                self.statement(words, line)
            except Wrong as wrong:
                raise Refused(2, f"{self.path}:{line}: {wrong}") from wrong
        if self.marks == {"begin"}:
            raise Refused(2, f"{self.path}: the file is cut off: it has 'begin', but no 'end'")
        for it in ("site", "zone"):
            if it not in self.once:
                raise Refused(2, f"{self.path}: there is no line '{it}'")
        people = {name: self.person(name) for name in self.named}
        for name in self.signed.keys() - people.keys():
            raise Refused(2, f"{self.path}: '{name}' signs, but no line says which role it is")
        others = people.pop("*", None)
        self.apart(people)
        return Access(path=self.path, digest=hashlib.sha256(data).hexdigest(), people=people, others=others,
                      rules=self.rules, **self.once)

    def apart(self, people: dict[str, Person]) -> None:
        """Refuses a name or a text that looks like that of another name: the office could not tell whose act it was."""
        owners: dict[str, tuple[str, str]] = {}
        for name, person in people.items():
            for text in (name, person.signs):
                other, like = owners.setdefault(folded(text), (name, text))
                if other != name:
                    raise Refused(2, f"{self.path}: '{like}' of '{other}' and '{text}' of '{name}' look alike: who did "
                                     "what could not be told from `by`")

    def lines(self, data: bytes) -> Iterator[tuple[int, list[str]]]:
        """Gives the words of each line that has any."""
        for line, raw in enumerate(data.split(b"\n"), 1):
            try:
                words = raw.decode().split("#", 1)[0].split()
            except UnicodeDecodeError as error:
                raise Refused(2, f"{self.path}:{line}: this is no UTF-8") from error
            if words:
                yield line, words

    def person(self, name: str) -> Person:
        grants: list[Grant] = []
        roles: list[str] = []
        for line, named, classes in self.named[name]:
            for role in named:
                if role not in self.roles:
                    raise Refused(2, f"{self.path}:{line}: no line says what the role '{role}' may do")
                limit = (classes,) if classes else ()
                grants += [replace(it, limits=it.limits + limit) for it in self.roles[role]]
                roles.append(role)
        return Person(name, self.signed.get(name, name), tuple(dict.fromkeys(roles)), tuple(dict.fromkeys(grants)))


def read(path: Path) -> Access:
    """Reads a file of settings, or says what is wrong in which line."""
    try:
        data = path.read_bytes()
    except OSError as error:
        raise Refused(2, f"{path} is not read: {error.strerror}") from error
    return Reader(path).read(data)
