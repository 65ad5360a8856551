"""Compares the lines that the gate writes into its journal with those of the proved writer.

The gate's own methods make the entries. The values of each go to the proved writer as one line of the columns below:
`-` for none, or `=` and the hexadecimal digits of a text.
"""
import argparse
import asyncio
import json
import random
import sys
from pathlib import Path
from types import SimpleNamespace
from typing import Any

HERE = Path(__file__).resolve().parent
sys.path[:0] = [str(HERE / "../../companions/gate"), str(HERE / "../../companions")]
from office_gate import body, chain  # noqa: E402
from office_gate.budget import Budget  # noqa: E402
from office_gate.clock import Clock  # noqa: E402
from office_gate.errors import Answered  # noqa: E402
from office_gate.gate import Gate, answered, line_of  # noqa: E402
from office_gate.office import REPEATED, Answer  # noqa: E402

Entry = dict[str, Any]
KINDS = ("came", "asked", "answered", "refused", "read", "put", "stored", "opened", "closed", "settings", "clock")
PIECES = ("a", "Z", "7", " ", "\"", "\\", "/", "\n", "\t", "\b", "\x1f", "\x7f", "\x85", "ß", "\u061c", "\u200e",
          "\u2028", "\u202e", "\u2066", "\u2065", "\u206a", "漢", "\uffff", "🙂", "{", "}", "[", ",", ":", "\\u0041")
"""what texts are made of: escapes, controls, marks of direction and their neighbours"""


class Lines:
    """A journal that only keeps what it is given."""

    def __init__(self) -> None:
        self.entries: list[Entry] = []

    async def append(self, entry: Entry, is_durable: bool = True) -> chain.Head:
        self.entries.append(entry)
        return chain.START


class Maker:
    """Makes random entries by the methods of a gate."""

    def __init__(self, seed: int) -> None:
        self.random = random.Random(seed)
        self.lines = Lines()
        self.gate: Any = object.__new__(Gate)
        self.gate.journal, self.gate.metrics = self.lines, SimpleNamespace(note=lambda *_: None)
        self.gate.refusals, self.gate.told = Budget(), ""
        self.gate.facts = SimpleNamespace(files=SimpleNamespace(store=lambda *_: None))
        self.gate.access = SimpleNamespace(journal_bytes=10**6, journals_readings=True, digest="")

    def maybe(self) -> bool:
        return self.random.random() < 0.5

    def text(self) -> str:
        return "".join(self.random.choices(PIECES, k=self.random.randrange(12)))

    def number(self) -> int:
        return self.random.choice((0, 1, 9, 10, 2**32, 2**53 - 1, self.random.randrange(10**6)))

    def digest(self) -> str:
        return self.random.randbytes(32).hex()

    def value(self, depth: int = 3) -> object:
        """Returns a value of JSON."""
        real = body.Number(self.random.choice(("-0", "1.5e+30", "0.10", "-12E7")))
        if depth and self.random.random() < 0.4:
            size = self.random.randrange(4)
            if self.maybe():
                return [self.value(depth - 1) for _ in range(size)]
            return {f"{self.text()}{place}": self.value(depth - 1) for place in range(size)}
        return self.random.choice((self.text(), self.number(), None, True, real))

    def sum(self) -> Entry:
        return {"bytes": self.number(), "sha256": self.digest()}

    def sender(self) -> Any:
        """Returns who sends a request, as far as a line names it."""
        lines = {"Idempotency-Key": self.text()} if self.maybe() else {}
        return SimpleNamespace(person=SimpleNamespace(name=self.text()), origin=self.text(),
                               reason=self.text() if self.maybe() else "", lines=lines)

    def head(self, request: str) -> Entry:
        entry: Entry = self.gate.head(self.sender(), request)
        return entry

    def decided(self, is_judged: bool) -> Entry:
        """Returns what a gate notes of a list, in the order of its steps: it judges the list by its settings last."""
        entry = self.head("POST /acts") | {"body": self.sum()}
        entry |= {"count": self.number(), "kinds": {self.text(): self.number()}, "acts": [self.value()]}
        if not is_judged:
            return entry
        entry["settings"] = self.digest()
        judged = {"earlier": [0, self.number()], "files": [{"place": self.number(), "sha256": self.digest()}],
                  "contents": {"day": "2026-11-28", "from": self.number()}}
        return entry | {name: value for name, value in judged.items() if self.maybe()}

    def answer(self) -> Answer:
        answers: tuple[object, ...] = ([self.value()], {"answers": [self.value()], "fault": self.value()},
                                       {"answers": []}, {"fault": 3}, {"error": self.text()})
        data = body.text_of(self.random.choice(answers)).encode() if self.random.random() < 0.9 else b"no JSON"
        lines = ({"Office-Position": self.text()} if self.maybe() else {}) | ({REPEATED: "1"} if self.maybe() else {})
        return Answer(self.random.choice((200, 409, 503)), data, lines=lines, is_known=self.maybe())

    async def entry(self, kind: str) -> Entry:
        """Returns an entry, made by the gate as far as it has a method for it."""
        sender, path = self.sender(), f"/{self.text()}"
        if kind == "came":
            return line_of("came", self.head("POST /acts") | {"body": self.sum()}, False)
        if kind == "asked":
            resumes = self.head("POST /run/resume") | {"settings": self.digest()}
            return line_of("asked", self.decided(True) if self.maybe() else resumes, True)
        if kind == "answered":
            return answered(chain.Head(self.number(), self.digest()), self.answer())
        if kind == "refused":
            word = self.random.choice(("class", "eyes", "right", "json"))
            refused = Answered(self.random.choice((400, 403, 503)), word, place=self.number())
            await self.gate.refuse(self.decided(self.maybe()), refused)
        elif kind == "read":
            await self.gate.note(sender, f"GET {path}", 200, self.number())
        elif kind == "put":
            await self.gate.put(sender, f"PUT /vault/{self.digest()}")
        elif kind == "stored":
            await self.gate.stored(sender, self.digest(), self.number())
        elif kind == "settings":
            self.gate.access.digest = self.digest()
            await self.gate.note_settings()
        elif kind == "clock":
            clock: Any = object.__new__(Clock)
            clock.news = {"believed": self.maybe(), "why": self.text()}
            await clock.note(self.lines)
        else:
            return {"what": kind, **({"settings": self.digest()} if kind == "opened" else {})}
        return self.lines.entries[-1]

    def preceded(self, entry: Entry) -> Entry:
        """Returns the entry as `Journal.append` completes it."""
        entry = {"at": self.text(), **entry}
        if self.random.random() < 0.2:
            entry["torn"] = chain.torn(self.random.randbytes(self.random.randrange(9)))
        if self.random.random() < 0.2:
            entry["after"] = {"file": self.text(), "bytes": self.number()}
        return entry


# ---- values for the proved writer

PLAIN = ("at", "name", "from", "request", "reason", "key", "settings", "count", "status", "of", "position", "bytes",
         "sha256", "why")
TEXTS = ("acts", "earlier", "files", "kinds", "answer", "answers", "fault")
"""members whose value is JSON"""
PAIRS = (("body", "bytes", "sha256"), ("contents", "day", "from"), ("torn", "bytes", "sha256"),
         ("after", "file", "bytes"))
FLAGS = ("last", "repeated", "known", "believed")


def shown(value: object) -> str:
    return "-" if value is None else "=" + str(value).encode().hex()


def json_shown(entry: Entry, name: str) -> str:
    """Shows a member as a text of JSON, sometimes with white space, as a client may send it."""
    if name not in entry:
        return "-"
    text = body.text_of(entry[name])
    return shown(f" {text}\n" if len(text) % 2 else text)


def values(entry: Entry) -> list[str]:
    """Returns the values of an entry in the order of the columns, behind its kind."""
    pairs = [shown(entry.get(name, {}).get(member)) for name, *members in PAIRS for member in members]
    flags = [shown(int(entry[name])) if name in entry else "-" for name in FLAGS]
    plain = [shown(entry.get(name)) for name in PLAIN]
    return [str(entry["what"]), *plain, *(json_shown(entry, name) for name in TEXTS), *pairs, *flags]


async def make(folder: Path, seed: int, count: int) -> None:
    """Writes a journal of the gate, and the values of its entries."""
    maker, head = Maker(seed), chain.START
    with (folder / "gate").open("wb") as journal, (folder / "values").open("w") as job:
        for place in range(count * len(KINDS)):
            entry = maker.preceded(await maker.entry(KINDS[place % len(KINDS)]))
            data, head = chain.linked(entry, head)
            journal.write(data)
            job.write(" ".join(values(entry)) + "\n")


def compare(folder: Path) -> int:
    """Prints how many lines are the same, and the first one that is not. Returns the exit status."""
    ours, theirs = ((folder / name).read_bytes().splitlines(keepends=True) for name in ("written", "gate"))
    for place, (one, other) in enumerate(zip(ours, theirs), 1):
        if one != other:
            print(f"line {place} differs:\nwriter: {one!r}\ngate:   {other!r}")
            return 1
    kinds = {json.loads(line)["what"] for line in theirs}
    print(f"{len(ours)} lines of the writer, {len(theirs)} of the gate, of {len(kinds)} kinds, the same byte by byte")
    return int(len(ours) != len(theirs) or kinds != set(KINDS))


def main() -> int:
    parser = argparse.ArgumentParser(description=__doc__)
    parser.add_argument("what", choices=("make", "compare"))
    parser.add_argument("folder", type=Path)
    parser.add_argument("seed", type=int, nargs="?", default=7)
    parser.add_argument("count", type=int, nargs="?", default=60)
    given = parser.parse_args()
    if given.what == "compare":
        return compare(given.folder)
    asyncio.run(make(given.folder, given.seed, given.count))
    return 0


if __name__ == "__main__":
    sys.exit(main())
