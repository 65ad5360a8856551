"""Compares the text that the proved crate notes of lists of acts with what the gate notes of them."""
import asyncio
import base64
import datetime
import json
import random
import sys
from collections.abc import Callable
from pathlib import Path

HERE = Path(__file__).resolve().parent
sys.path[:0] = [str(HERE / "../../companions/gate"), str(HERE / "../../companions")]
from office_gate.body import Json, acts_of, list_of  # noqa: E402
from office_gate.members import MEMBERS, journaled  # noqa: E402

FIRST, LAST = datetime.date(1, 1, 1).toordinal(), datetime.date(2999, 12, 31).toordinal()
LETTERS = "abcXYZ019 .,-/\"\\'<>&äßÉŁжΩ中😀\u2028\ufeff"
CODE_LETTERS = "ABCXYZabcxyz0189-"
LIMITS = {"days": 182_500, "weeks": 26_000, "months": 6_000, "years": 500}
OFFSETS = ["none", "month", "quarter", *(f"from-month-{month}" for month in range(1, 13))]
TRIGGERS = ["origin", "added", "closed", "last-addition", "review", "event"]
ACTIONS = ["keep", "review", "transfer", "destroy"]
EMPTY = ("parent", "class", "schedule")
"""the members that may be null, in an act that is no class's"""


class Maker:
    """Makes acts of all kinds, by chance."""

    def __init__(self, seed: int) -> None:
        self.chance = random.Random(seed)
        self.ways: dict[str, Callable[[], object]] = {
            "day": self.day, "originated": self.day, "occurred": self.day, "code": self.code, "hold": self.code,
            "class": self.code, "schedule": self.code, "title": self.text, "ref": self.text, "reason": self.text,
            "by": self.text, "aggregation": self.number, "parent": self.number, "record": self.number,
            "trigger": lambda: self.chance.choice(TRIGGERS), "offset": lambda: self.chance.choice(OFFSETS),
            "action": lambda: self.chance.choice(ACTIONS), "content": self.content,
            "digest": lambda: self.chance.randbytes(32).hex()}

    def day(self) -> str:
        return datetime.date.fromordinal(self.chance.randint(FIRST, LAST)).isoformat()

    def code(self) -> str:
        return "".join(self.chance.choices(CODE_LETTERS, k=self.chance.randint(1, 16)))

    def text(self) -> str:
        return "".join(self.chance.choices(LETTERS, k=self.chance.randint(1, 50)))

    def number(self) -> int:
        return self.chance.choice([1, 4_294_967_295, self.chance.randint(1, 4_294_967_295), self.chance.randint(1, 99)])

    def content(self) -> str:
        return base64.b64encode(self.chance.randbytes(self.chance.choice([0, 1, 2, 3, 55, 56, 64, 200]))).decode()

    def target(self, kind: str) -> str:
        thing = self.chance.choice(["aggregation", "record"] if kind == "reclassify" else ["class", "aggregation", "record"])
        return f"{thing}:{self.code() if thing == 'class' else self.number()}"

    def member(self, kind: str, name: str) -> object:
        may_be_null = name in EMPTY and kind not in ("add-class", "set-class-schedule")
        if may_be_null and self.chance.random() < 0.4:
            return None
        return self.target(kind) if name == "target" else self.ways[name]()

    def act(self, kind: str) -> Json:
        """Makes an act of a kind, with its members in any order."""
        act: Json = {"act": kind}
        names = sorted(MEMBERS[kind] - {"act", "unit", "count"})
        act |= {name: self.member(kind, name) for name in names}
        if kind == "add-schedule":
            unit = self.chance.choice(list(LIMITS))
            act |= {"unit": unit, "count": self.chance.choice([0, LIMITS[unit], self.chance.randint(0, LIMITS[unit])])}
        pairs = list(act.items())
        self.chance.shuffle(pairs)
        return dict(pairs)

    def list(self) -> list[Json]:
        return [self.act(self.chance.choice(list(MEMBERS))) for _ in range(self.chance.randint(0, 12))]


def make(folder: Path, seed: int, count: int) -> None:
    """Writes lists: each kind alone, and random ones."""
    maker = Maker(seed)
    lists = [[maker.act(kind)] for kind in MEMBERS]
    lists += [maker.list() for _ in range(count - len(lists))]
    for number, acts in enumerate(lists[:count]):
        text = json.dumps(acts, ensure_ascii=number % 2 == 0, indent=number % 3 or None)
        (folder / str(number)).write_text(text, encoding="utf-8")


async def by_gate(body: bytes) -> str:
    """Returns what the gate notes of a list, with the members in the order of their names."""
    plain, _ = await journaled(acts_of(await list_of(body)))
    return json.dumps(plain, ensure_ascii=False, separators=(",", ":"), sort_keys=True)


def compare(folder: Path, printed: Path) -> int:
    """Prints each list that the two note differently, and returns how many there are."""
    lines = printed.read_text(encoding="utf-8").removesuffix("\n").split("\n")
    acts = wrong = 0
    for number, line in enumerate(lines):
        gate = asyncio.run(by_gate((folder / str(number)).read_bytes()))
        acts += len(json.loads(gate))
        if gate != line:
            wrong += 1
            print(f"list {number}\n  gate  {gate}\n  crate {line}")
    missing = len(list(folder.iterdir())) - len(lines)
    print(f"lists: {len(lines)}, acts: {acts}, other texts: {wrong}, missing: {missing}")
    return wrong + missing


def main() -> int:
    folder = Path(sys.argv[2])
    if sys.argv[1] == "make":
        make(folder, int(sys.argv[3]), int(sys.argv[4]))
        return 0
    return 1 if compare(folder, Path(sys.argv[3])) else 0


sys.exit(main())
