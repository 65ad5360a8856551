"""Which receipts an archive's list makes: of a record if its content and each file of its manifest are confirmed."""
from __future__ import annotations

from collections import Counter
from dataclasses import dataclass, field

from transferring.expected import Part, Sent
from office_common.errors import WRONG, Refused
from transferring.lists import Line, Read

Key = tuple[int, int]


@dataclass
class Judged:
    """What a list comes to: the records that are wholly confirmed, and a sentence for everything else."""

    confirmed: list[Sent] = field(default_factory=list)
    missing: list[str] = field(default_factory=list)
    differing: list[str] = field(default_factory=list)
    twice: list[str] = field(default_factory=list)
    others: list[str] = field(default_factory=list)


class Index:
    """Finds the part of a bag that a line speaks of: by its path, or by its record and digest."""

    def __init__(self, sent: list[Sent]) -> None:
        self.parts = {(at, place): part for at, record in enumerate(sent) for place, part in enumerate(record.parts)}
        self.numbers = {record.number: at for at, record in enumerate(sent)}
        self.refs = {record.ref: at for at, record in enumerate(sent)}
        # an archive may put the bag into a folder, or list it from inside: the ends of paths decide if they are unique
        ends: dict[str, list[Key]] = {}
        for key, part in self.parts.items():
            for end in ends_of(part.path):
                ends.setdefault(end, []).append(key)
        self.ends = {end: keys[0] for end, keys in ends.items() if len(keys) == 1}

    def find(self, line: Line) -> Key | None:
        """Returns the part that the line is of; None if it names nothing of the bag."""
        by_path = next((self.ends[end] for end in ends_of(line.path) if end in self.ends), None)
        if by_path is not None:
            return by_path
        record = self.refs.get(line.ref) if line.number is None else self.numbers.get(line.number)
        if record is None:
            return None
        places = [key for key in self.parts if key[0] == record]
        # a digest that none of its parts has is compared with that of the content, and differs
        return next((key for key in places if self.parts[key].answer == line.digest), (record, 0))


def ends_of(path: str) -> list[str]:
    """Returns the path, and what is left of it without its first folder, its first two, and so on."""
    steps = path.split("/") if path else []
    return ["/".join(steps[at:]) for at in range(len(steps))]


def refuse_own(sent: list[Sent], read: Read) -> None:
    """Refuses a list of plain sums that could be the folder's own: each of its lines has a path and a sum from there."""
    own = {(part.path, part.digest) for record in sent for part in record.parts}
    if all((it.path, it.digest) in own for it in read.lines):
        raise Refused(WRONG, "each line of the list has a path and a sum as the folder itself has them, so it may come "
                             "from the folder: ask for a list by the command of the order")


def refuse_plain(sent: list[Sent], read: Read) -> None:
    """Refuses a list that answers no challenge, but has the sums that the folder has itself."""
    parts = [part for record in sent for part in record.parts]
    digests = {it.digest for it in read.lines}
    if digests.isdisjoint(it.answer for it in parts) and not digests.isdisjoint(it.digest for it in parts):
        raise Refused(WRONG, "the list has the plain sums of the files, which are in the folder itself, so it does not "
                             "show that the archive has the files: ask for a list by the command of the order, or take it "
                             "--without-proof")


def judge(sent: list[Sent], read: Read) -> Judged:
    """Compares a list with what was sent."""
    judged, index = Judged(), Index(sent)
    judged.others += read.wrong
    lines_of: dict[Key, list[Line]] = {}
    elsewhere: list[Line] = []
    for line in read.lines:
        key = index.find(line)
        if key is None:
            elsewhere.append(line)
        else:
            lines_of.setdefault(key, []).append(line)
    renamed = Counter(it.digest for it in elsewhere)
    for at, record in enumerate(sent):
        verdicts = [part_is_there(record, part, lines_of.get((at, place), []), renamed, judged)
                    for place, part in enumerate(record.parts)]
        if all(verdicts):
            judged.confirmed.append(record)
    for line in elsewhere:
        if renamed[line.digest] > 0:
            renamed[line.digest] -= 1
            judged.others.append(f"line {line.at}, {line.name()}: nothing of the bag")
    return judged


def part_is_there(record: Sent, part: Part, lines: list[Line], renamed: Counter[str], judged: Judged) -> bool:
    """Returns whether the archive has a part: by its lines, or by a line with its digest under another name."""
    name = f"record {record.number}, {record.ref}{f': {part.path}' if part.path else ''}"
    digests = {it.digest for it in lines}
    if len(lines) > 1:
        judged.twice.append(f"{name}: lines {', '.join(str(it.at) for it in lines)}")
    if digests == {part.answer}:
        return True
    if digests:
        other = ", ".join(sorted(digests - {part.answer}))
        judged.differing.append(f"{name}: the archive has {other}, and {part.answer} was expected")
        return False
    if renamed[part.answer] > 0:
        renamed[part.answer] -= 1
        return True
    judged.missing.append(f"{name}: {part.answer or 'the folder lacks the file'}")
    return False


def acts(records: list[Sent], day: str, by: str) -> list[dict[str, object]]:
    """Returns the receipt of each record, as an act of docs/ACTS.md."""
    return [{"act": "receipt", "by": by, "day": day, "digest": it.parts[0].digest, "record": it.number}
            for it in records]
