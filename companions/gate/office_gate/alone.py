"""Which name alone can destroy: a search over its rights and the rules of four eyes.

It begins with what others leave: a record that is not due, or that is due and that nobody confirmed; one that was sent,
and of which no archive has said that it came; and in each case with no open run, or with one that another name opened.
It ends once the content is gone. The catalogue of acts is that of the gate; what they do is described here in short.
"""
from collections import deque
from collections.abc import Iterator
from dataclasses import dataclass, replace

from office_gate.access import Access, Person, Rules
from office_gate.words import GIVES, RESUME

CARRIES = (RESUME, "run-step")
MOVES = tuple(it for it in GIVES if not it.startswith("add-"))
"""the kinds that may make a record due that is there; whoever files one early has it to themselves"""


@dataclass(frozen=True)
class Stage:
    """A record, and what one name did about it: `run` is who opened the run that is open."""

    status: str
    is_due: bool = False
    is_moved: bool = False
    is_confirmed: bool = False
    is_own_sending: bool = False
    is_own_receipt: bool = False
    run: str = ""


STARTS = (Stage("here", is_due=True), Stage("here"), Stage("sent"))
Step = tuple[str, Stage]


def has(person: Person, kind: str) -> bool:
    """Returns whether a name may do an act of this kind: a run lies in no class."""
    return person.may_all(kind) if kind in (*CARRIES, "open-run") else person.may(kind)


def looks(rules: Rules) -> bool:
    return rules.confirmer_does_not_open or rules.changer_days is not None


def decisions(stage: Stage, rules: Rules) -> Iterator[Step]:
    """Gives what decides about the record. While a run is open, whoever opened it or may carry it out does not."""
    if stage.status == "here" and not (stage.run and looks(rules)):
        if not stage.is_due:
            for kind in MOVES:
                yield kind, replace(stage, is_due=True, is_moved=True)
        elif not stage.is_confirmed:
            yield "confirm", replace(stage, is_confirmed=True)
    is_apart = stage.run and rules.receiver_does_not_open or stage.is_own_sending and rules.sender_does_not_receive
    if stage.status == "sent" and not is_apart:
        yield "receipt", replace(stage, status="received", is_own_receipt=True)


def may_open(stage: Stage, rules: Rules) -> bool:
    return not (stage.run or stage.is_confirmed and rules.confirmer_does_not_open
                or stage.is_moved and rules.changer_days is not None
                or stage.is_own_receipt and rules.receiver_does_not_open)


def runs(stage: Stage, rules: Rules) -> Iterator[Step]:
    """Gives what opens a run, and what carries it out: the record is destroyed or sent, or what was received is ended."""
    if may_open(stage, rules):
        yield "open-run", replace(stage, run="own")
    if not stage.run or stage.run == "own" and rules.opener_does_not_carry_out:
        return
    for kind in CARRIES:
        if stage.status == "received" or stage.is_confirmed and stage.status == "here":
            yield kind, replace(stage, status="ended", run="")
        if stage.is_confirmed and stage.status == "here":
            yield kind, replace(stage, status="sent", is_own_sending=True, is_confirmed=False, is_moved=False, run="")


def way(person: Person, rules: Rules, run: str) -> list[str] | None:
    """Returns the fewest acts by which a name alone gets a content destroyed, or None if there are none."""
    waiting = deque((replace(it, run=run), list[str]()) for it in STARTS)
    stages = {it for it, _ in waiting}
    while waiting:
        stage, acts = waiting.popleft()
        if stage.status == "ended":
            return acts
        for kind, after in (*decisions(stage, rules), *runs(stage, rules)):
            if after not in stages and has(person, kind):
                stages.add(after)
                waiting.append((after, [*acts, kind]))
    return None


def statement(access: Access) -> list[str]:
    """Says which name alone can destroy, and by which acts: a line for each."""
    everybody = [*access.people.items(), *([("*", access.others)] if access.others else [])]
    lines = []
    for name, person in everybody:
        if acts := way(person, access.rules, ""):
            lines.append(f"one name alone can destroy: {name} ({', '.join(acts)})")
        elif acts := way(person, access.rules, "other"):
            lines.append(f"one name alone can destroy: {name} ({', '.join(acts)}, once another name opened a run)")
    return lines or ["no name alone can destroy a record"]
