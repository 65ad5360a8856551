"""Mutants in batches: those that change the bodies of different functions of a crate are tried by one check.

A function is proved of its own body and of the contracts of what it calls. So what the prover says of a function whose
body a mutant changes is the same beside other changed bodies as alone.
"""
import re
from typing import NamedTuple

from functions import Function, functions
from mutant import Mutant, Texts

MOST = 20

# a line of the report that is about a place; a function's line
TOLD = re.compile(r"(?:note: )?(?:\./)?(?:src|proofs)/\S+?:\d+:\d+:")
SOURCE = re.compile(r"(?:note: )?(?:\./)?(src/\S+?\.rt):(\d+):\d+:")
PROOF = re.compile(r"(?:note: )?(?:\./)?proofs/(\S+)/\w+\.antt:\d+:\d+:")
# what a proof file says where it names what the mutant took away, which says little of the contract
NAMES = re.compile(r"(?:note: )?(?:\./)?proofs/.*(has no field|is not in scope|has no `|was not admitted)")
VERDICT = re.compile(r"^fn (\S+): (.*)$")
# not where only what the function calls is not proved
UNPROVED = re.compile(r"(not proved|no proof)(?!: (it calls|it passes|the borrow checker))")


class Planned(NamedTuple):
    """A mutant that can be tried beside others, and the functions whose bodies it changes."""

    mutant: Mutant
    functions: tuple[Function, ...]

    @property
    def places(self) -> set[tuple[str, int]]:
        return {(it.file, it.first) for it in self.functions}


def has_clause(it: Function, text: str) -> bool:
    """Whether a function's head has a clause of its own."""
    head = text.split("\n")[it.first:it.begin + 1]
    return any(re.match(r"\s*ensures\b", line) for line in head)


def planned(texts: Texts, it: Mutant) -> Planned | None:
    """A mutant with the functions that it changes, or None where it changes more than bodies under clauses."""
    found: dict[tuple[str, int], Function] = {}
    changed: Texts = {}
    for path, old, new in it.edits:
        whole = f"crates/{it.crate}/{path}"
        text = changed.get(whole, texts.get(whole, ""))
        if not path.startswith("src/") or text.count(old) != 1:
            return None
        line = text.partition(old)[0].count("\n")
        inside = [f for f in functions(whole, texts[whole]) if f.begin < line <= f.last]
        if not inside or not has_clause(inside[-1], texts[whole]):
            return None
        found[inside[-1].file, inside[-1].first] = inside[-1]
        changed[whole] = text.replace(old, new)
    return Planned(it, tuple(found.values())) if found else None


def edited(texts: Texts, mutants: list[Planned]) -> Texts | None:
    """The sources that some mutants change, with all their changes, by path in the crate; None where one's text is not
    there once beside the others."""
    found: Texts = {}
    for it in mutants:
        for path, old, new in it.mutant.edits:
            text = found.get(path, texts[f"crates/{it.mutant.crate}/{path}"])
            if text.count(old) != 1:
                return None
            found[path] = text.replace(old, new)
    return found


def may_join(texts: Texts, it: Planned, batch: list[Planned]) -> bool:
    """Whether a mutant can be tried beside those of a batch: it changes other functions, and there is room."""
    is_apart = not any(it.places & one.places for one in batch)
    return len(batch) < MOST and is_apart and edited(texts, [*batch, it]) is not None


def batches(texts: Texts, mutants: list[Planned]) -> list[list[Planned]]:
    """Batches of mutants, in each of which no function is changed twice."""
    found: list[list[Planned]] = []
    for it in mutants:
        batch = next((batch for batch in found if may_join(texts, it, batch)), None)
        if batch is None:
            found.append([it])
        else:
            batch.append(it)
    return found


def looping(texts: Texts, crate: str) -> set[str]:
    """The names of the functions of a crate that come to themselves, by the names of what they call."""
    calls: dict[str, set[str]] = {}
    for path, text in texts.items():
        if path.startswith(f"crates/{crate}/src/"):
            for it in functions(path, text):
                calls.setdefault(it.name, set()).update(name for _, name in it.calls)
    found = set()
    for name in calls:
        seen, todo = set(), [name]
        while todo:
            more = {it for it in calls.get(todo.pop(), ()) if it not in seen}
            seen |= more
            todo += more
        found |= {name} & seen
    return found


def in_new_loops(texts: Texts, batch: list[Planned]) -> list[Planned]:
    """The mutants of a batch whose functions come to themselves only with all its changes: a proof that a function ends
    sees more than its own body there."""
    crate = batch[0].mutant.crate
    changed = {f"crates/{crate}/{path}": text for path, text in (edited(texts, batch) or {}).items()}
    new = looping({**texts, **changed}, crate) - looping(texts, crate)
    return [it for it in batch if any(f.name in new for f in it.functions)]


def is_of(it: Function, parts: list[str]) -> bool:
    """Whether the modules, the type and the name of what the report speaks of are those of a function. A type may be of
    another module than its function."""
    modules = re.sub(r"^crates/\w+/src/|\.rt$", "", it.file).split("/")
    if "fn" in parts:
        # a closure in a function
        at = parts.index("fn")
        parts = [*parts[:at], *parts[at + 1:at + 2]]
    if parts[-1:] != [it.name]:
        return False
    if it.owner:
        return parts[-2:-1] == [it.owner]
    return parts[:-1] == ([] if modules in (["lib"], ["main"]) else modules)


def is_in(it: Planned, line: str) -> bool:
    """Whether a line of the report is about a place in a function that a mutant changes, or in its proof."""
    at = SOURCE.match(line)
    if at:
        path = f"crates/{it.mutant.crate}/{at[1]}"
        return any(f.file == path and f.first < int(at[2]) <= f.last + 1 for f in it.functions)
    proof = PROOF.match(line)
    return bool(proof) and any(is_of(f, proof[1].split("/")) for f in it.functions)


def is_unproved(it: Planned, lines: list[str]) -> bool:
    """Whether the report calls a function that a mutant changes not proved, by its name."""
    said = [(found[1].split("::")[1:], found[2]) for found in map(VERDICT.match, lines) if found]
    return any(UNPROVED.match(words) and is_of(f, parts) for parts, words in said for f in it.functions)


def refusal(it: Planned, report: str) -> str:
    """The first goal in its functions that was not proved, or nothing where a mutant is not plainly refused."""
    lines = report.split("\n")
    told = [line for line in lines if TOLD.match(line) and is_in(it, line) and not NAMES.match(line)]
    told = [line for line in told if ": error" in line or line.startswith("note: ")]
    return told[0][:160] if told and is_unproved(it, lines) else ""


def is_proved(report: str) -> bool:
    """Whether the prover came to the end of a check and refused nothing."""
    return re.search(r"^logic=proved", report, re.M) is not None


def is_verdict(report: str) -> bool:
    """Whether the prover came to the end of a check and refused something."""
    return re.search(r"^logic=not-proved", report, re.M) is not None
