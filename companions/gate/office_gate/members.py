"""The members of each kind of act, printed from docs/openapi.yaml by tests/gate/members: the journal has no others."""
import json
from pathlib import Path

from office_gate.body import Json, text_of
from office_gate.chain import digest
from office_gate.contents import noted
from office_gate.pace import each

MEMBERS: dict[str, frozenset[str]] = {
    kind: frozenset(names) for kind, names in json.loads(Path(__file__).with_name("members.json").read_bytes()).items()}
OTHER = "other"
"""the member for those that a kind does not have. No kind has it, so a replay has the act refused as well"""


def parted(act: Json) -> tuple[Json, Json]:
    """Parts an act: the members that its kind has, and a summary of the others, if there are any."""
    names = MEMBERS[act["act"]]
    others = {name: value for name, value in act.items() if name not in names}
    if not others:
        return act, {}
    data = text_of(others).encode()
    summary = {"members": len(others), "bytes": len(data), "sha256": digest(data)}
    return {name: value for name, value in act.items() if name in names}, {OTHER: summary}


async def journaled(acts: list[Json]) -> tuple[list[Json], list[bytes]]:
    """Returns the acts as the journal has them, and the contents that it leaves out."""
    plain, parts = list[Json](), list[bytes]()
    async for _, act in each(acts):
        known, other = parted(act)
        (line,), contents = noted([known])
        plain.append(line | other)
        parts += contents
    return plain, parts
