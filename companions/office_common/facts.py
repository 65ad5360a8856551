"""The facts that the crates decide, as `.ci/facts` prints them from their sources into facts.json."""
import json
from pathlib import Path
from typing import Any

FACTS: dict[str, Any] = json.loads(Path(__file__).with_name("facts.json").read_bytes())
ACTS: dict[str, dict[str, str]] = FACTS["acts"]
"""the kinds of acts, each with its members beside `act` and the form of each"""
WORDS: dict[str, list[str]] = FACTS["words"]
"""the words of triggers, units, offsets, actions, statuses and outcomes"""
PERIODS: dict[str, int] = FACTS["periods"]
"""the largest count of each unit"""
LIMITS: dict[str, int] = FACTS["limits"]
LONGEST_CONTENT = LIMITS["content"]
"""bytes of the content of a record"""
LONGEST_ACTS = LIMITS["acts"]
"""bytes of the list of acts in a request"""


def kinds_with(member: str) -> tuple[str, ...]:
    """Returns the kinds of acts that have a member."""
    return tuple(kind for kind, members in ACTS.items() if member in members)
