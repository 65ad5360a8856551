"""The journal of intakes beside a folder: the numbers of its aggregations, and mails that have their refs from before."""
from __future__ import annotations

import json
import pathlib
from dataclasses import dataclass, field

from intaking.folders import Unusable


@dataclass
class Journal:
    """What earlier intakes noted. An earlier version noted aggregations alone, and gave mails refs by their places."""

    path: pathlib.Path
    aggregations: dict[str, int] = field(default_factory=dict)
    # the ref that a mail has, by the one that it would get
    mails: dict[str, str] = field(default_factory=dict)
    is_earlier: bool = False
    is_current: bool = False

    def write(self, has_mails: bool) -> None:
        """Notes what is known now; in the form of before as long as no mails were looked at."""
        noted: object = {"aggregations": self.aggregations, "mails": self.mails}
        if self.is_earlier and not has_mails:
            noted = self.aggregations
        text = json.dumps(noted, ensure_ascii=False, indent=1)
        new = self.path.with_name(f".{self.path.name}.new")
        new.write_text(text + "\n", encoding="utf-8")
        new.replace(self.path)


def journal_in(path: pathlib.Path) -> Journal:
    """Reads a journal; an empty one if there is none."""
    if not path.exists():
        return Journal(path)
    try:
        read = json.loads(path.read_text(encoding="utf-8"))
        if isinstance(read.get("aggregations"), dict):
            return Journal(path, {str(ref): int(it) for ref, it in read["aggregations"].items()},
                           {str(ref): str(it) for ref, it in read.get("mails", {}).items()}, is_current=True)
        return Journal(path, {str(ref): int(it) for ref, it in read.items()}, is_earlier=True)
    except (ValueError, TypeError, AttributeError) as why:
        raise Unusable(f"{path} is no journal of an intake: {why}") from why
