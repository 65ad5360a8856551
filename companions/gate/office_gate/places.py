"""Copies of the file of a replay, as it was before some of its requests, to which the replay goes back."""
from dataclasses import dataclass, field
from pathlib import Path

from office_gate.playing import Player

LEAST, MOST = 8, 64
"""so many copies are there at once, at least and at most"""
ROOM = 1 << 31
"""as many as fit into these bytes"""


@dataclass
class Checkpoints:
    """The copies by the request before which each was made; of many some go, the older ones further apart."""

    player: Player
    folder: Path
    files: dict[int, Path] = field(default_factory=dict)
    made: int = 0

    def mark(self, at: int) -> None:
        """Copies the file as it is before a request."""
        if at in self.files:
            return
        self.made += 1
        place = self.folder / f"{id(self)}-{self.made}.db"
        self.player.copy_to(place)
        self.files[at] = place
        while len(self.files) > max(LEAST, min(MOST, ROOM // max(1, place.stat().st_size))):
            known = sorted(self.files)
            # the one whose neighbours are nearest to each other, as seen from the end
            near = {it: (after - before) / (at - it + 1) for before, it, after in zip(known, known[1:], known[2:])}
            self.drop(min(near, key=near.__getitem__))

    def drop(self, at: int) -> None:
        place = self.files.pop(at)
        for end in ("", "-wal"):
            Path(f"{place}{end}").unlink(missing_ok=True)

    def drop_after(self, at: int) -> None:
        for it in [it for it in self.files if it > at]:
            self.drop(it)

    def take(self, others: "Checkpoints") -> None:
        """Takes copies over."""
        for at in self.files.keys() & others.files.keys():
            self.drop(at)
        self.files |= others.files
        others.files = {}

    def back_to(self, at: int) -> int:
        """Puts the nearest copy before a request back, and returns which request follows it."""
        nearest = max(it for it in self.files if it <= at)
        self.player.back_to(self.files[nearest])
        return nearest
