"""The model of the objects: which must be there and which must be gone, whatever was killed."""
from dataclasses import dataclass, field

GRACE = 100


@dataclass
class Thing:
    """An object as the model knows it.

    sure: the first sweep that ended and saw it unnamed since its last PUT. early: the first one that may have noted it.
    """

    is_there: bool | None = False
    put: float = -1e9
    sure: float | None = None
    early: float | None = None
    went: int = 0


@dataclass
class Expected:
    """All objects, and the time of the trial."""

    now: float = 1000.0
    things: dict[str, Thing] = field(default_factory=dict)
    must_be_there: int = 0
    must_be_gone: int = 0
    may: int = 0

    def put(self, digest: str, is_answered: bool) -> None:
        it = self.things.setdefault(digest, Thing())
        if is_answered:
            self.things[digest] = Thing(True, self.now, went=it.went)
        else:
            # it may be there now, and may have a new stamp
            it.is_there = True if it.is_there else None
            it.sure = None

    def forget(self) -> None:
        """A sweep with --restored forgets what was seen unnamed."""
        for it in self.things.values():
            it.sure = it.early = None

    def after(self, named: set[str], there: set[str], is_whole: bool) -> list[str]:
        """Compares what is there after a sweep, whole or killed, with what must be, and returns the differences."""
        wrong = []
        for digest, it in self.things.items():
            if digest in named:
                wrong += self.judged(digest, it, True, digest in there)
                it.sure = it.early = None
                continue
            may_go = it.early is not None and it.early <= self.now - GRACE and it.early < self.now
            must_go = is_whole and it.sure is not None and it.sure <= self.now - GRACE and it.sure < self.now
            wanted = None if it.is_there is None else it.is_there
            if it.is_there is not False and may_go:
                wanted = False if must_go else None
            wrong += self.judged(digest, it, wanted, digest in there)
            self.settle(it, digest in there, is_whole)
        return wrong

    def judged(self, digest: str, it: Thing, wanted: bool | None, found: bool) -> list[str]:
        if wanted is None:
            self.may += 1
            return []
        if wanted:
            self.must_be_there += 1
        else:
            self.must_be_gone += 1
        return [] if wanted == found else [f"{digest[:8]} is {'there' if found else 'gone'} at {self.now}: {it}"]

    def settle(self, it: Thing, found: bool, is_whole: bool) -> None:
        if it.is_there and not found:
            it.went += 1
        it.is_there = found
        if not found:
            it.sure = it.early = None
            return
        it.early = self.now if it.early is None else it.early
        if is_whole:
            it.sure = self.now if it.sure is None else it.sure
