"""Does the acts of a journal once more, on a copy, and compares each answer with the one that was given.

How much was done of a request without a whole answer nobody knows: an end of the gate or of the office cut it off. The
replay tries what is likeliest, and goes back if an answer after it, or a row in the end, is another then.
"""
import shutil
import tempfile
from collections import deque
from dataclasses import dataclass, field
from pathlib import Path

from office_common.files import sync
from office_gate.body import Json, text_of
from office_gate.errors import Refused
from office_gate.places import Checkpoints
from office_gate.playing import Player, copy
from office_gate.requests import JournaledRequest, Kept, Span, around, differences, keys_of, needs_of

MOST_TRIED = 400
"""for one answer that differs so many requests are tried otherwise"""
MOST_PAIRED, MOST_PARTNERS = 24, 12
"""if none of them alone helps, so many of these are tried with so many others"""
STEPS = 64
"""of a run that was cut so many steps are tried"""
MOST_ACTS, MOST_BYTES = 200, 800_000
"""so many acts of requests with an answer are done by one list; it is as if each had its own"""

Rows = list[tuple[str, set[str]]]
"""rows that differ, and what each is about"""


@dataclass
class Difference:
    """The first answer that is another than in the journal; without a line, rows that are others in the end."""

    at: int
    keys: set[str]
    text: str
    place: int = 0

    def comes_after(self, other: "Difference") -> bool:
        """Returns whether it is further on, be it within the same list of acts."""
        return (self.at, self.place) > (other.at, other.place)


def differs(where: str, answer: object, replayed: object) -> str:
    return f"{where}: {text_of(answer)} was answered, and now {text_of(replayed)}"


@dataclass
class Replay:
    """The requests after a copy, and what is tried of each."""

    requests: list[JournaledRequest]
    spans: list[list[Span]]
    kept: Kept
    player: Player
    folder: Path
    chosen: list[int] = field(default_factory=list)
    tried: int = 0

    def __post_init__(self) -> None:
        self.chosen = [0] * len(self.requests)
        # copies from which everything chosen follows; and those made while something else is tried
        self.places, self.fresh = Checkpoints(self.player, self.folder), Checkpoints(self.player, self.folder)
        self.marks = self.places
        self.places.mark(0)
        self.before, self.first = self.chosen, 0

    # ---- one way through

    def play(self, at: int, end: int) -> Difference | None:
        """Does the requests from one place to another, until an answer differs."""
        while at < end:
            if self.is_open(at):
                self.marks.mark(at)
            after, acts = self.together(at, end)
            difference = self.compare(at, after, acts) if after > at else self.one(at)
            if difference:
                return difference
            at = max(after, at + 1)
        return None

    def is_open(self, at: int) -> bool:
        """Returns whether a request can be played in more than one way."""
        return len(self.spans[at]) > 1

    def together(self, at: int, end: int) -> tuple[int, list[Json]]:
        """Returns up to which request all have whole answers, and their acts."""
        acts: list[Json] = []
        length = 0
        while at < end and not self.is_open(at) and self.requests[at].acts is not None and self.requests[at].is_known:
            more = self.of(at)
            length += sum(len(text_of(it)) + 1 for it in more)
            if acts and (length > MOST_BYTES or len(acts) + len(more) > MOST_ACTS):
                break
            acts += more
            at += 1
        return at, acts

    def of(self, at: int) -> list[Json]:
        """Returns the acts of a request, as much of it as is chosen."""
        begin, end = self.spans[at][self.chosen[at]]
        return self.kept.of(self.requests[at])[begin:end]

    def compare(self, at: int, after: int, acts: list[Json]) -> Difference | None:
        """Does the acts of requests that have whole answers."""
        answers = self.player.acts(acts)
        if answers is None:
            raise Refused(1, f"line {self.requests[at].line}: the replay's office does none of these acts, and they "
                             "were answered")
        for place in range(at, after):
            begin, end = self.spans[place][self.chosen[place]]
            mine, answers = answers[:end - begin], answers[end - begin:]
            acts, own = acts[end - begin:], acts[:end - begin]
            if difference := self.other(place, begin, own, mine):
                return difference
        return None

    def other(self, at: int, begin: int, acts: list[Json], answers: list[object]) -> Difference | None:
        """Compares the answers to a request with those that were given."""
        request = self.requests[at]
        for place, (act, replayed) in enumerate(zip(acts, answers), begin):
            if place < len(request.answers) and text_of(request.answers[place]) != text_of(replayed):
                given = request.answers[place]
                return Difference(at, needs_of(act, given, replayed),
                                  differs(f"line {request.line}, act {request.places[place]}", given, replayed), place)
        return None

    def one(self, at: int) -> Difference | None:
        """Does a request without a whole answer, or a run."""
        request, (begin, end) = self.requests[at], self.spans[at][self.chosen[at]]
        if request.acts is None:
            return self.run(at, request, end)
        acts = self.of(at)
        answers = self.player.acts(acts)
        if answers is None and (request.is_known or request.answers):
            raise Refused(1, f"line {request.line}: the replay's office does none of these acts, and they were done")
        # a list that nobody can read did nothing then either
        return self.other(at, begin, acts, answers or [])

    def run(self, at: int, request: JournaledRequest, end: int) -> Difference | None:
        """Carries out a run: all of it, or of one that was cut so many steps."""
        if request.is_known or end == 1:
            replayed = self.player.resume()
            if request.answers and text_of(request.answers[0]) != text_of(replayed):
                return Difference(at, {"run"}, differs(f"line {request.line}", request.answers[0], replayed))
        else:
            self.player.acts([{"act": "run-step"}] * max(0, end - 1))
        return None

    # ---- other ways

    def otherwise(self, others: dict[int, int]) -> Difference | None:
        """Plays some requests otherwise. Then `keep` stays with that, and `forget` takes it back."""
        self.tried += 1
        self.before, self.first = list(self.chosen), min(others)
        for at, way in others.items():
            self.chosen[at] = way
        self.marks = self.fresh
        return self.play(self.places.back_to(self.first), len(self.requests))

    def keep(self) -> None:
        self.places.drop_after(self.first)
        self.places.take(self.fresh)
        self.marks = self.places

    def forget(self) -> None:
        self.fresh.drop_after(-1)
        self.chosen, self.marks = self.before, self.places

    def whole(self) -> None:
        """Plays all. Where an answer differs it tries the requests before it otherwise."""
        difference = self.play(0, len(self.requests))
        while difference:
            difference = self.mended(difference)

    def open_before(self, difference: Difference) -> list[int]:
        """Lists the requests that may be played otherwise, the likeliest cause first."""
        places = [place for place in range(min(difference.at + 1, len(self.requests))) if self.is_open(place)]
        return sorted(places, key=lambda place: (-self.concerns(place, difference.keys), -place))[:MOST_TRIED]

    def concerns(self, at: int, keys: set[str]) -> int:
        """Tells whether a request changes any of these: 2 for a thing by its name, 1 for a run, or for numbers."""
        acts = self.requests[at].acts
        named = {"run"} if acts is None else set().union(*map(keys_of, acts))
        return max((2 if ":" in it else 1 for it in named & keys), default=0)

    def mended(self, difference: Difference) -> Difference | None:
        """Finds a way on which the answers are right up to here and further. Returns what differs then."""
        self.widen(difference)
        earlier: list[tuple[dict[int, int], Difference]] = []
        for at, way in self.ways(difference):
            left = self.otherwise({at: way})
            if left is None or left.comes_after(difference):
                self.keep()
                return left
            self.forget()
            earlier.append(({at: way}, left))
        # what fitted an answer before may have been wrong: taken back, it needs another one to be played otherwise too
        for one, other in earlier[:MOST_PAIRED]:
            for at, way in self.ways(other)[:MOST_PARTNERS]:
                if at in one:
                    continue
                left = self.otherwise(one | {at: way})
                if left is None or left.comes_after(difference):
                    self.keep()
                    return left
                self.forget()
        raise Refused(1, difference.text)

    def ways(self, difference: Difference) -> list[tuple[int, int]]:
        """Lists the other ways of the requests before a difference, the likeliest first."""
        return [(at, way) for at in self.open_before(difference) for way in range(len(self.spans[at]))
                if way != self.chosen[at]]

    def widen(self, difference: Difference) -> None:
        """Adds the files and classes of the records: what was given to these decides about the records too."""
        self.player.stop()
        place = self.folder / "now.db"
        copy(self.player.file, place)
        difference.keys |= around(place, difference.keys)

    # ---- the rows in the end

    def compared(self, beside: Path) -> list[str]:
        """Compares the rows with those of a file, and returns what differs once nothing else can be tried."""
        rows = self.rows(beside)
        while rows:
            better = self.nearer(beside, rows)
            if better is None:
                # what was tried last is in the file
                self.play(self.places.back_to(len(self.requests)), len(self.requests))
                break
            rows = better
        return [it for it, _ in rows]

    def rows(self, beside: Path) -> Rows:
        self.player.stop()
        place = self.folder / "end.db"
        copy(self.player.file, place)
        other = Player(place)
        other.close()
        return differences(place, beside)

    def nearer(self, beside: Path, rows: Rows) -> Rows | None:
        """Tries the requests that concern the rows otherwise: many at once, and of those that do not help the halves."""
        keys = set().union(*(it for _, it in rows))
        places = [it for it in self.open_before(Difference(len(self.requests), keys, "")) if self.concerns(it, keys)]
        named = sorted(it for it in places if self.concerns(it, keys) > 1)
        groups = deque((it, 1) for it in (named, sorted(set(places) - set(named))) if it)
        while groups:
            some, more = groups.popleft()
            others = {at: (self.chosen[at] + more) % len(self.spans[at]) for at in some}
            if self.otherwise(others) is None and len(better := self.rows(beside)) < len(rows):
                self.keep()
                return better
            self.forget()
            if len(some) > 1:
                middle = len(some) // 2
                groups += [(some[middle:], 1), (some[:middle], 1)]
            elif more + 1 < len(self.spans[some[0]]):
                # other ways of one come after the first one of all
                groups.append((some, more + 1))
        return None


def spans_of(request: JournaledRequest, moment: float) -> list[Span]:
    """Lists the ways to play a request; a run that was cut may have come to any step."""
    spans = request.spans(moment)
    if request.acts is None and not request.is_known and spans:
        return [(0, 1), (0, 0), *((0, it) for it in range(2, STEPS))]
    return spans


def replay(requests: list[JournaledRequest], times: tuple[float, float], kept: Kept,
           files: tuple[Path, Path]) -> Replay:
    """Plays the acts from one time to another on a copy, for a new file. The caller removes the folder of the replay."""
    (moment, until), (copied, new) = times, files
    if new.exists():
        raise Refused(2, f"{new} is there already")
    for request in requests:
        if request.answered_at > moment:
            kept.leave_out(request)
    ways = [(request, spans_of(request, moment)) for request in requests
            if request.acted() and request.asked_at <= until]
    ways = [(request, spans) for request, spans in ways if spans]
    folder = Path(tempfile.mkdtemp(prefix=".office-journal-", dir=new.parent))
    try:
        copy(copied, folder / "replay.db")
    except OSError:
        shutil.rmtree(folder, ignore_errors=True)
        raise
    player = Player(folder / "replay.db")
    return Replay([request for request, _ in ways], [spans for _, spans in ways], kept, player, folder)


def named(made: Path, new: Path) -> None:
    """Gives a file its name once it is whole and on the disk: after a replay that fails there is no such file."""
    sync(made)
    if new.exists():
        raise Refused(2, f"{new} is there already")
    made.rename(new)
    sync(new.parent)
