"""Which name alone can destroy: what the gate says of settings, and what that name does then, agree for all rules.

A manager tries all that its rights allow on records that others leave: one that is due and that nobody confirmed, one
that is not due, and one that was sent. No run is open, or another name opened one.
"""
import hashlib
import itertools
import pathlib
from collections.abc import Callable

from gate_trial.base import CITY, ROLES, filing, plan
from kit.judging import judge, same
from gate_trial.settings import run
from gate_trial.world import SITE, World, today

NAMES = "name registry is registry\nname manager is records-manager\nname other is records-manager\n"
NAMES += "name third is records-manager\nlimit requests 64\n"
# the right to receipts is the archive's alone as it is shipped
RECEIVER = NAMES + "name manager is archive\n"
OPENER, CONFIRMER, CHANGER = ("opener-does-not-carry-out", "confirmer-does-not-open", "changer-does-not-open 30")
SENDER, RECEIPTS = "sender-does-not-receive", "receiver-does-not-open"
OPEN, STEP = {"act": "open-run"}, {"act": "run-step"}
CONTENT = b"the only copy"
SAYS = "one name alone can destroy: "
NOBODY = "no name alone can destroy a record"
Attempt = Callable[[], bool]
Attempts = Callable[[], dict[str, Attempt]]


def confirm(record: int, action: str = "destroy") -> dict:
    return {"act": "confirm", "record": record, "action": action}


def tried(folder: pathlib.Path) -> None:
    folder.mkdir(parents=True)
    stated(folder)
    world = World(folder / "world", ROLES + NAMES + "limit lists 8\n")
    world.start_office()
    world.start_gate()
    judge("the start of the gate says who can", f"{SAYS}manager (" in (world.folder / "log").read_text())
    kept = {"act": "add-schedule", "code": "Y50", "trigger": "added", "unit": "years", "count": 50, "offset": "none",
            "action": "destroy"}
    same("the plan", world.act("third", *plan(), kept)[0], 200)
    trial = Trial(world)
    for rules in combinations(OPENER, CONFIRMER, CHANGER):
        trial.compared(NAMES, rules, trial.here)
    for rules in combinations(OPENER, SENDER, RECEIPTS):
        trial.compared(RECEIVER, (CONFIRMER, CHANGER, *rules), trial.sent)
    shipped(world)
    judge("the chain holds", world.check().returncode == 0, world.check().stderr)
    world.end()


def combinations(*rules: str) -> list[tuple[str, ...]]:
    return [it for count in range(len(rules) + 1) for it in itertools.combinations(rules, count)]


def named(place: pathlib.Path, text: str) -> list[str]:
    """Returns what `check` says of these settings beside their counts."""
    place.write_text(text)
    status, said = run("check", str(place))
    same("what it says is no error", status, 0)
    return said.splitlines()[1:]


def stated(folder: pathlib.Path) -> None:
    """The file that is shipped, without its rules, and with rights of other kinds."""
    place = folder / "access"
    rules = [it for it in CITY.splitlines() if it.startswith("rule ")]
    same("all rules are on as it is shipped", sorted(it.removeprefix("rule ") for it in rules),
         sorted((OPENER, CONFIRMER, CHANGER, SENDER, RECEIPTS)))
    same("as it is shipped", named(place, CITY), [NOBODY])
    without = "\n".join(it for it in CITY.splitlines() if it not in rules)
    same("without its rules", named(place, without), [f"{SAYS}{it} (confirm, open-run, resume)" for it in ("manager",
                                                                                                           "deputy")])
    for rule in rules:
        same(f"without {rule}", named(place, CITY.replace(rule, "")), [NOBODY])
    head = SITE.format(zone="UTC") + ROLES
    same("every other name counts", named(place, f"{head}name * is records-manager\n"),
         [f"{SAYS}* (confirm, open-run, resume)"])
    same("a right for one class is one", named(place, f"{head}role runs may open-run run-step\nname a is runs\n"
                                                      "name a is department in BLDG1\n"),
         [f"{SAYS}a (confirm, open-run, run-step)"])
    same("a run lies in no class", named(place, f"{head}name a is records-manager in BLDG1\n"), [NOBODY])
    same("who opens no run", named(place, f"{head}role carries may resume confirm\nname a is carries\n"),
         [f"{SAYS}a (confirm, resume, once another name opened a run)"])
    same("who carries none out", named(place, f"{head}role opens may open-run confirm event\nname a is opens\n"), [NOBODY])


class Trial:
    """The attempts of a manager, in an office in which everything else is left to `other` and `third`."""

    def __init__(self, world: World) -> None:
        self.world, self.count = world, 100

    def compared(self, names: str, rules: tuple[str, ...], attempts: Attempts) -> None:
        """Compares what is said of these rules with what the manager does."""
        settings = ROLES + names + "".join(f"rule {it}\n" for it in rules)
        self.world.reload(settings)
        says = named(self.world.folder / "said", SITE.format(zone="UTC") + settings)
        can = []
        for name, attempt in attempts().items():
            if attempt():
                can.append(name)
            self.clear()
        same(f"with the rules {', '.join(rules) or 'off'}: it is said of the manager, and done by {can}",
             any(it.startswith(f"{SAYS}manager (") for it in says), bool(can))

    def filed(self, schedule: str) -> int:
        self.count += 1
        status, said = self.world.act("registry", filing(self.count, 1, CONTENT, schedule=schedule))
        assert status == 200, said
        return said[0]["number"]

    def resumed(self, name: str = "manager") -> int:
        return self.world.ask(name, "POST", "/run/resume", b"")[0]

    def is_gone(self, record: int) -> bool:
        return self.world.direct("GET", f"/records/{record}/content")[0] == 404

    def clear(self) -> None:
        """Has two others end what an attempt left, so that it does not count for the next one."""
        if self.resumed("third") == 403:
            judge("a run is closed", self.resumed("other") == 200)
        due = self.world.get("third", f"/due/{today()}")[1]
        if due:
            status, said = self.world.act("third", *(confirm(it["record"], it["action"]) for it in due))
            assert status == 200, said
        same("another one opens", self.world.act("other", OPEN)[0], 200)
        same("and a third one carries it out", self.resumed("third"), 200)

    def steps(self, record: int, *acts: dict) -> bool:
        """Does acts one after another, whatever becomes of each, and carries a run out in both ways."""
        for act in acts:
            self.world.act("manager", act)
        for _ in range(3):
            self.world.act("manager", STEP)
        self.resumed()
        return self.is_gone(record)

    def at_once(self, record: int, *acts: dict) -> bool:
        self.world.act("manager", *acts, OPEN, STEP, STEP)
        return self.is_gone(record)

    def opened(self) -> None:
        same("another one opened a run", self.world.act("other", OPEN)[0], 200)

    # ---- what there is

    def here(self) -> dict[str, Attempt]:
        """Records that are due, and records that are not, which a schedule moves."""
        def due(is_moved: bool, is_open: bool, how: str) -> bool:
            record = self.filed("Y50" if is_moved else "D0")
            if is_open:
                self.opened()
            move = {"act": "set-record-schedule", "record": record, "schedule": "D0"}
            acts = [*([move] if is_moved else []), confirm(record)]
            if how == "at once":
                return self.at_once(record, *acts)
            return self.steps(record, *acts, *([] if is_open else [OPEN]))
        kinds = ((moved, is_open, how) for moved in (False, True) for is_open, how in ((False, "steps"), (False, "at once"),
                                                                                       (True, "steps")))
        return {f"{'moved' if it[0] else 'due'}, {'a run is open' if it[1] else 'no run'}, {it[2]}":
                lambda it=it: due(*it) for it in kinds}

    def sent(self) -> dict[str, Attempt]:
        """Records that others sent."""
        def receipt(is_open: bool, how: str) -> bool:
            record = self.filed("T0")
            assert self.world.act("third", confirm(record, "transfer"))[0] == 200
            self.opened()
            same("a third one carries it out", self.resumed("third"), 200)
            same("it was sent", self.world.get("third", f"/records/{record}")[1]["status"], "sent")
            if is_open:
                self.opened()
            act = {"act": "receipt", "record": record, "digest": hashlib.sha256(CONTENT).hexdigest()}
            if how == "at once":
                return self.at_once(record, act)
            return self.steps(record, act, *([] if is_open else [OPEN]))
        kinds = ((False, "steps"), (False, "at once"), (True, "steps"))
        return {f"sent, {'a run is open' if it[0] else 'no run'}, {it[1]}": lambda it=it: receipt(*it) for it in kinds}


def shipped(world: World) -> None:
    """An office works with the names and the rules of the file that is shipped: two of its names make a run."""
    text = "\n".join(it for it in CITY.splitlines() if not it.startswith(("site ", "zone ", "begin", "end"))) + "\n"
    world.reload(text)

    def done(name: str, *acts: dict) -> list[dict]:
        status, said = world.act(name, *acts)
        same(f"{name}: {acts[0]['act']}", status, 200)
        return said if status == 200 else [{}]

    def carried(name: str) -> int:
        return world.ask(name, "POST", "/run/resume", b"")[0]

    first, other = (done("registrar", filing(it, 1, CONTENT, schedule=code))[0].get("number")
                    for it, code in ((5000, "D0"), (5001, "T0")))
    done("builder", confirm(first))
    done("manager", confirm(other, "transfer"))
    done("deputy", OPEN)
    same("the deputy does not carry it out", carried("deputy"), 403)
    same("the manager does", carried("manager"), 200)
    same("one is destroyed, one is sent", [world.get("manager", f"/records/{it}")[1]["status"] for it in (first, other)],
         ["ended", "sent"])
    receipt = {"act": "receipt", "record": other, "digest": hashlib.sha256(CONTENT).hexdigest()}
    same("no manager says that it came", world.act("manager", receipt)[0], 403)
    done("state-archive", receipt)
    done("deputy", OPEN)
    same("the manager ends it", carried("manager"), 200)
    same("and its content is gone", world.direct("GET", f"/records/{other}/content")[0], 404)
