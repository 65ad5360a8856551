"""Receipts under four eyes: who sends, who says that it came, and who opens the run that then removes the content."""
import hashlib
import pathlib

from gate_trial.base import ROLES, filing, made
from gate_trial.eyes import OPEN, STEP, eyes, resume
from kit.judging import judge, same
from gate_trial.world import World

NAMES = "".join(f"name {it} is records-manager\nname {it} is archive\n" for it in ("anna", "berta", "carl"))
NAMES += "name records-manager is records-manager\nname legal is legal\nname registry is registry\nname state is archive\n"
NAMES += "name dora is department\nlimit requests 64\n"
SENDS, RECEIVES = "sender-does-not-receive", "receiver-does-not-open"
CONTENT = b"what is handed over"


def receipt(record: int) -> dict:
    return {"act": "receipt", "record": record, "digest": hashlib.sha256(CONTENT).hexdigest()}


def tried(folder: pathlib.Path) -> None:
    world = made(folder, f"{NAMES}rule {SENDS}\nrule {RECEIVES}\n", ROLES)
    same("no records-manager files a receipt as it is shipped",
         (world.act("records-manager", receipt(1)), world.act("state", receipt(1))[0]),
         ((403, {"error": "right", "act": "receipt", "place": 0}), 409))
    sender(world)
    receiver(world)
    meanwhile(world)
    started(world)
    lone(world)
    judge("the chain holds", world.check().returncode == 0, world.check().stderr)
    world.end()


def confirmed(world: World, *numbers: int) -> list[int]:
    """Files records that go to the archive, and has them confirmed by somebody who does nothing else here."""
    acts = [filing(it, 1, CONTENT, schedule="T0") for it in numbers]
    records = [it["number"] for it in world.act("registry", *acts)[1]]
    acts = [{"act": "confirm", "record": it, "action": "transfer"} for it in records]
    same("they are confirmed", world.act("dora", *acts)[0], 200)
    return records


def sender(world: World) -> None:
    """Who opened the run that sent a record, or carried out a part of it, does not file its receipt."""
    first, second = confirmed(world, 10, 11)
    same("anna opens", world.act("anna", OPEN)[0], 200)
    same("berta takes a step", world.act("berta", STEP)[1], [{"outcome": "sent", "record": first}])
    eyes(world, "no receipt while anna's run is open", "anna", RECEIVES, receipt(first))
    world.reload(f"{ROLES}{NAMES}rule {SENDS}\n")
    eyes(world, "nor by that rule alone", "anna", SENDS, receipt(first))
    eyes(world, "nor by who took a step", "berta", SENDS, receipt(first))
    same("carl carries the rest out", resume(world, "carl"), 200)
    for name in ("anna", "berta", "carl"):
        for record in (first, second):
            eyes(world, f"{name} sent record {record}", name, SENDS, receipt(record))
        eyes(world, f"{name} sent the second of two", name, SENDS, receipt(99), receipt(second))
    same("the archive files it", world.act("state", receipt(first))[1], [{"done": True}])
    # a run in which anna has no part
    third = confirmed(world, 12)[0]
    same("berta opens, carl carries it out", (world.act("berta", OPEN)[0], resume(world, "carl")), (200, 200))
    eyes(world, "it is berta's", "berta", SENDS, receipt(third))
    same("and not anna's", world.act("anna", receipt(third))[1], [{"done": True}])
    world.reload(f"{ROLES}{NAMES}rule {SENDS}\nrule {RECEIVES}\n")


def receiver(world: World) -> None:
    """Who filed a receipt opens no run as long as the content is here."""
    eyes(world, "anna filed a receipt", "anna", RECEIVES, OPEN)
    same("she may open none with a receipt in one list", world.act("anna", receipt(99), OPEN)[0], 403)
    same("carl, who filed none, opens", world.act("carl", OPEN)[0], 200)
    same("berta carries it out", resume(world, "berta"), 200)
    same("the contents are gone", [world.direct("GET", f"/records/{it}/content")[0] for it in (3, 5)], [404, 404])
    same("then anna opens one", world.act("anna", OPEN)[0], 200)
    same("berta carries it out", resume(world, "berta"), 200)


def meanwhile(world: World) -> None:
    """While a run is open, whoever may carry it out files no receipt; the archive does."""
    record = confirmed(world, 20)[0]
    same("berta opens, carl carries it out", (world.act("berta", OPEN)[0], resume(world, "carl")), (200, 200))
    same("berta opens", world.act("berta", OPEN)[0], 200)
    eyes(world, "anna may carry it out", "anna", RECEIVES, receipt(record))
    same("the archive files it", world.act("state", receipt(record))[0], 200)
    same("anna carries it out", resume(world, "anna"), 200)
    same("it is ended", world.get("anna", f"/records/{record}")[1]["status"], "ended")


def started(world: World) -> None:
    """A start of the gate changes nothing of it."""
    record = confirmed(world, 30)[0]
    same("berta opens, carl carries it out", (world.act("berta", OPEN)[0], resume(world, "carl")), (200, 200))
    for _ in range(2):
        world.start_without_facts()
        eyes(world, "who opened it, after a start", "berta", SENDS, receipt(record))
        eyes(world, "who carried it out, after a start", "carl", SENDS, receipt(record))
    same("anna had no part in it", world.act("anna", receipt(record))[0], 200)
    world.stop_gate()
    world.start_gate()
    eyes(world, "who filed the receipt, after a start", "anna", RECEIVES, OPEN)
    same("carl opens, berta carries it out", (world.act("carl", OPEN)[0], resume(world, "berta")), (200, 200))


def lone(world: World) -> None:
    """Without these rules one name does all of it."""
    world.reload(ROLES + NAMES)
    record = confirmed(world, 40)[0]
    same("anna opens, and carries it out", (world.act("anna", OPEN)[0], resume(world, "anna")), (200, 200))
    same("she files the receipt, opens, and carries it out",
         (world.act("anna", receipt(record), OPEN)[0], resume(world, "anna")), (200, 200))
    same("it is ended", world.get("anna", f"/records/{record}")[1]["status"], "ended")
