"""Contents beside the journal: what the office did not take leaves nothing, and the disk keeps room for holds."""
import os
import pathlib
import shutil
import signal
import subprocess
import threading
import time

from gate_trial.base import SETTINGS, filing, made, plan
from kit.judging import judge, same
from gate_trial.recovery import closed, replayed
from gate_trial.replay import rows
from gate_trial.world import World

LARGE = 40_000
BLOCK = 4096


def tried(folder: pathlib.Path) -> None:
    world = made(folder / "w", "name both is registry legal\n")
    world.act("registry", filing(3, 1, os.urandom(LARGE)))
    copy = closed(world).rename(folder / "copy.db")
    world.start_office()
    repeated(world)
    mixed(world)
    unread(world)
    now = closed(world)
    # without the later file, so that each content comes from beside the journal
    status, said = replayed(world, copy)
    judge("the copy and the journal make an office", status == 0 and "without an answer: 1" in said, said)
    judge("it is that of now, row by row", rows(world.folder / "new.db") == rows(now))
    lost(world, copy)
    world.start_office()
    unanswered(world)
    world.end()
    reserved(folder / "small")


def on_disk(world: World) -> tuple[int, int]:
    """Returns how many bytes contents have, and how many of the disk."""
    found = [it.stat() for it in (world.state / "contents").iterdir()]
    return sum(it.st_size for it in found), sum(it.st_blocks * 512 for it in found)


def repeated(world: World) -> None:
    """Lists that are answered `same`, or refused, leave contents as they were."""
    mine = [os.urandom(LARGE) for _ in range(2)]
    pair = [filing(10 + at, 1, data) for at, data in enumerate(mine)]
    same("two records", world.act("registry", *pair)[0], 200)
    before = on_disk(world)
    for at in range(10):
        status, found = world.act("registry", *pair)
        same(f"list {at} is there already", (status, [it.get("same") for it in found]), (200, [True, True]))
    same("they leave nothing", on_disk(world), before)
    for at in range(10):
        status, found = world.act("registry", *(filing(10 + it, 1, os.urandom(LARGE)) for it in range(2)))
        same(f"list {at} is refused", (status, ["refused" in it for it in found]), (409, [True, True]))
    same("nor do these", on_disk(world), before)
    same("a list that is none", world.act("registry", filing(19, 1, mine[0]) | {"strange": 1})[0], 400)
    same("nor does it", on_disk(world), before)


def mixed(world: World) -> None:
    """Of a list that is done in part what was done stays, and its place too."""
    before = on_disk(world)
    for turn in range(5):
        acts = [filing(100 + turn * 10, 1, b"small %d" % turn), filing(10, 1, os.urandom(LARGE)),
                filing(101 + turn * 10, 2, os.urandom(BLOCK)), filing(11, 1, os.urandom(LARGE)),
                {"act": "lift-hold", "hold": "NONE"}, filing(102 + turn * 10, 1, b"last")]
        status, found = world.act("registry", *acts[:4], acts[5]) if turn % 2 else world.act("both", *acts)
        judge(f"list {turn} is done in part", status == 409 and "number" in found[0] and "refused" in found[1], found)
    size, room = on_disk(world)
    judge("what was refused is off the disk", room - before[1] <= 5 * 6 * BLOCK, (before, size, room))


def unanswered(world: World) -> None:
    """What may have been done keeps its contents: the office is killed while it has the list."""
    before = on_disk(world)
    world.office.send_signal(signal.SIGSTOP)
    one = threading.Thread(target=world.act, args=("registry", filing(400, 1, os.urandom(LARGE))))
    one.start()
    while world.last("asked")["acts"][0].get("ref") != "r400":
        time.sleep(0.02)
    time.sleep(0.3)
    world.stop_office()
    one.join()
    world.start_office()
    same("nobody knows what it did", world.last("answered")["known"], False)
    judge("its contents stay after that", on_disk(world)[0] >= before[0] + LARGE, (before, on_disk(world)))


def unread(world: World) -> None:
    """What may have been done keeps its contents: the gate is killed while the office has the list."""
    before = on_disk(world)
    world.cut_off("registry", filing(500, 1, os.urandom(LARGE)), filing(10, 1, b"other"))
    same("nobody knows", world.last("answered")["known"], False)
    judge("its contents stay", on_disk(world)[0] >= before[0] + LARGE, (before, on_disk(world)))
    same("the next one", world.act("registry", filing(501, 1, b"next"))[0], 200)


def lost(world: World, copy: pathlib.Path) -> None:
    """A content that was taken and is gone is still named: an act that was done is never left out."""
    line = next(it for it in world.lines() if it["what"] == "asked" and it["acts"][0].get("ref") == "r100")
    place = world.state / "contents" / line["contents"]["day"]
    kept = place.read_bytes()
    with place.open("r+b") as file:
        file.seek(line["contents"]["from"])
        file.write(b"\0" * 5)
    status, said = replayed(world, copy)
    judge("it is named", status == 1 and f"line {line['line']}: a content" in said, said)
    place.write_bytes(kept)


def reserved(folder: pathlib.Path) -> None:
    """Before the disk is full no record is filed, and holds still come through."""
    world = World(folder, SETTINGS + "keep free 5\n")
    subprocess.run(["mount", "-t", "tmpfs", "-o", "size=6m", "none", world.state], check=True)
    try:
        world.start_office()
        world.start_gate()
        filed(world)
    finally:
        world.end()
        subprocess.run(["umount", "--lazy", world.state], check=False)


def filed(world: World) -> None:
    same("the plan", world.act("records-manager", *[it for it in plan() if it["act"] != "add-record"])[0], 200)
    seen = []
    for at in range(60):
        status, found = world.act("registry", filing(at, 1, os.urandom(LARGE)))
        seen.append(status)
        if status != 200:
            same("its word", found, {"error": "room"})
            break
    judge("records are filed until the reserve", 4 < len(seen) < 40 and seen[-1] == 503, seen)
    left = shutil.disk_usage(world.state).free
    judge(f"it stays free: {left}", 5 << 20 <= left < (5 << 20) + 2 * LARGE)
    same("the journal has the refusal", world.last("refused")["answer"], {"error": "room"})
    same("a hold comes through", world.act("legal", {"act": "place-hold", "code": "H", "reason": "r"})[0], 200)
    same("a record does not", world.act("registry", filing(99, 1, os.urandom(LARGE)))[0], 503)
    next((world.state / "contents").iterdir()).write_bytes(b"")
    same("with room it goes on", world.act("registry", filing(100, 1, b"x"))[0], 200)
