"""Random offices with vaults: uploads, filings, sweeps, runs, backups and restores are killed at random instants."""
import collections
import pathlib
import time

from vault_trial.copying import Copies
from vault_trial.expected import GRACE
from vault_trial.world import World

STEPS = 90
OFFICE_KILLS = 3
"""so many starts of the program after a kill, at most, in one world: each may take seconds"""
KILLED = ("put kills", "service kills", "sweep kills", "backup kills", "mirror kills", "restore kills", "office kills")


def step(it: World, copies: Copies) -> None:
    """One random step."""
    chance = it.random.random()
    if chance < 0.14:
        upload(it)
    elif chance < 0.24:
        for _ in range(it.random.randint(2, 5)):
            it.put_killed(it.choose())
    elif chance < 0.44:
        file(it)
    elif chance < 0.46:
        it.office.add(it.random.choice("DT"), it.random.randbytes(80), set())
    elif chance < 0.56:
        it.office.confirm(confirmable(it))
    elif chance < 0.60:
        hold(it)
    elif chance < 0.66:
        for number in [n for n, one in it.office.records.items() if one.status == "sent" and it.random.random() < 0.6]:
            it.office.receive(number)
    elif chance < 0.74:
        run(it)
    elif chance < 0.81:
        it.race()
    elif chance < 0.87:
        copies.backup()
    elif chance < 0.89:
        copies.restore()
    else:
        sweeps(it)


def upload(it: World) -> None:
    digests = list(dict.fromkeys(it.choose() for _ in range(it.random.randint(1, 4))))
    if all([it.put(one) for one in digests]):
        it.pending.append((it.model.now + GRACE, digests))


def may_kill_office(it: World) -> bool:
    return it.office.kills < OFFICE_KILLS and it.random.random() < 0.35


def file(it: World) -> None:
    """Files what was put before, if that was within the grace; perhaps while the program is killed."""
    if not it.pending:
        upload(it)
    until, digests = it.pending.pop(it.random.randrange(len(it.pending)))
    if it.model.now >= until:
        return
    kind = it.random.choice("DDTK")
    if may_kill_office(it):
        it.office.add_killed(kind, it.manifest(digests), set(digests))
    else:
        it.file(kind, digests)


def run(it: World) -> None:
    """A run, perhaps one during which the program is killed; then a sweep comes while it is half done."""
    if may_kill_office(it):
        it.office.run_killed(lambda: sweeps(it) if it.random.random() < 0.5 else None)
    else:
        it.office.run()


def confirmable(it: World) -> list[int]:
    return [n for n, one in it.office.records.items()
            if one.status == "here" and one.kind in "DT" and it.random.random() < 0.6]


def hold(it: World) -> None:
    free = [n for n, one in it.office.records.items() if one.hold is None and one.has_content()]
    held = [n for n, one in it.office.records.items() if one.hold]
    if free and it.random.random() < 0.6:
        it.office.hold(it.random.choice(free))
    elif held:
        it.office.lift(it.random.choice(held))


def sweeps(it: World) -> None:
    """Some time passes, and a sweep comes, perhaps after several that are killed."""
    it.model.now += it.random.choice([1, 40, 60, 100, 130])
    for _ in range(it.random.randint(2, 8)):
        it.sweep_killed()
    it.sweep()


def served(it: World) -> None:
    """Each record's files are to be had through it, as long as it has its content."""
    for number, one in it.office.records.items():
        if not one.names:
            continue
        status, _, lines = it.ask("GET", f"/records/{number}/files/1")
        place = lines.get("X-Accel-Redirect", "")
        if status != (200 if one.has_content() else 404) or (status == 200 and place[-64:] not in one.names):
            it.wrong.append(f"record {number}, {one.status}, is served {status} {place}")


def reports(it: World, was_restored: bool) -> None:
    """Each object that went is in a report once for each time, with the records that had named it and their runs."""
    went: collections.Counter[str] = collections.Counter()
    for path in sorted((it.vault / "reports").glob("sweep-*.txt")):
        rows = [row.split("\t") for row in path.read_text().splitlines()]
        gone = [row[1:] for row in rows if row[0] == "OBJECT"]
        went.update({row[0] for row in gone})
        for digest, length, *because in gone:
            if digest in it.bytes and int(length) != len(it.bytes[digest]):
                it.wrong.append(f"{path.name}: length of {digest[:8]}")
            # after a restore numbers are used again
            if because[0] != "-" and not was_restored:
                named(it, path.name, digest, *because[:3])
        for _, digest, record, ref, end, _, by in [row for row in rows if row[0] == "BY-RECORD" and not was_restored]:
            named(it, path.name, digest, record, ref, end)
            if digest not in it.office.records[int(by)].names:
                it.wrong.append(f"{path.name}: record {by} does not keep {digest[:8]}")
    for digest, thing in it.model.things.items():
        if went[digest] != thing.went:
            it.wrong.append(f"{digest[:8]} went {thing.went} times, and is reported {went[digest]} times: {thing}")


def named(it: World, report: str, digest: str, record: str, ref: str, end: str) -> None:
    one = it.office.records[int(record)]
    if digest not in one.names or (ref, end) != (f"r{record}", str(one.run)):
        it.wrong.append(f"{report}: record {record} {ref} {end}, and it is {one}")


def world(folder: pathlib.Path, seed: int) -> tuple[World, Copies]:
    it = World(folder, seed)
    copies = Copies(it)
    try:
        for at in range(STEPS):
            step(it, copies)
            if at % 15 == 14:
                it.office.confirm(confirmable(it))
                it.office.run()
                sweeps(it)
        for _ in range(2):
            it.model.now += GRACE
            it.sweep()
        # whatever was put and is not named is gone now
        it.wrong += [f"{one[:8]} is left at the end" for one in it.there() - it.office.named()]
        served(it)
        reports(it, copies.restores > 0)
        copies.last()
    finally:
        it.end()
    return it, copies


def kills(wanted: int, first: int, folder: pathlib.Path) -> tuple[int, int]:
    """Plays worlds until so many kills were seen; returns kills and differences."""
    sums: collections.Counter[str] = collections.Counter()
    seed, seen = first, 0
    while seen < wanted:
        began = time.time()
        it, copies = world(folder / str(seed), seed)
        sums.update(it.counts | copies.kills | {"office kills": it.office.kills, "restores": copies.restores,
                                                "there": it.model.must_be_there, "gone": it.model.must_be_gone,
                                                "may": it.model.may, "differences": len(it.wrong), "worlds": 1,
                                                "records": len(it.office.records), "runs": it.office.runs,
                                                "went": sum(one.went for one in it.model.things.values())})
        seen = sum(sums[name] for name in KILLED)
        print(f"world {seed}: {time.time() - began:.0f} s, {seen} kills so far, {it.wrong[:5]}", flush=True)
        seed += 1
    print(dict(sums))
    return seen, sums["differences"]
