"""The two ends of a journal: lines that are gone from its beginning or its end, and files that were dropped on purpose."""
import datetime
import json
import pathlib
import re
import signal
import subprocess
import sys

from gate_trial.base import made
from kit.judging import judge, same
from gate_trial.world import JOURNAL, PYTHON, WAIT_SECONDS, World, until

sys.path[:0] = [str(JOURNAL.parent), str(JOURNAL.parent.parent)]

from office_gate import chain  # noqa: E402

PRINTED = re.compile(r"^office-gate: head (\d+:[0-9a-f]{64})$", re.M)
COUNTS = re.compile(r"lines: (\d+), from line (\d+), head \S+ heads compared: (\d+), not met: (\d+)\n")


def tried(folder: pathlib.Path) -> None:
    try:
        both(made(folder))
    finally:
        # however it ends, its folder can be removed
        free(folder)


def both(world: World) -> None:
    head = printed(world)
    files = three(world)
    world.stop_gate()
    begun(world, files, head)
    cut_at_the_end(world, files)
    forged(world, files, head)
    fallen(world)
    lines = [it for path in files for it in path.read_bytes().splitlines()][:20]
    dropped(world, lines)
    refused(world, lines)
    world.end()


def run(*more: object) -> tuple[int, str]:
    done = subprocess.run([PYTHON, "-I", JOURNAL, *map(str, more)], capture_output=True, text=True, check=False)
    return done.returncode, done.stdout + done.stderr


def counts(said: str) -> tuple[int, ...]:
    """Returns the lines, the first one, and the heads that were met and those that were not."""
    seen = COUNTS.search(said.replace(", heads", " heads"))
    return tuple(map(int, seen.groups())) if seen else ()


def log(world: World) -> str:
    return (world.folder / "log").read_text()


def printed(world: World) -> str:
    """A head is printed at the start, and at each reload. Returns the last one."""
    same("at the start", len(PRINTED.findall(log(world))), 1)
    for it in range(3):
        world.ask("auditor", "GET", "/records/1")
    head, line = reloaded(world, 2), world.lines()[-1]["line"]
    same("at a reload", head, f"{line}:{chain.digest(world.journal.read_bytes().splitlines()[-1])}")
    same("at a reload without a new line too", reloaded(world, 3), head)
    return head


def reloaded(world: World, count: int) -> str:
    """Has the gate read its settings anew, and returns the last head once there are so many."""
    world.gate.send_signal(signal.SIGHUP)
    return waited(world, count, WAIT_SECONDS)


def waited(world: World, count: int, seconds: float) -> str:
    """Waits until so many heads are printed, and returns the last one."""
    until(lambda: len(PRINTED.findall(log(world))) >= count, seconds)
    return PRINTED.findall(log(world))[-1]


def three(world: World) -> list[pathlib.Path]:
    """Rotates twice, so that the journal has three files. The first line of a new one names the file before."""
    sizes = []
    for name in ("journal-20260101", "journal-20260201"):
        world.journal.rename(world.folder / name)
        sizes.append((name, (world.folder / name).stat().st_size))
        world.gate.send_signal(signal.SIGHUP)
        judge(f"the gate goes on after {name}", until(world.journal.exists))
        for it in range(4):
            world.act("legal", {"act": "place-hold", "code": f"{name[-4:]}-{it}", "reason": "r"})
        first = world.lines()[0]
        same(f"the first line after {name}", first.get("after"), {"file": name, "bytes": sizes[-1][1]})
        judge("the service prints that too", f"journal follows {name} of {sizes[-1][1]} bytes" in log(world))
    return [world.folder / "journal-20260101", world.folder / "journal-20260201", world.journal]


def heads_of(files: list[pathlib.Path]) -> list[str]:
    lines = [it for path in files for it in path.read_bytes().splitlines()]
    return [f"{at}:{chain.digest(it)}" for at, it in enumerate(lines, 1)]


def laid(world: World, files: dict[str, bytes]) -> pathlib.Path:
    """Puts files into a folder of their own, and returns the journal there."""
    place = world.folder / "laid"
    place.mkdir(exist_ok=True)
    free(place)
    for it in place.iterdir():
        it.unlink()
    for name, data in files.items():
        (place / name).write_bytes(data)
    return place / "journal"


def free(place: pathlib.Path) -> None:
    """Lets the files of a folder be removed: that of heads can only be appended to."""
    subprocess.run(["chattr", "-R", "-a", place], stderr=subprocess.DEVNULL, check=False)


def begun(world: World, files: list[pathlib.Path], known: str) -> None:
    """Without its first lines a journal fails, unless the head of the last of these is given."""
    data = {it.name: it.read_bytes() for it in files}
    heads, oldest = heads_of(files), data[files[0].name].count(b"\n")
    status, said = run("check", laid(world, data), "--head", known)
    same("the journal itself", (status, counts(said)[1:]), (0, (1, 1, 0)))
    line = known.split(":")[0]
    judge("it says whose head it compared", f"heads compared: lines {line}\n" in said and "not met: lines" not in said, said)
    named(laid(world, data), heads)
    without = {it: data[it] for it in data if it != files[0].name}
    status, said = run("check", laid(world, without), "--head", known)
    judge("the oldest file removed", status == 1 and f"lines 1 to {oldest} are not here" in said
          and f"{files[0].name} of {len(data[files[0].name])} bytes" in said, said)
    first = b"".join(data[files[0].name].splitlines(keepends=True)[6:])
    status, said = run("check", laid(world, data | {files[0].name: first}), "--head", known)
    judge("the first six lines cut", status == 1 and "lines 1 to 6 are not here" in said, said)
    place = laid(world, without)
    status, said = run("check", place, "--from", heads[oldest - 1], "--head", known, "--head", heads[oldest])
    same("with the head of what was archived", (status, counts(said)[1:]), (0, (oldest + 1, 1, 1)))
    judge("it says whose head it did not meet", f"heads compared: lines {oldest + 1}\n" in said
          and f"heads not met: lines {line}\n" in said, said)
    for what, head in (("another digest", f"{oldest}:{'0' * 64}"), ("another line", heads[oldest - 2]),
                       ("a later line", heads[oldest])):
        status, said = run("check", place, "--from", head)
        judge(f"{what} as the head of what was archived", status == 1 and "line" in said, said)
    same("a head for a whole journal", run("check", laid(world, data), "--from", heads[oldest - 1])[0], 1)
    two = known[:-1] + ("0" if known[-1] != "0" else "1")
    same("a line that was written down in two ways", run("check", laid(world, data), "--head", known, "--head", two)[0], 1)


def named(place: pathlib.Path, heads: list[str]) -> None:
    """The first twenty lines whose heads were compared are named, and the last one."""
    for count, lines in ((20, range(1, 21)), (23, [*range(1, 21), "and 3 more to 23"])):
        status, said = run("check", place, *(word for it in heads[:count] for word in ("--head", it)))
        judge(f"{count} heads", status == 0 and f"heads compared: lines {', '.join(map(str, lines))}\n" in said, said)
    judge("no head: none is named", "heads compared: lines" not in run("check", place)[1])


def cut_at_the_end(world: World, files: list[pathlib.Path]) -> None:
    """The end that was cut shows by the head that the service printed as it ended."""
    data, last = {it.name: it.read_bytes() for it in files}, PRINTED.findall(log(world))[-1]
    data[world.journal.name] = b"".join(data[world.journal.name].splitlines(keepends=True)[:-2])
    status, said = run("check", laid(world, data), "--head", last)
    judge("the last two lines cut", status == 1 and "its end was cut" in said, said)


def anew(lines: list[bytes], change) -> bytes:
    """Writes lines anew, each changed, as a chain that holds."""
    made_anew, head = [], chain.START
    for data in lines:
        entry = change(json.loads(data))
        line, head = chain.linked({name: it for name, it in entry.items() if name not in ("before", "line")}, head)
        made_anew.append(line)
    return b"".join(made_anew)


def forged(world: World, files: list[pathlib.Path], known: str) -> None:
    """Whoever writes lines of before anew is seen by the heads that the running service printed."""
    lines = [it for path in files for it in path.read_bytes().splitlines()]

    def other(entry: dict) -> dict:
        return {name: "registry" if it == "legal" else it for name, it in entry.items()}

    place = laid(world, {"journal": anew(lines, other)})
    same("each name another, without heads", run("check", place)[0], 0)
    (world.folder / "heads").write_text(f"{PRINTED.findall(log(world))[0]}\nhead {known}\n")
    status, said = run("check", place, "--heads", world.folder / "heads")
    judge("with those of the service", status == 1 and "somebody wrote the journal anew" in said, said)


def fallen(world: World) -> None:
    """A time stamp that goes back is reported with its lines, and fails a strict check."""
    lines = [it for path in chain.files_of(world.journal) for it in path.read_bytes().splitlines()]
    count = {"at": 0}

    def old(entry: dict) -> dict:
        count["at"] += 1
        return entry | {"at": "1999-03-04T05:06:07.000000+00:00"} if count["at"] == 9 else entry

    place = laid(world, {"journal": anew(lines, old)})
    status, said = run("check", place)
    judge("a time stamp of 1999", status == 0 and re.search(r"time stamp: \S+:9: line 9 is of 1999-03-04\S+ "
                                                            r"\d+ days, \S+ before line 8\n", said), said)
    same("in a strict check", run("check", place, "--strict")[0], 1)
    whole = laid(world, {"journal": b"\n".join(lines) + b"\n"})
    same("the journal itself is strict", run("check", whole, "--strict")[0], 0)
    gone = laid(world, {"journal": anew(lines, lambda it: {name: value for name, value in it.items() if name != "at"})})
    judge("no time stamp at all", "line 2 has no time stamp" in run("check", gone)[1])


def aged(lines: list[bytes], days: list[int]) -> bytes:
    """Writes lines anew as a chain, with time stamps of so many days ago each."""
    now, ages = datetime.datetime.now(datetime.UTC), iter(days)
    return anew(lines, lambda it: it | {"at": (now - datetime.timedelta(next(ages))).isoformat()})


def parts(world: World, lines: list[bytes], ages: list[int]) -> pathlib.Path:
    """Lays a journal of four files of five lines each, of so many days ago."""
    data = aged(lines, [age for age in ages for _ in range(5)]).splitlines(keepends=True)
    names = ["journal-20260101", "journal-20260201", "journal-20260301", "journal"]
    return laid(world, {name: b"".join(data[at * 5:at * 5 + 5]) for at, name in enumerate(names)})


def days_ago(days: int) -> str:
    return (datetime.datetime.now(datetime.UTC) - datetime.timedelta(days)).date().isoformat()


def dropped(world: World, lines: list[bytes]) -> None:
    """The oldest files go, their heads stay, and the rest can be checked by these."""
    place = parts(world, lines, [300, 200, 100, 1])
    heads = heads_of(chain.files_of(place))
    status, said = run("drop", place, "--before", days_ago(180))
    judge("two files go", status == 0 and "journal-20260101: lines 1 to 5" in said and "files: 2" in said, said)
    same("the others stay", sorted(it.name for it in place.parent.iterdir()), ["journal", "journal-20260301", "journal.heads"])
    kept = pathlib.Path(f"{place}.heads").read_text()
    same("the heads of what went", [it.split(" ")[0] for it in kept.splitlines()], [heads[4], heads[9]])
    status, said = run("check", place)
    judge("a check asks for what went", status == 1 and "lines 1 to 10 are not here" in said, said)
    status, said = run("check", place, "--dropped", "--head", heads[2])
    same("with those heads it holds", (status, counts(said)), (0, (10, 11, 0, 3)))
    same("and by the head alone", run("check", place, "--from", heads[9])[0], 0)
    place.with_name("journal-20260301").unlink()
    judge("one more that is gone was not dropped", run("check", place, "--dropped")[0] == 1)
    # a stop between the head and the end of a file
    place = parts(world, lines, [300, 200, 100, 1])
    pathlib.Path(f"{place}.heads").write_text(f"{heads_of(chain.files_of(place))[4]} journal-20260101\n")
    same("a head whose lines are still there", run("check", place, "--dropped")[0], 0)
    same("a second time it goes", run("drop", place, "--before", days_ago(250))[0], 0)
    same("then all is as it should be", run("check", place, "--dropped")[0], 0)
    goes_on(world, lines)


def goes_on(world: World, lines: list[bytes]) -> None:
    """A gate goes on in a journal whose oldest files were dropped."""
    place = parts(world, lines, [300, 200, 100, 1])
    run("drop", place, "--before", days_ago(50))
    free(place.parent)
    for it in chain.files_of(world.journal):
        it.unlink()
    for it in place.parent.iterdir():
        it.rename(world.folder / it.name)
    world.start_gate()
    same("a gate acts", world.act("legal", {"act": "lift-hold", "hold": "NONE"})[0], 409)
    world.stop_gate()
    status, said = run("check", world.journal, "--dropped")
    judge("its lines follow those that stayed", status == 0 and counts(said)[1] == 16, said)


def refused(world: World, lines: list[bytes]) -> None:
    """What may not go stays: a young file, the last one, a broken chain, and what is not the oldest."""
    place = parts(world, lines, [300, 200, 100, 1])
    names = sorted(it.name for it in place.parent.iterdir())

    def stay(what: str, status: int, *more: str, word: str = "") -> None:
        seen, said = run("drop", place, *more)
        same(what, (seen, sorted(it.name for it in place.parent.iterdir() if it.name != "journal.heads")), (status, names))
        judge(f"{what}: why", word in said, said)

    stay("younger than a recovery needs", 2, "--before", days_ago(20), word="a recovery may need")
    stay("nor in fewer days than were named", 2, "--before", days_ago(80), "--recovery-days", "90", word="90 days")
    stay("nothing is that old", 0, "--before", days_ago(400), word="files: 0")
    stay("no day", 2, "--before", "soon", word="'soon'")
    place = parts(world, lines, [100, 300, 200, 1])
    stay("older files after a younger one", 0, "--before", days_ago(180), word="files: 0")
    place = parts(world, lines, [303, 302, 301, 300])
    run("drop", place, "--before", days_ago(300), "--recovery-days", "0")
    same("the file that the gate writes stays", [it.name for it in chain.files_of(place)], ["journal"])
    place = parts(world, lines, [300, 200, 100, 1])
    (place.parent / "journal-20260201").write_bytes((place.parent / "journal-20260201").read_bytes().replace(b'"', b"'", 1))
    stay("a broken chain", 1, "--before", days_ago(180), word="lines were cut out")
    judge("no head of it is written", not pathlib.Path(f"{place}.heads").exists())
