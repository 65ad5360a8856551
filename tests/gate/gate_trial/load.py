"""The cost of one name to the others: long lists, strange values, many questions, and a right that was taken away."""
import asyncio
import gzip
import json
import pathlib
import signal
import sys
import threading
import time
from collections.abc import Callable, Coroutine

from gate_trial.base import SETTINGS
from kit.judging import judge, same
from gate_trial.stood import Stood
from gate_trial.world import HERE, JOURNAL, TOKEN, World, today

sys.path[:0] = [str(JOURNAL.parent), str(JOURNAL.parent.parent)]

from office_gate import body as bodies  # noqa: E402
from office_gate import deciding, members, requests  # noqa: E402
from office_gate.access import Grant, Person  # noqa: E402
from office_gate.catalogue import Aggregations  # noqa: E402
from office_gate.scopes import Scopes  # noqa: E402

CLERK = "role clerk may reclassify confirm add-record\nname clerk is clerk in BLDG*\n"
RULES = "rule changer-does-not-open 30\n"
PEOPLE = SETTINGS.replace("limit requests 64", "limit requests 8") + CLERK
MEBIBYTE = 1 << 20
STRANGE = b'[{"act":"x"}' + b',{"act":"x"}' * 85_000 + b"]"


def tried(folder: pathlib.Path) -> None:
    world = World(folder, PEOPLE)
    office = Stood(world.port)
    world.start_gate()
    files(world)
    linear(world)
    asyncio.run(yielding())
    without_rights(world)
    many_values(world)
    beside(world)
    named_before(world, office)
    questions(world, office)
    twice(world)
    taken_away(world, office)
    taken_meanwhile(world, office)
    opening(world, office)
    catalogued(world, office)
    judge("the chain holds", world.check().returncode == 0, world.check().stderr)
    office.link.close()
    world.end()


def files(world: World) -> None:
    """Makes the aggregation 7 of the clerk's class: whatever is made here has this number."""
    same("an aggregation", world.act("records-manager", {"act": "add-aggregation", "ref": "A", "title": "A",
                                                         "class": "BLDG1"})[0], 200)


def spent(world: World) -> float:
    """Returns the processor time of the gate's own thread so far."""
    data = pathlib.Path(f"/proc/{world.gate.pid}/task/{world.gate.pid}/schedstat").read_text()
    return int(data.split()[0]) / 1e9


def cost(world: World, what: Callable[[], object], times: int = 3) -> float:
    """Returns the least processor time that the gate took for something."""
    least = float("inf")
    for _ in range(times):
        before = spent(world)
        what()
        least = min(least, spent(world) - before)
    return least


def given(count: int, last: int = 2) -> bytes:
    """Lists classes that a clerk gives to an own aggregation, and at last to one of others."""
    act = {"act": "reclassify", "day": today(), "target": "aggregation:7", "class": "BLDG1"}
    acts = [act] * (count - 1) + [act | {"target": f"aggregation:{last}"}]
    return json.dumps(acts, separators=(",", ":")).encode()


def linear(world: World) -> None:
    """Judging twice as many acts takes twice as long."""
    times = {1000: float("inf"), 2000: float("inf")}
    # a machine that does other work too makes some of them slow
    for _ in range(9):
        for count, least in times.items():
            body = given(count)
            refusal = (403, {"error": "class", "act": "reclassify", "place": count - 1})
            times[count] = min(least, cost(world, lambda: same(f"{count} acts", world.text("clerk", body), refusal), 1))
    judge("time for 1,000 and 2,000 acts", times[2000] < 2.5 * times[1000], times)


async def turns_during(work: Coroutine[None, None, object]) -> tuple[int, object]:
    """Does some work. Returns how many turns another task had meanwhile, and what came of the work."""
    turns = 0

    async def others() -> None:
        nonlocal turns
        while True:
            turns += 1
            await asyncio.sleep(0)

    task = asyncio.create_task(others())
    done = await work
    task.cancel()
    return turns, done


async def no_record(_: int) -> None:
    return None


async def yielding() -> None:
    """Each step of judging a long list yields to others."""
    known = Aggregations()
    known.add(7, None, "BLDG1")
    clerk = Person("clerk", "clerk", ("clerk",), (Grant("reclassify", (("BLDG*",),)),))
    turns, values = await turns_during(bodies.list_of(given(12_000, 7)))
    acts = bodies.acts_of(values)
    steps = {"reading": turns, "kinds": (await turns_during(deciding.kinds(clerk, acts)))[0],
             "the journal's acts": (await turns_during(members.journaled(acts)))[0],
             "classes": (await turns_during(deciding.classes(clerk, acts, Scopes(known, no_record))))[0],
             "writing": (await turns_during(bodies.bytes_of(acts)))[0]}
    for step, count in steps.items():
        judge(f"{step} of 12,000 acts: turns of others", count > 1, steps)


def without_rights(world: World) -> None:
    """Whoever may do no act has nothing read."""
    seconds = cost(world, lambda: same("a megabyte of a name without acts", world.text("auditor", STRANGE),
                                       (403, {"error": "right"})), 5)
    judge("it takes less than 20 ms", seconds < 0.02, seconds)
    line = world.last("refused")
    same("its line has the length", (line["name"], line["body"]["bytes"]), ("auditor", len(STRANGE)))
    cut = "".join(f"{name}: {value}\r\n" for name, value in {**HERE, "Office-Token": TOKEN, "Office-Name": "auditor",
                                                             "Content-Length": "100"}.items())
    count = len(world.lines())
    world.raw(f"POST /acts HTTP/1.1\r\n{cut}\r\n[".encode(), half=True)
    for _ in range(100):
        if len(world.lines()) > count:
            break
        time.sleep(0.02)
    same("a body that ends early", [line["answer"] for line in world.lines()[count:]], [{"error": "body"}])


def waited(world: World, bodies: list[tuple[str, bytes]]) -> tuple[list[tuple[int, object]], float]:
    """Sends bodies at once. Returns their answers, and the gate's work between two readings of another name."""
    answers: list[tuple[int, object]] = []
    threads = [threading.Thread(target=lambda name=name, body=body: answers.append(world.text(name, body)))
               for name, body in bodies]
    for thread in threads:
        thread.start()
    began, readings = spent(world), 0
    while any(thread.is_alive() for thread in threads):
        world.get("legal", "/rights")
        readings += 1
    for thread in threads:
        thread.join()
    return answers, (spent(world) - began) / readings


def many_values(world: World) -> None:
    """A list with more values than any list of acts has is not read."""
    for body in (STRANGE, b"[" + b"{}," * 340_000 + b"{}]", b"[" + b"1.0," * 260_000 + b"1]", b"[" * MEBIBYTE):
        seconds = cost(world, lambda: same(f"{body[:12]!r}", world.text("registry", body),
                                           (413, {"error": "work", "values": 150_000})))
        judge(f"{body[:12]!r}: it takes less than 40 ms", seconds < 0.04, seconds)
    steps = b"[" + b'{"act":"run-step"},' * 55_000 + b'{"act":"lift-hold"}]'
    same("the longest list of acts is read", world.text("records-manager", steps)[1]["place"], 55_000)


def long_lists() -> list[tuple[bytes, tuple[int, str]]]:
    """Returns lists that take long to read: as many acts as fit, and one act with as many values."""
    act = {"act": "confirm", "day": today(), "record": 1, "action": "destroy"}
    acts = json.dumps([act] * 12_000 + [act | {"by": "other"}], separators=(",", ":")).encode()
    values = b'[{"act":"confirm","by":"other","record":[' + b"1.50," * 149_000 + b"1]}]"
    return [(acts, (403, "by")), (values, (413, "work"))]


def beside(world: World) -> None:
    """While one name has four such lists read, another name's readings go on."""
    for body, refusal in long_lists():
        answers, seconds = waited(world, [("records-manager", body)] * 4)
        same(f"{body[:40]!r}", {(status, answer["error"]) for status, answer in answers}, {refusal})
        judge(f"{body[:40]!r}: a reading meanwhile", seconds < 0.4, seconds)
    answers, seconds = waited(world, [("clerk", given(12_000))])
    judge("a reading while classes are judged", seconds < 0.4, (answers, seconds))


def named_before(world: World, office: Stood) -> None:
    """A long list is in the journal before it is read; a kill leaves its line, and the gate starts again."""
    body = given(1000)
    world.text("clerk", body)
    came, refused = [line for line in world.lines() if line.get("body", {}).get("bytes") == len(body)][-2:]
    same("the line before", (came["what"], came["name"], came["from"], came["request"], refused["what"]),
         ("came", "clerk", "192.0.2.7", "POST /acts", "refused"))
    judge("it names the body, and nothing of it", came["body"] == refused["body"] and "acts" not in came and
          "kinds" not in came, came)
    count = len(world.lines())
    world.text("clerk", given(3))
    same("a short list has one line", [line["what"] for line in world.lines()[count:]], ["refused"])
    office.slow = {"/records/": 5}
    act = json.loads(given(1000))[0] | {"target": "record:1"}
    thread = threading.Thread(target=world.text, args=("clerk", json.dumps([act] * 1000).encode()))
    thread.start()
    time.sleep(1)
    world.stop_gate(signal.SIGKILL)
    thread.join()
    office.slow = {}
    last = world.lines()[-1]
    same("after a kill the last line names it", (last["what"], last["name"]), ("came", "clerk"))
    world.start_gate()
    judge("the journal is whole", world.check().returncode == 0, world.check().stderr)
    asked = sum(line["what"] == "asked" for line in world.lines())
    same("a replay passes over these lines", len(requests.read([world.journal])), asked)
    same("the gate goes on", world.act("records-manager", {"act": "confirm", "record": 1, "action": "destroy"})[0], 200)


def questions(world: World, office: Stood) -> None:
    """A list asks for five hundred records and no more."""
    for count, status in ((500, 200), (501, 413)):
        acts = [{"act": "confirm", "record": at, "action": "destroy"} for at in range(1, count + 1)]
        office.asked_for("")
        same(f"{count} records", world.act("clerk", *acts, *acts)[0], status)
        same(f"{count} records: questions", office.asked_for("/records/"), 500)
    same("its word", world.act("clerk", *acts)[1], {"error": "work", "records": 500})
    office.asked_for("")
    same("a name without classes asks for none",
         (world.act("records-manager", *acts)[0], office.asked_for("/records/")), (200, 0))


def twice(world: World) -> None:
    """A list opens one run."""
    same("two runs", world.act("records-manager", {"act": "open-run"}, {"act": "run-step"}, {"act": "open-run"}),
         (400, {"error": "act", "place": 2, "refused": 2}))


def taken_away(world: World, office: Stood) -> None:
    """A right that was taken away while a list waited for its turn acts no more."""
    lines = world.lines()
    now = next(line for line in reversed(lines) if line["what"] in ("settings", "opened"))
    same("the line of an act has the settings", world.last("asked")["settings"], now.get("sha256", now.get("settings")))
    office.slow = {"/acts": 4}
    answers: list[object] = []
    hold = {"act": "lift-hold", "hold": "H"}
    threads = [threading.Thread(target=world.act, args=("records-manager", {"act": "run-step"})),
               threading.Thread(target=lambda: answers.append(world.act("legal", hold)))]
    for thread in threads:
        thread.start()
        time.sleep(0.5)
    same("who has no right to it waits for no turn", [world.act(name, hold)[0] for name in ("auditor", "registry")],
         [403, 403])
    judge("but is answered while the turn is another's", threads[0].is_alive())
    count = len(world.lines())
    world.reload(PEOPLE.replace("name legal is legal\n", "name legal is monitor\n"))
    for thread in threads:
        thread.join()
    office.slow = {}
    same("the act", answers, [(403, {"error": "right", "act": "lift-hold", "place": 0})])
    judge("no line after the settings has it sent", not any(line["what"] == "asked" for line in world.lines()[count:]))
    world.reload(PEOPLE)


def taken_meanwhile(world: World, office: Stood) -> None:
    """Nor does one that was taken away while the list was judged."""
    for settings, expected in ((PEOPLE.replace("name clerk is clerk in BLDG*\n", ""), 403), (PEOPLE + "# more\n", 200)):
        office.slow = {"/records/": 2}
        answers: list[tuple[int, object]] = []
        act = {"act": "confirm", "record": 1, "action": "destroy"}
        thread = threading.Thread(target=lambda: answers.append(world.act("clerk", act)))
        thread.start()
        time.sleep(0.7)
        world.reload(settings)
        thread.join()
        office.slow = {}
        same("the act", answers[0][0], expected)
        digest = world.last("settings")["sha256"]
        judge("by the settings that the journal named last", expected != 200 or
              world.last("asked")["settings"] == digest, world.last("asked"))
        world.reload(PEOPLE)


def opening(world: World, office: Stood) -> None:
    """Many due records are asked for while others act; under the turn no question is asked twice."""
    world.reload(PEOPLE + RULES)
    files(world)
    office.rows, office.aggregation = 700, 1
    same("a file that nobody knows", world.act("records-manager", {"act": "open-run"})[1]["error"], "eyes")
    world.act("legal", {"act": "place-hold", "code": "H", "reason": "r"})
    office.aggregation = 8
    catalogue(world, {8: None, 7: None}, [])
    office.asked_for("")
    statuses: list[int] = []
    thread = threading.Thread(target=lambda: statuses.append(world.act("records-manager", {"act": "open-run"})[0]))
    began = time.monotonic()
    thread.start()
    time.sleep(0.3)
    same("another name acts meanwhile", world.act("legal", {"act": "lift-hold", "hold": "H"})[0], 200)
    judge("before the run is opened", thread.is_alive(), time.monotonic() - began)
    thread.join()
    same("700 due records", (statuses, sum(path.startswith("/records/") for path in office.paths),
                               sum(path.startswith("/due/") for path in office.paths)), ([200], 700, 2))
    office.aggregation = 7
    same("in a file of one's own", world.act("records-manager", {"act": "open-run"})[1]["rule"],
         "changer-does-not-open")


def catalogue(world: World, parents: dict[int, int | None], records: list[list[object]]) -> None:
    """Puts a catalogue in place, as office-catalogue writes it."""
    stamp = world.catalogue / f"{time.time()}"
    stamp.mkdir(parents=True)
    moment = time.strftime("%Y-%m-%dT%H:%M:%SZ", time.gmtime())
    rows = [{"number": number, "parent": parent, "class": "BLDG1"} for number, parent in parents.items()]
    for name, value in (("aggregations", rows), ("runs", [])):
        (stamp / f"{name}.json.gz").write_bytes(gzip.compress(json.dumps({"moment": moment, name: value}).encode()))
    lines = "\n,".join(json.dumps(row, separators=(",", ":")) for row in records)
    text = f'{{"moment":"{moment}","records":[\n{lines}\n]}}\n'
    (stamp / "records.json.gz").write_bytes(gzip.compress(text.encode()))
    new = world.catalogue / "new"
    new.symlink_to(stamp)
    new.rename(world.catalogue / "now")


def catalogued(world: World, office: Stood) -> None:
    """The catalogue says where the records lie, if it has them by the same ref; the office is asked for the others."""
    office.aggregation = 8
    for own, wrong, expected in (([], 0, 200), ([], 40, 200), ([700], 0, 403)):
        records = [[at, f"r{at}" if at > wrong else "another", "t", 7 if at in own or at <= wrong else 8, "here"]
                   for at in range(1, 701)]
        catalogue(world, {8: None, 7: None}, records)
        office.asked_for("")
        same(f"{own} of one's own", world.act("records-manager", {"act": "open-run"})[0], expected)
        same(f"{own}: {wrong} records have another ref there", office.asked_for("/records/"), wrong)
