"""The file of settings: what is wrong is named with its line, and a change takes effect without a lost request."""
import json
import pathlib
import signal
import subprocess
import threading

from gate_trial.base import CITY, SETTINGS, made
from kit.judging import judge, same
from gate_trial.world import GATE, PYTHON, World

WRONG = ["role a may confrim", "role a may", "role A may confirm", "role a reads everything",
         "role a may confirm in B_1",
         "role a may confirm in", "role a reads records if here", "role a may confirm if sent", "role a can confirm",
         "role a may confirm in ABCDEFGHIJKLMNOPQ", "name x is nobody-said", "name x is", "name x y is registry",
         "name x/y is registry", "name registry signs " + "t" * 201, "rule", "rule four-eyes",
         "rule changer-does-not-open",
         "rule changer-does-not-open 0", "rule changer-does-not-open ten", "rule reason-for", "rule reason-for lifting",
         "rule confirmer-does-not-open 3", "limit requests 0", "limit requests", "limit lists 1000", "limit all 3",
         "limit journal-bytes", "limit journal-bytes 9999",
         "keep contents", "keep contents -1", "keep free", "keep free -1", "keep free 1G", "keep journals 3", "journal",
         "journal all", "zone Europe/Nowhere",
         "zone UTC",
         "site https://localhost", "site localhost", "site https://localhost/city/", "grant x y",
         "name * signs everybody",
         "zone ../../etc/passwd", "name registry signs \x1b[1m", "role a may confirm in *x",
         "rule sender-does-not-receive 3", "rule receiver-does-not-open all",
         "name registry signs R. Hall\u043eran", "name registry signs \u0410. Halloran", "name registry signs \u039dina"]
# whose `by` could be taken for somebody else's
ALIKE = [("name legal signs registry", "registry"), ("name legal signs Registry", "registry"),
         ("name registry signs R. H.\nname legal signs r. h.", "registry"),
         ("name registry signs R. H.\nname legal signs \uff32. H.", "registry"),
         ("name registry signs Stra\u00dfe\nname legal signs STRASSE", "registry"),
         ("name REGISTRY is auditor", "registry"), ("name legal signs department\nname department signs D. P.", "department")]
# a site without TLS is for this machine alone
SITES = {"http://localhost": 0, "http://localhost:8080": 0, "http://127.0.0.1:8080": 0, "http://[::1]:80": 0,
         "https://records.city.example": 0, "https://[2001:db8::1]:443": 0, "http://records.city.example": 2,
         "http://192.0.2.1": 2, "http://localhost.city.example": 2, "http://127.0.0.1.city.example": 2,
         "http://[2001:db8::1]": 2}
MISSING = [("zone UTC\n", "site"), ("site https://localhost\n", "zone")]
HEAD = "zone UTC\nsite https://localhost\n"
BELOW, ABOVE = "no statement stands below 'end'", "'begin' stands above all other statements"
OWN, CUT = "'begin' and 'end' have a line of their own", "the file is cut off: it has 'begin', but no 'end'"
# files with marks in wrong places, and what is printed behind the name of the file
MISPLACED = [(f"{HEAD}end\n", ":3: no 'begin' stands above this 'end'"), (f"{HEAD}begin\nend\n", f":3: {ABOVE}"),
             (f"begin\nbegin\n{HEAD}end\n", f":2: {ABOVE}"), (f"begin\n{HEAD}end\nend\n", f":5: {BELOW}"),
             (f"begin\n{HEAD}end\n# a remark\nkeep free 1\n", f":6: {BELOW}"), (f"begin\n{HEAD}end\nnonsense\n", f":5: {BELOW}"),
             (f"begin {HEAD}end\n", f":1: {OWN}"), (f"begin\n{HEAD}end of it\n", f":4: {OWN}"), (f"begin\n{HEAD}", f": {CUT}"),
             ("begin\n", f": {CUT}")]
MARKED = f"# a remark\n\n begin # of all\n{HEAD}role a may confirm\nname x is a\nrule confirmer-does-not-open\nend # of all\n"


def tried(folder: pathlib.Path) -> None:
    folder.mkdir(parents=True)
    place = folder / "city.access"
    same("the file that is shipped", checked(place, CITY)[0], 0)
    for line in WRONG:
        head = "zone UTC\nsite https://localhost\n" + SETTINGS
        status, said = checked(place, f"{head}\n# a remark\n{line}\n")
        at = head.count("\n") + 3
        judge(f"{line!r}: status 2, and its line", status == 2 and f"{place}:{at}: " in said, said)
    for text, word in MISSING:
        status, said = checked(place, text)
        judge(f"without {word}", status == 2 and f"'{word}'" in said, said)
    status, said = checked(place, "zone UTC\nsite https://localhost\nname x signs somebody\n")
    judge("who signs has a role", status == 2 and "'x'" in said, said)
    status, said = checked(place, f"zone UTC\nsite https://localhost\n{SETTINGS}name legal signs registry\n")
    judge("two names sign two texts", status == 2 and "'registry' of 'legal'" in said, said)
    alike(place)
    marked(place)
    place.write_bytes(b"zone UTC\nsite https://localhost\n# \xff\n")
    judge("no UTF-8", f"{place}:3: " in run("check", str(place))[1])
    judge("a file that is not there", run("check", str(folder / "none"))[0] == 2)
    world = made(folder / "w")
    printed(world)
    changed(world)
    world.end()


def alike(place: pathlib.Path) -> None:
    """Names and texts that people take for each other are refused; so is a site that others could listen to."""
    head = "zone UTC\nsite https://localhost\n" + SETTINGS
    for line, other in ALIKE:
        status, said = checked(place, f"{head}{line}\n")
        judge(f"{line!r} looks like {other}", status == 2 and "look alike" in said and f"'{other}'" in said, said)
    for text in ("R. Halloran, \u00e4lteste", "\u0410\u043d\u043d\u0430", "\u5c71\u7530\u3055\u3093", "\u0391\u03b8\u03b7\u03bd\u03ac 2"):
        same(f"{text!r} is of one script", checked(place, f"{head}name registry signs {text}\n")[0], 0)
    for site, wanted in SITES.items():
        status, said = checked(place, f"zone UTC\nsite {site}\n")
        judge(f"site {site}: {wanted}", status == wanted and (wanted == 0 or f"{place}:2: " in said), (status, said))


def marked(place: pathlib.Path) -> None:
    """A mark in a wrong place is named with its line, and no part of a file with both marks is taken."""
    for text, wanted in MISPLACED:
        status, said = checked(place, text)
        judge(f"{text!r} is refused", status == 2 and said == f"office-gate: {place}{wanted}\n", said)
    same("a file with both marks", checked(place, MARKED)[0], 0)
    end = MARKED.rindex("end #")
    lines = [at for at, letter in enumerate(MARKED[:end], 1) if letter == "\n"]
    for at in sorted({0, *lines, *range(lines[-2], end + 3)}):
        judge(f"the first {at} letters of it are refused", checked(place, MARKED[:at])[0] == 2, MARKED[:at], is_quiet=True)
    for at in (end + 3, end + 5, len(MARKED) - 1):
        same(f"{at} letters have each statement", checked(place, MARKED[:at])[0], 0)
    same("without `begin` a part of it is taken", checked(place, MARKED[:lines[-2]].replace("begin", "", 1))[0], 0)


def run(*words: str) -> tuple[int, str]:
    done = subprocess.run([PYTHON, "-I", GATE, *words], capture_output=True, text=True, check=False)
    return done.returncode, done.stdout + done.stderr


def checked(place: pathlib.Path, text: str) -> tuple[int, str]:
    place.write_text(text)
    return run("check", str(place))


def printed(world: World) -> None:
    """What `rights` prints is what the gate answers."""
    for name in ("registry", "department", "archive", "somebody"):
        _, text = run("rights", str(world.settings), name)
        words = [it.split(" in ")[0].split(" if ")[0] for it in text.splitlines()[1:]]
        _, said = world.get(name, "/rights")
        same(f"rights of {name}", sorted(words), sorted([*said["may"], *(f"read {it}" for it in said["reads"])]))


def changed(world: World) -> None:
    """Rights change while requests come; none of them is lost, and a wrong file changes nothing."""
    found: list[int] = []
    stop = threading.Event()

    def ask() -> None:
        while not stop.is_set():
            found.append(world.ask("nobody", "GET", "/records/1")[0])

    threads = [threading.Thread(target=ask) for _ in range(4)]
    for it in threads:
        it.start()
    for at in range(6):
        world.reload(SETTINGS + ("name nobody is auditor\n" if at % 2 == 0 else ""))
        status = world.ask("nobody", "GET", "/records/1")[0]
        same(f"change {at} counts", status, 200 if at % 2 == 0 else 403)
    stop.set()
    for it in threads:
        it.join()
    judge("each request was answered", set(found) == {200, 403}, set(found))
    world.settings.write_text("rule nothing\n")
    count = len(world.lines())
    world.gate.send_signal(signal.SIGHUP)
    judge("the service says that a file is wrong", world.prints("the settings stay as they were"))
    same("with a wrong file all stays", world.ask("registry", "GET", "/records/1")[0], 200)
    judge("the journal says nothing of it", all(it["what"] != "settings" for it in world.lines()[count:]))
    judge("but the service does, with its line", f"{world.settings}:1: " in (world.folder / "log").read_text())
    world.settings.write_text("begin\nsite https://localhost\nzone UTC\n")
    world.gate.send_signal(signal.SIGHUP)
    judge("so with a file that is cut off", world.prints(f"{world.settings}: {CUT}"))
    same("then all stays too", world.ask("registry", "GET", "/records/1")[0], 200)
    world.settings.write_text("site https://localhost\nzone UTC\n" + SETTINGS)
    sums = [it["sha256"] for it in world.lines() if it["what"] == "settings"]
    same("the journal has the SHA-256 of each", len(set(sums)), 2)
    same("a name that no line names", json.loads(world.ask("somebody", "GET", "/rights")[1])["acts"], False)
    world.reload(SETTINGS + "name * is auditor\nname legal signs L. Egal\nname registry signs else\n")
    same("a name that looks like one of the settings", [world.ask(it, "GET", "/records/1")[0] for it in ("Legal", "ELSE")],
         [403, 403])
    same("a line for all other names", world.ask("somebody", "GET", "/records/1")[0], 200)
    same("but for one that another name signs", world.ask("else", "GET", "/records/1")[0], 403)
