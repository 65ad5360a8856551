"""Settings that change while the command serves: the next connection goes by them, unless something is wrong with them."""
from __future__ import annotations

import pathlib

from command_trial.filed import SETTINGS, fill
from command_trial.served import SECRET, SITE, TOKEN, Answer, Gated, denied, stopped
from kit.judging import same

TIMES = 3
WRONG = "name legal is clerk\n"


def renewed(folder: pathlib.Path) -> None:
    with Gated(folder / "office", SETTINGS) as gated:
        fill(gated)
        rights(gated)
        wrong(gated)
        missing(gated)
        other_token(gated)


def holds(gated: Gated, name: str, *codes: str) -> Answer:
    return gated.act(name, *({"act": "place-hold", "code": code, "reason": "r", "by": name} for code in codes))


def rights(gated: Gated) -> None:
    """Takes rights away, and gives them: each counts for the next request."""
    reading = gated.get("auditor", "/records/1")
    same("an auditor reads", reading.status, 200)
    for time in range(TIMES):
        gated.settle(SETTINGS.replace("name legal is legal\n", "").replace("reads records lists", "reads lists"))
        same(f"a right to acts is gone, {time}", holds(gated, "legal", "GONE"), stopped([], "name"))
        same(f"a right to a reading is gone, {time}", gated.get("auditor", "/records/1"), Answer(403, denied("right")))
        gated.settle(SETTINGS)
        same(f"both are back, {time}", (holds(gated, "legal", f"BACK{time}").status, gated.get("auditor", "/records/1")),
             (200, reading))
    gated.settle(SETTINGS + "name newcomer is legal\n")
    same("a name is new", holds(gated, "newcomer", "NEW"), Answer(200, [{"done": True}]))
    gated.settle(SETTINGS + "name newcomer is legal\nname newcomer signs Somebody New\n")
    same("it signs otherwise", holds(gated, "newcomer", "OLD"), stopped([], "by"))
    gated.settle(SETTINGS + "rule opener-does-not-carry-out\n")
    by = "records-manager"
    same("a run is opened", gated.act(by, {"act": "open-run", "by": by}), Answer(200, [{"number": 1}]))
    same("a rule is new", gated.resume(by), Answer(403, denied("eyes", "opener-does-not-carry-out")))
    gated.settle(SETTINGS)
    same("it is gone", gated.resume(by), Answer(200, {"certificate": 1}))
    same("what was denied was not done", gated.column("SELECT code FROM holds ORDER BY code"),
         ["BACK0", "BACK1", "BACK2", "H", "NEW"])
    same("nothing is printed", gated.errors(), "")


def wrong(gated: Gated) -> None:
    """Puts wrong settings there: those before stay in force, and one line is printed for each text."""
    line = (SITE + SETTINGS).count("\n") + 1
    expected = ""
    for time in range(TIMES):
        gated.settle(SETTINGS + "\n" * time + WRONG)
        expected += f"office: {gated.settings}:{line + time}: no line says what one of these roles may do\n"
        same(f"the settings before count, {time}", [holds(gated, "legal", f"KEPT{time}{it}").status for it in range(TIMES)],
             [200] * TIMES)
        same(f"a name without a right has none, {time}", holds(gated, "stranger", "NONE"), stopped([], "name"))
        same(f"one line is printed, {time}", gated.errors(), expected)
    gated.settle(SETTINGS.replace("name legal is legal\n", ""))
    same("good settings count again", holds(gated, "legal", "NONE"), stopped([], "name"))
    gated.settle(SETTINGS)
    same("and others", holds(gated, "legal", "AGAIN").status, 200)
    same("nothing more is printed", gated.errors(), expected)


def missing(gated: Gated) -> None:
    """Takes the file away: the settings before stay in force, and each connection prints a line."""
    before = gated.errors()
    gated.settings.unlink()
    same("the settings before count", [holds(gated, "legal", f"MISSING{it}").status for it in range(TIMES)], [200] * TIMES)
    same("a line for each", gated.errors(), before + f"office: {gated.settings} cannot be read\n" * TIMES)
    gated.settle(SETTINGS)
    same("it is back", holds(gated, "legal", "FOUND").status, 200)


def other_token(gated: Gated) -> None:
    """Changes the secret: it counts from the next start on."""
    gated.token.write_text("z" * len(SECRET))
    same("the first secret counts", gated.get("auditor", "/records/1").status, 200)
    gated.end()
    gated.start()
    same("after a start it counts no more", gated.get("auditor", "/records/1"), Answer(403, TOKEN))
