"""The journal of the command: what is done has its line first, and what a stop leaves goes on."""
from __future__ import annotations

import hashlib
import json
import os
import pathlib
import resource
import subprocess
import sys
import time
from typing import Any

from command_trial.filed import SETTINGS, fill, filing
from command_trial.kills import Client, names
from command_trial.served import DAY, SITE, Answer, Gated, answer_in, denied, request, stated, stopped
from kit.commands import OFFICE
from kit.companions import companion
from kit.judging import judge, same

KILLS = int(os.environ.get("KILLS", "4"))
FROM = "2001:db8::7"
UNASKED = Answer(503, {"error": "journal"})
CONTENT = b"what nobody but the office may have"
Line = dict[str, Any]


def lines_of(gated: Gated) -> list[Line]:
    """Reads the whole lines of the journal."""
    return [json.loads(line) for line in gated.journal.read_bytes().split(b"\n")[:-1]]


def kinds(lines: list[Line]) -> list[str]:
    return [line["what"] for line in lines]


def sum_of(data: bytes) -> dict[str, object]:
    return {"bytes": len(data), "sha256": hashlib.sha256(data).hexdigest()}


def check(gated: Gated, name: str) -> None:
    """Judges the journal by the command that auditors use."""
    done = subprocess.run([sys.executable, "-B", companion("office-journal"), "check", str(gated.journal)],
                          capture_output=True, text=True)
    judge(f"{name}: the journal is whole", done.returncode == 0, done.stdout + done.stderr)


def journaled(folder: pathlib.Path) -> None:
    with Gated(folder / "office", SETTINGS, "city.journal") as gated:
        noted(gated)
        renewed(gated)
        torn(gated)
        full(gated)
        refused(gated)
        killed(gated)
        ended(gated)


def noted(gated: Gated) -> None:
    """Acts, denials and resumptions have both lines; readings have none; no content is in a line."""
    first = lines_of(gated)
    settings = hashlib.sha256((SITE + SETTINGS).encode()).hexdigest()
    same("the begin has its line", [(it["what"], it["line"], it["settings"]) for it in first], [("opened", 1, settings)])
    fill(gated)
    body = json.dumps([{**filing(3, 1, CONTENT), "day": DAY}]).encode()
    answer = answer_in(gated.raw(request("POST", "/acts", body, [*stated("records-manager"), ("Office-From", FROM)])))
    same("a record is filed", answer, Answer(200, [{"number": 3}]))
    asked, answered = lines_of(gated)[-2:]
    same("who asked, from where, and for what", [asked[it] for it in ("what", "name", "from", "request", "body", "settings")],
         ["asked", "records-manager", FROM, "POST /acts", sum_of(body), settings])
    same("the act has the digest of its content", asked["acts"][0]["content"], sum_of(CONTENT))
    same("the answer", [answered[it] for it in ("what", "of", "status", "answers")],
         ["answered", asked["line"], 200, [{"number": 3}]])
    before = lines_of(gated)
    same("a reading", gated.get("auditor", "/records/1").status, 200)
    same("no list", gated.ask("legal", "POST", "/acts", b"{").status, 400)
    same("a foreign name", gated.ask("stranger", "GET", "/records/1"), Answer(403, denied("name")))
    same("these have no line", lines_of(gated), before)
    same("a right is lacking", gated.act("auditor", {"act": "confirm", "record": 1, "action": "destroy", "by": "auditor"}), stopped([], "right"))
    same("nobody opens a run twice", gated.resume("records-manager").status, 409)
    rows = lines_of(gated)[len(before):]
    same("denied and refused requests have both", [(it["what"], it.get("request"), it.get("status"), it.get("from")) for it in rows],
         [("asked", "POST /acts", None, ""), ("answered", None, 403, None), ("asked", "POST /run/resume", None, ""),
          ("answered", None, 409, None)])
    check(gated, "noted")


def renewed(gated: Gated) -> None:
    """Other settings have their line before what they decide."""
    gated.settle(SETTINGS + "name newcomer is legal\n")
    before = lines_of(gated)
    same("a reading under them", gated.get("auditor", "/records/1").status, 200)
    hold = {"act": "place-hold", "code": "N", "reason": "r", "by": "newcomer"}
    same("a new name acts", gated.act("newcomer", hold), Answer(200, [{"done": True}]))
    rows = lines_of(gated)[len(before):]
    digest = hashlib.sha256(gated.settings.read_bytes()).hexdigest()
    same("the settings come first", (kinds(rows), rows[0]["sha256"], rows[1]["settings"]),
         (["settings", "asked", "answered"], digest, digest))
    gated.settle(SETTINGS + "name newcomer is clerk\n")
    same("wrong settings count for nothing", gated.act("newcomer", {**hold, "code": "W"}).status, 200)
    rows = lines_of(gated)[len(before) + 3:]
    same("and have no line", (kinds(rows), rows[0]["settings"]), (["asked", "answered"], digest))
    gated.settle(SETTINGS)


def torn(gated: Gated) -> None:
    """A torn line is cut off, and the lines go on."""
    gated.end()
    whole = gated.journal.read_bytes()
    for piece in (b"{", b'{"before":"00', whole.split(b"\n")[1][:-1]):
        gated.journal.write_bytes(whole + piece)
        gated.start()
        after = gated.journal.read_bytes()
        judge(f"{len(piece)} bytes of a line are cut off", after.startswith(whole) and after.count(b"\n") == whole.count(b"\n") + 1)
        whole = after
        gated.end()
    gated.start()
    check(gated, "torn")


def full(gated: Gated) -> None:
    """A line that the disk does not take: nothing is done until the journal is opened again."""
    room = gated.journal.stat().st_size + 40
    limits = resource.prlimit(gated.served.process.pid, resource.RLIMIT_FSIZE, (room, resource.RLIM_INFINITY))
    hold = {"act": "place-hold", "code": "FULL", "reason": "r", "by": "legal"}
    for time_of in range(2):
        same(f"no room for the line, {time_of}", gated.act("legal", hold), UNASKED)
    same("nor for a resumption", gated.resume("records-manager"), UNASKED)
    same("readings go on", gated.get("auditor", "/records/1").status, 200)
    resource.prlimit(gated.served.process.pid, resource.RLIMIT_FSIZE, limits)
    same("with room it stays so", gated.act("legal", hold), UNASKED)
    same("nothing was done", gated.column("SELECT code FROM holds WHERE code = 'FULL'"), [])
    gated.end()
    gated.start()
    same("opened again, it goes on", gated.act("legal", hold), Answer(200, [{"done": True}]))
    check(gated, "full")


def refused(gated: Gated) -> None:
    """A journal that was changed, or that another process has, is left as it is."""
    command = [OFFICE, "gate", gated.file, "1", "1", gated.settings, gated.token, gated.journal]
    second = subprocess.run([*map(str, command[:3]), "65001", *map(str, command[4:])], capture_output=True, text=True)
    same("a second process", (second.returncode, second.stdout, second.stderr),
         (3, "", f"office: {gated.journal} is open in another process\noffice: file\n"))
    gated.end()
    whole, office = gated.journal.read_bytes(), gated.file.read_bytes()
    rows = whole.split(b"\n")
    changed = {"a changed byte": (whole.replace(b'"legal"', b'"lezal"', 1), 0), "a line that lacks": (b"\n".join(rows[:4] + rows[5:]), 5),
               "no line at all": (b"\n" + whole, 1), "the first line is gone": (b"\n".join(rows[1:]), 1)}
    for name, (text, place) in changed.items():
        gated.journal.write_bytes(text)
        done = subprocess.run(list(map(str, [*command[:3], 65001, *command[4:]])), capture_output=True, text=True)
        place = place or whole[:whole.index(b'"legal"')].count(b"\n") + 2
        judge(f"{name} is refused", (done.returncode, done.stdout) == (3, "") and done.stderr.startswith(
            f"office: {gated.journal}:{place}: "), done.stderr)
        judge(f"{name}: the files stay", (gated.journal.read_bytes(), gated.file.read_bytes()) == (text, office))
    gated.journal.write_bytes(whole)
    gated.start()


def killed(gated: Gated) -> None:
    """Kills with requests under way: what is in FILE has its line, and what was answered has both."""
    for kill in range(KILLS):
        clients = [Client(gated, f"J{kill}-{at}") for at in range(4)]
        time.sleep(0.4)
        gated.served.process.kill()
        gated.served.process.wait()
        for client in clients:
            client.join()
        gated.end()
        gated.start()
        rows = lines_of(gated)
        asked = {it["line"]: {act["ref"] for act in it["acts"] if "ref" in act} for it in rows if it["what"] == "asked" and "acts" in it}
        answered = {ref for it in rows if it["what"] == "answered" and it["status"] == 200 for ref in asked[it["of"]]}
        same(f"kill {kill}: what is there was asked for", {it for it in names(gated) if it[0] == "J"} - set().union(*asked.values()), set())
        same(f"kill {kill}: what was answered has its line", set().union(*(it.done for it in clients)) - answered, set())
        judge(f"kill {kill}: acts were done", any(it.done for it in clients), always=True)
        check(gated, f"kill {kill}")


def ended(gated: Gated) -> None:
    """The end has its line."""
    gated.end()
    gated.start(count=2)
    same("the last connections", [gated.get("auditor", "/records/1").status for _ in range(2)], [200, 200])
    same("it ends by itself", gated.served.process.wait(20), 0)
    same("and notes that", kinds(lines_of(gated))[-2:], ["opened", "closed"])
    check(gated, "ended")
