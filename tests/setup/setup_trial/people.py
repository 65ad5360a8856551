"""Who signs in: people who come and leave, other passwords, and settings of an office's own."""
from __future__ import annotations

import pathlib
import re

from kit.commands import run
from kit.judging import judge, same
from setup_trial.room import Room

PASSWORDS = "/etc/nginx/office/office.htpasswd"


def names(room: Room, path: str = PASSWORDS) -> list[str]:
    return sorted(line.split(":")[0] for line in room.text(path).splitlines())


def is_password(room: Room, name: str, password: str, path: str = PASSWORDS) -> bool:
    """Whether a name signs in with a password."""
    digest = dict(line.split(":", 1) for line in room.text(path).splitlines())[name]
    done = run("openssl", "passwd", "-6", "-salt", digest.split("$")[2], "-stdin", data=f"{password}\n".encode())
    return done.out.strip() == digest


def judge_leaver(room: Room) -> None:
    """Who is taken out of the file has no password; who comes gets one; the others keep theirs."""
    before = dict(line.split(":", 1) for line in room.text(PASSWORDS).splitlines())
    room.change("/etc/office/city.toml", 'legal = "legal"\n', 'builder = { is = "department", in = ["BLDG*", "ROADS"] }\n')
    done = room.setup("check")
    judge("`check` names who left, and who has none", f"{PASSWORDS}: legal has a password" in done.out
          and f"{PASSWORDS}: builder has no password" in done.out, done)
    done = room.setup("apply")
    shown = re.findall(r"shown this once: (\S+)", done.out)
    same("who comes gets a password", shown, ["builder"])
    after = dict(line.split(":", 1) for line in room.text(PASSWORDS).splitlines())
    same("who left has none", sorted(after), ["auditor", "builder", "deputy", "manager", "registrar"])
    judge("the others keep theirs", all(after[name] == before[name] for name in after if name != "builder"))
    access = room.text("/etc/office/city.access").splitlines()
    judge("the gate knows it", "name builder is department in BLDG* ROADS" in access
          and not [line for line in access if line.startswith("name legal ")], access)
    judge("and is reloaded", "systemctl try-reload-or-restart office-gate@city.service" in room.called(), room.called())


def judge_passwords(room: Room) -> None:
    """`password` gives one name another password, and no other."""
    before = room.text(PASSWORDS).splitlines()
    done = room.setup("password", "city", "manager")
    shown = done.out.split()[-1] if done.out else ""
    judge("`password` shows another one", done.status == 0 and len(shown) >= 20 and is_password(room, "manager", shown), done)
    after = room.text(PASSWORDS).splitlines()
    judge("the others stay", sorted(line for line in before if not line.startswith("manager:"))
          == sorted(line for line in after if not line.startswith("manager:")))
    done = room.setup("password", "city", "monitor")
    judge("the monitor has a file of its own", is_password(room, "monitor", done.out.split()[-1],
                                                           "/etc/nginx/office/monitor.htpasswd"), done)
    done = room.setup("password", "city", "nobody")
    judge("who is in no file gets none", done.status == 2 and "city.toml: people: there is no nobody" in done.error, done)
    same("nothing differs", room.setup("check").out, "0 differences\n")


def judge_all_others(room: Room) -> None:
    """With `*` a name that is in no file may have a password."""
    room.change("/etc/office/city.toml", 'auditor = "auditor"\n', '"*" = "auditor"\n')
    room.setup("apply")
    judge("a name of before keeps its password", "auditor" in names(room), names(room))
    judge("and * has none", "*" not in names(room) and "name * is auditor" in room.text("/etc/office/city.access").splitlines())
    done = room.setup("password", "city", "guest")
    judge("another name gets one", done.status == 0 and "guest" in names(room), done)


def judge_rules(room: Room) -> None:
    """Rules and limits of the file, and lines of its own."""
    room.change("/etc/office/city.toml", "#[rules]\n", "[rules]\nsender-does-not-receive = false\nchanger-does-not-open = 60\n"
                'reason-for = ["lift-hold", "reclassify"]\n[limits]\nrequests = 9\nfree-megabytes = 1\nreadings = false\n')
    room.change("/etc/office/city.toml", 'title = "city"\n', 'title = "Stadtarchiv Köln"\nyearend = true\n'
                'settings = ["role clerk may add-record", "name carl is clerk"]\n')
    done = room.setup("apply")
    access = room.text("/etc/office/city.access").splitlines()
    wanted = ("rule changer-does-not-open 60", "rule reason-for lift-hold reclassify", "rule opener-does-not-carry-out",
              "limit requests 9", "limit lists 2", "keep free 1", "journal acts", "role clerk may add-record",
              "name carl is clerk", "name yearend is yearend")
    judge("they are in the settings of the gate", done.status == 0 and set(wanted) <= set(access), access)
    judge("a rule that is off is not", not [line for line in access if "sender-does-not-receive" in line or line in (
        "rule changer-does-not-open 30", "limit requests 8", "journal readings")], access)
    same("the page has its title", room.text("/etc/nginx/office/city.name.json"),
         '{"name": "Stadtarchiv Köln", "colour": "#1f4d7a"}\n')
    judge("the year's end is on", "office-yearend@city.timer" in room.units())


def judge_own(room: Room) -> None:
    """Settings that were there before stay, as long as the file has no [people]."""
    text = room.text("/etc/office/city.access")
    own = text.split("\n", 1)[1].replace("name manager is", "name boss is").replace("name manager signs", "name boss signs")
    room.at("/etc/office/city.toml").unlink()
    room.put("/etc/office/city.access", own)
    room.setup("new", "city")
    judge("`new` leaves settings of before alone", "[people]\n" not in re.sub(r"#.*", "", room.text("/etc/office/city.toml")))
    done = room.setup("apply")
    same("so does `apply`", (done.status, room.text("/etc/office/city.access")), (0, own))
    before = names(room)
    done = room.setup("password", "city", "boss")
    judge("a name of theirs gets a password", done.status == 0 and {*before, "boss"} == set(names(room)), done)
    same("nothing differs", room.setup("check").out, "0 differences\n")
    room.put("/etc/office/city.access", own.removesuffix("end\n") + "name boss might all\nend\n")
    done = room.setup("check")
    judge("a mistake there is a difference", done.status == 1 and "city.access: the gate cannot read it, or does not" in done.out,
          done)
    done = room.setup("apply")
    judge("which is not mended", done.status == 2 and "write: name NAME is" in done.error, done)


def people(folder: pathlib.Path) -> None:
    """One office, whose people change."""
    with Room(folder) as room:
        room.made()
        judge_leaver(room)
        judge_passwords(room)
        judge_all_others(room)
        judge_rules(room)
        judge_own(room)
