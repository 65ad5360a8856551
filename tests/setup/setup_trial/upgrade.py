"""An upgrade of the package, its removal, and a new installation."""
from __future__ import annotations

import os
import pathlib

from kit.judging import judge, same
from setup_trial.first import changed
from setup_trial.room import Room

HTTP, ACCESS = "/usr/share/office/nginx/http.conf", "/usr/share/office/gate/city.access"
SITE = "/usr/share/office/nginx/gated.conf"
ALL = "office-all@city.target"


def judge_upgraded(room: Room) -> None:
    """The new guards count, each office was copied before, and no service was restarted."""
    room.put(HTTP, room.text(HTTP) + "# of the next version\n")
    room.put(SITE, room.text(SITE) + "# of the next version\n")
    room.put(ACCESS, room.text(ACCESS).replace("role legal may place-hold hold-on", "role legal may hold-on"))
    room.put("/usr/share/office/nginx/office.nft", room.text("/usr/share/office/nginx/office.nft").replace("over 64", "over 65"))
    room.forget_calls()
    done = room.setup("apply", "--after-upgrade")
    judge("`apply --after-upgrade` ends well", done.status == 0, done)
    calls = room.called()
    same("it begins with a copy of the office", calls[:1], ["systemctl start office-backup@city.service"])
    judge("no service is restarted", not [line for line in calls if "restart office" in line], calls)
    judge("what is left to do is printed", "left to you: systemctl try-reload-or-restart office-gate@city.service" in done.out,
          done)
    judge("nginx has the new guards", room.text("/etc/nginx/office/http.conf").endswith("# of the next version\n")
          and room.text("/etc/nginx/sites-available/office").endswith("# of the next version\n")
          and "systemctl reload-or-restart nginx.service" in calls, calls)
    judge("the rules of nftables are loaded anew", "over 65" in (room.folder / "loaded/office.nft").read_text())
    judge("the gate has the new roles", "role legal may hold-on hold-off lift-hold" in room.text("/etc/office/city.access"))
    judge("nothing is said to be changed by somebody", "is kept as" not in done.out, done)
    same("nothing differs", room.setup("check").out, "0 differences\n")


def judge_linked(room: Room) -> None:
    """A change of a linked file alone is read too, though no link changed."""
    room.put(HTTP, room.text(HTTP) + "# of a third version\n")
    room.forget_calls()
    done = room.setup("apply", "--after-upgrade")
    judge("nginx reads a file that changed behind its link", done.out == "city: a copy was made\n0 changes\n"
          and "systemctl reload-or-restart nginx.service" in room.called(), (done, room.called()))
    (room.folder / "refuses-nginx").write_text("nginx: [emerg] of the product\n")
    done = room.setup("apply", "--after-upgrade")
    judge("if nginx does not take it, that is said", done.status == 2 and "of the product" in done.error, done)
    (room.folder / "refuses-nginx").unlink()


def judge_left(room: Room) -> None:
    """What is off stays off, and who has no password gets none into a log: both are left to a person."""
    room.switch("office@city.service", "active", False)
    room.switch("office-scrub@city.timer", "enabled", False)
    room.change("/etc/office/city.toml", 'legal = "legal"\n', 'legal = "legal"\nbert = "legal"\n')
    units = room.units() | room.units("enabled")
    done = room.setup("apply", "--after-upgrade")
    judge("an upgrade names what is off, and who has no password", done.status == 0
          and "left to you: office@city.service: is enabled and inactive, and not on" in done.out
          and "left to you: /etc/nginx/office/office.htpasswd: bert has no password" in done.out
          and "3 differences are left" in done.out, done)
    same("and leaves that as it is", (room.units() | room.units("enabled"), "shown this once" in done.out), (units, False))
    room.setup("apply")
    same("`apply` does the rest", room.setup("check").out, "0 differences\n")


def judge_parts(room: Room) -> None:
    """What an earlier version enabled becomes a part of the office's target, and nothing is enabled or started by that."""
    units = sorted(unit for unit in room.units("enabled") if unit.partition(".")[0].endswith("@city") and unit != ALL)
    for unit in units:
        room.switch(unit, "apart", True)
    for state in ("enabled", "active"):
        room.switch(ALL, state, False)
    room.switch("office-scrub@city.timer", "enabled", False)
    room.forget_calls()
    before = (room.units(), room.units("enabled"))
    done = room.setup("apply", "--after-upgrade")
    judge("an upgrade makes each unit a part of the target", done.status == 0
          and f"{ALL}: does not start each unit of the office" in done.out
          and f"left to you: {ALL}: is disabled and inactive, and not on" in done.out, done)
    again = [line.split()[-1] for line in room.called() if line.startswith("systemctl reenable")]
    same("each that is enabled", sorted(again), [unit for unit in units if unit != "office-scrub@city.timer"])
    same("and leaves all as it is", (room.units(), room.units("enabled")), before)
    room.setup("apply")
    same("`apply` does the rest", room.setup("check").out, "0 differences\n")
    same("all are its parts", room.units("apart"), set())


def judge_no_copy(room: Room) -> None:
    """Without a copy nothing is changed."""
    refusal = room.folder / "refuses-start-office-backup@city.service"
    refusal.write_text("Job failed\n")
    room.put(SITE, room.text(SITE) + "# of one more version\n")
    before = room.tree()
    done = room.setup("apply", "--after-upgrade")
    judge("if no copy can be made it says so", done.status == 3 and "no copy of city was made, so nothing was changed" in
          done.error, done)
    same("and changes nothing", changed(before, room.tree()), {})
    refusal.unlink()
    room.setup("apply", "--after-upgrade")


def dangling(room: Room) -> list[str]:
    """Returns the links that nginx and logrotate would follow to nowhere."""
    folders = ("sites-enabled", "modules-enabled")
    links = [path for folder in folders for path in room.at(f"/etc/nginx/{folder}").iterdir()]
    links += list(room.at("/etc/logrotate.d").iterdir())
    nowhere = []
    for path in links:
        target = os.readlink(path)
        there = room.at(target) if target.startswith("/") else path.parent / target
        nowhere += [] if there.exists() else [str(path)]
    return nowhere


def judge_off(room: Room) -> None:
    """Before the package is removed its files leave nginx; with the next one they come back."""
    tree = room.tree()
    done = room.setup("off")
    judge("`off` takes the site out", done.status == 0 and "/etc/nginx/sites-enabled/office: removed" in done.out
          and "systemctl reload nginx.service" in room.called(), done)
    aside = room.at("/usr/share/office").rename(room.folder / "share")
    same("without the package no link leads nowhere", dangling(room), [])
    same("nothing else is gone", {path for path, (_, now) in changed(tree, room.tree()).items()
                                  if now is None and not path.startswith("/usr/")},
         {"/etc/nginx/sites-enabled/office", "/etc/nginx/modules-enabled/90-office.conf", "/etc/logrotate.d/office-acts",
          "/etc/logrotate.d/office-journal", "/etc/logrotate.d/office-sign-in"})
    done = room.setup("check")
    judge("without the package `check` says what is missing", done.status == 2 and "install the package office" in done.error, done)
    aside.rename(room.at("/usr/share/office"))
    done = room.setup("apply")
    judge("with the package all comes back", done.status == 0, done)
    same("as it was", changed(tree, room.tree()), {})


def upgrade(folder: pathlib.Path) -> None:
    """One office over three versions of the package."""
    with Room(folder) as room:
        room.made()
        judge_upgraded(room)
        judge_linked(room)
        judge_left(room)
        judge_parts(room)
        judge_no_copy(room)
        judge_off(room)
