"""What somebody changed or made by hand before: it is kept aside and named, and nobody loses an office by it."""
from __future__ import annotations

import pathlib

from kit.commands import TOP
from kit.judging import judge, same
from setup_trial.first import changed
from setup_trial.room import SITE, Room

SITE_FILE, ENABLED = "/etc/nginx/sites-available/office", "/etc/nginx/sites-enabled/office"
CHANGED = {
    "/etc/office/city.conf": "/etc/office/city.conf.before-setup",
    "/etc/office/city.access": "/etc/office/city.access.before-setup",
    "/etc/nginx/office/http.conf": "/etc/nginx/office/http.conf.before-setup",
    "/etc/nginx/office/vaults.conf": "/etc/nginx/office/vaults.conf.before-setup",
    "/etc/office.nft": "/etc/office.nft.before-setup",
    "/etc/logrotate.d/office-acts": "/etc/office/office-acts.before-setup",
    SITE_FILE: f"{SITE_FILE}.before-setup",
}
"""files that somebody changes, each with the name under which it is kept: none in a folder of which all files are read"""


def judge_kept(room: Room) -> None:
    """A change of somebody is kept; a change of the office's file is no change of somebody."""
    for path, aside in CHANGED.items():
        text = room.text(path) + "# mine\n"
        room.at(path).unlink()
        room.put(path, text)
        mode = room.at(path).stat().st_mode
        done = room.setup("apply")
        judge(f"{path}: what somebody changed is named", done.status == 0 and f"{path}: somebody changed it, and it is kept as "
              f"{aside}" in done.out, done)
        same(f"{path}: it is kept", (room.text(aside), room.at(aside).stat().st_mode), (text, mode))
        judge(f"{path}: and the right one is there", "# mine" not in room.text(path))
    path = "/etc/office/city.conf"
    room.put(path, room.text(path) + "# yours\n")
    done = room.setup("apply")
    judge("a second change has a name of its own", f"{path}.before-setup-2" in done.out and "# yours" in
          room.text(f"{path}.before-setup-2") and "# mine" in room.text(f"{path}.before-setup"), done)
    room.put(path, room.text(path) + "# yours\n")
    room.setup("apply")
    judge("the same change is kept once", not room.at(f"{path}.before-setup-3").exists())
    before = set(room.tree())
    room.change("/etc/office/city.toml", "\ndays = 30\n", "\ndays = 40\n")
    done = room.setup("apply")
    judge("a change of the office's file makes a file anew", "BACKUP_DAYS=40\n" in room.text(path) and "is kept" not in done.out,
          done)
    same("and keeps nothing aside", set(room.tree()), before)
    judge("services read it", "systemctl try-restart office@city.service" in room.called(), room.called())


def judge_by_hand(room: Room) -> None:
    """A machine that was set up by the pages: copies of the product's files are no changes."""
    for name in ("http.conf", "server.conf", "acts.js", "gate.conf"):
        room.put(f"/etc/nginx/office/{name}", (room.at("/usr/share/office/nginx") / name).read_text())
    room.put("/etc/office/city.conf", (TOP / "deploy/systemd/city.conf").read_text().replace("PORT=8081", "PORT=8085"))
    site = room.text("/usr/share/office/nginx/gated.conf").replace("localhost", SITE)
    room.put(SITE_FILE, site.replace("# ---- city", "# ---- two").replace("location /city/ {", "location /city/ {\n}\nlocation "
             "/court/ {"))
    room.setup("new", "city", "--site", SITE)
    before = room.tree()
    done = room.setup("apply")
    judge("a site with an office that no file declares stays", done.status == 2 and "has the office court" in done.error
          and "office-setup new court" in done.error, done)
    same("with all that is beside it", changed(before, room.tree()), {})
    room.put(SITE_FILE, room.text("/usr/share/office/nginx/office.conf"))
    done = room.setup("apply")
    judge("so does one of an office without a folder", done.status == 2 and "serves no office in a folder" in done.error, done)
    room.put(SITE_FILE, site)
    done = room.setup("apply")
    judge("a site of declared offices is replaced, and kept", done.status == 0 and f"kept as {SITE_FILE}.before-setup" in
          done.out, done)
    judge("copies of the product's files are not kept", "http.conf.before-setup" not in done.out
          and not room.at("/etc/nginx/office/http.conf.before-setup").exists(), done)
    judge("the office keeps its port", room.text("/etc/office/city.conf").split("PORT=")[1].startswith("8085\n"))
    room.at(ENABLED).unlink()
    room.put(ENABLED, "server { }\n")
    done = room.setup("apply")
    judge("a file among the sites that are on is kept elsewhere", room.at(ENABLED).is_symlink()
          and [path.name for path in room.at(ENABLED).parent.iterdir()] == ["office"]
          and "server { }\n" in (room.text(f"{SITE_FILE}.before-setup"), room.text(f"{SITE_FILE}.before-setup-2")), done)


def kept(folder: pathlib.Path) -> None:
    """Changes of somebody, and a machine that was set up by hand."""
    (folder / "changed").mkdir()
    with Room(folder / "changed") as room:
        room.made()
        judge_kept(room)
    (folder / "by_hand").mkdir()
    with Room(folder / "by_hand") as room:
        judge_by_hand(room)
