"""nginx does not take its new files: those of before come back, and it goes on with them."""
from __future__ import annotations

import pathlib

from kit.judging import judge, same
from setup_trial.first import changed
from setup_trial.room import Entry, Room

RELOAD = "systemctl reload-or-restart nginx.service"


def of_nginx(tree: dict[str, Entry]) -> dict[str, Entry]:
    """Returns what nginx reads."""
    return {path: entry for path, entry in tree.items() if path.startswith("/etc/nginx/") and "htpasswd" not in path
            and not path.endswith(("office.key", "office.crt", "name.json")) and entry.kind != "folder"}


def back(folder: pathlib.Path) -> None:
    """At the first office, at a change and at a removal."""
    with Room(folder) as room:
        room.setup("new", "city")
        refusal = room.folder / "refuses-nginx"
        refusal.write_text("nginx: [emerg] no such directive\n")
        before = of_nginx(room.tree())
        done = room.setup("apply")
        judge("`apply` says what nginx says", done.status == 2 and "no such directive" in done.error, done)
        same("at the first office nothing of nginx stays", changed(before, of_nginx(room.tree())), {})
        judge("and it is not reloaded", RELOAD not in room.called(), room.called())
        judge("the passwords that were made are shown", done.out.count("a first password") == 6, done)
        refusal.unlink()
        done = room.setup("apply")
        judge("without the cause it works", done.status == 0 and room.called().count(RELOAD) == 1, done)
        judge("with the same passwords", "a first password" not in done.out, done)
        same("and nothing differs", room.setup("check").out, "0 differences\n")
        room.change("/etc/office/city.toml", "\ndays = 30\n", "\ndays = 31\n")
        done = room.setup("apply")
        judge("what was made before nginx refused is nobody's change", done.status == 0 and "is kept as" not in done.out, done)
        room.forget_calls()
        room.at("/etc/nginx/office/http.conf").unlink()
        room.put("/etc/nginx/office/http.conf", "mine\n")
        room.change("/etc/office/city.toml", "#vault = true", "vault = false")
        before = of_nginx(room.tree())
        refusal.write_text("nginx: [emerg] it is full\n")
        done = room.setup("apply")
        after = {path: entry for path, entry in of_nginx(room.tree()).items() if ".before-setup" not in path}
        judge("a change that nginx refuses", done.status == 2 and "it is full" in done.error, done)
        same("is taken back, each file with its mode", changed(before, after), {})
        judge("and it is not reloaded", RELOAD not in room.called(), room.called())
        refusal.unlink()
        room.setup("apply")
        judge("later it is made", '"/city/"' not in room.text("/etc/nginx/office/vaults.conf")
              and room.at("/etc/nginx/office/http.conf").is_symlink() and not [
                  unit for unit in room.units() if unit.startswith("office-vault")], room.units())
        judge("what somebody changed is kept once", not room.at("/etc/nginx/office/http.conf.before-setup-2").exists())
        room.setup("new", "court")
        room.setup("apply")
        before, units = room.tree(), room.units()
        refusal.write_text("nginx: [emerg] no\n")
        done = room.setup("remove", "court")
        judge("an office that nginx does not let go stays", done.status == 2 and room.units() == units
              and room.at("/etc/office/court.toml").exists(), done)
        same("with all of its files", changed(before, room.tree()), {})
