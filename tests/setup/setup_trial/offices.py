"""Two offices on one machine, an office that is removed, and one that lost FILE or its key."""
from __future__ import annotations

import pathlib
import socket

from kit.judging import judge, same
from setup_trial.first import changed
from setup_trial.room import Room, set_log

OF_COURT = "office@court.service"


def sections(room: Room) -> list[str]:
    """Returns the offices of the site."""
    lines = room.text("/etc/nginx/sites-available/office").splitlines()
    return [line.removeprefix("    # ---- ") for line in lines if line.startswith("    # ---- ")]


def judge_two(room: Room) -> None:
    """Both are there, with a port and a token each, and neither took anything from the other."""
    conf = {name: room.text(f"/etc/office/{name}.conf").split("PORT=")[1].split("\n")[0] for name in ("city", "court")}
    same("each office has a port", conf, {"city": "8081", "court": "8083"})
    same("the site has both", sections(room), ["city", "court"])
    lines = [line.split(" ")[0] for line in room.text("/etc/nginx/office/gate_tokens.conf").splitlines()[1:]]
    same("nginx has both tokens", lines, ['"~^/city/"', '"~^/court/"'])
    judge("which differ", room.text("/etc/office/city.token") != room.text("/etc/office/court.token"))
    judge("the rules have both ports", "dport { 8081, 8083 }" in (room.folder / "loaded/office-gate.nft").read_text())
    judge("the units of the second are on", {OF_COURT, "office-gate@court.socket", "office-backup@court.timer"} <= room.units())


def judge_removed(room: Room) -> None:
    """One office is taken out, and what it has stays."""
    before = room.tree()
    room.forget_calls()
    done = room.setup("remove", "court")
    judge("`remove` ends well", done.status == 0 and f"{OF_COURT}: off" in done.out
          and "/var/lib/office/court: stays" in done.out, done)
    stops = [line for line in room.called() if line.startswith("systemctl disable")]
    same("all units stop at once", stops[:1], ["systemctl disable --now office-all@court.target"])
    same("what was cut by that is no failure", room.called()[-1], "systemctl reset-failed office*@court.*")
    judge("none of its units is on", not [unit for unit in room.units() | room.units("enabled") if "court" in unit], room.units())
    same("the site has the other one", sections(room), ["city"])
    gone = {path for path, (_, now) in changed(before, room.tree()).items() if now is None}
    same("nothing of it is gone but the name of its file", gone, {"/etc/office/court.toml"})
    same("then nothing differs", room.setup("check").out, "0 differences\n")
    judge("the units of the other one are on", "office@city.service" in room.units())
    room.at("/etc/office/court.toml.removed").rename(room.at("/etc/office/court.toml"))
    done = room.setup("apply")
    judge("with its file it comes back", done.status == 0 and "a first password" not in done.out, done)
    judge_two(room)


def second(folder: pathlib.Path) -> None:
    """A second office gets a free port and a part of the site; the first one stays as it is."""
    with Room(folder) as room:
        room.made()
        file = room.at("/var/lib/office/city/office.db").read_bytes()
        # a port that another program has is none for an office
        with socket.create_server(("127.0.0.1", 8082)):
            done = room.setup("new", "court")
            judge("the site of the first is that of the second", done.status == 0
                  and room.text("/etc/office/court.toml").count("records.city.example") > 1, done)
            room.forget_calls()
            done = room.setup("apply", "court")
        judge("a second office is made", done.status == 0, done)
        judge("the first one is not restarted", not [line for line in room.called() if "@city" in line], room.called())
        same("nor its FILE touched", room.at("/var/lib/office/city/office.db").read_bytes(), file)
        judge_two(room)
        same("nothing differs", room.setup("check").out, "0 differences\n")
        room.put("/etc/office/court.toml", room.text("/etc/office/court.toml").replace("records.city.example", "other.example"))
        done = room.setup("check")
        judge("one machine has one site", done.status == 2 and "court.toml: site: other.example is not what" in done.error, done)
        room.put("/etc/office/court.toml", room.text("/etc/office/court.toml").replace("other.example", "records.city.example"))
        room.put("/etc/office/court.conf", room.text("/etc/office/court.conf").replace("8083", "8081"))
        done = room.setup("check")
        judge("two offices with one port are refused", done.status == 2 and "have one PORT, 8081" in done.error, done)
        room.put("/etc/office/court.conf", room.text("/etc/office/court.conf").replace("8081", "8083"))
        done = room.setup("list")
        judge("`list` has both", [line.split()[:6] for line in done.out.splitlines()[1:]] == [
            [name, port, *["active"] * 4] for name, port in (("city", "8081"), ("court", "8083"))], done)
        room.switch("office-all@court.target", "active", False)
        done = room.setup("list")
        judge("`list` shows that not all of an office is on", [line.split()[2] for line in done.out.splitlines()] == [
            "ALL", "active", "inactive"], done)
        room.switch("office-all@court.target", "active", True)
        judge_removed(room)
        room.setup("remove", "court")
        done = room.setup("remove", "city")
        judge("the last one is removed", done.status == 0 and not room.at("/etc/nginx/sites-enabled/office").is_symlink()
              and not room.at("/etc/nginx/modules-enabled/90-office.conf").is_symlink(), done)
        judge("and its FILE stays", room.at("/var/lib/office/city/office.db").is_file())


def lost(folder: pathlib.Path) -> None:
    """A FILE that is gone is not replaced by an empty office, nor a key by another one."""
    with Room(folder) as room:
        room.made()
        room.setup("new", "court")
        file, log = room.at("/var/lib/office/city/office.db"), room.at("/var/lib/office/city/office.db-wal")
        file.unlink()
        log.unlink(missing_ok=True)
        for path in ("/var/lib/office-backups/city/20260101T000000Z.db", "/var/lib/office-gate/city/facts.db",
                     "/var/log/office/city.journal", "/var/lib/office-seals/city/000001/seal.txt",
                     "/var/lib/office/city/office.db-wal", "/var/lib/office/city/office.db.before-20260101T000000Z"):
            there = room.at(path).exists()
            with_more(room, path)
            before = room.tree()
            done = room.setup("apply")
            judge(f"with {path} no office is made", done.status == 2 and "there is no /var/lib/office/city/office.db, but" in
                  done.error and "office-restore" in done.error, done)
            same(f"with {path} nothing is changed, of no office", changed(before, room.tree()), {})
            judge(f"with {path} `check` says it too", "office-restore" in room.setup("check").error, is_quiet=True)
            without_more(room, path, there)
        done = room.setup("apply", "city")
        judge("without a trace there was none, and one is made", done.status == 0 and file.is_file(), done)
        room.put("/var/lib/office-seals/city/000001/seal.txt", "SEAL 1\n")
        for end in ("", ".pub"):
            room.at(f"/etc/office/city.key{end}").unlink()
        done = room.setup("apply", "city")
        judge("no key is made where there are seals", done.status == 3 and "the key is lost" in done.error
              and not room.at("/etc/office/city.key").exists(), done)


def with_more(room: Room, path: str) -> None:
    """Leaves a trace of an office that was in use."""
    if path.endswith(".journal"):
        with open(room.at(path), "a", encoding="utf-8") as opened:
            opened.write("{}\n")
    else:
        room.put(path, "x")


def without_more(room: Room, path: str, was_there: bool) -> None:
    """Takes the trace away, with the folders that it needed."""
    if was_there:
        set_log(room.at(path), False)
    room.at(path).unlink()
    for parent in room.at(path).parents:
        if any(parent.iterdir()) or parent.parent.parent == room.at("/var"):
            break
        parent.rmdir()
