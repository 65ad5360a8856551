"""The office city from a fresh Debian on: made by the page, used, cut off, joined by another one, upgraded, removed."""
from __future__ import annotations

from kit.days import today
from kit.judging import judge, same
from setup_trial.by_page import judge_page, plan
from setup_trial.city import City

NO_RIGHT = {"acts": '{"act":"add-schedule","error":"right","place":0} 403',
            "content": '{"error":"right","read":"contents"} 403'}
ALL, SLOW = "office-all@city.target", "/run/systemd/system/office-compact-file@city.service.d"
ON = "systemctl list-units --plain --no-legend --state=active '*@city.*' | cut -d' ' -f1"
BUSY = ON.replace("=active", "=active,activating,reloading,deactivating")
"""the units of the office that are on, and with those that only just begin or stop"""
QUIET = f'[ -z "$({BUSY})" ]'
COMPACTS = "[ $(systemctl show -P ActiveState office-compact-file@city) = activating ]"


def until(event: str) -> str:
    """Returns a command that waits for an event, for two minutes at most."""
    return f"for step in $(seq 600); do if {event}; then break; fi; sleep 0.2; done; {event}"


def judge_made(city: City) -> None:
    """Once it is made, nothing differs, and copies and seals come without a fault."""
    city.judge_same("made")
    done = city.run("systemctl start office-backup@city office-catalogue@city office-certificates@city; office-setup doctor")
    wrong = sorted(line for line in done.out.splitlines() if line.startswith("WRONG"))
    others = [line for line in wrong if "on the disk of the office" not in line and "keeps the clock right" not in line]
    judge("`doctor` finds copies on one disk, perhaps a clock that nobody keeps, and nothing else", wrong and not others, done)


def judge_roles(city: City) -> None:
    """Nobody does what is another role's, by HTTPS."""
    judge("without a name nobody gets in", city.ask("", "/city/records/1").endswith(" 401"))
    same("the registrar makes no plan", city.ask("registrar", "/city/acts", plan(today())[:1]), NO_RIGHT["acts"])
    judge("the auditor reads the record", city.ask("auditor", "/city/records/1").endswith(" 200"))
    same("but not its content", city.ask("auditor", "/city/records/1/content"), NO_RIGHT["content"])
    judge("there is a vault", city.ask("registrar", "/city/vault/limits").endswith(" 200"))
    judge("and a page", city.ask("registrar", "/city/web/").endswith(" 200"))


def judge_power_cut(city: City) -> None:
    """What was answered is there after a power cut, and so is all that was set up."""
    city.boot.lose()
    city.start()
    city.judge_same("after a power cut")
    judge("the record is there", city.ask("registrar", "/city/records/1").endswith(" 200"))
    done = city.run("curl --silent --max-time 5 http://127.0.0.1:8081/records/1")
    judge("root does not reach the port", done.status == 7, done)


def judge_court(city: City) -> None:
    """A second office is one more file."""
    done = city.run("office-setup new court")
    judge("a file for a second office", done.status == 0, done)
    judge("`apply` makes it", city.run("office-setup apply").status == 0)
    city.judge_same("two offices")
    judge("both answer", [city.ask("auditor", f"/{name}/due/2020-01-01") for name in ("city", "court")] == ["[] 200"] * 2)
    judge("the second is empty", city.ask("auditor", "/court/records/1").endswith(" 404"))


def judge_all_units(city: City) -> None:
    """One command stops all units of an office, with a compaction under way, and one starts them; the other goes on."""
    before = city.run(ON).out.split()
    judge("many units of the office are on", len(before) > 10 and ALL in before, before)
    city.put("root/slow.conf", "[Service]\nExecStartPre=/bin/sleep 600\n")
    done = city.run(f"mkdir -p {SLOW} && cp slow.conf {SLOW} && systemctl daemon-reload && "
                    f"systemctl start --no-block office-compact@city && {until(COMPACTS)}")
    judge("a compaction is under way", done.status == 0, done)
    done = city.run(f"systemctl stop {ALL}; {until(QUIET)}; {BUSY}")
    same("`stop` leaves no unit of the office on", done.out, "")
    done = city.run("systemctl is-active office@court.service office-gate@court.socket office-all@court.target")
    same("those of the other one are on", done.out, "active\n" * 3)
    city.run(f"rm -r {SLOW} && systemctl daemon-reload && systemctl reset-failed 'office*'; systemctl start {ALL}")
    same("`start` starts what was on", city.run(ON).out.split(), before)
    judge("it answers after the start", city.ask("registrar", "/city/records/1").endswith(" 200"))
    city.judge_same("stopped and started")
    done = city.run(f"rm /etc/systemd/system/{ALL}.wants/office-backup@city.timer && systemctl daemon-reload; office-setup apply")
    same("a unit that the target does not start is made a part of it", done.out,
         f"{ALL}: does not start each unit of the office\n1 changes\n")
    city.judge_same("whole again")


def judge_upgrade(city: City) -> None:
    """An upgrade copies each office, and renews the guards."""
    before = city.run("ls /var/lib/office-backups/*/ | grep -c Z.db").out
    done = city.run("dpkg -i /root/later.deb")
    copies = city.run("ls /var/lib/office-backups/*/ | grep -c Z.db").out
    judge("an upgrade copies each office first", done.status == 0 and int(copies) == int(before) + 2, (before, copies, done))
    done = city.run("cat /etc/nginx/office/http.conf /etc/nginx/sites-available/office | grep -c '^# of 1000.0.0$'")
    same("the new guards are there", done.out, "2\n")
    city.judge_same("upgraded")
    judge("it answers", city.ask("registrar", "/city/records/1").endswith(" 200"))


def judge_removal(city: City) -> None:
    """Without the package nginx starts; with it all comes back."""
    done = city.run("dpkg --remove office && nginx -t && systemctl restart nginx && systemctl is-active nginx")
    judge("without the package nginx starts", done.status == 0 and done.out.endswith("active\n"), done)
    done = city.run("dpkg -i /root/later.deb")
    judge("installed again, it puts the site back, and starts nothing", done.status == 0
          and "left to you: office@city.service" in done.out, done)
    judge("`apply` starts it", city.run("office-setup apply").status == 0)
    city.judge_same("installed again")
    judge("it answers again", city.ask("registrar", "/city/records/1").endswith(" 200"))
    done = city.run("office-setup remove court")
    judge("one office is removed", done.status == 0 and "/var/lib/office/court: stays" in done.out, done)
    judge("the other one answers", city.ask("registrar", "/city/records/1").endswith(" 200")
          and city.ask("registrar", "/court/records/1").endswith(" 404"))
    city.judge_same("one office removed")


def judge_all(city: City) -> None:
    """All of it, in this order."""
    for part in (judge_page, judge_made, judge_roles, judge_power_cut, judge_court, judge_all_units, judge_upgrade, judge_removal):
        part(city)
