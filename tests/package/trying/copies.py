"""Files of the package of which an administrator has copies in /etc: after an upgrade each old one is named."""
import pathlib
import subprocess

from making import copies
from making.words import TOP
from kit.judging import judge
from trying.machine import Machine

RELEASE = "cf40ed1f"
"""a commit whose files an administrator copied by the pages of then"""
# where a file was in that commit, and where its pages put it
COPIED = {"nginx/http.conf": "/etc/nginx/office/http.conf", "nginx/server.conf": "/etc/nginx/office/server.conf",
          "nginx/limits.conf": "/etc/nginx/modules-enabled/90-office.conf", "nginx/office.nft": "/etc/office.nft",
          "nginx/office-acts": "/etc/logrotate.d/office-acts", "nginx/offices.conf": "/etc/nginx/sites-available/office"}
SITE = "/etc/nginx/sites-available/office"
SAME = "/etc/nginx/modules-enabled/90-office.conf"
"""a file that did not change since"""


def older(name: str) -> str:
    return subprocess.run(["git", "-C", TOP, "show", f"{RELEASE}:examples/{name}"], check=True, capture_output=True,
                          text=True).stdout


def put_older(machine: Machine) -> None:
    """Copies the files of the earlier release, as its pages say: with the name of the machine in the site."""
    for name, place in COPIED.items():
        path = machine.path(place)
        path.parent.mkdir(parents=True, exist_ok=True)
        path.write_text(older(name).replace("localhost", "records.city.example") if place == SITE else older(name))


def named(out: str) -> dict[str, str]:
    """Returns what was said of each file."""
    lines = [line.removeprefix("office: ").split(" ") for line in out.splitlines()]
    return {words[1].rstrip(":"): words[0] for words in lines if words[0] in ("old", "changed", "missing")}


def judge_named(what: str, out: str) -> None:
    seen = named(out)
    wanted = {place: "old" for place in COPIED.values() if place != SAME}
    judge(f"{what}: each copy of an earlier version is named, and none that did not change",
          {place: word for place, word in seen.items() if word == "old"} == wanted, out)
    missing = {place for place, word in seen.items() if word == "missing"}
    judge(f"{what}: so is what the new ones include", {"/etc/nginx/office/vaults.conf", "/etc/nginx/office/pam.conf"}
          <= missing, out)


def judge_replaced(machine: Machine) -> None:
    """The commands of the lines are run; then nothing is old, and what somebody changes is named as that."""
    done = machine.run("office-copies --brief")
    judge("--brief has a word and a place", done.status == 1 and "old /etc/office.nft\n" in done.out and "cp " not in done.out,
          done)
    # the files that the lines of the first call name may include others
    done = machine.run("for n in 1 2; do office-copies | grep -o 'cp /usr/share/.*' >/tmp/commands; sh -e /tmp/commands; done; "
                       "office-copies; echo $?")
    judge("after the commands of its lines nothing is old or missing", done.out.endswith("0\n") and not named(done.out), done)
    done = machine.run("sed -i 's/days_ahead 1/days_ahead 2/' /etc/nginx/office/http.conf; "
                       "sed -i 's/localhost/records.city.example/' /etc/nginx/sites-available/office; office-copies; echo $?")
    judge("a change is named, the name of the machine is none", named(done.out) == {"/etc/nginx/office/http.conf": "changed"}
          and done.out.endswith("0\n") and "diff /usr/share/office/nginx/http.conf" in done.out, done)
    done = machine.run("""sed -i 's/, "office-yearend" }/, "office-yearend", "office-gate" }/' /etc/office.nft; office-copies""")
    judge("nor is what ACCESS.md puts into the rules", "/etc/office.nft" not in done.out, done)


def judge_list(top: pathlib.Path) -> None:
    """The list that the package has names each file of which the pages have copies made."""
    lines = (top / "usr/share/office/copies").read_text().splitlines()
    judge("the package has the list of all versions", len(lines) > 15 and lines == copies.text().splitlines(), lines)
    places = {line.split()[1] for line in lines}
    own = {"actors.conf", "vaults.conf", "gate_tokens.conf"}
    nginx = {it.name for it in (TOP / "deploy/nginx").glob("*.conf")} - own
    listed = {line.split()[0].split("/")[-1] for line in lines}
    judge("with each file of nginx but those that a city fills", nginx <= listed, sorted(nginx - listed))
    judge("and rules and rotations", {"/etc/office-gate.nft", "/etc/logrotate.d/office-journal"} <= places, sorted(places))
