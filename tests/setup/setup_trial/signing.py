"""Sign-in by the city's own names: from the table [sign_in] to settings, secrets, gates, site and units, and back."""
from __future__ import annotations

import contextlib
import http.server
import json
import os
import pathlib
import re
import shutil
import threading
from collections.abc import Callable, Iterator
from typing import NamedTuple

from kit.commands import run
from kit.judging import judge, same
from kit.ports import free_port
from setup_trial.doctor import answering, journal_lines
from setup_trial.drift import applying, passed
from setup_trial.first import PASSWORD, changed
from setup_trial.room import SITE, SOURCES, STUB, Room, set_log

from office_common import errors  # noqa: E402  # the module of drifts says where it is

FOLDER, JOURNAL = "/etc/office-sign-in", "/var/log/office-sign-in/journal"
SETTINGS, SECRETS, OWN = f"{FOLDER}/settings.toml", f"{FOLDER}/secrets.json", f"{FOLDER}/city.access"
GATE, MAP, SITE_FILE = "/etc/office/city.access", "/etc/nginx/office/sign_in_site.map", "/etc/nginx/sites-available/office"
UNITS = {"office-sign-in.service", "office-sign-in-gates.path", "office-sign-in-mail.path"}
RESTART = "systemctl try-restart office-sign-in.service"
NAMES = """[sign_in.local]
keeper = { is = "registry", signs = "The keeper" }
[sign_in.programs]
intake = { is = "registry", in = ["BLDG*"], ends = 2099-12-31 }
"""
PERSON = "5f3c0d9e-8179-1041-9756-e5d9b69b7349@directory"
PEOPLE = {PERSON: {"name": "anna", "signs": "anna", "groups": [], "grants": {"city": ["records-manager"]}, "day": "2026-12-01"}}
WRONG = (
    ('url = "ldaps://directory.city.example"', 'url = "ldap://directory.city.example"', "sign_in.directory.url: everybody on the way"),
    ('people = "ou=people', 'persons = "ou=people', "sign_in.directory.people: it is missing"),
    ("[sign_in]\n", "[sign_in]\nidle = 5\n", "sign_in.idle: there is no such key here: there are realm, zone"),
    ("[sign_in]\n", '[sign_in]\nday-ends = "25:00"\n', "sign_in.day-ends: '25:00' is not a time of day"),
    ("[sign_in]\n", '[sign_in]\nzone = "Mars/Phobos"\n', "sign_in.zone: 'Mars/Phobos' is no time zone"),
    ('mail = "it@city.example"\n', "", "sign_in.mail: it is missing"),
    ('"Records Managers" = "records-manager"', '"Records Managers" = 5', "sign_in.groups.Records Managers.is: 5 is not a role"),
    ("ends = 2099-12-31", 'ends = "soon"', "sign_in.programs.intake.ends: it is no day such as 2027-12-31"),
    ("intake = {", "keeper = {", "sign_in.programs.keeper: a local name is called so"),
    ("intake = {", '"in@take" = {', "sign_in.programs.in@take: the name of a program"),
    ("keeper = {", '"*" = {', "sign_in.local.*: this is nobody's name"),
    ('signs = "The keeper"', 'signs = "A # B"', "sign_in.local.keeper.signs: 'A # B' is not the text"),
    ("keeper = {", 'monitor = {', "sign_in.local.monitor: this name belongs to a service"),
    ('{ is = "registry", signs', '{ is = "clerk", signs', "sign_in.local.keeper: no line says what the role 'clerk' may do"),
    ("[sign_in]\n", '[people]\nanna = "registry"\n[sign_in]\n', "people: people sign in by [sign_in]"),
    ('reader = "cn=', 'reader-password = "/none"\nreader = "cn=', "sign_in.directory.reader-password: /none is not there"),
)
"""what stands in the file, what is in its place, and what the message says after the name of the file"""


def declared(room: Room) -> None:
    """Writes the file of an office with [sign_in]."""
    done = room.setup("new", "city", "--site", SITE, "--sign-in", "directory")
    judge("`new` names the file of the secret", done.status == 0 and f"{FOLDER}/reader: write the secret" in done.out, done)
    room.change("/etc/office/city.toml", '#mail = "admin@records.city.example"', 'mail = "it@city.example"')
    room.change("/etc/office/city.toml", '"Records Registry" = ', "'the \"registry\"' = ")
    text = re.sub(r"#\[sign_in\.local\]\n(#.*\n)+", NAMES, room.text("/etc/office/city.toml"))
    room.put("/etc/office/city.toml", text)


def judge_made(room: Room) -> dict[str, str]:
    """A file with [sign_in] becomes all that office-sign-in needs. Returns the secrets that were shown."""
    declared(room)
    before = room.tree()
    done = room.setup("apply")
    judge("without the password of the reader nothing begins", done.status == 2 and done.error.startswith(
        f"office-setup: {room.at('/etc/office/city.toml')}: sign_in.directory.reader-password: {FOLDER}/reader"), done)
    same("and nothing is changed", changed(before, room.tree()), {})
    room.put(f"{FOLDER}/reader", "secret\n")
    done = room.setup("apply")
    judge("`apply` makes it", done.status == 0, done)
    shown = dict(PASSWORD.findall(done.out))
    same("whose secrets are shown", sorted(shown), ["intake", "keeper", "monitor"])
    texts = [path.read_bytes() for path in room.root.rglob("*") if path.is_file() and "etc" in path.parts]
    judge("no file has them", not any(word.encode() in text for word in shown.values() for text in texts))
    return shown


def judge_files(room: Room) -> None:
    """The settings, the gate and nginx are as the file says, each for whom it is for."""
    done = run(SOURCES / "signin/office-sign-in", "check", "--settings", room.at(SETTINGS))
    same("office-sign-in takes its settings", (done.status, done.out), (
        0, "people sign in by the directory; offices: city; groups with a role: 3; local names: 1; programs: 1\n"))
    own, gate = room.text(OWN).splitlines(), room.text(GATE).splitlines()
    for line in ("name keeper is registry", "name keeper signs The keeper", "name intake is registry in BLDG*",
                 "name monitor is monitor", f"site https://{SITE}", "rule sender-does-not-receive"):
        judge(f"the gate has: {line}", line in own and line in gate, own)
    judge("and nobody else", not [line for line in gate if re.match("name (registrar|manager|legal)", line)], gate)
    tree = room.tree()
    for path, (user, group, mode) in {
            FOLDER: ("root", "office-sign-in", 0o750), f"{FOLDER}/reader": ("root", "office-sign-in", 0o640),
            SETTINGS: ("root", "office-sign-in", 0o640), SECRETS: ("root", "root", 0o600), OWN: ("root", "root", 0o640),
            GATE: ("root", "office-gate", 0o640), JOURNAL: ("office-sign-in", "adm", 0o640)}.items():
        same(f"{path} is for whom it is for", (tree[path].user, tree[path].group, tree[path].mode), (room.uid(user), room.uid(group), mode))
    judge("the journal is only appended to", tree[JOURNAL].is_log)
    judge("nginx asks office-sign-in", "include /etc/nginx/office/sign_in.conf;" in room.text(SITE_FILE))
    same("at this site", room.text(MAP).splitlines()[1:], [f"{SITE} 1;"])
    judge("its units are on", room.units() & room.units("enabled") >= UNITS, room.units())
    room.forget_calls()
    same("a second `apply` changes nothing", room.setup("apply").out, "0 changes\n")
    same("and calls nothing", room.called(), [])


def judge_wrong(room: Room) -> None:
    """Each wrong key is named with its file, and nothing is changed."""
    text, before, file = room.text("/etc/office/city.toml"), room.tree(), room.at("/etc/office/city.toml")
    for old, new, message in WRONG:
        assert old in text, old
        room.put("/etc/office/city.toml", text.replace(old, new, 1))
        try:
            error = f"no error, but {passed(room, applying.check)}"
        except errors.Refused as refused:
            error = str(refused)
        judge(f"{message}: the message names the file", error.startswith(f"{file}: {message}"), error, is_quiet=True)
    room.put("/etc/office/city.toml", text)
    same("nothing is changed", changed(before, room.tree()), {})


def judge_people(room: Room) -> None:
    """Who signed in is in the settings of the gate, and is no difference there."""
    room.put("/var/lib/office-sign-in/people.json", json.dumps(PEOPLE))
    count, text = passed(room, applying.check)
    same("a gate that does not know somebody yet is named", (count, text), (1, f"{SETTINGS}: the gate of city has other settings"))
    same("and gets that person", passed(room, applying.apply)[0], 1)
    judge("by the stable id", f"name {PERSON} is records-manager\n" in room.text(GATE))
    judge("the gate reads it", "systemctl try-reload-or-restart office-gate@city.service" in room.called(), room.called())


class Drift(NamedTuple):
    """What is done past office-setup, and the path that `check` has to name."""

    do: Callable[[], object]
    named: str


def drifts(room: Room) -> list[list[Drift]]:
    """Returns lists of drifts; those of one list do not hide each other."""
    def append(path: str) -> Drift:
        return Drift(lambda: room.put(path, room.text(path) + "# drift\n"), path)

    def open_(path: str, mode: int = 0o644) -> Drift:
        return Drift(lambda: room.at(path).chmod(mode), path)
    return [[append(SETTINGS), append(OWN), open_(f"{FOLDER}/reader"), open_(SECRETS), open_(FOLDER, 0o755), open_(GATE),
             Drift(lambda: set_log(room.at(JOURNAL), False), JOURNAL),
             *(Drift(lambda unit=unit: room.switch(unit, "active", False), unit) for unit in sorted(UNITS))],
            [Drift(room.at(GATE).unlink, GATE), Drift(room.at(SETTINGS).unlink, SETTINGS), open_(OWN)]]


def judge_drift(room: Room) -> None:
    """Each drift is named, and mended."""
    for several in drifts(room):
        before, units = room.tree(), room.units()
        for drift in several:
            drift.do()
        _, text = passed(room, applying.check)
        for drift in several:
            judge(f"`check` names {drift.named}", drift.named in text, text, is_quiet=True)
        passed(room, applying.apply)
        different = {path for path in changed(before, room.tree()) if ".before-setup" not in path}
        same("after `apply` all is as before", (different, room.units()), (set(), units))


def judge_secrets(room: Room, shown: dict[str, str]) -> None:
    """A secret is made once; another one is asked for, and who is taken out loses it."""
    before = json.loads(room.text(SECRETS))
    for name, table in (("keeper", "local"), ("intake", "programs")):
        room.forget_calls()
        done = room.setup("password", "city", name)
        judge(f"{name} gets another secret", done.status == 0 and f"shown this once: {name} " in done.out
              and shown[name] not in done.out and json.loads(room.text(SECRETS))[table][name] != before[table][name], done)
        judge("and the service reads it", json.loads(room.text(SECRETS))[table][name] in room.text(SETTINGS)
              and RESTART in room.called(), room.called())
    done = room.setup("password", "city", "anna")
    judge("who is of the directory gets none", done.status == 2 and "sign_in: there is no local name and no program anna" in done.error, done)
    text = room.text("/etc/office/city.toml")
    room.put("/etc/office/city.toml", re.sub("intake = .*\n", "", text))
    done = room.setup("apply")
    judge("a program that is taken out loses its token", done.status == 0 and json.loads(room.text(SECRETS))["programs"] == {}
          and "intake" not in room.text(SETTINGS) + room.text(GATE), done)
    room.put("/etc/office/city.toml", text)
    done = room.setup("apply", "--after-upgrade")
    judge("an upgrade gives it none", done.status == 0 and f"left to you: {SECRETS}: intake has no token" in done.out
          and "shown this once" not in done.out and "intake" not in room.text(SETTINGS), done)
    judge("`apply` gives it another one", "shown this once: intake " in room.setup("apply").out)


def judge_back(room: Room) -> None:
    """If nginx refuses its files, sign-in and the gate go on with the settings of before."""
    room.change("/etc/office/city.toml", '"Legal Department" = "legal"\n', "")
    room.change("/etc/office/city.toml", "#vault = true", "vault = false")
    room.change("/etc/office/city.toml", '"The keeper"', '"The night"')
    before = room.tree()
    (room.folder / "refuses-nginx").write_text("nginx: [emerg] no\n")
    room.forget_calls()
    done = room.setup("apply")
    judge("nginx refuses", done.status == 2 and "[emerg] no" in done.error, done)
    same("the settings of before are back", {path for path in changed(before, room.tree()) if path.startswith((FOLDER, GATE))}, set())
    same("and are read again", room.called()[-2:], [RESTART, "systemctl try-reload-or-restart office-gate@city.service"])
    (room.folder / "refuses-nginx").unlink()
    judge("later they are made", room.setup("apply").status == 0 and "Legal" not in room.text(SETTINGS)
          and "signs The night" in room.text(GATE))


def judge_two(room: Room) -> None:
    """A second office signs in the same way, with roles of its own; what is removed leaves nothing."""
    before = room.tree()
    done = room.setup("new", "court")
    judge("`new` takes the directory of the first", done.status == 0 and "[sign_in.directory]" in room.text("/etc/office/court.toml"), done)
    room.change("/etc/office/court.toml", '#"Records Managers" = ', '"Judges" = ')
    done = room.setup("apply", "court")
    judge("it is made", done.status == 0 and '[roles.court]\nJudges = "records-manager"\n' in room.text(SETTINGS), done)
    judge("its gate has settings", room.text("/etc/office/court.access").startswith(room.text(f"{FOLDER}/court.access").removesuffix("end\n")))
    room.change("/etc/office/court.toml", 'url = "ldaps://directory', 'url = "ldaps://other')
    done = room.setup("check")
    judge("one machine has one directory", done.status == 2 and "court.toml: sign_in.directory: it is not what" in done.error, done)
    room.change("/etc/office/court.toml", 'url = "ldaps://other', 'url = "ldaps://directory')
    same("`remove` ends well", room.setup("remove", "court").status, 0)
    same("of sign-in it leaves nothing", {path for path in changed(before, room.tree()) if "sign-in" in path}, set())
    judge("and the units stay on", room.units() >= UNITS)
    room.at("/etc/office/court.toml.removed").unlink()


def judge_ended(room: Room) -> None:
    """Passwords take the place of the directory, and the last office leaves secrets and journal alone."""
    text = room.text("/etc/office/city.toml")
    room.put("/etc/office/city.toml", re.sub(r"\[sign_in\](.*\n)+?(?=# Rules)", '[people]\nanna = "registry"\n\n', text))
    done = room.setup("apply")
    judge("with [people] passwords are back", done.status == 0 and "shown this once: anna " in done.out
          and "sign_in.conf" not in room.text(SITE_FILE) and "name anna is registry" in room.text(GATE), done)
    same("nginx asks for them", room.text(MAP).splitlines()[1:], [])
    judge("sign-in is off", not (room.units() | room.units("enabled")) & UNITS, room.units())
    same("its settings are gone", [path for path in room.tree() if path.startswith(FOLDER) and ".before" not in path],
         [FOLDER, f"{FOLDER}/reader", SECRETS])
    same("nothing differs", passed(room, applying.check), (0, ""))
    room.put("/etc/office/city.toml", text)
    done = room.setup("apply")
    judge("and back, with the secrets of before", done.status == 0 and "shown this once" not in done.out
          and room.units() >= UNITS, done)
    same("the last office is removed", room.setup("remove", "city").status, 0)
    judge("with all of sign-in", not (room.units() | room.units("enabled")) & UNITS and not room.at(SETTINGS).exists()
          and not room.at(OWN).exists(), room.units())
    judge("what only the city has stays", room.at(SECRETS).is_file() and room.at(f"{FOLDER}/reader").is_file() and room.at(JOURNAL).is_file())


@contextlib.contextmanager
def provider(port: int) -> Iterator[None]:
    """Answers in the place of a provider what it states of itself."""
    issuer = f"http://127.0.0.1:{port}"

    class Answer(http.server.BaseHTTPRequestHandler):
        """The answer to each request."""

        def do_GET(self) -> None:
            data = json.dumps({"issuer": issuer, **{name: f"{issuer}/{name}" for name in (
                "authorization_endpoint", "token_endpoint", "jwks_uri")}}).encode()
            self.send_response(200)
            self.send_header("Content-Length", str(len(data)))
            self.end_headers()
            self.wfile.write(data)

        def log_message(self, *_: object) -> None:
            pass
    with http.server.ThreadingHTTPServer(("127.0.0.1", port), Answer) as server:
        threading.Thread(target=server.serve_forever, daemon=True).start()
        yield
        server.shutdown()


def wrong_of_sign_in(room: Room, port: int) -> list[str]:
    """Returns what `doctor` says of sign-in, without what is well."""
    lines = room.setup("doctor", "--port", port).out.splitlines()
    judge("doctor looks at sign-in", sum(" sign-in: " in line for line in lines) >= 5, lines, is_quiet=True)
    return [line.removeprefix("WRONG sign-in: ") for line in lines if line.startswith("WRONG sign-in: ")]


def judge_doctor(room: Room) -> None:
    """The form, the provider, tokens, the journal and the units."""
    issuer, port = free_port(), free_port()
    text = room.text("/etc/office/city.toml.removed")
    table = f'[sign_in.provider]\nissuer = "http://127.0.0.1:{issuer}"\nclient = "office"\nsecret = "{room.at(FOLDER)}/client"\n\n'
    room.put("/etc/office/city.toml", re.sub(r"\[sign_in\.directory\]\n(.+\n)+\n", table, text))
    # the file is below the root twice, since office-sign-in knows of none
    room.put(str(room.at(FOLDER) / "client"), "secret\n")
    secret = room.put(f"{FOLDER}/client", "secret\n")
    secret.chmod(0o644)
    done = room.setup("apply")
    judge("by a provider: `apply` makes it", done.status == 0 and "[provider]" in room.text(SETTINGS), done)
    set_log(room.at(JOURNAL), False)
    room.put(JOURNAL, journal_lines())
    set_log(room.at(JOURNAL), True)
    with answering(room, port, 502), provider(issuer):
        same("a form that fails", wrong_of_sign_in(room, port), ["the form answers 502"])
    with answering(room, port, 200), provider(issuer):
        same("all is well", wrong_of_sign_in(room, port), [])
        room.change("/etc/office/city.toml", "ends = 2099-12-31", "ends = 2026-01-31")
        passed(room, applying.apply)
        set_log(room.at(JOURNAL), False)
        (room.folder / "failed").write_text("office-sign-in.service loaded failed failed x\n")
        same("a token that ended, a journal that can be rewritten, and a unit that failed", wrong_of_sign_in(room, port), [
            "the token of intake ended on 2026-01-31", "the journal can be rewritten: journal", "failed: office-sign-in.service"])
        set_log(room.at(JOURNAL), True)
    wrong = wrong_of_sign_in(room, port)
    judge("neither the site nor the provider answers", wrong[0].startswith("the form does not answer: ")
          and wrong[1].startswith("nobody signs in: the provider does not answer: "), wrong)


def signing(folder: pathlib.Path) -> None:
    """One office, whose people sign in by a directory."""
    with Room(folder) as room:
        shown = judge_made(room)
        judge_files(room)
        os.environ.update(room.variables())
        judge_wrong(room)
        # the gate took the settings just now
        shutil.copy(STUB, room.commands / "office-gate")
        judge_people(room)
        judge_drift(room)
        judge_secrets(room, shown)


def signed(folder: pathlib.Path) -> None:
    """One office, then two, whose people sign in by a directory, then by passwords, then by a provider."""
    with Room(folder) as room:
        os.environ.update(room.variables())
        shutil.copy(STUB, room.commands / "office-gate")
        declared(room)
        room.put(f"{FOLDER}/reader", "secret\n")
        passed(room, applying.apply)
        judge_back(room)
        judge_two(room)
        judge_ended(room)
        judge_doctor(room)
