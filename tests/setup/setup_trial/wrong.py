"""Files of offices with one thing wrong: the message names the file and the key, and nothing is changed."""
from __future__ import annotations

import pathlib

from kit.judging import judge, same
from setup_trial.first import changed
from setup_trial.room import SITE, Room

TOP = f'site = "{SITE}"\nzone = "Europe/Berlin"\n'
PEOPLE = '[people]\nanna = "registry"\n'
LINES = (
    ("site = 5", PEOPLE, "site: 5 is not the name of this machine"),
    ('site = "two words"', PEOPLE, "site: 'two words' is not the name"),
    ('site = "a; evil"', PEOPLE, "site: 'a; evil' is not the name"),
    ("", PEOPLE, "site: it is missing"),
    (TOP + 'key = "/k"', PEOPLE, "certificate: it is missing"),
    (TOP + 'certificate = "/c"', PEOPLE, "key: it is missing"),
    (TOP + 'certificate = "c"\nkey = "/k"', PEOPLE, "certificate: 'c' is not the path of a file"),
    (TOP + 'certificate = "/none"\nkey = "/none"', PEOPLE, "certificate: there is no file /none"),
    (TOP + 'default-server = "no"', PEOPLE, "default-server: 'no' is neither true nor false"),
    (TOP + 'title = ""', PEOPLE, "title: '' is not a text of one line"),
    (TOP + 'title = "a\\nb"', PEOPLE, "title: 'a\nb' is not a text of one line"),
    (TOP + 'colour = "red"', PEOPLE, "colour: 'red' is not a colour of six digits"),
    (TOP + "vault = 1", PEOPLE, "vault: 1 is neither true nor false"),
    (TOP + 'seals = "yes"', PEOPLE, "seals: 'yes' is neither true nor false"),
    (TOP + "yearend = []", PEOPLE, "yearend: [] is neither true nor false"),
    (TOP + "port = 8085", PEOPLE, "port: there is no such key here: there are"),
    (TOP + 'colour = "#11223"', PEOPLE, "colour: '#11223' is not"),
    (TOP, "people = 5", "people: 5 is no table: write [people]"),
    (TOP, "", "people: it is missing, and there is no /etc/office/city.access"),
    (TOP, "[rules]\nx = true", "people: it is missing: without it the office has settings of its own"),
    (TOP, "[people]\nanna = 5", "people.anna: 5 is no role, no list of roles, and no table"),
    (TOP, "[people]\nanna = []", "people.anna.is: it is missing"),
    (TOP, '[people]\nanna = ["registry", 5]', "people.anna.is: 5 is not a role"),
    (TOP, '[people]\n"an na" = "registry"', "people.an na: a name has no space"),
    (TOP, '[people]\n"an:na" = "registry"', "people.an:na: a name has no space, colon"),
    (TOP, '[people]\nmonitor = "registry"', "people.monitor: this name belongs to a service"),
    (TOP, '[people]\nanna = { signs = "A" }', "people.anna.is: it is missing"),
    (TOP, '[people]\nanna = { is = "registry", on = true }', "people.anna.on: there is no such key here: there are is, in, signs"),
    (TOP, '[people]\nanna = { is = "registry", signs = "A # B" }', "people.anna.signs: 'A # B' is not the text"),
    (TOP, '[people]\nanna = [{ is = "registry", signs = "A" }, { is = "legal", signs = "B" }]', "people.anna: it signs with one text"),
    (TOP, '[people]\nanna = { is = "registry", in = 5 }', "people.anna.in: 5 is not the code of a class"),
    (TOP, PEOPLE + "[rules]\nchanger-does-not-open = 1.5", "rules.changer-does-not-open: 1.5 is not true, false"),
    (TOP, PEOPLE + "[limits]\nrequests = -1", "limits.requests: -1 is no number from 0"),
    (TOP, PEOPLE + "[limits]\nreadings = 1", "limits.readings: 1 is neither true nor false"),
    (TOP, PEOPLE + "[limits]\nfiles = 1", "limits.files: there is no such key here"),
    (TOP, PEOPLE + "[backup]\ndays = 0", "backup.days: 0 is no number from 1"),
    (TOP, PEOPLE + "[backup]\ncopies = true", "backup.copies: true is no number from 1"),
    (TOP, PEOPLE + "[backup]\nbefore = 3", "backup.before: there is no such key here"),
    (TOP, PEOPLE + '[service]\ndisk = "ssd"', "service.disk: 'ssd' is not any or powersafe"),
    (TOP, PEOPLE + "[service]\nconfirm-days = 3651", "service.confirm-days: 3651 is no number from 0 to 3650"),
    (TOP, PEOPLE + "[service]\nstop-seconds = 601", "service.stop-seconds: 601 is no number from 1 to 600"),
    (TOP, PEOPLE + '[mail]\nmorning = ["a@b", "c"]', "mail.morning: 'c' is not an address"),
    (TOP, PEOPLE + '[mail]\nfailed = "a@b`x`"', "mail.failed: 'a@b`x`' is not an address"),
    (TOP + 'settings = ["role x may # all"]', PEOPLE, "settings: 'role x may # all' is not a line"),
)
"""what is above the tables, the tables, and what the message says after the name of the file"""
OF_GATE = (
    (f'site = "{SITE}"\nzone = "Mars/Phobos"\n', PEOPLE, "zone: 'Mars/Phobos' is no time zone"),
    (TOP, '[people]\nanna = "clerk"', "people.anna: no line says what the role 'clerk' may do"),
    (TOP, '[people]\n"ann/a" = "registry"', "people.ann/a: 'ann/a' is no name"),
    (TOP, '[people]\nanna = { is = "department", in = "a b" }', "people.anna.in: 'a b' is not the code"),
    (TOP, '[people]\nanna = { is = "department", in = "*X" }', "people.anna: '*X' is no code of a class"),
    (TOP, '[people]\nanna = { is = "registry", signs = "A" }\nbert = { is = "legal", signs = "xА" }',
     "people.bert.signs: 'xА' has letters of"),
    (TOP, PEOPLE + "[rules]\nno-such-rule = true", "rules.no-such-rule: the rules are"),
    (TOP, PEOPLE + "[rules]\nchanger-does-not-open = 9999", "rules.changer-does-not-open: '9999' is no number from 1 to 3650"),
    (TOP, PEOPLE + '[rules]\nreason-for = ["no-act"]', "rules.reason-for: there is no kind of act 'no-act'"),
    (TOP, PEOPLE + "[limits]\nrequests = 0", "limits.requests: '0' is no number from 1 to 1000"),
    (TOP + 'settings = ["role clerk might add-record"]', PEOPLE, "settings: write: role ROLE may"),
    (TOP + 'settings = ["begin"]', PEOPLE, "settings: 'begin' stands above all other statements"),
    (TOP + 'settings = ["end"]', PEOPLE, "settings: no statement stands below 'end'"),
)
"""the same, where the gate refuses what is no form of ours"""


def wrong(folder: pathlib.Path) -> None:
    """Each wrong key ends `check` and `apply` with status 2 and a line that names file and key."""
    with Room(folder) as room:
        file = room.at("/etc/office/city.toml")
        for top, tables, message in LINES + OF_GATE:
            file.write_text(f"{top}\n{tables}\n")
            before = room.tree()
            done = room.setup("check")
            judge(f"{message}: is said with the file", done.status == 2 and done.error.startswith(
                f"office-setup: {file}: {message}") and done.out == "", done, is_quiet=True)
            same(f"{message}: nothing is changed", changed(before, room.tree()), {})
        judge("each key was tried", len(LINES + OF_GATE) > 50, len(LINES + OF_GATE), always=True)
        file.write_text("site = [\n")
        done = room.setup("apply")
        judge("no TOML", done.status == 2 and done.error.startswith(f"office-setup: {file}: "), done)
        file.write_bytes(b'site = "\xff"\n')
        judge("no UTF-8", room.setup("apply").status == 2)
        file.write_text(f"{TOP}\n{PEOPLE}")
        same("the file is right without these", room.setup("check").status, 1)
        room.put("/etc/office/Big City.toml", TOP)
        done = room.setup("check")
        judge("a name with a space", done.status == 2 and "Big City.toml: the name of an office has small letters" in done.error,
              done)
        room.at("/etc/office/Big City.toml").unlink()
        for name in ("City", "-x", "a b", "../x", "", "a" * 33):
            judge(f"`new` takes no name {name!r}", room.setup("new", "--", name).status == 2, is_quiet=True)
        done = room.setup("new", "court", "--site", 'x" evil')
        judge("`new` takes no wrong site", done.status == 2 and "court.toml: site:" in done.error
              and not room.at("/etc/office/court.toml").exists(), done)
        judge("nor an unknown word", room.setup("mend").status == 2 and room.setup("check", "nobody").status == 2)
