"""The journal of acts: who did which act, that nothing hides one, and that no content is in it."""
import base64
import datetime
import json
import pathlib
import stat
import time

from kit.judging import judge, same
from kit.waiting import comes
from trial import place
from kit.judging import absent
from trial.place import HERE, JOURNAL, ask, post, run

SECRET = b"the secret of the content"
HOLD = {"act": "place-hold", "day": "2025-01-02", "code": "Q-1", "reason": "a \"claim\" of Müller", "by": "Another"}
EVENT = {"act": "event", "day": "2025-01-02", "record": 1, "occurred": "2024-12-31", "by": "lessee"}
LIFT = {"act": "lift-hold", "day": "2025-01-02", "hold": "Q-1"}
RECORD = {"act": "add-record", "day": "2025-01-02", "ref": "r1", "title": "t", "originated": "2025-01-01",
          "aggregation": 1, "content": base64.b64encode(SECRET).decode()}


def lines() -> list[dict[str, object]]:
    return [json.loads(line) for line in JOURNAL.read_text().splitlines()]


def added(count: int, before: int) -> list[dict[str, object]]:
    """The lines since then; a line is written after its answer."""
    comes(lambda: len(lines()) >= before + count, 60)
    return lines()[before:]


def sent(path: str, acts: object, name: str = "registrar") -> tuple[place.Answer, dict[str, object]]:
    """The answer to a request and the one line that it makes."""
    before = len(lines())
    answer = post(path, acts, name)
    new = added(1, before)
    same("a request makes one line", len(new), 1)
    return answer, new[0]


def one(path: str, acts: object, name: str = "registrar") -> dict[str, object]:
    """The one line that a request makes."""
    return sent(path, acts, name)[1]


def whole(folder: str) -> None:
    line = one(f"{folder}acts", [HOLD, LIFT])
    same("the journal names who logged in, not who is named in `by`", line["name"], "registrar")
    same("it has the acts", line["acts"], [HOLD, LIFT])
    same("and place and status", (line["path"], line["status"], line["from"]), (f"{folder}acts", 200, "127.0.0.1"))
    line = one(f"{folder}run/resume", b"")
    seen = line["name"], line["path"], line["status"], line["acts"]
    same("to resume a run is a line", seen, ("registrar", f"{folder}run/resume", 409, ""))


def long_list(folder: str, port: int) -> None:
    """A list of acts as long as nginx lets it be. (What takes it is no office, which would need long for so many.)"""
    acts = [{"act": "confirm", "day": "2025-01-02", "record": number, "action": "destroy", "by": "x"}
            for number in range(1, 11_701)]
    size = len(json.dumps(acts))
    with place.StandIn(port, b"[]"):
        line = one(f"{folder}acts", acts)
    same(f"a list of {size} bytes is in the journal as a whole", (line["acts"], line["status"]), (acts, 200))


def lift(code: str, **more: object) -> dict[str, object]:
    return {"act": "lift-hold", "day": "2025-01-02", "hold": code, **more}


def escaped(text: str, word: str) -> str:
    """A body with one letter of a word written as \\u and its number."""
    return text.replace(word, f"{word[0]}\\u{ord(word[1]):04x}{word[2:]}")


def lifts(folder: str) -> None:
    """A hold is lifted by a list of each form. `grep lift-hold` finds each, with its code and whoever did it."""
    codes = [f"L-{number}" for number in range(9)]
    same("holds are placed", sent(f"{folder}acts", [{**HOLD, "code": code} for code in codes])[0].status, 200)
    filed = [{"act": "add-schedule", "day": "2025-01-02", "code": "D", "trigger": "added", "unit": "days", "count": 1,
              "offset": "none", "action": "destroy"},
             {"act": "add-class", "day": "2025-01-02", "code": "C", "title": "C", "schedule": "D"},
             {"act": "add-aggregation", "day": "2025-01-02", "ref": "a", "title": "A", "class": "C"}, RECORD]
    same("a record is filed", sent(f"{folder}acts", filed)[0].status, 200)
    confirm = {"act": "confirm", "day": "2025-01-02", "record": 1, "action": "destroy", "by": "x"}
    bodies = {
        "an escaped hyphen": json.dumps([lift(codes[0])]).replace("lift-hold", "lift\\u002dhold"),
        "an escaped letter, beside a confirmation": escaped(json.dumps([confirm, lift(codes[1])]), "lift-hold"),
        "1,400 spaces": json.dumps([lift(codes[2])]).replace('"lift-hold"', '"lift-hold"' + " " * 1400),
        "beside a record that is there": json.dumps([RECORD, lift(codes[3])]),
        "an escaped name of a member": escaped(json.dumps([lift(codes[4])]), "act"),
        "a member that is there twice": json.dumps([lift(codes[5])]).replace('"act"', '"act": "confirm", "act"'),
        "an escaped code": escaped(json.dumps([lift(codes[6])]), codes[6]),
        "beside a long content": json.dumps([{**RECORD, "content": "QUJD" * 2_000}, lift(codes[7])]),
        "100,000 line ends": json.dumps([lift(codes[8])]) + "\n" * 100_000,
    }
    for (name, body), code in zip(bodies.items(), codes, strict=True):
        line = one(f"{folder}acts", body.encode())
        seen = run(f"grep lift-hold {JOURNAL} | grep -F {code}").stdout
        found = line["status"] in (200, 409) and seen.count("\n") == 1 and '"name":"registrar"' in seen
        judge(f"{name}: grep lift-hold finds it, with its code and its name", found, f"{line}"[:300])
        judge(f"{name}: the line has the act", lift(code) in list(line["acts"]), f"{line}"[:300])


def shown(folder: str) -> None:
    """A terminal shows each line as it is: what would change that is written as an escape."""
    marks = "\u200e\u202e\u2028\u2069"
    line = one(f"{folder}acts", [{**HOLD, "code": "S-1", "reason": f"a{marks}b"}])
    same("marks of direction in a reason", (line["status"], line["acts"][0]["reason"]), (200, f"a{marks}b"))
    line = one(f"{folder}acts", [{**HOLD, "day": "2999-12-31", "code": "S-2", "reason": "\x9b31m\x85"}])
    same("controls in a request that is not passed on", (line["status"], line["acts"][0]["reason"]), (403, "\x9b31m\x85"))
    judge("none of them is there as it is", not set(JOURNAL.read_text()) & set(marks + "\x9b\x85"))


def hidden(folder: str) -> None:
    """A body in chunks whose sizes take more than a megabyte would not be in memory, so it is not passed on."""
    run("chown www-data /var/lib/nginx/body")
    body = json.dumps([lift("Q-1")]).encode()
    before = len(lines())
    conn = place.connection("127.0.0.1", 60)
    conn.putrequest("POST", f"{folder}acts")
    for name, value in {**place.authorization(), **HERE, "Transfer-Encoding": "chunked"}.items():
        conn.putheader(name, value)
    conn.endheaders()
    for at in range(len(body)):
        conn.send(b"1;" + b"x" * 3000 * 8 + b"\r\n" + body[at:at + 1] + b"\r\n")
    conn.send(b"0\r\n\r\n")
    status = conn.getresponse().status
    seen = [(it["status"], it["acts"]) for it in added(1, before)]
    same("what nginx cannot read is not passed on, and is a line", (status, seen), (413, [(413, "not read: too long")]))
    run("chown root /var/lib/nginx/body")


def day_after(days: int) -> str:
    return (datetime.datetime.now(datetime.timezone.utc).date() + datetime.timedelta(days)).isoformat()


def late(folder: str) -> None:
    """An act whose day is after tomorrow is refused, however it is written, and no act of its list is done."""
    path = f"{folder}acts"
    there = {**HOLD, "code": "T-1"}
    before = len(lines())
    tomorrow = post(path, [{**lift("none"), "day": day_after(1)}]).body
    same("an act of tomorrow is passed on", tomorrow, b'[{"refused":5}]')
    added(1, before)
    for name, body in {
        "the day after tomorrow": json.dumps([there, {**there, "day": day_after(2)}]),
        "the last day of all": json.dumps([there, lift("none", day="2999-12-31")]),
        "a day that is there twice": json.dumps([there, lift("none")])[:-2] + ',"day":"2999-12-31"}]',
        "an escaped name": escaped(json.dumps([there, lift("none")])[:-2] + ',"day":"2999-12-31"}]', "day"),
    }.items():
        before = len(lines())
        answer = post(path, body.encode())
        same(f"{name}: refused", (answer.status, answer.body), (403, b'{"error":"future","place":1}'))
        same(f"{name}: and a line", (added(1, before)[0]["status"], len(lines())), (403, before + 1))
    same("no act of these lists was done", sent(path, [there])[0].body, b'[{"done":true}]')
    same("a day that is none is left to the office", sent(path, [lift("none", day="9999")])[0].body,
         b'{"error":"act","place":0,"refused":2}')


def left_out(folder: str) -> None:
    spelled = json.dumps([RECORD]).replace("add-record", "add\\u002drecord").replace('"content"', '"\\u0063ontent"')
    short = {**RECORD, "content": {"bytes": len(SECRET)}}
    for name, acts, wanted in (
        ("contents alone", [RECORD], [short]),
        ("contents and a hold", [RECORD, LIFT], [short, LIFT]),
        ("contents and an event", [RECORD, EVENT], [short, EVENT]),
        ("contents, in escaped letters", spelled.encode(), [short]),
        ("acts that do not read", [RECORD, {"act": "open-run"}, {"act": "reclassify"}], "left out: nothing was done"),
        ("an act by a wrong name", [{**RECORD, "act": "add_record"}], "left out: nothing was done"),
        ("no JSON", b"content " + SECRET, f"no list, bytes: {8 + len(SECRET)}"),
        ("no list", {"content": SECRET.decode()}, f"no list, bytes: {15 + len(SECRET)}"),
        ("nothing", b"", "no list, bytes: 0"),
    ):
        same(f"{name}: the line has that", one(f"{folder}acts", acts)["acts"], wanted)
    none = sent(f"{folder}acts", b"{}")[0]
    same("what is no list of acts is 400, as by the office", (none.status, none.body), (400, b'{"error":"json"}'))
    long = base64.b64encode(SECRET * 100).decode()
    body = json.dumps([{**RECORD, "ref": "r2", "content": long}]).encode()
    chunks = [body[at:at + 100] for at in range(0, 10_000, 100)]
    before = len(lines())
    chunked = ask("POST", f"{folder}acts", (chunk for chunk in chunks if chunk), fields=HERE)
    same("a content in chunks is passed on", (chunked.status, chunked.body[:10]), (200, b'[{"number"'))
    added(1, before)
    logs = JOURNAL.read_text() + run("cat /var/log/nginx/*").stdout
    absent("no content is in a log", logs, [SECRET.decode(), str(RECORD["content"]), long[:60]])


def positions(folder: str, port: int) -> None:
    """Behind a member a line has the position in the log and the key of the request, so one act tried twice is seen."""
    with place.StandIn(port, b"[]", more=b"Office-Position: 17\r\n"):
        before = len(lines())
        ask("POST", f"{folder}acts", b"[]", fields={**HERE, "Idempotency-Key": 'k-"1'})
        line = added(1, before)[0]
    same("a line has position and key", (line.get("position"), line.get("key"), line["acts"]), ("17", 'k-"1', []))


def not_passed_on(folder: str) -> None:
    # a line of an earlier request may still come
    before = -1
    while before != len(lines()):
        before = len(lines())
        time.sleep(1)
    same("a wrong password", post(f"{folder}acts", [HOLD], password="wrong").status, 401)
    same("no password", post(f"{folder}acts", [HOLD], None).status, 401)
    same("from elsewhere", ask("POST", f"{folder}acts", b"[]", fields={"Origin": "https://evil.example"}).status, 403)
    same("one who may only read", post(f"{folder}acts", [HOLD], "reader").status, 403)
    same("and a GET", ask("GET", f"{folder}due/2025-01-01").status, 200)
    # the line of a request that came later
    one(f"{folder}acts", [])
    same("make no line", len(lines()), before + 1)


def fails(folder: str, office: place.Office) -> None:
    """An office that is not there: the act is perhaps done, so the line has it."""
    office.end()
    line = one(f"{folder}acts", [HOLD])
    same("without an office the line has 502, and the acts", (line["status"], line["acts"]), (502, [HOLD]))
    line = one(f"{folder}acts", [{**RECORD, "act": "file"}])
    same("and a content not even then", line["acts"], [{**RECORD, "act": "file", "content": {"bytes": len(SECRET)}}])
    long = base64.b64encode(SECRET * 60).decode()
    line = one(f"{folder}acts", [{"act": "file", "kontent": long, long: 1, "more": {"content": long}}])
    wanted = [{"act": "file", "kontent": {"characters": len(long)}, "more": {}}]
    same("nor a long text by another name, as a name or within", line["acts"], wanted)
    line = one(f"{folder}acts", [LIFT, {"kontent": SECRET.decode()}])
    same("nor of a list that no office takes", line["acts"], "no act at place 1, places: 2")


def protected() -> None:
    logs = [JOURNAL, *(pathlib.Path("/var/log/nginx") / name for name in ("office.access.log", "office.error.log"))]
    modes = [stat.S_IMODE(it.stat().st_mode) for it in logs]
    same("the journal and nginx's logs of the site are 0640", modes, [0o640] * 3)
    for command in (f"truncate -s 0 {JOURNAL}", f"rm -f {JOURNAL}", f"mv {JOURNAL} /run/", f"sed -i d {JOURNAL}"):
        judge(f"root cannot: {command}", run(command).returncode != 0)


def rotated(folder: str) -> None:
    """By Debian's logrotate, with /etc/logrotate.d/office-acts. (A container's policy may forbid to signal nginx.)"""
    before = JOURNAL.read_text()
    run("printf '#!/bin/sh\\nexit 0\\n' > /run/allowed && chmod 755 /run/allowed")
    run("test ! -e /usr/sbin/policy-rc.d || mount --bind /run/allowed /usr/sbin/policy-rc.d")
    done = run("logrotate --force --state /run/logrotate.state /etc/logrotate.d/office-acts")
    judge("logrotate rotates the journal", done.returncode == 0, done.stdout)
    old = [it for it in JOURNAL.parent.iterdir() if it != JOURNAL]
    judge("the old one has all lines", len(old) == 1 and old[0].read_text() == before, old)
    post(f"{folder}acts", [HOLD])
    same("the next act is in the new one", len(added(1, 0)), 1)
    attributes = [line.split()[0] for line in run(f"lsattr {JOURNAL} {old[0]}").stdout.splitlines()]
    same("both can only be appended to", ["a" in it for it in attributes], [True, True])
    protected()
    stuck(old[0])


def stuck(old: pathlib.Path) -> None:
    """A rotation after which nginx goes on in the old file: logrotate says so, and both files are protected."""
    run(f"chattr -a {old} && rm {old} && mv /run/nginx.pid /run/nginx.before && echo 4194304 > /run/nginx.pid")
    done = run("logrotate --force --state /run/logrotate.state /etc/logrotate.d/office-acts")
    judge("if nginx does not open the new file, logrotate fails", done.returncode != 0, done.stdout)
    attributes = [line.split()[0] for line in run(f"lsattr {JOURNAL} {old}").stdout.splitlines()]
    same("and both can only be appended to", ["a" in it for it in attributes], [True, True])
    run("mv -f /run/nginx.before /run/nginx.pid")
    place.reopen()


def full(folder: str, port: int) -> None:
    """A journal for which the disk has no room: the act is done, its line is cut, and the log of errors says so."""
    run(f"mount -t tmpfs -o size=8k tmpfs {JOURNAL.parent} && install -m 640 -o www-data -g adm /dev/null {JOURNAL}")
    place.reopen()
    acts = [{**HOLD, "code": f"F-{number}"} for number in range(200)]
    with place.StandIn(port, b"[]"):
        same("without room for its line an act is done", post(f"{folder}acts", acts).status, 200)
    incomplete, log = f'write() to "{JOURNAL}" was incomplete', pathlib.Path("/var/log/nginx/office.error.log")
    judge("and the log of errors says so", comes(lambda: incomplete in log.read_text(), 60), log.read_text()[-400:])
    run(f"umount --lazy {JOURNAL.parent}")
    place.reopen()
