"""A real office with a thousand records that a run sent: its bag, the archive's list, the receipts, and what waits."""
import base64
import csv
import datetime
import http.client
import io
import json
import os
import pathlib
import random
import sqlite3

import csip
import reader
from bags import ODD, rows, sums_agree
from fake import digest
from kit.companions import companion
from kit.judging import judge
from kit.office import Office
from place import OFFICE, challenge_of, files_in, run

COUNT = 1000
ADDED, DUE, SENT = "2020-01-02", "2020-01-03", "2020-02-02"
BY = "M. Vane"
ODD_REF = b'M,"2"'


def day(text: str) -> int:
    """A day as the tables have it."""
    return (datetime.date.fromisoformat(text) - datetime.date(1970, 1, 1)).days


def content(number: int) -> bytes:
    return f"paper {number} of the council\n".encode() * (number % 7 + 1)


def names(number: int) -> tuple[str, str]:
    """A ref and a title; the first are odd ones that an office takes."""
    return ODD[number - 1] if number <= len(ODD) else (f"C/2020/{number}", f"Paper {number}")


def certificate() -> str:
    lines = ["CERTIFICATE 1", f"DAY {SENT}", f"BY {BY}", "ENDED 0", f"SENT {COUNT}", "SKIPPED 0"]
    lines += [f"ENTRY\t{it}\tsent\t{names(it)[0]}\tCOUNCIL\tSEND-1D\t{DUE}\t-\t{BY}\t{len(content(it))}\t{digest(content(it))}"
              for it in range(1, COUNT + 1)]
    body = "".join(f"{it}\n" for it in [*lines, "SPENT 0"])
    return body + f"SHA256 {digest(body.encode())}\n"


def made(file: pathlib.Path) -> None:
    """Writes the office by Python's sqlite3, as a run of a thousand steps leaves it; the program looks whether it is one."""
    if run(OFFICE, "init", file).status:
        raise SystemExit("tests/transfer: the program makes no office")
    tables = sqlite3.connect(file)
    put = lambda name, row: tables.execute(f"INSERT INTO {name} VALUES ({','.join('?' * len(row))})", row)  # noqa: E731
    tables.execute("UPDATE office SET day = ?", [day(SENT)])
    put("schedules2", ("SEND-1D", "added", "days", 1, "none", "transfer"))
    put("classes", ("COUNCIL", "Council", "SEND-1D"))
    put("aggregations", (1, "COUNCIL/2020", "Council of 2020, \"papers\"", None, "COUNCIL", None))
    put("runs", (1, day(SENT), BY, COUNT, 1))
    for it in range(1, COUNT + 1):
        put("records", (it, *names(it), day("2019-12-31"), day(ADDED), 1, len(content(it)), digest(content(it)), "sent",
                        None, None, None, None, "transfer", day(DUE), day(SENT), BY, None, None))
        put("contents", (it, content(it)))
        put("entries", (1, it, "sent", "COUNCIL", "SEND-1D", day(DUE), BY, None))
    put("certificates", (1, certificate()))
    tables.commit()
    tables.close()


def waiting(copy: pathlib.Path) -> list[dict[str, str]]:
    done = run(companion("office-awaiting"), copy)
    judge("what waits is listed", done.status == 0, done)
    return list(csv.DictReader(io.StringIO(done.out, newline="")))


def archives_list(bag: pathlib.Path) -> tuple[str, set[int], set[int]]:
    """What the archive answers: some missing, some differing, some twice, some under another name; who gets a receipt."""
    rng, challenge = random.Random(1000), challenge_of(bag)
    every = {int(pathlib.Path(it).name[:6]): (it, digest(challenge + data)) for it, data in files_in(bag).items()
             if it.startswith("data/")}
    numbers = rng.sample(sorted(every), 60)
    missing, differing, twice, renamed, both = (set(numbers[at:at + 12]) for at in range(0, 60, 12))
    lines = []
    for number, (path, total) in every.items():
        if number in missing:
            continue
        own = "0" * 63 + "1" if number in differing else total
        lines.append(f"{own}  {'aip-9/object-' + str(number) if number in renamed else path}")
        lines += [lines[-1]] if number in twice else [f"{'f' * 64}  {path}"] if number in both else []
    rng.shuffle(lines)
    lacking = missing | differing | both
    return "\n".join(lines) + "\n", lacking, set(every) - lacking


def thousand(folder: pathlib.Path) -> None:
    file, bag = folder / "office.db", folder / "bag"
    made(file)
    (folder / "catalogue").mkdir()
    done = run(companion("office-catalogue"), file, folder / "catalogue")
    judge("a catalogue of it is made, with what waits", done.status == 0
          and (folder / "catalogue/now/awaiting.json.gz").is_file(), done)
    judge("a thousand wait", [int(it["record"]) for it in waiting(file)] == list(range(1, COUNT + 1)))
    with Office(file) as office:
        words = (companion("office-transfer"), "--office", office.address, "--catalogue", folder / "catalogue/now", 1)
        done = run(*words, bag)
        judge("the bag of a real office is made", (done.status, done.error) == (0, ""), done)
        judge("an independent reader and sha256sum find nothing wrong", reader.problems_of(str(bag)) == []
              and sums_agree(bag), reader.problems_of(str(bag))[:5])
        table = rows(bag, "metadata/records.csv")
        judge("its table is what was filed", [(it["ref"], it["title"], it["originated"], it["aggregation_ref"], it["class"],
                                               it["schedule"], it["due"]) for it in table]
              == [(*names(it), "2019-12-31", "COUNCIL/2020", "COUNCIL", "SEND-1D", DUE) for it in range(1, COUNT + 1)], table[:2])
        judge("its contents are what was filed", [(bag / it["path"]).read_bytes() for it in table]
              == [content(it) for it in range(1, COUNT + 1)])
        done = run(*words, folder / "package", "--form", "eark")
        judge("so is a package", done.status == 0 and csip.problems_of(str(folder / "package")) == [],
              (done, csip.problems_of(str(folder / "package"))[:5]))
        receipts(folder, bag, office, words)
    # the service is killed, so a copy has what the log has
    copy = folder / "copy.db"
    done = run(companion("office-backup"), file, copy)
    judge("a copy is taken", done.status == 0, done)
    rest = archives_list(bag)[1]
    found = waiting(copy)
    judge("only those wait that the archive lacks, with the day and the run", {int(it["record"]) for it in found} == rest
          and {(it["sent"], it["run"]) for it in found} == {(SENT, "1")}, found[:3])


def receipts(folder: pathlib.Path, bag: pathlib.Path, office: Office, words: tuple) -> None:
    """The archive's list becomes acts, the office takes each of them, and the same list again makes none."""
    text, lacking, wanted = archives_list(bag)
    (folder / "list").write_text(text)
    call = (companion("office-receipts"), bag, folder / "list", "--by", BY, "--day", "2020-03-01", "-o", folder / "acts.json")
    done = run(*call)
    acts = json.loads((folder / "acts.json").read_bytes())
    judge("each record that the archive has gets a receipt, and no other", done.status == 1
          and {it["record"] for it in acts} == wanted and len(acts) == len(wanted) == COUNT - len(lacking), done)
    judge("what is missing or differs is named", all(f"record {it}," in done.error for it in lacking)
          and "missing: 12, differing: 24, twice: 24, not used: 0" in done.error, done.error[-300:])
    check = companion("office-check")
    said = run(check, folder / "acts.json")
    judge("the checker of acts takes them", said.status == 0 and f"acts: {len(wanted)}, wrong: 0" in said.out, said)
    conn = http.client.HTTPConnection("127.0.0.1", office.port, timeout=600)
    conn.request("POST", "/acts", (folder / "acts.json").read_bytes())
    answer = conn.getresponse()
    told = json.loads(answer.read())
    judge("the office takes each of them", answer.status == 200 and told == [{"done": True}] * len(wanted),
          (answer.status, [it for it in told if it != {"done": True}][:3]))
    done = run(*call, "--office", office.address)
    judge("the same list again makes none", json.loads((folder / "acts.json").read_bytes()) == []
          and f"had one: {len(wanted)}" in done.error, done.error[-300:])
    done = run(*words, bag)
    judge("the bag is still the same after the receipts", done.status == 0 and "the same" in done.out, done)


def mail(folder: pathlib.Path) -> None:
    """The morning's register and mail of a small office, of which a run sent one of two records."""
    file, registers = folder / "office.db", folder / "registers"
    acts = [{"act": "add-schedule", "code": "SEND-1D", "trigger": "added", "unit": "days", "count": 1, "offset": "none",
             "action": "transfer"},
            {"act": "add-class", "code": "MAPS", "title": "Maps", "schedule": "SEND-1D"},
            {"act": "add-aggregation", "ref": "M", "title": "Maps", "class": "MAPS"}]
    acts += [{"act": "add-record", "ref": ref, "title": ref, "originated": ADDED, "aggregation": 1,
              "content": base64.b64encode(ref.encode()).decode()} for ref in ("M/1", ODD_REF.decode())]
    later = [{"act": "confirm", "record": 2, "action": "transfer", "by": BY}, {"act": "open-run", "by": BY},
             {"act": "run-step"}, {"act": "run-step"}]
    every = [{**it, "day": ADDED} for it in acts] + [
        it if it["act"] == "run-step" else {**it, "day": SENT} for it in later]
    (folder / "acts.json").write_text(json.dumps(every))
    judge("an office sent one of two", run(OFFICE, "apply", file, folder / "acts.json").status == 0)
    registers.mkdir()
    done = run(companion("office-overdue"), file, registers, "2020-05-01", 30)
    judge("both registers are written, of one copy", done.status == 0 and sorted(it.name for it in registers.iterdir())
          == ["awaiting-2020-05-01.csv", "overdue-2020-05-01.csv"], done)
    waits = (registers / "awaiting-2020-05-01.csv").read_text()
    wanted = ("sent,run,record,ref,class,schedule,length,sha256\n"
              f"{SENT},1,2,\"M,\"\"2\"\"\",MAPS,SEND-1D,5,{digest(ODD_REF)}\n")
    judge("what waits is as it should be", waits == wanted, waits)
    sent, tool = folder / "sent", folder / "bin"
    tool.mkdir()
    (tool / "mail").write_text(f"#!/bin/sh\nfor word; do echo \"$word\"; done >{sent}\ncat >{sent}.body\n")
    (tool / "mail").chmod(0o755)
    path = f"{tool}:{os.environ['PATH']}"
    done = run(companion("office-overdue-mail"), registers / "overdue-2020-05-01.csv", "a@localhost", PATH=path)
    body = (folder / "sent.body").read_text()
    judge("the mail has both, with their counts in the subject", done.status == 0
          and sent.read_text().splitlines()[1] == "Records overdue on 2020-05-01: 1, awaiting a receipt: 1"
          and body == (registers / "overdue-2020-05-01.csv").read_text()
          + "\nSent to the archive, and awaiting its receipt: 1\n" + waits, (done, body))
    (registers / "awaiting-2020-05-01.csv").unlink()
    done = run(companion("office-overdue-mail"), registers / "overdue-2020-05-01.csv", "a@localhost", PATH=path)
    judge("without the second register it is as it was", done.status == 0
          and sent.read_text().splitlines()[1] == "Records overdue on 2020-05-01: 1"
          and (folder / "sent.body").read_text() == (registers / "overdue-2020-05-01.csv").read_text(), done)
