"""The register of what is overdue: beside a service, where something is wrong, as a mail (tests/service_scripts)."""
import email
import email.message
import os
import pathlib
import shutil

from service_scripts.place import (LAST, NOBODY, OFFICE, RECORDS, Served, apply, made, mode_of, path_with, run, run_acts,
                           script)
from kit.judging import judge, same


def overdue(folder: pathlib.Path) -> None:
    file, registers = made(folder, "overdue"), folder / "registers"
    registers.mkdir(mode=0o700)
    os.chown(registers, NOBODY, NOBODY)
    apply(file, run_acts()[:-1], NOBODY)
    day = {"first": "2025-02-01", "second": "2025-02-02"}
    wanted = run(OFFICE, "overdue", file, day["second"], 30, user=NOBODY)
    judge(
        "the register of the closed FILE has the records that are not confirmed",
        wanted[0] == 0
        and len(wanted[1].splitlines()) == RECORDS + 1
        and wanted[1].splitlines()[1].startswith(f"{RECORDS + 1},r{RECORDS + 1},FIN,D1,destroy,{LAST},{day['first']}"),
        wanted[2] + wanted[1][:80],
    )
    served = Served(file)
    register = registers / f"overdue-{day['second']}.csv"
    try:
        status, out, error = script("office-overdue", file, registers, day["second"], 30, user=NOBODY)
        judge(
            "a register beside the service, for its owner alone",
            (status, out) == (0, f"{register}\n")
            and mode_of(register) == ("0o600", NOBODY)
            and register.read_text() == wanted[1],
            error,
        )
        script("office-overdue", file, registers, day["first"], 30, user=NOBODY)
        header = (registers / f"overdue-{day['first']}.csv").read_text()
        judge("where nothing is overdue it has the header alone", header == wanted[1].splitlines(True)[0], header)
        stands = register.read_bytes()
        # the copy gets its name by mv too, and is not what fails here
        full = path_with(folder / "full", "mv", "case $* in */overdue.csv\\ *) echo 'No space left on device' >&2; exit 1 ;; esac\n"
                         "exec /bin/mv \"$@\"")
        none = file.with_name("none.db")
        for name, words, how, wanted_error in (
            ("who is neither root nor the owner", (file, registers, day["second"], 30), {"user": NOBODY - 1},
             f"office-overdue: only root and the owner of {file} may run this\n"),
            ("a FILE that is not there", (none, registers, day["second"], 30), {}, f"office-overdue: there is no {none}\n"),
            ("a day that is none", (file, registers, "2025-02-30", 30), {},
             "office: refused 2\noffice-overdue: there is no register of 2025-02-30 and 30 days\n"),
            ("a day that is a path", (file, registers, "../2025-02-02", 30), {}, "office-overdue: '../2025-02-02' is no day\n"),
            ("too many days", (file, registers, day["second"], 3651), {},
             f"office: refused 3\noffice-overdue: there is no register of {day['second']} and 3651 days\n"),
            ("a folder that is not there", (file, folder / "none", day["second"], 30), {},
             f"office-overdue: there is no folder {folder / 'none'}\n"),
            ("a register that is not written", (file, registers, day["second"], 30), {"PATH": full}, "No space left on device\n"),
        ):
            same(f"{name}: no register, and its message", script("office-overdue", *words, **how), (1, "", wanted_error))
            same(f"{name}: the old register stays, and nothing is beside it",
                 (register.read_bytes(), sorted(each.name for each in registers.iterdir())), (stands, sorted(
                     f"{kind}-{each}.csv" for kind in ("awaiting", "overdue") for each in day.values())))
        judge("the service answers", served.status("GET", "/records/1") == 200)
    finally:
        served.end()
    judge(
        "no copy of FILE is left",
        sorted(it.name for it in registers.iterdir())
        == sorted(f"{name}-{it}.csv" for it in day.values() for name in ("awaiting", "overdue")),
    )
    waits = (registers / f"awaiting-{day['second']}.csv").read_text()
    judge("nothing was sent, so nothing awaits a receipt", waits == "sent,run,record,ref,class,schedule,length,sha256\n", waits)
    mails(folder, register, wanted[1])
    to_do(folder, file, register)


def to_do(folder: pathlib.Path, file: pathlib.Path, register: pathlib.Path) -> None:
    """What else is to do, beside the register and before it in the mail."""
    day = "2025-02-02"
    status, out, error = script("office-todo", file, register.parent, day, 30, user=NOBODY)
    written = register.parent / f"todo-{day}.txt"
    judge("what is to do is written beside the register", (status, out) == (0, f"{written}\n"), error)
    lines = dict(line.split(":") for line in written.read_text().splitlines() if ":  " in line)
    there = {name: value.strip() for name, value in lines.items()}
    wanted = {"Overdue, with 30 days to confirm": str(RECORDS), "Due, neither confirmed nor held": str(RECORDS),
              "Ready for a run, which would destroy": str(RECORDS), "Open run": "none"}
    judge("with what is due, ready and open", {**there, **wanted} == there, there)
    sent = folder / "todo-sent"
    path = path_with(folder / "todo-mail", "mail", f"cat >{sent}")
    script("office-overdue-mail", register, "a@localhost", PATH=path)
    waits = (register.parent / f"awaiting-{day}.csv").read_text()
    judge(
        "the mail has it before the registers, and each once",
        sent.read_text() == f"{written.read_text()}\nOverdue\n\n{register.read_text()}"
        f"\nSent to the archive, and awaiting its receipt: 0\n{waits}" and "receipt" not in written.read_text(),
        sent.read_text(),
    )
    (register.parent / f"copies-{day}.txt").write_text("old /etc/nginx/office/http.conf\n")
    script("office-overdue-mail", register, "a@localhost", PATH=path)
    judge("a configuration that an upgrade left behind is in the mail",
          sent.read_text().endswith("(office-copies says what to do)\nold /etc/nginx/office/http.conf\n"), sent.read_text())
    for name, words, error in (
        ("a day that is none", ("x", 30), "office-todo: 'x' is no day\n"),
        ("a day that is a query", ("2025-02-0'", 30), "office-todo: '2025-02-0'' is no day\n"),
        ("too many days", (day, 3651), f"office: refused 3\noffice-todo: there is no list of {day} and 3651 days\n"),
    ):
        same(f"{name}: no list", script("office-todo", file, register.parent, *words, user=NOBODY), (1, "", error))


def mails(folder: pathlib.Path, register: pathlib.Path, wanted: str) -> None:
    """Both registers are sent as they are: by a `mail` that notes what it is asked, and by bsd-mailx if it is there."""
    subject = f"Records overdue on 2025-02-02: {RECORDS}, awaiting a receipt: 0"
    wanted += "\nSent to the archive, and awaiting its receipt: 0\nsent,run,record,ref,class,schedule,length,sha256\n"
    sent = folder / "sent"
    path = path_with(folder / "mail", "mail", f'for word; do echo "$word"; done >{sent}\ncat >{sent}.body')
    status, _, error = script("office-overdue-mail", register, "a@localhost", "b@localhost", PATH=path)
    words = sent.read_text().splitlines() if sent.exists() else []
    judge(
        "a register is sent to each address, with its day and count",
        status == 0
        and words[:2] == ["-s", subject]
        and words[-2:] == ["a@localhost", "b@localhost"]
        and pathlib.Path(f"{sent}.body").read_text() == wanted,
        error + str(words),
    )
    sent.unlink(missing_ok=True)
    none = folder / "none.csv"
    for name, words, wanted_answer in (
        ("no address", (register,), (2, "", "usage: office-overdue-mail REGISTER ADDRESS ..\n")),
        ("an option", (register, "-f"), (2, "", "office-overdue-mail: '-f' is no address\n")),
        ("a register that is not there", (none, "a@localhost"), (1, "", f"office-overdue-mail: there is no {none}\n")),
    ):
        same(f"{name}: nothing is sent", (script("office-overdue-mail", *words, PATH=path), sent.exists()), (wanted_answer, False))
    mailx = shutil.which("bsd-mailx")
    if not mailx:
        print("not tried here: bsd-mailx is not installed")
        return
    box = folder / "box"
    queue = folder / "sendmail"
    queue.write_text(f"#!/bin/sh\ncat >{box}\n")
    queue.chmod(0o755)
    (folder / "mailrc").write_text(f"set sendmail={queue}\n")
    path = path_with(folder / "bsd", "mail", f'exec {mailx} "$@"')
    status, _, error = script("office-overdue-mail", register, "a@localhost", PATH=path, MAILRC=str(folder / "mailrc"))
    mail = email.message_from_bytes(box.read_bytes()) if box.exists() else email.message.Message()
    there = (mail["To"], mail["Subject"], mail.get_content_type(), mail.get_content_charset(), mail.get_payload())
    judge(
        "bsd-mailx makes a mail of it",
        status == 0 and there == ("a@localhost", subject, "text/plain", "utf-8", wanted),
        error + str(there)[:300],
    )
