"""Readings: a record, its content, certificates and lists, by names with classes, with `if sent`, and without a right."""
from __future__ import annotations

import pathlib
from typing import Any

from command_trial.filed import SETTINGS, fill, filing
from command_trial.served import Answer, Gated, answer_in, denied, request, stated
from kit.judging import judge, same

MORE = """role lister reads lists
name lister is lister in PER* XX*
name both is department in BLDG1
name both is department in PER1
name sent is archive
name * is archive
"""
DUE, OVERDUE = "/due/2026-06-02", "/overdue/2026-06-02/0"
RIGHT, CLASS, NAME = (Answer(403, denied(error)) for error in ("right", "class", "name"))


def readings(folder: pathlib.Path) -> None:
    with Gated(folder / "office", SETTINGS + MORE) as gated:
        fill(gated)
        records(gated)
        lists(gated)
        transfer(gated)
        others(gated)
        same("nothing is printed", gated.errors(), "")


def records(gated: Gated) -> None:
    """Reads records and contents: of a foreign class, and what is not there, which lies in no class."""
    same("a record of its class", field(gated.get("department", "/records/1"), "class"), "BLDG1")
    same("a content of its class", gated.get("department", "/records/1/content"), Answer(200, b"abc"))
    for number in (2, 99):
        for path in (f"/records/{number}", f"/records/{number}/content"):
            same(f"department: {path}", gated.get("department", path), CLASS)
    for path in ("/records/99", "/records/0", "/records/01", "/records/x"):
        same(f"what is not there, with a right to all: {path}", gated.get("auditor", path), Answer(404, {"error": "record"}))
        same(f"what is not there, with a right to a class: {path}", gated.get("department", path), CLASS)
    same("no right to contents", gated.get("auditor", "/records/1/content"), RIGHT)
    same("no right to records", gated.get("lister", "/records/1"), RIGHT)
    same("two lines give two classes", [gated.get("both", f"/records/{it}").status for it in (1, 2)], [200, 200])
    moved = {"act": "reclassify", "target": "record:1", "class": "PER1"}
    same("another class", gated.act("records-manager", moved).status, 200)
    same("the class of now counts", gated.get("department", "/records/1"), CLASS)
    same("back", gated.act("records-manager", moved | {"class": None}).status, 200)
    same("an inherited class counts", gated.get("department", "/records/1").status, 200)


def lists(gated: Gated) -> None:
    """Reads due and overdue lists: the rows of the classes of the name, each as somebody with all rights gets it."""
    for path in (DUE, OVERDUE):
        whole = gated.get("auditor", path)
        same(f"auditor: {path}", rows(whole), [1, 2])
        for name, numbers in (("department", [1]), ("lister", [2]), ("both", [1, 2])):
            same(f"{name}: {path}", gated.get(name, path), Answer(200, [row for row in whole.body if row["record"] in numbers]))
        for name in ("archive", "monitor"):
            same(f"{name}: {path}", gated.get(name, path), RIGHT)
    same("a day that is none", gated.get("lister", "/due/2026-02-30"), Answer(400, {"error": "day"}))
    same("a count that is none", gated.get("lister", "/overdue/2026-06-02/x"), Answer(400, {"error": "count"}))
    same("the right comes first", gated.get("monitor", "/due/2026-02-30"), RIGHT)


def transfer(gated: Gated) -> None:
    """Reads what a run sent to an archive, with a right to that alone, before it is sent, then, and once it is received."""
    def both() -> list[int]:
        return [gated.get("sent", path).status for path in ("/records/1", "/records/1/content")]

    same("before it is sent", (both(), gated.get("sent", "/records/1")), ([403, 403], CLASS))
    by = "records-manager"
    acts: list[dict[str, Any]] = [{"act": "set-record-schedule", "record": 1, "schedule": "T0"},
                                  {"act": "confirm", "record": 1, "action": "transfer", "by": by}, {"act": "open-run", "by": by}]
    same("a run", gated.act(by, *acts).status, 200)
    same("it sends the record", gated.resume(by), Answer(200, {"certificate": 1}))
    same("once it is sent", both(), [200, 200])
    same("what was not sent", gated.get("sent", "/records/2"), CLASS)
    digest = "ba7816bf8f01cfea414140de5dae2223b00361a396177a9cb410ff61f20015ad"
    same("a receipt", gated.act("sent", {"act": "receipt", "record": 1, "digest": digest, "by": "sent"}).status, 200)
    same("once it is received", both(), [200, 200])
    same("a second run", gated.act(by, {"act": "open-run", "by": by}).status, 200)
    same("it removes the content", gated.resume(by), Answer(200, {"certificate": 2}))
    same("once it has ended", both(), [403, 403])
    for name in ("auditor", "sent", "stranger"):
        judge(f"{name} reads a certificate", gated.get(name, "/certificates/1").status == 200)
    same("a name with classes", gated.get("department", "/certificates/1"), RIGHT)
    same("another name", gated.get("registry", "/certificates/1"), RIGHT)


def others(gated: Gated) -> None:
    """Reads by a name that looks like another one, and asks for what is no path."""
    for name in ("Auditor", "ａuditor"):
        same(f"{name} is nobody", gated.get(name, "/certificates/1"), NAME)
    same("no path", gated.get("stranger", "/nothing"), Answer(404, {"error": "path"}))
    same("no path, and nobody is stated", ask_bare(gated, "GET", "/nothing"), Answer(403, {"error": "token"}))
    same("another method", gated.ask("stranger", "POST", "/records/1", b"").status, 405)
    head = gated.raw(request("HEAD", "/records/1", None, stated("auditor")))
    judge("HEAD has no body", head.startswith(b"HTTP/1.1 405 ") and head.endswith(b"\r\n\r\n"), head)
    head = gated.raw(request("HEAD", "/records/1", None, []))
    judge("HEAD of nobody has no body", head.startswith(b"HTTP/1.1 403 ") and head.endswith(b"\r\n\r\n"), head)
    same("filing still goes on", gated.act("registry", filing(3, 2)), Answer(200, [{"number": 3}]))


def ask_bare(gated: Gated, method: str, path: str) -> Answer:
    """Asks without a line of the proxy."""
    return answer_in(gated.raw(request(method, path, None, [])))


def field(answer: Answer, name: str) -> Any:
    return answer.body[name] if answer.status == 200 else answer


def rows(answer: Answer) -> Any:
    return [row["record"] for row in answer.body] if answer.status == 200 else answer
