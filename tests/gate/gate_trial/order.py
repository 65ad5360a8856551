"""The order of what the gate does, in a trace of its calls: lines written and synced, bytes sent and received.

Each promise of the journal is compared by content: the line of a request with the bytes that the office got, the line
of its answer with the bytes that the office and the client sent and got.
"""
import pathlib

from gate_trial.calls import is_there
from gate_trial.disk import NEVER
from kit.judging import judge, same
from gate_trial.seen import Act, Seen
from gate_trial.workload import turned, unanswered, worked

LEAST = 20
"""the acts that the trial compares at least"""


def tried(folder: pathlib.Path) -> None:
    if not is_there():
        print("skipped: no strace", flush=True)
        return
    world, client = worked(folder)
    turned(client)
    unanswered(world, client)
    seen = Seen(world, world.calls())
    whole(seen, [world.folder / "journal-20260101", world.journal])
    acts = seen.acts()
    judge(f"{LEAST} acts and more were sent to the office", len(acts) >= LEAST, len(acts))
    for act in acts:
        sent(act)
        answered(act)
    kinds = {each["act"] for act in acts for each in act.line.entry.get("acts", [])}
    judge("they are of several kinds", len(kinds) >= 12, kinds)
    judge("one of them is a run that is carried out", any(act.line.entry["request"] == "POST /run/resume" for act in acts))
    judge("lines that came together were written together", seen.disk.most_lines >= 4, seen.disk.most_lines)
    unsent(seen)
    printed(seen)
    judge("the chain holds", world.check().returncode == 0, world.check().stderr)
    world.end()


def whole(seen: Seen, files: list[pathlib.Path]) -> None:
    """The trace has all that is in the journal, and each request has its lines."""
    same("the trace has each byte of the journal", [file.content() for file in seen.disk.files()],
         [path.read_bytes() for path in files])
    numbers = [line.entry["line"] for line in seen.lines]
    same("and each line", numbers, list(range(1, len(numbers) + 1)))
    same("each request that was sent has one line", seen.faults(), [])


def sent(act: Act) -> None:
    """The line of a request is on the disk before the office gets a byte of it, and so are the contents it names."""
    name = f"line {act.line.number}"
    judge(f"{name} is written before the office gets a byte", act.line.written < act.office.sends[0].begins)
    judge(f"{name} is on the disk before the office gets a byte", act.line.is_synced_before(act.office.sends[0].begins),
          (act.line.synced, act.office.sends[0].begins))
    if "contents" in act.line.entry:
        judge(f"{name}: its contents are on the disk before the office gets a byte",
              act.contents_synced < act.office.sends[0].begins, (act.contents_synced, act.office.sends[0].begins))


def answered(act: Act) -> None:
    """The line of an answer says what the office answered, and is on the disk before the client gets a byte."""
    name = f"the answer to line {act.line.number}"
    same(f"{name} has one line", len(act.answers), 1)
    if not act.answers:
        return
    line, client = act.answers[0], act.client
    same(f"{name}: its line", line.without("before", "line", "at", "after", "torn"), act.wanted_line())
    judge(f"{name} is written after the office answered", act.office.last_received() < line.written)
    judge(f"{name} is there before the client gets a byte", act.office.last_received() < client.sends[0].begins)
    judge(f"{name} is on the disk before the client gets a byte", line.is_synced_before(client.sends[0].begins),
          (line.synced, client.sends[0].begins))
    same(f"{name}: what the client gets", client.answer(), act.wanted_answer())
    same(f"{name}: the head that it gets", client.header("office-journal"), str(line.head))


def unsent(seen: Seen) -> None:
    """What goes to no office has its line first too: durable lines on the disk, the others in the file."""
    for what, is_durable, least in (("put", True, 5), ("stored", True, 1), ("refused", False, 5), ("read", False, 6)):
        rows = seen.others(what)
        judge(f"{what}: there are {least} and more", len(rows) >= least, len(rows))
        for line, client in rows:
            begins = client.sends[0].begins
            judge(f"{what}, line {line.number}: its line is there before the client gets a byte", line.written < begins)
            if is_durable:
                judge(f"{what}, line {line.number}: its line is on the disk before the client gets a byte",
                      line.is_synced_before(begins), (line.synced, begins))


def printed(seen: Seen) -> None:
    """A head that the gate prints is that of a line on the disk; and the first and the last line are on the disk."""
    heads = seen.printed()
    judge("heads are printed", len(heads) >= 3, heads)
    for number, text, begins in heads:
        line = seen.line(number)
        same(f"the head of line {number}", text, str(line.head) if line else "")
        judge(f"line {number} is on the disk before its head is printed", line and line.is_synced_before(begins))
    for what in ("opened", "closed", "settings"):
        for line in seen.of(what):
            judge(f"{what}, line {line.number}: it is on the disk", line.synced < NEVER)
