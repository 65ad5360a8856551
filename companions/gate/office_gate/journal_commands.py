"""The commands of office-journal."""
import argparse
import datetime
import math
import os
import shutil
import sqlite3
import subprocess
from pathlib import Path

from office_common import command
from office_gate import chain, checking, dropping, nights, requests
from office_gate.chain import Head
from office_gate.contents import Contents
from office_gate.errors import Refused
from office_gate.replaying import named, replay as replayed

MOST_FALLS = 20
"""of more time stamps that go back than these the rest is counted"""
MOST_HEADS = 20
"""of more heads the lines are counted"""
RECOVERY_DAYS = 31
"""so many days of lines stay at least: the copies of a month, as they are shipped, need those since"""


def check(options: argparse.Namespace) -> int:
    """follow the chain through all lines"""
    files = files_of(options.journal)
    known = set(options.head).union(*(checking.heads_in(place.read_text()) for place in options.heads))
    gone = dropping.dropped(options.journal) if options.dropped else set()
    starts = gone | ({options.start} if options.start else set())
    checked = checking.check(files, known | gone, starts)
    if options.start and checked.first != options.start.line + 1:
        raise Refused(1, f"the journal begins at line {checked.first}, and not after line {options.start.line}")
    for what, heads in (("compared", checked.met), ("not met", checked.missed)):
        if heads:
            print(f"heads {what}: lines {named_lines(heads)}")
    return printed(checked, options.strict)


def named_lines(heads: list[Head]) -> str:
    """Returns the lines of the first heads, and how many follow."""
    lines = [str(it.line) for it in heads[:MOST_HEADS]]
    return ", ".join(lines if len(heads) <= MOST_HEADS else [*lines, f"and {len(heads) - MOST_HEADS} more to {heads[-1].line}"])


def printed(checked: checking.Checked, is_strict: bool) -> int:
    """Prints what a check saw."""
    for text in checked.falls[:MOST_FALLS]:
        print(f"time stamp: {text}")
    if len(checked.falls) > MOST_FALLS:
        print(f"time stamps that go back, or are none: {len(checked.falls)}")
    if checked.rest is not None:
        print(f"after line {checked.head.line} are {len(checked.rest)} bytes that are no line yet")
    print(f"lines: {checked.lines}, from line {checked.first}, head {checked.head}, heads compared: "
          f"{len(checked.met)}, not met: {len(checked.missed)}")
    return 1 if is_strict and checked.falls else 0


def files_of(journal: Path) -> list[Path]:
    files = chain.files_of(journal)
    if not files:
        raise Refused(3, f"there is no journal {journal}")
    return files


def drop(options: argparse.Namespace) -> int:
    """remove the oldest files, of which each line is older than a day, and keep their heads"""
    lines = dropping.drop(options.journal, options.before, options.recovery_days)
    for text in lines:
        print(text)
    print(f"files: {len(lines)}, each line before {options.before}; heads are in {dropping.heads_of(options.journal)}")
    return 0


def replay(options: argparse.Namespace) -> int:
    """do the acts after a copy once more, and compare the answers, and the file"""
    files = files_of(options.journal)
    moment = options.moment if options.moment is not None else moment_of(options.copy)
    reach(files, moment)
    until = options.until if options.until is not None else moment_of(options.beside) if options.beside else math.inf
    acts = requests.read(files)
    if options.beside:
        requests.cut_at(acts, until)
    kept = requests.Kept(Contents(options.state / "contents"), [*filter(None, [options.beside]), *options.contents])
    play = replayed(acts, (moment, until), kept, (options.copy, options.new))
    try:
        play.whole()
        rows = play.compared(options.beside) if options.beside else []
        play.player.close()
        if not rows:
            # a file that lacks what came after, or has what did not come, gets no name
            named(play.player.file, options.new)
    finally:
        play.player.stop()
        shutil.rmtree(play.folder, ignore_errors=True)
    for row in rows:
        print(f"differs: {row}")
    unknown = [at for at, request in enumerate(play.requests) if not request.is_known]
    done = sum(play.spans[at][play.chosen[at]][1] > 0 for at in unknown)
    print(f"requests: {len(play.requests)}, without an answer: {len(unknown)}, of these done: {done}, tried otherwise: "
          f"{play.tried}, differences: {len(rows)}")
    return 1 if rows else 0


def reach(files: list[Path], moment: float) -> None:
    """Refuses a journal that begins after a copy: the acts between are not in it."""
    first = next(chain.entries(files), None)
    if first and int(first["line"]) > 1 and (checking.moment_of(first) or math.inf) > moment:
        raise Refused(1, f"the journal begins at line {first['line']} of {first.get('at')}, after the copy was made")


def nightly(options: argparse.Namespace) -> int:
    """check the journal with the heads of systemd's journal, and replay the acts between the copies of the last two nights"""
    checked = nights.checked(options.journal, nights.heads_of_unit(options.unit) if options.unit else set())
    printed(checked, False)
    nights.keep(checked.head, options.work)
    with nights.room(options.work) as folder:
        task = nights.replay_of(options, folder)
        return replay(task) if task else 0


def moment_of(copy: Path) -> float:
    """Returns when a copy was taken: office-backup makes its file while the service is paused."""
    stated = subprocess.run(["stat", "-L", "-c", "%.W %.Y", "--", str(copy)], capture_output=True, text=True,
                            check=False)
    if stated.returncode:
        raise Refused(3, f"{copy} is not read: {stated.stderr.strip()}")
    made, changed = map(float, stated.stdout.split())
    return made if 0 < made <= changed else changed


def when(text: str) -> float:
    """Reads a moment, such as 2026-11-28T02:15:00+01:00; without a zone it is one of UTC."""
    try:
        moment = datetime.datetime.fromisoformat(text.replace("Z", "+00:00"))
    except ValueError as error:
        raise argparse.ArgumentTypeError(f"'{text}' is no moment such as 2026-11-28T02:15:00Z") from error
    return (moment if moment.tzinfo else moment.replace(tzinfo=datetime.UTC)).timestamp()


def day(text: str) -> datetime.date:
    try:
        return datetime.date.fromisoformat(text)
    except ValueError as error:
        raise argparse.ArgumentTypeError(f"'{text}' is no day such as 2026-11-28") from error


def head(text: str) -> Head:
    heads = checking.heads_in(text)
    if len(heads) != 1:
        raise argparse.ArgumentTypeError(f"'{text}' is no head LINE:SHA256")
    return heads.pop()


def command_parser() -> argparse.ArgumentParser:
    parser = command.parser("office-journal")
    kinds = parser.add_subparsers(required=True, metavar="COMMAND")
    for perform, add in ((check, add_check), (drop, add_drop), (replay, add_replay), (nightly, add_nightly)):
        sub = kinds.add_parser(perform.__name__, help=perform.__doc__, allow_abbrev=False)
        sub.set_defaults(perform=perform)
        sub.add_argument("journal", type=Path)
        add(sub)
    return parser


def add_check(sub: argparse.ArgumentParser) -> None:
    sub.add_argument("--head", action="append", default=[], type=head, metavar="LINE:SHA256",
                     help="a line that was written down")
    sub.add_argument("--heads", action="append", default=[], type=Path, metavar="FILE", help="a text that has such")
    sub.add_argument("--from", dest="start", type=head, metavar="LINE:SHA256", help="the last line that was archived")
    sub.add_argument("--dropped", action="store_true", help="the first lines may be those that `drop` removed")
    sub.add_argument("--strict", action="store_true", help="fail if a time stamp goes back")


def add_drop(sub: argparse.ArgumentParser) -> None:
    sub.add_argument("--before", type=day, required=True, metavar="DAY", help="the day on which the rest begins")
    sub.add_argument("--recovery-days", type=int, default=RECOVERY_DAYS, metavar="DAYS",
                     help="so many days of lines stay, for a recovery")


def add_replay(sub: argparse.ArgumentParser) -> None:
    sub.add_argument("copy", type=Path, help="a copy that office-backup took")
    sub.add_argument("new", type=Path, help="the file to make")
    sub.add_argument("--state", type=Path, required=True, help="the folder of the gate, which has the contents")
    sub.add_argument("--moment", type=when, help="when the copy was taken, if it was copied since")
    sub.add_argument("--until", type=when, help="no act after this")
    sub.add_argument("--beside", type=Path, help="a later copy, to which the file is compared")
    sub.add_argument("--contents", action="append", default=[], type=Path, metavar="FILE",
                     help="an office that has contents which the gate removed")


def add_nightly(sub: argparse.ArgumentParser) -> None:
    sub.add_argument("--state", type=Path, required=True, help="the folder of the gate, which has the contents")
    sub.add_argument("--copies", type=Path, required=True, help="the folder of the nightly copies")
    sub.add_argument("--work", type=Path, required=True, help="a folder of its own, with room for several copies")
    sub.add_argument("--unit", help="the unit of the gate, whose heads systemd's journal has")


def main(arguments: list[str]) -> int:
    options = command_parser().parse_args(arguments)
    os.umask(0o077)
    return command.run("office-journal", lambda: int(options.perform(options)), (OSError, sqlite3.Error))
