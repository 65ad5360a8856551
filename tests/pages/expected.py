"""What must come of the commands of a page: a row for each, and the page gone through by these."""
import re
from collections.abc import Callable, Sequence
from dataclasses import dataclass

from pages.commands import Command, commands
from kit.judging import judge
from pages.shell import Shell


@dataclass(frozen=True)
class Row:
    """What must come of each command that begins so: its status, and its output where the page or the row says it."""

    start: str
    prints: str | None = None
    status: int = 0
    # a regular expression for all of the output
    like: str | None = None
    # it goes on running, and prints a line
    serves: bool = False
    # why it is not run here
    skip: str = ""
    # what is looked at afterwards, or done in its place where it is not run
    then: Callable[[Shell], None] | None = None


def is_printed(command: Command, row: Row, out: str) -> bool:
    """Whether this is what the page shows, and what the row says."""
    return ((command.shown is None or out.splitlines() == command.shown)
            and (row.prints is None or out == row.prints)
            and (row.like is None or re.fullmatch(row.like, out, re.S) is not None))


def run(shell: Shell, page: str, command: Command, row: Row) -> None:
    name = f"{page}: {command.line}"
    if row.skip:
        print(f"not run here, {row.skip}: {name}")
    elif row.serves:
        line = shell.serve(command.line)
        judge(name, is_printed(command, row, line), line)
    else:
        done = shell.run(command.line)
        holds = done.status == row.status and is_printed(command, row, done.out)
        judge(name, holds, f"status {done.status}\n{done.out}{done.err}")
    if row.then is not None:
        row.then(shell)


def run_page(shell: Shell, page: str, rows: Sequence[Row]) -> None:
    """Runs each command of the page by the first row that it begins with. A command or a row left over fails."""
    unused = list(rows)
    for command in commands(page):
        row = next((it for it in rows if command.line.startswith(it.start)), None)
        if row is None:
            judge(f"{page}: {command.line}: no row says what must come of it", False)
            continue
        if row in unused:
            unused.remove(row)
        run(shell, page, command, row)
    judge(f"{page}: each row is of one of its commands", not unused, "\n".join(row.start for row in unused))
