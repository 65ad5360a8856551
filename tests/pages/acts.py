"""docs/ACTS.md: how to see the office's day, and what a late day does."""
from pages.expected import Row, run_page
from kit.judging import judge
from pages.shell import Shell

PAGE = "docs/ACTS.md"
LATE = '[{"act":"open-run","day":"2099-01-01","by":"a slip"}]'
TODAY = '[{"act":"place-hold","day":"2024-01-05","code":"LAW-1","reason":"a suit","by":"counsel"}]'


def is_late(shell: Shell) -> None:
    """What the page warns of, on a copy: after a late day a hold of today is refused, and the backup takes it."""
    shell.path("late.json").write_text(LATE)
    shell.path("today.json").write_text(TODAY)
    shell.run("cp first.db backup.db")
    done = shell.run("./office apply first.db late.json && ./office apply first.db today.json")
    refused = done.out == '{"number":2}\n{"refused":1}\n'
    judge("after an act with a late day, a hold of today is refused", refused, f"{done}")
    done = shell.run("rm -f first.db first.db-wal && cp backup.db first.db && ./office apply first.db today.json")
    judge("the backup from before takes it", done.out == '{"done":true}\n', f"{done}")


ROWS = [
    Row("office-check examples/first/acts.json"),
    Row("office-check --late examples/first/acts.json"),
    Row("OFFICE=./office companions/copies/office-backup first.db copy.db", prints=""),
    Row("sqlite3 copy.db", then=is_late),
]


def run(shell: Shell) -> None:
    shell.run("./office apply first.db examples/first/acts.json && ./office resume first.db")
    run_page(shell, PAGE, ROWS)
