"""docs/CSV.md: an import, and both registers of the office that it went into."""
from collections.abc import Callable

from pages.expected import Row, run_page
from kit.judging import judge
from pages.shell import Shell

PAGE = "docs/CSV.md"
DUE = "record,ref,class,schedule,action,due,held,confirmed"
OVERDUE = "record,ref,class,schedule,action,due,deadline,held"
ENTRIES = "run,record,ref,outcome,class,schedule,due,hold,confirmed_by,length,digest"


def has(name: str, columns: str, table: str) -> Callable[[Shell], None]:
    """The register has these columns, and as many rows as the table of FILE."""

    def look(shell: Shell) -> None:
        shell.run("cp letters.db copy.db")
        count = int(shell.run(f"sqlite3 copy.db 'SELECT count(*) FROM {table}'").out)
        lines = shell.path(name).read_text().splitlines()
        judge(f"{name} has as many rows as {table}", lines[0] == columns and len(lines) == count + 1, f"{lines}")

    return look


# each record of this office is due on that day
ROWS = [
    Row("./office apply letters.db examples/import/office.json"),
    Row("./office import letters.db 2024-01-02 examples/import/letters.csv"),
    Row("office-convert examples/import/unicode_text.txt -o records.csv"),
    Row("./office import letters.db 2024-01-02 records.csv"),
    Row("./office export letters.db 2027-06-01 > due.csv", prints="", then=has("due.csv", DUE, "records")),
    Row("./office overdue letters.db 2027-07-02 30 > overdue.csv", prints="",
        then=has("overdue.csv", OVERDUE, "records")),
    Row("./office export letters.db entries > entries.csv", prints="", then=has("entries.csv", ENTRIES, "entries")),
]


def run(shell: Shell) -> None:
    run_page(shell, PAGE, ROWS)
