"""docs/MANAGER.md: every command of it prints what the page shows."""
from pages.expected import Row, run_page
from kit.judging import judge
from pages.shell import Shell

PAGE = "docs/MANAGER.md"


def is_served(shell: Shell) -> None:
    judge(f"{PAGE}: serve ends after its count", shell.end() == 0)


# the page shows what each of them prints
ROWS = [
    Row("./office apply manager.db examples/manager/"),
    Row("./office import manager.db 2024-01-12 examples/manager/03-records.csv"),
    Row("./office export manager.db"),
    Row("OFFICE=./office companions/copies/office-backup manager.db", prints=""),
    Row("./office resume manager.db"),
    Row("./office overdue manager.db"),
    Row("./office certificate manager.db"),
    Row("./office serve manager.db 8080 3 &", serves=True),
    Row("office-transfer --office https:", skip="the site of SERVICE.md is not there"),
    Row("office-receipts --office https:", skip="the site of SERVICE.md is not there"),
    Row("office-transfer --catalogue none 1 transfer-1", then=is_served),
    Row("cat transfer-1/manifest-sha256.txt"),
    Row("(cd transfer-1 && sed", prints=""),
    Row("office-receipts transfer-1"),
    Row("./office apply manager.db 06.json"),
    Row("head -n -1 certificate-3.txt | sha256sum"),
    Row("tail -n 1 certificate-3.txt"),
    Row("sqlite3 copy.db"),
]


def run(shell: Shell) -> None:
    run_page(shell, PAGE, ROWS)
