"""docs/INSTALL.md: the program, and the first office."""
from pages.expected import Row, run_page
from pages.files import alone
from pages.shell import Shell

PAGE = "docs/INSTALL.md"
BOOTED = "it needs systemd; tests/setup/booted runs it as the page has it"
ROWS = [
    Row("office-setup", skip=BOOTED),
    Row("editor", skip=BOOTED),
    Row("./office build"),
    Row("./office package", skip="tests/package/run makes it"),
    Row("apt-get install ./office_", skip="tests/package/run installs it"),
    Row("./office install /usr/local/bin"),
    Row("office-copies", skip="without the package; tests/package/run upgrades one"),
    Row("office init archive.db", prints="version 2\n", then=alone("init", "archive.db", {"office": 1})),
]


def run(shell: Shell) -> None:
    run_page(shell, PAGE, ROWS)
