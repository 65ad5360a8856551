"""README.md, and what `./office install` does where there is no program or an old one."""
import os
import shutil
import sys

from pages.commands import TOP
from pages.expected import Row, run_page
from pages.files import FIRST, alone
from kit.judging import judge
from pages.shell import Shell

sys.path.append(str(TOP / "deploy/packaging"))

from making.words import table  # noqa: E402

PAGE = "README.md"


def is_installed(shell: Shell) -> None:
    """The program is there, and works; a launcher without a program, or with one of other sources, says what to do."""
    done = shell.run("DIR/office due days 1 none 2024-02-28")
    judge("the installed program works", done.out == "2024-02-29\n", done.out + done.err)
    for words in ("help", *(f"help {it.name}" for it in table())):
        done, declared = shell.run(f"DIR/office {words}"), shell.run(f"{TOP / '.ci/commands.py'} {words}")
        judge(f"its {words} is that of .ci/commands.py", done == (2, "", declared.out) and declared.status == 0, f"{done}")
    other = shell.path("other")
    other.mkdir()
    shutil.copy(shell.path("office"), other / "office")
    shutil.copy(shell.path("crates.txt"), other / "crates.txt")
    says(shell, "there is no program yet")
    shutil.copytree(shell.path("crates"), other / "crates")
    judge_installs(shell)
    (other / "crates.txt").write_text("changed\n")
    says(shell, "the sources changed since this program was built")
    (other / "crates/office/out/launcher.sources").unlink()
    says(shell, "the sources changed since this program was built")
    os.utime(other / "crates.txt", (0, 0))
    judge_installs(shell)


def says(shell: Shell, words: str) -> None:
    """install ends with 2 and these words, which name the remedy, and builds nothing."""
    done = shell.run("mkdir -p other/to && PATH=/usr/bin:/bin other/office install other/to")
    wanted = f"office: {words}: run ./office build first\n"
    judge(f"install says: {words}", (done.status, done.out, done.err) == (2, "", wanted), f"{done}")
    judge("and installs nothing", not os.path.exists(shell.path("other/to/office")))


def judge_installs(shell: Shell) -> None:
    done = shell.run("mkdir -p other/there && other/office install other/there && rm other/there/office")
    judge("install puts a program there that is of the sources", done.status == 0, done.err)


ROWS = [
    Row("./office demo", skip="tests/launcher/run tries it"),
    Row("./office due"),
    Row("./office apply", then=alone("apply", "first.db", {**FIRST, "runs": 1, "entries": 0})),
    Row("./office resume", then=alone("resume", "first.db", {**FIRST, "runs": 1, "entries": 1, "contents": 0})),
    Row("./office certificate", then=alone("certificate", "first.db", {**FIRST, "runs": 1, "certificates": 1})),
    Row("./office build"),
    Row("./office package", skip="tests/package/run makes it"),
    Row("./office install DIR", then=is_installed),
]


def run(shell: Shell) -> None:
    run_page(shell, PAGE, ROWS)
