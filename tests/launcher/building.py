"""`./office build`, the help without a program, and what the launcher says where something lacks."""
import json
import os
import pathlib
import re
import signal
import subprocess
import sys
import time
from collections.abc import Callable

from clone import Clone
from pages.commands import TOP
from kit.judging import judge
from pages.shell import PROGRAM

sys.path.append(str(TOP / "deploy/packaging"))

from making.words import table  # noqa: E402

__all__ = ["help_of_program", "judge_build", "judge_help", "judge_lacks", "judge_stopped", "table", "with_mount"]


def help_of_program(*words: str) -> str:
    """What the program that is tried prints itself, by the name that it has where it is built."""
    done = subprocess.run(["office", "help", *words], executable=PROGRAM, stdin=subprocess.DEVNULL, stderr=subprocess.PIPE,
                          check=False)
    return done.stderr.decode()


# the words of the launcher itself
OWN = ["demo", "build", "install", "package", "test", "version"]


def judge_help(clone: Clone) -> None:
    """Without a program the help is the built program's, and neither it nor the version needs the kit."""
    wanted = help_of_program() + "\nCommands of ./office itself:\n"
    for words in ("", "help", "-h", "--help"):
        done = clone.run(f"clone/office {words}", PATH="/usr/bin:/bin")
        judge(f"office {words} shows the help at once", done[:2] == (2, "") and done.err.startswith(wanted), f"{done}")
        own = re.findall(r"^  (\w+)", done.err.removeprefix(wanted), re.M)
        judge(f"office {words} shows the launcher's own", own == OWN, f"{own}")
    last = re.findall(r"^## (\S+) \((\S+)\)$", (TOP / "CHANGELOG.md").read_text(), re.M)[0]
    for words in ("version", "--version"):
        done = clone.run(f"clone/office {words}", PATH="/usr/bin:/bin")
        judge(f"office {words} is that of CHANGELOG", done.out.startswith(f"office {last[0]} of {last[1]}"), f"{done}")
    for word in table():
        kept = (2, "", help_of_program(word.name))
        for words in (f"help {word.name}", f"{word.name} --help"):
            done = clone.run(f"clone/office {words}", PATH="/usr/bin:/bin")
            judge(f"office {words} shows its help at once", done == kept, f"{done}")
    done = clone.run("clone/office test --help", PATH="/usr/bin:/bin")
    judge("office test --help shows its options", done.status == 0 and "./office test --quick" in done.out, f"{done}")
    done = clone.run("clone/office test none_such", PATH="/usr/bin:/bin")
    judge("office test NAME, of no trial: a line says so", done.status == 1 and "no trial of these names" in done.err,
          f"{done}")
    for words in ("help build", "build --help", "install -h", "demo --help", "help test"):
        done = clone.run(f"clone/office {words}", PATH="/usr/bin:/bin")
        judge(f"office {words} shows the launcher's commands, and builds nothing", done[:2] == (2, "")
              and done.err.startswith("Commands of ./office itself:\n"), f"{done}")


def judge_build(clone: Clone) -> None:
    clone.run("clone/office init archive.db")
    judge("a preview is there", (clone.out / "preview/office").exists())
    done = clone.run("clone/office build", SLOW="0.4", BUILD_MINUTE="0.5")
    judge("a build takes its place", not (clone.out / "preview").exists())
    lines = done.err.splitlines()
    judge("a build says its minutes first", done.status == 0 and lines[0].startswith("office: proving and building")
          and lines[0].endswith("by the sizes of the sources"), done.err)
    told = [line for line in lines if " of 4 libraries after 1 minute; at work: " in line]
    judge("then how far it is, in libraries and functions, and what is left",
          any(" of 3 functions)" in line and " left, by" in line for line in told), done.err)
    judge("then the program's functions", any("the program (" in line for line in lines), done.err)
    figures = json.loads((clone.out / "build.json").read_text())
    judge("its figures are kept", set(figures) == {"office", "office_days", "office_base", "office_plan", "office_tree"},
          f"{figures}")
    done = clone.run("clone/office build && clone/office due days")
    judge("a second build has nothing to do, and the program runs", done == (0, "built: due days\n", ""), f"{done}")
    done = clone.run("clone/office help")
    judge("its help is the program's own, and the launcher's words", done.out == "built: help\n"
          and done.err.startswith("\nCommands of ./office itself:\n  demo "), f"{done}")
    (clone.top / "crates/office_tree/src/lib.rt").write_text("// changed for a second build\n")
    done = clone.run("clone/office build")
    judge("after a change it guesses by the last build", done.status == 0 and "by the last build" in done.err, done.err)
    clone.unbuilt()
    done = clone.run("clone/office build", FAILS="office_base")
    judge("a refused library ends it, with what rt said", done.status == 2 and "rattle: refused" in done.err
          and done.err.endswith("could not be proved and built, as said above\n"), done.err)
    done = clone.run("clone/office build; mkdir locked && mount -t tmpfs -o ro tmpfs locked; clone/office install locked && echo done;"
                     " umount locked")
    judge("install into a folder that cannot be written says so", "cannot be written by you: " in done.err
          and not done.out, f"{done}")
    clone.unbuilt()


def stopped(clone: Clone, number: int) -> str:
    """What a build says that gets a signal once two libraries are done."""
    env = {**os.environ, **clone.env(SLOW="1")}
    build = subprocess.Popen([clone.top / ".ci/build"], env=env, stderr=subprocess.PIPE, text=True)
    deadline = time.time() + 60
    while len(clone.made()) < 2 and time.time() < deadline:
        time.sleep(0.1)
    time.sleep(0.7)
    build.send_signal(number)
    return build.communicate()[1]


def judge_stopped(clone: Clone) -> None:
    said = stopped(clone, signal.SIGINT)
    judge("a stopped build says how to go on", said.endswith("stopped: ./office build goes on where it was\n"), said)
    judge("what was under way is kept", any(clone.top.glob("crates/office_tree/out/*")))
    done = clone.run("clone/office build")
    judge("a second build goes on", done.status == 0 and len(clone.made()) == 4, f"{done}")
    clone.unbuilt()
    stopped(clone, signal.SIGKILL)
    done = clone.run("clone/office build")
    judge("so it does after kill -9", done.status == 0 and "goes on with what it had proved" in done.err, done.err)
    clone.unbuilt()


def lacks(clone: Clone, name: str, says: str, command: str = "clone/office build", **env: str) -> None:
    done = clone.run(command, **env)
    judge(f"{name}: one line says what to do", done.status == 2 and done.err.startswith("office: ") and says in done.err
          and done.err.count("\n") == 1, f"{done}")


def with_mount(words: list[object], place: pathlib.Path, trial: Callable[[], None]) -> None:
    subprocess.run(["mount", *map(str, words), str(place)], check=True)
    try:
        trial()
    finally:
        subprocess.run(["umount", str(place)], check=True)


def judge_lacks(clone: Clone) -> None:
    small, whole = "clone/office due days 1 none 2024-02-28", "clone/office init archive.db"
    for command in ("clone/office build", small, whole):
        lacks(clone, f"no rt, {command}", "put its folder 'bin' there", command, PATH="/usr/bin:/bin")
    memory = clone.shell.path("meminfo")
    memory.write_text("MemAvailable:     1000000 kB\nSwapFree:         900000 kB\n")
    for command, needed in (("clone/office build", "7 GB"), (whole, "5 GB"), (small, "2 GB")):
        with_mount(["--bind", memory], pathlib.Path("/proc/meminfo"), lambda: lacks(
            clone, f"little memory, {command}", f"needs {needed} of free memory, and 1.9 GB are free", command))
    clone.out.mkdir(exist_ok=True)
    with_mount(["-t", "tmpfs", "-o", "size=100m", "tmpfs"], clone.out, lambda: lacks(
        clone, "little disk", f"needs 10 GB of free disk in {clone.out}, and 0.1 GB are free"))
    little = clone.shell.path("little")
    little.mkdir()
    with_mount(["-t", "tmpfs", "-o", "size=100m", "tmpfs"], little, lambda: lacks(
        clone, "little disk for a preview", f"needs 1 GB of free disk in {little}, and 0.1 GB are free", whole,
        TMPDIR=str(little)))
    for command in ("clone/office build", whole):
        with_mount(["--bind", "-o", "ro", clone.top], clone.top, lambda: lacks(
            clone, f"no right to write, {command}", "cannot be written by you", command))
