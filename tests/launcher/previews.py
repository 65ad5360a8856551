"""Previews: compiled once and kept, or, where a kit keeps its programs elsewhere, compiled each time; what they print."""
import os
import pathlib
import re
import signal
import subprocess
import time
from collections.abc import Callable

from building import help_of_program, table
from clone import Clone
from pages.commands import commands
from kit.judging import judge
from pages.shell import Done, Shell

INTERRUPTED = pathlib.Path(__file__).with_name("interrupted.py")
DUE = "clone/office due years 7 from-month-4 2017-06-30"
INIT = "clone/office init archive.db"
COMPILED = "office: compiled with checks, not proved, not for records that matter: ./office build proves it (half an hour)\n"
WHOLE = "office: compiling a preview, with checks and without proof: about 4 minutes\n"
SMALL = "office: compiling a preview of due and plan, with checks and without proof: about 1 minute\n"
SECRET = "0123456789abcdefABCDEF0123456789"
SETTINGS = "site https://localhost\\nzone UTC\\nrole reader reads records\\nname reader is reader\\n"
"""of a gate, as printf takes it"""
# commands of the table of README.md that its blocks do not show, and some that are refused
MORE = [
    "./office due months 1 none 2024-01-31", "./office due weeks x none 2024-01-31", "./office due days 1 none 2024-13-01",
    "./office due days -1 none 2024-02-28", "./office due -- days 1 none 2024-02-28", "./office plan examples/plan/usual.plan",
    "./office plan examples/first/acts.json", "./office plan examples", "./office init letters.db",
    "./office apply letters.db examples/import/office.json",
    "./office import letters.db 2024-01-02 examples/import/letters.csv", "./office export letters.db 2027-06-01",
    "./office export first.db entries", "./office overdue letters.db 2034-06-01 30", "./office certificate first.db 9",
    "./office resume first.db", "./office apply letters.db none.json", "./office apply letters.db examples/plan/usual.plan",
    "./office serve first.db 8080 2 & until curl --silent --fail --output /dev/null http://127.0.0.1:8080/x || [ $? = 22 ]; "
    "do sleep 0.1; done; curl --silent http://127.0.0.1:8080/records/1/content; wait", "./office serve first.db 0 1",
    "./office gate first.db 8080 1 none.access none.token -", "./office gate first.db 0 1 first.access first.token -",
    "./office gate first.db 8080 2 first.access first.token - & until curl --silent --fail --output /dev/null "
    "http://127.0.0.1:8080/x || [ $? = 22 ]; do sleep 0.1; done; curl --silent --header 'Office-Token: " + SECRET +
    "' --header 'Office-Name: reader' --header 'Office-Day: 2026-06-01' http://127.0.0.1:8080/records/1; wait",
]


def judge_due(clone: Clone) -> None:
    """`due` and `plan` have a preview of their own, until that of the whole program is there."""
    done = clone.run(DUE)
    judge("a first due is compiled", done == (0, "2025-04-01\n", SMALL + COMPILED), f"{done}")
    tried = clone.tried()
    judge("by rt try, of two commands alone", len(tried) == 1 and tried[0].startswith("days: try -- plan "), f"{tried}")
    done = clone.run(DUE)
    judge("a second is not", done == (0, "2025-04-01\n", COMPILED) and not clone.tried(), f"{done}")
    done = clone.run("cd clone/examples && ../office plan plan/archive.plan")
    judge("plan is done by it too, of a FILE of the folder where one is", done.status == 0 and done.err == COMPILED
          and done.out.startswith("1 ") and not clone.tried(), f"{done}")
    done = clone.run("clone/office plan <(echo one)")
    judge("FILE may be a pipe; status and standard error are the program's",
          done == (1, "", COMPILED + "office: line 1 refused 2\n"), f"{done}")
    done = clone.run("clone/office plan crates/none")
    judge("a FILE that is not there is named at once", done == (3, "", "office: crates/none cannot be read: "
          "check its name and its permissions\n"), f"{done}")


def judge_wrong(clone: Clone) -> None:
    """What is wrong with the words is said before anything is compiled."""
    for word in table():
        usage = f"usage: ./{re.findall('Usage: (.*)', help_of_program(word.name))[0]}\n".replace("<", "").replace(">", "")
        for wrong in (word.name, f"{word.name}{' 1' * (len(word.operands) + 1)}"):
            done = clone.run(f"clone/office {wrong}")
            judge(f"wrong operands, {wrong}, are seen at once", done == (2, "", usage), f"{done}")
    for wrong in ("aply", "-V"):
        done = clone.run(f"clone/office {wrong} archive.db acts.json")
        judge(f"a wrong word, {wrong}, is seen at once", done == (2, "", f"office: there is no command '{wrong}': "
              "./office help shows the commands\n"), f"{done}")
    judge("nothing was compiled for these", not clone.tried())


def judge_whole(clone: Clone) -> None:
    """All commands have one preview, until a source of it changes."""
    done = clone.run(INIT, FAILS="office")
    judge("a preview that does not compile says so", done.status == 2 and done.err == WHOLE
          + "error: the sources do not compile\nrun=none proved=no\noffice: the preview could not be compiled, as said above\n",
          f"{done}")
    done = clone.run(f"({INIT} & {INIT} & wait) 2>&1", SLOW="1")
    waited = "office: another preview is at work in this folder: this one waits until it has ended\n"
    judge("of two at a time one compiles", len(clone.tried()) == 2 and done.out.count(WHOLE) == 1 and done.out.count(waited) == 1
          and done.out.count(COMPILED) == 2 and done.out.count("version 2\n") >= 1, f"{done}")
    done = clone.run(INIT)
    judge("then each command runs at once", done == (0, "version 2\n", COMPILED), f"{done}")
    done = clone.run(DUE)
    judge("due too", done == (0, "2025-04-01\n", COMPILED) and not clone.tried(), f"{done}")
    for command in ("package", "install"):
        done = clone.run(f"clone/office {command}")
        judge(f"{command} takes no preview", done == (2, "", "office: there is no program yet: run ./office build first\n"), f"{done}")
    (clone.top / "crates/office_tree/src/lib.rt").write_text("// changed\n")
    done = clone.run(DUE)
    judge("after a change of a source that is not below due its preview is there", done == (0, "2025-04-01\n", COMPILED)
          and not clone.tried(), f"{done}")
    done = clone.run(INIT, SLOW="6", BUILD_MINUTE="1")
    left = re.findall("^office: the preview takes about ([123]) minutes? more$", done.err, re.M)
    after = re.findall("^office: the preview is still being compiled after (.) minutes: the machine is busy$", done.err, re.M)
    judge("the whole one is compiled again, and says each minute what is left", (done.status, done.out) == (0, "version 2\n")
          and left == sorted(left, reverse=True) and left and after and after[0] > "3"
          and done.err.count("\n") == 2 + len(left) + len(after) and [it[:7] for it in clone.tried()] == ["office:"], f"{done}")
    made = {str(it.relative_to(clone.top)) for it in clone.top.glob("crates/*/out/*")}
    judge("all that is left is its folder", made == {"crates/office/out/preview"}, f"{made}")


def judge_stopped(clone: Clone) -> None:
    """Ctrl-C ends what is being compiled, and leaves nothing behind."""
    clone.unbuilt()
    room = clone.shell.path("room")
    room.mkdir()
    run = subprocess.Popen([clone.top / "office", "init", "archive.db"], env={**os.environ, **clone.env(SLOW="30", TMPDIR=str(room))},
                           stderr=subprocess.PIPE, start_new_session=True)
    until(lambda: clone.words.exists())
    os.killpg(run.pid, signal.SIGINT)
    said = run.communicate()[1].decode()
    judge("a preview that is stopped ends", run.returncode in (130, -signal.SIGINT) and said == WHOLE, f"{run.returncode} {said}")
    left = [*map(str, room.iterdir()), *(it.name for it in clone.out.glob("preview/*") if it.suffix != ".lock")]
    judge("and leaves nothing behind", not left, f"{left}")
    clone.tried()
    done = clone.run(f"python3 -I {INTERRUPTED} {clone.top} {clone.words}", SLOW="30")
    judge("one that is stopped as it starts rt ends rt", done.out == "130 rt has ended\n", f"{done}")
    clone.tried()


def judge_beside(clone: Clone) -> None:
    """A due day is there while the whole preview is still being compiled."""
    clone.unbuilt()
    done = clone.run(f"(SLOW=9 {INIT} & sleep 1; {DUE}; wait) 2>&1")
    judge("due does not wait for the whole preview", done.status == 0 and "at work in this folder" not in done.out
          and -1 < done.out.find("2025-04-01\n") < done.out.find("version 2\n"), f"{done}")
    clone.tried()


def until(holds: Callable[[], bool]) -> None:
    """Waits until something holds, for five minutes."""
    deadline = time.time() + 300
    while not holds() and time.time() < deadline:
        time.sleep(0.05)


def judge_previews(clone: Clone) -> None:
    judge_due(clone)
    judge_wrong(clone)
    judge_whole(clone)
    judge_stopped(clone)
    judge_beside(clone)
    clone.unbuilt()


def judge_other_kit(clone: Clone) -> None:
    """A kit that shows no program while it runs: `due` and `plan` are compiled each time, other commands build."""
    for _ in range(2):
        done = clone.run(DUE, OTHER="1")
        judge("another kit: due is done by rt try", done == (0, "2025-04-01\n", SMALL + COMPILED), f"{done}")
        tried = clone.tried()
        judge("another kit: each time", len(tried) == 2 and tried[1] == f"days: try -- {DUE.removeprefix('clone/office ')}", f"{tried}")
    done = clone.run("clone/office plan <(cat examples/plan/archive.plan; echo one)", OTHER="1")
    judge("another kit: plan has a copy of FILE, status and standard error are the program's", done.status == 1
          and re.fullmatch(re.escape(SMALL + COMPILED) + r"office: line \d+ refused 2\n", done.err) is not None, f"{done}")
    done = clone.run("clone/office plan examples/plan/archive.plan", OTHER="1")
    judge("another kit: and its standard output", done.status == 0 and done.out.startswith("1 "), f"{done}")
    done = clone.run(INIT, OTHER="1")
    judge("another kit: another command builds first", done.out == "built: init archive.db\n" and
          done.err.startswith(f"{WHOLE}office: this kit shows no preview, so ./office build comes first\n"), f"{done}")
    clone.unbuilt()
    done = clone.run(INIT, PREVIEW="/bin/true")
    judge("a program that does not answer is none", done.out == "built: init archive.db\n", f"{done}")
    clone.unbuilt()
    clone.tried()


def plain(done: Done) -> Done:
    """What a command by a preview printed, without the launcher's own lines."""
    said = done.err
    for line in (WHOLE, SMALL, COMPILED):
        said = said.replace(line, "", 1)
    return Done(done.status, done.out, re.sub("^office: the preview (of due and plan )?(takes|is still) .*\n", "", said, flags=re.M))


def judge_alike(shell: Shell, preview: Callable[[str], Done]) -> None:
    """Each command of README.md, by the built program and by a preview, each in a folder of its own."""
    lines = [it.line for it in commands("README.md") if it.shown is not None and "office demo" not in it.line]
    for run in (shell.run, preview):
        run(f"rm -f first.db* letters.db*; printf '{SETTINGS}' >first.access; printf {SECRET} >first.token")
    for line in [*lines, *MORE]:
        built, kept = shell.run(line), plain(preview(line))
        judge(f"by a preview as by the built program: {line}", built == kept, f"{built}\n{kept}")
    words = {line.split(" ")[1] for line in [*lines, *MORE] if line.startswith("./office")}
    judge("these are all commands", {it.name for it in table()} <= words, f"{words}")
