"""Both commands are killed at each write, and lack room on the disk: a name is there with all of it, or is not there."""
from __future__ import annotations

import os
import pathlib
import re
import shutil
import subprocess
from collections.abc import Callable

from kit.commands import OFFICE, run
from kit.companions import companion
from kit.judging import judge, same
from place import files_in, names_in, rows, small_bag, unjudging

CALLS = "write,pwrite64,openat,rename,mkdir,unlink,unlinkat,rmdir,fsync,fdatasync,ftruncate,close,wait4,flock"
KILLS = int(os.environ.get("KILLS", "3"))
"""kills of each command at each kind of call, spread over its work; the last call of a kind is among them"""


def calls_of(arguments: list[object], folder: pathlib.Path, program: str) -> dict[str, int]:
    """Counts the calls of a command that change something, by their kinds."""
    counts = folder / "counts"
    done = run("strace", "-c", "-U", "name,calls", "-o", counts, "-e", f"trace={CALLS}", *arguments, OFFICE=program)
    judge("a command under strace does its work", done.status == 0, done)
    return {name: int(count) for name, count in re.findall(r"^([a-z0-9]+)\s+(\d+)$", counts.read_text(), re.M)}


def kills(name: str, arguments: list[object], target: pathlib.Path, is_whole: Callable[[], bool], program: str,
          folder: pathlib.Path) -> None:
    """Kills a command at calls of each kind that are spread over its work."""
    counts = calls_of(arguments, folder, program)
    counts.pop("total", None)
    remove(target)
    places = [(call, at) for call, count in counts.items()
              for at in sorted({count, *(1 + turn * count // KILLS for turn in range(min(KILLS, count)))})]
    killed = left = whole = 0
    for call, at in places:
        done = run("strace", "-o", "/dev/null", "-e", f"trace={call}", "-e", f"inject={call}:signal=SIGKILL:when={at}",
                   *arguments, OFFICE=program)
        killed += done.status != 0
        left += any(path.name.startswith(f".{target.name}.new-") for path in target.parent.iterdir())
        if target.exists():
            whole += 1
            judge(f"{name}, killed at {call} {at}: what has the name is whole", is_whole(), is_quiet=True)
            remove(target)
    print(f"    {name}: {counts}, kills {killed}, with something left {left}, with the name {whole}")
    judge(f"{name}: kills meet the work", killed > len(places) * 2 // 3 and left > killed // 3, (killed, left, whole))
    done = run(*arguments, OFFICE=program)
    judge(f"{name}: the next call does it all", done.status == 0 and is_whole(), done)
    same(f"{name}: and clears away what was left", [path for path in names_in(target.parent) if path.startswith(".")], [])


def remove(path: pathlib.Path) -> None:
    if path.is_dir():
        shutil.rmtree(path)
    else:
        path.unlink(missing_ok=True)


def stops(folder: pathlib.Path) -> None:
    bag, program, work = small_bag(folder), unjudging(folder), folder / "work"
    work.mkdir()
    model, wanted = files_in(bag), rows(folder / "office.db")
    kills("export", [companion("office-export"), folder / "office.db", work / "bag"], work / "bag",
          lambda: files_in(work / "bag") == model, program, folder)
    kills("import", [companion("office-import"), bag, work / "new.db"], work / "new.db",
          lambda: rows(work / "new.db") == wanted, program, folder)


def order(folder: pathlib.Path) -> None:
    """What is new is on the disk before it has its name, and the name is on the disk before the command ends."""
    bag, program, trace = small_bag(folder), unjudging(folder), folder / "trace"
    new = f"{folder}/.(bag2|new.db).new-[^/>]*"
    for name, arguments, wanted in (
            ("export", (folder / "office.db", folder / "bag2"), (rf"syncfs\(\d+<{new}/bag>", rf"renameat2?\(.*{new}/bag", rf"fsync\(\d+<{folder}>")),
            ("import", (bag, folder / "new.db"), (rf"fsync\(\d+<{new}/office.db>", rf"renameat2?\(.*{new}/office.db", rf"fsync\(\d+<{folder}>"))):
        done = run("strace", "-f", "-y", "-s", "999", "-o", trace, "-e", "trace=fsync,fdatasync,syncfs,rename,renameat,renameat2",
                   companion(f"office-{name}"), *arguments, OFFICE=program)
        lines = [line for line in trace.read_text().splitlines() if "= 0" in line]
        at = 0
        for pattern in wanted:
            place = next((number for number, line in enumerate(lines[at:], at) if re.search(pattern, line)), None)
            judge(f"{name}: {pattern.split('(')[0].strip('?')} in its turn", done.status == 0 and place is not None, (pattern, lines))
            at = place + 1 if place is not None else at
        judge(f"{name}: its rename replaces nothing", any("RENAME_NOREPLACE" in line for line in lines), lines)


def full(folder: pathlib.Path) -> None:
    bag, program, disk = small_bag(folder), unjudging(folder), folder / "disk"
    disk.mkdir()
    room = sum(-(-path.stat().st_size // 4096) + 1 for path in bag.rglob("*")) + 8
    for command, arguments, most in (("office-export", (folder / "office.db", disk / "new"), room),
                                     ("office-import", (bag, disk / "new"), 80)):
        ends = []
        for pages in (1, 3, 6, *range(10, most, max(1, most // 8)), 2 * most):
            subprocess.run(["mount", "-t", "tmpfs", "-o", f"size={pages * 4096}", "tmpfs", disk], check=True)
            try:
                done = run(companion(command), *arguments, OFFICE=program)
                ends.append(done.status)
                is_done = done.status == 0
                judge(f"{command} with {pages} pages", is_done or done.status == 3 and done.error.count("\n") == 1, done, is_quiet=True)
                same(f"what {command} leaves with {pages} pages", names_in(disk), ["new"] if is_done else [])
            finally:
                subprocess.run(["umount", disk], check=True)
        judge(f"{command} lacks room, and has it at last", ends[-1] == 0 and set(ends[:3]) == {3}, ends)
    with_program(folder, bag, disk)


def with_program(folder: pathlib.Path, bag: pathlib.Path, disk: pathlib.Path) -> None:
    """The program itself finds no room for its empty office."""
    subprocess.run(["mount", "-t", "tmpfs", "-o", "size=20480", "tmpfs", disk], check=True)
    try:
        done = run(companion("office-import"), bag, disk / "new", OFFICE=OFFICE)
        judge("the program lacks room", done.status == 3 and "makes no office" in done.error and names_in(disk) == [], done)
    finally:
        subprocess.run(["umount", disk], check=True)
