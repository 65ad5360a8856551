"""Root starts a script in a folder of somebody who attacks it (tests/service_scripts): nothing of root's is changed.

The attacker owns FILE and its folder. While a script works, a tool that it calls does in the attacker's name what a
process that waits would do: the script's own folder is renamed, and one with links to a file of root's is put there.
"""
from __future__ import annotations

import os
import pathlib
import shutil
import sys

from service_scripts.place import NOBODY, OFFICE, made, run, script
from kit.commands import TOP
from kit.companions import companion
from kit.judging import judge

VICTIM = b"root's own\n"
AS_OWNER = f"setpriv --reuid={NOBODY} --regid={NOBODY} --clear-groups"


def attack(links: list[str], folder: str, victim: pathlib.Path) -> str:
    """Lines of a shell: what is at `folder` goes away, and links to the victim come there, as the attacker can."""
    below = sorted({os.path.dirname(it) for it in links} - {""})
    steps = [f'mv "{folder}" "{folder}-away"', f'mkdir "{folder}"', *[f'mkdir "{folder}/{it}"' for it in below],
             *[f'ln -s {victim} "{folder}/{it}"' for it in links]]
    own = "" if os.geteuid() else f'[ "$(id -u)" -ne 0 ] || set -- {AS_OWNER}\n'
    return f"set --\n{own}\"$@\" sh -c '" + " && ".join(steps).replace("'", "'\\''") + "' 2>/dev/null"


def tool(folder: pathlib.Path, name: str, when: str, lines: str, then: str) -> pathlib.Path:
    """A tool that attacks once, if its words are those, and then does what it is for."""
    folder.mkdir()
    folder.chmod(0o777)
    there = folder / name
    there.write_text(f"#!/bin/sh\ncase $* in {when}) if mkdir {folder}/done 2>/dev/null; then\n"
                     f"at=$({folder}/where \"$@\")\n(export at\n{lines}\n)\nfi ;; esac\n{then}\n")
    there.chmod(0o755)
    return there


def where(folder: pathlib.Path, lines: str) -> None:
    """How the attacker finds the script's folder, of the tool's words."""
    place = folder / "where"
    place.write_text(f"#!/bin/sh\n{lines}\n")
    place.chmod(0o755)


def raced(folder: pathlib.Path, name: str, words: list[object], by: tuple[str, str, str], links: list[str]) -> None:
    """One script against one attack: a tool, the words at which it attacks, and how it finds the folder."""
    victim = folder / f"victim-{name}"
    victim.write_bytes(VICTIM)
    victim.chmod(0o600)
    which, when, found = by
    place = folder / f"tools-{name}"
    then = f'exec {OFFICE if which == "office" else shutil.which(which)} "$@"'
    if which == "office":
        # so that an attack is not seen by the opening of what is no office
        then = f'case $* in {when}) exit 0 ;; esac\n{then}'
    tool(place, which, when, attack(links, "$at", victim), then)
    where(place, found)
    env = {"OFFICE": str(place / "office")} if which == "office" else {"PATH": f"{place}:{os.environ['PATH']}"}
    status, out, error = script(name, *words, **env)
    kept = victim.stat()
    judge(f"{name}: the owner attacks while root runs it, and a file of root's stays as it was",
          (place / "done").is_dir() and (kept.st_uid, kept.st_mode & 0o777, victim.read_bytes()) == (0, 0o600, VICTIM),
          f"status {status}, owner {kept.st_uid}, mode {kept.st_mode & 0o777:o}, {victim.read_bytes()[:12]!r}; "
          + (error or out).strip()[:150])


AS_ANOTHER = """import os, sys
sys.path[:0] = ["{0}", "{0}/registers"]
from office_common import rights
from office_lists import commands
sys.exit(commands.run(["{2}"], owner=rights.owner_in(os.stat("{1}"))))"""
"""runs a command as the owner of a file"""

# the folder of the last word
OF_LAST = 'for it; do :; done; dirname -- "$it"'


def owner(folder: pathlib.Path) -> None:
    file = made(folder, "owner")
    home, copy = file.parent, folder / "owner-copy.db"
    shutil.copy(file, copy)
    own = folder / "owned"
    own.mkdir()
    os.chown(own, NOBODY, NOBODY)
    before = (file.read_bytes(), os.stat(copy).st_uid)
    raced(folder, "office-restore", [file, copy], ("office", "*init*/office.db", OF_LAST), ["office.db"])
    clean(home, file, before[0])
    raced(folder, "office-compact", [file], ("office", "*init*.??????/office.db", OF_LAST), ["office.db"])
    clean(home, file, before[0])
    raced(folder, "office-catalogue", [copy, own], ("office", "*init*/office.db", OF_LAST),
          ["files/schedules.json.gz", "office.db"])
    raced(folder, "office-backup", [file, own / "copy.db"], ("cp", "*/office.db", OF_LAST), ["office.db"])
    links(folder, file, copy)


def clean(home: pathlib.Path, file: pathlib.Path, was: bytes) -> None:
    """FILE as it was, and nothing else in its folder."""
    for it in home.iterdir():
        shutil.rmtree(it) if it.is_dir() and not it.is_symlink() else it.unlink()
    file.write_bytes(was)
    os.chown(file, NOBODY, NOBODY)


def links(folder: pathlib.Path, file: pathlib.Path, copy: pathlib.Path) -> None:
    """Links of the owner to what is root's: neither written through nor read."""
    victim, link = folder / "victim", file.with_name("link.db")
    victim.write_bytes(copy.read_bytes())
    victim.chmod(0o600)
    link.symlink_to(victim)
    os.lchown(link, NOBODY, NOBODY)
    for name, words in (("office-restore", [link, copy]), ("office-compact", [link]),
                        ("office-prune", [link]), ("office-overdue", [link, "-", "2025-02-02", 30])):
        status, _, error = script(name, *words)
        judge(f"{name}: FILE is a link of its owner to a file of root's: it is refused",
              status == 1 and "decide where" in error and victim.stat().st_ino == os.stat(link).st_ino, error.strip())
    stands = file.read_bytes()
    status, _, error = script("office-restore", file, link)
    judge("office-restore: COPY is a link of FILE's owner to what only root may read: it is not read for the owner",
          status == 1 and "may not read" in error and file.read_bytes() == stands, error.strip())
    status, _, error = script("office-backup", file, copy.with_name("root.db"))
    judge("office-backup: a copy in a folder of root's is root's",
          status == 0 and (copy.with_name("root.db").stat().st_uid, copy.with_name("root.db").stat().st_mode & 0o777)
          == (0, 0o600), error.strip())
    registers(folder, file)
    seen = folder / "seen"
    seen.write_text('#!/bin/sh\n[ "$(cut -d" " -f6 /proc/$$/stat)" = $$ ] && echo "$(id -u), own session, $SECRET"\n')
    seen.chmod(0o755)
    for shell, line in ((("sh", "-c"), f'. {companion("office-shared")}; find_owner {file}; become {seen}'),
                        ((sys.executable, "-I", "-c"), AS_ANOTHER.format(TOP / "companions", file, seen))):
        output = run(*shell, line, SECRET="of-root")[1]
        judge(f"{shell[0]}: the owner gets nothing of root's environment, and no session with root's terminal",
              output == f"{NOBODY}, own session, \n", output)


def registers(folder: pathlib.Path, file: pathlib.Path) -> None:
    """Root makes a register: in a folder of root's it is root's, in one that others may change it makes none."""
    for name, mode, wanted in (("roots", 0o700, (0, 0, 0o600)), ("shared", 0o777, (1, None, None))):
        there = folder / name
        there.mkdir()
        there.chmod(mode)
        status, _, error = script("office-overdue", file, there, "2025-02-02", 30)
        lists = [(path.name, path.stat()) for path in there.iterdir()]
        made = [(status, state.st_uid, state.st_mode & 0o777) for _, state in lists] or [(status, None, None)]
        judge(f"office-overdue: a register in a folder of root's with mode {mode:o}", made == [wanted], f"{lists} {error}")
