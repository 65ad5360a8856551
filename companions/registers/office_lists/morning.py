"""A list of a morning: made from a copy of an office that is taken for it, and put into a folder once it is whole.

If anything fails the status is 1, and the list that was there stays. Root continues as FILE's owner, who touches no
folder of root's.
"""
import os
import re
import shutil
import sys
from collections.abc import Callable
from pathlib import Path
from typing import NamedTuple

from office_common import command, files, program, rights
from office_common.errors import WRONG, Refused
from office_lists import commands


class Request(NamedTuple):
    """The arguments of a command: FILE, FOLDER (None is standard output), DAY, COUNT, and FOLDER as it was named."""

    file: Path
    folder: Path | None
    day: str
    margin: str
    named: str

    def args(self, folder: str) -> list[str]:
        """Returns the arguments of this command for another folder."""
        return [str(self.file), folder, self.day, self.margin]


class Kind(NamedTuple):
    """A kind of list: its command, its file, the form of a day, and its writer.

    A writer gets a folder with a copy of the office, copy.db. It writes the list there, and returns it with others that
    go with it.
    """

    name: str
    file: str
    day: str
    write: Callable[[Path, Request], list[Path]]


def fail(text: str) -> Refused:
    return Refused(WRONG, text)


def save(args: list[str], file: Path, failure: str) -> Path:
    """Writes the output of a command to a file, and returns the file. Refused has this text if the command fails."""
    with file.open("wb") as out:
        if commands.run(args, out):
            raise fail(failure)
    return file


def find_program() -> None:
    """Names the program by its whole path, for the commands that run in another folder."""
    try:
        os.environ["OFFICE"] = os.path.abspath(program.find())
    except Refused as refused:
        raise fail(str(refused)) from refused


def read(kind: Kind, args: list[str]) -> Request:
    """Reads the arguments. Refused says which is wrong, or who else may run this."""
    named, folder, day, margin = args
    find_program()
    file = Path(named)
    if not file.exists():
        raise fail(f"there is no {named}")
    rights.check_owner(file.absolute())
    if folder != "-" and not Path(folder).is_dir():
        raise fail(f"there is no folder {folder}")
    # so that no DAY leads to another folder; the program reports all else that is wrong with it
    if not re.fullmatch(kind.day, day):
        raise fail(f"'{day}' is no day")
    return Request(file.resolve(), None if folder == "-" else Path(folder).absolute(), day, margin, folder)


def target_of(request: Request, folder: Path | str, name: str) -> Path:
    """Returns the path of a list in a folder, with the day in its name."""
    stem, end = os.path.splitext(name)
    return Path(folder, f"{stem}-{request.day}{end}")


def put(lists: list[Path], request: Request) -> None:
    """Puts lists that are whole into the folder, or the list to standard output."""
    if request.folder is None:
        with lists[0].open("rb") as file:
            shutil.copyfileobj(file, sys.stdout.buffer)
        return
    for path in lists:
        files.sync(path)
    for path in lists:
        if commands.run(["mv", "-f", "--", str(path), str(target_of(request, request.folder, path.name))]):
            sys.exit(WRONG)
    print(target_of(request, request.named, lists[0].name))


def make_as_owner(kind: Kind, request: Request) -> int:
    """Makes a list as FILE's owner. Into a folder of root's, which the owner does not touch, root puts the list."""
    file, folder, script = request.file.stat(), request.folder, str(Path(sys.argv[0]).resolve())
    owner = rights.owner_in(file)
    if folder is None or folder.stat().st_uid == file.st_uid:
        return commands.run([script, *request.args("-" if folder is None else str(folder))], owner=owner)
    if not rights.is_only_theirs(folder, 0):
        raise fail(f"others than root decide where {folder} leads (namei -l {folder})")
    with files.new_folder(folder, f".{kind.name}.") as new:
        with (new / kind.file).open("wb") as out:
            status = commands.run([script, *request.args("-")], out, owner)
        if status == 0:
            put([new / kind.file], request)
    return status


def make(kind: Kind, args: list[str]) -> int:
    """Makes a list, and returns the exit status."""
    request = read(kind, args)
    if rights.is_anothers(request.file.stat()):
        return make_as_owner(kind, request)
    with files.new_folder(request.folder or request.file.parent, f".{kind.name}.") as new:
        if commands.run([commands.path_of("office-backup"), str(request.file), str(new / "copy.db")]):
            raise fail(f"there is no copy of {args[0]}")
        put(kind.write(new, request), request)
    return 0


def run(kind: Kind) -> int:
    """Runs the command of a kind of list, and returns its exit status."""
    args = command.operands(f"{kind.name} FILE FOLDER DAY COUNT", 4, 4)
    command.end_by_signals()
    os.umask(0o077)
    return WRONG if command.run(kind.name, lambda: make(kind, args)) else 0
