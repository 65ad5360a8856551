"""The words of office-library: what each takes, and what it prints."""
import argparse
import datetime
import json
import os
import sys
from dataclasses import asdict
from pathlib import Path

from office_common import command, files, rights
from office_common.errors import USAGE, WRONG, Refused
from office_common.facts import LIMITS

from office_library import mandates, planning, sheet, why
from office_library.cells import is_day
from office_library.sheet import Library, Row

NAME = "office-library"
SHIPPED = ("libraries", "../share/office/libraries")
"""the folder with the package's libraries: in the repository, and on a machine"""


class Shipped:
    """The libraries of the package."""

    def __init__(self, here: Path) -> None:
        self.folder = next((here / name for name in SHIPPED if (here / name).is_dir()), here / SHIPPED[0])

    def names(self) -> list[str]:
        return sorted(path.stem for path in self.folder.glob("*.csv"))

    def read(self, text: str) -> Library:
        """Reads the library that a word names: one of the package by its name, any other by its path."""
        if text in self.names():
            return sheet.read(self.folder / f"{text}.csv", text)
        if "/" not in text and not Path(text).exists():
            raise Refused(USAGE, f"there is no library {text}: there are {', '.join(self.names()) or 'none'}; or name a file")
        return sheet.read(Path(text), Path(text).name)


def chosen(args: argparse.Namespace) -> list[Row]:
    """Returns the rows that the arguments name. A library that nobody has checked is reported."""
    libraries = [args.shipped.read(text) for text in args.library]
    rows = sheet.together(libraries, args.only.split(",") if args.only else [])
    if args.warns:
        for library in libraries:
            if not sheet.is_checked(library):
                command.report(NAME, f"nobody has checked {library.name} yet: have somebody who knows the law read each row")
    return rows


def show_list(args: argparse.Namespace) -> int:
    """print the libraries of the package, and who has checked each"""
    status = 0
    for name in args.shipped.names():
        try:
            library = args.shipped.read(name)
            count = len(sheet.together([library], []))
        except Refused as refused:
            command.report(NAME, str(refused))
            status = WRONG
            continue
        print(f"{name:10} {count:3} classes  {library.head['title']}; checked by {library.head['checked by']}")
    return status


def show(args: argparse.Namespace) -> int:
    """print the rows of a library"""
    for row in chosen(args):
        entry = row.entry
        print(f"{row.code:16} {entry.title}\n{'':16} {entry.schedule}: {row.rule.text()}\n{'':16} {entry.section}"
              f" (as of {entry.day})")
        if entry.why:
            print(f"{'':16} {entry.why}")
    return 0


def plan(args: argparse.Namespace) -> int:
    """write the acts that make a plan of libraries, and its rows as a sheet"""
    rows = chosen(args)
    planning.write(rows, args.day, args.aggregation, args.output)
    count = len({row.entry.schedule for row in rows})
    print(f"{count} schedules, {len(rows)} classes: {args.output / planning.PLAN}, {args.output / planning.SHEET}")
    return 0


def add(args: argparse.Namespace) -> int:
    """put the laws of libraries into the file of an office"""
    rows, path = chosen(args), args.mandates
    folder = path.absolute().parent
    if not folder.is_dir():
        raise Refused(USAGE, f"there is no folder {folder}")
    rights.become_owner(rights.check_owner(folder))
    with files.locked(folder, waits=True):
        there = mandates.read(path) if path.exists() else mandates.Mandates({}, {})
        new, counts = mandates.merged(there, rows)
        if counts.added or counts.renewed:
            os.umask(0o022)
            files.write(path, mandates.text_of_all(new).encode())
    print(f"{path}: {counts.added} added, {counts.renewed} renewed, {counts.same} there already")
    return 0


def show_why(args: argparse.Namespace) -> int:
    """print a register or a certificate with the law behind each row"""
    laws = mandates.read(args.mandates)
    data = sys.stdin.buffer.read() if args.register == "-" else Path(args.register).read_bytes()
    today = datetime.date.today().isoformat()
    sys.stdout.buffer.write(why.of_text(laws, data, args.day, today).encode())
    return 0


def show_entries(args: argparse.Namespace) -> int:
    """print the laws of an office as JSON, an object for each class"""
    classes = mandates.read(args.mandates).classes
    lines = [json.dumps({"class": code, "entries": [asdict(entry) for entry in entries]}, ensure_ascii=False)
             for code, entries in sorted(classes.items())]
    sys.stdout.buffer.write(("[" + ",\n".join(lines) + "]\n").encode())
    return 0


def day(text: str) -> str:
    """Reads a day of an argument."""
    if not is_day(text):
        raise argparse.ArgumentTypeError(f"'{text}' is no day as 2025-01-01")
    return text


def parsed(args: list[str]) -> argparse.Namespace:
    parser = command.parser(NAME)
    kinds = parser.add_subparsers(required=True, metavar="COMMAND", prog=NAME)
    for name, work, takes in (("list", show_list, ""), ("show", show, "l"), ("plan", plan, "l"), ("add", add, "ml"),
                              ("why", show_why, "m"), ("entries", show_entries, "m")):
        kind = kinds.add_parser(name, help=work.__doc__, allow_abbrev=False)
        kind.set_defaults(work=work, warns=work in (plan, add))
        if "m" in takes:
            kind.add_argument("mandates", metavar="MANDATES", type=Path)
        if "l" in takes:
            kind.add_argument("library", metavar="LIBRARY", nargs=1 if work is show else "+")
            kind.add_argument("--only", metavar="CODE,..")
        if work is plan:
            kind.add_argument("--day", required=True, type=day)
            kind.add_argument("--aggregation", type=command.number(1, LIMITS["number"]), metavar="N")
            kind.add_argument("-o", dest="output", metavar="FOLDER", required=True, type=Path)
        if work is show_why:
            kind.add_argument("register", metavar="REGISTER", nargs="?", default="-")
            kind.add_argument("--day", type=day)
    return parser.parse_args(args)


def run(args: argparse.Namespace) -> int:
    """Does the work. A failure of the machine ends it as a wrong argument does."""
    try:
        return int(args.work(args))
    except OSError as error:
        raise Refused(USAGE, str(error)) from error


def main(arguments: list[str], here: Path) -> int:
    """Runs the command, and returns its exit status."""
    args = parsed(arguments)
    args.shipped = Shipped(here)
    status = command.run(NAME, lambda: run(args))
    try:
        sys.stdout.flush()
    except BrokenPipeError:
        # nobody reads standard output any more, and Python must not try again at its end
        os.dup2(os.open(os.devnull, os.O_WRONLY), sys.stdout.fileno())
        return USAGE
    return status
