"""The command office-bring: its arguments, what it reports, and its status."""
from __future__ import annotations

import argparse
import contextlib
import sys
from collections.abc import Iterator, Sequence
from pathlib import Path

from office_bring import folder
from office_bring.brought import Brought
from office_bring.codes import FORM, Codes
from office_bring.contents import compare
from office_bring.how import How, Usual, pair, zone
from office_bring.kinds import KINDS
from office_bring.moments import ORDERS, Days
from office_bring.tables import is_encoding
from office_bring.there import There
from office_common import command, files
from office_common.errors import USAGE, WRONG, Refused
from office_common.facts import LIMITS, WORDS

NAME = "office-bring"
MOST_SHOWN = 40
EVERYWHERE = ("kind", "source", "output", "codes", "take_codes", "zone", "days", "catalogue", "skip")


def code(text: str) -> str:
    """Reads the code of a class or of a schedule."""
    if not FORM.fullmatch(text) or len(text) > LIMITS["code"]:
        raise argparse.ArgumentTypeError(f"'{text}' is no code of at most {LIMITS['code']} letters, digits and hyphens")
    return text


def encoding(text: str) -> str:
    """Reads the name of an encoding."""
    if not is_encoding(text):
        raise argparse.ArgumentTypeError(f"no encoding is named '{text}'; windows-1252 and utf-16-le are")
    return text


def add_options(parser: argparse.ArgumentParser) -> None:
    """Adds the options that belong to some kinds alone."""
    parser.add_argument("--root", metavar="REF", help="the ref of the outermost file")
    parser.add_argument("--prefix", metavar="TEXT", help="a text in front of each ref")
    parser.add_argument("--class", type=code, metavar="CODE", help="the class of files for which the source names none")
    parser.add_argument("--levels", type=command.number(1, 100), metavar="N", help="so many levels of folders become files")
    parser.add_argument("--contents", type=Path, metavar="DIR", help="the folder of the documents, for the column path")
    parser.add_argument("--language", metavar="LANGUAGE", help="which labels of skos are titles, such as de")
    parser.add_argument("--labels", type=Path, metavar="FILE", help="the labels of m365-labels, for the days of items")
    parser.add_argument("--schedules", type=Path, metavar="FILE", help="the retention schedules that records of trim name")
    parser.add_argument("--versions", action="store_true", default=None, help="each version and format is a record")
    parser.add_argument("--column", type=pair, action="append", metavar="NAME=HEADER", help="which column is NAME")
    parser.add_argument("--encoding", type=encoding, help="the encoding of a table without a mark; else it is UTF-8")
    parser.add_argument("--cut", action="store_true", default=None, help="a table that ends within a line is whole")
    parser.add_argument("--schedule", type=code, metavar="CODE", help="the schedule of classes for which the source has none")
    for name in ("trigger", "unit", "offset", "action"):
        parser.add_argument(f"--{name}", choices=WORDS[name], metavar=name.upper(),
                            help=f"the {name} of rules for which the source has none: {', '.join(WORDS[name])}")


def parsed(arguments: Sequence[str]) -> argparse.Namespace:
    """Reads the arguments. An option that a kind does not take is a slip."""
    parser = command.parser(NAME)
    parser.add_argument("kind", choices=KINDS, metavar="KIND", help=", ".join(KINDS))
    parser.add_argument("source", type=Path, metavar="FILE", help="what the other system exported; a folder for share")
    parser.add_argument("-o", dest="output", type=Path, required=True, metavar="FOLDER", help="the new folder of sheets")
    parser.add_argument("--codes", type=Path, metavar="FILE", help="the table of words and their codes, which is kept")
    parser.add_argument("--take-codes", action="store_true", help="take new codes as they are")
    parser.add_argument("--zone", type=zone, help="a moment has its day in this time zone, such as Europe/Berlin")
    parser.add_argument("--days", choices=ORDERS, help="the order of day and month, if the year is last")
    parser.add_argument("--catalogue", type=Path, metavar="DIR", help="leave out what this catalogue of the office has")
    parser.add_argument("--skip", action="store_true", help="write the sheets though something of the source is wrong")
    add_options(parser)
    options = parser.parse_args(arguments)
    taken = (*EVERYWHERE, *KINDS[options.kind].options)
    strange = next((name for name, value in vars(options).items() if value is not None and name not in taken), None)
    if strange is not None:
        parser.error(f"--{strange} does not go with {options.kind}")
    return options


def how_of(options: argparse.Namespace) -> How:
    """Returns how the arguments want the source to be read."""
    usual = Usual(options.trigger, options.unit, options.offset, options.action)
    columns = options.column or []
    if len(dict(columns)) < len(columns):
        raise Refused(USAGE, "--column names a column twice")
    return How(Days(options.zone, options.days), usual, options.root, getattr(options, "class"), options.schedule, dict(columns),
               options.encoding, bool(options.cut), options.levels, bool(options.versions),
               options.kind == "share" or options.contents is not None, options.language, options.labels,
               options.schedules)


def shown(title: str, lines: Sequence[str]) -> Iterator[str]:
    """Gives the first lines of a list, and the number of the others."""
    for line in lines[:MOST_SHOWN]:
        yield f"{title} {line}"
    if len(lines) > MOST_SHOWN:
        yield f"{title} {len(lines) - MOST_SHOWN} more"


def report(brought: Brought, there: str) -> None:
    """Prints what was read, what was lost, and what somebody should look at."""
    ledger = brought.ledger
    lines = [*shown("wrong:", [f"{fault.place}: {fault.reason}" for fault in ledger.faults]), *shown("look at", brought.looks)]
    lines += [f"{count} {note}" for note, count in sorted(brought.notes.items())]
    changes = [change.reason for change in brought.changes]
    lines += [f"changed: {changes.count(reason)} {reason}" for reason in dict.fromkeys(changes)]
    lines += [f"lost: {count} {name}" for name, count in sorted(ledger.lost.items())]
    lines += [f"there already: {there}"] if there else []
    print("\n".join([*lines, ledger.summary()]), file=sys.stderr)


def check_numbers(brought: Brought) -> None:
    """Refuses the ref of a file with files in it that office-convert would take for a number of the office."""
    number = next((file.parent for file in brought.files.values() if file.parent.isdecimal()), None)
    if number is not None:
        raise Refused(USAGE, f"the ref {number} of a file with others in it is a number, as the office gives them: say --prefix, "
                      "or --root for a share")


def bring(options: argparse.Namespace) -> int:
    """Reads the source and writes the sheets: the exit status."""
    there, how = There(options.catalogue), how_of(options)
    codes = Codes(options.codes, options.take_codes, there.codes())
    brought = Brought(codes, prefix=options.prefix or "")
    KINDS[options.kind].bring(options.source, how, brought)
    left = there.leave_out(brought)
    if options.contents is not None:
        compare(brought, options.contents)
    check_numbers(brought)
    report(brought, left)
    unseen = codes.keep()
    if unseen:
        print(f"nothing was written but {options.codes}: look at its {unseen} codes that are new, take away their mark, and "
              "call again, or say --take-codes", file=sys.stderr)
        return WRONG
    if brought.ledger.faults and not options.skip:
        print("nothing was written: correct what is wrong in the source, or say --skip", file=sys.stderr)
        return WRONG
    is_new = folder.write(options.output, folder.sheets_of(brought, how.with_contents))
    print(f"{options.output}: {brought.count()}{'' if is_new else '; the folder has them already'}")
    return WRONG if brought.ledger.faults else 0


def main(arguments: Sequence[str]) -> int:
    """Brings a source in. Two calls do not write one table of codes at a time."""
    command.end_by_signals()
    options = parsed(arguments)

    def work() -> int:
        if not options.source.exists():
            raise Refused(USAGE, f"there is no {options.source}")
        lock = contextlib.nullcontext() if options.codes is None else files.locked(options.codes.absolute().parent, waits=True)
        with lock:
            return bring(options)
    status = command.run(NAME, work, (OSError, UnicodeError))
    return USAGE if status > USAGE else status
