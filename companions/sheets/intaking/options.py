"""The options of the command `office-intake`."""
from __future__ import annotations

import argparse
import datetime
import pathlib
import re

from intaking.moments import today
from spreadsheet.words import zone


def pattern(text: str) -> re.Pattern[str]:
    try:
        return re.compile(text)
    except re.error as why:
        raise argparse.ArgumentTypeError(f"{text} is no pattern: {why}") from why


def add_finding(parser: argparse.ArgumentParser) -> None:
    """The options that say where each file goes."""
    parser.add_argument("folder", type=pathlib.Path)
    parser.add_argument("--root", metavar="REF", help="the ref of the folder's own aggregation; others begin with it")
    parser.add_argument("--class", dest="code", metavar="CODE", help="the class of that aggregation")
    parser.add_argument("--table", type=pathlib.Path, help="CSV: folder, ref, title, class, parent; without a title it is there")
    parser.add_argument("--ref", default="{folder}/{name}", help="how refs are made: of folder, path, name, stem, originated, "
                        "and groups of --pattern")
    parser.add_argument("--pattern", type=pattern, help="what names are like: (?P<day>[0-9]{8}) is a day, others are for --ref")


def add_reading(parser: argparse.ArgumentParser) -> None:
    """The options that say which files are taken, and of which day each is."""
    parser.add_argument("--changed", action="store_true", help="a file without a day has that of its last change")
    parser.add_argument("--settle", type=float, default=60, metavar="SECONDS",
                        help="leave a file for the next call that was changed within these seconds, else 60")
    parser.add_argument("--cut", action="store_true", help="take what is empty, hidden, or lacks the end that its kind has, too")
    parser.add_argument("--mail-day", choices=("date", "received"), default="date",
                        help="the day of a mail is that of its sender, or of the server that received it last")
    parser.add_argument("--zone", type=zone, help="the day of a moment is that in this time zone, as Europe/Berlin")
    parser.add_argument("--day", type=datetime.date.fromisoformat, help="the day of filing, else today")


def add_filing(parser: argparse.ArgumentParser) -> None:
    """The options that say which office the records go to."""
    parser.add_argument("--catalogue", type=pathlib.Path, metavar="DIR", help="where office-catalogue puts its files")
    parser.add_argument("--journal", type=pathlib.Path, help="where the numbers of aggregations are noted")
    parser.add_argument("--office", metavar="URL")
    parser.add_argument("--vault", metavar="URL", help="put files that are too large for a content into the vault of this office")
    parser.add_argument("--login", type=pathlib.Path, metavar="FILE", help="a file with NAME:PASSWORD")
    parser.add_argument("--ca", type=pathlib.Path, metavar="FILE")
    parser.add_argument("--done", type=pathlib.Path, metavar="DIR", help="move what is filed there; goes with --look")
    parser.add_argument("--look", type=pathlib.Path, metavar="DIR", help="move there what cannot be filed, with the reason")
    parser.add_argument("--try", dest="try_on", metavar="COPY", help="try the acts on a copy of the office, or on `new`")
    parser.add_argument("-o", dest="output", type=pathlib.Path, help="write lists of acts there, in place of sending")


def parsed(arguments: list[str]) -> argparse.Namespace:
    parser = argparse.ArgumentParser(prog="office-intake", allow_abbrev=False, description="Files the files of a folder as records.")
    add_finding(parser)
    add_reading(parser)
    add_filing(parser)
    options = parser.parse_args(arguments)
    options.day = options.day or today(options.zone)
    check(parser, options)
    return options


def check(parser: argparse.ArgumentParser, options: argparse.Namespace) -> None:
    """Says which options do not go together."""
    if bool(options.output) == bool(options.office):
        parser.error("say --office URL to file, or -o LIST to write the acts")
    if bool(options.root) == bool(options.table):
        parser.error("say --root REF, or --table TABLE")
    if options.day > today(options.zone):
        parser.error("--day is after today: the office takes no act of an earlier day then")
    if bool(options.done) != bool(options.look) or options.done and not options.office:
        parser.error("--done DIR, --look DIR and --office URL go together")
    inside = [each for each in (options.done, options.look) if each and options.folder.resolve() in (each.resolve(), *each.resolve().parents)]
    if inside:
        parser.error(f"{inside[0]} is in {options.folder}: the next call would file what is in it")
    if options.output and not options.try_on:
        parser.error("-o goes with --try COPY, or --try new: the office numbers the aggregations")
