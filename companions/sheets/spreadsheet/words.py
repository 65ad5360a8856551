"""The words of the command `convert`."""
from __future__ import annotations

import argparse
import pathlib
import re
import zoneinfo

from spreadsheet.columns import NAMES
from spreadsheet.days import ORDERS
from spreadsheet.kinds import COLUMNS, MEMBERS
from spreadsheet.sheet import SEPARATORS, is_encoding

ALONE = ("act", "history")


def pair(text: str) -> tuple[str, str]:
    name, _, value = text.partition("=")
    if not name or not value.strip():
        raise argparse.ArgumentTypeError("write NAME=VALUE, as aggregation=1")
    return name, value.strip()


def encoding(text: str) -> str:
    if not is_encoding(text):
        raise argparse.ArgumentTypeError(f"no encoding is named {text}; windows-1252, utf-8 and utf-16-le are")
    return text


def row_number(text: str) -> int:
    if not re.fullmatch("[1-9][0-9]{0,6}", text):
        raise argparse.ArgumentTypeError("the first row of a sheet is row 1")
    return int(text)


def year(text: str) -> int:
    if not re.fullmatch("[12][0-9]{3}", text):
        raise argparse.ArgumentTypeError("write a year, as 1930 where 30 is 1930 and 29 is 2029")
    return int(text)


def zone(text: str) -> zoneinfo.ZoneInfo:
    try:
        return zoneinfo.ZoneInfo(text)
    except (zoneinfo.ZoneInfoNotFoundError, ValueError, OSError) as why:
        raise argparse.ArgumentTypeError(f"no time zone is named {text}; Europe/Berlin and UTC are") from why


def add_reading(parser: argparse.ArgumentParser) -> None:
    """The words that say how a sheet is read."""
    parser.add_argument("--days", choices=ORDERS, help="the order of day, month and year in the columns of days")
    parser.add_argument("--zone", type=zone, help="the day of a moment with a time zone is that in this one, as Europe/Berlin")
    parser.add_argument("--years", type=year, metavar="FIRST", help="two digits mean one of the 100 years from FIRST")
    parser.add_argument("--column", type=pair, action="append", default=[], metavar="NAME=HEADER",
                        help='which column is NAME, as ref="Reference No" or ref=B')
    parser.add_argument("--without", action="append", default=[], metavar="NAME",
                        help="a column that is not used though the sheet has it, as class")
    parser.add_argument("--set", type=pair, action="append", default=[], metavar="NAME=VALUE",
                        help="the same value in each row, as aggregation=1")
    parser.add_argument("--files", metavar="HEADER", help="the column of file names: each content is that of the file")
    parser.add_argument("--folder", type=pathlib.Path, help="where these files are; without it, where the sheet is")
    parser.add_argument("--vault", metavar="URL", help="put a file that is too large into the vault of this office")
    parser.add_argument("--manifests", action="store_true", help="for a file that is too large, take its manifest")
    parser.add_argument("--join-lines", action="store_true", help="make one space of each line break in a text")
    parser.add_argument("--header", type=row_number, default=1, metavar="ROW", help="the row with the columns' names")
    parser.add_argument("--separator", choices=SEPARATORS, help="what parts the cells of a row")
    parser.add_argument("--encoding", type=encoding, help="the encoding of the text")
    parser.add_argument("--skip", action="store_true", help="write the good rows though others are wrong")


def add_acting(parser: argparse.ArgumentParser) -> None:
    """The words that make acts of rows."""
    parser.add_argument("--act", choices=COLUMNS, metavar="KIND", help=f"each row is an act: {', '.join(COLUMNS)}")
    parser.add_argument("--history", action="store_true", help="a sheet of files, then one of records, as acts by day")
    parser.add_argument("--catalogue", type=pathlib.Path, metavar="DIR", help="where office-catalogue puts its files")
    parser.add_argument("--late", action="store_true", help="days of acts after today are meant")
    parser.add_argument("--try", dest="try_on", metavar="COPY",
                        help="try the acts on a copy of the office, or on `new`, and write them if all are done there")
    parser.add_argument("--office", metavar="URL", help="send the acts to this office, as http://127.0.0.1:8080")
    parser.add_argument("--login", type=pathlib.Path, metavar="FILE", help="a file with NAME:PASSWORD for it, or the vault")
    parser.add_argument("--ca", type=pathlib.Path, metavar="FILE", help="the certificate by which it is known")


def words(arguments: list[str]) -> argparse.Namespace:
    about = "Makes the CSV that `office import` reads, or lists of acts, from the CSV of a spreadsheet program."
    parser = argparse.ArgumentParser(prog="office-convert", allow_abbrev=False, description=about)
    parser.add_argument("sheet", type=pathlib.Path, nargs="+", help="the CSV file of the spreadsheet program")
    parser.add_argument("-o", dest="output", type=pathlib.Path, help="the file to write; without it, standard output")
    add_reading(parser)
    add_acting(parser)
    asked = parser.parse_args(arguments)
    check(parser, asked)
    return asked


def check(parser: argparse.ArgumentParser, asked: argparse.Namespace) -> None:
    """Says which words do not go together."""
    given = [name for name, _ in [*asked.column, *asked.set, *([("content", "")] if asked.files else [])]]
    if len(set(given)) < len(given):
        parser.error("a NAME is given twice")
    if not asked.files and (asked.folder or asked.manifests or asked.vault):
        parser.error("--folder, --vault and --manifests go with --files")
    if asked.vault and asked.manifests:
        parser.error("--vault puts the files themselves in: --manifests is for an office without a vault")
    if asked.act and asked.history:
        parser.error("--act and --history do not go together")
    if asked.act or asked.history:
        return check_acting(parser, asked)
    if asked.without:
        parser.error("--without goes with --act or --history")
    strange = next((name for name in given if name not in NAMES), None)
    if strange:
        parser.error(f"NAME is one of {', '.join(NAMES)}, and not {strange}")
    if len(asked.sheet) > 1:
        parser.error("one sheet at a time is converted for an import")
    if asked.late or asked.try_on or asked.office:
        parser.error("--late, --try and --office go with --act or --history")
    if (asked.login or asked.ca) and not asked.vault:
        parser.error("--login and --ca go with --office or --vault")


def check_acting(parser: argparse.ArgumentParser, asked: argparse.Namespace) -> None:
    if asked.files and not asked.history:
        parser.error("--files goes with records, and an act of this kind has no content")
    if bool(asked.output) == bool(asked.office):
        parser.error("say -o LIST to write the acts, or --office URL to send them")
    if asked.history and not asked.try_on and not asked.office:
        parser.error("--history goes with --try COPY, --try new or --office URL: the office numbers the files")
    if asked.try_on and asked.office:
        parser.error("--try writes what a copy has answered, and goes with -o")
    if (asked.login or asked.ca) and not asked.office and not asked.vault:
        parser.error("--login and --ca go with --office or --vault")
    if len(asked.sheet) > (2 if asked.history else 1) and asked.act != "plan":
        parser.error("--history takes a sheet of files and one of records" if asked.history
                     else f"one sheet at a time is converted to {asked.act}; --act plan takes several")
    members = {name for kind in MEMBERS.values() for name in kind.split()}
    members |= {"day", "decision", "act"}
    strange = next((name for name, _ in asked.set if not asked.history and name not in members), None)
    if strange:
        parser.error(f"no act has the member {strange}")
