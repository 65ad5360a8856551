"""Sheets as acts: they are read, what was found is said, and the acts are written, tried on a copy, or sent."""
from __future__ import annotations

import argparse
import datetime
import pathlib
import sys
import tempfile
from dataclasses import dataclass, replace

from asking.office import OnCopy, Office, OverHttp
from asking.sending import Sender, Sent
from asking.vault import Vault
from spreadsheet.acts import ActFindings, ActRow, ActTurner, Asked
from spreadsheet.catalogue import catalogue_in
from spreadsheet.cells import Files, Wrong
from spreadsheet.columns import RECORD, Columns, Form, columns_of
from spreadsheet.days import ORDERS, Order, day_read
from spreadsheet.history import FILES, RECORDS, HistoryTurner, sorted_acts
from spreadsheet.kinds import form_of, kind_shown, named
from spreadsheet.lists import write
from spreadsheet.members import Pending, Things
from spreadsheet.plan import in_order
from spreadsheet.sheet import Row, Unreadable, decoded, separated

MOST_SHOWN = 40
MOST_SPANS = 5


def reached(asked: argparse.Namespace, url: str) -> OverHttp:
    """Returns the office at an address, for the name that the words give."""
    login = asked.login.read_text().strip() if asked.login else None
    return OverHttp(url, login, asked.ca)


def vault_of(asked: argparse.Namespace) -> Vault | None:
    """Returns the vault that large files go into, if the words name one; it must answer."""
    if not asked.vault:
        return None
    vault = Vault(reached(asked, asked.vault))
    vault.ask()
    return vault


@dataclass
class Sheet:
    """A sheet that was read: its rows below the header, and what came of them."""

    path: pathlib.Path
    told: str
    columns: Columns
    rows: list[Row]
    turner: ActTurner
    found: ActFindings


def known(header: list[str]) -> int:
    """How many names of a header are known for any kind of the plan, or for a record."""
    return max(form.known(header) for form in (RECORD, form_of("plan"), FILES, RECORDS))


class Converter:
    """Turns the sheets that the command names."""

    def __init__(self, asked: argparse.Namespace) -> None:
        self.asked = asked
        self.things = Things(catalogue_in(asked.catalogue) if asked.catalogue else None)
        self.set = dict(asked.set)
        self.today = datetime.date.today()
        self.vault = vault_of(asked)

    def options(self) -> Asked:
        if "day" in self.set and day_read(self.set["day"], "ymd", None) is None:
            raise Unreadable("day", f"--set day={self.set['day']}: write it as 2020-12-31")
        return Asked(self.today, self.asked.days, self.asked.years, self.asked.join_lines, self.asked.late,
                     self.asked.zone)

    def form(self, at: int, header: list[str]) -> tuple[str, Form]:
        """Returns the kind of the rows of a sheet, and its columns."""
        if self.asked.history:
            return ("file", FILES) if at == 0 else ("record", RECORDS)
        kind = self.asked.act
        if kind == "plan":
            kind = kind_shown(header) or "plan"
            # of a file it would have a class, or the file around it
            if kind == "add-aggregation" and not {"class", "parent"} & {*named(form_of(kind), header), *dict(self.asked.column)}:
                raise Unreadable("kind", f"sheet {at + 1} has refs and titles alone, and no act takes a file away again: are these "
                                 "classes or files? For files say --act add-aggregation; for classes say --act add-class, "
                                 "--column code=.. and --column schedule=..")
        return kind, form_of(kind, with_day=True)

    def read(self, at: int, path: pathlib.Path) -> Sheet:
        """Returns the sheet at that place among those that are named."""
        asked = self.asked
        text, encoded = decoded(path.read_bytes(), asked.encoding)
        kind_known = known if asked.history or asked.act == "plan" else form_of(asked.act, True).known
        separator, rows = separated(text, kind_known, asked.header, asked.separator)
        header = rows[asked.header - 1].cells if asked.header <= len(rows) else []
        kind, form = self.form(at, header)
        left = [name for name in form.names if name not in asked.without or name in form.needed]
        form = replace(form, names=left, either=[name for name in form.either if name in left])
        mapped = {name: it for name, it in asked.column if name in form.names}
        if asked.files and "content" in form.names:
            mapped["content"] = asked.files
        values = {name: it for name, it in self.set.items() if name in form.names}
        columns = columns_of(rows, asked.header, mapped, values, form)
        told = f"{path}: {encoded}, parted by {separator}; each row is {kind}"
        if "day" in columns.empty():
            told += f", of today, {self.today}"
        turner = self.turner(kind, columns, path)
        below = rows[asked.header:]
        turner.gather([it for it in below if not it.is_empty()])
        return Sheet(path, told, columns, below, turner, ActFindings())

    def turner(self, kind: str, columns: Columns, path: pathlib.Path) -> ActTurner:
        if not self.asked.history:
            return ActTurner(kind, columns, self.things, self.options())
        is_files = self.asked.files and "content" in columns.form.names
        files = Files(self.asked.folder or path.parent, self.asked.manifests, self.vault) if is_files else None
        return HistoryTurner(columns, self.things, self.options(), files)

    def sheets(self) -> list[Sheet]:
        """Returns all sheets, with what came of their rows."""
        sheets = [self.read(at, path) for at, path in enumerate(self.asked.sheet)]
        allowed = {name for it in sheets for name in it.columns.form.names} | {"day"}
        strange = [name for name, _ in [*self.asked.column, *self.asked.set] if name not in allowed]
        if strange:
            raise Unreadable("name", f"no act of this kind has {strange[0]}; there are {', '.join(sorted(allowed))}")
        for sheet in sheets:
            if isinstance(sheet.turner, HistoryTurner) and isinstance(sheets[0].turner, HistoryTurner):
                sheet.turner.spans = sheets[0].turner.spans
            sheet.found = sheet.turner.all(sheet.rows)
        return sheets

    # ---- what is done with the acts

    def waiting(self, sheets: list[Sheet]) -> None:
        """Names the rows whose numbers only the office can give, where neither it nor a copy is asked."""
        for sheet in sheets:
            for row in [it for it in sheet.found.good if it.needs()]:
                names = [name for name, it in row.act.items() if isinstance(it, Pending)]
                sheet.found.good.remove(row)
                sheet.found.wrong.append(row.number)
                sheet.found.said.append(
                    f"row {row.number} ({names[0]}): \"{row.needs()[0]}\" is added by this sheet, and the office numbers "
                    "it then: say --office URL to send it, or --try COPY")

    def office(self) -> Office | None:
        asked = self.asked
        if not asked.office:
            return None
        return reached(asked, asked.office)

    def tried(self, rows: list[ActRow]) -> Sent:
        """What the program answers to the acts on a copy of the office, or on a new one."""
        with tempfile.TemporaryDirectory() as new:
            copy = None if self.asked.try_on == "new" else pathlib.Path(self.asked.try_on)
            with OnCopy(pathlib.Path(new), copy) as office:
                return Sender(office, {}).send(rows)


def order_told(order: Order) -> str:
    return ORDERS[order.name] + (f" (as {order.shown})" if order.shown else "")


def report(sheet: Sheet) -> None:
    """Says on standard error what was found of a sheet."""
    found = sheet.found
    orders = [it for name, it in sheet.turner.orders.items() if name in sheet.columns.places]
    lines = [sheet.told, f"columns: {sheet.columns.summary()}"]
    lines += [f"order of days: {order_told(it)}" for it in orders[:1]]
    lines += found.said[:MOST_SHOWN]
    lines += [f"and {len(found.said) - MOST_SHOWN} cells more"] if len(found.said) > MOST_SHOWN else []
    lines += [f"look at {it}" for it in found.notes[:MOST_SHOWN]]
    lines += [f"and {len(found.notes) - MOST_SHOWN} more to look at"] if len(found.notes) > MOST_SHOWN else []
    decided = "decision" in sheet.columns.form.names
    left = [f"{len(found.refused)} say no", f"{len(found.undecided)} say nothing"] if decided else []
    counts = [f"{found.count()} read", f"{len(found.good)} acts", *left, f"{found.empty} empty",
              f"{len(found.wrong)} wrong"]
    lines.append(f"rows below the header: {', '.join(counts)}")
    print("\n".join(lines), file=sys.stderr)


def spans(rows: list[tuple[str, ActRow]]) -> list[str]:
    """Which acts are which rows: acts that follow one another as their rows do are one span."""
    found: list[list] = []
    for at, (name, row) in enumerate(rows):
        last = found[-1] if found else None
        if last and last[0] == name and row.number == last[2] + at - last[1] and last[3] == at - 1:
            last[3] = at
        else:
            found.append([name, at, row.number, at])
    many = len({name for name, _ in rows}) > 1
    told = [(f"{first} is row {row}" if first == end else f"{first} to {end} are rows {row} to {row + end - first}")
            + (f" of {name}" if many else "") for name, first, row, end in found[:MOST_SPANS]]
    return [*told, *([".."] if len(found) > MOST_SPANS else [])]


def answer_words(answer: dict[str, object] | None) -> str:
    """Returns an answer in a line, as an import has it."""
    if answer is None:
        return "not sent"
    if "refused" in answer:
        return f"refused {answer['refused']}"
    if "number" in answer:
        return f"{'same' if answer.get('same') else 'number'} {answer['number']}"
    return "done"


def print_answers(rows: list[tuple[str, ActRow]], sent: Sent, only_bad: bool) -> None:
    many = len({name for name, _ in rows}) > 1
    for (name, row), answer in zip(rows, sent.answers, strict=True):
        if not only_bad or answer is None or "refused" in answer:
            kind = f" {row.act['act']}" if many else ""
            print(f"{name + ' ' if many else ''}row {row.number}{kind}: {answer_words(answer)}",
                  file=sys.stderr if only_bad else sys.stdout)


def convert(asked: argparse.Namespace) -> int:
    """Reads the sheets, says what was found, and writes or sends the acts: the exit status."""
    converter = Converter(asked)
    sheets = converter.sheets()
    office = converter.office()
    if office is None and not asked.try_on:
        converter.waiting(sheets)
    for sheet in sheets:
        report(sheet)
    named = {id(row): sheet.path.name for sheet in sheets for row in sheet.found.good}
    good = [row for sheet in sheets for row in sheet.found.good]
    rows = sorted_acts(good) if asked.history else in_order(good)
    pairs = [(named[id(row)], row) for row in rows]
    is_wrong = any(sheet.found.wrong for sheet in sheets)
    if is_wrong and not asked.skip:
        print("nothing was written or sent", file=sys.stderr)
        return 1
    status = put(converter, office, pairs)
    if converter.vault:
        print(converter.vault.told(), file=sys.stderr)
    return max(status, int(is_wrong))


def put(converter: Converter, office: Office | None, pairs: list[tuple[str, ActRow]]) -> int:
    """Sends the acts, or writes them; what is tried on a copy is written only if nothing is refused there."""
    asked, rows = converter.asked, [row for _, row in pairs]
    if office is not None:
        return ended(pairs, Sender(office, {}).send(rows), only_bad=False)
    numbers: dict[str, int] = {}
    if asked.try_on:
        sent = converter.tried(rows)
        if ended(pairs, sent, only_bad=True):
            print("nothing was written: the program refused acts on the copy", file=sys.stderr)
            return 1
        numbers = sent.numbers
    try:
        files = write(asked.output, (row.made(numbers) for row in rows))
    except Wrong as why:
        raise Unreadable("output", f"nothing was written: {why}") from why
    print(f"acts: {', '.join(spans(pairs))}; written: {', '.join(map(str, files))}", file=sys.stderr)
    return 0


def ended(pairs: list[tuple[str, ActRow]], sent: Sent, only_bad: bool) -> int:
    """Says what became of the acts: 0 if all were done."""
    print_answers(pairs, sent, only_bad)
    what = "tried" if only_bad else "sent"
    done = len(pairs) - sent.refused() - sent.unsent()
    print(f"{what}: {done} done, {sent.refused()} refused, {sent.unsent()} not sent", file=sys.stderr)
    if sent.stopped:
        print(f"stopped: {sent.stopped}", file=sys.stderr)
    return 0 if done == len(pairs) else 1
