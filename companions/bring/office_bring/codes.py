"""The table of words and codes: a word of another system has the same code in all runs."""
from __future__ import annotations

import csv
import io
import re
import unicodedata
from pathlib import Path

from office_common import files
from office_common.errors import USAGE, Refused
from office_common.facts import LIMITS

LONGEST = LIMITS["code"]
HEADER = ["word", "code", "new"]
NEW = "new"
FORM = re.compile("[A-Za-z0-9-]+", re.ASCII)
LETTERS = str.maketrans({"ß": "ss", "ä": "ae", "ö": "oe", "ü": "ue", "Ä": "AE", "Ö": "OE", "Ü": "UE", "ẞ": "SS"})
MOST_BYTES = 16 * 1024 * 1024


def base_of(word: str) -> str:
    """Makes the beginning of a code from a word: capital letters, digits and hyphens."""
    plain = unicodedata.normalize("NFKD", word.translate(LETTERS)).encode("ascii", "ignore").decode()
    return re.sub("[^A-Za-z0-9]+", "-", plain).strip("-").upper()[:LONGEST].strip("-") or "CLASS"


def cut_with(base: str, number: int) -> str:
    """Returns a code that ends with a number, within the length of a code."""
    end = f"-{number}"
    return base[:LONGEST - len(end)].strip("-") + end


class Codes:
    """A table of words and their codes. A word without a code gets a new one, which somebody has to look at."""

    def __init__(self, path: Path | None, is_taken: bool, there: frozenset[str]) -> None:
        self.path, self.is_taken, self.there = path, is_taken, there
        self.by_word: dict[str, str] = {}
        self.new: set[str] = set()
        if path is not None and path.exists():
            self.read(path)
        self.codes = set(self.by_word.values())

    def read(self, path: Path) -> None:
        """Reads the table, which people edit."""
        if path.stat().st_size > MOST_BYTES:
            raise Refused(USAGE, f"{path} has more than {MOST_BYTES:,} bytes, and is no table of codes")
        try:
            text = path.read_bytes().decode("utf-8-sig")
        except UnicodeDecodeError:
            raise Refused(USAGE, f"{path} is not UTF-8") from None
        rows = csv.reader(io.StringIO(text, newline=""), strict=True)
        try:
            if next(rows, []) != HEADER:
                raise Refused(USAGE, f"{path}: the first row is not {','.join(HEADER)}")
            for row in rows:
                self.put(path, rows.line_num, row)
        except csv.Error as error:
            raise Refused(USAGE, f"{path}, line {rows.line_num}: {error}") from None

    def put(self, path: Path, line: int, row: list[str]) -> None:
        """Takes a row of the table over, if it has a word and a code."""
        if not any(row):
            return
        if len(row) != len(HEADER) or row[2] not in ("", NEW):
            raise Refused(USAGE, f"{path}, line {line}: write WORD,CODE, or WORD,CODE,{NEW}")
        word, code, mark = row
        if not FORM.fullmatch(code) or len(code) > LONGEST:
            raise Refused(USAGE, f"{path}, line {line}: \"{code}\" is no code of at most {LONGEST} letters, digits and hyphens")
        if self.by_word.setdefault(word, code) != code:
            raise Refused(USAGE, f"{path}, line {line}: \"{word}\" has another code above")
        if mark:
            self.new.add(word)

    def of(self, word: str) -> str:
        """Returns the code of a word, and gives it one if it has none."""
        word = " ".join(word.split())
        if word not in self.by_word:
            if self.path is None:
                raise Refused(USAGE, f"\"{word}\" needs a code: say --codes FILE for the table of words and codes, and keep it")
            base, number = base_of(word), 1
            code = base
            while code in self.codes or code in self.there:
                number += 1
                code = cut_with(base, number)
            self.by_word[word] = code
            self.codes.add(code)
            self.new.add(word)
        return self.by_word[word]

    def keep(self) -> int:
        """Writes the table, and returns how many of its codes nobody has looked at."""
        if self.path is None:
            return 0
        if self.is_taken:
            self.new.clear()
        text = io.StringIO(newline="")
        table = csv.writer(text, lineterminator="\n")
        table.writerow(HEADER)
        table.writerows([word, code, NEW if word in self.new else ""] for word, code in self.by_word.items())
        data = text.getvalue().encode()
        if self.by_word and not (self.path.exists() and self.path.read_bytes() == data):
            files.write(self.path, data)
        return len(self.new)
