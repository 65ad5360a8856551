"""What each cell is for an import: its value, or why it is wrong. The forms are those of docs/LIMITS.md."""
from __future__ import annotations

import base64
import binascii
import hashlib
import pathlib
import re
from dataclasses import dataclass

from asking.vault import Vault
from office_common.facts import LIMITS, LONGEST_CONTENT

LONGEST_TEXT, LONGEST_CODE, LARGEST_NUMBER = LIMITS["text"], LIMITS["code"], LIMITS["number"]
# an Excel cell holds no more characters
LONGEST_CELL = 32_767
CONTROL = re.compile("[\x00-\x1f\x7f-\x9f]")
LINE_BREAK = re.compile(r"\r\n|\r|\n")
UNSEEN = re.compile("[\u200b-\u200f\u202a-\u202e\u2060-\u2069\ufeff]")
FORMULA_ERRORS = {"#N/A", "#REF!", "#VALUE!", "#NAME?", "#DIV/0!", "#NULL!", "#NUM!", "#NV", "#BEZUG!", "#WERT!"}


class Wrong(Exception):
    """What is wrong with a cell; the text follows the cell's own. The kind is one word for each such text."""

    def __init__(self, kind: str, text: str) -> None:
        super().__init__(text)
        self.kind = kind


def text_of(cell: str) -> str:
    """Returns a ref or a title."""
    if not cell:
        raise Wrong("empty", "the cell is empty")
    if cell in FORMULA_ERRORS or re.fullmatch("#{3,}", cell):
        raise Wrong("formula", "is the error of a formula, or a column that was too narrow")
    if LINE_BREAK.search(cell):
        raise Wrong("lines", "has a line break: write it in one line, or say --join-lines")
    if found := CONTROL.search(cell):
        raise Wrong("control", f"has the control character U+{ord(found[0]):04X}")
    if len(cell.encode()) > LONGEST_TEXT:
        bytes_ = len(cell.encode())
        raise Wrong("long", f"has {len(cell)} characters in {bytes_} bytes; at most {LONGEST_TEXT} bytes fit")
    return cell


def in_one_line(cell: str) -> str:
    """Returns a cell with one space in place of each line break, and of the spaces around it."""
    return " ".join(part.strip(" \t") for part in LINE_BREAK.split(cell))


def note_of(cell: str) -> tuple[str, str] | None:
    """What somebody should look at in a text that is of its form: its kind, and a text."""
    if re.fullmatch(r"[0-9][.,][0-9]+E\+[0-9]+", cell):
        return "shortened", "looks like a long number that a sheet has shortened"
    if "\ufffd" in cell:
        return "lost", "has the mark of a character that was lost before this file was written"
    if found := UNSEEN.search(cell):
        return "unseen", f"has the character U+{ord(found[0]):04X}, which nobody sees"
    return None


def number_of(cell: str) -> str:
    """Returns the number of an aggregation."""
    if not cell:
        why = "the cell is empty: write the number of the aggregation, which `office apply` printed"
        raise Wrong("numberless", why)
    if not re.fullmatch("[0-9]+", cell):
        why = "is not a whole number in digits: give the column the form of a number without decimals"
        raise Wrong("number", why)
    if not 1 <= int(cell) <= LARGEST_NUMBER:
        raise Wrong("range", f"is not a number from 1 to {LARGEST_NUMBER:,}")
    return cell


def code_of(cell: str) -> str:
    """Returns the code of a class or of a schedule, or none."""
    if cell and not re.fullmatch("[A-Za-z0-9-]+", cell):
        raise Wrong("code", "is not a code: a code has only ASCII letters, digits and hyphens")
    if len(cell) > LONGEST_CODE:
        raise Wrong("longCode", f"has {len(cell)} characters, and a code has at most {LONGEST_CODE}")
    return cell


def too_long(what: str, length: int) -> Wrong:
    kilobytes = -(-length // 1024)
    return Wrong("large", f"{what} {length:,} bytes ({kilobytes:,} KB); a content has at most {LONGEST_CONTENT:,} "
                          "(256 KB): see \"Contents above 256 KB\" in docs/CSV.md")


def content_of(cell: str) -> str:
    """Returns the base64 of a content as the office reads it. Line breaks and spaces in it are passed over."""
    joined = "".join(cell.split())
    try:
        content = base64.b64decode(joined, validate=True)
    except (binascii.Error, ValueError):
        content = None
    if content is None or base64.b64encode(content).decode() != joined:
        is_cut = len(cell) == LONGEST_CELL
        why_cut = ": Excel cut it at 32,767 characters, say --files" if is_cut else ""
        raise Wrong("cut" if is_cut else "base64", f"is not base64 with padding{why_cut}")
    if len(content) > LONGEST_CONTENT:
        raise too_long("represents", len(content))
    return joined


def is_file(path: pathlib.Path) -> bool:
    """Returns whether there is a file; a path that no file can have is none."""
    try:
        return path.is_file()
    except (OSError, ValueError):
        return False


@dataclass(frozen=True)
class Files:
    """Contents by the names of files in a folder, and not outside of it."""

    folder: pathlib.Path
    manifests: bool
    vault: Vault | None = None

    def path(self, cell: str) -> pathlib.Path:
        """Returns the file that a cell names; the folder's own parts may be parted by backslashes."""
        root = self.folder.resolve()
        for name in (cell, cell.replace("\\", "/")):
            path = (root / name).resolve()
            if is_file(path) and path.is_relative_to(root):
                return path
        why = f"is no file in the folder {self.folder}: is it spelled so there? --folder names another folder"
        raise Wrong("file", why)

    def check(self, cell: str) -> None:
        if cell:
            path = self.path(cell)
            self.readable(path)
            if path.stat().st_size > LONGEST_CONTENT and not self.manifests and not self.vault:
                raise too_long("the file has", path.stat().st_size)

    def readable(self, path: pathlib.Path) -> None:
        try:
            path.open("rb").close()
        except OSError as why:
            raise Wrong("unread", f"the file cannot be read: {why.strerror}") from why

    def content(self, cell: str) -> str:
        """The base64 of a file. One that is too large goes into the vault, or is left where it is; what names it is taken."""
        if not cell:
            return ""
        path = self.path(cell)
        if path.stat().st_size > LONGEST_CONTENT:
            name = path.relative_to(self.folder.resolve()).as_posix()
            named = self.vault.put(lambda: path.open("rb"), name) if self.vault else manifest(path, name)
            return base64.b64encode(named).decode()
        data = path.read_bytes()
        if len(data) > LONGEST_CONTENT:
            raise too_long("the file now has", len(data))
        return base64.b64encode(data).decode()


def manifest(path: pathlib.Path, name: str) -> bytes:
    """What represents a large file in the office: its SHA-256, its length and where it is."""
    with path.open("rb") as file:
        digest = hashlib.file_digest(file, "sha256")
        length = file.tell()
    return f"SHA256 {digest.hexdigest()}\nLENGTH {length}\nPLACE {name}\n".encode()
