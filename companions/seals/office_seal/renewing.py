"""Renews the time stamps of seals: a list of all files, stamped before what stamped them proves nothing any more.

    renewed/0001/SHA512SUMS      a line for each file of the seals, and of the renewals before
    renewed/0001/SHA512SUMS.tsr  a time stamp of the list

A renewal covers the stamps that it lists. Nothing that it lists changes afterwards.
"""
import datetime
import hashlib
import os
import pathlib
import re
import shutil
from dataclasses import dataclass

from office_common import files
from office_common.errors import IMPOSSIBLE, WRONG, Refused

from office_seal import chain, stamping, token
from office_seal.chain import Seal
from office_seal.stamping import Authority
from office_seal.token import Token

FOLDER, LIST, NEW = "renewed", "SHA512SUMS", ".new"
YEAR, QUARTER = datetime.timedelta(days=365), datetime.timedelta(days=90)
"""a stamp is renewed in its last year; in its last quarter somebody must know if that fails"""
LINE = re.compile(r"([0-9a-f]{128})  (\S+)\n")
NAME = re.compile("[A-Za-z0-9_-][A-Za-z0-9._-]*")
"""a name that office-verify takes: no file of seals has another one"""


@dataclass(frozen=True)
class Bare:
    """A time stamp that no renewal lists: the name of its file, and how it was read."""

    name: str
    token: Token


def renew(seals: pathlib.Path, office: str, authority: Authority, is_forced: bool) -> int:
    """Renews all stamps if one needs it: how many renewals were made. It reports at the end what a person must know."""
    with files.locked(seals):
        sealed, earlier = chain.read(seals, office), renewals_in(seals)
        listed = check(seals, earlier)
        if (seals / "000001").exists():
            stamping.need(authority)
        bare, wrong = stamps_in(seals, sealed, earlier, listed, authority)
        now = datetime.datetime.now(datetime.timezone.utc).replace(tzinfo=None)
        due = [stamp for stamp in bare
               if is_forced or stamp.token.end < now + YEAR or stamp.token.is_weaker(authority.digest)]
        made = 0
        if due:
            new = listed_anew(seals, [*(seal.folder for seal in sealed), *earlier], set(wrong), authority)
            made = put(seals, new, len(earlier) + 1) if is_forced or is_gain(new, due, authority, now) else drop(new)
    problems = [f"{name}: {why}" for name, why in wrong.items()]
    if made:
        problems += [f"{stamp.name}: its authority's certificate ended on {stamp.token.end:%Y-%m-%d}, before this renewal"
                     for stamp in due if stamp.token.end < now]
    if problems:
        raise Refused(WRONG, f"renewals: {made}, but {'; '.join(problems)} (EVIDENCE.md, Renewal)")
    return made


def renewals_in(seals: pathlib.Path) -> list[pathlib.Path]:
    """Returns the folders of the renewals, in their order."""
    folders = sorted(folder for folder in seals.glob(f"{FOLDER}/*") if not folder.name.startswith("."))
    for number, folder in enumerate(folders, 1):
        if folder.name != f"{number:04}" or not (folder / f"{LIST}.tsr").is_file():
            raise Refused(WRONG, f"renewal {number} is missing at {folder}: bring the folder back from its copy")
    return folders


def check(seals: pathlib.Path, renewals: list[pathlib.Path]) -> set[str]:
    """Returns the files that the last renewal lists. Each file must be as each renewal lists it."""
    digests: dict[str, str] = {}
    listed: set[str] = set()
    for renewal in renewals:
        text = (renewal / LIST).read_text(errors="replace")
        lines = LINE.findall(text)
        if "".join(f"{digest}  {name}\n" for digest, name in lines) != text:
            raise Refused(WRONG, f"{renewal / LIST} was changed: bring it back from its copy")
        for digest, name in lines:
            digests[name] = digests.get(name) or sha512(seals / name)
            if digests[name] != digest:
                raise Refused(WRONG, f"{seals / name} is not as {renewal / LIST} lists it: bring it back from its copy")
        listed = {name for _, name in lines}
    return listed


def sha512(file: pathlib.Path) -> str:
    """Returns the digest of a file, empty if there is none."""
    return hashlib.sha512(file.read_bytes()).hexdigest() if file.is_file() else ""


def stamps_in(seals: pathlib.Path, sealed: list[Seal], renewals: list[pathlib.Path], listed: set[str],
              authority: Authority) -> tuple[list[Bare], dict[str, str]]:
    """Returns the stamps that the last renewal does not list, its own stamp too, and why any of these is not good."""
    stamps = [files for seal in sealed for files in chain.signatures_in(seal)]
    stamps += [(renewal / LIST, renewal / f"{LIST}.tsr") for renewal in renewals]
    bare, wrong = [], {}
    for stamped, stamp in stamps:
        name = stamp.relative_to(seals).as_posix()
        if name in listed or not stamp.exists() or authority.certificates is None:
            continue
        try:
            bare.append(Bare(name, token.read(stamp, stamped, authority.certificates)))
        except Refused as why:
            wrong[name] = f"it does not verify by {authority.certificates}, and is not renewed: {why}"
    return bare, wrong


def listed_anew(seals: pathlib.Path, folders: list[pathlib.Path], without: set[str], authority: Authority) -> pathlib.Path:
    """Makes a renewal of the files in folders without some, in a folder that is not in its place yet."""
    folder = seals / FOLDER / NEW
    shutil.rmtree(folder, ignore_errors=True)
    folder.mkdir(parents=True)
    there = [file for place in folders for file in sorted(place.iterdir()) if NAME.fullmatch(file.name) and file.is_file()]
    names = [name for file in there if (name := file.relative_to(seals).as_posix()) not in without]
    files.write(folder / LIST, "".join(f"{sha512(seals / name)}  {name}\n" for name in names).encode())
    files.write(folder / f"{LIST}.tsr", stamping.stamp_of(folder / LIST, authority))
    return folder


def is_gain(new: pathlib.Path, due: list[Bare], authority: Authority, now: datetime.datetime) -> bool:
    """Returns whether a renewal proves more than the stamps that need it. Shortly before their end it must."""
    assert authority.certificates is not None
    made = token.read(new / f"{LIST}.tsr", new / LIST, authority.certificates)
    first = min(due, key=lambda stamp: stamp.token.end)
    is_stronger = any(stamp.token.is_weaker(made.digest) for stamp in due)
    if made.end > first.token.end or is_stronger:
        return True
    if first.token.end < now + QUARTER:
        raise Refused(IMPOSSIBLE, f"{first.name} is good until {first.token.end:%Y-%m-%d}, and {authority.url} still stamps "
                                  "by a certificate that ends no later: ask for its next one, or take another authority")
    return False


def put(seals: pathlib.Path, new: pathlib.Path, number: int) -> int:
    """Puts a renewal in its place by one rename: 1."""
    os.rename(new, seals / FOLDER / f"{number:04}")
    files.sync(seals / FOLDER)
    files.sync(seals)
    return 1


def drop(new: pathlib.Path) -> int:
    """Removes a renewal that would prove nothing more: 0. The next call asks the authority again."""
    shutil.rmtree(new)
    return 0
