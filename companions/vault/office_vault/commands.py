"""The words of office-vault: what each takes, and what it prints."""
import argparse
import hashlib
import os
import pwd
import sqlite3
import sys
from collections.abc import Callable
from pathlib import Path

from office_common import command, manifest, rights
from office_common.errors import IMPOSSIBLE, Refused

from office_vault import checking, mirroring, service, sweeping
from office_vault.answering import Settings
from office_vault.objects import NoRoom, Vault
from office_vault.uploads import Uploads

GIGABYTE = 1 << 30


def make(options: argparse.Namespace) -> int:
    """create the folders of a vault"""
    Vault.make(options.vault)
    return 0


def put(options: argparse.Namespace) -> int:
    """put files in, and print the manifest that names them"""
    vault, named = Vault(options.vault), []
    for path in options.files:
        with path.open("rb") as file:
            digest, length = hashlib.file_digest(file, "sha256").hexdigest(), file.tell()
            file.seek(0)
            vault.receive(digest, length, file.read, options.reserve)
        named.append(manifest.Named(digest, length, path.name))
    print(manifest.text_of(named), end="")
    return 0


def serve(options: argparse.Namespace) -> int:
    """serve a vault behind nginx, at a socket of the file system"""
    uploads = Uploads(options.at_once, options.unnamed)
    settings = Settings(Vault(options.vault), options.office, options.most, options.reserve, options.internal, uploads)
    service.serve(settings, options.socket)
    return 0


def sweep(options: argparse.Namespace) -> int:
    """remove what no record names, and print the report"""
    rules = sweeping.Rules(options.grace, options.restored, options.many, lines_of(options.line))
    vault = Vault(options.vault)
    report = sweeping.sweep_copies(vault, Path(options.office), rules) if options.copies \
        else sweeping.sweep(vault, options.office, rules)
    print(report.read_text(), end="")
    return 0


def check(options: argparse.Namespace) -> int:
    """compare each object with its digest, and each manifest with the objects"""
    last = ""
    for last in checking.check(Vault(options.vault), options.office, options.quick, lines_of(options.line)):
        print(last, flush=True)
    return 0 if last.endswith("wrong 0") else 1


def mirror(options: argparse.Namespace) -> int:
    """copy to the vault TARGET what it lacks, each digest compared"""
    last = ""
    for last in mirroring.mirror(Vault(options.vault), Vault(options.target), options.reserve):
        print(last, flush=True)
    return 0 if last.endswith("damaged 0") else 1


def lines_of(lines: list[str]) -> dict[str, str]:
    return dict(line.split(": ", 1) for line in lines)


def line(text: str) -> str:
    """Reads a field line."""
    name, mark, _ = text.partition(": ")
    if not mark or not name:
        raise argparse.ArgumentTypeError(f"'{text}' is no field line, such as 'Office-Read: newest'")
    return text


def command_parser() -> argparse.ArgumentParser:
    parser, number = command.parser("office-vault"), command.number(0)
    kinds = parser.add_subparsers(required=True, metavar="COMMAND")

    def kind(work: Callable[[argparse.Namespace], int], *places: str) -> argparse.ArgumentParser:
        sub = kinds.add_parser(work.__name__, help=work.__doc__, allow_abbrev=False)
        sub.set_defaults(work=work)
        for place in places:
            sub.add_argument(place, type=Path)
        return sub

    kind(make, "vault")
    sub = kind(put, "vault")
    sub.add_argument("files", type=Path, nargs="+")
    room(sub)
    sub = kind(serve, "vault", "socket")
    sub.add_argument("--office", required=True, metavar="SOCKET|HOST:PORT")
    sub.add_argument("--most", type=number, default=100 * GIGABYTE, help="bytes of the largest object")
    sub.add_argument("--internal", default="/office-vault-objects", help="where nginx has the objects")
    sub.add_argument("--at-once", type=number, default=4, help="uploads of a name at once")
    sub.add_argument("--unnamed", type=number, default=20 * GIGABYTE, help="bytes of a name that no record names")
    room(sub)
    sub = kind(sweep, "vault")
    add_office(sub)
    sub.add_argument("--grace", type=number, default=int(sweeping.GRACE), help="seconds")
    sub.add_argument("--restored", action="store_true", help="the office was restored from a backup")
    sub.add_argument("--many", action="store_true", help="more may go than stay")
    sub.add_argument("--copies", action="store_true", help="OFFICE is a folder of copies: what no copy names goes")
    sub = kind(check, "vault")
    add_office(sub)
    sub.add_argument("--quick", action="store_true", help="look at lengths alone")
    room(kind(mirror, "vault", "target"))
    return parser


def add_office(parser: argparse.ArgumentParser) -> None:
    parser.add_argument("office", help="SOCKET, http://127.0.0.1:PORT, FILE, or a folder of copies")
    parser.add_argument("--line", type=line, action="append", default=[], help="a field line of each request")


def room(parser: argparse.ArgumentParser) -> None:
    parser.add_argument("--reserve", type=command.number(0), default=GIGABYTE, help="bytes of the disk that stay free")


def become_reader(source: Path, target: Path, arguments: list[str]) -> None:
    """Lets root go on as the owner of TARGET who may read a vault of somebody else, by setpriv; returns if that is none.

    Each object is compared with its digest, so nothing that is no object of the source gets into the target.
    """
    owners = [it.stat().st_uid if it.is_dir() else 0 for it in (source, target)]
    if os.geteuid() != 0 or 0 in owners or owners[0] == owners[1]:
        return
    user = pwd.getpwuid(owners[1])
    os.execvp("setpriv", ["setpriv", f"--reuid={user.pw_uid}", f"--regid={user.pw_gid}", "--init-groups",
                          "--inh-caps=-all,+dac_read_search", "--ambient-caps=-all,+dac_read_search",
                          "--bounding-set=-all,+dac_read_search", "--no-new-privs", sys.executable, "-I", sys.argv[0],
                          *arguments])


def work(options: argparse.Namespace, arguments: list[str]) -> int:
    """Does what a command asks for, as the owner of the vault."""
    if options.work is mirror:
        become_reader(options.vault, options.target, arguments)
    if options.vault.is_dir():
        # before anything in its folder is touched
        rights.become_owner(options.vault.stat())
    try:
        status: int = options.work(options)
    except NoRoom as error:
        raise Refused(IMPOSSIBLE, "the disk has no room for this object, and the bytes that stay free") from error
    return status


def main(arguments: list[str]) -> int:
    options = command_parser().parse_args(arguments)
    os.umask(0o027)
    return command.run("office-vault", lambda: work(options, arguments), (OSError, sqlite3.Error, ValueError, KeyError))
