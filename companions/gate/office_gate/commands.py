"""The commands of office-gate."""
import argparse
import os
from pathlib import Path

from office_common import command
from office_gate import alone, clock, settings
from office_gate.errors import Refused
from office_gate.words import MAY, READS


def serve(options: argparse.Namespace) -> int:
    """stand between nginx and an office"""
    try:
        from office_gate import running, starting
    except ModuleNotFoundError as error:
        raise Refused(2, f"there is no {error.name}: apt-get install python3-aiohttp python3-h11") from error
    paths = starting.Paths(options.settings, options.journal, options.state, options.token, options.catalogue,
                           options.socket, options.office_token, options.office_reader, options.closed)
    running.run(paths, options.office)
    return 0


def check(options: argparse.Namespace) -> int:
    """read a file of settings, and say what is wrong, and which name alone can destroy"""
    access = settings.read(options.settings)
    roles = {role for person in access.people.values() for role in person.roles}
    print(f"names: {len(access.people)}, roles that a name has: {len(roles)}, SHA-256 {access.digest}")
    print("\n".join(alone.statement(access)))
    return 0


def rights(options: argparse.Namespace) -> int:
    """print what a name may do"""
    person = settings.read(options.settings).person(options.name)
    print(f"{person.name} signs as {person.signs}, roles: {' '.join(person.roles) or 'none'}")
    for word in [*MAY, *(f"read {thing}" for thing in READS)]:
        if person.may(word):
            for grant in [grant for grant in person.grants if grant.word == word]:
                limits = " and ".join("in " + " ".join(limit) for limit in grant.limits)
                print(" ".join(filter(None, [word, limits, "if sent" if grant.sent else ""])))
    return 0


def lines(options: argparse.Namespace) -> int:
    """print the field lines of a request that a name of this machine sends to the gate, beside the token"""
    access = settings.read(options.settings)
    if not access.person(options.name).roles:
        raise Refused(1, f"no line of the settings of the gate begins with 'name {options.name} is': city.access has "
                         "one, and its role")
    print(f"Host: {access.host()}\nOrigin: {access.site}\nOffice-Name: {options.name}")
    return 0


def clock_is_right(options: argparse.Namespace) -> int:
    """let the gate of a folder go by the clock of this machine as it is now"""
    print(f"the clock shows {clock.say_right(options.state)}: the gate of {options.state} goes by it from now on")
    return 0


def command_parser() -> argparse.ArgumentParser:
    parser = command.parser("office-gate")
    kinds = parser.add_subparsers(required=True, metavar="COMMAND")
    sub = kinds.add_parser("serve", help=serve.__doc__, allow_abbrev=False)
    sub.set_defaults(work=serve)
    sub.add_argument("--office", required=True, metavar="HOST:PORT")
    for name in ("settings", "journal", "state", "token"):
        sub.add_argument(f"--{name}", type=Path, required=True)
    for name in ("catalogue", "socket", "office-token", "closed"):
        sub.add_argument(f"--{name}", type=Path)
    sub.add_argument("--office-reader", metavar="NAME")
    sub = kinds.add_parser("check", help=check.__doc__, allow_abbrev=False)
    sub.set_defaults(work=check)
    sub.add_argument("settings", type=Path)
    for name, work in (("rights", rights), ("lines", lines)):
        sub = kinds.add_parser(name, help=work.__doc__, allow_abbrev=False)
        sub.set_defaults(work=work)
        sub.add_argument("settings", type=Path)
        sub.add_argument("name")
    sub = kinds.add_parser(clock.WORD, help=clock_is_right.__doc__, allow_abbrev=False)
    sub.set_defaults(work=clock_is_right)
    sub.add_argument("state", type=Path, metavar="FOLDER")
    return parser


def main(arguments: list[str]) -> int:
    options = command_parser().parse_args(arguments)
    os.umask(0o027)
    return command.run("office-gate", lambda: int(options.work(options)))
