"""The words of office-sign-in: what each takes, and what it prints."""
import argparse
import datetime
import getpass
import os
import sys
from collections.abc import Callable
from pathlib import Path

from office_common import command
from office_common.errors import IMPOSSIBLE, USAGE, WRONG, Refused

from office_signin import gate_settings, local_names, mailing, settings
from office_signin.gate_settings import Places as GatePlaces
from office_signin.settings import Settings

SETTINGS = Path("/etc/office-sign-in/settings.toml")
GATES, OWN = Path("/etc/office"), Path("/etc/office-sign-in")
DEFAULT_DAYS = 365


def serve(args: argparse.Namespace) -> int:
    """answer nginx who somebody is, and sign people in"""
    try:
        from office_signin import service, signing_in
    except ModuleNotFoundError as error:
        raise Refused(USAGE, f"there is no {error.name}: apt-get install python3-aiohttp") from error
    os.umask(0o027)
    places = signing_in.Places(args.journal, args.state, args.given)
    service.serve(signing_in.SigningIn(settings.read(args.settings), places), args.socket)
    return 0


def check(args: argparse.Namespace) -> int:
    """read the settings, and print what they are"""
    found = settings.read(args.settings)
    way = "the directory" if found.directory else "a provider" if found.provider else "nobody: local names alone"
    groups = sum(len(groups) for groups in found.roles.values())
    print(f"people sign in by {way}; offices: {' '.join(found.roles) or 'none'}; groups with a role: {groups}; local names: "
          f"{len(found.local)}; programs: {len(found.programs)}")
    today = datetime.datetime.now(found.times.zone).date()
    for program in found.programs.values():
        if program.ends < today:
            print(f"the token of {program.name} ended on {program.ends}")
    if args.ask:
        ask(found)
    return 0


def ask(found: Settings) -> None:
    """Asks the directory about nobody, as its reader, or the provider what it states of itself."""
    from office_signin.directory import Away, Ldap
    from office_signin.provider import Provided
    from office_signin.statements import Untrue
    try:
        if found.directory:
            Ldap(found.directory).again("-", "-")
        elif found.provider:
            Provided(found.provider, found.site).discovered()
    except (Away, Untrue) as error:
        raise Refused(IMPOSSIBLE, str(error)) from error


def gates(args: argparse.Namespace) -> int:
    """give the gates the people who signed in, as root"""
    places, found = GatePlaces(args.gates, args.own, tuple(args.check.split()), tuple(args.reload.split())), settings.read(args.settings)
    if args.compare:
        others = gate_settings.differing(found, args.people, places)
        print("".join(f"the gate of {office} has other settings\n" for office in others), end="")
        return WRONG if others else 0
    gate_settings.give_all(found, args.people, places, args.given)
    return 0


def mails(args: argparse.Namespace) -> int:
    """hand the mails that wait to the user who sends them, or remove those that were sent, as root"""
    if args.sent:
        mailing.remove_sent(args.mails, args.to)
    else:
        mailing.hand_over(settings.read(args.settings).mail, args.mails, args.to, args.user)
    return 0


def password(args: argparse.Namespace) -> int:
    """print what the settings have of the password of a local name"""
    text = sys.stdin.readline().rstrip("\n") if args.stdin else getpass.getpass("Password: ")
    if len(text) < 12:
        raise Refused(USAGE, "this password is too short: take 12 letters or more")
    print(local_names.hash_of(text))
    return 0


def token(args: argparse.Namespace) -> int:
    """make a token for a program, and print what the settings have of it"""
    if not settings.LOCAL.fullmatch(args.name):
        raise Refused(USAGE, f"'{args.name}' is no name of a program: letters, digits and . _ -")
    made = local_names.new_token()
    ends = datetime.date.today() + datetime.timedelta(days=args.days)
    print(f"[programs.{args.name}]\ntoken = \"{local_names.digest_of(made)}\"\nends = {ends}")
    print(f"the program sends the name {args.name} and this password, which is shown once: {made}", file=sys.stderr)
    return 0


def add(kinds: "argparse._SubParsersAction[argparse.ArgumentParser]", work: Callable[[argparse.Namespace], int],
        *paths: tuple[str, Path | None]) -> argparse.ArgumentParser:
    """Adds a word with options that are paths, those without a default needed."""
    one = kinds.add_parser(work.__name__, help=work.__doc__, allow_abbrev=False)
    one.set_defaults(work=work)
    for name, default in paths:
        one.add_argument(f"--{name}", type=Path, default=default, required=default is None)
    return one


def parser() -> argparse.ArgumentParser:
    """Returns the parser of all words."""
    whole = command.parser("office-sign-in")
    kinds = whole.add_subparsers(required=True, metavar="COMMAND")
    own = ("settings", SETTINGS)
    add(kinds, serve, own, ("socket", None), ("journal", None), ("state", None), ("given", None))
    add(kinds, check, own).add_argument("--ask", action="store_true", help="ask the directory or the provider too")
    one = add(kinds, gates, own, ("people", None), ("given", None), ("gates", GATES), ("own", OWN))
    one.add_argument("--check", default="office-gate check")
    one.add_argument("--reload", default="systemctl try-reload-or-restart")
    one.add_argument("--compare", action="store_true", help="print which gates lack it, and change nothing")
    one = add(kinds, mails, own, ("mails", None), ("to", None))
    one.add_argument("--user")
    one.add_argument("--sent", action="store_true")
    add(kinds, password).add_argument("--stdin", action="store_true")
    one = add(kinds, token)
    one.add_argument("name")
    one.add_argument("--days", type=command.number(1, 3650), default=DEFAULT_DAYS)
    return whole


def main(arguments: list[str]) -> int:
    args = parser().parse_args(arguments)
    return command.run("office-sign-in", lambda: int(args.work(args)))
