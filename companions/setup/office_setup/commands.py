"""The commands of office-setup."""
import argparse
import os
from collections.abc import Callable
from pathlib import Path

from office_common import command, files
from office_common.errors import USAGE, WRONG, Refused
from office_setup import (
    applying, closing, declared, doctor, first_file, keys, measures, ports, sign_in, sign_in_secrets, signing)
from office_setup.machine import OFFICES, Machine
from office_setup.office_things import ALL, LIB, file_of

NAME = "office-setup"
LOCK = "/run/office-setup.lock"
Work = Callable[[argparse.Namespace, Machine], int]
ONE, SOME, NONE = "one", "?", ""
"""how many names of offices a command takes, as argparse writes it; NONE adds no operand"""


def out(line: str) -> None:
    print(line, flush=True)


def new(options: argparse.Namespace, machine: Machine) -> int:
    """write a first file for an office"""
    file = machine.at(f"{OFFICES}/{options.name}.toml")
    if not declared.NAME.fullmatch(options.name):
        raise Refused(USAGE, f"'{options.name}' is no name of an office: it has {declared.NAME_RULE}")
    if file.exists():
        raise Refused(USAGE, f"{file} is there already")
    first_file.write(machine, options.name, options.site, options.zone, options.sign_in)
    if options.sign_in is not None:
        out(f"{first_file.secret_file(machine, options.sign_in)}: write the secret of the {options.sign_in} into it")
    out(f"{file}: look through it, then run `{NAME} apply`")
    return 0


def check(options: argparse.Namespace, machine: Machine) -> int:
    """print what differs, and change nothing"""
    count = applying.check(machine, options.name, out)
    out(f"{count} differences")
    return WRONG if count else 0


def apply(options: argparse.Namespace, machine: Machine) -> int:
    """make the machine as its offices declare"""
    out(f"{applying.apply(machine, options.name, out, options.after_upgrade)} changes")
    return 0


def remove(options: argparse.Namespace, machine: Machine) -> int:
    """take an office out of the site and switch its units off; its data stay"""
    applying.remove(machine, options.name, out)
    return 0


def off(options: argparse.Namespace, machine: Machine) -> int:
    """take the product's files out of nginx until the next apply"""
    applying.offices_of(machine)
    applying.off(machine, out)
    return 0


def state_of(machine: Machine, unit: str) -> str:
    return machine.run("systemctl", "is-active", unit).text.split("\n")[0] or "unknown"


def list_offices(options: argparse.Namespace, machine: Machine) -> int:
    """print the offices of this machine"""
    out(f"{'NAME':16}{'PORT':6}{'ALL':12}{'SERVICE':12}{'GATE':12}{'VAULT':12}{'BYTES':>14}  LAST COPY")
    taken = ports.taken(machine)
    for office in declared.all_in(machine.at(OFFICES)):
        names = [ALL, *(f"{unit}@{{}}.service" for unit in ("office", "office-gate", "office-vault"))]
        states = "".join(f"{state_of(machine, name.format(office.name)):12}" for name in names)
        folder = machine.at(f"{LIB}/office-backups/{office.name}")
        copies = files.copies_in(folder) if folder.is_dir() else []
        last = copies[-1].name if copies else "-"
        size = files.size_of(machine.at(file_of(office)))
        out(f"{office.name:16}{taken.get(office.name, '-'):<6}{states}{size:>14}  {last}")
    return 0


def examine(options: argparse.Namespace, machine: Machine) -> int:
    """ask each office as its clients do, and look at copies, certificate, clock and journals"""
    offices = applying.chosen(applying.offices_of(machine), options.name)
    looks = doctor.looks(machine, offices, options.port)
    if options.prometheus is not None:
        text = measures.text_of(machine, offices, list(looks))
        # node-exporter reads it; the unit may change no owner
        os.umask(0o022)
        files.write(options.prometheus, text.encode(), 0o644)
        return 0
    wrong = 0
    for look in looks:
        out(f"{'well ' if look.finding.is_well else 'WRONG'} {look.text()}")
        wrong += not look.finding.is_well
    return WRONG if wrong else 0


def password(options: argparse.Namespace, machine: Machine) -> int:
    """give a person another password, and show it"""
    every = applying.offices_of(machine)
    offices = applying.chosen(every, options.name)
    is_monitor = options.person == keys.MONITOR
    if not is_monitor and offices[0].signing is not None:
        return secret(machine, every, offices[0], options.person)
    if not is_monitor and keys.are_all_named(offices) and options.person not in keys.people_in(offices):
        raise offices[0].refuse("people", f"there is no {options.person}")
    path = keys.MONITOR_PASSWORDS if is_monitor else keys.PASSWORDS
    shown = keys.set_password(machine, path, options.person)
    out(f"a new password, shown this once: {options.person} {shown}")
    return 0


def secret(machine: Machine, every: list[declared.Office], office: declared.Office, name: str) -> int:
    """Gives a local name or a program of sign-in another secret, and shows it."""
    is_program = name in sign_in_secrets.programs([office])
    if not is_program and name not in sign_in_secrets.local_names([office]):
        raise office.refuse(signing.TABLE, f"there is no local name and no program {name}")
    sign_in.check(machine, every)
    shown = sign_in_secrets.give(machine, name, is_program)
    out(f"a new {'token' if is_program else 'password'}, shown this once: {name} {shown}")
    work = applying.Pass(machine, out, makes=True)
    work.over(sign_in.things(machine, every, work.show))
    work.run_then()
    return 0


def close(options: argparse.Namespace, machine: Machine) -> int:
    """stop an office for a while; whoever asks gets at once up to when"""
    office = applying.chosen(applying.offices_of(machine), options.name)[0]
    moment = closing.close(machine, office, options.until)
    out(f"{office.name} is closed until {moment:%Y-%m-%d %H:%M}: `{NAME} open {office.name}` opens it before")
    return 0


def reopen(options: argparse.Namespace, machine: Machine) -> int:
    """start an office that was closed"""
    office = applying.chosen(applying.offices_of(machine), options.name)[0]
    closing.reopen(machine, office)
    out(f"{office.name} is open")
    return 0


COMMANDS: tuple[tuple[str, Work, str], ...] = (
    ("new", new, ONE), ("check", check, SOME), ("apply", apply, SOME), ("remove", remove, ONE),
    ("list", list_offices, NONE), ("doctor", examine, SOME), ("password", password, ONE), ("close", close, ONE),
    ("open", reopen, ONE), ("off", off, NONE))


def parser() -> argparse.ArgumentParser:
    """Returns the reader of the arguments."""
    top = command.parser(NAME)
    top.add_argument("--root", type=Path, default=Path("/"), metavar="FOLDER", help="take the files below a folder")
    kinds = top.add_subparsers(required=True, metavar="COMMAND")
    by_name: dict[str, argparse.ArgumentParser] = {}
    for name, work, operands in COMMANDS:
        by_name[name] = kinds.add_parser(name, help=work.__doc__, allow_abbrev=False)
        by_name[name].set_defaults(work=work)
        if operands == ONE:
            by_name[name].add_argument("name", metavar="NAME")
        elif operands == SOME:
            by_name[name].add_argument("name", metavar="NAME", nargs=SOME)
    by_name["new"].add_argument("--site", help="the name of this machine in a browser")
    by_name["new"].add_argument("--zone", help="the time zone of the office")
    by_name["new"].add_argument("--sign-in", choices=tuple(signing.WAYS), help="who knows the people: without it passwords")
    by_name["apply"].add_argument("--after-upgrade", action="store_true",
                                  help="copy each office first, and restart no service")
    by_name["doctor"].add_argument("--port", type=command.number(1, 65_535), default=doctor.HTTPS,
                                   help="the port of HTTPS")
    by_name["doctor"].add_argument("--prometheus", type=Path, metavar="FILE",
                                   help="write what it finds for node-exporter's textfile collector, and print nothing")
    by_name["password"].add_argument("person", metavar="PERSON")
    by_name["close"].add_argument("--until", required=True, metavar="TIME", help="as 14:00, or '2026-12-31 14:00'")
    return top


def locked_work(options: argparse.Namespace) -> int:
    """Does the work of a command while no other one does."""
    machine = Machine(options.root.resolve())
    if os.geteuid() != 0:
        raise Refused(USAGE, "root runs it")
    os.umask(0o077)
    lock = machine.at(LOCK)
    lock.parent.mkdir(parents=True, exist_ok=True)
    with files.locked(lock, is_made=True):
        return int(options.work(options, machine))


def main(arguments: list[str]) -> int:
    options = parser().parse_args(arguments)
    return command.run(NAME, lambda: locked_work(options))
