"""Compares a machine with its declared offices, corrects it, and restores the files of nginx if nginx refuses them."""
import contextlib
import importlib.util
from collections.abc import Callable, Iterable, Iterator, Sequence

from office_common.errors import IMPOSSIBLE, USAGE, Refused
from office_setup import declared, keys, machine_things, office_things, sign_in
from office_setup.declared import Office
from office_setup.machine import OFFICES, Machine
from office_setup.made import Made
from office_setup.things import Command, Thing, Unit
from office_setup.undo import Undo

COMMANDS = {"nginx": "nginx", "nft": "nftables", "ssh-keygen": "openssh-client", "openssl": "openssl",
            "sqlite3": "sqlite3", "logrotate": "logrotate"}
FILES = {"/usr/lib/nginx/modules/ngx_http_js_module.so": "libnginx-mod-http-js"}
MODULES = {"aiohttp": "python3-aiohttp", "h11": "python3-h11"}
OF_WAYS = {"directory": {"ldap3": "python3-ldap3"},
           "provider": {"jwt": "python3-jwt", "cryptography": "python3-cryptography"}}
"""what the ways to sign in need besides"""
Print = Callable[[str], None]


def check_packages(machine: Machine, offices: Sequence[Office]) -> None:
    """Names the packages of Debian that are missing. Below another root they are taken to be there."""
    if not machine.is_real:
        return
    packages = {package for command, package in COMMANDS.items() if not machine.has_command(command)}
    packages |= {package for path, package in FILES.items() if not machine.at(path).exists()}
    shared = offices[0].signing.shared if offices[0].signing else {}
    modules = MODULES | {module: package for way in OF_WAYS if way in shared for module, package in OF_WAYS[way].items()}
    packages |= {package for module, package in modules.items() if importlib.util.find_spec(module) is None}
    has_mail = "mail" in shared or any(office.morning or office.failed for office in offices)
    if has_mail and not machine.has_command("mail"):
        packages.add("bsd-mailx")
    if packages:
        raise Refused(USAGE, f"packages are missing: apt-get install {' '.join(sorted(packages))}")


def offices_of(machine: Machine) -> list[Office]:
    """Reads the offices of a machine. At least one has to be declared."""
    offices = declared.all_in(machine.at(OFFICES))
    if not offices:
        raise Refused(USAGE, f"there is no {OFFICES}/NAME.toml: `office-setup new NAME` writes one")
    return offices


def chosen(offices: Sequence[Office], name: str | None) -> list[Office]:
    """Returns the office of a name, or all."""
    some = [office for office in offices if name in (None, office.name)]
    if not some:
        raise Refused(USAGE, f"there is no {OFFICES}/{name}.toml: `office-setup new {name}` writes one")
    return some


class Pass:
    """A pass over things: it prints and counts each difference, and corrects it if `makes` is true."""

    def __init__(self, machine: Machine, out: Print, makes: bool, is_upgrade: bool = False) -> None:
        self.machine, self.out, self.makes, self.is_upgrade = machine, out, makes, is_upgrade
        self.made = Made(machine)
        self.undo = Undo(machine, self.made)
        self.count = self.left = 0
        # the product's files changed behind the links, which are as they were
        self.is_nginx_changed = is_upgrade
        self.then: list[Command] = []
        self.back: list[Command] = []
        self.started: set[str] = set()
        self.passwords: list[tuple[str, str]] = []

    def over(self, things: Iterable[Thing]) -> None:
        """Compares one thing after another, since a later one may rest on an earlier one."""
        for thing in things:
            difference = thing.difference()
            if difference is None:
                continue
            if self.is_upgrade and thing.waits:
                self.left += 1
                self.out(f"left to you: {difference}")
                continue
            self.count += 1
            self.out(difference)
            if self.makes:
                self.make(thing)

    def make(self, thing: Thing) -> None:
        if thing.is_of_nginx:
            self.is_nginx_changed = True
            if thing.path is not None:
                self.undo.note(thing.path)
        for path in thing.restores:
            self.undo.note(path)
        self.back += [command for command in thing.back if command not in self.back]
        for line in thing.make(self.made):
            self.out(line)
        if isinstance(thing, Unit) and thing.is_on:
            self.started.add(thing.name)
        self.then += [command for command in thing.then if command not in self.then]

    def run_then(self) -> None:
        """Runs the commands that the changes require, but for units that this pass started."""
        for command in self.then:
            if command[-1] in self.started:
                continue
            if self.is_upgrade and "restart" in command[1]:
                self.out(f"left to you: {' '.join(command)}")
            else:
                self.machine.must(*command)
        self.then = []

    def show(self, name: str, password: str) -> None:
        self.passwords.append((name, password))

    def print_passwords(self) -> None:
        for name, password in self.passwords:
            self.out(f"a first password, shown this once: {name} {password}")
        self.passwords = []

    # ---- nginx

    @contextlib.contextmanager
    def going_back(self) -> Iterator[None]:
        """Restores the files of nginx, and those that belong to them, if an exception ends the block."""
        try:
            yield
        except BaseException:
            self.undo.put_back()
            for command in self.back:
                self.machine.run(*command)
            raise

    def reload_nginx(self) -> None:
        """Reloads nginx if its files changed. Refused says that nginx does not accept them."""
        if not self.is_nginx_changed:
            return
        tried = self.machine.run("nginx", "-t")
        if tried.status:
            raise Refused(USAGE, f"nginx does not take the new files, so those of before are back: {tried.text}")
        self.machine.must("systemctl", "reload-or-restart", "nginx.service")
        self.is_nginx_changed = False


def go_over(work: Pass, offices: Sequence[Office], some: Sequence[Office]) -> None:
    """Goes over the things of some offices, and over those that all offices share."""
    machine = work.machine
    check_packages(machine, offices)
    # a mistake in a declaration is found before anything changes
    machine_things.check_site(machine, offices, work.made)
    machine_things.check_certificate(machine, offices[0])
    sign_in.check(machine, offices)
    for office in some:
        office_things.check_first(machine, office)
    lists = [list(sign_in.things(machine, offices, work.show)),
             *(list(office_things.things_of(machine, office, offices)) for office in some)]
    # a port is closed to others before an office listens there
    go_over_rules(work, offices)
    go_over_site(work, offices, lists)


def go_over_rules(work: Pass, offices: Sequence[Office]) -> None:
    """Goes over the rules of nftables."""
    work.over(machine_things.nftables(work.machine, offices))
    work.run_then()


def go_over_site(work: Pass, offices: Sequence[Office], lists: Sequence[Sequence[Thing]]) -> None:
    """Goes over lists of things, then over the files of nginx and the passwords, and reloads nginx."""
    try:
        with work.going_back():
            for things in lists:
                work.over(things)
                work.run_then()
            work.over(machine_things.nginx(work.machine, offices))
            work.over(keys.passwords(work.machine, offices, work.show))
            work.reload_nginx()
        work.over([Unit(work.machine, "nginx.service")])
        work.over(list(sign_in.ending(work.machine, offices, work.made)))
    finally:
        # a password that was made is shown, whatever ended the pass
        work.print_passwords()


def check(machine: Machine, name: str | None, out: Print) -> int:
    """Prints each difference, and returns their number."""
    offices = offices_of(machine)
    work = Pass(machine, out, makes=False)
    go_over(work, offices, chosen(offices, name))
    return work.count


def apply(machine: Machine, name: str | None, out: Print, is_upgrade: bool = False) -> int:
    """Corrects each difference, and returns their number. After an upgrade it first copies each office, starts and
    restarts no service, and gives nobody a password."""
    offices = offices_of(machine)
    if is_upgrade:
        copy_first(machine, offices, out)
    work = Pass(machine, out, makes=True, is_upgrade=is_upgrade)
    go_over(work, offices, chosen(offices, name))
    if work.left:
        out(f"{work.left} differences are left: `office-setup apply` corrects them")
    return work.count


def copy_first(machine: Machine, offices: Sequence[Office], out: Print) -> None:
    """Copies each office, so that there is a way back from the new version."""
    for office in offices:
        if machine.at(office_things.file_of(office)).exists():
            unit = f"office-backup@{office.name}.service"
            done = machine.run("systemctl", "start", unit)
            if done.status:
                raise Refused(IMPOSSIBLE, f"no copy of {office.name} was made, so nothing was changed: journalctl -u "
                              f"{unit}")
            out(f"{office.name}: a copy was made")


# ---- the end of an office


def remove(machine: Machine, name: str, out: Print) -> None:
    """Takes an office out of the site and switches its units off. Its data and settings stay."""
    office = chosen(offices_of(machine), name)[0]
    removed = office.file.with_name(f"{name}.toml.removed")
    office.file.rename(removed)
    try:
        rest = declared.all_in(machine.at(OFFICES))
        if rest:
            work = Pass(machine, out, makes=True)
            go_over_site(work, rest, [list(sign_in.things(machine, rest, work.show))])
            go_over_rules(work, rest)
        else:
            off(machine, out)
            work = Pass(machine, out, makes=True)
            work.over(list(sign_in.ending(machine, rest, work.made)))
    except Refused:
        removed.rename(office.file)
        raise
    for unit in office_things.units_of(name):
        thing = Unit(machine, unit, is_on=False)
        if thing.difference() is not None:
            machine.must("systemctl", "disable", "--now", unit)
            out(f"{unit}: off")
    # what was cut by that is no failure that somebody has to look at
    machine.run("systemctl", "reset-failed", f"office*@{name}.*")
    out(f"{removed}: the file of the office, under another name")
    for folder in office_things.DATA:
        if machine.at(f"/var/lib/{folder}/{name}").exists():
            out(f"/var/lib/{folder}/{name}: stays")


def off(machine: Machine, out: Print) -> None:
    """Removes the links into the package from nginx and logrotate, since without the package nginx would not start."""
    made = Made(machine)
    for file in machine_things.product_links(machine):
        path = f"/{file.relative_to(machine.root)}"
        if file.is_symlink() and (path == machine_things.ENABLED or machine.share() in str(file.readlink())):
            file.unlink()
            made.forget(path)
            out(f"{path}: removed")
    if machine.run("nginx", "-t").status == 0:
        machine.run("systemctl", "reload", "nginx.service")
