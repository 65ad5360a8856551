"""Units of systemd: systemd-analyze reads a copy of all of them, with their drop-ins, and so knows what they name."""
from __future__ import annotations

import pathlib
import re
import tempfile

from checks.finding import Finding, call, need
from checks.tree import TOP, files, line_of_match, read, suffix
from kit.units import lay_out

SUFFIXES = (".service", ".timer", ".socket", ".target", ".path", ".mount", ".slice")
INSTANCE = "city"
ALL = "office-all@%i.target"
"""what stops and starts all units of an office"""
APART = ("office-failed@", "office-member")
"""units that are no part of it: an instance of one is named after a unit, members are of several machines"""
FOLDER = "lib/systemd/system"
PLACED = re.compile(r"^(?P<file>/[^:\n]+):(?P<line>\d+): (?P<text>.+)$")
OF_UNIT = re.compile(r"^(?P<unit>[\w@.-]+\.\w+): (?P<text>.+)$")
NOT_HERE = re.compile(r"Command /\S+ is not executable: No such file or directory")
"""what is said of a program that is installed elsewhere; own programs are looked for in the repository"""
MAIL = {"office-failed@.service": 6.5, "office-overdue-mail@.service": 6.5, "office-sign-in-mail.service": 6.5}
"""units that hand mail to the machine's mail program, which becomes another user"""
EXPOSED = {**MAIL, "office-certificates@.service": 0.6, "office-compact@.service": 1.1, "office-doctor.service": 2.5,
           "office-etcd-defrag.service": 1.3, "office-etcd.service": 1.5, "office-gate@.service": 1.7, "office-intake@.service": 1.3,
           "office-journal-check@.service": 1.1, "office-member-nightly@.service": 1.5, "office-member@.service": 1.3,
           "office-renew@.service": 1.4,
           "office-sign-in-gates.service": 2.0, "office-sign-in.service": 1.5, "office-stamp@.service": 1.4,
           "office-vault-check@.service": 0.6, "office-vault-mirror@.service": 0.6, "office-vault-sweep@.service": 0.6,
           "office-vault@.service": 0.6, "office-yearend@.service": 1.3, "office@.service": 0.8}
"""how much of the machine a unit may reach at most, from 0 to 10 as systemd-analyze counts it"""
USUAL = 0.5
"""what a unit may reach that is not in this table"""
LEVEL = re.compile(r"Overall exposure level for .*: ([0-9.]+) ")


def is_unit(name: str) -> bool:
    """Whether a file is a unit of systemd."""
    return suffix(name) in SUFFIXES


def is_drop_in(name: str) -> bool:
    """Whether a file is a part of units."""
    return ".service.d/" in name


def is_service(name: str) -> bool:
    """Whether a file says what a service may do."""
    return suffix(name) == ".service" or is_drop_in(name)


def name_of(file: str) -> str:
    """Returns the name of a unit or drop-in, as it is called in the folder of all units."""
    path = pathlib.PurePosixPath(file)
    return f"{path.parent.name}/{path.name}" if is_drop_in(file) else path.name


def named_programs(names: list[str]) -> list[Finding]:
    """Looks for each program of this repository that a unit runs."""
    ours = {pathlib.PurePosixPath(name).name for name in files()} | {"office"}
    findings = []
    for name in names:
        text = read(name)
        for match in re.finditer(r"/usr/local/(?:bin|lib/office-replicas)/([\w-]+)", text):
            if match[1] not in ours:
                findings.append(Finding(name, line_of_match(text, match), f"there is no {match[1]} in the repository"))
    return findings


def parted(names: list[str]) -> list[Finding]:
    """Looks that the target of all units of an office stops each of its units, and starts those that can be enabled."""
    findings = []
    for name in names:
        unit, text = pathlib.PurePosixPath(name).name, read(name)
        if "@." not in unit or suffix(name) == ".target" or unit.startswith(APART):
            continue
        if f"\nPartOf={ALL}\n" not in text:
            findings.append(Finding(name, 1, f"it does not end with its office: PartOf={ALL}"))
        wanted = re.search(r"^WantedBy=(.*)$", text, re.M)
        if wanted and ALL not in wanted[1].split():
            findings.append(Finding(name, line_of_match(text, wanted), f"it does not start with its office: {ALL}"))
    return findings


def verified(names: list[str]) -> list[Finding]:
    """Has systemd-analyze verify all units, those with @ as an instance, and reports what it finds in these files."""
    need("systemd-analyze")
    ours = {name_of(name): name for name in files() if is_unit(name) or is_drop_in(name)}
    findings = []
    with tempfile.TemporaryDirectory(prefix="lint-units-") as folder:
        lay_out(pathlib.Path(folder))
        instances = [name.replace("@.", f"@{INSTANCE}.") for name, file in ours.items() if is_unit(file)]
        done = call(["systemd-analyze", "verify", "--man=no", "--recursive-errors=no",
                     *(f"{folder}/{name}" for name in instances)], cwd=TOP)
    for line in done.text.splitlines():
        if placed := PLACED.match(line):
            own = placed["file"].removeprefix(f"{folder}/").replace(f"@{INSTANCE}.", "@.")
            findings.append(Finding(ours.get(own, own), int(placed["line"]), placed["text"]))
        elif (unit := OF_UNIT.match(line)) and not NOT_HERE.fullmatch(unit["text"]):
            own = unit["unit"].replace(f"@{INSTANCE}.", "@.")
            findings.append(Finding(ours.get(own, own), 1, unit["text"]))
        elif line.strip() and not unit:
            findings.append(Finding(names[0], 1, line.strip()))
    units = [name for name in names if is_unit(name)]
    return [item for item in findings if item.file in names] + named_programs(units) + parted(units)


def exposed(names: list[str]) -> list[Finding]:
    """Compares what each service may reach, by systemd-analyze, with the table."""
    need("systemd-analyze")
    findings = []
    with tempfile.TemporaryDirectory(prefix="lint-exposed-") as root:
        lay_out(pathlib.Path(root, FOLDER))
        for name in [name for name in files() if suffix(name) == ".service"]:
            unit = name_of(name)
            done = call(["systemd-analyze", f"--root={root}", "security", "--offline=true", "--no-pager",
                         unit.replace("@.", f"@{INSTANCE}.")])
            level, most = LEVEL.search(done.text), EXPOSED.get(unit, USUAL)
            if level is None or float(level[1]) > most:
                text = level[1] if level else done.text.strip()[-200:]
                findings.append(Finding(name, 1, f"its exposure is {text}, and not {most}: see what it says of it"))
    return findings
