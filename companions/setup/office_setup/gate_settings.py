"""Settings of the gate, NAME.access: the shipped roles, rules and limits, with the people of the office."""
import re
import tempfile
from pathlib import Path
from typing import NamedTuple

from office_common.errors import USAGE, Refused
from office_setup.declared import LIMIT_STATEMENTS, Office
from office_setup.machine import Machine
from office_setup.people import Person
from office_setup.texts import made_by

SHIPPED = "gate/city.access"
COMPLAINT = re.compile(r"office-gate: [^:\n]+:(\d+): (.+)")


class Statement(NamedTuple):
    """A line of the settings, and the key of the office's file that it comes from."""

    text: str
    key: str


def shipped_statements(machine: Machine) -> list[list[str]]:
    """Reads the statements of the shipped file, without remarks."""
    lines = [line.split("#", 1)[0].split() for line in machine.shipped(SHIPPED).splitlines()]
    return [parts for parts in lines if parts]


def people_statements(key: str, person: Person) -> list[Statement]:
    """Returns the statements about a name, which the office's file has at a key."""
    lines = []
    for grant in person.grants:
        limit = f" in {' '.join(grant.classes)}" if grant.classes else ""
        lines.append(Statement(f"name {person.name} is {' '.join(grant.roles)}{limit}", key))
    if person.signs is not None:
        lines.append(Statement(f"name {person.name} signs {person.signs}", f"{key}.signs"))
    return lines


def rule_statements(office: Office, shipped: list[list[str]]) -> list[Statement]:
    """Returns the shipped rules, each as the office's file changes it, and then its further rules."""
    rules = {parts[1]: " ".join(parts[2:]) for parts in shipped if parts[0] == "rule"}
    lines = [Statement(f"rule {name} {text}".strip(), f"rules.{name}") for name, text in rules.items()
             if name not in dict(office.rules)]
    for name, text in office.rules:
        if text is not None:
            shipped_text = rules.get(name, "")
            lines.append(Statement(f"rule {name} {text or shipped_text}".strip(), f"rules.{name}"))
    return lines


def limit_statements(office: Office, shipped: list[list[str]]) -> list[Statement]:
    """Returns the shipped limits, each as the office's file changes it."""
    limits = {" ".join(parts[:-1]): parts[-1] for parts in shipped if parts[0] in ("limit", "keep", "journal")}
    keys = {statement: key for key, statement in LIMIT_STATEMENTS.items()} | {"journal": "readings"}
    statements = {key: statement for statement, key in keys.items()}
    limits |= {statements[key]: value for key, value in office.limits}
    return [Statement(f"{start} {value}", f"limits.{keys.get(start, start)}") for start, value in limits.items()]


def statements(office: Office, machine: Machine) -> list[Statement]:
    """Returns all statements of an office."""
    shipped = shipped_statements(machine)
    lines = [Statement("begin", SHIPPED)]
    lines += [Statement(f"site https://{office.tls.site}", "site"), Statement(f"zone {office.zone}", "zone")]
    lines += [Statement(" ".join(parts), SHIPPED) for parts in shipped if parts[0] == "role"]
    lines += [line for key, person in office.named().items() for line in people_statements(key, person)]
    lines.append(Statement("name monitor is monitor", "people"))
    if office.has_yearend:
        lines.append(Statement("name yearend is yearend", "yearend"))
    lines += rule_statements(office, shipped) + limit_statements(office, shipped)
    return [*lines, *(Statement(text, "settings") for text in office.settings), Statement("end", "settings")]


def text_of(office: Office, machine: Machine) -> str:
    """Returns the settings as a text, once the gate has taken them."""
    lines = statements(office, machine)
    head = made_by(office.file)
    text = head + "".join(f"{line.text}\n" for line in lines)
    with tempfile.TemporaryDirectory(prefix="office-setup-") as folder:
        file = Path(folder, f"{office.name}.access")
        file.write_text(text, encoding="utf-8")
        done = machine.run("office-gate", "check", file)
    if done.status:
        complaint = COMPLAINT.search(done.text)
        at = int(complaint[1]) - head.count("\n") if complaint else 0
        if complaint and 1 <= at <= len(lines):
            raise office.refuse(lines[at - 1].key, complaint[2])
        raise Refused(USAGE, f"{office.file}: the gate does not take these settings: {done.text}")
    return text
