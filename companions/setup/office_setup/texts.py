"""Texts of generated files, from the declarations of the offices and the files of the product."""
import json
import re
from collections.abc import Sequence
from pathlib import Path

from office_common.errors import IMPOSSIBLE, Refused
from office_setup.declared import Office
from office_setup.machine import Machine

SITE, SIGNED_SITE = "nginx/gated.conf", "nginx/signed.conf"
PART_BEGINS, PART_ENDS = "    # ---- city\n", "    # what the gate said as nginx asked it\n"
REJECT = "include /etc/nginx/office/reject.conf;\n"
PORTS = re.compile(r"tcp dport (\d+)-(\d+)")
GATED_PORTS = re.compile(r"dport \{ [0-9, ]+ \}")
ALLOWED = re.compile(r'("www-data"[^}]*?) \}')
BY = "office-setup apply"


def made_by(file: Path | str) -> str:
    """Returns the first line of a generated file."""
    return f"# made by `{BY}` from {file}: change that file, and not this one\n"


def of_all() -> str:
    return made_by("/etc/office/*.toml")


def conf(office: Office, port: int) -> str:
    """Returns NAME.conf: the port and the settings of the services."""
    return made_by(office.file) + f"PORT={port}\n" + "".join(f"{name}={value}\n" for name, value in office.conf)


def mail(office: Office) -> str:
    """Returns NAME.mail: the addresses for the morning mail and for failures."""
    return made_by(office.file) + f'MAIL_TO="{" ".join(office.morning)}"\nFAILED_TO="{" ".join(office.failed)}"\n'


def name_and_colour(office: Office) -> str:
    """Returns the name and the colour that the page shows."""
    return json.dumps({"name": office.title or office.name, "colour": office.colour}, ensure_ascii=False) + "\n"


def vaults(offices: Sequence[Office]) -> str:
    """Returns the lines of nginx for the offices with a vault."""
    return of_all() + "".join(f'"/{office.name}/" {office.name};\n' for office in offices if office.has_vault)


def sign_in_site(offices: Sequence[Office]) -> str:
    """Returns the line of nginx for the site, if people sign in there by a directory."""
    return of_all() + (f"{offices[0].tls.site} 1;\n" if offices[0].signing else "")


def tokens(machine: Machine, offices: Sequence[Office]) -> str:
    """Returns the lines of nginx with the tokens of the gates."""
    lines = []
    for office in offices:
        file = machine.at(f"/etc/office/{office.name}.token")
        if file.is_file():
            lines.append(f'"~^/{office.name}/" {file.read_text(encoding="utf-8").strip()};\n')
    return of_all() + "".join(lines)


def cut(text: str, mark: str) -> tuple[str, str]:
    """Parts the shipped site at a line, which it must contain once."""
    before, line, after = text.partition(mark)
    if not line or mark in after:
        raise Refused(IMPOSSIBLE, f"the shipped site does not contain the line '{mark.strip()}' once: the package is not whole")
    return before, after


def site(machine: Machine, offices: Sequence[Office]) -> str:
    """Returns the site of nginx: the shipped one, with a part for each office."""
    tls = offices[0].tls
    head, rest = cut(machine.shipped(SIGNED_SITE if offices[0].signing else SITE), PART_BEGINS)
    part, tail = cut(rest, PART_ENDS)
    head = head.replace("server_name localhost;", f"server_name {tls.site};")
    if not tls.is_default_server:
        head = head.replace(REJECT, "")
    parts = [PART_BEGINS.replace("city", office.name) + re.sub(r"\bcity\b", office.name, part) for office in offices]
    return of_all() + head + "".join(parts) + PART_ENDS + tail


# ---- ports


def port_bounds(machine: Machine) -> tuple[int, int]:
    """Returns the first and the last port that the rules of nftables close."""
    bounds = PORTS.search(machine.shipped("nginx/office.nft"))
    if bounds is None:
        raise Refused(IMPOSSIBLE, "nginx/office.nft names no ports: the package is not whole")
    return int(bounds[1]), int(bounds[2])


def rules(machine: Machine) -> str:
    """Returns the shipped rules of nftables, with the user of the gates added."""
    text, count = ALLOWED.subn(r'\1, "office-gate" }', machine.shipped("nginx/office.nft"), count=1)
    if not count:
        raise Refused(IMPOSSIBLE, "nginx/office.nft names no users: the package is not whole")
    return f"{of_all()}{text}"


def gate_rules(machine: Machine, ports: Sequence[int]) -> str:
    """Returns the rules of nftables for the ports of the gates."""
    shipped = machine.shipped("gate/office-gate.nft")
    text, count = GATED_PORTS.subn(f"dport {{ {', '.join(map(str, ports))} }}", shipped)
    if count != 1:
        raise Refused(IMPOSSIBLE, "gate/office-gate.nft does not name its ports once: the package is not whole")
    return f"{of_all()}{text}"
