"""The first NAME.toml of an office, with the keys that most offices need."""
import socket
import tomllib
from pathlib import Path

from office_common import files
from office_common.toml_table import Table
from office_setup import declared, toml_text
from office_setup.declared import Office
from office_setup.machine import OFFICES, Machine, Owner
from office_setup.signing import SECRETS, TABLE
from office_setup.things import make_parents

PEOPLE = """
# Who signs in, and what each may do: roles of the gate (docs/ACCESS.md). `in` limits a role to classes, `signs` is the
# text that certificates have. A name that is taken out loses its password.
[people]
registrar = "registry"
manager = { is = "records-manager", signs = "Records manager" }
deputy = { is = "records-manager", signs = "Deputy records manager" }
legal = "legal"
auditor = "auditor"
#builder = { is = "department", in = ["BLDG*"] }
"""
SIGN_IN = """
# How people sign in, and what each may do (docs/SIGNIN.md). The offices of a machine have the same, but for groups, local
# names and programs.
[sign_in]
#day-ends = "20:00"
#hours = 10
# who learns that a local name was used
#mail = "admin@{site}"

{way}
# what a group is at the gate (docs/ACCESS.md); `in` limits a role to classes
[sign_in.groups]
"Records Registry" = "registry"
"Records Managers" = "records-manager"
"Legal Department" = "legal"
#"Building Department" = {{ is = "department", in = ["BLDG*"] }}

# Names of this machine, for the day on which the directory is away, and programs, each with the last day of its token.
#[sign_in.local]
#keeper = "registry"
#[sign_in.programs]
#intake = {{ is = "registry", ends = 2027-12-31 }}
"""
WAYS = {"directory": """# the password of the reader is in /etc/office-sign-in/reader
[sign_in.directory]
url = "ldaps://directory.city.example"
reader = "cn=office,ou=services,dc=city,dc=example"
people = "ou=people,dc=city,dc=example"
groups = "ou=groups,dc=city,dc=example"
""", "provider": """# the secret of this client is in /etc/office-sign-in/client
[sign_in.provider]
issuer = "https://login.city.example/"
client = "office"
"""}
"""the tables of a directory and of a provider"""
OTHERS_SIGN_IN = """
# How people sign in, as at the other offices of this machine, and what each may do here (docs/SIGNIN.md).
{shared}
[sign_in.groups]
#"Records Managers" = "records-manager"
"""
OWN_SETTINGS = """
# Who signs in, and what each may do, is in /etc/office/{name}.access, which was there before and stays as it is. With a
# table [people] it would be made from here.
"""
TEXT = """# The office {name}: `office-setup apply` makes the machine so, `office-setup check` prints what differs.
# docs/SETUP.md explains each key. A key with # before it shows what counts without it, or an example.

# the name of this machine in a browser, and the time zone of the office
site = "{site}"
zone = "{zone}"
# what people call the office, and the colour of its page
title = "{name}"
#colour = "#1f4d7a"

# without these two the machine signs a certificate for itself, which browsers do not know
#certificate = "/etc/letsencrypt/live/{site}/fullchain.pem"
#key = "/etc/letsencrypt/live/{site}/privkey.pem"
# false if another site of this machine answers other names at port 443
#default-server = true

# files above 256 KB, signed certificates, and the lists of the year's end
#vault = true
#seals = true
#yearend = false
{people}
# Rules of four eyes: each is on. false switches one off, a number or a list follows its name.
#[rules]
#changer-does-not-open = 30
#reason-for = ["lift-hold"]

# Nightly copies: for how many days each stays, and how many good ones at least. elsewhere says that you copy them to
# another machine.
[backup]
days = 30
copies = 7
#before-days = 30
#elsewhere = false

# Who gets the register of each morning, and who the failures of the night.
#[mail]
#morning = ["records@{site}"]
#failed = ["admin@{site}"]

# powersafe only for a disk that keeps both promises of docs/SERVICE.md, "The disk"
#[service]
#disk = "any"
#confirm-days = 30
"""


def own_zone(machine: Machine) -> str:
    """Returns the time zone of the machine."""
    file = machine.at("/etc/timezone")
    if file.is_file():
        return file.read_text(encoding="utf-8").strip() or "Etc/UTC"
    link = machine.at("/etc/localtime")
    target = str(link.readlink()) if link.is_symlink() else ""
    return target.partition("zoneinfo/")[2] or "Etc/UTC"


def escaped(text: str) -> str:
    """Returns a text as it stands between quotes."""
    return text.replace("\\", "\\\\").replace('"', '\\"')


def people_part(machine: Machine, name: str, site: str, way: str | None, others: list[Office]) -> str:
    """Returns who signs in: by the way that is given or the one of the other offices, by passwords, or as before."""
    if way is not None:
        return SIGN_IN.format(site=escaped(site), way=WAYS[way])
    signing = others[0].signing if others else None
    if signing is not None:
        return OTHERS_SIGN_IN.format(shared=toml_text.text_of({TABLE: signing.shared}, depth=2).lstrip())
    return OWN_SETTINGS.format(name=name) if machine.at(f"{OFFICES}/{name}.access").exists() else PEOPLE


def secret_file(machine: Machine, way: str) -> str:
    """Makes the empty file of a secret, if there is none, and returns its path."""
    path = SECRETS[way]
    if not machine.at(path).exists():
        folder = str(Path(path).parent)
        make_parents(machine, path)
        machine.own(folder, Owner("root", "office-sign-in", 0o750))
        files.write(machine.at(path), b"", 0o640, machine.ids(Owner("root", "office-sign-in", 0o640)))
    return path


def write(machine: Machine, name: str, site: str | None, zone: str | None, way: str | None) -> Path:
    """Writes the first file of an office, by default with the site and the zone of the machine's other offices."""
    others = declared.all_in(machine.at(OFFICES))
    site = site or (others[0].tls.site if others else socket.getfqdn())
    text = TEXT.format(name=name, site=escaped(site),
                       zone=escaped(zone or (others[0].zone if others else own_zone(machine))),
                       people=people_part(machine, name, site, way, others))
    path = f"{OFFICES}/{name}.toml"
    # what the arguments have to be is what the file has to have
    declared.together([*others, declared.office_of(name, Table(machine.at(path), tomllib.loads(text)))])
    make_parents(machine, path)
    files.write(machine.at(path), text.encode(), 0o640, (0, 0))
    return machine.at(path)
