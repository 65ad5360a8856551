"""A directory: slapd of Debian, in a folder of its own and at ports of loopback."""
from __future__ import annotations

import pathlib
import signal
import subprocess
import sys

from kit.nginx import end, listens, make_key
from kit.ports import free_port
from kit.waiting import comes

BASE = "dc=city,dc=example"
ROOT, ROOT_PASSWORD = f"cn=root,{BASE}", "root-password"
READER, READER_PASSWORD = f"cn=reader,{BASE}", "reader-password"
PASSWORDS = {"anna": "anna-password", "bert": "bert-password", "carl": "carl-password", "dora": "dora-password"}
GROUPS = {"records-registry": ["anna", "dora"], "Records Managers": ["bert"], "canteen": ["carl", "anna"],
          "Building, (works)": ["dora"]}
CONF = """include /etc/ldap/schema/core.schema
include /etc/ldap/schema/cosine.schema
include /etc/ldap/schema/inetorgperson.schema
pidfile {folder}/pid
modulepath /usr/lib/ldap
moduleload back_mdb
TLSCertificateFile {folder}/office.crt
TLSCertificateKeyFile {folder}/office.key
database mdb
suffix "{base}"
rootdn "{root}"
rootpw {password}
directory {folder}/data
access to attrs=userPassword by anonymous auth by * none
access to * by * read
"""


def entry(dn: str, kind: str, **values: str | list[str]) -> str:
    """Returns an entry as LDIF."""
    lines = [f"dn: {dn}", f"objectClass: {kind}"]
    for name, value in values.items():
        lines += [f"{name}: {one}" for one in ([value] if isinstance(value, str) else value)]
    return "\n".join(lines) + "\n\n"


def person(name: str) -> str:
    return entry(f"uid={name},ou=people,{BASE}", "inetOrgPerson", uid=name, cn=f"{name.capitalize()} Beck", sn="Beck",
                 userPassword=PASSWORDS[name])


def group(name: str, members: list[str]) -> str:
    name_in_dn = name.replace(",", "\\,")
    return entry(f"cn={name_in_dn},ou=groups,{BASE}", "groupOfNames", cn=name,
                 member=[READER, *(f"uid={member},ou=people,{BASE}" for member in members)])


def ldif() -> str:
    """Returns the whole directory."""
    tops = entry(BASE, "domain", dc="city") + "".join(
        entry(f"ou={name},{BASE}", "organizationalUnit", ou=name) for name in ("people", "groups"))
    reader = entry(READER, "applicationProcess", cn="reader").replace(
        "objectClass: applicationProcess", "objectClass: applicationProcess\nobjectClass: simpleSecurityObject")
    reader = reader.rstrip("\n") + f"\nuserPassword: {READER_PASSWORD}\n\n"
    return tops + reader + "".join(map(person, PASSWORDS)) + "".join(group(*pair) for pair in GROUPS.items())


class Slapd:
    """A directory that runs."""

    def __init__(self, folder: pathlib.Path) -> None:
        (folder / "data").mkdir(parents=True)
        self.folder, self.port, self.tls_port = folder, free_port(), free_port()
        make_key(folder)
        conf = CONF.format(folder=folder, base=BASE, root=ROOT, password=ROOT_PASSWORD)
        (folder / "slapd.conf").write_text(conf)
        subprocess.run(["slapadd", "-q", "-f", folder / "slapd.conf"], input=ldif().encode(), check=True, capture_output=True)
        self.start()

    def start(self) -> None:
        self.process = subprocess.Popen(
            ["slapd", "-d", "0", "-f", str(self.folder / "slapd.conf"), "-h",
             f"ldap://127.0.0.1:{self.port}/ ldaps://127.0.0.1:{self.tls_port}/"], stdin=subprocess.DEVNULL,
            stdout=subprocess.DEVNULL, stderr=subprocess.DEVNULL, start_new_session=True)
        assert comes(lambda: listens(self.port) and listens(self.tls_port), 60), "slapd does not listen"

    def modify(self, text: str) -> None:
        """Changes the directory, by a text of ldapmodify."""
        subprocess.run(["ldapmodify", "-x", "-H", f"ldap://127.0.0.1:{self.port}", "-D", ROOT, "-w", ROOT_PASSWORD],
                       input=text.encode(), check=True, capture_output=True)

    def leave(self, name: str, group_name: str) -> None:
        """Takes somebody out of a group."""
        dn = group_name.replace(",", "\\,")
        self.modify(f"dn: cn={dn},ou=groups,{BASE}\nchangetype: modify\ndelete: member\n"
                    f"member: uid={name},ou=people,{BASE}\n")

    def join(self, name: str, group_name: str) -> None:
        """Puts somebody into a group."""
        dn = group_name.replace(",", "\\,")
        self.modify(f"dn: cn={dn},ou=groups,{BASE}\nchangetype: modify\nadd: member\n"
                    f"member: uid={name},ou=people,{BASE}\n")

    def delete(self, name: str) -> None:
        self.modify(f"dn: uid={name},ou=people,{BASE}\nchangetype: delete\n")

    def hire(self, name: str) -> None:
        """Adds a person of a name that perhaps was somebody else's before."""
        lines = person(name).split("\n")
        self.modify("\n".join([lines[0], "changetype: add", *lines[1:]]))

    def id_of(self, name: str) -> str:
        """Returns the stable id of a person, as ldapsearch shows it."""
        done = subprocess.run(["ldapsearch", "-x", "-LLL", "-H", f"ldap://127.0.0.1:{self.port}", "-b", BASE, f"(uid={name})",
                               "entryUUID"], check=True, capture_output=True, text=True)
        return done.stdout.split("entryUUID: ")[1].split()[0]

    def hang(self) -> None:
        self.process.send_signal(signal.SIGSTOP)

    def go_on(self) -> None:
        self.process.send_signal(signal.SIGCONT)

    def stop(self) -> None:
        if self.process.poll() is None:
            self.go_on()
        end(self.process)


if __name__ == "__main__":
    print(ldif(), file=sys.stdout)
