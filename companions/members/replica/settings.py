"""The settings of a member: one JSON file, read once; what is wrong in it is said clearly."""
from __future__ import annotations

import json
import pathlib
import ssl
import sys
from dataclasses import dataclass, fields


@dataclass(frozen=True)
class Settings:
    """What a member is given. The first seven have to be there, the others have usual values."""

    name: str
    """of this member: no other member of this log has it"""
    log: str
    """the name of the log in etcd, the same at all members of one office"""
    folder: pathlib.Path
    """what the member writes: `work`, `snapshots`, `lock`, `halted`"""
    office: str
    """the office's program"""
    office_port: int
    """where the own office serves, on 127.0.0.1, for this member alone"""
    listen: int
    """where clients come in, on 127.0.0.1"""
    etcd: str
    """address and port of this machine's etcd"""
    ca: str | None = None
    """with `certificate` and `key`: what etcd is asked with over TLS"""
    certificate: str | None = None
    key: str | None = None
    snapshot_every: int = 1000
    """entries from one snapshot to the next"""
    snapshot_pause: int = 30
    """seconds from one snapshot to the next at least, however many entries come"""
    snapshot_at: int = 0
    """so many entries later, so that not all members pause at once"""
    compare_every: int = 100
    """entries from one comparison of answers to the next"""
    keys_kept: int = 100_000
    """entries for which a request that is sent again gets its first answer"""
    etcd_quota: int = 8 * 1024**3
    """the bytes of etcd's --quota-backend-bytes: from three quarters on no entry is taken"""
    age_limit: int = 30
    """seconds: a reading that may be older is not given, unless the client takes any; 0: no limit"""
    reading_limit: int = 30
    """seconds that a reading may take; an office that takes longer is started again"""
    snapshot_seconds: int = 43_200
    """the longest from one snapshot to the next while the log has what could be dropped; 0: none"""
    disk: str | None = None
    """OFFICE_DISK of the office, in place of the environment's"""

    def tls(self) -> ssl.SSLContext | None:
        """What connections to etcd are secured with, or None."""
        if self.ca is None:
            return None
        context = ssl.create_default_context(cafile=self.ca)
        context.load_cert_chain(self.certificate or "", self.key)
        return context


NEEDED = ("name", "log", "folder", "office", "office_port", "listen", "etcd")
TEXTS = ("name", "log", "folder", "office", "etcd", "ca", "certificate", "key", "disk")
DISKS = ("any", "powersafe")


def fault_of(values: dict[str, object]) -> str | None:
    """What is wrong in the members of a settings file, if anything is."""
    known = [field.name for field in fields(Settings)]
    for name in NEEDED:
        if name not in values:
            return f"{name} is missing"
    for name, value in values.items():
        if name not in known:
            return f"{name} is none of {', '.join(known)}"
        if name in TEXTS and (not isinstance(value, str) or not value):
            return f"{name} is no text"
        if name not in TEXTS and (type(value) is not int or value < 0):
            return f"{name} is no whole number"
    for name in ("name", "log"):
        if not all(letter.isascii() and (letter.isalnum() or letter in "-_")
                   for letter in str(values[name])):
            return f"{name} has other characters than letters, digits, - and _"
    for name in ("snapshot_every", "compare_every", "reading_limit"):
        if values.get(name, 1) == 0:
            return f"{name} is 0"
    if values.get("disk", "any") not in DISKS:
        return f"disk is none of {', '.join(DISKS)}"
    if len({"ca", "certificate", "key"} & set(values)) not in (0, 3):
        return "ca, certificate and key go together"
    return None


def read_settings(path: str) -> Settings:
    """Returns the settings in the file, or an end with status 2 and a line that says what is wrong."""
    try:
        values = json.loads(pathlib.Path(path).read_text(encoding="utf-8"))
        fault = "it is no object" if not isinstance(values, dict) else fault_of(values)
    except (OSError, ValueError) as error:
        fault = str(error)
    if fault:
        print(f"{path}: {fault}", file=sys.stderr)
        raise SystemExit(2)
    return Settings(**dict(values, folder=pathlib.Path(values["folder"])))
