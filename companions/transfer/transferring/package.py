"""An information package after E-ARK CSIP of what a run sent, and what is wrong with one that was written."""
from __future__ import annotations

import hashlib
import xml.etree.ElementTree as tree
from pathlib import Path
from urllib.parse import unquote

from transferring import mets
from transferring.certificate import Certificate
from transferring.folder import Folder
from transferring.payload import CSV, PLAIN, Payload, Sources, fill, tables
from transferring.premis import PROGRAM, premis

REP = "representations/rep1"
XML = "text/xml"
HREF = "{http://www.w3.org/1999/xlink}href"


def write(folder: Folder, sources: Sources, of: Certificate, sender: str, identifier: str, version: str) -> Payload:
    """Writes a whole package. Nothing in it depends on the clock."""
    about = mets.Package(identifier, of.day, sender, PROGRAM, version)
    written = fill(folder, sources, of, f"{REP}/data")
    payload = list(folder.files)
    descriptive = [folder.put(f"metadata/descriptive/{name}", [data], CSV) for name, data in tables(written).items()]
    preservation = folder.put("metadata/preservation/premis.xml", [premis(payload, of)], XML)
    certificate = folder.put(f"metadata/other/certificate-{of.run}.txt", [of.text], PLAIN)
    rep = folder.put(f"{REP}/METS.xml", [mets.representation(about, f"{REP}/", written.groups)], XML)
    # the METS of the package comes last, because a folder without it is no package
    folder.put("METS.xml", [mets.package(about, descriptive, preservation, certificate, rep)], XML)
    return written


def faults(at: Path) -> list[str]:
    """What is wrong with a package as the disk has it: each file is named by a METS, with its SHA-256 and length."""
    faulty: list[str] = []
    named = {"METS.xml"}
    for name in ("METS.xml", f"{REP}/METS.xml"):
        base = name.removesuffix("METS.xml")
        for node in tree.parse(at / name).iter():
            digest, place = node.get("CHECKSUM"), node.get(HREF) or next((below.get(HREF) for below in node), None)
            if digest is not None and place is not None:
                named.add(base + unquote(place))
                faulty += wrong_in(at, base + unquote(place), digest, node.get("SIZE"))
    there = {it.relative_to(at).as_posix() for it in at.rglob("*") if not it.is_dir()}
    return faulty + [f"no METS names {it}" for it in sorted(there - named)]


def wrong_in(at: Path, name: str, digest: str, length: str | None) -> list[str]:
    if not (at / name).is_file():
        return [f"{name} is missing"]
    with (at / name).open("rb") as file:
        is_same = hashlib.file_digest(file, "sha256").hexdigest() == digest
    return [] if is_same and str((at / name).stat().st_size) == length else [f"{name} has another SHA-256 or length"]


def metadata(at: Path) -> dict[str, str]:
    """Returns the SHA-256 of each file that the METS of the package names, by its name."""
    digests = {}
    for node in tree.parse(at / "METS.xml").iter():
        digest, place = node.get("CHECKSUM"), node.get(HREF)
        if digest is not None and place is not None:
            digests[unquote(place)] = digest
    return digests
