"""A bag (BagIt 1.0, RFC 8493) of what a run sent, and what is wrong with a bag that was written."""
from __future__ import annotations

import hashlib
from pathlib import Path

from transferring.certificate import Certificate
from transferring.folder import File, Folder
from transferring.payload import CSV, PLAIN, Payload, Sources, fill, tables

BASE = "data"
DECLARATION = b"BagIt-Version: 1.0\nTag-File-Character-Encoding: UTF-8\n"
MANIFESTS = ("manifest-sha256.txt", "tagmanifest-sha256.txt")


def write(folder: Folder, sources: Sources, of: Certificate, sender: str) -> Payload:
    """Writes a whole bag. Nothing in it depends on the clock, so a second run writes the same bytes."""
    written = fill(folder, sources, of, BASE)
    payload = list(folder.files)
    for name, data in tables(written).items():
        folder.put(f"metadata/{name}", [data], CSV)
    folder.put(f"metadata/certificate-{of.run}.txt", [of.text], PLAIN)
    folder.put("bag-info.txt", [info(payload, of, sender, bool(written.lacking))], PLAIN)
    folder.put(MANIFESTS[0], [lines(payload)], PLAIN)
    # the declaration comes last, because a folder without it is no bag
    tags = [it for it in folder.files if it not in payload]
    declared = File("bagit.txt", hashlib.sha256(DECLARATION).hexdigest(), len(DECLARATION), PLAIN)
    folder.put(MANIFESTS[1], [lines([*tags, declared])], PLAIN)
    folder.put(declared.name, [DECLARATION], PLAIN)
    return written


def info(payload: list[File], of: Certificate, sender: str, is_lacking: bool) -> bytes:
    rows = [("Source-Organization", sender)] if sender else []
    rows += [("External-Identifier", f"certificate {of.run}, SHA-256 {of.digest()}"),
             ("External-Description", f"Records sent by disposal run {of.run}"
              + (", but for those of metadata/lacking.csv" if is_lacking else "")),
             ("Bagging-Date", of.day),
             ("Payload-Oxum", f"{sum(it.length for it in payload)}.{len(payload)}")]
    return "".join(f"{name}: {value}\n" for name, value in rows).encode()


def lines(files: list[File]) -> bytes:
    """Returns a manifest; no name in a bag has a character that a manifest escapes."""
    return "".join(f"{it.digest}  {it.name}\n" for it in sorted(files, key=lambda it: it.name)).encode()


def listed(bag: Path, name: str) -> dict[str, str]:
    """Returns the digests of a manifest by name."""
    rows = (line.split(None, 1) for line in (bag / name).read_text().splitlines())
    return {path: digest for digest, path in rows}


def faults(bag: Path) -> list[str]:
    """What is wrong with a bag as the disk has it: nothing if it is complete and valid."""
    faulty, every = [], {}
    for name in MANIFESTS:
        every |= listed(bag, name)
    if (bag / "bagit.txt").read_bytes() != DECLARATION:
        faulty.append("bagit.txt is another")
    there = {it.relative_to(bag).as_posix() for it in bag.rglob("*") if not it.is_dir()}
    faulty += [f"{it} is missing" for it in sorted(set(every) - there)]
    faulty += [f"{it} is in no manifest" for it in sorted(there - set(every) - {MANIFESTS[1]})]
    for name in sorted(set(every) & there):
        with (bag / name).open("rb") as file:
            if hashlib.file_digest(file, "sha256").hexdigest() != every[name]:
                faulty.append(f"{name} has another SHA-256")
    return faulty
