"""A reader of information packages that shares no line with their writer: what E-ARK CSIP 2 demands of METS and PREMIS.

Debian has no schema of METS or PREMIS. If SCHEMAS names a folder with mets.xsd and premis.xsd, xmllint validates by
these; without it xmllint says only that the documents are well-formed.
"""
import os
import subprocess
import urllib.parse
import xml.etree.ElementTree as tree

M, X = "{http://www.loc.gov/METS/}", "{http://www.w3.org/1999/xlink}"
C, P = "{https://DILCIS.eu/XML/METS/CSIPExtensionMETS}", "{http://www.loc.gov/premis/v3}"
SCHEMAS = os.environ.get("SCHEMAS", "")


def by_xmllint(file: str, schema: str) -> list[str]:
    words = ["xmllint", "--noout", "--nonet"]
    if SCHEMAS:
        words += ["--schema", os.path.join(SCHEMAS, schema)]
    done = subprocess.run([*words, file], capture_output=True)
    return [done.stderr.decode()[:500]] if done.returncode else []


def said(holds: object, what: str) -> list[str]:
    return [] if holds else [what]


def header_problems(mets: tree.Element) -> list[str]:
    header, software = mets.find(f"{M}metsHdr"), mets.find(f"{M}metsHdr/{M}agent[@OTHERTYPE='SOFTWARE']")
    if header is None or software is None:
        return ["no metsHdr with an agent that is the software"]
    note = software.find(f"{M}note")
    return (said(mets.get("OBJID"), "no OBJID") + said(mets.get("TYPE") == "Mixed", "TYPE")
            + said(mets.get(f"{C}CONTENTINFORMATIONTYPE") == "MIXED", "CONTENTINFORMATIONTYPE")
            + said(mets.get("PROFILE") == "https://earkcsip.dilcis.eu/profile/E-ARK-CSIP.xml", "PROFILE")
            + said(header.get("CREATEDATE"), "no CREATEDATE")
            + said(header.get(f"{C}OAISPACKAGETYPE") == "SIP", "OAISPACKAGETYPE")
            + said((software.get("ROLE"), software.get("TYPE")) == ("CREATOR", "OTHER"), "the software's role")
            + said(software.findtext(f"{M}name"), "the software has no name")
            + said(note is not None and note.text and note.get(f"{C}NOTETYPE") == "SOFTWARE VERSION", "no version"))


def reference_problems(package: str, base: str, mets: tree.Element) -> list[str]:
    """Each file that a METS names is there, with that length and sum; attributes that CSIP demands are there."""
    found = []
    named = [(it, it.get(f"{X}href")) for it in mets.iter(f"{M}mdRef")]
    for it in mets.iter(f"{M}file"):
        place = it.find(f"{M}FLocat")
        named.append((it, None if place is None else place.get(f"{X}href")))
        found += said(it.get("ID"), "a file without ID")
    for it, href in named:
        found += [f"no {name} of {href}" for name in ("MIMETYPE", "SIZE", "CREATED", "CHECKSUM") if not it.get(name)]
        path = os.path.join(package, base, urllib.parse.unquote(href or ""))
        inside = os.path.realpath(path).startswith(os.path.realpath(package) + os.sep)
        if not inside or not os.path.isfile(path):
            found.append(f"{href} is not there")
            continue
        total = subprocess.run(["sha256sum", "--", path], capture_output=True, check=True).stdout.decode().lstrip("\\")[:64]
        found += said(it.get("CHECKSUMTYPE") == "SHA-256" and total == it.get("CHECKSUM"), f"another sum of {href}")
        found += said(str(os.path.getsize(path)) == it.get("SIZE"), f"another size of {href}")
    return found


def structure_problems(mets: tree.Element, labels: set[str]) -> list[str]:
    """One physical structure of CSIP, whose divisions have these labels, and whose references lead to an ID."""
    ids = [it.get("ID") for it in mets.iter() if it.get("ID")]
    maps = [it for it in mets.findall(f"{M}structMap") if it.get("LABEL") == "CSIP"]
    if len(maps) != 1 or maps[0].get("TYPE") != "PHYSICAL":
        return ["not one physical structMap of CSIP"]
    root = maps[0].find(f"{M}div")
    if root is None:
        return ["the structMap has no division"]
    found = said(len(ids) == len(set(ids)), "an ID is there twice")
    found += said(root.get("LABEL") == mets.get("OBJID"), "the root is not labelled as the package")
    found += said({it.get("LABEL") for it in root.findall(f"{M}div")} == labels, "the divisions")
    for it in mets.iter():
        for name in ("FILEID", "DMDID", "ADMID"):
            found += [f"{name} {word} leads nowhere" for word in (it.get(name) or "").split() if word not in ids]
    return found


def premis_problems(package: str, data: list[str]) -> list[str]:
    premis = tree.parse(os.path.join(package, "metadata/preservation/premis.xml")).getroot()
    objects = {it.findtext(f"{P}objectIdentifier/{P}objectIdentifierValue"):
               it.findtext(f"{P}objectCharacteristics/{P}fixity/{P}messageDigest") for it in premis.iter(f"{P}object")}
    events = [it.findtext(f"{P}eventType") for it in premis.iter(f"{P}event")]
    agents = {it.findtext(f"{P}agentIdentifier/{P}agentIdentifierValue") for it in premis.iter(f"{P}agent")}
    linked = {it.text for it in premis.iter(f"{P}linkingAgentIdentifierValue")}
    sums = {it: subprocess.run(["sha256sum", "--", os.path.join(package, it)], capture_output=True,
                               check=True).stdout.decode().lstrip("\\")[:64] for it in data}
    return (said(premis.tag == f"{P}premis" and premis.get("version") == "3.0", "no PREMIS 3")
            + said(objects == sums, "the objects are not the files") + said(events == ["transfer"], "the events")
            + said(linked and linked <= agents, "an event names an agent that is not there"))


def problems_of(package: str) -> list[str]:
    """All that is wrong with a package."""
    rep = "representations/rep1"
    found: list[str] = []
    for name, schema in (("METS.xml", "mets.xsd"), (f"{rep}/METS.xml", "mets.xsd"),
                         ("metadata/preservation/premis.xml", "premis.xsd")):
        found += by_xmllint(os.path.join(package, name), schema)
    if found:
        return found
    root, part = (tree.parse(os.path.join(package, it, "METS.xml")).getroot() for it in ("", rep))
    found += header_problems(root) + header_problems(part)
    found += reference_problems(package, "", root) + reference_problems(package, rep, part)
    found += structure_problems(root, {"Metadata", "Representations/rep1"}) + structure_problems(part, {"Data"})
    pointer = root.find(f".//{M}mptr")
    found += said(pointer is not None and pointer.get(f"{X}href") == f"{rep}/METS.xml", "no pointer to the part")
    there = [os.path.relpath(os.path.join(folder, name), package) for folder, _, files in os.walk(package)
             for name in files]
    data = [it for it in there if it.startswith(f"{rep}/data/")]
    listed = [it.find(f"{M}FLocat").get(f"{X}href") for it in part.iter(f"{M}file")]  # type: ignore[union-attr]
    found += said(sorted(f"{rep}/{urllib.parse.unquote(it)}" for it in listed) == sorted(data), "files that no METS names")
    return found + premis_problems(package, data)
