"""The METS of a package after E-ARK CSIP 2: one for the package, and one for its representation."""
from __future__ import annotations

from dataclasses import dataclass
from urllib.parse import quote

from transferring.folder import File
from transferring.markup import DECLARATION, element, text

SPACES = {
    "xmlns": "http://www.loc.gov/METS/",
    "xmlns:xlink": "http://www.w3.org/1999/xlink",
    "xmlns:xsi": "http://www.w3.org/2001/XMLSchema-instance",
    "xmlns:csip": "https://DILCIS.eu/XML/METS/CSIPExtensionMETS",
}
SCHEMAS = ("http://www.loc.gov/METS/ https://www.loc.gov/standards/mets/mets.xsd "
           "http://www.w3.org/1999/xlink https://www.loc.gov/standards/xlink/xlink.xsd "
           "https://DILCIS.eu/XML/METS/CSIPExtensionMETS "
           "https://earkcsip.dilcis.eu/schema/DILCISExtensionMETS.xsd")
PROFILE = "https://earkcsip.dilcis.eu/profile/E-ARK-CSIP.xml"
MIXED = "MIXED"


@dataclass(frozen=True)
class Package:
    """What a METS says of itself: its identifier, its day, and who made it."""

    identifier: str
    day: str
    sender: str
    program: str
    version: str

    def created(self) -> str:
        """Returns the moment that METS wants: the day of the run, so that a second package has the same bytes."""
        return f"{self.day}T00:00:00Z"


def document(of: Package, *parts: str) -> bytes:
    attributes = {name.replace(":", "__"): value for name, value in SPACES.items()}
    return (DECLARATION + element(
        "mets", header(of), *parts, **attributes, OBJID=of.identifier, LABEL=of.identifier, TYPE="Mixed",
        csip__CONTENTINFORMATIONTYPE=MIXED, PROFILE=PROFILE, xsi__schemaLocation=SCHEMAS)).encode()


def header(of: Package) -> str:
    agents = [element("agent", text("name", of.program), text("note", of.version, csip__NOTETYPE="SOFTWARE VERSION"),
                      ROLE="CREATOR", TYPE="OTHER", OTHERTYPE="SOFTWARE")]
    if of.sender:
        agents.append(element("agent", text("name", of.sender), ROLE="ARCHIVIST", TYPE="ORGANIZATION"))
    return element("metsHdr", *agents, CREATEDATE=of.created(), RECORDSTATUS="NEW", csip__OAISPACKAGETYPE="SIP")


def sums(file: File, of: Package) -> dict[str, object]:
    return {"MIMETYPE": file.media, "SIZE": file.length, "CREATED": of.created(), "CHECKSUM": file.digest,
            "CHECKSUMTYPE": "SHA-256"}


def reference(file: File, of: Package, kind: str, other: str | None = None) -> str:
    """Returns a reference to a file of metadata."""
    return element("mdRef", LOCTYPE="URL", xlink__type="simple", xlink__href=quote(file.name), MDTYPE=kind,
                   OTHERMDTYPE=other, **sums(file, of))


def described(identifier: str, of: Package, file: File, other: str) -> str:
    return element("dmdSec", reference(file, of, "OTHER", other), ID=identifier, CREATED=of.created(), STATUS="CURRENT")


def preserved(identifier: str, of: Package, file: File, kind: str, other: str | None = None) -> str:
    return element("digiprovMD", reference(file, of, kind, other), ID=identifier, STATUS="CURRENT")


def located(identifier: str, file: File, of: Package, base: str) -> str:
    """Returns a file of a group, with its place below `base`."""
    place = element("FLocat", LOCTYPE="URL", xlink__type="simple", xlink__href=quote(file.name.removeprefix(base)))
    return element("file", place, ID=identifier, **sums(file, of))


def representation(of: Package, base: str, groups: list[tuple[str, list[File]]]) -> bytes:
    """Returns the METS of the representation in the folder `base`: each record with its title and its files."""
    files, records, at = [], [], 0
    for label, within in groups:
        pointers = []
        for file in within:
            at += 1
            files.append(located(f"file-{at}", file, of, base))
            pointers.append(element("fptr", FILEID=f"file-{at}"))
        records.append(element("div", *pointers, LABEL=label))
    name = base.rstrip("/").rpartition("/")[2]
    data = element("fileGrp", *files, ID="data", USE="Data", csip__CONTENTINFORMATIONTYPE=MIXED)
    return document(
        Package(name, of.day, of.sender, of.program, of.version),
        element("fileSec", data, ID="files"),
        element("structMap", element("div", element("div", element("fptr", FILEID="data"), ID="structure-data",
                                                    LABEL="Data"), ID="structure-root", LABEL=name),
                ID="structure", TYPE="PHYSICAL", LABEL="CSIP"),
        element("structMap", element("div", *records, LABEL="Records"), ID="records", TYPE="LOGICAL", LABEL="Records"))


def package(of: Package, descriptive: list[File], premis: File, certificate: File, rep: File) -> bytes:
    """Returns the METS of the package: its metadata, and the METS of its one representation."""
    described_by = [described(f"described-{at}", of, it, "CSV") for at, it in enumerate(descriptive, 1)]
    folder = rep.name.rpartition("/")[0].capitalize()
    group = element("fileGrp", located("representation-mets", rep, of, ""), ID="representation", USE=folder,
                    csip__CONTENTINFORMATIONTYPE=MIXED)
    metadata = element("div", ID="structure-metadata", LABEL="Metadata", ADMID="premis certificate",
                       DMDID=" ".join(f"described-{at}" for at, _ in enumerate(descriptive, 1)))
    pointer = element("mptr", LOCTYPE="URL", xlink__type="simple", xlink__href=rep.name, xlink__title="representation")
    return document(
        of, *described_by,
        element("amdSec", preserved("premis", of, premis, "PREMIS"),
                preserved("certificate", of, certificate, "OTHER", "certificate of a disposal run"), ID="preservation"),
        element("fileSec", group, ID="files"),
        element("structMap", element("div", metadata, element("div", pointer, ID="structure-representation",
                                                              LABEL=folder), ID="structure-root", LABEL=of.identifier),
                ID="structure", TYPE="PHYSICAL", LABEL="CSIP"))
