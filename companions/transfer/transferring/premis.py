"""The preservation metadata of a package (PREMIS 3): each file with its fixity, and the run that sent it."""
from __future__ import annotations

from transferring.certificate import Certificate
from transferring.folder import File
from transferring.markup import DECLARATION, element, text

PREMIS = "http://www.loc.gov/premis/v3"
XSI = "http://www.w3.org/2001/XMLSchema-instance"
PROGRAM = "tools/transfer"
"""the name by which packages have this program from the first one on"""


def premis(files: list[File], of: Certificate) -> bytes:
    """Returns the whole document."""
    event, person = f"disposal-run-{of.run}", of.by
    parts = [*map(file_object, files), run_event(files, of, event, person), agent(person, "person"),
             agent(PROGRAM, "software")]
    schema = f"{PREMIS} https://www.loc.gov/standards/premis/premis.xsd"
    whole = element("premis", *parts, xmlns=PREMIS, xmlns__xsi=XSI, version="3.0", xsi__schemaLocation=schema)
    return (DECLARATION + whole).encode()


def identifier(kind: str, value: str) -> str:
    return element(f"{kind}Identifier", text(f"{kind}IdentifierType", "local"), text(f"{kind}IdentifierValue", value))


def file_object(file: File) -> str:
    fixity = element("fixity", text("messageDigestAlgorithm", "SHA-256"), text("messageDigest", file.digest))
    form = element("format", element("formatDesignation", text("formatName", file.media)))
    return element("object", identifier("object", file.name),
                   element("objectCharacteristics", fixity, text("size", file.length), form),
                   xsi__type="file")


def run_event(files: list[File], of: Certificate, event: str, person: str) -> str:
    sentence = f"sent by disposal run {of.run}; its certificate has the SHA-256 {of.digest()}"
    detail = element("eventDetailInformation", text("eventDetail", sentence))
    outcome = element("eventOutcomeInformation", text("eventOutcome", "sent"))
    agents = [link("Agent", name) for name in (person, PROGRAM)]
    return element("event", identifier("event", event), text("eventType", "transfer"),
                   text("eventDateTime", of.day), detail, outcome, *agents, *(link("Object", it.name) for it in files))


def link(kind: str, value: str) -> str:
    """Returns a reference from an event to an object or an agent."""
    return element(f"linking{kind}Identifier", text(f"linking{kind}IdentifierType", "local"),
                   text(f"linking{kind}IdentifierValue", value))


def agent(name: str, kind: str) -> str:
    return element("agent", identifier("agent", name), text("agentName", name), text("agentType", kind))
