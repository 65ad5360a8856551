"""The kinds of sources, each with its reader and the options that it takes."""
from __future__ import annotations

from typing import NamedTuple

from office_bring import alfresco, grs, m365, plan, share, skos, trim, xdomea
from office_bring.how import Bring

TABLE = ("column", "encoding", "cut")
RULE = ("trigger", "unit", "offset", "action", "schedule")


class Kind(NamedTuple):
    """A kind of source."""

    bring: Bring
    options: tuple[str, ...]


KINDS = {
    "share": Kind(share.bring, ("root", "class", "levels", "contents")),
    "plan": Kind(plan.bring, (*TABLE, *RULE)),
    "skos": Kind(skos.bring, ("schedule", "language")),
    "grs": Kind(grs.bring, (*TABLE, "schedule")),
    "m365-labels": Kind(m365.bring_labels, (*TABLE, "schedule")),
    "sharepoint": Kind(m365.bring_items, (*TABLE, "root", "class", "schedule", "levels", "labels", "contents")),
    "alfresco": Kind(alfresco.bring, ("schedule", "contents", "prefix")),
    "trim": Kind(trim.bring, (*TABLE, *RULE, "class", "schedules", "contents", "prefix")),
    "xdomea": Kind(xdomea.bring, (*RULE, "class", "versions", "contents", "prefix")),
}
