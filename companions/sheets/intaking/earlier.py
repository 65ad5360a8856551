"""Mails that an earlier version filed: it gave them refs by their places in the mailbox, so they keep these."""
from __future__ import annotations

import hashlib
import json
import re
from dataclasses import dataclass, field

from asking.office import OverHttp
from asking.vault import digest_of, manifest
from office_common.errors import NoAnswer
from office_common.facts import LONGEST_CONTENT
from intaking.folders import Unusable
from intaking.records import PLACE, Record


@dataclass
class Earlier:
    """The records of mails in an office whose refs are places, by the digest of their contents."""

    office: OverHttp
    # the numbers of all records by their refs
    numbers: dict[str, int]
    known: dict[str, dict[str, str]] = field(default_factory=dict)

    def refs(self, form: str) -> dict[str, str]:
        """Returns the refs of one form, by the digest of each record's content."""
        if form not in self.known:
            pattern = re.compile(re.escape(form).replace(re.escape(PLACE), "[0-9]{5}"))
            self.known[form] = {self.digest(number): ref for ref, number in self.numbers.items() if pattern.fullmatch(ref)}
        return self.known[form]

    def digest(self, number: int) -> str:
        try:
            reply = self.office.request("GET", f"/records/{number}")
            if reply.status == 200:
                return str(json.loads(reply.body)["digest"])
        except (NoAnswer, ValueError, KeyError, TypeError) as why:
            raise Unusable(f"the office gave no record {number}: {why}") from why
        raise Unusable(f"the office answers {reply.status} for record {number}, which may be a mail that is filed already")

    def take(self, record: Record) -> str | None:
        """Gives a mail the ref that it has already, if it has one, and returns that."""
        with record.document.opened() as file:
            digest, length = digest_of(file)
        digests = {digest}
        found = self.refs(record.earlier)
        if length > LONGEST_CONTENT:
            # the text that names a large file has its place as well
            names = [f"{record.document.path.stem}-{int(ref[-5:])}.eml" for ref in found.values() if ref[-5:].isdigit()]
            digests = {hashlib.sha256(manifest(digest, length, name)).hexdigest() for name in names}
        ref = next((found[it] for it in digests if it in found), None)
        if ref is not None:
            record.keep(ref)
        return ref
