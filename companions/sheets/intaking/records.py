"""Documents as records: what each will be, or why it is left out."""
from __future__ import annotations

import base64
import datetime
import re
from dataclasses import dataclass

from asking.sending import NotMade
from asking.vault import NotPut, Vault
from intaking.dated import named_day, picture_day
from intaking.ends import is_on_the_way, is_written, lacking_end
from intaking.files import Document
from intaking.folders import Aggregation, Unsettled, Unusable, home_of
from intaking.mails import Mail, identity_of, mail_of, unmarked
from intaking.moments import day_at
from office_common.facts import LONGEST_CONTENT
from spreadsheet.cells import CONTROL, LONGEST_TEXT
from spreadsheet.members import Pending

# stands for the place of a mail in the refs that an earlier version gave
PLACE = "\0"


@dataclass(frozen=True)
class Asked:
    """How days and refs are found, and since how many seconds a file must be as it is."""

    day: str
    ref: str
    pattern: re.Pattern[str] | None
    by_change: bool
    vault: Vault | None = None
    settle: float = 60
    by_received: bool = False
    zone: datetime.tzinfo | None = None
    # what lacks the end of its kind is a record too
    with_cut: bool = False


@dataclass
class Record:
    """A document as a record; its bytes are read when the act is made."""

    document: Document
    act: dict[str, object]
    vault: Vault | None = None
    # what makes a mail of a mailbox that mail, and the form of the refs that an earlier version gave to mails there
    identity: str = ""
    earlier: str = ""
    place: str = ""
    remark: str = ""
    # its day is that of UTC, which its mail names, and no zone was asked for
    is_in_utc: bool = False

    def needs(self) -> list[str]:
        return [it.ref for it in self.act.values() if isinstance(it, Pending)]

    def made(self, numbers: dict[str, int]) -> dict[str, object]:
        """The act with its content. A file that has changed since it was first seen is left for the next call."""
        act = {name: numbers[it.ref] if isinstance(it, Pending) else it for name, it in self.act.items()}
        try:
            content = self.content()
            if self.document.is_changed() or is_written(self.document.file()):
                raise NotMade(CHANGING)
        except (OSError, NotPut, LookupError) as why:
            raise NotMade(CHANGING if isinstance(why, LookupError) else str(why)) from why
        return {**act, "content": base64.b64encode(content).decode()}

    def is_same_mail(self, other: Record) -> bool:
        """Whether a mail with the Message-ID and the body of another has its header too, but for marks."""
        return unmarked(self.document.head()) == unmarked(other.document.head())

    def keep(self, ref: str) -> None:
        """Gives a mail the ref that an earlier version gave it, by its place then, which a file of the vault is named by."""
        self.act["ref"] = ref
        if ref[-5:].isdigit():
            self.place = f"{self.document.path.stem}-{int(ref[-5:])}.eml"

    def content(self) -> bytes:
        """Returns the bytes of the document; of a large one the text that names it in the vault."""
        if self.vault is None or self.document.size() <= LONGEST_CONTENT:
            return self.document.data()
        return self.vault.put(self.document.opened, self.place)


CHANGING = "it is still changing: the next call files it"


def text_of(text: str) -> str:
    """Returns a text as a title may be: in one line, without control characters, and cut where it is too long."""
    plain = CONTROL.sub(" ", " ".join(text.split())).strip()
    return plain.encode(errors="replace")[:LONGEST_TEXT].decode(errors="ignore").strip()


def fields_of(document: Document, home: Aggregation, asked: Asked, mail_name: str) -> dict[str, str]:
    """What a ref may be made of: names, and what the pattern finds in the name. A mail of a mailbox has a name of its own."""
    path = document.path
    fields = {"folder": home.ref, "path": str(path), "name": path.name, "stem": path.stem}
    if document.mail is not None:
        fields |= {"name": mail_name, "stem": mail_name}
    found = asked.pattern.search(path.name) if asked.pattern else None
    return {**(found.groupdict(default="") if found else {}), **fields}


def check(document: Document, asked: Asked) -> None:
    """Refuses what is too large, or may still be written."""
    settled = document.state.settled_for()
    if settled < asked.settle:
        raise Unsettled(f"{CHANGING} (its last change was {settled:.0f} seconds ago, and --settle is {asked.settle:g})"
                       if settled >= 0 else f"its last change is {-settled:.0f} seconds after now: set the clock, or touch it")
    if is_written(document.file()):
        raise Unsettled(f"{CHANGING} (a program has it open for writing)")
    size = document.size()
    if size > LONGEST_CONTENT and asked.vault is None:
        raise Unusable(too_large(size))
    if document.mail is None and not asked.with_cut:
        check_end(document)


def check_end(document: Document) -> None:
    """Refuses what a program has not written to its end, however long ago it wrote last."""
    if is_on_the_way(document.path.name):
        raise Unusable("its name is that of a hidden file, or of one on its way: rename it once it is whole, or --cut takes it")
    with document.opened() as file:
        if lack := lacking_end(file, document.size()):
            raise Unusable(f"{lack}: --cut takes it as it is")


def day_of(document: Document, mail: Mail, fields: dict[str, str], asked: Asked) -> datetime.date:
    """Returns the day of a document, by what it says of itself."""
    by_mail = (mail.received if asked.by_received else None) or mail.sent
    day = by_mail or picture_day(document.head()) or named_day(fields)
    if day is None and asked.by_change and document.mail is None:
        day = day_at(document.state.modified / 1e9, asked.zone)
    if day is None:
        raise Unusable("it has no day: no header of a mail, no EXIF, no day in its name by --pattern; --changed takes the "
                       "day of its last change")
    if day.isoformat() > asked.day:
        raise Unusable(f"its day {day} is after the day of filing, {asked.day}")
    return day


def ref_of(asked: Asked, fields: dict[str, str], day: datetime.date) -> str:
    try:
        return asked.ref.format(**fields, originated=day.isoformat())
    except (KeyError, IndexError, ValueError, AttributeError) as why:
        raise Unusable(f"--ref {asked.ref}: there is no {why} for this file") from why


def checked_ref(ref: str) -> str:
    if not ref.isprintable() and any("\ud800" <= it <= "\udfff" for it in ref):
        raise Unusable("its name is no UTF-8, so no ref can be made of it: rename it")
    if len(ref.encode()) > LONGEST_TEXT or CONTROL.search(ref) or not ref:
        raise Unusable(f"its ref has {len(ref.encode())} bytes, or a control character; at most {LONGEST_TEXT} bytes fit")
    return ref


def record_of(document: Document, homes: dict[str, Aggregation], numbers: dict[str, int], asked: Asked) -> Record:
    """Returns a document as a record; where it cannot be one, that is why it is left out."""
    home = home_of(document.path.parent, homes)
    if home is None:
        raise Unusable("its folder is in no row of the table")
    check(document, asked)
    is_mail = document.mail is not None or document.path.suffix.lower() == ".eml"
    head = document.head() if is_mail else b""
    mail = mail_of(head, asked.zone)
    identity = identified(document, head) if document.mail is not None else ""
    fields = fields_of(document, home, asked, f"mail-{identity}")
    day = day_of(document, mail, fields, asked)
    ref = checked_ref(ref_of(asked, fields, day))
    if document.is_changed():
        raise Unsettled(CHANGING)
    act: dict[str, object] = {
        "act": "add-record", "day": asked.day, "ref": ref, "title": text_of(mail.subject) or text_of(fields["stem"]),
        "originated": day.isoformat(), "aggregation": numbers.get(home.ref, Pending(home.ref)), "class": None, "schedule": None}
    in_utc = mail.is_received_in_utc if asked.by_received and mail.received else mail.is_sent_in_utc
    record = Record(document, act, asked.vault, identity, place=document.path.name, is_in_utc=in_utc)
    if identity:
        stem = document.path.stem
        record.earlier = ref_of(asked, fields_of(document, home, asked, f"{stem}/{PLACE}"), day)
        record.place = f"{stem}-{identity}.eml"
    if mail.is_doubtful() and not asked.by_received:
        record.remark = (f"by its sender it is of {mail.sent}, and it was received on {mail.received}: --mail-day received "
                         "takes that day")
    return record


def identified(document: Document, head: bytes) -> str:
    """What makes a mail of a mailbox that mail."""
    with document.opened() as file:
        return identity_of(head, file)


def too_large(size: int) -> str:
    """Why a large file is left out, if no vault is named."""
    return (f"it has {size:,} bytes, and a content has at most {LONGEST_CONTENT:,} (256 KB): --vault URL puts it into the "
            "vault of the office")
