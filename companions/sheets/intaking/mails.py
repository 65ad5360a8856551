"""Mails: the days, the subject and the identity of one by its header, which may be broken in any way."""
from __future__ import annotations

import codecs
import datetime
import email.header
import email.parser
import email.policy
import hashlib
import os
import re
from dataclasses import dataclass
from typing import BinaryIO

from intaking.moments import stated_in

# a title has 200 bytes: more of a subject is not read
LONGEST_SUBJECT = 2_000
# the names that Python has for the encodings of text that mails use; others than these may be no text, or half of it
CHARSETS = frozenset((
    "ascii", "utf-8", "big5", "big5hkscs", "cp437", "cp850", "cp852", "cp866", "cp874", "cp932", "cp949", "cp950",
    "euc_jp", "euc_kr", "gb18030", "gb2312", "gbk", "hz", "iso2022_jp", "iso2022_jp_2", "iso2022_kr", "koi8-r",
    "koi8-u", "mac-roman", "shift_jis", "tis-620", *(f"cp{it}" for it in range(1250, 1259)),
    *(f"iso8859-{it}" for it in range(1, 17) if it != 12)))
FAR = datetime.timedelta(days=2)
BLANK = re.compile(rb"\n\r?\n")
PIECE = 1_048_576
# what mail programs write into a mail that they keep
MARKS = frozenset(("status", "x-status", "x-keywords", "x-uid", "x-imap", "x-imapbase", "x-mozilla-status", "x-mozilla-status2",
                   "x-mozilla-keys", "x-gmail-labels", "content-length", "lines"))


@dataclass(frozen=True)
class Mail:
    """A mail's day by its sender, and by the server that received it last; none if the header has no readable one."""

    sent: datetime.date | None
    received: datetime.date | None
    subject: str
    # the moment is in UTC, so the day may be another where the mail was written
    is_sent_in_utc: bool = False
    is_received_in_utc: bool = False

    def is_doubtful(self) -> bool:
        """Returns whether the sender's day is far from that of the server."""
        return self.sent is not None and self.received is not None and abs(self.sent - self.received) > FAR


def items_of(data: bytes) -> list[tuple[str, str]]:
    """Returns the fields of the header, each in one line; those that were read if no reader of mails understands the others."""
    items: list[tuple[str, str]] = []
    try:
        header = BLANK.split(data, maxsplit=1)[0] + b"\n"
        head = email.parser.BytesHeaderParser(policy=email.policy.compat32).parsebytes(header)
        for name, text in head.raw_items():
            # bytes that are no ASCII are taken for UTF-8, as many programs write them
            plain = text.encode("utf-8", "surrogateescape").decode("utf-8", "replace")
            items.append((name.lower(), " ".join(plain.splitlines())))
    except Exception:  # the parser may raise anything: such a header has the fields that were read before
        return items
    return items


def fields_of(data: bytes) -> dict[str, str]:
    """The first field of each name in the header."""
    return dict(reversed(items_of(data)))


def unmarked(data: bytes) -> list[tuple[str, str]]:
    """The fields of the header but for what mail programs write into it."""
    return [(name, text) for name, text in items_of(data) if name not in MARKS]


def mail_of(data: bytes, zone: datetime.tzinfo | None = None) -> Mail:
    """The days and the subject of a mail, by its header: each day is that in a zone, else in its own. It never raises."""
    fields = fields_of(data)
    sent = stated_in(fields.get("date", ""), zone)
    received = stated_in(fields.get("received", "").rpartition(";")[2], zone)
    return Mail(sent and sent.day, received and received.day, subject_of(fields.get("subject", "")),
                bool(sent and sent.in_utc), bool(received and received.in_utc))


def subject_of(text: str) -> str:
    """A subject in words, or as it is written if it is encoded wrongly. Bytes in no known charset are Latin-1."""
    cut = text[:LONGEST_SUBJECT]
    try:
        return "".join(part.decode(charset_of(charset), errors="replace") if isinstance(part, bytes) else part
                       for part, charset in email.header.decode_header(cut))
    except Exception:  # base64 that is none, above all
        return cut


def charset_of(name: str | None) -> str:
    try:
        found = codecs.lookup(name or "ascii").name
    except (LookupError, ValueError):
        return "latin-1"
    return found if found in CHARSETS else "latin-1"


def identity_of(head: bytes, file: BinaryIO) -> str:
    """What makes a mail that mail wherever it lies: its Message-ID and its body, without the first all of its bytes.

    Mail programs write marks into a header, as that it was read. The body is there because two mails may have one
    Message-ID, and none may keep another from being filed.
    """
    own = fields_of(head).get("message-id", "").strip().encode()
    start, end = (body_start(file) if own else 0), text_end(file)
    digest = hashlib.sha256(own + b"\0" if own else b"")
    file.seek(start)
    while start < end and (piece := file.read(min(PIECE, end - start))):
        digest.update(piece)
        start += len(piece)
    return digest.hexdigest()[:16]


def body_start(file: BinaryIO) -> int:
    """Where the body of a mail begins: behind its first empty line, or with the mail if it has none."""
    at, last = file.seek(0), b""
    while piece := file.read(PIECE):
        if blank := BLANK.search(last + piece):
            return at - len(last) + blank.end()
        at += len(piece)
        last = piece[-2:]
    return 0


def text_end(file: BinaryIO) -> int:
    """Where a mail ends but for the ends of lines behind it."""
    end = file.seek(0, os.SEEK_END)
    while end:
        start = max(0, end - PIECE)
        file.seek(start)
        if text := file.read(end - start).rstrip(b"\r\n"):
            return start + len(text)
        end = start
    return 0
