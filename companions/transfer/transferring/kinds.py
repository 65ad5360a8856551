"""The kind of a content by its first bytes: the ending of its name, and its media type."""
from __future__ import annotations

import re
from dataclasses import dataclass

# so many bytes at the beginning decide
FIRST = 8192


@dataclass(frozen=True)
class Kind:
    """What a content is: an ending with its dot, and a media type."""

    ending: str
    media: str


BINARY, TEXT = Kind(".bin", "application/octet-stream"), Kind(".txt", "text/plain")
OFFICE = "application/vnd.openxmlformats-officedocument."
OPEN = "application/vnd.oasis.opendocument."
# what bytes at the beginning say
MAGIC = [
    (b"%PDF-", Kind(".pdf", "application/pdf")),
    (b"\x89PNG\r\n\x1a\n", Kind(".png", "image/png")),
    (b"\xff\xd8\xff", Kind(".jpg", "image/jpeg")),
    (b"GIF87a", Kind(".gif", "image/gif")),
    (b"GIF89a", Kind(".gif", "image/gif")),
    (b"II*\x00", Kind(".tif", "image/tiff")),
    (b"MM\x00*", Kind(".tif", "image/tiff")),
    (b"\x00\x00\x00\x0cjP  \r\n\x87\n", Kind(".jp2", "image/jp2")),
    (b"AT&TFORM", Kind(".djvu", "image/vnd.djvu")),
    (b"{\\rtf", Kind(".rtf", "application/rtf")),
    (b"%!PS", Kind(".ps", "application/postscript")),
    (b"fLaC", Kind(".flac", "audio/flac")),
    (b"ID3", Kind(".mp3", "audio/mpeg")),
    (b"OggS", Kind(".ogg", "application/ogg")),
    (b"\x1f\x8b", Kind(".gz", "application/gzip")),
    (b"7z\xbc\xaf\x27\x1c", Kind(".7z", "application/x-7z-compressed")),
    (b"SQLite format 3\x00", Kind(".sqlite", "application/vnd.sqlite3")),
]
# what names in a ZIP say: the first part of a document of a word processor, and so on
ZIPPED = [
    (b"word/", Kind(".docx", OFFICE + "wordprocessingml.document")),
    (b"xl/", Kind(".xlsx", OFFICE + "spreadsheetml.sheet")),
    (b"ppt/", Kind(".pptx", OFFICE + "presentationml.presentation")),
]
OPENED = {OPEN + "text": ".odt", OPEN + "spreadsheet": ".ods", OPEN + "presentation": ".odp", OPEN + "graphics": ".odg",
          "application/epub+zip": ".epub"}
# what RIFF and ISO media say at their ninth byte
RIFF = {b"WAVE": Kind(".wav", "audio/vnd.wave"), b"AVI ": Kind(".avi", "video/x-msvideo"),
        b"WEBP": Kind(".webp", "image/webp")}
ZIP, MOVIE, OLE = Kind(".zip", "application/zip"), Kind(".mp4", "video/mp4"), Kind(".ole", "application/x-ole-storage")
# endings that a ref or a title may decide, because the first bytes are the same
SAME_START = {
    OLE: {".doc": "application/msword", ".xls": "application/vnd.ms-excel", ".ppt": "application/vnd.ms-powerpoint",
          ".msg": "application/vnd.ms-outlook"},
    ZIP: {kind.ending: kind.media for _, kind in ZIPPED},
    MOVIE: {".mov": "video/quicktime", ".m4a": "audio/mp4", ".heic": "image/heic"},
    TEXT: {".csv": "text/csv", ".md": "text/markdown", ".eml": "message/rfc822", ".json": "application/json",
           ".log": "text/plain", ".tsv": "text/tab-separated-values"},
}


def zipped(data: bytes) -> Kind:
    """Tells the documents apart that are a ZIP."""
    opened = re.match(rb"PK\x03\x04.{26}mimetype(application/[a-z0-9.+-]+?)(?:PK|$)", data, re.S)
    if opened and opened[1].decode() in OPENED:
        return Kind(OPENED[opened[1].decode()], opened[1].decode())
    names = re.findall(rb"PK\x03\x04.{26}([\x20-\x7e]+)", data, re.S)
    return next((kind for start, kind in ZIPPED if any(it.startswith(start) for it in names)), ZIP)


def is_text(data: bytes) -> bool:
    """Returns whether the bytes read as text in UTF-8; a letter may be cut at their end."""
    try:
        text = data.decode()
    except UnicodeDecodeError as why:
        if len(data) < FIRST or why.start < len(data) - 3:
            return False
        text = data[:why.start].decode()
    return not re.search("[\x00-\x08\x0b\x0e-\x1f\x7f]", text)


def by_bytes(data: bytes) -> Kind:
    match = next((kind for start, kind in MAGIC if data.startswith(start)), None)
    if match is not None:
        return match
    if data.startswith(b"PK\x03\x04"):
        return zipped(data)
    if data.startswith(b"\xd0\xcf\x11\xe0\xa1\xb1\x1a\xe1"):
        return OLE
    if data[:4] == b"RIFF" and data[8:12] in RIFF:
        return RIFF[data[8:12]]
    if data[4:8] == b"ftyp":
        return MOVIE
    if not is_text(data):
        return BINARY
    if re.match(rb"(\xef\xbb\xbf)?\s*<\?xml\b", data):
        return Kind(".xml", "application/xml")
    if re.match(rb"(?i)(\xef\xbb\xbf)?\s*<(!doctype html|html)\b", data):
        return Kind(".html", "text/html")
    return TEXT


def kind_of(data: bytes, *names: str) -> Kind:
    """Finds the kind of a content by its first bytes. Names decide only between kinds that begin alike."""
    kind = by_bytes(data[:FIRST])
    for name in names:
        ending = re.search(r"\.[A-Za-z0-9]{1,8}$", name)
        if ending and ending[0].lower() in SAME_START.get(kind, {}):
            return Kind(ending[0].lower(), SAME_START[kind][ending[0].lower()])
    return kind
