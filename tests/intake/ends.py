"""Files that are not whole though nobody has changed them for long: none is filed, and each is once it is whole."""
from __future__ import annotations

import io
import pathlib
import struct
import zipfile
import zlib
from collections.abc import Callable

from intaking.ends import lacking_end


def chunk(kind: bytes, data: bytes) -> bytes:
    return struct.pack(">I", len(data)) + kind + data + struct.pack(">I", zlib.crc32(kind + data))


def png() -> bytes:
    return b"\x89PNG\r\n\x1a\n" + chunk(b"IHDR", struct.pack(">IIBBBBB", 1, 1, 8, 0, 0, 0, 0)) + chunk(b"IDAT", zlib.compress(b"\0\0")) + chunk(b"IEND", b"")


def jpeg(trailer: bytes = b"") -> bytes:
    """A picture with a small one in its EXIF, which has an end of its own."""
    small = b"Exif\0\0\xff\xd8\xff\xda\0\2ab\xff\xd9"
    return (b"\xff\xd8\xff\xe1" + struct.pack(">H", len(small) + 2) + small + b"\xff\xda\0\2" + b"picture \xff\0 " * 9000
            + b"\xff\xd9" + trailer)


def tiff(order: str, strips: int, is_last: bool) -> bytes:
    """A page of some strips, which stand before its directory or behind it."""
    data = b"strip!" * strips
    size = 2 + 12 * 2 + 4 + 8 * strips
    first, directory = (8, 8 + len(data)) if is_last else (8 + size, 8)
    listed = directory + 2 + 12 * 2 + 4
    entry = [struct.pack(order + "HHI", tag, 4, strips) + (struct.pack(order + "I", value) if strips == 1 else struct.pack(order + "I", at))
             for tag, value, at in ((273, first, listed), (279, 6, listed + 4 * strips))]
    arrays = struct.pack(f"{order}{2 * strips}I", *(first + 6 * at for at in range(strips)), *[6] * strips) if strips > 1 else b""
    inside = struct.pack(order + "H", 2) + b"".join(entry) + struct.pack(order + "I", 0) + arrays.ljust(8 * strips, b"\0")
    head = (b"II*\0" if order == "<" else b"MM\0*") + struct.pack(order + "I", directory)
    return head + (data + inside if is_last else inside + data)


def document() -> bytes:
    held = io.BytesIO()
    with zipfile.ZipFile(held, "w") as archive:
        archive.writestr("word/document.xml", "<a/>" * 50)
    return held.getvalue()


WHOLE = {"a PDF": b"%PDF-1.7\n" + b"1 0 obj\n" * 900 + b"%%EOF\n", "a PDF with zeros behind it": b"%PDF-1.4\nx\n%%EOF\r\n" + bytes(512),
         "a JPEG": jpeg(), "a JPEG with a film behind it": jpeg(b"film" * 50_000), "a PNG": png(), "a document": document(),
         **{f"a TIFF of {strips} strips, {order}, {is_last}": tiff(order, strips, is_last)
            for strips in (1, 3) for order in "<>" for is_last in (True, False)},
         "a text": b"text", "half a word": b"PK", "a thing that looks like a TIFF": b"II*\0"[:3]}
# where each of them lacks its end: the bytes that are left when it is cut there. A film or zeros behind an end are no part of it
CUT = {"a PDF": range(5, 7209, 97), "a JPEG": [*range(8, 100), 5000, len(WHOLE["a JPEG"]) - 1],
       "a PNG": range(9, len(png())), "a document": range(4, len(document()) - 1),
       **{name: range(8, len(data) - (16 if "1 strips" in name and "True" in name else 0)) for name, data in WHOLE.items() if name.startswith("a TIFF of")}}


def kinds(same: Callable[..., object]) -> None:
    """Each kind that has an end is known whole, and cut at each place."""
    for name, data in WHOLE.items():
        same(f"{name} is whole", lacking_end(io.BytesIO(data), len(data)), "")
    for name, places in CUT.items():
        taken = [at for at in places if not lacking_end(io.BytesIO(WHOLE[name][:at]), at)]
        same(f"{name} is whole nowhere before its end", taken, [])
    same("nothing is no file", lacking_end(io.BytesIO(), 0), "it is empty")


def loops(same: Callable[..., object]) -> None:
    """A TIFF whose pages lead back to the first, and one with an entry of four billion numbers, come to an end."""
    back = b"II*\0" + struct.pack("<IHI", 8, 0, 8)
    same("pages in a circle are counted no further than some thousands", lacking_end(io.BytesIO(back), len(back)), "")
    many = b"II*\0" + struct.pack("<IHHHIII", 8, 1, 273, 4, 2**32 - 1, 0, 0)
    same("an entry of more numbers than a page has is none", lacking_end(io.BytesIO(many), len(many)) != "", True)


def filed(folder: pathlib.Path, take: Callable[..., tuple[int, str, str]], records: Callable[[], list[dict]],
          same: Callable[..., object]) -> None:
    """A transfer stops for good in the middle, and goes on much later."""
    place = folder / "scans"
    place.mkdir()
    whole = WHOLE["a PDF"]
    cut = {"empty.txt": b"", "half.pdf": whole[:700], ".scan.txt.Ab3": b"half a scan", "mail.txt.filepart": b"half a l", "open.txt": b"half a l"}
    for name, data in cut.items():
        (place / name).write_bytes(data)
    with (place / "open.txt").open("ab"):
        status, _, errors = take(place)
    reasons = {"empty.txt": "it is empty", "half.pdf": "it is a PDF without its end", ".scan.txt.Ab3": "its name is", "mail.txt.filepart": "its name is",
               "open.txt": "it is still changing: the next call files it (a program has it open"}
    same("what is not whole is named with its reason, and not filed",
         (status, {name for name, why in reasons.items() if f"left out: {name}: {why}" in errors}, records()), (1, set(reasons), []))
    (place / "half.pdf").write_bytes(whole)
    (place / "empty.txt").write_bytes(b"no more")
    for name, new in ((".scan.txt.Ab3", "scan.txt"), ("mail.txt.filepart", "mail.txt")):
        (place / name).rename(place / new)
    status, _, errors = take(place)
    same("and all of them are filed once they are whole", (status, sorted((each["ref"], each["length"]) for each in records())), (0, sorted({
        "BP/empty.txt": 7, "BP/half.pdf": len(whole), "BP/mail.txt": 8, "BP/open.txt": 8, "BP/scan.txt": 11}.items())))
    (place / "late.pdf").write_bytes(whole[:700])
    same("--cut takes a file without its end as it is", (take(place, "--cut")[0], len(records())), (0, 6))
