"""What is a manifest, and what is kept by a content that is none."""
import pathlib
import time

from kit.judging import judge, same

from office_common import manifest

GROUP = manifest.Named("a" * 64, 7, "a.pdf").text()
MOST = manifest.MOST_BYTES // len(GROUP)


# texts, and of how many files each is a manifest
OTHER = GROUP.replace("a" * 64, "b" * 64)
ROWS = [(GROUP, 1), (GROUP * 3, 3), (GROUP + OTHER, 2), ("", None), (GROUP[:-1], None), (GROUP + "\n", None),
        (GROUP.replace("a" * 64, "A" * 64), None), (GROUP.replace("\n", "\r\n"), None),
        (GROUP.replace(" 7", " 07"), None), (GROUP.replace(" 7", " -7"), None), (GROUP.replace(" 7", " 7.0"), None),
        (GROUP.replace(" 7", " " + "9" * 18), 1), (GROUP.replace(" 7", " " + "9" * 19), None),
        (GROUP.replace("a.pdf", "../../etc/passwd"), 1), (GROUP.replace("a.pdf", "a\0b"), None),
        (GROUP.replace("a.pdf", "x" * 1024), 1), (GROUP.replace("a.pdf", "x" * 1025), None),
        (GROUP.replace("a.pdf", ""), None), (GROUP + "KEY 1\n", None), ("\ufeff" + GROUP, None),
        (GROUP * MOST, MOST), (GROUP * (MOST + 1), None), ("SHA256 " + "a" * 262_000, None)]


def read() -> None:
    """Which texts are manifests, and of how many files."""
    for text, count in ROWS:
        found = manifest.read(text.encode())
        same(f"{text[-40:]!r} has {count}", None if found is None else len(found), count)
    same("bytes that are no text are none", manifest.read(b"\xff" * 100), None)
    for place in ("", "a\nb", "x" * 1025, "\u009f"):
        try:
            manifest.text_of([manifest.Named("a" * 64, 7, place)])
            judge(f"{place[:5]!r} makes no manifest", False)
        except ValueError:
            judge(f"{place[:5]!r} makes no manifest", True)


def kept() -> None:
    """What keeps objects, and whether the check reports it."""
    d, e = "a" * 64, "b" * 64
    rows = [(GROUP, {d}, True), (GROUP.replace("\n", "\r\n"), {d}, False), (GROUP.upper(), {d}, False),
            ("\ufeff" + GROUP, {d}, False), (GROUP + GROUP.replace(d, e) + "x", {d, e}, False),
            (GROUP.replace("SHA256 ", "SHA256"), {"256" + d[:61], "56" + d[:62], "6" + d[:63], "a256" + d[:60], d},
             False), ("SHA256 is an algorithm", set(), True), (d, set(), True), ("", set(), True),
            (f"{d}  data/scan.tif\n" * 3, set(), True), ("see SHA256 " + d, set(), True),
            (GROUP.replace("LENGTH", "SIZE"), {d}, False), (GROUP.replace("PLACE a.pdf\n", ""), {d}, False)]
    for text, names, is_sound in rows:
        found = manifest.keeps(text.encode())
        same(f"{text[:20]!r} keeps", {it for it, _ in found.names}, names)
        same(f"{text[:20]!r} is reported", found.is_sound, is_sound)
    found = manifest.keeps(GROUP.encode("utf-16"))
    judge("one that was saved as UTF-16 keeps", d in dict(found.names) and not found.is_sound, found)


def long() -> None:
    """What is made to take long, or much room: a content of the greatest length takes less than a second."""
    most = manifest.MOST_BYTES
    texts = {"spaces": b" " * most, "digits": b"SHA256 " + b"a" * (most - 7), "lines": b"SHA256 " + b"\n" * (most - 7),
             "runs": b"SHA256 " + (b"a" * 72 + b" ") * ((most - 7) // 73), "groups": GROUP.encode() * (most // 92),
             "places": (b"SHA256 " + b"a" * 64 + b"\nLENGTH 7\nPLACE " + b"x" * (most - 100)),
             "marks": b"\xef\xbb\xbf" * (most // 3), "zeros": bytes(most)}
    for name, text in texts.items():
        began = time.process_time()
        found = manifest.keeps(text)
        seconds = time.process_time() - began
        judge(f"{name}: {seconds:.2f} s", seconds < 1)
        judge(f"{name} names at most 40,000 files", len(found.names) < 40_000, len(found.names))


def tried(_: pathlib.Path) -> None:
    read()
    kept()
    long()
