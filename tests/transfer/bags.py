"""Bags and packages of offices that answer oddly: names, what is gone, large files, broken answers, a second run."""
import csv
import io
import pathlib
import subprocess
import sys
from collections.abc import Callable

import csip
import reader
from fake import Fake, digest
from kit.companions import companion
from kit.judging import judge
from place import TOP, Done, challenge_of, files_in, run

LONG = "ü" * 100
# refs and titles that an office takes
ODD = [
    ("../../etc/passwd", "..\\..\\windows\\system32"), ("/", "."), ("..", ".."), ("a" * 200, "b" * 200), (LONG, LONG),
    ("CON", "nul.txt"), ("Same", "Same name"), ("same", "Same name"), ("same ", "same name"), ("%0A%25", "100% wool"),
    ("~root", "-rf *"), ("*", "?"), ("\u202egpj.exe", "right to left"), ("\u2028", "two\u2028lines"), ("'\"`$(id)", "a;b|c"),
    ("=1+1", "@SUM(A1)"), ("e\u0301", "decomposed"), ("\U0001f5c2", "\ufffe\uffff"), ("BP/2018/001.PDF", "bp-2018-001.pdf"),
]
# and such that none takes, from an answer that is not an office's
CONTROLS = [("ctl", "a\x00b\nc\r\td\x1b[31m"), ("ctl2", "\x7f\x85\u2029")]
KINDS = [
    (b"%PDF-1.7\n", ".pdf"), (b"\x89PNG\r\n\x1a\n...", ".png"), (b"\xff\xd8\xff\xe0JFIF", ".jpg"), (b"II*\x00", ".tif"),
    (b"plain words\n", ".txt"), ("Straße".encode(), ".txt"), (b"", ".txt"), (b"\x00\x01\x02", ".bin"),
    (b"<?xml version='1.0'?><a/>", ".xml"), (b"<!DOCTYPE html><p>", ".html"), (b"PK\x03\x04" + b"\x00" * 26 + b"word/x", ".docx"),
    (b"PK\x03\x04" + b"\x00" * 26 + b"mimetypeapplication/vnd.oasis.opendocument.textPK", ".odt"),
    (b"PK\x03\x04" + b"\x00" * 26 + b"x", ".zip"), (b"\xd0\xcf\x11\xe0\xa1\xb1\x1a\xe1", ".ole"), (b"\xff\xfe\x00", ".bin"),
]


def transfer(fake: Fake, target: pathlib.Path, *words: object) -> Done:
    return run(companion("office-transfer"), "--office", fake.address, *words, 1, target)


def rows(bag: pathlib.Path, name: str) -> list[dict[str, str]]:
    return list(csv.DictReader(io.StringIO((bag / name).read_bytes().decode(), newline="")))


def sums_agree(bag: pathlib.Path) -> bool:
    """What the system's own program says of both manifests."""
    return all(subprocess.run(["sha256sum", "--check", "--strict", "--quiet", name], cwd=bag,
                              capture_output=True).returncode == 0
               for name in ("manifest-sha256.txt", "tagmanifest-sha256.txt"))


def odd(folder: pathlib.Path) -> None:
    """Refs and titles of every kind, in both forms."""
    with Fake() as fake:
        every = [*ODD, *CONTROLS]
        entries = [fake.record(at, ref, title, f"content {at}\n".encode()) for at, (ref, title) in enumerate(every, 1)]
        fake.close(1, entries)
        done = transfer(fake, folder / "odd")
        judge("a bag of odd refs and titles is made", (done.status, done.error) == (0, ""), done)
        judge("an independent reader finds nothing wrong", reader.problems_of(str(folder / "odd")) == [],
              reader.problems_of(str(folder / "odd")))
        judge("sha256sum finds nothing wrong", sums_agree(folder / "odd"))
        table = rows(folder / "odd", "metadata/records.csv")
        judge("the table has each ref and title as the office answers it",
              [(it["ref"], it["title"]) for it in table] == every, table)
        judge("each row leads to its content", [(folder / "odd" / it["path"]).read_bytes() for it in table]
              == [f"content {at}\n".encode() for at in range(1, len(every) + 1)])
        judge("the aggregation's ref and title are the catalogue's",
              {(it["aggregation"], it["aggregation_ref"], it["aggregation_title"]) for it in table}
              == {("3", "MAP/1993", "Maps of 1993")})
        done = transfer(fake, folder / "odd-package", "--form", "eark", "--sender", "Town <of> \"Alderquay\" & Quay")
        judge("a package of them is made", (done.status, done.error) == (0, ""), done)
        found = csip.problems_of(str(folder / "odd-package"))
        judge("an independent reader finds nothing wrong with the package", found == [], found)
        judge("both forms have the same contents", sorted((folder / "odd/data").rglob("*.txt"), key=lambda it: it.name)
              and [it.read_bytes() for it in sorted((folder / "odd/data").iterdir())]
              == [it.read_bytes() for it in sorted((folder / "odd-package/representations/rep1/data").iterdir())])


def kinds(folder: pathlib.Path) -> None:
    with Fake() as fake:
        fake.close(1, [fake.record(at, f"r{at}", f"t{at}", data) for at, (data, _) in enumerate(KINDS, 1)]
                   + [fake.record(90, "lease.doc", "Lease", KINDS[13][0]), fake.record(91, "a.exe", "b.pdf", b"words"),
                      fake.record(92, "list.csv", "list.csv", b"a,b\n")])
        done = transfer(fake, folder / "kinds")
        names = [pathlib.Path(it["path"]).name for it in rows(folder / "kinds", "metadata/records.csv")]
        wanted = [f"{at:06}_r{at}_t{at}{ending}" for at, (_, ending) in enumerate(KINDS, 1)]
        wanted += ["000090_lease_Lease.doc", "000091_a.exe_b.pdf.txt", "000092_list.csv"]
        judge("the ending is that of the first bytes, and a name decides only between kinds that begin alike",
              done.status == 0 and names == wanted, [it for it in zip(names, wanted) if it[0] != it[1]])


def again(folder: pathlib.Path) -> None:
    """A second run, another bag in the place, and what a bag must not overwrite."""
    with Fake() as fake:
        entries = [fake.record(1, "A", "One", b"one"), fake.record(2, "B", "Two", b"two")]
        fake.close(1, entries)
        first = transfer(fake, folder / "one")
        before = files_in(folder / "one")
        second, other = transfer(fake, folder / "one"), transfer(fake, folder / "two")
        judge("a second run says that the bag is there already", second.status == 0 and "the same" in second.out, second)
        judge("a second run gives the same bytes", first.status == other.status == 0
              and files_in(folder / "two") == before == files_in(folder / "one"))
        order = (folder / "one.order.txt").read_bytes()
        judge("each folder has an order of its own, with a challenge of its own",
              challenge_of(folder / "one") != challenge_of(folder / "two")
              and all(order.count(it) == 1 for it in (b"\nFOLDER one\n", b"\nCERTIFICATE 1\n", b"\nCHALLENGE ")), order)
        (folder / "two.order.txt").unlink()
        lost, kept = transfer(fake, folder / "two"), transfer(fake, folder / "one")
        judge("a second run leaves the order, and writes one that was lost", (lost.status, kept.status) == (0, 0)
              and (folder / "one.order.txt").read_bytes() == order and (folder / "two.order.txt").is_file(), (lost, kept))
        one, two = (transfer(fake, folder / "package", "--form", "eark") for _ in range(2))
        judge("a second package is the same", (one.status, two.status) == (0, 0) and "the same" in two.out, (one, two))
        (folder / "two/data/000001_A_One.txt").write_bytes(b"ONE")
        changed = transfer(fake, folder / "two")
        judge("another bag in the place is left as it is", changed.status == 1 and "000001_A_One.txt" in changed.error
              and (folder / "two/data/000001_A_One.txt").read_bytes() == b"ONE", changed)
        (folder / "file").write_text("mine")
        (folder / "link").symlink_to("elsewhere")
        for name in ("file", "link"):
            done = transfer(fake, folder / name)
            judge(f"a {name} in the place is left as it is", done.status == 1, done)
        orders = {f"{it}.order.txt" for it in ("one", "two", "package")}
        judge("nothing else is left", {it.name for it in folder.iterdir()} == {"one", "two", "package", "file", "link"} | orders,
              sorted(it.name for it in folder.iterdir()))


def gone(folder: pathlib.Path) -> None:
    """Records that ended since, files that the vault lacks: named, and not invented."""
    ended = {"outcome": "transferred", "run": 2}
    big, small = b"%PDF-1.4 " + b"x" * 3_000_000, b"scan"
    manifest = "".join(f"SHA256 {digest(it)}\nLENGTH {len(it)}\nPLACE {place}\n" for it, place in
                       ((big, "C:\\scans\\../plan 1.pdf"), (small, f"vault:{digest(small)}"), (b"lost", "lost.tif"))).encode()
    with Fake() as fake:
        entries = [fake.record(1, "A", "Gone", None, ended), fake.record(2, "B", "Plan", manifest),
                   fake.record(3, "C", "Here", b"here")]
        fake.close(1, entries)
        fake.answers |= {"/records/2/files/1": (200, big), "/records/2/files/2": (200, small),
                         "/records/2/files/3": (503, b'{"error":"object"}')}
        done = transfer(fake, folder / "gone")
        judge("what is gone makes the status 1, and is named", done.status == 1
              and "record 1, A: transferred by run 2" in done.error and "record 2, B, file 3: the vault lacks it" in done.error,
              done)
        judge("the rest is a whole bag", reader.problems_of(str(folder / "gone")) == [] and sums_agree(folder / "gone"),
              reader.problems_of(str(folder / "gone")))
        names = sorted(it for it in files_in(folder / "gone") if it.startswith("data/"))
        judge("large files lie beside their manifest under names to read", names == [
            "data/000002_B_Plan/0001_plan-1.pdf", "data/000002_B_Plan/0002.txt", "data/000002_B_Plan/manifest.txt",
            "data/000003_C_Here.txt"], names)
        judge("they have their bytes", (folder / "gone" / names[0]).read_bytes() == big
              and (folder / "gone" / names[2]).read_bytes() == manifest)
        lacking = [(it["record"], it["file"]) for it in rows(folder / "gone", "metadata/lacking.csv")]
        judge("the bag says what it lacks", lacking == [("1", "0"), ("2", "3")]
              and [it["path"] for it in rows(folder / "gone", "metadata/files.csv")] == [names[0], names[1], ""], lacking)
        done = transfer(fake, folder / "gone-package", "--form", "eark")
        judge("a package says the same", done.status == 1 and csip.problems_of(str(folder / "gone-package")) == [],
              (done, csip.problems_of(str(folder / "gone-package"))))
        fake.close(1, entries[:1])
        done = transfer(fake, folder / "none")
        judge("of nothing there is no bag", done.status == 1 and not (folder / "none").exists()
              and "transferred by run 2" in done.error, done)


def site(folder: pathlib.Path) -> None:
    """An office behind TLS and a password, as nginx serves it."""
    run("openssl", "req", "-x509", "-newkey", "rsa:2048", "-nodes", "-days", "2", "-subj", "/CN=localhost", "-addext",
        "subjectAltName=DNS:localhost", "-keyout", folder / "key", "-out", folder / "office.crt")
    (folder / "login").write_text("registrar:a long: one\n")
    (folder / "no").write_text("registrar:wrong\n")
    with Fake(login="registrar:a long: one", tls=(str(folder / "office.crt"), str(folder / "key"))) as fake:
        fake.close(1, [fake.record(1, "A", "One", b"one")])
        words = ("--cacert", folder / "office.crt", "--login", folder / "login")
        done = transfer(fake, folder / "bag", *words)
        judge("a bag by TLS and a password, with the catalogue of the site", done.status == 0
              and reader.problems_of(str(folder / "bag")) == []
              and rows(folder / "bag", "metadata/records.csv")[0]["aggregation_ref"] == "MAP/1993", done)
        for name, those in (("without a password", words[:2]), ("with another password", (*words[:3], folder / "no")),
                            ("from a site that nobody vouches for", words[2:])):
            done = transfer(fake, folder / "other", *those)
            judge(f"{name}: no bag, and a sentence", done.status == 3 and "Traceback" not in done.error
                  and not (folder / "other").exists() and "a long" not in done.error, done)
    plain(folder)


def plain(folder: pathlib.Path) -> None:
    """A password goes over http to this machine alone: elsewhere nothing is sent, and a sentence says why."""
    words = (companion("office-transfer"), "1", folder / "plain", "--login", folder / "login", "--office")
    for address in ("http://192.0.2.1", "http://office.example:8081/city", "http://[2001:db8::1]"):
        done = run(*words, address)
        judge(f"a password to {address}: nothing is sent", done.status == 2 and "without TLS" in done.error
              and "a long" not in done.error, done)
    for address in ("http://127.0.0.1:1", "http://localhost:1", "http://[::1]:1"):
        done = run(*words, address)
        judge(f"a password to {address} is this machine's own", done.status == 3 and "does not answer" in done.error, done)
    sys.path[:0] = [str(TOP / "companions/sheets"), str(TOP / "companions")]
    from asking.office import OverHttp
    for address, is_sent in (("http://192.0.2.1", False), ("http://office.example", False), ("https://192.0.2.1", True),
                             ("http://127.0.0.1:1", True), ("http://localhost:1", True)):
        try:
            OverHttp(address, "registrar:a long: one")
            seen = True
        except ValueError as why:
            seen = "without TLS" not in str(why)
        judge(f"the tools that send acts take a password {'to' if is_sent else 'not to'} {address}", seen == is_sent)


def answers(fake: Fake) -> dict[str, Callable[[], object]]:
    """Answers that cannot be true, each as a change of those of a sound office."""
    def put(path: str, status: int, body: bytes) -> Callable[[], object]:
        return lambda: fake.answers.update({path: (status, body)})

    def changed(old: bytes, new: bytes) -> Callable[[], object]:
        return lambda: put("/certificates/1", 200, fake.answers["/certificates/1"][1].replace(old, new))()

    def large(body: bytes, length: int) -> Callable[[], object]:
        manifest = f"SHA256 {digest(b'big')}\nLENGTH 3\nPLACE big.bin\n".encode()
        return lambda: (fake.close(1, [fake.record(1, "A", "One", manifest)]),
                        put("/records/1/files/1", 200, body)(), fake.told.update({"/records/1/files/1": length}))

    return {
        "a content with other bytes": put("/records/1/content", 200, b"eno"),
        "a content that is longer": put("/records/1/content", 200, b"one more"),
        "a content that breaks off": lambda: fake.told.update({"/records/1/content": 9}),
        "a record of another ref": lambda: fake.record(1, "other", "One", b"one"),
        "a content that is gone, of a record that is not ended": put(
            "/records/1/content", 404, b'{"error":"content"}'),
        "a record that is no JSON": put("/records/1", 200, b"{"),
        "a record without a title": put("/records/1", 200, b"{}"),
        "an office that must be opened again": put("/records/1", 503, b'{"fault":32}'),
        "a certificate with another letter": changed(b"M. Vane", b"M. Vate"),
        "a certificate of another run": changed(b"CERTIFICATE 1", b"CERTIFICATE 2"),
        "a run that is not closed": lambda: fake.answers.pop("/certificates/1"),
        "an address that is no office": put("/certificates/1", 404, b'{"error":"path"}'),
        "a large file with other bytes": large(b"bog", 3),
        "a large file that breaks off": large(b"big", 4),
        "a catalogue without the aggregation": put("/catalogue/aggregations.json", 200, b'{"aggregations":[]}'),
    }


def wrong(folder: pathlib.Path) -> None:
    """Answers that cannot be true make no bag, and a sentence."""
    with Fake() as fake:
        for name, change in answers(fake).items():
            fake.told.clear()
            fake.close(1, [fake.record(1, "A", "One", b"one")])
            change()
            done = transfer(fake, folder / "wrong")
            judge(f"{name}: no bag, and a sentence", done.status in (1, 3) and done.error.startswith("office-transfer: ")
                  and "Traceback" not in done.error and not list(folder.iterdir()), done)
    for words, status in ((("0", "x"), 2), (("1",), 2), (("--office", "ftp://x", "1", "x"), 2),
                          (("--office", "http://127.0.0.1:1", "1", folder / "x"), 3), (("1", folder / "no/x"), 3)):
        done = run(companion("office-transfer"), *words)
        judge(f"transfer {' '.join(str(it) for it in words)} ends with {status}", done.status == status, done)
