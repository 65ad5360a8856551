"""Forged seals of somebody who has an old key, or a key of another office, and a stamp of the real authority."""
import datetime
import os
import pathlib
import shutil

import authority
from fake import Fake, digest
from kit.judging import judge
from place import run
from sealing import SEAL, Place, seals_of

NOW = datetime.datetime.now(datetime.timezone.utc).replace(microsecond=0)


def at(**ago: float) -> str:
    """The moment of a seal, so long before now."""
    return f"{NOW - datetime.timedelta(**ago):%Y-%m-%dT%H:%M:%SZ}"


def day_of(**ago: float) -> str:
    """The same moment as a list of signers has it."""
    return f"{NOW - datetime.timedelta(**ago):%Y%m%d%H%M%S}Z"


def forge(place: Place, key: pathlib.Path, moment: str, certificate: int = 0, office: str = "city") -> pathlib.Path:
    """Adds a seal of any moment, as whoever has a key can write it without our program: of the next certificate, else."""
    there = seals_of(place)
    number = len(there) + 1
    body = (place.certificates / f"certificate-{certificate or number}.txt").read_bytes()
    folder = place.seals / f"{number:06}"
    folder.mkdir()
    (folder / f"certificate-{certificate or number}.txt").write_bytes(body)
    before = digest((there[-1] / "seal.txt").read_bytes()) if there else "0" * 64
    (folder / "seal.txt").write_text(f"SEAL {number}\nOFFICE {office}\nCERTIFICATE {certificate or number}\n"
                                     f"SHA256 {digest(body)}\nPREVIOUS {before}\nAT {moment}\nWHY closed\n")
    run("ssh-keygen", "-q", "-Y", "sign", "-f", key, "-n", "office-seal", folder / "seal.txt")
    return folder


def ends(place: Place, name: str, day: str) -> None:
    """The line of a key gets a last moment."""
    public, lines = place.public(place.folder / name), place.signers.read_text().splitlines()
    place.signers.write_text("".join(
        it.replace("city ", f'city valid-before="{day}",', 1) + "\n" if public in it else it + "\n" for it in lines))


def begun(folder: pathlib.Path, fake: Fake) -> tuple[Place, pathlib.Path]:
    """A chain of two honest seals by a key that has ended since and by the one that followed it."""
    place = Place(folder, fake)
    second = place.new_key("second")
    place.close(4)
    place.fetch()
    forge(place, place.key, at(days=700))
    forge(place, second, at(days=400))
    ends(place, "first", day_of(days=365))
    return place, second


def clocks(folder: pathlib.Path) -> None:
    """Seals whose moment is put back, or is in the days of a key that another one followed."""
    with Fake() as fake:
        place, second = begun(folder, fake)
        done = place.verify()
        judge("a key that ended, and the one that followed it: both seals are good", done.status == 0
              and "wrong: 0; office: city; last seal: 2" in done.out, done)
        old = forge(place, place.key, at(days=600))
        done = place.verify()
        judge("a seal by a key that has ended, its moment put back, is reported", done.status == 1
              and "WRONG: 000003: AT " in done.out and "is before" in done.out, done)
        shutil.rmtree(old)
        back = forge(place, place.key, at(days=390))
        done = place.verify()
        judge("so is a key that has ended and comes again within its days, after a seal of another key",
              done.status == 1 and "has ended, and signs again after a seal of another key" in done.out
              and "wrong: 1" in done.out, done)
        shutil.rmtree(back)
        forge(place, second, at(days=390))
        judge("the key that followed it goes on", place.verify().status == 0)
        odd = forge(place, second, "2026-02-31T00:00:00Z")
        done = place.verify()
        judge("a moment that no calendar has is reported", done.status == 1 and "is no moment" in done.out, done)
        shutil.rmtree(odd)
        done = run(SEAL, "sign", "--name", "city", "--key", second, place.certificates, place.seals)
        judge("the program goes on in such a chain", done.out == "seals: 1\n" and place.verify().status == 0, done)


def strangers(folder: pathlib.Path) -> None:
    """A seal of another office, and a second text of one certificate."""
    with Fake() as fake:
        place = Place(folder, fake)
        court = place.new_key("court")
        place.signers.write_text(place.signers.read_text() + f'court namespaces="office-seal" {place.public(court)}\n')
        place.close(3)
        place.fetch()
        forge(place, place.key, at(days=3))
        other = forge(place, court, at(days=2), office="court")
        done = place.verify()
        judge("the seal of another office is reported, by its own key too", done.status == 1
              and "WRONG: 000002: the seal is of the office court, and not of city" in done.out, done)
        shutil.rmtree(other)
        done = place.verify("--office-name", "court")
        judge("a whole chain of another office is reported to whoever names his own", done.status == 1
              and "000001: the seal is of the office city, and not of court" in done.out, done)
        judge("the right name passes, and the last line has it", place.verify("--office-name", "city").status == 0
              and "office: city; " in place.verify().out)
        text = place.certificates / "certificate-1.txt"
        text.write_bytes(text.read_bytes().replace(b"M. Vane", b"N. Vane", 1)[:-72])
        text.write_bytes(text.read_bytes() + f"SHA256 {digest(text.read_bytes())}\n".encode())
        forge(place, place.key, at(days=1), certificate=1)
        done = place.verify("--quiet")
        judge("a second text of a certificate is wrong, also where nothing else is printed", done.status == 1
              and "WRONG: certificate 1 has 2 texts, the last is " in done.out, done)
        judge("unless the auditor names its number", place.verify("--restored", "1").status == 0
              and place.verify("--restored", "2").status == 1)
        raw(place)


def raw(place: Place) -> None:
    """Bytes after a signature, and names that a terminal would obey."""
    signature = place.seals / "000001/seal.txt.sig"
    whole = signature.read_bytes()
    for name, data in (("a byte", whole + b"x"), ("a line", whole + b"# note\n"), ("a second signature", whole + whole),
                       ("a line before", b"\n" + whole), ("a comment within", whole.replace(b"\n", b"\nVersion: 1\n\n", 1))):
        signature.write_bytes(data)
        done = place.verify("--restored", "1")
        judge(f"a file of a signature with {name} is reported", done.status == 1
              and "000001: the signature is not of this seal" in done.out, done)
    signature.write_bytes(whole)
    (place.seals / "000003\x1b[2J\u202e\u009b\nnote: all is well").mkdir()
    done = place.verify("--restored", "1")
    shown = "WRONG: 000003\\x1b[2J\\u202e\\x9b\\nnote: all is well: there is no seal"
    judge("a name is printed without what a terminal obeys", done.status == 1 and shown in done.out
          and "\x1b" not in done.out and not [it for it in done.out.splitlines() if it.startswith("note: all")], done)


def stamped(folder: pathlib.Path) -> None:
    """The moment of the stamp decides, and the moment of the seal must be near it."""
    with Fake() as fake, authority.Authority(folder / "authority") as one:
        place = Place(folder, fake)
        place.close(3)
        place.fetch()
        trusted = ("--authority", one.certificate)

        def stamp() -> None:
            done = run(SEAL, "stamp", "--name", "city", "--url", one.url, "--ca", one.certificate, place.seals)
            judge("the authority stamps it", done.status == 0, done)

        first = forge(place, place.key, at(hours=20))
        ends(place, "first", day_of(hours=10))
        stamp()
        judge("a seal that was stamped after the last moment of its key passes by its own moment alone",
              place.verify().status == 0)
        done = place.verify(*trusted)
        judge("with the authority it is reported", done.status == 1 and "may not sign for city at" in done.out
              and "wrong: 1" in done.out, done)
        shutil.rmtree(first)
        place.signers.write_text("")
        place.key = place.new_key("third")
        forge(place, place.key, at(days=3))
        stamp()
        done = place.verify(*trusted)
        judge("a seal whose moment is more than a day before its stamp is reported", done.status == 1
              and "000001: AT " in done.out and "is more than a day from its stamp" in done.out, done)
        done = place.verify(*trusted, "--late", "1")
        judge("unless the auditor knows that this stamp came late", done.status == 0 and "stamped: 1" in done.out, done)
        forge(place, place.key, at(days=-2))
        stamp()
        done = place.verify(*trusted, "--late", "1", "--late", "2")
        judge("one whose moment is after its stamp is reported in any case", done.status == 1
              and "000002: AT " in done.out and "wrong: 1" in done.out, done)


def ended(folder: pathlib.Path) -> None:
    """The certificate of the authority ends: its stamps are unproved from then on, and not another's."""
    with Fake() as fake, authority.Authority(folder / "authority") as one, authority.Authority(folder / "other") as other:
        place = Place(folder, fake)
        place.close(2)
        place.fetch()
        place.sign()
        run(SEAL, "stamp", "--name", "city", "--url", one.url, "--ca", one.certificate, place.seals)
        week = lambda *words: place.verify(*words, clock="+7 days")  # noqa: E731
        done = place.verify("--authority", one.certificate)
        judge("two stamps of an authority whose certificate is good for two days", done.status == 0
              and "stamped: 2, expired: 0, wrong: 0" in done.out, done)
        done = week("--authority", one.certificate)
        day = f"{NOW + datetime.timedelta(days=2):%Y-%m-%d}"
        judge("a week on they are counted apart", done.status == 0 and "stamped: 0, expired: 2, wrong: 0" in done.out, done)
        judge("and it says since which day they prove nothing", done.out.count(
            f"the authority's certificate ended on {day}; unproved from then on unless renewed") == 2
            and "WRONG" not in done.out, done)
        done = week("--authority", other.certificate)
        judge("another authority stays wrong then", done.status == 1 and done.out.count("000001: the time stamp is not") == 1, done)
        shutil.copy(place.seals / "000002/seal.txt.tsr", place.seals / "000001/seal.txt.tsr")
        done = week("--authority", one.certificate)
        judge("and so does the stamp of another signature", done.status == 1 and "expired: 1, wrong: 1" in done.out, done)
        shutil.rmtree(place.seals / "000002")
        shutil.rmtree(place.seals / "000001")
        again(place, one, week)


def again(place: Place, one: authority.Authority, week: object) -> None:
    """A key that has ended comes again, with a stamp: it counts as long as the stamp proves its moment."""
    second = place.new_key("second")
    ends(place, "first", day_of(days=-1))
    for key in (place.key, second, place.key):
        forge(place, key, at(minutes=5), certificate=1)
    run(SEAL, "stamp", "--name", "city", "--url", one.url, "--ca", one.certificate, place.seals)
    done = place.verify("--authority", one.certificate)
    judge("a key within its days may come again", done.status == 0, done)
    done = week("--authority", one.certificate)
    judge("once neither the key nor the authority counts it may not", done.status == 1
          and "000003: the key" in done.out and "has ended, and signs again" in done.out, done)


def lost(folder: pathlib.Path) -> None:
    """The key is lost, a certificate waits for its seal, or the clock goes back: somebody gets to know."""
    with Fake() as fake:
        place = Place(folder, fake)
        place.close(1)
        place.fetch()
        aside = place.key.rename(place.folder / "aside")
        done = place.sign()
        judge("without a key no first seal is made", done.status == 2 and "there is no key" in done.error, done)
        aside.rename(place.key)
        place.sign()
        place.key.rename(aside)
        for name, text in (("no file", ""), ("the file that the unit gives then", "lost")):
            place.key.write_text(text) if text else None
            done = place.sign()
            judge(f"an office that has seals and {name} for a key fails, and says where to read on", done.status == 2
                  and "the key is lost, and nothing follows seal 1: EVIDENCE.md, Keys" in done.error, done)
        aside.rename(place.key)
        place.close(2)
        judge("a new certificate may wait for its seal", place.fetch(seals=place.seals).out == "certificates: 1\n")
        old = NOW.timestamp() - 100_000
        os.utime(place.certificates / "certificate-2.txt", (old, old))
        done = place.fetch(seals=place.seals)
        judge("one that waits for more than a day is reported", done.status == 1
              and "certificate 2 is here for more than a day and has no seal (1 in all)" in done.error, done)
        judge("not in an office that never sealed", place.fetch(seals=place.folder / "nowhere").status == 0)
        judge("nor once it is sealed", place.sign().out == "seals: 1\n" and place.fetch(seals=place.seals).status == 0)
        place.close(3)
        place.fetch()
        words = (SEAL, "sign", "--name", "city", "--key", place.key, place.certificates, place.seals)
        done = run("faketime", "-f", "-2 days", *words)
        judge("a clock that went back seals nothing", done.status == 3 and "set the clock" in done.error
              and len(seals_of(place)) == 2, done)
        done = run("faketime", "-f", "-2 days", *words, "--clock-was-wrong")
        seen = place.verify()
        judge("unless somebody knows of it, and the auditor gets to know too", done.out == "seals: 1\n" and seen.status == 1
              and "WRONG: 000003: AT " in seen.out and "wrong: 1" in seen.out, seen)
