"""Renewals of time stamps, by clocks of the years to come: in time, missed, late, revoked, changed, forged and weak."""
import contextlib
import pathlib
import random
import shutil
from collections.abc import Iterator

import authority
from authority import Authority
from fake import Fake
from kit.judging import judge
from place import Done, run
from sealing import SEAL, VERIFY, Place
from verdicts import FORGED, last_day, seal_at, stamp, words_of

YEAR = 365
LIST = "SHA512SUMS"


class Archive(Place):
    """An office over years: a new authority every two years, each good for three, and all known to the auditor."""

    def __init__(self, folder: pathlib.Path, fake: Fake, count: int, digest: str = "sha256") -> None:
        super().__init__(folder, fake)
        self.close(9)
        self.fetch()
        self.authorities = [Authority(folder / f"authority{turn}", 3 * YEAR, f"+{2 * turn * YEAR}d", digest)
                            for turn in range(count)]
        self.trusted = folder / "authorities"
        self.trusted.write_text("".join(one.certificate.read_text() for one in self.authorities))

    def of(self, day: int) -> Authority:
        """Returns the authority that stamps on a day."""
        return self.authorities[min(day // (2 * YEAR), len(self.authorities) - 1)]

    def seal(self, day: int) -> None:
        """Adds a seal with its stamp."""
        seal_at(self, self.key, day)
        stamp(self, self.of(day), f"+{day}d")

    def renew(self, day: int, *options: object, one: Authority | None = None) -> Done:
        """Renews the stamps on a day."""
        by = one or self.of(day)
        by.clock = f"+{day}d"
        return run("faketime", "-f", by.clock, SEAL, "renew", "--name", "city", "--url", by.url, "--ca", self.trusted, *options,
                   self.seals)

    def look(self, name: str, day: int, expected: dict[str, str], *options: object) -> None:
        """Judges the words of office-verify on a day: none, or since when seals are unproved."""
        done = self.verify("--strict", "--authority", self.trusted, *options, clock=f"+{day}d")
        judge(f"{name}: {expected or 'no word'}", words_of(done) == expected and done.status == (4 if expected else 0)
              and "WRONG" not in done.out, done)


@contextlib.contextmanager
def archive(folder: pathlib.Path, count: int, digest: str = "sha256") -> Iterator[Archive]:
    """Begins an office whose authorities answer."""
    with Fake() as fake, contextlib.ExitStack() as stack:
        place = Archive(folder, fake, count, digest)
        for one in place.authorities:
            stack.enter_context(one)
        yield place


def renewed(folder: pathlib.Path) -> None:
    """Stamps are renewed in time, again and again: each is good for as long as that goes on."""
    with archive(folder, 4) as place:
        judge("an office without a seal has nothing to renew", place.renew(0).out == "renewals: 0\n")
        place.seal(1)
        place.seal(40)
        judge("new stamps need no renewal", place.renew(60).out == "renewals: 0\n")
        done = place.renew(800, one=place.authorities[0])
        judge("an authority whose certificate ends no later is of no use", done.out == "renewals: 0\n"
              and not list(place.seals.glob("renewed/*")), done)
        done = place.renew(1050, one=place.authorities[0])
        judge("shortly before the end somebody gets to know", done.status == 3 and "ends no later" in done.error, done)
        before = {file: file.read_bytes() for file in place.seals.glob("0*/*")}
        judge("the next authority renews", place.renew(800).out == "renewals: 1\n")
        judge("and again: none", place.renew(801).out == "renewals: 0\n")
        place.look("after the first authority has ended", 1200, {})
        place.seal(1300)
        judge("two years on the next one renews", place.renew(1600).out == "renewals: 1\n")
        judge("and two years on the next", place.renew(2300).out == "renewals: 1\n")
        done = place.verify("--authority", place.trusted, clock="+2400d")
        judge("six and a half years on each stamp and each renewal is good", done.status == 0 and "stamped: 3, expired: 0, renewals: 3, wrong: 0" in done.out
              and done.out.count("had renewed it by then") == 3 and "renewed/0003: 16 files" in done.out, done)
        judge("a renewal changes no file", all(file.read_bytes() == data for file, data in before.items()))
        by_hand(place)
        ends = [last_day(one) for one in place.authorities]
        place.look("after the last one has ended all are unproved since then", 3400, {f"unproved since {ends[3]}": "000001 to 000003"})
        shutil.rmtree(place.seals / "renewed/0003")
        place.look("without the last renewal, since the one before", 2700, {f"unproved since {ends[2]}": "000001 to 000003"})
        shutil.rmtree(place.seals / "renewed")
        place.look("without any, each since its own end", 2700, {f"unproved since {ends[0]}": "000001, 000002",
                                                                 f"unproved since {ends[1]}": "000003"})


def by_hand(place: Archive) -> None:
    """What an expert does without our command, and with a copy of nothing but the verifier."""
    done = run("sh", "-c", f"cd {place.seals} && sha512sum --quiet -c renewed/*/{LIST}")
    judge("sha512sum compares each list", done.status == 0, done)
    for name in ("0001", "0002", "0003"):
        at = place.seals / "renewed" / name
        done = run("faketime", "-f", "+2400d", "openssl", "ts", "-verify", "-data", at / LIST, "-in", at / f"{LIST}.tsr",
                   "-CAfile", place.trusted, "-no_check_time")
        judge(f"openssl verifies the stamp of list {name}", "Verification: OK" in done.out, done)
    alone = place.folder / "alone"
    (alone / "transferring").mkdir(parents=True)
    shutil.copy(VERIFY, alone)
    shutil.copy(VERIFY.parent / "transferring/__init__.py", alone / "transferring")
    shutil.copytree(VERIFY.parent / "transferring/verifying", alone / "transferring/verifying")
    done = run("faketime", "-f", "+2400d", alone / "office-verify", place.seals, place.signers)
    judge("the verifier needs nothing else of ours", done.status == 0 and "renewals: 3" in done.out, done)


def missed(folder: pathlib.Path) -> None:
    """One renewal is missed, and one comes late: what was not covered in time stays unproved, what came later is good."""
    with archive(folder, 4) as place:
        ends = [last_day(one) for one in place.authorities]
        place.seal(1)
        done = place.renew(1200)
        judge("a renewal after the end of the stamp is reported", done.status == 1 and "renewals: 1, but " in done.error
              and f"000001/seal.txt.tsr: its authority's certificate ended on {ends[0]}" in done.error, done)
        judge("once", place.renew(1201).out == "renewals: 0\n")
        place.look("late: the seal is unproved since the end of its authority", 1300, {f"unproved since {ends[0]}": "000001"})
        place.seal(1300)
        judge("the next one is in time", place.renew(1600).out == "renewals: 1\n")
        place.look("and covers what it finds good", 2000, {f"unproved since {ends[0]}": "000001"})
        done = place.renew(2800)
        judge("then one is missed: nobody renews before the authority of the last one ends", done.status == 1
              and f"renewed/0002/{LIST}.tsr: its authority's certificate ended on {ends[2]}" in done.error, done)
        place.seal(2850)
        place.look("each is unproved since what covered it in time has ended", 2900, {
            f"unproved since {ends[0]}": "000001", f"unproved since {ends[2]}": "000002"})
        thief(place, ends)


def thief(place: Archive, ends: list[str]) -> None:
    """Whoever has the keys of an authority that has ended cannot renew into the past."""
    first, expected = place.authorities[0], {f"unproved since {ends[0]}": "000001, 000004", f"unproved since {ends[2]}": "000002"}
    seal_at(place, place.key, 2850)
    stamp(place, first, "+30d")
    shutil.copytree(place.seals / "renewed/0003", place.seals / "renewed/0004")
    forged = place.seals / "renewed/0004"
    names = [name for name in sorted(place.seals.rglob("*")) if name.is_file() and forged not in name.parents]
    (forged / LIST).write_text(run("sh", "-c", f"cd {place.seals} && sha512sum " + " ".join(
        str(name.relative_to(place.seals)) for name in names)).out)
    first.clock = "+700d"
    first.openssl("ts", "-query", "-data", str(forged / LIST), "-sha512", "-cert", "-out", str(place.folder / "query"))
    (forged / f"{LIST}.tsr").write_bytes(first.reply((place.folder / "query").read_bytes()))
    done = place.verify("--authority", place.trusted, clock="+2900d")
    judge("a renewal by an authority that has ended proves nothing for longer", done.status == 1
          and words_of(done) == expected, done)


def revoked(folder: pathlib.Path) -> None:
    """An authority is revoked, and a digest is weak: what was renewed before that stays good."""
    with archive(folder, 3) as place:
        place.seal(1)
        place.renew(800)
        place.seal(900)
        place.renew(1500, "--now")
        one = place.of(900)
        seal_at(place, place.key, 1510)
        stamp(place, one, "+1510d")
        place.look("two stamps of an authority are renewed before it is revoked, one is not", 1700, {})
        crl = one.revoke("+1600d", "-crl_reason", "keyCompromise")
        day = run("faketime", "-f", "+1600d", "date", "-u", "+%Y-%m-%d").out.strip()
        place.look("its key was stolen: what nobody renewed by then is unproved", 1700, {f"unproved since {day}": "000003"},
                   "--revoked", crl)
        place.look("before that day nothing is", 1590, {}, "--revoked", crl)
        crl = one.revoke("+1600d")
        place.look("so it is if no reason is known", 1700, {f"unproved since {day}": "000003"}, "--revoked", crl)
        crl = one.revoke("+1600d", "-crl_reason", "superseded")
        place.look("it was replaced: its stamps stay good", 1700, {}, "--revoked", crl)
        crl = one.revoke("+1505d", "-crl_reason", "superseded")
        done = place.verify("--authority", place.trusted, "--revoked", crl, clock="+1700d")
        judge("a stamp from after that day is wrong", done.status == 1 and "WRONG: 000003: the authority was revoked on " in done.out
              and "wrong: 1" in done.out, done)
        other = authority.Authority(folder / "other")
        done = place.verify("--authority", place.trusted, "--revoked", other.revoke(""), clock="+1700d")
        judge("a list of somebody else is refused", done.status == 2 and "is no list of revoked" in done.error, done)
        judge("without the authority too", place.verify("--revoked", crl).status == 2)


def weak(folder: pathlib.Path) -> None:
    """SHA-256 is weak from a day on: stamps and seals that a list by SHA-512 covers by then stay good."""
    with archive(folder, 2, "sha512") as place:
        one = place.of(1)
        for day in (1, 3):
            seal_at(place, place.key, day)
            one.clock = f"+{day}d"
            run("faketime", "-f", one.clock, SEAL, "stamp", "--name", "city", "--url", one.url, "--ca", place.trusted, "--digest",
                "sha256", place.seals)
            judge("the stamp is by SHA-256", "Hash Algorithm: sha256" in run(
                "openssl", "ts", "-reply", "-in", place.seals / f"00000{1 + day // 3}/seal.txt.tsr", "-text").out)
            if day == 1:
                judge("an office that wants no more than that has nothing to renew",
                      place.renew(2, "--digest", "sha256").out == "renewals: 0\n")
                judge("one that wants SHA-512 renews, though the authority's certificate ends no later",
                      place.renew(2).out == "renewals: 1\n")
                judge("once", place.renew(2).out == "renewals: 0\n")
        day = run("faketime", "-f", "+100d", "date", "-u", "+%Y-%m-%d").out.strip()
        place.seal(4)
        place.look("nothing is weak", 200, {})
        place.look("nor is it before the day", 50, {}, "--weak", f"sha256={day}")
        place.look("what no list covers is unproved since", 200, {f"unproved since {day}": "000002, 000003"},
                   "--weak", f"SHA-256={day}")
        early = run("faketime", "-f", "+1d", "date", "-u", "+%Y-%m-%d").out.strip()
        place.look("a list that came after the day covers nothing", 200, {f"unproved since {early}": "000001 to 000003"},
                   "--weak", f"sha256={early}")
        shutil.rmtree(place.seals / "renewed")
        place.renew(5, "--now", "--digest", "sha256")
        place.look("a list whose own stamp is by SHA-256 does not help", 200, {f"unproved since {day}": "000001 to 000003"},
                   "--weak", f"sha256={day}")
        judge("a day that no calendar has is refused", place.verify("--authority", place.trusted, "--weak", "sha256=x").status == 2)


def changed(folder: pathlib.Path) -> None:
    """A byte of each file is changed, and each file is lost: the auditor sees it, and nobody renews over it."""
    rng, silent, renewals = random.Random(5), [], []
    with archive(folder, 2) as place:
        place.seal(1)
        place.renew(800)
        place.seal(900)
        place.renew(1000, "--now")
        listed = {name for line in (place.seals / "renewed/0002" / LIST).read_text().splitlines() for name in [line[130:]]}
        judge("a list has each file of the seals and of the renewals before", listed == {
            *(f"00000{at}/{name}" for at in (1, 2) for name in (f"certificate-{at}.txt", "seal.txt", "seal.txt.sig", "seal.txt.tsr")),
            f"renewed/0001/{LIST}", f"renewed/0001/{LIST}.tsr"}, listed)
        files = sorted(file for file in place.seals.rglob("*") if file.is_file())
        for file in files:
            data, name = file.read_bytes(), file.relative_to(place.seals).as_posix()
            spot = rng.randrange(len(data))
            file.write_bytes(data[:spot] + bytes([data[spot] ^ 1]) + data[spot + 1:])
            done = place.verify("--authority", place.trusted, clock="+1010d")
            # no authority signs what lies around its words, and no renewal follows that lists this one
            is_own = name == f"renewed/0002/{LIST}.tsr"
            if FORGED not in words_of(done) and not is_own:
                silent.append((name, spot, done))
            if name in listed:
                renewals.append(place.renew(1020).status == 1)
            file.unlink()
            done = place.verify("--authority", place.trusted, clock="+1010d")
            if done.status != 1:
                silent.append((name, "lost", done))
            file.write_bytes(data)
        judge(f"{len(files)} changes of one byte, and {len(files)} files that are lost, are seen", not silent, silent[:2])
        judge("nothing is renewed over a file that was changed", len(renewals) == len(listed) and all(renewals))
        for name in (LIST, f"{LIST}.tsr"):
            lost = (place.seals / "renewed/0002" / name).rename(place.folder / "lost")
            done = place.verify(clock="+1010d")
            judge(f"without the authority a renewal that lacks its {name} is reported", done.status == 1
                  and f"WRONG: renewed/0002: {name} is missing" in done.out and "wrong: 1" in done.out, done)
            lost.rename(place.seals / "renewed/0002" / name)
        shutil.move(place.seals / "renewed/0001", place.folder)
        done = place.verify()
        judge("a renewal that is missing is reported", done.status == 1 and "renewed/0002: renewal 1 is missing" in done.out, done)
        judge("and no other follows", place.renew(1020).status == 1)
        shutil.move(place.folder / "0001", place.seals / "renewed")
        place.look("the whole folder is good", 1010, {})
        shutil.copy(place.seals / "000001/seal.txt.tsr", place.seals / "000002/seal.txt.tsr")
        shutil.rmtree(place.seals / "renewed/0002")
        done = place.renew(1020, "--now")
        judge("a stamp that is not good is not renewed, and somebody gets to know", done.status == 1
              and "renewals: 1, but 000002/seal.txt.tsr: it does not verify by" in done.error
              and "000002/seal.txt.tsr" not in (place.seals / "renewed/0002" / LIST).read_text(), done)


def decades(folder: pathlib.Path) -> None:
    """Thirty years of seals, with a new authority every two years, each good for three."""
    with archive(folder, 15) as place:
        for year in range(0, 30, 2):
            if year < 18:
                place.seal(year * YEAR + 20)
            done = place.renew(year * YEAR + 30)
            judge(f"year {year}: renewed", done.out == f"renewals: {int(year > 0)}\n", done)
        place.look("thirty years on each stamp is good", 30 * YEAR, {})
