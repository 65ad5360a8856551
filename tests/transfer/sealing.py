"""Seals of certificates: what is good verifies, and each change, each withdrawn key and each forgery is told."""
import pathlib
import random
import shutil
import signal
import subprocess
import time
from collections.abc import Callable

import authority
from fake import Fake, certificate, digest
from kit.companions import companion
from kit.judging import judge
from kit.waiting import next_second
from place import Done, run

SEAL, VERIFY = companion("office-seal"), companion("office-verify")
KILLS = 25


class Place:
    """An office's certificates, seals, keys and signers in a folder."""

    def __init__(self, folder: pathlib.Path, fake: Fake) -> None:
        self.folder, self.fake = folder, fake
        self.certificates, self.seals = folder / "certificates", folder / "seals"
        self.signers, self.withdrawn = folder / "signers", folder / "withdrawn"
        self.certificates.mkdir(parents=True)
        self.seals.mkdir()
        self.withdrawn.write_text("")
        self.key = self.new_key("first")

    def new_key(self, name: str, days: str = "") -> pathlib.Path:
        """Makes a key and lets it sign."""
        file = self.folder / name
        run("ssh-keygen", "-q", "-t", "ed25519", "-N", "", "-C", name, "-f", file)
        with self.signers.open("a") as lines:
            lines.write(f'city {days}namespaces="office-seal" {self.public(file)}\n')
        return file

    def public(self, key: pathlib.Path) -> str:
        return " ".join(pathlib.Path(f"{key}.pub").read_text().split()[:2])

    def fetch(self, *words: str, seals: pathlib.Path | None = None) -> Done:
        return run(SEAL, "fetch", *words, self.fake.address.rpartition(":")[2], self.certificates, *([seals] if seals else []))

    def sign(self, *words: object, key: pathlib.Path | None = None) -> Done:
        return run(SEAL, "sign", "--name", "city", "--key", key or self.key, *words, self.certificates, self.seals)

    def verify(self, *words: object, clock: str = "") -> Done:
        """Verifies the seals, as somebody does whose clock is as given."""
        return run(*(["faketime", "-f", clock] if clock else []), VERIFY, self.seals, self.signers, *words)

    def close(self, runs: int) -> None:
        """The office closes runs up to this number."""
        for number in range(1, runs + 1):
            self.fake.answers.setdefault(f"/certificates/{number}", (200, certificate(
                number, [(number, "sent", f"r{number}", 3, digest(b"one"))])))


def seals_of(place: Place) -> list[pathlib.Path]:
    return sorted(place.seals.glob("[0-9]*"))


def seals(folder: pathlib.Path) -> None:
    """Three certificates are sealed, one after another; each change of one byte is told."""
    with Fake() as fake:
        place = Place(folder, fake)
        judge("an office without a run: nothing to fetch and to seal", place.fetch().out == "certificates: 0\n"
              and place.sign().out == "seals: 0\n")
        place.close(2)
        judge("two runs closed: two certificates and two seals", place.fetch().out == "certificates: 2\n"
              and place.sign().out == "seals: 2\n")
        place.close(3)
        judge("one more: one more", (place.fetch().out, place.sign().out) == ("certificates: 1\n", "seals: 1\n"))
        judge("again: none", (place.fetch().out, place.sign().out) == ("certificates: 0\n", "seals: 0\n"))
        done = place.verify("--office", fake.address)
        judge("all three verify, also against the office", done.status == 0 and "seals: 3, certificates: 3, wrong: 0" in done.out,
              done)
        alone = by_ssh_keygen_alone(place)
        judge("ssh-keygen and sha256sum alone verify them too", all(alone), alone)
        changes(place)
        of_the_office(place, fake)


def by_ssh_keygen_alone(place: Place) -> list[bool]:
    """What an auditor does without our command."""
    found = []
    for it in sorted(place.seals.iterdir()):
        with (it / "seal.txt").open("rb") as text:
            done = subprocess.run(["ssh-keygen", "-Y", "verify", "-f", place.signers, "-I", "city", "-n", "office-seal",
                                   "-s", it / "seal.txt.sig"], stdin=text, capture_output=True)
        total = run("sha256sum", next(it.glob("certificate-*.txt"))).out[:64]
        found.append(done.returncode == 0 and f"SHA256 {total}\n" in (it / "seal.txt").read_text())
    return found


def bytes_of(place: Place) -> None:
    """One byte of a certificate, a seal or a signature is changed, at places by chance."""
    rng, silent = random.Random(7), 0
    for name in ("certificate-2.txt", "seal.txt", "seal.txt.sig"):
        file = place.seals / "000002" / name
        data = file.read_bytes()
        for at in sorted(rng.sample(range(len(data)), 12)):
            file.write_bytes(data[:at] + bytes([data[at] ^ 1]) + data[at + 1:])
            silent += place.verify().status != 1
        file.write_bytes(data)
    judge("36 changes of one byte of a certificate, a seal and a signature are all refused", silent == 0, silent)


def changes(place: Place) -> None:
    """Changes of a seal and of its certificate; folders that lack or are swapped."""
    whole = place.folder / "whole"
    shutil.copytree(place.seals, whole)
    bytes_of(place)

    def told(name: str, change: Callable[[], None], what: str) -> None:
        change()
        done = place.verify()
        judge(f"{name}: {what}", done.status == 1 and what in done.out, done)
        shutil.rmtree(place.seals)
        shutil.copytree(whole, place.seals)

    seal = place.seals / "000002"
    text = seal / "certificate-2.txt"
    told("a letter of a certificate", lambda: (text.write_bytes(text.read_bytes().replace(b"Vane", b"Vale")), None)[1],
         "000002: certificate-2.txt was changed after it was sealed")
    told("a certificate that is gone", text.unlink, "certificate-2.txt is missing")
    told("a seal that is gone", lambda: shutil.rmtree(seal), "seal 2 is missing")
    told("the signature of another seal", lambda: (shutil.copy(place.seals / "000003/seal.txt.sig", seal), None)[1],
         "000002: the signature is not of this seal")
    told("two seals that are swapped", lambda: ((place.seals / "000003").rename(place.seals / "x"),
                                                seal.rename(place.seals / "000003"),
                                                (place.seals / "x").rename(place.seals / "000002"), None)[3],
         "the chain is broken")
    other = place.folder / "other"
    other.mkdir()
    next_second()
    run(SEAL, "sign", "--name", "city", "--key", place.key, place.certificates, other)
    told("a good seal of another chain", lambda: (shutil.rmtree(seal), shutil.copytree(other / "000002", seal), None)[2],
         "000002: the chain is broken: it does not follow the seal before it")
    shutil.rmtree(place.seals / "000003")
    done = place.verify()
    judge("the last seal may be cut off unseen, but the last line says which is the last", done.status == 0
          and "last seal: 2, SHA-256 " in done.out, done)
    done = place.verify("--office", place.fake.address)
    judge("with the office it is seen", done.status == 1 and "certificate 3 of the office is not sealed" in done.out, done)
    shutil.copytree(whole / "000003", place.seals / "000003")


def of_the_office(place: Place, fake: Fake) -> None:
    """The office gives another certificate than the sealed one: it is told, and sealed only with the word for it."""
    good = fake.answers["/certificates/3"]
    body = good[1][:-72].replace(b"\tr3\t", b"\trX\t")
    fake.answers["/certificates/3"] = (200, body + f"SHA256 {digest(body)}\n".encode())
    done, seen = place.fetch(), place.verify("--office", fake.address)
    judge("another certificate of a known number is not fetched", done.status == 1 and "another certificate 3" in done.error, done)
    judge("the auditor sees it", seen.status == 1 and "certificate 3 of the office is not the sealed one" in seen.out, seen)
    (place.certificates / "certificate-3.txt").write_bytes(body)
    done = place.sign()
    judge("nor is it sealed", done.status == 1 and "sealed with another text" in done.error, done)
    (place.certificates / "certificate-3.txt").write_bytes(good[1])
    fake.answers.pop("/certificates/3")
    done = place.fetch()
    judge("a certificate that the office has no more is told", done.status == 1, done)
    judge("with the word for a restore it is taken out", place.fetch("--restored").status == 0
          and not (place.certificates / "certificate-3.txt").exists())
    fake.answers["/certificates/3"] = (200, body + f"SHA256 {digest(body)}\n".encode())
    judge("the run that comes next is fetched", place.fetch().out == "certificates: 1\n")
    judge("and sealed only with the word", place.sign().status == 1 and place.sign("--restored").out == "seals: 1\n")
    done = place.verify("--office", fake.address)
    judge("both texts are wrong to an auditor who knows of no restore", done.status == 1
          and "WRONG: certificate 3 has 2 texts" in done.out, done)
    done = place.verify("--office", fake.address, "--restored", "3")
    judge("and a note to one who does", done.status == 0 and "note: certificate 3 has 2 texts" in done.out
          and "sealed again with another text after a backup was restored" in done.out, done)


def keys(folder: pathlib.Path) -> None:
    """A key is changed, and one is withdrawn."""
    with Fake() as fake:
        place = Place(folder, fake)
        place.close(2)
        place.fetch()
        place.sign()
        second = place.new_key("second", 'valid-after="20200101",')
        place.close(3)
        place.fetch()
        judge("a new key signs what comes next", place.sign(key=second).out == "seals: 1\n" and place.verify().status == 0)
        place.withdrawn.write_text(place.public(place.key) + "\n")
        done = place.verify("--withdrawn", place.withdrawn)
        judge("a key that was withdrawn is told, for each of its seals", done.status == 1
              and done.out.count("is signed by a key that was withdrawn") == 2 and "WRONG: 000003" not in done.out, done)
        kept = place.certificates / "certificate-2.txt"
        text = kept.read_bytes()
        kept.unlink()
        done = place.sign("--withdrawn", place.withdrawn, key=second)
        judge("a text that is in the seals alone is not signed again", done.out == "seals: 1\n", done)
        kept.write_bytes(text)
        done = place.sign("--withdrawn", place.withdrawn, key=second)
        judge("the new key signs the others again", done.out == "seals: 1\n", done)
        done = place.verify("--withdrawn", place.withdrawn)
        judge("then all verify, and the withdrawn key is still told", done.status == 0 and "seals: 5, certificates: 3" in done.out
              and done.out.count("note: 00000") == 4, done)
        judge("and again: none", place.sign("--withdrawn", place.withdrawn, key=second).out == "seals: 0\n")
        place.close(4)
        place.fetch()
        judge("the next certificate follows", place.sign(key=second).out == "seals: 1\n")
        lines = place.signers.read_text().splitlines()
        past = lines[0].replace("city ", 'city valid-before="20200101",')
        place.signers.write_text(f"{past}\n{lines[1]}\n")
        done = place.verify()
        judge("a seal from after the last day of its key is told", done.status == 1 and "000001: the key " in done.out
              and "may not sign for city" in done.out and "000003: the key" not in done.out
              and "invalid key" not in done.out, done)
        stopped(place, second)


def stopped(place: Place, key: pathlib.Path) -> None:
    """SIGKILL of the signer at random moments leaves whole seals alone, and none twice."""
    rng, count = random.Random(3), 40
    place.close(count)
    place.fetch()
    words = [str(SEAL), "sign", "--name", "city", "--key", str(key), str(place.certificates), str(place.seals)]
    bad, middle = 0, 0
    for _ in range(KILLS):
        process = subprocess.Popen(words, stdout=subprocess.DEVNULL, stderr=subprocess.DEVNULL)
        time.sleep(rng.uniform(0.05, 0.6))
        process.send_signal(signal.SIGKILL)
        middle += process.wait() == -signal.SIGKILL
        there = [it for it in place.seals.iterdir() if it.name != ".new"]
        bad += any(sorted(it.name.partition("-")[0] for it in seal.iterdir()) != ["certificate", "seal.txt", "seal.txt.sig"]
                   for seal in there)
    done = place.sign(key=key)
    sealed = [(it / "seal.txt").read_text().split("CERTIFICATE ")[1].split("\n")[0] for it in sorted(place.seals.iterdir())]
    print(f"    kills: {KILLS}, before it ended by itself: {middle}")
    judge("a killed signer leaves whole seals alone", bad == 0 and done.status == 0, done)
    judge("and each certificate has one seal of its closing", sealed[6:] == [str(it) for it in range(5, count + 1)]
          and not (place.seals / ".new").exists(), sealed)


def stamps(folder: pathlib.Path) -> None:
    """Time stamps by an authority that openssl makes."""
    with Fake() as fake, authority.Authority(folder / "authority") as one, authority.Authority(folder / "other") as other:
        place = Place(folder, fake)
        place.close(2)
        place.fetch()
        place.sign()
        done = place.verify("--authority", one.certificate)
        judge("a seal without a stamp is told to whoever asks for stamps", done.status == 1
              and done.out.count("there is no time stamp") == 2 and place.verify().status == 0, done)
        stamp = lambda url, ca=one.certificate: run(SEAL, "stamp", "--name", "city", "--url", url, "--ca", ca, place.seals)  # noqa: E731
        one.refuses = True
        done = stamp(one.url)
        judge("an authority that refuses leaves no stamp", done.status == 3 and not list(place.seals.rglob("*.tsr")), done)
        one.refuses, one.replays = False, True
        done = stamp(one.url)
        judge("the stamp of another query is not taken", done.status == 3 and not list(place.seals.rglob("*.tsr")), done)
        one.replays, one.forges, other.forges = False, True, True
        for name, it in (("the authority", one), ("somebody on the way", other)):
            done = stamp(it.url)
            judge(f"nor a stamp of other bytes by {name}, though it has the nonce", done.status == 3
                  and "is not kept" in done.error and not list(place.seals.rglob("*.tsr")), done)
        one.forges = other.forges = False
        done = stamp(other.url)
        judge("nor a right one by somebody on the way", done.status == 3 and not list(place.seals.rglob("*.tsr")), done)
        for ca in ("", place.folder / "nowhere"):
            done = stamp(one.url, ca)
            judge("an office that was set up without STAMP_CA is told what is missing", done.status == 2
                  and "STAMP_CA" in done.error and not list(place.seals.rglob("*.tsr")), done)
        place.close(3)
        judge("and it seals on", place.fetch().status == 0 and place.sign().out == "seals: 1\n")
        judge("an authority that is not there: status 3", stamp("http://127.0.0.1:1/").status == 3)
        done = stamp(one.url)
        judge("each signature is stamped once", done.out == "stamps: 3\n" and stamp(one.url, "").out == "stamps: 0\n", done)
        done = place.verify("--authority", one.certificate)
        judge("the stamps verify", done.status == 0 and "stamped: 3" in done.out and "note: 000001: stamped " in done.out, done)
        done = place.verify("--authority", other.certificate)
        judge("not by another authority", done.status == 1 and "000001: the time stamp is not" in done.out, done)
        shutil.copy(place.seals / "000002/seal.txt.tsr", place.seals / "000001/seal.txt.tsr")
        done = place.verify("--authority", one.certificate)
        judge("nor the stamp of another signature", done.status == 1 and "WRONG: 000001: the time stamp" in done.out
              and "WRONG: 000002" not in done.out, done)


def forged(folder: pathlib.Path) -> None:
    """Somebody who is no signer, or signs for something else."""
    with Fake() as fake:
        place = Place(folder, fake)
        place.close(1)
        place.fetch()
        thief = place.folder / "thief"
        run("ssh-keygen", "-q", "-t", "ed25519", "-N", "", "-f", thief)
        place.sign(key=thief)
        done = place.verify()
        judge("a key that may not sign is told", done.status == 1 and "may not sign for city" in done.out, done)
        shutil.rmtree(place.seals)
        place.seals.mkdir()
        place.sign()
        seal = place.seals / "000001"
        (seal / "seal.txt.sig").unlink()
        run("ssh-keygen", "-q", "-Y", "sign", "-f", place.key, "-n", "file", seal / "seal.txt")
        done = place.verify()
        judge("a signature that was made for something else is told", done.status == 1, done)
        shutil.rmtree(place.seals)
        place.seals.mkdir()
        run(SEAL, "sign", "--name", "court", "--key", place.key, place.certificates, place.seals)
        done = place.verify()
        judge("a seal for another office is told", done.status == 1 and "may not sign for court" in done.out, done)
        judge("and the signer does not go on in it", place.sign().status == 1)
        (place.folder / "broken").write_text("no key")
        shutil.rmtree(place.seals)
        place.seals.mkdir()
        done = place.sign(key=place.folder / "broken")
        judge("without a key nothing is sealed", done.status == 3 and [it.name for it in place.seals.iterdir()] in ([], [".new"]),
              done)
        judge("and the next call is well", place.sign().out == "seals: 1\n" and place.verify().status == 0)
