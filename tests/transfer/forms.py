"""Signatures in CAdES, beside those of ssh-keygen and alone, read by openssl; and containers of them for a court."""
import pathlib
import random
import shutil
import zipfile

import authority
from authority import KEY
from fake import Fake
from kit.judging import judge, same
from place import Done, run
from sealing import SEAL, Place
from verdicts import FORGED, WITHDRAWN, judge_words, words_of


class Chancery(Place):
    """An office with keys for CAdES, whose certificates an authority of the trial issues."""

    def __init__(self, folder: pathlib.Path, fake: Fake) -> None:
        super().__init__(folder, fake)
        self.close(4)
        self.fetch()
        self.issuer = authority.Authority(folder / "issuer", 3650)
        self.own = folder / "certificates.pem"
        self.own.write_text("")
        self.cades = self.new_pair("seal")

    def new_pair(self, name: str, is_own: bool = True, days: int = 30) -> pathlib.Path:
        """Makes a key with a certificate, which the auditor has if it is the office's own."""
        own, place = self.folder / f"{name}.pem", self.issuer.folder
        self.issuer.openssl("req", *KEY, "-subj", f"/O=City/CN={name}", "-keyout", str(self.folder / f"{name}.key"), "-out", "csr")
        self.issuer.openssl("x509", "-req", "-in", "csr", "-CA", "ca.pem", "-CAkey", "ca.key", "-CAcreateserial", "-days", str(days),
                            "-out", str(own))
        if is_own:
            self.own.write_text(self.own.read_text() + own.read_text())
        own.write_text(own.read_text() + (place / "ca.pem").read_text())
        return own

    def sign_in(self, form: str, *options: object, pair: pathlib.Path | None = None) -> Done:
        own = pair or self.cades
        return self.sign("--form", form, "--cades-key", own.with_suffix(".key"), "--certificate", own, *options)

    def look(self, name: str, expected: dict[str, str], status: int, *options: object, clock: str = "") -> None:
        judge_words(name, self, expected, status, "--certificates", self.own, *options, clock=clock)

    def by_hand(self, number: int, signature: object = None, document: object = None) -> Done:
        """Verifies a seal as the page says."""
        seal, sealed = self.seals / f"{number:06}", self.folder / "sealed.txt"
        sealed.write_bytes((seal / "seal.txt").read_bytes() + (seal / f"certificate-{number}.txt").read_bytes())
        return run("openssl", "cms", "-verify", "-cades", "-binary", "-inform", "DER", "-in", signature or seal / "sealed.p7s",
                   "-content", document or sealed, "-CAfile", self.issuer.certificate, "-purpose", "any", "-out", "/dev/null")


def forms(folder: pathlib.Path) -> None:
    """Seals with one signature, with the other, and with both, in one chain."""
    with Fake() as fake:
        place = Chancery(folder, fake)
        done = place.sign("--form", "cades")
        judge("a form without its key is refused", done.status == 2 and "needs --cades-key" in done.error, done)
        aside = place.folder / "aside"
        place.certificates.rename(aside)
        place.certificates.mkdir()
        for number, form in ((1, "ssh"), (2, "both"), (3, "cades"), (4, "cades")):
            shutil.copy(aside / f"certificate-{number}.txt", place.certificates)
            done = place.sign_in(form)
            signed = {file.name for file in (place.seals / f"{number:06}").iterdir()} & {"seal.txt.sig", "sealed.p7s"}
            same(f"a seal in the form {form}", (done.out, signed), (
                "seals: 1\n", {"ssh": {"seal.txt.sig"}, "cades": {"sealed.p7s"}}.get(form, {"seal.txt.sig", "sealed.p7s"})))
        place.look("all verify", {}, 0)
        for number in (2, 3, 4):
            done = place.by_hand(number)
            judge(f"openssl verifies seal {number} by the issuer's certificate", done.status == 0
                  and "CAdES Verification successful" in done.error, done)
        printed = run("openssl", "cms", "-cmsout", "-print", "-noout", "-inform", "DER", "-in", place.seals / "000002/sealed.p7s").out
        judge("the signature has what baseline B asks for, by SHA-512", all(name in printed for name in (
            "signingCertificateV2", "signingTime", "messageDigest", "algorithm: sha512")) and "sha256" not in printed.partition(
                "signerInfos")[2].partition("signatureAlgorithm")[0].partition("signedAttrs")[0], printed)
        done = place.verify()
        judge("without --certificates they are counted, and one that is alone is wrong", done.status == 1
              and "note: 3 CAdES signatures were not verified: give --certificates" in done.out
              and done.out.count("its one signature is CAdES: give --certificates") == 2 and "wrong: 2" in done.out, done)
        stamped(place)
        packed(place)


def stamped(place: Chancery) -> None:
    """Each signature has a stamp of its own, each byte of it counts, and renewals list it."""
    with authority.Authority(place.folder / "stamps", 400) as one:
        options = ("--name", "city", "--url", one.url, "--ca", one.certificate)
        done = run(SEAL, "stamp", *options, place.seals)
        judge("each signature is stamped", done.out == "stamps: 5\n", done)
        done = run(SEAL, "renew", *options, "--now", place.seals)
        listed = (place.seals / "renewed/0001/SHA512SUMS").read_text()
        judge("and renewed", done.out == "renewals: 1\n" and listed.count("sealed.p7s.tsr") == 3 == listed.count("sealed.p7s\n"), done)
        shutil.rmtree(place.seals / "renewed")
        place.look("the stamps verify", {}, 0, "--authority", one.certificate)
        rng, silent = random.Random(3), []
        for file in (place.seals / "000003/sealed.p7s", place.seals / "000002/sealed.p7s"):
            data = file.read_bytes()
            for spot in rng.sample(range(len(data)), 5):
                file.write_bytes(data[:spot] + bytes([data[spot] ^ 1]) + data[spot + 1:])
                done = place.verify("--certificates", place.own, "--authority", one.certificate)
                if words_of(done) != {FORGED: file.parent.name}:
                    silent.append((file, spot, done))
            file.write_bytes(data)
        judge("10 changes of one byte of a signature are seen", not silent, silent[:2])


def packed(place: Chancery) -> None:
    """A container has one document, its signature, and its kind as the first bytes."""
    first, again = place.folder / "first.asics", place.folder / "again.asics"
    done = run(SEAL, "pack", "--name", "city", "-o", first, "2", place.seals)
    judge("a container is packed", done.out == f"packed: {first}\n" and done.status == 0, done)
    run(SEAL, "pack", "--name", "city", "-o", again, "2", place.seals)
    same("and again, alike", again.read_bytes() == first.read_bytes(), True)
    same("its kind is where the standard has it", first.read_bytes()[30:73], b"mimetypeapplication/vnd.etsi.asic-s+zip"[:43] + b"PK\x03\x04")
    with zipfile.ZipFile(first) as container:
        same("it has one document", container.namelist(), ["mimetype", "city-certificate-2.txt", "META-INF/signature.p7s"])
        container.extractall(place.folder / "unpacked")
    unpacked = place.folder / "unpacked"
    done = place.by_hand(2, unpacked / "META-INF/signature.p7s", unpacked / "city-certificate-2.txt")
    judge("whose signature openssl verifies", done.status == 0 and "CAdES Verification successful" in done.error, done)
    text = (unpacked / "city-certificate-2.txt").read_text()
    judge("and which shows the seal and the certificate", text.startswith("SEAL 2\nOFFICE city\n") and "CERTIFICATE 2\nDAY" in text, text)
    done = run(SEAL, "pack", "--name", "city", "-o", first, "2", place.seals)
    judge("no file is overwritten", done.status == 2 and "is there already" in done.error, done)
    done = run(SEAL, "pack", "--name", "city", "-o", place.folder / "none", "1", place.seals)
    judge("a certificate without such a signature is not packed", done.status == 2 and "has a CAdES signature" in done.error, done)


def pairs(folder: pathlib.Path) -> None:
    """Keys that are no more, are somebody else's, were withdrawn or are lost."""
    with Fake() as fake:
        place = Chancery(folder, fake)
        thief = place.new_pair("thief", is_own=False)
        # an auditor may have a file with the issuer too
        place.own.write_text(place.own.read_text() + place.issuer.certificate.read_text())
        place.sign_in("cades", pair=thief)
        place.look("a certificate of the same issuer that is not the office's", {FORGED: "000001 to 000004"}, 1)
        anew(place)
        place.sign_in("cades")
        place.look("the office's own", {}, 0)
        place.look("two months on, when its certificate has ended", {}, 0, clock="+60d")
        signature = place.seals / "000002/sealed.p7s"
        whole = signature.read_bytes()
        signature.write_bytes(whole + b"x")
        place.look("a byte after a signature", {FORGED: "000002"}, 1)
        signature.write_bytes(whole)
        place.by_hand(2)
        run("openssl", "cms", "-resign", "-inform", "DER", "-in", signature, "-outform", "DER", "-out", place.folder / "two", "-signer",
            thief, "-inkey", thief.with_suffix(".key"), "-binary", "-cades", "-md", "sha512")
        judge("openssl adds a second signature", place.by_hand(2, place.folder / "two").status == 0)
        shutil.copy(place.folder / "two", signature)
        place.look("a second signer", {FORGED: "000002"}, 1)
        signature.write_bytes(whole)
        (place.seals / "000002/certificate-2.txt").rename(place.folder / "text")
        place.look("a text that is missing has no word", {}, 1)
        (place.folder / "text").rename(place.seals / "000002/certificate-2.txt")
        withdrawn(place)


def anew(place: Chancery) -> None:
    """Throws the seals away."""
    shutil.rmtree(place.seals)
    place.seals.mkdir()


def withdrawn(place: Chancery) -> None:
    """A key is withdrawn, and another one signs again; one is lost; one whose certificate has ended signs."""
    (place.folder / "public").write_text(run("openssl", "x509", "-in", place.cades, "-noout", "-pubkey").out)
    place.withdrawn.write_text(run("ssh-keygen", "-i", "-m", "PKCS8", "-f", place.folder / "public").out)
    place.look("a key that was withdrawn", {WITHDRAWN: "000001 to 000004"}, 6, "--withdrawn", place.withdrawn)
    second = place.new_pair("second")
    done = place.sign_in("cades", "--withdrawn", place.withdrawn, pair=second)
    judge("another key signs again", done.out == "seals: 4\n", done)
    place.look("then all are good", {}, 0, "--withdrawn", place.withdrawn)
    second.with_suffix(".key").write_text("lost")
    done = place.sign_in("cades", pair=second)
    judge("a key that is lost is reported", done.status == 2 and "the key is lost, and nothing follows seal 8" in done.error, done)
    anew(place)
    short = place.new_pair("short", days=1)
    done = run("faketime", "-f", "+3d", SEAL, "sign", "--name", "city", "--form", "cades", "--cades-key", short.with_suffix(".key"),
               "--certificate", short, place.certificates, place.seals)
    judge("a key whose certificate has ended signs", done.out == "seals: 4\n", done)
    place.look("and may not", {WITHDRAWN: "000001 to 000004"}, 6, clock="+3d")
    anew(place)
    short.write_text("nothing")
    done = place.sign_in("cades", pair=short)
    judge("without a certificate nothing is sealed", done.status == 2 and "there is no certificate of the key" in done.error, done)
