"""What lies beside an office: the files of its vault, the seals of its certificates, its journal, and settings."""
from __future__ import annotations

import base64
import json
import pathlib
import shutil
import subprocess

from kit.commands import TOP, office, run
from kit.companions import companion
from kit.judging import judge, same
from place import back, copied, digest, export, files_in, judge_refused, names_in, seal, small, unjudging

PAGES = {name: name.encode() * 90_000 for name in ("plan.pdf", "map.tif")}
GONE = b"a file that the vault lost"


def beside(folder: pathlib.Path) -> None:
    for part in (vault, seals, journal):
        place = folder / part.__name__
        place.mkdir()
        part(place)


def manifest(*files: tuple[str, bytes]) -> bytes:
    return "".join(f"SHA256 {digest(data)}\nLENGTH {len(data)}\nPLACE {name}\n" for name, data in files).encode()


def with_large_files(folder: pathlib.Path, *contents: bytes) -> pathlib.Path:
    """Makes an office with a record for each content."""
    acts = json.loads((TOP / "examples/first/acts.json").read_text())[:3]
    acts += [{"act": "add-record", "day": "2023-01-02", "ref": f"large/{at}", "title": "T", "originated": "2023-01-01",
              "aggregation": 1, "class": None, "schedule": None, "content": base64.b64encode(content).decode()}
             for at, content in enumerate(contents)]
    (folder / "acts.json").write_text(json.dumps(acts))
    done = office("apply", folder / "office.db", folder / "acts.json")
    judge("an office with large files", done.status == 0, done, is_quiet=True)
    return folder / "office.db"


def new_vault(folder: pathlib.Path) -> pathlib.Path:
    done = run(companion("office-vault"), "make", folder)
    assert done.status == 0, done
    return folder


def vault(folder: pathlib.Path) -> None:
    first, program = new_vault(folder / "first"), unjudging(folder)
    for name, data in PAGES.items():
        (folder / name).write_bytes(data)
    done = run(companion("office-vault"), "put", first, *(folder / name for name in PAGES))
    same("the vault has the files", (done.status, done.out.encode()), (0, manifest(*PAGES.items())))
    plan, chart = PAGES.items()
    file = with_large_files(folder, manifest(plan, chart), manifest(chart), b"a plain letter", manifest(plan))
    bag, second = folder / "bag", new_vault(folder / "second")
    done = export(file, bag, "--vault", first)
    judge("an office with its vault leaves", done.status == 0 and "files 2, lacking 0" in done.out, done)
    same("each file of the vault is there once", {name[-64:]: data for name, data in files_in(bag / "data/files").items()},
         {digest(data): data for data in PAGES.values()})
    done = back(bag, folder / "a.db", OFFICE=program)
    judge("files that are left are counted", done.status == 1 and done.error.count("\n") == 1
          and "left: files of the vault that stay" in done.error and "/data/files: 2;" in done.error, done)
    done = back(bag, folder / "b.db", "--vault", second, OFFICE=program)
    judge("it comes back with its vault", done.status == 0 and done.error == "", done)
    same("objects of the new vault", {name[-64:]: data for name, data in files_in(second / "objects").items()},
         {digest(data): data for data in PAGES.values()})
    done = export(folder / "b.db", folder / "again", "--vault", second)
    judge("and leaves again", done.status == 0 and files_in(folder / "again") == files_in(bag), done)
    done = export(file, folder / "without")
    judge("without a vault each file is named", done.status == 1 and done.error.count("is missing") == 2
          and "without --vault DIR" in done.error and "files 0, lacking 4; left out 2" in done.out, done)
    lost(folder, first, bag, program)


def lost(folder: pathlib.Path, first: pathlib.Path, bag: pathlib.Path, program: str) -> None:
    """A vault that lost and damaged files, and a content that is nearly a manifest: named, and the rest goes along."""
    place = folder / "lost"
    place.mkdir()
    torn = manifest(*PAGES.items())[:-1]
    file = with_large_files(place, manifest(("gone", GONE)), manifest(*PAGES.items()), torn)
    path = first / "objects" / digest(PAGES["map.tif"])[:2] / digest(PAGES["map.tif"])
    path.chmod(0o600)
    path.write_bytes(b"damaged")
    done = export(file, place / "bag", "--vault", first)
    judge("lost and damaged files are named", done.status == 1 and sorted(done.error.splitlines()) == sorted([
        "office-export: left out: record 3: its content begins as a manifest and is none; office-vault check says more",
        f"office-export: left out: the file {digest(GONE)} of the vault is missing",
        f"office-export: left out: the file {digest(PAGES['map.tif'])} of the vault is damaged"])
        and "files 1, lacking 2; left out 3" in done.out, done)
    lacking = [json.loads(line) for line in (place / "bag/data/lacking.jsonl").read_text().splitlines()]
    same("and are in the folder's list", lacking, [
        {"record": 1, "digest": digest(GONE), "what": "file"},
        {"record": 2, "digest": digest(PAGES["map.tif"]), "what": "file"}])
    done = back(place / "bag", place / "back.db", "--vault", new_vault(place / "vault"), OFFICE=program)
    judge("the office comes back, and what lacks is counted", done.status == 1 and done.error ==
          "office-import: left: files of the vault that the bag lacks: 2\n", done)
    done = export(place / "back.db", place / "again", "--vault", place / "vault")
    same("it lacks the same", files_in(place / "again"), files_in(place / "bag"))
    judge_refused("no vault to put files into", back(bag, place / "n.db", "--vault", place / "none", OFFICE=program),
                  "the files do not come into", status=3)
    judge("nothing was made without them", "n.db" not in names_in(place))


# ---- seals


def sealed(folder: pathlib.Path, bag: pathlib.Path) -> pathlib.Path:
    """Seals the certificates of a bag, by ssh-keygen and no line of ours. Returns the folder of seals."""
    subprocess.run(["ssh-keygen", "-q", "-t", "ed25519", "-N", "", "-f", folder / "key"], check=True)
    (folder / "signers").write_text(f"city namespaces=\"office-seal\" {(folder / 'key.pub').read_text()}")
    before, place = "0" * 64, folder / "seals"
    for number in (1, 2):
        own = place / f"{number:06}"
        own.mkdir(parents=True)
        text = (bag / f"data/certificates/{number}.txt").read_bytes()
        (own / f"certificate-{number}.txt").write_bytes(text)
        (own / "seal.txt").write_text(f"SEAL {number}\nOFFICE city\nCERTIFICATE {number}\nSHA256 {digest(text)}\n"
                                      f"PREVIOUS {before}\nAT 2025-01-0{number}T00:00:00Z\nWHY closed\n")
        before = digest((own / "seal.txt").read_bytes())
        subprocess.run(["ssh-keygen", "-q", "-Y", "sign", "-f", folder / "key", "-n", "office-seal", own / "seal.txt"],
                       check=True, stderr=subprocess.DEVNULL)
    return place


def seals(folder: pathlib.Path) -> None:
    program, file = unjudging(folder), small(folder)
    assert export(file, folder / "plain").status == 0
    place, bag = sealed(folder, folder / "plain"), folder / "bag"
    done = export(file, bag, "--seals", place)
    judge("an office leaves with its seals", done.status == 0 and files_in(bag / "data/seals") == files_in(place), done)
    done = back(folder / "plain", folder / "0.db", OFFICE=program)
    judge("without seals certificates are taken on its word", done.status == 0 and "on the word of the bag" in done.error, done)
    done = back(bag, folder / "1.db", OFFICE=program)
    judge("seals that nobody verified are named", done.status == 0 and "--signers FILE" in done.error
          and "seals 6" in done.out, done)
    done = back(bag, folder / "2.db", "--signers", folder / "signers", OFFICE=program)
    judge("seals are verified", done.status == 0 and done.error == "", done)
    done = back("--try", bag, "--signers", folder / "signers", OFFICE=program)
    judge("a trial makes nothing", done.status == 0 and not list(folder.glob("*.try")) and not list(folder.glob(".*")), done)
    wrong = copied(bag, folder / "wrong")
    by = json.loads((wrong / "data/runs.jsonl").read_text().splitlines()[0])["by"]
    for name in ("runs.jsonl", "certificates/1.txt"):
        data = (wrong / "data" / name).read_text()
        (wrong / "data" / name).write_text(data.replace(by, "Forger", 1))
    text = (wrong / "data/certificates/1.txt").read_text().rpartition("SHA256 ")[0]
    (wrong / "data/certificates/1.txt").write_text(f"{text}SHA256 {digest(text.encode())}\n")
    seal(wrong)
    judge_refused("a certificate that is not the sealed one", back(wrong, folder / "n.db", OFFICE=program),
                  "certificate 1 is not the sealed one")
    shutil.rmtree(wrong / "data/seals/000001")
    seal(wrong)
    judge_refused("a seal that is missing", back(wrong, folder / "n.db", "--signers", folder / "signers", OFFICE=program),
                  "office-verify: WRONG")
    more_seals(folder, bag, program)


def more_seals(folder: pathlib.Path, bag: pathlib.Path, program: str) -> None:
    wrong = copied(bag, folder / "wrong")
    (wrong / "data/certificates/2.txt").unlink()
    seal(wrong)
    judge_refused("a sealed certificate that is missing", back(wrong, folder / "n.db", OFFICE=program),
                  "certificate 2 is sealed, and is not in the bag")
    wrong = copied(bag, folder / "wrong")
    shutil.rmtree(wrong / "data/seals/000002")
    seal(wrong)
    done = back(wrong, folder / "3.db", "--signers", folder / "signers", OFFICE=program)
    judge("a certificate without a seal is counted", done.status == 0 and "certificates without a seal: 1" in done.error, done)
    subprocess.run(["ssh-keygen", "-q", "-t", "ed25519", "-N", "", "-f", folder / "other"], check=True)
    (folder / "strangers").write_text(f"city {(folder / 'other.pub').read_text()}")
    judge_refused("seals by another key", back(bag, folder / "n.db", "--signers", folder / "strangers", OFFICE=program),
                  "office-verify: WRONG")
    judge_refused("no signers", back(bag, folder / "n.db", "--signers", folder / "none", OFFICE=program), "not verified", status=3)
    judge("nothing was made", "n.db" not in names_in(folder))


# ---- the journal, and settings


def journal(folder: pathlib.Path) -> None:
    program, log, settings = unjudging(folder), folder / "log", folder / "settings"
    for place in (log, settings / "sub"):
        place.mkdir(parents=True)
    for name in ("city.journal", "city.journal-20260101", "city.journal-20260201", "city.journal.heads", "town.journal"):
        (log / name).write_text(f"{name}\n")
    for name in ("city.access", "sub/ä b.txt", "back\\slash", "100%", "line\nfeed"):
        (settings / name).write_text(f"{name}\n")
    (folder / "mandates.json").write_text("{}\n")
    bag = folder / "bag"
    arguments = (small(folder), bag, "--journal", log / "city.journal", "--also", settings, "--also", folder / "mandates.json")
    done = export(*arguments)
    kept = ["also/mandates.json", "also/settings/city.access", "also/settings/sub/ä b.txt", "journal/city.journal",
            "journal/city.journal-20260101", "journal/city.journal-20260201", "journal/city.journal.heads"]
    same("what lies beside it goes along", sorted(name for name in (path.removeprefix("data/") for path in files_in(bag))
                                                  if name.startswith(("also/", "journal/"))), kept)
    judge("and what cannot is named", done.status == 1 and done.error.count("cannot be in a manifest") == 3
          and done.error.count("\n") == 3 and "left out 3" in done.out, done)
    done = back(bag, folder / "back.db", OFFICE=program)
    judge("what stays in the folder is counted", done.status == 0 and "journal 4, also 3" in done.out, done)
    (log / "city.journal").write_text("city.journal\nmore\n")
    judge_refused("a journal that grew", export(*arguments), "journal/city.journal would have other bytes")
    judge_refused("two of one name", export(small(folder), folder / "b2", "--also", settings, "--also", settings), "have one name")
    (settings / "link").symlink_to("city.access")
    judge_refused("a link", export(small(folder), folder / "b2", "--also", settings), "link is no file")
