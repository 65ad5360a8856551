"""Lists of an archive in every form, against a small bag with a manifest of two large files."""
import json
import pathlib
import subprocess
from collections.abc import Callable

from bags import transfer
from fake import Fake, digest
from kit.companions import companion
from kit.judging import judge
from place import Done, challenge_of, run

BIG, SCAN = b"big", b"scan"
PARTS = {"data/000001_A_One.txt": b"one", "data/000003_C_One-again.txt": b"one", "data/000004_D_Four.txt": b"four",
         "data/000002_B_Two/0001_big.txt": BIG, "data/000002_B_Two/0002_scan.txt": SCAN}


def made(folder: pathlib.Path) -> tuple[pathlib.Path, dict[str, bytes]]:
    """A bag of four records, and a package of them: the place of the bag, and its payload."""
    manifest = "".join(f"SHA256 {digest(it)}\nLENGTH {len(it)}\nPLACE {name}\n"
                       for it, name in ((BIG, "big"), (SCAN, "scan"))).encode()
    with Fake() as fake:
        fake.answers |= {"/records/2/files/1": (200, BIG), "/records/2/files/2": (200, SCAN)}
        fake.close(1, [fake.record(1, "A", "One", b"one"), fake.record(2, "B", "Two", manifest),
                       fake.record(3, "C", "One again", b"one"), fake.record(4, "D", "Four", b"four")])
        done = [transfer(fake, folder / "bag"), transfer(fake, folder / "package", "--form", "eark")]
        judge("the bag and the package for the lists are made", [it.status for it in done] == [0, 0], done)
    return folder / "bag", {**PARTS, "data/000002_B_Two/manifest.txt": manifest}


def receipts(bag: pathlib.Path, text: str | bytes, *words: object) -> tuple[list[int], Done]:
    """The records that get a receipt, and how the command ended."""
    file = bag.parent / "list"
    file.write_bytes(text if isinstance(text, bytes) else text.encode())
    done = run(companion("office-receipts"), bag, file, "--by", "M. Vane", "--day", "2024-03-18", *words)
    acts = json.loads(done.out) if done.out else []
    return [it["record"] for it in acts], done


def lists(folder: pathlib.Path) -> None:
    bag, files = made(folder)
    proofs(bag, files)
    unproved(bag, files)
    challenge = challenge_of(bag)

    def proof(data: bytes) -> str:
        return digest(challenge + data)
    sums = {name: proof(data) for name, data in files.items()}
    plain = "".join(f"{it}  {name}\n" for name, it in sums.items())
    manifest, content = sums["data/000002_B_Two/manifest.txt"], sums["data/000004_D_Four.txt"]
    large = f"B,{sums['data/000002_B_Two/0001_big.txt']}\nB,{sums['data/000002_B_Two/0002_scan.txt']}\n"
    forms: dict[str, tuple[str | bytes, list[int]]] = {
        "as sha256sum writes it": (plain, [1, 2, 3, 4]),
        "capital digits, stars, line ends of Windows": (plain.upper().replace("DATA/", "data/").replace("  ", " *")
                                                        and "".join(f"{it.upper()} *{name}\r\n" for name, it in sums.items()),
                                                        [1, 2, 3, 4]),
        "a mark at the beginning, and a folder of the archive's": (
            "\ufeff" + "".join(f"{it}  ./AIP-7/{name}\n" for name, it in sums.items()), [1, 2, 3, 4]),
        "from inside of data, with backslashes": (
            "".join(f"{it}  {name[5:]}\n".replace("/", "\\") for name, it in sums.items()), [1, 2, 3, 4]),
        "names of the archive's own": ("".join(f"{it}  x{at}\n" for at, it in enumerate(sums.values())), [1, 2, 3, 4]),
        "one line for two records with the same bytes": (f"{sums['data/000001_A_One.txt']}  x\n", [1]),
        "CSV by ref": ("ref,sha256\nA,{0}\nC,{0}\nD,{1}\nB,{2}\n".format(proof(b"one"), content, manifest) + large,
                       [1, 2, 3, 4]),
        "CSV by number, semicolons": (f"Record;Title;SHA256\n4;a;{content}\n1;b;{proof(b'one')}\n", [1, 4]),
        "a record without one of its large files": (f"ref,digest\nB,{manifest}\n" + large.split("\n")[0] + "\n", []),
        "a record of which only the manifest is there": (f"ref,digest\nB,{manifest}\n", []),
        "a record of which only the large files are there": ("ref,digest\n" + large, []),
        "another digest, and the right one": (f"ref,digest\nD,{'0' * 64}\nD,{content}\n", []),
        "the same line twice": (f"{content}  data/000004_D_Four.txt\n" * 2, [4]),
    }
    for name, (text, wanted) in forms.items():
        found, done = receipts(bag, text)
        judge(f"{name}: receipts of {wanted}", found == wanted and done.status == (0 if len(wanted) == 4 else 1), done)
    of_package = challenge_of(folder / "package")
    found, done = receipts(folder / "package", "".join(
        f"{digest(of_package + data)}  representations/rep1/{name}\n" for name, data in files.items()))
    judge("the list of a package makes receipts too", (found, done.status) == ([1, 2, 3, 4], 0), done)
    table = folder / "package/metadata/descriptive/records.csv"
    table.write_bytes(table.read_bytes().replace(b"One", b"Two"))
    _, done = receipts(folder / "package", plain)
    judge("but not if its table was changed", (done.status, done.out) == (1, "") and "was changed" in done.error, done)
    told(bag, content)
    refused(bag, content)
    changed(bag, plain, receipts)


def proofs(bag: pathlib.Path, files: dict[str, bytes]) -> None:
    """A list answers the challenge, as the command of the order makes it; nothing that lies in the bag does."""
    for folder in (bag, bag.parent / "package"):
        order = folder.with_name(f"{folder.name}.order.txt").read_text()
        command = next(it for it in order.split("\n") if it.startswith("    find "))
        for shell in ("sh", "bash --posix"):
            listed = folder.parent / "list.txt"
            listed.unlink(missing_ok=True)
            done = subprocess.run([*shell.split(), "-c", command], cwd=folder, capture_output=True)
            judge(f"{folder.name}: the command of the order makes a list in {shell}", done.returncode == 0
                  and done.stderr == b"" and len(listed.read_text().splitlines()) == len(files), done)
            found, done = receipts(folder, listed.read_bytes())
            judge(f"{folder.name}: the list makes receipts", (found, done.status) == ([1, 2, 3, 4], 0), done)
        inside = [it for it in sorted(folder.rglob("*")) if it.is_file()]
        for file in inside:
            found, done = receipts(folder, file.read_bytes())
            judge(f"{folder.name}: its own {file.relative_to(folder)} makes none", not found and done.status in (1, 2)
                  and "Traceback" not in done.error, done)
    other = challenge_of(bag.parent / "package")
    found, done = receipts(bag, "".join(f"{digest(other + data)}  {name}\n" for name, data in files.items()))
    judge("the answer to another challenge makes none", (found, done.status) == ([], 1) and "differing: 6" in done.error, done)
    data = bag / "data/000004_D_Four.txt"
    data.write_bytes(b"FOUR")
    found, done = receipts(bag, f"{digest(challenge_of(bag) + b'FOUR')}  data/000004_D_Four.txt\n")
    judge("a file of the bag that was changed is no measure", (done.status, done.out) == (1, "") and "was changed" in done.error,
          done)
    data.unlink()
    _, done = receipts(bag, f"{digest(challenge_of(bag) + b'four')}  data/000004_D_Four.txt\n")
    judge("nor is one that is gone", (done.status, done.out) == (1, "") and "cannot be read" in done.error, done)
    data.write_bytes(b"four")


def unproved(bag: pathlib.Path, files: dict[str, bytes]) -> None:
    """A list of plain sums needs a word of its own, and is none with it if it may be the bag's own."""
    sums = {name: digest(data) for name, data in files.items()}
    rows = [f"{it}  {name}\n" for name, it in sums.items()]
    own = {"the manifest": (bag / "manifest-sha256.txt").read_bytes(), "its lines in another order": "".join(reversed(rows)),
           "some of its lines": "".join(rows[:2]), "its lines as another program writes them":
           "".join(f"{it.upper()} *./{name}\r\n" for name, it in sums.items()),
           "the table": (bag / "metadata/records.csv").read_bytes(), "the table of files":
           (bag / "metadata/files.csv").read_bytes()}
    for name, text in own.items():
        found, done = receipts(bag, text)
        judge(f"{name}: it has the plain sums, and makes no receipt", (done.status, done.out) == (1, "")
              and "--without-proof" in done.error, done)
        found, done = receipts(bag, text, "--without-proof")
        judge(f"{name}: not without a proof either", (done.status, done.out) == (1, "") and "folder itself" in done.error, done)
    lists_of_archives = {"a folder of the archive's": "".join(f"{it}  AIP-7/{name}\n" for name, it in sums.items()),
                         "names of the archive's own": "".join(f"{it}  x{at}\n" for at, it in enumerate(sums.values())),
                         "by ref": "ref,sha256\n" + "".join(f"{ref},{sums[name]}\n" for ref, name in (
                             ("A", "data/000001_A_One.txt"), ("C", "data/000003_C_One-again.txt"), ("D", "data/000004_D_Four.txt"),
                             *(("B", it) for it in sums if "_B_" in it)))}
    for name, text in lists_of_archives.items():
        found, done = receipts(bag, text)
        judge(f"{name}, plain sums: no receipt", (done.status, done.out) == (1, "") and "--without-proof" in done.error, done)
        found, done = receipts(bag, text, "--without-proof")
        judge(f"{name}, plain sums, and that is said: receipts", (found, done.status) == ([1, 2, 3, 4], 0), done)


def told(bag: pathlib.Path, content: str) -> None:
    """What makes no receipt is named."""
    _, done = receipts(bag, f"{'0' * 64}  data/000001_A_One.txt\n{content}  data/000004_D_Four.txt\n"
                            f"{content}  data/000004_D_Four.txt\n{'1' * 64}  elsewhere.txt\nno digest\n")
    for what in ("differs: record 1, A: data/000001_A_One.txt", "missing: record 3, C", "missing: record 2, B: data/",
                 "twice: record 4, D: data/000004_D_Four.txt: lines 2, 3", "not used: line 4, elsewhere.txt",
                 "not used: line 5 has no SHA-256"):
        judge(f"named: {what}", what in done.error, done.error)
    judge("and counted", "records: 4, receipts: 1, had one: 0, missing: 4, differing: 1, twice: 1, not used: 2" in done.error,
          done.error)


def refused(bag: pathlib.Path, content: str) -> None:
    for name, text, words in (
        ("an order that is not there", f"{content}  x\n", ("--order", bag / "none")),
        ("an order that is none", f"{content}  x\n", ("--order", bag / "bagit.txt")),
        ("an empty list", "", ()), ("a list of MD5", "0" * 32 + "  data/000001_A_One.txt\n", ()),
        ("a CSV without digests", "ref,title\nA,One\n", ()), ("bytes that are no UTF-8", b"\xff\xfe\x00", ()),
        ("a day that has not come", f"{content}  x\n", ("--day", "2999-01-01")),
        ("a name with a control character", f"{content}  x\n", ("--by", "a\tb")),
        ("a name of 201 bytes", f"{content}  x\n", ("--by", "a" * 201)),
    ):
        found, done = receipts(bag, text, *words)
        judge(f"{name}: status 2, and no act", (done.status, done.out) == (2, "") and "Traceback" not in done.error, done)
    done = run(companion("office-receipts"), bag.parent, bag / "manifest-sha256.txt", "--by", "x")
    judge("a folder that is no bag: status 2", done.status == 2, done)


def changed(bag: pathlib.Path, plain: str, ask: Callable[..., tuple[list[int], Done]]) -> None:
    """A table that was changed after the bag was written makes no receipt."""
    table = bag / "metadata/records.csv"
    table.write_bytes(table.read_bytes().replace(digest(b"four").encode(), b"0" * 64))
    _, done = ask(bag, plain)
    judge("a table that was changed makes no receipt", (done.status, done.out) == (1, "") and "was changed" in done.error,
          done)
