"""office-convert and office-intake put large files in, through nginx with names and TLS; what they say if that fails."""
import base64
import csv
import os
import pathlib
import subprocess
import sys

from vault_trial.answers import digest
from kit.judging import judge, same
from kit.companions import companion
from vault_trial.proxy import NAMES, Proxy
from vault_trial.standin import StandIn
from vault_trial.world import World, free_port

from office_common import manifest

ROWS = [("letter.txt", b"A letter."), ("scan.pdf", b"%PDF-" + b"x" * 299_994 + b"\n%%EOF"),
        ("sub/plan Ü.tif", b"y" * 2_000_000)]
DAY = "2024-01-02"


class Tools:
    """The commands, as somebody calls them who reaches the office through nginx."""

    def __init__(self, it: Proxy, folder: pathlib.Path) -> None:
        self.proxy, self.folder = it, folder

    def run(self, tool: str, *words: object, name: str = "registrar", city: str = "city") -> subprocess.CompletedProcess[str]:
        login = self.folder / f"{name}.login"
        login.write_text(f"{name}:{NAMES[name]}\n")
        where = ["--vault", f"https://localhost:{self.proxy.port}/{city}", "--login", login, "--ca", self.proxy.folder / "office.crt"]
        call = [sys.executable, "-B", companion(f"office-{tool}"), *words, *where]
        return subprocess.run(list(map(str, call)), capture_output=True, text=True)


def written(folder: pathlib.Path) -> pathlib.Path:
    files = folder / "scans"
    (files / "sub").mkdir(parents=True)
    for name, data in ROWS:
        (files / name).write_bytes(data)
    sheet = files / "sheet.csv"
    with sheet.open("w", newline="") as out:
        rows = csv.writer(out)
        rows.writerow(["ref", "title", "originated", "aggregation", "file"])
        rows.writerows([f"r{at}", name, DAY, 1, name] for at, (name, _) in enumerate(ROWS))
    return sheet


def converted(tools: Tools, world: World, sheet: pathlib.Path) -> None:
    """A sheet becomes an import whose contents name what is in the vault."""
    out = tools.folder / "records.csv"
    words = (sheet, "--files", "file", "-o", out)
    done = tools.run("convert", *words)
    same("convert ends well", (done.returncode, "vault: 2 files, 2,300,005 bytes." in done.stderr), (0, True))
    with out.open(newline="") as text:
        contents = [base64.b64decode(row["content"]) for row in csv.DictReader(text)]
    same("a small file is the content", contents[0], ROWS[0][1])
    for content, (name, data) in zip(contents[1:], ROWS[1:], strict=True):
        same(f"{name} is named", manifest.read(content), [manifest.Named(digest(data), len(data), name)])
        path = world.vault / "objects" / digest(data)[:2] / digest(data)
        judge(f"{name} is in the vault", path.read_bytes() == data)
    first = out.read_bytes()
    same("the same again is the same", (tools.run("convert", *words).returncode, out.read_bytes()), (0, first))
    for name, city, said in [("reader", "city", "may not put files in"), ("judge", "city", "401"), ("judge", "court", "no vault")]:
        done = tools.run("convert", *words, name=name, city=city)
        judge(f"{name} at {city} is told why", done.returncode == 2 and said in done.stderr and "Traceback" not in done.stderr,
              done.stderr)


def taken(tools: Tools, office: StandIn, folder: pathlib.Path) -> None:
    """A folder comes in, and comes in again."""
    words = (folder / "scans", "--root", "BP", "--class", "K", "--changed", "--settle", "0", "--office",
             f"https://localhost:{tools.proxy.port}/city")
    (folder / "scans/sheet.csv").unlink()
    done = tools.run("intake", *words)
    same("intake ends well", (done.returncode, "0 left out" in done.stderr), (0, True))
    found = [manifest.read(it) for it in office.contents.values()]
    names = sorted((it.place, it.digest) for files in found for it in files or [])
    same("the large files are named", names, sorted((name.split("/")[-1], digest(data)) for name, data in ROWS[1:]))
    before = len(office.contents)
    done = tools.run("intake", *words)
    same("the same folder again is there", (done.returncode, done.stdout.count(": same "), len(office.contents)),
         (0, 3, before))


def tried(folder: pathlib.Path) -> None:
    court = StandIn(free_port())
    with World(folder / "world", 8, StandIn(free_port())) as world:
        for place, target in (("vaults", world.vault), ("sockets", world.folder / "socket")):
            (folder / place).mkdir()
            (folder / place / "city").symlink_to(target)
        court.start()
        sheet = written(folder)
        with Proxy(folder / "nginx", world.office.port, court.port, 21590, folder / "vaults", folder / "sockets") as it:
            tools = Tools(it, folder)
            converted(tools, world, sheet)
            taken(tools, world.office, folder)
            full(tools, world, sheet)
        court.stop()


def full(tools: Tools, world: World, sheet: pathlib.Path) -> None:
    """A vault without room, and none at all: the sheet is not whole, and the command says why."""
    (sheet.parent / "new.bin").write_bytes(os.urandom(300_000))
    sheet.write_text(f"ref,title,originated,aggregation,file\nn,n,{DAY},1,new.bin\n")
    words = (sheet, "--files", "file", "-o", tools.folder / "full.csv")
    world.restart_service("--reserve", str(1 << 50))
    done = tools.run("convert", *words)
    judge("no room is said", done.returncode == 2 and "is not whole: new.bin is not in the vault: the vault has no room" in
          done.stderr, done.stderr)
    world.service.kill()
    world.service.wait()
    done = tools.run("convert", *words)
    judge("no answer is said", done.returncode == 2 and "502" in done.stderr and "Traceback" not in done.stderr, done.stderr)
    world.start_service()
