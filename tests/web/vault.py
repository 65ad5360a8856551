"""Large files through the page: they go into a vault beside the office, are shown and saved as themselves, and compared."""
from __future__ import annotations

import contextlib
import hashlib
import json
import os
import pathlib
import shutil
import signal
import subprocess
from collections.abc import Iterator

import importing
import layout
import looks
from browser import Browser
from deciding import PDF, png
from filing import View, fill
from kit.judging import judge, same
from place import TOP, Office, Proxy
from shots import SIZES, shot
from story import TEXTS, Story, says

WORDS, FILES = TEXTS["vault"], TEXTS["files"]
COMMAND = TOP / "companions/vault/office-vault"
MOST, MIB = 262_144, 1 << 20


class Vault:
    """The vault of the office behind nginx, as docs/VAULT.md sets it up, in the folder of the trial."""

    def __init__(self, office: Office, proxy: Proxy) -> None:
        self.office, self.proxy, self.folder = office, proxy, proxy.folder / "vaults/city"
        self.process: subprocess.Popen[bytes] | None = None
        self.folder.mkdir(parents=True)
        shutil.chown(self.folder, "root", "www-data")
        self.folder.chmod(0o2750)
        subprocess.run([COMMAND, "make", self.folder], check=True)

    def start(self, *more: str) -> None:
        place = self.folder / "socket"
        words = [COMMAND, "serve", self.folder, place, "--office", f"127.0.0.1:{self.office.port}", "--internal",
                 "/office-vault-objects/city/objects", *(more or ("--reserve", "0"))]
        self.process = subprocess.Popen(list(map(str, words)), stdout=subprocess.PIPE)
        assert self.process.stdout and self.process.stdout.readline().startswith(b"listening")
        shutil.chown(place, "root", "www-data")

    def stop(self) -> None:
        if self.process:
            self.process.kill()
            self.process.wait()
            self.process = None

    def restart(self, *more: str) -> None:
        self.stop()
        self.start(*more)

    def named(self, is_there: bool) -> None:
        """Says to nginx whether the office has a vault."""
        (self.proxy.folder / "vaults.conf").write_text('"/" city;\n' if is_there else "")
        self.proxy.stop()
        self.proxy.start()

    def path(self, digest: str) -> pathlib.Path:
        return self.folder / "objects" / digest[:2] / digest

    def count(self) -> int:
        return sum(1 for _ in (self.folder / "objects").glob("*/*"))


def digest(data: bytes) -> str:
    return hashlib.sha256(data).hexdigest()


def made(folder: pathlib.Path) -> dict[str, bytes]:
    """Files: a small one, and ones that no content takes; one is longer than WebCrypto is given at once."""
    place = folder / "scans"
    place.mkdir()
    files = {
        "letter.txt": b"A letter.",
        "contract.pdf": PDF + b"%" + b"x" * 300_000,
        "plan.png": png() + bytes(400_000),
        "Straße 1.tif": os.urandom(1 << 20) * 3,
        "film.bin": os.urandom(1 << 20) * 90 + b"end",
    }
    for name, data in files.items():
        (place / name).write_bytes(data)
    return files


def dropped(view: View, vault: Vault, files: dict[str, bytes]) -> None:
    """What is said before anything is sent: large files go into the vault, and nobody is asked for anything."""
    view.open()
    it = view.browser
    it.wait(lambda: it.seen("#file-choose-hint") == WORDS["chooseHint"], "the hint says nothing of the vault")
    view.drop([vault.proxy.folder / "scans" / name for name in files])
    totals = view.totals()
    same("vault: four of five files go there", (totals["count"], totals["vaulted"], totals["large"], totals["ready"]), (5, 4, 0, 5))
    judge("vault: no total speaks of manifests", "manifests" not in totals, str(totals))
    same("vault: each row says so", sorted(view.answers()), sorted([TEXTS["file"]["ready"], *[TEXTS["file"]["vaultReady"]] * 4]))
    same("vault: nothing is left out", it.seen("#file-large"), "")
    buttons = [one.text for one in it.all("#file-table tbody button")]
    same("vault: a row has one button", buttons, [TEXTS["file"]["off"]] * 5)
    same("vault: a ref is that of the file", sorted(row[1] for row in view.rows()), sorted(files))
    same("vault: nothing is there yet", vault.count(), 0)


def filed(view: View, vault: Vault, files: dict[str, bytes]) -> dict[str, int]:
    """All are filed, and the vault has the bytes: the number of each record."""
    it = view.browser
    seen = "window.phases = new Set(); new MutationObserver(() => { for (const one of document.querySelectorAll('.going .hint'))" \
           " window.phases.add(one.textContent.split(':')[0] + (document.querySelector('.going progress').value > 0)); })" \
           ".observe(document.querySelector('#file-table'), {childList: true, subtree: true, characterData: true});"
    it.driver.execute_script(seen)
    it.write(file_all_aggregation="1")
    view.file()
    same("vault: all are filed", view.counts(), {"added": "5"})
    phases = it.driver.execute_script("return [...window.phases]")
    for phase in WORDS["going"].values():
        judge(f"vault: progress is shown, {phase.split(':')[0]}", f"{phase.split(':')[0]}true" in phases, str(phases))
    answers = [row[-1] for row in view.rows() if row[0] != "letter.txt"]
    judge("vault: each row says that the file is in the vault",
          all(one.startswith(TEXTS["filing"]["vaultAdded"].split("{")[0]) for one in answers), str(answers))
    same("vault: it has each large file", vault.count(), 4)
    numbers = {}
    for number in range(1, 6):
        said = json.loads(vault.office.ask("GET", f"/records/{number}")[2])
        numbers[said["ref"]] = number
        data = files[said["ref"]]
        content = vault.office.ask("GET", f"/records/{number}/content")[2]
        if len(data) <= MOST:
            same("vault: a small file is the content", content, data)
            continue
        named = f"SHA256 {digest(data)}\nLENGTH {len(data)}\nPLACE {said['ref']}\n"
        same(f"vault: the content of {said['ref']} names it", content.decode(), named)
        judge("vault: its bytes are there", vault.path(digest(data)).read_bytes() == data)
    return numbers


def again(view: View, vault: Vault, files: dict[str, bytes]) -> None:
    """The same files once more: each is there already, and nothing is there twice."""
    view.open()
    view.drop([vault.proxy.folder / "scans" / name for name in files])
    view.browser.write(file_all_aggregation="1")
    view.file()
    same("vault: the same again is there already", view.counts(), {"added": "0", "same": "5"})
    same("vault: and there once", vault.count(), 4)


def shown(it: Browser, vault: Vault, files: dict[str, bytes], numbers: dict[str, int]) -> None:
    """Record shows the files themselves; each is saved as it was filed, under its own name."""
    page, folder = vault.proxy.page, vault.proxy.folder
    for name in ("contract.pdf", "Straße 1.tif", "film.bin"):
        it.open(f"{page}#record?number={numbers[name]}")
        judge(f"{name}: the content has no button of its own", not it.one("#record-save").is_displayed())
        said = it.seen("#record-files")
        says(f"{name}: it is shown with its size", said, FILES["heading"]["one"], name, f"{len(files[name]):,} bytes")
        judge(f"{name}: nobody reads of a manifest", "anifest" not in it.seen("#record-told"), it.seen("#record-told"))
        it.press("#record-files .vaulted button")
        it.wait(lambda: FILES["saved"].split("{")[0] in it.seen("#record-files"), f"{name} is not saved")
        it.wait((folder / name).exists, f"{name} is not there")
        it.wait(lambda: (folder / name).stat().st_size == len(files[name]), f"{name} is not whole")
        judge(f"{name}: saved to the byte", (folder / name).read_bytes() == files[name])
        (folder / name).unlink()
    it.open(f"{page}#record?number={numbers['letter.txt']}")
    judge("a small file: the content has its button", it.one("#record-save").is_displayed() and not it.one("#record-files").is_displayed())


def looked(it: Browser, vault: Vault, numbers: dict[str, int]) -> None:
    """Large files are looked at as contents are."""
    for name, css in (("contract.pdf", "iframe"), ("plan.png", "canvas")):
        it.open(f"{vault.proxy.page}#record?number={numbers[name]}")
        it.press("#record-files .vaulted button.quiet")
        it.wait(lambda: bool(it.all(f"#record-files .looked {css}")), f"{name} is not shown")
        says(f"{name}: looked at, compared", it.seen("#record-files"), FILES["looked"].split("{")[0])
    it.press("#record-files .unlook")
    judge("it is taken away again", not it.all("#record-files .looked canvas"))
    it.open(f"{vault.proxy.page}#record?number={numbers['Straße 1.tif']}")
    says("a TIFF cannot be shown here", it.seen("#record-files"), TEXTS["content"]["unshown"])
    judge("a TIFF has no button to look at it", not it.all("#record-files .vaulted button.quiet"))


def compared(it: Browser, vault: Vault, files: dict[str, bytes], numbers: dict[str, int]) -> None:
    """A copy that somebody has saved is compared with what was filed, without leaving the machine."""
    it.open(f"{vault.proxy.page}#record?number={numbers['film.bin']}")
    it.press("#record-files details summary")
    place = vault.proxy.folder / "scans"
    for name, key in (("film.bin", "isOne"), ("plan.png", "isNone")):
        it.one("#record-compare").send_keys(str(place / name))
        words = FILES[key].format(name=name, place="film.bin")
        it.wait(lambda: words in it.seen("#record-files"), f"{name}: {words} is not said")
        judge(f"a copy is compared: {key}", words in it.seen("#record-files"))


def wrong(it: Browser, vault: Vault, files: dict[str, bytes], numbers: dict[str, int]) -> None:
    """A file that is damaged, missing or gone is not saved, and that is said."""
    number, data = numbers["plan.png"], files["plan.png"]
    path = vault.path(digest(data))
    path.unlink()
    path.write_bytes(b"y" + data[1:])
    shutil.chown(path, "root", "www-data")
    address = f"{vault.proxy.page}#record?number={number}"
    it.open(address)
    it.press("#record-files .vaulted button")
    it.wait(lambda: FILES["differs"] in it.seen("#record-files"), "a damaged file is not named")
    judge("a damaged file is not saved", not (vault.proxy.folder / "plan.png").exists())
    path.unlink()
    it.press("#record-files .vaulted button")
    it.wait(lambda: FILES["missing"] in it.seen("#record-files"), "a missing file is not named")
    it.open(address)
    says("a missing file is named at once", it.seen("#record-files"), FILES["missing"])
    judge("and cannot be saved", not it.all("#record-files .vaulted button"))
    vault.stop()
    it.open(address)
    it.wait(lambda: FILES["silent"] in it.seen("#record-told"), "a silent vault is not named")
    judge("a silent vault is named, and nothing else said of the file", "anifest" not in it.seen("#record-told"))
    vault.start()


def refused(view: View, vault: Vault) -> None:
    """Uploads that do not succeed: no room, another digest, a vault that goes away, somebody who stops; then again."""
    it, place = view.browser, vault.proxy.folder / "more"
    place.mkdir()
    for name, size in (("a.bin", 300_000), ("b.bin", 30 * MIB)):
        (place / name).write_bytes(os.urandom(size))
    view.open()
    view.drop([place / "a.bin", place / "b.bin"])
    vault.restart("--reserve", str(1 << 60))
    it.write(file_all_aggregation="1")
    view.file()
    same("no room: neither is filed", (view.counts(), set(view.answers())), ({"added": "0", "unput": "2"}, {WORDS["unput"]["full"]}))
    says("no room: said above the list too", it.seen("#file-large"), f"{300_000 + 30 * MIB:,}", WORDS["noRoom"].split("{")[0])
    vault.restart()
    stopped(view, vault)
    went_away(view, vault)
    view.file()
    judge("again: both are filed", view.counts().get("added") == "2", f"{view.outcome()} {view.answers()}")
    # one of the four of before was removed by hand
    same("again: the vault has each once", vault.count(), 5)


def on_its_way(view: View, vault: Vault) -> None:
    """Presses the button while the vault stands still: the first file is on its way, and does not arrive."""
    it = view.browser
    upload = WORDS["going"]["upload"].split(":")[0]
    assert vault.process
    vault.process.send_signal(signal.SIGSTOP)
    it.one("#file-submit").click()
    it.wait(lambda: any(upload in one.text for one in it.all("#file-table .going .hint")), "no file is on its way")


def stopped(view: View, vault: Vault) -> None:
    """Somebody presses the button that stops, while a file is on its way."""
    it = view.browser
    on_its_way(view, vault)
    it.one("#file-stop").click()
    it.wait(lambda: not it.one("#file-progress").is_displayed(), "it does not stop")
    assert vault.process
    vault.process.send_signal(signal.SIGCONT)
    it.settled()
    same("stopped: nothing is filed", (view.counts(), set(view.answers())), ({"added": "0", "left": "2"}, {TEXTS["filing"]["left"]}))


def went_away(view: View, vault: Vault) -> None:
    """The vault goes away while a file is on its way: that file is not filed, nor the next one, and their rows say why."""
    it = view.browser
    on_its_way(view, vault)
    vault.stop()
    it.wait(lambda: not it.one("#file-progress").is_displayed(), "it goes on")
    it.settled()
    failed = WORDS["unput"]["failed"].format(status=502)
    same("the vault went away: nothing is filed", (view.counts(), set(view.answers())), ({"added": "0", "unput": "2"}, {failed}))
    vault.start()


def without(view: View, vault: Vault, numbers: dict[str, int]) -> None:
    """An office without a vault, and one whose vault is silent: large files are left out, and Record says what it has."""
    it, place = view.browser, vault.proxy.folder / "more"
    vault.stop()
    view.open()
    view.drop([place / "a.bin"])
    same("a silent vault: the file is left out, and nothing is offered", (it.seen("#file-large"), [one.text for one in it.all("#file-table tbody button")]),
         (WORDS["silent"], [TEXTS["file"]["off"]]))
    vault.start()
    vault.named(False)
    view.open()
    view.drop([place / "a.bin"])
    same("no vault: its manifest is offered", [one.text for one in it.all("#file-table tbody button")], [TEXTS["file"]["manifest"], TEXTS["file"]["off"]])
    it.open(f"{vault.proxy.page}#record?number={numbers['film.bin']}")
    it.wait(lambda: "film.bin" in it.seen("#record-words"), "the manifest is not recognised")
    judge("no vault: the content can be saved", it.one("#record-save").is_displayed())
    vault.named(True)


def together(view: View, vault: Vault) -> None:
    """Several files become one record, small ones too; Record shows all of them."""
    it, place = view.browser, vault.proxy.folder / "bundle"
    place.mkdir()
    data = {"1 letter.txt": b"A letter.", "2 plan.bin": os.urandom(400_000), "3 list.txt": b"A list."}
    for name, content in data.items():
        (place / name).write_bytes(content)
    view.open()
    view.drop([place / name for name in data])
    it.press("#file-one-tick")
    it.write(file_all_aggregation="1", file_all_prefix="B/")
    same("one record: the button says so", it.seen("#file-submit"), WORDS["one"]["submit"].format(count=3))
    same("one record: in one request", view.file(), 1)
    same("one record: is filed", view.counts(), {"added": "1"})
    same("one record: each row says so, with one number", len(set(view.answers())), 1)
    judge("one record: which is that of the vault", view.answers()[0].startswith(TEXTS["filing"]["vaultAdded"].split("{")[0]), view.answers()[0])
    number = view.answers()[0].split(" ")[-1]
    told = json.loads(vault.office.ask("GET", f"/records/{number}")[2])
    same("one record: by the first row", (told["ref"], told["title"]), ("B/1 letter.txt", "1 letter"))
    wanted = "".join(f"SHA256 {digest(content)}\nLENGTH {len(content)}\nPLACE {name}\n" for name, content in data.items())
    same("one record: its content names all", vault.office.ask("GET", f"/records/{number}/content")[2].decode(), wanted)
    it.open(f"{vault.proxy.page}#record?number={number}")
    says("one record: Record shows all", it.seen("#record-files"), FILES["heading"]["many"].format(count=3), *data)
    judge("one record: the bytes are there", all(vault.path(digest(content)).read_bytes() == content for content in data.values()))


SHEET = """ref;title;originated;aggregation;Datei
I/1;A letter;2021-06-05;1;letter.txt
I/2;A plan;2021-06-05;1;sub\\plan.tif
I/3;Nothing;2021-06-05;1;
I/4;A slip;2021-06-05;1;lettre.txt
"""


def imported(story: Story, vault: Vault) -> None:
    """A sheet with a column of file names: the documents are chosen beside it, and a large one goes into the vault."""
    view, it, place = importing.View(story), story.browser, vault.proxy.folder / "papers"
    (place / "sub").mkdir(parents=True)
    plan = os.urandom(700_000)
    (place / "letter.txt").write_bytes(b"A letter on paper.")
    (place / "sub/plan.tif").write_bytes(plan)
    view.open()
    view.choose("papers.csv", SHEET.encode())
    same("import: without documents there is no content", [row[7] for row in view.rows()], [""] * 4)
    it.one("#import-folder").send_keys(str(place))
    it.wait(lambda: it.seen("#import-documents-taken") != "", "no document is taken")
    it.settled()
    same("import: two are chosen", it.seen("#import-documents-taken"), TEXTS["import"]["documents"]["taken"]["many"].format(count=2))
    same("import: the column that names them is found", view.found("column-content"), "E: Datei")
    large = TEXTS["import"]["documents"]["vault"].format(size="700,000 bytes")
    same("import: each row shows its document", [row[7] for row in view.rows()], ["18 bytes", large, "", "lettre.txt"])
    says("import: a name that is none of them is wrong", view.rows()[3][8], "E5", TEXTS["import"]["wrong"]["document"])
    before = vault.count()
    view.press()
    same("import: three are filed", view.counts(), {"added": "3"})
    same("import: the vault has one more", vault.count(), before + 1)
    judge("import: its bytes are there", vault.path(digest(plan)).read_bytes() == plan)
    judge("import: its row says so", view.rows()[1][8].startswith(TEXTS["filing"]["vaultAdded"].split("{")[0]), view.rows()[1][8])
    contents = {}
    for number in range(1, 20):
        status, _, body = vault.office.ask("GET", f"/records/{number}")
        if status == 200 and json.loads(body)["ref"].startswith("I/"):
            contents[json.loads(body)["ref"]] = vault.office.ask("GET", f"/records/{number}/content")[2]
    named = f"SHA256 {digest(plan)}\nLENGTH 700000\nPLACE papers/sub/plan.tif\n".encode()
    same("import: the contents", contents, {"I/1": b"A letter on paper.", "I/2": named, "I/3": b""})


@contextlib.contextmanager
def vault_of(office: Office, proxy: Proxy) -> Iterator[Vault]:
    it = Vault(office, proxy)
    it.start()
    it.named(True)
    try:
        yield it
    finally:
        it.stop()


def tell(office: Office, proxy: Proxy, it: Browser, folder: pathlib.Path) -> None:
    fill(office)
    files = made(folder)
    view = View(Story(office, proxy, it, folder))
    with vault_of(office, proxy) as vault:
        looks.readable_view(it, proxy, "file, with a vault", "#file")
        dropped(view, vault, files)
        numbers = filed(view, vault, files)
        for name in SIZES:
            it.width(*SIZES[name])
            shot(it, "file-vault", name, "light")
        it.width(1280)
        again(view, vault, files)
        shown(it, vault, files, numbers)
        layout.words(it, f"{proxy.page}#record?number={numbers['film.bin']}", "the files of a record")
        looks.readable_view(it, proxy, "record, with files", f"#record?number={numbers['film.bin']}")
        for name in SIZES:
            it.width(*SIZES[name])
            shot(it, "record-vault", name, "light")
        it.width(1280)
        looked(it, vault, numbers)
        compared(it, vault, files, numbers)
        wrong(it, vault, files, numbers)
        refused(view, vault)
        imported(view.story, vault)
        together(view, vault)
        without(view, vault, numbers)
