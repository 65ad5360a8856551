"""Manifests and files that somebody made to do harm."""
import io
import os
import pathlib

from vault_trial.answers import digest
from vault_trial.expected import GRACE
from kit.judging import judge, same
from vault_trial.standin import StandIn
from vault_trial.world import World, free_port

from office_common import manifest
from office_vault import objects


def foreign(it: World) -> None:
    """A manifest that names an object of another office gets nothing of it."""
    secret = b"of another office" * 100
    other = objects.Vault.make(it.folder / "other")
    other.receive(digest(secret), len(secret), io.BytesIO(secret).read)
    text = manifest.Named(digest(secret), len(secret), "../../../etc/passwd").text().encode()
    number = it.office.add("D", text, set())
    same("a manifest gives no object of another vault", it.ask("GET", f"/records/{number}/files/1")[0], 503)
    done = it.run("check", it.vault, it.place())
    says = f"record {number} names {digest(secret)}, which is missing"
    judge("the check says that it is missing", says in done.stdout, done.stdout)


def lengths_and_places(it: World) -> None:
    data = b"mine"
    it.put(it.note(data))
    number = it.office.add("K", manifest.Named(digest(data), 10**17, "a/b\\c").text().encode(), {digest(data)})
    done = it.run("check", it.vault, it.place())
    judge("the check says that a length is another", f"record {number} names {digest(data)} with {10**17} bytes"
          in done.stdout, done.stdout)
    same("a place is a name alone", it.ask("GET", f"/records/{number}/files/1")[2]["Content-Disposition"],
         "attachment; filename*=UTF-8''c")
    for place in ('x"; filename=y', "a\u2028Set-Cookie: x", "\u202egpj.exe", "..", "a/"):
        number = it.office.add("K", manifest.Named(digest(data), 4, place).text().encode(), {digest(data)})
        status, _, lines = it.ask("GET", f"/records/{number}/files/1")
        name = lines["Content-Disposition"].removeprefix("attachment; filename*=UTF-8''")
        judge(f"{place!r} is one name", status == 200 and name.isascii() and not set(name) & set('"; /\\\r\n')
              and "Set-Cookie" not in lines, lines)
    slip = manifest.Named(digest(data), 4, "x").text().replace("\n", "\r\n").encode()
    number = it.office.add("K", slip, {digest(data)})
    done = it.run("check", it.vault, it.place())
    says = f"record {number} begins as a manifest"
    judge("the check reports a manifest with a slip", says in done.stdout, done.stdout)
    same("it names no file to a reader", it.ask("GET", f"/records/{number}/files")[1], b"[]")


def long(it: World) -> None:
    """Contents of the greatest length, of a thousand lines and of one: sweep, check and service take them."""
    most = manifest.MOST_BYTES
    data = b"of a long manifest"
    name = it.note(data)
    it.put(name)
    group = manifest.Named("c" * 64, 1, "x").text().encode()
    texts = {"spaces": b" " * most, "digits": b"SHA256 " + b"d" * (most - 7),
             "a slip at its end": group * 2900 + f"sha256 {name}".encode(),
             "many groups": group * 2900 + manifest.Named(name, len(data), "last").text().encode()}
    numbers = {what: it.office.add("D", text, {name} if name.encode() in text else set())
               for what, text in texts.items()}
    it.sweep()
    status, said, _ = it.ask("GET", f"/records/{numbers['many groups']}/files")
    judge("a list of 2,901 files", status == 200 and said.count(b'"file":') == 2901, (status, len(said)))
    status, _, lines = it.ask("GET", f"/records/{numbers['many groups']}/files/2901")
    judge("the last of them", status == 200 and lines["X-Accel-Redirect"].endswith(name), (status, lines))
    for what in ("spaces", "digits", "a slip at its end"):
        same(f"{what}: no files", it.ask("GET", f"/records/{numbers[what]}/files")[1], b"[]")
    it.model.now += GRACE
    it.sweep()
    it.model.now += GRACE
    it.sweep()
    judge("what a long manifest and a slip name is kept", name in it.there())
    size = (it.vault / "state.db").stat().st_size
    judge(f"the memory of the sweeps is small: {size}", size < 4 << 20)


def strangers(it: World) -> None:
    """What is in the folders and no object harms nothing, and is reported."""
    inner = it.vault / "objects" / "ab"
    (inner / "stranger").write_text("x")
    os.symlink("/etc/passwd", inner / ("ab" + "0" * 62))
    (inner / ("ab" + "1" * 62)).mkdir()
    (it.vault / "objects" / "more").mkdir()
    done = it.run(*it.sweep_words())
    same("strangers do not stop the sweep", done.returncode, 0)
    found = it.run("check", it.vault, it.place(), "--quick").stdout
    done = it.run("check", it.vault, it.place())
    for name in ("ab/stranger", "ab/ab" + "0" * 62, "ab/ab" + "1" * 62, "more"):
        judge(f"the check reports {name[:12]}", f"objects/{name} is no object" in done.stdout, done.stdout + found)


def tried(folder: pathlib.Path) -> None:
    with World(folder, 8, StandIn(free_port())) as it:
        foreign(it)
        lengths_and_places(it)
        long(it)
        strangers(it)
    judge("the model agrees", not it.wrong, it.wrong)
