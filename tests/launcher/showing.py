"""`./office demo`: the page and a city archive behind it, and that nothing of it is left."""
import http.client
import os
import pathlib
import re
import signal
import socket
import subprocess

from building import with_mount
from clone import Clone
from pages.commands import TOP
from kit.judging import judge
from previews import WHOLE

STORY = TOP / "examples/city_archive"
PORT = 8090


class Demo:
    """A demo that runs. Used by `with`, it is killed at the end."""

    def __init__(self, clone: Clone, **more: str) -> None:
        self.room = clone.shell.path("room")
        self.room.mkdir(exist_ok=True)
        env = {**os.environ, **clone.env(TMPDIR=str(self.room), **more)}
        self.run = subprocess.Popen([clone.top / "office", "demo", str(PORT)], env=env, cwd=clone.shell.folder,
                                    stdin=subprocess.DEVNULL, stderr=subprocess.PIPE, start_new_session=True)
        self.said = ""

    def __enter__(self) -> "Demo":
        return self

    def __exit__(self, *_: object) -> None:
        self.run.kill()
        self.run.wait()

    def hears(self, words: str) -> bool:
        """Reads what it says up to a line with these words."""
        while line := self.run.stderr.readline().decode():
            self.said += line
            if words in line:
                return True
        return False

    def end(self, number: int) -> int:
        """Asks it to end, and reads on; its status."""
        self.run.send_signal(number)
        self.said += self.run.stderr.read().decode()
        return self.run.wait()


def asked(method: str, path: str, body: bytes | None = None) -> tuple[int, str, bytes]:
    link = http.client.HTTPConnection("127.0.0.1", PORT, timeout=300)
    link.request(method, path, body)
    reply = link.getresponse()
    return reply.status, reply.getheader("Content-Type", ""), reply.read()


def judge_words(clone: Clone) -> None:
    for port in ("0", "65536", "-1", "here"):
        done = clone.run(f"clone/office demo {port}")
        judge(f"demo {port} is no port", done == (2, "", "office: PORT is a number from 1 to 65535: ./office demo 8090\n"), f"{done}")
    done = clone.run("clone/office demo 1 2")
    judge("demo takes a port alone", done == (2, "", "usage: ./office demo [PORT]\n"), f"{done}")
    with socket.create_server(("127.0.0.1", PORT)):
        done = clone.run(f"clone/office demo {PORT}")
    judge("a port that is in use is named at once", done == (2, "", f"office: port {PORT} of this machine cannot be used "
          "(Address already in use): ./office demo PORT takes another\n") and not clone.tried(), f"{done}")


def judge_page() -> None:
    """What nginx would serve: the page's files, and nothing beside them."""
    status, kind, body = asked("GET", "/web/")
    judge("the page is there", (status, kind, body) == (200, "text/html", (TOP / "page/index.html").read_bytes()), f"{status} {kind}")
    for file in (it for it in (TOP / "page").rglob("*") if it.is_file()):
        status, kind, body = asked("GET", f"/web/{file.relative_to(TOP / 'page')}")
        wanted = {".js": "javascript", ".json": "json", ".css": "css", ".svg": "svg", ".html": "html"}[file.suffix]
        judge(f"{file.relative_to(TOP)} is there", status == 200 and wanted in kind and body == file.read_bytes(), f"{status} {kind}")
    for path in ("/web/../README.md", "/web/%2e%2e/office", "/web/none.js", "/catalogue/../archive.db", "/archive.db", "//etc/passwd"):
        status, kind, body = asked("GET", path)
        judge(f"{path} is not", status == 404, f"{status} {body[:200]!r}")


def judge_archive() -> None:
    """The city archive after its first run, to which acts may be sent."""
    judge("the first run is closed", asked("GET", "/certificates/1") == (200, "text/plain; charset=utf-8",
          (STORY / "certificate-1.txt").read_bytes()))
    status, kind, body = asked("GET", "/records/1")
    judge("a hold is in force", status == 200 and b'"held":"Q-2020-17"' in body, f"{body!r}")
    status, kind, body = asked("POST", "/acts", (STORY / "5-lifted.json").read_bytes())
    answers = b"[" + b",".join((STORY / "5-lifted.out").read_bytes().splitlines()) + b"]"
    judge("it is lifted", (status, body) == (200, answers), f"{body!r}")
    judge("the second run is closed", asked("POST", "/run/resume")[2] == b'{"certificate":2}')
    judge("its certificate is that of the example", asked("GET", "/certificates/2")[2] == (STORY / "certificate-2.txt").read_bytes())


def judge_shown(clone: Clone) -> None:
    with Demo(clone) as demo:
        judge("a demo says where it is", demo.hears("a city archive is at "), demo.said)
        judge("and has its catalogue then", asked("GET", "/catalogue/about.json")[0] == 200)
        judge("the preview is compiled for it", demo.said.startswith(WHOLE) and len(clone.tried()) == 1, demo.said)
        judge("at a port of this machine alone", demo.said.endswith(
            f"office: a city archive is at http://127.0.0.1:{PORT}/web/ until you press Ctrl-C\n"), demo.said)
        judge_page()
        status, kind, body = asked("GET", "/catalogue/records.json")
        judge("it has a catalogue", status == 200 and kind == "application/json" and body.startswith(b"\x1f\x8b"), f"{status}")
        judge_archive()
        listening = subprocess.run(["ss", "-Hltn"], stdout=subprocess.PIPE, check=True).stdout.decode()
        judge("nothing listens to other machines", all("127.0.0.1:" in it for it in listening.splitlines()), listening)
        served = re.findall(r"127\.0\.0\.1:(\d+)", listening)
        with_signal(demo, signal.SIGINT, "Ctrl-C")
        free = [it for it in served if socket.socket().connect_ex(("127.0.0.1", int(it))) == 0]
        judge("and nobody listens any more", len(served) == 2 and not free, f"{served} {free}")


def with_signal(demo: Demo, number: int, name: str) -> None:
    status = demo.end(number)
    judge(f"{name} ends it", status == 0 and demo.said.endswith("office: the demo has ended, and its office is removed\n"),
          f"{status} {demo.said}")
    left = [*map(str, demo.room.rglob("*"))]
    judge("and leaves nothing behind", not left, f"{left}")


def judge_demo(clone: Clone) -> None:
    judge_words(clone)
    judge_shown(clone)
    with Demo(clone) as demo:
        demo.hears("a city archive is at ")
        judge("a second one compiles nothing", not clone.tried(), demo.said)
        with_signal(demo, signal.SIGTERM, "SIGTERM, while the catalogue is made,")
    with_mount(["--bind", "/dev/null"], pathlib.Path("/usr/bin/sqlite3"), lambda: judge_bare(clone))
    clone.unbuilt()
    with Demo(clone, SLOW="30") as demo:
        demo.hears(WHOLE)
        with_signal(demo, signal.SIGINT, "Ctrl-C, while the preview is compiled,")
    with Demo(clone, FAILS="office") as demo:
        demo.hears("no such line")
        judge("a demo that cannot be compiled says why", demo.run.wait() == 2
              and demo.said.endswith("office: the preview could not be compiled, as said above\n"), demo.said)
        judge("and leaves nothing behind", not list(demo.room.iterdir()))
    clone.tried()
    clone.unbuilt()


def judge_bare(clone: Clone) -> None:
    with Demo(clone) as demo:
        judge("without sqlite3 it has a catalogue too", demo.hears("a city archive is at ")
              and "no catalogue" not in demo.said, demo.said)
        with_signal(demo, signal.SIGHUP, "SIGHUP")
