"""nginx with the configuration of the repository, in a folder of its own and at ports of this trial."""
from __future__ import annotations

import contextlib
import os
import pathlib
import re
import signal
import socket
import subprocess
from collections.abc import Mapping
from typing import Any

from kit.waiting import comes

TOP = pathlib.Path(__file__).resolve().parents[2]
SITES = TOP / "deploy/nginx"
MODULE = "/usr/lib/nginx/modules/ngx_http_js_module.so"
TEMPORARY = ("client_body", "proxy", "fastcgi", "uwsgi", "scgi")
"""what nginx writes into files of its own"""
START_SECONDS = 60
END_SECONDS = 10
"""what nginx takes at most to end by SIGTERM"""


def make_key(folder: pathlib.Path) -> None:
    """Makes a key for localhost in a folder, and its certificate, which ends in two days."""
    subprocess.run(["openssl", "req", "-x509", "-newkey", "ec", "-pkeyopt", "ec_paramgen_curve:P-256", "-nodes", "-days", "2",
                    "-subj", "/CN=localhost", "-addext", "subjectAltName=DNS:localhost", "-keyout", folder / "office.key",
                    "-out", folder / "office.crt"], check=True, capture_output=True)


def line_of(name: str, password: str, form: str = "-6") -> str:
    """Returns the line of a name for a file of passwords, by a form of `openssl passwd`."""
    done = subprocess.run(["openssl", "passwd", form, password], check=True, capture_output=True, text=True)
    return f"{name}:{done.stdout}"


def without_ipv6(text: str) -> str:
    """Takes the lines out by which a site listens at IPv6."""
    return re.sub(r"\n *listen \[::\][^\n]*", "", text)


def temporary_in(folder: pathlib.Path) -> str:
    """Makes a folder for nginx's own files, and returns the lines that name it."""
    (folder / "temp").mkdir()
    return "".join(f"{name}_temp_path {folder}/temp/{name};\n" for name in TEMPORARY)


def begin(configuration: pathlib.Path, port: int, log: pathlib.Path) -> subprocess.Popen[Any]:
    """Starts nginx with a process group of its own, and waits until it listens at a port."""
    process = subprocess.Popen(["nginx", "-c", str(configuration), "-e", str(log)], stdin=subprocess.DEVNULL,
                               start_new_session=True)
    if not comes(lambda: process.poll() is not None or listens(port), START_SECONDS) or process.poll() is not None:
        end(process)
        raise AssertionError(f"nginx does not listen at {port}: {log.read_text() if log.exists() else ''}")
    return process


def listens(port: int) -> bool:
    """Whether somebody listens at a port of this machine."""
    with contextlib.suppress(OSError), socket.create_connection(("127.0.0.1", port), 1):
        return True
    return False


def end(process: subprocess.Popen[Any]) -> None:
    """Ends a program by SIGTERM, as nginx needs it to end its workers, and by SIGKILL what then is left of its group."""
    process.terminate()
    with contextlib.suppress(subprocess.TimeoutExpired):
        process.wait(END_SECONDS)
    with contextlib.suppress(ProcessLookupError):
        os.killpg(process.pid, signal.SIGKILL)
    process.wait()


class Sites:
    """The files of deploy/nginx in a folder, with places of this trial for those that they name."""

    def __init__(self, folder: pathlib.Path, port: int, places: Mapping[str, str]) -> None:
        folder.mkdir(parents=True)
        (folder / "log").mkdir()
        self.folder, self.port, self.places = folder, port, places
        self.process: subprocess.Popen[Any] | None = None
        for file in [*SITES.glob("*.conf"), *SITES.glob("*.js")]:
            self.put(file.name, file.read_text())
        make_key(folder)

    def put(self, name: str, text: str) -> pathlib.Path:
        """Writes a file of nginx, at IPv4 alone and with the places of this trial."""
        text = without_ipv6(text)
        for old, new in self.places.items():
            text = text.replace(old, new)
        path = self.folder / name
        path.write_text(text)
        return path

    def configure(self, *lines: str) -> None:
        """Writes the configuration that includes the site, by these lines within `http`."""
        inner = temporary_in(self.folder) + "\n".join(lines)
        self.put("nginx.conf", f"daemon off; user root; pid {self.folder}/pid; load_module {MODULE};\nevents {{}}\n"
                               f"http {{\n{inner}\n}}\n")

    def start(self) -> None:
        """Starts nginx, and waits until it listens."""
        self.process = begin(self.folder / "nginx.conf", self.port, self.folder / "log/start.log")

    def stop(self) -> None:
        """Ends nginx with its workers."""
        if self.process:
            end(self.process)
            self.process = None
