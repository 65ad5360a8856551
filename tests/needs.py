"""What trials need of the machine: how each need is seen, and the packages of Debian that have it."""
import contextlib
import functools
import os
import pathlib
import shutil
import subprocess
from collections.abc import Iterable, Iterator
from typing import NamedTuple

TOP = pathlib.Path(__file__).resolve().parent.parent
# where commands are looked for: Debian's own Python comes first, since its packages are what the trials use
PATH = f"/usr/bin:/usr/sbin:/bin:/sbin:{os.environ.get('PATH', '')}"
# a network of one's own, and processes that end with the first of them
SPACES = ["unshare", "-n", "-p", "-f", "--kill-child", "--mount-proc"]
MODULES = "/usr/lib/nginx/modules"
DEBIAN = "debian:"
"""how the name of a small Debian begins, as a need"""
POLICY = pathlib.Path("/usr/sbin/policy-rc.d")
SECONDS = 900
"""an installation that takes longer does not end"""


class Need(NamedTuple):
    """Commands, modules of Python and files, and the packages of Debian that have them."""

    packages: str
    commands: str = ""
    modules: str = ""
    files: str = ""


NEEDS = {
    "age": Need("age", "age"),
    "aiohttp": Need("python3-aiohttp", modules="aiohttp"),
    "booted": Need("mmdebstrap systemd-container iproute2 nftables dpkg-dev fakeroot lintian man-db",
                   "mmdebstrap systemd-nspawn ip nft dpkg-shlibdeps lintian man"),
    "chromium": Need("chromium chromium-driver python3-selenium", "chromium chromedriver", "selenium"),
    "curl": Need("curl", "curl"),
    "etcd": Need("etcd-server etcd-client nftables iproute2", "etcd etcdctl nft ip"),
    "faketime": Need("faketime libfaketime", "faketime"),
    "firefox": Need("firefox-esr", "firefox-esr"),
    "gcc": Need("gcc libc6-dev", "gcc"),
    "h11": Need("python3-h11", modules="h11"),
    "jsonschema": Need("python3-jsonschema python3-yaml", modules="jsonschema yaml"),
    "lint": Need("pyflakes3 mypy shellcheck nodejs node-typescript nftables logrotate fail2ban prometheus "
                 "groff systemd dpkg-dev gcc",
                 "pyflakes3 mypy shellcheck node tsc nft logrotate fail2ban-regex promtool "
                 "groff systemd-analyze dpkg-parsechangelog gcc"),
    "miller": Need("miller", "mlr"),
    "nginx": Need("nginx libnginx-mod-http-js libnginx-mod-http-auth-pam apache2-utils", "nginx htpasswd",
                  files=f"{MODULES}/ngx_http_js_module.so {MODULES}/ngx_http_auth_pam_module.so"),
    "nodejs": Need("nodejs", "node"),
    "openssl": Need("openssl openssh-client", "openssl ssh-keygen"),
    "poppler": Need("poppler-utils", "pdftotext"),
    "slapd": Need("slapd ldap-utils python3-ldap3 python3-jwt python3-cryptography", "slapd ldapmodify", "ldap3 jwt cryptography"),
    "slowhttptest": Need("slowhttptest e2fsprogs adduser", "slowhttptest chattr adduser"),
    "sqlite3": Need("sqlite3", "sqlite3"),
    "strace": Need("strace", "strace"),
    "time": Need("time", "/usr/bin/time"),
    "xmllint": Need("libxml2-utils", "xmllint"),
    "zstd": Need("zstd rsync", "zstd rsync"),
}


@functools.cache
def has_module(name: str) -> bool:
    """Whether the Python that runs the trials has a module."""
    python = shutil.which("python3", path=PATH) or "python3"
    done = subprocess.run([python, "-c", f"import {name}"], capture_output=True)
    return done.returncode == 0


@functools.cache
def has_spaces() -> bool:
    """Whether a trial can have a network and processes of its own here."""
    done = subprocess.run([*SPACES, "ip", "link", "set", "lo", "up"], capture_output=True)
    return done.returncode == 0


def is_here(name: str) -> bool:
    """Whether the machine has what a need names."""
    need = NEEDS[name]
    return (all(shutil.which(command, path=PATH) for command in need.commands.split())
            and all(has_module(module) for module in need.modules.split())
            and all(os.path.exists(file) for file in need.files.split()))


def lack(name: str, program: pathlib.Path | None) -> str | None:
    """Why the machine does not meet a need, or None. A trial sees itself whether its small Debian is there."""
    if name.startswith(DEBIAN):
        return None
    if name == "root":
        return None if os.geteuid() == 0 else "needs root"
    if name == "kit":
        return None if shutil.which("rt") else "needs the kit's rt on the PATH"
    if name == "program":
        return None if program and program.exists() else "needs the program: ./office build"
    if name == "spaces":
        return None if has_spaces() else "needs namespaces, which cannot be made here"
    return None if is_here(name) else f"needs apt-get install {NEEDS[name].packages}"


def missing_packages(names: Iterable[str]) -> list[str]:
    """The packages of Debian that these needs lack."""
    lacking = [NEEDS[name].packages.split() for name in sorted(set(names) & set(NEEDS)) if not is_here(name)]
    return sorted({package for packages in lacking for package in packages})


@contextlib.contextmanager
def no_service_starts() -> Iterator[None]:
    """Keeps the services of new packages from starting, unless the machine has a rule of its own."""
    if POLICY.exists():
        yield
        return
    POLICY.write_text("#!/bin/sh\nexit 101\n")
    POLICY.chmod(0o755)
    try:
        yield
    finally:
        POLICY.unlink(missing_ok=True)


def apt_get(*arguments: str) -> bool:
    """Runs apt-get to its end or to its limit, and reports whether it did what was wanted."""
    command = ["apt-get", "-q", "-y", "-o", "Acquire::Retries=2", "-o", "Acquire::http::Timeout=30",
               "-o", "DPkg::Lock::Timeout=120", *arguments]
    try:
        done = subprocess.run(command, stdin=subprocess.DEVNULL, stdout=subprocess.PIPE, stderr=subprocess.STDOUT,
                              env={**os.environ, "DEBIAN_FRONTEND": "noninteractive"}, timeout=SECONDS, text=True,
                              errors="replace")
    except subprocess.TimeoutExpired:
        print(f"apt-get {arguments[0]} did not end in {SECONDS} seconds", flush=True)
        return False
    if done.returncode:
        print("\n".join(done.stdout.strip().split("\n")[-5:]), flush=True)
    return done.returncode == 0


def make_debians(names: Iterable[str]) -> None:
    """Makes the small Debians that trials boot, unless this week's are there."""
    wanted = sorted({name.removeprefix(DEBIAN) for name in names if name.startswith(DEBIAN)})
    if wanted and os.geteuid() == 0 and shutil.which("mmdebstrap", path=PATH):
        try:
            subprocess.run([TOP / "tests/debians", "make", *wanted], stdin=subprocess.DEVNULL, timeout=SECONDS,
                           env={**os.environ, "PATH": PATH})
        except subprocess.TimeoutExpired:
            print(f"small Debians were not made in {SECONDS} seconds", flush=True)


def set_up(wanted: Iterable[str]) -> None:
    """Meets these needs as far as this machine allows: packages of Debian, and the small Debians that trials boot."""
    names = set(wanted)
    install(names)
    make_debians(names)


def install(names: Iterable[str]) -> None:
    """Installs what these needs lack, and prints each package; without root it prints what to install."""
    packages = missing_packages(names)
    if not packages:
        return
    if os.geteuid() != 0 or shutil.which("apt-get") is None:
        print(f"not installed here, so some trials are skipped: apt-get install {' '.join(packages)}", flush=True)
        return
    print(f"installing {' '.join(packages)}", flush=True)
    with no_service_starts():
        apt_get("update")
        if not apt_get("install", "--no-install-recommends", *packages):
            for package in packages:
                print(f"installing {package}", flush=True)
                apt_get("install", "--no-install-recommends", package)
    has_module.cache_clear()
    left = missing_packages(names)
    if left:
        print(f"could not be installed, so some trials are skipped: {' '.join(left)}", flush=True)
