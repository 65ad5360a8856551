"""Small Debians for the trials that boot one: mmdebstrap makes each once a week, and a tar of it stays in a cache.

OFFICE_TEST_CACHE names the folder of the tars, in place of /var/cache/office-tests. ROOT names a tar to be used in place
of any. `tests/debians make` makes them where Debian's mirror can be reached; a trial without a network uses them.
"""
from __future__ import annotations

import fcntl
import hashlib
import os
import pathlib
import shutil
import subprocess
import time

from skips import Skipped

SUITE, MIRROR = "bookworm", "http://deb.debian.org/debian"
PACKAGES = {
    # what an administrator's machine has, and what the package names in its fields
    "package": "adduser,age,openssh-client,openssl,python3,python3-aiohttp,python3-h11,sqlite3,systemd",
    "gate": "adduser,apache2-utils,curl,e2fsprogs,libnginx-mod-http-js,logrotate,nftables,nginx-light,openssl,procps,"
            "python3,python3-aiohttp,python3-h11,sqlite3,systemd",
    "vault": "adduser,python3,sqlite3,systemd,curl",
    # a fresh Debian, and curl for the trial
    "setup": "curl,e2fsprogs,systemd,systemd-sysv",
    "signin": "adduser,curl,e2fsprogs,ldap-utils,libnginx-mod-http-js,logrotate,nftables,nginx-light,openssh-client,"
              "openssl,procps,python3,python3-aiohttp,python3-h11,python3-ldap3,slapd,sqlite3,systemd,"
              "systemd-sysv",
    # with a provider: LemonLDAP::NG, and what its OpenID Connect and its LDAP need
    "llng": "adduser,curl,e2fsprogs,ldap-utils,lemonldap-ng,lemonldap-ng-fastcgi-server,libapache-session-browseable-perl,"
            "libconvert-base32-perl,libcrypt-openssl-bignum-perl,libdbi-perl,libemail-sender-perl,libgd-securityimage-perl,"
            "libio-socket-timeout-perl,libio-string-perl,libipc-run-perl,liblwp-protocol-https-perl,libmime-tools-perl,"
            "libnet-ldap-perl,libnginx-mod-http-js,libstring-random-perl,libunicode-string-perl,libxml-simple-perl,logrotate,"
            "nftables,nginx-light,openssh-client,openssl,procps,python3,python3-aiohttp,python3-cryptography,python3-h11,"
            "python3-jwt,slapd,sqlite3,systemd,systemd-sysv",
    "replicas": "adduser,python3,python3-h11,sqlite3,systemd,systemd-sysv,etcd-server,etcd-client,openssl,curl,"
                "keepalived,nftables,iproute2,nginx-light,openssh-server",
}
"""The packages of each small Debian, by the trial that boots it."""
LATER = {
    # what docs/SETUP.md has installed, and what the package depends on
    "setup": "adduser libnginx-mod-http-js logrotate nftables nginx openssh-client openssl python3 python3-aiohttp "
             "python3-h11 sqlite3",
}
"""The packages that lie there as files, so that `apt-get install` installs them in a machine without a network."""


def cache() -> pathlib.Path:
    """Returns the folder of the tars."""
    return pathlib.Path(os.environ.get("OFFICE_TEST_CACHE") or "/var/cache/office-tests")


def stem(name: str) -> str:
    """Returns how the files of a Debian begin: other packages, or another suite, give another stem."""
    content = " ".join([SUITE, PACKAGES[name], *LATER.get(name, "").split()])
    digest = hashlib.sha256(content.encode()).hexdigest()
    return f"{name}-{digest[:12]}-"


def of_this_week(name: str) -> pathlib.Path:
    """Returns where the tar of this week is, or will be."""
    return cache() / f"{stem(name)}{time.strftime('%G-W%V', time.gmtime())}.tar"


def words_of(name: str, file: pathlib.Path) -> list[str]:
    """Returns the command that makes a Debian."""
    later: list[str] = []
    if name in LATER:
        # mmdebstrap switches off what a fresh Debian has on
        load = f"apt-get install --quiet=2 --yes --download-only --option APT::Install-Recommends=1 {LATER[name]}"
        later = ["--skip=cleanup/apt", *(f'--customize-hook=chroot "$1" {it}' for it in ("apt-get clean", load))]
    # without a sync of each file, dpkg takes a fraction of the time
    return ["mmdebstrap", "--quiet", "--variant=minbase", "--dpkgopt=force-unsafe-io", *later,
            f"--include={PACKAGES[name]}", SUITE, str(file), MIRROR]


def made(name: str) -> list[pathlib.Path]:
    """Lists the tars of a Debian, the oldest first."""
    return sorted(cache().glob(f"{stem(name)}*.tar"))


def make(name: str) -> str:
    """Makes the tar of this week and removes older ones; returns why that failed, or an empty text."""
    if shutil.which("mmdebstrap") is None:
        return "mmdebstrap is missing here (apt-get install mmdebstrap)"
    wanted = of_this_week(name)
    unfinished = wanted.with_name(f"unfinished-{name}.tar")
    try:
        wanted.parent.mkdir(parents=True, exist_ok=True)
        lock = open(wanted.with_name(f"{name}.lock"), "w", encoding="ascii")
    except OSError as error:
        return f"{error.filename}: {error.strerror}"
    with lock:
        fcntl.flock(lock, fcntl.LOCK_EX)
        if wanted.exists():
            return ""
        done = subprocess.run(words_of(name, unfinished), stdin=subprocess.DEVNULL, capture_output=True, text=True,
                              check=False)
        if done.returncode:
            unfinished.unlink(missing_ok=True)
            return f"mmdebstrap could not make one from {MIRROR}: {' '.join(done.stderr.split())[-300:]}"
        unfinished.rename(wanted)
        for older in cache().glob(f"{name}-*.tar"):
            if older != wanted:
                older.unlink(missing_ok=True)
    return ""


def root(name: str) -> pathlib.Path:
    """Returns a tar of this Debian: that of this week, made now if need be, else the newest there is."""
    if os.environ.get("ROOT"):
        return pathlib.Path(os.environ["ROOT"])
    if of_this_week(name).exists():
        return of_this_week(name)
    reason = make(name)
    if not made(name):
        raise Skipped(f"no small Debian ({name}) is in {cache()}; run tests/debians make where Debian's mirror can be "
                      f"reached. {reason}")
    return made(name)[-1]


def unpack(name: str, top: pathlib.Path) -> None:
    """Lays a new machine out in a folder that is not there yet."""
    if os.geteuid() != 0:
        raise Skipped("a small Debian needs root")
    tar = root(name)
    top.mkdir(parents=True)
    subprocess.run(["tar", "-xf", tar, "-C", top], stdin=subprocess.DEVNULL, check=True)
