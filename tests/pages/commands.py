"""The commands of a page: of its indented blocks, and of its tables."""
import pathlib
import re
from typing import NamedTuple

TOP = pathlib.Path(__file__).resolve().parent.parent.parent
# what a block of commands begins with, beside the office's own programs; other blocks show a file or an output
PROGRAMS = {
    "adduser", "age", "age-keygen", "apt-get", "cat", "cd", "chattr", "chgrp", "chmod", "chown", "cp", "curl", "cut", "echo",
    "find", "grep", "head", "htpasswd", "install", "journalctl", "ln", "mkdir", "mv", "nft", "nginx", "openssl",
    "printf", "rm", "rsync", "rt", "runuser", "sed", "setfacl", "sha256sum", "shred", "sqlite3", "ssh-keygen", "systemctl",
    "systemd-analyze", "tail", "umask",
}


class Command(NamedTuple):
    """A command, and what the page shows of its output, if it shows any."""

    line: str
    shown: list[str] | None


def blocks(page: str) -> list[list[str]]:
    """The indented blocks of a page, each as its lines."""
    found: list[list[str]] = []
    within = False
    for line in (TOP / page).read_text().split("\n"):
        if line.startswith("    "):
            if not within:
                found.append([])
            found[-1].append(line[4:])
        within = line.startswith("    ")
    return found


def joined(lines: list[str]) -> list[str]:
    """The lines, where each that ends with a backslash goes on in the next."""
    return re.sub(r" \\\n *", " ", "\n".join(lines)).split("\n")


def is_program(word: str) -> bool:
    """Whether a block whose first word is this has commands."""
    return word in PROGRAMS or re.fullmatch(
        r"[A-Z_]+=\d+|/usr/lib/office-\S+|(\./)?((companions|deploy|examples)/\S+|office(-[a-z]+)*)", word) is not None


def commands(page: str) -> list[Command]:
    """The commands of a page, in their order; those of its tables come last."""
    found: list[Command] = []
    for block in blocks(page):
        if block[0].startswith("$ "):
            for line in block:
                if line.startswith("$ "):
                    found.append(Command(line[2:], []))
                else:
                    found[-1].shown.append(line)
        elif is_program(block[0].split(" ")[0]):
            found += [Command(line, None) for line in joined(block)]
    found += [Command(it, None) for it in re.findall(r"\| `(curl [^`]+)` \|", (TOP / page).read_text())]
    return found
