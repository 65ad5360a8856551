"""The help of commands, run as they lie in the package, and its parts."""
import json
import pathlib
import re
import subprocess
import sys
from concurrent.futures import ThreadPoolExecutor
from typing import NamedTuple

from making.failing import fail

HELP_OF = pathlib.Path(__file__).with_name("help_of.py")
SECONDS = 120
ENTRY = re.compile(r" {2,4}(?P<call>\S.*?)(?: {2,}(?P<text>\S.*))?$")
NONE = ("-h, --help", "COMMAND")
"""entries of each help, which no page needs"""


class Entry(NamedTuple):
    """An argument or an option: how it is written, and what it does."""

    call: str
    text: str


class Help(NamedTuple):
    """The help of a command or of a word of it."""

    usage: str
    entries: list[Entry]


def read(text: str) -> Help:
    """Reads a help as argparse writes it, or a usage alone."""
    usage, _, rest = text.partition("\n")
    entries: list[Entry] = []
    for line in rest.split("\n"):
        match = ENTRY.match(line)
        if match and match["call"] not in NONE:
            entries.append(Entry(match["call"], match["text"] or ""))
        elif line.startswith(" " * 10) and entries and not entries[-1].text:
            # the text of a long option is on the next line
            entries[-1] = Entry(entries[-1].call, line.strip())
    return Help(usage.removeprefix("usage: ").replace("[-h] ", "").replace(" [-h]", ""), entries)


def is_python(command: pathlib.Path) -> bool:
    return command.read_bytes().split(b"\n", 1)[0].startswith(b"#!/usr/bin/python3")


class Command(NamedTuple):
    """The help of a command, and those of its words, each with what a list of all words has of it."""

    whole: Help
    words: dict[str, Help]

    def about(self, word: str) -> str:
        return next((entry.text for entry in self.whole.entries if entry.call == word), "")

    def own(self) -> list[Entry]:
        """Returns the entries of the command itself."""
        return [entry for entry in self.whole.entries if entry.call not in self.words]


def command_of(path: pathlib.Path) -> Command | None:
    """Returns what a command says of itself, or None if it is a script of the shell."""
    if not is_python(path):
        return None
    done = subprocess.run([sys.executable, "-I", HELP_OF, path], stdin=subprocess.DEVNULL, stdout=subprocess.PIPE,
                          stderr=subprocess.PIPE, text=True, timeout=SECONDS, check=False)
    try:
        found = json.loads(done.stdout)
    except ValueError:
        fail(f"{path.name} has no help for its manual page: {done.stderr.strip().splitlines()[-1:]}")
    return Command(read(found["help"]), {name: read(text) for name, text in found["words"].items()})


def all_of(paths: list[pathlib.Path]) -> dict[str, Command | None]:
    """Returns what commands say of themselves, by their names."""
    with ThreadPoolExecutor(4) as threads:
        return dict(zip([path.name for path in paths], threads.map(command_of, paths), strict=True))
