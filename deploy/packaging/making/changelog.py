"""The versions of CHANGELOG.md, and Debian's form of them."""
import datetime
import os
import pathlib
import re
import subprocess
import textwrap
from typing import NamedTuple

from making.failing import fail
from making.words import TOP

HEADING = re.compile(r"^## (\d+\.\d+\.\d+) \((\d{4}-\d\d-\d\d)\)$", re.M)
NEXT = re.compile(r"^## Next\n(.*?)(?=^## )", re.M | re.S)


class Version(NamedTuple):
    """A version, its day, and what changed."""

    number: str
    day: datetime.date
    changes: list[str]

    @property
    def seconds(self) -> int:
        """The beginning of its day, as seconds of the system."""
        start = datetime.datetime.combine(self.day, datetime.time(), datetime.timezone.utc)
        return int(start.timestamp())


def changes_in(text: str) -> list[str]:
    return [" ".join(it.split()) for it in re.findall(r"^- (.*(?:\n  .*)*)", text, re.M)]


def git(*words: str) -> str:
    done = subprocess.run(["git", *words], cwd=TOP, stdout=subprocess.PIPE, stderr=subprocess.DEVNULL, text=True,
                          check=False)
    if done.returncode:
        fail("CHANGELOG.md has changes under 'Next', and there is no git to name their commit: give them a version")
    return done.stdout.strip()


def last_commit() -> tuple[datetime.date, str]:
    """Returns the day of the last commit, and how many commits there are with the name of the last one.

    So two packages of different sources have different versions, and the later of one day is the greater one.
    """
    day, name = git("log", "-1", "--format=%cs %h").split()
    return datetime.date.fromisoformat(day), f"{git('rev-list', '--count', 'HEAD')}.{name}"


def versions() -> list[Version]:
    """The versions, the last one first: the changes under Next are one that names its commit. CHANGELOG names another
    file, for trials."""
    text = pathlib.Path(os.environ.get("CHANGELOG", TOP / "CHANGELOG.md")).read_text()
    pieces = HEADING.split(text)
    found = []
    for number, day, below in zip(pieces[1::3], pieces[2::3], pieces[3::3]):
        below = re.split(r"^## ", below, flags=re.M)[0]
        found.append(Version(number, datetime.date.fromisoformat(day), changes_in(below)))
    if not found:
        fail("CHANGELOG.md has no heading as '## 1.0.0 (2026-11-27)'")
    later = NEXT.search(text)
    if later and changes_in(later[1]):
        day, name = last_commit()
        found.insert(0, Version(f"{found[0].number}+git{day:%Y%m%d}.{name}", day, changes_in(later[1])))
    return found


def plain(text: str) -> str:
    """A change without Markdown."""
    return re.sub(r"\[([^]]+)\]\([^)]+\)", r"\1", text).replace("`", "").replace("**", "")


def debian(all_versions: list[Version], maintainer: str, name: str = "office") -> str:
    """Debian's changelog of a package."""
    found = []
    for it in all_versions:
        found.append(f"{name} ({it.number}) stable; urgency=medium\n")
        for change in it.changes or ["No change is told."]:
            wrapped = textwrap.wrap(plain(change), 74, break_long_words=False, break_on_hyphens=False)
            found.append("  * " + "\n    ".join(wrapped))
        found.append(f"\n -- {maintainer}  {it.day.strftime('%a, %d %b %Y')} 00:00:00 +0000\n")
    return "\n".join(found)
