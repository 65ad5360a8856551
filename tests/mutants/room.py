"""A copy of a crate and of those below it, in which its mutants are tried."""
import os
import pathlib
import re
import shutil
import subprocess
import tempfile

import batches
from mutant import TOP, Mutant, Texts

REPORT = re.compile(r"^rt: must-fail (\w+/\w+)\.edit: (.*)$", re.M)
REFUSED = "refused, as it must be"


def below(name: str) -> list[str]:
    """A crate and those of the repository that it reaches."""
    lines = [line.split("#")[0].partition(":") for line in (TOP / "crates.txt").read_text().split("\n")]
    uses = {named.split()[0]: rest.split() for named, _, rest in lines if named.strip()}
    found = [name]
    for it in found:
        found += [dep for dep in uses[it] if dep in uses and dep not in found]
    return found


def link_or_copy(one: str, other: str) -> None:
    """Links a file, or copies it where it is of another disk."""
    try:
        os.link(one, other)
    except OSError:
        shutil.copy2(one, other)


def linked(folder: pathlib.Path, to: pathlib.Path) -> None:
    """A copy of what was kept; what was proved is linked, since a check replaces such a file and never writes in it."""
    def copy(one: str, other: str) -> None:
        (link_or_copy if one.endswith(".oantt") else shutil.copy2)(one, other)

    shutil.copytree(folder, to, copy_function=copy)


class Room:
    """The copy: the sources of a crate, and what was built and kept of it and of those below."""

    def __init__(self, name: str, jobs: int = 2) -> None:
        self.name, self.jobs, self.checks = name, jobs, 0
        self.held = tempfile.TemporaryDirectory(prefix="mutants-")
        self.top = pathlib.Path(self.held.name)
        self.crate = self.top / "crates" / name
        names = below(name)
        lines = (TOP / "crates.txt").read_text().split("\n")
        kept = [line for line in lines if line.split(":")[0].split()[:1] and line.split(":")[0].split()[0] in names]
        (self.top / "crates.txt").write_text("".join(f"{line}\n" for line in kept))
        shutil.copy(TOP / "HANDLES", self.top)
        subprocess.run(["git", "-C", str(self.top), "init", "-q"], check=True)
        for it in names:
            for part in ("src", "specs", "proofs"):
                if (TOP / "crates" / it / part).is_dir():
                    shutil.copytree(TOP / "crates" / it / part, self.top / "crates" / it / part)
            if (TOP / "crates" / it / "out/rlib").is_dir():
                shutil.copytree(TOP / "crates" / it / "out/rlib", self.top / "crates" / it / "out/rlib",
                                copy_function=link_or_copy)
        self.kept = self.crate / "out/incremental"
        self.start = self.top / "start"
        if (TOP / "crates" / name / "out/incremental").is_dir():
            self.kept.parent.mkdir(exist_ok=True)
            linked(TOP / "crates" / name / "out/incremental", self.kept)

    def check(self) -> tuple[int, str]:
        """The status and the report of a check of the crate as it is in the copy."""
        ran = subprocess.run(["rt", "check", "--jobs", str(self.jobs)], cwd=self.crate, stdin=subprocess.DEVNULL,
                             stdout=subprocess.PIPE, stderr=subprocess.STDOUT, text=True, errors="replace")
        self.checks += 1
        if os.environ.get("REPORTS"):
            (pathlib.Path(os.environ["REPORTS"]) / f"{self.name}_{self.checks}").write_text(ran.stdout)
        return ran.returncode, ran.stdout

    def begin(self) -> str:
        """Proves the crate as it stands, which what follows goes on from; what it says where it is not proved."""
        status, report = self.check()
        if status:
            return report
        linked(self.kept, self.start)
        return ""

    def try_batch(self, texts: Texts, mutants: list[batches.Planned]) -> str:
        """The report of one check of the crate with the changes of all these mutants."""
        shutil.rmtree(self.kept, ignore_errors=True)
        linked(self.start, self.kept)
        changed = batches.edited(texts, mutants) or {}
        for path, text in changed.items():
            (self.crate / path).write_text(text)
        try:
            return self.check()[1]
        finally:
            for path in changed:
                (self.crate / path).write_text(texts[f"crates/{self.name}/{path}"])

    def try_alone(self, mutants: list[Mutant]) -> dict[str, str]:
        """What `rt must-fail` says of each mutant, which has a check for each."""
        shutil.rmtree(self.kept, ignore_errors=True)
        if self.start.is_dir():
            linked(self.start, self.kept)
        folder = self.crate / "must-fail"
        shutil.rmtree(folder, ignore_errors=True)
        folder.mkdir()
        for it in mutants:
            (folder / f"{it.name}.edit").write_text(it.text)
        ran = subprocess.run(["rt", "must-fail", self.name], cwd=self.top, stdin=subprocess.DEVNULL,
                             stdout=subprocess.PIPE, stderr=subprocess.STDOUT, text=True, errors="replace",
                             env={**os.environ, "RT_JOBS": "1"})
        said = dict(REPORT.findall(ran.stdout))
        return {it.key: said.get(it.key, ran.stdout[-600:]) for it in mutants}
