"""The list of all versions of the files of which administrators have copies, from the history of the repository."""
import importlib.machinery
import importlib.util
import pathlib
import subprocess
from types import ModuleType

from making.failing import fail
from making.listed import DOC_REPLICAS, REPLICAS, SHARE, place_of
from making.words import TOP

LIST = TOP / "deploy/packaging/copies"


def script() -> ModuleType:
    """Loads office-copies, which knows what does not count as a change."""
    loader = importlib.machinery.SourceFileLoader("office_copies", str(TOP / "deploy/packaging/office-copies"))
    spec = importlib.util.spec_from_loader("office_copies", loader)
    assert spec is not None
    module = importlib.util.module_from_spec(spec)
    loader.exec_module(module)
    return module


def git(*words: str, given: bytes = b"") -> bytes:
    """Runs git; without a history there are no older versions."""
    done = subprocess.run(["git", *words], cwd=TOP, input=given, stdout=subprocess.PIPE, stderr=subprocess.DEVNULL,
                          check=False)
    return done.stdout if done.returncode == 0 else b""


def name_of(source: str) -> str:
    """Returns the name that office-copies has for a file: its path in the package, or in `service/replicas`."""
    if place := place_of(source):
        return place.removeprefix(f"{SHARE}/")
    if place := place_of(source, REPLICAS):
        return place.replace(DOC_REPLICAS, "service/replicas")
    fail(f"no package has {source}, which deploy/packaging/copies names")


def ends_of(source: str) -> set[str]:
    """Returns how a path of a file ended in any commit: its folder was moved as a whole, or was called otherwise."""
    return {"/".join(path.split("/")[-2:]) for path in (source, name_of(source))}


def blobs(sources: list[str]) -> dict[str, list[str]]:
    """Lists the contents that each file ever had, the last one first."""
    ends = {it: ends_of(it) for it in sources}
    patterns = [f":(glob)**/{it}" for it in sorted(set().union(*ends.values()))]
    contents: dict[str, list[str]] = {it: [] for it in sources}
    log = git("log", "--raw", "--no-renames", "--no-abbrev", "--format=", "HEAD", "--", *patterns).decode()
    for line in [it for it in log.split("\n") if it.startswith(":")]:
        fields, path = line.split("\t", 1)
        blob = fields.split()[3]
        for source in sources:
            is_its = any(path.endswith(f"/{it}") for it in ends[source])
            if is_its and blob.strip("0") and blob not in contents[source]:
                contents[source].append(blob)
    return contents


def texts(names: list[str]) -> dict[str, str]:
    """Reads blobs, by one call of git."""
    given = git("cat-file", "--batch", given="".join(f"{it}\n" for it in names).encode())
    read, at = {}, 0
    for name in names:
        end = given.index(b"\n", at)
        size = int(given[at:end].split()[2])
        read[name] = given[end + 1:end + 1 + size].decode(errors="surrogateescape")
        at = end + size + 2
    return read


def text() -> str:
    """Returns the list: for each file its name, where its copy is, and its digests, that of now first."""
    digest_of = script().digest_of
    rows = [line.split() for line in LIST.read_text().split("\n") if line and not line.startswith("#")]
    of_sources = blobs(sorted({source for source, _ in rows}))
    read = texts(sorted({name for names in of_sources.values() for name in names}))
    lines = []
    for source, place in rows:
        path = pathlib.Path(TOP / source)
        if not path.is_file():
            fail(f"deploy/packaging/copies names {source}, which is not there")
        older = [digest_of(read[name]) for name in of_sources[source]]
        lines.append(" ".join([name_of(source), place, *dict.fromkeys([digest_of(path.read_text()), *older])]))
    return "\n".join(lines) + "\n"
