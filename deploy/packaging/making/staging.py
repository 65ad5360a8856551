"""The files of the package, laid out below a folder as they lie on a machine."""
import gzip
import os
import pathlib
import re
import shutil
import subprocess

from making import copies, formats, helps, manual
from making.changelog import Version, debian
from making.failing import fail
from making.listed import DOC, DOC_REPLICAS, FILES, HERE, REPLICAS, SERVICE, SHARE, listed
from making.words import TOP, table

UNITS = "lib/systemd/system"
TOOLS = ("check", "convert", "intake", "receipts", "transfer", "verify")
"""commands that lay in the documentation before: pages of then, and scripts of people, name them there"""
# what the examples say of a machine without the package, and what is so with it
PLACES = [("/usr/local/bin/", "/usr/bin/"), ("/usr/local/share/office", "/usr/share/office"),
          ("/usr/local/lib/office-replicas", "/usr/lib/office-replicas")]
# files in which that is said for the machine; pages tell of both
MACHINE = (".service", ".timer", ".conf", ".nft", "office-acts", "city.json", "office-replicas-setup",
           "office-replicas-renew")


def units(of: str = FILES) -> list[str]:
    """What systemd may have running of the package's units, as patterns."""
    names = [it.name for it in listed(of) if it.folder == UNITS and not it.source.is_dir()]
    return sorted(it.replace("@.", "@*.") for it in names)


def is_left_out(name: pathlib.Path) -> bool:
    """Whether a tool has made the file, as it ran."""
    return any(it == "__pycache__" or it.startswith(".") for it in name.parts)


def files_below(source: pathlib.Path) -> list[pathlib.Path]:
    if source.is_file():
        return [source]
    files = [it for it in source.rglob("*") if it.is_file()]
    return sorted(it for it in files if not is_left_out(it.relative_to(source)))


def put(text: str | bytes, to: pathlib.Path, mode: int = 0o644) -> None:
    to.parent.mkdir(parents=True, exist_ok=True)
    to.write_bytes(text if isinstance(text, bytes) else text.encode())
    to.chmod(mode)


def put_packed(text: str, to: pathlib.Path) -> None:
    """A text as gzip, the same bytes each time."""
    put(gzip.compress(text.encode(), 9, mtime=0), to)


def put_file(source: pathlib.Path, to: pathlib.Path) -> None:
    """A file of the list, with the places of the package."""
    data = source.read_bytes()
    if source.name.endswith(MACHINE):
        text = data.decode()
        for before, after in PLACES:
            text = text.replace(before, after)
        data = text.encode()
    put(data, to, 0o755 if os.access(source, os.X_OK) else 0o644)


def put_program(program: pathlib.Path, to: pathlib.Path) -> None:
    """The program, without the names that only a debugger reads."""
    with open(program, "rb") as file:
        head = file.read(20)
    if head[:5] != b"\x7fELF\x02" or head[18:20] != b"\x3e\x00":
        fail(f"{program} is no program for amd64, so no package is made of it")
    to.parent.mkdir(parents=True, exist_ok=True)
    subprocess.run(["strip", "--strip-unneeded", "--remove-section=.comment", "--remove-section=.note", "-o", to,
                    program], check=True)
    to.chmod(0o755)


def put_completion(to: pathlib.Path) -> None:
    words = table()
    operands = "\n".join(f'    {it.name}) words="{" ".join(it.operands)}" ;;' for it in words)
    text = (HERE / "completion").read_text()
    put(text.replace("@WORDS@", " ".join(it.name for it in words)).replace("    # @OPERANDS@", operands), to)


def scripts_in(of: str) -> list[str]:
    return sorted(it.name for it in listed(of) if it.folder == "usr/bin")


def put_manuals(top: pathlib.Path, last: Version, of: str) -> None:
    """The manual page of each script of a list, and of the files that the package office reads."""
    version, day = last.number, str(last.day)
    scripts = [top / "usr/bin" / name for name in scripts_in(of)]
    for name, command in helps.all_of(scripts).items():
        text = (top / "usr/bin" / name).read_text()
        put_manual(top, name, manual.section_of(name), manual.script(name, text, command, version, day))
    for each in formats.FORMATS if of == FILES else ():
        put_manual(top, each.name, 5, formats.page(each, version, day))


def put_manual(top: pathlib.Path, name: str, section: int, text: str) -> None:
    put_packed(text, top / f"usr/share/man/man{section}" / f"{name}.{section}.gz")


def put_listed(top: pathlib.Path, of: str) -> None:
    """The files of a list."""
    for source, folder, name in listed(of):
        if not source.exists():
            fail(f"deploy/packaging/{of} names {source.relative_to(TOP)}, which is not there")
        for file in files_below(source):
            put_file(file, top / folder / name / file.relative_to(source))


def put_link(file: pathlib.Path, link: pathlib.Path) -> None:
    """Puts a link to a file of the package."""
    link.parent.mkdir(parents=True, exist_ok=True)
    link.unlink(missing_ok=True)
    link.symlink_to(os.path.relpath(file, link.parent))


def put_links(top: pathlib.Path) -> None:
    """Puts a link at the path of the repository by which pages name a file, and one where a file or a tool was before."""
    services = [top / SHARE / it for it in SERVICE]
    for source, folder, name in listed():
        file, link = top / folder / name, top / DOC / source.relative_to(TOP)
        is_service = any(file.is_relative_to(it) for it in services)
        if (file.is_relative_to(top / DOC) or is_service) and link != file:
            put_link(file, link)
        if is_service:
            # a link for each file: dpkg puts none in the place of a folder
            for it in files_below(file):
                put_link(it, top / DOC / "service" / it.relative_to(top / SHARE))
    for tool in TOOLS:
        put_link(top / "usr/bin" / f"office-{tool}", top / DOC / "tools" / tool)


def stage_replicas(top: pathlib.Path, all_versions: list[Version], maintainer: str) -> None:
    """Lays out the files of office-replicas below a folder."""
    put_listed(top, REPLICAS)
    put_manuals(top, all_versions[0], REPLICAS)
    doc = top / DOC_REPLICAS
    put((HERE / "copyright").read_text(), doc / "copyright")
    put_packed(debian(all_versions, maintainer, "office-replicas"), doc / "changelog.gz")


def stage(top: pathlib.Path, program: pathlib.Path, all_versions: list[Version], maintainer: str) -> None:
    """Lays out all files below a folder. What is not there any more is left where it lies."""
    put_program(program, top / "usr/bin/office")
    put_listed(top, FILES)
    put_links(top)
    last = all_versions[0]
    put_manuals(top, last, FILES)
    put_manual(top, "office", 1, manual.office(last.number, str(last.day), scripts_in(FILES)))
    put_completion(top / "usr/share/bash-completion/completions/office")
    put(copies.text(), top / "usr/share/office/copies")
    put((HERE / "copyright").read_text(), top / DOC / "copyright")
    put_packed(debian(all_versions, maintainer), top / DOC / "changelog.gz")


def hooks(of: str = FILES) -> dict[str, str]:
    """What Debian runs before and after, with the names of the units. Those of a list lie beside it."""
    names = " ".join(f"'{it}'" for it in units(of))
    folder = (HERE / of).parent
    return {it: re.sub("@UNITS@", names, (folder / it).read_text()) for it in ("postinst", "prerm", "postrm")}


def set_times(top: pathlib.Path, seconds: int) -> None:
    """Gives all files below a folder one time, so that the package has the same bytes each time."""
    for it in [*top.rglob("*"), top]:
        os.utime(it, (seconds, seconds), follow_symlinks=False)


def remove(top: pathlib.Path) -> None:
    shutil.rmtree(top, ignore_errors=True)
