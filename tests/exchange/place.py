"""What the parts share: both commands, offices and bags, and a program that judges nothing."""
from __future__ import annotations

import contextlib
import functools
import hashlib
import importlib.machinery
import importlib.util
import io
import json
import os
import pathlib
import re
import shutil
import sqlite3
import sys
import tempfile
from types import ModuleType
from unittest import mock

from kit.commands import TOP, Done, office, run
from kit.companions import companion
from kit.judging import judge

sys.path.insert(0, str(TOP / "companions/exchange"))
sys.path.insert(0, str(TOP / "companions"))
STORY = TOP / "examples/city_archive/story.json"
TABLES = ("office", "schedules", "schedules2", "classes", "aggregations", "records", "contents", "events", "holds",
          "targets", "runs", "entries", "certificates")


def export(*arguments: object, **env: str) -> Done:
    """Runs office-export."""
    return run(companion("office-export"), *arguments, **env)


def back(*arguments: object, **env: str) -> Done:
    """Runs office-import."""
    return run(companion("office-import"), *arguments, **env)


@functools.cache
def loaded(name: str) -> ModuleType:
    """Loads a command as a module."""
    loader = importlib.machinery.SourceFileLoader(name.replace("-", "_"), str(companion(name)))
    spec = importlib.util.spec_from_loader(loader.name, loader)
    assert spec
    module = importlib.util.module_from_spec(spec)
    loader.exec_module(module)
    return module


def back_here(*arguments: object, program: str) -> Done:
    """Runs office-import in this process, which is much quicker for many folders."""
    out, error = io.StringIO(), io.StringIO()
    with mock.patch.dict(os.environ, OFFICE=program), mock.patch("office_common.command.end_by_signals"), \
            contextlib.redirect_stdout(out), contextlib.redirect_stderr(error):
        status = loaded("office-import").main([str(each) for each in arguments])
    return Done(status, out.getvalue(), error.getvalue())


def rows(file: pathlib.Path) -> dict[str, list[tuple[object, ...]]]:
    """Reads all tables of an office, each in the order of all its columns."""
    base = sqlite3.connect(f"{file.absolute().as_uri()}?immutable=1", uri=True)
    try:
        return {name: sorted(base.execute(f"SELECT * FROM {name}"), key=repr) for name in TABLES}
    finally:
        base.close()


def files_in(folder: pathlib.Path) -> dict[str, bytes]:
    """Reads all files of a folder by their names."""
    return {path.relative_to(folder).as_posix(): path.read_bytes() for path in sorted(folder.rglob("*")) if path.is_file()}


def names_in(folder: pathlib.Path) -> list[str]:
    return sorted(path.name for path in folder.iterdir())


@functools.cache
def story() -> bytes:
    """Returns the office of the city archive: two runs, a hold, an event, transfers and destructions."""
    with tempfile.TemporaryDirectory() as folder:
        file = pathlib.Path(folder, "story.db")
        done = office("apply", file, STORY)
        assert done.status in (0, 1) and file.is_file(), done
        return file.read_bytes()


def small(folder: pathlib.Path) -> pathlib.Path:
    """Puts the office of the city archive into a folder."""
    file = folder / "office.db"
    file.write_bytes(story())
    return file


def small_bag(folder: pathlib.Path) -> pathlib.Path:
    """Exports the office of the city archive into a folder."""
    done = export(small(folder), folder / "bag")
    judge("the office of the city archive leaves", done.status == 0, done)
    return folder / "bag"


def tiny_bag(folder: pathlib.Path) -> pathlib.Path:
    """Exports an office of two records, of which one was destroyed."""
    more = [{"act": "run-step"}, {"act": "run-step"},
            {"act": "add-record", "day": "2024-01-04", "ref": "2", "title": "B", "originated": "2024-01-03", "aggregation": 1,
             "class": None, "schedule": None, "content": "QQ=="}]
    acts = json.loads((TOP / "examples/first/acts.json").read_text())
    (folder / "acts.json").write_text(json.dumps([*acts, *more]))
    done = office("apply", folder / "tiny.db", folder / "acts.json")
    judge("an office of two records leaves", done.status == 0 and export(folder / "tiny.db", folder / "bag").status == 0, done)
    return folder / "bag"


def digest(data: bytes) -> str:
    return hashlib.sha256(data).hexdigest()


def seal(bag: pathlib.Path) -> None:
    """Writes both manifests of a bag anew, and its Payload-Oxum, as they are right for the files that are there. It
    shares no line with the writer."""
    payload = [path.stat().st_size for path in (bag / "data").rglob("*") if path.is_file()]
    info = (bag / "bag-info.txt").read_text()
    (bag / "bag-info.txt").write_text(re.sub("Oxum: .*", f"Oxum: {sum(payload)}.{len(payload)}", info))
    for manifest, is_payload in (("manifest-sha256.txt", True), ("tagmanifest-sha256.txt", False)):
        names = sorted(path.relative_to(bag).as_posix() for path in bag.rglob("*") if path.is_file())
        kept = [name for name in names if name.startswith("data/") == is_payload and name != "tagmanifest-sha256.txt"]
        (bag / manifest).write_text("".join(f"{digest((bag / name).read_bytes())}  {name}\n" for name in kept))


def unjudging(folder: pathlib.Path) -> str:
    """Makes a program that makes an empty office and opens every file: what costs seconds is then tried elsewhere."""
    template, program = folder / "empty.db", folder / "program"
    if not template.exists():
        assert office("init", template).status == 0
        template.with_name("empty.db-wal").unlink(missing_ok=True)
        program.write_text(f'#!/bin/sh\nset -e\n[ "$1" = init ]\n[ -s "$2" ] || cp {template} "$2"\n')
        program.chmod(0o755)
    return str(program)


def copied(source: pathlib.Path, target: pathlib.Path) -> pathlib.Path:
    """Copies a bag, in the place of what was there."""
    shutil.rmtree(target, ignore_errors=True)
    shutil.copytree(source, target, symlinks=True)
    return target


def judge_refused(name: str, done: Done, *parts: str, status: int = 1) -> None:
    """Judges that a command ended with a status and one line about each of these parts, and with no traceback."""
    lines = done.error.splitlines()
    judge(name, done.status == status and len(lines) == 1 and lines[0].startswith("office-")
          and all(part in done.error for part in parts), done, is_quiet=True)
