"""Plants the mistakes of a list one at a time, and tells whether the trial of the part sees each."""
from __future__ import annotations

import argparse
import os
import pathlib
import signal
import subprocess
import tempfile
import time
from collections.abc import Callable, Mapping, Sequence
from typing import NamedTuple

from kit.plant import Mistake, applies, chosen, hindrance, mistakes, plant

MOST_SHOWN = 300
AS_IT_IS = 1_800
"""a part that takes more seconds without a mistake does not end"""


class Call(NamedTuple):
    """How a part is run over the sources below a top: the arguments, and the variables that they need."""

    arguments: Sequence[object]
    variables: Mapping[str, str] = {}


class Planter(NamedTuple):
    """A trial of a trial: its lists, the folders that it copies, how it runs a part, and when that does not end.

    `call` is given the top of the sources, a folder for the part, and the part. A part with a mistake has `seconds`, or
    `times` as many as it took without one if that is longer.
    """

    lists: pathlib.Path
    sources: Sequence[str]
    call: Callable[[pathlib.Path, pathlib.Path, str], Call]
    seconds: float = 900
    times: float = 0

    def run(self, top: pathlib.Path, folder: pathlib.Path, part: str, seconds: float) -> tuple[bool, str]:
        """Runs a part, and returns whether it passed and what it wrote last. One that does not end is killed."""
        call = self.call(top, folder, part)
        with subprocess.Popen([str(each) for each in call.arguments], stdin=subprocess.DEVNULL, stdout=subprocess.PIPE,
                              stderr=subprocess.STDOUT, text=True, errors="replace", start_new_session=True,
                              env={**os.environ, **call.variables}) as process:
            try:
                output, _ = process.communicate(timeout=seconds)
            except subprocess.TimeoutExpired:
                os.killpg(process.pid, signal.SIGKILL)
                process.communicate()
                return False, f"it does not end in {seconds:.0f} seconds"
            except BaseException:
                os.killpg(process.pid, signal.SIGTERM)
                raise
        return process.returncode == 0, shown(output)

    def passing(self, folder: pathlib.Path, parts: Sequence[str]) -> dict[str, float]:
        """Runs the parts over a copy of the sources as they are, and returns the seconds of those that pass."""
        took: dict[str, float] = {}
        plant(folder / "planted", self.sources, [])
        for part in parts:
            began = time.monotonic()
            has_passed, last = self.run(folder / "planted", folder / "room", part, AS_IT_IS)
            seconds = time.monotonic() - began
            print(f"as it is: {part}: {'passed' if has_passed else 'FAILED'} in {seconds:.0f} s: {last}", flush=True)
            if has_passed:
                took[part] = seconds
        return took

    def tried(self, folder: pathlib.Path, mistake: Mistake, usual: float) -> str:
        """Plants a mistake, and returns what became of it."""
        if why := hindrance(mistake):
            return f"stale: {why}"
        plant(folder / "planted", self.sources, [mistake])
        limit = max(self.seconds, self.times * usual)
        has_passed, last = self.run(folder / "planted", folder / "room", mistake.part, limit)
        return f"{'NOT SEEN' if has_passed else 'seen'} by {mistake.part}: {last}"


def shown(output: str) -> str:
    """Returns the judgements that failed, each with the line below it, or the last lines."""
    lines = [line.strip() for line in output.splitlines() if line.strip()]
    failed = [at for at, line in enumerate(lines) if line.startswith("FAILED")]
    wanted = [line for at in failed for line in lines[at:at + 2]] or lines[-3:]
    return " | ".join(wanted)[:MOST_SHOWN]


def try_all(planter: Planter, folder: pathlib.Path, some: Sequence[Mistake], is_at_once: bool) -> int:
    """Tries mistakes, prints what became of each, and returns the status: 0 if all were seen."""
    parts = list(dict.fromkeys(it.part for it in some))
    usual = dict.fromkeys(parts, 0.0) if is_at_once else planter.passing(folder, parts)
    ends: list[str] = []
    for it in some:
        ends.append(planter.tried(folder, it, usual[it.part]) if it.part in usual
                    else f"not tried: {it.part} fails without it")
        print(f"{it.name}: {ends[-1]}", flush=True)
    seen = sum(end.startswith("seen") for end in ends)
    print(f"{seen} seen, {len(ends) - seen} not seen")
    return 0 if ends and seen == len(ends) else 1


def parser_of(usage: str | None) -> argparse.ArgumentParser:
    """Makes the reader of the arguments that all lists take."""
    parser = argparse.ArgumentParser(description=usage, formatter_class=argparse.RawDescriptionHelpFormatter)
    parser.add_argument("words", nargs="*", metavar="WORD")
    parser.add_argument("--folder", type=pathlib.Path)
    parser.add_argument("--at-once", action="store_true")
    parser.add_argument("--list", action="store_true")
    parser.add_argument("--applies", action="store_true")
    return parser


def main(planter: Planter, arguments: Sequence[str], usage: str | None) -> int:
    """Does what the arguments want with the lists of a planter, and returns the status."""
    options = parser_of(usage).parse_args(arguments)
    some = chosen(mistakes(planter.lists), options.words)
    if options.list:
        print("\n".join(f"{it.part:12} {it.name}" for it in some))
        return 0
    if options.applies:
        return applies(some)
    if options.folder:
        options.folder.mkdir(parents=True, exist_ok=True)
        return try_all(planter, options.folder, some, options.at_once)
    with tempfile.TemporaryDirectory(prefix="planted-", ignore_cleanup_errors=True) as folder:
        pathlib.Path(folder).chmod(0o755)
        return try_all(planter, pathlib.Path(folder), some, options.at_once)
