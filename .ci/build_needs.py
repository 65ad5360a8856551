"""What a build of the program, or a preview, needs of the machine."""
import os
import pathlib
import re
import shutil
import tempfile

from shared import OUT, TOP

GB = 1_000_000_000
# the free memory that is needed: the largest check of a build takes 6.4 GB, a preview 4.3 GB, that of two commands 0.6
MEMORY = {"build": 7 * GB, "preview": 5 * GB, "preview of due and plan": 2 * GB}
# the free disk that is needed: a build from nothing leaves 9.5 GB; one that goes on needs what is not there yet
DISK, LEAST, PREVIEW_DISK = 10 * GB, 2 * GB, GB


def number_in(file: str) -> int | None:
    """The number in a file of the system, or None where there is none."""
    try:
        return int(pathlib.Path(file).read_text())
    except (OSError, ValueError):
        return None


def free_memory() -> int | None:
    """The bytes of memory that can still be had, swap with it, or None where the system does not say."""
    try:
        said = dict(re.findall(r"^(\w+):\s+(\d+) kB$", pathlib.Path("/proc/meminfo").read_text(), re.M))
        free = 1024 * (int(said["MemAvailable"]) + int(said.get("SwapFree", 0)))
    except (OSError, KeyError):
        return None
    # a container may have less than its machine
    most, used = number_in("/sys/fs/cgroup/memory.max"), number_in("/sys/fs/cgroup/memory.current")
    return free if most is None or used is None else min(free, max(most - used, 0))


def lacks_disk(work: str, place: pathlib.Path, needed: int, remedy: str) -> str | None:
    free = shutil.disk_usage(place).free
    return None if free >= needed else (
        f"a {work} needs {needed / GB:.0f} GB of free disk in {place}, and {free / GB:.1f} GB are free: "
        f"remove other files, or {remedy}")


def missing(work: str) -> str | None:
    """What is missing for a work, as a line that says what to do."""
    if shutil.which("rt") is None:
        return ("there is no 'rt' on the PATH: install the Rattle kit and put its folder 'bin' there, as in "
                "PATH=/opt/rattle/bin:$PATH; an office_VERSION_amd64.deb needs no kit")
    outs = [it for it in (TOP / "crates").glob("*/out") if it.exists()]
    if not all(os.access(it, os.W_OK | os.X_OK) for it in (TOP / "crates/office", *outs)):
        return f"{TOP} cannot be written by you: give yourself the right, or clone into a folder of your own"
    free, needed = free_memory(), MEMORY[work]
    if free is not None and free < needed:
        return (f"a {work} needs {needed / GB:.0f} GB of free memory, and {free / GB:.1f} GB are free: "
                "end other programs, add swap, or take a larger machine")
    if work != "build":
        return lacks_disk(work, pathlib.Path(tempfile.gettempdir()), PREVIEW_DISK, "set TMPDIR to a folder with room")
    there = sum(it.lstat().st_size for out in outs for it in out.rglob("*"))
    return lacks_disk(work, OUT if OUT.is_dir() else TOP, max(DISK - there, LEAST), "clone elsewhere")
