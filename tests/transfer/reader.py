"""A reader of bags that shares no line with their writer: what RFC 8493 demands of a complete and valid bag.

If Python has the module `bagit` of the Library of Congress, that reads each bag too.
"""
import collections
import os
import re
import subprocess
import unicodedata

try:
    import bagit  # type: ignore[import-not-found]
except ImportError:
    bagit = None


def manifest_of(bag: str, name: str, problems: list[str]) -> dict[str, str]:
    """A manifest by path; its form is judged."""
    entries: dict[str, str] = {}
    with open(os.path.join(bag, name), encoding="utf-8", newline="") as lines:
        text = lines.read()
    if not text.endswith("\n"):
        problems.append(f"{name} does not end with a line end")
    for line in text.split("\n")[:-1]:
        form = re.match(r"([0-9a-f]{64}) [ *]?(.+)\Z", line)
        if not form:
            problems.append(f"{name}: no form: {line!r}")
            continue
        path = re.sub("%(0A|0D|25)", lambda it: chr(int(it[1], 16)), form[2].lstrip(" "))
        parts = path.split("/")
        if path.startswith(("/", "~", "\\")) or ".." in parts or "" in parts or "." in parts:
            problems.append(f"{name} leads out of the bag: {path!r}")
        elif path in entries:
            problems.append(f"{name} has {path!r} twice")
        else:
            entries[path] = form[1]
    return entries


def sum_of(path: str) -> str:
    """By a program of the system, and not by the library that the writer uses."""
    return subprocess.run(["sha256sum", "--binary", "--", path], check=True,
                          capture_output=True).stdout.decode().lstrip("\\")[:64]


def walked(bag: str) -> list[str]:
    found = []
    for folder, folders, files in os.walk(bag):
        for name in folders + files:
            if os.path.islink(os.path.join(folder, name)):
                raise AssertionError(f"a link: {name}")
        found += [os.path.relpath(os.path.join(folder, name), bag) for name in files]
    return found


def problems_of(bag: str) -> list[str]:
    """All that is wrong with a bag; nothing if it is complete and valid."""
    problems: list[str] = []
    try:
        with open(os.path.join(bag, "bagit.txt"), "rb") as declaration:
            if not re.fullmatch(rb"BagIt-Version: 1\.0\nTag-File-Character-Encoding: UTF-8\n", declaration.read()):
                problems.append("bagit.txt")
        payload = manifest_of(bag, "manifest-sha256.txt", problems)
        tags = manifest_of(bag, "tagmanifest-sha256.txt", problems)
    except (OSError, UnicodeDecodeError) as why:
        return [f"no bag: {why}"]
    there = walked(bag)
    data = {it for it in there if it.startswith("data/")}
    problems += [f"in data and not listed: {it}" for it in data - set(payload)]
    problems += [f"listed and not there: {it}" for it in (set(payload) | set(tags)) - set(there)]
    problems += [f"not below data: {it}" for it in payload if not it.startswith("data/")]
    problems += [f"a tag file that is not listed: {it}" for it in set(there) - data - set(tags)
                 if it != "tagmanifest-sha256.txt"]
    problems += [f"another sum: {it}" for it, wanted in {**payload, **tags}.items()
                 if it in there and sum_of(os.path.join(bag, it)) != wanted]
    problems += info_problems(bag, data)
    problems += name_problems(there)
    if bagit is not None and not bagit.Bag(bag).is_valid():
        problems.append("the module bagit says that it is not valid")
    return problems


def info_problems(bag: str, data: set[str]) -> list[str]:
    with open(os.path.join(bag, "bag-info.txt"), encoding="utf-8") as file:
        lines = file.read().splitlines()
    labels = dict(line.split(": ", 1) for line in lines if re.match(r"[A-Za-z-]+: \S", line))
    oxum = f"{sum(os.path.getsize(os.path.join(bag, it)) for it in data)}.{len(data)}"
    found = [] if len(labels) == len(lines) else ["bag-info.txt has another form"]
    return found if labels.get("Payload-Oxum") == oxum else [*found, f"Payload-Oxum is not {oxum}"]


def name_problems(there: list[str]) -> list[str]:
    """Names that one of the usual systems does not take, or takes for another's."""
    found = []
    for path in there:
        for name in path.split("/"):
            if (len(name.encode()) > 200 or re.search(r'[\x00-\x1f\x7f<>:"|?*\\]', name) or name.endswith((".", " "))
                    or name != unicodedata.normalize("NFC", name)
                    or re.match(r"(?i)(con|prn|aux|nul|com\d|lpt\d)(\.|$)", name)):
                found.append(f"a name that is not for every system: {name!r}")
    folded = collections.Counter(it.casefold() for it in there)
    return found + [f"differs in case alone: {it}" for it, count in folded.items() if count > 1]
