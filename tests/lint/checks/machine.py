"""Configurations that other programs of a machine read: each is read by its own program, which changes nothing."""
from __future__ import annotations

import configparser
import json
import os
import pathlib
import re
import tempfile

from checks.finding import Finding, Skipped, call, findings_in, line_of, need
from checks.python_files import PYTHON
from checks.tree import TOP, read

NFT = re.compile(r"^(?P<file>[^:\n]+):(?P<line>\d+):\d+(?:-\d+)?: Error: (?P<text>.+)$", re.M)
LOGROTATE = re.compile(r"^error: (?P<file>[^:\n]+):(?P<line>\d+) (?P<text>.+)$", re.M)
SAMPLE = '192.0.2.1 - nobody [29/Nov/2026:12:00:00 +0000] "GET /city/web/ HTTP/1.1" {status} 10 "-" "curl"'
VARIABLE = re.compile(r"[A-Za-z_][A-Za-z0-9_]*=(?:\"(?:[^\"\\]|\\.)*\"|'[^']*'|[^\"'\\]*)")
USERS = ("www-data", "office", "office-yearend", "office-gate", "office-member", "office-etcd", "root")


def nft(names: list[str]) -> list[Finding]:
    """Has nft read each file, in which numbers take the place of users that this machine lacks."""
    need("nft", "unshare")
    apart = ["unshare", "--net"] if os.geteuid() == 0 else ["unshare", "--net", "--map-root-user"]
    findings = []
    with tempfile.TemporaryDirectory(prefix="lint-nft-") as folder:
        copies = {}
        for name in names:
            text = read(name)
            for at, user in enumerate(USERS):
                text = text.replace(f'"{user}"', str(at))
            copy = pathlib.Path(folder, pathlib.PurePosixPath(name).name)
            copy.write_text(text)
            copies[str(copy)] = name
            done = call([*apart, "nft", "--check", "--file", copy])
            if re.search("Operation not permitted|not supported|Netlink socket", done.text):
                raise Skipped(f"nft may not read rules here: {done.text.strip()[:80]}")
            own = findings_in(done.text, NFT, copies)
            findings += own or ([Finding(name, 1, done.text.strip()[:200])] if done.status else [])
    return findings


def logrotate(names: list[str]) -> list[Finding]:
    """Has logrotate read each file, and rotate nothing."""
    need("logrotate")
    findings = []
    with tempfile.TemporaryDirectory(prefix="lint-logrotate-") as folder:
        for name in names:
            # it takes no file that others may write, and knows no user of an office here
            copy = pathlib.Path(folder, pathlib.PurePosixPath(name).name)
            copy.write_text(re.sub(r"create 0640 \S+ \S+", "create 0640 root root", read(name)))
            copy.chmod(0o644)
            done = call(["logrotate", "--debug", "--state", pathlib.Path(folder, "state"), copy])
            own = findings_in(done.text, LOGROTATE, {str(copy): name, copy.name: name})
            errors = re.findall(r"^error: (?!.*failed to rotate).*$", done.text, re.M)
            findings += own or [Finding(name, 1, line) for line in errors[:1]]
    return findings


def fail2ban(names: list[str]) -> list[Finding]:
    """Reads each file as ConfigParser does; a filter takes a line of a refused password, and none of another."""
    findings = []
    for name in names:
        try:
            parser = configparser.RawConfigParser()
            parser.read_string(read(name), name)
        except configparser.Error as error:
            line = re.search(r"line:? *(\d+)", str(error))
            findings.append(Finding(name, int(line[1]) if line else 1, " ".join(str(error).split())))
            continue
        if "/filter.d/" in name:
            need("fail2ban-regex")
            for status, count in ((401, 1), (200, 0)):
                done = call(["fail2ban-regex", SAMPLE.format(status=status), TOP / name])
                if f"{count} matched" not in done.text:
                    why = f"of a line with {status} fail2ban-regex matches another number than {count}"
                    findings.append(Finding(name, line_of(read(name), "failregex"), why))
    return findings


def prometheus(names: list[str]) -> list[Finding]:
    """Has promtool read the rules and the configuration."""
    need("promtool")
    findings = []
    for name in names:
        kind = ["rules"] if name.endswith(".rules.yml") else ["config", "--syntax-only"]
        text = read(name)
        done = call(["promtool", "check", *kind, name], cwd=TOP)
        if done.status:
            line = re.search(r"line (\d+)|[ :](\d+):\d+:", done.text)
            at = int(line[1] or line[2]) if line else line_of(text, "rules")
            findings.append(Finding(name, at, " ".join(done.text.split())[:300]))
    return findings


def environment(names: list[str]) -> list[Finding]:
    """Reads each file as a unit's EnvironmentFile: remarks and NAME=VALUE, and no name twice."""
    findings = []
    for name in names:
        seen: set[str] = set()
        for at, line in enumerate(read(name).split("\n"), 1):
            if line.strip() and not line.lstrip().startswith(("#", ";")):
                key = line.partition("=")[0]
                if not VARIABLE.fullmatch(line):
                    findings.append(Finding(name, at, f"no NAME=VALUE: {line[:60]}"))
                elif key in seen:
                    findings.append(Finding(name, at, f"{key} is there twice"))
                seen.add(key)
    return findings


def keepalived(names: list[str]) -> list[Finding]:
    """Looks whether the blocks of each file are balanced, with one statement or bracket a line."""
    findings = []
    for name in names:
        opened: list[int] = []
        for at, line in enumerate(read(name).split("\n"), 1):
            bare = line.split("#")[0].split("!")[0].strip()
            if bare.count('"') % 2:
                findings.append(Finding(name, at, "a text does not end"))
            opened += [at] * bare.endswith("{")
            if bare == "}" and not opened:
                findings.append(Finding(name, at, "} where none is open"))
            elif bare == "}":
                opened.pop()
            elif "}" in bare or "{" in bare[:-1]:
                findings.append(Finding(name, at, "a bracket within a line"))
        findings += [Finding(name, at, "{ is never closed") for at in opened]
    return findings


def access(names: list[str]) -> list[Finding]:
    """Has office-gate read each file of settings of a gate."""
    findings = []
    for name in names:
        done = call([PYTHON, "-I", "companions/gate/office-gate", "check", name], cwd=TOP)
        if missing := re.search("No module named '(aiohttp|h11)'", done.text):
            raise Skipped(f"there is no python3-{missing[1]}")
        if done.status:
            pattern = re.compile(rf"(?P<file>{re.escape(name)})(?::| line |, line )(?P<line>\d+):? ?(?P<text>.*)")
            findings += findings_in(done.text, pattern) or [Finding(name, 1, done.text.strip()[-200:])]
    return findings


MEMBER = "import json, sys; from replica.settings import fault_of; print(fault_of(json.load(sys.stdin)) or '')"


def members(names: list[str]) -> list[Finding]:
    """Has a member judge each file of its settings."""
    findings = []
    for name in names:
        text = read(name)
        try:
            json.loads(text)
        except json.JSONDecodeError:
            continue  # the check json reports it
        fault = call([PYTHON, "-B", "-c", MEMBER], cwd=TOP / "companions/members", given=text).text.strip()
        if fault:
            word = fault.split()[0]
            findings.append(Finding(name, line_of(text, f'"{word}"'), fault[-200:]))
    return findings
