"""Files of data: JSON, YAML, TOML and XML can be read, and docs/openapi.yaml is of its form."""
from __future__ import annotations

import importlib
import json
import re
import sys
import tomllib
import xml.etree.ElementTree
from typing import Any

from checks.finding import Finding, Skipped, line_of
from checks.tree import TOP, read

OPENAPI = "docs/openapi.yaml"


def once(pairs: list[tuple[str, object]]) -> dict[str, object]:
    """Makes an object of JSON, of which no member may be there twice."""
    names = [name for name, _ in pairs]
    for name in names:
        if names.count(name) > 1:
            raise KeyError(name)
    return dict(pairs)


def json_files(names: list[str]) -> list[Finding]:
    """Reads each file of JSON."""
    findings = []
    for name in names:
        text = read(name)
        try:
            # what a trial sends wrong on purpose has a member twice
            json.loads(text, object_pairs_hook=None if name.startswith("tests/") else once)
        except json.JSONDecodeError as error:
            findings.append(Finding(name, error.lineno, error.msg))
        except KeyError as error:
            key = json.dumps(error.args[0])
            findings.append(Finding(name, line_of(text, key), f"{key} is there twice in one object"))
    return findings


def toml_files(names: list[str]) -> list[Finding]:
    """Reads each file of TOML."""
    findings = []
    for name in names:
        try:
            tomllib.loads(read(name))
        except tomllib.TOMLDecodeError as error:
            line = re.search(r"line (\d+)", str(error))
            findings.append(Finding(name, int(line[1]) if line else 1, str(error)))
    return findings


def xml_files(names: list[str]) -> list[Finding]:
    """Reads each file of XML: it is well-formed."""
    findings = []
    for name in names:
        try:
            xml.etree.ElementTree.parse(TOP / name)
        except xml.etree.ElementTree.ParseError as error:
            findings.append(Finding(name, error.position[0], str(error)))
    return findings


def yaml() -> Any:
    """Returns Debian's reader of YAML."""
    try:
        return importlib.import_module("yaml")
    except ImportError:
        raise Skipped("there is no python3-yaml") from None


def yaml_files(names: list[str]) -> list[Finding]:
    """Reads each file of YAML; no member of a mapping may be there twice."""
    reader = yaml()
    findings = []
    for name in names:
        try:
            findings += doubled(name, reader.compose(read(name)))
        except reader.YAMLError as error:
            mark = getattr(error, "problem_mark", None)
            findings.append(Finding(name, mark.line + 1 if mark else 1, " ".join(str(error).split())[:200]))
    return findings


def doubled(name: str, node: Any) -> list[Finding]:
    """Finds the members that a mapping of YAML has twice."""
    findings, below = [], []
    if type(node).__name__ == "MappingNode":
        keys: set[str] = set()
        for key, value in node.value:
            if key.value in keys:
                findings.append(Finding(name, key.start_mark.line + 1, f"{key.value} is there twice"))
            keys.add(str(key.value))
            below.append(value)
    elif type(node).__name__ == "SequenceNode":
        below = node.value
    for item in below:
        findings += doubled(name, item)
    return findings


def line_in(node: Any, path: list[object]) -> int:
    """Returns the line at which a part of a YAML document begins."""
    for step in path:
        if type(node).__name__ == "MappingNode":
            below = [value for key, value in node.value if key.value == str(step)]
        else:
            below = node.value[step:step + 1] if isinstance(step, int) else []
        if not below:
            break
        node = below[0]
    return int(node.start_mark.line) + 1


def openapi(_: list[str]) -> list[Finding]:
    """Compares the description of the paths with its form, and follows its references."""
    reader = yaml()
    try:
        jsonschema = importlib.import_module("jsonschema")
    except ImportError:
        raise Skipped("there is no python3-jsonschema") from None
    if str(TOP / "tests/web") not in sys.path:
        sys.path.append(str(TOP / "tests/web"))
    form = importlib.import_module("openapi_form").FORM
    text = read(OPENAPI)
    try:
        tree, value = reader.compose(text), reader.safe_load(text)
    except reader.YAMLError:
        return []  # the check yaml reports it
    errors = jsonschema.Draft202012Validator(form).iter_errors(value)
    findings = [Finding(OPENAPI, line_in(tree, list(item.absolute_path)), f"{'/'.join(map(str, item.absolute_path))}: "
                        f"{item.message[:200]}") for item in errors]
    for match in re.finditer(r"#/components/(\w+)/(\w+)", text):
        if match[2] not in value.get("components", {}).get(match[1], {}):
            findings.append(Finding(OPENAPI, text.count("\n", 0, match.start()) + 1, f"{match[0]} is not there"))
    return findings
