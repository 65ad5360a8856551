"""The form: each line by its schema, each file by the page and the page of the bag, and by commands of Debian."""
import json
import pathlib
import re

import jsonschema
from kit.commands import TOP, run
from kit.judging import judge, same
from place import files_in, small_bag

PAGE = TOP / "docs/EXCHANGE.md"
PLAIN = {"string", "integer", "boolean"}


def kinds_in(schema: dict[str, object]) -> set[str]:
    """Lists the members of a schema, those of an object in it with its name before them."""
    names = set()
    for name, value in schema["properties"].items():  # type: ignore[attr-defined]
        inner = next((each for each in value.get("anyOf", [value]) if each.get("type") == "object"), None)
        names |= {name} | ({f"{name}.{each}" for each in inner["properties"]} if inner else set())
    return names


def members_on_page() -> dict[str, set[str]]:
    """Reads the tables of the page: the members of each file of lines."""
    members: dict[str, set[str]] = {}
    for part in re.split(r"^### ", PAGE.read_text(), flags=re.M)[1:]:
        title, body = part.split("\n", 1)
        name = re.match(r"`(data/[a-z]+\.jsonl?|data/office\.json)`", title)
        if name:
            cells = re.findall(r"^\| (`[^|]+`) \|", body.split("\n## ")[0], flags=re.M)
            members[name[1]] = {each for cell in cells for each in re.findall("`([^`]+)`", cell)}
    return members


ORDERS = {"schedules": ("code",), "classes": ("code",), "aggregations": ("number",), "records": ("number",),
          "events": ("record",), "holds": ("code",), "runs": ("number",), "entries": ("run", "record"), "lacking": ("record",)}


def ordered(bag: pathlib.Path) -> None:
    """The lines are in the order of the page."""
    for name, keys in ORDERS.items():
        lines = [json.loads(line) for line in (bag / f"data/{name}.jsonl").read_text().splitlines()]
        same(f"the order of {name}", lines, sorted(lines, key=lambda line: [line[key] for key in keys]))
    targets = [json.loads(line) for line in (bag / "data/targets.jsonl").read_text().splitlines()]
    wanted = sorted(targets, key=lambda line: (line["hold"], line["kind"], len(line["target"]), line["target"]))
    same("the order of targets", targets, wanted)


def form(folder: pathlib.Path) -> None:
    bag = small_bag(folder)
    schemas = json.loads((bag / "schema.json").read_text())
    dialect = schemas.pop("$schema")
    count = 0
    for name, schema in schemas.items():
        jsonschema.Draft202012Validator.check_schema(schema)
        validator = jsonschema.Draft202012Validator({"$schema": dialect, **schema})
        for line in (bag / name).read_text().splitlines():
            count += 1
            wrong = [error.message for error in validator.iter_errors(json.loads(line))]
            judge(f"{name}: a line has its schema", not wrong, (line, wrong), is_quiet=True)
    judge("there are lines of each kind that the story has", count > 90, count)
    same("the files with a schema", sorted(schemas), sorted(name for name in files_in(bag) if re.search(r"data/\w+\.jsonl?$", name)))
    page = members_on_page()
    same("the files of the page", sorted(page), sorted(schemas))
    for name in sorted(set(page) & set(schemas)):
        wanted = kinds_in(schemas[name])
        if name == "data/office.json":
            wanted -= {each for each in wanted if each.startswith("counts.")}
        same(f"the members of {name} on the page", sorted(page[name]), sorted(wanted))
    ordered(bag)
    readme = (bag / "README.txt").read_text()
    judge("the page of the bag names each file", all(name in readme for name in schemas), readme)
    for manifest in ("manifest-sha256.txt", "tagmanifest-sha256.txt"):
        done = run("sha256sum", "--check", "--quiet", "--strict", manifest, folder=bag)
        judge(f"sha256sum takes {manifest}", done.status == 0, done)
    payload = {name: data for name, data in files_in(bag).items() if name.startswith("data/")}
    judge("Payload-Oxum", f"Payload-Oxum: {sum(map(len, payload.values()))}.{len(payload)}\n" in (bag / "bag-info.txt").read_text())
    modes = {oct(path.stat().st_mode & 0o777) for path in [bag, *bag.rglob("*")]}
    same("only its owner reads a bag", modes, {"0o700", "0o600"})
