"""What the page computes of files is what the vault says, by node: texts that name files, and digests part by part."""
import base64
import hashlib
import json
import os
import pathlib
import random
import shutil
import subprocess

from vault_trial.forms import ROWS
from kit.judging import judge, same
from vault_trial.places import TOP

from office_common import manifest

SCRIPT = """
import { filesIn, manifestOf, placeOfFile } from "./plain/vault.js";
import { Sha256 } from "./plain/sha256.js";
import { digestsIn, receiptsOf } from "./plain/receipts.js";
import { readFileSync } from "node:fs";
const asked = JSON.parse(readFileSync(0));
const digest = ([text, cuts]) => {
  const [bytes, it] = [Buffer.from(text, "base64"), new Sha256()];
  let at = 0;
  for (const cut of [...cuts, bytes.length]) { it.add(bytes.subarray(at, cut)); at = cut; }
  return it.end();
};
console.log(JSON.stringify({
  texts: asked.texts.map((it) => filesIn(it)?.map(({ digest, size, place }) => [digest, size, place]) ?? null),
  places: asked.places.map((it) => manifestOf("a".repeat(64), 7, placeOfFile(it))),
  digests: asked.digests.map(digest),
  receipts: (({ digests, wrong }) => [[...digests], wrong, digestsIn(asked.list).size])(receiptsOf(asked.list, asked.records)),
}));
"""
PLACES = ["scan.pdf", "a\0b\u009f", "", "x" * 2000 + ".pdf", "ü" * 600, "💾" * 400, "a/b\\c.tif"]


# an archive's list of a bag: a content, then a record with two large files, then one that nobody sent
LIST = "\n".join(f"{at * 64}  data/{name}" for at, name in [
    ("a", "000004_MAP-1993-1_Survey.txt"), ("b", "000017_PLAN-1_Plans/0001_plan.tif"),
    ("c", "000017_PLAN-1_Plans/0002_000004_x.tif"), ("d", "000017_PLAN-1_Plans/manifest.txt"), ("e", "000099_X_x.txt")])
RECORDS = [{"number": 4, "ref": "MAP/1993/1"}, {"number": 17, "ref": "PLAN/1"}]


def cut(chance: random.Random) -> tuple[bytes, list[int]]:
    """Some bytes, and where they are parted."""
    data = os.urandom(chance.choice([0, 1, 55, 56, 63, 64, 65, 119, 120, 128, chance.randint(0, 5000)]))
    return data, sorted(chance.randint(0, len(data)) for _ in range(chance.randint(0, 6)))


def tried(folder: pathlib.Path) -> None:
    folder.mkdir(parents=True)
    shutil.copytree(TOP / "page/plain", folder / "plain")
    (folder / "package.json").write_text('{"type":"module"}')
    (folder / "script.mjs").write_text(SCRIPT)
    chance = random.Random(73)
    pieces = [cut(chance) for _ in range(1000)]
    texts = [text for text, _ in ROWS]
    asked = {"texts": texts, "places": PLACES, "list": LIST, "records": RECORDS,
             "digests": [(base64.b64encode(data).decode(), cuts) for data, cuts in pieces]}
    done = subprocess.run(["node", folder / "script.mjs"], input=json.dumps(asked), capture_output=True, text=True)
    judge("node runs the page's modules", done.returncode == 0, done.stderr)
    found = json.loads(done.stdout)
    same("1,000 digests, part by part", found["digests"], [hashlib.sha256(data).hexdigest() for data, _ in pieces])
    for text, seen in zip(texts, found["texts"], strict=True):
        wanted = manifest.read(text.encode())
        # a number of 18 digits has no exact form in JavaScript; it is a length for show
        named = [[it.digest, float(it.length), it.place] for it in wanted] if wanted else None
        same(f"{text[-40:]!r} is read alike", [[one[0], float(one[1]), one[2]] for one in seen] if seen else None, named)
    same("an archive's list of a bag", found["receipts"], [[[4, "a" * 64], [17, "d" * 64]], [2, 3, 5], 5])
    for place, text in zip(PLACES, found["places"], strict=True):
        judge(f"{place[:10]!r} makes a text that the vault reads", len(manifest.read(text.encode()) or []) == 1, text[-60:])
