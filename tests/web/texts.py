"""The words of refusals, faults, statuses and answers of the proxy are in page/texts, and the same in docs/ERRORS.md.

Each language has the same texts, with the same places for values. The addresses in docs/WEB.md are those of the views.
"""
import collections
import json
import re

from kit.judging import judge, same
from place import TOP

# the tables of docs/ERRORS.md that the page shares, and what their columns are called in the file of texts
TABLES = {
    "refusals": ("Refusals", ["name", "meaning", "do"]),
    "faults": ("Faults", ["meaning", "do"]),
    "statuses": ("Statuses of HTTP", ["status", "body", "meaning", "do"]),
    "members": ("Answers of a member", ["status", "body", "meaning", "do"]),
    "proxy": ("Answers of the proxy", ["meaning", "do"]),
}
# those of which several rows have the same status
LISTS = ("statuses", "members")


def plain(cell):
    """A cell of a page without what only its form needs: marks of code, and the addresses of links."""
    return re.sub(r"\[([^\]]*)\]\([^)]*\)", r"\1", cell).replace("`", "").strip()


def table(page, heading):
    """The rows of the first table below a heading."""
    part = page.split(f"\n## {heading}\n")[1].split("\n## ")[0]
    rows = [line for line in part.split("\n") if line.startswith("|")]
    return [[plain(cell) for cell in row.strip()[1:-1].split("|")] for row in rows[2:]]


def shared(page, name):
    heading, columns = TABLES[name]
    rows = table(page, heading)
    if name in LISTS:
        return [dict(zip(columns, row, strict=True)) for row in rows]
    return {row[0]: dict(zip(columns, row[1:], strict=True)) for row in rows}


# what the page finds a row by, or what the office itself says: the same in each language
FIXED = re.compile(r"refusals\.\d+\.name|(statuses|members)\.\d+\.status")


def flat(part, before=""):
    """All texts of a file, by their names."""
    if isinstance(part, str):
        return {before[1:]: part}
    pairs = part.items() if isinstance(part, dict) else enumerate(part)
    return dict(found for name, value in pairs for found in flat(value, f"{before}.{name}").items())


def places(text):
    """The places for values in a text, and the words of JSON that the office answers with."""
    return collections.Counter(re.findall(r"\{\w+\}|\"\w+\":?", text))


# a count with a word beside it that fits many alone
MANY = re.compile(
    r"\{(?:count|covered|acts|requests|fit|hours|minutes|days)\}(?: (?:more|other|weitere))? "
    r"(?:[a-z]+s|are|were|have|sind|waren|haben|wurden|werden|stehen|[A-ZÄÖÜ]\w*(?:en|er|e|n))\b"
    r"|\b(?:[Tt]hese|[Tt]hose|other|[Dd]iese|anderen) \{count\}"
)
# texts whose count is never one: a limit, more than a limit, or said only if there are several
NEVER_ONE = {
    "catalogue.hours", "content.cut", "due.tooLong", "forecast.lift.sinceSome", "forecast.some", "import.wrong.large",
    "import.wrong.long", "import.wrong.longCode", "marked.requests", "said.whole", "vault.one.submit",
}
# a text called so for what it says
NOT_COUNTED = {"todo.first"}


def unbent(texts):
    """The texts that say of one what is said of many: they have no form for one."""
    forms = (".one", ".many")
    return sorted(key for key, text in texts.items() if MANY.search(text) and not key.endswith(forms) and key not in NEVER_ONE)


def language(file, english):
    """A language has each text and no other, with the same places, and none is empty that is not so in English."""
    other = flat(json.loads(file.read_text()))
    name = f"page/texts/{file.name}"
    same(f"{name} has each text and no other", sorted(other.keys() ^ english.keys()), [])
    both = sorted(other.keys() & english.keys())
    same(f"{name} has the same places in each", [key for key in both if places(other[key]) != places(english[key])], [])
    is_empty = lambda text: not text.strip()
    same(f"{name} leaves none empty", [key for key in both if is_empty(other[key]) != is_empty(english[key])], [])
    changed = [key for key in both if FIXED.fullmatch(key) and other[key] != english[key]]
    same(f"{name} has the same names and statuses", changed, [])
    same(f"{name} names its language", other["lang"], file.stem)
    same(f"{name} has a form for one wherever a count may be one", unbent(other), [])
    pairs = {key.rpartition(".")[0] for key in other if key.endswith(".many")}
    lone = sorted(key for key in pairs if f"{key}.one" not in other and key not in NOT_COUNTED)
    same(f"{name} has a form for one beside each for many", lone, [])


def named(page):
    """The texts that the page's HTML and modules name outright."""
    found = set(re.findall(r'data-(?:text|label)="([a-z][A-Za-z.]+)"', (page / "index.html").read_text()))
    for module in page.rglob("*.js"):
        found |= set(re.findall(r'"([a-z]+\.[A-Za-z.]+[A-Za-z])"', module.read_text()))
    return found


def there(texts, key):
    part = texts
    for name in key.split("."):
        part = part.get(name) if isinstance(part, dict) else None
    return part is not None


# what speaks to programs or administrators: pages of the manual, paths, commands, lines of a head
FOR_OTHERS = re.compile(r"[A-Z]{3,}\.md|GET /|Office-[A-Z]|office [a-z]+ FILE|office-[a-z]+|sqlite3|serve runs|fix the|\bAllow\b|den Client")
# the parts whose words are the manual's, with others for people beside them
TABLED = ("refusals", "faults", "statuses", "members", "proxy", "help")


def to_do(texts):
    """What people are told to do, by what they are told it for: as the page chooses between the words of the manual and others."""
    own = texts["help"]
    found = {f"{part} {name}": own[part].get(name, row["do"]) for part in ("refusals", "faults", "proxy") for name, row in texts[part].items()}
    for row in [*texts["statuses"], *texts["members"]]:
        for status in row["status"].split(", "):
            for word in re.findall(r'"(\w+)"(?!:)', row["body"]) or (["fault"] if "fault" in row["body"] else []):
                found[f"{status} {word}"] = own["statuses"].get(f"{status} {word}", row["do"])
    return found


def for_people(file):
    """Nobody who uses the page is sent to a page of the manual, to a command, or to a line of a head."""
    texts = json.loads(file.read_text())
    rest = flat({name: part for name, part in texts.items() if name not in TABLED})
    wrong = {key: text for key, text in {**rest, **to_do(texts)}.items() if FOR_OTHERS.search(text)}
    same(f"page/texts/{file.name} sends nobody to what is for programs and administrators", wrong, {})


def addresses(page):
    """The views that the addresses of docs/WEB.md name, each once, in the order of its table."""
    cells = [row[1] for row in table(page, "What each view does")]
    return list(dict.fromkeys(name for cell in cells for name in re.findall(r"#(\w+)", cell)))


def views(page):
    """The views of the page, in their order."""
    listed = re.search(r"const VIEWS = \{([^}]*)\}", (page / "office.js").read_text())
    return re.findall(r"^  (\w+)[:,]", listed.group(1), re.M)


def tell():
    page = (TOP / "docs/ERRORS.md").read_text()
    english = json.loads((TOP / "page/texts/en.json").read_text())
    for name, (heading, _) in TABLES.items():
        same(f"docs/ERRORS.md and page/texts/en.json say the same: {heading}", english[name], shared(page, name))
    files = sorted((TOP / "page/texts").glob("*.json"))
    judge("there are English and German", {"en", "de"} <= {file.stem for file in files}, str(files))
    for file in files:
        language(file, flat(english))
        for_people(file)
    shown = addresses((TOP / "docs/WEB.md").read_text())
    same("docs/WEB.md has the address of each view", sorted(shown), sorted(views(TOP / "page")))
    missing = sorted(key for key in named(TOP / "page") if not there(english, key) and not key.endswith(".js"))
    judge("each text that the page names is there", not missing, str(missing))
