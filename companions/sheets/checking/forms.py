"""Why a member of an act is not of its form, in words. Whether it is, act_forms says."""
from __future__ import annotations

import base64
import json
import re
from collections.abc import Callable

from office_common import facts

from checking import act_forms
from checking.act_forms import LARGEST, LONGEST_CODE, LONGEST_TEXT

DAYS = ("day", "originated", "occurred")
CODES = ("code", "class", "schedule", "hold")
TEXTS = ("title", "ref", "reason", "by")
NUMBERS = ("aggregation", "parent", "record")
WORDS = {name: facts.WORDS[name] for name in ("trigger", "unit", "offset", "action")}
CONTROL = re.compile("[\x00-\x1f\x7f-\x9f]")

# what each member must be
FORMS = {
    **dict.fromkeys(DAYS, 'a day, as "2017-06-30"'),
    **dict.fromkeys(CODES, "1 to 16 ASCII letters, digits and hyphens"),
    **dict.fromkeys(TEXTS, "a text of 1 to 200 bytes without control characters"),
    **dict.fromkeys(NUMBERS, "a whole number from 1 to 4294967295, without quotes"),
    **{name: "one of " + ", ".join(words) for name, words in WORDS.items()},
    "count": "a whole number without quotes, up to the limit of its unit",
    "digest": "64 lower-case hexadecimal digits",
    "target": '"class:CODE", "aggregation:N" or "record:N"',
    "content": 'base64 with padding in one line, of at most 262,144 bytes (256 KB), or "" for none',
}


def shown(value: object) -> str:
    """Returns a value as JSON writes it, cut where it is long."""
    text = json.dumps(value, ensure_ascii=False)
    return text if len(text) <= 70 else text[:67] + "..."


def day_why(value: str) -> str:
    if re.fullmatch("[0-9]{4}-[0-9]{2}-[0-9]{2}", value):
        return "is not a day of the calendar from 0001-01-01 to 2999-12-31"
    return 'is not a day: write it as "2017-06-30"'


def code_why(value: str) -> str:
    if re.fullmatch("[A-Za-z0-9-]+", value):
        return f"has {len(value)} characters, and a code has at most {LONGEST_CODE}"
    strange = next((it for it in value if not re.fullmatch("[A-Za-z0-9-]", it)), None)
    return f"has {shown(strange)}, and a code has only ASCII letters, digits and hyphens" if strange else "is empty"


def text_why(value: str) -> str:
    if found := CONTROL.search(value):
        return f"has the control character U+{ord(found[0]):04X}"
    return f"has {len(value.encode())} bytes, and a text has at most {LONGEST_TEXT}" if value else "is empty"


def words_why(name: str) -> Callable[[str], str]:
    return lambda value: f"is none of {', '.join(WORDS[name])}"


def digest_why(value: str) -> str:
    if re.fullmatch("[0-9A-Fa-f]{64}", value):
        return "has capital letters: write them in lower case"
    return f"is no digest: it has {len(value)} characters, and a digest has 64, of 0 to 9 and a to f"


def target_why(value: str) -> str:
    kind, colon, name = value.partition(":")
    if colon and kind == "class":
        return code_why(name)
    if colon and kind in ("aggregation", "record") and re.fullmatch("0*[0-9]+", name):
        zeros = len(name) > 1 and name[0] == "0"
        return "has a number with zeros in front" if zeros else f"has a number that is not 1 to {LARGEST}"
    return f"is no target: write {FORMS['target']}"


def content_why(value: str) -> str:
    joined = "".join(value.split())
    if is_base64(joined):
        length = len(base64.b64decode(joined))
        if joined != value:
            return "is base64 with spaces or line breaks in it: make it by `base64 -w0`"
        kilobytes = -(-length // 1024)
        return (f"represents {length:,} bytes ({kilobytes:,} KB), and a content has at most {act_forms.LONGEST_CONTENT:,} "
                '(256 KB): see "Contents above 256 KB" in docs/CSV.md')
    if is_base64(joined.rstrip("=") + "=" * (-len(joined.rstrip("=")) % 4)):
        return "is base64 with wrong padding: its length must be a multiple of 4, with = at the end"
    if re.search("[-_]", value) and is_base64(joined.replace("-", "+").replace("_", "/")):
        return "is base64 for addresses: write + and / in place of - and _"
    return "is not base64 with padding, exactly as encoding writes it"


def is_base64(text: str) -> bool:
    try:
        return base64.b64encode(base64.b64decode(text, validate=True)).decode() == text
    except ValueError:
        return False


TEXT_WHYS: dict[str, Callable[[str], str]] = {
    **dict.fromkeys(DAYS, day_why), **dict.fromkeys(CODES, code_why), **dict.fromkeys(TEXTS, text_why),
    **{name: words_why(name) for name in WORDS}, "digest": digest_why, "target": target_why, "content": content_why,
}


def number_why(value: object) -> str:
    if isinstance(value, float) or not is_count(value):
        return "is not a whole number in digits alone"
    return f"is not from 1 to {LARGEST}"


def limit_of(unit: object) -> int | None:
    """Returns the largest count of a unit, none where there is no such unit."""
    return act_forms.LONGEST.get(unit) if isinstance(unit, str) else None


def is_count(value: object) -> bool:
    return isinstance(value, int) and not isinstance(value, bool) and value >= 0


def count_why(value: object, unit: object) -> str:
    """Why a number is no count of a unit."""
    return f"is more than {limit_of(unit):,} {unit}" if is_count(value) else "is not a whole number in digits alone"


def why(act: dict[str, object], name: str) -> str:
    """Why the member `name` of an act is not of its form: the value, and what is wrong with it."""
    if name not in act:
        return f"{name} is missing: {FORMS[name]}"
    value = act[name]
    is_number = isinstance(value, (int, float)) and not isinstance(value, bool)
    if name == "count" and is_number:
        return f"{name} {shown(value)} {count_why(value, act.get('unit'))}"
    if name in NUMBERS and is_number:
        return f"{name} {shown(value)} {number_why(value)}"
    if name in TEXT_WHYS and isinstance(value, str):
        if act["act"] == "reclassify" and name == "target" and value.startswith("class:"):
            return f'{name} {shown(value)} is a class: only "aggregation:N" and "record:N" are reclassified'
        return f"{name} {shown(value)} {TEXT_WHYS[name](value)}"
    return f"{name} is {shown(value)}: write {FORMS[name]}"
