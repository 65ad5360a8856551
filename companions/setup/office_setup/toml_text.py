"""Writes tables as TOML, which Python's library only reads."""
import datetime
import json
from collections.abc import Mapping


def quoted(text: str) -> str:
    """Returns a text between quotes. JSON escapes as TOML does, but for one character."""
    return json.dumps(text, ensure_ascii=False).replace("\x7f", "\\u007f")


def value_of(value: object) -> str:
    """Returns a value on one line."""
    if isinstance(value, bool):
        return "true" if value else "false"
    if isinstance(value, str):
        return quoted(value)
    if isinstance(value, datetime.date | datetime.time):
        return value.isoformat()
    if isinstance(value, list):
        return f"[{', '.join(map(value_of, value))}]"
    if isinstance(value, Mapping):
        return "{ " + ", ".join(f"{name_of(key)} = {value_of(entry)}" for key, entry in value.items()) + " }"
    return str(value)


def name_of(key: str) -> str:
    """Returns a key, in quotes if it needs them."""
    return key if key.isascii() and key.replace("-", "").replace("_", "").isalnum() else quoted(key)


def text_of(values: Mapping[str, object], prefix: str = "", depth: int = 1) -> str:
    """Returns a table: its keys, and below them its tables. What is deeper is written on one line."""
    tables = {key: value for key, value in values.items() if isinstance(value, Mapping) and depth}
    lines = [f"{name_of(key)} = {value_of(value)}\n" for key, value in values.items() if key not in tables]
    for key, value in tables.items():
        name = f"{prefix}{name_of(key)}"
        is_plain = not value or depth == 1 or not all(isinstance(entry, Mapping) for entry in value.values())
        lines.append((f"\n[{name}]\n" if is_plain else "") + text_of(value, f"{name}.", depth - 1))
    return "".join(lines)
