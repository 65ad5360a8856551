"""A table of a TOML file whose keys are read one by one: an error names the file and the key."""
import re
import tomllib
from collections.abc import Mapping
from pathlib import Path
from typing import NoReturn

from office_common.errors import USAGE, Refused


class Table:
    """A table of a file. It notes which keys were read, since any other key is a slip."""

    def __init__(self, file: Path, values: Mapping[str, object], prefix: str = "") -> None:
        self.file, self.values, self.prefix = file, values, prefix
        self.known: list[str] = []

    def refuse(self, key: str, text: str) -> NoReturn:
        """Ends the command with a message about a key."""
        raise Refused(USAGE, f"{self.file}: {self.prefix}{key}: {text}")

    def value(self, key: str) -> object:
        """Returns what a key has, or None if it is not there."""
        self.known.append(key)
        return self.values.get(key)

    def text(self, key: str, form: re.Pattern[str], description: str) -> str | None:
        """Reads a text of a form, or None if the key is not there."""
        value = self.value(key)
        if value is not None and not (isinstance(value, str) and form.fullmatch(value)):
            self.refuse(key, f"{shown(value)} is not {description}")
        return value if isinstance(value, str) else None

    def needed(self, key: str, form: re.Pattern[str], description: str) -> str:
        """Reads a text that has to be there."""
        value = self.text(key, form, description)
        if value is None:
            self.refuse(key, f"it is missing: write {description}")
        return value

    def texts(self, key: str, form: re.Pattern[str], description: str) -> tuple[str, ...]:
        """Reads a text or a list of texts of a form; without the key there are none."""
        value = self.value(key)
        if value is None:
            return ()
        texts: list[str] = []
        for entry in value if isinstance(value, list) else [value]:
            if not (isinstance(entry, str) and form.fullmatch(entry)):
                self.refuse(key, f"{shown(entry)} is not {description}")
            texts.append(entry)
        return tuple(texts)

    def number(self, key: str, least: int, most: int) -> int | None:
        """Reads a whole number within bounds, or None if the key is not there."""
        value = self.value(key)
        if value is None:
            return None
        if not isinstance(value, int) or isinstance(value, bool) or not least <= value <= most:
            self.refuse(key, f"{shown(value)} is no number from {least} to {most}")
        return value

    def flag(self, key: str, default: bool) -> bool:
        """Reads true or false."""
        value = self.value(key)
        if value is None:
            return default
        if not isinstance(value, bool):
            self.refuse(key, f"{shown(value)} is neither true nor false")
        return value

    def table(self, key: str) -> "Table | None":
        """Returns the table of a key, or None if the key is not there."""
        value = self.value(key)
        if value is None:
            return None
        if not isinstance(value, dict):
            self.refuse(key, f"{shown(value)} is no table: write [{self.prefix}{key}]")
        return Table(self.file, value, f"{self.prefix}{key}.")

    def end(self) -> None:
        """Refuses a key that nothing has read."""
        for key in self.values:
            if key not in self.known:
                self.refuse(key, f"there is no such key here: there are {', '.join(self.known)}")


def shown(value: object) -> str:
    """Returns a value as a message shows it."""
    if isinstance(value, bool):
        return "true" if value else "false"
    return f"'{value}'" if isinstance(value, str) else str(value)


def read(file: Path) -> Table:
    """Reads a file, or says in which line it is no TOML."""
    try:
        return Table(file, tomllib.loads(file.read_text(encoding="utf-8")))
    except OSError as error:
        raise Refused(USAGE, f"{file}: {error.strerror}") from error
    except (tomllib.TOMLDecodeError, UnicodeDecodeError) as error:
        raise Refused(USAGE, f"{file}: {error}") from error
