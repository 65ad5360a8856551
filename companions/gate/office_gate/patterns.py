"""Classes as the settings name them: a code, or the beginning of codes with a star."""
import re

PATTERN = re.compile(r"[A-Za-z0-9-]{1,16}\*?|\*")


def is_pattern(word: str) -> bool:
    return PATTERN.fullmatch(word) is not None


def fits(patterns: tuple[str, ...], code: str) -> bool:
    """Returns whether a code is one of these, or begins as one of these with a star does."""
    return any(code.startswith(it[:-1]) if it.endswith("*") else code == it for it in patterns)
