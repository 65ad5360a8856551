"""How making the package ends where something is missing."""
import sys
from typing import NoReturn


def fail(text: str) -> NoReturn:
    """Says what to do, and ends with 2."""
    print(f"office: {text}", file=sys.stderr)
    raise SystemExit(2)
