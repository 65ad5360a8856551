"""XML as text: elements with their attributes, and no character that XML 1.0 does not take."""
from __future__ import annotations

import re
from xml.sax.saxutils import escape, quoteattr

FORBIDDEN = re.compile("[^\t\n\r\x20-\ud7ff\ue000-\ufffd\U00010000-\U0010ffff]")
DECLARATION = '<?xml version="1.0" encoding="UTF-8"?>\n'


def clean(text: str) -> str:
    """Returns the text with U+FFFD in place of each character that XML 1.0 does not take."""
    return FORBIDDEN.sub("\ufffd", text)


def text(name: str, value: object, **attributes: object) -> str:
    """Returns an element with a text."""
    return f"<{name}{written(attributes)}>{escape(clean(str(value)))}</{name}>\n"


def element(tag: str, *within: str, **attributes: object) -> str:
    """Returns an element with other elements."""
    inner = "".join(within)
    return f"<{tag}{written(attributes)}>\n{inner}</{tag}>\n" if inner else f"<{tag}{written(attributes)}/>\n"


def written(attributes: dict[str, object]) -> str:
    """Attributes; `xlink__href` is `xlink:href`, and what is None is left out."""
    return "".join(f" {name.rstrip('_').replace('__', ':')}={quoteattr(clean(str(value)))}"
                   for name, value in attributes.items() if value is not None)
