"""The page: its HTML is balanced and names each id once, and its style sheets can be read."""
from __future__ import annotations

import html.parser
import re

from checks.finding import Finding, line_at
from checks.tree import TOP, files, read

VOID = {"area", "base", "br", "col", "embed", "hr", "img", "input", "link", "meta", "source", "track", "wbr"}
AT_RULES = {"@media", "@supports", "@keyframes", "@font-face", "@import", "@page", "@layer", "@container", "@charset",
            "@counter-style", "@property"}
MARGINS = re.compile(r"@(top|bottom|left|right)-(left|center|right|top|middle|bottom)(-corner)?")
OF_FORMS = ("for", "form", "list", "aria-labelledby", "aria-describedby", "aria-controls")
"""attributes whose value is an id of the same document"""


class Reader(html.parser.HTMLParser):
    """A reader of HTML that notes what is not balanced, and where each id and each file is named."""

    def __init__(self, name: str) -> None:
        super().__init__(convert_charrefs=True)
        self.name, self.open = name, list[tuple[str, int]]()
        self.findings: list[Finding] = []
        self.ids: dict[str, int] = {}
        self.named: list[tuple[int, str, str]] = []

    def note(self, text: str) -> None:
        """Adds a finding at the place that is read."""
        self.findings.append(Finding(self.name, self.getpos()[0], text))

    def handle_starttag(self, tag: str, attrs: list[tuple[str, str | None]]) -> None:
        line = self.getpos()[0]
        names = [name for name, _ in attrs]
        if len(set(names)) < len(names):
            self.note(f"<{tag}> has an attribute twice")
        for name, value in attrs:
            if name == "id":
                if value in self.ids:
                    self.note(f"the id {value} is there twice")
                self.ids[value or ""] = line
            if name in OF_FORMS or name in ("src", "href"):
                self.named.append((line, name, value or ""))
        if tag not in VOID:
            self.open.append((tag, line))

    def handle_startendtag(self, tag: str, attrs: list[tuple[str, str | None]]) -> None:
        self.handle_starttag(tag, attrs)
        if tag not in VOID:
            self.open.pop()

    def handle_endtag(self, tag: str) -> None:
        if not self.open or self.open[-1][0] != tag:
            last = f"<{self.open[-1][0]}> of line {self.open[-1][1]} is open" if self.open else "nothing is open"
            self.note(f"</{tag}> where {last}")
            while tag in [name for name, _ in self.open] and self.open.pop()[0] != tag:
                pass
        else:
            self.open.pop()


def html_files(names: list[str]) -> list[Finding]:
    """Reads each file of HTML: its tags, its ids, and the files that it names."""
    findings = []
    for name in names:
        reader = Reader(name)
        reader.feed(read(name))
        reader.close()
        findings += reader.findings
        findings += [Finding(name, line, f"<{tag}> is never closed") for tag, line in reader.open]
        for line, attribute, value in reader.named:
            if attribute in OF_FORMS:
                strange = [item for item in value.split() if item not in reader.ids]
                findings += [Finding(name, line, f"{attribute} names no id of the page: {item}") for item in strange]
            elif value and not re.match(r"#|[a-z]+:", value):
                path = (TOP / name).parent / value.split("?")[0]
                findings += [] if path.exists() else [Finding(name, line, f"there is no file {value}")]
    return findings


IMPORT = re.compile(r"^(?:import|export)\b[^;\"]*?\"(\.[^\"]+)\"|\bimport\(\"(\.[^\"]+)\"\)"
                    r"|new URL\(\"(\.[^\"]+)\"", re.M)


def imports(names: list[str]) -> list[Finding]:
    """Follows each module of the page to the files that it imports; the names in them are for tsc."""
    findings = []
    for name in names:
        text = read(name)
        for match in IMPORT.finditer(text):
            path = match[1] or match[2] or match[3]
            if not ((TOP / name).parent / path).is_file():
                findings.append(Finding(name, line_at(text, match.start()), f"there is no module {path}"))
    return findings


TOKEN = re.compile(r"/\*|\*/|\"(?:[^\"\\\n]|\\.)*\"|'(?:[^'\\\n]|\\.)*'|url\([^)\n]*\)|[\"'{}()\[\];]|@[\w-]+", re.S)
PAIRS = {"}": "{", ")": "(", "]": "["}


def css_file(name: str) -> list[Finding]:
    """Reads a style sheet by its tokens: comments, texts and brackets are balanced, and each at-rule is known."""
    text = read(name)
    findings: list[Finding] = []
    brackets: list[tuple[str, int]] = []
    at = 0
    while match := TOKEN.search(text, at):
        token, line, at = match[0], line_at(text, match.start()), match.end()
        if token == "/*":
            end = text.find("*/", at)
            if end < 0:
                return [*findings, Finding(name, line, "a comment does not end")]
            at = end + 2
        elif token in ("*/", '"', "'"):
            findings.append(Finding(name, line, f"{token} where none is open"))
        elif token in ("{", "(", "["):
            brackets.append((token, line))
        elif token in PAIRS:
            if not brackets or brackets.pop()[0] != PAIRS[token]:
                return [*findings, Finding(name, line, f"{token} where none is open")]
        elif token.startswith("@") and token not in AT_RULES and not MARGINS.fullmatch(token):
            findings.append(Finding(name, line, f"{token} is no known rule"))
    findings += [Finding(name, line, f"{token} is never closed") for token, line in brackets]
    return findings or declared(name, text)


def blank(match: re.Match[str]) -> str:
    """Returns as many lines as a match has, with nothing in them."""
    return "\n" * match[0].count("\n")


def declared(name: str, text: str) -> list[Finding]:
    """Looks at the innermost blocks: each part between semicolons is a declaration."""
    bare = re.sub(r"/\*.*?\*/", blank, text, flags=re.S)
    bare = re.sub(r"\"(?:[^\"\\\n]|\\.)*\"|url\([^)\n]*\)", "_", bare)
    findings = []
    for block in re.finditer(r"\{([^{}]*)\}", bare):
        at = block.start(1)
        for part in block[1].split(";"):
            if part.strip() and not re.fullmatch(r"\s*(?:--[\w-]+|-?[a-z][a-z-]*)\s*:\s*\S.*", part, re.S):
                line = line_at(bare, at + len(part) - len(part.lstrip()))
                findings.append(Finding(name, line, f"no declaration: {' '.join(part.split())[:60]}"))
            at += len(part) + 1
    return findings


def css_files(names: list[str]) -> list[Finding]:
    """Reads each style sheet; a colour or length of a name that none defines is a finding too."""
    findings = [finding for name in names for finding in css_file(name)]
    everywhere = [item for item in files() if item.startswith("page/") and item.endswith((".css", ".js", ".html"))]
    source = "\n".join(map(read, everywhere))
    defined = set(re.findall(r"(--[\w-]+)[\"']?\s*[:,]", source))
    made = tuple(re.findall(r"(--[\w-]+)\$\{", source))
    for name in names:
        text = read(name)
        findings += [Finding(name, line_at(text, match.start()), f"{match[1]} is defined nowhere")
                     for match in re.finditer(r"var\(\s*(--[\w-]+)\s*\)", text)
                     if match[1] not in defined and not (made and match[1].startswith(made))]
    return findings
