"""Text as roff has it, from plain text and from the Markdown of the pages."""
import re

PLACEHOLDER = re.compile(r"(?<![A-Za-z])[A-Z][A-Z0-9_:=|-]*(?![a-z])")
LITERAL = re.compile(r"--?[a-z][a-z-]*")


def plain(text: str) -> str:
    """A text as roff has it."""
    text = text.replace("\\", "\\e").replace("-", "\\-").replace("'", "\\(aq").replace("`", "\\(ga")
    return "\\&" + text if text.startswith(".") else text


def bold(text: str) -> str:
    return f"\\fB{plain(text)}\\fP"


def inline(text: str) -> str:
    """Markdown's code as bold, links as their text."""
    text = re.sub(r" ?\(\[[^]]+\]\([^)]+\)\)", "", text)
    text = re.sub(r"\[([^]]+)\]\([^)]+\)", r"\1", text).replace("**", "")
    pieces = text.split("`")
    return "".join(bold(piece) if at % 2 else plain(piece) for at, piece in enumerate(pieces))


def call(text: str) -> str:
    """An argument, an option or a usage: what is written as it is in bold, placeholders in italics."""
    pieces = re.split(r"([A-Za-z-][A-Za-z0-9_:=|-]*)", text)
    return "".join(f"\\fI{plain(piece)}\\fP" if PLACEHOLDER.fullmatch(piece) else bold(piece)
                   if at % 2 and re.search("[A-Za-z]", piece) else plain(piece) for at, piece in enumerate(pieces))


# ---- pages


def cells_of(row: str) -> list[str]:
    return [cell.strip().replace("\\|", "|") for cell in re.split(r"(?<!\\)\|", row.strip()[1:-1])]


def table(lines: list[str]) -> list[str]:
    """A table as a list: the first cell, and below it the others, each further one with its heading."""
    heads = cells_of(lines[0])
    found: list[str] = []
    for line in lines[2:]:
        cells = cells_of(line)
        texts = [sentence(cells[1])]
        texts += [sentence("it is needed" if cell == "needed" else f"{head}: {cell}")
                  for head, cell in zip(heads[2:], cells[2:], strict=False) if cell]
        found += [".TP", inline(cells[0]), " ".join(texts)]
    return found


def sentence(cell: str) -> str:
    """A cell of a table as a sentence."""
    text = inline(cell[:1].upper() + cell[1:])
    return text if text.endswith(".") else f"{text}."


def block(lines: list[str]) -> list[str]:
    """A block of lines between empty ones."""
    if lines[0].startswith("|"):
        return table(lines)
    if lines[0].startswith("    "):
        return [".PP", ".RS 4", ".EX", *(plain(line[4:]) for line in lines), ".EE", ".RE"]
    if lines[0].startswith("- "):
        items = "\n".join(lines).removeprefix("- ").split("\n- ")
        return [line for item in items for line in (".IP \\(bu 3", inline(re.sub(r"\n\s*", " ", item)))]
    return [".PP", inline(" ".join(line.strip() for line in lines))]


def section(page: str, heading: str) -> str:
    """Returns the text of a section of a page, with those below it."""
    marks = heading.split(" ", 1)[0]
    start = page.index(f"\n{heading}\n") + len(heading) + 2
    end = re.search(rf"^#{{1,{len(marks)}}} ", page[start:], re.M)
    return page[start:start + end.start()] if end else page[start:]


def body(text: str) -> list[str]:
    """The lines of a text in Markdown, whose headings are parts of a section."""
    found: list[str] = []
    for part in re.split(r"\n\s*\n", text.strip("\n")):
        lines = part.split("\n")
        if lines[0].startswith("#"):
            found.append(f".SS {plain(lines[0].lstrip('# '))}")
            lines = lines[1:]
        if lines:
            found += block(lines)
    return found
