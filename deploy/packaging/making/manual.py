"""The manual pages of commands: office(1) of README.md, and one of each script of its first comment and its own help."""
import re

from making import roff
from making.helps import Command, Entry
from making.roff import inline, plain
from making.words import Word, notes, statuses, table

FOR_PEOPLE = ("office-about", "office-awaiting", "office-check", "office-convert", "office-receipts", "office-since",
              "office-todo", "office-transfer", "office-verify")
"""commands of section 1, as office itself: whoever keeps records or audits runs them. The others are of section 8"""
BOOKS = {1: "User Commands", 8: "System Administration"}

FILES = [
    ("/etc/office/NAME.toml", "what the office NAME is, for office-setup"),
    ("/etc/office/NAME.conf", "the port of the office NAME, and its settings"),
    ("/var/lib/office/NAME/office.db", "the office NAME of the service office@NAME, with its log, office.db-wal"),
    ("/var/lib/office-backups/", "copies of the offices, made each night by office-backup@NAME.timer"),
    ("/usr/share/office/web/", "the page for a browser, which a proxy serves"),
    ("/usr/share/office/", "configurations of nginx, the gate, nftables and Prometheus"),
    ("/usr/share/doc/office/", "the pages, and examples"),
]
ENVIRONMENT = [
    ("OFFICE_DISK", "what the program may assume about the disk: `any`, also if it is not set, or `powersafe`, if the "
                    "device finishes each sector that it begins; docs/SERVICE.md says more"),
]
EXAMPLE = """office init archive.db
office apply archive.db acts.json
office export archive.db 2025-01-01 > due.csv"""


def section_of(name: str) -> int:
    """Returns the section of the manual that has a command."""
    return 1 if name == "office" or name in FOR_PEOPLE else 8


def call(text: str) -> str:
    """A word with its operands: what is written as it is in bold, operands in italics."""
    pieces = [f"\\fI{it}\\fP" if it.isupper() else f"\\fB{plain(it)}\\fP" for it in text.split(" ")]
    return " ".join(["\\fBoffice\\fP", *pieces])


def rows(words: list[Word]) -> list[str]:
    found = []
    for word in words:
        found += [".TP", " or ".join(call(it) for it in word.calls), f"Prints {inline(word.prints)}."]
    return found


def office(version: str, day: str, scripts: list[str]) -> str:
    """office(1), which names the pages of the scripts."""
    words = table()
    operands = notes().replace("`./office ", "`office ").split(" Standard error ")[0]
    endings = [line for status, meanings in statuses().items() for line in
               (".TP", f"\\fB{status}\\fP", inline(". ".join(it[0].upper() + it[1:] for it in meanings)) + ".")]
    lines = [
        f'.TH OFFICE 1 {day} "office {version}" "User Commands"',
        ".SH NAME", "office \\- records disposal office: due days, legal holds, certificates",
        ".SH SYNOPSIS",
        *[line for word in words for it in word.calls for line in (call(it), ".br")][:-1],
        ".SH DESCRIPTION",
        "\\fBoffice\\fP destroys, reviews or transfers records on the day on which they are due, touches none that is",
        "under a legal hold, and leaves a certificate of what happened. An office is one SQLite file.",
        ".SH COMMANDS", *rows(words), ".TP", "\\fBoffice help\\fP", "Shows the commands.",
        ".SH OPERANDS", inline(operands),
        ".SH EXIT STATUS", *endings,
        ".SH ENVIRONMENT", *[line for name, text in ENVIRONMENT for line in (".TP", f"\\fB{name}\\fP", inline(text))],
        ".SH FILES", *[line for file, text in FILES for line in (".TP", f"\\fI{plain(file)}\\fP", plain(text))],
        ".SH EXAMPLES", ".EX", *map(plain, EXAMPLE.split("\n")), ".EE",
        ".SH SEE ALSO",
        *[f"\\fB{plain(it)}\\fP({section_of(it)})," for it in scripts], "\\fBoffice.toml\\fP(5),",
        "\\fBoffice.access\\fP(5), and the pages in",
        "\\fI/usr/share/doc/office/\\fP: README.md, docs/MANAGER.md for a records manager, docs/SERVICE.md for",
        "whoever runs it, docs/ERRORS.md for what each message means.",
    ]
    return "\n".join(lines) + "\n"


def options(entries: list[Entry]) -> list[str]:
    return [line for entry in entries for line in (".TP", roff.call(entry.call), plain(entry.text) or "\\&")]


def words_of(command: Command) -> list[str]:
    """The words of a command, each with how it is called, what it does, and its options."""
    lines: list[str] = []
    for name, help_ in command.words.items():
        about = command.about(name)
        text = f"{plain(about[:1].upper() + about[1:])}." if about else "\\&"
        lines += [".TP", roff.call(help_.usage), text]
        lines += [".RS", *options([entry for entry in help_.entries if entry.text]), ".RE"]
    return lines


def script(name: str, text: str, command: Command | None, version: str, day: str) -> str:
    """The page of a script: its first comment, whose first paragraph shows how it is called, a line for each way. What a
    command in Python says of itself by its own help takes the place of that paragraph."""
    comment: list[str] = []
    for line in text.split("\n")[1:]:
        if not line.startswith("#"):
            break
        comment.append(line.removeprefix("#").strip())
    paragraphs = "\n".join(comment).split("\n\n")
    calls, about = paragraphs[0].split("\n"), [it.replace("\n", " ") for it in paragraphs[1:]]
    if command is not None:
        calls = [command.whole.usage]
    first = re.split(r"\. |: |, ", about[0])[0].rstrip(".")
    section = section_of(name)
    lines = [
        f'.TH {name.upper()} {section} {day} "office {version}" "{BOOKS[section]}"',
        ".SH NAME", f"{plain(name)} \\- {plain(first[0].lower() + first[1:])}",
        ".SH SYNOPSIS", "\n.br\n".join(roff.call(it) for it in calls),
        ".SH DESCRIPTION", *[line for it in about for line in (inline(it), ".PP")][:-1],
    ]
    if command is not None and command.words:
        lines += [".SH COMMANDS", *words_of(command)]
    if command is not None and command.own():
        lines += [".SH OPTIONS", *options(command.own())]
    lines += [".SH SEE ALSO", "\\fBoffice\\fP(1), \\fI/usr/share/doc/office/docs/\\fP"]
    return "\n".join(lines) + "\n"
