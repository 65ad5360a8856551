#!/usr/bin/env python3
"""The commands of the program, as crates/office_command_line declares them, for the launcher and the gate.

    .ci/commands.py help [NAME]     prints the help of the program, or of a command, as the program prints it
    .ci/commands.py operands NAME   prints the operands of a command; status 1 if there is no such command
    .ci/commands.py check           compares the commands with the table of README.md and the help in the tests
"""
import pathlib
import re
import sys
from typing import NamedTuple

TOP = pathlib.Path(__file__).resolve().parent.parent
SOURCE = TOP / "crates/office_command_line/src/command.rt"
TESTS = TOP / "crates/office_cases/src/word_tests.rt"
ROW = re.compile(r'name: "(\w+)",\s*about: "([^"]*)",\s*operands: &\[(.*?)\],\n', re.S)
OPERAND = re.compile(r'Operand\(\s*"(\w+)",\s*"([^"]*)",?\s*\)')
ABOUT = re.compile(r'Command::new\(alloc, "office"\)\s*\.about\("([^"]*)"\)')
OPTIONS = "Options:\n  -h, --help  Print help\n"
HELP = ("help", "Print this message or the help of the given subcommand(s)")


class Command(NamedTuple):
    """A command: what the help says of it, and of each of its operands, in their order."""

    about: str
    operands: dict[str, str]


def commands() -> dict[str, Command]:
    rows = ROW.findall(SOURCE.read_text())
    return {name: Command(about, dict(OPERAND.findall(operands))) for name, about, operands in rows}


def aligned(rows: list[tuple[str, str]]) -> str:
    width = max(len(name) for name, _ in rows)
    return "".join(f"  {name:{width}}  {about}\n" for name, about in rows)


def help_of_all() -> str:
    found = ABOUT.search(SOURCE.read_text())
    rows = [(name, it.about) for name, it in commands().items()]
    about = found[1] if found else ""
    return f"{about}\n\nUsage: office <COMMAND>\n\nCommands:\n{aligned([*rows, HELP])}\n{OPTIONS}"


def help_of(name: str, it: Command) -> str:
    rows = [(f"<{operand}>", about) for operand, about in it.operands.items()]
    usage = " ".join(["office", name, *(operand for operand, _ in rows)])
    return f"{it.about}\n\nUsage: {usage}\n\nArguments:\n{aligned(rows)}\n{OPTIONS}"


def is_call(words: list[str], it: Command) -> bool:
    """Whether README calls the command so: by the names of operands, or by words that the help of one has."""
    named = list(it.operands.items())
    return len(words) == len(named) and all(
        word == name or word.lower() in re.findall(r"\w+", about) for word, (name, about) in zip(words, named))


def wrong() -> list[str]:
    """What README.md or the tests say otherwise, a line each."""
    declared, readme = commands(), (TOP / "README.md").read_text()
    rows = readme[readme.index("| Command | Standard output |"):].split("\n\n")[0].split("\n")[2:]
    calls = [call.split(" ") for row in rows for call in re.findall(r"`([^`]+)`", row.split(" | ")[0])]
    found = [f"README.md has no command {name}" for name in declared if name not in [it[0] for it in calls]]
    found += [f"README.md calls `{' '.join(it)}`, and no such command is declared" for it in calls
              if it[0] not in declared or not is_call(it[1:], declared[it[0]])]
    if "    text office help = " + help_of_all().replace("\n", "\\\\n") not in TESTS.read_text():
        found.append(f"the help is not that of {TESTS.relative_to(TOP)}")
    return found


def main(words: list[str]) -> int:
    if words == ["check"]:
        found = wrong()
        print("".join(f"FAILED: {it}\n" for it in found) + f"{len(commands())} passed, {len(found)} failed")
        return 1 if found else 0
    if words == ["help"]:
        print(help_of_all(), end="")
        return 0
    if len(words) != 2 or words[0] not in ("help", "operands"):
        sys.exit(__doc__)
    it = commands().get(words[1])
    if it is None:
        return 1
    print(help_of(words[1], it).rstrip("\n") if words[0] == "help" else " ".join(it.operands))
    return 0


if __name__ == "__main__":
    sys.exit(main(sys.argv[1:]))
