#!/usr/bin/env python3
"""Draws docs/layers.svg from crates.txt, by graphviz's dot: each crate above all those that it names.

    .ci/layers.py [check]

With `check` nothing is written, and the status is 1 if the picture lacks a crate or shows one that is gone.
"""
import html
import pathlib
import re
import subprocess
import sys
from typing import NamedTuple

TOP = pathlib.Path(__file__).resolve().parent.parent
PICTURE = TOP / "docs/layers.svg"
TITLE = "The crates of the office, each above all those that it names. A line leads to the next ones below."
TESTS = ("office_stories", "office_cases")
SCALE, MARGIN, FOOT = 0.84, 4, 28


class Colour(NamedTuple):
    """A colour of the picture, and what the crates of that colour are."""

    fill: str
    meaning: str


OFFICE = Colour("#dbe7f3", "the office, and in memory")
TABLES = Colour("#f6e3d3", "tables in FILE")
BYTES = Colour("#e3f0dc", "bytes: they decide nothing")
COMMANDS = Colour("#f4f1ea", "commands, files, sockets")
TESTED = Colour("#ffffff", "tests alone")
COLOURS = (OFFICE, TABLES, BYTES, COMMANDS, TESTED)
CRATES = {
    "office_base": (OFFICE, "refusals, stops, rows"), "office_days": (OFFICE, "days, due days"),
    "office_records": (OFFICE, "what records are"), "office_rules": (OFFICE, "definitions, laws"),
    "office_tree": (OFFICE, "the tree in memory"), "office_holds": (OFFICE, "holds in memory"),
    "office_proof": (OFFICE, "certificates"), "office_machine": (OFFICE, "decides and makes"),
    "office_plan": (OFFICE, "due, plan"), "office_desk": (OFFICE, "the open office"),
    "office_evidence": (OFFICE, "certificates are true"), "office_guard": (OFFICE, "the desk, guarded"),
    "office_access": (OFFICE, "who may do what"), "office_guarantees": (OFFICE, "evidence in FILE"),
    "office_policy": (OFFICE, "settings to rights"), "office_gate": (OFFICE, "a name is answered"),
    "office_noting": (OFFICE, "noted, then done"),
    "office_sql": (TABLES, "each statement"), "office_store": (TABLES, "the tables in FILE"),
    "office_http": (BYTES, "requests, replies"), "office_json": (BYTES, "acts, answers"),
    "office_wire": (BYTES, "a request answered"), "office_csv": (BYTES, "rows, registers"),
    "office_command_line": (BYTES, "commands, operands"), "office_journal": (BYTES, "lines that are linked"),
    "office_settings": (BYTES, "lines of settings"), "office_notes": (BYTES, "acts as it notes them"),
    "office_commands": (COMMANDS, "commands over FILE"), "office_life": (COMMANDS, "stints on one FILE"),
    "office_sessions": (COMMANDS, "requests, stint by stint"), "office_program": (COMMANDS, "its calls, together"),
    "office": (COMMANDS, "the program"),
    "office_stories": (TESTED, "tests, with a database"), "office_cases": (TESTED, "tests, without a database"),
}


def named() -> dict[str, set[str]]:
    """Returns the crates of the repository that each crate names."""
    lines = [line.partition(":") for line in (TOP / "crates.txt").read_text().splitlines() if ":" in line]
    own = {name for name, _, _ in lines}
    return {name: own & set(rest.split()) for name, _, rest in lines}


def below(name: str, names: dict[str, set[str]]) -> set[str]:
    """Returns all crates that a crate stands on."""
    return names[name].union(*(below(other, names) for other in names[name]))


def next_below(name: str, names: dict[str, set[str]]) -> set[str]:
    """Returns the crates that a crate names and that no other of these stands on."""
    return names[name] - set[str]().union(*(below(other, names) for other in names[name]))


def graph(names: dict[str, set[str]]) -> str:
    """Returns the picture in the language of dot. The stories try the program; no line leads from the cases."""
    lines = ['digraph { rankdir=TB; nodesep=0.12; ranksep=0.42;',
             'node [shape=box style="rounded,filled" margin="0.055,0.03" color="#333333" fontname="sans-serif"];',
             'edge [color="#555555" arrowsize=0.5];']
    for name in names:
        colour, label = CRATES[name]
        lines.append(f'{name} [fillcolor="{colour.fill}" label=<<font point-size="12"><b>{name}</b></font>'
                     f'<br align="left"/><font point-size="10">{html.escape(label)}</font><br align="left"/>>];')
        lines += [f"{name} -> {other};" for other in sorted(next_below(name, names)) if name not in TESTS]
    lines += ["office_stories -> office_program [style=dashed];", "office_cases -> office_program [style=invis];", "}"]
    return "\n".join(lines)


def legend(width: float, top: float) -> str:
    """Returns the meanings of the colours, in a row."""
    places = [12 + place * (width - 12) / len(COLOURS) for place in range(len(COLOURS))]
    return "\n".join(f'<rect x="{x:.0f}" y="{top:.0f}" width="10" height="10" fill="{colour.fill}" stroke="#333"/>'
                     f'<text x="{x + 14:.0f}" y="{top + 9:.0f}" font-size="8">{html.escape(colour.meaning)}</text>'
                     for x, colour in zip(places, COLOURS))


def picture(drawn: str) -> str:
    """Returns what dot drew, without its comments and names, smaller and with a legend."""
    size = re.search(r'viewBox="[\d.]+ [\d.]+ ([\d.]+) ([\d.]+)"', drawn)
    body = re.search(r"<g id=\"graph0\".*?>\n(.*)</g>\n</svg>", drawn, re.S)
    if not size or not body:
        sys.exit("layers: dot drew no picture that can be read")
    width, height = float(size[1]) * SCALE, float(size[2]) * SCALE
    inside = re.sub(r"<!--.*?-->\n|<title>.*?</title>\n|<polygon fill=\"white\"[^>]*/>\n", "", body[1])
    inside = re.sub(r' (id|class|font-family)="[^"]*"', "", inside)
    return "\n".join([
        f'<svg xmlns="http://www.w3.org/2000/svg" viewBox="0 0 {width:.0f} {height + FOOT:.0f}" role="img" '
        f'aria-labelledby="t" font-family="sans-serif">', f'<title id="t">{TITLE}</title>',
        f'<rect width="{width:.0f}" height="{height + FOOT:.0f}" fill="#fff"/>',
        f'<g transform="scale({SCALE}) translate({MARGIN} {height / SCALE - MARGIN:.0f})">', f"{inside}</g>",
        legend(width, height + 6), "</svg>", ""])


def check(names: dict[str, set[str]]) -> int:
    """Compares the crates of the picture with those of crates.txt."""
    shown = set(re.findall(r">(office\w*)</text>", PICTURE.read_text()))
    for name in sorted(shown ^ set(names)):
        print(f"docs/layers.svg: {name} is {'not in crates.txt' if name in shown else 'not shown'}: .ci/layers.py draws it")
    print(f"{len(shown & set(names))} passed, {len(shown ^ set(names))} failed")
    return 1 if shown != set(names) else 0


def main() -> int:
    names = named()
    if sys.argv[1:] == ["check"]:
        return check(names)
    missing = sorted(set(names) - set(CRATES))
    if missing:
        sys.exit(f"layers: no colour and label for {' '.join(missing)}")
    done = subprocess.run(["dot", "-Tsvg"], input=graph(names), capture_output=True, text=True, check=True)
    PICTURE.write_text(picture(done.stdout))
    return 0


if __name__ == "__main__":
    sys.exit(main())
