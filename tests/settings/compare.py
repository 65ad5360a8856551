"""Compares what the proved reader says of files of settings with what the gate's own reader says of them."""
import random
import sys
from pathlib import Path

HERE = Path(__file__).resolve().parent
sys.path[:0] = [str(HERE / "../../companions/gate"), str(HERE / "../../companions")]
from office_gate.access import Access, Person  # noqa: E402
from office_gate.errors import Refused  # noqa: E402
from office_gate.settings import read  # noqa: E402
from office_gate.words import ACTS, READS  # noqa: E402

KINDS = ("add-schedule", "add-class", "set-class-schedule", "add-aggregation", "close-aggregation", "add-record",
         "set-record-schedule", "reclassify", "place-hold", "hold-on", "hold-off", "lift-hold", "confirm", "review",
         "receipt", "event", "open-run", "run-step")
"""the kinds in the order of their numbers"""
SMALL = """# a small office
\tbegin # of all
site https://localhost
zone Etc/UTC
role r may confirm in A* B-1 # ä
role r reads lists

name x is r
name x signs Ä. B.
name * is r in C
rule confirmer-does-not-open
end\t# of all
# nothing more
""".encode()
"""a small file with marks"""
ENDS = SMALL.rindex(b"end") + len("end")
"""where its last statement ends"""
POWERS = {**{kind: number for number, kind in enumerate(KINDS)}, "resume": 18, "vault": 19, "later-day": 20,
          **{f"read {thing}": 21 + number for number, thing in enumerate(READS)}}
assert set(KINDS) == set(ACTS)


def rights(person: Person) -> list[str]:
    lines = []
    for grant in person.grants:
        limits = "".join(f" [ {' '.join(limit)} ]" for limit in grant.limits)
        lines.append(f"  right {POWERS[grant.word]} {int(grant.sent)}{limits}")
    return lines


def held(person: Person) -> list[str]:
    return ["  roles" + "".join(f" {role}" for role in person.roles), *rights(person)]


def stranger(access: Access, name: str) -> list[str]:
    person = access.person(name)
    return [f" stranger {name}", *(held(person) if person.roles or person.grants else [])]


def described(access: Access) -> list[str]:
    lines = []
    for name, person in access.people.items():
        lines += [f" name {name} signs {person.signs}", *held(person)]
    lines += stranger(access, "somebody else") + stranger(access, "LEGAL")
    rules = access.rules
    lines.append(f" rules {int(rules.opener_does_not_carry_out)} {int(rules.confirmer_does_not_open)} "
                 f"{rules.changer_days or 0} {int(rules.sender_does_not_receive)} {int(rules.receiver_does_not_open)}")
    return lines


def by_gate(path: Path) -> list[str]:
    """Returns what the gate's reader says of a file, or its error."""
    try:
        return described(read(path))
    except Refused as refused:
        rest = str(refused).removeprefix(str(path))
        line, _, text = rest.removeprefix(":").partition(":")
        return [f" fault {line if rest.startswith(':') and line.isdigit() else 0} {text.strip() or rest}"]
    except ValueError as error:
        return [f" fault ? {error}"]


def mutants(seed: int, count: int) -> list[bytes]:
    """Makes files: the example, and as many changed ones."""
    chance = random.Random(seed)
    example = (HERE / "../../companions/gate/city.access").read_bytes()
    lines = example.split(b"\n")
    tokens = sorted({token for line in lines for token in line.split(b"#")[0].split()})
    tokens += [b"in", b"if", b"sent", b"*", b"FIN*", b"**", b"A-1", b"is", b"signs", b"", b"later-day", b"vault"]
    tokens += [b"\xc3\x84", b"\xe2\x84\xaa", b"\xff", b"\xc2\xa0", b"\xe2\x80\x8b", b"\xd0\xb0", b"0", b"3651"]
    tokens += [b"00030", b"9" * 23, b"http://localhost:80", b"http://127.0.0.1", b"http://example.org", b"x" * 65]
    tokens += [b"Legal", b"name", b"role", b"rule", b"manager", b"Manager", b"REGISTRAR", b"R. Halloran"]
    more = [b"name * is auditor", b"name * is auditor in PER*", b"name legal is auditor in FIN* A-1",
            b"name manager is legal", b"name auditor signs Auditor", b"name zoe signs Zoe", b"name zoe is nobody",
            b"role legal may confirm in BLDG* FIN*", b"role x may vault", b"name zoe is x x legal", b"limit lists 3",
            b"rule changer-does-not-open 7", b"rule reason-for confirm", b"journal acts", b"name legal signs manager",
            b"name LEGAL is auditor", b"role auditor reads contents in * if sent", b"\t", b"#", b"\r", b"keep free 1",
            b"begin", b"end", b"end x", b" end #", b"ends"]
    made = [example]
    for _ in range(count):
        now = list(lines)
        for _ in range(chance.randint(1, 4)):
            place = chance.randrange(len(now))
            way = chance.randrange(8)
            parts = now[place].split(b" ")
            if way == 0:
                del now[place]
            elif way == 1:
                now.insert(place, chance.choice(more))
            elif way == 2:
                now.insert(place, chance.choice(lines))
            elif way == 3:
                parts[chance.randrange(len(parts))] = chance.choice(tokens)
                now[place] = b" ".join(parts)
            elif way == 4:
                parts.insert(chance.randrange(len(parts) + 1), chance.choice(tokens))
                now[place] = b" ".join(parts)
            elif way == 5:
                del parts[chance.randrange(len(parts))]
                now[place] = b" ".join(parts)
            elif way == 6:
                now[place] = now[place].removeprefix(b"#")
            else:
                now[place] += b" " + chance.choice(tokens)
            if not now:
                now = [b""]
        made.append(b"\n".join(now))
    return made


def cuts() -> list[bytes]:
    """Returns the beginnings of a small file with marks."""
    return [SMALL[:length] for length in range(len(SMALL) + 1)]


def by_program(text: str) -> list[list[str]]:
    """Parts what the program printed into files; each name once, each of its rights once."""
    files: list[list[str]] = []
    for line in text.splitlines():
        if line.startswith("file "):
            files.append([])
        else:
            files[-1].append(line)
    return [once(lines) for lines in files]


def once(lines: list[str]) -> list[str]:
    blocks: dict[str, dict[str, None]] = {}
    block: dict[str, None] = {}
    for line in lines:
        if not line.startswith("  "):
            block = blocks.setdefault(line, {})
        else:
            block[line] = None
    return [line for head, rest in blocks.items() for line in (head, *rest)]


def kind(gate: list[str], program: list[str]) -> str:
    """Returns how the two differ."""
    if gate == program:
        return "same rights"
    refused, denied = gate[0].startswith(" fault"), program[0].startswith(" fault")
    if not refused and not denied:
        return "OTHER RIGHTS"
    if refused and not denied:
        return f"only the gate refuses: {gate[0].split(None, 2)[2][:120]}"
    if not refused:
        return f"only the program refuses: {program[0].split(None, 2)[2][:60]}"
    if gate[0].split()[1] == program[0].split()[1]:
        return "same line"
    return f"another line: gate {gate[0].split(None, 2)[2][-60:]} | program {program[0].split(None, 2)[2][:60]}"


def kind_of_cut(length: int, gate: list[str], program: list[str]) -> str:
    """Returns how the two take a beginning of the small file: all of its statements, or none."""
    refused, denied = gate[0].startswith(" fault"), program[0].startswith(" fault")
    if length < ENDS:
        return "cut, refused by both" if refused and denied else "CUT, AND READ"
    return "cut behind the end, the same rights" if gate == program and not refused else "CUT BEHIND THE END, NOT READ"


def is_wrong(name: str) -> bool:
    """Whether no file may differ so: only a zone that nobody knows, and letters of two scripts, are the gate's alone."""
    if name.startswith("only the gate refuses"):
        return "time zone" not in name and "letters of" not in name
    return name == "OTHER RIGHTS" or name.startswith("CUT")


def main() -> int:
    if sys.argv[1] == "make":
        folder, seed, count = Path(sys.argv[2]), int(sys.argv[3]), int(sys.argv[4])
        made = [*cuts(), *mutants(seed, count)]
        for number, data in enumerate(made):
            (folder / str(number)).write_bytes(data)
        print(len(made))
        return 0
    folder, printed = Path(sys.argv[2]), Path(sys.argv[3])
    kinds: dict[str, list[int]] = {}
    for number, program in enumerate(by_program(printed.read_text(errors="replace"))):
        gate = once(by_gate(folder / str(number)))
        name = kind_of_cut(number, gate, program) if number <= len(SMALL) else kind(gate, program)
        kinds.setdefault(name, []).append(number)
    for name, numbers in sorted(kinds.items(), key=lambda pair: -len(pair[1])):
        print(f"{len(numbers)} {name}, as file {numbers[0]}")
    return 1 if any(is_wrong(name) for name in kinds) else 0


sys.exit(main())
