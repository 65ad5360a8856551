"""The due days of the program, for periods by chance: of `office due` one by one, of `office plan` many at once."""
import pathlib
import random
import subprocess

from place import OFFICE

UNITS = {"days": 182500, "weeks": 26000, "months": 6000, "years": 500}
OFFSETS = ["none", "month", "quarter", *(f"from-month-{month}" for month in range(1, 13))]


def office_due(unit: str, count: int, offset: str, start: str) -> str:
    return (
        subprocess.run([OFFICE, "due", unit, str(count), offset, start], check=True, stdout=subprocess.PIPE)
        .stdout.decode()
        .strip()
    )


def cases(count: int) -> list[tuple[str, int, str, str]]:
    """Periods, offsets and days by chance, with the ends of months, leap days and the limits among them."""
    chance = random.Random(49)
    found = []
    for _ in range(count):
        unit = chance.choice(list(UNITS))
        most = UNITS[unit]
        year, month = chance.randint(1, 2999), chance.randint(1, 12)
        length = (
            29
            if month == 2 and year % 4 == 0 and (year % 100 or year % 400 == 0)
            else [31, 28, 31, 30, 31, 30, 31, 31, 30, 31, 30, 31][month - 1]
        )
        day = chance.choice([1, length, chance.randint(1, length)])
        found.append(
            (
                unit,
                chance.choice([0, 1, most, chance.randint(0, most), chance.randint(0, 40)]),
                chance.choice(OFFSETS),
                f"{year:04}-{month:02}-{day:02}",
            )
        )
    return found


def by_plan(file: pathlib.Path, count: int) -> tuple[list[tuple[str, int, str, str]], list[str]]:
    """So many cases, and the due day of each by `office plan`, which reads them from this file."""
    these = cases(count)
    rules = sorted({case[:3] for case in these[:1000]})
    these = [(*rules[number % len(rules)], case[3]) for number, case in enumerate(these)]
    lines = [
        f"schedule S{number} origin {unit} {count} {offset} destroy"
        for number, (unit, count, offset) in enumerate(rules)
    ]
    lines += ["class C S0", "aggregation C -"]
    lines += [f"record 1 - S{number % len(rules)} {case[3]} 2999-12-31" for number, case in enumerate(these)]
    file.write_text("\n".join(lines) + "\n")
    told = subprocess.run([OFFICE, "plan", file], check=True, stdout=subprocess.PIPE).stdout.decode().split()[1::2]
    return these, told
