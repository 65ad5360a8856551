"""docs/CALENDAR.md: the usual rules, each with the due day that the page shows."""
import re

from pages.commands import TOP
from pages.expected import Row, run_page
from kit.judging import judge
from pages.shell import Shell

PAGE = "docs/CALENDAR.md"
RULE = re.compile(r"^\| .* \| `([a-z-]+) ([a-z]+) (\d+) ([a-z0-9-]+) ([a-z]+)` \| (\S+) \| (\S+) \|$", re.M)
ROWS = [Row("./office due"), Row("./office plan examples/plan/usual.plan")]


def judge_rules(shell: Shell) -> None:
    """Each rule of the table is a schedule of the plan, and `office due` gives the day that the table has."""
    plan = (TOP / "examples/plan/usual.plan").read_text()
    planned = {line.split(" ", 2)[2] for line in plan.splitlines() if line.startswith("schedule ")}
    rules = RULE.findall((TOP / PAGE).read_text())
    written = {" ".join(rule[:5]) for rule in rules}
    judge(f"{PAGE}: its rules are the schedules of usual.plan", written == planned, f"{rules}")
    for trigger, unit, count, offset, action, start, due in rules:
        name = f"{PAGE}: {trigger} {unit} {count} {offset} {action}, from {start}, is due on {due}"
        done = shell.run(f"./office due {unit} {count} {offset} {start}")
        judge(name, due == "-" if action == "keep" else done.out == f"{due}\n", done.out)


def run(shell: Shell) -> None:
    judge_rules(shell)
    run_page(shell, PAGE, ROWS)
