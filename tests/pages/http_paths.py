"""examples/city_archive/README.md, and then docs/HTTP.md, whose office is the one of that page."""
import base64
import json

from pages.commands import TOP, blocks
from pages.expected import Row, run_page
from kit.judging import judge
from pages.shell import Shell

PAGE = "docs/HTTP.md"
STORY = "examples/city_archive"


def output(name: str) -> str:
    return (TOP / STORY / name).read_text()


CITY_ROWS = [
    Row("./office apply alderquay.db examples/city_archive/1-schedule.json", prints=output("1-schedule.out")),
    Row("./office apply alderquay.db examples/city_archive/2-holdings.json", prints=output("2-holdings.out")),
    Row("./office apply alderquay.db examples/city_archive/3-lawsuit.json", prints=output("3-lawsuit.out"), status=1),
    Row("./office apply alderquay.db examples/city_archive/4-confirmed.json",
        prints=output("4-confirmed.out"), status=1),
    Row("./office resume alderquay.db", like=r"certificate [12]\n"),
    Row("./office certificate alderquay.db 1", prints=output("certificate-1.txt")),
    Row("./office apply alderquay.db examples/city_archive/5-lifted.json", prints=output("5-lifted.out")),
    Row("./office certificate alderquay.db 2", prints=output("certificate-2.txt")),
]


def joined(start: str) -> str:
    """The text of a block that begins so, without its line breaks."""
    block = next(it for it in blocks(PAGE) if it[0].startswith(start))
    return "".join(line.strip() for line in block)


def is_content(shell: Shell) -> None:
    acts = [act for act in json.loads(output("2-holdings.json")) if act["act"] == "add-record"]
    same = shell.path("permit.txt").read_bytes() == base64.b64decode(acts[19]["content"])
    judge("it is the content of record 20", same)


def is_sorted(shell: Shell) -> None:
    rows = json.loads(shell.run("curl --silent $http/due/2025-01-01").out)
    due = [(row["due"], row["record"]) for row in rows]
    holds = due == sorted(due) and due[-1][0] <= "2025-01-01"
    judge("it is sorted by due day and number, up to the day", holds, f"{due}")


def is_overdue(shell: Shell) -> None:
    """Each row's deadline is before the day; rows come by deadline and number."""
    rows = json.loads(shell.run("curl --silent $http/overdue/2025-02-01/30").out)
    late = [(row["deadline"], row["record"]) for row in rows]
    judge("it is sorted by deadline and number, before the day", late == sorted(late) and late[-1][0] < "2025-02-01",
          f"{late}")


ROWS = [
    Row("./office serve alderquay.db 8080 1000000", serves=True, prints="listening 127.0.0.1:8080\n"),
    Row("curl --data-binary @examples/city_archive/6-letter.json $http/acts", prints='[{"done":true},{"number":34}]'),
    Row("curl -X POST $http/run/resume", prints='{"refused":18}'),
    Row("curl $http/records/8", prints=joined('{"added"')),
    Row("curl -o permit.txt $http/records/20/content", then=is_content),
    Row("curl $http/due/2025-01-01", like=r"\[\{.*\}\]", then=is_sorted),
    Row("curl $http/overdue/2025-02-01/30", like=r"\[\{.*\}\]", then=is_overdue),
    Row("curl $http/certificates/1", prints=output("certificate-1.txt")),
]


def run(shell: Shell) -> None:
    run_page(shell, f"{STORY}/README.md", CITY_ROWS)
    run_page(shell, PAGE, ROWS)
