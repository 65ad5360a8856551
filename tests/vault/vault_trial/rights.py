"""Who may read a file: who may read the content of the record, as the office says each time, and nobody else."""
import pathlib

from kit.judging import judge, same
from vault_trial.standin import StandIn
from vault_trial.world import World, free_port


def tried(folder: pathlib.Path) -> None:
    office = StandIn(free_port())
    with World(folder, 8, office) as it:
        names = [it.note(f"file {at}".encode() * 100) for at in range(3)]
        for one in names:
            it.put(one)
        numbers = [it.file("D", [one]) for one in names]
        office.readers = {numbers[0]: {"clerk", "auditor"}, numbers[1]: {"auditor"}, numbers[2]: set()}
        # the third record names the object of the second as well
        both = it.file("D", names[1:])
        office.readers[both] = {"clerk"}
        for name in ("clerk", "auditor", "stranger", ""):
            for number, at in [(numbers[0], 1), (numbers[1], 1), (numbers[2], 1), (both, 1), (both, 2)]:
                may = name in office.readers[number]
                for path in (f"/records/{number}/files/{at}", f"/records/{number}/files"):
                    for method in ("GET", "HEAD"):
                        status, body, lines = it.ask(method, path, Office_Name=name)
                        same(f"{method} {path} of {name or 'nobody'}", status, 200 if may else 403)
                        judge("nothing is shown", may or "X-Accel-Redirect" not in lines and b"sha" not in body, lines)
        before = len(office.asked)
        for _ in range(3):
            it.ask("GET", f"/records/{numbers[0]}/files/1", Office_Name="clerk")
        same("the office is asked each time", len(office.asked) - before, 3)
        it.ask("GET", f"/records/{numbers[0]}/files/1", Office_Name="clerk", Authorization="Basic eDp5", Cookie="x")
        lines = {name.lower() for name in office.asked[-1][1]}
        found = lines & {"authorization", "cookie", "office-name"}
        same("lines of the office alone are passed on", found, {"office-name"})
        office.end(numbers[0])
        same("after the record's end", it.ask("GET", f"/records/{numbers[0]}/files/1", Office_Name="clerk")[:2],
             (404, b'{"error":"content"}'))
        judge("the object may still be there", names[0] in it.there())
        for status, wanted in [(503, 503), (500, 503), (401, 401), (302, 503)]:
            office.status = status
            same(f"an office that answers {status}", it.ask("GET", f"/records/{both}/files/1", Office_Name="clerk")[0],
                 wanted)
