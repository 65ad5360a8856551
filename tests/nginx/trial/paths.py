"""Which paths come to an office, and what a monitor reads."""
from kit.judging import same
from trial import place
from trial.access import error
from trial.place import ask, post

# path and method, and what the office is asked for
SERVED = {
    ("POST", "acts"): "/acts",
    ("POST", "run/resume"): "/run/resume",
    ("GET", "records/1"): "/records/1",
    ("GET", "records/4294967295/content"): "/records/4294967295/content",
    ("GET", "due/2025-01-01"): "/due/2025-01-01",
    ("GET", "overdue/2025-01-01/30"): "/overdue/2025-01-01/30",
    ("GET", "certificates/1"): "/certificates/1",
    ("GET", "records/1?x=y"): "/records/1?x=y",
}
OTHERS = ["", "replica", "acts/1", "records", "records/01", "records/1/content/x", "records/12345678901", "due/today",
          "due/2025-1-1", "overdue/2025-01-01", "certificates/", "run", "alive/x", "metrics", "records/1%20",
          "records/1%0a", "acts%0a", "records/1;x"]


def passed_on(folder: str, port: int) -> None:
    """Only the seven paths come to an office."""
    with place.StandIn(port, b"[]") as stand_in:
        for (method, path), target in SERVED.items():
            body = b"[]" if path == "acts" else None
            seen = post(folder + path, body or b"").status if method == "POST" else ask("GET", folder + path).status
            came = seen, stand_in.targets[-1:]
            same(f"{method} {folder}{path} comes to the office as {target}", came, (200, [target]))
        count = len(stand_in.targets)
        # the address of one office alone goes to its page
        seen = {path: ask("GET", folder + path).status for path in OTHERS if folder != "/" or path}
        same("no other path does", (set(seen.values()), stand_in.targets[count:]), ({404}, []))


def monitor(folder: str) -> None:
    """A monitor learns whether the office has a record. Its password reads nothing, and no other is taken there."""
    alive = ask("GET", f"{folder}alive", name="monitor")
    same("a monitor sees that the office has a record", (alive.status, alive.body), (200, b'{"records":true}'))
    for path in ("records/1", "records/1/content", "due/2025-01-01", "overdue/2025-01-01/30", "certificates/1", "web/",
                 "catalogue/about.json"):
        error(f"its password does not read {path}", ask("GET", folder + path, name="monitor"), 401, "password")
    for path in ("acts", "run/resume"):
        error(f"nor does it act by {path}", post(folder + path, b"[]", "monitor"), 401, "password")
    error("another name is not taken there", ask("GET", f"{folder}alive"), 401, "password")
    error("nor no name", ask("GET", f"{folder}alive", name=None), 401, "password")


def monitor_of_new(folder: str) -> None:
    """An office with no record is perhaps not the one that was there."""
    error("an office with no record is not well", ask("GET", f"{folder}alive", name="monitor"), 404, "record")


def monitor_of_none(folder: str) -> None:
    error("no office is not well", ask("GET", f"{folder}alive", name="monitor"), 502, "office")
