"""Requests a second and milliseconds through nginx and the gate, beside nginx alone, and what the gate itself takes."""
import json
import os
import pathlib
import re
import shutil
import subprocess

from gate_trial.base import SETTINGS, plan
from kit.judging import judge
from gate_trial.proxy import PASSWORD, Proxy
from gate_trial.world import World, today

COUNT = 300
CLIENTS = (1, 4)
RATE = re.compile(r"Requests per second:\s+([\d.]+)")
MEDIAN = re.compile(r"\n\s+50%\s+(\d+)\n")
WRONG = re.compile(r"Non-2xx responses:\s+(\d+)")


def tried(folder: pathlib.Path) -> None:
    if shutil.which("ab") is None:
        raise SystemExit("tests/gate/run: speed needs ab, of apache2-utils")
    world = World(folder / "world", SETTINGS)
    gated, alone = (Proxy(folder / site, site, ["bench"], world.place, world.port, folder) for site in
                    ("gated.conf", "offices.conf"))
    world.settings.write_text(f"site {gated.here}\nzone UTC\n{SETTINGS}name bench is legal\n")
    world.start_office()
    world.start_gate()
    world.place.chmod(0o666)
    world.act("records-manager", *plan(), Host=gated.here.removeprefix("https://"), Origin=gated.here)
    for it in (gated, alone):
        it.start()
    (folder / "acts").write_text(json.dumps([{"act": "lift-hold", "day": today(), "hold": "NONE"}]))
    (folder / "none").write_text("[]")
    for what, path, words in (("a reading", "/city/records/1", []),
                              ("a list of no acts", "/city/acts", ["-p", folder / "none"]),
                              ("an act that is refused", "/city/acts", ["-p", folder / "acts"])):
        for clients in CLIENTS:
            found = {"nginx alone": measured(alone, path, clients, words)}
            before = processor(world)
            found["with the gate"] = measured(gated, path, clients, words)
            spent = (processor(world) - before) / COUNT
            told = ", ".join(f"{name} {rate:.0f} a second, {middle} ms" for name, (rate, middle) in found.items())
            print(f"{what}, {clients} at once: {told}; the gate took {spent:.2f} ms of a processor for each", flush=True)
            judge(f"{what}, {clients} at once", all(rate > 0 for rate, _ in found.values()), found)
    for it in (gated, alone):
        it.stop()
    world.end()


def processor(world: World) -> float:
    """Returns how many milliseconds of a processor the gate had so far."""
    assert world.gate is not None
    fields = pathlib.Path(f"/proc/{world.gate.pid}/stat").read_text().rsplit(")", 1)[1].split()
    return (int(fields[11]) + int(fields[12])) * 1000 / os.sysconf("SC_CLK_TCK")


def measured(it: Proxy, path: str, clients: int, words: list) -> tuple[float, int]:
    """Asks so many times, and returns requests a second and the median."""
    call = ["ab", "-q", "-n", COUNT, "-c", clients, "-A", f"bench:{PASSWORD}", "-H", f"Origin: {it.here}", "-T",
            "application/json",
            *words, f"{it.here}{path}"]
    done = subprocess.run(list(map(str, call)), capture_output=True, text=True, check=False)
    rate, middle, wrong = (found.search(done.stdout) for found in (RATE, MEDIAN, WRONG))
    is_acts = "acts" in str(words)
    judge(f"{path}: each is answered", rate and (is_acts or wrong is None), done.stdout[-600:] + done.stderr)
    return (float(rate[1]), int(middle[1]) if middle else 0) if rate else (0.0, 0)
