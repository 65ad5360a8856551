"""The head of the journal that the gate prints in each minute in which a line came. It takes a minute."""
import pathlib

from gate_trial.base import made
from gate_trial.ends import PRINTED, log, waited
from kit.judging import judge, same

SECONDS = 180
"""a minute, and what a machine under load takes"""


def tried(folder: pathlib.Path) -> None:
    world = made(folder)
    count = len(PRINTED.findall(log(world)))
    same("at the start", count, 1)
    for _ in range(3):
        world.ask("auditor", "GET", "/records/1")
    line = world.lines()[-1]["line"]
    same("a minute after some lines", int(waited(world, count + 1, SECONDS).split(":")[0]), line)
    judge("the chain has it", world.check("--heads", world.folder / "log").returncode == 0)
    world.end()
