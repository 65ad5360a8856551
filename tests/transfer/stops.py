"""SIGKILL of the writer at random moments: no folder that looks whole is left, and the next run makes the whole one."""
import pathlib
import random
import signal
import subprocess
import time

import reader
from fake import Fake
from kit.companions import companion
from kit.judging import judge
from place import files_in, run

KILLS = 40
RECORDS = 30


def stops(folder: pathlib.Path) -> None:
    rng = random.Random(73)
    with Fake() as fake:
        fake.close(1, [fake.record(at, f"r{at}", f"Title {at}", rng.randbytes(20_000)) for at in range(1, RECORDS + 1)])
        words = [str(companion("office-transfer")), "--office", fake.address]
        began = time.monotonic()
        run(*words, "1", folder / "model")
        seconds, model = time.monotonic() - began, files_in(folder / "model")
        judge("a bag that nobody stopped is valid", reader.problems_of(str(folder / "model")) == [])
        whole = cut = during = 0
        for at in range(KILLS):
            target = folder / f"bag{at % 4}"
            process = subprocess.Popen([*words, "1", str(target)], stdout=subprocess.DEVNULL, stderr=subprocess.DEVNULL)
            time.sleep(rng.uniform(0.1, 1.05) * seconds)
            process.send_signal(signal.SIGKILL)
            process.wait()
            left = [it for it in folder.iterdir() if it.name.startswith(f".bag{at % 4}.new-")]
            during += bool(left)
            if target.exists():
                whole += files_in(target) == model
                cut += files_in(target) != model
            if any(reader.problems_of(str(it)) == [] and files_in(it) != model for it in left):
                cut += 1
            if target.exists():
                subprocess.run(["rm", "-r", str(target)], check=True)
            order = folder / f"{target.name}.order.txt"
            cut += order.exists() and b"\nCHALLENGE " not in order.read_bytes()
        print(f"    kills: {KILLS}, while it was written: {during}, after it had its name: {whole}")
        judge("some kills met the writing", during > KILLS // 4, (during, whole))
        judge("no kill left a folder that looks whole and is not", cut == 0, cut)
        done = [run(*words, "1", folder / f"bag{at}") for at in range(4)]
        judge("the next run makes the same whole bag", all(it.status == 0 for it in done)
              and all(files_in(folder / f"bag{at}") == model for at in range(4)), done)
        names = {"model", *(f"bag{it}" for it in range(4))}
        judge("and leaves nothing but the orders", {it.name for it in folder.iterdir()} == names | {f"{it}.order.txt" for it in names},
              sorted(it.name for it in folder.iterdir()))


def beside(folder: pathlib.Path) -> None:
    """A second one begins at the same place while the first writes: neither takes away what the other has written."""
    with Fake(seconds=0.05) as fake:
        fake.close(1, [fake.record(at, f"r{at}", "T", b"x") for at in range(1, 31)])
        words = [str(companion("office-transfer")), "--office", fake.address, "1", str(folder / "bag")]
        both = [subprocess.Popen(words, stdout=subprocess.PIPE, stderr=subprocess.PIPE)]
        while not list(folder.glob(".bag.new-*/data")):
            time.sleep(0.01)
        both.append(subprocess.Popen(words, stdout=subprocess.PIPE, stderr=subprocess.PIPE))
        ends = [(it.wait(), it.communicate()) for it in both]
        judge("two at once make one bag", [it[0] for it in ends] == [0, 0]
              and reader.problems_of(str(folder / "bag")) == []
              and {it.name for it in folder.iterdir()} == {"bag", "bag.order.txt"}, ends)
