"""A fresh clone, with the kit itself: the seconds to its first due day, page and certificate; what both previews print."""
import shutil
import subprocess
import time

from pages.commands import TOP
from kit.judging import judge
from pages.shell import Shell
from previews import COMPILED, MORE, SMALL, judge_alike, plain

CERTIFICATE = ("./office apply clock.db examples/first/acts.json && ./office resume clock.db && "
               "./office certificate clock.db 1 | tail -n 1")
DIGEST = "SHA256 a38df462576deec0e07f2be45da54f3ebae062bbd4d225045ff7ea80502914e6\n"
PAGE = "until curl --silent --fail --output /dev/null http://127.0.0.1:8080/records/1; do sleep 0.2; done"
DEMO = f"./office demo 2>said & {PAGE}; kill -INT $!; wait $!; cat said"


def judge_fresh_clone(shell: Shell) -> None:
    place = shell.path("fresh")
    subprocess.run(["git", "-c", "safe.directory=*", "clone", "--quiet", "--no-hardlinks", str(TOP), str(place)], check=True)
    for name in subprocess.run(["git", "-c", "safe.directory=*", "ls-files", "--modified", "--others", "--exclude-standard"],
                               cwd=TOP, check=True, stdout=subprocess.PIPE).stdout.decode().splitlines():
        if (TOP / name).exists():
            (place / name).parent.mkdir(parents=True, exist_ok=True)
            shutil.copy(TOP / name, place / name)
    began = time.time()
    done = shell.run("cd fresh && ./office due years 7 from-month-4 2017-06-30")
    judge(f"the first due day, after {time.time() - began:.0f} s", (done.status, done.out) == (0, "2025-04-01\n")
          and done.err.startswith(SMALL) and done.err.endswith(COMPILED), f"{done}")
    for line in (it for it in MORE if it.split(" ")[1] in ("due", "plan") and " -" not in it):
        built, small = shell.run(line), plain(shell.run(f"cd fresh && {line}"))
        judge(f"by examples/days as by the built program: {line}", built == small, f"{built}\n{small}")
    began = time.time()
    shell.seconds = 3600
    done = shell.run(f"cd fresh; {DEMO}")
    judge(f"the page, after {time.time() - began:.0f} s more", done.status == 0 and COMPILED in done.out
          and done.out.endswith("office: the demo has ended, and its office is removed\n"), f"{done}")
    began = time.time()
    done = shell.run(f"cd fresh && {CERTIFICATE}")
    judge(f"the first certificate, after {time.time() - began:.0f} s more", done.out.endswith(DIGEST), f"{done}")
    judge_alike(shell, lambda line: shell.run(f"cd fresh && {line}"))
