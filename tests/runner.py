"""Runs trials of a list, some at a time, each within its limit, and reports how each ended."""
import concurrent.futures
import os
import pathlib
import re
import shutil
import signal
import subprocess
import tempfile
import threading
import time
from collections.abc import Iterable, Sequence
from typing import NamedTuple

import needs

TOP = pathlib.Path(__file__).resolve().parent.parent
COUNTS = re.compile(r"^([\d,]+) (?:passed|seen|apply), ([\d,]+) (?:failed|not seen|do not)$")
SHARE = re.compile(r"^([\d,]+) of ([\d,]+) found$")
# a judgement that failed, or a finding in a file
WRONG = re.compile(r"\s*(FAILED|failed|wrong)\b|[\w./-]+:\d+: ")
# a trial that cannot be run here ends with this status, and its last line says why
SKIPPED = 77
# the first process of a trial that has a network and processes of its own
SPACE = [*needs.SPACES, "sh", "-c", 'ip link set lo up; "$@"; exit $?', "sh"]
DAY = 86_400
# the parts of the project after whose change a trial is run, by what is in each
PARTS = {
    "contract": "any clause, comment or mutant",
    "memory": "office_machine, and what it stands on but office_base and office_days",
    "tables": "office_sql, office_store, office_desk",
    "wire": "office_json, office_csv, office_http, office_wire, companions/sheets",
    "words": "all other crates",
    "service": "companions, deploy, docs/SERVICE.md, docs/BACKUP.md, docs/WATCHING.md",
    "pages": "README.md and docs",
    "web": "page, docs/openapi.yaml, docs/ERRORS.md",
    "vault": "companions/vault, docs/VAULT.md",
    "package": "companions, deploy, CHANGELOG.md",
    "replicas": "companions/members, docs/REPLICAS.md",
}
TAIL, JUDGED = 20, 40
"""how many lines of a failed trial are printed: of its end, and of what failed"""


class Trial(NamedTuple):
    """A trial: its command from the top, what it tries, its parts, what it needs, its minutes, its limit in seconds.

    `called` is its name, if that is not the folder of the command.
    """

    command: str
    tries: str
    parts: str = ""
    needs: str = "program"
    minutes: int | None = None
    limit: int = DAY
    called: str = ""

    @property
    def name(self) -> str:
        """The name that a user gives: the folder of the command, with the part if the trial is one part of it."""
        if self.called:
            return self.called
        command, *parts = [part for part in self.arguments if not part.startswith("-") and not part.isdigit()]
        base = re.sub(r"^(tests|bench|\.ci)/|/run$|\.py$", "", command)
        return f"{base}/{parts[0]}" if len(parts) == 1 and self.limit < DAY else base

    @property
    def arguments(self) -> list[str]:
        """The command and its arguments, without the variables that it is given."""
        parts = self.command.split(" ")
        return [part for part in parts[1:] if "=" not in part] if parts[0] == "env" else parts


class Outcome(NamedTuple):
    """The end of a trial: `passed`, `failed` or `skipped`, its last line or the reason, seconds, and skipped parts."""

    trial: Trial
    verdict: str
    last: str
    clock: float = 0
    processor: float = 0
    left_out: tuple[str, ...] = ()

    def __str__(self) -> str:
        verdict = "FAILED" if self.verdict == "failed" else self.verdict
        took = f", {self.clock:.0f} s ({self.processor:.0f} of a processor)" if self.clock else ""
        return f"{verdict}: {self.trial.name}{took}: {self.last}"


class Running:
    """Trials that are run: where their logs are, the program, and the moments after which none begins or goes on."""

    def __init__(self, program: pathlib.Path | None, begin_until: float, end_at: float) -> None:
        self.program, self.begin_until, self.end_at = program, begin_until, end_at
        self.logs = pathlib.Path(tempfile.mkdtemp(prefix="office-test-"))
        self.logs.chmod(0o755)
        self.printing = threading.Lock()
        self.children: set[int] = set()
        self.stopped = False

    def run_all(self, trials: Sequence[Trial], at_once: int) -> list[Outcome]:
        """Runs trials in their order, as many at once, and prints how each ended."""
        with concurrent.futures.ThreadPoolExecutor(at_once) as pool:
            running = [pool.submit(self.run, trial) for trial in trials]
            try:
                return [done.result() for done in running]
            except KeyboardInterrupt:
                self.stop()
                raise

    def stop(self) -> None:
        """Ends what runs, and lets no other trial begin."""
        self.stopped = True
        for child in list(self.children):
            end_group(child, signal.SIGTERM)

    def run(self, trial: Trial) -> Outcome:
        """Runs one trial, unless the machine lacks what it needs or the time is over, and prints how it ended."""
        lacks = [why for why in (needs.lack(name, self.program) for name in trial.needs.split()) if why]
        if lacks:
            outcome = Outcome(trial, "skipped", "; ".join(lacks))
        elif self.is_over():
            outcome = Outcome(trial, "skipped", "no time is left")
        else:
            outcome = self.run_here(trial)
        with self.printing:
            print(outcome, flush=True)
            if outcome.verdict == "failed":
                print("\n".join(f"    {line}" for line in worst_lines(self.log_of(trial))), flush=True)
        return outcome

    def is_over(self) -> bool:
        """Whether no other trial begins."""
        return self.stopped or time.time() > self.begin_until

    def log_of(self, trial: Trial) -> pathlib.Path:
        """The file of all that a trial wrote."""
        return self.logs / trial.name.replace("/", "_")

    def run_here(self, trial: Trial) -> Outcome:
        """Runs a trial, in a network and with processes of its own if the machine allows them."""
        own = SPACE if needs.has_spaces() else []
        folder = pathlib.Path(tempfile.mkdtemp(prefix="t", dir=self.logs))
        folder.chmod(0o755)
        environment = {**os.environ, "TMPDIR": str(folder)}
        if "kit" not in trial.needs.split():
            environment["PATH"] = needs.PATH
        if self.program:
            environment["OFFICE"] = str(self.program)
        log, began = self.log_of(trial), time.time()
        with log.open("wb") as out:
            child = subprocess.Popen([*own, *trial.command.split(" ")], cwd=TOP, stdin=subprocess.DEVNULL, stdout=out,
                                     stderr=out, env=environment, start_new_session=True)
        status, processor, is_late = self.wait_for(child, min(began + trial.limit, self.end_at))
        outcome = judged(trial, log, status, is_late and time.time() < self.end_at, is_late)
        if outcome.verdict != "failed":
            shutil.rmtree(folder, ignore_errors=True)
        return outcome._replace(clock=time.time() - began, processor=processor)

    def wait_for(self, child: subprocess.Popen[bytes], end: float) -> tuple[int, float, bool]:
        """The status of a trial, its seconds of a processor, and whether it was ended since its time was over."""
        self.children.add(child.pid)
        is_late = False
        try:
            while True:
                ended, status, used = os.wait4(child.pid, os.WNOHANG)
                if ended:
                    child.returncode = os.waitstatus_to_exitcode(status)
                    return child.returncode, used.ru_utime + used.ru_stime, is_late
                if time.time() > end:
                    end_group(child.pid, signal.SIGKILL if is_late else signal.SIGTERM)
                    is_late, end = True, time.time() + 10
                time.sleep(0.1)
        finally:
            self.children.discard(child.pid)


def end_group(child: int, how: signal.Signals) -> None:
    """Sends a signal to a trial and all that it started in its group."""
    try:
        os.killpg(child, how)
    except ProcessLookupError:
        pass


def number(text: str) -> int:
    """A count as trials print it."""
    return int(text.replace(",", ""))


def judged(trial: Trial, log: pathlib.Path, status: int, is_over_limit: bool, is_late: bool) -> Outcome:
    """How a trial ended: it passed if its status is 0, its last line counts no failure, and something was judged."""
    lines = [line for line in log.read_text(errors="replace").split("\n") if line.strip()]
    last = lines[-1].strip() if lines else "nothing was printed"
    if is_over_limit:
        return Outcome(trial, "failed", f"did not end within {trial.limit} seconds; {last}")
    if is_late:
        return Outcome(trial, "skipped", f"no time was left to end it; {last}")
    if status == SKIPPED:
        return Outcome(trial, "skipped", last.removeprefix("skipped: "))
    counts, share = COUNTS.match(last), SHARE.match(last)
    if counts:
        holds = number(counts[1]) > 0 and number(counts[2]) == 0
    elif share:
        holds = number(share[1]) == number(share[2]) > 0
    else:
        holds = trial.limit == DAY
    left_out = tuple(line.strip().removeprefix("skipped: ") for line in lines if line.strip().startswith("skipped: "))
    if status:
        return Outcome(trial, "failed", f"status {status}: {last}", left_out=left_out)
    return Outcome(trial, "passed" if holds else "failed", last, left_out=left_out)


def worst_lines(log: pathlib.Path) -> list[str]:
    """What a failed trial printed: each judgement that failed, with the line below it, and the end."""
    lines = log.read_text(errors="replace").rstrip("\n").split("\n")
    wrong = [number for number, line in enumerate(lines) if WRONG.match(line)]
    chosen = sorted({near for number in wrong[:JUDGED] for near in (number, number + 1)} |
                    set(range(max(len(lines) - TAIL, 0), len(lines))))
    return [lines[number][:400] for number in chosen if number < len(lines)]


def chosen(trials: Iterable[Trial], names: Sequence[str]) -> list[Trial]:
    """The trials of these names, and those below them; all trials if there is no name."""
    return [trial for trial in trials
            if not names or any(trial.name == name or trial.name.startswith(f"{name}/") for name in names)]


def after(trials: Iterable[Trial], parts: Sequence[str]) -> list[Trial]:
    """The trials that are run after a change of these parts of the project."""
    return [trial for trial in trials if set(trial.parts.split()) & set(parts)]


def counted(outcomes: Sequence[Outcome]) -> str:
    """The last line of a run: the trials that passed and that failed, counted."""
    verdicts = [outcome.verdict for outcome in outcomes]
    return f"{verdicts.count('passed')} passed, {verdicts.count('failed')} failed"
