"""What was tried, by kind, and what was not as it must be, which is kept in a folder."""
import collections
import shutil

MOST_KEPT = 200


class Stopped(Exception):
    """Nothing more is to be tried."""


class Tally:
    def __init__(self, folder):
        self.folder, self.tried, self.failed = folder, collections.Counter(), 0

    def passed(self, kind):
        self.tried[kind] += 1

    def differs(self, kind, told, cases):
        """Keeps the case: what is told of it in `.txt`, and each of its bytes or files by its ending."""
        self.tried[kind] += 1
        self.failed += 1
        self.folder.mkdir(exist_ok=True)
        name = f"{self.failed:03}"
        (self.folder / f"{name}.txt").write_text(f"{kind}\n{told}\n")
        for ending, case in cases.items():
            if isinstance(case, bytes):
                (self.folder / f"{name}{ending}").write_bytes(case)
            else:
                shutil.copyfile(case, self.folder / f"{name}{ending}")
        print(f"{name}: {kind}: {told[:300]}", flush=True)
        if self.failed >= MOST_KEPT:
            raise Stopped

    def judge(self, kind, holds, told):
        """One fact, of which no bytes are kept."""
        if holds:
            self.passed(kind)
        else:
            self.differs(kind, told, {})

    def table(self, title):
        rows = "\n".join(f"| {kind} | {count:,} |" for kind, count in sorted(self.tried.items()))
        return f"| {title} | Tried |\n|---|---|\n{rows}"
