"""Heads of the gate's journal in seals: what becomes of the journal later is compared with them."""
import json
import pathlib
import shutil

from fake import Fake, digest
from kit.companions import companion
from kit.judging import judge, same
from place import Done, run
from sealing import Place
from verdicts import FORGED, words_of

JOURNAL = companion("office-journal")
LINES = 12


def journal(name: str = "anna", lines: int = LINES) -> list[bytes]:
    """Returns the lines of a journal, each with the SHA-256 of the one before, as the page of the gate describes them."""
    written: list[bytes] = []
    for number in range(1, lines + 1):
        before = digest(written[-1]) if written else "0" * 64
        written.append(json.dumps({"before": before, "line": number, "at": f"2026-11-{number:02}T08:00:00+00:00", "name": name},
                                  separators=(",", ":")).encode())
    return written


class Anchored(Place):
    """An office whose seals have heads of a journal."""

    def put(self, lines: list[bytes]) -> None:
        (self.folder / "journal").write_bytes(b"".join(line + b"\n" for line in lines))

    def seal(self, runs: int, head: str) -> None:
        """Seals the next certificate, with what the nightly check left."""
        self.close(runs)
        self.fetch()
        (self.folder / "head").write_text(head + "\n")
        done = self.sign("--journal", self.folder / "head")
        judge(f"seal {runs} with the head {head[:6]}", done.out == "seals: 1\n", done)

    def check(self, *options: object) -> Done:
        """Compares the journal with the seals, as the page says."""
        written = run("sh", "-c", f"grep -h ^JOURNAL {self.seals}/*/seal.txt")
        (self.folder / "heads").write_text(written.out)
        return run(JOURNAL, "check", self.folder / "journal", "--heads", self.folder / "heads", *options)


def heads(folder: pathlib.Path) -> None:
    """A journal that loses lines, at its beginning or its end, or is written anew does not fit the seals."""
    whole = journal()
    at = {number: f"{number}:{digest(whole[number - 1])}" for number in (5, 6, 8, 10)}
    with Fake() as fake:
        place = Anchored(folder, fake)
        place.seal(1, "none")
        same("a seal without a head is as before", (place.seals / "000001/seal.txt").read_text().count("\n"), 7)
        place.seal(2, at[5])
        place.seal(3, at[10])
        done = place.verify()
        judge("the auditor gets the last head", done.status == 0 and f"note: 000003: line 10 of the gate's journal is {at[10]}" in done.out,
              done)
        place.put(whole)
        done = place.check()
        judge("the journal fits, and each head is named", done.status == 0 and "heads compared: lines 5, 10" in done.out, done)
        for name, lines, options, reason in (
                ("the oldest lines are gone", whole[6:], (), "lines 1 to 6 are not here"),
                ("all lines are written anew", journal("bert"), (), "line 5 is another"),
                ("lines from the seventh on are written anew", whole[:6] + [line.replace(b"anna", b"bert") for line in whole[6:]], (),
                 "line 7 was changed"),
                ("the end is cut", whole[:8], (), "its end was cut")):
            place.put(lines)
            done = place.check(*options)
            judge(name, done.status == 1 and reason in done.error, done)
        place.put(whole[6:])
        done = place.check("--from", at[6])
        judge("if the oldest lines were archived, the head that was not met is named", done.status == 0
              and "heads compared: lines 10" in done.out and "heads not met: lines 5" in done.out, done)
        fallen(place, at)


def fallen(place: Anchored, at: dict[int, str]) -> None:
    """Two seals name heads that no one journal has; and a head is put into a seal."""
    kept = place.folder / "kept"
    shutil.copytree(place.seals, kept)
    for name, head, reason in (("fewer lines than before", at[8], "ended with line 8 then, and with line 10 at seal 000003"),
                               ("another line of the same number", "10:" + "0" * 64,
                                "ended with line 10 then, and with another such line at seal 000003")):
        place.seal(4, head)
        done = place.verify()
        judge(f"a journal with {name}", done.status == 1 and f"WRONG: 000004: the gate's journal {reason}" in done.out
              and "wrong: 1" in done.out and not words_of(done), done)
        shutil.rmtree(place.seals)
        shutil.copytree(kept, place.seals)
    seal = place.seals / "000003/seal.txt"
    seal.write_text(seal.read_text().replace(at[10], at[8]))
    judge("a head that was changed in a seal", words_of(place.verify()) == {FORGED: "000003"})
