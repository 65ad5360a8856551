"""Files that somebody still writes: none is filed half, and each is filed once it is whole."""
from __future__ import annotations

import datetime
import pathlib
import time
from collections.abc import Callable

from kit.waiting import comes


def written(folder: pathlib.Path, take: Callable[..., tuple[int, str, str]], records: Callable[[], list[dict]],
            same: Callable[..., object]) -> None:
    """A writer pauses in the middle of a document, and intakes go on meanwhile."""
    place = folder / "scans"
    place.mkdir()
    half, whole = place / "half.pdf", place / "whole.txt"
    half.write_bytes(b"%PDF-1.4 half")
    status, _, said = take(place)
    same("a file that came just now is left for the next call", (status, "left out: half.pdf: it is still changing" in said,
                                                                 records()), (1, True, []))
    whole.write_bytes(b"whole")
    parts = [b"part %d;" % it for it in range(3)]
    half.write_bytes(b"")
    for part in parts:
        with half.open("ab") as file:
            file.write(part)
        # as long as no machine is busy: the writer's pause is never taken for its end
        status, _, said = take(place, "--settle", "3600")
        same("while it is written both files are left out", (status, said.count("it is still changing"), records()), (1, 2, []))
    same("the last change is a second ago", comes(lambda: time.time() > half.stat().st_ctime + 1), True)
    status, _, said = take(place, "--settle", "1")
    same("so long after its last change a document is filed", (status, said.count("left out: ")), (0, 0))
    same("a document whose writer paused is filed whole, and the file beside it too", {it["ref"]: it["length"] for it in records()},
         {"BP/half.pdf": sum(map(len, parts)), "BP/whole.txt": 5})
    same("and the next call says that all is there", (take(place, "--settle", "0")[0], len(records())), (0, 2))


def between(folder: pathlib.Path, same: Callable[..., object]) -> None:
    """A file changes after it was looked at, and before or while its bytes are read."""
    from asking.sending import NotMade  # noqa: PLC0415
    from intaking.files import documents  # noqa: PLC0415
    from intaking.folders import Aggregation  # noqa: PLC0415
    from intaking.records import Asked, record_of  # noqa: PLC0415
    place = folder / "between"
    place.mkdir()
    (place / "a.txt").write_bytes(b"one")
    (place / "b.mbox").write_bytes(b"From a@example.org Thu Jan  1 00:00:00 2019\nSubject: a\nDate: Wed, 05 Jun 2019 1:02:03 +0200\n\nb\n")
    ends = []
    for document in documents(place, []):
        record = record_of(document, {".": Aggregation("BP", "", None, None)}, {"BP": 1}, Asked(datetime.date.today().isoformat(), "{name}", None, True, settle=0))
        is_well = "content" in record.made({})
        with document.file().open("ab") as file:
            file.write(b"more")
        try:
            record.made({})
            ends.append((is_well, "made"))
        except NotMade as why:
            ends.append((is_well, "still changing" in str(why)))
    same("a file or a mailbox that has grown since it was looked at makes no act", ends, [(True, True), (True, True)])
