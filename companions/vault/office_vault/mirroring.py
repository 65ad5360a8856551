"""The mirror: what another vault lacks is copied there, each object whole, under the rules of a PUT."""
import contextlib
import os
from collections.abc import Iterator

from office_vault.objects import Vault, WrongBytes, stamp_at


def mirror(source: Vault, target: Vault, reserve: int) -> Iterator[str]:
    """Copies object by object; lists which are damaged in the source, and at last a line of counts.

    What a sweep took out of the source meanwhile is passed over.
    """
    copied = damaged = 0
    with target.sweeping():
        target.clear()
        for digest, _ in source.stamps():
            if stamp_at(target.path(digest)) is not None:
                continue
            with contextlib.suppress(FileNotFoundError), open(source.path(digest), "rb") as file:
                try:
                    copied += target.receive(digest, os.fstat(file.fileno()).st_size, file.read, reserve)
                except WrongBytes:
                    damaged += 1
                    yield f"object {digest} is damaged"
    yield f"copied {copied}, damaged {damaged}"
