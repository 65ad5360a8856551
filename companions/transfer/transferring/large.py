"""Large files: what the manifest in a record's content names, and their bytes from the vault."""
from __future__ import annotations

from collections.abc import Iterator

from office_common.errors import IMPOSSIBLE, Refused

from transferring.office import Office, error_text, pieces


def fetched(vault: Office, record: int, at: int) -> Iterator[bytes] | None:
    """The bytes of the file that is the one at this place, from 1, in a record's manifest; None if the vault lacks it.

    This alone knows where a vault has its files. The caller compares the digest.
    """
    path = f"records/{record}/files/{at}"
    answer = vault.send(path)
    if answer.status == 200:
        return pieces(answer, f"{vault.address}/{path}")
    text = error_text(answer)
    # without a vault, or without the file in it; its administrator learns of the second by the vault's own check
    if answer.status == 404 or (answer.status, text) == (503, '{"error":"object"}'):
        return None
    raise Refused(IMPOSSIBLE, f"{vault.address}/{path} answers {answer.status} {text[:200]}")
