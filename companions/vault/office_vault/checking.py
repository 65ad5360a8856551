"""The check: each object has its digest, and each file that a record with content names is there with its length."""
from collections import defaultdict
from collections.abc import Iterator

from office_vault import offices, opening
from office_vault.objects import Vault, digest_of, stamp_at
from office_vault.offices import Office


def of_manifests(vault: Vault, office: Office, named: dict[str, set[str]]) -> Iterator[str]:
    """Compares each manifest with the objects, and notes which digests are named, and in which classes."""
    for number, record, reading in offices.readings(office):
        if not reading.is_sound:
            yield f"record {number} begins as a manifest and is none; what it contains is kept"
        for digest, length in reading.names:
            named[digest].add(record.code)
            path = vault.path(digest)
            if stamp_at(path) is None:
                # a record that ended meanwhile names nothing
                if (metadata := office.metadata(number)) is not None and metadata.is_here:
                    yield f"record {number} names {digest}, which is missing"
            elif length is not None and (size := path.stat().st_size) != length:
                yield f"record {number} names {digest} with {length} bytes, and the object has {size}"


def of_objects(vault: Vault) -> Iterator[str]:
    """Compares each object with its digest."""
    for digest, _ in vault.stamps():
        path = vault.path(digest)
        if digest_of(path) != digest and stamp_at(path) is not None:
            yield f"object {digest} is damaged"
    for name in vault.strangers():
        yield f"objects/{name} is no object"


def check(vault: Vault, place: str, is_quick: bool, lines: dict[str, str]) -> Iterator[str]:
    """Lists what is wrong, and at last a line of counts. A quick check reads no object."""
    named: dict[str, set[str]] = defaultdict(set)
    wrong = 0
    with opening.opened(place, vault.work, lines) as office:
        for line in of_manifests(vault, office, named):
            wrong += 1
            yield line
    for line in () if is_quick else of_objects(vault):
        wrong += 1
        yield line
    for digest, codes in sorted(named.items()):
        if len(codes) > 1:
            yield f"object {digest} is named in the classes {' '.join(sorted(codes))}"
    there = {digest for digest, _ in vault.stamps()}
    yield f"objects {len(there)}, named {len(named)}, unnamed {len(there - named.keys())}, wrong {wrong}"
