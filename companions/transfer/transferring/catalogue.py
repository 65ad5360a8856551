"""The refs and titles of aggregations, which the catalogue of an office lists and its paths do not."""
from __future__ import annotations

from dataclasses import dataclass
from pathlib import Path
from typing import Any

from office_common.catalogue import FAILURES, data_of, file_in
from office_common.errors import IMPOSSIBLE, Refused
from transferring.office import Office, json_of

NAME = "aggregations.json"


@dataclass(frozen=True)
class Aggregation:
    """An aggregation's ref and title."""

    ref: str
    title: str


Aggregations = dict[int, Aggregation]


def read(place: str | None, office: Office) -> Aggregations | None:
    """Reads the catalogue in a folder or at an address; None if the caller goes without one.

    Without a place it is where nginx serves it: in the folder `catalogue` of the office's address.
    """
    if place == "none":
        return None
    if place is None or place.startswith(("http://", "https://")):
        at = office if place is None else Office(place, office.login, office.authority)
        catalogue = in_address(at, f"catalogue/{NAME}" if place is None else NAME)
    else:
        catalogue = in_folder(Path(place))
    try:
        return {int(it["number"]): Aggregation(it["ref"], it["title"]) for it in catalogue["aggregations"]}
    except (KeyError, TypeError, ValueError) as why:
        raise Refused(IMPOSSIBLE, f"the catalogue's {NAME} has another form: {why!r}") from why


def in_address(at: Office, path: str) -> Any:
    try:
        catalogue = at.json(path)
    except Refused as why:
        raise Refused(IMPOSSIBLE, f"there is no catalogue: {why}; name its folder by --catalogue, or go without refs and "
                                  "titles of aggregations by --catalogue none") from why
    if catalogue is None:
        raise Refused(IMPOSSIBLE, f"there is no catalogue at {at.address}/{path}: see --catalogue")
    return catalogue


def in_folder(folder: Path) -> Any:
    file = file_in(folder, NAME.removesuffix(".json"))
    if file is None:
        raise Refused(IMPOSSIBLE, f"there is no {NAME} in {folder}: see --catalogue")
    try:
        data = data_of(file)
    except FAILURES as why:
        raise Refused(IMPOSSIBLE, f"{file} cannot be read: {why}") from why
    return json_of(data, str(file))
