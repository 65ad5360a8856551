"""What `doctor` finds as Prometheus reads it: a value for each check, and numbers of each office."""
import contextlib
import datetime
import shutil
import sqlite3
import time
from collections.abc import Iterator, Sequence
from typing import NamedTuple

from office_common.files import copies_in
from office_setup import doctor, keys
from office_setup.declared import Office
from office_setup.machine import Machine
from office_setup.office_things import LIB, file_of

HELP = {
    "office_check_well": "whether a check of office-setup doctor found nothing wrong",
    "office_copy_age_seconds": "the age of the newest copy",
    "office_file_bytes": "the bytes of FILE without its log",
    "office_free_bytes": "the bytes that are free on the disk of FILE",
    "office_run_open": "the number of the run that is open in the newest copy, or 0",
    "office_certificates_unsealed": "certificates of yesterday and before that have no seal",
    "office_site_certificate_end_seconds": "when the certificate of the site ends",
    "office_doctor_seconds": "when these lines were written",
}


class Sample(NamedTuple):
    """A value of a metric, with its labels."""

    name: str
    labels: dict[str, str]
    value: float


def of_office(machine: Machine, office: Office) -> Iterator[Sample]:
    """Returns the numbers of an office. What cannot be read is left out, and the check of it is not well."""
    own = {"office": office.name}
    with contextlib.suppress(OSError):
        file = machine.at(file_of(office))
        yield Sample("office_file_bytes", own, file.stat().st_size)
        yield Sample("office_free_bytes", own, shutil.disk_usage(file.parent).free)
    folder = machine.at(f"{LIB}/office-backups/{office.name}")
    for copy in copies_in(folder)[-1:] if folder.is_dir() else []:
        yield Sample("office_copy_age_seconds", own, doctor.age_of(copy))
        with contextlib.suppress(sqlite3.Error), contextlib.closing(
                sqlite3.connect(f"file:{copy}?immutable=1", uri=True)) as database:
            rows = database.execute("SELECT num FROM runs WHERE closed = 0").fetchall()
            yield Sample("office_run_open", own, rows[0][0] if rows else 0)
    if office.has_seals:
        yield Sample("office_certificates_unsealed", own, len(doctor.unsealed(machine, office)))


def end_of_certificate(machine: Machine) -> Iterator[Sample]:
    """Returns when the certificate of the site ends, also if it has ended."""
    done = machine.run("openssl", "x509", "-enddate", "-noout", "-dateopt", "iso_8601", "-in", machine.at(keys.CERTIFICATE))
    with contextlib.suppress(ValueError):
        moment = datetime.datetime.fromisoformat(done.text.partition("=")[2])
        yield Sample("office_site_certificate_end_seconds", {}, moment.timestamp())


def samples(machine: Machine, offices: Sequence[Office], looks: Sequence[doctor.Look]) -> Iterator[Sample]:
    # of several tokens one that ended is enough
    wells: dict[tuple[str, str], bool] = {}
    for look in looks:
        wells[look.office, look.check] = wells.get((look.office, look.check), True) and look.finding.is_well
    for (office, check), is_well in wells.items():
        yield Sample("office_check_well", {"office": office, "check": check}, int(is_well))
    for each in offices:
        yield from of_office(machine, each)
    yield from end_of_certificate(machine)
    yield Sample("office_doctor_seconds", {}, time.time())


def text_of(machine: Machine, offices: Sequence[Office], looks: Sequence[doctor.Look]) -> str:
    """Returns all values, those of a metric together."""
    every = list(samples(machine, offices, looks))
    lines = []
    for name, about in HELP.items():
        own = [sample for sample in every if sample.name == name]
        lines += [f"# HELP {name} {about}", f"# TYPE {name} gauge"] if own else []
        lines += [f"{name}{labels_of(sample.labels)} {sample.value:.0f}" for sample in own]
    return "\n".join(lines) + "\n"


def labels_of(labels: dict[str, str]) -> str:
    """Returns labels between braces. None of them has a quote, since names and checks have none."""
    return "{" + ",".join(f'{key}="{value}"' for key, value in labels.items()) + "}" if labels else ""
