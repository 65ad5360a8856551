"""An office that its administrator closes for a while: the gate answers so at once, and nobody waits."""
import datetime
from zoneinfo import ZoneInfo

from office_common import files
from office_common.errors import USAGE, Refused
from office_setup.declared import Office
from office_setup.machine import ROOT_OWNED, Machine

NOTES = "/run/office-gate"
MOST_DAYS = 7


def note_of(office: Office) -> str:
    """Returns the path of the note that the gate reads."""
    return f"{NOTES}/{office.name}/closed"


def moment_of(text: str, zone: ZoneInfo, now: datetime.datetime) -> datetime.datetime:
    """Reads a time of day, the next one, or a day with a time, in the zone of the office."""
    today = now.astimezone(zone)
    try:
        if len(text) == len("14:00"):
            time = datetime.time.fromisoformat(text)
            moment = datetime.datetime.combine(today.date(), time, zone)
            moment = moment if moment > today else datetime.datetime.combine(today.date() + datetime.timedelta(1), time, zone)
        else:
            moment = datetime.datetime.fromisoformat(text).replace(tzinfo=zone)
    except ValueError as error:
        raise Refused(USAGE, f"'{text}' is no time such as 14:00 or '2026-12-31 14:00'") from error
    if not today < moment <= today + datetime.timedelta(MOST_DAYS):
        raise Refused(USAGE, f"'{text}' is not within the next {MOST_DAYS} days")
    return moment


def close(machine: Machine, office: Office, text: str) -> datetime.datetime:
    """Stops the office, after the note up to when."""
    moment = moment_of(text, ZoneInfo(office.zone), datetime.datetime.now(datetime.timezone.utc))
    file = machine.at(note_of(office))
    if not file.parent.is_dir():
        raise Refused(USAGE, f"there is no {file.parent}: the gate of {office.name} is off")
    # the zone of the note is that of the office, in which the gate shows the moment
    files.write(file, f"{moment.isoformat()}\n".encode(), ROOT_OWNED.mode, machine.ids(ROOT_OWNED))
    machine.must("systemctl", "stop", f"office@{office.name}.service")
    return moment


def reopen(machine: Machine, office: Office) -> None:
    """Starts the office, and takes the note away."""
    machine.must("systemctl", "start", f"office@{office.name}.service")
    machine.at(note_of(office)).unlink(missing_ok=True)
