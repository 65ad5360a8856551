"""What a name needs for a reading."""
from office_gate.access import Person
from office_gate.errors import Answered


def need(person: Person, thing: str) -> None:
    """Refuses a reading to a name that has no right to it at all."""
    if not person.may(f"read {thing}"):
        raise Answered(403, "right", read=thing)
