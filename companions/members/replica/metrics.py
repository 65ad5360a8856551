"""The member's numbers in the text form of Prometheus: what /metrics tells."""
from __future__ import annotations

from typing import NamedTuple

from replica.service import Service


class Metric(NamedTuple):
    """A number with its name, its kind and what it is. One that is not known now is left out."""

    name: str
    kind: str
    help: str
    value: float | int | None


def gauge(name: str, text: str, value: object) -> Metric:
    return Metric(name, "gauge", text, value if isinstance(value, (int, float)) else None)


def counter(name: str, text: str, value: int) -> Metric:
    return Metric(f"{name}_total", "counter", text, value)


def metrics(service: Service) -> list[Metric]:
    """Returns the numbers of a member as they are now."""
    state, follower, appender = service.state(), service.follower, service.follower.appender
    return [
        gauge("answers", "whether plain readings are answered", bool(state["answers"])),
        gauge("acts_are_taken", "whether requests that act are taken", follower.is_answering),
        gauge("quorum", "whether a majority was heard in the last five seconds", bool(state["quorum"])),
        gauge("position", "the last entry that was done here", follower.position),
        gauge("lag", "entries of the log that are still to be done here", state["lag"]),
        gauge("age_seconds", "what any machine answered more than so many seconds ago is here", state["age"]),
        gauge("heard_seconds", "since a majority told where the log ends", state["heard"]),
        gauge("snapshot_position", "the older snapshot, as it was reported; the log is kept from there on",
              follower.reported),
        gauge("etcd_full", "whether etcd has no room for entries", bool(state["full"])),
        gauge("certificate_days", "until the certificate of this machine's etcd ends", state["certificate_days"]),
        counter("entries", "entries that were done here since the start", follower.done),
        counter("restores", "how often the member went back to a snapshot since its start", follower.restores),
        counter("office_starts", "how often the office was started", follower.office.starts),
        counter("appended", "requests that this member put into the log", appender.appended),
        counter("append_transactions", "transactions that put them there", appender.transactions),
        counter("joined_entries", "entries that went to the office together with others", follower.doing.joined_entries)]


def text(service: Service) -> str:
    """Returns all of them, each with the log's and the member's name."""
    log = service.log
    lines = []
    for metric in metrics(service):
        if metric.value is not None:
            name = f"office_member_{metric.name}"
            lines += [f"# HELP {name} {metric.help}", f"# TYPE {name} {metric.kind}",
                      f'{name}{{log="{log.name}",member="{log.member}"}} {float(metric.value):g}'
                      if isinstance(metric.value, float) else
                      f'{name}{{log="{log.name}",member="{log.member}"}} {int(metric.value)}']
    return "\n".join(lines) + "\n"
