"""Counts of what the gate answered, for a monitor: no name, no path and no content."""
from collections import Counter, defaultdict


class Metrics:
    """Counters since the start."""

    def __init__(self) -> None:
        self.answers: Counter[tuple[str, int]] = Counter()
        self.seconds: dict[str, float] = defaultdict(float)

    def note(self, kind: str, status: int, seconds: float) -> None:
        self.answers[kind, status] += 1
        self.seconds[kind] += seconds

    def text(self, gauges: dict[str, float]) -> str:
        """Writes all in the form that Prometheus reads."""
        lines = ["# TYPE office_gate_answers_total counter"]
        lines += [f'office_gate_answers_total{{kind="{kind}",status="{status}"}} {count}'
                  for (kind, status), count in sorted(self.answers.items())]
        lines.append("# TYPE office_gate_seconds_total counter")
        lines += [f'office_gate_seconds_total{{kind="{kind}"}} {total:.6f}'
                  for kind, total in sorted(self.seconds.items())]
        for name, value in gauges.items():
            lines += [f"# TYPE office_gate_{name} gauge", f"office_gate_{name} {value:g}"]
        return "\n".join(lines) + "\n"
