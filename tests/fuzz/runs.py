"""The disposal runs of an office, as docs/MODEL.md tells them: their steps, what becomes of each record, and their certificates."""
import hashlib


class Runs:
    """What an office does in its runs; what is read of the office is there (`rules.Office`)."""

    def running(self):
        """The number of the run that is open."""
        return len(self.runs) if self.runs and not self.runs[-1]["closed"] else None

    def open_run(self, act):
        self.runs.append({"day": act["day"], "by": act["by"], "cursor": 0, "closed": False})
        return {"number": len(self.runs)}

    def is_ready(self, record, day):
        if record["status"] == "here":
            return self.action_of(record) in ("transfer", "destroy") and self.is_due(record, day) and self.counts(record)
        return record["status"] == "received"

    def run_step(self, act):
        run = self.runs[-1]
        record = next((it for it in self.records[run["cursor"]:] if self.is_ready(it, run["day"])), None)
        if record is None:
            return self.close_run(len(self.runs))
        run["cursor"] = record["number"]
        entry = self.entry_of(record)
        self.entries.append(entry)
        ends = {"sent": "sent", "destroyed": "ended", "transferred": "ended", "skipped": record["status"]}
        record["status"] = ends[entry["outcome"]]
        return {"outcome": entry["outcome"], "record": record["number"]}

    def entry_of(self, record):
        held = self.covering(record)
        if record["status"] == "here" and self.action_of(record) == "transfer":
            outcome = "sent"
        elif held is not None:
            outcome = "skipped"
        else:
            outcome = "destroyed" if record["status"] == "here" else "transferred"
        return {
            "run": len(self.runs), "record": record["number"], "outcome": outcome, "class": self.class_of(record), "schedule": self.plan_of(record),
            "due": record["confirmed"]["due"], "by": record["confirmed"]["by"], "hold": held if outcome == "skipped" else "-",
        }

    def close_run(self, number):
        self.runs[number - 1]["closed"] = True
        entries = [it for it in self.entries if it["run"] == number]
        self.certificates[number] = self.certificate_text(number, entries, self.spent(entries))
        return {"certificate": number}

    def resume(self):
        """Takes the open run to its end: the answer."""
        if self.running() is None:
            return {"refused": 18}
        answer = {}
        while "certificate" not in answer:
            answer = self.run_step({})
        return answer

    def spent(self, entries):
        """The aggregations that are spent and have a record below that one of the entries ended, by number."""
        ended = {it["record"] for it in entries if it["outcome"] in ("destroyed", "transferred")}
        below = {}
        for record in self.records:
            for number in self.above(record["aggregation"]):
                below.setdefault(number, []).append(record)
        return sorted(number for number, records in below.items()
                      if self.aggregations[number - 1]["closed"] and all(it["status"] == "ended" for it in records)
                      and any(it["number"] in ended for it in records))

    def certificate_text(self, number, entries, spent):
        run, found = self.runs[number - 1], [it["outcome"] for it in entries]
        lines = [f"CERTIFICATE {number}", f"DAY {run['day']}", f"BY {run['by']}", f"ENDED {found.count('destroyed') + found.count('transferred')}",
                 f"SENT {found.count('sent')}", f"SKIPPED {found.count('skipped')}"]
        for it in entries:
            record = self.records[it["record"] - 1]
            lines.append("\t".join(["ENTRY", str(it["record"]), it["outcome"], record["ref"], it["class"], it["schedule"], it["due"], it["hold"],
                                    it["by"], str(record["length"]), record["digest"]]))
        lines.append(f"SPENT {len(spent)}")
        lines += [f"AGGREGATION\t{it}\t{self.aggregations[it - 1]['ref']}" for it in spent]
        text = "".join(f"{line}\n" for line in lines).encode()
        return text + f"SHA256 {hashlib.sha256(text).hexdigest()}\n".encode()
