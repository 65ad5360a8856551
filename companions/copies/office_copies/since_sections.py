"""What one file of an office has and another lacks: each section with its columns and the query of its rows.

`was` and `now` are the two files, and `day(x)` is a day as text. A target has its ref beside it, so that a number that
is used again is noticed.
"""
from typing import NamedTuple

AGAIN = "Their numbers will be used again: file these in this order, before anything new."


class Section(NamedTuple):
    """A section: whether it must be read before the other file is used, its title, what to do, columns and rows."""

    is_first: bool
    title: str
    advice: str
    columns: str
    query: str


TARGET = """kind || ':' || target || iif(kind = 'class', '', ' ' || coalesce((SELECT ref FROM was.records
  WHERE kind = 'record' AND num = CAST(target AS INTEGER)), (SELECT ref FROM was.aggregations
  WHERE kind = 'aggregation' AND num = CAST(target AS INTEGER)), ''))"""

HOLDS = (
    Section(True, "holds to place again, and targets to put on again",
            "Before anything else, with the day of NEW above: after a later day the filings of the days between are "
            "refused.\nA target that is not in NEW comes once it is filed again.", "act hold what day", f"""
SELECT 'place-hold', code, reason || ' (' || placed_by || ')', day(placed) FROM was.holds
  WHERE lifted IS NULL AND code NOT IN (SELECT code FROM now.holds)
UNION ALL SELECT 'place another', code, 'it is in force in OLD, and lifted or of other words in NEW', day(placed)
  FROM was.holds h WHERE lifted IS NULL AND EXISTS (SELECT 1 FROM now.holds WHERE code = h.code
    AND (lifted IS NOT NULL OR (reason, placed, placed_by) <> (h.reason, h.placed, h.placed_by)))
UNION ALL SELECT * FROM (SELECT 'hold-on', t.hold, {TARGET}, '' FROM was.targets t JOIN was.holds ON code = hold
  WHERE lifted IS NULL AND (hold, kind, target) NOT IN (SELECT hold, kind, target FROM now.targets)
  ORDER BY hold, kind, target)"""),
    Section(True, "holds that were lifted, and targets that were taken off",
            "In NEW they still hold. Lift them again once somebody with the right to do so says so.",
            "act hold what day", f"""
SELECT 'lift-hold', code, reason, day(lifted) FROM was.holds
  WHERE lifted IS NOT NULL AND code IN (SELECT code FROM now.holds WHERE lifted IS NULL)
UNION ALL SELECT 'placed and lifted', code, reason, day(lifted) FROM was.holds
  WHERE lifted IS NOT NULL AND code NOT IN (SELECT code FROM now.holds)
UNION ALL SELECT 'hold-off', hold, {TARGET}, '' FROM now.targets
  WHERE hold IN (SELECT code FROM was.holds) AND (hold, kind, target) NOT IN (SELECT * FROM was.targets)"""),
)
ENDED = Section(True, "records to destroy or transfer again",
                "A run ended them. NEW has the content of those that it has; see each one gone again.",
                "record ref outcome run day bytes sha256 in_NEW", """
SELECT e.record, r.ref, e.outcome, e.run, day(u.day), r.size, r.digest, coalesce(n.status, 'not there')
FROM was.entries e JOIN was.records r ON r.num = e.record JOIN was.runs u ON u.num = e.run
LEFT JOIN now.records n ON n.num = r.num AND n.ref = r.ref AND n.digest = r.digest
WHERE e.outcome IN ('destroyed', 'transferred') AND NOT EXISTS (SELECT 1 FROM now.entries x
  WHERE x.record = e.record AND x.run = e.run AND x.outcome = e.outcome AND n.status = 'ended')
ORDER BY e.run, e.record""")
NEWER = Section(True, "things that NEW has and OLD lacks",
                "NEW is no earlier state of OLD: look whether it is the right copy.", "what number_or_code ref", """
SELECT 'record', num, ref FROM now.records
  WHERE (num, ref, digest) NOT IN (SELECT num, ref, digest FROM was.records)
UNION ALL SELECT 'aggregation', num, ref FROM (SELECT num, ref FROM now.aggregations EXCEPT
  SELECT num, ref FROM was.aggregations)
UNION ALL SELECT 'hold', code, reason FROM now.holds WHERE code NOT IN (SELECT code FROM was.holds)
UNION ALL SELECT 'class', code, title FROM now.classes WHERE code NOT IN (SELECT code FROM was.classes)
UNION ALL SELECT 'run', num, opened_by FROM now.runs
  WHERE (num, day, opened_by) NOT IN (SELECT num, day, opened_by FROM was.runs)""")
FILINGS = (
    Section(False, "aggregations to file again", AGAIN,
            "number ref title parent class closed", """
SELECT num, ref, title, coalesce(parent, '-'), coalesce(class, '-'), coalesce(day(closed), '-')
FROM was.aggregations WHERE num NOT IN (SELECT num FROM now.aggregations) ORDER BY num"""),
    Section(False, "records to file again", AGAIN,
            "number ref title originated added aggregation class schedule bytes sha256 status", """
SELECT num, ref, title, day(originated), day(added), aggregation, coalesce(class, '-'), coalesce(schedule, '-'), size,
  digest, status FROM was.records WHERE num NOT IN (SELECT num FROM now.records) ORDER BY num"""),
)
CHANGES = Section(False, "other changes to repeat",
                  "They decide what is due, confirmed, sent or received. Repeat them in the order of the journal, "
                  "before any run.", "what number_or_code ref changed", """
SELECT 'schedule', code, '', 'not there, or otherwise' FROM (SELECT * FROM was.{schedules} EXCEPT
  SELECT * FROM now.schedules2)
UNION ALL SELECT 'class', code, title, 'not there, or otherwise' FROM (SELECT * FROM was.classes EXCEPT
  SELECT * FROM now.classes)
UNION ALL SELECT 'aggregation', w.num, w.ref, trim(iif(w.title IS n.title, '', 'title ')
    || iif(w.class IS n.class, '', 'class ') || iif(w.parent IS n.parent, '', 'parent ')
    || iif(w.closed IS n.closed, '', 'closed'))
  FROM was.aggregations w JOIN now.aggregations n ON n.num = w.num
  WHERE (w.ref, w.title, w.class, w.parent, w.closed) IS NOT (n.ref, n.title, n.class, n.parent, n.closed)
UNION ALL SELECT 'record', w.num, w.ref, trim(iif(w.class IS n.class AND w.schedule IS n.schedule, '',
      'class or schedule ') || iif(w.aggregation IS n.aggregation, '', 'aggregation ')
    || iif((w.reviewed, w.reviewed_by) IS (n.reviewed, n.reviewed_by), '', 'review ')
    || iif((w.conf_action, w.conf_due, w.conf_day, w.conf_by) IS (n.conf_action, n.conf_due, n.conf_day, n.conf_by),
      '', 'confirmation ')
    || iif((w.receipt_day, w.receipt_by) IS (n.receipt_day, n.receipt_by), '', 'receipt ')
    || iif(w.status IS n.status, '', 'status'))
  FROM was.records w JOIN now.records n ON n.num = w.num
  WHERE w.status <> 'ended' AND (w.ref, w.title, w.class, w.schedule, w.aggregation, w.reviewed, w.reviewed_by,
      w.conf_action, w.conf_due, w.conf_day, w.conf_by, w.receipt_day, w.receipt_by, w.status) IS NOT
    (n.ref, n.title, n.class, n.schedule, n.aggregation, n.reviewed, n.reviewed_by, n.conf_action, n.conf_due,
      n.conf_day, n.conf_by, n.receipt_day, n.receipt_by, n.status)""")
EVENTS = Section(False, "events to record again", "They decide what is due. Record them before any run.",
                 "record ref occurred day by", """
SELECT record, ref, day(occurred), day(day), told_by FROM (SELECT * FROM was.events EXCEPT
  SELECT * FROM now.events) JOIN was.records ON num = record ORDER BY record""")
RUNS = Section(False, "runs whose numbers will be used again",
               "Open no run before all of the above is done. A later certificate will have the number of one that is "
               "lost here.", "run day by closed ended sent skipped", """
SELECT num, day(day), opened_by, iif(closed, 'closed', 'open'),
  (SELECT count(*) FROM was.entries WHERE run = num AND outcome IN ('destroyed', 'transferred')),
  (SELECT count(*) FROM was.entries WHERE run = num AND outcome = 'sent'),
  (SELECT count(*) FROM was.entries WHERE run = num AND outcome = 'skipped')
FROM was.runs WHERE num NOT IN (SELECT num FROM now.runs) ORDER BY num""")
CERTIFICATES = Section(False, "certificates that are saved here",
                       "Keep each, with a note that its number is used again.", "run", """
SELECT run FROM was.certificates WHERE (run, body) NOT IN (SELECT run, body FROM now.certificates) ORDER BY run""")


def sections(schedules: str, has_events: bool) -> list[Section]:
    """Returns the sections in the order in which they are read, for an office whose schedules are in this table."""
    changes = CHANGES._replace(query=CHANGES.query.replace("{schedules}", schedules))
    return [*HOLDS, ENDED, NEWER, *FILINGS, changes, *([EVENTS] if has_events else []), RUNS, CERTIFICATES]
