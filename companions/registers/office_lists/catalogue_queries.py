"""The queries by which the files of a catalogue are made from the tables of a copy: each row is a text of JSON.

`here` and `due` are what the program reports of the copy (reported.py). A day is its number, 1970-01-01 being 0, or its
text.
"""


def day(column: str) -> str:
    return f"date({column} * 86400, 'unixepoch')"


SCHEDULES = """SELECT json_object('code', code, 'trigger', start_at, 'unit', unit, 'count', span, 'offset', roll,
    'action', disposal) FROM schedules2 ORDER BY code"""
CLASSES = "SELECT json_object('code', code, 'title', title, 'schedule', schedule) FROM classes ORDER BY code"
# counts are of the records in the aggregation itself, not of those in aggregations in it
AGGREGATIONS = f"""SELECT json_object('number', num, 'ref', ref, 'title', title, 'parent', parent,
    'class', class, 'closed', {day('closed')}, 'here', coalesce(here, 0), 'sent', coalesce(sent, 0),
    'received', coalesce(received, 0), 'ended', coalesce(ended, 0))
    FROM aggregations LEFT JOIN (SELECT aggregation, sum(status = 'here') AS here, sum(status = 'sent') AS sent,
        sum(status = 'received') AS received, sum(status = 'ended') AS ended FROM records GROUP BY aggregation)
    ON aggregation = num ORDER BY num"""
HOLDS = f"""SELECT json_object('code', code, 'reason', reason, 'placed', {day('placed')}, 'by', placed_by,
    'lifted', {day('lifted')}, 'targets', json((SELECT json_group_array(kind || ':' || target)
        FROM (SELECT kind, target FROM targets WHERE hold = code
            ORDER BY kind, CASE kind WHEN 'class' THEN target ELSE CAST(target AS INTEGER) END))))
    FROM holds ORDER BY code"""
RUNS = f"""SELECT json_object('number', num, 'day', {day('day')}, 'by', opened_by,
    'closed', json(iif(closed, 'true', 'false')), 'ended', coalesce(ended, 0), 'sent', coalesce(sent, 0),
    'skipped', coalesce(skipped, 0))
    FROM runs LEFT JOIN (SELECT run, sum(outcome IN ('destroyed', 'transferred')) AS ended,
        sum(outcome = 'sent') AS sent, sum(outcome = 'skipped') AS skipped FROM entries GROUP BY run)
    ON run = num ORDER BY num"""
# who received what was transferred, and when the receipt was filed
RECEIPTS = f"""SELECT json_array(num, {day('receipt_day')}, receipt_by)
    FROM records WHERE receipt_day IS NOT NULL ORDER BY num"""
# What waits for somebody: what was sent, with its run and the day of that; what was received; how many records wait for
# an event, by class and schedule; and the open aggregations with no open one in them that nothing was added to for half
# a year.
TODO = f"""WITH
    waiting AS (SELECT h.class, h.schedule FROM temp.here h JOIN schedules2 s ON s.code = h.schedule
        WHERE s.start_at = 'event' AND s.disposal <> 'keep' AND NOT EXISTS (SELECT 1 FROM events e
            WHERE e.record = h.record)),
    idle AS (SELECT a.num, max(r.added) AS last FROM aggregations a LEFT JOIN records r ON r.aggregation = a.num
        WHERE a.closed IS NULL AND a.num NOT IN (SELECT parent FROM aggregations
            WHERE closed IS NULL AND parent IS NOT NULL) GROUP BY a.num)
    SELECT json_object(
        'sent', json((SELECT json_group_array(json_array(num, run, {day('day')})) FROM (SELECT r.num, e.run, u.day
            FROM records r JOIN entries e ON e.record = r.num AND e.outcome = 'sent' JOIN runs u ON u.num = e.run
            WHERE r.status = 'sent' ORDER BY e.run, r.num))),
        'received', json((SELECT json_group_array(num) FROM (SELECT num FROM records
            WHERE status = 'received' ORDER BY num))),
        'waiting', json((SELECT json_group_array(json_object('class', class, 'schedule', schedule, 'count', count))
            FROM (SELECT class, schedule, count(*) AS count FROM waiting GROUP BY 1, 2 ORDER BY 1, 2))),
        'idle', json((SELECT json_group_array(json_array(num, {day('last')})) FROM (SELECT idle.num, idle.last FROM idle
            JOIN office WHERE idle.last IS NULL OR idle.last <= office.day - 180 ORDER BY idle.last, idle.num))))"""
# there may be very many of these, so each is an array
RECORDS = "SELECT json_array(num, ref, title, aggregation, status) FROM records ORDER BY num"
ABOUT = f"""SELECT json_object('day', {day('day')}, 'schedules', (SELECT count(*) FROM schedules2),
    'classes', (SELECT count(*) FROM classes), 'aggregations', (SELECT count(*) FROM aggregations),
    'holds', (SELECT count(*) FROM holds), 'runs', (SELECT count(*) FROM runs),
    'records', (SELECT count(*) FROM records)) FROM office"""

# Of what is no longer here the entry of its last run has class, schedule and due day. A class, a schedule and a hold is
# its place in the file of these; what is missing is null.
DETAIL = """
    CREATE TEMP TABLE class_places AS SELECT code, row_number() OVER (ORDER BY code) - 1 AS place FROM classes;
    CREATE TEMP TABLE schedule_places AS SELECT code, row_number() OVER (ORDER BY code) - 1 AS place FROM schedules2;
    CREATE TEMP TABLE hold_places AS SELECT code, row_number() OVER (ORDER BY code) - 1 AS place FROM main.holds;
    CREATE TEMP TABLE last AS SELECT record, class, schedule, due, max(run) FROM main.entries GROUP BY record;
    CREATE INDEX temp.of_last ON last(record);
    CREATE TEMP TABLE detail AS SELECT num, originated, added, c.place AS class, s.place AS schedule, size AS length,
        iif(status = 'here', CAST(julianday(d.due) - 2440587.5 AS INTEGER), e.due) AS due, p.place AS held
        FROM main.records LEFT JOIN temp.here h ON h.record = num LEFT JOIN temp.due d ON d.record = num
        LEFT JOIN last e ON e.record = num
        LEFT JOIN class_places c ON c.code = coalesce(h.class, e.class)
        LEFT JOIN schedule_places s ON s.code = coalesce(h.schedule, e.schedule)
        LEFT JOIN hold_places p ON p.code = h.held ORDER BY num;"""
COLUMNS = ("originated", "added", "class", "schedule", "length", "due", "held")
"""the columns of the details, in their order"""
COLUMN = "SELECT * FROM (SELECT json_group_array({0}) FROM (SELECT {0} FROM detail ORDER BY num))"
DETAILS = " UNION ALL ".join(COLUMN.format(column) for column in COLUMNS)
FILES = {"schedules": SCHEDULES, "classes": CLASSES, "aggregations": AGGREGATIONS, "holds": HOLDS, "runs": RUNS,
         "receipts": RECEIPTS, "todo": TODO, "records": RECORDS, "details": DETAILS, "about": ABOUT}
