"""The words of the gate: kinds of acts, what can be read, and which members of an act name a thing."""

ACTS = ("add-schedule", "add-class", "set-class-schedule", "add-aggregation", "close-aggregation", "add-record",
        "set-record-schedule", "reclassify", "place-hold", "hold-on", "hold-off", "lift-hold", "confirm", "review",
        "open-run", "run-step", "receipt", "event")
"""the kinds of acts of a list (docs/ACTS.md)"""
RESUME = "resume"
"""POST /run/resume"""
DENIED = 403
"""the status of what an office that decides too denies; of a list it has the answers to the acts before, which are done"""
VAULT = "vault"
"""PUT of a file into the vault"""
LATER_DAY = "later-day"
"""an act whose day is after today"""
MAY = (*ACTS, RESUME, VAULT, LATER_DAY)

READS = ("records", "contents", "lists", "certificates", "catalogue", "history", "health")
"""a record; its content and its files; what is due and overdue; a certificate; the catalogue; who did what, and why;
whether all is well"""

SIGNED = ("place-hold", "confirm", "review", "open-run", "receipt", "event")
"""the kinds whose member `by` names a person"""
OF_RECORD = ("set-record-schedule", "confirm", "review", "receipt", "event")
"""the kinds whose member `record` names what they are about"""
RUN = ("open-run", "run-step", RESUME)
DECISIONS = ("confirm", "review", "event", "set-record-schedule", "reclassify", "set-class-schedule",
             "close-aggregation")
"""the kinds that decide which records a run takes: an event or a closing, too, may make a confirmation count again"""
GIVES = ("set-record-schedule", "reclassify", "set-class-schedule", "review", "event", "add-record", "add-aggregation",
         "add-class", "close-aggregation")
"""the kinds that move a due day: they give a schedule, a class, or the day from which a period begins"""
