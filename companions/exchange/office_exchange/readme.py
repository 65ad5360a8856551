"""The page that a bag has for whoever opens it without knowing the office."""

TEXT = """A whole records disposal office, in the form office-export 1.

The folder is a bag (BagIt 1.0, RFC 8493). These two commands compare each file with its SHA-256:

    sha256sum --check --quiet manifest-sha256.txt
    sha256sum --check --quiet tagmanifest-sha256.txt

Each file NAME.jsonl in data has one JSON object a line, in UTF-8. schema.json has a JSON Schema for the lines of each
file. Days are written 2024-01-31. A member that is null has no value.

    data/office.json         the form, the office's day, and how many there are of each
    data/schedules.jsonl     retention rules: when a period begins, how long it is, and what follows
    data/classes.jsonl       classes of the filing plan, each with its rule
    data/aggregations.jsonl  files and folders, each in the one that is its parent
    data/records.jsonl       records, also those that were destroyed or transferred (status `ended`)
    data/events.jsonl        the day on which the event occurred that begins a record's period
    data/holds.jsonl         legal holds, also lifted ones
    data/targets.jsonl       what each hold is on: a class, an aggregation or a record
    data/runs.jsonl          disposal runs
    data/entries.jsonl       what each run did with each record
    data/certificates/N.txt  the certificate of run N
    data/contents/ab/abcd..  the content of each record that is still there, named by its SHA-256
    data/files/ab/abcd..     large files. A content of lines SHA256, LENGTH and PLACE names them
    data/lacking.jsonl       contents and files that could not be exported: none, if it is empty
    data/journal             the journal of who did what, if it was given
    data/seals               the seals of the certificates, if they were given
    data/also                what else was given

A record's class is its own, or else that of the nearest aggregation above it that has one. Its rule is its own, or else
that of its class. `office-import FOLDER FILE` makes the same office of this folder.
"""
