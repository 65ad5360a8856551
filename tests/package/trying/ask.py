"""Asks an office of the machine, from within it: ask.py PORT PATH [COUNT] prints the status and the body.

With COUNT it posts as many acts that add a record; PATH is then what their refs begin with. Nothing is tried again.
"""
import json
import sys
import urllib.error
import urllib.request

DAY = "2024-01-02"
PLAN = [{"act": "add-schedule", "code": "D1", "trigger": "added", "unit": "years", "count": 1, "offset": "none",
         "action": "destroy"},
        {"act": "add-class", "code": "FIN", "title": "Finance", "schedule": "D1"},
        {"act": "add-aggregation", "ref": "A", "title": "A", "class": "FIN"},
        {"act": "place-hold", "code": "COURT-1", "reason": "A lawsuit", "by": "court"}]


def acts(ref: str, count: int) -> list[dict]:
    """The plan and a hold, or records."""
    records = [{"act": "add-record", "ref": f"{ref}-{it}", "title": "t", "originated": DAY, "aggregation": 1,
                "content": "QUJD" * 100} for it in range(count)]
    return [{**it, "day": DAY} for it in records or PLAN]


def main(words: list[str]) -> None:
    port, path = words[:2]
    body = json.dumps(acts(path, int(words[2]))).encode() if words[2:] else None
    url = f"http://127.0.0.1:{port}{path if body is None else '/acts'}"
    try:
        with urllib.request.urlopen(urllib.request.Request(url, body), timeout=600) as answer:
            print(answer.status, answer.read().decode())
    except urllib.error.HTTPError as error:
        print(error.code, error.read().decode())
    except OSError as error:
        print(0, error)


if __name__ == "__main__":
    main(sys.argv[1:])
