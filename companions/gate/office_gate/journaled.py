"""The lines of the journal for a request that acts, and for its answer."""
from office_gate import body
from office_gate.body import Json
from office_gate.chain import Head
from office_gate.office import REPEATED, Answer
from office_gate.words import DENIED

WHOLE = ("class", "eyes", "file", "gate")
"""the words of refusals whose lines have the acts: what is refused before the classes leaves no text of the client"""
OWN = ("acts", "contents", "earlier", "reason", "key")
"""the members of a line that have text of the client"""
SUMMARY = ("count", "kinds")
"""the members that stand for these"""


def line_of(what: str, entry: Json, is_whole: bool) -> Json:
    """Returns the line of a request, with its acts or with a summary of them."""
    left_out = SUMMARY if is_whole else OWN
    return {"what": what} | {name: value for name, value in entry.items() if name not in left_out}


def answered(request: Head, answer: Answer) -> dict[str, object]:
    """Returns the line of an answer of the office."""
    line: dict[str, object] = {"what": "answered", "of": request.line, "status": answer.status}
    try:
        value = body.value_of(answer.body.decode())
    except (ValueError, RecursionError):
        value = None
    if isinstance(value, list):
        line["answers"] = value
    elif isinstance(value, dict) and isinstance(value.get("answers"), list):
        # a fault stopped the list, or the office did, which decides too
        why = ("error", "place", "rule") if answer.status == DENIED else ("fault",)
        line |= {name: value.get(name) for name in ("answers", *why)}
    else:
        line["answer"] = value
    if "Office-Position" in answer.lines:
        line["position"] = answer.lines["Office-Position"]
    if REPEATED in answer.lines:
        line["repeated"] = True
    if not answer.is_known or isinstance(value, dict) and "fault" in value:
        line["known"] = False
    return line
