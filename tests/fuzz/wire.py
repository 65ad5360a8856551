"""What the bytes of a connection ask for, and the bytes that answer them: a plain reading of docs/HTTP.md and docs/ACTS.md."""
import re

from checking.act_forms import NotJson, act_refusal, is_day, json_of
from fuzz.rules import compact

LONGEST_HEAD, MOST_FIELDS, LONGEST_BODY = 16_384, 64, 1_048_576
PHRASES = {200: "OK", 400: "Bad Request", 404: "Not Found", 405: "Method Not Allowed", 409: "Conflict", 411: "Length Required",
           413: "Payload Too Large", 501: "Not Implemented"}
TOKEN = rb"[!#$%&'*+\-.^_`|~0-9A-Za-z]+"
FIELD = rb"%s:[\t\x20-\x7e\x80-\xff]*\r?\n" % TOKEN
HEAD = re.compile(rb"(?:\r?\n)*(%s) ([^\x00-\x20\x7f]+) HTTP/1\.([01])\r?\n((?:%s)*)\r?\n" % (TOKEN, FIELD))
PATHS = [(re.compile(form), method, name) for form, method, name in (
    (rb"/acts", b"POST", "acts"), (rb"/run/resume", b"POST", "resume"), (rb"/records/([^/]+)", b"GET", "record"),
    (rb"/records/([^/]+)/content", b"GET", "content"), (rb"/due/([^/]+)", b"GET", "due"),
    (rb"/overdue/([^/]+/[^/]+)", b"GET", "overdue"), (rb"/certificates/([^/]+)", b"GET", "certificate"))]


class Refused(Exception):
    """A check that fails: the status and the members of the body; which method is allowed."""

    def __init__(self, status, members, allow=None):
        self.status, self.members, self.allow = status, members, allow


def error(status, word, allow=None):
    return Refused(status, {"error": word}, allow)


def answer(status, body, kind="application/json", allow=None, is_head=False):
    """The bytes of an answer."""
    lines = [f"HTTP/1.1 {status} {PHRASES[status]}", f"Content-Type: {kind}", f"Content-Length: {len(body)}"]
    lines += [f"Allow: {allow}"] if allow else []
    head = "".join(f"{it}\r\n" for it in [*lines, "Connection: close", ""]).encode()
    return head if is_head else head + body


# ---- the head and what it asks for


class Request:
    """What all bytes of a connection ask for: `method`, `name` of the path's resource, its `segment`, and `body` where acts are asked for."""

    def __init__(self, data):
        found = HEAD.match(data[:LONGEST_HEAD])
        lines = found[4].split(b"\n")[:-1] if found else []
        if found is None or len(lines) > MOST_FIELDS or not is_utf8(found[2]):
            raise error(400, "head")
        self.method, self.target, self.minor = found[1], found[2], found[3]
        self.fields = [field_of(it) for it in lines]
        self.rest, self.body = data[found.end():], b""

    def values(self, name):
        return [value for it, value in self.fields if it == name]

    def check(self):
        """The checks of HTTP.md, from Host on, in their order."""
        if self.minor == b"1" and len(self.values(b"host")) != 1:
            raise error(400, "host")
        found = [(form.fullmatch(self.target), method, name) for form, method, name in PATHS if form.fullmatch(self.target)]
        if b"?" in self.target or not found:
            raise error(404, "path")
        (match, method, self.name), = found
        if self.method != method:
            raise error(405, "method", method.decode())
        self.segment = match[1] if match.re.groups else None
        if self.name == "acts":
            self.body = self.rest[:self.length()]

    def length(self):
        """The length of the body of acts, all of which is there."""
        lengths = self.values(b"content-length")
        if self.values(b"transfer-encoding"):
            raise error(501, "coding")
        if not lengths:
            raise error(411, "length")
        if len(lengths) > 1 or not re.fullmatch(rb"[0-9]{1,19}", lengths[0]):
            raise error(400, "length")
        if int(lengths[0]) > LONGEST_BODY:
            raise error(413, "size")
        if len(self.rest) < int(lengths[0]):
            raise error(400, "body")
        return int(lengths[0])


def field_of(line):
    name, _, value = line.removesuffix(b"\r").partition(b":")
    return (name.lower(), value.strip(b" \t"))


def is_utf8(data):
    try:
        data.decode()
        return True
    except UnicodeDecodeError:
        return False


def number_of(segment):
    """The number that a segment names, none where it names nothing."""
    number = int(segment) if re.fullmatch(rb"[1-9][0-9]{0,9}", segment) else 0
    return number if 1 <= number <= 4_294_967_295 else None


def acts_of(body):
    """The acts of a body, all of which read."""
    try:
        acts = json_of(body)
    except NotJson:
        acts = None
    if not isinstance(acts, list):
        raise error(400, "json")
    for place, act in enumerate(acts):
        refused = act_refusal(act)
        if refused:
            raise Refused(400, {"error": "act", "place": place, "refused": refused})
    return acts


# ---- what is answered


class Asked:
    """All of a request, as it is read: what is wrong with it, or else what it asks of the office."""

    def __init__(self, data):
        self.refused = self.request = None
        self.is_empty, self.acts, self.answers = not data, [], []
        try:
            self.request = Request(data)
            self.request.check()
            self.acts = acts_of(self.request.body) if self.request.name == "acts" else []
        except Refused as why:
            self.refused = why

    def name(self):
        """What is counted: the check that fails, or the resource."""
        if self.is_empty:
            return "no byte"
        if self.refused:
            members = self.refused.members
            return f"{self.refused.status} {members['error']}" + (f" refused {members['refused']}" if "refused" in members else "")
        return self.request.name

    def leaves_bytes(self):
        """Whether more bytes may have come than are asked for."""
        return self.request is None or len(self.request.rest) > len(self.request.body)

    def changes(self, office):
        """Whether something of it is accepted, so that the office is another one after it; a list of acts none of which is changes nothing."""
        if self.is_empty or self.refused:
            return False
        if self.request.name == "resume":
            return office.running() is not None
        return any(office.is_changed_by(it) for it in self.acts)

    def answered(self, office):
        """The bytes of the answer; acts are done at the office."""
        if self.is_empty:
            return b""
        if self.refused:
            is_head = self.request is not None and self.request.method == b"HEAD"
            return answer(self.refused.status, compact(self.refused.members), allow=self.refused.allow, is_head=is_head)
        return getattr(self, f"{self.request.name}_answered")(office)

    def acts_answered(self, office):
        self.answers = [office.answer(it) for it in self.acts]
        return answer(409 if any("refused" in it for it in self.answers) else 200, compact(self.answers))

    def resume_answered(self, office):
        told = office.resume()
        return answer(409 if "refused" in told else 200, compact(told))

    def thing(self, things):
        number = number_of(self.request.segment)
        return things[number - 1] if number and number <= len(things) else None

    def record_answered(self, office):
        record = self.thing(office.records)
        return answer(200, compact(office.record_told(record))) if record else answer(404, compact({"error": "record"}))

    def content_answered(self, office):
        record = self.thing(office.records)
        if record is None or record["status"] == "ended":
            return answer(404, compact({"error": "content"}))
        return answer(200, record["content"], "application/octet-stream")

    def due_answered(self, office):
        day = self.request.segment.decode()
        return answer(200, compact(office.due_told(day))) if is_day(day) else answer(400, compact({"error": "day"}))

    def overdue_answered(self, office):
        day, count = self.request.segment.split(b"/")
        if not is_day(day.decode()):
            return answer(400, compact({"error": "day"}))
        if not re.fullmatch(rb"[0-9]+", count) or int(count) > 3_650:
            return answer(400, compact({"error": "count"}))
        return answer(200, compact(office.overdue_rows(day.decode(), int(count))))

    def certificate_answered(self, office):
        text = office.certificates.get(number_of(self.request.segment))
        return answer(200, text, "text/plain; charset=utf-8") if text else answer(404, compact({"error": "certificate"}))
