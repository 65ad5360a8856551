"""Requests: one of a list of seeds, made to fit the office that is asked, and changed at random in its parts, in its JSON or in its bytes."""
import base64
import datetime
import json
import re

from checking.act_forms import ACTS
from office_common.facts import WORDS as FORMS
from fuzz.rules import FIRST_DAY

LAST_DAY = datetime.date(2999, 12, 31)
CODES = [f"{kind}{n}" for kind in ("D", "FIN", "H-") for n in range(1, 13)]
TEXTS = ["Letters of 2022", "registrar", "a \"quoted\" \\ text", "Gebühren", "é" * 100, "x" * 200, "\U0001f5c3 box", "/", "\u2028", "-", "a, b"]
WORDS = "keep review transfer destroy origin added closed last-addition event days weeks months years".split() + FORMS["offset"]
# how often an act is of a kind, where not once
OFTEN = {"lift-hold": 0.15, "close-aggregation": 0.2, "confirm": 3, "receipt": 2, "event": 2, "hold-on": 2, "open-run": 0.7}
METHODS = [b"GET", b"POST", b"HEAD", b"PUT", b"DELETE", b"OPTIONS", b"PATCH", b"TRACE", b"CONNECT", b"get", b"Post", b"M-SEARCH", b"X" * 300, b"!"]
STRANGE_PATHS = [b"/", b"*", b"/act", b"/acts/", b"//acts", b"/acts/1", b"/run", b"/run/resume/", b"/records", b"/records/", b"/records//content",
                 b"/records/1/", b"/records/1/contents", b"/due/", b"/due", b"/overdue", b"/overdue/2024-02-29", b"/overdue/2024-02-29/30/", b"/certificates/", b"http://localhost/acts", b"localhost:80",
                 b"/RECORDS/1", b"/records/1/content/x", b"/%61cts", b"/./acts", b"/records/../acts"]
SEGMENTS = [b"0", b"01", b"-1", b"+1", b"1.0", b"1e0", b"4294967295", b"4294967296", b"99999999999999999999", b"%31", b"\xc3\xa9", b"\xff", b"1?",
            b"1?x=1", b"1#x", b"content", b"2024-02-29", b"2023-02-29", b"0000-01-01", b"0001-01-01", b"2999-12-31", b"3000-01-01", b"2024-1-1",
            b"20240101", b"2024-01-01T00:00", b"{n}", b"*", b";", b"1;2", b"x" * 400, b"1\x7f", b"1\t", b"'", b"\xed\xa0\x80"]
LENGTHS = [b"", b"0", b"1", b"-1", b"+5", b"5 5", b"0x10", b"1048576", b"1048577", b"9" * 19, b"9" * 20, b"0" * 20, b"1,1", b"\xb2", b"4294967296"]
FIELDS = [b"Accept: */*", b"User-Agent: a client", b"Content-Type: application/json", b"Expect: 100-continue", b"Connection: keep-alive",
          b"Origin: null", b"X-Empty:", b"X-Tab:\ta\tb\t", b"X-Bytes: \x80\xff", b"Cookie: a=b; c=d", b"Accept-Encoding: gzip", b"Upgrade: h2c",
          b"!#$%&'*+-.^_`|~: x", b"Hosts: x", b"Host-: x", b"TE: trailers", b"Range: bytes=0-1", b"If-None-Match: *", b"Content-Encoding: gzip"]
BAD_FIELDS = [b"Host : x", b" folded", b"X-Nul: \x00", b"X-Cr: a\rb", b"X-Del: \x7f", b"no colon", b": no name", b"X Y: z", b"X\xc3\xa9: z",
              b"(x): y", b"X-Esc: \x1b"]
CODING_FIELDS = [b"Transfer-Encoding: chunked", b"transfer-encoding:", b"Transfer-Encoding: identity", b"Content-Length: 2", b"content-length: 0",
                 b"Host: other", b"HOST:", b"host:\tlocalhost"]
VERSIONS = [b"HTTP/1.1", b"HTTP/1.0", b"HTTP/1.2", b"HTTP/2.0", b"HTTP/0.9", b"http/1.1", b"HTTP/1.1 ", b"HTTP/1.11", b"HTTP/1", b""]
VALUES = [None, True, False, 0, 1, 2, -1, 1.0, 1.5, 4294967295, 4294967296, 18446744073709551615, 18446744073709551616, "", " ", "x" * 200,
          "x" * 201, "é" * 100, "é" * 101, "\u0080", "\u009f", "\u00a0", "\u0000", "\u007f", "a\tb", "a\nb", FIRST_DAY, "0000-12-31", "2024-02-29",
          "2023-02-29", "2024-13-01", "2024-1-1", "3000-01-01", "2024-W01-1", "20240101", "٢٠٢٤-٠١-٠١", "record:1", "record:01", "record:0",
          "record:", "record:4294967296", "record:-1", "aggregation:1", "aggregation: 1", "class:FIN1", "class:", "class:é", "CLASS:FIN1",
          "class:" + "A" * 17, "A" * 16, "A" * 17, "a_b", "D1 ", "d1", [], {}, [[]], [1], {"a": 1}, "YWJj", "YWJ", "YWJj=", "YQ==", "YR==", "YQ=",
          "YQ", "====", "YW Jj", "YWJj\n", "-_-_", "from-month-0", "from-month-01", "from-month-12", "from-month-13", "Destroy", "a" * 64, "A" * 64,
          "a" * 63, "g" * 64, "\ud7ff", "\ufffd", "\U0010ffff"]
# texts that stand for themselves in the JSON, whether they are any or not
RAW = ["1e400", "-1e400", "1e-400", "-0", "0.0", "-0.0", "1E2", "1e+2", "01", "+1", ".5", "1.", "1e", "NaN", "Infinity", "-Infinity", "9" * 400,
       "1" + "0" * 308, "17976931348623157" + "0" * 293, "nul", "True", r'"\ud800"', r'"\udc00"', r'"\ud83d\ude00"', r'"\u00e9"', r'"\u0000"',
       r'"\x41"', r'"\u12"', r'"\/"', "'a'", '"a', '"\x01"', '"\x7f"', "[1,]", "{,}", '{"a":1,}', '{"a" 1}', "// x\n1", "\ufeff1", "0x1", "1_000",
       "4294967295.0", "1\x0b", "1\xa0", "18446744073709551615", *("[" * n + "]" * n for n in (1, 60, 124, 125, 126, 127, 400, 3_000)),
       *('{"a":' * n + "1" + "}" * n for n in (1, 60, 124, 125, 126, 127, 400))]
PARTS = [b"\r\n", b"\n", b"\r", b"\x00", b"\x7f", b"\xff", b" ", b"\t", b":", b"/", b"?", b"{", b"}", b"[", b"]", b",", b"\"", b"\\", b"\\u", b"0",
         b"1", b"-", b"HTTP/1.1", b"Host: x\r\n", b"Content-Length: 5\r\n", b"GET / HTTP/1.1\r\n\r\n", b"\r\n\r\n", b"null", b"1e999", b"\xc3\xa9",
         b"\xed\xa0\x80", b"\xef\xbb\xbf"]


class Draft:
    """A request in its parts."""

    def __init__(self, method, target, acts=None):
        self.method, self.target, self.version, self.end = method, target, b"HTTP/1.1", b"\r\n"
        self.fields = [b"Host: localhost"]
        self.acts, self.body = acts, b""

    def text(self):
        head = self.method + b" " + self.target + b" " + self.version
        return self.end.join([head, *self.fields, b"", b""]) + self.body


class Maker:
    """Makes requests for an office, by a source of random numbers."""

    def __init__(self, random, office):
        self.random, self.office, self.pick = random, office, random.choice
        self.fresh = 0

    # ---- seeds

    def number(self, things):
        return self.random.randint(1, len(things) + 1)

    def day(self):
        """The office's day, mostly; now and then another."""
        chance = self.random.random()
        if chance < 0.02 and self.office.day < "2990":
            return (datetime.date.fromisoformat(self.office.day) + datetime.timedelta(days=self.random.randint(1, 400))).isoformat()
        if chance > 0.99999:
            return "2999-12-31"
        return self.office.day if chance < 0.95 else self.pick([FIRST_DAY, "1999-12-31", "2024-01-02", "2024-01-03"])

    def occurred(self):
        """The day of an event: the office's day, one before it, now and then one after it."""
        days = self.pick([0, 0, 1, 30, 365, 366, 3_650, 200_000, self.random.randint(0, 800), -1, -self.random.randint(1, 400)])
        moved = datetime.date.fromisoformat(self.office.day).toordinal() - days
        return datetime.date.fromordinal(min(max(moved, 1), LAST_DAY.toordinal())).isoformat()

    def code(self, things):
        return self.pick(list(things)) if things and self.random.random() < 0.8 else self.pick(CODES)

    def or_none(self, value):
        return value if self.random.random() < 0.5 else None

    def text_value(self):
        return self.pick(TEXTS) if self.random.random() < 0.5 else f"text {self.random.randint(1, 99)}"

    def ref(self):
        self.fresh += self.random.random() < 0.3
        return f"ref {self.fresh}"

    def content(self):
        size = 262_144 + self.random.randint(-1, 1) if self.random.random() < 0.002 else self.random.randint(0, 90)
        return base64.b64encode(bytes([self.random.randint(0, 255)]) * size).decode()

    def digest(self):
        return self.pick(self.office.records)["digest"] if self.office.records else "a" * 64

    def parent(self):
        """An aggregation, often the last one, so that some lie deep."""
        return self.or_none(len(self.office.aggregations) or 1 if self.random.random() < 0.5 else self.number(self.office.aggregations))

    def target_there(self, hold):
        """A target of the hold, where it has one."""
        targets = sorted(self.office.holds.get(hold, {}).get("targets", ()), key=str)
        return "%s:%s" % self.pick(targets) if targets else self.target_value()

    def target_value(self):
        kind = self.pick(["class", "aggregation", "record", "record"])
        return f"class:{self.code(self.office.classes)}" if kind == "class" else f"{kind}:{self.number(getattr(self.office, kind + 's'))}"

    def count(self):
        return self.pick([0, 0, 0, 0, 1, 1, 2, self.random.randint(0, 30), 500, 6_000, 26_000, 182_500])

    def action(self, record):
        """The action of a record's plan, mostly."""
        if record > len(self.office.records) or self.random.random() < 0.2:
            return self.pick(WORDS[:4])
        return self.office.action_of(self.office.records[record - 1])

    def begun_by_event(self, record):
        """A record that is here and whose period begins at its event, or else that one."""
        office = self.office
        found = [it["number"] for it in office.records
                 if it["status"] == "here" and office.schedules[office.plan_of(it)]["trigger"] == "event"]
        return self.pick(found) if found else record

    def act(self, kind):
        """An act that reads, of that kind."""
        office, record = self.office, self.number(self.office.records)
        if kind in ("confirm", "event") and self.random.random() < 0.3:
            record = self.begun_by_event(record)
        members = {
            "code": self.code(office.holds if kind == "place-hold" else CODES),
            "trigger": self.pick(FORMS["trigger"]),
            "unit": self.pick("days weeks months years".split()), "count": self.count(), "offset": self.pick(FORMS["offset"]),
            "action": self.action(record) if kind == "confirm" else self.pick(WORDS[:4]), "title": self.text_value(), "ref": self.ref(),
            "class": self.code(office.classes), "schedule": self.code(office.schedules), "parent": self.parent(),
            "aggregation": self.number(office.aggregations), "originated": self.day(), "content": self.content(), "record": record,
            "target": self.target_value(), "reason": self.text_value(), "by": self.text_value(), "hold": self.code(office.holds),
            "digest": self.digest(), "occurred": self.occurred(),
        }
        if kind == "reclassify":
            members["target"] = self.pick([f"aggregation:{self.number(office.aggregations)}", f"record:{record}"])
        act = {name: members[name] for name in ACTS[kind] if name != "day"}
        for name in ("class", "schedule"):
            if kind in ("add-aggregation", "add-record", "set-record-schedule", "reclassify", "review") and name in act:
                act[name] = self.or_none(act[name])
        if kind == "hold-off" and self.random.random() < 0.7:
            act["target"] = self.target_there(act["hold"])
        if kind == "receipt" and record <= len(office.records) and self.random.random() < 0.7:
            act["digest"] = office.records[record - 1]["digest"]
        return {"act": kind, **({} if kind == "run-step" else {"day": self.day()}), **act}

    def acts(self):
        count = self.pick([1, 1, 1, 1, 2, 3, self.random.randint(0, 12)])
        return [self.act(it) for it in self.random.choices(list(ACTS), [OFTEN.get(it, 1) for it in ACTS], k=count)]

    def count_text(self):
        return self.pick([b"0", b"1", b"30", b"030", b"365", b"3650", b"3651", b"%d" % self.random.randint(0, 4_000)])

    def seed(self):
        office, kind = self.office, self.random.random()
        if kind < 0.55:
            return Draft(b"POST", b"/acts", self.acts())
        if kind < 0.58:
            return Draft(b"POST", b"/run/resume")
        if kind < 0.60:
            return Draft(self.pick(METHODS), self.pick(STRANGE_PATHS + [b"/acts", b"/run/resume", b"/records/1"]))
        segment, form = self.pick([
            (b"%d" % self.number(office.records), b"/records/%s"), (b"%d" % self.number(office.records), b"/records/%s/content"),
            (self.day().encode(), b"/due/%s"), (b"%d" % self.number(office.runs), b"/certificates/%s"),
            (self.day().encode(), b"/overdue/%%s/%s" % self.count_text()), (self.count_text(), b"/overdue/%s/%%s" % self.day().encode())])
        return Draft(b"GET", form % (self.pick(SEGMENTS) if self.random.random() < 0.2 else segment))

    # ---- changes of the parts

    def change_method(self, draft):
        draft.method = self.pick(METHODS)

    def change_target(self, draft):
        draft.target = self.pick([
            self.pick(STRANGE_PATHS), draft.target + self.pick(SEGMENTS), draft.target + b"/", b"/" + draft.target, draft.target + b"?",
            draft.target.swapcase(), draft.target.replace(b"/", b"//"), b"http://localhost" + draft.target, draft.target[:-1], b""])

    def change_version(self, draft):
        draft.version = self.pick(VERSIONS)

    def add_fields(self, draft):
        for _ in range(self.pick([1, 1, 2, 5, 20, 61, 62, 63, 64, 90])):
            draft.fields.insert(self.random.randint(0, len(draft.fields)), self.pick(FIELDS))

    def add_bad_field(self, draft):
        draft.fields.insert(self.random.randint(0, len(draft.fields)), self.pick(BAD_FIELDS))

    def add_coding_field(self, draft):
        draft.fields.insert(self.random.randint(0, len(draft.fields)), self.pick(CODING_FIELDS))

    def add_long_field(self, draft):
        """A head of about the most bytes that it may have."""
        size = 16_384 - len(draft.text()) + len(draft.body) - len(b"X: \r\n") + self.pick([-1, 0, 0, 1, self.random.randint(-9, 9), 8_000])
        draft.fields.append(b"X: " + b"v" * max(size, 0))

    def drop_field(self, draft):
        if draft.fields:
            del draft.fields[self.random.randrange(len(draft.fields))]

    def repeat_field(self, draft):
        if draft.fields:
            draft.fields.append(self.pick(draft.fields))

    def respell_field(self, draft):
        if draft.fields:
            place = self.random.randrange(len(draft.fields))
            name, _, value = draft.fields[place].partition(b":")
            draft.fields[place] = self.pick([name.upper() + b":" + value, name.lower() + b":\t " + value.strip() + b" \t",
                                             name.swapcase() + b":" + value.strip()])

    def change_length(self, draft):
        lengths = [place for place, it in enumerate(draft.fields) if it.lower().startswith(b"content-length")]
        if lengths:
            other = b"%d" % max(0, len(draft.body) + self.random.randint(-3, 3))
            draft.fields[lengths[0]] = b"Content-Length: " + self.pick([*LENGTHS, other, other, b"0" * 5 + other])

    def end_lines(self, draft):
        draft.end = self.pick([b"\n", b"\n", b"\r", b"\r\r\n"])

    def lead_lines(self, draft):
        draft.method = self.pick([b"\r\n", b"\n", b"\r\n\n\r\n", b"\r", b" ", b"\n" * 40]) + draft.method

    def add_body(self, draft):
        draft.body += self.pick([b"x", b"\r\n", b"[]", b"GET /records/1 HTTP/1.1\r\nHost: x\r\n\r\n", b"\x00" * 3_000])

    def cut(self, draft):
        draft.body = draft.body[:self.random.randint(0, len(draft.body))]

    PART_CHANGES = [change_method, change_target, change_target, change_version, add_fields, add_fields, add_bad_field, add_coding_field,
                    add_coding_field, add_long_field, drop_field, drop_field, repeat_field, respell_field, change_length, change_length, end_lines,
                    lead_lines, add_body, cut]

    # ---- changes of the JSON, of an object and of the whole list

    def member(self, act):
        return self.pick(list(act))

    def change_member(self, act):
        act[self.member(act)] = self.pick(VALUES + WORDS + CODES[:4])

    def drop_member(self, act):
        del act[self.member(act)]

    def null_member(self, act):
        act[self.member(act)] = None

    def raw_member(self, act):
        act[self.member(act)] = self.raw()

    def add_member(self, act):
        act[self.pick(["day", "x", "", "Act", "note", "class", "schedule", "parent", "content", "by", "occurred", "é"])] = self.pick(VALUES)

    def change_kind(self, act):
        act["act"] = self.pick([*ACTS, "add", "", "Add-Record", "run-step "])

    OBJECT_CHANGES = [change_member, change_member, change_member, drop_member, null_member, raw_member, raw_member, add_member, change_kind]

    def add_item(self, acts):
        acts.insert(self.random.randint(0, len(acts)), self.pick([None, 1, "run-step", [], {}, True, self.raw()]))

    def repeat_item(self, acts):
        acts += acts[:1]

    def mix_items(self, acts):
        self.random.shuffle(acts)

    LIST_CHANGES = [add_item, repeat_item, mix_items]

    def raw(self):
        """A text that stands for one that is put in as it is, in place of the whole of it."""
        return f"@{self.random.randrange(len(RAW))}"

    def change_acts(self, acts):
        while self.random.random() < 0.4:
            objects = [it for it in acts if isinstance(it, dict) and it]
            if objects and self.random.random() < 0.85:
                self.pick(self.OBJECT_CHANGES)(self, self.pick(objects))
            else:
                self.pick(self.LIST_CHANGES)(self, acts)

    # ---- changes of bytes

    def bytes_changed(self, data):
        data = bytearray(data)
        for _ in range(self.pick([1, 1, 1, 2, 3, 8])):
            at = self.random.randint(0, len(data))
            near = min(len(data), at + self.pick([1, 1, 2, 4, 16]))
            change = self.random.randrange(6)
            if change == 0 and at < len(data):
                data[at] ^= 1 << self.random.randrange(8)
            elif change == 1 and at < len(data):
                data[at] = self.random.randrange(256)
            elif change == 2:
                data[at:at] = self.pick(PARTS)
            elif change == 3:
                del data[at:near]
            elif change == 4:
                data[at:at] = data[at:near]
            elif self.random.random() < 0.3:
                del data[at:]
        return bytes(data)

    # ---- a whole request

    def json_text(self, acts):
        forms = [{"separators": (",", ":")}, {"separators": (",", ":"), "ensure_ascii": False}, {"indent": 1}, {"separators": (" , ", "\t:\r\n")}]
        text = re.sub('"@([0-9]+)"', lambda found: RAW[int(found[1])], json.dumps(acts, **self.pick(forms)))
        if self.random.random() < 0.01:
            text = self.pick(["{%s}", "%s%s", "%s x", " \n%s\t", "\ufeff%s", '{"acts":%s}', "[%s]", "%s,", '"%s"', "%s\x00"]).replace("%s", text)
        if self.random.random() < 0.02:
            text = text.replace("{", '{"day":%s,' % self.pick(['"2024-01-02"', "1", "null", '"x"']), 1)
        return text.encode()

    def request(self):
        """The bytes of the next request."""
        draft = self.seed()
        if draft.acts is not None:
            self.change_acts(draft.acts)
            draft.body = self.json_text(draft.acts)
            if self.random.random() < 0.12:
                draft.body = self.bytes_changed(draft.body)
            draft.fields.append(b"Content-Length: %d" % len(draft.body))
        while self.random.random() < 0.3:
            self.pick(self.PART_CHANGES)(self, draft)
        text = draft.text()
        return self.bytes_changed(text) if self.random.random() < 0.2 else text
