"""The city archive through the page: what its tables show is what the paths tell, and what is done by it is what stands beside the story."""
import datetime
import hashlib
import itertools
import json
import pathlib
import re
import sqlite3
import time

from interface import city
from kit.judging import judge, same
from place import TOP, full

WHO = "R. Halloran, records manager"
TEXTS = json.loads((TOP / "page/texts/en.json").read_text())
# what the page says in the place of words that send people to the manual, or speak to programs
for _part in ("refusals", "proxy"):
    for _name, _do in TEXTS["help"][_part].items():
        TEXTS[_part][_name]["do"] = _do
YES = {True: "yes", False: "no"}
# the numbers of requests that mark where nginx's log is
MARKS = itertools.count(1)


def certificate(run):
    return (TOP / f"examples/city_archive/certificate-{run}.txt").read_bytes()


def says(name, text, *words):
    """A text has each of these words."""
    judge(name, all(word in text for word in words), f"{text}\n-- has not all of --\n{words}")


class Story:
    def __init__(self, office, proxy, browser, folder):
        self.office, self.proxy, self.browser, self.folder = office, proxy, browser, pathlib.Path(folder)

    def told(self, path):
        return json.loads(self.office.ask("GET", path)[2])

    def logged(self):
        """The lines of nginx's log, with each request that was answered before: nginx logs one after another."""
        mark = f"/web/office.js?mark={next(MARKS)} "
        self.proxy.ask("GET", mark.strip())
        log = self.folder / "access.log"
        self.browser.wait(lambda: mark in log.read_text(), "nginx does not log")
        return [line for line in log.read_text().splitlines() if "/web/office.js?mark=" not in line]

    def asked_for(self):
        """How many requests came to nginx but for what is read anew at each showing: lists of what is due, the catalogue."""
        return sum(not re.search('"GET /(due|catalogue)/', line) for line in self.logged())

    def posted(self):
        """How many POSTs came to nginx with the password. (A browser learns only from a first answer, 401, that a path wants it.)"""
        return sum(bool(re.search(r'"POST [^"]*" (?!401)', line)) for line in self.logged())

    # ---- what is due

    def due_cells(self, rows):
        review = TEXTS["due"]["noMark"]
        return [[review if row["action"] == "review" else "", str(row["record"]), row["ref"], row["class"], row["schedule"], row["action"], row["due"], row["held"] or "", YES[row["confirmed"]]]
                for row in rows]

    def due_table(self):
        return self.browser.table("#due-table")

    def due(self):
        it, rows = self.browser, self.told("/due/2022-05-02")
        today = datetime.date.today().isoformat()
        same("start: the list begins with that of today", (it.one("#due-day").get_attribute("value"), self.due_table()), (today, self.due_cells(self.told(f"/due/{today}"))))
        it.write(due_day="2022-05-02")
        it.press("#due-form button")
        same("due: the table is what GET /due tells", self.due_table(), self.due_cells(rows))
        same("due: the totals", self.totals(), ["22", "21", "1", "0", "4", "0", "22"])
        for column in ("record", "ref", "class", "schedule", "action", "due", "held", "confirmed"):
            it.press(f"[data-column={column}] button")
            wanted = sorted(rows, key=lambda row: row[column] or "")
            same(f"due: sorted by {column}", self.due_table(), self.due_cells(wanted))
            if column == "ref":
                it.press(f"[data-column={column}] button")
                same("due: and the other way round", self.due_table(), self.due_cells(wanted[::-1]))
                same("due: which the heading tells", it.one("[data-column=ref]").get_attribute("aria-sort"), "descending")
        it.press("[data-column=due] button")
        for name, value, takes in (
            ("class", "PER-APP", lambda row: row["class"] == "PER-APP"),
            ("schedule", "CAM-30", lambda row: row["schedule"] == "CAM-30"),
            ("action", "transfer", lambda row: row["action"] == "transfer"),
            ("held", "*", lambda row: row["held"]),
            ("held", "_none", lambda row: not row["held"]),
            ("held", "Q-2020-17", lambda row: row["held"] == "Q-2020-17"),
            ("confirmed", "no", lambda row: not row["confirmed"]),
        ):
            it.choose(f"#due-{name}", value)
            wanted = self.due_cells([row for row in rows if takes(row)])
            same(f"due: filtered by {name} {value}", self.due_table(), wanted)
            says("due: the caption tells how many", it.seen("#due-caption"), "Records due by 2022-05-02: 22.", f"Shown here: {len(wanted)}.")
            it.press("#due-all")
        it.choose("#due-class", "EVT-PER")
        it.choose("#due-held", "_none")
        address, kept = it.driver.current_url, self.due_table()
        it.open(address)
        same("due: its address brings the same rows again, as a bookmark", self.due_table(), kept)
        it.press("#due-all")

    def totals(self):
        return self.browser.driver.execute_script("return Array.from(document.querySelectorAll('#due-totals dd'), (it) => it.textContent)")

    # ---- what is wrong before anything is sent

    def wrong_input(self):
        it, before = self.browser, self.asked_for()
        fields, texts = TEXTS["fields"], lambda css: it.text(css)
        spaced = fields["codeSpaceOther"].format(other="Q-1")
        for view, form, wrong, (field, text) in (
            ("#due", "due-form", {"due_day": "2023-02-29"}, ("due-day", fields["dayWrong"])),
            ("#record", "record-form", {"record_number": "01"}, ("record-number", fields["numberWrong"])),
            ("#certificate", "certificate-form", {"certificate_number": "4294967296"}, ("certificate-number", fields["numberWrong"])),
            ("#run", "run-form", {"run_number": "one"}, ("run-number", fields["numberWrong"])),
            ("#run", "run-open", {"run_open_day": "3000-01-01", "run_open_by": "x" * 201}, ("run-open-by", fields["textLong"]["one"].format(count=1))),
            ("#run", "run-resume", {}, ("run-sure", fields["sureWrong"])),
            ("#holds", "hold-place", {"hold_place_code": "Q 1"}, ("hold-place-code", spaced)),
            ("#holds", "hold-on", {"hold_on_code": "Q-1", "hold_on_target": "Q 1"}, ("hold-on-target", spaced)),
            ("#holds", "hold-lift", {"hold_lift_code": "Q-1"}, ("hold-sure", fields["sureWrong"])),
        ):
            it.go(view)
            it.write(**wrong)
            it.press(f"#{form} button:not([type])")
            same(f"{form}: a wrong value is told at its field", texts(f"#{field}-wrong"), text)
            judge(f"{form}: and the field is told as invalid", it.one(f"#{field}").get_attribute("aria-invalid") == "true")
            first = it.driver.execute_script("return document.activeElement.getAttribute('aria-invalid')")
            same(f"{form}: and the first such field has the focus", first, "true")
        same("nothing of that was sent", self.asked_for(), before)

    # ---- confirmation

    def mark(self, *records):
        for record in records:
            it = self.browser.one(f"#due-table input[aria-label='Mark record {record}']")
            self.browser.driver.execute_script("arguments[0].scrollIntoView({block: 'center'})", it)
            it.click()

    def confirm(self):
        it = self.browser
        it.open(f"{self.proxy.page}#due?day=2022-05-02")
        it.write(due_confirm_by=WHO, due_confirm_day="2021-12-31")
        it.press("#due-submit")
        same("confirm: where nothing is marked it says so", it.seen("#due-panel-outcome"), TEXTS["due"]["nothingMarked"])
        self.mark(8, 15)
        same("confirm: it says how many are marked", it.text("#due-submit"), "Confirm 2")
        sent = self.posted()
        it.press("#due-submit")
        same("confirm: one request", self.posted() - sent, 1)
        row = TEXTS["refusals"]["15"]
        self.success("confirm: a 409 is told in words", "#due-answer", '409 [{"done":true},{"refused":15}]', "Confirmed: 1 of 2. Refused: 1.", "Refusal 15, NotDue", row["meaning"], row["do"], "15")
        same("confirm: the list is read anew", self.due_table(), self.due_cells(self.told("/due/2022-05-02")))
        same("confirm: record 8 is confirmed", self.told("/records/8")["confirmed"], {"action": "destroy", "by": WHO, "day": "2021-12-31", "due": "2019-01-30"})
        it.write(due_confirm_day="2022-05-02")
        it.press("#due-mark")
        same("confirm: all that is shown, not confirmed and not held", it.seen("#due-marked"), "Marked: 17. Not shown among them: 0.")
        it.press("#due-mark-held")
        same("confirm: and what is held, by a button of its own", it.seen("#due-marked"), "Marked: 21. Not shown among them: 0.")
        it.choose("#due-held", "*")
        same("confirm: what is marked and not shown is told", it.seen("#due-marked"), "Marked: 21. Not shown among them: 17.")
        it.press("#due-all")
        it.press("#due-submit")
        self.success("confirm: done", "#due-answer", '200 [{"done":true}', "Confirmed: 21 of 21.")
        rows = self.told("/due/2022-05-02")
        same("confirm: each of the list is confirmed", ([row["confirmed"] for row in rows], self.due_table()), ([True] * 22, self.due_cells(rows)))

    def success(self, name, place, raw, *words):
        """An outcome is said in words; the answer itself is there, but not seen until somebody asks for it."""
        says(name, self.browser.seen(place), *words)
        judge(f"{name}: the answer itself is behind a summary", raw in self.browser.text(place) and raw not in self.browser.seen(place), self.browser.text(place))

    # ---- a run and its certificate

    def run(self, number, day):
        it = self.browser
        it.go("#run")
        it.write(run_open_day=day, run_open_by=WHO)
        it.press("#run-open button")
        self.success(f"run {number}: it is open", "#run-open-outcome", f'200 [{{"number":{number}}}]', f"Run {number} is open.")
        it.press("#run-open button")
        row = TEXTS["refusals"]["17"]
        self.success(f"run {number}: a second one is refused in words", "#run-open-outcome", '409 [{"refused":17}]', "Refusal 17, RunOpen", row["meaning"], row["do"])
        it.write(run_number=str(number))
        it.press("#run-form button")
        missing = TEXTS["run"]["notClosed"].format(number=number)
        self.success(f"run {number}: it has no certificate yet", "#run-outcome", '404 {"error":"certificate"}', missing, TEXTS["run"]["notClosedDo"])
        same(f"run {number}: the button is called", it.text("#run-resume button"), "Carry out")
        it.press("#run-sure")
        it.press("#run-resume button")
        self.success(f"run {number}: it is closed", "#run-resume-outcome", f'200 {{"certificate":{number}}}', f"Run {number} is carried out and closed.")
        outcomes = re.findall(r"^ENTRY\t\d+\t(\w+)\t", self.office.ask("GET", f"/certificates/{number}")[2].decode(), re.M)
        counts = [str(outcomes.count(outcome)) for outcome in ("destroyed", "sent", "transferred", "skipped")]
        same(f"run {number}: its counts are those of its certificate", list(it.facts("#run-resume-outcome").values()), counts)
        it.press("#run-sure")
        it.press("#run-resume button")
        self.success(f"run {number}: nothing is open any more", "#run-resume-outcome", '409 {"refused":18}', "Refusal 18, NoRun", TEXTS["refusals"]["18"]["meaning"])
        it.open(f"{self.proxy.page}#run?number={number}")
        says(f"run {number}: it is found by its number", it.seen("#run-outcome"), f"Run {number} is closed. It was opened on {day} by {WHO}")
        it.press("#run-outcome a")
        self.certificate(number)

    def entries(self, text):
        rows = [line.split("\t")[1:] for line in text.decode().splitlines() if line.startswith("ENTRY\t")]
        return [["" if at == 6 and cell == "-" else cell for at, cell in enumerate(row)] for row in rows]

    def certificate(self, number):
        it, text = self.browser, self.office.ask("GET", f"/certificates/{number}")[2]
        same(f"certificate {number}: it is the one that stands beside the story", text, certificate(number))
        same(f"certificate {number}: the text", it.text("#certificate-text"), text.decode())
        there = sorted(it.table("#certificate-tables .entries"), key=lambda row: int(row[0]))
        same(f"certificate {number}: its entries as tables, with what is folded", there, self.entries(text))
        spent = [line.split("\t")[1:] for line in text.decode().splitlines() if line.startswith("AGGREGATION\t")]
        same(f"certificate {number}: its spent aggregations", it.table("#certificate-tables .spent"), spent)
        says(f"certificate {number}: agrees", it.seen("#certificate-verdict"), TEXTS["certificate"]["agrees"], TEXTS["certificate"]["wellFormed"])
        sum_ = text.decode().split("SHA256 ")[1].strip()
        judge(f"certificate {number}: it says that freed pages may be read", it.one("[data-text='certificate.freed']").is_displayed())
        judge(f"certificate {number}: and nothing of marks, where there are none", not it.one("#certificate-marks").is_displayed())
        same(f"certificate {number}: both sums", list(it.facts("#certificate-sums").values()), [sum_, sum_])

    # ---- records

    def records(self):
        it = self.browser
        for number in (1, 4, 8, 19, 20, 22):
            record = self.told(f"/records/{number}")
            it.open(f"{self.proxy.page}#record?number={number}")
            facts = it.facts("#record-facts")
            plain = [str(record[name]) for name in ("ref", "title", "originated", "added", "aggregation", "class", "schedule")]
            same(f"record {number}: its facts are what GET /records tells", list(facts.values()), [*plain, f"{record['length']} bytes", record["digest"]])
        words = lambda number: (it.open(f"{self.proxy.page}#record?number={number}"), it.seen("#record-told"))[1]
        says("record 1: held, in words", words(1), "It is here", "It is due on 2021-01-01.", "Hold Q-2020-17 covers it", f"Confirmed on 2022-05-02 by {WHO}: destroy")
        says("record 22: a contract that has not ended, in words", words(22), "It has no due day", TEXTS["event"]["none"])
        says("record 4: kept, in words", words(4), "It has no due day", "No hold covers it.", TEXTS["record"]["unconfirmed"])
        says("record 8: destroyed, in words", words(8), "It was destroyed by run 1: its content is gone from the office.", "It was due on 2019-01-30.")
        judge("record 8: there is no content to save", not it.one("#record-save").is_displayed())
        says("record 19: sent, in words", words(19), "It was sent to the archive")
        it.write(record_number="99")
        it.press("#record-form button")
        self.success("record 99: there is none, in words", "#record-outcome", '404 {"error":"record"}', "There is no record 99 in this office.", TEXTS["record"]["missingDo"])
        words(1)
        it.press("#record-save")
        outcome = it.seen("#record-saved")
        name = "EVT-2018-01-1 Application for the river fair.txt"
        says("record 1: its content is saved under its ref and title", outcome, f"Saved as {name}: ", "agrees with that of the record")
        saved = self.folder / name
        it.wait(saved.exists, "no file was saved")
        same("record 1: and is that of the office", saved.read_bytes(), self.office.ask("GET", "/records/1/content")[2])

    # ---- a certificate in a file

    def check(self, name, content):
        file = self.folder / name
        file.write_bytes(content)
        it = self.browser
        it.open(f"{self.proxy.page}#certificate")
        it.press("#certificate-check summary")
        it.one("#certificate-file").send_keys(str(file))
        it.press("#certificate-check button")
        it.wait(lambda: it.one("#certificate-told").is_displayed() and name in it.text("#certificate-heading"), "the file is not shown")
        # each of these names run 1, so it is compared with that certificate of the office in the end
        ends = [TEXTS["certificate"][end].format(number=1) for end in ("sameAsOffice", "otherThanOffice", "noneAtOffice", "notCompared")]
        it.wait(lambda: any(end in it.seen("#certificate-verdict") for end in ends), "the file is not compared")
        return it.seen("#certificate-verdict")

    def files(self):
        it, words, text = self.browser, TEXTS["certificate"], certificate(1)
        it.open(f"{self.proxy.page}#certificate?number=1")
        it.press("#certificate-save")
        it.wait((self.folder / "certificate-1.txt").exists, "no certificate was saved")
        same("a saved certificate has the office's bytes", (self.folder / "certificate-1.txt").read_bytes(), text)
        says("a file with the certificate agrees", self.check("right.txt", text), words["agrees"], words["sameAsOffice"].format(number=1))
        says("one with a changed byte does not", self.check("byte.txt", text.replace(b"APP/18-07", b"APP/18-08")), words["differs"], words["otherThanOffice"].format(number=1))
        body = text[:-72].replace(b"ENDED 17", b"ENDED 16")
        forged = body + b"SHA256 " + hashlib.sha256(body).hexdigest().encode() + b"\n"
        says("one with another sum agrees with itself, and is not the office's", self.check("forged.txt", forged), words["agrees"], words["otherThanOffice"].format(number=1), "ENDED says 16, but the number of such lines is 17.")
        says("one that is cut off has no sum", self.check("short.txt", text[:-1]), words["noSum"])

    # ---- holds

    def hold(self, form, outcome, *words, **fields):
        it = self.browser
        it.go("#holds")
        it.write(**{f"hold_{form}_{name}": value for name, value in fields.items()})
        # a refusal leaves the tick
        if form == "lift" and not it.one("#hold-sure").is_selected():
            it.press("#hold-sure")
        it.press(f"#hold-{form} button:not([type])")
        says(f"holds: {form}: {outcome}", it.seen(f"#hold-{form}-outcome"), *words)

    def holds(self):
        it = self.browser
        refused = lambda number: (f"Refusal {number}, ", TEXTS["refusals"][str(number)]["meaning"], TEXTS["refusals"][str(number)]["do"])
        self.hold("place", "done", "Hold H-2 is placed.", day="2022-06-01", code="H-2", reason="A second lawsuit", by="Legal office")
        same("holds: the form for its target has its code then", it.one("#hold-on-code").get_attribute("value"), "H-2")
        self.hold("place", "refused", *refused(4))
        it.choose("#hold-on-kind", "record")
        self.hold("on", "done", "On hold H-2 now: record 20", day="2022-06-01", target="20")
        self.hold("on", "refused", *refused(4))
        it.open(f"{self.proxy.page}#record?number=20")
        says("holds: the record is held by it", it.seen("#record-words"), "Hold H-2 covers it")
        it.press("#record-words a[href*=holds]")
        same("holds: its link brings the code along", [it.one(f"#hold-{form}-code").get_attribute("value") for form in ("on", "off", "lift")], ["H-2"] * 3)
        it.choose("#hold-off-kind", "record")
        self.hold("off", "done", "No longer on hold H-2: record 20", day="2022-06-01", target="20")
        self.hold("off", "refused", *refused(5))
        self.hold("lift", "done", "Hold H-2 is lifted.", day="2022-06-02")
        self.hold("lift", "refused", *refused(12))
        same("holds: the record is free again", self.told("/records/20")["held"], None)
        self.hold("place", "a day before the office's", *refused(1), day="2022-06-01", code="H-3", reason="Too late", by="Legal office")
        carried = it.one("#hold-on-code").get_attribute("value")
        same("holds: of a hold that is refused no code is carried over", carried, "H-2")
        self.hold("lift", "the lawsuit's", "Hold Q-2020-17 is lifted.", day="2023-11-20", code="Q-2020-17")

    # ---- a damaged office

    def damaged(self):
        """One byte of a certificate and one of a content are changed in FILE, by Python's sqlite3, while nobody serves."""
        it = self.browser
        self.office.close()
        kept = self.office.file.read_bytes()
        base = sqlite3.connect(self.office.file)
        base.execute("UPDATE certificates SET body = replace(body, 'APP/18-07', 'APP/18-08') WHERE run = 1")
        base.execute("UPDATE contents SET bytes = CAST('Another permit.' AS BLOB) WHERE record = 20")
        base.commit()
        base.close()
        self.office.start()
        it.open(f"{self.proxy.page}#certificate?number=1")
        says("a certificate with one changed byte in FILE does not agree", it.seen("#certificate-verdict"), TEXTS["certificate"]["differs"])
        it.open(f"{self.proxy.page}#record?number=20")
        it.press("#record-save")
        row = TEXTS["faults"]["33"]
        self.success("a content that is not its record's is a 503 that is told in words", "#record-saved", '503 {"fault":33}', "Fault 33", row["meaning"], TEXTS["help"]["faults"]["33"])
        self.content_503 = self.office.ask("GET", "/records/20/content")
        self.office.stop()
        for end in ("", "-wal", "-shm"):
            pathlib.Path(f"{self.office.file}{end}").unlink(missing_ok=True)
        self.office.file.write_bytes(kept)
        self.office.start()

    # ---- an office that fails, and answers that are lost

    def more(self, count):
        """Records that are due, to be confirmed."""
        record = {"act": "add-record", "day": "2023-11-21", "title": "Notice", "originated": "2023-11-21", "aggregation": 11, "content": "YWJj"}
        self.office.ask("POST", "/acts", json.dumps([{**record, "ref": f"MORE/{number}"} for number in range(count)]))
        self.browser.open(f"{self.proxy.page}#due?day=2024-12-31&confirmed=no&class=TRA-PARK")
        self.browser.write(due_confirm_by=WHO, due_confirm_day="2024-12-31")
        self.browser.press("#due-mark")

    def full(self):
        """The office may write no more than so much of a file: the acts stop with fault 31, and `serve` ends."""
        it = self.browser
        self.more(300)
        self.office.close()
        self.office.start(before=full(self.office.file))
        sent = self.posted()
        it.press("#due-submit")
        told, row = it.seen("#due-answer"), TEXTS["faults"]["31"]
        says("a fault that stops the acts is a 503 that is told in words", told, "Fault 31", row["meaning"], TEXTS["help"]["faults"]["31"], "A fault stopped it.", "is unknown", "those after it were not.")
        says("then the office has ended, which the list tells", it.seen("#due-outcome"), TEXTS["proxy"]["502"]["meaning"])
        judge("and that without a page of nginx", "<" not in it.text("#due-outcome"), it.text("#due-outcome"))
        says("and that the list is older", told, TEXTS["due"]["stale"])
        same("nothing was sent a second time", self.posted() - sent, 1)
        self.office.stop()
        self.office.start()
        it.press("#due-form button")
        rows = [row for row in self.told("/due/2024-12-31") if row["class"] == "TRA-PARK" and not row["confirmed"]]
        judge("some are confirmed and some are not", 0 < len(rows) < 300, str(len(rows)))
        same("the list tells which, once the office serves again", self.due_table(), self.due_cells(rows))

    def lost(self):
        """The answer to a confirmation does not come: nginx ends while the office stands still."""
        it = self.browser
        it.press("#due-mark")
        before = self.told("/due/2024-12-31")
        sent = self.posted()
        it.hold_back()
        it.one("#due-submit").click()
        it.let_go(lambda: self.office.process.send_signal(19))
        time.sleep(1)
        self.proxy.stop()
        self.office.process.send_signal(18)
        it.settled()
        self.success("an answer that is lost is told as unknown", "#due-answer", TEXTS["said"]["nothing"], TEXTS["due"]["lost"], TEXTS["due"]["stale"])
        self.proxy.start()
        time.sleep(3)
        judge("nothing was sent a second time by itself", self.posted() - sent <= 1)
        it.press("#due-form button")
        rows = [row for row in self.told("/due/2024-12-31") if row["class"] == "TRA-PARK" and not row["confirmed"]]
        same("the list tells what was done", self.due_table(), self.due_cells(rows))
        print(f"of {sum(not row['confirmed'] for row in before)} that were not confirmed {len(rows)} are not now, after the answer was lost")

    def begin(self):
        """Posts the acts up to the first run, as a program, and opens the list of what is due."""
        for name in ("1-schedule", "2-holdings", "3-lawsuit"):
            status, _ = self.proxy.ask("POST", "/acts", city(name), {"Origin": self.proxy.address})
            judge(f"a program posts {name} through nginx", status in (200, 409), str(status))
        self.browser.open(f"{self.proxy.page}#due")
        self.due()

    def tell(self):
        """The whole story."""
        self.begin()
        self.wrong_input()
        self.confirm()
        self.run(1, "2022-05-02")
        self.records()
        self.files()
        self.holds()
        self.run(2, "2023-11-20")
        self.damaged()
        self.full()
        self.lost()
        same("the browser's console complains of nothing", self.browser.complaints(), [])
