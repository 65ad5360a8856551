"""Sources that are broken, cut or hostile: each leaves one clear line, status 2, and nothing else."""
from __future__ import annotations

import os
import random
import re
import subprocess
from pathlib import Path

import compared
import counted
import systems
from compared import BRING
from kit.commands import run
from kit.judging import judge, same
from systems import Source

ENTITIES = """<?xml version="1.0"?>
<!DOCTYPE a [<!ENTITY a "aaaaaaaaaa"><!ENTITY b "&a;&a;&a;&a;&a;&a;&a;&a;&a;&a;">]>
<Aussonderung><Schriftgutobjekt><Akte><AllgemeineMetadaten><Kennzeichen>&b;</Kennzeichen></AllgemeineMetadaten></Akte></Schriftgutobjekt></Aussonderung>"""
OUTSIDE = """<?xml version="1.0"?><!DOCTYPE a SYSTEM "file:///etc/passwd"><a/>"""
FILE = """<?xml version="1.0" encoding="{encoding}"?><a><Akte><AllgemeineMetadaten><Kennzeichen>{ref}</Kennzeichen>
</AllgemeineMetadaten><Laufzeit><Beginn>2001-02-03</Beginn></Laufzeit></Akte></a>"""
MORE = 16 * 1024
"""KB that a large message may take more than a small one"""
MARKUP = ("--class", "K")


def refused(name: str, folder: Path, kind: str, source: Path, text: str, *more: object) -> None:
    """Judges that a source is refused by one line, and that nothing is made."""
    before = sorted(os.listdir(folder))
    done = run(BRING, kind, source, "-o", folder / "out", "--codes", folder / "codes.csv", "--zone", "Europe/Berlin", *more)
    lines = done.error.splitlines()
    judge(f"{name}: one line, status 2", done.status == 2 and len(lines) == 1 and text in lines[0]
          and lines[0].startswith("office-bring: ") and "Traceback" not in done.error, done, is_quiet=True)
    same(f"{name}: nothing is made", (sorted(os.listdir(folder)), done.out), (before, ""))


def put(folder: Path, name: str, data: str | bytes) -> Path:
    path = folder / name
    path.write_bytes(data.encode() if isinstance(data, str) else data)
    return path


def markup(folder: Path) -> None:
    """XML with document types, without an end, too deep, too large, or in an encoding that it does not have."""
    def is_refused(name: str, data: str | bytes, text: str) -> None:
        refused(name, folder, "xdomea", put(folder, "message.xml", data), text, *MARKUP)

    is_refused("entities", ENTITIES, "it has a document type")
    is_refused("a document type of another file", OUTSIDE, "it has a document type")
    is_refused("depth", "<a>" + "<Akteninhalt>" * 100_000, "more than 64 deep")
    is_refused("depth in a file", "<a><Akte>" + "<Vorgang>" * 70, "more than 64 deep")
    is_refused("a huge text", f"<a><Akte><Betreff>{'x' * 1_100_000}</Betreff></Akte></a>", "more than 1,048,576 letters")
    is_refused("a huge attribute", f"<a><Akte b=\"{'x' * 1_100_000}\"/></a>", "more than 1,048,576 letters")
    is_refused("no XML", "Kennzeichen;Bezeichnung\n", "no whole XML")
    is_refused("an empty file", "", "no whole XML")
    is_refused("zeros", b"\0" * 100, "no whole XML")
    is_refused("an encoding that is not the declared one", FILE.format(encoding="UTF-8", ref="Ä").encode("latin-1"), "no whole XML")
    is_refused("an unknown encoding", FILE.format(encoding="x-none", ref="A"), "")
    is_refused("an entity that nobody declared", FILE.format(encoding="UTF-8", ref="&x;"), "no whole XML")
    is_refused("another kind of XML", "<a><b>c</b></a>", "no file of xdomea")
    for encoding in ("UTF-16", "ISO-8859-1", "windows-1252"):
        source = put(folder, "message.xml", FILE.format(encoding=encoding, ref="Ä").encode(encoding))
        done = run(BRING, "xdomea", source, "-o", folder / f"out-{encoding}", *MARKUP)
        refs = [row["ref"] for row in compared.rows_in(folder / f"out-{encoding}/files.csv")]
        same(f"{encoding} is read", (done.status, refs), (0, ["Ä"]))


def cut(folder: Path) -> None:
    """A message that ends after any of its tags, and a table that ends within a line or within quotes."""
    rng = random.Random(7)
    systems.write_xdomea(folder, systems.xdomea_model(rng), rng)
    message = (folder / "message.xml").read_text()
    ends = [match.end() for match in re.finditer(">", message)][:-1]
    for at in [ends[0], ends[-1], *rng.sample(ends, 10)]:
        refused(f"cut at {at}", folder, "xdomea", put(folder, "cut.xml", message[:at]), "no whole XML")
    plan = (folder / "plan.csv").read_bytes()
    for at in [len(plan) - 2, *(at for at in rng.sample(range(60, len(plan)), 8) if plan[at - 1:at] != b"\n")]:
        refused(f"a plan cut at {at}", folder, "plan", put(folder, "cut.csv", plan[:at]), "", *systems.RULES)
    done = run(BRING, "plan", put(folder, "cut.csv", plan[:-2]), "-o", folder / "whole", "--codes", folder / "codes-2.csv", "--take-codes",
               "--cut", *systems.RULES)
    same("--cut takes a plan without an end of its last line", done.status, 0)


def tables(folder: Path) -> None:
    """Tables in other encodings, with huge cells, or without the columns of their kind."""
    def is_refused(name: str, data: str | bytes, text: str, *more: object) -> None:
        refused(name, folder, "plan", put(folder, "plan.csv", data), text, *systems.RULES, *more)

    good = "Kennzeichen;Bezeichnung;Aufbewahrungsfrist;Aussonderungsart\r\n10.1;Straße;10 Jahre;V\r\n"
    is_refused("Windows-1252 without a word", good.encode("cp1252"), "line 2: byte DF is not utf-8: say --encoding")
    is_refused("UTF-16 without a mark", good.encode("utf-16-le"), "say --encoding")
    is_refused("another encoding", good.encode(), "say --encoding", "--encoding", "ascii")
    is_refused("a huge cell", good + f"10.2;{'x' * 70_000};;\r\n", "line 3: field larger than field limit")
    is_refused("quotes that do not end", good + "10.2;\"x\r\n", "line ")
    is_refused("no column", "a;b\r\n1;2\r\n", "has no column for notation: say --column notation=HEADER")
    is_refused("two columns of a name", "Kennzeichen;Bezeichnung;bezeichnung\r\n1;2;3\r\n", "two columns are named")
    is_refused("nothing", "", "is empty")
    is_refused("a column that is not there", good, "no column is named \"x\"", "--column", "title=x")
    is_refused("a name of no column", good, "--column x: there are notation", "--column", "x=Kennzeichen")
    there = folder / "catalogue"
    there.mkdir()
    for name in ("schedules", "classes", "aggregations", "records"):
        put(there, f"{name}.json", '{"moment": "now", "' + name + '": []}')
    for name, text in (("classes", '{"moment": "now", "classes": [{"x": 1}]}'), ("records", '{"moment": "now", "records": [[1]]}'),
                       ("aggregations", "{"), ("schedules", '{"moment": "now"}')):
        whole = (there / f"{name}.json").read_bytes()
        put(there, f"{name}.json", text)
        is_refused(f"a catalogue with other {name}", good, "catalogue", "--catalogue", there)
        put(there, f"{name}.json", whole)
    is_refused("no catalogue", good, "of a catalogue in", "--catalogue", folder)
    refused("no file", folder, "plan", folder / "none.csv", "there is no ", *systems.RULES)
    refused("a folder", folder, "plan", folder, "Is a directory", *systems.RULES)
    for encoding, more in (("utf-16", ()), ("utf-8-sig", ()), ("cp1252", ("--encoding", "windows-1252"))):
        place = folder / encoding
        place.mkdir()
        done = compared.brought(place, Source("plan", put(place, "plan.csv", good.encode(encoding)), systems.RULES), *more)
        titles = [row["title"] for row in compared.rows_in(place / "out-plan/classes.csv")]
        same(f"{encoding} is read", (done.status, titles), (0, ["10.1 Straße"]))


def rows(folder: Path) -> None:
    """Rows that are wrong are named, and keep the others from being written unless somebody wants that."""
    source = put(folder, "plan.csv", "Kennzeichen;Bezeichnung;Aufbewahrungsfrist;Aussonderungsart\r\n10.1;a;10 Jahre;V\r\n;b;10 Jahre;V\r\n"
                 "10.2;c;10 Jahre\r\n10.3;d;zehn Jahre;V\r\n10.1;e;5 Jahre;V\r\n10.4;f;10 Jahre;X\r\n10.5;g;10 Jahre;\r\n")
    done = compared.brought(folder, Source("plan", source, systems.RULES))
    same("nothing is written", (done.status, sorted(os.listdir(folder))), (1, ["codes.csv", "plan.csv"]))
    for text in ("wrong: row 3: it has no notation", "wrong: row 4: it has 3 cells, and the header has 4",
                 "wrong: row 6: its class 10-1 has the schedule C-10Y-M1-D above, and C-5Y-M1-D here",
                 "look at row 5, 10.3: its rule is not read: period \"zehn Jahre\"", "look at row 7, 10.4: its rule is not read: action \"X\"",
                 "look at row 8, 10.5: its rule is not whole: say --action"):
        judge(f"named: {text}", text in done.error, done.error, is_quiet=True)
    done = compared.brought(folder, Source("plan", source, systems.RULES), "--skip")
    classes = {row["title"]: row["schedule"] for row in compared.rows_in(folder / "out-plan/classes.csv")}
    same("the others are written, and no rule is guessed", (done.status, classes),
         (1, {"10.1 a": "C-10Y-M1-D", "10.3 d": "", "10.4 f": "", "10.5 g": ""}))
    whole, *parts = counted.counts_in(done.error)
    same("each cell is counted once", (whole, sum(parts)), (counted.cells_of(source), whole))
    same("wrong rows are listed", [row["place"] for row in compared.rows_in(folder / "out-plan/wrong.csv")], ["row 3", "row 4", "row 6"])


def things(folder: Path) -> None:
    """Things of each system that are wrong are named, with all that is in them, and the others come in."""
    records = put(folder, "records.csv", "Record Number,Title,Record Type,Container,Classification,Retention Schedule,Date Created,Date Closed\n"
                  "F1,a,Folder,,C,,2001-02-03,2005-01-01\nF2,b,Folder,F9,C,,2001-02-03,\nD1,c,Document,F1,,X1,2001-02-04,\n"
                  "D2,d,Document,F2,,,2001-02-04,\nD3,e,Document,,,,2001-02-04,\nF3,f,Folder,F4,C,,2001-02-03,\nF4,g,Folder,F3,C,,2001-02-03,\n"
                  "F1,h,Folder,,C,,2001-02-03,\nD4,i,Document,F1,,,soon,\n")
    named(folder, Source("trim", records, ()), ["row 3: its container \"F9\" is in no row", "row 5: its container \"F2\" is wrong",
          "row 6: it is in no container", "row 7: its container \"F4\" is in no row, or in what it contains", "row 8: its container \"F3\" is",
          "row 9: its number \"F1\" is that of another container", "row 10: \"soon\" is not a day"], ["F1"], ["D1"])
    labels = put(folder, "labels.csv", "LabelName,RetentionAction,RetentionDuration,RetentionType\nA,KeepAndDelete,9,CreationAgeInDays\n"
                 "B,Keep,9,CreationAgeInDays\nC,Delete,nine,CreationAgeInDays\nD,Delete,9,ModificationAgeInDays\nA,Delete,1,EventAgeInDays\n")
    done = named(folder, Source("m365-labels", labels, ()), ["row 6: the label \"A\" is above too"], [], [])
    rules = {row["code"]: row["schedule"] for row in compared.rows_in(folder / "out-m365-labels/classes.csv")}
    same("labels that are not read have no schedule", (rules, "look at row 3, B: its rule is not read: Keep 9" in done, "row 4, C" in done),
         ({"A": "O-9D-D", "B": "", "C": "", "D": "E-9D-D"}, True, True))
    items = put(folder, "items.csv", "FileRef,Created,Modified,_ComplianceTag\n/s/l/a.txt,2001-02-03,,A\n/s/b.txt,2001-02-03,,A\n"
                "/s/l/../c.txt,2001-02-03,,A\n/s/l/d.txt,2001-02-03,,Z\n/s/l/e.txt,2001-02-03,,D\n/s/l/f.txt,,,\n/s/l/a.txt,2001-02-03,,\n")
    named(folder, Source("sharepoint", items, ("--root", "/s/l/", "--class", "K", "--labels", labels)),
          ["row 3: it is not in s/l, which --root names", "row 4: it has no path", "row 5: --labels has no label \"Z\"",
           "row 6: its period runs from the day modified, and it has none", "row 7: it has no day of creation",
           "row 8: its ref \"s/l/a.txt\" is that of another record too"], ["s/l"], ["s/l/a.txt"])
    package(folder)
    refused("items without a root", folder, "sharepoint", items, "say --root PATH")
    numbers = put(folder, "n.csv", "Number,Title,Type,Container,Created\n1,a,F,,2001-01-01\n2,b,F,1,2001-01-01\n")
    refused("a container whose ref is a number", folder, "trim", numbers,
            "the ref 1 of a file with others in it is a number", "--class", "K")


def package(folder: Path) -> None:
    """A package of Alfresco with a hold, a schedule of three steps, and nodes that are in no folder."""
    step = ("<associations><dispositionActionDefinitions>{}</dispositionActionDefinitions></associations>".format("".join(
        f"<dispositionActionDefinition><properties><dispositionActionName>{name}</dispositionActionName><dispositionPeriod>year|3"
        "</dispositionPeriod><dispositionPeriodProperty>cm:created</dispositionPeriodProperty></properties></dispositionActionDefinition>"
        for name in ("cutoff", "transfer", "destroy"))))
    made = "<properties><identifier>{0}</identifier><name>n</name><created>2001-02-03T00:00:00Z</created>{1}</properties>".format
    source = put(folder, "plan.xml", f"""<view><recordCategory>{made("C", "")}<associations><dispositionSchedule><dispositionSchedule>{step}
        </dispositionSchedule></dispositionSchedule><contains><content>{made("D0", "")}</content><recordFolder><aspects><frozen/></aspects>
        {made("F", "<isClosed>true</isClosed>")}<associations><contains><content>{made("D", "")}</content><content>{made("D", "")}</content><content>
        <properties><identifier>E</identifier></properties></content></contains></associations></recordFolder></contains></associations>
        </recordCategory><recordFolder>{made("G", "")}</recordFolder></view>""")
    error = named(folder, Source("alfresco", source, ()), [
        "line 3, content: its ref \"D\" is that of another record too", "line 3, content: it has no day of creation",
        "line 2, content: it is in no record folder", "line 5, recordFolder: it is in no record category"], ["F"], ["D"])
    for text in ("category C: its schedule is not read", "folder F: it is closed, and has no day of cut-off", "folder F: it is under a hold"):
        judge(f"alfresco: {text}", text in error, error, is_quiet=True)
    same("alfresco: no rule is guessed", [row["schedule"] for row in compared.rows_in(folder / "out-alfresco/classes.csv")], [""])


def named(folder: Path, source: Source, faults: list[str], files: list[str], refs: list[str]) -> str:
    """Judges that these things of a source are wrong, that others come in, and that each part is counted once."""
    done = compared.brought(folder, source, "--skip")
    out = folder / f"out-{source.kind}"
    lines = [f"{row['place']}: {row['reason']}" for row in compared.rows_in(out / "wrong.csv")]
    same(f"{source.kind}: wrong", [line[:len(fault)] for line, fault in zip(lines, faults)] + [len(lines)], [*faults, len(faults)])
    same(f"{source.kind}: the others", (done.status, [row["ref"] for row in compared.rows_in(out / "files.csv")],
                                        [row["ref"] for row in compared.rows_in(out / "records.csv")]), (1, files, refs))
    whole, *parts = counted.counts_in(done.error)
    same(f"{source.kind}: each part is counted once", (whole, sum(parts)), (counted.parts_of(source.path), whole))
    return done.error


def names(folder: Path) -> None:
    """Names that lead out of a folder, or that no cell can have."""
    message = FILE.format(encoding="UTF-8", ref="A").replace("</Akte>", """<Akteninhalt><Dokument><Identifikation><ID>1</ID></Identifikation>
        <DatumDesSchreibens>2001-02-03</DatumDesSchreibens><Version><Format><Primaerdokument><Dateiname>{name}</Dateiname>
        </Primaerdokument></Format></Version></Dokument></Akteninhalt></Akte>""")
    for name in ("../secret", "a/../../b", "/etc/passwd", "..\\b"):
        source = put(folder, "message.xml", message.format(encoding="UTF-8", ref="A", name=name))
        done = run(BRING, "xdomea", source, "-o", folder / "out", "--contents", folder, *MARKUP)
        judge(f"{name} is wrong", done.status == 1 and "is not in the folder of the message" in done.error, done, is_quiet=True)
    top = folder / "top"
    (top / "a").mkdir(parents=True)
    for name in (b"a/\xff.txt", b"a/b\n.txt", b" c.txt", b"good.txt"):
        (Path(os.fsdecode(os.fsencode(top) + b"/" + name))).write_bytes(b"x")
    (top / "link").symlink_to("/etc/passwd")
    (top / "round").symlink_to(top)
    os.mkfifo(top / "pipe")
    done = compared.brought(folder, Source("share", top, ("--class", "K")), "--skip")
    same("names that no sheet can have are wrong", (done.status, done.error.count("wrong: ")), (1, 3))
    same("the others come in", [row["ref"] for row in compared.rows_in(folder / "out-share/records.csv")], ["top/good.txt"])
    same("links are not followed", "lost: 2 links, which are not followed" in done.error, True)
    same("each entry is counted", counted.counts_in(done.error)[0], counted.parts_of(top))


def memory(folder: Path, count: int) -> int:
    """Brings a message of so many files in, and returns the most memory that it took, in KB."""
    document = "<Dokument><Identifikation><ID>{}</ID></Identifikation><DatumDesSchreibens>2001-02-03</DatumDesSchreibens></Dokument>"
    akte = ("<Schriftgutobjekt><Akte><AllgemeineMetadaten><Kennzeichen>A{0}</Kennzeichen></AllgemeineMetadaten><Laufzeit><Beginn>2001-02-03"
            "</Beginn></Laufzeit><X>{1}</X><Akteninhalt>{2}</Akteninhalt></Akte></Schriftgutobjekt>\n")
    with (folder / f"{count}.xml").open("w") as file:
        file.write("<a>")
        for number in range(count):
            file.write(akte.format(number, "x" * 200_000, document.format(number)))
        file.write("</a>")
    arguments = [str(BRING), "xdomea", str(folder / f"{count}.xml"), "-o", str(folder / f"out-{count}"), *MARKUP]
    process = subprocess.Popen(arguments, stdout=subprocess.DEVNULL, stderr=subprocess.DEVNULL)
    _, status, usage = os.wait4(process.pid, 0)
    process.returncode = os.waitstatus_to_exitcode(status)
    same(f"a message of {count} files comes in", (process.returncode, len(compared.rows_in(folder / f"out-{count}/records.csv"))), (0, count))
    return usage.ru_maxrss


def bounded(folder: Path) -> None:
    """A large message takes no more memory than its largest file."""
    small, large = memory(folder, 20), memory(folder, 300)
    judge("60 MB take as much memory as 4", large - small < MORE, (small, large), is_quiet=True)
