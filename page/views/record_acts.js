// What else is recorded of a record beside its event: a review, a receipt, a schedule or a class of its own.
import { clear } from "../fields.js";
import { byId, made, paragraph, quiet, say, tableOf, translate } from "../page.js";
import { forgetReason } from "../reasons.js";
import { all, t } from "../texts.js";
import { begin, partsOf } from "./act_form.js";
import { differences } from "./changes.js";

/** The record that the forms are for, by its number. */
let subject = null;

/** The forms; each is offered for a record of one status. */
const FORMS = [
  {
    id: "record-review",
    kind: "review",
    words: "recordActs.review",
    fields: { schedule: "nextSchedule", day: "day", by: "by" },
    act: ({ day, schedule, by }) => ({ act: "review", day, record: subject, schedule, by }),
    status: "here",
    clears: ["schedule"],
    isCompared: true,
  },
  {
    id: "record-schedule",
    kind: "set-record-schedule",
    words: "recordActs.schedule",
    fields: { schedule: "ownSchedule", day: "day" },
    act: ({ day, schedule }) => ({ act: "set-record-schedule", day, record: subject, schedule }),
    status: "here",
    clears: ["schedule"],
  },
  {
    id: "record-class",
    kind: "reclassify",
    words: "recordActs.class",
    fields: { class: "ownClass", day: "day" },
    act: (it) => ({ act: "reclassify", day: it.day, target: `record:${subject}`, class: it.class }),
    status: "here",
    clears: ["class"],
  },
  {
    id: "record-receipt",
    kind: "receipt",
    words: "recordActs.receipt",
    fields: { digest: "digest", day: "day", by: "by" },
    act: ({ day, digest, by }) => ({ act: "receipt", day, record: subject, digest: digest.toLowerCase(), by }),
    status: "sent",
    clears: ["digest"],
  },
];

/** A form behind a summary, since most records want none of them. Its outcome stays in sight. */
function partOf(description) {
  const { id, words } = description;
  const summary = made("summary", {}, made("h3", { "data-text": `${words}.title` }));
  const form = made("form", { id }, ...partsOf(description));
  const part = made("details", { id: `${id}-part`, class: "act" }, summary, form);
  const outcome = made("div", { id: `${id}-outcome`, class: "outcome", role: "status" });
  const both = made("div", { class: "inset" }, part, outcome);
  translate(both);
  return both;
}

/** Offers the forms that a record of this status takes. Those of another record begin anew. */
export function offer({ number, status }) {
  for (const { id, status: wanted } of FORMS) byId(`${id}-part`).hidden = status !== wanted;
  if (number === subject) return;
  subject = number;
  for (const { id, clears } of FORMS) {
    for (const name of clears) clear(byId(`${id}-${name}`));
    forgetReason(byId(id));
    quiet(byId(`${id}-outcome`));
    byId(`${id}-part`).open = false;
  }
}

/** What a review is given for, as the view shows it. */
const REVIEWED_FOR = ["class", "schedule", "due", "held"];

/**
 * Reads the record anew and compares it with what was shown: that as a text, or null if it has changed or could not be
 * read, which is said at this place.
 */
async function seenOf(act, place, { readAnew, shown }) {
  const before = shown();
  const due = await readAnew();
  // another record is shown by now
  if (subject !== act.record) return null;
  const now = shown();
  const names = REVIEWED_FOR.filter((name) => before[name] !== now[name]);
  if (due === null) say(place, "wrong", paragraph(t("changes.unread")));
  else if (names.length) {
    const { what, shown: then, now: there } = all().changes.columns;
    const table = tableOf(t("changes.caption"), [what, then, there], differences(before, now, names), "changes");
    say(place, "wrong", paragraph(t("changes.record")), table);
  } else return JSON.stringify(REVIEWED_FOR.map((name) => now[name]));
  return null;
}

/** Says, as soon as a SHA-256 is written, whether it is that of the record which is shown. */
function watchDigest(shown) {
  const input = byId("record-receipt-digest");
  const place = made("p", { id: "record-receipt-same", role: "status" });
  input.closest(".field").classList.add("wide");
  input.closest(".field").append(place);
  input.addEventListener("input", () => {
    const text = input.value.trim().toLowerCase();
    const isWhole = /^[0-9a-f]{64}$/.test(text);
    if (isWhole && text !== input.value) input.value = text;
    const isSame = text === shown()?.digest;
    place.className = isSame ? "fate done" : "fate wrong";
    place.textContent = isWhole ? t(isSame ? "recordActs.receipt.same" : "recordActs.receipt.other") : "";
  });
}

/**
 * Starts the forms. `readAnew` reads the record that is shown once more: what is said of its due day, or null where it
 * could not be read; `shown` is that record.
 */
export function start(readAnew, shown) {
  byId("record-acts").append(...FORMS.map(partOf));
  watchDigest(shown);
  for (const description of FORMS) {
    const { id } = description;
    const number = (act) => act.record ?? Number(act.target.split(":")[1]);
    const after = async (act, fate) => {
      // another record is shown by now, or nothing was done
      if (subject !== number(act) || fate === "undone") return;
      const place = byId(`${id}-outcome`);
      const due = await readAnew();
      if (due === null) place.append(paragraph(t("event.stale")));
      else if (fate === "done") place.firstChild?.after(...due);
    };
    const before = (act, place) => seenOf(act, place, { readAnew, shown });
    begin({ ...description, ...(description.isCompared && { before }), after });
  }
}
