// The form of the view of a record that records the record's event: the day on which it occurred.
import { clear, onSubmit, untick } from "../fields.js";
import { asking, byId, failed, paragraph, quiet, say, told } from "../page.js";
import { recordEvent } from "../plain/acts.js";
import { fatesOf } from "../plain/outcomes.js";
import { askReason, forgetReason, senderOf } from "../reasons.js";
import { t } from "../texts.js";

/** The record that the form is for, by its number. */
let subject = null;

/**
 * Offers the form for a record that is here; of any other one no event is recorded any more. It is folded where the
 * record's schedule is known and waits for no event.
 */
export function offer({ number, status }, rule) {
  byId("record-event-part").hidden = status !== "here";
  if (number === subject) return;
  subject = number;
  byId("record-event-part").open = !rule || rule.trigger === "event";
  clear(byId("record-event-occurred"));
  forgetReason(byId("record-event"));
  quiet(byId("record-event-outcome"));
}

/** Says what came of the act, in the words of the page and in those of the office: `done`, `refused`, `undone` or `unknown`. */
function sayFate(place, act, answer) {
  const { answers, end } = fatesOf(answer, 1);
  if (end === "unknown") say(place, "unknown", ...told(answer), paragraph(t("event.lost", act)));
  else if (answers[0]?.done) say(place, "done", paragraph(t("event.done", act)), ...told(answer));
  else failed(place, answer);
  if (end !== "answered") return end;
  return answers[0].done ? "done" : "refused";
}

/** Records the event, says what came of it, and has the record read anew. */
async function ask(values, readAnew) {
  const place = byId("record-event-outcome");
  const act = recordEvent(values["record-event-day"], subject, values["record-event-occurred"], values["record-event-by"]);
  const form = byId("record-event");
  asking(place);
  const fate = sayFate(place, act, await senderOf(form)([act]));
  if (["done", "unknown"].includes(fate)) untick(form);
  if (fate === "done") forgetReason(form);
  // another record is shown by now, or nothing was done
  if (subject !== act.record || fate === "undone") return;
  const due = await readAnew();
  if (due === null) place.append(paragraph(t("event.stale")));
  else if (fate === "done") place.firstChild?.after(...due);
}

/** Starts the form. `readAnew` reads the record that is shown once more: what is said of its due day, or null where it could not be read. */
export function start(readAnew) {
  askReason(byId("record-event"), ["event"]);
  onSubmit(byId("record-event"), (values) => ask(values, readAnew));
}
