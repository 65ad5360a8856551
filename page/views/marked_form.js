// The form of a deed with what is marked: its fields, its preview and its button.
import { field } from "../fields.js";
import { made, paragraph } from "../page.js";
import { visible } from "../plain/marks.js";
import { DEEDS } from "../plain/marked_acts.js";
import { reasonFields } from "../reasons.js";
import { needsReason } from "../rights.js";
import { t } from "../texts.js";

/** What the office does not record of each deed: the words of the forms for one of these acts. */
const UNRECORDED = {
  confirm: "due.confirmAbout",
  hold: "marked.hold.unrecorded",
  event: "event.unrecorded",
  review: "recordActs.review.unrecorded",
  schedule: "recordActs.schedule.unrecorded",
  receipt: "recordActs.receipt.unrecorded",
  close: "plan.close.unrecorded",
};

function fieldOf(id, name, kind) {
  const place = made("div", { "data-field": kind, id: `${id}-${name}` });
  // the code of a hold that is there is offered, and any other one may be written
  if (name === "code") place.dataset.offers = "holds";
  field(place);
  return place;
}

/** A tick, for what nothing undoes. */
function tickOf(id, deed) {
  const box = made("input", { type: "checkbox", id: `${id}-sure`, "aria-describedby": `${id}-sure-wrong` });
  const label = made("label", { for: box.id }, t(`marked.${deed}.sure`));
  return made("div", { class: "field sure" }, box, label, made("strong", { class: "wrong", id: `${box.id}-wrong` }));
}

/** Where the archive's list is pasted. */
function listOf(id) {
  const list = made("textarea", { id: `${id}-list`, rows: "3", spellcheck: "false", "aria-describedby": `${id}-list-hint` });
  const label = made("label", { for: list.id }, t("marked.receipt.list"));
  const hint = made("span", { class: "hint", id: `${id}-list-hint` }, t("marked.receipt.listHint"));
  return { list, place: made("div", { class: "field wide" }, label, list, hint) };
}

/**
 * Shows of the hold whose code is written what the catalogue has of it: one that is in force is not placed anew, so
 * neither a reason nor a name is asked for.
 */
function holdShower(told, places, why) {
  const more = [places.reason, places.by, ...(needsReason(["hold-on"]) ? [] : why)];
  return (hold) => {
    const isThere = hold !== null && hold.lifted === null;
    const key = isThere ? "marked.hold.there" : "marked.hold.lifted";
    told.replaceChildren(...(hold ? [paragraph(t(key, { ...hold, reason: visible(hold.reason) }))] : []));
    if (isThere) for (const place of more) place.remove();
    else if (!more[0].isConnected) places.code.after(...more);
  };
}

/**
 * The form of a deed.
 * @returns {{ form: HTMLFormElement, preview: HTMLElement, submit: HTMLElement, close: HTMLElement, first: HTMLElement,
 *   list: HTMLTextAreaElement | undefined, showHold: function(object | null): void }}
 */
export function deedForm(id, deed) {
  const { fields, isGrave, acts } = DEEDS[deed];
  const places = Object.fromEntries(Object.entries(fields).map(([name, kind]) => [name, fieldOf(id, name, kind)]));
  const pasted = deed === "receipt" ? listOf(id) : null;
  const submit = made("button", isGrave ? { class: "grave", id: `${id}-submit` } : { id: `${id}-submit` });
  const close = made("button", { type: "button", class: "quiet", id: `${id}-back` }, t("marked.back"));
  const preview = made("div", { class: "preview", id: `${id}-preview` });
  const told = made("div", { class: "hold-there", role: "status" });
  const why = reasonFields(id, acts);
  const parts = [...(pasted ? [pasted.place] : []), ...Object.values(places), ...why, ...(isGrave ? [tickOf(id, deed)] : [])];
  const legend = made("legend", {}, t(`marked.${deed}.title`));
  const hints = [t(`marked.${deed}.about`), t(UNRECORDED[deed])].map((words) => made("p", { class: "hint" }, words));
  const buttons = made("div", { class: "deed-buttons" }, submit, close);
  const form = made("form", { id, class: "deed" }, made("fieldset", {}, legend, ...hints, told, ...parts), preview, buttons);
  const [first] = form.querySelectorAll("textarea, input");
  return { form, preview, submit, close, first, list: pasted?.list, showHold: holdShower(told, places, why) };
}
