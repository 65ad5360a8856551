// Reasons for the journal of a gate: the forms of acts that need one ask for it, and it goes with these acts alone.
import { post } from "./ask.js";
import { clear, field } from "./fields.js";
import { made } from "./page.js";
import { bodyOf } from "./plain/acts.js";
import { needsReason } from "./rights.js";
import { t } from "./texts.js";

/** So many reasons of this page are offered again, the last one first: the acts of one case have the same. */
const MOST = 8;
const LIST = "reasons";
let last = [];

/** Notes a reason that was sent, to be offered in each form that asks for one. */
function remember(reason) {
  last = [reason, ...last.filter((it) => it !== reason)].slice(0, MOST);
  const list = document.getElementById(LIST) ?? document.body.appendChild(made("datalist", { id: LIST, "aria-label": t("fields.why") }));
  list.replaceChildren(...last.map((value) => made("option", { value })));
}

const inputOf = (form) => /** @type {HTMLInputElement | null} */ (document.getElementById(`${form.id}-why`));
const placeOf = (form) => inputOf(form)?.closest("[data-field]");

/** The field for a reason in the form of this id, if one of these kinds of acts needs one. */
export function reasonFields(id, kinds) {
  if (!needsReason(kinds)) return [];
  const place = made("div", { "data-field": "why", id: `${id}-why` });
  field(place);
  place.querySelector("input").setAttribute("list", LIST);
  return [place];
}

/** Lets a form of the page ask for a reason if one of these kinds of acts needs one, before its tick or its button. */
export function askReason(form, kinds) {
  if (inputOf(form)) {
    if (!needsReason(kinds)) placeOf(form).remove();
    return;
  }
  const next = form.querySelector(".field.sure") ?? form.querySelector("button:not([type=button])");
  next.before(...reasonFields(form.id, kinds));
}

/** The reason that is written in a form, if these kinds of acts need one. */
export const reasonOf = (form, kinds) => (needsReason(kinds) ? (inputOf(form)?.value.trim() ?? "") : "");

/** Empties the field, once what the reason was for is done. */
export function forgetReason(form) {
  const input = inputOf(form);
  if (!input) return;
  if (input.value.trim()) remember(input.value.trim());
  clear(input);
}

/**
 * A function that sends acts as one request, with the reason that the form has now if one of them needs it.
 * @param {HTMLFormElement} form
 * @param {string} [seen] what was shown of what they act on
 */
export function senderOf(form, seen = "") {
  const reason = inputOf(form)?.value.trim() ?? "";
  const ofThese = (acts) => (needsReason(acts.map(({ act }) => act)) ? reason : "");
  return (acts) => post("acts", bodyOf(acts), { seen, reason: ofThese(acts) });
}
