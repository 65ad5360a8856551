// Forms that ask for one act each, made from a description: their fields, what is sent, and what is said of the answer.
import { clear, field, onSubmit, untick } from "../fields.js";
import { asking, byId, failed, made, paragraph, say, told, translate } from "../page.js";
import { fatesOf } from "../plain/outcomes.js";
import { forgetReason, reasonFields, senderOf } from "../reasons.js";
import { t } from "../texts.js";
import { markMissing } from "./no_such.js";
import { wordsOfTarget } from "./targets.js";

/**
 * @typedef {object} ActForm
 * @property {string} id the form's id, with which those of its fields begin
 * @property {string} kind the kind of its act
 * @property {string} words the texts of the form: title, about, unrecorded, submit, done and lost
 * @property {Object<string, string>} fields the kind of each field, by its name
 * @property {function(Object<string, any>): object} act the act of these values; a field that was left empty is null
 * @property {string[]} [clears] the fields that are empty again once the act is done
 * @property {string} [advice] the text of a further hint
 * @property {string} [sure] the text of a tick that the form asks for, as of an act that cannot be undone
 * @property {function(object, HTMLElement): Promise<string | null>} [before] what was shown of what the act is for, as a
 *   text; null if that has changed, which it says at this place, and then nothing is sent
 * @property {function(object, string): Promise<void>} [after] is called with the act and its fate
 */

/** A tick that a form asks for. */
function tickOf(id, key) {
  const box = made("input", { type: "checkbox", id: `${id}-sure`, "aria-describedby": `${id}-sure-wrong` });
  const label = made("label", { for: box.id, "data-text": key });
  return made("div", { class: "field sure" }, box, label, made("strong", { class: "wrong", id: `${box.id}-wrong` }));
}

/** The parts of a form, without what is around it. */
export function partsOf({ id, kind, words, fields, advice, sure }) {
  const places = Object.entries(fields).map(([name, kind]) => made("div", { "data-field": kind, id: `${id}-${name}` }));
  for (const place of places) field(place);
  const hint = (key) => made("p", { class: "hint", "data-text": key });
  const button = made("button", { "data-text": `${words}.submit`, ...(sure && { class: "grave" }) });
  const more = [...reasonFields(id, [kind]), ...(sure ? [tickOf(id, sure)] : [])];
  const hints = [`${words}.about`, `${words}.unrecorded`, ...(advice ? [advice] : [])].map(hint);
  return [...hints, ...places, ...more, button];
}

/** The values of a form by the names of its fields. */
function named({ id, fields }, values) {
  return Object.fromEntries(Object.keys(fields).map((name) => [name, values[`${id}-${name}`] || null]));
}

/** The values of an act for a text: what it is for in words. */
const inWords = async (act) => (act.target ? { ...act, target: await wordsOfTarget(act.target) } : act);

/** Says what came of an act: `done`, `refused`, `undone` or `unknown`. */
async function sayFate(place, words, act, answer) {
  const { answers, end } = fatesOf(answer, 1);
  const [given] = answers;
  const isDone = Boolean(given?.done || given?.number);
  if (end === "unknown") say(place, "unknown", ...told(answer), paragraph(t(`${words}.lost`, await inWords(act))));
  else if (isDone) say(place, "done", paragraph(t(`${words}.done`, { ...(await inWords(act)), number: given.number })), ...told(answer));
  else failed(place, answer);
  if (end !== "answered") return end;
  return isDone ? "done" : "refused";
}

async function ask(description, values) {
  const { id, words, clears = [], before, after } = description;
  const [form, place] = [byId(id), byId(`${id}-outcome`)];
  const act = description.act(named(description, values));
  asking(place);
  const seen = before ? await before(act, place) : "";
  if (seen === null) return;
  const answer = await senderOf(form, seen)([act]);
  const fate = await sayFate(place, words, act, answer);
  if (fate === "refused") await markMissing(form, fatesOf(answer, 1).answers[0].refused);
  // a refusal leaves the form as it is, with its ticks and its reason
  if (["done", "unknown"].includes(fate)) untick(form);
  if (fate === "done") {
    for (const name of clears) clear(byId(`${id}-${name}`));
    forgetReason(form);
  }
  await after?.(act, fate);
}

/** A form with room for its outcome, as a step of a view. Once it is in the page, `begin` lets it work. */
export function stepOf(description) {
  const { id, words } = description;
  const form = made("form", { id }, made("h3", { "data-text": `${words}.title` }), ...partsOf(description));
  const outcome = made("div", { id: `${id}-outcome`, class: "outcome", role: "status" });
  const step = made("div", { class: "step" }, form, outcome);
  translate(step);
  return step;
}

/** Lets a form of the page ask for its act. */
export const begin = (description) => onSubmit(byId(description.id), (values) => ask(description, values));
