// What all forecasts share: a place that is filled while somebody writes, and the words that it is a forecast.
import { fill, made, paragraph, say, sentencesOf } from "../page.js";
import { t } from "../texts.js";

/** So many milliseconds after the last key a forecast is made. */
const STILL = 300;

/** A place for a forecast in a form, before its button. A screen reader reports what appears there. */
export function placeIn(form, id) {
  const place = made("div", { id, class: "forecast" }, sentencesOf());
  form.querySelector("button:not([type=button])").before(place);
  return place;
}

/** Shows a forecast, which says that it is one; nothing, where there is none. */
export function show(place, ...nodes) {
  place.removeAttribute("aria-busy");
  place.classList.remove("result");
  fill(place, ...(nodes.length ? [made("p", { class: "label" }, t("forecast.is")), ...nodes] : []));
}

function showNone(place, ...nodes) {
  place.removeAttribute("aria-busy");
  fill(place, ...nodes);
}

/** A tick that a forecast asks for in its form. */
export function tickOf(form, name, key) {
  const box = made("input", { type: "checkbox", id: `${form.id}-${name}`, "aria-describedby": `${form.id}-${name}-wrong` });
  const label = made("label", { for: box.id }, t(key));
  return made("div", { class: "sure" }, box, label, made("strong", { class: "wrong", id: `${box.id}-wrong` }));
}

/** Says why there is no forecast of what is written, and asks for a tick in its place. */
export function noForecast(form, words, written) {
  const nodes = [paragraph(words, "grave"), tickOf(form, "blind", "forecast.blind")];
  return { seen: JSON.stringify([words, ...written]), nodes, isNone: true };
}

/** Shows what an act did in the place of what it would do. */
function showResult(place, ...nodes) {
  place.removeAttribute("aria-busy");
  place.classList.add("result");
  fill(place, made("p", { class: "label" }, t("forecast.result")), ...nodes);
}

/** Says that a forecast is being made. */
export function wait(place) {
  place.setAttribute("aria-busy", "true");
  if (!place.textContent) fill(place, paragraph(t("page.asking")));
}

/**
 * @typedef {object} Told
 * @property {Node[]} nodes what is shown; nothing where what is written is not whole
 * @property {string} seen what it says, as a text: if that differs later, so does what the act would do
 * @property {boolean} [isNone] whether it says why there is no forecast
 */

/**
 * Makes a forecast anew once nobody writes in a form any more.
 * @param {HTMLElement} form
 * @param {HTMLElement} place
 * @param {function(): Promise<Told | null>} make null where it could not be made, which is said then
 * @returns {{ renew: function(Node[]?): Promise<string | null>, isAsSeen: function(HTMLElement): Promise<boolean> }} `renew`
 *   makes it at once, and shows a result in its place where there is one; `isAsSeen` does so too, before the act, and says at a place if it is not what was shown before
 */
export function forecastOf(form, place, make) {
  let turn = 0;
  let later = 0;
  let seen = null;
  let isForecast = false;
  const renew = async (result = []) => {
    const mine = ++turn;
    clearTimeout(later);
    wait(place);
    const told = await make();
    if (mine !== turn) return seen;
    const isSame = isForecast && !result.length && Boolean(told?.seen) && told.seen === seen;
    seen = told?.seen ?? null;
    isForecast = !result.length;
    // a tick in what is shown stays if that is still so
    if (isSame) place.removeAttribute("aria-busy");
    else if (result.length) showResult(place, ...result);
    else if (told?.isNone) showNone(place, ...told.nodes);
    else show(place, ...(told?.nodes ?? [paragraph(t("forecast.failed"))]));
    return seen;
  };
  const wrote = () => {
    turn += 1;
    clearTimeout(later);
    place.setAttribute("aria-busy", "true");
    later = setTimeout(() => renew(), STILL);
  };
  for (const kind of ["input", "change"]) form.addEventListener(kind, ({ target }) => target.type === "checkbox" || wrote());
  const isAsSeen = async (outcome) => {
    const before = seen;
    const now = await renew();
    // where nothing can be shown, as without a catalogue, there is nothing to compare
    if (now === "" || (now !== null && now === before)) return true;
    say(outcome, "wrong", paragraph(t(now === null ? "changes.unread" : "forecast.changed")));
    return false;
  };
  return { renew, isAsSeen };
}
