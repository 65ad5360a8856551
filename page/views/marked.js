// The bar "With what is marked": a deed is chosen, its form shows what it will do, and all of it is sent.
import { part } from "../catalogue.js";
import { mark, onSubmit, untick } from "../fields.js";
import { made, paragraph, plural, quiet, say } from "../page.js";
import { DEEDS, actsOf, deedsFor, sorted } from "../plain/marked_acts.js";
import { isDay, today } from "../plain/forms.js";
import { MOST_ACTS, requestsOf, sendRequests, stepsOf } from "../plain/many.js";
import { receiptsOf } from "../plain/receipts.js";
import { forgetReason, senderOf } from "../reasons.js";
import { t } from "../texts.js";
import { sayAnswers } from "./marked_answers.js";
import * as due from "./marked_due.js";
import { deedForm } from "./marked_form.js";
import { preview } from "./marked_preview.js";
import { working } from "./marked_progress.js";
import { withFiles } from "./receipt_files.js";

/**
 * What a view says of what is marked in it.
 * @typedef {object} Marks
 * @property {string} name the view's name, with which ids begin
 * @property {"record" | "aggregation"} kind
 * @property {string[]} [except] deeds that the view does not offer
 * @property {function(): Promise<import("../plain/marked_acts.js").Item[]>} items what is marked
 * @property {function(): HTMLElement} answer the place for what came of it
 * @property {function(string): void} save saves what is marked as CSV, and says so
 * @property {function(object[]): Promise<boolean>} [before] whether all of it is as it was shown; if not, that was said
 * @property {function(number[]): Promise<void>} after takes the marks of these off, and shows what is there now
 */

export class MarkedBar {
  /** The deed that is chosen, or an empty text; the requests that were begun last. */
  deed = "";
  #requests = [];
  #sender = null;
  #forms = new Map();
  #turn = 0;
  /** What the preview shows of what would be confirmed. */
  #seen = "";

  /** @param {Marks} marks */
  constructor(marks) {
    this.marks = marks;
    const { name, kind, except } = marks;
    const names = deedsFor(kind, except);
    this.buttons = names.map((deed) => this.#buttonOf(deed));
    const csv = made("button", { type: "button", class: "quiet", id: `${name}-${kind}-csv` }, t("marked.csv.button"));
    csv.addEventListener("click", () => marks.save());
    const words = made("span", { class: "with-words", id: `${name}-${kind}-words` }, t("marked.legend"));
    this.choice = made("div", { class: "with", role: "group", "aria-labelledby": words.id }, words, ...this.buttons, csv);
    this.outcome = made("div", { id: `${name}-${kind}-outcome`, class: "outcome", role: "status" });
    this.places = made("div", { class: "deeds" });
    this.node = made("div", { class: "marked-bar" }, this.choice, this.places, this.outcome);
    for (const deed of names) this.#add(deed);
  }

  #buttonOf(deed) {
    const id = `${this.marks.name}-${this.marks.kind}-${deed}-choose`;
    const named = { type: "button", class: "quiet", id, "data-deed": deed, "aria-pressed": "false" };
    const button = made("button", named, t(`marked.${deed}.button`));
    button.addEventListener("click", () => this.choose(deed === this.deed ? "" : deed));
    return button;
  }

  #add(deed) {
    const it = deedForm(`${this.marks.name}-${this.marks.kind}-${deed}`, deed);
    this.#forms.set(deed, it);
    this.places.append(it.form);
    it.form.hidden = true;
    it.form.addEventListener("input", () => this.tell());
    // a code that is chosen from the offers changes the field without a key
    it.form.addEventListener("change", () => this.tell());
    it.close.addEventListener("click", () => this.choose(""));
    onSubmit(it.form, (values) => this.#ask(deed, values));
  }

  /** Opens the form of a deed, and closes the others; with none the view is as before. */
  choose(deed) {
    // while one is sent no other one is begun
    if (this.node.hasAttribute("aria-busy")) return;
    this.deed = deed;
    for (const [name, { form }] of this.#forms) form.hidden = name !== deed;
    for (const button of this.buttons) button.setAttribute("aria-pressed", String(button.dataset.deed === deed));
    this.node.dispatchEvent(new CustomEvent("chosen", { detail: deed }));
    quiet(this.outcome);
    if (!deed) return;
    due.forget();
    this.tell();
    this.#forms.get(deed).first?.focus();
  }

  /** The items of a deed, with what its form says of each. */
  async #itemsOf(deed) {
    const items = await this.marks.items();
    if (deed === "confirm") return { items: await due.withRows(items, this.#dayOf(deed)), wrong: [] };
    if (deed !== "receipt") return { items, wrong: [] };
    const list = this.#forms.get(deed).list.value;
    const { digests, wrong } = receiptsOf(list, items);
    return withFiles(items.map((it) => ({ ...it, digest: digests.get(it.number) })), list, wrong);
  }

  /** The day that is written in the form of a deed, or today. */
  #dayOf(deed) {
    const input = /** @type {HTMLInputElement} */ (document.getElementById(`${this.#forms.get(deed).form.id}-day`));
    const written = input.value.trim();
    return isDay(written) ? written : today();
  }

  /** The hold of the catalogue that has this code, if the form is that of a hold. */
  async #holdOf(deed) {
    if (deed !== "hold") return null;
    const code = this.#forms.get(deed).form.querySelector("input").value.trim();
    return (await part("holds"))?.find((it) => it.code === code) ?? null;
  }

  /** Shows what the chosen deed would do with what is marked and written by now. */
  async tell() {
    const { deed } = this;
    if (!deed) return;
    const mine = ++this.#turn;
    const it = this.#forms.get(deed);
    it.preview.setAttribute("aria-busy", "true");
    const [{ items, wrong }, hold] = [await this.#itemsOf(deed), await this.#holdOf(deed)];
    // the newest one of the same deed says when it is done
    if (mine === this.#turn || deed !== this.deed) it.preview.removeAttribute("aria-busy");
    if (mine !== this.#turn) return;
    if (deed === "hold") it.showHold(hold);
    const { taken, left } = sorted(deed, items);
    const before = deed === "hold" && !this.#isInForce(hold) ? 1 : 0;
    const sums = deed === "confirm" ? due.actionWords(taken) : [];
    this.#seen = deed === "confirm" ? due.seenOf(taken) : "";
    it.preview.replaceChildren(...preview(deed, this.marks.kind, taken, left, { sums, wrong, before, most: MOST_ACTS }));
    it.submit.textContent = plural(`marked.${deed}.submit`, taken.length);
  }

  #isInForce(hold) {
    return hold !== null && hold.lifted === null;
  }

  /** The values of a form by the names of its fields; an empty one that may be empty is null. */
  #named(deed, values) {
    const id = this.#forms.get(deed).form.id;
    return Object.fromEntries(Object.keys(DEEDS[deed].fields).map((name) => [name, values[`${id}-${name}`] || null]));
  }

  /** Whether what would be confirmed is what was shown; if not, that is said, and what is shown is as it is now. */
  #isAsSeen(taken, seen) {
    if (due.seenOf(taken) === seen) return true;
    say(this.outcome, "wrong", paragraph(t("forecast.changed")));
    this.tell();
    return false;
  }

  /** Asks for a deed with what is marked, once it is as it was shown. */
  async #ask(deed, values) {
    const seen = this.#seen;
    due.forget();
    const [{ items }, hold] = [await this.#itemsOf(deed), await this.#holdOf(deed)];
    const { taken } = sorted(deed, items);
    if (deed === "confirm" && !this.#isAsSeen(taken, seen)) return null;
    if (!taken.length) return say(this.outcome, "wrong", paragraph(t(items.length ? "marked.nothing" : "due.nothingMarked")));
    quiet(this.outcome);
    if (this.marks.before && !(await this.marks.before(taken))) return null;
    const isThere = this.#isInForce(hold);
    this.#requests = requestsOf(actsOf(deed, taken, { ...this.#named(deed, values), isThere }));
    this.#sender = senderOf(this.#forms.get(deed).form, seen);
    return this.#send(deed);
  }

  /** Sends what has no answer yet, and says what came of all of it. */
  async #send(deed) {
    const requests = this.#requests;
    const goesOn = working(this.node, requests);
    let answer;
    try {
      answer = await sendRequests(requests, this.#sender, DEEDS[deed].already, goesOn);
    } finally {
      goesOn.end();
    }
    const settled = stepsOf(requests).filter(({ item, fate }) => item && ["done", "already"].includes(fate.kind));
    await this.marks.after(settled.map(({ item }) => item.number));
    const isWhole = sayAnswers(this.marks.answer(), { deed, requests, answer, again: () => this.#send(deed) });
    if (isWhole) this.#finish(deed);
    else this.tell();
  }

  /** Closes a form whose deed is done, and takes what is of this one deed alone out of it. */
  #finish(deed) {
    const { form, list } = this.#forms.get(deed);
    untick(form);
    forgetReason(form);
    for (const name of ["code", "reason", "occurred", "schedule"]) {
      const input = document.getElementById(`${form.id}-${name}`);
      if (input) {
        input.value = "";
        mark(input, "");
      }
    }
    if (list) list.value = "";
    this.choose("");
  }
}
