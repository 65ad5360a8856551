// The history of a thing: who did what to it, when and why, as a gate answers it from its journal. Without one it is hidden.
import { get } from "../ask.js";
import { asking, failed, made, paragraph, quiet, tableOf } from "../page.js";
import { today } from "../plain/forms.js";
import { beforeOf, fateOf, meaningOf, targetOf, whoOf } from "../plain/history.js";
import { visible } from "../plain/marks.js";
import { jsonOf } from "../plain/outcomes.js";
import { mayRead } from "../rights.js";
import { all, t } from "../texts.js";

const OWN = ["class", "schedule"];

/** A moment by this browser's clock. */
function clockOf(text) {
  const at = new Date(text);
  return `${today(at)} ${at.toTimeString().slice(0, 8)}`;
}

/** The values of an act as its sentence has them. */
function valuesOf({ act, answer }) {
  const values = Object.fromEntries(Object.entries(act).map(([name, value]) => [name, visible(String(value ?? ""))]));
  for (const name of OWN) values[name] ||= t("history.own");
  if (act.target) {
    const words = t(`catalogue.targets.${targetOf(act.target).kind}`, targetOf(act.target));
    values.target = words.charAt(0).toUpperCase() + words.slice(1);
  }
  if (act.action) values.action = t(`actions.${act.action}`);
  return { ...values, number: answer?.number ?? "" };
}

/** What was done, and what came of it. */
function whatOf(row) {
  const what = t(`history.kinds.${row.kind}`, valuesOf(row)).replace(/ +(?=[.:])/g, "");
  const before = beforeOf(row);
  const words = before === undefined ? what : t("history.before", { what, from: before ?? t("history.own") });
  const fate = fateOf(row);
  const dated = row.act.day && row.act.day !== today(new Date(row.at)) ? ` (${t("history.dated", { day: row.act.day })})` : "";
  const parts = [made("span", {}, words + dated)];
  if (fate === "refused") parts.push(" ", made("strong", { class: "fate wrong" }, t("history.refused", { meaning: meaningOf(row, all()) })));
  else if (fate !== "done") parts.push(" ", made("strong", { class: "fate unknown" }, t(`history.${fate}`)));
  return made("span", {}, ...parts);
}

const cellsOf = (row) => [clockOf(row.at), visible(whoOf(row)), whatOf(row), visible(row.reason ?? "")];

/** A part of a view with the history of the thing that it is about. */
export class HistoryPart {
  #thing = null;
  #rows = [];
  #next = null;
  #asked = 0;

  /** @param {string} id */
  constructor(id) {
    this.about = paragraph(t("history.about"), "hint");
    this.outcome = made("div", { class: "outcome", role: "status" });
    this.place = made("div", { class: "rows" });
    this.more = made("button", { type: "button", class: "quiet" }, t("history.more"));
    const summary = made("summary", {}, made("h3", {}, t("history.title")));
    this.node = made("details", { id, class: "history inset" }, summary, this.about, this.outcome, this.place, this.more);
    this.node.hidden = true;
    this.more.hidden = true;
    // it may be about nothing by now: this comes later than the press
    this.node.addEventListener("toggle", () => this.node.open && this.#thing && !this.#rows.length && this.#read());
    this.more.addEventListener("click", () => this.#read());
  }

  /** The same, if it was about another thing. */
  keep(kind, name) {
    if (this.#thing?.kind !== kind || this.#thing.name !== name) this.tell(kind, name);
  }

  /** Is about another thing from now on, as `record` 8; with null about none. What is open is read anew. */
  tell(kind, name) {
    this.#thing = kind === null ? null : { kind, name };
    this.#rows = [];
    this.#next = null;
    this.#asked += 1;
    this.node.hidden = kind === null || !mayRead("history");
    this.more.hidden = true;
    this.place.replaceChildren();
    quiet(this.outcome);
    if (this.node.open && !this.node.hidden) this.#read();
  }

  async #read() {
    const mine = ++this.#asked;
    const { kind, name } = this.#thing;
    asking(this.outcome);
    const answer = await get(`history?${kind}=${name}${this.#next ? `&from=${this.#next}` : ""}`);
    if (mine !== this.#asked) return;
    const body = answer.status === 200 ? jsonOf(answer) : undefined;
    if (!Array.isArray(body?.rows)) {
      failed(this.outcome, answer);
      return;
    }
    quiet(this.outcome);
    this.#rows.push(...body.rows);
    this.#next = body.next;
    this.#draw(body.begins);
  }

  #draw(begins) {
    const thing = t(`history.things.${this.#thing.kind}`, this.#thing);
    const heads = ["at", "who", "what", "why"].map((name) => t(`history.columns.${name}`));
    const table = this.#rows.length ? tableOf(t("history.caption", { thing }), heads, this.#rows.map(cellsOf), "past") : paragraph(t("history.nothing"));
    const first = begins && !this.#next ? [paragraph(t("history.begins", { day: today(new Date(begins)) }), "hint")] : [];
    this.place.replaceChildren(table, ...first);
    this.more.hidden = !this.#next;
  }
}
