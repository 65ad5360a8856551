// What a deed would do with what is marked, before anything is sent: how many, which, and what is left out.
import { grouped, made, paragraph, plural } from "../page.js";
import { visible } from "../plain/marks.js";
import { t } from "../texts.js";

/** So many are listed at first. */
const SOME = 100;

/** An item in words, as in each list of them. */
export function itemWords({ number, ref, title }) {
  return title ? t("marked.item", { number, ref: visible(ref), title: visible(title) }) : t("marked.itemUntitled", { number, ref: visible(ref) });
}

/** A list of these that scrolls, the first ones at once; a button shows all of them. */
function listOf(items) {
  const list = made("ul", { class: "marked-items", tabindex: "0", "aria-label": t("marked.list") });
  const add = (some) => list.append(...some.map((it) => made("li", {}, itemWords(it))));
  add(items.slice(0, SOME));
  if (items.length > SOME) {
    const all = made("button", { type: "button", class: "quiet" }, t("marked.listAll", { count: grouped(items.length) }));
    const last = made("li", {}, all);
    all.addEventListener("click", () => {
      last.remove();
      add(items.slice(SOME));
    });
    list.append(last);
  }
  return list;
}

/** What is left out, by why, each with its list behind a summary. */
function leftOut(left) {
  return [...left].map(([why, items]) =>
    made("details", { class: "left-out" }, made("summary", {}, plural(`marked.out.${why}`, items.length)), listOf(items)),
  );
}

/**
 * The preview of a deed.
 * @param {string} deed
 * @param {string} kind what it is done with
 * @param {import("../plain/marked_acts.js").Item[]} taken
 * @param {Map<string, import("../plain/marked_acts.js").Item[]>} left
 * @param {{ sums: string[], wrong: number[], before: number, most: number }} more what it adds up to, the lines of a pasted
 *   list that name no record, how many acts go before, and how many go in one request
 */
export function preview(deed, kind, taken, left, { sums, wrong, before, most }) {
  const acts = taken.length + before;
  const requests = Math.ceil(acts / most);
  const parts = [];
  if (before && taken.length) parts.push(t("marked.hold.placed"));
  if (requests > 1) parts.push(t("marked.requests", { requests: grouped(requests), acts: grouped(acts), most }));
  parts.push(...sums, plural(`marked.${deed}.what.${kind}`, taken.length));
  const words = made("p", { class: "marked-what" }, parts.join(" "));
  const lines = wrong.length ? [paragraph(t("marked.receipt.wrong", { lines: wrong.slice(0, 20).join(", ") }), "bad-lines")] : [];
  return [words, ...lines, ...(taken.length ? [listOf(taken)] : []), ...leftOut(left)];
}
