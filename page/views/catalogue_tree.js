// Aggregations as a tree: each opens to what is in it, which is put into the page only then.
import { grouped, made, paragraph } from "../page.js";
import { classOf } from "../plain/catalogue.js";
import { visible } from "../plain/marks.js";
import { t } from "../texts.js";
import { countsOf, recordsOf } from "./catalogue_tables.js";

/** So many are shown at a time. */
const SOME = 200;

/** What is said of an aggregation once it is open. */
function factsOf(tree, it) {
  const closed = it.closed === null ? t("catalogue.isOpen") : t("catalogue.isClosed", { day: it.closed });
  const count = it.here + it.sent + it.received + it.ended;
  const words = t("catalogue.node", { number: it.number, class: classOf(tree, it), closed });
  if (!count) return [paragraph(words, "hint"), paragraph(t("catalogue.noRecords"))];
  const records = recordsOf(it.number, t("catalogue.ownRecords", { count: grouped(count) }));
  return [paragraph(words, "hint"), made("p", {}, records, ` (${countsOf(it)})`)];
}

/** A box that marks an aggregation. */
function boxOf({ number }, marks) {
  const box = made("input", { type: "checkbox", id: `catalogue-node-${number}`, "data-number": number });
  box.checked = marks.has(number);
  box.addEventListener("change", () => marks.set(number, box.checked));
  return made("p", { class: "sure" }, box, made("label", { for: box.id }, t("marked.markAggregation", { number })));
}

function nodeOf(tree, it, marks) {
  const words = made("span", { class: "ref" }, visible(it.ref));
  const counts = made("span", { class: "counts" }, countsOf(tree.totals.get(it.number)));
  const details = made("details", {}, made("summary", {}, words, " ", visible(it.title), " ", counts));
  const fill = () => {
    details.removeEventListener("toggle", fill);
    const within = tree.within.get(it.number) ?? [];
    const list = within.length ? [listOf(tree, within, marks)] : [];
    details.append(made("div", { class: "node" }, ...factsOf(tree, it), boxOf(it, marks), ...list));
  };
  details.addEventListener("toggle", fill);
  return made("li", {}, details);
}

/** A list of aggregations, the first ones at once; a button shows more of them. */
function listOf(tree, them, marks) {
  const list = made("ul", { class: "tree" });
  const more = made("button", { type: "button", class: "quiet" }, t("catalogue.more"));
  const item = made("li", {}, more);
  let shown = 0;
  const add = () => {
    item.remove();
    const next = them.slice(shown, shown + SOME).map((it) => nodeOf(tree, it, marks));
    list.append(...next);
    shown += next.length;
    if (shown < them.length) list.append(item);
    return next[0];
  };
  more.addEventListener("click", () => add().querySelector("summary").focus());
  add();
  return list;
}

/** All aggregations, from the roots on; `marks` are those that are marked. */
export const treeList = (tree, marks) => listOf(tree, tree.roots, marks);
