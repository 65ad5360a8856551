// The targets of a hold: how many of each kind, and each with its ref and title, where the catalogue has them.
import { aggregations, part, records } from "../catalogue.js";
import { link, made, paragraph, plural, save } from "../page.js";
import { rowOf } from "../plain/catalogue.js";
import { csvOf } from "../plain/csv.js";
import { visible } from "../plain/marks.js";
import { t } from "../texts.js";

const KINDS = ["record", "aggregation", "class"];

const splitOf = (target) => {
  const at = target.indexOf(":");
  return { kind: target.slice(0, at), name: target.slice(at + 1) };
};

/** How many targets there are of each kind, in words, as `40 records, 1 class`. */
export function countWords(targets) {
  const counts = KINDS.map((kind) => [kind, targets.filter((it) => it.startsWith(`${kind}:`)).length]);
  const words = counts.filter(([, count]) => count).map(([kind, count]) => plural(`holds.count.${kind}`, count));
  return words.length ? words.join(", ") : t("holds.noTargets");
}

/**
 * The ref and the title of a target, by what the catalogue has: of a class its title alone.
 * @param {{ kind: string, name: string }} target
 * @param {{ records: object | null, aggregations: object | null, classes: object[] | null }} lists
 * @returns {[string, string]} both are empty where the catalogue does not have it
 */
function namesOf({ kind, name }, lists) {
  if (kind === "class") return ["", lists.classes?.find((it) => it.code === name)?.title ?? ""];
  const it = rowOf(lists[`${kind}s`]?.rows ?? [], Number(name));
  if (!it) return ["", ""];
  return kind === "record" ? [it[1], it[2]] : [it.ref, it.title];
}

const linkOf = ({ kind, name }) => {
  const words = t(`catalogue.targets.${kind}`, { name });
  if (kind === "record") return link(`#record?number=${name}`, words);
  return kind === "aggregation" ? link(`#catalogue?part=records&aggregation=${name}`, words) : words;
};

/** A target in words, with its ref where the catalogue has it, as `record 318, ITV/3/2021`. */
export async function wordsOfTarget(target) {
  const it = splitOf(target);
  const [ref] = namesOf(it, await listsFor([target]));
  const words = t(`catalogue.targets.${it.kind}`, it);
  return ref ? `${words}, ${visible(ref)}` : words;
}

/** The lists of the catalogue that name targets; those of other kinds than these targets have are not read. */
async function listsFor(targets) {
  const has = (kind) => targets.some((it) => it.startsWith(`${kind}:`));
  return {
    records: has("record") ? await records() : null,
    aggregations: has("aggregation") ? await aggregations() : null,
    classes: has("class") ? await part("classes") : null,
  };
}

/** A list of targets, each on a line of its own; of very many they are in a box that scrolls, and are whole on paper. */
export async function targetsList(targets) {
  const lists = await listsFor(targets);
  const line = (target) => {
    const it = splitOf(target);
    const names = namesOf(it, lists).filter(Boolean).map(visible).join(" · ");
    return made("li", {}, linkOf(it), names ? ` · ${names}` : "");
  };
  return made("ul", { class: "targets" }, ...targets.map(line));
}

/** A button that saves the targets of a hold as CSV. */
export function saveButton({ code, targets }) {
  const button = made("button", { type: "button", class: "quiet small" }, t("holds.save"));
  button.addEventListener("click", async () => {
    const lists = await listsFor(targets);
    const rows = targets.map(splitOf).map((it) => [it.kind, it.name, ...namesOf(it, lists)]);
    save(t("holds.file", { hold: code }), csvOf(["kind", "target", "ref", "title"], rows, t("csv.separator")), "text/csv");
  });
  return button;
}

/** How many targets a hold has, over the list of them. */
export const countLine = (targets) => paragraph(countWords(targets), "count-line");
