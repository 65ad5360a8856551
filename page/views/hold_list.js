// The list of holds over the forms: those in force first, the latest first, and behind a summary those that were lifted.
import { part, refresh } from "../catalogue.js";
import { byId, grouped, link, made, paragraph, plural, tableOf } from "../page.js";
import { visible } from "../plain/marks.js";
import { t } from "../texts.js";
import { countWords } from "./targets.js";

/** So many holds are shown; the catalogue has all. */
const MOST = 100;

let asked = 0;

const latest = (one, other) => (one.placed === other.placed ? one.code.localeCompare(other.code) : other.placed.localeCompare(one.placed));

function tableFor(holds, caption, isPast) {
  const names = ["code", "reason", "placed", "by", ...(isPast ? ["lifted"] : []), "targets"];
  const cells = (it) => [
    link(`#holds?code=${it.code}`, it.code), visible(it.reason), it.placed, visible(it.by), ...(isPast ? [it.lifted] : []), countWords(it.targets),
  ];
  const table = tableOf(caption, names.map((name) => t(`catalogue.columns.${name}`)), holds.slice(0, MOST).map(cells), "found");
  return holds.length > MOST ? [table, paragraph(t("holds.moreInCatalogue", { most: grouped(MOST) }), "hint")] : [table];
}

/** Reads the holds anew and lists them; without a catalogue nothing is listed. */
export async function renew() {
  const mine = ++asked;
  await refresh();
  const holds = await part("holds");
  if (mine !== asked) return;
  const place = byId("hold-list");
  place.hidden = holds === null;
  if (!holds) return;
  const there = holds.filter(({ lifted }) => lifted === null).sort(latest);
  const past = holds.filter(({ lifted }) => lifted !== null).sort(latest);
  const words = t("holds.inForce", { count: grouped(there.length) });
  const nodes = there.length ? tableFor(there, words, false) : [paragraph(t("holds.none"))];
  const lifted = plural("holds.past", past.length);
  const more = past.length ? [made("details", { class: "listed" }, made("summary", {}, lifted), ...tableFor(past, lifted, true))] : [];
  place.replaceChildren(...nodes, ...more);
}

/** Puts the place of the list before the forms. */
export function start() {
  const place = made("div", { id: "hold-list" });
  place.hidden = true;
  document.querySelector("#holds > .steps").before(place);
}
