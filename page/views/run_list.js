// The list of runs over the forms: the open one first, then the latest.
import { part, refresh } from "../catalogue.js";
import { byId, grouped, link, made, paragraph } from "../page.js";
import { t } from "../texts.js";
import { listOf } from "./catalogue_tables.js";

/** So many runs are shown; the catalogue has all. */
const MOST = 20;

let asked = 0;

/** Reads the runs anew and lists them; if this name gets none, nothing is listed. */
export async function renew() {
  const mine = ++asked;
  await refresh();
  const runs = await part("runs");
  if (mine !== asked) return;
  const place = byId("run-list");
  place.hidden = runs === null;
  if (!runs) return;
  const sorted = [...runs].sort((one, other) => Number(one.closed) - Number(other.closed) || other.number - one.number);
  const nodes = sorted.length ? [listOf("runs", sorted.slice(0, MOST), t("run.list"))] : [paragraph(t("run.noRuns"), "hint")];
  if (sorted.length > MOST) {
    nodes.push(paragraph(t("holds.moreInCatalogue", { most: grouped(MOST) }), "hint"), made("p", {}, link("#catalogue?part=runs", t("catalogue.title"))));
  }
  place.replaceChildren(...nodes);
}

/** Puts the place of the list before the forms. */
export function start() {
  const place = made("div", { id: "run-list" });
  place.hidden = true;
  document.querySelector("#run > .steps").before(place);
}
