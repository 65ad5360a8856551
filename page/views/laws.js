// The laws behind the rules, if the catalogue has them: a table that is folded, in Due of the classes in its list, in Plan of all.
import { isFound, part } from "../catalogue.js";
import { made, paragraph, tableOf } from "../page.js";
import { today } from "../plain/forms.js";
import { lawOf, rulesIn } from "../plain/laws.js";
import { visible } from "../plain/marks.js";
import { all, t } from "../texts.js";

/** How often each place was filled: what comes late is for a list that is gone. */
const turns = new WeakMap();

/** The cells of a class: its law, or why there is none. */
function cellsOf(laws, rule, day) {
  const { entry, lack } = lawOf(laws, rule.class, rule.schedule, day);
  if (lack) return [rule.class, rule.schedule, "", t(`laws.lacks.${lack}`, { day, schedule: entry?.schedule ?? "" }), "", ""];
  const checked = entry.checked ? visible(entry.checked) : t("laws.nobody");
  return [rule.class, rule.schedule, visible(entry.section), visible(entry.why), entry.day, checked];
}

function nodesOf(laws, rules) {
  if (laws.some(({ damaged }) => damaged)) return [paragraph(t("laws.damaged"), "grave")];
  if (!laws.length || !rules.length) return [];
  const day = today();
  const columns = all().laws.columns;
  const words = ["class", "schedule", "law", "why", "day", "checked"].map((name) => columns[name]);
  const table = tableOf(t("laws.caption", { day }), words, rules.map((rule) => cellsOf(laws, rule, day)), "laws");
  return [made("details", { class: "listed" }, made("summary", {}, t("laws.title")), table)];
}

/**
 * Shows the laws of rows with a class and a schedule at a place, or nothing if the catalogue has no laws.
 * @param {Element} place
 * @param {{ class: string, schedule: string }[]} rows
 */
export async function showLaws(place, rows) {
  const turn = (turns.get(place) ?? 0) + 1;
  turns.set(place, turn);
  const laws = ((await isFound()) && (await part("mandates"))) || [];
  if (turns.get(place) === turn) place.replaceChildren(...nodesOf(laws, rulesIn(rows)));
}
