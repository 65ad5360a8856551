// Titles of the catalogue beside refs: whether they are shown, which is one choice for all views, and what they are.
import { isFound, isThere, part } from "../catalogue.js";
import { made } from "../page.js";
import { rowOf } from "../plain/catalogue.js";
import { t } from "../texts.js";

let isOn = true;
const switches = [];

/** The titles by record: a function of a record's number, or null where no titles are shown. */
export async function titleOf() {
  if (!(await isFound()) || !isOn) return null;
  const rows = await part("records");
  return rows && ((record) => rowOf(rows, record)?.[2] ?? null);
}

/** What titles there are, whether they are shown or not. */
export async function anyTitleOf() {
  const rows = isThere() ? await part("records") : null;
  return (record) => rowOf(rows ?? [], record)?.[2] ?? null;
}

/** A switch for titles, which is hidden where there is no catalogue; `changed` is called once it was pressed, on any view. */
export function titleSwitch(id, changed) {
  const box = made("input", { type: "checkbox", id });
  const node = made("div", { class: "titles-switch" }, box, made("label", { for: id }, t("titles.show")));
  box.addEventListener("change", () => {
    isOn = box.checked;
    for (const it of switches) it.changed();
  });
  const renew = () => {
    node.hidden = !isThere();
    box.checked = isOn;
  };
  switches.push({ changed: () => {
    renew();
    changed();
  } });
  renew();
  return { node, renew };
}
