// What is done with what is marked, on a small screen: one line that stays in sight, and opens by a press.
import { made } from "../page.js";
import { t } from "../texts.js";

/** The line of each panel, by the panel. */
const lines = new Map();

/** Opens or folds a panel on a small screen; on a larger one it is open in any case (marked.css). */
function toggle(panel, isOpen) {
  panel.classList.toggle("opened", isOpen);
  lines.get(panel).setAttribute("aria-expanded", String(isOpen));
}

/** Gives a panel its line. */
export function addLine(panel) {
  const line = made("button", { type: "button", class: "panel-line", "aria-expanded": "false", "aria-controls": panel.id });
  line.addEventListener("click", () => toggle(panel, !panel.classList.contains("opened")));
  lines.set(panel, line);
  panel.prepend(line);
}

/** Says in the line of a panel how many are marked, as people write it; with none it is folded, and the panel is where it begins. */
export function tellLine(panel, count) {
  lines.get(panel).textContent = t("marked.line", { count });
  if (count === "0") toggle(panel, false);
}
