// What is said if this browser's clock and the server's differ by more than a day, on each view that sends a day.
import { bothDays, onHeard } from "./clock.js";
import { askAllLate } from "./fields.js";
import { byId, paragraph, quiet, say } from "./page.js";
import { t } from "./texts.js";

/** Says that one of the clocks is wrong if the view that is shown sends a day. What is said already is not said again. */
export function tellClocks() {
  const place = byId("clocks");
  const { here, there, isDoubtful } = bothDays();
  const isSending = document.querySelector("section:not([hidden]) [data-field=day]") !== null;
  const words = isDoubtful && isSending ? t("fields.clocks.differ", { here, there }) : "";
  if (words === place.textContent) return;
  if (words) say(place, "wrong", paragraph(words));
  else quiet(place);
}

/** Has it said once an answer tells what the server's clock says, with the ticks that are asked for then. */
export function start() {
  onHeard(() => {
    askAllLate();
    tellClocks();
  });
}
