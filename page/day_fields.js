// Fields for a day: they take a day as people write it and show it as 2017-06-30, and a calendar opens to choose one from.
import { made } from "./page.js";
import { daysIn } from "./plain/day_text.js";
import { isDay } from "./plain/forms.js";
import { t } from "./texts.js";

/** Writes a day into a field, as somebody who writes it does. */
function write(input, day) {
  input.value = day;
  input.dispatchEvent(new InputEvent("input", { bubbles: true }));
  input.dispatchEvent(new Event("change", { bubbles: true }));
}

/** Shows the one day that a text means, as 2017-06-30. */
export function normalise(input) {
  const days = daysIn(input.value.trim());
  if (days.length === 1 && days[0] !== input.value) write(input, days[0]);
}

/** What is wrong with the text of a day that may be read in two ways, or nothing. */
export function doubtOf(text) {
  const days = daysIn(text);
  return days.length > 1 ? t("fields.dayDoubtful", { one: days[0], other: days[1] }) : "";
}

/** Opens the browser's calendar at the day that is written. */
function open(input, calendar) {
  calendar.value = isDay(input.value) ? input.value : "";
  calendar.showPicker?.();
}

/** Gives a field for a day its calendar. Who writes needs none, so it is no stop of the keyboard: Alt and the down arrow open it. */
export function addCalendar(input) {
  const hidden = { tabindex: "-1", "aria-hidden": "true" };
  const calendar = made("input", { type: "date", class: "calendar", "aria-label": t("fields.calendar"), ...hidden });
  const mark = made("span", { class: "pick", title: t("fields.calendar"), "aria-hidden": "true" }, calendar);
  input.after(mark);
  mark.addEventListener("click", () => open(input, calendar));
  calendar.addEventListener("change", () => calendar.value && write(input, calendar.value));
  input.addEventListener("change", () => normalise(input));
  input.addEventListener("keydown", (event) => {
    if (!event.altKey || event.key !== "ArrowDown") return;
    event.preventDefault();
    open(input, calendar);
  });
}
