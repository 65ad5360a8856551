// What is due by a day: the list, and how many of its records are overdue.
import { field, mark } from "../fields.js";
import { made, translate } from "../page.js";
import { isConfirmDays, isDay, today } from "../plain/forms.js";
import { DUE, overdueAmong } from "../plain/lists.js";
import { t } from "../texts.js";
import { showLaws } from "./laws.js";
import { RecordList } from "./list.js";
import { Deciding } from "./list_deciding.js";
import { USUAL_DAYS } from "./overdue.js";

/** How many days a record has to be confirmed in, as the address or the field says. */
let days = USUAL_DAYS;

const list = new RecordList({
  ...DUE,
  name: "due",
  asks: { day: { takes: isDay, wrong: "fields.dayWrong" } },
  first: () => ({ day: today() }),
  path: ({ day }) => `due/${day}`,
  more: () => (days === USUAL_DAYS ? {} : { count: days }),
  readMore(words) {
    const count = words.get("count") ?? USUAL_DAYS;
    days = isConfirmDays(count) ? count : USUAL_DAYS;
    list.part("count").value = days;
  },
  shown() {
    tellOverdue();
    showLaws(list.part("laws"), list.rows);
    deciding.shown();
  },
  marked: () => deciding.marked(),
});
const deciding = new Deciding(list);

/** Says how many records of the list are overdue on its day, with a link to these. */
function tellOverdue() {
  if (!list.question) return;
  const { day } = list.question;
  const count = overdueAmong(list.rows, day, Number(days));
  const link = list.part("overdue");
  link.href = `#overdue?${new URLSearchParams({ day, count: days })}`;
  link.textContent = t("overdue.among", { count });
}

/** Takes another number of days, once it is one. */
function changeDays() {
  const input = list.part("count");
  const text = input.value.trim();
  const right = isConfirmDays(text);
  mark(input, right ? "" : t("overdue.countWrong"));
  if (!right || text === days) return;
  days = text;
  if (list.question) list.keepAddress();
  tellOverdue();
}

/** The field and the link are beside what is done with the rows. */
function addOverdue() {
  const place = list.part("more");
  place.append(
    made("div", { "data-field": "confirmDays", id: "due-count" }),
    made("p", { role: "status" }, made("a", { id: "due-overdue" })),
    made("div", { id: "due-laws" }),
  );
  field(place.firstChild);
  translate(place);
  list.part("count").value = days;
  list.part("count").addEventListener("input", changeDays);
}

export function start() {
  list.start();
  addOverdue();
  deciding.start();
}

export const show = (words) => list.show(words);
export const renew = () => list.renew();
export const left = () => list.left();
