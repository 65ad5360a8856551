// What is overdue on a day: records that were due so many days before it and are not confirmed.
import { isConfirmDays, isDay, today } from "../plain/forms.js";
import { OVERDUE } from "../plain/lists.js";
import { RecordList } from "./list.js";
import { Deciding } from "./list_deciding.js";

/** So many days a record has to be confirmed in, where nobody says another number. */
export const USUAL_DAYS = "30";

const list = new RecordList({
  ...OVERDUE,
  name: "overdue",
  asks: {
    day: { takes: isDay, wrong: "fields.dayWrong" },
    count: { takes: isConfirmDays, wrong: "overdue.countWrong" },
  },
  first: () => ({ day: today(), count: USUAL_DAYS }),
  path: ({ day, count }) => `overdue/${day}/${count}`,
  shown: () => deciding.shown(),
  marked: () => deciding.marked(),
});
const deciding = new Deciding(list);

export function start() {
  list.start();
  deciding.start();
}

export const show = (words) => list.show(words);
export const renew = () => list.renew();
export const left = () => list.left();
