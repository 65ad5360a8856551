// Records that were filed wrongly: the schedule by which the wrong one is due at once, and a ref for the right one.

/** The code that docs/MANAGER.md gives that schedule. */
export const MISFILED = "MISFILED";

/** The act that adds it: what has it is due on the day on which it was filed. */
export const misfiledRule = (day, code) => ({
  act: "add-schedule", day, code, trigger: "added", unit: "days", count: 0, offset: "none", action: "destroy",
});

/** Whether by this schedule a record is due at once, to be destroyed. */
export const isForMistakes = ({ trigger, count, offset, action }) =>
  trigger === "added" && count === 0 && offset === "none" && action === "destroy";

/** The ref with the next number: `LET/5` is followed by `LET/5-2`, and that by `LET/5-3`. */
export function nextRef(ref) {
  const [, base, number] = /^(.*)-(\d{1,3})$/s.exec(ref) ?? [];
  return base && Number(number) > 1 ? `${base}-${Number(number) + 1}` : `${ref}-2`;
}
