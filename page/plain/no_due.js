// Why a record has no due day: its schedule keeps it, or its retention period has not begun.

/** The reasons that there are, by the names of their texts. With any other trigger a period always begins. */
const REASONS = ["keep", "closed", "event"];

/** The reason that a schedule gives: by its action, else by its trigger. */
const reasonOf = ({ trigger, action }) => (action === "keep" ? action : trigger);

/**
 * The reasons why a record may have no due day: one alone where its schedule is known. The paths report neither trigger
 * nor action, so without the schedule all are left; but an event that is recorded is waited for no more.
 * @param {{ event: string | null }} record one without a due day
 * @param {{ trigger: string, action: string } | null} schedule that of the record, or null where it is not known
 * @returns {string[]}
 */
export function reasonsFor({ event }, schedule) {
  const possible = REASONS.filter((reason) => reason !== "event" || event === null);
  const said = schedule && reasonOf(schedule);
  return possible.includes(said) ? [said] : possible;
}
