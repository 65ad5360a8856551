// The sentences on what the office itself does not record: an office with a gate has a journal, which does.

/** Each of them by its name among the texts, with the kinds of acts that it is about. */
const SENTENCES = {
  "fields.noReason": ["open-run"],
  "due.confirmAbout": ["confirm"],
  "marked.hold.unrecorded": ["hold-on"],
  "event.unrecorded": ["event"],
  "run.resumeUnrecorded": ["resume"],
  "holds.unrecorded": ["hold-on", "hold-off"],
  "holds.liftUnrecorded": ["lift-hold"],
  "file.sendAbout": ["add-record"],
  "plan.schedule.unrecorded": ["add-schedule"],
  "plan.class.unrecorded": ["add-class"],
  "plan.rule.unrecorded": ["set-class-schedule"],
  "plan.aggregation.unrecorded": ["add-aggregation"],
  "plan.close.unrecorded": ["close-aggregation"],
  "plan.reclassify.unrecorded": ["reclassify"],
  "plan.own.unrecorded": ["set-record-schedule"],
  "recordActs.review.unrecorded": ["review"],
  "recordActs.schedule.unrecorded": ["set-record-schedule"],
  "recordActs.class.unrecorded": ["reclassify"],
};
/** What is still true of these at an office with a journal stays before its sentence, by the name of that text. */
const BEFORE = { "due.confirmAbout": "page.noWithdrawal", "file.sendAbout": "page.addedDay", "import.sendAbout": "page.wrongRows" };

/**
 * The names of the texts that are others at an office with a journal, each with the names of those in its place.
 * @param {string[]} reasons the kinds of acts that need a reason there
 * @param {boolean} isRead whether this name may read histories
 * @returns {[string, string[]][]}
 */
export function journaled(reasons, isRead) {
  const all = { ...SENTENCES, "import.sendAbout": ["add-record"] };
  /** @type {[string, string[]][]} */
  const sentences = Object.entries(all).map(([name, kinds]) => {
    const last = kinds.every((kind) => reasons.includes(kind)) ? "page.journaledReason" : "page.journaled";
    return [name, name in BEFORE ? [BEFORE[name], last] : [last]];
  });
  sentences.push(["record.more", [isRead ? "page.inHistory" : "page.inJournal", "record.less"]]);
  return sentences;
}
