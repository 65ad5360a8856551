// The kinds of fields that the filing plan, a record and what is overdue have, as those of fields.js. One with `choices`
// is a list to choose from, whose words are the texts below `words`; one that is `optional` may be left empty.
import { LONGEST, OFFSETS, UNITS } from "./days.js";
import { isCode, isConfirmDays, isDay, isNumber, isText } from "./forms.js";

const TRIGGERS = ["origin", "added", "closed", "last-addition", "review", "event"];
const ACTIONS = ["destroy", "transfer", "review", "keep"];

/** Whether this is a count of the unit that the same form has. */
function isCount(text, form) {
  const unit = form.querySelector("[data-field=unit] > select").value;
  return /^[0-9]{1,9}$/.test(text) && Number(text) <= LONGEST[unit];
}

/** The digits of a SHA-256; capitals are made small before they are sent. */
const isDigest = (text) => /^[0-9a-f]{64}$/i.test(text);
const label = (name) => `plan.fields.${name}`;
const code = (name) => ({ label: label(name), hint: "fields.codeHint", wrong: "fields.codeWrong", takes: isCode });
const there = (name) => ({ ...code(name), hint: "plan.fields.codeHint" });
const maybe = (name, hint) => ({ ...code(name), hint: label(hint), optional: true });
const text = (name) => ({ label: label(name), hint: label(`${name}Hint`), wrong: "fields.textWrong", takes: isText });
const number = (name) => ({ label: label(name), wrong: "fields.numberWrong", takes: isNumber, mode: "numeric" });
const fact = (name) => ({ label: `record.facts.${name}`, wrong: "fields.textWrong", takes: isText });
const day = { hint: "fields.dayHint", wrong: "fields.dayWrong", takes: isDay, mode: "numeric" };
const choice = (name, choices, words) => ({ label: label(name), choices, words });
// what is written in one form alone: its hint says also what is wrong
const own = (name, takes) => ({ label: label(name), hint: label(`${name}Hint`), wrong: label(`${name}Hint`), takes });

export const PLAN_KINDS = {
  scheduleCode: code("scheduleCode"),
  classCode: code("classCode"),
  schedule: there("schedule"),
  class: there("class"),
  maybeClass: maybe("class", "maybeClassHint"),
  ownClass: maybe("ownClass", "ownClassHint"),
  ownSchedule: maybe("ownSchedule", "ownScheduleHint"),
  nextSchedule: maybe("nextSchedule", "nextScheduleHint"),
  newRef: { ...fact("ref"), hint: "misfiled.refHint" },
  newTitle: fact("title"),
  newOriginated: { label: "record.facts.originated", ...day },
  newAggregation: { ...number("aggregation"), hint: "misfiled.aggregationHint" },
  misfiledSchedule: { ...there("schedule"), label: "misfiled.schedule", hint: "misfiled.scheduleHint" },
  title: text("title"),
  ref: text("ref"),
  trigger: choice("trigger", TRIGGERS, "plan.triggers"),
  unit: choice("unit", [...UNITS].reverse(), "plan.units"),
  offset: choice("offset", OFFSETS, "plan.offsets"),
  action: choice("action", ACTIONS, "plan.actions"),
  count: { ...own("count", isCount), mode: "numeric" },
  // it is no part of an act: what is wrong with it is said where the example is
  example: { label: "plan.fields.example", hint: "fields.dayHint", takes: () => true, mode: "numeric", isToday: true },
  aggregation: number("aggregation"),
  parent: { ...number("parent"), hint: "plan.fields.parentHint", optional: true },
  classified: choice("classified", ["aggregation", "record"], "fields.kinds"),
  number: number("number"),
  overdueDay: { ...day, label: "overdue.day", isToday: true },
  confirmDays: {
    label: "overdue.count",
    hint: "overdue.countHint",
    wrong: "overdue.countWrong",
    takes: isConfirmDays,
    mode: "numeric",
  },
  digest: { ...own("digest", isDigest), wrong: label("digestWrong") },
};
