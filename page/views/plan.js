// The filing plan: schedules, classes and aggregations, and what classes, aggregations and records get of them later.
import { isFound, part } from "../catalogue.js";
import { clear, mark, untick, untickWith } from "../fields.js";
import { byId, made, sentence } from "../page.js";
import { dueDay, LONGEST } from "../plain/days.js";
import { isDay, isNumber, today } from "../plain/forms.js";
import { hasBirthday } from "../plain/persons.js";
import { t } from "../texts.js";
import { begin, stepOf } from "./act_form.js";
import { showLaws } from "./laws.js";
import * as forecast from "./plan_forecast.js";

/** Makes the forecast anew: an act that is done may change what it goes by. */
const renewRule = () => forecast.renew("rule");

/** Writes the code of something new into the fields for it that are empty: it was added to be used. */
function carry(code, fields) {
  for (const input of fields.map(byId)) {
    if (input.value !== "") continue;
    input.value = code;
    mark(input, "");
  }
}

function carrySchedule({ code }, fate) {
  if (fate === "done") carry(code, ["plan-class-schedule", "plan-rule-schedule"]);
  return renewRule();
}

function carryClass({ code }, fate) {
  if (fate === "done") carry(code, ["plan-aggregation-class"]);
  return renewRule();
}

/** The forms, by the heading that they are below. */
const FORMS = {
  schedules: [
    {
      id: "plan-schedule",
      kind: "add-schedule",
      words: "plan.schedule",
      fields: {
        code: "scheduleCode",
        trigger: "trigger",
        count: "count",
        unit: "unit",
        offset: "offset",
        action: "action",
        example: "example",
        day: "day",
      },
      act: ({ example, ...members }) => ({ act: "add-schedule", ...members, count: Number(members.count) }),
      clears: ["code"],
      after: carrySchedule,
    },
  ],
  classes: [
    {
      id: "plan-class",
      kind: "add-class",
      words: "plan.class",
      fields: { code: "classCode", title: "title", schedule: "schedule", day: "day" },
      act: (members) => ({ act: "add-class", ...members }),
      clears: ["code", "title"],
      after: carryClass,
    },
    {
      id: "plan-rule",
      kind: "set-class-schedule",
      words: "plan.rule",
      fields: { class: "class", schedule: "schedule", day: "day" },
      act: (members) => ({ act: "set-class-schedule", ...members }),
      before: forecast.ofRule,
      after: renewRule,
    },
  ],
  aggregations: [
    {
      id: "plan-aggregation",
      kind: "add-aggregation",
      words: "plan.aggregation",
      fields: { ref: "ref", title: "title", parent: "parent", class: "maybeClass", day: "day" },
      advice: "fields.persons",
      act: (members) => ({ act: "add-aggregation", ...members, parent: members.parent && Number(members.parent) }),
      clears: ["ref", "title"],
    },
    {
      id: "plan-close",
      kind: "close-aggregation",
      words: "plan.close",
      fields: { aggregation: "aggregation", day: "day" },
      act: ({ day, aggregation }) => ({ act: "close-aggregation", day, aggregation: Number(aggregation) }),
      sure: "plan.close.sure",
      before: forecast.ofClosing,
      after: forecast.closed,
    },
  ],
  changes: [
    {
      id: "plan-reclassify",
      kind: "reclassify",
      words: "plan.reclassify",
      fields: { kind: "classified", number: "number", class: "ownClass", day: "day" },
      act: (it) => ({ act: "reclassify", day: it.day, target: `${it.kind}:${it.number}`, class: it.class }),
    },
    {
      id: "plan-own",
      kind: "set-record-schedule",
      words: "plan.own",
      fields: { record: "record", schedule: "ownSchedule", day: "day" },
      act: ({ day, record, schedule }) => ({ act: "set-record-schedule", day, record: Number(record), schedule }),
    },
  ],
};

// ---- the due day of an example, by the same rule as the office's

const valueOf = (name) => byId(`plan-schedule-${name}`).value.trim();

/** A day that is not broken over two lines. */
const dayOf = (text) => made("time", { datetime: text }, text);

/** What the example says of the rule that is written, or what is still wanting. */
function exampleWords() {
  const names = ["trigger", "unit", "count", "offset", "action", "example"];
  const [trigger, unit, count, offset, action, start] = names.map(valueOf);
  if (action === "keep") return [t("plan.example.keep")];
  if (!/^[0-9]{1,9}$/.test(count) || Number(count) > LONGEST[unit]) return [t("plan.example.noCount")];
  if (!isDay(start)) return [t("fields.dayWrong")];
  const rule = { unit, count: Number(count), offset };
  const due = dueDay(start, rule);
  const said = sentence(`plan.example.${trigger}`, { start: dayOf(start), due: dayOf(due) });
  said.push(" ", t(`plan.then.${action}`));
  const isMoved = due !== dueDay(start, { ...rule, offset: "none" });
  return offset === "none" || isMoved ? said : [...said, " ", t("plan.example.stays")];
}

const tellExample = () => byId("plan-example").replaceChildren(made("p", {}, ...exampleWords()));

/** The example is told anew with each letter. */
function addExample() {
  const place = byId("plan-schedule-example").closest(".field");
  place.after(made("div", { id: "plan-example", class: "example", role: "status" }));
  for (const kind of ["input", "change"]) byId("plan-schedule").addEventListener(kind, tellExample);
  tellExample();
}

/** Says below the title of an aggregation that it seems to have a date of birth. */
function watchTitle() {
  const input = byId("plan-aggregation-title");
  const place = made("span", { class: "fate unknown", id: "plan-aggregation-title-look", role: "status" });
  input.after(place);
  byId("plan-aggregation").addEventListener("input", () => {
    const look = t("import.lookAt", { what: `${t("plan.fields.title")}: ${t("import.look.birthday")}` });
    place.textContent = hasBirthday(input.value, today()) ? look : "";
  });
}

export function start() {
  for (const [name, forms] of Object.entries(FORMS)) {
    const steps = made("div", { class: `steps ${name}` }, ...forms.map(stepOf));
    byId("plan-forms").append(made("h2", {}, t(`plan.${name}`)), steps);
    forms.forEach(begin);
    if (name === "classes") byId("plan-forms").append(made("div", { id: "plan-laws" }));
  }
  addExample();
  untickWith(byId("plan-close-aggregation"));
  watchTitle();
  forecast.start();
}

/** Shows the law behind the rule of each class that the catalogue has. */
const tellLaws = async () => showLaws(byId("plan-laws"), ((await part("classes")) ?? []).map(({ code, schedule }) => ({ class: code, schedule })));

/** Shows the forms; the one that closes an aggregation has the number that the address names. */
export function show(words) {
  isFound().then(tellLaws);
  const number = words.get("close");
  if (number === null || !isNumber(number)) return;
  const input = byId("plan-close-aggregation");
  clear(input);
  input.value = number;
  // a tick is for what was shown when it was made
  untick(byId("plan-close"));
  byId("plan-close").scrollIntoView({ block: "center" });
  return forecast.renew("close");
}
