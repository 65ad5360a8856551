// Fields and forms: what a field takes, what is wrong in one, and the ticks that a form asks for before anything is sent.
import { askTime } from "./ask.js";
import { bothDays } from "./clock.js";
import { addCalendar, doubtOf, normalise } from "./day_fields.js";
import { byId, made, paragraph, quiet } from "./page.js";
import { isCode, isDay, isNumber, isTarget, isText, today } from "./plain/forms.js";
import { PLAN_KINDS } from "./plain/plan_kinds.js";
import { codeWrong, dayWrong, numberWrong, textWrong } from "./plain/wrong.js";
import { putNumbers } from "./refs.js";
import { signedBy } from "./rights.js";
import { all, t } from "./texts.js";

/**
 * The kinds of fields: the text of the label, the hint or none, what is said of a wrong value, which values are right, and
 * whether it begins as today.
 */
const KINDS = {
  day: { label: "fields.day", hint: "fields.dayHint", wrong: "fields.dayWrong", takes: isDay, mode: "numeric", isToday: true },
  listDay: { label: "fields.listDay", hint: "fields.dayHint", wrong: "fields.dayWrong", takes: isDay, mode: "numeric", isToday: true },
  occurred: { label: "fields.occurred", hint: "fields.occurredHint", wrong: "fields.dayWrong", takes: isDay, mode: "numeric" },
  code: { label: "fields.code", hint: "fields.codeHint", wrong: "fields.codeWrong", takes: isCode },
  by: { label: "fields.by", hint: "fields.byHint", wrong: "fields.textWrong", takes: isText },
  reason: { label: "fields.reason", hint: "fields.reasonHint", wrong: "fields.textWrong", takes: isText },
  why: { label: "fields.why", hint: "fields.whyHint", wrong: "fields.whyWrong", takes: isText },
  record: { label: "fields.record", wrong: "fields.numberWrong", takes: isNumber, mode: "numeric" },
  certificate: { label: "fields.certificate", wrong: "fields.numberWrong", takes: isNumber, mode: "numeric" },
  run: { label: "fields.run", wrong: "fields.numberWrong", takes: isNumber, mode: "numeric" },
  target: { label: "fields.target", hint: "fields.targetHint", takes: isText },
  allPrefix: { label: "file.common.prefix", hint: "file.common.prefixHint", takes: isText },
  allTitle: { label: "file.common.title", hint: "file.common.titleHint", takes: isText },
  allOriginated: { label: "file.common.originated", hint: "file.common.originatedHint", takes: isDay, mode: "numeric" },
  allAggregation: {
    label: "file.common.aggregation", hint: "file.common.aggregationHint", takes: isNumber, mode: "numeric",
  },
  allClass: { label: "file.common.class", hint: "file.common.classHint", takes: isCode },
  allPlace: { label: "file.common.place", hint: "file.common.placeHint", wrong: "fields.textWrong", takes: isText },
  allSchedule: { label: "file.common.schedule", hint: "file.common.scheduleHint", takes: isCode },
  ...PLAN_KINDS,
};

/** Whether a day is written into a field. */
const isOfDay = ({ takes, isToday }) => takes === isDay || Boolean(isToday);

/** What a field is written into, or chosen from. */
function inputOf(id, kind) {
  const told = { id, "aria-describedby": `${id}-hint ${id}-wrong` };
  const option = (value) => made("option", { value }, t(`${kind.words}.${value}`));
  if (kind.choices) return made("select", told, ...kind.choices.map(option));
  const input = made("input", { ...told, type: "text", autocomplete: "off", spellcheck: "false", autocapitalize: "off" });
  if (kind.mode) input.inputMode = kind.mode;
  return input;
}

/** Builds the field that `<div data-field="KIND" id="ID">` names: a label, a hint, an input and room for what is wrong. */
export function field(place) {
  const { id, dataset } = place;
  const kind = KINDS[dataset.field];
  place.removeAttribute("id");
  place.className = "field";
  const input = inputOf(id, kind);
  if (kind.isToday) input.dataset.today = input.value = today();
  if (dataset.field === "by" && signedBy()) {
    input.value = signedBy();
    input.readOnly = true;
  }
  place.append(
    made("label", { for: id }, t(kind.label)),
    input,
    made("span", { class: "hint", id: `${id}-hint` }, kind.hint ? t(kind.hint) : ""),
    made("strong", { class: "wrong", id: `${id}-wrong` }),
  );
  if (isOfDay(kind)) addCalendar(input);
  if (dataset.field === "day") watchDay(place, input);
}

// ---- a day of an act that is later than today

/** Room below the day of an act for what a late day means. It is live, so that a screen reader reports what appears there. */
function watchDay(place, input) {
  place.append(made("div", { class: "late", id: `${input.id}-late`, role: "status" }));
  input.addEventListener("input", () => {
    askLate(input);
    tellDay(input);
  });
  tellDay(input);
}

/** Says below the day of an act that it is today; below another one, how a day is written. */
function tellDay(input) {
  const isToday = input.value.trim() === today();
  const weekday = new Date().toLocaleDateString(all().lang, { weekday: "long" });
  input.closest("[data-field]").querySelector(".hint").textContent = isToday ? t("fields.dayToday", { weekday }) : t("fields.dayHint");
}

/** What a late day means, and the tick that is asked for it. */
function lateWarning(id, day) {
  const box = made("input", { type: "checkbox", id: `${id}-sure`, "aria-describedby": `${id}-sure-wrong` });
  const label = made("label", { for: box.id }, t("fields.lateSure", { day }));
  const sure = made("div", { class: "sure" }, box, label, made("strong", { class: "wrong", id: `${box.id}-wrong` }));
  const { here, first } = bothDays();
  const clock = t(first === here ? "fields.clocks.here" : "fields.clocks.there");
  return [paragraph(t("fields.late", { day, today: first, clock })), sure];
}

/** Asks for a tick if the day of this field is later than today by either clock. A tick is for one day alone. */
function askLate(input) {
  const place = byId(`${input.id}-late`);
  const day = input.value.trim();
  const late = isDay(day) && day > bothDays().first ? day : "";
  if (late === (place.dataset.day ?? "")) return;
  place.dataset.day = late;
  place.replaceChildren(...(late ? lateWarning(input.id, late) : []));
}

const daysIn = (part) => part.querySelectorAll("[data-field=day] > input:not(.calendar)");

/** Asks for a tick at each day of an act that is late by now, as once the server's clock is known. */
export function askAllLate() {
  for (const input of daysIn(document)) askLate(input);
}

/** Lets the days that nobody wrote be today again, on a page that stays open over midnight. */
export function renewDays() {
  for (const input of daysIn(document)) {
    if (input.value === input.dataset.today) input.dataset.today = input.value = today();
    tellDay(input);
  }
  askAllLate();
}

/** Takes the ticks of a form away, once they were used: each act asks for its own. */
export function untick(form) {
  for (const box of form.querySelectorAll("input[type=checkbox]")) box.checked = false;
}

/** Takes the ticks of a form away once somebody writes into this field: they are for what was written in it. */
export function untickWith(input) {
  // a number that the page puts in the place of a ref is the same thing
  input.addEventListener("input", ({ isTrusted }) => isTrusted && untick(input.form));
}

// ---- what is wrong in a form

/** Says at a field what is wrong with it, or that nothing is. */
export function mark(input, wrong) {
  byId(`${input.id}-wrong`).textContent = wrong;
  if (wrong) input.setAttribute("aria-invalid", "true");
  else input.removeAttribute("aria-invalid");
}

/** Empties a field, and says of it no more that it is wrong. */
export function clear(input) {
  if (!input.readOnly) input.value = "";
  mark(input, "");
}

const kindOf = (input) => KINDS[input.closest("[data-field]").dataset.field];

/** What says more of a wrong value than that it is wrong, by the text that says no more. */
const DETAILED = { codeWrong, textWrong, numberWrong, dayWrong };

/** What is wrong with a value, in words: what the text of this name says, or more. */
function wordsOfWrong(key, value) {
  const detailed = DETAILED[key.replace("fields.", "")];
  return detailed ? t(...detailed(value)) : t(key);
}

function wrongOf(input) {
  if (input.type === "checkbox") return input.checked ? "" : t("fields.sureWrong");
  if (input.type === "file") return input.files.length ? "" : t("fields.fileWrong");
  const kind = input.closest("form").querySelector("select");
  const { field: name, optional: may } = input.closest("[data-field]").dataset;
  if (may !== undefined && input.value === "") return "";
  if (name === "target") {
    const wrongOfKind = kind.value === "class" ? "fields.codeWrong" : "fields.numberWrong";
    return isTarget(kind.value, input.value) ? "" : wordsOfWrong(wrongOfKind, input.value);
  }
  const { takes, wrong, optional } = kindOf(input);
  if ((optional && input.value === "") || takes(input.value, input.form)) return "";
  return (takes === isDay && doubtOf(input.value)) || wordsOfWrong(wrong, input.value);
}

/** The values of a form's fields by their ids, or null where one is wrong: that is said, and the first such has the focus. */
function valuesOf(form) {
  for (const input of form.querySelectorAll("input[type=text]")) {
    input.value = input.value.trim();
    if (input.parentElement.matches("[data-field]") && isOfDay(kindOf(input))) normalise(input);
  }
  // a day may have been written without an event, as by a script
  for (const input of daysIn(form)) askLate(input);
  const inputs = [...form.querySelectorAll("input:not(.calendar)")];
  for (const input of inputs) mark(input, wrongOf(input));
  const first = inputs.find((input) => input.hasAttribute("aria-invalid"));
  first?.focus();
  if (first) return null;
  if (form.querySelector("[data-field=by]")) shareBy(form.querySelector("[data-field=by] input").value);
  const chosen = form.querySelectorAll("[data-field] > select");
  return Object.fromEntries([...inputs, ...chosen].map((input) => [input.id, input.value]));
}

/** Who acts is asked once for as long as the page is open: the other forms get the name too, where they have none yet. */
function shareBy(name) {
  for (const input of document.querySelectorAll("[data-field=by] input")) if (input.value === "") input.value = name;
}

/** Takes the answer that something is wrong away once somebody writes anew: it is of what was written before. */
function forgetWrong(form) {
  const place = document.getElementById(`${form.id}-outcome`);
  if (!form.dataset.busy && place?.classList.contains("wrong")) quiet(place);
}

/**
 * Does something with a form's values once they are right. A form that is at work is not sent a second time. What `taken`
 * returns when the button is pressed, such as what is marked then, comes with the values: the server's clock is asked for
 * in between, and what is marked meanwhile was not meant.
 * @param {HTMLFormElement} form
 * @param {function(Object<string, string>, any): any} work
 * @param {function(): any} [taken]
 */
export function onSubmit(form, work, taken) {
  form.noValidate = true;
  form.addEventListener("input", () => forgetWrong(form));
  form.addEventListener("submit", async (event) => {
    event.preventDefault();
    if (form.dataset.busy) return;
    const there = taken?.();
    form.dataset.busy = "yes";
    form.setAttribute("aria-busy", "true");
    try {
      await putNumbers(form);
      let values = valuesOf(form);
      if (values && daysIn(form).length) {
        // either clock may have been set since the last answer
        await askTime();
        values = valuesOf(form);
      }
      if (values) await work(values, there);
    } finally {
      delete form.dataset.busy;
      form.removeAttribute("aria-busy");
    }
  });
}

/**
 * Opens what the form of a view names by its number: by the address, or at once if the address is that one already.
 * @param {string} name
 * @param {function(string): any} open
 */
export function onNumber(name, open) {
  const form = /** @type {HTMLFormElement} */ (byId(`${name}-form`));
  onSubmit(form, (values) => {
    const number = values[`${name}-number`];
    const address = `#${name}?number=${number}`;
    if (location.hash === address) return open(number);
    location.hash = address;
  });
}
