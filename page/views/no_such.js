// Which of the things that a form names does not exist, once the office has refused it because one of them does not.
import { aboutIt, isThere, numbered, part, refresh } from "../catalogue.js";
import { mark } from "../fields.js";
import { partOf } from "../offers.js";
import { isNumber } from "../plain/forms.js";
import { t } from "../texts.js";

/** The refusal that says that something does not exist. */
const NO_SUCH = 5;

/** The codes of a part of the catalogue, with those that were added since. */
const codesOf = async (name) => ((await part(name)) ?? []).map(({ code }) => code);

/** Whether the thing is there, and a code that is there and differs in capitals alone. */
async function lookFor(name, text) {
  if (["records", "aggregations"].includes(name)) return { isHere: !isNumber(text) || Boolean(await numbered(name, Number(text))) };
  if (!["schedules", "classes", "holds"].includes(name)) return { isHere: true };
  const codes = await codesOf(name);
  const other = codes.find((code) => code.toLowerCase() === text.toLowerCase());
  return { isHere: codes.includes(text), other };
}

/** Says at each field of a form that names what the catalogue does not have that it is not there. */
export async function markMissing(form, refusal) {
  if (refusal !== NO_SUCH || !isThere() || (await refresh()) === null) return;
  const moment = aboutIt().moment.slice(0, 16).replace("T", " ");
  for (const input of form.querySelectorAll("[data-field] > input[type=text]")) {
    const text = input.value.trim();
    const name = text ? partOf(input) : "";
    const { isHere, other } = name ? await lookFor(name, text) : { isHere: true };
    if (!isHere) mark(input, other ? t("fields.otherThere", { text, other }) : t("fields.notThere", { text, moment }));
  }
}
