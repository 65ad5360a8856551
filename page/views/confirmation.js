// The confirmation of what is marked in a list: one request, and what came of each of its acts.
import { untick } from "../fields.js";
import { asking, details, failed, link, made, paragraph, quiet, say, tableOf, told } from "../page.js";
import { MOST_BYTES, bodyOf, bytesOf, confirm, fitting } from "../plain/acts.js";
import { CONFIRMED_FOR } from "../plain/lists.js";
import { fatesOf, jsonOf } from "../plain/outcomes.js";
import { forgetReason, senderOf } from "../reasons.js";
import { all, t } from "../texts.js";
import { isAsShown } from "./changes.js";

/** Says that more is marked than one request takes, and offers to keep what fits. */
function tellTooLong(list, acts, body) {
  const fit = fitting(acts);
  const keep = made("button", { type: "button", class: "quiet" }, t("due.keep", { fit }));
  const place = list.part("panel-outcome");
  keep.addEventListener("click", () => {
    list.markOnly(acts.slice(0, fit).map((act) => act.record));
    quiet(place);
    list.part("submit").focus();
  });
  say(place, "wrong", paragraph(t("due.tooLong", { bytes: bytesOf(body), most: MOST_BYTES, fit })), keep);
}

/** The records that were refused, by refusal, each in the office's own words. */
function refusalsTable(refused, acts) {
  const { said, meaning, do: what, records } = all().due.refusalColumns;
  const linkTo = ({ record }) => [link(`#record?number=${record}`, record), " "];
  const links = (places) => made("span", { class: "links" }, ...places.flatMap((at) => linkTo(acts[at])));
  const rows = [...refused].map(([number, places]) => {
    const row = all().refusals[number] ?? { name: "", meaning: "", do: "" };
    const name = `${t("said.refusal", { number, name: row.name })}: ${row.meaning}`;
    return [made("code", {}, JSON.stringify({ refused: number })), name, row.do, links(places)];
  });
  return tableOf(t("due.refusals"), [said, meaning, what, records], rows, "refusals");
}

function tellFate(place, answer, acts) {
  const { answers, refused, end } = fatesOf(answer, acts.length);
  const count = acts.length;
  const refusals = [...refused.values()].flat().length;
  const done = answers.length - refusals;
  const table = refused.size ? [refusalsTable(refused, acts)] : [];
  const counts = { done, count, refused: refusals };
  if (end === "answered" && !refused.size) return say(place, "done", paragraph(t("due.done", counts)), ...told(answer));
  if (end === "answered") {
    return say(place, "wrong", paragraph(t("due.partly", counts)), ...table, details(answer));
  }
  if (end === "undone") return failed(place, answer);
  const stopped = jsonOf(answer)?.fault && acts[answers.length];
  const words = stopped ? t("due.stopped", { done: answers.length, count, record: stopped.record }) : t("due.lost");
  say(place, "unknown", ...told(answer), paragraph(words), ...table);
}

/** What was shown of rows that are confirmed, as a text: once one differs, the same acts are another request. */
const seenOf = (rows) => JSON.stringify(rows.map((row) => CONFIRMED_FOR.map((name) => row[name])));

/**
 * Confirms rows of a list, those that were marked when the button was pressed and are none to review, in one request, if all of them are as they
 * are shown; says what came of it, and has the list read anew.
 */
export async function confirmMarked(list, values, marked) {
  const place = list.part("panel-outcome");
  const [day, by] = ["confirm-day", "confirm-by"].map((name) => values[list.part(name).id]);
  const acts = marked.map((row) => confirm(row, day, by));
  if (!acts.length) return say(place, "wrong", paragraph(t("due.nothingMarked")));
  const body = bodyOf(acts);
  if (bytesOf(body) > MOST_BYTES) return tellTooLong(list, acts, body);
  asking(place);
  if (!(await isAsShown(list, marked))) return;
  asking(place, t("due.wait", { count: acts.length }));
  const form = list.part("confirm");
  const answer = await senderOf(form, seenOf(marked))(acts);
  const { refused, end } = fatesOf(answer, acts.length);
  if (end !== "undone" && !refused.size) untick(form);
  if (end === "answered" && !refused.size) forgetReason(form);
  quiet(place);
  tellFate(list.part("answer"), answer, acts);
  list.part("answer").focus();
  if (end === "undone") return;
  if (!(await list.open(list.question))) list.part("answer").append(paragraph(t("due.stale")));
}
