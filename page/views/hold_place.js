// The form that places a hold, with what it covers at once: one array of acts.
import { clear, mark, onSubmit, untick } from "../fields.js";
import { asking, byId, failed, made, paragraph, say, told } from "../page.js";
import { placeHold } from "../plain/acts.js";
import { isTarget } from "../plain/forms.js";
import { actsOf } from "../plain/marked_acts.js";
import { requestsOf, sendRequests } from "../plain/many.js";
import { fatesOf } from "../plain/outcomes.js";
import { forgetReason, senderOf } from "../reasons.js";
import { putNumbers } from "../refs.js";
import { t } from "../texts.js";
import { sayAnswers } from "./marked_answers.js";

const FORM = "hold-place";

/** What the hold is to cover, as it was added: kinds with numbers or codes, and what was said of each. */
let targets = [];

const part = (name) => byId(`${FORM}-${name}`);

function showTargets() {
  const items = targets.map((it) => {
    const off = made("button", { type: "button", class: "quiet off", "aria-label": t("holds.untarget", it) }, t("file.off"));
    off.addEventListener("click", () => {
      targets = targets.filter((other) => other !== it);
      showTargets();
    });
    return made("li", {}, made("span", {}, it.words), off);
  });
  part("targets").replaceChildren(...items);
  part("targets").hidden = items.length === 0;
}

/** What is written in the field for a target, or null. */
function written() {
  const [kind, text] = [part("kind").value, part("target").value.trim()];
  return isTarget(kind, text) ? { kind, number: text, ref: text, words: t(`catalogue.targets.${kind}`, { name: text }) } : null;
}

const isSame = (one, other) => one.kind === other.kind && one.number === other.number;

/** Takes what is written into the list, with what the catalogue has of it. */
async function add() {
  await putNumbers(byId(FORM));
  const it = written();
  if (!it) return mark(part("target"), t(part("kind").value === "class" ? "fields.codeWrong" : "fields.numberWrong"));
  const named = document.getElementById(`${FORM}-target-named`)?.textContent;
  if (named) it.words = named;
  if (!targets.some((other) => isSame(other, it))) targets.push(it);
  clear(part("target"));
  const room = document.getElementById(`${FORM}-target-named`);
  if (room) room.textContent = "";
  showTargets();
  part("target").focus();
  return null;
}

/** Takes the ticks and the reason of what is done off the form, and its code into the others. */
function finish(code, carry) {
  untick(byId(FORM));
  forgetReason(byId(FORM));
  carry(code);
}

/** Places the hold alone, and says what came of it. */
async function placeAlone(values, place, carry) {
  const act = placeHold(...values);
  const answer = await senderOf(byId(FORM))([act]);
  const { answers, end } = fatesOf(answer, 1);
  if (end === "unknown") say(place, "unknown", ...told(answer), paragraph(t("holds.lostPlace")));
  else if (answers[0]?.done) say(place, "done", paragraph(t("holds.placed", { hold: act.code })), ...told(answer));
  else failed(place, answer);
  if (end === "answered" && answers[0].done) finish(act.code, carry);
}

/** Sends what has no answer yet of a hold with its targets, and says what came of it. */
async function send(requests, place, code, carry) {
  asking(place);
  const answer = await sendRequests(requests, senderOf(byId(FORM)), [4], () => true);
  const isWhole = sayAnswers(place, { deed: "hold", requests, answer, again: () => send(requests, place, code, carry) });
  if (!isWhole) return;
  targets = [];
  showTargets();
  finish(code, carry);
}

async function ask(values, carry) {
  const place = part("outcome");
  const own = written();
  const all = own && !targets.some((it) => isSame(it, own)) ? [...targets, own] : targets;
  const [day, code, reason, by] = ["day", "code", "reason", "by"].map((name) => values[`${FORM}-${name}`]);
  asking(place);
  if (!all.length) return placeAlone([day, code, reason, by], place, carry);
  const requests = requestsOf(actsOf("hold", all, { day, code, reason, by, isThere: false }));
  await send(requests, place, code, carry);
  return clear(part("target"));
}

/** Starts the form. `carry` writes the code of a hold that is there into the forms for one. */
export function start(carry) {
  const kinds = ["record", "aggregation", "class"].map((kind) => made("option", { value: kind }, t(`fields.kinds.${kind}`)));
  part("kind").append(...kinds);
  part("add").addEventListener("click", add);
  onSubmit(byId(FORM), (values) => ask(values, carry));
}
