// What this name may do at this office, as the server that asked for it says: what is not its own to do is not offered.
import { forgetName, get } from "./ask.js";
import { byId, made, paragraph, quiet, say } from "./page.js";
import { jsonOf } from "./plain/outcomes.js";
import { journaled } from "./plain/journaled.js";
import { visible } from "./plain/marks.js";
import { KINDS, READS, forbidden, unread } from "./plain/rights.js";
import { replaceTexts, t } from "./texts.js";

/** Whether the server said that this name may only read. A server that says nothing lets the office decide. */
let isReader = false;
/** The text that a gate has the office record as `by`, or an empty one if anybody may write any. */
let signs = "";
/** The kinds of acts that need a reason at this office. */
let reasons = new Set();
/** What a gate said that this name may do and read, or null without one. */
let gated = null;

/** Asks once what this name may do. */
export async function load() {
  const answer = await get("rights");
  const rights = answer.status === 200 ? jsonOf(answer) : undefined;
  isReader = rights?.acts === false;
  signs = rights?.by ?? "";
  gated = rights?.may ? rights : null;
  document.body.classList.toggle("reader", isReader);
  reasons = new Set(rights?.reasons ?? []);
  const left = forbidden(rights);
  for (const kind of KINDS) document.body.classList.toggle(`no-${kind}`, left.has(kind));
  const closed = unread(rights);
  for (const thing of READS) document.body.classList.toggle(`unread-${thing}`, closed.has(thing));
}

/** The text that each act names as `by`, if a gate says so: then nobody writes another. */
export const signedBy = () => signs;

/** Whether one of these kinds of acts needs a reason. */
export const needsReason = (kinds) => kinds.some((kind) => reasons.has(kind));
/** Whether a gate stands before the office, which has a journal. */
export const isGated = () => gated !== null;

/** Whether this name may read such a thing at all: a gate says so, and without one there is no history. */
export const mayRead = (thing) => (gated ? thing in gated.reads : thing !== "history");

/** Whether this name may do acts of this kind for something at all. */
export const mayDo = (kind) => (gated ? kind in gated.may : !isReader);

/** Whether a name that a gate knows is limited to some classes in what it reads of such a thing. */
export const isLimited = (thing) => Array.isArray(gated?.reads[thing]);

/** Shows at the head of each view who is signed in, with the roles of that name, if a gate says so. */
export function tellName() {
  const place = byId("signed-in");
  place.hidden = !isGated();
  if (!isGated()) return;
  const { by, name, roles = [] } = gated;
  const words = { by: visible(by), roles: [...(by === name ? [] : [name]), ...roles.filter((it) => it !== name)].map(visible).join(", ") };
  const button = made("button", { type: "button", id: "sign-out", class: "quiet small" }, t("page.signOut"));
  button.addEventListener("click", signOut);
  place.replaceChildren(made("span", {}, t(words.roles ? "page.signedInAs" : "page.signedIn", words)), " ", button);
}

/** Signs out, and opens the page anew, which asks who signs in. */
async function signOut() {
  await forgetName();
  location.reload();
}

/** Has the page say what the journal of a gate records, in the place of what the office itself does not. */
export function tellJournal() {
  if (isGated()) replaceTexts(journaled(gated.reasons ?? [], mayRead("history")));
}

/** Whether the view that is seen has forms, and all of them are left out since the name has none of their rights. */
function isForOthers() {
  const forms = [...document.querySelectorAll("section:not([hidden]) :is(.step, .drop)")];
  return forms.length > 0 && forms.every((it) => getComputedStyle(it).display === "none");
}

/** Says why a view that acts shows no form. */
export function tellRights() {
  const place = byId("rights");
  const acts = document.querySelector("section:not([hidden]) :is([data-field=day], #run-resume)") !== null;
  if (isReader && acts) say(place, "unknown", paragraph(t("page.reader")));
  else if (isForOthers()) say(place, "unknown", paragraph(t("page.notYours")));
  else quiet(place);
}
