// The files of a record: those in the vault, to save, to look at and to compare. Without a vault: that its content is the
// manifest of a file which is elsewhere.
import { get } from "../ask.js";
import { byId, details, factsOf, grouped, inBytes, made, paragraph, plural, save, say } from "../page.js";
import { kindOf, mayBeShown } from "../plain/content.js";
import { visible } from "../plain/marks.js";
import { isMissing } from "../plain/outcomes.js";
import { LEAST_BYTES, filesIn, nameOf } from "../plain/vault.js";
import { t } from "../texts.js";
import { addressOf, digestOfFile, fetchFile, filesOf } from "../vault.js";
import * as content from "./record_content.js";

/** A longer file the browser saves by itself, and a longer one is not looked at. */
const MOST_SAVED = 1 << 30;
const MOST_LOOKED = 64 << 20;
/** A longer content is not read for the files that it may name, if there is no vault to say so. */
const MOST_MANIFEST = 4096;

let subject = null;
/** Whether the office said that it has no vault: then it is not asked again. */
let hasNone = false;
/** Stops what is fetched for a record that is shown no more. */
let stop = new AbortController();

// ---- one file

/** Fetches a file and compares it with what was filed: null where it did not come or is another one, which is said. */
async function fetched(it, place) {
  const { signal } = stop;
  const told = (key) => (done) => say(place, "waiting", paragraph(t(`files.${key}`, { done: grouped(done), size: inBytes(it.length) })));
  told("fetching")(0);
  const { status, text, blob } = await fetchFile(subject.number, it.file, told("fetching"), signal);
  if (signal.aborted) return null;
  if (!blob) {
    const answer = { status, text, type: "application/json", bytes: new Uint8Array() };
    say(place, "wrong", paragraph(t(status === 404 ? "files.gone" : status === 503 ? "files.missing" : "files.broken")), details(answer));
    return null;
  }
  const digest = await digestOfFile(blob, told("comparing"), signal);
  if (signal.aborted) return null;
  if (digest === it.sha256) return blob;
  say(place, "wrong", paragraph(t(digest === null ? "files.broken" : "files.differs")));
  return null;
}

async function saveFile(it, place) {
  const blob = await fetched(it, place);
  if (!blob) return;
  const name = nameOf(it.place);
  save(name, blob, "application/octet-stream");
  say(place, "done", paragraph(t("files.saved", { name: visible(name), size: inBytes(blob.size) })));
}

async function lookAt(it, place, there) {
  if (it.length > MOST_LOOKED) return say(place, "unknown", paragraph(t("files.longToLook", { most: inBytes(MOST_LOOKED) })));
  const blob = await fetched(it, place);
  if (!blob) return;
  const bytes = new Uint8Array(await blob.arrayBuffer());
  const kind = kindOf(bytes);
  if (!kind.look) return say(place, "unknown", paragraph(t("files.noLook")));
  try {
    await content.showAt(there, { bytes, kind });
    say(place, "done", paragraph(t("files.looked", { size: inBytes(blob.size) })));
  } catch {
    say(place, "wrong", paragraph(t("content.broken")));
  }
}

function buttonOf(key, name, pressed) {
  const button = made("button", { type: "button", "aria-label": t(`files.${key}Of`, { name }) }, t(`files.${key}`));
  button.addEventListener("click", async () => {
    button.disabled = true;
    await pressed();
    button.disabled = false;
  });
  return button;
}

/** What can be done with a file: a long one the browser saves by itself, and the page compares the saved copy. */
function deedsOf(it, name, place, there) {
  const look = mayBeShown(it.place) ? buttonOf("look", name, () => lookAt(it, place, there)) : made("span", {}, t("content.unshown"));
  look.className = mayBeShown(it.place) ? "quiet" : "hint";
  if (it.length <= MOST_SAVED) return [buttonOf("save", name, () => saveFile(it, place)), look];
  const long = made("a", { href: addressOf(subject.number, it.file), download: nameOf(it.place) }, t("files.saveLong", { name }));
  return [made("span", {}, long, " ", made("span", { class: "hint" }, t("files.long")))];
}

function itemOf(it) {
  const name = visible(it.place);
  const place = made("div", { class: "outcome", role: "status" });
  const there = made("div", { class: "looked" });
  const head = made("p", {}, made("strong", {}, name), " ", made("span", { class: "hint" }, inBytes(it.length)));
  if (!it.there) return made("li", {}, head, made("div", { class: "outcome wrong" }, paragraph(t("files.missing"))));
  return made("li", {}, head, made("div", { class: "tools" }, ...deedsOf(it, name, place, there)), place, there);
}

// ---- all of them

/** Compares a copy that somebody has saved with the files that were filed. */
async function compare(file, files, place) {
  const { signal } = stop;
  const told = (done) => say(place, "waiting", paragraph(t("files.comparing", { done: grouped(done), size: inBytes(file.size) })));
  told(0);
  const digest = await digestOfFile(file, told, signal);
  if (signal.aborted) return;
  const it = files.find(({ sha256 }) => sha256 === digest);
  const words = { name: visible(file.name), place: visible(it?.place ?? "") };
  if (digest === null) say(place, "wrong", paragraph(t("files.unread", words)));
  else say(place, it ? "done" : "wrong", paragraph(t(it ? "files.isOne" : "files.isNone", words)));
}

function comparing(files) {
  const place = made("div", { class: "outcome", role: "status" });
  const input = made("input", { type: "file", id: "record-compare" });
  input.addEventListener("change", () => input.files[0] && compare(input.files[0], files, place));
  const label = made("label", { for: "record-compare" }, t("files.compareChoose"));
  return made("details", {}, made("summary", {}, t("files.compare")), made("p", {}, label, " ", input), place);
}

/** What the office itself keeps: the list of the files, by which they are found and compared. */
function listOf(files) {
  const rows = files.map(({ place, sha256 }) => [visible(place), made("code", {}, sha256)]);
  const button = made("button", { type: "button", class: "quiet" }, t("files.saveList"));
  const place = byId("record-saved");
  button.addEventListener("click", async () => {
    await content.saveIt();
    said.className = place.className;
    said.replaceChildren(...[...place.childNodes].map((it) => it.cloneNode(true)));
  });
  const said = made("div", { class: "outcome", role: "status" });
  return made("details", {}, made("summary", {}, t("files.list")), paragraph(t("files.listAbout"), "hint"), factsOf(rows), button, said);
}

function tell(files) {
  const sum = files.reduce((all, { length }) => all + length, 0);
  const heading = made("h3", {}, plural("files.heading", files.length));
  const about = paragraph(plural("files.about", files.length), "hint");
  const list = made("ul", { class: "vaulted" }, ...files.map(itemOf));
  const sent = subject.status === "sent" ? [paragraph(t("files.sent"))] : [];
  byId("record-files").replaceChildren(heading, about, ...sent, list, comparing(files), listOf(files));
  byId("record-files").hidden = false;
  return { words: [], facts: { length: t("files.length", { size: inBytes(sum), list: inBytes(subject.length) }) } };
}

/** What is said of the content where the vault shows no files: it may be the manifest of one all the same. */
async function untold({ number, length }) {
  const answer = length > MOST_MANIFEST ? null : await get(`records/${number}/content`);
  const files = answer?.status === 200 ? filesIn(answer.text) : null;
  if (!files) return [];
  if (!hasNone) return [made("div", { class: "outcome wrong" }, paragraph(t("files.silent")))];
  const places = files.map(({ place }) => visible(place)).join(", ");
  const words = t("record.manifest", { size: inBytes(files.reduce((all, { size }) => all + size, 0)), place: places });
  const digests = files.map(({ digest }) => made("p", {}, made("code", {}, digest)));
  return [made("div", { class: "outcome unknown" }, paragraph(words), ...digests)];
}

/**
 * Shows the files of a record in place of its content, where it has some.
 * @param {object} record as the office reports it
 * @returns {Promise<{ words: Node[], facts: object }>} what is said of it beside that, and what its facts are
 */
export async function offer(record) {
  subject = record;
  stop.abort();
  stop = new AbortController();
  const place = byId("record-files");
  place.hidden = true;
  place.replaceChildren();
  const none = { words: [], facts: {} };
  if (record.status === "ended" || record.length < LEAST_BYTES) return none;
  byId("record-content").hidden = true;
  place.setAttribute("aria-busy", "true");
  const found = hasNone ? {} : await filesOf(record.number);
  place.removeAttribute("aria-busy");
  // another one is shown by now
  if (subject !== record) return none;
  hasNone ||= found.answer?.status === 404 && !isMissing(found.answer, "content");
  byId("record-content").hidden = Boolean(found.files?.length);
  if (found.files?.length) return tell(found.files);
  return { words: found.files ? [] : await untold(record), facts: {} };
}
