// The content of a record: saved under its ref, title and an extension, or looked at in the page, once its SHA-256 was compared.
import { get } from "../ask.js";
import { asking, byId, details, failed, inBytes, made, paragraph, quiet, save, say } from "../page.js";
import { digestOf } from "../plain/certificates.js";
import { fileName, kindOf, mayBeShown, textOf } from "../plain/content.js";
import { visible } from "../plain/marks.js";
import { isMissing } from "../plain/outcomes.js";
import { t } from "../texts.js";

/** So many letters of a text are shown at most; the whole of it is saved. */
const MOST_LETTERS = 200000;

let subject = null;
/** What lets the browser forget what is looked at. */
let forget = () => {};

/** The bytes of the content of the record that is shown, and what its digest says; null where that was said already. */
async function read(place) {
  const record = subject;
  asking(place);
  const answer = await get(`records/${record.number}/content`);
  // another record is shown by now
  if (record !== subject) return null;
  if (isMissing(answer, "content")) say(place, "wrong", paragraph(t("record.contentGone")), details(answer));
  else if (answer.status !== 200) failed(place, answer);
  else {
    const digest = await digestOf(answer.bytes);
    const seal = digest === null ? "unseen" : digest === record.digest ? "agrees" : "differs";
    return { record, bytes: answer.bytes, kind: kindOf(answer.bytes), seal };
  }
  return null;
}

export const LOOKS = { agrees: "done", differs: "wrong", unseen: "unknown" };

/** Saves the content. */
export async function saveIt() {
  const place = byId("record-saved");
  const it = await read(place);
  if (!it) return;
  const name = fileName(it.record, it.kind);
  save(name, it.bytes, "application/octet-stream");
  const words = t(`content.saved.${it.seal}`, { name: visible(name), size: inBytes(it.bytes.length) });
  say(place, LOOKS[it.seal] === "unknown" ? "done" : LOOKS[it.seal], paragraph(words));
}

/** A picture, drawn: nothing of it is loaded from an address. */
async function pictureOf({ bytes, kind }) {
  const bitmap = await createImageBitmap(new Blob([bytes], { type: kind.type }));
  const canvas = made("canvas", { role: "img", "aria-label": t("content.picture", { width: bitmap.width, height: bitmap.height }) });
  [canvas.width, canvas.height] = [bitmap.width, bitmap.height];
  canvas.getContext("2d").drawImage(bitmap, 0, 0);
  bitmap.close();
  return canvas;
}

/**
 * A document in a frame, by the browser's own viewer. The page says that it is a PDF, so that nothing takes it for a page;
 * what policy this page has, the frame has too, and it may ask for nothing (no camera, no place). The attribute `sandbox` is
 * not there: Chromium shows no PDF in such a frame.
 */
function frameOf({ bytes }) {
  if (navigator.pdfViewerEnabled === false) return paragraph(t("content.noViewer"));
  const url = URL.createObjectURL(new Blob([bytes], { type: "application/pdf" }));
  forget = () => URL.revokeObjectURL(url);
  return made("iframe", { src: url, title: t("content.document"), allow: "", referrerpolicy: "no-referrer" });
}

function textNode({ bytes }) {
  const text = visible(textOf(bytes));
  const pre = made("pre", { tabindex: "0", role: "region", "aria-label": t("content.text") }, text.slice(0, MOST_LETTERS));
  return text.length > MOST_LETTERS ? made("div", {}, paragraph(t("content.cut", { most: MOST_LETTERS }), "hint"), pre) : pre;
}

const SHOWN = { pdf: frameOf, image: pictureOf, text: textNode };

/**
 * Shows bytes at a place, with a button that takes them away; only those of one content or file at a time.
 * @param {Element} there
 * @param {{ bytes: Uint8Array, kind: import("../plain/content.js").Kind }} it
 */
export async function showAt(there, it) {
  hide();
  const node = await SHOWN[it.kind.look](it);
  const close = made("button", { type: "button", class: "quiet unlook" }, t("content.close"));
  close.addEventListener("click", hide);
  there.replaceChildren(node, close);
}

/** Shows the content, if it is of a kind that can be looked at, with what its digest says. */
async function look() {
  const place = byId("record-saved");
  const it = await read(place);
  if (!it) return;
  const there = byId("record-looked");
  if (!it.kind.look) {
    say(place, "unknown", paragraph(t("content.noLook", { name: visible(fileName(it.record, it.kind)) })));
    return;
  }
  try {
    await showAt(there, it);
  } catch {
    say(place, "wrong", paragraph(t("content.broken")));
    return;
  }
  if (it.record !== subject) return hide();
  say(place, LOOKS[it.seal], paragraph(t(`content.looked.${it.seal}`, { size: inBytes(it.bytes.length) })));
}

/** Takes away what is looked at. */
export function hide() {
  forget();
  forget = () => {};
  for (const place of document.querySelectorAll(".looked")) place.replaceChildren();
}

/** Offers the content of this record, if it is still here. */
export function offer(record) {
  subject = record;
  hide();
  quiet(byId("record-saved"));
  byId("record-content").hidden = record.status === "ended";
  byId("record-look").hidden = !mayBeShown(record.ref);
  byId("record-unshown").hidden = mayBeShown(record.ref);
}

export function start() {
  byId("record-save").addEventListener("click", saveIt);
  byId("record-look").addEventListener("click", look);
}
