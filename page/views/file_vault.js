// Large files of the views File and Import: each goes into the vault of the office right before its record is filed.
import { grouped, inBytes, made, paragraph, plural } from "../page.js";
import { MOST_CONTENT } from "../plain/filing.js";
import { visible } from "../plain/marks.js";
import { manifestOf, placeOfFile } from "../plain/vault.js";
import { t } from "../texts.js";
import { digestOfFile, limits, putFile } from "../vault.js";

/** What the vault takes, as it said last; nothing was asked yet. */
let vault = { state: "none", most: 0, room: 0 };

/** Asks what the vault takes now. One that was there and is silent for a moment is still there: a file says if it fails. */
export async function ask() {
  const said = await limits();
  if (said.state !== "silent" || vault.state === "none") vault = said;
}

/** Whether there is a vault (`there`), none (`none`), or one that does not answer (`silent`). */
export const state = () => vault.state;

export const isLarge = (file) => file.size > MOST_CONTENT;

/** Whether a file goes into the vault. */
export const goesIn = (file) => isLarge(file) && vault.state === "there" && file.size <= vault.most;

/** How many bytes the text that names a file will have. */
export const sizeOfName = (file, name) => new TextEncoder().encode(manifestOf("0".repeat(64), file.size, placeOfFile(name))).length;

/** What is to be said before large files are sent: that the vault is silent, or has no room for all; or nothing. */
export function warnings(files) {
  const large = files.filter(isLarge);
  if (!large.length) return [];
  if (vault.state === "silent") return [paragraph(t("vault.silent"))];
  const sum = large.filter(goesIn).reduce((all, { size }) => all + size, 0);
  const over = large.filter(({ size }) => vault.state === "there" && size > vault.most).length;
  const words = { bytes: grouped(sum), room: grouped(vault.room), most: grouped(vault.most) };
  return [...(sum > vault.room ? [t("vault.noRoom", words)] : []), ...(over ? [plural("vault.over", over, words)] : [])].map((it) => paragraph(it));
}

/** A bar for one file, and what happens to it. */
function barOf(name) {
  const bar = made("progress", { max: "1", value: "0", "aria-label": t("vault.progressOf", { name: visible(name) }) });
  const words = made("span", { class: "hint" });
  const show = (phase, size) => (done) => {
    bar.value = size ? done / size : 1;
    words.textContent = t(`vault.going.${phase}`, { done: grouped(done), size: inBytes(size) });
  };
  return { node: made("span", { class: "going" }, bar, words), show };
}

/**
 * Puts a file into the vault, and shows how far that is at a place.
 * @param {File} file
 * @param {string} name the name that the record gives it
 * @param {Element} place
 * @param {AbortSignal} stop
 * @returns {Promise<{ content: Uint8Array } | { fate: import("../plain/sending.js").Fate }>} the content of its record
 */
export async function put(file, name, place, stop) {
  const { node, show } = barOf(name);
  const told = show("digest", file.size);
  told(0);
  place.replaceChildren(node);
  const digest = await digestOfFile(file, told, stop);
  if (stop.aborted) return { fate: { kind: "left" } };
  if (digest === null) return { fate: { kind: "unread" } };
  const { status } = await putFile(file, digest, show("upload", file.size), stop);
  if (stop.aborted) return { fate: { kind: "left" } };
  if (status !== 200 && status !== 201) return { fate: { kind: "unput", status } };
  return { content: new TextEncoder().encode(manifestOf(digest, file.size, placeOfFile(name))) };
}
