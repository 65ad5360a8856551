// The acts that this page did since it was opened, for what a catalogue does not have yet.
import { serverNow } from "./clock.js";
import { jsonOf } from "./plain/outcomes.js";
import { isDone } from "./plain/since.js";

/** So many milliseconds before the moment of a catalogue, which is a whole second, an act may be in it or not. */
const MARGIN = 2000;

/** The event of a window after which more is done. */
export const DONE = "office-done";

let done = [];

/** The acts of a request; a content is nothing that is shown. */
function actsOf(path, body) {
  if (path === "run/resume") return [{ act: "resume" }];
  return path === "acts" ? JSON.parse(body).map(({ content, ...act }) => act) : [];
}

/** Notes what came of a request that acts. */
export function noteDone(path, body, answer) {
  const said = jsonOf(answer);
  const answers = Array.isArray(said) ? said : (said?.answers ?? [said]);
  const at = serverNow();
  const found = actsOf(path, body).map((act, place) => ({ act, answer: answers[place], at })).filter((it) => isDone(it.answer));
  done.push(...found);
  if (found.length) dispatchEvent(new Event(DONE));
}

/** What was done since a moment. What a catalogue of that moment has is forgotten. */
export function doneSince(moment) {
  done = done.filter(({ at }) => at >= Date.parse(moment) - MARGIN);
  return done;
}
