// An answer of the office or of the proxy, and which texts explain it.

/** The answer's body as JSON, or undefined where it is none. */
export function jsonOf(answer) {
  if (!answer.type.startsWith("application/json")) return undefined;
  try {
    return JSON.parse(answer.text);
  } catch {
    return undefined;
  }
}

/** The row for a status and a word of its body: of the office's own answers, else of those of a member of several machines. */
export function statusRow(texts, status, word) {
  const fits = (row) => row.status.split(", ").includes(status) && row.body.includes(word);
  return [...texts.statuses, ...texts.members].find(fits);
}

/** What to do in this page, if the words for everybody send people to a page of the manual, or speak to programs. */
function forPeople(texts, part, name) {
  const words = texts.help?.[part]?.[name];
  return words ? { do: words } : {};
}

const refusal = (texts, number) => ({ key: "said.refusal", number, ...texts.refusals[number], ...forPeople(texts, "refusals", number) });
const fault = (texts, number) => ({ key: "said.fault", number, ...texts.faults[number], ...forPeople(texts, "faults", number) });

/** The row for a status and an error of the office, in words for people. */
function errorRow(texts, status, word) {
  const row = statusRow(texts, status, `"${word}"`);
  return row && { ...row, ...forPeople(texts, "statuses", `${status} ${word}`) };
}

/** What a body of JSON means: each refusal among answers once; an error, with the refusal of an act that does not read; or a fault. */
function explainedJson(texts, status, body) {
  if (Array.isArray(body)) return [...new Set(body.map((it) => it.refused))].filter(Boolean).map((number) => refusal(texts, number));
  if (typeof body?.error === "string") {
    const rows = [errorRow(texts, status, body.error)];
    return body.refused ? [...rows, refusal(texts, body.refused)] : rows;
  }
  if (body?.fault) return [errorRow(texts, status, "fault"), fault(texts, body.fault)];
  if (body?.refused) return [refusal(texts, body.refused)];
  return [undefined];
}

/** The explanations of what the office itself answered; none where the body is none of its own. */
function explainedOffice(texts, answer) {
  const body = jsonOf(answer);
  return body === undefined ? [] : explainedJson(texts, String(answer.status), body).filter((row) => row?.meaning);
}

const isSuccess = (answer) => answer.status >= 200 && answer.status < 300;

/** Whether this answer is the office's own, and not one of the proxy in front of it, whatever body that has. */
export const isOfOffice = (texts, answer) => isSuccess(answer) || explainedOffice(texts, answer).length > 0;

/** The explanation of an answer of the proxy: by the word of its body if there is one for that, else by its status. */
function explainedProxy(texts, answer) {
  const body = jsonOf(answer);
  const names = [`${answer.status} ${body?.error}`, String(answer.status)];
  const name = names.find((it) => it in texts.proxy);
  if (!name) return undefined;
  const row = { ...texts.proxy[name], ...forPeople(texts, "proxy", name) };
  // up to when an office is closed
  return typeof body?.until === "string" ? { ...row, meaning: `${row.meaning} (${body.until})` } : row;
}

/** The explanations of an answer, each with a meaning and with what to do; none where nothing is known of it. */
export function explained(texts, answer) {
  if (answer.status === 0) return [statusRow(texts, "none", "")];
  const rows = explainedOffice(texts, answer);
  return rows.length || isSuccess(answer) ? rows : [explainedProxy(texts, answer)].filter(Boolean);
}

/** Whether the office says that there is no such thing: a `record`, a `content` or a `certificate`. */
export const isMissing = (answer, thing) => answer.status === 404 && jsonOf(answer)?.error === thing;

/** What became of acts that were sent: the answers that came, the refusals among them by number, and how it ended. */
export function fatesOf(answer, count) {
  const body = jsonOf(answer);
  const answers = Array.isArray(body) ? body : Array.isArray(body?.answers) ? body.answers : [];
  const whole = Array.isArray(body) && body.length === count;
  const refused = new Map();
  answers.forEach((it, at) => it.refused && refused.set(it.refused, [...(refused.get(it.refused) ?? []), at]));
  return { answers, refused, end: whole ? "answered" : nothingDone(answer, body) ? "undone" : "unknown" };
}

/** With these words a member of an office on several machines, or a gate, says that nothing was done. */
const NOTHING_IN_LOG = ["quorum", "recovering", "busy", "full", "clock", "day", "journal", "room", "office", "closed"];

/** Whether this answer says that no act was done. */
function nothingDone(answer, body) {
  if (answer.status === 503) return NOTHING_IN_LOG.includes(body?.error);
  if (answer.status === 422) return ["key", "refused"].includes(body?.error);
  if ([400, 404, 405, 411, 501].includes(answer.status)) return typeof body?.error === "string";
  // an office that decides too stops a list at an act, and those before it are done
  if (answer.status === 403 && body?.answers?.length > 0) return false;
  return [401, 403, 413, 421, 429].includes(answer.status);
}
