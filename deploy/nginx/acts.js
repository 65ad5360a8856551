// The acts that go through nginx: read before the office gets them, and written into the journal. README.md says why.

/** No text of an act is longer. Of a longer one the journal has the length. */
const LONGEST = 200;
const DAY = /^\d\d\d\d-\d\d-\d\d$/;
const MILLISECONDS = 86400000;
/** Controls, marks of direction and separators of lines, which change how a terminal shows a line. */
const HIDING = /[\u007f-\u009f\u061c\u200e\u200f\u2028-\u202e\u2066-\u2069]/g;

/** Reads the list of acts, then passes the request on, or answers it: 413, 400 or 403, and no act is done. */
function pass(r) {
  if (r.method !== "POST") {
    r.internalRedirect(r.variables.passed_on);
  } else if (r.variables.request_body_file) {
    refuse(r, "not read: too long", 413, { error: "size" });
  } else {
    passList(r, listOf(r.requestText));
  }
}

function passList(r, acts) {
  if (acts === undefined) {
    refuse(r, `no list, bytes: ${r.requestBuffer ? r.requestBuffer.length : 0}`, 400, { error: "json" });
    return;
  }
  const late = acts.findIndex(isLate(lastDay(Number(r.variables.days_ahead))));
  const acted = written(acts);
  if (late >= 0) {
    refuse(r, acted, 403, { error: "future", place: late });
  } else {
    r.variables.acts = lineOf(acted);
    r.internalRedirect(r.variables.passed_on);
  }
}

/** Answers a request that is not passed on. */
function refuse(r, acts, status, body) {
  r.variables.acts = lineOf(acts);
  answer(r, status, body);
}

function answer(r, status, body) {
  r.headersOut["Content-Type"] = "application/json";
  r.return(status, JSON.stringify(body));
}

/** The list that a body is, or undefined. */
function listOf(text) {
  try {
    const list = JSON.parse(text);
    return Array.isArray(list) ? list : undefined;
  } catch (e) {
    return undefined;
  }
}

/** The latest day that an act may have: so many days after today, by the server's clock and in UTC. */
const lastDay = (ahead) => new Date(Date.now() + ahead * MILLISECONDS).toISOString().slice(0, 10);

const isObject = (value) => typeof value === "object" && value !== null;

/** Leaves what is not written as a day to the office. (A search costs memory, so it comes last.) */
const isLate = (last) => (act) => isObject(act) && typeof act.day === "string" && act.day > last && DAY.test(act.day);

const isAct = (it) => isObject(it) && typeof it.act === "string";

/** The acts as the journal has them. If there is anything else among them, the office does none. */
function written(acts) {
  const other = acts.findIndex((it) => !isAct(it));
  if (other >= 0) {
    return `no act at place ${other}, places: ${acts.length}`;
  }
  acts.forEach(strip);
  return acts;
}

/** Takes the content out of an act, and what no act has. */
function strip(act) {
  Object.keys(act).forEach((name) => {
    if (name.length > LONGEST) {
      delete act[name];
    } else if (isObject(act[name]) || typeof act[name] === "string") {
      act[name] = shortened(name, act[name]);
    }
  });
}

const shortened = (name, value) => {
  if (isObject(value)) {
    return {};
  }
  if (name === "content") {
    return bytesOf(value);
  }
  return value.length <= LONGEST ? value : { characters: value.length };
};

/** Counts the bytes of a text in base64. */
const bytesOf = (text) => {
  const padding = text.endsWith("==") ? 2 : text.endsWith("=") ? 1 : 0;
  return { bytes: Math.floor((text.length * 3) / 4) - padding };
};

/** Writes a line of the journal. */
function line(r) {
  const of = r.variables;
  const head = {
    time: of.time_iso8601,
    name: of.remote_user,
    from: of.remote_addr,
    path: of.uri,
    status: Number(of.status),
    position: of.upstream_http_office_position,
    key: of.http_idempotency_key && of.http_idempotency_key.slice(0, LONGEST),
  };
  const isLeftOut = of.upstream_addr && !isDone(head.status);
  const acts = isLeftOut ? JSON.stringify("left out: nothing was done") : of.acts || JSON.stringify("");
  return `${lineOf(head).slice(0, -1)},"acts":${acts}}`;
}

/** Writes a value for the journal. A variable of nginx has bytes, so what hides text is escaped before it is one. */
const lineOf = (value) => JSON.stringify(value).replace(HIDING, escaped);

const escaped = (text) => `\\u${text.charCodeAt(0).toString(16).padStart(4, "0")}`;

/** Whether acts were done, or may have been. */
const isDone = (status) => status === 200 || status === 201 || status === 409 || status >= 499;

/** Answers whether the office has a record, and nothing of it: for a monitor, whose password reads nothing. */
function alive(r) {
  r.subrequest(r.uri.replace(/alive$/, "records/1"), (reply) => {
    if (reply.status === 200) {
      answer(r, 200, { records: true });
    } else if (reply.status === 404) {
      answer(r, 404, { error: "record" });
    } else {
      r.return(reply.status);
    }
  });
}

/** Answers whether the name that logged in may act: the page offers no form to one that may only read. */
function rights(r) {
  answer(r, 200, { acts: r.variables.is_actor === "1" });
}

export default { pass, line, alive, rights };
