// Holds: shows one, places one, puts a target on, takes one off, lifts it. No path shows a hold: the catalogue does.
import { mark, onSubmit, untick, untickWith } from "../fields.js";
import { asking, byId, failed, made, paragraph, say, told } from "../page.js";
import { holdOff, holdOn, liftHold } from "../plain/acts.js";
import { isCode } from "../plain/forms.js";
import { fatesOf } from "../plain/outcomes.js";
import { askReason, forgetReason, senderOf } from "../reasons.js";
import { t } from "../texts.js";
import * as list from "./hold_list.js";
import * as placing from "./hold_place.js";
import * as shown from "./hold_shown.js";
import { markMissing } from "./no_such.js";
import { wordsOfTarget } from "./targets.js";

const targetOf = (values, form) => `${byId(`${form}-kind`).value}:${values[`${form}-target`]}`;

/** Writes a code into these forms for a hold that is there. */
function carry(code, forms) {
  for (const form of forms) {
    byId(`${form}-code`).value = code;
    mark(byId(`${form}-code`), "");
  }
}

/**
 * The forms for a hold that is there: the act that each asks for, what is said once it is done, and what where that is
 * unknown; `isAsSeen` says before whether the act would do what was shown, and `after` is called once it is done.
 */
const FORMS = {
  "hold-on": {
    act: (values) => holdOn(values["hold-on-day"], values["hold-on-code"], targetOf(values, "hold-on")),
    done: async (act) => t("holds.isOn", { ...act, target: await wordsOfTarget(act.target) }),
    lost: "holds.lostOn",
  },
  "hold-off": {
    act: (values) => holdOff(values["hold-off-day"], values["hold-off-code"], targetOf(values, "hold-off")),
    done: async (act) => t("holds.isOff", { ...act, target: await wordsOfTarget(act.target) }),
    lost: "holds.lostOff",
  },
  "hold-lift": {
    act: (values) => liftHold(values["hold-lift-day"], values["hold-lift-code"]),
    done: (act) => t("holds.lifted", act),
    lost: "holds.lostLift",
    isAsSeen: shown.isAsSeen,
    after: () => shown.renewForecast(),
  },
};

/** The kinds of acts that each form of the view may ask for. */
const KINDS = { "hold-place": ["place-hold", "hold-on"], "hold-on": ["hold-on"], "hold-off": ["hold-off"], "hold-lift": ["lift-hold"] };

/** Asks for one act, and says what came of it. */
async function ask(name, values) {
  const [form, place] = [byId(name), byId(`${name}-outcome`)];
  const { act, done, lost, after, isAsSeen } = FORMS[name];
  const asked = act(values);
  asking(place);
  // a tick is for what was shown when it was made
  if (isAsSeen && !(await isAsSeen(place))) return untick(form);
  const answer = await senderOf(form)([asked]);
  const { answers, end } = fatesOf(answer, 1);
  if (end === "unknown") say(place, "unknown", ...told(answer), paragraph(t(lost)));
  else if (answers[0]?.done) say(place, "done", paragraph(await done(asked)), ...told(answer));
  else failed(place, answer);
  const isDone = end === "answered" && Boolean(answers[0].done);
  if (answers[0]?.refused) await markMissing(form, answers[0].refused);
  if (isDone || end === "unknown") untick(form);
  if (!isDone) return;
  forgetReason(form);
  after?.(asked);
  await list.renew();
}

export function start() {
  shown.start();
  list.start();
  untickWith(byId("hold-lift-code"));
  placing.start((code) => {
    carry(code, ["hold-on"]);
    return list.renew();
  });
  for (const [name, kind] of Object.entries(KINDS)) askReason(byId(name), kind);
  for (const name of Object.keys(FORMS)) onSubmit(byId(name), (values) => ask(name, values));
  for (const form of ["hold-on", "hold-off"]) {
    const kinds = ["class", "aggregation", "record"].map((kind) => made("option", { value: kind }, t(`fields.kinds.${kind}`)));
    byId(`${form}-kind`).append(...kinds);
  }
}

/** Shows the hold that the address names, and writes its code into the forms for a hold that is there. */
export function show(words) {
  list.renew();
  const code = words.get("code");
  if (code === null || !isCode(code)) {
    shown.showNone();
    return shown.renewForecast();
  }
  carry(code, ["hold-on", "hold-off", "hold-lift"]);
  return Promise.all([shown.show(code), shown.renewForecast()]);
}
