// What can be done with all that is marked: which of it each deed is for, and the acts that are sent for it.
import { confirm, holdOn, placeHold, recordEvent } from "./acts.js";
import { canBeConfirmed } from "./lists.js";

/**
 * One record or aggregation that is marked, as it was shown. A member that is not known is undefined.
 * @typedef {object} Item
 * @property {"record" | "aggregation"} kind
 * @property {number} number
 * @property {string} ref
 * @property {string} [title]
 * @property {string} [status] of a record, as the catalogue has it
 * @property {string} [action] of a record, as a list has it
 * @property {Object<string, any> | null} [row] of a record, as the office's due list of the act's day has it; null if it is not due
 * @property {string | null} [closed] of an aggregation
 */

/**
 * @typedef {object} Deed
 * @property {string[]} acts the kinds of acts that it sends
 * @property {string[]} kinds what it is for
 * @property {Object<string, string>} fields the kind of each of its fields, by its name
 * @property {string[]} [optional] fields that may be empty, which is then null
 * @property {boolean} [isGrave] whether it asks for a tick, since nothing undoes it
 * @property {function(Item): string} left why an item is left out, by the name of the text; empty if it is not
 * @property {function(Item, object): object} act the act for an item
 * @property {function(object): object[]} [before] acts that go before those for the items
 * @property {number[]} already refusals which say that what was asked for is so already
 */

/** A record is here; the status of one that a list has is not known, and it is here. */
const unlessHere = ({ status = "here" }) => (status === "here" ? "" : status === "ended" ? "ended" : "away");

/**
 * Why a record that is here is not confirmed from a search: what is held, or confirmed by somebody, is so only from a list.
 * @param {Item} item
 */
function unlessOpen({ row }) {
  if (row === undefined) return "unread";
  if (row === null) return "notDue";
  if (!canBeConfirmed(row)) return "toReview";
  if (row.held !== null) return "held";
  return row.confirmed ? "confirmed" : "";
}

const targetOf = ({ kind, number }) => `${kind}:${number}`;

/** @type {Object<string, Deed>} */
export const DEEDS = {
  confirm: {
    acts: ["confirm"],
    kinds: ["record"],
    fields: { by: "by", day: "day" },
    left: (item) => unlessHere(item) || unlessOpen(item),
    act: ({ row }, { day, by }) => confirm(row, day, by),
    already: [],
  },
  hold: {
    acts: ["place-hold", "hold-on"],
    kinds: ["record", "aggregation"],
    fields: { code: "code", reason: "reason", by: "by", day: "day" },
    left: ({ status }) => (status === "ended" ? "ended" : ""),
    before: ({ day, code, reason, by, isThere }) => (isThere ? [] : [placeHold(day, code, reason, by)]),
    act: (item, { day, code }) => holdOn(day, code, targetOf(item)),
    already: [4],
  },
  event: {
    acts: ["event"],
    kinds: ["record"],
    fields: { occurred: "occurred", by: "by", day: "day" },
    left: unlessHere,
    act: ({ number }, { day, occurred, by }) => recordEvent(day, number, occurred, by),
    already: [],
  },
  review: {
    acts: ["review"],
    kinds: ["record"],
    fields: { by: "by", schedule: "nextSchedule", day: "day" },
    optional: ["schedule"],
    left: (item) => unlessHere(item) || ((item.action ?? "review") === "review" ? "" : "notReview"),
    act: ({ number }, { day, schedule, by }) => ({ act: "review", day, record: number, schedule, by }),
    already: [],
  },
  schedule: {
    acts: ["set-record-schedule"],
    kinds: ["record"],
    fields: { schedule: "ownSchedule", day: "day" },
    optional: ["schedule"],
    left: unlessHere,
    act: ({ number }, { day, schedule }) => ({ act: "set-record-schedule", day, record: number, schedule }),
    already: [],
  },
  receipt: {
    acts: ["receipt"],
    kinds: ["record"],
    fields: { by: "by", day: "day" },
    left: ({ status, digest, lacks }) => (status !== "sent" ? "notSent" : !digest ? "noDigest" : lacks ? "noFiles" : ""),
    act: ({ number, digest }, { day, by }) => ({ act: "receipt", day, record: number, digest, by }),
    // by the catalogue it was sent, so that one which is not sent any more was received since
    already: [19],
  },
  close: {
    acts: ["close-aggregation"],
    kinds: ["aggregation"],
    fields: { day: "day" },
    isGrave: true,
    left: ({ closed }) => (closed ? "closed" : ""),
    act: ({ number }, { day }) => ({ act: "close-aggregation", day, aggregation: number }),
    already: [7],
  },
};

/** The names of the deeds that are for things of this kind, but for those that a view does not offer. */
export const deedsFor = (kind, except = []) =>
  Object.keys(DEEDS).filter((name) => DEEDS[name].kinds.includes(kind) && !except.includes(name));

/** The items in the order in which their acts go. The number of an aggregation is above that of the one that it is in. */
const inTurn = (name, items) => (name === "close" ? [...items].sort((one, other) => other.number - one.number) : items);

/**
 * What a deed would do with these items: those that it is for, in their turn, and those that are left out, by why.
 * @param {string} name
 * @param {Item[]} items
 * @returns {{ taken: Item[], left: Map<string, Item[]> }}
 */
export function sorted(name, items) {
  const taken = [];
  const left = new Map();
  for (const item of inTurn(name, items)) {
    const why = DEEDS[name].left(item);
    if (!why) taken.push(item);
    else left.set(why, [...(left.get(why) ?? []), item]);
  }
  return { taken, left };
}

/**
 * The acts of a deed, each with the item that it is for; null where it goes before all of them.
 * @param {string} name
 * @param {Item[]} taken
 * @param {object} values those of its fields by their names
 * @returns {{ act: object, item: Item | null }[]}
 */
export function actsOf(name, taken, values) {
  const { before, act } = DEEDS[name];
  const first = before ? before(values).map((it) => ({ act: it, item: null })) : [];
  return [...first, ...taken.map((item) => ({ act: act(item, values), item }))];
}
