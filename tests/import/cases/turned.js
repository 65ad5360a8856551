// What the page makes of cases: page/sheet. A case has the bytes of its sheet as base64; `run` gives them, and compares.
// A browser or node gives `turned` of page/sheet/turning.js to it.

const bytesOf = (base64) => Uint8Array.from(atob(base64), (it) => it.charCodeAt(0));

const TODAY = "2026-11-28";

/** What comes of a case, in the same form as turned.py has it; `catalogueOf` is that of page/sheet/lookups.js. */
export function outcomeOf(turned, catalogueOf, { base64, options }) {
  try {
    const catalogue = options.catalogue && catalogueOf(options.catalogue);
    const made = turned(bytesOf(base64), { today: TODAY, ...options, catalogue });
    const { encoding, separator, order, columns, empty, rows } = made;
    const found = (name) => rows.flatMap((row) => row[name].map((it) => [row.number, it.name, it.kind]));
    const good = rows.filter((row) => !row.wrong.length && !row.left);
    const form = { encoding, separator, order: order.name, columns: columns.places };
    const kinds = { empty, wrong: found("wrong"), looks: found("notes") };
    if (!options.kind) return { ...form, ...kinds, rows: good.map((row) => [row.number, ...row.values]) };
    const left = ["no", "undecided"].map((it) => rows.filter((row) => row.left === it).map(({ number }) => number));
    return { ...form, ...kinds, rows: good.map((row) => [row.number, row.act]), left };
  } catch (why) {
    if (!why.kind) throw why;
    return { unreadable: why.kind };
  }
}
