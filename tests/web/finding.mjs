// Finds and orders 200,000 records by the page's own modules: node finding.mjs FOLDER, which has page/plain and page/sheet.
// Standard output gets the milliseconds of each as JSON, of the processor's time at best of three, since a machine may be busy;
// what is found is compared with a plain search.
import { pathToFileURL } from "node:url";

const from = (name) => import(pathToFileURL(`${process.argv[2]}/plain/${name}.js`));
const [{ indexOf, folded }, { NO_DUE, findRecords, recordOrder }, { Details, dayOf }] = [await from("catalogue"), await from("finding"), await from("details")];

const COUNT = 200000;
const WORDS = ["Baugenehmigung", "Abnahme", "Lageplan", "Anhörung der Nachbarn", "Vermerk"];
const STREETS = ["Goethestraße", "Café am Markt", "Kirchgäßchen", "Neue Höfe"];
const STATUSES = ["here", "here", "here", "sent", "ended"];
const rows = Array.from({ length: COUNT }, (_, at) => [
  at + 1,
  `${2000 + (at % 25)}/${(at * 7919) % COUNT}`,
  `${WORDS[at % 5]} ${STREETS[(at >> 3) % 4]} ${at % 400}`,
  (at % 1500) + 1,
  STATUSES[at % 5],
]);
const column = (of) => Array.from({ length: COUNT }, (_, at) => of(at));
const columns = [
  column((at) => 11000 + ((at * 13) % 9000)),
  column((at) => 12000 + (at % 8000)),
  column((at) => at % 4),
  column((at) => (at >> 1) % 3),
  column((at) => at % 5000),
  column((at) => (at % 7 ? 20000 + ((at * 31) % 9000) : null)),
];
const details = new Details(columns, ["A", "B", "C", "D"], ["X", "Y", "Z"]);
const NOTHING = { text: "", status: "", aggregation: "", class: "", schedule: "", year: "", due: "" };

const lines = rows.map(([, ref, title]) => folded(`${ref} ${title}`));

/** Whether a record is what is asked for, said once more without the page's own search. */
function takes(asked, at) {
  const [, , , aggregation, status] = rows[at];
  const has = (name, wanted) => !wanted || details.value(name, at) === wanted;
  const isDue = () => {
    const due = details.value("due", at);
    return asked.due === NO_DUE ? due === null : due !== null && due <= asked.due;
  };
  return (
    (!asked.text || folded(asked.text).split(" ").every((word) => lines[at].includes(word))) &&
    (!asked.status || asked.status === status) &&
    (!asked.aggregation || Number(asked.aggregation) === aggregation) &&
    has("class", asked.class) &&
    has("schedule", asked.schedule) &&
    (!asked.year || details.value("originated", at).startsWith(asked.year)) &&
    (!asked.due || isDue())
  );
}

const times = {};
const spent = () => (process.cpuUsage().user + process.cpuUsage().system) / 1000;

/** What the last of three tries returned; the least milliseconds of them are noted. */
function timed(name, work) {
  let least = Infinity;
  let result;
  for (let turn = 0; turn < 3; turn += 1) {
    const began = spent();
    result = work();
    least = Math.min(least, spent() - began);
  }
  times[name] = least;
  return result;
}

const wrong = [];
const index = indexOf(rows, ([, ref, title]) => `${ref} ${title}`);
timed("the text of all", () => indexOf(rows, ([, ref, title]) => `${ref} ${title}`).text.length);
const ASKED = [
  {},
  { text: "kirchgasschen 17" },
  { text: "ANHORUNG" },
  { status: "sent", class: "B" },
  { schedule: "Y", year: "2007" },
  { due: dayOf(22000), text: "lageplan" },
  { due: NO_DUE, aggregation: "8" },
];
for (const more of ASKED) {
  const asked = { ...NOTHING, ...more };
  const found = timed(`found: ${JSON.stringify(more)}`, () => findRecords(index, details, asked, null, false));
  const wanted = rows.map((_, at) => at).filter((at) => takes(asked, at));
  if (JSON.stringify(found) !== JSON.stringify(wanted)) wrong.push(more);
}
const VALUES = {
  ref: (at) => rows[at][1],
  title: (at) => folded(rows[at][2]),
  aggregation: (at) => rows[at][3],
  status: (at) => rows[at][4],
  class: (at) => details.value("class", at),
  schedule: (at) => details.value("schedule", at),
  due: (at) => details.value("due", at) ?? "9999-99-99",
};
for (const [name, value] of Object.entries(VALUES)) {
  const order = timed(`order by ${name}`, () => recordOrder(index, details, name));
  const found = timed(`found in the order by ${name}`, () => findRecords(index, details, NOTHING, order, true));
  const isRight = found.length === COUNT && found.every((at, place) => place === 0 || value(found[place - 1]) >= value(at));
  if (!isRight) wrong.push(`order by ${name}`);
}
process.stdout.write(JSON.stringify({ times, wrong }));
