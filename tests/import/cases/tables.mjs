// Writes the tables of the kinds of acts that the page has: node tables.mjs FOLDER, which has page/sheet.
import { pathToFileURL } from "node:url";

const module = (name) => import(pathToFileURL(`${process.argv[2]}/${name}`));
const { COLUMNS, LONGEST, MEMBERS, RECORDS, WORDS, formOf, mayBeEmpty } = await module("sheet/kinds.js");
const forms = Object.fromEntries([RECORDS, ...Object.keys(COLUMNS)].map((kind) => [kind, formOf(kind)]));
const maybe = Object.entries(MEMBERS).flatMap(([kind, names]) =>
  names.split(" ").filter((name) => mayBeEmpty(kind, name)).map((name) => `${kind} ${name}`));
process.stdout.write(JSON.stringify({ forms, words: WORDS, longest: LONGEST, members: MEMBERS, maybe: maybe.sort() }));
