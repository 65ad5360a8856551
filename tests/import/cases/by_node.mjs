// Reads cases from standard input, and writes what the page makes of each: node by_node.mjs FOLDER, which has page/sheet.
import { readFileSync } from "node:fs";
import { pathToFileURL } from "node:url";

const module = (name) => import(pathToFileURL(`${process.argv[2]}/${name}`));
const { turned } = await module("sheet/turning.js");
const { catalogueOf } = await module("sheet/lookups.js");
const { outcomeOf } = await module("turned.js");
const cases = JSON.parse(readFileSync(0, "utf8"));
process.stdout.write(JSON.stringify(cases.map((it) => outcomeOf(turned, catalogueOf, it))));
