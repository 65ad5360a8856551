// Writes rows as the page saves them, for each separator: node saved.mjs FOLDER, which has page/plain and page/sheet.
import { readFileSync } from "node:fs";
import { pathToFileURL } from "node:url";

const { csvOf, formulasIn } = await import(pathToFileURL(`${process.argv[2]}/plain/csv.js`));
const { withoutGuard } = await import(pathToFileURL(`${process.argv[2]}/sheet/members.js`));
const rows = JSON.parse(readFileSync(0, "utf8"));
const files = [",", ";", "\t"].map((separator) => csvOf(["ref", "title"], rows, separator));
process.stdout.write(JSON.stringify({ files, formulas: formulasIn(rows), refs: rows.map(([ref]) => withoutGuard(`'${ref}`)) }));
