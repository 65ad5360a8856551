// Calls functions of the page's modules: node called.mjs FOLDER, which has page/plain. Standard input has the calls as JSON, each
// a module, a function and its arguments; standard output gets what each returned.
import { readFileSync } from "node:fs";
import { pathToFileURL } from "node:url";

const calls = JSON.parse(readFileSync(0, "utf8"));
const results = [];
for (const [module, name, words] of calls) {
  const found = await import(pathToFileURL(`${process.argv[2]}/plain/${module}.js`));
  results.push(found[name](...words));
}
process.stdout.write(JSON.stringify(results));
