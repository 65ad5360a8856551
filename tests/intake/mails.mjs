// Writes the day and the subject of each mail that the page finds: node mails.mjs FOLDER, which has page/plain.
import { readFileSync } from "node:fs";
import { pathToFileURL } from "node:url";

const { mailOf } = await import(pathToFileURL(`${process.argv[2]}/plain/mails.js`));
const mails = JSON.parse(readFileSync(0, "utf8"));
process.stdout.write(JSON.stringify(mails.map((it) => Object.values(mailOf(Buffer.from(it, "base64"))))));
