// Prints the law that the page shows of each question: LAWS and QUESTIONS are files of JSON.
//     node page.mjs LAWS QUESTIONS
import { readFileSync } from "node:fs";
import { lawOf, rulesIn } from "../../page/plain/laws.js";

const [laws, questions] = process.argv.slice(2).map((file) => JSON.parse(readFileSync(file, "utf8")));
const shown = questions.map(([code, schedule, day]) => {
  const { entry, lack } = lawOf(laws, code, schedule, day);
  return [lack ?? "", entry?.section ?? "", entry?.schedule ?? ""];
});
console.log(JSON.stringify({ shown, rules: rulesIn(questions.map(([code, schedule]) => ({ class: code, schedule }))) }));
