// How accessible the page is: what it is made for, what was tried and what was not, and whom to tell what is in the way.
import { links } from "../name.js";
import { byId, link, made, paragraph, sentence } from "../page.js";
import { t } from "../texts.js";

/** The parts of the view, each with so many sentences. */
const PARTS = { standard: 1, tried: 4, limits: 2 };

const heading = (name) => made("h2", {}, t(`accessibility.${name}.title`));

function partOf([name, count]) {
  const sentences = Array.from({ length: count }, (_, at) => t(`accessibility.${name}.${at + 1}`));
  if (count === 1) return [heading(name), paragraph(sentences[0])];
  return [heading(name), made("ul", {}, ...sentences.map((words) => made("li", {}, words)))];
}

/** Whom to tell, and the statement of whoever uses the page, as far as the administrator set both. */
function feedback() {
  const { contact, statement } = links();
  const address = contact && link(contact, contact.replace(/^mailto:/, ""));
  const whom = address ? made("p", {}, ...sentence("accessibility.feedback.contact", { contact: address })) : paragraph(t("accessibility.feedback.nobody"));
  const own = statement ? [made("p", {}, link(statement, t("foot.statement")))] : [];
  return [heading("feedback"), whom, paragraph(t("accessibility.feedback.say")), heading("law"), paragraph(t("accessibility.law.1")), ...own];
}

export function start() {
  byId("accessibility-told").append(...Object.entries(PARTS).flatMap(partOf), ...feedback());
}

/** The view is the same each time. */
export const show = () => {};
