// The foot of each view: how accessible the page is, and the help and the contact that the administrator set.
import { links } from "./name.js";
import { byId, link, made } from "./page.js";
import { t } from "./texts.js";

/** Fills the foot, in the order in which people look for help. */
export function start() {
  const { help, contact, statement } = links();
  const parts = [
    help && link(help, t("foot.help")),
    contact && link(contact, t("foot.contact")),
    link("#accessibility", t("accessibility.title")),
    statement && link(statement, t("foot.statement")),
  ];
  byId("foot").replaceChildren(...parts.filter(Boolean).map((it) => made("li", {}, it)));
}
