// The parts that each list has: filters, what is done with all rows, the table and the confirmation.
import { field } from "../fields.js";
import { byId, made, sentencesOf, translate } from "../page.js";
import { askReason } from "../reasons.js";

/** Puts these parts into the list of the view of this name. Their ids begin with that name. */
export function addParts(name, filters) {
  const id = (part) => `${name}-${part}`;
  const button = (part, text, kind = "quiet") =>
    made("button", { type: "button", id: id(part), class: kind, "data-text": text });
  const word = (filter) => made("label", { for: id(filter), "data-text": `${name}.columns.${filter}` });
  const choice = (filter) => made("div", {}, word(filter), made("select", { id: id(filter) }));
  const legend = (text) => made("legend", { "data-text": text });
  const outcome = (part, more = {}) => made("div", { id: id(part), class: "outcome", ...more }, sentencesOf());
  const place = byId(id("list"));
  place.append(
    made(
      "fieldset",
      { id: id("filters"), class: "filters" },
      legend("due.filter"),
      ...filters.map(choice),
      button("all", "due.showAll"),
    ),
    made(
      "div",
      { class: "tools" },
      button("mark", "due.markShown"),
      button("mark-held", "due.markHeld"),
      button("unmark", "due.unmark"),
      button("print", "due.print"),
      button("skip", "due.skipRows", "quiet inner"),
      made("div", { id: id("more"), class: "more" }),
    ),
    outcome("answer", { tabindex: "-1" }),
    made("p", { id: id("ahead"), class: "hint" }),
    made("p", { class: "hint read" }, made("span", { id: id("read") }), " ", button("anew", "due.readAnew", "quiet small")),
    made(
      "table",
      { id: id("table"), class: `cards due ${name}-rows`, role: "table", "aria-labelledby": id("caption") },
      made("caption", { id: id("caption") }),
      made("thead", { role: "rowgroup" }, made("tr", { id: id("head"), role: "row" })),
    ),
    panel(id, legend, outcome),
  );
  for (const it of place.querySelectorAll("[data-field]")) field(it);
  askReason(byId(id("confirm")), ["confirm"]);
  translate(place);
}

/** The confirmation of what is marked. */
function panel(id, legend, outcome) {
  const fields = made(
    "fieldset",
    {},
    legend("due.confirm"),
    made("p", { id: id("marked"), class: "marked", role: "status" }),
    made("p", { id: id("what"), class: "what" }),
    made("div", { "data-field": "day", id: id("confirm-day") }),
    made("div", { "data-field": "by", id: id("confirm-by") }),
    made("button", { id: id("submit") }),
    made("p", { class: "hint", "data-text": "due.confirmAbout" }),
  );
  const form = made("form", { id: id("confirm") }, fields);
  return made("div", { id: id("panel"), class: "panel" }, form, outcome("panel-outcome"));
}
