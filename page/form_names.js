// Names of forms, for a screen reader: each form is called by its heading, or by that of what it is in.

/** The heading of a form: its own, that of what is folded around it, or that of its view. */
function headingOf(form) {
  const own = form.querySelector("h2, h3, legend");
  const around = form.closest("details")?.querySelector("summary");
  return own ?? around ?? form.closest("section")?.querySelector("h1");
}

/** Names each form of the page that has no name yet. */
export function nameForms() {
  for (const form of document.querySelectorAll("form:not([aria-labelledby], [aria-label])")) {
    const heading = headingOf(form);
    if (!heading) continue;
    heading.id ||= `${form.id}-name`;
    form.setAttribute("aria-labelledby", heading.id);
  }
}
