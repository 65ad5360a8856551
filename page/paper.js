// What is done before the page is printed, and undone after it: links lead nowhere, and what is folded is opened.

/** On paper a link leads nowhere; and of many links a browser that prints looks for each one's goal on each page, for minutes. */
function withoutLinks() {
  for (const link of document.querySelectorAll("main a[href]")) {
    link.dataset.href = link.getAttribute("href");
    link.removeAttribute("href");
  }
}

function withLinks() {
  for (const link of document.querySelectorAll("main a[data-href]")) {
    link.setAttribute("href", link.dataset.href);
    delete link.dataset.href;
  }
}

/** The lists that paper shows whole, though they are folded on a screen. */
const folded = () => document.querySelectorAll("section:not([hidden]) details.listed");

function unfold() {
  for (const it of folded()) {
    if (it.open) continue;
    it.open = true;
    it.dataset.folded = "yes";
  }
}

function fold() {
  for (const it of folded()) {
    if (!it.dataset.folded) continue;
    it.open = false;
    delete it.dataset.folded;
  }
}

export function start() {
  addEventListener("beforeprint", () => {
    withoutLinks();
    unfold();
  });
  addEventListener("afterprint", () => {
    withLinks();
    fold();
  });
}
