// While many acts are sent: how far that is, and a button that stops after the request that is under way.
import { grouped, made } from "../page.js";
import { stepsOf } from "../plain/many.js";
import { t } from "../texts.js";

/**
 * Shows in a bar how far its requests are, and lets nothing else of it be pressed meanwhile. What is returned is called
 * before each request, and says whether that may go; its `end` takes the progress away.
 */
export function working(bar, requests) {
  const count = stepsOf(requests).length;
  const progress = made("progress", { max: "1", value: "0", "aria-label": t("marked.progress") });
  const at = made("span", { role: "status" });
  const stop = made("button", { type: "button", class: "quiet" }, t("filing.stop"));
  const row = made("div", { class: "progress" }, progress, at, stop);
  const held = [...bar.children];
  const stay = (event) => event.preventDefault();
  let goesOn = true;
  stop.addEventListener("click", () => {
    goesOn = false;
    at.textContent = t("filing.stopping");
  });
  for (const part of held) part.inert = true;
  bar.setAttribute("aria-busy", "true");
  bar.append(row);
  // a page that is left just now would not learn what became of the acts
  addEventListener("beforeunload", stay);
  const ask = ({ behind, request }) => {
    progress.value = behind / count;
    const words = { behind: grouped(behind), count: grouped(count), list: request, lists: requests.length };
    if (goesOn) at.textContent = t("filing.progress", words);
    return goesOn;
  };
  const end = () => {
    removeEventListener("beforeunload", stay);
    bar.removeAttribute("aria-busy");
    for (const part of held) part.inert = false;
    row.remove();
  };
  return Object.assign(ask, { end });
}
