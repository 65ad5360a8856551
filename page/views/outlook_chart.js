// The chart of the outlook, as SVG: a bar a period, a part an action; what is confirmed is filled, what is held is
// striped, the rest pale. The table beside it has the same numbers for whoever does not see it, and links for the
// keyboard; so the chart is hidden from both.
import { ACTIONS, STATES, countOf, stepsUpTo } from "../plain/outlook.js";

const SVG = "http://www.w3.org/2000/svg";
const [LEFT, TOP, BOTTOM, RIGHT] = [52, 12, 30, 8];

/** An element of SVG with these attributes, and these texts and elements in it. */
function drawn(tag, attributes = {}, ...children) {
  const node = document.createElementNS(SVG, tag);
  for (const [name, value] of Object.entries(attributes)) node.setAttribute(name, value);
  node.append(...children);
  return node;
}

const box = (x, y, width, height, more) => drawn("rect", { x, y, width, height, ...more });

/** The stripes of what is held, one pattern an action. */
function patterns(prefix) {
  const tile = { width: 6, height: 6, patternUnits: "userSpaceOnUse", patternTransform: "rotate(45)" };
  const stripes = (action) => [box(0, 0, 6, 6, { class: "under" }), box(0, 0, 3, 6, { class: `full ${action}` })];
  const pattern = (action) => drawn("pattern", { id: `${prefix}-${action}`, ...tile }, ...stripes(action));
  return drawn("defs", {}, ...ACTIONS.map(pattern));
}

/** The look of a part: filled, striped or pale. */
function partOf(prefix, action, state, x, y, width, height) {
  if (state === "held") return box(x, y, width, height, { class: `line ${action}`, fill: `url(#${prefix}-${action})` });
  const part = box(x, y, width, height, { class: `${state === "confirmed" ? "full" : "pale"} line ${action}` });
  // so that no line of the axis is seen through what is pale
  return drawn("g", {}, box(x, y, width, height, { class: "under" }), part);
}

/** A small box that shows how a part looks, for the legend. */
export function sample(action, state) {
  const prefix = `sample-${action}-${state}`;
  const look = { class: "sample", width: 18, height: 18, "aria-hidden": "true" };
  return drawn("svg", look, patterns(prefix), partOf(prefix, action, state, 1, 1, 16, 16));
}

function axis(width, steps, yOf, told) {
  return steps.flatMap((step) => [
    drawn("line", { x1: LEFT, x2: width - RIGHT, y1: yOf(step), y2: yOf(step), class: step ? "grid" : "base" }),
    drawn("text", { x: LEFT - 8, y: yOf(step) + 4, "text-anchor": "end" }, told(step)),
  ]);
}

/** One bar: a link over the whole height of the chart, and a link a part. */
function bar(period, { x, band, bottom, yOf, words, href }) {
  const width = Math.min(56, band * 0.72);
  const left = x + (band - width) / 2;
  const link = (action, ...children) => {
    const title = drawn("title", {}, words(period, action));
    return drawn("a", { href: href(period, action), tabindex: "-1" }, title, ...children);
  };
  const whole = link("", box(x, TOP, band, bottom - TOP, { class: "hit" }));
  let below = 0;
  const parts = ACTIONS.filter((action) => countOf(period.counts, action)).map((action) => {
    const boxes = STATES.map((state) => {
      const count = period.counts.by[action][state];
      const [high, low] = [yOf(below + count), yOf(below)];
      below += count;
      return count ? partOf("held", action, state, left, high, width, low - high) : "";
    });
    return link(action, ...boxes);
  });
  return drawn("g", { class: "bar" }, whole, ...parts);
}

/**
 * The chart of these periods, so many pixels wide. `label` is the word below a bar, `words` is what is said of a bar or
 * of its part, `href` is where that leads, `told` writes a number.
 */
export function chartOf(periods, width, height, { label, words, href, told }) {
  const most = Math.max(1, ...periods.map(({ counts }) => counts.total));
  const steps = stepsUpTo(most);
  const bottom = height - BOTTOM;
  const yOf = (count) => bottom - (count / steps[steps.length - 1]) * (bottom - TOP);
  const band = (width - LEFT - RIGHT) / periods.length;
  const every = Math.ceil(46 / band);
  const bars = periods.map((period, at) => bar(period, { x: LEFT + at * band, band, bottom, yOf, words, href }));
  const place = (at) => ({ x: LEFT + (at + 0.5) * band, y: height - 10, "text-anchor": "middle" });
  const labels = periods.map((period, at) => (at % every ? "" : drawn("text", place(at), label(period))));
  const look = { class: "chart", width, height, viewBox: `0 0 ${width} ${height}`, "aria-hidden": "true" };
  return drawn("svg", look, patterns("held"), ...axis(width, steps, yOf, told), ...bars, ...labels.filter(Boolean));
}
