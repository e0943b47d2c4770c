// The picture of a job, as the service has laid it out: its elements with what each came to.

import { drawing, sign } from "./dom.js";

const PAD = 14;
const FOLD = 18;
const NAME_LETTERS = 18;
const STATE_LETTERS = 21;
const LABEL_LETTERS = 16;
const LEAST_SCALE = 0.7;
// What is told of a folded flow or split: the first of these that anything inside it came to.
const TELLING = ["FAILED", "LOST", "STOPPING", "STARTED", "STARTING", "STOPPED", "ABANDONED", "COMPLETED"];

function cut(text, most) {
  const letters = [...text];
  return letters.length > most ? `${letters.slice(0, most - 1).join("")}\u2026` : text;
}

export function inside(element) {
  return element.elements || element.flows || [];
}

// All elements in written order, flows of splits too. The service names them by their places in it.
export function numbered(elements) {
  return elements.flatMap((one) => [one, ...numbered(inside(one))]);
}

// Every step and decision of a job, at all depths, in the order in which they are written.
export function runnables(elements) {
  return numbered(elements).filter((one) => !inside(one).length);
}

export function kindOf(element) {
  const steps = runnables(inside(element)).length;
  if (steps) return `${element.kind}, ${steps} ${steps === 1 ? "step" : "steps"}`;
  const kind = element.kind === "decision" ? "decision" : element.chunk ? "chunk" : "batchlet";
  if (!element.partitions) return kind;
  return `${kind}, ${element.partitions} ${element.partitions === 1 ? "partition" : "partitions"}`;
}

// What an element came to; of a flow or split how many of its steps came to the worst of it.
export function stateOf(element, states) {
  const steps = runnables(inside(element));
  if (!steps.length) return states.get(element.id) || { status: "", text: "" };
  const found = steps.map((one) => (states.get(one.id) || {}).status);
  const status = TELLING.find((one) => found.includes(one)) || "";
  return { status, text: status ? `${found.filter((one) => one === status).length} of ${steps.length} ${status}` : "" };
}

function drawWay(way, isDownwards) {
  const arrow = way.tip ? drawing("polygon", { class: "arrow", points: arrowTo(way.tip, isDownwards) }) : null;
  return [drawing("path", { class: "edge", d: way.path }), arrow, way.label ? label(way) : null];
}

function arrowTo([x, y], isDownwards) {
  const back = isDownwards ? `${x - 4},${y - 8} ${x + 4},${y - 8}` : `${x - 8},${y - 4} ${x - 8},${y + 4}`;
  return `${x},${y} ${back}`;
}

function label({ label: text, label_at: [x, y], anchor }) {
  const at = { class: "label", x, y, "text-anchor": anchor };
  return drawing("text", at, drawing("title", {}, text), cut(text, LABEL_LETTERS));
}

function placed({ x, y }, key, more) {
  return { "data-key": key, transform: `translate(${x} ${y})`, ...more };
}

function drawBox(item, element, states) {
  const { width, height } = item;
  const isFolded = inside(element).length > 0;
  const state = stateOf(element, states);
  const text = (y, kind, words) => drawing("text", { class: kind, x: width / 2, y, "text-anchor": "middle" }, words);
  const said = state.text ? `${sign(state.status)} ${cut(state.text, STATE_LETTERS)}` : "";
  const words = [element.id, kindOf(element), state.text].filter(Boolean);
  const kind = `box status-${state.status || "none"} ${state.kind || ""} ${isFolded ? "folded" : ""}`;
  const use = isFolded
    ? { role: "button", tabindex: "0", "aria-expanded": "false", "data-fold": item.element }
    : { role: "img", tabindex: "-1", "data-element": element.id };
  return drawing("g", placed(item, `e${item.element}`, { class: kind, "aria-label": words.join(", "), ...use }),
    drawing("title", {}, words.join("\n")),
    drawing("rect", { width, height, rx: element.kind === "decision" ? 22 : 8 }),
    text(22, "name", isFolded ? `+ ${cut(element.id, NAME_LETTERS - 2)}` : cut(element.id, NAME_LETTERS)),
    text(said ? 40 : 44, "kind", kindOf(element)),
    text(57, "state", said));
}

function drawFrame(item, element) {
  const { width, height } = item;
  const name = `${element.kind} ${element.id}`;
  const use = { role: "button", tabindex: "0", "aria-expanded": "true", "aria-label": name, "data-fold": item.element };
  return drawing("g", placed(item, `e${item.element}`, { class: `frame ${element.kind}` }),
    drawing("rect", { width, height, rx: 10 }),
    drawing("g", { class: "fold", transform: `translate(${PAD - 6} 4)`, ...use },
      drawing("rect", { width: FOLD, height: FOLD, rx: 4 }),
      drawing("text", { x: FOLD / 2, y: 14, "text-anchor": "middle" }, "\u2212")),
    drawing("text", { class: "name", x: PAD + FOLD, y: 18 },
      drawing("title", {}, element.id), `${element.kind} ${cut(element.id, NAME_LETTERS)}`));
}

function drawEnding(item, ending) {
  const { width, height } = item;
  const { kind, restart } = ending;
  const exit = ending["exit-status"];
  const words = [
    kind, exit === undefined ? "" : `exit status ${exit}`, restart ? `a restart begins at ${restart}` : "",
  ].filter(Boolean);
  const said = exit === undefined ? kind : `${kind}: ${exit}`;
  return drawing("g", placed(item, `e${item.element} ${item.ending}`, { class: `ending ${kind}` }),
    drawing("title", {}, words.join("\n")),
    drawing("rect", { width, height, rx: height / 2 }),
    drawing("text", { x: width / 2, y: height / 2 + 4, "text-anchor": "middle" }, cut(said, 13)));
}

function drawItem(item, elements, states, isFrame) {
  const element = elements[item.element];
  if (item.ending !== undefined) return drawEnding(item, element.transitions[item.ending]);
  return isFrame(item) ? drawFrame(item, element) : drawBox(item, element, states);
}

// A picture that is somewhat too wide is made smaller. One that is far too wide is scrolled, so it can be read.
export function scaleOf(layout, room) {
  const scale = room / layout.picture.width;
  return scale < LEAST_SCALE ? 1 : Math.min(1, scale);
}

// `states` says of each step and decision its status, and what stands in its box.
export function picture(job, layout, states, room) {
  const { width, height, items, ways } = layout.picture;
  const scale = scaleOf(layout, room);
  const elements = numbered(job.elements);
  const folded = new Set(layout.folded);
  const isFrame = (item) => inside(elements[item.element]).length > 0 && !folded.has(item.element);
  const draw = (item) => drawItem(item, elements, states, isFrame);
  const said = (one) => [one.id, stateOf(one, states).text].filter(Boolean).join(" ");
  const use = { role: "group", "aria-label": `The job ${job.id}: ${runnables(job.elements).map(said).join("; ")}` };
  const isBelow = (item) => item.ending === undefined && isFrame(item);
  return drawing("svg", { viewBox: `0 0 ${width} ${height}`, width: width * scale, height: height * scale, ...use },
    drawing("g", {}, items.filter(isBelow).map(draw)),
    drawing("g", {}, ways.map((way) => drawWay(way, layout.isDownwards))),
    drawing("g", {}, items.filter((item) => !isBelow(item)).map(draw)));
}
