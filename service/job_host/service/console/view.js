// How a job is shown: as a picture in a frame or as a list, which of its flows and splits are folded, and what failed.

import { element, isNarrow, renew, room } from "./dom.js";
import { overview, showPart, showPlace } from "./overview.js";
import { inside, numbered, picture, scaleOf, stateOf } from "./picture.js";
import { passes, read, TokenNeeded } from "./service.js";
import { tree } from "./tree.js";

// What a person looks for: the first of these that there is.
const SOUGHT = [
  { words: "To what failed", statuses: ["FAILED", "LOST"] },
  { words: "To what runs", statuses: ["STARTED", "STARTING", "STOPPING"] },
  { words: "To where it stopped", statuses: ["STOPPED"] },
];
const TALL = 690;
const KEPT = 50;

const layouts = new Map();
let view = { page: null };

// The page that is asked for. Its view begins anew with it.
export const pageNow = () => location.hash.split("?")[0];

// The numbers of the elements that a person looks for.
function lookedFor({ job, states }) {
  const found = numbered(job.elements).map((one) => (inside(one).length ? "" : stateOf(one, states).status));
  const those = (statuses) => found.flatMap((status, number) => (statuses.includes(status) ? [number] : []));
  const all = SOUGHT.map(({ words, statuses }) => ({ words, numbers: those(statuses) }));
  return all.find(({ numbers }) => numbers.length) || { words: "", numbers: [] };
}

// The numbers of the flows and splits around an element.
function around(elements, number) {
  const isIn = (one, index) => index < number && number <= index + numbered(inside(one)).length;
  return elements.flatMap((one, index) => (isIn(one, index) ? [index] : []));
}

function queryOf({ job, states, folded, unfolded }) {
  const version = job.version ? { version: job.version } : {};
  const words = new URLSearchParams({ jobName: job.id, ...version, downwards: isNarrow() });
  if (folded) return `${words}&folded=${[...folded].join(",")}`;
  const elements = numbered(job.elements);
  for (const number of lookedFor({ job, states }).numbers) around(elements, number).forEach((one) => unfolded.add(one));
  return `${words}&unfolded=${[...unfolded].join(",")}`;
}

// A job whose picture is refused for good is shown as a list: the rest of its page is as useful without a picture.
async function layoutOf(query) {
  try {
    return await read(`/batch/catalogue/picture?${query}`);
  } catch (fault) {
    if (fault instanceof TokenNeeded || passes(fault)) throw fault;
    return { folded: [], picture: null, fault: fault.title };
  }
}

// Reads how the job is laid out, unless that is known.
async function lay(wanted) {
  const [query, isDownwards] = [queryOf(wanted), isNarrow()];
  const layout = layouts.get(query) || { ...(await layoutOf(query)), isDownwards };
  if (layouts.size >= KEPT) layouts.clear();
  if (!layout.fault) layouts.set(query, layout);
  if (!wanted.layout || query === queryOf(wanted)) wanted.layout = layout;
}

// Has to be called before a page is drawn. What a person has folded stays so while the page stays.
export async function ready(page, job, states) {
  const fresh = { page, folded: null, unfolded: new Set(), at: -1, isList: false, isPlaced: false };
  const wanted = Object.assign(view.page === page ? view : fresh, { job, states });
  await lay(wanted);
  if (page === pageNow()) view = wanted;
}

function tool(action, words, more = {}) {
  return element("button", { type: "button", class: "small", "data-view": action, ...more }, words);
}

function tools() {
  const { numbers, words } = lookedFor(view);
  const hasFrames = view.job.elements.some((one) => inside(one).length);
  const isPicture = view.layout.picture && !view.isList;
  return element("div", { class: "tools" },
    numbers.length ? tool("jump", `${words} (F)`, { "aria-keyshortcuts": "F" }) : null,
    isPicture && hasFrames ? tool("unfold", "Unfold all") : null,
    isPicture && hasFrames ? tool("fold", "Fold all") : null,
    view.layout.picture ? tool("turn", view.isList ? "As a picture" : "As a list") : null);
}

function marks() {
  const elements = numbered(view.job.elements);
  const folded = new Set(view.layout.folded);
  return view.layout.picture.items
    .filter((item) => item.ending === undefined && (folded.has(item.element) || !inside(elements[item.element]).length))
    .map((item) => ({ at: item, status: stateOf(elements[item.element], view.states).status }));
}

function isLarge() {
  const { width, height } = view.layout.picture;
  const scale = scaleOf(view.layout, room());
  return width * scale > room() || height * scale > TALL;
}

// Why there is no picture.
function whyListed({ ways, mostWays, fault }) {
  if (fault) return `The service draws no picture of it (${fault}), so this is a list.`;
  const [many, most] = [ways, mostWays].map((number) => number.toLocaleString("en"));
  return `${many} ways lead from its elements. A picture has ${most} at most, so this is a list.`;
}

function listed() {
  return [view.layout.picture ? null : element("p", {}, whyListed(view.layout)), tree(view.job, view.states)];
}

function framed() {
  const use = { class: "picture", "data-key": "frame", tabindex: "0", role: "group" };
  const drawn = picture(view.job, view.layout, view.states, room());
  const frame = element("div", { ...use, "aria-label": "Picture of the job" }, drawn);
  return [isLarge() ? overview(view.layout, marks()) : null, frame];
}

// The job that is ready, with what it came to by now.
export function pictured(job, states) {
  Object.assign(view, { job, states });
  requestAnimationFrame(place);
  const shown = view.layout.picture && !view.isList ? framed() : listed();
  if (view.layout.isDownwards !== isNarrow()) change(() => {});
  return element("div", { class: "view", "data-key": "view" }, tools(), shown);
}

const find = (selector) => document.querySelector(selector);
const nodeOf = (number) => find(`.view [data-key="e${number}"]`);

// Begins where a person looks, and shows which part of the whole is seen.
function place() {
  const [drawn, frame] = [find(".view .overview"), find(".view .picture, .view .tree")];
  if (!frame) return;
  if (!view.isPlaced) {
    const first = numbered(view.job.elements).findIndex((one) => !inside(one).length);
    const node = seenOf(lookedFor(view).numbers[0] ?? first);
    if (node) centre(frame, node);
    view.isPlaced = true;
  }
  if (drawn) showPart(drawn, frame, view.layout);
}

// What is drawn of an element: itself, or a folded flow or split around it.
function seenOf(number) {
  const frames = around(numbered(view.job.elements), number);
  return [number, ...frames.reverse()].map(nodeOf).find(Boolean);
}

function centre(frame, node) {
  const [outer, inner] = [frame, node].map((one) => one.getBoundingClientRect());
  const [x, y] = [inner.left - outer.left, inner.top - outer.top];
  frame.scrollBy(x + (inner.width - outer.width) / 2, y + (inner.height - outer.height) / 2);
}

// Changes how the job is shown, and draws it anew.
async function change(how) {
  const changed = view;
  how(changed);
  const isLaid = await lay(changed).then(() => true, () => false);
  if (isLaid && changed === view && find(".view")) renew(find(".view"), pictured(view.job, view.states));
}

async function jump() {
  const { numbers } = lookedFor(view);
  if (!numbers.length) return;
  const number = numbers.find((one) => one > view.at) ?? numbers[0];
  const frames = new Set(around(numbered(view.job.elements), number));
  const others = view.layout.folded.filter((one) => !frames.has(one));
  if (others.length < view.layout.folded.length && !view.isList) await change((one) => { one.folded = others; });
  view.at = number;
  const node = nodeOf(number);
  if (!node) return;
  node.focus({ preventScroll: true });
  node.scrollIntoView({ block: "center", inline: "center" });
}

async function toggle(number) {
  const isFolded = view.layout.folded.includes(number);
  const others = view.layout.folded.filter((one) => one !== number);
  await change((one) => { one.folded = isFolded ? others : [...others, number]; });
  const fold = find(`.view [data-fold="${number}"]`);
  if (fold) fold.focus();
}

const frames = () => numbered(view.job.elements).flatMap((one, number) => (inside(one).length ? [number] : []));
const ACTIONS = {
  jump,
  unfold: () => change((one) => Object.assign(one, { folded: [], isPlaced: false })),
  fold: () => change((one) => Object.assign(one, { folded: frames(), isPlaced: false })),
  turn: () => change((one) => Object.assign(one, { isList: !one.isList, isPlaced: false })),
};

function press(target) {
  const [tooled, folding] = [target.closest("[data-view]"), target.closest("[data-fold]")];
  if (tooled) ACTIONS[tooled.dataset.view]();
  else if (folding) toggle(Number(folding.dataset.fold));
}

function onKey(event) {
  const isTyping = event.target.closest("input, textarea, select, dialog");
  if (isTyping || event.ctrlKey || event.metaKey || event.altKey || !find(".view")) return;
  if (event.key === "f" || event.key === "F") jump();
  if (!["Enter", " "].includes(event.key) || !event.target.closest("[data-fold]")) return;
  event.preventDefault();
  press(event.target);
}

function onPoint(event) {
  const drawn = event.target.closest(".view .overview");
  const isDrag = event.type === "pointerdown" || event.buttons === 1;
  if (drawn && isDrag) showPlace(drawn, find(".view .picture"), view.layout, event);
}

const main = document.getElementById("content");
main.addEventListener("click", (event) => press(event.target));
for (const name of ["pointerdown", "pointermove"]) main.addEventListener(name, onPoint);
main.addEventListener("scroll", place, true);
document.addEventListener("keydown", onKey);
window.addEventListener("resize", place);
