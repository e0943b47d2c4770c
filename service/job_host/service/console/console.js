// The console: which page is shown, how it follows the service, and who it is shown to.

import { explained, question } from "./actions.js";
import { element, heading, renewChildren } from "./dom.js";
import { execution } from "./execution.js";
import { isUnread, readOpenLogs, saveLog } from "./logs.js";
import { chosenIn, manyQuestion } from "./many.js";
import { executions, job, jobs, warningOf, work } from "./pages.js";
import { charactersTaken, follow, hasToken, passes, read, setToken, TokenNeeded } from "./service.js";
import { workers } from "./workers.js";

// After a read a page rests so many milliseconds at least, and so many times as long as it read. It rests longer if
// it would take more than so many characters a second otherwise: many screens may follow one service.
const REST = 700;
const RESTS = 5;
const MOST_CHARACTERS = 12000;
const LIVE = 5000;
const SAID = 8000;
const FAULT_REST = 2000;
// What is shown is old if it lacks something for so many milliseconds, or if the service is gone.
const OLD = 10000;
// Pages whose addresses have nothing but their name and a query.
const PLAIN = new Map([["executions", executions], ["work", work], ["workers", workers]]);
const main = document.getElementById("content");

let caller = null;
let route = null;
let data = null;
let history = null;
let isFollowing = false;
let reading = 0;
let isStale = false;
let isGone = false;
let readAt = 0;
let staleSince = 0;
let restUntil = 0;

const may = (right) => caller !== null && caller.rights.includes(right);

function routeOf(hash) {
  const [path, words] = hash.replace(/^#\//, "").split("?");
  const [first, second] = path.split("/");
  const query = new URLSearchParams(words || "");
  if (first === "execution" && /^\d+$/.test(second || "")) return { page: execution, number: second, query };
  if (first === "job" && second) return { page: job, name: decoded(second), query };
  return { page: PLAIN.get(first) || jobs, query };
}

function decoded(text) {
  try {
    return decodeURIComponent(text);
  } catch {
    return text;
  }
}

function say(words) {
  const sentence = element("span", {}, words);
  document.getElementById("said").replaceChildren(sentence);
  setTimeout(() => sentence.remove(), SAID);
}

function markPage(name) {
  for (const one of document.querySelectorAll("header nav a")) {
    if (one.dataset.page === name) one.setAttribute("aria-current", "page");
    else one.removeAttribute("aria-current");
  }
}

function draw() {
  renewChildren(main, route.page.draw(data, route, may).filter(Boolean));
  document.title = `${route.page.title(route)} \u2013 Job console`;
}

function drawFault(fault) {
  data = null;
  if (fault instanceof TokenNeeded) return askToken();
  const reason = element("p", { class: "fault", role: "alert" }, explained(fault));
  return main.replaceChildren(heading("Nothing to show"), reason);
}

function markStale() {
  isStale = true;
  staleSince = staleSince || Date.now();
}

// Says of what moment the page is, if it is old.
function showAge() {
  const isOld = data !== null && (isGone || (staleSince > 0 && Date.now() - staleSince > OLD));
  const text = isOld ? `as of ${new Date(readAt).toISOString().slice(11, 19)}` : "";
  const place = document.getElementById("as-of");
  if (place.textContent !== text) place.textContent = text;
  main.classList.toggle("old", isOld);
}

// Reads the page's data anew, and shows it if the page is still the same.
async function refresh(isNew) {
  const asked = route;
  const [begun, taken] = [Date.now(), charactersTaken()];
  let rest = REST;
  reading += 1;
  isStale = false;
  try {
    const [fresh] = await Promise.all([asked.page.load(asked), isNew || !history ? readHistory() : null]);
    if (asked !== route) return;
    data = fresh;
    readAt = begun;
    staleSince = isStale ? begun : 0;
    if (isNew) main.replaceChildren();
    draw();
    rest = Math.max(REST, RESTS * (Date.now() - begun), (1000 * (charactersTaken() - taken)) / MOST_CHARACTERS);
  } catch (fault) {
    if (asked !== route) return;
    if (isNew || !passes(fault) || fault instanceof TokenNeeded) drawFault(fault);
    if (passes(fault)) markStale();
    rest = FAULT_REST;
  } finally {
    reading -= 1;
    restUntil = Date.now() + rest;
  }
}

function isSamePage(one, other) {
  return one !== null && one.page === other.page && one.number === other.number && one.name === other.name;
}

// Shows the page of the address. Its heading has the focus then, except on the first page, and where a list is
// narrowed.
async function navigate() {
  if (!caller || (location.hash && !location.hash.startsWith("#/"))) return;
  const before = route;
  const asked = routeOf(location.hash || "#/");
  route = asked;
  if (!isSamePage(before, asked)) data = null;
  markPage(route.page.page);
  await refresh(!isSamePage(before, asked));
  if (asked !== route) return;
  for (const field of main.querySelectorAll("input[data-word]")) {
    field.value = asked.query.get(field.dataset.word) || "";
  }
  const title = main.querySelector("h1");
  if (title && before !== null && !isSamePage(before, asked)) title.focus();
}

// Reads again what has changed: soon after an event, and from time to time where something runs.
function tick() {
  showAge();
  if (!caller || !route || reading || document.hidden || Date.now() < restUntil) return;
  const isOld = data !== null && route.page.isLive(data) && Date.now() > restUntil + LIVE;
  if (isStale || isOld) refresh(false);
}

async function readHistory() {
  history = await read("/batch/history");
  showWarning();
}

function showWarning() {
  const warning = warningOf(history);
  const place = document.getElementById("warning");
  place.hidden = !warning;
  if (place.textContent !== warning) place.textContent = warning;
}

function onEvent(event) {
  const place = document.getElementById("connection");
  const text = event === null ? "not connected" : event.role === "leader" ? "live" : event.role;
  place.textContent = text;
  place.className = `connection ${event === null ? "off" : event.role}`;
  isGone = event === null;
  if (isGone) return;
  if (history) {
    history.operations = event.operations;
    showWarning();
  }
  // An event that names no job executions may be of any.
  const concerns = route?.page.concerns;
  if (!concerns || !data || !event.executions || concerns(data, event.executions)) markStale();
}

function askToken() {
  caller = null;
  const field = element("input", { id: "token", type: "password", autocomplete: "off", required: true });
  const form = element("form", { class: "token" },
    element("p", {}, "This service is called with a token. It is kept until you close this tab."),
    element("label", { for: "token" }, "Token"), field, element("button", { type: "submit", class: "main" }, "Go on"));
  form.addEventListener("submit", (event) => {
    event.preventDefault();
    setToken(field.value.trim());
    begin();
  });
  route = null;
  const refused = element("p", { class: "fault", role: "alert" }, "The service doesn't know this token.");
  const shown = hasToken() ? [refused, form] : [form];
  setToken(null);
  main.replaceChildren(heading("Who are you?"), ...shown);
  field.focus();
}

function showCaller() {
  const roles = may("operate") ? (may("work") ? "" : "operator") : may("work") ? "worker" : "reader";
  document.getElementById("caller").textContent = [caller.name, roles].filter(Boolean).join(", ");
  document.getElementById("forget").hidden = !hasToken();
}

async function begin() {
  try {
    caller = await read("/batch/caller");
  } catch (fault) {
    drawFault(fault);
    if (!(fault instanceof TokenNeeded)) setTimeout(begin, 2000);
    return;
  }
  showCaller();
  route = null;
  if (!isFollowing) {
    isFollowing = true;
    follow(onEvent).then(() => {
      isFollowing = false;
      if (caller) askToken();
    });
  }
  await navigate();
}

function chooseAll() {
  for (const box of main.querySelectorAll("input[data-choose]")) box.checked = true;
}

function afterwards(said, target) {
  say(said);
  markStale();
  restUntil = 0;
  if (target && target !== location.hash) location.hash = target;
}

// Saves a log, or asks an operation's question.
async function actOnOne(given) {
  try {
    if (given.action === "save-log") await saveLog(given.work);
    else await question(given.action, given, afterwards);
  } catch (fault) {
    if (fault instanceof TokenNeeded) askToken();
    else say(explained(fault));
  }
}

function actOnMany(action) {
  manyQuestion(action.replace("-many", ""), chosenIn(data.jobExecutions), afterwards);
}

function act(pressed) {
  const { action } = pressed.dataset;
  if (action === "choose-all") chooseAll();
  else if (action.endsWith("-many")) actOnMany(action);
  else actOnOne({ ...pressed.dataset });
}

main.addEventListener("click", (event) => {
  const pressed = event.target.closest("button[data-action]");
  if (pressed) act(pressed);
});

main.addEventListener("toggle", async (event) => {
  if (!data || !isUnread(event.target)) return;
  const asked = route;
  try {
    await readOpenLogs(data.one, data.logs, data.items);
    if (asked === route && data) draw();
  } catch (fault) {
    if (fault instanceof TokenNeeded) askToken();
    else say(explained(fault));
  }
}, true);

main.addEventListener("input", (event) => {
  if (["filter", "sort"].includes(event.target.id) && data) draw();
});

main.addEventListener("submit", (event) => {
  const form = event.target.closest("form[data-form]");
  if (!form) return;
  event.preventDefault();
  const words = [...form.querySelectorAll("input[data-word]")].map((field) => [field.dataset.word, field.value.trim()]);
  const { status, job: jobName, execution: number } = form.dataset;
  const kept = Object.entries({ status, jobName, ...Object.fromEntries(words) }).filter(([, value]) => value);
  location.hash = `#/${number ? `execution/${number}` : "executions"}?${new URLSearchParams(kept)}`;
});

document.getElementById("skip").addEventListener("click", (event) => {
  event.preventDefault();
  main.focus();
});

document.getElementById("forget").addEventListener("click", () => {
  setToken(null);
  location.reload();
});

window.addEventListener("hashchange", () => {
  document.getElementById("question").close();
  navigate();
});
window.matchMedia("(max-width: 45rem)").addEventListener("change", () => { if (data) draw(); });
setInterval(tick, 100);
begin();
