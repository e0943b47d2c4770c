// The service: reads that never go back, operations by one request key each, and the stream of events.

// Rows of a page of a list if none are named.
export const USUAL_SIZE = 50;
const PATIENCE = 30000;
const PAUSE = 500;
const PASSING = [408, 425, 429, 502, 503, 504];
const LASTING = ["HistoryAlmostFull", "RepositoryFull", "ArchiveFailed", "NotLeader"];
const TOKEN = "jobhost-token";

// Reads are counted for each tab, so that many consoles don't stand in one another's way.
const TAB = `console-${requestKey().slice(0, 8)}`;

// What an answer has beside its body.
const HEAD_CHARACTERS = 300;

// How many operations of each queue were seen.
let seen = [];
let taken = 0;
let forgeryToken = document.querySelector("meta[name=forgery-token]").content;

export class Refused extends Error {
  constructor(status, document) {
    super(document.title || `status ${status}`);
    this.status = status;
    this.title = document.title || `status ${status}`;
    this.detail = document.detail || "";
    this.leader = document.leader || "";
    // Where the archive has what isn't in the history any more.
    this.archived = document.archived || null;
  }
}

export class TokenNeeded extends Error {}

export function setToken(token) {
  if (token) sessionStorage.setItem(TOKEN, token);
  else sessionStorage.removeItem(TOKEN);
}

export function hasToken() {
  return sessionStorage.getItem(TOKEN) !== null;
}

const pause = (milliseconds) => new Promise((done) => setTimeout(done, milliseconds));

function headers(more) {
  const token = sessionStorage.getItem(TOKEN);
  return { "Batch-Client": "console", ...(token ? { Authorization: `Bearer ${token}` } : {}), ...more };
}

export function numbersIn(text) {
  return text.split(",").map(Number);
}

// All that either of them saw.
export function both(one, other) {
  const length = Math.max(one.length, other.length);
  return Array.from({ length }, (_, place) => Math.max(one[place] || 0, other[place] || 0));
}

const seenText = () => seen.join(",") || "0";

async function documentOf(response) {
  try {
    return await response.json();
  } catch {
    return {};
  }
}

async function ask(method, path, body, more) {
  const kind = body ? { "Content-Type": "application/json" } : {};
  const given = headers({ "Batch-Forgery-Token": forgeryToken, ...kind, ...more });
  const text = body ? JSON.stringify(body) : undefined;
  const response = await fetch(path, { method, headers: given, body: text, cache: "no-store" });
  if (response.status === 401) throw new TokenNeeded();
  if (!response.ok) throw new Refused(response.status, await documentOf(response));
  seen = both(seen, numbersIn(response.headers.get("Batch-Operations") || "0"));
  const answer = await response.text();
  taken += answer.length + HEAD_CHARACTERS;
  return JSON.parse(answer);
}

// How many characters the answers until now had.
export function charactersTaken() {
  return taken;
}

export function read(path, parameters = {}) {
  const query = new URLSearchParams(parameters).toString();
  return ask("GET", query ? `${path}?${query}` : path, null, { "Batch-Client": TAB, "Batch-At-Least": seenText() });
}

// A text as it is, and no document.
export async function readText(path) {
  const given = headers({ "Batch-Client": TAB, "Batch-At-Least": seenText() });
  const response = await fetch(path, { headers: given, cache: "no-store" });
  if (response.status === 401) throw new TokenNeeded();
  if (!response.ok) throw new Refused(response.status, await documentOf(response));
  return response.text();
}

const shapes = new Map();

// A version of a job, as the catalogue has it. A catalogue that is kept may get more versions, and changes none.
export async function shapeOf(jobName, version = 1) {
  const key = `${version} ${jobName}`;
  if (!shapes.has(key)) shapes.set(key, { ...await read("/batch/catalogue", { jobName, version }), version });
  return shapes.get(key);
}

// The newest version of a job.
export async function newestShapeOf(jobName) {
  return { version: 1, ...await read("/batch/catalogue", { jobName }) };
}

// After a new start the service has another token, which its page brings.
async function renewForgeryToken() {
  const text = await (await fetch("/", { cache: "no-store" })).text();
  const found = /<meta name="forgery-token" content="([^"]+)">/.exec(text);
  if (found) forgeryToken = found[1];
}

export function requestKey() {
  return [...crypto.getRandomValues(new Uint8Array(16))].map((byte) => byte.toString(16).padStart(2, "0")).join("");
}

// Whether the same request may be answered later. Else it was refused for good.
export function passes(fault) {
  return !(fault instanceof Refused) || (PASSING.includes(fault.status) && !LASTING.includes(fault.title));
}

// Makes one operation. It is asked again by its key until it is answered, so it is made once.
export async function operate(method, path, body, key) {
  const deadline = Date.now() + PATIENCE;
  let isRenewed = false;
  for (;;) {
    try {
      return await ask(method, path, body, { "Idempotency-Key": key });
    } catch (fault) {
      if (fault instanceof TokenNeeded) throw fault;
      if (fault.title === "ForgedRequest" && !isRenewed) {
        isRenewed = true;
        await renewForgeryToken();
        continue;
      }
      if (!passes(fault) || Date.now() > deadline) throw fault;
      await pause(PAUSE);
    }
  }
}

async function* lines(response) {
  const reader = response.body.pipeThrough(new TextDecoderStream()).getReader();
  let rest = "";
  for (;;) {
    const { done, value } = await reader.read();
    if (done) return;
    const parts = (rest + value).split("\n");
    rest = parts.pop();
    yield* parts;
  }
}

function untilShown() {
  return new Promise((done) => {
    const look = () => {
      if (document.hidden) return;
      document.removeEventListener("visibilitychange", look);
      done();
    };
    document.addEventListener("visibilitychange", look);
    look();
  });
}

// Tells the events of one stream. It ends with the stream, or if the tab is hidden: a browser has few connections for
// all its tabs.
async function followOnce(tell) {
  const stop = new AbortController();
  const look = () => { if (document.hidden) stop.abort(); };
  document.addEventListener("visibilitychange", look);
  try {
    const given = headers({ "Batch-Client": TAB });
    const response = await fetch("/batch/events", { headers: given, cache: "no-store", signal: stop.signal });
    if (!response.ok) return response.status;
    for await (const line of lines(response)) {
      if (line.startsWith("data: ")) tell(JSON.parse(line.slice(6)));
    }
    return response.status;
  } finally {
    document.removeEventListener("visibilitychange", look);
  }
}

// Tells each event, and null if the service is gone. It begins anew until a token is needed.
export async function follow(tell) {
  for (;;) {
    await untilShown();
    if (await followOnce(tell).catch(() => 0) === 401) return;
    if (!document.hidden) {
      tell(null);
      await pause(1000);
    }
  }
}
