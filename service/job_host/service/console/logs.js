// The logs of a job execution. One that is open is read, and after that only what has come since.

import { button, element, told, UNFINISHED } from "./dom.js";
import { read, readText } from "./service.js";

// Of a job execution that is FAILED, so many logs are open at first.
const MOST_OPEN = 3;
// A file is written meanwhile.
const SAVED = 60000;
// Of the job execution that is shown, by work item: the text, where it ends, and the digest by which it is known again.
const texts = new Map();
let shownExecution = null;

function shown(work) {
  return document.querySelector(`details[data-log="${work}"]`);
}

function isOpen(one, logs, log) {
  const there = shown(log.work);
  if (there) return there.open;
  return logs.length === 1 || (one.batchStatus === "FAILED" && logs.length <= MOST_OPEN);
}

async function readLog(log, mayGrow) {
  const known = texts.get(log.work);
  if (known && !mayGrow && known.size === log.size) return;
  const answer = await read(`/batch/work/${log.work}/log`, known ? { offset: known.end, digest: known.digest } : {});
  const text = answer.offset ? known.text + answer.log : answer.log;
  texts.set(log.work, { text, end: answer.end, digest: answer.digest, size: log.size });
}

// `logs` are the rows of the list of logs, with their sizes, and `items` the work items that are known.
export async function readOpenLogs(one, logs, items) {
  if (shownExecution !== one.executionId) texts.clear();
  shownExecution = one.executionId;
  const over = new Set(items.filter((item) => item.until !== null).map((item) => item.work));
  const mayGrow = (log) => UNFINISHED.includes(one.batchStatus) && !over.has(log.work);
  await Promise.all(logs.filter((log) => log.size && isOpen(one, logs, log)).map((log) => readLog(log, mayGrow(log))));
}

function sizeOf({ size }) {
  return size < 1024 ? `${size} bytes` : `${Math.round(size / 1024)} KiB`;
}

function logText({ work, stepName }) {
  const known = texts.get(work);
  const label = `Log of ${stepName}, work item ${work}`;
  return known ? element("pre", { tabindex: "0", role: "group", "aria-label": label, dir: "auto" }, known.text) : null;
}

// Finds the logs that have a text, in small letters or in capitals.
function searchForm(execution, search) {
  return element("form",
    { class: "search", role: "search", "aria-label": "Logs", "data-form": "logs", "data-execution": execution },
    element("label", { for: "log-search" }, "Text in a log"),
    element("input", {
      id: "log-search", name: "search", "data-word": "logSearch", type: "search", value: search, maxlength: "256",
      autocomplete: "off", dir: "auto",
    }),
    element("button", { type: "submit" }, "Search"));
}

export function logList(one, logs, search) {
  const filled = logs.filter((log) => log.size);
  if (!filled.length && !search) return element("p", { class: "empty" }, "No worker has handed in a log.");
  const empty = filled.length ? null : element("p", { class: "empty" }, "No log has this text.");
  return [searchForm(one.executionId, search), empty, filled.map((log) => element("details",
    {
      "data-key": `log ${log.work}`, "data-log": log.work, "aria-label": `${log.stepName}, work item ${log.work}`,
      open: isOpen(one, logs, log),
    },
    element("summary", {}, told(log.stepName), log.partition === null ? "" : `, partition ${log.partition}`,
      `, work item ${log.work}, ${sizeOf(log)}`),
    texts.has(log.work) ? element("p", {}, button("save-log", "Save the raw log", { work: log.work }, "small")) : null,
    logText(log)))];
}

// Saves a log as a file.
export async function saveLog(work) {
  const text = await readText(`/batch/work/${work}/log?type=text`);
  const href = URL.createObjectURL(new Blob([text], { type: "text/plain" }));
  element("a", { href, download: `work-${work}.log` }).click();
  setTimeout(() => URL.revokeObjectURL(href), SAVED);
}

// Whether a part of the page is a log that was opened, and isn't read yet.
export function isUnread(part) {
  return part.matches("details[data-log]") && part.open && !texts.has(Number(part.dataset.log));
}
