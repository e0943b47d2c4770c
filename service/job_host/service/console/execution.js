// The page of a job execution: what it came to and why, its picture, its steps, their logs, and its other attempts.

import { partitionsBar } from "./bars.js";
import {
  badge, button, element, executionLink, facts, heading, jobOf, MOST_ROWS, pageOf, pager, section, span, table, told,
  UNFINISHED, when,
} from "./dom.js";
import { logList, readOpenLogs } from "./logs.js";
import { causesSection } from "./open.js";
import { runnables } from "./picture.js";
import { read, shapeOf, USUAL_SIZE } from "./service.js";
import { pageNow, pictured, ready } from "./view.js";
import { waitingFor } from "./workers.js";

// The titles above the causes of these batch statuses.
const CAUSES = { FAILED: "Why it failed", STOPPED: "Where it stopped" };
// The lists of the page, each with its rows at once, and the words of the address that say which of its pages is shown.
const LISTS = { others: USUAL_SIZE, items: MOST_ROWS, logs: USUAL_SIZE, operations: USUAL_SIZE };

async function load(asked) {
  const { number, query } = asked;
  if (query.get("history")) return loadArchived(number, query.get("history"), query);
  try {
    return await loadKept(asked);
  } catch (fault) {
    if (!fault.archived) throw fault;
    return loadArchived(number, fault.archived.history, query);
  }
}

// What the archive has of a job execution of a history. Its lists have the same page.
async function loadArchived(number, history, query) {
  const page = pageOf(query) ? { page: pageOf(query) } : {};
  return { one: await read(`/batch/archive/jobexecutions/${number}`, { history, ...page }), isArchived: true };
}

async function loadKept({ number, query }) {
  const [asked, path] = [pageNow(), `/batch/jobexecutions/${number}`];
  const one = await read(path);
  const instance = `/batch/jobinstances/${one.instanceId}`;
  const search = query.get("logSearch") || "";
  const page = (name) => ({
    ...(LISTS[name] === USUAL_SIZE ? {} : { pageSize: LISTS[name] }),
    ...(pageOf(query, name) ? { page: pageOf(query, name) } : {}),
  });
  const [newest, others, items, logs, operations, shape, causes] = await Promise.all([
    read(instance), read(`${instance}/jobexecutions`, page("others")), read(`${path}/workitems`, page("items")),
    read(`${path}/joblogs`, { ...page("logs"), sizes: true, ...(search ? { search } : {}) }),
    read(`${path}/operations`, page("operations")), shapeOf(one.jobName, one.version),
    CAUSES[one.batchStatus] ? read(`${path}/causes`) : null,
  ]);
  const lists = { others, items, logs, operations };
  const isWhole = Object.fromEntries(Object.entries(lists).map(([name, rows]) =>
    [name, !pageOf(query, name) && rows.length < LISTS[name]]));
  const data = { one, newest, ...lists, isWhole, shape, causes };
  const states = new Map(runnables(shape.elements).map((each) => [each.id, stateOf(each.id, data)]));
  const mayWait = UNFINISHED.includes(one.batchStatus) && isWhole.items;
  const [waiting] = await Promise.all([
    waitingFor(mayWait, items), readOpenLogs(one, logs, items), ready(asked, shape, states),
  ]);
  return { ...data, states, waiting };
}

// What stands in the box of a step or decision: what this job execution made of it, or an earlier one.
function stateOf(id, { one, others, items, isWhole }) {
  const step = one.stepExecutions.find((each) => each.stepName === id);
  if (step) return { status: step.batchStatus, text: saying(step.batchStatus, step.exitStatus) };
  const item = items.filter((each) => each.stepName === id).pop();
  if (item) return { status: item.outcome || "STARTED", text: saying(item.outcome || "STARTED", item.exitStatus) };
  const earlier = others.filter((each) => each.executionId < one.executionId)
    .find((each) => each.stepExecutions.some((done) => done.stepName === id && done.batchStatus === "COMPLETED"));
  if (earlier) return { status: "COMPLETED", text: `COMPLETED in ${earlier.executionId}`, kind: "carried" };
  if (!isWhole.items) return { status: "", text: "not on this page" };
  const notRun = UNFINISHED.includes(one.batchStatus) ? "not yet run" : "not run";
  return { status: "", text: `${notRun}${isWhole.others ? "" : " here"}` };
}

function saying(status, exit) {
  return exit && exit !== status ? `${status}: ${exit}` : status;
}

function actions({ one, newest }, may) {
  if (!may("operate")) return null;
  const data = { execution: one.executionId };
  const isNewest = newest.executionId === one.executionId;
  const isOver = ["FAILED", "STOPPED"].includes(one.batchStatus);
  const unfinished = UNFINISHED.includes(newest.batchStatus);
  return element("p", { class: "actions" },
    isOver && isNewest ? button("restart", "Restart", data, "main") : null,
    UNFINISHED.includes(one.batchStatus) ? button("stop", "Stop", data, "main") : null,
    isOver ? button("abandon", "Abandon", data, "danger") : null,
    unfinished ? null : button("purge", "Purge", { instance: one.instanceId }, "danger"));
}

function parameterList(parameters) {
  const pairs = Object.entries(parameters);
  if (!pairs.length) return element("p", { class: "empty" }, "It has no parameters.");
  const valued = (name) => ({ tabindex: "0", role: "group", "aria-label": `Value of ${name}` });
  return element("dl", { class: "parameters" }, pairs.map(([name, value]) =>
    element("div", {}, element("dt", {}, told(name)), element("dd", valued(name), told(value)))));
}

function metrics(counts) {
  const pairs = Object.entries(counts);
  const words = (name) => name.replace(/_COUNT$/, "").toLowerCase().replaceAll("_", " ");
  return pairs.length ? element("ul", { class: "metrics" }, pairs.map(([name, number]) =>
    element("li", {}, `${words(name)} `, element("strong", {}, number.toLocaleString("en"))))) : "";
}

// How many partitions a step has, and what those that were claimed came to.
function partitionsOf(step, jobElement, { items, isWhole }) {
  if (!jobElement || !jobElement.partitions) return "";
  const groups = new Map();
  for (const item of items.filter((each) => each.stepName === step.stepName)) {
    const outcome = item.outcome || "STARTED";
    groups.set(outcome, (groups.get(outcome) || 0) + 1);
  }
  return partitionsBar(jobElement.partitions, groups, isWhole.items ? "" : ", on this page");
}

function stepsTable(data) {
  const { one, shape } = data;
  const elements = new Map(runnables(shape.elements).map((each) => [each.id, each]));
  const columns = [
    { name: "Step" }, { name: "Status" }, { name: "Exit status" }, { name: "Partitions" }, { name: "Started" },
    { name: "Ended" }, { name: "Took", kind: "number" }, { name: "Metrics", kind: "wide" },
  ];
  return table("Step executions", columns, one.stepExecutions.map((step) => ({
    key: step.stepName,
    cells: [
      told(step.stepName), badge(step.batchStatus), step.exitStatus === step.batchStatus ? "" : told(step.exitStatus),
      partitionsOf(step, elements.get(step.stepName), data),
      when(step.startTime), when(step.endTime), span(step.startTime, step.endTime), metrics(step.metrics),
    ],
  })), "No step was run.");
}

function workTable({ items }, may) {
  const mayLose = (may("operate") || may("work")) && items.some((item) => item.until === null);
  const columns = [
    { name: "Work item", kind: "number" }, { name: "Step or decision" }, { name: "Partition", kind: "number" },
    { name: "Outcome" }, { name: "Exit status" }, { name: "Worker" }, { name: "Claimed" }, { name: "Ended" },
    { name: "Took", kind: "number" }, ...(mayLose ? [{ name: "Action", kind: "action" }] : []),
  ];
  return table("Work items: each step, partition and decision that a worker claimed", columns, items.map((item) => ({
    key: item.work,
    cells: [
      String(item.work), told(item.stepName), item.partition === null ? "" : String(item.partition),
      badge(item.outcome || "STARTED"), told(item.exitStatus),
      told(item.client), when(item.since), when(item.until), span(item.since, item.until),
      ...(mayLose ? [item.until === null ? button("lose", "Lose", { work: item.work }, "small danger") : ""] : []),
    ],
  })), "No worker has claimed anything of it, or it was long ago.");
}

// What an operation was made on, besides the job execution that is shown.
function madeOn({ work, made }, one) {
  if (work) return `, work item ${work}`;
  return !made || made === one.executionId ? "" : [", job execution ", executionLink(made)];
}

function madeBy(client) {
  if (client === "") return "the service, as its lease ran out";
  return client === null ? "a client whose name isn't known any more" : told(client);
}

function operationsTable({ one, operations }) {
  const columns = [
    { name: "Operation", kind: "number" }, { name: "What" }, { name: "By" }, { name: "Token" }, { name: "From" },
    { name: "At" },
  ];
  return table("Who did what to this job execution, the newest first", columns, operations.map((each) => ({
    key: each.operation,
    // The archive has older ones without a token and an address.
    cells: [
      String(each.operation), [each.action, madeOn(each, one)], madeBy(each.client), told(each.token ?? ""),
      told(each.address ?? ""), when(each.time),
    ],
  })), "Nothing was done.");
}

function attempts({ one, others }) {
  const columns = [
    { name: "Job execution", kind: "number" }, { name: "Status" }, { name: "Exit status" },
    { name: "Steps", kind: "wide" }, { name: "Created" }, { name: "Ended" },
  ];
  const steps = (each) => element("ul", { class: "metrics" }, each.stepExecutions.map((step) =>
    element("li", {}, told(step.stepName), " ", element("strong", {}, step.batchStatus))));
  return table(`Job executions of job instance ${one.instanceId}, the newest first`, columns, others.map((each) => ({
    key: each.executionId,
    current: each.executionId === one.executionId,
    cells: [
      each.executionId === one.executionId ? `${each.executionId} (this one)` : executionLink(each.executionId),
      badge(each.batchStatus), each.exitStatus === each.batchStatus ? "" : told(each.exitStatus), steps(each),
      when(each.createTime), when(each.endTime),
    ],
  })), "There is none.");
}

// Links to the other pages of a list, if it has any.
function turn(name, label, data, { number, query }, words) {
  if (data.isWhole[name]) return null;
  const to = (page) => `#/execution/${number}?${new URLSearchParams({ ...Object.fromEntries(query), [name]: page })}`;
  return pager(label, pageOf(query, name), data[name].length === LISTS[name], to, "", words);
}

// Links to the other pages of what the archive has, if its lists have any.
function turnArchived({ executionId, history, more }, { query }) {
  const page = pageOf(query);
  const hasMore = Object.values(more).some(Boolean);
  if (!page && !hasMore) return null;
  const to = (number) => `#/execution/${executionId}?${new URLSearchParams({ history, page: number })}`;
  return pager("Pages of the lists", page, hasMore, to, `page ${page + 1} of each list`, ["Before", "After"]);
}

// What the archive has of a job execution that was purged.
function drawArchived(one, route) {
  const { operations, workItems: items } = one;
  const data = { one, operations, items, shape: { elements: [] }, isWhole: { items: true } };
  const label = ({ work, stepName }) => `Log of ${stepName}, work item ${work}`;
  const log = (each) => element("details", { "data-key": `log ${each.work}` },
    element("summary", {}, told(each.stepName), each.partition === null ? "" : `, partition ${each.partition}`,
      `, work item ${each.work}`),
    element("pre", { tabindex: "0", role: "group", "aria-label": label(each), dir: "auto" }, each.log));
  const logs = one.logs.filter((each) => each.log);
  return [
    heading("Job execution ", String(one.executionId), " of ", jobOf(one), " ", badge(one.batchStatus)),
    element("p", { class: "waits", role: "status" },
      "It was purged. The archive has it, in ", told(one.file), ", since ", when(one.archivedTime), "."),
    section("Facts", facts([
      ["Job instance", String(one.instanceId)],
      ["Exit status", one.exitStatus === null ? "" : told(one.exitStatus)],
      ["Created", when(one.createTime)], ["Started", when(one.startTime)], ["Ended", when(one.endTime)],
      ["Took", one.startTime ? span(one.startTime, one.endTime) : ""],
    ])),
    section("Parameters", parameterList(one.jobParameters)),
    section("Steps", stepsTable(data)),
    section("Work items", workTable(data, () => false)),
    section("Logs",
      logs.length ? logs.map(log) : element("p", { class: "empty" }, "No worker has handed in a log.")),
    section("Who did what", operationsTable(data)),
    turnArchived(one, route),
  ];
}

export const execution = {
  page: "executions",
  load,
  title: ({ number }) => `Job execution ${number}`,
  isLive: ({ one }) => UNFINISHED.includes(one.batchStatus),
  // Its own operations, and those on the other attempts. So a page of what is over rests.
  concerns: ({ isArchived, one, newest, others }, changed) =>
    !isArchived && [one, newest, ...others].some((each) => changed.includes(each.executionId)),
  draw(data, route, may) {
    const { one, shape } = data;
    if (data.isArchived) return drawArchived(one, route);
    return [
      heading("Job execution ", String(one.executionId), " of ", jobOf(one), " ", badge(one.batchStatus)),
      actions(data, may),
      data.waiting ? element("p", { class: "waits", role: "status" }, "It waits. ", data.waiting) : null,
      data.causes ? causesSection(CAUSES[one.batchStatus], data.causes) : null,
      section("Picture", pictured(shape, data.states)),
      section("Facts", facts([
        ["Job instance", String(one.instanceId)],
        ["Exit status", one.exitStatus === null ? "" : told(one.exitStatus)],
        ["Created", when(one.createTime)], ["Started", when(one.startTime)], ["Ended", when(one.endTime)],
        ["Took", one.startTime ? span(one.startTime, one.endTime) : ""],
        ["Updated", one.endTime ? "" : when(one.lastUpdatedTime)],
      ])),
      section("Parameters", parameterList(one.jobParameters)),
      section("Steps", stepsTable(data)),
      section("Work items", workTable(data, may),
        turn("items", "Pages of the work items", data, route, ["Earlier", "Later"])),
      section("Logs", logList(one, data.logs, route.query.get("logSearch") || ""),
        turn("logs", "Pages of the logs", data, route, ["Earlier", "Later"])),
      section("Who did what", operationsTable(data), turn("operations", "Pages of the operations", data, route)),
      section("Earlier and later job executions", attempts(data),
        turn("others", "Pages of the job executions", data, route)),
    ];
  },
};
