// The pages: each has what it reads, and what it shows of that.

import { archivedBy, archiveSection } from "./archive.js";
import { tookBar } from "./bars.js";
import {
  badge, button, count, element, executionLink, facts, heading, jobOf, link, MOST_ROWS, pageOf, pager, section, span,
  STATUSES, table, told, UNFINISHED, when,
} from "./dom.js";
import { mayBeChosen } from "./many.js";
import { lookSection, openSection } from "./open.js";
import { newestShapeOf, read, USUAL_SIZE } from "./service.js";
import { pageNow, pictured, ready } from "./view.js";

const NEWEST = 8;
const RESTARTABLE = ["FAILED", "STOPPED"];

function fill(history) {
  const share = (100 * history.operations) / history.mostOperations;
  const percent = share > 0 && share < 0.01 ? "less than 0.01" : share.toFixed(2);
  const [made, most] = [history.operations, history.mostOperations].map((number) => number.toLocaleString("en"));
  return `${made} of ${most} operations (${percent} %)`;
}

// What is said on every page if the history is almost full.
export function warningOf(history) {
  if (history.operations < history.warnFrom) return "";
  const stop = history.operations >= history.refuseFrom ? " Nothing can be started or restarted any more." : "";
  return `The history is almost full: ${fill(history)}.${stop} Begin a new one soon.`;
}

// With `mayChoose` many may be chosen, on which an operation is made at once.
function executionsTable(caption, rows, empty, mayChoose = false) {
  const columns = [
    { name: "Job execution", kind: "number" }, { name: "Job" }, { name: "Status" }, { name: "Exit status" },
    { name: "Parameters", kind: "wide" }, { name: "Created" }, { name: "Ended" }, { name: "Took", kind: "number" },
    ...(mayChoose ? [{ name: "Choose", kind: "action" }] : []),
  ];
  const exit = (row) => (row.exitStatus === row.batchStatus ? "" : told(row.exitStatus));
  return table(caption, columns, rows.map((row) => ({
    key: row.executionId,
    cells: [
      executionLink(row.executionId), jobOf(row),
      [badge(row.batchStatus), isSettled(row) ? " restarted" : ""],
      [exit(row), failedSteps(row)], told(row.parameterText || ""), when(row.createTime), when(row.endTime),
      row.startTime ? [span(row.startTime, row.endTime), " ", tookBar(row)] : "",
      ...(mayChoose ? [mayBeChosen(row) ? choice(row) : ""] : []),
    ],
  })), empty);
}

function manyButtons() {
  return element("p", { class: "actions", "data-key": "many" },
    button("restart-many", "Restart the chosen"), button("stop-many", "Stop the chosen"),
    button("choose-all", "Choose all of this page", {}, "quiet"));
}

// Told by the list if it was asked for details.
function failedSteps({ failedSteps: names }) {
  return names?.length ? element("p", {}, "in ", names.map((name, place) => [place ? ", " : "", told(name)])) : null;
}

function choice({ executionId }) {
  const label = `Choose job execution ${executionId}`;
  return element("input", { type: "checkbox", "data-choose": executionId, "aria-label": label });
}

// It failed or was stopped, and its job instance has gone on since then.
function isSettled(row) {
  return RESTARTABLE.includes(row.batchStatus) && !row.mostRecent;
}

function tile(href, status, number, isCurrent, name = status) {
  const given = { href, class: `tile ${status ? `status-${status}` : ""}`, "aria-current": isCurrent ? "true" : null };
  return element("li", {},
    element("a", given, element("strong", {}, number.toLocaleString("en")), " ", name || "all"));
}

function counts(statusCounts, query, current) {
  const total = Object.values(statusCounts).reduce((sum, number) => sum + number, 0);
  const to = (status) => `#/executions?${new URLSearchParams({ ...query, ...(status ? { status } : {}) })}`;
  const of = (status, number) => tile(to(status), status, number, status === current);
  return element("ul", { class: "tiles", "aria-label": "Job executions by batch status" },
    of("", total), STATUSES.map((status) => of(status, statusCounts[status] || 0)));
}

// How much is open, and how much isn't finished.
function openCounts(open, statusCounts, current) {
  const to = (status) => (status === current ? "#/" : `#/?status=${status}`);
  const of = (status) => tile(to(status), status, open[status], status === current, `${status}, open`);
  return element("ul", { class: "tiles", "aria-label": "What is open, and what isn't finished" }, RESTARTABLE.map(of),
    UNFINISHED.map((status) => tile(`#/executions?status=${status}`, status, statusCounts[status] || 0, false)));
}

// Failing jobs come first, then those that were stopped, then those that run.
function rank({ jobName, newest }, open) {
  const ofJob = open.filter((one) => one.jobName === jobName);
  const statuses = [newest ? newest.batchStatus : "", ...ofJob.map((one) => one.batchStatus)];
  const place = ["FAILED", "STOPPED"].findIndex((status) => statuses.includes(status));
  if (place >= 0) return place;
  return UNFINISHED.includes(statuses[0]) ? 2 : 3;
}

function byText(one, other) {
  return one < other ? -1 : Number(one > other);
}

// How jobs may be sorted; each keeps the order of those that it finds alike.
const SORTS = {
  "failing first": (one, other, open) => rank(one, open) - rank(other, open),
  "by name": (one, other) => byText(one.jobName, other.jobName),
  "changed last first": (one, other) => byText(other.newest?.lastUpdatedTime || "", one.newest?.lastUpdatedTime || ""),
  "most job instances first": (one, other) => other.instances - one.instances,
};

function filterForm() {
  return element("div", { class: "search" }, element("label", { for: "filter" }, "Part of a job's name"),
    element("input", { id: "filter", type: "search", maxlength: "256", autocomplete: "off", dir: "auto" }),
    element("label", { for: "sort" }, "Order"),
    element("select", { id: "sort" }, Object.keys(SORTS).map((name) => element("option", {}, name))));
}

function jobsTable(catalogue, open, may) {
  const columns = [
    { name: "Job" }, { name: "Job instances", kind: "number" }, { name: "Last job execution", kind: "number" },
    { name: "Status" }, { name: "Updated" },
    ...(may("operate") ? [{ name: "Action", kind: "action" }] : []),
  ];
  const wanted = (document.getElementById("filter")?.value || "").trim().toLowerCase();
  const order = document.getElementById("sort")?.value || Object.keys(SORTS)[0];
  const shown = catalogue.jobs.filter((job) => job.jobName.toLowerCase().includes(wanted))
    .sort((one, other) => SORTS[order](one, other, open));
  const rows = shown.map((job) => ({
    key: job.jobName,
    cells: [
      jobOf(job), job.instances.toLocaleString("en"), job.newest ? executionLink(job.newest.executionId) : "",
      job.newest ? badge(job.newest.batchStatus) : "never started", job.newest ? when(job.newest.lastUpdatedTime) : "",
      ...(may("operate") ? [button("start", "Start", { job: job.jobName }, "small")] : []),
    ],
  }));
  const caption = `Jobs of the catalogue, ${order}, each with its newest job instance`;
  return table(caption, columns, rows, wanted ? "No job has this in its name." : "The catalogue has no job.");
}

// Jobs: what is open, what runs, what may be started, and how full the history is.
export const jobs = {
  page: "jobs",
  async load({ query }) {
    const status = query.get("status");
    const chosen = RESTARTABLE.includes(status) ? { status } : {};
    const of = { ...chosen, ...(pageOf(query) ? { page: pageOf(query) } : {}) };
    const running = [...UNFINISHED.map((one) => ["status", one]), ["pageSize", NEWEST]];
    const [open, runs, catalogue, history] = await Promise.all([
      read("/batch/open", of), read("/batch/jobexecutions", running), read("/batch/catalogue"), read("/batch/history"),
    ]);
    return { open, runs, catalogue, history };
  },
  title: () => "Jobs",
  isLive: ({ open, runs }) => runs.jobExecutions.length > 0 || open.late?.length > 0,
  draw({ open, runs, catalogue, history }, { query }, may) {
    const kept = query.get("status") ? { status: query.get("status") } : {};
    return [
      heading("Jobs"),
      openCounts(open.counts, runs.statusCounts, query.get("status")),
      openSection(open, query, may, (page) => `#/?${new URLSearchParams({ ...kept, page })}`),
      lookSection(open),
      section("Running",
        executionsTable("Job executions that aren't finished, the newest first", runs.jobExecutions, "Nothing runs."),
        runs.more ? element("p", {}, "More run: ", link("#/executions?status=STARTED", "all that are STARTED")) : null),
      section("Jobs of the catalogue", filterForm(), jobsTable(catalogue, open.jobInstances, may)),
      section("History", fullness(history)),
    ];
  },
};

function fullness(history) {
  const { operations, mostOperations, warnFrom, refuseFrom } = history;
  const [warns, refuses] = [warnFrom, refuseFrom].map((number) => number.toLocaleString("en"));
  return element("div", {},
    element("meter", {
      min: 0, max: mostOperations, high: warnFrom, optimum: 0, value: operations, "aria-label": fill(history),
    }),
    element("p", {}, `${fill(history)}. From ${warns} on the service warns. `
      + `From ${refuses} on nothing is started or restarted.`),
    facts([
      ["This instance", history.role], ["Epoch", String(history.epoch)],
      ["Leader", history.role === "follower" ? told(history.leader) : ""],
      ["Log", history.base ? based(history.base) : ""],
      ["Last compaction", history.compaction ? compacted(history.compaction) : ""],
    ]));
}

// What the log has in place of operations, and how many stand behind that.
export function based({ rows, behind }) {
  const [made, more] = [rows, behind].map((number) => number.toLocaleString("en"));
  return `a base of ${made} rows, and ${more} operations behind it`;
}

// When the last compaction began, and what became of it.
export function compacted({ begun, seconds, isOver, callsWait, failure }) {
  if (!isOver) return element("span", {}, when(begun), callsWait ? ": it goes on, and calls wait" : ": it goes on");
  const took = `${seconds.toLocaleString("en")} seconds`;
  const well = callsWait ? `: calls waited for ${took}` : `: it took ${took}, and no call waited`;
  return element("span", {}, when(begun), failure ? `: it failed after ${took}: ` : well,
    failure ? told(failure) : null);
}

// Executions: by batch status, the newest first, with search and pages.
export const executions = {
  page: "executions",
  async load({ query }) {
    const given = { pageSize: USUAL_SIZE, page: pageOf(query), details: true };
    for (const name of ["status", "search", "jobName", ...Object.keys(DAYS)]) {
      if (query.get(name)) given[name] = query.get(name);
    }
    const [list, archived] = await Promise.all([
      read("/batch/jobexecutions", given), archivedBy(given, pageOf(query, "archivePage")),
    ]);
    return { ...list, archived };
  },
  title: ({ query }) => `Job executions ${query.get("status") || ""}`.trim(),
  isLive: (data) => data.jobExecutions.some((row) => UNFINISHED.includes(row.batchStatus)),
  draw(data, { query }, may) {
    const mayChoose = may("operate") && data.jobExecutions.some(mayBeChosen);
    const [status, search, jobName] = ["status", "search", "jobName"].map((name) => query.get(name) || "");
    const words = ["search", "jobName", ...Object.keys(DAYS)].filter((word) => query.get(word));
    const kept = Object.fromEntries(words.map((word) => [word, query.get(word)]));
    const which = `${status ? ` that are ${status}` : ""}${search ? " that the search finds" : ""}`;
    const caption = `Job executions${which}, the newest first`;
    return [
      heading("Job executions"),
      searchForm(status, search, jobName, daysOf(query)),
      counts(data.statusCounts, kept, status),
      mayChoose ? manyButtons() : null,
      element("section", { "aria-label": caption },
        executionsTable(caption, data.jobExecutions, "No job execution is found.", mayChoose)),
      turn(data, { ...kept, ...(status ? { status } : {}) }, pageOf(query)),
      archiveSection(data.archived, { ...kept, ...(status ? { status } : {}) }, pageOf(query, "archivePage")),
    ];
  },
};

// Days of the address, in UTC, and what each is called.
const DAYS = { createdFrom: "Created from", createdUntil: "until" };

function daysOf(query) {
  return Object.entries(DAYS).map(([word, name]) => [word, name, query.get(word) || ""]);
}

function searchForm(status, search, jobName, days) {
  const given = {
    class: "search", role: "search", "aria-label": "Job executions", "data-form": "search", "data-status": status,
    "data-job": jobName,
  };
  const all = `#/executions?${new URLSearchParams(status ? { status } : {})}`;
  return element("form", given,
    element("label", { for: "search" }, "Job, exit status, parameter or number"),
    element("input", {
      id: "search", name: "search", "data-word": "search", type: "search", value: search, maxlength: "256",
      autocomplete: "off", dir: "auto",
    }),
    days.map(([word, name, value]) => [element("label", { for: word }, name),
      element("input", { id: word, name: word, "data-word": word, type: "date", value })]),
    element("button", { type: "submit" }, "Search"),
    jobName ? element("span", {}, "of the job ", told(jobName), " ", link(all, "of all jobs")) : null);
}

function turn(data, kept, page) {
  const first = page * USUAL_SIZE + 1;
  const last = first + data.jobExecutions.length - 1;
  const of = data.total === null ? "" : ` of ${data.total.toLocaleString("en")}`;
  const text = data.jobExecutions.length ? `${first.toLocaleString("en")} to ${last.toLocaleString("en")}${of}` : "";
  const to = (number) => `#/executions?${new URLSearchParams({ ...kept, page: number })}`;
  return pager("Pages of the list", page, data.more, to, text);
}

// When a job is started by itself.
export function scheduleSection({ cron, zone, next }) {
  const rows = next.map(({ time, local, jobParameters }) => ({
    key: time, cells: [when(time), told(local), told(parametersText(jobParameters))],
  }));
  const columns = [{ name: "Starts" }, { name: `In ${zone}` }, { name: "Parameters", kind: "wide" }];
  return section("Schedule", element("p", {}, "By ", element("code", {}, told(cron)), ` in ${zone}.`),
    table("The next starts of this job", columns, rows, "None."));
}

function parametersText(parameters) {
  return Object.entries(parameters).map(([name, value]) => `${name}=${value}`).join(" ");
}

// A job: its picture, and its newest job executions.
export const job = {
  page: "jobs",
  async load({ name }) {
    const asked = pageNow();
    const [shape, list, { jobs: schedules }] = await Promise.all([
      newestShapeOf(name), read("/batch/jobexecutions", { jobName: name, pageSize: NEWEST * 2, details: true }),
      read("/batch/schedules", { jobName: name }),
    ]);
    await ready(asked, shape, new Map());
    return { shape, list, schedules };
  },
  title: ({ name }) => `Job ${name}`,
  isLive: ({ list }) => list.jobExecutions.some((row) => UNFINISHED.includes(row.batchStatus)),
  draw({ shape, list, schedules }, { name }, may) {
    const caption = "Job executions of this job, the newest first";
    const all = `#/executions?${new URLSearchParams({ jobName: name })}`;
    return [
      heading("Job ", told(name)),
      element("p", { class: "actions" }, may("operate") ? button("start", "Start", { job: name }, "main") : null),
      ...schedules.map((one) => scheduleSection(one)),
      section("Picture", pictured(shape, new Map())),
      section("Newest job executions", executionsTable(caption, list.jobExecutions, "It was never started."),
        list.more ? element("p", {}, link(all, "All job executions of this job")) : null),
    ];
  },
};

// Work: who holds which work item since when.
export const work = {
  page: "work",
  load: ({ query }) => read("/batch/work", { pageSize: MOST_ROWS, page: pageOf(query) }),
  title: () => "Work",
  isLive: (data) => data.length > 0,
  draw(data, { query }, may) {
    const mayLose = may("operate") || may("work");
    const [page, isFull] = [pageOf(query), data.length === MOST_ROWS];
    const to = (number) => `#/work?page=${number}`;
    const held = isFull || page ? "" : `${count(data.length, "work item")} ${data.length === 1 ? "is" : "are"} held. `;
    const columns = [
      { name: "Work item", kind: "number" }, { name: "Step" }, { name: "Partition", kind: "number" },
      { name: "Job execution", kind: "number" }, { name: "Worker" }, { name: "Since" }, { name: "For", kind: "number" },
      { name: "Lease left", kind: "number" },
      ...(mayLose ? [{ name: "Action", kind: "action" }] : []),
    ];
    const rows = data.map((one) => ({
      key: one.work,
      cells: [
        String(one.work), told(one.stepName), one.partition === null ? "" : String(one.partition),
        executionLink(one.executionId), told(one.client), when(one.since), span(one.since, null),
        one.leaseRemaining === null ? "" : `${Math.round(one.leaseRemaining)} s${one.draining ? ", draining" : ""}`,
        ...(mayLose ? [button("lose", "Lose", { work: one.work }, "small danger")] : []),
      ],
    }));
    return [
      heading("Work"),
      element("p", {}, data.length ? `${held}A lease that runs out loses its work item.` : ""),
      element("section", { "aria-label": "Work items" },
        table("Which worker holds which work item", columns, rows, "No worker holds a work item.")),
      isFull || page ? pager("Pages of the work items", page, isFull, to, "", ["Earlier", "Later"]) : null,
    ];
  },
};
