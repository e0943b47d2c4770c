// What is open: job instances to restart, each with what failed and the end of its log; what runs long, is late, or
// waits in vain.

import {
  badge, button, element, executionLink, jobOf, lasting, pageOf, pager, section, table, told, when,
} from "./dom.js";

// So many job instances are shown with the ends of their logs; of more, a log is opened by a click.
const MOST_WITH_LOG = 3;

function place({ stepName, partition }) {
  return [element("strong", {}, told(stepName)), partition === null ? "" : `, partition ${partition}`];
}

function logEnd({ stepName, work, logEnd: text }) {
  const label = `End of the log of ${stepName}${work ? `, work item ${work}` : ""}`;
  return text ? element("pre", { tabindex: "0", role: "group", "aria-label": label, dir: "auto" }, text) : null;
}

function more(count) {
  return count ? element("p", {}, `${count.toLocaleString("en")} more work items.`) : null;
}

function keyOf({ work }, number) {
  return `why ${work || `step ${number}`}`;
}

// The work items by which a job execution is FAILED or STOPPED.
export function causesSection(title, { causes, moreCauses }) {
  if (!causes.length) return null;
  const shown = causes.map((cause, number) => element("div", { "data-key": keyOf(cause, number) },
    element("p", {}, place(cause), ` is ${cause.outcome}, exit status `, told(cause.exitStatus)), logEnd(cause)));
  return element("section", { class: "reason", "data-key": "reason", "aria-label": title },
    element("h2", {}, title), shown, more(moreCauses));
}

function causesCell({ causes, moreCauses }, isOpen) {
  return [causes.map((cause, number) => {
    const summary = [place(cause), ": ", cause.outcome === "LOST" ? "LOST, " : "", told(cause.exitStatus)];
    const [log, key] = [logEnd(cause), keyOf(cause, number)];
    if (!log) return element("p", { "data-key": key }, summary);
    const label = `${cause.stepName}, work item ${cause.work}`;
    return element("details", { "data-key": key, "aria-label": label, open: isOpen },
      element("summary", {}, summary), log);
  }), more(moreCauses)];
}

function restartCell({ restartTime }) {
  return restartTime ? element("p", {}, "Restarted by its policy at ", when(restartTime)) : "";
}

// `data` is a page of /batch/open; `to` tells the address of a page.
export function openSection(data, query, may, to) {
  const rows = data.jobInstances;
  const columns = [
    { name: "Job execution", kind: "number" }, { name: "Job" }, { name: "Status" },
    { name: "What, and its exit status", kind: "wide" }, { name: "Ended" },
    ...(may("operate") ? [{ name: "Action", kind: "action" }] : []),
  ];
  const isOpen = rows.length <= MOST_WITH_LOG;
  const shown = rows.map((row) => ({
    key: row.executionId,
    cells: [
      executionLink(row.executionId), jobOf(row), badge(row.batchStatus), causesCell(row, isOpen),
      [when(row.endTime), restartCell(row)],
      ...(may("operate") ? [button("restart", "Restart", { execution: row.executionId }, "small")] : []),
    ],
  }));
  const page = pageOf(query);
  const status = query.get("status") || "FAILED or STOPPED";
  const none = page ? "None on this page." : `No job instance is ${status}.`;
  return section("Open",
    table("Job instances to restart, the newest first", columns, shown, none),
    page || data.more ? pager("Pages of what is open", page, data.more, to) : null);
}

function line(kind, key, one, ...words) {
  return element("li", { class: kind, "data-key": `${kind} ${key}` },
    one.jobName === null ? "A job" : jobOf(one),
    ": job execution ", executionLink(one.executionId), ...words);
}

function lateLine(one) {
  const of = one.work === null ? [] : [": worker ", told(one.client), ` has work item ${one.work}, `, place(one)];
  if (one.timeout) {
    return line("late", one.work ?? `execution ${one.executionId}`, one,
      ` was asked to stop after ${lasting(one.timeout)}, and hasn't ended`, ...of, ".");
  }
  return line("late", one.work, one, ", ", place(one),
    ": no sign of its worker ", told(one.client), `, ${lasting(one.leaseRemaining)} of its lease are left.`);
}

// What isn't to be restarted, and yet has to be looked at.
export function lookSection({ long, late, waiting }) {
  const lines = [
    ...long.map((one) => line("long", one.executionId, one,
      ` has run for ${lasting(one.seconds)}; the longest before took ${lasting(one.longestBefore)}.`)),
    ...(late || []).map(lateLine),
    ...(waiting || []).map((one) => line("waiting", one.executionId, one,
      " waits since ", when(one.lastUpdatedTime), ": no worker asks for work.")),
  ];
  return lines.length ? section("Long, late or waiting", element("ul", { class: "look" }, lines)) : null;
}
