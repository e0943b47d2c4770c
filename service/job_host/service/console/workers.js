// The page of the workers, and what is said of a job execution that no worker asks for.

import { count, element, executionLink, heading, lasting, pageOf, pager, table, told, when } from "./dom.js";
import { read, USUAL_SIZE } from "./service.js";

function holds({ work, moreWork }) {
  if (!work.length) return "nothing";
  const items = work.map((one) => element("li", {}, `${one.work}: `, told(one.stepName),
    one.partition === null ? "" : `, partition ${one.partition}`, " of ", executionLink(one.executionId)));
  return element("ul", { class: "metrics" }, items, moreWork ? element("li", {}, `${moreWork} more`) : null);
}

// Closed at first: there may be many.
function artifactsOf({ artifacts, client }) {
  if (!artifacts) return "not told";
  return element("details", { "data-key": `artifacts ${client}`, "aria-label": `Artifacts of ${client}` },
    element("summary", {}, count(artifacts.length, "artifact")),
    element("ul", { class: "metrics" }, artifacts.map((name) => element("li", {}, told(name)))));
}

// Only the leader hears workers. One that drains asks no more, and ends what it holds.
export function asks({ waits, draining, work }) {
  if (draining) return work.length ? "no, it is draining" : "no, it has drained";
  return waits === null ? "the leader knows" : waits ? "yes" : "no";
}

export function silenceText({ noneAsks, silence }) {
  return noneAsks ? `No worker has asked for work for ${lasting(silence)}.` : "";
}

// Workers: when each was heard, and what it holds.
export const workers = {
  page: "workers",
  load: ({ query }) => read("/batch/workers", { page: pageOf(query) }),
  title: () => "Workers",
  isLive: (data) => data.workers.length > 0,
  draw(data, { query }) {
    const [page, isFull] = [pageOf(query), data.workers.length === USUAL_SIZE];
    const are = data.workers.length === 1 ? "is" : "are";
    const known = isFull || page ? "" : `${count(data.workers.length, "worker")} ${are} known. `;
    const columns = [
      { name: "Worker" }, { name: "Last claim" }, { name: "Last heartbeat or report" }, { name: "Asks for work" },
      { name: "Holds", kind: "wide" }, { name: "Artifacts", kind: "wide" },
    ];
    const rows = data.workers.map((one) => ({
      key: one.client,
      cells: [told(one.client), when(one.lastClaim), when(one.lastSign), asks(one), holds(one), artifactsOf(one)],
    }));
    const to = (number) => `#/workers?page=${number}`;
    return [
      heading("Workers"),
      element("p", {}, known, silenceText(data)),
      element("section", { "aria-label": "Workers" },
        table("Workers by name", columns, rows, "No worker has asked for work.")),
      isFull || page ? pager("Pages of the workers", page, isFull, to, "", ["Earlier", "Later"]) : null,
    ];
  },
};

// What is said of a job execution that may wait: nothing if a worker asks for work, or a work item of it is busy.
export async function waitingFor(mayWait, items) {
  if (!mayWait || items.some((item) => item.until === null)) return "";
  return silenceText(await read("/batch/workers", { pageSize: 1 }));
}
