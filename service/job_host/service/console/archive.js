// What a search finds in the archive of this instance: job executions that were purged.

import { badge, element, jobOf, link, pager, section, table, told, when } from "./dom.js";
import { read, Refused } from "./service.js";

// Without a search, or without an archive, nothing. What fails there leaves the rest of the page.
export async function archivedBy({ search, jobName, status, createdFrom: from, createdUntil: to }, page) {
  if (!search) return null;
  const given = Object.entries({ search, jobName, status, from, to, page }).filter(([, value]) => value);
  try {
    return await read("/batch/archive/jobexecutions", Object.fromEntries(given));
  } catch (fault) {
    if (!(fault instanceof Refused)) throw fault;
    return fault.title === "NoArchive" ? null : { fault: fault.detail || fault.title };
  }
}

function archivedLink({ executionId, history }) {
  return link(`#/execution/${executionId}?${new URLSearchParams({ history })}`, String(executionId));
}

export function archiveSection(archived, kept, page) {
  if (!archived) return null;
  if (archived.fault) return section("In the archive", element("p", { role: "status" }, archived.fault));
  const columns = [
    { name: "Job execution", kind: "number" }, { name: "Job" }, { name: "Status" }, { name: "Exit status" },
    { name: "Parameters", kind: "wide" }, { name: "Created" }, { name: "Archived" }, { name: "File" },
  ];
  const rows = archived.jobExecutions.map((row) => ({
    key: `${row.history} ${row.executionId}`,
    cells: [
      archivedLink(row), jobOf(row), badge(row.batchStatus),
      row.exitStatus === row.batchStatus ? "" : told(row.exitStatus), told(row.parameterText),
      when(row.createTime), [when(row.archivedTime), row.purged ? "" : " (its purge failed)"], told(row.file),
    ],
  }));
  const to = (number) => `#/executions?${new URLSearchParams({ ...kept, archivePage: number })}`;
  return section("In the archive",
    table("Archived job executions that the search finds, the newest first", columns, rows, "The archive has none."),
    page || archived.more ? pager("Pages of the archive", page, archived.more, to) : null);
}
