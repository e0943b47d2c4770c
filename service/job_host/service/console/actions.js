// Operations: each asks a question that names what will happen, and makes one operation if it is answered.

import { element, told, UNFINISHED } from "./dom.js";
import { operate, passes, read, Refused, requestKey, TokenNeeded, USUAL_SIZE } from "./service.js";

// Of what runs already, so many are named.
const MOST_NAMED = 3;
const MEANINGS = {
  JobExecutionNotRunningException: "It has ended meanwhile, so there is nothing to stop.",
  JobExecutionIsRunningException: "A job execution of its job instance still runs.",
  JobExecutionAlreadyCompleteException: "It is COMPLETED already.",
  JobExecutionNotMostRecentException: "There is a later job execution of its job instance: restart that one.",
  JobRestartException: "It runs, or is ABANDONED, or its job may not be restarted.",
  NoSuchJobExecutionException: "It was purged.",
  NoSuchJobInstanceException: "It was purged.",
  JobStartException: "The catalogue has no such job.",
  JobWithdrawn: "It is withdrawn: what it has can be restarted, and nothing is started.",
  WorkNotRunning: "The work item is over already.",
  TextTooLong: "A name has more than 256 bytes, a value more than 4,096, or there are more than 64 parameters.",
  RoleLacksRight: "Your token doesn't allow this.",
  HistoryAlmostFull: "Nothing is started or restarted any more: begin a new history.",
  RequestKeyReused: "An earlier attempt with other parameters may have been made: look before you try it again.",
  NotLeader: "Another instance leads. Open its console:",
};

function paragraph(...children) {
  return element("p", {}, ...children);
}

const QUESTIONS = {
  async start({ job }) {
    const [last, running] = await Promise.all([lastOf(job), runningOf(job)]);
    return {
      title: ["Start ", told(job), "?"],
      body: [
        running.length ? paragraph(element("strong", {}, "It runs already"),
          `: ${running.map((one) => `job execution ${one.executionId} is ${one.batchStatus}`).join(", ")}.`) : null,
        paragraph("A new job instance of ", told(job),
          " is made, with its first job execution. Workers run its steps from then on."),
        last ? paragraph(`The parameters below are those of its last job execution, ${last.executionId}, `
          + `which is ${last.batchStatus}.`) : null,
      ],
      parameters: last ? last.jobParameters : {},
      confirm: "Start",
      make: (parameters, key) =>
        operate("POST", "/batch/jobinstances", { jobName: job, jobParameters: parameters }, key),
      said: (answer) => [`Job execution ${answer.executionId} of `, told(job), " was made."],
      leadsTo: (answer) => `#/execution/${answer.executionId}`,
    };
  },
  async restart({ execution }) {
    const one = await read(`/batch/jobexecutions/${execution}`);
    const done = one.stepExecutions.filter((step) => step.batchStatus === "COMPLETED").map((step) => step.stepName);
    return {
      title: ["Restart job execution ", execution, " of ", told(one.jobName), "?"],
      body: [
        paragraph("The next job execution of job instance ", String(one.instanceId), " is made. It goes on where this "
          + "one ended: steps that are COMPLETED aren't run again, unless they allow it."),
        done.length ? paragraph("COMPLETED here: ", listed(done), ".") : null,
        paragraph("It has the parameters below and no others."),
      ],
      parameters: one.jobParameters,
      confirm: "Restart",
      make: (parameters, key) =>
        operate("PUT", `/batch/jobexecutions/${execution}?action=restart`, { jobParameters: parameters }, key),
      said: (answer) => [`Job execution ${answer.executionId} goes on for job execution ${execution}.`],
      leadsTo: (answer) => `#/execution/${answer.executionId}`,
    };
  },
  async stop({ execution }) {
    const [one, busy] = await Promise.all([
      read(`/batch/jobexecutions/${execution}`), read("/batch/work", { executionId: execution }),
    ]);
    return {
      title: ["Stop job execution ", execution, " of ", told(one.jobName), "?"],
      body: [
        paragraph("Nothing more of it is handed out to workers. "
          + "It is STOPPED after what runs now has ended, and can be restarted then."),
        busy.length
          ? paragraph("Running now: ", listed(busy.map(place)), busy.length < USUAL_SIZE ? "." : "; and perhaps more.")
          : paragraph("Nothing of it runs now, so it is STOPPED at once."),
      ],
      confirm: "Stop",
      make: (parameters, key) => operate("PUT", `/batch/jobexecutions/${execution}?action=stop`, null, key),
      said: () => [`Job execution ${execution} is asked to stop.`],
    };
  },
  async abandon({ execution }) {
    const one = await read(`/batch/jobexecutions/${execution}`);
    return {
      title: ["Abandon job execution ", execution, " of ", told(one.jobName), "?"],
      body: [
        paragraph(`It is ${one.batchStatus} now, and ABANDONED then. `
          + "It can never be restarted. Its steps and logs stay."),
      ],
      confirm: "Abandon",
      isDanger: true,
      make: (parameters, key) => operate("PUT", `/batch/jobexecutions/${execution}?action=abandon`, null, key),
      said: () => [`Job execution ${execution} is abandoned.`],
    };
  },
  async purge({ instance }) {
    const all = await read(`/batch/jobinstances/${instance}/jobexecutions`);
    const numbers = all.map((one) => String(one.executionId)).join(", ");
    const named = all.length < USUAL_SIZE
      ? `Its ${all.length} job executions (${numbers})`
      : `Its job executions (${numbers} and those before them)`;
    return {
      title: ["Purge job instance ", instance, " of ", told(all[0].jobName), "?"],
      body: [
        paragraph(all.length === 1
          ? `Its job execution ${numbers}, with all its steps, checkpoints and logs, is removed for good.`
          : `${named}, with all their steps, checkpoints and logs, are removed for good.`,
        " Nobody finds anything of it afterwards."),
        all.some((one) => UNFINISHED.includes(one.batchStatus))
          ? paragraph("One of them still runs, so this will be refused.")
          : null,
      ],
      confirm: "Purge",
      isDanger: true,
      make: (parameters, key) => operate("DELETE", `/batch/jobinstances/${instance}`, null, key),
      said: () => [`Job instance ${instance} is purged.`],
      leadsTo: () => "#/executions",
    };
  },
  async lose({ work }) {
    const [one] = await read("/batch/work", { work });
    if (!one) throw new Refused(409, { title: "WorkNotRunning" });
    return {
      title: ["Lose work item ", work, "?"],
      body: [
        paragraph("It is ", place(one), " of job execution ", String(one.executionId), "."),
        paragraph("It is FAILED from then on. If its worker still lives, what it reports of this work item is refused: "
          + "be sure that the worker is gone."),
      ],
      confirm: "Lose",
      isDanger: true,
      make: (parameters, key) => operate("PUT", `/batch/work/${work}?action=lose`, null, key),
      said: () => [`Work item ${work} is lost.`],
    };
  },
};

// The newest job execution of a job, if there is one that isn't purged meanwhile.
async function lastOf(jobName) {
  const [last] = (await read("/batch/jobexecutions", { jobName, pageSize: 1 })).jobExecutions;
  return last ? read(`/batch/jobexecutions/${last.executionId}`).catch(() => null) : null;
}

async function runningOf(jobName) {
  const words = [["jobName", jobName], ["pageSize", MOST_NAMED], ...UNFINISHED.map((status) => ["status", status])];
  return (await read("/batch/jobexecutions", words)).jobExecutions;
}

function place(one) {
  const partition = one.partition === null ? "" : `, partition ${one.partition}`;
  return element("span", {}, told(one.stepName), partition, ", held by ", told(one.client));
}

function listed(parts) {
  return parts.map((part, number) => [number ? "; " : "", typeof part === "string" ? told(part) : part]);
}

// A field of a parameter. Fields normalise line feeds, so one that nobody has changed stands for its text as it was
// told.
class ParameterField {
  constructor(label, name, text) {
    this.text = text;
    this.node = element(name, {
      "aria-label": label, placeholder: label.split(" ")[0].toLowerCase(), autocomplete: "off", spellcheck: "false",
      dir: "auto", rows: name === "textarea" ? "1" : null,
    });
    this.node.value = text;
    this.shown = this.node.value;
  }

  value() {
    return this.node.value === this.shown ? this.text : this.node.value;
  }
}

class ParameterEditor {
  constructor(parameters) {
    this.rows = [];
    this.list = element("div", { class: "editor-rows" });
    const add = element("button", { type: "button", class: "small" }, "Add a parameter");
    add.addEventListener("click", () => this.add("", "").node.focus());
    this.node = element("fieldset", { class: "editor" }, element("legend", {}, "Parameters"), this.list, add);
    for (const [name, value] of Object.entries(parameters)) this.add(name, value);
    if (!this.rows.length) this.add("", "");
  }

  add(name, value) {
    const row = {
      name: new ParameterField("Name of the parameter", "input", name),
      value: new ParameterField("Value of the parameter", "textarea", value),
    };
    const removes = { type: "button", class: "small quiet", "aria-label": "Remove this parameter" };
    const remove = element("button", removes, "\u2715");
    row.node = element("div", { class: "editor-row" },
      row.name.node, element("span", { "aria-hidden": "true" }, "="), row.value.node, remove);
    // It would start the job.
    row.name.node.addEventListener("keydown", (event) => {
      if (event.key !== "Enter") return;
      event.preventDefault();
      row.value.node.focus();
    });
    remove.addEventListener("click", () => {
      this.rows.splice(this.rows.indexOf(row), 1);
      row.node.remove();
    });
    this.rows.push(row);
    this.list.append(row.node);
    return row.name;
  }

  // The first value, if its name is there.
  focus() {
    const { name, value } = this.rows[0];
    (name.text ? value : name).node.focus();
  }

  // The parameters. Throws if a name comes twice.
  parameters() {
    const given = Object.create(null);
    for (const row of this.rows) {
      const [name, value] = [row.name.value(), row.value.value()];
      if (!name && !value) continue;
      if (name in given) throw new Refused(400, { title: "BadRequest", detail: `the name ${name} comes twice` });
      given[name] = value;
    }
    return given;
  }
}

function explained(fault) {
  if (!(fault instanceof Refused)) return ["The service doesn't answer."];
  const detail = fault.detail ? `: ${fault.detail}` : "";
  const href = /^https?:/.test(fault.leader) ? fault.leader : "#/";
  const leader = fault.leader ? [" ", element("a", { href }, told(fault.leader))] : [];
  return [element("strong", {}, fault.title), told(detail), ". ", MEANINGS[fault.title] || "", leader];
}

const dialog = document.getElementById("question");
dialog.addEventListener("close", () => {
  if (!dialog.open) dialog.replaceChildren();
});

function show(asked, after) {
  let key = requestKey();
  const editor = asked.parameters ? new ParameterEditor(asked.parameters) : null;
  const fault = element("p", { class: "fault", role: "alert" });
  const submits = { type: "submit", class: asked.isDanger ? "danger" : "main", "data-confirm": asked.confirm };
  const confirm = element("button", submits, asked.confirm);
  const cancel = element("button", { type: "button", "data-cancel": "" }, "Cancel");
  const form = element("form", { method: "dialog" },
    element("h2", { id: "question-title" }, ...asked.title), asked.body, editor ? editor.node : null, fault,
    element("p", { class: "buttons" }, cancel, confirm));
  cancel.addEventListener("click", () => dialog.close());
  form.addEventListener("submit", async (event) => {
    event.preventDefault();
    confirm.disabled = true;
    fault.replaceChildren();
    try {
      const answer = await asked.make(editor ? editor.parameters() : null, key);
      dialog.close();
      after(asked.said(answer), asked.leadsTo ? asked.leadsTo(answer) : null);
    } catch (failed) {
      if (failed instanceof TokenNeeded) location.reload();
      if (passes(failed)) fault.append("It may have been done. Ask again: whatever happened, it is done once. ");
      else key = requestKey();
      fault.append(...explained(failed).flat());
      confirm.disabled = false;
    }
  });
  dialog.replaceChildren(form);
  dialog.showModal();
  if (asked.isDanger) cancel.focus();
  else if (editor) editor.focus();
  else confirm.focus();
}

// Asks an operation's question. `after` is told what was done, and where that is seen.
export async function question(action, data, after) {
  show(await QUESTIONS[action](data), after);
}

export { explained };
