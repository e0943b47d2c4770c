// One operation on each of many job executions, by a request key of its own. The dialog says what came of each.

import { explained } from "./actions.js";
import { count, element, told, UNFINISHED } from "./dom.js";
import { operate, passes, requestKey, TokenNeeded } from "./service.js";

const AT_ONCE = 4;
const KINDS = {
  restart: {
    name: "Restart",
    takes: (row) => ["FAILED", "STOPPED"].includes(row.batchStatus) && row.mostRecent,
    explains: "Each goes on where it ended, with the parameters that it had.",
    said: (answer) => `job execution ${answer.executionId} goes on for it.`,
  },
  stop: {
    name: "Stop",
    takes: (row) => UNFINISHED.includes(row.batchStatus),
    explains: "Nothing more of them is handed out to workers. Each is STOPPED after what runs now has ended.",
    said: () => "it is asked to stop.",
  },
};

// Whether one of the operations may be made on a job execution.
export function mayBeChosen(row) {
  return Object.values(KINDS).some((kind) => kind.takes(row));
}

export function chosenIn(rows) {
  const boxes = [...document.querySelectorAll("input[data-choose]:checked")];
  const chosen = new Set(boxes.map((box) => Number(box.dataset.choose)));
  return rows.filter((row) => chosen.has(row.executionId));
}

// One job execution of the list, and what came of its operation. As long as that isn't known, its key is used again.
class Asked {
  constructor(row) {
    this.execution = row.executionId;
    this.key = requestKey();
    this.isSettled = false;
    this.isDone = false;
    this.outcome = element("span", {});
    this.node = element("li", {}, `${row.executionId} of `, told(row.jobName), ": ", this.outcome);
  }

  async make(action, said) {
    this.outcome.replaceChildren("is asked");
    try {
      const answer = await operate("PUT", `/batch/jobexecutions/${this.execution}?action=${action}`, null, this.key);
      [this.isSettled, this.isDone] = [true, true];
      this.outcome.replaceChildren(said(answer));
    } catch (fault) {
      if (fault instanceof TokenNeeded) location.reload();
      this.isSettled = !passes(fault);
      this.outcome.replaceChildren(...[this.isSettled ? "" : "It may have been done. ", explained(fault)].flat(3));
    }
  }
}

async function makeAll(asked, action, said) {
  const left = asked.filter((one) => !one.isSettled);
  const some = async () => {
    while (left.length) await left.shift().make(action, said);
  };
  await Promise.all(Array.from({ length: AT_ONCE }, some));
}

// Asks whether the operation is to be made on those of the rows that it fits. `after` is told how many were made.
export function manyQuestion(action, rows, after) {
  const kind = KINDS[action];
  const dialog = document.getElementById("question");
  const asked = rows.filter(kind.takes).map((row) => new Asked(row));
  const others = rows.length - asked.length;
  const submits = { type: "submit", class: "main", "data-confirm": kind.name, disabled: !asked.length };
  const confirm = element("button", submits, kind.name);
  const close = element("button", { type: "button", "data-cancel": "" }, "Cancel");
  const form = element("form", { method: "dialog" },
    element("h2", { id: "question-title" }, `${kind.name} ${count(asked.length, "job execution")}?`),
    element("p", {}, asked.length ? kind.explains : "Choose job executions in the list first."),
    others ? element("p", {}, `${others} of the chosen can't be asked for that.`) : null,
    element("ul", { class: "many", role: "status" }, asked.map((one) => one.node)),
    element("p", { class: "buttons" }, close, confirm));
  close.addEventListener("click", () => dialog.close());
  form.addEventListener("submit", async (event) => {
    event.preventDefault();
    confirm.disabled = true;
    await makeAll(asked, action, kind.said);
    close.textContent = "Close";
    confirm.textContent = "Ask again";
    confirm.disabled = confirm.hidden = asked.every((one) => one.isSettled);
    close.focus();
    const done = asked.filter((one) => one.isDone).length;
    after([`${kind.name}: ${done} of ${count(asked.length, "job execution")} done.`]);
  });
  dialog.replaceChildren(form);
  dialog.showModal();
  (asked.length ? confirm : close).focus();
}
