// Elements made of texts. No text that the service told ever becomes markup: all of it goes through text nodes.

export const STATUSES = ["STARTING", "STARTED", "STOPPING", "STOPPED", "FAILED", "COMPLETED", "ABANDONED"];
export const UNFINISHED = ["STARTING", "STARTED", "STOPPING"];
const SIGNS = {
  STARTING: "\u25cc", STARTED: "\u25b6", STOPPING: "\u25d0", STOPPED: "\u25a0",
  FAILED: "\u2715", COMPLETED: "\u2713", ABANDONED: "\u2298", LOST: "\u2715",
};
// Rows of a table, and so of a page of a list with small rows.
export const MOST_ROWS = 500;
const SVG = "http://www.w3.org/2000/svg";

function fill(node, attributes, children) {
  for (const [name, value] of Object.entries(attributes)) {
    if (value === true) node.setAttribute(name, "");
    else if (value !== false && value !== null && value !== undefined) node.setAttribute(name, String(value));
  }
  node.append(...children.flat(3).filter((child) => child !== null && child !== undefined && child !== false));
  return node;
}

export function element(name, attributes = {}, ...children) {
  return fill(document.createElement(name), attributes, children);
}

export function drawing(name, attributes = {}, ...children) {
  return fill(document.createElementNS(SVG, name), attributes, children);
}

// A text of the service, whose direction marks reach no text beside it.
export function told(text) {
  return element("bdi", {}, text === null || text === undefined ? "" : String(text));
}

export function sign(status) {
  return SIGNS[status] || "\u00b7";
}

export function badge(status) {
  const mark = element("span", { "aria-hidden": "true" }, sign(status));
  return element("span", { class: `badge status-${status}` }, mark, ` ${status}`);
}

export function heading(...children) {
  return element("h1", { tabindex: "-1" }, ...children);
}

export function section(title, ...children) {
  return element("section", { "data-key": title, "aria-label": title }, element("h2", {}, title), ...children);
}

export function isNarrow() {
  return window.matchMedia("(max-width: 45rem)").matches;
}

// How wide a picture may be in its section.
export function room() {
  const main = document.getElementById("content");
  return main.clientWidth - (isNarrow() ? 56 : 96);
}

export function link(href, ...children) {
  return element("a", { href }, ...children);
}

export function executionLink(execution) {
  return link(`#/execution/${execution}`, String(execution));
}

export function jobLink(name) {
  return link(`#/job/${encodeURIComponent(name)}`, told(name));
}

// The job of a row, with its version if that is above 1.
export function jobOf({ jobName, version }) {
  return [jobLink(jobName), version ? ` (version ${version})` : ""];
}

export function button(action, label, data = {}, kind = "") {
  const given = Object.fromEntries(Object.entries(data).map(([name, value]) => [`data-${name}`, value]));
  return element("button", { type: "button", class: kind, "data-action": action, ...given }, label);
}

// A cell of a table. The first one of a row is its heading.
function tableCell(column, cell, place) {
  const role = place === 0 ? { role: "rowheader", scope: "row" } : { role: "cell", scope: null };
  const given = { ...role, "data-name": column.name, class: column.kind || null };
  return element(place === 0 ? "th" : "td", given, element("div", {}, cell));
}

// A table that keeps its roles where the page is narrow and each row is shown as a card. Of very many rows the first
// are shown.
export function table(caption, columns, rows, empty) {
  if (!rows.length) return element("p", { class: "empty" }, empty);
  const head = columns.map((column) =>
    element("th", { scope: "col", role: "columnheader", class: column.kind || null }, column.name));
  const body = rows.slice(0, MOST_ROWS).map((row) =>
    element("tr",
      { role: "row", "data-key": row.key, class: row.kind || null, "aria-current": row.current ? "true" : null },
      row.cells.map((cell, place) => tableCell(columns[place], cell, place))));
  return element("table", { role: "table" },
    rows.length > MOST_ROWS
      ? element("caption", {}, `${caption}: the first ${MOST_ROWS} of ${rows.length}`)
      : element("caption", { class: "unseen" }, caption),
    element("thead", { role: "rowgroup" }, element("tr", { role: "row" }, head)),
    element("tbody", { role: "rowgroup" }, body));
}

export function pageOf(query, name = "page") {
  return Math.max(0, Number.parseInt(query.get(name) || "0", 10) || 0);
}

// Links to the pages before and after one of a list. `to` tells the address of a page.
export function pager(label, page, hasMore, to, text = "", [before, after] = ["Newer", "Older"]) {
  return element("nav", { class: "pager", "aria-label": label },
    page > 0 ? link(to(page - 1), before) : element("span", {}, before),
    element("span", {}, text),
    hasMore ? link(to(page + 1), after) : element("span", {}, after));
}

export function facts(pairs) {
  const known = pairs.filter(([, value]) => value !== "" && value !== null);
  return element("dl", { class: "facts" }, known.map(([name, value]) =>
    element("div", {}, element("dt", {}, name), element("dd", {}, value))));
}

// The service writes moments as 2026/11/27 06:30:00.250 +0000. One that no calendar has is a number.
export function date(moment) {
  const parts = /^(\d{4})\/(\d\d)\/(\d\d) (\d\d:\d\d:\d\d)\.(\d{3}) \+0000$/.exec(moment || "");
  return parts ? new Date(`${parts[1]}-${parts[2]}-${parts[3]}T${parts[4]}.${parts[5]}Z`) : null;
}

export function when(moment) {
  if (moment === null || moment === undefined) return "";
  const at = date(moment);
  if (!at) return told(moment);
  const text = at.toISOString();
  return element("time", { datetime: text, title: at.toLocaleString() }, `${text.slice(0, 10)} ${text.slice(11, 19)}`);
}

export function span(from, until) {
  const begun = date(from);
  const ended = until ? date(until) : new Date();
  if (!begun || !ended) return "";
  return lasting(Math.max(0, (ended - begun) / 1000));
}

export function lasting(seconds) {
  if (seconds < 10) return `${seconds.toFixed(1)} s`;
  if (seconds < 60) return `${Math.floor(seconds)} s`;
  const [hours, minutes, rest] = [Math.floor(seconds / 3600), Math.floor(seconds / 60) % 60, Math.floor(seconds) % 60];
  return hours ? `${hours} h ${minutes} min` : `${minutes} min ${rest} s`;
}

export function count(number, one, many = `${one}s`) {
  return `${Number(number).toLocaleString("en")} ${number === 1 ? one : many}`;
}

function keyOf(node) {
  return node.nodeType === Node.ELEMENT_NODE ? node.getAttribute("data-key") : null;
}

function isAlike(old, fresh) {
  return old.nodeType === fresh.nodeType && old.nodeName === fresh.nodeName && keyOf(old) === keyOf(fresh);
}

function takeAttributes(old, fresh) {
  for (const { name } of [...old.attributes]) {
    if (!fresh.hasAttribute(name) && name !== "open") old.removeAttribute(name);
  }
  for (const { name, value } of [...fresh.attributes]) {
    if (old.getAttribute(name) !== value && name !== "open") old.setAttribute(name, value);
  }
}

// Makes a shown element say what a fresh one does. What stays keeps its focus, its place and what a person has typed
// or opened.
export function renew(old, fresh) {
  if (old.nodeType === Node.TEXT_NODE) {
    if (old.data !== fresh.data) old.data = fresh.data;
    return;
  }
  takeAttributes(old, fresh);
  renewChildren(old, [...fresh.childNodes]);
}

export function renewChildren(old, children) {
  const keyed = new Map([...old.childNodes].filter(keyOf).map((child) => [keyOf(child), child]));
  let place = old.firstChild;
  for (const child of children) {
    const key = keyOf(child);
    const match = key ? keyed.get(key) : place;
    if (match && isAlike(match, child)) {
      if (match !== place) old.insertBefore(match, place);
      renew(match, child);
      place = match.nextSibling;
    } else {
      old.insertBefore(child, place);
    }
  }
  while (place) {
    const next = place.nextSibling;
    place.remove();
    place = next;
  }
}
