// Runs functions of the console without a browser: `node console_functions.js FILE FOLDER.. < EXPRESSIONS`, beside
// folders with the console's files. It reads a JSON list of expressions, and writes a line for each folder: the list of
// their values.
/* eslint-env node */

import { readFileSync } from "node:fs";
import { webcrypto } from "node:crypto";

// An element, as far as the console makes one.
class Made {
  constructor(name) {
    Object.assign(this, { name, attributes: {}, children: [] });
  }

  setAttribute(name, value) {
    this.attributes[name] = value;
  }

  append(...children) {
    this.children.push(...children);
  }

  addEventListener() {}
}

const kept = new Map();
// The service: what it was asked, and what it replies. A path without a document has the next one of `replies`.
const service = { asked: [], replies: [], documents: {} };

async function reply(path, given) {
  service.asked.push({ path, headers: {}, ...given });
  const known = service.documents[path.split("?")[0]];
  const { status = 200, body = {}, operations = 0 } = known ? { body: known } : service.replies.shift() || {};
  const text = typeof body === "string" ? body : JSON.stringify(body);
  const headers = new Headers({ "Batch-Operations": String(operations) });
  return { status, ok: status < 400, headers, text: async () => text, json: async () => JSON.parse(text) };
}

const browser = {
  document: {
    createElement: (name) => new Made(name),
    createElementNS: (space, name) => new Made(name),
    getElementById: (id) => new Made(id),
    querySelector: (selector) => (selector.startsWith("meta") ? { content: "token 1" } : null),
    addEventListener() {},
  },
  window: { matchMedia: () => ({ matches: false }), addEventListener() {} },
  sessionStorage: {
    getItem: (name) => (kept.has(name) ? kept.get(name) : null),
    setItem: (name, value) => kept.set(name, value),
    removeItem: (name) => kept.delete(name),
  },
  location: { hash: "" },
  fetch: reply,
  requestAnimationFrame() {},
};

function flat(node) {
  return node instanceof Made ? [node, ...node.children.flatMap(flat)] : [];
}

// What an expression may use besides the functions of its file.
const helpers = {
  service,
  // The elements of a name, in written order.
  all: (nodes, name) => [nodes].flat(9).flatMap(flat).filter((node) => node.name === name),
  text: function text(node) {
    if (Array.isArray(node)) return node.map(text).join("");
    return node instanceof Made ? text(node.children) : String(node ?? "");
  },
};

async function valueOf(expression, scope) {
  try {
    return await new Function(...Object.keys(scope), `return (${expression});`)(...Object.values(scope));
  } catch (fault) {
    return `${fault.name}: ${fault.message}`;
  }
}

// Each folder begins with a new browser and a new service.
async function valuesOf(folder, file, expressions) {
  kept.clear();
  Object.assign(browser.location, { hash: "" });
  Object.assign(service, { asked: [], replies: [], documents: {} });
  const scope = { ...await import(`./${folder}/${file}`), ...helpers };
  const values = [];
  for (const expression of expressions) values.push((await valueOf(expression, scope)) ?? null);
  return values;
}

Object.assign(global, browser);
if (!global.crypto) global.crypto = webcrypto;
const [file, ...folders] = process.argv.slice(2);
const expressions = JSON.parse(readFileSync(0, "utf8"));
for (const folder of folders) console.log(JSON.stringify(await valuesOf(folder, file, expressions)));
