// A job as an indented list of its elements: what there is to see if a picture would have too many ways.

import { count, element, sign, told } from "./dom.js";
import { inside, kindOf, numbered, stateOf } from "./picture.js";

const MOST_WAYS = 4;

function wayOf({ kind, on, to, ...more }) {
  const end = more["exit-status"] === undefined ? kind : `${kind} with ${more["exit-status"]}`;
  return [", on ", told(on), ": ", kind === "next" ? told(to) : told(end)];
}

// Where an element leads, unless that is just the next one of the list.
function waysOf(one, following) {
  const transitions = one.transitions || [];
  const more = transitions.length - MOST_WAYS;
  return [
    transitions.slice(0, MOST_WAYS).map(wayOf), more > 0 ? `, and ${count(more, "more transition element")}` : "",
    one.next && one.next !== following ? [", then ", told(one.next)] : "",
  ];
}

function row(one, following, states, numbers) {
  const { status, text } = stateOf(one, states);
  const said = text ? element("span", { class: `state status-${status || "none"}` }, `${sign(status)} ${text}`) : null;
  return element("li", { "data-key": `e${numbers.get(one.id)}`, tabindex: "-1" },
    element("div", {}, element("strong", {}, told(one.id)), ` ${kindOf(one)}`, said ? [" ", said] : null,
      element("span", { class: "ways" }, waysOf(one, following))),
    inside(one).length ? rows(inside(one), states, numbers) : null);
}

function rows(elements, states, numbers) {
  return element("ul", {}, elements.map((one, place) => row(one, elements[place + 1]?.id, states, numbers)));
}

export function tree(job, states) {
  const numbers = new Map(numbered(job.elements).map((one, number) => [one.id, number]));
  const use = { class: "tree", "data-key": "tree", tabindex: "0", role: "group", "aria-label": "Elements of the job" };
  return element("div", use, rows(job.elements, states, numbers));
}
