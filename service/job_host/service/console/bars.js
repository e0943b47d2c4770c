// Small bars: how long a job execution took beside its job's past, and what the partitions of a step came to.

import { count, date, drawing, element, lasting } from "./dom.js";

const WIDTH = 56;
const HEIGHT = 8;
// One partition of many is seen if it isn't COMPLETED.
const LEAST = 4;

function bar(label, ...parts) {
  const size = { viewBox: `0 0 ${WIDTH} ${HEIGHT}`, width: WIDTH, height: HEIGHT };
  const given = { class: "bar", ...size, role: "img", "aria-label": label };
  return drawing("svg", given, drawing("title", {}, label), parts);
}

function part(kind, x, width) {
  return drawing("rect", { class: kind, x, width: Math.max(0, width), y: 0, height: HEIGHT });
}

// The bar is as long as the longest of the past, or as this one. A mark stands at the median of the past.
export function tookBar({ startTime, endTime, past }) {
  const [begun, ended] = [date(startTime), endTime ? date(endTime) : new Date()];
  if (!past || !begun || !ended) return null;
  const took = Math.max(0, (ended - begun) / 1000);
  const most = Math.max(took, past.longest) || 1;
  const place = (seconds) => (WIDTH * seconds) / most;
  const isLonger = took > past.longest;
  const before = `usually ${lasting(past.median)}, at most ${lasting(past.longest)}`;
  const label = isLonger ? `longer than before: ${before}` : before;
  return bar(label, part("whole", 0, WIDTH), part(isLonger ? "longer" : "took", 0, place(took)),
    part("median", Math.min(WIDTH - 2, place(past.median)), 2));
}

// The few come before the many, and COMPLETED last, so the bar's end cuts off nothing that is hardly seen.
function isDrawnBefore([outcome, number], [other, more]) {
  return (outcome === "COMPLETED") - (other === "COMPLETED") || number - more;
}

// `groups` has how many partitions came to each outcome. What is left of the bar wasn't claimed yet.
export function partitionsBar(partitions, groups, where = "") {
  const words = [...groups].map(([outcome, number]) => `${number} ${outcome}`).join(", ");
  const label = `${count(partitions, "partition")}${where}: ${words || "none was claimed"}`;
  let x = 0;
  const parts = [...groups].sort(isDrawnBefore).map(([outcome, number]) => {
    const share = (WIDTH * number) / partitions;
    const width = Math.min(outcome === "COMPLETED" ? share : Math.max(LEAST, share), WIDTH - x);
    const drawn = part(`status-${outcome}`, x, width);
    x += width;
    return drawn;
  });
  return element("span", { class: "partitions" }, bar(label, part("whole", 0, WIDTH), parts), ` ${partitions}`);
}
