// A small picture of a whole job: a mark for each element, and the part that its frame shows.

import { drawing } from "./dom.js";

const MARK = 0.0015;
const LARGE_MARK = 0.004;
const LARGE = ["FAILED", "LOST", "STARTED", "STARTING", "STOPPING"];

// The whole runs from left to right, also if its picture runs downwards.
function turned({ x, y, width, height }, isDownwards) {
  return isDownwards ? { x: y, y: x, width: height, height: width } : { x, y, width, height };
}

function mark({ at, status }, whole, isDownwards) {
  const { x, y, width, height } = turned(at, isDownwards);
  const least = whole.width * (LARGE.includes(status) ? LARGE_MARK : MARK);
  return drawing("rect", { class: `status-${status || "none"}`, x, y, width: Math.max(width, least), height });
}

// `marks` are places with their statuses. Those that a person looks for are drawn over the others.
export function overview({ picture, isDownwards }, marks) {
  const whole = turned({ x: 0, y: 0, ...picture }, isDownwards);
  const ordered = [...marks].sort((one, other) => LARGE.includes(one.status) - LARGE.includes(other.status));
  const use = { class: "overview", preserveAspectRatio: "none", "aria-hidden": "true", "data-key": "overview" };
  return drawing("svg", { ...use, viewBox: `0 0 ${whole.width} ${whole.height}` },
    ordered.map((one) => mark(one, whole, isDownwards)), drawing("rect", { class: "seen" }));
}

// Shows which part of the whole its frame shows.
export function showPart(drawn, frame, { picture, isDownwards }) {
  const [across, down] = [picture.width / frame.scrollWidth, picture.height / frame.scrollHeight];
  const part = {
    x: frame.scrollLeft * across, y: frame.scrollTop * down,
    width: frame.clientWidth * across, height: frame.clientHeight * down,
  };
  const seen = drawn.querySelector(".seen");
  for (const [name, value] of Object.entries(turned(part, isDownwards))) seen.setAttribute(name, String(value));
}

// Moves the frame to the place of the overview that was pressed.
export function showPlace(drawn, frame, { isDownwards }, { clientX, clientY }) {
  const { left, top, width, height } = drawn.getBoundingClientRect();
  const [along, across] = [(clientX - left) / width, (clientY - top) / height];
  const [x, y] = isDownwards ? [across, along] : [along, across];
  frame.scrollTo(x * frame.scrollWidth - frame.clientWidth / 2, y * frame.scrollHeight - frame.clientHeight / 2);
}
