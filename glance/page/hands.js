"use strict";
// Pointer and keys: drag to zoom, point or tap to read, and the same by keys and buttons.

const cursor = document.getElementById("cursor");
const selection = document.getElementById("selection");
const tip = document.getElementById("tip");
const readout = document.getElementById("readout");
let pressed = null; // where a drag began
let place = null; // the crossing that the cursor stands at

function drawn() {
  const box = timeline.getBoundingClientRect(), canvas = lanes[0].canvas.getBoundingClientRect();
  return { left: canvas.left - box.left, width: canvas.width, page: canvas.left };
}

function crossingAt(x) {
  const area = drawn();
  return view.from + (Math.max(0, Math.min(area.width - 1e-3, x - area.page)) / area.width) * (view.to - view.from);
}

// What is pointed at. A mark is wider than its crossing: within five pixels of one, it is the one that is meant.
function pointed(event) {
  const element = document.elementFromPoint(event.clientX, event.clientY);
  const lane = lanes.find((one) => one.canvas === element) || {};
  const crossing = crossingAt(event.clientX), pixel = (view.to - view.from) / drawn().width;
  const here = binOf(crossing), near = lane.marks ? Math.ceil((5 * pixel) / bench.width) : -1;
  for (let away = 0; away <= near; away++) {
    const bin = [here - away, here + away].find((one) => one >= 0 && one < bench.bins && lane.marks(lane.group, one));
    if (bin !== undefined) return { group: lane.group, crossing: startOf(bin), cell: { first: bin, last: bin } };
  }
  const last = Math.max(here, binOf(crossing + Math.max(0, pixel - bench.width)));
  return { group: lane.group, crossing: Math.floor(crossing), cell: { first: here, last } };
}

function fillWith(element, lines) {
  element.replaceChildren(...lines.map((line) => Object.assign(document.createElement("p"), { textContent: line })));
}

function putCursor(crossing) {
  if (!bench.bins) return;
  place = Math.max(bench.from, Math.min(bench.to - 1, crossing));
  if (place < view.from || place >= view.to) look(place - (view.to - view.from) / 2, place + (view.to - view.from) / 2);
  fillWith(readout, tell({ first: binOf(place), last: binOf(place) }));
  redraw();
}

function redraw() {
  drawAll();
  const area = drawn();
  const x = place === null ? -1 : (place + Math.min(0.5, bench.width / 2) - view.from) / (view.to - view.from);
  cursor.hidden = x < 0 || x > 1;
  cursor.style.left = area.left + x * area.width + "px";
}

function pointAt(event) {
  if (!bench.bins || event.clientX < drawn().page) return (tip.hidden = true);
  const { cell, group } = pointed(event);
  fillWith(tip, tell(cell, group));
  tip.hidden = false;
  const box = timeline.getBoundingClientRect(), x = event.clientX - box.left;
  tip.style.left = Math.max(0, Math.min(x + 14, box.width - tip.offsetWidth - 4)) + "px";
  tip.style.top = event.clientY - box.top + 18 + "px";
}

timeline.addEventListener("pointerdown", (event) => {
  if (event.clientX < drawn().page || event.button) return;
  pressed = event.clientX;
  timeline.setPointerCapture(event.pointerId);
});

timeline.addEventListener("pointermove", (event) => {
  if (pressed === null) return pointAt(event);
  const area = drawn(), low = Math.max(area.page, Math.min(pressed, event.clientX));
  selection.hidden = false;
  tip.hidden = true;
  selection.style.left = low - area.page + area.left + "px";
  selection.style.width = Math.min(area.page + area.width, Math.max(pressed, event.clientX)) - low + "px";
});

timeline.addEventListener("pointerup", (event) => {
  if (pressed === null) return;
  const from = crossingAt(Math.min(pressed, event.clientX)), to = crossingAt(Math.max(pressed, event.clientX));
  const far = Math.abs(event.clientX - pressed) > 4;
  pressed = null;
  selection.hidden = true;
  if (far) {
    look(from, to);
    redraw();
  } else {
    putCursor(pointed(event).crossing);
  }
});

timeline.addEventListener("pointercancel", () => {
  pressed = null;
  selection.hidden = true;
});
timeline.addEventListener("pointerleave", () => (tip.hidden = true));

// The next bin, one way or the other, in which some group has something; the cursor stays where there is none.
function seek(way, has) {
  for (let bin = place === null ? (way > 0 ? 0 : bench.bins - 1) : binOf(place) + way; bin >= 0 && bin < bench.bins; bin += way) {
    if (bench.groups.some((group) => has(group, bin))) return putCursor(startOf(bin));
  }
}

const middle = () => (place !== null && place >= view.from && place < view.to ? place : (view.from + view.to) / 2);

function go(way, far) {
  const span = view.to - view.from;
  if (far) {
    look(view.from + (way * span) / 2, view.to + (way * span) / 2);
    redraw();
  } else {
    putCursor(place === null ? Math.floor(middle()) : place + way * bench.width);
  }
}

function whole() {
  look(bench.from, bench.to);
  redraw();
}

const keys = {
  "+": () => (zoom(0.5, middle()), redraw()),
  "=": () => keys["+"](),
  "-": () => (zoom(2, middle()), redraw()),
  "0": whole,
  Escape: whole,
  Home: () => putCursor(bench.from),
  End: () => putCursor(bench.to - 1),
  ArrowLeft: (far) => go(-1, far),
  ArrowRight: (far) => go(1, far),
  t: () => seek(1, isTrigger),
  T: () => seek(-1, isTrigger),
  l: () => seek(1, isLost),
  L: () => seek(-1, isLost),
};

timeline.addEventListener("keydown", (event) => {
  if (!(event.key in keys) || event.ctrlKey || event.metaKey || event.altKey) return;
  event.preventDefault();
  keys[event.key](event.shiftKey);
});

for (const button of document.querySelectorAll("button[data-key]")) {
  button.addEventListener("click", () => keys[button.dataset.key](false));
}

window.addEventListener("resize", redraw);
// On paper: the width of a sheet, drawn finer than for a screen.
window.addEventListener("beforeprint", () => drawAll(900, 3));
window.addEventListener("afterprint", redraw);
redraw();
