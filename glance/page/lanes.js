"use strict";
// The lanes, from top to bottom, each with its name, its height and its way of drawing, and where it has marks, what they mark; and all of
// them drawn.

const timeline = document.getElementById("timeline");

function lanesOf() {
  const lanes = [];
  const add = (label, height, draw, more = {}) => lanes.push({ label, height, draw, ...more });
  const band = (list, names, colours) => (pen, cells, height) => drawBand(pen, cells, height, list, names, colours);
  add("crossing", 32, (pen, cells, height, pixels) => drawAxis(pen, height, pixels));
  add("slot held by", 20, band(bench.holders, holderNames, holderColours));
  for (const group of bench.groups) {
    add(`Group ${group.ptc}: status`, 20, band(group.status, statusNames, statusColours), { group, first: true });
    add("commands", 20, (pen, cells, height, pixels) => drawCommands(pen, height, group, pixels), { group, marks: isCommand });
    add("triggers", 26, (pen, cells, height) => drawTicks(pen, cells, height, group), { group, marks: isTrigger });
    add("lost requests", 44, (pen, cells, height) => drawLosses(pen, cells, height, group), { group });
  }
  bench.rules.forEach((rule, n) => {
    const draw = (pen, cells, height, pixels) => drawFill(pen, cells, height, rule, pixels);
    add(`rule ${rule.name}: ${limits(rule)}`, 34, draw, { first: n === 0 });
  });
  return lanes;
}

const lanes = lanesOf();

let block = timeline;
for (const lane of lanes) {
  if (lane.first) {
    block = document.createElement("div");
    block.className = "block";
    timeline.append(block);
  }
  const row = document.createElement("div");
  row.className = lane.first ? "lane first" : "lane";
  const label = document.createElement("div");
  label.className = "label";
  label.textContent = lane.label;
  lane.canvas = document.createElement("canvas");
  lane.canvas.style.height = lane.height + "px";
  lane.canvas.setAttribute("role", "img");
  lane.canvas.setAttribute("aria-label", lane.label);
  row.append(label, lane.canvas);
  block.append(row);
}

// Where bins are all that is left to see, how to see more.
function extent() {
  const from = Math.floor(view.from), to = Math.ceil(view.to) - 1;
  const finest = bench.width > 1 && view.to - view.from <= 11 * bench.width;
  const more = finest ? `; this page is no finer: ./run --page DIR ${from} ${to} draws these alone` : "";
  return `crossings ${from.toLocaleString("en")} to ${to.toLocaleString("en")}${more}`;
}

function drawAll(pixels = Math.max(50, Math.floor(lanes[0].canvas.clientWidth)), fineness = window.devicePixelRatio || 1) {
  const cells = cellsOf(pixels);
  for (const lane of lanes) {
    lane.canvas.width = pixels * fineness;
    lane.canvas.height = lane.height * fineness;
    const pen = lane.canvas.getContext("2d");
    pen.scale(fineness, fineness);
    pen.fillStyle = "#ffffff";
    pen.fillRect(0, 0, pixels, lane.height);
    lane.draw(pen, cells, lane.height, pixels);
  }
  document.getElementById("extent").textContent = bench.bins ? extent() : "no crossing";
}
