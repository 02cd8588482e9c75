"use strict";
// How a lane is drawn: bands, ticks, densities, commands, fills and the axis. What is rare keeps a pixel or two, however wide the view.

const FONT = "11px system-ui, sans-serif";

function inkOn(background) {
  const [r, g, b] = [1, 3, 5].map((at) => parseInt(background.slice(at, at + 2), 16));
  return 0.299 * r + 0.587 * g + 0.114 * b > 140 ? "#000000" : "#ffffff";
}

// A cell from one whole pixel to another, so that neighbours leave no seam and the narrowest has a pixel.
function fillCell(pen, cell, y, tall) {
  const x = Math.floor(cell.x);
  pen.fillRect(x, y, Math.max(1, Math.ceil(cell.x + cell.width) - x), tall);
}

// Neighbours with the same set are one piece of the band. A set of several is shown in stripes, and named where there is room.
function drawBand(pen, cells, height, list, names, colours) {
  for (let i = 0; i < cells.length; ) {
    const set = gathered(list, cells[i]);
    const x = cells[i].x;
    let end = x;
    for (; i < cells.length && gathered(list, cells[i]) === set; i++) end = cells[i].x + cells[i].width;
    const values = members(set);
    values.forEach((value, n) => {
      pen.fillStyle = colours[value];
      pen.fillRect(x, (n * height) / values.length, Math.max(end - x, 1), height / values.length);
    });
    pen.fillStyle = colour("ink");
    if (x > 0 && end - x > 3) pen.fillRect(x, 0, 0.6, height);
    if (values.length === 1) nameBand(pen, Math.max(x, 0), end, height, names[values[0]], colours[values[0]]);
  }
}

function nameBand(pen, x, end, height, name, background) {
  pen.font = FONT;
  if (end - x < pen.measureText(name).width + 8) return;
  pen.fillStyle = inkOn(background);
  pen.textAlign = "left";
  pen.textBaseline = "middle";
  pen.fillText(name, x + 4, height / 2 + 0.5);
}

// A tick stands on whole pixels, so that it is never pale.
function drawTicks(pen, cells, height, group) {
  for (const cell of cells) {
    const x = Math.round(cell.x + Math.max(cell.width, 1) / 2 - 1);
    if (summed(group.sent, cell)) {
      pen.fillStyle = colour("sent");
      pen.fillRect(x, 1, 2, height / 2 - 1);
    }
    if (summed(group.calibrated, cell)) {
      pen.fillStyle = colour("calibrated");
      pen.fillRect(x, height / 2 + 1, 2, height / 2 - 2);
      pen.beginPath();
      pen.arc(x + 1, height * 0.75, 3.2, 0, 7);
      pen.fill();
    }
  }
}

// The share of a cell's crossings with a lost request, the causes one on the other. The top of the lane is written in it.
function drawLosses(pen, cells, height, group) {
  const shares = cells.map((cell) => group.lost.map((list) => summed(list, cell) / crossingsIn(cell.first, cell.last)));
  const most = Math.max(0, ...shares.map((share) => share.reduce((sum, one) => sum + one, 0)));
  if (!most) return;
  const top = [0.01, 0.02, 0.05, 0.1, 0.2, 0.5, 1].find((one) => one >= most - 1e-9);
  cells.forEach((cell, at) => {
    let y = height;
    shares[at].forEach((share, n) => {
      if (!share) return;
      const tall = Math.max(2, (share / top) * (height - 2));
      y -= tall;
      pen.fillStyle = causeColours[n];
      fillCell(pen, cell, Math.max(y, 0), tall);
    });
  });
  drawTop(pen, `${100 * top} % of crossings`);
}

function drawTop(pen, words) {
  pen.font = FONT;
  pen.textAlign = "left";
  pen.textBaseline = "top";
  pen.fillStyle = "rgba(255, 255, 255, 0.8)";
  pen.fillRect(0, 0, pen.measureText(words).width + 6, 13);
  pen.fillStyle = colour("quiet");
  pen.fillText(words, 3, 1);
}

// A full triangle is a command that was taken, an empty one one that was not. Those that stand together share one, and are named in turn.
function drawCommands(pen, height, group, pixels) {
  const scale = pixels / (view.to - view.from);
  const heaps = [];
  for (const [command, taken, count, crossing] of group.commands.flatMap(([, kinds]) => kinds).sort((a, b) => a[3] - b[3])) {
    const x = (crossing - view.from) * scale;
    const name = bench.commands[command - 1] + (count > 1 ? " ×" + count : "") + (taken ? "" : " not taken");
    const last = heaps[heaps.length - 1];
    if (last && x - last.x < 9) last.names.push({ name, taken });
    else if (x > -8 && x < pixels + 8) heaps.push({ x, names: [{ name, taken }] });
  }
  heaps.forEach((heap, n) => drawHeap(pen, height, heap, n + 1 < heaps.length ? heaps[n + 1].x - 6 : pixels));
}

function drawHeap(pen, height, heap, end) {
  const some = heap.names.some((one) => one.taken);
  pen.beginPath();
  pen.moveTo(heap.x - 4, 4);
  pen.lineTo(heap.x + 4, 4);
  pen.lineTo(heap.x, height - 4);
  pen.closePath();
  pen.fillStyle = some ? colour("ink") : "#ffffff";
  pen.fill();
  pen.strokeStyle = some ? colour("ink") : colour("limit");
  pen.stroke();
  pen.font = FONT;
  pen.textAlign = "left";
  pen.textBaseline = "middle";
  let x = heap.x + 7;
  for (const { name, taken } of heap.names) {
    const width = pen.measureText(name).width;
    if (x + width > end) return;
    pen.fillStyle = taken ? colour("ink") : colour("limit");
    pen.fillText(name, x, height / 2);
    x += width + 8;
  }
}

function drawFill(pen, cells, height, rule, pixels) {
  const top = Math.max(rule.normal, rule.low, 1) * 1.12;
  const y = (value) => height - 1 - (value / top) * (height - 3);
  pen.fillStyle = colour("fill");
  for (const cell of cells) {
    const fill = greatest(rule.fills, cell);
    if (fill) fillCell(pen, cell, y(fill), height - 1 - y(fill));
  }
  pen.strokeStyle = colour("limit");
  for (const limit of new Set([rule.normal, rule.low])) {
    const line = Math.floor(y(limit)) + 0.5; // in the middle of a pixel, so that it is not pale
    pen.setLineDash(limit === rule.normal ? [] : [4, 4]);
    pen.beginPath();
    pen.moveTo(0, line);
    pen.lineTo(pixels, line);
    pen.stroke();
  }
  pen.setLineDash([]);
}

// A step of 1, 2 or 5 and zeros, so that marks have room for their words.
function stepFor(span, pixels) {
  const rough = (span * 110) / pixels;
  const power = 10 ** Math.floor(Math.log10(Math.max(rough, 1)));
  return [1, 2, 5, 10].map((n) => n * power).find((step) => step >= rough);
}

function drawAxis(pen, height, pixels) {
  const scale = pixels / (view.to - view.from);
  const step = Math.max(1, stepFor(view.to - view.from, pixels));
  pen.font = FONT;
  pen.fillStyle = colour("ink");
  pen.strokeStyle = colour("ink");
  pen.textBaseline = "top";
  for (let crossing = Math.ceil(view.from / step) * step; crossing < view.to && bench.bins; crossing += step) {
    const x = (crossing - view.from) * scale;
    pen.fillRect(x, height - 6, 1, 6);
    pen.textAlign = x < 30 ? "left" : x > pixels - 40 ? "right" : "center";
    pen.fillText(crossing.toLocaleString("en"), x, 1);
    pen.fillText("orbit " + bench.orbits[binOf(crossing)].toLocaleString("en"), x, 14);
  }
}
