"use strict";
// The part of the log that is in view: crossings `from` to `to`, the last not counted.

const view = { from: bench.from, to: Math.max(bench.from + 1, bench.to) };

function look(from, to) {
  const all = Math.max(1, bench.to - bench.from);
  const span = Math.min(all, Math.max(to - from, 10 * bench.width));
  view.from = Math.max(bench.from, Math.min(bench.from + all - span, from + (to - from - span) / 2));
  view.to = view.from + span;
}

function zoom(factor, about) {
  const span = (view.to - view.from) * factor;
  const share = (about - view.from) / (view.to - view.from);
  look(about - share * span, about + (1 - share) * span);
}

function binOf(crossing) {
  return Math.max(0, Math.min(bench.bins - 1, Math.floor((crossing - bench.from) / bench.width)));
}

function startOf(bin) {
  return bench.from + bin * bench.width;
}

function crossingsIn(first, last) {
  return Math.min(bench.to, startOf(last + 1)) - startOf(first);
}

// What a drawing shows side by side: a cell for each bin in view, or for each pixel where bins are narrower.
function cellsOf(pixels) {
  const cells = [];
  if (!bench.bins) return cells;
  const scale = pixels / (view.to - view.from);
  const low = binOf(view.from), high = binOf(view.to - 1e-6);
  if (high - low < pixels) {
    for (let bin = low; bin <= high; bin++) {
      const x = (startOf(bin) - view.from) * scale;
      cells.push({ x, width: crossingsIn(bin, bin) * scale, first: bin, last: bin });
    }
    return cells;
  }
  for (let x = 0; x < pixels; x++) {
    cells.push({ x, width: 1, first: binOf(view.from + x / scale), last: binOf(view.from + (x + 1) / scale - 1e-6) });
  }
  return cells;
}

// What a cell gathers of a list: a set of what was there, a sum, or the greatest.
function gathered(list, cell) {
  let set = 0;
  for (let bin = cell.first; bin <= cell.last; bin++) set |= list[bin];
  return set;
}

function summed(list, cell) {
  let sum = 0;
  for (let bin = cell.first; bin <= cell.last; bin++) sum += list[bin];
  return sum;
}

function greatest(list, cell) {
  let most = 0;
  for (let bin = cell.first; bin <= cell.last; bin++) most = Math.max(most, list[bin]);
  return most;
}
