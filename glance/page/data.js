"use strict";
// What the page was given, and its lists: each is as it is, or as runs, a value and how often it comes.

const bench = JSON.parse(document.getElementById("data").textContent);

function expanded(packed) {
  if (Array.isArray(packed)) return packed;
  const values = [];
  for (let i = 0; i < packed.runs.length; i += 2) {
    for (let n = packed.runs[i + 1]; n > 0; n--) values.push(packed.runs[i]);
  }
  return values;
}

for (const name of ["holders", "numbers", "orbits"]) bench[name] = expanded(bench[name]);
for (const rule of bench.rules) rule.fills = expanded(rule.fills);
for (const input of bench.inputs) input.believed = expanded(input.believed);
for (const group of bench.groups) {
  for (const name of ["status", "codes", "sent", "calibrated", "first"]) group[name] = expanded(group[name]);
  group.lost = group.lost.map(expanded);
  group.commandBins = new Set(group.commands.map(([bin]) => bin));
}

const isTrigger = (group, bin) => group.sent[bin] + group.calibrated[bin] > 0;
const isLost = (group, bin) => group.lost.some((list) => list[bin] > 0);
const isCommand = (group, bin) => group.commandBins.has(bin);

// The places of the bits that are set.
function members(set) {
  const found = [];
  for (let n = 0; set >> n; n++) if (set >> n & 1) found.push(n);
  return found;
}

function colour(name) {
  return getComputedStyle(document.documentElement).getPropertyValue("--" + name).trim();
}

const statusNames = bench.statuses;
const statusColours = statusNames.map((name) => colour("status-" + name.replaceAll(" ", "-")));
const holderNames = [0, 1, 2, 3, 4, 5, 6, 7].map((k) => "group " + k).concat("nobody");
const holderColours = holderNames.map((_, k) => colour("group-" + k));
const causeColours = bench.causes.map((cause) => colour(cause.key.replaceAll("_", "-")));
