"use strict";
// What happened in a cell, in words: the crossing, its number and orbit, the holder, each group's status and which input makes it so, what
// was sent, and why a request was lost.

function amount(count, one, many) {
  return count.toLocaleString("en") + " " + (count === 1 ? one : many || one + "s");
}

function listed(words) {
  return words.length < 2 ? words.join("") : words.slice(0, -1).join(", ") + " and " + words[words.length - 1];
}

function limits(rule) {
  return `${rule.normal} in ${rule.period}` + (rule.low === rule.normal ? "" : `, under warning ${rule.low}`);
}

function tellPlace(cell) {
  const start = startOf(cell.first), count = crossingsIn(cell.first, cell.last);
  const where = `number ${bench.numbers[cell.first]} of orbit ${bench.orbits[cell.first].toLocaleString("en")}`;
  const holders = members(gathered(bench.holders, cell)).map((k) => holderNames[k]);
  const slot = `the slot is ${listed(holders.map((name) => name + "’s"))}`;
  if (count === 1) return `Crossing ${start.toLocaleString("en")}, ${where}; ${slot}`;
  const end = (start + count - 1).toLocaleString("en");
  return `Crossings ${start.toLocaleString("en")} to ${end}, from ${where} on; ${slot}`;
}

function tellSent(group, cell) {
  const codes = members(gathered(group.codes, cell)).filter((code) => code).map((code) => bench.codes[code]);
  const sent = codes.length ? ["sends " + listed(codes)] : [];
  const counts = [[summed(group.sent, cell), "trigger"], [summed(group.calibrated, cell), "calibration trigger"]];
  const triggers = counts.filter(([count]) => count).map(([count, name]) => amount(count, name));
  if (!triggers.length) return sent;
  const first = group.first.slice(cell.first, cell.last + 1).find((_, n) => group.sent[cell.first + n] + group.calibrated[cell.first + n]);
  const at = crossingsIn(cell.first, cell.last) > 1 ? `, the first at crossing ${first.toLocaleString("en")}` : "";
  return sent.concat(listed(triggers) + at);
}

function tellLost(group, cell, statuses) {
  const causes = bench.causes.map((cause, n) => ({ ...cause, count: summed(group.lost[n], cell) })).filter((cause) => cause.count);
  if (!causes.length) return [];
  const holders = members(gathered(bench.holders, cell)).map((k) => holderNames[k]);
  const reason = (cause) => {
    const rule = bench.rules.find((rule) => cause.key === "lost_r" + rule.name);
    if (rule) return `${cause.words} (at most ${limits(rule)})`;
    if (cause.key === "lost_state" && statuses.length === 1) return `${cause.words} (${statuses[0]})`;
    if (cause.key === "lost_slot" && holders.length === 1) return `${cause.words} (${holders[0]} has it)`;
    return cause.words;
  };
  const total = causes.reduce((sum, cause) => sum + cause.count, 0);
  if (total === 1) return [`1 request lost to ${reason(causes[0])}`];
  return [`${amount(total, "request")} lost: ` + listed(causes.map((cause) => `${cause.count.toLocaleString("en")} to ${reason(cause)}`))];
}

// Which of a group's inputs are believed to carry something else than ready: named where they are few.
function tellInputs(group, cell) {
  const byCode = new Map();
  for (const input of bench.inputs) {
    if (input.owner !== null && input.owner !== group.ptc) continue;
    const words = new Set(members(gathered(input.believed, cell)).map((code) => input.codes[code]));
    words.delete("ready");
    for (const word of words) byCode.set(word, [...(byCode.get(word) || []), input.name]);
  }
  const named = ([word, names]) => `${names.length > 4 ? amount(names.length, "input") : listed(names)} ${word}`;
  return byCode.size ? [`inputs: ${[...byCode].map(named).join(", ")}`] : [];
}

function tellCommands(group, cell) {
  const told = [];
  for (const [bin, kinds] of group.commands) {
    if (bin < cell.first || bin > cell.last) continue;
    for (const [command, taken, count, crossing] of kinds) {
      const times = count > 1 ? ` ${count} times, the first` : "";
      told.push(`${bench.commands[command - 1]} ${taken ? "taken" : "not taken"}${times} before crossing ${crossing.toLocaleString("en")}`);
    }
  }
  return told;
}

function tellGroup(group, cell) {
  const statuses = members(gathered(group.status, cell)).map((n) => statusNames[n]);
  const parts = [tellInputs(group, cell), tellCommands(group, cell), tellSent(group, cell), tellLost(group, cell, statuses)];
  return `Group ${group.ptc}: ${[listed(statuses), ...parts.flat()].join("; ")}`;
}

function tellFills(cell) {
  return "Windows: " + bench.rules.map((rule) => `rule ${rule.name} ${greatest(rule.fills, cell)} of ${rule.normal}`).join(", ");
}

// All of it, or one group's part where a group is pointed at.
function tell(cell, group) {
  const groups = group ? [group] : bench.groups;
  return [tellPlace(cell), ...groups.map((one) => tellGroup(one, cell)), tellFills(cell)];
}
