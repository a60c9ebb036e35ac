"use strict";
// The cycles of labels and subroutines in the whole run.
const {costs, countLabels, wholeCosts} = (() => {

// The cycles and the first step of each label; all cycles; how many labels have some.
const costs = {of: null, come: null, total: 1, some: 0};

function countLabels() {
  costs.of = new Float64Array(now.labels.length);
  costs.come = new Float64Array(now.labels.length).fill(Infinity);
  for (let address = 0; address < 65536; address++) {
    const j = now.labelAt[address];
    if (j < 0 || !now.run.visits.count(address)) continue;
    costs.of[j] += now.run.cyclesAt[address];
    costs.come[j] = Math.min(costs.come[j], now.run.visits.pick(address, 0));
  }
  costs.some = count(costs.of, cycles => cycles > 0);
  costs.total = now.run.C[now.run.n] - now.run.C[0] || 1;
}

// The cycles of each subroutine with all that it calls; a call within a call of its own is counted
// once.
function wholeCosts() {
  const whole = new Map(), open = new Map(), nest = [];
  const add = (map, at, by) => map.set(at, (map.get(at) || 0) + by);
  const cyclesBefore = k => now.run.C[Math.min(k, now.run.n)];
  for (const call of now.run.calls) {
    while (nest.length && nest.at(-1).end <= call.start) add(open, nest.pop().at, -1);
    if (!open.get(call.at)) add(whole, call.at, cyclesBefore(call.end) - cyclesBefore(call.start));
    add(open, call.at, 1);
    nest.push(call);
  }
  return whole;
}

return {costs, countLabels, wholeCosts};
})();
if (typeof module !== "undefined") module.exports = {costs, countLabels, wholeCosts};
