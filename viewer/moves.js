"use strict";
// Moves through a run: each leads to a step, which is drawn.
const {go, jump, goOn, goBack, toNear, afterOver, beforeOver, chosenLine, toVisit,
  toUse, toSet, toJump} = (() => {

function go(k, isJump) {
  const to = Math.max(0, Math.min(now.run.n, Math.round(k)));
  if (isJump && to != now.cur) now.jumps = [...now.jumps, now.cur].slice(-200);
  // XOR undoes itself: the same forwards and back
  flipStores(now.run.first[Math.min(now.cur, to)], now.run.first[Math.max(now.cur, to)]);
  now.cur = to;
  draw();
  now.hooks.moved?.(now.cur);
}

const jump = k => go(k, true);

function goOn(how) {
  if (now.cur == now.run.n && now.hooks.atEnd) now.hooks.atEnd(how);
  else if (how == "over") jump(afterOver());
  else go(now.cur + 1);
}

function goBack() {
  if (now.jumps.length) go(now.jumps.pop());
}

// To the state behind the next, or before the last, of some steps in order.
function toNear(steps, by) {
  const {run, cur} = now;
  const j = by > 0 ? run.countBelow(steps, cur) : run.countBelow(steps, cur - 1) - 1;
  jump(steps[j] === undefined ? cur : steps[j] + 1);
}

// The state after the next step and what it calls.
function afterOver() {
  const call = now.run.callAt(Math.min(now.cur + 1, now.run.n));
  return call.start == now.cur + 1 ? Math.min(call.end, now.run.n) : now.cur + 1;
}

// The state before the step just done, with what it returned from.
function beforeOver() {
  if (!now.cur) return 0;
  let call = now.run.callAt(now.cur - 1);
  if (call.end > now.cur) return now.cur - 1;
  while (call.up.end <= now.cur) call = call.up;
  return call.start - 1;
}

// The line that was clicked, or the one that comes next.
const chosenLine = () => now.line < 0 ? shownStart(now.run.PC[now.cur]) : now.line;

// To the visit of an address before or after this state, round at the ends.
function toVisit(address, by) {
  const all = now.run.visits.count(address), at = now.run.visits.before(address, now.cur);
  if (!all) return;
  const isHere = now.run.visits.pick(address, at) == now.cur;
  jump(now.run.visits.pick(address, by > 0 ? (at + isHere) % all : (at - 1 + all) % all));
}

// To the use of a byte before or after this state. The step just done does not count.
function toUse(address, isStore, by) {
  const {run, cur} = now, place = address + (isStore ? STORE : 0);
  const at = run.uses.before(place, run.first[cur]);
  const isLast = run.step[run.uses.pick(place, at - 1)] == cur - 1;
  const i = run.uses.pick(place, by < 0 ? at - 1 - isLast : at);
  if (i >= 0) jump(run.step[i] + 1);
}

// Back to the step that gave a register its byte, or, where that was the step just done, the byte
// before; of P the one flag that is asked for.
function toSet(name, mask = 255) {
  const {cur} = now, column = now.run[name], isSame = k => !((column[k] ^ column[k + 1]) & mask);
  let k = cur - 1 - (cur && !isSame(cur - 1));
  while (k >= 0 && isSame(k)) k--;
  jump(k + 1);
}

// Back to the step that led elsewhere than to the next instruction, or, where that was the step
// just done, to the one before.
function toJump() {
  const {PC, op, head} = now.run, {cur} = now;
  const behind = k => PC[k] + (head[k] & NO_INSTRUCTION ? 0 : lengthOf(op[k])) & 65535;
  const isJump = k => k >= 0 && PC[k + 1] != behind(k);
  let k = cur - 1 - isJump(cur - 1);
  while (k >= 0 && !isJump(k)) k--;
  jump(k + 1);
}

return {go, jump, goOn, goBack, toNear, afterOver, beforeOver, chosenLine, toVisit, toUse, toSet,
  toJump};
})();
if (typeof module !== "undefined") {
  module.exports = {go, jump, goOn, goBack, toNear, afterOver, beforeOver, chosenLine, toVisit,
    toUse, toSet, toJump};
}
