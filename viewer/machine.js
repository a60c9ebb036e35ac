"use strict";
// The machine at a step: registers, flags, what the last step did and the next one will, calls.
const {effectsOf, instructionTold, drawMachine, flagsAt} = (() => {

// What a step reads, stores, puts out, takes and does to the registers, done or to come.
function effectsOf(k, isDone) {
  const {run} = now, parts = [];
  const inAt = run.countBelow(run.takenAt, k), outAt = run.countBelow(run.outAt, k);
  for (let i = run.first[k]; i < run.first[k + 1]; i++) {
    const port = run.where[i] - now.info.port, isPort = port >= 0 && port < 4;
    parts.push(isPort ? portAccess(i, k, inAt, outAt) : access(i, k, isDone));
  }
  const isPlain = !(run.head[k] & 248), isBranch = isPlain && run.op[k] % 32 == 16;
  if (isBranch) {
    const to = run.PC[k + 1], isTaken = to != (run.PC[k] + 2 & 65535);
    parts.push(isTaken ? "taken to " + escaped(placeOf(to)) : "not taken");
  }
  const isByHand = run.head[k] & BY_HAND;
  if (isDone || isByHand) parts.push(...registerChanges(k, isByHand));
  if (isByHand) parts.push(...handChanges(k));
  return parts.join(" · ");
}

function portAccess(i, k, inAt, outAt) {
  const isStore = now.run.isStore(i), sort = isStore ? "W" : "R";
  const told = byte => `${hex(byte)} ${escaped(glyph(byte))}`;
  let words = `${isStore ? "stores at" : "asks"} ${placed(now.run.where[i])}`;
  if (isStore && now.run.outAt[outAt] == k) words = "puts out " + told(now.run.out[outAt]);
  else if (!isStore && now.run.takenAt[inAt] == k) words = "takes " + told(now.run.given[inAt]);
  return `<span class="${sort}">${words}</span>`;
}

function access(i, k, isDone) {
  const {run} = now, at = run.where[i], place = placed(at);
  let byte = now.memory[at];
  if (run.isStore(i)) {
    const xor = run.xor[i], was = isDone ? byte ^ xor : byte, is = isDone ? byte : byte ^ xor;
    const words = xor ? `${hex(was)} → ${hex(is)}` : `stays ${hex(byte)}`;
    return `<span class="W">${place} ${words}</span>`;
  }
  // what was read is there no longer where the same step has stored
  for (let j = i + 1; isDone && j < run.first[k + 1]; j++) {
    if (run.where[j] == at) byte ^= run.xor[j];
  }
  return `<span class="R">${place} = ${hex(byte)}</span>`;
}

function placed(address) {
  const name = nameOf(address);
  return hex(address, 4) + (name ? ` <u>${escaped(name)}</u>` : "");
}

function registerChanges(k, isByHand) {
  const changed = [..."AXYSP"].filter(name => now.run[name][k] != now.run[name][k + 1]);
  const told = changed.filter(name => name != "P" || isByHand);
  return told.map(name => `${name} ${hex(now.run[name][k])} → ${hex(now.run[name][k + 1])}`);
}

function handChanges(k) {
  const parts = [], j = now.run.givenAt.indexOf(k), head = now.run.head[k];
  if (j >= 0) parts.push(`hands in ${hex(now.run.given[j])} ${escaped(glyph(now.run.given[j]))}`);
  if (head & 1) parts.push("the interrupt line changes");
  if (head & 2 && !now.run.took[k]) parts.push("asks for an NMI");
  return parts;
}

// What step k is: its instruction, or the event that it was.
function instructionTold(k) {
  const {run} = now, at = run.PC[k], next = run.PC[k + 1], to = escaped(placeOf(next));
  if (run.head[k] & BY_HAND) {
    const what = run.took[k] ? "reset" : "by hand";
    return `<b class="I">${what}</b>${next == at ? "" : ", to " + to}`;
  }
  if (run.head[k] & NO_INSTRUCTION) return `<b class="I">interrupt</b>, to ${to}`;
  return `<b>${escaped(disassembled(at)[0])}</b>`;
}

// The step before, or the one after, in words.
function stepTold(k, word) {
  const isDone = word == "did", {run} = now;
  if (k < 0) return `<em>${word}</em>nothing yet: the run begins here<br><u></u>`;
  const at = run.PC[k], place = escaped(placeOf(at));
  if (k >= run.n) return endTold(word, at, place);
  return `<em>${word}</em>${instructionTold(k)} <u>${run.took[k]} cycles · ${place}</u>` +
    `<br><em></em>${effectsOf(k, isDone)}`;
}

function endTold(word, at, place) {
  if (!isBefore()) {
    return `<em>${word}</em>the run ends here<br><u>${escaped(now.info.why || "")}</u>`;
  }
  const text = escaped(disassembled(at)[0]);
  return `<em>${word}</em><b>${text}</b> <u>${place}</u><br><em></em><u>not run yet</u>`;
}

const FLAGS = {
  N: "negative", V: "overflow", D: "decimal", I: "interrupts off", Z: "zero", C: "carry",
};

const asButton = told => `role="button" tabindex="0" aria-label="${told}"`;

function registerTold(name) {
  const {cur} = now, column = now.run[name];
  const value = column[cur], old = column[Math.max(0, cur - 1)];
  const was = value == old ? "" : "was " + hex(old), told = `${name} ${hex(value)} ${was}`;
  return `<div class="reg${was ? " chg" : ""}" data-r="${name}" ${asButton(told)}` +
    ` title="Click: back to the step that set ${name}">` +
    `<small><span>${name}${name == "S" ? " stack" : ""}</span><span>${was}</span></small>` +
    `<b>${hex(value)}</b>` +
    `<small><span>${value}</span><span>${escaped(glyph(value))}</span></small></div>`;
}

function flagTold(name, j) {
  const {cur} = now, {P} = now.run, bit = 128 >> j, isOn = P[cur] & bit;
  if (!FLAGS[name]) return "";
  const mark = (isOn ? "on" : "") + ((P[Math.max(0, cur - 1)] ^ P[cur]) & bit ? " chg" : "");
  const told = `${FLAGS[name]} ${isOn ? 1 : 0}`;
  return `<span class="${mark}" data-bit="${bit}" ${asButton(told)}` +
    ` title="${FLAGS[name]}. Click: back to the step that set it">` +
    `${name}<span class="off">=${isOn ? 1 : 0}</span></span>`;
}

// The flags at a step, those that are 1 as capitals.
const flagsAt = k => [..."NV-BDIZC"].map((name, j) => !FLAGS[name] ? ""
  : now.run.P[k] & 128 >> j ? name : name.toLowerCase()).join("");

function drawMachine() {
  const pc = now.run.PC[now.cur], place = placeOf(pc);
  put("regs", [..."AXYS"].map(registerTold).join(""));
  put("pc", `<small><span>PC</span><span>${escaped(lineText(pc))}</span></small><b>${hex(pc, 4)}</b>` +
    `<small>${escaped(place)}</small>`);
  $("pc").ariaLabel = `PC ${hex(pc, 4)} ${place == address4(pc) ? "" : place}`;
  $("pc").title = `${place}. Click: back to the step that jumped last`;
  put("flags", [..."NV-BDIZC"].map(flagTold).join(""));
  put("did", stepTold(now.cur - 1, "did"));
  put("next", stepTold(now.cur, "next"));
  drawCalls();
}

function drawCalls() {
  let html = "", s = now.run.S[now.cur];
  for (let call = now.run.callAt(now.cur); call; call = call.up) {
    const pushed = [];
    const end = Math.min(call.s, s + 8);
    for (let k = s + 1; k <= end; k++) pushed.push(hex(now.memory[256 + k]));
    // what the call itself has pushed: where it returns to, and of an interrupt the flags
    s = call.s + (call.irq ? 3 : 2);
    html += callTold(call, pushed);
  }
  put("calls", html);
}

function callTold(call, pushed) {
  const from = call.up ? escaped(lineOrAddress(now.run.PC[call.start - 1])) : "";
  const origin = !call.up ? "reset" : (call.irq ? "interrupt at " : "from ") + from;
  const told = "Go to the call. Pushed: what is on the stack since";
  return `<button data-go="${Math.max(0, call.start - 1)}" title="${told}">` +
    `<b class="${call.irq ? "I" : ""}">${escaped(placeOf(call.at))}</b>` +
    `${pushed.length ? "pushed " : ""}${pushed.join(" ")}<span>${origin}</span></button>`;
}

return {effectsOf, instructionTold, drawMachine, flagsAt};
})();
if (typeof module !== "undefined") {
  module.exports = {effectsOf, instructionTold, drawMachine, flagsAt};
}
