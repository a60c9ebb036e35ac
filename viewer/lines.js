"use strict";
// The lines of the source: those of one file, or of the files of a program that another tool built.
// A line is a number: that of its file times WIDE, and that within the file, both from 0.
const {WIDE, readLines, fileOf, textAt, siteOf, lineText, lineOrAddress, hasCode, startOf, lineCycles,
  linesOf, shownStart, lineOn, lineBack} = (() => {

const WIDE = 2 ** 32;
// the opcodes of JSR and BRK, and of RTS and RTI
const CALLS = [0x20, 0], RETURNS = [0x60, 0x40];
// For each line that has bytes: where it begins, its first byte, and whether it has an instruction.
let places = new Map();
// At each address the line of the bytes that begin there, or -1, and whether it begins with others.
let rowAt = null, isPart = null;
let summed = {};

function readLines() {
  now.lineAt = new Float64Array(65536).fill(-1);
  rowAt = new Float64Array(65536).fill(-1);
  isPart = new Uint8Array(65536);
  places = new Map();
  summed = {};
  for (const [line, address, length, isOther, isData] of now.info.lines) {
    for (let k = 0; k < length; k++) now.lineAt[address + k & 65535] = line;
    if (rowAt[address] < 0) rowAt[address] = line;
    isPart[address] = isOther ? 1 : 0;
    if (!places.has(line)) places.set(line, {begins: [], first: address, hasCode: false});
    const place = places.get(line);
    if (!isOther) place.begins.push(address);
    place.hasCode ||= !isData;
  }
}

const fileOf = line => Math.floor(line / WIDE);
const textAt = line => (now.info.files[fileOf(line)]?.texts ?? now.info.source)?.[line % WIDE];
const siteOf = line => now.info.files.length
  ? `${now.info.files[fileOf(line)].name}:${line % WIDE + 1}` : `line ${line + 1}`;
const lineText = address => now.lineAt[address] < 0 ? "" : siteOf(now.lineAt[address]);
const lineOrAddress = address => lineText(address) || address4(address);

const hasCode = line => !!places.get(line)?.hasCode;

// Where a line begins: of several places the one that was reached most; -1 if it has no byte.
function startOf(line) {
  const {begins, first} = places.get(line) || {begins: [], first: -1}, {visits} = now.run;
  const most = (best, at) => visits.count(at) > visits.count(best) ? at : best;
  return begins.length ? begins.reduce(most) : first;
}

// The cycles of each line of files.
function lineCycles() {
  const {run} = now;
  if (summed.run == run && summed.version == run.version) return summed.cycles;
  const cycles = new Map();
  for (const at of addresses) {
    const line = now.lineAt[at];
    if (line >= 0 && run.cyclesAt[at]) cycles.set(line, (cycles.get(line) || 0) + run.cyclesAt[at]);
  }
  summed = {run, version: run.version, cycles};
  return cycles;
}

// The lines of a file: those of its text, and those behind it that have bytes.
function linesOf(file) {
  const {length} = now.info.files[file].texts, first = file * WIDE;
  const isBehind = line => fileOf(line) == file && line - first >= length;
  const behind = [...places.keys()].filter(isBehind).sort((a, b) => a - b);
  return [...Array.from({length}, (_, k) => first + k), ...behind];
}

// Where the line of an address begins, if lines of files are listed; otherwise the address.
function shownStart(address) {
  const line = now.lineAt[address];
  return program.view == "source" && now.info.files.length && line >= 0 ? startOf(line) : address;
}

// ---- steps by lines, as those of `mon`

const begun = address => isPart[address] ? -1 : rowAt[address];

// Whether a step is a call: a JSR, a BRK, or the entry of an interrupt.
const isCall = k => now.run.head[k] & NO_INSTRUCTION ? !(now.run.head[k] & BY_HAND)
  : CALLS.includes(now.run.op[k]);
const isReturn = k => !(now.run.head[k] & NO_INSTRUCTION) && RETURNS.includes(now.run.op[k]);

// The next state at which another line begins, and that is within no call made since; the last
// state if there is none.
function lineOn() {
  const {PC, S, n} = now.run, from = rowAt[PC[now.cur]];
  let stack = -1;                           // before the call that it is within
  for (let k = now.cur + 1; k <= n; k++) {
    if (stack < 0 && isCall(k - 1)) stack = S[k - 1];
    if (S[k] >= stack) stack = -1;
    const line = begun(PC[k]);
    if (stack < 0 && line >= 0 && line != from) return k;
  }
  return n;
}

// The last state before at which a line begins, and that is within no call that has returned since;
// the first state if there is none.
function lineBack() {
  const {PC, S} = now.run;
  let highest = 0;                          // that a return since has led to
  for (let k = now.cur - 1; k >= 0; k--) {
    if (isReturn(k)) highest = Math.max(highest, S[k + 1]);
    if (begun(PC[k]) >= 0 && S[k] >= highest) return k;
  }
  return 0;
}

return {WIDE, readLines, fileOf, textAt, siteOf, lineText, lineOrAddress, hasCode, startOf, lineCycles,
  linesOf, shownStart, lineOn, lineBack};
})();
if (typeof module !== "undefined") {
  module.exports = {WIDE, readLines, fileOf, textAt, siteOf, lineText, lineOrAddress, hasCode, startOf,
    lineCycles, linesOf, shownStart, lineOn, lineBack};
}
