"use strict";
// The machine of a playground as it is run, stepped and gone back over; nothing of a document.
//
// A machine holds its last events. What can be looked at is a `Run` of them: its step 0 is event
// number `base` since the start, and the live end is its step n. While a program runs at full
// speed nothing is written down; afterwards the machine goes back over what it holds, and makes it
// again, now with the records of its steps. What came from outside between steps, input and the
// bytes of devices, is kept by number, so that it comes again at the same places.
const {Session, recordByHand, programFacts, escapeText} = (() => {

const HISTORY = 65536;
const SLACK = 8192;        // so many steps may be added before the oldest are dropped
const CHUNK = 50000;       // steps of one call; fewer than the history, see `settle`
const RESET = 0xFFFC, VECTOR = 0xFFFE, I_FLAG = 4;
const BRK = 0x00, JSR = 0x20, JMP = 0x4C, JMP_POINTER = 0x6C;
const RANDOM = 0xFE;

const hex = (n, digits) => n.toString(16).toUpperCase().padStart(digits, "0");

// The record of an event by hand, as crates/page_data/specs/Events.antt has it: stores are
// [address, byte before, byte after].
function recordByHand({stores = [], given = []}) {
  const cells = stores.flatMap(([at, was, is]) => [at & 255, at >> 8, was ^ is]);
  if (!given.length) return Uint8Array.from([stores.length << 6, 0, ...cells]);
  const count = [0, 1, 2, 3, 4, 5, 6, 7].map(k => Math.floor(given.length / 256 ** k) & 255);
  return Uint8Array.from([stores.length << 6, 128, 32, ...cells, ...count, ...given]);
}

// Whether a record says that the step took a byte of input.
function takesInput(record) {
  const marks = record[1];
  if (!(marks & 128)) return false;
  let at = 2;
  for (let bit = 1; bit < 128; bit *= 2) at += marks & bit ? 1 : 0;
  return (record[at] & 2) != 0;
}

// The stretches of memory in which lines have bytes: [address, count].
function stretchesOf(lines) {
  const marks = new Uint8Array(65537), found = [];
  for (const line of lines) marks.fill(1, line.address, line.address + line.count);
  for (let at = 0; at < 65536; at++) {
    if (!marks[at]) continue;
    const end = marks.indexOf(0, at);
    found.push([at, end - at]);
    at = end;
  }
  return found;
}

// A byte outside of a page's alphabet is `%` and two hex digits.
function escapeText(text) {
  const bytesOf = c => Array.from(new TextEncoder().encode(c), byte => "%" + hex(byte, 2));
  return text.replace(/[^\n -~]|[%&<>]/gu, c => bytesOf(c).join(""));
}

// The names of the labels, which stand before `:`.
function labelsOf(lines) {
  return new Set(lines.map(line => /^[ \t]*([A-Za-z_]\w*)[ \t]*:/.exec(line.text)?.[1]));
}

const isAddress = ({value}) => value >= 0 && value < 65536;

// The facts of a program, a line each, as a page of a run has them.
function programFacts({title, port, ops, lines, names}) {
  const labels = labelsOf(lines);
  const facts = ["title " + title.replace(/\n/g, " ")];
  if (port !== null) facts.push("port " + hex(port, 4));
  facts.push("ops " + ops);
  for (const [at, count] of stretchesOf(lines)) facts.push(`loaded ${hex(at, 4)} ${count}`);
  for (const {number, address, count} of lines) {
    if (count) facts.push(`line ${number} ${hex(address, 4)} ${count}`);
  }
  for (const {name, value} of names.filter(isAddress)) {
    facts.push(`${labels.has(name) ? "label" : "name"} ${hex(value, 4)} ${name}`);
  }
  return facts.map(escapeText);
}

class Session {
  // `random` gives a byte for each read of $FE, where that is asked for
  constructor(engine, Run, {port = 0xF000, ops, random}) {
    Object.assign(this, {engine, Run, port, ops, random});
    this.config = {history: HISTORY, port, profile: "N", rom: null};
    this.hasRandom = false;
    this.breaks = new Set();
    this.machine = this.assembly = this.run = null;
    this.reason = {why: "start"};
  }

  faults(name, source) {
    return this.engine.faults(name, source, this.config);
  }

  warnings(name, source) {
    return this.engine.warnings(name, source, this.config);
  }

  // Assembles a source and opens a machine with it. Throws where the source is refused.
  open(name, source) {
    const assembly = this.engine.assemble(source, this.config);
    try {
      this.lines = assembly.lines();
      this.names = assembly.names();
      const machine = this.engine.open(assembly, this.config);
      this.close();
      this.assembly = assembly;
      this.begin(machine);
    } catch (fault) {
      if (this.assembly != assembly) assembly.close();
      throw fault;
    }
    const {lines, names, port, ops} = this;
    this.facts = programFacts({title: name, port, ops, lines, names});
    this.source = lines.map(line => line.text + "\n").join("");
    const labels = labelsOf(lines);
    this.places = names.filter(it => isAddress(it) && labels.has(it.name))
      .sort((a, b) => a.value - b.value);
  }

  close() {
    for (const it of [this.machine, this.assembly]) if (it) it.close();
    this.machine = this.assembly = null;
  }

  // The machine as it was after the reset.
  restart() {
    const machine = this.engine.open(this.assembly, this.config);
    this.machine.close();
    this.begin(machine);
  }

  begin(machine) {
    this.machine = machine;
    this.loaded = stretchesOf(this.lines);
    this.image = new Uint8Array(65536);
    for (const [at, count] of this.loaded) this.image.fill(1, at, at + count);
    this.begun = this.beginWithoutReset();
    this.total = this.base = this.shown = 0;   // events made, before step 0, and in the run
    this.givenCount = 0;
    this.outside = [];                         // [event number, what came], in order
    this.taken = [];                           // the events that took a byte of input
    this.run = new this.Run(machine.recordStart(), this.loaded);
    for (const address of this.breaks) machine.setBreak(address);
    this.reason = {why: "start"};
  }

  // Without a byte at the reset vector a program begins at the first instruction of its source.
  // Returns that address, or -1.
  beginWithoutReset() {
    const first = this.lines.find(line => line.isInstruction);
    if (this.image[RESET] || this.image[RESET + 1] || !first) return -1;
    this.machine.set("PC", first.address);
    return first.address;
  }

  get inputWaits() {
    return this.givenCount > this.taken.length;
  }

  // ---- breakpoints

  // Sets a breakpoint, or clears it. Returns whether it is set now.
  toggleBreak(address) {
    const isSet = this.breaks.has(address);
    if (this.machine) this.machine[isSet ? "clearBreak" : "setBreak"](address);
    this.breaks[isSet ? "delete" : "add"](address);
    return !isSet;
  }

  // ---- what comes from outside

  // An event by hand at the live end: a byte of input, or bytes put into memory.
  apply(it) {
    if (it.given) this.machine.input(it.given[0]);
    else this.machine.patch(it.address, Uint8Array.from(it.bytes));
  }

  hand(it) {
    this.apply(it);
    if (it.given) this.givenCount++;
    this.reason = {why: "stopped"};
    this.outside.push([this.total++, it]);
  }

  // Input, at step k: what came after it is dropped.
  type(bytes, k = this.run.n) {
    this.cut(k);
    for (const byte of bytes) this.hand({given: [byte]});
    this.settle();
  }

  // Bytes of memory, while the program runs or at the live end.
  patch(address, bytes) {
    this.hand({address, bytes});
  }

  // ---- going back

  // Whether the machine can still be taken back to step k of the run.
  canCut(k) {
    return this.total - this.base - k <= this.machine.held();
  }

  // Goes back to step k, and drops what came after it.
  cut(k) {
    const count = this.total - this.base - k;
    if (count <= 0) return;
    this.machine.back(count);
    this.run.truncate(k);
    this.forgetFrom(this.base + k);
    this.reason = {why: "stopped"};
  }

  forgetFrom(event) {
    this.total = event;
    this.shown = Math.min(this.shown, event);
    this.outside = this.outside.filter(([number]) => number < event);
    this.givenCount = this.outside.filter(([, it]) => it.given).length;
    this.taken = this.taken.filter(number => number < event);
  }

  // ---- going on

  // What keeps the program from a next step, or null.
  restHere() {
    const {pc} = this.machine.registers();
    const opcode = this.machine.read(pc, 1)[0];
    if (opcode == BRK) {
      if (!this.image[pc]) return {why: "unwritten", address: pc};
      if (this.vector() == 0) return {why: "brk", address: pc};
    }
    return this.waitsHere() ? {why: "waits", address: pc} : null;
  }

  vector() {
    const [low, high] = this.machine.read(VECTOR, 2);
    return low | high << 8;
  }

  // Whether the instruction at PC looks for input, and none waits.
  waitsHere() {
    if (this.port === null || this.inputWaits) return false;
    const {reads, read} = this.machine.access();
    return reads && (read == this.port + 1 || read == this.port + 2);
  }

  // The addresses at which a run at full speed stops to look: those of input, and of the device.
  marks() {
    const marks = new Uint8Array(65536);
    if (this.port !== null) marks[this.port + 1] = marks[this.port + 2] = 1;
    if (this.hasRandom) marks[RANDOM] = 1;
    return marks;
  }

  // One step, and before it what a device gives. Returns why it was refused, or null.
  stepHere() {
    if (this.hasRandom) {
      const {reads, read} = this.machine.access();
      if (reads && read == RANDOM) this.hand({address: RANDOM, bytes: [this.random()]});
    }
    const {ending, records} = this.machine.recordRun(1);
    if (ending.did == 0) return {...ending, why: "refused"};
    if (takesInput(records)) this.taken.push(this.total);
    this.total++;
    return null;
  }

  // One step at the live end, as the user asks for it.
  step() {
    const rest = this.restHere();
    if (rest && rest.why != "waits") return this.reason = rest;
    const before = this.machine.registers();
    this.reason = this.stepHere() || this.stuckSince(before) || {why: "stopped"};
    this.settle();
    return this.reason;
  }

  stuckSince(before) {
    const after = this.machine.registers();
    if (before.pc != after.pc || before.s != after.s) return null;
    const isAsleep = !(after.p & I_FLAG) && this.port !== null;
    return {why: isAsleep && !this.inputWaits ? "waits" : "stuck", address: after.pc};
  }

  // Whether an instruction of the source may read where a run has to stop to look. What the program
  // writes into its own operands is not foreseen: then it runs on while it waits for input.
  mayLook(marks) {
    const code = this.machine.read(0, 65536), isMarked = marks.some(mark => mark);
    const reads = ({address}) => {
      const [opcode, low, high] = code.subarray(address, address + 3), word = low | high << 8;
      const form = this.ops[opcode * 4 + 3];
      if ("gh".includes(form)) return true;                     // through a pointer
      if ("ef".includes(form)) return this.hasRandom;           // with an index, in the zero page
      if ("kl".includes(form)) return marks.subarray(word, word + 256).some(mark => mark);
      return form == "d" && marks[low] || form == "j" && marks[word];
    };
    return isMarked && this.lines.some(line => line.isInstruction && reads(line));
  }

  // Makes a run ready: to the end, or over the call at PC to its return.
  start(isOver) {
    const {pc, s} = this.machine.registers();
    const isCall = this.machine.read(pc, 1)[0] == JSR;
    this.over = isOver ? {address: pc + 3 & 65535, s, isCall} : null;
    this.began = this.total;
    const marks = this.marks();
    this.lookMarks = this.mayLook(marks) ? marks : null;
  }

  // Makes at most so many steps at full speed. Returns why the run ended, or null.
  slice(limit = CHUNK) {
    const inner = this.setInnerBreaks();
    let left = limit, reason = this.restHere();
    while (left > 0 && !reason) {
      const did = this.total;
      reason = this.stretch(left, inner);
      left -= this.total - did;
    }
    for (const address of inner) this.machine.clearBreak(address);
    reason ||= this.stuckHere();
    this.reason = reason || {why: "stopped"};
    return reason;
  }

  // Steps to the next place where something has to be looked at.
  stretch(limit, inner) {
    const {machine, lookMarks} = this;
    const ending = lookMarks ? machine.runToAccess(lookMarks, limit) : machine.run(limit);
    this.total += ending.did;
    if (ending.why == "refused") return ending;
    if (ending.why == "break") return this.breakAt(ending.address);
    if (ending.did == limit) return null;
    const rest = this.restHere() || this.stepHere();         // what is marked comes next
    if (rest) return rest;
    const {pc} = this.machine.registers();
    return this.breaks.has(pc) || inner.has(pc) ? this.breakAt(pc) : null;
  }

  // Breakpoints of the run's own: where a BRK leads to, and where a call returns to.
  setInnerBreaks() {
    this.vectorHere = this.vector();
    const wanted = new Set([this.vectorHere]);
    if (this.over) wanted.add(this.over.address);
    for (const address of this.breaks) wanted.delete(address);
    for (const address of wanted) this.machine.setBreak(address);
    return wanted;
  }

  breakAt(address) {
    const wasBrk = address == this.vectorHere ? this.brkBefore() : null;
    if (wasBrk) return wasBrk;
    const {over} = this;
    const isBack = over && address == over.address && this.machine.registers().s >= over.s;
    if (isBack) return {why: "over"};
    return this.breaks.has(address) ? {why: "break", address} : null;
  }

  // Goes back before a BRK that has no handler, or stands where nothing was written; so too where
  // an interrupt came in its place.
  brkBefore() {
    if (this.total == this.began || this.lastIsOutside() || !this.mayFollowBrk()) return null;
    this.machine.back(1);
    const rest = this.restHere();
    if (rest && rest.why != "waits") {
      this.forgetFrom(this.total - 1);
      return rest;
    }
    this.machine.recordRun(1);
    return null;
  }

  // Whether the last step may have been a BRK, by what it would have pushed: P with B set, and its
  // own address and 2; or an interrupt before one: P with B clear, and its own address.
  mayFollowBrk() {
    const {s} = this.machine.registers();
    const page = this.machine.read(0x0100, 256);
    const [p, low, high] = [1, 2, 3].map(k => page[s + k & 255]);
    const at = (low | high << 8) - (p & 0x10 ? 2 : 0) & 65535;
    return (p & 0x20) != 0 && this.machine.read(at, 1)[0] == BRK;
  }

  lastIsOutside() {
    const last = this.outside.at(-1);
    return last !== undefined && last[0] == this.total - 1;
  }

  // Whether the next step would jump to itself: it is made and taken back, where the instruction
  // may be such a jump, since a step that is made drops the oldest one.
  stuckHere() {
    const {pc} = this.machine.registers();
    const [opcode, low, high] = this.machine.read(pc, Math.min(3, 65536 - pc));
    const mayStay = opcode == JMP && (low | high << 8) == pc || opcode == JMP_POINTER
      || opcode % 32 == 16 && low == 0xFE;
    if (!mayStay || this.lastIsOutside()) return null;
    const before = this.machine.registers();
    const {ending} = this.machine.recordRun(1);
    if (ending.did == 0) return null;
    const reason = this.stuckSince(before);
    this.machine.back(1);
    return reason;
  }

  // ---- what can be looked at

  // Brings the run to the live end, by the records of what was made at full speed.
  settle() {
    const held = this.machine.held(), fresh = this.total - this.shown;
    if (fresh > held || this.run.n + fresh > HISTORY + SLACK) this.rebuild(held);
    else if (fresh > 0) {
      this.machine.back(fresh);
      this.again(this.shown);
    }
    if (this.reason.why == "stuck" || this.reason.why == "waits") this.dropRepeated();
  }

  rebuild(held) {
    this.machine.back(held);
    this.base = this.shown = this.total - held;
    this.run = new this.Run(this.machine.recordStart(), this.loaded);
    this.again(this.base);
  }

  // Makes the events from one on again, with their records.
  again(from) {
    for (const records of this.remade(from)) this.run.append(records);
    this.shown = this.total;
  }

  *remade(from) {
    const next = this.outside.filter(([number]) => number >= from);
    for (let at = from; at < this.total;) {
      if (next.length && next[0][0] == at) {
        yield this.applied(next.shift()[1]);
        at++;
        continue;
      }
      const limit = (next.length ? next[0][0] : this.total) - at;
      const {ending, records} = this.machine.recordRun(limit);
      if (ending.did == 0) throw new Error("a step that was made is refused");
      at += ending.did;
      yield records;
    }
  }

  // An event by hand made again, and its record.
  applied(it) {
    if (it.given) {
      this.apply(it);
      return recordByHand({given: it.given});
    }
    const before = this.machine.read(it.address, it.bytes.length);
    this.apply(it);
    return recordByHand({stores: it.bytes.map((byte, k) => [it.address + k, before[k], byte])});
  }

  // Of the steps of a jump to itself the first one alone is kept.
  dropRepeated() {
    const {run} = this;
    const stays = k => run.PC[k] == run.PC[k + 1] && run.S[k] == run.S[k + 1]
      && !(run.head[k] & 12);
    let k = run.n;
    while (k > 0 && stays(k - 1)) k--;
    if (k + 1 < run.n) {
      const {reason} = this;
      this.cut(k + 1);
      this.reason = reason;
    }
  }

  // The data of a page of what is held.
  data() {
    const first = this.total - Math.min(this.machine.held(), this.total - this.base);
    this.machine.back(this.total - first);
    const parts = [this.machine.recordStart(), ...this.remade(first)];
    const all = new Uint8Array(parts.reduce((sum, part) => sum + part.length, 0));
    let at = 0;
    for (const part of parts) {
      all.set(part, at);
      at += part.length;
    }
    return all;
  }

  // ---- words

  // The number of the line with the instruction at an address, or 0.
  lineAt(address) {
    const line = this.lines.find(it => it.address <= address && address < it.address + it.count);
    return line ? line.number : 0;
  }

  // An address with its label and its line.
  placeOf(address) {
    const label = this.places.filter(it => it.value <= address && address - it.value < 64).at(-1);
    const away = label ? address - label.value : 0, line = this.lineAt(address);
    return "$" + hex(address, 4) + (label ? ` ${label.name}${away ? "+" + away : ""}` : "")
      + (line ? `, line ${line}` : "");
  }

  // Where the machine came from to where it stands.
  cameFrom() {
    return this.run.n ? ", from " + this.placeOf(this.run.PC[this.run.n - 1]) : "";
  }
}

return {Session, recordByHand, programFacts, escapeText};
})();
if (typeof module !== "undefined") {
  module.exports = {Session, recordByHand, programFacts, escapeText};
}
