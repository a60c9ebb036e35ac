"use strict";
// The data of a run, as crates/page_data/specs/{Start,Format,Events}.antt say; nothing of a
// document.
//
// A run has the states 0 to n, and step k leads from state k to state k + 1. A step, or an event
// that is no step, is a record of the data. The columns have an entry for each state:
//   A X Y S P PC   the registers
//   C              the cycles
//   first          how many accesses came before
//   lines          bit 2: input asks for an IRQ; bit 3: the IRQ line does; bit 4: an NMI is pending
// or for each step:
//   op took        the opcode at PC, and the cycles
//   head           bits 0 and 1: it turned the IRQ line, the pending NMI; bit 2: it is an event by
//                  hand; bit 3: no instruction ran; bits 4 and 5: how many addresses it read;
//                  bits 6 and 7: how many it stored at, or, of an event by hand, 3 or more
// or for each access, those of a step in order, the reads before the stores:
//   where step     the address, and the step
//   xor            old XOR new of the byte there
// An access stands in the groups of `uses` at its address, a store 65,536 behind it, and a step
// that ran an instruction in those of `visits`.
const {Run, decodeRun, readFacts, countBelow, STORE, BY_HAND, NO_INSTRUCTION} = (() => {

const STORE = 65536, BY_HAND = 4, NO_INSTRUCTION = 8, JSR = 0x20;
const STATES = {
  A: Uint8Array, X: Uint8Array, Y: Uint8Array, S: Uint8Array, P: Uint8Array, PC: Uint16Array,
  C: Float64Array, first: Uint32Array, lines: Uint8Array,
  op: Uint8Array, took: Uint8Array, head: Uint8Array,
};
const ACCESSES = {where: Uint16Array, xor: Uint8Array, step: Uint32Array};

class Reader {
  constructor(data) {
    this.data = data;
    this.at = 0;
  }
  byte() {
    return this.data[this.at++];
  }
  word() {
    return this.byte() | this.byte() << 8;
  }
  long() {
    let sum = 0;
    for (let k = 0, weight = 1; k < 8; k++, weight *= 256) sum += this.byte() * weight;
    return sum;
  }
  bytes(count) {
    this.at += count;
    return this.data.subarray(this.at - count, this.at);
  }
  counted() {
    return this.bytes(this.long());
  }
}

// How many numbers of a list in order are below a limit.
function countBelow(list, limit) {
  let low = 0, high = list.length;
  while (low < high) {
    const middle = low + high >> 1;
    if (list[middle] < limit) low = middle + 1;
    else high = middle;
  }
  return low;
}

// Moments by place, those of each place in order.
class Groups {
  constructor(places) {
    this.lists = new Array(places);
  }
  add(place, moment) {
    if (this.lists[place]) this.lists[place].push(moment);
    else this.lists[place] = [moment];
  }
  removeLast(place) {
    this.lists[place].pop();
  }
  count(place) {
    return this.lists[place] ? this.lists[place].length : 0;
  }
  // one of a place's moments, or -1
  pick(place, j) {
    return j >= 0 && j < this.count(place) ? this.lists[place][j] : -1;
  }
  before(place, limit) {
    return this.lists[place] ? countBelow(this.lists[place], limit) : 0;
  }
}

// Makes room in some columns of a run, so that adding one at a time stays cheap.
function reserve(run, columns, wanted) {
  const have = run.room.get(columns) || 0;
  if (wanted <= have) return;
  const count = have ? Math.max(wanted, have * 2) : wanted;
  for (const [name, Column] of Object.entries(columns)) {
    const column = new Column(count);
    if (have) column.set(run[name]);
    run[name] = column;
  }
  run.room.set(columns, count);
}

const bitsOf = Array.from({length: 256}, (_, byte) => byte.toString(2).replace(/0/g, "").length);

// How many steps and accesses some records have.
function countRecords(records) {
  const from = new Reader(records);
  let steps = 0, accesses = 0;
  for (; from.at < records.length; steps++) {
    const head = from.byte(), marks = from.byte(), reads = head >> 4 & 3, stores = head >> 6;
    from.at += bitsOf[marks & 127];
    const signals = marks & 128 ? from.byte() : 0;
    from.at += reads * 2 + stores * 3 + (signals & 1);
    if (signals & 32) from.counted();
    accesses += reads + stores;
  }
  return {steps, accesses};
}

function cut(list, at, limit) {
  const count = countBelow(at, limit);
  list.length = at.length = count;
}

class Run {
  // of the data of a state, and the stretches of memory that a program has: [address, count]
  constructor(start, loaded = []) {
    this.room = new Map();
    this.n = this.m = 0;              // how many steps and accesses
    this.cuts = this.version = 0;     // how often it was cut off, and how often changed at all
    this.memory = new Uint8Array(65536);      // after the last step
    this.image = new Uint8Array(65536);
    for (const [address, count] of loaded) this.image.fill(1, address, address + count);
    this.visits = new Groups(65536);
    this.uses = new Groups(2 * STORE);
    this.cyclesAt = new Float64Array(65536);  // those of instructions that began there
    this.usesOf = new Float64Array(256);      // how often a page of memory was visited or used
    this.entries = [];                        // the steps that entered an interrupt
    reserve(this, STATES, 1);
    reserve(this, ACCESSES, 1);
    this.readStart(new Reader(start || Run.zeros()));
    const root = {start: 0, end: Infinity, up: null, depth: 0, s: this.S[0], at: this.PC[0]};
    this.calls = [root];
    this.top = root;
    this.depth = 0;                           // of the deepest call
  }

  // the data of a state in which all is 0
  static zeros() {
    return new Uint8Array(296);
  }

  readStart(from) {
    for (let page = 0; page < 65536; page += 256) {
      if (from.byte()) this.memory.set(from.bytes(256), page);
    }
    for (const register of "AXYSP") this[register][0] = from.byte();
    this.PC[0] = from.word();
    this.C[0] = from.long();
    this.lines[0] = from.byte();
    // -1 is the step of what was taken, put out or handed in before
    this.takenAt = Array(from.long()).fill(-1);
    this.out = [...from.counted()];
    this.outAt = this.out.map(() => -1);
    this.given = [...from.counted()];
    this.givenAt = this.given.map(() => -1);
    this.startLength = from.at;
  }

  // adds steps, and returns how many
  append(records) {
    const {steps, accesses} = countRecords(records), from = new Reader(records);
    reserve(this, STATES, this.n + steps + 1);
    reserve(this, ACCESSES, this.m + accesses);
    for (let k = 0; k < steps; k++) this.readRecord(from);
    this.version++;
    return steps;
  }

  readRecord(from) {
    const k = this.n, head = from.byte(), marks = from.byte(), cycles = head & 15;
    const {A, X, Y, S, P, PC} = this;
    A[k + 1] = A[k] ^ (marks & 1 && from.byte());
    X[k + 1] = X[k] ^ (marks & 2 && from.byte());
    Y[k + 1] = Y[k] ^ (marks & 4 && from.byte());
    S[k + 1] = S[k] ^ (marks & 8 && from.byte());
    P[k + 1] = P[k] ^ (marks & 16 && from.byte());
    const low = marks & 32 && from.byte(), high = marks & 64 && from.byte();
    PC[k + 1] = PC[k] ^ (low | high << 8);
    const signals = marks & 128 && from.byte();
    this.lines[k + 1] = this.lines[k] ^ signals & 28;
    // a reset is told as an entry that stores nothing
    const isByHand = cycles == 0 || (signals & 64) != 0 && head < 64;
    this.begin(cycles, head & 240, isByHand, (signals & 64) != 0, signals >> 3 & 3);
    for (let j = head >> 4 & 3; j > 0; j--) this.addAccess(from.word(), 0, 0);
    for (let j = head >> 6; j > 0; j--) this.addAccess(from.word(), from.byte(), STORE);
    if (signals & 1) this.putOut(from.byte());
    if (signals & 2) this.takenAt.push(k);
    if (signals & 32) this.handIn(from.counted());
    this.end();
  }

  // adds an event by hand. `before` and `after` are registers: a, x, y, s, p, pc and cycles;
  // `stores` are [address, byte before, byte after]; `irq` and `nmi` say that it turned these
  appendEvent({before, after, stores = [], given = [], irq, nmi, isReset, isEntry}) {
    const k = this.n;
    reserve(this, STATES, k + 2);
    reserve(this, ACCESSES, this.m + stores.length);
    for (const name of ["A", "X", "Y", "S", "P", "PC"]) {
      const low = name.toLowerCase();
      this[name][k + 1] = this[name][k] ^ before[low] ^ after[low];
    }
    const cycles = Number(after.cycles - before.cycles);
    const counts = Math.min(3, stores.length) << 6, turned = (irq ? 1 : 0) | (nmi ? 2 : 0);
    // a reset clears the control byte
    this.lines[k + 1] = (this.lines[k] ^ turned << 3) & (isReset ? 24 : 28);
    this.begin(cycles, counts, !isEntry, isEntry || isReset, turned);
    for (const [address, was, is] of stores) this.addAccess(address, was ^ is, STORE);
    this.handIn(given);
    this.end();
    this.version++;
  }

  begin(cycles, counts, isByHand, isEntry, turned) {
    const k = this.n, pc = this.PC[k], isPlain = !isByHand && !isEntry;
    this.op[k] = this.memory[pc];
    this.took[k] = cycles;
    this.C[k + 1] = this.C[k] + cycles;
    this.head[k] = counts | (isPlain ? 0 : NO_INSTRUCTION) | (isByHand ? BY_HAND | turned : 0);
    if (isEntry && !isByHand) this.entries.push(k);
    if (isPlain) {
      this.visits.add(pc, k);
      this.cyclesAt[pc] += cycles;
      this.usesOf[pc >> 8]++;
    }
  }

  addAccess(address, xor, isStore) {
    this.where[this.m] = address;
    this.xor[this.m] = xor;
    this.step[this.m] = this.n;
    this.memory[address] ^= xor;
    this.uses.add(address + isStore, this.m);
    this.usesOf[address >> 8]++;
    this.m++;
  }

  putOut(byte) {
    this.out.push(byte);
    this.outAt.push(this.n);
  }

  handIn(bytes) {
    for (const byte of bytes) {
      this.given.push(byte);
      this.givenAt.push(this.n);
    }
  }

  // closes calls that the stack pointer has left, and opens one for a JSR or an interrupt
  end() {
    const k = this.n++, s = this.S[k + 1], head = this.head[k];
    this.first[k + 1] = this.m;
    while (this.top.up && s > this.top.s) {
      this.top.end = k + 1;
      this.top = this.top.up;
    }
    if (s > this.top.s) this.top.s = s;
    const irq = (head & NO_INSTRUCTION) != 0 && !(head & BY_HAND);
    if (!irq && (this.op[k] != JSR || head & BY_HAND)) return;
    const depth = this.top.depth + 1, at = this.PC[k + 1];
    this.top = {start: k + 1, end: Infinity, up: this.top, depth, s, at, irq};
    this.calls.push(this.top);
    this.depth = Math.max(this.depth, depth);
  }

  // keeps the first k steps
  truncate(k) {
    for (let i = this.m - 1; i >= this.first[k]; i--) {
      this.memory[this.where[i]] ^= this.xor[i];
      this.uses.removeLast(this.where[i] + (this.isStore(i) ? STORE : 0));
      this.usesOf[this.where[i] >> 8]--;
    }
    for (let j = this.n - 1; j >= k; j--) {
      if (this.head[j] & NO_INSTRUCTION) continue;
      this.visits.removeLast(this.PC[j]);
      this.cyclesAt[this.PC[j]] -= this.took[j];
      this.usesOf[this.PC[j] >> 8]--;
    }
    this.n = k;
    this.m = this.first[k];
    cut(this.out, this.outAt, k);
    cut(this.given, this.givenAt, k);
    cut(this.takenAt, this.takenAt, k);
    cut(this.entries, this.entries, k);
    this.cutCalls(k);
    this.cuts++;
    this.version++;
  }

  cutCalls(k) {
    this.calls = this.calls.filter(call => call.start <= k);
    for (const call of this.calls) if (call.end > k) call.end = Infinity;
    this.depth = this.calls.reduce((most, call) => Math.max(most, call.depth), 0);
    this.top = this.callAt(k);
    // the outermost call reaches up to the highest stack pointer that there was
    this.calls[0].s = this.S.subarray(0, k + 1).reduce((most, s) => Math.max(most, s), 0);
  }

  isStore(i) {
    const k = this.step[i];
    return i - this.first[k] >= (this.head[k] >> 4 & 3);
  }

  countBelow(list, limit) {
    return countBelow(list, limit);
  }

  // the innermost call at a state
  callAt(k) {
    let low = 0, high = this.calls.length;
    while (low < high) {
      const middle = low + high >> 1;
      if (this.calls[middle].start <= k) low = middle + 1;
      else high = middle;
    }
    let call = this.calls[low - 1];
    while (call.end <= k) call = call.up;
    return call;
  }
}

function decodeRun(data, loaded) {
  const run = new Run(data, loaded);
  run.append(data.subarray(run.startLength));
  return run;
}

// `%` and two hex digits stand for a byte that is not of a page's alphabet.
function unescaped(text) {
  const plain = text.replace(/%(..)/g, (_, digits) => String.fromCharCode(parseInt(digits, 16)));
  return new TextDecoder().decode(Uint8Array.from(plain, c => c.charCodeAt()));
}

// What the lines of facts say, each a word and more, and the source, if there is one.
function readFacts(lines, source) {
  const info = {
    labels: [], names: [], lines: [], files: [], loaded: [], notes: [], port: 65536,
  };
  for (const line of lines) readFact(info, line);
  if (source) info.source = unescaped(source).replace(/\n$/, "").split("\n");
  if (info.files.length) cutTexts(info);
  return info;
}

// The texts of files stand in the source one behind another.
function cutTexts(info) {
  let at = 0;
  info.source ||= [];
  for (const file of info.files) file.texts = info.source.slice(at, at += file.count);
}

function readFact(info, line) {
  const [word, a, b, c, file = 0, what] = line.split(" ");
  if (word == "label") info.labels.push([unescaped(b), parseInt(a, 16)]);
  else if (word == "name") info.names.push([unescaped(b), parseInt(a, 16)]);
  else if (word == "line" || word == "part") {
    const number = file * 2 ** 32 + (a - 1);  // as lines.js has it
    info.lines.push([number, parseInt(b, 16), +c, word == "part", what == "data"]);
  } else if (word == "file") info.files.push({count: +a, name: unescaped(line.slice(a.length + 6))});
  else if (word == "loaded") info.loaded.push([parseInt(a, 16), +b]);
  else if (word == "note") info.notes.push([+a, unescaped(line.slice(a.length + 6))]);
  else if (word == "at") info.at = +a;
  else if (word == "port" || word == "screen") info[word] = parseInt(a, 16);
  else if (word) info[word] = unescaped(line.slice(word.length + 1));
}

return {Run, decodeRun, readFacts, countBelow, STORE, BY_HAND, NO_INSTRUCTION};
})();
if (typeof module !== "undefined") {
  module.exports = {Run, decodeRun, readFacts, countBelow, STORE, BY_HAND, NO_INSTRUCTION};
}
