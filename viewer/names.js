"use strict";
// Names of addresses, and the texts of instructions.
const {readNames, readLabels, nameOf, placeOf, lengthOf, disassembled} = (() => {

// So many bytes from its own on an address is named by a label, as in `mon`.
const REACH = 64;

function readNames() {
  readLines();
  const meant = namesMeant();
  now.named = new Map();
  const isMeant = name => !now.info.source || now.info.files.length || meant.has(name);
  for (const [name, at] of now.info.names) if (isMeant(name)) now.named.set(at, name);
  for (const [name, at] of now.info.labels) now.named.set(at, name);
  readLabels();
}

// The names that stand in an operand without `#`: of these the number is an address.
function namesMeant() {
  const operand = /^\s*(?:[\w.]+:)?\s*[A-Za-z]{3}\s+([^#;][^;]*)/;
  const found = (now.info.source || []).map(text => operand.exec(text)?.[1]);
  return new Set(found.flatMap(text => text?.match(/[A-Za-z_][\w.]*/g) || []));
}

// The labels, or, where there is none, what was called.
function readLabels() {
  const order = (one, other) => one[1] - other[1];
  now.labels = now.info.labels.slice().sort(order);
  if (!now.labels.length) {
    const called = [...new Set(now.run.calls.map(call => call.at))];
    now.labels = called.map(address => [address4(address), address]).sort(order);
  }
  now.labelAt = new Int16Array(65536).fill(-1);
  now.labels.forEach((label, j) => now.labelAt.fill(j, label[1]));
}

// The name of an address, or of one at most 63 bytes before it, and 15 in page zero. On the stack a
// name has one byte: what lies behind it belongs to calls, and not to it.
function nameOf(address) {
  const page = address >> 8, most = page > 1 ? REACH : page ? 1 : 16;
  for (let k = 0; k < most && k <= address; k++) {
    if (now.named.has(address - k)) return now.named.get(address - k) + (k ? "+" + k : "");
  }
  return "";
}

function placeOf(address) {
  const label = now.labels[now.labelAt[address]], beyond = label ? address - label[1] : REACH;
  if (beyond >= REACH) return address4(address);
  return label[0] + (beyond ? "+" + beyond : "");
}

// ---- instructions: `ops` has four characters for each opcode, the mnemonic and its form

const FORMS = {
  a: ["", 1], b: [" A", 1], c: [" #@", 2], d: [" @", 2], e: [" @,X", 2], f: [" @,Y", 2],
  g: [" (@,X)", 2], h: [" (@),Y", 2], i: [" @", 2], j: [" @", 3], k: [" @,X", 3], l: [" @,Y", 3],
  m: [" (@)", 3], n: [" (@)", 2],
};
const lengthOf = opcode => FORMS[now.info.ops[opcode * 4 + 3]]?.[1] || 2;

// Text and length of the instruction in memory at an address.
function disassembled(address) {
  const {memory} = now, row = now.info.ops.substr(memory[address] * 4, 4);
  const mnemonic = row.slice(0, 3), form = row[3];
  if (form == ".") return [".BYTE $" + hex(memory[address]), 1];
  const [shape, length] = FORMS[form];
  const low = memory[address + 1 & 65535], word = low | memory[address + 2 & 65535] << 8;
  const branch = address + 2 + (low << 24 >> 24) & 65535;
  const value = form == "i" ? branch : length == 3 ? word : low;
  const number = "$" + hex(value, length == 3 || form == "i" ? 4 : 2);
  // `!` asks for two bytes where the assembler would take one
  const short = "def"["jkl".indexOf(form)];
  const isLong = length == 3 && word < 256 && short && now.info.ops.includes(mnemonic + short);
  const operand = form != "c" && nameOf(value) || (isLong ? "!" : "") + number;
  return [mnemonic + shape.replace("@", () => operand), length];
}

return {readNames, readLabels, nameOf, placeOf, lengthOf, disassembled};
})();
if (typeof module !== "undefined") {
  module.exports = {readNames, readLabels, nameOf, placeOf, lengthOf, disassembled};
}
