"use strict";
// What a reader looks for: a condition, as `A=0`, `count>=$10` or `=45` of the chosen byte; a name
// or an address; a text of the program.
const {readCondition, stateWhere, find} = (() => {

const CONDITION = /^([^<>=!]*?)\s*(<=|>=|!=|<>|=|<|>)\s*([^<>=!]+)$/;
const TESTS = {
  "=": (a, b) => a == b, "!=": (a, b) => a != b, "<>": (a, b) => a != b, "<": (a, b) => a < b,
  ">": (a, b) => a > b, "<=": (a, b) => a <= b, ">=": (a, b) => a >= b,
};
const COLUMNS = {A: "A", X: "X", Y: "Y", S: "S", P: "P", PC: "PC", CYCLES: "C", CYCLE: "C"};
const FLAG_BITS = "CZID--VN";

function addressNamed(name) {
  const found = [...now.info.labels, ...now.info.names].find(it => it[0] == name);
  return found ? found[1] : -1;
}

// The number that a text stands for, or -1: `$2D`, `45`, `'A'`, a name, or hex digits.
function numberOf(text) {
  if (/^\d+$/.test(text)) return +text;
  if (/^'.'?$/.test(text)) return text.charCodeAt(1);
  const named = addressNamed(text);
  if (named >= 0) return named;
  return /^\$?[\da-f]+$/i.test(text) ? parseInt(text.replace("$", ""), 16) : -1;
}

// A condition on states, or null: what is compared is a column of the run, of P maybe one bit, or
// the byte at an address.
function readCondition(text) {
  const [, left, sign, right] = CONDITION.exec(text.trim()) || [];
  if (!sign) return null;
  const wanted = numberOf(right.trim()), test = value => TESTS[sign](value, wanted);
  const name = left.toUpperCase();
  if (wanted < 0) return null;
  if (COLUMNS[name]) return {column: COLUMNS[name], test};
  if (/^[CZIDVN]$/.test(name)) return {column: "P", bit: FLAG_BITS.indexOf(name), test};
  const address = left ? numberOf(/^[\da-f]{4}$/i.test(left) ? "$" + left : left) : now.byte;
  return address >= 0 && address < 65536 ? {address, test} : null;
}

// The nearest state after or before the one shown at which a condition begins to hold, or -1.
function stateWhere(condition, by) {
  return condition.column ? columnWhere(condition, by) : byteWhere(condition, by);
}

function columnWhere({column, bit = -1, test}, by) {
  const values = now.run[column], {n} = now.run;
  const holds = k => test(bit < 0 ? values[k] : values[k] >> bit & 1);
  for (let k = now.cur + by; k >= 0 && k <= n; k += by) {
    if (holds(k) && !(k > 0 && holds(k - 1))) return k;
  }
  return -1;
}

function byteWhere({address, test}, by) {
  const {uses, xor, step, first} = now.run, place = address + STORE;
  let value = now.memory[address], j = uses.before(place, first[now.cur]);
  for (; by > 0 && j < uses.count(place); j++) {
    const i = uses.pick(place, j), was = value;
    value ^= xor[i];
    if (test(value) && !test(was)) return step[i] + 1;
  }
  for (j--; by < 0 && j >= 0; j--) {
    const i = uses.pick(place, j), is = value;
    value ^= xor[i];
    if (test(is) && !test(value) && step[i] + 1 < now.cur) return step[i] + 1;
  }
  return by < 0 && now.cur > 0 && test(value) ? 0 : -1;
}

// Looks for a text, forwards or back, and goes there. Returns what was found, in words.
function find(text, by) {
  const wanted = text.trim(), condition = readCondition(wanted);
  if (!wanted) return "";
  if (condition) {
    const k = stateWhere(condition, by);
    if (k >= 0) jump(k);
    return k >= 0 ? `it holds from step ${grouped(k)} on` : `not ${by > 0 ? "later" : "earlier"}`;
  }
  const address = /^\$[\da-f]{1,4}$/i.test(wanted) ? numberOf(wanted) : addressNamed(wanted);
  return address >= 0 ? findAddress(address, by) : findText(wanted.toLowerCase(), by);
}

function findAddress(address, by) {
  if (!now.run.visits.count(address)) {
    choose(address);
    return `${address4(address)} is chosen`;
  }
  toVisit(address, by);
  return `a visit of ${placeOf(address)}`;
}

// The next row of the program with a text, round at the ends.
function findText(wanted, by) {
  const {rows} = program, from = rows.indexOf(program.found);
  const textOf = row => row.text ?? row.element.textContent;
  for (let j = 1; j <= rows.length; j++) {
    const k = (from + by * j + 2 * rows.length) % rows.length;
    if (!textOf(rows[k]).toLowerCase().includes(wanted)) continue;
    program.found = rows[k];
    if (rows[k].at >= 0) now.line = rows[k].at;
    draw();
    reveal(rows[k].element);
    return rows[k].text === undefined ? "found" : `line ${rows[k].number}`;
  }
  return "not found";
}

return {readCondition, stateWhere, find};
})();
if (typeof module !== "undefined") module.exports = {readCondition, stateWhere, find};
