"use strict";
// Has viewer/run.js do what each line of the standard input says, and prints for each what the run
// then holds, a line of JSON. tools/check/page_columns.py asks, and compares.
//
// A line is JSON: `data`, the bytes of a page in base64; `loaded`; and `moves`, each a list of a
// word and more: append FROM TO (bytes of the data), truncate K, event WHAT (for appendEvent).
// Or it has `trips`, each a list of a step, a word of TRIPS, and more: what is printed are the
// steps to which the viewer's moves and its search lead, without a document. Or it has `places`,
// addresses, with `names` and `labels`: what is printed is how the viewer names each.
const path = require("path");
for (const name of ["run", "now", "lines", "names", "moves", "find"]) {
  Object.assign(globalThis, require(path.join(__dirname, "..", "..", "viewer", `${name}.js`)));
}
globalThis.draw = globalThis.choose = () => {};
globalThis.program = {rows: [], found: null};

const TRIPS = {
  over: () => goOn("over"),
  backOver: () => go(beforeOver()),
  set: toSet,
  visit: toVisit,
  use: toUse,
  out: by => toNear(now.run.outAt, by),
  entry: by => toNear(now.run.entries, by),
  find,
};

function ends(run, trips) {
  Object.assign(now, {run, info: {labels: [], names: []}, cur: run.n});
  now.memory.set(run.memory);
  return trips.map(([from, word, ...words]) => {
    go(from);
    TRIPS[word](...words);
    return now.cur;
  });
}

function namesOf(run, {names, labels, places}) {
  Object.assign(now, {run, info: {labels, names, lines: [], source: null}});
  readNames();
  return places.map(at => [nameOf(at), placeOf(at)]);
}

const listed = column => [...column];

function groupsOf(groups) {
  const found = {};
  groups.lists.forEach((list, place) => { if (list.length) found[place] = list; });
  return found;
}

function callsOf(run) {
  return run.calls.map(({start, end, depth, s, at, irq, up}) =>
    [start, end == Infinity ? -1 : end, depth, s, at, Boolean(irq), up ? up.start : -1]);
}

function held(run) {
  const {n, m, depth} = run, memory = Buffer.from(run.memory).toString("hex");
  const told = {n, m, depth, memory};
  for (const name of ["A", "X", "Y", "S", "P", "PC", "C", "first", "lines"]) {
    told[name] = listed(run[name].subarray(0, n + 1));
  }
  for (const name of ["op", "took", "head"]) told[name] = listed(run[name].subarray(0, n));
  for (const name of ["where", "xor", "step"]) told[name] = listed(run[name].subarray(0, m));
  const lists = ["out", "outAt", "given", "givenAt", "takenAt", "entries"];
  for (const name of lists) told[name] = run[name];
  told.stores = told.where.map((_, i) => run.isStore(i));
  told.visits = groupsOf(run.visits);
  told.uses = groupsOf(run.uses);
  told.cyclesAt = Object.fromEntries(Object.entries(listed(run.cyclesAt)).filter(it => it[1]));
  told.usesOf = listed(run.usesOf);
  told.calls = callsOf(run);
  told.within = told.A.map((_, k) => run.callAt(k).start);
  return told;
}

function made({data, loaded, moves}) {
  const bytes = Buffer.from(data, "base64");
  if (!moves) return decodeRun(bytes, loaded);
  const run = new Run(bytes, loaded);
  for (const [word, one, other] of moves) {
    if (word == "append") run.append(bytes.subarray(one, other));
    else if (word == "truncate") run.truncate(one);
    else run.appendEvent(one);
  }
  return run;
}

const lines = require("fs").readFileSync(0, "utf8").trimEnd().split("\n");
for (const line of lines) {
  const asked = JSON.parse(line), run = made(asked);
  const answer = asked.trips ? {ends: ends(run, asked.trips)}
    : asked.places ? {names: namesOf(run, asked)} : held(run);
  console.log(JSON.stringify(answer));
}
