"use strict";
// Refuses each request for memory of a session of the playground's engine in turn, for
// tools/check/playground:
//
//     node playground_refused.js MODULE SOURCE
//
// The call that asked has to answer OutOfMemory, and, made once more, what it answers where nothing
// is refused; so have all calls after it. In the end no block may be left.
//
// The same session has to answer the same in the last part of the 2 GiB that the memory has at most,
// where an address has all bits that it may have. Where all of it is taken, each call that asks has
// to answer OutOfMemory, and so has a request whose length has more than 32 bits. The last line is 'N
// passed, M failed'.
const fs = require("fs"), { isDeepStrictEqual } = require("util");
Object.assign(globalThis, require(`${__dirname}/../../playground/heap.js`));
const { openEngine, EngineFault } = require(`${__dirname}/../../playground/engine.js`);
const CONFIG = { history: 4096 };
const LIMIT = 2 ** 31, LAST_PART = 2 ** 25, MOST_AT_ONCE = 2 ** 28;
const FAULTY = "start: LDA #300\n  BNE nowhere\n  LDX (1)\n";
let passed = 0, failed = 0, refused = 0;

function judge(isRight, what) {
  if (isRight) passed++;
  else if (failed++ < 10) console.log(`FAILED: ${what}`);
}

// A call's answer. Where memory is refused, `undo` takes back what was done, and the call is made
// again.
function attempt(call, undo = () => {}) {
  try {
    return call();
  } catch (fault) {
    if (!(fault instanceof EngineFault) || !fault.isOutOfMemory) throw fault;
    refused++;
    undo();
    return call();
  }
}

// The calls of a session that ask for memory, with some looks between them, and what each answered.
function answers(engine, source) {
  const found = [];
  const note = (call, undo) => found.push(attempt(call, undo));
  note(() => engine.faults("faulty.a65", FAULTY, CONFIG));
  const assembly = attempt(() => engine.assemble(source, CONFIG));
  for (const name of ["names", "lines", "listing"]) note(() => assembly[name]());
  const machine = attempt(() => engine.open(assembly, CONFIG));
  note(() => machine.recordStart());
  note(() => machine.setBreak(0x1234));
  note(() => machine.setWatch(0x1234));
  note(() => machine.runTo(0x4321, 700));
  let before = 0;
  note(() => { before = machine.held(); });
  note(() => machine.recordRun(60), () => machine.back(machine.held() - before));
  note(() => machine.runToAccess(new Uint8Array(65536), 300));
  note(() => machine.patch(0x0300, Uint8Array.of(1, 2, 3)));
  note(() => machine.read(0, 65536));
  note(() => machine.output(0));
  note(() => machine.disassemble(0x0200));
  note(() => machine.back(machine.held()));
  note(() => machine.registers());
  const other = attempt(() => engine.openBytes(0x0200, Uint8Array.of(0xEA, 0xEA), CONFIG));
  note(() => other.run(2));
  for (const it of [other, machine, assembly]) it.close();
  return found;
}

async function opened(bytes) {
  const engine = await openEngine(bytes);
  engine.start = { requests: engine.heap.requests, used: engine.heap.used() };
  return engine;
}

// Takes what lies below the last part of the memory.
function fillBelow(heap, end) {
  for (let left; (left = end - heap.next) >= 65536;) {
    const size = Math.min(2 ** Math.floor(Math.log2(left)), MOST_AT_ONCE);
    if (heap.take(size) === 0) return;
  }
}

// Takes all that is left, and returns how far the memory reaches.
function fillAll(heap) {
  for (const size of [2 ** 20, 2 ** 16, 2 ** 12, 256, 16]) while (heap.take(size) !== 0);
  return heap.memory.buffer.byteLength;
}

function isOutOfMemory(call) {
  try {
    call();
  } catch (fault) {
    return fault.isOutOfMemory === true;
  }
  return false;
}

// Whether the module's own request for so many bytes is refused.
function isRefused(heap, count) {
  const answer = heap.next - 64;
  heap.imports.rattle_alloc(BigInt(answer), count);
  return new DataView(heap.memory.buffer).getUint8(answer) === 0;
}

async function tryEndOfMemory(bytes, source, wanted) {
  const engine = await opened(bytes), { heap } = engine;
  const assembly = engine.assemble(source, CONFIG);
  fillBelow(heap, LIMIT - LAST_PART);
  const first = heap.next;
  judge(first > LIMIT - LAST_PART - 65536, `${first} bytes are taken`);
  refused = 0;
  judge(isDeepStrictEqual(answers(engine, source), wanted) && refused === 0,
    "a session in the last part of the memory");
  judge(heap.next > first && heap.next <= LIMIT, `the session's blocks end at ${heap.next}`);
  judge(fillAll(heap) === LIMIT, `${heap.memory.buffer.byteLength} bytes of memory`);
  judge(Math.max(...heap.taken.keys()) < LIMIT, "a block above the limit");
  judge(isOutOfMemory(() => engine.open(assembly, CONFIG)), "a machine where no memory is left");
  judge(isOutOfMemory(() => engine.faults("faulty.a65", FAULTY, CONFIG)), "faults without memory");
  for (const count of [2n ** 31n, 2n ** 32n, 2n ** 32n + 16n, 2n ** 63n]) {
    judge(isRefused(heap, count), `a request for ${count} bytes`);
  }
}

async function main([file, path]) {
  const bytes = fs.readFileSync(file), source = fs.readFileSync(path);
  const whole = await opened(bytes), wanted = answers(whole, source);
  const requests = whole.heap.requests - whole.start.requests;
  const left = whole.heap.used() - whole.start.used;
  judge(refused === 0 && requests > 30, `${requests} requests, ${refused} refused`);
  for (let k = 1; k <= requests; k++) {
    const engine = await opened(bytes);
    engine.heap.refuseAfter(k);
    refused = 0;
    judge(isDeepStrictEqual(answers(engine, source), wanted) && refused === 1,
      `request ${k} of ${requests}: ${refused} refused`);
    judge(engine.heap.used() - engine.start.used === left, `request ${k}: blocks are left`);
  }
  console.log(`${requests} requests refused, one after another`);
  await tryEndOfMemory(bytes, source, wanted);
  console.log(`${passed} passed, ${failed} failed`);
  process.exit(failed === 0 ? 0 : 1);
}

main(process.argv.slice(2));
