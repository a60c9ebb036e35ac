"use strict";
// Makes calls of the playground's engine, in Node and in a page, for tools/check/playground.
//
//     node playground_calls.js MODULE
//
// Each line of the standard input is a session in JSON, each line of the standard output what its
// calls answered. Bytes are {"hex": ".."}, and a table of 65,536 marks is {"marks": [ADDRESS ..]}.
const MOST_SHOWN = 4096;
const CRC_TABLE = Array.from({ length: 256 }, (_, byte) => {
  for (let bit = 0; bit < 8; bit++) byte = byte & 1 ? (byte >>> 1) ^ 0xEDB88320 : byte >>> 1;
  return byte;
});

function hexOf(bytes) {
  return Array.from(bytes, byte => byte.toString(16).padStart(2, "0")).join("");
}

function crcOf(bytes) {
  let sum = ~0;
  for (const byte of bytes) sum = CRC_TABLE[(sum ^ byte) & 255] ^ (sum >>> 8);
  return ~sum >>> 0;
}

function given(word) {
  if (word?.hex !== undefined) {
    return Uint8Array.from(word.hex.match(/../g) ?? [], digits => parseInt(digits, 16));
  }
  if (word?.marks === undefined) return word;
  const marks = new Uint8Array(65536);
  for (const address of word.marks) marks[address] = 1;
  return marks;
}

// An answer as JSON can tell it: bytes as hex, and many of them as their sum.
function told(answer) {
  if (answer instanceof Uint8Array) {
    return answer.length <= MOST_SHOWN ? hexOf(answer) : `${answer.length} ${crcOf(answer)}`;
  }
  if (answer?.records) return { ...answer.ending, records: told(answer.records) };
  return answer ?? null;
}

// What a call answers, or its fault.
function attempt(call) {
  try {
    return told(call());
  } catch (fault) {
    if (!(fault instanceof EngineFault)) throw fault;
    return { fault: fault.name, status: fault.status, line: fault.line };
  }
}

// How many bytes are in use that belong to no machine and no assembly.
function bytesOfRooms(calls) {
  const rooms = [calls.name, calls.given, calls.out].map(room => room.size);
  return [112, 16, ...rooms].reduce((sum, size) => sum + (size && EngineHeap.sizeFor(size)), 0);
}

function assembled(engine, session) {
  const answers = {};
  let assembly = null;
  answers.assembled = attempt(() => {
    assembly = engine.assemble(given(session.source), session.config);
    return { names: assembly.names(), lines: assembly.lines(), listing: assembly.listing() };
  });
  if (session.name) {
    const source = given(session.source);
    answers.faults = attempt(() => engine.faults(session.name, source, session.config));
  }
  return { assembly, answers };
}

function made(engine, session) {
  const { assembly, answers } = assembled(engine, session);
  let machine = null;
  if (assembly) {
    answers.opened = attempt(() => { machine = engine.open(assembly, session.config); });
    assembly.close();
  }
  if (machine) {
    answers.calls = session.calls.map(([name, ...words]) =>
      attempt(() => machine[name](...words.map(given))));
    machine.close();
    answers.closed = attempt(() => machine.step());
  }
  answers.left = engine.heap.used() - bytesOfRooms(engine.calls);
  return answers;
}

async function main(file) {
  const engine = await openEngine(require("fs").readFileSync(file));
  for await (const line of require("readline").createInterface({ input: process.stdin })) {
    process.stdout.write(JSON.stringify(made(engine, JSON.parse(line))) + "\n");
  }
}

if (typeof require !== "undefined") {
  Object.assign(globalThis, require(`${__dirname}/../../playground/heap.js`));
  Object.assign(globalThis, require(`${__dirname}/../../playground/engine.js`));
  main(process.argv[2]);
}
