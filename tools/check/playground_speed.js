"use strict";
// Measures the playground's engine, in Node and in a page, for tools/check/playground --measure:
//
//     node playground_speed.js MODULE
const SPEED = {
  HISTORY: 65536,
  SLICE: 50000,
  STEPS: 20_000_000,
  // Loads, stores, a subroutine and branches, as programs have them.
  SOURCE: `        *=$0200
start:  LDX #0
again:  LDA table,X
        CLC
        ADC #1
        STA table,X
        JSR count
        INX
        BNE again
        JMP again
count:  INC $10
        BNE done
        INC $11
done:   RTS
        *=$0300
table:  .RES 256
        *=$FFFC
        .WORD start
`,
};

// The milliseconds that a call takes, by many of them.
function millisecondsOf(times, call) {
  const began = performance.now();
  for (let k = 0; k < times; k++) call();
  return (performance.now() - began) / times;
}

async function measureSpeed(bytes) {
  const found = {}, began = performance.now();
  const engine = await openEngine(bytes);
  found["to load, ms"] = performance.now() - began;
  const config = { history: SPEED.HISTORY };
  const assembly = engine.assemble(SPEED.SOURCE, config);
  const machine = engine.open(assembly, config);
  const slices = SPEED.STEPS / SPEED.SLICE;
  for (let k = 0; k < slices / 10; k++) machine.run(SPEED.SLICE);
  const each = millisecondsOf(slices, () => machine.run(SPEED.SLICE));
  found["steps a second, history kept, millions"] = SPEED.SLICE / each / 1000;
  found["a step, ms"] = millisecondsOf(1000, () => machine.step());
  found["back 1, ms"] = millisecondsOf(1000, () => machine.back(1));
  found["back 30,000, ms"] = millisecondsOf(1, () => machine.back(30000));
  machine.run(SPEED.HISTORY);
  found["back 65,536, ms"] = millisecondsOf(1, () => machine.back(machine.held()));
  if (engine.calls.exports.mos65_record_run) {
    const recorded = () => machine.recordRun(SPEED.HISTORY);
    found["65,536 steps with their records, ms"] = millisecondsOf(1, recorded);
  }
  found["memory, MiB"] = engine.heap.memory.buffer.byteLength / 2 ** 20;
  return found;
}

if (typeof require !== "undefined") {
  Object.assign(globalThis, require(`${__dirname}/../../playground/heap.js`));
  Object.assign(globalThis, require(`${__dirname}/../../playground/engine.js`));
  measureSpeed(require("fs").readFileSync(process.argv[2])).then(found => {
    for (const name in found) console.log(`${name}: ${found[name].toFixed(3)}`);
  });
}
