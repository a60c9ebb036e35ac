"use strict";
// Tries the heap of the playground with random requests, for tools/check/playground:
//
//     node playground_heap.js REQUESTS SEED
//
// Each block has to lie in the memory and above what the module has there, aligned to 16, on bytes
// that no other block has. The memory may not grow by more than blocks need, and a refused request
// has to leave the heap as it was. The last line is 'N passed, M failed'.
const { EngineHeap } = require(`${__dirname}/../../playground/heap.js`);
// A block that was given back serves requests of its own size alone. So the memory has for each size
// what was in use of it at most, which is more than is in use at any time.
const PAGE = 65536, GRANULE = 16, BASE = 1048583, LIMIT = 256 * 2 ** 20;
const MOST_LIVE = 32 * 2 ** 20;
let passed = 0, failed = 0;

function judge(isRight, what) {
  if (isRight) passed++;
  else if (failed++ < 10) console.log(`FAILED: ${what}`);
}

// A memory as WebAssembly has it, without a module. It takes a number of pages or a BigInt, as the
// engines of browsers differ, and refuses to grow above a size of its own.
function makeMemory(takesBigInt, most) {
  return {
    buffer: new ArrayBuffer(17 * PAGE),
    grow(pages) {
      if ((typeof pages === "bigint") !== takesBigInt) throw new TypeError("pages");
      const size = this.buffer.byteLength + Number(pages) * PAGE;
      if (size > most) throw new RangeError("size");
      this.buffer = new ArrayBuffer(size);
    },
  };
}

function makeHeap(takesBigInt, most, limit) {
  const heap = new EngineHeap(limit), memory = makeMemory(takesBigInt, most);
  heap.start({ memory, __heap_base: { value: BigInt(BASE) } });
  return { heap, memory };
}

// Random numbers from a seed, the same on each engine (xorshift by Marsaglia).
function makeRandom(seed) {
  let state = seed | 0 || 1;
  return below => {
    state ^= state << 13;
    state ^= state >>> 17;
    state ^= state << 5;
    return (state >>> 0) % below;
  };
}

// The blocks that are in use, and which bytes they have.
class Blocks {
  constructor() {
    this.list = [];
    this.bytes = 0;
    this.isTaken = new Uint8Array(LIMIT / GRANULE);
  }

  // Notes a block, and returns what is wrong with it.
  add(address, count, memory) {
    const first = address / GRANULE, end = Math.ceil((address + count) / GRANULE);
    this.list.push({ address, count });
    this.bytes += count;
    if (!Number.isInteger(first)) return "is not aligned";
    if (address < BASE || address + count > memory.buffer.byteLength) return "lies outside";
    const other = this.isTaken.subarray(first, end).includes(1);
    this.isTaken.fill(1, first, end);
    return other ? "overlaps another" : "";
  }

  // Takes a block out, and returns its address.
  remove(place) {
    const { address, count } = this.list[place], last = this.list.pop();
    if (place < this.list.length) this.list[place] = last;
    this.bytes -= count;
    this.isTaken.fill(0, address / GRANULE, Math.ceil((address + count) / GRANULE));
    return address;
  }
}

// The answer of the import, as the module reads it.
function asked(heap, memory, count) {
  const answer = BASE - 7 - 64;
  heap.imports.rattle_alloc(BigInt(answer), BigInt(count));
  const view = new DataView(memory.buffer);
  const pointer = Number(view.getBigUint64(answer + 8, true));
  judge(pointer !== 0, "a pointer is null");
  return view.getUint8(answer) === 1 ? pointer : 0;
}

// Requests and blocks given back, in no order, of sizes up to 4 MiB.
function tryMany(requests, seed) {
  const { heap, memory } = makeHeap(true, LIMIT, LIMIT), random = makeRandom(seed);
  const blocks = new Blocks();
  for (let k = 0; k < requests; k++) {
    while (blocks.list.length > 0 && (blocks.bytes > MOST_LIVE || random(100) < 45)) {
      heap.imports.rattle_dealloc(BigInt(blocks.remove(random(blocks.list.length))));
    }
    const count = random(2 ** random(random(50) === 0 ? 23 : 12));
    const address = asked(heap, memory, count);
    const wrong = address === 0 ? "is refused" : blocks.add(address, count, memory);
    judge(wrong === "", `request ${k} of ${count} bytes ${wrong}`);
  }
  while (blocks.list.length > 0) heap.imports.rattle_dealloc(BigInt(blocks.remove(0)));
  judge(heap.used() === 0, `${heap.used()} bytes are in use when all blocks are given back`);
  console.log(`${requests} requests: ${memory.buffer.byteLength >> 20} MiB of memory`);
}

// The same blocks again and again take no more memory, in whichever order they are given back.
function tryReuse() {
  const { heap, memory } = makeHeap(true, LIMIT, LIMIT), random = makeRandom(1);
  let size = 0;
  for (let round = 0; round < 100; round++) {
    const addresses = Array.from({ length: 200 }, (_, k) => asked(heap, memory, 1 + k * k));
    if (round === 0) size = memory.buffer.byteLength;
    addresses.sort(() => random(3) - 1).forEach(it => heap.imports.rattle_dealloc(BigInt(it)));
  }
  judge(memory.buffer.byteLength === size, "blocks that were given back are not used again");
}

// Where the memory cannot grow, or not further than the limit, a block is refused, and what was
// given back is there again.
function tryRefusal(takesBigInt, most, limit) {
  const { heap, memory } = makeHeap(takesBigInt, most, limit), blocks = new Blocks();
  const end = Math.min(most, limit);
  for (let address; (address = asked(heap, memory, PAGE)) !== 0;) {
    judge(blocks.add(address, PAGE, memory) === "", "a block below the limit");
  }
  judge(memory.buffer.byteLength === end, `${memory.buffer.byteLength} bytes of memory`);
  judge(blocks.bytes > end - BASE - 2 * PAGE, `${blocks.bytes} bytes of ${end} are handed out`);
  judge(asked(heap, memory, 2 ** 40) === 0 && asked(heap, memory, 2 ** 62) === 0, "a huge block");
  const used = heap.used(), address = blocks.remove(3);
  heap.imports.rattle_dealloc(BigInt(address));
  judge(asked(heap, memory, PAGE) === address, "a block that was given back");
  judge(heap.used() === used, "the bytes that are in use");
}

// A test can have any one request refused.
function tryRefuseAfter() {
  const { heap, memory } = makeHeap(true, LIMIT, LIMIT);
  heap.refuseAfter(3);
  const answers = [1, 2, 3, 4].map(count => asked(heap, memory, count) !== 0);
  judge(String(answers) === "true,true,false,true", `refused: ${answers}`);
}

tryMany(Number(process.argv[2]), Number(process.argv[3]));
tryReuse();
tryRefusal(true, 40 * PAGE, LIMIT);
tryRefusal(false, LIMIT, 50 * PAGE);
tryRefuseAfter();
console.log(`${passed} passed, ${failed} failed`);
process.exit(failed === 0 ? 0 : 1);
