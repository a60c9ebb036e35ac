"use strict";
/* The memory of the engine's heap: the two functions that its module imports.
 *
 * The proof takes this of them on trust: a block that `rattle_alloc` answers lies inside the
 * memory, is aligned to 16 and at least as large as asked. It overlaps no other block, and nothing
 * below __heap_base, where the module has its data and its stack. It stays so until
 * `rattle_dealloc` gets its address. Where a block is refused, the address that is answered is not
 * null either. */
class EngineHeap {
  static ALIGNMENT = 16;
  static PAGE = 65536;
  static PAGES_AT_ONCE = 16;

  /* `limit` is how many bytes the whole memory has at most. No address reaches it, so each fits
   * into 32 bits, to which the page's module cuts it. */
  constructor(limit = 2 ** 31) {
    this.limit = limit;
    this.taken = new Map();       // address: size, of the blocks that are in use
    this.free = new Map();        // size: the addresses of blocks of that size that were given back
    this.bytes = 0;               // in use
    this.requests = 0;
    this.refusedRequest = 0;      // the number of the request that a test has refused, or 0
    this.memory = null;
    this.next = this.end = 0;     // what lies between these was never in use
    this.imports = {
      rattle_alloc: (answer, count) => this.allocate(Number(answer), Number(count)),
      rattle_dealloc: address => this.give(Number(address)),
    };
  }

  /* Begins behind what the module has in its memory. */
  start(exports) {
    this.memory = exports.memory;
    this.next = EngineHeap.roundedUp(Number(exports.__heap_base.value), EngineHeap.ALIGNMENT);
    this.end = this.memory.buffer.byteLength;
  }

  static roundedUp(count, step) {
    return Math.ceil(count / step) * step;
  }

  /* The size of the block for so many bytes: 16, 32, 48, 64, 80, 96, 112, 128, 160, 192, 224, 256,
   * .., four sizes to each doubling. So a block is of use again for any request that is nearly as
   * large. */
  static sizeFor(count) {
    const doubling = 2 ** Math.floor(Math.log2(Math.max(count - 1, 1)));
    return EngineHeap.roundedUp(Math.max(count, 1), Math.max(doubling / 4, EngineHeap.ALIGNMENT));
  }

  /* Takes a block. Returns its address, or 0 where it is refused. */
  take(count) {
    this.requests++;
    if (this.requests === this.refusedRequest || count > this.limit) return 0;
    const size = EngineHeap.sizeFor(count);
    const address = this.free.get(size)?.pop() ?? this.unused(size);
    if (address === 0) return 0;
    this.taken.set(address, size);
    this.bytes += size;
    return address;
  }

  /* The address of a block that was never in use, or 0. */
  unused(size) {
    const address = this.next;
    if (address + size > this.end && !this.reach(address + size)) return 0;
    this.next = address + size;
    return address;
  }

  /* Has the memory reach an address at least. Returns whether it does. */
  reach(address) {
    const least = Math.ceil((address - this.end) / EngineHeap.PAGE);
    return this.grow(Math.max(least, EngineHeap.PAGES_AT_ONCE)) || this.grow(least);
  }

  grow(pages) {
    if (this.end + pages * EngineHeap.PAGE > this.limit) return false;
    try {
      this.growMemory(pages);
    } catch (error) {
      if (error instanceof RangeError) return false;
      throw error;
    }
    this.end = this.memory.buffer.byteLength;
    return true;
  }

  /* A memory with 64-bit addresses takes a BigInt, and a number in engines before the standard. */
  growMemory(pages) {
    try {
      this.memory.grow(BigInt(pages));
    } catch (error) {
      if (!(error instanceof TypeError)) throw error;
      this.memory.grow(pages);
    }
  }

  /* Takes a block back. */
  give(address) {
    const size = this.taken.get(address);
    this.taken.delete(address);
    this.bytes -= size;
    if (!this.free.has(size)) this.free.set(size, []);
    this.free.get(size).push(address);
  }

  /* The import: puts whether there is a block, and its address, where `answer` points. */
  allocate(answer, count) {
    const address = this.take(count);
    const view = new DataView(this.memory.buffer);
    view.setUint8(answer, address === 0 ? 0 : 1);
    view.setBigUint64(answer + 8, BigInt(address || EngineHeap.ALIGNMENT), true);
  }

  /* How many bytes are in use. */
  used() {
    return this.bytes;
  }

  /* For tests: the k-th request from now on is refused, and no other. */
  refuseAfter(k) {
    this.refusedRequest = this.requests + k;
  }
}

if (typeof module !== "undefined") module.exports = { EngineHeap };
