"use strict";
/* The engine in a page: each call here is a call of the module, which was proved. library/mos65.h
 * says what each does. Nothing here computes what a machine does. */
const { openEngine, EngineFault } = (() => {
  const OUT_OF_MEMORY = 3;
  const OUT_OF_MEMORY_STATUSES = [OUT_OF_MEMORY, 206, 399, 409];
  const NO_PORT = 0xFFFF;
  const CONFIG = { history: 65536, port: 0xF000, profile: "N", rom: null };
  const REGISTERS = ["A", "X", "Y", "S", "P", "PC"];
  const REASONS = ["limit", "break", "watch", "refused"];
  const BYTES_OF_A_STEP = 26;   // of its record, at most
  const BYTES_OF_A_NAME = 31;
  const BYTES_OF_A_LINE = 255;
  const BYTES_OF_A_ROW = 13;
  const BYTES_OF_A_SLOT = 16;
  // Where the structures of the calls lie in a block of their own, and its size.
  const PLACES = { config: 0, fault: 16, line: 32, registers: 48, ending: 64, access: 80, count: 88,
    value: 96 };
  const BYTES_OF_PLACES = 112;
  // The names of statuses by their hundreds.
  const NAMES = [
    ["Ok", "Closed", "Misuse", "OutOfMemory", "NoSuchName", "NoSuchLine"],
    ["", "CyclesFull", "Undocumented", "ConsoleFull", "PastEnd", "PortAddress", "BadLength",
      "InputFull"],
    ["", "NoHistory", "TableFull", "AlreadySet", "NotSet", "PortAddress", "OutOfMemory"],
    ["", "TooLarge", "LineTooLong", "NotAscii", "Syntax", "ReservedName", "DuplicateName",
      "UnknownHere", "NoSuchForm", "TooManyNames", "OriginRange", "ExprRange", "DivideByZero",
      "NotOneLine", "", "", "", "", "", "", "UndefinedName", "ByteRange", "WordRange",
      "BranchRange", "PastEnd", "Overlap", "PortAddress", "ExprRange", "DivideByZero"],
    ["", "NoRecord", "BadHex", "BadChecksum", "PastEnd", "Truncated", "BadCount", "JunkAfterEnd",
      "JunkBetween", "OutOfMemory"],
    ["", "BadMap"],
  ];

  function statusName(status) {
    if (OUT_OF_MEMORY_STATUSES.includes(status)) return "OutOfMemory";
    return NAMES[Math.floor(status / 100)]?.[status % 100] ?? "";
  }

  /* Why a call was refused. */
  class EngineFault extends Error {
    constructor(status, line = 0) {
      super(statusName(status) + (line ? ` in line ${line}` : ""));
      this.status = status;
      this.name = statusName(status);
      this.line = line;
      this.isOutOfMemory = this.name === "OutOfMemory";
    }
  }

  function check(status, line) {
    if (status !== 0) throw new EngineFault(status, line);
  }

  function bytesOf(text) {
    return typeof text === "string" ? new TextEncoder().encode(text) : text;
  }

  function textOf(bytes) {
    return new TextDecoder().decode(bytes);
  }

  /* Room in the module's memory for bytes that are handed in or out. It grows. */
  class Room {
    constructor(calls) {
      this.calls = calls;
      this.address = this.size = 0;
    }

    /* Makes room for so many bytes. Returns its pointer. */
    reserve(count) {
      if (this.address === 0 || count > this.size) {
        const size = EngineHeap.sizeFor(count), address = this.calls.take(size);
        if (this.address !== 0) this.calls.heap.give(this.address);
        this.address = address;
        this.size = size;
      }
      return BigInt(this.address);
    }

    /* Puts bytes there. Returns the pointer and the length, as a call takes them. */
    put(bytes) {
      const pointer = this.reserve(bytes.length);
      this.calls.bytes(this.address, bytes.length).set(bytes);
      return [pointer, BigInt(bytes.length)];
    }

    /* A copy of the first bytes there. */
    copy(count) {
      return this.calls.bytes(this.address, count).slice();
    }
  }

  /* The module's calls, with the places in its memory through which they are handed structures. */
  class Calls {
    constructor(exports, heap) {
      this.exports = exports;
      this.heap = heap;
      const base = this.take(BYTES_OF_PLACES);
      this.places = {};
      this.pointers = {};
      for (const [name, offset] of Object.entries(PLACES)) {
        this.places[name] = base + offset;
        this.pointers[name] = BigInt(base + offset);
      }
      this.name = new Room(this);
      this.given = new Room(this);
      this.out = new Room(this);
      this.closedSlot = this.newSlot();
    }

    take(count) {
      const address = this.heap.take(count);
      if (address === 0) throw new EngineFault(OUT_OF_MEMORY);
      return address;
    }

    /* A view of the memory is made for each use: it ends where the memory grows. */
    get view() {
      return new DataView(this.exports.memory.buffer);
    }

    bytes(address, count) {
      return new Uint8Array(this.exports.memory.buffer, address, count);
    }

    count() {
      return Number(this.view.getBigUint64(this.places.count, true));
    }

    /* A variable of a machine or an assembly, with none in it. */
    newSlot() {
      const address = this.take(BYTES_OF_A_SLOT);
      this.bytes(address, BYTES_OF_A_SLOT).fill(0);
      return BigInt(address);
    }

    giveSlot(slot) {
      this.heap.give(Number(slot));
    }

    /* Writes a configuration. Returns its pointer. */
    config(config) {
      const { history, port, profile, rom } = { ...CONFIG, ...config };
      const view = this.view, at = this.places.config;
      view.setUint32(at, history, true);
      view.setUint16(at + 4, port ?? NO_PORT, true);
      view.setUint16(at + 6, rom ? rom[0] : 0, true);
      view.setUint16(at + 8, rom ? rom[1] : 0, true);
      view.setUint8(at + 10, rom ? 1 : 0);
      view.setUint8(at + 11, profile.charCodeAt(0));
      return this.pointers.config;
    }

    /* Makes a call whose whole answer may be longer than the room for it: `call` gets the pointer
     * to the room, its length, and the pointer to the answer's length, and is made again where that
     * is more. */
    whole(call) {
      const made = () => {
        const pointer = this.out.reserve(1);
        check(call(pointer, BigInt(this.out.size), this.pointers.count));
      };
      made();
      if (this.count() > this.out.size) {
        this.out.reserve(this.count());
        made();
      }
      return this.out.copy(this.count());
    }

    ending() {
      const view = this.view, at = this.places.ending;
      return {
        did: view.getUint32(at, true),
        why: REASONS[view.getUint32(at + 4, true)],
        status: view.getUint32(at + 8, true),
        address: view.getUint16(at + 12, true),
        opcode: view.getUint8(at + 14),
      };
    }
  }

  class Engine {
    constructor(exports, heap) {
      this.calls = new Calls(exports, heap);
      this.heap = heap;
    }

    /* The text of all faults of a source, empty where it has none. */
    faults(name, source, config) {
      return this.textOfSource("mos65_faults", name, source, config);
    }

    /* The text of all warnings of a source that has no fault, empty where it has none. */
    warnings(name, source, config) {
      return this.textOfSource("mos65_warnings", name, source, config);
    }

    textOfSource(call, name, source, config) {
      const { calls } = this;
      const words = [calls.config(config), ...calls.name.put(bytesOf(name)),
        ...calls.given.put(bytesOf(source))];
      return textOf(calls.whole((...out) => calls.exports[call](...words, ...out)));
    }

    assemble(source, config) {
      const { calls } = this;
      const words = [calls.config(config), ...calls.given.put(bytesOf(source)),
        calls.pointers.fault];
      const slot = calls.newSlot();
      const status = calls.exports.mos65_assemble(slot, ...words);
      if (status !== 0) {
        calls.giveSlot(slot);
        throw new EngineFault(status, calls.view.getUint32(calls.places.fault + 4, true));
      }
      return new Assembly(calls, slot);
    }

    open(assembly, config) {
      return this.opened(slot => this.calls.exports.mos65_open(slot, this.calls.config(config),
        assembly.slot));
    }

    openBytes(address, bytes, config) {
      const { calls } = this;
      const words = [calls.config(config), address, ...calls.given.put(bytes)];
      return this.opened(slot => calls.exports.mos65_open_bytes(slot, ...words));
    }

    opened(call) {
      const slot = this.calls.newSlot();
      const status = call(slot);
      if (status !== 0) {
        this.calls.giveSlot(slot);
        throw new EngineFault(status);
      }
      return new Machine(this.calls, slot);
    }
  }

  class Assembly {
    constructor(calls, slot) {
      this.calls = calls;
      this.slot = slot;
    }

    names() {
      const { calls, slot } = this, found = [];
      check(calls.exports.mos65_symbol_count(slot, calls.pointers.count));
      const total = calls.count();
      for (let index = 0; index < total; index++) {
        check(calls.exports.mos65_symbol_at(slot, BigInt(index), calls.out.reserve(BYTES_OF_A_NAME),
          BigInt(BYTES_OF_A_NAME), calls.pointers.count, calls.pointers.value));
        found.push({ name: textOf(calls.out.copy(calls.count())),
          value: calls.view.getInt32(calls.places.value, true) });
      }
      return found;
    }

    lines() {
      const { calls, slot } = this, found = [];
      check(calls.exports.mos65_line_count(slot, calls.pointers.count));
      const total = calls.count();
      for (let index = 0; index < total; index++) {
        check(calls.exports.mos65_line(slot, BigInt(index), calls.pointers.line,
          calls.out.reserve(BYTES_OF_A_LINE), BigInt(BYTES_OF_A_LINE), calls.pointers.count));
        found.push(this.line());
      }
      return found;
    }

    line() {
      const { calls } = this, view = calls.view, at = calls.places.line;
      return {
        number: view.getUint32(at, true),
        address: view.getUint32(at + 4, true),
        count: view.getUint32(at + 8, true),
        isInstruction: view.getUint8(at + 12) !== 0,
        text: textOf(calls.out.copy(calls.count())),
      };
    }

    /* The paper tape of the image, in the format of MOS Technology. */
    tape() {
      const { calls, slot } = this;
      return textOf(calls.whole((...out) => calls.exports.mos65_tape(slot, ...out)));
    }

    listing() {
      const { calls, slot } = this;
      return textOf(calls.whole((...out) => calls.exports.mos65_listing(slot, ...out)));
    }

    close() {
      check(this.calls.exports.mos65_assembly_close(this.slot));
      this.calls.giveSlot(this.slot);
      this.slot = this.calls.closedSlot;
    }
  }

  class Machine {
    constructor(calls, slot) {
      this.calls = calls;
      this.slot = slot;
    }

    /* Makes a call of the machine, which throws where it is refused. */
    call(name, ...words) {
      check(this.calls.exports[`mos65_${name}`](this.slot, ...words));
    }

    step() { this.call("step"); }
    reset() { this.call("reset"); }
    irq(level) { this.call("irq", level ? 1 : 0); }
    nmi() { this.call("nmi"); }
    input(byte) { this.call("input", byte); }
    set(register, value) { this.call("set", REGISTERS.indexOf(register), value); }
    patch(address, bytes) { this.call("patch", address, ...this.calls.given.put(bytes)); }

    setBreak(address) { this.call("break", address); }
    clearBreak(address) { this.call("unbreak", address); }
    setWatch(address) { this.call("watch", address); }
    clearWatch(address) { this.call("unwatch", address); }

    run(limit) {
      this.call("run", limit, this.calls.pointers.ending);
      return this.calls.ending();
    }

    runTo(address, limit) {
      this.call("run_to", address, limit, this.calls.pointers.ending);
      return this.calls.ending();
    }

    runToAccess(marks, limit) {
      this.call("run_to_access", ...this.calls.given.put(marks), limit, this.calls.pointers.ending);
      return this.calls.ending();
    }

    /* The machine's state as the data of a page begin. */
    recordStart() {
      const { calls, slot } = this;
      return calls.whole((...out) => calls.exports.mos65_record_start(slot, ...out));
    }

    /* Runs, and returns the records of its steps too. */
    recordRun(limit) {
      const { calls } = this, room = limit * BYTES_OF_A_STEP;
      this.call("record_run", limit, calls.pointers.ending, calls.out.reserve(room), BigInt(room),
        calls.pointers.count);
      return { ending: calls.ending(), records: calls.out.copy(calls.count()) };
    }

    back(count) { this.call("back", count); }

    held() {
      this.call("held", this.calls.pointers.count);
      return this.calls.view.getUint32(this.calls.places.count, true);
    }

    registers() {
      const { calls } = this, at = calls.places.registers;
      this.call("registers", calls.pointers.registers);
      const view = calls.view, found = { cycles: Number(view.getBigUint64(at, true)) };
      found.pc = view.getUint16(at + 8, true);
      ["a", "x", "y", "s", "p"].forEach((name, k) => { found[name] = view.getUint8(at + 10 + k); });
      return found;
    }

    read(address, count) {
      this.call("read", address, this.calls.out.reserve(count), BigInt(count));
      return this.calls.out.copy(count);
    }

    outputLength() {
      this.call("output_length", this.calls.pointers.count);
      return this.calls.view.getUint32(this.calls.places.count, true);
    }

    /* The console's output from an index on. */
    output(from) {
      const count = Math.max(this.outputLength() - from, 0);
      this.call("output", from, this.calls.out.reserve(count), BigInt(count));
      return this.calls.out.copy(count);
    }

    /* What the instruction at PC reads and stores. */
    access() {
      const { calls } = this, at = calls.places.access;
      this.call("access", calls.pointers.access);
      const view = calls.view;
      return {
        read: view.getUint16(at, true),
        store: view.getUint16(at + 2, true),
        reads: view.getUint8(at + 4) !== 0,
        stores: view.getUint8(at + 5) !== 0,
        pushes: view.getUint8(at + 6),
      };
    }

    disassemble(address) {
      const { calls } = this;
      this.call("disassemble", address, calls.out.reserve(BYTES_OF_A_ROW), BigInt(BYTES_OF_A_ROW),
        calls.pointers.count);
      const row = calls.out.copy(BYTES_OF_A_ROW);
      return { text: textOf(row.subarray(0, row.indexOf(0))),
        count: calls.view.getUint32(calls.places.count, true) };
    }

    close() {
      this.call("close");
      this.calls.giveSlot(this.slot);
      this.slot = this.calls.closedSlot;
    }
  }

  /* Opens the module, with 32-bit or 64-bit addresses. Where the browser has no WebAssembly that
   * takes it, the error's `isOld` is true. */
  async function openEngine(moduleBytes) {
    if (typeof WebAssembly === "undefined" || !WebAssembly.validate(moduleBytes)) {
      throw Object.assign(new Error("WebAssembly does not take the module"), { isOld: true });
    }
    const heap = new EngineHeap();
    const { instance } = await WebAssembly.instantiate(moduleBytes, { heap: heap.imports });
    heap.start(instance.exports);
    return new Engine(instance.exports, heap);
  }

  return { openEngine, EngineFault };
})();

if (typeof module !== "undefined") module.exports = { openEngine, EngineFault };
