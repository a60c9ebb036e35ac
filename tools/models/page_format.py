"""What a page holds of a run, as bytes: a second writer and a second decoder beside those of
`page_data`, from the words of `crates/page_data/specs/Format.antt` alone. The tools and tests use
it; a page itself is written by the program."""

SIGNALS = ("out", "takes", "control", "irq", "nmi", "given", "entry")


def word(n):
    return bytes((n % 256, n // 256))


def counted(data):
    return len(data).to_bytes(8, "little") + bytes(data)


def begin(memory, regs, pc, cycles, flags=0, taken=0, out=b"", given=b""):
    """The bytes of the state at the start. `regs` are A, X, Y, S and P."""
    data = bytearray()
    for page in range(0, 65536, 256):
        cells = bytes(memory[page:page + 256])
        data += b"\1" + cells if any(cells) else b"\0"
    data += bytes(regs) + word(pc) + cycles.to_bytes(8, "little") + bytes((flags,))
    return bytes(data + taken.to_bytes(8, "little") + counted(out) + counted(given))


def record(change):
    """The record of a change: a dict with `cycles`, `regs` (old XOR new of A, X, Y, S, P), `pc`,
    `reads`, `stores` (address, XOR), `out` (a byte or None), `given`, and the other signals."""
    signals = sum(bool(change.get(name)) << bit for bit, name in enumerate(SIGNALS))
    signals = signals & ~1 | (change.get("out") is not None)
    eight = bytes(change["regs"]) + word(change["pc"]) + bytes((signals,))
    data = bytearray((change["cycles"] | len(change["reads"]) << 4 | len(change["stores"]) << 6,
                      sum(bool(b) << bit for bit, b in enumerate(eight))))
    data += bytes(b for b in eight if b)
    for address in change["reads"]:
        data += word(address)
    for address, xor in change["stores"]:
        data += word(address) + bytes((xor,))
    if change.get("out") is not None:
        data.append(change["out"])
    if change.get("given"):
        data += counted(change["given"])
    return bytes(data)


class Reader:
    def __init__(self, data):
        self.data, self.at = data, 0

    def take(self, count):
        self.at += count
        assert self.at <= len(self.data), "the data end in a record"
        return self.data[self.at - count:self.at]

    def byte(self):
        return self.take(1)[0]

    def word(self):
        return int.from_bytes(self.take(2), "little")

    def counted(self):
        return self.take(int.from_bytes(self.take(8), "little"))

    def change(self):
        first, marks = self.byte(), self.byte()
        eight = [self.byte() if marks >> bit & 1 else 0 for bit in range(8)]
        reads = [self.word() for _ in range(first >> 4 & 3)]
        stores = [(self.word(), self.byte()) for _ in range(first >> 6)]
        signals = {name: bool(eight[7] >> bit & 1) for bit, name in enumerate(SIGNALS)}
        out = self.byte() if signals["out"] else None
        given = self.counted() if signals["given"] else b""
        return dict(signals, cycles=first & 15, regs=eight[:5], pc=eight[5] | eight[6] << 8,
                    reads=reads, stores=stores, out=out, given=given)


class View:
    """What a page shows of a state, changed in place by `forth` and `back`."""

    def __init__(self, reader):
        self.memory = bytearray()
        for _ in range(256):
            self.memory += reader.take(256) if reader.byte() else bytes(256)
        self.regs = list(reader.take(5))
        self.pc = reader.word()
        self.cycles = int.from_bytes(reader.take(8), "little")
        flags = reader.byte()
        self.control, self.irq, self.nmi = flags >> 2 & 1, flags >> 3 & 1, flags >> 4 & 1
        self.taken = int.from_bytes(reader.take(8), "little")
        self.out = bytearray(reader.counted())
        self.given = bytearray(reader.counted())

    def flip(self, change):
        self.regs = [old ^ xor for old, xor in zip(self.regs, change["regs"])]
        self.pc ^= change["pc"]
        for address, xor in change["stores"]:
            self.memory[address] ^= xor
        self.control ^= change["control"]
        self.irq ^= change["irq"]
        self.nmi ^= change["nmi"]

    def forth(self, change):
        self.flip(change)
        self.cycles += change["cycles"]
        self.taken += change["takes"]
        self.given += change["given"]
        if change["out"] is not None:
            self.out.append(change["out"])

    def back(self, change):
        self.flip(change)
        self.cycles -= change["cycles"]
        self.taken -= change["takes"]
        del self.given[len(self.given) - len(change["given"]):]
        if change["out"] is not None:
            del self.out[-1]

    def state(self):
        return (*self.regs, self.pc, self.cycles, bytes(self.given), self.taken, bytes(self.out),
                self.control, bool(self.irq), bool(self.nmi))


def decode(data):
    """The view at the start, and all changes."""
    reader = Reader(data)
    view, changes = View(reader), []
    while reader.at < len(data):
        changes.append(reader.change())
    return view, changes
