"""The flags that an instruction may change, found by running each of its forms from many states."""

import random

import machine
import store
import table

RUNS = 48                           # a flag that may change does in 1 of 8 runs or more


def state_before(dice, memory, row):
    pc = dice.randrange(0x0200, 0xFF00)
    flags = {name: dice.random() < 0.5 for name in "nvdizc"}
    registers = {name: dice.randrange(256) for name in "axys"}
    return machine.ZERO._replace(pc=pc, mem=store.put(memory, pc, row.opcode), **registers, **flags)


def changed(profile, mnemonic):
    """The letters of the flags that were others behind a run, in the order N V D I Z C."""
    dice = random.Random(f"{profile} {mnemonic}")
    memory = tuple(tuple(dice.randbytes(256) for _ in range(16)) for _ in range(16))
    spec, seen = machine.MapSpec(None, profile=profile), set()
    for row in table.ROWS[profile]:
        if row.mnemonic == mnemonic:
            for _ in range(RUNS):
                before = state_before(dice, memory, row)
                after, refused = machine.step(spec, before)
                assert refused is None
                seen |= {name for name in "nvdizc" if getattr(before, name) != getattr(after, name)}
    return [name.upper() for name in "nvdizc" if name in seen]
